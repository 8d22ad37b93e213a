//! A day as a picture, and the layers of the crates. `day` gathers what is drawn: the proved library says which sales go, the plain
//! implementation which write feeds each read. `panel` gives each record and sale its place, `svg` draws them.

/// Adds a line to a picture. Writing to a string does not fail.
macro_rules! put {
    ($svg:expr, $($text:tt)*) => {
        writeln!($svg, $($text)*).unwrap()
    };
}

mod day;
mod layers;
mod panel;
mod svg;

pub use day::{Day, Fate, Sale};
pub use layers::layers;

/// The picture of the day of these three files, as SVG.
pub fn picture(journal: &[u8], table: &[u8], bad: &[u8]) -> String {
    svg::draw(&Day::new(journal, table, bad))
}
