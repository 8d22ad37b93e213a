//! The proved library as Rust sees it: `calls` has the functions of its C interface over slices,
//! `Proved` lends each of them guarded buffers.

pub mod calls;
mod guarded;
mod proved;

pub use proved::Proved;
