//! Times and instruction counts of the proved calls and the linear ones, as tables in Markdown.
//! Without an option: times. `--instructions`: counts. `--markdown`: both.

use bench::calls::{compare, Call, Lent, Side, CALLS, COUNTED, SIDES};
use bench::days::{day, Day, Shape, SHAPES, SIZES};
use std::hint::black_box;
use std::path::Path;
use std::process::Command;
use std::time::Instant;

/// The records of the different days of each shape and size, taken together: small days are as
/// many as large ones are long, so that the machine cannot learn them by heart.
const RECORDS: usize = 19_200;
/// All cases are measured in turn this often, so that a busy time of the machine hits all alike.
const PASSES: usize = 10;
/// How often, in each pass, each call is made on each day.
const ROUNDS: usize = 20;

/// One figure a record for each shape, size, call and side.
type Figures = [[[[f64; 2]; CALLS.len()]; SIZES.len()]; SHAPES.len()];

fn main() {
    let option = std::env::args().nth(1);
    match option.as_deref() {
        None => print(Some(&times()), None),
        Some("--instructions") => print(None, Some(&instructions())),
        Some("--markdown") => print(Some(&times()), Some(&instructions())),
        Some("--once") => make_once(),
        Some(other) => {
            eprintln!("bench: no such option: {other}");
            std::process::exit(2);
        }
    }
}

/// One figure for each case, in the order of the shapes, sizes, calls and sides.
fn for_each_case(mut figures: impl FnMut(Shape, usize) -> [[f64; 2]; CALLS.len()]) -> Figures {
    SHAPES.map(|shape| SIZES.map(|records| figures(shape, records)))
}

/// The days of one shape and size, with the shortest time of each call, side and day.
struct Case {
    days: Vec<Day>,
    times: [[Vec<f64>; 2]; CALLS.len()],
}

impl Case {
    fn new(shape: Shape, records: usize) -> Case {
        let count = RECORDS / records;
        let seeds = 0..count as u64;
        let days: Vec<Day> = seeds.map(|seed| day(shape, records, seed)).collect();
        days.iter().for_each(compare);
        let times = || [(); 2].map(|()| vec![f64::INFINITY; count]);
        Case {
            days,
            times: CALLS.map(|_| times()),
        }
    }

    fn measure(&mut self) {
        let mut lent = Lent::new(self.days[0].journal.len());
        for round in 0..ROUNDS {
            for (times, call) in self.times.iter_mut().zip(CALLS) {
                for (d, day) in self.days.iter().enumerate() {
                    // The sides take turns in going first.
                    for s in [round % 2, 1 - round % 2] {
                        let time = time(&mut lent, call, SIDES[s], day);
                        times[s][d] = times[s][d].min(time);
                    }
                }
            }
        }
    }

    /// Nanoseconds a record.
    fn figures(&self) -> [[f64; 2]; CALLS.len()] {
        let mean = |times: &Vec<f64>| times.iter().sum::<f64>() / RECORDS as f64;
        self.times
            .each_ref()
            .map(|sides| sides.each_ref().map(mean))
    }
}

fn times() -> Figures {
    let mut cases = SHAPES.map(|shape| SIZES.map(|records| Case::new(shape, records)));
    for _ in 0..PASSES {
        cases.iter_mut().flatten().for_each(Case::measure);
    }
    cases
        .each_ref()
        .map(|sizes| sizes.each_ref().map(Case::figures))
}

/// Nanoseconds of one call, without restoring its loans.
fn time(lent: &mut Lent, call: Call, side: Side, day: &Day) -> f64 {
    lent.restore(call, day);
    let start = Instant::now();
    let answer = lent.make(call, side, black_box(day));
    let time = start.elapsed();
    assert!(black_box(answer).is_ok());
    time.as_nanos() as f64
}

/// Each call once, to be counted.
fn make_once() {
    for_each_case(|shape, records| {
        let day = day(shape, records, 0);
        let mut lent = Lent::new(day.journal.len());
        CALLS.map(|call| {
            SIDES.map(|side| {
                lent.restore(call, &day);
                assert!(lent.make(call, side, &day).is_ok());
                call_made();
                0.0
            })
        })
    });
}

/// Has callgrind write what it has counted.
#[no_mangle]
#[inline(never)]
fn call_made() {
    black_box(());
}

/// Instructions a record, by callgrind: a run of `--once` that writes a file after each call. Only
/// what happens in the functions of the two sides is counted.
fn instructions() -> Figures {
    let folder = std::env::temp_dir().join(format!("callgrind-{}", std::process::id()));
    std::fs::create_dir(&folder).unwrap();
    let mut valgrind = Command::new("valgrind");
    // By default memset clears with an instruction that is counted once for each byte.
    let tunables = "glibc.cpu.x86_rep_stosb_threshold=1000000";
    valgrind.env("GLIBC_TUNABLES", tunables);
    valgrind.args(["--quiet", "--tool=callgrind"]);
    let out = folder.join("out");
    valgrind.arg(format!("--callgrind-out-file={}", out.display()));
    valgrind.args(COUNTED.map(|function| format!("--toggle-collect={function}")));
    valgrind.arg("--dump-after=call_made");
    let status = valgrind
        .arg(std::env::current_exe().unwrap())
        .arg("--once")
        .status()
        .expect("valgrind is not installed");
    assert!(status.success());
    let mut dump = 0;
    let figures = for_each_case(|_, records| {
        CALLS.map(|_| {
            SIDES.map(|_| {
                dump += 1;
                total(&folder.join(format!("out.{dump}"))) / records as f64
            })
        })
    });
    std::fs::remove_dir_all(&folder).unwrap();
    figures
}

/// The instructions that a file of callgrind counts.
fn total(file: &Path) -> f64 {
    let text = std::fs::read_to_string(file).unwrap();
    let totals = text.lines().find_map(|line| line.strip_prefix("totals: "));
    totals.unwrap().trim().parse().unwrap()
}

/// A unit and its figures.
type Part<'a> = (&'static str, &'a Figures);

/// The bar, the growth, then the tables of each shape.
fn print(times: Option<&Figures>, instructions: Option<&Figures>) {
    let mut parts: Vec<Part> = Vec::new();
    parts.extend(times.map(|figures| ("ns", figures)));
    parts.extend(instructions.map(|figures| ("instr.", figures)));
    print_highest(&parts);
    print_growth(&parts);
    for s in 0..SHAPES.len() {
        print_shape(&parts, s);
    }
}

/// The highest ratio of each call at the largest size.
fn print_highest(parts: &[Part]) {
    let largest = SIZES.len() - 1;
    println!("\n### Highest ratio at {} records\n", SIZES[largest]);
    print_head("call", parts, &["proved / linear,"]);
    for (c, call) in CALLS.into_iter().enumerate() {
        print!("| {} |", call.name());
        for (_, figures) in parts {
            let ratios = figures.iter().map(|sizes| ratio(sizes[largest][c]));
            print!(" {:.2} |", ratios.fold(0.0, f64::max));
        }
        println!();
    }
}

/// The cost of a record at the largest size over that at the smallest.
fn print_growth(parts: &[Part]) {
    let largest = SIZES.len() - 1;
    println!(
        "\n### Growth: a record at {} records over one at {}\n",
        SIZES[largest], SIZES[0]
    );
    print_head("call | day", parts, &["proved,", "linear,"]);
    for (c, call) in CALLS.into_iter().enumerate() {
        for (s, shape) in SHAPES.into_iter().enumerate() {
            print!("| {} | {} |", call.name(), shape.name());
            for (_, figures) in parts {
                for (large, small) in figures[s][largest][c].iter().zip(figures[s][0][c]) {
                    print!(" {:.2} |", large / small);
                }
            }
            println!();
        }
    }
}

fn print_shape(parts: &[Part], s: usize) {
    println!("\n### {}\n", SHAPES[s].name());
    print_head("call | records", parts, &["proved,", "linear,", "ratio,"]);
    for (c, call) in CALLS.into_iter().enumerate() {
        for (n, records) in SIZES.into_iter().enumerate() {
            print!("| {} | {records} |", call.name());
            for (_, figures) in parts {
                let [proved, linear] = figures[s][n][c];
                let ratio = ratio([proved, linear]);
                print!(" {proved:.1} | {linear:.1} | {ratio:.2} |");
            }
            println!();
        }
    }
}

fn ratio([proved, linear]: [f64; 2]) -> f64 {
    proved / linear
}

/// The first two lines of a table: names, then some columns for each part.
fn print_head(names: &str, parts: &[Part], columns: &[&str]) {
    print!("| {names} |");
    for (unit, _) in parts {
        for column in columns {
            print!(" {column} {unit} |");
        }
    }
    let names = "---|".repeat(names.split('|').count());
    let figures = "---:|".repeat(parts.len() * columns.len());
    println!("\n|{names}{figures}");
}
