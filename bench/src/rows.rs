//! What is timed: the rows of the table, and the points of the plot.

use crate::families::FAMILIES;
use crate::plain::{self, Counting, Rest};
use crate::timing::{Contender, Effort, medians};
use oracle::library::Library;
use oracle::record::records;
use oracle::services::Services;
use oracle::source::{Module, PRESENT};
use std::fmt::Write;
use std::hint::black_box;

const TABLE: usize = 512;

/// What the program lends, in bytes.
const OUTPUT: usize = 65_536;

/// Times in microseconds; the module's is of its own run alone, without reading records and writing them.
pub struct Times {
    pub library: f64,
    pub plain: f64,
    /// The plain pass where it counts sets as the library does.
    pub counting: f64,
    pub module: Option<f64>,
}

fn liveness(file: &[u8], effort: Effort) -> Times {
    let (mut our_ins, mut our_outs, mut ins, mut outs) = ([0; TABLE], [0; TABLE], [0; TABLE], [0; TABLE]);
    let (mut more_ins, mut more_outs) = ([0; TABLE], [0; TABLE]);
    let mut library = || {
        black_box(Library.liveness(black_box(file), &mut our_ins, &mut our_outs));
    };
    let mut plain = || {
        black_box(plain::liveness(black_box(file), &mut ins, &mut outs, Counting::Not));
    };
    let mut counting = || {
        black_box(plain::liveness(black_box(file), &mut more_ins, &mut more_outs, Counting::BitByBit));
    };
    let mut contenders =
        [Contender::Called(&mut library), Contender::Called(&mut plain), Contender::Called(&mut counting)];
    let times = medians(effort, &mut contenders);
    Times { library: times[0], plain: times[1], counting: times[2], module: None }
}

fn rewriting(file: &[u8], lent: usize, rest: Rest, effort: Effort) -> Times {
    let (mut ours, mut theirs, mut more) = (vec![0; lent], vec![0; lent], vec![0; lent]);
    let mut library = || {
        black_box(Library.rewrite(black_box(file), 8, &mut ours));
    };
    let mut plain = || {
        black_box(plain::rewrite(black_box(file), 8, &mut theirs, rest, Counting::Not));
    };
    let mut counting = || {
        black_box(plain::rewrite(black_box(file), 8, &mut more, rest, Counting::BitByBit));
    };
    let (mut module, read) = (Module::default(), records(file));
    let mut module = || module.time(black_box(&read), 8).expect("the module is there");
    let mut contenders =
        vec![Contender::Called(&mut library), Contender::Called(&mut plain), Contender::Called(&mut counting)];
    if PRESENT {
        contenders.push(Contender::Timed(&mut module));
    }
    let times = medians(effort, &mut contenders);
    Times { library: times[0], plain: times[1], counting: times[2], module: times.get(3).copied() }
}

/// How many bytes the rewritten file needs.
fn needed(file: &[u8]) -> usize {
    Library.rewrite(file, 8, &mut []).records as usize * 16
}

/// The table of docs/PERFORMANCE.md: ratios to plain Rust, and what they are ratios of.
pub fn table(effort: Effort) -> String {
    let mut text = String::from(
        "| file | records in | job | library / plain Rust | library / plain Rust that counts bit by bit too | source module / plain Rust | plain Rust, µs |\n\
         |---|---|---|---|---|---|---|\n",
    );
    for (name, family) in FAMILIES {
        let file = family(2048);
        let (exact, whole) = (needed(&file), OUTPUT.max(needed(&file)));
        let jobs = [
            ("liveness", liveness(&file, effort)),
            ("rewriting, whole output cleared", rewriting(&file, whole, Rest::Cleared, effort)),
            ("rewriting, nothing to clear", rewriting(&file, exact, Rest::Left, effort)),
        ];
        for (job, times) in jobs {
            let module = times.module.map_or("".to_string(), |time| format!("{:.2}", time / times.plain));
            let (records, ratio, counted) =
                (file.len() / 16, times.library / times.plain, times.library / times.counting);
            writeln!(
                text,
                "| {name} | {records} | {job} | {ratio:.2} | {counted:.2} | {module} | {:.1} |",
                times.plain
            )
            .expect("a string takes what is written");
        }
    }
    text
}

/// The library alone, many times.
pub fn calls(family: &str, job: &str) {
    for (_, family) in FAMILIES.iter().filter(|(name, _)| *name == family) {
        let file = family(2048);
        let (mut ins, mut outs, mut output) = ([0; TABLE], [0; TABLE], vec![0; needed(&file)]);
        for _ in 0..2000 {
            if job == "liveness" {
                black_box(Library.liveness(black_box(&file), &mut ins, &mut outs));
            } else {
                black_box(Library.rewrite(black_box(&file), 8, &mut output));
            }
        }
    }
}

/// One family's job by the count of records.
pub struct Curve {
    pub name: String,
    pub points: Vec<(usize, Times)>,
}

pub fn by_records(effort: Effort) -> Vec<Curve> {
    let sizes = [16, 32, 64, 128, 256, 512, 1024, 2048];
    let curve = |name: String, time: &dyn Fn(&[u8]) -> Times, family: fn(usize) -> Vec<u8>| Curve {
        name,
        points: sizes.iter().map(|&size| family(size)).map(|file| (file.len() / 16, time(&file))).collect(),
    };
    FAMILIES
        .iter()
        .flat_map(|&(name, family)| {
            let exact = |file: &[u8]| rewriting(file, needed(file), Rest::Left, effort);
            [
                curve(format!("{name}: liveness"), &|file| liveness(file, effort), family),
                curve(format!("{name}: rewriting"), &exact, family),
            ]
        })
        .collect()
}
