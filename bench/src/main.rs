//! The library through its C boundary, timed against the same pass in plain optimised Rust and against the source module.
//!
//!     cargo run --release -- table [--turns N]           a row for each family and job, as ratios
//!     cargo run --release -- plot FILE.svg [--turns N]   time against records, from 16 to 2,048
//!     cargo run --release -- calls FAMILY liveness|rewriting   the library alone, 2,000 calls, for a profiler
//!
//! Before anything is timed the contenders' answers are compared, on these files and on damaged copies of them.

mod families;
mod plain;
mod plot;
mod rows;
mod same;
mod timing;

use std::time::Duration;
use timing::Effort;

fn main() {
    let words: Vec<String> = std::env::args().skip(1).collect();
    let turns = match words.iter().position(|word| word == "--turns") {
        Some(place) => words.get(place + 1).and_then(|word| word.parse().ok()).unwrap_or_else(|| usage()),
        None => 101,
    };
    let effort = Effort { turns, turn: Duration::from_micros(500) };
    match words.first().map(String::as_str) {
        Some("table") => {
            same::compare();
            print!("{}", rows::table(effort));
        }
        Some("plot") => {
            same::compare();
            let path = words.get(1).unwrap_or_else(|| usage());
            std::fs::write(path, plot::svg(&rows::by_records(effort))).expect("the plot can be written");
        }
        Some("calls") => match &words[1..] {
            [family, job] => rows::calls(family, job),
            _ => usage(),
        },
        _ => usage(),
    }
}

fn usage() -> ! {
    eprintln!("bench table [--turns N] | plot FILE.svg [--turns N] | calls FAMILY liveness|rewriting");
    std::process::exit(2)
}
