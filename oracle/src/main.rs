//! The oracle's commands: compare, sheets, fixed, runs, library, guarded, program.

use oracle::compare::{Met, against_module, batch};
use oracle::decision::Decision;
use oracle::fixed;
use oracle::record::parse;
use oracle::runs;
use oracle::services::Services;
use oracle::sheets::{SHEETS, decided, from_module};
use oracle::source;
use std::fs;
use std::process::ExitCode;
use std::time::Instant;

const USAGE: &str = "\
oracle compare [--files N] [--seed S]   the source module against the plain decision on N generated files
oracle sheets                           both on document 01's sheets P1 to P11
oracle fixed --write | --check          makes the fixed list, or makes it again, compares and replays it
oracle runs [--files N] [--seed S]      the two runs of demand 3 on N dominated files, and that wrong outputs are seen
oracle library [--files N] [--seed S]   the library written in Rattle: replays the fixed list, compares its whole answers with
                                        the plain decision's on N generated files, and runs N dominated files beside
                                        what it makes of them (feature `library`)
oracle guarded [--files N] [--seed S]   the same services between guard pages, with all lent lengths around each boundary, on N
                                        generated files (feature `library`)
oracle program PATH [--files N] [--seed S]   the program at PATH: the sheets, the boundaries, the fixed list's files and N
                                        generated ones on its standard input, with a small stack, and the list's own lines";

/// Where the list stands, from the package's folder or from the repository's.
const LISTS: [&str; 2] = ["fixed/answers.txt", "oracle/fixed/answers.txt"];

fn main() -> ExitCode {
    let arguments: Vec<String> = std::env::args().skip(1).collect();
    let arguments: Vec<&str> = arguments.iter().map(String::as_str).collect();
    let good = match arguments.as_slice() {
        _ if !source::WITNESSED => Err("built without the feature `witness`: good for timing only".to_string()),
        ["compare", options @ ..] => compare(options),
        ["sheets"] => sheets(),
        ["fixed", "--write"] => write_fixed(),
        ["fixed", "--check"] => check_fixed(),
        ["runs", options @ ..] => two_runs(&mut Decision::default(), options),
        #[cfg(feature = "library")]
        ["library", options @ ..] => library(options),
        #[cfg(feature = "library")]
        ["guarded", options @ ..] => guarded(options),
        ["program", path, options @ ..] => program(path, options),
        _ => Err(USAGE.to_string()),
    };
    match good {
        Ok(()) => ExitCode::SUCCESS,
        Err(words) => {
            eprintln!("{words}");
            ExitCode::FAILURE
        }
    }
}

/// How many files, and the seed.
fn files_and_seed(options: &[&str]) -> Result<(u64, u64), String> {
    let (mut files, mut seed) = (10_000, 1);
    for option in options.chunks(2) {
        match *option {
            ["--files", number] => files = number.parse().map_err(|_| USAGE)?,
            ["--seed", number] => seed = number.parse().map_err(|_| USAGE)?,
            _ => return Err(USAGE.to_string()),
        }
    }
    Ok((files, seed))
}

fn compare(options: &[&str]) -> Result<(), String> {
    let (files, seed) = files_and_seed(options)?;
    match (source::PRESENT, cfg!(debug_assertions)) {
        (false, _) => println!("{}", source::SKIPPED),
        (true, true) => println!("the source module is there, its debug assertions are on"),
        (true, false) => println!("the source module is there, its debug assertions are off"),
    }
    let start = Instant::now();
    let tally = batch(seed, files);
    let seconds = start.elapsed().as_secs_f64();
    print!("{tally}");
    let accepted = tally.accepted();
    println!(
        "{files} files of seed {seed} in {seconds:.1} s; {:.0} accepted files a minute",
        accepted as f64 / seconds * 60.0
    );
    tally.differences.iter().take(20).for_each(|difference| println!("{difference}"));
    match tally.differences.len() {
        0 if source::PRESENT => println!("no difference but the landing's cold word, as listed in docs/DIFFERENCES.md"),
        0 => println!("decided without a comparison"),
        count => return Err(format!("{count} differences")),
    }
    Ok(())
}

/// Any party's rewriting, by the two runs of demand 3.
fn two_runs(party: &mut dyn Services, options: &[&str]) -> Result<(), String> {
    let (files, seed) = files_and_seed(options)?;
    let start = Instant::now();
    for line in runs::wrong::wrong_outputs_are_seen(party)? {
        println!("{line}");
    }
    println!("{}", runs::wrong::domination_is_needed(party)?);
    let tally = runs::batch(party, seed, files);
    let seconds = start.elapsed().as_secs_f64();
    print!("{tally}");
    println!("{files} dominated files of seed {seed} in {seconds:.1} s");
    tally.differences.iter().take(20).for_each(|difference| println!("{difference}"));
    match (tally.differences.len(), tally.too_weak()) {
        (0, None) => println!("the runs are the same in all of them"),
        (0, Some(spoil)) => return Err(format!("{spoil:?} was seen too seldom: the comparison is too weak")),
        (count, _) => return Err(format!("{count} files run otherwise when rewritten")),
    }
    Ok(())
}

#[cfg(feature = "library")]
fn library(options: &[&str]) -> Result<(), String> {
    use oracle::compare::{refusals_batch, services_batch, whole_answers};
    use oracle::fixed::replay_refusals;
    use oracle::library::{Library, check};
    let path = list_path()?;
    let list = fs::read_to_string(path).map_err(|error| format!("{path}: {error}"))?;
    let (refused, let_pass) = replay_refusals(&list, check)?;
    println!("{path}: {refused} lines with a refusal of 2 to 8 and {let_pass} without, replayed");
    println!("{path}: {:?}, replayed", fixed::replay(&list, &mut Library)?);
    let (files, seed) = files_and_seed(options)?;
    let start = Instant::now();
    let met = refusals_batch(check, seed, files);
    print!("{met}");
    let mut differences = met.differences;
    differences.extend(services_batch(whole_answers, &mut Library, seed, files));
    let seconds = start.elapsed().as_secs_f64();
    println!(
        "the library's checks and four services on {files} files of seed {seed}, {seconds:.1} s with the decision's"
    );
    differences.iter().take(20).for_each(|difference| println!("{difference}"));
    match differences.len() {
        0 => two_runs(&mut Library, options),
        count => Err(format!("{count} differences")),
    }
}

/// The library's services, every buffer between guard pages.
#[cfg(feature = "library")]
fn guarded(options: &[&str]) -> Result<(), String> {
    use oracle::compare::{every_length, refusals_batch, services_batch};
    use oracle::guarded::{Guarded, shown};
    use oracle::library::{Library, any_numbers, check};
    let (files, seed) = files_and_seed(options)?;
    let start = Instant::now();
    let met = refusals_batch(|file| shown(file, check), seed, files);
    print!("{met}");
    let mut differences = met.differences;
    differences.extend(services_batch(every_length, &mut Guarded::new(Library), seed, files));
    differences.extend(any_numbers(seed, files).err());
    let seconds = start.elapsed().as_secs_f64();
    println!("the library between guard pages on {files} files of seed {seed}, {seconds:.1} s with the decision's");
    differences.iter().take(20).for_each(|difference| println!("{difference}"));
    match differences.len() {
        0 => println!("no answer and no buffer differs, and nothing outside a buffer was touched"),
        count => return Err(format!("{count} differences")),
    }
    Ok(())
}

/// The program from outside.
fn program(path: &str, options: &[&str]) -> Result<(), String> {
    let (files, seed) = files_and_seed(options)?;
    let start = Instant::now();
    let asked = oracle::program::ask(path, files, seed)?;
    println!("{path}: {asked} files, each written as decided, in {:.1} s", start.elapsed().as_secs_f64());
    let list = fs::read_to_string(list_path()?).map_err(|error| error.to_string())?;
    let replayed = fixed::replay_program(&list, |file| oracle::program::run(path, file))?;
    println!("{path}: {replayed} lines of the fixed list replayed");
    Ok(())
}

fn sheets() -> Result<(), String> {
    let mut failed = Vec::new();
    for sheet in &SHEETS {
        let file = parse(sheet.file);
        let by_decision = (sheet.holds)(&decided(&file));
        let by_module = from_module(&file).map(|facts| (sheet.holds)(&facts));
        let module = match by_module {
            Some(true) => "holds",
            Some(false) => "FAILS",
            None => "not run",
        };
        let decision = if by_decision { "holds" } else { "FAILS" };
        println!("{:22} decision {decision}   module {module:8} {}", sheet.name, sheet.says);
        if !by_decision || by_module == Some(false) {
            failed.push(sheet.name);
        }
    }
    if !source::PRESENT {
        println!("{}", source::SKIPPED);
    }
    if failed.is_empty() { Ok(()) } else { Err(format!("failed: {}", failed.join(", "))) }
}

fn list_path() -> Result<&'static str, String> {
    let stands = |path: &&str| fs::metadata(path.trim_end_matches("answers.txt")).is_ok();
    LISTS.into_iter().find(stands).ok_or_else(|| "run this in the repository or in oracle/".to_string())
}

/// Every file of the list once more by the module, so that the list is its answer too.
fn fixed_against_module() -> Result<(), String> {
    let (mut decision, mut module) = (Decision::default(), source::Module::default());
    let mut ran = 0;
    for case in fixed::cases() {
        for pointer_size in [8, 4] {
            let met = against_module(&mut decision, &mut module, &case.file, pointer_size)
                .map_err(|difference| format!("{}: {difference}", case.note))?;
            ran += u64::from(!matches!(met, Met::Refused(_) | Met::Skipped));
        }
    }
    match source::PRESENT {
        true => println!("the source module says the same: {ran} runs, two for each file that it can run"),
        false => println!("{}", source::SKIPPED),
    }
    Ok(())
}

fn write_fixed() -> Result<(), String> {
    let path = list_path()?;
    fixed_against_module()?;
    let list = fixed::write();
    println!("{path}: {} files, {} bytes", fixed::cases().len(), list.len());
    fs::write(path, list).map_err(|error| format!("{path}: {error}"))
}

fn check_fixed() -> Result<(), String> {
    let path = list_path()?;
    let list = fs::read_to_string(path).map_err(|error| format!("{path}: {error}"))?;
    let replayed = fixed::replay(&list, &mut Decision::default())?;
    println!("replayed: {replayed:?}");
    fixed_against_module()?;
    if fixed::write() != list {
        return Err(format!("{path} made again is not the same bytes"));
    }
    println!("{path} made again is the same bytes");
    Ok(())
}
