//! The program from outside: files on its standard input, what it writes held against the decision's.

use crate::decision::{Decision, program as written};
use crate::fixed;
use crate::generate::file;
use crate::record::{RECORD_BYTES, Record, bytes, kind, largest, parse};
use crate::services::Services;
use crate::sheets::SHEETS;
use std::io::Write;
use std::process::{Command, Stdio};

/// The largest input of the program, and its output, in bytes.
const INPUT: usize = 32_768;
const OUTPUT: usize = 65_536;

/// What is asked, by a name.
struct Asked {
    name: String,
    file: Vec<u8>,
}

fn asked(name: impl Into<String>, file: Vec<u8>) -> Asked {
    Asked { name: name.into(), file }
}

/// A file whose output has exactly so many records: one spilled value used many times, and plain instructions to fill.
fn with_output_of(decision: &mut Decision, count: u64) -> Vec<u8> {
    let mut list: Vec<Record> = parse("1 4 1 0; 2 0 0 0; 4 0 0 0; 5 0 0 0; 4 1 0 0");
    let end = list.len();
    list.push([kind::INSTRUCTION, 2, 0, 0]);
    let needed = |decision: &mut Decision, list: &[Record]| decision.rewrite(&bytes(list), 8, &mut []).records;
    while needed(decision, &[&list[..], &[[kind::ARGUMENT, 0, 0, 0]]].concat()) <= count {
        list.push([kind::ARGUMENT, 0, 0, 0]);
    }
    while needed(decision, &list) < count {
        list.insert(end, [kind::INSTRUCTION, 0, 0, 0]);
    }
    assert!(needed(decision, &list) == count && list.len() <= largest::RECORDS, "a file with an output of {count}");
    bytes(&list)
}

/// The sheets, the lengths around the largest input and output, the fixed list's files, and generated ones.
fn all(decision: &mut Decision, files: u64, seed: u64) -> Vec<Asked> {
    let mut all: Vec<Asked> = SHEETS.iter().map(|sheet| asked(sheet.name, bytes(&parse(sheet.file)))).collect();
    let records = (OUTPUT / RECORD_BYTES) as u64;
    all.push(asked("an output of exactly 4,096 records", with_output_of(decision, records)));
    all.push(asked("an output of 4,097 records", with_output_of(decision, records + 1)));
    all.push(asked("32,768 bytes of nothing known", vec![7; INPUT]));
    all.push(asked("32,769 bytes", vec![7; INPUT + 1]));
    all.push(asked("100,000 bytes", vec![0; 100_000]));
    all.extend(fixed::cases().into_iter().map(|case| asked(case.note, case.file)));
    all.extend((0..files).map(|number| asked(format!("file {number} of seed {seed}"), file(seed, number).bytes)));
    all
}

/// What the program writes for a file, with a stack of 1,024 kilobytes.
pub fn run(path: &str, file: &[u8]) -> Result<Vec<u8>, String> {
    let mut child = Command::new("sh")
        .args(["-c", "ulimit -s 1024 && exec \"$0\"", path])
        .stdin(Stdio::piped())
        .stdout(Stdio::piped())
        .spawn()
        .map_err(|error| format!("{path}: {error}"))?;
    let mut input = child.stdin.take().expect("standard input is piped");
    let file = file.to_vec();
    // A program that has read enough closes its input; what it has not read then is no fault.
    let writer = std::thread::spawn(move || drop(input.write_all(&file)));
    let output = child.wait_with_output().map_err(|error| format!("{path}: {error}"))?;
    writer.join().expect("the writer ends");
    if output.status.success() { Ok(output.stdout) } else { Err(format!("{path} ended with {}", output.status)) }
}

/// Runs the program on everything; says how many files it was asked, or the first that it answers otherwise.
pub fn ask(path: &str, files: u64, seed: u64) -> Result<usize, String> {
    let mut decision = Decision::default();
    let all = all(&mut decision, files, seed);
    for asked in &all {
        let (said, must) = (run(path, &asked.file)?, written(&asked.file));
        if said != must {
            return Err(format!("{}: {} bytes written, {} decided", asked.name, said.len(), must.len()));
        }
    }
    Ok(all.len())
}
