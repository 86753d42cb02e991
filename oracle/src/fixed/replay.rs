//! Reads the fixed list and asks a party everything that stands in it.

use crate::decision::value_set::ROW_WORDS;
use crate::record::{RECORD_BYTES, Record, bytes};
use crate::services::{Buffer, ListAnswer, LivenessAnswer, Part, RewriteAnswer, Services};
use std::collections::BTreeMap;
use std::collections::btree_map::Entry;
use std::fmt::Debug;
use std::str::Lines;

/// What was asked.
#[derive(Debug, Default, PartialEq, Eq)]
pub struct Replayed {
    pub files: u64,
    pub liveness: u64,
    pub lists: u64,
    pub rewritings: u64,
    pub final_records: u64,
}

/// Replays the list; the first answer that differs ends it, with the file's number.
pub fn replay(list: &str, party: &mut dyn Services) -> Result<Replayed, String> {
    let mut reader = Reader { lines: list.lines(), next: None };
    let mut replay = Replay { party, file: Vec::new(), outputs: BTreeMap::new(), replayed: Replayed::default() };
    loop {
        let (letter, numbers) = reader.next().ok_or("the list has no end")?;
        let number = replay.replayed.files;
        let said = match letter {
            'N' => replay.file(&mut reader),
            'L' => {
                replay.replayed.liveness += 1;
                live_tables(replay.party, &replay.file, &numbers, &mut reader)
            }
            'Q' => {
                replay.replayed.lists += 1;
                list_of_one(replay.party, &replay.file, &numbers, &mut reader)
            }
            'W' => replay.rewriting(&numbers, &mut reader),
            'G' => replay.invented(&numbers),
            'P' => Ok(()),
            'E' if numbers == [number] => return Ok(replay.replayed),
            _ => Err(format!("a line {letter} {numbers:?} where none can stand")),
        };
        said.map_err(|words| format!("file {number}: {words}"))?;
    }
}

/// Replays every line that gives a refusal of 2 to 8, and every one that gives none of them, against what is said of the
/// file; answers how many of each.
pub fn replay_refusals(list: &str, check: impl Fn(&[u8]) -> u32) -> Result<(u64, u64), String> {
    let mut reader = Reader { lines: list.lines(), next: None };
    let (mut number, mut said, mut refused, mut let_pass) = (0, 0, 0, 0);
    while let Some((letter, numbers)) = reader.next() {
        let refusal = match letter {
            'N' => {
                number += 1;
                said = check(&file(&mut reader)?);
                continue;
            }
            'L' | 'Q' | 'W' => numbers[2],
            'P' => numbers[0],
            _ => continue,
        };
        match refusal {
            1 => continue,
            2..=8 => refused += 1,
            _ => let_pass += 1,
        }
        let listed = if (2..=8).contains(&refusal) { refusal as u32 } else { 0 };
        same(&format!("file {number}, line {letter}"), listed, said)?;
    }
    Ok((refused, let_pass))
}

/// Replays every line of the program against what it writes for the file: the refusal's line to the byte, or how many bytes the
/// final records are. Answers how many lines there are.
pub fn replay_program(list: &str, written: impl Fn(&[u8]) -> Result<Vec<u8>, String>) -> Result<u64, String> {
    let mut reader = Reader { lines: list.lines(), next: None };
    let (mut number, mut asked, mut replayed) = (0, Vec::new(), 0);
    while let Some((letter, numbers)) = reader.next() {
        match letter {
            'N' => {
                number += 1;
                asked = file(&mut reader)?;
            }
            'P' => {
                let ([refusal, length], wrote) = (exactly(&numbers)?, written(&asked)?);
                let line = format!("refused {refusal}\n").into_bytes();
                let is_line = wrote.starts_with(b"refused ");
                same(&format!("file {number}, whether line P is a refusal"), refusal != 0, is_line)?;
                same(
                    &format!("file {number}, line P"),
                    if is_line { line.len() as u64 } else { length },
                    wrote.len() as u64,
                )?;
                if is_line {
                    same(&format!("file {number}, the line that is written"), line, wrote)?;
                }
                replayed += 1;
            }
            'E' => return exactly(&numbers).and_then(|[files]| same("files", files, number)).map(|()| replayed),
            _ => continue,
        }
    }
    Err("the list has no end".to_string())
}

struct Reader<'a> {
    lines: Lines<'a>,
    next: Option<(char, Vec<u64>)>,
}

impl Reader<'_> {
    fn next(&mut self) -> Option<(char, Vec<u64>)> {
        if let Some(next) = self.next.take() {
            return Some(next);
        }
        let line = self.lines.find(|line| !line.starts_with('#'))?;
        let letter = line.chars().next()?;
        Some((letter, line[1..].split_whitespace().filter_map(|number| number.parse().ok()).collect()))
    }

    /// The next line's numbers where it has this letter; else the line stays.
    fn line(&mut self, letter: char) -> Option<Vec<u64>> {
        match self.next()? {
            (found, numbers) if found == letter => Some(numbers),
            other => {
                self.next = Some(other);
                None
            }
        }
    }

    fn records(&mut self, letter: char, count: usize) -> Result<Vec<Record>, String> {
        let mut records: Vec<Record> = Vec::new();
        while records.len() < count {
            let line = self.line(letter).ok_or_else(|| format!("a line {letter} is missing"))?;
            let [times, words @ ..] = &line[..] else { return Err("an empty line".to_string()) };
            let words: Vec<u32> = words.iter().map(|&word| word as u32).collect();
            let record: Record = words.try_into().map_err(|_| "a record has four words")?;
            records.extend(vec![record; *times as usize]);
        }
        Ok(records)
    }
}

fn same<T: PartialEq + Debug>(what: &str, listed: T, said: T) -> Result<(), String> {
    if listed == said { Ok(()) } else { Err(format!("{what}: listed {listed:?}, said {said:?}")) }
}

fn exactly<const N: usize>(numbers: &[u64]) -> Result<[u64; N], String> {
    numbers.try_into().map_err(|_| format!("{N} numbers wanted, {numbers:?} found"))
}

/// The file behind a line N.
fn file(reader: &mut Reader) -> Result<Vec<u8>, String> {
    let [length] = exactly(&reader.line('B').ok_or("line B is missing")?)?;
    let mut file = bytes(&reader.records('R', length as usize / RECORD_BYTES)?);
    if let Some(rest) = reader.line('X') {
        file.extend(rest.iter().map(|&byte| byte as u8));
    }
    same("length of the file", length as usize, file.len())?;
    Ok(file)
}

fn live_tables(party: &mut dyn Services, file: &[u8], numbers: &[u64], reader: &mut Reader) -> Result<(), String> {
    let [live_in, live_out, refusal, visits, pushes, ins, outs] = exactly(numbers)?;
    let mut listed = (vec![0; live_in as usize], vec![0; live_out as usize]);
    fill_rows(reader, 'I', ins, &mut listed.0)?;
    fill_rows(reader, 'O', outs, &mut listed.1)?;
    let mut lent = (vec![u64::MAX; live_in as usize], vec![u64::MAX; live_out as usize]);
    let said = party.liveness(file, &mut lent.0, &mut lent.1);
    same("liveness", LivenessAnswer { refusal: refusal as u32, visits, pushes }, said)?;
    same("live tables", listed, lent)
}

fn list_of_one(party: &mut dyn Services, file: &[u8], numbers: &[u64], reader: &mut Reader) -> Result<(), String> {
    let [instruction, lent, refusal, count] = exactly(numbers)?;
    let mut listed: Vec<u32> = vec![0; lent as usize];
    if refusal == 0 && count > 0 {
        let values = reader.line('V').ok_or("line V is missing")?;
        values.iter().enumerate().for_each(|(at, &value)| listed[at] = value as u32);
    }
    let mut lent = vec![u32::MAX; lent as usize];
    let said = party.list(file, instruction as u32, &mut lent);
    same(&format!("list of {instruction}"), ListAnswer { refusal: refusal as u32, count }, said)?;
    same("list", listed, lent)
}

struct Replay<'a> {
    party: &'a mut dyn Services,
    file: Vec<u8>,
    /// The file's output of each pointer size.
    outputs: BTreeMap<u64, Vec<u8>>,
    replayed: Replayed,
}

impl Replay<'_> {
    fn file(&mut self, reader: &mut Reader) -> Result<(), String> {
        self.file = file(reader)?;
        self.outputs.clear();
        self.replayed.files += 1;
        Ok(())
    }

    fn rewriting(&mut self, numbers: &[u64], reader: &mut Reader) -> Result<(), String> {
        let [pointer_size, lent, refusal, records, slots, landings, visits, pushes, unchanged] = exactly(numbers)?;
        let (refusal, unchanged) = (refusal as u32, unchanged == 1);
        let answer = RewriteAnswer { refusal, records, slots, landings, visits, pushes, unchanged };
        let mut listed = vec![0; lent as usize];
        if refusal == 0 && !unchanged {
            let output = match self.outputs.entry(pointer_size) {
                Entry::Occupied(known) => known.into_mut(),
                Entry::Vacant(place) => place.insert(bytes(&reader.records('T', records as usize)?)),
            };
            listed[..output.len()].copy_from_slice(output);
        }
        let mut lent = vec![255; lent as usize];
        let said = self.party.rewrite(&self.file, pointer_size as u32, &mut lent);
        self.replayed.rewritings += 1;
        same("rewriting", answer, said)?;
        same("output", listed, lent.clone())?;
        let [buffer, length] = exactly(&reader.line('F').ok_or("line F is missing")?)?;
        let said = self.party.final_records(&answer, &self.file, &lent);
        self.replayed.final_records += 1;
        same("final records", part(buffer, length), said)
    }

    fn invented(&mut self, numbers: &[u64]) -> Result<(), String> {
        let [refusal, unchanged, records, input, output, buffer, length] = exactly(numbers)?;
        let answer =
            RewriteAnswer { refusal: refusal as u32, records, unchanged: unchanged == 1, ..RewriteAnswer::default() };
        let said = self.party.final_records(&answer, &vec![0; input as usize], &vec![0; output as usize]);
        self.replayed.final_records += 1;
        same("final records of an answer that no call gave", part(buffer, length), said)
    }
}

fn part(buffer: u64, length: u64) -> Part {
    Part { of: if buffer == 1 { Buffer::Output } else { Buffer::Input }, length }
}

fn fill_rows(reader: &mut Reader, letter: char, count: u64, table: &mut [u64]) -> Result<(), String> {
    for _ in 0..count {
        let line = reader.line(letter).ok_or_else(|| format!("a line {letter} is missing"))?;
        let [block, row @ ..] = &line[..] else { return Err("an empty line".to_string()) };
        let at = *block as usize * ROW_WORDS;
        table[at..at + ROW_WORDS].copy_from_slice(row);
    }
    Ok(())
}
