//! The fixed list's text, from the cases.

use super::head::HEAD;
use super::{Case, SEED, cases};
use crate::decision::service::{PROGRAM_OUTPUT, TABLE_WORDS};
use crate::decision::value_set::ROW_WORDS;
use crate::decision::{Decision, program};
use crate::record::{RECORD_BYTES, Record, kind, records};
use crate::services::{Buffer, Part, RewriteAnswer, Services};
use std::fmt::{Display, Write};

/// The whole list.
pub fn write() -> String {
    let mut list = List { text: String::new(), decision: Decision::default(), longest_output: 0 };
    let cases = cases();
    for (number, case) in cases.iter().enumerate() {
        list.case(number, case);
    }
    list.invented_answers();
    list.line('E', &[cases.len()]);
    let longest = cases.iter().map(|case| case.file.len()).max().unwrap_or(0);
    let lengths = format!(
        "#\n# The longest file has {longest} bytes, the longest output lent {} bytes, a live table up to {} words.\n",
        list.longest_output,
        TABLE_WORDS + 9
    );
    HEAD.replace("SEED", &SEED.to_string()) + &lengths + &list.text
}

struct List {
    text: String,
    decision: Decision,
    longest_output: usize,
}

impl List {
    fn line<T: Display>(&mut self, letter: char, numbers: &[T]) {
        self.text.push(letter);
        for number in numbers {
            write!(self.text, " {number}").expect("a string takes everything");
        }
        self.text.push('\n');
    }

    /// Equal records that follow one another share a line.
    fn records(&mut self, letter: char, records: &[Record]) {
        for same in records.chunk_by(|one, other| one == other) {
            let [first, second, third, fourth] = same[0];
            self.line(letter, &[same.len() as u32, first, second, third, fourth]);
        }
    }

    fn case(&mut self, number: usize, case: &Case) {
        let file = &case.file;
        writeln!(self.text, "# {}", case.note).expect("a string takes everything");
        self.line('N', &[number + 1]);
        self.line('B', &[file.len()]);
        let whole = records(file);
        self.records('R', &whole);
        let rest = &file[whole.len() * RECORD_BYTES..];
        if !rest.is_empty() {
            self.line('X', rest);
        }
        self.liveness_rows(file, number);
        self.list_rows(file, &whole, number);
        self.rewriting_rows(file, number);
        let written = program(file);
        match written.strip_prefix(b"refused ") {
            Some(refusal) => {
                let refusal = String::from_utf8_lossy(refusal).trim().to_string();
                self.line('P', &[refusal, "0".to_string()]);
            }
            None => self.line('P', &[0, written.len()]),
        }
    }

    /// Exact tables for every file, and in turn one of the other lengths.
    fn liveness_rows(&mut self, file: &[u8], number: usize) {
        self.liveness(file, TABLE_WORDS, TABLE_WORDS);
        let (live_in, live_out) = [
            (TABLE_WORDS + 9, TABLE_WORDS),
            (TABLE_WORDS - 1, TABLE_WORDS),
            (TABLE_WORDS, TABLE_WORDS - 1),
            (0, 0),
            (TABLE_WORDS, TABLE_WORDS + 1),
        ][number % 5];
        // Rows are written once a file: a longer table is shown by the files that have none or few.
        let answer = self.decision.liveness(file, &mut vec![0; live_in], &mut vec![0; live_out]);
        if answer.refusal != 0 || file.len() < 20 * RECORD_BYTES {
            self.liveness(file, live_in, live_out);
        }
    }

    fn liveness(&mut self, file: &[u8], live_in: usize, live_out: usize) {
        let (mut ins, mut outs) = (vec![0; live_in], vec![0; live_out]);
        let answer = self.decision.liveness(file, &mut ins, &mut outs);
        let rows = |table: &[u64]| -> Vec<Vec<u64>> {
            let rows = table.chunks_exact(ROW_WORDS).enumerate();
            let rows = rows.filter(|(_, row)| row.iter().any(|&word| word != 0));
            rows.map(|(block, row)| [&[block as u64], row].concat()).collect()
        };
        let (ins, outs) = (rows(&ins), rows(&outs));
        let counts = [answer.refusal as u64, answer.visits, answer.pushes, ins.len() as u64, outs.len() as u64];
        self.line('L', &[&[live_in as u64, live_out as u64], &counts[..]].concat());
        ins.iter().for_each(|row| self.line('I', row));
        outs.iter().for_each(|row| self.line('O', row));
    }

    /// The first few instructions and one behind the last, with lengths around what each list needs.
    fn list_rows(&mut self, file: &[u8], whole: &[Record], number: usize) {
        let instructions = whole.iter().filter(|record| record[0] == kind::INSTRUCTION).count() as u32;
        for instruction in (0..instructions.min(6)).chain([instructions]) {
            let exact = self.decision.list(file, instruction, &mut []);
            let count = exact.count as usize;
            self.list(file, instruction, count);
            if count > 0 {
                self.list(file, instruction, count - 1);
            }
            if (number + instruction as usize).is_multiple_of(3) {
                self.list(file, instruction, count + 3);
            }
            if exact.refusal > 0 && exact.refusal < 10 {
                break;
            }
        }
        if number.is_multiple_of(7) {
            self.list(file, u32::MAX, 2);
        }
    }

    fn list(&mut self, file: &[u8], instruction: u32, lent: usize) {
        let mut list = vec![0; lent];
        let answer = self.decision.list(file, instruction, &mut list);
        self.line('Q', &[u64::from(instruction), lent as u64, u64::from(answer.refusal), answer.count]);
        if answer.refusal == 0 && answer.count > 0 {
            self.line('V', &list[..answer.count as usize]);
        }
    }

    fn rewriting_rows(&mut self, file: &[u8], number: usize) {
        let (answer, _) = self.decision.rewritten(file, 8);
        let exact = if answer.unchanged { 0 } else { answer.records as usize * RECORD_BYTES };
        self.rewriting(file, 8, exact, true);
        self.rewriting(file, 8, exact + [1, 16, 40, 64][number % 4], false);
        if exact > 0 {
            self.rewriting(file, 8, exact - 1, false);
            self.rewriting(file, 8, [0, 16, exact - 16][number % 3], false);
        }
        if number.is_multiple_of(3) || exact == 0 {
            self.rewriting(file, 4, exact, true);
        }
        if number.is_multiple_of(4) {
            self.rewriting(file, [0, 1, 2, 3, 5, 16, 12, 64, u32::MAX][number / 4 % 9], [0, 48][number / 4 % 2], true);
        }
    }

    fn rewriting(&mut self, file: &[u8], pointer_size: u32, lent: usize, with_records: bool) {
        self.longest_output = self.longest_output.max(lent);
        let mut output = vec![0; lent];
        let answer = self.decision.rewrite(file, pointer_size, &mut output);
        let RewriteAnswer { refusal, records, slots, landings, visits, pushes, unchanged } = answer;
        let asked = [u64::from(pointer_size), lent as u64, u64::from(refusal)];
        let counts = [records, slots, landings, visits, pushes, u64::from(unchanged)];
        self.line('W', &[&asked[..], &counts[..]].concat());
        if with_records && refusal == 0 && !unchanged {
            self.records('T', &crate::record::records(&output[..records as usize * RECORD_BYTES]));
        }
        let part = self.decision.final_records(&answer, file, &output);
        self.line('F', &[u64::from(part.of == Buffer::Output), part.length]);
    }

    /// Answers that no call gave, with lengths around what they ask for and counts that would wrap.
    fn invented_answers(&mut self) {
        let counts = [0, 1, 2, 3, 4096, u64::from(u32::MAX), 1 << 28, 1 << 60, (1 << 60) + 1, u64::MAX];
        for (number, records) in counts.into_iter().enumerate() {
            for (refusal, unchanged) in [(0, false), (0, true), ([2, 9, 11][number % 3], number % 2 == 0)] {
                let answer = RewriteAnswer { refusal, records, unchanged, ..RewriteAnswer::default() };
                let exact = usize::try_from(records).ok().and_then(|records| records.checked_mul(RECORD_BYTES));
                let near = exact.filter(|exact| *exact <= PROGRAM_OUTPUT).unwrap_or(48);
                self.invented(&answer, near, near);
                self.invented(&answer, near.saturating_sub(1), near + 1);
                self.invented(&answer, near + 16, near.saturating_sub(16));
            }
        }
    }

    fn invented(&mut self, answer: &RewriteAnswer, input: usize, output: usize) {
        let Part { of, length } = self.decision.final_records(answer, &vec![0; input], &vec![0; output]);
        let asked = [u64::from(answer.refusal), u64::from(answer.unchanged), answer.records];
        let found = [input as u64, output as u64, u64::from(of == Buffer::Output), length];
        self.line('G', &[&asked[..], &found[..]].concat());
    }
}
