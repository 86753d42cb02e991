//! Document 01's sheets P1 to P11, asked of both parties.

use crate::decision::Decision;
use crate::record::{Record, bytes, kind, parse};
use crate::source::{Analysis, Module, Outcome, Rewriting};

/// What a sheet can speak of, whoever answered.
#[derive(Default)]
pub struct Facts {
    pub refusal: u32,
    pub unchanged: bool,
    pub slots: u64,
    pub landings: u64,
    pub visited: Vec<u32>,
    pub pushes: u64,
    pub lists: Vec<(u32, Vec<u32>)>,
    /// None where unchanged.
    pub output: Vec<Record>,
}

impl Facts {
    fn refused(refusal: u32) -> Facts {
        Facts { refusal, ..Facts::default() }
    }

    fn count(&self, kind: u32) -> usize {
        self.output.iter().filter(|record| record[0] == kind).count()
    }

    /// The slot that a value is stored to.
    fn stored(&self, value: u32) -> Option<u32> {
        let store = self.output.iter().find(|record| record[0] == kind::STORE && record[1] == value)?;
        let address = self.output.iter().find(|record| record[0] == kind::SLOT_ADDRESS && record[1] == store[2])?;
        Some(address[2])
    }

    fn layout(&self) -> Vec<u32> {
        self.output.iter().filter(|record| record[0] == kind::BLOCK).map(|record| record[2]).collect()
    }
}

/// What the plain decision says, with pointer size 8.
pub fn decided(file: &[Record]) -> Facts {
    let file = bytes(file);
    let mut decision = Decision::default();
    let (answer, output) = decision.rewritten(&file, 8);
    let Ok(accepted) = decision.accept(&file) else { return Facts::refused(answer.refusal) };
    let liveness = &accepted.liveness;
    let lists = liveness.lists.iter().enumerate();
    Facts {
        refusal: answer.refusal,
        unchanged: answer.unchanged,
        slots: answer.slots,
        landings: answer.landings,
        visited: liveness.visited.clone(),
        pushes: liveness.pushes,
        lists: lists.filter_map(|(number, list)| Some((number as u32, list.clone()?))).collect(),
        output,
    }
}

/// What the module says; none where it was not there or document 01 refuses before it could run.
pub fn from_module(file: &[Record]) -> Option<Facts> {
    let refusal = Decision::default().accept(&bytes(file)).as_ref().err().copied();
    if refusal.is_some_and(|refusal| refusal < 8) {
        return None;
    }
    match Module::default().run(file, 8) {
        Outcome::Absent => None,
        Outcome::Panicked(words, _) => Some(Facts::refused(if words.contains("context") { 8 } else { 9 })),
        Outcome::Done(analysis, rewriting) => Some(done(file, analysis, rewriting)),
    }
}

fn done(file: &[Record], analysis: Analysis, rewriting: Rewriting) -> Facts {
    let unchanged = rewriting.records == file;
    Facts {
        refusal: 0,
        unchanged,
        slots: rewriting.slots,
        landings: rewriting.landings,
        visited: analysis.visited,
        pushes: analysis.pushes,
        lists: analysis.lists.into_iter().collect(),
        output: if unchanged { Vec::new() } else { rewriting.records },
    }
}

pub struct Sheet {
    pub name: &'static str,
    pub file: &'static str,
    pub says: &'static str,
    pub holds: fn(&Facts) -> bool,
}

pub const P1_OUTPUT: &str = "1 4 1 0; 1 8 0 0; 1 4 0 0; 1 8 0 0; 10 4 2 0; 2 0 0 0; 4 0 7 0; 5 0 0 0; 12 3 0 0; \
    13 0 3 0; 4 1 8 0; 11 0 4 0; 12 1 0 0; 14 2 1 4; 4 2 9 0; 6 2 0 0";

pub const SHEETS: [Sheet; 14] = [
    Sheet {
        name: "P1",
        file: "1 4 1 0; 2 0 0 0; 4 0 7 0; 5 0 0 0; 4 1 8 0; 4 2 9 0; 6 0 0 0",
        says: "the whole output",
        holds: |facts| facts.refusal == 0 && facts.output == parse(P1_OUTPUT),
    },
    Sheet {
        name: "P2",
        file: "1 4 1 0; 2 0 0 0; 4 0 0 0; 5 0 0 0; 4 2 0 0; 7 1 0 0; 7 2 0 0; 2 0 1 0; 4 2 0 0; 7 3 0 0; \
            2 0 2 0; 4 2 0 0; 7 3 0 0; 2 0 3 0; 4 2 0 0; 6 0 0 0",
        says: "visits 3, 2, 0, 1, 0; pushes 8; unchanged",
        holds: |facts| facts.visited == [3, 2, 0, 1, 0] && facts.pushes == 8 && facts.unchanged,
    },
    Sheet {
        name: "P3",
        file: "1 4 1 0; 1 4 1 0; 2 0 0 0; 4 0 0 0; 5 0 0 0; 4 1 0 0; 4 0 0 0; 6 0 0 0; 4 0 0 0; 5 1 0 0; 4 1 0 0; \
            4 2 0 0; 6 1 0 0",
        says: "one slot",
        holds: |facts| facts.refusal == 0 && facts.slots == 1,
    },
    Sheet {
        name: "P4",
        file: "1 4 1 0; 1 8 1 0; 2 0 0 0; 4 0 0 0; 5 0 0 0; 4 1 0 0; 4 0 0 0; 6 0 0 0; 4 0 0 0; 5 1 0 0; 4 1 0 0; \
            4 2 0 0; 6 1 0 0",
        says: "two slots",
        holds: |facts| facts.refusal == 0 && facts.slots == 2,
    },
    Sheet {
        name: "P5",
        file: "1 4 1 0; 1 4 1 0; 2 0 0 0; 4 0 0 0; 5 0 0 0; 4 2 0 0; 7 1 0 0; 2 0 1 0; 4 0 0 0; 6 0 0 0; 4 1 0 0; \
            4 0 0 0; 5 1 0 0; 4 2 0 0; 7 1 0 0; 7 2 0 0; 2 0 2 0; 4 1 0 0; 4 2 0 0; 6 1 0 0",
        says: "v1 slot 0, v0 slot 1; visits 4, pushes 6",
        holds: |facts| {
            facts.stored(1) == Some(0) && facts.stored(0) == Some(1) && facts.visited.len() == 4 && facts.pushes == 6
        },
    },
    Sheet {
        name: "P6",
        file: "1 4 1 0; 1 4 0 0; 1 4 0 0; 2 0 0 0; 4 0 0 0; 5 0 0 0; 4 3 0 0; 7 1 0 0; 8 1 0 0; 8 0 0 0; 7 2 0 0; \
            2 0 1 0; 3 1 0 0; 3 2 0 0; 4 2 0 0; 2 0 2 0; 4 2 0 0",
        says: "list v0; landing block 3; layout 0, 3, 1, 2",
        holds: |facts| facts.lists == [(1, vec![0])] && facts.landings == 1 && facts.layout() == [0, 3, 1, 2],
    },
    Sheet {
        name: "P7",
        file: "1 4 1 0; 2 0 0 0; 4 0 7 0; 5 0 0 0; 4 1 8 0; 4 2 9 0; 6 0 0 0; 6 0 0 0",
        says: "two loads",
        holds: |facts| facts.refusal == 0 && facts.count(kind::LOAD) == 2,
    },
    Sheet {
        name: "P8",
        file: "1 4 1 0; 2 0 0 0; 4 0 0 0; 5 0 0 0; 4 1 0 0; 6 0 0 0; 4 2 0 0",
        says: "empty list, unchanged",
        holds: |facts| facts.lists == [(1, vec![])] && facts.unchanged,
    },
    Sheet {
        name: "P9 not live across",
        file: "1 3 1 0; 2 0 0 0; 4 0 0 0; 5 0 0 0; 4 1 0 0; 6 0 0 0; 4 2 0 0",
        says: "fine",
        holds: |facts| facts.refusal == 0 && facts.unchanged,
    },
    Sheet {
        name: "P9 live across",
        file: "1 3 1 0; 2 0 0 0; 4 0 0 0; 5 0 0 0; 4 1 0 0; 4 2 0 0; 6 0 0 0",
        says: "9",
        holds: |facts| facts.refusal == 9,
    },
    Sheet {
        name: "P10 reachable",
        file: "1 4 1 0; 2 0 0 0; 4 0 0 0; 5 0 0 0; 4 3 0 0; 9 0 0 0",
        says: "8",
        holds: |facts| facts.refusal == 8,
    },
    Sheet {
        name: "P10 unreachable",
        file: "1 4 1 0; 2 0 0 0; 4 0 0 0; 5 0 0 0; 4 2 0 0; 2 0 1 0; 4 3 0 0; 9 0 0 0",
        says: "accepted",
        holds: |facts| facts.refusal == 0,
    },
    Sheet { name: "P11", file: "", says: "4", holds: |facts| facts.refusal == 4 },
    Sheet {
        name: "P6 with a cold target",
        file: "1 4 1 0; 1 4 0 0; 1 4 0 0; 2 0 0 0; 4 0 0 0; 5 0 0 0; 4 3 0 0; 7 1 0 0; 8 1 0 0; 8 0 0 0; 7 2 0 0; \
            2 1 1 0; 3 1 0 0; 3 2 0 0; 4 2 0 0; 2 0 2 0; 4 2 0 0",
        says: "the same; the landing's cold word differs",
        holds: |facts| facts.landings == 1 && facts.layout() == [0, 3, 1, 2],
    },
];
