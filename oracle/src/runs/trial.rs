//! Random worlds, movers and first contents of words and slots, each a pure function of a seed.

use super::run::{Asking, Setting, World};
use crate::generate::Random;

/// What a number stands for in a hash, so that no two uses of a seed give the same words.
mod purpose {
    pub const ENTRY: u64 = 0;
    pub const RESULT: u64 = 1;
    pub const EDGE: u64 = 2;
    pub const RETURNED: u64 = 3;
    pub const EXCEPTION: u64 = 4;
    pub const MOVE: u64 = 5;
    pub const WORDS: u64 = 6;
    pub const SLOTS: u64 = 7;
}

/// A word that depends on all of the numbers and their order.
pub fn hash(seed: u64, numbers: impl IntoIterator<Item = u64>) -> u64 {
    numbers.into_iter().fold(seed, |so_far, number| Random::new(so_far, number).word())
}

/// How the words of a trial are made. Only the first manner tells every word from every other; the others are worlds and
/// movers that programs have too, and where other things could go wrong.
#[derive(Clone, Copy, Debug, PartialEq, Eq)]
pub enum Manner {
    /// Every word is its own, every safepoint moves every word, every step chooses its edge anew.
    Plain,
    /// An instruction mostly takes the edge that it took before, so that loops are passed many times.
    Lingering,
    /// About half of the words stay where they are.
    SomeStay,
    /// There are four words in all, which are slots' addresses too.
    FewWords,
}

impl Manner {
    pub const ALL: [Manner; 4] = [Manner::Plain, Manner::Lingering, Manner::SomeStay, Manner::FewWords];
}

/// A world, a mover, and a first content of words and slots for each of the two runs.
#[derive(Clone, Copy, Debug)]
pub struct Trial {
    pub seed: u64,
    pub manner: Manner,
}

/// Which of the two runs: each has a first content of its own.
#[derive(Clone, Copy)]
pub enum Which {
    Original,
    Rewritten,
}

impl Trial {
    fn word(&self, hash: u64) -> u64 {
        if self.manner == Manner::FewWords { hash & 3 } else { hash }
    }

    fn asked(&self, purpose: u64, at: &Asking, index: u64) -> u64 {
        let at_step = [purpose, at.step, at.instruction.into(), at.arguments.len() as u64, index];
        self.word(hash(self.seed, at_step.into_iter().chain(at.arguments.iter().copied())))
    }

    fn moved(&self, safepoint_step: u64, word: u64) -> u64 {
        let place = hash(self.seed, [purpose::MOVE, safepoint_step, word]);
        let stays = self.manner == Manner::SomeStay && place & 1 == 0;
        if stays { word } else { self.word(place) }
    }

    /// What `act` gives in this trial, for one of the two runs.
    pub fn setting<T>(&self, which: Which, act: impl FnOnce(Setting) -> T) -> T {
        let first = |purpose, number| self.word(hash(self.seed, [purpose, which as u64, number]));
        act(Setting {
            world: self,
            mover: &|safepoint_step, word| self.moved(safepoint_step, word),
            first_words: &|value| first(purpose::WORDS, value),
            first_slots: &|address| first(purpose::SLOTS, address),
        })
    }
}

impl World for Trial {
    fn entry(&self, parameter: u64) -> u64 {
        self.word(hash(self.seed, [purpose::ENTRY, parameter]))
    }

    fn result(&self, at: &Asking, position: u64) -> u64 {
        self.asked(purpose::RESULT, at, position)
    }

    fn edge(&self, at: &Asking) -> u64 {
        let chosen = hash(self.seed, [purpose::EDGE, at.instruction.into()]);
        let lingers = self.manner == Manner::Lingering && !hash(chosen, [at.step]).is_multiple_of(6);
        if lingers { chosen } else { hash(self.asked(purpose::EDGE, at, 0), [at.step]) }
    }

    fn returned(&self, at: &Asking, index: u32) -> u64 {
        self.asked(purpose::RETURNED, at, index.into())
    }

    fn exception(&self, at: &Asking, index: u32) -> u64 {
        self.asked(purpose::EXCEPTION, at, index.into())
    }
}
