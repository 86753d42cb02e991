//! Where a run stands between items: words by value, which values are defined so far, words by slot, and what arrived.
//!
//! Slots keep words whole, and a slot's address is its number. Stores and loads go to the address that they are given,
//! whatever it is: there is a word at every address, so that a wrong address is a wrong word and no fault of the machine.

use crate::decision::rewriting::MapEntry;
use std::collections::HashMap;

/// What words hold before anything is set, by number.
pub type Content<'a> = &'a dyn Fn(u64) -> u64;

pub struct Machine<'a> {
    pub words: Vec<u64>,
    defined: Vec<bool>,
    /// The words at the addresses of the file's slots.
    slots: Vec<u64>,
    /// Those stored at other addresses, and what is there otherwise.
    elsewhere: HashMap<u64, u64>,
    first_slots: Content<'a>,
    /// The words that arrived at a block's parameters since the last step.
    pub arrived: Option<Vec<u64>>,
}

impl<'a> Machine<'a> {
    pub fn new(values: usize, slots: usize, first_words: Content, first_slots: Content<'a>) -> Machine<'a> {
        Machine {
            words: (0..values as u64).map(first_words).collect(),
            defined: vec![false; values],
            slots: (0..slots as u64).map(first_slots).collect(),
            elsewhere: HashMap::new(),
            first_slots,
            arrived: None,
        }
    }

    pub fn define(&mut self, value: u32, word: u64) {
        self.words[value as usize] = word;
        self.defined[value as usize] = true;
    }

    pub fn read(&self, values: &[u32]) -> Vec<u64> {
        values.iter().map(|&value| self.words[value as usize]).collect()
    }

    pub fn store(&mut self, address: u64, word: u64) {
        match usize::try_from(address).ok().and_then(|slot| self.slots.get_mut(slot)) {
            Some(slot) => *slot = word,
            None => {
                self.elsewhere.insert(address, word);
            }
        }
    }

    pub fn load(&self, address: u64) -> u64 {
        let slot = usize::try_from(address).ok().and_then(|slot| self.slots.get(slot));
        slot.or_else(|| self.elsewhere.get(&address)).copied().unwrap_or_else(|| (self.first_slots)(address))
    }

    /// The moving values that are defined so far, and each listed slot once.
    pub fn move_references(&mut self, moving: &[u32], map: &[MapEntry], mover: impl Fn(u64) -> u64) {
        for &value in moving {
            if self.defined[value as usize] {
                self.words[value as usize] = mover(self.words[value as usize]);
            }
        }
        for (place, entry) in map.iter().enumerate() {
            if !map[..place].iter().any(|earlier| earlier.slot == entry.slot) {
                let address = entry.slot.into();
                self.store(address, mover(self.load(address)));
            }
        }
    }
}
