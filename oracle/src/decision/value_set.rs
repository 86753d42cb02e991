//! A set of values as a row of a live table: eight words, value n at bit n mod 64 of word n / 64.

use crate::record::largest;

pub const ROW_WORDS: usize = largest::VALUES / 64;

#[derive(Clone, Copy, Debug, Default, PartialEq, Eq)]
pub struct ValueSet([u64; ROW_WORDS]);

impl ValueSet {
    pub fn row(&self) -> &[u64; ROW_WORDS] {
        &self.0
    }

    pub fn contains(&self, value: u32) -> bool {
        self.0[value as usize / 64] >> (value % 64) & 1 == 1
    }

    pub fn insert(&mut self, value: u32) {
        self.0[value as usize / 64] |= 1 << (value % 64);
    }

    pub fn remove(&mut self, value: u32) {
        self.0[value as usize / 64] &= !(1 << (value % 64));
    }

    pub fn add(&mut self, other: &ValueSet) {
        for (word, more) in self.0.iter_mut().zip(other.0) {
            *word |= more;
        }
    }

    pub fn is_empty(&self) -> bool {
        self.0 == [0; ROW_WORDS]
    }

    /// Ascending.
    pub fn iter(&self) -> impl Iterator<Item = u32> + '_ {
        (0..largest::VALUES as u32).filter(|&value| self.contains(value))
    }
}
