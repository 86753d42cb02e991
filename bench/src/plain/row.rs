//! A set of values as a row of bits.

pub const WORDS: usize = 8;

#[derive(Clone, Copy, Default, PartialEq, Eq)]
pub struct Row(pub [u64; WORDS]);

impl Row {
    #[inline]
    pub fn has(&self, value: usize) -> bool {
        self.0[value / 64] >> (value % 64) & 1 == 1
    }

    #[inline]
    pub fn insert(&mut self, value: usize) {
        self.0[value / 64] |= 1 << (value % 64);
    }

    #[inline]
    pub fn remove(&mut self, value: usize) {
        self.0[value / 64] &= !(1 << (value % 64));
    }

    #[inline]
    pub fn join(&mut self, other: &Row) {
        for (word, more) in self.0.iter_mut().zip(other.0) {
            *word |= more;
        }
    }

    /// How many values there are, a bit at a time, as the library still counts them.
    pub fn counted(&self) -> usize {
        (0..64 * WORDS).filter(|&value| self.has(value)).count()
    }

    pub fn is_empty(&self) -> bool {
        self.0 == [0; WORDS]
    }

    pub fn intersection(&self, other: &Row) -> Row {
        Row(std::array::from_fn(|word| self.0[word] & other.0[word]))
    }

    /// The values, ascending.
    pub fn iter(&self) -> impl Iterator<Item = usize> + '_ {
        self.0.iter().enumerate().flat_map(|(place, &word)| {
            let mut left = word;
            std::iter::from_fn(move || {
                if left == 0 {
                    return None;
                }
                let bit = left.trailing_zeros() as usize;
                left &= left - 1;
                Some(place * 64 + bit)
            })
        })
    }
}
