//! Slots: the sizes that have one, the free lists, and which value has which slot.

/// A size that a slot can have. Its number is its class, and log2 of its bytes.
#[derive(Clone, Copy, Debug, PartialEq, Eq)]
pub struct SlotSize(u32);

impl SlotSize {
    /// How many classes there are.
    pub const CLASSES: usize = 5;

    /// None for a size that refusal 9 names.
    pub fn new(bytes: u32) -> Option<SlotSize> {
        match bytes {
            1 | 2 | 4 | 8 | 16 => Some(SlotSize(bytes.ilog2())),
            _ => None,
        }
    }

    pub fn log2(self) -> u32 {
        self.0
    }

    pub fn bytes(self) -> u32 {
        1 << self.0
    }
}

#[derive(Default)]
pub struct StackSlots {
    /// The size of each slot made, by slot number.
    pub made: Vec<SlotSize>,
    /// The slot that each value was given, by value number. It stays though the slot is freed.
    given: Vec<Option<u32>>,
    free: [Vec<u32>; SlotSize::CLASSES],
}

impl StackSlots {
    pub fn new(values: usize) -> StackSlots {
        StackSlots { given: vec![None; values], ..StackSlots::default() }
    }

    pub fn get(&self, value: u32) -> Option<u32> {
        self.given[value as usize]
    }

    /// The value's slot; where it has none yet, the one last freed of its size, else a new one.
    pub fn give(&mut self, value: u32, size: SlotSize) -> u32 {
        if let Some(slot) = self.get(value) {
            return slot;
        }
        let slot = self.free[size.log2() as usize].pop().unwrap_or_else(|| {
            self.made.push(size);
            self.made.len() as u32 - 1
        });
        self.given[value as usize] = Some(slot);
        slot
    }

    pub fn free(&mut self, slot: u32) {
        let size = self.made[slot as usize];
        self.free[size.log2() as usize].push(slot);
    }
}
