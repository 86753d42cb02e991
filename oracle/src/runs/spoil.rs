//! Wrong rewriting of any file: correct final records with one thing spoilt.

use crate::generate::Random;
use crate::record::{Record, kind};

#[derive(Clone, Copy, Debug, PartialEq, Eq, PartialOrd, Ord)]
pub enum Spoil {
    StoreRemoved,
    EntryRemoved,
    /// One load reads another slot.
    LoadFromAnotherSlot,
}

impl Spoil {
    pub const ALL: [Spoil; 3] = [Spoil::StoreRemoved, Spoil::EntryRemoved, Spoil::LoadFromAnotherSlot];

    /// The records spoilt at a place drawn among those that can be; none where there is no such place.
    pub fn apply(self, records: &[Record], random: &mut Random) -> Option<Vec<Record>> {
        let kind = match self {
            Spoil::StoreRemoved => kind::STORE,
            Spoil::EntryRemoved => kind::MAP_ENTRY,
            Spoil::LoadFromAnotherSlot => kind::LOAD,
        };
        let places: Vec<usize> = (0..records.len()).filter(|&place| records[place][0] == kind).collect();
        if places.is_empty() {
            return None;
        }
        let place = random.pick(&places);
        let mut spoilt = records.to_vec();
        if self != Spoil::LoadFromAnotherSlot {
            spoilt.remove(place);
            return Some(spoilt);
        }
        let slots = records.iter().filter(|record| record[0] == kind::SLOT).count() as u32;
        // Its own slot address stands right before a load.
        let address = &mut spoilt[place - 1];
        if slots < 2 || address[0] != kind::SLOT_ADDRESS {
            return None;
        }
        address[2] = (address[2] + random.within(1, slots - 1)) % slots;
        Some(spoilt)
    }
}
