//! Seeded files. The file of a number depends on the seed and that number alone, so any one can be made again by itself.

mod damage;
pub mod dominance;
mod draft;
mod graph;
pub mod limits;
mod random;
mod sound;

pub use damage::damaged;
pub use random::Random;
pub use sound::{Plan, sound};

use crate::record::bytes;

/// Where a file comes from.
#[derive(Clone, Copy, Debug, PartialEq, Eq, PartialOrd, Ord)]
pub enum Family {
    /// Sound, every reachable use dominated by its definition; few blocks.
    Dominated,
    /// The same with up to 64 blocks.
    Wide,
    /// Sound, but uses read values that some path has not set.
    Undominated,
    /// A copy of a sound file with some bits, words, records or its length spoilt.
    Damaged,
    /// At a largest count or one above it.
    Limit,
    /// An output many times longer than the input.
    Huge,
}

impl Family {
    pub const ALL: [Family; 6] =
        [Family::Dominated, Family::Wide, Family::Undominated, Family::Damaged, Family::Limit, Family::Huge];

    /// How often each family is drawn, of 1,000.
    fn share(self) -> u32 {
        match self {
            Family::Dominated => 420,
            Family::Wide => 25,
            Family::Undominated => 200,
            Family::Damaged => 345,
            Family::Limit => 8,
            Family::Huge => 2,
        }
    }

    fn draw(random: &mut Random) -> Family {
        let mut drawn = random.below(1000);
        let falls_in = |family: &&Family| {
            let inside = drawn < family.share();
            drawn = drawn.wrapping_sub(family.share());
            inside
        };
        *Family::ALL.iter().find(falls_in).expect("the shares add up to 1,000")
    }
}

pub struct Generated {
    pub family: Family,
    pub bytes: Vec<u8>,
}

/// The file of this number.
pub fn file(seed: u64, number: u64) -> Generated {
    let mut random = Random::new(seed, number);
    let family = Family::draw(&mut random);
    Generated { family, bytes: file_of(family, &mut random) }
}

/// A file of the family.
pub fn file_of(family: Family, random: &mut Random) -> Vec<u8> {
    match family {
        Family::Dominated => bytes(&sound(&Plan::small(random, true), random)),
        Family::Wide => {
            let dominated = random.chance(70);
            bytes(&sound(&Plan::wide(random, dominated), random))
        }
        Family::Undominated => bytes(&sound(&Plan::small(random, false), random)),
        Family::Damaged => {
            let dominated = random.chance(60);
            let plan = if random.chance(97) { Plan::small(random, dominated) } else { Plan::wide(random, dominated) };
            damaged(&sound(&plan, random), random)
        }
        Family::Limit => limits::limit(random),
        Family::Huge => bytes(&limits::huge(random)),
    }
}
