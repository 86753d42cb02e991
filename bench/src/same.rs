//! The contenders answer the same: whole answers and whole buffers, on the families' files and on damaged copies of them.

use crate::families::FAMILIES;
use crate::plain::{self, Counting, Rest};
use oracle::library::Library;
use oracle::services::Services;

const TABLE: usize = 512;

pub fn compare() {
    let mut damage = 1u64;
    for (name, family) in FAMILIES {
        for records in [16, 100, 700, 2048] {
            let file = family(records);
            same(name, &file);
            for _ in 0..200 {
                damage = damage.wrapping_mul(6364136223846793005).wrapping_add(1442695040888963407);
                let mut copy = file.clone();
                let at = (damage >> 20) as usize % copy.len();
                copy[at] = (damage >> 56) as u8 % 12;
                same(name, &copy);
            }
        }
    }
}

fn same(name: &str, file: &[u8]) {
    for counting in [Counting::Not, Counting::BitByBit] {
        let (mut ours, mut theirs) = (vec![1u8; 1 << 20], vec![2u8; 1 << 20]);
        let answer = Library.rewrite(file, 8, &mut ours);
        assert_eq!(answer, plain::rewrite(file, 8, &mut theirs, Rest::Cleared, counting), "rewriting, {name}");
        assert!(ours == theirs, "rewritten records, {name}");
        let (mut our_ins, mut our_outs, mut ins, mut outs) = ([1; TABLE], [2; TABLE], [3; TABLE], [4; TABLE]);
        let answer = Library.liveness(file, &mut our_ins, &mut our_outs);
        assert_eq!(answer, plain::liveness(file, &mut ins, &mut outs, counting), "liveness, {name}");
        assert!(our_ins == ins && our_outs == outs, "live tables, {name}");
    }
}
