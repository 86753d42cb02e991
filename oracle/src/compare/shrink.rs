//! A smaller file that still differs.

use crate::record::{Record, bytes, kind, records};

/// Drops records, and values with their number, as long as `differs` still holds.
pub fn shrink(file: &[u8], mut differs: impl FnMut(&[u8]) -> bool) -> Vec<u8> {
    let mut list = records(file);
    if !differs(&bytes(&list)) {
        return file.to_vec();
    }
    loop {
        let smaller = (1..=4).rev().flat_map(|count| (0..list.len()).map(move |at| (at, count)));
        let smaller = smaller.filter_map(|(at, count)| without(&list, at, count));
        let Some(found) = smaller.into_iter().find(|list| differs(&bytes(list))) else { return bytes(&list) };
        list = found;
    }
}

/// The list without `count` records from `at` on. Where values go, so does what names them, and higher numbers fall.
fn without(list: &[Record], at: usize, count: usize) -> Option<Vec<Record>> {
    if at + count > list.len() {
        return None;
    }
    let values = list[at..at + count].iter().filter(|record| record[0] == kind::VALUE).count();
    if values != 0 && values != count {
        return None;
    }
    let gone = |value: u32| (at..at + values).contains(&(value as usize));
    let fallen = |value: u32| if (value as usize) < at + values { value } else { value - values as u32 };
    let mut left = Vec::new();
    for (place, record) in list.iter().enumerate().filter(|(place, _)| !(at..at + count).contains(place)) {
        let word = match record[0] {
            kind::PARAMETER | kind::RESULT | kind::ARGUMENT | kind::CONTEXT => 1,
            kind::EDGE_ARGUMENT if record[1] == 0 => 2,
            _ => 0,
        };
        let mut record = list[place];
        if values > 0 && word != 0 {
            if gone(record[word]) {
                continue;
            }
            record[word] = fallen(record[word]);
        }
        left.push(record);
    }
    Some(left)
}
