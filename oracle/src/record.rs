//! The function file as records: 16 bytes each, four little-endian words, the first a kind.

/// Four words; the first is the kind.
pub type Record = [u32; 4];

pub const RECORD_BYTES: usize = 16;

/// The kinds of document 01, in its order. From `SLOT` on they stand in output only.
pub mod kind {
    pub const VALUE: u32 = 1;
    pub const BLOCK: u32 = 2;
    pub const PARAMETER: u32 = 3;
    pub const INSTRUCTION: u32 = 4;
    pub const RESULT: u32 = 5;
    pub const ARGUMENT: u32 = 6;
    pub const EDGE: u32 = 7;
    pub const EDGE_ARGUMENT: u32 = 8;
    pub const CONTEXT: u32 = 9;
    pub const SLOT: u32 = 10;
    pub const MAP_ENTRY: u32 = 11;
    pub const SLOT_ADDRESS: u32 = 12;
    pub const STORE: u32 = 13;
    pub const LOAD: u32 = 14;
    pub const JUMP: u32 = 15;
}

/// Word 2 of an edge argument.
pub mod edge_argument {
    pub const VALUE: u32 = 0;
    pub const RETURNED: u32 = 1;
    pub const EXCEPTION: u32 = 2;
}

/// The bits of an instruction's flags.
pub mod flag {
    pub const SAFEPOINT: u32 = 1;
    pub const TERMINATOR: u32 = 2;
}

/// The largest counts of a file.
pub mod largest {
    pub const RECORDS: usize = 2048;
    pub const VALUES: usize = 512;
    pub const BLOCKS: usize = 64;
    pub const INSTRUCTIONS: usize = 1024;
    pub const EDGES: usize = 256;
}

/// The whole records of `bytes`; what is left behind the last whole one is not read.
pub fn records(bytes: &[u8]) -> Vec<Record> {
    bytes.chunks_exact(RECORD_BYTES).map(|record| std::array::from_fn(|word| word_at(record, 4 * word))).collect()
}

fn word_at(bytes: &[u8], at: usize) -> u32 {
    u32::from_le_bytes([bytes[at], bytes[at + 1], bytes[at + 2], bytes[at + 3]])
}

pub fn bytes(records: &[Record]) -> Vec<u8> {
    records.iter().flatten().flat_map(|word| word.to_le_bytes()).collect()
}

/// Records in the notation of document 01's sheets: words by blanks, records by semicolons.
pub fn text(records: &[Record]) -> String {
    let one = |record: &Record| record.map(|word| word.to_string()).join(" ");
    records.iter().map(one).collect::<Vec<_>>().join("; ")
}

/// Reads the notation that [`text`] writes.
///
/// # Panics
///
/// Where it is not so made: the callers' texts are written by hand in this crate.
pub fn parse(text: &str) -> Vec<Record> {
    let word = |word: &str| word.parse().unwrap_or_else(|_| panic!("`{word}` is not a word of a record"));
    let one = |record: &str| -> Record {
        let words: Vec<u32> = record.split_whitespace().map(word).collect();
        words.try_into().unwrap_or_else(|_| panic!("`{record}` is not four words"))
    };
    text.split(';').filter(|record| !record.trim().is_empty()).map(one).collect()
}
