//! The spill pass written in Rattle, over Rust's slices. Each function takes any bytes, ends inside its buffers and fixes its
//! answer and every lent buffer to its end; `include/threshskiff.h` says how. Nothing is kept from one call to the next, and
//! no memory is allocated.
//!
//! What C's header asks of a caller, Rust's borrows give: slices are never null or misaligned, not even empty ones, and one
//! that is lent to be written overlaps no other.

pub mod raw;

/// How many words each of the two live tables needs.
pub const TABLE_WORDS: usize = 512;

/// How many bytes a record has.
pub const RECORD_BYTES: usize = 16;

/// Why a call says no, by the rules' numbers; the lowest that applies is given.
#[derive(Clone, Copy, Debug, PartialEq, Eq, PartialOrd, Ord, Hash)]
#[repr(u32)]
pub enum Refusal {
    /// The pointer size is neither 4 nor 8. Rewriting only.
    PointerSize = 1,
    /// The length is not a multiple of 16.
    Length = 2,
    /// More records, values, blocks, instructions or edges than the largest count.
    TooMany = 3,
    /// Records out of order or a word outside the table of kinds, no block, or a block's number is not its position.
    Malformed = 4,
    /// A value or a block that is not in the file.
    NotInFile = 5,
    /// A value that is not defined exactly once.
    NotDefinedOnce = 6,
    /// Terminators, results, edges, contexts or edge arguments not where they belong, or edge arguments that do not fit the target.
    Unsound = 7,
    /// A marked context in a reachable block.
    MarkedContext = 8,
    /// A value live across a reachable safepoint has a size other than 1, 2, 4, 8, 16. Rewriting only.
    SlotSize = 9,
    /// The instruction asked for is not a reachable safepoint. List only.
    NoSafepoint = 10,
    /// A lent output is too short.
    TooShort = 11,
}

impl Refusal {
    const ALL: [Refusal; 11] = [
        Refusal::PointerSize,
        Refusal::Length,
        Refusal::TooMany,
        Refusal::Malformed,
        Refusal::NotInFile,
        Refusal::NotDefinedOnce,
        Refusal::Unsound,
        Refusal::MarkedContext,
        Refusal::SlotSize,
        Refusal::NoSafepoint,
        Refusal::TooShort,
    ];

    /// The rules' number.
    pub fn number(self) -> u32 {
        self as u32
    }

    /// The refusal that has this number: 1 to 11 have one.
    pub fn numbered(number: u32) -> Option<Refusal> {
        Refusal::ALL.into_iter().find(|refusal| refusal.number() == number)
    }
}

/// The refusal of an answer, 0 being none. The library is proved to answer no number above 11.
fn refusal_of(number: u32) -> Option<Refusal> {
    assert!(number <= Refusal::TooShort.number(), "the library refuses by 1 to 11");
    Refusal::numbered(number)
}

/// What liveness answers, beside its two tables. A refusal's counts are 0.
#[derive(Clone, Copy, Debug, PartialEq, Eq)]
pub struct LivenessAnswer {
    pub refusal: Option<Refusal>,
    pub visits: u32,
    pub pushes: u32,
}

/// What the list of one safepoint answers. Of a list that does not fit, `count` is the length needed.
#[derive(Clone, Copy, Debug, PartialEq, Eq)]
pub struct ListAnswer {
    pub refusal: Option<Refusal>,
    pub count: u32,
}

/// What rewriting answers. Of an output that does not fit, `records` is the count of records needed.
#[derive(Clone, Copy, Debug, PartialEq, Eq)]
pub struct RewritingAnswer {
    pub refusal: Option<Refusal>,
    pub records: u32,
    pub slots: u32,
    pub landings: u32,
    pub visits: u32,
    pub pushes: u32,
    pub unchanged: bool,
}

/// One of the two buffers of a rewriting.
#[derive(Clone, Copy, Debug, PartialEq, Eq)]
pub enum Buffer {
    Input,
    Output,
}

/// Where the final records are: `length` bytes from `offset` of a buffer.
#[derive(Clone, Copy, Debug, PartialEq, Eq)]
pub struct FinalPart {
    pub of: Buffer,
    pub offset: usize,
    pub length: usize,
}

/// The lowest refusal of 2 to 8 that applies to a file, if one does.
pub fn check(file: &[u8]) -> Option<Refusal> {
    // SAFETY: the address and the length are those of a slice, which is read for the call alone.
    refusal_of(unsafe { raw::threshskiff_check(file.as_ptr(), file.len()) })
}

/// Liveness: eight words a block in each table, value n at bit n mod 64 of word n / 64, zeros behind the rows; zeros alone
/// where it is refused.
pub fn liveness(file: &[u8], live_in: &mut [u64], live_out: &mut [u64]) -> LivenessAnswer {
    // SAFETY: the addresses and lengths are those of slices; the two that are written are borrowed alone.
    let raw::Liveness { refusal, visits, pushes } = unsafe {
        raw::threshskiff_liveness(
            file.as_ptr(),
            file.len(),
            live_in.as_mut_ptr(),
            live_in.len(),
            live_out.as_mut_ptr(),
            live_out.len(),
        )
    };
    LivenessAnswer { refusal: refusal_of(refusal), visits, pushes }
}

/// The values live across the safepoint that is the given instruction, ascending, with zeros behind them; zeros alone where
/// it is refused.
pub fn list(file: &[u8], instruction: u32, numbers: &mut [u32]) -> ListAnswer {
    // SAFETY: the addresses and lengths are those of slices; the one that is written is borrowed alone.
    let raw::List { refusal, count } =
        unsafe { raw::threshskiff_list(file.as_ptr(), file.len(), instruction, numbers.as_mut_ptr(), numbers.len()) };
    ListAnswer { refusal: refusal_of(refusal), count }
}

/// Rewriting: the rewritten records at the front of the output, zeros behind them; zeros alone where it is refused or
/// unchanged.
pub fn rewrite(file: &[u8], pointer_size: u32, output: &mut [u8]) -> RewritingAnswer {
    // SAFETY: the addresses and lengths are those of slices; the one that is written is borrowed alone.
    let answer =
        unsafe { raw::threshskiff_rewrite(file.as_ptr(), file.len(), pointer_size, output.as_mut_ptr(), output.len()) };
    RewritingAnswer {
        refusal: refusal_of(answer.refusal),
        records: answer.records,
        slots: answer.slots,
        landings: answer.landings,
        visits: answer.visits,
        pushes: answer.pushes,
        unchanged: answer.unchanged != 0,
    }
}

/// Where the final records of any answer are, also of one that no call gave: empty for a refusal, or where the buffer that
/// it chooses is shorter.
pub fn final_part(answer: &RewritingAnswer, input: &[u8], output: &[u8]) -> FinalPart {
    let answer = raw::Rewriting {
        refusal: answer.refusal.map_or(0, Refusal::number),
        records: answer.records,
        slots: answer.slots,
        landings: answer.landings,
        visits: answer.visits,
        pushes: answer.pushes,
        unchanged: answer.unchanged.into(),
    };
    // SAFETY: the addresses and lengths are those of slices, which are read for the call alone.
    let part = unsafe { raw::threshskiff_final(answer, input.as_ptr(), input.len(), output.as_ptr(), output.len()) };
    let of = if part.of_output == 0 { Buffer::Input } else { Buffer::Output };
    FinalPart { of, offset: part.offset, length: part.length }
}

/// The final records themselves: a part of the input or a part of the output, by the answer.
pub fn final_records<'a>(answer: &RewritingAnswer, input: &'a [u8], output: &'a [u8]) -> &'a [u8] {
    let FinalPart { of, offset, length } = final_part(answer, input, output);
    let buffer = match of {
        Buffer::Input => input,
        Buffer::Output => output,
    };
    &buffer[offset..][..length]
}
