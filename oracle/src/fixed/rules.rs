//! Accepted files: one for each turn of the rules of liveness, slots and rewriting.

pub const RULES: &[(&str, &str)] = &[
    ("no values at all, one safepoint", "2 0 0 0; 4 3 0 0"),
    (
        "the slot last freed is taken, not the first",
        "1 4 1 0; 1 4 1 0; 1 4 1 0; 1 4 1 0; 2 0 0 0; 4 0 0 0; 5 0 0 0; 4 0 0 0; 5 1 0 0; 4 1 0 0; 4 0 0 0; \
            6 0 0 0; 6 1 0 0; 4 0 0 0; 5 2 0 0; 4 0 0 0; 5 3 0 0; 4 1 0 0; 4 2 0 0; 6 2 0 0; 6 3 0 0",
    ),
    (
        "the same with the definitions the other way round",
        "1 4 1 0; 1 4 1 0; 1 4 1 0; 1 4 1 0; 2 0 0 0; 4 0 0 0; 5 0 0 0; 4 0 0 0; 5 1 0 0; 4 1 0 0; 4 0 0 0; \
            6 0 0 0; 6 1 0 0; 4 0 0 0; 5 3 0 0; 4 0 0 0; 5 2 0 0; 4 1 0 0; 4 2 0 0; 6 2 0 0; 6 3 0 0",
    ),
    (
        "a safepoint's own spilled result: map entries, then the store",
        "1 8 1 0; 1 8 1 0; 2 0 0 0; 3 0 0 0; 4 1 0 0; 5 1 0 0; 4 1 0 0; 4 2 0 0; 6 0 0 0; 6 1 0 0",
    ),
    (
        "a safepoint whose argument is not spilled and whose result is",
        "1 8 1 0; 1 8 1 0; 2 0 0 0; 3 0 0 0; 4 1 0 0; 6 0 0 0; 5 1 0 0; 4 1 0 0; 4 2 0 0; 6 1 0 0",
    ),
    (
        "two results of one instruction, stored in order",
        "1 4 1 0; 1 4 1 0; 2 0 0 0; 4 0 0 0; 5 1 0 0; 5 0 0 0; 4 1 0 0; 4 2 0 0; 6 0 0 0; 6 1 0 0",
    ),
    (
        "a store stands before the next instruction's loads",
        "1 4 1 0; 1 4 1 0; 2 0 0 0; 3 0 0 0; 4 1 0 0; 4 0 0 0; 5 1 0 0; 4 1 0 0; 6 0 0 0; 4 2 0 0; 6 1 0 0",
    ),
    (
        "parameters of block 0, stored in order before everything",
        "1 4 1 0; 1 8 1 0; 1 4 0 0; 2 0 0 0; 3 1 0 0; 3 2 0 0; 3 0 0 0; 4 1 0 0; 6 0 0 0; 4 2 0 0; 6 0 0 0; \
            6 1 0 0; 6 2 0 0",
    ),
    (
        "a parameter store before the first instruction's loads",
        "1 4 1 0; 2 0 0 0; 3 0 0 0; 4 1 0 0; 6 0 0 0; 4 2 0 0; 6 0 0 0",
    ),
    (
        "all five sizes, a slot each",
        "1 1 1 0; 1 2 1 0; 1 4 1 0; 1 8 1 0; 1 16 1 0; 2 0 0 0; 3 0 0 0; 3 1 0 0; 3 2 0 0; 3 3 0 0; 3 4 0 0; \
            4 1 0 0; 4 2 0 0; 6 4 0 0; 6 0 0 0; 6 3 0 0; 6 1 0 0; 6 2 0 0",
    ),
    (
        "free lists are by size",
        "1 1 1 0; 1 2 1 0; 1 1 1 0; 1 2 1 0; 2 0 0 0; 3 0 0 0; 3 1 0 0; 4 1 0 0; 4 0 0 0; 6 0 0 0; 6 1 0 0; \
            4 0 0 0; 5 2 0 0; 5 3 0 0; 4 1 0 0; 4 2 0 0; 6 2 0 0; 6 3 0 0",
    ),
    (
        "three uses in one instruction, three loads",
        "1 4 1 0; 2 0 0 0; 3 0 0 0; 4 1 0 0; 4 0 0 0; 6 0 0 0; 6 0 0 0; 4 2 0 0; 6 0 0 0",
    ),
    (
        "spilled and other arguments mixed",
        "1 4 1 0; 1 4 0 0; 1 4 1 0; 2 0 0 0; 3 0 0 0; 3 1 0 0; 4 1 0 0; 4 0 0 0; 5 2 0 0; 4 2 0 0; 6 1 0 0; \
            6 0 0 0; 6 2 0 0; 6 0 0 0",
    ),
    ("an unmarked value is on no list", "1 4 0 0; 2 0 0 0; 3 0 0 0; 4 1 0 0; 4 2 0 0; 6 0 0 0"),
    (
        "a value used only by its own safepoint",
        "1 4 1 0; 1 4 1 0; 2 0 0 0; 3 0 0 0; 3 1 0 0; 4 1 0 0; 6 0 0 0; 4 1 0 0; 6 1 0 0; 4 2 0 0",
    ),
    ("a safepoint's result is not on its list", "1 4 1 0; 2 0 0 0; 4 1 0 0; 5 0 0 0; 4 2 0 0; 6 0 0 0"),
    ("a terminator that is a safepoint, its own argument", "1 4 1 0; 2 0 0 0; 3 0 0 0; 4 3 0 0; 6 0 0 0"),
    (
        "flags 2: edge arguments loaded before the terminator, after its arguments",
        "1 4 1 0; 1 4 1 0; 1 4 0 0; 1 4 0 0; 2 0 0 0; 3 0 0 0; 3 1 0 0; 4 1 0 0; 4 2 0 0; 6 1 0 0; 7 1 0 0; \
            8 0 0 0; 7 2 0 0; 8 0 1 0; 2 0 1 0; 3 2 0 0; 4 2 0 0; 2 0 2 0; 3 3 0 0; 4 2 0 0",
    ),
    (
        "flags 2: the same value twice on an edge",
        "1 4 1 0; 1 4 0 0; 1 4 0 0; 2 0 0 0; 3 0 0 0; 4 1 0 0; 4 2 0 0; 7 1 0 0; 8 0 0 0; 8 0 0 0; 2 0 1 0; \
            3 1 0 0; 3 2 0 0; 4 2 0 0",
    ),
    (
        "flags 3: returned, spilled, exception, other, mixed in one landing",
        "1 4 1 0; 1 8 0 0; 1 2 0 0; 1 4 0 0; 1 16 0 0; 1 8 0 0; 1 4 0 0; 2 0 0 0; 3 0 0 0; 3 1 0 0; 4 3 5 0; \
            6 0 0 0; 7 1 0 0; 8 1 7 0; 8 0 0 0; 8 2 9 0; 8 0 1 0; 8 0 0 0; 2 0 1 0; 3 2 0 0; 3 3 0 0; 3 4 0 0; \
            3 5 0 0; 3 6 0 0; 4 2 0 0",
    ),
    (
        "flags 3: two edges to one target, a landing each",
        "1 4 1 0; 1 4 1 0; 2 0 0 0; 3 0 0 0; 4 3 0 0; 7 1 0 0; 8 0 0 0; 7 1 0 0; 8 0 0 0; 2 0 1 0; 3 1 0 0; \
            4 2 0 0; 6 1 0 0",
    ),
    (
        "flags 3: three edges, the middle one without a landing",
        "1 4 1 0; 1 4 1 0; 1 4 1 0; 2 0 0 0; 3 0 0 0; 4 3 0 0; 7 1 0 0; 8 0 0 0; 7 2 0 0; 8 1 0 0; 7 1 0 0; \
            8 0 0 0; 2 0 1 0; 3 1 0 0; 4 2 0 0; 2 0 2 0; 3 2 0 0; 4 2 0 0; 6 2 0 0",
    ),
    (
        "flags 3: an edge that passes an unmarked value stays",
        "1 4 0 0; 1 4 0 0; 1 4 1 0; 2 0 0 0; 3 0 0 0; 3 2 0 0; 4 3 0 0; 7 1 0 0; 8 0 0 0; 2 0 1 0; 3 1 0 0; \
            4 2 0 0; 6 2 0 0",
    ),
    (
        "flags 3: a cold target and a cold block, the landing is not",
        "1 4 1 0; 1 4 0 0; 2 1 0 0; 3 0 0 0; 4 3 0 0; 7 1 0 0; 8 0 0 0; 2 1 1 0; 3 1 0 0; 4 2 0 0",
    ),
    (
        "flags 3: a loop that passes to itself through its landing",
        "1 4 1 0; 1 4 1 0; 2 0 0 0; 3 0 0 0; 4 2 0 0; 7 1 0 0; 8 0 0 0; 2 0 1 0; 3 1 0 0; 4 3 0 0; 7 1 0 0; \
            8 0 1 0; 7 2 0 0; 2 0 2 0; 4 2 0 0",
    ),
    (
        "flags 3: contexts stand before map entries",
        "1 8 0 0; 1 4 1 0; 1 4 0 0; 2 0 0 0; 3 0 0 0; 3 1 0 0; 4 3 0 0; 7 1 0 0; 8 0 1 0; 9 0 0 0; 9 0 0 0; \
            2 0 1 0; 3 2 0 0; 4 2 0 0",
    ),
    (
        "flags 3: a list with a value that is live-out and one that is passed",
        "1 4 1 0; 1 4 1 0; 1 4 0 0; 2 0 0 0; 3 1 0 0; 3 0 0 0; 4 3 0 0; 6 1 0 0; 7 1 0 0; 8 0 1 0; 2 0 1 0; \
            3 2 0 0; 4 2 0 0; 6 0 0 0",
    ),
    (
        "landings of two blocks: numbers by index, places by layout",
        "1 4 1 0; 1 4 1 0; 1 4 0 0; 2 0 0 0; 3 0 0 0; 4 3 0 0; 7 1 0 0; 8 0 0 0; 2 0 1 0; 3 1 0 0; 4 3 0 0; \
            7 2 0 0; 8 0 1 0; 2 0 2 0; 3 2 0 0; 4 2 0 0",
    ),
    (
        "early slots go ascending to live-out",
        "1 4 1 0; 1 4 1 0; 1 4 1 0; 2 0 0 0; 3 2 0 0; 3 0 0 0; 3 1 0 0; 4 2 0 0; 7 1 0 0; 2 0 1 0; 4 1 0 0; \
            6 2 0 0; 4 2 0 0; 6 2 0 0; 6 1 0 0; 6 0 0 0; 7 1 0 0",
    ),
    (
        "a value live through a loop keeps its slot from one defined in it",
        "1 8 1 0; 1 8 1 0; 1 8 1 0; 2 0 0 0; 3 0 0 0; 4 2 0 0; 7 1 0 0; 2 0 1 0; 4 0 0 0; 5 1 0 0; 4 1 0 0; \
            4 0 0 0; 6 1 0 0; 5 2 0 0; 4 1 0 0; 4 2 0 0; 6 2 0 0; 7 1 0 0; 7 2 0 0; 2 0 2 0; 4 2 0 0; 6 0 0 0",
    ),
    (
        "a safepoint's list is ascending though uses are not",
        "1 4 1 0; 1 4 1 0; 1 4 1 0; 2 0 0 0; 3 2 0 0; 3 0 0 0; 3 1 0 0; 4 1 0 0; 4 2 0 0; 6 2 0 0; 6 0 0 0; \
            6 1 0 0",
    ),
    (
        "an unreachable block that reads a spilled value is copied",
        "1 4 1 0; 1 4 1 0; 2 0 0 0; 3 0 0 0; 4 1 0 0; 4 2 0 0; 6 0 0 0; 2 1 1 0; 4 1 0 0; 5 1 0 0; 4 3 0 0; \
            6 0 0 0; 7 1 0 0; 9 0 0 0",
    ),
    ("an unreachable block's use is no use", "1 4 1 0; 2 0 0 0; 3 0 0 0; 4 1 0 0; 4 2 0 0; 2 0 1 0; 4 2 0 0; 6 0 0 0"),
    (
        "an edge from an unreachable block is no predecessor",
        "1 4 1 0; 2 0 0 0; 3 0 0 0; 4 2 0 0; 7 2 0 0; 2 0 1 0; 4 2 0 0; 7 2 0 0; 2 0 2 0; 4 1 0 0; 4 2 0 0; \
            6 0 0 0",
    ),
    (
        "two edges to one target: a predecessor pushed once an edge",
        "1 4 1 0; 2 0 0 0; 3 0 0 0; 4 2 0 0; 7 1 0 0; 7 1 0 0; 2 0 1 0; 4 2 0 0; 6 0 0 0",
    ),
    (
        "edges in file order decide the indices, and with them the slots",
        "1 4 1 0; 1 4 1 0; 2 0 0 0; 3 0 0 0; 3 1 0 0; 4 2 0 0; 7 2 0 0; 7 1 0 0; 2 0 1 0; 4 1 0 0; 4 2 0 0; \
            6 0 0 0; 2 0 2 0; 4 1 0 0; 4 2 0 0; 6 1 0 0",
    ),
    (
        "the same with the edges the other way round",
        "1 4 1 0; 1 4 1 0; 2 0 0 0; 3 0 0 0; 3 1 0 0; 4 2 0 0; 7 1 0 0; 7 2 0 0; 2 0 1 0; 4 1 0 0; 4 2 0 0; \
            6 0 0 0; 2 0 2 0; 4 1 0 0; 4 2 0 0; 6 1 0 0",
    ),
    ("a loop of one block that uses nothing", "2 0 0 0; 4 2 0 0; 7 1 0 0; 2 0 1 0; 4 2 0 0; 7 1 0 0"),
    (
        "two loops, one in the other",
        "1 4 1 0; 1 4 1 0; 2 0 0 0; 3 0 0 0; 4 2 0 0; 7 1 0 0; 2 0 1 0; 4 0 0 0; 5 1 0 0; 4 2 0 0; 7 2 0 0; \
            2 0 2 0; 4 1 0 0; 4 2 0 0; 6 1 0 0; 7 2 0 0; 7 3 0 0; 2 0 3 0; 4 2 0 0; 7 1 0 0; 7 4 0 0; 2 0 4 0; \
            4 2 0 0; 6 0 0 0",
    ),
    (
        "a loop entered at two places",
        "1 4 1 0; 2 0 0 0; 3 0 0 0; 4 2 0 0; 7 1 0 0; 7 2 0 0; 2 0 1 0; 4 1 0 0; 4 2 0 0; 7 2 0 0; 2 0 2 0; \
            4 0 0 0; 6 0 0 0; 4 2 0 0; 7 1 0 0; 7 3 0 0; 2 0 3 0; 4 2 0 0; 6 0 0 0",
    ),
    (
        "a ladder of diamonds: visits above the number of blocks",
        "1 4 1 0; 2 0 0 0; 3 0 0 0; 4 2 0 0; 7 1 0 0; 7 2 0 0; 2 0 1 0; 4 2 0 0; 7 3 0 0; 2 0 2 0; 4 2 0 0; \
            7 3 0 0; 2 0 3 0; 4 2 0 0; 7 4 0 0; 7 5 0 0; 2 0 4 0; 4 2 0 0; 7 6 0 0; 2 0 5 0; 4 1 0 0; 4 2 0 0; \
            7 6 0 0; 2 0 6 0; 4 2 0 0; 6 0 0 0",
    ),
    (
        "a parameter that shadows nothing: passed, then live in the target",
        "1 4 1 0; 1 4 1 0; 2 0 0 0; 3 0 0 0; 4 2 0 0; 7 1 0 0; 8 0 0 0; 2 0 1 0; 3 1 0 0; 4 1 0 0; 4 2 0 0; \
            6 1 0 0",
    ),
    (
        "a value without use, spilled nowhere, beside one that is",
        "1 4 1 0; 1 4 1 0; 2 0 0 0; 3 0 0 0; 3 1 0 0; 4 1 0 0; 4 2 0 0; 6 1 0 0",
    ),
    (
        "marked size 33 that is not live across",
        "1 33 1 0; 1 4 1 0; 2 0 0 0; 3 0 0 0; 3 1 0 0; 4 0 0 0; 6 0 0 0; 4 1 0 0; 4 2 0 0; 6 1 0 0",
    ),
];

/// Some path reads a value that it has not set. Accepted, and comes out by the rules alone.
pub const UNDOMINATED: &[(&str, &str)] = &[
    (
        "undominated: used before its definition in one block, no store",
        "1 4 1 0; 2 0 0 0; 4 1 0 0; 4 0 0 0; 6 0 0 0; 4 0 0 0; 5 0 0 0; 4 2 0 0",
    ),
    (
        "undominated: spilled above, its result has no slot yet",
        "1 4 1 0; 2 0 0 0; 4 1 0 0; 4 1 0 0; 6 0 0 0; 4 0 0 0; 5 0 0 0; 4 1 0 0; 4 2 0 0",
    ),
    (
        "undominated: a freed slot is taken by another, and one safepoint lists it twice",
        "1 4 1 0; 1 4 1 0; 2 0 0 0; 3 1 0 0; 4 1 0 0; 4 0 0 0; 6 0 0 0; 6 1 0 0; 4 0 0 0; 5 0 0 0; 4 1 0 0; \
            4 2 0 0; 6 0 0 0",
    ),
    (
        "undominated: the same with a third value, which gets a slot of its own",
        "1 4 1 0; 1 4 1 0; 1 4 1 0; 2 0 0 0; 3 2 0 0; 3 1 0 0; 4 1 0 0; 4 0 0 0; 6 2 0 0; 6 0 0 0; 6 1 0 0; \
            4 0 0 0; 5 0 0 0; 4 1 0 0; 4 2 0 0; 6 0 0 0",
    ),
    (
        "undominated: live at the entry of block 0",
        "1 4 1 0; 2 0 0 0; 4 2 0 0; 7 1 0 0; 2 0 1 0; 4 1 0 0; 6 0 0 0; 4 0 0 0; 5 0 0 0; 4 2 0 0; 7 1 0 0",
    ),
    (
        "undominated: defined only in an unreachable block",
        "1 4 1 0; 2 0 0 0; 4 1 0 0; 4 2 0 0; 6 0 0 0; 2 0 1 0; 4 0 0 0; 5 0 0 0; 4 2 0 0",
    ),
    (
        "undominated: defined on one arm of a diamond",
        "1 4 1 0; 2 0 0 0; 4 2 0 0; 7 1 0 0; 7 2 0 0; 2 0 1 0; 4 0 0 0; 5 0 0 0; 4 2 0 0; 7 3 0 0; 2 0 2 0; \
            4 1 0 0; 4 2 0 0; 7 3 0 0; 2 0 3 0; 4 2 0 0; 6 0 0 0",
    ),
    (
        "undominated: the two runs disagree on path 0, 1, 2, 1, 3",
        "1 4 1 0; 1 4 1 0; 1 4 1 0; 2 0 0 0; 4 2 0 0; 7 1 0 0; 2 0 1 0; 4 0 0 0; 5 0 0 0; 4 1 0 0; 4 0 0 0; \
            6 0 0 0; 4 2 0 0; 7 2 0 0; 7 3 0 0; 8 0 1 0; 2 0 2 0; 4 0 0 0; 5 1 0 0; 4 2 0 0; 7 1 0 0; 2 0 3 0; \
            3 2 0 0; 4 2 0 0; 6 2 0 0",
    ),
    (
        "undominated: a parameter read before its block is entered",
        "1 4 1 0; 1 4 1 0; 2 0 0 0; 3 0 0 0; 4 1 0 0; 4 2 0 0; 6 1 0 0; 7 1 0 0; 8 0 0 0; 2 0 1 0; 3 1 0 0; \
            4 1 0 0; 4 2 0 0; 6 1 0 0",
    ),
];
