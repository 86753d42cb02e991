/*
 * Threshskiff: a compiler pass that decides which references must lie in stack slots at each call where memory may be collected, and
 * rewrites the function with stores, reloads and stack maps.
 *
 * Link target/staticlib/libthreshskiff.a, which `.ci/library` makes: for x86-64 with the System V calling convention alone.
 * It needs memset of the C library, and nothing else.
 *
 * Every function here is proved to meet what its comment says, for all bytes and all numbers that it is handed: it ends, it touches nothing
 * outside the buffers lent to it, and its answer and every lent buffer, to its end, are fixed by what was handed in, refused or not.
 *
 * WHAT A CALLER OWES
 *
 *   - A buffer is an address and a length in elements: bytes, 32-bit or 64-bit words, as its type says. All of it is memory that may be read,
 *     and written where the pointer is not to const, and it is set to some value before the call.
 *   - No address is null or misaligned for its element, also where the length is 0: then any address that is aligned and not null will do,
 *     and no memory need be there.
 *   - No buffer has more than PTRDIFF_MAX bytes.
 *   - A buffer that is written overlaps no other buffer of the same call. The two buffers of threshskiff_final are only read and may overlap.
 *   - Nobody else writes any of the buffers during the call, or reads one that is written.
 *   - 256 KiB of stack. Nothing computes a bound of it; that much is tested.
 *
 * The library allocates nothing, keeps nothing from one call to the next and has no variables of its own, so threads may call it at one time
 * with buffers of their own.
 *
 * THE FUNCTION FILE
 *
 * Records of 16 bytes, no header: four unsigned 32-bit little-endian words, the first a kind. Largest counts: 2,048 records, 512 values,
 * 64 blocks, 1,024 instructions, 256 edges. README.md has the table of kinds, the order and an example; a file is any bytes, and a call says no to
 * what is none.
 */
#ifndef THRESHSKIFF_H
#define THRESHSKIFF_H

#if !defined(__x86_64__) || defined(_WIN32) || defined(__ILP32__)
#error "the library is for x86-64 with the System V calling convention and 64-bit pointers alone"
#endif

#include <stddef.h>
#include <stdint.h>

#ifdef __cplusplus
extern "C" {
#endif

/*
 * Why a call says no, as the number `refusal` of its answer. The lowest number that applies is given; 0 where none does.
 *
 * A refusal writes 0 to all of each lent output, is not "unchanged", and all its counts are 0; but with THRESHSKIFF_TOO_SHORT the count of
 * records, or of a list, tells the length needed.
 */
enum {
    THRESHSKIFF_ACCEPTED = 0,
    /* the pointer size is neither 4 nor 8 (rewriting only) */
    THRESHSKIFF_POINTER_SIZE = 1,
    /* the length is not a multiple of 16 */
    THRESHSKIFF_LENGTH = 2,
    /* the records, or those of kind 1, 2, 4 or 7, are more than the largest count */
    THRESHSKIFF_TOO_MANY = 3,
    /* records out of order, or a word outside the table of kinds; no block; a block's number is not its position */
    THRESHSKIFF_MALFORMED = 4,
    /* a value or a block that is not in the file */
    THRESHSKIFF_NOT_IN_FILE = 5,
    /* a value is not defined exactly once, by parameter or result */
    THRESHSKIFF_NOT_DEFINED_ONCE = 6,
    /* a block does not end in its one terminator; results on a terminator; edges or contexts where the flags forbid them; an edge to block 0;
     * edge arguments 1 or 2 where the flags are not 3; edge arguments that are not as many as the target's parameters, or a value of another size */
    THRESHSKIFF_UNSOUND = 7,
    /* a marked context in a reachable block */
    THRESHSKIFF_MARKED_CONTEXT = 8,
    /* a value live across some reachable safepoint has a size other than 1, 2, 4, 8, 16 (rewriting only) */
    THRESHSKIFF_SLOT_SIZE = 9,
    /* the instruction asked for is not a reachable safepoint (list only) */
    THRESHSKIFF_NO_SAFEPOINT = 10,
    /* a lent output is too short */
    THRESHSKIFF_TOO_SHORT = 11
};

/* How many 64-bit words each live table needs: eight a block, for 64 blocks. */
#define THRESHSKIFF_TABLE_WORDS 512

/* How many bytes a record has. */
#define THRESHSKIFF_RECORD_BYTES 16

/* What liveness answers. */
typedef struct {
    uint32_t refusal;
    uint32_t visits; /* how many visits the worklist made, and how many pushes */
    uint32_t pushes;
} threshskiff_liveness_answer;

/* What the list of one safepoint answers. */
typedef struct {
    uint32_t refusal;
    uint32_t count; /* how many values are on the list; with THRESHSKIFF_TOO_SHORT the length needed, in words */
} threshskiff_list_answer;

/* What rewriting answers. */
typedef struct {
    uint32_t refusal;
    uint32_t records; /* how many records the final function has; with THRESHSKIFF_TOO_SHORT how many the output needs */
    uint32_t slots;
    uint32_t landings; /* landing blocks */
    uint32_t visits;
    uint32_t pushes;
    uint32_t unchanged; /* 1 where no value is spilled: the final function is the input; else 0 */
} threshskiff_rewriting_answer;

/* Where the final records are: `length` bytes from byte `offset` of the output, where of_output is 1, or of the input, where it is 0. */
typedef struct {
    uint32_t of_output;
    size_t offset;
    size_t length;
} threshskiff_final_part;

/*
 * The lowest refusal of 2 to 8 that applies to a file, 0 where none does: the other services then refuse by 1, 9, 10 or 11 alone.
 */
uint32_t threshskiff_check(const uint8_t *file, size_t file_length);

/*
 * Liveness. Each table gets a row of eight words for each block, by its number: value n is at bit n mod 64 of word n / 64. Rows of
 * unreachable blocks, and whatever lies behind the rows, are 0.
 *
 * Refusals: 2 to 8; 11 where a table has fewer than THRESHSKIFF_TABLE_WORDS words: then both tables and both counts are 0.
 */
threshskiff_liveness_answer threshskiff_liveness(const uint8_t *file, size_t file_length, uint64_t *live_in, size_t live_in_words,
                                                 uint64_t *live_out, size_t live_out_words);

/*
 * The list of one safepoint: the numbers of the values that are live across it, ascending, at the front of `numbers`; what lies behind them
 * is 0. Instructions are numbered from 0 by their position in the file.
 *
 * Refusals: 2 to 8; 10, also for a number that no instruction has; 11 where `numbers` is shorter than the list, with the count needed. A
 * list without values needs no room.
 */
threshskiff_list_answer threshskiff_list(const uint8_t *file, size_t file_length, uint32_t instruction, uint32_t *numbers,
                                         size_t numbers_length);

/*
 * Rewriting. The records of the rewritten function at the front of the output; what lies behind them is 0. Where no value is spilled the
 * answer is "unchanged": then the output is all 0, `records` is the input's, and no output is needed.
 *
 * Refusals: 1 to 9; 11 where the output has fewer than records x THRESHSKIFF_RECORD_BYTES bytes: of the counts, `records` alone is given.
 */
threshskiff_rewriting_answer threshskiff_rewrite(const uint8_t *file, size_t file_length, uint32_t pointer_size, uint8_t *output,
                                                 size_t output_length);

/*
 * The final records: the first records x THRESHSKIFF_RECORD_BYTES bytes of the input, where the answer is unchanged, else of the output.
 * They are empty, of length 0, for a refusal or where that buffer is shorter. of_output is 1 where `unchanged` is 0, else 0; the offset is 0.
 *
 * The answer may be any numbers, also ones that no call gave: any `refusal` but 0 refuses, and any `unchanged` but 0 is "unchanged".
 */
threshskiff_final_part threshskiff_final(threshskiff_rewriting_answer answer, const uint8_t *input, size_t input_length,
                                         const uint8_t *output, size_t output_length);

#ifdef __cplusplus
}
#endif

#endif
