//! What the fixed list says of itself.

/// The head, without the lines that name the longest file and output.
pub const HEAD: &str = "\
# Whole answers of the four services on small files.
#
# Made by `cargo run --release -- fixed --write` in oracle/, from the cases in oracle/src/fixed and the generator's seed
# SEED; `fixed --check` makes it again, wants the same bytes, and replays it. The answers are the plain decision's, and
# where the source module can run a file, its answers are the same (but for the cold word of a landing).
#
# A line is a letter and decimal numbers, each after one blank; a line feed ends it. Lines that start with # say nothing
# to a program. All numbers are below 2^32 but the words of rows (I, O) and those of line G, which are below 2^64.
#
# N number            the next file, from 1. Everything up to the next N, G or E is about it.
# B length            its length in bytes: length / 16 records, then length mod 16 bytes.
# R times a b c d     so many records of these words, in order; as many lines as it takes to reach length / 16.
# X byte ..           the length mod 16 bytes behind the last whole record; no line where there is none.
# L in out refusal visits pushes live-ins live-outs
#                     liveness with tables of so many words lent, then how many rows I and O follow. All else in both
#                     tables is 0.
# I block w0 .. w7    a row of live-in that is not 0, by ascending block.
# O block w0 .. w7    a row of live-out that is not 0.
# Q instruction lent refusal count
#                     the list of an instruction, with so many words lent. Where refusal is 0 and count is not, line V
#                     follows.
# V value ..          the list, count numbers; behind it 0. After any other answer the whole lent list is 0.
# W pointer lent refusal records slots landings visits pushes unchanged
#                     rewriting with so many bytes lent.
# T times a b c d     the output's records, behind the first W of a pointer size with refusal 0 and unchanged 0. A later W
#                     of that file and pointer size with refusal 0 has the same. Behind them 0. Else the whole output
#                     is 0.
# F buffer length     the final records of the W before (and of its buffers): a part of the input (0) or of the output
#                     (1), its first length bytes. An empty part is written 0 0, whichever buffer it is of.
# P refusal length    the program on this file: refusal and 0, or 0 and the length of the final records that it writes,
#                     which are those of pointer size 8.
# G refusal unchanged records input output buffer length
#                     the final records of an answer that no call need have given (its other counts 0), with buffers of
#                     so many bytes, as in F. A party whose counts are narrower than a number here leaves the line out.
# E files             the end, and how many files there were.
";
