/*
 * An example in C: reads a function file, asks every service of the library about it, and prints what they answer, a record a line.
 * usage: spill FILE
 */
#include "threshskiff.h"

#include <inttypes.h>
#include <stdio.h>
#include <stdlib.h>

/* The largest count of records, and one more, so that a longer file is refused for its count. */
#define LARGEST (2048 * THRESHSKIFF_RECORD_BYTES)

static uint8_t file[LARGEST + THRESHSKIFF_RECORD_BYTES];
static uint64_t live_in[THRESHSKIFF_TABLE_WORDS];
static uint64_t live_out[THRESHSKIFF_TABLE_WORDS];
static uint32_t numbers[512];

static size_t read_file(const char *name)
{
    FILE *from = fopen(name, "rb");
    size_t length;
    if (from == NULL) {
        perror(name);
        exit(EXIT_FAILURE);
    }
    length = fread(file, 1, sizeof file, from);
    fclose(from);
    return length;
}

static uint32_t word_at(const uint8_t *bytes)
{
    return bytes[0] | (uint32_t)bytes[1] << 8 | (uint32_t)bytes[2] << 16 | (uint32_t)bytes[3] << 24;
}

static void print_records(const uint8_t *bytes, size_t length)
{
    for (size_t at = 0; at + THRESHSKIFF_RECORD_BYTES <= length; at += THRESHSKIFF_RECORD_BYTES) {
        printf("  %" PRIu32 " %" PRIu32 " %" PRIu32 " %" PRIu32 "\n", word_at(bytes + at), word_at(bytes + at + 4), word_at(bytes + at + 8),
               word_at(bytes + at + 12));
    }
}

static void print_liveness(size_t length)
{
    threshskiff_liveness_answer answer =
        threshskiff_liveness(file, length, live_in, THRESHSKIFF_TABLE_WORDS, live_out, THRESHSKIFF_TABLE_WORDS);
    printf("liveness: refusal %" PRIu32 ", %" PRIu32 " visits, %" PRIu32 " pushes\n", answer.refusal, answer.visits, answer.pushes);
}

/* The lists of all safepoints. An instruction beyond the last is refused like one that is no safepoint, so the count of records is a bound. */
static void print_lists(size_t length)
{
    for (uint32_t instruction = 0; instruction < length / THRESHSKIFF_RECORD_BYTES; instruction++) {
        threshskiff_list_answer answer = threshskiff_list(file, length, instruction, numbers, sizeof numbers / sizeof numbers[0]);
        if (answer.refusal != THRESHSKIFF_ACCEPTED) {
            continue;
        }
        printf("list of instruction %" PRIu32 ":", instruction);
        for (uint32_t at = 0; at < answer.count; at++) {
            printf(" v%" PRIu32, numbers[at]);
        }
        printf("\n");
    }
}

/* Asks first with no room at all, to learn how much is needed. The address of a buffer without length is still an address. */
static void print_rewriting(size_t length)
{
    uint8_t none = 0;
    uint8_t *output = &none;
    size_t output_length = 0;
    threshskiff_rewriting_answer answer = threshskiff_rewrite(file, length, 8, output, 0);
    threshskiff_final_part part;
    if (answer.refusal == THRESHSKIFF_TOO_SHORT) {
        output_length = (size_t)answer.records * THRESHSKIFF_RECORD_BYTES;
        printf("rewriting needs %zu bytes\n", output_length);
        output = calloc(output_length, 1);
        if (output == NULL) {
            perror("calloc");
            exit(EXIT_FAILURE);
        }
        answer = threshskiff_rewrite(file, length, 8, output, output_length);
    }
    printf("rewriting: refusal %" PRIu32 ", %" PRIu32 " records, %" PRIu32 " slots, %" PRIu32 " landings, %s\n", answer.refusal,
           answer.records, answer.slots, answer.landings, answer.unchanged ? "unchanged" : "changed");
    part = threshskiff_final(answer, file, length, output, output_length);
    printf("final records: %zu bytes from %zu of the %s\n", part.length, part.offset, part.of_output ? "output" : "input");
    print_records((part.of_output ? output : file) + part.offset, part.length);
    if (output != &none) {
        free(output);
    }
}

int main(int count, char **arguments)
{
    size_t length;
    if (count != 2) {
        fprintf(stderr, "usage: spill FILE\n");
        return EXIT_FAILURE;
    }
    length = read_file(arguments[1]);
    printf("check: refusal %" PRIu32 "\n", threshskiff_check(file, length));
    print_liveness(length);
    print_lists(length);
    print_rewriting(length);
    return EXIT_SUCCESS;
}
