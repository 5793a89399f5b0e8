/* The proved entries of target/staticlib/liblaptop.a.
 *
 * They take numbers and byte slices only. A slice is a pointer and a length in bytes; the pointer
 * is not null, also where the length is 0. What is written must not overlap what is read: the
 * proofs are about slices that stand apart. A refusal writes nothing. */
#ifndef RACK_H
#define RACK_H

#include <stddef.h>
#include <stdint.h>

/* Settles m arbitration lines, which carry `start`, for the competing numbers.
 *
 * Numbers and stages are entries of two bytes each, low byte first; an odd last byte is passed
 * over. Returns t + 256 * matches. t is the number of stages, at most 12: entries 0 to t of
 * `stages` then hold the lines after each stage, entry 0 the start, and the entries beyond keep
 * their contents. `matches` says how many of the numbers equal the settled lines, 0 for an empty
 * list: more than 1 and cards show the same number. So t is what is returned % 256, `matches`
 * what is returned / 256. Or returns 100 plus the refusal, 21 to 25, which no settling returns.
 * `numbers` and `stages` may not overlap: every stage reads the numbers again, and the stages
 * before it have been written by then. */
uint32_t rack_settle(uint32_t m, const uint8_t *numbers, size_t numbers_len, uint8_t *stages,
                     size_t stages_len, uint32_t start);

/* Judges a card table as it stands on file. Returns the refusal, 1 to 7, or 0. */
uint32_t rack_check(const uint8_t *file, size_t len);

/* Reads a card table as it stands on file.
 *
 * Returns 0 and writes 66 bytes to `out`: the number width k, the rule, and the slots of the
 * numbers 0 to 63, 0 for a number that no card has. Bytes of `out` beyond keep their contents.
 * Or returns the refusal: 1 to 7 as rack_check does, then 8 where out_len is under 66. */
uint32_t rack_table(const uint8_t *file, size_t len, uint8_t *out, size_t out_len);

#endif
