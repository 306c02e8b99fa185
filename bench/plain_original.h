/* Plain C for document 02's original staircase frames, beside plain.h: a baseline for benchmarks, an opponent for tests.

   A frame is one buffer of L blocks of M * M bytes, one bit a byte, row by row. Word a of a block has 2 M positions: column a of the block before, then row
   a of the block itself, whose last r bits are parity. Block 0 is zero and not sent. */

#ifndef PLAIN_ORIGINAL_H
#define PLAIN_ORIGINAL_H

#include "plain.h"

/* Rules 1, 2 (with 2 M for n), 19, 4, 6 (the buffer, place 4) and 10 over the first M - r columns: 0 and the last r columns of each block written, or the
   rule's number, its place and nothing written. A block's remainders are taken eight bits at a time, about 2 M / 8 steps a word. */
int plain_original_encode(unsigned m, unsigned t, unsigned M, unsigned L, uint8_t *buffer, size_t length, uint64_t *place);

/* The same rules, 10 over all bytes: 0 and the number of words outside the code, or the rule's number, its place and no words. Changes no bit. */
int plain_original_words(unsigned m, unsigned t, unsigned M, unsigned L, const uint8_t *buffer, size_t length, uint64_t *outside, uint64_t *place);

/* The same rules, and 5 after 4. Mends the buffer by rounds over the blocks, in each the rows 0 to M - 1 (0 stands for 12); counts as plain_decode's. A
   block's remainders are taken anew in each round. */
int plain_original_decode(unsigned m, unsigned t, unsigned M, unsigned L, unsigned rounds, uint8_t *buffer, size_t length, uint64_t counts[PLAIN_COUNTS],
                          uint64_t *place);

#endif
