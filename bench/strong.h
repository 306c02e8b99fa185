/* Stronger C beside plain.h and plain_original.h, for benchmarks: the same calls and the same answers, by what makes hand-written C fast.
   The kit check adds whole rows of W for the few ones of a row of A; the decoder sums each word once and keeps its remainder from then on. */

#ifndef STRONG_H
#define STRONG_H

#include "plain_original.h"

/* As plain_check_kit. A row of A W is the sum of the rows of W at the ones of a row of A, at most 2 r of them, in words of 64 bits: about
   (M r)^2 r / 64 steps. */
int strong_check_kit(unsigned m, unsigned t, unsigned M, const uint8_t *self, const uint8_t *parity, const uint8_t *inverse, uint64_t *place);

/* As plain_decode. Each turned bit is added to the remainder of the other word that has it; words in the code, and words that were found stuck and
   have not changed since, are passed over. All tables are made within the call, and 4 bytes kept for each of the frame's words. */
int strong_decode(unsigned m, unsigned t, unsigned M, unsigned L, unsigned rounds, const plain_frame *lent, uint64_t counts[PLAIN_COUNTS],
                  uint64_t *place);

/* As plain_window, by the kept remainders of strong_decode: the frame is summed once for all positions. */
int strong_window(unsigned m, unsigned t, unsigned M, unsigned L, unsigned rounds, unsigned window, const plain_frame *lent,
                  uint64_t counts[PLAIN_COUNTS], uint64_t *place);

/* As plain_original_decode, by kept remainders as strong_decode. */
int strong_original_decode(unsigned m, unsigned t, unsigned M, unsigned L, unsigned rounds, uint8_t *buffer, size_t length, uint64_t counts[PLAIN_COUNTS],
                           uint64_t *place);

#endif
