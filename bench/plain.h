/* A plain C implementation of document 01 (feed-forward staircase frames and their kits), of document 02's test load and of its sliding window: a baseline for benchmarks, an opponent for tests.

   Common to all calls: lists have two bytes an entry, low byte first; the inverse has M * r rows of (M * r + 7) / 8 bytes; info and red hold one
   bit a byte, info L * M * M bytes, red (L + 1) / 2 * 2 * M * r bytes. A call judges what its comment says; otherwise it wants a design that fits,
   lists that are permutations, L from 1 to 4,096 and bytes of 0 or 1. A want of memory ends the program. */

#ifndef PLAIN_H
#define PLAIN_H

#include <stddef.h>
#include <stdint.h>

enum { PLAIN_MAX_L = 4096 };

typedef struct {
    unsigned r, n, k, size;     /* size is M * r */
} plain_sizes;

/* Rules 1 to 3: 0 and the sizes, or the rule's number and its place. */
int plain_design(unsigned m, unsigned t, unsigned M, plain_sizes *sizes, uint64_t *place);

/* The generator, bit i for x^i: the product of the minimal polynomials of the odd powers 1 .. 2t-1 of the root. */
uint32_t plain_generator(unsigned m, unsigned t);

/* The remainder of x^power by the generator. */
uint32_t plain_power(unsigned m, unsigned t, unsigned power);

/* The matrix A, row by row, one bit a byte. */
void plain_system(unsigned m, unsigned t, unsigned M, const uint8_t *self, const uint8_t *parity, uint8_t *bits);

/* Rules 1 to 3 and 7 to 9: 0 if the kit passes, else the rule's number and its place.
   The product A W is dense: each entry by and, xor and parity over 64-bit words, about (M r)^3 / 64 steps. */
int plain_check_kit(unsigned m, unsigned t, unsigned M, const uint8_t *self, const uint8_t *parity, const uint8_t *inverse, uint64_t *place);

/* Writes the redundancy of L blocks. The kit is not checked; about (M r)^2 / 64 steps a group, and the inverse is packed once a call. */
void plain_encode(unsigned m, unsigned t, unsigned M, unsigned L, const uint8_t *self, const uint8_t *parity, const uint8_t *inverse,
                  const uint8_t *info, uint8_t *red);

/* What the word checker and the decoder are lent. */
typedef struct {
    const uint8_t *self, *parity;
    uint8_t *info, *red;
    size_t self_length, parity_length, info_length, red_length;
} plain_frame;

/* Rules 1 to 4, 6, 7 and 10: 0 and the number of words outside the code, or the rule's number, its place and no words. Changes no bit. */
int plain_words(unsigned m, unsigned t, unsigned M, unsigned L, const plain_frame *lent, uint64_t *outside, uint64_t *place);

/* What a decoder counts: rounds made, bits in which the mended frame differs from the copy, words outside at the end, stuck words of the last round. */
enum { PLAIN_COUNTS = 4 };

/* Rules 1 to 7 and 10: 0, or the rule's number and its place. Mends info and red by the document's rounds (0 stands for 12); the counts are all 0 if
   refused. A frame is copied, a byte a bit, before its first turn, and compared at the end. A group's remainders are taken anew in each round, about n / 8 steps a word; the errors of a word are then found in a fixed number of
   steps. */
int plain_decode(unsigned m, unsigned t, unsigned M, unsigned L, unsigned rounds, const plain_frame *lent, uint64_t counts[PLAIN_COUNTS],
                 uint64_t *place);

/* Rules 1 to 5, 18, 6, 7 and 10, the rest as plain_decode: rounds over the groups that a window of so many holds, at each of its positions from group 1 to
   the last from which it is within the frame, or at group 1 alone. Rounds are summed over positions, the stuck words are those of the last round at the
   last position, and the other two counts are of the whole frame. Every round takes the remainders of the window's groups anew. */
int plain_window(unsigned m, unsigned t, unsigned M, unsigned L, unsigned rounds, unsigned window, const plain_frame *lent,
                 uint64_t counts[PLAIN_COUNTS], uint64_t *place);

/* The first byte above 1, or the length. */
size_t plain_first_bad_bit(const uint8_t *bytes, size_t length);

/* Makes W by elimination, one column at a time: 1 and the inverse written, or 0 and nothing written if A has no inverse. */
int plain_make_inverse(unsigned m, unsigned t, unsigned M, const uint8_t *self, const uint8_t *parity, uint8_t *inverse);

/* Rules 1 to 3, 7 and 14: 0 and the inverse written, or the rule's number and its place and nothing written. Elimination by byte tables: eight columns
   at a time are cleared in every row by one of 256 sums of their unit rows, about 3 (M r)^3 / 1024 steps. */
int plain_make(unsigned m, unsigned t, unsigned M, const uint8_t *self, const uint8_t *parity, uint8_t *inverse, uint64_t *place);

/* The test load of document 02. Both start from a seed and return the last state: a step a bit, the highest bit of each state; a draw of 16 steps a
   bit, which turns it where the drawn number is below the limit. A frame's redundancy goes on from the state after its information. */
uint32_t plain_load_fill(uint32_t seed, uint8_t *bits, size_t count);
uint32_t plain_load_errors(uint32_t seed, uint64_t limit, uint8_t *bits, size_t count);

/* Steps a xorshift state (not 0) and returns 32 bits. */
uint32_t plain_random(uint64_t *state);

/* Fills both lists with permutations that depend on the seed alone. */
void plain_random_lists(unsigned m, unsigned t, unsigned M, uint64_t seed, uint8_t *self, uint8_t *parity);

/* Fills both lists with the mixed lists of a seed, where 2 r is at most M, and returns the last state of the load's generator. */
uint32_t plain_mixed_lists(unsigned m, unsigned t, unsigned M, uint32_t seed, uint8_t *self, uint8_t *parity);

/* Mixed lists where 2 r is at most M, else random ones. */
void plain_lists(unsigned m, unsigned t, unsigned M, uint64_t seed, uint8_t *self, uint8_t *parity);

/* Designs with the smallest seed from 1 whose lists have an inverse, as kits.c finds it. */
typedef struct {
    unsigned m, t, M;
    uint64_t seed;
} plain_kit;

enum { PLAIN_KITS = 4 };
extern const plain_kit plain_kits[PLAIN_KITS];

#endif
