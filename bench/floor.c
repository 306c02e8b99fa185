/* The error floors of random lists and of mixed lists: floor [frames [blocks]]
   At M 72 (m 8, t 3) a frame, of 31 blocks where nothing else is said, goes over a line that turns each bit with probabilities of 0.016, 0.018 and 0.020, and
   comes back through bauchleton_decode with 12 rounds; so do 20,000 frames, where nothing else is said, under a kit of each kind. Prints how many did not come
   back as they were sent. The draws are those of a generator of 64 bits from fixed seeds, so that two runs print the same.

       gcc -O2 -Iinclude -o target/floor bench/floor.c crates/bauchleton/out/libbauchleton.a -lm && target/floor */
#include "bauchleton.h"

#include <inttypes.h>
#include <math.h>
#include <stdio.h>
#include <stdlib.h>
#include <string.h>

enum { FIELD = 8, ERRORS = 3, SIZE = 72, ROUNDS = 12 };

static uint64_t state;

/* splitmix64 */
static uint64_t next(void)
{
    uint64_t z = (state += UINT64_C(0x9E3779B97F4A7C15));
    z = (z ^ (z >> 30)) * UINT64_C(0xBF58476D1CE4E5B9);
    z = (z ^ (z >> 27)) * UINT64_C(0x94D049BB133111EB);
    return z ^ (z >> 31);
}

static void random_list(uint8_t *list, size_t order)
{
    for (size_t i = 0; i < order; i++) {
        size_t j = next() % (i + 1);
        list[2 * i] = list[2 * j];
        list[2 * i + 1] = list[2 * j + 1];
        list[2 * j] = (uint8_t)(i % 256);
        list[2 * j + 1] = (uint8_t)(i / 256);
    }
}

static uint8_t *bytes(size_t length)
{
    uint8_t *b = malloc(length);
    if (!b)
        exit(1);
    return b;
}

int main(int count, char **argument)
{
    static const double rates[] = { 0.016, 0.018, 0.020 };
    uint64_t s[BAUCHLETON_SIZES_ENTRIES], answer[2];
    unsigned long frames = count > 1 ? strtoul(argument[1], NULL, 10) : 20000, blocks = count > 2 ? strtoul(argument[2], NULL, 10) : 31;
    if (count > 3 || bauchleton_sizes(FIELD, ERRORS, SIZE, blocks, s, BAUCHLETON_SIZES_ENTRIES) != BAUCHLETON_ACCEPTED) {
        fprintf(stderr, "floor [frames [blocks]]\n");
        return 2;
    }
    size_t list = s[BAUCHLETON_SIZES_LIST], matrix = s[BAUCHLETON_SIZES_INVERSE], info = s[BAUCHLETON_SIZES_INFO], red = s[BAUCHLETON_SIZES_RED];
    size_t make = s[BAUCHLETON_SIZES_MAKE_INVERSE_WORK], encode = s[BAUCHLETON_SIZES_ENCODE_WORK], decode = s[BAUCHLETON_SIZES_DECODE_WORK];
    uint8_t *self = bytes(list), *parity = bytes(list), *inverse = bytes(matrix), *sent = bytes(info + red), *received = bytes(info + red);
    uint8_t *work = bytes(make + encode + decode), report[BAUCHLETON_REPORT_BYTES];
    printf("M %d, m %d, t %d, %lu blocks, %lu frames at each rate, %d rounds\n", SIZE, FIELD, ERRORS, blocks, frames, ROUNDS);
    for (int mixed = 0; mixed < 2; mixed++) {
        unsigned pairs = 0;
        uint32_t seed = 1;
        state = 1;
        do {
            pairs++;
            if (mixed) {
                if (bauchleton_mixed_lists(FIELD, ERRORS, SIZE, seed, self, list, parity, list, answer, 2) != BAUCHLETON_ACCEPTED)
                    return 1;
                seed = (uint32_t)answer[1];
            } else {
                random_list(self, list / 2);
                random_list(parity, list / 2);
            }
        } while (bauchleton_make_inverse(FIELD, ERRORS, SIZE, self, list, parity, list, inverse, matrix, work, make, answer, 1) == BAUCHLETON_SINGULAR);
        printf("%s lists, pair %u has an inverse\n", mixed ? "mixed" : "random", pairs);
        for (size_t i = 0; i < info; i++)
            sent[i] = (uint8_t)(next() >> 63);
        if (bauchleton_encode(FIELD, ERRORS, SIZE, blocks, self, list, parity, list, inverse, matrix, sent, info, sent + info, red, work, encode, report,
                              sizeof report) != BAUCHLETON_ACCEPTED)
            return 1;
        for (size_t k = 0; k < sizeof rates / sizeof *rates; k++) {
            unsigned long lost = 0;
            for (unsigned long f = 0; f < frames; f++) {
                memcpy(received, sent, info + red);
                /* the bits between two that turn, by the logarithm of a number between 0 and 1 */
                for (double at = 0;; at++) {
                    at += floor(log(((double)(next() >> 11) + 1) / 9007199254740993.0) / log1p(-rates[k]));
                    if (at >= (double)(info + red))
                        break;
                    received[(size_t)at] ^= 1;
                }
                if (bauchleton_decode(FIELD, ERRORS, SIZE, blocks, ROUNDS, self, list, parity, list, received, info, received + info, red, work, decode, report,
                                      sizeof report) != BAUCHLETON_ACCEPTED)
                    return 1;
                lost += memcmp(received, sent, info + red) != 0;
            }
            printf("    line error rate %.3f: %lu of %lu frames not restored\n", rates[k], lost, frames);
            fflush(stdout);
        }
    }
    return 0;
}
