/* Test of strong.c: its answers, places, bits and counts beside those of plain.c and plain_original.c, which plain_test.c tests by itself.
   Prints a line a group, returns 1 on a failure. gcc -O3 -o strong_test strong_test.c strong.c */

#include "strong.h"

#include <stdio.h>
#include <stdlib.h>
#include <string.h>

static unsigned failures, checks;

#define CHECK(condition) check((condition), #condition, __LINE__)

static void check(int condition, const char *text, int line)
{
    checks++;
    if (!condition && ++failures <= 20)
        printf("line %d fails: %s\n", line, text);
}

static void group_done(const char *name)
{
    static unsigned checks_before, failures_before;
    printf("%-40s %7u checks, %u failed\n", name, checks - checks_before, failures - failures_before);
    fflush(stdout);
    checks_before = checks;
    failures_before = failures;
}

static void *get(size_t size)
{
    void *p = calloc(size ? size : 1, 1);
    if (!p)
        exit(2);
    return p;
}

static void set_entry(uint8_t *list, unsigned p, unsigned value)
{
    list[2 * p] = value & 255;
    list[2 * p + 1] = value >> 8;
}

typedef struct {
    unsigned m, t, M, size;
    size_t row, bytes;                  /* of a row of the inverse, and of all */
    uint8_t *self, *parity, *inverse;
    int regular;                        /* whether the lists have an inverse */
} kit;

static kit make_kit(unsigned m, unsigned t, unsigned M, uint64_t seed)
{
    kit k = { m, t, M, M * m * t };
    k.row = (k.size + 7) / 8;
    k.bytes = k.size * k.row;
    k.self = get(2 * k.size);
    k.parity = get(2 * k.size);
    k.inverse = get(k.bytes);
    plain_lists(m, t, M, seed, k.self, k.parity);
    k.regular = plain_make_inverse(m, t, M, k.self, k.parity, k.inverse);
    return k;
}

static void free_kit(kit k)
{
    free(k.self);
    free(k.parity);
    free(k.inverse);
}

/* ---- Kits ---- */

static unsigned rules_seen[20];

static void same_verdict(const kit *k)
{
    uint64_t place = 77, want_place = 77;
    int rule = strong_check_kit(k->m, k->t, k->M, k->self, k->parity, k->inverse, &place);
    int want = plain_check_kit(k->m, k->t, k->M, k->self, k->parity, k->inverse, &want_place);
    CHECK(rule == want && place == want_place);
    rules_seen[want]++;
}

/* Each bit of the inverse turned where there are few, else some of them: spare bits too. */
static void turned_bits(const kit *k, unsigned most, uint64_t *state)
{
    size_t bits = 8 * k->bytes;
    for (size_t i = 0; i < (bits < most ? bits : most); i++) {
        size_t bit = bits < most ? i : plain_random(state) % bits;
        k->inverse[bit / 8] ^= 1 << bit % 8;
        same_verdict(k);
        k->inverse[bit / 8] ^= 1 << bit % 8;
    }
}

static void spoiled_lists(const kit *k, unsigned trials, uint64_t *state)
{
    uint8_t *self = get(2 * k->size), *parity = get(2 * k->size);
    for (unsigned i = 0; i < trials; i++) {
        kit other = *k;
        unsigned value[] = { k->size, k->size + 256, 65535, plain_random(state) % k->size };
        memcpy(self, k->self, 2 * k->size);
        memcpy(parity, k->parity, 2 * k->size);
        other.self = self;
        other.parity = parity;
        set_entry(plain_random(state) % 2 ? self : parity, plain_random(state) % k->size, value[plain_random(state) % 4]);
        same_verdict(&other);
        memcpy(self, k->parity, 2 * k->size);           /* two whole lists that have another inverse, or none */
        memcpy(parity, i % 2 ? k->parity : k->self, 2 * k->size);
        same_verdict(&other);
    }
    free(self);
    free(parity);
}

static void test_kits(void)
{
    plain_sizes s;
    uint64_t place, state = 11;
    for (unsigned m = 4; m <= 10; m++)
        for (unsigned t = 1; t <= 3; t++)
            for (unsigned M = 1; M <= 4; M++) {
                if (plain_design(m, t, M, &s, &place))
                    continue;
                for (uint64_t seed = 1; seed <= 5; seed++) {
                    kit k = make_kit(m, t, M, seed);
                    same_verdict(&k);           /* all zero where the lists have no inverse */
                    turned_bits(&k, 300, &state);
                    spoiled_lists(&k, 10, &state);
                    free_kit(k);
                }
            }
    for (unsigned i = 0; i < PLAIN_KITS; i++) {
        kit k = make_kit(plain_kits[i].m, plain_kits[i].t, plain_kits[i].M, plain_kits[i].seed);
        CHECK(k.regular);
        same_verdict(&k);
        turned_bits(&k, 3, &state);
        free_kit(k);
    }
    kit k = make_kit(4, 1, 1, 1);
    for (k.m = 3; k.m <= 11; k.m++)
        for (k.t = 0; k.t <= 4; k.t++)
            for (k.M = 0; k.M <= 501; k.M += k.M < 2 ? 1 : 499)
                if (plain_design(k.m, k.t, k.M, &s, &place))
                    same_verdict(&k);
    free_kit(k);
    CHECK(rules_seen[0] && rules_seen[1] && rules_seen[2] && rules_seen[7] && rules_seen[8] && rules_seen[9]);
    group_done("kits");
}

/* ---- Frames ---- */

static unsigned left_outside, several_rounds, fewer_stuck, more_stuck;         /* stuck in the last round beside outside at the end */

/* A window, or none: 0 stands for the decoder of whole frames. */
static void same_by(const kit *k, unsigned L, unsigned rounds, unsigned window, const plain_frame *lent)
{
    uint8_t *info = get(lent->info_length), *red = get(lent->red_length);
    uint64_t counts[PLAIN_COUNTS] = { 7, 7, 7, 7 }, want[PLAIN_COUNTS] = { 9, 9, 9, 9 }, place = 77, want_place = 77;
    plain_frame other = *lent;
    other.info = info;
    other.red = red;
    memcpy(info, lent->info, lent->info_length);
    memcpy(red, lent->red, lent->red_length);
    int rule = window ? strong_window(k->m, k->t, k->M, L, rounds, window, lent, counts, &place)
                      : strong_decode(k->m, k->t, k->M, L, rounds, lent, counts, &place);
    int wanted = window ? plain_window(k->m, k->t, k->M, L, rounds, window, &other, want, &want_place)
                        : plain_decode(k->m, k->t, k->M, L, rounds, &other, want, &want_place);
    CHECK(rule == wanted && place == want_place && memcmp(counts, want, sizeof counts) == 0);
    CHECK(memcmp(info, lent->info, lent->info_length) == 0 && memcmp(red, lent->red, lent->red_length) == 0);
    rules_seen[wanted]++;
    left_outside += want[2] > 0;
    several_rounds += want[0] > 2;
    fewer_stuck += want[3] < want[2];
    more_stuck += want[3] > want[2];
    free(info);
    free(red);
}

/* By a window, of each of these widths in turn, and whole. */
static void same_decoding(const kit *k, unsigned L, unsigned rounds, const plain_frame *lent)
{
    static const unsigned width[] = { 1, 2, 3, 64 };
    static unsigned turn;
    uint8_t *info = get(lent->info_length), *red = get(lent->red_length);
    memcpy(info, lent->info, lent->info_length);
    memcpy(red, lent->red, lent->red_length);
    same_by(k, L, rounds, width[turn++ % 4], lent);
    memcpy(lent->info, info, lent->info_length);
    memcpy(lent->red, red, lent->red_length);
    same_by(k, L, rounds, 0, lent);
    free(info);
    free(red);
}

static plain_frame make_frame(const kit *k, unsigned L, unsigned per_mille, uint64_t *state)
{
    size_t list = 2 * (size_t)k->size, info = (size_t)L * k->M * k->M, red = (L + 1) / 2 * list;
    plain_frame lent = { k->self, k->parity, get(info), get(red), list, list, info, red };
    if (k->regular) {
        for (size_t bit = 0; bit < info; bit++)
            lent.info[bit] = plain_random(state) & 1;
        plain_encode(k->m, k->t, k->M, L, k->self, k->parity, k->inverse, lent.info, lent.red);
    }
    for (size_t bit = 0; bit < info; bit++)
        lent.info[bit] ^= plain_random(state) % 1000 < per_mille;
    for (size_t bit = 0; bit < red; bit++)
        lent.red[bit] ^= plain_random(state) % 1000 < per_mille;
    return lent;
}

static void free_frame(plain_frame lent)
{
    free(lent.info);
    free(lent.red);
}

static void frames_of(const kit *k, unsigned most_blocks, uint64_t *state)
{
    static const unsigned per_mille[] = { 0, 2, 5, 10, 20, 40, 80, 200, 500, 1000 }, rounds[] = { 0, 1, 2, 3, 64 };
    for (unsigned L = 1; L <= most_blocks; L++)
        for (unsigned i = 0; i < sizeof rounds / sizeof *rounds; i++)
            for (unsigned e = 0; e < sizeof per_mille / sizeof *per_mille; e++) {
                plain_frame lent = make_frame(k, L, per_mille[e], state);
                same_decoding(k, L, rounds[i], &lent);
                free_frame(lent);
            }
}

/* All pairs of m and t: small M, and the greatest. */
static void test_frames(void)
{
    plain_sizes s;
    uint64_t place, state = 12;
    for (unsigned m = 4; m <= 10; m++)
        for (unsigned t = 1; t <= 3; t++) {
            unsigned greatest = 0;
            while (plain_design(m, t, greatest + 1, &s, &place) == 0)
                greatest++;
            for (unsigned M = 1; M <= greatest; M++)
                if (M <= 12 || (m <= 7 && M == greatest))
                    for (uint64_t seed = 1; seed <= 2; seed++) {
                        kit k = make_kit(m, t, M, seed);
                        frames_of(&k, M <= 6 ? 7 : 4, &state);
                        free_kit(k);
                    }
        }
    CHECK(left_outside > 1000 && several_rounds > 1000 && fewer_stuck > 1000 && more_stuck > 100);
    group_done("frames");
}

/* The designs for benchmarks, with an odd and an even number of blocks. */
static void test_large(void)
{
    static const unsigned per_mille[] = { 0, 1, 5, 8, 10, 12, 15, 30 };
    uint64_t state = 13;
    for (unsigned i = 0; i < PLAIN_KITS; i++) {
        kit k = make_kit(plain_kits[i].m, plain_kits[i].t, plain_kits[i].M, plain_kits[i].seed);
        for (unsigned L = 15; L <= 16; L++)
            for (unsigned e = 0; e < sizeof per_mille / sizeof *per_mille; e++)
                for (unsigned rounds = 0; rounds <= 64; rounds += 64) {
                    plain_frame lent = make_frame(&k, L, per_mille[e], &state);
                    same_decoding(&k, L, rounds, &lent);
                    free_frame(lent);
                }
        free_kit(k);
    }
    group_done("large frames");
}

/* Under M = 2 with three blocks, fault after fault, each met before those that are already there. */
static void test_refusals(void)
{
    uint64_t state = 14;
    kit k = make_kit(4, 1, 2, 3);
    plain_frame lent = make_frame(&k, 3, 20, &state);
    memset(rules_seen, 0, sizeof rules_seen);
    lent.red[lent.red_length - 1] = 2;
    same_decoding(&k, 3, 0, &lent);
    lent.info[5] = 255;
    same_decoding(&k, 3, 0, &lent);
    set_entry(k.parity, 3, 8);
    same_decoding(&k, 3, 0, &lent);
    set_entry(k.self, 7, 1000);
    same_decoding(&k, 3, 0, &lent);
    lent.red_length--;
    same_decoding(&k, 3, 0, &lent);
    lent.info_length--;
    same_decoding(&k, 3, 0, &lent);
    lent.parity_length--;
    same_decoding(&k, 3, 0, &lent);
    lent.self_length--;
    same_decoding(&k, 3, 0, &lent);
    same_by(&k, 3, 0, 65, &lent);
    same_by(&k, 3, 0, 1u << 31, &lent);
    same_by(&k, 3, 65, 65, &lent);
    same_decoding(&k, 3, 65, &lent);
    same_decoding(&k, 0, 65, &lent);
    same_decoding(&k, 4097, 65, &lent);
    k.M = 3;
    same_decoding(&k, 0, 65, &lent);
    k.M = 0;
    same_decoding(&k, 0, 65, &lent);
    CHECK(!rules_seen[0] && rules_seen[1] && rules_seen[4] == 6 && rules_seen[5] == 3 && rules_seen[6] == 8 && rules_seen[7] == 4 && rules_seen[10] == 4
          && rules_seen[18] == 2);
    free_frame(lent);
    free_kit(k);
    group_done("refusals of frames");
}

/* ---- Original staircase frames ---- */

static void same_original(unsigned m, unsigned t, unsigned M, unsigned L, unsigned rounds, const uint8_t *buffer, size_t length)
{
    uint8_t *mine = get(length), *other = get(length);
    uint64_t counts[PLAIN_COUNTS] = { 7, 7, 7, 7 }, want[PLAIN_COUNTS] = { 9, 9, 9, 9 }, place = 77, want_place = 77;
    memcpy(mine, buffer, length);
    memcpy(other, buffer, length);
    int rule = strong_original_decode(m, t, M, L, rounds, mine, length, counts, &place);
    int wanted = plain_original_decode(m, t, M, L, rounds, other, length, want, &want_place);
    CHECK(rule == wanted && place == want_place && memcmp(counts, want, sizeof counts) == 0 && memcmp(mine, other, length) == 0);
    rules_seen[wanted]++;
    left_outside += want[2] > 0;
    several_rounds += want[0] > 2;
    fewer_stuck += want[3] < want[2];
    more_stuck += want[3] > want[2];
    free(mine);
    free(other);
}

static void originals_of(unsigned m, unsigned t, unsigned M, unsigned most_blocks, uint64_t *state)
{
    static const unsigned per_mille[] = { 0, 2, 5, 10, 20, 40, 80, 200, 500, 1000 }, rounds[] = { 0, 1, 2, 12, 64 };
    for (unsigned L = 1; L <= most_blocks; L++)
        for (unsigned i = 0; i < sizeof rounds / sizeof *rounds; i++)
            for (unsigned e = 0; e < sizeof per_mille / sizeof *per_mille; e++) {
                size_t length = (size_t)L * M * M;
                uint64_t place;
                uint8_t *buffer = get(length);
                for (size_t bit = 0; bit < length; bit++)
                    buffer[bit] = plain_random(state) & 1;
                CHECK(plain_original_encode(m, t, M, L, buffer, length, &place) == 0);
                for (size_t bit = 0; bit < length; bit++)
                    buffer[bit] ^= plain_random(state) % 1000 < per_mille[e];
                same_original(m, t, M, L, rounds[i], buffer, length);
                free(buffer);
            }
}

/* All pairs of m and t that have original frames: the smallest M and the next, and the greatest up to 63; the design for benchmarks; refusals. */
static void test_originals(void)
{
    uint64_t state = 15;
    left_outside = several_rounds = fewer_stuck = more_stuck = 0;
    memset(rules_seen, 0, sizeof rules_seen);
    for (unsigned m = 4; m <= 10; m++)
        for (unsigned t = 1; t <= 3; t++) {
            unsigned least = m * t + 1, greatest = ((1u << m) - 1) / 2;
            for (unsigned M = least; M <= greatest && M <= 63; M++)
                if (M <= least + 1 || M == greatest)
                    originals_of(m, t, M, M <= 20 ? 6 : 3, &state);
        }
    originals_of(8, 3, 127, 2, &state);
    CHECK(left_outside > 1000 && several_rounds > 500 && fewer_stuck > 100 && more_stuck > 50);

    static const unsigned number[][5] = { { 4, 1, 5, 2, 0 }, { 4, 1, 5, 2, 65 }, { 4, 1, 5, 0, 65 }, { 4, 1, 5, 4097, 65 }, { 4, 1, 4, 0, 65 }, { 4, 1, 8, 0, 65 },
        { 4, 2, 8, 0, 65 }, { 4, 1, 501, 0, 65 }, { 4, 4, 501, 0, 65 }, { 11, 4, 501, 0, 65 } };
    uint8_t buffer[51] = { 0 };
    buffer[49] = 2;
    for (unsigned i = 0; i < sizeof number / sizeof *number; i++)
        for (size_t length = 50; length <= 51; length++)
            same_original(number[i][0], number[i][1], number[i][2], number[i][3], number[i][4], buffer, length);
    CHECK(rules_seen[1] == 6 && rules_seen[2] == 4 && rules_seen[19] == 2 && rules_seen[4] == 4 && rules_seen[5] == 2 && rules_seen[6] == 1 && rules_seen[10] == 1);
    group_done("original frames");
}

int main(void)
{
    test_kits();
    test_frames();
    test_large();
    test_refusals();
    test_originals();
    printf("%u checks, %u failed\n", checks, failures);
    return failures != 0;
}
