/* A bench of a link at m 8, t 3, M 72, whole: makes a kit from mixed lists, encodes frames in one call, turns bits as a link would, corrects the frames
   and prints what was counted. Whoever runs it sees the same numbers, examples/bench.txt.

       gcc -std=c99 -O2 -Iinclude examples/bench.c crates/bauchleton/out/libbauchleton.a -o bench && ./bench

   Exit status 0 if every frame came back as it was sent, 1 otherwise, also where a call is refused. */

#include "bauchleton.h"

#include <inttypes.h>
#include <stdio.h>
#include <stdlib.h>
#include <string.h>

enum {
    M = 8, T = 3, SIZE = 72,
    BLOCKS = 31,                    /* an odd number: the last block of an even number has column words only */
    FRAMES = 4,
    LIMIT = 655,                    /* a bit turns where a draw of 16 bits is below it: a rate of about 0.01 */
    KIT_SEED = 1, LOAD_SEED = 1, LINK_SEED = 2
};

/* What all calls of the bench are lent. */
typedef struct {
    uint64_t sizes[BAUCHLETON_SIZES_ENTRIES];
    size_t list, matrix, info, red;             /* lengths in bytes; those of information and redundancy are of a frame */
    uint8_t *self, *parity, *inverse;
    uint8_t *work;                              /* as many as the call with the most wants; each call is lent its own number of them */
} bench;

/* Ends the program where a call was refused. */
static void accept(const char *call, uint64_t rule, uint64_t place)
{
    if (rule == BAUCHLETON_ACCEPTED)
        return;
    fprintf(stderr, "%s: refused by rule %" PRIu64 " at %" PRIu64 "\n", call, rule, place);
    exit(1);
}

static uint64_t place_of(const uint8_t *report)
{
    return bauchleton_report_number(report, BAUCHLETON_REPORT_PLACE);
}

static uint8_t *lend(uint64_t bytes)
{
    uint8_t *p = malloc(bytes);
    if (p == NULL) {
        fprintf(stderr, "no memory\n");
        exit(1);
    }
    return p;
}

static bench make_bench(void)
{
    bench b;
    uint64_t most = 0, rule = bauchleton_sizes(M, T, SIZE, BLOCKS, b.sizes, BAUCHLETON_SIZES_ENTRIES);
    accept("sizes", rule, b.sizes[BAUCHLETON_SIZES_PLACE]);
    for (int entry = BAUCHLETON_SIZES_CHECK_KIT_WORK; entry <= BAUCHLETON_SIZES_LOOPBACK_WORK; entry++)
        if (b.sizes[entry] > most)
            most = b.sizes[entry];
    b.list = b.sizes[BAUCHLETON_SIZES_LIST];
    b.matrix = b.sizes[BAUCHLETON_SIZES_INVERSE];
    b.info = b.sizes[BAUCHLETON_SIZES_INFO];
    b.red = b.sizes[BAUCHLETON_SIZES_RED];
    b.self = lend(b.list);
    b.parity = lend(b.list);
    b.inverse = lend(b.matrix);
    b.work = lend(most);
    printf("bauchleton %s, m %d, t %d, M %d, %d blocks: %zu information and %zu redundancy bits\n", BAUCHLETON_VERSION_TEXT, M, T, SIZE, BLOCKS, b.info, b.red);
    return b;
}

/* The kit: mixed lists from a seed, which keep the error floor low, and on from the generator's last state where they have no inverse. */
static void make_kit(const bench *b)
{
    uint8_t report[BAUCHLETON_REPORT_BYTES];
    uint64_t lists[2] = { 0, KIT_SEED }, answer[1], rule;
    uint32_t seed;
    do {
        seed = (uint32_t)lists[1];
        rule = bauchleton_mixed_lists(M, T, SIZE, seed, b->self, b->list, b->parity, b->list, lists, 2);
        accept("mixed_lists", rule, lists[0]);
        rule = bauchleton_make_inverse(M, T, SIZE, b->self, b->list, b->parity, b->list, b->inverse, b->matrix, b->work,
                                       b->sizes[BAUCHLETON_SIZES_MAKE_INVERSE_WORK], answer, 1);
        if (rule == BAUCHLETON_SINGULAR)
            printf("lists of seed %" PRIu32 ": no inverse, column %" PRIu64 " is a sum of earlier ones\n", seed, answer[0]);
    } while (rule == BAUCHLETON_SINGULAR);
    accept("make_inverse", rule, answer[0]);
    printf("lists of seed %" PRIu32 ": inverse of %zu rows made\n", seed, b->list / 2);
    rule = bauchleton_check_kit(M, T, SIZE, b->self, b->list, b->parity, b->list, b->inverse, b->matrix, b->work, b->sizes[BAUCHLETON_SIZES_CHECK_KIT_WORK],
                                report, sizeof report);
    accept("check_kit", rule, place_of(report));
}

/* The frames that are sent, one after the other: information from the test load, and all redundancy in one call. */
static void make_frames(const bench *b, uint8_t *info, uint8_t *red)
{
    uint8_t report[BAUCHLETON_REPORT_BYTES];
    uint64_t answer[2] = { 0, LOAD_SEED }, rule;
    for (int frame = 0; frame < FRAMES; frame++) {
        rule = bauchleton_load_fill(M, T, SIZE, BLOCKS, (uint32_t)answer[1], info + frame * b->info, b->info, answer, 2);
        accept("load_fill", rule, answer[0]);
    }
    rule = bauchleton_encode_batch(M, T, SIZE, BLOCKS, FRAMES, b->self, b->list, b->parity, b->list, b->inverse, b->matrix, info, FRAMES * b->info, red,
                                   FRAMES * b->red, b->work, b->sizes[BAUCHLETON_SIZES_ENCODE_WORK], report, sizeof report);
    accept("encode_batch", rule, place_of(report));
}

/* The link turns bits of a frame from a state of the generator, and answers the state after it. */
static uint32_t turn_bits(const bench *b, uint8_t *info, uint8_t *red, uint32_t state)
{
    uint64_t answer[2], rule = bauchleton_load_errors(M, T, SIZE, BLOCKS, state, LIMIT, info, b->info, red, b->red, answer, 2);
    accept("load_errors", rule, answer[0]);
    return (uint32_t)answer[1];
}

/* The receiver corrects a frame in place and adds to the tally. */
static void receive(const bench *b, uint8_t *info, uint8_t *red, uint64_t *tally)
{
    uint8_t report[BAUCHLETON_REPORT_BYTES];
    uint64_t answer[2], rule;
    rule = bauchleton_check_words(M, T, SIZE, BLOCKS, b->self, b->list, b->parity, b->list, info, b->info, red, b->red, b->work,
                                  b->sizes[BAUCHLETON_SIZES_CHECK_WORDS_WORK], answer, 2);
    accept("check_words", rule, answer[0]);
    rule = bauchleton_decode_tallied(M, T, SIZE, BLOCKS, 0, b->self, b->list, b->parity, b->list, info, b->info, red, b->red, b->work,
                                     b->sizes[BAUCHLETON_SIZES_DECODE_WORK], tally, BAUCHLETON_TALLY_ENTRIES, report, sizeof report);
    accept("decode_tallied", rule, place_of(report));
    printf("%" PRIu64 " words outside as received; rounds %" PRIu64 ", turned %" PRIu64 ", outside %" PRIu64 ", stuck %" PRIu64, answer[1],
           bauchleton_report_number(report, BAUCHLETON_REPORT_ROUNDS), bauchleton_report_number(report, BAUCHLETON_REPORT_TURNED),
           bauchleton_report_number(report, BAUCHLETON_REPORT_OUTSIDE), bauchleton_report_number(report, BAUCHLETON_REPORT_STUCK));
}

/* The account of all frames. */
static void print_account(const uint64_t *tally)
{
    uint64_t answer[9], rule = bauchleton_report(tally, BAUCHLETON_TALLY_ENTRIES, answer, 9);
    accept("report", rule, answer[0]);
    printf("all: frames %" PRIu64 ", sent bits %" PRIu64 ", turned %" PRIu64 ", rounds %" PRIu64 ", outside %" PRIu64 ", stuck %" PRIu64
           "; share of turned bits %" PRIu64 " / %" PRIu64 "\n", answer[1], answer[2], answer[3], answer[4], answer[5], answer[6], answer[7], answer[8]);
}

int main(void)
{
    const bench b = make_bench();
    uint8_t *info = lend(FRAMES * b.info), *red = lend(FRAMES * b.red), *received_info = lend(b.info), *received_red = lend(b.red);
    uint64_t tally[BAUCHLETON_TALLY_ENTRIES] = { 0 };
    uint32_t state = LINK_SEED;
    int restored = 0;
    make_kit(&b);
    make_frames(&b, info, red);
    for (int frame = 0; frame < FRAMES; frame++) {
        const uint8_t *sent_info = info + frame * b.info, *sent_red = red + frame * b.red;
        memcpy(received_info, sent_info, b.info);
        memcpy(received_red, sent_red, b.red);
        state = turn_bits(&b, received_info, received_red, state);
        printf("frame %d: ", frame + 1);
        receive(&b, received_info, received_red, tally);
        const int as_sent = memcmp(received_info, sent_info, b.info) == 0 && memcmp(received_red, sent_red, b.red) == 0;
        printf("; %s\n", as_sent ? "as sent" : "not as sent");
        restored += as_sent;
    }
    print_account(tally);
    free(b.self), free(b.parity), free(b.inverse), free(b.work), free(info), free(red), free(received_info), free(received_red);
    return restored == FRAMES && fflush(stdout) == 0 ? 0 : 1;
}
