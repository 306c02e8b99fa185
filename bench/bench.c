/* The library beside two implementations in C, in one run: prints its times, theirs and the ratios of the library's to theirs, and stops with 1 if any
   result differs. The plain one is plain.c; the strong one, of the kit check and of decoding, is strong.c. Encoding alone is the difference between
   two frames under one kit, divided by the groups between them, so that the kit check that the encoder makes drops out; of a frame by itself it is what the
   call takes beyond the kit check's call. A frame whose last information byte is no bit is refused beside a search of its bytes alone: the encoder asks
   rule 10 before it multiplies. Frames of two blocks are encoded in one call beside as many calls. The inverse is made of the lists, by elimination with
   byte tables on the plain side, and the kit's text is written into a buffer. The word checker and the decoder get frames with errors, a copy each, written
   just before; at M 72 a sliding window gets them too, beside the decoder of whole frames and two windows in C. Original staircase frames are encoded,
   checked and decoded. Information and errors are the test load's, from the seeds and limits below, so that every bench has the same frames. All times are the least of several turns, in which the
   contenders take turns. */

#include "../include/bauchleton.h"
#include "plain_text.h"
#include "strong.h"

#include <stdio.h>
#include <stdlib.h>
#include <string.h>
#include <time.h>

enum { SHORT = 32, LONG = 32 + 512, TURNS = 12, KIT_TURNS = 5, BATCH = 256 };

static const struct { unsigned blocks, turns; } frames[] = { { 1, 200 }, { 32, 40 }, { 1024, 3 } };
enum { FRAMES = sizeof frames / sizeof *frames };

static const unsigned widths[] = { 4, 8 };      /* groups of a sliding window */
enum { WIDTHS = sizeof widths / sizeof *widths };

enum { ORIGINAL_M = 127, ORIGINAL_BLOCKS = 64, ORIGINAL_TURNS = 20 };   /* m 8, t 3 */

enum { SEED = 1, ERROR_SEED = 2 };
static const uint64_t error_limit[] = { 0, 66, 328, 655 };     /* of 65,536: about 0, 1e-3, 5e-3, 1e-2 */
enum { RATES = sizeof error_limit / sizeof *error_limit };

/* A report's bytes: on this machine, a little-endian one, those of an array of numbers. */
enum { REPORT = 1 + PLAIN_COUNTS };
#define LENT(report) (uint8_t *)report, sizeof report

static double now(void)
{
    struct timespec t;
    clock_gettime(CLOCK_PROCESS_CPUTIME_ID, &t);
    return t.tv_sec + t.tv_nsec * 1e-9;
}

static void *lend(size_t bytes)
{
    void *p = malloc(bytes);
    if (!p) {
        fprintf(stderr, "no memory\n");
        exit(1);
    }
    return memset(p, 0xff, bytes);
}

static double least(double a, double b)
{
    return a < b ? a : b;
}

/* The processor's name as the system has it. */
static void print_processor(void)
{
    char line[256];
    FILE *info = fopen("/proc/cpuinfo", "r");
    while (info && fgets(line, sizeof line, info))
        if (strncmp(line, "model name", 10) == 0 && strchr(line, ':')) {
            printf("processor%s", strchr(line, ':'));
            break;
        }
    if (info)
        fclose(info);
}

/* The inverse made of the lists, and the kit's text. Returns whether a result differs. */
static int time_kit(unsigned m, unsigned t, unsigned M, const plain_sizes *s, const uint8_t *self, const uint8_t *parity, const uint8_t *inverse)
{
    size_t list = 2 * (size_t)s->size, bytes = ((size_t)s->size + 7) / 8, matrix = s->size * bytes, working = list * bytes + 512 * bytes;
    uint8_t *mine = lend(matrix), *other = lend(matrix), *work = lend(working);
    double make[2] = { 1e9, 1e9 }, text[2] = { 1e9, 1e9 };
    uint64_t place, answer[1], length_answer[2] = { 0, 0 };
    int differ = bauchleton_kit_text_length(m, t, M, self, list, parity, list, length_answer, 2) != 0;
    size_t length = length_answer[1], room = 64 + s->size * ((size_t)s->size + 24); /* four numbers, five other bytes and a row of the inverse a place */
    uint8_t *written = lend(length), *plain_written = lend(room);
    for (unsigned turn = 0; turn < KIT_TURNS; turn++) {
        memset(mine, 0xff, matrix);
        memset(other, 0xff, matrix);
        double a = now();
        differ |= plain_make(m, t, M, self, parity, other, &place) != 0;
        double b = now();
        differ |= bauchleton_make_inverse(m, t, M, self, list, parity, list, mine, matrix, work, working, answer, 1) != 0 || answer[0] != 0;
        make[0] = least(make[0], b - a);
        make[1] = least(make[1], now() - b);
        differ |= memcmp(mine, inverse, matrix) != 0 || memcmp(other, inverse, matrix) != 0;

        memset(written, 0xff, length);
        a = now();
        size_t end = plain_kit_text(plain_written, m, t, M, self, parity, inverse) - plain_written;
        b = now();
        differ |= bauchleton_write_kit(m, t, M, self, list, parity, list, inverse, matrix, written, length, answer, 1) != 0 || answer[0] != 0;
        text[0] = least(text[0], b - a);
        text[1] = least(text[1], now() - b);
        differ |= end != length || memcmp(written, plain_written, length) != 0;
    }
    printf("  inverse made in %.4f s, plain %.4f s, ratio %.2f; kit text of %zu bytes written in %.0f us, plain %.0f us, ratio %.2f\n", make[1],
           make[0], make[1] / make[0], length, text[1] * 1e6, text[0] * 1e6, text[1] / text[0]);
    free(mine), free(other), free(work), free(written), free(plain_written);
    return differ;
}

/* BATCH frames of two blocks in one call, and each in a call of its own. Returns whether a result differs. */
static int time_batch(unsigned m, unsigned t, unsigned M, const plain_sizes *s, const uint8_t *self, const uint8_t *parity, const uint8_t *inverse,
                      const uint8_t *info)
{
    size_t list = 2 * (size_t)s->size, matrix = s->size * (((size_t)s->size + 7) / 8), frame = 2 * (size_t)M * M, group = list;
    uint8_t *mine = lend(BATCH * group), *other = lend(BATCH * group), *work = lend(matrix);
    uint64_t report[REPORT];
    double batch = 1e9, single = 1e9;
    int differ = 0;
    for (unsigned turn = 0; turn < TURNS; turn++) {
        double a = now();
        for (size_t f = 0; f < BATCH; f++)
            differ |= bauchleton_encode(m, t, M, 2, self, list, parity, list, inverse, matrix, info + f * frame, frame, other + f * group, group, work,
                                        matrix, LENT(report)) != 0 || report[0] != 0;
        double b = now();
        differ |= bauchleton_encode_batch(m, t, M, 2, BATCH, self, list, parity, list, inverse, matrix, info, BATCH * frame, mine, BATCH * group,
                                          work, matrix, LENT(report)) != 0 || report[0] != 0;
        single = least(single, b - a);
        batch = least(batch, now() - b);
        differ |= memcmp(mine, other, BATCH * group) != 0;
    }
    printf("  %u frames of 2 blocks in one call %.4f s, in %u calls %.4f s, ratio %.3f\n", BATCH, batch, BATCH, single, batch / single);
    free(mine), free(other), free(work);
    return differ;
}

/* The test load of a frame of SHORT blocks: filled, and turned by draws. Returns whether a result differs. */
static int time_load(unsigned m, unsigned t, unsigned M, const plain_sizes *s)
{
    size_t info = SHORT * (size_t)M * M, red = SHORT * (size_t)s->size;
    uint8_t *mine = lend(info + red), *other = lend(info + red);
    double fill[2] = { 1e9, 1e9 }, errors[2] = { 1e9, 1e9 };
    uint64_t answer[2];
    int differ = 0;
    for (unsigned turn = 0; turn < KIT_TURNS; turn++) {
        memset(mine, 0, info + red);
        memset(other, 0, info + red);
        double a = now();
        uint32_t last = plain_load_fill(SEED, other, info);
        double b = now();
        differ |= bauchleton_load_fill(m, t, M, SHORT, SEED, mine, info, answer, 2) != 0 || answer[1] != last;
        fill[0] = least(fill[0], b - a);
        fill[1] = least(fill[1], now() - b);

        a = now();
        last = plain_load_errors(ERROR_SEED, error_limit[RATES - 1], other, info + red);
        b = now();
        differ |= bauchleton_load_errors(m, t, M, SHORT, ERROR_SEED, error_limit[RATES - 1], mine, info, mine + info, red, answer, 2) != 0 || answer[1] != last;
        errors[0] = least(errors[0], b - a);
        errors[1] = least(errors[1], now() - b);
        differ |= memcmp(mine, other, info + red) != 0;
    }
    printf("  load filled in %.0f us, plain %.0f us, ratio %.2f; turned by draws in %.0f us, plain %.0f us, ratio %.2f\n", fill[1] * 1e6, fill[0] * 1e6,
           fill[1] / fill[0], errors[1] * 1e6, errors[0] * 1e6, errors[1] / errors[0]);
    free(mine), free(other);
    return differ;
}

/* The working bytes of the decoder for a frame of L blocks. */
static size_t decoder_work(unsigned m, unsigned t, unsigned M, unsigned L)
{
    uint64_t sizes[BAUCHLETON_SIZES_ENTRIES];
    if (bauchleton_sizes(m, t, M, L, sizes, BAUCHLETON_SIZES_ENTRIES) != 0)
        exit(1);
    return sizes[BAUCHLETON_SIZES_DECODE_WORK];
}

/* Words outside and decoding of a frame of L blocks, information and redundancy one after the other. Returns whether a result differs. */
static int time_frame(unsigned m, unsigned t, unsigned M, unsigned L, unsigned turns, const plain_sizes *s, const uint8_t *self, const uint8_t *parity,
                      const uint8_t *frame)
{
    size_t list = 2 * (size_t)s->size, info = (size_t)L * M * M, red = (L + 1) / 2 * list;
    uint8_t *received = lend(info + red), *mine = lend(info + red), *other = lend(info + red);
    size_t working = decoder_work(m, t, M, L);
    uint8_t *work = lend(working);
    plain_frame lent = { self, parity, other, other + info, list, list, info, red };
    int (*const decoder[2])(unsigned, unsigned, unsigned, unsigned, unsigned, const plain_frame *, uint64_t *, uint64_t *) = { plain_decode, strong_decode };
    double words[2] = { 1e9, 1e9 }, decode[RATES][3];           /* plain, ours; plain, strong, ours */
    uint64_t counts[RATES][PLAIN_COUNTS], place, outside, words_answer[2], report[REPORT], load_answer[2];
    int differ = 0;
    for (unsigned e = 0; e < RATES; e++) {
        decode[e][0] = decode[e][1] = decode[e][2] = 1e9;
        memcpy(received, frame, info + red);
        differ |= bauchleton_load_errors(m, t, M, L, ERROR_SEED, error_limit[e], received, info, received + info, red, load_answer, 2) != 0;
        for (unsigned turn = 0; turn < turns; turn++) {
            memcpy(mine, received, info + red);
            double a = now();
            differ |= bauchleton_check_words(m, t, M, L, self, list, parity, list, mine, info, mine + info, red, work, s->size, words_answer, 2) != 0;
            double b = now();
            differ |= bauchleton_decode(m, t, M, L, 0, self, list, parity, list, mine, info, mine + info, red, work, working, LENT(report)) != 0;
            double c = now();
            words[1] = least(words[1], b - a);
            decode[e][2] = least(decode[e][2], c - b);
            for (unsigned i = 0; i < 2; i++) {
                memcpy(other, received, info + red);
                a = now();
                differ |= plain_words(m, t, M, L, &lent, &outside, &place) != 0;
                b = now();
                differ |= decoder[i](m, t, M, L, 0, &lent, counts[e], &place) != 0;
                c = now();
                words[0] = least(words[0], b - a);
                decode[e][i] = least(decode[e][i], c - b);
                differ |= words_answer[0] != 0 || words_answer[1] != outside || report[0] != 0
                          || memcmp(report + 1, counts[e], sizeof counts[e]) != 0 || memcmp(mine, other, info + red) != 0;
            }
        }
    }
    printf("  blocks %u: words outside %.0f us, plain %.0f us, ratio %.2f\n", L, words[1] * 1e6, words[0] * 1e6, words[1] / words[0]);
    for (unsigned e = 0; e < RATES; e++)
        printf("    decoding at %.1g (%u rounds, %u turned, %u outside, %u stuck) %.0f us, plain %.0f us, ratio %.2f, strong %.0f us, ratio %.2f\n",
               error_limit[e] / 65536.0, (unsigned)counts[e][0], (unsigned)counts[e][1], (unsigned)counts[e][2], (unsigned)counts[e][3],
               decode[e][2] * 1e6, decode[e][0] * 1e6, decode[e][2] / decode[e][0], decode[e][1] * 1e6, decode[e][2] / decode[e][1]);
    free(received), free(mine), free(other), free(work);
    return differ;
}

/* A frame of L blocks by sliding windows, beside the same frame decoded whole. Returns whether a result differs. */
static int time_window(unsigned m, unsigned t, unsigned M, unsigned L, unsigned turns, const plain_sizes *s, const uint8_t *self, const uint8_t *parity,
                       const uint8_t *frame)
{
    size_t list = 2 * (size_t)s->size, info = (size_t)L * M * M, red = (L + 1) / 2 * list, working = decoder_work(m, t, M, L);
    uint8_t *received = lend(info + red), *mine = lend(info + red), *other = lend(info + red), *work = lend(working);
    plain_frame lent = { self, parity, other, other + info, list, list, info, red };
    int (*const decoder[2])(unsigned, unsigned, unsigned, unsigned, unsigned, unsigned, const plain_frame *, uint64_t *, uint64_t *) = { plain_window, strong_window };
    uint64_t counts[PLAIN_COUNTS], place, report[REPORT], load_answer[2];
    int differ = 0;
    for (unsigned w = 0; w < WIDTHS; w++)
        for (unsigned e = 0; e < RATES; e++) {
            double whole = 1e9, ours = 1e9, theirs[2] = { 1e9, 1e9 };
            memcpy(received, frame, info + red);
            differ |= bauchleton_load_errors(m, t, M, L, ERROR_SEED, error_limit[e], received, info, received + info, red, load_answer, 2) != 0;
            for (unsigned turn = 0; turn < turns; turn++) {
                memcpy(mine, received, info + red);
                double a = now();
                differ |= bauchleton_decode(m, t, M, L, 0, self, list, parity, list, mine, info, mine + info, red, work, working, LENT(report)) != 0;
                whole = least(whole, now() - a);
                memcpy(mine, received, info + red);
                a = now();
                differ |= bauchleton_decode_window(m, t, M, L, 0, widths[w], self, list, parity, list, mine, info, mine + info, red, work, working,
                                                   LENT(report)) != 0;
                ours = least(ours, now() - a);
                for (unsigned i = 0; i < 2; i++) {
                    memcpy(other, received, info + red);
                    a = now();
                    differ |= decoder[i](m, t, M, L, 0, widths[w], &lent, counts, &place) != 0;
                    theirs[i] = least(theirs[i], now() - a);
                    differ |= report[0] != 0 || memcmp(report + 1, counts, sizeof counts) != 0 || memcmp(mine, other, info + red) != 0;
                }
            }
            printf("    window of %u at %.1g (%u rounds, %u turned, %u outside, %u stuck) %.0f us, whole frame %.0f us, ratio %.2f, plain window %.0f us, ratio %.2f, "
                   "strong window %.0f us, ratio %.2f\n", widths[w], error_limit[e] / 65536.0, (unsigned)counts[0], (unsigned)counts[1], (unsigned)counts[2],
                   (unsigned)counts[3], ours * 1e6, whole * 1e6, ours / whole, theirs[0] * 1e6, ours / theirs[0], theirs[1] * 1e6, ours / theirs[1]);
        }
    free(received), free(mine), free(other), free(work);
    return differ;
}

/* Frames of the numbers of blocks above under one kit. Returns whether a result differs. */
static int time_frames(unsigned m, unsigned t, unsigned M, const plain_sizes *s, const uint8_t *self, const uint8_t *parity, const uint8_t *inverse)
{
    uint64_t load_answer[2];
    int differ = 0;
    for (unsigned i = 0; i < FRAMES; i++) {
        unsigned L = frames[i].blocks;
        size_t info = (size_t)L * M * M;
        uint8_t *frame = lend(info + (L + 1) / 2 * 2 * (size_t)s->size);
        differ |= bauchleton_load_fill(m, t, M, L, SEED, frame, info, load_answer, 2) != 0;
        plain_encode(m, t, M, L, self, parity, inverse, frame, frame + info);
        differ |= time_frame(m, t, M, L, frames[i].turns, s, self, parity, frame);
        if (M == 72 && L > 1)
            differ |= time_window(m, t, M, L, frames[i].turns, s, self, parity, frame);
        free(frame);
    }
    return differ;
}

/* An original staircase frame encoded, checked and decoded; the two in C have no lists to read either. Reports are read as five numbers, their lowest byte first
   as the machine has them. Returns whether a result differs. */
static int time_original(unsigned m, unsigned t, unsigned M, unsigned L, unsigned turns)
{
    size_t length = (size_t)L * M * M, working = 4 * (size_t)L * M + (length + 7) / 8;
    uint8_t *sent = lend(length), *received = lend(length), *mine = lend(length), *other = lend(length), *work = lend(working);
    int (*const decoder[2])(unsigned, unsigned, unsigned, unsigned, unsigned, uint8_t *, size_t, uint64_t *, uint64_t *) =
        { plain_original_decode, strong_original_decode };
    double encode[2] = { 1e9, 1e9 }, words[2] = { 1e9, 1e9 };
    uint64_t report[1 + PLAIN_COUNTS], answer[2], counts[PLAIN_COUNTS], outside, place;
    int differ = 0;
    plain_load_fill(SEED, sent, length);
    for (unsigned turn = 0; turn < turns; turn++) {
        memcpy(mine, sent, length);
        memcpy(other, sent, length);
        double a = now();
        differ |= plain_original_encode(m, t, M, L, other, length, &place) != 0;
        double b = now();
        differ |= bauchleton_original_encode(m, t, M, L, mine, length, (uint8_t *)report, sizeof report) != 0 || report[0] != 0;
        encode[0] = least(encode[0], b - a);
        encode[1] = least(encode[1], now() - b);
        differ |= memcmp(mine, other, length) != 0;
    }
    memcpy(sent, mine, length);
    memcpy(received, sent, length);
    plain_load_errors(ERROR_SEED, error_limit[1], received, length);
    for (unsigned turn = 0; turn < turns; turn++) {
        double a = now();
        differ |= plain_original_words(m, t, M, L, received, length, &outside, &place) != 0;
        double b = now();
        differ |= bauchleton_original_check_words(m, t, M, L, received, length, answer, 2) != 0;
        words[0] = least(words[0], b - a);
        words[1] = least(words[1], now() - b);
        differ |= answer[0] != 0 || answer[1] != outside;
    }
    printf("original frames, m %u t %u M %u, blocks %u: encoded in %.0f us, plain %.0f us, ratio %.2f; words outside %.0f us, plain %.0f us, ratio %.2f\n", m, t,
           M, L, encode[1] * 1e6, encode[0] * 1e6, encode[1] / encode[0], words[1] * 1e6, words[0] * 1e6, words[1] / words[0]);
    for (unsigned e = 0; e < RATES - 1; e++) {
        double decode[3] = { 1e9, 1e9, 1e9 };   /* plain, strong, ours */
        memcpy(received, sent, length);
        plain_load_errors(ERROR_SEED, error_limit[e], received, length);
        for (unsigned turn = 0; turn < turns; turn++) {
            memcpy(mine, received, length);
            double a = now();
            differ |= bauchleton_original_decode(m, t, M, L, 0, mine, length, work, working, (uint8_t *)report, sizeof report) != 0;
            decode[2] = least(decode[2], now() - a);
            for (unsigned i = 0; i < 2; i++) {
                memcpy(other, received, length);
                a = now();
                differ |= decoder[i](m, t, M, L, 0, other, length, counts, &place) != 0;
                decode[i] = least(decode[i], now() - a);
                differ |= report[0] != 0 || memcmp(report + 1, counts, sizeof counts) != 0 || memcmp(mine, other, length) != 0;
            }
        }
        printf("    decoding at %.1g (%u rounds, %u turned, %u outside, %u stuck) %.0f us, plain %.0f us, ratio %.2f, strong %.0f us, ratio %.2f\n",
               error_limit[e] / 65536.0, (unsigned)counts[0], (unsigned)counts[1], (unsigned)counts[2], (unsigned)counts[3], decode[2] * 1e6, decode[0] * 1e6,
               decode[2] / decode[0], decode[1] * 1e6, decode[2] / decode[1]);
    }
    free(sent), free(received), free(mine), free(other), free(work);
    return differ;
}

int main(void)
{
    int differ = 0;
    print_processor();
    differ |= time_original(8, 3, ORIGINAL_M, ORIGINAL_BLOCKS, ORIGINAL_TURNS);
    for (unsigned i = 0; i < PLAIN_KITS; i++) {
        unsigned m = plain_kits[i].m, t = plain_kits[i].t, M = plain_kits[i].M;
        plain_sizes s;
        uint64_t place, report[REPORT], load_answer[2];
        if (plain_design(m, t, M, &s, &place))
            return 1;
        size_t lists = 2 * (size_t)s.size, matrix = s.size * (((size_t)s.size + 7) / 8), area = (size_t)M * M, group = 2 * (size_t)s.size;
        uint8_t *self = lend(lists), *parity = lend(lists), *inverse = lend(matrix), *work = lend(matrix);
        uint8_t *info = lend(LONG * area), *red = lend(LONG / 2 * group), *other = lend(LONG / 2 * group);
        plain_lists(m, t, M, plain_kits[i].seed, self, parity);
        if (2 * m * t <= M) {
            uint8_t *ours = lend(lists), *ours_parity = lend(lists);
            differ |= bauchleton_mixed_lists(m, t, M, (uint32_t)plain_kits[i].seed, ours, lists, ours_parity, lists, load_answer, 2) != 0
                || memcmp(ours, self, lists) != 0 || memcmp(ours_parity, parity, lists) != 0;
            free(ours);
            free(ours_parity);
        }
        if (!plain_make_inverse(m, t, M, self, parity, inverse))
            return 1;
        differ |= bauchleton_load_fill(m, t, M, LONG, SEED, info, LONG * area, load_answer, 2) != 0;

        double check[3] = {1e9, 1e9, 1e9}, encode[2][2] = {{1e9, 1e9}, {1e9, 1e9}}, bad[2] = {1e9, 1e9};
        for (unsigned turn = 0; turn < TURNS; turn++) {
            double a = now(), b;
            differ |= plain_check_kit(m, t, M, self, parity, inverse, &place) != 0;
            check[0] = least(check[0], now() - a);
            for (unsigned again = 0; again < KIT_TURNS; again++) {
                a = now();
                differ |= bauchleton_check_kit(m, t, M, self, lists, parity, lists, inverse, matrix, work, matrix, LENT(report)) != 0 || report[0] != 0;
                b = now();
                differ |= strong_check_kit(m, t, M, self, parity, inverse, &place) != 0;
                check[1] = least(check[1], b - a);
                check[2] = least(check[2], now() - b);
            }
            for (unsigned l = 0; l < 2; l++) {
                unsigned L = l ? LONG : SHORT;
                for (unsigned again = 0; again < (l ? 1 : KIT_TURNS); again++) {
                    a = now();
                    plain_encode(m, t, M, L, self, parity, inverse, info, other);
                    b = now();
                    differ |= bauchleton_encode(m, t, M, L, self, lists, parity, lists, inverse, matrix, info, L * area, red, L / 2 * group, work,
                                                matrix, LENT(report)) != 0 || report[0] != 0;
                    encode[0][l] = least(encode[0][l], b - a);
                    encode[1][l] = least(encode[1][l], now() - b);
                    differ |= memcmp(red, other, L / 2 * group) != 0;
                }
            }
            uint8_t last = info[SHORT * area - 1];
            info[SHORT * area - 1] = 7;
            a = now();
            differ |= plain_first_bad_bit(info, SHORT * area) != SHORT * area - 1;
            b = now();
            differ |= bauchleton_encode(m, t, M, SHORT, self, lists, parity, lists, inverse, matrix, info, SHORT * area, red, SHORT / 2 * group, work,
                                        matrix, LENT(report)) != 10 || report[0] != SHORT * area - 1;
            bad[0] = least(bad[0], b - a);
            bad[1] = least(bad[1], now() - b);
            info[SHORT * area - 1] = last;
        }
        double plain = (encode[0][1] - encode[0][0]) / 16, ours = (encode[1][1] - encode[1][0]) / 16;
        printf("m %u t %u M %u, %u rows: kit check %.1f us, plain %.1f us, ratio %.3f, strong %.1f us, ratio %.2f\n", m, t, M, s.size, check[1] * 1e6,
               check[0] * 1e6, check[1] / check[0], check[2] * 1e6, check[1] / check[2]);
        printf("  32 blocks of a longer frame encoded, kit check apart, in %.1f us, plain %.1f us, ratio %.2f; by a call with its kit check in %.1f us, ratio to that %.1f\n",
               ours * 1e6, plain * 1e6, ours / plain, encode[1][0] * 1e6, encode[1][0] / ours);
        printf("  32 blocks by themselves encoded, kit check apart, in %.1f us, plain %.1f us, ratio %.2f\n", (encode[1][0] - check[1]) * 1e6, encode[0][0] * 1e6,
               (encode[1][0] - check[1]) / encode[0][0]);
        printf("  a bad last byte refused in %.0f us, %.2f of the kit check; its bytes searched plainly in %.0f us, ratio %.2f\n", bad[1] * 1e6,
               bad[1] / check[1], bad[0] * 1e6, bad[1] / bad[0]);
        if (M == 72)
            differ |= time_batch(m, t, M, &s, self, parity, inverse, info);     /* LONG blocks are more than BATCH frames of two */
        differ |= time_kit(m, t, M, &s, self, parity, inverse);
        differ |= time_frames(m, t, M, &s, self, parity, inverse);
        differ |= time_load(m, t, M, &s);
        free(self), free(parity), free(inverse), free(work), free(info), free(red), free(other);
    }
    if (differ)
        printf("results differ\n");
    return differ;
}
