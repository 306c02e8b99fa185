/* bauchleton-waterfall: error rates after the decoder against the error rate of the line, as CSV and as a picture.

       bauchleton-waterfall [options]
       bauchleton-waterfall --merge [options] FILE..

   Every frame is encoded, damaged and decoded by calls of the library, and compared with what was sent. Frame k of a rate depends on the seed, the rate and k
   alone: the numbers do not depend on threads or on shares, and all decoders are given the same errors.

   options     what is asked for
   frames      the frames that are sent, and what the line does to them
   one frame   decoded and counted
   threads     which share out the frames of a point
   run         the points, one after the other, with a progress line */

#define _POSIX_C_SOURCE 200809L
#include "common.h"
#include "lists.h"
#include "plot.h"
#include "table.h"

#include <errno.h>
#include <getopt.h>
#include <inttypes.h>
#include <math.h>
#include <pthread.h>
#include <signal.h>
#include <stdlib.h>
#include <string.h>
#include <time.h>
#include <unistd.h>

const char program[] = "bauchleton-waterfall";

enum {
    MOST_DECODERS = 66,          /* whole frames, windows of 1 to 64 groups, original frames */
    MOST_RATES = 1000,
    MOST_THREADS = 1024,
    STEP = 64,                   /* frames between two looks at the bad ones, at least */
    POOL = 8,                    /* different frames that are sent in turn */
    POOL_BYTES = 1 << 28,        /* fewer, where they take more than this */
    THREAD_STACK = 1 << 20       /* bytes; a decode takes some 170 KB */
};

/* ---- Options ---- */

typedef enum { WHOLE, WINDOW, ORIGINAL } decoder_kind;

typedef struct {
    decoder_kind kind;
    uint64_t groups;             /* of a window */
} decoder;

static struct {
    uint64_t design[3];
    const char *kit_path;
    list_kind lists;
    uint32_t kit_seed;
    uint64_t blocks, rounds;
    uint64_t original;           /* M of original frames, 0 for none */
    uint64_t cut;                /* last blocks of an original frame that are not counted */
    int cut_given, zero_end, load;
    uint64_t bad, frames, seed, part, parts;
    int bad_given;
    uint64_t rates[MOST_RATES];  /* in units of 1e-9 */
    size_t rate_count;
    decoder decoders[MOST_DECODERS];
    size_t decoder_count;
    unsigned threads;
    panel panels[PANELS];
    size_t panel_count;
    const char *csv, *svg;
    int quiet;
} asked = {
    .design = {8, 3, 72}, .kit_seed = 1, .blocks = 31, .rounds = BAUCHLETON_DEFAULT_ROUNDS, .cut = 8, .bad = 50, .frames = 2000, .seed = 1, .part = 1,
    .parts = 1, .panels = {PANEL_BIT, PANEL_FRAME}, .panel_count = 2, .csv = "-",
};

static const char usage[] =
    "usage: bauchleton-waterfall [options]\n"
    "       bauchleton-waterfall --merge [-o FILE] [-g FILE] [--panels LIST] CSV..\n"
    "\n"
    "Sends frames over a line with random errors, decodes them and counts what is still wrong, for each rate of the line.\n"
    "\n"
    "What is sent:\n"
    "  -d, --design m,t,M         the design; 8,3,72\n"
    "  -i, --lists mixed|random   lists of the kit that is made; mixed where 2 r is at most M, else random\n"
    "      --kit-seed SEED        first seed that is tried for these lists; 1\n"
    "  -k, --kit FILE             a kit text of any size, in place of the three above\n"
    "  -L, --blocks L             blocks of a frame, 1 to 4096; 31. Choose an odd number\n"
    "  -p, --rates A:B:N          N error rates of the line from A to B; 0.016:0.025:10\n"
    "  -p, --rates A,B,..         these rates\n"
    "  -n, --frames N             frames of a point; 2000\n"
    "  -b, --bad N                a point ends earlier once N frames are wrong; 50. 0: never\n"
    "  -s, --seed SEED            seed of the errors, 0 to 4294967295; 1\n"
    "  -l, --load                 errors of the test load, which any bench can repeat, at rates of a multiple of 1/65536;\n"
    "                             some 20 times slower than this program's own draw\n"
    "How it is decoded:\n"
    "  -r, --rounds R             most rounds, 1 to 64; 12\n"
    "  -w, --windows V,V,..       windows of V groups too, 1 to 64\n"
    "  -O, --original M           original staircase frames of the same m and t too, of blocks of M by M bits\n"
    "      --no-whole             without the decoder of whole frames\n"
    "  -c, --cut BLOCKS           last blocks of an original frame that are not counted; 8, with -z 0\n"
    "  -z, --zero-end             the last block of an original frame, and of a frame of an even number of blocks, is zero;\n"
    "                             the receiver knows it: only its parity is sent\n"
    "How it is run:\n"
    "  -j, --threads N            threads; as many as there are processors. The numbers do not depend on it\n"
    "      --part K/N             the K-th of N shares of the frames of each point; -b does not apply\n"
    "      --merge                adds up the CSV files that are named, of shares or of seeds, and draws them\n"
    "What is written:\n"
    "  -o, --output FILE          CSV, a line as soon as its point is done; standard output if not given\n"
    "  -g, --graph FILE           picture, SVG\n"
    "      --panels LIST          what it shows: some of bit, block and frame; bit,frame\n"
    "  -q, --quiet                no messages but errors\n"
    "  -h, --help                 this text\n"
    "  -V, --version              the version\n"
    "\n"
    "Exit status: 0; 1 where the library refuses; 2 wrong options, or an input or output that failed.\n";

/* The words of a list that commas part, one at each call, or a null pointer. `rest` begins with a copy of the list. */
static char *next_word(char **rest)
{
    char *word = *rest;
    if (word == NULL)
        return NULL;
    char *comma = strchr(word, ',');
    if (comma != NULL)
        *comma = 0;
    *rest = comma != NULL ? comma + 1 : NULL;
    return word;
}

static char *copy_of(const char *text)
{
    char *copy = take(strlen(text) + 1, 1);
    return strcpy(copy, text);
}

static void add_rate(double rate)
{
    if (!(rate >= 1e-9 && rate < 0.5))
        fail(STATUS_WRONG, "--rates: %g is not a rate from 1e-9 to below 0.5", rate);
    if (asked.rate_count == MOST_RATES)
        fail(STATUS_WRONG, "--rates: more than %d", MOST_RATES);
    asked.rates[asked.rate_count++] = (uint64_t)(rate * 1e9 + 0.5);
}

static void read_rates(const char *text)
{
    char *copy = copy_of(text), *rest = copy, *word, *second = strchr(copy, ':');
    asked.rate_count = 0;
    if (second != NULL) {
        *second++ = 0;
        char *third = strchr(second, ':');
        if (third == NULL)
            fail(STATUS_WRONG, "--rates: '%s' is not A:B:N, as in 0.016:0.025:10", text);
        *third++ = 0;
        const double from = decimal("--rates", copy), to = decimal("--rates", second);
        const uint64_t steps = number("--rates", third, 2, MOST_RATES);
        for (uint64_t i = 0; i < steps; i++)
            add_rate(from + (to - from) * (double)i / (double)(steps - 1));
    } else {
        while ((word = next_word(&rest)) != NULL)
            add_rate(decimal("--rates", word));
    }
    free(copy);
}

static void add_window(const char *word)
{
    const uint64_t groups = number("--windows", word, 1, BAUCHLETON_MAX_WINDOW);
    for (size_t i = 0; i < asked.decoder_count; i++)
        if (asked.decoders[i].kind == WINDOW && asked.decoders[i].groups == groups)
            fail(STATUS_WRONG, "--windows: %" PRIu64 " stands twice", groups);
    asked.decoders[asked.decoder_count++] = (decoder){WINDOW, groups};
}

static void read_windows(const char *text)
{
    char *copy = copy_of(text), *rest = copy, *word;
    while ((word = next_word(&rest)) != NULL)
        add_window(word);
    free(copy);
}

static void read_part(const char *text)
{
    char *copy = copy_of(text), *slash = strchr(copy, '/');
    if (slash == NULL)
        fail(STATUS_WRONG, "--part: '%s' is not K/N, as in 1/8", text);
    *slash = 0;
    asked.parts = number("--part", slash + 1, 1, UINT32_MAX);
    asked.part = number("--part", copy, 1, asked.parts);
    free(copy);
}

static void read_panels(const char *text)
{
    static const char *const names[PANELS] = {"bit", "block", "frame"};
    char *copy = copy_of(text), *rest = copy, *word;
    asked.panel_count = 0;
    while ((word = next_word(&rest)) != NULL) {
        int k = 0;
        while (k < PANELS && strcmp(word, names[k]) != 0)
            k++;
        if (k == PANELS || asked.panel_count == PANELS)
            fail(STATUS_WRONG, "--panels: '%s' is not a list of bit, block and frame, each at most once", text);
        asked.panels[asked.panel_count++] = (panel)k;
    }
    for (size_t i = 1; i < asked.panel_count; i++)
        for (size_t j = 0; j < i; j++)
            if (asked.panels[i] == asked.panels[j])
                fail(STATUS_WRONG, "--panels: '%s' has one twice", text);
    free(copy);
}

/* ---- Frames ----
   A frame is one buffer of a bit a byte: information and then redundancy, or the blocks of an original frame. */

typedef struct {
    int original;
    uint64_t size, blocks, counted;      /* counted: the first blocks, which are compared */
    size_t bytes, info_bytes, red_bytes; /* original frames have no redundancy apart */
    size_t unsent;                       /* bits of the last block that are not sent, and zero */
    uint64_t most;                       /* frames that the test load has: then its generator begins anew */
    uint64_t pool;
    uint8_t *sent;                       /* `pool` frames */
} source;

static kit k;                             /* of original frames only m, t and r */
static source frames, originals;         /* empty where no decoder wants them */

static uint64_t place_of(const uint8_t *report)
{
    return bauchleton_report_number(report, BAUCHLETON_REPORT_PLACE);
}

/* The state of the test load's generator after some steps. */
static uint32_t load_after(uint32_t state, uint64_t steps)
{
    uint32_t factor = UINT32_C(1664525), term = UINT32_C(1013904223), a = 1, c = 0;
    for (; steps > 0; steps /= 2) {
        if (steps % 2 == 1) {
            a *= factor;
            c = c * factor + term;
        }
        term *= factor + 1;
        factor *= factor;
    }
    return a * state + c;
}

static void fill_bits(uint8_t *bits, size_t length, uint32_t *state)
{
    for (size_t i = 0; i < length; i++) {
        *state = load_after(*state, 1);
        bits[i] = (uint8_t)(*state >> 31);
    }
}

/* Sets the bits that are not sent to zero; answers how many were not. */
static uint64_t clear_unsent(const source *s, uint8_t *frame)
{
    const uint64_t width = s->original ? s->size - k.r : s->size;
    uint64_t ones = 0;
    if (s->unsent == 0)
        return 0;
    for (uint64_t row = 0; row < s->size; row++) {
        uint8_t *bits = frame + ((s->blocks - 1) * s->size + row) * s->size;
        for (uint64_t j = 0; j < width; j++) {
            ones += bits[j];
            bits[j] = 0;
        }
    }
    return ones;
}

static void make_pool(source *s)
{
    s->pool = POOL_BYTES / s->bytes < POOL ? POOL_BYTES / s->bytes : POOL;
    s->pool = s->pool > 0 ? s->pool : 1;
    s->most = (UINT64_C(1) << 32) / (16 * s->bytes);
    s->sent = take(s->pool, s->bytes);
}

/* Frames of the kit. The information is the test load's, one frame after the other from the seed. */
static void make_frames(source *s)
{
    uint64_t sizes[BAUCHLETON_SIZES_ENTRIES], answer[2] = {0, asked.seed}, rule;
    uint8_t report[BAUCHLETON_REPORT_BYTES];
    rule = bauchleton_sizes(k.m, k.t, k.size, asked.blocks, sizes, BAUCHLETON_SIZES_ENTRIES);
    if (rule != BAUCHLETON_ACCEPTED)
        refused("--blocks", rule, sizes[BAUCHLETON_SIZES_PLACE]);
    const int zero = asked.zero_end && asked.blocks % 2 == 0;
    *s = (source){.size = k.size, .blocks = asked.blocks, .counted = asked.blocks - (zero ? 1 : 0)};
    s->info_bytes = sizes[BAUCHLETON_SIZES_INFO];
    s->red_bytes = sizes[BAUCHLETON_SIZES_RED];
    s->bytes = s->info_bytes + s->red_bytes;
    s->unsent = zero ? k.size * k.size : 0;
    make_pool(s);
    const size_t work_bytes = sizes[BAUCHLETON_SIZES_ENCODE_WORK];
    uint8_t *work = take(work_bytes, 1);
    for (uint64_t i = 0; i < s->pool; i++) {
        uint8_t *info = s->sent + i * s->bytes;
        rule = bauchleton_load_fill(k.m, k.t, k.size, asked.blocks, (uint32_t)answer[1], info, s->info_bytes, answer, 2);
        if (rule != BAUCHLETON_ACCEPTED)
            refused("bauchleton_load_fill", rule, answer[0]);
        clear_unsent(s, info);
        rule = bauchleton_encode(k.m, k.t, k.size, asked.blocks, k.self, k.list_bytes, k.parity, k.list_bytes, k.inverse, k.inverse_bytes, info, s->info_bytes,
                                 info + s->info_bytes, s->red_bytes, work, work_bytes, report, sizeof report);
        if (rule != BAUCHLETON_ACCEPTED)
            refused("bauchleton_encode", rule, place_of(report));
    }
    free(work);
}

/* Original frames: every bit is filled, and the encoder then writes the parity. */
static void make_originals(source *s)
{
    uint8_t report[BAUCHLETON_REPORT_BYTES];
    uint32_t state = (uint32_t)asked.seed;
    const uint64_t last = asked.zero_end && asked.cut == 0 ? 1 : asked.cut;
    if (last >= asked.blocks)
        fail(STATUS_WRONG, "original frames of %" PRIu64 " blocks have none to count: more blocks (-L) or a smaller cut (-c)", asked.blocks);
    *s = (source){.original = 1, .size = asked.original, .blocks = asked.blocks, .counted = asked.blocks - last};
    s->bytes = s->info_bytes = asked.blocks * asked.original * asked.original;
    make_pool(s);
    for (uint64_t i = 0; i < s->pool; i++) {
        uint8_t *buffer = s->sent + i * s->bytes;
        fill_bits(buffer, s->bytes, &state);
        uint64_t rule = bauchleton_original_encode(k.m, k.t, s->size, s->blocks, buffer, s->bytes, report, sizeof report);
        if (rule == BAUCHLETON_ACCEPTED && asked.zero_end) {
            s->unsent = s->size * (s->size - k.r);
            clear_unsent(s, buffer);
            rule = bauchleton_original_encode(k.m, k.t, s->size, s->blocks, buffer, s->bytes, report, sizeof report);
        }
        if (rule != BAUCHLETON_ACCEPTED)
            refused("--original", rule, place_of(report));
    }
}

/* ---- The line ---- */

enum { GAPS = 256 };

/* For this program's own draw: beyond[j] / 2^32 is the chance that j bits in a row are not turned. Whole numbers alone, so that every machine draws the
   same. */
typedef struct {
    uint64_t rate;               /* in units of 1e-9 */
    uint64_t limit;              /* of the test load */
    uint64_t beyond[GAPS + 1];
} line;

static line line_of(uint64_t rate)
{
    line l = {.rate = rate, .limit = (rate * 65536 + 500000000) / 1000000000};
    const uint64_t stays = (UINT64_C(1) << 32) - ((rate << 32) + 500000000) / 1000000000;
    l.beyond[0] = UINT64_C(1) << 32;
    for (int j = 0; j < GAPS; j++)
        l.beyond[j + 1] = l.beyond[j] * stays >> 32;
    return l;
}

/* splitmix64 */
static uint64_t mixed_bits(uint64_t z)
{
    z = (z ^ (z >> 30)) * UINT64_C(0xBF58476D1CE4E5B9);
    z = (z ^ (z >> 27)) * UINT64_C(0x94D049BB133111EB);
    return z ^ (z >> 31);
}

static uint64_t next_bits(uint64_t *state)
{
    return mixed_bits(*state += UINT64_C(0x9E3779B97F4A7C15));
}

/* A number from 0 to GAPS: the bits that stay before the next one turns, GAPS if it is not among the next GAPS. */
static size_t draw_gap(const line *l, uint64_t *state)
{
    const uint64_t drawn = next_bits(state) >> 32;
    size_t gap = 0;
    for (size_t step = GAPS; step > 0; step /= 2)
        if (gap + step <= GAPS && drawn < l->beyond[gap + step])
            gap += step;
    return gap;
}

static uint64_t turn_sparse(const line *l, uint64_t frame, uint8_t *bits, size_t length)
{
    uint64_t state = mixed_bits(mixed_bits(mixed_bits(asked.seed + 1) ^ l->rate) ^ frame), turned = 0;
    size_t at = 0;
    for (;;) {
        const size_t gap = draw_gap(l, &state);
        at += gap;
        if (at >= length)
            return turned;
        if (gap < GAPS) {
            bits[at++] ^= 1;
            turned++;
        }
    }
}

/* Frame 0 begins at the seed after that of the information, every other one where the frame before it ends: 16 steps a bit. */
static uint32_t load_seed(const source *s, uint64_t frame)
{
    return load_after((uint32_t)(asked.seed + 1), 16 * s->bytes * frame);
}

static uint64_t turn_by_load(const source *s, const line *l, uint64_t frame, uint8_t *bits, const uint8_t *sent)
{
    uint32_t state = load_seed(s, frame);
    uint64_t turned = 0, answer[2];
    if (s->original) {
        for (size_t i = 0; i < s->bytes; i++)
            bits[i] ^= load_draw(&state) < l->limit;
    } else {
        const uint64_t rule = bauchleton_load_errors(k.m, k.t, k.size, s->blocks, state, l->limit, bits, s->info_bytes, bits + s->info_bytes, s->red_bytes,
                                                     answer, 2);
        if (rule != BAUCHLETON_ACCEPTED)
            refused("bauchleton_load_errors", rule, answer[0]);
    }
    for (size_t i = 0; i < s->bytes; i++)
        turned += bits[i] ^ sent[i];
    return turned;
}

/* ---- One frame ---- */

typedef struct {
    uint8_t *bits, *work;
    size_t decode_work, original_work;
} buffers;

static uint64_t wrong_bits(const uint8_t *got, const uint8_t *sent, size_t length)
{
    uint64_t wrong = 0;
    for (size_t i = 0; i < length; i++)
        wrong += got[i] ^ sent[i];
    return wrong;
}

/* The information bits of a block that differ from those sent. */
static uint64_t wrong_in_block(const source *s, const uint8_t *got, const uint8_t *sent)
{
    const size_t area = s->size * s->size, width = s->original ? s->size - k.r : s->size;
    uint64_t wrong = 0;
    if (memcmp(got, sent, area) == 0)
        return 0;
    for (size_t row = 0; row < area; row += s->size)
        wrong += wrong_bits(got + row, sent + row, width);
    return wrong;
}

static void count_blocks(const source *s, const uint8_t *got, const uint8_t *sent, uint64_t *count)
{
    const size_t area = s->size * s->size;
    uint64_t last = 0;
    for (uint64_t j = 0; j < s->counted; j++) {
        last = wrong_in_block(s, got + j * area, sent + j * area);
        count[COUNT_WRONG_BITS] += last;
        count[COUNT_BAD_BLOCKS] += last > 0;
    }
    count[COUNT_FRAMES] = 1;
    count[COUNT_BLOCKS] = s->counted;
    count[COUNT_BITS] = s->counted * s->size * (s->original ? s->size - k.r : s->size);
    count[COUNT_BAD_FRAMES] = count[COUNT_BAD_BLOCKS] > 0;
    count[COUNT_LAST_ALONE] = last > 0 && count[COUNT_BAD_BLOCKS] == 1;
    count[COUNT_BAD_BLOCKS_SQUARED] = count[COUNT_BAD_BLOCKS] * count[COUNT_BAD_BLOCKS];
    count[COUNT_WRONG_BITS_SQUARED] = count[COUNT_WRONG_BITS] * count[COUNT_WRONG_BITS];
}

static uint64_t decode(const source *s, const decoder *d, const buffers *b, uint8_t *report)
{
    uint8_t *red = b->bits + s->info_bytes;
    if (d->kind == ORIGINAL)
        return bauchleton_original_decode(k.m, k.t, s->size, s->blocks, asked.rounds, b->bits, s->bytes, b->work, b->original_work, report,
                                          BAUCHLETON_REPORT_BYTES);
    if (d->kind == WINDOW)
        return bauchleton_decode_window(k.m, k.t, k.size, s->blocks, asked.rounds, d->groups, k.self, k.list_bytes, k.parity, k.list_bytes, b->bits,
                                        s->info_bytes, red, s->red_bytes, b->work, b->decode_work, report, BAUCHLETON_REPORT_BYTES);
    return bauchleton_decode(k.m, k.t, k.size, s->blocks, asked.rounds, k.self, k.list_bytes, k.parity, k.list_bytes, b->bits, s->info_bytes, red,
                             s->red_bytes, b->work, b->decode_work, report, BAUCHLETON_REPORT_BYTES);
}

/* Sends, decodes and counts a frame. */
static void run_frame(const decoder *d, const line *l, uint64_t frame, const buffers *b, uint64_t *count)
{
    const source *s = d->kind == ORIGINAL ? &originals : &frames;
    const uint8_t *sent = s->sent + frame % s->pool * s->bytes;
    uint8_t report[BAUCHLETON_REPORT_BYTES];
    memset(count, 0, COUNTS * sizeof *count);
    memcpy(b->bits, sent, s->bytes);
    count[COUNT_LINE_ERRORS] = asked.load ? turn_by_load(s, l, frame, b->bits, sent) : turn_sparse(l, frame, b->bits, s->bytes);
    count[COUNT_LINE_ERRORS] -= clear_unsent(s, b->bits);
    count[COUNT_LINE_BITS] = s->bytes - s->unsent;
    const uint64_t rule = decode(s, d, b, report);
    if (rule != BAUCHLETON_ACCEPTED)
        refused("the decoder", rule, place_of(report));
    count[COUNT_ROUNDS] = bauchleton_report_number(report, BAUCHLETON_REPORT_ROUNDS);
    count_blocks(s, b->bits, sent, count);
}

static buffers make_buffers(void)
{
    uint64_t sizes[BAUCHLETON_SIZES_ENTRIES];
    buffers b;
    const uint64_t rule = bauchleton_sizes(k.m, k.t, k.size, asked.blocks, sizes, BAUCHLETON_SIZES_ENTRIES);
    b.decode_work = rule == BAUCHLETON_ACCEPTED ? sizes[BAUCHLETON_SIZES_DECODE_WORK] : 0;
    b.original_work = 4 * originals.blocks * originals.size + (originals.bytes + 7) / 8;
    b.bits = take(frames.bytes > originals.bytes ? frames.bytes : originals.bytes, 1);
    b.work = take(b.decode_work > b.original_work ? b.decode_work : b.original_work, 1);
    return b;
}

/* ---- Threads ----
   Frames of the share are numbered from 0. Each thread takes the next one until `end`; those below `next` are done or in hand, so that a run that is
   stopped has counted the first frames of its point, and no other. */

static struct {
    pthread_mutex_t lock;
    pthread_cond_t work, idle;
    pthread_t ids[MOST_THREADS];
    const decoder *d;
    const line *l;
    uint64_t next, end, in_hand;
    int over;
    uint64_t sum[COUNTS];
} team = {.lock = PTHREAD_MUTEX_INITIALIZER, .work = PTHREAD_COND_INITIALIZER, .idle = PTHREAD_COND_INITIALIZER};

static void *worker(void *unused)
{
    const buffers b = make_buffers();
    uint64_t count[COUNTS];
    (void)unused;
    pthread_mutex_lock(&team.lock);
    for (;;) {
        while (team.next >= team.end && !team.over)
            pthread_cond_wait(&team.work, &team.lock);
        if (team.over)
            break;
        const uint64_t frame = asked.part - 1 + asked.parts * team.next++;
        team.in_hand++;
        pthread_mutex_unlock(&team.lock);
        run_frame(team.d, team.l, frame, &b, count);
        pthread_mutex_lock(&team.lock);
        for (int i = 0; i < COUNTS; i++)
            team.sum[i] += count[i];
        team.in_hand--;
        if (team.next >= team.end && team.in_hand == 0)
            pthread_cond_signal(&team.idle);
    }
    pthread_mutex_unlock(&team.lock);
    free(b.bits);
    free(b.work);
    return NULL;
}

/* Signals are for the first thread alone. */
static void start_team(void)
{
    pthread_attr_t attributes;
    sigset_t all, before;
    sigfillset(&all);
    pthread_sigmask(SIG_SETMASK, &all, &before);
    if (pthread_attr_init(&attributes) != 0 || pthread_attr_setstacksize(&attributes, THREAD_STACK) != 0)
        fail(STATUS_WRONG, "no thread has a stack of %d bytes", THREAD_STACK);
    for (unsigned i = 0; i < asked.threads; i++) {
        const int error = pthread_create(&team.ids[i], &attributes, worker, NULL);
        if (error != 0)
            fail(STATUS_WRONG, "no thread %u: %s", i + 1, strerror(error));
    }
    pthread_attr_destroy(&attributes);
    pthread_sigmask(SIG_SETMASK, &before, NULL);
}

static void end_team(void)
{
    pthread_mutex_lock(&team.lock);
    team.over = 1;
    pthread_cond_broadcast(&team.work);
    pthread_mutex_unlock(&team.lock);
    for (unsigned i = 0; i < asked.threads; i++)
        pthread_join(team.ids[i], NULL);
}

/* ---- The run ---- */

static volatile sig_atomic_t stopped;    /* the signal that ends the run after the frames in hand */
static volatile time_t stopped_at;

/* The same signal may come twice at once, from a terminal and from a launcher. One that comes later ends the program. */
static void stop(int number_of_signal)
{
    struct timespec now;
    clock_gettime(CLOCK_MONOTONIC, &now);
    if (!stopped) {
        stopped = number_of_signal;
        stopped_at = now.tv_sec;
    } else if (now.tv_sec > stopped_at + 1) {
        signal(number_of_signal, SIG_DFL);
        raise(number_of_signal);
    }
}

static void listen_to(int number_of_signal)
{
    struct sigaction action, before;
    memset(&action, 0, sizeof action);
    action.sa_handler = stop;
    sigfillset(&action.sa_mask);
    if (sigaction(number_of_signal, NULL, &before) == 0 && before.sa_handler != SIG_IGN)
        sigaction(number_of_signal, &action, NULL);
}

static double seconds(void)
{
    struct timespec now;
    clock_gettime(CLOCK_MONOTONIC, &now);
    return (double)now.tv_sec + 1e-9 * (double)now.tv_nsec;
}

static struct {
    int shown;
    double begun, curve_begun, drawn;
    uint64_t curve_frames;               /* of the points of the curve that are done */
    uint64_t total;                      /* frames */
    size_t d, rate;
} progress;

static void decoder_name(const decoder *d, char *text, size_t room)
{
    if (d->kind == WINDOW)
        snprintf(text, room, "window %" PRIu64, d->groups);
    else
        snprintf(text, room, "%s", d->kind == WHOLE ? "whole" : "original");
}

/* Frames of this share, of each point. */
static uint64_t share_frames(void)
{
    return asked.frames / asked.parts + (asked.part <= asked.frames % asked.parts ? 1 : 0);
}

static void write_time(double left)
{
    const unsigned long s = (unsigned long)(left + 0.5);
    if (s < 100)
        fprintf(stderr, "%lu s", s);
    else if (s < 6000)
        fprintf(stderr, "%lu min", (s + 30) / 60);
    else
        fprintf(stderr, "%lu h %02lu min", s / 3600, s % 3600 / 60);
}

/* Every point may take all its frames, each as long as those of this curve took so far: hence 'at most'. Points that end by bad frames take less. */
static void show_progress(void)
{
    char name[32];
    const double now = seconds();
    const uint64_t done = team.sum[COUNT_FRAMES], curve_done = progress.curve_frames + done;
    const size_t points = (asked.decoder_count - progress.d) * asked.rate_count - progress.rate;
    if (!progress.shown || now - progress.drawn < 0.1)
        return;
    progress.drawn = now;
    decoder_name(&asked.decoders[progress.d], name, sizeof name);
    fprintf(stderr, "\r\033[K%s %.9g (%zu/%zu): %" PRIu64 "/%" PRIu64 " frames, %" PRIu64 " bad", name, (double)team.l->rate / 1e9,
            progress.d * asked.rate_count + progress.rate + 1, asked.decoder_count * asked.rate_count, done, share_frames(), team.sum[COUNT_BAD_FRAMES]);
    if (curve_done > 0 && now - progress.curve_begun > 0.5) {
        const double each = (now - progress.curve_begun) / (double)curve_done;
        fputs(", at most ", stderr);
        write_time(each * ((double)points * (double)share_frames() - (double)done));
        fputs(" left", stderr);
    }
    fflush(stderr);
}

static void clear_progress(void)
{
    if (progress.shown)
        fputs("\r\033[K", stderr);
}

/* Runs frames to number `end` of the point, or until a signal came. */
static void run_until(uint64_t end)
{
    pthread_mutex_lock(&team.lock);
    team.end = end;
    pthread_cond_broadcast(&team.work);
    while (team.next < team.end || team.in_hand > 0) {
        struct timespec until;
        clock_gettime(CLOCK_REALTIME, &until);
        until.tv_nsec += 100000000;
        if (until.tv_nsec >= 1000000000) {
            until.tv_nsec -= 1000000000;
            until.tv_sec++;
        }
        pthread_cond_timedwait(&team.idle, &team.lock, &until);
        if (stopped && team.next < team.end)
            team.end = team.next;
        show_progress();
    }
    pthread_mutex_unlock(&team.lock);
}

/* The frames after which bad ones are looked at: 64, 128, .., later an eighth more each time. Points end at such a number, whatever the threads. */
static uint64_t next_look(uint64_t done, uint64_t all)
{
    const uint64_t step = done / 8 > STEP ? done / 8 / STEP * STEP : STEP;
    return asked.bad == 0 || all - done < step ? all : done + step;
}

static void run_point(const decoder *d, const line *l)
{
    const uint64_t all = share_frames();
    pthread_mutex_lock(&team.lock);
    team.d = d;
    team.l = l;
    team.next = team.end = 0;
    memset(team.sum, 0, sizeof team.sum);
    pthread_mutex_unlock(&team.lock);
    while (!stopped && team.sum[COUNT_FRAMES] < all && (asked.bad == 0 || team.sum[COUNT_BAD_FRAMES] < asked.bad))
        run_until(next_look(team.sum[COUNT_FRAMES], all));
}

static curve name_curve(const decoder *d)
{
    const source *s = d->kind == ORIGINAL ? &originals : &frames;
    curve c = {{{0}}};
    decoder_name(d, c.key[KEY_DECODER], KEY_ROOM);
    snprintf(c.key[KEY_M], KEY_ROOM, "%" PRIu64, k.m);
    snprintf(c.key[KEY_T], KEY_ROOM, "%" PRIu64, k.t);
    snprintf(c.key[KEY_SIZE], KEY_ROOM, "%" PRIu64, s->size);
    snprintf(c.key[KEY_BLOCKS], KEY_ROOM, "%" PRIu64, s->blocks);
    snprintf(c.key[KEY_ROUNDS], KEY_ROOM, "%" PRIu64, asked.rounds);
    snprintf(c.key[KEY_LISTS], KEY_ROOM, "%s", s->original ? "none" : lists_name(k.lists));
    if (s->original)
        snprintf(c.key[KEY_KIT], KEY_ROOM, "none");
    else
        snprintf(c.key[KEY_KIT], KEY_ROOM, "%016" PRIx64, kit_hash(&k));
    const uint64_t cut = s->blocks - s->counted;
    if (s->unsent > 0 && cut > 1)
        snprintf(c.key[KEY_ENDING], KEY_ROOM, "zero cut %" PRIu64, cut);
    else if (s->unsent == 0 && cut > 0)
        snprintf(c.key[KEY_ENDING], KEY_ROOM, "cut %" PRIu64, cut);
    else
        snprintf(c.key[KEY_ENDING], KEY_ROOM, "%s", s->unsent > 0 ? "zero" : "plain");
    snprintf(c.key[KEY_DRAW], KEY_ROOM, "%s", asked.load ? "load" : "sparse");
    return c;
}

/* Runs the point, and writes its line at once; of a run that was stopped the frames so far. */
static void run_and_write(table *t, FILE *csv, size_t d, size_t rate)
{
    const curve c = name_curve(&asked.decoders[d]);
    const share s = {asked.seed, asked.part, asked.parts};
    const line l = line_of(asked.rates[rate]);
    progress.d = d;
    progress.rate = rate;
    run_point(&asked.decoders[d], &l);
    progress.curve_frames += team.sum[COUNT_FRAMES];
    progress.total += team.sum[COUNT_FRAMES];
    if (stopped && team.sum[COUNT_FRAMES] == 0)
        return;
    table_add(t, table_curve(t, &c), l.rate, &s, 1, team.sum, "--rates");
    clear_progress();
    table_line(csv, t, &t->points[t->point_count - 1]);
    if (fflush(csv) != 0)
        close_output(csv, asked.csv);
}

/* Reads or makes the kit; for original frames alone there is none. */
static void get_kit(int wanted)
{
    uint64_t rule, place;
    if (!wanted) {
        k = (kit){.m = asked.design[0], .t = asked.design[1], .r = asked.design[0] * asked.design[1]};
    } else if (asked.kit_path != NULL) {
        size_t length;
        uint8_t *text = read_file(asked.kit_path, &length);
        rule = kit_read(&k, text, length, &place);
        if (rule == BAUCHLETON_ACCEPTED)
            rule = kit_check(&k, &place);
        free(text);
        if (rule != BAUCHLETON_ACCEPTED)
            refused(asked.kit_path, rule, place);
    } else {
        k = (kit){.m = asked.design[0], .t = asked.design[1], .size = asked.design[2], .lists = asked.lists, .seed = asked.kit_seed};
        rule = kit_make(&k, MOST_TRIES, asked.quiet, &place);
        if (rule != BAUCHLETON_ACCEPTED)
            refused(rule == BAUCHLETON_SINGULAR ? "--kit-seed" : rule == BAUCHLETON_NARROW ? "--lists" : "--design", rule, place);
        if (!asked.quiet)
            fprintf(stderr, "%s: kit of %s lists of seed %" PRIu32 "\n", program, lists_name(k.lists), k.seed);
    }
}

static void draw(const table *t, FILE *svg)
{
    if (svg == NULL)
        return;
    plot(svg, t, asked.panels, asked.panel_count);
    close_output(svg, asked.svg);
}

static int run(void)
{
    table t = {0};
    const int kit_wanted = asked.decoders[0].kind != ORIGINAL;
    get_kit(kit_wanted);
    if (kit_wanted)
        make_frames(&frames);
    if (asked.original > 0)
        make_originals(&originals);
    const uint64_t most = originals.bytes > frames.bytes ? originals.most : frames.most;
    if (asked.load && asked.frames > most)
        fail(STATUS_WRONG, "--load: its generator has 2^32 states, enough for %" PRIu64 " frames of this length: fewer frames (-n), or without -l", most);
    FILE *csv = open_output(asked.csv), *svg = asked.svg != NULL ? open_output(asked.svg) : NULL;
    listen_to(SIGINT);
    listen_to(SIGTERM);
    listen_to(SIGHUP);
    progress.shown = !asked.quiet && isatty(STDERR_FILENO);
    progress.begun = seconds();
    start_team();
    table_head(csv);
    fflush(csv);
    for (size_t d = 0; d < asked.decoder_count; d++) {
        progress.curve_begun = seconds();
        progress.curve_frames = 0;
        for (size_t rate = 0; rate < asked.rate_count && !stopped; rate++)
            run_and_write(&t, csv, d, rate);
    }
    end_team();
    clear_progress();
    close_output(csv, asked.csv);
    draw(&t, svg);
    if (!asked.quiet)
        fprintf(stderr, "%s: %s%" PRIu64 " frames in %.1f s, %u thread%s\n", program, stopped ? "stopped; " : "", progress.total, seconds() - progress.begun,
                asked.threads, asked.threads == 1 ? "" : "s");
    table_free(&t);
    kit_free(&k);
    free(frames.sent);
    free(originals.sent);
    if (stopped) {
        signal(stopped, SIG_DFL);
        raise(stopped);
    }
    return 0;
}

/* ---- Merging ---- */

static int merge(char **paths, int count)
{
    table t = {0};
    for (int i = 0; i < count; i++)
        table_read(&t, paths[i]);
    table_finish(&t, asked.quiet);
    FILE *csv = open_output(asked.csv), *svg = asked.svg != NULL ? open_output(asked.svg) : NULL;
    table_head(csv);
    for (size_t i = 0; i < t.point_count; i++)
        table_line(csv, &t, &t.points[i]);
    close_output(csv, asked.csv);
    draw(&t, svg);
    table_free(&t);
    return 0;
}

/* ---- The options read, and judged together ---- */

static unsigned processors(void)
{
    const long n = sysconf(_SC_NPROCESSORS_ONLN);
    return n < 1 ? 1 : n > MOST_THREADS ? MOST_THREADS : (unsigned)n;
}

/* Rates that the test load has; no rate twice. */
static void settle_rates(void)
{
    if (asked.rate_count == 0)
        read_rates("0.016:0.025:10");
    for (size_t i = 0; i < asked.rate_count; i++) {
        if (asked.load) {
            const uint64_t limit = line_of(asked.rates[i]).limit;
            if (limit == 0)
                fail(STATUS_WRONG, "--load: its lowest rate is 1/65536, above %.9g", (double)asked.rates[i] / 1e9);
            asked.rates[i] = (limit * 1000000000 + 32768) / 65536;
        }
        for (size_t j = 0; j < i; j++)
            if (asked.rates[i] == asked.rates[j])
                fail(STATUS_WRONG, "--rates: %.9g stands twice%s", (double)asked.rates[i] / 1e9, asked.load ? ", in steps of 1/65536" : "");
    }
}

static void settle(int whole, int kit_made)
{
    if (asked.kit_path != NULL && kit_made)
        fail(STATUS_WRONG, "--kit has a design and lists: --design, --lists and --kit-seed do not go with it");
    if (whole) {
        memmove(asked.decoders + 1, asked.decoders, asked.decoder_count * sizeof *asked.decoders);
        asked.decoders[0] = (decoder){WHOLE, 0};
        asked.decoder_count++;
    }
    if (asked.original > 0)
        asked.decoders[asked.decoder_count++] = (decoder){ORIGINAL, 0};
    if (asked.decoder_count == 0)
        fail(STATUS_WRONG, "--no-whole: no decoder is left; --windows or --original name others");
    if (asked.decoders[0].kind == ORIGINAL && asked.kit_path != NULL)
        fail(STATUS_WRONG, "--kit: original frames have no kit; -d m,t,M gives their m and t");
    if (asked.zero_end && !asked.cut_given)
        asked.cut = 0;
    if (asked.parts > 1 && asked.bad_given && asked.bad > 0)
        fail(STATUS_WRONG, "--part: no share knows the bad frames of the others, so that --bad does not go with it, but for 0");
    if (asked.parts > 1)
        asked.bad = 0;
    if (share_frames() == 0)
        fail(STATUS_WRONG, "--part: %" PRIu64 " frames leave none for share %" PRIu64 " of %" PRIu64, asked.frames, asked.part, asked.parts);
    if (asked.threads == 0)
        asked.threads = processors();
    settle_rates();
}

enum { OPTION_KIT_SEED = 256, OPTION_NO_WHOLE, OPTION_PART, OPTION_MERGE, OPTION_PANELS };

static const struct option options[] = {
    {"design", required_argument, NULL, 'd'},   {"lists", required_argument, NULL, 'i'},
    {"kit-seed", required_argument, NULL, OPTION_KIT_SEED}, {"kit", required_argument, NULL, 'k'},
    {"blocks", required_argument, NULL, 'L'},   {"rates", required_argument, NULL, 'p'},
    {"frames", required_argument, NULL, 'n'},   {"bad", required_argument, NULL, 'b'},
    {"seed", required_argument, NULL, 's'},     {"load", no_argument, NULL, 'l'},
    {"rounds", required_argument, NULL, 'r'},   {"windows", required_argument, NULL, 'w'},
    {"original", required_argument, NULL, 'O'}, {"no-whole", no_argument, NULL, OPTION_NO_WHOLE},
    {"cut", required_argument, NULL, 'c'},      {"zero-end", no_argument, NULL, 'z'},
    {"threads", required_argument, NULL, 'j'},  {"part", required_argument, NULL, OPTION_PART},
    {"merge", no_argument, NULL, OPTION_MERGE}, {"output", required_argument, NULL, 'o'},
    {"graph", required_argument, NULL, 'g'},    {"panels", required_argument, NULL, OPTION_PANELS},
    {"quiet", no_argument, NULL, 'q'},          {"help", no_argument, NULL, 'h'},
    {"version", no_argument, NULL, 'V'},        {NULL, 0, NULL, 0},
};

int main(int argc, char **argv)
{
    int option, whole = 1, merging = 0, kit_made = 0, running = 0;
    while ((option = getopt_long(argc, argv, "d:i:k:L:p:n:b:s:lr:w:O:c:zj:o:g:qhV", options, NULL)) != -1) {
        running |= strchr("ogqhV?", option) == NULL && option != OPTION_MERGE && option != OPTION_PANELS;
        kit_made |= option == 'd' || option == 'i' || option == OPTION_KIT_SEED;
        switch (option) {
        case 'd': design_of("--design", optarg, asked.design); break;
        case 'i': asked.lists = lists_of("--lists", optarg); break;
        case OPTION_KIT_SEED: asked.kit_seed = (uint32_t)number("--kit-seed", optarg, 0, UINT32_MAX); break;
        case 'k': asked.kit_path = optarg; break;
        case 'L': asked.blocks = number("--blocks", optarg, 1, BAUCHLETON_MAX_BLOCKS); break;
        case 'p': read_rates(optarg); break;
        case 'n': asked.frames = number("--frames", optarg, 1, UINT64_C(1) << 50); break;
        case 'b': asked.bad = number("--bad", optarg, 0, UINT64_MAX); asked.bad_given = 1; break;
        case 's': asked.seed = number("--seed", optarg, 0, UINT32_MAX); break;
        case 'l': asked.load = 1; break;
        case 'r': asked.rounds = number("--rounds", optarg, 1, BAUCHLETON_MAX_ROUNDS); break;
        case 'w': read_windows(optarg); break;
        case 'O': asked.original = number("--original", optarg, 1, BAUCHLETON_MAX_SIZE); break;
        case OPTION_NO_WHOLE: whole = 0; break;
        case 'c': asked.cut = number("--cut", optarg, 0, BAUCHLETON_MAX_BLOCKS); asked.cut_given = 1; break;
        case 'z': asked.zero_end = 1; break;
        case 'j': asked.threads = (unsigned)number("--threads", optarg, 1, MOST_THREADS); break;
        case OPTION_PART: read_part(optarg); break;
        case OPTION_MERGE: merging = 1; break;
        case 'o': asked.csv = optarg; break;
        case 'g': asked.svg = optarg; break;
        case OPTION_PANELS: read_panels(optarg); break;
        case 'q': asked.quiet = 1; break;
        case 'h': fputs(usage, stdout); close_output(stdout, "-"); return 0;
        case 'V': puts("bauchleton-waterfall " BAUCHLETON_VERSION_TEXT); close_output(stdout, "-"); return 0;
        default: fprintf(stderr, "Try '%s --help'.\n", program); return STATUS_WRONG;
        }
    }
    if (merging && running)
        fail(STATUS_WRONG, "--merge runs no frames: of the other options only -o, -g, --panels and -q go with it");
    if (merging && optind == argc)
        fail(STATUS_WRONG, "--merge: no CSV file is named");
    if (merging)
        return merge(argv + optind, argc - optind);
    if (optind < argc)
        fail(STATUS_WRONG, "'%s': only options are taken, but with --merge; try '%s --help'", argv[optind], program);
    settle(whole, kit_made);
    return run();
}
