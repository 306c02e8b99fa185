/* See plain_original.h. The field, the generator, the locator of errors and the sums of rows and columns are those of plain.c, which is included whole: a
   program is linked with plain_original.c or with plain.c, not with both. */

#include "plain.c"
#include "plain_original.h"

enum { ORIGINAL_DEFAULT_ROUNDS = 12 };

/* Rules 1, 2 and 19: 0, or the rule's number and its place. */
static int judge_original_design(unsigned m, unsigned t, unsigned M, uint64_t *place)
{
    if (m < 4 || m > 10) {
        *place = 1;
        return 1;
    }
    if (t < 1 || t > 3) {
        *place = 2;
        return 1;
    }
    if (M < 1 || M > MAX_M) {
        *place = 3;
        return 1;
    }
    if (2 * M > (1u << m) - 1) {
        *place = 2 * M;
        return 2;
    }
    if (m * t >= M) {
        *place = m * t;
        return 19;
    }
    return 0;
}

/* Rules 1, 2, 19, 4, 5 and 6. A call without rounds gives 0 for them. */
static int judge_original(unsigned m, unsigned t, unsigned M, unsigned L, unsigned rounds, size_t length, uint64_t *place)
{
    int rule = judge_original_design(m, t, M, place);
    if (rule)
        return rule;
    if (L < 1 || L > PLAIN_MAX_L) {
        *place = L;
        return 4;
    }
    if (rounds > MAX_ROUNDS) {
        *place = rounds;
        return 5;
    }
    if (length != (size_t)L * M * M) {
        *place = 4;
        return 6;
    }
    return 0;
}

/* Rule 10 over all bytes. */
static int judge_bits(const uint8_t *buffer, size_t length, uint64_t *place)
{
    size_t bad = plain_first_bad_bit(buffer, length);
    if (bad == length)
        return 0;
    *place = bad;
    return 10;
}

/* Rule 10 over the first M - r bytes of each row. */
static int judge_information(const uint8_t *buffer, size_t length, unsigned M, unsigned r, uint64_t *place)
{
    for (size_t row = 0; row < length; row += M) {
        uint8_t any = 0;
        for (unsigned j = 0; j < M - r; j++)
            any |= buffer[row + j];
        if (any > 1) {
            *place = row + plain_first_bad_bit(buffer + row, M - r);
            return 10;
        }
    }
    return 0;
}

/* What the three calls work with. */
typedef struct {
    code c;                             /* of words of 2 M positions */
    byte_sums first[(MAX_M + 7) / 8], second[(MAX_M + 7) / 8];  /* of the block before, of the block itself */
    unsigned L;
    size_t area;
    uint8_t *buffer;
    const uint8_t *copy;                /* of the buffer as it was lent; null until a bit is to be turned */
    uint32_t rem[MAX_M];                /* of the words of a block */
} original;

static void make_original(original *o, unsigned m, unsigned t, unsigned M, unsigned L, uint8_t *buffer)
{
    uint32_t x = 1;
    make_field(&o->c, m);
    make_generator(&o->c, t);
    o->c.M = M;
    o->c.n = 2 * M;
    o->c.k = 2 * M - o->c.r;
    o->c.size = M * o->c.r;
    for (unsigned j = o->c.n; j-- > 0;) {
        o->c.rem[j] = x;
        x = times_x(x, o->c.generator, o->c.r);
    }
    make_sums(o->first, o->c.rem, M);
    make_sums(o->second, o->c.rem + M, M);
    o->L = L;
    o->area = (size_t)M * M;
    o->buffer = buffer;
    o->copy = NULL;
}

/* The remainders of the words of the block that b blocks precede. Block 0 is zero and not sent. */
static void original_remainders(original *o, unsigned b)
{
    unsigned M = o->c.M;
    uint8_t *block = o->buffer + b * o->area;
    memset(o->rem, 0, M * sizeof *o->rem);
    add_columns(o->rem, b ? block - o->area : NULL, M, M, o->first);
    add_rows(o->rem, block, M, o->second);
}

int plain_original_encode(unsigned m, unsigned t, unsigned M, unsigned L, uint8_t *buffer, size_t length, uint64_t *place)
{
    original o;
    int rule = judge_original(m, t, M, L, 0, length, place);
    if (!rule)
        rule = judge_information(buffer, length, M, m * t, place);
    if (rule)
        return rule;
    make_original(&o, m, t, M, L, buffer);
    unsigned r = o.c.r;
    for (unsigned b = 0; b < L; b++) {
        uint8_t *parity = buffer + b * o.area + M - r;
        for (unsigned a = 0; a < M; a++)        /* old parity, of any value, is no part of the sums */
            memset(parity + a * M, 0, r);
        original_remainders(&o, b);
        for (unsigned a = 0; a < M; a++, parity += M)
            for (unsigned e = 0; e < r; e++)
                parity[e] = o.rem[a] >> (r - 1 - e) & 1;
    }
    return 0;
}

static uint64_t original_outside(original *o)
{
    uint64_t outside = 0;
    for (unsigned b = 0; b < o->L; b++) {
        original_remainders(o, b);
        outside += nonzero(o->rem, o->c.M);
    }
    return outside;
}

int plain_original_words(unsigned m, unsigned t, unsigned M, unsigned L, const uint8_t *buffer, size_t length, uint64_t *outside, uint64_t *place)
{
    original o;
    *outside = 0;
    int rule = judge_original(m, t, M, L, 0, length, place);
    if (!rule)
        rule = judge_bits(buffer, length, place);
    if (rule)
        return rule;
    make_original(&o, m, t, M, L, (uint8_t *)buffer);
    *outside = original_outside(&o);
    return 0;
}

/* Copies the buffer before its first turn. The room is kept from call to call, as a host's working bytes are. */
static void keep_original(original *o)
{
    static _Thread_local uint8_t *copy;
    static _Thread_local size_t room;
    size_t length = o->L * o->area;
    if (o->copy)
        return;
    if (room < length) {
        free(copy);
        room = length;
        copy = zeroed(room, 1);
    }
    o->copy = memcpy(copy, o->buffer, length);
}

static uint64_t original_changed(const original *o)
{
    return o->copy ? differing(o->buffer, o->copy, o->L * o->area) : 0;
}

/* Where position j of word a of the block that b blocks precede stands, or null in block 0. */
static uint8_t *original_bit(const original *o, unsigned b, unsigned a, unsigned j)
{
    unsigned M = o->c.M;
    uint8_t *block = o->buffer + b * o->area;
    if (j < M)
        return b ? block - o->area + j * M + a : NULL;
    return block + a * M + (j - M);
}

/* Mends the words of a block, which share no bit with one another; counts the bits turned and the stuck words. */
static void mend_original(original *o, const locator *l, unsigned b, uint64_t *turned, uint64_t *stuck)
{
    unsigned position[MAX_T];
    const uint8_t *bits[MAX_T];
    original_remainders(o, b);
    for (unsigned a = 0; a < o->c.M; a++)
        if (o->rem[a]) {
            unsigned count = locate(&o->c, l, o->rem[a], position);
            for (unsigned i = 0; i < count; i++)
                bits[i] = original_bit(o, b, a, position[i]);
            if (count)
                keep_original(o);
            count = turn(bits, count);
            *turned += count;
            *stuck += count == 0;
        }
}

int plain_original_decode(unsigned m, unsigned t, unsigned M, unsigned L, unsigned rounds, uint8_t *buffer, size_t length, uint64_t counts[PLAIN_COUNTS],
                          uint64_t *place)
{
    original o;
    locator l;
    uint64_t turned;
    memset(counts, 0, PLAIN_COUNTS * sizeof *counts);
    int rule = judge_original(m, t, M, L, rounds, length, place);
    if (!rule)
        rule = judge_bits(buffer, length, place);
    if (rule)
        return rule;
    make_original(&o, m, t, M, L, buffer);
    make_locator(&o.c, &l);
    do {
        turned = counts[3] = 0;
        for (unsigned b = 0; b < L; b++)
            mend_original(&o, &l, b, &turned, &counts[3]);
        counts[0]++;
    } while (turned && counts[0] < (rounds ? rounds : ORIGINAL_DEFAULT_ROUNDS));
    counts[1] = original_changed(&o);
    counts[2] = turned ? original_outside(&o) : counts[3];      /* in an idle round the words outside are the stuck ones */
    return 0;
}
