/* See plain_text.h. A text is read from front to back. At each byte one byte, or one of a few, can follow, so the first byte that cannot is the place
   of rules 11 and 12: the length of the longest start that some text shares. */

#include "plain_text.h"

#include <stdlib.h>
#include <string.h>

enum { MAX_DIGITS = 4, WRITTEN_DIGITS = 20 };           /* of a number in a text that is read, and of any number */

static const char kit_names[] = "m t M\n", list_names[] = "place self parity\n", inverse_names[] = "row inverse\n";
static const char block_names[] = "block bits\n", group_names[] = "group self parity\n";

/* ---- Writing: each function returns the position behind what it writes ---- */

static uint8_t *put(uint8_t *out, const char *text)
{
    size_t length = strlen(text);
    memcpy(out, text, length);
    return out + length;
}

/* The number, and the byte after it. */
static uint8_t *put_number(uint8_t *out, uint64_t value, char after)
{
    uint8_t digits[WRITTEN_DIGITS];
    unsigned count = 0;
    do
        digits[count++] = '0' + value % 10;
    while (value /= 10);
    while (count > 0)
        *out++ = digits[--count];
    *out++ = after;
    return out;
}

static uint8_t *put_bits(uint8_t *out, const uint8_t *bits, size_t count, char after)
{
    for (size_t i = 0; i < count; i++)
        out[i] = '0' + bits[i];
    out[count] = after;
    return out + count + 1;
}

uint8_t *plain_kit_text(uint8_t *out, unsigned m, unsigned t, unsigned M, const uint8_t *self, const uint8_t *parity, const uint8_t *inverse)
{
    unsigned size = M * m * t;
    size_t bytes = (size + 7) / 8;
    out = put(out, kit_names);
    out = put_number(out, m, ' ');
    out = put_number(out, t, ' ');
    out = put_number(out, M, '\n');
    out = put(out, list_names);
    for (unsigned p = 0; p < size; p++) {
        out = put_number(out, p, ' ');
        out = put_number(out, self[2 * p] + 256u * self[2 * p + 1], ' ');
        out = put_number(out, parity[2 * p] + 256u * parity[2 * p + 1], '\n');
    }
    out = put(out, inverse_names);
    for (unsigned i = 0; i < size; i++, inverse += bytes) {
        out = put_number(out, i, ' ');
        for (unsigned j = 0; j < size; j++)
            *out++ = '0' + (inverse[j / 8] >> (j % 8) & 1);
        *out++ = '\n';
    }
    return out;
}

uint8_t *plain_block_text(uint8_t *out, unsigned M, unsigned L, const uint8_t *info)
{
    size_t area = (size_t)M * M;
    out = put(out, block_names);
    for (unsigned i = 1; i <= L; i++, info += area) {
        out = put_number(out, i, ' ');
        out = put_bits(out, info, area, '\n');
    }
    return out;
}

uint8_t *plain_group_text(uint8_t *out, unsigned size, unsigned L, const uint8_t *red)
{
    out = put(out, group_names);
    for (unsigned i = 1; i <= (L + 1) / 2; i++, red += 2 * size) {
        out = put_number(out, i, ' ');
        out = put_bits(out, red, size, ' ');
        out = put_bits(out, red + size, size, '\n');
    }
    return out;
}

/* ---- Reading: each function takes what it names and returns 1, or stops at the first byte that cannot follow and returns 0 ---- */

typedef struct {
    const uint8_t *at, *end;
} cursor;

static int take_byte(cursor *c, uint8_t byte)
{
    if (c->at == c->end || *c->at != byte)
        return 0;
    c->at++;
    return 1;
}

static int take(cursor *c, const char *text)
{
    for (; *text; text++)
        if (!take_byte(c, *text))
            return 0;
    return 1;
}

/* Any number of one to four digits with no leading zero, and the byte after it. */
static int take_number(cursor *c, unsigned *value, char after)
{
    const uint8_t *start = c->at;
    *value = 0;
    while (c->at < c->end && *c->at >= '0' && *c->at <= '9' && c->at - start < MAX_DIGITS && (c->at == start || *value > 0))
        *value = 10 * *value + (*c->at++ - '0');
    return c->at > start && take_byte(c, after);
}

/* The number that a line begins with. */
static int take_own_number(cursor *c, unsigned value)
{
    uint8_t own[WRITTEN_DIGITS + 1], *end = put_number(own, value, ' ');
    for (const uint8_t *byte = own; byte < end; byte++)
        if (!take_byte(c, *byte))
            return 0;
    return 1;
}

/* Bits written as characters, and the byte after them. */
static int take_bits(cursor *c, uint8_t *bits, size_t count, char after)
{
    const uint8_t *at = c->at;
    size_t left = c->end - at, i = 0;
    for (; i < count && i < left && (at[i] == '0' || at[i] == '1'); i++)
        bits[i] = at[i] - '0';
    c->at += i;
    return i == count && take_byte(c, after);
}

/* ---- Kits ---- */

typedef struct {
    unsigned m, t, M;
    plain_sizes s;
    uint8_t *self, *parity, *inverse;
} kit_parts;

static void *zeroed(size_t bytes)
{
    void *p = calloc(bytes, 1);
    if (!p)
        abort();
    return p;
}

static int take_entry(cursor *c, uint8_t *entry, char after)
{
    unsigned value;
    if (!take_number(c, &value, after))
        return 0;
    entry[0] = value & 255;
    entry[1] = value >> 8;
    return 1;
}

/* What follows the first two lines. The inverse is zero before. */
static int take_lists_and_inverse(cursor *c, const kit_parts *k)
{
    unsigned size = k->s.size;
    uint8_t bits[PLAIN_INPUT], *row = k->inverse;       /* no row has more bits than the text has bytes */
    if (!take(c, list_names))
        return 0;
    for (unsigned p = 0; p < size; p++)
        if (!take_own_number(c, p) || !take_entry(c, k->self + 2 * p, ' ') || !take_entry(c, k->parity + 2 * p, '\n'))
            return 0;
    if (!take(c, inverse_names))
        return 0;
    for (unsigned i = 0; i < size; i++, row += (size + 7) / 8) {
        if (!take_own_number(c, i) || !take_bits(c, bits, size, '\n'))
            return 0;
        for (unsigned j = 0; j < size; j += 8)
            for (unsigned b = 0; b < 8 && j + b < size; b++)
                row[j / 8] |= bits[j + b] << b;
    }
    return c->at == c->end;
}

/* Rules 11 and 1 to 3: 0, or the rule's number and its place. */
static int read_kit(const uint8_t *text, size_t length, kit_parts *k, uint64_t *place)
{
    cursor c = { text, text + length };
    if (!take(&c, kit_names) || !take_number(&c, &k->m, ' ') || !take_number(&c, &k->t, ' ') || !take_number(&c, &k->M, '\n')) {
        *place = c.at - text;
        return 11;
    }
    int rule = plain_design(k->m, k->t, k->M, &k->s, place);
    if (rule)
        return rule;
    k->self = zeroed(2 * k->s.size);
    k->parity = zeroed(2 * k->s.size);
    k->inverse = zeroed(k->s.size * (((size_t)k->s.size + 7) / 8));
    if (take_lists_and_inverse(&c, k))
        return 0;
    *place = c.at - text;
    return 11;
}

/* ---- Programs ---- */

typedef struct {
    kit_parts k;
    unsigned L;
    uint8_t *info, *red;
} inputs;

/* Blocks up to the end of the text or the names of groups, at most as many as a frame has. */
static int take_blocks(cursor *c, inputs *in)
{
    size_t area = (size_t)in->k.M * in->k.M;
    if (!take(c, block_names))
        return 0;
    do {
        if (!take_own_number(c, in->L + 1) || !take_bits(c, in->info + in->L * area, area, '\n'))
            return 0;
        in->L++;
    } while (in->L < PLAIN_MAX_L && c->at < c->end && *c->at != group_names[0]);
    return 1;
}

static int take_groups(cursor *c, const inputs *in)
{
    unsigned size = in->k.s.size;
    uint8_t *red = in->red;
    if (!take(c, group_names))
        return 0;
    for (unsigned i = 1; i <= (in->L + 1) / 2; i++, red += 2 * size)
        if (!take_own_number(c, i) || !take_bits(c, red, size, ' ') || !take_bits(c, red + size, size, '\n'))
            return 0;
    return 1;
}

static size_t red_length(const inputs *in)
{
    return (in->L + 1) / 2 * 2 * (size_t)in->k.s.size;
}

/* Rules 13, 11, 1 to 3 and 12: 0, or the rule's number and its place. */
static int read_inputs(const uint8_t *kit, size_t kit_length, const uint8_t *text, size_t text_length, int with_groups, inputs *in, uint64_t *place)
{
    cursor c = { text, text + text_length };
    if (kit_length > PLAIN_INPUT || text_length > PLAIN_INPUT) {
        *place = kit_length > PLAIN_INPUT ? 1 : 2;
        return 13;
    }
    int rule = read_kit(kit, kit_length, &in->k, place);
    if (rule)
        return rule;
    in->info = zeroed(PLAIN_INPUT);                     /* the text has a byte for each bit */
    if (take_blocks(&c, in)) {
        in->red = zeroed(red_length(in));
        if ((!with_groups || take_groups(&c, in)) && c.at == c.end)
            return 0;
    }
    *place = c.at - text;
    return 12;
}

static void free_inputs(inputs *in)
{
    free(in->k.self);
    free(in->k.parity);
    free(in->k.inverse);
    free(in->info);
    free(in->red);
}

static uint8_t *put_refusal(uint8_t *out, int rule, uint64_t place)
{
    out = put(out, "refused place\n");
    out = put_number(out, rule, ' ');
    return put_number(out, place, '\n');
}

size_t plain_frame_output(const uint8_t *kit, size_t kit_length, const uint8_t *text, size_t text_length, uint8_t *out)
{
    inputs in = { 0 };
    uint64_t place;
    uint8_t *end;
    int rule = read_inputs(kit, kit_length, text, text_length, 0, &in, &place);
    if (!rule)
        rule = plain_check_kit(in.k.m, in.k.t, in.k.M, in.k.self, in.k.parity, in.k.inverse, &place);
    if (rule)
        end = put_refusal(out, rule, place);
    else {
        plain_encode(in.k.m, in.k.t, in.k.M, in.L, in.k.self, in.k.parity, in.k.inverse, in.info, in.red);
        end = plain_group_text(out, in.k.s.size, in.L, in.red);
    }
    free_inputs(&in);
    return end - out;
}

static int decode(inputs *in, uint64_t counts[PLAIN_COUNTS], uint64_t *place)
{
    size_t list = 2 * (size_t)in->k.s.size, info = (size_t)in->L * in->k.M * in->k.M;
    plain_frame lent = { in->k.self, in->k.parity, in->info, in->red, list, list, info, red_length(in) };
    return plain_decode(in->k.m, in->k.t, in->k.M, in->L, 0, &lent, counts, place);
}

size_t plain_mend_output(const uint8_t *kit, size_t kit_length, const uint8_t *text, size_t text_length, uint8_t *out)
{
    inputs in = { 0 };
    uint64_t counts[PLAIN_COUNTS], place;
    uint8_t *end;
    int rule = read_inputs(kit, kit_length, text, text_length, 1, &in, &place);
    if (!rule)
        rule = decode(&in, counts, &place);
    if (rule)
        end = put_refusal(out, rule, place);
    else {
        end = plain_block_text(out, in.k.M, in.L, in.info);
        end = plain_group_text(end, in.k.s.size, in.L, in.red);
        end = put(end, "rounds turned outside\n");
        end = put_number(end, counts[0], ' ');
        end = put_number(end, counts[1], ' ');
        end = put_number(end, counts[2], '\n');
    }
    free_inputs(&in);
    return end - out;
}
