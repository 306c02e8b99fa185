/* See plain.h. Words of document 01 are used throughout; "size" is M * r.

   Where bits stand, from the document's places and transposes:
   - list[b * M + a] = q says that the bit of row a, column b of X (or Q) is byte q of Y (or P) in the buffer.
   - Row a, column b of Y (or P) is byte a * M + b, and entry b * r + a of the stacked y (or of A y + c).
   - Bit e of a parity (e from 0) is the coefficient of x^(r-1-e) of a remainder. */

#include "plain.h"

#include <stdlib.h>
#include <string.h>

enum { MAX_N = 1023, MAX_T = 3, MAX_M = 500, MAX_R = 30, MAX_SIZE = 4096, MAX_ROUNDS = 64, MAX_WINDOW = 64, DEFAULT_ROUNDS = 12 };

const plain_kit plain_kits[PLAIN_KITS] = { { 4, 1, 2, 3 }, { 8, 3, 72, 4 }, { 9, 3, 135, 15 }, { 10, 2, 204, 1 } };

static void *zeroed(size_t count, size_t each)
{
    void *p = calloc(count ? count : 1, each);
    if (!p)
        abort();
    return p;
}

/* ---- Design and BCH words ---- */

static const uint16_t field_polynomial[] = { 0x13, 0x25, 0x43, 0x89, 0x11D, 0x211, 0x409 };  /* m = 4 to 10 */

typedef struct {
    unsigned m, t, M, r, n, k, size;
    unsigned order;                     /* 2^m - 1, the order of the root */
    uint16_t power[2 * MAX_N];          /* powers of the root, twice around */
    uint16_t log[MAX_N + 1];
    uint32_t generator;
    uint32_t rem[MAX_N];                /* rem[j] = x^(n-1-j) mod generator */
} code;

int plain_design(unsigned m, unsigned t, unsigned M, plain_sizes *sizes, uint64_t *place)
{
    if (m < 4 || m > 10) {
        *place = 1;
        return 1;
    }
    if (t < 1 || t > 3) {
        *place = 2;
        return 1;
    }
    if (M < 1 || M > MAX_M) {
        *place = 3;
        return 1;
    }
    sizes->r = m * t;
    sizes->n = 2 * M + 2 * sizes->r;
    sizes->k = 2 * M + sizes->r;
    sizes->size = M * sizes->r;
    if (sizes->n > (1u << m) - 1) {
        *place = sizes->n;
        return 2;
    }
    if (sizes->size > MAX_SIZE) {
        *place = sizes->size;
        return 3;
    }
    return 0;
}

static void make_field(code *c, unsigned m)
{
    unsigned x = 1;
    c->m = m;
    c->order = (1u << m) - 1;
    for (unsigned i = 0; i < c->order; i++) {
        c->power[i] = c->power[i + c->order] = x;
        c->log[x] = i;
        x <<= 1;
        if (x >> m)
            x ^= field_polynomial[m - 4];
    }
}

static unsigned mul(const code *c, unsigned a, unsigned b)
{
    return a && b ? c->power[c->log[a] + c->log[b]] : 0;
}

static unsigned divide(const code *c, unsigned a, unsigned b)
{
    return a ? c->power[c->log[a] + c->order - c->log[b]] : 0;
}

/* The product of x + root^e over e = i, 2i, 4i, .. has coefficients 0 and 1. */
static uint32_t minimal_polynomial(const code *c, unsigned i)
{
    unsigned p[12] = { 1 }, degree = 0, e = i;
    uint32_t bits = 0;
    do {
        for (unsigned d = ++degree; d > 0; d--)
            p[d] = p[d - 1] ^ mul(c, p[d], c->power[e]);
        p[0] = mul(c, p[0], c->power[e]);
        e = 2 * e % c->order;
    } while (e != i);
    for (unsigned d = 0; d <= degree; d++)
        bits |= (uint32_t)p[d] << d;
    return bits;
}

static void make_generator(code *c, unsigned t)
{
    c->t = t;
    c->r = c->m * t;
    c->generator = 1;
    for (unsigned i = 1; i < 2 * t; i += 2) {
        uint32_t factor = minimal_polynomial(c, i), product = 0;
        for (unsigned d = 0; d <= c->m; d++)
            if (factor >> d & 1)
                product ^= c->generator << d;
        c->generator = product;
    }
}

static uint32_t times_x(uint32_t rem, uint32_t generator, unsigned r)
{
    rem <<= 1;
    return rem >> r & 1 ? rem ^ generator : rem;
}

static void make_code(code *c, unsigned m, unsigned t, unsigned M)
{
    uint32_t x = 1;
    make_field(c, m);
    make_generator(c, t);
    c->M = M;
    c->n = 2 * M + 2 * c->r;
    c->k = 2 * M + c->r;
    c->size = M * c->r;
    for (unsigned j = c->n; j-- > 0;) {
        c->rem[j] = x;
        x = times_x(x, c->generator, c->r);
    }
}

uint32_t plain_generator(unsigned m, unsigned t)
{
    code c;
    make_field(&c, m);
    make_generator(&c, t);
    return c.generator;
}

uint32_t plain_power(unsigned m, unsigned t, unsigned power)
{
    uint32_t g = plain_generator(m, t), x = 1;
    while (power--)
        x = times_x(x, g, m * t);
    return x;
}

/* Sums of eight numbers: entry v adds those whose bits of v are 1. */
typedef uint32_t byte_sums[256];

/* The sums of the numbers, eight after eight. */
static void make_sums(byte_sums *sums, const uint32_t *numbers, unsigned count)
{
    for (unsigned j = 0; j < count; j += 8) {
        uint32_t *entries = sums[j / 8];
        entries[0] = 0;
        for (unsigned b = 0; b < 8; b++) {
            uint32_t number = j + b < count ? numbers[j + b] : 0;
            for (unsigned v = 0; v < 1u << b; v++)
                entries[(1u << b) + v] = entries[v] ^ number;
        }
    }
}

/* ---- Errors of a word ---- */

enum { SYNDROME_BITS = 10 };            /* S1, S3 and S5 of at most so many bits stand in one number, S1 lowest */

typedef struct {
    byte_sums syndromes[(MAX_R + 7) / 8];       /* of the bits of a remainder */
    uint16_t half[MAX_N + 1];           /* a z with z^2 + z = u, or 0 if there is none; the other one is z + 1 */
    uint16_t third[MAX_N + 1][2];       /* two of three z with z^3 + z = u; the second is 0 if there are no three; their sum is the last one */
} locator;

static void make_locator(const code *c, locator *l)
{
    uint32_t syndromes[MAX_R];
    for (unsigned e = 0; e < c->r; e++) {
        syndromes[e] = 0;
        for (unsigned i = 0; i < c->t; i++)
            syndromes[e] |= (uint32_t)c->power[(2 * i + 1) * e % c->order] << (i * SYNDROME_BITS);
    }
    make_sums(l->syndromes, syndromes, c->r);

    memset(l->half, 0, sizeof l->half);
    memset(l->third, 0, sizeof l->third);
    for (unsigned z = 2; z <= c->order; z++) {
        unsigned square = mul(c, z, z), u = mul(c, z, square) ^ z;
        l->half[square ^ z] = z;
        l->third[u][l->third[u][0] != 0] = z;
    }
}

/* Whether root^e, e below twice the order, is the locator of a position, and of which. */
static int position_of(const code *c, unsigned e, unsigned *position)
{
    e = e < c->order ? e : e - c->order;
    *position = c->n - 1 - e;
    return e < c->n;
}

/* The positions, at most t, whose turning makes a word with this remainder (not 0) a codeword; their number, or 0 if there are none.
   Peterson's solution: the power sums S1, S3, S5 of the error locators are given by the remainder and give the coefficients of the polynomial
   whose roots the locators are, x + S1, x^2 + S1 x + sigma2 or x^3 + S1 x^2 + sigma2 x + sigma3. */
static unsigned locate(const code *c, const locator *l, uint32_t rem, unsigned position[MAX_T])
{
    const unsigned mask = (1u << SYNDROME_BITS) - 1;
    uint32_t sums = 0;
    for (unsigned i = 0; 8 * i < c->r; i++)
        sums ^= l->syndromes[i][rem >> (8 * i) & 255];
    unsigned S1 = sums & mask, S3 = sums >> SYNDROME_BITS & mask, S5 = sums >> (2 * SYNDROME_BITS);

    if (c->t == 1)
        return position_of(c, c->log[S1], position);

    unsigned square = mul(c, S1, S1), gap = mul(c, square, S1) ^ S3;    /* the gap is 0 for one error, never for two or three */
    if (!gap)
        return S1 && (c->t == 2 || mul(c, mul(c, square, square), S1) == S5) && position_of(c, c->log[S1], position);

    unsigned sigma2 = 0, sigma3 = 0;
    if (c->t == 3) {
        sigma2 = divide(c, mul(c, square, S3) ^ S5, gap);
        sigma3 = gap ^ mul(c, S1, sigma2);
    }
    if (!sigma3) {                      /* x = S1 z gives z^2 + z = sigma2 / S1^2, where sigma2 is gap / S1 */
        if (!S1)
            return 0;
        unsigned z = l->half[divide(c, gap, mul(c, square, S1))], e = c->log[S1];
        return z && position_of(c, e + c->log[z], position) && position_of(c, e + c->log[z ^ 1], position + 1) ? 2 : 0;
    }

    unsigned y[3], a = square ^ sigma2;         /* x = y + S1 gives y^3 + a y = gap, */
    if (a) {                                    /* and y = z sqrt(a) gives z^3 + z = gap / sqrt(a)^3 */
        unsigned e = c->log[a], root = c->power[(e % 2 ? e + c->order : e) / 2];
        const uint16_t *z = l->third[divide(c, gap, mul(c, a, root))];
        if (!z[1])
            return 0;
        y[0] = mul(c, root, z[0]);
        y[1] = mul(c, root, z[1]);
    } else {
        unsigned e = c->log[gap];
        if (c->order % 3 || e % 3)
            return 0;
        y[0] = c->power[e / 3];
        y[1] = c->power[e / 3 + c->order / 3];
    }
    y[2] = y[0] ^ y[1];
    for (unsigned i = 0; i < 3; i++)
        if (!position_of(c, c->log[y[i] ^ S1], position + i))
            return 0;
    return 3;
}

/* ---- Kits ---- */

static unsigned entry(const uint8_t *list, size_t p)
{
    return list[2 * p] | (unsigned)list[2 * p + 1] << 8;
}

/* Eight bytes, the first lowest. */
static uint64_t eight_bytes(const uint8_t *b)
{
    return (uint64_t)b[0] | (uint64_t)b[1] << 8 | (uint64_t)b[2] << 16 | (uint64_t)b[3] << 24 | (uint64_t)b[4] << 32 | (uint64_t)b[5] << 40
        | (uint64_t)b[6] << 48 | (uint64_t)b[7] << 56;
}

static size_t words_a_row(unsigned size)
{
    return (size + 63) / 64;
}

static unsigned get_bit(const uint64_t *row, unsigned j)
{
    return row[j / 64] >> (j % 64) & 1;
}

static void turn_bit(uint64_t *row, unsigned j)
{
    row[j / 64] ^= (uint64_t)1 << (j % 64);
}

/* The inverse's rows in 64-bit words, column j in bit j % 64 of word j / 64. */
static uint64_t *pack_rows(const uint8_t *inverse, unsigned size)
{
    size_t words = words_a_row(size), bytes = (size + 7) / 8;
    uint64_t *rows = zeroed(size * words, sizeof *rows);
    for (unsigned i = 0; i < size; i++) {
        const uint8_t *from = inverse + i * bytes;
        uint64_t *to = rows + i * words;
        size_t b = 0;
        for (; b + 8 <= bytes; b += 8)
            to[b / 8] = eight_bytes(from + b);
        for (; b < bytes; b++)
            to[b / 8] |= (uint64_t)from[b] << (8 * (b % 8));
    }
    return rows;
}

static uint64_t *transposed(const uint64_t *rows, unsigned size)
{
    size_t words = words_a_row(size);
    uint64_t *out = zeroed(size * words, sizeof *out);
    for (unsigned top = 0; top < size; top += 64)       /* 64 rows at a time make a word of each column */
        for (unsigned j = 0; j < size; j++) {
            uint64_t word = 0;
            for (unsigned i = top; i < size && i < top + 64; i++)
                word |= (uint64_t)get_bit(rows + i * words, j) << (i % 64);
            out[j * words + top / 64] = word;
        }
    return out;
}

/* The entry of A y + c at which byte q of P stands. */
static unsigned entry_of_byte(const code *c, unsigned q)
{
    return q % c->M * c->r + q / c->M;
}

/* The columns of A, each as a row: what a single one in Y gives, through its column word and through its row word. */
static uint64_t *system_columns(const code *c, const uint8_t *self, const uint8_t *parity)
{
    size_t words = words_a_row(c->size);
    uint64_t *columns = zeroed(c->size * words, sizeof *columns);
    for (unsigned p = 0; p < c->size; p++) {            /* the one stands at place p of X */
        unsigned q = entry(self, p), a = p % c->M;      /* and is byte q of Y, in row word a */
        uint64_t *column = columns + entry_of_byte(c, q) * words;
        uint32_t by_column = c->rem[2 * c->M + q / c->M], by_row = c->rem[2 * c->M + p / c->M];
        for (unsigned e = 0; e < c->r; e++) {
            if (by_column >> (c->r - 1 - e) & 1)
                turn_bit(column, q % c->M * c->r + e);
            if (by_row >> (c->r - 1 - e) & 1)
                turn_bit(column, entry_of_byte(c, entry(parity, e * c->M + a)));
        }
    }
    return columns;
}

void plain_system(unsigned m, unsigned t, unsigned M, const uint8_t *self, const uint8_t *parity, uint8_t *bits)
{
    code c;
    make_code(&c, m, t, M);
    uint64_t *columns = system_columns(&c, self, parity);
    for (unsigned i = 0; i < c.size; i++)
        for (unsigned j = 0; j < c.size; j++)
            bits[i * c.size + j] = get_bit(columns + j * words_a_row(c.size), i);
    free(columns);
}

/* The first entry that is too large or seen before, or size if the list is a permutation. */
static unsigned first_bad_entry(const uint8_t *list, unsigned size)
{
    uint8_t seen[MAX_SIZE] = { 0 };
    unsigned p = 0;
    while (p < size && entry(list, p) < size && !seen[entry(list, p)])
        seen[entry(list, p++)] = 1;
    return p;
}

/* Rule 7: 0, or 7 and the place. */
static int judge_lists(unsigned size, const uint8_t *self, const uint8_t *parity, uint64_t *place)
{
    unsigned bad = first_bad_entry(self, size);
    if (bad == size)
        bad += first_bad_entry(parity, size);
    if (bad == 2 * size)
        return 0;
    *place = bad;
    return 7;
}

/* Whether the product of the two matrices is the identity; if not, the place of its first wrong entry. The other order is the identity exactly then. */
static int product_is_identity(const uint64_t *rows, const uint64_t *columns, unsigned size, uint64_t *place)
{
    size_t words = words_a_row(size);
    for (unsigned i = 0; i < size; i++)
        for (unsigned j = 0; j < size; j++) {
            const uint64_t *row = rows + i * words, *column = columns + j * words;
            uint64_t sum = 0;
            for (size_t w = 0; w < words; w++)
                sum ^= row[w] & column[w];
            if (__builtin_parityll(sum) != (i == j)) {
                *place = (uint64_t)i * size + j;
                return 0;
            }
        }
    return 1;
}

int plain_check_kit(unsigned m, unsigned t, unsigned M, const uint8_t *self, const uint8_t *parity, const uint8_t *inverse, uint64_t *place)
{
    plain_sizes s;
    code c;
    int rule = plain_design(m, t, M, &s, place);
    if (rule)
        return rule;

    rule = judge_lists(s.size, self, parity, place);
    if (rule)
        return rule;

    size_t bytes = (s.size + 7) / 8;
    if (s.size % 8)
        for (unsigned i = 0; i < s.size; i++)
            if (inverse[i * bytes + bytes - 1] >> (s.size % 8)) {
                *place = i;
                return 8;
            }

    make_code(&c, m, t, M);
    uint64_t *A_columns = system_columns(&c, self, parity), *A_rows = transposed(A_columns, s.size);
    uint64_t *W_rows = pack_rows(inverse, s.size), *W_columns = transposed(W_rows, s.size);
    rule = product_is_identity(A_rows, W_columns, s.size, place) ? 0 : 9;
    free(A_columns);
    free(A_rows);
    free(W_rows);
    free(W_columns);
    return rule;
}

int plain_make_inverse(unsigned m, unsigned t, unsigned M, const uint8_t *self, const uint8_t *parity, uint8_t *inverse)
{
    code c;
    make_code(&c, m, t, M);
    size_t words = words_a_row(c.size), width = 2 * words, bytes = (c.size + 7) / 8;
    uint64_t *columns = system_columns(&c, self, parity), *A = transposed(columns, c.size);
    uint64_t *both = zeroed(c.size * width, sizeof *both);      /* A, and the identity beside it */
    uint64_t **row = zeroed(c.size, sizeof *row);
    unsigned p;

    for (unsigned i = 0; i < c.size; i++) {
        row[i] = both + i * width;
        memcpy(row[i], A + i * words, words * sizeof *A);
        turn_bit(row[i] + words, i);
    }
    for (p = 0; p < c.size; p++) {
        unsigned pivot = p;
        while (pivot < c.size && !get_bit(row[pivot], p))
            pivot++;
        if (pivot == c.size)
            break;
        uint64_t *swap = row[p];
        row[p] = row[pivot];
        row[pivot] = swap;
        for (unsigned i = 0; i < c.size; i++)
            if (i != p && get_bit(row[i], p))
                for (size_t w = p / 64; w < width; w++)
                    row[i][w] ^= row[p][w];
    }
    if (p == c.size)
        for (unsigned i = 0; i < c.size; i++)
            for (size_t b = 0; b < bytes; b++)
                inverse[i * bytes + b] = row[i][words + b / 8] >> (8 * (b % 8));
    free(columns);
    free(A);
    free(both);
    free(row);
    return p == c.size;
}

/* A and V side by side while V A = 1 is made of them: a row has the words of A and then those of V. */
typedef struct {
    unsigned size;
    size_t words, width;        /* of a row of A, and of both */
    uint64_t **row;
} side_by_side;

/* Adds the words of one row to another, from word w on. */
static void add_row(uint64_t *restrict to, const uint64_t *restrict from, size_t w, size_t width)
{
    for (; w < width; w++)
        to[w] ^= from[w];
}

/* The eight columns from c on, a multiple of 8, in a row. */
static unsigned column_byte(const uint64_t *row, unsigned c)
{
    return row[c / 64] >> (c % 64) & 255;
}

/* Brings the unit rows of the columns from c on to rows c and following, and returns how many of these columns have one: all, or those before the
   first that has none. A row below is tried by its byte alone. */
static unsigned find_pivots(const side_by_side *s, unsigned c, unsigned columns)
{
    size_t from = c / 64;
    for (unsigned k = 0; k < columns; k++) {
        uint8_t pivot[8];
        for (unsigned q = 0; q < k; q++)
            pivot[q] = column_byte(s->row[c + q], c);   /* a one at q, and no other among the first k */
        unsigned i = c + k;
        for (; i < s->size; i++) {
            unsigned byte = column_byte(s->row[i], c);
            for (unsigned q = 0; q < k; q++)
                if (byte >> q & 1)
                    byte ^= pivot[q];
            if (byte >> k & 1)
                break;
        }
        if (i == s->size)
            return k;
        uint64_t *found = s->row[i];
        s->row[i] = s->row[c + k];
        s->row[c + k] = found;
        for (unsigned q = 0; q < k; q++)
            if (column_byte(found, c) >> q & 1)
                add_row(found, s->row[c + q], from, s->width);
        for (unsigned q = 0; q < k; q++)
            if (column_byte(s->row[c + q], c) >> k & 1)
                add_row(s->row[c + q], found, from, s->width);
    }
    return columns;
}

/* Clears the columns from c on in all rows but their unit rows: sums has the 256 sums of these, each a row. */
static void clear_columns(const side_by_side *s, unsigned c, unsigned columns, uint64_t *sums)
{
    size_t from = c / 64;
    for (unsigned b = 1; b < 1u << columns; b++) {
        const uint64_t *rest = sums + (b & (b - 1)) * s->width, *row = s->row[c + __builtin_ctz(b)];
        for (size_t w = from; w < s->width; w++)
            sums[b * s->width + w] = rest[w] ^ row[w];
    }
    for (unsigned i = 0; i < s->size; i++) {
        unsigned byte = column_byte(s->row[i], c);      /* the columns behind the last are zero */
        if (byte && (i < c || i >= c + columns))
            add_row(s->row[i], sums + byte * s->width, from, s->width);
    }
}

int plain_make(unsigned m, unsigned t, unsigned M, const uint8_t *self, const uint8_t *parity, uint8_t *inverse, uint64_t *place)
{
    plain_sizes sizes;
    code c;
    int rule = plain_design(m, t, M, &sizes, place);
    if (!rule)
        rule = judge_lists(sizes.size, self, parity, place);
    if (rule)
        return rule;

    make_code(&c, m, t, M);
    side_by_side s = { c.size, words_a_row(c.size), 2 * words_a_row(c.size), zeroed(c.size, sizeof *s.row) };
    uint64_t *columns = system_columns(&c, self, parity), *A = transposed(columns, c.size);
    uint64_t *both = zeroed(c.size * s.width, sizeof *both), *sums = zeroed(256 * s.width, sizeof *sums);
    for (unsigned i = 0; i < c.size; i++) {
        s.row[i] = both + i * s.width;
        memcpy(s.row[i], A + i * s.words, s.words * sizeof *A);
        turn_bit(s.row[i] + s.words, i);
    }
    for (unsigned done = 0; done < c.size && !rule; done += 8) {
        unsigned count = c.size - done < 8 ? c.size - done : 8, found = find_pivots(&s, done, count);
        if (found == count)
            clear_columns(&s, done, count, sums);
        else {
            *place = done + found;
            rule = 14;
        }
    }
    size_t bytes = (c.size + 7) / 8;
    for (unsigned i = 0; i < c.size && !rule; i++)
        for (size_t b = 0; b < bytes; b++)
            inverse[i * bytes + b] = s.row[i][s.words + b / 8] >> (8 * (b % 8));
    free(s.row);
    free(columns);
    free(A);
    free(both);
    free(sums);
    return rule;
}

uint32_t plain_load_fill(uint32_t seed, uint8_t *bits, size_t count)
{
    for (size_t i = 0; i < count; i++) {
        seed = seed * 1664525u + 1013904223u;
        bits[i] = seed >> 31;
    }
    return seed;
}

/* A number of 16 steps, the first output its highest bit. */
static unsigned load_draw(uint32_t *state)
{
    unsigned drawn = 0;
    for (unsigned step = 0; step < 16; step++) {
        *state = *state * 1664525u + 1013904223u;
        drawn = 2 * drawn + (*state >> 31);
    }
    return drawn;
}

uint32_t plain_load_errors(uint32_t seed, uint64_t limit, uint8_t *bits, size_t count)
{
    for (size_t i = 0; i < count; i++)
        bits[i] ^= load_draw(&seed) < limit;
    return seed;
}

uint32_t plain_random(uint64_t *state)
{
    uint64_t x = *state;
    x ^= x >> 12;
    x ^= x << 25;
    x ^= x >> 27;
    *state = x;
    return x * 0x2545F4914F6CDD1Du >> 32;
}

static void random_permutation(uint8_t *list, unsigned size, uint64_t *state)
{
    uint16_t *p = zeroed(size, sizeof *p);
    for (unsigned i = 0; i < size; i++)
        p[i] = i;
    for (unsigned i = size; i > 1; i--) {
        unsigned j = plain_random(state) % i;
        uint16_t swap = p[i - 1];
        p[i - 1] = p[j];
        p[j] = swap;
    }
    for (unsigned i = 0; i < size; i++) {
        list[2 * i] = p[i] & 255;
        list[2 * i + 1] = p[i] >> 8;
    }
    free(p);
}

void plain_random_lists(unsigned m, unsigned t, unsigned M, uint64_t seed, uint8_t *self, uint8_t *parity)
{
    uint64_t state = seed * 2 + 1;      /* never 0 */
    for (unsigned i = 0; i < 16; i++)
        plain_random(&state);
    random_permutation(self, M * m * t, &state);
    random_permutation(parity, M * m * t, &state);
}

/* Place j M + a goes to row `row[j]` of column word c, where c is a + shift + j modulo M. */
static void mixed_list(unsigned r, unsigned M, unsigned shift, uint32_t *state, uint8_t *list)
{
    for (unsigned c = 0; c < M; c++) {
        unsigned row[32];
        for (unsigned j = 0; j < r; j++)
            row[j] = j;
        for (unsigned i = r - 1; i > 0; i--) {
            unsigned j = load_draw(state) % (i + 1), swap = row[i];
            row[i] = row[j];
            row[j] = swap;
        }
        for (unsigned j = 0; j < r; j++) {
            unsigned place = j * M + (c + 2 * M - shift - j) % M, entry = row[j] * M + c;
            list[2 * place] = entry & 255;
            list[2 * place + 1] = entry >> 8;
        }
    }
}

uint32_t plain_mixed_lists(unsigned m, unsigned t, unsigned M, uint32_t seed, uint8_t *self, uint8_t *parity)
{
    mixed_list(m * t, M, 0, &seed, self);
    mixed_list(m * t, M, m * t, &seed, parity);
    return seed;
}

void plain_lists(unsigned m, unsigned t, unsigned M, uint64_t seed, uint8_t *self, uint8_t *parity)
{
    if (2 * m * t <= M)
        plain_mixed_lists(m, t, M, (uint32_t)seed, self, parity);
    else
        plain_random_lists(m, t, M, seed, self, parity);
}

/* ---- Frames ---- */

static unsigned groups(unsigned L)
{
    return (L + 1) / 2;
}

/* What a group's words are made of; an unsent block is a null pointer. */
typedef struct {
    const uint8_t *before, *odd, *even;         /* B(2i-2), B(2i-1), B(2i) */
    const uint8_t *Y, *P;
} group;

static const uint8_t *block(const code *c, unsigned L, const uint8_t *info, unsigned number)
{
    return number >= 1 && number <= L ? info + (size_t)(number - 1) * c->M * c->M : NULL;
}

/* Group i, counted from 1. */
static group get_group(const code *c, unsigned L, const uint8_t *info, const uint8_t *red, unsigned i)
{
    group g;
    g.before = block(c, L, info, 2 * i - 2);
    g.odd = block(c, L, info, 2 * i - 1);
    g.even = block(c, L, info, 2 * i);
    g.Y = red + (size_t)(i - 1) * 2 * c->size;
    g.P = g.Y + c->size;
    return g;
}

/* Sums of rem for the positions of a word: those of its first block, of its second one, of X or Y, and of Q or P. */
typedef struct {
    byte_sums first[(MAX_M + 7) / 8], second[(MAX_M + 7) / 8], self[(MAX_R + 7) / 8], parity[(MAX_R + 7) / 8];
} word_sums;

static void make_word_sums(const code *c, word_sums *w)
{
    make_sums(w->first, c->rem, c->M);
    make_sums(w->second, c->rem + c->M, c->M);
    make_sums(w->self, c->rem + 2 * c->M, c->r);
    make_sums(w->parity, c->rem + c->k, c->r);
}

/* Bytes j to j + 7 of a row of M, the first lowest, and 0 past its end. */
static inline uint64_t row_bytes(const uint8_t *row, unsigned j, unsigned M)
{
    if (j + 8 <= M)
        return eight_bytes(row + j);
    if (M >= 8)
        return eight_bytes(row + M - 8) >> 8 * (j + 8 - M);
    uint64_t bytes = 0;
    while (M-- > j)
        bytes = bytes << 8 | row[M];
    return bytes;
}

/* Bit b is the lowest one of byte b; each byte is 0 or 1. */
static unsigned low_bits(uint64_t bytes)
{
    return bytes * 0x0102040810204080u >> 56;   /* bit 8 b comes to bit 56 + b, and no two bits meet */
}

/* Adds the rows of a block to M remainders. */
static void add_rows(uint32_t *to, const uint8_t *block, unsigned M, const byte_sums *sums)
{
    for (unsigned a = 0; block && a < M; a++, block += M) {
        uint32_t sum = 0;
        unsigned j = 0;
        for (; j + 8 <= M; j += 8)
            sum ^= sums[j / 8][low_bits(eight_bytes(block + j))];
        if (j < M)
            sum ^= sums[j / 8][low_bits(row_bytes(block, j, M))];
        to[a] ^= sum;
    }
}

/* Of eight columns from a on, a byte each: the bits of at most eight rows, the first row's lowest. */
static inline uint64_t column_bits(const uint8_t *rows, unsigned count, unsigned a, unsigned M)
{
    uint64_t bits = 0;
    while (count-- > 0)
        bits = 2 * bits + row_bytes(rows + count * M, a, M);
    return bits;
}

/* The same for the columns of a matrix of M columns: eight rows at a time, from their start to their end. */
static void add_columns(uint32_t *to, const uint8_t *matrix, unsigned rows, unsigned M, const byte_sums *sums)
{
    for (unsigned j = 0; matrix && j < rows; j += 8) {
        const uint8_t *top = matrix + j * M;
        unsigned count = rows - j < 8 ? rows - j : 8, a = 0;
        for (; a + 8 <= M; a += 8) {
            uint64_t bits = count == 8 ? column_bits(top, 8, a, M) : column_bits(top, count, a, M);     /* the former is unrolled */
            for (unsigned b = 0; b < 8; b++)
                to[a + b] ^= sums[j / 8][bits >> 8 * b & 255];
        }
        if (a < M)
            for (uint64_t bits = column_bits(top, count, a, M); a < M; a++, bits >>= 8)
                to[a] ^= sums[j / 8][bits & 255];
    }
}

/* The bits at which at most eight entries of a list point, the first one's lowest. */
static inline unsigned listed_bits(const uint8_t *matrix, const uint16_t *list, unsigned count)
{
    unsigned bits = 0;
    while (count-- > 0)
        bits = 2 * bits + matrix[list[count]];
    return bits;
}

/* The same for the rows of X or Q, read from Y or P by its list. */
static void add_listed(uint32_t *to, const uint8_t *matrix, const uint16_t *list, unsigned r, unsigned M, const byte_sums *sums)
{
    for (unsigned a = 0; a < M; a++, list += r) {
        uint32_t sum = 0;
        unsigned j = 0;
        for (; j + 8 <= r; j += 8)
            sum ^= sums[j / 8][listed_bits(matrix, list + j, 8)];
        if (j < r)
            sum ^= sums[j / 8][listed_bits(matrix, list + j, r - j)];
        to[a] ^= sum;
    }
}

void plain_encode(unsigned m, unsigned t, unsigned M, unsigned L, const uint8_t *self, const uint8_t *parity, const uint8_t *inverse,
                  const uint8_t *info, uint8_t *red)
{
    code c;
    word_sums w;
    make_code(&c, m, t, M);
    make_word_sums(&c, &w);
    (void)self;                                         /* W holds what the self list says */
    size_t words = words_a_row(c.size);
    uint64_t *W = pack_rows(inverse, c.size), *constant = zeroed(words, sizeof *constant);
    uint32_t *rows = zeroed(M, sizeof *rows), *columns = zeroed(M, sizeof *columns);
    uint16_t *brought = zeroed(c.size, sizeof *brought);        /* place of Q to entry of c */
    for (unsigned p = 0; p < c.size; p++)
        brought[p] = entry_of_byte(&c, entry(parity, p));

    for (unsigned i = 1; i <= groups(L); i++) {
        group g = get_group(&c, L, info, red, i);
        uint8_t *Y = red + (size_t)(i - 1) * 2 * c.size, *P = Y + c.size;

        memset(rows, 0, M * sizeof *rows);
        add_rows(rows, g.before, M, w.first);
        add_rows(rows, g.odd, M, w.second);
        memset(columns, 0, M * sizeof *columns);
        add_columns(columns, g.odd, M, M, w.first);
        add_columns(columns, g.even, M, M, w.second);

        memset(constant, 0, words * sizeof *constant);
        for (unsigned e = 0; e < c.r; e++)
            for (unsigned a = 0; a < M; a++) {
                if (columns[a] >> (c.r - 1 - e) & 1)
                    turn_bit(constant, a * c.r + e);
                if (rows[a] >> (c.r - 1 - e) & 1)
                    turn_bit(constant, brought[e * M + a]);
            }

        for (unsigned b = 0; b < M; b++)
            for (unsigned a = 0; a < c.r; a++) {
                const uint64_t *row = W + (b * c.r + a) * words;
                uint64_t sum = 0;
                for (size_t w = 0; w < words; w++)
                    sum ^= row[w] & constant[w];
                Y[a * M + b] = __builtin_parityll(sum);
            }

        add_columns(columns, Y, c.r, M, w.self);
        for (unsigned e = 0; e < c.r; e++)
            for (unsigned a = 0; a < M; a++)
                P[e * M + a] = columns[a] >> (c.r - 1 - e) & 1;
    }
    free(W);
    free(constant);
    free(rows);
    free(columns);
    free(brought);
}

/* ---- Words of a frame ---- */

/* What the word checker and the decoder work with. */
typedef struct {
    code c;
    word_sums w;
    unsigned L;
    uint8_t *info, *red;
    const plain_frame *lent;
    const uint8_t *copy;                /* of the frame as it was lent, information before redundancy; null until a bit is to be turned */
    uint16_t self[MAX_SIZE], parity[MAX_SIZE];          /* entry a * r + b: the byte of Y or P that is row a, column b of X or Q */
    uint32_t rem[MAX_M];                /* of a group's row words or column words */
} words;

static void make_words(words *f, unsigned m, unsigned t, unsigned M, unsigned L, const plain_frame *lent)
{
    make_code(&f->c, m, t, M);
    make_word_sums(&f->c, &f->w);
    f->L = L;
    f->info = lent->info;
    f->red = lent->red;
    f->lent = lent;
    f->copy = NULL;
    for (unsigned b = 0; b < f->c.r; b++)
        for (unsigned a = 0; a < M; a++) {
            f->self[a * f->c.r + b] = entry(lent->self, b * M + a);
            f->parity[a * f->c.r + b] = entry(lent->parity, b * M + a);
        }
}

static void row_remainders(words *f, const group *g)
{
    unsigned M = f->c.M;
    memset(f->rem, 0, M * sizeof *f->rem);
    add_rows(f->rem, g->before, M, f->w.first);
    add_rows(f->rem, g->odd, M, f->w.second);
    add_listed(f->rem, g->Y, f->self, f->c.r, M, f->w.self);
    add_listed(f->rem, g->P, f->parity, f->c.r, M, f->w.parity);
}

static void column_remainders(words *f, const group *g)
{
    unsigned M = f->c.M;
    memset(f->rem, 0, M * sizeof *f->rem);
    add_columns(f->rem, g->odd, M, M, f->w.first);
    add_columns(f->rem, g->even, M, M, f->w.second);
    add_columns(f->rem, g->Y, f->c.r, M, f->w.self);
    add_columns(f->rem, g->P, f->c.r, M, f->w.parity);
}

static unsigned nonzero(const uint32_t *numbers, unsigned count)
{
    unsigned found = 0;
    for (unsigned a = 0; a < count; a++)
        found += numbers[a] != 0;
    return found;
}

static uint64_t count_outside(words *f)
{
    uint64_t outside = 0;
    for (unsigned i = 1; i <= groups(f->L); i++) {
        group g = get_group(&f->c, f->L, f->info, f->red, i);
        row_remainders(f, &g);
        outside += nonzero(f->rem, f->c.M);
        column_remainders(f, &g);
        outside += nonzero(f->rem, f->c.M);
    }
    return outside;
}

size_t plain_first_bad_bit(const uint8_t *bytes, size_t length)
{
    size_t start = 0, end = 0;
    for (uint8_t any = 0; any <= 1 && end < length;) {
        start = end;
        end = length - start < 4096 ? length : start + 4096;
        for (size_t i = start; i < end; i++)
            any |= bytes[i];
    }
    while (start < length && bytes[start] <= 1)
        start++;
    return start;
}

/* Rules 1 to 5, 18, 6, 7 and 10: 0, or the rule's number and its place. A call without rounds gives 0 for them, one without a window 1. */
static int judge_frame(unsigned m, unsigned t, unsigned M, unsigned L, unsigned rounds, unsigned window, const plain_frame *lent, uint64_t *place)
{
    plain_sizes s;
    int rule = plain_design(m, t, M, &s, place);
    if (rule)
        return rule;
    if (L < 1 || L > PLAIN_MAX_L) {
        *place = L;
        return 4;
    }
    if (rounds > MAX_ROUNDS) {
        *place = rounds;
        return 5;
    }
    if (window < 1 || window > MAX_WINDOW) {
        *place = window;
        return 18;
    }
    size_t list = 2 * (size_t)s.size, info = (size_t)L * M * M, red = groups(L) * 2 * (size_t)s.size;
    unsigned slice = lent->self_length != list ? 1 : lent->parity_length != list ? 2 : lent->info_length != info ? 4
        : lent->red_length != red ? 5 : 0;
    if (slice) {
        *place = slice;
        return 6;
    }
    rule = judge_lists(s.size, lent->self, lent->parity, place);
    if (rule)
        return rule;
    size_t bad = plain_first_bad_bit(lent->info, info);
    if (bad == info)
        bad += plain_first_bad_bit(lent->red, red);
    if (bad == info + red)
        return 0;
    *place = bad;
    return 10;
}

int plain_words(unsigned m, unsigned t, unsigned M, unsigned L, const plain_frame *lent, uint64_t *outside, uint64_t *place)
{
    words f;
    *outside = 0;
    int rule = judge_frame(m, t, M, L, 0, 1, lent, place);
    if (rule)
        return rule;
    make_words(&f, m, t, M, L, lent);
    *outside = count_outside(&f);
    return 0;
}

/* Where position j of row word a stands, or null in an unsent block. */
static const uint8_t *row_bit(const words *f, const group *g, unsigned a, unsigned j)
{
    unsigned M = f->c.M, r = f->c.r;
    if (j < M)
        return g->before ? g->before + a * M + j : NULL;
    if (j < 2 * M)
        return g->odd + a * M + (j - M);
    if (j < f->c.k)
        return g->Y + f->self[a * r + (j - 2 * M)];
    return g->P + f->parity[a * r + (j - f->c.k)];
}

/* The same for column word a. */
static const uint8_t *column_bit(const words *f, const group *g, unsigned a, unsigned j)
{
    unsigned M = f->c.M;
    if (j < M)
        return g->odd + j * M + a;
    if (j < 2 * M)
        return g->even ? g->even + (j - M) * M + a : NULL;
    if (j < f->c.k)
        return g->Y + (j - 2 * M) * M + a;
    return g->P + (j - f->c.k) * M + a;
}

/* Copies the frame before its first turn. The room is kept from call to call, as a host's working bytes are, so that no call pays for fresh pages. */
static void keep_copy(words *f)
{
    static _Thread_local uint8_t *copy;
    static _Thread_local size_t room;
    size_t info = f->lent->info_length, red = f->lent->red_length;
    if (f->copy)
        return;
    if (room < info + red) {
        free(copy);
        room = info + red;
        copy = zeroed(room, 1);
    }
    memcpy(copy, f->info, info);
    memcpy(copy + info, f->red, red);
    f->copy = copy;
}

static uint64_t differing(const uint8_t *bits, const uint8_t *others, size_t length)
{
    uint64_t count = 0;
    for (size_t i = 0; i < length; i++)
        count += bits[i] ^ others[i];
    return count;
}

/* The number of bits in which the frame differs from the one that was lent. */
static uint64_t changed_bits(const words *f)
{
    size_t info = f->lent->info_length, red = f->lent->red_length;
    return f->copy ? differing(f->info, f->copy, info) + differing(f->red, f->copy + info, red) : 0;
}

/* Turns the bits unless one is unsent; returns the number turned, 0 of a stuck word. */
static unsigned turn(const uint8_t *bits[], unsigned count)
{
    for (unsigned i = 0; i < count; i++)
        if (!bits[i])
            return 0;
    for (unsigned i = 0; i < count; i++)
        *(uint8_t *)bits[i] ^= 1;       /* the caller lent info and red to be changed */
    return count;
}

/* Mends the words whose remainders were taken; counts the bits turned and the stuck words. */
static void mend_words(words *f, const locator *l, const group *g, const uint8_t *(*bit)(const words *, const group *, unsigned, unsigned),
                       uint64_t *turned, uint64_t *stuck)
{
    unsigned position[MAX_T];
    const uint8_t *bits[MAX_T];
    for (unsigned a = 0; a < f->c.M; a++)
        if (f->rem[a]) {
            unsigned count = locate(&f->c, l, f->rem[a], position);
            for (unsigned i = 0; i < count; i++)
                bits[i] = bit(f, g, a, position[i]);
            if (count)
                keep_copy(f);
            count = turn(bits, count);
            *turned += count;
            *stuck += count == 0;
        }
}

/* Row words share no bit with one another, nor do column words, so each kind's remainders are taken before the first of them is mended. */
static void mend_group(words *f, const locator *l, const group *g, uint64_t *turned, uint64_t *stuck)
{
    row_remainders(f, g);
    mend_words(f, l, g, row_bit, turned, stuck);
    column_remainders(f, g);
    mend_words(f, l, g, column_bit, turned, stuck);
}

/* Rounds over groups first to last: adds those made, and sets the stuck words of the last one. Returns the bits turned in it. */
static uint64_t make_rounds(words *f, const locator *l, unsigned first, unsigned last, unsigned rounds, uint64_t counts[PLAIN_COUNTS])
{
    uint64_t turned;
    unsigned made = 0;
    do {
        turned = counts[3] = 0;
        for (unsigned i = first; i <= last; i++) {
            group g = get_group(&f->c, f->L, f->info, f->red, i);
            mend_group(f, l, &g, &turned, &counts[3]);
        }
        made++;
    } while (turned && made < (rounds ? rounds : DEFAULT_ROUNDS));
    counts[0] += made;
    return turned;
}

int plain_decode(unsigned m, unsigned t, unsigned M, unsigned L, unsigned rounds, const plain_frame *lent, uint64_t counts[PLAIN_COUNTS],
                 uint64_t *place)
{
    words f;
    locator l;
    memset(counts, 0, PLAIN_COUNTS * sizeof *counts);
    int rule = judge_frame(m, t, M, L, rounds, 1, lent, place);
    if (rule)
        return rule;
    make_words(&f, m, t, M, L, lent);
    make_locator(&f.c, &l);
    uint64_t turned = make_rounds(&f, &l, 1, groups(L), rounds, counts);
    counts[1] = changed_bits(&f);
    counts[2] = turned ? count_outside(&f) : counts[3];         /* in an idle round the words outside are the stuck ones */
    return 0;
}

/* The last position of a window. */
static unsigned last_position(unsigned L, unsigned window)
{
    return groups(L) > window ? groups(L) - window + 1 : 1;
}

/* The last group that a window holds at a position. */
static unsigned last_held(unsigned L, unsigned window, unsigned position)
{
    unsigned last = position + window - 1;
    return last < groups(L) ? last : groups(L);
}

int plain_window(unsigned m, unsigned t, unsigned M, unsigned L, unsigned rounds, unsigned window, const plain_frame *lent,
                 uint64_t counts[PLAIN_COUNTS], uint64_t *place)
{
    words f;
    locator l;
    memset(counts, 0, PLAIN_COUNTS * sizeof *counts);
    int rule = judge_frame(m, t, M, L, rounds, window, lent, place);
    if (rule)
        return rule;
    make_words(&f, m, t, M, L, lent);
    make_locator(&f.c, &l);
    for (unsigned position = 1; position <= last_position(L, window); position++)
        make_rounds(&f, &l, position, last_held(L, window, position), rounds, counts);
    counts[1] = changed_bits(&f);
    counts[2] = count_outside(&f);
    return 0;
}
