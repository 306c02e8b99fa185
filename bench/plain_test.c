/* Self-test of plain.c and plain_original.c: document 01's rows under kit K, the test load, a kit with M = 2, published generators, making inverses, round trips,
   a brute-force decoder, refusals, and original frames.
   Prints a line a group, returns 1 on a failure. gcc -O3 -o plain_test plain_test.c plain_original.c

   The opponent ("ref") shares nothing with plain.c but generators, which are tested by themselves: long division of whole words, words as tables
   of indices made from the document's matrices and places, mending by trying every set of at most t positions. */

#include "plain_original.h"

#include <stdio.h>
#include <stdlib.h>
#include <string.h>
#include <time.h>

static unsigned failures, checks;

#define CHECK(condition) check((condition), #condition, __LINE__)

static int check(int condition, const char *text, int line)
{
    checks++;
    if (!condition && ++failures <= 20)
        printf("line %d fails: %s\n", line, text);
    return condition;
}

static double seconds(void)
{
    return (double)clock() / CLOCKS_PER_SEC;
}

static void group_done(const char *name, double start)
{
    static unsigned checks_before, failures_before;
    printf("%-40s %7u checks, %u failed, %.2f s\n", name, checks - checks_before, failures - failures_before, seconds() - start);
    fflush(stdout);
    checks_before = checks;
    failures_before = failures;
}

static void *get(size_t size)
{
    void *p = calloc(size ? size : 1, 1);
    if (!p)
        exit(2);
    return p;
}

/* ---- The opponent ---- */

typedef struct {
    unsigned m, t, M, r, n, k, N;
    uint32_t g;
    const uint8_t *self, *parity;
    uint32_t unit[1023];        /* remainder of a word with a single one */
} ref;

static uint32_t ref_remainder(const ref *d, const uint8_t *word, unsigned length)
{
    uint8_t left[1100];
    uint32_t out = 0;
    memcpy(left, word, length);
    for (unsigned i = 0; i + d->r < length; i++)
        if (left[i])
            for (unsigned e = 0; e <= d->r; e++)
                left[i + e] ^= d->g >> (d->r - e) & 1;
    for (unsigned e = 0; e < d->r; e++)
        out = out << 1 | left[length - d->r + e];
    return out;
}

static void ref_parity(const ref *d, const uint8_t *information, uint8_t *bits)
{
    uint8_t word[1100] = { 0 };
    memcpy(word, information, d->k);
    uint32_t rem = ref_remainder(d, word, d->k + d->r);
    for (unsigned e = 0; e < d->r; e++)
        bits[e] = rem >> (d->r - 1 - e) & 1;
}

static ref ref_design(unsigned m, unsigned t, unsigned M, const uint8_t *self, const uint8_t *parity)
{
    ref d = { m, t, M, m * t, 2 * M + 2 * m * t, 2 * M + m * t, M * m * t, plain_generator(m, t), self, parity, { 0 } };
    for (unsigned j = 0; j < d.n; j++) {
        uint8_t word[1023] = { 0 };
        word[j] = 1;
        d.unit[j] = ref_remainder(&d, word, d.n);
    }
    return d;
}

static unsigned ref_entry(const uint8_t *list, unsigned p)
{
    return list[2 * p] + 256u * list[2 * p + 1];
}

/* Index in a row-by-row r x M matrix of the bit that the list brings there from row a, column b of an M x r one. */
static unsigned ref_listed(const ref *d, const uint8_t *list, unsigned a, unsigned b)
{
    unsigned place = ref_entry(list, b * d->M + a), row = place % d->M, column = place / d->M;
    return column * d->M + row;         /* transposed */
}

static long ref_block(const ref *d, unsigned L, unsigned number, unsigned row, unsigned column)
{
    return number == 0 || number > L ? -1 : (long)(((number - 1) * d->M + row) * d->M + column);
}

/* The frame index (information, then redundancy) of each position of a word; -1 for unsent. */
static void ref_word(const ref *d, unsigned L, unsigned group, int is_column, unsigned a, long *at)
{
    unsigned M = d->M, r = d->r;
    long Y = (long)L * M * M + (long)(group - 1) * 2 * r * M, P = Y + r * M;
    for (unsigned j = 0; j < M; j++) {
        at[j] = is_column ? ref_block(d, L, 2 * group - 1, j, a) : ref_block(d, L, 2 * group - 2, a, j);
        at[M + j] = is_column ? ref_block(d, L, 2 * group, j, a) : ref_block(d, L, 2 * group - 1, a, j);
    }
    for (unsigned b = 0; b < r; b++) {
        at[2 * M + b] = Y + (is_column ? b * M + a : ref_listed(d, d->self, a, b));
        at[2 * M + r + b] = P + (is_column ? b * M + a : ref_listed(d, d->parity, a, b));
    }
}

static uint32_t ref_word_remainder(const ref *d, const uint8_t *frame, const long *at)
{
    uint8_t word[1023];
    for (unsigned j = 0; j < d->n; j++)
        word[j] = at[j] < 0 ? 0 : frame[at[j]];
    return ref_remainder(d, word, d->n);
}

/* Looks for exactly count positions from the given one whose remainders add up to rem. */
static int ref_search(const ref *d, uint32_t rem, unsigned from, unsigned count, unsigned *position)
{
    if (count == 0)
        return rem == 0;
    for (unsigned j = from; j < d->n; j++) {
        position[0] = j;
        if (ref_search(d, rem ^ d->unit[j], j + 1, count - 1, position + 1))
            return 1;
    }
    return 0;
}

/* Mends a word: the number of bits turned, 0 of a clean word, or -1 of a stuck one. */
static int ref_mend(const ref *d, uint8_t *frame, const long *at)
{
    uint32_t rem = ref_word_remainder(d, frame, at);
    unsigned position[3];
    for (unsigned count = 0; count <= d->t; count++)
        if (ref_search(d, rem, 0, count, position)) {
            for (unsigned i = 0; i < count; i++)
                if (at[position[i]] < 0)
                    return -1;
            for (unsigned i = 0; i < count; i++)
                frame[at[position[i]]] ^= 1;
            return count;
        }
    return -1;
}

static uint64_t ref_outside(const ref *d, unsigned L, const uint8_t *frame)
{
    long at[1023];
    uint64_t outside = 0;
    for (unsigned group = 1; group <= (L + 1) / 2; group++)
        for (int is_column = 0; is_column < 2; is_column++)
            for (unsigned a = 0; a < d->M; a++) {
                ref_word(d, L, group, is_column, a, at);
                outside += ref_word_remainder(d, frame, at) != 0;
            }
    return outside;
}

static unsigned turned_back;           /* decodes in which a bit was turned and turned back */

static void ref_decode(const ref *d, unsigned L, unsigned rounds, uint8_t *frame, uint64_t counts[PLAIN_COUNTS])
{
    long at[1023];
    size_t length = (size_t)L * d->M * d->M + (size_t)(L + 1) / 2 * 2 * d->N;
    uint8_t *copy = get(length);
    uint64_t all_turns = 0;
    memcpy(copy, frame, length);
    counts[0] = counts[1] = 0;
    for (unsigned left = rounds ? rounds : 12; left > 0; left--) {
        unsigned turns = 0;
        counts[3] = 0;
        for (unsigned group = 1; group <= (L + 1) / 2; group++)
            for (int is_column = 0; is_column < 2; is_column++)
                for (unsigned a = 0; a < d->M; a++) {
                    ref_word(d, L, group, is_column, a, at);
                    int mended = ref_mend(d, frame, at);
                    counts[3] += mended < 0;
                    turns += mended < 0 ? 0 : mended;
                }
        counts[0]++;
        all_turns += turns;
        if (turns == 0)
            break;
    }
    for (size_t bit = 0; bit < length; bit++)
        counts[1] += frame[bit] != copy[bit];
    counts[2] = ref_outside(d, L, frame);
    free(copy);
    turned_back += all_turns > counts[1];
}

static unsigned windows_differ;        /* windows that leave other bits than the decoder of whole frames */

/* The decoder with a window of so many groups: at each position, rounds over the groups that it holds. */
static void ref_window(const ref *d, unsigned L, unsigned rounds, unsigned window, uint8_t *frame, uint64_t counts[PLAIN_COUNTS])
{
    long at[1023];
    unsigned last = (L + 1) / 2;
    size_t length = (size_t)L * d->M * d->M + (size_t)last * 2 * d->N;
    uint8_t *copy = get(length);
    memcpy(copy, frame, length);
    counts[0] = counts[1] = 0;
    for (unsigned position = 1; position == 1 || position + window <= last + 1; position++) {
        unsigned turns = 1;
        for (unsigned left = rounds ? rounds : 12; left > 0 && turns > 0; left--) {
            turns = 0;
            counts[0]++;
            counts[3] = 0;
            for (unsigned group = position; group < position + window && group <= last; group++)
                for (unsigned word = 0; word < 2 * d->M; word++) {
                    ref_word(d, L, group, word >= d->M, word % d->M, at);
                    int mended = ref_mend(d, frame, at);
                    counts[3] += mended < 0;
                    turns += mended > 0;
                }
        }
    }
    for (size_t bit = 0; bit < length; bit++)
        counts[1] += frame[bit] != copy[bit];
    counts[2] = ref_outside(d, L, frame);
    free(copy);
}

/* A, one bit a byte: each column is the sum that a single one in Y gives between zero blocks. */
static void ref_system(const ref *d, uint8_t *A)
{
    unsigned M = d->M, r = d->r, N = d->N;
    uint8_t *Y = get(N), *P = get(N), information[1023], bits[30];
    for (unsigned j = 0; j < N; j++) {
        memset(Y, 0, N);
        memset(P, 0, N);
        Y[j % r * M + j / r] = 1;
        for (unsigned a = 0; a < M; a++) {
            memset(information, 0, sizeof information);
            for (unsigned b = 0; b < r; b++)
                information[2 * M + b] = Y[b * M + a];
            ref_parity(d, information, bits);
            for (unsigned b = 0; b < r; b++)
                P[b * M + a] ^= bits[b];
            for (unsigned b = 0; b < r; b++)
                information[2 * M + b] = Y[ref_listed(d, d->self, a, b)];
            ref_parity(d, information, bits);
            for (unsigned b = 0; b < r; b++)
                P[ref_listed(d, d->parity, a, b)] ^= bits[b];
        }
        for (unsigned i = 0; i < N; i++)
            A[i * N + j] = P[i % r * M + i / r];
    }
    free(Y);
    free(P);
}

/* The rule and place of a kit whose design fits. */
static int ref_check(const ref *d, const uint8_t *A, const uint8_t *inverse, uint64_t *place)
{
    unsigned N = d->N, bytes = (N + 7) / 8;
    for (unsigned p = 0; p < 2 * N; p++) {
        const uint8_t *list = p < N ? d->self : d->parity;
        int bad = ref_entry(list, p % N) >= N;
        for (unsigned q = 0; q < p % N; q++)
            bad |= ref_entry(list, q) == ref_entry(list, p % N);
        if (bad) {
            *place = p;
            return 7;
        }
    }
    for (unsigned i = 0; i < N; i++)
        for (unsigned j = N; j < 8 * bytes; j++)
            if (inverse[i * bytes + j / 8] >> (j % 8) & 1) {
                *place = i;
                return 8;
            }
    for (unsigned i = 0; i < N; i++)
        for (unsigned j = 0; j < N; j++) {
            unsigned ones = 0;
            for (unsigned e = 0; e < N; e++)
                ones += A[i * N + e] & inverse[e * bytes + j / 8] >> (j % 8);
            if (ones % 2 != (i == j)) {
                *place = (uint64_t)i * N + j;
                return 9;
            }
        }
    return 0;
}

/* ---- Calls of plain.c ---- */

/* Information and redundancy one after the other, as lent to the word checker and the decoder. */
static plain_frame lend(const ref *d, unsigned L, uint8_t *frame)
{
    size_t list = 2 * (size_t)d->N, info = (size_t)L * d->M * d->M, red = (size_t)(L + 1) / 2 * 2 * d->N;
    return (plain_frame){ d->self, d->parity, frame, frame + info, list, list, info, red };
}

/* The words outside, or -1 if refused. */
static int64_t outside(const ref *d, unsigned L, uint8_t *frame)
{
    plain_frame lent = lend(d, L, frame);
    uint64_t words, place;
    return plain_words(d->m, d->t, d->M, L, &lent, &words, &place) ? -1 : (int64_t)words;
}

static int decode(const ref *d, unsigned L, unsigned rounds, uint8_t *frame, uint64_t counts[PLAIN_COUNTS])
{
    plain_frame lent = lend(d, L, frame);
    uint64_t place;
    return plain_decode(d->m, d->t, d->M, L, rounds, &lent, counts, &place);
}

/* Whether the decoder leaves this frame and these counts. */
static int decodes(const ref *d, unsigned L, unsigned rounds, uint8_t *frame, const uint8_t *after, size_t length, const uint64_t want[PLAIN_COUNTS])
{
    uint64_t counts[PLAIN_COUNTS];
    return decode(d, L, rounds, frame, counts) == 0 && memcmp(frame, after, length) == 0 && memcmp(counts, want, sizeof counts) == 0;
}

/* ---- Rows under K ---- */

/* Bits written as characters, others left out. */
static unsigned from_text(const char *text, uint8_t *bits)
{
    unsigned count = 0;
    for (; *text; text++)
        if (*text == '0' || *text == '1')
            bits[count++] = *text - '0';
    return count;
}

static const uint8_t K_self[] = { 1, 0, 0, 0, 2, 0, 3, 0 }, K_parity[] = { 3, 0, 0, 0, 1, 0, 2, 0 };
static const uint8_t K_inverse[] = { 0x5, 0xA, 0xB, 0x2 };     /* 1010, 0101, 1101, 0100: column 0 is bit 0 */

static int K_encodes(const char *blocks, const char *groups)
{
    ref d = ref_design(4, 1, 1, K_self, K_parity);
    uint8_t frame[64], want[64];
    unsigned L = from_text(blocks, frame), length = from_text(groups, want);
    memset(frame + L, 7, sizeof frame - L);
    plain_encode(4, 1, 1, L, K_self, K_parity, K_inverse, frame, frame + L);
    return memcmp(frame + L, want, length) == 0 && frame[L + length] == 7 && outside(&d, L, frame) == 0;
}

/* Frames are blocks, a bar, groups. */
static int K_decodes(const char *before, unsigned rounds, const char *after, unsigned made, unsigned turned, unsigned words, unsigned stuck)
{
    ref d = ref_design(4, 1, 1, K_self, K_parity);
    uint8_t frame[64], want[64];
    unsigned L = strcspn(before, "|"), length = from_text(before, frame);
    from_text(after, want);
    return decodes(&d, L, rounds, frame, want, length, (uint64_t[]){ made, turned, words, stuck });
}

static int refused(unsigned m, unsigned t, unsigned M, int rule, uint64_t at)
{
    plain_sizes s;
    uint64_t place = 0;
    return plain_design(m, t, M, &s, &place) == rule && place == at;
}

static void test_rows(void)
{
    double start = seconds();
    uint8_t A[16], want[16], same[] = { 0, 0, 1, 0, 2, 0, 3, 0 }, wrong[4];
    uint64_t place = 0;

    CHECK(plain_power(4, 1, 9) == 0xA && plain_power(4, 1, 8) == 0x5);
    plain_system(4, 1, 1, K_self, K_parity, A);
    from_text("0110 0001 1110 0101", want);
    CHECK(memcmp(A, want, 16) == 0);
    CHECK(plain_check_kit(4, 1, 1, K_self, K_parity, K_inverse, &place) == 0);

    CHECK(K_encodes("1", "0000 1010"));
    CHECK(K_encodes("10", "0000 1010"));
    CHECK(K_encodes("01", "0001 0110"));
    CHECK(K_encodes("11", "0001 1100"));
    CHECK(K_encodes("0100", "0001 0110 0001 0011"));

    plain_system(4, 1, 1, same, same, A);
    memset(want, 0, 16);
    CHECK(memcmp(A, want, 16) == 0);
    CHECK(plain_check_kit(4, 1, 1, same, same, K_inverse, &place) == 9 && place == 0);
    memcpy(wrong, K_inverse, 4);
    wrong[3] = 0xA;
    CHECK(plain_check_kit(4, 1, 1, K_self, K_parity, wrong, &place) == 9 && place == 7);

    CHECK(K_decodes("01|0001 0111", 0, "01|0001 0110", 2, 1, 0, 0));
    CHECK(K_decodes("01|0001 0111", 1, "01|0001 0110", 1, 1, 0, 0));
    CHECK(K_decodes("00|0000 0101", 0, "01|0000 0101", 2, 1, 1, 1));

    CHECK(refused(4, 1, 3, 0, 0) && refused(4, 1, 4, 2, 16) && refused(10, 2, 204, 0, 0) && refused(10, 2, 205, 3, 4100));
    CHECK(refused(3, 0, 0, 1, 1) && refused(11, 9, 9, 1, 1) && refused(4, 0, 0, 1, 2) && refused(10, 4, 0, 1, 2));
    CHECK(refused(4, 1, 0, 1, 3) && refused(10, 1, 501, 1, 3) && refused(10, 3, 390, 3, 11700) && refused(10, 1, 500, 3, 5000));
    CHECK(refused(8, 3, 72, 0, 0) && refused(8, 3, 96, 0, 0) && refused(9, 3, 135, 0, 0));
    group_done("rows of the document under K", start);
}

/* The kit with M = 2 and its frames, from a literal reading of the document by another program in another language. */
static void test_second_kit(void)
{
    double start = seconds();
    const uint8_t self[] = { 5, 0, 3, 0, 4, 0, 1, 0, 7, 0, 2, 0, 6, 0, 0, 0 }, parity[] = { 0, 0, 5, 0, 7, 0, 3, 0, 2, 0, 1, 0, 6, 0, 4, 0 };
    const uint8_t inverse[] = { 153, 70, 79, 115, 207, 56, 145, 233 }, wrong[] = { 153, 70, 79, 115, 207, 60, 145, 233 };
    uint8_t A[64], rows[64], info[12], red[32], out[32], made[8], frame[20];
    uint64_t place;
    ref d = ref_design(4, 1, 2, self, parity);

    from_text("11100010 01110011 00110100 10000010 11001000 01001110 00000111 00101000", rows);
    plain_system(4, 1, 2, self, parity, A);
    CHECK(memcmp(A, rows, 64) == 0);
    CHECK(plain_check_kit(4, 1, 2, self, parity, inverse, &place) == 0);
    CHECK(plain_check_kit(4, 1, 2, self, parity, wrong, &place) == 9 && place == 18);
    CHECK(plain_make_inverse(4, 1, 2, self, parity, made) && memcmp(made, inverse, 8) == 0);
    memset(made, 0, 8);
    CHECK(plain_make(4, 1, 2, self, parity, made, &place) == 0 && memcmp(made, inverse, 8) == 0);

    from_text("1010 0010 1100", info);
    from_text("11111101 10100110 01110100 01011101", red);
    plain_encode(4, 1, 2, 3, self, parity, inverse, info, out);
    CHECK(memcmp(out, red, 32) == 0);

    from_text("1000|11111001 10100110", frame);
    from_text("1010|11111101 10100110", out);
    CHECK(decodes(&d, 1, 1, frame, out, 20, (uint64_t[]){ 1, 2, 1, 1 }));
    group_done("a kit with M = 2", start);
}

/* ---- Generators ---- */

static unsigned field_mul(unsigned a, unsigned b, unsigned m)
{
    static const unsigned polynomial[] = { 0x13, 0x25, 0x43, 0x89, 0x11D, 0x211, 0x409 };
    unsigned product = 0;
    for (; b; b >>= 1) {
        if (b & 1)
            product ^= a;
        a <<= 1;
        if (a >> m)
            a ^= polynomial[m - 4];
    }
    return product;
}

static void test_generators(void)
{
    double start = seconds();
    static const struct {
        unsigned m, t;
        uint32_t octal;
    } published[] = {
        { 4, 1, 023 }, { 5, 1, 045 }, { 5, 2, 03551 }, { 6, 1, 0103 }, { 6, 2, 012471 }, { 6, 3, 01701317 }, { 7, 1, 0211 }, { 7, 2, 041567 },
        { 7, 3, 011554743 }, { 8, 1, 0435 }, { 8, 2, 0267543 }, { 8, 3, 0156720665 },
    };
    for (unsigned i = 0; i < sizeof published / sizeof *published; i++)
        CHECK(plain_generator(published[i].m, published[i].t) == published[i].octal);
    /* Of degree m t and 0 at the first 2t powers of the root: for each pair that has a design. */
    for (unsigned m = 4; m <= 10; m++)
        for (unsigned t = 1; t <= 3; t++) {
            plain_sizes s;
            uint64_t place;
            if (plain_design(m, t, 1, &s, &place))
                continue;
            uint32_t g = plain_generator(m, t);
            CHECK(g >> (m * t) == 1 && (g & 1));
            for (unsigned i = 1, root = 2; i <= 2 * t; i++, root = field_mul(root, 2, m)) {
                unsigned value = 0;
                for (unsigned d = m * t + 1; d-- > 0;)
                    value = field_mul(value, root, m) ^ (g >> d & 1);
                CHECK(value == 0);
            }
        }
    group_done("generators", start);
}

/* ---- Kits, with mixed lists where 2 r is at most M and random ones elsewhere ---- */

typedef struct {
    uint8_t *self, *parity, *inverse;
    unsigned bytes;             /* of the inverse */
} kit;

/* Lists of the first seed from the given one that have an inverse. */
static kit make_kit(unsigned m, unsigned t, unsigned M, uint64_t seed, unsigned tries)
{
    unsigned N = M * m * t;
    kit k = { get(2 * N), get(2 * N), get((size_t)N * ((N + 7) / 8)), N * ((N + 7) / 8) };
    for (; tries > 0; tries--, seed++) {
        plain_lists(m, t, M, seed, k.self, k.parity);
        if (plain_make_inverse(m, t, M, k.self, k.parity, k.inverse))
            return k;
    }
    CHECK(!"a kit was found");
    return k;
}

/* ---- Making inverses ---- */

/* Whether column j of A, one bit a byte, is a sum of the columns before it. Rows are added to lower ones until the columns before have all their ones
   in the first rows, as many as needed; it is such a sum exactly when its ones are there too. */
static int ref_depends(const uint8_t *A, unsigned N, unsigned j)
{
    uint8_t *rows = get((size_t)N * N), *row = get(N);
    unsigned own = 0;
    int depends = 1;
    memcpy(rows, A, (size_t)N * N);
    for (unsigned e = 0; e < j; e++) {
        unsigned i = own;
        while (i < N && !rows[i * N + e])
            i++;
        if (i == N)
            continue;
        memcpy(row, rows + i * N, N);
        memcpy(rows + i * N, rows + own * N, N);
        memcpy(rows + own++ * N, row, N);
        for (i = own; i < N; i++)
            if (rows[i * N + e])
                for (unsigned f = 0; f < N; f++)
                    rows[i * N + f] ^= row[f];
    }
    for (unsigned i = own; i < N; i++)
        depends &= !rows[i * N + j];
    free(rows);
    free(row);
    return depends;
}

static void make_once(unsigned m, unsigned t, unsigned M, const uint8_t *self, const uint8_t *parity)
{
    unsigned N = M * m * t, first = 0;
    size_t length = (size_t)N * ((N + 7) / 8);
    uint8_t *A = get((size_t)N * N), *made = get(length), *other = get(length);
    uint64_t place = 0;
    memset(made, 0xA5, length);
    memset(other, 0xA5, length);
    plain_system(m, t, M, self, parity, A);
    while (first < N && !ref_depends(A, N, first))
        first++;
    int rule = plain_make(m, t, M, self, parity, made, &place);
    CHECK(first == N ? rule == 0 : rule == 14 && place == first);
    CHECK(plain_make_inverse(m, t, M, self, parity, other) == (first == N));
    CHECK(memcmp(made, other, length) == 0);
    CHECK(first < N || plain_check_kit(m, t, M, self, parity, made, &place) == 0);
    free(A);
    free(made);
    free(other);
}

/* Random lists and equal ones of small designs; lists that are refused. */
static void test_making(void)
{
    double start = seconds();
    uint8_t self[160], parity[160], made[80 * 10];
    plain_sizes s;
    uint64_t place;
    for (unsigned m = 4; m <= 10; m++)
        for (unsigned t = 1; t <= 3; t++)
            for (unsigned M = 1; plain_design(m, t, M, &s, &place) == 0 && s.size <= 80; M++) {
                for (unsigned seed = 1; seed <= 12; seed++) {
                    plain_random_lists(m, t, M, seed, self, parity);
                    make_once(m, t, M, self, parity);
                }
                for (unsigned p = 0; p < s.size; p++) {
                    self[2 * p] = parity[2 * p] = p;
                    self[2 * p + 1] = parity[2 * p + 1] = 0;
                }
                make_once(m, t, M, self, parity);
                CHECK(plain_make(m, t, M, self, parity, made, &place) == 14 && place == 0);
                parity[2 * (s.size - 1)] = 1;
                CHECK(plain_make(m, t, M, self, parity, made, &place) == 7 && place == 2 * s.size - 1);
                self[1] = 255;
                CHECK(plain_make(m, t, M, self, parity, made, &place) == 7 && place == 0);
            }
    CHECK(plain_make(4, 1, 4, self, parity, made, &place) == 2 && place == 16);
    group_done("making inverses", start);
}

static void free_kit(kit k)
{
    free(k.self);
    free(k.parity);
    free(k.inverse);
}

static void random_bits(uint8_t *bits, size_t count, uint64_t *state)
{
    for (size_t i = 0; i < count; i++)
        bits[i] = plain_random(state) >> 31;
}

/* Encodes random blocks, turns bits at random while no word gets more than t wrong ones, and wants the frame back. */
static void round_trip(unsigned m, unsigned t, unsigned M, unsigned L, kit k, uint64_t *state)
{
    ref d = ref_design(m, t, M, k.self, k.parity);
    unsigned G = (L + 1) / 2, words = 2 * M * G;
    size_t info_length = (size_t)L * M * M, red_length = (size_t)G * 2 * d.N, length = info_length + red_length;
    uint8_t *frame = get(length), *copy = get(length), *load = get(words);
    unsigned (*owner)[2] = get(length * sizeof *owner);         /* the words of a bit, from 1 */
    uint64_t wrong = 0;
    long at[1023];

    for (unsigned w = 0; w < words; w++) {
        ref_word(&d, L, w / (2 * M) + 1, w % (2 * M) >= M, w % M, at);
        for (unsigned j = 0; j < d.n; j++)
            if (at[j] >= 0)
                owner[at[j]][owner[at[j]][0] != 0] = w + 1;
    }
    random_bits(frame, info_length, state);
    memset(frame + info_length, 5, red_length);
    plain_encode(m, t, M, L, k.self, k.parity, k.inverse, frame, frame + info_length);
    CHECK(ref_outside(&d, L, frame) == 0);
    CHECK(outside(&d, L, frame) == 0);

    memcpy(copy, frame, length);
    for (unsigned tries = plain_random(state) % (4 * t * words + 1); tries > 0; tries--) {
        size_t bit = plain_random(state) % length;
        int full = copy[bit] != frame[bit];
        for (unsigned i = 0; i < 2; i++)
            full |= owner[bit][i] && load[owner[bit][i] - 1] == t;
        if (full)
            continue;
        copy[bit] ^= 1;
        wrong++;
        for (unsigned i = 0; i < 2; i++)
            if (owner[bit][i])
                load[owner[bit][i] - 1]++;
    }
    CHECK(outside(&d, L, copy) == (int64_t)ref_outside(&d, L, copy));
    CHECK(decodes(&d, L, 0, copy, frame, length, (uint64_t[]){ wrong ? 2 : 1, wrong, 0, 0 }));
    free(frame);
    free(copy);
    free(load);
    free(owner);
}

static void test_round_trips(void)
{
    double start = seconds();
    static const unsigned designs[][3] = { { 4, 1, 1 }, { 4, 1, 3 }, { 5, 1, 10 }, { 5, 2, 5 }, { 6, 1, 25 }, { 6, 2, 19 }, { 6, 3, 13 }, { 7, 1, 7 },
        { 7, 2, 20 }, { 7, 3, 11 }, { 8, 1, 12 }, { 8, 2, 9 }, { 8, 3, 10 }, { 9, 1, 11 }, { 9, 2, 8 }, { 9, 3, 7 }, { 10, 1, 13 }, { 10, 2, 6 },
        { 10, 3, 5 } };
    uint64_t state = 20;
    for (unsigned i = 0; i < sizeof designs / sizeof *designs; i++) {
        unsigned m = designs[i][0], t = designs[i][1], M = designs[i][2];
        kit k = make_kit(m, t, M, 1, 60);
        for (unsigned L = 1; L <= 6; L++)
            for (unsigned repeat = 0; repeat < 3; repeat++)
                round_trip(m, t, M, L, k, &state);
        free_kit(k);
    }
    group_done("round trips, at most t errors a word", start);
}

/* A frame with errors: words outside, bits and counts against the opponent's. Where the lists have no inverse, the frame is the zero one. */
static void brute_force(const ref *d, const uint8_t *inverse, unsigned L, unsigned rounds, unsigned per_mille, uint64_t *state)
{
    size_t info_length = (size_t)L * d->M * d->M, length = info_length + (size_t)(L + 1) / 2 * 2 * d->N;
    uint8_t *mine = get(length), *other = get(length), *received = get(length);
    uint64_t want[PLAIN_COUNTS], counts[PLAIN_COUNTS], whole[PLAIN_COUNTS], place;
    if (inverse) {
        random_bits(mine, info_length, state);
        plain_encode(d->m, d->t, d->M, L, d->self, d->parity, inverse, mine, mine + info_length);
    }
    for (size_t bit = 0; bit < length; bit++)
        mine[bit] ^= plain_random(state) % 1000 < per_mille;
    memcpy(received, mine, length);
    memcpy(other, mine, length);
    CHECK(outside(d, L, mine) == (int64_t)ref_outside(d, L, other));
    CHECK(memcmp(mine, other, length) == 0);
    ref_decode(d, L, rounds, other, whole);
    CHECK(decodes(d, L, rounds, mine, other, length, whole));
    for (unsigned window = 1; window <= (L + 1) / 2; window++) {
        uint8_t *windowed = get(length);
        plain_frame lent = lend(d, L, windowed);
        memcpy(windowed, received, length);
        memcpy(mine, received, length);
        ref_window(d, L, rounds, window, mine, want);
        CHECK(plain_window(d->m, d->t, d->M, L, rounds, window < (L + 1) / 2 ? window : 64, &lent, counts, &place) == 0);
        CHECK(memcmp(windowed, mine, length) == 0 && memcmp(counts, want, sizeof counts) == 0);
        if (window == (L + 1) / 2)
            CHECK(memcmp(windowed, other, length) == 0 && memcmp(counts, whole, sizeof counts) == 0);
        windows_differ += memcmp(windowed, other, length) != 0;
        free(windowed);
    }
    free(mine);
    free(other);
    free(received);
}

/* Numbers of blocks, rounds and errors from none to every bit, under lists that nobody chose. */
static void brute_force_design(unsigned m, unsigned t, unsigned M, unsigned repeats)
{
    static const unsigned per_mille[] = { 0, 5, 15, 30, 60, 100, 200, 500, 1000 }, rounds[] = { 0, 1, 2, 64 };
    unsigned N = M * m * t;
    uint64_t state = 77 + M;
    uint8_t *self = get(2 * N), *parity = get(2 * N), *inverse = get((size_t)N * ((N + 7) / 8));
    for (unsigned seed = 1; seed <= repeats; seed++) {
        plain_random_lists(m, t, M, seed, self, parity);
        int regular = plain_make_inverse(m, t, M, self, parity, inverse);
        ref d = ref_design(m, t, M, self, parity);
        for (unsigned L = 1; L <= 5; L++)
            for (unsigned i = 0; i < sizeof rounds / sizeof *rounds; i++)
                for (unsigned e = 0; e < sizeof per_mille / sizeof *per_mille; e++)
                    brute_force(&d, regular ? inverse : NULL, L, rounds[i], per_mille[e], &state);
    }
    free(self);
    free(parity);
    free(inverse);
}

/* All pairs of m and t: the smallest M, and for m up to 6 the greatest, where words have almost all positions. */
static void test_brute_force(void)
{
    double start = seconds();
    plain_sizes s;
    uint64_t place, state = 9;
    for (unsigned m = 4; m <= 10; m++)
        for (unsigned t = 1; t <= 3; t++) {
            unsigned greatest = 0, repeats = m > 6 ? 1 : t == 1 ? 8 : t == 2 ? 4 : 1;
            while (plain_design(m, t, greatest + 1, &s, &place) == 0)
                greatest++;
            for (unsigned M = 1; M <= greatest; M++)
                if (M <= (m > 6 ? 2 : 5) || (m <= 6 && M == greatest))
                    brute_force_design(m, t, M, M > 5 ? 1 : repeats);
        }
    kit k = make_kit(8, 3, 72, 4, 1);           /* three errors among many positions */
    ref d = ref_design(8, 3, 72, k.self, k.parity);
    for (unsigned L = 1; L <= 3; L++)
        brute_force(&d, k.inverse, L, 1, 12, &state);
    free_kit(k);
    CHECK(turned_back > 1000 && windows_differ > 100);
    group_done("decoder against brute force", start);
}

/* ---- Refusals ---- */

static void set_entry(uint8_t *list, unsigned p, unsigned value)
{
    list[2 * p] = value & 255;
    list[2 * p + 1] = value >> 8;
}

static void damaged_kits(unsigned m, unsigned t, unsigned M, unsigned trials)
{
    uint64_t state = 5 + M, place, want_place;
    kit k = make_kit(m, t, M, 1, 60);
    unsigned N = M * m * t, seen[10] = { 0 };
    uint8_t *A = get((size_t)N * N), *mine = get((size_t)N * N);
    ref d = ref_design(m, t, M, k.self, k.parity);
    ref_system(&d, A);
    plain_system(m, t, M, k.self, k.parity, mine);
    CHECK(memcmp(A, mine, (size_t)N * N) == 0);
    CHECK(plain_check_kit(m, t, M, k.self, k.parity, k.inverse, &place) == 0 && ref_check(&d, A, k.inverse, &place) == 0);

    for (unsigned i = 0; i < trials; i++) {
        uint8_t *self = get(2 * N), *parity = get(2 * N), *inverse = get(k.bytes);
        unsigned kind = plain_random(&state) % 16;      /* a bit a damage: self, parity, inverse, spare */
        memcpy(self, k.self, 2 * N);
        memcpy(parity, k.parity, 2 * N);
        memcpy(inverse, k.inverse, k.bytes);
        if (i % 2)
            kind &= 12;         /* with whole lists, so that the later rules are met often */
        for (unsigned list = 0; list < 2; list++)
            if (kind >> list & 1) {
                unsigned large[] = { N, N + 256, 65535, plain_random(&state) % N };
                set_entry(list ? parity : self, plain_random(&state) % N, large[plain_random(&state) % 4]);
            }
        if (kind & 4) {
            unsigned row = plain_random(&state) % N, column = plain_random(&state) % N;
            inverse[row * ((N + 7) / 8) + column / 8] ^= 1 << (column % 8);
        }
        if ((kind & 8) && N % 8 && i % 3 == 0)
            inverse[(plain_random(&state) % N + 1) * ((N + 7) / 8) - 1] |= 1 << (N % 8 + plain_random(&state) % (8 - N % 8));
        d.self = self;
        d.parity = parity;
        place = want_place = 0;
        int rule = plain_check_kit(m, t, M, self, parity, inverse, &place), want = ref_check(&d, A, inverse, &want_place);
        CHECK(rule == want && place == want_place);
        seen[want]++;
        free(self);
        free(parity);
        free(inverse);
    }
    CHECK(seen[7] && seen[9] && (seen[8] || N % 8 == 0));
    free(A);
    free(mine);
    free_kit(k);
}

static void test_refusals(void)
{
    double start = seconds();
    uint64_t place;
    uint8_t self[8], wrong[4];

    memcpy(self, K_self, 8);
    set_entry(self, 2, 4);
    CHECK(plain_check_kit(4, 1, 1, self, self, K_inverse, &place) == 7 && place == 2);
    set_entry(self, 2, 256);
    CHECK(plain_check_kit(4, 1, 1, self, K_parity, K_inverse, &place) == 7 && place == 2);
    set_entry(self, 2, 1);
    CHECK(plain_check_kit(4, 1, 1, self, K_parity, K_inverse, &place) == 7 && place == 2);
    CHECK(plain_check_kit(4, 1, 1, K_self, self, K_inverse, &place) == 7 && place == 6);
    memcpy(wrong, K_inverse, 4);
    wrong[2] |= 0x80;
    wrong[3] |= 0x10;
    CHECK(plain_check_kit(4, 1, 1, K_self, K_parity, wrong, &place) == 8 && place == 2);
    CHECK(plain_check_kit(4, 1, 1, K_self, self, wrong, &place) == 7 && place == 6);
    CHECK(plain_check_kit(3, 1, 1, self, self, wrong, &place) == 1 && place == 1);

    damaged_kits(4, 1, 1, 200);
    damaged_kits(4, 1, 2, 200);
    damaged_kits(5, 1, 3, 200);
    damaged_kits(5, 2, 2, 200);
    damaged_kits(6, 3, 3, 100);
    damaged_kits(7, 1, 10, 60);
    group_done("refusals of damaged kits", start);
}

/* The three calls refuse with this rule and place, count nothing and leave the frame; the word checker does not know rule 5. The window is 1, and
   beside a rule after 18 also 65, which is refused first. */
static int frame_refused(unsigned m, unsigned t, unsigned M, unsigned L, unsigned rounds, const plain_frame *lent, int rule, uint64_t at)
{
    uint64_t words = 1, place = 0, counts[PLAIN_COUNTS] = { 1, 1, 1, 1 };
    uint8_t info[2], red[8];
    memcpy(info, lent->info, sizeof info);
    memcpy(red, lent->red, sizeof red);
    int by_words = rule == 5 || (plain_words(m, t, M, L, lent, &words, &place) == rule && place == at && words == 0);
    int by_window = plain_window(m, t, M, L, rounds, 1, lent, counts, &place) == rule && place == at && !counts[0] && !counts[1] && !counts[2] && !counts[3];
    for (unsigned window = 0; window <= 65; window += 65)
        by_window &= plain_window(m, t, M, L, rounds, window, lent, counts, &place) == (rule <= 5 ? rule : 18) && place == (rule <= 5 ? at : window);
    return by_words && by_window && plain_decode(m, t, M, L, rounds, lent, counts, &place) == rule && place == at && !counts[0] && !counts[1] && !counts[2] && !counts[3]
        && memcmp(info, lent->info, sizeof info) == 0 && memcmp(red, lent->red, sizeof red) == 0;
}

/* Under K with two blocks, fault after fault, each met before those that are already there. */
static void test_frame_refusals(void)
{
    double start = seconds();
    ref d = ref_design(4, 1, 1, K_self, K_parity);
    uint8_t self[8], parity[8], info[2] = { 0 }, red[8] = { 0 }, *longest = get(4096 + 2048 * 8);
    plain_frame lent = { self, parity, info, red, 8, 8, 2, 8 };
    memcpy(self, K_self, 8);
    memcpy(parity, K_parity, 8);

    CHECK(outside(&d, 4096, longest) == 0 && decodes(&d, 4096, 64, longest, longest, 1, (uint64_t[]){ 1, 0, 0, 0 }));
    free(longest);
    red[7] = 255;
    CHECK(frame_refused(4, 1, 1, 2, 0, &lent, 10, 9));
    red[0] = 2;
    CHECK(frame_refused(4, 1, 1, 2, 0, &lent, 10, 2));
    info[1] = 3;
    CHECK(frame_refused(4, 1, 1, 2, 0, &lent, 10, 1));
    info[0] = 128;
    CHECK(frame_refused(4, 1, 1, 2, 0, &lent, 10, 0));
    set_entry(parity, 3, 3);
    CHECK(frame_refused(4, 1, 1, 2, 0, &lent, 7, 7));
    set_entry(parity, 0, 4);
    CHECK(frame_refused(4, 1, 1, 2, 0, &lent, 7, 4));
    set_entry(self, 1, 258);
    CHECK(frame_refused(4, 1, 1, 2, 0, &lent, 7, 1));
    lent.red_length = 16;
    CHECK(frame_refused(4, 1, 1, 2, 0, &lent, 6, 5));
    lent.info_length = 3;
    CHECK(frame_refused(4, 1, 1, 2, 0, &lent, 6, 4));
    lent.parity_length = 7;
    CHECK(frame_refused(4, 1, 1, 2, 0, &lent, 6, 2));
    lent.self_length = 0;
    CHECK(frame_refused(4, 1, 1, 2, 0, &lent, 6, 1));
    CHECK(frame_refused(4, 1, 1, 2, 65, &lent, 5, 65));
    CHECK(frame_refused(4, 1, 1, 4097, 65, &lent, 4, 4097) && frame_refused(4, 1, 1, 0, 65, &lent, 4, 0));
    CHECK(frame_refused(10, 2, 205, 0, 65, &lent, 3, 4100) && frame_refused(4, 1, 4, 0, 65, &lent, 2, 16));
    CHECK(frame_refused(4, 1, 501, 0, 65, &lent, 1, 3) && frame_refused(4, 4, 0, 0, 65, &lent, 1, 2) && frame_refused(3, 4, 0, 0, 65, &lent, 1, 1));
    group_done("refusals of frames", start);
}

/* ---- The designs for benchmarks ---- */

static void test_large(const plain_kit *design, unsigned L)
{
    unsigned m = design->m, t = design->t, M = design->M, N = M * m * t;
    size_t bytes = (N + 7) / 8, info_length = (size_t)L * M * M;
    double start = seconds(), made, checked, encoded;
    uint64_t place = 0, state = 3;
    char name[80];

    kit k = make_kit(m, t, M, design->seed, 1);
    made = seconds();
    CHECK(plain_check_kit(m, t, M, k.self, k.parity, k.inverse, &place) == 0);
    checked = seconds();
    uint8_t *again = get(N * bytes);
    CHECK(plain_make(m, t, M, k.self, k.parity, again, &place) == 0 && memcmp(again, k.inverse, N * bytes) == 0);
    free(again);
    ref d = ref_design(m, t, M, k.self, k.parity);
    uint8_t *frame = get(info_length + (size_t)(L + 1) / 2 * 2 * N);
    random_bits(frame, info_length, &state);
    encoded = seconds();
    plain_encode(m, t, M, L, k.self, k.parity, k.inverse, frame, frame + info_length);
    encoded = seconds() - encoded;
    CHECK(outside(&d, L, frame) == 0);
    for (unsigned i = 0; i < 2; i++)
        round_trip(m, t, M, 3 + i, k, &state);
    k.inverse[(N - 1) * bytes] ^= 1;
    CHECK(plain_check_kit(m, t, M, k.self, k.parity, k.inverse, &place) == 9 && place % N == 0);
    printf("  made %.3f s, checked %.3f s, %u blocks encoded %.3f ms\n", made - start, checked - made, L, 1000 * encoded);
    snprintf(name, sizeof name, "kit of m %u, t %u, M %u (M r = %u)", m, t, M, N);
    group_done(name, start);
    free(frame);
    free_kit(k);
}

/* From seed 0: four states, whose highest bits are 0 0 1 1; the ten draws of a frame of two blocks under K, of which four are below 13,822 and three below
   13,821; and turning twice gives the bits back. */
static void test_load(void)
{
    double start = seconds();
    uint8_t bits[] = { 7, 7, 7, 7 }, frame[] = { 0, 1, 0, 0, 0, 1, 0, 1, 1, 0 }, sent[sizeof frame];
    memcpy(sent, frame, sizeof frame);
    CHECK(plain_load_fill(0, bits, 4) == 0xAAF95334u && memcmp(bits, "\0\0\1\1", 4) == 0);
    CHECK(plain_load_errors(0, 13822, frame, 10) == 451923744u && memcmp(frame, "\1\1\0\0\1\1\0\1\0\1", 10) == 0);
    CHECK(plain_load_errors(0, 13822, frame, 10) == 451923744u && memcmp(frame, sent, 10) == 0);
    CHECK(plain_load_errors(0, 13821, frame, 10) == 451923744u && memcmp(frame, "\0\1\0\0\1\1\0\1\0\1", 10) == 0);
    group_done("test load", start);
}

/* ---- Original staircase frames ---- */

/* A ref for words of 2 M positions. */
static ref ref_original(unsigned m, unsigned t, unsigned M)
{
    ref d = { m, t, M, m * t, 2 * M, 2 * M - m * t, M * m * t, plain_generator(m, t), NULL, NULL, { 0 } };
    for (unsigned j = 0; j < d.n; j++) {
        uint8_t word[1023] = { 0 };
        word[j] = 1;
        d.unit[j] = ref_remainder(&d, word, d.n);
    }
    return d;
}

/* The index of each position of word a of a block, counted from 1: column a of the block before, row a of the block; -1 for block 0. */
static void ref_original_word(const ref *d, unsigned L, unsigned number, unsigned a, long *at)
{
    for (unsigned j = 0; j < d->M; j++) {
        at[j] = ref_block(d, L, number - 1, j, a);
        at[d->M + j] = ref_block(d, L, number, a, j);
    }
}

static void ref_original_encode(const ref *d, unsigned L, uint8_t *buffer)
{
    long at[1023];
    uint8_t information[1023], parity[30];
    for (unsigned number = 1; number <= L; number++)
        for (unsigned a = 0; a < d->M; a++) {
            ref_original_word(d, L, number, a, at);
            for (unsigned j = 0; j < d->k; j++)
                information[j] = at[j] < 0 ? 0 : buffer[at[j]];
            ref_parity(d, information, parity);
            for (unsigned e = 0; e < d->r; e++)
                buffer[at[d->k + e]] = parity[e];
        }
}

static uint64_t ref_original_outside(const ref *d, unsigned L, const uint8_t *buffer)
{
    long at[1023];
    uint64_t outside = 0;
    for (unsigned number = 1; number <= L; number++)
        for (unsigned a = 0; a < d->M; a++) {
            ref_original_word(d, L, number, a, at);
            outside += ref_word_remainder(d, buffer, at) != 0;
        }
    return outside;
}

static void ref_original_decode(const ref *d, unsigned L, unsigned rounds, uint8_t *buffer, uint64_t counts[PLAIN_COUNTS])
{
    long at[1023];
    size_t length = (size_t)L * d->M * d->M;
    uint8_t *copy = get(length);
    memcpy(copy, buffer, length);
    counts[0] = counts[1] = 0;
    for (unsigned left = rounds ? rounds : 12, turns = 1; left > 0 && turns; left--) {
        turns = counts[3] = 0;
        for (unsigned number = 1; number <= L; number++)
            for (unsigned a = 0; a < d->M; a++) {
                ref_original_word(d, L, number, a, at);
                int mended = ref_mend(d, buffer, at);
                counts[3] += mended < 0;
                turns += mended < 0 ? 0 : mended;
            }
        counts[0]++;
    }
    for (size_t i = 0; i < length; i++)
        counts[1] += buffer[i] != copy[i];
    counts[2] = ref_original_outside(d, L, buffer);
    free(copy);
}

static void originals_of(unsigned m, unsigned t, unsigned M, unsigned most_blocks, uint64_t *state)
{
    static const unsigned per_mille[] = { 0, 5, 15, 30, 60, 100, 200, 500, 1000 }, rounds[] = { 0, 1, 2, 64 };
    ref d = ref_original(m, t, M);
    for (unsigned L = 1; L <= most_blocks; L++)
        for (unsigned i = 0; i < sizeof rounds / sizeof *rounds; i++)
            for (unsigned e = 0; e < sizeof per_mille / sizeof *per_mille; e++) {
                size_t length = (size_t)L * M * M;
                uint8_t *buffer = get(length), *other = get(length);
                uint64_t counts[PLAIN_COUNTS], want[PLAIN_COUNTS], outside, place;
                random_bits(buffer, length, state);
                memcpy(other, buffer, length);
                for (size_t bit = 0; bit < length; bit++)
                    if (bit % M >= M - m * t)
                        buffer[bit] = plain_random(state);
                CHECK(plain_original_encode(m, t, M, L, buffer, length, &place) == 0);
                ref_original_encode(&d, L, other);
                CHECK(memcmp(buffer, other, length) == 0);
                CHECK(plain_original_words(m, t, M, L, buffer, length, &outside, &place) == 0 && outside == 0);
                for (size_t bit = 0; bit < length; bit++)
                    buffer[bit] ^= plain_random(state) % 1000 < per_mille[e];
                memcpy(other, buffer, length);
                CHECK(plain_original_words(m, t, M, L, buffer, length, &outside, &place) == 0 && outside == ref_original_outside(&d, L, other));
                CHECK(plain_original_decode(m, t, M, L, rounds[i], buffer, length, counts, &place) == 0);
                ref_original_decode(&d, L, rounds[i], other, want);
                CHECK(memcmp(buffer, other, length) == 0 && memcmp(counts, want, sizeof counts) == 0);
                free(buffer);
                free(other);
            }
}

/* The three calls refuse with this rule and place, count nothing and leave the buffer; only the decoder knows rule 5. */
static int original_refused(unsigned m, unsigned t, unsigned M, unsigned L, unsigned rounds, uint8_t *buffer, size_t length, int rule, uint64_t at)
{
    uint64_t words = 1, place = 0, counts[PLAIN_COUNTS] = { 1, 1, 1, 1 };
    uint8_t copy[64];
    memcpy(copy, buffer, length);
    int others = rule == 5 || (plain_original_words(m, t, M, L, buffer, length, &words, &place) == rule && place == at && words == 0
                               && plain_original_encode(m, t, M, L, buffer, length, &place) == rule && place == at);
    return others && plain_original_decode(m, t, M, L, rounds, buffer, length, counts, &place) == rule && place == at && !counts[0] && !counts[1] && !counts[2]
        && !counts[3] && memcmp(copy, buffer, length) == 0;
}

static void test_originals(void)
{
    double start = seconds();
    uint64_t state = 21, place, outside, counts[PLAIN_COUNTS];
    static const unsigned design[][4] = { { 4, 1, 5, 5 }, { 4, 1, 6, 5 }, { 4, 1, 7, 5 }, { 5, 1, 15, 3 }, { 5, 2, 11, 5 }, { 5, 2, 15, 3 }, { 6, 1, 7, 4 }, { 6, 2, 31, 2 },
        { 6, 3, 19, 3 }, { 7, 3, 22, 2 }, { 10, 1, 11, 3 } };
    for (unsigned i = 0; i < sizeof design / sizeof *design; i++)
        originals_of(design[i][0], design[i][1], design[i][2], design[i][3], &state);

    /* a one at row 0, column 0 of block 1 carries x^4, and position 0 of a word x^9 */
    static const char one[] = "10011" "00000" "00000" "00000" "00000" "01010" "00000" "00000" "01010" "01010";
    uint8_t buffer[51] = { 1 };
    CHECK(plain_original_encode(4, 1, 5, 2, buffer, 50, &place) == 0);
    for (unsigned i = 0; i < 50; i++)
        CHECK(buffer[i] == one[i] - '0');

    buffer[49] = 2;                     /* old parity */
    CHECK(plain_original_words(4, 1, 5, 2, buffer, 50, &outside, &place) == 10 && place == 49);
    CHECK(plain_original_decode(4, 1, 5, 2, 0, buffer, 50, counts, &place) == 10 && place == 49);
    CHECK(plain_original_encode(4, 1, 5, 2, buffer, 50, &place) == 0 && buffer[49] == 0);
    buffer[45] = 255;
    CHECK(original_refused(4, 1, 5, 2, 0, buffer, 50, 10, 45));
    CHECK(original_refused(4, 1, 5, 2, 0, buffer, 49, 6, 4) && original_refused(4, 1, 5, 2, 0, buffer, 51, 6, 4));
    CHECK(original_refused(4, 1, 5, 2, 65, buffer, 49, 5, 65));
    CHECK(original_refused(4, 1, 5, 0, 65, buffer, 49, 4, 0) && original_refused(4, 1, 5, 4097, 65, buffer, 49, 4, 4097));
    CHECK(original_refused(4, 1, 4, 0, 65, buffer, 49, 19, 4) && original_refused(10, 3, 29, 0, 65, buffer, 49, 19, 30));
    CHECK(original_refused(4, 1, 8, 0, 65, buffer, 49, 2, 16) && original_refused(4, 2, 8, 0, 65, buffer, 49, 2, 16));
    CHECK(original_refused(4, 1, 501, 0, 65, buffer, 49, 1, 3) && original_refused(4, 4, 501, 0, 65, buffer, 49, 1, 2) && original_refused(3, 4, 0, 0, 65, buffer, 49, 1, 1));

    uint8_t *longest = get(4096 * 25);  /* as many blocks as there may be */
    CHECK(plain_original_encode(4, 1, 5, 4096, longest, 4096 * 25, &place) == 0);
    CHECK(plain_original_decode(4, 1, 5, 4096, 64, longest, 4096 * 25, counts, &place) == 0 && counts[0] == 1 && counts[2] == 0);
    free(longest);

    size_t length = 500 * 500;          /* rule 3 does not apply */
    uint8_t *largest = get(length), *other = get(length);
    random_bits(largest, length, &state);
    ref d = ref_original(10, 3, 500);
    memcpy(other, largest, length);
    CHECK(plain_original_encode(10, 3, 500, 1, largest, length, &place) == 0);
    ref_original_encode(&d, 1, other);
    CHECK(memcmp(largest, other, length) == 0);
    for (unsigned a = 0; a < 500; a++)  /* three wrong bits in each word */
        for (unsigned i = 0; i < 3; i++)
            largest[500 * a + (7 * a + 100 * i) % 500] ^= 1;
    CHECK(plain_original_decode(10, 3, 500, 1, 0, largest, length, counts, &place) == 0 && memcmp(largest, other, length) == 0);
    CHECK(counts[0] == 2 && counts[1] == 1500 && counts[2] == 0 && counts[3] == 0);
    free(largest);
    free(other);
    group_done("original frames", start);
}

int main(void)
{
    test_rows();
    test_originals();
    test_load();
    test_second_kit();
    test_generators();
    test_making();
    test_round_trips();
    test_brute_force();
    test_refusals();
    test_frame_refusals();
    for (unsigned i = 0; i < PLAIN_KITS; i++)
        test_large(&plain_kits[i], 32);
    printf("%u checks, %u failed\n", checks, failures);
    return failures != 0;
}
