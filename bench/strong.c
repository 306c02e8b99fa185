/* See strong.h. The field, the locator of errors, the sums of words and the rules are those of plain.c and plain_original.c, which are included whole: a
   program is linked with strong.c or with one of these, not with two. */

#include "plain_original.c"
#include "strong.h"

/* ---- The kit check ---- */

/* What the rows of A are made of. */
typedef struct {
    code c;
    unsigned ones[MAX_R];               /* of list e: how many */
    uint8_t one[MAX_R][MAX_R];          /* the columns j of X or Y whose power of x has bit e, the highest bit first */
    uint16_t self[MAX_SIZE];            /* place p of X: the entry of y that stands there */
    uint16_t brought[MAX_SIZE];         /* entry of A y + c: the place of Q that the parity list brings there */
} sparse;

static void make_sparse(sparse *s, unsigned m, unsigned t, unsigned M, const uint8_t *self, const uint8_t *parity)
{
    make_code(&s->c, m, t, M);
    for (unsigned e = 0; e < s->c.r; e++) {
        s->ones[e] = 0;
        for (unsigned j = 0; j < s->c.r; j++)
            if (s->c.rem[2 * M + j] >> (s->c.r - 1 - e) & 1)
                s->one[e][s->ones[e]++] = j;
    }
    for (unsigned p = 0; p < s->c.size; p++) {
        s->self[p] = entry_of_byte(&s->c, entry(self, p));
        s->brought[entry_of_byte(&s->c, entry(parity, p))] = p;
    }
}

/* The rows of W at the ones of row i of A: through a column word and through a row word. A row that stands twice adds nothing. Returns how many. */
static unsigned rows_at_ones(const sparse *s, const uint64_t *W, unsigned i, const uint64_t *row[2 * MAX_R])
{
    unsigned M = s->c.M, r = s->c.r, count = 0, e = i % r, p = s->brought[i];
    size_t words = words_a_row(s->c.size);
    for (unsigned k = 0; k < s->ones[e]; k++)
        row[count++] = W + (i - e + s->one[e][k]) * words;
    e = p / M;
    for (unsigned k = 0; k < s->ones[e]; k++)
        row[count++] = W + s->self[s->one[e][k] * M + p % M] * words;
    return count;
}

/* The sum of the rows, four at a time, with the identity's one in column i. */
static void sum_rows(uint64_t *restrict sum, const uint64_t *const row[], unsigned count, size_t words, unsigned i)
{
    unsigned k = 0;
    memset(sum, 0, words * sizeof *sum);
    turn_bit(sum, i);
    for (; k + 4 <= count; k += 4) {
        const uint64_t *a = row[k], *b = row[k + 1], *c = row[k + 2], *d = row[k + 3];
        for (size_t w = 0; w < words; w++)
            sum[w] ^= a[w] ^ b[w] ^ c[w] ^ d[w];
    }
    for (; k < count; k++)
        add_row(sum, row[k], 0, words);
}

/* Rule 8: 0, or 8 and the place. */
static int judge_spare(unsigned size, const uint8_t *inverse, uint64_t *place)
{
    size_t bytes = (size + 7) / 8;
    for (unsigned i = 0; size % 8 && i < size; i++)
        if (inverse[i * bytes + bytes - 1] >> (size % 8)) {
            *place = i;
            return 8;
        }
    return 0;
}

int strong_check_kit(unsigned m, unsigned t, unsigned M, const uint8_t *self, const uint8_t *parity, const uint8_t *inverse, uint64_t *place)
{
    plain_sizes sizes;
    sparse s;
    int rule = plain_design(m, t, M, &sizes, place);
    if (!rule)
        rule = judge_lists(sizes.size, self, parity, place);
    if (!rule)
        rule = judge_spare(sizes.size, inverse, place);
    if (rule)
        return rule;

    make_sparse(&s, m, t, M, self, parity);
    size_t words = words_a_row(s.c.size);
    uint64_t *W = pack_rows(inverse, s.c.size), sum[(MAX_SIZE + 63) / 64];
    const uint64_t *row[2 * MAX_R];
    for (unsigned i = 0; i < s.c.size && !rule; i++) {
        uint64_t any = 0;
        sum_rows(sum, row, rows_at_ones(&s, W, i, row), words, i);
        for (size_t w = 0; w < words; w++)
            any |= sum[w];
        if (any) {
            size_t w = 0;
            while (!sum[w])
                w++;
            *place = (uint64_t)i * s.c.size + 64 * w + __builtin_ctzll(sum[w]);
            rule = 9;
        }
    }
    free(W);
    return rule;
}

/* ---- The decoder ---- */

static const uint32_t stuck = 1u << 31; /* beside a remainder, which has at most 30 bits */

typedef struct {
    words f;
    locator l;
    uint16_t self[MAX_SIZE], parity[MAX_SIZE];          /* byte q of Y or P: the place a * r + b of X or Q at which it stands */
    uint32_t *kept;                     /* of group i, counted from 1: its row words from 2 M (i - 1) on, its column words behind them */
} keeper;

static void make_keeper(keeper *k, unsigned m, unsigned t, unsigned M, unsigned L, const plain_frame *lent)
{
    words *f = &k->f;
    make_words(f, m, t, M, L, lent);
    make_locator(&f->c, &k->l);
    for (unsigned p = 0; p < f->c.size; p++) {
        k->self[f->self[p]] = p;
        k->parity[f->parity[p]] = p;
    }
    k->kept = zeroed(2 * (size_t)M * groups(L), sizeof *k->kept);
    uint32_t *to = k->kept;
    for (unsigned i = 1; i <= groups(L); i++, to += 2 * M) {
        group g = get_group(&f->c, L, f->info, f->red, i);
        row_remainders(f, &g);
        memcpy(to, f->rem, M * sizeof *to);
        column_remainders(f, &g);
        memcpy(to + M, f->rem, M * sizeof *to);
    }
}

/* Position j of a word was turned: its bit also stands at this position of this word. */
static void add_position(keeper *k, uint32_t *word, unsigned position)
{
    *word = (*word & ~stuck) ^ k->f.c.rem[position];
}

/* Turns position j of row word a of group g; `rows` are the kept remainders of its row words. */
static void turn_in_row(keeper *k, const group *g, uint32_t *rows, unsigned a, unsigned j)
{
    const code *c = &k->f.c;
    unsigned M = c->M;
    uint32_t *columns = rows + M;
    uint8_t *bit = (uint8_t *)row_bit(&k->f, g, a, j);
    *bit ^= 1;
    if (j < M)
        add_position(k, columns - 2 * M + j, M + a);
    else if (j < 2 * M)
        add_position(k, columns + (j - M), a);
    else {
        unsigned q = bit - (j < c->k ? g->Y : g->P);
        add_position(k, columns + q % M, (j < c->k ? 2 * M : c->k) + q / M);
    }
}

/* The same in column word a; the last block of an even number of blocks stands in no row word. */
static void turn_in_column(keeper *k, const group *g, uint32_t *rows, unsigned a, unsigned j, int last)
{
    const code *c = &k->f.c;
    unsigned M = c->M;
    *(uint8_t *)column_bit(&k->f, g, a, j) ^= 1;
    if (j < M)
        add_position(k, rows + j, M + a);
    else if (j < 2 * M) {
        if (!last)
            add_position(k, rows + 2 * M + (j - M), a);
    } else if (j < c->k) {
        unsigned p = k->self[(j - 2 * M) * M + a];
        add_position(k, rows + p / c->r, 2 * M + p % c->r);
    } else {
        unsigned p = k->parity[(j - c->k) * M + a];
        add_position(k, rows + p / c->r, c->k + p % c->r);
    }
}

/* Mends the row words or the column words of group i and counts the stuck ones; returns the number of bits turned. */
static unsigned mend_kept(keeper *k, unsigned i, int column, uint64_t *stuck_words)
{
    const code *c = &k->f.c;
    unsigned M = c->M, turned = 0, position[MAX_T], last = i == groups(k->f.L);
    uint32_t *rows = k->kept + 2 * (size_t)M * (i - 1), *word = column ? rows + M : rows;
    group g = get_group(c, k->f.L, k->f.info, k->f.red, i);
    unsigned unsent = column ? g.even ? c->n : M : g.before ? c->n : 0;         /* the first of M positions that are not sent, or n */
    for (unsigned a = 0; a < M; a++) {
        if (word[a] == 0)
            continue;
        if (word[a] >= stuck) {
            ++*stuck_words;
            continue;
        }
        unsigned count = locate(c, &k->l, word[a], position), kept = count;
        for (unsigned e = 0; e < count; e++)
            if (position[e] - unsent < M)
                kept = 0;
        if (!kept) {
            word[a] |= stuck;
            ++*stuck_words;
            continue;
        }
        keep_copy(&k->f);
        word[a] = 0;
        turned += count;
        for (unsigned e = 0; e < count; e++)
            if (column)
                turn_in_column(k, &g, rows, a, position[e], last);
            else
                turn_in_row(k, &g, rows, a, position[e]);
    }
    return turned;
}

/* Rounds over groups first to last: adds those made, and sets the stuck words of the last one. */
static void rounds_kept(keeper *k, unsigned first, unsigned last, unsigned rounds, uint64_t counts[PLAIN_COUNTS])
{
    uint64_t turned;
    unsigned made = 0;
    do {
        turned = counts[3] = 0;
        for (unsigned i = first; i <= last; i++) {
            turned += mend_kept(k, i, 0, &counts[3]);
            turned += mend_kept(k, i, 1, &counts[3]);
        }
        made++;
    } while (turned && made < (rounds ? rounds : DEFAULT_ROUNDS));
    counts[0] += made;
}

/* The counts of the whole frame at the end. */
static void count_kept(keeper *k, uint64_t counts[PLAIN_COUNTS])
{
    counts[1] = changed_bits(&k->f);
    for (size_t w = 0; w < 2 * (size_t)k->f.c.M * groups(k->f.L); w++)
        counts[2] += k->kept[w] != 0;
    free(k->kept);
}

int strong_decode(unsigned m, unsigned t, unsigned M, unsigned L, unsigned rounds, const plain_frame *lent, uint64_t counts[PLAIN_COUNTS],
                  uint64_t *place)
{
    keeper k;
    memset(counts, 0, PLAIN_COUNTS * sizeof *counts);
    int rule = judge_frame(m, t, M, L, rounds, 1, lent, place);
    if (rule)
        return rule;
    make_keeper(&k, m, t, M, L, lent);
    rounds_kept(&k, 1, groups(L), rounds, counts);
    count_kept(&k, counts);
    return 0;
}

int strong_window(unsigned m, unsigned t, unsigned M, unsigned L, unsigned rounds, unsigned window, const plain_frame *lent,
                  uint64_t counts[PLAIN_COUNTS], uint64_t *place)
{
    keeper k;
    memset(counts, 0, PLAIN_COUNTS * sizeof *counts);
    int rule = judge_frame(m, t, M, L, rounds, window, lent, place);
    if (rule)
        return rule;
    make_keeper(&k, m, t, M, L, lent);
    for (unsigned position = 1; position <= last_position(L, window); position++)
        rounds_kept(&k, position, last_held(L, window, position), rounds, counts);
    count_kept(&k, counts);
    return 0;
}

/* ---- Original staircase frames ---- */

typedef struct {
    original o;
    locator l;
    uint32_t *kept;                     /* word a of the block that b blocks precede: b M + a */
} stair_keeper;

static void make_stair_keeper(stair_keeper *k, unsigned m, unsigned t, unsigned M, unsigned L, uint8_t *buffer)
{
    make_original(&k->o, m, t, M, L, buffer);
    make_locator(&k->o.c, &k->l);
    k->kept = zeroed((size_t)L * M, sizeof *k->kept);
    for (unsigned b = 0; b < L; b++) {
        original_remainders(&k->o, b);
        memcpy(k->kept + (size_t)b * M, k->o.rem, M * sizeof *k->kept);
    }
}

/* Turns position j of word a of the block that b blocks precede; `row` are the kept remainders of its words. A bit of the last block stands in one word. */
static void turn_in_stair(stair_keeper *k, uint32_t *row, unsigned b, unsigned a, unsigned j)
{
    unsigned M = k->o.c.M;
    *original_bit(&k->o, b, a, j) ^= 1;
    if (j < M) {
        uint32_t *other = row - M + j;
        *other = (*other & ~stuck) ^ k->o.c.rem[M + a];
    } else if (b + 1 < k->o.L) {
        uint32_t *other = row + M + (j - M);
        *other = (*other & ~stuck) ^ k->o.c.rem[a];
    }
}

/* Mends the words of a block and counts the stuck ones; returns the number of bits turned. */
static unsigned mend_stair(stair_keeper *k, unsigned b, uint64_t *stuck_words)
{
    unsigned M = k->o.c.M, turned = 0, position[MAX_T];
    uint32_t *row = k->kept + (size_t)b * M;
    for (unsigned a = 0; a < M; a++) {
        if (row[a] == 0)
            continue;
        if (row[a] >= stuck) {
            ++*stuck_words;
            continue;
        }
        unsigned count = locate(&k->o.c, &k->l, row[a], position), sent = count;
        for (unsigned e = 0; e < count; e++)
            if (b == 0 && position[e] < M)
                sent = 0;
        if (!sent) {
            row[a] |= stuck;
            ++*stuck_words;
            continue;
        }
        keep_original(&k->o);
        row[a] = 0;
        turned += count;
        for (unsigned e = 0; e < count; e++)
            turn_in_stair(k, row, b, a, position[e]);
    }
    return turned;
}

int strong_original_decode(unsigned m, unsigned t, unsigned M, unsigned L, unsigned rounds, uint8_t *buffer, size_t length, uint64_t counts[PLAIN_COUNTS],
                           uint64_t *place)
{
    stair_keeper k;
    uint64_t turned;
    memset(counts, 0, PLAIN_COUNTS * sizeof *counts);
    int rule = judge_original(m, t, M, L, rounds, length, place);
    if (!rule)
        rule = judge_bits(buffer, length, place);
    if (rule)
        return rule;
    make_stair_keeper(&k, m, t, M, L, buffer);
    do {
        turned = counts[3] = 0;
        for (unsigned b = 0; b < L; b++)
            turned += mend_stair(&k, b, &counts[3]);
        counts[0]++;
    } while (turned && counts[0] < (rounds ? rounds : ORIGINAL_DEFAULT_ROUNDS));
    counts[1] = original_changed(&k.o);
    for (size_t w = 0; w < (size_t)L * M; w++)
        counts[2] += k.kept[w] != 0;
    free(k.kept);
    return 0;
}
