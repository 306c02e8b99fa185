/* The table of a waterfall; table.h says what is in it. */

#include "table.h"

#include "common.h"

#include <inttypes.h>
#include <math.h>
#include <stdlib.h>
#include <string.h>

static const char *const key_names[KEYS] = {"decoder", "m", "t", "M", "blocks", "rounds", "lists", "kit", "ending", "draw"};

static const char *const count_names[COUNTS] = {
    "frames", "bad_frames", "last_block_alone", "counted_blocks", "bad_blocks",  "bad_blocks_squared",
    "bits",   "wrong_bits", "wrong_bits_squared", "line_bits",    "line_errors", "rounds_made",
};

static const char derived_names[] = "frame_error_rate,frame_low,frame_high,block_error_rate,bit_error_rate,line_error_rate,rounds_per_frame";

enum { FIELDS = KEYS + 2 + COUNTS + 7 };

/* ---- Rates and their limits ---- */

static const double Z = 1.959963985;    /* 95 % */

double ratio(uint64_t top, uint64_t bottom)
{
    return bottom > 0 ? (double)top / (double)bottom : 0;
}

static double wilson(const uint64_t *count, double side)
{
    const double n = (double)count[COUNT_FRAMES], p = ratio(count[COUNT_BAD_FRAMES], count[COUNT_FRAMES]);
    if (n == 0)
        return side < 0 ? 0 : 1;
    const double limit = (p + Z * Z / (2 * n) + side * Z * sqrt(p * (1 - p) / n + Z * Z / (4 * n * n))) / (1 + Z * Z / n);
    return limit < 0 || (side < 0 && p == 0) ? 0 : limit > 1 || (side > 0 && p == 1) ? 1 : limit;
}

double frames_low(const uint64_t *count)
{
    return wilson(count, -1);
}

double frames_high(const uint64_t *count)
{
    return wilson(count, 1);
}

static double events(uint64_t sum, uint64_t squares)
{
    return squares > 0 ? (double)sum * (double)sum / (double)squares : 0;
}

double events_low(uint64_t sum, uint64_t squares)
{
    const double n = events(sum, squares), root = 1 - 1 / (9 * n) - Z / (3 * sqrt(n));
    return n > 0 && root > 0 ? root * root * root : 0;
}

double events_high(uint64_t sum, uint64_t squares)
{
    const double n = events(sum, squares), root = 1 - 1 / (9 * (n + 1)) + Z / (3 * sqrt(n + 1));
    return n > 0 ? (n + 1) / n * root * root * root : 0;
}

/* ---- Shares ---- */

static int order_of_shares(const void *left, const void *right)
{
    const share *a = left, *b = right;
    if (a->seed != b->seed)
        return a->seed < b->seed ? -1 : 1;
    return a->part < b->part ? -1 : a->part > b->part;
}

static void add_shares(point *p, const share *shares, size_t share_count, const char *from)
{
    for (size_t i = 0; i < share_count; i++)
        for (size_t j = 0; j < p->share_count; j++) {
            const share *a = &shares[i], *b = &p->shares[j];
            if (a->seed == b->seed && (a->parts != b->parts || a->part == b->part))
                fail(STATUS_WRONG, "%s: share %" PRIu64 "/%" PRIu64 " of seed %" PRIu64 " and share %" PRIu64 "/%" PRIu64
                                   " before it have frames in common at the rate %.9g",
                     from, a->part, a->parts, a->seed, b->part, b->parts, (double)p->rate / 1e9);
        }
    share *all = realloc(p->shares, (p->share_count + share_count) * sizeof *all);
    if (all == NULL)
        fail(STATUS_WRONG, "not enough memory");
    memcpy(all + p->share_count, shares, share_count * sizeof *all);
    p->shares = all;
    p->share_count += share_count;
    qsort(p->shares, p->share_count, sizeof *p->shares, order_of_shares);
}

/* Shares 1 to n of n of a seed become share 1 of 1. */
static void join_shares(point *p)
{
    size_t kept = 0;
    for (size_t i = 0; i < p->share_count;) {
        const share first = p->shares[i];
        size_t same = 0;
        while (i + same < p->share_count && p->shares[i + same].seed == first.seed)
            same++;
        if (same == first.parts) {
            p->shares[kept++] = (share){first.seed, 1, 1};
        } else {
            memmove(p->shares + kept, p->shares + i, same * sizeof *p->shares);
            kept += same;
        }
        i += same;
    }
    p->share_count = kept;
}

static void write_shares(FILE *file, const point *p)
{
    for (size_t i = 0; i < p->share_count; i++) {
        const share *s = &p->shares[i];
        fprintf(file, "%s%" PRIu64, i > 0 ? "+" : "", s->seed);
        if (s->parts > 1)
            fprintf(file, ":%" PRIu64 "/%" PRIu64, s->part, s->parts);
    }
}

/* ---- The table ---- */

static void *grown(void *entries, size_t count, size_t bytes)
{
    void *more = realloc(entries, (count + 1) * bytes);
    if (more == NULL)
        fail(STATUS_WRONG, "not enough memory");
    return more;
}

size_t table_curve(table *t, const curve *c)
{
    for (size_t i = 0; i < t->curve_count; i++) {
        int same = 1;
        for (int key = 0; key < KEYS; key++)
            same = same && strcmp(t->curves[i].key[key], c->key[key]) == 0;
        if (same)
            return i;
    }
    t->curves = grown(t->curves, t->curve_count, sizeof *t->curves);
    t->curves[t->curve_count] = *c;
    return t->curve_count++;
}

void table_add(table *t, size_t curve_index, uint64_t rate, const share *shares, size_t share_count, const uint64_t *count, const char *from)
{
    size_t i = 0;
    while (i < t->point_count && (t->points[i].curve != curve_index || t->points[i].rate != rate))
        i++;
    if (i == t->point_count) {
        t->points = grown(t->points, t->point_count++, sizeof *t->points);
        t->points[i] = (point){.curve = curve_index, .rate = rate, .fewest = UINT64_MAX};
    }
    point *p = &t->points[i];
    add_shares(p, shares, share_count, from);
    for (int k = 0; k < COUNTS; k++)
        p->count[k] += count[k];
    if (share_count == 1) {
        const uint64_t frames = count[COUNT_FRAMES];
        p->fewest = frames < p->fewest ? frames : p->fewest;
        p->most = frames > p->most ? frames : p->most;
    }
}

void table_finish(table *t, int quiet)
{
    size_t unfinished = 0, uneven = 0;
    for (size_t i = 0; i < t->point_count; i++) {
        point *p = &t->points[i];
        const int shared = p->share_count > 1 && p->shares[0].seed == p->shares[1].seed;
        join_shares(p);
        for (size_t j = 0; j < p->share_count; j++)
            if (p->shares[j].parts > 1) {
                unfinished++;
                break;
            }
        uneven += shared && p->most > p->fewest + 1;
    }
    if (!quiet && unfinished > 0)
        fprintf(stderr, "%s: shares are missing at %zu of %zu points; the column 'shares' has those that are there\n", program, unfinished, t->point_count);
    if (!quiet && uneven > 0)
        fprintf(stderr, "%s: at %zu of %zu points some share was stopped before its end\n", program, uneven, t->point_count);
}

void table_free(table *t)
{
    for (size_t i = 0; i < t->point_count; i++)
        free(t->points[i].shares);
    free(t->points);
    free(t->curves);
}

/* ---- CSV ---- */

void table_head(FILE *file)
{
    for (int k = 0; k < KEYS; k++)
        fprintf(file, "%s,", key_names[k]);
    fputs("shares,rate,", file);
    for (int k = 0; k < COUNTS; k++)
        fprintf(file, "%s,", count_names[k]);
    fprintf(file, "%s\n", derived_names);
}

void table_line(FILE *file, const table *t, const point *p)
{
    const uint64_t *c = p->count;
    for (int k = 0; k < KEYS; k++)
        fprintf(file, "%s,", t->curves[p->curve].key[k]);
    write_shares(file, p);
    fprintf(file, ",%.9g,", (double)p->rate / 1e9);
    for (int k = 0; k < COUNTS; k++)
        fprintf(file, "%" PRIu64 ",", c[k]);
    fprintf(file, "%.3e,%.3e,%.3e,%.3e,%.3e,%.3e,%.3f\n", ratio(c[COUNT_BAD_FRAMES], c[COUNT_FRAMES]), frames_low(c), frames_high(c),
            ratio(c[COUNT_BAD_BLOCKS], c[COUNT_BLOCKS]), ratio(c[COUNT_WRONG_BITS], c[COUNT_BITS]), ratio(c[COUNT_LINE_ERRORS], c[COUNT_LINE_BITS]),
            ratio(c[COUNT_ROUNDS], c[COUNT_FRAMES]));
}

/* ---- Reading ---- */

/* Where the reader is, for messages. */
typedef struct {
    const char *path;
    uint64_t line;
} place_in;

static void wrong(const place_in *at, const char *what)
{
    fail(STATUS_WRONG, "%s: line %" PRIu64 ": %s", at->path, at->line, what);
}

/* Reads a number of digits, and moves behind it. */
static uint64_t digits(char **text, const place_in *at)
{
    char *c = *text;
    uint64_t value = 0;
    for (; *c >= '0' && *c <= '9'; c++) {
        const uint64_t digit = (uint64_t)(*c - '0');
        if (value > (UINT64_MAX - digit) / 10)
            wrong(at, "a number is too large");
        value = 10 * value + digit;
    }
    if (c == *text)
        wrong(at, "a whole number is missing");
    *text = c;
    return value;
}

static size_t read_shares(char *text, share **shares, const place_in *at)
{
    size_t count = 0;
    *shares = NULL;
    for (;;) {
        share s = {digits(&text, at), 1, 1};
        if (*text == ':') {
            text++;
            s.part = digits(&text, at);
            if (*text++ != '/')
                wrong(at, "a share is seed:part/parts");
            s.parts = digits(&text, at);
        }
        if (s.part < 1 || s.part > s.parts)
            wrong(at, "a share is seed:part/parts");
        *shares = grown(*shares, count, sizeof **shares);
        (*shares)[count++] = s;
        if (*text == 0)
            return count;
        if (*text++ != '+')
            wrong(at, "shares are joined by '+'");
    }
}

static void read_line(table *t, char *line, const place_in *at)
{
    char *fields[FIELDS], *text = line;
    int count = 0;
    for (; text != NULL && count < FIELDS; count++) {
        fields[count] = text;
        text = strchr(text, ',');
        if (text != NULL)
            *text++ = 0;
    }
    if (text != NULL || count != FIELDS)
        wrong(at, "not a line of this program's CSV: wrong number of fields");
    curve c = {{{0}}};
    for (int k = 0; k < KEYS; k++) {
        if (strlen(fields[k]) >= KEY_ROOM)
            wrong(at, "a field is too long");
        strcpy(c.key[k], fields[k]);
    }
    share *shares;
    const size_t share_count = read_shares(fields[KEYS], &shares, at);
    char *end;
    const double rate = strtod(fields[KEYS + 1], &end);
    if (*end != 0 || !(rate > 0 && rate < 1))
        wrong(at, "the rate is not a number between 0 and 1");
    uint64_t counts[COUNTS];
    for (int k = 0; k < COUNTS; k++) {
        char *field = fields[KEYS + 2 + k];
        counts[k] = digits(&field, at);
        if (*field != 0)
            wrong(at, "a count is not a whole number");
    }
    table_add(t, table_curve(t, &c), (uint64_t)(rate * 1e9 + 0.5), shares, share_count, counts, at->path);
    free(shares);
}

static int is_head(const char *line)
{
    const size_t n = strlen(key_names[0]);
    return strncmp(line, key_names[0], n) == 0 && line[n] == ',';
}

/* The head as this program writes it. */
static void check_head(char *line, const place_in *at)
{
    const char *names[FIELDS - 7];
    for (int k = 0; k < KEYS; k++)
        names[k] = key_names[k];
    names[KEYS] = "shares";
    names[KEYS + 1] = "rate";
    for (int k = 0; k < COUNTS; k++)
        names[KEYS + 2 + k] = count_names[k];
    for (int k = 0; k < FIELDS - 7; k++) {
        const size_t n = strlen(names[k]);
        if (strncmp(line, names[k], n) != 0 || line[n] != ',')
            wrong(at, "the head is not that of this program's CSV");
        line += n + 1;
    }
    if (strcmp(line, derived_names) != 0)
        wrong(at, "the head is not that of this program's CSV");
}

void table_read(table *t, const char *path)
{
    size_t length, begin = 0;
    char *text = (char *)read_file(path, &length);
    place_in at = {path, 1};
    int headed = 0;
    for (; begin < length; at.line++) {
        char *line = text + begin, *end = memchr(line, '\n', length - begin);
        if (end == NULL)
            wrong(&at, "the last line is cut off: it has no line feed");
        *end = 0;
        begin += (size_t)(end - line) + 1;
        if (strlen(line) != (size_t)(end - line))
            wrong(&at, "a byte of the line is 0");
        if (is_head(line)) {
            check_head(line, &at);
            headed = 1;
        } else if (!headed) {
            wrong(&at, "no head: not this program's CSV");
        } else {
            read_line(t, line, &at);
        }
    }
    if (!headed)
        wrong(&at, "empty: not this program's CSV");
    free(text);
}
