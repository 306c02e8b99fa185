/* What both tools share; common.h has the list. All that is proved is behind the calls of bauchleton.h; this file is tested. */

#define _POSIX_C_SOURCE 200809L
#include "common.h"

#include "lists.h"

#include <errno.h>
#include <inttypes.h>
#include <stdarg.h>
#include <stdlib.h>
#include <string.h>
#include <unistd.h>

/* ---- Messages ---- */

void fail(int status, const char *words, ...)
{
    va_list rest;
    fflush(stdout);
    fprintf(stderr, "%s: ", program);
    va_start(rest, words);
    vfprintf(stderr, words, rest);
    va_end(rest);
    fputc('\n', stderr);
    exit(status);
}

const char *rule_words(uint64_t rule)
{
    static const char *const words[] = {
        "accepted",
        "size: m must be 4 to 10, t 1 to 3, M 1 to 500; the place is 1, 2 or 3, the first that is not",
        "long: a word has more than 2^m - 1 bits; the place is its length",
        "large: M r is above 4096; the place is M r",
        "count: 1 to 4096 blocks are possible; the place is their number",
        "rounds: at most 64 are possible; the place is their number",
        "length: a slice has a wrong length",
        "list: an entry is too large or stands earlier in its list; the place is its position, for the parity list plus M r",
        "spare: a spare bit of the inverse is 1; the place is the row",
        "inverse: the matrix is not the inverse of the lists' system; the place is row times M r plus column of the first wrong entry of A W",
        "bit: a byte is above 1; the place is its position",
        "kit text: not a kit text; the place is the byte from which on it is none",
        "block text: not a block text; the place is the byte from which on it is none",
        "input: an input of a program is above 32768 bytes",
        "singular: the lists have no inverse; the place is the first column of A that is a sum of earlier ones",
        "narrow: mixed lists want 2 r of at most M; the place is M",
        "full: a total of the tally is above 2^62",
        "batch: 1 to 256 frames are possible; the place is their number",
        "window: 1 to 64 groups are possible; the place is their number",
        "thin: original frames want r below M; the place is r",
    };
    return rule < sizeof words / sizeof words[0] ? words[rule] : "a rule that this program does not know";
}

void refused(const char *what, uint64_t rule, uint64_t place)
{
    fail(STATUS_REFUSED, "%s: refused by rule %" PRIu64 " at %" PRIu64 " (%s)", what, rule, place, rule_words(rule));
}

/* ---- Memory and files ---- */

void *take(size_t count, size_t bytes)
{
    void *p = calloc(count > 0 ? count : 1, bytes > 0 ? bytes : 1);
    if (p == NULL)
        fail(STATUS_WRONG, "not enough memory");
    return p;
}

uint8_t *read_file(const char *path, size_t *length)
{
    FILE *file = strcmp(path, "-") == 0 ? stdin : fopen(path, "rb");
    size_t room = 1 << 16, used = 0, got;
    if (file == NULL)
        fail(STATUS_WRONG, "%s: %s", path, strerror(errno));
    uint8_t *bytes = take(room, 1);
    while ((got = fread(bytes + used, 1, room - used, file)) > 0) {
        used += got;
        if (used == room) {
            room *= 2;
            uint8_t *more = room > used ? realloc(bytes, room) : NULL;
            if (more == NULL)
                fail(STATUS_WRONG, "%s: not enough memory", path);
            bytes = more;
        }
    }
    if (ferror(file))
        fail(STATUS_WRONG, "%s: %s", path, strerror(errno));
    if (file != stdin)
        fclose(file);
    *length = used;
    return bytes;
}

FILE *open_output(const char *path)
{
    FILE *file = strcmp(path, "-") == 0 ? stdout : fopen(path, "w");
    if (file == NULL)
        fail(STATUS_WRONG, "%s: %s", path, strerror(errno));
    return file;
}

void close_output(FILE *file, const char *path)
{
    const char *name = file == stdout ? "standard output" : path;
    const int failed = fflush(file) != 0 || ferror(file);
    if (failed)
        fail(STATUS_WRONG, "%s: not all was written: %s", name, strerror(errno));
    if (file != stdout && fclose(file) != 0)
        fail(STATUS_WRONG, "%s: not all was written: %s", name, strerror(errno));
}

/* ---- Options ---- */

uint64_t number(const char *option, const char *text, uint64_t least, uint64_t most)
{
    uint64_t value = 0;
    const char *c = text;
    for (; *c >= '0' && *c <= '9'; c++) {
        const uint64_t digit = (uint64_t)(*c - '0');
        value = value > (UINT64_MAX - digit) / 10 ? UINT64_MAX : 10 * value + digit;
    }
    if (c == text || *c != 0 || value < least || value > most)
        fail(STATUS_WRONG, "%s: '%s' is not a whole number from %" PRIu64 " to %" PRIu64, option, text, least, most);
    return value;
}

double decimal(const char *option, const char *text)
{
    char *end;
    const double value = strtod(text, &end);
    if (end == text || *end != 0 || strspn(text, "0123456789.eE+-") != strlen(text))
        fail(STATUS_WRONG, "%s: '%s' is not a number", option, text);
    return value;
}

void design_of(const char *option, const char *text, uint64_t *design)
{
    char copy[64], *word = copy;
    if (strlen(text) >= sizeof copy)
        fail(STATUS_WRONG, "%s: '%s' is not a design m,t,M", option, text);
    strcpy(copy, text);
    for (int part = 0; part < 3; part++) {
        char *comma = strchr(word, ',');
        if ((comma == NULL) != (part == 2))
            fail(STATUS_WRONG, "%s: '%s' is not a design: three numbers m,t,M, as in 8,3,72", option, text);
        if (comma != NULL)
            *comma = 0;
        design[part] = number(option, word, 0, UINT32_MAX);
        if (comma != NULL)
            word = comma + 1;
    }
}

list_kind lists_of(const char *option, const char *text)
{
    if (strcmp(text, "mixed") == 0)
        return LISTS_MIXED;
    if (strcmp(text, "random") == 0)
        return LISTS_RANDOM;
    fail(STATUS_WRONG, "%s: '%s' is neither 'mixed' nor 'random'", option, text);
}

const char *lists_name(list_kind lists)
{
    return lists == LISTS_MIXED ? "mixed" : lists == LISTS_RANDOM ? "random" : "file";
}

/* ---- Kits ---- */

static uint64_t kit_sizes(kit *k, uint64_t *place)
{
    const uint64_t rule = bauchleton_sizes(k->m, k->t, k->size, 1, k->sizes, BAUCHLETON_SIZES_ENTRIES);
    *place = k->sizes[BAUCHLETON_SIZES_PLACE];
    if (rule != BAUCHLETON_ACCEPTED)
        return rule;
    k->r = k->sizes[BAUCHLETON_SIZES_R];
    k->order = k->size * k->r;
    k->list_bytes = k->sizes[BAUCHLETON_SIZES_LIST];
    k->inverse_bytes = k->sizes[BAUCHLETON_SIZES_INVERSE];
    k->self = take(k->list_bytes, 1);
    k->parity = take(k->list_bytes, 1);
    k->inverse = take(k->inverse_bytes, 1);
    return rule;
}

/* The lists of k.seed. */
static uint64_t kit_lists(kit *k, uint64_t *answer)
{
    if (k->lists == LISTS_MIXED)
        return bauchleton_mixed_lists(k->m, k->t, k->size, k->seed, k->self, k->list_bytes, k->parity, k->list_bytes, answer, 2);
    return random_lists(k->m, k->t, k->size, k->seed, k->self, k->list_bytes, k->parity, k->list_bytes, answer, 2);
}

uint64_t kit_make(kit *k, uint64_t tries, int quiet, uint64_t *place)
{
    const int shown = !quiet && isatty(STDERR_FILENO);
    uint64_t answer[2], rule = kit_sizes(k, place);
    if (rule != BAUCHLETON_ACCEPTED)
        return rule;
    if (k->lists == LISTS_DEFAULT)
        k->lists = 2 * k->r <= k->size ? LISTS_MIXED : LISTS_RANDOM;
    const size_t work_bytes = k->sizes[BAUCHLETON_SIZES_MAKE_INVERSE_WORK];
    uint8_t *work = take(work_bytes, 1);
    for (k->tries = 1;; k->tries++, k->seed++) {
        if (shown)
            fprintf(stderr, "\r\033[K%s: %s lists of seed %" PRIu32 ", %" PRIu64 " without an inverse so far", program, lists_name(k->lists), k->seed,
                    k->tries - 1);
        rule = kit_lists(k, answer);
        if (rule == BAUCHLETON_ACCEPTED)
            rule = bauchleton_make_inverse(k->m, k->t, k->size, k->self, k->list_bytes, k->parity, k->list_bytes, k->inverse, k->inverse_bytes, work,
                                           work_bytes, answer, 1);
        if (rule != BAUCHLETON_SINGULAR || k->tries >= tries)
            break;
    }
    if (shown)
        fputs("\r\033[K", stderr);
    *place = answer[0];
    free(work);
    return rule;
}

uint64_t kit_read(kit *k, const uint8_t *text, size_t length, uint64_t *place)
{
    uint64_t answer[4], rule = bauchleton_scan_kit(text, length, answer, 4);
    *place = answer[0];
    if (rule != BAUCHLETON_ACCEPTED)
        return rule;
    k->m = answer[1];
    k->t = answer[2];
    k->size = answer[3];
    k->lists = LISTS_FILE;
    rule = kit_sizes(k, place);
    if (rule != BAUCHLETON_ACCEPTED)
        return rule;
    rule = bauchleton_read_kit(text, length, k->self, k->list_bytes, k->parity, k->list_bytes, k->inverse, k->inverse_bytes, answer, 4);
    *place = answer[0];
    return rule;
}

uint64_t kit_check(const kit *k, uint64_t *place)
{
    const size_t work_bytes = k->sizes[BAUCHLETON_SIZES_CHECK_KIT_WORK];
    uint8_t report[BAUCHLETON_REPORT_BYTES], *work = take(work_bytes, 1);
    const uint64_t rule = bauchleton_check_kit(k->m, k->t, k->size, k->self, k->list_bytes, k->parity, k->list_bytes, k->inverse, k->inverse_bytes, work,
                                               work_bytes, report, sizeof report);
    *place = bauchleton_report_number(report, BAUCHLETON_REPORT_PLACE);
    free(work);
    return rule;
}

uint8_t *kit_text(const kit *k, size_t *length)
{
    uint64_t answer[2], rule = bauchleton_kit_text_length(k->m, k->t, k->size, k->self, k->list_bytes, k->parity, k->list_bytes, answer, 2);
    if (rule != BAUCHLETON_ACCEPTED)
        refused("bauchleton_kit_text_length", rule, answer[0]);
    *length = answer[1];
    uint8_t *text = take(*length, 1);
    rule = bauchleton_write_kit(k->m, k->t, k->size, k->self, k->list_bytes, k->parity, k->list_bytes, k->inverse, k->inverse_bytes, text, *length, answer, 1);
    if (rule != BAUCHLETON_ACCEPTED)
        refused("bauchleton_write_kit", rule, answer[0]);
    return text;
}

static uint64_t entry(const uint8_t *list, uint64_t p)
{
    return list[2 * p] + UINT64_C(256) * list[2 * p + 1];
}

static uint64_t choose(uint64_t n, uint64_t k)
{
    uint64_t ways = 1;
    if (n < k)
        return 0;
    for (uint64_t i = 1; i <= k; i++)
        ways = ways * (n - k + i) / i;
    return ways;
}

uint64_t kit_stalls(const kit *k)
{
    uint64_t stalls = 0;
    for (uint64_t row = 0; row < k->size; row++) {
        uint64_t shared[BAUCHLETON_MAX_SIZE] = {0};
        for (uint64_t j = 0; j < k->r; j++) {
            shared[entry(k->self, j * k->size + row) % k->size]++;
            shared[entry(k->parity, j * k->size + row) % k->size]++;
        }
        /* and the information bit in which the two words cross */
        for (uint64_t column = 0; column < k->size; column++)
            stalls += choose(shared[column] + 1, k->t + 1);
    }
    return stalls;
}

static uint64_t hash(uint64_t state, const uint8_t *bytes, size_t length)
{
    for (size_t i = 0; i < length; i++)
        state = (state ^ bytes[i]) * UINT64_C(0x100000001B3);
    return state;
}

uint64_t kit_hash(const kit *k)
{
    const uint8_t design[] = {(uint8_t)k->m, (uint8_t)k->t, (uint8_t)(k->size % 256), (uint8_t)(k->size / 256)};
    return hash(hash(hash(UINT64_C(0xCBF29CE484222325), design, sizeof design), k->self, k->list_bytes), k->parity, k->list_bytes);
}

void kit_free(kit *k)
{
    free(k->self);
    free(k->parity);
    free(k->inverse);
}
