/* Every call of include/bauchleton.h, accepted and refused by each of its rules, with every byte of what it is lent.
       calls MEMORY EXAMPLE..
   An EXAMPLE is a folder of examples/, whose texts an independent reading of document 01 has made. MEMORY says where a slice stands:
       end     before a page that cannot be read, so that it ends with its own page; one of length 0 begins there
       start   behind a page that cannot be read, so that it begins with its own page; one of length 0 is a null pointer
       heap    in memory of its own, working bytes with no value yet, for valgrind and AddressSanitizer; pairs of refusals are left out
   What a call may only read cannot be written while it runs. Exit status 1 at a difference, or where a call touches what it is not lent. */

#define _GNU_SOURCE
#include "bauchleton.h"

#include <inttypes.h>
#include <signal.h>
#include <stdio.h>
#include <stdlib.h>
#include <string.h>
#include <sys/mman.h>
#include <unistd.h>

enum { END, START, HEAP };
static int memory;
static const char *folder;

/* ---- What a call is lent ---- */

enum { M, T, SIZE, BLOCKS, ROUNDS, FRAMES, WINDOW, KIND, WHICH, SEED, LIMIT, PLACE, RUN, AT, NUMBERS };
enum { SELF, PARITY, INVERSE, INFO, RED, INFO_ERRORS, RED_ERRORS, OUT, KIT, TEXT, TALLY, WORK, TOLD, SLOTS };
static const char *const slot_name[] = { "self", "parity", "inverse", "info", "red", "info_errors", "red_errors", "out", "kit", "text", "tally", "work", "report or answer" };

typedef struct {
    uint64_t number[NUMBERS];
    uint8_t *bytes[SLOTS];
    size_t length[SLOTS];
} lent;

typedef struct {
    const char *name;
    uint64_t (*run)(const lent *l);
    unsigned in, out;           /* slots that it reads only, and those that it may write but for WORK and TOLD */
    size_t told;                /* bytes of its report or answer */
    int report;
} call;

#define BYTES(slot) l->bytes[slot], l->length[slot]
#define ENTRIES(slot) (uint64_t *)(void *)l->bytes[slot], l->length[slot] / 8
#define DESIGN l->number[M], l->number[T], l->number[SIZE]
#define FRAME DESIGN, l->number[BLOCKS]
#define LISTS BYTES(SELF), BYTES(PARITY)

static uint64_t run_design(const lent *l) { return bauchleton_design(DESIGN, ENTRIES(TOLD)); }
static uint64_t run_sizes(const lent *l) { return bauchleton_sizes(FRAME, ENTRIES(TOLD)); }
static uint64_t run_order(const lent *l) { return bauchleton_order(DESIGN, ENTRIES(TOLD)); }
static uint64_t run_check_kit(const lent *l) { return bauchleton_check_kit(DESIGN, LISTS, BYTES(INVERSE), BYTES(WORK), BYTES(TOLD)); }
static uint64_t run_make_inverse(const lent *l) { return bauchleton_make_inverse(DESIGN, LISTS, BYTES(INVERSE), BYTES(WORK), ENTRIES(TOLD)); }
static uint64_t run_spread_lists(const lent *l) { return bauchleton_spread_lists(DESIGN, LISTS, ENTRIES(TOLD)); }
static uint64_t run_mixed_lists(const lent *l) { return bauchleton_mixed_lists(DESIGN, (uint32_t)l->number[SEED], LISTS, ENTRIES(TOLD)); }
static uint64_t run_encode(const lent *l) { return bauchleton_encode(FRAME, LISTS, BYTES(INVERSE), BYTES(INFO), BYTES(RED), BYTES(WORK), BYTES(TOLD)); }
static uint64_t run_encode_batch(const lent *l)
{
    return bauchleton_encode_batch(FRAME, l->number[FRAMES], LISTS, BYTES(INVERSE), BYTES(INFO), BYTES(RED), BYTES(WORK), BYTES(TOLD));
}
static uint64_t run_check_words(const lent *l) { return bauchleton_check_words(FRAME, LISTS, BYTES(INFO), BYTES(RED), BYTES(WORK), ENTRIES(TOLD)); }
static uint64_t run_decode(const lent *l) { return bauchleton_decode(FRAME, l->number[ROUNDS], LISTS, BYTES(INFO), BYTES(RED), BYTES(WORK), BYTES(TOLD)); }
static uint64_t run_decode_window(const lent *l)
{
    return bauchleton_decode_window(FRAME, l->number[ROUNDS], l->number[WINDOW], LISTS, BYTES(INFO), BYTES(RED), BYTES(WORK), BYTES(TOLD));
}
static uint64_t run_decode_tallied(const lent *l)
{
    return bauchleton_decode_tallied(FRAME, l->number[ROUNDS], LISTS, BYTES(INFO), BYTES(RED), BYTES(WORK), ENTRIES(TALLY), BYTES(TOLD));
}
static uint64_t run_report(const lent *l) { return bauchleton_report(ENTRIES(TALLY), ENTRIES(TOLD)); }
static uint64_t run_loopback(const lent *l)
{
    return bauchleton_loopback(FRAME, l->number[ROUNDS], LISTS, BYTES(INVERSE), BYTES(INFO_ERRORS), BYTES(RED_ERRORS), BYTES(INFO), BYTES(RED), BYTES(WORK),
                               ENTRIES(TOLD));
}
static uint64_t run_show(const lent *l)
{
    return bauchleton_show(FRAME, l->number[KIND], l->number[WHICH], BYTES(INFO), BYTES(RED), BYTES(OUT), ENTRIES(TOLD));
}
static uint64_t run_original_sizes(const lent *l) { return bauchleton_original_sizes(FRAME, ENTRIES(TOLD)); }
static uint64_t run_original_encode(const lent *l) { return bauchleton_original_encode(FRAME, BYTES(INFO), BYTES(TOLD)); }
static uint64_t run_original_check_words(const lent *l) { return bauchleton_original_check_words(FRAME, BYTES(INFO), ENTRIES(TOLD)); }
static uint64_t run_original_decode(const lent *l) { return bauchleton_original_decode(FRAME, l->number[ROUNDS], BYTES(INFO), BYTES(WORK), BYTES(TOLD)); }
static uint64_t run_load_fill(const lent *l) { return bauchleton_load_fill(FRAME, (uint32_t)l->number[SEED], BYTES(INFO), ENTRIES(TOLD)); }
static uint64_t run_load_errors(const lent *l)
{
    return bauchleton_load_errors(FRAME, (uint32_t)l->number[SEED], l->number[LIMIT], BYTES(INFO), BYTES(RED), ENTRIES(TOLD));
}
static uint64_t run_load_run(const lent *l) { return bauchleton_load_run(FRAME, l->number[PLACE], l->number[RUN], BYTES(INFO), BYTES(RED), ENTRIES(TOLD)); }
static uint64_t run_load_fill_buffer(const lent *l) { return bauchleton_load_fill_buffer((uint32_t)l->number[SEED], BYTES(INFO), ENTRIES(TOLD)); }
static uint64_t run_load_errors_buffer(const lent *l)
{
    return bauchleton_load_errors_buffer((uint32_t)l->number[SEED], l->number[LIMIT], BYTES(INFO), ENTRIES(TOLD));
}
static uint64_t run_differences(const lent *l) { return bauchleton_differences(BYTES(INFO), BYTES(RED), ENTRIES(TOLD)); }
static uint64_t run_rule_name(const lent *l) { return bauchleton_rule_name(l->number[WHICH], BYTES(OUT)); }
static uint64_t run_scan_kit(const lent *l) { return bauchleton_scan_kit(BYTES(TEXT), ENTRIES(TOLD)); }
static uint64_t run_read_kit(const lent *l) { return bauchleton_read_kit(BYTES(TEXT), LISTS, BYTES(INVERSE), ENTRIES(TOLD)); }
static uint64_t run_scan_blocks(const lent *l) { return bauchleton_scan_blocks(DESIGN, BYTES(TEXT), ENTRIES(TOLD)); }
static uint64_t run_read_blocks(const lent *l) { return bauchleton_read_blocks(DESIGN, BYTES(TEXT), BYTES(INFO), ENTRIES(TOLD)); }
static uint64_t run_scan_frame(const lent *l) { return bauchleton_scan_frame(DESIGN, BYTES(TEXT), ENTRIES(TOLD)); }
static uint64_t run_read_frame(const lent *l) { return bauchleton_read_frame(DESIGN, BYTES(TEXT), BYTES(INFO), BYTES(RED), ENTRIES(TOLD)); }
static uint64_t run_kit_text_length(const lent *l) { return bauchleton_kit_text_length(DESIGN, LISTS, ENTRIES(TOLD)); }
static uint64_t run_write_kit(const lent *l) { return bauchleton_write_kit(DESIGN, LISTS, BYTES(INVERSE), BYTES(TEXT), ENTRIES(TOLD)); }
static uint64_t run_block_line(const lent *l) { return bauchleton_block_line(BYTES(OUT), l->number[AT], l->number[WHICH], BYTES(INFO)); }
static uint64_t run_group_line(const lent *l) { return bauchleton_group_line(BYTES(OUT), l->number[AT], l->number[WHICH], BYTES(INFO), BYTES(RED)); }
static uint64_t run_refusal_lines(const lent *l) { return bauchleton_refusal_lines(BYTES(OUT), l->number[AT], l->number[WHICH], l->number[PLACE]); }
static uint64_t run_count_lines(const lent *l)
{
    return bauchleton_count_lines(BYTES(OUT), l->number[AT], l->number[ROUNDS], l->number[WHICH], l->number[PLACE]);
}
static uint64_t run_frame(const lent *l) { return bauchleton_frame(BYTES(KIT), BYTES(TEXT), BYTES(OUT)); }
static uint64_t run_mend(const lent *l) { return bauchleton_mend(BYTES(KIT), BYTES(TEXT), BYTES(OUT)); }
static uint64_t run_makekit(const lent *l) { return bauchleton_makekit(BYTES(TEXT), BYTES(OUT)); }

#define S(slot) (1u << (slot))
enum { KITS = S(SELF) | S(PARITY) | S(INVERSE), BOTH = S(INFO) | S(RED) };

static const call design = { "design", run_design, 0, 0, 32, 0 };
static const call sizes = { "sizes", run_sizes, 0, 0, 8 * BAUCHLETON_SIZES_ENTRIES, 0 };
static const call order = { "order", run_order, 0, 0, 16, 0 };
static const call check_kit = { "check_kit", run_check_kit, KITS, 0, 40, 1 };
static const call make_inverse = { "make_inverse", run_make_inverse, S(SELF) | S(PARITY), S(INVERSE), 8, 0 };
static const call spread_lists = { "spread_lists", run_spread_lists, 0, S(SELF) | S(PARITY), 8, 0 };
static const call mixed_lists = { "mixed_lists", run_mixed_lists, 0, S(SELF) | S(PARITY), 16, 0 };
static const call encode = { "encode", run_encode, KITS | S(INFO), S(RED), 40, 1 };
static const call encode_batch = { "encode_batch", run_encode_batch, KITS | S(INFO), S(RED), 40, 1 };
static const call check_words = { "check_words", run_check_words, S(SELF) | S(PARITY) | BOTH, 0, 16, 0 };
static const call decode = { "decode", run_decode, S(SELF) | S(PARITY), BOTH, 40, 1 };
static const call decode_window = { "decode_window", run_decode_window, S(SELF) | S(PARITY), BOTH, 40, 1 };
static const call decode_tallied = { "decode_tallied", run_decode_tallied, S(SELF) | S(PARITY), BOTH | S(TALLY), 40, 1 };
static const call tally_report = { "report", run_report, S(TALLY), 0, 72, 0 };
static const call loopback = { "loopback", run_loopback, KITS | S(INFO_ERRORS) | S(RED_ERRORS), BOTH, 40, 0 };
static const call show = { "show", run_show, BOTH, S(OUT), 16, 0 };
static const call original_sizes = { "original_sizes", run_original_sizes, 0, 0, 8 * BAUCHLETON_ORIGINAL_SIZES_ENTRIES, 0 };
static const call original_encode = { "original_encode", run_original_encode, 0, S(INFO), 40, 1 };
static const call original_check_words = { "original_check_words", run_original_check_words, S(INFO), 0, 16, 0 };
static const call original_decode = { "original_decode", run_original_decode, 0, S(INFO), 40, 1 };
static const call load_fill = { "load_fill", run_load_fill, 0, S(INFO), 16, 0 };
static const call load_errors = { "load_errors", run_load_errors, 0, BOTH, 16, 0 };
static const call load_run = { "load_run", run_load_run, 0, BOTH, 8, 0 };
static const call load_fill_buffer = { "load_fill_buffer", run_load_fill_buffer, 0, S(INFO), 16, 0 };
static const call load_errors_buffer = { "load_errors_buffer", run_load_errors_buffer, 0, S(INFO), 16, 0 };
static const call differences = { "differences", run_differences, BOTH, 0, 16, 0 };
static const call rule_name = { "rule_name", run_rule_name, 0, S(OUT), 0, 0 };
static const call scan_kit = { "scan_kit", run_scan_kit, S(TEXT), 0, 32, 0 };
static const call read_kit = { "read_kit", run_read_kit, S(TEXT), KITS, 32, 0 };
static const call scan_blocks = { "scan_blocks", run_scan_blocks, S(TEXT), 0, 16, 0 };
static const call read_blocks = { "read_blocks", run_read_blocks, S(TEXT), S(INFO), 16, 0 };
static const call scan_frame = { "scan_frame", run_scan_frame, S(TEXT), 0, 16, 0 };
static const call read_frame = { "read_frame", run_read_frame, S(TEXT), BOTH, 16, 0 };
static const call kit_text_length = { "kit_text_length", run_kit_text_length, S(SELF) | S(PARITY), 0, 16, 0 };
static const call write_kit = { "write_kit", run_write_kit, KITS, S(TEXT), 8, 0 };
static const call block_line = { "block_line", run_block_line, S(INFO), S(OUT), 0, 0 };
static const call group_line = { "group_line", run_group_line, BOTH, S(OUT), 0, 0 };
static const call refusal_lines = { "refusal_lines", run_refusal_lines, 0, S(OUT), 0, 0 };
static const call count_lines = { "count_lines", run_count_lines, 0, S(OUT), 0, 0 };
static const call frame_program = { "frame", run_frame, S(KIT) | S(TEXT), S(OUT), 0, 0 };
static const call mend_program = { "mend", run_mend, S(KIT) | S(TEXT), S(OUT), 0, 0 };
static const call makekit_program = { "makekit", run_makekit, S(TEXT), S(OUT), 0, 0 };

/* ---- Where slices stand ---- */

enum { ROOM = 1 << 20, MARGIN = 64, AROUND = 0xEE };    /* of a slot's pages, and the bytes beside a slice that are compared */
static uint8_t *room[SLOTS];
static size_t page;

static void make_rooms(void)
{
    page = (size_t)sysconf(_SC_PAGESIZE);
    for (int slot = 0; slot < SLOTS; slot++) {
        uint8_t *p = mmap(NULL, ROOM + 2 * page, PROT_NONE, MAP_PRIVATE | MAP_ANONYMOUS, -1, 0);
        if (p == MAP_FAILED || mprotect(p + page, ROOM, PROT_READ | PROT_WRITE) != 0) {
            perror("mmap");
            exit(2);
        }
        room[slot] = p + page;
    }
}

/* The case that runs, for a message. */
static struct {
    const char *call, *what;
    uint64_t rule, place;
    size_t told;
} now;
static unsigned cases, wrong;

static void tell(const char *what)
{
    if (++wrong > 20)
        return;
    printf("%s, %s, rule %" PRIu64 " at %" PRIu64 " (%s), report or answer of %zu bytes: %s\n", folder, now.call, now.rule, now.place, now.what, now.told, what);
}

static void on_fault(int signal)
{
    (void)signal;
    tell("touches a byte that it is not lent, or writes one that it may only read");
    fflush(stdout);
    _exit(1);
}

static uint8_t *place_slice(int slot, const uint8_t *bytes, size_t length)
{
    if (memory == HEAP) {
        uint8_t *p = malloc(length);
        if (p == NULL && length > 0)
            exit(2);
        if (slot != WORK && length > 0)
            memcpy(p, bytes, length);
        return p;
    }
    if (memory == START && length == 0)
        return NULL;
    if (length > ROOM)
        exit(2);
    uint8_t *p = memory == END ? room[slot] + ROOM - length : room[slot];
    size_t margin = ROOM - length < MARGIN ? ROOM - length : MARGIN;
    memset(memory == END ? p - margin : p + length, AROUND, margin);
    if (length > 0)
        memcpy(p, bytes, length);
    return p;
}

static int margin_kept(const uint8_t *p, size_t length)
{
    if (memory == HEAP || p == NULL)
        return 1;
    size_t margin = ROOM - length < MARGIN ? ROOM - length : MARGIN;
    const uint8_t *from = memory == END ? p - margin : p + length;
    for (size_t i = 0; i < margin; i++)
        if (from[i] != AROUND)
            return 0;
    return 1;
}

/* Gives the pages of slices these rights. */
static void protect(const lent *placed, unsigned slots, int rights)
{
    for (int slot = 0; slot < SLOTS && memory != HEAP; slot++) {
        size_t pages = (placed->length[slot] + page - 1) / page * page;
        if (slots & S(slot) && pages > 0 && mprotect(memory == END ? room[slot] + ROOM - pages : room[slot], pages, rights) != 0)
            exit(2);
    }
}

/* Runs a call on copies of what is lent and compares the number and every slice but the working bytes. */
static void compare(const call *c, const lent *l, uint64_t number, const lent *after)
{
    unsigned used = c->in | c->out | S(WORK) | S(TOLD);
    lent placed = *l;
    char said[200];
    now.call = c->name;
    now.told = l->length[TOLD];
    for (int slot = 0; slot < SLOTS; slot++)
        if (used & S(slot))
            placed.bytes[slot] = place_slice(slot, l->bytes[slot], l->length[slot]);
    protect(&placed, c->in, PROT_READ);
    uint64_t found = c->run(&placed);
    protect(&placed, c->in, PROT_READ | PROT_WRITE);
    cases++;
    if (found != number) {
        snprintf(said, sizeof said, "answers %" PRIu64 ", not %" PRIu64, found, number);
        tell(said);
    }
    for (int slot = 0; slot < SLOTS; slot++) {
        if (!(used & S(slot)))
            continue;
        size_t length = l->length[slot];
        for (size_t i = 0; slot != WORK && i < length; i++)
            if (placed.bytes[slot][i] != after->bytes[slot][i]) {
                snprintf(said, sizeof said, "byte %zu of %s is %u, not %u", i, slot_name[slot], placed.bytes[slot][i], after->bytes[slot][i]);
                tell(said);
                break;
            }
        if (!margin_kept(placed.bytes[slot], length)) {
            snprintf(said, sizeof said, "writes beside %s", slot_name[slot]);
            tell(said);
        }
        if (memory == HEAP)
            free(placed.bytes[slot]);
    }
}

/* ---- Expectations ---- */

/* Memory for one case; all of it is given back before the next. */
static uint8_t pool[1 << 23];
static size_t taken;

static uint8_t *take(size_t length)
{
    uint8_t *p = pool + taken;
    taken += (length + 15) / 16 * 16;
    if (taken > sizeof pool)
        exit(2);
    memset(p, 0x5A, length);
    return p;
}

static uint8_t *copy(const uint8_t *bytes, size_t length)
{
    uint8_t *p = take(length);
    if (length > 0)
        memcpy(p, bytes, length);
    return p;
}

static void set(lent *l, int slot, const void *bytes, size_t length)
{
    l->bytes[slot] = copy(bytes, length);
    l->length[slot] = length;
}

/* A lent slice of another length. */
static void resize(lent *l, int slot, size_t length)
{
    uint8_t *p = take(length);
    if (length > 0 && l->length[slot] > 0)
        memcpy(p, l->bytes[slot], length < l->length[slot] ? length : l->length[slot]);
    l->bytes[slot] = p;
    l->length[slot] = length;
}

/* The bytes of numbers, the low byte first; a report's and an answer's are alike on the machines for which the libraries are. */
static void put_numbers(uint8_t *to, const uint64_t *numbers, size_t count)
{
    for (size_t i = 0; i < 8 * count; i++)
        to[i] = (uint8_t)(numbers[i / 8] >> 8 * (i % 8));
}

/* A rule whose answer comes before a report of another length. */
static int before_report(uint64_t rule)
{
    return (rule >= 1 && rule <= 6) || (rule >= BAUCHLETON_BATCH && rule <= BAUCHLETON_THIN);
}

enum { SOME_LENGTHS = 2, ALL_LENGTHS = 6 };

/* A call with a report or an answer of the right length and of others. `told` has its numbers, and `after` what it leaves if it is accepted. */
static void judge(const call *c, const lent *l, uint64_t rule, const uint64_t *told, const lent *after, size_t count)
{
    const size_t unit = c->report ? 1 : 8;
    const size_t lengths[ALL_LENGTHS] = { c->told, c->told - unit, c->told + unit, 0, 8 * unit, 2 * c->told };
    const size_t start = taken;
    now.rule = rule;
    now.place = told[0];
    for (size_t i = 0; i < count; i++) {
        lent before = *l;
        before.length[TOLD] = lengths[i];
        before.bytes[TOLD] = take(lengths[i]);
        lent left = rule == 0 ? *after : before;
        left.bytes[TOLD] = copy(before.bytes[TOLD], lengths[i]);
        if (lengths[i] == c->told)
            put_numbers(left.bytes[TOLD], told, c->told / 8);
        if (lengths[i] == c->told || !c->report)
            compare(c, &before, rule, &left);
        else
            compare(c, &before, before_report(rule) ? rule : BAUCHLETON_LENGTH, &before);
        taken = start;
    }
}

static void accepted(const call *c, const lent *l, const lent *after, const uint64_t *told)
{
    now.what = "accepted";
    judge(c, l, BAUCHLETON_ACCEPTED, told, after, ALL_LENGTHS);
}

/* ---- Refusals ---- */

typedef enum { NUMBER, DESIGN_OF, LONGER, SHORTER, NONE, ENTRY, REPEAT, ALIKE, BYTE, RAISE, TOTAL } kind;
static const char *const kind_name[] = { "a number", "a design", "a slice too long", "a slice too short", "a slice of length 0", "an entry too large", "an entry twice", "equal lists",
                                         "a byte", "a spare bit", "a total" };

/* One thing wrong with what a call is lent, and how it is refused. */
typedef struct {
    uint64_t rule, place;
    kind what;
    int which;                  /* a number or a slot */
    size_t at;
    uint64_t value;
} fault;

static fault faults[80];
static size_t fault_count;

static void add(uint64_t rule, uint64_t place, kind what, int which, size_t at, uint64_t value)
{
    fault f = { rule, place, what, which, at, value };
    if (fault_count == sizeof faults / sizeof *faults)
        exit(2);
    faults[fault_count++] = f;
}

static void put_entry(uint8_t *list, size_t at, uint64_t value)
{
    list[2 * at] = (uint8_t)value;
    list[2 * at + 1] = (uint8_t)(value >> 8);
}

/* Every slice that is written to is copied first. */
static void spoil(lent *l, const fault *f)
{
    size_t length = f->what == NUMBER || f->what == DESIGN_OF ? 0 : l->length[f->which], unit = f->which == TALLY ? 8 : 1;
    if (f->what >= ENTRY && length > 0)
        resize(l, f->which, length);
    uint8_t *bytes = l->bytes[f->which % SLOTS];
    if (f->what == NUMBER)
        l->number[f->which] = f->value;
    else if (f->what == DESIGN_OF)
        l->number[M] = f->value / 1000000, l->number[T] = f->value / 1000 % 1000, l->number[SIZE] = f->value % 1000;
    else if (f->what == LONGER)
        resize(l, f->which, length + unit);
    else if (f->what == SHORTER)
        resize(l, f->which, length < unit ? 0 : length - unit);
    else if (f->what == NONE)
        resize(l, f->which, 0);
    else if (length == 0)
        return;
    else if (f->what == ENTRY && length > 2 * f->at + 1)
        put_entry(bytes, f->at, f->value);
    else if (f->what == REPEAT && length > 2 * f->at + 1)
        memcpy(bytes + 2 * f->at, bytes, 2);
    else if (f->what == ALIKE)
        for (int list = SELF; list <= PARITY; list++) {
            resize(l, list, l->length[list]);
            for (size_t p = 0; p < l->length[list] / 2; p++)
                put_entry(l->bytes[list], p, p);
        }
    else if (f->what == BYTE && f->at < length)
        bytes[f->at] = (uint8_t)f->value;
    else if (f->what == RAISE && f->at < length)
        bytes[f->at] |= (uint8_t)f->value;
    else if (f->what == TOTAL && length >= 8 * f->at + 8)
        put_numbers(bytes + 8 * f->at, &f->value, 1);
}

/* Whether two faults are in the length of one slice, so that one would undo the other. */
static int of_one_length(const fault *f, const fault *g)
{
    return f->what >= LONGER && f->what <= NONE && g->what >= LONGER && g->what <= NONE && f->which == g->which;
}

/* Each fault alone, with every length of report or answer; and, with the right one and one too short, beside each that comes after it in the order of
   the rules: the first is told. */
static void refusals(const call *c, const lent *l)
{
    for (size_t i = 0; i < fault_count; i++) {
        const uint64_t told[BAUCHLETON_SIZES_ENTRIES] = { faults[i].place };
        const size_t start = taken;
        lent one = *l;
        spoil(&one, &faults[i]);
        now.what = kind_name[faults[i].what];
        judge(c, &one, faults[i].rule, told, NULL, ALL_LENGTHS);
        taken = start;
        for (size_t j = i + 1; j < fault_count && memory != HEAP; j++) {
            if (of_one_length(&faults[i], &faults[j]))
                continue;
            lent two = *l;
            spoil(&two, &faults[j]);
            spoil(&two, &faults[i]);
            now.what = kind_name[faults[j].what];
            judge(c, &two, faults[i].rule, told, NULL, SOME_LENGTHS);
            taken = start;
        }
    }
    fault_count = 0;
}

static void wrong_ranges(void)
{
    const uint64_t out[][2] = { { 1, 3 }, { 1, 11 }, { 1, UINT64_MAX }, { 2, 0 }, { 2, 4 }, { 3, 0 }, { 3, 501 }, { 3, UINT64_C(1) << 63 } };
    for (size_t i = 0; i < sizeof out / sizeof *out; i++)
        add(BAUCHLETON_SIZE, out[i][0], NUMBER, M + (int)out[i][0] - 1, 0, out[i][1]);
}

static void wrong_design(void)
{
    wrong_ranges();
    add(BAUCHLETON_LONG, 16, DESIGN_OF, 0, 0, 4001004);
    add(BAUCHLETON_LARGE, 4100, DESIGN_OF, 0, 0, 10002205);
}

static void wrong_number(uint64_t rule, int which, uint64_t low, uint64_t high)
{
    if (low == 0)
        add(rule, 0, NUMBER, which, 0, 0);
    add(rule, high, NUMBER, which, 0, high);
    add(rule, UINT64_MAX, NUMBER, which, 0, UINT64_MAX);
}

static void wrong_blocks(void)
{
    wrong_number(BAUCHLETON_COUNT, BLOCKS, 0, BAUCHLETON_MAX_BLOCKS + 1);
}

static void wrong_rounds(void)
{
    wrong_number(BAUCHLETON_ROUNDS, ROUNDS, 1, BAUCHLETON_MAX_ROUNDS + 1);
}

static void wrong_length(uint64_t place, int slot)
{
    add(BAUCHLETON_LENGTH, place, LONGER, slot, 0, 0);
    add(BAUCHLETON_LENGTH, place, SHORTER, slot, 0, 0);
    add(BAUCHLETON_LENGTH, place, NONE, slot, 0, 0);
}

static void wrong_lists(size_t order)
{
    for (int list = SELF; list <= PARITY; list++) {
        size_t plus = list == SELF ? 0 : order;
        add(BAUCHLETON_LIST, plus, ENTRY, list, 0, order);
        add(BAUCHLETON_LIST, plus + 1, ENTRY, list, 1, 65535);
        add(BAUCHLETON_LIST, plus + order - 1, REPEAT, list, order - 1, 0);
    }
}

static void wrong_spare(size_t order, size_t row)
{
    if (order % 8 == 0)
        return;
    add(BAUCHLETON_SPARE, 0, RAISE, INVERSE, row - 1, 0x80);
    add(BAUCHLETON_SPARE, order - 1, RAISE, INVERSE, order * row - 1, 1u << order % 8);
}

static void wrong_bits(int slot, size_t plus, size_t length)
{
    add(BAUCHLETON_BIT, plus, BYTE, slot, 0, 2);
    add(BAUCHLETON_BIT, plus + length - 1, BYTE, slot, length - 1, 255);
}

/* ---- The calls under the kit and the frame of an example ---- */

typedef struct {
    uint8_t bytes[1 << 16];
    size_t length;
} file;

typedef struct {
    file kit_text, list_text, block_text, group_text, received_text, mended_text;
    uint64_t sizes[BAUCHLETON_SIZES_ENTRIES];
    size_t order, area, info, red, frame_bits;
    lent kit;                                   /* numbers of the design and of blocks; lists and inverse */
    uint8_t *sent[2], *received[2];             /* information and redundancy */
    uint64_t counts[4];                         /* what a decode of the received frame counts */
} example;

static void read_file(file *f, const char *name)
{
    char path[4096];
    snprintf(path, sizeof path, "%s/%s", folder, name);
    FILE *in = fopen(path, "rb");
    if (in == NULL) {
        perror(path);
        exit(2);
    }
    f->length = fread(f->bytes, 1, sizeof f->bytes, in);
    fclose(in);
}

static void append(file *to, const file *from)
{
    memcpy(to->bytes + to->length, from->bytes, from->length);
    to->length += from->length;
}

static void must(int holds, const char *what)
{
    if (!holds) {
        printf("%s: %s\n", folder, what);
        exit(1);
    }
}

/* Reads the texts of a folder by the library's own readers, which are compared below as all calls are. */
static void load(example *e)
{
    static file frame_text;
    uint64_t answer[4], numbers[3];
    read_file(&e->kit_text, "kit.txt");
    read_file(&e->list_text, "lists.txt");
    read_file(&e->block_text, "blocks.txt");
    read_file(&e->group_text, "groups.txt");
    read_file(&e->received_text, "received.txt");
    read_file(&e->mended_text, "mended.txt");
    memset(&e->kit, 0, sizeof e->kit);
    must(bauchleton_scan_kit(e->kit_text.bytes, e->kit_text.length, answer, 4) == 0, "kit.txt is refused");
    memcpy(e->kit.number, answer + 1, 24);
    lent *l = &e->kit;
    must(bauchleton_scan_blocks(DESIGN, e->block_text.bytes, e->block_text.length, answer, 2) == 0, "blocks.txt is refused");
    l->number[BLOCKS] = answer[1];
    must(bauchleton_sizes(FRAME, e->sizes, BAUCHLETON_SIZES_ENTRIES) == 0, "its sizes are refused");
    e->order = l->number[SIZE] * e->sizes[BAUCHLETON_SIZES_R];
    e->area = l->number[SIZE] * l->number[SIZE];
    e->info = e->sizes[BAUCHLETON_SIZES_INFO];
    e->red = e->sizes[BAUCHLETON_SIZES_RED];
    e->frame_bits = e->info + e->red;
    for (int slot = SELF; slot <= PARITY; slot++)
        l->bytes[slot] = take(l->length[slot] = e->sizes[BAUCHLETON_SIZES_LIST]);
    l->bytes[INVERSE] = take(l->length[INVERSE] = e->sizes[BAUCHLETON_SIZES_INVERSE]);
    must(bauchleton_read_kit(e->kit_text.bytes, e->kit_text.length, LISTS, BYTES(INVERSE), answer, 4) == 0, "kit.txt cannot be read");
    for (int part = 0; part < 2; part++) {
        e->sent[part] = take(part ? e->red : e->info);
        e->received[part] = take(part ? e->red : e->info);
    }
    frame_text.length = 0;
    append(&frame_text, &e->block_text);
    append(&frame_text, &e->group_text);
    must(bauchleton_read_frame(DESIGN, frame_text.bytes, frame_text.length, e->sent[0], e->info, e->sent[1], e->red, answer, 2) == 0, "the frame cannot be read");
    must(bauchleton_read_frame(DESIGN, e->received_text.bytes, e->received_text.length, e->received[0], e->info, e->received[1], e->red, answer, 2) == 0,
         "received.txt cannot be read");
    /* mended.txt is the frame as it was sent, and the counts; the stuck words of an idle last round are the words outside */
    must(e->mended_text.length > frame_text.length && memcmp(e->mended_text.bytes, frame_text.bytes, frame_text.length) == 0, "mended.txt is not the frame sent");
    e->mended_text.bytes[e->mended_text.length] = 0;
    must(sscanf((char *)e->mended_text.bytes + frame_text.length, "rounds turned outside %" SCNu64 " %" SCNu64 " %" SCNu64, numbers, numbers + 1, numbers + 2) == 3,
         "mended.txt has no counts");
    must(numbers[0] < BAUCHLETON_DEFAULT_ROUNDS, "its last round is not idle");
    memcpy(e->counts, numbers, sizeof numbers);
    e->counts[3] = numbers[2];
}

static void with_work(lent *l, size_t length)
{
    l->bytes[WORK] = take(length);
    l->length[WORK] = length;
}

static void check_sizes(const example *e)
{
    uint64_t told[4] = { 0, e->kit.number[M] * e->kit.number[T] };
    told[2] = 2 * e->kit.number[SIZE] + 2 * told[1];
    told[3] = told[2] - told[1];
    accepted(&design, &e->kit, &e->kit, told);
    wrong_design();
    refusals(&design, &e->kit);
    must(memcmp(told + 1, e->sizes + 1, 24) == 0 && e->sizes[BAUCHLETON_SIZES_GROUPS] == (e->kit.number[BLOCKS] + 1) / 2
         && e->sizes[BAUCHLETON_SIZES_ROW] == (e->order + 7) / 8, "sizes tells another r, n, k or number of groups, or another length of a row");
    accepted(&sizes, &e->kit, &e->kit, e->sizes);
    wrong_design();
    wrong_blocks();
    refusals(&sizes, &e->kit);
    accepted(&order, &e->kit, &e->kit, (const uint64_t[]) { 0, e->kit.number[SIZE] * e->kit.number[M] * e->kit.number[T] });
    wrong_design();
    refusals(&order, &e->kit);
}

static void check_kits(const example *e)
{
    const uint64_t none[5] = { 0 };
    const size_t row = e->sizes[BAUCHLETON_SIZES_ROW];
    lent l = e->kit;
    with_work(&l, e->sizes[BAUCHLETON_SIZES_CHECK_KIT_WORK]);
    accepted(&check_kit, &l, &l, none);
    wrong_design();
    for (int slot = SELF; slot <= INVERSE; slot++)
        wrong_length((uint64_t)slot + 1, slot);
    wrong_length(BAUCHLETON_PLACE_WORK, WORK);
    wrong_lists(e->order);
    wrong_spare(e->order, row);
    add(BAUCHLETON_INVERSE, 0, ALIKE, SELF, 0, 0);
    if (e->order == 4)
        add(BAUCHLETON_INVERSE, 7, BYTE, INVERSE, 3, 10);       /* document 01: kit K with the last row 0101 */
    refusals(&check_kit, &l);

    lent made = e->kit;
    with_work(&made, e->sizes[BAUCHLETON_SIZES_MAKE_INVERSE_WORK]);
    made.bytes[INVERSE] = take(made.length[INVERSE]);
    accepted(&make_inverse, &made, &e->kit, none);
    wrong_design();
    for (int slot = SELF; slot <= INVERSE; slot++)
        wrong_length((uint64_t)slot + 1, slot);
    wrong_length(BAUCHLETON_PLACE_WORK, WORK);
    wrong_lists(e->order);
    add(BAUCHLETON_SINGULAR, 0, ALIKE, SELF, 0, 0);
    refusals(&make_inverse, &made);
}

/* Both encoders: a batch is the frame, one of zeros and the frame again, since zeros are the redundancy of zeros. */
static void check_encoders(const example *e)
{
    const uint64_t none[5] = { 0 };
    for (unsigned frames = 1; frames <= 3; frames += 2) {
        const call *c = frames == 1 ? &encode : &encode_batch;
        lent l = e->kit, after;
        l.number[FRAMES] = frames;
        with_work(&l, e->sizes[BAUCHLETON_SIZES_ENCODE_WORK]);
        l.bytes[INFO] = take(l.length[INFO] = frames * e->info);
        l.bytes[RED] = take(l.length[RED] = frames * e->red);
        after = l;
        after.bytes[RED] = take(l.length[RED]);
        for (unsigned f = 0; f < frames; f++) {
            memcpy(l.bytes[INFO] + f * e->info, e->sent[0], e->info);
            memcpy(after.bytes[RED] + f * e->red, e->sent[1], e->red);
        }
        if (frames == 3) {
            memset(l.bytes[INFO] + e->info, 0, e->info);
            memset(after.bytes[RED] + e->red, 0, e->red);
        }
        accepted(c, &l, &after, none);
        wrong_design();
        wrong_blocks();
        if (frames == 3)
            wrong_number(BAUCHLETON_BATCH, FRAMES, 0, BAUCHLETON_MAX_FRAMES + 1);
        for (int slot = SELF; slot <= RED; slot++)
            wrong_length((uint64_t)slot + 1, slot);
        wrong_length(BAUCHLETON_PLACE_WORK, WORK);
        wrong_lists(e->order);
        wrong_spare(e->order, e->sizes[BAUCHLETON_SIZES_ROW]);
        wrong_bits(INFO, 0, l.length[INFO]);
        add(BAUCHLETON_INVERSE, 0, ALIKE, SELF, 0, 0);
        refusals(c, &l);
    }
}

/* What is wrong with a frame that a call is lent, by rules 6, 7 and 10. */
static void wrong_frame_lengths(void)
{
    wrong_length(BAUCHLETON_PLACE_SELF, SELF);
    wrong_length(BAUCHLETON_PLACE_PARITY, PARITY);
    wrong_length(BAUCHLETON_PLACE_INFO, INFO);
    wrong_length(BAUCHLETON_PLACE_RED, RED);
    wrong_length(BAUCHLETON_PLACE_WORK, WORK);
}

static void wrong_frame_bits(const example *e)
{
    wrong_bits(INFO, 0, e->info);
    wrong_bits(RED, e->info, e->red);
}

static lent frame_of(const example *e, uint8_t *const parts[2], size_t work)
{
    lent l = e->kit;
    set(&l, INFO, parts[0], e->info);
    set(&l, RED, parts[1], e->red);
    with_work(&l, work);
    return l;
}

/* No word of a frame is outside, and a wrong bit of the first block stands in two words. */
static void check_word_checker(const example *e)
{
    lent l = frame_of(e, e->sent, e->sizes[BAUCHLETON_SIZES_CHECK_WORDS_WORK]), turned = l;
    accepted(&check_words, &l, &l, (const uint64_t[]) { 0, 0 });
    resize(&turned, INFO, e->info);
    turned.bytes[INFO][0] ^= 1;
    accepted(&check_words, &turned, &turned, (const uint64_t[]) { 0, 2 });
    wrong_design();
    wrong_blocks();
    wrong_frame_lengths();
    wrong_lists(e->order);
    wrong_frame_bits(e);
    refusals(&check_words, &turned);
}

static void check_decoders(const example *e)
{
    static const call *const decoders[] = { &decode, &decode_window, &decode_tallied };
    uint64_t told[5] = { 0 }, tally[6] = { 1, 20, 300, 4000, 50000, UINT64_C(1) << 62 }, totals[6];
    memcpy(told + 1, e->counts, sizeof e->counts);
    for (int i = 0; i < 6; i++)
        totals[i] = tally[i] + (i == 0 ? 1 : i == 1 ? e->frame_bits : i == 2 ? told[2] : i == 3 ? told[1] : told[i - 1]);
    for (int d = 0; d < 3; d++) {
        lent l = frame_of(e, e->received, e->sizes[BAUCHLETON_SIZES_DECODE_WORK]), after = frame_of(e, e->sent, 0);
        l.number[WINDOW] = BAUCHLETON_MAX_WINDOW;
        set(&l, TALLY, tally, sizeof tally);
        set(&after, TALLY, totals, sizeof totals);
        for (uint64_t rounds = 0; rounds <= BAUCHLETON_MAX_ROUNDS; rounds += BAUCHLETON_MAX_ROUNDS) {
            l.number[ROUNDS] = rounds;
            accepted(decoders[d], &l, &after, told);
        }
        wrong_design();
        wrong_blocks();
        wrong_rounds();
        if (d == 1)
            wrong_number(BAUCHLETON_WINDOW, WINDOW, 0, BAUCHLETON_MAX_WINDOW + 1);
        wrong_frame_lengths();
        if (d == 2)
            wrong_length(BAUCHLETON_PLACE_TALLY, TALLY);
        wrong_lists(e->order);
        wrong_frame_bits(e);
        for (uint64_t total = 0; d == 2 && total < 6; total++)
            add(BAUCHLETON_FULL, total + 1, TOTAL, TALLY, total, (UINT64_C(1) << 62) + 1);
        refusals(decoders[d], &l);
    }
}

static void check_loopback(const example *e)
{
    uint64_t told[5] = { 0 };
    memcpy(told + 1, e->counts, sizeof e->counts);
    lent l = frame_of(e, e->sent, e->sizes[BAUCHLETON_SIZES_LOOPBACK_WORK]), after = l;
    l.bytes[RED] = take(e->red);
    set(&l, INFO_ERRORS, e->sent[0], e->info);
    set(&l, RED_ERRORS, e->sent[1], e->red);
    for (size_t i = 0; i < e->info; i++)
        l.bytes[INFO_ERRORS][i] = e->sent[0][i] == e->received[0][i] ? 0 : 255;
    for (size_t i = 0; i < e->red; i++)
        l.bytes[RED_ERRORS][i] = e->sent[1][i] == e->received[1][i] ? 0 : 128;
    after.bytes[INFO_ERRORS] = l.bytes[INFO_ERRORS];
    after.bytes[RED_ERRORS] = l.bytes[RED_ERRORS];
    accepted(&loopback, &l, &after, told);
    lent clean = l;
    resize(&clean, INFO_ERRORS, 0);
    resize(&clean, RED_ERRORS, 0);
    after.bytes[INFO_ERRORS] = clean.bytes[INFO_ERRORS];
    after.bytes[RED_ERRORS] = clean.bytes[RED_ERRORS];
    accepted(&loopback, &clean, &after, (const uint64_t[]) { 0, 1, 0, 0, 0 });
    wrong_design();
    wrong_blocks();
    wrong_rounds();
    for (int slot = SELF; slot <= RED; slot++)
        wrong_length((uint64_t)slot + 1, slot);
    wrong_length(BAUCHLETON_PLACE_WORK, WORK);
    wrong_lists(e->order);
    wrong_spare(e->order, e->sizes[BAUCHLETON_SIZES_ROW]);
    wrong_bits(INFO, 0, e->info);
    add(BAUCHLETON_INVERSE, 0, ALIKE, SELF, 0, 0);
    refusals(&loopback, &l);
}

static void check_showing(const example *e)
{
    for (unsigned kind = 0; kind < 2; kind++) {
        const uint64_t count = kind == 0 ? e->kit.number[BLOCKS] : e->sizes[BAUCHLETON_SIZES_GROUPS], length = kind == 0 ? e->area : 2 * e->order;
        lent l = frame_of(e, e->sent, 0);
        l.number[KIND] = kind;
        for (uint64_t which = 1; which <= count; which++)
            for (size_t room = length - 1; room <= length + 1; room++) {
                lent after = l;
                l.number[WHICH] = which;
                l.bytes[OUT] = take(l.length[OUT] = room);
                after.bytes[OUT] = take(room);
                if (room >= length)
                    memcpy(after.bytes[OUT], e->sent[kind] + (which - 1) * length, length);
                accepted(&show, &l, &after, (const uint64_t[]) { 0, length });
            }
        wrong_design();
        wrong_blocks();
        wrong_number(BAUCHLETON_COUNT, WHICH, 0, count + 1);
        wrong_length(BAUCHLETON_PLACE_INFO, INFO);
        wrong_length(BAUCHLETON_PLACE_RED, RED);
        refusals(&show, &l);
    }
}

static unsigned step(uint32_t *state)
{
    *state = (uint32_t)(*state * UINT64_C(1664525) + 1013904223);
    return *state >> 31;
}

static uint8_t *bit(const lent *l, size_t at)
{
    return at < l->length[INFO] ? l->bytes[INFO] + at : l->bytes[RED] + (at - l->length[INFO]);
}

static unsigned draw(uint32_t *state)
{
    unsigned drawn = 0;
    for (int k = 0; k < 16; k++)
        drawn = 2 * drawn + step(state);
    return drawn;
}

static void check_loads(const example *e)
{
    lent l = frame_of(e, e->received, 0), after = frame_of(e, e->received, 0);
    uint32_t state = 0x89ABCDEF;
    l.number[SEED] = state;
    for (size_t i = 0; i < e->info; i++)
        after.bytes[INFO][i] = (uint8_t)step(&state);
    accepted(&load_fill, &l, &after, (const uint64_t[]) { 0, state });
    wrong_design();
    wrong_blocks();
    wrong_length(BAUCHLETON_PLACE_INFO, INFO);
    refusals(&load_fill, &l);

    after = frame_of(e, e->received, 0);
    l.number[LIMIT] = 20000;
    state = (uint32_t)l.number[SEED];
    for (size_t i = 0; i < e->frame_bits; i++)
        *bit(&after, i) ^= draw(&state) < l.number[LIMIT];
    accepted(&load_errors, &l, &after, (const uint64_t[]) { 0, state });

    after = frame_of(e, e->received, 0);
    l.number[PLACE] = e->info - 1;
    l.number[RUN] = UINT64_MAX;
    for (size_t i = e->info - 1; i < e->frame_bits; i++)
        *bit(&after, i) ^= 1;
    accepted(&load_run, &l, &after, (const uint64_t[]) { 0 });
    for (int run = 0; run < 2; run++) {
        wrong_design();
        wrong_blocks();
        wrong_length(BAUCHLETON_PLACE_INFO, INFO);
        wrong_length(BAUCHLETON_PLACE_RED, RED);
        wrong_frame_bits(e);
        refusals(run ? &load_run : &load_errors, &l);
    }
}

/* The test load on the information alone, as a plain buffer: what it writes there is what the call for a frame writes. */
static void check_buffers(const example *e)
{
    lent l = frame_of(e, e->received, 0), after = frame_of(e, e->received, 0);
    uint32_t state = 0x89ABCDEF;
    uint64_t differ = 0;
    l.number[SEED] = state;
    for (size_t i = 0; i < e->info; i++)
        after.bytes[INFO][i] = (uint8_t)step(&state);
    accepted(&load_fill_buffer, &l, &after, (const uint64_t[]) { 0, state });

    after = frame_of(e, e->received, 0);
    l.number[LIMIT] = 20000;
    state = (uint32_t)l.number[SEED];
    for (size_t i = 0; i < e->info; i++)
        after.bytes[INFO][i] ^= draw(&state) < l.number[LIMIT];
    accepted(&load_errors_buffer, &l, &after, (const uint64_t[]) { 0, state });
    wrong_bits(INFO, 0, e->info);
    refusals(&load_errors_buffer, &l);

    l = frame_of(e, e->received, 0);
    set(&l, RED, after.bytes[INFO], e->info);
    for (size_t i = 0; i < e->info; i++)
        differ += l.bytes[INFO][i] != l.bytes[RED][i];
    must(differ != 0 && differ != e->info, "its load turns no bit or every bit");
    accepted(&differences, &l, &l, (const uint64_t[]) { 0, differ });
    l.bytes[RED][e->info - 1] = 200;
    accepted(&differences, &l, &l, (const uint64_t[]) { 0, differ + (after.bytes[INFO][e->info - 1] == l.bytes[INFO][e->info - 1]) });
    wrong_length(BAUCHLETON_PLACE_INFO, RED);
    refusals(&differences, &l);
}

static void check_readers(const example *e)
{
    lent l = e->kit, after = e->kit;
    uint64_t told[4] = { 0, e->kit.number[M], e->kit.number[T], e->kit.number[SIZE] };
    set(&l, TEXT, e->kit_text.bytes, e->kit_text.length);
    after.bytes[TEXT] = l.bytes[TEXT];
    accepted(&scan_kit, &l, &after, told);
    for (int slot = SELF; slot <= INVERSE; slot++)
        l.bytes[slot] = take(l.length[slot]);
    accepted(&read_kit, &l, &after, told);
    for (int reads = 0; reads < 2; reads++) {
        add(BAUCHLETON_KIT_TEXT, 0, NONE, TEXT, 0, 0);
        add(BAUCHLETON_KIT_TEXT, 5, BYTE, TEXT, 5, ' ');
        add(BAUCHLETON_SIZE, 1, BYTE, TEXT, 6, '3');
        for (int slot = SELF; reads && slot <= INVERSE; slot++)
            wrong_length((uint64_t)slot + 1, slot);
        add(BAUCHLETON_KIT_TEXT, e->kit_text.length - 2, BYTE, TEXT, e->kit_text.length - 2, '2');
        add(BAUCHLETON_KIT_TEXT, e->kit_text.length - 1, SHORTER, TEXT, 0, 0);
        add(BAUCHLETON_KIT_TEXT, e->kit_text.length, LONGER, TEXT, 0, 0);
        refusals(reads ? &read_kit : &scan_kit, &l);
    }
    static const call *const readers[] = { &scan_blocks, &read_blocks, &scan_frame, &read_frame };
    for (int i = 0; i < 4; i++) {
        const file *text = i < 2 ? &e->block_text : &e->received_text;
        uint8_t *const *parts = i < 2 ? e->sent : e->received;
        l = frame_of(e, e->sent, 0);
        l.bytes[INFO] = take(e->info);
        l.bytes[RED] = take(e->red);
        set(&l, TEXT, text->bytes, text->length);
        after = frame_of(e, parts, 0);
        after.bytes[TEXT] = l.bytes[TEXT];
        accepted(readers[i], &l, &after, (const uint64_t[]) { 0, e->kit.number[BLOCKS] });
        wrong_design();
        add(BAUCHLETON_BLOCK_TEXT, 0, NONE, TEXT, 0, 0);
        add(BAUCHLETON_BLOCK_TEXT, 13, BYTE, TEXT, 13, '2');
        add(BAUCHLETON_BLOCK_TEXT, text->length - 2, BYTE, TEXT, text->length - 2, '2');
        add(BAUCHLETON_BLOCK_TEXT, text->length - 1, SHORTER, TEXT, 0, 0);
        add(BAUCHLETON_BLOCK_TEXT, text->length, LONGER, TEXT, 0, 0);
        if (i % 2 == 1)
            wrong_length(BAUCHLETON_PLACE_INFO, INFO);
        if (i == 3)
            wrong_length(BAUCHLETON_PLACE_RED, RED);
        refusals(readers[i], &l);
    }
}

static void check_kit_writers(const example *e)
{
    lent l = e->kit, after = e->kit;
    accepted(&kit_text_length, &l, &after, (const uint64_t[]) { 0, e->kit_text.length });
    wrong_design();
    wrong_length(BAUCHLETON_PLACE_SELF, SELF);
    wrong_length(BAUCHLETON_PLACE_PARITY, PARITY);
    refusals(&kit_text_length, &l);
    l.bytes[TEXT] = take(l.length[TEXT] = e->kit_text.length);
    set(&after, TEXT, e->kit_text.bytes, e->kit_text.length);
    accepted(&write_kit, &l, &after, (const uint64_t[]) { 0 });
    wrong_design();
    for (int slot = SELF; slot <= INVERSE; slot++)
        wrong_length((uint64_t)slot + 1, slot);
    wrong_length(BAUCHLETON_PLACE_TEXT, TEXT);
    /* an entry of other digits makes the text longer: an entry twice is as long as the one it stands for only in a kit of one digit each */
    if (e->order == 4)
        add(BAUCHLETON_LIST, 3, REPEAT, SELF, 3, 0);
    wrong_spare(e->order, e->sizes[BAUCHLETON_SIZES_ROW]);
    refusals(&write_kit, &l);
}

/* A writer of lines: `text` at position 3 of buffers that have room for it, or a byte less. */
static void check_line(const call *c, const lent *base, const char *text)
{
    const size_t at = 3, length = strlen(text), start = taken;
    for (size_t out = 0; out <= at + length + 1; out++) {
        lent l = *base, after;
        l.number[AT] = at;
        l.bytes[OUT] = take(l.length[OUT] = out);
        l.length[TOLD] = 0;
        after = l;
        after.bytes[OUT] = copy(l.bytes[OUT], out);
        if (out >= at + length)
            memcpy(after.bytes[OUT] + at, text, length);
        now.what = "lines";
        now.rule = now.place = 0;
        compare(c, &l, out >= at + length ? at + length : at, &after);
        taken = start;
    }
}

static void check_lines(void)
{
    lent l;
    memset(&l, 0, sizeof l);
    const uint8_t bits[] = { 1, 0, 1, 1, 0 }, others[] = { 0, 3, 2 };
    set(&l, INFO, bits, sizeof bits);
    set(&l, RED, others, sizeof others);
    l.number[WHICH] = 4096;
    l.number[PLACE] = UINT64_MAX;
    l.number[ROUNDS] = 12;
    check_line(&block_line, &l, "4096 10110\n");
    check_line(&group_line, &l, "4096 10110 010\n");
    check_line(&refusal_lines, &l, "refused place\n4096 18446744073709551615\n");
    check_line(&count_lines, &l, "rounds turned outside\n12 4096 18446744073709551615\n");
}

/* A program's output, at the start of a buffer of the least length and one of a byte less. */
static void check_output(const call *c, const file *kit, const file *text, const uint8_t *printed, size_t length)
{
    const size_t start = taken;
    for (size_t out = BAUCHLETON_OUTPUT - 1; out <= BAUCHLETON_OUTPUT; out++) {
        lent l, after;
        memset(&l, 0, sizeof l);
        set(&l, KIT, kit->bytes, kit->length);
        set(&l, TEXT, text->bytes, text->length);
        l.bytes[OUT] = take(l.length[OUT] = out);
        after = l;
        after.bytes[OUT] = take(out);
        if (out == BAUCHLETON_OUTPUT)
            memcpy(after.bytes[OUT], printed, length);
        now.what = "output";
        now.rule = now.place = 0;
        compare(c, &l, out == BAUCHLETON_OUTPUT ? length : 0, &after);
        taken = start;
    }
}

static void check_programs(const example *e)
{
    static file large;
    static const uint8_t refused[2][19] = { "refused place\n13 1\n", "refused place\n13 2\n" };
    large.length = BAUCHLETON_MAX_INPUT + 1;
    check_output(&frame_program, &e->kit_text, &e->block_text, e->group_text.bytes, e->group_text.length);
    check_output(&frame_program, &large, &large, refused[0], 19);
    check_output(&frame_program, &e->kit_text, &large, refused[1], 19);
    check_output(&mend_program, &e->kit_text, &e->received_text, e->mended_text.bytes, e->mended_text.length);
    check_output(&mend_program, &e->kit_text, &large, refused[1], 19);
    check_output(&makekit_program, &e->kit_text, &e->list_text, e->kit_text.bytes, e->kit_text.length);
    check_output(&makekit_program, &e->kit_text, &large, refused[1], 19);
}

/* ---- The calls on rows that are known by hand ---- */

static lent frame_under_k(const example *e, const char *info, const char *red)
{
    lent l = e->kit;
    uint64_t of[BAUCHLETON_SIZES_ENTRIES];
    set(&l, INFO, info, strlen(info));
    set(&l, RED, red, strlen(red));
    for (size_t i = 0; i < l.length[INFO]; i++)
        l.bytes[INFO][i] -= '0';
    for (size_t i = 0; i < l.length[RED]; i++)
        l.bytes[RED][i] -= '0';
    l.number[BLOCKS] = l.length[INFO];
    must(bauchleton_sizes(4, 1, 1, l.number[BLOCKS], of, BAUCHLETON_SIZES_ENTRIES) == 0, "sizes of a frame under K");
    with_work(&l, of[BAUCHLETON_SIZES_DECODE_WORK]);
    return l;
}

/* Rounds, turned, outside and stuck of frames under K: all differ in one of the rows. 0 rounds are 12 where the last is not idle. */
static void check_rows_of_k(const example *e)
{
    static const struct {
        const char *info, *red, *left_info, *left_red;
        uint64_t rounds, window, told[5];
    } rows[] = {
        { "01", "00010111", "01", "00010110", 0, 0, { 0, 2, 1, 0, 0 } },
        { "01", "00010111", "01", "00010110", 1, 0, { 0, 1, 1, 0, 0 } },
        { "00", "00000101", "01", "00000101", 0, 0, { 0, 2, 1, 1, 1 } },
        { "0000", "0000010100000000", "0000", "0000010100000000", 0, 0, { 0, 12, 0, 2, 1 } },
        { "0000", "0000010100000000", "0000", "0000010100000000", 12, 0, { 0, 12, 0, 2, 1 } },
        { "0000", "0000010100000000", "0000", "0000010100000000", 11, 0, { 0, 11, 0, 2, 1 } },
        { "0000", "0000010100000000", "0000", "0000010100000000", 64, 0, { 0, 64, 0, 2, 1 } },
        { "0000", "0000010100000000", "0000", "0000010100000000", 0, 1, { 0, 4, 0, 2, 0 } },
        { "0000", "0000010100000000", "0000", "0000010100000000", 0, 2, { 0, 12, 0, 2, 1 } },
        { "0100", "0001011100010011", "0100", "0001011000010011", 0, 1, { 0, 3, 1, 0, 0 } },
        { "0100", "0001011100010011", "0100", "0001011000010011", 0, 2, { 0, 2, 1, 0, 0 } },
    };
    for (size_t i = 0; i < sizeof rows / sizeof *rows; i++) {
        lent l = frame_under_k(e, rows[i].info, rows[i].red), after = frame_under_k(e, rows[i].left_info, rows[i].left_red);
        l.number[ROUNDS] = rows[i].rounds;
        l.number[WINDOW] = rows[i].window;
        accepted(rows[i].window ? &decode_window : &decode, &l, &after, rows[i].told);
    }
}

/* Lengths for K's design and for three of the paper's; 0 where the calls that are lent that length tell whether it is right. */
static void check_size_rows(void)
{
    static const uint64_t rows[][4 + BAUCHLETON_SIZES_ENTRIES] = {
        { 4, 1, 1, 1, 0, 4, 10, 6, 1, 8, 4, 1, 8, 4, 520, 4, 4, 0, 0, 1 },
        { 8, 3, 72, 31, 0, 24, 192, 168, 16, 3456, 373248, 160704, 55296, 373248, 857088, 373248, 1728, 0, 0, 216 },
        { 9, 3, 135, 32, 0, 27, 324, 297, 16, 7290, 1662120, 583200, 116640, 1662120, 3557712, 1662120, 3645, 0, 0, 456 },
        { 10, 2, 204, 4096, 0, 20, 448, 428, 2048, 8160, 2080800, 170459136, 16711680, 2080800, 4422720, 2080800, 4080, 0, 0, 510 },
    };
    for (size_t i = 0; i < sizeof rows / sizeof *rows; i++) {
        uint64_t told[BAUCHLETON_SIZES_ENTRIES];
        uint64_t rule = bauchleton_sizes(rows[i][0], rows[i][1], rows[i][2], rows[i][3], told, BAUCHLETON_SIZES_ENTRIES);
        cases++;
        now.call = "sizes";
        now.what = "a row by hand";
        now.place = i;
        for (int k = 0; k < BAUCHLETON_SIZES_ENTRIES; k++)
            if (rule != 0 || (rows[i][4 + k] != told[k] && (k == 0 || rows[i][4 + k] != 0)))
                tell("tells another length");
    }
}

static void check_spread_lists(void)
{
    lent l, after;
    memset(&l, 0, sizeof l);
    l.number[M] = 6, l.number[T] = 1, l.number[SIZE] = 12;
    for (int slot = SELF; slot <= PARITY; slot++)
        l.bytes[slot] = take(l.length[slot] = 144);
    after = l;
    for (int slot = SELF; slot <= PARITY; slot++) {
        after.bytes[slot] = take(144);
        for (size_t p = 0; p < 72; p++)
            put_entry(after.bytes[slot], p, p / 12 * 12 + (p % 12 + p / 12 + (slot == SELF ? 0 : 6)) % 12);
    }
    accepted(&spread_lists, &l, &after, (const uint64_t[]) { 0 });
    wrong_design();
    add(BAUCHLETON_NARROW, 11, NUMBER, SIZE, 0, 11);
    wrong_length(BAUCHLETON_PLACE_SELF, SELF);
    wrong_length(BAUCHLETON_PLACE_PARITY, PARITY);
    refusals(&spread_lists, &l);
}

/* Column word by column word: r rows in the order that is drawn, and the place that goes to each. */
static void check_mixed_lists(void)
{
    lent l, after;
    uint32_t state = 0x89ABCDEF;
    memset(&l, 0, sizeof l);
    l.number[M] = 6, l.number[T] = 1, l.number[SIZE] = 12, l.number[SEED] = state;
    for (int slot = SELF; slot <= PARITY; slot++)
        l.bytes[slot] = take(l.length[slot] = 144);
    after = l;
    for (int slot = SELF; slot <= PARITY; slot++) {
        after.bytes[slot] = take(144);
        for (unsigned c = 0; c < 12; c++) {
            unsigned row[6] = { 0, 1, 2, 3, 4, 5 };
            for (unsigned i = 5; i >= 1; i--) {
                unsigned other = draw(&state) % (i + 1), moved = row[i];
                row[i] = row[other];
                row[other] = moved;
            }
            for (unsigned j = 0; j < 6; j++)
                put_entry(after.bytes[slot], j * 12 + (24 + c - (slot == SELF ? 0 : 6) - j) % 12, row[j] * 12 + c);
        }
    }
    accepted(&mixed_lists, &l, &after, (const uint64_t[]) { 0, state });
    wrong_design();
    add(BAUCHLETON_NARROW, 11, NUMBER, SIZE, 0, 11);
    wrong_length(BAUCHLETON_PLACE_SELF, SELF);
    wrong_length(BAUCHLETON_PLACE_PARITY, PARITY);
    refusals(&mixed_lists, &l);
}

/* Two blocks of an original staircase frame, m 4, t 1, M 5: each row's last four bits are the remainder of the bits before them, column a of the block before
   and row a of the block, by x^4 + x + 1. */
/* Names of the rules, in a slice that is too short, just long enough and longer; numbers that no rule has. */
static void check_names(void)
{
    static const char *const names[] = { "accepted", "size", "long", "large", "count", "rounds", "length", "list", "spare", "inverse", "bit", "kit text",
                                         "block text", "input", "singular", "narrow", "full", "batch", "window", "thin", "", "" };
    enum { COUNT = sizeof names / sizeof *names };
    const size_t start = taken;
    for (uint64_t rule = 0; rule < COUNT; rule++)
        for (size_t room = 0; room <= BAUCHLETON_RULE_NAME_BYTES + 1; room++) {
            const size_t length = strlen(names[rule]);
            lent l, after;
            memset(&l, 0, sizeof l);
            must(length <= BAUCHLETON_RULE_NAME_BYTES, "a name is longer than the header says");
            l.number[WHICH] = rule == COUNT - 1 ? UINT64_MAX : rule;
            l.bytes[OUT] = take(l.length[OUT] = room);
            after = l;
            after.bytes[OUT] = copy(l.bytes[OUT], room);
            if (room >= length)
                memcpy(after.bytes[OUT], names[rule], length);
            now.what = "names";
            now.rule = now.place = 0;
            compare(&rule_name, &l, length, &after);
            taken = start;
        }
    must(bauchleton_version() == BAUCHLETON_VERSION, "the library has another version than the header");
}

static void check_originals(void)
{
    enum { SIDE = 5, R = 4, ORIGINAL_BLOCKS = 2, LENGTH = ORIGINAL_BLOCKS * SIDE * SIDE };
    const uint64_t none[5] = { 0 };
    uint32_t state = 7;
    lent l, after;
    memset(&l, 0, sizeof l);
    l.number[M] = 4, l.number[T] = 1, l.number[SIZE] = SIDE, l.number[BLOCKS] = ORIGINAL_BLOCKS;
    l.bytes[INFO] = take(l.length[INFO] = LENGTH);
    memset(l.bytes[INFO], 255, LENGTH);
    after = l;
    after.bytes[INFO] = take(LENGTH);
    for (int b = 0; b < ORIGINAL_BLOCKS; b++)
        for (int a = 0; a < SIDE; a++) {
            uint8_t *row = after.bytes[INFO] + (b * SIDE + a) * SIDE;
            unsigned rest = 0;
            for (int j = 0; j < 2 * SIDE; j++) {
                if (j >= SIDE && j < 2 * SIDE - R)
                    row[j - SIDE] = l.bytes[INFO][(b * SIDE + a) * SIDE + j - SIDE] = (uint8_t)step(&state);
                unsigned word_bit = j < SIDE ? (b == 0 ? 0 : row[(j - a - SIDE) * SIDE + a]) : j < 2 * SIDE - R ? row[j - SIDE] : 0;
                rest = 2 * rest + word_bit;
                rest ^= rest & 16 ? 0x13 : 0;
            }
            for (int j = 0; j < R; j++)
                row[SIDE - R + j] = rest >> (R - 1 - j) & 1;
        }
    accepted(&original_sizes, &l, &l, (const uint64_t[]) { 0, R, 2 * SIDE, LENGTH, 4 * ORIGINAL_BLOCKS * SIDE + (LENGTH + 7) / 8 });
    wrong_ranges();
    add(BAUCHLETON_LONG, 16, DESIGN_OF, 0, 0, 4001008);
    add(BAUCHLETON_THIN, 4, DESIGN_OF, 0, 0, 4001004);
    wrong_blocks();
    refusals(&original_sizes, &l);
    accepted(&original_encode, &l, &after, none);
    accepted(&original_check_words, &after, &after, none);
    for (int words = 0; words < 2; words++) {
        wrong_ranges();
        add(BAUCHLETON_LONG, 16, DESIGN_OF, 0, 0, 4001008);
        add(BAUCHLETON_THIN, 4, DESIGN_OF, 0, 0, 4001004);
        wrong_blocks();
        wrong_length(BAUCHLETON_PLACE_INFO, INFO);
        add(BAUCHLETON_BIT, 0, BYTE, INFO, 0, 2);
        add(BAUCHLETON_BIT, LENGTH - 1 - (words ? 0 : R), BYTE, INFO, LENGTH - 1 - (words ? 0 : R), 255);
        refusals(words ? &original_check_words : &original_encode, words ? &after : &l);
    }
    lent received = after;
    resize(&received, INFO, LENGTH);
    received.bytes[INFO][1] ^= 1;
    accepted(&original_check_words, &received, &received, (const uint64_t[]) { 0, 2 });
    with_work(&received, 4 * ORIGINAL_BLOCKS * SIDE + (LENGTH + 7) / 8);
    accepted(&original_decode, &received, &after, (const uint64_t[]) { 0, 2, 1, 0, 0 });
    received.number[ROUNDS] = 1;
    accepted(&original_decode, &received, &after, (const uint64_t[]) { 0, 1, 1, 0, 0 });
    wrong_ranges();
    add(BAUCHLETON_LONG, 16, DESIGN_OF, 0, 0, 4001008);
    add(BAUCHLETON_THIN, 4, DESIGN_OF, 0, 0, 4001004);
    wrong_blocks();
    wrong_rounds();
    wrong_length(BAUCHLETON_PLACE_INFO, INFO);
    wrong_length(BAUCHLETON_PLACE_WORK, WORK);
    wrong_bits(INFO, 0, LENGTH);
    refusals(&original_decode, &received);
}

static void check_tally_report(void)
{
    static const uint64_t tallies[][8] = { { 4, 40, 3, 6, 1, 1, 3, 40 }, { 0, 0, 7, 0, 0, 0, 0, 1 }, { 1, UINT64_MAX, UINT64_MAX, 2, 3, 4, 1, 1 } };
    lent l;
    memset(&l, 0, sizeof l);
    for (size_t i = 0; i < sizeof tallies / sizeof *tallies; i++) {
        uint64_t told[9] = { 0 };
        memcpy(told + 1, tallies[i], 64);
        set(&l, TALLY, tallies[i], 48);
        accepted(&tally_report, &l, &l, told);
    }
    wrong_length(BAUCHLETON_PLACE_TALLY, TALLY);
    refusals(&tally_report, &l);
}

/* A report is read as its bytes say. */
static void check_report_numbers(void)
{
    uint8_t report[BAUCHLETON_REPORT_BYTES];
    for (unsigned i = 0; i < sizeof report; i++)
        report[i] = (uint8_t)(0xF7 - i);
    must(bauchleton_report_number(report, BAUCHLETON_REPORT_PLACE) == UINT64_C(0xF0F1F2F3F4F5F6F7)
         && bauchleton_report_number(report, BAUCHLETON_REPORT_STUCK) == UINT64_C(0xD0D1D2D3D4D5D6D7), "a number of a report is read wrongly");
}

int main(int count, char **argument)
{
    static example e;
    struct sigaction fault_action;
    memory = count < 3 ? -1 : strcmp(argument[1], "end") == 0 ? END : strcmp(argument[1], "start") == 0 ? START : strcmp(argument[1], "heap") == 0 ? HEAP : -1;
    if (memory < 0) {
        fprintf(stderr, "calls end|start|heap EXAMPLE..\n");
        return 2;
    }
    memset(&fault_action, 0, sizeof fault_action);
    fault_action.sa_handler = on_fault;
    sigaction(SIGSEGV, &fault_action, NULL);
    sigaction(SIGBUS, &fault_action, NULL);
    make_rooms();
    folder = "rows by hand";
    check_report_numbers();
    check_size_rows();
    check_spread_lists();
    check_mixed_lists();
    check_tally_report();
    check_originals();
    check_names();
    check_lines();
    for (int i = 2; i < count; i++) {
        static void (*const checks[])(const example *) = { check_sizes, check_kits, check_encoders, check_word_checker, check_decoders, check_loopback,
                                                           check_showing, check_loads, check_buffers, check_readers, check_kit_writers, check_programs };
        taken = 0;
        folder = argument[i];
        load(&e);
        for (size_t k = 0; k < sizeof checks / sizeof *checks; k++) {
            const size_t start = taken;
            checks[k](&e);
            taken = start;
        }
        if (e.order == 4)
            check_rows_of_k(&e);
    }
    printf("%s: %u calls from C, %u differences\n", argument[1], cases, wrong);
    return wrong != 0;
}
