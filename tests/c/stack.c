/* How much stack the calls use, measured on a thread's stack that is painted beforehand, beside what the header names: calls on frames of M 72, which use all
   their tables, on original frames of M 127, and on the texts of a folder.
       stack FOLDER
   Prints a line for each call. Exit status 1 where a call uses more than the header says, or where none uses a quarter of it. */
#include "bauchleton.h"

#include <pthread.h>
#include <stdio.h>
#include <stdlib.h>
#include <string.h>
#include <sys/mman.h>

enum { STACK = 1 << 20, GUARD = 1 << 16, PAINT = 0xA5, M = 8, T = 3, SIZE = 72, BLOCKS = 32, WINDOW = 4, ORIGINAL_SIZE = 127, ORIGINAL_BLOCKS = 64 };

struct text {
    uint8_t bytes[BAUCHLETON_MAX_INPUT];
    size_t length;
};

static uint8_t *self, *parity, *inverse, *info, *red, *work, *original, *kit_text, *out, *stack;
static uint8_t report[BAUCHLETON_REPORT_BYTES];
static uint64_t sizes[BAUCHLETON_SIZES_ENTRIES], tally[BAUCHLETON_TALLY_ENTRIES], answer[2], refused;
static const size_t original_length = (size_t)ORIGINAL_BLOCKS * ORIGINAL_SIZE * ORIGINAL_SIZE;
static size_t kit_text_length;
static struct text kit, blocks, received, lists;

#define DESIGN M, T, SIZE
#define LISTS self, sizes[BAUCHLETON_SIZES_LIST], parity, sizes[BAUCHLETON_SIZES_LIST]
#define INVERSE inverse, sizes[BAUCHLETON_SIZES_INVERSE]
#define INFO info, sizes[BAUCHLETON_SIZES_INFO]
#define RED red, sizes[BAUCHLETON_SIZES_RED]
#define WORK(call) work, sizes[BAUCHLETON_SIZES_##call##_WORK]
#define REPORT report, sizeof report
#define TEXT(text) text.bytes, text.length

static void nothing(void) {}
static void check_kit(void) { refused |= bauchleton_check_kit(DESIGN, LISTS, INVERSE, WORK(CHECK_KIT), REPORT); }
static void make_inverse(void) { refused |= bauchleton_make_inverse(DESIGN, LISTS, INVERSE, WORK(MAKE_INVERSE), answer, 1); }
static void encode(void) { refused |= bauchleton_encode(DESIGN, BLOCKS, LISTS, INVERSE, INFO, RED, WORK(ENCODE), REPORT); }
static void encode_batch(void) { refused |= bauchleton_encode_batch(DESIGN, BLOCKS, 1, LISTS, INVERSE, INFO, RED, WORK(ENCODE), REPORT); }
static void check_words(void) { refused |= bauchleton_check_words(DESIGN, BLOCKS, LISTS, INFO, RED, WORK(CHECK_WORDS), answer, 2); }
static void decode(void) { refused |= bauchleton_decode(DESIGN, BLOCKS, 0, LISTS, INFO, RED, WORK(DECODE), REPORT); }
static void decode_window(void) { refused |= bauchleton_decode_window(DESIGN, BLOCKS, 0, WINDOW, LISTS, INFO, RED, WORK(DECODE), REPORT); }
static void decode_tallied(void)
{
    refused |= bauchleton_decode_tallied(DESIGN, BLOCKS, 0, LISTS, INFO, RED, WORK(DECODE), tally, BAUCHLETON_TALLY_ENTRIES, REPORT);
}
static void loopback(void) { refused |= bauchleton_loopback(DESIGN, BLOCKS, 0, LISTS, INVERSE, NULL, 0, NULL, 0, INFO, RED, WORK(LOOPBACK), NULL, 0); }
static void original_encode(void) { refused |= bauchleton_original_encode(M, T, ORIGINAL_SIZE, ORIGINAL_BLOCKS, original, original_length, REPORT); }
static void original_check_words(void)
{
    refused |= bauchleton_original_check_words(M, T, ORIGINAL_SIZE, ORIGINAL_BLOCKS, original, original_length, answer, 2);
}
static void original_decode(void)
{
    size_t length = 4 * ORIGINAL_BLOCKS * ORIGINAL_SIZE + (original_length + 7) / 8;
    refused |= bauchleton_original_decode(M, T, ORIGINAL_SIZE, ORIGINAL_BLOCKS, 0, original, original_length, work, length, REPORT);
}
static void write_kit(void) { refused |= bauchleton_write_kit(DESIGN, LISTS, INVERSE, kit_text, kit_text_length, answer, 1); }
static void makekit(void) { refused |= bauchleton_makekit(TEXT(lists), out, BAUCHLETON_OUTPUT) == 0 || out[0] == 'r'; }
static void frame(void) { refused |= bauchleton_frame(TEXT(kit), TEXT(blocks), out, BAUCHLETON_OUTPUT) == 0 || out[0] == 'r'; }
static void mend(void) { refused |= bauchleton_mend(TEXT(kit), TEXT(received), out, BAUCHLETON_OUTPUT) == 0 || out[0] == 'r'; }

static const struct {
    const char *name;
    void (*call)(void);
} calls[] = {{"check_kit", check_kit}, {"make_inverse", make_inverse}, {"encode", encode}, {"encode_batch", encode_batch}, {"check_words", check_words},
             {"decode", decode}, {"decode_window", decode_window}, {"decode_tallied", decode_tallied}, {"loopback", loopback},
             {"original_encode", original_encode}, {"original_check_words", original_check_words}, {"original_decode", original_decode},
             {"write_kit", write_kit}, {"makekit", makekit}},
  programs[] = {{"frame", frame}, {"mend", mend}};

static void *run(void *call)
{
    (*(void (**)(void))call)();
    return NULL;
}

/* The bytes of a painted stack that a thread writes which makes one call. */
static size_t painted(void (*call)(void))
{
    pthread_attr_t attributes;
    pthread_t thread;
    size_t clean = 0;
    memset(stack, PAINT, STACK);
    if (pthread_attr_init(&attributes) != 0 || pthread_attr_setstack(&attributes, stack, STACK) != 0 || pthread_create(&thread, &attributes, run, &call) != 0
        || pthread_join(thread, NULL) != 0)
        exit(2);
    while (clean < STACK && stack[clean] == PAINT)
        clean++;
    return STACK - clean;
}

/* Frames of zeros, whose redundancy is zero too, with wrong bits for the decoders. */
static void receive(void)
{
    memset(info, 0, sizes[BAUCHLETON_SIZES_INFO]);
    memset(red, 0, sizes[BAUCHLETON_SIZES_RED]);
    memset(original, 0, original_length);
    for (size_t k = 0; k < sizes[BAUCHLETON_SIZES_INFO]; k += 397)
        info[k] = 1;
    for (size_t k = 0; k < original_length; k += 397)
        original[k] = 1;
}

/* Prints what a call uses; 1 where that is more than `most` bytes. */
static int measure(const char *name, void (*call)(void), size_t most, size_t *largest)
{
    size_t used;
    receive();
    used = painted(call) - painted(nothing);
    printf("bauchleton_%s %zu\n", name, used);
    if (used > *largest)
        *largest = used;
    if (used > most)
        printf("bauchleton_%s uses %zu bytes of stack, and the header names %zu\n", name, used, most);
    return used > most;
}

static void *room(size_t bytes)
{
    void *p = calloc(bytes, 1);
    if (p == NULL)
        exit(2);
    return p;
}

static void read_text(const char *folder, const char *name, struct text *text)
{
    char path[4096];
    FILE *file;
    snprintf(path, sizeof path, "%s/%s", folder, name);
    file = fopen(path, "rb");
    if (file == NULL)
        exit(2);
    text->length = fread(text->bytes, 1, sizeof text->bytes, file);
    fclose(file);
}

/* A permutation of the numbers of a list by draws from a seed. */
static void shuffle(uint8_t *list, size_t entries, uint32_t *state)
{
    for (size_t i = 0; i < entries; i++) {
        list[2 * i] = (uint8_t)i;
        list[2 * i + 1] = (uint8_t)(i >> 8);
    }
    for (size_t i = entries - 1; i > 0; i--) {
        size_t j = ((*state = *state * 1664525 + 1013904223) >> 8) % (i + 1);
        for (size_t k = 0; k < 2; k++) {
            uint8_t kept = list[2 * i + k];
            list[2 * i + k] = list[2 * j + k];
            list[2 * j + k] = kept;
        }
    }
}

int main(int argc, char **argv)
{
    uint32_t state = 1;
    size_t largest = 0, largest_program = 0;
    int wrong = 0;
    if (argc != 2 || bauchleton_sizes(DESIGN, BLOCKS, sizes, BAUCHLETON_SIZES_ENTRIES) != 0)
        return 2;
    read_text(argv[1], "kit.txt", &kit);
    read_text(argv[1], "blocks.txt", &blocks);
    read_text(argv[1], "received.txt", &received);
    read_text(argv[1], "lists.txt", &lists);
    self = room(sizes[BAUCHLETON_SIZES_LIST]);
    parity = room(sizes[BAUCHLETON_SIZES_LIST]);
    inverse = room(sizes[BAUCHLETON_SIZES_INVERSE]);
    info = room(sizes[BAUCHLETON_SIZES_INFO]);
    red = room(sizes[BAUCHLETON_SIZES_RED]);
    work = room(sizes[BAUCHLETON_SIZES_MAKE_INVERSE_WORK]);
    original = room(original_length);
    out = room(BAUCHLETON_OUTPUT);
    do {
        shuffle(self, sizes[BAUCHLETON_SIZES_LIST] / 2, &state);
        shuffle(parity, sizes[BAUCHLETON_SIZES_LIST] / 2, &state);
        refused = 0;
        make_inverse();
    } while (refused == BAUCHLETON_SINGULAR);
    if (bauchleton_kit_text_length(DESIGN, LISTS, answer, 2) != 0)
        return 2;
    kit_text_length = answer[1];
    kit_text = room(kit_text_length);
    stack = mmap(NULL, GUARD + STACK, PROT_READ | PROT_WRITE, MAP_PRIVATE | MAP_ANONYMOUS, -1, 0);
    if (stack == MAP_FAILED || mprotect(stack, GUARD, PROT_NONE) != 0)
        return 2;
    stack += GUARD;

    for (size_t k = 0; k < sizeof calls / sizeof *calls; k++)
        wrong |= measure(calls[k].name, calls[k].call, BAUCHLETON_STACK_BYTES, &largest);
    for (size_t k = 0; k < sizeof programs / sizeof *programs; k++)
        wrong |= measure(programs[k].name, programs[k].call, BAUCHLETON_PROGRAM_STACK_BYTES, &largest_program);
    if (refused != 0) {
        printf("a call was refused, so that less of it was measured\n");
        wrong = 1;
    }
    if (largest < BAUCHLETON_STACK_BYTES / 4 || largest_program < BAUCHLETON_PROGRAM_STACK_BYTES / 4) {
        printf("no call uses a quarter of what the header names\n");
        wrong = 1;
    }
    return wrong;
}
