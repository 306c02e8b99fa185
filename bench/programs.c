/* programs FRAME PLAIN_FRAME MEND PLAIN_MEND: the library's two programs beside the plain ones, each given as a path. They get the longest kit text
   that a program reads, and under it the longest text of blocks, and of blocks with their groups and with errors. Prints ratios of the library's
   time to the plain one's, and stops with 1 if two outputs differ or are a refusal. A time is the processor's for the whole program, the least of
   several turns, in which the programs take turns. Starting a program takes a good part of it; without arguments programs does nothing, and a
   second ratio leaves out what that takes. gcc -O3 -o programs programs.c plain_text.c plain.c */

#define _GNU_SOURCE             /* wait4 */

#include "plain_text.h"

#include <fcntl.h>
#include <spawn.h>
#include <stdio.h>
#include <stdlib.h>
#include <string.h>
#include <sys/resource.h>
#include <sys/wait.h>
#include <unistd.h>

enum { TURNS = 100, ROOM = 2 * PLAIN_INPUT, MAX_SIZE = 181 };   /* an inverse of 182 rows has more bits than a program reads bytes */

enum { SEED = 1, ERROR_SEED = 2, ERROR_LIMIT = 66 };      /* about one bit in 1,000 is turned */

static uint8_t self[2 * MAX_SIZE], parity[2 * MAX_SIZE], inverse[MAX_SIZE * ((MAX_SIZE + 7) / 8)];
static uint8_t info[ROOM], red[ROOM], kit_text[ROOM], text[ROOM], outputs[2][PLAIN_OUTPUT];
static size_t kit_length, text_length;

/* ---- Files: the programs run in a folder of their own ---- */

static char folder[] = P_tmpdir "/programs-XXXXXX";
static const char kit_file[] = "kit.txt", input_file[] = "input.txt", *const output_file[] = { "library.txt", "plain.txt", "nothing.txt" };

static void stop(const char *what)
{
    perror(what);
    exit(1);
}

static void remove_folder(void)
{
    unlink(kit_file);
    unlink(input_file);
    for (unsigned i = 0; i < 3; i++)
        unlink(output_file[i]);
    rmdir(folder);
}

static void enter_folder(void)
{
    if (!mkdtemp(folder) || chdir(folder) != 0)
        stop(folder);
    atexit(remove_folder);
}

static void save(const char *name, const uint8_t *bytes, size_t length)
{
    FILE *file = fopen(name, "wb");
    if (!file || fwrite(bytes, 1, length, file) != length || fclose(file) != 0)
        stop(name);
}

static size_t load(const char *name, uint8_t *bytes)
{
    FILE *file = fopen(name, "rb");
    if (!file)
        stop(name);
    size_t length = fread(bytes, 1, PLAIN_OUTPUT, file);
    fclose(file);
    return length;
}

/* ---- Inputs ---- */

/* Makes the kit whose text is the longest that a program reads. The length is the same for all permutations, so the first lists are taken that have
   an inverse. */
static plain_kit make_kit(plain_sizes *s)
{
    plain_kit k = { 0 };
    uint64_t place;
    for (unsigned m = 4; m <= 10; m++)
        for (unsigned t = 1; t <= 3; t++)
            for (unsigned M = 1; plain_design(m, t, M, s, &place) == 0 && s->size <= MAX_SIZE; M++) {
                plain_random_lists(m, t, M, 1, self, parity);
                size_t length = plain_kit_text(kit_text, m, t, M, self, parity, inverse) - kit_text;
                if (length > kit_length && length <= PLAIN_INPUT) {
                    kit_length = length;
                    k = (plain_kit){ m, t, M, 0 };
                }
            }
    do
        plain_random_lists(k.m, k.t, k.M, ++k.seed, self, parity);
    while (!plain_make_inverse(k.m, k.t, k.M, self, parity, inverse));
    plain_kit_text(kit_text, k.m, k.t, k.M, self, parity, inverse);
    plain_design(k.m, k.t, k.M, s, &place);
    return k;
}

/* Makes the text of so many blocks, and of their groups where the program wants them. */
static void make_text(unsigned M, unsigned size, unsigned L, int with_groups)
{
    uint8_t *end = plain_block_text(text, M, L, info);
    text_length = (with_groups ? plain_group_text(end, size, L, red) : end) - text;
}

/* The number of blocks of the longest such text that a program reads. */
static unsigned most_blocks(unsigned M, unsigned size, int with_groups)
{
    unsigned L = 0;
    do
        make_text(M, size, L + 1, with_groups);
    while (text_length <= PLAIN_INPUT && ++L < PLAIN_MAX_L);
    return L;
}

/* Turns bits by the test load from `seed` on, which becomes its last state; returns their number. */
static unsigned add_errors(uint8_t *bits, size_t count, uint32_t *seed)
{
    unsigned errors = 0;
    for (size_t i = 0; i < count; i++) {
        uint8_t sent = bits[i];
        *seed = plain_load_errors(*seed, ERROR_LIMIT, bits + i, 1);
        errors += bits[i] != sent;
    }
    return errors;
}

/* ---- Runs ---- */

/* Runs a program and returns its time in seconds. */
static double run(const char *path, const char *output)
{
    char *arguments[] = { (char *)path, NULL }, *environment[] = { NULL };
    posix_spawn_file_actions_t files;
    struct rusage used;
    pid_t child;
    int status;
    if (posix_spawn_file_actions_init(&files) != 0 || posix_spawn_file_actions_addopen(&files, 0, input_file, O_RDONLY, 0) != 0
        || posix_spawn_file_actions_addopen(&files, 1, output, O_WRONLY | O_CREAT | O_TRUNC, 0600) != 0
        || posix_spawn(&child, path, &files, NULL, arguments, environment) != 0 || wait4(child, &status, 0, &used) != child || status != 0) {
        fprintf(stderr, "%s cannot be run\n", path);
        exit(1);
    }
    posix_spawn_file_actions_destroy(&files);
    return used.ru_utime.tv_sec + used.ru_stime.tv_sec + (used.ru_utime.tv_usec + used.ru_stime.tv_usec) * 1e-6;
}

/* Runs the library's program and the plain one on kit and text and prints their times; returns whether their outputs differ or are a refusal. */
static int compare(const char *library, const char *plain, const char *nothing)
{
    const char *const path[] = { library, plain, nothing };
    double least[] = { 1e9, 1e9, 1e9 };
    save(kit_file, kit_text, kit_length);
    save(input_file, text, text_length);
    for (unsigned turn = 0; turn < TURNS; turn++)
        for (unsigned i = 0; i < 3; i++) {
            double time = run(path[i], output_file[i]);
            least[i] = time < least[i] ? time : least[i];
        }
    printf("%.0f us, plain %.0f us, ratio %.2f; less the %.0f us of a program that does nothing, ratio %.2f\n", least[0] * 1e6, least[1] * 1e6,
           least[0] / least[1], least[2] * 1e6, (least[0] - least[2]) / (least[1] - least[2]));
    size_t length = load(output_file[0], outputs[0]);
    return load(output_file[1], outputs[1]) != length || memcmp(outputs[0], outputs[1], length) != 0 || memcmp(outputs[0], "refused", 7) == 0;
}

int main(int count, char **argument)
{
    char *path[5];
    plain_sizes s;
    uint32_t seed = ERROR_SEED;
    if (count == 1)
        return 0;
    if (count != 5) {
        fprintf(stderr, "programs FRAME PLAIN_FRAME MEND PLAIN_MEND\n");
        return 2;
    }
    for (unsigned i = 0; i < 5; i++)
        if (!(path[i] = realpath(argument[i], NULL)))
            stop(argument[i]);
    enter_folder();

    plain_kit k = make_kit(&s);
    printf("m %u t %u M %u, %u rows, kit text of %zu bytes:\n", k.m, k.t, k.M, s.size, kit_length);
    plain_load_fill(SEED, info, ROOM);

    unsigned L = most_blocks(k.M, s.size, 0);
    make_text(k.M, s.size, L, 0);
    printf("  program frame, %u blocks: ", L);
    int differ = compare(path[1], path[2], path[0]);

    L = most_blocks(k.M, s.size, 1);
    plain_encode(k.m, k.t, k.M, L, self, parity, inverse, info, red);
    unsigned errors = add_errors(info, (size_t)L * k.M * k.M, &seed);
    errors += add_errors(red, (L + 1) / 2 * 2 * (size_t)s.size, &seed);
    make_text(k.M, s.size, L, 1);
    printf("  program mend, %u blocks with %u errors: ", L, errors);
    differ |= compare(path[3], path[4], path[0]);

    for (unsigned i = 0; i < 5; i++)
        free(path[i]);
    if (differ)
        printf("outputs differ or are refusals\n");
    return differ;
}
