/* bauchleton-kit: makes the kit of a design from a seed, or judges a kit file.

       bauchleton-kit -d m,t,M [-s SEED] [-i mixed|random] [-t TRIES] [-o FILE]
       bauchleton-kit --check FILE

   The inverse, the text, its reading and the verdict are made by proved calls of the library; lists, options and files are C, which is tested. */

#define _POSIX_C_SOURCE 200809L
#include "common.h"

#include <getopt.h>
#include <inttypes.h>
#include <stdlib.h>
#include <string.h>

const char program[] = "bauchleton-kit";

static const char usage[] =
    "usage: bauchleton-kit -d m,t,M [-s SEED] [-i mixed|random] [-t TRIES] [-o FILE] [-q]\n"
    "       bauchleton-kit --check FILE [-q]\n"
    "\n"
    "Makes a kit: tries the lists of SEED, SEED + 1, .. until some have an inverse, and writes the kit text.\n"
    "With --check judges a kit text of any size.\n"
    "\n"
    "  -d, --design m,t,M        the design, as in 8,3,72\n"
    "  -s, --seed SEED           first seed, 0 to 4294967295; 1\n"
    "  -i, --lists mixed|random  kind of lists; mixed where 2 r is at most M (r = m t), else random\n"
    "  -t, --tries TRIES         most seeds that are tried; 1000\n"
    "  -o, --output FILE         where the kit goes; standard output if not given\n"
    "  -c, --check FILE          judges FILE, '-' for standard input\n"
    "  -q, --quiet               no messages but errors\n"
    "  -h, --help                this text\n"
    "  -V, --version             the version\n"
    "\n"
    "Exit status: 0; 1 a refusal was printed, its rule and place; 2 wrong options, or an input or output that failed.\n";

/* Prints the two lines of a refusal, as bauchleton-makekit does, and its words for a reader. */
static int print_refusal(const char *what, uint64_t rule, uint64_t place)
{
    uint8_t lines[64];
    const size_t length = bauchleton_refusal_lines(lines, sizeof lines, 0, rule, place);
    fwrite(lines, 1, length, stdout);
    close_output(stdout, "-");
    fprintf(stderr, "%s: %s: rule %" PRIu64 ", %s\n", program, what, rule, rule_words(rule));
    return STATUS_REFUSED;
}

static void describe(FILE *file, const kit *k)
{
    fprintf(file, "m %" PRIu64 ", t %" PRIu64 ", M %" PRIu64 ": n %" PRIu64 ", r %" PRIu64 ", inverse of %" PRIu64 " rows; stall patterns of %" PRIu64
                  " bits in two words: %" PRIu64 " in a group\n",
            k->m, k->t, k->size, k->sizes[BAUCHLETON_SIZES_N], k->r, k->order, k->t + 1, kit_stalls(k));
}

static int check(const char *path, int quiet)
{
    kit k = {0};
    size_t length;
    uint64_t place;
    uint8_t *text = read_file(path, &length);
    uint64_t rule = kit_read(&k, text, length, &place);
    if (rule == BAUCHLETON_ACCEPTED)
        rule = kit_check(&k, &place);
    free(text);
    if (rule != BAUCHLETON_ACCEPTED) {
        kit_free(&k);
        return print_refusal(path, rule, place);
    }
    if (!quiet) {
        fputs("passed: ", stdout);
        describe(stdout, &k);
    }
    close_output(stdout, "-");
    kit_free(&k);
    return 0;
}

/* Ends the program unless the text is read back as the kit and passes. */
static void read_back(const uint8_t *text, size_t length)
{
    kit again = {0};
    uint64_t place, rule = kit_read(&again, text, length, &place);
    if (rule == BAUCHLETON_ACCEPTED)
        rule = kit_check(&again, &place);
    if (rule != BAUCHLETON_ACCEPTED)
        refused("the kit that was made", rule, place);
    kit_free(&again);
}

static int make(const uint64_t *design, list_kind lists, uint32_t seed, uint64_t tries, const char *path, int quiet)
{
    kit k = {.m = design[0], .t = design[1], .size = design[2], .lists = lists, .seed = seed};
    size_t length;
    uint64_t place;
    const uint64_t rule = kit_make(&k, tries, quiet, &place);
    if (rule != BAUCHLETON_ACCEPTED) {
        char what[64];
        if (rule == BAUCHLETON_SINGULAR)
            snprintf(what, sizeof what, "no inverse for %" PRIu64 " seed%s, the last %" PRIu32, k.tries, k.tries == 1 ? "" : "s", k.seed);
        else
            snprintf(what, sizeof what, "m %" PRIu64 ", t %" PRIu64 ", M %" PRIu64, k.m, k.t, k.size);
        kit_free(&k);
        return print_refusal(what, rule, place);
    }
    uint8_t *text = kit_text(&k, &length);
    read_back(text, length);
    FILE *file = open_output(path);
    fwrite(text, 1, length, file);
    close_output(file, path);
    if (!quiet) {
        fprintf(stderr, "%s: %s lists of seed %" PRIu32 " (%" PRIu64 " tried); ", program, lists_name(k.lists), k.seed, k.tries);
        describe(stderr, &k);
    }
    free(text);
    kit_free(&k);
    return 0;
}

int main(int argc, char **argv)
{
    static const struct option options[] = {
        {"design", required_argument, NULL, 'd'}, {"seed", required_argument, NULL, 's'},   {"lists", required_argument, NULL, 'i'},
        {"tries", required_argument, NULL, 't'},  {"output", required_argument, NULL, 'o'}, {"check", required_argument, NULL, 'c'},
        {"quiet", no_argument, NULL, 'q'},        {"help", no_argument, NULL, 'h'},         {"version", no_argument, NULL, 'V'},
        {NULL, 0, NULL, 0},
    };
    uint64_t design[3], tries = MOST_TRIES;
    uint32_t seed = 1;
    const char *path = "-", *checked = NULL;
    list_kind lists = LISTS_DEFAULT;
    int option, made = 0, designed = 0, quiet = 0;
    while ((option = getopt_long(argc, argv, "d:s:i:t:o:c:qhV", options, NULL)) != -1) {
        made |= strchr("dsito", option) != NULL;
        switch (option) {
        case 'd': design_of("--design", optarg, design); designed = 1; break;
        case 's': seed = (uint32_t)number("--seed", optarg, 0, UINT32_MAX); break;
        case 'i': lists = lists_of("--lists", optarg); break;
        case 't': tries = number("--tries", optarg, 1, UINT32_MAX); break;
        case 'o': path = optarg; break;
        case 'c': checked = optarg; break;
        case 'q': quiet = 1; break;
        case 'h': fputs(usage, stdout); close_output(stdout, "-"); return 0;
        case 'V': puts("bauchleton-kit " BAUCHLETON_VERSION_TEXT); close_output(stdout, "-"); return 0;
        default: fprintf(stderr, "Try '%s --help'.\n", program); return STATUS_WRONG;
        }
    }
    if (optind < argc)
        fail(STATUS_WRONG, "'%s': only options are taken; try '%s --help'", argv[optind], program);
    if (checked != NULL && made)
        fail(STATUS_WRONG, "--check goes alone: it makes no kit");
    if (checked != NULL)
        return check(checked, quiet);
    if (!designed)
        fail(STATUS_WRONG, "no design: -d m,t,M, as in -d 8,3,72; try '%s --help'", program);
    return make(design, lists, seed, tries, path, quiet);
}
