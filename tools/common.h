/* What bauchleton-kit and bauchleton-waterfall share.

   fail, refused       messages that end the program
   take                memory, or the end of the program
   read_file           a file of any size
   number, decimal     the value of an option
   rule_words          a rule in words
   kit_*               a kit: made from a seed, read from a file, judged, written

   Exit status of both programs: 0; 1 where the library refuses; 2 for wrong options, or for an input or output that fails. */

#ifndef COMMON_H
#define COMMON_H

#include "bauchleton.h"

#include <stdio.h>

enum { STATUS_REFUSED = 1, STATUS_WRONG = 2 };
enum { MOST_TRIES = 1000 };             /* seeds that are tried for a kit: of mixed and of random lists about 3 in 10 have an inverse */

extern const char program[];            /* the program's name, for messages */

#if defined(__GNUC__)
__attribute__((format(printf, 2, 3), noreturn))
#endif
void fail(int status, const char *words, ...);

/* Ends the program with the words of a refusal: `what` is the call, the option or the file. */
#if defined(__GNUC__)
__attribute__((noreturn))
#endif
void refused(const char *what, uint64_t rule, uint64_t place);

const char *rule_words(uint64_t rule);

void *take(size_t count, size_t bytes);

/* The bytes of a file, "-" for standard input. */
uint8_t *read_file(const char *path, size_t *length);

/* Opens a file for writing, "-" for standard output; ends the program where that fails, or where not all was written. */
FILE *open_output(const char *path);
void close_output(FILE *file, const char *path);

/* A whole number of digits alone, from least to most; a number with a decimal point or exponent. `option` is named where it is wrong. */
uint64_t number(const char *option, const char *text, uint64_t least, uint64_t most);
double decimal(const char *option, const char *text);

/* Three numbers m,t,M. Whether they are a design is the library's to judge. */
void design_of(const char *option, const char *text, uint64_t *design);

typedef enum { LISTS_DEFAULT, LISTS_MIXED, LISTS_RANDOM, LISTS_FILE } list_kind;

list_kind lists_of(const char *option, const char *text);
const char *lists_name(list_kind lists);

typedef struct {
    uint64_t m, t, size, r, order;
    list_kind lists;
    uint32_t seed;                              /* of the lists, where they were made */
    uint64_t tries;                             /* seeds that were tried, with the last */
    uint64_t sizes[BAUCHLETON_SIZES_ENTRIES];   /* for one block */
    size_t list_bytes, inverse_bytes;
    uint8_t *self, *parity, *inverse;
} kit;

/* Each returns 0 or the rule that refuses, with its place. kit_make tries the seeds from k.seed on, wrapping at 2^32, and shows on a terminal how far it
   is unless `quiet`; k.lists of LISTS_DEFAULT becomes mixed lists where 2 r is at most M, else random ones. */
uint64_t kit_make(kit *k, uint64_t tries, int quiet, uint64_t *place);
uint64_t kit_read(kit *k, const uint8_t *text, size_t length, uint64_t *place);
uint64_t kit_check(const kit *k, uint64_t *place);

/* The kit as text. */
uint8_t *kit_text(const kit *k, size_t *length);

/* The smallest stall patterns in a group: ways to choose a row word, a column word and t + 1 sent bits that are in both. */
uint64_t kit_stalls(const kit *k);

/* A number that tells kits apart: a hash (FNV-1a) of design and lists. */
uint64_t kit_hash(const kit *k);

void kit_free(kit *k);

#endif
