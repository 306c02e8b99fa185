/* The table of a waterfall: a point for each curve and each rate of the line, as CSV.

   table_curve    finds or adds a curve
   table_add      adds counts to the point of a curve and a rate
   table_read     adds the points of a CSV file
   table_write    the CSV: a head, and a line for each point
   low, high      95 % confidence limits of a rate

   A line of CSV has what names its curve, the shares of the frames that it has counted, the rate of the line in units of 1e-9, whole numbers that add up from
   share to share, and rates that follow from these. */

#ifndef TABLE_H
#define TABLE_H

#include <stddef.h>
#include <stdint.h>
#include <stdio.h>

/* What names a curve, each a short text. */
enum { KEY_DECODER, KEY_M, KEY_T, KEY_SIZE, KEY_BLOCKS, KEY_ROUNDS, KEY_LISTS, KEY_KIT, KEY_ENDING, KEY_DRAW, KEYS };
enum { KEY_ROOM = 32 };

/* What is counted. */
enum {
    COUNT_FRAMES,
    COUNT_BAD_FRAMES,            /* with a wrong information bit in a counted block */
    COUNT_LAST_ALONE,            /* of these, frames whose last counted block alone is wrong */
    COUNT_BLOCKS,
    COUNT_BAD_BLOCKS,
    COUNT_BAD_BLOCKS_SQUARED,    /* sum over frames, for the confidence bars */
    COUNT_BITS,                  /* information bits of counted blocks */
    COUNT_WRONG_BITS,
    COUNT_WRONG_BITS_SQUARED,
    COUNT_LINE_BITS,             /* sent bits */
    COUNT_LINE_ERRORS,           /* sent bits that the line turned */
    COUNT_ROUNDS,                /* rounds made */
    COUNTS
};

typedef struct {
    char key[KEYS][KEY_ROOM];
} curve;

/* Share `part` of `parts` of the frames of a seed. */
typedef struct {
    uint64_t seed, part, parts;
} share;

typedef struct {
    size_t curve;
    uint64_t rate;               /* of the line, in units of 1e-9 */
    share *shares;               /* sorted, no two with a frame in common */
    size_t share_count;
    uint64_t fewest, most;       /* frames of a share */
    uint64_t count[COUNTS];
} point;

typedef struct {
    curve *curves;
    size_t curve_count;
    point *points;
    size_t point_count;
} table;

size_t table_curve(table *t, const curve *c);

/* Adds to a point, which is made where there is none. `from` is named where the shares have frames in common, which ends the program. */
void table_add(table *t, size_t curve_index, uint64_t rate, const share *shares, size_t share_count, const uint64_t *count, const char *from);

/* Ends the program where the file is not such a CSV. Heads may stand anywhere, so that files may be joined by cat. */
void table_read(table *t, const char *path);

/* Joins the shares of a seed that are all there, and tells on standard error what is missing. */
void table_finish(table *t, int quiet);

void table_head(FILE *file);
void table_line(FILE *file, const table *t, const point *p);

void table_free(table *t);

double ratio(uint64_t top, uint64_t bottom);

/* Limits of bad frames in frames (Wilson's interval). */
double frames_low(const uint64_t *count);
double frames_high(const uint64_t *count);

/* Limits of a rate that is counted by events of several at once, relative to the rate: the sum of the events and that of their squares, which give the
   number of single events that would scatter as much, and then Byar's approximation for that number. */
double events_low(uint64_t sum, uint64_t squares);
double events_high(uint64_t sum, uint64_t squares);

#endif
