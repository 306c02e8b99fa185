/* Bauchleton: proved encoding and decoding of feed-forward staircase frames, for a host in C or C++.

   Link libbauchleton, static or shared: `pkg-config --cflags --libs bauchleton`. The header is C99 and C++11 and later. bauchleton(7) is the manual page,
   and each call has one in section 3; docs/REFERENCE.md has every bit of a kit and of a frame, every length and every refusal; examples/first.c is
   a first program, examples/bench.c a whole bench.

   Slices. A slice is a pointer and a length: bytes for uint8_t, entries for uint64_t. No two slices of a call may overlap, and what is const is read only.
   Any length may be passed, also 0 with a null pointer: one that does not fit is refused or left as it was. The calls keep nothing between them, use no memory
   but the slices and their stack, and may run in many threads at once. Beside what it uses itself, a thread needs BAUCHLETON_STACK_BYTES of stack.

   What a call answers. A call that judges answers BAUCHLETON_ACCEPTED, 0, or the number of the first rule that refuses. The rest is in `report` or in
   `answer`, the last slice of the call. A refused call leaves all slices as they were, but for `work` and for `report` or `answer`.

   Parameters that many calls have:

   m, t, size    the design: m 4 to 10, the degree of the field; t 1 to 3, the errors that are corrected in a word; size is M, 1 to 500, the rows and columns of a
                 block. Then r = m t, n = 2 M + 2 r at most 2^m - 1, and the order M r at most 4,096. Rules 1 to 3.
   blocks        L, the blocks of a frame, 1 to 4,096, in G = (L + 1) / 2 groups. Rule 4.
   rounds        how many rounds a decode may make, at most 64; 0 stands for 12. Rule 5.
   self, parity  the kit's two lists: each a permutation of the numbers 0 to M r - 1, two bytes an entry, low byte first. Entry p is where the bit at place p of X
                 or Q goes in Y or P. 2 M r bytes each. Rule 6 at 1 and 2, rule 7.
   inverse       the kit's matrix W: M r rows of (M r + 7) / 8 bytes; column j is bit j mod 8 of byte j / 8, and the spare bits of a row are 0. Rule 6 at 3, rules 8 and 9.
   info          the information: L blocks of M rows of M bits, one bit a byte, 0 or 1. L M M bytes. Rule 6 at 4, rule 10.
   red           the redundancy: G groups of Y and then P, r rows of M bits each, one bit a byte. 2 M r G bytes. Rule 6 at 5, rule 10.
   work          working bytes: what they hold on entry is not read, and what they hold afterwards is open. Each call has its own length. Rule 6 at 6.
   report        40 bytes, five numbers of eight bytes each, low byte first: place of the refusal, rounds made, bits turned, words outside the code, stuck words; counts
                 that a call does not have are 0, as are all counts of a refused call and the place of an accepted one. Filled by refused calls too. A report of
                 another length is rule 6 at 8, after rules 1 to 5 and 17 to 19 and the places of rule 6 above it, before rules 7 to 10: then nothing is written,
                 neither to the report nor to another slice, but for `work`. bauchleton_report_number reads it on any machine; on a little-endian one the bytes
                 may be those of an array of five uint64_t, `(uint8_t *)numbers`.
   answer        numbers of eight bytes, as many as the line above the call says: the refusal's place, 0 where nothing is refused, and what the line names, 0 where the
                 call is refused. An `answer` of another length is left as it was, and refuses nothing: pass it with length 0 if you want the rule alone.

   bauchleton_sizes reports all lengths of bytes for a design and a number of blocks, and bauchleton_original_sizes those of an original staircase frame. */

#ifndef BAUCHLETON_H
#define BAUCHLETON_H

#include <stddef.h>
#include <stdint.h>

/* The version of this header and of the libraries beside it: 100 times the first number and the second. */
#define BAUCHLETON_VERSION 402
#define BAUCHLETON_VERSION_TEXT "4.2"

#ifdef __cplusplus
extern "C" {
#endif

/* ---- Constants ---- */

/* What a call answers: 0, or the rule that refuses. After each rule comes its place. */
enum {
    BAUCHLETON_ACCEPTED = 0,
    BAUCHLETON_SIZE = 1,        /* m, t or M is out of range: 1, 2 or 3, the first of them */
    BAUCHLETON_LONG = 2,        /* n is above 2^m - 1: n */
    BAUCHLETON_LARGE = 3,       /* M r is above 4,096: M r */
    BAUCHLETON_COUNT = 4,       /* the blocks, or the block or group to be shown: that number */
    BAUCHLETON_ROUNDS = 5,      /* more rounds than 64: that number */
    BAUCHLETON_LENGTH = 6,      /* a slice of a wrong length: BAUCHLETON_PLACE_SELF to BAUCHLETON_PLACE_TALLY, the first of them */
    BAUCHLETON_LIST = 7,        /* an entry is too large or stands earlier in its list: its position, for parity plus M r */
    BAUCHLETON_SPARE = 8,       /* a spare bit of the inverse is 1: the row */
    BAUCHLETON_INVERSE = 9,     /* the inverse is wrong: row times M r plus column of the first wrong entry of A W */
    BAUCHLETON_BIT = 10,        /* a byte is above 1: its position, for redundancy plus the length of the information */
    BAUCHLETON_KIT_TEXT = 11,   /* no kit text: the length of the longest start that some kit text shares */
    BAUCHLETON_BLOCK_TEXT = 12, /* no block text, or no frame text: the same for these */
    BAUCHLETON_INPUT = 13,      /* an input of a program is above 32,768 bytes: 1 the kit, 2 the text */
    BAUCHLETON_SINGULAR = 14,   /* the lists have no inverse: the first column of A that is a sum of earlier ones */
    BAUCHLETON_NARROW = 15,     /* spread or mixed lists where 2 r exceeds M: M */
    BAUCHLETON_FULL = 16,       /* a total of the tally is above 2^62: its position, 1 to 6 */
    BAUCHLETON_BATCH = 17,      /* the frames of a batch are 0 or above 256: that number */
    BAUCHLETON_WINDOW = 18,     /* the groups of a window are 0 or above 64: that number */
    BAUCHLETON_THIN = 19        /* original staircase frames where r is at least M: r */
};

/* The places of rule 6, in the order in which they are asked. */
enum {
    BAUCHLETON_PLACE_SELF = 1,
    BAUCHLETON_PLACE_PARITY = 2,
    BAUCHLETON_PLACE_INVERSE = 3,
    BAUCHLETON_PLACE_INFO = 4,
    BAUCHLETON_PLACE_RED = 5,
    BAUCHLETON_PLACE_WORK = 6,
    BAUCHLETON_PLACE_TEXT = 7,
    BAUCHLETON_PLACE_REPORT = 8,
    BAUCHLETON_PLACE_TALLY = 9
};

/* Limits. */
enum {
    BAUCHLETON_MIN_M = 4,
    BAUCHLETON_MAX_M = 10,
    BAUCHLETON_MAX_T = 3,
    BAUCHLETON_MAX_SIZE = 500,
    BAUCHLETON_MAX_ORDER = 4096,     /* M r */
    BAUCHLETON_MAX_BLOCKS = 4096,
    BAUCHLETON_MAX_ROUNDS = 64,
    BAUCHLETON_DEFAULT_ROUNDS = 12,  /* what 0 rounds stand for */
    BAUCHLETON_MAX_FRAMES = 256,     /* of a batch */
    BAUCHLETON_MAX_WINDOW = 64,      /* groups */
    BAUCHLETON_MAX_INPUT = 32768,    /* bytes of an input of a program */
    BAUCHLETON_OUTPUT = 262144,      /* bytes that a program's output needs */
    BAUCHLETON_STACK_BYTES = 229376,         /* of stack that a call uses at most, but for the two of the next line; measured, and rounded up */
    BAUCHLETON_PROGRAM_STACK_BYTES = 458752, /* the same for bauchleton_frame and bauchleton_mend */
    BAUCHLETON_REPORT_BYTES = 40,
    BAUCHLETON_TALLY_ENTRIES = 6,
    BAUCHLETON_SIZES_ENTRIES = 16,
    BAUCHLETON_ORIGINAL_SIZES_ENTRIES = 5,
    BAUCHLETON_RULE_NAME_BYTES = 10
};

/* The numbers of a report. */
enum {
    BAUCHLETON_REPORT_PLACE = 0,
    BAUCHLETON_REPORT_ROUNDS = 1,    /* rounds made */
    BAUCHLETON_REPORT_TURNED = 2,    /* bits in which the corrected frame differs from the received one */
    BAUCHLETON_REPORT_OUTSIDE = 3,   /* words outside the code at the end */
    BAUCHLETON_REPORT_STUCK = 4      /* words that were stuck in the last round made */
};

/* The totals of a tally. */
enum {
    BAUCHLETON_TALLY_FRAMES = 0,
    BAUCHLETON_TALLY_BITS = 1,       /* sent bits */
    BAUCHLETON_TALLY_TURNED = 2,
    BAUCHLETON_TALLY_ROUNDS = 3,
    BAUCHLETON_TALLY_OUTSIDE = 4,
    BAUCHLETON_TALLY_STUCK = 5
};

/* The entries of the answer of bauchleton_sizes; lengths are in bytes. */
enum {
    BAUCHLETON_SIZES_PLACE = 0,
    BAUCHLETON_SIZES_R = 1,
    BAUCHLETON_SIZES_N = 2,
    BAUCHLETON_SIZES_K = 3,
    BAUCHLETON_SIZES_GROUPS = 4,
    BAUCHLETON_SIZES_LIST = 5,               /* self, and parity */
    BAUCHLETON_SIZES_INVERSE = 6,
    BAUCHLETON_SIZES_INFO = 7,
    BAUCHLETON_SIZES_RED = 8,
    BAUCHLETON_SIZES_CHECK_KIT_WORK = 9,
    BAUCHLETON_SIZES_MAKE_INVERSE_WORK = 10,
    BAUCHLETON_SIZES_ENCODE_WORK = 11,       /* bauchleton_encode_batch too */
    BAUCHLETON_SIZES_CHECK_WORDS_WORK = 12,
    BAUCHLETON_SIZES_DECODE_WORK = 13,       /* bauchleton_decode_window and bauchleton_decode_tallied too */
    BAUCHLETON_SIZES_LOOPBACK_WORK = 14,
    BAUCHLETON_SIZES_ROW = 15                /* a row of the inverse */
};

/* The entries of the answer of bauchleton_original_sizes; lengths are in bytes. */
enum {
    BAUCHLETON_ORIGINAL_SIZES_PLACE = 0,
    BAUCHLETON_ORIGINAL_SIZES_R = 1,
    BAUCHLETON_ORIGINAL_SIZES_N = 2,         /* 2 M, the bits of a word */
    BAUCHLETON_ORIGINAL_SIZES_BUFFER = 3,
    BAUCHLETON_ORIGINAL_SIZES_DECODE_WORK = 4
};

/* A number of a report: `index` is one of BAUCHLETON_REPORT_PLACE to BAUCHLETON_REPORT_STUCK. */
static inline uint64_t bauchleton_report_number(const uint8_t *report, size_t index)
{
    const uint8_t *bytes = report + 8 * index;
    return (uint64_t)bytes[0] | (uint64_t)bytes[1] << 8 | (uint64_t)bytes[2] << 16 | (uint64_t)bytes[3] << 24 | (uint64_t)bytes[4] << 32
           | (uint64_t)bytes[5] << 40 | (uint64_t)bytes[6] << 48 | (uint64_t)bytes[7] << 56;
}

/* ---- Designs and kits ---- */

/* Judges a design and reports its sizes. Rules 1, 2, 3.
   answer, 4 entries: place, r, n, k = 2 M + r */
uint64_t bauchleton_design(uint64_t m, uint64_t t, uint64_t size, uint64_t *answer, size_t answer_length);

/* Reports the length in bytes of every slice for a design and a number of blocks. Rules 1, 2, 3, 4.
   answer, 16 entries: place, r, n, k, G, and the lengths that BAUCHLETON_SIZES_LIST to BAUCHLETON_SIZES_ROW name */
uint64_t bauchleton_sizes(uint64_t m, uint64_t t, uint64_t size, uint64_t blocks, uint64_t *answer, size_t answer_length);

/* Judges a design and tells its order M r, the entries of a list and the rows and columns of the inverse. Rules 1, 2, 3.
   answer, 2 entries: place, M r */
uint64_t bauchleton_order(uint64_t m, uint64_t t, uint64_t size, uint64_t *answer, size_t answer_length);

/* Judges a kit: the lists are permutations, and the inverse is that of their system A. Rules 1, 2, 3, 6, 7, 8, 9.
   work, bytes: BAUCHLETON_SIZES_CHECK_KIT_WORK
   report: place */
uint64_t bauchleton_check_kit(uint64_t m, uint64_t t, uint64_t size, const uint8_t *self, size_t self_length, const uint8_t *parity,
                              size_t parity_length, const uint8_t *inverse, size_t inverse_length, uint8_t *work, size_t work_length,
                              uint8_t *report, size_t report_length);

/* Makes the inverse from the lists; about 3 in 10 pairs of random or of mixed lists have one. What `inverse` held is not read; where the call is refused, by
   rule 14 too, it is as it was. Rules 1, 2, 3, 6, 7, 14.
   work, bytes: BAUCHLETON_SIZES_MAKE_INVERSE_WORK
   answer, 1 entry: place */
uint64_t bauchleton_make_inverse(uint64_t m, uint64_t t, uint64_t size, const uint8_t *self, size_t self_length, const uint8_t *parity,
                                 size_t parity_length, uint8_t *inverse, size_t inverse_length, uint8_t *work, size_t work_length,
                                 uint64_t *answer, size_t answer_length);

/* Fills both lists with the spread lists of a design, which send row a, column j of X to row a + j modulo M of the same column, and of Q to row
   a + r + j: no two redundancy bits of a row word meet in a column word. What the lists held is not read. They keep each column to itself, and
   while rows and columns use one code no such lists have an inverse; bauchleton_mixed_lists makes lists that may have one. Rules 1, 2, 3, 15, 6.
   answer, 1 entry: place */
uint64_t bauchleton_spread_lists(uint64_t m, uint64_t t, uint64_t size, uint8_t *self, size_t self_length, uint8_t *parity, size_t parity_length,
                                 uint64_t *answer, size_t answer_length);

/* Fills both lists with the mixed lists of a design and a seed, the lists to take for a kit: as for spread lists, no two redundancy bits of a row
   word meet in a column word, which keeps the error floor low, and about 3 in 10 seeds give lists that have an inverse. What the lists held is not
   read. For each column word c from 0 to M - 1, first of the self list and then of the parity list, the rows 0 to r - 1 are shuffled: for i from
   r - 1 down to 1, a number is drawn in 16 steps of the test load's generator, the first output its highest bit, and rows i and that number modulo
   i + 1 change places. Entry j M + a is then row j of the shuffled rows of column word c, times M, plus c, where c is a + j modulo M for the self
   list and a + r + j modulo M for the parity list. All draws go on from the seed; call again with the last state as the seed for the next pair.
   Rules 1, 2, 3, 15, 6.
   answer, 2 entries: place, last state */
uint64_t bauchleton_mixed_lists(uint64_t m, uint64_t t, uint64_t size, uint32_t seed, uint8_t *self, size_t self_length, uint8_t *parity,
                                size_t parity_length, uint64_t *answer, size_t answer_length);

/* ---- Frames ---- */

/* Encodes a frame: writes the redundancy of the information. What `red` held is not read. The kit is judged first, which is most of the time of a short
   frame. Rules 1, 2, 3, 4, 6, 7, 8, 10 of the information, 9.
   work, bytes: BAUCHLETON_SIZES_ENCODE_WORK
   report: place */
uint64_t bauchleton_encode(uint64_t m, uint64_t t, uint64_t size, uint64_t blocks, const uint8_t *self, size_t self_length,
                           const uint8_t *parity, size_t parity_length, const uint8_t *inverse, size_t inverse_length, const uint8_t *info,
                           size_t info_length, uint8_t *red, size_t red_length, uint8_t *work, size_t work_length, uint8_t *report,
                           size_t report_length);

/* Encodes several frames under one kit, which is judged once. There are `frames` of them, 1 to 256, of `blocks` blocks each; `info` and `red` hold them one
   after the other. Each frame's redundancy is what bauchleton_encode makes of it alone. Rules 1, 2, 3, 4, 17, 6, 7, 8, 10 of the information, 9.
   info, red, work, bytes: `frames` times BAUCHLETON_SIZES_INFO and BAUCHLETON_SIZES_RED; BAUCHLETON_SIZES_ENCODE_WORK
   report: place */
uint64_t bauchleton_encode_batch(uint64_t m, uint64_t t, uint64_t size, uint64_t blocks, uint64_t frames, const uint8_t *self,
                                 size_t self_length, const uint8_t *parity, size_t parity_length, const uint8_t *inverse,
                                 size_t inverse_length, const uint8_t *info, size_t info_length, uint8_t *red, size_t red_length,
                                 uint8_t *work, size_t work_length, uint8_t *report, size_t report_length);

/* Counts the words of a frame that are outside the code, and changes nothing. Rules 1, 2, 3, 4, 6, 7, 10.
   work, bytes: BAUCHLETON_SIZES_CHECK_WORDS_WORK
   answer, 2 entries: place, words outside the code */
uint64_t bauchleton_check_words(uint64_t m, uint64_t t, uint64_t size, uint64_t blocks, const uint8_t *self, size_t self_length,
                                const uint8_t *parity, size_t parity_length, const uint8_t *info, size_t info_length, const uint8_t *red,
                                size_t red_length, uint8_t *work, size_t work_length, uint64_t *answer, size_t answer_length);

/* Corrects a frame in place, information and redundancy. Rounds end after one that turns no bit, or when all that are allowed are made. Bits turned are
   those in which the corrected frame differs from the received one: a bit turned and turned back is none. A word of the last round is stuck where no
   codeword lies within t changes of it, or where that codeword would change an unsent block. Where the last round turned no bit, the stuck words are the
   words outside; else they may be more or fewer. Rules 1, 2, 3, 4, 5, 6, 7, 10.
   work, bytes: BAUCHLETON_SIZES_DECODE_WORK
   report: place, rounds made, bits turned, words outside the code at the end, stuck words of the last round */
uint64_t bauchleton_decode(uint64_t m, uint64_t t, uint64_t size, uint64_t blocks, uint64_t rounds, const uint8_t *self, size_t self_length,
                           const uint8_t *parity, size_t parity_length, uint8_t *info, size_t info_length, uint8_t *red, size_t red_length,
                           uint8_t *work, size_t work_length, uint8_t *report, size_t report_length);

/* Corrects a frame in place by a sliding window, for a receiver that holds `window` groups at a time, 1 to 64. The window's positions run from group 1 to
   the larger of 1 and G - window + 1; at each, rounds are made over its groups alone, as many as are allowed, fewer where one turns no bit. A window of G
   groups or more does what bauchleton_decode does. A frame with at most t wrong bits in each word comes back as sent by any window. Rules 1, 2, 3, 4, 5,
   18, 6, 7, 10.
   work, bytes: BAUCHLETON_SIZES_DECODE_WORK
   report: place, rounds made, summed over the positions, bits turned, words outside the code at the end, stuck words of the last round at the last
   position */
uint64_t bauchleton_decode_window(uint64_t m, uint64_t t, uint64_t size, uint64_t blocks, uint64_t rounds, uint64_t window, const uint8_t *self,
                                  size_t self_length, const uint8_t *parity, size_t parity_length, uint8_t *info, size_t info_length,
                                  uint8_t *red, size_t red_length, uint8_t *work, size_t work_length, uint8_t *report, size_t report_length);

/* Corrects a frame in place, and adds to the totals of a tally. What is corrected and counted is that of bauchleton_decode; the six totals are
   BAUCHLETON_TALLY_FRAMES to BAUCHLETON_TALLY_STUCK. Begin with six zeros. A refused call changes no total. A tally of other than 6 entries is rule 6 at
   9, after the report's place; a total above 2^62 on entry is rule 16, after 10. Rules 1, 2, 3, 4, 5, 6, 7, 10, 16.
   work, bytes: BAUCHLETON_SIZES_DECODE_WORK
   report: place, rounds made, bits turned, words outside the code at the end, stuck words of the last round */
uint64_t bauchleton_decode_tallied(uint64_t m, uint64_t t, uint64_t size, uint64_t blocks, uint64_t rounds, const uint8_t *self,
                                   size_t self_length, const uint8_t *parity, size_t parity_length, uint8_t *info, size_t info_length,
                                   uint8_t *red, size_t red_length, uint8_t *work, size_t work_length, uint64_t *tally,
                                   size_t tally_length, uint8_t *report, size_t report_length);

/* Reports the six totals of a tally and the share of turned bits. The totals may be any numbers; the share of the turned bits in the sent ones is two numbers
   with no common factor, 0 and 1 where no bits were sent. A tally of other than 6 entries is rule 6 at 9. Rule 6.
   answer, 9 entries: place, the six totals, the share's top and bottom */
uint64_t bauchleton_report(const uint64_t *tally, size_t tally_length, uint64_t *answer, size_t answer_length);

/* Encodes a frame, turns bits by a pattern and decodes the frame in place. A bit is turned whose byte in the pattern is not 0. `info_errors` is the
   pattern of the information and `red_errors` that of the redundancy, of any lengths: bits past a pattern's end stay. What `red` held is not read. Nothing
   is written before all rules have passed. Rules 1, 2, 3, 4, 5, 6, 7, 8, 10 of the information, 9.
   work, bytes: BAUCHLETON_SIZES_LOOPBACK_WORK
   answer, 5 entries: place, rounds made, bits turned, words outside the code at the end, stuck words of the last round */
uint64_t bauchleton_loopback(uint64_t m, uint64_t t, uint64_t size, uint64_t blocks, uint64_t rounds, const uint8_t *self, size_t self_length,
                             const uint8_t *parity, size_t parity_length, const uint8_t *inverse, size_t inverse_length,
                             const uint8_t *info_errors, size_t info_errors_length, const uint8_t *red_errors, size_t red_errors_length,
                             uint8_t *info, size_t info_length, uint8_t *red, size_t red_length, uint8_t *work, size_t work_length,
                             uint64_t *answer, size_t answer_length);

/* Copies a block or a group of a frame: block `number` (kind 0), M M bytes, or group `number` (any other kind), 2 M r bytes, to the start of `out`. An `out`
   that is too short is left as it was, and refuses nothing. `info` and `red` are not judged by rule 10. Rules 1, 2, 3, 4 of `blocks` and then of `number`, 6.
   answer, 2 entries: place, the length of the block or group */
uint64_t bauchleton_show(uint64_t m, uint64_t t, uint64_t size, uint64_t blocks, uint64_t kind, uint64_t number, const uint8_t *info,
                         size_t info_length, const uint8_t *red, size_t red_length, uint8_t *out, size_t out_length, uint64_t *answer,
                         size_t answer_length);

/* ---- Original staircase frames ----
   The older code of the paper's section II, without lists and without an inverse. A frame is one `buffer` of `blocks` blocks of M M bytes, one bit a byte,
   row by row; the last r bits of each row are parity. Word a of a block has 2 M positions: column a of the block before, then row a of the block. The block
   before the first is zero and not sent. Rule 2 reads 2 M for n, as its place too; rule 19 refuses an r of at least M, at r; rule 3 does not apply. The
   buffer is place 4 of rule 6. */

/* Tells the length in bytes of every slice of an original frame for a design and a number of blocks. Rules 1, 2, 19, 4.
   answer, 5 entries: place, r, 2 M, and the lengths that BAUCHLETON_ORIGINAL_SIZES_BUFFER and BAUCHLETON_ORIGINAL_SIZES_DECODE_WORK name */
uint64_t bauchleton_original_sizes(uint64_t m, uint64_t t, uint64_t size, uint64_t blocks, uint64_t *answer, size_t answer_length);

/* Encodes an original frame: writes the parity, the last r columns of each block. What these held is neither read nor judged. Rules 1, 2, 19, 4, 6, 10 of
   the other columns.
   report: place */
uint64_t bauchleton_original_encode(uint64_t m, uint64_t t, uint64_t size, uint64_t blocks, uint8_t *buffer, size_t buffer_length, uint8_t *report,
                                    size_t report_length);

/* Counts the words of an original frame that are outside the code, and changes nothing. Rules 1, 2, 19, 4, 6, 10.
   answer, 2 entries: place, words outside the code */
uint64_t bauchleton_original_check_words(uint64_t m, uint64_t t, uint64_t size, uint64_t blocks, const uint8_t *buffer, size_t buffer_length,
                                         uint64_t *answer, size_t answer_length);

/* Corrects an original frame in place, by rounds over the blocks, in each the words 0 to M - 1. Rules 1, 2, 19, 4, 5, 6, 10.
   work, bytes: BAUCHLETON_ORIGINAL_SIZES_DECODE_WORK
   report: place, rounds made, bits turned, words outside the code at the end, stuck words of the last round */
uint64_t bauchleton_original_decode(uint64_t m, uint64_t t, uint64_t size, uint64_t blocks, uint64_t rounds, uint8_t *buffer, size_t buffer_length,
                                    uint8_t *work, size_t work_length, uint8_t *report, size_t report_length);

/* ---- A test load that anyone can repeat ----
   A state s becomes s * 1664525 + 1013904223 modulo 2^32, and the new state's highest bit is the output. The seed is the first state. */

/* Fills the information of a frame from a seed, a step a bit. What `info` held is not read. Rules 1, 2, 3, 4, 6.
   answer, 2 entries: place, last state */
uint64_t bauchleton_load_fill(uint64_t m, uint64_t t, uint64_t size, uint64_t blocks, uint32_t seed, uint8_t *info, size_t info_length,
                              uint64_t *answer, size_t answer_length);

/* Turns bits of a frame by draws from a seed. A number of 16 steps is drawn for each bit, information before redundancy, and the bit is turned where the
   number is below `limit`, a rate of limit / 65536. A second call with the same seed and limit gives the frame back. Rules 1, 2, 3, 4, 6, 10.
   answer, 2 entries: place, last state */
uint64_t bauchleton_load_errors(uint64_t m, uint64_t t, uint64_t size, uint64_t blocks, uint32_t seed, uint64_t limit, uint8_t *info,
                                size_t info_length, uint8_t *red, size_t red_length, uint64_t *answer, size_t answer_length);

/* Turns a run of bits of a frame: `length` bits from bit `place` on, counted through information and redundancy, as far as there are any. Rules 1, 2, 3,
   4, 6, 10.
   answer, 1 entry: place of a refusal */
uint64_t bauchleton_load_run(uint64_t m, uint64_t t, uint64_t size, uint64_t blocks, uint64_t place, uint64_t length, uint8_t *info,
                             size_t info_length, uint8_t *red, size_t red_length, uint64_t *answer, size_t answer_length);

/* Fills a buffer of bits of any length from a seed, a step a bit; for original frames, and for any other buffer. What `bits` held is not read. No rule
   refuses: the call answers 0.
   answer, 2 entries: 0, last state */
uint64_t bauchleton_load_fill_buffer(uint32_t seed, uint8_t *bits, size_t bits_length, uint64_t *answer, size_t answer_length);

/* Turns bits of a buffer of any length by draws from a seed; for original frames, and for any other buffer. A number of 16 steps is drawn for each bit, and
   the bit is turned where the number is below `limit`, a rate of limit / 65536. A second call with the same seed and limit gives the bits back. Rule 10.
   answer, 2 entries: place, last state */
uint64_t bauchleton_load_errors_buffer(uint32_t seed, uint64_t limit, uint8_t *bits, size_t bits_length, uint64_t *answer, size_t answer_length);

/* ---- Comparing ---- */

/* Counts the places in which two buffers of one length differ, such as bits sent and bits decoded: the errors that a decoder left. Bytes are compared as
   they are; rule 10 is not asked. A `b` of another length than `a` is rule 6 at 4. Rule 6.
   answer, 2 entries: place, the number of places that differ */
uint64_t bauchleton_differences(const uint8_t *a, size_t a_length, const uint8_t *b, size_t b_length, uint64_t *answer, size_t answer_length);

/* ---- Version and names ---- */

/* Tells the version of the library, to be compared with BAUCHLETON_VERSION of the header. The answer is 100 times the first number and the second. */
uint64_t bauchleton_version(void);

/* Writes the name of a rule to the start of `out`, in ASCII and without a byte 0 after it: "accepted" for 0, "size" for 1, to "thin" for 19, and nothing
   for a number that no rule has. The answer is the length of the name. An `out` that is too short is left as it was, and the length is answered all
   the same; no name is longer than BAUCHLETON_RULE_NAME_BYTES. */
size_t bauchleton_rule_name(uint64_t rule, uint8_t *out, size_t out_length);

/* ---- Reading texts ----
   `text` is the bytes of a text, of any length; it is judged whole before a byte is written. */

/* Judges a kit text and reports its design. Whether the lists are permutations and the inverse is theirs is not judged. Rules 11 for the first two lines,
   1, 2, 3, 11 for the rest.
   answer, 4 entries: place, m, t, M */
uint64_t bauchleton_scan_kit(const uint8_t *text, size_t text_length, uint64_t *answer, size_t answer_length);

/* Reads the lists and the inverse of a kit text into slices of their lengths. What these held is not read. Whether the lists are permutations and the
   inverse is theirs is not judged. Rules 11 for the first two lines, 1, 2, 3, 6, 11 for the rest.
   answer, 4 entries: place, m, t, M */
uint64_t bauchleton_read_kit(const uint8_t *text, size_t text_length, uint8_t *self, size_t self_length, uint8_t *parity, size_t parity_length,
                             uint8_t *inverse, size_t inverse_length, uint64_t *answer, size_t answer_length);

/* Judges a block text and reports its number of blocks. Rules 1, 2, 3, 12.
   answer, 2 entries: place, number of blocks */
uint64_t bauchleton_scan_blocks(uint64_t m, uint64_t t, uint64_t size, const uint8_t *text, size_t text_length, uint64_t *answer,
                                size_t answer_length);

/* Reads the bits of a block text into a slice for as many blocks as it has. What `info` held is not read. Rules 1, 2, 3, 12, 6.
   answer, 2 entries: place, number of blocks */
uint64_t bauchleton_read_blocks(uint64_t m, uint64_t t, uint64_t size, const uint8_t *text, size_t text_length, uint8_t *info,
                                size_t info_length, uint64_t *answer, size_t answer_length);

/* Judges a frame text and reports its number of blocks. A frame text is a block text followed by its group text. Rules 1, 2, 3, 12.
   answer, 2 entries: place, number of blocks */
uint64_t bauchleton_scan_frame(uint64_t m, uint64_t t, uint64_t size, const uint8_t *text, size_t text_length, uint64_t *answer,
                               size_t answer_length);

/* Reads the bits of a frame text into slices for as many blocks and groups as it has. A frame text is a block text followed by its group text. What `info`
   and `red` held is not read. Rules 1, 2, 3, 12, 6.
   answer, 2 entries: place, number of blocks */
uint64_t bauchleton_read_frame(uint64_t m, uint64_t t, uint64_t size, const uint8_t *text, size_t text_length, uint8_t *info,
                               size_t info_length, uint8_t *red, size_t red_length, uint64_t *answer, size_t answer_length);

/* ---- Writing texts ----
   Each writes from position `at` of `out` on and answers the position after what it wrote, or writes nothing and answers `at` where there is no room.
   Slices of bits have any length; of a byte above 1 the last bit is printed. */

/* Writes a line of a block: its number and its bits. */
size_t bauchleton_block_line(uint8_t *out, size_t out_length, size_t at, uint64_t number, const uint8_t *bits, size_t bits_length);

/* Writes a line of a group: its number, the bits of Y (`self`) and those of P (`parity`). */
size_t bauchleton_group_line(uint8_t *out, size_t out_length, size_t at, uint64_t number, const uint8_t *self, size_t self_length,
                             const uint8_t *parity, size_t parity_length);

/* Writes the two lines of a refusal: the number that a call answers, and its place. */
size_t bauchleton_refusal_lines(uint8_t *out, size_t out_length, size_t at, uint64_t rule, uint64_t place);

/* Writes the two lines of what a decode counts: rounds made, bits turned, words outside the code. */
size_t bauchleton_count_lines(uint8_t *out, size_t out_length, size_t at, uint64_t rounds, uint64_t turned, uint64_t outside);

/* ---- Writing kit text ---- */

/* Measures a kit's text: its length in bytes, the same for every inverse. Rules 1, 2, 3, 6.
   answer, 2 entries: place, length */
uint64_t bauchleton_kit_text_length(uint64_t m, uint64_t t, uint64_t size, const uint8_t *self, size_t self_length, const uint8_t *parity,
                                    size_t parity_length, uint64_t *answer, size_t answer_length);

/* Writes a kit's text into a buffer of its length, which bauchleton_kit_text_length reports. Whether the inverse is right is not judged. Rules 1, 2, 3, 6,
   7, 8.
   answer, 1 entry: place */
uint64_t bauchleton_write_kit(uint64_t m, uint64_t t, uint64_t size, const uint8_t *self, size_t self_length, const uint8_t *parity,
                              size_t parity_length, const uint8_t *inverse, size_t inverse_length, uint8_t *text, size_t text_length,
                              uint64_t *answer, size_t answer_length);

/* ---- The programs ----
   What is printed is written to the start of `out`, and its length is the answer. A refusal is an output too: two lines, of which the first begins with r,
   as no other output does. An `out` of fewer than BAUCHLETON_OUTPUT bytes is left as it was, and the answer is 0. */

/* Writes what bauchleton-frame prints: the group text of a block text. `kit` is the bytes of a kit text, and `text` those of a block text. */
size_t bauchleton_frame(const uint8_t *kit, size_t kit_length, const uint8_t *text, size_t text_length, uint8_t *out, size_t out_length);

/* Writes what bauchleton-mend prints: a frame text corrected, and what was counted. `kit` is the bytes of a kit text, and `text` those of a block text
   followed by its group text. */
size_t bauchleton_mend(const uint8_t *kit, size_t kit_length, const uint8_t *text, size_t text_length, uint8_t *out, size_t out_length);

/* Writes what bauchleton-makekit prints: a kit text with the inverse that was made. `text` is the bytes of a list text, which is a
   kit text up to and with the last line of its lists. */
size_t bauchleton_makekit(const uint8_t *text, size_t text_length, uint8_t *out, size_t out_length);

#ifdef __cplusplus
}
#endif

#endif
