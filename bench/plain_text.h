/* Document 01's texts, and its two programs as functions from bytes to bytes, on top of plain.h. */

#ifndef PLAIN_TEXT_H
#define PLAIN_TEXT_H

#include "plain.h"

enum {
    PLAIN_INPUT = 32768,        /* rule 13's bound for each input */
    PLAIN_OUTPUT = 262144       /* a program prints at most 213,922 bytes (m 10, t 3, M 2 and 3,386 blocks) */
};

/* What `frame` prints for the bytes of kit.txt and of standard input: rules 13, 11, 1 to 3, 12, 7 and 9. Of an input above PLAIN_INPUT bytes only
   the length is looked at. Written to out, which has PLAIN_OUTPUT bytes; returns the length. */
size_t plain_frame_output(const uint8_t *kit, size_t kit_length, const uint8_t *text, size_t text_length, uint8_t *out);

/* The same for `mend`: rules 13, 11, 1 to 3, 12 and 7. */
size_t plain_mend_output(const uint8_t *kit, size_t kit_length, const uint8_t *text, size_t text_length, uint8_t *out);

/* Texts of a kit, of blocks and of their groups, written from out on; each returns the position behind its last byte. size is M * r. */
uint8_t *plain_kit_text(uint8_t *out, unsigned m, unsigned t, unsigned M, const uint8_t *self, const uint8_t *parity, const uint8_t *inverse);
uint8_t *plain_block_text(uint8_t *out, unsigned M, unsigned L, const uint8_t *info);
uint8_t *plain_group_text(uint8_t *out, unsigned size, unsigned L, const uint8_t *red);

#endif
