/* Self-test of plain_text.c: the examples' inputs give their stored outputs, and damaged texts what document 01 says. Runs in the folder above
   examples/, prints the number of checks, returns 1 on a failure. gcc -O3 -o plain_text_test plain_text_test.c plain_text.c plain.c */

#include "plain_text.h"

#include <glob.h>
#include <stdio.h>
#include <stdlib.h>
#include <string.h>

static unsigned failures, checks;

#define CHECK(condition) check((condition), #condition, __LINE__)

static void check(int condition, const char *text, int line)
{
    checks++;
    if (!condition && ++failures <= 20)
        printf("line %d fails: %s\n", line, text);
}

/* Kit K; its lines start at bytes 0, 6, 12, 30, 36, 42, 48, 54, 66, 73, 80 and 87, and it has 94 bytes. */
static const char K[] = "m t M\n4 1 1\n"
                        "place self parity\n0 1 3\n1 0 0\n2 2 1\n3 3 2\n"
                        "row inverse\n0 1010\n1 0101\n2 1101\n3 0100\n";

typedef size_t program(const uint8_t *kit, size_t kit_length, const uint8_t *text, size_t text_length, uint8_t *out);

static uint8_t out[PLAIN_OUTPUT + 1];

/* What the program prints, as a string. */
static const char *output(program *run, const char *kit, const char *text)
{
    out[run((const uint8_t *)kit, strlen(kit), (const uint8_t *)text, strlen(text), out)] = 0;
    return (const char *)out;
}

static int prints(program *run, const char *kit, const char *text, const char *wanted)
{
    return strcmp(output(run, kit, text), wanted) == 0;
}

static int refuses(program *run, const char *kit, const char *text, unsigned rule, size_t place)
{
    char wanted[64];
    snprintf(wanted, sizeof wanted, "refused place\n%u %zu\n", rule, place);
    return prints(run, kit, text, wanted);
}

static int frame_refuses(const char *kit, const char *text, unsigned rule, size_t place)
{
    return refuses(plain_frame_output, kit, text, rule, place);
}

static int mend_refuses(const char *kit, const char *text, unsigned rule, size_t place)
{
    return refuses(plain_mend_output, kit, text, rule, place);
}

static int both_refuse(const char *kit, const char *text, unsigned rule, size_t place)
{
    return frame_refuses(kit, text, rule, place) && mend_refuses(kit, text, rule, place);
}

/* Kit K with one stretch of it replaced. */
static const char *K_with(const char *from, const char *to)
{
    static char text[2 * sizeof K];
    const char *at = strstr(K, from);
    snprintf(text, sizeof text, "%.*s%s%s", (int)(at - K), K, to, at + strlen(from));
    return text;
}

/* ---- Examples ---- */

static char *load(const char *folder, const char *name)
{
    char path[256], *text = calloc(PLAIN_OUTPUT + 1, 1);
    snprintf(path, sizeof path, "%s%s", folder, name);
    FILE *file = fopen(path, "rb");
    if (!file || !text) {
        perror(path);
        exit(2);
    }
    text[fread(text, 1, PLAIN_OUTPUT, file)] = 0;
    fclose(file);
    return text;
}

static void test_examples(void)
{
    glob_t found;
    CHECK(glob("examples/*/", 0, NULL, &found) == 0);
    for (size_t i = 0; i < found.gl_pathc; i++) {
        const char *folder = found.gl_pathv[i];
        char *kit = load(folder, "kit.txt"), *blocks = load(folder, "blocks.txt"), *groups = load(folder, "groups.txt");
        char *received = load(folder, "received.txt"), *mended = load(folder, "mended.txt");
        CHECK(prints(plain_frame_output, kit, blocks, groups));
        CHECK(prints(plain_mend_output, kit, received, mended));
        free(kit), free(blocks), free(groups), free(received), free(mended);
    }
    globfree(&found);
}

/* ---- Accepted texts under K ---- */

static void test_rows(void)
{
    CHECK(prints(plain_frame_output, K, "block bits\n1 1\n", "group self parity\n1 0000 1010\n"));
    CHECK(prints(plain_frame_output, K, "block bits\n1 1\n2 0\n", "group self parity\n1 0000 1010\n"));
    CHECK(prints(plain_frame_output, K, "block bits\n1 1\n2 1\n", "group self parity\n1 0001 1100\n"));
    CHECK(prints(plain_mend_output, K, "block bits\n1 0\n2 1\ngroup self parity\n1 0001 0111\n",
                 "block bits\n1 0\n2 1\ngroup self parity\n1 0001 0110\nrounds turned outside\n2 1 0\n"));
    CHECK(prints(plain_mend_output, K, "block bits\n1 0\n2 0\ngroup self parity\n1 0000 0101\n",
                 "block bits\n1 0\n2 1\ngroup self parity\n1 0000 0101\nrounds turned outside\n2 1 1\n"));
}

/* ---- Kit text ---- */

/* The text of each example's kit, made of the lists that its lines show. */
static void test_written_kits(void)
{
    glob_t found;
    CHECK(glob("examples/*/", 0, NULL, &found) == 0);
    for (size_t i = 0; i < found.gl_pathc; i++) {
        char *kit = load(found.gl_pathv[i], "kit.txt"), *line = strchr(strchr(strchr(kit, '\n') + 1, '\n') + 1, '\n') + 1;
        uint8_t self[2 * 64], parity[2 * 64], inverse[64 * 8];
        unsigned m, t, M, p, a, b;
        uint64_t place;
        CHECK(sscanf(kit, "m t M %u %u %u", &m, &t, &M) == 3 && m * t * M <= 64);
        for (p = 0; p < m * t * M; p++, line = strchr(line, '\n') + 1) {
            CHECK(sscanf(line, "%*u %u %u", &a, &b) == 2);
            self[2 * p] = a, parity[2 * p] = b;
            self[2 * p + 1] = parity[2 * p + 1] = 0;
        }
        CHECK(plain_make(m, t, M, self, parity, inverse, &place) == 0);
        *plain_kit_text(out, m, t, M, self, parity, inverse) = 0;
        CHECK(strcmp((const char *)out, kit) == 0);
        free(kit);
    }
    globfree(&found);
}

/* ---- Rules 11 and 1 to 3 ---- */

static void test_kit_texts(void)
{
    char text[sizeof K];
    for (size_t i = 0; i < strlen(K); i++) {            /* cut off, and with a byte that no text has */
        strcpy(text, K);
        text[i] = 'x';
        CHECK(both_refuse(text, "", 11, i));
        text[i] = 0;
        CHECK(both_refuse(text, "", 11, i));
    }

    CHECK(both_refuse("m t M\n44444 1 1\n", "", 11, 10));
    CHECK(both_refuse("m t M\n04 1 1\n", "", 11, 7));
    CHECK(both_refuse("m t M\n4  1 1\n", "", 11, 8));
    CHECK(both_refuse("m t M\n4 1 1 \n", "", 11, 11));
    CHECK(both_refuse("m t M\n99 1 1", "", 11, 12));
    CHECK(both_refuse("m t M\n9999 0 0\n", "", 1, 1) && both_refuse("m t M\n3 0 0\n", "", 1, 1) && both_refuse("m t M\n11 0 0\n", "", 1, 1));
    CHECK(both_refuse("m t M\n4 0 0\nx", "", 1, 2) && both_refuse("m t M\n10 4 501\n", "", 1, 2));
    CHECK(both_refuse("m t M\n10 1 501\n", "", 1, 3) && both_refuse("m t M\n4 1 0\n", "", 1, 3));
    CHECK(both_refuse("m t M\n4 1 4\nplace", "", 2, 16) && both_refuse("m t M\n10 2 205\n", "", 3, 4100));
    CHECK(both_refuse("m t M\n10 2 204\n", "", 11, 15) && both_refuse("m t M\n10 2 204\nplace self parity\n0 0 0\n2 0 0\n", "", 11, 39));

    CHECK(both_refuse(K_with("1 0 0", "2 0 0"), "", 11, 36) && both_refuse(K_with("1 0 0", "01 0 0"), "", 11, 36));
    CHECK(both_refuse(K_with("1 0 0", "10 0 0"), "", 11, 37));
    CHECK(both_refuse(K_with("2 2 1", "2 02 1"), "", 11, 45) && both_refuse(K_with("2 2 1", "2 00 1"), "", 11, 45));
    CHECK(both_refuse(K_with("2 2 1", "2 12345 1"), "", 11, 48) && both_refuse(K_with("2 2 1", "2  1"), "", 11, 44));
    CHECK(both_refuse(K_with("2 2 1", "2 2 1 "), "", 11, 47) && both_refuse(K_with("2 2 1", "2 2"), "", 11, 45));
    CHECK(both_refuse(K_with("3 3 2\n", "3 3 2\n4 0 0\n"), "", 11, 54) && both_refuse(K_with("3 3 2\n", ""), "", 11, 48));
    CHECK(both_refuse(K_with("1 0101", "1 0121"), "", 11, 77) && both_refuse(K_with("1 0101", "1 010"), "", 11, 78));
    CHECK(both_refuse(K_with("1 0101", "1 01010"), "", 11, 79) && both_refuse(K_with("1 0101", "1  0101"), "", 11, 75));
    CHECK(both_refuse(K_with("3 0100\n", "3 0100\n\n"), "", 11, 94) && both_refuse(K_with("3 0100\n", "3 0100\n4 0000\n"), "", 11, 94));
}

/* ---- Rule 12 ---- */

/* Cut off, and with a byte that no text has, unless the program accepts the start of this length. */
static void test_starts(program *run, const char *whole, int (*accepted)(size_t length))
{
    char text[128];
    for (size_t i = 0; i < strlen(whole); i++) {
        strcpy(text, whole);
        text[i] = 'x';
        CHECK(refuses(run, K, text, 12, i));
        text[i] = 0;
        CHECK(accepted(i) ? strncmp(output(run, K, text), "refused", 7) != 0 : refuses(run, K, text, 12, i));
    }
    CHECK(strncmp(output(run, K, whole), "refused", 7) != 0);
}

static int after_first_block(size_t length)
{
    return length == 15;
}

static int nowhere(size_t length)
{
    (void)length;
    return 0;
}

/* Blocks of 0, numbered from 1, behind their names. */
static const char *zero_blocks(unsigned count)
{
    static char text[PLAIN_INPUT];
    char *end = text + sprintf(text, "block bits\n");
    for (unsigned i = 1; i <= count; i++)
        end += sprintf(end, "%u 0\n", i);
    return text;
}

static void test_block_texts(void)
{
    test_starts(plain_frame_output, "block bits\n1 0\n2 1\n", after_first_block);
    test_starts(plain_mend_output, "block bits\n1 0\n2 1\n3 0\ngroup self parity\n1 0001 0111\n2 0000 0000\n", nowhere);

    CHECK(both_refuse(K, "block bits\n0 0\n", 12, 11) && both_refuse(K, "block bits\n2 0\n", 12, 11) && both_refuse(K, "block bits\n1 2\n", 12, 13));
    CHECK(both_refuse(K, "block bits\n1 00\n", 12, 14) && both_refuse(K, "block bits\n1 0\n3 0\n", 12, 15));
    CHECK(both_refuse(K, "block bits\n1 0\n\n", 12, 15) && both_refuse(K, "block bits\n10 0\n", 12, 12));
    CHECK(both_refuse(K, "block bits\ngroup self parity\n", 12, 11));
    CHECK(frame_refuses(K, "block bits\n1 0\ngroup self parity\n", 12, 15) && mend_refuses(K, "block bits\n1 0\ngroup self parity\n", 12, 33));
    CHECK(mend_refuses(K, "block bits\n1 0\ngroup self parity\n0 0000 0000\n", 12, 33));
    CHECK(mend_refuses(K, "block bits\n1 0\ngroup self parity\n1 0000 0000\n2 0000 0000\n", 12, 45));
    CHECK(mend_refuses(K, "block bits\n1 0\n2 0\n3 0\ngroup self parity\n1 0000 0000\n", 12, 53));
    CHECK(mend_refuses(K, "block bits\n1 0\ngroup self parity\n1 0000 000\n", 12, 43));
    CHECK(mend_refuses(K, "block bits\n1 0\ngroup self parity\n1 0000  0000\n", 12, 40));
    CHECK(mend_refuses(K, "block bits\n1 0\ngroup self parity\n1 0000 0000\nrounds", 12, 45));

    CHECK(strncmp(output(plain_frame_output, K, zero_blocks(4096)), "group", 5) == 0);
    CHECK(mend_refuses(K, zero_blocks(4096), 12, 27576));
    CHECK(both_refuse(K, zero_blocks(4097), 12, 27576));
}

/* ---- Rules 13, 7 and 9, and the order of the rules ---- */

static void test_order(void)
{
    static char longest[PLAIN_INPUT + 1], longer[PLAIN_INPUT + 2];
    static const char blocks[] = "block bits\n1 0\n", frame[] = "block bits\n1 0\ngroup self parity\n1 0000 0000\n";
    static const char same[] = "0 0 0\n1 1 1\n2 2 2\n3 3 3\n";
    memset(longest, 'x', PLAIN_INPUT);
    memset(longer, 'x', PLAIN_INPUT + 1);
    CHECK(both_refuse(longer, longer, 13, 1) && both_refuse("", longer, 13, 2) && both_refuse(longest, longest, 11, 0));
    CHECK(both_refuse(K, longest, 12, 0) && both_refuse("", "", 11, 0));

    CHECK(both_refuse(K_with("2 2 1", "2 9999 1"), "", 12, 0));
    CHECK(frame_refuses(K_with("2 2 1", "2 9999 1"), blocks, 7, 2) && mend_refuses(K_with("2 2 1", "2 9999 1"), frame, 7, 2));
    CHECK(frame_refuses(K_with("2 2 1", "2 0 4"), blocks, 7, 2) && mend_refuses(K_with("2 2 1", "2 0 4"), frame, 7, 2));
    CHECK(frame_refuses(K_with("2 2 1", "2 2 3"), blocks, 7, 6) && mend_refuses(K_with("2 2 1", "2 2 3"), frame, 7, 6));
    CHECK(frame_refuses(K_with("2 2 1", "2 2 4"), blocks, 7, 6) && mend_refuses(K_with("2 2 1", "2 2 4"), frame, 7, 6));

    CHECK(frame_refuses(K_with("3 0100", "3 0101"), "", 12, 0) && frame_refuses(K_with("3 0100", "3 0101"), blocks, 9, 7));
    CHECK(frame_refuses(K_with("0 1 3\n1 0 0\n2 2 1\n3 3 2\n", same), blocks, 9, 0));
    CHECK(prints(plain_mend_output, K_with("3 0100", "3 0101"), frame,
                 "block bits\n1 0\ngroup self parity\n1 0000 0000\nrounds turned outside\n1 0 0\n"));
}

int main(void)
{
    test_examples();
    test_rows();
    test_written_kits();
    test_kit_texts();
    test_block_texts();
    test_order();
    printf("texts and programs: %u checks, %u failed\n", checks, failures);
    return failures != 0;
}
