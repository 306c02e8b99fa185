/* The plain `frame` or `mend` as a program: kit.txt and standard input to standard output. OUTPUT names the function that makes it which:
   gcc -O3 -DOUTPUT=plain_frame_output -o plain_frame plain_program.c plain_text.c plain.c */

#include "plain_text.h"

#include <stdio.h>

static uint8_t kit[PLAIN_INPUT + 1], text[PLAIN_INPUT + 1], out[PLAIN_OUTPUT];

int main(void)
{
    FILE *file = fopen("kit.txt", "rb");
    if (!file) {
        perror("kit.txt");
        return 1;
    }
    size_t kit_length = fread(kit, 1, sizeof kit, file), text_length = fread(text, 1, sizeof text, stdin);
    if (ferror(file) || ferror(stdin)) {
        perror(ferror(file) ? "kit.txt" : "standard input");
        return 1;
    }
    fclose(file);
    fwrite(out, 1, OUTPUT(kit, kit_length, text, text_length, out), stdout);
    return fflush(stdout) != 0;
}
