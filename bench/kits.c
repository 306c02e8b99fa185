/* kits m t M [seed]: finds the first seed from the given one (from 1 by default) whose lists have an inverse, mixed lists where 2 r is at
   most M and random ones elsewhere. The seed goes to standard error, the kit text to standard output. gcc -O3 -o kits kits.c plain_text.c plain.c */

#include "plain_text.h"

#include <stdio.h>
#include <stdlib.h>

int main(int count, char **argument)
{
    plain_sizes s;
    uint64_t place, seed = 1;
    if (count < 4 || count > 5) {
        fprintf(stderr, "kits m t M [seed]\n");
        return 2;
    }
    unsigned m = strtoul(argument[1], NULL, 10), t = strtoul(argument[2], NULL, 10), M = strtoul(argument[3], NULL, 10);
    if (count == 5)
        seed = strtoull(argument[4], NULL, 10);
    int rule = plain_design(m, t, M, &s, &place);
    if (rule) {
        fprintf(stderr, "refused %d %llu\n", rule, (unsigned long long)place);
        return 1;
    }
    size_t bytes = (s.size + 7) / 8;
    uint8_t *self = malloc(2 * s.size), *parity = malloc(2 * s.size), *inverse = malloc(s.size * bytes);
    uint8_t *text = malloc(64 + s.size * ((size_t)s.size + 24));        /* four numbers, five other bytes and a row of the inverse a place */
    if (!self || !parity || !inverse || !text)
        return 1;
    for (;; seed++) {
        plain_lists(m, t, M, seed, self, parity);
        if (plain_make_inverse(m, t, M, self, parity, inverse))
            break;
    }
    fprintf(stderr, "seed %llu\n", (unsigned long long)seed);
    fwrite(text, 1, plain_kit_text(text, m, t, M, self, parity, inverse) - text, stdout);
    free(self);
    free(parity);
    free(inverse);
    free(text);
    return 0;
}
