#include "bauchleton.h"
#include <stdio.h>

enum { m = 8, t = 3, M = 72, L = 31 };
static uint8_t self[3456], parity[3456], inverse[373248], info[160704], red[55296], work[857088];

int main(void) {
    uint64_t size[BAUCHLETON_SIZES_ENTRIES], lists[2] = {0, 1}, answer[1], rule;
    uint8_t report[BAUCHLETON_REPORT_BYTES];
    if (bauchleton_sizes(m, t, M, L, size, BAUCHLETON_SIZES_ENTRIES) != BAUCHLETON_ACCEPTED)
        return 1;
    do { /* mixed lists from seed 1 on: about 7 in 10 have no inverse, which is rule 14 */
        rule = bauchleton_mixed_lists(m, t, M, (uint32_t)lists[1], self, sizeof self, parity, sizeof parity, lists, 2);
        if (rule == BAUCHLETON_ACCEPTED)
            rule = bauchleton_make_inverse(m, t, M, self, sizeof self, parity, sizeof parity, inverse, sizeof inverse,
                                           work, size[BAUCHLETON_SIZES_MAKE_INVERSE_WORK], answer, 1);
    } while (rule == BAUCHLETON_SINGULAR);
    for (size_t k = 0; k < sizeof info; k++)
        info[k] = k % 3 == 0;
    if (rule != BAUCHLETON_ACCEPTED ||
        bauchleton_encode(m, t, M, L, self, sizeof self, parity, sizeof parity, inverse, sizeof inverse, info,
                          sizeof info, red, sizeof red, work, size[BAUCHLETON_SIZES_ENCODE_WORK], report, sizeof report) != 0)
        return 1;
    for (size_t k = 0; k < sizeof info; k += 100)
        info[k] ^= 1; /* the line turns one bit in a hundred */
    if (bauchleton_decode(m, t, M, L, 0, self, sizeof self, parity, sizeof parity, info, sizeof info, red, sizeof red,
                          work, size[BAUCHLETON_SIZES_DECODE_WORK], report, sizeof report) != 0)
        return 1;
    printf("%d bits corrected, %d words outside the code\n",
           (int)bauchleton_report_number(report, BAUCHLETON_REPORT_TURNED),
           (int)bauchleton_report_number(report, BAUCHLETON_REPORT_OUTSIDE));
}
