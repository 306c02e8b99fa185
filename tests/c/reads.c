// Counts the loads of each byte of a frame in the word check, from outside, with a hardware breakpoint on the byte (perf_event_open).
//     reads
// A word is checked by the word checker and by the decoder. Each call judges the bytes of the frame first, one load a byte; the check of a word then loads
// each of its sent bits once and no other bit. So a byte is loaded once for rule 10 and once for each word that holds it: two, but one in the last block of
// an even number of blocks. The word checker is lent frames of any bits; the decoder frames whose words are all in the code, so that it turns none.
// Prints how many bytes were watched, or why none can be on this system. Exit status 1 on any difference.
#define _GNU_SOURCE
#include "../../include/bauchleton.h"

#include <errno.h>
#include <linux/hw_breakpoint.h>
#include <linux/perf_event.h>
#include <stdio.h>
#include <stdlib.h>
#include <string.h>
#include <sys/ioctl.h>
#include <sys/syscall.h>
#include <unistd.h>

static unsigned watched, wrong;

typedef struct {
    unsigned m, t, M, L;
    size_t list, info, red, words_work, decoder_work;
    uint8_t *self, *parity, *frame, *work;              // frame: information, then redundancy
} lent;

static void set_entry(uint8_t *list, unsigned p, unsigned value) {
    list[2 * p] = value & 255;
    list[2 * p + 1] = value >> 8;
}

static void *get(size_t bytes) {
    void *p = calloc(bytes, 1);
    if (p == NULL)
        exit(2);
    return p;
}

// A frame of zeros under a reversed self list and a parity list turned by three.
static lent make(unsigned m, unsigned t, unsigned M, unsigned L) {
    uint64_t sizes[BAUCHLETON_SIZES_ENTRIES];
    if (bauchleton_sizes(m, t, M, L, sizes, BAUCHLETON_SIZES_ENTRIES) != 0)
        exit(2);
    unsigned order = m * t * M;
    lent l = {.m = m, .t = t, .M = M, .L = L, .list = sizes[BAUCHLETON_SIZES_LIST], .info = sizes[BAUCHLETON_SIZES_INFO], .red = sizes[BAUCHLETON_SIZES_RED],
              .words_work = sizes[BAUCHLETON_SIZES_CHECK_WORDS_WORK], .decoder_work = sizes[BAUCHLETON_SIZES_DECODE_WORK]};
    l.self = get(l.list);
    l.parity = get(l.list);
    l.frame = get(l.info + l.red);
    l.work = get(l.decoder_work);
    for (unsigned p = 0; p < order; p++) {
        set_entry(l.self, p, order - 1 - p);
        set_entry(l.parity, p, (p + 3) % order);
    }
    return l;
}

static uint64_t call(const lent *l, int decoder) {
    uint64_t answer[2];
    uint8_t report[BAUCHLETON_REPORT_BYTES];
    if (decoder)
        return bauchleton_decode(l->m, l->t, l->M, l->L, 0, l->self, l->list, l->parity, l->list, l->frame, l->info, l->frame + l->info, l->red, l->work,
                                 l->decoder_work, report, sizeof report);
    return bauchleton_check_words(l->m, l->t, l->M, l->L, l->self, l->list, l->parity, l->list, l->frame, l->info, l->frame + l->info, l->red, l->work,
                                  l->words_work, answer, 2);
}

// A counter of the loads and stores of a byte, or -1 and errno.
static int watch(const uint8_t *byte) {
    struct perf_event_attr event = {.type = PERF_TYPE_BREAKPOINT, .size = sizeof event, .bp_type = HW_BREAKPOINT_RW, .bp_addr = (uintptr_t)byte,
                                    .bp_len = HW_BREAKPOINT_LEN_1, .disabled = 1, .exclude_kernel = 1, .exclude_hv = 1};
    return syscall(SYS_perf_event_open, &event, 0, -1, -1, 0);
}

static uint64_t loads(const lent *l, size_t at, int decoder) {
    uint64_t count;
    int counter = watch(l->frame + at);
    if (counter < 0 || ioctl(counter, PERF_EVENT_IOC_ENABLE, 0) != 0) {
        perror("perf_event_open");
        exit(2);
    }
    uint64_t rule = call(l, decoder);
    ioctl(counter, PERF_EVENT_IOC_DISABLE, 0);
    if (rule != 0 || read(counter, &count, sizeof count) != sizeof count) {
        printf("m %u, t %u, M %u, %u blocks: refused by rule %u\n", l->m, l->t, l->M, l->L, (unsigned)rule);
        exit(1);
    }
    close(counter);
    return count;
}

// The words that hold a byte: its row word and its column word, but no row word in the last block of an even number of blocks.
static unsigned holders(const lent *l, size_t at) {
    return l->L % 2 == 0 && at < l->info && at >= l->info - (size_t)l->M * l->M ? 1 : 2;
}

// Of every `step`th byte of a frame, and of its last.
static void check_loads(const lent *l, int decoder, size_t step) {
    size_t end = l->info + l->red;
    for (size_t at = 0; at < end; at = at + step < end || at == end - 1 ? at + step : end - 1) {
        uint64_t found = loads(l, at, decoder), right = 1 + holders(l, at);
        watched++;
        if (found != right && ++wrong <= 20)
            printf("%s, m %u, t %u, M %u, %u blocks: byte %zu of the frame has %u loads, not %u\n", decoder ? "decoder" : "word checker", l->m, l->t, l->M, l->L, at,
                   (unsigned)found, (unsigned)right);
    }
}

// Loads of the bytes of a frame whose words are all in the code, and of one of any bits.
static void check_frame(const unsigned design[3], unsigned L, size_t step) {
    lent l = make(design[0], design[1], design[2], L);
    check_loads(&l, 1, step);
    for (size_t at = 0; at < l.info + l.red; at++)
        l.frame[at] = at * at % 7 % 2;
    check_loads(&l, 0, step);
    free(l.self), free(l.parity), free(l.frame), free(l.work);
}

int main(void) {
    static const unsigned small[][3] = {{4, 1, 1}, {4, 1, 3}, {5, 2, 5}, {6, 1, 9}, {7, 3, 8}};
    // Frames of enough bits for sums of eight at a time, of which some bytes are watched.
    static const struct { unsigned design[3], blocks; } large[] = {{{5, 2, 5}, 2622}, {{8, 3, 72}, 13}, {{9, 3, 135}, 4}};
    uint8_t byte = 0;
    int counter = watch(&byte);
    if (counter < 0) {
        printf("loads of the word check: not seen, this system gives no breakpoints (%s)\n", strerror(errno));
        return 0;
    }
    close(counter);
    for (unsigned i = 0; i < sizeof small / sizeof *small; i++)
        for (unsigned L = 1; L <= 4; L++)
            check_frame(small[i], L, 1);
    for (unsigned i = 0; i < sizeof large / sizeof *large; i++)
        check_frame(large[i].design, large[i].blocks, 331);
    printf("loads of the word check: %u bytes watched, %u with another number of loads than rule 10 and their words take\n", watched, wrong);
    return wrong != 0;
}
