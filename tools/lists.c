/* Random lists of a seed; lists.h says which. Tested, not proved: whatever stands in a list is judged by the library before it is used. */

#include "lists.h"

#include "bauchleton.h"

uint32_t load_draw(uint32_t *state)
{
    uint32_t number = 0;
    for (int step = 0; step < 16; step++) {
        *state = *state * UINT32_C(1664525) + UINT32_C(1013904223);
        number = 2 * number + (*state >> 31);
    }
    return number;
}

static void put(uint8_t *list, uint32_t p, uint32_t entry)
{
    list[2 * p] = (uint8_t)(entry % 256);
    list[2 * p + 1] = (uint8_t)(entry / 256);
}

/* The numbers 0 to n - 1, shuffled. */
static void shuffle(uint32_t *numbers, uint32_t n, uint32_t *state)
{
    for (uint32_t i = 0; i < n; i++)
        numbers[i] = i;
    for (uint32_t i = n - 1; i > 0; i--) {
        const uint32_t other = load_draw(state) % (i + 1), number = numbers[i];
        numbers[i] = numbers[other];
        numbers[other] = number;
    }
}

static void fill_random(uint8_t *list, uint32_t order, uint32_t *state)
{
    uint32_t numbers[BAUCHLETON_MAX_ORDER];
    shuffle(numbers, order, state);
    for (uint32_t p = 0; p < order; p++)
        put(list, p, numbers[p]);
}

/* The rules; r is told where the design passes. */
static uint64_t judge(const uint64_t *design, size_t self_length, size_t parity_length, uint64_t *place, uint64_t *r)
{
    const uint64_t size = design[2];
    uint64_t told[4] = {0};
    const uint64_t rule = bauchleton_design(design[0], design[1], size, told, 4);
    *place = told[0];
    *r = told[1];
    if (rule != BAUCHLETON_ACCEPTED)
        return rule;
    *place = self_length != 2 * size * *r ? BAUCHLETON_PLACE_SELF : parity_length != 2 * size * *r ? BAUCHLETON_PLACE_PARITY : 0;
    return *place == 0 ? BAUCHLETON_ACCEPTED : BAUCHLETON_LENGTH;
}

static void tell(uint64_t *answer, size_t answer_length, uint64_t place, uint64_t state)
{
    if (answer_length == 2) {
        answer[0] = place;
        answer[1] = state;
    }
}

uint64_t random_lists(uint64_t m, uint64_t t, uint64_t size, uint32_t seed, uint8_t *self, size_t self_length, uint8_t *parity,
                      size_t parity_length, uint64_t *answer, size_t answer_length)
{
    const uint64_t design[3] = {m, t, size};
    uint64_t place, r;
    const uint64_t rule = judge(design, self_length, parity_length, &place, &r);
    uint32_t state = seed;
    if (rule == BAUCHLETON_ACCEPTED) {
        fill_random(self, (uint32_t)(size * r), &state);
        fill_random(parity, (uint32_t)(size * r), &state);
    }
    tell(answer, answer_length, place, rule == BAUCHLETON_ACCEPTED ? state : 0);
    return rule;
}
