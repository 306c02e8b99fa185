/* Two random lists of a kit from a seed, by the generator of the test load: anyone can repeat them. Mixed lists are a call of the library.

   load_draw      a number of 16 steps of the generator
   random_lists   two permutations, shuffled

   `random_lists` takes any arguments, as the calls of the library do: it returns 0 or the rule that refuses, and puts into `answer`, if it has
   2 entries, the place of a refusal and the last state of the generator (0 where it refuses). Lists are as in bauchleton.h: 2 M r bytes each. */

#ifndef LISTS_H
#define LISTS_H

#include <stddef.h>
#include <stdint.h>

uint32_t load_draw(uint32_t *state);

/* The numbers 0 to M r - 1 in their order; for p from M r - 1 down to 1, entries p and (draw mod (p + 1)) change places. The self list first, then,
   from the state after it, the parity list. Rules 1, 2, 3, 6. */
uint64_t random_lists(uint64_t m, uint64_t t, uint64_t size, uint32_t seed, uint8_t *self, size_t self_length, uint8_t *parity,
                      size_t parity_length, uint64_t *answer, size_t answer_length);

#endif
