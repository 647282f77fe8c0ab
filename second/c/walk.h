/* The walk over span lists in plain C, to be timed beside the library. */

#ifndef PLAIN_WALK_H
#define PLAIN_WALK_H

#include "numbers.h" /* which beside/build.rs writes */

#include <stddef.h>
#include <stdint.h>

/* The numbers of the verdicts. */
enum { SOLE = 1, SEVERAL = 2, NONE = 3, UNSETTLED = 4 };

/* The entries whose span holds place i are slots[starts[i]] up to
 * slots[starts[i + 1] - 1], by their word, then their last place, then their
 * index. */
struct walk_tables {
    uint16_t starts[MOST_ENTRIES + 1];
    uint16_t slots[MOST_ENTRIES * SPAN_WIDTH];
};

/* The verdict, and the placements up to it or the budget. */
struct walk_answer {
    uint32_t verdict;
    uint32_t placements;
};

/* Fills the tables. The lists are sound and of m entries each. */
void c_prepare(size_t l, size_t m, const uint32_t *words, const uint16_t *ones,
               const uint16_t *twos, struct walk_tables *tables);

/* Prepares the tables and walks. The lists are sound and of m entries each,
 * and out has m slots; it is written for SOLE and SEVERAL alone. */
void c_walk(size_t l, size_t m, const uint32_t *words, const uint16_t *ones,
            const uint16_t *twos, uint32_t budget, uint32_t *out,
            struct walk_answer *answer);

#endif
