/* Among the twelve named sets of FAEST version 2 (document 000, section 3.1) that the header has: the one of a name, and the nearest of a shape. */
#ifndef SETS_H
#define SETS_H

#include "shape.h"

#include <string.h>

/* the set of a name, which is written FAEST-EM-128s or em-128s; NULL where it is none */
static inline const rachnoel_set *set_named(const char *text)
{
    for (size_t i = 0; i < RACHNOEL_SETS; i++) {
        const char *const name = rachnoel_sets[i]->name, *const rest = name + strlen("FAEST-");
        const int short_em = strncmp(text, "em-", 3) == 0 && strncmp(rest, "EM-", 3) == 0 && strcmp(text + 3, rest + 3) == 0;
        if (strcmp(text, name) == 0 || short_em || strcmp(text, rest) == 0)
            return rachnoel_sets[i];
    }
    return NULL;
}

/* how many numbers there are, and their names */
enum { SET_NUMBERS = 7 };
static const char *const number_names[SET_NUMBERS] = {"tau", "k", "w", "T", "level", "kind", "row length"};

static inline void set_numbers(shape s, size_t row_bits, size_t numbers[SET_NUMBERS])
{
    const size_t all[SET_NUMBERS] = {NUMBERS(s), row_bits};
    memcpy(numbers, all, sizeof all);
}

/* in how many numbers a shape and a row length differ from a set */
static inline size_t differing(shape s, size_t row_bits, const rachnoel_set *set)
{
    size_t a[SET_NUMBERS], b[SET_NUMBERS], n = 0;
    set_numbers(s, row_bits, a);
    set_numbers(set->shape, set->row_bits, b);
    for (size_t i = 0; i < SET_NUMBERS; i++)
        n += a[i] != b[i];
    return n;
}

/* the first of the sets that differ in the fewest numbers */
static inline const rachnoel_set *nearest_set(shape s, size_t row_bits)
{
    const rachnoel_set *best = rachnoel_sets[0];
    for (size_t i = 1; i < RACHNOEL_SETS; i++)
        if (differing(s, row_bits, rachnoel_sets[i]) < differing(s, row_bits, best))
            best = rachnoel_sets[i];
    return best;
}

#endif
