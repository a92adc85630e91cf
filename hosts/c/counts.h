/* How many challenges need how many nodes. choose_t counts and prints them, picture.c draws them. */
#ifndef COUNTS_H
#define COUNTS_H

#include "shape.h"

#include <math.h>
#include <stdint.h>
#include <stdio.h>

enum { NODES_MOST = 512 };

typedef struct counts {
    uint64_t number[NODES_MOST + 1]; /* of challenges that need so many nodes */
    uint64_t all, seed;
    int exact; /* every challenge with clear grinding bits, once; else drawn from the seed */
    size_t least, most;
    double mean;
} counts;

static inline uint64_t within(const counts *c, size_t t)
{
    uint64_t n = 0;
    for (size_t i = 0; i <= t && i <= NODES_MOST; i++)
        n += c->number[i];
    return n;
}

/* the 95 % interval of a share, by Wilson's formula */
static inline void interval(const counts *c, size_t t, double *low, double *high)
{
    const double z = 1.959963984540054, n = (double)c->all, p = (double)within(c, t) / n;
    const double middle = (p + z * z / (2 * n)) / (1 + z * z / n), half = z / (1 + z * z / n) * sqrt(p * (1 - p) / n + z * z / (4 * n * n));
    *low = middle > half && p > 0 ? middle - half : 0;
    *high = middle + half < 1 && p < 1 ? middle + half : 1;
}

/* the picture as SVG: a bar for each count, and T marked; `set` is NULL where the shape has no name */
void draw(FILE *out, const counts *c, shape s, const char *set);

#endif
