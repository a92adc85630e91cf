/* The header's shape under a shorter name, for the programs here. */
#ifndef SHAPE_H
#define SHAPE_H

#include <rachnoel.h>

typedef rachnoel_shape shape;

#define NUMBERS(s) RACHNOEL_NUMBERS(s)

/* the grinding bits that a shape means */
static inline size_t grinding_bits(shape s)
{
    return s.tau == 0 ? 8 : s.w;
}

#endif
