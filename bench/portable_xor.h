/* Xors of bytes, for rows and columns. */
#include <stddef.h>
#include <stdint.h>
#include <string.h>

static inline void xor_bytes(uint8_t *restrict d, const uint8_t *restrict s, size_t n)
{
    for (size_t i = 0; i < n; i++)
        d[i] ^= s[i];
}

/* a whole block, in two words */
static inline void xor_block(uint8_t *d, const uint8_t s[16])
{
    uint64_t x[2], y[2];
    memcpy(x, d, 16);
    memcpy(y, s, 16);
    x[0] ^= y[0];
    x[1] ^= y[1];
    memcpy(d, x, 16);
}
