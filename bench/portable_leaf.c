/* The leaf hash in portable C: six limbs of 64 bits, windows of 4 bits. */
#include "portable.h"
#include <string.h>

static uint64_t load(const uint8_t *p)
{
    uint64_t x = 0;
    for (int i = 0; i < 8; i++)
        x |= (uint64_t)p[i] << (8 * i);
    return x;
}

static void store(uint8_t *p, uint64_t x)
{
    for (int i = 0; i < 8; i++)
        p[i] = (uint8_t)(x >> (8 * i));
}

/* alpha^n times r, plus x */
static void shift_and_add(uint64_t r[6], int n, const uint64_t x[6])
{
    uint64_t c = r[5] >> (64 - n);
    for (int i = 5; i > 0; i--)
        r[i] = (r[i] << n | r[i - 1] >> (64 - n)) ^ x[i];
    r[0] = r[0] << n ^ x[0] ^ c ^ c << 2 ^ c << 3 ^ c << 12;
}

void c_multiples(const uint8_t key[48], uint64_t m[16][6])
{
    for (int i = 0; i < 6; i++) {
        m[0][i] = 0;
        m[1][i] = load(key + 8 * i);
    }
    for (int d = 2; d < 16; d++) {
        memcpy(m[d], m[d / 2], sizeof m[d]);
        shift_and_add(m[d], 1, m[d % 2]);
    }
}

void c_leaf_hash(const uint64_t m[16][6], const uint8_t stretched[64], uint8_t out[48])
{
    uint64_t r[6] = {0};
    for (int j = 15; j >= 0; j--) {
        shift_and_add(r, 4, m[stretched[j] >> 4]);
        shift_and_add(r, 4, m[stretched[j] & 15]);
    }
    for (int i = 0; i < 6; i++)
        store(out + 8 * i, r[i] ^ load(stretched + 16 + 8 * i));
}
