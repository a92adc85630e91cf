/* SHAKE128 (FIPS 202), for the digests that a test prints: its constants are computed, and it is written to be short, not fast. */
#ifndef SHAKE_H
#define SHAKE_H

#include <stddef.h>
#include <stdint.h>

enum { SHAKE128_RATE = 168 };

static inline uint64_t turned(uint64_t x, unsigned n)
{
    return n % 64 == 0 ? x : x << n % 64 | x >> (64 - n % 64);
}

/* rho, pi and chi; lane x, y stands at x + 5 y */
static inline void mixed(uint64_t a[25])
{
    uint64_t kept = a[1], row[5];
    unsigned x = 1, y = 0;
    for (unsigned t = 0; t < 24; t++) {
        const unsigned next = (2 * x + 3 * y) % 5;
        x = y;
        y = next;
        const uint64_t there = a[x + 5 * y];
        a[x + 5 * y] = turned(kept, (t + 1) * (t + 2) / 2);
        kept = there;
    }
    for (y = 0; y < 5; y++) {
        for (x = 0; x < 5; x++)
            row[x] = a[x + 5 * y];
        for (x = 0; x < 5; x++)
            a[x + 5 * y] = row[x] ^ (~row[(x + 1) % 5] & row[(x + 2) % 5]);
    }
}

static inline void keccak(uint64_t a[25])
{
    unsigned lfsr = 1;
    for (int round = 0; round < 24; round++) {
        uint64_t c[5];
        for (unsigned x = 0; x < 5; x++)
            c[x] = a[x] ^ a[x + 5] ^ a[x + 10] ^ a[x + 15] ^ a[x + 20];
        for (unsigned i = 0; i < 25; i++)
            a[i] ^= c[(i + 4) % 5] ^ turned(c[(i + 1) % 5], 1);
        mixed(a);
        /* iota: bit 2^j - 1 is the next of the shift register */
        for (unsigned j = 0; j < 7; j++) {
            if (lfsr & 1)
                a[0] ^= (uint64_t)1 << ((1u << j) - 1);
            lfsr = lfsr & 0x80 ? (lfsr << 1 ^ 0x171) & 0xff : lfsr << 1;
        }
    }
}

/* m bytes of SHAKE128, at most as many as the rate */
static inline void shake128(const uint8_t *in, size_t n, uint8_t *out, size_t m)
{
    uint64_t a[25] = {0};
    size_t at = 0;
    for (size_t i = 0; i < n; i++) {
        a[at / 8] ^= (uint64_t)in[i] << 8 * (at % 8);
        if (++at == SHAKE128_RATE) {
            keccak(a);
            at = 0;
        }
    }
    a[at / 8] ^= (uint64_t)0x1f << 8 * (at % 8);
    a[SHAKE128_RATE / 8 - 1] ^= (uint64_t)0x80 << 56;
    keccak(a);
    for (size_t i = 0; i < m; i++)
        out[i] = (uint8_t)(a[i / 8] >> 8 * (i % 8));
}

#endif
