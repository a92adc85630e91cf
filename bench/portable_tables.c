/* AES-128 by four tables of 1 KiB, as it is written in C for speed: each joins the S-box and a column of MixColumns. */
#include "portable.h"
#include <string.h>

static uint32_t tables[4][256];

static uint32_t rotl(uint32_t x, int n) { return x << n | x >> (32 - n); }

void t_make_tables(void)
{
    for (int x = 0; x < 256; x++) {
        const uint32_t s = c_sbox[x], twice = (s << 1 ^ (s >> 7) * 27) & 255;
        tables[0][x] = twice | s << 8 | s << 16 | (twice ^ s) << 24;
        for (int r = 1; r < 4; r++)
            tables[r][x] = rotl(tables[0][x], 8 * r);
    }
}

/* the S-box at the four bytes of a word */
static uint32_t sub_word(uint32_t x)
{
    return (uint32_t)c_sbox[x & 255] | (uint32_t)c_sbox[x >> 8 & 255] << 8 | (uint32_t)c_sbox[x >> 16 & 255] << 16 | (uint32_t)c_sbox[x >> 24] << 24;
}

void t_key_schedule(const uint8_t key[16], uint32_t w[44])
{
    uint32_t rcon = 1;
    memcpy(w, key, 16);
    for (int i = 4; i < 44; i += 4) {
        w[i] = w[i - 4] ^ sub_word(rotl(w[i - 1], 24)) ^ rcon;
        w[i + 1] = w[i - 3] ^ w[i];
        w[i + 2] = w[i - 2] ^ w[i + 1];
        w[i + 3] = w[i - 1] ^ w[i + 2];
        rcon = (rcon << 1 ^ (rcon >> 7) * 27) & 255;
    }
}

/* a column of the next state, from the columns that ShiftRows takes its rows from */
static uint32_t column(uint32_t a, uint32_t b, uint32_t c, uint32_t d, uint32_t k)
{
    return tables[0][a & 255] ^ tables[1][b >> 8 & 255] ^ tables[2][c >> 16 & 255] ^ tables[3][d >> 24] ^ k;
}

static uint32_t last_column(uint32_t a, uint32_t b, uint32_t c, uint32_t d, uint32_t k)
{
    return ((uint32_t)c_sbox[a & 255] | (uint32_t)c_sbox[b >> 8 & 255] << 8 | (uint32_t)c_sbox[c >> 16 & 255] << 16 | (uint32_t)c_sbox[d >> 24] << 24) ^ k;
}

void t_encrypt(const uint32_t w[44], const uint8_t block[16], uint8_t out[16])
{
    uint32_t s[4], t[4];
    memcpy(s, block, 16);
    for (int c = 0; c < 4; c++)
        s[c] ^= w[c];
    for (int i = 1; i < 10; i++) {
        w += 4;
        t[0] = column(s[0], s[1], s[2], s[3], w[0]);
        t[1] = column(s[1], s[2], s[3], s[0], w[1]);
        t[2] = column(s[2], s[3], s[0], s[1], w[2]);
        t[3] = column(s[3], s[0], s[1], s[2], w[3]);
        memcpy(s, t, 16);
    }
    w += 4;
    t[0] = last_column(s[0], s[1], s[2], s[3], w[0]);
    t[1] = last_column(s[1], s[2], s[3], s[0], w[1]);
    t[2] = last_column(s[2], s[3], s[0], s[1], w[2]);
    t[3] = last_column(s[3], s[0], s[1], s[2], w[3]);
    memcpy(out, t, 16);
}
