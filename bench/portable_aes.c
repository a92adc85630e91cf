/* AES-128 by bytes in portable C: a byte S-box, xtime on bytes, a loop over the rounds. */
#include "portable.h"
#include <string.h>

const uint8_t c_sbox[256] = {
    99, 124, 119, 123, 242, 107, 111, 197, 48, 1, 103, 43, 254, 215, 171, 118,
    202, 130, 201, 125, 250, 89, 71, 240, 173, 212, 162, 175, 156, 164, 114, 192,
    183, 253, 147, 38, 54, 63, 247, 204, 52, 165, 229, 241, 113, 216, 49, 21,
    4, 199, 35, 195, 24, 150, 5, 154, 7, 18, 128, 226, 235, 39, 178, 117,
    9, 131, 44, 26, 27, 110, 90, 160, 82, 59, 214, 179, 41, 227, 47, 132,
    83, 209, 0, 237, 32, 252, 177, 91, 106, 203, 190, 57, 74, 76, 88, 207,
    208, 239, 170, 251, 67, 77, 51, 133, 69, 249, 2, 127, 80, 60, 159, 168,
    81, 163, 64, 143, 146, 157, 56, 245, 188, 182, 218, 33, 16, 255, 243, 210,
    205, 12, 19, 236, 95, 151, 68, 23, 196, 167, 126, 61, 100, 93, 25, 115,
    96, 129, 79, 220, 34, 42, 144, 136, 70, 238, 184, 20, 222, 94, 11, 219,
    224, 50, 58, 10, 73, 6, 36, 92, 194, 211, 172, 98, 145, 149, 228, 121,
    231, 200, 55, 109, 141, 213, 78, 169, 108, 86, 244, 234, 101, 122, 174, 8,
    186, 120, 37, 46, 28, 166, 180, 198, 232, 221, 116, 31, 75, 189, 139, 138,
    112, 62, 181, 102, 72, 3, 246, 14, 97, 53, 87, 185, 134, 193, 29, 158,
    225, 248, 152, 17, 105, 217, 142, 148, 155, 30, 135, 233, 206, 85, 40, 223,
    140, 161, 137, 13, 191, 230, 66, 104, 65, 153, 45, 15, 176, 84, 187, 22,
};

static uint8_t xtime(uint8_t b)
{
    return (uint8_t)((b << 1) ^ ((b >> 7) * 27));
}

void c_key_schedule(const uint8_t key[16], uint32_t words[44])
{
    uint8_t *w = (uint8_t *)words;
    uint8_t rcon = 1;
    for (int i = 0; i < 16; i++)
        w[i] = key[i];
    for (int i = 16; i < 176; i += 4) {
        uint8_t t[4] = {w[i - 4], w[i - 3], w[i - 2], w[i - 1]};
        if (i % 16 == 0) {
            uint8_t first = t[0];
            t[0] = (uint8_t)(c_sbox[t[1]] ^ rcon);
            t[1] = c_sbox[t[2]];
            t[2] = c_sbox[t[3]];
            t[3] = c_sbox[first];
            rcon = xtime(rcon);
        }
        for (int r = 0; r < 4; r++)
            w[i + r] = w[i - 16 + r] ^ t[r];
    }
}

static void add_round_key(uint8_t s[16], const uint8_t *k)
{
    for (int i = 0; i < 16; i++)
        s[i] ^= k[i];
}

/* SubBytes and ShiftRows: row r of column c comes from column c + r */
static void sub_shift(const uint8_t s[16], uint8_t to[16])
{
    for (int c = 0; c < 4; c++)
        for (int r = 0; r < 4; r++)
            to[4 * c + r] = c_sbox[s[4 * ((c + r) % 4) + r]];
}

static void mix_columns(uint8_t s[16])
{
    for (int c = 0; c < 4; c++) {
        uint8_t *p = s + 4 * c;
        uint8_t a = p[0], b = p[1], e = p[2], d = p[3];
        uint8_t all = a ^ b ^ e ^ d;
        p[0] = (uint8_t)(a ^ all ^ xtime(a ^ b));
        p[1] = (uint8_t)(b ^ all ^ xtime(b ^ e));
        p[2] = (uint8_t)(e ^ all ^ xtime(e ^ d));
        p[3] = (uint8_t)(d ^ all ^ xtime(d ^ a));
    }
}

void c_encrypt(const uint32_t words[44], const uint8_t block[16], uint8_t out[16])
{
    const uint8_t *w = (const uint8_t *)words;
    uint8_t s[16], t[16];
    for (int i = 0; i < 16; i++)
        s[i] = block[i];
    add_round_key(s, w);
    for (int i = 1; i < 10; i++) {
        sub_shift(s, t);
        mix_columns(t);
        add_round_key(t, w + 16 * i);
        for (int j = 0; j < 16; j++)
            s[j] = t[j];
    }
    sub_shift(s, out);
    add_round_key(out, w + 160);
}
