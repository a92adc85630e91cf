/* The generator, a row, and commit, open and reconstruct in portable C, by the methods of the proved crates. The shape is good, and every buffer has its
   length. Compiled twice: SIDE(name) is c_name over AES by bytes and t_name over AES by tables. */
#include "portable.h"
#include "portable_shape.h"
#include "portable_xor.h"
#include <string.h>

#ifndef SIDE
#define SIDE(name) c_##name
#endif

void SIDE(schedule_and_block)(const uint8_t key[16], uint8_t out[16])
{
    uint32_t w[44];
    SIDE(key_schedule)(key, w);
    SIDE(encrypt)(w, key, out);
}

/* ---- the generator */

static void add_to_word(uint8_t a[4], uint32_t v)
{
    uint32_t x = (uint32_t)a[0] | (uint32_t)a[1] << 8 | (uint32_t)a[2] << 16 | (uint32_t)a[3] << 24;
    x += v;
    for (int i = 0; i < 4; i++)
        a[i] = (uint8_t)(x >> (8 * i));
}

/* block n of the generator */
void SIDE(block)(const uint32_t w[44], const uint8_t iv[16], uint32_t tweak, uint32_t n, uint8_t out[16])
{
    uint8_t s[16];
    memcpy(s, iv, 16);
    add_to_word(s + 12, tweak);
    add_to_word(s, n);
    SIDE(encrypt)(w, s, out);
}

void SIDE(fill)(const uint8_t key[16], const uint8_t iv[16], uint32_t tweak, uint8_t *out, size_t length)
{
    uint32_t w[44];
    uint8_t b[16];
    SIDE(key_schedule)(key, w);
    for (size_t p = 0; p < length; p += 16) {
        SIDE(block)(w, iv, tweak, (uint32_t)(p / 16), b);
        memcpy(out + p, b, length - p < 16 ? length - p : 16);
    }
}

/* ---- one vector */

/* adds the row of a seed to `total`, if there is one, and to the columns whose bit the number has set; no other column is touched */
void SIDE(add_row)(const uint8_t seed[16], const uint8_t iv[16], uint32_t tweak, size_t b, size_t k, size_t number, uint8_t *total, uint8_t *cols)
{
    uint32_t w[44];
    uint8_t block[16], *touched[13];
    size_t count = 0, at = 0;
    if (total)
        touched[count++] = total;
    for (size_t j = 0; j < k; j++)
        if (number >> j & 1)
            touched[count++] = cols + b * j;
    SIDE(key_schedule)(seed, w);
    for (; at + 16 <= b; at += 16) {
        SIDE(block)(w, iv, tweak, (uint32_t)(at / 16), block);
        for (size_t j = 0; j < count; j++)
            xor_block(touched[j] + at, block);
    }
    if (at < b) {
        SIDE(block)(w, iv, tweak, (uint32_t)(at / 16), block);
        for (size_t j = 0; j < count; j++)
            xor_bytes(touched[j] + at, block, b - at);
    }
}

/* the entries of vector i but the hidden one, if there is one: leaf commitments, total and columns, each entry under its number xored with the mask */
static void add_entries(const size_t shape[4], size_t i, size_t hidden, size_t mask, size_t b, const uint8_t iv[16], const uint8_t key[48],
                        const uint8_t *tree, uint8_t *lcs, uint8_t *total, uint8_t *cols)
{
    const size_t depth = depth_of(shape, i), leaves = leaf_count(shape);
    uint64_t m[16][6];
    c_multiples(key, m);
    for (size_t e = 0; e >> depth == 0; e++) {
        uint8_t stretched[64];
        if (e == hidden)
            continue;
        SIDE(fill)(tree + 16 * leaf_of(shape, i, e), iv, (uint32_t)(i + leaves - 1), stretched, 64);
        c_leaf_hash(m, stretched, lcs + 48 * e);
        SIDE(add_row)(stretched, iv, (uint32_t)i + 0x80000000u, b, depth, e ^ mask, total, cols);
    }
}

/* ---- the calls */

void SIDE(grow)(const size_t shape[4], const uint8_t root[16], const uint8_t iv[16], uint8_t *tree)
{
    const size_t leaves = leaf_count(shape);
    memcpy(tree, root, 16);
    for (size_t a = 0; a < leaves - 1; a++)
        SIDE(fill)(tree + 16 * a, iv, (uint32_t)a, tree + 32 * a + 16, 32);
}

void SIDE(commit)(const size_t shape[4], size_t b, const uint8_t root[16], const uint8_t iv[16], uint8_t commitment[32], uint8_t *tree, uint8_t *lcs,
              uint8_t *u, uint8_t *v, uint8_t *corrections)
{
    const size_t tau = shape[0];
    uint8_t keys[32 * 48], hashes[32 * 32];
    c_shake(iv, 16, 0, keys, 48 * tau);
    SIDE(grow)(shape, root, iv, tree);
    memset(u, 0, b);
    memset(v, 0, 128 * b);
    for (size_t i = 0; i < tau; i++) {
        uint8_t *total = i == 0 ? u : corrections + b * (i - 1);
        if (i > 0)
            memcpy(total, u, b);
        const size_t entries = (size_t)1 << depth_of(shape, i);
        uint8_t *own = lcs + 48 * first_entry(shape, i);
        add_entries(shape, i, entries, 0, b, iv, keys + 48 * i, tree, own, total, v + b * first_bit(shape, i));
        c_shake(own, 48 * entries, 1, hashes + 32 * i, 32);
    }
    c_shake(hashes, 32 * tau, 1, commitment, 32);
}

/* the node count, or 0 where a grinding bit is set; with 0, or more than the shape allows, nothing is written */
size_t SIDE(open)(const size_t shape[4], const uint8_t ch[16], const uint8_t *tree, const uint8_t *lcs, uint8_t *opening)
{
    const size_t tau = shape[0];
    uint32_t nodes[512];
    size_t n = c_plan(shape, ch, nodes);
    if (n == 0 || n > shape[3])
        return n;
    for (size_t i = 0; i < tau; i++)
        memcpy(opening + 48 * i, lcs + 48 * (first_entry(shape, i) + hidden_index(shape, ch, i)), 48);
    opening += 48 * tau;
    for (size_t m = 0; m < n; m++)
        memcpy(opening + 16 * m, tree + 16 * nodes[m], 16);
    memset(opening + 16 * n, 0, 16 * (shape[3] - n));
    return n;
}

/* the same count; 0 also where an unused slot holds a byte other than 0 */
size_t SIDE(reconstruct)(const size_t shape[4], size_t b, const uint8_t iv[16], const uint8_t ch[16], const uint8_t *corrections, const uint8_t *opening,
                     uint8_t commitment[32], uint8_t *tree, uint8_t *lcs, uint8_t *q)
{
    const size_t tau = shape[0], leaves = leaf_count(shape);
    const uint8_t *slots = opening + 48 * tau;
    uint8_t keys[32 * 48], hashes[32 * 32], covered[2 * 10 * 4096] = {0};
    uint32_t nodes[512];
    const size_t n = c_plan(shape, ch, nodes);
    if (n == 0 || n > shape[3])
        return n;
    for (size_t p = 16 * n; p < 16 * shape[3]; p++)
        if (slots[p])
            return 0;
    c_shake(iv, 16, 0, keys, 48 * tau);
    for (size_t i = 0; i < tau; i++)
        covered[leaf_of(shape, i, hidden_index(shape, ch, i))] = 1;
    for (size_t a = leaves - 1; a-- > 0;)
        covered[a] = covered[2 * a + 1] | covered[2 * a + 2];
    memset(tree, 0, 16);
    for (size_t a = 0, m = n; a < leaves - 1; a++) {
        uint8_t *children = tree + 32 * a + 16;
        if (!covered[a]) {
            SIDE(fill)(tree + 16 * a, iv, (uint32_t)a, children, 32);
            continue;
        }
        memset(children, 0, 32);
        if (!covered[2 * a + 1])
            memcpy(children, slots + 16 * --m, 16);
        if (!covered[2 * a + 2])
            memcpy(children + 16, slots + 16 * --m, 16);
    }
    memset(q, 0, 128 * b);
    for (size_t i = 0; i < tau; i++) {
        const size_t hidden = hidden_index(shape, ch, i), depth = depth_of(shape, i);
        uint8_t *own = lcs + 48 * first_entry(shape, i), *cols = q + b * first_bit(shape, i);
        memcpy(own + 48 * hidden, opening + 48 * i, 48);
        add_entries(shape, i, hidden, hidden, b, iv, keys + 48 * i, tree, own, NULL, cols);
        for (size_t j = 0; i > 0 && j < depth; j++)
            if (challenge_bit(ch, first_bit(shape, i) + j))
                xor_bytes(cols + b * j, corrections + b * (i - 1), b);
        c_shake(own, (size_t)48 << depth, 1, hashes + 32 * i, 32);
    }
    c_shake(hashes, 32 * tau, 1, commitment, 32);
    return n;
}
