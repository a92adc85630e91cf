/* Commit, open and reconstruct of version 1 in portable C, by the methods of the proved crates. The shape is good, with w 0, and every buffer has its length.
   Compiled twice, as portable_calls.c is: SIDE(name) is c_name over AES by bytes and t_name over AES by tables. */
#include "portable.h"
#include "portable_shape.h"
#include "portable_xor.h"
#include <string.h>

#ifndef SIDE
#define SIDE(name) c_##name
#endif

/* ---- the generator */

/* block n: the whole IV is one number, the highest byte first */
static void block(const uint32_t w[44], const uint8_t iv[16], uint32_t n, uint8_t out[16])
{
    uint8_t s[16];
    uint64_t carry = n;
    memcpy(s, iv, 16);
    for (int i = 15; i >= 0 && carry; i--) {
        carry += s[i];
        s[i] = (uint8_t)carry;
        carry >>= 8;
    }
    SIDE(encrypt)(w, s, out);
}

static void fill(const uint8_t key[16], const uint8_t iv[16], uint8_t *out, size_t length)
{
    uint32_t w[44];
    SIDE(key_schedule)(key, w);
    for (size_t p = 0; p < length; p += 16)
        block(w, iv, (uint32_t)(p / 16), out + p);
}

/* ---- one vector */

/* adds the row of a seed to `total`, if there is one, and to the columns whose bit the number has set; no other column is touched */
static void add_row(const uint8_t seed[16], const uint8_t iv[16], size_t b, size_t k, size_t number, uint8_t *total, uint8_t *cols)
{
    uint32_t w[44];
    uint8_t one[16], *touched[13];
    size_t count = 0;
    if (total)
        touched[count++] = total;
    for (size_t j = 0; j < k; j++)
        if (number >> j & 1)
            touched[count++] = cols + b * j;
    SIDE(key_schedule)(seed, w);
    for (size_t at = 0; at < b; at += 16) {
        block(w, iv, (uint32_t)(at / 16), one);
        for (size_t j = 0; j < count; j++)
            if (at + 16 <= b)
                xor_block(touched[j] + at, one);
            else
                xor_bytes(touched[j] + at, one, b - at);
    }
}

/* where the tree and the decommitment of vector i begin, in nodes */
static size_t first_node(const size_t shape[4], size_t i) { return 2 * first_entry(shape, i) - i; }
static size_t first_slot(const size_t shape[4], size_t i) { return first_bit(shape, i) + 2 * i; }

/* the entries of a vector but the hidden one, if there is one: leaf commitments, total and columns, each entry under its number xored with the mask */
static void add_entries(size_t depth, size_t hidden, size_t mask, size_t b, const uint8_t iv[16], const uint8_t *tree, uint8_t *lcs, uint8_t *total,
                        uint8_t *cols)
{
    const uint8_t *leaves = tree + 16 * (((size_t)1 << depth) - 1);
    uint8_t message[32], hashed[48];
    memcpy(message + 16, iv, 16);
    for (size_t e = 0; e >> depth == 0; e++) {
        if (e == hidden)
            continue;
        memcpy(message, leaves + 16 * e, 16);
        c_shake(message, 32, 0, hashed, 48);
        memcpy(lcs + 32 * e, hashed + 16, 32);
        add_row(hashed, iv, b, depth, e ^ mask, total, cols);
    }
}

/* ---- the calls */

void SIDE(v1_commit)(const size_t shape[4], size_t b, const uint8_t root[16], const uint8_t iv[16], uint8_t commitment[32], uint8_t *trees, uint8_t *lcs,
                     uint8_t *u, uint8_t *v, uint8_t *corrections)
{
    const size_t tau = shape[0];
    uint8_t roots[32 * 16], hashes[32 * 32];
    fill(root, iv, roots, 16 * tau);
    memset(u, 0, b);
    memset(v, 0, 128 * b);
    for (size_t i = 0; i < tau; i++) {
        const size_t depth = depth_of(shape, i), entries = (size_t)1 << depth;
        uint8_t *tree = trees + 16 * first_node(shape, i), *own = lcs + 32 * first_entry(shape, i), *total = i == 0 ? u : corrections + b * (i - 1);
        memcpy(tree, roots + 16 * i, 16);
        for (size_t a = 0; a < entries - 1; a++)
            fill(tree + 16 * a, iv, tree + 32 * a + 16, 32);
        if (i > 0)
            memcpy(total, u, b);
        add_entries(depth, entries, 0, b, iv, tree, own, total, v + b * first_bit(shape, i));
        c_shake(own, 32 * entries, 1, hashes + 32 * i, 32);
    }
    c_shake(hashes, 32 * tau, 1, commitment, 32);
}

void SIDE(v1_open)(const size_t shape[4], const uint8_t ch[16], const uint8_t *trees, const uint8_t *lcs, uint8_t *opening)
{
    for (size_t i = 0; i < shape[0]; i++) {
        const size_t depth = depth_of(shape, i), hidden = hidden_index(shape, ch, i);
        const uint8_t *tree = trees + 16 * first_node(shape, i);
        for (size_t l = 1; l <= depth; l++, opening += 16)
            memcpy(opening, tree + 16 * (((size_t)1 << l) - 1 + (hidden >> (depth - l) ^ 1)), 16);
        memcpy(opening, lcs + 32 * (first_entry(shape, i) + hidden), 32);
        opening += 32;
    }
}

void SIDE(v1_reconstruct)(const size_t shape[4], size_t b, const uint8_t iv[16], const uint8_t ch[16], const uint8_t *corrections, const uint8_t *opening,
                          uint8_t commitment[32], uint8_t *trees, uint8_t *lcs, uint8_t *q)
{
    const size_t tau = shape[0];
    uint8_t hashes[32 * 32];
    memset(q, 0, 128 * b);
    for (size_t i = 0; i < tau; i++) {
        const size_t depth = depth_of(shape, i), hidden = hidden_index(shape, ch, i), entries = (size_t)1 << depth;
        const uint8_t *slots = opening + 16 * first_slot(shape, i);
        uint8_t *tree = trees + 16 * first_node(shape, i), *own = lcs + 32 * first_entry(shape, i), *cols = q + b * first_bit(shape, i);
        memset(tree, 0, 16);
        for (size_t a = 0, path = 0, l = 0; a < entries - 1; a++) {
            if (a != path) {
                fill(tree + 16 * a, iv, tree + 32 * a + 16, 32);
                continue;
            }
            const size_t right = hidden >> (depth - 1 - l) & 1;
            path = 2 * a + 1 + right;
            memset(tree + 16 * path, 0, 16);
            memcpy(tree + 16 * (2 * a + 2 - right), slots + 16 * l++, 16);
        }
        memcpy(own + 32 * hidden, slots + 16 * depth, 32);
        add_entries(depth, hidden, hidden, b, iv, tree, own, NULL, cols);
        for (size_t j = 0; i > 0 && j < depth; j++)
            if (challenge_bit(ch, first_bit(shape, i) + j))
                xor_bytes(cols + b * j, corrections + b * (i - 1), b);
        c_shake(own, 32 * entries, 1, hashes + 32 * i, 32);
    }
    c_shake(hashes, 32 * tau, 1, commitment, 32);
}
