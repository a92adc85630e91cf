/* Records of random shapes and of the three versions, from a fixed seed, and changes of them: for the programs that try changed records. */
#ifndef CHANGES_H
#define CHANGES_H

#include <rachnoel.h>

#include "shape.h"

#include <stdint.h>
#include <stdio.h>
#include <stdlib.h>
#include <string.h>

enum { BASES = 48, MOST = 16384 };

/* ---- a fixed sequence (SplitMix64) */

static uint64_t state;

static inline uint64_t next(void)
{
    uint64_t z = state += 0x9e3779b97f4a7c15;
    z = (z ^ z >> 30) * 0xbf58476d1ce4e5b9;
    z = (z ^ z >> 27) * 0x94d049bb133111eb;
    return z ^ z >> 31;
}

static inline size_t below(size_t n)
{
    return (size_t)(next() % n);
}

static inline void random_bytes(uint8_t *p, size_t n)
{
    for (size_t i = 0; i < n; i++)
        p[i] = (uint8_t)next();
}

/* ---- records to start from */

struct base {
    uint8_t bytes[MOST];
    size_t length;
    size_t fields[6]; /* where each field's length stands */
};

static struct base bases[BASES];

static inline void *room(size_t n)
{
    void *const p = calloc(1, n + 1);
    if (p == NULL) {
        perror("calloc");
        exit(1);
    }
    return p;
}

static inline void must(size_t number, const char *call)
{
    if (number != 0) {
        fprintf(stderr, "%s answered %zu\n", call, number);
        exit(1);
    }
}

/* a small shape, the default, or FAEST-128f; the allowance is mostly enough. At levels 192 and 256 no shape has fewer than 65 and 129 open bits */
static inline shape random_shape(void)
{
    if (below(16) == 0)
        return RACHNOEL_DEFAULT.shape;
    if (below(16) == 0)
        return RACHNOEL_FAEST_128F.shape;
    size_t k = 1 + below(4), tau = 1 + below(6), deeper = below(2) ? 0 : below(tau), level = 128;
    if (below(6) == 0) {
        level = below(2) ? 192 : 256;
        tau = 28 + below(5);
        k = (level - 120) / tau;
        deeper = level - 120 - tau * k;
    }
    const size_t w = level - tau * k - deeper;
    return (shape){tau, k, w > 127 ? 127 : w, below(5) ? tau * (k + 1) + below(3) : 1 + below(tau), level, below(4) == 0};
}

/* at level 128 with kind 0 one in three becomes version 1, whose first field has no level; then the places of the fields are known */
static inline void choose_version(struct base *base, shape s, const rachnoel_sizes *n)
{
    const int first = s.level == 128 && s.kind == 0 && below(3) == 0;
    if (first) {
        base->bytes[0] = 1;
        base->bytes[4] = 9;
        base->length--;
        memmove(base->bytes + 14, base->bytes + 15, base->length - 14);
    }
    const size_t lengths[6] = {first ? 9 : s.kind == 0 ? 10 : 11, RACHNOEL_IV, n->node, n->corrections, n->opening, n->commitment};
    size_t at = 1;
    for (size_t i = 0; i < 6; i++) {
        base->fields[i] = at;
        at += 4 + lengths[i];
    }
}

static inline void make_base(struct base *base)
{
    uint8_t root[RACHNOEL_NODE_MOST], iv[RACHNOEL_IV], challenge[RACHNOEL_NODE_MOST], commitment[RACHNOEL_COMMITMENT_MOST], count[RACHNOEL_COUNT], length[RACHNOEL_LENGTH_SLICE];
    const shape s = random_shape();
    const size_t row_bits = s.t == 110 && s.tau == 16 ? 1680 : 8 * (1 + below(4)); /* FAEST-128f has its own */
    const rachnoel_sizes n = rachnoel_lengths_of(NUMBERS(s), row_bits / 8);
    uint8_t *const tree = room(n.tree), *const lcs = room(n.leaf_commitments), *const u = room(n.u), *const v = room(n.matrix), *const corrections = room(n.corrections),
                  *const opening = room(n.opening);
    random_bytes(root, sizeof root);
    random_bytes(iv, sizeof iv);
    random_bytes(challenge, sizeof challenge);
    if (below(12))
        for (size_t bit = s.level - grinding_bits(s); bit < s.level; bit++)
            challenge[bit / 8] &= (uint8_t)~(1u << bit % 8);
    must(rachnoel_commit(NUMBERS(s), row_bits, root, n.node, iv, sizeof iv, commitment, n.commitment, tree, n.tree, lcs, n.leaf_commitments, u, n.u, v,
             n.matrix, corrections, n.corrections, count, sizeof count),
        "commit");
    if (rachnoel_open(NUMBERS(s), challenge, n.node, tree, n.tree, lcs, n.leaf_commitments, opening, n.opening, count, sizeof count) != 0)
        random_bytes(opening, n.opening);
    must(rachnoel_record_length(NUMBERS(s), row_bits, length, sizeof length), "record_length");
    base->length = rachnoel_number(length);
    if (base->length > MOST) {
        fprintf(stderr, "a record of %zu bytes\n", base->length);
        exit(1);
    }
    must(rachnoel_write_record(NUMBERS(s), row_bits, iv, sizeof iv, challenge, n.node, corrections, n.corrections, opening, n.opening, commitment,
             n.commitment, base->bytes, base->length),
        "write_record");
    choose_version(base, s, &n);
    free(tree), free(lcs), free(u), free(v), free(corrections), free(opening);
}

/* ---- changes */

static inline void put_number(uint8_t *p, size_t x)
{
    for (size_t i = 0; i < 4; i++)
        p[i] = (uint8_t)(x >> (24 - 8 * i));
}

/* a part of another record in its place */
static inline void put_part(uint8_t *bytes, size_t length, const struct base *other)
{
    const size_t most = length < other->length ? length : other->length, at = below(most), n = 1 + below(most - at);
    memcpy(bytes + at, other->bytes + at, n);
}

/* changes the record of `base` in `bytes`, which has room for 16 bytes more, and gives its length */
static inline size_t change(const struct base *base, uint8_t *bytes, size_t length)
{
    static const size_t odd[] = {0, 1, 8, 10, 15, 17, 31, 33, 255, 256, 0x7fffffff, 0x80000000, 0xfffffffc, 0xffffffff};
    const struct base *const other = &bases[below(BASES)];
    const size_t field = base->fields[below(6)];
    if (length == 0)
        return 0;
    switch (below(9)) {
    case 0: bytes[below(length)] ^= (uint8_t)(1u << below(8)); break;
    case 1: bytes[below(length < 62 ? length : 62)] = (uint8_t)below(36); break;
    case 2: return below(length);
    case 3:
        if (length + 9 <= base->length + 16) {
            const size_t more = 1 + below(9);
            random_bytes(bytes + length, more);
            return length + more;
        }
        break;
    case 4:
        if (field + 4 <= length)
            put_number(bytes + field, odd[below(sizeof odd / sizeof odd[0])]);
        break;
    case 5:
        if (length >= 16)
            memcpy(bytes + 5, other->bytes + 5, 11);
        break;
    case 6: put_part(bytes, length, other); break;
    case 7: {
        const size_t at = below(length), n = 1 + below(length - at < 16 ? length - at : 16);
        memset(bytes + at, 0, n);
        break;
    }
    default: /* a byte of the commitment, where it is still there */
        if (base->length <= length)
            bytes[base->fields[5] + 4 + below(base->length - base->fields[5] - 4)] ^= (uint8_t)(1 + below(255));
    }
    return length;
}

#endif
