/* The numbers that a good shape {tau, k, w, T} gives: the first r = 128 - w - tau k vectors have depth k + 1, the others depth k. */
#include <stddef.h>
#include <stdint.h>

static inline size_t deeper(const size_t shape[4]) { return 128 - shape[2] - shape[0] * shape[1]; }
static inline size_t least(size_t a, size_t b) { return a < b ? a : b; }
static inline size_t depth_of(const size_t shape[4], size_t i) { return shape[1] + (i < deeper(shape)); }
static inline size_t first_bit(const size_t shape[4], size_t i) { return i * shape[1] + least(i, deeper(shape)); }
static inline size_t first_entry(const size_t shape[4], size_t i) { return (i + least(i, deeper(shape))) << shape[1]; }
static inline size_t leaf_count(const size_t shape[4]) { return first_entry(shape, shape[0]); }

/* the node of entry j of vector i */
static inline size_t leaf_of(const size_t shape[4], size_t i, size_t j)
{
    const size_t near = (size_t)1 << shape[1];
    return leaf_count(shape) - 1 + (j < near ? shape[0] * j : shape[0] * near + deeper(shape) * (j - near)) + i;
}

static inline unsigned challenge_bit(const uint8_t *ch, size_t b) { return ch[b / 8] >> (b % 8) & 1; }

static inline size_t hidden_index(const size_t shape[4], const uint8_t *ch, size_t i)
{
    size_t j = 0;
    for (size_t b = 0; b < depth_of(shape, i); b++)
        j |= (size_t)challenge_bit(ch, first_bit(shape, i) + b) << b;
    return j;
}
