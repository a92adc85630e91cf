/* The three calls of version 1 at its six sets: commits, opens, reconstructs and compares. Of each call it prints number, count and buffers as `reference`
 * prints them, of the comparison a few lines; exit status 1 where something does not come out as it must. Each buffer ends before a page that may not be
 * touched, and what a call reads may not be written. The challenge comes from a fixed sequence; a signer takes its own. */
#define _DEFAULT_SOURCE
#include <rachnoel.h>

#include "guarded.h"
#include "shake.h"
#include "shape.h"

enum buffer { ROOT, IV, CHALLENGE, COMMITMENT, TREES, LCS, U, V, CORRECTIONS, OPENING, AGAIN, THEIR_TREES, THEIR_LCS, Q, COUNT, BUFFERS };
enum { SHOWN = 64, DIGEST = 32 }; /* a buffer of more bytes than SHOWN is printed as its digest */

static shape s;
static size_t row_bits;
static rachnoel_sizes_v1 n;
static struct guarded made[BUFFERS];
static size_t len[BUFFERS];

#define AT(b) made[b].at
#define SLICE(b) made[b].at, len[b]

/* ---- buffers */

static void make_buffers(void)
{
    const size_t lengths[BUFFERS] = {n.node, RACHNOEL_IV, n.node, n.commitment, n.trees, n.leaf_commitments, n.u, n.matrix, n.corrections, n.opening, n.commitment, n.trees,
        n.leaf_commitments, n.matrix, RACHNOEL_COUNT};
    for (int b = 0; b < BUFFERS; b++) {
        len[b] = lengths[b];
        made[b] = guard(len[b], 1, 0xa5);
    }
    for (size_t i = 0; i < n.node; i++)
        AT(ROOT)[i] = (uint8_t)i;
    for (size_t i = 0; i < RACHNOEL_IV; i++)
        AT(IV)[i] = (uint8_t)(16 + i);
    uint64_t state = 1;
    for (size_t i = 0; i < n.node; i++) {
        uint64_t z = state += 0x9e3779b97f4a7c15;
        z = (z ^ z >> 30) * 0xbf58476d1ce4e5b9;
        z = (z ^ z >> 27) * 0x94d049bb133111eb;
        AT(CHALLENGE)[i] = (uint8_t)(z ^ z >> 31);
    }
    shut(made[ROOT]), shut(made[IV]), shut(made[CHALLENGE]);
}

static void print_buffer(const char *name, enum buffer b)
{
    uint8_t digest[DIGEST];
    const uint8_t *bytes = AT(b);
    size_t shown = len[b];
    printf("%s %zu%s", name, len[b], len[b] > SHOWN ? " shake128 " : " ");
    if (len[b] > SHOWN) {
        shake128(bytes, len[b], digest, sizeof digest);
        bytes = digest;
        shown = sizeof digest;
    }
    for (size_t i = 0; i < shown; i++)
        printf("%02x", bytes[i]);
    putchar('\n');
}

/* number and count of an answer; whether they are 0 */
static int print_answer(size_t number)
{
    printf("number %zu\ncount %u\n", number, (unsigned)rachnoel_number(AT(COUNT)));
    const int right = number == 0 && rachnoel_number(AT(COUNT)) == 0;
    memset(AT(COUNT), 0xa5, len[COUNT]);
    return right;
}

/* ---- the calls */

static int commit(void)
{
    const int right = print_answer(rachnoel_v1_commit(NUMBERS(s), row_bits, SLICE(ROOT), SLICE(IV), SLICE(COMMITMENT), SLICE(TREES), SLICE(LCS), SLICE(U), SLICE(V), SLICE(CORRECTIONS),
        SLICE(COUNT)));
    print_buffer("commitment", COMMITMENT);
    print_buffer("trees", TREES);
    print_buffer("leaf_commitments", LCS);
    print_buffer("u", U);
    print_buffer("v", V);
    print_buffer("corrections", CORRECTIONS);
    return right;
}

static int open_trees(void)
{
    shut(made[TREES]), shut(made[LCS]);
    const int right = print_answer(rachnoel_v1_open(NUMBERS(s), SLICE(CHALLENGE), SLICE(TREES), SLICE(LCS), SLICE(OPENING), SLICE(COUNT)));
    print_buffer("opening", OPENING);
    return right;
}

/* the checker has iv, challenge, corrections and opening, and compares the commitment with its own */
static int reconstruct(void)
{
    shut(made[CORRECTIONS]), shut(made[OPENING]);
    const int right = print_answer(rachnoel_v1_reconstruct(NUMBERS(s), row_bits, SLICE(IV), SLICE(CHALLENGE), SLICE(CORRECTIONS), SLICE(OPENING), SLICE(AGAIN), SLICE(THEIR_TREES),
        SLICE(THEIR_LCS), SLICE(Q), SLICE(COUNT)));
    print_buffer("commitment", AGAIN);
    print_buffer("trees", THEIR_TREES);
    print_buffer("leaf_commitments", THEIR_LCS);
    print_buffer("q", Q);
    return right;
}

/* ---- the comparison */

static unsigned challenge_bit(size_t c)
{
    return (unsigned)(AT(CHALLENGE)[c / 8] >> c % 8) & 1u;
}

/* How many of the columns of q are that of v, xored with u where the bit of the challenge is 1. */
static size_t agreeing(void)
{
    size_t agree = 0;
    for (size_t c = 0; c < s.level; c++) {
        const uint8_t *const v = AT(V) + n.u * c, *const q = AT(Q) + n.u * c;
        size_t p = 0;
        while (p < n.u && q[p] == (v[p] ^ (challenge_bit(c) ? AT(U)[p] : 0)))
            p++;
        agree += p == n.u;
    }
    return agree;
}

/* whether node a lies on the way from the root to a leaf */
static int on_path(size_t leaf, size_t a)
{
    while (leaf > a)
        leaf = (leaf - 1) / 2;
    return leaf == a;
}

/* Of the nodes on the ways to the hidden leaves, how many there are and how many are zeros; of the others likewise how many are the signer's. */
struct nodes {
    size_t covered, zeros, others, equal;
};

static struct nodes compare_trees(void)
{
    static const uint8_t zeros[RACHNOEL_NODE_MOST];
    struct nodes found = {0, 0, 0, 0};
    size_t bit = 0, first = 0; /* of the vector: its first bit of the challenge, and its root among all nodes */
    for (size_t i = 0; i < s.tau; i++) {
        const size_t depth = i < s.level - s.tau * s.k ? s.k + 1 : s.k, entries = (size_t)1 << depth;
        size_t hidden = 0;
        for (size_t b = 0; b < depth; b++)
            hidden |= (size_t)challenge_bit(bit + b) << b;
        for (size_t a = 0; a < 2 * entries - 1; a++) {
            const uint8_t *const theirs = AT(THEIR_TREES) + n.node * (first + a);
            if (on_path(entries - 1 + hidden, a)) {
                found.covered++;
                found.zeros += memcmp(theirs, zeros, n.node) == 0;
            } else {
                found.others++;
                found.equal += memcmp(theirs, AT(TREES) + n.node * (first + a), n.node) == 0;
            }
        }
        bit += depth;
        first += 2 * entries - 1;
    }
    return found;
}

static int compare(void)
{
    const int commitments = memcmp(AT(COMMITMENT), AT(AGAIN), n.commitment) == 0, leaves = memcmp(AT(LCS), AT(THEIR_LCS), n.leaf_commitments) == 0;
    const size_t columns = agreeing();
    const struct nodes found = compare_trees();
    printf("commitments %s\ncolumns %zu of %zu\nleaf commitments %s\n", commitments ? "agree" : "differ", columns, s.level, leaves ? "agree" : "differ");
    printf("covered nodes: %zu of %zu zeros; others: %zu of %zu equal\n", found.zeros, found.covered, found.equal, found.others);
    return commitments && leaves && columns == s.level && found.zeros == found.covered && found.equal == found.others;
}

static int run(const char *name, shape of, size_t bits)
{
    s = of;
    row_bits = bits;
    n = rachnoel_lengths_of_v1(NUMBERS(s), row_bits / 8);
    make_buffers();
    printf("%s of version 1\n", name);
    int right = commit();
    right &= open_trees();
    right &= reconstruct();
    right &= compare();
    for (int b = 0; b < BUFFERS; b++)
        munmap(made[b].map, made[b].size);
    return !right;
}

int main(void)
{
    int wrong = run("FAEST-128s", RACHNOEL_V1_128S, 1680);
    wrong |= run("FAEST-128f", RACHNOEL_V1_128F, 1680);
    wrong |= run("FAEST-192s", RACHNOEL_V1_192S, 3088);
    wrong |= run("FAEST-192f", RACHNOEL_V1_192F, 3088);
    wrong |= run("FAEST-256s", RACHNOEL_V1_256S, 3888);
    wrong |= run("FAEST-256f", RACHNOEL_V1_256F, 3888);
    return wrong;
}
