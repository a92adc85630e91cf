/* The header's rule for shapes and its lengths are those of the calls, and the eleven numbers of the proved call rachnoel_lengths: every tau, k and w up to
 * past their limits, with several t, levels and kinds. */
#include <rachnoel.h>

#include "shape.h"

#include <stdio.h>
#include <stdlib.h>
#include <string.h>

enum { ROW = 1, MOST_LEAVES = 86016 };
static uint8_t tree[64 * MOST_LEAVES], lcs[96 * MOST_LEAVES + 1], opening[96 * 32 + 32 * 512 + 1], list[4 * 512 + 1];
static uint8_t challenge[RACHNOEL_NODE_MOST + 1], u[ROW + 1], root[RACHNOEL_NODE_MOST + 1], iv[RACHNOEL_IV], commitment[RACHNOEL_COMMITMENT_MOST + 1];
static uint8_t q[256 * ROW + 1], corrections[31 * ROW + 1], count[RACHNOEL_COUNT];

static size_t wrong, shapes, of_version_1;

static void expect(int right, const char *what, shape s)
{
    if (!right) {
        printf("%s: tau %zu, k %zu, w %zu, t %zu, level %zu, kind %zu\n", what, NUMBERS(s));
        if (++wrong == 20)
            exit(1);
    }
}

/* reconstruct with a grinding bit set: 4 where every length is right. Of the seven buffers whose length the shape or the row decides, the one numbered
   `longer` has a byte more. */
static size_t reconstruct(shape s, const rachnoel_sizes *n, int longer)
{
    return rachnoel_reconstruct(NUMBERS(s), 8 * ROW, iv, sizeof iv, challenge, n->node + (longer == 6), corrections, n->corrections + (longer == 1), opening,
        n->opening + (longer == 2), commitment, n->commitment + (longer == 7), tree, n->tree + (longer == 3), lcs, n->leaf_commitments + (longer == 4), q,
        n->matrix + (longer == 5), count, sizeof count);
}

/* The same for version 1: no refusal is behind 3, so a call with every length right is made. */
static size_t commit_v1(shape s, const rachnoel_sizes_v1 *n, int longer)
{
    return rachnoel_v1_commit(NUMBERS(s), 8 * ROW, root, n->node + (longer == 1), iv, sizeof iv, commitment, n->commitment + (longer == 2), tree, n->trees + (longer == 3), lcs,
        n->leaf_commitments + (longer == 4), u, n->u + (longer == 5), q, n->matrix + (longer == 6), corrections, n->corrections + (longer == 7), count, sizeof count);
}

static size_t open_v1(shape s, const rachnoel_sizes_v1 *n, int longer)
{
    return rachnoel_v1_open(NUMBERS(s), challenge, n->node + (longer == 1), tree, n->trees + (longer == 2), lcs, n->leaf_commitments + (longer == 3), opening,
        n->opening + (longer == 4), count, sizeof count);
}

static size_t reconstruct_v1(shape s, const rachnoel_sizes_v1 *n, int longer)
{
    return rachnoel_v1_reconstruct(NUMBERS(s), 8 * ROW, iv, sizeof iv, challenge, n->node + (longer == 1), corrections, n->corrections + (longer == 2), opening,
        n->opening + (longer == 3), commitment, n->commitment + (longer == 4), tree, n->trees + (longer == 5), lcs, n->leaf_commitments + (longer == 6), q,
        n->matrix + (longer == 7), count, sizeof count);
}

static void try_version_1(shape s)
{
    const rachnoel_sizes_v1 n = rachnoel_lengths_of_v1(NUMBERS(s), ROW);
    const size_t number = rachnoel_v1_open(NUMBERS(s), challenge, 0, tree, 0, lcs, 0, opening, 0, count, sizeof count);
    expect(number == (n.leaves == 0 ? RACHNOEL_REFUSED_SHAPE : RACHNOEL_REFUSED_BUFFER), "a shape of version 1", s);
    if (n.leaves == 0)
        return;
    of_version_1++;
    for (int longer = 0; longer <= 7; longer++) {
        const size_t right = longer ? RACHNOEL_REFUSED_BUFFER : 0;
        expect(commit_v1(s, &n, longer) == right, "the buffers of commit of version 1", s);
        expect(longer > 4 || open_v1(s, &n, longer) == right, "the buffers of open of version 1", s);
        expect(reconstruct_v1(s, &n, longer) == right, "the buffers of reconstruct of version 1", s);
    }
}

/* the eleven numbers of the proved call, or its refusal with nothing written; then, where `others` are asked for, slices of other lengths */
static void try_proved(shape s, size_t row_bits, int others)
{
    static uint8_t painted[RACHNOEL_LENGTHS_SLICE + 1], proved[sizeof painted];
    const rachnoel_sizes n = rachnoel_lengths_of(NUMBERS(s), row_bits / 8);
    const size_t all[] = {n.leaves, n.node, n.commitment, n.indices, n.nodes, n.tree, n.leaf_commitments, n.u, n.matrix, n.corrections, n.opening};
    const int row = row_bits % 8 == 0 && row_bits >= 8 && row_bits <= 65536;
    const size_t right = rachnoel_lengths_of(NUMBERS(s), 1).leaves == 0 ? RACHNOEL_REFUSED_SHAPE : row ? 0 : RACHNOEL_REFUSED_ROW;
    if (painted[0] == 0) {
        memset(painted, 0xa5, sizeof painted);
        memset(proved, 0xa5, sizeof proved);
    }
    for (size_t length = RACHNOEL_LENGTHS_SLICE - 1; others && length <= RACHNOEL_LENGTHS_SLICE + 1; length += 2)
        expect(rachnoel_lengths(NUMBERS(s), row_bits, proved, length) == (right == 0 ? RACHNOEL_REFUSED_BUFFER : right), "the slice of rachnoel_lengths", s);
    expect(!others || memcmp(proved, painted, sizeof painted) == 0, "rachnoel_lengths wrote to another slice", s);
    expect(rachnoel_lengths(NUMBERS(s), row_bits, proved, RACHNOEL_LENGTHS_SLICE) == right, "the number of rachnoel_lengths", s);
    if (right != 0) {
        expect(memcmp(proved, painted, sizeof painted) == 0, "rachnoel_lengths wrote with a refusal", s);
        return;
    }
    for (size_t i = 0; i < sizeof all / sizeof all[0]; i++)
        expect(rachnoel_number(proved + 4 * i) == all[i], "the numbers of rachnoel_lengths", s);
    memcpy(proved, painted, sizeof painted);
}

static void try(shape s)
{
    static const size_t rows[] = {8, 1680, 65536, 0, 12, 65544, (size_t)1 << 60, (size_t)-8};
    const int every = s.t == 110 || s.tau == 0;
    for (size_t i = 0; i < (every ? sizeof rows / sizeof rows[0] : 1); i++)
        try_proved(s, rows[i], every);
    try_version_1(s);
    const rachnoel_sizes n = rachnoel_lengths_of(NUMBERS(s), ROW);
    size_t number = rachnoel_decode(NUMBERS(s), challenge, 0, list, 0, count, sizeof count);
    expect(number == (n.leaves == 0 ? RACHNOEL_REFUSED_SHAPE : RACHNOEL_REFUSED_BUFFER), "a shape", s);
    if (n.leaves == 0)
        return;
    shapes++;
    for (size_t more = 0; more < 2; more++) {
        number = rachnoel_decode(NUMBERS(s), challenge, n.node, list, n.indices + more, count, sizeof count);
        expect(number == (more ? RACHNOEL_REFUSED_BUFFER : 0), "the indices", s);
        number = rachnoel_plan(NUMBERS(s), challenge, n.node, list, n.nodes + more, count, sizeof count);
        expect(more ? number == RACHNOEL_REFUSED_BUFFER : number == 0 || number == RACHNOEL_REFUSED_NODES, "the nodes", s);
    }
    challenge[n.node - 1] = 0x80;
    if (grinding_bits(s) > 0)
        for (int longer = 0; longer <= 7; longer++)
            expect(reconstruct(s, &n, longer) == (longer ? RACHNOEL_REFUSED_BUFFER : RACHNOEL_REFUSED_GRINDING), "the buffers of reconstruct", s);
    challenge[n.node - 1] = 0;
}

int main(void)
{
    static const size_t ts[] = {0, 1, 110, 512, 513, (size_t)-1}, levels[] = {128, 192, 256, 0, 127, 160, 384, (size_t)-1};
    for (size_t tau = 0; tau <= 34; tau++)
        for (size_t k = 0; k <= 14; k++)
            for (size_t w = 0; w <= 130; w++)
                for (size_t l = 0; l < sizeof levels / sizeof levels[0]; l++)
                    for (size_t i = 0; i < sizeof ts / sizeof ts[0]; i++)
                        for (size_t kind = 0; kind <= 2; kind++)
                            try((shape){tau, k, w, ts[i], levels[l], kind});
    /* numbers whose products wrap */
    static const size_t large[] = {64, 1 << 16, (size_t)1 << 32, (size_t)1 << 63, (size_t)-1};
    for (size_t i = 0; i < sizeof large / sizeof large[0]; i++)
        for (int place = 0; place < 6; place++) {
            shape s = RACHNOEL_FAEST_128S.shape;
            size_t *const numbers[] = {&s.tau, &s.k, &s.w, &s.t, &s.level, &s.kind};
            *numbers[place] = large[i];
            try(s);
        }
    printf("%zu shapes, %zu of version 1, %zu wrong\n", shapes, of_version_1, wrong);
    return wrong != 0;
}
