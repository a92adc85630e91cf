/* Times commit, open and reconstruct of version 1, in the archives that a licensee links, beside portable C with AES by bytes and by tables, at 128s and 128f
   of version 1 with rows of 1,680 bits: the same work in turn, the least processor time of many runs of each side, and whether the results agree.
   Version 1 hashes every leaf, with the same Keccak on both sides of C. So the hashes of a commit are timed alone too, those of Rattle in bench_exports, and
   the ratios are given a second time without them: what AES and the xors take. */
#include "portable.h"
#include <rachnoel.h>
#include <stdio.h>
#include <string.h>
#include <time.h>

enum { BITS = 1680, ROW = BITS / 8, LEAVES = 36864, VECTORS = 16, RUNS = 25, SIDES = 3, RATTLE = SIDES - 1 };
static const char *const side_names[SIDES] = {"bytes", "tables", "Rattle"};
static const struct set {
    const char *name;
    size_t shape[4];
} sets[] = {{"128s", {11, 11, 0, 1}}, {"128f", {16, 8, 0, 1}}};

static uint8_t root[16], iv[16], challenge[16]; /* level 128 */
/* what each side wrote last; room for the larger of the two sets */
static struct {
    uint8_t commitment[32], trees[32 * LEAVES], leaf_commitments[32 * LEAVES], u[ROW], v[128 * ROW], corrections[(VECTORS - 1) * ROW];
    uint8_t opening[16 * (128 + 2 * VECTORS)];
    uint8_t again_commitment[32], again_trees[32 * LEAVES], again_leaf_commitments[32 * LEAVES], q[128 * ROW];
} made[SIDES];

static const size_t *shape;
static rachnoel_sizes_v1 n;
static uint8_t count[RACHNOEL_COUNT];
static size_t refused;
#define SHAPE shape[0], shape[1], shape[2], shape[3], 128, 0

static void commit(int side)
{
    if (side < RATTLE)
        (side ? t_v1_commit : c_v1_commit)(shape, ROW, root, iv, made[side].commitment, made[side].trees, made[side].leaf_commitments, made[side].u,
                                           made[side].v, made[side].corrections);
    else
        refused |= rachnoel_v1_commit(SHAPE, BITS, root, 16, iv, 16, made[side].commitment, 32, made[side].trees, n.trees, made[side].leaf_commitments,
                                      n.leaf_commitments, made[side].u, n.u, made[side].v, n.matrix, made[side].corrections, n.corrections, count, 4);
}

static void open(int side)
{
    if (side < RATTLE)
        (side ? t_v1_open : c_v1_open)(shape, challenge, made[side].trees, made[side].leaf_commitments, made[side].opening);
    else
        refused |= rachnoel_v1_open(SHAPE, challenge, 16, made[side].trees, n.trees, made[side].leaf_commitments, n.leaf_commitments, made[side].opening,
                                    n.opening, count, 4);
}

static void reconstruct(int side)
{
    if (side < RATTLE)
        (side ? t_v1_reconstruct : c_v1_reconstruct)(shape, ROW, iv, challenge, made[side].corrections, made[side].opening, made[side].again_commitment,
                                                     made[side].again_trees, made[side].again_leaf_commitments, made[side].q);
    else
        refused |= rachnoel_v1_reconstruct(SHAPE, BITS, iv, 16, challenge, 16, made[side].corrections, n.corrections, made[side].opening, n.opening,
                                           made[side].again_commitment, 32, made[side].again_trees, n.trees, made[side].again_leaf_commitments,
                                           n.leaf_commitments, made[side].q, n.matrix, count, 4);
}

/* the hashes of a commit but the last, of bytes that it wrote: each leaf, each vector. The vectors count as of one length: that changes the runs of Keccak by
   no more than the number of vectors */
static void hashes(int side)
{
    static uint8_t out[48 + 32 * VECTORS];
    const size_t each = n.leaf_commitments / shape[0];
    for (size_t e = 0; e < n.leaves; e++)
        if (side < RATTLE)
            c_shake(made[side].trees + 16 * e, 32, 0, out, 48);
        else
            rattle_h0(made[side].trees + 16 * e, 32, out, 48);
    for (size_t i = 0; i < shape[0]; i++)
        if (side < RATTLE)
            c_shake(made[side].leaf_commitments + each * i, each, 1, out + 32 * i, 32);
        else
            rattle_h1(made[side].leaf_commitments + each * i, each, out + 32 * i, 32);
}

static const struct {
    const char *name;
    void (*work)(int side);
    int times;
} calls[] = {{"commit", commit, 1}, {"open", open, 20}, {"reconstruct", reconstruct, 1}, {"hashes", hashes, 1}};
enum { COMMIT, OPEN, RECONSTRUCT, HASHES, CALLS };

static double milliseconds(void (*work)(int), int side, int times)
{
    struct timespec from, to;
    clock_gettime(CLOCK_PROCESS_CPUTIME_ID, &from);
    for (int i = 0; i < times; i++)
        work(side);
    clock_gettime(CLOCK_PROCESS_CPUTIME_ID, &to);
    return ((double)(to.tv_sec - from.tv_sec) * 1e3 + (double)(to.tv_nsec - from.tv_nsec) / 1e6) / times;
}

/* whether two sides' results differ, or the commitment or the leaf commitments that reconstruct wrote are others than commit's */
static int differ(int a, int b)
{
#define OTHER(field, length) memcmp(made[a].field, made[b].field, length)
    return OTHER(commitment, 32) || OTHER(trees, n.trees) || OTHER(leaf_commitments, n.leaf_commitments) || OTHER(u, n.u) || OTHER(v, n.matrix)
        || OTHER(corrections, n.corrections) || OTHER(opening, n.opening) || OTHER(again_commitment, 32) || OTHER(again_trees, n.trees)
        || OTHER(again_leaf_commitments, n.leaf_commitments) || OTHER(q, n.matrix) || memcmp(made[a].commitment, made[a].again_commitment, 32)
        || memcmp(made[a].leaf_commitments, made[a].again_leaf_commitments, n.leaf_commitments);
}

static void print_call(const char *set, int c, double best[CALLS][SIDES])
{
    const int small = best[c][RATTLE] < 1;
    printf("version 1 %s %-11s", set, calls[c].name);
    for (int side = 0; side < SIDES; side++)
        printf("  %s %6.2f %s", side_names[side], best[c][side] * (small ? 1e3 : 1), small ? "us" : "ms");
    for (int side = 0; side < RATTLE; side++)
        printf("  ratio to %s %.3f", side_names[side], best[c][RATTLE] / best[c][side]);
    if (c == COMMIT || c == RECONSTRUCT)
        for (int side = 0; side < RATTLE; side++)
            printf("  without hashes %.3f", (best[c][RATTLE] - best[HASHES][RATTLE]) / (best[c][side] - best[HASHES][side]));
    printf("\n");
}

int main(void)
{
    int wrong = 0;
    t_make_tables();
    for (int i = 0; i < 16; i++) {
        root[i] = (uint8_t)(37 * i + 1);
        iv[i] = (uint8_t)(91 * i + 5);
        challenge[i] = (uint8_t)(73 * i + 11);
    }
    iv[15] = 0xfa; /* carries from the sixth block of a row on */
    for (size_t s = 0; s < sizeof sets / sizeof sets[0]; s++) {
        double best[CALLS][SIDES];
        shape = sets[s].shape;
        n = rachnoel_lengths_of_v1(SHAPE, ROW);
        /* the sides begin with other bytes */
        for (int side = 0; side < SIDES; side++)
            memset(&made[side], 0x55 + side, sizeof made[side]);
        for (int r = 0; r < RUNS; r++)
            for (int c = 0; c < CALLS; c++)
                for (int side = 0; side < SIDES; side++) {
                    const double t = milliseconds(calls[c].work, side, calls[c].times);
                    if (r == 0 || t < best[c][side])
                        best[c][side] = t;
                }
        for (int c = 0; c < CALLS; c++)
            print_call(sets[s].name, c, best);
        for (int side = 0; side < RATTLE; side++)
            if (differ(RATTLE, side))
                wrong = printf("RESULTS DIFFER from %s\n", side_names[side]);
        if (refused)
            wrong = printf("REFUSED\n");
    }
    return wrong != 0;
}
