/* Times commit, open and reconstruct, in the archives that a licensee links, beside portable C with AES by bytes and by tables, at FAEST-128s and FAEST-128f
   with rows of 1,680 bits: the same work in turn, the least processor time of many runs of each side, and whether the results agree. A call is longer than
   what the system gives a process at a time, hence the processor's time. */
#include "portable.h"
#include <rachnoel.h>
#include <stdio.h>
#include <string.h>
#include <time.h>

enum { BITS = 1680, ROW = BITS / 8, LEAVES = 22528, VECTORS = 16, ALLOWED = 110, RUNS = 25, SIDES = 3 };
static const char *const side_names[SIDES] = {"bytes", "tables", "Rattle"};
static const struct set {
    const char *name;
    size_t shape[4];
} sets[] = {{"FAEST-128s", {11, 11, 7, 102}}, {"FAEST-128f", {16, 7, 8, 110}}};

static uint8_t root[16], iv[16], challenge[16]; /* level 128 */
/* what each side wrote last; room for the larger of the two sets */
static struct {
    uint8_t commitment[32], tree[32 * LEAVES - 16], leaf_commitments[48 * LEAVES], u[ROW], v[128 * ROW], corrections[(VECTORS - 1) * ROW];
    uint8_t opening[48 * VECTORS + 16 * ALLOWED];
    uint8_t again_commitment[32], again_tree[32 * LEAVES - 16], again_leaf_commitments[48 * LEAVES], q[128 * ROW];
    size_t opened, reconstructed;
} made[SIDES];

/* what commit_stretch wrote last */
static uint8_t stretch_u[ROW / 10], stretch_v[128 * (ROW / 10)], stretch_corrections[(VECTORS - 1) * (ROW / 10)];

static const size_t *shape;
static rachnoel_sizes n;
static uint8_t count[RACHNOEL_COUNT];
#define SHAPE shape[0], shape[1], shape[2], shape[3], 128, 0

static void (*const c_commits[])(const size_t *, size_t, const uint8_t *, const uint8_t *, uint8_t *, uint8_t *, uint8_t *, uint8_t *, uint8_t *, uint8_t *) = {c_commit, t_commit};
static size_t (*const c_opens[])(const size_t *, const uint8_t *, const uint8_t *, const uint8_t *, uint8_t *) = {c_open, t_open};
static size_t (*const c_reconstructs[])(const size_t *, size_t, const uint8_t *, const uint8_t *, const uint8_t *, const uint8_t *, uint8_t *, uint8_t *, uint8_t *, uint8_t *) = {
    c_reconstruct, t_reconstruct};
enum { RATTLE = SIDES - 1 };

static void commit(int side)
{
    if (side < RATTLE)
        c_commits[side](shape, ROW, root, iv, made[side].commitment, made[side].tree, made[side].leaf_commitments, made[side].u, made[side].v,
                        made[side].corrections);
    else
        rachnoel_commit(SHAPE, BITS, root, 16, iv, 16, made[side].commitment, 32, made[side].tree, n.tree, made[side].leaf_commitments, n.leaf_commitments,
                        made[side].u, n.u, made[side].v, n.matrix, made[side].corrections, n.corrections, count, 4);
}

/* a tenth of the row, in the place of the front of the buffers; the C has no such form and makes the whole commit */
enum { FIRST = 5, WIDTH = ROW / 10 };

static void commit_stretch(int side)
{
    if (side < RATTLE)
        commit(side);
    else
        rachnoel_commit_stretch(SHAPE, BITS, FIRST, WIDTH, root, 16, iv, 16, made[side].commitment, 32, made[side].tree, n.tree, made[side].leaf_commitments,
                                n.leaf_commitments, stretch_u, WIDTH, stretch_v, 128 * WIDTH, stretch_corrections, WIDTH * (shape[0] - 1), count, 4);
}

static void open(int side)
{
    if (side < RATTLE)
        made[side].opened = c_opens[side](shape, challenge, made[side].tree, made[side].leaf_commitments, made[side].opening);
    else {
        rachnoel_open(SHAPE, challenge, 16, made[side].tree, n.tree, made[side].leaf_commitments, n.leaf_commitments, made[side].opening, n.opening, count, 4);
        made[side].opened = rachnoel_number(count);
    }
}

static void reconstruct(int side)
{
    if (side < RATTLE)
        made[side].reconstructed = c_reconstructs[side](shape, ROW, iv, challenge, made[side].corrections, made[side].opening, made[side].again_commitment,
                                                        made[side].again_tree, made[side].again_leaf_commitments, made[side].q);
    else {
        rachnoel_reconstruct(SHAPE, BITS, iv, 16, challenge, 16, made[side].corrections, n.corrections, made[side].opening, n.opening, made[side].again_commitment,
                             32, made[side].again_tree, n.tree, made[side].again_leaf_commitments, n.leaf_commitments, made[side].q, n.matrix, count, 4);
        made[side].reconstructed = rachnoel_number(count);
    }
}

static const struct {
    const char *name;
    void (*work)(int side);
    int times;
} calls[] = {{"commit", commit, 1}, {"commit of a tenth", commit_stretch, 1}, {"open", open, 20}, {"reconstruct", reconstruct, 1}};
enum { CALLS = 4 };

static double milliseconds(void (*work)(int), int side, int times)
{
    struct timespec from, to;
    clock_gettime(CLOCK_PROCESS_CPUTIME_ID, &from);
    for (int i = 0; i < times; i++)
        work(side);
    clock_gettime(CLOCK_PROCESS_CPUTIME_ID, &to);
    return ((double)(to.tv_sec - from.tv_sec) * 1e3 + (double)(to.tv_nsec - from.tv_nsec) / 1e6) / times;
}

/* whether two sides' results differ, or the commitment that reconstruct wrote is another than commit's */
static int differ(int a, int b)
{
#define OTHER(field, length) memcmp(made[a].field, made[b].field, length)
    return OTHER(commitment, 32) || OTHER(tree, n.tree) || OTHER(leaf_commitments, n.leaf_commitments) || OTHER(u, n.u) || OTHER(v, n.matrix)
        || OTHER(corrections, n.corrections) || OTHER(opening, n.opening) || OTHER(again_commitment, 32) || OTHER(again_tree, n.tree)
        || OTHER(again_leaf_commitments, n.leaf_commitments) || OTHER(q, n.matrix) || made[a].opened != made[b].opened
        || made[a].reconstructed != made[b].reconstructed || memcmp(made[a].commitment, made[a].again_commitment, 32);
}

/* whether n strings of the stretch are other than those bytes of the whole ones */
static int other_stretch(const uint8_t *cut, const uint8_t *whole, size_t n)
{
    for (size_t i = 0; i < n; i++)
        if (memcmp(cut + WIDTH * i, whole + ROW * i + FIRST, WIDTH))
            return 1;
    return 0;
}

int main(void)
{
    int wrong = 0;
    t_make_tables();
    for (int i = 0; i < 16; i++) {
        root[i] = (uint8_t)(37 * i + 1);
        iv[i] = (uint8_t)(91 * i + 5);
    }
    for (size_t s = 0; s < sizeof sets / sizeof sets[0]; s++) {
        double best[CALLS][SIDES];
        uint32_t list[512];
        shape = sets[s].shape;
        n = rachnoel_lengths_of(SHAPE, ROW);
        /* the sides begin with other bytes */
        for (int side = 0; side < SIDES; side++)
            memset(&made[side], 0x55 + side, sizeof made[side]);
        /* the first challenge of a list that is accepted */
        for (unsigned c = 0, found = 0; !found; c++) {
            for (unsigned i = 0; i < 16; i++)
                challenge[i] = (uint8_t)((c * 1009 + i) * 7 + (c * 1009 + i) / 251);
            challenge[15] &= (uint8_t)(0xff >> shape[2]);
            const size_t nodes = c_plan(shape, challenge, list);
            found = 0 < nodes && nodes <= shape[3];
        }
        for (int r = 0; r < RUNS; r++)
            for (int c = 0; c < CALLS; c++)
                for (int side = 0; side < SIDES; side++) {
                    const double t = milliseconds(calls[c].work, side, calls[c].times);
                    if (r == 0 || t < best[c][side])
                        best[c][side] = t;
                }
        for (int c = 0; c < CALLS; c++) {
            printf("%s %-17s", sets[s].name, calls[c].name);
            for (int side = 0; side < SIDES; side++)
                if (best[c][side] < 1)
                    printf("  %s %6.2f us", side_names[side], best[c][side] * 1e3);
                else
                    printf("  %s %6.2f ms", side_names[side], best[c][side]);
            for (int side = 0; side < SIDES - 1; side++)
                printf("  ratio to %s %.2f", side_names[side], best[c][SIDES - 1] / best[c][side]);
            printf("\n");
        }
        for (int side = 0; side < SIDES - 1; side++)
            if (differ(SIDES - 1, side))
                wrong = printf("RESULTS DIFFER from %s\n", side_names[side]);
        if (other_stretch(stretch_u, made[RATTLE].u, 1) || other_stretch(stretch_v, made[RATTLE].v, 128) || other_stretch(stretch_corrections, made[RATTLE].corrections, shape[0] - 1))
            wrong = printf("THE STRETCH DIFFERS\n");
        printf("nodes opened: %zu\n", made[SIDES - 1].opened);
    }
    return wrong != 0;
}
