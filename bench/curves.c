/* Times commit under several shapes and row lengths, in Rattle and in portable C: least processor time of some runs. One line for each point:
   the curve, what it goes by, milliseconds of the C, milliseconds of the Rattle. */
#include "portable.h"
#include <rachnoel.h>
#include <stdio.h>
#include <string.h>
#include <time.h>

enum { LEAVES = 10 << 12, ROW = 8192, VECTORS = 11, RUNS = 15 };
static const struct {
    const char *curve;
    size_t tau, k, row_bits;
} points[] = {
    {"leaves", 11, 1, 1680}, {"leaves", 11, 8, 1680}, {"leaves", 11, 9, 1680}, {"leaves", 11, 10, 1680}, {"leaves", 8, 11, 1680},
    {"leaves", 11, 11, 1680}, {"leaves", 7, 12, 1680}, {"leaves", 9, 12, 1680}, {"leaves", 10, 12, 1680},
    {"bits", 11, 7, 8}, {"bits", 11, 7, 8192}, {"bits", 11, 7, 16384}, {"bits", 11, 7, 24576}, {"bits", 11, 7, 32768}, {"bits", 11, 7, 40960},
    {"bits", 11, 7, 49152}, {"bits", 11, 7, 57344}, {"bits", 11, 7, 65536},
};
enum { POINTS = sizeof points / sizeof points[0] };

/* index 0 the C, index 1 the Rattle */
static struct {
    uint8_t commitment[32], tree[32 * LEAVES - 16], leaf_commitments[48 * LEAVES], u[ROW], v[128 * ROW], corrections[(VECTORS - 1) * ROW];
} made[2];
static uint8_t root[16] = {1, 2, 3}, iv[16] = {4, 5, 6};

static double milliseconds(int side, size_t tau, size_t k, size_t row_bits)
{
    const size_t w = 128 - tau * k, shape[4] = {tau, k, w, 128}, b = row_bits / 8;
    const rachnoel_sizes n = rachnoel_lengths_of(tau, k, w, 128, 128, 0, b);
    uint8_t count[RACHNOEL_COUNT];
    struct timespec from, to;
    clock_gettime(CLOCK_PROCESS_CPUTIME_ID, &from);
    if (side == 0)
        c_commit(shape, b, root, iv, made[0].commitment, made[0].tree, made[0].leaf_commitments, made[0].u, made[0].v, made[0].corrections);
    else
        rachnoel_commit(tau, k, w, 128, 128, 0, row_bits, root, 16, iv, 16, made[1].commitment, 32, made[1].tree, n.tree, made[1].leaf_commitments, n.leaf_commitments,
                        made[1].u, n.u, made[1].v, n.matrix, made[1].corrections, n.corrections, count, 4);
    clock_gettime(CLOCK_PROCESS_CPUTIME_ID, &to);
    return (double)(to.tv_sec - from.tv_sec) * 1e3 + (double)(to.tv_nsec - from.tv_nsec) / 1e6;
}

int main(void)
{
    double best[POINTS][2];
    for (int r = 0; r < RUNS; r++)
        for (int p = 0; p < POINTS; p++) {
            for (int side = 0; side < 2; side++) {
                double t = milliseconds(side, points[p].tau, points[p].k, points[p].row_bits);
                if (r == 0 || t < best[p][side])
                    best[p][side] = t;
            }
            if (memcmp(&made[0], &made[1], sizeof made[0])) {
                fprintf(stderr, "the results differ\n");
                return 1;
            }
        }
    for (int p = 0; p < POINTS; p++)
        printf("%s %zu %.3f %.3f\n", points[p].curve, points[p].curve[0] == 'l' ? points[p].tau << points[p].k : points[p].row_bits, best[p][0], best[p][1]);
    return 0;
}
