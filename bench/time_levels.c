/* Times commit and reconstruct at sets of each level and kind, at their row lengths, in the archives that a licensee links: the least processor time of some
   runs, the sets in turn. Beside commit stands what the set's AES blocks times rounds predict from FAEST-128f. The commitment that reconstruct gives is
   compared with commit's; that the bytes are right hosts/ tests. */
#include "../hosts/c/shape.h"
#include <rachnoel.h>
#include <stdio.h>
#include <stdlib.h>
#include <string.h>
#include <time.h>

enum { RUNS = 9 };
static const rachnoel_set *const sets[] = {&RACHNOEL_FAEST_128F, &RACHNOEL_FAEST_128S, &RACHNOEL_FAEST_192F, &RACHNOEL_FAEST_192S, &RACHNOEL_FAEST_256F, &RACHNOEL_FAEST_EM_128F,
    &RACHNOEL_FAEST_EM_128S, &RACHNOEL_FAEST_EM_192F, &RACHNOEL_FAEST_EM_256F, &RACHNOEL_FAEST_256S};
enum { SETS = sizeof sets / sizeof sets[0] };

static uint8_t root[RACHNOEL_NODE_MOST], iv[RACHNOEL_IV], challenge[RACHNOEL_NODE_MOST], count[RACHNOEL_COUNT];
static uint8_t commitment[RACHNOEL_COMMITMENT_MOST], again[RACHNOEL_COMMITMENT_MOST];
static uint8_t *tree, *lcs, *u, *v, *corrections, *opening;

/* the blocks of a commit times their rounds: of each node's children, of each stretched leaf, of each row */
static double work(shape s, size_t row_bytes)
{
    const rachnoel_sizes n = rachnoel_lengths_of(NUMBERS(s), row_bytes);
    const size_t leaf = (s.kind == 0 ? 4 : 2) * n.node;
    const size_t blocks = (n.leaves - 1) * ((2 * n.node + 15) / 16) + n.leaves * ((leaf + 15) / 16 + (row_bytes + 15) / 16);
    return (double)blocks * (double)(s.level / 32 + 6);
}

static double milliseconds(struct timespec from)
{
    struct timespec to;
    clock_gettime(CLOCK_PROCESS_CPUTIME_ID, &to);
    return (double)(to.tv_sec - from.tv_sec) * 1e3 + (double)(to.tv_nsec - from.tv_nsec) / 1e6;
}

/* the times of both calls; 0 where all is as it must be */
static int run(shape s, size_t row_bits, double times[2])
{
    const rachnoel_sizes n = rachnoel_lengths_of(NUMBERS(s), row_bits / 8);
    struct timespec from;
    size_t wrong, number, draw = 0;
    clock_gettime(CLOCK_PROCESS_CPUTIME_ID, &from);
    wrong = rachnoel_commit(NUMBERS(s), row_bits, root, n.node, iv, sizeof iv, commitment, n.commitment, tree, n.tree, lcs, n.leaf_commitments, u, n.u, v, n.matrix, corrections,
                            n.corrections, count, sizeof count);
    times[0] = milliseconds(from);
    do {
        for (size_t i = 0; i < n.node; i++)
            challenge[i] = (uint8_t)((draw * 1009 + i) * 7 + (draw * 1009 + i) / 251);
        for (size_t bit = s.level - s.w; bit < s.level; bit++)
            challenge[bit / 8] &= (uint8_t)~(1u << bit % 8);
        number = rachnoel_open(NUMBERS(s), challenge, n.node, tree, n.tree, lcs, n.leaf_commitments, opening, n.opening, count, sizeof count);
        draw++;
    } while (number == RACHNOEL_REFUSED_NODES);
    clock_gettime(CLOCK_PROCESS_CPUTIME_ID, &from);
    number += rachnoel_reconstruct(NUMBERS(s), row_bits, iv, sizeof iv, challenge, n.node, corrections, n.corrections, opening, n.opening, again, n.commitment, tree, n.tree, lcs,
                                   n.leaf_commitments, v, n.matrix, count, sizeof count);
    times[1] = milliseconds(from);
    return wrong + number != 0 || memcmp(commitment, again, n.commitment) != 0;
}

int main(void)
{
    double best[SETS][2];
    int wrong = 0;
    /* room for the largest of the sets */
    const rachnoel_sizes most = rachnoel_lengths_of(NUMBERS(sets[SETS - 1]->shape), 486);
    tree = malloc(most.tree), lcs = malloc(most.leaf_commitments), u = malloc(most.u), v = malloc(most.matrix), corrections = malloc(32 * most.u), opening = malloc(32 * 1024);
    if (!tree || !lcs || !u || !v || !corrections || !opening)
        return 1;
    for (size_t i = 0; i < sizeof root; i++)
        root[i] = (uint8_t)(37 * i + 1);
    for (size_t i = 0; i < sizeof iv; i++)
        iv[i] = (uint8_t)(91 * i + 5);
    for (int r = 0; r < RUNS; r++)
        for (int i = 0; i < SETS; i++) {
            double times[2];
            if (run(sets[i]->shape, sets[i]->row_bits, times))
                wrong = printf("%s: WRONG\n", sets[i]->name);
            for (int c = 0; c < 2; c++)
                if (r == 0 || times[c] < best[i][c])
                    best[i][c] = times[c];
        }
    const double unit = best[0][0] / work(sets[0]->shape, sets[0]->row_bits / 8);
    for (int i = 0; i < SETS; i++) {
        const double predicted = unit * work(sets[i]->shape, sets[i]->row_bits / 8);
        printf("%-13s commit %7.2f ms, predicted %7.2f ms, ratio %.2f; reconstruct %7.2f ms\n", sets[i]->name, best[i][0], predicted, best[i][0] / predicted, best[i][1]);
    }
    return wrong != 0;
}
