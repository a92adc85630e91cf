/* How deep the stack of each exported call goes, at the largest trees, at the smallest and at the sets of each level: the call runs on a stack of the size
 * that the header names, with a forbidden page beneath, which is filled before and looked through after. Prints the deepest of each call; exit status 1 where
 * a call was refused or went beyond seven eighths. */
#define _DEFAULT_SOURCE
#include <rachnoel.h>

#include "shape.h"

#include <stdio.h>
#include <stdlib.h>
#include <string.h>
#include <sys/mman.h>
#include <ucontext.h>
#include <unistd.h>

enum { FIRST = 5, WIDTH = 160, FILL = 0xa5 };
static shape now;
static size_t bits; /* of a row */
static int named;   /* whether shape and row length are a named set's */
#define SHAPE NUMBERS(now)

static rachnoel_sizes n, m;  /* of the whole rows, and of the stretch */
static rachnoel_sizes_v1 n1; /* of version 1 */
static uint8_t root[RACHNOEL_NODE_MOST], iv[RACHNOEL_IV], challenge[RACHNOEL_NODE_MOST], commitment[RACHNOEL_COMMITMENT_MOST], count[RACHNOEL_COUNT];
static uint8_t record[RACHNOEL_RECORD_MOST], length[RACHNOEL_LENGTH_SLICE], lengths[RACHNOEL_WORK_LENGTHS_SLICE], all[RACHNOEL_LENGTHS_SLICE];
static uint8_t *tree, *lcs, *u, *v, *corrections, *opening, *indices, *nodes;
static size_t answer;

static void decode(void) { answer = rachnoel_decode(SHAPE, challenge, n.node, indices, n.indices, count, 4); }
static void plan(void) { answer = rachnoel_plan(SHAPE, challenge, n.node, nodes, n.nodes, count, 4); }
static void commit(void)
{
    answer = rachnoel_commit(SHAPE, bits, root, n.node, iv, 16, commitment, n.commitment, tree, n.tree, lcs, n.leaf_commitments, u, n.u, v, n.matrix, corrections, n.corrections, count, 4);
}
static void commit_stretch(void)
{
    answer = rachnoel_commit_stretch(SHAPE, bits, FIRST, WIDTH, root, n.node, iv, 16, commitment, n.commitment, tree, m.tree, lcs, m.leaf_commitments, u, m.u, v, m.matrix, corrections,
        m.corrections, count, 4);
}
static void opened(void) { answer = rachnoel_open(SHAPE, challenge, n.node, tree, n.tree, lcs, n.leaf_commitments, opening, n.opening, count, 4); }
static void reconstruct(void)
{
    answer = rachnoel_reconstruct(SHAPE, bits, iv, 16, challenge, n.node, corrections, n.corrections, opening, n.opening, commitment, n.commitment, tree, n.tree, lcs, n.leaf_commitments, v,
        n.matrix, count, 4);
}
static void reconstruct_stretch(void)
{
    answer = rachnoel_reconstruct_stretch(SHAPE, bits, FIRST, WIDTH, iv, 16, challenge, n.node, corrections, m.corrections, opening, m.opening, commitment, n.commitment, tree, m.tree, lcs,
        m.leaf_commitments, v, m.matrix, count, 4);
}
static void all_lengths(void) { answer = rachnoel_lengths(SHAPE, bits, all, sizeof all); }
static void record_length(void) { answer = rachnoel_record_length(SHAPE, bits, length, 4); }
static void write_record(void)
{
    answer = rachnoel_write_record(SHAPE, bits, iv, 16, challenge, n.node, corrections, n.corrections, opening, n.opening, commitment, n.commitment, record, rachnoel_number(length));
}
static void work_lengths(void) { answer = rachnoel_work_lengths(record, rachnoel_number(length), lengths, 12); }
static void check_record(void)
{
    answer = rachnoel_check_record(record, rachnoel_number(length), tree, n.tree, lcs, n.leaf_commitments, v, n.matrix, count, 4);
}
static void check_named(void)
{
    answer = rachnoel_check_named(record, rachnoel_number(length), tree, n.tree, lcs, n.leaf_commitments, v, n.matrix, count, 4);
    if (!named)
        answer = answer == RACHNOEL_REFUSED_NOT_NAMED ? 0 : RACHNOEL_REFUSED_NOT_NAMED;
}
static void v1_commit(void)
{
    answer = rachnoel_v1_commit(SHAPE, bits, root, n1.node, iv, 16, commitment, n1.commitment, tree, n1.trees, lcs, n1.leaf_commitments, u, n1.u, v, n1.matrix, corrections,
        n1.corrections, count, 4);
}
static void v1_open(void) { answer = rachnoel_v1_open(SHAPE, challenge, n1.node, tree, n1.trees, lcs, n1.leaf_commitments, opening, n1.opening, count, 4); }
static void v1_reconstruct(void)
{
    answer = rachnoel_v1_reconstruct(SHAPE, bits, iv, 16, challenge, n1.node, corrections, n1.corrections, opening, n1.opening, commitment, n1.commitment, tree, n1.trees, lcs,
        n1.leaf_commitments, v, n1.matrix, count, 4);
}
static void nothing(void) {}

/* in this order each finds what it needs: a record is written of what commit and open gave, and then checked; those from V1 on are made at shapes of
 * version 1, the others but the first at those of version 2 */
static const struct {
    const char *name;
    void (*work)(void);
} calls[] = {{"nothing", nothing}, {"decode", decode}, {"plan", plan}, {"lengths", all_lengths}, {"commit", commit}, {"commit_stretch", commit_stretch}, {"open", opened}, {"reconstruct", reconstruct},
    {"reconstruct_stretch", reconstruct_stretch}, {"record_length", record_length}, {"write_record", write_record}, {"work_lengths", work_lengths},
    {"check_record", check_record}, {"check_named", check_named}, {"v1_commit", v1_commit}, {"v1_open", v1_open}, {"v1_reconstruct", v1_reconstruct}};
enum { CALLS = sizeof calls / sizeof calls[0], V1 = CALLS - 3 };

/* the bytes of a filled stack that the call changed */
static size_t depth(void (*work)(void))
{
    const size_t size = RACHNOEL_STACK, page = (size_t)sysconf(_SC_PAGESIZE);
    uint8_t *const map = mmap(NULL, size + page, PROT_READ | PROT_WRITE, MAP_PRIVATE | MAP_ANONYMOUS, -1, 0);
    static ucontext_t here, there;
    if (map == MAP_FAILED || mprotect(map, page, PROT_NONE) != 0 || getcontext(&there) != 0) {
        perror("a stack");
        exit(1);
    }
    memset(map + page, FILL, size);
    there.uc_stack.ss_sp = map + page;
    there.uc_stack.ss_size = size;
    there.uc_link = &here;
    makecontext(&there, work, 0);
    swapcontext(&here, &there);
    size_t kept = 0;
    while (kept < size && map[page + kept] == FILL)
        kept++;
    munmap(map, size + page);
    return size - kept;
}

int main(void)
{
    const struct {
        shape s;
        size_t bits;
        int named;
    } cases[] = {{RACHNOEL_DEFAULT.shape, 1680, 0}, {RACHNOEL_FAEST_128S.shape, 1680, 1}, {RACHNOEL_FAEST_128F.shape, 1680, 1}, {RACHNOEL_FAEST_192S.shape, 3088, 1}, {RACHNOEL_FAEST_192F.shape, 3088, 1}, {RACHNOEL_FAEST_256S.shape, 3888, 1}, {RACHNOEL_FAEST_256F.shape, 3888, 1},
        {RACHNOEL_FAEST_EM_128S.shape, 1360, 1}, {RACHNOEL_FAEST_EM_128F.shape, 1360, 1}, {RACHNOEL_FAEST_EM_192S.shape, 2320, 1}, {RACHNOEL_FAEST_EM_192F.shape, 2320, 1}, {RACHNOEL_FAEST_EM_256S.shape, 3472, 1}, {RACHNOEL_FAEST_EM_256F.shape, 3472, 1},
        {{10, 12, 8, 512, 128, 0}, 1680, 0}, {{32, 4, 0, 512, 128, 0}, 1680, 0}, {{10, 11, 9, 512, 128, 0}, 1680, 0}, {{1, 1, 127, 1, 128, 0}, 1680, 0}, {{16, 12, 0, 512, 192, 0}, 1680, 0},
        {{32, 2, 127, 512, 192, 0}, 1680, 0}, {{21, 12, 4, 512, 256, 0}, 1680, 0}, {{32, 8, 0, 512, 256, 0}, 1680, 0}, {{21, 11, 5, 512, 256, 0}, 1680, 0},
        {{21, 12, 4, 512, 256, 1}, 1680, 0}, {{32, 8, 0, 512, 256, 1}, 1680, 0}, {{1, 1, 127, 1, 128, 1}, 1680, 0}, {RACHNOEL_V1_128S, 1680, 0}, {RACHNOEL_V1_128F, 1680, 0}, {RACHNOEL_V1_192S, 3088, 0},
        {RACHNOEL_V1_192F, 3088, 0}, {RACHNOEL_V1_256S, 3888, 0}, {RACHNOEL_V1_256F, 3888, 0}, {{32, 4, 0, 1, 128, 0}, 1680, 0}};
    size_t deepest[CALLS] = {0}, wrong = 0;
    for (size_t i = 0; i < sizeof cases / sizeof cases[0]; i++) {
        now = cases[i].s;
        bits = cases[i].bits;
        named = cases[i].named;
        n = rachnoel_lengths_of(SHAPE, bits / 8);
        m = rachnoel_lengths_of(SHAPE, WIDTH);
        n1 = rachnoel_lengths_of_v1(SHAPE, bits / 8);
        tree = calloc(1, n.tree), lcs = calloc(1, n.leaf_commitments), u = calloc(1, n.u), v = calloc(1, n.matrix), corrections = calloc(1, n.corrections);
        opening = calloc(1, n.opening + n1.opening), indices = calloc(1, n.indices), nodes = calloc(1, n.nodes);
        if (!tree || !lcs || !u || !v || !corrections || !opening || !indices || !nodes)
            return 1;
        /* hidden leaves far apart where T allows it, and in version 1 */
        const int version_1 = n1.leaves > 0;
        memset(challenge, 0, sizeof challenge);
        for (size_t b = 0; (now.t == 512 || version_1) && b < now.level - now.w; b++)
            if (b * b % 7 == 4)
                challenge[b / 8] = (uint8_t)(challenge[b / 8] | 1u << b % 8);
        for (size_t c = 0; c < CALLS; c++) {
            if (c > 0 && (c >= V1) != version_1)
                continue;
            answer = 0;
            calls[c].work(); /* the first call may bind names of the C library, on the stack it runs on */
            const size_t d = depth(calls[c].work);
            if (answer != 0 || d > RACHNOEL_STACK / 8 * 7)
                wrong += (size_t)printf("%s: answered %zu, %zu bytes of stack, at tau %zu, level %zu, kind %zu\n", calls[c].name, answer, d, now.tau, now.level, now.kind);
            if (deepest[c] < d)
                deepest[c] = d;
        }
        free(tree), free(lcs), free(u), free(v), free(corrections), free(opening), free(indices), free(nodes);
    }
    /* what a stack has for no call at all is not the call's */
    for (size_t c = 1; c < CALLS; c++)
        printf("%-20s%7zu bytes of stack\n", calls[c].name, deepest[c] - deepest[0]);
    return wrong != 0;
}
