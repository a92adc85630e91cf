/* Times the proved primitives, plan and the tree beside portable C: the same work in turn, the least of many short runs of each, and whether the results
   agree. */
#include "portable.h"
#include <stdio.h>
#include <string.h>
#include <time.h>

/* FAEST-128s, with rows of 1,680 bits */
enum { TAU = 11, DEPTH = 11, ALLOWED = 102, LEAVES = TAU << DEPTH, BITS = 1680, ROW = BITS / 8 };
#define SHAPE TAU, DEPTH, 128 - TAU * DEPTH, ALLOWED
static const size_t shape[4] = {SHAPE};

static uint8_t table[256], key[16], iv[16], message[98304], challenge[16], clear[16];
static uint64_t multiples[16][6], padded[16][12]; /* of the C and of the Rattle */
/* what each side worked on last: index 0 the C, index 1 the Rattle */
static uint8_t block[2][16], node[2][32], row[2][224], hash[2][32], keys[2][528], only_tree[2][32 * LEAVES - 16];
static uint64_t state[2][25];
static uint32_t nodes[2][ALLOWED], few[2][ALLOWED];
static size_t count[2], few_count[2], number[2];
static struct {
    uint8_t stretched[64], commitment[48];
} leaf[2];
static struct {
    uint8_t sum[ROW];
} added[2];

static void block_c(void) { uint8_t k[16]; memcpy(k, block[0], 16); c_schedule_and_block(k, block[0]); }
static void block_rattle(void) { uint8_t k[16]; memcpy(k, block[1], 16); rattle_schedule_and_block(table, k, block[1]); }
static void node_c(void) { uint8_t k[16]; memcpy(k, node[0], 16); c_fill(k, iv, 5, node[0], 32); }
static void node_rattle(void) { uint8_t k[16]; memcpy(k, node[1], 16); rattle_node(table, k, iv, node[1]); }
static void row_c(void) { uint8_t k[16]; memcpy(k, row[0], 16); c_fill(k, iv, 5, row[0], 224); }
static void row_rattle(void) { uint8_t k[16]; memcpy(k, row[1], 16); rattle_row(table, k, iv, row[1]); }
static void keccak_c(void) { c_keccak(state[0]); }
static void keccak_rattle(void) { rattle_keccak(state[1]); }
static void h0_c(void) { c_shake(iv, 16, 0, keys[0], 528); }
static void h0_rattle(void) { rattle_h0(iv, 16, keys[1], 528); }
static void h1_c(void) { c_shake(message, sizeof message, 1, hash[0], 32); }
static void h1_rattle(void) { rattle_h1(message, sizeof message, hash[1], 32); }
static void plan_c(void) { count[0] = c_plan(shape, challenge, nodes[0]); }
static void plan_rattle(void) { count[1] = rattle_plan(SHAPE, challenge, 16, nodes[1], ALLOWED); }
static void few_c(void) { few_count[0] = c_plan(shape, clear, few[0]); }
static void few_rattle(void) { few_count[1] = rattle_plan(SHAPE, clear, 16, few[1], ALLOWED); }

/* the next leaf to be hashed depends on this one */
static void next_leaf(int side)
{
    leaf[side].stretched[0] ^= leaf[side].commitment[3];
    leaf[side].stretched[17] ^= leaf[side].commitment[5];
}
static void leaf_c(void) { c_leaf_hash(multiples, leaf[0].stretched, leaf[0].commitment); next_leaf(0); }
static void leaf_rattle(void) { rattle_leaf_hash(padded, leaf[1].stretched, leaf[1].commitment); next_leaf(1); }

/* each row has its own seed and number */
static const uint8_t *next_seed(int side)
{
    number[side] = (number[side] + 1) % 2048;
    return message + 16 * number[side];
}
static void add_c(void) { const uint8_t *seed = next_seed(0); c_add_row(seed, iv, 5, ROW, 0, 0, added[0].sum, 0); }
static void add_rattle(void)
{
    const uint8_t *seed = next_seed(1);
    rattle_add_row(table, seed, 16, iv, 5, added[1].sum, ROW);
}

static void tree_c(void) { c_grow(shape, key, iv, only_tree[0]); }
static void tree_rattle(void) { rattle_grow(table, key, 16, iv, TAU, DEPTH, 128 - TAU * DEPTH, ALLOWED, only_tree[1], sizeof only_tree[1]); }

static const struct work {
    const char *name;
    void (*c)(void), (*rattle)(void);
    int times;
    const void *result[2];
    size_t length;
    const char *aim;
} parts[] = {
    {"AES key schedule and one block", block_c, block_rattle, 100, {block[0], block[1]}, 16, "0.6"},
    {"one key, 32 bytes (a node)", node_c, node_rattle, 100, {node[0], node[1]}, 32, "0.6"},
    {"one key, 224 bytes", row_c, row_rattle, 20, {row[0], row[1]}, 224, "0.6"},
    {"a row into a sum", add_c, add_rattle, 20, {&added[0], &added[1]}, sizeof added[0], ""},
    {"leaf hash, multiples lent", leaf_c, leaf_rattle, 100, {&leaf[0], &leaf[1]}, sizeof leaf[0], "150 ns"},
    {"Keccak-f[1600]", keccak_c, keccak_rattle, 100, {state[0], state[1]}, 200, "1.05"},
    {"H0, 16 to 528 bytes", h0_c, h0_rattle, 20, {keys[0], keys[1]}, 528, ""},
    {"H1, 98,304 to 32 bytes", h1_c, h1_rattle, 1, {hash[0], hash[1]}, 32, ""},
    {"plan, refused with 5", plan_c, plan_rattle, 20, {nodes[0], nodes[1]}, sizeof nodes[0], "1.5"},
    {"plan, all hidden indices 0", few_c, few_rattle, 20, {few[0], few[1]}, sizeof few[0], "1.5"},
}, large[] = {
    {"the tree", tree_c, tree_rattle, 1, {only_tree[0], only_tree[1]}, sizeof only_tree[0], ""},
};

static double nanoseconds(clockid_t clock, void (*work)(void), int times)
{
    struct timespec from, to;
    clock_gettime(clock, &from);
    for (int i = 0; i < times; i++)
        work();
    clock_gettime(clock, &to);
    return ((double)(to.tv_sec - from.tv_sec) * 1e9 + (double)(to.tv_nsec - from.tv_nsec)) / times;
}

static void show(const char *side, double time)
{
    if (time < 1e4)
        printf("  %s %7.1f ns", side, time);
    else if (time < 1e6)
        printf("  %s %7.1f us", side, time / 1e3);
    else
        printf("  %s %7.2f ms", side, time / 1e6);
}

/* whether a result differs */
static int measure(clockid_t clock, const struct work *all, int n, int runs)
{
    double best[16][2];
    int wrong = 0;
    for (int r = 0; r < runs; r++)
        for (int k = 0; k < n; k++) {
            double c = nanoseconds(clock, all[k].c, all[k].times), rattle = nanoseconds(clock, all[k].rattle, all[k].times);
            if (r == 0 || c < best[k][0])
                best[k][0] = c;
            if (r == 0 || rattle < best[k][1])
                best[k][1] = rattle;
        }
    for (int k = 0; k < n; k++) {
        int same = !memcmp(all[k].result[0], all[k].result[1], all[k].length);
        wrong |= !same;
        printf("%-32s", all[k].name);
        show("C", best[k][0]);
        show("Rattle", best[k][1]);
        printf("  ratio %.2f  aim %-6s  %s\n", best[k][1] / best[k][0], all[k].aim, same ? "same results" : "RESULTS DIFFER");
    }
    return wrong;
}

int main(void)
{
    int wrong;
    for (size_t i = 0; i < sizeof message; i++)
        message[i] = (uint8_t)(i * 7 + i / 251);
    for (int i = 0; i < 16; i++) {
        key[i] = (uint8_t)(37 * i + 1);
        iv[i] = (uint8_t)(91 * i + 5);
        challenge[i] = (uint8_t)(i == 15 ? 0 : 57 * i + 7);
        for (int side = 0; side < 2; side++)
            block[side][i] = node[side][i] = row[side][i] = key[i];
    }
    for (int i = 0; i < 64; i++)
        leaf[0].stretched[i] = leaf[1].stretched[i] = (uint8_t)(37 * i + 1);
    rattle_table(table);
    c_multiples(message + 100, multiples);
    rattle_multiples(message + 100, padded);
    wrong = measure(CLOCK_MONOTONIC, parts, sizeof parts / sizeof parts[0], 3000);
    wrong |= measure(CLOCK_PROCESS_CPUTIME_ID, large, sizeof large / sizeof large[0], 25);
    if (count[0] != count[1] || few_count[0] != few_count[1])
        wrong = printf("COUNTS DIFFER\n");
    printf("nodes planned: %zu and %zu\n", count[0], few_count[0]);
    return wrong != 0;
}
