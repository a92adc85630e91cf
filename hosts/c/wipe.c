/* What commit leaves on the stack, and what rachnoel_wipe_stack leaves of it. Each run is on one and the same stack, which is painted before.
 *
 * First, two commits that differ in the root alone: the bytes of the stack that differ afterwards are made of secrets. There must be some, and behind the
 * wipe none. Second, the root, the seed of a leaf and a round key of it, laid where a frame of a call lies: a search must find them, and behind the wipe none.
 * With NO_WIPE defined nothing is wiped, and both fail. */
#define _GNU_SOURCE
#include <rachnoel.h>

#include <stdio.h>
#include <stdlib.h>
#include <string.h>
#include <sys/mman.h>
#include <ucontext.h>

enum { KEY = 16, SIZE = 4 * RACHNOEL_STACK, PAINT = 0xa5, SECRETS = 3 };

static const char *const names[SECRETS] = {"root", "leaf seed", "round key"};
static uint8_t secrets[SECRETS][KEY];
static uint8_t *stack;
static rachnoel_commit_buffers b;
static size_t answer;
static int planting, wiping, large;

/* a frame as deep as any call's, with the secrets here and there */
__attribute__((noinline)) static void plant(void)
{
    volatile uint8_t frame[RACHNOEL_STACK / 8 * 7];
    for (size_t i = 0; i < SECRETS * KEY; i++) {
        frame[i] = secrets[i / KEY][i % KEY];
        frame[sizeof frame - SECRETS * KEY + i] = secrets[i / KEY][i % KEY];
    }
}

/* a host with buffers in its own frame, whose last statement is the wipe: were it a jump, the frame would be gone, and its own bytes cleared in place of
   those below */
__attribute__((noinline)) static void work_in_large_frame(void)
{
    volatile uint8_t own[2 * RACHNOEL_STACK];
    own[0] = own[sizeof own - 1] = 0;
    answer = rachnoel_commit_in(&b);
#ifndef NO_WIPE
    if (wiping)
        rachnoel_wipe_stack();
#endif
}

static void work(void)
{
    if (large) {
        work_in_large_frame();
        return;
    }
    if (planting)
        plant();
    else
        answer = rachnoel_commit_in(&b);
#ifndef NO_WIPE
    if (wiping)
        rachnoel_wipe_stack();
#endif
}

static void run(uint8_t *copy)
{
    static ucontext_t first, here, there;
    static int known;
    memset(stack, PAINT, SIZE);
    /* every run begins with the same registers: they may be saved on the stack */
    if (!known && getcontext(&first) != 0) {
        perror("getcontext");
        exit(1);
    }
    known = 1;
    there = first;
    there.uc_stack.ss_sp = stack;
    there.uc_stack.ss_size = SIZE;
    there.uc_link = &here;
    makecontext(&there, work, 0);
    swapcontext(&here, &there);
    memcpy(copy, stack, SIZE);
}

/* ---- the two tests: what is found without the wipe, and behind it */

/* the bytes that two commits with different roots leave different */
static size_t differing(void)
{
    static uint8_t one[SIZE], two[SIZE];
    static const uint8_t roots[2][KEY] = {{1, 2, 3, 4, 5, 6, 7, 8, 9, 10, 11, 12, 13, 14, 15, 16}, {99, 98, 97, 96, 95, 94, 93, 92, 91, 90, 89, 88, 87, 86, 85, 84}};
    static uint8_t root[KEY];
    size_t n = 0;
    b.root.at = root; /* the same place: an address is no secret */
    memcpy(root, roots[0], KEY);
    run(one);
    memcpy(root, roots[1], KEY);
    run(two);
    for (size_t i = 0; i < SIZE; i++)
        n += one[i] != two[i];
    return n;
}

static size_t found(size_t secret)
{
    static uint8_t one[SIZE];
    run(one);
    return memmem(one, SIZE, secrets[secret], KEY) != NULL;
}

static int wrong;

static void expect(const char *what, size_t before, size_t after)
{
    printf("%s: %zu, behind rachnoel_wipe_stack %zu\n", what, before, after);
    wrong |= before == 0 || after != 0;
    if (after != 0)
        printf("%s: still there\n", what);
}

/* the first round key behind a key of AES-128; the four entries of its S-box that it needs are those of 0, as the key ends in zeros */
static void first_round_key(const uint8_t key[KEY], uint8_t round[KEY])
{
    for (size_t i = 0; i < KEY; i++)
        round[i] = key[i] ^ (i < 4 ? 0x63 ^ (i == 0) : round[i - 4]);
}

int main(void)
{
    static const rachnoel_shape shape = {2, 2, 124, 4, 128, 0};
    static const uint8_t iv[RACHNOEL_IV] = {7}, root[KEY] = {3, 20, 37, 54, 71, 88, 105, 122, 139, 156, 173, 190};
    static uint8_t tree[240], lcs[384], commitment[32], u[8], v[1024], corrections[8];
    b = rachnoel_commit_sized(shape, 64);
    b.iv.at = iv, b.commitment.at = commitment, b.tree.at = tree, b.leaf_commitments.at = lcs, b.u.at = u, b.v.at = v, b.corrections.at = corrections;
    stack = mmap(NULL, SIZE, PROT_READ | PROT_WRITE, MAP_PRIVATE | MAP_ANONYMOUS, -1, 0);
    if (stack == MAP_FAILED) {
        perror("mmap");
        return 1;
    }
    differing(); /* the first call may bind names of the C library */
    size_t before = differing();
    wiping = 1;
    expect("bytes of the stack that the root decides behind commit", before, differing());
    wrong |= answer != 0;

    large = 1;
    wiping = 0;
    before = differing();
    wiping = 1;
    expect("the same below a large frame", before, differing());
    large = 0;

    planting = 1;
    memcpy(secrets[0], root, KEY);
    memcpy(secrets[1], tree + sizeof tree - KEY, KEY);
    first_round_key(root, secrets[2]);
    for (size_t i = 0; i < SECRETS; i++) {
        wiping = 0;
        before = found(i);
        wiping = 1;
        expect(names[i], before, found(i));
    }
    return wrong;
}
