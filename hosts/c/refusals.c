/* Every refusal of every call, alone and where later ones would apply too. Each buffer lies between two pages that may not be touched, flush with the first
 * in one run and with the last in another; inputs may not be written. Buffers that must stay are filled before; the runs fill with different bytes. */
#define _DEFAULT_SOURCE
#include <rachnoel.h>

#include "guarded.h"
#include "shape.h"

enum call { DECODE, PLAN, COMMIT, COMMIT_STRETCH, OPEN, RECONSTRUCT, RECONSTRUCT_STRETCH, V1_COMMIT, V1_OPEN, V1_RECONSTRUCT, CALLS };
enum buffer { ROOT, IV, CHALLENGE, TREE, LCS, CORRECTIONS, OPENING, INDICES, NODES, COMMITMENT, U, V, COUNT, BUFFERS, NONE };

/* the slices of a call in order; the first `inputs` of them are read */
static const struct {
    const char *name;
    size_t inputs, slices;
    enum buffer order[9];
    int rows, stretch, challenge, nodes, slots; /* which of 2, 8, 4, 5 and 6 it has */
} calls[CALLS] = {
    {"decode", 1, 3, {CHALLENGE, INDICES, COUNT}, 0, 0, 1, 0, 0},
    {"plan", 1, 3, {CHALLENGE, NODES, COUNT}, 0, 0, 1, 1, 0},
    {"commit", 2, 9, {ROOT, IV, COMMITMENT, TREE, LCS, U, V, CORRECTIONS, COUNT}, 1, 0, 0, 0, 0},
    {"commit_stretch", 2, 9, {ROOT, IV, COMMITMENT, TREE, LCS, U, V, CORRECTIONS, COUNT}, 1, 1, 0, 0, 0},
    {"open", 3, 5, {CHALLENGE, TREE, LCS, OPENING, COUNT}, 0, 0, 1, 1, 0},
    {"reconstruct", 4, 9, {IV, CHALLENGE, CORRECTIONS, OPENING, COMMITMENT, TREE, LCS, V, COUNT}, 1, 0, 1, 1, 1},
    {"reconstruct_stretch", 4, 9, {IV, CHALLENGE, CORRECTIONS, OPENING, COMMITMENT, TREE, LCS, V, COUNT}, 1, 1, 1, 1, 1},
    {"v1_commit", 2, 9, {ROOT, IV, COMMITMENT, TREE, LCS, U, V, CORRECTIONS, COUNT}, 1, 0, 0, 0, 0},
    {"v1_open", 3, 5, {CHALLENGE, TREE, LCS, OPENING, COUNT}, 0, 0, 0, 0, 0},
    {"v1_reconstruct", 4, 9, {IV, CHALLENGE, CORRECTIONS, OPENING, COMMITMENT, TREE, LCS, V, COUNT}, 1, 0, 0, 0, 0},
};

/* the shape that is right: the smallest of version 2 that needs nodes, and the smallest of version 1 */
static shape right_shape(enum call call, size_t kind)
{
    return call >= V1_COMMIT ? (shape){32, 4, 0, 1, 128, 0} : (shape){2, 2, 124, 5, 128, kind};
}

/* a call: `other` is the buffer that has another length, `len` */
struct given {
    shape s;
    size_t bits, first, width;
    enum buffer other;
    size_t len;
    uint8_t challenge0, challenge15, slot; /* bytes 0 and 15 of the challenge, the last of the opening; all other bytes of inputs are 0 */
};

/* ---- one call */

#define SLICE(i) p[i], n[i]

static size_t make(enum call call, const struct given *g, uint8_t *const p[], const size_t n[])
{
    switch (call) {
    case DECODE: return rachnoel_decode(NUMBERS(g->s), SLICE(0), SLICE(1), SLICE(2));
    case PLAN: return rachnoel_plan(NUMBERS(g->s), SLICE(0), SLICE(1), SLICE(2));
    case OPEN: return rachnoel_open(NUMBERS(g->s), SLICE(0), SLICE(1), SLICE(2), SLICE(3), SLICE(4));
    case COMMIT:
        return rachnoel_commit(NUMBERS(g->s), g->bits, SLICE(0), SLICE(1), SLICE(2), SLICE(3), SLICE(4), SLICE(5), SLICE(6), SLICE(7), SLICE(8));
    case COMMIT_STRETCH:
        return rachnoel_commit_stretch(NUMBERS(g->s), g->bits, g->first, g->width, SLICE(0), SLICE(1), SLICE(2), SLICE(3), SLICE(4), SLICE(5), SLICE(6), SLICE(7),
            SLICE(8));
    case V1_OPEN: return rachnoel_v1_open(NUMBERS(g->s), SLICE(0), SLICE(1), SLICE(2), SLICE(3), SLICE(4));
    case V1_COMMIT:
        return rachnoel_v1_commit(NUMBERS(g->s), g->bits, SLICE(0), SLICE(1), SLICE(2), SLICE(3), SLICE(4), SLICE(5), SLICE(6), SLICE(7), SLICE(8));
    case V1_RECONSTRUCT:
        return rachnoel_v1_reconstruct(NUMBERS(g->s), g->bits, SLICE(0), SLICE(1), SLICE(2), SLICE(3), SLICE(4), SLICE(5), SLICE(6), SLICE(7), SLICE(8));
    case RECONSTRUCT:
        return rachnoel_reconstruct(NUMBERS(g->s), g->bits, SLICE(0), SLICE(1), SLICE(2), SLICE(3), SLICE(4), SLICE(5), SLICE(6), SLICE(7), SLICE(8));
    default:
        return rachnoel_reconstruct_stretch(NUMBERS(g->s), g->bits, g->first, g->width, SLICE(0), SLICE(1), SLICE(2), SLICE(3), SLICE(4), SLICE(5), SLICE(6),
            SLICE(7), SLICE(8));
    }
}

/* what a buffer's length must be */
static size_t right_length(enum call call, enum buffer b, const struct given *g)
{
    const size_t row = calls[call].stretch ? g->width : g->bits / 8;
    shape s = right_shape(call, g->s.kind > 1 ? 0 : g->s.kind);
    const rachnoel_sizes_v1 m = rachnoel_lengths_of_v1(NUMBERS(s), row);
    s.t = call >= V1_COMMIT ? 1 : g->s.t;
    const rachnoel_sizes n = rachnoel_lengths_of(NUMBERS(s), row);
    switch (b) {
    case TREE: return call >= V1_COMMIT ? m.trees : n.tree;
    case LCS: return call >= V1_COMMIT ? m.leaf_commitments : n.leaf_commitments;
    case CORRECTIONS: return n.corrections;
    case OPENING: return call >= V1_COMMIT ? m.opening : n.opening;
    case INDICES: return n.indices;
    case NODES: return n.nodes;
    case COMMITMENT: return 32;
    case U: return n.u;
    case V: return n.matrix;
    case COUNT: return RACHNOEL_COUNT;
    default: return 16;
    }
}

static int tried, failed;

static void run(enum call call, const struct given *g, size_t number, uint8_t count, int at_the_end)
{
    const int fill = at_the_end ? 0xa5 : 0x5a;
    const size_t slices = calls[call].slices, last = slices - 1;
    const int count_given = number == 0 || number == RACHNOEL_REFUSED_NODES || number == RACHNOEL_REFUSED_SLOTS;
    struct guarded made[9];
    uint8_t *p[9];
    size_t n[9], wrong = 0;
    for (size_t i = 0; i < slices; i++) {
        const enum buffer b = calls[call].order[i];
        n[i] = b == g->other ? g->len : right_length(call, b, g);
        /* lengths that a wrong width gives are not lent: nothing may be read or written there */
        if (n[i] > 1 << 20)
            n[i] = 0;
        made[i] = guard(n[i], at_the_end, i < calls[call].inputs ? 0 : fill);
        p[i] = made[i].at;
        if (b == CHALLENGE && n[i] > 0) {
            p[i][0] = g->challenge0;
            p[i][n[i] - 1] |= g->challenge15;
        }
        if (b == OPENING && i < calls[call].inputs && n[i] > 0)
            p[i][n[i] - 1] = g->slot;
        if (i < calls[call].inputs)
            shut(made[i]);
    }
    const size_t answer = make(call, g, p, n);
    wrong += answer != number;
    for (size_t i = calls[call].inputs; i < last; i++) {
        size_t kept = 0;
        while (kept < n[i] && p[i][kept] == fill)
            kept++;
        if (number != 0)
            wrong += kept != n[i];
        else if (call == PLAN)
            for (size_t j = 4 * (size_t)count; j < n[i]; j++)
                wrong += p[i][j] != fill;
        else
            wrong += n[i] > 0 && kept == n[i];
    }
    const uint8_t word[4] = {count, 0, 0, 0};
    for (size_t j = 0; j < n[last]; j++)
        wrong += p[last][j] != (count_given && j < 4 ? word[j] : fill);
    if (wrong)
        printf("%s: answered %zu, not %zu, or a buffer is not as it must be (tau %zu, t %zu, level %zu, kind %zu, rows of %zu bits, stretch %zu %zu, buffer %d of %zu bytes)\n", calls[call].name,
            answer, number, g->s.tau, g->s.t, g->s.level, g->s.kind, g->bits, g->first, g->width, (int)g->other, g->len);
    tried++;
    failed += wrong != 0;
    for (size_t i = 0; i < slices; i++)
        munmap(made[i].map, made[i].size);
}

static void expect(enum call call, struct given g, size_t number, uint8_t count)
{
    run(call, &g, number, count, 0);
    run(call, &g, number, count, 1);
}

/* ---- the cases of a call: challenge 0c needs four nodes, 00 needs two */

static void try(enum call call, size_t kind)
{
    const struct given right = {right_shape(call, kind), 32, 1, 2, NONE, 0, 0x0c, 0, 0};
    const uint8_t planned = calls[call].nodes ? 4 : 0;
    struct given g = right;
    expect(call, g, 0, planned);

    /* 1, also before all others */
    g.s.tau = 33;
    expect(call, g, 1, 0);
    g = (struct given){g.s, 12, 9, 9, COUNT, 3, 0x0c, 0x80, 1};
    g.s.t = 2;
    expect(call, g, 1, 0);
    g = right;
    g.s.t = 0;
    expect(call, g, 1, 0);
    static const size_t levels[] = {0, 127, 129, 160, 192, 256, 384, (size_t)-1};
    for (size_t i = 0; i < sizeof levels / sizeof levels[0]; i++) {
        g = right;
        g.s.level = levels[i];
        expect(call, g, 1, 0);
    }
    static const size_t kinds[] = {2, 3, 256, (size_t)-1};
    for (size_t i = 0; i < sizeof kinds / sizeof kinds[0]; i++) {
        g = right;
        g.s.kind = kinds[i];
        expect(call, g, 1, 0);
    }

    /* 2, also before 8 and the rest */
    static const size_t rows[] = {0, 7, 12, 65544};
    for (size_t i = 0; calls[call].rows && i < 4; i++) {
        g = right;
        g.bits = rows[i];
        expect(call, g, 2, 0);
        g = (struct given){right.s, rows[i], 9, 9, COUNT, 3, 0x0c, 0x80, 1};
        g.s.t = call >= V1_COMMIT ? 1 : 2;
        expect(call, g, 2, 0);
    }

    /* 8, also before 3 and the rest: rows have 4 bytes */
    static const size_t stretches[][2] = {{0, 0}, {4, 0}, {5, 0}, {0, 5}, {3, 2}, {4, 1}, {(size_t)-1, 1}, {1, (size_t)-1}, {(size_t)-1, (size_t)-1}};
    for (size_t i = 0; calls[call].stretch && i < 9; i++) {
        g = right;
        g.first = stretches[i][0];
        g.width = stretches[i][1];
        expect(call, g, 8, 0);
        g.other = COUNT;
        g.len = 5;
        g.challenge15 = 0x80;
        g.slot = 1;
        expect(call, g, 8, 0);
    }
    for (size_t first = 0; calls[call].stretch && first < 4; first++) {
        g = right;
        g.first = first;
        g.width = 4 - first;
        expect(call, g, 0, planned);
    }

    /* 3, of each slice, also before 4, 5 and 6 */
    for (size_t i = 0; i < calls[call].slices; i++) {
        const enum buffer b = calls[call].order[i];
        const size_t len = right_length(call, b, &right);
        const size_t lens[] = {0, 1, len - 1, len + 1, len + 4, 2 * len, 4 * len, 4096, 4097};
        for (size_t j = 0; j < 9; j++) {
            if (lens[j] == len)
                continue;
            g = right;
            g.other = b;
            g.len = lens[j];
            expect(call, g, 3, 0);
            g.challenge15 = 0x80;
            g.slot = 1;
            expect(call, g, 3, 0);
        }
    }
    if (!calls[call].challenge)
        return;

    /* 4, also before 5 and 6 */
    static const uint8_t high[] = {0x80, 0x01};
    for (size_t i = 0; i < 2; i++) {
        g = right;
        g.challenge15 = high[i];
        expect(call, g, 4, 0);
        g.s.t = 2;
        g.slot = 1;
        expect(call, g, 4, 0);
    }
    g = right;
    g.challenge0 = 0x1c;
    expect(call, g, 4, 0);
    if (!calls[call].nodes)
        return;

    /* 5, also before 6; with as many as t it is none */
    g = right;
    g.s.t = 3;
    expect(call, g, 5, 4);
    g.slot = 1;
    expect(call, g, 5, 4);
    g.s.t = 4;
    g.slot = 0;
    expect(call, g, 0, 4);

    /* 6, and two nodes, with slots or places left over */
    g = right;
    if (calls[call].slots) {
        g.slot = 1;
        expect(call, g, 6, 4);
        g.challenge0 = 0;
        expect(call, g, 6, 2);
        g.slot = 0;
    }
    g.challenge0 = 0;
    expect(call, g, 0, 2);
}

/* shapes of version 2 that are none of version 1, also before 2 and 3; and a challenge of ones, of which version 1 refuses none */
static void try_version_1(enum call call)
{
    const shape others[] = {{31, 4, 4, 1, 128, 0}, {32, 3, 32, 1, 128, 0}, {32, 4, 0, 2, 128, 0}, {32, 4, 0, 512, 128, 0}, {32, 4, 0, 1, 128, 1}, RACHNOEL_FAEST_128S.shape, RACHNOEL_FAEST_128F.shape, RACHNOEL_FAEST_192F.shape,
        RACHNOEL_FAEST_EM_128F.shape, RACHNOEL_DEFAULT.shape};
    for (size_t i = 0; i < sizeof others / sizeof others[0]; i++) {
        struct given g = {others[i], 32, 1, 2, NONE, 0, 0x0c, 0, 0};
        expect(call, g, 1, 0);
        g.bits = 12;
        g.other = COUNT;
        g.len = 3;
        expect(call, g, 1, 0);
    }
    const struct given ones = {right_shape(call, 0), 32, 1, 2, NONE, 0, 0xff, 0xff, 1};
    expect(call, ones, 0, 0);
}

int main(void)
{
    for (int call = 0; call < V1_COMMIT; call++)
        for (size_t kind = 0; kind < 2; kind++)
            try((enum call)call, kind);
    for (int call = V1_COMMIT; call < CALLS; call++) {
        try((enum call)call, 0);
        try_version_1((enum call)call);
    }
    printf("%d calls between forbidden pages, %d wrong\n", tried, failed);
    return failed != 0;
}
