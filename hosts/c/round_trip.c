/* A host of both halves, to copy from: commits, draws challenges until open answers 0, reconstructs and compares; then does the same by stretches of the
 * rows. A line for each, and exit status 1 where something does not come out as it must. The challenges come from a fixed sequence; a signer takes its own. */
#include <rachnoel.h>

#include <stdio.h>
#include <stdlib.h>
#include <string.h>

enum { STRETCH = 64 };

static uint8_t *room(size_t n)
{
    uint8_t *p = malloc(n > 0 ? n : 1);
    if (p == NULL) {
        perror("malloc");
        exit(1);
    }
    return p;
}

static void draw(uint64_t *state, uint8_t *challenge, size_t n)
{
    for (size_t i = 0; i < n; i++) {
        uint64_t z = *state += 0x9e3779b97f4a7c15;
        z = (z ^ z >> 30) * 0xbf58476d1ce4e5b9;
        z = (z ^ z >> 27) * 0x94d049bb133111eb;
        challenge[i] = (uint8_t)(z ^ z >> 31);
    }
}

/* How many of the columns of q are that of v, xored with u where the bit of the challenge is 1. */
static size_t agreeing(size_t columns, const uint8_t *challenge, const uint8_t *u, const uint8_t *v, const uint8_t *q, size_t row_bytes)
{
    size_t agree = 0;
    for (size_t c = 0; c < columns; c++) {
        const int bit = challenge[c / 8] >> c % 8 & 1;
        size_t p = 0;
        while (p < row_bytes && q[row_bytes * c + p] == (v[row_bytes * c + p] ^ (bit ? u[p] : 0)))
            p++;
        agree += p == row_bytes;
    }
    return agree;
}

/* Whether the stretch from byte `first` on, of n strings of a row each, is cut out of the whole strings. */
static int is_cut(size_t row, size_t n, size_t first, size_t width, const uint8_t *whole, const uint8_t *cut)
{
    for (size_t i = 0; i < n; i++)
        if (memcmp(whole + row * i + first, cut + width * i, width) != 0)
            return 0;
    return 1;
}

/* what the signing half writes, what the checking half writes, and what both have */
struct halves {
    rachnoel_commit_buffers commit;
    rachnoel_open_buffers open;
    rachnoel_reconstruct_buffers check;
    uint8_t root[RACHNOEL_NODE_MOST], iv[RACHNOEL_IV], challenge[RACHNOEL_NODE_MOST];
};

static void give_outputs(rachnoel_commit_buffers *c)
{
    rachnoel_bytes *const all[] = {&c->commitment, &c->tree, &c->leaf_commitments, &c->u, &c->v, &c->corrections};
    for (size_t i = 0; i < sizeof all / sizeof all[0]; i++)
        all[i]->at = room(all[i]->length);
}

static void take_outputs(const rachnoel_commit_buffers *c)
{
    free(c->commitment.at), free(c->tree.at), free(c->leaf_commitments.at), free(c->u.at), free(c->v.at), free(c->corrections.at);
}

/* all buffers at their lengths; the inputs of one call are the outputs of another */
static void give_buffers(struct halves *h, const rachnoel_set *set)
{
    h->commit = rachnoel_commit_sized(set->shape, set->row_bits);
    h->commit.root.at = h->root, h->commit.iv.at = h->iv;
    give_outputs(&h->commit);

    h->open = rachnoel_open_sized(set->shape);
    h->open.challenge.at = h->challenge;
    h->open.tree = rachnoel_read(h->commit.tree), h->open.leaf_commitments = rachnoel_read(h->commit.leaf_commitments);
    h->open.opening.at = room(h->open.opening.length);

    h->check = rachnoel_reconstruct_sized(set->shape, set->row_bits);
    h->check.iv.at = h->iv, h->check.challenge.at = h->challenge;
    h->check.corrections = rachnoel_read(h->commit.corrections), h->check.opening = rachnoel_read(h->open.opening);
    h->check.commitment.at = room(h->check.commitment.length), h->check.tree.at = room(h->check.tree.length);
    h->check.leaf_commitments.at = room(h->check.leaf_commitments.length), h->check.q.at = room(h->check.q.length);
}

static void take_buffers(const struct halves *h)
{
    take_outputs(&h->commit);
    free(h->open.opening.at), free(h->check.commitment.at), free(h->check.tree.at), free(h->check.leaf_commitments.at), free(h->check.q.at);
}

/* draws challenges until one has its last w bits clear and needs at most t nodes */
static void open_one(struct halves *h)
{
    uint64_t state = 1;
    size_t number, attempts[7] = {0};
    do {
        draw(&state, h->challenge, h->open.challenge.length);
        number = rachnoel_open_in(&h->open);
        if (number != 0 && number != RACHNOEL_REFUSED_GRINDING && number != RACHNOEL_REFUSED_NODES) {
            const char *const which = rachnoel_open_wrong(&h->open);
            printf(", open %zu, %s %s\n", number, rachnoel_refusal_text(number), which != NULL ? which : "");
            exit(1);
        }
        attempts[number]++;
    } while (number != 0);
    printf(", open 0 with %zu nodes after %zu refusals with 4 and %zu with 5", h->open.count, attempts[RACHNOEL_REFUSED_GRINDING], attempts[RACHNOEL_REFUSED_NODES]);
}

static int same_bytes(rachnoel_bytes a, rachnoel_bytes b)
{
    return a.length == b.length && memcmp(a.at, b.at, a.length) == 0;
}

/* whether a stretch of the rows, committed and reconstructed, is that of the whole rows */
static int stretch_as_whole(const struct halves *h, const rachnoel_set *set, size_t first, size_t width)
{
    const size_t row = set->row_bits / 8, level = set->shape.level;
    rachnoel_commit_buffers c = rachnoel_commit_stretch_sized(set->shape, set->row_bits, first, width);
    rachnoel_reconstruct_buffers r = rachnoel_reconstruct_stretch_sized(set->shape, set->row_bits, first, width);
    c.root.at = h->root, c.iv.at = h->iv;
    give_outputs(&c);
    int same = rachnoel_commit_stretch_in(&c) == 0 && same_bytes(h->commit.commitment, c.commitment) && same_bytes(h->commit.tree, c.tree)
        && same_bytes(h->commit.leaf_commitments, c.leaf_commitments);
    same = same && is_cut(row, 1, first, width, h->commit.u.at, c.u.at) && is_cut(row, level, first, width, h->commit.v.at, c.v.at);
    same = same && is_cut(row, c.corrections.length / width, first, width, h->commit.corrections.at, c.corrections.at);

    r.iv.at = h->iv, r.challenge.at = h->challenge, r.corrections = rachnoel_read(c.corrections), r.opening = rachnoel_read(h->open.opening);
    r.commitment = c.commitment, r.tree = c.tree, r.leaf_commitments = c.leaf_commitments;
    r.q.at = room(r.q.length);
    same = same && rachnoel_reconstruct_stretch_in(&r) == 0 && same_bytes(h->commit.commitment, r.commitment);
    same = same && is_cut(row, level, first, width, h->check.q.at, r.q.at) && agreeing(level, h->challenge, c.u.at, c.v.at, r.q.at, width) == level;
    free(r.q.at);
    take_outputs(&c);
    return same;
}

static int run(const char *name, const rachnoel_set *set)
{
    const size_t row = set->row_bits / 8, level = set->shape.level;
    struct halves h;
    give_buffers(&h, set);
    for (size_t i = 0; i < sizeof h.root; i++)
        h.root[i] = (uint8_t)i;
    for (size_t i = 0; i < sizeof h.iv; i++)
        h.iv[i] = (uint8_t)(16 + i);

    /* the signer commits, and opens for a challenge */
    size_t number = rachnoel_commit_in(&h.commit), wrong = number != 0;
    printf("%s: commit %zu", name, number);
    open_one(&h);

    /* the checker has iv, challenge, corrections, opening and commitment */
    number = rachnoel_reconstruct_in(&h.check);
    const int equal = same_bytes(h.commit.commitment, h.check.commitment);
    const size_t agree = agreeing(level, h.challenge, h.commit.u.at, h.commit.v.at, h.check.q.at, row);
    wrong += number != 0 || !equal || agree != level;
    printf(", reconstruct %zu with %zu nodes, commitments %s, %zu columns agree\n", number, h.check.count, equal ? "equal" : "differ", agree);

    /* the same with no more than STRETCH bytes of a row at a time */
    size_t pieces = 0, as_whole = 0;
    for (size_t first = 0; first < row; first += STRETCH) {
        pieces++;
        as_whole += (size_t)stretch_as_whole(&h, set, first, row - first < STRETCH ? row - first : STRETCH);
    }
    printf("%s: %zu stretches, %zu as in the whole\n", name, pieces, as_whole);
    take_buffers(&h);
    rachnoel_wipe_stack();
    return wrong != 0 || as_whole != pieces;
}

int main(void)
{
    int wrong = run("FAEST-128f", &RACHNOEL_DEFAULT);
    for (size_t i = 0; i < RACHNOEL_SETS; i++)
        if (rachnoel_sets[i] != &RACHNOEL_FAEST_128F)
            wrong |= run(rachnoel_sets[i]->name, rachnoel_sets[i]);
    return wrong;
}
