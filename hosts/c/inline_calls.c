/* The inline calls of the header. Each is made with every slice right; then with each slice in turn too short by a byte, too long, of no bytes, of 2^63
 * bytes, and NULL with and without a length. What a wrong slice is answered with is its number; nothing is written then, the count neither, and the slice is
 * named. Every slice lies between forbidden pages. Then what an empty slice, the words of the refusals, and the limit of a row must be. */
#define _DEFAULT_SOURCE
#include <rachnoel.h>

#include "guarded.h"
#include "words.h"

enum { READS = 6, WRITES = 7, FILL = 0xa5, UNTOUCHED = 77 };
#define HUGE_LENGTH ((size_t)1 << 63)

static rachnoel_decode_buffers decode;
static rachnoel_plan_buffers plan;
static rachnoel_commit_buffers commit, commit_part;
static rachnoel_open_buffers opened;
static rachnoel_reconstruct_buffers check, check_part;
static rachnoel_v1_commit_buffers v1_commit;
static rachnoel_v1_open_buffers v1_open;
static rachnoel_v1_reconstruct_buffers v1_check;
static rachnoel_write_buffers written;
static rachnoel_check_buffers of_record, of_named;
static size_t no_count = UNTOUCHED;

static size_t run_decode(void) { return rachnoel_decode_in(&decode); }
static size_t run_plan(void) { return rachnoel_plan_in(&plan); }
static size_t run_commit(void) { return rachnoel_commit_in(&commit); }
static size_t run_commit_part(void) { return rachnoel_commit_stretch_in(&commit_part); }
static size_t run_open(void) { return rachnoel_open_in(&opened); }
static size_t run_check(void) { return rachnoel_reconstruct_in(&check); }
static size_t run_check_part(void) { return rachnoel_reconstruct_stretch_in(&check_part); }
static size_t run_v1_commit(void) { return rachnoel_v1_commit_in(&v1_commit); }
static size_t run_v1_open(void) { return rachnoel_v1_open_in(&v1_open); }
static size_t run_v1_check(void) { return rachnoel_v1_reconstruct_in(&v1_check); }
static size_t run_write(void) { return rachnoel_write_record_in(&written); }
static size_t run_record(void) { return rachnoel_check_record_in(&of_record); }
static size_t run_named(void) { return rachnoel_check_named_in(&of_named); }

static const char *wrong_decode(void) { return rachnoel_decode_wrong(&decode); }
static const char *wrong_plan(void) { return rachnoel_plan_wrong(&plan); }
static const char *wrong_commit(void) { return rachnoel_commit_wrong(&commit); }
static const char *wrong_commit_part(void) { return rachnoel_commit_stretch_wrong(&commit_part); }
static const char *wrong_open(void) { return rachnoel_open_wrong(&opened); }
static const char *wrong_check(void) { return rachnoel_reconstruct_wrong(&check); }
static const char *wrong_check_part(void) { return rachnoel_reconstruct_stretch_wrong(&check_part); }
static const char *wrong_v1_commit(void) { return rachnoel_v1_commit_wrong(&v1_commit); }
static const char *wrong_v1_open(void) { return rachnoel_v1_open_wrong(&v1_open); }
static const char *wrong_v1_check(void) { return rachnoel_v1_reconstruct_wrong(&v1_check); }
static const char *wrong_write(void) { return rachnoel_write_wrong(&written); }
static const char *wrong_record(void) { return rachnoel_check_wrong(&of_record); }
static const char *wrong_named(void) { return rachnoel_check_wrong(&of_named); }

/* the slices in the order of the struct, those that are read first */
static const struct call {
    const char *name;
    size_t (*run)(void);
    const char *(*wrong)(void);
    size_t *count;
    rachnoel_slice *read[READS];
    rachnoel_bytes *write[WRITES];
    const char *names[READS + WRITES];
} calls[] = {
    {"decode", run_decode, wrong_decode, &decode.count, {&decode.challenge}, {&decode.indices}, {"challenge", "indices"}},
    {"plan", run_plan, wrong_plan, &plan.count, {&plan.challenge}, {&plan.nodes}, {"challenge", "nodes"}},
    {"commit", run_commit, wrong_commit, &commit.count, {&commit.root, &commit.iv},
        {&commit.commitment, &commit.tree, &commit.leaf_commitments, &commit.u, &commit.v, &commit.corrections},
        {"root", "iv", "commitment", "tree", "leaf_commitments", "u", "v", "corrections"}},
    {"commit_stretch", run_commit_part, wrong_commit_part, &commit_part.count, {&commit_part.root, &commit_part.iv},
        {&commit_part.commitment, &commit_part.tree, &commit_part.leaf_commitments, &commit_part.u, &commit_part.v, &commit_part.corrections},
        {"root", "iv", "commitment", "tree", "leaf_commitments", "u", "v", "corrections"}},
    {"open", run_open, wrong_open, &opened.count, {&opened.challenge, &opened.tree, &opened.leaf_commitments}, {&opened.opening},
        {"challenge", "tree", "leaf_commitments", "opening"}},
    {"reconstruct", run_check, wrong_check, &check.count, {&check.iv, &check.challenge, &check.corrections, &check.opening},
        {&check.commitment, &check.tree, &check.leaf_commitments, &check.q}, {"iv", "challenge", "corrections", "opening", "commitment", "tree", "leaf_commitments", "q"}},
    {"reconstruct_stretch", run_check_part, wrong_check_part, &check_part.count, {&check_part.iv, &check_part.challenge, &check_part.corrections, &check_part.opening},
        {&check_part.commitment, &check_part.tree, &check_part.leaf_commitments, &check_part.q},
        {"iv", "challenge", "corrections", "opening", "commitment", "tree", "leaf_commitments", "q"}},
    {"v1_commit", run_v1_commit, wrong_v1_commit, &v1_commit.count, {&v1_commit.root, &v1_commit.iv},
        {&v1_commit.commitment, &v1_commit.trees, &v1_commit.leaf_commitments, &v1_commit.u, &v1_commit.v, &v1_commit.corrections},
        {"root", "iv", "commitment", "trees", "leaf_commitments", "u", "v", "corrections"}},
    {"v1_open", run_v1_open, wrong_v1_open, &v1_open.count, {&v1_open.challenge, &v1_open.trees, &v1_open.leaf_commitments}, {&v1_open.opening},
        {"challenge", "trees", "leaf_commitments", "opening"}},
    {"v1_reconstruct", run_v1_check, wrong_v1_check, &v1_check.count, {&v1_check.iv, &v1_check.challenge, &v1_check.corrections, &v1_check.opening},
        {&v1_check.commitment, &v1_check.trees, &v1_check.leaf_commitments, &v1_check.q},
        {"iv", "challenge", "corrections", "opening", "commitment", "trees", "leaf_commitments", "q"}},
    {"write_record", run_write, wrong_write, &no_count, {&written.iv, &written.challenge, &written.corrections, &written.opening, &written.commitment}, {&written.record},
        {"iv", "challenge", "corrections", "opening", "commitment", "record"}},
    {"check_record", run_record, wrong_record, &of_record.count, {&of_record.record}, {&of_record.tree, &of_record.leaf_commitments, &of_record.q},
        {"record", "tree", "leaf_commitments", "q"}},
    {"check_named", run_named, wrong_named, &of_named.count, {&of_named.record}, {&of_named.tree, &of_named.leaf_commitments, &of_named.q},
        {"record", "tree", "leaf_commitments", "q"}},
};
enum { CALLS = sizeof calls / sizeof calls[0], CHECKS = 2 };

static size_t tried, failed;

static void expect(int right, const char *call, const char *what, const char *slice)
{
    tried++;
    if (!right) {
        failed++;
        printf("%s: %s, %s\n", call, what, slice);
    }
}

/* ---- buffers */

static uint8_t *room(size_t n)
{
    return guard(n, 1, FILL).at;
}

static void give(const struct call *c)
{
    for (size_t i = 0; i < READS && c->read[i] != NULL; i++)
        if (c->read[i]->at == NULL) {
            uint8_t *const p = room(c->read[i]->length);
            memset(p, 0, c->read[i]->length);
            c->read[i]->at = p;
        }
    for (size_t i = 0; i < WRITES && c->write[i] != NULL; i++)
        c->write[i]->at = room(c->write[i]->length);
}

static void paint(const struct call *c)
{
    for (size_t i = 0; i < WRITES && c->write[i] != NULL; i++)
        memset(c->write[i]->at, FILL, c->write[i]->length);
    *c->count = UNTOUCHED;
}

/* whether outputs and count are as they were painted */
static int untouched(const struct call *c)
{
    for (size_t i = 0; i < WRITES && c->write[i] != NULL; i++)
        for (size_t j = 0; c->write[i]->at != NULL && c->write[i]->length != HUGE_LENGTH && j < c->write[i]->length; j++)
            if (c->write[i]->at[j] != FILL)
                return 0;
    return *c->count == UNTOUCHED;
}

/* ---- the right calls, each with what those before it wrote */

static void run_right(const struct call *c)
{
    paint(c);
    const size_t number = c->run();
    expect(number == 0 && c->wrong() == NULL, c->name, rachnoel_refusal_text(number), "every slice right");
    expect(c->count == &no_count || *c->count != UNTOUCHED, c->name, "no count", "every slice right");
}

static void make_calls(void)
{
    static const uint8_t challenge[16] = {0x5a, 0x11, 0x83, 0x2c}; /* hides mostly entry 0, so few nodes are needed */
    const rachnoel_set *const set = &RACHNOEL_FAEST_128F;
    decode = rachnoel_decode_sized(set->shape), plan = rachnoel_plan_sized(set->shape), opened = rachnoel_open_sized(set->shape);
    commit = rachnoel_commit_sized(set->shape, set->row_bits), commit_part = rachnoel_commit_stretch_sized(set->shape, set->row_bits, 5, 60);
    check = rachnoel_reconstruct_sized(set->shape, set->row_bits), check_part = rachnoel_reconstruct_stretch_sized(set->shape, set->row_bits, 5, 60);
    v1_commit = rachnoel_v1_commit_sized(RACHNOEL_V1_128F, 64), v1_open = rachnoel_v1_open_sized(RACHNOEL_V1_128F), v1_check = rachnoel_v1_reconstruct_sized(RACHNOEL_V1_128F, 64);
    written = rachnoel_write_sized(set->shape, set->row_bits);
    decode.challenge.at = plan.challenge.at = opened.challenge.at = check.challenge.at = check_part.challenge.at = written.challenge.at = challenge;
    for (size_t i = 0; i < CALLS - CHECKS; i++) {
        if (calls[i].run == run_open)
            opened.tree = rachnoel_read(commit.tree), opened.leaf_commitments = rachnoel_read(commit.leaf_commitments);
        if (calls[i].run == run_check)
            check.corrections = rachnoel_read(commit.corrections), check.opening = rachnoel_read(opened.opening);
        if (calls[i].run == run_check_part)
            check_part.opening = rachnoel_read(opened.opening);
        if (calls[i].run == run_v1_open)
            v1_open.trees = rachnoel_read(v1_commit.trees), v1_open.leaf_commitments = rachnoel_read(v1_commit.leaf_commitments);
        if (calls[i].run == run_v1_check)
            v1_check.corrections = rachnoel_read(v1_commit.corrections), v1_check.opening = rachnoel_read(v1_open.opening);
        if (calls[i].run == run_write) {
            written.corrections = check.corrections, written.opening = check.opening, written.commitment = rachnoel_read(commit.commitment);
        }
        give(&calls[i]);
        run_right(&calls[i]);
    }
    /* a copy: the wrong calls paint what the right ones wrote */
    uint8_t *const record = room(written.record.length);
    memcpy(record, written.record.at, written.record.length);
    of_record = of_named = rachnoel_check_sized(record, written.record.length);
    for (size_t i = CALLS - CHECKS; i < CALLS; i++) {
        give(&calls[i]);
        run_right(&calls[i]);
    }
    expect(memcmp(check.commitment.at, commit.commitment.at, commit.commitment.length) == 0, "reconstruct", "another commitment", "");
}

/* ---- wrong slices */

/* the number that a wrong slice is answered with: of a record 9 where it has no byte, and else 10; of any other slice 3 */
static size_t number_of(const struct call *c, const char *slice, size_t length)
{
    const int record = (c->run == run_record || c->run == run_named) && strcmp(slice, "record") == 0;
    return !record ? RACHNOEL_REFUSED_BUFFER : length == 0 ? RACHNOEL_REFUSED_VERSION : RACHNOEL_REFUSED_FIELD;
}

static void run_wrong(const struct call *c, const char *slice, size_t length)
{
    const size_t number = number_of(c, slice, length);
    for (int i = 0; i < WRITES && c->write[i] != NULL; i++)
        if (c->write[i]->at != NULL && c->write[i]->length != HUGE_LENGTH)
            memset(c->write[i]->at, FILL, c->write[i]->length);
    *c->count = UNTOUCHED;
    expect(c->run() == number, c->name, "another number", slice);
    expect(untouched(c), c->name, "written", slice);
    const char *const named = c->wrong();
    expect(number != RACHNOEL_REFUSED_BUFFER || (named != NULL && strcmp(named, slice) == 0), c->name, "another slice named", slice);
}

static void try_slices(const struct call *c)
{
    size_t reads = 0;
    while (reads < READS && c->read[reads] != NULL)
        reads++;
    for (size_t i = 0; i < READS + WRITES && c->names[i] != NULL; i++) {
        const int is_read = i < reads;
        const rachnoel_slice right_read = is_read ? *c->read[i] : rachnoel_slice_of(NULL, 0);
        const rachnoel_bytes right_write = is_read ? rachnoel_bytes_of(NULL, 0) : *c->write[i - reads];
        const size_t right = is_read ? right_read.length : right_write.length;
        const size_t lengths[] = {0, right - 1, right + 1, HUGE_LENGTH, 0, right};
        for (size_t j = 0; j < 6; j++) {
            uint8_t *const p = j >= 4 ? NULL : room(lengths[j] == HUGE_LENGTH ? 0 : lengths[j]);
            if (is_read && p != NULL && j < 3)
                memcpy(p, right_read.at, right < lengths[j] ? right : lengths[j]);
            if (is_read)
                *c->read[i] = rachnoel_slice_of(p != NULL && j == 3 ? right_read.at : p, lengths[j]);
            else
                *c->write[i - reads] = rachnoel_bytes_of(p, lengths[j]);
            run_wrong(c, c->names[i], j == 5 ? 0 : lengths[j]);
            if (is_read)
                *c->read[i] = right_read;
            else
                *c->write[i - reads] = right_write;
        }
    }
}

/* a shape or a row that is none: its number, and nothing is written */
static void try_numbers(void)
{
    static const size_t odd[] = {0, 129, (size_t)1 << 57, HUGE_LENGTH, (size_t)-1};
    for (size_t i = 0; i < sizeof odd / sizeof odd[0]; i++) {
        rachnoel_commit_buffers c = rachnoel_commit_sized(RACHNOEL_FAEST_128F.shape, odd[i]);
        c.count = UNTOUCHED;
        expect(rachnoel_commit_in(&c) == RACHNOEL_REFUSED_ROW && c.count == UNTOUCHED, "commit", "a row", "");
        rachnoel_shape s = RACHNOEL_FAEST_128F.shape;
        s.t = odd[i] == 129 ? 513 : odd[i];
        rachnoel_open_buffers o = rachnoel_open_sized(s);
        o.count = UNTOUCHED;
        expect(rachnoel_open_in(&o) == RACHNOEL_REFUSED_SHAPE && o.count == UNTOUCHED, "open", "a shape", "");
        rachnoel_reconstruct_buffers r = rachnoel_reconstruct_stretch_sized(RACHNOEL_FAEST_128F.shape, 1680, 1, odd[i] == 129 ? 210 : odd[i]);
        r.count = UNTOUCHED;
        expect(rachnoel_reconstruct_stretch_in(&r) == RACHNOEL_REFUSED_STRETCH && r.count == UNTOUCHED, "reconstruct_stretch", "a stretch", "");
        rachnoel_v1_commit_buffers v = rachnoel_v1_commit_sized(RACHNOEL_V1_128F, odd[i]);
        expect(rachnoel_v1_commit_in(&v) == RACHNOEL_REFUSED_ROW, "v1_commit", "a row", "");
        rachnoel_write_buffers w = rachnoel_write_sized(RACHNOEL_FAEST_128F.shape, odd[i]);
        expect(rachnoel_write_record_in(&w) == RACHNOEL_REFUSED_ROW && w.record.length == 0, "write_record", "a row", "");
        rachnoel_check_buffers none = rachnoel_check_sized(NULL, odd[i]);
        expect(rachnoel_check_record_in(&none) == RACHNOEL_REFUSED_VERSION, "check_record", "no record", "");
    }
}

/* with one vector there are no corrections: NULL is right for them */
static void try_empty(void)
{
    static const rachnoel_shape one = {1, 1, 127, 1, 128, 0};
    static uint8_t zeros[16], commitment[32], again[32], tree[48], lcs[96], u[1], v[128], opening[64];
    rachnoel_commit_buffers c = rachnoel_commit_sized(one, 8);
    rachnoel_open_buffers o = rachnoel_open_sized(one);
    rachnoel_reconstruct_buffers r = rachnoel_reconstruct_sized(one, 8);
    c.root.at = c.iv.at = zeros, c.commitment.at = commitment, c.tree.at = tree, c.leaf_commitments.at = lcs, c.u.at = u, c.v.at = v;
    o.challenge.at = zeros, o.tree = rachnoel_read(c.tree), o.leaf_commitments = rachnoel_read(c.leaf_commitments), o.opening.at = opening;
    expect(c.corrections.length == 0 && rachnoel_commit_in(&c) == 0, "commit", "no corrections", "corrections");
    expect(rachnoel_open_in(&o) == 0 && o.count == 1, "open", "one vector", "");
    r.iv.at = r.challenge.at = zeros, r.opening = rachnoel_read(o.opening), r.commitment.at = again, r.tree.at = tree, r.leaf_commitments.at = lcs, r.q.at = v;
    expect(rachnoel_reconstruct_in(&r) == 0 && memcmp(commitment, again, sizeof again) == 0, "reconstruct", "no corrections", "corrections");
}

/* the words are those of the tools, and each number has its own */
static void try_words(void)
{
    for (size_t i = 0; i < sizeof refusals / sizeof refusals[0]; i++) {
        const char *const text = rachnoel_refusal_text(refusals[i].number), *const word = refusals[i].word;
        expect(strncmp(text, word, strlen(word)) == 0 && text[strlen(word)] == ':', "rachnoel_refusal_text", text, word);
    }
    expect(strncmp(rachnoel_refusal_text(RACHNOEL_REFUSED_STRETCH), "stretch:", 8) == 0, "rachnoel_refusal_text", "8", "stretch");
    expect(strncmp(rachnoel_refusal_text(7), "unknown:", 8) == 0 && strncmp(rachnoel_refusal_text((size_t)-1), "unknown:", 8) == 0, "rachnoel_refusal_text", "unknown", "");
}

/* no row has more than 8,192 bytes */
static void try_rows(void)
{
    static const size_t large[] = {8193, 1 << 20, (size_t)1 << 57, (size_t)1 << 57 | 1, HUGE_LENGTH, (size_t)-1};
    for (size_t i = 0; i < sizeof large / sizeof large[0]; i++) {
        const rachnoel_sizes n = rachnoel_lengths_of(RACHNOEL_NUMBERS(RACHNOEL_FAEST_128F.shape), large[i]);
        const rachnoel_sizes_v1 m = rachnoel_lengths_of_v1(RACHNOEL_NUMBERS(RACHNOEL_V1_128F), large[i]);
        expect(n.leaves + n.node + n.tree + n.u + n.matrix + n.corrections + n.opening == 0, "rachnoel_lengths_of", "a row that is none", "");
        expect(m.leaves + m.node + m.trees + m.u + m.matrix + m.corrections + m.opening == 0, "rachnoel_lengths_of_v1", "a row that is none", "");
    }
    expect(rachnoel_lengths_of(RACHNOEL_NUMBERS(RACHNOEL_FAEST_128F.shape), 8192).matrix == 1048576, "rachnoel_lengths_of", "the longest row", "");
}

int main(void)
{
    make_calls();
    for (size_t i = 0; i < CALLS; i++)
        try_slices(&calls[i]);
    try_numbers();
    try_empty();
    try_words();
    try_rows();
    printf("%zu tests of inline calls, %zu wrong\n", tried, failed);
    return failed != 0;
}
