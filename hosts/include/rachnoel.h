/* rachnoel.h: the batch vector commitment of FAEST version 2, as a C host calls it (rachnoel(3) and docs/API.md say what each call does); that of version 1
 * has the calls whose names begin with rachnoel_v1_.
 *
 * Each call has two forms. The flat one, rachnoel_commit, is what an archive exports: numbers, and a pointer and a length for each slice. The inline one,
 * rachnoel_commit_in, takes a struct of the call's buffers, in which rachnoel_commit_sized fills in every length.
 *
 * A shape is six numbers: tau, k, w, t, the security level in bits, 128, 192 or 256, and the leaf kind, 0 ordinary, 1 Even-Mansour (FAEST-EM). Zeros for the
 * first four at level 128 and kind 0 stand for the default, FAEST-128f.
 *
 * Duties of the host, which no call can test:
 * - a slice has the bytes that its length names;
 * - a slice that may be written overlaps no other slice of the call (slices that are only read may overlap each other);
 * - the stack has room for the call: RACHNOEL_STACK bytes;
 * - in a flat call no pointer is NULL, also where the length is 0. The inline calls take NULL for a slice of no bytes, whatever its length says.
 * The calls use no heap and keep nothing between calls; several threads may call at once, each with slices of its own.
 *
 * `indices`, `nodes`, the flat calls' `count` and lengths hold numbers of four bytes, least byte first: tau of them, t of them (of the default where it is
 * meant), one. rachnoel_number reads one.
 *
 * A call returns 0, or the number of the first refusal that applies. With 0 the outputs and the count are written, and so they are with 11; with 5 and 6 the
 * count alone; with any other number nothing. A slice of another length, the count's too, is refusal 3: rachnoel_commit_wrong and its like say which. A record
 * that is checked and has another length is 9 or 10; for rachnoel_write_record the record is an output like others, so another length is 3. */
#ifndef RACHNOEL_H
#define RACHNOEL_H

#include <stddef.h>
#include <stdint.h>

/* what gcc and clang know and others need not */
#if defined(__GNUC__)
#define RACHNOEL_MUST_USE __attribute__((warn_unused_result))
#define RACHNOEL_UNUSED __attribute__((unused))
#define RACHNOEL_APART __attribute__((noinline, unused))
#define RACHNOEL_WITHIN __attribute__((always_inline, unused))
#define RACHNOEL_NOT_LAST_ __asm__ volatile("" ::: "memory")
#else
#define RACHNOEL_MUST_USE
#define RACHNOEL_UNUSED
#define RACHNOEL_APART
#define RACHNOEL_WITHIN
#define RACHNOEL_NOT_LAST_ ((void)0)
#endif

#ifdef __cplusplus
extern "C" {
#endif

/* ---- the version of this library: that of hosts/VERSION */

#define RACHNOEL_VERSION_MAJOR 0
#define RACHNOEL_VERSION_MINOR 1
#define RACHNOEL_VERSION_PATCH 0

#define RACHNOEL_TEXT_(x) #x
#define RACHNOEL_DOTTED_(x, y, z) RACHNOEL_TEXT_(x) "." RACHNOEL_TEXT_(y) "." RACHNOEL_TEXT_(z)
static inline const char *rachnoel_version(void)
{
    return RACHNOEL_DOTTED_(RACHNOEL_VERSION_MAJOR, RACHNOEL_VERSION_MINOR, RACHNOEL_VERSION_PATCH);
}

/* ---- refusals */

enum {
    RACHNOEL_REFUSED_SHAPE = 1,     /* tau, k, w, t, level, kind are no shape */
    RACHNOEL_REFUSED_ROW = 2,       /* row_bits is no multiple of 8 from 8 to 65,536 */
    RACHNOEL_REFUSED_BUFFER = 3,    /* a slice of another length */
    RACHNOEL_REFUSED_GRINDING = 4,  /* one of the last w bits of the challenge is 1 */
    RACHNOEL_REFUSED_NODES = 5,     /* the challenge needs more than t nodes: draw another */
    RACHNOEL_REFUSED_SLOTS = 6,     /* a byte in an unused slot of the opening is not 0 */
    RACHNOEL_REFUSED_STRETCH = 8,   /* width is 0, or first + width exceeds row_bits / 8 */
    RACHNOEL_REFUSED_VERSION = 9,   /* the first byte of a record is missing, or an unknown version */
    RACHNOEL_REFUSED_FIELD = 10,    /* a field of a record has another length, bytes are missing, or bytes are left over */
    RACHNOEL_REFUSED_MISMATCH = 11, /* the reconstructed commitment is not the record's */
    RACHNOEL_REFUSED_NOT_NAMED = 13 /* shape and row length of a record are no named set's */
};

/* The word of documents 01 and 02, and what it means. */
static inline const char *rachnoel_refusal_text(size_t number)
{
    switch (number) {
    case 0: return "no refusal";
    case RACHNOEL_REFUSED_SHAPE: return "shape: the numbers are not allowed together";
    case RACHNOEL_REFUSED_ROW: return "row length: not a multiple of 8 from 8 to 65,536";
    case RACHNOEL_REFUSED_BUFFER: return "buffer: a lent buffer has another length";
    case RACHNOEL_REFUSED_GRINDING: return "grinding: a grinding bit of the challenge is 1";
    case RACHNOEL_REFUSED_NODES: return "nodes: the challenge needs more nodes than T";
    case RACHNOEL_REFUSED_SLOTS: return "slots: an unused slot of the opening holds a byte other than 0";
    case RACHNOEL_REFUSED_STRETCH: return "stretch: it has no bytes, or ends behind the row";
    case RACHNOEL_REFUSED_VERSION: return "version: the first byte of the record is missing or unknown";
    case RACHNOEL_REFUSED_FIELD: return "field: a field of the record has another length, or bytes are missing or left over";
    case RACHNOEL_REFUSED_MISMATCH: return "commitment: the reconstructed one is not the record's";
    case RACHNOEL_REFUSED_NOT_NAMED: return "not named: shape and row length are no named set's";
    default: return "unknown: no call answers with this number";
    }
}

/* ---- shapes */

typedef struct rachnoel_shape {
    size_t tau, k, w, t, level, kind;
} rachnoel_shape;

/* the six numbers of a shape in the order of the flat calls */
#define RACHNOEL_NUMBERS(s) (s).tau, (s).k, (s).w, (s).t, (s).level, (s).kind

typedef struct rachnoel_set {
    const char *name;
    rachnoel_shape shape;
    size_t row_bits;
} rachnoel_set;

/* the twelve sets of FAEST version 2, each with its row length, and the default */
RACHNOEL_UNUSED static const rachnoel_set RACHNOEL_FAEST_128S = {"FAEST-128s", {11, 11, 7, 102, 128, 0}, 1680};
RACHNOEL_UNUSED static const rachnoel_set RACHNOEL_FAEST_128F = {"FAEST-128f", {16, 7, 8, 110, 128, 0}, 1680};
RACHNOEL_UNUSED static const rachnoel_set RACHNOEL_FAEST_192S = {"FAEST-192s", {16, 11, 12, 162, 192, 0}, 3088};
RACHNOEL_UNUSED static const rachnoel_set RACHNOEL_FAEST_192F = {"FAEST-192f", {24, 7, 8, 163, 192, 0}, 3088};
RACHNOEL_UNUSED static const rachnoel_set RACHNOEL_FAEST_256S = {"FAEST-256s", {22, 11, 6, 245, 256, 0}, 3888};
RACHNOEL_UNUSED static const rachnoel_set RACHNOEL_FAEST_256F = {"FAEST-256f", {32, 7, 8, 246, 256, 0}, 3888};
RACHNOEL_UNUSED static const rachnoel_set RACHNOEL_FAEST_EM_128S = {"FAEST-EM-128s", {11, 11, 7, 103, 128, 1}, 1360};
RACHNOEL_UNUSED static const rachnoel_set RACHNOEL_FAEST_EM_128F = {"FAEST-EM-128f", {16, 7, 8, 112, 128, 1}, 1360};
RACHNOEL_UNUSED static const rachnoel_set RACHNOEL_FAEST_EM_192S = {"FAEST-EM-192s", {16, 11, 8, 162, 192, 1}, 2320};
RACHNOEL_UNUSED static const rachnoel_set RACHNOEL_FAEST_EM_192F = {"FAEST-EM-192f", {24, 7, 8, 176, 192, 1}, 2320};
RACHNOEL_UNUSED static const rachnoel_set RACHNOEL_FAEST_EM_256S = {"FAEST-EM-256s", {22, 11, 6, 218, 256, 1}, 3472};
RACHNOEL_UNUSED static const rachnoel_set RACHNOEL_FAEST_EM_256F = {"FAEST-EM-256f", {32, 7, 8, 234, 256, 1}, 3472};
RACHNOEL_UNUSED static const rachnoel_set RACHNOEL_DEFAULT = {"default", {0, 0, 0, 0, 128, 0}, 1680};

enum { RACHNOEL_SETS = 12 };
RACHNOEL_UNUSED static const rachnoel_set *const rachnoel_sets[RACHNOEL_SETS] = {&RACHNOEL_FAEST_128S, &RACHNOEL_FAEST_128F, &RACHNOEL_FAEST_192S,
    &RACHNOEL_FAEST_192F, &RACHNOEL_FAEST_256S, &RACHNOEL_FAEST_256F, &RACHNOEL_FAEST_EM_128S, &RACHNOEL_FAEST_EM_128F, &RACHNOEL_FAEST_EM_192S,
    &RACHNOEL_FAEST_EM_192F, &RACHNOEL_FAEST_EM_256S, &RACHNOEL_FAEST_EM_256F};

/* the sets of version 1, of which no row length is fixed here */
RACHNOEL_UNUSED static const rachnoel_shape RACHNOEL_V1_128S = {11, 11, 0, 1, 128, 0};
RACHNOEL_UNUSED static const rachnoel_shape RACHNOEL_V1_128F = {16, 8, 0, 1, 128, 0};
RACHNOEL_UNUSED static const rachnoel_shape RACHNOEL_V1_192S = {16, 12, 0, 1, 192, 0};
RACHNOEL_UNUSED static const rachnoel_shape RACHNOEL_V1_192F = {24, 8, 0, 1, 192, 0};
RACHNOEL_UNUSED static const rachnoel_shape RACHNOEL_V1_256S = {22, 11, 0, 1, 256, 0};
RACHNOEL_UNUSED static const rachnoel_shape RACHNOEL_V1_256F = {32, 8, 0, 1, 256, 0};

/* ---- lengths in bytes */

enum {
    RACHNOEL_IV = 16,
    RACHNOEL_NODE_MOST = 32,          /* no root, challenge or node has more: level / 8 */
    RACHNOEL_COMMITMENT_MOST = 64,    /* no commitment has more: level / 4 */
    RACHNOEL_COUNT = 4,               /* the count slice of a flat call: one number */
    RACHNOEL_LENGTH_SLICE = 4,        /* the slice that rachnoel_record_length writes: one number */
    RACHNOEL_WORK_LENGTHS_SLICE = 12, /* the slice that rachnoel_work_lengths writes: three numbers */
    RACHNOEL_LENGTHS_SLICE = 44,      /* the slice that rachnoel_lengths writes: eleven numbers */
    RACHNOEL_ROW_MOST = 8192,         /* no row has more: row_bits / 8 */
    RACHNOEL_RECORD_MOST = 273555     /* no record has more bytes */
};

/* stack in bytes, for any call at any shape; the deepest that was measured, 14,992 of v1_commit, is at most seven eighths of it */
enum { RACHNOEL_STACK = 20 * 1024 };

typedef struct rachnoel_sizes {
    size_t leaves; /* a number of leaves; all others are lengths in bytes */
    size_t node, commitment, indices, nodes, tree, leaf_commitments, u, matrix, corrections, opening;
} rachnoel_sizes;

/* The lengths of a shape with rows of row_bytes bytes: row_bits / 8, or the width of a stretch; 0 for a call that has no rows. `node` is that of a root and of
 * a challenge, `matrix` that of V and of Q. All are 0 where the numbers are no shape, or a row has more than RACHNOEL_ROW_MOST bytes. */
static inline rachnoel_sizes rachnoel_lengths_of(size_t tau, size_t k, size_t w, size_t t, size_t level, size_t kind, size_t row_bytes)
{
    rachnoel_sizes n = {0, 0, 0, 0, 0, 0, 0, 0, 0, 0, 0};
    size_t deeper, leaf;
    if (tau == 0 && k == 0 && w == 0 && t == 0 && level == 128 && kind == 0) {
        tau = 16;
        k = 7;
        w = 8;
        t = 110;
    }
    if (row_bytes > RACHNOEL_ROW_MOST || tau < 1 || tau > 32 || k < 1 || k > 12 || w > 127 || t < 1 || t > 512)
        return n;
    if ((level != 128 && level != 192 && level != 256) || kind > 1 || tau * k + w > level)
        return n;
    deeper = level - w - tau * k;
    if (deeper >= tau || (deeper > 0 && k > 11))
        return n;
    n.leaves = (tau + deeper) << k;
    n.node = level / 8;
    n.commitment = 2 * n.node;
    leaf = (kind == 0 ? 3 : 2) * n.node;
    n.indices = 4 * tau;
    n.nodes = 4 * t;
    n.tree = n.node * (2 * n.leaves - 1);
    n.leaf_commitments = leaf * n.leaves;
    n.u = row_bytes;
    n.matrix = level * row_bytes;
    n.corrections = (tau - 1) * row_bytes;
    n.opening = leaf * tau + n.node * t;
    return n;
}

typedef struct rachnoel_sizes_v1 {
    size_t leaves; /* a number of leaves; all others are lengths in bytes */
    size_t node, commitment, trees, leaf_commitments, u, matrix, corrections, opening;
} rachnoel_sizes_v1;

/* The same for the calls of version 1. All are 0 where the numbers are no shape of version 1: w is 0, t is 1, kind is 0, and four zeros stand for nothing. */
static inline rachnoel_sizes_v1 rachnoel_lengths_of_v1(size_t tau, size_t k, size_t w, size_t t, size_t level, size_t kind, size_t row_bytes)
{
    const rachnoel_sizes m = rachnoel_lengths_of(tau, k, w, t, level, kind, row_bytes);
    rachnoel_sizes_v1 n = {0, 0, 0, 0, 0, 0, 0, 0, 0};
    if (m.leaves == 0 || w != 0 || t != 1 || kind != 0)
        return n;
    n.leaves = m.leaves;
    n.node = m.node;
    n.commitment = m.commitment;
    n.trees = m.node * (2 * m.leaves - tau);
    n.leaf_commitments = 2 * m.node * m.leaves;
    n.u = m.u;
    n.matrix = m.matrix;
    n.corrections = m.corrections;
    n.opening = m.node * (level + 2 * tau);
    return n;
}

/* The number in four bytes of `indices`, `nodes`, `count` or of lengths. */
static inline uint32_t rachnoel_number(const uint8_t bytes[4])
{
    uint32_t n = bytes[3];
    n = n << 8 | bytes[2];
    n = n << 8 | bytes[1];
    return n << 8 | bytes[0];
}

/* ---- planning: librachnoel_planning */

/* The lengths of a shape's buffers, eleven numbers in the order of rachnoel_sizes: what rachnoel_lengths_of gives with row_bits / 8, for hosts that cannot use
 * inline functions. Refusals 1, 2, 3. */
RACHNOEL_MUST_USE size_t rachnoel_lengths(size_t tau, size_t k, size_t w, size_t t, size_t level, size_t kind, size_t row_bits,
    uint8_t *lengths, size_t lengths_len);

/* The hidden indices of a challenge. Refusals 1, 3, 4. */
RACHNOEL_MUST_USE size_t rachnoel_decode(size_t tau, size_t k, size_t w, size_t t, size_t level, size_t kind,
    const uint8_t *challenge, size_t challenge_len, uint8_t *indices, size_t indices_len, uint8_t *count, size_t count_len);

/* The nodes that an opening reveals, at the front of the list; what stands behind them stays. Refusals 1, 3, 4, 5. */
RACHNOEL_MUST_USE size_t rachnoel_plan(size_t tau, size_t k, size_t w, size_t t, size_t level, size_t kind, const uint8_t *challenge, size_t challenge_len,
    uint8_t *nodes, size_t nodes_len, uint8_t *count, size_t count_len);

/* ---- the signing half: librachnoel_signer */

/* The commitment to the tree of a root. Root, tree, u and v are secret. Refusals 1, 2, 3. */
RACHNOEL_MUST_USE size_t rachnoel_commit(size_t tau, size_t k, size_t w, size_t t, size_t level, size_t kind, size_t row_bits,
    const uint8_t *root, size_t root_len, const uint8_t *iv, size_t iv_len, uint8_t *commitment, size_t commitment_len, uint8_t *tree, size_t tree_len,
    uint8_t *leaf_commitments, size_t leaf_commitments_len, uint8_t *u, size_t u_len, uint8_t *v, size_t v_len,
    uint8_t *corrections, size_t corrections_len, uint8_t *count, size_t count_len);

/* The same with bytes first to first + width - 1 of u, of each correction and of each column of v only. Refusals 1, 2, 8, 3. */
RACHNOEL_MUST_USE size_t rachnoel_commit_stretch(size_t tau, size_t k, size_t w, size_t t, size_t level, size_t kind, size_t row_bits, size_t first,
    size_t width, const uint8_t *root, size_t root_len, const uint8_t *iv, size_t iv_len, uint8_t *commitment, size_t commitment_len,
    uint8_t *tree, size_t tree_len, uint8_t *leaf_commitments, size_t leaf_commitments_len, uint8_t *u, size_t u_len, uint8_t *v, size_t v_len,
    uint8_t *corrections, size_t corrections_len, uint8_t *count, size_t count_len);

/* The opening of a challenge, from the tree and the leaf commitments that commit wrote. Open a tree for one challenge only. Refusals 1, 3, 4, 5. */
RACHNOEL_MUST_USE size_t rachnoel_open(size_t tau, size_t k, size_t w, size_t t, size_t level, size_t kind, const uint8_t *challenge, size_t challenge_len,
    const uint8_t *tree, size_t tree_len, const uint8_t *leaf_commitments, size_t leaf_commitments_len, uint8_t *opening, size_t opening_len,
    uint8_t *count, size_t count_len);

/* ---- the checking half: librachnoel_verifier */

/* Commitment, tree, leaf commitments and q from an opening. The host compares the commitment with the one that it was given. Refusals 1 to 6. */
RACHNOEL_MUST_USE size_t rachnoel_reconstruct(size_t tau, size_t k, size_t w, size_t t, size_t level, size_t kind, size_t row_bits,
    const uint8_t *iv, size_t iv_len, const uint8_t *challenge, size_t challenge_len, const uint8_t *corrections, size_t corrections_len,
    const uint8_t *opening, size_t opening_len, uint8_t *commitment, size_t commitment_len, uint8_t *tree, size_t tree_len,
    uint8_t *leaf_commitments, size_t leaf_commitments_len, uint8_t *q, size_t q_len, uint8_t *count, size_t count_len);

/* The same with the corrections cut to bytes first to first + width - 1, and these bytes of each column of q. Refusals 1, 2, 8, 3, 4, 5, 6. */
RACHNOEL_MUST_USE size_t rachnoel_reconstruct_stretch(size_t tau, size_t k, size_t w, size_t t, size_t level, size_t kind, size_t row_bits, size_t first,
    size_t width, const uint8_t *iv, size_t iv_len, const uint8_t *challenge, size_t challenge_len, const uint8_t *corrections, size_t corrections_len,
    const uint8_t *opening, size_t opening_len, uint8_t *commitment, size_t commitment_len, uint8_t *tree, size_t tree_len,
    uint8_t *leaf_commitments, size_t leaf_commitments_len, uint8_t *q, size_t q_len, uint8_t *count, size_t count_len);

/* ---- version 1, the signing half: librachnoel_v1_signer
 *
 * A tree for each vector, with w 0, t 1 and kind 0; the count is 0, and no challenge is refused. No byte of version 1 was compared with another maker's. */

/* The commitment to the trees that grow from a root. Root, trees, u and v are secret. Refusals 1, 2, 3. */
RACHNOEL_MUST_USE size_t rachnoel_v1_commit(size_t tau, size_t k, size_t w, size_t t, size_t level, size_t kind, size_t row_bits,
    const uint8_t *root, size_t root_len, const uint8_t *iv, size_t iv_len, uint8_t *commitment, size_t commitment_len, uint8_t *trees, size_t trees_len,
    uint8_t *leaf_commitments, size_t leaf_commitments_len, uint8_t *u, size_t u_len, uint8_t *v, size_t v_len,
    uint8_t *corrections, size_t corrections_len, uint8_t *count, size_t count_len);

/* The opening of a challenge, from the trees and the leaf commitments that commit wrote. Open the trees for one challenge only. Refusals 1, 3. */
RACHNOEL_MUST_USE size_t rachnoel_v1_open(size_t tau, size_t k, size_t w, size_t t, size_t level, size_t kind,
    const uint8_t *challenge, size_t challenge_len, const uint8_t *trees, size_t trees_len, const uint8_t *leaf_commitments, size_t leaf_commitments_len,
    uint8_t *opening, size_t opening_len, uint8_t *count, size_t count_len);

/* ---- version 1, the checking half: librachnoel_v1_verifier */

/* Commitment, trees, leaf commitments and q from an opening. The host compares the commitment with the one that it was given. Refusals 1, 2, 3. */
RACHNOEL_MUST_USE size_t rachnoel_v1_reconstruct(size_t tau, size_t k, size_t w, size_t t, size_t level, size_t kind, size_t row_bits,
    const uint8_t *iv, size_t iv_len, const uint8_t *challenge, size_t challenge_len, const uint8_t *corrections, size_t corrections_len,
    const uint8_t *opening, size_t opening_len, uint8_t *commitment, size_t commitment_len, uint8_t *trees, size_t trees_len,
    uint8_t *leaf_commitments, size_t leaf_commitments_len, uint8_t *q, size_t q_len, uint8_t *count, size_t count_len);

/* ---- records, checked: librachnoel_broker  A record is a version byte and six fields, each a length of four bytes, greatest first, and that many bytes:
 * tau, k, w in a byte each, t in two and row_bits in four, greatest first, from version 2 on level / 8 in a byte, in version 3 kind in a byte; the IV; the
 * challenge; the corrections; the opening; the commitment. Version 1 has level 128, versions 1 and 2 kind 0, version 3 kind 1. */

/* The lengths of the three work buffers that a record asks for by its front: tree, leaf_commitments, q, three numbers. Refusals 9, 10, 1, 2, 3. */
RACHNOEL_MUST_USE size_t rachnoel_work_lengths(const uint8_t *record, size_t record_len, uint8_t *lengths, size_t lengths_len);

/* Whether a record has its form, reconstruct accepts its fields, and gives the record's commitment. The corrections are not bound by it. With 0 and with 11
 * the work buffers hold what reconstruct writes, and the count is written; with 5 and 6 the count alone. Refusals 9, 10, 1, 2, 10, 3, 4, 5, 6, 11. */
RACHNOEL_MUST_USE size_t rachnoel_check_record(const uint8_t *record, size_t record_len, uint8_t *tree, size_t tree_len,
    uint8_t *leaf_commitments, size_t leaf_commitments_len, uint8_t *q, size_t q_len, uint8_t *count, size_t count_len);

/* The same for the twelve sets of FAEST version 2 alone, each with its row length: any other shape or row length is 13, four zeros too. Of a named set it is
 * rachnoel_check_record. 13 writes nothing. Refusals 9, 10, 1, 2, 13, 10, 3, 4, 5, 6, 11. */
RACHNOEL_MUST_USE size_t rachnoel_check_named(const uint8_t *record, size_t record_len, uint8_t *tree, size_t tree_len,
    uint8_t *leaf_commitments, size_t leaf_commitments_len, uint8_t *q, size_t q_len, uint8_t *count, size_t count_len);

/* ---- records, written: librachnoel_writer */

/* The length of a record, one number. Refusals 1, 2, 3. */
RACHNOEL_MUST_USE size_t rachnoel_record_length(size_t tau, size_t k, size_t w, size_t t, size_t level, size_t kind, size_t row_bits,
    uint8_t *length, size_t length_len);

/* The record, of version 2 for kind 0 and of 3 for kind 1, of a shape as it is given, four zeros too, a row length and the other fields, which are not
 * tested but for their lengths. Refusals 1, 2, 3. */
RACHNOEL_MUST_USE size_t rachnoel_write_record(size_t tau, size_t k, size_t w, size_t t, size_t level, size_t kind, size_t row_bits,
    const uint8_t *iv, size_t iv_len, const uint8_t *challenge, size_t challenge_len, const uint8_t *corrections, size_t corrections_len,
    const uint8_t *opening, size_t opening_len, const uint8_t *commitment, size_t commitment_len, uint8_t *record, size_t record_len);

/* ---- slices, for the inline calls */

/* a slice that is read, and one that is written; NULL stands for a slice of no bytes, whatever the length says */
typedef struct rachnoel_slice {
    const uint8_t *at;
    size_t length;
} rachnoel_slice;

typedef struct rachnoel_bytes {
    uint8_t *at;
    size_t length;
} rachnoel_bytes;

/* what one call wrote, for another to read */
static inline rachnoel_slice rachnoel_read(rachnoel_bytes b)
{
    rachnoel_slice s;
    s.at = b.at;
    s.length = b.length;
    return s;
}

static inline rachnoel_slice rachnoel_slice_of(const uint8_t *at, size_t length)
{
    rachnoel_slice s;
    s.at = at;
    s.length = length;
    return s;
}

static inline rachnoel_bytes rachnoel_bytes_of(uint8_t *at, size_t length)
{
    rachnoel_bytes s;
    s.at = at;
    s.length = length;
    return s;
}

/* the slice as a flat call takes it: a byte is lent in the place of NULL, and nothing is written there */
static inline rachnoel_slice rachnoel_lent(rachnoel_slice s)
{
    static const uint8_t none = 0;
    return s.at == NULL ? rachnoel_slice_of(&none, 0) : s;
}

static inline rachnoel_bytes rachnoel_lent_bytes(rachnoel_bytes s)
{
    static uint8_t none;
    return s.at == NULL ? rachnoel_bytes_of(&none, 0) : s;
}

/* the count of a call that answered `number`, where it is given */
static inline size_t rachnoel_counted(size_t number, const uint8_t bytes[4], size_t *count)
{
    if (number == 0 || number == RACHNOEL_REFUSED_NODES || number == RACHNOEL_REFUSED_SLOTS || number == RACHNOEL_REFUSED_MISMATCH)
        *count = rachnoel_number(bytes);
    return number;
}

/* for the functions below, each with its struct in b */
#define RACHNOEL_R_(name) rachnoel_lent(b->name).at, rachnoel_lent(b->name).length
#define RACHNOEL_W_(name) rachnoel_lent_bytes(b->name).at, rachnoel_lent_bytes(b->name).length
#define RACHNOEL_TEST_(name)                                                       \
    if ((b->name.at == NULL ? 0 : b->name.length) != right.name.length)            \
        return #name;
#define RACHNOEL_SIZE_R_(name, n) b.name = rachnoel_slice_of(NULL, n)
#define RACHNOEL_SIZE_W_(name, n) b.name = rachnoel_bytes_of(NULL, n)

/* ---- the inline calls. Of each: a struct of its buffers, in which all that is not a slice or the count is the call's arguments; .._sized gives it with every
 * length filled in and every pointer NULL, so that a host allocates from it; .._in makes the call, with the refusals of the flat one, and gives the count where
 * that is written; .._wrong, behind a 3, names the first slice whose length is not the right one, and gives NULL where there is none. */

/* decode */
typedef struct rachnoel_decode_buffers {
    rachnoel_shape shape;
    rachnoel_slice challenge;
    rachnoel_bytes indices;
    size_t count;
} rachnoel_decode_buffers;

static inline rachnoel_decode_buffers rachnoel_decode_sized(rachnoel_shape s)
{
    const rachnoel_sizes n = rachnoel_lengths_of(RACHNOEL_NUMBERS(s), 0);
    rachnoel_decode_buffers b;
    b.shape = s;
    b.count = 0;
    RACHNOEL_SIZE_R_(challenge, n.node);
    RACHNOEL_SIZE_W_(indices, n.indices);
    return b;
}

RACHNOEL_MUST_USE static inline size_t rachnoel_decode_in(rachnoel_decode_buffers *b)
{
    uint8_t count[4] = {0, 0, 0, 0};
    return rachnoel_counted(rachnoel_decode(RACHNOEL_NUMBERS(b->shape), RACHNOEL_R_(challenge), RACHNOEL_W_(indices), count, 4), count, &b->count);
}

static inline const char *rachnoel_decode_wrong(const rachnoel_decode_buffers *b)
{
    const rachnoel_decode_buffers right = rachnoel_decode_sized(b->shape);
    RACHNOEL_TEST_(challenge)
    RACHNOEL_TEST_(indices)
    return NULL;
}

/* plan */
typedef struct rachnoel_plan_buffers {
    rachnoel_shape shape;
    rachnoel_slice challenge;
    rachnoel_bytes nodes;
    size_t count;
} rachnoel_plan_buffers;

static inline rachnoel_plan_buffers rachnoel_plan_sized(rachnoel_shape s)
{
    const rachnoel_sizes n = rachnoel_lengths_of(RACHNOEL_NUMBERS(s), 0);
    rachnoel_plan_buffers b;
    b.shape = s;
    b.count = 0;
    RACHNOEL_SIZE_R_(challenge, n.node);
    RACHNOEL_SIZE_W_(nodes, n.nodes);
    return b;
}

RACHNOEL_MUST_USE static inline size_t rachnoel_plan_in(rachnoel_plan_buffers *b)
{
    uint8_t count[4] = {0, 0, 0, 0};
    return rachnoel_counted(rachnoel_plan(RACHNOEL_NUMBERS(b->shape), RACHNOEL_R_(challenge), RACHNOEL_W_(nodes), count, 4), count, &b->count);
}

static inline const char *rachnoel_plan_wrong(const rachnoel_plan_buffers *b)
{
    const rachnoel_plan_buffers right = rachnoel_plan_sized(b->shape);
    RACHNOEL_TEST_(challenge)
    RACHNOEL_TEST_(nodes)
    return NULL;
}

/* commit, and of a stretch of the rows: bytes first to first + width - 1 of each */
typedef struct rachnoel_commit_buffers {
    rachnoel_shape shape;
    size_t row_bits, first, width;
    rachnoel_slice root, iv;
    rachnoel_bytes commitment, tree, leaf_commitments, u, v, corrections;
    size_t count;
} rachnoel_commit_buffers;

static inline rachnoel_commit_buffers rachnoel_commit_stretch_sized(rachnoel_shape s, size_t row_bits, size_t first, size_t width)
{
    const rachnoel_sizes n = rachnoel_lengths_of(RACHNOEL_NUMBERS(s), width);
    rachnoel_commit_buffers b;
    b.shape = s;
    b.row_bits = row_bits;
    b.first = first;
    b.width = width;
    b.count = 0;
    RACHNOEL_SIZE_R_(root, n.node);
    RACHNOEL_SIZE_R_(iv, RACHNOEL_IV);
    RACHNOEL_SIZE_W_(commitment, n.commitment);
    RACHNOEL_SIZE_W_(tree, n.tree);
    RACHNOEL_SIZE_W_(leaf_commitments, n.leaf_commitments);
    RACHNOEL_SIZE_W_(u, n.u);
    RACHNOEL_SIZE_W_(v, n.matrix);
    RACHNOEL_SIZE_W_(corrections, n.corrections);
    return b;
}

static inline rachnoel_commit_buffers rachnoel_commit_sized(rachnoel_shape s, size_t row_bits)
{
    return rachnoel_commit_stretch_sized(s, row_bits, 0, row_bits / 8);
}

RACHNOEL_MUST_USE static inline size_t rachnoel_commit_in(rachnoel_commit_buffers *b)
{
    uint8_t count[4] = {0, 0, 0, 0};
    return rachnoel_counted(rachnoel_commit(RACHNOEL_NUMBERS(b->shape), b->row_bits, RACHNOEL_R_(root), RACHNOEL_R_(iv), RACHNOEL_W_(commitment),
                                RACHNOEL_W_(tree), RACHNOEL_W_(leaf_commitments), RACHNOEL_W_(u), RACHNOEL_W_(v), RACHNOEL_W_(corrections), count, 4),
        count, &b->count);
}

RACHNOEL_MUST_USE static inline size_t rachnoel_commit_stretch_in(rachnoel_commit_buffers *b)
{
    uint8_t count[4] = {0, 0, 0, 0};
    return rachnoel_counted(rachnoel_commit_stretch(RACHNOEL_NUMBERS(b->shape), b->row_bits, b->first, b->width, RACHNOEL_R_(root), RACHNOEL_R_(iv),
                                RACHNOEL_W_(commitment), RACHNOEL_W_(tree), RACHNOEL_W_(leaf_commitments), RACHNOEL_W_(u), RACHNOEL_W_(v),
                                RACHNOEL_W_(corrections), count, 4),
        count, &b->count);
}

static inline const char *rachnoel_commit_unlike_(const rachnoel_commit_buffers *b, const rachnoel_commit_buffers right)
{
    RACHNOEL_TEST_(root)
    RACHNOEL_TEST_(iv)
    RACHNOEL_TEST_(commitment)
    RACHNOEL_TEST_(tree)
    RACHNOEL_TEST_(leaf_commitments)
    RACHNOEL_TEST_(u)
    RACHNOEL_TEST_(v)
    RACHNOEL_TEST_(corrections)
    return NULL;
}

static inline const char *rachnoel_commit_wrong(const rachnoel_commit_buffers *b)
{
    return rachnoel_commit_unlike_(b, rachnoel_commit_sized(b->shape, b->row_bits));
}

static inline const char *rachnoel_commit_stretch_wrong(const rachnoel_commit_buffers *b)
{
    return rachnoel_commit_unlike_(b, rachnoel_commit_stretch_sized(b->shape, b->row_bits, b->first, b->width));
}

/* open */
typedef struct rachnoel_open_buffers {
    rachnoel_shape shape;
    rachnoel_slice challenge, tree, leaf_commitments;
    rachnoel_bytes opening;
    size_t count;
} rachnoel_open_buffers;

static inline rachnoel_open_buffers rachnoel_open_sized(rachnoel_shape s)
{
    const rachnoel_sizes n = rachnoel_lengths_of(RACHNOEL_NUMBERS(s), 0);
    rachnoel_open_buffers b;
    b.shape = s;
    b.count = 0;
    RACHNOEL_SIZE_R_(challenge, n.node);
    RACHNOEL_SIZE_R_(tree, n.tree);
    RACHNOEL_SIZE_R_(leaf_commitments, n.leaf_commitments);
    RACHNOEL_SIZE_W_(opening, n.opening);
    return b;
}

RACHNOEL_MUST_USE static inline size_t rachnoel_open_in(rachnoel_open_buffers *b)
{
    uint8_t count[4] = {0, 0, 0, 0};
    return rachnoel_counted(rachnoel_open(RACHNOEL_NUMBERS(b->shape), RACHNOEL_R_(challenge), RACHNOEL_R_(tree), RACHNOEL_R_(leaf_commitments),
                                RACHNOEL_W_(opening), count, 4),
        count, &b->count);
}

static inline const char *rachnoel_open_wrong(const rachnoel_open_buffers *b)
{
    const rachnoel_open_buffers right = rachnoel_open_sized(b->shape);
    RACHNOEL_TEST_(challenge)
    RACHNOEL_TEST_(tree)
    RACHNOEL_TEST_(leaf_commitments)
    RACHNOEL_TEST_(opening)
    return NULL;
}

/* reconstruct, and of a stretch of the rows */
typedef struct rachnoel_reconstruct_buffers {
    rachnoel_shape shape;
    size_t row_bits, first, width;
    rachnoel_slice iv, challenge, corrections, opening;
    rachnoel_bytes commitment, tree, leaf_commitments, q;
    size_t count;
} rachnoel_reconstruct_buffers;

static inline rachnoel_reconstruct_buffers rachnoel_reconstruct_stretch_sized(rachnoel_shape s, size_t row_bits, size_t first, size_t width)
{
    const rachnoel_sizes n = rachnoel_lengths_of(RACHNOEL_NUMBERS(s), width);
    rachnoel_reconstruct_buffers b;
    b.shape = s;
    b.row_bits = row_bits;
    b.first = first;
    b.width = width;
    b.count = 0;
    RACHNOEL_SIZE_R_(iv, RACHNOEL_IV);
    RACHNOEL_SIZE_R_(challenge, n.node);
    RACHNOEL_SIZE_R_(corrections, n.corrections);
    RACHNOEL_SIZE_R_(opening, n.opening);
    RACHNOEL_SIZE_W_(commitment, n.commitment);
    RACHNOEL_SIZE_W_(tree, n.tree);
    RACHNOEL_SIZE_W_(leaf_commitments, n.leaf_commitments);
    RACHNOEL_SIZE_W_(q, n.matrix);
    return b;
}

static inline rachnoel_reconstruct_buffers rachnoel_reconstruct_sized(rachnoel_shape s, size_t row_bits)
{
    return rachnoel_reconstruct_stretch_sized(s, row_bits, 0, row_bits / 8);
}

RACHNOEL_MUST_USE static inline size_t rachnoel_reconstruct_in(rachnoel_reconstruct_buffers *b)
{
    uint8_t count[4] = {0, 0, 0, 0};
    return rachnoel_counted(rachnoel_reconstruct(RACHNOEL_NUMBERS(b->shape), b->row_bits, RACHNOEL_R_(iv), RACHNOEL_R_(challenge), RACHNOEL_R_(corrections),
                                RACHNOEL_R_(opening), RACHNOEL_W_(commitment), RACHNOEL_W_(tree), RACHNOEL_W_(leaf_commitments), RACHNOEL_W_(q), count, 4),
        count, &b->count);
}

RACHNOEL_MUST_USE static inline size_t rachnoel_reconstruct_stretch_in(rachnoel_reconstruct_buffers *b)
{
    uint8_t count[4] = {0, 0, 0, 0};
    return rachnoel_counted(rachnoel_reconstruct_stretch(RACHNOEL_NUMBERS(b->shape), b->row_bits, b->first, b->width, RACHNOEL_R_(iv),
                                RACHNOEL_R_(challenge), RACHNOEL_R_(corrections), RACHNOEL_R_(opening), RACHNOEL_W_(commitment), RACHNOEL_W_(tree),
                                RACHNOEL_W_(leaf_commitments), RACHNOEL_W_(q), count, 4),
        count, &b->count);
}

static inline const char *rachnoel_reconstruct_unlike_(const rachnoel_reconstruct_buffers *b, const rachnoel_reconstruct_buffers right)
{
    RACHNOEL_TEST_(iv)
    RACHNOEL_TEST_(challenge)
    RACHNOEL_TEST_(corrections)
    RACHNOEL_TEST_(opening)
    RACHNOEL_TEST_(commitment)
    RACHNOEL_TEST_(tree)
    RACHNOEL_TEST_(leaf_commitments)
    RACHNOEL_TEST_(q)
    return NULL;
}

static inline const char *rachnoel_reconstruct_wrong(const rachnoel_reconstruct_buffers *b)
{
    return rachnoel_reconstruct_unlike_(b, rachnoel_reconstruct_sized(b->shape, b->row_bits));
}

static inline const char *rachnoel_reconstruct_stretch_wrong(const rachnoel_reconstruct_buffers *b)
{
    return rachnoel_reconstruct_unlike_(b, rachnoel_reconstruct_stretch_sized(b->shape, b->row_bits, b->first, b->width));
}

/* commit of version 1 */
typedef struct rachnoel_v1_commit_buffers {
    rachnoel_shape shape;
    size_t row_bits;
    rachnoel_slice root, iv;
    rachnoel_bytes commitment, trees, leaf_commitments, u, v, corrections;
    size_t count;
} rachnoel_v1_commit_buffers;

static inline rachnoel_v1_commit_buffers rachnoel_v1_commit_sized(rachnoel_shape s, size_t row_bits)
{
    const rachnoel_sizes_v1 n = rachnoel_lengths_of_v1(RACHNOEL_NUMBERS(s), row_bits / 8);
    rachnoel_v1_commit_buffers b;
    b.shape = s;
    b.row_bits = row_bits;
    b.count = 0;
    RACHNOEL_SIZE_R_(root, n.node);
    RACHNOEL_SIZE_R_(iv, RACHNOEL_IV);
    RACHNOEL_SIZE_W_(commitment, n.commitment);
    RACHNOEL_SIZE_W_(trees, n.trees);
    RACHNOEL_SIZE_W_(leaf_commitments, n.leaf_commitments);
    RACHNOEL_SIZE_W_(u, n.u);
    RACHNOEL_SIZE_W_(v, n.matrix);
    RACHNOEL_SIZE_W_(corrections, n.corrections);
    return b;
}

RACHNOEL_MUST_USE static inline size_t rachnoel_v1_commit_in(rachnoel_v1_commit_buffers *b)
{
    uint8_t count[4] = {0, 0, 0, 0};
    return rachnoel_counted(rachnoel_v1_commit(RACHNOEL_NUMBERS(b->shape), b->row_bits, RACHNOEL_R_(root), RACHNOEL_R_(iv), RACHNOEL_W_(commitment),
                                RACHNOEL_W_(trees), RACHNOEL_W_(leaf_commitments), RACHNOEL_W_(u), RACHNOEL_W_(v), RACHNOEL_W_(corrections), count, 4),
        count, &b->count);
}

static inline const char *rachnoel_v1_commit_wrong(const rachnoel_v1_commit_buffers *b)
{
    const rachnoel_v1_commit_buffers right = rachnoel_v1_commit_sized(b->shape, b->row_bits);
    RACHNOEL_TEST_(root)
    RACHNOEL_TEST_(iv)
    RACHNOEL_TEST_(commitment)
    RACHNOEL_TEST_(trees)
    RACHNOEL_TEST_(leaf_commitments)
    RACHNOEL_TEST_(u)
    RACHNOEL_TEST_(v)
    RACHNOEL_TEST_(corrections)
    return NULL;
}

/* open of version 1 */
typedef struct rachnoel_v1_open_buffers {
    rachnoel_shape shape;
    rachnoel_slice challenge, trees, leaf_commitments;
    rachnoel_bytes opening;
    size_t count;
} rachnoel_v1_open_buffers;

static inline rachnoel_v1_open_buffers rachnoel_v1_open_sized(rachnoel_shape s)
{
    const rachnoel_sizes_v1 n = rachnoel_lengths_of_v1(RACHNOEL_NUMBERS(s), 0);
    rachnoel_v1_open_buffers b;
    b.shape = s;
    b.count = 0;
    RACHNOEL_SIZE_R_(challenge, n.node);
    RACHNOEL_SIZE_R_(trees, n.trees);
    RACHNOEL_SIZE_R_(leaf_commitments, n.leaf_commitments);
    RACHNOEL_SIZE_W_(opening, n.opening);
    return b;
}

RACHNOEL_MUST_USE static inline size_t rachnoel_v1_open_in(rachnoel_v1_open_buffers *b)
{
    uint8_t count[4] = {0, 0, 0, 0};
    return rachnoel_counted(rachnoel_v1_open(RACHNOEL_NUMBERS(b->shape), RACHNOEL_R_(challenge), RACHNOEL_R_(trees), RACHNOEL_R_(leaf_commitments),
                                RACHNOEL_W_(opening), count, 4),
        count, &b->count);
}

static inline const char *rachnoel_v1_open_wrong(const rachnoel_v1_open_buffers *b)
{
    const rachnoel_v1_open_buffers right = rachnoel_v1_open_sized(b->shape);
    RACHNOEL_TEST_(challenge)
    RACHNOEL_TEST_(trees)
    RACHNOEL_TEST_(leaf_commitments)
    RACHNOEL_TEST_(opening)
    return NULL;
}

/* reconstruct of version 1 */
typedef struct rachnoel_v1_reconstruct_buffers {
    rachnoel_shape shape;
    size_t row_bits;
    rachnoel_slice iv, challenge, corrections, opening;
    rachnoel_bytes commitment, trees, leaf_commitments, q;
    size_t count;
} rachnoel_v1_reconstruct_buffers;

static inline rachnoel_v1_reconstruct_buffers rachnoel_v1_reconstruct_sized(rachnoel_shape s, size_t row_bits)
{
    const rachnoel_sizes_v1 n = rachnoel_lengths_of_v1(RACHNOEL_NUMBERS(s), row_bits / 8);
    rachnoel_v1_reconstruct_buffers b;
    b.shape = s;
    b.row_bits = row_bits;
    b.count = 0;
    RACHNOEL_SIZE_R_(iv, RACHNOEL_IV);
    RACHNOEL_SIZE_R_(challenge, n.node);
    RACHNOEL_SIZE_R_(corrections, n.corrections);
    RACHNOEL_SIZE_R_(opening, n.opening);
    RACHNOEL_SIZE_W_(commitment, n.commitment);
    RACHNOEL_SIZE_W_(trees, n.trees);
    RACHNOEL_SIZE_W_(leaf_commitments, n.leaf_commitments);
    RACHNOEL_SIZE_W_(q, n.matrix);
    return b;
}

RACHNOEL_MUST_USE static inline size_t rachnoel_v1_reconstruct_in(rachnoel_v1_reconstruct_buffers *b)
{
    uint8_t count[4] = {0, 0, 0, 0};
    return rachnoel_counted(rachnoel_v1_reconstruct(RACHNOEL_NUMBERS(b->shape), b->row_bits, RACHNOEL_R_(iv), RACHNOEL_R_(challenge),
                                RACHNOEL_R_(corrections), RACHNOEL_R_(opening), RACHNOEL_W_(commitment), RACHNOEL_W_(trees),
                                RACHNOEL_W_(leaf_commitments), RACHNOEL_W_(q), count, 4),
        count, &b->count);
}

static inline const char *rachnoel_v1_reconstruct_wrong(const rachnoel_v1_reconstruct_buffers *b)
{
    const rachnoel_v1_reconstruct_buffers right = rachnoel_v1_reconstruct_sized(b->shape, b->row_bits);
    RACHNOEL_TEST_(iv)
    RACHNOEL_TEST_(challenge)
    RACHNOEL_TEST_(corrections)
    RACHNOEL_TEST_(opening)
    RACHNOEL_TEST_(commitment)
    RACHNOEL_TEST_(trees)
    RACHNOEL_TEST_(leaf_commitments)
    RACHNOEL_TEST_(q)
    return NULL;
}

/* check_record and check_named, with their work buffers */
typedef struct rachnoel_check_buffers {
    rachnoel_slice record;
    rachnoel_bytes tree, leaf_commitments, q;
    size_t count;
} rachnoel_check_buffers;

/* The lengths that the record asks for by its front, by rachnoel_work_lengths; all are 0 where that refuses it, and then so does a check. */
static inline rachnoel_check_buffers rachnoel_check_sized(const uint8_t *record, size_t record_length)
{
    uint8_t lengths[RACHNOEL_WORK_LENGTHS_SLICE] = {0, 0, 0, 0, 0, 0, 0, 0, 0, 0, 0, 0};
    const rachnoel_slice r = rachnoel_lent(rachnoel_slice_of(record, record_length));
    rachnoel_check_buffers b;
    const size_t known = rachnoel_work_lengths(r.at, r.length, lengths, sizeof lengths) == 0;
    b.record = rachnoel_slice_of(record, record_length);
    b.count = 0;
    RACHNOEL_SIZE_W_(tree, known * rachnoel_number(lengths));
    RACHNOEL_SIZE_W_(leaf_commitments, known * rachnoel_number(lengths + 4));
    RACHNOEL_SIZE_W_(q, known * rachnoel_number(lengths + 8));
    return b;
}

RACHNOEL_MUST_USE static inline size_t rachnoel_check_record_in(rachnoel_check_buffers *b)
{
    uint8_t count[4] = {0, 0, 0, 0};
    return rachnoel_counted(rachnoel_check_record(RACHNOEL_R_(record), RACHNOEL_W_(tree), RACHNOEL_W_(leaf_commitments), RACHNOEL_W_(q), count, 4), count,
        &b->count);
}

RACHNOEL_MUST_USE static inline size_t rachnoel_check_named_in(rachnoel_check_buffers *b)
{
    uint8_t count[4] = {0, 0, 0, 0};
    return rachnoel_counted(rachnoel_check_named(RACHNOEL_R_(record), RACHNOEL_W_(tree), RACHNOEL_W_(leaf_commitments), RACHNOEL_W_(q), count, 4), count,
        &b->count);
}

/* of both; a record of another length is 9 or 10 */
static inline const char *rachnoel_check_wrong(const rachnoel_check_buffers *b)
{
    const rachnoel_check_buffers right = rachnoel_check_sized(b->record.at, b->record.length);
    RACHNOEL_TEST_(tree)
    RACHNOEL_TEST_(leaf_commitments)
    RACHNOEL_TEST_(q)
    return NULL;
}

/* write_record, which has no count */
typedef struct rachnoel_write_buffers {
    rachnoel_shape shape;
    size_t row_bits;
    rachnoel_slice iv, challenge, corrections, opening, commitment;
    rachnoel_bytes record;
} rachnoel_write_buffers;

static inline rachnoel_write_buffers rachnoel_write_sized(rachnoel_shape s, size_t row_bits)
{
    const rachnoel_sizes n = rachnoel_lengths_of(RACHNOEL_NUMBERS(s), row_bits / 8);
    uint8_t length[RACHNOEL_LENGTH_SLICE] = {0, 0, 0, 0};
    rachnoel_write_buffers b;
    const size_t known = rachnoel_record_length(RACHNOEL_NUMBERS(s), row_bits, length, sizeof length) == 0;
    b.shape = s;
    b.row_bits = row_bits;
    RACHNOEL_SIZE_R_(iv, RACHNOEL_IV);
    RACHNOEL_SIZE_R_(challenge, n.node);
    RACHNOEL_SIZE_R_(corrections, n.corrections);
    RACHNOEL_SIZE_R_(opening, n.opening);
    RACHNOEL_SIZE_R_(commitment, n.commitment);
    RACHNOEL_SIZE_W_(record, known * rachnoel_number(length));
    return b;
}

RACHNOEL_MUST_USE static inline size_t rachnoel_write_record_in(const rachnoel_write_buffers *b)
{
    return rachnoel_write_record(RACHNOEL_NUMBERS(b->shape), b->row_bits, RACHNOEL_R_(iv), RACHNOEL_R_(challenge), RACHNOEL_R_(corrections),
        RACHNOEL_R_(opening), RACHNOEL_R_(commitment), RACHNOEL_W_(record));
}

static inline const char *rachnoel_write_wrong(const rachnoel_write_buffers *b)
{
    const rachnoel_write_buffers right = rachnoel_write_sized(b->shape, b->row_bits);
    RACHNOEL_TEST_(iv)
    RACHNOEL_TEST_(challenge)
    RACHNOEL_TEST_(corrections)
    RACHNOEL_TEST_(opening)
    RACHNOEL_TEST_(commitment)
    RACHNOEL_TEST_(record)
    return NULL;
}

#undef RACHNOEL_R_
#undef RACHNOEL_W_
#undef RACHNOEL_TEST_
#undef RACHNOEL_SIZE_R_
#undef RACHNOEL_SIZE_W_

/* ---- the stack */

RACHNOEL_APART static void rachnoel_clear_below_(void)
{
    RACHNOEL_UNUSED volatile uint64_t below[RACHNOEL_STACK / 8];
    size_t i;
    for (i = 0; i < RACHNOEL_STACK / 8; i++)
        below[i] = 0;
}

/* Clears RACHNOEL_STACK bytes below the caller's frame: where what is made of keys and seeds stays behind commit and open. So it is called from the function
 * that made that call, also as its last statement: the frame stays while the stack below it is cleared. It takes a few bytes more than it clears. Registers,
 * the host's own copies, and what a signal handler or a debugger saved are not reached. */
RACHNOEL_WITHIN static inline void rachnoel_wipe_stack(void)
{
    rachnoel_clear_below_();
    RACHNOEL_NOT_LAST_;
}

#ifdef __cplusplus
}
#endif

#endif
