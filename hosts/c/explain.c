/* --explain: what stands where in a record, and the reason of the verdict. This reads the record by itself, beside the proved calls. */
#include "verdict.h"

#include <stdlib.h>

enum { SHAPE, IV, CHALLENGE, CORRECTIONS, OPENING, COMMITMENT, FIELDS };

static const char *const field_names[FIELDS] = {"shape and row length", "IV", "challenge", "corrections", "opening", "commitment"};

/* what was read: how many fields, where the bytes of each begin, and what the first says */
typedef struct layout {
    size_t fields;
    size_t at[FIELDS];
    front front;
    rachnoel_sizes lengths;
} layout;

/* ---- what stands where */

/* 1 where the field at a place has the length that is required, and its bytes are there */
static int put_field(FILE *out, const uint8_t *record, size_t length, size_t at, size_t field, size_t required)
{
    fprintf(out, "    byte %zu: field %zu, %s: ", at, field + 1, field_names[field]);
    if (length - at < 4) {
        fputs("the record ends in its length\n", out);
        return 0;
    }
    const size_t says = big_endian(record + at, 4), more = length - at - 4;
    fprintf(out, "length %zu, required %zu", says, required);
    if (more < says)
        fprintf(out, "; the record has %zu more", more);
    fputs("\n", out);
    return more >= says && says == required;
}

/* 1 where the first field has a shape and a row length; then the lengths of the others are known */
static int put_front(FILE *out, const uint8_t *record, layout *l, size_t required[FIELDS])
{
    l->front = front_of(record);
    const shape s = l->front.shape;
    const size_t row = l->front.row_bits;
    const rachnoel_sizes n = rachnoel_lengths_of(NUMBERS(s), row / 8);
    const int row_fits = row % 8 == 0 && row >= 8 && row <= 65536;
    const int no_shape = rachnoel_lengths_of(NUMBERS(s), 0).leaves == 0 || (record[0] == 3 && s.kind != 1);
    fprintf(out, "        tau %zu, k %zu, w %zu, T %zu, level %zu, kind %zu%s\n", NUMBERS(s), no_shape ? ": no shape" : is_default(s) ? ": FAEST-128f, 16 7 8 110" : "");
    fprintf(out, "        rows of %zu bits%s\n", row, row_fits ? "" : ": no row length");
    required[CHALLENGE] = n.node;
    required[CORRECTIONS] = n.corrections;
    required[OPENING] = n.opening;
    required[COMMITMENT] = n.commitment;
    l->lengths = n;
    return !no_shape && row_fits;
}

static void put_fields(FILE *out, const uint8_t *record, size_t length, layout *l)
{
    size_t required[FIELDS] = {head_bytes(record[0]), RACHNOEL_IV, 0, 0, 0, 0}, at = 1;
    for (size_t i = 0; i < FIELDS; i++) {
        if (!put_field(out, record, length, at, i, required[i]))
            return;
        l->at[i] = at + 4;
        at = l->at[i] + required[i];
        if (i == SHAPE && !put_front(out, record, l, required))
            return;
        l->fields = i + 1;
    }
    if (length > at)
        fprintf(out, "    byte %zu: %s left over\n", at, length - at == 1 ? "a byte" : "bytes");
    else
        fprintf(out, "    byte %zu: the end\n", at);
}

static void put_layout(FILE *out, const uint8_t *record, size_t length, layout *l)
{
    if (length > RACHNOEL_RECORD_MOST)
        fprintf(out, "    more than %d bytes, which no record has\n", RACHNOEL_RECORD_MOST);
    else
        fprintf(out, "    %zu bytes\n", length);
    if (length == 0)
        return;
    const int known = head_bytes(record[0]) > 0;
    fprintf(out, "    byte 0: version %u%s\n", record[0], known ? "" : ", which is unknown");
    if (known)
        put_fields(out, record, length, l);
}

/* ---- the reason */

static void put_grinding(FILE *out, const uint8_t *record, const layout *l)
{
    const shape s = l->front.shape;
    const size_t first = s.level - grinding_bits(s);
    const uint8_t *const challenge = record + l->at[CHALLENGE];
    for (size_t bit = first; bit < s.level; bit++)
        if (challenge[bit / 8] >> bit % 8 & 1) {
            fprintf(out, "    grinding: bits %zu to %zu of the challenge must be 0, and bit %zu is 1: bit %zu of its byte %zu, byte %zu of the record\n", first, s.level - 1, bit,
                bit % 8, bit / 8, l->at[CHALLENGE] + bit / 8);
            return;
        }
}

/* the slots are the last T nodes of the opening, and the used ones come first */
static void put_slots(FILE *out, const uint8_t *record, const layout *l, const verdict *v)
{
    const size_t slots = l->at[OPENING] + l->lengths.opening - v->allowed * l->lengths.node;
    for (size_t at = slots + v->count * l->lengths.node; at < l->at[COMMITMENT] - 4; at++)
        if (record[at] != 0) {
            fprintf(out, "    slots: the opening uses %zu of %zu slots, and byte %zu of the record, in slot %zu, is %u, not 0\n", v->count, v->allowed, at,
                (at - slots) / l->lengths.node + 1, record[at]);
            return;
        }
}

static void put_hex(FILE *out, const char *what, const uint8_t *bytes, size_t n)
{
    fprintf(out, "    commitment %s: ", what);
    for (size_t i = 0; i < n; i++)
        fprintf(out, "%02x", bytes[i]);
    fputs("\n", out);
}

static void put_commitments(FILE *out, const uint8_t *record, const layout *l)
{
    const shape s = l->front.shape;
    const rachnoel_sizes *const n = &l->lengths;
    uint8_t made[RACHNOEL_COMMITMENT_MOST], count[RACHNOEL_COUNT];
    uint8_t *const tree = malloc(n->tree), *const lcs = malloc(n->leaf_commitments), *const q = malloc(n->matrix);
    const int room = tree != NULL && lcs != NULL && q != NULL;
    const int done = room
        && rachnoel_reconstruct(NUMBERS(s), l->front.row_bits, record + l->at[IV], RACHNOEL_IV, record + l->at[CHALLENGE], n->node, record + l->at[CORRECTIONS],
               n->corrections, record + l->at[OPENING], n->opening, made, n->commitment, tree, n->tree, lcs, n->leaf_commitments, q, n->matrix, count, sizeof count)
            == 0;
    free(tree), free(lcs), free(q);
    put_hex(out, "in the record", record + l->at[COMMITMENT], n->commitment);
    if (done)
        put_hex(out, "that the opening gives", made, n->commitment);
    else
        fputs("    commitment that the opening gives: not enough memory to say it\n", out);
}

/* the nearest set and each number that differs; four zeros mean FAEST-128f, which is then the nearest */
static void put_nearest(FILE *out, const front *f)
{
    const rachnoel_set *const near = nearest_set(is_default(f->shape) ? RACHNOEL_FAEST_128F.shape : f->shape, f->row_bits);
    size_t found[SET_NUMBERS], right[SET_NUMBERS];
    set_numbers(f->shape, f->row_bits, found);
    set_numbers(near->shape, near->row_bits, right);
    fprintf(out, "    not named: the nearest set is %s", near->name);
    for (size_t i = 0; i < SET_NUMBERS; i++)
        if (found[i] != right[i])
            fprintf(out, "; %s %zu, not %zu", number_names[i], found[i], right[i]);
    fputs("\n", out);
}

void explain(FILE *out, const uint8_t *record, size_t length, const verdict *v)
{
    layout l = {0};
    put_layout(out, record, length, &l);
    const int whole = l.fields == FIELDS;
    if (v->number == 0)
        fprintf(out, "    set: %s\n", v->set != NULL ? v->set->name : "no named set");
    else if (v->number == RACHNOEL_REFUSED_GRINDING && whole)
        put_grinding(out, record, &l);
    else if (v->number == RACHNOEL_REFUSED_NODES)
        fprintf(out, "    nodes: the challenge needs %zu nodes, and T is %zu\n", v->count, v->allowed);
    else if (v->number == RACHNOEL_REFUSED_SLOTS && whole)
        put_slots(out, record, &l, v);
    else if (v->number == RACHNOEL_REFUSED_MISMATCH && whole)
        put_commitments(out, record, &l);
    else if (v->number == RACHNOEL_REFUSED_NOT_NAMED && l.fields > 0)
        put_nearest(out, &l.front);
}
