/* The check of one record by the proved calls, and its line. */
#include "verdict.h"

#include "names.h"
#include "words.h"

#include <errno.h>
#include <stdlib.h>

size_t big_endian(const uint8_t *bytes, size_t n)
{
    size_t x = 0;
    for (size_t i = 0; i < n; i++)
        x = x << 8 | bytes[i];
    return x;
}

size_t head_bytes(size_t version)
{
    return version == 1 ? 9 : version == 2 ? 10 : version == 3 ? 11 : 0;
}

/* version 1 has level 128, versions 1 and 2 kind 0 */
front front_of(const uint8_t *record)
{
    const uint8_t *const head = record + 5;
    const size_t level = record[0] == 1 ? 128 : 8 * (size_t)head[9], kind = record[0] == 3 ? head[10] : 0;
    const front f = {{head[0], head[1], head[2], big_endian(head + 3, 2), level, kind}, big_endian(head + 5, 4)};
    return f;
}

int is_default(shape s)
{
    return s.tau == 0 && s.k == 0 && s.w == 0 && s.t == 0 && s.level == 128 && s.kind == 0;
}

int check_bytes(const uint8_t *record, size_t length, int any_shape, verdict *v)
{
    uint8_t lengths[RACHNOEL_WORK_LENGTHS_SLICE], count[RACHNOEL_COUNT] = {0};
    *v = (verdict){rachnoel_work_lengths(record, length, lengths, sizeof lengths), 0, 0, NULL};
    if (v->number != 0)
        return 0;
    const size_t tree_len = rachnoel_number(lengths), lcs_len = rachnoel_number(lengths + 4), q_len = rachnoel_number(lengths + 8);
    uint8_t *const tree = malloc(tree_len), *const lcs = malloc(lcs_len), *const q = malloc(q_len);
    const int room = tree != NULL && lcs != NULL && q != NULL;
    if (room)
        v->number = (any_shape ? rachnoel_check_record : rachnoel_check_named)(record, length, tree, tree_len, lcs, lcs_len, q, q_len, count, sizeof count);
    free(tree), free(lcs), free(q);
    if (!room)
        return ENOMEM;
    const front f = front_of(record);
    v->count = rachnoel_number(count);
    v->allowed = is_default(f.shape) ? 110 : f.shape.t;
    const rachnoel_set *const nearest = nearest_set(f.shape, f.row_bits);
    if (v->number == 0 && differing(f.shape, f.row_bits, nearest) == 0)
        v->set = nearest;
    return 0;
}

void put_verdict(FILE *out, const char *name, const verdict *v)
{
    put_name(out, name);
    fputs(": ", out);
    if (v->number == 0)
        fprintf(out, "accepted, %s, %zu of %zu nodes", v->set != NULL ? v->set->name : "no named set", v->count, v->allowed);
    else
        put_refusal(out, v->number);
    fputs("\n", out);
}

void put_json_verdict(FILE *out, const char *name, const verdict *v)
{
    fputs("{", out);
    put_json_name(out, name);
    if (v->number != 0) {
        const refusal r = refusal_of(v->number);
        fprintf(out, ",\"accepted\":false,\"number\":%zu,\"word\":\"%s\",\"reason\":\"%s\"}\n", v->number, r.word, r.sentence);
        return;
    }
    fputs(",\"accepted\":true,\"set\":", out);
    fprintf(out, v->set != NULL ? "\"%s\"" : "%s", v->set != NULL ? v->set->name : "null");
    fprintf(out, ",\"nodes\":%zu,\"allowed\":%zu}\n", v->count, v->allowed);
}
