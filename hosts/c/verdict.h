/* The check of one record, and what is said of it. check_record prints it, fuzz_verdicts tries it on changed records. */
#ifndef VERDICT_H
#define VERDICT_H

#include <rachnoel.h>

#include "sets.h"

#include <stdio.h>

typedef struct verdict {
    size_t number;         /* 0 where the record is accepted */
    size_t count, allowed; /* nodes that the challenge needs, with 0, 5, 6 and 11; T as the record means it */
    const rachnoel_set *set;  /* of an accepted record, NULL where it is no named set's */
} verdict;

/* The first field of a record, whose version and length fit. */
typedef struct front {
    shape shape; /* as it is written: zeros stay zeros */
    size_t row_bits;
} front;

size_t head_bytes(size_t version); /* of the first field; 0 where the version is unknown */
front front_of(const uint8_t *record);
int is_default(shape s);
size_t big_endian(const uint8_t *bytes, size_t n);

/* The proved calls on a record: for named sets alone, or for any shape. 0, or ENOMEM. */
int check_bytes(const uint8_t *record, size_t length, int any_shape, verdict *v);

/* One line, as text or as a JSON object. */
void put_verdict(FILE *out, const char *name, const verdict *v);
void put_json_verdict(FILE *out, const char *name, const verdict *v);

/* What stands where, and the reason of the verdict. */
void explain(FILE *out, const uint8_t *record, size_t length, const verdict *v);

#endif
