/* Records that are changed at random, from a fixed seed, and checked: each buffer lies between forbidden pages, the record may not be written, and the
 * buffers hold a fill.
 *   fuzz_records SEED COUNT STREAM
 * prints a line for each check, one in three for named sets alone: number, count slice and a digest of the work buffers. What was checked goes to STREAM, for
 * `reference checks`, which must print the same. */
#define _DEFAULT_SOURCE
#include <rachnoel.h>

#include "changes.h"
#include "guarded.h"

/* a length: the right one, or now and then another */
static size_t near(size_t right)
{
    switch (below(90)) {
    case 0: return right + 1 + below(8);
    case 1: return right - 1;
    case 2: return 0;
    default: return right;
    }
}

/* ---- a check */

static uint64_t digest(uint64_t h, const uint8_t *p, size_t n)
{
    for (size_t i = 0; i < n; i++)
        h = (h ^ p[i]) * 0x100000001b3; /* FNV-1a */
    return h;
}

static void check(const uint8_t *bytes, size_t length, const size_t sizes[4], int fill, FILE *stream)
{
    const int end = (int)below(2), named = below(3) == 0;
    uint8_t head[22];
    head[0] = (uint8_t)named;
    head[1] = (uint8_t)fill;
    for (size_t i = 0; i < 4; i++)
        put_number(head + 2 + 4 * i, sizes[i]);
    put_number(head + 18, length);
    if (fwrite(head, 1, sizeof head, stream) != sizeof head || fwrite(bytes, 1, length, stream) != length) {
        perror("the stream");
        exit(1);
    }
    const struct guarded record = guard(length, end, 0);
    memcpy(record.at, bytes, length);
    shut(record);
    struct guarded work[4];
    for (size_t i = 0; i < 4; i++)
        work[i] = guard(sizes[i], end, fill);
    const size_t number = (named ? rachnoel_check_named : rachnoel_check_record)(record.at, length, work[0].at, sizes[0], work[1].at, sizes[1], work[2].at, sizes[2], work[3].at, sizes[3]);
    uint64_t h = 0xcbf29ce484222325;
    for (size_t i = 0; i < 3; i++)
        h = digest(h, work[i].at, sizes[i]);
    printf("%zu ", number);
    for (size_t i = 0; i < sizes[3]; i++)
        printf("%02x", work[3].at[i]);
    printf(" %016llx\n", (unsigned long long)h);
    munmap(record.map, record.size);
    for (size_t i = 0; i < 4; i++)
        munmap(work[i].map, work[i].size);
}

int main(int argc, char **argv)
{
    if (argc != 4) {
        fprintf(stderr, "usage: fuzz_records SEED COUNT STREAM\n");
        return 2;
    }
    state = strtoull(argv[1], NULL, 0);
    const unsigned long checks = strtoul(argv[2], NULL, 0);
    FILE *const stream = fopen(argv[3], "wb");
    if (stream == NULL) {
        perror(argv[3]);
        return 2;
    }
    for (size_t i = 0; i < BASES; i++)
        make_base(&bases[i]);
    for (unsigned long i = 0; i < checks; i++) {
        const struct base *const base = &bases[below(BASES)];
        uint8_t bytes[MOST + 16], lengths[RACHNOEL_WORK_LENGTHS_SLICE];
        size_t length = base->length;
        memcpy(bytes, base->bytes, length);
        for (size_t n = below(4); n > 0; n--)
            length = change(base, bytes, length);
        if (rachnoel_work_lengths(bytes, length, lengths, sizeof lengths) != 0)
            must(rachnoel_work_lengths(base->bytes, base->length, lengths, sizeof lengths), "work_lengths");
        const size_t sizes[4] = {near(rachnoel_number(lengths)), near(rachnoel_number(lengths + 4)), near(rachnoel_number(lengths + 8)), near(RACHNOEL_COUNT)};
        check(bytes, length, sizes, (int)below(256), stream);
    }
    return fclose(stream) == 0 && fflush(stdout) == 0 ? 0 : 2;
}
