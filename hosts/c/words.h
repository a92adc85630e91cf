/* The refusals as every tool says them: number, word, and a sentence for a person. docs/TOOLS.md has the same table. */
#ifndef WORDS_H
#define WORDS_H

#include <rachnoel.h>

#include <stdio.h>

typedef struct refusal {
    size_t number;
    const char *word, *sentence;
} refusal;

static const refusal refusals[] = {
    {RACHNOEL_REFUSED_SHAPE, "shape", "its numbers are not allowed together"},
    {RACHNOEL_REFUSED_ROW, "row length", "its row length is not a multiple of 8 from 8 to 65,536"},
    {RACHNOEL_REFUSED_BUFFER, "buffer", "a buffer has the wrong length, which is a fault of this program"},
    {RACHNOEL_REFUSED_GRINDING, "grinding", "the challenge has a 1 among its last bits, which must be 0"},
    {RACHNOEL_REFUSED_NODES, "nodes", "the challenge needs more nodes than T allows"},
    {RACHNOEL_REFUSED_SLOTS, "slots", "unused places of the opening are not all 0"},
    {RACHNOEL_REFUSED_VERSION, "version", "this is no signing record"},
    {RACHNOEL_REFUSED_FIELD, "field", "it is cut short, too long or damaged: a field has the wrong length"},
    {RACHNOEL_REFUSED_MISMATCH, "commitment", "the opening does not belong to the commitment"},
    {RACHNOEL_REFUSED_NOT_NAMED, "not named", "its numbers are those of no named set of FAEST version 2"},
};

static inline refusal refusal_of(size_t number)
{
    for (size_t i = 0; i < sizeof refusals / sizeof refusals[0]; i++)
        if (refusals[i].number == number)
            return refusals[i];
    return (refusal){number, "unknown", "this program does not know the number"};
}

static inline void put_refusal(FILE *out, size_t number)
{
    const refusal r = refusal_of(number);
    fprintf(out, "refused %zu %s: %s", number, r.word, r.sentence);
}

#endif
