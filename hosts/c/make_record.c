/* make_record: a signing record to try things with. docs/TOOLS.md has its page. It is for those who sign: it holds both what makes a commitment and the
   writer. */
#include <rachnoel.h>

#include "names.h"
#include "sets.h"
#include "tool.h"
#include "words.h"

enum { DONE, REFUSED, TROUBLE }; /* exit statuses */

static const char usage[] =
    "usage: make_record SET [ROWBITS [ROOT IV [CHALLENGE]]] > FILE\n"
    "       make_record -h | --help | --version\n";

static const char help[] =
    "Commits to the tree of a root, opens it for a challenge, and writes the signing record to standard output.\n"
    "\n"
    "SET        128s, 128f, 192s, 192f, 256s, 256f, the same with em- before it, or the name that check_record prints (FAEST-EM-128s);\n"
    "           zeros (four zeros in the record, which stand for 128f);\n"
    "           TAU,K,W,T,LEVEL,KIND, or without KIND (then 0) and LEVEL (then 128)\n"
    "ROWBITS    the row length; where it is not given, that of the named set, and 1680 of another\n"
    "ROOT, IV   hexadecimal digits, byte 0 first: level / 8 bytes of a root, 16 of an IV; 00 01 .. and 10 11 .. 1f where they are not given\n"
    "CHALLENGE  level / 8 bytes; where it is not given, the first of a fixed list of challenges that the set allows\n"
    "\n"
    "A root on a command line is no secret: this is for tests.\n"
    "Exit status: 0 the record is written, 1 a call refused (which is said on standard error), 2 wrong usage, or no output.\n";

/* ---- arguments */

static int wrong(const char *why, const char *what)
{
    fprintf(stderr, "make_record: %s", why);
    put_name(stderr, what);
    fprintf(stderr, "\n%s", usage);
    return TROUBLE;
}

/* four to six numbers with commas between them */
static int to_numbers(const char *text, shape *s)
{
    s->level = 128;
    s->kind = 0;
    size_t *const numbers[] = {&s->tau, &s->k, &s->w, &s->t, &s->level, &s->kind};
    char copy[64], *part = copy;
    if (strlen(text) >= sizeof copy)
        return 0;
    strcpy(copy, text);
    for (size_t i = 0; i < 6; i++) {
        char *const comma = strchr(part, ',');
        if (comma != NULL)
            *comma = '\0';
        if (!to_number(part, numbers[i]))
            return 0;
        if (comma == NULL)
            return i >= 3;
        part = comma + 1;
    }
    return 0;
}

static int to_shape(const char *text, shape *s, size_t *row_bits)
{
    const rachnoel_set *const set = set_named(text);
    if (set != NULL) {
        *s = set->shape;
        *row_bits = set->row_bits;
        return 1;
    }
    if (strcmp(text, "zeros") == 0) {
        *s = RACHNOEL_DEFAULT.shape;
        return 1;
    }
    return to_numbers(text, s);
}

static int digit(char c)
{
    return c >= '0' && c <= '9' ? c - '0' : c >= 'a' && c <= 'f' ? c - 'a' + 10 : c >= 'A' && c <= 'F' ? c - 'A' + 10 : -1;
}

/* n bytes; of a number of digits that is not 2 n none is taken */
static int to_bytes(const char *text, uint8_t *bytes, size_t n)
{
    if (strlen(text) != 2 * n)
        return 0;
    for (size_t i = 0; i < n; i++) {
        const int high = digit(text[2 * i]), low = digit(text[2 * i + 1]);
        if (high < 0 || low < 0)
            return 0;
        bytes[i] = (uint8_t)(16 * high + low);
    }
    return 1;
}

/* ---- challenges, where none is given: bytes of a fixed generator (SplitMix64), the last w bits cleared */

static void next_challenge(uint64_t *state, shape s, uint8_t *challenge)
{
    for (size_t i = 0; i < s.level / 8; i++)
        challenge[i] = (uint8_t)splitmix(state);
    for (size_t bit = s.level - grinding_bits(s); bit < s.level; bit++)
        challenge[bit / 8] &= (uint8_t)~(1u << bit % 8);
}

/* ---- the record */

static int refused(size_t number)
{
    fputs("make_record: ", stderr);
    put_refusal(stderr, number);
    fputs("\n", stderr);
    return REFUSED;
}

/* what the calls write */
typedef struct buffers {
    uint8_t *tree, *lcs, *u, *v, *corrections, *opening, *record;
    uint8_t commitment[RACHNOEL_COMMITMENT_MOST];
} buffers;

/* opens for the challenge, or for the first of the fixed list that needs at most T nodes; gives the number */
static size_t open_for(shape s, const rachnoel_sizes *n, buffers *b, uint8_t *challenge, int drawn)
{
    uint8_t count[RACHNOEL_COUNT];
    uint64_t state = 1;
    for (int tries = 0;; tries++) {
        if (drawn)
            next_challenge(&state, s, challenge);
        const size_t number = rachnoel_open(NUMBERS(s), challenge, n->node, b->tree, n->tree, b->lcs, n->leaf_commitments, b->opening, n->opening, count, sizeof count);
        if (number != RACHNOEL_REFUSED_NODES || !drawn || tries == 100000)
            return number;
    }
}

/* commits, opens and writes the record; gives the number */
static size_t fill(shape s, size_t row_bits, const uint8_t *root, const uint8_t *iv, uint8_t *challenge, int drawn, buffers *b, size_t bytes)
{
    const rachnoel_sizes n = rachnoel_lengths_of(NUMBERS(s), row_bits / 8);
    uint8_t count[RACHNOEL_COUNT];
    size_t number = rachnoel_commit(NUMBERS(s), row_bits, root, n.node, iv, RACHNOEL_IV, b->commitment, n.commitment, b->tree, n.tree, b->lcs, n.leaf_commitments, b->u, n.u,
        b->v, n.matrix, b->corrections, n.corrections, count, sizeof count);
    if (number == 0)
        number = open_for(s, &n, b, challenge, drawn);
    if (number == 0)
        number = rachnoel_write_record(NUMBERS(s), row_bits, iv, RACHNOEL_IV, challenge, n.node, b->corrections, n.corrections, b->opening, n.opening, b->commitment,
            n.commitment, b->record, bytes);
    return number;
}

static int make(shape s, size_t row_bits, const uint8_t *root, const uint8_t *iv, uint8_t *challenge, int drawn)
{
    uint8_t length[RACHNOEL_LENGTH_SLICE];
    size_t number = rachnoel_record_length(NUMBERS(s), row_bits, length, sizeof length);
    if (number != 0)
        return refused(number);
    const rachnoel_sizes n = rachnoel_lengths_of(NUMBERS(s), row_bits / 8);
    const size_t bytes = rachnoel_number(length);
    /* + 1: malloc(0) may be NULL */
    buffers b = {malloc(n.tree), malloc(n.leaf_commitments), malloc(n.u), malloc(n.matrix), malloc(n.corrections + 1), malloc(n.opening), malloc(bytes), {0}};
    int status = TROUBLE;
    if (b.tree == NULL || b.lcs == NULL || b.u == NULL || b.v == NULL || b.corrections == NULL || b.opening == NULL || b.record == NULL)
        fprintf(stderr, "make_record: %s\n", strerror(ENOMEM));
    else if ((number = fill(s, row_bits, root, iv, challenge, drawn, &b, bytes)) != 0)
        status = refused(number);
    else {
        fwrite(b.record, 1, bytes, stdout);
        status = output_written("make_record") ? DONE : TROUBLE;
    }
    free(b.tree), free(b.lcs), free(b.u), free(b.v), free(b.corrections), free(b.opening), free(b.record);
    return status;
}

int main(int argc, char **argv)
{
    shape s;
    size_t row_bits = 1680;
    uint8_t root[RACHNOEL_NODE_MOST], iv[RACHNOEL_IV], challenge[RACHNOEL_NODE_MOST] = {0};
    const int status = asked("make_record", argc, argv, usage, help);
    if (status >= 0)
        return status;
    for (size_t i = 0; i < sizeof root; i++)
        root[i] = (uint8_t)i;
    for (size_t i = 0; i < sizeof iv; i++)
        iv[i] = (uint8_t)(16 + i);
    if (argc < 2 || argc == 4 || argc > 6)
        return wrong("one, two, four or five arguments", "");
    if (!to_shape(argv[1], &s, &row_bits))
        return wrong("no set or shape: ", argv[1]);
    if (argc > 2 && !to_number(argv[2], &row_bits))
        return wrong("no row length: ", argv[2]);
    /* of a level that is none any length will do: the first call refuses the shape */
    const size_t node = s.level == 192 ? 24 : s.level == 256 ? 32 : 16;
    if (argc > 4 && (!to_bytes(argv[3], root, node) || !to_bytes(argv[4], iv, sizeof iv)))
        return wrong("the root has level / 8 bytes and the IV 16, each two hexadecimal digits", "");
    if (argc > 5 && !to_bytes(argv[5], challenge, node))
        return wrong("the challenge has level / 8 bytes, each two hexadecimal digits", "");
    return make(s, row_bits, root, iv, challenge, argc <= 5);
}
