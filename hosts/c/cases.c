/* Runs a file of cases, as crates/vectors and its like have in stdin, on the archives, and prints what the Rattle programs and reference/ print of it.
 * reference/README.md has the forms. A line that cannot be read is said, and ends the run with status 1. Usage: cases < FILE */
#define _POSIX_C_SOURCE 200809L
#include "shake.h"
#include "shape.h"

#include <rachnoel.h>
#include <stdio.h>
#include <stdlib.h>
#include <string.h>

enum { PATTERN = 0xa5, WORDS_MOST = 16, BYTES_MOST = 32, NO_PLACE = 9, ROW_MOST = 8192 };

/* ---- buffers */

typedef struct buffer {
    size_t length;
    uint8_t *bytes;
} buffer;

/* what follows is SLICE(b) for a pair of arguments */
#define SLICE(b) (b).bytes, (b).length

static buffer filled(size_t length, uint8_t content)
{
    const buffer b = {length, malloc(length + 1)};
    if (b.bytes == NULL)
        abort();
    memset(b.bytes, content, length + 1);
    return b;
}

static int is_kept(buffer b)
{
    for (size_t i = 0; i < b.length; i++)
        if (b.bytes[i] != PATTERN)
            return 0;
    return 1;
}

static void free_all(buffer *buffers, size_t n)
{
    for (size_t i = 0; i < n; i++)
        free(buffers[i].bytes);
}

static void print_hex(const uint8_t *bytes, size_t n)
{
    for (size_t i = 0; i < n; i++)
        printf("%02x", bytes[i]);
}

/* name, length, and the bytes, or the digest of more than 64 */
static void print_buffer(const char *name, buffer b)
{
    uint8_t digest[32];
    printf("%s %zu", name, b.length);
    if (b.length > 64) {
        shake128(b.bytes, b.length, digest, sizeof digest);
        printf(" shake128 ");
        print_hex(digest, sizeof digest);
    } else if (b.length > 0) {
        printf(" ");
        print_hex(b.bytes, b.length);
    }
    printf("\n");
}

/* ---- words of a line */

typedef struct words {
    size_t count, next;
    int ok;
    char *word[WORDS_MOST];
} words;

static words split(char *line)
{
    words w = {0, 0, 1, {NULL}};
    for (char *p = line; p != NULL; w.count++) {
        if (w.count == WORDS_MOST) {
            w.ok = 0;
            return w;
        }
        w.word[w.count] = p;
        p = strchr(p, ' ');
        if (p != NULL)
            *p++ = '\0';
    }
    return w;
}

static const char *next_word(words *w)
{
    if (w->next < w->count)
        return w->word[w->next++];
    w->ok = 0;
    return "";
}

static size_t next_number(words *w)
{
    const char *const word = next_word(w);
    size_t n = 0;
    w->ok &= word[0] != '\0';
    for (const char *p = word; *p != '\0'; p++) {
        const size_t d = (size_t)(*p - '0');
        if (*p < '0' || *p > '9' || n > SIZE_MAX / 10 || 10 * n > SIZE_MAX - d) {
            w->ok = 0;
            return 0;
        }
        n = 10 * n + d;
    }
    return n;
}

static buffer next_bytes(words *w)
{
    static const char digits[] = "0123456789abcdef";
    const char *const word = next_word(w);
    const size_t n = strlen(word);
    buffer b = filled(n / 2, 0);
    w->ok &= n > 0 && n % 2 == 0 && n <= 2 * BYTES_MOST && strspn(word, digits) == n;
    for (size_t i = 0; w->ok && i < n; i++)
        b.bytes[i / 2] = (uint8_t)(b.bytes[i / 2] << 4 | (strchr(digits, word[i]) - digits));
    return b;
}

static int ended(const words *w)
{
    return w->ok && w->next == w->count;
}

/* ---- a call: its version, shape, rows, and the exact lengths of what it is lent */

typedef struct call {
    size_t version;
    shape s;
    size_t row_bits, first, width;
    int whole;
    size_t node, commitment, tree, leaf_commitments, u, matrix, corrections, opening;
} call;

/* of a shape that is refused any lengths will do */
static call with_lengths(call c)
{
    const size_t b = c.width < ROW_MOST ? c.width : ROW_MOST;
    if (c.version == 1) {
        const rachnoel_sizes_v1 n = rachnoel_lengths_of_v1(NUMBERS(c.s), b);
        c.node = n.leaves > 0 ? n.node : 16;
        c.commitment = n.commitment, c.tree = n.trees, c.leaf_commitments = n.leaf_commitments, c.u = n.u;
        c.matrix = n.matrix, c.corrections = n.corrections, c.opening = n.opening;
        return c;
    }
    const rachnoel_sizes n = rachnoel_lengths_of(NUMBERS(c.s), b);
    c.node = n.leaves > 0 ? n.node : 16;
    c.commitment = n.commitment, c.tree = n.tree, c.leaf_commitments = n.leaf_commitments, c.u = n.u;
    c.matrix = n.matrix, c.corrections = n.corrections, c.opening = n.opening;
    return c;
}

/* VERSION TAU K W T LEVEL KIND, with which every case begins */
static call next_shape(words *w)
{
    call c = {.version = next_number(w), .whole = 1};
    c.s.tau = next_number(w), c.s.k = next_number(w), c.s.w = next_number(w);
    c.s.t = next_number(w), c.s.level = next_number(w), c.s.kind = next_number(w);
    return c;
}

/* ROWBITS, and FIRST WIDTH of a stretch */
static call next_rows(words *w, call c, int of_stretch)
{
    c.row_bits = next_number(w);
    c.whole = !of_stretch;
    c.first = of_stretch ? next_number(w) : 0;
    c.width = of_stretch ? next_number(w) : c.row_bits / 8;
    return with_lengths(c);
}

typedef struct answer {
    size_t number, count;
} answer;

static answer answer_of(size_t number, const uint8_t count[4])
{
    return (answer){number, rachnoel_number(count)};
}

static void print_answer(answer a)
{
    printf("number %zu\ncount %zu\n", a.number, a.count);
}

/* in: root, IV; out: commitment, tree, leaf commitments, u, v, corrections */
static answer call_commit(call c, const buffer in[2], buffer out[6])
{
    uint8_t n[4] = {0, 0, 0, 0};
    if (c.version == 1)
        return answer_of(rachnoel_v1_commit(NUMBERS(c.s), c.row_bits, SLICE(in[0]), SLICE(in[1]), SLICE(out[0]), SLICE(out[1]), SLICE(out[2]), SLICE(out[3]), SLICE(out[4]),
                             SLICE(out[5]), n, 4),
            n);
    if (c.whole)
        return answer_of(rachnoel_commit(NUMBERS(c.s), c.row_bits, SLICE(in[0]), SLICE(in[1]), SLICE(out[0]), SLICE(out[1]), SLICE(out[2]), SLICE(out[3]), SLICE(out[4]),
                             SLICE(out[5]), n, 4),
            n);
    return answer_of(rachnoel_commit_stretch(NUMBERS(c.s), c.row_bits, c.first, c.width, SLICE(in[0]), SLICE(in[1]), SLICE(out[0]), SLICE(out[1]), SLICE(out[2]),
                         SLICE(out[3]), SLICE(out[4]), SLICE(out[5]), n, 4),
        n);
}

/* in: challenge, tree, leaf commitments; out: the opening */
static answer call_open(call c, const buffer in[3], buffer out[1])
{
    uint8_t n[4] = {0, 0, 0, 0};
    if (c.version == 1)
        return answer_of(rachnoel_v1_open(NUMBERS(c.s), SLICE(in[0]), SLICE(in[1]), SLICE(in[2]), SLICE(out[0]), n, 4), n);
    return answer_of(rachnoel_open(NUMBERS(c.s), SLICE(in[0]), SLICE(in[1]), SLICE(in[2]), SLICE(out[0]), n, 4), n);
}

/* in: IV, challenge, corrections, opening; out: commitment, tree, leaf commitments, q */
static answer call_reconstruct(call c, const buffer in[4], buffer out[4])
{
    uint8_t n[4] = {0, 0, 0, 0};
    if (c.version == 1)
        return answer_of(rachnoel_v1_reconstruct(NUMBERS(c.s), c.row_bits, SLICE(in[0]), SLICE(in[1]), SLICE(in[2]), SLICE(in[3]), SLICE(out[0]), SLICE(out[1]),
                             SLICE(out[2]), SLICE(out[3]), n, 4),
            n);
    if (c.whole)
        return answer_of(rachnoel_reconstruct(NUMBERS(c.s), c.row_bits, SLICE(in[0]), SLICE(in[1]), SLICE(in[2]), SLICE(in[3]), SLICE(out[0]), SLICE(out[1]),
                             SLICE(out[2]), SLICE(out[3]), n, 4),
            n);
    return answer_of(rachnoel_reconstruct_stretch(NUMBERS(c.s), c.row_bits, c.first, c.width, SLICE(in[0]), SLICE(in[1]), SLICE(in[2]), SLICE(in[3]), SLICE(out[0]),
                         SLICE(out[1]), SLICE(out[2]), SLICE(out[3]), n, 4),
        n);
}

/* ---- commit, open and reconstruct, each made also behind one that is refused */

static void print_written(answer a, size_t n, const char *const names[], const buffer out[])
{
    print_answer(a);
    for (size_t i = 0; a.number == 0 && i < n; i++)
        print_buffer(names[i], out[i]);
}

static void run_calls(call c, const buffer given[3], size_t flip)
{
    const char *const tree = c.version == 1 ? "trees" : "tree";
    const char *const by_commit[] = {"commitment", tree, "leaf_commitments", "u", "v", "corrections"};
    const char *const by_open[] = {"opening"}, *const by_reconstruct[] = {"commitment", tree, "leaf_commitments", "q"};
    buffer made[] = {filled(c.commitment, PATTERN), filled(c.tree, PATTERN), filled(c.leaf_commitments, PATTERN), filled(c.u, PATTERN), filled(c.matrix, PATTERN),
        filled(c.corrections, PATTERN)};
    buffer opening[] = {filled(c.opening, PATTERN)};
    buffer again[] = {filled(c.commitment, PATTERN), filled(c.tree, PATTERN), filled(c.leaf_commitments, PATTERN), filled(c.matrix, PATTERN)};
    print_written(call_commit(c, given, made), 6, by_commit, made);
    const buffer to_open[] = {given[2], made[1], made[2]};
    print_written(call_open(c, to_open, opening), 1, by_open, opening);
    if (flip < c.opening)
        opening[0].bytes[flip] ^= 1;
    const buffer to_check[] = {given[1], given[2], made[5], opening[0]};
    print_written(call_reconstruct(c, to_check, again), 4, by_reconstruct, again);
    free_all(made, 6), free_all(opening, 1), free_all(again, 4);
}

static int calls_case(words *w, int of_stretch, int flipped)
{
    const call c = next_rows(w, next_shape(w), of_stretch);
    buffer given[3];
    for (size_t i = 0; i < 3; i++)
        given[i] = next_bytes(w);
    const size_t flip = flipped ? next_number(w) : SIZE_MAX;
    const int ok = ended(w) && (c.version == 2 || (c.version == 1 && !of_stretch));
    if (ok)
        run_calls(c, given, flip);
    free_all(given, 3);
    return ok;
}

/* ---- decode and plan */

/* how many numbers the list has */
static size_t list_count(call c, int decoded)
{
    const rachnoel_sizes n = rachnoel_lengths_of(NUMBERS(c.s), 0);
    return (decoded ? n.indices : n.nodes) / 4;
}

static answer call_list(call c, buffer challenge, buffer list, int decoded)
{
    uint8_t n[4] = {0, 0, 0, 0};
    return answer_of((decoded ? rachnoel_decode : rachnoel_plan)(NUMBERS(c.s), SLICE(challenge), SLICE(list), n, 4), n);
}

static int list_case(words *w, int decoded)
{
    const call c = next_shape(w);
    const buffer challenge = next_bytes(w);
    const int ok = ended(w) && c.version == 2;
    if (ok) {
        const buffer list = filled(4 * list_count(c, decoded), 0);
        const answer a = call_list(c, challenge, list, decoded);
        print_answer(a);
        if (a.number == 0) {
            const size_t n = decoded ? list.length / 4 : a.count;
            printf("%s %zu", decoded ? "indices" : "nodes", n);
            for (size_t i = 0; i < n; i++)
                printf(" %u", rachnoel_number(list.bytes + 4 * i));
            printf("\n");
        }
        free(list.bytes);
    }
    free(challenge.bytes);
    return ok;
}

/* ---- one call on buffers of which one may have a wrong length: zeros in what is read, the pattern in what is written */

typedef struct probe {
    size_t which, more, byte, set;
} probe;

/* BYTE where the call is lent a challenge, WHICH MORE, and SET where it is lent an opening */
static probe next_probe(words *w, int of_challenge, int of_opening)
{
    probe p = {.byte = of_challenge ? next_number(w) : 0};
    p.which = next_number(w);
    p.more = next_number(w);
    p.set = of_opening ? next_number(w) : SIZE_MAX;
    w->ok &= p.byte < 256;
    return p;
}

/* of a list the unit is a number of four bytes */
static buffer probed(size_t exact, size_t place, probe p, uint8_t content, size_t unit)
{
    if (place != p.which)
        return filled(exact, content);
    return filled(p.more != 0 ? exact + unit : exact >= unit ? exact - unit : 0, content);
}

static void print_kept(answer a, const buffer *out, size_t n)
{
    int kept = 1;
    for (size_t i = 0; i < n; i++)
        kept &= is_kept(out[i]);
    print_answer(a);
    printf("outputs %s\n", kept ? "kept" : "written");
}

static int probe_commit(words *w, int of_stretch)
{
    const call c = next_rows(w, next_shape(w), of_stretch);
    const probe p = next_probe(w, 0, 0);
    if (!ended(w) || !(c.version == 2 || (c.version == 1 && !of_stretch)))
        return 0;
    const size_t exact[] = {c.commitment, c.tree, c.leaf_commitments, c.u, c.matrix, c.corrections};
    buffer in[] = {probed(c.node, 0, p, 0, 1), probed(RACHNOEL_IV, 1, p, 0, 1)}, out[6];
    for (size_t i = 0; i < 6; i++)
        out[i] = probed(exact[i], i + 2, p, PATTERN, 1);
    print_kept(call_commit(c, in, out), out, 6);
    free_all(in, 2), free_all(out, 6);
    return 1;
}

static int probe_open(words *w)
{
    const call c = with_lengths(next_shape(w));
    const probe p = next_probe(w, 1, 0);
    if (!ended(w) || (c.version != 1 && c.version != 2))
        return 0;
    buffer in[] = {probed(c.node, 0, p, 0, 1), probed(c.tree, 1, p, 0, 1), probed(c.leaf_commitments, 2, p, 0, 1)};
    buffer out[] = {probed(c.opening, 3, p, PATTERN, 1)};
    in[0].bytes[0] = (uint8_t)p.byte;
    print_kept(call_open(c, in, out), out, 1);
    free_all(in, 3), free_all(out, 1);
    return 1;
}

static int probe_reconstruct(words *w, int of_stretch)
{
    const call c = next_rows(w, next_shape(w), of_stretch);
    const probe p = next_probe(w, 1, 1);
    if (!ended(w) || !(c.version == 2 || (c.version == 1 && !of_stretch)))
        return 0;
    const size_t lent[] = {RACHNOEL_IV, c.node, c.corrections, c.opening}, written[] = {c.commitment, c.tree, c.leaf_commitments, c.matrix};
    buffer in[4], out[4];
    for (size_t i = 0; i < 4; i++) {
        in[i] = probed(lent[i], i, p, 0, 1);
        out[i] = probed(written[i], i + 4, p, PATTERN, 1);
    }
    in[1].bytes[0] = (uint8_t)p.byte;
    if (p.set < in[3].length)
        in[3].bytes[p.set] = 1;
    print_kept(call_reconstruct(c, in, out), out, 4);
    free_all(in, 4), free_all(out, 4);
    return 1;
}

static int probe_list(words *w, int decoded)
{
    const call c = with_lengths(next_shape(w));
    const probe p = next_probe(w, 1, 0);
    if (!ended(w) || c.version != 2)
        return 0;
    buffer in[] = {probed(c.node, 0, p, 0, 1)}, out[] = {probed(4 * list_count(c, decoded), 1, p, PATTERN, 4)};
    in[0].bytes[0] = (uint8_t)p.byte;
    print_kept(call_list(c, in[0], out[0], decoded), out, 1);
    free_all(in, 1), free_all(out, 1);
    return 1;
}

/* ---- records */

enum { WHOLE, NAMED, PREFIXES, FLIPS, PAIRS, EDITS = 12 };

typedef struct work {
    size_t tree, leaf_commitments, q;
} work;

static work work_of(buffer record)
{
    uint8_t n[RACHNOEL_WORK_LENGTHS_SLICE] = {0};
    if (rachnoel_work_lengths(SLICE(record), n, sizeof n) != 0)
        return (work){0, 0, 0};
    return (work){rachnoel_number(n), rachnoel_number(n + 4), rachnoel_number(n + 8)};
}

static answer check(buffer record, int named, buffer out[3])
{
    uint8_t n[4] = {0, 0, 0, 0};
    return answer_of((named ? rachnoel_check_named : rachnoel_check_record)(SLICE(record), SLICE(out[0]), SLICE(out[1]), SLICE(out[2]), n, 4), n);
}

static void print_check(buffer record, int named)
{
    const char *const names[] = {"tree", "leaf_commitments", "q"};
    const work l = work_of(record);
    buffer out[] = {filled(l.tree, PATTERN), filled(l.leaf_commitments, PATTERN), filled(l.q, PATTERN)};
    const answer a = check(record, named, out);
    print_answer(a);
    if (!named && a.number == 0)
        print_buffer("record", record);
    for (size_t i = 0; !named && a.number == 0 && i < 3; i++)
        print_buffer(names[i], out[i]);
    free_all(out, 3);
}

/* number, slash, count, and a plus where a byte of a work buffer was written, otherwise a minus */
static void verdict(buffer record, work l)
{
    buffer out[] = {filled(l.tree, PATTERN), filled(l.leaf_commitments, PATTERN), filled(l.q, PATTERN)};
    const answer a = check(record, 0, out);
    printf(" %zu/%zu%c", a.number, a.count, is_kept(out[0]) && is_kept(out[1]) && is_kept(out[2]) ? '-' : '+');
    free_all(out, 3);
}

static void prefixes(buffer record, work l)
{
    for (size_t i = 0; i < record.length; i++) {
        printf("prefix %zu", i);
        verdict((buffer){i, record.bytes}, l);
        printf("\n");
    }
}

static void flips(buffer record, work l)
{
    for (size_t i = 0; i < record.length; i++) {
        printf("byte %zu", i);
        for (unsigned bit = 0; bit < 8; bit++) {
            record.bytes[i] ^= (uint8_t)(1u << bit);
            verdict(record, l);
            record.bytes[i] ^= (uint8_t)(1u << bit);
        }
        printf("\n");
    }
}

/* of the record, behind which there is room for a byte, or of what is lent; by places of the record as it was */
static void edit(size_t number, call c, const uint8_t *was, size_t length, buffer *record, work *l)
{
    const size_t head = 5 + (size_t)was[4], commitment = length - c.commitment;
    const size_t at[EDITS] = {0, 4, 5, 13, head + 3, 0, 0, 0, 0, head + 4 + RACHNOEL_IV + 4 + c.node - 1, commitment - 5, commitment};
    const uint8_t with[EDITS] = {4, 1, 0x20, 4, 1, 0, 0, 0, 0, 0x80, 1, 1};
    record->bytes[at[number]] ^= with[number];
    record->length += number == 5;
    l->tree -= number == 6;
    l->leaf_commitments += number == 7;
    l->q -= number == 8;
}

static void pairs(call c, buffer record, work l)
{
    for (size_t first = 0; first < EDITS; first++) {
        printf("edit %zu", first);
        for (size_t second = first; second < EDITS; second++) {
            buffer changed = filled(record.length, 0);
            work lent = l;
            memcpy(changed.bytes, record.bytes, record.length);
            edit(first, c, record.bytes, record.length, &changed, &lent);
            if (second != first)
                edit(second, c, record.bytes, record.length, &changed, &lent);
            verdict(changed, lent);
            free(changed.bytes);
        }
        printf("\n");
    }
}

/* the same contents as version 1 has them: a first field of nine bytes, without the level */
static buffer to_version_1(buffer record)
{
    record.bytes[0] = 1;
    record.bytes[4] = 9;
    memmove(record.bytes + 14, record.bytes + 15, record.length - 15);
    record.length--;
    return record;
}

/* commit, open and write_record; the answer of the first that is refused. Where open is refused the record has zeros for an opening */
static answer make_record(call c, const buffer given[3], buffer *record)
{
    uint8_t n[4] = {0, 0, 0, 0};
    buffer made[] = {filled(c.commitment, 0), filled(c.tree, 0), filled(c.leaf_commitments, 0), filled(c.u, 0), filled(c.matrix, 0), filled(c.corrections, 0)};
    buffer opening[] = {filled(c.opening, 0)};
    answer a = call_commit(c, given, made);
    *record = filled(rachnoel_record_length(NUMBERS(c.s), c.row_bits, n, 4) == 0 ? rachnoel_number(n) : 0, PATTERN);
    if (a.number == 0) {
        const buffer to_open[] = {given[2], made[1], made[2]};
        a = call_open(c, to_open, opening);
        const size_t wrote = rachnoel_write_record(NUMBERS(c.s), c.row_bits, SLICE(given[1]), SLICE(given[2]), SLICE(made[5]), SLICE(opening[0]), SLICE(made[0]), SLICE(*record));
        if (a.number == 0)
            a = (answer){wrote, 0};
    }
    free_all(made, 6), free_all(opening, 1);
    return a;
}

static void run_record(call c, const buffer given[3], int form)
{
    buffer record;
    const size_t version = c.version;
    c.version = 2;
    const answer a = make_record(c, given, &record);
    if (version == 1 && record.length > 15)
        record = to_version_1(record);
    const work l = work_of(record);
    if (a.number != 0 && (form == WHOLE || form == NAMED || a.number != 5))
        print_answer(a);
    else if (form == WHOLE || form == NAMED)
        print_check(record, form == NAMED);
    else if (form == PREFIXES)
        prefixes(record, l);
    else if (form == FLIPS)
        flips(record, l);
    else
        pairs(c, record, l);
    free(record.bytes);
}

/* the version is that of the record: 1, which there is at level 128 with ordinary leaves alone, or that in which the shape is written */
static int record_case(words *w, int form)
{
    call c = next_shape(w);
    const size_t version = c.version;
    c.version = 2;
    c = next_rows(w, c, 0);
    c.version = version;
    buffer given[3];
    for (size_t i = 0; i < 3; i++)
        given[i] = next_bytes(w);
    const int first = version == 1 && c.s.level == 128 && c.s.kind == 0;
    const int ok = ended(w) && (first || version == (c.s.kind == 1 ? 3 : 2));
    if (ok)
        run_record(c, given, form);
    free_all(given, 3);
    return ok;
}

/* ---- the file */

static int run_line(words *w)
{
    static const struct {
        const char *name;
        int (*run)(words *, int);
        int of;
    } forms[] = {{"decode", list_case, 1}, {"plan", list_case, 0}, {"record", record_case, WHOLE}, {"named", record_case, NAMED}, {"prefixes", record_case, PREFIXES},
        {"flips", record_case, FLIPS}, {"pairs", record_case, PAIRS}, {"probe_commit", probe_commit, 0}, {"probe_commit_stretch", probe_commit, 1},
        {"probe_reconstruct", probe_reconstruct, 0}, {"probe_reconstruct_stretch", probe_reconstruct, 1}, {"probe_decode", probe_list, 1}, {"probe_plan", probe_list, 0}};
    const char *const name = next_word(w);
    if (strcmp(name, "calls") == 0 || strcmp(name, "flipped") == 0)
        return calls_case(w, 0, strcmp(name, "flipped") == 0);
    if (strcmp(name, "stretch") == 0)
        return calls_case(w, 1, 0);
    if (strcmp(name, "probe_open") == 0)
        return probe_open(w);
    for (size_t i = 0; i < sizeof forms / sizeof forms[0]; i++)
        if (strcmp(name, forms[i].name) == 0)
            return forms[i].run(w, forms[i].of);
    return 0;
}

int main(void)
{
    char *line = NULL;
    size_t room = 0, place = 0;
    ssize_t n;
    int ok = 1;
    while (ok && (n = getline(&line, &room, stdin)) >= 0) {
        place++;
        if (n > 0 && line[n - 1] == '\n')
            line[--n] = '\0';
        if (n == 0 || line[0] == '#')
            continue;
        const int whole = memchr(line, '\0', (size_t)n) == NULL;
        words w = split(line);
        ok = whole && w.ok && run_line(&w);
        if (!ok)
            printf("line %zu cannot be read\n", place);
    }
    free(line);
    return fflush(stdout) == 0 && ok ? 0 : 1;
}
