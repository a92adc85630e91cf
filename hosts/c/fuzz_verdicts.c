/* What check_record says of records that are changed at random, from a fixed seed, under names of random bytes: the C that reads them, --explain and --json.
 *   fuzz_verdicts SEED COUNT
 * prints the JSON line of each, for json_lines.py, and ends with status 1 where a line is not as it must be. Each record lies in a block of its own length:
 * the sanitizers see a read behind it. */
#define _POSIX_C_SOURCE 200809L
#include "changes.h"
#include "names.h"
#include "verdict.h"

enum { NAME_MOST = 255 };

/* a name without zero bytes: letters, any bytes, or parts that a terminal or JSON would take for something else */
static void random_name(char name[NAME_MOST + 1])
{
    static const char *const parts[] = {"\n", "\r", "\033[2J", "\"", "\\", "\\x1b", ": accepted, FAEST-128s, 101 of 102 nodes\n", "\xc2\x85", "\xe2\x80\xae", "\xe2\x81\xa6", "\xc3\xa9",
        "\xf0\x9f\x98\x80", "\xed\xa0\x80", "\xc0\x80", "\xf4\x90\x80\x80", "\xe2\x80", "\x7f", "\t", "{", "\xef\xbb\xbf"};
    size_t n = 0;
    const size_t most = below(4) == 0 ? NAME_MOST : 1 + below(20);
    while (n < most) {
        const char *const part = parts[below(sizeof parts / sizeof parts[0])];
        if (below(3) == 0 && n + strlen(part) <= most) {
            memcpy(name + n, part, strlen(part));
            n += strlen(part);
        } else
            name[n++] = (char)(below(2) ? 'a' + (int)below(26) : 1 + (int)below(255));
    }
    name[n] = '\0';
}

static void fail(const char *what, const char *text)
{
    fprintf(stderr, "fuzz_verdicts: %s:\n%s", what, text);
    exit(1);
}

/* every character may be printed, and each line but the first is indented */
static void test_lines(const char *text)
{
    const unsigned char *p = (const unsigned char *)text;
    while (*p != '\0') {
        uint32_t character;
        const size_t n = utf8(p, &character);
        if (n == 0 || (is_control(character) && character != '\n'))
            fail("a byte that must not be printed", text);
        if (*p == '\n' && p[1] != '\0' && strncmp((const char *)p + 1, "    ", 4) != 0)
            fail("a line that is not indented", text);
        p += n;
    }
    if (p == (const unsigned char *)text || p[-1] != '\n')
        fail("no line feed at the end", text);
}

/* the reason is there */
static void test_reason(const char *text, size_t number)
{
    static const struct {
        size_t number;
        const char *words;
    } reasons[] = {{0, "\n    set: "}, {RACHNOEL_REFUSED_GRINDING, "\n    grinding: bits "}, {RACHNOEL_REFUSED_NODES, "\n    nodes: the challenge needs "},
        {RACHNOEL_REFUSED_SLOTS, "\n    slots: the opening uses "}, {RACHNOEL_REFUSED_MISMATCH, "\n    commitment that the opening gives: "}, {RACHNOEL_REFUSED_NOT_NAMED, "\n    not named: the nearest set is "}};
    for (size_t i = 0; i < sizeof reasons / sizeof reasons[0]; i++)
        if (reasons[i].number == number && strstr(text, reasons[i].words) == NULL)
            fail("no reason", text);
}

static void try_one(const uint8_t *bytes, size_t length)
{
    char name[NAME_MOST + 1], *text = NULL;
    size_t size = 0;
    verdict v;
    uint8_t *const record = malloc(length > 0 ? length : 1);
    FILE *const out = open_memstream(&text, &size);
    if (record == NULL || out == NULL)
        fail("no memory", "\n");
    memcpy(record, bytes, length);
    random_name(name);
    if (check_bytes(record, length, (int)below(3) > 0, &v) != 0)
        fail("no memory", "\n");
    put_verdict(out, name, &v);
    explain(out, record, length, &v);
    if (fclose(out) != 0)
        fail("no memory", "\n");
    test_lines(text);
    test_reason(text, v.number);
    put_json_verdict(stdout, name, &v);
    free(record), free(text);
}

int main(int argc, char **argv)
{
    if (argc != 3) {
        fprintf(stderr, "usage: fuzz_verdicts SEED COUNT\n");
        return 2;
    }
    state = strtoull(argv[1], NULL, 0);
    for (size_t i = 0; i < BASES; i++)
        make_base(&bases[i]);
    for (unsigned long i = strtoul(argv[2], NULL, 0); i > 0; i--) {
        const struct base *const base = &bases[below(BASES)];
        uint8_t bytes[MOST + 16];
        size_t length = base->length;
        memcpy(bytes, base->bytes, length);
        for (size_t n = below(4); n > 0; n--)
            length = change(base, bytes, length);
        try_one(bytes, length);
    }
    return fflush(stdout) == 0 && !ferror(stdout) ? 0 : 2;
}
