/* choose_t: how many challenges of a shape need at most T nodes. docs/TOOLS.md has its page. Each count is that of the proved call plan; nothing here is
   secret. */
#include <rachnoel.h>

#include "counts.h"
#include "names.h"
#include "sets.h"
#include "tool.h"
#include "words.h"

enum { DONE, REFUSED, TROUBLE }; /* exit statuses */
enum { ASKED_MOST = 16, OPEN_BITS = 16, DRAWS = 200000 };

static const char usage[] =
    "usage: choose_t SET|TAU,K,W[,LEVEL[,KIND]] [--t T]... [--draws N] [--seed N] [--all] [--svg FILE]\n"
    "       choose_t -h | --help | --version\n";

static const char help[] =
    "For one who has to choose T: how many nodes the openings of a shape need. Challenges with clear grinding bits\n"
    "are drawn from a seed, and each is planned by the proved call.\n"
    "\n"
    "SET          128s, 128f, 192s, 192f, 256s, 256f, the same with em- before it, or FAEST-128s and so on\n"
    "TAU,K,W      another shape; LEVEL is 128, 192 or 256 (128 where it is not given), KIND 0 or 1, Even-Mansour (then 0)\n"
    "--t T        a line for this T too, at most 16 of them\n"
    "--draws N    how many challenges are drawn: 200000 where it is not given, at most 1000000000\n"
    "--seed N     the seed of the draws: 1 where it is not given\n"
    "--all        a line for each T from the least to the most nodes seen\n"
    "--svg FILE   a picture of the counts, with the first --t marked, or the set's T, or the T of 50 %\n"
    "\n"
    "Lines: the set's T, each --t, and the least T that 50, 90 and 99 % of the challenges keep. For each: how many\n"
    "challenges need at most T nodes, their share with its 95 % interval, how many challenges with clear grinding\n"
    "bits are drawn on average until one fits, the same times 2^w (challenges of any kind), and the bytes of an opening.\n"
    "At level 128 and kind 0 with at most 16 bits that are no grinding bits every challenge is counted, which is\n"
    "then exact; with --draws it draws there too.\n"
    "Exit status: 0 done, 1 no shape, 2 wrong usage, or what is asked for cannot be written.\n";

typedef struct plan {
    shape shape; /* T is the one to be marked, 0 where none is given */
    const rachnoel_set *set;
    size_t asked[ASKED_MOST], many, draws, seed;
    int all;
    const char *svg;
} plan;

/* ---- arguments */

static int wrong(const char *why, const char *what)
{
    fprintf(stderr, "choose_t: %s", why);
    put_name(stderr, what);
    fprintf(stderr, "\n%s", usage);
    return TROUBLE;
}

static int to_shape(const char *text, plan *p)
{
    shape *const s = &p->shape;
    size_t *const numbers[] = {&s->tau, &s->k, &s->w, &s->level, &s->kind};
    char copy[64], *part = copy;
    p->set = set_named(text);
    *s = p->set != NULL ? p->set->shape : (shape){0, 0, 0, 0, 128, 0};
    if (p->set != NULL)
        return 1;
    if (strlen(text) >= sizeof copy)
        return 0;
    strcpy(copy, text);
    for (size_t i = 0; i < 5; i++) {
        char *const comma = strchr(part, ',');
        if (comma != NULL)
            *comma = '\0';
        if (!to_number(part, numbers[i]))
            return 0;
        if (comma == NULL)
            return i >= 2;
        part = comma + 1;
    }
    return 0;
}

/* an option with a value; TROUBLE where it is said what is wrong */
static int read_value(plan *p, const char *option, const char *value)
{
    size_t n = 0;
    if (value == NULL)
        return wrong("a value is missing behind ", option);
    if (strcmp(option, "--svg") == 0) {
        p->svg = value;
        return DONE;
    }
    if (!to_number(value, &n))
        return wrong("no number: ", value);
    if (strcmp(option, "--seed") == 0)
        p->seed = n;
    else if (strcmp(option, "--draws") == 0) {
        if (n < 1 || n > 1000000000)
            return wrong("--draws takes a number from 1 to 1000000000", "");
        p->draws = n;
    } else {
        if (n < 1 || n > NODES_MOST || p->many == ASKED_MOST)
            return wrong("--t takes a number from 1 to 512, at most 16 times", "");
        p->asked[p->many++] = n;
    }
    return DONE;
}

static int read_arguments(plan *p, int argc, char **argv)
{
    const char *name = NULL;
    for (int i = 1; i < argc; i++) {
        const char *const a = argv[i];
        if (strcmp(a, "--all") == 0)
            p->all = 1;
        else if (strcmp(a, "--t") == 0 || strcmp(a, "--draws") == 0 || strcmp(a, "--seed") == 0 || strcmp(a, "--svg") == 0) {
            i++;
            if (read_value(p, a, i < argc ? argv[i] : NULL) != DONE)
                return TROUBLE;
        } else if (a[0] == '-')
            return wrong("no option ", a);
        else if (name != NULL)
            return wrong("one shape, not also ", a);
        else
            name = a;
    }
    if (name == NULL)
        return wrong("no set or shape", "");
    if (!to_shape(name, p))
        return wrong("no set or shape: ", name);
    return DONE;
}

/* ---- challenges */

/* xoshiro256**, its state filled by SplitMix64 from the seed */
static uint64_t state[4];

static uint64_t turned(uint64_t x, int n)
{
    return x << n | x >> (64 - n);
}

static uint64_t next(void)
{
    const uint64_t result = turned(state[1] * 5, 7) * 9, t = state[1] << 17;
    state[2] ^= state[0];
    state[3] ^= state[1];
    state[1] ^= state[2];
    state[0] ^= state[3];
    state[2] ^= t;
    state[3] = turned(state[3], 45);
    return result;
}

/* the level's bits, the least first, with the last w cleared */
static void draw_challenge(shape s, uint8_t *challenge)
{
    for (size_t i = 0; i < s.level / 64; i++) {
        const uint64_t x = next();
        for (size_t b = 0; b < 8; b++)
            challenge[8 * i + b] = (uint8_t)(x >> 8 * b);
    }
    for (size_t bit = s.level - s.w; bit < s.level; bit++)
        challenge[bit / 8] &= (uint8_t)~(1u << bit % 8);
}

/* counts one challenge; the number of the refusal, which a shape gives at the first one */
static size_t count_one(counts *c, shape s, const uint8_t *challenge, size_t length)
{
    static uint8_t nodes[4 * NODES_MOST];
    uint8_t count[RACHNOEL_COUNT];
    const size_t number = rachnoel_plan(s.tau, s.k, s.w, NODES_MOST, s.level, s.kind, challenge, length, nodes, sizeof nodes, count, sizeof count);
    if (number == 0)
        c->number[rachnoel_number(count)]++;
    return number;
}

static size_t count_all(const plan *p, counts *c)
{
    const shape s = p->shape;
    uint8_t challenge[RACHNOEL_NODE_MOST] = {0};
    uint64_t fill = p->seed;
    /* the first is counted to see whether this is a shape, and then taken back */
    const size_t number = count_one(c, s, challenge, s.level == 192 ? 24 : s.level == 256 ? 32 : 16);
    if (number != 0)
        return number;
    memset(c->number, 0, sizeof c->number);
    c->exact = p->draws == 0 && s.level == 128 && s.kind == 0 && s.w + OPEN_BITS >= 128;
    c->seed = p->seed;
    c->all = c->exact ? (uint64_t)1 << (128 - s.w) : p->draws > 0 ? p->draws : DRAWS;
    for (size_t i = 0; i < 4; i++)
        state[i] = splitmix(&fill);
    for (uint64_t i = 0; i < c->all; i++) {
        challenge[0] = (uint8_t)i;
        challenge[1] = (uint8_t)(i >> 8);
        if (!c->exact)
            draw_challenge(s, challenge);
        const size_t refused = count_one(c, s, challenge, s.level / 8);
        if (refused != 0)
            return refused;
    }
    return 0;
}

/* least, most and mean */
static void sum_up(counts *c)
{
    double sum = 0;
    c->least = NODES_MOST;
    for (size_t i = 0; i <= NODES_MOST; i++)
        if (c->number[i] > 0) {
            c->least = i < c->least ? i : c->least;
            c->most = i;
            sum += (double)i * (double)c->number[i];
        }
    c->mean = sum / (double)c->all;
}

/* ---- the table */

/* the least T that so many in a hundred keep */
static size_t t_of(const counts *c, uint64_t percent)
{
    size_t t = c->least;
    while (t < c->most && 100 * within(c, t) < percent * c->all)
        t++;
    return t;
}

static void put_real(double x)
{
    if (x < 1e9)
        printf("  %14.1f", x);
    else
        printf("  %14.3e", x);
}

static void put_row(const plan *p, const counts *c, size_t t)
{
    static const uint64_t parts[] = {50, 90, 99};
    shape s = p->shape;
    const uint64_t fit = within(c, t);
    double low, high;
    s.t = t;
    interval(c, t, &low, &high);
    printf("%5zu  %12llu  %.4f  ", t, (unsigned long long)fit, (double)fit / (double)c->all);
    if (c->exact)
        printf("%-16s", "exact");
    else
        printf("%.4f to %.4f", low, high);
    if (fit == 0)
        printf("  %14s  %14s", "none seen", "none seen");
    else {
        put_real((double)c->all / (double)fit);
        put_real(ldexp((double)c->all / (double)fit, (int)s.w));
    }
    printf("  %13zu", rachnoel_lengths_of(NUMBERS(s), 1).opening);
    if (p->set != NULL && p->set->shape.t == t)
        printf("  %s", p->set->name);
    for (size_t i = 0; i < sizeof parts / sizeof parts[0]; i++)
        if (t == t_of(c, parts[i]))
            printf("  %llu %%", (unsigned long long)parts[i]);
    printf("\n");
}

/* whether T has a line */
static int is_listed(const plan *p, const counts *c, size_t t)
{
    int listed = (p->all && t >= c->least && t <= c->most) || (p->set != NULL && p->set->shape.t == t);
    for (size_t i = 0; i < p->many; i++)
        listed |= p->asked[i] == t;
    return listed || t == t_of(c, 50) || t == t_of(c, 90) || t == t_of(c, 99);
}

static void put_table(const plan *p, const counts *c)
{
    const shape s = p->shape;
    printf("%s%stau %zu, k %zu, w %zu, level %zu, kind %zu\n", p->set != NULL ? p->set->name : "", p->set != NULL ? ": " : "", s.tau, s.k, s.w, s.level, s.kind);
    if (c->exact)
        printf("all %llu challenges with clear grinding bits, exact\n", (unsigned long long)c->all);
    else
        printf("%llu challenges with clear grinding bits, drawn from seed %llu\n", (unsigned long long)c->all, (unsigned long long)c->seed);
    printf("nodes: mean %.2f, least %zu, most %zu\n\n", c->mean, c->least, c->most);
    char times[32];
    snprintf(times, sizeof times, "times 2^%zu", s.w);
    printf("%5s  %12s  %6s  %-16s  %14s  %14s  %13s\n", "T", "at most T", "share", "95 % interval", "draws", times, "opening bytes");
    for (size_t t = 1; t <= NODES_MOST; t++)
        if (is_listed(p, c, t))
            put_row(p, c, t);
}

/* 1 where the picture is written */
static int put_picture(const plan *p, const counts *c)
{
    shape s = p->shape;
    s.t = p->many > 0 ? p->asked[0] : p->set != NULL ? s.t : t_of(c, 50);
    errno = 0;
    FILE *const file = fopen(p->svg, "w");
    int written = file != NULL;
    if (written) {
        draw(file, c, s, p->set != NULL ? p->set->name : NULL);
        written = fflush(file) == 0 && !ferror(file);
        written &= fclose(file) == 0;
    }
    if (!written) {
        const int error = errno;
        fputs("choose_t: ", stderr);
        put_name(stderr, p->svg);
        fprintf(stderr, ": %s\n", strerror(error));
    }
    return written;
}

int main(int argc, char **argv)
{
    static counts c;
    plan p = {.seed = 1};
    const int status = asked("choose_t", argc, argv, usage, help);
    if (status >= 0)
        return status;
    if (read_arguments(&p, argc, argv) != DONE)
        return TROUBLE;
    const size_t number = count_all(&p, &c);
    if (number != 0) {
        fputs("choose_t: ", stderr);
        put_refusal(stderr, number);
        fputs("\n", stderr);
        return REFUSED;
    }
    sum_up(&c);
    put_table(&p, &c);
    if (!output_written("choose_t") || (p.svg != NULL && !put_picture(&p, &c)))
        return TROUBLE;
    return DONE;
}
