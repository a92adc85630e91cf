/* check_record: whether signing records are accepted. docs/TOOLS.md has its page. */
#define _POSIX_C_SOURCE 200809L
#include "names.h"
#include "tool.h"
#include "verdict.h"

#include <fcntl.h>
#include <signal.h>
#include <sys/prctl.h>
#include <sys/wait.h>
#include <time.h>
#include <unistd.h>

enum { ACCEPTED, REFUSED, TROUBLE }; /* outcomes of a file, and exit statuses */
enum { JOBS_MOST = 64, PATIENCE = 3 }; /* processes; seconds until progress is shown */

static const char usage[] =
    "usage: check_record [OPTION]... FILE...\n"
    "       check_record [OPTION]... -0 < NAMES\n"
    "       check_record -h | --help | --version\n";

static const char help[] =
    "Checks signing records of FAEST version 2. FILE of - is standard input, once.\n"
    "\n"
    "Prints a line for each file, in the order of the files:\n"
    "    FILE: accepted, FAEST-128s, 101 of 102 nodes\n"
    "    FILE: refused 11 commitment: the opening does not belong to the commitment\n"
    "A record is accepted where it has the form of a record of a named set, its opening reconstructs, and the\n"
    "commitment that this gives is the record's. It does not mean that a policy text was signed: that is for the\n"
    "proof of the signature to decide. It does not bind the corrections: other corrections are accepted too.\n"
    "\n"
    "--any-shape  takes every shape and row length, not the twelve sets of FAEST version 2 alone\n"
    "--named      the twelve sets alone: as without it\n"
    "--explain    also what stands where in the record, and the reason of the verdict\n"
    "--json       a JSON object a line; not with --explain\n"
    "--quiet      no verdicts: the exit status alone, and the summary where it is asked for; not with --explain\n"
    "--summary    a last line: records, accepted, refused, nodes and unused slots of the accepted ones\n"
    "--jobs N     up to N processes check files, 1 to 64\n"
    "-0           the names of the files come from standard input, each ended by a zero byte\n"
    "--           no options behind it\n"
    "\n"
    "In names a control byte, and a byte that is no UTF-8, is written \\xNN.\n"
    "Numbers: 1 shape, 2 row length, 4 grinding, 5 nodes, 6 slots, 9 version, 10 field, 11 commitment,\n"
    "13 not named.\n"
    "Exit status: 0 every record is accepted; 1 one is refused, also where a file cannot be read; 2 a file cannot\n"
    "be read and none is refused, the output cannot be written, or wrong usage.\n";

typedef struct options {
    int any_shape, named, explain, json, quiet, summary, from_input;
    size_t jobs, count;
    const char **names;
} options;

/* ---- arguments */

static int wrong(const char *why, const char *what)
{
    fprintf(stderr, "check_record: %s", why);
    put_name(stderr, what);
    fprintf(stderr, "\n%s", usage);
    return TROUBLE;
}

/* a word that sets one of the options; NULL where there is none */
static int *flag(options *o, const char *text)
{
    const struct {
        const char *name;
        int *set;
    } flags[] = {{"--any-shape", &o->any_shape}, {"--named", &o->named}, {"--explain", &o->explain}, {"--json", &o->json}, {"--quiet", &o->quiet}, {"--summary", &o->summary},
        {"-0", &o->from_input}};
    for (size_t i = 0; i < sizeof flags / sizeof flags[0]; i++)
        if (strcmp(text, flags[i].name) == 0)
            return flags[i].set;
    return NULL;
}

/* ACCEPTED, or TROUBLE where it is said what is wrong */
static int read_arguments(options *o, int argc, char **argv)
{
    int ended = 0, inputs = 0;
    for (int i = 1; i < argc; i++) {
        int *const set = ended ? NULL : flag(o, argv[i]);
        if (set != NULL)
            *set = 1;
        else if (!ended && strcmp(argv[i], "--") == 0)
            ended = 1;
        else if (!ended && strcmp(argv[i], "--jobs") == 0) {
            if (i + 1 == argc || !to_number(argv[i + 1], &o->jobs) || o->jobs < 1 || o->jobs > JOBS_MOST)
                return wrong("--jobs takes a number from 1 to 64", "");
            i++;
        } else if (!ended && argv[i][0] == '-' && argv[i][1] != '\0')
            return wrong("no option ", argv[i]);
        else {
            inputs += strcmp(argv[i], "-") == 0;
            o->names[o->count++] = argv[i];
        }
    }
    if (inputs > 1)
        return wrong("standard input, -, can be read once only", "");
    if (o->from_input ? o->count > 0 : o->count == 0)
        return wrong(o->from_input ? "-0 takes no files beside it" : "no file", "");
    if (o->any_shape && o->named)
        return wrong("--any-shape and --named exclude each other", "");
    if (o->explain && (o->json || o->quiet))
        return wrong(o->json ? "--explain and --json exclude each other" : "--explain and --quiet exclude each other", "");
    return ACCEPTED;
}

/* the names on standard input; a last one may lack its zero byte. TROUBLE where they cannot be read, or there is none */
static int read_names(options *o)
{
    char *name = NULL;
    size_t room = 0, most = 0;
    o->names = NULL;
    errno = 0;
    while (getdelim(&name, &room, '\0', stdin) >= 0) {
        if (o->count == most) {
            most = 2 * most + 64;
            const char **const more = realloc(o->names, most * sizeof *more);
            if (more == NULL)
                break;
            o->names = more;
        }
        o->names[o->count++] = name;
        name = NULL;
        room = 0;
    }
    free(name);
    if (feof(stdin) && !ferror(stdin) && o->count > 0)
        return ACCEPTED;
    fprintf(stderr, "check_record: names on standard input: %s\n", feof(stdin) && !ferror(stdin) ? "there is none" : strerror(errno));
    return TROUBLE;
}

/* ---- one file */

/* No record is longer than RACHNOEL_RECORD_MOST. Of a longer file one byte more is read: it is refused as the whole file is, for its front or for bytes left
   over. */
static uint8_t record[RACHNOEL_RECORD_MOST + 1];

/* 0, or the error; - is standard input, but no name from standard input is */
static int read_file(const options *o, const char *name, size_t *length)
{
    errno = 0;
    FILE *const file = !o->from_input && strcmp(name, "-") == 0 ? stdin : fopen(name, "rb");
    if (file == NULL)
        return errno;
    *length = fread(record, 1, sizeof record, file);
    const int error = ferror(file) ? errno : 0;
    if (file != stdin)
        fclose(file);
    return error;
}

/* what comes of a file: text for standard output and text for standard error, which stand behind it where it goes through a pipe */
typedef struct result {
    int outcome;
    size_t nodes, unused, out_bytes, err_bytes;
} result;

static void put_trouble(const options *o, const char *name, const char *why, FILE *out, FILE *err)
{
    fputs("check_record: ", err);
    put_name(err, name);
    fprintf(err, ": %s\n", why);
    if (o->json) {
        fputs("{", out);
        put_json_name(out, name);
        fprintf(out, ",\"error\":\"%s\"}\n", why);
    }
}

static result check_file(const options *o, const char *name, FILE *out, FILE *err)
{
    size_t length = 0;
    verdict v;
    int error = read_file(o, name, &length);
    if (error == 0)
        error = check_bytes(record, length, o->any_shape, &v);
    if (error != 0) {
        put_trouble(o, name, strerror(error), out, err);
        return (result){TROUBLE, 0, 0, 0, 0};
    }
    (o->json ? put_json_verdict : put_verdict)(out, name, &v);
    if (o->explain)
        explain(out, record, length, &v);
    if (v.number != 0)
        return (result){REFUSED, 0, 0, 0, 0};
    return (result){ACCEPTED, v.count, v.allowed - v.count, 0, 0};
}

/* the same with its text in two strings, which the caller frees */
static result check_to_text(const options *o, const char *name, int died, char *text[2])
{
    result r = {TROUBLE, 0, 0, 0, 0};
    FILE *const out = open_memstream(&text[0], &r.out_bytes), *const err = open_memstream(&text[1], &r.err_bytes);
    if (out == NULL || err == NULL) {
        perror("check_record");
        exit(TROUBLE);
    }
    result found = {TROUBLE, 0, 0, 0, 0};
    if (died)
        put_trouble(o, name, "the process that checks it has ended", out, err);
    else
        found = check_file(o, name, out, err);
    if (fclose(out) != 0 || fclose(err) != 0) {
        perror("check_record");
        exit(TROUBLE);
    }
    found.out_bytes = r.out_bytes;
    found.err_bytes = r.err_bytes;
    return found;
}

/* ---- several processes: of N the one with number j checks files j, j + N, .. and writes what comes of them to its pipe */

static int write_all(int pipe, const void *bytes, size_t n)
{
    const char *p = bytes;
    while (n > 0) {
        const ssize_t done = write(pipe, p, n);
        if (done < 0 && errno != EINTR)
            return 0;
        p += done > 0 ? done : 0;
        n -= (size_t)(done > 0 ? done : 0);
    }
    return 1;
}

static int read_all(int pipe, void *bytes, size_t n)
{
    char *p = bytes;
    while (n > 0) {
        const ssize_t done = read(pipe, p, n);
        if (done == 0 || (done < 0 && errno != EINTR))
            return 0;
        p += done > 0 ? done : 0;
        n -= (size_t)(done > 0 ? done : 0);
    }
    return 1;
}

static void work(const options *o, size_t first, int pipe)
{
    for (size_t i = first; i < o->count; i += o->jobs) {
        char *text[2];
        const result r = check_to_text(o, o->names[i], 0, text);
        if (!write_all(pipe, &r, sizeof r) || !write_all(pipe, text[0], r.out_bytes) || !write_all(pipe, text[1], r.err_bytes))
            break;
        free(text[0]), free(text[1]);
    }
    _exit(0);
}

static pid_t children[JOBS_MOST];

/* starts the processes; a place of `pipes` is -1 where one could not be started. Where this process ends they end too, also while they wait for a file */
static void start(const options *o, int pipes[JOBS_MOST])
{
    for (size_t j = 0; j < o->jobs; j++) {
        int ends[2];
        pipes[j] = -1;
        if (pipe(ends) != 0)
            continue;
        const pid_t child = fork();
        if (child == 0) {
            prctl(PR_SET_PDEATHSIG, SIGKILL);
            close(ends[0]);
            for (size_t i = 0; i < j; i++)
                if (pipes[i] >= 0)
                    close(pipes[i]);
            work(o, j, ends[1]);
        }
        close(ends[1]);
        children[j] = child;
        if (child > 0)
            pipes[j] = ends[0];
        else
            close(ends[0]);
    }
}

/* what a process wrote of one file; 0 where it has ended before. What cannot be a result is as if it had ended */
static int receive(int pipe, result *r, char *text[2])
{
    text[0] = text[1] = NULL;
    if (pipe < 0 || !read_all(pipe, r, sizeof *r))
        return 0;
    text[0] = malloc(r->out_bytes + 1);
    text[1] = malloc(r->err_bytes + 1);
    if (text[0] != NULL && text[1] != NULL && read_all(pipe, text[0], r->out_bytes) && read_all(pipe, text[1], r->err_bytes))
        return 1;
    free(text[0]), free(text[1]);
    return 0;
}

/* ---- what is said, in the order of the files */

/* a line on a terminal that is written anew for each file, and cleared before anything else is written */
static int shown;

static void clear_progress(void)
{
    if (shown > 0)
        fprintf(stderr, "\r%*s\r", shown, "");
    shown = 0;
}

static void show_progress(const options *o, size_t done, const struct timespec *begin)
{
    struct timespec now;
    clock_gettime(CLOCK_MONOTONIC, &now);
    const double seconds = (double)(now.tv_sec - begin->tv_sec) + (double)(now.tv_nsec - begin->tv_nsec) / 1e9;
    if (o->quiet || !isatty(STDERR_FILENO) || done == o->count || seconds <= PATIENCE)
        return;
    shown = fprintf(stderr, "\rcheck_record: %zu of %zu files", done, o->count) - 1;
    fflush(stderr);
}

typedef struct totals {
    size_t accepted, refused, not_read, nodes, unused;
} totals;

static void put_result(const options *o, const result *r, char *const text[2], totals *sum)
{
    clear_progress();
    fwrite(text[1], 1, r->err_bytes, stderr);
    if (!o->quiet)
        fwrite(text[0], 1, r->out_bytes, stdout);
    if (!output_written("check_record"))
        exit(TROUBLE);
    sum->accepted += r->outcome == ACCEPTED;
    sum->refused += r->outcome == REFUSED;
    sum->not_read += r->outcome == TROUBLE;
    sum->nodes += r->nodes;
    sum->unused += r->unused;
}

static void check_all(options *o, totals *sum)
{
    int pipes[JOBS_MOST];
    struct timespec begin;
    clock_gettime(CLOCK_MONOTONIC, &begin);
    if (o->jobs > o->count)
        o->jobs = o->count;
    if (o->jobs > 1)
        start(o, pipes);
    for (size_t i = 0; i < o->count; i++) {
        char *text[2];
        result r;
        int *const pipe = &pipes[i % o->jobs];
        if (o->jobs == 1)
            r = check_to_text(o, o->names[i], 0, text);
        else if (!receive(*pipe, &r, text)) {
            if (*pipe >= 0)
                close(*pipe);
            *pipe = -1;
            r = check_to_text(o, o->names[i], 1, text);
        }
        put_result(o, &r, text, sum);
        free(text[0]), free(text[1]);
        show_progress(o, i + 1, &begin);
    }
    for (size_t j = 0; j < o->jobs; j++)
        if (children[j] > 0)
            waitpid(children[j], NULL, 0);
}

static void put_summary(const options *o, const totals *sum)
{
    const size_t records = sum->accepted + sum->refused;
    if (o->json) {
        printf("{\"summary\":{\"records\":%zu,\"accepted\":%zu,\"refused\":%zu,\"nodes\":%zu,\"unused_slots\":%zu,\"not_read\":%zu}}\n", records, sum->accepted, sum->refused,
            sum->nodes, sum->unused, sum->not_read);
        return;
    }
    printf("summary: %zu records, %zu accepted, %zu refused, %zu nodes, %zu unused slots", records, sum->accepted, sum->refused, sum->nodes, sum->unused);
    if (sum->not_read > 0)
        printf(", %zu not read", sum->not_read);
    printf("\n");
}

/* a closed standard stream is taken by a file of which it cannot be read or written, so that no other file comes to its place */
static void hold_streams(void)
{
    for (int stream = 0; stream < 3; stream++)
        if (fcntl(stream, F_GETFD) < 0 && open("/dev/null", stream == 0 ? O_WRONLY : O_RDONLY) < 0)
            exit(TROUBLE);
}

int main(int argc, char **argv)
{
    hold_streams();
    const int status = asked("check_record", argc, argv, usage, help);
    if (status >= 0)
        return status;
    options o = {.jobs = 1, .names = calloc((size_t)argc, sizeof *o.names)};
    totals sum = {0, 0, 0, 0, 0};
    if (o.names == NULL) {
        perror("check_record");
        return TROUBLE;
    }
    if (read_arguments(&o, argc, argv) != ACCEPTED || (o.from_input && read_names(&o) != ACCEPTED))
        return TROUBLE;
    check_all(&o, &sum);
    if (o.summary) {
        put_summary(&o, &sum);
        if (!output_written("check_record"))
            return TROUBLE;
    }
    if (sum.refused > 0 && sum.not_read > 0)
        fprintf(stderr, "check_record: %zu refused, %zu not read\n", sum.refused, sum.not_read);
    return sum.refused > 0 ? REFUSED : sum.not_read > 0 ? TROUBLE : ACCEPTED;
}
