/* What the tools have in common: their version, numbers among the arguments, and the end of the output. */
#ifndef TOOL_H
#define TOOL_H

#include <rachnoel.h>

#include <errno.h>
#include <stdint.h>
#include <stdio.h>
#include <stdlib.h>
#include <string.h>

/* a decimal number, digits alone */
static inline int to_number(const char *text, size_t *x)
{
    char *end;
    if (*text < '0' || *text > '9')
        return 0;
    errno = 0;
    *x = strtoul(text, &end, 10);
    return errno == 0 && *end == '\0';
}

/* 1 where all that was printed is written; else this is said */
static inline int output_written(const char *tool)
{
    errno = 0;
    if (fflush(stdout) == 0 && !ferror(stdout))
        return 1;
    fprintf(stderr, "%s: standard output: %s\n", tool, strerror(errno != 0 ? errno : EIO));
    return 0;
}

/* -h, --help or --version as the only argument: prints it, and gives the exit status; -1 where the arguments are others */
static inline int asked(const char *tool, int argc, char **argv, const char *usage, const char *help)
{
    if (argc != 2)
        return -1;
    if (strcmp(argv[1], "--version") == 0)
        printf("%s of Rachnoel %s\n", tool, rachnoel_version());
    else if (strcmp(argv[1], "--help") == 0 || strcmp(argv[1], "-h") == 0)
        printf("%s\n%s", usage, help);
    else
        return -1;
    return output_written(tool) ? 0 : 2;
}

/* SplitMix64: the next of a fixed sequence of numbers */
static inline uint64_t splitmix(uint64_t *state)
{
    uint64_t z = *state += 0x9e3779b97f4a7c15;
    z = (z ^ z >> 30) * 0xbf58476d1ce4e5b9;
    z = (z ^ z >> 27) * 0x94d049bb133111eb;
    return z ^ z >> 31;
}

#endif
