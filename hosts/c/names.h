/* Names and arguments as they may be printed: nothing in them can end a line, move the cursor or turn the reading direction. */
#ifndef NAMES_H
#define NAMES_H

#include <stdint.h>
#include <stdio.h>

/* the bytes of the UTF-8 character at p, a string, and the character; 0 where there is none: a wrong byte, a longer form than needed, a surrogate, above
   U+10FFFF */
static inline size_t utf8(const unsigned char *p, uint32_t *character)
{
    static const uint32_t least[] = {0, 0, 0x80, 0x800, 0x10000};
    const size_t n = *p < 0x80 ? 1 : *p < 0xc0 ? 0 : *p < 0xe0 ? 2 : *p < 0xf0 ? 3 : *p < 0xf8 ? 4 : 0;
    if (n < 2) {
        *character = *p;
        return n;
    }
    *character = *p & (0x7fu >> n);
    for (size_t i = 1; i < n; i++) {
        if ((p[i] & 0xc0) != 0x80)
            return 0;
        *character = *character << 6 | (p[i] & 0x3fu);
    }
    return *character < least[n] || *character > 0x10ffff || (*character >= 0xd800 && *character < 0xe000) ? 0 : n;
}

/* the controls: C0, C1, and those of bidirectional text */
static inline int is_control(uint32_t c)
{
    return c < 0x20 || (c >= 0x7f && c < 0xa0) || c == 0x200e || c == 0x200f || (c >= 0x202a && c <= 0x202e) || (c >= 0x2066 && c <= 0x2069);
}

/* the name, each byte of a control and each byte that is no UTF-8 as \xNN; with json a quote and a backslash have one before them. 1 where a byte was written
   as \xNN */
static inline int put_escaped(FILE *out, const char *name, int json)
{
    const unsigned char *p = (const unsigned char *)name;
    int escaped = 0;
    while (*p != '\0') {
        uint32_t character;
        size_t n = utf8(p, &character);
        const int plain = n > 0 && !is_control(character);
        for (n = n > 0 ? n : 1; n > 0; n--, p++)
            if (!plain)
                fprintf(out, json ? "\\\\x%02x" : "\\x%02x", *p);
            else
                fprintf(out, json && (*p == '"' || *p == '\\') ? "\\%c" : "%c", *p);
        escaped |= !plain;
    }
    return escaped;
}

static inline void put_name(FILE *out, const char *name)
{
    put_escaped(out, name, 0);
}

/* "key":"name" of a JSON object, and where a byte was escaped also "name_hex" with all its bytes */
static inline void put_json_name(FILE *out, const char *name)
{
    fputs("\"file\":\"", out);
    const int escaped = put_escaped(out, name, 1);
    fputs("\"", out);
    if (escaped) {
        fputs(",\"name_hex\":\"", out);
        for (const char *p = name; *p != '\0'; p++)
            fprintf(out, "%02x", (unsigned char)*p);
        fputs("\"", out);
    }
}

#endif
