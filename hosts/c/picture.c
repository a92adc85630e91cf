/* The picture of choose_t: how many challenges need how many nodes, and where T stands among them. */
#include "counts.h"

#include <string.h>

enum { WIDTH = 720, HEIGHT = 330, LEFT = 24, RIGHT = 24, TOP = 78, BOTTOM = 44, FOOT = HEIGHT - BOTTOM };

#define WITHIN "#2f6f8f"
#define ABOVE "#c9cdd2"
#define MARK "#b03a2e"
#define TEXT "#222222"

/* a number with so many places behind the point, and commas between thousands */
static const char *commas(double x, int places, char text[64])
{
    char plain[48];
    const int length = snprintf(plain, sizeof plain, "%.*f", places, x), whole = places > 0 ? length - places - 1 : length;
    char *to = text;
    for (int i = 0; i < length; i++) {
        if (i > 0 && i < whole && (whole - i) % 3 == 0)
            *to++ = ',';
        *to++ = plain[i];
    }
    *to = '\0';
    return text;
}

static void put_text(FILE *out, double x, double y, int size, const char *anchor, const char *colour, const char *weight, const char *words)
{
    fprintf(out, "<text x=\"%.1f\" y=\"%.1f\" font-size=\"%d\" text-anchor=\"%s\" fill=\"%s\" font-weight=\"%s\">%s</text>\n", x, y, size, anchor, colour, weight, words);
}

/* the two lines above the bars */
static void put_head(FILE *out, const counts *c, shape s, const char *set)
{
    char line[256], all[64], some[64], one[64], seed[64], name[64];
    const uint64_t fit = within(c, s.t);
    const double share = (double)fit / (double)c->all;
    double low, high;
    interval(c, s.t, &low, &high);
    if (set != NULL)
        snprintf(name, sizeof name, "%s", set);
    else
        snprintf(name, sizeof name, s.level == 128 ? "Shape %zu %zu %zu" : "Shape %zu %zu %zu, level %zu", s.tau, s.k, s.w, s.level);
    snprintf(seed, sizeof seed, ", seed %llu", (unsigned long long)c->seed);
    snprintf(line, sizeof line, "%s: node counts of %s%s %schallenges%s", name, c->exact ? "all " : "", commas((double)c->all, 0, all), c->exact ? "" : "drawn ", c->exact ? "" : seed);
    put_text(out, LEFT, 24, 16, "start", TEXT, "bold", line);
    int n;
    if (fit == 0)
        n = snprintf(line, sizeof line, "none needs at most T = %zu nodes", s.t);
    else
        n = snprintf(line, sizeof line, "%s need at most T = %zu nodes, %.1f %% or one in %s", commas((double)fit, 0, some), s.t, 100 * share, commas(1 / share, 2, one));
    if (!c->exact)
        n += snprintf(line + n, sizeof line - (size_t)n, " (95 %%: %.2f to %.2f %%)", 100 * low, 100 * high);
    snprintf(line + n, sizeof line - (size_t)n, "; mean %.2f", c->mean);
    put_text(out, LEFT, 44, 13, "start", TEXT, "normal", line);
}

/* every which count has its number below the bar */
static size_t label_step(double step)
{
    static const size_t steps[] = {1, 2, 5, 10, 20, 50, 100};
    size_t i = 0;
    while (i < 6 && (double)steps[i] * step < 24)
        i++;
    return steps[i];
}

/* a bar for each count; how many there are is written above each where there is room, and else above the highest */
static void put_bars(FILE *out, const counts *c, shape s, double step)
{
    size_t top = c->least;
    char text[64];
    for (size_t i = c->least; i <= c->most; i++)
        if (c->number[i] > c->number[top])
            top = i;
    for (size_t i = c->least; i <= c->most; i++) {
        const double x = LEFT + (double)(i - c->least) * step, height = (HEIGHT - TOP - BOTTOM) * (double)c->number[i] / (double)c->number[top];
        fprintf(out, "<rect x=\"%.1f\" y=\"%.1f\" width=\"%.1f\" height=\"%.1f\" fill=\"%s\"/>\n", x + 0.1 * step, FOOT - height, 0.8 * step, height, i <= s.t ? WITHIN : ABOVE);
        if (step >= 36 || i == top)
            put_text(out, x + step / 2, FOOT - height - 4, 11, "middle", TEXT, "normal", commas((double)c->number[i], 0, text));
        if (i % label_step(step) == 0) {
            snprintf(text, sizeof text, "%zu", i);
            put_text(out, x + step / 2, FOOT + 16, 13, "middle", TEXT, "normal", text);
        }
    }
}

/* the line behind the counts that T allows; at an edge where it allows none or all */
static void put_mark(FILE *out, const counts *c, size_t t, double step)
{
    const size_t last = t > c->most ? c->most : t;
    const double mark = t < c->least ? LEFT : LEFT + (double)(last - c->least + 1) * step;
    const int before = t >= c->least && mark > LEFT + 60;
    char text[64];
    snprintf(text, sizeof text, "T = %zu", t);
    fprintf(out, "<line x1=\"%.1f\" y1=\"%d\" x2=\"%.1f\" y2=\"%d\" stroke=\"" MARK "\" stroke-width=\"2\" stroke-dasharray=\"5 4\"/>\n", mark, TOP - 22, mark, FOOT);
    put_text(out, before ? mark - 6 : mark + 6, TOP - 14, 13, before ? "end" : "start", MARK, "bold", text);
}

void draw(FILE *out, const counts *c, shape s, const char *set)
{
    const double most = 90, each = (double)(WIDTH - LEFT - RIGHT) / (double)(c->most - c->least + 1), step = each < most ? each : most;
    char name[64];
    snprintf(name, sizeof name, s.level == 128 ? "the shape %zu %zu %zu %zu" : "the shape %zu %zu %zu %zu, level %zu", s.tau, s.k, s.w, s.t, s.level);
    fprintf(out, "<svg xmlns=\"http://www.w3.org/2000/svg\" viewBox=\"0 0 %d %d\" width=\"%d\" height=\"%d\" font-family=\"sans-serif\" role=\"img\">\n", WIDTH, HEIGHT, WIDTH, HEIGHT);
    fprintf(out, "<title>Node counts of %s challenges of %s</title>\n", c->exact ? "all" : "drawn", set != NULL ? set : name);
    fprintf(out, "<rect width=\"%d\" height=\"%d\" fill=\"#ffffff\"/>\n", WIDTH, HEIGHT);
    put_head(out, c, s, set);
    put_bars(out, c, s, step);
    fprintf(out, "<line x1=\"%d\" y1=\"%d\" x2=\"%d\" y2=\"%d\" stroke=\"" TEXT "\"/>\n", LEFT, FOOT, WIDTH - RIGHT, FOOT);
    put_mark(out, c, s.t, step);
    put_text(out, WIDTH / 2.0, HEIGHT - 8, 13, "middle", TEXT, "normal", "nodes that an opening reveals");
    fputs("</svg>\n", out);
}
