/* The picture of a table; plot.h says what is drawn. */

#include "plot.h"

#include "common.h"

#include <inttypes.h>
#include <math.h>
#include <stdlib.h>
#include <string.h>

enum { LEFT = 62, TOP = 58, WIDE = 400, HIGH = 380, BETWEEN = 70, RIGHT = 24, LEGEND = 20 };
enum { COLOURS = 8, SHAPES = 5, LABEL_ROOM = 200, MOST_TICKS = 8 };

/* Colours that are told apart by the colour-blind too (Okabe and Ito). */
static const char *const colours[COLOURS] = {"#0072b2", "#d55e00", "#009e73", "#cc79a7", "#e69f00", "#56b4e9", "#000000", "#7f7f7f"};

static const char *const titles[PANELS] = {"bit error rate after the decoder", "block error rate after the decoder", "frame error rate after the decoder"};

/* ---- Values ---- */

/* A rate with its limits; without an error `value` is 0 and `high` the upper limit. */
typedef struct {
    double value, low, high;
} measure;

/* How many bits, blocks or frames are wrong at once: in a bad frame of the next higher rate of the curve that has some, else 1. */
static double wrong_at_once(const table *t, const point *p, int wrong)
{
    const point *next = NULL;
    for (size_t i = 0; i < t->point_count; i++) {
        const point *q = &t->points[i];
        if (q->curve == p->curve && q->rate > p->rate && q->count[COUNT_BAD_FRAMES] > 0 && (next == NULL || q->rate < next->rate))
            next = q;
    }
    return next != NULL ? ratio(next->count[wrong], next->count[COUNT_BAD_FRAMES]) : 1;
}

static measure measured(const table *t, const point *p, panel kind)
{
    static const int wrong[] = {COUNT_WRONG_BITS, COUNT_BAD_BLOCKS, COUNT_BAD_FRAMES};
    static const int all[] = {COUNT_BITS, COUNT_BLOCKS, COUNT_FRAMES};
    const uint64_t *c = p->count, sum = c[wrong[kind]];
    const double value = ratio(sum, c[all[kind]]);
    if (kind == PANEL_FRAME)
        return (measure){value, frames_low(c), frames_high(c)};
    if (sum == 0)
        return (measure){0, 0, frames_high(c) * wrong_at_once(t, p, wrong[kind]) * ratio(c[COUNT_FRAMES], c[all[kind]])};
    const double high = value * events_high(sum, c[wrong[kind] + 1]);
    return (measure){value, value * events_low(sum, c[wrong[kind] + 1]), high < 1 ? high : 1};
}

/* ---- Labels ---- */

/* Whether curves differ in a key. Original frames have no lists. */
static int differ(const table *t, int key)
{
    const char *first = NULL;
    for (size_t i = 0; i < t->curve_count; i++) {
        const char *text = t->curves[i].key[key];
        if (strcmp(text, "none") == 0)
            continue;
        if (first != NULL && strcmp(first, text) != 0)
            return 1;
        first = text;
    }
    return 0;
}

/* Adds words to a text, behind a comma where it has some. */
static void add_words(char *text, const char *before, const char *words, const char *after)
{
    const size_t used = strlen(text);
    snprintf(text + used, LABEL_ROOM - used, "%s%s%s%s", used > 0 ? ", " : "", before, words, after);
}

static void add_key(char *text, const table *t, size_t c, int key)
{
    const char *words = t->curves[c].key[key];
    switch (key) {
    case KEY_M: add_words(text, "m ", words, ""); break;
    case KEY_T: add_words(text, "t ", words, ""); break;
    case KEY_SIZE: add_words(text, "M ", words, ""); break;
    case KEY_BLOCKS: add_words(text, "", words, strcmp(words, "1") == 0 ? " block" : " blocks"); break;
    case KEY_ROUNDS: add_words(text, "at most ", words, strcmp(words, "1") == 0 ? " round" : " rounds"); break;
    case KEY_LISTS:
        if (strcmp(words, "none") != 0)
            add_words(text, "", words, strcmp(words, "file") == 0 ? "" : " lists");
        break;
    case KEY_ENDING:
        if (strncmp(words, "zero", 4) == 0)
            add_words(text, "last block zero", "", "");
        if (strstr(words, "cut ") != NULL)
            add_words(text, "last ", strstr(words, "cut ") + 4, " blocks not counted");
        break;
    case KEY_DRAW:
        if (strcmp(words, "load") == 0)
            add_words(text, "errors of the test load", "", "");
        break;
    default: break;
    }
}

/* A kit is named only where two have the same kind of lists. */
static int kits_differ(const table *t)
{
    for (size_t i = 0; i < t->curve_count; i++)
        for (size_t j = 0; j < i; j++)
            if (strcmp(t->curves[i].key[KEY_LISTS], t->curves[j].key[KEY_LISTS]) == 0 && strcmp(t->curves[i].key[KEY_KIT], t->curves[j].key[KEY_KIT]) != 0)
                return 1;
    return 0;
}

static void label_of(const table *t, size_t c, char *text)
{
    const char *decoder = t->curves[c].key[KEY_DECODER];
    text[0] = 0;
    if (strcmp(decoder, "whole") == 0)
        add_words(text, "whole frames", "", "");
    else if (strncmp(decoder, "window ", 7) == 0)
        add_words(text, "window of ", decoder + 7, strcmp(decoder + 7, "1") == 0 ? " group" : " groups");
    else
        add_words(text, "original frames", "", "");
    for (int key = KEY_M; key < KEYS; key++)
        if (key != KEY_KIT && differ(t, key))
            add_key(text, t, c, key);
    if (kits_differ(t) && strcmp(t->curves[c].key[KEY_KIT], "none") != 0)
        add_words(text, "kit ", t->curves[c].key[KEY_KIT], "");
}

/* What all curves have in common. */
static void common_of(const table *t, char *text)
{
    text[0] = 0;
    for (int key = KEY_M; t->curve_count > 0 && key < KEYS; key++) {
        size_t c = 0;
        while (c + 1 < t->curve_count && strcmp(t->curves[c].key[key], "none") == 0)
            c++;
        if (key != KEY_KIT && !differ(t, key))
            add_key(text, t, c, key);
    }
}

/* The characters that XML keeps for itself. Texts come from files too. */
static void write_text(FILE *file, const char *text)
{
    for (; *text != 0; text++)
        switch (*text) {
        case '<': fputs("&lt;", file); break;
        case '>': fputs("&gt;", file); break;
        case '&': fputs("&amp;", file); break;
        default: fputc((unsigned char)*text < 32 || (unsigned char)*text > 126 ? '?' : *text, file);
        }
}

/* ---- Axes ---- */

typedef struct {
    double left;                 /* of the panel */
    double from, to;             /* rates of the line */
    int top, bottom;             /* decades */
} axes;

static double x_of(const axes *a, double rate)
{
    return a->left + WIDE * (rate - a->from) / (a->to - a->from);
}

static double y_of(const axes *a, double value)
{
    const double y = TOP + HIGH * (a->top - log10(value)) / (a->top - a->bottom);
    return y < TOP ? TOP : y > TOP + HIGH ? TOP + HIGH : y;
}

static axes axes_of(const table *t, panel kind, double left)
{
    double least = 1, most = 0, from = 1, to = 0;
    for (size_t i = 0; i < t->point_count; i++) {
        const measure v = measured(t, &t->points[i], kind);
        const double rate = (double)t->points[i].rate / 1e9, shown = v.value > 0 ? v.value : v.high;
        least = shown < least ? shown : least;
        most = v.high > most ? v.high : most;
        from = rate < from ? rate : from;
        to = rate > to ? rate : to;
    }
    const double margin = to > from ? (to - from) / 25 : to > 0 ? to / 10 : 1;
    axes a = {left, from - margin, to + margin, 0, -1};
    a.top = most > 0 ? (int)ceil(log10(most)) : 0;
    a.bottom = least > 0 ? (int)floor(log10(least)) : a.top - 1;
    if (a.top > 0)
        a.top = 0;
    if (a.bottom >= a.top)
        a.bottom = a.top - 1;
    return a;
}

/* A step of 1, 2 or 5 times a power of ten, for at most MOST_TICKS labels. */
static double tick_step(double range)
{
    double step = pow(10, floor(log10(range / MOST_TICKS)));
    static const double factors[] = {1, 2, 5, 10};
    for (int k = 0; k < 4; k++)
        if (range / (step * factors[k]) <= MOST_TICKS)
            return step * factors[k];
    return 10 * step;
}

static void write_axes(FILE *file, const axes *a, panel kind)
{
    const double step = tick_step(a->to - a->from), right = a->left + WIDE;
    const int places = step < 1 ? (int)ceil(-log10(step) - 1e-9) : 0, skip = (a->top - a->bottom + 15) / 16;
    fprintf(file, "<text x=\"%.1f\" y=\"%d\" text-anchor=\"middle\" font-weight=\"bold\">%s</text>\n", a->left + WIDE / 2.0, TOP - 12, titles[kind]);
    for (int d = a->top; d >= a->bottom; d--) {
        const double y = y_of(a, pow(10, d));
        fprintf(file, "<line x1=\"%.1f\" y1=\"%.1f\" x2=\"%.1f\" y2=\"%.1f\" stroke=\"#dddddd\"/>\n", a->left, y, right, y);
        if ((a->top - d) % skip == 0)
            fprintf(file, "<text x=\"%.1f\" y=\"%.1f\" text-anchor=\"end\">%s%d</text>\n", a->left - 7, y + 4, d == 0 ? "" : "1e", d == 0 ? 1 : d);
    }
    for (double k = ceil(a->from / step); k * step <= a->to; k++) {
        const double x = x_of(a, k * step);
        fprintf(file, "<line x1=\"%.1f\" y1=\"%d\" x2=\"%.1f\" y2=\"%d\" stroke=\"#dddddd\"/>\n", x, TOP, x, TOP + HIGH);
        fprintf(file, "<text x=\"%.1f\" y=\"%d\" text-anchor=\"middle\">%.*f</text>\n", x, TOP + HIGH + 18, places, k * step);
    }
    fprintf(file, "<rect x=\"%.1f\" y=\"%d\" width=\"%d\" height=\"%d\" fill=\"none\" stroke=\"#555555\"/>\n", a->left, TOP, WIDE, HIGH);
    fprintf(file, "<text x=\"%.1f\" y=\"%d\" text-anchor=\"middle\">bit error rate of the line</text>\n", a->left + WIDE / 2.0, TOP + HIGH + 38);
}

/* ---- Curves ---- */

static void write_mark(FILE *file, double x, double y, size_t c)
{
    const char *colour = colours[c % COLOURS];
    switch (c % SHAPES) {
    case 0: fprintf(file, "<circle cx=\"%.1f\" cy=\"%.1f\" r=\"3.5\" fill=\"%s\"/>", x, y, colour); break;
    case 1: fprintf(file, "<rect x=\"%.1f\" y=\"%.1f\" width=\"6.4\" height=\"6.4\" fill=\"%s\"/>", x - 3.2, y - 3.2, colour); break;
    case 2: fprintf(file, "<path d=\"M%.1f %.1fl4.5 4.5l-4.5 4.5l-4.5 -4.5z\" fill=\"%s\"/>", x, y - 4.5, colour); break;
    case 3: fprintf(file, "<path d=\"M%.1f %.1fl4.4 7.4h-8.8z\" fill=\"%s\"/>", x, y - 4.6, colour); break;
    default: fprintf(file, "<path d=\"M%.1f %.1fl7 7m0 -7l-7 7\" fill=\"none\" stroke=\"%s\" stroke-width=\"2\"/>", x - 3.5, y - 3.5, colour); break;
    }
}

/* An open triangle whose tip is at the limit, and an arrow down. */
static void write_bound(FILE *file, double x, double y, const char *colour)
{
    fprintf(file, "<path d=\"M%.1f %.1fl3.5 -6h-7z\" fill=\"white\" stroke=\"%s\"/>", x, y, colour);
    fprintf(file, "<path d=\"M%.1f %.1fv11m-2.5 -3.5l2.5 3.5l2.5 -3.5\" fill=\"none\" stroke=\"%s\"/>", x, y, colour);
}

/* What a browser shows where the pointer rests on a point. */
static void write_hint(FILE *file, const table *t, const point *p, const measure *v, panel kind)
{
    char label[LABEL_ROOM];
    label_of(t, p->curve, label);
    fputs("<title>", file);
    write_text(file, label);
    fprintf(file, "\nline %.9g: ", (double)p->rate / 1e9);
    if (v->value > 0)
        fprintf(file, "%s %.2e (%.1e to %.1e)", titles[kind], v->value, v->low, v->high);
    else
        fprintf(file, "no error, %s below %.1e", titles[kind], v->high);
    fprintf(file, "\n%" PRIu64 " of %" PRIu64 " frames bad</title>", p->count[COUNT_BAD_FRAMES], p->count[COUNT_FRAMES]);
}

static void write_curve(FILE *file, const table *t, size_t c, const axes *a, panel kind)
{
    const char *colour = colours[c % COLOURS];
    const double between = t->curve_count > 7 ? 22.0 / (double)(t->curve_count - 1) : 3.6;
    const double aside = between * ((double)c - ((double)t->curve_count - 1) / 2);
    double x_before = 0, y_before = 0;
    int joined = 0;
    fprintf(file, "<g stroke-width=\"1.2\">\n");
    for (size_t i = 0; i < t->point_count; i++) {
        const point *p = &t->points[i];
        if (p->curve != c)
            continue;
        const measure v = measured(t, p, kind);
        const double x = x_of(a, (double)p->rate / 1e9);
        fputs("<g>", file);
        write_hint(file, t, p, &v, kind);
        if (v.value > 0) {
            const double y = y_of(a, v.value), low = v.low > 0 ? y_of(a, v.low) : TOP + HIGH, high = y_of(a, v.high);
            if (joined)
                fprintf(file, "<line x1=\"%.1f\" y1=\"%.1f\" x2=\"%.1f\" y2=\"%.1f\" stroke=\"%s\" stroke-width=\"1.6\"/>", x_before, y_before, x, y, colour);
            fprintf(file, "<path d=\"M%.1f %.1fV%.1fm-2.5 0h5M%.1f %.1fh5\" fill=\"none\" stroke=\"%s\" stroke-opacity=\"0.7\"/>", x, low, high, x - 2.5, low,
                    colour);
            write_mark(file, x, y, c);
            x_before = x;
            y_before = y;
        } else {
            write_bound(file, x + aside, y_of(a, v.high), colour);
        }
        joined = v.value > 0;
        fputs("</g>\n", file);
    }
    fprintf(file, "</g>\n");
}

/* ---- The picture ---- */

/* Labels below the panels, in as many columns as have room. */
typedef struct {
    double room;                 /* of a column */
    size_t rows;
} legend;

enum { MARK = 34 };
static const double CHARACTER = 6.5;     /* wider than the mean of common fonts */

static legend legend_of(const table *t, double wide)
{
    char label[LABEL_ROOM];
    size_t longest = 0;
    for (size_t c = 0; c < t->curve_count; c++) {
        label_of(t, c, label);
        longest = strlen(label) > longest ? strlen(label) : longest;
    }
    const double room = (double)longest * CHARACTER + MARK + 24;
    const size_t columns = wide > 2 * room ? (size_t)(wide / room) : 1;
    return (legend){room, (t->curve_count + columns - 1) / columns};
}

static void write_legend(FILE *file, const table *t, const legend *l, int top)
{
    char label[LABEL_ROOM];
    for (size_t c = 0; c < t->curve_count; c++) {
        const double x = LEFT + l->room * (double)(c / l->rows), y = top + LEGEND * (double)(c % l->rows);
        label_of(t, c, label);
        fprintf(file, "<line x1=\"%.1f\" y1=\"%.1f\" x2=\"%.1f\" y2=\"%.1f\" stroke=\"%s\" stroke-width=\"1.6\"/>", x, y, x + MARK, y, colours[c % COLOURS]);
        write_mark(file, x + MARK / 2.0, y, c);
        fprintf(file, "<text x=\"%.1f\" y=\"%.1f\">", x + MARK + 8, y + 4);
        write_text(file, label);
        fputs("</text>\n", file);
    }
}

static int order_of_points(const void *left, const void *right)
{
    const point *a = left, *b = right;
    return a->rate < b->rate ? -1 : a->rate > b->rate;
}

/* The same table with its points in the order of their rates, in which they are joined by lines. */
static table sorted(const table *t)
{
    table copy = *t;
    copy.points = take(t->point_count, sizeof *t->points);
    if (t->point_count > 0) {
        memcpy(copy.points, t->points, t->point_count * sizeof *t->points);
        qsort(copy.points, t->point_count, sizeof *t->points, order_of_points);
    }
    return copy;
}

void plot(FILE *file, const table *unsorted, const panel *panels, size_t panel_count)
{
    char common[LABEL_ROOM];
    const table copy = sorted(unsorted), *t = &copy;
    const double wide = (double)panel_count * (WIDE + BETWEEN) - BETWEEN, whole = LEFT + wide + RIGHT;
    const legend l = legend_of(t, wide);
    const int below = TOP + HIGH + 66, note = below + LEGEND * (int)l.rows + 6;
    common_of(t, common);
    fprintf(file, "<svg xmlns=\"http://www.w3.org/2000/svg\" viewBox=\"0 0 %.0f %d\" width=\"%.0f\" height=\"%d\" "
                  "font-family=\"Helvetica, Arial, 'DejaVu Sans', sans-serif\" font-size=\"12\">\n", whole, note + 16, whole, note + 16);
    fprintf(file, "<rect width=\"100%%\" height=\"100%%\" fill=\"white\"/>\n");
    fprintf(file, "<text x=\"%d\" y=\"22\" font-size=\"14\">Bauchleton %s: ", LEFT, BAUCHLETON_VERSION_TEXT);
    write_text(file, common);
    fputs("</text>\n", file);
    for (size_t k = 0; k < panel_count; k++) {
        const axes a = axes_of(t, panels[k], LEFT + (double)k * (WIDE + BETWEEN));
        write_axes(file, &a, panels[k]);
        for (size_t c = 0; c < t->curve_count; c++)
            write_curve(file, t, c, &a, panels[k]);
    }
    write_legend(file, t, &l, below);
    fprintf(file, "<text x=\"%d\" y=\"%d\" fill=\"#444444\">Bars: 95 %% confidence. Open triangle with an arrow: no error was seen; its tip is the upper limit."
                  "</text>\n</svg>\n", LEFT, note);
    free(copy.points);
}
