/* The picture as SVG. The board of the plot is drawn so many pixels wide and high to the character. */
#include <inttypes.h>
#include <string.h>

#include "picture.h"

enum {
    CELL_WIDTH = 11,
    CELL_HEIGHT = 18,
    LEFT = 70,
    TOP = 128,
    WIDTH = LEFT + COLUMNS * CELL_WIDTH + 50,
    BOTTOM = TOP + ROWS * CELL_HEIGHT,
    CAPTION_TOP = BOTTOM + 62,
    LINE_HEIGHT = 20,
    LINE_CHARACTERS = 96,
    MOST_DOTS = 32 /* with so many ticks or fewer, each whole tick has its dot */
};

#define CURVE_COLOUR "#0072b2"
#define SERVED_COLOUR "#333333"
#define BACKLOG_COLOUR "#c43c00"
#define DELAY_COLOUR "#00785a"
#define WARNING_COLOUR "#b00020"

static double x_of(const struct plot *d, double tick) { return LEFT + axis_place(d->ticks, tick, COLUMNS * CELL_WIDTH); }
static double y_of(const struct plot *d, double bits) { return BOTTOM - axis_place(d->bits, bits, ROWS * CELL_HEIGHT); }

/* Text with the characters replaced that mean something in SVG. */
static void put_text(FILE *to, const char *text)
{
    for (; *text != '\0'; text++)
        switch (*text) {
        case '&': fputs("&amp;", to); break;
        case '<': fputs("&lt;", to); break;
        case '>': fputs("&gt;", to); break;
        default: fputc(*text, to);
        }
}

static void put_words(FILE *to, double x, double y, const char *look, const char *text)
{
    fprintf(to, "<text x=\"%.1f\" y=\"%.1f\"%s%s>", x, y, *look == '\0' ? "" : " ", look);
    put_text(to, text);
    fputs("</text>\n", to);
}

static void put_head(FILE *to, const struct picture *p, int height)
{
    fprintf(to,
            "<?xml version=\"1.0\" encoding=\"UTF-8\"?>\n"
            "<svg xmlns=\"http://www.w3.org/2000/svg\" width=\"%d\" height=\"%d\" viewBox=\"0 0 %d %d\" role=\"img\" "
            "font-family=\"DejaVu Sans, Verdana, Arial, sans-serif\" font-size=\"12\" fill=\"#222222\">\n<title>",
            (int)WIDTH, height, (int)WIDTH, height);
    put_text(to, p->title);
    fputs("</title>\n<desc>", to);
    put_text(to, p->backlog);
    fputs("; ", to);
    put_text(to, p->delay);
    fprintf(to,
            "</desc>\n<rect width=\"%d\" height=\"%d\" fill=\"#ffffff\"/>\n"
            "<clipPath id=\"board\"><rect x=\"%d\" y=\"%d\" width=\"%d\" height=\"%d\"/></clipPath>\n",
            (int)WIDTH, height, LEFT - 4, (int)TOP, COLUMNS * CELL_WIDTH + 8, ROWS * CELL_HEIGHT + 4);
}

static void put_axes(FILE *to, const struct plot *d)
{
    char mark[MARK_BYTES];
    fputs("<g stroke=\"#dddddd\">\n", to);
    for (uint64_t n = d->ticks.step; n <= d->ticks.end; n += d->ticks.step)
        fprintf(to, "<path d=\"M%.1f %dV%d\"/>\n", x_of(d, (double)n), (int)TOP, (int)BOTTOM);
    for (uint64_t n = d->bits.step; n <= d->bits.end; n += d->bits.step)
        fprintf(to, "<path d=\"M%d %.1fH%d\"/>\n", (int)LEFT, y_of(d, (double)n), LEFT + COLUMNS * CELL_WIDTH);
    fprintf(to, "</g>\n<path d=\"M%d %dV%dH%d\" fill=\"none\" stroke=\"#222222\"/>\n", (int)LEFT, (int)TOP, (int)BOTTOM,
            LEFT + COLUMNS * CELL_WIDTH);
    for (uint64_t n = 0; n <= d->ticks.end; n += d->ticks.step) {
        axis_mark(d->ticks, n, mark);
        put_words(to, x_of(d, (double)n), BOTTOM + 18, "text-anchor=\"middle\"", mark);
    }
    for (uint64_t n = 0; n <= d->bits.end; n += d->bits.step) {
        axis_mark(d->bits, n, mark);
        put_words(to, LEFT - 8, y_of(d, (double)n) + 4, "text-anchor=\"end\"", mark);
    }
    put_words(to, LEFT - 8, TOP - 18, "text-anchor=\"end\" font-weight=\"bold\"", "bits");
    put_words(to, LEFT + COLUMNS * CELL_WIDTH, BOTTOM + 36, "text-anchor=\"end\" font-weight=\"bold\"", "ticks");
}

/* The curve, from its value at 0 up to the burst and on: the library is asked at most once for each pixel, and a point on the straight
 * line between its neighbours is left out. */
static void put_curve(FILE *to, const struct plot *d)
{
    uint64_t stride = d->curve_end / (COLUMNS * CELL_WIDTH) + 1, tick = 0, start = 0, bits = 0, rise = UINT64_MAX;
    ask_value(&d->curve, 0, &start);
    ask_come(&d->curve, 0, &bits);
    fprintf(to, "<path d=\"M%.1f %.1fV%.1f", x_of(d, 0), y_of(d, (double)start), y_of(d, (double)bits));
    while (tick < d->curve_end) {
        uint64_t next_tick = d->curve_end - tick < stride ? d->curve_end : tick + stride, next = 0;
        ask_come(&d->curve, next_tick, &next);
        if (tick > 0 && (next - bits != rise || next_tick - tick != stride))
            fprintf(to, "L%.1f %.1f", x_of(d, (double)tick), y_of(d, (double)bits));
        rise = next - bits;
        bits = next;
        tick = next_tick;
    }
    fprintf(to, "L%.1f %.1f\" fill=\"none\" stroke=\"" CURVE_COLOUR "\" stroke-width=\"3.5\"/>\n", x_of(d, (double)tick),
            y_of(d, (double)bits));
}

/* What is served: flat up to the latency, and straight from there to the last tick that can be asked for; if it only delays, straight
 * up. */
static void put_served(FILE *to, const struct plot *d)
{
    uint64_t from = d->server.latency < d->ticks.end ? d->server.latency : d->ticks.end, bits = 0;
    uint64_t end = d->ticks.end - from < LAST_TICK ? d->ticks.end : from + LAST_TICK;
    ask_served(d->server, end, &bits);
    double x = x_of(d, (double)end), y = y_of(d, (double)bits);
    if (only_delays(d->server)) {
        x = x_of(d, (double)from);
        y = TOP;
    } else if (y < TOP) { /* it leaves the board at the top */
        x = x_of(d, (double)from) + (x - x_of(d, (double)from)) * (BOTTOM - TOP) / (BOTTOM - y);
        y = TOP;
    }
    fprintf(to, "<path d=\"M%.1f %dH%.1fL%.1f %.1f\" fill=\"none\" stroke=\"" SERVED_COLOUR
                "\" stroke-width=\"2\" stroke-dasharray=\"7 4\"/>\n",
            x_of(d, 0), (int)BOTTOM, x_of(d, (double)from), x, y);
}

/* The values at whole ticks, and at tick 0 a ring for the burst. */
static void put_dots(FILE *to, const struct plot *d)
{
    uint64_t burst = 0;
    if (d->ticks.end > MOST_DOTS)
        return;
    ask_burst(&d->curve, &burst);
    if (burst > 0)
        fprintf(to, "<circle cx=\"%.1f\" cy=\"%.1f\" r=\"3.5\" fill=\"#ffffff\" stroke=\"" CURVE_COLOUR "\" stroke-width=\"2\"/>\n",
                x_of(d, 0), y_of(d, (double)burst));
    for (uint64_t tick = 0; tick <= d->ticks.end; tick++) {
        uint64_t value = 0, served = 0;
        ask_value(&d->curve, tick, &value);
        ask_served(d->server, tick, &served);
        double x = x_of(d, (double)tick);
        fprintf(to, "<circle cx=\"%.1f\" cy=\"%.1f\" r=\"3\" fill=\"" CURVE_COLOUR "\"/>\n", x, y_of(d, (double)value));
        if (served <= d->bits.end)
            fprintf(to, "<circle cx=\"%.1f\" cy=\"%.1f\" r=\"3\" fill=\"" SERVED_COLOUR "\"/>\n", x, y_of(d, (double)served));
    }
}

/* A label with a white rim, so that it can be read over a line. */
static void put_label(FILE *to, const struct label *l, const char *anchor, double x, const char *colour)
{
    char look[256];
    snprintf(look, sizeof look,
             "text-anchor=\"%s\" font-size=\"13\" font-weight=\"bold\" fill=\"%s\" stroke=\"#ffffff\" stroke-width=\"4\" "
             "stroke-linejoin=\"round\" paint-order=\"stroke\"",
             anchor, colour);
    put_words(to, x, BOTTOM - l->row * CELL_HEIGHT + 4.5, look, l->text);
}

/* The two measures, each with a bar at either end; wider where what is served, as a step, lies on one of them and is drawn over it. */
static void put_measures(FILE *to, const struct plot *d)
{
    const struct measure *m = &d->measure;
    int step_width = only_delays(d->server) ? 6 : 3;
    if (m->delay > 0)
        fprintf(to, "<path d=\"M%.1f %.1fv10m0 -5H%.1fm0 -5v10\" fill=\"none\" stroke=\"" DELAY_COLOUR "\" stroke-width=\"%d\"/>\n",
                x_of(d, (double)m->late), y_of(d, (double)m->late_come) - 5, x_of(d, (double)(m->late + m->delay)),
                m->late_come == 0 ? step_width : 3);
    if (m->backlog > 0)
        fprintf(to, "<path d=\"M%.1f %.1fh10m-5 0V%.1fm-5 0h10\" fill=\"none\" stroke=\"" BACKLOG_COLOUR "\" stroke-width=\"%d\"/>\n",
                x_of(d, (double)m->full) - 5, y_of(d, (double)m->full_served), y_of(d, (double)m->full_come), step_width);
}

static void put_labels(FILE *to, const struct plot *d)
{
    const struct label *backlog = &d->backlog, *delay = &d->delay;
    if (*delay->text != '\0')
        put_label(to, delay, "middle", LEFT + (delay->column + ((double)strlen(delay->text) - 1) / 2) * CELL_WIDTH, DELAY_COLOUR);
    if (*backlog->text != '\0' && backlog->on_the_left)
        put_label(to, backlog, "end", LEFT + (backlog->column + (double)strlen(backlog->text)) * CELL_WIDTH, BACKLOG_COLOUR);
    else if (*backlog->text != '\0')
        put_label(to, backlog, "start", LEFT + (backlog->column - 1) * CELL_WIDTH, BACKLOG_COLOUR);
}

/* The names of the two lines, each with a piece of its line, and the authors to check. */
static void put_legend(FILE *to, const struct picture *p)
{
    put_words(to, LEFT, 24, "font-size=\"16\" font-weight=\"bold\"", p->title);
    fprintf(to, "<path d=\"M%d 46h36\" stroke=\"" CURVE_COLOUR "\" stroke-width=\"3.5\"/>\n", (int)LEFT);
    put_words(to, LEFT + 46, 50, "", p->traffic);
    fprintf(to, "<path d=\"M%d 66h36\" stroke=\"" SERVED_COLOUR "\" stroke-width=\"2\" stroke-dasharray=\"7 4\"/>\n", (int)LEFT);
    put_words(to, LEFT + 46, 70, "", p->served);
    if (*p->authors != '\0')
        put_words(to, LEFT, 92, "font-weight=\"bold\" fill=\"" WARNING_COLOUR "\"", p->authors);
}

/* A caption in lines; answers how many. Where `to` is NULL they are only counted. */
static int put_caption(FILE *to, int line, const char *look, const char *text)
{
    int lines = 0;
    for (size_t length; *text != '\0'; text += length + strspn(text + length, " ")) {
        char part[LINE_CHARACTERS + 1] = "";
        length = strlen(text);
        if (length > LINE_CHARACTERS)
            for (length = LINE_CHARACTERS; length > 1 && text[length] != ' ';)
                length--;
        memcpy(part, text, length);
        if (to != NULL)
            put_words(to, LEFT, CAPTION_TOP + (line + lines) * LINE_HEIGHT, look, part);
        lines++;
    }
    return lines;
}

static int put_captions(FILE *to, const struct picture *p)
{
    int line = 0;
    line += put_caption(to, line, "fill=\"" BACKLOG_COLOUR "\"", p->backlog);
    line += put_caption(to, line, "fill=\"" DELAY_COLOUR "\"", p->delay);
    line += put_caption(to, line, "fill=\"#555555\"", p->marks);
    line += put_caption(to, line, "fill=\"#555555\"", p->ends);
    return line;
}

void picture_svg(const struct picture *p, FILE *to)
{
    put_head(to, p, CAPTION_TOP + put_captions(NULL, p) * LINE_HEIGHT);
    put_legend(to, p);
    put_axes(to, &p->plot);
    int step = only_delays(p->plot.server);
    fputs("<g clip-path=\"url(#board)\">\n", to);
    put_curve(to, &p->plot);
    if (!step)
        put_served(to, &p->plot); /* over the curve, which shows between its dashes where the two are one */
    put_dots(to, &p->plot);
    fputs("</g>\n", to);
    put_measures(to, &p->plot);
    if (step)
        put_served(to, &p->plot); /* over the measures too: the backlog lies on the step, and the delay may lie on the flat part */
    put_labels(to, &p->plot);
    put_captions(to, p);
    fputs("</svg>\n", to);
}
