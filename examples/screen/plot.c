#include "plot.h"

#include <inttypes.h>
#include <stdio.h>
#include <string.h>

#include "text.h"

enum { LEAST_TICKS = 4 };

static int nearest(double place) { return (int)(place + 0.5); }
static int column_of(const struct plot *p, uint64_t tick) { return nearest(axis_place(p->ticks, (double)tick, COLUMNS)); }
static int row_of(const struct plot *p, double bits) { return nearest(axis_place(p->bits, bits, ROWS)); }

/* Axes that show both measures with some room beyond them, and the curve up to the last tick shown. */
static void choose_axes(struct plot *p)
{
    const struct measure *m = &p->measure;
    uint64_t ticks = m->late + m->delay > m->full ? m->late + m->delay : m->full;
    ticks += ticks / 6 + 1;
    p->ticks = axis_for(ticks < LEAST_TICKS ? LEAST_TICKS : ticks);
    p->curve_end = p->ticks.end < LAST_TICK ? p->ticks.end : LAST_TICK;
    uint64_t bits = 0;
    ask_come(&p->curve, p->curve_end, &bits);
    if (bits == 0 && !only_delays(p->server))
        ask_served(p->server, p->ticks.end, &bits);
    p->bits = axis_for(bits + bits / 20 + 1);
}

static void put_mark(struct plot *p, int column, int row, enum mark mark)
{
    if (column < 0 || column > COLUMNS || row < 0 || row > ROWS)
        return;
    char *cell = &p->board[row][column];
    if (mark == CURVE_MARK && *cell == SERVED_MARK && column % 2 == 1)
        return; /* where the two lines are one, their marks take turns */
    *cell = (char)mark;
}

/* What has come, or what is served, by a tick. */
static uint64_t ask_line(const struct plot *p, enum mark line, uint64_t tick, uint64_t *bits)
{
    return line == CURVE_MARK ? ask_come(&p->curve, tick, bits) : ask_served(p->server, tick, bits);
}

/* The row at which a line starts: the curve at its value at tick 0, from where it steps to the burst. */
static int start_row(const struct plot *p, enum mark line)
{
    uint64_t bits = 0;
    if (line == CURVE_MARK)
        ask_value(&p->curve, 0, &bits);
    else
        ask_served(p->server, 0, &bits);
    return row_of(p, (double)bits);
}

/* A line over all columns, straight between two ticks. It ends where the library tells no value. */
static void put_line(struct plot *p, enum mark line)
{
    int before = start_row(p, line) - 1;
    for (int column = 0; column <= COLUMNS; column++) {
        double at = (double)p->ticks.end * column / COLUMNS;
        uint64_t tick = (uint64_t)at, low = 0, high = 0;
        if (ask_line(p, line, tick, &low) != DUCHRELIN_ANSWERED)
            return;
        if (ask_line(p, line, tick + 1, &high) != DUCHRELIN_ANSWERED)
            high = low;
        double bits = (double)low + (double)(high - low) * (at - (double)tick);
        int row = bits > (double)p->bits.end ? ROWS + 1 : row_of(p, bits);
        for (int r = row <= before ? row : before + 1; r <= row; r++)
            put_mark(p, column, r, line);
        before = row;
    }
}

/* What a device that only delays serves: nothing up to its latency, and there straight up to the top. */
static void put_step(struct plot *p)
{
    int step = column_of(p, p->server.latency);
    for (int column = 0; column < step; column++)
        put_mark(p, column, 0, SERVED_MARK);
    for (int row = 0; row <= ROWS; row++)
        put_mark(p, step, row, SERVED_MARK);
}

static void put_measures(struct plot *p)
{
    const struct measure *m = &p->measure;
    if (m->delay > 0)
        for (int c = column_of(p, m->late); c <= column_of(p, m->late + m->delay); c++)
            put_mark(p, c, row_of(p, (double)m->late_come), DELAY_MARK);
    int low = row_of(p, (double)m->full_served), high = row_of(p, (double)m->full_come);
    if (m->backlog > 0)
        for (int r = low; r <= high; r++)
            if (!only_delays(p->server) || r == low || (high - r) % 2 == 0) /* it lies on the step, and their marks take turns */
                put_mark(p, column_of(p, m->full), r, BACKLOG_MARK);
}

/* How many places of the board a text would cover that are not blank, one more place on each side counted. */
static int covered(const struct plot *p, int row, int column, int length)
{
    int count = 0;
    for (int c = column - 1; c <= column + length; c++)
        if (c >= 0 && c <= COLUMNS && p->board[row][c] != BLANK)
            count++;
    return count;
}

/* Moves a label to a place if it covers less there than where it is, or as much and is nearer to where it should be. */
static void try_place(const struct plot *p, struct label *l, int row, int column, int far, int on_the_left, int *best)
{
    int length = (int)strlen(l->text);
    if (row < 0 || row > ROWS || column < 0 || column + length > COLUMNS + 1)
        return;
    int cost = 100 * covered(p, row, column, length) + far + (row == 0 ? 150 : 0); /* the axis runs through row 0 */
    if (*best >= 0 && cost >= *best)
        return;
    *best = cost;
    l->row = row;
    l->column = column;
    l->on_the_left = on_the_left;
}

/* The backlog's label: beside the vertical, near its middle; or beside its lower end under what is served, or its upper end over the
 * curve. */
static void place_backlog(struct plot *p)
{
    struct label *l = &p->backlog;
    int length = snprintf(l->text, sizeof l->text, "backlog %" PRIu64 " %s", p->measure.backlog,
                          plural(p->measure.backlog, "bit", "bits"));
    int column = column_of(p, p->measure.full), best = -1;
    int low = row_of(p, (double)p->measure.full_served), high = row_of(p, (double)p->measure.full_come);
    for (int row = low; row <= high; row++) {
        int far = 2 * row > low + high ? 2 * row - low - high : low + high - 2 * row;
        for (int off = 0; off <= 8; off++)
            try_place(p, l, row, column + 2 + off, far + 10 * off, 0, &best);
        try_place(p, l, row, column - 1 - length, far + 1, 1, &best);
    }
    for (int beyond = 1; beyond <= 3; beyond++) {
        try_place(p, l, low - beyond, column + 2, 50 + beyond, 0, &best);
        try_place(p, l, high + beyond, column - 1 - length, 60 + beyond, 1, &best);
        try_place(p, l, high + 1 + beyond, column + 2, 70 + beyond, 0, &best);
    }
}

/* The delay's label: over the horizontal or under it, near its middle; or behind its end, where what is served has left its row. The
 * backlog's label is on the board while it is placed. */
static void place_delay(struct plot *p)
{
    struct label *l = &p->delay;
    int length = snprintf(l->text, sizeof l->text, "delay %" PRIu64 " %s", p->measure.delay,
                          plural(p->measure.delay, "tick", "ticks"));
    int from = column_of(p, p->measure.late), to = column_of(p, p->measure.late + p->measure.delay), best = -1;
    int row = row_of(p, (double)p->measure.late_come), middle = (from + to - length + 1) / 2;
    try_place(p, l, row, to + 2, 50, 0, &best);
    try_place(p, l, row, to + 3, 51, 0, &best);
    for (int far = 0; far <= COLUMNS; far++)
        for (int side = -1; side <= 1; side += 2) {
            int column = middle + side * far;
            if (column > to || column + length <= from)
                continue;
            try_place(p, l, row + 1, column, far, 0, &best);
            try_place(p, l, row - 1, column, far + 2, 0, &best);
            try_place(p, l, row + 2, column, far + 40, 0, &best);
            try_place(p, l, row - 2, column, far + 42, 0, &best);
        }
}

static void place_labels(struct plot *p)
{
    if (p->measure.backlog > 0)
        place_backlog(p);
    char kept[COLUMNS + 1];
    char *row = p->board[p->backlog.row];
    memcpy(kept, row, sizeof kept);
    memset(row + p->backlog.column, '?', strlen(p->backlog.text));
    if (p->measure.delay > 0)
        place_delay(p);
    memcpy(row, kept, sizeof kept);
}

uint64_t plot(const struct curve *c, struct server s, struct plot *to)
{
    memset(to, 0, sizeof *to);
    to->curve = *c;
    to->server = s;
    uint64_t code = measure(c, s, &to->measure);
    if (code != DUCHRELIN_ANSWERED)
        return code;
    choose_axes(to);
    memset(to->board, BLANK, sizeof to->board);
    if (only_delays(s))
        put_step(to);
    else
        put_line(to, SERVED_MARK);
    put_line(to, CURVE_MARK);
    put_measures(to);
    place_labels(to);
    return DUCHRELIN_ANSWERED;
}
