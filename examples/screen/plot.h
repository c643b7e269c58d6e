/*
 * The plot of a port: what has come and what is served by each tick, the backlog between them as a vertical and the delay as a
 * horizontal. What a device that only delays serves is a step, from 0 straight up to the top. The plot is worked out on a board of
 * characters; as text the board itself is shown, as SVG the same lines are drawn finer and the labels stand where the board had room
 * for them.
 */
#ifndef PLOT_H
#define PLOT_H

#include "axis.h"
#include "measure.h"

enum { COLUMNS = 60, ROWS = 20, LABEL_BYTES = 48 };

enum mark { BLANK = ' ', SERVED_MARK = '.', CURVE_MARK = '*', BACKLOG_MARK = '#', DELAY_MARK = '=' };

/* A text on the board, in one row from a column on; "" where there is none. */
struct label {
    char text[LABEL_BYTES];
    int row, column;
    int on_the_left; /* it stands on the left of what it belongs to */
};

struct plot {
    struct curve curve;
    struct server server;
    struct measure measure;
    struct axis ticks, bits;
    uint64_t curve_end;                  /* the last tick of the axis at which the library tells the curve's value */
    char board[ROWS + 1][COLUMNS + 1];   /* row 0 is the lowest; the labels are not on it */
    struct label backlog, delay;
};

/* Answers the code; on 0 the plot is in `to`. */
uint64_t plot(const struct curve *c, struct server s, struct plot *to);

#endif
