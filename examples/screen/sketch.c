/* The picture as text. */
#include <string.h>

#include "picture.h"
#include "text.h"

enum { MARGIN = 7 }; /* columns before the board */

/* The row or column at which a step of an axis stands. */
static int step_place(struct axis a, uint64_t number, int length) { return (int)(axis_place(a, (double)number, length) + 0.5); }

static void put_row(const struct plot *d, int row)
{
    char line[COLUMNS + 2] = "", mark[MARK_BYTES] = "";
    memcpy(line, d->board[row], COLUMNS + 1);
    const struct label *labels[] = {&d->backlog, &d->delay};
    for (int i = 0; i < 2; i++)
        if (labels[i]->row == row)
            memcpy(line + labels[i]->column, labels[i]->text, strlen(labels[i]->text));
    for (uint64_t n = 0; n <= d->bits.end; n += d->bits.step)
        if (step_place(d->bits, n, ROWS) == row)
            axis_mark(d->bits, n, mark);
    size_t end = COLUMNS + 1;
    while (end > 0 && line[end - 1] == ' ')
        line[--end] = '\0';
    if (line[0] == ' ' || line[0] == '\0')
        line[0] = *mark != '\0' ? '+' : '|'; /* the axis, where nothing else is to be seen */
    printf("%*s %s\n", MARGIN - 1, mark, line);
}

static void put_tick_axis(struct axis a)
{
    char line[MARGIN + COLUMNS + MARK_BYTES], marks[MARGIN + COLUMNS + MARK_BYTES];
    memset(line, '-', sizeof line);
    memset(marks, ' ', sizeof marks);
    for (uint64_t n = 0; n <= a.end; n += a.step) {
        char mark[MARK_BYTES];
        axis_mark(a, n, mark);
        int column = MARGIN + step_place(a, n, COLUMNS);
        line[column] = '+';
        memcpy(marks + column - (int)strlen(mark) / 2, mark, strlen(mark));
    }
    printf("%*s%.*s\n", MARGIN, "", COLUMNS + 1, line + MARGIN);
    size_t end = sizeof marks;
    while (marks[end - 1] == ' ')
        end--;
    printf("%.*s  ticks\n", (int)end, marks);
}

static void put_caption(char mark, const char *text)
{
    if (*text == '\0')
        return;
    printf("  %c  ", mark);
    put_lines(stdout, 5, 5, text);
}

void picture_text(const struct picture *p)
{
    put_lines(stdout, 0, 2, p->title);
    printf("\n%*s\n", MARGIN - 1, "bits");
    for (int row = ROWS; row >= 0; row--)
        put_row(&p->plot, row);
    put_tick_axis(p->plot.ticks);
    printf("\n");
    put_caption(CURVE_MARK, p->traffic);
    put_caption(SERVED_MARK, p->served);
    put_caption(BACKLOG_MARK, p->backlog);
    put_caption(DELAY_MARK, p->delay);
    put_caption(' ', p->marks);
    put_caption(' ', p->ends);
}
