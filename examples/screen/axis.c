#include "axis.h"

#include <inttypes.h>
#include <stdio.h>

enum { MOST_STEPS = 8, PLAIN_END = 10000 };

struct axis axis_for(uint64_t needed)
{
    static const uint64_t firsts[] = {1, 2, 5};
    uint64_t ten = 1;
    for (unsigned i = 0;; i = (i + 1) % 3) {
        uint64_t step = firsts[i] * ten;
        uint64_t steps = needed / step + (needed % step != 0);
        if (steps <= MOST_STEPS)
            return (struct axis){.end = (steps == 0 ? 1 : steps) * step, .step = step};
        if (i == 2)
            ten *= 10;
    }
}

struct unit axis_unit(struct axis a)
{
    static const char letters[] = " kMGTPE";
    struct unit u = {' ', 1};
    if (a.end < PLAIN_END)
        return u;
    for (const char *next = letters + 1; *next != '\0' && a.end / u.stands_for >= 1000; next++)
        u = (struct unit){*next, u.stands_for * 1000};
    return u;
}

void axis_mark(struct axis a, uint64_t number, char to[MARK_BYTES])
{
    struct unit u = axis_unit(a);
    if (u.stands_for == 1 || number == 0) {
        snprintf(to, MARK_BYTES, "%" PRIu64, number);
        return;
    }
    /* 8 steps at most reach past the unit, so a step that is not whole units is whole tenths of them. */
    unsigned tenths = (unsigned)(number % u.stands_for / (u.stands_for / 10));
    if (a.step % u.stands_for == 0)
        snprintf(to, MARK_BYTES, "%" PRIu64 "%c", number / u.stands_for, u.letter);
    else
        snprintf(to, MARK_BYTES, "%" PRIu64 ".%u%c", number / u.stands_for, tenths % 10, u.letter);
}

double axis_place(struct axis a, double number, double length) { return number / (double)a.end * length; }
