/* An axis from 0 on, in steps that can be read. */
#ifndef AXIS_H
#define AXIS_H

#include <stdint.h>

struct axis {
    uint64_t end, step; /* the end is a whole count of steps, and a step is 1, 2 or 5 with zeros behind it */
};

/* The axis that shows all up to `needed`, which is below 2^63, in 8 steps at most. */
struct axis axis_for(uint64_t needed);

/* A step's number as it stands at the axis: "0", "400", "1.5M" (k, M, G, T, P, E: thousands, millions and so on). */
enum { MARK_BYTES = 48 };
void axis_mark(struct axis a, uint64_t number, char to[MARK_BYTES]);

/* The letter of an axis's marks, and what it stands for; ' ' and 1 where they have none. */
struct unit {
    char letter;
    uint64_t stands_for;
};
struct unit axis_unit(struct axis a);

/* Where a number stands on an axis of `length`. */
double axis_place(struct axis a, double number, double length);

#endif
