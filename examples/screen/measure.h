/* Where the two figures of a port are measured: the ticks are found by asking the library for the curve's values. */
#ifndef MEASURE_H
#define MEASURE_H

#include "ask.h"

struct measure {
    uint64_t backlog, delay;
    uint64_t full;                  /* a tick at which the backlog waits: so many bits have come by it, */
    uint64_t full_come, full_served; /* and so many are served */
    uint64_t late;                  /* with a delay of 1 or more, a tick for which one tick less is too short: */
    uint64_t late_come;             /* so many bits have come by it, and are served by late + delay; or right after, if it only delays */
};

/* Answers the code; on 0 the measures are in `to`. */
uint64_t measure(const struct curve *c, struct server s, struct measure *to);

#endif
