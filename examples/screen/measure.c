#include "measure.h"

/* Whether the tick after this one brings more bits than the port serves in a tick. Codes need no look here: the curve and the port have
 * been answered for, and the ticks are in range. */
static int outpaces(const struct curve *c, struct server s, uint64_t tick)
{
    uint64_t now = 0, next = 0, pace = 0;
    ask_come(c, tick, &now);
    ask_come(c, tick + 1, &next);
    ask_served(s, s.latency + 1, &pace);
    return next - now > pace;
}

/* The first tick from `from` on after which the traffic no longer outpaces the port. A curve never bends upwards, so once it is
 * outpaced it stays so, and halving finds the tick. What waits is greatest there, if the port serves from `from` on. */
static uint64_t slow_down(const struct curve *c, struct server s, uint64_t from)
{
    uint64_t low = from, high = LAST_TICK;
    while (low < high) {
        uint64_t middle = low + (high - low) / 2;
        if (outpaces(c, s, middle))
            low = middle + 1;
        else
            high = middle;
    }
    return low;
}

/* A tick for which one tick less than the delay is too short. It is the one at which a port without latency would hold the most; and
 * where such a port would never hold any, tick 1, since then the delay is the latency alone. A device that only delays does so by as
 * much at every tick; from tick 0 on the delay ends where the service steps up. */
static uint64_t latest(const struct curve *c, struct server s)
{
    if (only_delays(s))
        return 0;
    struct server without = s;
    without.latency = 0;
    uint64_t tick = slow_down(c, without, 0), come = 0, served = 0;
    ask_come(c, tick, &come);
    ask_served(without, tick, &served);
    return come > served ? tick : 1;
}

uint64_t measure(const struct curve *c, struct server s, struct measure *to)
{
    *to = (struct measure){0};
    uint64_t code = ask_backlog(c, s, &to->backlog);
    if (code == DUCHRELIN_ANSWERED)
        code = ask_delay(c, s, &to->delay);
    if (code != DUCHRELIN_ANSWERED)
        return code;
    /* Up to its latency the port serves nothing, so the most waits at the latency or later. */
    to->full = slow_down(c, s, s.latency);
    ask_come(c, to->full, &to->full_come);
    ask_served(s, to->full, &to->full_served);
    if (to->delay > 0) {
        to->late = latest(c, s);
        ask_come(c, to->late, &to->late_come);
    }
    return DUCHRELIN_ANSWERED;
}
