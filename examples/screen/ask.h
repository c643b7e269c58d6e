/*
 * The screen asks the library here and nowhere else: one function for each call. Each answers the call's code, and on 0 leaves the
 * answer in `to`. A curve is known by `struct curve`, a port by `struct server`, and a device that only delays as a port is; how many
 * numbers a bucket has and what a port is passed as is said in ask.c alone.
 */
#ifndef ASK_H
#define ASK_H

#include "duchrelin.h"

/* A curve in normal form. */
struct curve {
    uint64_t count; /* of buckets */
    uint64_t numbers[DUCHRELIN_CURVE_NUMBERS];
};

/* A port, of kind DUCHRELIN_KIND_RATE_LATENCY; or a device that only delays, of kind DUCHRELIN_KIND_PURE_DELAY and rate 0. */
struct server {
    uint64_t kind, rate, latency;
};

/* A link on the way to a port: its rate, and its longest frame in bits, 0 where it hands on bit by bit. */
struct link {
    uint64_t rate, frame;
};

/* What a file holds: by its kind, the one or the other. */
struct profile {
    uint64_t edition, kind;
    struct curve curve;
    struct server server;
};

/* The last tick at which the library tells a curve's value. */
#define LAST_TICK ((UINT64_C(1) << 40) - 1)

/* What a device that only delays has served after its latency: more than any number of bits that there can be. */
#define WITHOUT_LIMIT UINT64_MAX

/* Whether it is a device that only delays. */
int only_delays(struct server s);

/* Rate and burst of a curve's bucket, counted from 0; the last bucket's rate is the traffic's in the long run. */
uint64_t bucket_rate(const struct curve *c, uint64_t bucket);
uint64_t bucket_burst(const struct curve *c, uint64_t bucket);
uint64_t long_run_rate(const struct curve *c);

/* The profile in a file. */
uint64_t ask_read(const uint8_t *file, size_t bytes, struct profile *to);

/* The bits that can come at once; the curve's value at a tick, which is 0 at tick 0; and what a port must be ready for by a tick: at 0
 * the bits at once, later the value. */
uint64_t ask_burst(const struct curve *c, uint64_t *to);
uint64_t ask_value(const struct curve *c, uint64_t tick, uint64_t *to);
uint64_t ask_come(const struct curve *c, uint64_t tick, uint64_t *to);

/* The bits that a port has served by a tick; of a device that only delays none up to its latency, and then WITHOUT_LIMIT. */
uint64_t ask_served(struct server s, uint64_t tick, uint64_t *to);

/* The curve as it comes over a link. */
uint64_t ask_shape(const struct curve *c, struct link l, struct curve *to);

/* The two ports as one; the curve behind a port; the most bits that wait there; the delay there. */
uint64_t ask_join(struct server s, struct server next, struct server *to);
uint64_t ask_behind(const struct curve *c, struct server s, struct curve *to);
uint64_t ask_backlog(const struct curve *c, struct server s, uint64_t *to);
uint64_t ask_delay(const struct curve *c, struct server s, uint64_t *to);

#endif
