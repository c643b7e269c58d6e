/* A route: traffic through ports, hop by hop and as one; it may come to the first one over a link. A device that only delays is a hop
 * as any port is, and spoken of as one here. */
#ifndef ROUTE_H
#define ROUTE_H

#include "store.h"

/* What is asked at a profile, in the order of asking. */
enum question { READING, SHAPING, JOINING, BACKLOG, DELAY, BEHIND, QUESTIONS };

/* A hop: its port, the curve that enters it, and its two figures. */
struct hop {
    struct entry entry;
    struct server server;
    struct curve enters;
    uint64_t backlog, delay;
};

struct route {
    struct entry traffic;
    int over_link;      /* the traffic comes over a link, */
    struct link link;   /* this one, */
    struct curve comes; /* and comes to the first port as this curve */
    size_t hop_count;
    struct hop hops[DUCHRELIN_MOST_SERVERS];
    struct server joined; /* all ports as one, and the figures there of what comes */
    uint64_t backlog, delay;
    uint64_t code;       /* 0, or the number of the earliest refusal, */
    size_t place;        /* its profile, the traffic being 1, */
    enum question asked; /* and what had been asked */
};

/* Loads the traffic and the ports by their names: one of traffic, then 1 to 32 ports, and no link. Complains and answers FAILED where
 * one cannot be read at all. */
int route_load(struct route *r, const struct store *s, char **names, size_t count);
void route_free(struct route *r);

/* Asks the library for all figures. ANSWERED, or REFUSED: then r has the code and the place, and no figure counts. */
int route_run(struct route *r);

/* The entry of a profile by its place, the traffic being 1. */
const struct entry *route_entry(const struct route *r, size_t place);

/* How many hops of an answered route are devices that only delay. */
size_t route_delays(const struct route *r);

#endif
