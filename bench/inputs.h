/* Inputs for the benchmark: curves of a given count of buckets, all useful, with servers, ticks and files that go with them.
 * Each is drawn from a seed, so that every run asks the same. */
#ifndef INPUTS_H
#define INPUTS_H

#include "plain.h"

struct input {
    uint64_t f[DUCHRELIN_CURVE_NUMBERS], g[DUCHRELIN_CURVE_NUMBERS];
    size_t f_numbers, g_numbers;
    uint64_t tick, frame, edition, kind, rate, latency, next_kind, next_rate, next_latency;
    uint8_t bytes[DUCHRELIN_INPUT_BYTES];
    size_t byte_count;
};

/* How an input of so many buckets is made from a seed. */
typedef void maker(struct input *input, size_t buckets, uint64_t seed);

maker make_one_curve;         /* a curve, and a tick among its crossings */
maker make_curve_and_link;    /* a link that cuts the curve, or just does not */
maker make_shuffled;          /* the same, its buckets in any order */
maker make_mostly_useless;    /* raw buckets of which few are useful */
maker make_two_curves;        /* two curves that cross, the lower of which has at most 64 buckets */
maker make_crossings_apart;   /* two curves of so many buckets, each with crossings of its own */
maker make_crossings_together; /* two curves of so many buckets that have the same crossings */
maker make_crossings_dealt_out; /* two curves whose sum has so many: each crossing is the one's, the other's or both's */
maker make_curve_and_server;  /* a server that cuts the curve at some bucket */
maker make_curve_and_delay;   /* a pure delay that ends among the crossings of the curve */
maker make_servers;           /* two rate-latency servers, and an edition to write the first in */
maker make_server_and_delay;  /* a rate-latency server and a pure delay */
maker make_delays;            /* two pure delays, and an edition */
maker make_cross_and_server;  /* a server that has some service left beside the curve */
maker make_curve_file;
maker make_server_file;
maker make_delay_file;
maker make_route_of_full_curves; /* 32 servers that leave every bucket of the curve */
maker make_route_of_cuts;        /* 32 servers of falling rates, so that each cuts the curve */
maker make_route_of_both_kinds;  /* 32 servers, every second a pure delay; the others cut the curve */

#endif
