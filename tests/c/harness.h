/*
 * Calls into the library with every list and buffer in guarded pages, and a tally of named tests.
 *
 * Every list of a call lies against a page that cannot be touched, once before it and once after it, in a page filled with guard
 * bytes. Operands cannot be written while the call runs. After it all pages are compared with what they must hold. An empty list is
 * also passed as NULL.
 */
#ifndef TESTS_C_HARNESS_H
#define TESTS_C_HARNESS_H

#include "duchrelin.h"

#include <stddef.h>
#include <stdint.h>

#define RATE_END (UINT64_C(1) << 20)
#define LATENCY_END (UINT64_C(1) << 20)
#define BURST_END (UINT64_C(1) << 40)
#define TICK_END (UINT64_C(1) << 40)
#define FRAME_END (UINT64_C(1) << 40)
#define MOST UINT64_MAX

/* ---- tests */

/* Begins a test, unless it is the one at hand: all that is checked up to the next belongs to it. */
void test(const char *name);

/* The same, with a text to print and what is to be put into it. */
void testf(const char *format, ...);

/* Something of the test at hand. It is told where it does not hold. */
int check(int holds, const char *what);

/* Ends the last test, prints the last line, and answers what main returns. */
int conclude(void);

/* ---- what is passed */

/* Numbers of a list, or bytes of a file. */
typedef struct {
    const uint64_t *numbers;
    size_t count;
} list;

typedef struct {
    const uint8_t *bytes;
    size_t count;
} file;

typedef struct {
    uint64_t kind;
    uint64_t rate;
    uint64_t latency;
} server;

/* Files are of edition 1 or 2; the first with servers that only delay is 2. */
enum { EDITIONS = 2, DELAY_EDITION = 2 };

/*
 * RAW(3, 20, 10, 2): a list written out, number by number; CURVE(10, 2, 3, 20): the list of a curve whose rates and bursts are these;
 * NONE, EMPTY: without numbers or bytes; FILE_OF(0x11, 0x00): a file; PORT(6, 1): a server with a rate; PURE_DELAY(4): one that
 * only delays; SERVER(3, 0, 4): any three numbers.
 */
#define RAW(...) ((list){(const uint64_t[]){__VA_ARGS__}, sizeof((const uint64_t[]){__VA_ARGS__}) / sizeof(uint64_t)})
#define CURVE(...) curve_of(RAW(__VA_ARGS__))
#define NONE ((list){NULL, 0})
#define FILE_OF(...) ((file){(const uint8_t[]){__VA_ARGS__}, sizeof((const uint8_t[]){__VA_ARGS__})})
#define EMPTY ((file){NULL, 0})
#define SERVER(kind, rate, latency) ((server){kind, rate, latency})
#define PORT(rate, latency) SERVER(DUCHRELIN_KIND_RATE_LATENCY, rate, latency)
#define PURE_DELAY(latency) SERVER(DUCHRELIN_KIND_PURE_DELAY, 0, latency)

/* The curve of the scope. */
#define C CURVE(10, 2, 3, 20)

/* Numbers of a bucket in a raw list; where the rate and the burst of bucket k, counted from 0, stand in a curve's list. */
enum { RAW_NUMBERS = 2 };
#define RATE_OF(k) (DUCHRELIN_BUCKET_NUMBERS * (k))
#define BURST_OF(k) (DUCHRELIN_BUCKET_NUMBERS * (k) + 1)

/* The list of a curve, from its rates and bursts: in lasting memory, or in memory of one's own; the latter answers its length. */
list curve_of(list pairs);
size_t curve_into(uint64_t *numbers, list pairs);

enum call {
    NORMALISE, VALUE, BURST, LOWER, SUM, SHAPE, JOIN, BEHIND, BACKLOG, DELAY, RESIDUAL, READ, WRITE_CURVE, WRITE_SERVER, ROUTE
};

/* A question: the call, and of the rest what that call takes. */
typedef struct {
    enum call call;
    list f, g;
    file file;
    server server, next;
    uint64_t number; /* the tick of value, the link's rate of shape, */
    uint64_t frame;  /* and its longest frame */
    uint64_t edition;
    size_t room;     /* numbers or bytes of the output */
    int untouched;   /* the output can neither be read nor written while the call runs */
} question;

/* Room for every curve, file and text, and more. */
enum { PLENTY = 200, PLENTY_OF_BYTES = 1200 };

/* ---- what must come back */

/* As many figures as a result has behind its code, at the most. */
enum { FIGURES = 5 };

/* The figures behind the code, in the order of the header's struct, 0 where it has fewer; and what stands at the output's start. */
typedef struct {
    uint64_t code;
    uint64_t figures[FIGURES];
    const void *output;
    size_t output_bytes;
} outcome;

outcome refusal(uint64_t code);
outcome figure(uint64_t figure);
outcome curve_answer(list answer);
outcome server_answer(server answer);
outcome file_answer(file answer);

/* Calls, with the lists against each side of their pages, and checks all that comes back and all that the pages hold. */
void gives(question asked, outcome expected);

/* The same for a refusal, with plenty of room and with none: ROOM would hold too, and is larger. A refused server is (2; 0, 0). */
void refuses(question asked, uint64_t code);

/* The same with outputs of each length from `first` to `last`: ROOM below what the answer needs. */
void gives_by_room(question asked, outcome expected, size_t first, size_t last);

/* ---- one for each call: with plenty of room */

question normalise(list raw);
question value(list curve, uint64_t tick);
question burst(list curve);
question lower(list f, list g);
question sum(list f, list g);
question shape(list curve, uint64_t rate, uint64_t frame);
question join(server first, server next);
question behind(list curve, server at);
question backlog(list curve, server at);
question delay(list curve, server at);
question residual(server at, list cross);
question read_file(file input);
question write_curve(uint64_t edition, list curve);
question write_server(uint64_t edition, server written);
question route(file input);

/* ---- lists that last to the end */

uint64_t *room_for(size_t numbers);

/*
 * Stairs: a curve of any length, whose answers are known by a formula. Bucket k of the stairs from `top` has rate top - k and burst
 * k(k+1)/2. Buckets k and k+1 meet at time k+1, so the crossings are 1, 2, 3, ..: all buckets are useful, and so they are in every
 * list that leaves some of them out.
 */
uint64_t stair_burst(uint64_t k);

/* The buckets from, from + step, .. of the stairs from `top`, `buckets` of them: as a raw list and as a curve's. */
list raw_stairs(uint64_t top, uint64_t from, uint64_t step, size_t buckets);
list stairs(uint64_t top, uint64_t from, uint64_t step, size_t buckets);

/* All 64 of the stairs from 63. */
list full_stairs(void);

/* The same list: a curve's with its buckets in the opposite order; with one number changed; with numbers 0 after it. */
list turned(list l);
list with(list l, size_t place, uint64_t number);
list longer(list l, size_t more);

/* ---- files, built bit after bit (profiles.c) */

/* A file that is being built; `bits` of it are there. */
typedef struct {
    uint8_t bytes[1024];
    size_t bits;
} builder;

void put(builder *b, unsigned width, uint64_t number);
void put_curve(builder *b, unsigned edition, list curve);
void put_server(builder *b, unsigned edition, server s);
file built(const builder *b);

/* ---- the tests, by subject */

void figures_tests(void);
void refusal_tests(void);
void curve_tests(void);
void server_tests(void);
void profile_tests(void);
void route_tests(void);

#endif
