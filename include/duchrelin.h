/*
 * Duchrelin: the delays of a network, for C, at whole ticks and whole bits. Link with libduchrelin.a (x86-64 Linux).
 *
 * Curves. A curve is 1 to 64 buckets in a list of 64-bit numbers, two for each: its rate, then its burst. A rate is 0 to 2^20-1
 * bits a tick, a burst 0 to 2^40-1 bits. Every function but duchrelin_normalise takes curves in normal form and refuses others.
 *
 * Servers. A server is a switch port, or another device on the way, and is passed as three numbers: kind, rate, latency. Of kind
 * DUCHRELIN_KIND_RATE_LATENCY it has a rate, 1 to 2^20-1 bits a tick, and a latency, 0 to 2^20-1 ticks: by tick t it has served
 * rate * (t - latency) bits, and none up to its latency. Of kind DUCHRELIN_KIND_PURE_DELAY it only delays: it has no rate, so 0 is
 * passed for it, and a latency in the same range; it has served nothing up to its latency, and after it all there is.
 *
 * Lists. A list is passed as a pointer and its count of NUMBERS, which is DUCHRELIN_BUCKET_NUMBERS times the count of buckets; a
 * file or a buffer as a pointer and its count of bytes. The pointer is aligned as for its type, and all that the count covers can
 * be read, and in an output written. Of a list of count 0 nothing is read or written, so its pointer may be any, NULL too. Two
 * operands may be the same list. An output overlaps no other list of the call, and nothing else touches a list while the call
 * runs: this is the caller's part, and nothing checks it. An output list may be a part of a larger table.
 *
 * Answers. Code 0: the answer is in the result and, for a curve, a file or a text, at the start of the output; what lies beyond it
 * there stays. An answered curve is in normal form: `count` buckets, so DUCHRELIN_BUCKET_NUMBERS * count numbers. An output list
 * of DUCHRELIN_CURVE_NUMBERS numbers has room for every curve, a buffer of DUCHRELIN_FILE_BYTES for every file, one of
 * DUCHRELIN_TEXT_BYTES for every text of a route.
 *
 * Refusals. Any other code is one of the numbers below, the smallest that applies over all operands. Every count and figure is then
 * 0, and no list or buffer has changed.
 *
 * Every call ends. None allocates, keeps anything between calls or calls the system, so calls on separate lists may run at the
 * same time. duchrelin_route takes less than 8 KiB of stack, each other function less than 4 KiB.
 *
 * duchrelin_words.h has each code in words. examples/header.c runs the examples that stand below.
 */
#ifndef DUCHRELIN_H
#define DUCHRELIN_H

#include <stddef.h>
#include <stdint.h>

#ifdef __cplusplus
extern "C" {
#endif

/* The codes. */
enum {
    DUCHRELIN_ANSWERED = 0,
    DUCHRELIN_HEADER = 1,    /* a file is empty, or its edition has no such kind; in a route, not the kind that is due; for a writer, an
                                edition that has no such kind */
    DUCHRELIN_LENGTH = 2,    /* a file has not the bytes that its header asks for, or is a curve's first byte alone */
    DUCHRELIN_PAD = 3,       /* a padding bit is 1 */
    DUCHRELIN_LIST = 4,      /* a list of buckets without a number, or with an odd number of them */
    DUCHRELIN_COUNT = 5,     /* a curve list has over 64 buckets; a route has over 32 servers */
    DUCHRELIN_RANGE = 6,     /* a number out of its range: of a bucket, of a server (its kind too), a tick, a link's rate or frame */
    DUCHRELIN_FORM = 7,      /* a curve is not in normal form */
    DUCHRELIN_UNBOUNDED = 8, /* the curve's last rate is too large for the server's */
    DUCHRELIN_LARGE = 9,     /* the exact answer would have more than 64 buckets, or a number out of range */
    DUCHRELIN_ROOM = 10      /* the output is shorter than the answer */
};

/* The kinds of a profile; the last two are those of a server. Files of edition 1 have the first two, those of edition 2 all three. */
enum {
    DUCHRELIN_KIND_CURVE = 1,
    DUCHRELIN_KIND_RATE_LATENCY = 2,
    DUCHRELIN_KIND_PURE_DELAY = 3
};

/* Sizes: numbers for one bucket; most buckets of a curve, and its numbers; bytes of the longest file; most servers of a route; bytes
 * of the longest text of a route; bytes of a route's input that decide it, whatever follows. */
enum {
    DUCHRELIN_BUCKET_NUMBERS = 2,
    DUCHRELIN_MOST_BUCKETS = 64,
    DUCHRELIN_CURVE_NUMBERS = DUCHRELIN_BUCKET_NUMBERS * DUCHRELIN_MOST_BUCKETS,
    DUCHRELIN_FILE_BYTES = 482,
    DUCHRELIN_MOST_SERVERS = 32,
    DUCHRELIN_TEXT_BYTES = 1145,
    DUCHRELIN_INPUT_BYTES = 675
};

/* Ends of ranges: a rate, a burst, a latency, a tick and a link's longest frame are below these. (The rate of a port and of a link is
 * at least 1.) */
#define DUCHRELIN_RATE_END (UINT64_C(1) << 20)
#define DUCHRELIN_BURST_END (UINT64_C(1) << 40)
#define DUCHRELIN_LATENCY_END (UINT64_C(1) << 20)
#define DUCHRELIN_TICK_END (UINT64_C(1) << 40)
#define DUCHRELIN_FRAME_END (UINT64_C(1) << 40)

/* A code, and the count of buckets of the curve in the output list. */
typedef struct duchrelin_answer {
    uint64_t code;
    uint64_t count;
} duchrelin_answer;

/* A code and a figure. */
typedef struct duchrelin_figure {
    uint64_t code;
    uint64_t figure;
} duchrelin_figure;

/* A code and a server; for a refusal the kind is DUCHRELIN_KIND_RATE_LATENCY, and its numbers are 0. */
typedef struct duchrelin_server {
    uint64_t code;
    uint64_t kind;
    uint64_t rate;
    uint64_t latency;
} duchrelin_server;

/* A code and what a file holds: its edition and kind; of a curve the count of buckets, and 0 for the rest; of a server its rate (0 for
 * one that only delays) and latency, and count 0. For a refusal all but the code are 0. */
typedef struct duchrelin_profile {
    uint64_t code;
    uint64_t edition;
    uint64_t kind;
    uint64_t count;
    uint64_t rate;
    uint64_t latency;
} duchrelin_profile;

/* A code and how many bytes stand at the start of the buffer. */
typedef struct duchrelin_written {
    uint64_t code;
    uint64_t bytes;
} duchrelin_written;

/* The normal form of a raw list: it lets through the same at every time. The raw buckets, 1 to 64, may stand in any order and repeat.
 * Example: {3,20, 10,2, 10,2, 5,15, 3,25} gives count 2 and {10,2, 3,20}. */
duchrelin_answer duchrelin_normalise(const uint64_t *raw, size_t raw_numbers, uint64_t *out, size_t out_numbers);

/* What the curve gives by a tick, 0 to 2^40-1, in bits: 0 at tick 0, for nothing comes in no time; later the least of
 * rate * tick + burst over its buckets. Example: {10,2, 3,20} gives 0 at tick 0, 22 at tick 2 and 29 at tick 3. */
duchrelin_figure duchrelin_value(const uint64_t *curve, size_t curve_numbers, uint64_t tick);

/* The smallest burst of the curve, in bits: what may come at once. Backlog, delay and the curve behind count it from tick 0 on.
 * Example: {10,2, 3,20} gives 2. */
duchrelin_figure duchrelin_burst(const uint64_t *curve, size_t curve_numbers);

/* The lower of the two curves at every time: normal form of the buckets of both.
 * Example: {10,2} and {3,20} give count 2 and {10,2, 3,20}. */
duchrelin_answer duchrelin_lower(const uint64_t *f, size_t f_numbers, const uint64_t *g, size_t g_numbers,
                                 uint64_t *out, size_t out_numbers);

/* The two curves added: what both let through together, at every time. The sum turns where one of the two does, so it has fewer
 * buckets than the two together. It is LARGE where it has over 64, where the two first rates add up to 2^20 or more, or the two
 * last bursts to 2^40 or more.
 * Example: {10,2, 3,20} and {4,0, 2,2} give count 3 and {14,2, 12,4, 5,22}. */
duchrelin_answer duchrelin_sum(const uint64_t *f, size_t f_numbers, const uint64_t *g, size_t g_numbers,
                               uint64_t *out, size_t out_numbers);

/* The curve shaped by a link that the traffic comes over: the lower of the curve and the bucket (rate, frame). The rate is the link's,
 * 1 to 2^20-1 bits a tick, and the frame its longest one, 0 to 2^40-1 bits: a port that stores and forwards has a frame when the last
 * bit is in, and then all of it at once. A frame of 0 is for a link that hands on bit by bit. Too short a frame makes backlogs and
 * delays too small; too long a one never does.
 * Example: {3,20} and a link of rate 10 with frames of 2 bits give count 2 and {10,2, 3,20}; with frames of 0, {10,0, 3,20}. */
duchrelin_answer duchrelin_shape(const uint64_t *curve, size_t curve_numbers, uint64_t rate, uint64_t frame,
                                 uint64_t *out, size_t out_numbers);

/* The server that joins the next one: the smaller rate, the latencies added. One that only delays adds its latency, and two of them
 * make one that only delays.
 * Examples: (2; 6, 4) and then (2; 5, 2) give (2; 5, 6); (2; 6, 1) and then (3; 0, 3) give (2; 6, 4). */
duchrelin_server duchrelin_join(uint64_t kind, uint64_t rate, uint64_t latency,
                                uint64_t next_kind, uint64_t next_rate, uint64_t next_latency);

/* The curve behind a server: what it lets through of traffic that keeps to the curve.
 * Examples: {10,2, 3,20} behind (2; 6, 1) gives count 2 and {6,17, 3,23}; behind (3; 0, 4), count 1 and {3,32}. */
duchrelin_answer duchrelin_behind(const uint64_t *curve, size_t curve_numbers, uint64_t kind, uint64_t rate, uint64_t latency,
                                  uint64_t *out, size_t out_numbers);

/* The most bits that wait at the server at any tick.
 * Examples: {10,2, 3,20} and (2; 6, 1) give 17; with (3; 0, 4), 32. */
duchrelin_figure duchrelin_backlog(const uint64_t *curve, size_t curve_numbers, uint64_t kind, uint64_t rate, uint64_t latency);

/* The fewest ticks by which all that has come by a tick is served, at every tick. Of a server that only delays it is its latency, within
 * which no bit leaves and after which every bit does; and 0 for a curve that carries nothing.
 * Examples: {10,2, 3,20} and (2; 6, 1) give 3; with (3; 0, 4), 4. */
duchrelin_figure duchrelin_delay(const uint64_t *curve, size_t curve_numbers, uint64_t kind, uint64_t rate, uint64_t latency);

/* The server that is left beside cross traffic: with its curve's last bucket (r, b), rate - r, and latency + b / rate, the quotient
 * rounded up. One that only delays has no rate to share: it is RANGE.
 * Example: (2; 6, 1) beside {10,2, 3,20} gives (2; 3, 5). */
duchrelin_server duchrelin_residual(uint64_t kind, uint64_t rate, uint64_t latency, const uint64_t *cross, size_t cross_numbers);

/* The one profile that a file holds, of edition 1 or 2. A curve's list is written to `out`; a server's file leaves `out` unread and
 * unwritten. Example: the bytes 12 00 00 60 00 01 give edition 1, kind 2 and the server (6, 1). */
duchrelin_profile duchrelin_read(const uint8_t *file, size_t file_bytes, uint64_t *out, size_t out_numbers);

/* A curve as a file of edition 1 or 2: (14 + 60 * count) / 8 bytes, rounded up.
 * Example: {10,2} in edition 1 gives 10 bytes, 11 00 00 02 80 00 00 00 00 80. */
duchrelin_written duchrelin_write_curve(uint64_t edition, const uint64_t *curve, size_t curve_numbers,
                                        uint8_t *buffer, size_t buffer_bytes);

/* A server as a file: 6 bytes, in edition 1 or 2; or, of one that only delays, 4 bytes, in edition 2.
 * Examples: (2; 6, 1) in edition 1 gives 12 00 00 60 00 01; (3; 0, 5) in edition 2 gives 23 00 00 50. */
duchrelin_written duchrelin_write_server(uint64_t edition, uint64_t kind, uint64_t rate, uint64_t latency,
                                         uint8_t *buffer, size_t buffer_bytes);

/* The report of a route as text: `input` is a curve's file, then 1 to 32 servers' files, back to back. A line `hop N X Y` for each
 * hop (its number, backlog and delay), and last `route X Y`, of all servers joined and the first curve; or, where anything is refused,
 * the one line `refused C at K`, with the code and which profile it is, the curve being 1. A refusal inside the route is a text,
 * so its code is 0: the only code here is ROOM. The files may be of both editions. Example: the files of {10,2, 3,20}, (2; 6, 4) and
 * (2; 5, 2) give 33 bytes, "hop 1 32 6\nhop 2 38 9\nroute 38 9\n". */
duchrelin_written duchrelin_route(const uint8_t *input, size_t input_bytes, uint8_t *text, size_t text_bytes);

#ifdef __cplusplus
}
#endif

#endif
