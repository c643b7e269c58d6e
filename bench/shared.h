/* What plain.c and named.c share: the ranges, the refusals of operands, and how an answer is handed over. */
#ifndef SHARED_H
#define SHARED_H

#include "duchrelin.h"

#include <stdbool.h>
#include <string.h>

#define RATE_BITS 20
#define BURST_BITS 40
#define RATE_END (UINT64_C(1) << RATE_BITS)
#define BURST_END (UINT64_C(1) << BURST_BITS)
#define TICK_END (UINT64_C(1) << 40)

enum { MOST_BUCKETS = DUCHRELIN_MOST_BUCKETS, CURVE_NUMBERS = DUCHRELIN_CURVE_NUMBERS };

static inline uint64_t rate_of(const uint64_t *list, size_t bucket) { return list[2 * bucket]; }
static inline uint64_t burst_of(const uint64_t *list, size_t bucket) { return list[2 * bucket + 1]; }

/* Two neighbours of a curve, this bucket and the next one, cross at rise/fall. */
static inline uint64_t rise_after(const uint64_t *curve, size_t bucket)
{
    return burst_of(curve, bucket + 1) - burst_of(curve, bucket);
}

static inline uint64_t fall_after(const uint64_t *curve, size_t bucket)
{
    return rate_of(curve, bucket) - rate_of(curve, bucket + 1);
}

static inline uint64_t quotient_rounded_up(uint64_t x, uint64_t by) { return (x + by - 1) / by; }

/*
 * Refusals of operands. A code of 0 is none.
 */

static inline uint64_t smaller_code(uint64_t a, uint64_t b)
{
    if (a == 0)
        return b;
    return b != 0 && b < a ? b : a;
}

static inline uint64_t length_refusal(size_t numbers)
{
    if (numbers == 0 || numbers % 2 != 0)
        return DUCHRELIN_LIST;
    return numbers > CURVE_NUMBERS ? DUCHRELIN_COUNT : 0;
}

static inline uint64_t bits_beyond_range(uint64_t rate, uint64_t burst) { return rate >> RATE_BITS | burst >> BURST_BITS; }

static inline uint64_t raw_refusal(const uint64_t *list, size_t numbers)
{
    uint64_t code = length_refusal(numbers);
    if (code != 0)
        return code;
    uint64_t beyond = 0;
    for (size_t i = 0; i < numbers; i += 2)
        beyond |= bits_beyond_range(list[i], list[i + 1]);
    return beyond != 0 ? DUCHRELIN_RANGE : 0;
}

/* Normal form is seen from neighbours: rates fall, bursts rise, and each crossing comes after the one before. The loop gathers
 * what is wrong and leaves nowhere, since almost every list is right. Where a number is out of range the products may wrap
 * round, and then nobody looks at `unformed`. */
static inline uint64_t curve_refusal(const uint64_t *list, size_t numbers)
{
    uint64_t code = length_refusal(numbers);
    if (code != 0)
        return code;
    uint64_t beyond = bits_beyond_range(list[0], list[1]);
    uint64_t rise_before = 0, fall_before = 1;
    bool unformed = false;
    for (size_t i = 2; i < numbers; i += 2) {
        beyond |= bits_beyond_range(list[i], list[i + 1]);
        uint64_t rise = list[i + 1] - list[i - 1];
        uint64_t fall = list[i - 2] - list[i];
        unformed |= (list[i - 2] <= list[i]) | (list[i + 1] <= list[i - 1]) | (rise * fall_before <= rise_before * fall);
        rise_before = rise;
        fall_before = fall;
    }
    if (beyond != 0)
        return DUCHRELIN_RANGE;
    return unformed ? DUCHRELIN_FORM : 0;
}

static inline uint64_t curves_refusal(const uint64_t *f, size_t f_numbers, const uint64_t *g, size_t g_numbers)
{
    return smaller_code(curve_refusal(f, f_numbers), curve_refusal(g, g_numbers));
}

/* A rate that is not 0, as servers and links have one, and with it a latency or a longest frame. */
static inline uint64_t rate_refusal(uint64_t rate) { return rate == 0 || rate >= RATE_END ? DUCHRELIN_RANGE : 0; }

/* A pure delay has no rate, and 0 is handed for it. */
static inline uint64_t server_refusal(uint64_t kind, uint64_t rate, uint64_t latency)
{
    if (latency >= RATE_END)
        return DUCHRELIN_RANGE;
    if (kind == DUCHRELIN_KIND_PURE_DELAY)
        return rate != 0 ? DUCHRELIN_RANGE : 0;
    return kind == DUCHRELIN_KIND_RATE_LATENCY ? rate_refusal(rate) : DUCHRELIN_RANGE;
}

static inline uint64_t link_refusal(uint64_t rate, uint64_t frame)
{
    return frame >= BURST_END ? DUCHRELIN_RANGE : rate_refusal(rate);
}

static inline uint64_t last_rate(const uint64_t *curve, size_t numbers) { return curve[numbers - 2]; }
static inline uint64_t last_burst(const uint64_t *curve, size_t numbers) { return curve[numbers - 1]; }

/* Inside, a server is a limit and a latency: the limit is its rate, and that of a pure delay is above every rate. */
#define NO_LIMIT RATE_END

static inline uint64_t limit_of(uint64_t kind, uint64_t rate) { return kind == DUCHRELIN_KIND_PURE_DELAY ? NO_LIMIT : rate; }

/* Of a curve and a server that carries all of it in the end. */
static inline uint64_t port_refusal(const uint64_t *curve, size_t numbers, uint64_t kind, uint64_t rate, uint64_t latency)
{
    uint64_t code = smaller_code(curve_refusal(curve, numbers), server_refusal(kind, rate, latency));
    if (code != 0)
        return code;
    return last_rate(curve, numbers) > limit_of(kind, rate) ? DUCHRELIN_UNBOUNDED : 0;
}

static inline uint64_t join_refusal(uint64_t latency, uint64_t next_latency)
{
    return latency + next_latency >= RATE_END ? DUCHRELIN_LARGE : 0;
}

static inline uint64_t smaller(uint64_t a, uint64_t b) { return a < b ? a : b; }

/*
 * Answers.
 */

static inline duchrelin_answer refused_answer(uint64_t code) { return (duchrelin_answer){ .code = code, .count = 0 }; }
static inline duchrelin_figure refused_figure(uint64_t code) { return (duchrelin_figure){ .code = code, .figure = 0 }; }
static inline duchrelin_server refused_server(uint64_t code)
{
    return (duchrelin_server){ .code = code, .kind = DUCHRELIN_KIND_RATE_LATENCY, .rate = 0, .latency = 0 };
}
static inline duchrelin_written refused_writing(uint64_t code) { return (duchrelin_written){ .code = code, .bytes = 0 }; }
static inline duchrelin_profile refused_profile(uint64_t code) { return (duchrelin_profile){ .code = code }; }

static inline duchrelin_server server_of(uint64_t limit, uint64_t latency)
{
    if (limit == NO_LIMIT)
        return (duchrelin_server){ .code = 0, .kind = DUCHRELIN_KIND_PURE_DELAY, .rate = 0, .latency = latency };
    return (duchrelin_server){ .code = 0, .kind = DUCHRELIN_KIND_RATE_LATENCY, .rate = limit, .latency = latency };
}

/* Hands over a curve whose numbers are known to be in range. */
static inline duchrelin_answer placed(const uint64_t *buckets, size_t count, uint64_t *out, size_t out_numbers)
{
    if (count > MOST_BUCKETS)
        return refused_answer(DUCHRELIN_LARGE);
    if (out_numbers < 2 * count)
        return refused_answer(DUCHRELIN_ROOM);
    memcpy(out, buckets, 2 * count * sizeof *out);
    return (duchrelin_answer){ .code = 0, .count = count };
}

#endif
