/* join, behind, backlog, delay and residual. What every call that takes a curve or a server refuses stands in refusals.c. */
#include "harness.h"

#include <string.h>

static void joining(void)
{
    test("join: the smaller rate, the latencies added");
    gives(join(PORT(5, 2), PORT(6, 4)), server_answer(PORT(5, 6)));
    gives(join(PORT(6, 4), PORT(5, 2)), server_answer(PORT(5, 6)));
    gives(join(PORT(7, 0), PORT(7, 0)), server_answer(PORT(7, 0)));
    test("join, rates at their ends");
    gives(join(PORT(1, 3), PORT(RATE_END - 1, 4)), server_answer(PORT(1, 7)));
    gives(join(PORT(RATE_END - 1, 3), PORT(RATE_END - 1, 4)), server_answer(PORT(RATE_END - 1, 7)));
    test("join, latencies adding to 2^20-1");
    gives(join(PORT(5, 0), PORT(6, LATENCY_END - 1)), server_answer(PORT(5, LATENCY_END - 1)));
    gives(join(PORT(5, LATENCY_END / 2), PORT(6, LATENCY_END / 2 - 1)), server_answer(PORT(5, LATENCY_END - 1)));
    test("join, latencies adding to 2^20 and more");
    refuses(join(PORT(5, 1), PORT(6, LATENCY_END - 1)), 9);
    refuses(join(PORT(5, LATENCY_END / 2), PORT(6, LATENCY_END / 2)), 9);
    refuses(join(PORT(5, LATENCY_END - 1), PORT(6, LATENCY_END - 1)), 9);
    test("join, RANGE before LARGE");
    refuses(join(PORT(0, LATENCY_END - 1), PORT(1, LATENCY_END - 1)), 6);
    refuses(join(PORT(1, LATENCY_END - 1), PORT(RATE_END, LATENCY_END - 1)), 6);
    refuses(join(PORT(1, LATENCY_END), PORT(1, MOST)), 6);
}

/* Both ways round. */
static void joins(server one, server other, server joined)
{
    gives(join(one, other), server_answer(joined));
    gives(join(other, one), server_answer(joined));
}

static void join_is_large(server one, server other)
{
    refuses(join(one, other), 9);
    refuses(join(other, one), 9);
}

static void joining_delays(void)
{
    const uint64_t most = LATENCY_END - 1, half = LATENCY_END / 2;
    test("join a rate and a delay: the rate, the latencies added");
    joins(PORT(6, 1), PURE_DELAY(0), PORT(6, 1));
    joins(PORT(6, 0), PURE_DELAY(4), PORT(6, 4));
    joins(PORT(1, 2), PURE_DELAY(3), PORT(1, 5));
    joins(PORT(RATE_END - 1, 2), PURE_DELAY(3), PORT(RATE_END - 1, 5));
    test("join two delays: a delay, the latencies added");
    joins(PURE_DELAY(0), PURE_DELAY(0), PURE_DELAY(0));
    joins(PURE_DELAY(7), PURE_DELAY(0), PURE_DELAY(7));
    test("join with a delay, latencies adding to 2^20-1");
    joins(PORT(5, 0), PURE_DELAY(most), PORT(5, most));
    joins(PORT(5, most), PURE_DELAY(0), PORT(5, most));
    joins(PORT(5, half), PURE_DELAY(half - 1), PORT(5, most));
    joins(PURE_DELAY(most), PURE_DELAY(0), PURE_DELAY(most));
    joins(PURE_DELAY(half), PURE_DELAY(half - 1), PURE_DELAY(most));
    test("join with a delay, latencies adding to 2^20 and more");
    join_is_large(PORT(5, 1), PURE_DELAY(most));
    join_is_large(PORT(5, most), PURE_DELAY(1));
    join_is_large(PORT(5, half), PURE_DELAY(half));
    join_is_large(PURE_DELAY(most), PURE_DELAY(1));
    join_is_large(PURE_DELAY(half), PURE_DELAY(half));
    join_is_large(PURE_DELAY(most), PURE_DELAY(most));
    test("join with a delay, RANGE before LARGE");
    refuses(join(PURE_DELAY(most), SERVER(DUCHRELIN_KIND_PURE_DELAY, 1, most)), 6);
    refuses(join(SERVER(DUCHRELIN_KIND_CURVE, 1, most), PURE_DELAY(most)), 6);
    refuses(join(PURE_DELAY(LATENCY_END), PURE_DELAY(MOST)), 6);
}

/* The three questions of a curve at a server. */
static void passes(const char *name, list curve, server at, list after, uint64_t bits, uint64_t ticks)
{
    test(name);
    gives(behind(curve, at), curve_answer(after));
    gives(backlog(curve, at), figure(bits));
    gives(delay(curve, at), figure(ticks));
}

static void unbounded(const char *name, list curve, server at)
{
    test(name);
    refuses(behind(curve, at), 8);
    refuses(backlog(curve, at), 8);
    refuses(delay(curve, at), 8);
}

/* The curve behind is too large, backlog and delay are answered. */
static void large(const char *name, list curve, server at, uint64_t bits, uint64_t ticks)
{
    test(name);
    refuses(behind(curve, at), 9);
    gives(backlog(curve, at), figure(bits));
    gives(delay(curve, at), figure(ticks));
}

static void passing(void)
{
    /* C is 2, 12, 22, 29, 32, .. at the ticks; its buckets cross at 18/7, between 2 and 3. */
    passes("C at (9,0): most above the rate at the tick before the crossing", C, PORT(9, 0), CURVE(9, 4, 3, 20), 4, 1);
    passes("C at (4,0): most above the rate at the tick after the crossing", C, PORT(4, 0), CURVE(4, 17, 3, 20), 17, 5);
    passes("C at (7,0): as much at both ticks", C, PORT(7, 0), CURVE(7, 8, 3, 20), 8, 2);
    passes("C at (10,0): the first rate", C, PORT(10, 0), C, 2, 1);
    passes("C at (11,0): above the first rate", C, PORT(11, 0), C, 2, 1);
    passes("C at (2^20-1,0)", C, PORT(RATE_END - 1, 0), C, 2, 1);
    passes("C at (3,0): the last rate", C, PORT(3, 0), CURVE(3, 20), 20, 7);
    passes("C at (3,2): the last rate, and a latency", C, PORT(3, 2), CURVE(3, 26), 26, 9);
    /* The latency ends at the tick before the crossing, and at the one after it. */
    passes("C at (6,2)", C, PORT(6, 2), CURVE(6, 23, 3, 26), 23, 4);
    passes("C at (6,3)", C, PORT(6, 3), CURVE(3, 29), 29, 5);
    passes("C at (20,2): a latency before the crossing", C, PORT(20, 2), CURVE(10, 22, 3, 26), 22, 3);
    passes("C at (20,3): a latency after the crossing", C, PORT(20, 3), CURVE(3, 29), 29, 4);
    unbounded("C at (2,1): the last rate is above", C, PORT(2, 1));
    unbounded("C at (1,0)", C, PORT(1, 0));

    passes("(0,0) at (5,2): nothing is carried", CURVE(0, 0), PORT(5, 2), CURVE(0, 0), 0, 0);
    passes("(0,0) at (1,2^20-1)", CURVE(0, 0), PORT(1, LATENCY_END - 1), CURVE(0, 0), 0, 0);
    passes("(0,1) at (5,2): one bit", CURVE(0, 1), PORT(5, 2), CURVE(0, 1), 1, 3);
    passes("(0,10) at (5,2)", CURVE(0, 10), PORT(5, 2), CURVE(0, 10), 10, 4);
    passes("(0,11) at (5,2)", CURVE(0, 11), PORT(5, 2), CURVE(0, 11), 11, 5);
    passes("(5,0) at (10,3): no burst", CURVE(5, 0), PORT(10, 3), CURVE(5, 15), 15, 3);
    passes("(5,0) at (5,3): no burst, the last rate", CURVE(5, 0), PORT(5, 3), CURVE(5, 15), 15, 3);
    passes("(5,0) at (10,0): no burst, no latency", CURVE(5, 0), PORT(10, 0), CURVE(5, 0), 0, 0);
    /* The values are 0, 5, 5, ..: nothing is ever above the rate 5, and (4,2) is lowest between ticks alone. */
    list between = CURVE(10, 0, 4, 2, 0, 5);
    passes("P3's curve at (5,0): a bucket beside the crossing is lowest between ticks alone", between, PORT(5, 0), CURVE(5, 0, 0, 5), 0, 0);
    passes("P3's curve at (5,1)", between, PORT(5, 1), CURVE(0, 5), 5, 1);
    passes("P3's curve at (4,0)", between, PORT(4, 0), CURVE(4, 1, 0, 5), 1, 1);
    /* The values are 0, 5, 5, ..: 2 above the rate 3 at tick 1. (4,3), which is lowest from 3/16 to 1/2, would be 3 at tick 0. */
    passes("the bucket before the crossing is lowest between ticks alone", CURVE(20, 0, 4, 3, 0, 5), PORT(3, 0), CURVE(3, 2, 0, 5), 2, 1);
    /* The values are 0, 3, 3, ..: (3,0) and (0,3) cover (1,2) at 1. */
    passes("several buckets are covered by the server's own", CURVE(8, 0, 3, 1, 1, 2, 0, 3), PORT(3, 0), CURVE(3, 0, 0, 3), 0, 0);
}

/* A server that only delays hands on all that has come as much later: nothing waits for a rate, and no rate is too large. */
static void passing_delays(void)
{
    passes("C at a delay of 0: the burst is there, and waits no time", C, PURE_DELAY(0), C, 2, 0);
    passes("C at a delay of 1", C, PURE_DELAY(1), CURVE(10, 12, 3, 23), 12, 1);
    /* The buckets cross at 18/7: 4/7 after 2, and before 3. */
    passes("C at a delay of 2: the tick before the crossing", C, PURE_DELAY(2), CURVE(10, 22, 3, 26), 22, 2);
    passes("C at a delay of 3: the tick after the crossing", C, PURE_DELAY(3), CURVE(3, 29), 29, 3);
    const uint64_t latency = LATENCY_END - 1;
    passes("C at a delay of 2^20-1", C, PURE_DELAY(latency), CURVE(3, 3 * latency + 20), 3 * latency + 20, latency);
    passes("(0,1) at a delay of 2: one bit, and no tick for it", CURVE(0, 1), PURE_DELAY(2), CURVE(0, 1), 1, 2);
    passes("(0,10) at a delay of 0", CURVE(0, 10), PURE_DELAY(0), CURVE(0, 10), 10, 0);
    passes("(1,0) at a delay of 1: no burst", CURVE(1, 0), PURE_DELAY(1), CURVE(1, 1), 1, 1);
    passes("(5,0) at a delay of 3: no burst", CURVE(5, 0), PURE_DELAY(3), CURVE(5, 15), 15, 3);
    passes("(5,0) at a delay of 0: no burst, no latency", CURVE(5, 0), PURE_DELAY(0), CURVE(5, 0), 0, 0);
    /* Its buckets cross at 1/3 and 3/4. */
    list between = CURVE(10, 0, 4, 2, 0, 5);
    passes("P3's curve at a delay of 0: a bucket that is lowest between ticks alone stays", between, PURE_DELAY(0), between, 0, 0);
    passes("P3's curve at a delay of 1", between, PURE_DELAY(1), CURVE(0, 5), 5, 1);
    /* The two meet at 1, so behind a delay of 1 they meet at 0. */
    passes("a crossing at the latency", CURVE(4, 0, 2, 2), PURE_DELAY(1), CURVE(2, 4), 4, 1);
    passes("a crossing one tick after the latency", CURVE(4, 0, 2, 4), PURE_DELAY(1), CURVE(4, 4, 2, 6), 4, 1);
}

static void delays_at_the_ends(void)
{
    const uint64_t rate = RATE_END - 1, latency = LATENCY_END - 1, most = BURST_END - 1, later = rate * latency;
    passes("the largest rate at a delay of 1", CURVE(rate, 0), PURE_DELAY(1), CURVE(rate, rate), rate, 1);
    passes("the largest rate and the largest delay", CURVE(rate, 0), PURE_DELAY(latency), CURVE(rate, later), later, latency);
    passes("a burst of 2^40-1 and the largest delay", CURVE(0, most), PURE_DELAY(latency), CURVE(0, most), most, latency);
    passes("a burst of 2^40-1 and no delay", CURVE(rate, most), PURE_DELAY(0), CURVE(rate, most), most, 0);
    passes("a burst of 2^40-1 behind a delay", CURVE(1, most - 1), PURE_DELAY(1), CURVE(1, most), most, 1);
    large("a burst of 2^40 behind a delay", CURVE(1, most), PURE_DELAY(1), BURST_END, 1);
    list fits = CURVE(rate, most - later), too_large = CURVE(rate, BURST_END - later);
    passes("a burst of 2^40-1 behind, rate and latency the largest", fits, PURE_DELAY(latency), CURVE(rate, most), most, latency);
    large("a burst of 2^40 behind, rate and latency the largest", too_large, PURE_DELAY(latency), BURST_END, latency);
    large("a burst of 2^40 behind a delay, the last of two", CURVE(5, 0, 1, most), PURE_DELAY(1), 5, 1);
    large("the greatest backlog at a delay", CURVE(rate, most), PURE_DELAY(latency), later + most, latency);
    /* The first bucket would have a burst of over 2^40, but it is lowest only within the first tick. */
    list steep = CURVE(rate, 4 * RATE_END, 0, 4 * RATE_END + 5), flat = CURVE(0, 4 * RATE_END + 5);
    passes("a useless bucket out of range refuses nothing at a delay", steep, PURE_DELAY(latency), flat, 4 * RATE_END + 5, latency);
}

static void passing_at_the_ends(void)
{
    const uint64_t rate = RATE_END - 1, latency = LATENCY_END - 1;
    passes("a burst of 2^40-1 behind", CURVE(1, BURST_END - 2), PORT(1, 1), CURVE(1, BURST_END - 1), BURST_END - 1, BURST_END - 1);
    large("a burst of 2^40 behind", CURVE(1, BURST_END - 1), PORT(1, 1), BURST_END, BURST_END);
    /* The values are 0, 5, 10, ..: at the server's own rate, up to the crossing at (2^40-1)/4, between 2^38-1 and 2^38. */
    large("a burst of 2^40 behind, the last of two", CURVE(5, 0, 1, BURST_END - 1), PORT(5, 1), 5, 1);
    /* M is 2^40-1, which is (2^20-1)(2^20+1). */
    large("the greatest backlog", CURVE(rate, BURST_END - 1), PORT(rate, latency), 2 * BURST_END - 2 * RATE_END, 2 * LATENCY_END);
    passes("the greatest delay", CURVE(0, BURST_END - 1), PORT(1, latency), CURVE(0, BURST_END - 1), BURST_END - 1, BURST_END + LATENCY_END - 2);
    /* The first bucket would have burst 2^22 + (2^20-1)^2, which is over 2^40, but it and the server's own are lowest only before. */
    passes("a useless bucket out of range refuses nothing", CURVE(rate, 4 * RATE_END, 0, 4 * RATE_END + 5), PORT(rate, latency),
           CURVE(0, 4 * RATE_END + 5), 4 * RATE_END + 5, latency + 5);
    passes("a crossing at the last tick", CURVE(1, 0, 0, BURST_END - 1), PORT(1, 0), CURVE(1, 0, 0, BURST_END - 1), 0, 0);
    unbounded("UNBOUNDED before LARGE", CURVE(3, BURST_END - 1), PORT(2, 5));
    unbounded("rate 2^20-1 at 2^20-2", CURVE(rate, 0), PORT(rate - 1, 0));
    passes("rate 2^20-1 at 2^20-1", CURVE(rate, 0), PORT(rate, 0), CURVE(rate, 0), 0, 0);
}

/* The stairs from 63 from bucket k on, behind a latency. */
static list stairs_behind(uint64_t k, uint64_t latency)
{
    uint64_t pairs[2 * 64];
    for (uint64_t i = k; i < 64; i++) {
        pairs[2 * (i - k)] = 63 - i;
        pairs[2 * (i - k) + 1] = stair_burst(i) + latency * (63 - i);
    }
    return curve_of((list){pairs, 2 * (64 - k)});
}

static void long_curves(void)
{
    passes("64 buckets at (63,0)", full_stairs(), PORT(63, 0), full_stairs(), 0, 0);
    /* Bucket 0 is lowest only up to 1. */
    passes("64 buckets at (63,1)", full_stairs(), PORT(63, 1), stairs_behind(1, 1), 63, 1);
    /* Bucket 53 is (10, 1431), and is lowest at 53: there the stairs are most above the rate 10. */
    passes("64 buckets at (10,0)", full_stairs(), PORT(10, 0), stairs_behind(53, 0), 1431, 144);
    passes("64 buckets at (10,5)", full_stairs(), PORT(10, 5), stairs_behind(53, 5), 1481, 149);
    /* Bucket 60 is lowest from 60 to 61. */
    passes("64 buckets at (10,60)", full_stairs(), PORT(10, 60), stairs_behind(60, 60), 2010, 204);
    passes("64 buckets at (63,1000)", full_stairs(), PORT(63, 1000), CURVE(0, 2016), 2016, 1000);
    /* Bucket 63 has rate 0. */
    passes("64 buckets at (1,0)", full_stairs(), PORT(1, 0), stairs_behind(62, 0), 1953, 1953);
    unbounded("64 buckets, the last rate above", stairs(65, 0, 1, 64), PORT(1, 0));

    /* Bucket k is lowest from k to k+1, so behind a delay it is of use from that delay on. */
    test("64 buckets at every delay up to the last crossing");
    for (uint64_t ticks = 0; ticks < 64; ticks++)
        passes("64 buckets at every delay up to the last crossing", full_stairs(), PURE_DELAY(ticks), stairs_behind(ticks, ticks),
               stair_burst(ticks) + ticks * (63 - ticks), ticks);
    passes("64 buckets at a delay past the last crossing", full_stairs(), PURE_DELAY(1000), CURVE(0, 2016), 2016, 1000);
    const uint64_t later = 2016 + 2 * 63;
    passes("64 buckets at a delay, the last rate not 0", stairs(65, 0, 1, 64), PURE_DELAY(63), CURVE(2, later), later, 63);

    test("room for behind");
    gives_by_room(behind(C, PORT(6, 1)), curve_answer(CURVE(6, 17, 3, 23)), 0, 2 * DUCHRELIN_BUCKET_NUMBERS + 3);
    gives_by_room(behind(C, PORT(6, 4)), curve_answer(CURVE(3, 32)), 0, DUCHRELIN_BUCKET_NUMBERS + 3);
    gives_by_room(behind(full_stairs(), PORT(63, 0)), curve_answer(full_stairs()), 0, DUCHRELIN_CURVE_NUMBERS + 3);
    test("room for behind a delay");
    gives_by_room(behind(C, PURE_DELAY(1)), curve_answer(CURVE(10, 12, 3, 23)), 0, 2 * DUCHRELIN_BUCKET_NUMBERS + 3);
    gives_by_room(behind(C, PURE_DELAY(4)), curve_answer(CURVE(3, 32)), 0, DUCHRELIN_BUCKET_NUMBERS + 3);
    gives_by_room(behind(full_stairs(), PURE_DELAY(0)), curve_answer(full_stairs()), 0, DUCHRELIN_CURVE_NUMBERS + 3);
    test("behind a delay, LARGE before ROOM");
    refuses(behind(CURVE(5, 0, 1, BURST_END - 1), PURE_DELAY(1)), 9);
}

static void leaves(const char *name, server at, list cross, server left)
{
    test(name);
    gives(residual(at, cross), server_answer(left));
}

static void residual_refuses(const char *name, server at, list cross, uint64_t code)
{
    test(name);
    refuses(residual(at, cross), code);
}

static void leaving(void)
{
    const uint64_t rate = RATE_END - 1, latency = LATENCY_END - 1;
    leaves("residual beside nothing", PORT(6, 1), CURVE(0, 0), PORT(6, 1));
    leaves("residual, no burst", PORT(10, 0), CURVE(3, 0), PORT(7, 0));
    leaves("residual, a quotient below 1 is rounded up", PORT(10, 0), CURVE(3, 1), PORT(7, 1));
    leaves("residual, a whole quotient", PORT(10, 0), CURVE(3, 20), PORT(7, 2));
    leaves("residual, one bit more than a whole quotient", PORT(10, 0), CURVE(3, 21), PORT(7, 3));
    leaves("residual, one bit less than a whole quotient", PORT(10, 0), CURVE(3, 19), PORT(7, 2));
    leaves("residual, the last bucket alone counts", PORT(4, 1), C, PORT(1, 6));
    leaves("residual, 64 buckets", PORT(2, 0), full_stairs(), PORT(2, 1008));
    residual_refuses("residual, the last rate is the server's", PORT(3, 1), C, 8);
    residual_refuses("residual, the last rate is above", PORT(2, 1), C, 8);
    residual_refuses("residual, rate 2^20-1 beside itself", PORT(rate, 0), CURVE(rate, 0), 8);
    leaves("residual, rate 1 is left", PORT(rate, 0), CURVE(rate - 1, 0), PORT(1, 0));
    leaves("residual, a latency of 2^20-1", PORT(2, latency - 1), CURVE(1, 2), PORT(1, latency));
    residual_refuses("residual, a latency of 2^20", PORT(2, latency - 1), CURVE(1, 3), 9);
    residual_refuses("residual, a latency of 2^20, all from the server", PORT(2, latency), CURVE(1, 1), 9);
    leaves("residual, a quotient of 2^20-1", PORT(rate, 0), CURVE(0, rate * latency), PORT(rate, latency));
    residual_refuses("residual, a quotient of 2^20", PORT(rate, 0), CURVE(0, rate * latency + 1), 9);
    residual_refuses("residual, the greatest quotient", PORT(1, latency), CURVE(0, BURST_END - 1), 9);
    residual_refuses("residual, UNBOUNDED before LARGE", PORT(1, latency), CURVE(1, 5), 8);
}

/* A server that only delays has no rate to share, beside whatever traffic. */
static void leaving_nothing(void)
{
    const uint64_t latency = LATENCY_END - 1;
    residual_refuses("residual of a delay beside C", PURE_DELAY(4), C, 6);
    residual_refuses("residual of a delay of 0 beside nothing", PURE_DELAY(0), CURVE(0, 0), 6);
    residual_refuses("residual of the largest delay beside 64 buckets", PURE_DELAY(latency), full_stairs(), 6);
    residual_refuses("residual of a delay, RANGE before UNBOUNDED", PURE_DELAY(4), CURVE(RATE_END - 1, 0), 6);
    residual_refuses("residual of a delay, LIST before RANGE", PURE_DELAY(4), NONE, 4);
    residual_refuses("residual of a delay, COUNT before RANGE", PURE_DELAY(4), stairs(64, 0, 1, 65), 5);
    residual_refuses("residual of a delay, RANGE before FORM", PURE_DELAY(4), CURVE(3, 20, 10, 2), 6);
}

/* The delays at two hops, and that of both joined. */
typedef struct {
    uint64_t first, second, joined;
} waits;

/* C through two servers: the list behind both is that of one step through the joined server. */
static void two_hops(const char *name, server one, server other, server joined, list between, list after, waits ticks)
{
    test(name);
    gives(join(one, other), server_answer(joined));
    gives(behind(C, one), curve_answer(between));
    gives(behind(between, other), curve_answer(after));
    gives(behind(C, joined), curve_answer(after));
    gives(delay(C, one), figure(ticks.first));
    gives(delay(between, other), figure(ticks.second));
    gives(delay(C, joined), figure(ticks.joined));
}

static void hop_by_hop(void)
{
    /* C is 2, 12, 22, 29, 32, .. at the ticks: most above the rates 5 and 6 at tick 3, by 14 and by 11. */
    list one = CURVE(10, 12, 3, 23), two = CURVE(10, 22, 3, 26), three = CURVE(3, 29), cut = CURVE(6, 17, 3, 23);
    two_hops("(6,1), then (5,2)", PORT(6, 1), PORT(5, 2), PORT(5, 3), cut, three, (waits){3, 6, 6});
    two_hops("(5,2), then (6,1)", PORT(5, 2), PORT(6, 1), PORT(5, 3), CURVE(5, 24, 3, 26), three, (waits){5, 5, 6});
    two_hops("(6,0), then a delay of 1", PORT(6, 0), PURE_DELAY(1), PORT(6, 1), CURVE(6, 11, 3, 20), cut, (waits){2, 1, 3});
    two_hops("a delay of 1, then (6,0)", PURE_DELAY(1), PORT(6, 0), PORT(6, 1), one, cut, (waits){1, 3, 3});
    two_hops("a delay of 3, then (6,1)", PURE_DELAY(3), PORT(6, 1), PORT(6, 4), three, CURVE(3, 32), (waits){3, 6, 6});
    two_hops("delays of 1 and 1", PURE_DELAY(1), PURE_DELAY(1), PURE_DELAY(2), one, two, (waits){1, 1, 2});
    two_hops("delays of 1 and 2", PURE_DELAY(1), PURE_DELAY(2), PURE_DELAY(3), one, three, (waits){1, 2, 3});
    two_hops("delays of 2 and 1", PURE_DELAY(2), PURE_DELAY(1), PURE_DELAY(3), two, three, (waits){2, 1, 3});
}

/* An output that is a part of a table. */
static void parts(void)
{
    enum { PART = 3, ROOM = 2 * DUCHRELIN_BUCKET_NUMBERS, TABLE = PART + ROOM + 4 };
    uint64_t table[TABLE], before[TABLE];
    list curve = C, after = CURVE(6, 17, 3, 23);
    for (size_t i = 0; i < TABLE; i++)
        table[i] = before[i] = MOST - i;
    test("behind into a part of a table that is too short");
    duchrelin_answer got = duchrelin_behind(curve.numbers, curve.count, DUCHRELIN_KIND_RATE_LATENCY, 6, 1, table + PART, ROOM - 1);
    check(got.code == DUCHRELIN_ROOM && got.count == 0, "ROOM, and count 0");
    check(memcmp(table, before, sizeof table) == 0, "the table as it was");
    test("behind into a part of a table");
    got = duchrelin_behind(curve.numbers, curve.count, DUCHRELIN_KIND_RATE_LATENCY, 6, 1, table + PART, ROOM);
    memcpy(before + PART, after.numbers, after.count * sizeof(uint64_t));
    check(got.code == 0 && got.count == 2, "code 0, and count 2");
    check(memcmp(table, before, sizeof table) == 0, "the table with the answer in it");
    test("behind a delay into a part of a table");
    list later = CURVE(3, 32);
    got = duchrelin_behind(curve.numbers, curve.count, DUCHRELIN_KIND_PURE_DELAY, 0, 4, table + PART, ROOM);
    memcpy(before + PART, later.numbers, later.count * sizeof(uint64_t));
    check(got.code == 0 && got.count == 1, "code 0, and count 1");
    check(memcmp(table, before, sizeof table) == 0, "the table with the new answer over the start of the one before");
}

void server_tests(void)
{
    joining();
    joining_delays();
    passing();
    passing_delays();
    passing_at_the_ends();
    delays_at_the_ends();
    long_curves();
    leaving();
    leaving_nothing();
    hop_by_hop();
    parts();
}
