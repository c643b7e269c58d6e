/* normalise, value, burst, lower, sum and shape. What every call that takes a curve refuses stands in refusals.c. */
#include "harness.h"

#include <string.h>

static void normalise_gives(const char *name, list raw, list answer)
{
    test(name);
    gives(normalise(raw), curve_answer(answer));
}

static void normalise_refuses(const char *name, list raw, uint64_t code)
{
    test(name);
    refuses(normalise(raw), code);
}

static void normalising(void)
{
    normalise_gives("normalise one bucket", RAW(7, 9), CURVE(7, 9));
    normalise_gives("normalise (0,0)", RAW(0, 0), CURVE(0, 0));
    normalise_gives("normalise one bucket twice", RAW(7, 9, 7, 9), CURVE(7, 9));
    normalise_gives("of one rate the smaller burst stays", RAW(5, 9, 5, 4, 5, 7), CURVE(5, 4));
    normalise_gives("of one burst the smaller rate stays", RAW(5, 4, 2, 4, 3, 4), CURVE(2, 4));
    normalise_gives("a steeper and higher bucket is useless", RAW(9, 5, 1, 1), CURVE(1, 1));
    normalise_gives("(0,0) covers all", RAW(9, 0, 0, 0, 4, 1), CURVE(0, 0));
    normalise_gives("the order does not matter", RAW(0, 5, 4, 2, 10, 0), CURVE(10, 0, 4, 2, 0, 5));
    /* (3,1) lies on (4,0) and (0,4) at 1, and (2,3) above them there, so only the outer two are ever lowest. */
    normalise_gives("covered by two that do not stand beside it", RAW(4, 0, 3, 1, 2, 3, 0, 4), CURVE(4, 0, 0, 4));
    /* (2^20-1, 0) and (0, (2^20-1)^2) meet at 2^20-1, and (1, (2^20-2)(2^20-1)) goes through that point. */
    const uint64_t rate = RATE_END - 1, burst = (RATE_END - 2) * (RATE_END - 1), most = (RATE_END - 1) * (RATE_END - 1);
    normalise_gives("three meet at 2^20-1", RAW(rate, 0, 1, burst, 0, most), CURVE(rate, 0, 0, most));
    normalise_gives("one bit below the point where three meet", RAW(rate, 0, 1, burst - 1, 0, most), CURVE(rate, 0, 1, burst - 1, 0, most));
    /* (1,0) and (0,2^40-1) meet at 2^40-1, the last tick. */
    normalise_gives("a crossing at 2^40-1", RAW(0, BURST_END - 1, 1, 0), CURVE(1, 0, 0, BURST_END - 1));

    normalise_refuses("normalise, no number", NONE, 4);
    normalise_refuses("normalise, 1 number", RAW(1), 4);
    normalise_refuses("normalise, 3 numbers", RAW(1, 2, 3), 4);
    normalise_refuses("normalise, 127 numbers", longer(raw_stairs(63, 0, 1, 63), 1), 4);
    normalise_gives("normalise, 128 numbers", raw_stairs(63, 0, 1, 64), full_stairs());
    /* Every other bucket first, then those between. */
    list halves = longer(raw_stairs(63, 0, 2, 32), 64), between = raw_stairs(63, 1, 2, 32);
    memcpy((uint64_t *)halves.numbers + 64, between.numbers, 64 * sizeof(uint64_t));
    normalise_gives("normalise, 128 numbers, in another order", halves, full_stairs());
    normalise_refuses("normalise, 129 numbers", longer(raw_stairs(63, 0, 1, 64), 1), 4);
    normalise_refuses("normalise, 130 numbers", raw_stairs(64, 0, 1, 65), 5);
    normalise_refuses("normalise, 130 numbers, of which one is useful", longer(raw_stairs(63, 0, 1, 1), 128), 5);
    normalise_refuses("normalise, 131 numbers", longer(raw_stairs(64, 0, 1, 65), 1), 4);
    normalise_refuses("normalise, 400 numbers", raw_stairs(199, 0, 1, 200), 5);

    normalise_gives("normalise, rate 2^20-1", RAW(RATE_END - 1, 0), CURVE(RATE_END - 1, 0));
    normalise_refuses("normalise, rate 2^20", RAW(RATE_END, 0), 6);
    normalise_gives("normalise, burst 2^40-1", RAW(0, BURST_END - 1), CURVE(0, BURST_END - 1));
    normalise_refuses("normalise, burst 2^40", RAW(0, BURST_END), 6);
    normalise_gives("normalise, both at their ends", RAW(RATE_END - 1, BURST_END - 1), CURVE(RATE_END - 1, BURST_END - 1));
    normalise_refuses("normalise, the greatest number as a rate", RAW(MOST, 0), 6);
    normalise_refuses("normalise, the greatest number as a burst", RAW(0, MOST), 6);
    normalise_refuses("normalise, a useless rate 2^20", RAW(1, 1, RATE_END, 5), 6);
    normalise_refuses("normalise, a useless burst 2^40", RAW(1, 1, 2, BURST_END), 6);
    normalise_refuses("normalise, the last of 64 bursts is 2^40", with(raw_stairs(63, 0, 1, 64), 127, BURST_END), 6);
    normalise_refuses("normalise, the last of 64 rates is 2^20", with(raw_stairs(63, 0, 1, 64), 126, RATE_END), 6);

    normalise_refuses("normalise, LIST before RANGE", RAW(RATE_END, BURST_END, 0), 4);
    normalise_refuses("normalise, LIST before COUNT and RANGE", with(longer(raw_stairs(64, 0, 1, 65), 1), 0, RATE_END), 4);
    normalise_refuses("normalise, COUNT before RANGE", with(raw_stairs(64, 0, 1, 65), 3, BURST_END), 5);
}

static void value_is(const char *name, list curve, uint64_t tick, uint64_t expected)
{
    test(name);
    gives(value(curve, tick), figure(expected));
}

static void valuing(void)
{
    value_is("C at 0: nothing comes in no time", C, 0, 0);
    value_is("C at 1", C, 1, 12);
    value_is("C at 2", C, 2, 22);
    value_is("C at 3", C, 3, 29);
    value_is("C at 2^40-1", C, TICK_END - 1, 3 * (TICK_END - 1) + 20);
    value_is("(0,0) at 2^40-1", CURVE(0, 0), TICK_END - 1, 0);
    value_is("P3's curve at 0", CURVE(10, 0, 4, 2, 0, 5), 0, 0);
    value_is("P3's curve at 1", CURVE(10, 0, 4, 2, 0, 5), 1, 5);
    /* (2^20-1)(2^40-1) + 2^40-1 */
    value_is("the greatest value", CURVE(RATE_END - 1, BURST_END - 1), TICK_END - 1, (UINT64_C(1) << 60) - RATE_END);
    value_is("64 buckets at 0", stairs(70, 7, 1, 64), 0, 0);
    value_is("burst 2^40-1 at 0", CURVE(1, BURST_END - 1), 0, 0);
    /* Bucket 10 is lowest at 10: 53 * 10 + 55. */
    value_is("64 buckets at 10", full_stairs(), 10, 585);
    /* From 63 on it is bucket 63: 63 * 64 / 2. */
    value_is("64 buckets at 1000", full_stairs(), 1000, 2016);
    value_is("value, rate 2^20-1", CURVE(RATE_END - 1, 3), 2, 2 * RATE_END + 1);
    value_is("value, burst 2^40-1", CURVE(1, BURST_END - 1), 1, BURST_END);

    test("value at a tick beyond 2^40-1");
    refuses(value(C, TICK_END), 6);
    refuses(value(C, MOST), 6);
    test("value, LIST and COUNT before RANGE of the tick");
    refuses(value(NONE, TICK_END), 4);
    refuses(value(RAW(1, 5, 2, 6, 0), TICK_END), 4);
    refuses(value(stairs(64, 0, 1, 65), TICK_END), 5);
    test("value, RANGE of the tick before FORM");
    refuses(value(CURVE(3, 20, 10, 2), TICK_END), 6);
    test("value, RANGE of the curve and of the tick");
    refuses(value(CURVE(RATE_END, 0), TICK_END), 6);
}

static void burst_is(const char *name, list curve, uint64_t expected)
{
    test(name);
    gives(burst(curve), figure(expected));
}

static void bursting(void)
{
    burst_is("the burst of C", C, 2);
    burst_is("the burst of what carries nothing", CURVE(0, 0), 0);
    burst_is("the burst of P3's curve", CURVE(10, 0, 4, 2, 0, 5), 0);
    burst_is("burst 2^40-1", CURVE(0, BURST_END - 1), BURST_END - 1);
    burst_is("two large bursts", CURVE(1, BURST_END - 2, 0, BURST_END - 1), BURST_END - 2);
    burst_is("the burst of 64 buckets", stairs(70, 7, 1, 64), stair_burst(7));
}

static void lower_gives(const char *name, list f, list g, list answer)
{
    test(name);
    gives(lower(f, g), curve_answer(answer));
}

static void lower_refuses(const char *name, list f, list g, uint64_t code)
{
    test(name);
    refuses(lower(f, g), code);
}

static void lowering(void)
{
    lower_gives("lower, both stay", CURVE(10, 0), CURVE(1, 9), CURVE(10, 0, 1, 9));
    lower_gives("lower, the other way round", CURVE(1, 9), CURVE(10, 0), CURVE(10, 0, 1, 9));
    lower_gives("lower, one covers the other", CURVE(10, 5), CURVE(9, 4), CURVE(9, 4));
    lower_gives("lower of C and itself", C, C, C);
    /* (10,2) is above (4,0), and (3,20) above (2,2), at every time. */
    lower_gives("lower of C and {(4,0),(2,2)}", C, CURVE(4, 0, 2, 2), CURVE(4, 0, 2, 2));
    /* (4,0) and (2,2) meet at 1, where (3,1) is too. */
    lower_gives("lower, three meet at 1", CURVE(4, 0, 2, 2), CURVE(3, 1), CURVE(4, 0, 2, 2));
    lower_gives("lower, lowest at one half alone", CURVE(10, 0, 0, 5), CURVE(4, 2), CURVE(10, 0, 4, 2, 0, 5));
    lower_gives("lower, numbers at their ends", CURVE(RATE_END - 1, 0), CURVE(0, BURST_END - 1), CURVE(RATE_END - 1, 0, 0, BURST_END - 1));

    lower_gives("lower, 64 buckets and 1", full_stairs(), CURVE(63, 0), full_stairs());
    lower_gives("lower, 64 buckets twice", full_stairs(), full_stairs(), full_stairs());
    lower_gives("lower, 64 useful of two lists of 32", stairs(63, 0, 2, 32), stairs(63, 1, 2, 32), full_stairs());
    lower_gives("lower, 64 useful of 33 and 31", stairs(63, 31, 1, 33), stairs(63, 0, 1, 31), full_stairs());
    lower_refuses("lower, 65 useful of 33 and 32", stairs(64, 0, 2, 33), stairs(64, 1, 2, 32), 9);
    lower_refuses("lower, 65 useful of 64 and 1", stairs(64, 0, 1, 64), stairs(64, 64, 1, 1), 9);
    lower_refuses("lower, 128 useful", stairs(127, 0, 2, 64), stairs(127, 1, 2, 64), 9);
    /* In order, the first would give 65 buckets. */
    lower_refuses("lower, FORM before LARGE", turned(stairs(64, 0, 2, 33)), stairs(64, 1, 2, 32), 7);
}

static void sum_gives(const char *name, list f, list g, list answer)
{
    test(name);
    gives(sum(f, g), curve_answer(answer));
}

static void sum_refuses(const char *name, list f, list g, uint64_t code)
{
    test(name);
    refuses(sum(f, g), code);
}

static void adding(void)
{
    sum_gives("sum of single buckets", CURVE(3, 20), CURVE(10, 2), CURVE(13, 22));
    sum_gives("sum with (0,0)", C, CURVE(0, 0), C);
    /* (20,4), (13,22) and (6,40) meet at 18/7, where C's two buckets do. */
    sum_gives("sum of C and itself", C, C, CURVE(20, 4, 6, 40));
    /* Crossings at 1/2 and 1 for the first, 1 for the second: (3,10) is added up to 1, (1,12) past it. */
    sum_gives("sum, one crossing between ticks", CURVE(10, 0, 4, 3, 0, 7), CURVE(3, 10, 1, 12), CURVE(13, 10, 7, 13, 1, 19));

    /* Crossings at 1/2 and 1/3: the second curve turns first, though both turn within the first tick. */
    sum_gives("sum, two crossings within a tick", CURVE(3, 0, 1, 1), CURVE(4, 0, 1, 1), CURVE(7, 0, 4, 1, 2, 2));
    sum_gives("sum, two crossings within a tick, the other way round", CURVE(4, 0, 1, 1), CURVE(3, 0, 1, 1), CURVE(7, 0, 4, 1, 2, 2));
    /* Both at 1, as 2/2 and as 3/3. */
    sum_gives("sum, one crossing as two fractions", CURVE(2, 0, 0, 2), CURVE(3, 0, 0, 3), CURVE(5, 0, 0, 5));

    const uint64_t half_rate = RATE_END / 2, half_burst = BURST_END / 2;
    /* At 2^20, and some two ticks later; then both at 2^20. */
    sum_gives("sum, long and steep, crossings one after the other", CURVE(half_rate, 0, 0, half_burst),
              CURVE(half_rate - 1, 0, 0, half_burst - 1), CURVE(RATE_END - 1, 0, half_rate - 1, half_burst, 0, BURST_END - 1));
    sum_gives("sum, long and steep, one crossing", CURVE(half_rate, 0, 0, half_burst), CURVE(half_rate / 2, 0, 0, half_burst / 2),
              CURVE(half_rate + half_rate / 2, 0, 0, half_burst + half_burst / 2));
    sum_gives("sum, rates adding to 2^20-1", CURVE(half_rate, 0), CURVE(half_rate - 1, 0), CURVE(RATE_END - 1, 0));
    sum_refuses("sum, rates adding to 2^20", CURVE(half_rate, 0), CURVE(half_rate, 0), 9);
    sum_refuses("sum, rates adding to 2^21-2", CURVE(RATE_END - 1, 0), CURVE(RATE_END - 1, 0), 9);
    sum_refuses("sum, the first of many rates is 2^20", CURVE(RATE_END - 2, 0, 0, 5), CURVE(2, 0, 1, 1), 9);
    sum_gives("sum, the first of many rates is 2^20-1", CURVE(RATE_END - 2, 0, 0, 5), CURVE(1, 0, 0, 9), CURVE(RATE_END - 1, 0, 1, 5, 0, 14));
    sum_gives("sum, bursts adding to 2^40-1", CURVE(0, half_burst), CURVE(0, half_burst - 1), CURVE(0, BURST_END - 1));
    sum_refuses("sum, bursts adding to 2^40", CURVE(0, half_burst), CURVE(0, half_burst), 9);
    sum_refuses("sum, bursts adding to 2^41-2", CURVE(0, BURST_END - 1), CURVE(0, BURST_END - 1), 9);
    sum_refuses("sum, the last of many bursts is 2^40", CURVE(2, 0, 0, BURST_END - 1), CURVE(3, 0, 1, 1), 9);
    /* In order, these would give 65 buckets, and a rate of 2^21-2. */
    sum_refuses("sum, FORM before LARGE of the count", CURVE(0, 100, 1, 0), full_stairs(), 7);
    sum_refuses("sum, FORM before LARGE of a rate", CURVE(RATE_END - 1, 1, RATE_END - 1, 2), CURVE(RATE_END - 1, 0), 7);

    /*
     * Curves with the odd crossings alone and with the even ones alone add up to stairs: bucket i of the first has rate 32 - i
     * and burst i * i, crossing the next at 2i+1; bucket i of the second has burst i * (i+1), crossing the next at 2i+2.
     */
    uint64_t odd_pairs[66], even_pairs[66];
    for (uint64_t i = 0; i < 33; i++) {
        odd_pairs[2 * i] = even_pairs[2 * i] = 32 - i;
        odd_pairs[2 * i + 1] = i * i;
        even_pairs[2 * i + 1] = i * (i + 1);
    }
    list odd_33 = curve_of((list){odd_pairs, 66}), even_33 = curve_of((list){even_pairs, 66}), even_32 = curve_of((list){even_pairs, 64});
    sum_gives("sum, 64 buckets of 33 and 32", odd_33, even_32, stairs(64, 0, 1, 64));
    sum_gives("sum, 64 buckets of 32 and 33", even_32, odd_33, stairs(64, 0, 1, 64));
    sum_refuses("sum, 65 buckets of 33 and 33", odd_33, even_33, 9);
    sum_refuses("sum, 65 buckets, the other way round", even_33, odd_33, 9);

    /* Twice the stairs: the crossings stay, every rate and burst is doubled. */
    uint64_t twice[128];
    for (uint64_t k = 0; k < 64; k++) {
        twice[2 * k] = 2 * (63 - k);
        twice[2 * k + 1] = 2 * stair_burst(k);
    }
    sum_gives("sum, 64 buckets and the same 64", full_stairs(), full_stairs(), curve_of((list){twice, 128}));
    sum_gives("sum, 64 buckets and one", full_stairs(), CURVE(0, 0), full_stairs());
    sum_refuses("sum, 64 buckets and two more that cross elsewhere", full_stairs(), CURVE(1, 0, 0, 100), 9);
}

static void shape_gives(const char *name, list f, uint64_t rate, uint64_t frame, list answer)
{
    test(name);
    gives(shape(f, rate, frame), curve_answer(answer));
}

static void shape_refuses(const char *name, list f, uint64_t rate, uint64_t frame, uint64_t code)
{
    test(name);
    refuses(shape(f, rate, frame), code);
}

static void shaping_bit_by_bit(void)
{
    shape_gives("shape C by 10", C, 10, 0, CURVE(10, 0, 3, 20));
    shape_gives("shape C by 11", C, 11, 0, CURVE(11, 0, 10, 2, 3, 20));
    shape_gives("shape {(3,20)} by 3", CURVE(3, 20), 3, 0, CURVE(3, 0));
    shape_gives("shape {(3,20)} by 1", CURVE(3, 20), 1, 0, CURVE(1, 0));
    shape_gives("shape {(0,0)} by 5", CURVE(0, 0), 5, 0, CURVE(0, 0));
    shape_gives("shape {(5,0)} by 9", CURVE(5, 0), 9, 0, CURVE(5, 0));
    /* (12,0) meets (3,18) at 2, where (10,4) is 24 too. */
    shape_gives("shape, three meet", CURVE(10, 4, 3, 18), 12, 0, CURVE(12, 0, 3, 18));
    shape_gives("shape C by 1", C, 1, 0, CURVE(1, 0));
    shape_gives("shape C by 2^20-1", C, RATE_END - 1, 0, CURVE(RATE_END - 1, 0, 10, 2, 3, 20));
    shape_gives("shape, rate 2^20-1 and burst 2^40-1", CURVE(RATE_END - 1, BURST_END - 1), 7, 0, CURVE(7, 0));
    shape_gives("shape, 64 buckets by the first's rate", full_stairs(), 63, 0, full_stairs());
    /* Bucket 0 of the stairs is (64, 0): a link of that rate before buckets 1 to 63 gives 64 buckets. */
    shape_gives("shape, 64 buckets of 63 and the link", stairs(64, 1, 1, 63), 64, 0, stairs(64, 0, 1, 64));
    shape_refuses("shape, 65 buckets of 64 and the link", stairs(64, 1, 1, 64), 64, 0, 9);
}

static void shaping_by_frames(void)
{
    shape_gives("frames: the link's bucket is there already", C, 10, 2, C);
    shape_gives("frames: one bit less than the burst", C, 10, 1, CURVE(10, 1, 3, 20));
    shape_gives("frames: one bit more than the burst", C, 10, 3, C);
    shape_gives("frames: a faster link, one bit less than the burst", C, 11, 1, CURVE(11, 1, 10, 2, 3, 20));
    shape_gives("frames: a slower link, the burst", C, 9, 2, CURVE(9, 2, 3, 20));
    shape_gives("frames: a slower link between two buckets", C, 5, 6, CURVE(10, 2, 5, 6, 3, 20));
    /* C's buckets meet at 18/7, and (5,15) is above C there; (5,14) is below. */
    shape_gives("frames: just of no use", C, 5, 15, C);
    shape_gives("frames: just of use", C, 5, 14, CURVE(10, 2, 5, 14, 3, 20));
    /* (10,4) and (3,18) meet at 2, and (7,10) is 24 there too. */
    shape_gives("frames: three meet, the link's is of no use", CURVE(10, 4, 3, 18), 7, 10, CURVE(10, 4, 3, 18));
    /* (12,2) and (5,9) meet at 1, where (9,5) is 14 too. */
    shape_gives("frames: three meet, the curve's is of no use", CURVE(9, 5, 5, 9), 12, 2, CURVE(12, 2, 5, 9));
    shape_gives("frames: the slowest link, the last burst", C, 3, 20, C);
    shape_gives("frames: the slowest link, one bit less", C, 3, 19, CURVE(10, 2, 3, 19));
    shape_gives("frames: slower than the curve in the end", C, 1, 30, CURVE(10, 2, 3, 20, 1, 30));
    shape_gives("frames: rate and frame exchanged are another link", CURVE(3, 20), 2, 10, CURVE(2, 10));
    shape_gives("frames: {(0,0)}", CURVE(0, 0), 5, 7, CURVE(0, 0));
    shape_gives("frames: 2^40-1 on a slow link", C, 1, FRAME_END - 1, CURVE(10, 2, 3, 20, 1, FRAME_END - 1));
    shape_gives("frames: 2^40-1 on the fastest link", C, RATE_END - 1, FRAME_END - 1, C);
    shape_gives("frames: 2^40-1 where the burst is that", CURVE(9, BURST_END - 1), 8, FRAME_END - 1, CURVE(8, FRAME_END - 1));
    /* A link that is the next of the stairs, behind 63 of them and behind 64. */
    shape_gives("frames: 64 buckets of 63 and the link", stairs(65, 0, 1, 63), 2, stair_burst(63), stairs(65, 0, 1, 64));
    shape_refuses("frames: 65 buckets of 64 and the link", stairs(65, 0, 1, 64), 1, stair_burst(64), 9);
}

static void shape_refusals(void)
{
    shape_refuses("shape by 0", C, 0, 0, 6);
    shape_refuses("shape by 2^20", C, RATE_END, 0, 6);
    shape_refuses("shape by the greatest number", C, MOST, 0, 6);
    shape_refuses("shape with a frame of 2^40", C, 10, FRAME_END, 6);
    shape_refuses("shape with a frame of the greatest number", C, 10, MOST, 6);
    shape_refuses("shape by 0 with a frame of 2^40", C, 0, FRAME_END, 6);
    shape_refuses("shape, LIST before the link's RANGE", NONE, 0, 0, 4);
    shape_refuses("shape, LIST before the frame's RANGE", NONE, 10, FRAME_END, 4);
    shape_refuses("shape, COUNT before the link's RANGE", stairs(64, 0, 1, 65), RATE_END, 0, 5);
    shape_refuses("shape, COUNT before the frame's RANGE", stairs(64, 0, 1, 65), 10, FRAME_END, 5);
    shape_refuses("shape, RANGE of the curve and of the link", CURVE(RATE_END, 0), 0, 0, 6);
    shape_refuses("shape, the link's RANGE before FORM", CURVE(3, 20, 10, 2), 0, 0, 6);
    shape_refuses("shape, the frame's RANGE before FORM", CURVE(3, 20, 10, 2), 10, FRAME_END, 6);
    shape_refuses("shape, the frame's RANGE before LARGE", stairs(64, 1, 1, 64), 64, FRAME_END, 6);
    shape_refuses("shape, FORM before LARGE", turned(stairs(64, 1, 1, 64)), 64, 0, 7);
}

/* Output lists of every length up to some more than the answer needs. */
static void room(void)
{
    const size_t two = 2 * DUCHRELIN_BUCKET_NUMBERS, all = DUCHRELIN_CURVE_NUMBERS;
    test("room for normalise");
    gives_by_room(normalise(RAW(3, 20, 10, 2)), curve_answer(C), 0, two + 3);
    gives_by_room(normalise(raw_stairs(63, 0, 1, 64)), curve_answer(full_stairs()), 0, all + 3);
    test("room for lower");
    gives_by_room(lower(CURVE(10, 2), CURVE(3, 20)), curve_answer(C), 0, two + 3);
    gives_by_room(lower(stairs(63, 0, 2, 32), stairs(63, 1, 2, 32)), curve_answer(full_stairs()), 0, all + 3);
    test("room for sum");
    gives_by_room(sum(C, CURVE(0, 0)), curve_answer(C), 0, two + 3);
    gives_by_room(sum(full_stairs(), CURVE(0, 0)), curve_answer(full_stairs()), 0, all + 3);
    test("room for shape");
    gives_by_room(shape(CURVE(3, 20), 10, 2), curve_answer(C), 0, two + 3);
    gives_by_room(shape(full_stairs(), 63, 0), curve_answer(full_stairs()), 0, all + 3);
    test("room for the answer alone, which has two buckets, though five came in");
    gives_by_room(normalise(RAW(3, 20, 10, 2, 10, 2, 5, 15, 3, 25)), curve_answer(C), two, two);
}

/* One list as both operands, and an output that is a part of a table. */
static void shared_lists(void)
{
    enum { PART = 5, ROOM = 2 * DUCHRELIN_BUCKET_NUMBERS + 1, TABLE = PART + ROOM + 4 };
    uint64_t table[TABLE], before[TABLE];
    list curve = C, twice = CURVE(20, 4, 6, 40);
    for (size_t i = 0; i < TABLE; i++)
        table[i] = before[i] = MOST - i;
    test("a part of a table that is too short, one list as both operands");
    duchrelin_answer got = duchrelin_sum(curve.numbers, curve.count, curve.numbers, curve.count, table + PART, twice.count - 1);
    check(got.code == DUCHRELIN_ROOM && got.count == 0, "ROOM, and count 0");
    check(memcmp(table, before, sizeof table) == 0, "the table as it was");

    test("a part of a table, one list as both operands");
    got = duchrelin_sum(curve.numbers, curve.count, curve.numbers, curve.count, table + PART, ROOM);
    memcpy(before + PART, twice.numbers, twice.count * sizeof(uint64_t));
    check(got.code == 0 && got.count == 2, "code 0, and count 2");
    check(memcmp(table, before, sizeof table) == 0, "the table with the answer in it");
}

void curve_tests(void)
{
    normalising();
    valuing();
    bursting();
    lowering();
    adding();
    shaping_bit_by_bit();
    shaping_by_frames();
    shape_refusals();
    room();
    shared_lists();
}
