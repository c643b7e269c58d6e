/* What every call that takes a curve or a server refuses, and which refusal wins where two operands break a rule. */
#include "harness.h"

#include <inttypes.h>

/* A list that no call takes as a curve, whatever stands beside it. */
static void no_curve(const char *name, list bad, uint64_t code)
{
    testf("no curve: %s", name);
    refuses(value(bad, 0), code);
    refuses(burst(bad), code);
    refuses(lower(bad, C), code);
    refuses(lower(C, bad), code);
    refuses(lower(bad, bad), code);
    refuses(sum(bad, C), code);
    refuses(sum(C, bad), code);
    refuses(sum(bad, bad), code);
    refuses(shape(bad, 10, 2), code);
    refuses(behind(bad, PORT(6, 1)), code);
    refuses(backlog(bad, PORT(6, 1)), code);
    refuses(delay(bad, PORT(6, 1)), code);
    refuses(residual(PORT(6, 1), bad), code);
    for (unsigned edition = 1; edition <= EDITIONS; edition++)
        refuses(write_curve(edition, bad), code);
    /* At a server that only delays too; it has no rate to share, which is RANGE. */
    refuses(behind(bad, PURE_DELAY(4)), code);
    refuses(backlog(bad, PURE_DELAY(4)), code);
    refuses(delay(bad, PURE_DELAY(4)), code);
    refuses(residual(PURE_DELAY(4), bad), code < 6 ? code : 6);
}

static void bad_curves(void)
{
    no_curve("no number", NONE, 4);
    no_curve("1 number", RAW(3), 4);
    no_curve("a bucket and a number", longer(CURVE(10, 2), 1), 4);
    no_curve("63 buckets and a number", longer(stairs(63, 0, 1, 63), 1), 4);
    no_curve("64 buckets and a number", longer(full_stairs(), 1), 4);
    no_curve("65 buckets", stairs(64, 0, 1, 65), 5);
    no_curve("65 buckets and a number", longer(stairs(64, 0, 1, 65), 1), 4);
    no_curve("170 buckets", stairs(199, 0, 1, 170), 5);

    no_curve("rate 2^20", CURVE(RATE_END, 0), 6);
    no_curve("burst 2^40", CURVE(0, BURST_END), 6);
    no_curve("the greatest number as a rate", CURVE(MOST, 0), 6);
    no_curve("the greatest number as a burst", CURVE(0, MOST), 6);
    no_curve("the last of 64 bursts is 2^40", with(full_stairs(), BURST_OF(63), BURST_END), 6);
    no_curve("the first of 64 rates is 2^20", with(full_stairs(), RATE_OF(0), RATE_END), 6);

    no_curve("rising rates", CURVE(3, 20, 10, 2), 7);
    no_curve("one rate twice", CURVE(10, 2, 10, 3), 7);
    no_curve("one bucket twice", CURVE(10, 2, 10, 2), 7);
    no_curve("bursts that do not rise", CURVE(10, 2, 3, 2), 7);
    no_curve("bursts that fall", CURVE(10, 2, 3, 1), 7);
    no_curve("P2's raw list: the middle one is useless", CURVE(4, 0, 3, 1, 2, 2), 7);
    no_curve("the middle one is above the other two", CURVE(4, 0, 3, 2, 2, 2), 7);
    list changed = with(with(full_stairs(), RATE_OF(62), 0), BURST_OF(62), 2016);
    no_curve("64 buckets, two changed places", with(with(changed, RATE_OF(63), 1), BURST_OF(63), 1953), 7);
    no_curve("64 buckets, the last of three that meet", with(full_stairs(), BURST_OF(63), 2015), 7);

    no_curve("LIST before RANGE", longer(CURVE(RATE_END, 0), 1), 4);
    no_curve("LIST before FORM", longer(CURVE(1, 5, 2, 6), 1), 4);
    no_curve("LIST before COUNT, RANGE and FORM", with(longer(stairs(64, 0, 1, 65), 1), RATE_OF(1), RATE_END), 4);
    no_curve("COUNT before RANGE", with(stairs(64, 0, 1, 65), RATE_OF(0), RATE_END), 5);
    no_curve("COUNT before FORM", turned(stairs(64, 0, 1, 65)), 5);
    no_curve("RANGE before FORM", CURVE(3, BURST_END, 10, 2), 6);
}

/* A server that no call takes, whatever stands beside it. */
static void taken_by_none(server bad)
{
    refuses(join(bad, PORT(6, 1)), 6);
    refuses(join(PORT(6, 1), bad), 6);
    refuses(join(bad, PURE_DELAY(4)), 6);
    refuses(join(PURE_DELAY(4), bad), 6);
    refuses(join(bad, bad), 6);
    refuses(behind(C, bad), 6);
    refuses(backlog(C, bad), 6);
    refuses(delay(C, bad), 6);
    refuses(residual(bad, C), 6);
    /* A server that only delays is in no file of edition 1, whatever its numbers. */
    refuses(write_server(1, bad), bad.kind == DUCHRELIN_KIND_PURE_DELAY ? 1 : 6);
    refuses(write_server(2, bad), 6);
    /* A last rate above every server's that is not in range either would be UNBOUNDED. */
    list steep = CURVE(RATE_END - 1, 5);
    refuses(behind(steep, bad), 6);
    refuses(backlog(steep, bad), 6);
    refuses(delay(steep, bad), 6);
    refuses(residual(bad, steep), 6);
}

static void no_server(const char *name, server bad)
{
    testf("no server: %s", name);
    taken_by_none(bad);
}

static void bad_servers(void)
{
    no_server("rate 0", PORT(0, 1));
    no_server("rate 0 and latency 0", PORT(0, 0));
    no_server("rate 2^20", PORT(RATE_END, 1));
    no_server("the greatest number as a rate", PORT(MOST, 1));
    no_server("latency 2^20", PORT(6, LATENCY_END));
    no_server("the greatest number as a latency", PORT(6, MOST));
    no_server("both out of range", PORT(RATE_END, LATENCY_END));

    no_server("a delay of 2^20", PURE_DELAY(LATENCY_END));
    no_server("a delay of 2^32", PURE_DELAY(UINT64_C(1) << 32));
    no_server("a delay of the greatest number", PURE_DELAY(MOST));
    const uint64_t rates[] = {1, 2, 6, RATE_END - 1, RATE_END, UINT64_C(1) << 32, MOST};
    for (size_t i = 0; i < sizeof rates / sizeof *rates; i++) {
        testf("no server: a delay of 4 with rate %" PRIu64, rates[i]);
        taken_by_none(SERVER(DUCHRELIN_KIND_PURE_DELAY, rates[i], 4));
    }
    no_server("a delay of 2^20 with a rate", SERVER(DUCHRELIN_KIND_PURE_DELAY, 6, LATENCY_END));
}

/* No number but 2 and 3 is a server's kind: not a curve's, and not one that has the same low bits. */
static void bad_kinds(void)
{
    const uint64_t kinds[] = {0, 1, 4, 5, 6, 7, 8, 15, 16, 18, 19, 0x102, 0x103, 0x10002, 0x10003, (UINT64_C(1) << 32) + 2,
                              (UINT64_C(1) << 32) + 3, (UINT64_C(1) << 63) + 2, (UINT64_C(1) << 63) + 3, MOST - 1, MOST};
    for (size_t i = 0; i < sizeof kinds / sizeof *kinds; i++) {
        testf("no server: kind %" PRIu64, kinds[i]);
        taken_by_none(SERVER(kinds[i], 6, 1));
        taken_by_none(SERVER(kinds[i], 0, 4));
        taken_by_none(SERVER(kinds[i], 0, 0));
        taken_by_none(SERVER(kinds[i], RATE_END, LATENCY_END));
    }
}

/* The smallest number over all operands wins, from whichever it comes. */
static void two_operands(void)
{
    list lists[] = {NONE, stairs(64, 0, 1, 65), CURVE(RATE_END, 0), CURVE(3, 20, 10, 2)};
    const uint64_t codes[] = {4, 5, 6, 7};
    for (size_t i = 0; i < 4; i++)
        for (size_t j = 0; j < 4; j++) {
            uint64_t wins = codes[i < j ? i : j];
            testf("two curves that give %" PRIu64 " and %" PRIu64, codes[i], codes[j]);
            refuses(lower(lists[i], lists[j]), wins);
            refuses(sum(lists[i], lists[j]), wins);
        }
    for (size_t i = 0; i < 4; i++) {
        uint64_t wins = codes[i] < 6 ? codes[i] : 6;
        testf("a curve that gives %" PRIu64 ", and a server out of range", codes[i]);
        refuses(behind(lists[i], PORT(0, 1)), wins);
        refuses(backlog(lists[i], PORT(0, 1)), wins);
        refuses(delay(lists[i], PORT(6, LATENCY_END)), wins);
        refuses(residual(PORT(RATE_END, 1), lists[i]), wins);
        testf("a curve that gives %" PRIu64 ", and a server of no kind, or a delay with a rate", codes[i]);
        refuses(behind(lists[i], SERVER(4, 6, 1)), wins);
        refuses(backlog(lists[i], SERVER(DUCHRELIN_KIND_CURVE, 6, 1)), wins);
        refuses(delay(lists[i], SERVER(DUCHRELIN_KIND_PURE_DELAY, 6, 1)), wins);
        refuses(residual(SERVER(DUCHRELIN_KIND_PURE_DELAY, 6, 1), lists[i]), wins);
        refuses(residual(SERVER(0, 6, 1), lists[i]), wins);
    }
    test("FORM before UNBOUNDED");
    list unsorted = CURVE(8, 20, 10, 2);
    refuses(behind(unsorted, PORT(6, 1)), 7);
    refuses(backlog(unsorted, PORT(6, 1)), 7);
    refuses(delay(unsorted, PORT(6, 1)), 7);
    refuses(residual(PORT(6, 1), unsorted), 7);
}

void refusal_tests(void)
{
    bad_curves();
    bad_servers();
    bad_kinds();
    two_operands();
}
