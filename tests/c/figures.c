/* The figures of the scope: P1 to P12, those of servers that only delay, and those that are run. */
#include "harness.h"

#include <string.h>

static void route_says(file input, const char *text)
{
    gives(route(input), file_answer((file){(const uint8_t *)text, strlen(text)}));
}

static void delays(void)
{
    test("C and a delay of 4");
    gives(behind(C, PURE_DELAY(4)), curve_answer(CURVE(3, 32)));
    gives(backlog(C, PURE_DELAY(4)), figure(32));
    gives(delay(C, PURE_DELAY(4)), figure(4));
    test("(6,1) joined with a delay of 3, either way round");
    gives(join(PORT(6, 1), PURE_DELAY(3)), server_answer(PORT(6, 4)));
    gives(join(PURE_DELAY(3), PORT(6, 1)), server_answer(PORT(6, 4)));
    test("delays of 2 and of 3 are one of 5");
    gives(join(PURE_DELAY(2), PURE_DELAY(3)), server_answer(PURE_DELAY(5)));
    gives(join(PURE_DELAY(3), PURE_DELAY(2)), server_answer(PURE_DELAY(5)));
    test("C through (6,1) and then a delay of 3: hop by hop and in one step");
    gives(behind(CURVE(6, 17, 3, 23), PURE_DELAY(3)), curve_answer(CURVE(3, 32)));
    gives(delay(C, PORT(6, 1)), figure(3));
    gives(delay(CURVE(6, 17, 3, 23), PURE_DELAY(3)), figure(3));
    gives(delay(C, PORT(6, 4)), figure(3 + 3));
    test("{(0,0)} waits at no delay");
    for (uint64_t latency = 0; latency < LATENCY_END; latency = 2 * latency + 1) {
        gives(behind(CURVE(0, 0), PURE_DELAY(latency)), curve_answer(CURVE(0, 0)));
        gives(backlog(CURVE(0, 0), PURE_DELAY(latency)), figure(0));
        gives(delay(CURVE(0, 0), PURE_DELAY(latency)), figure(0));
    }
    test("a delay of 5 as a file");
    file of_delay = FILE_OF(0x23, 0x00, 0x00, 0x50);
    gives(write_server(2, PURE_DELAY(5)), file_answer(of_delay));
    gives(read_file(of_delay), (outcome){.figures = {2, DUCHRELIN_KIND_PURE_DELAY, 0, 0, 5}});
    test("the route of C in edition 2, (6,1) in edition 1 and a delay of 3 in edition 2");
    file mixed = FILE_OF(0x21, 0x04, 0x00, 0x02, 0x80, 0x00, 0x00, 0x00, 0x00, 0x80, 0x00, 0x0c, 0x00, 0x00, 0x00, 0x00, 0x50, /* C */
                         0x12, 0x00, 0x00, 0x60, 0x00, 0x01, /* (6,1) */
                         0x23, 0x00, 0x00, 0x30);            /* 3 */
    route_says(mixed, "hop 1 17 3\nhop 2 32 3\nroute 32 6\n");
}

void figures_tests(void)
{
    test("P1");
    gives(normalise(RAW(3, 20, 10, 2, 10, 2, 5, 15, 3, 25)), curve_answer(C));
    test("P2: three buckets meet at 1");
    gives(normalise(RAW(4, 0, 3, 1, 2, 2)), curve_answer(CURVE(4, 0, 2, 2)));
    test("P3: lowest at one half alone");
    gives(normalise(RAW(10, 0, 4, 2, 0, 5)), curve_answer(CURVE(10, 0, 4, 2, 0, 5)));
    test("P4");
    gives(sum(C, CURVE(4, 0, 2, 2)), curve_answer(CURVE(14, 2, 12, 4, 5, 22)));
    gives(sum(CURVE(4, 0, 2, 2), C), curve_answer(CURVE(14, 2, 12, 4, 5, 22)));
    test("P5: C and (6,1)");
    gives(behind(C, PORT(6, 1)), curve_answer(CURVE(6, 17, 3, 23)));
    gives(backlog(C, PORT(6, 1)), figure(17));
    gives(delay(C, PORT(6, 1)), figure(3));
    test("P6: C and (6,4)");
    gives(behind(C, PORT(6, 4)), curve_answer(CURVE(3, 32)));
    gives(backlog(C, PORT(6, 4)), figure(32));
    gives(delay(C, PORT(6, 4)), figure(6));
    test("P7: hop by hop and in one step");
    gives(behind(CURVE(3, 32), PORT(5, 2)), curve_answer(CURVE(3, 38)));
    gives(delay(CURVE(3, 32), PORT(5, 2)), figure(9));
    gives(join(PORT(6, 4), PORT(5, 2)), server_answer(PORT(5, 6)));
    gives(behind(C, PORT(5, 6)), curve_answer(CURVE(3, 38)));
    gives(delay(C, PORT(5, 6)), figure(9));
    test("P8: a last rate that is the server's, and one above it");
    gives(behind(CURVE(5, 7), PORT(5, 2)), curve_answer(CURVE(5, 17)));
    gives(delay(CURVE(5, 7), PORT(5, 2)), figure(4));
    refuses(behind(CURVE(6, 7), PORT(5, 2)), DUCHRELIN_UNBOUNDED);
    refuses(backlog(CURVE(6, 7), PORT(5, 2)), DUCHRELIN_UNBOUNDED);
    refuses(delay(CURVE(6, 7), PORT(5, 2)), DUCHRELIN_UNBOUNDED);
    test("P9: nothing carried, and no burst");
    gives(backlog(CURVE(0, 0), PORT(5, 2)), figure(0));
    gives(delay(CURVE(0, 0), PORT(5, 2)), figure(0));
    gives(backlog(CURVE(5, 0), PORT(10, 3)), figure(15));
    gives(delay(CURVE(5, 0), PORT(10, 3)), figure(3));
    test("P10");
    gives(residual(PORT(6, 1), C), server_answer(PORT(3, 5)));
    test("P11: a server as a file");
    file of_server = FILE_OF(0x12, 0x00, 0x00, 0x60, 0x00, 0x01);
    gives(write_server(1, PORT(6, 1)), file_answer(of_server));
    gives(read_file(of_server), (outcome){.figures = {1, DUCHRELIN_KIND_RATE_LATENCY, 0, 6, 1}});
    test("P11: a curve as a file");
    file of_curve = FILE_OF(0x11, 0x00, 0x00, 0x02, 0x80, 0x00, 0x00, 0x00, 0x00, 0x80);
    gives(write_curve(1, CURVE(10, 2)), file_answer(of_curve));
    const uint64_t list_of_curve[] = {10, 2};
    gives(read_file(of_curve), (outcome){0, {1, DUCHRELIN_KIND_CURVE, 1, 0, 0}, list_of_curve, sizeof list_of_curve});
    test("P12");
    file p12 = FILE_OF(0x11, 0x04, 0x00, 0x02, 0x80, 0x00, 0x00, 0x00, 0x00, 0x80, 0x00, 0x0c, 0x00, 0x00, 0x00, 0x00, 0x50, /* C */
                       0x12, 0x00, 0x00, 0x60, 0x00, 0x04,                                                                   /* (6,4) */
                       0x12, 0x00, 0x00, 0x50, 0x00, 0x02);                                                                  /* (5,2) */
    route_says(p12, "hop 1 32 6\nhop 2 38 9\nroute 38 9\n");

    test("C at 0, and its burst");
    gives(value(C, 0), figure(0));
    gives(burst(C), figure(2));
    test("the burst of {(0,0)}");
    gives(burst(CURVE(0, 0)), figure(0));
    test("{(0,5)} and (10,0): a burst takes a tick");
    gives(backlog(CURVE(0, 5), PORT(10, 0)), figure(5));
    gives(delay(CURVE(0, 5), PORT(10, 0)), figure(1));

    test("shape {(3,20)} by 10, bit by bit and with frames of 2");
    gives(shape(CURVE(3, 20), 10, 0), curve_answer(CURVE(10, 0, 3, 20)));
    gives(shape(CURVE(3, 20), 10, 2), curve_answer(C));
    test("shape C by links that it obeys");
    gives(shape(C, 10, 2), curve_answer(C));
    gives(shape(C, 12, 5), curve_answer(C));
    test("shape C by 10 with frames of 1");
    gives(shape(C, 10, 1), curve_answer(CURVE(10, 1, 3, 20)));
    test("join (1, 2^20-1) with (1, 0), and with (1, 1)");
    gives(join(PORT(1, LATENCY_END - 1), PORT(1, 0)), server_answer(PORT(1, LATENCY_END - 1)));
    refuses(join(PORT(1, LATENCY_END - 1), PORT(1, 1)), DUCHRELIN_LARGE);
    test("64 raw buckets are taken, 65 are not");
    gives(normalise(raw_stairs(63, 0, 1, 64)), curve_answer(full_stairs()));
    refuses(normalise(raw_stairs(64, 0, 1, 65)), DUCHRELIN_COUNT);
    test("burst 2^40-1 is taken, 2^40 is not");
    gives(normalise(RAW(0, BURST_END - 1)), curve_answer(CURVE(0, BURST_END - 1)));
    refuses(normalise(RAW(0, BURST_END)), DUCHRELIN_RANGE);
    delays();
}
