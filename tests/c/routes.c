/* The route's text: from the bytes of a curve's file and of servers' files, back to back. */
#include "harness.h"

#include <inttypes.h>
#include <stdio.h>
#include <string.h>

static file text_of(const char *text) { return (file){(const uint8_t *)text, strlen(text)}; }

static void says(file input, const char *text) { gives(route(input), file_answer(text_of(text))); }

/* Puts a server in the first edition that has its kind. */
static void add(builder *b, server s) { put_server(b, s.kind == DUCHRELIN_KIND_PURE_DELAY ? DELAY_EDITION : 1, s); }

/* An input: a curve, and so many times a server, of edition 1 as far as it has them. */
static builder input_of(list curve, size_t count, server s)
{
    builder b = {.bits = 0};
    put_curve(&b, 1, curve);
    for (size_t i = 0; i < count; i++)
        add(&b, s);
    return b;
}

/* The first so many bytes of an input. */
static file cut(const builder *b, size_t count) { return (file){b->bytes, count}; }

static void put_bytes(builder *b, file f)
{
    for (size_t i = 0; i < f.count; i++)
        put(b, 8, f.bytes[i]);
}

enum { PORT_BYTES = 6, DELAY_BYTES = 4, CURVE_BYTES = 17 /* of C */ };

static void answered(void)
{
    builder b = input_of(C, 1, PORT(6, 1));
    test("route of one hop");
    says(built(&b), "hop 1 17 3\nroute 17 3\n");
    add(&b, PORT(6, 4));
    test("route of two hops");
    /* Behind the first: (6,17),(3,23). They cross at 2. The latency ends after that: 3 * 4 + 23. */
    says(built(&b), "hop 1 17 3\nhop 2 35 7\nroute 35 7\n");
    b = input_of(CURVE(0, 0), 3, PORT(5, 2));
    test("route of a curve that carries nothing");
    says(built(&b), "hop 1 0 0\nhop 2 0 0\nhop 3 0 0\nroute 0 0\n");
    b = input_of(full_stairs(), 1, PORT(10, 5));
    add(&b, PORT(20, 55));
    test("route of 64 buckets");
    /* Behind the first: (10,1481) and on. Behind both, a latency of 60: 3 * 60 + 1830. M is 1431 for the rate 10, 1481 for the rest. */
    says(built(&b), "hop 1 1481 149\nhop 2 2010 130\nroute 2010 204\n");
}

/* Routes with servers that only delay. C is 2, 12, 22, 29, 32, .. at the ticks, and 3 t + 20 from 3 on. */
static void answered_delays(void)
{
    builder b = input_of(C, 1, PURE_DELAY(4));
    test("route of one delay");
    says(built(&b), "hop 1 32 4\nroute 32 4\n");
    b = input_of(C, 1, PURE_DELAY(0));
    test("route of a delay of 0");
    says(built(&b), "hop 1 2 0\nroute 2 0\n");
    b = input_of(C, 1, PURE_DELAY(2));
    add(&b, PURE_DELAY(3));
    test("route of two delays");
    says(built(&b), "hop 1 22 2\nhop 2 35 3\nroute 35 5\n");
    b = input_of(C, 1, PURE_DELAY(3));
    add(&b, PORT(6, 1));
    test("route of a delay, and then a rate");
    /* Behind the first: (3,29), and 3 more have come when the latency ends. */
    says(built(&b), "hop 1 29 3\nhop 2 32 6\nroute 32 6\n");
    b = input_of(CURVE(0, 0), 1, PURE_DELAY(LATENCY_END / 2));
    add(&b, PORT(5, 2));
    add(&b, PURE_DELAY(1));
    test("route of a curve that carries nothing through delays");
    says(built(&b), "hop 1 0 0\nhop 2 0 0\nhop 3 0 0\nroute 0 0\n");
    b = input_of(CURVE(RATE_END - 1, 0), 2, PURE_DELAY(1));
    test("route: no rate is too large for a delay");
    says(built(&b), "hop 1 1048575 1\nhop 2 2097150 1\nroute 2097150 2\n");
    /* A burst of 5 takes a tick at each rate; the latencies are 4 in all. */
    test("route of a delay between two rates");
    for (uint64_t ticks = 0; ticks <= 4; ticks++) {
        b = input_of(CURVE(0, 5), 1, PORT(5, 0));
        add(&b, PURE_DELAY(ticks));
        add(&b, PORT(5, 4 - ticks));
        char text[128];
        snprintf(text, sizeof text, "hop 1 5 1\nhop 2 5 %" PRIu64 "\nhop 3 5 %" PRIu64 "\nroute 5 5\n", ticks, 5 - ticks);
        says(built(&b), text);
    }
}

/* One route in all mixtures of editions: the text is always the same. */
static void answered_in_each_edition(void)
{
    for (unsigned mixture = 0; mixture < 4; mixture++) {
        unsigned of_curve = 1 + mixture % 2, of_port = 1 + mixture / 2;
        builder b = {.bits = 0};
        testf("route of a curve in edition %u, a server in edition %u, and a delay", of_curve, of_port);
        put_curve(&b, of_curve, C);
        put_server(&b, of_port, PORT(6, 1));
        put_server(&b, DELAY_EDITION, PURE_DELAY(3));
        says(built(&b), "hop 1 17 3\nhop 2 32 3\nroute 32 6\n");
    }
}

/* Each refusal of a header that can occur at the curve. */
static void refused_header_at_the_curve(void)
{
    builder good = input_of(C, 2, PORT(6, 1));
    test("route: an empty input is 1 at 1");
    says(EMPTY, "refused 1 at 1\n");
    test("route: any header but a curve's of edition 1 or 2 is 1 at 1");
    for (unsigned first = 0; first < 256; first++) {
        builder b = good;
        b.bytes[0] = (uint8_t)first;
        if (first != 0x11 && first != 0x21)
            says(built(&b), "refused 1 at 1\n");
    }
    test("route: a server where the curve is due is 1 at 1, even cut short");
    for (unsigned edition = 1; edition <= EDITIONS; edition++) {
        builder servers = {.bits = 0};
        put_server(&servers, edition, PORT(6, 1));
        for (size_t count = 1; count <= PORT_BYTES; count++)
            says(cut(&servers, count), "refused 1 at 1\n");
    }
    test("route: a delay where the curve is due is 1 at 1, even cut short or with a padding bit");
    builder delays = {.bits = 0};
    put_server(&delays, DELAY_EDITION, PURE_DELAY(5));
    for (size_t count = 1; count <= DELAY_BYTES; count++)
        says(cut(&delays, count), "refused 1 at 1\n");
    delays.bytes[DELAY_BYTES - 1] |= 1;
    says(built(&delays), "refused 1 at 1\n");
}

/* Each other refusal that can occur at the curve, in an edition. */
static void refused_at_the_curve(unsigned edition)
{
    builder good = {.bits = 0};
    put_curve(&good, edition, C);
    add(&good, PORT(6, 1));
    testf("route: a curve of edition %u cut short is 2 at 1", edition);
    for (size_t count = 1; count < CURVE_BYTES; count++)
        says(cut(&good, count), "refused 2 at 1\n");
    builder all = {.bits = 0};
    put_curve(&all, edition, full_stairs());
    for (size_t count = 1; count < DUCHRELIN_FILE_BYTES; count++)
        says(cut(&all, count), "refused 2 at 1\n");
    testf("route: a padding bit of a curve of edition %u is 3 at 1", edition);
    for (unsigned bit = 0; bit < 2; bit++) {
        builder b = good;
        b.bytes[CURVE_BYTES - 1] |= (uint8_t)(1 << bit);
        says(built(&b), "refused 3 at 1\n");
    }
    testf("route: a curve of edition %u that is not in normal form is 7 at 1", edition);
    builder unsorted = {.bits = 0}, useless = {.bits = 0};
    put_curve(&unsorted, edition, CURVE(3, 20, 10, 2));
    says(built(&unsorted), "refused 7 at 1\n");
    put_curve(&useless, edition, CURVE(4, 0, 3, 1, 2, 2));
    says(built(&useless), "refused 7 at 1\n");
    testf("route: a padding bit before the form is 3 at 1, edition %u", edition);
    unsorted.bytes[CURVE_BYTES - 1] |= 1;
    says(built(&unsorted), "refused 3 at 1\n");
}

/* What follows good profiles is refused with a code at the profile after them. */
static void refused_after(builder before, unsigned place, file bytes, uint64_t code)
{
    char text[64];
    snprintf(text, sizeof text, "refused %" PRIu64 " at %u\n", code, place);
    put_bytes(&before, bytes);
    says(built(&before), text);
}

static file server_bytes(builder *b, unsigned edition, server s)
{
    *b = (builder){.bits = 0};
    put_server(b, edition, s);
    return built(b);
}

/* Each header that no server has, where one is due. */
static void refused_header_at_a_server(const char *which, builder before, unsigned place)
{
    builder own;
    testf("route: a wrong header at %s is 1", which);
    for (unsigned first = 0; first < 256; first++) {
        file f = server_bytes(&own, 1, PORT(6, 1));
        own.bytes[0] = (uint8_t)first;
        if (first != 0x12 && first != 0x22 && first != 0x23)
            refused_after(before, place, f, 1);
    }
    testf("route: a curve where %s is due is 1, even cut short", which);
    for (unsigned edition = 1; edition <= EDITIONS; edition++) {
        own = (builder){.bits = 0};
        put_curve(&own, edition, C);
        for (size_t count = 1; count <= CURVE_BYTES; count++)
            refused_after(before, place, cut(&own, count), 1);
    }
    testf("route: a delay of edition 1 as %s is 1, even cut short or with a padding bit", which);
    server_bytes(&own, 1, PURE_DELAY(5));
    for (size_t count = 1; count <= DELAY_BYTES; count++)
        refused_after(before, place, cut(&own, count), 1);
    own.bytes[DELAY_BYTES - 1] |= 1;
    refused_after(before, place, built(&own), 1);
}

/* Each refusal that can occur at a server that only delays; nothing is too fast for one. */
static void refused_at_a_delay(const char *which, builder before, unsigned place)
{
    builder own;
    testf("route: %s a delay, cut short, is 2", which);
    server_bytes(&own, DELAY_EDITION, PURE_DELAY(5));
    for (size_t count = 1; count < DELAY_BYTES; count++)
        refused_after(before, place, cut(&own, count), 2);
    testf("route: %s a delay with a padding bit is 3", which);
    for (unsigned padding = 1; padding < 16; padding++) {
        server_bytes(&own, DELAY_EDITION, PURE_DELAY(5));
        own.bytes[DELAY_BYTES - 1] |= (uint8_t)padding;
        refused_after(before, place, built(&own), 3);
    }
    testf("route: %s a delay with a padding bit, and what follows changes nothing", which);
    add(&own, PORT(0, 0));
    refused_after(before, place, built(&own), 3);
}

/* Each other refusal that can occur at a server with a rate. */
static void refused_at_a_server(const char *which, builder before, unsigned place)
{
    builder own;
    testf("route: %s cut short is 2", which);
    for (unsigned edition = 1; edition <= EDITIONS; edition++)
        for (size_t count = 1; count < PORT_BYTES; count++)
            refused_after(before, place, (file){server_bytes(&own, edition, PORT(6, 1)).bytes, count}, 2);
    testf("route: %s with rate 0 is 6", which);
    refused_after(before, place, server_bytes(&own, 1, PORT(0, 0)), 6);
    refused_after(before, place, server_bytes(&own, 2, PORT(0, 0)), 6);
    refused_after(before, place, server_bytes(&own, 1, PORT(0, LATENCY_END - 1)), 6);
    testf("route: %s with a rate below the curve's last is 8", which);
    refused_after(before, place, server_bytes(&own, 1, PORT(2, 1)), 8);
    refused_after(before, place, server_bytes(&own, 2, PORT(2, 1)), 8);
    refused_after(before, place, server_bytes(&own, 1, PORT(1, LATENCY_END - 1)), 8);
    testf("route: what follows where %s is refused changes nothing", which);
    builder b = before;
    add(&b, PORT(2, 1));
    refused_after(b, place, FILE_OF(0xff, 0x00), 8);
    add(&b, PORT(0, 0));
    refused_after(b, place, EMPTY, 8);
}

static void refused_at(const char *which, builder before, unsigned place)
{
    refused_header_at_a_server(which, before, place);
    refused_at_a_server(which, before, place);
    refused_at_a_delay(which, before, place);
}

static void refused_at_servers(void)
{
    builder curve = input_of(C, 0, PORT(6, 1)), two = input_of(C, 2, PORT(6, 1));
    test("route: input that ends where the first server is due is 1 at 2");
    says(built(&curve), "refused 1 at 2\n");
    refused_at("the first server", curve, 2);
    refused_at("a later server", two, 4);
    refused_at("the last of 32 servers", input_of(C, 31, PORT(6, 0)), 33);
    refused_at("a server behind delays", input_of(C, 2, PURE_DELAY(1)), 4);
}

/* What joining a server to those before it, or the curve behind it, refuses. */
static void refused_beyond_the_ranges(void)
{
    builder b;
    test("route: a burst of 2^40 behind the first server is 9 at 2");
    b = input_of(CURVE(1, BURST_END - 1), 1, PORT(1, 1));
    says(built(&b), "refused 9 at 2\n");
    test("route: a burst of 2^40 behind a later server is 9");
    b = input_of(CURVE(1, BURST_END - 3), 3, PORT(1, 1));
    says(built(&b), "refused 9 at 4\n");
    b = input_of(CURVE(1, BURST_END - 3), 2, PORT(1, 1));
    says(built(&b), "hop 1 1099511627774 1099511627774\nhop 2 1099511627775 1099511627775\nroute 1099511627775 1099511627775\n");
    test("route: joined latencies of 2^20 are 9");
    b = input_of(C, 1, PORT(5, LATENCY_END - 1));
    add(&b, PORT(5, 1));
    says(built(&b), "refused 9 at 3\n");
    test("route: joined latencies of 2^20, of a curve that carries nothing, are 9");
    b = input_of(CURVE(0, 0), 2, PORT(5, LATENCY_END / 2));
    says(built(&b), "refused 9 at 3\n");
    test("route: joined latencies of 2^20-1 are answered");
    b = input_of(CURVE(0, 0), 1, PORT(5, LATENCY_END / 2));
    add(&b, PORT(5, LATENCY_END / 2 - 1));
    says(built(&b), "hop 1 0 0\nhop 2 0 0\nroute 0 0\n");
    test("route: 8 before 9 at one server");
    b = input_of(CURVE(3, BURST_END - 1), 1, PORT(2, 5));
    says(built(&b), "refused 8 at 2\n");
    b = input_of(C, 1, PORT(5, LATENCY_END - 1));
    add(&b, PORT(2, LATENCY_END - 1));
    says(built(&b), "refused 8 at 3\n");
    test("route: 6 before 9 at one server");
    b = input_of(C, 1, PORT(5, LATENCY_END - 1));
    add(&b, PORT(0, LATENCY_END - 1));
    says(built(&b), "refused 6 at 3\n");
    test("route: the earliest profile that is refused is named");
    b = input_of(CURVE(1, BURST_END - 1), 1, PORT(1, 1));
    put(&b, 8, 0xff);
    says(built(&b), "refused 9 at 2\n");
    b = input_of(CURVE(3, 20, 10, 2), 1, PORT(0, 1));
    says(built(&b), "refused 7 at 1\n");
}

/* The same at servers that only delay. */
static void delays_beyond_the_ranges(void)
{
    builder b;
    test("route: a burst of 2^40 behind a delay is 9");
    b = input_of(CURVE(1, BURST_END - 1), 1, PURE_DELAY(1));
    says(built(&b), "refused 9 at 2\n");
    b = input_of(CURVE(1, BURST_END - 3), 3, PURE_DELAY(1));
    says(built(&b), "refused 9 at 4\n");
    b = input_of(CURVE(1, BURST_END - 3), 2, PURE_DELAY(1));
    says(built(&b), "hop 1 1099511627774 1\nhop 2 1099511627775 1\nroute 1099511627775 2\n");
    test("route: joined latencies of 2^20, of delays and of both kinds, are 9");
    const server halves[] = {PURE_DELAY(LATENCY_END / 2), PORT(5, LATENCY_END / 2)};
    for (size_t i = 0; i < 4; i++) {
        b = input_of(CURVE(0, 0), 1, halves[i / 2]);
        add(&b, halves[i % 2]);
        says(built(&b), "refused 9 at 3\n");
    }
    test("route: joined delays of 2^20-1 are answered");
    b = input_of(CURVE(0, 1), 1, PURE_DELAY(LATENCY_END / 2));
    add(&b, PURE_DELAY(LATENCY_END / 2 - 1));
    says(built(&b), "hop 1 1 524288\nhop 2 1 524287\nroute 1 1048575\n");
    test("route: 3 before 9 at one delay");
    b = input_of(C, 1, PURE_DELAY(LATENCY_END - 1));
    add(&b, PURE_DELAY(LATENCY_END - 1));
    says(built(&b), "refused 9 at 3\n");
    b.bytes[built(&b).count - 1] |= 1;
    says(built(&b), "refused 3 at 3\n");
    test("route: 2 before 9 at one delay");
    says(cut(&b, built(&b).count - 1), "refused 2 at 3\n");
}

/* C through servers (6,0): 11 is the most that it is above the rate 6, and stays so behind each. */
static const char *hops_of_11(size_t count)
{
    static char text[2048];
    size_t at = 0;
    for (size_t i = 1; i <= count; i++)
        at += (size_t)snprintf(text + at, sizeof text - at, "hop %zu 11 2\n", i);
    snprintf(text + at, sizeof text - at, "route 11 2\n");
    return text;
}

static void many_servers(void)
{
    test("route of every number of hops, 1 to 32");
    for (size_t count = 1; count <= 32; count++) {
        builder b = input_of(C, count, PORT(6, 0));
        says(built(&b), hops_of_11(count));
    }
    test("route: 33 and more servers are 5 at 34");
    for (size_t count = 33; count <= 100; count++) {
        builder b = input_of(C, count, PORT(6, 0));
        says(built(&b), "refused 5 at 34\n");
    }
    test("route: any byte after 32 servers is 5 at 34");
    for (unsigned byte = 0; byte < 256; byte++) {
        builder b = input_of(C, 32, PORT(6, 0));
        put(&b, 8, byte);
        says(built(&b), "refused 5 at 34\n");
    }
    test("route: 31 servers and a part of one are 2 at 33");
    builder b = input_of(C, 32, PORT(6, 0));
    for (size_t less = 1; less < PORT_BYTES; less++)
        says(cut(&b, built(&b).count - less), "refused 2 at 33\n");
    test("route: every length of 32 servers, and more");
    builder more = input_of(C, 40, PORT(6, 0));
    for (size_t count = CURVE_BYTES + 1; count <= built(&more).count; count++) {
        size_t servers = (count - CURVE_BYTES) / PORT_BYTES, rest = (count - CURVE_BYTES) % PORT_BYTES;
        char text[64];
        snprintf(text, sizeof text, "refused 2 at %zu\n", servers + 2);
        says(cut(&more, count), servers > 32 || (servers == 32 && rest > 0) ? "refused 5 at 34\n" : rest > 0 ? text : hops_of_11(servers));
    }
    test("route: the longest input that is answered has one byte less than decides");
    b = input_of(full_stairs(), 32, PORT(63, 0));
    check(built(&b).count == DUCHRELIN_INPUT_BYTES - 1, "674 bytes");
    put(&b, 8, 0x12);
    says(built(&b), "refused 5 at 34\n");
}

/* C through delays of 1: at hop i it has what it has at tick i. */
static const char *hops_of_1_tick(uint64_t count)
{
    static char text[2048];
    size_t at = 0;
    uint64_t bits = 0;
    for (uint64_t i = 1; i <= count; i++) {
        bits = 10 * i + 2 < 3 * i + 20 ? 10 * i + 2 : 3 * i + 20;
        at += (size_t)snprintf(text + at, sizeof text - at, "hop %" PRIu64 " %" PRIu64 " 1\n", i, bits);
    }
    snprintf(text + at, sizeof text - at, "route %" PRIu64 " %" PRIu64 "\n", bits, count);
    return text;
}

static void many_delays(void)
{
    test("route: every length of 32 delays, and more");
    builder more = input_of(C, 40, PURE_DELAY(1));
    for (size_t count = CURVE_BYTES + 1; count <= built(&more).count; count++) {
        size_t servers = (count - CURVE_BYTES) / DELAY_BYTES, rest = (count - CURVE_BYTES) % DELAY_BYTES;
        char text[64];
        snprintf(text, sizeof text, "refused 2 at %zu\n", servers + 2);
        int over = servers > 32 || (servers == 32 && rest > 0);
        says(cut(&more, count), over ? "refused 5 at 34\n" : rest > 0 ? text : hops_of_1_tick(servers));
    }
    /* C behind (6,0) has 11 at once, and none of that waits at a delay of 0. */
    test("route of 16 rates and 16 delays in turn, and one byte more");
    builder b = input_of(C, 0, PORT(6, 0));
    char text[2048];
    size_t at = 0;
    for (unsigned i = 0; i < 32; i++) {
        put_server(&b, 2, i % 2 == 0 ? PORT(6, 0) : PURE_DELAY(0));
        at += (size_t)snprintf(text + at, sizeof text - at, "hop %u 11 %d\n", i + 1, i % 2 == 0 ? 2 : 0);
    }
    snprintf(text + at, sizeof text - at, "route 11 2\n");
    says(built(&b), text);
    put(&b, 8, 0x23);
    says(built(&b), "refused 5 at 34\n");
}

static void room(void)
{
    builder two = input_of(C, 1, PORT(6, 4)), delayed = input_of(C, 1, PORT(6, 1));
    add(&two, PORT(5, 2));
    add(&delayed, PURE_DELAY(3));
    builder longest = input_of(CURVE(0, BURST_END - 1), 32, PORT(1, 0));
    char text[DUCHRELIN_TEXT_BYTES + 1];
    size_t at = 0;
    test("room for P12's text");
    gives_by_room(route(built(&two)), file_answer(text_of("hop 1 32 6\nhop 2 38 9\nroute 38 9\n")), 0, 40);
    test("room for the text of a route with a delay");
    gives_by_room(route(built(&delayed)), file_answer(text_of("hop 1 17 3\nhop 2 32 3\nroute 32 6\n")), 0, 40);
    test("room for a refusal's text");
    gives_by_room(route(EMPTY), file_answer(text_of("refused 1 at 1\n")), 0, 20);
    test("room for the longest text, of DUCHRELIN_TEXT_BYTES");
    for (unsigned i = 1; i <= 32; i++)
        at += (size_t)snprintf(text + at, sizeof text - at, "hop %u 1099511627775 1099511627775\n", i);
    at += (size_t)snprintf(text + at, sizeof text - at, "route 1099511627775 1099511627775\n");
    check(at == DUCHRELIN_TEXT_BYTES, "1145 bytes");
    gives_by_room(route(built(&longest)), file_answer(text_of(text)), 0, DUCHRELIN_TEXT_BYTES + 3);
}

void route_tests(void)
{
    answered();
    answered_delays();
    answered_in_each_edition();
    refused_header_at_the_curve();
    for (unsigned edition = 1; edition <= EDITIONS; edition++)
        refused_at_the_curve(edition);
    refused_at_servers();
    refused_beyond_the_ranges();
    delays_beyond_the_ranges();
    many_servers();
    many_delays();
    room();
}
