/*
 * A device that only delays, such as a long fibre, on a route: alone, with a port before it and behind it, beside other traffic, and as
 * the file of a profile.
 *
 *     delay TICKS
 *
 * TICKS is its latency. It has no rate: no bit leaves it before, and every bit does after. So the delay there is TICKS, however much
 * comes, and no traffic is too fast for it.
 */
#include <inttypes.h>
#include <stdio.h>
#include <stdlib.h>

#include "duchrelin_words.h"

enum { PORT = DUCHRELIN_KIND_RATE_LATENCY, DELAY = DUCHRELIN_KIND_PURE_DELAY, NO_RATE = 0, NUMBERS = 4 };

static const uint64_t flow[NUMBERS] = {10, 2, 3, 20};

static void show_code(const char *what, uint64_t code)
{
    printf("%s: refused, %" PRIu64 " %s. %s\n", what, code, duchrelin_code_name(code), duchrelin_code_meaning(code));
}

/* Where the curve behind is answered, so are the two figures. */
static void alone(uint64_t ticks)
{
    uint64_t behind[DUCHRELIN_CURVE_NUMBERS];
    duchrelin_figure backlog = duchrelin_backlog(flow, NUMBERS, DELAY, NO_RATE, ticks);
    duchrelin_figure delay = duchrelin_delay(flow, NUMBERS, DELAY, NO_RATE, ticks);
    duchrelin_answer left = duchrelin_behind(flow, NUMBERS, DELAY, NO_RATE, ticks, behind, DUCHRELIN_CURVE_NUMBERS);
    if (left.code != DUCHRELIN_ANSWERED) {
        show_code("alone", left.code);
        return;
    }
    printf("alone: %" PRIu64 " bits wait, delay %" PRIu64 " ticks, behind it", backlog.figure, delay.figure);
    for (uint64_t i = 0; i < left.count; i++)
        printf(" (%" PRIu64 ",%" PRIu64 ")", behind[DUCHRELIN_BUCKET_NUMBERS * i], behind[DUCHRELIN_BUCKET_NUMBERS * i + 1]);
    printf("\n");
}

/* A server of either kind, and the flow's delay there: its three numbers are passed on as they came. */
static void show_server(const char *what, duchrelin_server s)
{
    if (s.code != DUCHRELIN_ANSWERED) {
        show_code(what, s.code);
        return;
    }
    duchrelin_figure delay = duchrelin_delay(flow, NUMBERS, s.kind, s.rate, s.latency);
    printf("%s: ", what);
    if (s.kind == DELAY)
        printf("no rate");
    else
        printf("rate %" PRIu64, s.rate);
    printf(", latency %" PRIu64 ", delay %" PRIu64 " ticks\n", s.latency, delay.figure);
}

/* The report of the flow, a port and the device: files of two editions, back to back. */
static void route(uint64_t ticks)
{
    uint8_t input[DUCHRELIN_INPUT_BYTES], text[DUCHRELIN_TEXT_BYTES];
    uint64_t at = duchrelin_write_curve(2, flow, NUMBERS, input, sizeof input).bytes;
    at += duchrelin_write_server(1, PORT, 6, 1, input + at, sizeof input - at).bytes;
    duchrelin_written file = duchrelin_write_server(2, DELAY, NO_RATE, ticks, input + at, sizeof input - at);
    printf("its file:");
    for (uint64_t i = 0; i < file.bytes; i++)
        printf(" %02x", input[at + i]);
    printf("\nthe route of the flow, the port and the device:\n");
    fwrite(text, 1, duchrelin_route(input, at + file.bytes, text, sizeof text).bytes, stdout);
}

int main(int argc, char **argv)
{
    uint64_t ticks = argc == 2 ? strtoull(argv[1], NULL, 10) : DUCHRELIN_LATENCY_END;
    if (ticks >= DUCHRELIN_LATENCY_END) {
        fprintf(stderr, "usage: delay TICKS\n  the latency of the device, up to %" PRIu64 "\n", DUCHRELIN_LATENCY_END - 1);
        return 2;
    }
    alone(ticks);
    show_server("behind the port (6,1)", duchrelin_join(PORT, 6, 1, DELAY, NO_RATE, ticks));
    show_server("before the port (6,1)", duchrelin_join(DELAY, NO_RATE, ticks, PORT, 6, 1));
    show_server("two of them", duchrelin_join(DELAY, NO_RATE, ticks, DELAY, NO_RATE, ticks));
    show_server("beside the flow", duchrelin_residual(DELAY, NO_RATE, ticks, flow, NUMBERS));
    route(ticks);
    return 0;
}
