/* One flow through two ports, and beside other traffic: every question about ports, with the codes in words. */
#include <inttypes.h>
#include <stdio.h>

#include "duchrelin_words.h"

enum { PORT = DUCHRELIN_KIND_RATE_LATENCY };

static void show_code(const char *what, uint64_t code)
{
    printf("%s: %s. %s %s\n", what, duchrelin_code_name(code), duchrelin_code_meaning(code), duchrelin_code_advice(code));
}

static void show_curve(const char *what, duchrelin_answer answer, const uint64_t *curve)
{
    if (answer.code != DUCHRELIN_ANSWERED) {
        show_code(what, answer.code);
        return;
    }
    printf("%s:", what);
    for (uint64_t i = 0; i < answer.count; i++) {
        const uint64_t *bucket = curve + DUCHRELIN_BUCKET_NUMBERS * i;
        printf(" (%" PRIu64 ",%" PRIu64 ")", bucket[0], bucket[1]);
    }
    printf("\n");
}

static void show_figure(const char *what, duchrelin_figure answer, const char *unit)
{
    if (answer.code != DUCHRELIN_ANSWERED)
        show_code(what, answer.code);
    else
        printf("%s: %" PRIu64 " %s\n", what, answer.figure, unit);
}

static void show_server(const char *what, duchrelin_server answer)
{
    if (answer.code != DUCHRELIN_ANSWERED)
        show_code(what, answer.code);
    else
        printf("%s: %" PRIu64 " bits a tick after %" PRIu64 " ticks\n", what, answer.rate, answer.latency);
}

int main(void)
{
    const uint64_t raw[] = {3, 20, 10, 2, 10, 2, 5, 15, 3, 25};
    const uint64_t limit[] = {8, 4};
    uint64_t flow[DUCHRELIN_CURVE_NUMBERS], limited[DUCHRELIN_CURVE_NUMBERS], onward[DUCHRELIN_CURVE_NUMBERS];

    duchrelin_answer normal = duchrelin_normalise(raw, sizeof raw / sizeof *raw, flow, DUCHRELIN_CURVE_NUMBERS);
    show_curve("the flow", normal, flow);
    size_t numbers = DUCHRELIN_BUCKET_NUMBERS * normal.count;

    show_curve("and no more than (8,4)", duchrelin_lower(flow, numbers, limit, 2, limited, DUCHRELIN_CURVE_NUMBERS), limited);

    show_figure("comes at once", duchrelin_burst(flow, numbers), "bits");
    show_figure("waits at the first port, (6,1)", duchrelin_backlog(flow, numbers, PORT, 6, 1), "bits");
    show_figure("delay there", duchrelin_delay(flow, numbers, PORT, 6, 1), "ticks");
    duchrelin_answer behind = duchrelin_behind(flow, numbers, PORT, 6, 1, onward, DUCHRELIN_CURVE_NUMBERS);
    show_curve("behind it", behind, onward);
    show_figure("comes at once from there", duchrelin_burst(onward, DUCHRELIN_BUCKET_NUMBERS * behind.count), "bits");

    duchrelin_server both = duchrelin_join(PORT, 6, 1, PORT, 5, 2);
    show_server("with the next port, (5,2)", both);
    show_figure("delay through both", duchrelin_delay(flow, numbers, both.kind, both.rate, both.latency), "ticks");

    show_server("the first port beside the flow", duchrelin_residual(PORT, 6, 1, flow, numbers));
    show_figure("delay at a port of rate 2", duchrelin_delay(flow, numbers, PORT, 2, 0), "ticks");
    return 0;
}
