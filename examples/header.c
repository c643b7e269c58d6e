/* Runs the examples that stand in the comments of duchrelin.h, in their order. */
#include <inttypes.h>
#include <stdio.h>

#include "duchrelin.h"

enum { CURVE = DUCHRELIN_CURVE_NUMBERS, PORT = DUCHRELIN_KIND_RATE_LATENCY, DELAY = DUCHRELIN_KIND_PURE_DELAY };

static const uint64_t flow[] = {10, 2, 3, 20};
static uint64_t out[CURVE];
static uint8_t bytes[DUCHRELIN_TEXT_BYTES];

static void show_curve(const char *what, duchrelin_answer a)
{
    printf("%s: code %" PRIu64 ", count %" PRIu64 ",", what, a.code, a.count);
    for (uint64_t i = 0; i < a.count; i++)
        printf(" %" PRIu64 ",%" PRIu64, out[DUCHRELIN_BUCKET_NUMBERS * i], out[DUCHRELIN_BUCKET_NUMBERS * i + 1]);
    printf("\n");
}

static void show_figure(const char *what, duchrelin_figure a)
{
    printf("%s: code %" PRIu64 ", %" PRIu64 "\n", what, a.code, a.figure);
}

static void show_server(const char *what, duchrelin_server a)
{
    printf("%s: code %" PRIu64 ", (%" PRIu64 "; %" PRIu64 ", %" PRIu64 ")\n", what, a.code, a.kind, a.rate, a.latency);
}

static void show_file(const char *what, duchrelin_written a)
{
    printf("%s: code %" PRIu64 ", %" PRIu64 " bytes,", what, a.code, a.bytes);
    for (uint64_t i = 0; i < a.bytes; i++)
        printf(" %02x", bytes[i]);
    printf("\n");
}

static void curves(void)
{
    const uint64_t raw[] = {3, 20, 10, 2, 10, 2, 5, 15, 3, 25}, steep[] = {10, 2}, flat[] = {3, 20}, other[] = {4, 0, 2, 2};
    show_curve("normalise", duchrelin_normalise(raw, 10, out, CURVE));
    show_figure("value at 0", duchrelin_value(flow, 4, 0));
    show_figure("value at 2", duchrelin_value(flow, 4, 2));
    show_figure("value at 3", duchrelin_value(flow, 4, 3));
    show_figure("burst", duchrelin_burst(flow, 4));
    show_curve("lower", duchrelin_lower(steep, 2, flat, 2, out, CURVE));
    show_curve("sum", duchrelin_sum(flow, 4, other, 4, out, CURVE));
    show_curve("shape, frames of 2", duchrelin_shape(flat, 2, 10, 2, out, CURVE));
    show_curve("shape, frames of 0", duchrelin_shape(flat, 2, 10, 0, out, CURVE));
}

static void servers(void)
{
    show_server("join", duchrelin_join(PORT, 6, 4, PORT, 5, 2));
    show_server("join, the next only delays", duchrelin_join(PORT, 6, 1, DELAY, 0, 3));
    show_curve("behind", duchrelin_behind(flow, 4, PORT, 6, 1, out, CURVE));
    show_curve("behind, it only delays", duchrelin_behind(flow, 4, DELAY, 0, 4, out, CURVE));
    show_figure("backlog", duchrelin_backlog(flow, 4, PORT, 6, 1));
    show_figure("backlog, it only delays", duchrelin_backlog(flow, 4, DELAY, 0, 4));
    show_figure("delay", duchrelin_delay(flow, 4, PORT, 6, 1));
    show_figure("delay, it only delays", duchrelin_delay(flow, 4, DELAY, 0, 4));
    show_server("residual", duchrelin_residual(PORT, 6, 1, flow, 4));
    show_server("residual, it only delays", duchrelin_residual(DELAY, 0, 4, flow, 4));
}

static void files(void)
{
    const uint8_t server[] = {0x12, 0x00, 0x00, 0x60, 0x00, 0x01};
    const uint64_t steep[] = {10, 2};
    duchrelin_profile p = duchrelin_read(server, sizeof server, out, CURVE);
    printf("read: code %" PRIu64 ", edition %" PRIu64 ", kind %" PRIu64 ", count %" PRIu64 ", (%" PRIu64 ", %" PRIu64 ")\n", p.code,
           p.edition, p.kind, p.count, p.rate, p.latency);
    show_file("write_curve", duchrelin_write_curve(1, steep, 2, bytes, sizeof bytes));
    show_file("write_server", duchrelin_write_server(1, PORT, 6, 1, bytes, sizeof bytes));
    show_file("write_server, it only delays", duchrelin_write_server(2, DELAY, 0, 5, bytes, sizeof bytes));

    uint8_t input[17 + 6 + 6];
    duchrelin_write_curve(1, flow, 4, input, 17);
    duchrelin_write_server(1, PORT, 6, 4, input + 17, 6);
    duchrelin_write_server(1, PORT, 5, 2, input + 23, 6);
    duchrelin_written text = duchrelin_route(input, sizeof input, bytes, sizeof bytes);
    printf("route: code %" PRIu64 ", %" PRIu64 " bytes\n%.*s", text.code, text.bytes, (int)text.bytes, (const char *)bytes);
}

int main(void)
{
    curves();
    servers();
    files();
    return 0;
}
