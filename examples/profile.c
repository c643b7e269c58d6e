/* Profiles written, read again and run as a route, all in memory: what the store's files are made of. */
#include <inttypes.h>
#include <stdio.h>

#include "duchrelin_words.h"

/* Room for a curve's file and two servers' files; and the edition of each file but that of the device that only delays. */
enum { ROUTE_BYTES = 3 * DUCHRELIN_FILE_BYTES, EDITION = 1, DELAY_EDITION = 2 };

static void show_bytes(const char *what, const uint8_t *bytes, uint64_t count)
{
    printf("%s:", what);
    for (uint64_t i = 0; i < count; i++)
        printf(" %02x", bytes[i]);
    printf("\n");
}

static void show_profile(const char *what, duchrelin_profile p, const uint64_t *curve)
{
    if (p.code != DUCHRELIN_ANSWERED) {
        printf("%s: refused, %" PRIu64 " %s\n", what, p.code, duchrelin_code_name(p.code));
        return;
    }
    printf("%s: edition %" PRIu64 ", %s", what, p.edition, duchrelin_kind_name(p.kind));
    if (p.kind == DUCHRELIN_KIND_RATE_LATENCY)
        printf(" (%" PRIu64 ",%" PRIu64 ")", p.rate, p.latency);
    if (p.kind == DUCHRELIN_KIND_PURE_DELAY)
        printf(" of %" PRIu64 " ticks", p.latency);
    for (uint64_t i = 0; i < p.count; i++)
        printf(" (%" PRIu64 ",%" PRIu64 ")", curve[DUCHRELIN_BUCKET_NUMBERS * i], curve[DUCHRELIN_BUCKET_NUMBERS * i + 1]);
    printf("\n");
}

/* A device that only delays: edition 2 has it, and edition 1 does not. */
static void delay(uint64_t ticks)
{
    uint64_t kind = DUCHRELIN_KIND_PURE_DELAY;
    uint8_t file[DUCHRELIN_FILE_BYTES];
    duchrelin_written written = duchrelin_write_server(DELAY_EDITION, kind, 0, ticks, file, sizeof file);
    show_bytes("a delay's file", file, written.bytes);
    show_profile("the delay read again", duchrelin_read(file, written.bytes, NULL, 0), NULL);
    written = duchrelin_write_server(EDITION, kind, 0, ticks, file, sizeof file);
    printf("a delay in edition %d: refused, %" PRIu64 " %s\n", EDITION, written.code, duchrelin_code_name(written.code));
}

int main(void)
{
    const uint64_t flow[] = {10, 2, 3, 20};
    uint64_t list[DUCHRELIN_CURVE_NUMBERS];
    uint8_t route[ROUTE_BYTES], text[DUCHRELIN_TEXT_BYTES];

    /* Three files back to back: each is written behind the one before. */
    uint64_t kind = DUCHRELIN_KIND_RATE_LATENCY;
    duchrelin_written curve = duchrelin_write_curve(EDITION, flow, sizeof flow / sizeof *flow, route, ROUTE_BYTES);
    uint64_t at = curve.bytes;
    duchrelin_written first = duchrelin_write_server(EDITION, kind, 6, 4, route + at, ROUTE_BYTES - at);
    duchrelin_written next = duchrelin_write_server(EDITION, kind, 5, 2, route + at + first.bytes, ROUTE_BYTES - at - first.bytes);
    show_bytes("the curve's file", route, curve.bytes);
    show_bytes("the first server's file", route + at, first.bytes);

    show_profile("the curve read again", duchrelin_read(route, curve.bytes, list, DUCHRELIN_CURVE_NUMBERS), list);
    show_profile("the server read again", duchrelin_read(route + at, first.bytes, list, DUCHRELIN_CURVE_NUMBERS), list);
    show_profile("the server cut short", duchrelin_read(route + at, first.bytes - 1, list, DUCHRELIN_CURVE_NUMBERS), list);
    delay(5);

    duchrelin_written report = duchrelin_route(route, at + first.bytes + next.bytes, text, DUCHRELIN_TEXT_BYTES);
    printf("the route, %" PRIu64 " bytes of text:\n", report.bytes);
    fwrite(text, 1, report.bytes, stdout);
    return 0;
}
