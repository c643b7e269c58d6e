#include "report.h"

#include <inttypes.h>
#include <stdlib.h>
#include <string.h>

#include "duchrelin_words.h"
#include "say.h"
#include "screen.h"
#include "text.h"

/* A profile that is named twice in a route is spoken of once. */
static int named_before(const struct route *r, size_t place)
{
    for (size_t before = 1; before < place; before++)
        if (strcmp(route_entry(r, before)->name, route_entry(r, place)->name) == 0)
            return 1;
    return 0;
}

void say_authors(FILE *to, const struct route *r)
{
    int unknown = 0;
    for (size_t place = 1; place <= r->hop_count + 1; place++) {
        const struct entry *e = route_entry(r, place);
        if (e->origin.standing == KNOWN || named_before(r, place))
            continue;
        if (unknown++ == 0)
            fprintf(to, "STOP: check who uploaded these before you use a figure.\n");
        char *words = origin_words(e->origin);
        fprintf(to, "  %s: ", e->name);
        put_lines(to, characters(e->name) + 4, 6, words);
        free(words);
    }
    if (unknown == 0)
        fprintf(to, "Every profile of this route was uploaded by an author that is known.\n");
}

static void about_link(const struct route *r, char to[ABOUT_BYTES])
{
    if (r->code == DUCHRELIN_LARGE) {
        add_text(to, ABOUT_BYTES, "The traffic has as many buckets as there can be, and the link adds one.");
        return;
    }
    add_text(to, ABOUT_BYTES, "It is ");
    add_link(to, ABOUT_BYTES, r->link);
    add_text(to, ABOUT_BYTES, ". A rate is 1 to %" PRIu64 ", and a frame has up to %" PRIu64 " bits.", DUCHRELIN_RATE_END - 1,
             DUCHRELIN_FRAME_END - 1);
}

/* What a profile of this kind holds. */
static const char *held(uint64_t kind)
{
    return kind == DUCHRELIN_KIND_CURVE ? "traffic curve" : kind == DUCHRELIN_KIND_PURE_DELAY ? "device that only delays" : "port";
}

/* What the refusal comes from, as far as the screen can tell. */
static void about_refusal(const struct route *r, char to[ABOUT_BYTES])
{
    const struct entry *e = route_entry(r, r->place);
    *to = '\0';
    if (r->asked == READING && e->code == DUCHRELIN_ANSWERED)
        add_text(to, ABOUT_BYTES, "It holds a %s, and %s is due there.", held(e->profile.kind), r->place == 1 ? "traffic" : "a port");
    else if (r->asked == READING)
        about_file(e, to);
    else if (r->asked == SHAPING)
        about_link(r, to);
    else if (r->code == DUCHRELIN_UNBOUNDED)
        add_text(to, ABOUT_BYTES,
                 "The traffic brings %" PRIu64 " bits a tick in the long run, and this port serves %" PRIu64 " bits a tick.",
                 long_run_rate(&r->hops[r->place - 2].enters), r->hops[r->place - 2].server.rate);
    else if (r->asked == JOINING)
        add_text(to, ABOUT_BYTES, "The latencies on the way up to this one, added, are too large.");
    else if (r->asked == BEHIND)
        add_text(to, ABOUT_BYTES, "The bursts behind this %s are too large.", only_delays(e->profile.server) ? "device" : "port");
}

void say_refusal(const struct route *r)
{
    char about[ABOUT_BYTES];
    about_refusal(r, about);
    if (r->asked == SHAPING)
        complain("the route is refused at the link that '%s' comes over: %" PRIu64 " %s", r->traffic.name, r->code,
                 duchrelin_code_name(r->code));
    else
        complain("the route is refused at profile %zu, '%s': %" PRIu64 " %s", r->place, route_entry(r, r->place)->name, r->code,
                 duchrelin_code_name(r->code));
    say_code(stderr, r->code, about);
    fprintf(stderr, "No figure is given. The profiles are as they were.\n");
}

static int name_columns(const struct route *r)
{
    size_t most = characters("the route");
    for (size_t i = 0; i < r->hop_count; i++) {
        size_t here = characters(r->hops[i].entry.name);
        most = here > most ? here : most;
    }
    return (int)most;
}

/* printf pads by bytes; this pads by characters. */
static void put_name(const char *name, int columns) { printf("%s%*s", name, columns - (int)characters(name), ""); }

/* The figures of a line of the table. What only delays has no rate. */
static void put_figures(struct server s, uint64_t backlog, uint64_t delay)
{
    if (only_delays(s))
        printf("  %8s", "-");
    else
        printf("  %8" PRIu64, s.rate);
    printf("  %8" PRIu64 "  %14" PRIu64 "  %14" PRIu64 "\n", s.latency, backlog, delay);
}

static void say_figures(const struct route *r)
{
    int columns = name_columns(r);
    printf("hop  ");
    put_name(route_delays(r) > 0 ? "device" : "port", columns);
    printf("  %8s  %8s  %14s  %14s\n", "rate", "latency", "backlog (bits)", "delay (ticks)");
    for (size_t i = 0; i < r->hop_count; i++) {
        const struct hop *h = &r->hops[i];
        printf("%3zu  ", i + 1);
        put_name(h->entry.name, columns);
        put_figures(h->server, h->backlog, h->delay);
    }
    printf("     ");
    put_name("the route", columns);
    put_figures(r->joined, r->backlog, r->delay);
    if (route_delays(r) > 0)
        printf("\nWhere the rate is -, the device only delays: it has no rate.\n");
}

/* Adds to a text what the traffic goes through: "2 ports and 1 device that only delays". */
static void add_hops(char *to, size_t room, const struct route *r)
{
    size_t delays = route_delays(r), ports = r->hop_count - delays;
    if (ports > 0)
        add_text(to, room, "%zu %s%s", ports, plural(ports, "port", "ports"), delays > 0 ? " and " : "");
    if (delays > 0)
        add_text(to, room, "%zu %s", delays, plural(delays, "device that only delays", "devices that only delay"));
}

/* The line to write down: it names one hop or two, and of more the first and the last. */
static void say_line(const struct route *r)
{
    char hops[ABOUT_BYTES] = "";
    add_hops(hops, sizeof hops, r);
    const char *first = r->hops[0].entry.name, *last = r->hops[r->hop_count - 1].entry.name;
    printf("WRITE DOWN: delay %" PRIu64 " %s, for %s", r->delay, plural(r->delay, "tick", "ticks"), r->traffic.name);
    if (r->over_link) {
        char link[ABOUT_BYTES] = "";
        add_link(link, sizeof link, r->link);
        printf(" over %s,", link);
    }
    printf(" through ");
    if (r->hop_count == 1)
        printf("%s\n", first);
    else if (r->hop_count == 2)
        printf("%s and %s\n", first, last);
    else
        printf("%s, %s to %s\n", hops, first, last);
}

static void say_link(const struct route *r)
{
    char words[2 * ABOUT_BYTES] = "The traffic comes over ";
    add_link(words, sizeof words, r->link);
    add_text(words, sizeof words, ": ");
    add_curve(words, sizeof words, &r->comes);
    add_text(words, sizeof words, ". The time on the link itself is in no delay below.");
    put_lines(stdout, 0, 0, words);
}

void say_report(const struct route *r)
{
    char hops[ABOUT_BYTES] = "";
    add_hops(hops, sizeof hops, r);
    printf("Route of %s%s through %s\n\n", r->traffic.name, r->over_link ? ", over a link and" : "", hops);
    say_authors(stdout, r);
    printf("\n");
    if (r->over_link) {
        say_link(r);
        printf("\n");
    }
    say_figures(r);
    printf("\n");
    say_line(r);
}
