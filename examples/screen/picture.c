#include "picture.h"

#include <inttypes.h>
#include <string.h>

#include "say.h"
#include "text.h"

#define ADD(to, ...) add_text((to), sizeof(to), __VA_ARGS__)

static void say_title(struct picture *p, const struct route *r, size_t hop)
{
    if (hop > 0) {
        ADD(p->title, "Hop %zu of %zu: %s at %s", hop, r->hop_count, r->traffic.name, r->hops[hop - 1].entry.name);
        return;
    }
    ADD(p->title, "%s%s through", r->traffic.name, r->over_link ? " over a link," : "");
    for (size_t i = 0; i < r->hop_count; i++)
        ADD(p->title, " %s%s", r->hops[i].entry.name, i + 1 < r->hop_count ? "," : "");
}

/* What a letter at an axis stands for. */
static void say_unit(struct picture *p, struct unit u)
{
    if (u.stands_for > 1)
        ADD(p->marks, "%s1%c is %" PRIu64, *p->marks == '\0' ? "at the axes " : ", ", u.letter, u.stands_for);
}

static void say_lines(struct picture *p, const struct route *r, size_t hop)
{
    const struct plot *d = &p->plot;
    char name[SHORT_BYTES] = "";
    ADD(name, "%s", r->traffic.name);
    ADD(p->traffic, "traffic: %s, %" PRIu64 " %s", name, d->curve.count, plural(d->curve.count, "bucket", "buckets"));
    if (hop > 1) {
        ADD(p->traffic, ", as it leaves the hop before");
    } else if (r->over_link) {
        ADD(p->traffic, ", over ");
        add_link(p->traffic, sizeof p->traffic, r->link);
    }
    ADD(p->served, "served: ");
    add_server(p->served, sizeof p->served, d->server);
    if (hop == 0 && r->hop_count > 1)
        ADD(p->served, ", all %s as one", route_delays(r) > 0 ? "devices" : "ports");
    say_unit(p, axis_unit(d->bits));
    if (axis_unit(d->ticks).letter != axis_unit(d->bits).letter)
        say_unit(p, axis_unit(d->ticks));
    if (d->curve_end < d->ticks.end)
        ADD(p->ends, "the lines end where no later tick can be asked for, the traffic's at tick %" PRIu64, d->curve_end);
}

/* How many bits may have come by a tick: by tick 0 the burst, which comes at once. */
static void say_come(char to[CAPTION_BYTES], uint64_t bits, uint64_t tick)
{
    if (tick == 0)
        add_text(to, CAPTION_BYTES, "%" PRIu64 " may come at once", bits);
    else
        add_text(to, CAPTION_BYTES, "%" PRIu64 " may have come by tick %" PRIu64, bits, tick);
}

/* The delay where it only delays, which is the same at every tick; but traffic without a bit has none. */
static void say_only_delay(struct picture *p)
{
    const struct measure *m = &p->plot.measure;
    if (m->delay > 0)
        ADD(p->delay, "any bit may take so long, and none takes longer");
    else
        ADD(p->delay, "%s", p->plot.server.latency > 0 ? "no bit ever comes" : "every bit leaves as it comes");
}

static void say_measures(struct picture *p)
{
    const struct measure *m = &p->plot.measure;
    ADD(p->backlog, "backlog %" PRIu64 " %s: ", m->backlog, plural(m->backlog, "bit", "bits"));
    if (m->backlog == 0) {
        ADD(p->backlog, "nothing ever waits");
    } else {
        say_come(p->backlog, m->full_come, m->full);
        ADD(p->backlog, ", and %" PRIu64 " %s served by then", m->full_served, plural(m->full_served, "is", "are"));
    }
    ADD(p->delay, "delay %" PRIu64 " %s: ", m->delay, plural(m->delay, "tick", "ticks"));
    if (only_delays(p->plot.server)) {
        say_only_delay(p);
    } else if (m->delay == 0) {
        ADD(p->delay, "what has come by a tick is served by it");
    } else {
        say_come(p->delay, m->late_come, m->late);
        ADD(p->delay, ", served by tick %" PRIu64 " and not by %" PRIu64, m->late + m->delay, m->late + m->delay - 1);
    }
}

static void say_unknown(struct picture *p, const struct route *r)
{
    for (size_t place = 1; place <= r->hop_count + 1; place++) {
        const struct entry *e = route_entry(r, place);
        if (e->origin.standing != KNOWN)
            ADD(p->authors, "%s%s", *p->authors == '\0' ? "CHECK FIRST, author not known: " : ", ", e->name);
    }
}

uint64_t picture_make(struct picture *p, const struct route *r, size_t hop)
{
    memset(p, 0, sizeof *p);
    uint64_t code = hop == 0 ? plot(&r->comes, r->joined, &p->plot)
                             : plot(&r->hops[hop - 1].enters, r->hops[hop - 1].server, &p->plot);
    if (code != DUCHRELIN_ANSWERED)
        return code;
    say_title(p, r, hop);
    say_lines(p, r, hop);
    say_measures(p);
    say_unknown(p, r);
    return DUCHRELIN_ANSWERED;
}
