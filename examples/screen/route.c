#include "route.h"

#include <string.h>

#include "screen.h"

const struct entry *route_entry(const struct route *r, size_t place)
{
    return place == 1 ? &r->traffic : &r->hops[place - 2].entry;
}

size_t route_delays(const struct route *r)
{
    size_t count = 0;
    for (size_t i = 0; i < r->hop_count; i++)
        count += only_delays(r->hops[i].server) ? 1 : 0;
    return count;
}

int route_load(struct route *r, const struct store *s, char **names, size_t count)
{
    memset(r, 0, sizeof *r);
    r->hop_count = count - 1;
    entry_load(&r->traffic, s, names[0]);
    for (size_t i = 0; i < r->hop_count; i++)
        entry_load(&r->hops[i].entry, s, names[i + 1]);
    int status = ANSWERED;
    for (size_t place = 1; place <= count; place++)
        if (entry_check(route_entry(r, place), s) != ANSWERED)
            status = FAILED;
    return status;
}

void route_free(struct route *r)
{
    entry_free(&r->traffic);
    for (size_t i = 0; i < r->hop_count; i++)
        entry_free(&r->hops[i].entry);
}

/* Of the codes of one profile the smallest counts; it stands in r if there is one. */
static int smallest(struct route *r, size_t place, const uint64_t codes[QUESTIONS])
{
    for (int q = 0; q < QUESTIONS; q++)
        if (codes[q] != DUCHRELIN_ANSWERED && (r->code == DUCHRELIN_ANSWERED || codes[q] < r->code)) {
            r->code = codes[q];
            r->place = place;
            r->asked = (enum question)q;
        }
    return r->code == DUCHRELIN_ANSWERED ? ANSWERED : REFUSED;
}

/* The code of the profile at a place. Traffic is due at the first one and at no other; what is not due is HEADER. */
static uint64_t due(const struct route *r, size_t place)
{
    const struct entry *e = route_entry(r, place);
    int is_traffic = e->profile.kind == DUCHRELIN_KIND_CURVE;
    return e->code != DUCHRELIN_ANSWERED ? e->code : is_traffic == (place == 1) ? DUCHRELIN_ANSWERED : DUCHRELIN_HEADER;
}

/* One hop: joins its port to those before it, asks for its figures, and gives the curve behind it to `behind`. */
static int run_hop(struct route *r, size_t i, struct curve *behind)
{
    struct hop *h = &r->hops[i];
    uint64_t codes[QUESTIONS] = {due(r, i + 2)};
    if (codes[READING] == DUCHRELIN_ANSWERED) {
        h->server = h->entry.profile.server;
        struct server joined = h->server;
        if (i > 0)
            codes[JOINING] = ask_join(r->joined, h->server, &joined);
        r->joined = joined;
        codes[BACKLOG] = ask_backlog(&h->enters, h->server, &h->backlog);
        codes[DELAY] = ask_delay(&h->enters, h->server, &h->delay);
        codes[BEHIND] = ask_behind(&h->enters, h->server, behind);
    }
    return smallest(r, i + 2, codes);
}

int route_run(struct route *r)
{
    uint64_t codes[QUESTIONS] = {due(r, 1)};
    r->comes = r->traffic.profile.curve;
    if (codes[READING] == DUCHRELIN_ANSWERED && r->over_link)
        codes[SHAPING] = ask_shape(&r->traffic.profile.curve, r->link, &r->comes);
    if (smallest(r, 1, codes) != ANSWERED)
        return REFUSED;
    struct curve next = r->comes;
    for (size_t i = 0; i < r->hop_count; i++) {
        r->hops[i].enters = next;
        if (run_hop(r, i, &next) != ANSWERED)
            return REFUSED;
    }
    codes[BACKLOG] = ask_backlog(&r->comes, r->joined, &r->backlog);
    codes[DELAY] = ask_delay(&r->comes, r->joined, &r->delay);
    return smallest(r, r->hop_count + 1, codes);
}
