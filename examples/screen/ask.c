#include "ask.h"

/* What a curve is passed as: its list, and how many numbers that has. */
#define LIST_OF(c) (c)->numbers, (size_t)(DUCHRELIN_BUCKET_NUMBERS * (c)->count)

/* What a port is passed as. */
#define PORT(s) (s).kind, (s).rate, (s).latency

int only_delays(struct server s) { return s.kind == DUCHRELIN_KIND_PURE_DELAY; }

uint64_t bucket_rate(const struct curve *c, uint64_t bucket) { return c->numbers[DUCHRELIN_BUCKET_NUMBERS * bucket]; }

uint64_t bucket_burst(const struct curve *c, uint64_t bucket) { return c->numbers[DUCHRELIN_BUCKET_NUMBERS * bucket + 1]; }

uint64_t long_run_rate(const struct curve *c) { return bucket_rate(c, c->count - 1); }

uint64_t ask_read(const uint8_t *file, size_t bytes, struct profile *to)
{
    duchrelin_profile p = duchrelin_read(file, bytes, to->curve.numbers, DUCHRELIN_CURVE_NUMBERS);
    to->edition = p.edition;
    to->kind = p.kind;
    to->curve.count = p.count;
    to->server = (struct server){.kind = p.kind, .rate = p.rate, .latency = p.latency};
    return p.code;
}

static uint64_t figure(duchrelin_figure f, uint64_t *to)
{
    *to = f.figure;
    return f.code;
}

uint64_t ask_burst(const struct curve *c, uint64_t *to) { return figure(duchrelin_burst(LIST_OF(c)), to); }

uint64_t ask_value(const struct curve *c, uint64_t tick, uint64_t *to) { return figure(duchrelin_value(LIST_OF(c), tick), to); }

uint64_t ask_come(const struct curve *c, uint64_t tick, uint64_t *to) { return tick == 0 ? ask_burst(c, to) : ask_value(c, tick, to); }

/* A port of latency 0 serves by tick t what the one bucket (rate, 0) is at t, and the latency moves that to the right. A device that
 * only delays has no rate to ask about. */
uint64_t ask_served(struct server s, uint64_t tick, uint64_t *to)
{
    const struct curve line = {.count = 1, .numbers = {s.rate, 0}};
    uint64_t since = tick > s.latency ? tick - s.latency : 0;
    if (!only_delays(s))
        return ask_value(&line, since, to);
    *to = since > 0 ? WITHOUT_LIMIT : 0;
    return DUCHRELIN_ANSWERED;
}

/* The code, and in `to` how many buckets the answer has there. */
static uint64_t answer(duchrelin_answer a, struct curve *to)
{
    to->count = a.count;
    return a.code;
}

uint64_t ask_shape(const struct curve *c, struct link l, struct curve *to)
{
    return answer(duchrelin_shape(LIST_OF(c), l.rate, l.frame, to->numbers, DUCHRELIN_CURVE_NUMBERS), to);
}

uint64_t ask_join(struct server s, struct server next, struct server *to)
{
    duchrelin_server joined = duchrelin_join(PORT(s), PORT(next));
    *to = (struct server){.kind = joined.kind, .rate = joined.rate, .latency = joined.latency};
    return joined.code;
}

uint64_t ask_behind(const struct curve *c, struct server s, struct curve *to)
{
    return answer(duchrelin_behind(LIST_OF(c), PORT(s), to->numbers, DUCHRELIN_CURVE_NUMBERS), to);
}

uint64_t ask_backlog(const struct curve *c, struct server s, uint64_t *to)
{
    return figure(duchrelin_backlog(LIST_OF(c), PORT(s)), to);
}

uint64_t ask_delay(const struct curve *c, struct server s, uint64_t *to)
{
    return figure(duchrelin_delay(LIST_OF(c), PORT(s)), to);
}
