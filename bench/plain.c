#include "plain.h"

#include "profile.h"

/*
 * Normal form of buckets that come by falling rates: the lower hull of their lines.
 */

/* The useful ones of the buckets seen so far. Two curves together have twice the buckets of one. */
struct hull {
    size_t count;
    uint64_t buckets[2 * CURVE_NUMBERS];
};

/* Whether the flatter bucket (rate, burst) covers the last one of the hull, alone or together with the one before it. */
static bool covers_last(const struct hull *hull, uint64_t rate, uint64_t burst)
{
    size_t last = hull->count - 1;
    if (burst <= burst_of(hull->buckets, last))
        return true;
    if (last == 0)
        return false;
    return rise_after(hull->buckets, last - 1) * (rate_of(hull->buckets, last) - rate)
           >= (burst - burst_of(hull->buckets, last)) * fall_after(hull->buckets, last - 1);
}

/* Takes the next bucket by falling rates, and by rising bursts among those of one rate: a second one of the same rate is
 * useless, any other is the lowest in the end. */
static void add_next(struct hull *hull, uint64_t rate, uint64_t burst)
{
    if (hull->count > 0 && rate_of(hull->buckets, hull->count - 1) == rate)
        return;
    while (hull->count > 0 && covers_last(hull, rate, burst))
        hull->count--;
    hull->buckets[2 * hull->count] = rate;
    hull->buckets[2 * hull->count + 1] = burst;
    hull->count++;
}

/* A bucket as one number, so that a rising order of numbers is the order in which a hull takes buckets. */
static uint64_t key_of(uint64_t rate, uint64_t burst) { return (RATE_END - 1 - rate) << BURST_BITS | burst; }
static uint64_t key_rate(uint64_t key) { return RATE_END - 1 - (key >> BURST_BITS); }
static uint64_t key_burst(uint64_t key) { return key & (BURST_END - 1); }

static void put_in_order(uint64_t *keys, int a, int b)
{
    uint64_t x = keys[a], y = keys[b];
    keys[a] = x < y ? x : y;
    keys[b] = x < y ? y : x;
}

enum { RUN = 8 };

/* Eight keys by a sorting network: no branch depends on them, so none is guessed wrong. Exchanges of one line do not touch each
 * other. */
static void sort_run(uint64_t keys[RUN])
{
    put_in_order(keys, 0, 2), put_in_order(keys, 1, 3), put_in_order(keys, 4, 6), put_in_order(keys, 5, 7);
    put_in_order(keys, 0, 4), put_in_order(keys, 1, 5), put_in_order(keys, 2, 6), put_in_order(keys, 3, 7);
    put_in_order(keys, 0, 1), put_in_order(keys, 2, 3), put_in_order(keys, 4, 5), put_in_order(keys, 6, 7);
    put_in_order(keys, 2, 4), put_in_order(keys, 3, 5);
    put_in_order(keys, 1, 4), put_in_order(keys, 3, 6);
    put_in_order(keys, 1, 2), put_in_order(keys, 3, 4), put_in_order(keys, 5, 6);
}

/* Two runs of one length, one after the other, merged from both ends at once: half the keys from the front and half from the
 * back, so that neither end runs past a run and the two chains of choices do not wait for each other. */
static void merge_runs(const uint64_t *runs, size_t length, uint64_t *out)
{
    size_t low = 0, low_next = length, high_before = length - 1, high = 2 * length - 1;
    for (size_t i = 0; i < length; i++) {
        bool first = runs[low] <= runs[low_next];
        out[i] = first ? runs[low] : runs[low_next];
        low += first;
        low_next += !first;
        bool last = runs[high_before] <= runs[high];
        out[2 * length - 1 - i] = last ? runs[high] : runs[high_before];
        high -= last;
        high_before -= !last;
    }
}

/* The keys in the first half of the table in order, `count` of them; where they are then. They are filled up to runs of one
 * length, two of which are merged at a time, between the two halves of the table. */
static const uint64_t *sorted(uint64_t table[2][MOST_BUCKETS], size_t count)
{
    size_t filled = RUN;
    while (filled < count)
        filled *= 2;
    for (size_t i = count; i < filled; i++)
        table[0][i] = UINT64_MAX;
    for (size_t at = 0; at < filled; at += RUN)
        sort_run(table[0] + at);
    int now = 0;
    for (size_t length = RUN; length < filled; length *= 2, now = 1 - now)
        for (size_t at = 0; at < filled; at += 2 * length)
            merge_runs(table[now] + at, length, table[1 - now] + at);
    return table[now];
}

/* A list that is in normal form already is its own answer. */
duchrelin_answer plain_normalise(const uint64_t *raw, size_t raw_numbers, uint64_t *out, size_t out_numbers)
{
    uint64_t code = curve_refusal(raw, raw_numbers);
    size_t count = raw_numbers / 2;
    if (code == 0)
        return placed(raw, count, out, out_numbers);
    if (code != DUCHRELIN_FORM)
        return refused_answer(code);
    uint64_t table[2][MOST_BUCKETS];
    for (size_t i = 0; i < count; i++)
        table[0][i] = key_of(rate_of(raw, i), burst_of(raw, i));
    const uint64_t *keys = sorted(table, count);
    struct hull hull;
    hull.count = 0;
    for (size_t i = 0; i < count; i++)
        add_next(&hull, key_rate(keys[i]), key_burst(keys[i]));
    return placed(hull.buckets, hull.count, out, out_numbers);
}

duchrelin_answer plain_lower(const uint64_t *f, size_t f_numbers, const uint64_t *g, size_t g_numbers,
                             uint64_t *out, size_t out_numbers)
{
    uint64_t code = curves_refusal(f, f_numbers, g, g_numbers);
    if (code != 0)
        return refused_answer(code);
    size_t n = f_numbers / 2, m = g_numbers / 2;
    struct hull hull;
    hull.count = 0;
    size_t i = 0, j = 0;
    while (i < n && j < m) {
        uint64_t f_key = key_of(rate_of(f, i), burst_of(f, i));
        uint64_t g_key = key_of(rate_of(g, j), burst_of(g, j));
        bool first = f_key <= g_key;
        uint64_t key = first ? f_key : g_key;
        i += first;
        j += !first;
        add_next(&hull, key_rate(key), key_burst(key));
    }
    for (; i < n; i++)
        add_next(&hull, rate_of(f, i), burst_of(f, i));
    for (; j < m; j++)
        add_next(&hull, rate_of(g, j), burst_of(g, j));
    return placed(hull.buckets, hull.count, out, out_numbers);
}

static void put_added(uint64_t *bucket, const uint64_t *f, size_t i, const uint64_t *g, size_t j)
{
    bucket[0] = rate_of(f, i) + rate_of(g, j);
    bucket[1] = burst_of(f, i) + burst_of(g, j);
}

/* The sum changes its bucket where one of the two curves does, so its buckets are met in the order of the crossings, and the two
 * steps are one where the crossings are at the same time. Its first rate and its last burst are its greatest. */
duchrelin_answer plain_sum(const uint64_t *f, size_t f_numbers, const uint64_t *g, size_t g_numbers,
                           uint64_t *out, size_t out_numbers)
{
    uint64_t code = curves_refusal(f, f_numbers, g, g_numbers);
    if (code != 0)
        return refused_answer(code);
    if (bits_beyond_range(f[0] + g[0], last_burst(f, f_numbers) + last_burst(g, g_numbers)) != 0)
        return refused_answer(DUCHRELIN_LARGE);
    size_t f_last = f_numbers / 2 - 1, g_last = g_numbers / 2 - 1;
    uint64_t buckets[2 * CURVE_NUMBERS];
    size_t count = 0, i = 0, j = 0;
    put_added(buckets, f, i, g, j);
    while (i < f_last && j < g_last) {
        uint64_t f_time = rise_after(f, i) * fall_after(g, j);
        uint64_t g_time = rise_after(g, j) * fall_after(f, i);
        i += f_time <= g_time;
        j += g_time <= f_time;
        put_added(buckets + 2 * ++count, f, i, g, j);
    }
    while (i < f_last)
        put_added(buckets + 2 * ++count, f, ++i, g, j);
    while (j < g_last)
        put_added(buckets + 2 * ++count, f, i, g, ++j);
    return placed(buckets, count + 1, out, out_numbers);
}

/*
 * Reading a curve in normal form. Rates fall and crossings rise along it, so places in it are found by halving.
 */

/* The first bucket of rate at most `rate`, or the count of buckets if there is none. */
static size_t first_within(const uint64_t *curve, size_t count, uint64_t rate)
{
    size_t from = 0;
    while (count > 0) {
        size_t half = count / 2;
        bool steeper = rate_of(curve, from + half) > rate;
        from = steeper ? from + half + 1 : from;
        count = steeper ? count - half - 1 : half;
    }
    return from;
}

/* The last bucket that the curve has come to by a tick, which is lowest there. */
static size_t lowest_at(const uint64_t *curve, size_t count, uint64_t tick)
{
    size_t from = 0;
    while (count > 1) {
        size_t half = count / 2;
        size_t middle = from + half;
        bool reached = rise_after(curve, middle - 1) <= tick * fall_after(curve, middle - 1);
        from = reached ? middle : from;
        count = reached ? count - half : half;
    }
    return from;
}

static uint64_t bucket_at(const uint64_t *curve, size_t bucket, uint64_t tick)
{
    return rate_of(curve, bucket) * tick + burst_of(curve, bucket);
}

static uint64_t value_at(const uint64_t *curve, size_t count, uint64_t tick)
{
    return bucket_at(curve, lowest_at(curve, count, tick), tick);
}

duchrelin_figure plain_value(const uint64_t *curve, size_t curve_numbers, uint64_t tick)
{
    uint64_t code = smaller_code(curve_refusal(curve, curve_numbers), tick >= TICK_END ? DUCHRELIN_RANGE : 0);
    if (code != 0)
        return refused_figure(code);
    return (duchrelin_figure){ .code = 0, .figure = tick == 0 ? 0 : value_at(curve, curve_numbers / 2, tick) };
}

duchrelin_figure plain_burst(const uint64_t *curve, size_t curve_numbers)
{
    uint64_t code = curve_refusal(curve, curve_numbers);
    return code != 0 ? refused_figure(code) : (duchrelin_figure){ .code = 0, .figure = burst_of(curve, 0) };
}

/* Whether the middle one of three buckets, by falling rates and rising bursts, is covered by the other two together. */
static bool covered(const uint64_t *steeper, const uint64_t *middle, const uint64_t *flatter)
{
    return (middle[1] - steeper[1]) * (middle[0] - flatter[0]) >= (flatter[1] - middle[1]) * (steeper[0] - middle[0]);
}

/* The link's bucket comes between the steeper and the flatter ones, `before` and from `after` on; one of its own rate makes way. It is
 * of no use where one that is as flat or flatter has no more at once, or its neighbours cover it. Otherwise it covers buckets on both
 * sides, next to it first. */
duchrelin_answer plain_shape(const uint64_t *curve, size_t curve_numbers, uint64_t rate, uint64_t frame,
                             uint64_t *out, size_t out_numbers)
{
    uint64_t code = smaller_code(curve_refusal(curve, curve_numbers), link_refusal(rate, frame));
    if (code != 0)
        return refused_answer(code);
    size_t count = curve_numbers / 2;
    const uint64_t link[2] = { rate, frame };
    size_t before = first_within(curve, count, rate), after = before;
    if (after < count && burst_of(curve, after) <= frame)
        return placed(curve, count, out, out_numbers);
    after += after < count && rate_of(curve, after) == rate;
    while (before > 0 && burst_of(curve, before - 1) >= frame)
        before--;
    if (before > 0 && after < count && covered(curve + 2 * (before - 1), link, curve + 2 * after))
        return placed(curve, count, out, out_numbers);
    while (before > 1 && covered(curve + 2 * (before - 2), curve + 2 * (before - 1), link))
        before--;
    while (after + 1 < count && covered(link, curve + 2 * after, curve + 2 * (after + 1)))
        after++;
    size_t kept = before + 1 + (count - after);
    if (kept > MOST_BUCKETS)
        return refused_answer(DUCHRELIN_LARGE);
    if (out_numbers < 2 * kept)
        return refused_answer(DUCHRELIN_ROOM);
    memcpy(out, curve, 2 * before * sizeof *out);
    memcpy(out + 2 * before, link, sizeof link);
    memcpy(out + 2 * (before + 1), curve + 2 * after, 2 * (count - after) * sizeof *out);
    return (duchrelin_answer){ .code = 0, .count = kept };
}

/*
 * Servers.
 */

static uint64_t ahead(uint64_t value, uint64_t rate, uint64_t tick) { return value > rate * tick ? value - rate * tick : 0; }

/* The most by which the curve is ahead of a server's rate at a whole tick, where bucket k is the first within the rate. It is
 * so at one of the two ticks around the crossing with the bucket before: up to it the lowest bucket is k-1 or one before that,
 * past it k or one after. */
static uint64_t excess_by(const uint64_t *curve, size_t count, uint64_t rate, size_t k)
{
    if (k == 0)
        return burst_of(curve, 0);
    uint64_t tick = rise_after(curve, k - 1) / fall_after(curve, k - 1);
    uint64_t before = bucket_at(curve, k - 1, tick);
    for (size_t i = k - 1; i > 0 && bucket_at(curve, i - 1, tick) < before; i--)
        before = bucket_at(curve, i - 1, tick);
    uint64_t after = bucket_at(curve, k, tick + 1);
    for (size_t i = k + 1; i < count && bucket_at(curve, i, tick + 1) < after; i++)
        after = bucket_at(curve, i, tick + 1);
    uint64_t ahead_before = ahead(before, rate, tick);
    uint64_t ahead_after = ahead(after, rate, tick + 1);
    return ahead_before > ahead_after ? ahead_before : ahead_after;
}

static uint64_t excess_of(const uint64_t *curve, size_t count, uint64_t rate)
{
    return excess_by(curve, count, rate, first_within(curve, count, rate));
}

/* Whether the latency ends before the curve comes within the server's rate. Then the server's own bucket is the first of the
 * curve behind; otherwise it is of no use. */
static bool leads(const uint64_t *curve, size_t k, uint64_t latency)
{
    return k > 0 && latency * fall_after(curve, k - 1) < rise_after(curve, k - 1);
}

/* The burst of the first bucket behind. */
static uint64_t backlog_of(const uint64_t *curve, size_t count, uint64_t limit, uint64_t latency)
{
    if (limit == NO_LIMIT)
        return value_at(curve, count, latency);
    size_t k = first_within(curve, count, limit);
    return leads(curve, k, latency) ? limit * latency + excess_by(curve, count, limit, k) : value_at(curve, count, latency);
}

/* A curve that carries nothing waits for nothing. */
static bool carries_nothing(const uint64_t *curve, size_t count) { return count == 1 && curve[0] == 0 && curve[1] == 0; }

static uint64_t delay_of(const uint64_t *curve, size_t count, uint64_t limit, uint64_t latency)
{
    if (carries_nothing(curve, count))
        return 0;
    return limit == NO_LIMIT ? latency : latency + quotient_rounded_up(excess_of(curve, count, limit), limit);
}

/* The last bucket always stays behind a server, and its burst is the greatest. */
static bool too_large_behind(const uint64_t *curve, size_t numbers, uint64_t latency)
{
    return last_burst(curve, numbers) + last_rate(curve, numbers) * latency >= BURST_END;
}

/* The first of the buckets from `from` on that the bucket (rate, excess) and the one that follows do not cover together. */
static size_t first_uncovered(const uint64_t *curve, size_t count, uint64_t rate, uint64_t excess, size_t from)
{
    while (from + 1 < count
           && (burst_of(curve, from) - excess) * fall_after(curve, from)
                  >= rise_after(curve, from) * (rate - rate_of(curve, from)))
        from++;
    return from;
}

static void write_moved(const uint64_t *curve, size_t from, size_t count, uint64_t latency, uint64_t *out)
{
    for (size_t i = from; i < count; i++, out += 2) {
        out[0] = rate_of(curve, i);
        out[1] = bucket_at(curve, i, latency);
    }
}

duchrelin_server plain_join(uint64_t kind, uint64_t rate, uint64_t latency,
                            uint64_t next_kind, uint64_t next_rate, uint64_t next_latency)
{
    uint64_t code = smaller_code(server_refusal(kind, rate, latency), server_refusal(next_kind, next_rate, next_latency));
    if (code == 0)
        code = join_refusal(latency, next_latency);
    if (code != 0)
        return refused_server(code);
    return server_of(smaller(limit_of(kind, rate), limit_of(next_kind, next_rate)), latency + next_latency);
}

/* The buckets that are lowest at the end of the latency or later, moved by it. */
static duchrelin_answer behind_latency(const uint64_t *curve, size_t count, uint64_t latency, uint64_t *out, size_t out_numbers)
{
    size_t from = lowest_at(curve, count, latency);
    if (out_numbers < 2 * (count - from))
        return refused_answer(DUCHRELIN_ROOM);
    write_moved(curve, from, count, latency, out);
    return (duchrelin_answer){ .code = 0, .count = count - from };
}

duchrelin_answer plain_behind(const uint64_t *curve, size_t curve_numbers, uint64_t kind, uint64_t rate, uint64_t latency,
                              uint64_t *out, size_t out_numbers)
{
    uint64_t code = port_refusal(curve, curve_numbers, kind, rate, latency);
    if (code != 0)
        return refused_answer(code);
    if (too_large_behind(curve, curve_numbers, latency))
        return refused_answer(DUCHRELIN_LARGE);
    size_t count = curve_numbers / 2;
    if (kind == DUCHRELIN_KIND_PURE_DELAY)
        return behind_latency(curve, count, latency, out, out_numbers);
    size_t k = first_within(curve, count, rate);
    if (!leads(curve, k, latency))
        return behind_latency(curve, count, latency, out, out_numbers);
    uint64_t excess = excess_by(curve, count, rate, k);
    size_t flatter = rate_of(curve, k) == rate ? k + 1 : k;
    size_t from = first_uncovered(curve, count, rate, excess, flatter);
    if (out_numbers < 2 * (1 + count - from))
        return refused_answer(DUCHRELIN_ROOM);
    out[0] = rate;
    out[1] = rate * latency + excess;
    write_moved(curve, from, count, latency, out + 2);
    return (duchrelin_answer){ .code = 0, .count = 1 + count - from };
}

duchrelin_figure plain_backlog(const uint64_t *curve, size_t curve_numbers, uint64_t kind, uint64_t rate, uint64_t latency)
{
    uint64_t code = port_refusal(curve, curve_numbers, kind, rate, latency);
    if (code != 0)
        return refused_figure(code);
    return (duchrelin_figure){ .code = 0, .figure = backlog_of(curve, curve_numbers / 2, limit_of(kind, rate), latency) };
}

duchrelin_figure plain_delay(const uint64_t *curve, size_t curve_numbers, uint64_t kind, uint64_t rate, uint64_t latency)
{
    uint64_t code = port_refusal(curve, curve_numbers, kind, rate, latency);
    if (code != 0)
        return refused_figure(code);
    return (duchrelin_figure){ .code = 0, .figure = delay_of(curve, curve_numbers / 2, limit_of(kind, rate), latency) };
}

/* A pure delay has no rate of which some could be left. */
duchrelin_server plain_residual(uint64_t kind, uint64_t rate, uint64_t latency, const uint64_t *cross, size_t cross_numbers)
{
    uint64_t code = kind == DUCHRELIN_KIND_PURE_DELAY ? DUCHRELIN_RANGE : server_refusal(kind, rate, latency);
    code = smaller_code(code, curve_refusal(cross, cross_numbers));
    if (code != 0)
        return refused_server(code);
    if (last_rate(cross, cross_numbers) >= rate)
        return refused_server(DUCHRELIN_UNBOUNDED);
    uint64_t later = latency + quotient_rounded_up(last_burst(cross, cross_numbers), rate);
    if (later >= RATE_END)
        return refused_server(DUCHRELIN_LARGE);
    return server_of(rate - last_rate(cross, cross_numbers), later);
}

/*
 * The profile file.
 */

static duchrelin_profile read_server(const uint8_t *file)
{
    duchrelin_server server = take_server(file);
    if (server.code != 0)
        return refused_profile(server.code);
    return (duchrelin_profile){
        .code = 0, .edition = edition_in(file), .kind = server.kind, .rate = server.rate, .latency = server.latency
    };
}

static duchrelin_profile read_curve(const uint8_t *file, uint64_t *out, size_t out_numbers)
{
    uint64_t curve[CURVE_NUMBERS];
    size_t count;
    uint64_t code = take_curve(file, curve, &count);
    if (code != 0)
        return refused_profile(code);
    duchrelin_answer answer = placed(curve, count, out, out_numbers);
    if (answer.code != 0)
        return refused_profile(answer.code);
    return (duchrelin_profile){ .code = 0, .edition = edition_in(file), .kind = DUCHRELIN_KIND_CURVE, .count = count };
}

duchrelin_profile plain_read(const uint8_t *file, size_t file_bytes, uint64_t *out, size_t out_numbers)
{
    uint64_t code = header_refusal(file, file_bytes);
    if (code != 0)
        return refused_profile(code);
    if (file_bytes != bytes_due(file, file_bytes))
        return refused_profile(DUCHRELIN_LENGTH);
    return kind_in(file) == DUCHRELIN_KIND_CURVE ? read_curve(file, out, out_numbers) : read_server(file);
}

duchrelin_written plain_write_curve(uint64_t edition, const uint64_t *curve, size_t curve_numbers,
                                    uint8_t *buffer, size_t buffer_bytes)
{
    uint64_t code = smaller_code(edition_refusal(edition, DUCHRELIN_KIND_CURVE), curve_refusal(curve, curve_numbers));
    if (code != 0)
        return refused_writing(code);
    size_t count = curve_numbers / 2;
    if (buffer_bytes < curve_bytes(count))
        return refused_writing(DUCHRELIN_ROOM);
    buffer[0] = header_of(edition, DUCHRELIN_KIND_CURVE);
    put_buckets(curve, count, buffer);
    return (duchrelin_written){ .code = 0, .bytes = curve_bytes(count) };
}

static void put_after_header(uint64_t numbers, uint8_t *file, size_t bytes)
{
    for (size_t i = 1; i < bytes; i++)
        file[i] = (uint8_t)(numbers >> 8 * (bytes - 1 - i));
}

duchrelin_written plain_write_server(uint64_t edition, uint64_t kind, uint64_t rate, uint64_t latency,
                                     uint8_t *buffer, size_t buffer_bytes)
{
    uint64_t code = smaller_code(edition_refusal(edition, kind), server_refusal(kind, rate, latency));
    if (code != 0)
        return refused_writing(code);
    if (buffer_bytes < server_bytes(kind))
        return refused_writing(DUCHRELIN_ROOM);
    buffer[0] = header_of(edition, kind);
    if (kind == DUCHRELIN_KIND_PURE_DELAY)
        put_after_header(latency << 4, buffer, PURE_DELAY_BYTES);
    else
        put_after_header(rate << 20 | latency, buffer, RATE_LATENCY_BYTES);
    return (duchrelin_written){ .code = 0, .bytes = server_bytes(kind) };
}

/*
 * The route.
 */

/* The server in its place, or its refusal. The latencies of those before it have moved the curve's last bucket. */
static duchrelin_server next_server(const uint8_t *input, size_t bytes, const uint64_t *first, size_t count,
                                    uint64_t latency_before)
{
    uint64_t code = due_refusal(input, bytes, false);
    if (code != 0)
        return refused_server(code);
    duchrelin_server server = take_server(input);
    if (server.code != 0)
        return server;
    if (last_rate(first, 2 * count) > limit_of(server.kind, server.rate))
        return refused_server(DUCHRELIN_UNBOUNDED);
    if (too_large_behind(first, 2 * count, latency_before + server.latency))
        return refused_server(DUCHRELIN_LARGE);
    code = join_refusal(latency_before, server.latency);
    return code != 0 ? refused_server(code) : server;
}

/* The delay of a server behind others, with the limit of all joined, itself too, and the latency of the others. What is divided by
 * its rate is the backlog that it would have without a latency of its own; a pure delay has nothing to divide by. */
static uint64_t hop_delay(duchrelin_server server, const uint64_t *first, size_t count, uint64_t joined_limit,
                          uint64_t latency_before)
{
    if (carries_nothing(first, count))
        return 0;
    if (server.kind == DUCHRELIN_KIND_PURE_DELAY)
        return server.latency;
    return server.latency + quotient_rounded_up(backlog_of(first, count, joined_limit, latency_before), server.rate);
}

/* No curve goes from hop to hop: the curve behind some servers is the first one behind their joined server, so every figure is
 * one of the first curve. The backlog of a hop is that of the server joined up to it. */
static void report_hops(struct text *text, const uint8_t *input, size_t bytes, const uint64_t *first, size_t count)
{
    uint64_t joined_limit = NO_LIMIT, joined_latency = 0;
    size_t hop = 0;
    do {
        duchrelin_server server = hop < DUCHRELIN_MOST_SERVERS ? next_server(input, bytes, first, count, joined_latency)
                                                               : refused_server(DUCHRELIN_COUNT);
        if (server.code != 0) {
            put_refusal(text, server.code, hop + 2);
            return;
        }
        hop++;
        joined_limit = smaller(joined_limit, limit_of(server.kind, server.rate));
        uint64_t delay = hop_delay(server, first, count, joined_limit, joined_latency);
        joined_latency += server.latency;
        put_hop(text, hop, backlog_of(first, count, joined_limit, joined_latency), delay);
        input += server_bytes(server.kind);
        bytes -= server_bytes(server.kind);
    } while (bytes > 0);
    put_route(text, backlog_of(first, count, joined_limit, joined_latency), delay_of(first, count, joined_limit, joined_latency));
}

static void report(struct text *text, const uint8_t *input, size_t bytes)
{
    uint64_t curve[CURVE_NUMBERS];
    size_t count = 0;
    uint64_t code = due_refusal(input, bytes, true);
    if (code == 0)
        code = take_curve(input, curve, &count);
    if (code != 0)
        put_refusal(text, code, 1);
    else
        report_hops(text, input + curve_bytes(count), bytes - curve_bytes(count), curve, count);
}

duchrelin_written plain_route(const uint8_t *input, size_t input_bytes, uint8_t *text, size_t text_bytes)
{
    struct text local;
    local.count = 0;
    report(&local, input, input_bytes);
    return handed_over(&local, text, text_bytes);
}
