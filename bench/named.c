#include "named.h"

#include "profile.h"

struct bucket {
    uint64_t rate, burst;
};

/* The times at which a candidate lies below the buckets seen so far: after low/low_over and before high/high_over, where a
 * high_over of 0 is no end. */
struct ends {
    uint64_t low, low_over, high, high_over;
};

static uint64_t difference(uint64_t a, uint64_t b) { return a > b ? a - b : 0; }

/* A steeper bucket is above the candidate only past their crossing. */
static void after_steeper(struct bucket candidate, struct bucket other, struct ends *ends)
{
    uint64_t rise = difference(candidate.burst, other.burst);
    uint64_t fall = other.rate - candidate.rate;
    if (ends->low * fall < rise * ends->low_over) {
        ends->low = rise;
        ends->low_over = fall;
    }
}

/* A flatter bucket is above the candidate only up to their crossing. */
static void before_flatter(struct bucket candidate, struct bucket other, struct ends *ends)
{
    uint64_t rise = difference(other.burst, candidate.burst);
    uint64_t fall = candidate.rate - other.rate;
    if (rise * ends->high_over < ends->high * fall) {
        ends->high = rise;
        ends->high_over = fall;
    }
}

/* A bucket of the same rate is above the candidate always, or never. */
static void beside_equal(struct bucket candidate, struct bucket other, struct ends *ends)
{
    if (other.burst < candidate.burst) {
        ends->high = 0;
        ends->high_over = 1;
    }
}

static void narrow(struct bucket candidate, struct bucket other, struct ends *ends)
{
    if (other.rate > candidate.rate)
        after_steeper(candidate, other, ends);
    else if (other.rate < candidate.rate)
        before_flatter(candidate, other, ends);
    else
        beside_equal(candidate, other, ends);
}

static bool some_time_left(const struct ends *ends) { return ends->low * ends->high_over < ends->high * ends->low_over; }

static struct bucket bucket_of(const uint64_t *list, size_t i) { return (struct bucket){ list[2 * i], list[2 * i + 1] }; }

/* A bucket that is looked for, if there is one. */
struct found {
    bool some;
    struct bucket bucket;
};

static bool comes_before(struct bucket a, struct bucket b) { return a.rate > b.rate || (a.rate == b.rate && a.burst < b.burst); }

/* The bucket of greatest rate below the bound, and of smallest burst among those of its rate. */
static struct found steepest_below(const uint64_t *raw, size_t count, uint64_t bound)
{
    struct found best = { .some = false, .bucket = { 0, 0 } };
    for (size_t i = 0; i < count; i++) {
        struct bucket next = bucket_of(raw, i);
        if (next.rate < bound && (!best.some || comes_before(next, best.bucket)))
            best = (struct found){ .some = true, .bucket = next };
    }
    return best;
}

/* The useful buckets by falling rates, and how many there are; past 64 the search is given up, one more being told. */
static size_t choose(const uint64_t *raw, size_t count, uint64_t chosen[CURVE_NUMBERS])
{
    size_t useful = 0;
    uint64_t bound = RATE_END;
next_candidate:
    for (;;) {
        struct found found = steepest_below(raw, count, bound);
        if (!found.some)
            return useful;
        struct bucket candidate = found.bucket;
        bound = candidate.rate;
        struct ends ends = { .low = 0, .low_over = 1, .high = 1, .high_over = 0 };
        for (size_t j = 0; j < count; j++) {
            narrow(candidate, bucket_of(raw, j), &ends);
            if (!some_time_left(&ends))
                goto next_candidate;
        }
        if (useful == MOST_BUCKETS)
            return MOST_BUCKETS + 1;
        chosen[2 * useful] = candidate.rate;
        chosen[2 * useful + 1] = candidate.burst;
        useful++;
    }
}

/* The normal form of raw buckets, handed over. */
static duchrelin_answer settle(const uint64_t *raw, size_t count, uint64_t *out, size_t out_numbers)
{
    uint64_t chosen[CURVE_NUMBERS];
    size_t useful = choose(raw, count, chosen);
    if (useful <= MOST_BUCKETS && raw_refusal(chosen, 2 * useful) != 0)
        return refused_answer(DUCHRELIN_LARGE);
    return placed(chosen, useful, out, out_numbers);
}

static duchrelin_answer settle_both(const uint64_t *f, size_t f_numbers, const uint64_t *g, size_t g_numbers,
                                    uint64_t *out, size_t out_numbers)
{
    uint64_t both[2 * CURVE_NUMBERS];
    memcpy(both, f, f_numbers * sizeof *both);
    memcpy(both + f_numbers, g, g_numbers * sizeof *both);
    return settle(both, (f_numbers + g_numbers) / 2, out, out_numbers);
}

duchrelin_answer named_normalise(const uint64_t *raw, size_t raw_numbers, uint64_t *out, size_t out_numbers)
{
    uint64_t code = raw_refusal(raw, raw_numbers);
    if (code != 0)
        return refused_answer(code);
    return settle(raw, raw_numbers / 2, out, out_numbers);
}

duchrelin_answer named_lower(const uint64_t *f, size_t f_numbers, const uint64_t *g, size_t g_numbers,
                             uint64_t *out, size_t out_numbers)
{
    uint64_t code = curves_refusal(f, f_numbers, g, g_numbers);
    if (code != 0)
        return refused_answer(code);
    return settle_both(f, f_numbers, g, g_numbers, out, out_numbers);
}

duchrelin_answer named_shape(const uint64_t *curve, size_t curve_numbers, uint64_t rate, uint64_t frame,
                             uint64_t *out, size_t out_numbers)
{
    uint64_t code = smaller_code(curve_refusal(curve, curve_numbers), link_refusal(rate, frame));
    if (code != 0)
        return refused_answer(code);
    uint64_t link[2] = { rate, frame };
    return settle_both(curve, curve_numbers, link, 2, out, out_numbers);
}

static uint64_t least_at(const uint64_t *curve, size_t count, uint64_t tick)
{
    uint64_t least = UINT64_MAX;
    for (size_t i = 0; i < count; i++) {
        uint64_t value = rate_of(curve, i) * tick + burst_of(curve, i);
        least = value < least ? value : least;
    }
    return least;
}

/* The most by which the curve is ahead of a rate that it comes within in the end: at tick 0, or at one of the two ticks around the
 * crossing where it does. */
static uint64_t excess(const uint64_t *curve, size_t count, uint64_t rate)
{
    size_t k = 0;
    while (rate_of(curve, k) > rate)
        k++;
    if (k == 0)
        return burst_of(curve, 0);
    uint64_t tick = rise_after(curve, k - 1) / fall_after(curve, k - 1);
    uint64_t before = difference(least_at(curve, count, tick), rate * tick);
    uint64_t after = difference(least_at(curve, count, tick + 1), rate * (tick + 1));
    return before > after ? before : after;
}

/* The curve behind a server; the refusals of the operands are known not to hold. A pure delay has no bucket of its own. */
static duchrelin_answer settle_behind(const uint64_t *curve, size_t curve_numbers, uint64_t limit, uint64_t latency,
                                      uint64_t *out, size_t out_numbers)
{
    uint64_t raw[CURVE_NUMBERS + 2];
    size_t count = 0;
    for (size_t i = 0; i < curve_numbers; i += 2)
        if (curve[i] <= limit) {
            raw[2 * count] = curve[i];
            raw[2 * count + 1] = curve[i + 1] + curve[i] * latency;
            count++;
        }
    if (limit != NO_LIMIT) {
        raw[2 * count] = limit;
        raw[2 * count + 1] = limit * latency + excess(curve, curve_numbers / 2, limit);
        count++;
    }
    return settle(raw, count, out, out_numbers);
}

duchrelin_answer named_behind(const uint64_t *curve, size_t curve_numbers, uint64_t kind, uint64_t rate, uint64_t latency,
                              uint64_t *out, size_t out_numbers)
{
    uint64_t code = port_refusal(curve, curve_numbers, kind, rate, latency);
    if (code != 0)
        return refused_answer(code);
    return settle_behind(curve, curve_numbers, limit_of(kind, rate), latency, out, out_numbers);
}

static uint64_t delay_of(const uint64_t *curve, size_t count, uint64_t limit, uint64_t latency)
{
    if (least_at(curve, count, 1) == 0)
        return 0;
    return limit == NO_LIMIT ? latency : latency + quotient_rounded_up(excess(curve, count, limit), limit);
}

/* A file, and the bit at which its next field begins. */
struct bit_reader {
    const uint8_t *file;
    size_t at;
};

/* The number in the next field, from the bytes that hold it. */
static uint64_t take_bits(struct bit_reader *reader, size_t width)
{
    size_t end = reader->at + width, byte = reader->at / 8;
    uint64_t taken = 0;
    for (; 8 * byte < end; byte++)
        taken = taken << 8 | reader->file[byte];
    reader->at = end;
    return taken >> (8 * byte - end) & ((UINT64_C(1) << width) - 1);
}

static duchrelin_profile read_rate_latency(struct bit_reader reader, uint64_t edition)
{
    uint64_t rate = take_bits(&reader, RATE_BITS), latency = take_bits(&reader, RATE_BITS);
    uint64_t code = server_refusal(DUCHRELIN_KIND_RATE_LATENCY, rate, latency);
    if (code != 0)
        return refused_profile(code);
    return (duchrelin_profile){
        .code = 0, .edition = edition, .kind = DUCHRELIN_KIND_RATE_LATENCY, .rate = rate, .latency = latency
    };
}

static duchrelin_profile read_pure_delay(struct bit_reader reader, size_t bits, uint64_t edition)
{
    uint64_t latency = take_bits(&reader, RATE_BITS);
    if (take_bits(&reader, bits - reader.at) != 0)
        return refused_profile(DUCHRELIN_PAD);
    return (duchrelin_profile){ .code = 0, .edition = edition, .kind = DUCHRELIN_KIND_PURE_DELAY, .latency = latency };
}

static duchrelin_profile read_curve(struct bit_reader reader, size_t bits, uint64_t edition, uint64_t *out, size_t out_numbers)
{
    uint64_t curve[CURVE_NUMBERS];
    size_t count = take_bits(&reader, 6) + 1;
    for (size_t i = 0; i < count; i++) {
        curve[2 * i] = take_bits(&reader, RATE_BITS);
        curve[2 * i + 1] = take_bits(&reader, BURST_BITS);
    }
    uint64_t code = take_bits(&reader, bits - reader.at) != 0 ? DUCHRELIN_PAD : curve_refusal(curve, 2 * count);
    if (code != 0)
        return refused_profile(code);
    duchrelin_answer answer = placed(curve, count, out, out_numbers);
    if (answer.code != 0)
        return refused_profile(answer.code);
    return (duchrelin_profile){ .code = 0, .edition = edition, .kind = DUCHRELIN_KIND_CURVE, .count = count };
}

duchrelin_profile named_read(const uint8_t *file, size_t file_bytes, uint64_t *out, size_t out_numbers)
{
    uint64_t code = header_refusal(file, file_bytes);
    if (code != 0)
        return refused_profile(code);
    if (file_bytes != bytes_due(file, file_bytes))
        return refused_profile(DUCHRELIN_LENGTH);
    struct bit_reader reader = { .file = file, .at = 0 };
    uint64_t edition = take_bits(&reader, 4), kind = take_bits(&reader, 4);
    if (kind == DUCHRELIN_KIND_RATE_LATENCY)
        return read_rate_latency(reader, edition);
    if (kind == DUCHRELIN_KIND_PURE_DELAY)
        return read_pure_delay(reader, 8 * file_bytes, edition);
    return read_curve(reader, 8 * file_bytes, edition, out, out_numbers);
}

/* The curve of the hop at hand, and the servers up to it joined. */
struct journey {
    uint64_t curve[CURVE_NUMBERS];
    size_t numbers;
    size_t hops;
    uint64_t joined_limit, joined_latency;
};

/* Takes the next server: its refusal, or 0, its line of text, and the curve behind it. */
static uint64_t travel(struct journey *journey, const uint8_t *input, size_t bytes, struct text *text)
{
    if (journey->hops == DUCHRELIN_MOST_SERVERS)
        return DUCHRELIN_COUNT;
    uint64_t code = due_refusal(input, bytes, false);
    if (code != 0)
        return code;
    duchrelin_server server = take_server(input);
    if (server.code != 0)
        return server.code;
    code = port_refusal(journey->curve, journey->numbers, server.kind, server.rate, server.latency);
    if (code != 0)
        return code;
    uint64_t limit = limit_of(server.kind, server.rate), behind[CURVE_NUMBERS];
    duchrelin_answer answer = settle_behind(journey->curve, journey->numbers, limit, server.latency, behind, CURVE_NUMBERS);
    code = smaller_code(answer.code, join_refusal(journey->joined_latency, server.latency));
    if (code != 0)
        return code;
    journey->hops++;
    put_hop(text, journey->hops, burst_of(behind, 0), delay_of(journey->curve, journey->numbers / 2, limit, server.latency));
    journey->numbers = 2 * answer.count;
    memcpy(journey->curve, behind, journey->numbers * sizeof *behind);
    journey->joined_limit = smaller(journey->joined_limit, limit);
    journey->joined_latency += server.latency;
    return 0;
}

static void put_whole_route(struct text *text, const uint64_t *first, size_t count, const struct journey *journey)
{
    uint64_t behind[CURVE_NUMBERS];
    settle_behind(first, 2 * count, journey->joined_limit, journey->joined_latency, behind, CURVE_NUMBERS);
    put_route(text, burst_of(behind, 0), delay_of(first, count, journey->joined_limit, journey->joined_latency));
}

static void report(struct text *text, const uint8_t *input, size_t bytes)
{
    uint64_t first[CURVE_NUMBERS];
    size_t count = 0;
    uint64_t code = due_refusal(input, bytes, true);
    if (code == 0)
        code = take_curve(input, first, &count);
    if (code != 0) {
        put_refusal(text, code, 1);
        return;
    }
    struct journey journey = { .numbers = 2 * count, .hops = 0, .joined_limit = NO_LIMIT, .joined_latency = 0 };
    memcpy(journey.curve, first, journey.numbers * sizeof *first);
    size_t at = curve_bytes(count);
    do {
        code = travel(&journey, input + at, bytes - at, text);
        if (code != 0) {
            put_refusal(text, code, journey.hops + 2);
            return;
        }
        at += server_bytes(kind_in(input + at));
    } while (at < bytes);
    put_whole_route(text, first, count, &journey);
}

duchrelin_written named_route(const uint8_t *input, size_t input_bytes, uint8_t *text, size_t text_bytes)
{
    struct text local;
    local.count = 0;
    report(&local, input, input_bytes);
    return handed_over(&local, text, text_bytes);
}
