#include "inputs.h"

#include <stdbool.h>
#include <string.h>

enum { MOST_BUCKETS = DUCHRELIN_MOST_BUCKETS, HOPS = DUCHRELIN_MOST_SERVERS };
enum { RATE_LATENCY = DUCHRELIN_KIND_RATE_LATENCY, PURE_DELAY = DUCHRELIN_KIND_PURE_DELAY };

/* The edition that has every kind. */
enum { EDITION = 2 };

/* Steps of rates and of crossings are drawn below these, so that two rates added, and bursts added or moved by any latency
 * drawn here, stay within their ranges. */
enum { MOST_FALL = 1 << 12, MOST_PAUSE = 1 << 12, MOST_LAST_RATE = 1 << 17, MOST_FIRST_BURST = 1 << 20, MOST_LATENCY = 1 << 17 };

/* A number from 0 to below - 1, of a sequence that the state holds. */
static uint64_t draw(uint64_t *state, uint64_t below)
{
    uint64_t x = *state += UINT64_C(0x9e3779b97f4a7c15);
    x = (x ^ x >> 30) * UINT64_C(0xbf58476d1ce4e5b9);
    x = (x ^ x >> 27) * UINT64_C(0x94d049bb133111eb);
    return (x ^ x >> 31) % below;
}

/* The times at which a curve goes from bucket to bucket, and by how much its rate falls there. */
struct steps {
    uint64_t times[MOST_BUCKETS], falls[MOST_BUCKETS];
};

static void draw_times(struct steps *steps, uint64_t first_time, uint64_t *state)
{
    uint64_t time = first_time;
    for (size_t k = 0; k < MOST_BUCKETS; k++)
        steps->times[k] = time += 1 + draw(state, MOST_PAUSE);
}

static void draw_falls(struct steps *steps, uint64_t *state)
{
    for (size_t k = 0; k < MOST_BUCKETS; k++)
        steps->falls[k] = 1 + draw(state, MOST_FALL);
}

/* A crossing that is not at a whole tick lies at most one tick after its time. */
static size_t build_curve(uint64_t *curve, size_t buckets, const struct steps *steps, bool whole, uint64_t *state)
{
    uint64_t rate = 1 + draw(state, MOST_LAST_RATE);
    for (size_t k = 0; k + 1 < buckets; k++)
        rate += steps->falls[k];
    uint64_t burst = 1 + draw(state, MOST_FIRST_BURST);
    for (size_t k = 0; k < buckets; k++) {
        curve[2 * k] = rate;
        curve[2 * k + 1] = burst;
        rate -= steps->falls[k];
        burst += steps->falls[k] * steps->times[k] + (whole ? 0 : draw(state, steps->falls[k]));
    }
    return 2 * buckets;
}

static size_t draw_curve(uint64_t *curve, size_t buckets, uint64_t first_time, uint64_t *state)
{
    struct steps steps;
    draw_times(&steps, first_time, state);
    draw_falls(&steps, state);
    return build_curve(curve, buckets, &steps, false, state);
}

static uint64_t first_rate(const struct input *input) { return input->f[0]; }
static uint64_t last_rate(const struct input *input) { return input->f[input->f_numbers - 2]; }

/* A rate above the last of the curve, and not above its first where it has several. */
static uint64_t draw_rate_within(const struct input *input, uint64_t *state)
{
    uint64_t spread = first_rate(input) - last_rate(input);
    return last_rate(input) + 1 + draw(state, spread > 0 ? spread : MOST_FALL);
}

void make_one_curve(struct input *input, size_t buckets, uint64_t seed)
{
    input->f_numbers = draw_curve(input->f, buckets, 0, &seed);
    input->tick = draw(&seed, (1 + buckets) * MOST_PAUSE / 2);
    input->edition = EDITION;
}

/* A link that some buckets are steeper than, and a frame below the first burst of the others. Drawn until the answer is not LARGE. */
void make_curve_and_link(struct input *input, size_t buckets, uint64_t seed)
{
    uint64_t shaped[DUCHRELIN_CURVE_NUMBERS];
    make_one_curve(input, buckets, seed);
    do {
        input->rate = draw_rate_within(input, &seed);
        size_t first = 0;
        while (input->f[first] > input->rate)
            first += 2;
        input->frame = draw(&seed, input->f[first + 1]);
    } while (plain_shape(input->f, input->f_numbers, input->rate, input->frame, shaped, DUCHRELIN_CURVE_NUMBERS).code != 0);
}

static void swap(uint64_t *a, uint64_t *b)
{
    uint64_t held = *a;
    *a = *b;
    *b = held;
}

void make_shuffled(struct input *input, size_t buckets, uint64_t seed)
{
    make_one_curve(input, buckets, seed);
    for (size_t k = buckets - 1; k > 0; k--) {
        size_t other = draw(&seed, k + 1);
        swap(&input->f[2 * k], &input->f[2 * other]);
        swap(&input->f[2 * k + 1], &input->f[2 * other + 1]);
    }
}

void make_mostly_useless(struct input *input, size_t buckets, uint64_t seed)
{
    input->f_numbers = 2 * buckets;
    for (size_t k = 0; k < buckets; k++) {
        input->f[2 * k] = draw(&seed, UINT64_C(1) << 20);
        input->f[2 * k + 1] = draw(&seed, UINT64_C(1) << 40);
    }
}

static bool same_bucket(const uint64_t *a, const uint64_t *b) { return a[0] == b[0] && a[1] == b[1]; }

/* Drawn until the first is the lower at the start, the second in the end, and the answer is not LARGE. */
void make_two_curves(struct input *input, size_t buckets, uint64_t seed)
{
    uint64_t lower[DUCHRELIN_CURVE_NUMBERS];
    duchrelin_answer answer;
    do {
        input->f_numbers = draw_curve(input->f, buckets, 0, &seed);
        input->g_numbers = draw_curve(input->g, buckets, 0, &seed);
        answer = plain_lower(input->f, input->f_numbers, input->g, input->g_numbers, lower, DUCHRELIN_CURVE_NUMBERS);
    } while (answer.code != 0 || !same_bucket(lower, input->f)
             || !same_bucket(lower + 2 * answer.count - 2, input->g + input->g_numbers - 2));
}

/* Two curves with these times, and falls of their own. */
static void build_summands(struct input *input, size_t f_buckets, struct steps *f, size_t g_buckets, struct steps *g, uint64_t *state)
{
    draw_falls(f, state);
    draw_falls(g, state);
    input->f_numbers = build_curve(input->f, f_buckets, f, true, state);
    input->g_numbers = build_curve(input->g, g_buckets, g, true, state);
}

void make_crossings_apart(struct input *input, size_t buckets, uint64_t seed)
{
    struct steps f, g;
    draw_times(&f, 0, &seed);
    draw_times(&g, 0, &seed);
    build_summands(input, buckets, &f, buckets, &g, &seed);
}

void make_crossings_together(struct input *input, size_t buckets, uint64_t seed)
{
    struct steps f, g;
    draw_times(&f, 0, &seed);
    g = f;
    build_summands(input, buckets, &f, buckets, &g, &seed);
}

void make_crossings_dealt_out(struct input *input, size_t buckets, uint64_t seed)
{
    struct steps all, f = { 0 }, g = { 0 };
    size_t f_crossings = 0, g_crossings = 0;
    draw_times(&all, 0, &seed);
    for (size_t k = 0; k + 1 < buckets; k++) {
        uint64_t whose = draw(&seed, 3);
        if (whose != 0)
            f.times[f_crossings++] = all.times[k];
        if (whose != 1)
            g.times[g_crossings++] = all.times[k];
    }
    build_summands(input, f_crossings + 1, &f, g_crossings + 1, &g, &seed);
}

void make_curve_and_server(struct input *input, size_t buckets, uint64_t seed)
{
    make_one_curve(input, buckets, seed);
    input->kind = RATE_LATENCY;
    input->rate = draw_rate_within(input, &seed);
    input->latency = draw(&seed, MOST_LATENCY);
}

void make_curve_and_delay(struct input *input, size_t buckets, uint64_t seed)
{
    make_one_curve(input, buckets, seed);
    input->kind = PURE_DELAY;
    input->latency = input->tick;
}

void make_servers(struct input *input, size_t buckets, uint64_t seed)
{
    (void)buckets;
    input->edition = EDITION;
    input->kind = input->next_kind = RATE_LATENCY;
    input->rate = 1 + draw(&seed, MOST_LAST_RATE);
    input->latency = draw(&seed, MOST_LATENCY);
    input->next_rate = 1 + draw(&seed, MOST_LAST_RATE);
    input->next_latency = draw(&seed, MOST_LATENCY);
}

void make_server_and_delay(struct input *input, size_t buckets, uint64_t seed)
{
    make_servers(input, buckets, seed);
    input->next_kind = PURE_DELAY;
    input->next_rate = 0;
}

void make_delays(struct input *input, size_t buckets, uint64_t seed)
{
    make_server_and_delay(input, buckets, seed);
    input->kind = PURE_DELAY;
    input->rate = 0;
}

/* With a rate as large as this the quotient of any burst drawn here is a latency. */
void make_cross_and_server(struct input *input, size_t buckets, uint64_t seed)
{
    make_one_curve(input, buckets, seed);
    input->kind = RATE_LATENCY;
    input->rate = (UINT64_C(1) << 20) - 1 - draw(&seed, MOST_FALL);
    input->latency = draw(&seed, MOST_LATENCY);
}

static void append_curve(struct input *input)
{
    input->byte_count += plain_write_curve(EDITION, input->f, input->f_numbers, input->bytes + input->byte_count,
                                           sizeof input->bytes - input->byte_count).bytes;
}

static void append_server(struct input *input, uint64_t kind, uint64_t rate, uint64_t latency)
{
    input->byte_count += plain_write_server(EDITION, kind, rate, latency, input->bytes + input->byte_count,
                                            sizeof input->bytes - input->byte_count).bytes;
}

void make_curve_file(struct input *input, size_t buckets, uint64_t seed)
{
    make_one_curve(input, buckets, seed);
    input->byte_count = 0;
    append_curve(input);
}

void make_server_file(struct input *input, size_t buckets, uint64_t seed)
{
    make_servers(input, buckets, seed);
    input->byte_count = 0;
    append_server(input, input->kind, input->rate, input->latency);
}

void make_delay_file(struct input *input, size_t buckets, uint64_t seed)
{
    make_delays(input, buckets, seed);
    input->byte_count = 0;
    append_server(input, input->kind, input->rate, input->latency);
}

/* Every bucket stays where no rate is cut and the latencies together do not reach the first crossing. */
void make_route_of_full_curves(struct input *input, size_t buckets, uint64_t seed)
{
    enum { MOST_HOP_LATENCY = 1 << 11 };
    input->f_numbers = draw_curve(input->f, buckets, HOPS * MOST_HOP_LATENCY, &seed);
    input->byte_count = 0;
    append_curve(input);
    for (int hop = 0; hop < HOPS; hop++)
        append_server(input, RATE_LATENCY, first_rate(input) + 1 + draw(&seed, MOST_FALL), draw(&seed, MOST_HOP_LATENCY));
}

/* Servers of falling rates, so that each cuts the curve; with both kinds every second hop is a pure delay instead. */
static void make_route(struct input *input, size_t buckets, bool both_kinds, uint64_t seed)
{
    make_one_curve(input, buckets, seed);
    input->byte_count = 0;
    append_curve(input);
    uint64_t spread = first_rate(input) - last_rate(input);
    for (uint64_t hop = 1; hop <= HOPS; hop++)
        if (both_kinds && hop % 2 == 0)
            append_server(input, PURE_DELAY, 0, draw(&seed, 8));
        else
            append_server(input, RATE_LATENCY, first_rate(input) - spread * hop / HOPS, draw(&seed, 8));
}

void make_route_of_cuts(struct input *input, size_t buckets, uint64_t seed) { make_route(input, buckets, false, seed); }

void make_route_of_both_kinds(struct input *input, size_t buckets, uint64_t seed) { make_route(input, buckets, true, seed); }
