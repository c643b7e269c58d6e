/*
 * The parts of the screen that a look at its output does not show well: where the figures are measured, held against every tick of many
 * small routes; the axes; what is made of hostile text; the words for the codes. The last line is 'N passed, M failed'.
 */
#include <inttypes.h>
#include <stdarg.h>
#include <stdio.h>
#include <stdlib.h>
#include <string.h>

#include "axis.h"
#include "duchrelin_words.h"
#include "plot.h"
#include "screen.h"
#include "text.h"

static unsigned passed, failed;

void complain(const char *format, ...) { printf("complained: %s\n", format); }

static void expect(int holds, const char *what)
{
    if (holds) {
        passed++;
        return;
    }
    printf("FAILED: %s\n", what);
    failed++;
}

/* ---- measures */

static uint64_t seed = 20260101;

static uint64_t draw(uint64_t below)
{
    seed = seed * UINT64_C(6364136223846793005) + UINT64_C(1442695040888963407);
    return (seed >> 33) % below;
}

/* A small random curve in normal form. */
static struct curve draw_curve(void)
{
    uint64_t raw[2 * 5];
    size_t count = 1 + draw(5);
    for (size_t i = 0; i < count; i++) {
        raw[2 * i] = draw(12);
        raw[2 * i + 1] = draw(40);
    }
    struct curve c = {0};
    c.count = duchrelin_normalise(raw, 2 * count, c.numbers, DUCHRELIN_CURVE_NUMBERS).count;
    return c;
}

/* Whether the backlog is reached where the measure says, and the delay is needed in full where it says. */
static int measured(const struct curve *c, struct server s, const struct measure *m)
{
    uint64_t come, served;
    ask_come(c, m->full, &come);
    ask_served(s, m->full, &served);
    if (come != m->full_come || served != m->full_served || come != served + m->backlog)
        return 0;
    if (m->delay == 0)
        return 1;
    ask_come(c, m->late, &come);
    ask_served(s, m->late + m->delay - 1, &served);
    if (come != m->late_come || come <= served)
        return 0;
    ask_served(s, m->late + m->delay, &served);
    return come <= served;
}

/* Whether a device that only delays is measured where its service steps up: all that has come by then waits; within the delay nothing is
 * served, after it everything, and the delay starts at tick 0. Only traffic without a bit has no delay but that of the device. */
static int measured_at_the_step(const struct curve *c, struct server s, const struct measure *m)
{
    uint64_t at_once, come, ever, served, later;
    ask_come(c, 0, &at_once);
    ask_come(c, s.latency, &come);
    ask_come(c, LAST_TICK, &ever);
    ask_served(s, s.latency, &served);
    ask_served(s, s.latency + 1, &later);
    if (served != 0 || later < ever || m->full != s.latency || m->full_served != 0 || m->full_come != come || m->backlog != come)
        return 0;
    if (ever == 0)
        return m->delay == 0;
    return m->delay == s.latency && m->late == 0 && (m->delay == 0 || m->late_come == at_once);
}

/* Whether what is served stands on the board as a step: on the lowest row up to the latency, there straight up to the top, and nowhere
 * else. Where another mark covers it, that counts. */
static int stepped(const struct plot *p)
{
    int step = (int)((2 * COLUMNS * p->server.latency + p->ticks.end) / (2 * p->ticks.end)), right = 1;
    for (int row = 0; row <= ROWS; row++)
        for (int column = 0; column <= COLUMNS; column++) {
            int due = column == step || (row == 0 && column < step);
            right &= due ? p->board[row][column] != BLANK : p->board[row][column] != SERVED_MARK;
        }
    return right && p->board[ROWS][step] == SERVED_MARK;
}

static int label_fits(const struct label *l)
{
    return l->row >= 0 && l->row <= ROWS && l->column >= 0 && l->column + (int)strlen(l->text) <= COLUMNS + 1;
}

/* Whether both measures lie on the axes, and the labels on the board. */
static int in_sight(const struct plot *p)
{
    const struct measure *m = &p->measure;
    return m->full <= p->ticks.end && m->late + m->delay <= p->ticks.end && m->full_come <= p->bits.end &&
           m->late_come <= p->bits.end && label_fits(&p->backlog) && label_fits(&p->delay);
}

static void try_measures(void)
{
    int answered = 0, right = 1, seen = 1, no_delay = 0, latency_alone = 0, after_latency = 0;
    for (int i = 0; i < 20000; i++) {
        struct curve c = draw_curve();
        struct server s = {.kind = DUCHRELIN_KIND_RATE_LATENCY, .rate = 1 + draw(12), .latency = draw(8)};
        struct plot p;
        if (plot(&c, s, &p) != DUCHRELIN_ANSWERED)
            continue;
        answered++;
        right &= measured(&c, s, &p.measure);
        seen &= in_sight(&p);
        no_delay += p.measure.delay == 0;
        latency_alone += p.measure.delay > 0 && p.measure.delay == s.latency;
        after_latency += p.measure.full > s.latency;
    }
    expect(right, "20000 random ports: the figures are reached where they are measured");
    expect(seen, "20000 random ports: measures and labels are in sight");
    expect(answered > 5000 && no_delay > 50 && latency_alone > 50 && after_latency > 500, "the random ports are of every sort");
}

static void try_delays(void)
{
    int answered = 1, right = 1, straight = 1, seen = 1, nothing = 0, at_once = 0, no_burst = 0;
    for (int i = 0; i < 5000; i++) {
        struct curve c = draw_curve();
        struct server s = {.kind = DUCHRELIN_KIND_PURE_DELAY, .latency = draw(8)};
        struct plot p;
        answered &= plot(&c, s, &p) == DUCHRELIN_ANSWERED;
        right &= measured_at_the_step(&c, s, &p.measure);
        straight &= stepped(&p);
        seen &= in_sight(&p);
        nothing += s.latency > 0 && p.measure.delay == 0;
        at_once += s.latency == 0 && p.measure.backlog > 0;
        no_burst += p.measure.delay > 0 && p.measure.late_come == 0;
    }
    expect(answered, "5000 random devices that only delay: no traffic is too fast for one");
    expect(right, "5000 random devices that only delay: they are measured where the service steps up");
    expect(straight, "5000 random devices that only delay: the service is a straight step");
    expect(seen, "5000 random devices that only delay: measures and labels are in sight");
    expect(nothing > 5 && at_once > 50 && no_burst > 50, "the random devices that only delay are of every sort");
}

static void try_limits(void)
{
    const uint64_t rates = (1 << 20) - 1, bursts = (UINT64_C(1) << 40) - 1;
    const struct curve curves[] = {{1, {0, 0}},          {1, {0, 1}},      {1, {rates, 0}},
                                   {1, {rates, bursts}}, {1, {0, bursts}}, {2, {2, 0, 1, bursts}}};
    const struct server servers[] = {{2, 1, 0}, {2, 1, 1}, {2, 1, rates}, {2, rates, 0}, {2, rates, rates}, {3, 0, 0}, {3, 0, rates}};
    size_t answered = 0, steps = 0;
    int seen = 1;
    for (size_t i = 0; i < sizeof curves / sizeof *curves; i++)
        for (size_t j = 0; j < sizeof servers / sizeof *servers; j++) {
            struct plot p;
            if (plot(&curves[i], servers[j], &p) != DUCHRELIN_ANSWERED)
                continue;
            answered++;
            seen &= in_sight(&p) && p.measure.full_come == p.measure.full_served + p.measure.backlog;
            if (only_delays(servers[j]) && measured_at_the_step(&curves[i], servers[j], &p.measure) && stepped(&p))
                steps++;
        }
    expect(seen && answered - steps > 15, "the ends of the ranges: measures and labels are in sight");
    expect(steps == 2 * sizeof curves / sizeof *curves, "the ends of the ranges: every device that only delays is a step");
}

/* ---- axes */

static int axis_is(uint64_t needed, uint64_t end, uint64_t step, uint64_t number, const char *mark)
{
    struct axis a = axis_for(needed);
    char text[MARK_BYTES];
    axis_mark(a, number, text);
    if (a.end == end && a.step == step && strcmp(text, mark) == 0)
        return 1;
    printf("axis for %" PRIu64 ": end %" PRIu64 ", step %" PRIu64 ", mark %s\n", needed, a.end, a.step, text);
    return 0;
}

static void try_axes(void)
{
    expect(axis_is(0, 1, 1, 1, "1"), "an axis for nothing ends at 1");
    expect(axis_is(8, 8, 1, 3, "3"), "an axis for 8 has steps of 1");
    expect(axis_is(9, 10, 2, 4, "4"), "an axis for 9 ends at 10");
    expect(axis_is(8001, 10000, 2000, 4000, "4k"), "an axis to 10000 counts thousands");
    expect(axis_is(7999, 8000, 1000, 4000, "4000"), "an axis to 8000 counts ones");
    expect(axis_is(1200000, 1200000, 200000, 1000000, "1.0M"), "an axis to 1.2 million counts tenths");
    expect(axis_is(1200000, 1200000, 200000, 0, "0"), "an axis begins at a plain 0");
    expect(axis_is(UINT64_C(1) << 62, UINT64_C(5000000000000000000), UINT64_C(1000000000000000000), UINT64_C(2000000000000000000),
                   "2E"),
           "an axis for 2^62 counts quintillions");
}

/* ---- text */

static void try_visible(const char *text, const char *shown, const char *what)
{
    char *copy = visible_copy(text);
    expect(strcmp(copy, shown) == 0, what);
    free(copy);
}

static void try_text(void)
{
    try_visible("plain | text", "plain | text", "plain text stays");
    static const char long_ones[] = "J\xc3\xbcrgen \xe6\xb0\xb4 \xf0\x9f\x94\x8c";
    try_visible(long_ones, long_ones, "characters of all lengths stay");
    try_visible("\x1b[31mred\x07", "?[31mred?", "control bytes go");
    try_visible("\xc2\x9b" "2J", "??2J", "control characters of two bytes go");
    try_visible("a\xe2\x80\xaetxt", "a???txt", "characters that turn the writing go");
    try_visible("\xc0\xaf\xff\xe2\x82", "?????", "broken characters go");
    try_visible("\xed\xa0\x80", "???", "half characters go");
    char room[8] = "";
    add_text(room, sizeof room, "%s", "J\xc3\xbc\xc3\xbc\xc3\xbcrgen");
    expect(strcmp(room, "J\xc3\xbc...") == 0, "a text that does not fit is cut between characters");
}

/* ---- words */

static void try_words(void)
{
    static const char *const names[] = {"ANSWERED", "HEADER", "LENGTH",    "PAD",   "LIST", "COUNT",
                                        "RANGE",    "FORM",   "UNBOUNDED", "LARGE", "ROOM"};
    int named = 1, told = 1;
    for (uint64_t code = 0; code <= DUCHRELIN_ROOM; code++) {
        named &= strcmp(duchrelin_code_name(code), names[code]) == 0;
        const char *meaning = duchrelin_code_meaning(code), *advice = duchrelin_code_advice(code);
        told &= meaning[strlen(meaning) - 1] == '.' && advice[strlen(advice) - 1] == '.';
        told &= strcmp(meaning, duchrelin_code_meaning(99)) != 0 && strcmp(advice, duchrelin_code_advice(99)) != 0;
    }
    expect(named, "each code has its name");
    expect(told, "each code has its sentences");
    expect(strcmp(duchrelin_code_name(UINT64_MAX), "NO CODE") == 0, "a number that is no code is called so");
    static const char *const kinds[] = {"no kind", "traffic", "port", "delay", "no kind"};
    for (uint64_t kind = 0; kind < sizeof kinds / sizeof *kinds; kind++)
        named &= strcmp(duchrelin_kind_name(kind), kinds[kind]) == 0;
    expect(named, "each kind has its word");
}

int main(void)
{
    try_measures();
    try_delays();
    try_limits();
    try_axes();
    try_text();
    try_words();
    printf("%u passed, %u failed\n", passed, failed);
    return failed != 0;
}
