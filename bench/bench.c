/*
 * Times every function of duchrelin.h beside the same question in plain C, on the same inputs and in turns, and measures the
 * stack that each takes. Prints tables in Markdown.
 */
#define _POSIX_C_SOURCE 200809L
#include "inputs.h"
#include "library.h"
#include "stack.h"

#include <inttypes.h>
#include <stdbool.h>
#include <stdio.h>
#include <string.h>
#include <time.h>

/* So many inputs that the processor cannot know by heart which way each of them branches. */
enum { CURVE_NUMBERS = DUCHRELIN_CURVE_NUMBERS, INPUTS = 256 };

/* What a call answers and leaves behind. */
struct outcome {
    uint64_t figures[6];
    uint64_t list[CURVE_NUMBERS];
    uint8_t bytes[DUCHRELIN_TEXT_BYTES];
};

/*
 * The questions, each put to one library.
 */

typedef void question(const struct library *library, const struct input *input, struct outcome *outcome);

static void keep_answer(struct outcome *o, duchrelin_answer a) { memcpy(o->figures, &a, sizeof a); }
static void keep_figure(struct outcome *o, duchrelin_figure a) { memcpy(o->figures, &a, sizeof a); }
static void keep_server(struct outcome *o, duchrelin_server a) { memcpy(o->figures, &a, sizeof a); }
static void keep_profile(struct outcome *o, duchrelin_profile a) { memcpy(o->figures, &a, sizeof a); }
static void keep_written(struct outcome *o, duchrelin_written a) { memcpy(o->figures, &a, sizeof a); }

static void normalise(const struct library *l, const struct input *i, struct outcome *o)
{
    keep_answer(o, l->normalise(i->f, i->f_numbers, o->list, CURVE_NUMBERS));
}

static void value(const struct library *l, const struct input *i, struct outcome *o)
{
    keep_figure(o, l->value(i->f, i->f_numbers, i->tick));
}

static void burst(const struct library *l, const struct input *i, struct outcome *o)
{
    keep_figure(o, l->burst(i->f, i->f_numbers));
}

static void lower(const struct library *l, const struct input *i, struct outcome *o)
{
    keep_answer(o, l->lower(i->f, i->f_numbers, i->g, i->g_numbers, o->list, CURVE_NUMBERS));
}

static void sum(const struct library *l, const struct input *i, struct outcome *o)
{
    keep_answer(o, l->sum(i->f, i->f_numbers, i->g, i->g_numbers, o->list, CURVE_NUMBERS));
}

static void shape(const struct library *l, const struct input *i, struct outcome *o)
{
    keep_answer(o, l->shape(i->f, i->f_numbers, i->rate, i->frame, o->list, CURVE_NUMBERS));
}

static void join(const struct library *l, const struct input *i, struct outcome *o)
{
    keep_server(o, l->join(i->kind, i->rate, i->latency, i->next_kind, i->next_rate, i->next_latency));
}

static void behind(const struct library *l, const struct input *i, struct outcome *o)
{
    keep_answer(o, l->behind(i->f, i->f_numbers, i->kind, i->rate, i->latency, o->list, CURVE_NUMBERS));
}

static void backlog(const struct library *l, const struct input *i, struct outcome *o)
{
    keep_figure(o, l->backlog(i->f, i->f_numbers, i->kind, i->rate, i->latency));
}

static void delay(const struct library *l, const struct input *i, struct outcome *o)
{
    keep_figure(o, l->delay(i->f, i->f_numbers, i->kind, i->rate, i->latency));
}

static void residual(const struct library *l, const struct input *i, struct outcome *o)
{
    keep_server(o, l->residual(i->kind, i->rate, i->latency, i->f, i->f_numbers));
}

static void read_profile(const struct library *l, const struct input *i, struct outcome *o)
{
    keep_profile(o, l->read(i->bytes, i->byte_count, o->list, CURVE_NUMBERS));
}

static void write_curve(const struct library *l, const struct input *i, struct outcome *o)
{
    keep_written(o, l->write_curve(i->edition, i->f, i->f_numbers, o->bytes, sizeof o->bytes));
}

static void write_server(const struct library *l, const struct input *i, struct outcome *o)
{
    keep_written(o, l->write_server(i->edition, i->kind, i->rate, i->latency, o->bytes, sizeof o->bytes));
}

static void route(const struct library *l, const struct input *i, struct outcome *o)
{
    keep_written(o, l->route(i->bytes, i->byte_count, o->bytes, sizeof o->bytes));
}

/*
 * The cases: what is asked, over which inputs, and whether the named form answers it too.
 */

struct timing_case {
    const char *function;
    const char *over;
    question *ask;
    maker *make;
    size_t buckets;
    bool named;
};

static const struct timing_case cases[] = {
    { "normalise", "a curve as it is", normalise, make_one_curve, 1, true },
    { "normalise", "a curve as it is", normalise, make_one_curve, 8, true },
    { "normalise", "a curve as it is", normalise, make_one_curve, 64, true },
    { "normalise", "shuffled, all useful", normalise, make_shuffled, 8, true },
    { "normalise", "shuffled, all useful", normalise, make_shuffled, 64, true },
    { "normalise", "shuffled, few useful", normalise, make_mostly_useless, 8, true },
    { "normalise", "shuffled, few useful", normalise, make_mostly_useless, 64, true },
    { "value", "", value, make_one_curve, 1, false },
    { "value", "", value, make_one_curve, 8, false },
    { "value", "", value, make_one_curve, 64, false },
    { "burst", "", burst, make_one_curve, 1, false },
    { "burst", "", burst, make_one_curve, 8, false },
    { "burst", "", burst, make_one_curve, 64, false },
    { "lower", "two curves that cross", lower, make_two_curves, 1, true },
    { "lower", "two curves that cross", lower, make_two_curves, 8, true },
    { "lower", "two curves that cross", lower, make_two_curves, 64, true },
    { "sum", "crossings apart", sum, make_crossings_apart, 1, false },
    { "sum", "crossings apart", sum, make_crossings_apart, 8, false },
    { "sum", "crossings apart", sum, make_crossings_apart, 32, false },
    { "sum", "crossings together", sum, make_crossings_together, 64, false },
    { "sum", "a third of them together, 64 in the sum", sum, make_crossings_dealt_out, 64, false },
    { "shape", "", shape, make_curve_and_link, 1, true },
    { "shape", "", shape, make_curve_and_link, 8, true },
    { "shape", "", shape, make_curve_and_link, 64, true },
    { "join", "", join, make_servers, 0, false },
    { "join", "a server and a pure delay", join, make_server_and_delay, 0, false },
    { "join", "two pure delays", join, make_delays, 0, false },
    { "behind", "", behind, make_curve_and_server, 1, true },
    { "behind", "", behind, make_curve_and_server, 8, true },
    { "behind", "", behind, make_curve_and_server, 64, true },
    { "behind", "a pure delay", behind, make_curve_and_delay, 1, true },
    { "behind", "a pure delay", behind, make_curve_and_delay, 8, true },
    { "behind", "a pure delay", behind, make_curve_and_delay, 64, true },
    { "backlog", "", backlog, make_curve_and_server, 1, false },
    { "backlog", "", backlog, make_curve_and_server, 8, false },
    { "backlog", "", backlog, make_curve_and_server, 64, false },
    { "backlog", "a pure delay", backlog, make_curve_and_delay, 1, false },
    { "backlog", "a pure delay", backlog, make_curve_and_delay, 8, false },
    { "backlog", "a pure delay", backlog, make_curve_and_delay, 64, false },
    { "delay", "", delay, make_curve_and_server, 1, false },
    { "delay", "", delay, make_curve_and_server, 8, false },
    { "delay", "", delay, make_curve_and_server, 64, false },
    { "delay", "a pure delay", delay, make_curve_and_delay, 1, false },
    { "delay", "a pure delay", delay, make_curve_and_delay, 8, false },
    { "delay", "a pure delay", delay, make_curve_and_delay, 64, false },
    { "residual", "", residual, make_cross_and_server, 1, false },
    { "residual", "", residual, make_cross_and_server, 8, false },
    { "residual", "", residual, make_cross_and_server, 64, false },
    { "read", "a curve", read_profile, make_curve_file, 1, true },
    { "read", "a curve", read_profile, make_curve_file, 8, true },
    { "read", "a curve", read_profile, make_curve_file, 64, true },
    { "read", "a server", read_profile, make_server_file, 0, true },
    { "read", "a pure delay", read_profile, make_delay_file, 0, true },
    { "write_curve", "", write_curve, make_one_curve, 1, false },
    { "write_curve", "", write_curve, make_one_curve, 8, false },
    { "write_curve", "", write_curve, make_one_curve, 64, false },
    { "write_server", "", write_server, make_servers, 0, false },
    { "write_server", "a pure delay", write_server, make_delays, 0, false },
    { "route", "32 hops, all buckets stay", route, make_route_of_full_curves, 1, true },
    { "route", "32 hops, all buckets stay", route, make_route_of_full_curves, 8, true },
    { "route", "32 hops, all buckets stay", route, make_route_of_full_curves, 64, true },
    { "route", "32 hops, each cuts", route, make_route_of_cuts, 64, true },
    { "route", "32 hops, every second a pure delay", route, make_route_of_both_kinds, 64, true },
};

enum { CASES = sizeof cases / sizeof cases[0] };

enum { ARCHIVE, PLAIN, NAMED, LIBRARIES };
static const struct library *const libraries[LIBRARIES] = { &archive_library, &plain_library, &named_library };
static const char *const library_names[LIBRARIES] = { "the archive", "plain C", "the named form" };

static bool answers(int library, const struct timing_case *c) { return library != NAMED || c->named; }

static struct input inputs[INPUTS];

static void make_inputs(const struct timing_case *c)
{
    memset(inputs, 0, sizeof inputs);
    for (size_t i = 0; i < INPUTS; i++)
        c->make(&inputs[i], c->buckets, 1 + i);
}

/*
 * All libraries give one answer, and it is no refusal.
 */

static void asked_fresh(const struct timing_case *c, int library, size_t i, struct outcome *outcome)
{
    memset(outcome, 0x5a, sizeof *outcome);
    c->ask(libraries[library], &inputs[i], outcome);
}

static bool all_agree(const struct timing_case *c)
{
    for (size_t i = 0; i < INPUTS; i++) {
        struct outcome plain;
        asked_fresh(c, PLAIN, i, &plain);
        if (plain.figures[0] != DUCHRELIN_ANSWERED) {
            fprintf(stderr, "%s, %zu buckets, input %zu: refused, %" PRIu64 "\n", c->function, c->buckets, i, plain.figures[0]);
            return false;
        }
        for (int library = 0; library < LIBRARIES; library++) {
            struct outcome other;
            if (!answers(library, c))
                continue;
            asked_fresh(c, library, i, &other);
            if (memcmp(&plain, &other, sizeof plain) != 0) {
                fprintf(stderr, "%s, %zu buckets, input %zu: %s answers otherwise than plain C\n", c->function, c->buckets, i,
                        library_names[library]);
                return false;
            }
        }
    }
    return true;
}

/*
 * Time. A round asks every input so many times over; the libraries take turns round by round, and the fastest round counts:
 * whatever else the machine does can only add to a round. It is the thread's own processor time.
 */

static double now(void)
{
    struct timespec t;
    clock_gettime(CLOCK_THREAD_CPUTIME_ID, &t);
    return (double)t.tv_sec * 1e9 + (double)t.tv_nsec;
}

static struct outcome scratch;

static double time_round(const struct timing_case *c, const struct library *library, unsigned passes)
{
    double start = now();
    for (unsigned pass = 0; pass < passes; pass++)
        for (size_t i = 0; i < INPUTS; i++)
            c->ask(library, &inputs[i], &scratch);
    return now() - start;
}

#define SHORTEST_ROUND 1e6
#define TIME_FOR_ONE_CASE 1.2e9
enum { MOST_ROUNDS = 41, FEWEST_ROUNDS = 3 };

/* How many passes make a round long enough for the clock. */
static unsigned passes_of_a_round(const struct timing_case *c, const struct library *library)
{
    unsigned passes = 1;
    while (time_round(c, library, passes) < SHORTEST_ROUND)
        passes *= 2;
    return passes;
}

static void time_case(const struct timing_case *c, const struct library *const timed[], int count, double nanoseconds[])
{
    unsigned passes[LIBRARIES];
    for (int l = 0; l < count; l++) {
        passes[l] = passes_of_a_round(c, timed[l]);
        nanoseconds[l] = 1e300;
    }
    double start = now();
    for (int round = 0; round < FEWEST_ROUNDS || (round < MOST_ROUNDS && now() - start < TIME_FOR_ONE_CASE); round++)
        for (int l = 0; l < count; l++) {
            double each = time_round(c, timed[l], passes[l]) / ((double)passes[l] * INPUTS);
            if (each < nanoseconds[l])
                nanoseconds[l] = each;
        }
}

static void print_nanoseconds(double x) { printf(x < 99.95 ? " %.1f |" : " %.0f |", x); }

static void print_compared(double archive, double other)
{
    double ratio = archive / other;
    print_nanoseconds(other);
    printf(ratio < 99.5 ? " %.2f |" : " %.0f |", ratio);
}

static void print_case(const struct timing_case *c, const double nanoseconds[])
{
    printf("| %s%s%s |", c->function, c->over[0] != '\0' ? ", " : "", c->over);
    if (c->buckets > 0)
        printf(" %zu |", c->buckets);
    else
        printf(" |");
    print_nanoseconds(nanoseconds[ARCHIVE]);
    print_compared(nanoseconds[ARCHIVE], nanoseconds[PLAIN]);
    if (c->named)
        print_compared(nanoseconds[ARCHIVE], nanoseconds[NAMED]);
    else
        printf(" | |");
    printf("\n");
    fflush(stdout);
}

static bool print_times(void)
{
    printf("| function | buckets | archive, ns | best plain C, ns | archive / plain | named form in C, ns | archive / named |\n");
    printf("|---|---:|---:|---:|---:|---:|---:|\n");
    for (size_t k = 0; k < CASES; k++) {
        double nanoseconds[LIBRARIES];
        make_inputs(&cases[k]);
        if (!all_agree(&cases[k]))
            return false;
        time_case(&cases[k], libraries, cases[k].named ? LIBRARIES : NAMED, nanoseconds);
        print_case(&cases[k], nanoseconds);
    }
    return true;
}

/* What a call costs that does nothing: it is in every time. */
static void print_idle_time(void)
{
    const struct library *const idle[] = { &idle_library };
    const struct timing_case *c = &cases[0];
    double nanoseconds[1];
    make_inputs(c);
    time_case(c, idle, 1, nanoseconds);
    printf("\nA call that does nothing takes %.1f ns here, which is in every time above.\n", nanoseconds[0]);
}

/*
 * Stack. It is what a function takes beyond a call that does nothing, the most over some inputs of all its cases.
 */

enum { STACK_INPUTS = 16 };

struct one_call {
    const struct timing_case *of;
    const struct library *library;
    const struct input *input;
};

static void call_once(const void *what)
{
    const struct one_call *call = what;
    call->of->ask(call->library, call->input, &scratch);
}

static size_t stack_of(const struct timing_case *c, const struct library *library)
{
    size_t most = 0;
    for (size_t i = 0; i < STACK_INPUTS; i++) {
        struct one_call call = { c, library, &inputs[i] }, idle = { c, &idle_library, &inputs[i] };
        size_t touched = stack_touched(call_once, &call), by_itself = stack_touched(call_once, &idle);
        if (touched > by_itself && touched - by_itself > most)
            most = touched - by_itself;
    }
    return most;
}

static void print_stacks(void)
{
    printf("\n| function | archive, bytes of stack | best plain C | named form in C |\n|---|---:|---:|---:|\n");
    for (size_t k = 0; k < CASES;) {
        size_t most[LIBRARIES] = { 0 };
        const struct timing_case *first = &cases[k];
        for (; k < CASES && strcmp(cases[k].function, first->function) == 0; k++) {
            make_inputs(&cases[k]);
            for (int l = 0; l < LIBRARIES; l++) {
                size_t bytes = answers(l, &cases[k]) ? stack_of(&cases[k], libraries[l]) : 0;
                most[l] = bytes > most[l] ? bytes : most[l];
            }
        }
        printf("| %s | %zu | %zu |", first->function, most[ARCHIVE], most[PLAIN]);
        if (first->named)
            printf(" %zu |\n", most[NAMED]);
        else
            printf(" |\n");
    }
}

/* With the word "stack" only what each function takes of the stack. */
int main(int count, char *words[])
{
    if (count == 2 && strcmp(words[1], "stack") == 0) {
        print_stacks();
        return 0;
    }
    if (!print_times())
        return 1;
    print_idle_time();
    print_stacks();
    return 0;
}
