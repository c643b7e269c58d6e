#define _DEFAULT_SOURCE
#include "harness.h"

#include <inttypes.h>
#include <signal.h>
#include <stdarg.h>
#include <stdio.h>
#include <stdlib.h>
#include <string.h>
#include <sys/mman.h>
#include <unistd.h>

_Static_assert(DUCHRELIN_RATE_END == RATE_END && DUCHRELIN_LATENCY_END == LATENCY_END && DUCHRELIN_BURST_END == BURST_END
                   && DUCHRELIN_TICK_END == TICK_END && DUCHRELIN_FRAME_END == FRAME_END,
               "the header has the ends of the ranges");
_Static_assert(DUCHRELIN_KIND_CURVE == 1 && DUCHRELIN_KIND_RATE_LATENCY == 2 && DUCHRELIN_KIND_PURE_DELAY == 3,
               "the header has the kinds");

/* ---- tests */

static unsigned passed, failed;
static char current[160];
static unsigned wrong, calls;

/* The calls of a test are told where they are many. */
enum { MANY_CALLS = 200 };

static void end_test(void)
{
    if (current[0] == '\0')
        return;
    if (wrong != 0) {
        failed++;
        printf("FAILED %s\n", current);
    } else {
        passed++;
    }
    if (calls >= MANY_CALLS)
        printf("%s: %u calls\n", current, calls);
    current[0] = '\0';
    wrong = calls = 0;
}

void test(const char *name)
{
    if (strcmp(name, current) == 0)
        return;
    end_test();
    snprintf(current, sizeof current, "%s", name);
}

void testf(const char *format, ...)
{
    char name[sizeof current];
    va_list arguments;
    va_start(arguments, format);
    vsnprintf(name, sizeof name, format, arguments);
    va_end(arguments);
    test(name);
}

/* The first few things that are wrong are told. */
enum { TOLD = 10 };

static int note_wrong(void) { return wrong++ < TOLD; }

int check(int holds, const char *what)
{
    if (!holds && note_wrong())
        printf("  %s: %s\n", current, what);
    return holds;
}

int conclude(void)
{
    end_test();
    printf("%u passed, %u failed\n", passed, failed);
    fflush(stdout);
    return failed != 0;
}

static void give_up(const char *why)
{
    printf("%s\n0 passed, 1 failed\n", why);
    exit(1);
}

/* A touch of a page that is not the call's ends the run, as a failure of the test at hand. */
static void fault(int signal_number)
{
    printf("  %s: signal %d, memory outside the lists was touched\n", current, signal_number);
    wrong++;
    conclude();
    _exit(1);
}

/* ---- guarded pages */

enum { PAGE_BYTES = 4096 };
enum side { AT_END, AT_START, AS_NULL, SIDES };

/* One page between two that cannot be touched, and what it must hold after the call. */
typedef struct {
    uint8_t *page;
    uint8_t expected[PAGE_BYTES];
    void *at;
    size_t offset;
} lent;

static lent first, second, input, output;

/* Never small, so that no number of guard bytes is one that an answer has. */
static uint8_t guard_byte(size_t place) { return (uint8_t)(0x80 | (place * 37 + place / 128) % 128); }

static void make_page(lent *l)
{
    uint8_t *three = mmap(NULL, 3 * PAGE_BYTES, PROT_NONE, MAP_PRIVATE | MAP_ANONYMOUS, -1, 0);
    if (three == MAP_FAILED || sysconf(_SC_PAGESIZE) != PAGE_BYTES)
        give_up("no pages of 4096 bytes to lend");
    l->page = three + PAGE_BYTES;
}

static void make_pages(void)
{
    static char stack[1 << 16];
    stack_t own = {.ss_sp = stack, .ss_size = sizeof stack};
    struct sigaction on_fault = {.sa_handler = fault, .sa_flags = SA_ONSTACK};
    if (first.page != NULL)
        return;
    sigaltstack(&own, NULL);
    sigaction(SIGSEGV, &on_fault, NULL);
    sigaction(SIGBUS, &on_fault, NULL);
    make_page(&first);
    make_page(&second);
    make_page(&input);
    make_page(&output);
}

static void protect(const lent *l, int how)
{
    if (mprotect(l->page, PAGE_BYTES, how) != 0)
        give_up("a page cannot be protected");
}

/* Lends so many bytes against one side of a page: guard bytes all over it, then what is given, if anything. */
static void lend(lent *l, const void *given, size_t bytes, enum side side)
{
    if (bytes > PAGE_BYTES)
        give_up("a list of the test is longer than a page");
    protect(l, PROT_READ | PROT_WRITE);
    for (size_t i = 0; i < PAGE_BYTES; i++)
        l->expected[i] = guard_byte(i);
    l->offset = side == AT_END ? PAGE_BYTES - bytes : 0;
    if (given != NULL)
        memcpy(l->expected + l->offset, given, bytes);
    memcpy(l->page, l->expected, PAGE_BYTES);
    l->at = side == AS_NULL && bytes == 0 ? NULL : l->page + l->offset;
}

static void lend_operand(lent *l, const void *given, size_t bytes, enum side side)
{
    lend(l, given, bytes, side);
    protect(l, PROT_READ);
}

static void holds(const lent *l, const char *which)
{
    if (memcmp(l->page, l->expected, PAGE_BYTES) == 0)
        return;
    for (size_t i = 0; i < PAGE_BYTES; i++)
        if (l->page[i] != l->expected[i]) {
            if (note_wrong())
                printf("  %s: %s: byte %ld is %u and not %u\n", current, which, (long)i - (long)l->offset, l->page[i], l->expected[i]);
            return;
        }
}

/* ---- calls */

/* What an output is made of. */
static size_t out_unit(enum call call)
{
    switch (call) {
    case NORMALISE: case LOWER: case SUM: case SHAPE: case BEHIND: case READ:
        return sizeof(uint64_t);
    case WRITE_CURVE: case WRITE_SERVER: case ROUTE:
        return sizeof(uint8_t);
    default:
        return 0;
    }
}

static outcome of_answer(duchrelin_answer a) { return (outcome){a.code, {a.count}, NULL, 0}; }
static outcome of_figure(duchrelin_figure a) { return (outcome){a.code, {a.figure}, NULL, 0}; }
static outcome of_server(duchrelin_server a) { return (outcome){a.code, {a.kind, a.rate, a.latency}, NULL, 0}; }
static outcome of_written(duchrelin_written a) { return (outcome){a.code, {a.bytes}, NULL, 0}; }
static outcome of_profile(duchrelin_profile a)
{
    return (outcome){a.code, {a.edition, a.kind, a.count, a.rate, a.latency}, NULL, 0};
}

/* The one place that calls the library. */
static outcome ask(question q)
{
    const uint64_t *f = first.at, *g = second.at;
    const uint8_t *bytes = input.at;
    uint64_t *out = output.at;
    uint8_t *buffer = output.at;
    server s = q.server, next = q.next;
    switch (q.call) {
    case NORMALISE:
        return of_answer(duchrelin_normalise(f, q.f.count, out, q.room));
    case VALUE:
        return of_figure(duchrelin_value(f, q.f.count, q.number));
    case BURST:
        return of_figure(duchrelin_burst(f, q.f.count));
    case LOWER:
        return of_answer(duchrelin_lower(f, q.f.count, g, q.g.count, out, q.room));
    case SUM:
        return of_answer(duchrelin_sum(f, q.f.count, g, q.g.count, out, q.room));
    case SHAPE:
        return of_answer(duchrelin_shape(f, q.f.count, q.number, q.frame, out, q.room));
    case JOIN:
        return of_server(duchrelin_join(s.kind, s.rate, s.latency, next.kind, next.rate, next.latency));
    case BEHIND:
        return of_answer(duchrelin_behind(f, q.f.count, s.kind, s.rate, s.latency, out, q.room));
    case BACKLOG:
        return of_figure(duchrelin_backlog(f, q.f.count, s.kind, s.rate, s.latency));
    case DELAY:
        return of_figure(duchrelin_delay(f, q.f.count, s.kind, s.rate, s.latency));
    case RESIDUAL:
        return of_server(duchrelin_residual(s.kind, s.rate, s.latency, f, q.f.count));
    case READ:
        return of_profile(duchrelin_read(bytes, q.file.count, out, q.room));
    case WRITE_CURVE:
        return of_written(duchrelin_write_curve(q.edition, f, q.f.count, buffer, q.room));
    case WRITE_SERVER:
        return of_written(duchrelin_write_server(q.edition, s.kind, s.rate, s.latency, buffer, q.room));
    default:
        return of_written(duchrelin_route(bytes, q.file.count, buffer, q.room));
    }
}

static void same(const char *what, uint64_t got, uint64_t expected)
{
    if (got != expected && note_wrong())
        printf("  %s: %s %" PRIu64 " and not %" PRIu64 "\n", current, what, got, expected);
}

/* Whether a list, file or output that the call takes is empty, so that its pointer may be NULL. */
static int lends_nothing(question q)
{
    int lists = q.call != JOIN && q.call != READ && q.call != WRITE_SERVER && q.call != ROUTE;
    int second_list = q.call == LOWER || q.call == SUM;
    int files = q.call == READ || q.call == ROUTE;
    return (lists && q.f.count == 0) || (second_list && q.g.count == 0) || (files && q.file.count == 0) ||
           (out_unit(q.call) != 0 && q.room == 0);
}

void gives(question q, outcome expected)
{
    size_t unit = out_unit(q.call);
    enum side end = lends_nothing(q) ? SIDES : AS_NULL;
    make_pages();
    for (enum side side = AT_END; side < end; side++) {
        lend_operand(&first, q.f.numbers, q.f.count * sizeof(uint64_t), side);
        lend_operand(&second, q.g.numbers, q.g.count * sizeof(uint64_t), side);
        lend_operand(&input, q.file.bytes, q.file.count, side);
        lend(&output, NULL, q.room * unit, side);
        if (q.untouched)
            protect(&output, PROT_NONE);
        outcome got = ask(q);
        if (q.untouched)
            protect(&output, PROT_READ);
        calls++;
        if (expected.output_bytes > 0)
            memcpy(output.expected + output.offset, expected.output, expected.output_bytes);
        same("code", got.code, expected.code);
        for (size_t i = 0; i < FIGURES; i++)
            same("figure", got.figures[i], expected.figures[i]);
        holds(&first, "first list");
        holds(&second, "second list");
        holds(&input, "file");
        holds(&output, "output");
    }
}

static question with_room(question q, size_t room)
{
    q.room = room;
    return q;
}

void refuses(question q, uint64_t code)
{
    outcome refused = refusal(code);
    if (q.call == JOIN || q.call == RESIDUAL)
        refused.figures[0] = DUCHRELIN_KIND_RATE_LATENCY;
    gives(q, refused);
    if (out_unit(q.call) != 0)
        gives(with_room(q, 0), refusal(code));
}

void gives_by_room(question q, outcome expected, size_t from, size_t to)
{
    size_t unit = out_unit(q.call);
    for (size_t room = from; room <= to; room++)
        gives(with_room(q, room), room * unit < expected.output_bytes ? refusal(DUCHRELIN_ROOM) : expected);
}

/* ---- outcomes */

outcome refusal(uint64_t code) { return (outcome){code, {0}, NULL, 0}; }
outcome figure(uint64_t number) { return (outcome){0, {number}, NULL, 0}; }
outcome server_answer(server s) { return (outcome){0, {s.kind, s.rate, s.latency}, NULL, 0}; }
outcome file_answer(file f) { return (outcome){0, {f.count}, f.bytes, f.count}; }

outcome curve_answer(list l)
{
    return (outcome){0, {l.count / DUCHRELIN_BUCKET_NUMBERS}, l.numbers, l.count * sizeof(uint64_t)};
}

/* ---- questions */

question normalise(list raw) { return (question){.call = NORMALISE, .f = raw, .room = PLENTY}; }
question value(list curve, uint64_t tick) { return (question){.call = VALUE, .f = curve, .number = tick}; }
question burst(list curve) { return (question){.call = BURST, .f = curve}; }
question lower(list f, list g) { return (question){.call = LOWER, .f = f, .g = g, .room = PLENTY}; }
question sum(list f, list g) { return (question){.call = SUM, .f = f, .g = g, .room = PLENTY}; }
question shape(list curve, uint64_t rate, uint64_t frame)
{
    return (question){.call = SHAPE, .f = curve, .number = rate, .frame = frame, .room = PLENTY};
}
question join(server s, server next) { return (question){.call = JOIN, .server = s, .next = next}; }
question behind(list curve, server at) { return (question){.call = BEHIND, .f = curve, .server = at, .room = PLENTY}; }
question backlog(list curve, server at) { return (question){.call = BACKLOG, .f = curve, .server = at}; }
question delay(list curve, server at) { return (question){.call = DELAY, .f = curve, .server = at}; }
question residual(server at, list cross) { return (question){.call = RESIDUAL, .f = cross, .server = at}; }
question read_file(file f) { return (question){.call = READ, .file = f, .room = PLENTY}; }
question write_curve(uint64_t edition, list curve)
{
    return (question){.call = WRITE_CURVE, .edition = edition, .f = curve, .room = PLENTY_OF_BYTES};
}
question write_server(uint64_t edition, server s)
{
    return (question){.call = WRITE_SERVER, .edition = edition, .server = s, .room = PLENTY_OF_BYTES};
}
question route(file f) { return (question){.call = ROUTE, .file = f, .room = PLENTY_OF_BYTES}; }

/* ---- lists that last to the end */

uint64_t *room_for(size_t numbers)
{
    static uint64_t memory[1 << 18];
    static size_t used;
    if (numbers > sizeof memory / sizeof *memory - used)
        give_up("the test's own pool of lists is used up");
    used += numbers;
    return memory + used - numbers;
}

uint64_t stair_burst(uint64_t k) { return k * (k + 1) / 2; }

list raw_stairs(uint64_t top, uint64_t from, uint64_t step, size_t buckets)
{
    uint64_t *numbers = room_for(RAW_NUMBERS * buckets);
    for (size_t i = 0; i < buckets; i++) {
        uint64_t k = from + step * i;
        numbers[RAW_NUMBERS * i] = top - k;
        numbers[RAW_NUMBERS * i + 1] = stair_burst(k);
    }
    return (list){numbers, RAW_NUMBERS * buckets};
}

size_t curve_into(uint64_t *numbers, list pairs)
{
    size_t buckets = pairs.count / RAW_NUMBERS;
    for (size_t k = 0; k < buckets; k++) {
        numbers[RATE_OF(k)] = pairs.numbers[RAW_NUMBERS * k];
        numbers[BURST_OF(k)] = pairs.numbers[RAW_NUMBERS * k + 1];
    }
    return DUCHRELIN_BUCKET_NUMBERS * buckets;
}

list curve_of(list pairs)
{
    uint64_t *numbers = room_for(DUCHRELIN_BUCKET_NUMBERS * (pairs.count / RAW_NUMBERS));
    return (list){numbers, curve_into(numbers, pairs)};
}

list stairs(uint64_t top, uint64_t from, uint64_t step, size_t buckets) { return curve_of(raw_stairs(top, from, step, buckets)); }

list full_stairs(void) { return stairs(63, 0, 1, 64); }

list turned(list l)
{
    uint64_t *numbers = room_for(l.count);
    size_t buckets = l.count / DUCHRELIN_BUCKET_NUMBERS;
    for (size_t k = 0; k < buckets; k++)
        memcpy(numbers + RATE_OF(k), l.numbers + RATE_OF(buckets - 1 - k), DUCHRELIN_BUCKET_NUMBERS * sizeof(uint64_t));
    return (list){numbers, l.count};
}

list with(list l, size_t place, uint64_t number)
{
    uint64_t *numbers = room_for(l.count);
    memcpy(numbers, l.numbers, l.count * sizeof(uint64_t));
    numbers[place] = number;
    return (list){numbers, l.count};
}

list longer(list l, size_t more)
{
    uint64_t *numbers = room_for(l.count + more);
    memcpy(numbers, l.numbers, l.count * sizeof(uint64_t));
    memset(numbers + l.count, 0, more * sizeof(uint64_t));
    return (list){numbers, l.count + more};
}
