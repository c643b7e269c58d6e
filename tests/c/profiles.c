/*
 * The profile file: read, write_curve and write_server. Files are built bit after bit, and what reading one must give is worked out
 * here from the rules, field after field, without the library.
 */
#include "harness.h"

#include <inttypes.h>
#include <stdio.h>
#include <string.h>

enum { EDITION_BITS = 4, KIND_BITS = 4, COUNT_BITS = 6, RATE_BITS = 20, BURST_BITS = 40, LATENCY_BITS = 20 };
enum { HEADER_BITS = EDITION_BITS + KIND_BITS, CURVE_START = HEADER_BITS + COUNT_BITS, BUCKET_BITS = RATE_BITS + BURST_BITS };
enum { PORT_BYTES = 6, DELAY_BYTES = 4, LONGEST = 482 };

/* ---- files, built bit after bit */

void put(builder *b, unsigned width, uint64_t number)
{
    for (unsigned left = width; left > 0; left--, b->bits++) {
        uint8_t mask = (uint8_t)(0x80 >> b->bits % 8);
        if (b->bits % 8 == 0)
            b->bytes[b->bits / 8] = 0;
        if (number >> (left - 1) & 1)
            b->bytes[b->bits / 8] |= mask;
    }
}

/* Zero bits up to the byte's end. */
static void pad(builder *b)
{
    while (b->bits % 8 != 0)
        put(b, 1, 0);
}

void put_curve(builder *b, unsigned edition, list curve)
{
    size_t buckets = curve.count / DUCHRELIN_BUCKET_NUMBERS;
    put(b, EDITION_BITS, edition);
    put(b, KIND_BITS, DUCHRELIN_KIND_CURVE);
    put(b, COUNT_BITS, buckets - 1);
    for (size_t k = 0; k < buckets; k++) {
        put(b, RATE_BITS, curve.numbers[RATE_OF(k)]);
        put(b, BURST_BITS, curve.numbers[BURST_OF(k)]);
    }
    pad(b);
}

void put_server(builder *b, unsigned edition, server s)
{
    put(b, EDITION_BITS, edition);
    put(b, KIND_BITS, s.kind);
    if (s.kind == DUCHRELIN_KIND_RATE_LATENCY)
        put(b, RATE_BITS, s.rate);
    put(b, LATENCY_BITS, s.latency);
    pad(b);
}

file built(const builder *b) { return (file){b->bytes, b->bits / 8}; }

static builder curve_file(unsigned edition, list curve)
{
    builder b = {.bits = 0};
    put_curve(&b, edition, curve);
    return b;
}

static builder server_file(unsigned edition, server s)
{
    builder b = {.bits = 0};
    put_server(&b, edition, s);
    return b;
}

/* The first edition that has such a server. */
static unsigned first_edition(server s) { return s.kind == DUCHRELIN_KIND_PURE_DELAY ? DELAY_EDITION : 1; }

/* ---- what reading must give */

static uint64_t field(file f, size_t at, unsigned width)
{
    uint64_t number = 0;
    for (size_t bit = at; bit < at + width; bit++)
        number = 2 * number + (f.bytes[bit / 8] >> (7 - bit % 8) & 1);
    return number;
}

typedef struct {
    uint64_t rate, burst;
} bucket;

/* Whether a/b is less than c/d; x/0 is without end. */
static int less(uint64_t a, uint64_t b, uint64_t c, uint64_t d)
{
    __extension__ typedef unsigned __int128 wide;
    return (wide)a * d < (wide)c * b;
}

/* Whether there is a positive time, after low/low_by and before high/high_by, at which bucket k lies strictly below every other. */
static int useful(const bucket *curve, size_t count, size_t k)
{
    uint64_t low = 0, low_by = 1, high = 1, high_by = 0;
    bucket c = curve[k];
    for (size_t i = 0; i < count; i++) {
        bucket o = curve[i];
        if (i == k)
            continue;
        if (o.rate == c.rate && o.burst <= c.burst)
            return 0;
        if (o.rate > c.rate && c.burst > o.burst && less(low, low_by, c.burst - o.burst, o.rate - c.rate)) {
            low = c.burst - o.burst;
            low_by = o.rate - c.rate;
        }
        if (o.rate < c.rate && o.burst <= c.burst)
            return 0;
        if (o.rate < c.rate && less(o.burst - c.burst, c.rate - o.rate, high, high_by)) {
            high = o.burst - c.burst;
            high_by = c.rate - o.rate;
        }
    }
    return less(low, low_by, high, high_by);
}

static int in_normal_form(const bucket *curve, size_t count)
{
    for (size_t k = 0; k < count; k++)
        if ((k > 0 && curve[k].rate >= curve[k - 1].rate) || !useful(curve, count, k))
            return 0;
    return 1;
}

static outcome curve_read(file f)
{
    static list read;
    bucket curve[64];
    uint64_t pairs[2 * 64];
    if (f.count < 2)
        return refusal(DUCHRELIN_LENGTH);
    size_t count = field(f, HEADER_BITS, COUNT_BITS) + 1, bits = CURVE_START + BUCKET_BITS * count;
    if (f.count != (bits + 7) / 8)
        return refusal(DUCHRELIN_LENGTH);
    if (field(f, bits, (unsigned)(8 * f.count - bits)) != 0)
        return refusal(DUCHRELIN_PAD);
    for (size_t k = 0; k < count; k++) {
        curve[k].rate = pairs[2 * k] = field(f, CURVE_START + BUCKET_BITS * k, RATE_BITS);
        curve[k].burst = pairs[2 * k + 1] = field(f, CURVE_START + BUCKET_BITS * k + RATE_BITS, BURST_BITS);
    }
    if (!in_normal_form(curve, count))
        return refusal(DUCHRELIN_FORM);
    /* One list, used again for every file. */
    if (read.numbers == NULL)
        read.numbers = room_for(DUCHRELIN_CURVE_NUMBERS);
    read.count = curve_into((uint64_t *)read.numbers, (list){pairs, 2 * count});
    uint64_t edition = field(f, 0, EDITION_BITS);
    return (outcome){0, {edition, DUCHRELIN_KIND_CURVE, count, 0, 0}, read.numbers, read.count * sizeof(uint64_t)};
}

static outcome port_read(file f)
{
    if (f.count != PORT_BYTES)
        return refusal(DUCHRELIN_LENGTH);
    uint64_t rate = field(f, HEADER_BITS, RATE_BITS), latency = field(f, HEADER_BITS + RATE_BITS, LATENCY_BITS);
    if (rate == 0)
        return refusal(DUCHRELIN_RANGE);
    return (outcome){0, {field(f, 0, EDITION_BITS), DUCHRELIN_KIND_RATE_LATENCY, 0, rate, latency}, NULL, 0};
}

static outcome delay_read(file f)
{
    if (f.count != DELAY_BYTES)
        return refusal(DUCHRELIN_LENGTH);
    if (field(f, HEADER_BITS + LATENCY_BITS, 8 * DELAY_BYTES - HEADER_BITS - LATENCY_BITS) != 0)
        return refusal(DUCHRELIN_PAD);
    uint64_t latency = field(f, HEADER_BITS, LATENCY_BITS);
    return (outcome){0, {field(f, 0, EDITION_BITS), DUCHRELIN_KIND_PURE_DELAY, 0, 0, latency}, NULL, 0};
}

/* With room for every curve. */
static outcome must_read(file f)
{
    if (f.count == 0)
        return refusal(DUCHRELIN_HEADER);
    switch (field(f, 0, HEADER_BITS)) {
    case 0x11: case 0x21:
        return curve_read(f);
    case 0x12: case 0x22:
        return port_read(f);
    case 0x23:
        return delay_read(f);
    default:
        return refusal(DUCHRELIN_HEADER);
    }
}

/* How often each code was expected of a file that is not written out here. */
static unsigned expected_codes[DUCHRELIN_ROOM + 1];

static void reads_as_the_rules_say(file f)
{
    outcome expected = must_read(f);
    expected_codes[expected.code]++;
    gives(read_file(f), expected);
}

static void codes_came_up(const char *name, uint64_t codes)
{
    for (uint64_t code = 0; code <= DUCHRELIN_ROOM; code++)
        check((codes >> code & 1) == (expected_codes[code] > 0), name);
    memset(expected_codes, 0, sizeof expected_codes);
}

#define CODES(...) codes_of((const int[]){__VA_ARGS__}, sizeof((const int[]){__VA_ARGS__}) / sizeof(int))

static uint64_t codes_of(const int *codes, size_t count)
{
    uint64_t set = 0;
    for (size_t i = 0; i < count; i++)
        set |= UINT64_C(1) << codes[i];
    return set;
}

/* ---- reading */

/* Refused with room and with none. */
static void read_refuses(const char *name, file f, uint64_t code)
{
    test(name);
    check(must_read(f).code == code, "the rules say another code");
    refuses(read_file(f), code);
}

/* In each edition; which one it was is told. */
static void reads_curve(const char *name, list curve)
{
    size_t count = curve.count / DUCHRELIN_BUCKET_NUMBERS;
    test(name);
    for (unsigned edition = 1; edition <= EDITIONS; edition++) {
        builder b = curve_file(edition, curve);
        outcome expected = {0, {edition, DUCHRELIN_KIND_CURVE, count, 0, 0}, curve.numbers, curve.count * sizeof(uint64_t)};
        gives(read_file(built(&b)), expected);
    }
}

/* In each edition that has it: with an output list that may not be touched, and with none. */
static void reads_server(const char *name, server s)
{
    test(name);
    for (unsigned edition = first_edition(s); edition <= EDITIONS; edition++) {
        builder b = server_file(edition, s);
        outcome expected = {0, {edition, s.kind, 0, s.rate, s.latency}, NULL, 0};
        question asked = read_file(built(&b));
        gives(asked, expected);
        asked.untouched = 1;
        gives(asked, expected);
        asked.room = 0;
        gives(asked, expected);
    }
}

static void reading_curves(void)
{
    reads_curve("read C", C);
    reads_curve("read {(0,0)}", CURVE(0, 0));
    reads_curve("read numbers at their ends", CURVE(RATE_END - 1, BURST_END - 1));
    reads_curve("read P3's curve", CURVE(10, 0, 4, 2, 0, 5));
    reads_curve("read 64 buckets", full_stairs());
    test("read every count of buckets");
    for (unsigned edition = 1; edition <= EDITIONS; edition++)
        for (size_t count = 1; count <= 64; count++) {
            builder b = curve_file(edition, stairs(63, 0, 1, count));
            check(built(&b).count == (60 * count + 21) / 8, "a file of n buckets has (60n+21)/8 bytes, rounded down");
            reads_as_the_rules_say(built(&b));
        }
    codes_came_up("all are read", CODES(0));
}

static void reading_servers(void)
{
    reads_server("read the server (1,0), the output untouched", PORT(1, 0));
    reads_server("read the server (6,1), the output untouched", PORT(6, 1));
    reads_server("read the server (2^20-1,2^20-1), the output untouched", PORT(RATE_END - 1, LATENCY_END - 1));
    read_refuses("read a server of rate 0", FILE_OF(0x12, 0x00, 0x00, 0x00, 0x00, 0x01), 6);
    read_refuses("read a server of rate 0, latency 2^20-1", FILE_OF(0x12, 0x00, 0x00, 0x0f, 0xff, 0xff), 6);
    read_refuses("read a server of rate 0 in edition 2", FILE_OF(0x22, 0x00, 0x00, 0x00, 0x00, 0x01), 6);

    reads_server("read a delay of 0, the output untouched", PURE_DELAY(0));
    reads_server("read a delay of 2^20-1, the output untouched", PURE_DELAY(LATENCY_END - 1));
    test("read a delay of each power of 2");
    for (uint64_t latency = 1; latency < LATENCY_END; latency *= 2)
        reads_server("read a delay of each power of 2", PURE_DELAY(latency));
    read_refuses("read a delay in edition 1", FILE_OF(0x13, 0x00, 0x00, 0x50), 1);
    read_refuses("read a delay in edition 3", FILE_OF(0x33, 0x00, 0x00, 0x50), 1);
    read_refuses("read a delay in edition 1, a padding bit: HEADER before PAD", FILE_OF(0x13, 0x00, 0x00, 0x51), 1);
    read_refuses("read a delay in edition 1, of a server's length", FILE_OF(0x13, 0x00, 0x00, 0x60, 0x00, 0x01), 1);
    read_refuses("read a delay of a server's length", FILE_OF(0x23, 0x00, 0x00, 0x60, 0x00, 0x01), 2);
    read_refuses("read a server of a delay's length", FILE_OF(0x22, 0x00, 0x00, 0x50), 2);
}

static void reading_any_header(void)
{
    read_refuses("read an empty file", EMPTY, 1);
    read_refuses("read a curve's first byte alone", FILE_OF(0x11), 2);
    read_refuses("read a server's first byte alone", FILE_OF(0x12), 2);
    read_refuses("read a delay's first byte alone", FILE_OF(0x23), 2);
    test("read every first byte, alone and with more behind it");
    for (unsigned first = 0; first < 256; first++)
        for (size_t count = 1; count <= 17; count++) {
            uint8_t bytes[17] = {(uint8_t)first};
            reads_as_the_rules_say((file){bytes, count});
        }
    /* Zeros after 0x11 and 0x21 are the curve {(0,0)}, after 0x12 and 0x22 a server of rate 0, after 0x23 a delay of 0. */
    codes_came_up("read, or refused by HEADER, LENGTH or RANGE", CODES(0, 1, 2, 6));

    test("read every second byte");
    for (unsigned edition = 1; edition <= EDITIONS; edition++)
        for (unsigned second = 0; second < 256; second++) {
            uint8_t bytes[17] = {(uint8_t)(edition << 4 | DUCHRELIN_KIND_CURVE), (uint8_t)second};
            reads_as_the_rules_say((file){bytes, 2});
            reads_as_the_rules_say((file){bytes, 10});
            reads_as_the_rules_say((file){bytes, 17});
        }
    codes_came_up("read, or refused by LENGTH or FORM", CODES(0, 2, 7));
}

/* The file of a list in each edition, with these padding bits. */
static void body_refuses(const char *name, list curve, uint8_t padding, uint64_t code)
{
    for (unsigned edition = 1; edition <= EDITIONS; edition++) {
        builder b = curve_file(edition, curve);
        b.bytes[built(&b).count - 1] |= padding;
        read_refuses(name, built(&b), code);
    }
}

static void bodies(void)
{
    body_refuses("read a curve that is not in normal form", CURVE(3, 20, 10, 2), 0, 7);
    body_refuses("read, PAD before FORM", CURVE(3, 20, 10, 2), 1, 3);
    body_refuses("read a curve with a useless bucket", CURVE(4, 0, 3, 1, 2, 2), 0, 7);
    body_refuses("read a curve with one bucket twice", CURVE(10, 2, 10, 2), 0, 7);
    builder longer_file = curve_file(1, C);
    put(&longer_file, 8, 0xff);
    read_refuses("read, LENGTH before PAD", built(&longer_file), 2);
}

static void padding_of_curves(unsigned edition)
{
    testf("read, each padding bit of every count of buckets, edition %u", edition);
    for (size_t count = 1; count <= 64; count++) {
        builder b = curve_file(edition, stairs(63, 0, 1, count));
        file f = built(&b);
        for (size_t bit = CURVE_START + BUCKET_BITS * count; bit < 8 * f.count; bit++) {
            b.bytes[bit / 8] ^= (uint8_t)(0x80 >> bit % 8);
            check(must_read(f).code == DUCHRELIN_PAD, "the rules say PAD");
            refuses(read_file(f), DUCHRELIN_PAD);
            b.bytes[bit / 8] ^= (uint8_t)(0x80 >> bit % 8);
        }
    }
}

/* A delay's last byte ends in four padding bits: each of them, and all that they can hold together. */
static void padding_of_delays(void)
{
    const uint64_t latencies[] = {0, 5, LATENCY_END / 2, LATENCY_END - 1};
    test("read, each padding bit of a delay");
    for (size_t i = 0; i < sizeof latencies / sizeof *latencies; i++)
        for (unsigned padding = 1; padding < 16; padding++) {
            builder b = server_file(DELAY_EDITION, PURE_DELAY(latencies[i]));
            b.bytes[DELAY_BYTES - 1] |= (uint8_t)padding;
            check(must_read(built(&b)).code == DUCHRELIN_PAD, "the rules say PAD");
            refuses(read_file(built(&b)), DUCHRELIN_PAD);
        }
    read_refuses("read a delay and a byte, a padding bit: LENGTH before PAD", FILE_OF(0x23, 0x00, 0x00, 0x51, 0x00), 2);
    read_refuses("read a delay without its last byte", FILE_OF(0x23, 0x00, 0x0f), 2);
}

static void room(void)
{
    test("room for read");
    for (unsigned edition = 1; edition <= EDITIONS; edition++) {
        builder one = curve_file(edition, CURVE(10, 2)), two = curve_file(edition, C), all = curve_file(edition, full_stairs());
        gives_by_room(read_file(built(&one)), must_read(built(&one)), 0, DUCHRELIN_BUCKET_NUMBERS + 3);
        gives_by_room(read_file(built(&two)), must_read(built(&two)), 0, 2 * DUCHRELIN_BUCKET_NUMBERS + 3);
        gives_by_room(read_file(built(&all)), must_read(built(&all)), 0, DUCHRELIN_CURVE_NUMBERS + 3);
    }
}

/* ---- damaged files */

/* Each bit of a good file, flipped. */
static void flips(const char *name, builder b, uint64_t codes)
{
    file f = built(&b);
    testf("read %s with each bit flipped, edition %d", name, f.bytes[0] >> KIND_BITS);
    for (size_t bit = 0; bit < 8 * f.count; bit++) {
        b.bytes[bit / 8] ^= (uint8_t)(0x80 >> bit % 8);
        reads_as_the_rules_say(f);
        b.bytes[bit / 8] ^= (uint8_t)(0x80 >> bit % 8);
    }
    codes_came_up("the codes that flipping one bit can give", codes);
}

/* Each length of a good file from nothing to over the longest, with such bytes behind it. */
static void lengths(builder b, uint8_t behind)
{
    size_t good = built(&b).count;
    memset(b.bytes + good, behind, sizeof b.bytes - good);
    for (size_t count = 0; count <= LONGEST + 8; count++) {
        uint64_t code = count == 0 ? DUCHRELIN_HEADER : count == good ? 0 : DUCHRELIN_LENGTH;
        check(must_read((file){b.bytes, count}).code == code, "the rules say HEADER, LENGTH or nothing");
        reads_as_the_rules_say((file){b.bytes, count});
    }
    codes_came_up("read at one length", CODES(0, 1, 2));
}

static uint64_t random_state = 20240923;

static uint64_t random_below(uint64_t end)
{
    random_state = random_state * UINT64_C(6364136223846793005) + UINT64_C(1442695040888963407);
    return (random_state >> 33) % end;
}

static size_t bits_of(uint64_t kind, size_t buckets)
{
    if (kind == DUCHRELIN_KIND_CURVE)
        return CURVE_START + BUCKET_BITS * buckets;
    return HEADER_BITS + LATENCY_BITS + (kind == DUCHRELIN_KIND_RATE_LATENCY ? RATE_BITS : 0);
}

/* A header, and then as many bits as it asks for, of which few are 1 where `set` is large; every other time no padding bit is. */
static builder random_file(unsigned edition, uint64_t kind, size_t buckets, uint64_t set)
{
    builder b = {.bits = 0};
    size_t bits = bits_of(kind, buckets);
    put(&b, EDITION_BITS, edition);
    put(&b, KIND_BITS, kind);
    if (kind == DUCHRELIN_KIND_CURVE)
        put(&b, COUNT_BITS, buckets - 1);
    if (random_below(2) == 0)
        bits = (bits + 7) / 8 * 8;
    while (b.bits < bits)
        put(&b, 1, set == 0 ? random_below(2) : random_below(16 * set) == 0);
    pad(&b);
    return b;
}

/* Random bytes under a header of each kind and edition, few of them other than 0, so that some are read. */
static void random_bodies(void)
{
    test("read random bytes under a header");
    for (unsigned i = 0; i < 10000; i++) {
        size_t buckets = 1 + (size_t)random_below(i % 16 == 0 ? 64 : 4);
        uint64_t kind = random_below(8);
        if (kind != DUCHRELIN_KIND_RATE_LATENCY && kind != DUCHRELIN_KIND_PURE_DELAY)
            kind = DUCHRELIN_KIND_CURVE;
        builder b = random_file(1 + (unsigned)random_below(EDITIONS), kind, buckets, random_below(4));
        reads_as_the_rules_say(built(&b));
    }
    /* A delay in edition 1 is HEADER. */
    codes_came_up("read, or refused by HEADER, PAD, RANGE or FORM", CODES(0, 1, 3, 6, 7));
}

static void flipped_bits(void)
{
    for (unsigned edition = 1; edition <= EDITIONS; edition++) {
        flips("{(10,2)}", curve_file(edition, CURVE(10, 2)), CODES(0, 1, 2, 3));
        flips("C", curve_file(edition, C), CODES(0, 1, 2, 3, 7));
        flips("P3's curve", curve_file(edition, CURVE(10, 0, 4, 2, 0, 5)), CODES(0, 1, 2, 3, 7));
        flips("64 buckets", curve_file(edition, full_stairs()), CODES(0, 1, 2, 3, 7));
    }
    /* One bit of the kind away from a server is a kind 0, 3, 6 or 10; edition 2 has 3, with another length. The rate 1 has one bit. */
    flips("the server (6,1)", server_file(1, PORT(6, 1)), CODES(0, 1));
    flips("the server (1,7)", server_file(1, PORT(1, 7)), CODES(0, 1, 6));
    flips("the server (6,1)", server_file(2, PORT(6, 1)), CODES(0, 1, 2));
    flips("the server (1,7)", server_file(2, PORT(1, 7)), CODES(0, 1, 2, 6));
    /* One bit of the kind away from a delay are a curve and a server, which have other lengths. */
    flips("a delay of 5", server_file(2, PURE_DELAY(5)), CODES(0, 1, 2, 3));
    flips("a delay of 0", server_file(2, PURE_DELAY(0)), CODES(0, 1, 2, 3));
}

static void other_lengths(void)
{
    for (unsigned edition = 1; edition <= EDITIONS; edition++) {
        testf("read every length of the server (6,1), edition %u", edition);
        lengths(server_file(edition, PORT(6, 1)), 0);
        lengths(server_file(edition, PORT(6, 1)), 0xff);
        testf("read every length of C, edition %u", edition);
        lengths(curve_file(edition, C), 0);
        lengths(curve_file(edition, C), 0x12);
        testf("read every length of each count of buckets, edition %u", edition);
        for (size_t count = 1; count <= 64; count += count < 8 || count > 56 ? 1 : 7)
            lengths(curve_file(edition, stairs(63, 0, 1, count)), (uint8_t)count);
    }
    test("read every length of a delay of 5");
    lengths(server_file(DELAY_EDITION, PURE_DELAY(5)), 0);
    lengths(server_file(DELAY_EDITION, PURE_DELAY(5)), 0xff);
    test("read every length of a delay in edition 1");
    builder early = server_file(1, PURE_DELAY(5));
    for (size_t count = 0; count <= 20; count++)
        refuses(read_file((file){early.bytes, count}), DUCHRELIN_HEADER);
}

static void damage(void)
{
    flipped_bits();
    other_lengths();
    test("read with each byte behind a good file");
    for (unsigned last = 0; last < 256; last++) {
        builder files[] = {curve_file(1, C), curve_file(2, C), server_file(1, PORT(6, 1)), server_file(2, PORT(6, 1)),
                           server_file(2, PURE_DELAY(5))};
        for (size_t i = 0; i < sizeof files / sizeof *files; i++) {
            put(&files[i], 8, last);
            refuses(read_file(built(&files[i])), DUCHRELIN_LENGTH);
        }
    }
    builder both = curve_file(1, C), delays = server_file(DELAY_EDITION, PURE_DELAY(2));
    put_server(&both, 1, PORT(6, 1));
    put_server(&delays, DELAY_EDITION, PURE_DELAY(3));
    read_refuses("read two profiles in one file", built(&both), 2);
    read_refuses("read two delays in one file", built(&delays), 2);
    random_bodies();
}

/* ---- writing */

static void writes_server(unsigned edition, server s)
{
    builder b = server_file(edition, s);
    gives(write_server(edition, s), file_answer(built(&b)));
}

static void writing(unsigned edition)
{
    testf("write every count of buckets, edition %u", edition);
    for (size_t count = 1; count <= 64; count++) {
        list curve = stairs(63, 0, 1, count);
        builder b = curve_file(edition, curve);
        gives(write_curve(edition, curve), file_answer(built(&b)));
    }
    testf("write numbers at their ends, edition %u", edition);
    list ends = CURVE(RATE_END - 1, 0, 0, BURST_END - 1);
    builder b = curve_file(edition, ends);
    gives(write_curve(edition, ends), file_answer(built(&b)));
    testf("write servers at their ends, edition %u", edition);
    writes_server(edition, PORT(1, 0));
    writes_server(edition, PORT(RATE_END - 1, LATENCY_END - 1));

    builder one = curve_file(edition, CURVE(10, 2)), two = curve_file(edition, C), all = curve_file(edition, full_stairs());
    testf("room for write_curve, edition %u", edition);
    gives_by_room(write_curve(edition, CURVE(10, 2)), file_answer(built(&one)), 0, 10 + 3);
    gives_by_room(write_curve(edition, C), file_answer(built(&two)), 0, 17 + 3);
    gives_by_room(write_curve(edition, full_stairs()), file_answer(built(&all)), 0, LONGEST + 3);
    builder at = server_file(edition, PORT(6, 1));
    testf("room for write_server, edition %u", edition);
    gives_by_room(write_server(edition, PORT(6, 1)), file_answer(built(&at)), 0, PORT_BYTES + 3);

    test("the longest file has DUCHRELIN_FILE_BYTES");
    check(built(&all).count == DUCHRELIN_FILE_BYTES && built(&all).count == LONGEST, "482 bytes");
}

static void writing_delays(void)
{
    test("write delays at their ends");
    writes_server(DELAY_EDITION, PURE_DELAY(0));
    writes_server(DELAY_EDITION, PURE_DELAY(LATENCY_END - 1));
    test("write a delay of each power of 2");
    for (uint64_t latency = 1; latency < LATENCY_END; latency *= 2)
        writes_server(DELAY_EDITION, PURE_DELAY(latency));
    builder b = server_file(DELAY_EDITION, PURE_DELAY(LATENCY_END - 2));
    test("room for write_server, of a delay");
    gives_by_room(write_server(DELAY_EDITION, PURE_DELAY(LATENCY_END - 2)), file_answer(built(&b)), 0, DELAY_BYTES + 3);
}

/* Whatever is to be written, in an edition that is none it is HEADER. */
static void no_edition(uint64_t edition)
{
    const server servers[] = {PORT(6, 1), PURE_DELAY(5), PORT(0, 1), PORT(6, LATENCY_END), PURE_DELAY(LATENCY_END),
                              SERVER(DUCHRELIN_KIND_PURE_DELAY, 6, 1), SERVER(DUCHRELIN_KIND_CURVE, 6, 1), SERVER(4, 0, 0),
                              SERVER(MOST, MOST, MOST)};
    const list lists[] = {C, NONE, stairs(64, 0, 1, 65), CURVE(RATE_END, 0), CURVE(3, 20, 10, 2)};
    testf("no edition: %" PRIu64, edition);
    for (size_t i = 0; i < sizeof servers / sizeof *servers; i++)
        refuses(write_server(edition, servers[i]), DUCHRELIN_HEADER);
    for (size_t i = 0; i < sizeof lists / sizeof *lists; i++)
        refuses(write_curve(edition, lists[i]), DUCHRELIN_HEADER);
}

static void editions(void)
{
    const uint64_t far[] = {16, 17, 18, 0x101, 0x102, 0x10001, 0x10002, (UINT64_C(1) << 32) + 1, (UINT64_C(1) << 32) + 2,
                            (UINT64_C(1) << 63) + 1, (UINT64_C(1) << 63) + 2, MOST - 1, MOST};
    no_edition(0);
    for (uint64_t edition = EDITIONS + 1; edition < 16; edition++)
        no_edition(edition);
    for (size_t i = 0; i < sizeof far / sizeof *far; i++)
        no_edition(far[i]);
    test("write a delay in edition 1");
    refuses(write_server(1, PURE_DELAY(0)), DUCHRELIN_HEADER);
    refuses(write_server(1, PURE_DELAY(5)), DUCHRELIN_HEADER);
    refuses(write_server(1, PURE_DELAY(LATENCY_END - 1)), DUCHRELIN_HEADER);
    test("write a delay in edition 1, HEADER before RANGE");
    refuses(write_server(1, PURE_DELAY(LATENCY_END)), DUCHRELIN_HEADER);
    refuses(write_server(1, SERVER(DUCHRELIN_KIND_PURE_DELAY, 6, 1)), DUCHRELIN_HEADER);
    refuses(write_server(1, SERVER(DUCHRELIN_KIND_PURE_DELAY, MOST, MOST)), DUCHRELIN_HEADER);
}

/* An output that is a part of a table: of numbers for the reader, of bytes for the writer. */
static void parts(void)
{
    enum { PART = 3, TABLE = 40 };
    uint64_t numbers[TABLE], numbers_before[TABLE];
    uint8_t bytes[TABLE], bytes_before[TABLE];
    builder b = curve_file(2, C), at = server_file(2, PURE_DELAY(5));
    file f = built(&b), of_delay = built(&at);
    list curve = C;
    for (size_t i = 0; i < TABLE; i++) {
        numbers[i] = numbers_before[i] = MOST - i;
        bytes[i] = bytes_before[i] = (uint8_t)(0xff - i);
    }
    test("read into a part of a table");
    duchrelin_profile read = duchrelin_read(f.bytes, f.count, numbers + PART, curve.count + 1);
    memcpy(numbers_before + PART, curve.numbers, curve.count * sizeof(uint64_t));
    check(read.code == 0 && read.edition == 2 && read.kind == DUCHRELIN_KIND_CURVE && read.count == 2, "a curve of 2 buckets");
    check(memcmp(numbers, numbers_before, sizeof numbers) == 0, "the table with the answer in it");
    test("write into a part of a table");
    duchrelin_written written = duchrelin_write_curve(2, curve.numbers, curve.count, bytes + PART, f.count + 1);
    memcpy(bytes_before + PART, f.bytes, f.count);
    check(written.code == 0 && written.bytes == f.count, "17 bytes");
    check(memcmp(bytes, bytes_before, sizeof bytes) == 0, "the table with the answer in it");
    test("write a delay into a part of a table");
    written = duchrelin_write_server(2, DUCHRELIN_KIND_PURE_DELAY, 0, 5, bytes + PART, f.count + 1);
    memcpy(bytes_before + PART, of_delay.bytes, of_delay.count);
    check(written.code == 0 && written.bytes == of_delay.count, "4 bytes");
    check(memcmp(bytes, bytes_before, sizeof bytes) == 0, "the table with the new answer over the start of the one before");
}

void profile_tests(void)
{
    reading_curves();
    reading_servers();
    reading_any_header();
    for (unsigned edition = 1; edition <= EDITIONS; edition++)
        padding_of_curves(edition);
    padding_of_delays();
    bodies();
    room();
    damage();
    for (unsigned edition = 1; edition <= EDITIONS; edition++)
        writing(edition);
    writing_delays();
    editions();
    parts();
}
