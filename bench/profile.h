/* The profile file and the text of a route, for plain.c and named.c. */
#ifndef PROFILE_H
#define PROFILE_H

#include "shared.h"

/*
 * The profile file. A curve's buckets begin six bits into its second byte, and two buckets take fifteen bytes to the bit, so
 * every second bucket begins six bits into a byte again: two buckets are taken from sixteen bytes at once, and the last of an
 * odd count from nine.
 */

enum { RATE_LATENCY_BYTES = 6, PURE_DELAY_BYTES = 4, BUCKETS_AT = 1, PAIR_BYTES = 15 };

static inline size_t curve_bytes(size_t count) { return (60 * count + 21) / 8; }

static inline uint64_t eight_bytes(const uint8_t *at)
{
    uint64_t x = 0;
    for (int i = 0; i < 8; i++)
        x = x << 8 | at[i];
    return x;
}

/* Without a loop the compiler sees that this is one store. */
static inline void put_eight_bytes(uint8_t *at, uint64_t x)
{
    at[0] = (uint8_t)(x >> 56);
    at[1] = (uint8_t)(x >> 48);
    at[2] = (uint8_t)(x >> 40);
    at[3] = (uint8_t)(x >> 32);
    at[4] = (uint8_t)(x >> 24);
    at[5] = (uint8_t)(x >> 16);
    at[6] = (uint8_t)(x >> 8);
    at[7] = (uint8_t)x;
}

/* The first bucket from the six bits' end on: its rate and all but two bits of its burst are in the first eight bytes. */
static inline void take_first(uint64_t head, uint64_t two_bits, uint64_t *bucket)
{
    bucket[0] = head >> 38 & (RATE_END - 1);
    bucket[1] = (head << 2 | two_bits) & (BURST_END - 1);
}

static inline void take_buckets(const uint8_t *file, size_t count, uint64_t *curve)
{
    const uint8_t *at = file + BUCKETS_AT;
    size_t i = 0;
    for (; i + 1 < count; i += 2, at += PAIR_BYTES) {
        uint64_t head = eight_bytes(at), tail = eight_bytes(at + 8);
        take_first(head, tail >> 62, curve + 2 * i);
        curve[2 * i + 2] = tail >> 42 & (RATE_END - 1);
        curve[2 * i + 3] = tail >> 2 & (BURST_END - 1);
    }
    if (i < count)
        take_first(eight_bytes(at), at[8] >> 6, curve + 2 * i);
}

static inline void put_buckets(const uint64_t *curve, size_t count, uint8_t *file)
{
    uint8_t *at = file + BUCKETS_AT;
    uint64_t six_bits = count - 1;
    size_t i = 0;
    for (; i + 1 < count; i += 2, at += PAIR_BYTES) {
        uint64_t burst = burst_of(curve, i), next_burst = burst_of(curve, i + 1);
        put_eight_bytes(at, six_bits << 58 | rate_of(curve, i) << 38 | burst >> 2);
        put_eight_bytes(at + 8, burst << 62 | rate_of(curve, i + 1) << 42 | next_burst << 2);
        six_bits = next_burst & 63;
    }
    if (i < count) {
        put_eight_bytes(at, six_bits << 58 | rate_of(curve, i) << 38 | burst_of(curve, i) >> 2);
        at[8] = (uint8_t)(burst_of(curve, i) << 6);
    }
}

static inline size_t count_in(const uint8_t *file) { return (size_t)(file[1] >> 2) + 1; }

static inline uint64_t padding_of(const uint8_t *file, size_t count)
{
    return file[curve_bytes(count) - 1] & (count % 2 != 0 ? 0x3f : 0x03);
}

static inline uint64_t edition_in(const uint8_t *file) { return file[0] >> 4; }
static inline uint64_t kind_in(const uint8_t *file) { return file[0] & 15; }
static inline uint8_t header_of(uint64_t edition, uint64_t kind) { return (uint8_t)(edition << 4 | kind); }

/* Of an edition in which a profile is to be written: edition 1 has no pure delays. */
static inline uint64_t edition_refusal(uint64_t edition, uint64_t kind)
{
    if (edition == 2)
        return 0;
    return edition == 1 && kind != DUCHRELIN_KIND_PURE_DELAY ? 0 : DUCHRELIN_HEADER;
}

static inline uint64_t header_refusal(const uint8_t *file, size_t bytes)
{
    if (bytes == 0 || kind_in(file) < DUCHRELIN_KIND_CURVE || kind_in(file) > DUCHRELIN_KIND_PURE_DELAY)
        return DUCHRELIN_HEADER;
    return edition_refusal(edition_in(file), kind_in(file));
}

static inline size_t server_bytes(uint64_t kind)
{
    return kind == DUCHRELIN_KIND_PURE_DELAY ? PURE_DELAY_BYTES : RATE_LATENCY_BYTES;
}

/* How many bytes the header at the start of some bytes asks for. A curve's count is in its second byte; without that, more
 * bytes than there are. */
static inline size_t bytes_due(const uint8_t *file, size_t bytes)
{
    if (kind_in(file) != DUCHRELIN_KIND_CURVE)
        return server_bytes(kind_in(file));
    return bytes < 2 ? curve_bytes(1) : curve_bytes(count_in(file));
}

static inline uint64_t bytes_after_header(const uint8_t *file, size_t bytes)
{
    uint64_t numbers = 0;
    for (size_t i = 1; i < bytes; i++)
        numbers = numbers << 8 | file[i];
    return numbers;
}

/* The server in a file of the right length, or its refusal. Four bits follow the latency of a pure delay. */
static inline duchrelin_server take_server(const uint8_t *file)
{
    if (kind_in(file) == DUCHRELIN_KIND_PURE_DELAY) {
        uint64_t numbers = bytes_after_header(file, PURE_DELAY_BYTES);
        return (numbers & 15) != 0 ? refused_server(DUCHRELIN_PAD) : server_of(NO_LIMIT, numbers >> 4);
    }
    uint64_t numbers = bytes_after_header(file, RATE_LATENCY_BYTES);
    uint64_t rate = numbers >> 20;
    return rate == 0 ? refused_server(DUCHRELIN_RANGE) : server_of(rate, numbers & (RATE_END - 1));
}

/* A curve file of the right length, its buckets taken to local memory. No field of a curve can be out of range. */
static inline uint64_t take_curve(const uint8_t *file, uint64_t *curve, size_t *count)
{
    *count = count_in(file);
    if (padding_of(file, *count) != 0)
        return DUCHRELIN_PAD;
    take_buckets(file, *count, curve);
    return curve_refusal(curve, 2 * *count);
}

/* The lines of the header and the length, where a curve is due, or a server. What follows the profile is no concern of it. */
static inline uint64_t due_refusal(const uint8_t *input, size_t bytes, bool curve)
{
    uint64_t code = header_refusal(input, bytes);
    if (code != 0)
        return code;
    if ((kind_in(input) == DUCHRELIN_KIND_CURVE) != curve)
        return DUCHRELIN_HEADER;
    return bytes < bytes_due(input, bytes) ? DUCHRELIN_LENGTH : 0;
}

/*
 * The text of a route.
 */

/* The text so far, in local memory: a later refusal takes its place. */
struct text {
    size_t count;
    uint8_t bytes[DUCHRELIN_TEXT_BYTES];
};

static inline void put_word(struct text *text, const char *word)
{
    for (; *word != '\0'; word++)
        text->bytes[text->count++] = (uint8_t)*word;
}

static inline void put_number(struct text *text, uint64_t number)
{
    uint8_t digits[20];
    size_t count = 0;
    do {
        digits[count++] = (uint8_t)('0' + number % 10);
        number /= 10;
    } while (number != 0);
    text->bytes[text->count++] = ' ';
    while (count > 0)
        text->bytes[text->count++] = digits[--count];
}

static inline void put_figures(struct text *text, uint64_t backlog, uint64_t delay)
{
    put_number(text, backlog);
    put_number(text, delay);
    put_word(text, "\n");
}

static inline void put_hop(struct text *text, size_t hop, uint64_t backlog, uint64_t delay)
{
    put_word(text, "hop");
    put_number(text, hop);
    put_figures(text, backlog, delay);
}

static inline void put_route(struct text *text, uint64_t backlog, uint64_t delay)
{
    put_word(text, "route");
    put_figures(text, backlog, delay);
}

static inline void put_refusal(struct text *text, uint64_t code, size_t profile)
{
    text->count = 0;
    put_word(text, "refused");
    put_number(text, code);
    put_word(text, " at");
    put_number(text, profile);
    put_word(text, "\n");
}

static inline duchrelin_written handed_over(const struct text *text, uint8_t *out, size_t out_bytes)
{
    if (out_bytes < text->count)
        return refused_writing(DUCHRELIN_ROOM);
    memcpy(out, text->bytes, text->count);
    return (duchrelin_written){ .code = 0, .bytes = text->count };
}

#endif
