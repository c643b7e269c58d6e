/*
 * The codes and kinds of duchrelin.h in words, so that every screen says the same. Each function takes any number and answers a
 * text that is never NULL and stays as long as the program runs. Nothing here needs the library: the header is all there is.
 *
 *     duchrelin_answer answer = duchrelin_behind(curve, numbers, DUCHRELIN_KIND_RATE_LATENCY, rate, latency, out,
 *                                                DUCHRELIN_CURVE_NUMBERS);
 *     if (answer.code != DUCHRELIN_ANSWERED)
 *         fprintf(stderr, "%s: %s %s\n", duchrelin_code_name(answer.code), duchrelin_code_meaning(answer.code),
 *                 duchrelin_code_advice(answer.code));
 *
 * prints, for traffic that is too fast for the port,
 *
 *     UNBOUNDED: In the long run the traffic is faster than the port, so what waits grows for ever and no delay holds. Pick a ...
 */
#ifndef DUCHRELIN_WORDS_H
#define DUCHRELIN_WORDS_H

#include <stdint.h>

#include "duchrelin.h"

#ifdef __cplusplus
extern "C" {
#endif

/* The name of a code, as in duchrelin.h without DUCHRELIN_: "ANSWERED", "HEADER" .. "ROOM". */
static inline const char *duchrelin_code_name(uint64_t code)
{
    switch (code) {
    case DUCHRELIN_ANSWERED: return "ANSWERED";
    case DUCHRELIN_HEADER: return "HEADER";
    case DUCHRELIN_LENGTH: return "LENGTH";
    case DUCHRELIN_PAD: return "PAD";
    case DUCHRELIN_LIST: return "LIST";
    case DUCHRELIN_COUNT: return "COUNT";
    case DUCHRELIN_RANGE: return "RANGE";
    case DUCHRELIN_FORM: return "FORM";
    case DUCHRELIN_UNBOUNDED: return "UNBOUNDED";
    case DUCHRELIN_LARGE: return "LARGE";
    case DUCHRELIN_ROOM: return "ROOM";
    default: return "NO CODE";
    }
}

/* What a code means: whole sentences, good to be read out to a caller. */
static inline const char *duchrelin_code_meaning(uint64_t code)
{
    switch (code) {
    case DUCHRELIN_ANSWERED:
        return "Answered: the figures are exact.";
    case DUCHRELIN_HEADER:
        return "The file is empty or does not begin as a profile does; or, in a route, it is a port where traffic is due, or the "
               "reverse; or it was to be written in an edition that does not have its kind.";
    case DUCHRELIN_LENGTH:
        return "The file is shorter or longer than what it says it holds.";
    case DUCHRELIN_PAD:
        return "The unused bits at the end of the file are not all zero.";
    case DUCHRELIN_LIST:
        return "The list of buckets is empty, or it ends in the middle of a bucket.";
    case DUCHRELIN_COUNT:
        return "There are more than 64 buckets, or more than 32 ports in a route.";
    case DUCHRELIN_RANGE:
        return "A number is too large, a port's or a link's rate is 0, or a rate is asked of a device that only delays.";
    case DUCHRELIN_FORM:
        return "The buckets are out of order, or there is one among them that never limits the traffic.";
    case DUCHRELIN_UNBOUNDED:
        return "In the long run the traffic is faster than the port, so what waits grows for ever and no delay holds.";
    case DUCHRELIN_LARGE:
        return "The exact answer has more than 64 buckets, or a rate, burst or latency that is too large to be written down.";
    case DUCHRELIN_ROOM:
        return "The program that asked gave too little room for the answer.";
    default:
        return "This number is no code of the library.";
    }
}

/* What to do about a code: whole sentences, good to be read out to a caller. */
static inline const char *duchrelin_code_advice(uint64_t code)
{
    switch (code) {
    case DUCHRELIN_ANSWERED:
        return "Write the figures down.";
    case DUCHRELIN_HEADER:
        return "Ask whoever uploaded the file for a profile of edition 1 or 2; a device that only delays needs edition 2. In a route, "
               "name the traffic first and the ports after it.";
    case DUCHRELIN_LENGTH:
        return "Part of it was lost or something was added on the way: fetch it again, or ask whoever uploaded it to send it again.";
    case DUCHRELIN_PAD:
        return "The file is damaged or was not made by our writer: fetch it again, or ask whoever uploaded it to write it again.";
    case DUCHRELIN_LIST:
        return "Give a rate and a burst for every bucket, and at least one bucket.";
    case DUCHRELIN_COUNT:
        return "Leave buckets out, which keeps the figures on the safe side, or plan the route in two parts.";
    case DUCHRELIN_RANGE:
        return "Put the number right: rates and latencies go up to 1048575, bursts, frames and ticks up to 1099511627775, and the rate "
               "of a port or a link starts at 1. A device that only delays has no rate, and what other traffic leaves of it cannot "
               "be asked.";
    case DUCHRELIN_FORM:
        return "Ask whoever uploaded the profile to write it again with our writer. A program passes the list through "
               "duchrelin_normalise first.";
    case DUCHRELIN_UNBOUNDED:
        return "Pick a faster port, or traffic with a smaller rate in the long run.";
    case DUCHRELIN_LARGE:
        return "Pick traffic with fewer buckets or smaller bursts, or a way with less latency.";
    case DUCHRELIN_ROOM:
        return "The profile is not to blame: report it to whoever wrote the program. DUCHRELIN_CURVE_NUMBERS numbers have room for "
               "every curve, DUCHRELIN_FILE_BYTES bytes for every file.";
    default:
        return "Report it to whoever wrote the program.";
    }
}

/* What a profile of this kind describes: "traffic" for a curve, "port" for a server with a rate, "delay" for one that only delays. */
static inline const char *duchrelin_kind_name(uint64_t kind)
{
    switch (kind) {
    case DUCHRELIN_KIND_CURVE: return "traffic";
    case DUCHRELIN_KIND_RATE_LATENCY: return "port";
    case DUCHRELIN_KIND_PURE_DELAY: return "delay";
    default: return "no kind";
    }
}

#ifdef __cplusplus
}
#endif

#endif
