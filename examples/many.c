/*
 * Many devices at one port: their curves added up one after the other, in a thread that has 16 KiB of stack, as on a small box.
 *
 *     many DEVICES
 *
 * Each device turns from a fast bucket to a slow one at a tick of its own. So every device adds a bucket to the sum, and the one
 * with which it would have more than 64 is refused.
 */
#define _POSIX_C_SOURCE 200809L
#include <inttypes.h>
#include <pthread.h>
#include <stdio.h>
#include <stdlib.h>
#include <string.h>

#include "duchrelin.h"

enum { STACK_BYTES = 16 * 1024, FAST = 20, SLOW = 2, FRAME = 8, TICKS = 10 };

/* What is to be added up, and how far it came: the curve so far, and the code of the last sum. */
struct port {
    uint64_t devices, added;
    uint64_t curve[DUCHRELIN_CURVE_NUMBERS];
    duchrelin_answer sum;
};

/* Device k sends a frame of 8 * k bits at once, and is fast for 10 * k ticks. */
static void device(uint64_t k, uint64_t curve[4])
{
    curve[0] = FAST;
    curve[1] = FRAME * k;
    curve[2] = SLOW;
    curve[3] = FRAME * k + (FAST - SLOW) * TICKS * k;
}

static void *add_up(void *work)
{
    struct port *port = work;
    uint64_t next[4], sum[DUCHRELIN_CURVE_NUMBERS];
    device(1, port->curve);
    port->sum = (duchrelin_answer){.code = DUCHRELIN_ANSWERED, .count = 2};
    for (port->added = 1; port->added < port->devices; port->added++) {
        device(port->added + 1, next);
        size_t numbers = DUCHRELIN_BUCKET_NUMBERS * port->sum.count;
        duchrelin_answer answer = duchrelin_sum(port->curve, numbers, next, 4, sum, DUCHRELIN_CURVE_NUMBERS);
        if (answer.code != DUCHRELIN_ANSWERED) {
            port->sum.code = answer.code;
            break;
        }
        port->sum = answer;
        memcpy(port->curve, sum, DUCHRELIN_BUCKET_NUMBERS * answer.count * sizeof *sum);
    }
    return NULL;
}

int main(int argc, char **argv)
{
    struct port port = {.devices = argc == 2 ? strtoull(argv[1], NULL, 10) : 0};
    pthread_attr_t little;
    pthread_t thread;
    if (port.devices == 0) {
        fprintf(stderr, "usage: many DEVICES\n  how many devices send at once, 1 or more\n");
        return 2;
    }
    if (pthread_attr_init(&little) != 0 || pthread_attr_setstacksize(&little, STACK_BYTES) != 0
        || pthread_create(&thread, &little, add_up, &port) != 0 || pthread_join(thread, NULL) != 0) {
        fprintf(stderr, "many: no thread with %d bytes of stack\n", STACK_BYTES);
        return 2;
    }
    const uint64_t *last = port.curve + DUCHRELIN_BUCKET_NUMBERS * (port.sum.count - 1);
    printf("devices: %" PRIu64 ", buckets: %" PRIu64 ", bits at once: %" PRIu64 ", bits a tick in the end: %" PRIu64 "\n",
           port.added, port.sum.count, port.curve[1], last[0]);
    if (port.sum.code != DUCHRELIN_ANSWERED)
        printf("with one more: refused, %" PRIu64 "\n", port.sum.code);
    return 0;
}
