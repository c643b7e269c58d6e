/*
 * Two flows share an uplink: their curves added, shaped by the link, and what can come of them at once and within two ticks.
 *
 *     uplink RATE FRAME
 *
 * RATE is the bits that the link carries in a tick, FRAME the bits of its longest frame: at the far end a frame counts as come when its
 * last bit is in, so the whole of it comes at once. A link that hands on bit by bit has frames of 0.
 */
#include <inttypes.h>
#include <stdio.h>
#include <stdlib.h>

#include "duchrelin.h"

static void show(const char *what, duchrelin_answer answer, const uint64_t *curve)
{
    if (answer.code != DUCHRELIN_ANSWERED) {
        printf("%s: refused, %" PRIu64 "\n", what, answer.code);
        return;
    }
    printf("%s:", what);
    for (uint64_t i = 0; i < answer.count; i++)
        printf(" (%" PRIu64 ",%" PRIu64 ")", curve[DUCHRELIN_BUCKET_NUMBERS * i], curve[DUCHRELIN_BUCKET_NUMBERS * i + 1]);
    printf("\n");
}

int main(int argc, char **argv)
{
    const uint64_t camera[] = {10, 2, 3, 20};
    const uint64_t sensor[] = {4, 0, 2, 2};
    uint64_t both[DUCHRELIN_CURVE_NUMBERS], shaped[DUCHRELIN_CURVE_NUMBERS];
    if (argc != 3) {
        fprintf(stderr, "usage: uplink RATE FRAME\n  the bits that the link carries in a tick, and the bits of its longest frame\n");
        return 2;
    }
    uint64_t rate = strtoull(argv[1], NULL, 10), frame = strtoull(argv[2], NULL, 10);

    duchrelin_answer sum = duchrelin_sum(camera, 4, sensor, 4, both, DUCHRELIN_CURVE_NUMBERS);
    show("camera and sensor", sum, both);

    duchrelin_answer uplink =
        duchrelin_shape(both, DUCHRELIN_BUCKET_NUMBERS * sum.count, rate, frame, shaped, DUCHRELIN_CURVE_NUMBERS);
    show("over the uplink", uplink, shaped);
    if (uplink.code != DUCHRELIN_ANSWERED)
        return 1;

    duchrelin_figure at_once = duchrelin_burst(shaped, DUCHRELIN_BUCKET_NUMBERS * uplink.count);
    duchrelin_figure later = duchrelin_value(shaped, DUCHRELIN_BUCKET_NUMBERS * uplink.count, 2);
    printf("at once: %" PRIu64 " bits, within two ticks: %" PRIu64 " bits\n", at_once.figure, later.figure);
    return 0;
}
