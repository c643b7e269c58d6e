/*
 * Prints what duchrelin_route says of the files named, one after the other: the figures that the screen must agree with.
 * With --link RATE FRAME first, the first file's curve is shaped by that link before.
 */
#include <stdio.h>
#include <stdlib.h>
#include <string.h>

#include "duchrelin.h"

static uint8_t input[DUCHRELIN_INPUT_BYTES];

/* Puts the curve that a link leaves of the one in the input's first `bytes` in its place; answers its bytes, 0 where it is refused. */
static size_t shaped(size_t bytes, uint64_t rate, uint64_t frame)
{
    uint64_t curve[DUCHRELIN_CURVE_NUMBERS], left[DUCHRELIN_CURVE_NUMBERS];
    duchrelin_profile p = duchrelin_read(input, bytes, curve, DUCHRELIN_CURVE_NUMBERS);
    duchrelin_answer a =
        duchrelin_shape(curve, DUCHRELIN_BUCKET_NUMBERS * p.count, rate, frame, left, DUCHRELIN_CURVE_NUMBERS);
    return duchrelin_write_curve(p.edition, left, DUCHRELIN_BUCKET_NUMBERS * a.count, input, sizeof input).bytes;
}

int main(int argc, char **argv)
{
    uint8_t text[DUCHRELIN_TEXT_BYTES];
    size_t count = 0;
    int link = argc > 3 && strcmp(argv[1], "--link") == 0, first = link ? 4 : 1;
    for (int i = first; i < argc; i++) {
        FILE *file = fopen(argv[i], "rb");
        if (file == NULL) {
            perror(argv[i]);
            return 2;
        }
        count += fread(input + count, 1, sizeof input - count, file);
        fclose(file);
        if (link && i == first)
            count = shaped(count, strtoull(argv[2], NULL, 10), strtoull(argv[3], NULL, 10));
    }
    duchrelin_written report = duchrelin_route(input, count, text, sizeof text);
    fwrite(text, 1, report.bytes, stdout);
    return report.code == DUCHRELIN_ANSWERED ? 0 : 2;
}
