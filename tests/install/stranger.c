/* A program as a customer's programmer writes it from the headers alone; good for C11 and for C++17. */
#include <inttypes.h>
#include <stdio.h>

#include <duchrelin.h>
#include <duchrelin_words.h>

static int report(const uint64_t *curve, size_t numbers, uint64_t kind, uint64_t rate, uint64_t latency)
{
    duchrelin_figure delay = duchrelin_delay(curve, numbers, kind, rate, latency);
    if (delay.code == DUCHRELIN_ANSWERED) {
        printf("%s: %" PRIu64 " ticks\n", duchrelin_kind_name(kind), delay.figure);
        return 0;
    }
    printf("%s: %s\n", duchrelin_code_name(delay.code), duchrelin_code_meaning(delay.code));
    return 1;
}

int main(void)
{
    const uint64_t raw[] = {3, 20, 10, 2, 5, 15};
    uint64_t curve[DUCHRELIN_CURVE_NUMBERS];
    duchrelin_answer normal = duchrelin_normalise(raw, sizeof raw / sizeof raw[0], curve, DUCHRELIN_CURVE_NUMBERS);
    size_t numbers = (size_t)(DUCHRELIN_BUCKET_NUMBERS * normal.count);
    if (normal.code != DUCHRELIN_ANSWERED)
        return 2;
    int answered = report(curve, numbers, DUCHRELIN_KIND_RATE_LATENCY, 6, 4) == 0;
    answered = report(curve, numbers, DUCHRELIN_KIND_PURE_DELAY, 0, 4) == 0 && answered;
    return report(curve, numbers, DUCHRELIN_KIND_RATE_LATENCY, 2, 4) == 1 && answered ? 0 : 1;
}
