"""The operations on curves by their definitions, written from the rules alone, with exact fractions.

Nothing here follows how the library works: a bucket is useful if it alone is lowest at some positive time, and the times at which it
lies below another are an open interval of fractions.
"""

from fractions import Fraction
from functools import lru_cache

from rules import (
    COUNT, CURVE_NUMBERS, FORM, FRAME_END, LARGE, LIST, MOST_BUCKETS, RANGE, RATE_END, RAW_NUMBERS, TICK_END,
    Exact, bucket_in_range, curve_buckets, curve_list, raw_buckets,
)


def value(curve, time):
    """The least of rate * time + burst."""
    return min(rate * time + burst for rate, burst in curve)


def useful(bucket, others):
    """Whether the open interval of positive times at which the bucket lies strictly below every different one is not empty."""
    rate, burst = bucket
    start, start_over = 0, 1  # the interval's ends are the fractions start/start_over and end/end_over
    end, end_over = 1, 0  # (1/0: no end)
    for other_rate, other_burst in others:
        rise, fall = burst - other_burst, other_rate - rate  # they cross at rise/fall
        if fall > 0:
            if rise * start_over > start * fall:
                start, start_over = rise, fall
        elif fall < 0:
            if rise * end_over > end * fall:  # -rise/-fall is below end/end_over
                end, end_over = -rise, -fall
        elif rise > 0:
            return False
        if end * start_over <= start * end_over:
            return False
    return True


@lru_cache(maxsize=8)
def normal_form_of_set(different):
    different = sorted(different)
    # The order in which the others are seen changes no answer. Far apart ones first end most searches early.
    step = max(1, len(different) // 16)
    others = [bucket for first in range(step) for bucket in different[first::step]]
    return sorted((bucket for bucket in different if useful(bucket, others)), reverse=True)


def normal_form(raw):
    """The useful buckets, each once, by falling rates."""
    return normal_form_of_set(frozenset(raw))


def normal_form_by_trial(raw):
    """The normal form found another way, to try the one above: who is strictly lowest at a time between any two crossings?"""
    different = set(raw)
    times = sorted({Fraction(0)} | crossings(different))
    between = [(first + second) / 2 for first, second in zip(times, times[1:])] + [times[-1] + 1]
    found = set()
    for time in between:
        least = value(different, time)
        lowest = [(rate, burst) for rate, burst in different if rate * time + burst == least]
        if len(lowest) == 1:
            found.add(lowest[0])
    return sorted(found, reverse=True)


def crossings(some_buckets):
    """The positive times at which any two of the buckets cross."""
    times = set()
    for r, b in some_buckets:
        for s, c in some_buckets:
            if r > s and c > b:
                times.add(Fraction(c - b, r - s))
    return times


@lru_cache(maxsize=8)
def in_normal_form(curve):
    falling = all(above[0] > below[0] for above, below in zip(curve, curve[1:]))
    return falling and len(curve) > 0 and all(useful(bucket, curve) for bucket in curve)


# ---- refusals


def list_refusals(numbers, for_each, some_buckets):
    lines = set()
    if len(numbers) == 0 or len(numbers) % for_each != 0:
        lines.add(LIST)
    if len(some_buckets) > MOST_BUCKETS:
        lines.add(COUNT)
    if not all(map(bucket_in_range, some_buckets)):
        lines.add(RANGE)
    return lines


def raw_refusals(numbers):
    """Every line of the table that a raw list breaks."""
    return list_refusals(numbers, RAW_NUMBERS, raw_buckets(numbers))


def curve_refusals(numbers):
    """The same of a curve, which is in normal form."""
    curve = curve_buckets(numbers)
    lines = list_refusals(numbers, CURVE_NUMBERS, curve)
    if not in_normal_form(tuple(curve)):
        lines.add(FORM)
    return lines


def curve_answer(refusals, raw):
    """The answer of a question that asks for the normal form of some raw buckets, worked out only where nothing is refused."""
    if refusals:
        return Exact(refusals, (0,))
    answer = normal_form(raw())
    large = len(answer) > MOST_BUCKETS or not all(map(bucket_in_range, answer))
    return Exact({LARGE} if large else set(), (len(answer),), curve_list(answer))


# ---- the questions


def normalise(raw):
    return curve_answer(raw_refusals(raw), lambda: raw_buckets(raw))


def value_at(curve, tick):
    """The curve's value; in no time nothing comes."""
    lines = curve_refusals(curve) | (set() if tick < TICK_END else {RANGE})
    return Exact(lines, (0 if lines or tick == 0 else value(curve_buckets(curve), tick),))


def burst_of(curve):
    """The smallest burst."""
    lines = curve_refusals(curve)
    return Exact(lines, (0 if lines else min(burst for _, burst in curve_buckets(curve)),))


def lower(f, g):
    return curve_answer(curve_refusals(f) | curve_refusals(g), lambda: curve_buckets(f) + curve_buckets(g))


def sum_of(f, g):
    pairs = lambda: [(r + s, b + c) for r, b in curve_buckets(f) for s, c in curve_buckets(g)]
    return curve_answer(curve_refusals(f) | curve_refusals(g), pairs)


def shape(curve, rate, frame):
    link = set() if 1 <= rate < RATE_END and frame < FRAME_END else {RANGE}
    return curve_answer(curve_refusals(curve) | link, lambda: curve_buckets(curve) + [(rate, frame)])
