"""Random lists, servers, files and inputs of routes: good and damaged, long and short. The seed is fixed, so every run is the same."""

import random
from fractions import Fraction
from math import gcd

import curves
import profiles
from rules import (
    BURST_END, CURVE_NUMBERS, EDITIONS, FRAME_END, KINDS_OF, LATENCY_END, MOST_SERVERS, PURE_DELAY, RATE_END, RATE_LATENCY, RAW_NUMBERS,
    TICK_END,
    curve_list, pure_delay, rate_latency, raw_buckets, raw_list,
)

rng = random.Random(20240611)

# ---- buckets


def small_raw():
    """Few and small numbers: many ties, copies and useless buckets."""
    rates, bursts = rng.choice([(3, 4), (7, 10), (12, 40)])
    return [(rng.randrange(rates), rng.randrange(bursts)) for _ in range(rng.randint(1, 8))]


def steps_to_curve(steps, last_rate, first_burst):
    """The curve whose buckets cross at rise/fall, for steps (rise, fall) of different quotients."""
    steps = sorted(steps, key=lambda step: Fraction(*step))
    rate, burst = last_rate + sum(fall for _, fall in steps), first_burst
    curve = [(rate, burst)]
    for rise, fall in steps:
        rate, burst = rate - fall, burst + rise
        curve.append((rate, burst))
    return curve


def curve_of(count, rise_end, fall_end, quotients=None):
    """A curve in normal form of so many buckets, if the numbers allow so many different crossings."""
    steps = {}
    for _ in range(4 * count):
        if len(steps) == count - 1:
            break
        if quotients:
            numerator, denominator = rng.choice(quotients)
            scale = rng.randint(1, 3)
            rise, fall = numerator * scale, denominator * scale
        else:
            rise, fall = rng.randint(1, rise_end), rng.randint(1, fall_end)
        steps.setdefault(Fraction(rise, fall), (rise, fall))
    return steps_to_curve(steps.values(), 0, 0)


def moved(curve):
    """The curve with every rate and every burst raised by one number each, sometimes as far as the range goes."""
    rate_left, burst_left = RATE_END - 1 - curve[0][0], BURST_END - 1 - curve[-1][1]
    more_rate = rng.choice([0, 0, rng.randrange(5), rate_left, rate_left // 2])
    more_burst = rng.choice([0, 0, rng.randrange(5), burst_left, burst_left // 2])
    return [(rate + min(more_rate, rate_left), burst + min(more_burst, burst_left)) for rate, burst in curve]


def small_curve():
    if rng.random() < 0.5:
        return curves.normal_form(small_raw())
    curve = curve_of(rng.randint(1, 6), *rng.choice([(4, 3), (20, 9), (2**37, 2**17)]))
    return moved(curve) if rng.random() < 0.4 else curve


SHARED = [(p, q) for p in range(1, 12) for q in range(1, 12) if gcd(p, q) == 1]


def large_curve():
    count = rng.choice([rng.randint(20, 64), 63, 64, 64])
    kind = rng.randrange(3)
    if kind == 0:
        curve = curve_of(count, 300, 200)
    elif kind == 1:
        curve = curve_of(count, 2**34 - 1, 2**14 - 1)
    else:
        curve = curve_of(count, 0, 0, SHARED)
    return moved(curve) if rng.random() < 0.4 else curve


def large_raw():
    """Up to 64 buckets of a curve's and others, in any order."""
    raw = large_curve()
    raw = rng.sample(raw, rng.randint(1, len(raw)))
    while len(raw) < 64 and rng.random() < 0.97:
        rate, burst = rng.choice(raw)
        raw.append((min(RATE_END - 1, max(0, rate + rng.randint(-2, 2))), min(BURST_END - 1, max(0, burst + rng.randint(-2, 40)))))
    rng.shuffle(raw)
    return raw


# ---- lists


def damaged(numbers, for_each):
    """One or two things changed that may break a rule, in a list of so many numbers for each bucket."""
    numbers = list(numbers)
    for _ in range(rng.randint(1, 2)):
        place = rng.randrange(len(numbers)) if numbers else 0
        kind = rng.randrange(9)
        if kind == 0:
            numbers = numbers[:place]
        elif kind == 1:
            numbers.append(rng.choice([0, 1, RATE_END]))
        elif kind == 2 and numbers:
            numbers[place] = rng.choice([RATE_END - 1, RATE_END, RATE_END + 1, BURST_END - 1, BURST_END, 2**63, 2**64 - 1])
        elif kind == 3 and numbers:
            numbers[place] = min(2**64 - 1, max(0, numbers[place] + rng.choice([-2, -1, 1, 2])))
        elif kind == 4:
            swapped = [numbers[at:at + for_each] for at in range(0, len(numbers), for_each)]
            rng.shuffle(swapped)
            numbers = sum(swapped, [])
        elif kind == 5:
            numbers = numbers + numbers[-for_each:]
        elif kind == 6:
            numbers = numbers[for_each:] + numbers[:for_each]
        elif kind == 7 and rng.random() < 0.5:
            most = 64 * for_each
            numbers = (numbers * (most + 3))[: rng.randint(most - 2, most + 3)]
        elif kind == 8 and rng.random() < 0.2:
            numbers = []
    return numbers


def as_raw(raw, chance):
    """A raw list, damaged with some chance."""
    numbers = raw_list(raw)
    return damaged(numbers, RAW_NUMBERS) if rng.random() < chance else numbers


def as_curve(curve, chance):
    """A curve's list, damaged with some chance."""
    numbers = curve_list(curve)
    return damaged(numbers, CURVE_NUMBERS) if rng.random() < chance else numbers


# ---- numbers


def tick(chance):
    ends = [0, 1, 2, rng.randrange(200), rng.randrange(TICK_END), TICK_END - 1]
    return rng.choice([TICK_END, 2**64 - 1] if rng.random() < chance else ends)


def link(curve, chance):
    """A link's rate and longest frame, which often have something to do with the curve: a rate at or between its rates; a frame at or
    beside one of its bursts, or with which the link just touches the curve where two buckets meet, or just does not. One of the two is
    out of range with some chance."""
    place = rng.randrange(len(curve))
    (before, lower), (after, higher) = curve[max(place - 1, 0)], curve[place]
    rates = [1, 2, rng.randint(1, 20), before, (before + after + 1) // 2, after, curve[0][0] + 1, rng.randrange(RATE_END), RATE_END - 1]
    rate = min(RATE_END - 1, max(1, rng.choice(rates)))
    crossing = Fraction(higher - lower, before - after) if before > after else Fraction(0)
    touching = int(before * crossing + lower - rate * crossing)
    frames = [0, 0, 1, rng.randint(0, 20), higher + rng.randint(-1, 1), touching + rng.randint(-1, 1), rng.randrange(FRAME_END)]
    frame = min(FRAME_END - 1, max(0, rng.choice(frames + [FRAME_END - 1])))
    if rng.random() < chance:
        return rng.choice([[rng.choice([0, RATE_END, 2**64 - 1]), frame], [rate, rng.choice([FRAME_END, 2**64 - 1])]])
    return [rate, frame]


def clamped(rate, latency, kind=RATE_LATENCY):
    """A server in range; the rate is left out where it only delays."""
    latency = min(LATENCY_END - 1, max(0, latency))
    return pure_delay(latency) if kind == PURE_DELAY else rate_latency(min(RATE_END - 1, max(1, rate)), latency)


def server_kind():
    return PURE_DELAY if rng.random() < 0.35 else RATE_LATENCY


def server_for(curve, kind=None):
    """A server in range that has something to do with the curve: a rate at or beside one of its rates, a latency at or beside one of
    its crossings, or one with which the last burst just fits, or does not. Where no kind is asked for some only delay."""
    (last_rate, last_burst), (some_rate, _) = curve[-1], rng.choice(curve)
    rates = [last_rate, last_rate + 1, last_rate - 1, some_rate, some_rate + rng.randint(-1, 1), curve[0][0] + 1]
    rates += [(some_rate + last_rate + 1) // 2, rng.randint(1, 12), rng.randrange(1, RATE_END), RATE_END - 1]
    crossing = Fraction(0)
    if len(curve) > 1:
        place = rng.randrange(1, len(curve))
        crossing = Fraction(curve[place][1] - curve[place - 1][1], curve[place - 1][0] - curve[place][0])
    fits = (BURST_END - 1 - last_burst) // max(1, last_rate)
    latencies = [0, 0, 1, rng.randint(0, 20), int(crossing) + rng.randint(-1, 2), fits + rng.randint(0, 1)]
    latencies += [rng.randrange(LATENCY_END), LATENCY_END - 1]
    return clamped(rng.choice(rates), rng.choice(latencies), kind or server_kind())


def any_server(kind=None):
    latency = rng.choice([0, 1, rng.randint(0, 20), LATENCY_END // 2, LATENCY_END // 2 - 1, rng.randrange(LATENCY_END), LATENCY_END - 1])
    return clamped(rng.choice([1, 2, rng.randint(1, 12), rng.randrange(1, RATE_END), RATE_END - 1]), latency, kind or server_kind())


def port(server, chance):
    """The numbers of a server, one of them out of range with some chance: for one that only delays a rate is."""
    if rng.random() < chance:
        beyond = [RATE_END, RATE_END + 1, 2**63, 2**64 - 1]
        rates = [1, server.latency + 1, RATE_END - 1] if server.kind == PURE_DELAY else [0]
        server = rng.choice([server._replace(rate=rng.choice(rates + beyond)), server._replace(latency=rng.choice(beyond)),
                             server._replace(kind=no_kind())])
    return list(server)


def no_kind():
    """No server's kind, though some have the low bits of one."""
    low_bits = rng.choice([RATE_LATENCY, PURE_DELAY])
    return rng.choice([0, 1, 4, rng.randint(4, 20), 2**8 + low_bits, 2**32 + low_bits, 2**63 + low_bits, 2**64 - 1])


def edition(chance):
    """An edition, with some chance one that there is not."""
    if rng.random() < chance:
        return rng.choice([0, 3, rng.randint(3, 15), 16, 17, 18, 2**8 + 1, 2**8 + 2, 2**32 + 1, 2**32 + 2, 2**63 + 2, 2**64 - 1])
    return rng.choice(EDITIONS)


# ---- files


def flipped(file, bit):
    return file[:bit // 8] + bytes([file[bit // 8] ^ (128 >> bit % 8)]) + file[bit // 8 + 1:]


def server_file(server):
    """In some edition that has it."""
    return profiles.server_file(rng.choice([edition for edition in EDITIONS if server.kind in KINDS_OF[edition]]), server)


def curve_file(curve):
    return profiles.curve_file(rng.choice(EDITIONS), curve)


def good_file(curve):
    return server_file(any_server()) if rng.random() < 0.4 else curve_file(curve)


def of_unsorted(curve):
    """A curve's file with its buckets in another order."""
    mixed = list(curve)
    rng.shuffle(mixed)
    return curve_file(mixed)


def with_other_header(file):
    """With another edition, which may be the other that there is, with another kind, or both."""
    edition, kind = file[0] >> 4, file[0] & 15
    edition = rng.choice([edition, edition ^ 3, rng.randrange(16)])
    kind = rng.choice([kind, kind, rng.randrange(16)])
    return bytes([edition << 4 | kind]) + file[1:]


def damaged_delay():
    """A file of a server that only delays, in an edition that has none, with padding bits, too short or too long."""
    file = profiles.server_file(rng.choice([1, 2, 2, 2]), clamped(0, any_server().latency, PURE_DELAY))
    kind = rng.randrange(3)
    if kind == 0:
        return file[:-1] + bytes([file[-1] | rng.randrange(16)])
    if kind == 1:
        return (file + rng.choice([bytes(8), rng.randbytes(8)]))[:rng.randrange(9)]
    return file


def damaged_file(file, curve):
    kind = rng.randrange(12)
    if kind <= 2 and file:
        return flipped(file, rng.randrange(8 * len(file)))
    if kind == 3 and file:
        return flipped(file, 8 * len(file) - rng.randint(1, 6))
    if kind == 4:
        return file[:rng.randrange(len(file) + 1)]
    if kind == 5:
        return file + rng.choice([b"\0", file[:1], file, rng.randbytes(rng.randint(1, 20))])
    if kind == 6:
        return file[:2] + rng.randbytes(max(0, len(file) - 2))
    if kind == 7:
        return rng.randbytes(rng.randint(0, 30))
    if kind == 8:
        return of_unsorted(curve)
    if kind == 9:
        return damaged_delay()
    if kind == 10 and file:
        return with_other_header(file)
    return server_file(rate_latency(0, rng.randrange(LATENCY_END)))


def some_file(curve, chance):
    file = good_file(curve)
    return damaged_file(file, curve) if rng.random() < chance else file


# ---- inputs of routes


def route_servers(curve, count):
    """Servers of which most take the curve and its successors, with latencies that leave room for more."""
    servers = []
    for _ in range(count):
        server = server_for(curve)
        chance = rng.random()
        if chance < 0.9:
            latency = rng.choice([server.latency, rng.randint(0, 9)]) % (LATENCY_END // 16)
            server = clamped(max(server.rate, curve[-1][0]), latency, server.kind)
        elif chance < 0.93:
            # Too slow and too late at once, if the curve and the kind allow it.
            server = clamped(curve[-1][0] - 1, LATENCY_END - 1, server.kind)
        servers.append(server)
    return servers


def out_of_place(place, curve):
    """A profile of the other kind, sometimes cut short."""
    file = curve_file(curve) if place else server_file(any_server())
    return file if rng.random() < 0.4 else file[:rng.randint(1, len(file))]


def route_input(curve, chance):
    count = rng.choice([1, 1, 2, 2, 3, 4, 5, rng.randint(6, MOST_SERVERS), MOST_SERVERS, MOST_SERVERS + 1])
    parts = [curve_file(curve)] + [server_file(server) for server in route_servers(curve, count)]
    if rng.random() < chance:
        place = rng.choice([0, rng.randrange(len(parts)), rng.randrange(len(parts))])
        wrong_kind = rng.random() < 0.25
        parts[place] = out_of_place(place, curve) if wrong_kind else damaged_file(parts[place], curve)
        if rng.random() < 0.4:
            del parts[place + 1:]
    return b"".join(parts)
