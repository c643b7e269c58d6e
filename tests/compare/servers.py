"""The operations that meet a server by their definitions: greatest differences and smallest delays are found by trying ticks.

A difference of a curve's value and of what is served bends only where two buckets cross and where the latency ends. Between two bends
it is a straight line, so over the whole ticks there it is greatest at the first or the last of them; after the last bend it does not
rise, as long as the last rate is not above the server's. So the ticks beside every bend are enough; where they are few, all ticks up
to past the last bend are tried. A server that only delays has served without limit once its latency is over: there the difference is
less than every number.
"""

from fractions import Fraction
from math import ceil, floor, inf

from curves import crossings, curve_answer, curve_refusals, value
from rules import (
    LARGE, NO_SERVER, PURE_DELAY, RANGE, SERVER_NUMBERS, UNBOUNDED,
    Exact, Server, curve_buckets, pure_delay, rate_latency, server_in_range,
)

ALL_TICKS = 20  # up to here all ticks are tried
ALL_PAIRS = 12  # up to so many buckets all crossings are taken
TRIED_ONE_BY_ONE = 8  # up to here all delays are tried


def limit(server):
    """The most bits that it serves in a tick."""
    return inf if server.kind == PURE_DELAY else server.rate


def served(server, time):
    """Nothing up to the latency; after it by the rate, or without limit."""
    return limit(server) * (time - server.latency) if time > server.latency else 0


def bends(curve):
    """Where the curve may bend: the crossings of any two buckets, or of neighbours only where it is long (and in normal form)."""
    if len(curve) <= ALL_PAIRS:
        return crossings(curve)
    return {Fraction(after[1] - before[1], before[0] - after[0]) for before, after in zip(curve, curve[1:])}


def ticks_beside(times):
    """Tick 0 and the whole ticks beside these times; all ticks up to past the last one, where that is not far."""
    last = floor(max(times, default=0)) + 2
    if last <= ALL_TICKS:
        return set(range(last + 1))
    return {0} | {tick for time in times for tick in range(max(0, floor(time) - 1), ceil(time) + 2)}


def readings(curve):
    """The values at the ticks beside every bend of the curve."""
    return {tick: value(curve, tick) for tick in ticks_beside(bends(curve))}


def greatest(curve, read, server, early=0):
    """The greatest of value(t) minus what is served by t + early."""
    ends = {tick: value(curve, tick) for tick in ticks_beside({max(0, server.latency - early)})}
    return max(bits - served(server, tick + early) for tick, bits in (read | ends).items())


# ---- the figures


def backlog(curve, server):
    return greatest(curve, readings(curve), server)


def excess(curve, rate):
    """M, the greatest of value(s) - rate * s."""
    return greatest(curve, readings(curve), rate_latency(rate, 0))


def delay(curve, server):
    if server.kind == PURE_DELAY:
        return infimum_of_delays(curve, server)
    return smallest_delay(curve, server)


def infimum_of_delays(curve, server):
    """Whatever comes leaves within any time above T, and nothing within less: the infimum is T, but 0 where nothing ever comes."""
    return 0 if (0, 0) in curve else server.latency


def smallest_delay(curve, server):
    """The smallest d that suffices: tried from 0 on; past the first few by halving, as more than enough is enough too."""
    read = readings(curve)
    suffices = lambda d: greatest(curve, read, server, d) <= 0
    for d in range(TRIED_ONE_BY_ONE):
        if suffices(d):
            return d
    short, enough = TRIED_ONE_BY_ONE - 1, 2 * TRIED_ONE_BY_ONE
    while not suffices(enough):
        short, enough = enough, 2 * enough
    while enough - short > 1:
        middle = (short + enough) // 2
        short, enough = (short, middle) if suffices(middle) else (middle, enough)
    return enough


def delay_one_by_one(curve, server):
    """The same found by trying every number and all ticks up to past the last bend."""
    end = floor(max(crossings(curve), default=0)) + server.latency + 2
    d = 0
    while any(value(curve, tick) > served(server, tick + d) for tick in range(end)):
        d += 1
    return d


def delay_by_fractions(curve, server, parts):
    """For a server that only delays: the smallest multiple of 1/parts that suffices at all such times, up to past the latency."""
    times = [Fraction(part, parts) for part in range((server.latency + 1) * parts + 1)]
    return next(d for d in times if all(value(curve, time) <= served(server, time + d) for time in times))


def backlog_tick_by_tick(curve, server):
    end = floor(max(crossings(curve), default=0)) + server.latency + 2
    return max(value(curve, tick) - served(server, tick) for tick in range(end))


def behind_raw(curve, server):
    """The raw buckets whose normal form is the curve behind the server."""
    shifted = [(r, b + r * server.latency) for r, b in curve if r <= limit(server)]
    if server.kind == PURE_DELAY:
        return shifted
    return shifted + [(server.rate, server.rate * server.latency + excess(curve, server.rate))]


def join(server, following):
    rate, latency = min(limit(server), limit(following)), server.latency + following.latency
    return pure_delay(latency) if rate == inf else rate_latency(rate, latency)


def served_by_both(server, following, tick):
    """The convolution: the least, over all ticks between, of what one has served by then and the other in the rest of the time."""
    return min(served(server, first) + served(following, tick - first) for first in range(tick + 1))


def residual(server, cross):
    rate, burst = cross[-1]
    return rate_latency(server.rate - rate, server.latency + ceil(Fraction(burst, server.rate)))


# ---- refusals


def server_refusals(server):
    return set() if server_in_range(server) else {RANGE}


def port_refusals(numbers, server):
    """The lines of a curve and a server."""
    lines = curve_refusals(numbers) | server_refusals(server)
    return lines or unbounded(curve_buckets(numbers)[-1][0] > limit(server))


def unbounded(holds):
    return {UNBOUNDED} if holds else set()


def server_answer(refusals, answer):
    """The answer of a question that asks for a server."""
    if refusals:
        return Exact(refusals, NO_SERVER, refused=NO_SERVER)
    server = answer()
    return Exact(set() if server_in_range(server) else {LARGE}, tuple(server), refused=NO_SERVER)


# ---- the questions (`port` is a server's numbers)


def join_of(*ports):
    server, following = Server(*ports[:SERVER_NUMBERS]), Server(*ports[SERVER_NUMBERS:])
    return server_answer(server_refusals(server) | server_refusals(following), lambda: join(server, following))


def behind_of(curve, *port):
    server = Server(*port)
    return curve_answer(port_refusals(curve, server), lambda: behind_raw(curve_buckets(curve), server))


def figure_of(question):
    def asked(curve, *port):
        server = Server(*port)
        lines = port_refusals(curve, server)
        return Exact(lines, (0 if lines else question(curve_buckets(curve), server),))

    return asked


backlog_of, delay_of = figure_of(backlog), figure_of(delay)


def residual_of(*port_and_cross):
    *port, cross = port_and_cross
    server = Server(*port)
    nothing_to_share = {RANGE} if server.kind == PURE_DELAY else set()
    lines = curve_refusals(cross) | server_refusals(server) | nothing_to_share
    lines = lines or unbounded(curve_buckets(cross)[-1][0] >= server.rate)
    return server_answer(lines, lambda: residual(server, curve_buckets(cross)))
