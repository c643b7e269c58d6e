"""Laws: of the references themselves, held against the definitions by trying every tick; and of the library's own answers."""

from collections import Counter
from fractions import Fraction

import before
import curves
import drawing
import library
import servers
from drawing import rng
from rules import (
    CURVE_KIND, CURVE_NUMBERS, EDITIONS, KINDS_OF, PURE_DELAY, RATE_LATENCY, SERVER_KINDS,
    curve_buckets, curve_list,
)

# ---- the references themselves


def taken(kind):
    """A curve and a server of the kind that takes it."""
    curve = curves.normal_form(drawing.small_raw())
    return curve, drawing.clamped(max(1, curve[-1][0]) + rng.randrange(4), rng.randrange(12), kind)


def taken_by_any():
    return taken(rng.choice(SERVER_KINDS))


def references(tally):
    law = tally.law
    law("normal form, two ways", 1500, lambda: [drawing.small_raw()],
        lambda raw: curves.normal_form(raw) == curves.normal_form_by_trial(raw))
    law("backlog, ticks beside the crossings and all ticks", 2000, taken_by_any,
        lambda curve, server: servers.backlog(curve, server) == servers.backlog_tick_by_tick(curve, server))
    law("delay, by halving and one by one", 1500, lambda: taken(RATE_LATENCY),
        lambda curve, server: servers.delay(curve, server) == servers.delay_one_by_one(curve, server))
    law("delay of a server that only delays, by fractions", 400, lambda: (*taken(PURE_DELAY), rng.randint(2, 5)), infimum_by_fractions)
    law("behind is the greatest over u, tick by tick", 900, taken_by_any, behind_by_ticks)
    two_servers = lambda: (taken_by_any()[1], taken_by_any()[1])
    law("a joined server serves the convolution, tick by tick", 600, two_servers, joined_by_ticks)


def infimum_by_fractions(curve, server, parts):
    """The first multiple of 1/parts that suffices is the infimum or the next; the infimum is a whole number, so that tells it."""
    return 0 <= servers.delay_by_fractions(curve, server, parts) - servers.delay(curve, server) <= Fraction(1, parts)


def behind_by_ticks(curve, server):
    """Tick by tick, the greatest gap of what comes u ticks later over what is served by u."""
    after = curves.normal_form(servers.behind_raw(curve, server))
    end = 40 + server.latency
    greatest = lambda t: max(curves.value(curve, t + u) - servers.served(server, u) for u in range(end))
    return all(curves.value(after, t) == greatest(t) for t in range(8))


def joined_by_ticks(server, following):
    joined = servers.join(server, following)
    ticks = range(joined.latency + 8)
    return all(servers.served(joined, tick) == servers.served_by_both(server, following, tick) for tick in ticks)


# ---- the library's own answers

TRIED = 500  # inputs of each law and sort
OFTEN = 50  # so many of them at least are such that the law says something


def hops(tally):
    """For each two kinds of servers."""
    for first in SERVER_KINDS:
        for second in SERVER_KINDS:
            came_up, wrong = Counter(), []
            for _ in range(TRIED):
                curve = drawing.small_curve()
                one, two = drawing.server_for(curve, first), drawing.server_for(curve, second)
                wrong += hop_by_hop(tally, curve_list(curve), one, two, came_up)
            rare = [f"{law} came up {came_up[law]} times" for law in ("one step", "other way round") if came_up[law] < OFTEN]
            tally.ran(f"hop by hop, kinds {first} and {second}, {came_up['one step']} of them in one step", TRIED, wrong + rare)


def hop_by_hop(tally, curve, one, two, came_up):
    """What is wrong with a curve's way through two servers: one step through both joined is the same list, and so is the other way
    round; the joined delay is at most the two added; the burst of the curve behind is the backlog."""
    asked = tally.asked
    between, joined = asked("behind", curve, *one), asked("join", *one, *two)
    after = between and asked("behind", between[1], *two)
    if not after or not joined:
        return []
    came_up["one step"] += 1
    delays = asked("delay", curve, *one), asked("delay", between[1], *two), asked("delay", curve, *joined[0])
    waits = [delay[0][0] for delay in delays if delay]
    broken = {
        "one step is another list": asked("behind", curve, *joined[0]) != after,
        "the joined delay is refused, or more than both": len(waits) < 3 or waits[2] > waits[0] + waits[1],
        "the burst behind is not the backlog": asked("burst", after[1]) != asked("backlog", between[1], *two),
    }
    turned = asked("behind", curve, *two)
    turned = turned and asked("behind", turned[1], *one)
    if turned:
        came_up["other way round"] += 1
        broken["the other way round is another list"] = turned != after
    return [f"{told}: {curve} {one} {two}" for told, is_so in broken.items() if is_so]


def round_trips(tally):
    """In each edition for each kind that it has."""
    for edition in EDITIONS:
        for kind in sorted(KINDS_OF[edition]):
            wrong = [told for _ in range(TRIED) for told in round_trip(tally, edition, kind)]
            tally.ran(f"written and read again, edition {edition} and kind {kind}", TRIED, wrong)


def round_trip(tally, edition, kind):
    """What is wrong with a profile that is written, read and written again: it reads as it was, with its edition, and the bytes are the
    same."""
    if kind == CURVE_KIND:
        held = curve_list(drawing.small_curve())
        call, numbers, profile = "write_curve", [held], [edition, kind, len(curve_buckets(held)), 0, 0]
    else:
        server, held = drawing.any_server(kind), []
        call, numbers, profile = "write_server", server, [edition, kind, 0, server.rate, server.latency]
    written = tally.asked(call, edition, *numbers)
    read = written and tally.asked("read", written[1])
    if not read or read[0] != profile or read[1][:len(held)] != held:
        return [f"{edition} {numbers} is read back as {read and read[0]}"]
    again = tally.asked(call, read[0][0], *numbers)
    return [] if again == written else [f"{written[1].hex()} is written again as {again}"]


def as_before(tally):
    """Files of edition 1, and of editions that there are not, read as they did before there was edition 2; edition 1 is told beside."""
    came_up, wrong = Counter(), []
    for _ in range(8 * TRIED):
        file = drawing.some_file(drawing.small_curve(), 0.6)
        if file[:1] and file[0] >> 4 == 2:
            file = bytes([1 << 4 | file[0] & 15]) + file[1:]
        out = [2**63 + place for place in range(rng.randrange(8 * CURVE_NUMBERS))]
        (code, *rest), numbers = before.read(file, len(out))
        came_up[code] += 1
        wanted = (code, 0 if code else 1, *rest), numbers + out[len(numbers):]
        got = library.answered(tally.functions["read"], [file], out)
        wrong += [] if got == wanted else [f"{file.hex()} {len(out)}: {got} and not {wanted}"]
    rare = [f"code {code} came up {came_up[code]} times" for code in sorted(library.CALLS["read"].codes) if came_up[code] < OFTEN]
    tally.ran("read as before", 8 * TRIED, wrong + rare)
