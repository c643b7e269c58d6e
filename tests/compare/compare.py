"""Compares the library with the references of this directory on many random inputs, good and damaged, long and short.

Called with the path of the library as a shared object. For every input the code, every figure and count, the whole output list or
buffer, the operands and the guard words around all of them must be as the reference says. A test is a figure of the scope, a law of
the references themselves or of the library's answers, a campaign of random inputs of one kind, whose number it prints, or that a case
came up. The last line is 'N passed, M failed'.
"""

import sys

import counts
import drawing
import laws
import library
import profiles
from drawing import rng
from library import BYTES_OUT, CALLS, NOTHING_OUT
from rules import (
    BURST_END, COUNT, CURVE_KIND, CURVE_NUMBERS, EDITIONS, HEADER, LARGE, LATENCY_END, MOST_BUCKETS, MOST_SERVERS, PURE_DELAY, RANGE,
    RATE_END, RATE_LATENCY, UNBOUNDED,
    NO_SERVER, Server, curve_list, pure_delay, rate_latency, raw_list,
)

C = [(10, 2), (3, 20)]
MOST_ROOM = 1200


class Tally:
    """Counts the tests, and tells what failed."""

    def __init__(self, functions):
        self.functions = functions
        self.passed = self.failed = 0
        self.counts = counts.Counts()

    def test(self, name, wrong):
        """One test: it passed where nothing went wrong."""
        if wrong:
            self.failed += 1
            print(f"FAILED {name}: {len(wrong)} wrong")
            for told in wrong[:3]:
                print(f"  {told}")
        else:
            self.passed += 1

    def compared(self, name, operands, exact, out):
        """What is wrong with a call, if anything."""
        wanted = library.expected(exact, operands, out)
        got = library.called(self.functions[name], operands, out)
        self.counts.note(name, operands, exact.output, wanted[0][0])
        return [] if got == wanted else [f"{name} {operands} {out}\n    expected {wanted}\n    got      {got}"]

    def asked(self, name, *operands):
        """What the library itself answers, with room for every answer: the figures behind the code, and the curve's list or the bytes
        that it wrote; or nothing where it refuses."""
        (code, *figures), output = library.answered(self.functions[name], list(operands), an_output(name, MOST_ROOM))
        if code != 0:
            return None
        told = dict(zip(CALLS[name].figures(), figures))
        return figures, output and output[:told.get("bytes", CURVE_NUMBERS * told.get("count", 0))]

    def campaign(self, name, count, draw, call):
        """A test of so many random inputs, each with a random output around the length that is needed."""
        wrong = []
        for _ in range(count):
            operands = draw()
            exact = CALLS[call].exact(*operands)
            wrong += self.compared(call, operands, exact, some_output(call, len(exact.output)))
        self.ran(name, count, wrong)

    def each(self, name, call, inputs):
        """A test of all of some inputs, with an output that has room for every answer."""
        wrong = []
        for operands in inputs:
            wrong += self.compared(call, operands, CALLS[call].exact(*operands), an_output(call, MOST_ROOM))
        self.ran(name, len(inputs), wrong)

    def every_length(self, call, operands):
        """A test with outputs of every length, from none to three more than needed."""
        exact = CALLS[call].exact(*operands)
        count = len(exact.output) + 4
        wrong = []
        for length in range(count):
            wrong += self.compared(call, operands, exact, an_output(call, length))
        self.ran(f"{call}, outputs of every length", count, wrong)

    def law(self, name, count, draw, holds):
        """A test of the references themselves."""
        wrong = [f"{inputs}" for inputs in (draw() for _ in range(count)) if not holds(*inputs)]
        self.ran(f"reference: {name}", count, wrong)

    def ran(self, name, count, wrong):
        print(f"{name}: {count} inputs")
        self.test(name, wrong)


def an_output(name, length):
    """An output of this length, with numbers that no answer has, or with bytes that few have."""
    if CALLS[name].out is NOTHING_OUT:
        return NOTHING_OUT
    if CALLS[name].out is BYTES_OUT:
        return rng.randbytes(length)
    return [2**63 + rng.getrandbits(20) for _ in range(length)]


def some_output(name, needed):
    around = needed or rng.choice([0, CURVE_NUMBERS, 2 * CURVE_NUMBERS])
    short = [max(0, around - 1), max(0, around - 2), max(0, around - CURVE_NUMBERS), 0, rng.randrange(around + 1)]
    enough = [around, around, around, around + 1, around + 2, around + 7, around + CURVE_NUMBERS, MOST_BUCKETS * CURVE_NUMBERS, 200]
    return an_output(name, rng.choice(enough if rng.random() < 0.65 else short))


# ---- the figures of the scope


def figures(tally):
    """(name, call, operands, figures, output)"""
    raw, curve, port, wait = raw_list, curve_list, rate_latency, pure_delay
    p1 = raw([(3, 20), (10, 2), (10, 2), (5, 15), (3, 25)])
    behind_6_4 = [(3, 32)]
    server_6_1, curve_10_2 = bytes.fromhex("120000600001"), bytes.fromhex("11000002800000000080")
    p12 = profiles.curve_file(1, C) + profiles.server_file(1, port(6, 4)) + profiles.server_file(1, port(5, 2))
    p12_text = b"hop 1 32 6\nhop 2 38 9\nroute 38 9\n"
    mixed = profiles.curve_file(2, C) + profiles.server_file(1, port(6, 1)) + profiles.server_file(2, wait(3))
    mixed_text = b"hop 1 17 3\nhop 2 32 3\nroute 32 6\n"
    delay_5, behind_6_1 = bytes.fromhex("23000050"), [(6, 17), (3, 23)]
    sixty_four, most = raw([(7, 9)] * 64), port(1, LATENCY_END - 1)
    table = [
        ("P1", "normalise", [p1], (0, 2), curve(C)),
        ("P2", "normalise", [raw([(4, 0), (3, 1), (2, 2)])], (0, 2), curve([(4, 0), (2, 2)])),
        ("P3", "normalise", [raw([(10, 0), (4, 2), (0, 5)])], (0, 3), curve([(10, 0), (4, 2), (0, 5)])),
        ("P4", "sum", [curve(C), curve([(4, 0), (2, 2)])], (0, 3), curve([(14, 2), (12, 4), (5, 22)])),
        ("P5, behind", "behind", [curve(C), *port(6, 1)], (0, 2), curve([(6, 17), (3, 23)])),
        ("P5, backlog", "backlog", [curve(C), *port(6, 1)], (0, 17), None),
        ("P5, delay", "delay", [curve(C), *port(6, 1)], (0, 3), None),
        ("P6, behind", "behind", [curve(C), *port(6, 4)], (0, 1), curve(behind_6_4)),
        ("P6, backlog", "backlog", [curve(C), *port(6, 4)], (0, 32), None),
        ("P6, delay", "delay", [curve(C), *port(6, 4)], (0, 6), None),
        ("P7, second hop", "behind", [curve(behind_6_4), *port(5, 2)], (0, 1), curve([(3, 38)])),
        ("P7, delay of the second hop", "delay", [curve(behind_6_4), *port(5, 2)], (0, 9), None),
        ("P7, joined", "join", [*port(6, 4), *port(5, 2)], (0, *port(5, 6)), None),
        ("P7, one step", "behind", [curve(C), *port(5, 6)], (0, 1), curve([(3, 38)])),
        ("P7, delay of one step", "delay", [curve(C), *port(5, 6)], (0, 9), None),
        ("P8, behind", "behind", [curve([(5, 7)]), *port(5, 2)], (0, 1), curve([(5, 17)])),
        ("P8, delay", "delay", [curve([(5, 7)]), *port(5, 2)], (0, 4), None),
        ("P8, refused by behind", "behind", [curve([(6, 7)]), *port(5, 2)], (UNBOUNDED, 0), []),
        ("P8, refused by backlog", "backlog", [curve([(6, 7)]), *port(5, 2)], (UNBOUNDED, 0), None),
        ("P8, refused by delay", "delay", [curve([(6, 7)]), *port(5, 2)], (UNBOUNDED, 0), None),
        ("P9, backlog of nothing", "backlog", [curve([(0, 0)]), *port(5, 2)], (0, 0), None),
        ("P9, delay of nothing", "delay", [curve([(0, 0)]), *port(5, 2)], (0, 0), None),
        ("P9, backlog", "backlog", [curve([(5, 0)]), *port(10, 3)], (0, 15), None),
        ("P9, delay", "delay", [curve([(5, 0)]), *port(10, 3)], (0, 3), None),
        ("P10", "residual", [*port(6, 1), curve(C)], (0, *port(3, 5)), None),
        ("P11, server written", "write_server", [1, *port(6, 1)], (0, 6), server_6_1),
        ("P11, server read", "read", [server_6_1], (0, 1, RATE_LATENCY, 0, 6, 1), []),
        ("P11, curve written", "write_curve", [1, curve([(10, 2)])], (0, 10), curve_10_2),
        ("P11, curve read", "read", [curve_10_2], (0, 1, CURVE_KIND, 1, 0, 0), curve([(10, 2)])),
        ("P12", "route", [p12], (0, len(p12_text)), p12_text),
        ("C and a delay of 4, behind", "behind", [curve(C), *wait(4)], (0, 1), curve([(3, 32)])),
        ("C and a delay of 4, backlog", "backlog", [curve(C), *wait(4)], (0, 32), None),
        ("C and a delay of 4, delay", "delay", [curve(C), *wait(4)], (0, 4), None),
        ("(6,1) joined with a delay of 3", "join", [*port(6, 1), *wait(3)], (0, *port(6, 4)), None),
        ("a delay of 3 joined with (6,1)", "join", [*wait(3), *port(6, 1)], (0, *port(6, 4)), None),
        ("delays of 2 and 3 joined", "join", [*wait(2), *wait(3)], (0, *wait(5)), None),
        ("C behind (6,1), delay at a delay of 3", "delay", [curve(behind_6_1), *wait(3)], (0, 3), None),
        ("C behind (6,1), behind a delay of 3", "behind", [curve(behind_6_1), *wait(3)], (0, 1), curve(behind_6_4)),
        ("{(0,0)} and a delay of 4", "delay", [curve([(0, 0)]), *wait(4)], (0, 0), None),
        ("{(0,0)} and the largest delay", "delay", [curve([(0, 0)]), *wait(LATENCY_END - 1)], (0, 0), None),
        ("the largest rate at a delay", "backlog", [curve([(RATE_END - 1, 0)]), *wait(1)], (0, RATE_END - 1), None),
        ("a delay has no residual", "residual", [*wait(4), curve(C)], (RANGE, *NO_SERVER), None),
        ("a delay of 5 written", "write_server", [2, *wait(5)], (0, 4), delay_5),
        ("a delay of 5 written in edition 1", "write_server", [1, *wait(5)], (HEADER, 0), b""),
        ("a delay of 5 read", "read", [delay_5], (0, 2, PURE_DELAY, 0, 0, 5), []),
        ("a route of both kinds and editions", "route", [mixed], (0, len(mixed_text)), mixed_text),
        ("C at 0", "value", [curve(C), 0], (0, 0), None),
        ("the burst of C", "burst", [curve(C)], (0, 2), None),
        ("the burst of {(0,0)}", "burst", [curve([(0, 0)])], (0, 0), None),
        ("{(0,5)} and (10,0), backlog", "backlog", [curve([(0, 5)]), *port(10, 0)], (0, 5), None),
        ("{(0,5)} and (10,0), delay", "delay", [curve([(0, 5)]), *port(10, 0)], (0, 1), None),
        ("shape {(3,20)} by 10", "shape", [curve([(3, 20)]), 10, 0], (0, 2), curve([(10, 0), (3, 20)])),
        ("shape {(3,20)} by 10 with frames of 2", "shape", [curve([(3, 20)]), 10, 2], (0, 2), curve(C)),
        ("shape C by 10 with frames of 2", "shape", [curve(C), 10, 2], (0, 2), curve(C)),
        ("shape C by 12 with frames of 5", "shape", [curve(C), 12, 5], (0, 2), curve(C)),
        ("shape C by 10 with frames of 1", "shape", [curve(C), 10, 1], (0, 2), curve([(10, 1), (3, 20)])),
        ("join (1, 2^20-1) with (1, 0)", "join", [*most, *port(1, 0)], (0, *most), None),
        ("join (1, 2^20-1) with (1, 1)", "join", [*most, *port(1, 1)], (LARGE, *NO_SERVER), None),
        ("64 raw buckets", "normalise", [sixty_four], (0, 1), curve([(7, 9)])),
        ("65 raw buckets", "normalise", [sixty_four + raw([(7, 9)])], (COUNT, 0), []),
        ("burst 2^40-1", "normalise", [raw([(0, BURST_END - 1)])], (0, 1), curve([(0, BURST_END - 1)])),
        ("burst 2^40", "normalise", [raw([(0, BURST_END)])], (RANGE, 0), []),
    ]
    for name, call, operands, result, output in table:
        exact = CALLS[call].exact(*operands)
        out = an_output(call, len(output) + 3) if output is not None else NOTHING_OUT
        wanted = library.expected(exact, operands, out)
        wrong = tally.compared(call, operands, exact, out)
        if wanted[0] != result or (output is not None and result[0] == 0 and list(exact.output) != list(output)):
            wrong.append(f"the reference itself: {wanted}")
        tally.test(name, wrong)


# ---- the campaigns


def two_curves(curve, chance):
    return lambda: [drawing.as_curve(curve(), chance / 2), drawing.as_curve(curve(), chance / 2)]


def at_port(curve, chance):
    """A curve's list, then a server's numbers."""
    def draw():
        chosen = curve()
        return [drawing.as_curve(chosen, chance)] + drawing.port(drawing.server_for(chosen), chance / 3)

    return draw


def beside(curve, chance):
    """A server's numbers, then a cross curve's list."""
    def draw():
        numbers, *port = at_port(curve, chance)()
        return port + [numbers]

    return draw


def linked(curve, chance):
    def draw():
        chosen = curve()
        return [drawing.as_curve(chosen, chance), *drawing.link(chosen, chance / 2)]

    return draw


def parts_of_one_curve():
    """Operands whose lower has 60 to 68 buckets."""
    curve = drawing.curve_of(rng.randint(60, 68), 300, 200)
    first = set(rng.sample(curve, len(curve) // 2))
    return [curve_list(b for b in curve if b in first), curve_list(b for b in curve if b not in first)]


def link_among_buckets():
    """Operands whose shape has 60 to 65 buckets, one of them the link's."""
    curve = drawing.curve_of(rng.randint(60, 68), 300, 200)[:65]
    place = rng.randrange(len(curve) - 1)  # the last rate is 0, and no link has that
    return [curve_list(curve[:place] + curve[place + 1:]), *curve[place]]


def shared_crossings():
    """Curves of 30 to 64 buckets whose sum has one bucket more than the stock has crossings, or fewer."""
    stock = rng.sample(drawing.SHARED, rng.choice([40, 60, 63, 63, 64, 70]))
    return [curve_list(drawing.curve_of(rng.randint(30, 64), 0, 0, stock)) for _ in range(2)]


def crossings_dealt_out():
    """Curves that have 62 to 65 crossings between them, so that their sum has 63 to 66 buckets. Some crossings are both's."""
    curve = drawing.curve_of(rng.randint(63, 66), 2000, 300)
    steps = [(after[1] - before[1], before[0] - after[0]) for before, after in zip(curve, curve[1:])]
    dealt = [[], []]
    for rise, fall in steps:
        for place in rng.choice([[0], [1], [0], [1], [0, 1]]):
            scale = rng.randint(1, 3)
            dealt[place].append((rise * scale, fall * scale))
    return [curve_list(drawing.steps_to_curve(part, 0, 0)) for part in dealt]


def ends_added():
    """Curves whose first rates, last bursts or both add up to the last number of their range, to one less or to one more."""
    f, g = drawing.small_curve(), drawing.small_curve()
    more_rate, more_burst = rng.choice([(1, 0), (0, 1), (1, 1)])
    more_rate *= max(0, min(RATE_END - 1 - g[0][0], RATE_END - 1 + rng.randint(-1, 1) - f[0][0] - g[0][0]))
    more_burst *= max(0, min(BURST_END - 1 - g[-1][1], BURST_END - 1 + rng.randint(-1, 1) - f[-1][1] - g[-1][1]))
    return [curve_list(f), curve_list([(rate + more_rate, burst + more_burst) for rate, burst in g])]


def burst_at_the_end():
    """A curve and a server: the last burst behind it is 2^40-1 or 2^40, or beside them."""
    steeper = rng.choice([0, 1, 5])
    curve = drawing.curve_of(rng.randint(1, 5), *rng.choice([(4, 3), (2**37, 2**17)]))
    curve = [(rate + steeper, burst) for rate, burst in curve]
    server = drawing.server_for(curve)
    server = drawing.clamped(max(server.rate, curve[-1][0]), server.latency, server.kind)
    last_rate, last_burst = curve[-1]
    more = BURST_END - 1 + rng.randint(-1, 1) - last_burst - last_rate * server.latency
    more = max(0, min(more, BURST_END - 1 - last_burst))
    return [curve_list([(rate, burst + more) for rate, burst in curve]), *server]


def latency_at_the_end():
    """A server and a cross curve: the latency that is left is 2^20-1 or 2^20, or beside them."""
    rate = rng.choice([1, 2, 3, rng.randint(1, 2000), rng.randrange(1, 2**20)])
    quotient = rng.randrange(LATENCY_END)
    burst = min(BURST_END - 1, max(0, rate * quotient + rng.choice([-1, 0, 0, 1])))
    latency = LATENCY_END - 1 - quotient + rng.randint(-1, 1)
    return [*drawing.clamped(rate, latency), curve_list([(rng.randrange(rate), burst)])]


def joining():
    """Two servers, some with latencies that add up to the end of the range or to one less."""
    first, second = drawing.any_server(), drawing.any_server()
    if rng.random() < 0.3:
        second = drawing.clamped(second.rate, LATENCY_END - rng.randint(0, 2) - first.latency, second.kind)
    return drawing.port(first, 0.12) + drawing.port(second, 0.12)


def campaigns(tally):
    small, large = drawing.small_curve, drawing.large_curve
    run = tally.campaign
    run("normalise, few and small numbers", 5000, lambda: [drawing.as_raw(drawing.small_raw(), 0.35)], "normalise")
    run("normalise, long lists", 100, lambda: [drawing.as_raw(drawing.large_raw(), 0.2)], "normalise")
    run("value, small curves", 3000, lambda: [drawing.as_curve(small(), 0.35), drawing.tick(0.2)], "value")
    run("value, long curves", 60, lambda: [drawing.as_curve(large(), 0.2), drawing.tick(0.1)], "value")
    run("burst, small curves", 2000, lambda: [drawing.as_curve(small(), 0.35)], "burst")
    run("burst, long curves", 60, lambda: [drawing.as_curve(large(), 0.2)], "burst")
    run("lower, small curves", 3000, two_curves(small, 0.35), "lower")
    run("lower, long curves", 50, two_curves(large, 0.2), "lower")
    run("lower, 60 to 68 buckets", 25, parts_of_one_curve, "lower")
    run("sum, small curves", 3000, two_curves(small, 0.35), "sum")
    run("sum, crossings that both have", 24, shared_crossings, "sum")
    run("sum, 62 to 65 crossings dealt out", 100, crossings_dealt_out, "sum")
    run("sum, rates and bursts at the ends of their ranges", 2000, ends_added, "sum")
    run("shape, small curves", 3000, linked(small, 0.35), "shape")
    run("shape, long curves", 50, linked(large, 0.2), "shape")
    run("shape, 60 to 65 buckets", 25, link_among_buckets, "shape")
    run("join", 3000, joining, "join")
    run("behind, small curves", 8000, at_port(small, 0.3), "behind")
    run("behind, long curves", 200, at_port(large, 0.15), "behind")
    run("behind, bursts at the end of their range", 1000, burst_at_the_end, "behind")
    run("backlog, small curves", 5000, at_port(small, 0.3), "backlog")
    run("backlog, long curves", 80, at_port(large, 0.15), "backlog")
    run("delay, small curves", 5000, at_port(small, 0.3), "delay")
    run("delay, long curves", 80, at_port(large, 0.15), "delay")
    run("residual, small curves", 4000, beside(small, 0.3), "residual")
    run("residual, long curves", 60, beside(large, 0.15), "residual")
    run("residual, latencies at the end of their range", 1000, latency_at_the_end, "residual")
    run("read, files of small profiles", 8000, lambda: [drawing.some_file(small(), 0.6)], "read")
    run("read, long files", 100, lambda: [drawing.some_file(large(), 0.5)], "read")
    run("write_curve, small curves", 2000, lambda: [drawing.edition(0.1), drawing.as_curve(small(), 0.3)], "write_curve")
    run("write_curve, long curves", 60, lambda: [drawing.edition(0), drawing.as_curve(large(), 0.2)], "write_curve")
    run("write_server", 2500, lambda: [drawing.edition(0.15)] + drawing.port(drawing.any_server(), 0.3), "write_server")
    run("route, small curves", 2500, lambda: [drawing.route_input(small(), 0.4)], "route")
    run("route, long curves", 20, lambda: [drawing.route_input(large(), 0.2)], "route")


def every_length(tally):
    """Outputs of every length."""
    full = drawing.curve_of(64, 300, 200)
    route = profiles.curve_file(1, C) + b"".join(profiles.server_file(1, rate_latency(5, latency)) for latency in range(8))
    mixed = profiles.curve_file(2, C) + b"".join(profiles.server_file(2, pure_delay(latency)) for latency in range(4))
    for name, operands in [
        ("normalise", [raw_list(full[::-1])]),
        ("lower", [curve_list(full[0::2]), curve_list(full[1::2])]),
        ("sum", [curve_list(full[:30]), curve_list(C)]),
        ("shape", [curve_list(full[:20] + full[21:]), *full[20]]),
        ("behind", [curve_list(full), *rate_latency(full[40][0], 1)]),
        ("behind", [curve_list(full), *pure_delay(1)]),
        ("read", [profiles.curve_file(1, full)]),
        ("read", [profiles.curve_file(2, full)]),
        ("write_curve", [1, curve_list(full)]),
        ("write_curve", [2, curve_list(full)]),
        ("write_server", [1, *rate_latency(6, 1)]),
        ("write_server", [2, *rate_latency(6, 1)]),
        ("write_server", [2, *pure_delay(5)]),
        ("route", [route]),
        ("route", [mixed + profiles.server_file(1, rate_latency(5, 1))]),
    ]:
        tally.every_length(name, operands)


def every_damage(tally):
    """Files with each bit flipped, of every length and with every first byte."""
    full = profiles.curve_file(1, drawing.curve_of(64, 300, 200))
    delay = profiles.server_file(2, pure_delay(5))
    files = [(f"C in edition {edition}", profiles.curve_file(edition, C)) for edition in EDITIONS]
    files += [(f"the server (1,1) in edition {edition}", profiles.server_file(edition, rate_latency(1, 1))) for edition in EDITIONS]
    for name, file in files + [("a delay of 5", delay)]:
        tally.each(f"read, each bit of {name} flipped", "read", [[drawing.flipped(file, bit)] for bit in range(8 * len(file))])
    tally.each("read, every length of 64 buckets", "read", [[(full + bytes(8))[:length]] for length in range(len(full) + 9)])
    tally.each("read, every length of a delay", "read", [[(delay + bytes(8))[:length]] for length in range(len(delay) + 9)])
    tally.each("read, every padding of a delay", "read", [[delay[:-1] + bytes([delay[-1] | bits])] for bits in range(16)])
    tally.each("read, every first byte", "read", [[bytes([first]) + bytes(more)] for first in range(256) for more in (0, 1, 3, 5, 9)])


def every_route(tally):
    """Routes of every length, and with each byte behind the last server that there may be."""
    curve, delay = profiles.curve_file(1, C), profiles.server_file(2, pure_delay(1))
    server = profiles.server_file(1, rate_latency(5, 1))
    for name, route in [("34 servers", curve + 34 * server), ("34 servers of both kinds", curve + 17 * (delay + server))]:
        tally.each(f"route, every length of {name}", "route", [[route[:length]] for length in range(len(route) + 1)])
    longest = curve + MOST_SERVERS // 2 * (server + delay)
    tally.each("route, each byte behind 32 servers", "route", [[longest + bytes([byte])] for byte in range(256)])


def every_refusal(tally):
    """Each list that is refused beside each server that is, and each edition beside each server."""
    lists = [[], [1], [9, 9] * 65, curve_list([(RATE_END, 0)]), curve_list(C[::-1]), curve_list(C), curve_list([(RATE_END - 1, 5)])]
    some = [rate_latency(6, 1), pure_delay(0), pure_delay(4), pure_delay(LATENCY_END - 1)]
    some += [rate_latency(0, 1), rate_latency(RATE_END, 1), rate_latency(6, LATENCY_END)]
    some += [pure_delay(LATENCY_END), pure_delay(2**64 - 1)]
    some += [Server(PURE_DELAY, rate, 4) for rate in (1, RATE_END - 1, RATE_END, 2**32, 2**64 - 1)]
    some += [Server(kind, rate, 4) for kind in (0, 1, 4, 2**32 + 2, 2**32 + 3, 2**64 - 1) for rate in (0, 6)]
    for call in ("behind", "backlog", "delay"):
        tally.each(f"{call}, each list at each server", call, [[numbers, *server] for numbers in lists for server in some])
    tally.each("residual, each server beside each list", "residual", [[*server, numbers] for numbers in lists for server in some])
    tally.each("join, each server with each", "join", [[*one, *two] for one in some for two in some])
    editions = [*range(20), 2**8 + 1, 2**8 + 2, 2**32 + 1, 2**32 + 2, 2**63 + 2, 2**64 - 1]
    tally.each("write_server, each edition", "write_server", [[edition, *server] for edition in editions for server in some])
    tally.each("write_curve, each edition", "write_curve", [[edition, numbers] for edition in editions for numbers in lists])


def coverage(tally):
    """Every code that a call can give came up, for each sort of its operands, and every refusal inside a route, at each place; and every
    case at servers that only delay, and of answered routes."""
    for name, call in CALLS.items():
        times = tally.counts.of_call(name)
        print(f"{name}:", ", ".join(f"code {code} {count} times" for code, count in times.items()))
        tally.test(f"{name} came up with every code it can give", sorted(call.codes ^ set(times)))
    for name, sorts in counts.REQUIRED.items():
        for sort, codes in sorts.items():
            tally.test(f"{name} of {sort} came up with every code it can give", sorted(codes ^ tally.counts.of_sort(name, sort)))
    for name in counts.AT_A_DELAY:
        for case in counts.DELAY_CASES:
            times = tally.counts.delayed[name, case]
            tally.test(f"{name} of a server that only delays came up with {case}", [] if times else ["never"])
    for place, sorts in counts.REFUSED.items():
        for sort, codes in sorts.items():
            found = tally.counts.refused[place, sort]
            print(f"route refused at {place}, {sort}:", ", ".join(map(str, sorted(found))))
            tally.test(f"routes were refused at {place}, {sort}, with every code that can come up there", sorted(found ^ codes))
    for (kinds, editions), count in sorted(tally.counts.answered.items()):
        print(f"routes answered with servers of kind {kinds} and editions {editions}: {count}")
    tally.test("routes of every mixture were answered", sorted(counts.ANSWERED ^ set(tally.counts.answered)))


def main(path):
    tally = Tally(library.load(path))
    figures(tally)
    laws.references(tally)
    laws.hops(tally)
    laws.round_trips(tally)
    laws.as_before(tally)
    campaigns(tally)
    every_length(tally)
    every_damage(tally)
    every_route(tally)
    every_refusal(tally)
    coverage(tally)
    print(f"{tally.passed} passed, {tally.failed} failed")
    return tally.failed != 0


if __name__ == "__main__":
    sys.exit(main(sys.argv[1]))
