"""Counts what came up in the comparison, and says what has to: for each sort of operands, as the kinds of servers and the editions of
files, every code that the call can give, and no other."""

import re
from collections import defaultdict

import routes
from library import CURVE_CODES
from profiles import header
from rules import (
    COUNT, CURVE_KIND, EDITIONS, FORM, HEADER, KINDS_OF, LARGE, LATENCY_END, LENGTH, LIST, MOST_SERVERS, PAD, PURE_DELAY, RANGE,
    RATE_END, RATE_LATENCY, ROOM, SERVER_KINDS, UNBOUNDED,
    curve_buckets,
)
from servers import bends

OTHER = "other"  # a kind or an edition that there is not
KINDS = (CURVE_KIND, *SERVER_KINDS)
# Where the servers begin among the operands.
SERVERS_OF = {"join": (0, 3), "behind": (1,), "backlog": (1,), "delay": (1,), "residual": (0,), "write_server": (1,)}


def known(number, numbers):
    return number if number in numbers else OTHER


def sort_of_call(name, operands):
    """The kinds of the servers that a call is given, the edition for a writer, or both."""
    kinds = tuple(known(operands[at], SERVER_KINDS) for at in SERVERS_OF.get(name, ()))
    if name in ("write_curve", "write_server"):
        return (known(operands[0], EDITIONS), *kinds)
    return sort_of_profile(*header(operands[0])) if name == "read" else kinds


def sort_of_profile(edition, kind):
    """Edition and kind, also where there are both but not together."""
    return (edition, kind) if edition in EDITIONS and kind in KINDS else OTHER


# ---- every code


def at_server(rated, delayed, other):
    return {(RATE_LATENCY,): rated, (PURE_DELAY,): delayed, (OTHER,): other}


def joins():
    kinds = (*SERVER_KINDS, OTHER)
    return {(one, two): {RANGE} if OTHER in (one, two) else {0, RANGE, LARGE} for one in kinds for two in kinds}


def files(codes):
    """By edition and kind, where each kind has its codes; HEADER alone where the edition has no such kind, or there is no such edition
    or kind."""
    there = {(edition, kind): codes[kind] if kind in KINDS_OF[edition] else {HEADER} for edition in EDITIONS for kind in codes}
    return {**there, OTHER: {HEADER}}


def server_files():
    """The same for the writer, to which a kind that is in no edition is RANGE."""
    written = files(dict.fromkeys(SERVER_KINDS, {0, RANGE, ROOM}))
    del written[OTHER]
    no_kind = {(edition, OTHER): {RANGE} for edition in EDITIONS}
    return {**written, **no_kind, **{(OTHER, kind): {HEADER} for kind in (*SERVER_KINDS, OTHER)}}


# For each call whose codes depend on the sort of its operands. Nothing is too fast for a server that only delays, and it leaves nothing
# beside other traffic.
REQUIRED = {
    "join": joins(),
    "behind": at_server({0, UNBOUNDED, LARGE, ROOM} | CURVE_CODES, {0, LARGE, ROOM} | CURVE_CODES, {LIST, COUNT, RANGE}),
    "backlog": at_server({0, UNBOUNDED} | CURVE_CODES, {0} | CURVE_CODES, {LIST, COUNT, RANGE}),
    "delay": at_server({0, UNBOUNDED} | CURVE_CODES, {0} | CURVE_CODES, {LIST, COUNT, RANGE}),
    "residual": at_server({0, UNBOUNDED, LARGE} | CURVE_CODES, {LIST, COUNT, RANGE}, {LIST, COUNT, RANGE}),
    "read": files({CURVE_KIND: {0, LENGTH, PAD, FORM, ROOM}, RATE_LATENCY: {0, LENGTH, RANGE}, PURE_DELAY: {0, LENGTH, PAD}}),
    "write_curve": {**{(edition,): {0, ROOM} | CURVE_CODES for edition in EDITIONS}, (OTHER,): {HEADER}},
    "write_server": server_files(),
}

# For routes that are refused, at each place, by the profile that stands there.
AT_SERVERS = files({CURVE_KIND: {HEADER}, RATE_LATENCY: {LENGTH, RANGE, UNBOUNDED, LARGE}, PURE_DELAY: {LENGTH, PAD, LARGE}})
REFUSED = {
    "the curve": files({CURVE_KIND: {LENGTH, PAD, FORM}, RATE_LATENCY: {HEADER}, PURE_DELAY: {HEADER}}),
    "the first server": AT_SERVERS,
    "a later server": AT_SERVERS,
    "bytes after 32 servers": {sort: {COUNT} for sort in AT_SERVERS},
}

# ---- every case

# Routes that are answered: the kinds of their servers, and the editions of all their profiles.
ANSWERED = {
    ((RATE_LATENCY,), (1,)), ((RATE_LATENCY,), (2,)), ((RATE_LATENCY,), (1, 2)),
    ((PURE_DELAY,), (2,)), ((PURE_DELAY,), (1, 2)),
    ((RATE_LATENCY, PURE_DELAY), (2,)), ((RATE_LATENCY, PURE_DELAY), (1, 2)),
}

# Calls that are answered at a server that only delays: what holds of the curve and the latency.
AT_A_DELAY = ("behind", "backlog", "delay")
DELAY_CASES = {
    "nothing that comes, and a latency": lambda curve, latency: curve == [(0, 0)] and latency > 0,
    "no burst, and a latency": lambda curve, latency: curve[0][1] == 0 < curve[0][0] and latency > 0,
    "a burst, and a latency": lambda curve, latency: curve[0][1] > 0 and latency > 0,
    "a burst, and no latency": lambda curve, latency: curve[0][1] > 0 and latency == 0,
    "the largest latency": lambda curve, latency: latency == LATENCY_END - 1,
    "a crossing at the latency": lambda curve, latency: latency in bends(curve) and latency > 0,
    "a crossing just after the latency": lambda curve, latency: any(latency < time < latency + 1 for time in bends(curve)),
    "the largest rate in the end": lambda curve, latency: curve[-1][0] == RATE_END - 1,
}


def place_name(place):
    return {1: "the curve", 2: "the first server", MOST_SERVERS + 2: "bytes after 32 servers"}.get(place, "a later server")


class Counts:
    def __init__(self):
        self.times = defaultdict(int)  # of a call with operands of a sort and a code
        self.delayed = defaultdict(int)  # of a call and a case at a server that only delays
        self.refused = defaultdict(set)  # the codes of routes, by place and by what stands there
        self.answered = defaultdict(int)  # routes

    def note(self, name, operands, output, code):
        """One call, what it must write, and the code that it must give."""
        self.times[name, sort_of_call(name, operands), code] += 1
        if name in AT_A_DELAY and operands[1] == PURE_DELAY and code == 0:
            curve, latency = curve_buckets(operands[0]), operands[3]
            for case, holds in DELAY_CASES.items():
                self.delayed[name, case] += holds(curve, latency)
        if name == "route" and code == 0:
            self.note_route(operands[0], output)

    def note_route(self, data, text):
        profiles = routes.headers(data)
        refused = re.fullmatch(rb"refused (\d+) at (\d+)\n", text)
        if refused:
            code, place = map(int, refused.groups())
            there = profiles[place - 1] if place <= len(profiles) else header(b"")
            self.refused[place_name(place), sort_of_profile(*there)].add(code)
            return
        kinds = tuple(sorted({kind for _, kind in profiles[1:]}))
        editions = tuple(sorted({edition for edition, _ in profiles}))
        self.answered[kinds, editions] += 1

    def of_call(self, name):
        """How often each code came up."""
        times = defaultdict(int)
        for (other, _, code), count in sorted(self.times.items(), key=lambda entry: entry[0][2]):
            if other == name:
                times[code] += count
        return dict(times)

    def of_sort(self, name, sort):
        return {code for other, of, code in self.times if (other, of) == (name, sort)}
