"""What the rules fix: the numbers of the refusals, the ranges, and how buckets and servers stand in lists. One place for each.

A bucket is a pair (rate, burst), a curve or a raw collection of buckets is a list of pairs.
"""

from typing import NamedTuple

HEADER, LENGTH, PAD, LIST, COUNT, RANGE, FORM, UNBOUNDED, LARGE, ROOM = range(1, 11)

RATE_END, LATENCY_END, BURST_END, TICK_END, FRAME_END = 2**20, 2**20, 2**40, 2**40, 2**40
MOST_BUCKETS, MOST_SERVERS = 64, 32
CURVE_KIND, RATE_LATENCY, PURE_DELAY = 1, 2, 3
SERVER_KINDS = (RATE_LATENCY, PURE_DELAY)
KINDS_OF = {1: {CURVE_KIND, RATE_LATENCY}, 2: {CURVE_KIND, RATE_LATENCY, PURE_DELAY}}  # what each edition of the file has
EDITIONS = tuple(KINDS_OF)

RAW_NUMBERS = 2  # for each bucket of a raw list
CURVE_NUMBERS = 2  # for each bucket of a curve's list


class Server(NamedTuple):
    """A server; its numbers are passed in this order."""

    kind: int
    rate: int
    latency: int


SERVER_NUMBERS = len(Server._fields)
NO_SERVER = Server(RATE_LATENCY, 0, 0)  # told where a server is refused


def rate_latency(rate, latency):
    return Server(RATE_LATENCY, rate, latency)


def pure_delay(latency):
    return Server(PURE_DELAY, 0, latency)


def raw_buckets(numbers):
    """The whole buckets of a raw list."""
    return list(zip(numbers[0::RAW_NUMBERS], numbers[1::RAW_NUMBERS]))


def raw_list(some_buckets):
    return [number for bucket in some_buckets for number in bucket]


def curve_buckets(numbers):
    """The whole buckets of a curve's list."""
    return list(zip(numbers[0::CURVE_NUMBERS], numbers[1::CURVE_NUMBERS]))


def curve_list(curve):
    return [number for bucket in curve for number in bucket]


def bucket_in_range(bucket):
    rate, burst = bucket
    return 0 <= rate < RATE_END and 0 <= burst < BURST_END


def server_in_range(server):
    """A server with a rate has one from 1 on; one that only delays has none, and 0 is passed."""
    rates = {RATE_LATENCY: range(1, RATE_END), PURE_DELAY: [0]}
    return server.rate in rates.get(server.kind, []) and 0 <= server.latency < LATENCY_END


class Exact(NamedTuple):
    """What a question must give, but for the room: the lines of the table that hold, and if none does the figures behind the code and
    what stands at the start of the output. Beside a refusal the figures are 0, if no others are named."""

    lines: set
    figures: tuple
    output: object = ()
    refused: tuple = ()


def outcome(exact, out):
    """All figures with the code first, and the output list or buffer afterwards."""
    lines = exact.lines | ({ROOM} if len(out) < len(exact.output) else set())
    if lines:
        return (min(lines),) + (exact.refused or (0,) * len(exact.figures)), out
    return (0,) + exact.figures, type(out)(exact.output) + out[len(exact.output):]
