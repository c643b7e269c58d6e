"""The profile file by the rules: a file is the string of its bits, most significant bit first."""

from curves import curve_refusals, in_normal_form
from rules import (
    CURVE_KIND, FORM, HEADER, KINDS_OF, LENGTH, PAD, PURE_DELAY,
    Exact, Server, curve_buckets, curve_list,
)
from servers import server_refusals

EDITION_BITS, KIND_BITS, COUNT_BITS, RATE_BITS, BURST_BITS, LATENCY_BITS = 4, 4, 6, 20, 40, 20
HEADER_BITS = EDITION_BITS + KIND_BITS


def field(width, number):
    return format(number, f"0{width}b")


def bytes_for(bit_count):
    """How many bytes so many bits need."""
    return -(-bit_count // 8)


def packed(bits):
    """The file of these bits, with zero bits up to the byte's end."""
    bits += "0" * (8 * bytes_for(len(bits)) - len(bits))
    return bytes(int(bits[at:at + 8], 2) for at in range(0, len(bits), 8))


def curve_file(edition, curve):
    header = field(EDITION_BITS, edition) + field(KIND_BITS, CURVE_KIND) + field(COUNT_BITS, len(curve) - 1)
    return packed(header + "".join(field(RATE_BITS, rate) + field(BURST_BITS, burst) for rate, burst in curve))


def server_file(edition, server):
    header = field(EDITION_BITS, edition) + field(KIND_BITS, server.kind)
    rate = "" if server.kind == PURE_DELAY else field(RATE_BITS, server.rate)
    return packed(header + rate + field(LATENCY_BITS, server.latency))


class Fields:
    """Takes the fields of a file one after the other."""

    def __init__(self, file):
        self.bits = "".join(field(8, byte) for byte in file)
        self.at = 0

    def take(self, width):
        self.at += width
        return int(self.bits[self.at - width:self.at], 2)

    def rest(self):
        return self.bits[self.at:]


def header(file):
    """(edition, kind) of a file; none where it has no byte."""
    if len(file) == 0:
        return None, None
    fields = Fields(file[:1])
    return fields.take(EDITION_BITS), fields.take(KIND_BITS)


def required_bytes(file):
    """(kind, bytes) that a header requires: no kind if its edition has none such; no byte count if the curve's count is not there."""
    edition, kind = header(file)
    if kind not in KINDS_OF.get(edition, ()):
        return None, None
    if kind == PURE_DELAY:
        return kind, bytes_for(HEADER_BITS + LATENCY_BITS)
    if kind != CURVE_KIND:
        return kind, bytes_for(HEADER_BITS + RATE_BITS + LATENCY_BITS)
    if len(file) == 1:
        return kind, None
    fields = Fields(file[:2])
    fields.take(HEADER_BITS)
    count = fields.take(COUNT_BITS) + 1
    return kind, bytes_for(HEADER_BITS + COUNT_BITS + count * (RATE_BITS + BURST_BITS))


def parsed(file):
    """(lines, curve, server) of a file that is to hold exactly one profile; whichever of the two it does not hold is None."""
    kind, count = required_bytes(file)
    if kind is None:
        return {HEADER}, None, None
    if len(file) != count:
        return {LENGTH}, None, None
    fields = Fields(file)
    fields.take(HEADER_BITS)
    curve = server = None
    if kind == CURVE_KIND:
        curve = [(fields.take(RATE_BITS), fields.take(BURST_BITS)) for _ in range(fields.take(COUNT_BITS) + 1)]
        lines = set() if in_normal_form(tuple(curve)) else {FORM}
    else:
        rate = 0 if kind == PURE_DELAY else fields.take(RATE_BITS)
        server = Server(kind, rate, fields.take(LATENCY_BITS))
        lines = server_refusals(server)
    return lines | ({PAD} if "1" in fields.rest() else set()), curve, server


# ---- the questions


def read(file):
    lines, curve, server = parsed(file)
    edition, kind = header(file)
    if curve is not None:
        return Exact(lines, (edition, kind, len(curve), 0, 0), curve_list(curve))
    rate, latency = (server.rate, server.latency) if server else (0, 0)
    return Exact(lines, (edition, kind, 0, rate, latency), [])


def written(lines, file):
    """The answer of a question that asks for a file."""
    if lines:
        return Exact(lines, (0,), b"")
    made = file()
    return Exact(set(), (len(made),), made)


def edition_refusals(edition, kind):
    """There is no such edition, or it has not a kind that another one has."""
    known = kind in set().union(*KINDS_OF.values())
    return {HEADER} if edition not in KINDS_OF or (known and kind not in KINDS_OF[edition]) else set()


def write_curve(edition, curve):
    lines = edition_refusals(edition, CURVE_KIND) | curve_refusals(curve)
    return written(lines, lambda: curve_file(edition, curve_buckets(curve)))


def write_server(edition, *port):
    server = Server(*port)
    lines = edition_refusals(edition, server.kind) | server_refusals(server)
    return written(lines, lambda: server_file(edition, server))
