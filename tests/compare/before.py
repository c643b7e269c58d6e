"""What reading gave while there was edition 1 alone: any other is HEADER, and no edition is told.

By itself, so that a file of edition 1 can be held to it: the file is one large number, and a field is cut out of it.
"""

from curves import in_normal_form
from rules import FORM, HEADER, LENGTH, PAD, RANGE, ROOM

CURVE, SERVER = 0x11, 0x12  # edition and kind
START, BUCKET, BURST, RATE = 14, 60, 40, 20  # bits


def refused(code):
    return (code, 0, 0, 0, 0), []


def cut(number, low, width):
    return number >> low & (1 << width) - 1


def read(file, room):
    """(code, kind, count, rate, latency), and the numbers that are written to a list with so much room."""
    if file[:1] == bytes([SERVER]):
        return read_server(file)
    if file[:1] != bytes([CURVE]):
        return refused(HEADER)
    if len(file) == 1:
        return refused(LENGTH)
    count = cut(file[1], 2, 6) + 1
    spare = 8 * len(file) - START - BUCKET * count
    if not 0 <= spare < 8:
        return refused(LENGTH)
    number = int.from_bytes(file, "big")
    lows = [spare + BUCKET * later for later in reversed(range(count))]
    curve = tuple((cut(number, low + BURST, RATE), cut(number, low, BURST)) for low in lows)
    if cut(number, 0, spare):
        return refused(PAD)
    if not in_normal_form(curve):
        return refused(FORM)
    return ((0, 1, count, 0, 0), [n for bucket in curve for n in bucket]) if 2 * count <= room else refused(ROOM)


def read_server(file):
    number = int.from_bytes(file, "big")
    if len(file) != 6:
        return refused(LENGTH)
    rate, latency = cut(number, 20, 20), cut(number, 0, 20)
    return ((0, 2, 0, rate, latency), []) if rate else refused(RANGE)
