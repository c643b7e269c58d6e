"""The functions of include/duchrelin.h, each with its way of being called and its reference.

Every list and every buffer of a call lies between guard words, in memory of its own.
"""

import ctypes
from typing import NamedTuple

import curves
import profiles
import routes
import servers
from rules import COUNT, FORM, HEADER, LARGE, LENGTH, LIST, PAD, RANGE, ROOM, SERVER_NUMBERS, UNBOUNDED, Server, outcome

GUARD = [0xA5C30F1E96870000 + place for place in range(8)]
BYTE_GUARD = bytes(0xA5 ^ place for place in range(64))


def struct(*names):
    """A result: 64-bit numbers of these names."""
    return type("Result", (ctypes.Structure,), {"_fields_": [(name, ctypes.c_uint64) for name in names]})


ANSWER = struct("code", "count")
FIGURE = struct("code", "figure")
SERVER = struct("code", *Server._fields)
PROFILE = struct("code", "edition", "kind", "count", "rate", "latency")
WRITTEN = struct("code", "bytes")

LENT = (ctypes.c_void_p, ctypes.c_size_t)
NUMBER = (ctypes.c_uint64,)
PORT = SERVER_NUMBERS * NUMBER
CURVE_CODES = {LIST, COUNT, RANGE, FORM}
LIST_OUT, BYTES_OUT, NOTHING_OUT = [], b"", None


class Call(NamedTuple):
    """A function of the library: what it is passed, what it returns, which output it has, its reference, and the codes it can give."""

    operands: tuple
    result: type
    out: object
    exact: object
    codes: set

    def figures(self):
        """The names of what it tells behind the code."""
        return [name for name, _ in self.result._fields_][1:]


CALLS = {
    "normalise": Call(LENT, ANSWER, LIST_OUT, curves.normalise, {0, LIST, COUNT, RANGE, ROOM}),
    "value": Call(LENT + NUMBER, FIGURE, NOTHING_OUT, curves.value_at, {0} | CURVE_CODES),
    "burst": Call(LENT, FIGURE, NOTHING_OUT, curves.burst_of, {0} | CURVE_CODES),
    "lower": Call(LENT + LENT, ANSWER, LIST_OUT, curves.lower, {0, LARGE, ROOM} | CURVE_CODES),
    "sum": Call(LENT + LENT, ANSWER, LIST_OUT, curves.sum_of, {0, LARGE, ROOM} | CURVE_CODES),
    "shape": Call(LENT + NUMBER + NUMBER, ANSWER, LIST_OUT, curves.shape, {0, LARGE, ROOM} | CURVE_CODES),
    "join": Call(PORT + PORT, SERVER, NOTHING_OUT, servers.join_of, {0, RANGE, LARGE}),
    "behind": Call(LENT + PORT, ANSWER, LIST_OUT, servers.behind_of, {0, UNBOUNDED, LARGE, ROOM} | CURVE_CODES),
    "backlog": Call(LENT + PORT, FIGURE, NOTHING_OUT, servers.backlog_of, {0, UNBOUNDED} | CURVE_CODES),
    "delay": Call(LENT + PORT, FIGURE, NOTHING_OUT, servers.delay_of, {0, UNBOUNDED} | CURVE_CODES),
    "residual": Call(PORT + LENT, SERVER, NOTHING_OUT, servers.residual_of, {0, UNBOUNDED, LARGE} | CURVE_CODES),
    "read": Call(LENT, PROFILE, LIST_OUT, profiles.read, {0, HEADER, LENGTH, PAD, RANGE, FORM, ROOM}),
    "write_curve": Call(NUMBER + LENT, WRITTEN, BYTES_OUT, profiles.write_curve, {0, HEADER, ROOM} | CURVE_CODES),
    "write_server": Call(NUMBER + PORT, WRITTEN, BYTES_OUT, profiles.write_server, {0, HEADER, RANGE, ROOM}),
    "route": Call(LENT, WRITTEN, BYTES_OUT, routes.route, {0, ROOM}),
}


def load(path):
    library = ctypes.CDLL(path)
    functions = {}
    for name, call in CALLS.items():
        function = getattr(library, "duchrelin_" + name)
        function.argtypes = call.operands + (() if call.out is NOTHING_OUT else LENT)
        function.restype = call.result
        functions[name] = function
    return functions


def lend(held):
    """A list or bytes between guard words: the memory, and where the list begins in it."""
    if isinstance(held, bytes):
        block = (ctypes.c_uint8 * (len(held) + 2 * len(BYTE_GUARD))).from_buffer_copy(BYTE_GUARD + held + BYTE_GUARD)
        return block, ctypes.addressof(block) + len(BYTE_GUARD)
    guarded = GUARD + held + GUARD
    block = (ctypes.c_uint64 * len(guarded))(*guarded)
    return block, ctypes.addressof(block) + 8 * len(GUARD)


def guarded(held):
    """What the memory of a lent list must hold."""
    return BYTE_GUARD + held + BYTE_GUARD if isinstance(held, bytes) else GUARD + held + GUARD


def called(function, operands, out):
    """Calls; answers the result and what the memory of all lists and buffers then holds."""
    passed, blocks = [], []
    for argument in operands + ([] if out is NOTHING_OUT else [out]):
        if isinstance(argument, int):
            passed.append(argument)
            continue
        block, start = lend(argument)
        blocks.append(block)
        passed += [start, len(argument)]
    result = function(*passed)
    held = [bytes(block) if block._type_ is ctypes.c_uint8 else list(block) for block in blocks]
    return tuple(getattr(result, name) for name, _ in result._fields_), held


def answered(function, operands, out):
    """Calls; answers the result and what stands in the whole output, if the call has one."""
    figures, held = called(function, operands, out)
    if out is NOTHING_OUT:
        return figures, None
    guard = len(BYTE_GUARD) if isinstance(out, bytes) else len(GUARD)
    return figures, held[-1][guard:-guard]


def expected(exact, operands, out):
    """The same by the reference."""
    figures, after = outcome(exact, () if out is NOTHING_OUT else out)
    lists = [operand for operand in operands if not isinstance(operand, int)]
    return figures, [guarded(held) for held in lists + ([] if out is NOTHING_OUT else [after])]
