"""Runs the built program route: what it prints for good, refused, long, slow and endless inputs, and that it always ends.

Called with the program's path. Inputs are made, and those of the random campaign are
answered, by the references in tests/compare. The last line is 'N passed, M failed'.
"""

import os
import signal
import subprocess
import sys
import threading
import time

sys.path.insert(0, os.path.join(os.path.dirname(os.path.abspath(__file__)), "..", "compare"))

import drawing
import routes
from profiles import curve_file, server_file
from rules import BURST_END, EDITIONS, KINDS_OF, LATENCY_END, MOST_SERVERS, SERVER_KINDS, pure_delay, rate_latency

PROGRAM = sys.argv[1]
ANSWERED, REFUSED, BROKEN = 0, 1, 2
SECONDS = 20
MEGABYTE = 1 << 20
DECIDING_BYTES = 675
RANDOM_INPUTS = 150

C_BUCKETS = [(10, 2), (3, 20)]
C = curve_file(1, C_BUCKETS)


def server(rate, latency, edition=1):
    return server_file(edition, rate_latency(rate, latency))


def delay(latency):
    return server_file(2, pure_delay(latency))


P12 = C + server(6, 4) + server(5, 2)
P12_TEXT = b"hop 1 32 6\nhop 2 38 9\nroute 38 9\n"
MIXED = curve_file(2, C_BUCKETS) + server(6, 1) + delay(3)
MIXED_TEXT = b"hop 1 17 3\nhop 2 32 3\nroute 32 6\n"
GOOD = server(6, 0)
# C through servers (6,0): 11 is the most that it is above the rate 6, and stays so behind each.
HOPS_OF_GOOD = b"".join(b"hop %d 11 2\n" % hop for hop in range(1, MOST_SERVERS + 1)) + b"route 11 2\n"

passed = failed = 0


def test(name, wrong):
    """One test: it passed where nothing went wrong."""
    global passed, failed
    if wrong:
        failed += 1
        print(f"FAILED {name}: {wrong}")
    else:
        passed += 1


# ---- runs


def start(stdin=subprocess.PIPE, stdout=subprocess.PIPE):
    return subprocess.Popen([PROGRAM], stdin=stdin, stdout=stdout, stderr=subprocess.DEVNULL)


def feed(pipe, pieces, then_close=True):
    """Writes the pieces one after the other; the program may end before it has read all."""
    try:
        for piece in pieces:
            pipe.write(piece)
            pipe.flush()
    except BrokenPipeError:
        pass
    if then_close:
        try:
            pipe.close()
        except BrokenPipeError:
            pass


def ended(process):
    """What it printed and its status, or None if it does not end."""
    try:
        process.wait(SECONDS)
    except subprocess.TimeoutExpired:
        process.kill()
        process.wait()
        return None
    return (process.stdout.read() if process.stdout else None), process.returncode


def status_wrong(status, wanted):
    """A program that was ended by a signal is wrong, and so is another status than the one wanted."""
    if status < 0:
        return f"ended by signal {-status}"
    return f"status {status} and not {wanted}" if status != wanted else ""


def outcome_wrong(result, text):
    if result is None:
        return f"did not end within {SECONDS} seconds"
    printed, status = result
    if printed != text:
        return f"printed {printed[:200]!r} and not {text[:200]!r}"
    return status_wrong(status, REFUSED if text.startswith(b"refused") else ANSWERED)


def says_in_pieces(pieces, text, then_close=True):
    process = start()
    feeding = threading.Thread(target=feed, args=(process.stdin, pieces, then_close), daemon=True)
    feeding.start()
    wrong = outcome_wrong(ended(process), text)
    feeding.join(SECONDS)
    for pipe in (process.stdin, process.stdout):
        try:
            pipe.close()
        except BrokenPipeError:
            pass
    return wrong


def says(data, text):
    return says_in_pieces([data], text)


def refused(code, place):
    return b"refused %d at %d\n" % (code, place)


# ---- tests


def answers():
    test("P12", says(P12, P12_TEXT))
    test("one hop", says(C + server(6, 1), b"hop 1 17 3\nroute 17 3\n"))
    test("a curve that carries nothing", says(curve_file(1, [(0, 0)]) + server(5, 2), b"hop 1 0 0\nroute 0 0\n"))
    test("32 servers", says(C + 32 * GOOD, HOPS_OF_GOOD))
    test("32 servers of edition 2", says(curve_file(2, C_BUCKETS) + 32 * server(6, 0, edition=2), HOPS_OF_GOOD))
    most = b"1099511627775 1099511627775\n"
    longest = b"".join(b"hop %d " % hop + most for hop in range(1, 33)) + b"route " + most
    test("the longest text", says(curve_file(1, [(0, BURST_END - 1)]) + 32 * server(1, 0), longest))


def delay_answers():
    for first in EDITIONS:
        for second in EDITIONS:
            data = curve_file(first, C_BUCKETS) + server(6, 1, edition=second) + delay(3)
            test(f"a curve of edition {first}, a server of edition {second}, a delay", says(data, MIXED_TEXT))
    test("one delay", says(C + delay(4), b"hop 1 32 4\nroute 32 4\n"))
    test("two delays", says(C + delay(2) + delay(3), b"hop 1 22 2\nhop 2 35 3\nroute 35 5\n"))
    nothing = curve_file(2, [(0, 0)])
    test("a curve that carries nothing, and delays", says(nothing + 2 * delay(7), b"hop 1 0 0\nhop 2 0 0\nroute 0 0\n"))
    # Nothing of the 11 bits behind (6,0) waits where the delay is 0.
    hops = b"".join(b"hop %d 11 %d\n" % (hop, 2 * (hop % 2)) for hop in range(1, MOST_SERVERS + 1))
    test("32 servers, every other a delay", says(C + 16 * (GOOD + delay(0)), hops + b"route 11 2\n"))


def refusals_at_the_curve():
    unsorted = curve_file(1, C_BUCKETS[::-1])
    padded = C[:-1] + bytes([C[-1] | 1])
    for name, data, code in [
        ("an empty input", b"", 1),
        ("another edition", bytes([0x31]) + C[1:] + GOOD, 1),
        ("another kind", bytes([0x14]) + C[1:] + GOOD, 1),
        ("a server where the curve is due", GOOD + C, 1),
        ("a delay where the curve is due", delay(5) + C, 1),
        ("a delay where the curve is due, cut short", delay(5)[:2], 1),
        ("a delay in edition 1 where the curve is due", server_file(1, pure_delay(5)) + C, 1),
        ("a curve's first byte", C[:1], 2),
        ("a curve cut short", C[:-1], 2),
        ("a curve of edition 2 cut short", curve_file(2, C_BUCKETS)[:-1], 2),
        ("a padding bit", padded + GOOD, 3),
        ("a curve that is not in normal form", unsorted + GOOD, 7),
    ]:
        test(f"refused at the curve: {name}", says(data, refused(code, 1)))
    test("refused at the first server: input that ends there", says(C, refused(1, 2)))


def refusals_at_servers():
    delay_too_early = server_file(1, pure_delay(5))
    for which, before, place in [
        ("the first server", C, 2), ("a later server", C + 3 * GOOD, 5), ("a server behind delays", C + 2 * delay(1), 4),
    ]:
        for name, data, code in [
            ("another edition", bytes([0x32]) + GOOD[1:], 1),
            ("another kind", bytes([0x10]) + GOOD[1:], 1),
            ("another kind in edition 2", bytes([0x24]) + GOOD[1:], 1),
            ("a curve where it is due", C, 1),
            ("a curve where it is due, cut short", C[:1], 1),
            ("a delay in edition 1", delay_too_early, 1),
            ("a delay in edition 1, cut short", delay_too_early[:1], 1),
            ("cut short", GOOD[:-1], 2),
            ("its first byte", GOOD[:1], 2),
            ("a server of edition 2, a delay's length", server(6, 0, edition=2)[:4], 2),
            *[(f"a delay's first {count} bytes", delay(5)[:count], 2) for count in (1, 2, 3)],
            *[(f"a delay with padding {bit}", delay(5)[:-1] + bytes([delay(5)[-1] | bit]), 3) for bit in (1, 2, 4, 8)],
            ("rate 0", server(0, 1), 6),
            ("a rate below the curve's last", server(2, 1), 8),
        ]:
            test(f"refused at {which}: {name}", says(before + data, refused(code, place)))


def refusals_beyond_the_ranges():
    most = [(1, BURST_END - 1)]
    for name, last in [("a server", server(1, 1)), ("a delay", delay(1))]:
        test(f"refused at the first server: a burst of 2^40 behind {name}", says(curve_file(1, most) + last, refused(9, 2)))
        less = curve_file(1, [(1, BURST_END - 2)])
        test(f"refused at a later server: a burst of 2^40 behind {name}", says(less + 2 * last, refused(9, 3)))
    for name, first, last in [
        ("servers", server(5, LATENCY_END - 1), server(5, 1)),
        ("delays", delay(LATENCY_END - 1), delay(1)),
        ("a server and a delay", server(5, LATENCY_END - 1), delay(1)),
        ("a delay and a server", delay(LATENCY_END - 1), server(5, 1)),
    ]:
        test(f"refused at a later server: joined latencies of 2^20, of {name}", says(C + first + last, refused(9, 3)))
    test("the earliest profile refused is named", says(C + server(2, 1) + server(0, 1), refused(8, 2)))
    test("33 servers", says(C + 33 * GOOD, refused(5, 34)))
    test("33 delays", says(C + 33 * delay(0), refused(5, 34)))
    test("one byte after 32 servers", says(C + 32 * GOOD + b"\0", refused(5, 34)))
    test("31 servers and a half", says(C + 31 * GOOD + GOOD[:3], refused(2, 33)))
    test("31 servers and half a delay", says(C + 31 * GOOD + delay(5)[:2], refused(2, 33)))


def random_inputs():
    wrong, answered = [], set()
    for _ in range(RANDOM_INPUTS):
        data = drawing.route_input(drawing.small_curve(), 0.4)
        text = bytes(routes.route(data).output)
        told = says(data, text)
        wrong += [f"{data.hex()}: {told}"] if told else []
        if not text.startswith(b"refused"):
            answered |= set(routes.headers(data)[1:])
    print(f"random inputs: {RANDOM_INPUTS} inputs")
    test("random inputs", wrong[:3])
    every = {(edition, kind) for edition in EDITIONS for kind in KINDS_OF[edition].intersection(SERVER_KINDS)}
    test("servers of each kind and edition came up in answered routes", sorted(every ^ answered))


def long_inputs():
    test("a megabyte of zeros", says(bytes(MEGABYTE), refused(1, 1)))
    test("a megabyte of valid servers, without a curve", says(MEGABYTE // len(GOOD) * GOOD, refused(1, 1)))
    test("a megabyte of valid servers behind a curve", says(C + MEGABYTE // len(GOOD) * GOOD, refused(5, 34)))
    test("a megabyte of valid delays behind a curve", says(C + MEGABYTE // len(delay(1)) * delay(1), refused(5, 34)))
    full = curve_file(1, drawing.curve_of(64, 300, 200))
    test("a megabyte behind 64 buckets", says(full + bytes(MEGABYTE), refused(1, 2)))


def slow(data, sizes=(1,), seconds=0.002):
    """Pieces of these sizes in turn, with pauses."""
    at = turn = 0
    while at < len(data):
        size = sizes[turn % len(sizes)]
        yield data[at:at + size]
        time.sleep(seconds)
        at, turn = at + size, turn + 1


def slow_inputs():
    test("one byte at a time", says_in_pieces(slow(P12), P12_TEXT))
    test("one byte at a time, 32 servers", says_in_pieces(slow(C + 32 * GOOD, seconds=0), HOPS_OF_GOOD))
    test("one byte at a time, 33 servers", says_in_pieces(slow(C + 33 * GOOD, seconds=0), refused(5, 34)))
    test("pieces that end inside profiles", says_in_pieces(slow(P12, (1, 5, 7, 11)), P12_TEXT))
    test("one byte at a time, cut short", says_in_pieces(slow(P12[:-1]), refused(2, 3)))
    test("one byte at a time, both kinds and editions", says_in_pieces(slow(MIXED), MIXED_TEXT))
    test("one byte at a time, a delay cut short", says_in_pieces(slow(MIXED[:-1]), refused(2, 3)))

    process = start()
    feed(process.stdin, [P12[:20]], then_close=False)
    time.sleep(0.05)
    process.send_signal(signal.SIGSTOP)
    time.sleep(0.05)
    process.send_signal(signal.SIGCONT)
    feed(process.stdin, [P12[20:]])
    test("stopped and continued while it reads", outcome_wrong(ended(process), P12_TEXT))
    process.stdout.close()


def forever(piece):
    while True:
        yield piece


def after(first, pieces):
    yield first
    yield from pieces


def endless_inputs():
    with open("/dev/zero", "rb") as zeros:
        process = start(stdin=zeros)
        test("endless zeros", outcome_wrong(ended(process), refused(1, 1)))
        process.stdout.close()
    test("endless lines of yes", says_in_pieces(forever(b"y\n"), refused(1, 1)))
    test("endless servers", says_in_pieces(forever(100 * GOOD), refused(1, 1)))
    test("endless servers behind a curve", says_in_pieces(after(C, forever(100 * GOOD)), refused(5, 34)))
    full = curve_file(1, drawing.curve_of(64, 300, 200)) + 33 * server(2**20 - 1, 0)
    test("as many bytes as decide, and the pipe stays open",
         says_in_pieces([full[:DECIDING_BYTES]], refused(5, 34), then_close=False))


def ends_with(process, data, may_be_piped=False):
    """What is wrong with a run whose output cannot be seen: it must end, and not by a signal."""
    feed(process.stdin, [data])
    result = ended(process)
    if result is None:
        return f"did not end within {SECONDS} seconds"
    if may_be_piped and result[1] == -signal.SIGPIPE:
        return ""
    return status_wrong(result[1], BROKEN)


def closed_outputs():
    with open("/dev/full", "wb") as full:
        for name, data in [("answered", P12), ("refused", b"")]:
            test(f"standard output full, {name}", ends_with(start(stdout=full), data))
    for name, data in [("answered", P12), ("refused", b"")]:
        shell = ["/bin/sh", "-c", 'exec "$0" >&-', PROGRAM]
        process = subprocess.Popen(shell, stdin=subprocess.PIPE, stderr=subprocess.DEVNULL)
        test(f"standard output closed, {name}", ends_with(process, data))
    reader, writer = os.pipe()
    process = start(stdout=writer)
    os.close(reader)
    os.close(writer)
    test("nobody reads standard output", ends_with(process, P12, may_be_piped=True))
    process = subprocess.Popen(["/bin/sh", "-c", 'exec "$0" <&-', PROGRAM], stdout=subprocess.PIPE, stderr=subprocess.DEVNULL)
    result = ended(process)
    test("standard input closed", status_wrong(result[1], BROKEN) if result else "did not end")
    process.stdout.close()


answers()
delay_answers()
refusals_at_the_curve()
refusals_at_servers()
refusals_beyond_the_ranges()
random_inputs()
long_inputs()
slow_inputs()
endless_inputs()
closed_outputs()
print(f"{passed} passed, {failed} failed")
sys.exit(failed != 0)
