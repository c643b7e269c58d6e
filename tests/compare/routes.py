"""The route's text by the rules: hop by hop, each with the curve from the hop before."""

from curves import normal_form
from profiles import header, parsed, required_bytes
from rules import (
    COUNT, CURVE_KIND, HEADER, LARGE, LENGTH, MOST_BUCKETS, MOST_SERVERS, SERVER_KINDS,
    Exact, bucket_in_range, server_in_range,
)
from servers import backlog, behind_raw, delay, join, limit, unbounded


def profile_due(kinds, rest):
    """(lines, curve or server, bytes behind it) of the profile that stands at the start of the rest of the input; one of these kinds is
    due."""
    found, count = required_bytes(rest)
    if found not in kinds:
        return {HEADER}, None, rest
    if count is None or len(rest) < count:
        return {LENGTH}, None, rest
    lines, curve, server = parsed(rest[:count])
    return lines, curve or server, rest[count:]


def headers(data):
    """(edition, kind) of each profile of an input, up to the first that is cut short or no profile, which is the last of them."""
    found = []
    while data:
        found.append(header(data))
        count = required_bytes(data)[1]
        if count is None or len(data) < count:
            break
        data = data[count:]
    return found


def hop_refusals(curve, server, joined):
    """The lines of backlog, delay, behind and of joining, for a server that was read."""
    lines = unbounded(curve[-1][0] > limit(server))
    if lines:
        return lines, None
    after = normal_form(behind_raw(curve, server))
    if len(after) > MOST_BUCKETS or not all(map(bucket_in_range, after)) or not server_in_range(joined):
        lines = {LARGE}
    return lines, after


def report(data):
    """The lines of text."""
    refused = lambda lines, place: [f"refused {min(lines)} at {place}"]
    lines, first, rest = profile_due([CURVE_KIND], data)
    if lines:
        return refused(lines, 1)
    hops, joined, curve = [], None, first
    while rest or not hops:
        place = len(hops) + 2
        if len(hops) == MOST_SERVERS:
            return refused({COUNT}, place)
        lines, server, rest = profile_due(SERVER_KINDS, rest)
        if not lines:
            joined = join(joined, server) if joined else server
            lines, after = hop_refusals(curve, server, joined)
        if lines:
            return refused(lines, place)
        hops.append(f"hop {len(hops) + 1} {backlog(curve, server)} {delay(curve, server)}")
        curve = after
    return hops + [f"route {backlog(first, joined)} {delay(first, joined)}"]


def route(data):
    text = "".join(line + "\n" for line in report(data)).encode("ascii")
    return Exact(set(), (len(text),), text)
