//! The reference for the route's text. The curve that enters a hop is worked out in one step from the
//! first curve, through the servers before it joined, and not from the hop before.

use super::curves::large_lines;
use super::profiles::{bytes_required, kind_of, parsed, Content};
use super::rules::*;
use super::servers::{backlog, behind, delay, join, unbounded};

/// The profile of one of the kinds that are due at the start of the rest, and the bytes behind it.
fn due<'a>(kinds: &[u64], rest: &'a [u8]) -> Result<(Content, &'a [u8]), u32> {
    if !kinds.contains(&kind_of(rest)) {
        return Err(HEADER);
    }
    let count = bytes_required(rest).filter(|&count| count <= rest.len()).ok_or(LENGTH)?;
    match parsed(&rest[..count]) {
        (0, Some(profile)) => Ok((profile.content, &rest[count..])),
        (lines, _) => Err(winner(lines)),
    }
}

/// The server that is due, joined with those before it, and the curve behind all of them.
struct Hop<'a> {
    server: Server,
    joined: Server,
    after: Vec<Bucket>,
    rest: &'a [u8],
}

fn hop<'a>(first: &[Bucket], curve: &[Bucket], before: Option<Server>, rest: &'a [u8]) -> Result<Hop<'a>, u32> {
    let (profile, rest) = due(&[RATE_LATENCY_KIND, PURE_DELAY_KIND], rest)?;
    let Content::Server(server) = profile else { unreachable!("a server was due") };
    if unbounded(curve, server) {
        return Err(UNBOUNDED);
    }
    let joined = before.map_or(server, |before| join(before, server));
    if !joined.in_range() {
        return Err(LARGE);
    }
    let after = behind(first, joined);
    match large_lines(&after) {
        0 => Ok(Hop { server, joined, after, rest }),
        lines => Err(winner(lines)),
    }
}

/// The lines of the report, or which code is told of which profile.
fn report(input: &[u8]) -> Result<Vec<String>, (u32, usize)> {
    let (profile, mut rest) = due(&[CURVE_KIND], input).map_err(|code| (code, 1))?;
    let Content::Curve(first) = profile else { unreachable!("a curve was due") };
    let (mut curve, mut before, mut lines) = (first.clone(), None, Vec::new());
    while !rest.is_empty() || before.is_none() {
        let place = lines.len() + 2;
        if lines.len() == MOST_SERVERS {
            return Err((COUNT, place));
        }
        let hop = hop(&first, &curve, before, rest).map_err(|code| (code, place))?;
        let (backlog, delay) = (backlog(&curve, hop.server), delay(&curve, hop.server));
        lines.push(format!("hop {} {backlog} {delay}\n", lines.len() + 1));
        (curve, before, rest) = (hop.after, Some(hop.joined), hop.rest);
    }
    let joined = before.expect("a server");
    lines.push(format!("route {} {}\n", backlog(&first, joined), delay(&first, joined)));
    Ok(lines)
}

/// The text, and if it is a refusal its code and its profile.
pub fn text(input: &[u8]) -> (Vec<u8>, Option<(u32, usize)>) {
    match report(input) {
        Ok(lines) => (lines.concat().into_bytes(), None),
        Err((code, place)) => (format!("refused {code} at {place}\n").into_bytes(), Some((code, place))),
    }
}
