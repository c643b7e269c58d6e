//! The reference for what meets a server. A curve's value minus what is served rises, tick after
//! tick, up to where it is greatest, and then never again: a curve bends downward only, what is
//! served upward only. So the tick is found by doubling and halving, without any crossing. A pure delay
//! is searched in the same way: past its latency the difference is below every number.

use super::curves::{hull, least, Edge};
use super::rules::*;

/// The first whole number that is good, where every later one is good too.
fn first(mut good: impl FnMut(u64) -> bool) -> u64 {
    let (mut low, mut step) = (0, 1);
    while !good(low + step - 1) {
        low += step;
        step *= 2;
    }
    let mut high = low + step - 1;
    while low < high {
        let middle = low + (high - low) / 2;
        if good(middle) {
            high = middle;
        } else {
            low = middle + 1;
        }
    }
    low
}

fn signed(number: u128) -> i128 {
    i128::try_from(number).expect("a small number")
}

pub fn value(curve: &[Bucket], tick: u64) -> i128 {
    signed(least(curve, tick.into(), 1))
}

/// The whole tick at which a difference that only bends downward is greatest, and how great it is.
pub fn greatest(mut difference: impl FnMut(u64) -> i128) -> (u64, i128) {
    let tick = first(|tick| difference(tick + 1) <= difference(tick));
    (tick, difference(tick))
}

fn whole(number: i128) -> u64 {
    u64::try_from(number).expect("64 bits")
}

/// The greatest of value(s) - rate * s, and the first tick at which it is reached.
pub fn excess(curve: &[Bucket], rate: u64) -> (u64, u64) {
    let (tick, most) = greatest(|tick| value(curve, tick) - signed(u128::from(rate) * u128::from(tick)));
    (tick, whole(most))
}

/// What has come minus what is served; below every number where all is served that may come.
pub fn ahead(come: u128, served: Option<u128>) -> i128 {
    served.map_or(i128::MIN, |served| signed(come) - signed(served))
}

pub fn backlog(curve: &[Bucket], server: Server) -> u64 {
    whole(greatest(|tick| ahead(least(curve, tick.into(), 1), server.served(tick))).1)
}

/// The least d for which, at every p/q, what has come by then is served by (p+d)/q.
fn least_enough(curve: &[Bucket], server: Server, q: u64) -> u64 {
    let late = |d: u64| greatest(|p| ahead(least(curve, p.into(), q.into()), server.served_at(p + d, q))).1;
    first(|d| late(d) <= 0)
}

/// At a pure delay, where it is the number above which all others are enough: in half ticks it is met, or missed by one.
pub fn delay(curve: &[Bucket], server: Server) -> u64 {
    match server {
        Server::RateLatency { .. } => least_enough(curve, server, 1),
        Server::PureDelay { .. } => least_enough(curve, server, 2) / 2,
    }
}

fn later(b: &Bucket, latency: u64) -> Bucket {
    bucket(b.rate, b.burst + b.rate * latency)
}

/// The raw buckets whose normal form is the curve behind the server. A pure delay is slower than none of them.
pub fn behind_raw(curve: &[Bucket], server: Server) -> Vec<Bucket> {
    let latency = server.latency();
    let own = server.rate().map(|rate| bucket(rate, rate * latency + excess(curve, rate).1));
    let slower = curve.iter().filter(|b| server.rate().map_or(true, |rate| b.rate <= rate));
    slower.map(|b| later(b, latency)).chain(own).collect()
}

/// Whether the edge is crossed by a tick.
fn crossed_by(steeper: Bucket, flatter: Bucket, tick: u64) -> bool {
    let Edge { fall, rise } = Edge::between(steeper, flatter);
    u128::from(rise) <= u128::from(tick) * u128::from(fall)
}

/// Without the first ones that are lowest only up to a tick.
fn lowest_after(mut curve: &[Bucket], tick: u64) -> &[Bucket] {
    while let [next, after, ..] = curve {
        if !crossed_by(*next, *after, tick) {
            break;
        }
        curve = &curve[1..];
    }
    curve
}

/// Without the first ones that the server's own bucket covers together with the one after them.
fn uncovered(mut curve: &[Bucket], own: Bucket, latency: u64) -> &[Bucket] {
    if curve[0].rate == own.rate {
        curve = &curve[1..];
    }
    while let [next, after, ..] = curve {
        let [next, after] = [next, after].map(|b| later(b, latency));
        if Edge::between(own, next).order(&Edge::between(next, after)).is_lt() {
            break;
        }
        curve = &curve[1..];
    }
    curve
}

/// The curve behind the server in one pass over a curve in normal form whose last rate is not above
/// the server's. With k the first bucket that is not steeper than the server: where the latency ends
/// before k crosses the bucket before it, the answer begins with the server's own bucket, and those
/// fall away that it covers together with the one after them. Else those fall away that are lowest
/// only up to the latency. At a pure delay there is no steeper one, so k is the first of all.
pub fn behind(curve: &[Bucket], server: Server) -> Vec<Bucket> {
    let latency = server.latency();
    let not_steeper = |rate: u64| curve.iter().position(|b| b.rate <= rate).expect("a last rate that is not above");
    let k = server.rate().map_or(0, not_steeper);
    let own = server.rate().filter(|_| k > 0 && !crossed_by(curve[k - 1], curve[k], latency));
    let own = own.map(|rate| bucket(rate, rate * latency + excess(curve, rate).1));
    let rest = match own {
        Some(own) => uncovered(&curve[k..], own, latency),
        None => lowest_after(&curve[k..], latency),
    };
    own.into_iter().chain(rest.iter().map(|b| later(b, latency))).collect()
}

/// The same by the definition.
pub fn behind_by_definition(curve: &[Bucket], server: Server) -> Vec<Bucket> {
    hull(&behind_raw(curve, server))
}

/// The slowest rate of all that have one, and no rate where none has.
pub fn join(server: Server, next: Server) -> Server {
    let slowest = server.rate().into_iter().chain(next.rate()).min();
    let latency = server.latency() + next.latency();
    slowest.map_or(pure_delay(latency), |rate| Server::RateLatency { rate, latency })
}

/// With the last bucket (r, b) of the cross curve, in whole numbers: b/R rounded up.
pub fn residual(rate: u64, latency: u64, cross: &[Bucket]) -> Server {
    let last = cross[cross.len() - 1];
    let rest = last.burst % rate;
    let quotient = (last.burst - rest) / rate + u64::from(rest > 0);
    server(rate - last.rate, latency + quotient)
}

// ---- lines of the refusal table

pub fn server_lines(server: Passed) -> u32 {
    line(RANGE, server.server().is_none())
}

/// A pure delay has no rate of which some could be left.
pub fn shared_lines(server: Passed) -> u32 {
    line(RANGE, server.server().and_then(|server| server.rate()).is_none())
}

pub fn last_rate(curve: &[Bucket]) -> u64 {
    curve[curve.len() - 1].rate
}

pub fn unbounded(curve: &[Bucket], server: Server) -> bool {
    server.rate().is_some_and(|rate| last_rate(curve) > rate)
}
