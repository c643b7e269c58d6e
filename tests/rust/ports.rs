//! Pseudo-random servers that have something to do with a curve, and profile files and inputs of
//! routes, good and damaged.

use super::curves::Edge;
use super::lists;
use super::profiles::{curve_file, editions_of, server_file, PURE_DELAY_PADDING};
use super::random::Rng;
use super::rules::*;

// ---- servers

/// Numbers that are no kind of a server.
pub const ODD_KINDS: [u64; 4] = [0, 1, 4, u64::MAX];

/// Numbers that are no edition.
pub const ODD_EDITIONS: [u64; 3] = [0, 3, u64::MAX];

/// One of the odd numbers, or one that ends in the bits of the good one.
fn odd(rng: &mut Rng, odd: &[u64], good: u64) -> u64 {
    if rng.one_in(3) {
        good + (1 << rng.pick(&[4, 8, 16, 32, 63]))
    } else {
        rng.pick(odd)
    }
}

/// As near as a rate-latency server in range can be.
fn clamped(rate: u64, latency: u64) -> Server {
    server(rate.clamp(1, RATE_END - 1), latency.min(LATENCY_END - 1))
}

/// A whole tick at or beside a crossing of the curve.
fn crossing(rng: &mut Rng, curve: &[Bucket]) -> u64 {
    if curve.len() < 2 {
        return rng.below(4);
    }
    let place = 1 + rng.place(curve.len() - 1);
    let Edge { fall, rise } = Edge::between(curve[place - 1], curve[place]);
    (rise / fall + rng.below(3)).saturating_sub(1)
}

fn rate_for(rng: &mut Rng, curve: &[Bucket]) -> u64 {
    let (last, some, other) = (curve[curve.len() - 1].rate, rng.pick(curve).rate, rng.pick(curve).rate);
    match rng.below(10) {
        0..=1 => last,
        2 => (last + rng.below(3)).saturating_sub(1),
        3 => some,
        4 => (some + rng.below(3)).saturating_sub(1),
        5..=6 => some.min(other) + rng.below(some.abs_diff(other) + 1),
        7 => rng.within(1, 12),
        8 => curve[0].rate + rng.below(3),
        _ => rng.near(RATE_END),
    }
}

fn latency_for(rng: &mut Rng, curve: &[Bucket]) -> u64 {
    match rng.below(8) {
        0..=1 => 0,
        2 => rng.below(4),
        3 => rng.below(40),
        4..=6 => crossing(rng, curve),
        _ => rng.near(LATENCY_END),
    }
}

/// A server in range, of either kind.
pub fn server_for(rng: &mut Rng, curve: &[Bucket]) -> Server {
    let latency = latency_for(rng, curve);
    if rng.one_in(3) {
        pure_delay(latency.min(LATENCY_END - 1))
    } else {
        clamped(rate_for(rng, curve), latency)
    }
}

/// One whose rate, if it has one, is not below the curve's last.
pub fn bounded_server_for(rng: &mut Rng, curve: &[Bucket]) -> Server {
    let found = server_for(rng, curve);
    found.rate().map_or(found, |rate| clamped(rate.max(curve[curve.len() - 1].rate), found.latency()))
}

/// A server in range, of either kind.
pub fn any_server(rng: &mut Rng) -> Server {
    let latency = rng.near(LATENCY_END);
    if rng.one_in(3) {
        pure_delay(latency)
    } else {
        clamped(rng.near(RATE_END), latency)
    }
}

/// A server that once in so many times has a number out of range, a kind that is none, or a rate that a pure delay has not.
pub fn maybe_beyond(rng: &mut Rng, good: Server, one_in: u64) -> Passed {
    let passed = Passed::from(good);
    if !rng.one_in(one_in) {
        return passed;
    }
    let beyond = rng.pick(&[RATE_END, RATE_END + 1, 1 << 32, 1 << 63, u64::MAX]);
    let no_rate = good.rate().map_or(rng.within(1, RATE_END - 1), |_| 0);
    match rng.below(6) {
        0 => Passed { rate: no_rate, ..passed },
        1 => Passed { rate: beyond, ..passed },
        2 => Passed { latency: beyond, ..passed },
        3 => Passed { rate: beyond, latency: beyond, ..passed },
        _ => Passed { kind: odd(rng, &ODD_KINDS, passed.kind), ..passed },
    }
}

/// Two servers, of which some have latencies that add up to the end of the range or beside it.
pub fn two_servers(rng: &mut Rng) -> [Passed; 2] {
    let (first, mut second) = (any_server(rng), any_server(rng));
    if rng.one_in(3) {
        second = second.with_latency((LATENCY_END + 1 - first.latency().max(2)).saturating_sub(rng.below(3)));
    }
    [first, second].map(|server| maybe_beyond(rng, server, 8))
}

/// A curve and a server: the last burst behind it is 2^40-1, 2^40 or beside them.
pub fn burst_at_the_end(rng: &mut Rng) -> (Vec<Bucket>, Server) {
    let curve = lists::small_curve(rng);
    let last = curve[curve.len() - 1];
    let server = bounded_server_for(rng, &curve);
    let more = (BURST_END + 1).saturating_sub(last.burst + last.rate * server.latency()).saturating_sub(rng.below(3));
    (lists::raised(&curve, 0, more), server)
}

/// A cross curve and a rate-latency server: the latency that is left is 2^20-1, 2^20 or beside them.
pub fn latency_at_the_end(rng: &mut Rng) -> (Vec<Bucket>, Server) {
    let most = 1 << rng.below(21);
    let rate = rng.within(1, most).min(RATE_END - 1);
    let quotient = rng.below((BURST_END / rate).min(LATENCY_END) + 1);
    let burst = (quotient * rate + rng.below(3)).saturating_sub(1).min(BURST_END - 1);
    let latency = (LATENCY_END - quotient.min(LATENCY_END) + 1).saturating_sub(rng.below(3));
    let cross = bucket(rng.below(rate), burst);
    (vec![cross], clamped(rate, latency))
}

// ---- files

/// An edition that has the kind, or once in so many times another number.
pub fn maybe_odd_edition(rng: &mut Rng, kind: u64, one_in: u64) -> u64 {
    if !rng.one_in(one_in) {
        return rng.pick(editions_of(kind));
    }
    let good = rng.pick(&EDITIONS);
    if rng.one_in(3) { good } else { odd(rng, &ODD_EDITIONS, good) }
}

pub fn bytes(rng: &mut Rng, count: usize) -> Vec<u8> {
    (0..count).map(|_| rng.below(256) as u8).collect()
}

/// The file of a curve, in either edition.
pub fn file_of_curve(rng: &mut Rng, curve: &[Bucket]) -> Vec<u8> {
    curve_file(rng.pick(&EDITIONS), curve)
}

/// The file of a server, in any edition that has its kind.
pub fn file_of_server(rng: &mut Rng, server: Server) -> Vec<u8> {
    let edition = rng.pick(editions_of(Passed::from(server).kind));
    server_file(edition, server)
}

/// The file of a curve, or sometimes of a server.
pub fn good_file(rng: &mut Rng, curve: &[Bucket]) -> Vec<u8> {
    if rng.one_in(4) {
        let server = any_server(rng);
        file_of_server(rng, server)
    } else {
        file_of_curve(rng, curve)
    }
}

/// A first byte with one of the numbers that are an edition and a kind, or are next to them.
fn header(rng: &mut Rng) -> u8 {
    (rng.below(4) << 4 | rng.below(5)) as u8
}

fn flip(file: &mut [u8], bit: usize) {
    file[bit / 8] ^= 128 >> (bit % 8);
}

/// One to three changes that may break a rule; some are such that the file is good again.
pub fn damaged_file(rng: &mut Rng, file: &[u8], curve: &[Bucket]) -> Vec<u8> {
    let mut file = file.to_vec();
    for _ in 0..rng.pick(&[1, 1, 2, 3]) {
        if file.is_empty() {
            return file;
        }
        let bits = 8 * file.len();
        match rng.below(16) {
            0..=2 => flip(&mut file, rng.place(bits)),
            3 => flip(&mut file, bits - 1 - rng.place(6)),
            4 => flip(&mut file, rng.place(16).min(bits - 1)),
            5 => file.truncate(rng.place(file.len() + 1)),
            6 => file.truncate(file.len() - 1),
            7 => {
                let count = 1 + rng.place(8);
                let junk = bytes(rng, count);
                file.extend(junk);
            }
            8 => file.push(0),
            9 => {
                // Random bytes under a good header.
                let body = bytes(rng, file.len().saturating_sub(2));
                file.truncate(2);
                file.extend(body);
            }
            10 => {
                let count = rng.place(40);
                file = bytes(rng, count);
            }
            11 => {
                let mut mixed = curve.to_vec();
                rng.shuffle(&mut mixed);
                file = file_of_curve(rng, &mixed);
            }
            12 => file = server_file(rng.pick(&EDITIONS), server(0, rng.near(LATENCY_END))),
            13 => file[0] = header(rng),
            14 => file = server_file(rng.pick(&EDITIONS), pure_delay(rng.near(LATENCY_END))),
            _ => file.extend_from_within(..),
        }
    }
    file
}

pub fn some_file(rng: &mut Rng, curve: &[Bucket]) -> Vec<u8> {
    let file = good_file(rng, curve);
    if rng.one_in(2) {
        damaged_file(rng, &file, curve)
    } else {
        file
    }
}

/// The file of a pure delay. About one in two has another header, another length or a padding bit that is 1.
pub fn file_of_delay(rng: &mut Rng) -> Vec<u8> {
    let mut file = server_file(EDITIONS[1], pure_delay(rng.near(LATENCY_END)));
    let whole = file.len();
    if rng.one_in(6) {
        file[0] = header(rng);
    }
    if rng.one_in(6) {
        flip(&mut file, 8 * whole - 1 - rng.place(PURE_DELAY_PADDING));
    }
    if rng.one_in(6) {
        file.resize(rng.place(2 * whole), 0);
    }
    if rng.one_in(6) {
        file.resize(rng.pick(&[whole - 1, whole + 1, whole + 2]), 0);
    }
    file
}

/// A header of few buckets, the length that it requires, and random bytes between zero ones.
pub fn random_under_header(rng: &mut Rng) -> Vec<u8> {
    let count = 1 + rng.place(3);
    let mut file = file_of_curve(rng, &vec![bucket(0, 0); count]);
    for _ in 0..rng.within(1, 6) {
        let place = 1 + rng.place(file.len() - 1);
        file[place] ^= rng.pick(&[1, 2, 4, 64, 128]);
    }
    file[1] = file[1] & 3 | (count as u8 - 1) << 2;
    file
}

// ---- inputs of routes

/// Servers of which most take the curve and its successors, with latencies that leave room for more. Some routes only delay.
pub fn servers_for(rng: &mut Rng, curve: &[Bucket], count: usize) -> Vec<Server> {
    let only_delays = rng.one_in(8);
    let one = |rng: &mut Rng| match rng.below(24) {
        0 => server_for(rng, curve),
        1 => bounded_server_for(rng, curve),
        _ => {
            let found = bounded_server_for(rng, curve);
            let latency = found.latency() % (LATENCY_END / 32);
            if only_delays { pure_delay(latency) } else { found.with_latency(latency) }
        }
    };
    (0..count).map(|_| one(rng)).collect()
}

/// The files of a curve and of servers, each in any edition that has it.
pub fn files_of(rng: &mut Rng, curve: &[Bucket], servers: &[Server]) -> Vec<Vec<u8>> {
    let mut files = vec![file_of_curve(rng, curve)];
    files.extend(servers.iter().map(|server| file_of_server(rng, *server)));
    files
}

pub fn route_input(rng: &mut Rng, curve: &[Bucket]) -> Vec<u8> {
    let some = 1 + rng.place(MOST_SERVERS);
    let count = rng.pick(&[1, 1, 2, 2, 2, 3, 4, 5, some, MOST_SERVERS, MOST_SERVERS + 1]);
    let servers = servers_for(rng, curve, count);
    let mut parts = files_of(rng, curve, &servers);
    if rng.one_in(3) {
        let place = if rng.one_in(3) { 0 } else { rng.place(parts.len()) };
        parts[place] = match rng.below(8) {
            0 if place > 0 => file_of_curve(rng, curve),
            0 => {
                let server = any_server(rng);
                file_of_server(rng, server)
            }
            1 => Vec::new(),
            2 => file_of_delay(rng),
            _ => damaged_file(rng, &parts[place], curve),
        };
        if rng.one_in(4) {
            parts.truncate(place + 1);
        }
    }
    parts.concat()
}
