//! Laws that the library's own answers must keep. Each is a test; its inputs are pseudo-random.

use super::curves::{all_pairs, is_normal_form_of, least};
use super::lent::ask_of_one_list;
use super::library;
use super::lists::*;
use super::ports::*;
use super::profiles::editions_of;
use super::questions::{self, at_port, of_curve_read, of_server_read, of_two, Operation, Told};
use super::rules::*;
use super::run::Run;
use super::servers::{ahead, behind_raw, greatest};
use Operation::*;

const SHORT: usize = 8_000;
const LONG: usize = 30;
const LONG_EACH: usize = 20;
const DECIDING_BYTES: usize = 675;

const NORMAL_ANSWERS: &str = "law: an answer is the normal form of its raw buckets";
const NORMAL_AGAIN: &str = "law: normalise of an answer is the answer";
const NORMALISE_ANSWERS: &str = "law: normalise answers buckets in range";
const NORMALISE_READS: &str = "law: a normal form reads as the least of the raw buckets";
const NORMALISE_ORDER: &str = "law: normalise in another order";
const LOWER_ITSELF: &str = "law: lower of a curve with itself";
const SUM_ITSELF: &str = "law: sum of a curve with itself";
const SUM_NOTHING: &str = "law: the sum with the curve 0";
const LENT_TWICE: &str = "law: one list lent twice";
const SHAPE_IS_LOWER: &str = "law: shape is lower with the link's bucket";
const SHAPE_READS: &str = "law: shape reads as the smaller of curve and link";
const SHAPE_TWICE: &str = "law: shaping twice by one link is shaping once";
const SHAPE_BURST: &str = "law: the burst of a shaped curve is the smaller of burst and frame";
const SHAPE_OBEYED: &str = "law: a curve with a bucket that is within the link's stays";
const SHAPE_LONGER: &str = "law: a longer frame never makes a backlog or a delay smaller";
const LOWER_TURNED: &str = "law: lower the other way round";
const SUM_TURNED: &str = "law: sum the other way round";
const LOWER_READS: &str = "law: lower reads as the smaller of the two";
const SUM_READS: &str = "law: sum reads as the sum of the two";
const SUM_OVER_LOWER: &str = "law: sum over lower";
const JOIN_TURNED: &str = "law: join the other way round";
const JOIN_GROUPED: &str = "law: join in another grouping";
const BEHIND_GREATEST: &str = "law: behind at a tick is the greatest gap of arrivals u ticks later over service by u";
const BACKLOG_BEHIND: &str = "law: backlog is the burst of behind";
const DELAY_ENOUGH: &str = "law: what has come by a tick is served when the delay is over";
const DELAY_LEAST: &str = "law: one tick less than the delay is too short at some tick";
const ABOVE_ENOUGH: &str = "law: every number above the delay of a pure delay is enough at every tick";
const BELOW_TOO_SHORT: &str = "law: no number below the delay of a pure delay is enough at every tick";
const HALF_A_TICK: &str = "law: half a tick more than the delay of a pure delay is enough at half ticks, half a tick less is not";
const NOTHING_WAITS: &str = "law: no delay of a pure delay for the curve 0";
const REFUSED_ALIKE: &str = "law: behind, backlog and delay refuse alike, but for LARGE";
const NO_DELAY: &str = "law: a pure delay of 0 hands on the curve and joins without a change";
const ONE_STEP: [&str; 4] = [
    "law: hop by hop is one step through the joined server, two rate-latency servers",
    "law: hop by hop is one step through the joined server, a rate-latency server and a pure delay",
    "law: hop by hop is one step through the joined server, a pure delay and a rate-latency server",
    "law: hop by hop is one step through the joined server, two pure delays",
];
const ONE_STEP_TURNED: [&str; 4] = [
    "law: the hops the other way round give the same curve, two rate-latency servers",
    "law: the hops the other way round give the same curve, a rate-latency server and a pure delay",
    "law: the hops the other way round give the same curve, a pure delay and a rate-latency server",
    "law: the hops the other way round give the same curve, two pure delays",
];
const DELAYS_ADDED: [&str; 4] = [
    "law: the delay of one step is at most the two delays added, two rate-latency servers",
    "law: the delay of one step is at most the two delays added, a rate-latency server and a pure delay",
    "law: the delay of one step is at most the two delays added, a pure delay and a rate-latency server",
    "law: the delay of one step is at most the two delays added, two pure delays",
];
const RESIDUAL_LEAST: &str = "law: the residual server never serves more than what is left";
const WRITTEN_READ: &str = "law: a profile written and read again is the same";
const READ_WRITTEN: &str = "law: a file accepted and written again is the same";
const EDITIONS_ALIKE: &str = "law: the editions of a file differ in their number alone";
const ROUTE_BY_CALLS: &str = "law: a route's text has the figures of the single calls";
const ROUTE_EDITIONS: &str = "law: the editions of a route's files change nothing";
const ROUTE_DECIDED: &str = "law: 675 bytes decide a route";

const NAMES: &[&str] = &[
    NORMAL_ANSWERS,
    NORMAL_AGAIN,
    NORMALISE_ANSWERS,
    NORMALISE_READS,
    NORMALISE_ORDER,
    LOWER_ITSELF,
    SUM_ITSELF,
    SUM_NOTHING,
    LENT_TWICE,
    SHAPE_IS_LOWER,
    SHAPE_READS,
    SHAPE_TWICE,
    SHAPE_BURST,
    SHAPE_OBEYED,
    SHAPE_LONGER,
    LOWER_TURNED,
    SUM_TURNED,
    LOWER_READS,
    SUM_READS,
    SUM_OVER_LOWER,
    JOIN_TURNED,
    JOIN_GROUPED,
    BEHIND_GREATEST,
    BACKLOG_BEHIND,
    DELAY_ENOUGH,
    DELAY_LEAST,
    ABOVE_ENOUGH,
    BELOW_TOO_SHORT,
    HALF_A_TICK,
    NOTHING_WAITS,
    REFUSED_ALIKE,
    NO_DELAY,
    RESIDUAL_LEAST,
    WRITTEN_READ,
    READ_WRITTEN,
    EDITIONS_ALIKE,
    ROUTE_BY_CALLS,
    ROUTE_EDITIONS,
    ROUTE_DECIDED,
];

/// All of them, each of which must have had inputs.
pub fn names() -> impl Iterator<Item = &'static str> {
    NAMES.iter().copied().chain(ONE_STEP).chain(ONE_STEP_TURNED).chain(DELAYS_ADDED)
}

impl Run {
    fn law(&mut self, name: &'static str, good: bool, operands: &[&[u64]]) {
        self.check(name, good, || format!("{operands:?}"));
    }

    /// What behind, backlog, delay and residual read of a curve at a tick: its burst at 0, and its value later.
    fn reading(&mut self, curve: &[u64], tick: u64) -> Option<u128> {
        let question = if tick == 0 { questions::burst(curve) } else { questions::value(curve, tick) };
        self.answer(&question).figure().map(u128::from)
    }
}

// ---- curves

/// An answered list is the normal form of its raw buckets, and normalise gives it back.
fn law_of_answers(run: &mut Run, answer: &[u64], raw: &[Bucket]) {
    let good = is_normal_form_of(&curve_buckets(answer), raw);
    run.law(NORMAL_ANSWERS, good, &[answer, &raw_list(raw)]);
    let again = run.answer(&questions::normalise(&raw_list(&curve_buckets(answer))));
    run.law(NORMAL_AGAIN, again.is(answer), &[answer]);
}

fn laws_of_normalise(run: &mut Run, raw: &[Bucket]) {
    let list = raw_list(raw);
    let told = run.answer(&questions::normalise(&list));
    run.law(NORMALISE_ANSWERS, told.answered(), &[&list]);
    law_of_answers(run, told.list(), raw);
    for _ in 0..3 {
        let tick = good_tick(&mut run.rng, &curve_buckets(told.list()));
        let good = run.reading(told.list(), tick) == Some(least(raw, tick.into(), 1));
        run.law(NORMALISE_READS, good, &[&list, &[tick]]);
    }
    let mut shuffled = raw.to_vec();
    run.rng.shuffle(&mut shuffled);
    let other = run.answer(&questions::normalise(&raw_list(&shuffled)));
    run.law(NORMALISE_ORDER, other == told, &[&list, &raw_list(&shuffled)]);
}

fn laws_of_one(run: &mut Run, curve: &[Bucket]) {
    let f = curve_list(curve);
    let told = run.answer(&of_two(Lower, &f, &f));
    run.law(LOWER_ITSELF, told.is(&f), &[&f]);
    run.law(LENT_TWICE, ask_of_one_list(library::lower, &f) == told, &[&f]);
    let told = run.answer(&of_two(Sum, &f, &f));
    let twice: Vec<Bucket> = curve.iter().map(|b| b.plus(*b)).collect();
    let good = match twice.iter().all(Bucket::in_range) {
        true => told.is(&curve_list(&twice)),
        false => told.code == u64::from(LARGE),
    };
    run.law(SUM_ITSELF, good, &[&f]);
    run.law(LENT_TWICE, ask_of_one_list(library::sum, &f) == told, &[&f]);
    let told = run.answer(&of_two(Sum, &f, &curve_list(&[bucket(0, 0)])));
    run.law(SUM_NOTHING, told.is(&f), &[&f]);

}

fn laws_of_shape(run: &mut Run, curve: &[Bucket]) {
    let f = curve_list(curve);
    let link = good_link(&mut run.rng, curve);
    let shape = run.answer(&questions::shape(&f, link));
    let told = [&f[..], &[link.rate, link.frame]];
    let lower = run.answer(&of_two(Lower, &f, &curve_list(&[link.bucket()])));
    run.law(SHAPE_IS_LOWER, shape == lower, &told);
    if curve.iter().any(|b| b.rate <= link.rate && b.burst <= link.frame) {
        run.law(SHAPE_OBEYED, shape.is(&f), &told);
    }
    if !shape.answered() {
        return;
    }
    law_of_answers(run, shape.list(), &[curve, &[link.bucket()]].concat());
    let again = run.answer(&questions::shape(shape.list(), link));
    run.law(SHAPE_TWICE, again.is(shape.list()), &told);
    let burst = run.reading(&f, 0).map(|burst| burst.min(link.frame.into()));
    let good = burst.is_some() && run.reading(shape.list(), 0) == burst;
    run.law(SHAPE_BURST, good, &told);
    let tick = good_tick(&mut run.rng, curve);
    let of_link = link.bucket().at(tick.into(), 1);
    let good = run.reading(shape.list(), tick) == run.reading(&f, tick).map(|v| v.min(of_link));
    run.law(SHAPE_READS, good, &[&f, &[link.rate, link.frame, tick]]);

    let longer = Link { frame: (link.frame + run.rng.below(40)).min(FRAME_END - 1), ..link };
    let wider = run.answer(&questions::shape(&f, longer));
    let server = bounded_server_for(&mut run.rng, &curve_buckets(shape.list()));
    for asked in [Backlog, Delay] {
        let [less, more] = [&shape, &wider].map(|told| run.answer(&at_port(asked, told.list(), server)).figure());
        if wider.answered() && more.is_some() {
            run.law(SHAPE_LONGER, less.is_some() && less <= more, &[&f, &[link.rate, link.frame, longer.frame], &numbers(&[server])]);
        }
    }
}

fn laws_of_two(run: &mut Run, f: &[u64], g: &[u64]) {
    let lower = run.answer(&of_two(Lower, f, g));
    let turned = run.answer(&of_two(Lower, g, f));
    run.law(LOWER_TURNED, lower == turned, &[f, g]);
    let sum = run.answer(&of_two(Sum, f, g));
    let turned = run.answer(&of_two(Sum, g, f));
    run.law(SUM_TURNED, sum == turned, &[f, g]);
    if lower.answered() {
        law_of_answers(run, lower.list(), &[curve_buckets(f), curve_buckets(g)].concat());
    }
    if sum.answered() {
        law_of_answers(run, sum.list(), &all_pairs(&curve_buckets(f), &curve_buckets(g)));
    }
    if !lower.answered() && !sum.answered() {
        return;
    }
    for _ in 0..2 {
        let tick = good_tick(&mut run.rng, &curve_buckets(f));
        let both = run.reading(f, tick).zip(run.reading(g, tick));
        if lower.answered() {
            let good = both.is_some() && run.reading(lower.list(), tick) == both.map(|(a, b)| a.min(b));
            run.law(LOWER_READS, good, &[f, g, &[tick]]);
        }
        if sum.answered() {
            let good = both.is_some() && run.reading(sum.list(), tick) == both.map(|(a, b)| a + b);
            run.law(SUM_READS, good, &[f, g, &[tick]]);
        }
    }
}

/// Adding to the lower of two is the lower of the two sums.
fn laws_of_three(run: &mut Run, f: &[u64], g: &[u64], h: &[u64]) {
    let [lower, to_g, to_h] =
        [of_two(Lower, g, h), of_two(Sum, f, g), of_two(Sum, f, h)].map(|question| run.answer(&question));
    if lower.answered() && to_g.answered() && to_h.answered() {
        let first = run.answer(&of_two(Sum, f, lower.list()));
        let second = run.answer(&of_two(Lower, to_g.list(), to_h.list()));
        run.law(SUM_OVER_LOWER, first == second, &[f, g, h]);
    }
}

// ---- servers

fn numbers(servers: &[Server]) -> Vec<u64> {
    let three = |server: &Server| {
        let Passed { kind, rate, latency } = (*server).into();
        [kind, rate, latency]
    };
    servers.iter().flat_map(three).collect()
}

fn laws_of_join(run: &mut Run) {
    let [first, second] = two_servers(&mut run.rng);
    let third = any_server(&mut run.rng);
    let third = third.with_latency(third.latency() % 16);
    let told = run.answer(&questions::join(first, second));
    let turned = run.answer(&questions::join(second, first));
    run.check(JOIN_TURNED, told == turned, || format!("{first:?} {second:?}"));
    if let (Some(left), Some(right)) = (told.server(), run.answer(&questions::join(second, third)).server()) {
        let (left, right) = (run.answer(&questions::join(left, third)), run.answer(&questions::join(first, right)));
        run.check(JOIN_GROUPED, left == right, || format!("{first:?} {second:?} {third:?}"));
    }
}

/// The greatest over u of what is read at t+u, as the library tells it, minus what is served by u + early. All
/// ticks are tried where the curve and the latency end soon. None where a tick would be out of range.
fn greatest_gap(run: &mut Run, curve: &[Bucket], server: Server, t: u64, early: u64) -> Option<i128> {
    let list = curve_list(curve);
    let last = curve.windows(2).last().map_or(0, |b| (b[1].burst - b[0].burst) / (b[0].rate - b[1].rate));
    let end = last + server.latency() + 2;
    if t + 2 * end >= TICK_END {
        return None;
    }
    let mut gap = |u: u64| ahead(run.reading(&list, t + u).expect("a value"), server.served(u + early));
    if end <= 40 {
        (0..=end).map(gap).max()
    } else {
        Some(greatest(&mut gap).1)
    }
}

/// Laws of one curve at one server.
fn laws_of_port(run: &mut Run, curve: &[Bucket], server: Server) {
    let f = curve_list(curve);
    let told = [&f[..], &numbers(&[server])];
    let [behind, backlog, delay] = [Behind, Backlog, Delay].map(|asked| run.answer(&at_port(asked, &f, server)));
    if behind.answered() {
        law_of_answers(run, behind.list(), &behind_raw(curve, server));
        let good = backlog.answered() && run.reading(behind.list(), 0) == backlog.figure().map(u128::from);
        run.law(BACKLOG_BEHIND, good, &told);
        for t in [0, 1, run.rng.below(20), good_tick(&mut run.rng, curve)] {
            if let Some(most) = greatest_gap(run, curve, server, t, 0) {
                let good = run.reading(behind.list(), t).map(|value| value as i128) == Some(most);
                run.law(BEHIND_GREATEST, good, &[&f, &numbers(&[server]), &[t]]);
            }
        }
    }
    let Some(d) = delay.figure() else { return };
    match server {
        Server::RateLatency { .. } => laws_of_delay(run, curve, server, d),
        Server::PureDelay { .. } => laws_of_pure_delay(run, curve, server, d),
    }
}

fn laws_of_delay(run: &mut Run, curve: &[Bucket], server: Server, d: u64) {
    let told = || format!("{curve:?} {server:?} {d}");
    if let Some(late) = greatest_gap(run, curve, server, 0, d) {
        run.check(DELAY_ENOUGH, late <= 0, told);
        let too_short = d == 0 || greatest_gap(run, curve, server, 0, d - 1).is_some_and(|late| late > 0);
        run.check(DELAY_LEAST, too_short, told);
    }
}

/// The delay of a pure delay is the end of what is too short, and need not be enough itself. Ticks alone do not tell it from
/// the next number where there is a burst; half ticks do, and there the curve is read without the library.
fn laws_of_pure_delay(run: &mut Run, curve: &[Bucket], server: Server, d: u64) {
    let told = || format!("{curve:?} {server:?} {d}");
    for more in [1, 2, 1 + run.rng.below(40), 1 + run.rng.below(LATENCY_END)] {
        if let Some(late) = greatest_gap(run, curve, server, 0, d + more) {
            run.check(ABOVE_ENOUGH, late <= 0, told);
        }
    }
    if *curve == [bucket(0, 0)] {
        run.check(NOTHING_WAITS, d == 0, told);
        return;
    }
    for below in [d.checked_sub(1), d.checked_sub(2), d.checked_sub(1 + run.rng.below(40)), Some(0).filter(|_| d > 0)] {
        if let Some(late) = below.and_then(|below| greatest_gap(run, curve, server, 0, below)) {
            run.check(BELOW_TOO_SHORT, late > 0, told);
        }
    }
    let late = |halves: u64| greatest(|p| ahead(least(curve, p.into(), 2), server.served_at(p + halves, 2))).1;
    run.check(HALF_A_TICK, late(2 * d + 1) <= 0 && (d == 0 || late(2 * d - 1) > 0), told);
}

/// A list and a server that may break rules.
fn law_of_refusals(run: &mut Run, f: &[u64], server: Passed) {
    let [behind, backlog, delay] = [Behind, Backlog, Delay].map(|asked| run.answer(&at_port(asked, f, server)));
    let large = behind.code == u64::from(LARGE) && backlog.code == 0;
    let good = backlog.code == delay.code && (behind.code == backlog.code || large);
    run.check(REFUSED_ALIKE, good, || format!("{f:?} {server:?}"));
}

fn law_of_no_delay(run: &mut Run, curve: &[Bucket], server: Server) {
    let f = curve_list(curve);
    let joined = [questions::join(server, pure_delay(0)), questions::join(pure_delay(0), server)];
    let joins = joined.iter().all(|question| run.answer(question).server() == Some(server));
    let [behind, delay] = [Behind, Delay].map(|asked| run.answer(&at_port(asked, &f, pure_delay(0))));
    run.law(NO_DELAY, joins && behind.is(&f) && delay.figure() == Some(0), &[&f, &numbers(&[server])]);
}

/// Demand 3, for two hops in a row that are answered and whose servers join.
fn laws_of_two_hops(run: &mut Run, curve: &[Bucket], first: Server, second: Server) {
    let f = curve_list(curve);
    let told = [&f[..], &numbers(&[first, second])];
    let kinds = 2 * usize::from(first.rate().is_none()) + usize::from(second.rate().is_none());
    let hops = |run: &mut Run, first, second| {
        let middle = run.answer(&at_port(Behind, &f, first));
        let after = run.answer(&at_port(Behind, middle.list(), second));
        (middle.answered() && after.answered()).then_some((middle, after))
    };
    let joined = run.answer(&questions::join(first, second)).server();
    let (Some(joined), Some((middle, after))) = (joined, hops(run, first, second)) else { return };
    let one = run.answer(&at_port(Behind, &f, joined));
    run.law(ONE_STEP[kinds], one.answered() && one.list() == after.list(), &told);
    if let Some((_, turned)) = hops(run, second, first) {
        run.law(ONE_STEP_TURNED[kinds], turned.list() == after.list(), &told);
    }
    let mut delay = |curve: &[u64], server| run.answer(&at_port(Delay, curve, server)).figure();
    let (all, at_first, at_second) = (delay(&f, joined), delay(&f, first), delay(middle.list(), second));
    let good = all.zip(at_first).zip(at_second).is_some_and(|((all, first), second)| all <= first + second);
    run.law(DELAYS_ADDED[kinds], good, &told);
}

/// What the server that is left has served past its latency, with what the cross curve lets come since, is
/// within what the whole server has served.
fn law_of_residual(run: &mut Run, cross: &[Bucket], server: Server) {
    let list = curve_list(cross);
    let Some(left) = run.answer(&at_port(Residual, &list, server)).server() else { return };
    for later in [0, 1, good_tick(&mut run.rng, cross)] {
        let tick = left.latency() + later;
        let crossed = run.reading(&list, later).expect("a value");
        let both = left.served(tick).map(|served| served + crossed);
        let good = both.zip(server.served(tick)).is_some_and(|(both, whole)| both <= whole);
        run.law(RESIDUAL_LEAST, good, &[&list, &numbers(&[server]), &[tick]]);
    }
}

fn laws_of_servers(run: &mut Run, curve: &[Bucket]) {
    let server = bounded_server_for(&mut run.rng, curve);
    laws_of_port(run, curve, server);
    law_of_no_delay(run, curve, server);
    let [first, second] = [0; 2].map(|_| bounded_server_for(&mut run.rng, curve));
    laws_of_two_hops(run, curve, first, second);
    let beside = server_for(&mut run.rng, curve);
    law_of_residual(run, curve, beside);
    let beyond = maybe_beyond(&mut run.rng, beside, 6);
    let list = as_curve(&mut run.rng, curve, 4);
    law_of_refusals(run, &list, beyond);
}

// ---- profiles

/// Write, then read: the curve or the server comes back, in the edition in which it was written.
fn law_of_writing(run: &mut Run, curve: &[Bucket]) {
    let list = curve_list(curve);
    for &edition in editions_of(CURVE_KIND) {
        let file = run.answer(&questions::write_curve(edition, &list)).bytes().to_vec();
        let read = run.answer(&questions::read(&file));
        let same = read.figures == of_curve_read(edition, curve.len() as u64) && read.list_read() == list;
        run.law(WRITTEN_READ, read.answered() && same, &[&list, &[edition]]);
    }
    let server = any_server(&mut run.rng);
    let passed = Passed::from(server);
    for &edition in editions_of(passed.kind) {
        let file = run.answer(&questions::write_server(edition, server)).bytes().to_vec();
        let read = run.answer(&questions::read(&file));
        let same = read.answered() && read.figures == of_server_read(edition, passed);
        run.law(WRITTEN_READ, same, &[&numbers(&[server]), &[edition]]);
    }
}

/// The bytes after the first are the same in both editions, and in the first the edition stands alone in the upper half.
fn law_of_editions(run: &mut Run, curve: &[Bucket]) {
    let list = curve_list(curve);
    let server = loop {
        let server = any_server(&mut run.rng);
        if server.rate().is_some() {
            break server;
        }
    };
    let [curves, servers] = [
        EDITIONS.map(|edition| run.answer(&questions::write_curve(edition, &list))),
        EDITIONS.map(|edition| run.answer(&questions::write_server(edition, server))),
    ];
    for [first, second] in [curves, servers] {
        let mut file = first.bytes().to_vec();
        if let Some(header) = file.first_mut() {
            *header ^= 0x10 ^ 0x20;
        }
        let good = first.answered() && second.answered() && file == second.bytes();
        run.law(EDITIONS_ALIKE, good, &[&list, &numbers(&[server])]);
    }
}

/// Read, then write: the bytes come back.
fn law_of_reading(run: &mut Run, file: &[u8]) {
    let read = run.answer(&questions::read(file));
    if !read.answered() {
        return;
    }
    let [edition, kind, _, rate, latency] = read.figures;
    let again = match kind {
        CURVE_KIND => run.answer(&questions::write_curve(edition, read.list_read())),
        _ => run.answer(&questions::write_server(edition, Passed { kind, rate, latency })),
    };
    run.check(READ_WRITTEN, again.answered() && again.bytes() == file, || format!("{file:02x?}"));
}

// ---- routes

/// The text that the single calls make, and the first code that one of them refuses with.
fn text_by_calls(run: &mut Run, curve: &[Bucket], servers: &[Server]) -> String {
    let first = curve_list(curve);
    let (mut list, mut joined, mut text) = (first.clone(), None, String::new());
    for (place, server) in servers.iter().enumerate() {
        let mut calls: Vec<Told> =
            [Backlog, Delay, Behind].iter().map(|asked| run.answer(&at_port(*asked, &list, *server))).collect();
        if let Some(before) = joined {
            calls.push(run.answer(&questions::join(before, *server)));
        }
        if let Some(code) = calls.iter().map(|told| told.code).filter(|&code| code != 0).min() {
            return format!("refused {code} at {}\n", place + 2);
        }
        text += &format!("hop {} {} {}\n", place + 1, calls[0].figures[0], calls[1].figures[0]);
        joined = Some(calls.get(3).map_or(Passed::from(*server), Told::passed));
        list = calls[2].list().to_vec();
    }
    let joined = joined.expect("a server");
    let [backlog, delay] = [Backlog, Delay].map(|asked| run.answer(&at_port(asked, &first, joined)).figures[0]);
    text + &format!("route {backlog} {delay}\n")
}

fn laws_of_routes(run: &mut Run, curve: &[Bucket]) {
    let count = run.rng.pick(&[1, 2, 3, 5, 8, MOST_SERVERS]);
    let servers = servers_for(&mut run.rng, curve, count);
    let text = text_by_calls(run, curve, &servers);
    let [told, other] = [0; 2].map(|_| {
        let input = files_of(&mut run.rng, curve, &servers).concat();
        run.answer(&questions::route(&input))
    });
    run.check(ROUTE_BY_CALLS, told.answered() && told.bytes() == text.as_bytes(), || format!("{curve:?} {servers:?}"));
    run.check(ROUTE_EDITIONS, told == other, || format!("{curve:?} {servers:?}"));
}

/// A long curve, 32 servers and more: whatever follows the first bytes changes nothing.
fn law_of_deciding_bytes(run: &mut Run, curve: &[Bucket]) {
    let more = 1 + run.rng.place(4);
    let servers = servers_for(&mut run.rng, curve, MOST_SERVERS + more);
    let mut input = files_of(&mut run.rng, curve, &servers).concat();
    let (junk, longer) = (bytes(&mut run.rng, 20), 650 + run.rng.place(100));
    input.extend(junk);
    input.resize(input.len().max(longer), 0x12);
    let whole = run.answer(&questions::route(&input));
    let start = run.answer(&questions::route(&input[..input.len().min(DECIDING_BYTES)]));
    run.check(ROUTE_DECIDED, whole.answered() && whole == start, || format!("{input:02x?}"));
}

// ---- all

fn laws_of_profiles(run: &mut Run, curve: &[Bucket]) {
    law_of_writing(run, curve);
    law_of_editions(run, curve);
    let file = some_file(&mut run.rng, curve);
    law_of_reading(run, &file);
    let file = random_under_header(&mut run.rng);
    law_of_reading(run, &file);
    let file = file_of_delay(&mut run.rng);
    law_of_reading(run, &file);
}

pub fn laws(run: &mut Run) {
    for case in 0..SHORT {
        let raw = small_list(&mut run.rng);
        laws_of_normalise(run, &raw);
        let curve = small_curve(&mut run.rng);
        laws_of_one(run, &curve);
        laws_of_shape(run, &curve);
        let [f, g] = small_pair(&mut run.rng).map(|curve| as_curve(&mut run.rng, &curve, 12));
        laws_of_two(run, &f, &g);
        if case % 4 == 0 {
            laws_of_three(run, &curve_list(&curve), &f, &g);
        }
        laws_of_join(run);
        laws_of_servers(run, &curve);
        laws_of_profiles(run, &curve);
        laws_of_routes(run, &curve);
    }
    for _ in 0..LONG {
        let raw = large_list(&mut run.rng);
        laws_of_normalise(run, &raw);
        let curve = large_curve(&mut run.rng);
        laws_of_one(run, &curve);
        laws_of_shape(run, &curve);
        let [f, g] = large_pair(&mut run.rng).map(|curve| curve_list(&curve));
        laws_of_two(run, &f, &g);
        for _ in 0..LONG_EACH {
            laws_of_servers(run, &curve);
        }
        laws_of_profiles(run, &curve);
        laws_of_routes(run, &curve);
        law_of_deciding_bytes(run, &curve);
    }
}
