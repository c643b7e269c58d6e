//! The comparisons: campaigns of pseudo-random questions of one kind, the references against the
//! definitions, and the figures that the scope has written down.

use super::curves::{all_pairs, hull, is_normal_form_of, least};
use super::lists::*;
use super::ports::*;
use super::profiles::{curve_file, server_file};
use super::questions::{self, at_port, exact, of_curve_read, of_passed, of_server_read, of_two, one};
use super::questions::{Figures, Held, Operation, Question};
use super::random::Rng;
use super::rules::*;
use super::run::Run;
use super::servers::{ahead, backlog, behind, behind_by_definition, delay, greatest};
use Operation::*;

// ---- questions

fn short_normalise(rng: &mut Rng) -> Question {
    let list = small_list(rng);
    questions::normalise(&as_raw(rng, &list, 4))
}

fn long_normalise(rng: &mut Rng) -> Question {
    let list = large_list(rng);
    questions::normalise(&as_raw(rng, &list, 6))
}

fn value_of(rng: &mut Rng, curve: &[Bucket]) -> Question {
    let f = as_curve(rng, curve, 4);
    let tick =
        if rng.one_in(8) { rng.pick(&[TICK_END, TICK_END + 1, 1 << 63, u64::MAX]) } else { good_tick(rng, curve) };
    questions::value(&f, tick)
}

fn short_value(rng: &mut Rng) -> Question {
    let curve = small_curve(rng);
    value_of(rng, &curve)
}

fn long_value(rng: &mut Rng) -> Question {
    let curve = large_curve(rng);
    value_of(rng, &curve)
}

fn short_of_two(rng: &mut Rng, operation: Operation) -> Question {
    let [f, g] = small_pair(rng).map(|curve| as_curve(rng, &curve, 6));
    of_two(operation, &f, &g)
}

fn long_of_two(rng: &mut Rng, operation: Operation) -> Question {
    let [f, g] = [large_curve(rng), large_curve(rng)].map(|curve| as_curve(rng, &curve, 12));
    of_two(operation, &f, &g)
}

/// One curve of 60 to 68 buckets dealt out.
fn dealt_out(rng: &mut Rng) -> Question {
    let count = 60 + rng.place(9);
    let curve = curve_of(rng, count, 200, 300);
    let (f, g): (Vec<Bucket>, Vec<Bucket>) = curve.iter().partition(|_| rng.one_in(2));
    of_two(Lower, &curve_list(&f), &curve_list(&g))
}

fn sum_of(curves: [Vec<Bucket>; 2]) -> Question {
    let [f, g] = curves.map(|curve| curve_list(&curve));
    of_two(Sum, &f, &g)
}

fn shape_of(rng: &mut Rng, curve: &[Bucket]) -> Question {
    let f = as_curve(rng, curve, 4);
    let link = good_link(rng, curve);
    let link = if rng.one_in(8) { bad_link(rng, link) } else { link };
    questions::shape(&f, link)
}

fn short_shape(rng: &mut Rng) -> Question {
    let curve = small_curve(rng);
    shape_of(rng, &curve)
}

fn long_shape(rng: &mut Rng) -> Question {
    let curve = large_curve(rng);
    shape_of(rng, &curve)
}

/// The link and the rest of one curve, which has 60 to 65 buckets.
fn link_dealt_out(rng: &mut Rng) -> Question {
    let count = 60 + rng.place(6);
    let mut curve = curve_of(rng, count, 200, 300);
    let link = curve.remove(rng.place(count));
    let rest = curve_list(&curve);
    questions::shape(&rest, Link { rate: link.rate.max(1), frame: link.burst })
}

fn joining(rng: &mut Rng) -> Question {
    let [server, next] = two_servers(rng);
    questions::join(server, next)
}

/// A server of either kind for a curve, and sometimes the curve {(0,0)}, for which nothing waits.
fn short_port(rng: &mut Rng, operation: Operation) -> Question {
    let curve = if rng.one_in(50) { vec![bucket(0, 0)] } else { small_curve(rng) };
    let server = server_for(rng, &curve);
    let server = maybe_beyond(rng, server, 12);
    at_port(operation, &as_curve(rng, &curve, 6), server)
}

fn long_port(rng: &mut Rng, operation: Operation) -> Question {
    let curve = large_curve(rng);
    let server = server_for(rng, &curve);
    let server = maybe_beyond(rng, server, 20);
    at_port(operation, &as_curve(rng, &curve, 12), server)
}

fn port_at_the_end(rng: &mut Rng) -> Question {
    let (curve, server) = burst_at_the_end(rng);
    at_port(Behind, &curve_list(&curve), server)
}

fn residual_at_the_end(rng: &mut Rng) -> Question {
    let (cross, server) = latency_at_the_end(rng);
    at_port(Residual, &curve_list(&cross), server)
}

fn short_read(rng: &mut Rng) -> Question {
    let curve = small_curve(rng);
    questions::read(&some_file(rng, &curve))
}

fn long_read(rng: &mut Rng) -> Question {
    let curve = large_curve(rng);
    questions::read(&some_file(rng, &curve))
}

fn writing_curve(rng: &mut Rng, curve: &[Bucket], one_in: u64) -> Question {
    let edition = maybe_odd_edition(rng, CURVE_KIND, one_in);
    questions::write_curve(edition, &as_curve(rng, curve, one_in))
}

fn writing_server(rng: &mut Rng) -> Question {
    let server = any_server(rng);
    let server = maybe_beyond(rng, server, 4);
    questions::write_server(maybe_odd_edition(rng, server.kind, 4), server)
}

fn short_route(rng: &mut Rng) -> Question {
    let curve = small_curve(rng);
    questions::route(&route_input(rng, &curve))
}

fn long_route(rng: &mut Rng) -> Question {
    let curve = large_curve(rng);
    questions::route(&route_input(rng, &curve))
}

type Draw = fn(&mut Rng) -> Question;

/// Each campaign is a test: its name, how many inputs, and how one is drawn.
const CAMPAIGNS: &[(&str, usize, Draw)] = &[
    ("normalise, short lists", 150_000, short_normalise),
    ("normalise, long lists", 6_000, long_normalise),
    ("value, short curves", 100_000, short_value),
    ("value, long curves", 6_000, long_value),
    ("burst, short curves", 50_000, |rng| {
        let curve = small_curve(rng);
        questions::burst(&as_curve(rng, &curve, 4))
    }),
    ("burst, long curves", 3_000, |rng| {
        let curve = large_curve(rng);
        questions::burst(&as_curve(rng, &curve, 8))
    }),
    ("lower, short curves", 150_000, |rng| short_of_two(rng, Lower)),
    ("lower, long curves", 3_000, |rng| long_of_two(rng, Lower)),
    ("lower, one curve dealt out", 3_000, dealt_out),
    ("sum, short curves", 150_000, |rng| short_of_two(rng, Sum)),
    ("sum, long curves", 2_000, |rng| long_of_two(rng, Sum)),
    ("sum, long curves that share crossings", 2_000, |rng| sum_of(large_pair(rng))),
    ("sum, 58 to 68 crossings dealt out", 3_000, |rng| sum_of(crossings_dealt_out(rng))),
    ("sum, crossings that differ by less than a tick", 20_000, |rng| sum_of(nearly_together(rng))),
    ("sum, rates and bursts at the ends of their ranges", 20_000, |rng| sum_of(ends_added(rng))),
    ("shape, short curves", 100_000, short_shape),
    ("shape, long curves", 3_000, long_shape),
    ("shape, 60 to 65 buckets", 3_000, link_dealt_out),
    ("join", 200_000, joining),
    ("behind, short curves", 250_000, |rng| short_port(rng, Behind)),
    ("behind, long curves", 6_000, |rng| long_port(rng, Behind)),
    ("behind, bursts at the end of their range", 50_000, port_at_the_end),
    ("backlog, short curves", 150_000, |rng| short_port(rng, Backlog)),
    ("backlog, long curves", 6_000, |rng| long_port(rng, Backlog)),
    ("delay, short curves", 150_000, |rng| short_port(rng, Delay)),
    ("delay, long curves", 4_000, |rng| long_port(rng, Delay)),
    ("residual, short curves", 100_000, |rng| short_port(rng, Residual)),
    ("residual, long curves", 3_000, |rng| long_port(rng, Residual)),
    ("residual, latencies at the end of their range", 50_000, residual_at_the_end),
    ("read, short files", 250_000, short_read),
    ("read, long files", 15_000, long_read),
    ("read, random bytes under a good header", 100_000, |rng| questions::read(&random_under_header(rng))),
    ("read, files of pure delays", 100_000, |rng| questions::read(&file_of_delay(rng))),
    ("write_curve, short curves", 100_000, |rng| {
        let curve = small_curve(rng);
        writing_curve(rng, &curve, 4)
    }),
    ("write_curve, long curves", 6_000, |rng| {
        let curve = large_curve(rng);
        writing_curve(rng, &curve, 8)
    }),
    ("write_server", 100_000, writing_server),
    ("route, short curves", 60_000, short_route),
    ("route, long curves", 300, long_route),
];

pub fn names() -> impl Iterator<Item = &'static str> {
    CAMPAIGNS.iter().map(|(name, ..)| *name)
}

pub fn campaigns(run: &mut Run) {
    for (name, count, draw) in CAMPAIGNS {
        for _ in 0..*count {
            let question = draw(&mut run.rng);
            run.compare(name, &question);
        }
    }
}

// ---- the references themselves

const REFERENCE_CASES: usize = 10_000;

/// The closed forms of the references against the definitions.
pub fn references(run: &mut Run) {
    for case in 0..REFERENCE_CASES {
        let long = case % 100 == 0;
        let raw = if long { large_list(&mut run.rng) } else { small_list(&mut run.rng) };
        let good = is_normal_form_of(&hull(&raw), &raw);
        run.check("reference: the hull is the normal form", good, || format!("{raw:?}"));
        let [f, g] = if long { large_pair(&mut run.rng) } else { small_pair(&mut run.rng) };
        let pairs = all_pairs(&f, &g);
        let good = is_normal_form_of(&hull(&pairs), &pairs);
        run.check("reference: the hull of all pairs is the sum", good, || format!("{f:?} {g:?}"));
        let server = bounded_server_for(&mut run.rng, &f);
        let good = behind(&f, server) == behind_by_definition(&f, server);
        run.check("reference: behind in one pass is that by definition", good, || format!("{f:?} {server:?}"));
        reference_by_ticks(run);
    }
}

/// A curve of small numbers and a server of either kind, whose figures every tick can be tried for.
fn small_port(rng: &mut Rng) -> (Vec<Bucket>, Server) {
    let curve = loop {
        let curve = hull(&small_list(rng));
        if curve[curve.len() - 1].burst < 60 && curve[0].rate < 60 {
            break curve;
        }
    };
    let rate = (curve[curve.len() - 1].rate + rng.below(5)).max(1);
    let latency = rng.below(12);
    let server = if rng.one_in(3) { pure_delay(latency) } else { server(rate, latency) };
    (curve, server)
}

/// Figures of small numbers by trying every tick. A pure delay's is tried in ticks and in parts of one: in each the least that is
/// enough is the delay or one more, and so it can be no other whole number.
fn reference_by_ticks(run: &mut Run) {
    let (curve, server) = small_port(&mut run.rng);
    let told = || format!("{curve:?} {server:?}");
    let late = |p: u64, d: u64, q: u64| ahead(least(&curve, p.into(), q.into()), server.served_at(p + d, q));
    let most = |d: u64, q: u64| (0..150 * q).map(|p| late(p, d, q)).max().expect("a time");
    let enough = |q: u64| (0..).find(|&d| most(d, q) <= 0).expect("a delay");
    let good = i128::from(backlog(&curve, server)) == most(0, 1) && greatest(|tick| late(tick, 0, 1)).1 == most(0, 1);
    run.check("reference: backlog by halving is that by trying", good, told);
    let found = delay(&curve, server);
    match server {
        Server::RateLatency { .. } => {
            run.check("reference: delay by halving is that by trying", enough(1) == found, told);
        }
        Server::PureDelay { latency } => {
            let good = (1..=3).all(|q| enough(q) == q * found || enough(q) == q * found + 1);
            run.check("reference: the delay of a pure delay by halving is that by trying", good, told);
            let good = found == if curve == [bucket(0, 0)] { 0 } else { latency };
            run.check("reference: the delay of a pure delay is its latency, or 0 for {(0,0)}", good, told);
        }
    }
}

// ---- figures that are written down

fn figure(run: &mut Run, name: &'static str, question: Question, code: u32, figures: Figures, output: &[u64]) {
    let exact = exact(&question);
    let reference = winner(exact.lines(usize::MAX)) == code
        && (code != 0 || (exact.figures == figures && curve_list(&exact.buckets) == output));
    let told = run.answer(&question);
    let list = if question.operation == Read { told.list_read() } else { told.list() };
    let good = told.code == u64::from(code) && told.stayed && told.figures == figures && list == output;
    run.check(name, good && reference, || {
        format!("{question:?}\n  told {told:?}, the reference is right: {reference}")
    });
}

fn bytes_figure(run: &mut Run, name: &'static str, question: Question, bytes: &[u8]) {
    let told = run.answer(&question);
    let reference = exact(&question).output == Held::Bytes(bytes.to_vec());
    run.check(name, told.answered() && told.bytes() == bytes && reference, || {
        format!("{question:?}\n  told {told:?}, the reference is right: {reference}")
    });
}

fn list(numbers: &[u64]) -> Vec<u64> {
    curve_list(&raw_buckets(numbers))
}

fn curve_is(run: &mut Run, name: &'static str, question: Question, answer: &[u64]) {
    figure(run, name, question, 0, one((answer.len() / RAW_NUMBERS) as u64), &list(answer));
}

fn number_is(run: &mut Run, name: &'static str, question: Question, answer: u64) {
    figure(run, name, question, 0, one(answer), &[]);
}

fn server_is(run: &mut Run, name: &'static str, question: Question, answer: Server) {
    figure(run, name, question, 0, of_passed(answer.into()), &[]);
}

fn refused(run: &mut Run, name: &'static str, question: Question, code: u32) {
    let figures = question.operation.refused();
    figure(run, name, question, code, figures, &[]);
}

pub fn figures(run: &mut Run) {
    let c = list(&[10, 2, 3, 20]);
    figures_of_the_table(run, &c);
    other_figures(run, &c);
    figures_of_delays(run, &c);
    figures_of_editions(run, &c);
}

fn figures_of_the_table(run: &mut Run, c: &[u64]) {
    let normalise = |raw: &[u64]| questions::normalise(raw);
    let port = |operation, curve: &[u64], rate, latency| at_port(operation, &list(curve), server(rate, latency));

    curve_is(run, "P1", normalise(&[3, 20, 10, 2, 10, 2, 5, 15, 3, 25]), &[10, 2, 3, 20]);
    curve_is(run, "P2", normalise(&[4, 0, 3, 1, 2, 2]), &[4, 0, 2, 2]);
    curve_is(run, "P3", normalise(&[10, 0, 4, 2, 0, 5]), &[10, 0, 4, 2, 0, 5]);
    curve_is(run, "P4", of_two(Sum, c, &list(&[4, 0, 2, 2])), &[14, 2, 12, 4, 5, 22]);
    curve_is(run, "P5", at_port(Behind, c, server(6, 1)), &[6, 17, 3, 23]);
    number_is(run, "P5", at_port(Backlog, c, server(6, 1)), 17);
    number_is(run, "P5", at_port(Delay, c, server(6, 1)), 3);
    curve_is(run, "P6", at_port(Behind, c, server(6, 4)), &[3, 32]);
    number_is(run, "P6", at_port(Backlog, c, server(6, 4)), 32);
    number_is(run, "P6", at_port(Delay, c, server(6, 4)), 6);
    curve_is(run, "P7", port(Behind, &[3, 32], 5, 2), &[3, 38]);
    number_is(run, "P7", port(Delay, &[3, 32], 5, 2), 9);
    server_is(run, "P7", questions::join(server(6, 4), server(5, 2)), server(5, 6));
    curve_is(run, "P7", at_port(Behind, c, server(5, 6)), &[3, 38]);
    number_is(run, "P7", at_port(Delay, c, server(5, 6)), 9);
    curve_is(run, "P8", port(Behind, &[5, 7], 5, 2), &[5, 17]);
    number_is(run, "P8", port(Delay, &[5, 7], 5, 2), 4);
    for operation in [Behind, Backlog, Delay] {
        refused(run, "P8", port(operation, &[6, 7], 5, 2), UNBOUNDED);
    }
    number_is(run, "P9", port(Backlog, &[0, 0], 5, 2), 0);
    number_is(run, "P9", port(Delay, &[0, 0], 5, 2), 0);
    number_is(run, "P9", port(Backlog, &[5, 0], 10, 3), 15);
    number_is(run, "P9", port(Delay, &[5, 0], 10, 3), 3);
    server_is(run, "P10", at_port(Residual, c, server(6, 1)), server(3, 5));
    let server_bytes = [0x12, 0x00, 0x00, 0x60, 0x00, 0x01];
    let curve_bytes = [0x11, 0x00, 0x00, 0x02, 0x80, 0x00, 0x00, 0x00, 0x00, 0x80];
    bytes_figure(run, "P11", questions::write_server(1, server(6, 1)), &server_bytes);
    bytes_figure(run, "P11", questions::write_curve(1, &list(&[10, 2])), &curve_bytes);
    figure(run, "P11", questions::read(&server_bytes), 0, of_server_read(1, server(6, 1).into()), &[]);
    figure(run, "P11", questions::read(&curve_bytes), 0, of_curve_read(1, 1), &list(&[10, 2]));
    let input = [curve_file(1, &curve_buckets(c)), server_file(1, server(6, 4)), server_file(1, server(5, 2))].concat();
    bytes_figure(run, "P12", questions::route(&input), b"hop 1 32 6\nhop 2 38 9\nroute 38 9\n");
}

fn other_figures(run: &mut Run, c: &[u64]) {
    let normalise = |raw: &[u64]| questions::normalise(raw);
    let port = |operation, curve: &[u64], rate, latency| at_port(operation, &list(curve), server(rate, latency));
    number_is(run, "C at 0, and its burst", questions::value(c, 0), 0);
    number_is(run, "C at 0, and its burst", questions::burst(c), 2);
    number_is(run, "the burst of {(0,0)}", questions::burst(&list(&[0, 0])), 0);
    number_is(run, "{(0,5)} and (10,0)", port(Backlog, &[0, 5], 10, 0), 5);
    number_is(run, "{(0,5)} and (10,0)", port(Delay, &[0, 5], 10, 0), 1);

    let shape = |curve: &[u64], rate, frame| questions::shape(curve, Link { rate, frame });
    curve_is(run, "shape {(3,20)} by 10", shape(&list(&[3, 20]), 10, 0), &[10, 0, 3, 20]);
    curve_is(run, "shape {(3,20)} by 10 with frames of 2", shape(&list(&[3, 20]), 10, 2), &[10, 2, 3, 20]);
    curve_is(run, "shape C by links that it obeys", shape(c, 10, 2), &[10, 2, 3, 20]);
    curve_is(run, "shape C by links that it obeys", shape(c, 12, 5), &[10, 2, 3, 20]);
    curve_is(run, "shape C by 10 with frames of 1", shape(c, 10, 1), &[10, 1, 3, 20]);
    let most = server(1, LATENCY_END - 1);
    server_is(run, "join (1, 2^20-1) with (1, 0)", questions::join(most, server(1, 0)), most);
    refused(run, "join (1, 2^20-1) with (1, 1)", questions::join(most, server(1, 1)), LARGE);
    curve_is(run, "64 raw buckets", normalise(&[7, 9].repeat(64)), &[7, 9]);
    refused(run, "65 raw buckets", normalise(&[7, 9].repeat(65)), COUNT);
    curve_is(run, "burst 2^40-1", normalise(&[0, BURST_END - 1]), &[0, BURST_END - 1]);
    refused(run, "burst 2^40", normalise(&[0, BURST_END]), RANGE);
}

fn figures_of_delays(run: &mut Run, c: &[u64]) {
    let name = "C at a pure delay of 4";
    curve_is(run, name, at_port(Behind, c, pure_delay(4)), &[3, 32]);
    number_is(run, name, at_port(Backlog, c, pure_delay(4)), 32);
    number_is(run, name, at_port(Delay, c, pure_delay(4)), 4);
    let name = "C at a pure delay of 0";
    curve_is(run, name, at_port(Behind, c, pure_delay(0)), c);
    number_is(run, name, at_port(Backlog, c, pure_delay(0)), 2);
    number_is(run, name, at_port(Delay, c, pure_delay(0)), 0);
    let name = "{(0,0)} at a pure delay of 4";
    curve_is(run, name, at_port(Behind, &list(&[0, 0]), pure_delay(4)), &[0, 0]);
    number_is(run, name, at_port(Backlog, &list(&[0, 0]), pure_delay(4)), 0);
    number_is(run, name, at_port(Delay, &list(&[0, 0]), pure_delay(4)), 0);
    refused(run, "a pure delay beside C", at_port(Residual, c, pure_delay(4)), RANGE);
    server_is(run, "join (6,1) with a pure delay of 3", questions::join(server(6, 1), pure_delay(3)), server(6, 4));
    server_is(run, "join a pure delay of 3 with (6,1)", questions::join(pure_delay(3), server(6, 1)), server(6, 4));
    server_is(run, "join pure delays of 2 and 3", questions::join(pure_delay(2), pure_delay(3)), pure_delay(5));
    let most = pure_delay(LATENCY_END - 1);
    server_is(run, "join pure delays of 2^20-1 and 0", questions::join(most, pure_delay(0)), most);
    refused(run, "join pure delays of 2^20-1 and 1", questions::join(most, pure_delay(1)), LARGE);
    for kind in ODD_KINDS {
        let odd = Passed { kind, rate: 6, latency: 1 };
        refused(run, "kinds that are none", questions::join(odd, server(6, 1)), RANGE);
        refused(run, "kinds that are none", questions::write_server(2, odd), RANGE);
    }
    let with_rate = Passed { rate: 1, ..pure_delay(4).into() };
    for operation in [Behind, Backlog, Delay] {
        refused(run, "a pure delay with a rate", at_port(operation, c, with_rate), RANGE);
    }
}

fn figures_of_editions(run: &mut Run, c: &[u64]) {
    let delay_bytes = [0x23, 0x00, 0x00, 0x50];
    bytes_figure(run, "the file of a pure delay of 5", questions::write_server(2, pure_delay(5)), &delay_bytes);
    let read = of_server_read(2, pure_delay(5).into());
    figure(run, "the file of a pure delay of 5", questions::read(&delay_bytes), 0, read, &[]);
    refused(run, "a pure delay in edition 1", questions::write_server(1, pure_delay(5)), HEADER);
    refused(run, "a pure delay in edition 1", questions::read(&[0x13, 0x00, 0x00, 0x50]), HEADER);
    refused(run, "a pure delay padded with a 1", questions::read(&[0x23, 0x00, 0x00, 0x51]), PAD);
    refused(run, "a pure delay of 5 bytes", questions::read(&[0x23, 0x00, 0x00, 0x50, 0x00]), LENGTH);
    let with_rate = Passed { rate: 1, ..pure_delay(5).into() };
    refused(run, "a pure delay with a rate in editions 1 and 2", questions::write_server(1, with_rate), HEADER);
    refused(run, "a pure delay with a rate in editions 1 and 2", questions::write_server(2, with_rate), RANGE);
    for edition in ODD_EDITIONS {
        refused(run, "editions that are none", questions::write_curve(edition, c), HEADER);
        refused(run, "editions that are none", questions::write_server(edition, server(6, 1)), HEADER);
    }
    let input = [curve_file(2, &curve_buckets(c)), server_file(1, server(6, 1)), server_file(2, pure_delay(3))].concat();
    bytes_figure(run, "a route of both kinds and editions", questions::route(&input), b"hop 1 17 3\nhop 2 32 3\nroute 32 6\n");
}
