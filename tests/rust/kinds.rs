//! What of the two kinds of servers and the two editions of files each call must have been tried with, and
//! what of it a call is. Each is a line of a table: how it is called, and whether it holds.

use super::curves::Edge;
use super::ports::{ODD_EDITIONS, ODD_KINDS};
use super::profiles::{bytes_required, parsed, PURE_DELAY_BYTES, RATE_LATENCY_BYTES};
use super::questions::{Exact, Operation, Question};
use super::rules::*;
use super::run::Run;
use super::servers::behind_raw;
use Operation::*;

type Table<Is> = &'static [(&'static str, Is)];

fn names<Is>(table: Table<Is>) -> Vec<&'static str> {
    table.iter().map(|(name, _)| *name).collect()
}

// ---- servers

fn good_but_for_its_kind(server: Passed) -> bool {
    let as_kind = |kind| Passed { kind, ..server }.server().is_some();
    server.server().is_none() && (as_kind(RATE_LATENCY_KIND) || as_kind(PURE_DELAY_KIND))
}

fn ends_like(number: u64, good: &[u64]) -> bool {
    number > 15 && good.contains(&(number % 16))
}

/// A server that is refused, and nothing else of the call.
const REFUSED: Table<fn(Passed) -> bool> = &[
    ("a kind of 0", |server| server.kind == ODD_KINDS[0] && good_but_for_its_kind(server)),
    ("a kind of 1", |server| server.kind == ODD_KINDS[1] && good_but_for_its_kind(server)),
    ("a kind of 4", |server| server.kind == ODD_KINDS[2] && good_but_for_its_kind(server)),
    ("a kind of 2^64-1", |server| server.kind == ODD_KINDS[3] && good_but_for_its_kind(server)),
    ("a kind that ends in the bits of a good one", |server| {
        ends_like(server.kind, &[RATE_LATENCY_KIND, PURE_DELAY_KIND]) && good_but_for_its_kind(server)
    }),
    ("a pure delay with a rate", |Passed { kind, rate, latency }| {
        kind == PURE_DELAY_KIND && (1..RATE_END).contains(&rate) && latency < LATENCY_END
    }),
    ("a pure delay of 2^20", |server| server == pure_delay(LATENCY_END).into()),
    ("a rate-latency server with a latency of 2^20", |Passed { kind, rate, latency }| {
        kind == RATE_LATENCY_KIND && (1..RATE_END).contains(&rate) && latency == LATENCY_END
    }),
];

const TAKEN: Table<fn(Passed) -> bool> = &[
    ("a pure delay of 0", |server| server == pure_delay(0).into()),
    ("a pure delay of 2^20-1", |server| server == pure_delay(LATENCY_END - 1).into()),
    ("a rate-latency server with a latency of 0", |Passed { kind, latency, .. }| kind == RATE_LATENCY_KIND && latency == 0),
    ("a rate-latency server with a latency of 2^20-1", |Passed { kind, latency, .. }| {
        kind == RATE_LATENCY_KIND && latency == LATENCY_END - 1
    }),
];

/// The kinds of the two that join, and the latency of the joined one.
type Joined = ([u64; 2], u64);
const TWO_RATES: [u64; 2] = [RATE_LATENCY_KIND, RATE_LATENCY_KIND];
const RATE_FIRST: [u64; 2] = [RATE_LATENCY_KIND, PURE_DELAY_KIND];
const DELAY_FIRST: [u64; 2] = [PURE_DELAY_KIND, RATE_LATENCY_KIND];
const TWO_DELAYS: [u64; 2] = [PURE_DELAY_KIND, PURE_DELAY_KIND];

const JOINED: Table<fn(Joined) -> bool> = &[
    ("two rate-latency servers, 2^20-1 in all", |joined| joined == (TWO_RATES, LATENCY_END - 1)),
    ("two rate-latency servers, LARGE by 2^20 in all", |joined| joined == (TWO_RATES, LATENCY_END)),
    ("a rate-latency server and a pure delay, 2^20-1 in all", |joined| joined == (RATE_FIRST, LATENCY_END - 1)),
    ("a rate-latency server and a pure delay, LARGE by 2^20 in all", |joined| joined == (RATE_FIRST, LATENCY_END)),
    ("a pure delay and a rate-latency server, 2^20-1 in all", |joined| joined == (DELAY_FIRST, LATENCY_END - 1)),
    ("a pure delay and a rate-latency server, LARGE by 2^20 in all", |joined| joined == (DELAY_FIRST, LATENCY_END)),
    ("two pure delays, 2^20-1 in all", |joined| joined == (TWO_DELAYS, LATENCY_END - 1)),
    ("two pure delays, LARGE by 2^20 in all", |joined| joined == (TWO_DELAYS, LATENCY_END)),
];

/// A curve at a pure delay with this latency.
const AT_DELAY: Table<fn(&[Bucket], u64) -> bool> = &[
    ("a burst at a pure delay with a latency", |curve, latency| curve[0].burst > 0 && latency > 0),
    ("a burst at a pure delay of 0", |curve, latency| curve[0].burst > 0 && latency == 0),
    ("a rate and no burst at a pure delay with a latency", |curve, latency| {
        curve[0].rate > 0 && curve[0].burst == 0 && latency > 0
    }),
    ("the curve {(0,0)} at a pure delay with a latency", |curve, latency| curve == [bucket(0, 0)] && latency > 0),
    ("a last rate of 2^20-1 at a pure delay", |curve, _| curve[curve.len() - 1].rate == RATE_END - 1),
    ("a crossing at the tick at which a pure delay ends", |curve, latency| {
        let mut edges = curve.windows(2).map(|b| Edge::between(b[0], b[1]));
        edges.any(|edge| edge.rise == latency * edge.fall)
    }),
];

/// The moved buckets behind a pure delay, and those of them that stay.
const BEHIND_DELAY: Table<fn(&[Bucket], &[Bucket]) -> bool> = &[
    ("all buckets stay behind a pure delay", |moved, stay| moved.len() == stay.len() && moved.len() > 1),
    ("some buckets stay behind a pure delay", |moved, stay| moved.len() > stay.len() && stay.len() > 1),
    ("a burst of 2^40-1 behind a pure delay", |_, stay| stay[stay.len() - 1].burst == BURST_END - 1),
    ("a burst of 2^40 behind a pure delay", |_, stay| stay[stay.len() - 1].burst == BURST_END),
    ("a bucket out of range that falls away behind a pure delay", |moved, stay| {
        stay.iter().all(Bucket::in_range) && !moved.iter().all(Bucket::in_range)
    }),
];

/// The code of a curve beside a pure delay.
const BESIDE_DELAY: Table<fn(u32) -> bool> = &[
    ("a pure delay beside a curve", |code| code == 0),
    ("a pure delay beside a list that is no curve", |code| code == LIST || code == COUNT),
    ("a pure delay beside a curve that is not in normal form", |code| code == FORM),
];

// ---- files

/// Whether a file begins with this byte, and is good if it begins with another one.
fn good_under(file: &[u8], header: u8, other: u8) -> bool {
    file.first() == Some(&header) && parsed(&[&[other], &file[1..]].concat()).0 == 0
}

fn good_as(file: &[u8], header: u8) -> bool {
    good_under(file, header, header)
}

/// Whether it is a pure delay but for its length.
fn delay_of_bytes(file: &[u8], bytes: usize) -> bool {
    file.first() == Some(&0x23) && file.len() == bytes
}

/// Whether it is a pure delay but for this in the last four bits.
fn delay_padded(file: &[u8], padding: u8) -> bool {
    delay_of_bytes(file, PURE_DELAY_BYTES) && file[PURE_DELAY_BYTES - 1] % 16 == padding
}

const READ: Table<fn(&[u8]) -> bool> = &[
    ("a curve of edition 1", |file| good_as(file, 0x11)),
    ("a curve of edition 2", |file| good_as(file, 0x21)),
    ("a rate-latency server of edition 1", |file| good_as(file, 0x12)),
    ("a rate-latency server of edition 2", |file| good_as(file, 0x22)),
    ("a pure delay of edition 2", |file| good_as(file, 0x23)),
    ("a pure delay of 0", |file| file == [0x23, 0, 0, 0]),
    ("a pure delay of 2^20-1", |file| file == [0x23, 0xff, 0xff, 0xf0]),
    ("a pure delay of edition 1", |file| good_under(file, 0x13, 0x23)),
    ("a pure delay of edition 3", |file| good_under(file, 0x33, 0x23)),
    ("a rate-latency server of edition 3", |file| good_under(file, 0x32, 0x22)),
    ("a curve of edition 3", |file| good_under(file, 0x31, 0x21)),
    ("a pure delay of kind 4", |file| good_under(file, 0x24, 0x23)),
    ("a pure delay's first byte alone", |file| delay_of_bytes(file, 1)),
    ("a pure delay without its last byte", |file| delay_of_bytes(file, PURE_DELAY_BYTES - 1)),
    ("a pure delay and a byte more", |file| delay_of_bytes(file, PURE_DELAY_BYTES + 1)),
    ("a pure delay as long as a rate-latency server", |file| delay_of_bytes(file, RATE_LATENCY_BYTES)),
    ("a rate-latency server as short as a pure delay", |file| {
        file.len() == PURE_DELAY_BYTES && (file[0] == 0x12 || file[0] == 0x22)
    }),
    ("a pure delay with the first padding bit 1", |file| delay_padded(file, 8)),
    ("a pure delay with the second padding bit 1", |file| delay_padded(file, 4)),
    ("a pure delay with the third padding bit 1", |file| delay_padded(file, 2)),
    ("a pure delay with the last padding bit 1", |file| delay_padded(file, 1)),
];

/// A server's file that is read without any output list.
const READ_WITHOUT_LIST: Table<fn(&[u8]) -> bool> = &[
    ("a rate-latency server, and no output list", |file| good_as(file, 0x12) || good_as(file, 0x22)),
    ("a pure delay, and no output list", |file| good_as(file, 0x23)),
];

/// The edition in which something is to be written that is good.
const WRITTEN_IN: Table<fn(u64) -> bool> = &[
    ("edition 1", |edition| edition == EDITIONS[0]),
    ("edition 2", |edition| edition == EDITIONS[1]),
    ("edition 0", |edition| edition == ODD_EDITIONS[0]),
    ("edition 3", |edition| edition == ODD_EDITIONS[1]),
    ("edition 2^64-1", |edition| edition == ODD_EDITIONS[2]),
    ("an edition that ends in the bits of a good one", |edition| ends_like(edition, &EDITIONS)),
];

const WRITTEN: Table<fn(u64, Passed) -> bool> = &[
    ("a rate-latency server in edition 1", |edition, server| edition == 1 && of_kind(server, RATE_LATENCY_KIND)),
    ("a rate-latency server in edition 2", |edition, server| edition == 2 && of_kind(server, RATE_LATENCY_KIND)),
    ("a pure delay in edition 2", |edition, server| edition == 2 && of_kind(server, PURE_DELAY_KIND)),
    ("a pure delay in edition 1", |edition, server| edition == 1 && of_kind(server, PURE_DELAY_KIND)),
    ("a pure delay with a rate in edition 1", |edition, server| {
        edition == 1 && server.kind == PURE_DELAY_KIND && server.rate > 0
    }),
    ("a kind and an edition that are none", |edition, server| {
        ODD_EDITIONS.contains(&edition) && ODD_KINDS.contains(&server.kind)
    }),
];

/// The room for a pure delay that can be written.
const WRITTEN_TO: Table<fn(usize) -> bool> = &[
    ("a pure delay, and a buffer exactly long enough", |room| room == PURE_DELAY_BYTES),
    ("a pure delay, and a buffer one byte short", |room| room + 1 == PURE_DELAY_BYTES),
    ("a pure delay, and a buffer as long as for a rate-latency server", |room| room == RATE_LATENCY_BYTES),
];

fn of_kind(server: Passed, kind: u64) -> bool {
    server.kind == kind && server.server().is_some()
}

// ---- routes

/// What follows so many profiles that are whole.
fn after_profiles(input: &[u8], count: usize) -> &[u8] {
    (0..count).fold(input, |rest, _| &rest[bytes_required(rest).expect("a whole profile")..])
}

/// The first bytes of profiles that are whole.
fn headers_of(mut input: &[u8]) -> Vec<u8> {
    let mut headers = Vec::new();
    while !input.is_empty() {
        headers.push(input[0]);
        input = after_profiles(input, 1);
    }
    headers
}

fn has_rate(header: &u8) -> bool {
    header % 16 == 2
}

fn only_delays(headers: &[u8]) -> bool {
    headers[1..].iter().all(|&header| header == 0x23)
}

/// The first bytes of the profiles of a route that is answered.
const ROUTED: Table<fn(&[u8]) -> bool> = &[
    ("servers of both kinds", |headers| headers.contains(&0x23) && headers.iter().any(has_rate)),
    ("servers of both editions", |headers| headers.contains(&0x12) && headers.contains(&0x22)),
    ("a curve of edition 1 and a pure delay", |headers| headers[0] == 0x11 && headers.contains(&0x23)),
    ("a curve of edition 2 and a rate-latency server of edition 1", |headers| headers[0] == 0x21 && headers.contains(&0x12)),
    ("a pure delay before a rate-latency server", |headers| headers.windows(2).any(|two| two[0] == 0x23 && has_rate(&two[1]))),
    ("a pure delay after a rate-latency server", |headers| headers.windows(2).any(|two| two[1] == 0x23 && has_rate(&two[0]))),
    ("one hop, and it is a pure delay", |headers| headers.len() == 2 && only_delays(headers)),
    ("32 hops, all of them pure delays", |headers| headers.len() == MOST_SERVERS + 1 && only_delays(headers)),
];

/// Whether there is this header, and as many bytes as a pure delay has.
fn holds_four_under(rest: &[u8], header: u8) -> bool {
    rest.first() == Some(&header) && rest.len() >= PURE_DELAY_BYTES
}

/// Of a route that is refused at a profile: how many come before it, and the input from it on.
const NOT_ROUTED: Table<fn(usize, &[u8]) -> bool> = &[
    ("a pure delay at the curve's place", |before, rest| before == 0 && holds_four_under(rest, 0x23)),
    ("a pure delay of edition 1", |before, rest| before > 0 && holds_four_under(rest, 0x13)),
    ("a pure delay that is cut short", |before, rest| {
        before > 0 && rest.first() == Some(&0x23) && rest.len() < PURE_DELAY_BYTES
    }),
    ("a padded pure delay", |before, rest| {
        before > 0 && holds_four_under(rest, 0x23) && rest[PURE_DELAY_BYTES - 1] % 16 > 0
    }),
];

// ---- all

/// What of kinds and editions each call must have been tried with.
pub fn required(operation: Operation) -> Vec<&'static str> {
    let servers = [names(REFUSED), names(TAKEN)].concat();
    match operation {
        Join => [servers, names(JOINED)].concat(),
        Behind => [servers, names(AT_DELAY), names(BEHIND_DELAY)].concat(),
        Backlog | Delay => [servers, names(AT_DELAY)].concat(),
        Residual => [names(REFUSED), names(BESIDE_DELAY)].concat(),
        Read => [names(READ), names(READ_WITHOUT_LIST)].concat(),
        WriteCurve => names(WRITTEN_IN),
        WriteServer => [servers, names(WRITTEN_IN), names(WRITTEN), names(WRITTEN_TO)].concat(),
        Route => [names(ROUTED), names(NOT_ROUTED)].concat(),
        Normalise | Value | Burst | Lower | Sum | Shape => Vec::new(),
    }
}

impl Run {
    fn note_all<Is: Copy>(&mut self, operation: Operation, table: Table<Is>, holds: impl Fn(Is) -> bool) {
        for (name, is) in table {
            self.note(operation, name, holds(*is));
        }
    }

    /// Notes what a call is of all this.
    pub fn notes_of_kinds(&mut self, question: &Question, exact: &Exact, room: usize) {
        let Question { operation, server, next, .. } = question;
        let [first, second] = exact.operands.map(winner);
        match operation {
            Join => {
                self.notes_of_server(Join, *server, second);
                self.notes_of_server(Join, *next, first);
                let [_, _, latency, ..] = exact.figures;
                self.note_all(Join, JOINED, |is| is(([server.kind, next.kind], latency)));
            }
            Behind | Backlog | Delay => {
                self.notes_of_server(*operation, *server, first);
                self.notes_at_delay(question, exact);
            }
            Residual => {
                self.notes_of_server(Residual, *server, second);
                if of_kind(*server, PURE_DELAY_KIND) {
                    self.note_all(Residual, BESIDE_DELAY, |is| is(second));
                }
            }
            WriteCurve | WriteServer => self.notes_of_writing(question, exact, room),
            Read => {
                self.note_all(Read, READ, |is| is(&question.file));
                self.note_all(Read, READ_WITHOUT_LIST, |is| room == 0 && is(&question.file));
            }
            Route => self.notes_of_route(&question.file, exact),
            Normalise | Value | Burst | Lower | Sum | Shape => {}
        }
    }

    /// Notes a server, the code of the other operand being this.
    fn notes_of_server(&mut self, operation: Operation, server: Passed, other: u32) {
        if other == 0 {
            self.note_all(operation, REFUSED, |is| is(server));
            self.note_all(operation, TAKEN, |is| is(server));
        }
    }

    fn notes_at_delay(&mut self, question: &Question, exact: &Exact) {
        let curve = curve_buckets(&question.f);
        if exact.operands != [0, 0] || question.server.kind != PURE_DELAY_KIND {
            return;
        }
        let latency = question.server.latency;
        self.note_all(question.operation, AT_DELAY, |is| is(&curve, latency));
        if question.operation == Behind {
            let moved = behind_raw(&curve, pure_delay(latency));
            self.note_all(Behind, BEHIND_DELAY, |is| is(&moved, &exact.buckets));
        }
    }

    fn notes_of_writing(&mut self, question: &Question, exact: &Exact, room: usize) {
        let Question { operation, server, edition, .. } = question;
        let [in_edition, what] = exact.operands.map(winner);
        if what == 0 {
            self.note_all(*operation, WRITTEN_IN, |is| is(*edition));
        }
        if *operation == WriteServer {
            self.note_all(WriteServer, WRITTEN, |is| is(*edition, *server));
            self.notes_of_server(WriteServer, *server, in_edition);
        }
        if in_edition == 0 && of_kind(*server, PURE_DELAY_KIND) {
            self.note_all(*operation, WRITTEN_TO, |is| is(room));
        }
    }

    fn notes_of_route(&mut self, input: &[u8], exact: &Exact) {
        match exact.refused {
            None => {
                let headers = headers_of(input);
                self.note_all(Route, ROUTED, |is| is(&headers));
            }
            Some((_, place)) => {
                let rest = after_profiles(input, place - 1);
                self.note_all(Route, NOT_ROUTED, |is| is(place - 1, rest));
            }
        }
    }
}
