//! What each call must have been tried with, and what of it a call is. What has to do with kinds and editions
//! is in kinds.rs.

use super::curves::{hull, Edge};
use super::kinds;
use super::questions::{Exact, Held, Operation, Question};
use super::rules::*;
use super::run::Run;
use super::servers::{excess, value};
use Operation::*;

const EXACT_ROOM: &str = "output exactly long enough";
const ONE_SHORT: &str = "output one number or byte short";
const BUCKET_SHORT: &str = "output one bucket short";
const NO_OUTPUT: &str = "output empty";
const FIRST_WINS: &str = "both operands refused, the first by the smaller number";
const SECOND_WINS: &str = "both operands refused, the second by the smaller number";
const FULL: &str = "64 buckets";
const ONE_TOO_MANY: &str = "65 buckets";
const LARGE_COUNT: &str = "LARGE by the count alone";
const LARGE_RATE: &str = "LARGE by a rate alone";
const LARGE_BURST: &str = "LARGE by a burst alone";
const LAST_RATE: &str = "a rate of 2^20-1";
const FIRST_RATE_BEYOND: &str = "LARGE by a rate of 2^20";
const LAST_BURST: &str = "a burst of 2^40-1";
const FIRST_BURST_BEYOND: &str = "LARGE by a burst of 2^40";
const TOGETHER: &str = "30 crossings that both have";
const ALL_TOGETHER: &str = "63 crossings, all of which both have";
const LESS_THAN_A_TICK: &str = "crossings of the two that are not the same and lie within one tick";
const LAST_LATENCY: &str = "a latency of 2^20-1";
const FIRST_LATENCY_BEYOND: &str = "LARGE by a latency of 2^20";
const OWN_BUCKET: &str = "the server's own bucket in the answer";
const NO_OWN_BUCKET: &str = "not in the answer, though some rate is above the server's";
const BEFORE_CROSSING: &str = "most above the server's rate at the tick before a crossing alone";
const AFTER_CROSSING: &str = "most above the server's rate at the tick after a crossing alone";
const EQUAL_RATE: &str = "a last rate that is the server's";
const NO_TIME: &str = "tick 0, and a burst";
const BIT_BY_BIT: &str = "a link that hands on bit by bit";
const LONGEST_FRAME: &str = "a frame of 2^40-1";
const LONGEST_IN_ANSWER: &str = "a frame of 2^40-1 in the answer";
const LINK_FIRST: &str = "the link's bucket first of several";
const LINK_BETWEEN: &str = "the link's bucket between others";
const LINK_LAST: &str = "the link's bucket last of several";
const LINK_USELESS: &str = "the link's bucket of no use";
const LINK_TOUCHES: &str = "of no use, and with one bit less of use between others";
const NOTHING_CARRIED: &str = "the curve {(0,0)} at a rate-latency server with a latency";
const MOST_HOPS: &str = "32 hops";

/// What each call must have been tried with.
pub fn required(operation: Operation) -> Vec<&'static str> {
    [of_operands_and_answers(operation), kinds::required(operation)].concat()
}

fn of_operands_and_answers(operation: Operation) -> Vec<&'static str> {
    let rooms = [EXACT_ROOM, ONE_SHORT, NO_OUTPUT];
    let lists = [EXACT_ROOM, ONE_SHORT, NO_OUTPUT, BUCKET_SHORT, FULL];
    let operands = [FIRST_WINS, SECOND_WINS];
    match operation {
        Normalise => lists.to_vec(),
        Value => [&operands[..], &[NO_TIME]].concat(),
        Burst => Vec::new(),
        Lower => [&lists[..], &operands, &[ONE_TOO_MANY, LARGE_COUNT]].concat(),
        Shape => {
            let frames = [BIT_BY_BIT, LONGEST_FRAME, LONGEST_IN_ANSWER];
            let places = [LINK_FIRST, LINK_BETWEEN, LINK_LAST, LINK_USELESS, LINK_TOUCHES];
            [&lists[..], &operands, &[ONE_TOO_MANY, LARGE_COUNT], &frames, &places].concat()
        }
        Sum => {
            let large = [ONE_TOO_MANY, LARGE_COUNT, LARGE_RATE, LARGE_BURST];
            let ends = [LAST_RATE, FIRST_RATE_BEYOND, LAST_BURST, FIRST_BURST_BEYOND];
            let crossings = [TOGETHER, ALL_TOGETHER, LESS_THAN_A_TICK];
            [&lists[..], &operands, &large, &ends, &crossings].concat()
        }
        Join => Vec::new(),
        Behind => {
            let own = [OWN_BUCKET, NO_OWN_BUCKET, BEFORE_CROSSING, AFTER_CROSSING, EQUAL_RATE];
            [&lists[..], &operands, &[LARGE_BURST, LAST_BURST], &own].concat()
        }
        Backlog | Delay => [&operands[..], &[EQUAL_RATE, NOTHING_CARRIED]].concat(),
        Residual => [&operands[..], &[LAST_LATENCY, FIRST_LATENCY_BEYOND, EQUAL_RATE]].concat(),
        Read => lists.to_vec(),
        WriteCurve => [&rooms[..], &[FULL, FIRST_WINS]].concat(),
        WriteServer => [&rooms[..], &[FIRST_WINS]].concat(),
        Route => [&rooms[..], &[MOST_HOPS]].concat(),
    }
}

impl Run {
    /// Notes what of the required things a call is.
    pub fn notes(&mut self, question: &Question, exact: &Exact, room: usize) {
        let operation = question.operation;
        let [first, second] = exact.operands.map(winner);
        if first != 0 && second != 0 {
            self.note(operation, FIRST_WINS, first < second);
            self.note(operation, SECOND_WINS, second < first);
        }
        self.notes_of_kinds(question, exact, room);
        if first != 0 || second != 0 {
            return;
        }
        self.notes_of_operands(question);
        self.notes_of_answer(operation, exact);
        if operation == Behind && !exact.buckets.is_empty() {
            self.notes_of_behind(question, &exact.buckets);
        }
        if operation == Shape {
            self.notes_of_shape(question, &exact.buckets);
        }
        if operation == Sum {
            self.notes_of_sum(question);
        }
        let needed = exact.output.len();
        if exact.more == 0 && needed > 0 {
            self.note(operation, EXACT_ROOM, room == needed);
            self.note(operation, ONE_SHORT, room + 1 == needed);
            self.note(operation, BUCKET_SHORT, room + CURVE_NUMBERS == needed);
            self.note(operation, NO_OUTPUT, room == 0);
        }
    }

    fn notes_of_operands(&mut self, question: &Question) {
        let Question { operation, f, server, tick, link, .. } = question;
        if *operation == Value {
            let burst = curve_buckets(f).iter().map(|b| b.burst).min();
            self.note(Value, NO_TIME, *tick == 0 && burst > Some(0));
        }
        if *operation == Shape {
            self.note(Shape, BIT_BY_BIT, link.frame == 0);
            self.note(Shape, LONGEST_FRAME, link.frame == FRAME_END - 1);
        }
        if let Behind | Backlog | Delay | Residual | WriteCurve = operation {
            let curve = curve_buckets(f);
            let with_rate = server.kind == RATE_LATENCY_KIND;
            self.note(*operation, EQUAL_RATE, with_rate && curve[curve.len() - 1].rate == server.rate);
            self.note(*operation, NOTHING_CARRIED, with_rate && curve == [bucket(0, 0)] && server.latency > 0);
            if *operation == WriteCurve {
                self.note(*operation, FULL, curve.len() == MOST_BUCKETS);
            }
        }
    }

    fn notes_of_answer(&mut self, operation: Operation, exact: &Exact) {
        if operation == Residual {
            let [_, _, latency, ..] = exact.figures;
            self.note(operation, LAST_LATENCY, latency == LATENCY_END - 1);
            self.note(operation, FIRST_LATENCY_BEYOND, latency == LATENCY_END);
        }
        if let Held::Bytes(text) = &exact.output {
            self.note(operation, MOST_HOPS, text.windows(7).any(|word| word == b"hop 32 "));
            self.note_refused(exact.refused);
        }
        let answer = &exact.buckets;
        if answer.is_empty() {
            return;
        }
        let many = answer.len() > MOST_BUCKETS;
        let steep = answer[0].rate >= RATE_END;
        let last = answer[answer.len() - 1].burst;
        let high = last >= BURST_END;
        self.note(operation, ONE_TOO_MANY, answer.len() == MOST_BUCKETS + 1);
        self.note(operation, LARGE_COUNT, many && !steep && !high);
        self.note(operation, LARGE_RATE, !many && steep && !high);
        self.note(operation, LARGE_BURST, !many && !steep && high);
        self.note(operation, LAST_RATE, !many && !high && answer[0].rate == RATE_END - 1);
        self.note(operation, FIRST_RATE_BEYOND, !many && !high && answer[0].rate == RATE_END);
        self.note(operation, LAST_BURST, !many && !steep && last == BURST_END - 1);
        self.note(operation, FIRST_BURST_BEYOND, !many && !steep && last == BURST_END);
        self.note(operation, FULL, answer.len() == MOST_BUCKETS && !steep && !high);
    }

    /// Notes where the link's bucket stands in the answer.
    fn notes_of_shape(&mut self, question: &Question, answer: &[Bucket]) {
        let link = question.link;
        let place = |answer: &[Bucket], link: Link| answer.iter().position(|b| *b == link.bucket());
        let between = |place: Option<usize>, count: usize| place.is_some_and(|k| k > 0 && k + 1 < count);
        let found = place(answer, link);
        self.note(Shape, LINK_FIRST, found == Some(0) && answer.len() > 1);
        self.note(Shape, LINK_BETWEEN, between(found, answer.len()));
        self.note(Shape, LINK_LAST, found.is_some_and(|k| k > 0 && k + 1 == answer.len()));
        self.note(Shape, LINK_USELESS, found.is_none());
        self.note(Shape, LONGEST_IN_ANSWER, found.is_some() && link.frame == FRAME_END - 1);
        if found.is_none() && link.frame > 0 {
            let less = Link { frame: link.frame - 1, ..link };
            let curve = hull(&[curve_buckets(&question.f), vec![less.bucket()]].concat());
            self.note(Shape, LINK_TOUCHES, between(place(&curve, less), curve.len()));
        }
    }

    /// Notes how the crossings of two curves lie to each other.
    fn notes_of_sum(&mut self, question: &Question) {
        let [f, g] = [&question.f, &question.g].map(|list| {
            let edges = |two: &[Bucket]| Edge::between(two[0], two[1]);
            curve_buckets(list).windows(2).map(edges).collect::<Vec<Edge>>()
        });
        let same = |a: &Edge, b: &Edge| a.order(b).is_eq();
        let near = |a: &Edge, b: &Edge| a.rise / a.fall == b.rise / b.fall && !same(a, b);
        let together = f.iter().filter(|a| g.iter().any(|b| same(a, b))).count();
        self.note(Sum, TOGETHER, together >= 30);
        self.note(Sum, ALL_TOGETHER, together == MOST_BUCKETS - 1);
        self.note(Sum, LESS_THAN_A_TICK, f.iter().any(|a| g.iter().any(|b| near(a, b))));
    }

    /// Notes which way the curve behind a server came about.
    fn notes_of_behind(&mut self, question: &Question, answer: &[Bucket]) {
        let curve = curve_buckets(&question.f);
        let Some(rate) = question.server.server().and_then(|server| server.rate()) else { return };
        let Some(k) = curve.iter().position(|b| b.rate <= rate).filter(|&k| k > 0) else { return };
        let own = answer[0].rate == rate;
        self.note(Behind, OWN_BUCKET, own && curve[k].rate != rate);
        self.note(Behind, NO_OWN_BUCKET, !own);
        let Edge { fall, rise } = Edge::between(curve[k - 1], curve[k]);
        let (tick, most) = excess(&curve, rate);
        let above = |tick: u64| value(&curve, tick) - i128::from(rate) * i128::from(tick);
        self.note(Behind, BEFORE_CROSSING, tick * fall < rise && above(tick + 1) < most.into());
        self.note(Behind, AFTER_CROSSING, tick * fall > rise);
    }
}
