//! A run: the tests by their names, what came up, and the library asked and compared.

use super::lent::{ask, before};
use super::notes::required;
use super::questions::{exact, Operation, Out, Question, Told, OPERATIONS};
use super::random::Rng;
use super::rules::*;
use std::collections::{BTreeMap, BTreeSet};

/// A test has a name, and some inputs of which none may go wrong.
#[derive(Default)]
struct Test {
    inputs: u64,
    wrong: u64,
}

const SHOWN: u64 = 3;

pub struct Run {
    pub rng: Rng,
    calls: u64,
    names: Vec<&'static str>,
    tests: BTreeMap<&'static str, Test>,
    codes: BTreeMap<(Operation, u64), u64>,
    seen: BTreeMap<(Operation, &'static str), u64>,
    refused: BTreeSet<(u32, usize)>,
    alone: [usize; 2],
}

impl Run {
    pub fn new(seed: u64) -> Run {
        Run {
            rng: Rng(seed),
            calls: 0,
            names: Vec::new(),
            tests: BTreeMap::new(),
            codes: BTreeMap::new(),
            seen: BTreeMap::new(),
            refused: BTreeSet::new(),
            alone: [0, 0],
        }
    }

    /// One more input of a test.
    pub fn check(&mut self, name: &'static str, good: bool, told: impl FnOnce() -> String) {
        let names = &mut self.names;
        let test = self.tests.entry(name).or_insert_with(|| {
            names.push(name);
            Test::default()
        });
        test.inputs += 1;
        if !good {
            test.wrong += 1;
            if test.wrong <= SHOWN {
                println!("FAILED {name}: {}", told());
            }
        }
    }

    pub fn call(&mut self, question: &Question, room: usize) -> Told {
        let told = ask(question, room);
        self.calls += 1;
        *self.codes.entry((question.operation, told.code)).or_insert(0) += 1;
        told
    }

    /// Calls with room for every answer.
    pub fn answer(&mut self, question: &Question) -> Told {
        let room = match question.operation.out() {
            Out::Nothing => 0,
            Out::Numbers => CURVE_NUMBERS * MOST_BUCKETS,
            Out::Bytes => MOST_TEXT,
        };
        self.call(question, room)
    }

    /// A length for the output, around the one that is needed.
    fn room(&mut self, out: Out, needed: usize) -> usize {
        if out == Out::Nothing {
            return 0;
        }
        match self.rng.below(12) {
            0..=3 => needed,
            4 => needed + 1,
            5 => needed + CURVE_NUMBERS,
            6 => needed + 2 + self.rng.place(20),
            7 => needed.saturating_sub(1),
            8 => needed.saturating_sub(CURVE_NUMBERS),
            9 => self.rng.place(needed + 1),
            10 => 0,
            _ => CURVE_NUMBERS * MOST_BUCKETS,
        }
    }

    /// Compares one call with the references, as an input of a test.
    pub fn compare(&mut self, name: &'static str, question: &Question) {
        let exact = exact(question);
        let out = question.operation.out();
        let room = self.room(out, exact.output.len());
        self.notes(question, &exact, room);
        let wanted = exact.told(question.operation, before(out, room));
        let told = self.call(question, room);
        let good = told == wanted;
        self.check(name, good, || format!("{question:?}\n  expected {wanted:?}\n  told     {told:?}"));
    }

    // ---- what came up

    pub fn note(&mut self, operation: Operation, what: &'static str, holds: bool) {
        *self.seen.entry((operation, what)).or_insert(0) += u64::from(holds);
    }

    /// A route was refused with a code at a profile.
    pub fn note_refused(&mut self, refused: Option<(u32, usize)>) {
        self.refused.extend(refused);
    }

    // ---- the end

    /// A test that has no inputs of its own.
    fn came_up(&mut self, good: bool, told: impl FnOnce() -> String) {
        self.alone[usize::from(!good)] += 1;
        if !good {
            println!("FAILED {}", told());
        }
    }

    /// Codes and other things that must have come up, each as a test.
    pub fn coverage(&mut self) {
        for operation in OPERATIONS {
            let codes = self.codes.iter().filter(|((other, _), _)| *other == operation);
            let codes: Vec<(u64, u64)> = codes.map(|(&(_, code), &times)| (code, times)).collect();
            let texts: Vec<String> = codes.iter().map(|(code, times)| format!("code {code} {times} times")).collect();
            println!("{operation:?}: {}", texts.join(", "));
            let possible: Vec<u64> = operation.codes().iter().map(|&code| code.into()).collect();
            let good = codes.iter().map(|&(code, _)| code).eq(possible.iter().copied());
            self.came_up(good, || format!("{operation:?} must give each of these codes, and no other: {possible:?}"));
            for what in required(operation) {
                let times = self.seen.get(&(operation, what)).copied().unwrap_or(0);
                println!("  {what}: {times} times");
                self.came_up(times > 0, || format!("{operation:?} was never tried with {what}"));
            }
        }
        let server = [HEADER, LENGTH, PAD, RANGE, UNBOUNDED, LARGE];
        for (place, first, last, codes) in [
            ("the curve", 1, 1, &[HEADER, LENGTH, PAD, FORM][..]),
            ("the first server", 2, 2, &server),
            ("a later server", 3, MOST_SERVERS + 1, &server),
            ("the bytes after 32 servers", MOST_SERVERS + 2, usize::MAX, &[COUNT]),
        ] {
            let found = self.refused.iter().filter(|(_, at)| (first..=last).contains(at)).map(|(code, _)| *code);
            let found: BTreeSet<u32> = found.collect();
            println!("routes refused at {place}: {found:?}");
            let good = found.iter().eq(codes);
            self.came_up(good, || {
                format!("routes must be refused at {place} with each of these, and no other: {codes:?}")
            });
        }
    }

    /// Prints every test with its inputs, and the last line. Answers whether all passed.
    pub fn conclude(mut self, names: &[&'static str]) -> bool {
        for name in names {
            let ran = self.tests.contains_key(name);
            if !ran {
                self.came_up(false, || format!("{name}: never ran"));
            }
        }
        let [mut passed, mut failed] = self.alone;
        for name in &self.names {
            let Test { inputs, wrong } = self.tests[name];
            match wrong {
                0 => println!("{name}: {inputs} inputs"),
                _ => println!("{name}: {inputs} inputs, of which {wrong} FAILED"),
            }
            passed += usize::from(wrong == 0);
            failed += usize::from(wrong > 0);
        }
        println!("{} calls", self.calls);
        println!("{passed} passed, {failed} failed");
        failed == 0
    }
}
