//! Lists and buffers as they are lent to the library: each lies between guard words.

use super::library;
use super::questions::{one, Figures, Held, Operation, Out, Question, Told};
use super::rules::*;
use std::hint::black_box;
use Operation::*;

const GUARDS: usize = 8;

/// A number or a byte: which guard word stands at a place, and what an output holds before the call.
pub trait Word: Copy + PartialEq {
    fn guard(place: usize) -> Self;
    fn before(place: usize) -> Self;
}

impl Word for u64 {
    fn guard(place: usize) -> u64 {
        0xA5C3_0F1E_9687_0000 + place as u64
    }

    /// Numbers that no answer has.
    fn before(place: usize) -> u64 {
        0xC3A5_0000_0000_0000 + place as u64
    }
}

impl Word for u8 {
    fn guard(place: usize) -> u8 {
        0xA5 ^ place as u8
    }

    /// Bytes that no text has; a file may.
    fn before(place: usize) -> u8 {
        0x80 | (place * 37 % 128) as u8
    }
}

fn words<T: Word>(room: usize) -> Vec<T> {
    (0..room).map(T::before).collect()
}

/// What an output of so many numbers or bytes holds before the call.
pub fn before(out: Out, room: usize) -> Held {
    match out {
        Out::Nothing => Held::Nothing,
        Out::Numbers => Held::Numbers(words(room)),
        Out::Bytes => Held::Bytes(words(room)),
    }
}

/// A list with guard words before and after it.
pub struct Table<T>(Vec<T>);

impl<T: Word> Table<T> {
    pub fn with(list: &[T]) -> Table<T> {
        let (above, below) = ((0..GUARDS).map(T::guard), (GUARDS..2 * GUARDS).map(T::guard));
        Table(above.chain(list.iter().copied()).chain(below).collect())
    }

    pub fn list(&self) -> &[T] {
        &self.0[GUARDS..self.0.len() - GUARDS]
    }

    pub fn list_mut(&mut self) -> &mut [T] {
        let end = self.0.len() - GUARDS;
        &mut self.0[GUARDS..end]
    }

    pub fn guarded(&self) -> bool {
        let (above, rest) = self.0.split_at(GUARDS);
        let below = &rest[rest.len() - GUARDS..];
        let words = above.iter().chain(below);
        words.enumerate().all(|(place, &word)| word == T::guard(place))
    }

    fn stayed(&self, list: &[T]) -> bool {
        self.guarded() && self.list() == list
    }
}

fn of_answer(told: library::Answer) -> (u64, Figures) {
    (told.code, one(told.count))
}

fn of_figure(told: library::Figure) -> (u64, Figures) {
    (told.code, one(told.figure))
}

fn of_server(told: library::ServerAnswer) -> (u64, Figures) {
    (told.code, [told.kind, told.rate, told.latency, 0, 0])
}

fn of_written(told: library::Written) -> (u64, Figures) {
    (told.code, one(told.bytes))
}

fn of_profile(told: library::Profile) -> (u64, Figures) {
    (told.code, [told.edition, told.kind, told.count, told.rate, told.latency])
}

/// Calls the library, with an output of so many numbers or bytes.
pub fn ask(question: &Question, room: usize) -> Told {
    let Question { operation, server, next, tick, link, edition, .. } = question;
    let (mut f, mut g, mut file) = (Table::with(&question.f), Table::with(&question.g), Table::with(&question.file));
    let kind = operation.out();
    let room_of = |other: Out| if kind == other { room } else { 0 };
    let mut out = Table::with(&words::<u64>(room_of(Out::Numbers)));
    let mut buffer = Table::with(&words::<u8>(room_of(Out::Bytes)));
    let (code, figures) = match operation {
        Normalise => of_answer(library::normalise(f.list(), out.list_mut())),
        Value => of_figure(library::value(f.list(), *tick)),
        Burst => of_figure(library::burst(f.list())),
        Lower => of_answer(library::lower(f.list(), g.list(), out.list_mut())),
        Sum => of_answer(library::sum(f.list(), g.list(), out.list_mut())),
        Shape => of_answer(library::shape(f.list(), *link, out.list_mut())),
        Join => of_server(library::join(*server, *next)),
        Behind => of_answer(library::behind(f.list(), *server, out.list_mut())),
        Backlog => of_figure(library::backlog(f.list(), *server)),
        Delay => of_figure(library::delay(f.list(), *server)),
        Residual => of_server(library::residual(*server, f.list())),
        Read => of_profile(library::read(file.list(), out.list_mut())),
        WriteCurve => of_written(library::write_curve(*edition, f.list(), buffer.list_mut())),
        WriteServer => of_written(library::write_server(*edition, *server, buffer.list_mut())),
        Route => of_written(library::route(file.list(), buffer.list_mut())),
    };
    // The compiler must not take it as known what the tables hold after the call.
    black_box([&mut f, &mut g, &mut out]);
    black_box([&mut file, &mut buffer]);
    let operands = f.stayed(&question.f) && g.stayed(&question.g) && file.stayed(&question.file);
    let stayed = operands && out.guarded() && buffer.guarded();
    let out = match kind {
        Out::Nothing => Held::Nothing,
        Out::Numbers => Held::Numbers(out.list().to_vec()),
        Out::Bytes => Held::Bytes(buffer.list().to_vec()),
    };
    Told { code, figures, out, stayed }
}

type OfTwo = fn(&[u64], &[u64], &mut [u64]) -> library::Answer;

/// lower or sum with one list lent as both operands.
pub fn ask_of_one_list(question: OfTwo, f: &[u64]) -> Told {
    let room = CURVE_NUMBERS * MOST_BUCKETS;
    let mut out = Table::with(&words::<u64>(room));
    let mut lent = Table::with(f);
    let (code, figures) = of_answer(question(lent.list(), lent.list(), out.list_mut()));
    black_box([&mut lent, &mut out]);
    let stayed = lent.stayed(f) && out.guarded();
    Told { code, figures, out: Held::Numbers(out.list().to_vec()), stayed }
}
