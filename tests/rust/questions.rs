//! Questions to the library, one for each call, and what the references say that it must give.

use super::curves::{all_pairs, curve_lines, hull, large_lines, least, raw_lines};
use super::profiles::{curve_file, edition_lines, parsed, server_file, Content, Profile};
use super::routes;
use super::rules::*;
use super::servers::{self, last_rate, server_lines, shared_lines, unbounded};
use Operation::*;

#[derive(Clone, Copy, PartialEq, Eq, PartialOrd, Ord, Debug)]
pub enum Operation {
    Normalise,
    Value,
    Burst,
    Lower,
    Sum,
    Shape,
    Join,
    Behind,
    Backlog,
    Delay,
    Residual,
    Read,
    WriteCurve,
    WriteServer,
    Route,
}

pub const OPERATIONS: [Operation; 15] =
    [Normalise, Value, Burst, Lower, Sum, Shape, Join, Behind, Backlog, Delay, Residual, Read, WriteCurve, WriteServer, Route];

/// What is lent for the answer.
#[derive(Clone, Copy, PartialEq, Eq)]
pub enum Out {
    Nothing,
    Numbers,
    Bytes,
}

impl Operation {
    /// The codes that it can give.
    pub fn codes(self) -> &'static [u32] {
        match self {
            Normalise => &[0, LIST, COUNT, RANGE, ROOM],
            Value | Burst => &[0, LIST, COUNT, RANGE, FORM],
            Lower | Sum | Shape => &[0, LIST, COUNT, RANGE, FORM, LARGE, ROOM],
            Join => &[0, RANGE, LARGE],
            Behind => &[0, LIST, COUNT, RANGE, FORM, UNBOUNDED, LARGE, ROOM],
            Backlog | Delay => &[0, LIST, COUNT, RANGE, FORM, UNBOUNDED],
            Residual => &[0, LIST, COUNT, RANGE, FORM, UNBOUNDED, LARGE],
            Read => &[0, HEADER, LENGTH, PAD, RANGE, FORM, ROOM],
            WriteCurve => &[0, HEADER, LIST, COUNT, RANGE, FORM, ROOM],
            WriteServer => &[0, HEADER, RANGE, ROOM],
            Route => &[0, ROOM],
        }
    }

    pub fn out(self) -> Out {
        match self {
            Normalise | Lower | Sum | Shape | Behind | Read => Out::Numbers,
            WriteCurve | WriteServer | Route => Out::Bytes,
            Value | Burst | Join | Backlog | Delay | Residual => Out::Nothing,
        }
    }

    /// The figures beside a refusal. A server has a kind even then.
    pub fn refused(self) -> Figures {
        match self {
            Join | Residual => of_passed(Passed { kind: RATE_LATENCY_KIND, rate: 0, latency: 0 }),
            _ => one(0),
        }
    }
}

/// A question: the call, and of the rest what that call takes.
#[derive(Debug)]
pub struct Question {
    pub operation: Operation,
    /// The list, and the second one of lower and sum.
    pub f: Vec<u64>,
    pub g: Vec<u64>,
    /// The file, or the input of a route.
    pub file: Vec<u8>,
    /// The server, and the second one of join.
    pub server: Passed,
    pub next: Passed,
    /// The tick of value.
    pub tick: u64,
    /// The link of shape.
    pub link: Link,
    /// The edition of what is written.
    pub edition: u64,
}

fn empty(operation: Operation) -> Question {
    let (f, g, file) = (Vec::new(), Vec::new(), Vec::new());
    let none = Passed::default();
    Question { operation, f, g, file, server: none, next: none, tick: 0, link: Link::default(), edition: 0 }
}

pub fn normalise(raw: &[u64]) -> Question {
    Question { f: raw.to_vec(), ..empty(Normalise) }
}

pub fn value(curve: &[u64], tick: u64) -> Question {
    Question { f: curve.to_vec(), tick, ..empty(Value) }
}

pub fn burst(curve: &[u64]) -> Question {
    Question { f: curve.to_vec(), ..empty(Burst) }
}

/// lower or sum.
pub fn of_two(operation: Operation, f: &[u64], g: &[u64]) -> Question {
    Question { f: f.to_vec(), g: g.to_vec(), ..empty(operation) }
}

pub fn shape(curve: &[u64], link: Link) -> Question {
    Question { f: curve.to_vec(), link, ..empty(Shape) }
}

pub fn join(server: impl Into<Passed>, next: impl Into<Passed>) -> Question {
    Question { server: server.into(), next: next.into(), ..empty(Join) }
}

/// behind, backlog, delay or residual.
pub fn at_port(operation: Operation, curve: &[u64], server: impl Into<Passed>) -> Question {
    Question { f: curve.to_vec(), server: server.into(), ..empty(operation) }
}

pub fn read(file: &[u8]) -> Question {
    Question { file: file.to_vec(), ..empty(Read) }
}

pub fn write_curve(edition: u64, curve: &[u64]) -> Question {
    Question { edition, f: curve.to_vec(), ..empty(WriteCurve) }
}

pub fn write_server(edition: u64, server: impl Into<Passed>) -> Question {
    Question { edition, server: server.into(), ..empty(WriteServer) }
}

pub fn route(input: &[u8]) -> Question {
    Question { file: input.to_vec(), ..empty(Route) }
}

/// What an output holds.
#[derive(Clone, PartialEq, Eq, Debug)]
pub enum Held {
    Nothing,
    Numbers(Vec<u64>),
    Bytes(Vec<u8>),
}

impl Held {
    pub fn len(&self) -> usize {
        match self {
            Held::Nothing => 0,
            Held::Numbers(list) => list.len(),
            Held::Bytes(bytes) => bytes.len(),
        }
    }

    /// With an answer at its start.
    fn over(&mut self, answer: &Held) {
        match (self, answer) {
            (Held::Numbers(list), Held::Numbers(answer)) => list[..answer.len()].copy_from_slice(answer),
            (Held::Bytes(bytes), Held::Bytes(answer)) => bytes[..answer.len()].copy_from_slice(answer),
            _ => {}
        }
    }
}

/// The figures behind a code, in the order of the header's struct; 0 where it has fewer.
pub type Figures = [u64; 5];

pub fn one(figure: u64) -> Figures {
    [figure, 0, 0, 0, 0]
}

pub fn of_passed(server: Passed) -> Figures {
    [server.kind, server.rate, server.latency, 0, 0]
}

/// Of a file that holds a curve of so many buckets.
pub fn of_curve_read(edition: u64, count: u64) -> Figures {
    [edition, CURVE_KIND, count, 0, 0]
}

pub fn of_server_read(edition: u64, server: Passed) -> Figures {
    [edition, server.kind, 0, server.rate, server.latency]
}

/// What the library told: the code, the figures, the output, and whether all else stayed.
#[derive(PartialEq, Eq, Debug)]
pub struct Told {
    pub code: u64,
    pub figures: Figures,
    pub out: Held,
    pub stayed: bool,
}

impl Told {
    pub fn answered(&self) -> bool {
        self.code == 0 && self.stayed
    }

    /// The numbers of so many buckets at the start of the output.
    fn list_of(&self, count: u64) -> &[u64] {
        let Held::Numbers(out) = &self.out else { return &[] };
        let count = usize::try_from(count).unwrap_or(usize::MAX);
        out.get(..count.saturating_mul(CURVE_NUMBERS)).unwrap_or(&[])
    }

    /// The numbers of an answered curve.
    pub fn list(&self) -> &[u64] {
        self.list_of(self.figures[0])
    }

    /// The numbers of a curve that was read.
    pub fn list_read(&self) -> &[u64] {
        self.list_of(self.figures[2])
    }

    pub fn is(&self, curve: &[u64]) -> bool {
        self.answered() && self.list() == curve
    }

    /// The bytes of an answered file or text.
    pub fn bytes(&self) -> &[u8] {
        let Held::Bytes(out) = &self.out else { return &[] };
        usize::try_from(self.figures[0]).ok().and_then(|count| out.get(..count)).unwrap_or(&[])
    }

    /// The figure of an answered question that has one.
    pub fn figure(&self) -> Option<u64> {
        self.answered().then_some(self.figures[0])
    }

    /// The numbers of a server, as they are told.
    pub fn passed(&self) -> Passed {
        let [kind, rate, latency, ..] = self.figures;
        Passed { kind, rate, latency }
    }

    /// The server of an answered question that has one.
    pub fn server(&self) -> Option<Server> {
        self.passed().server().filter(|_| self.answered())
    }
}

/// What a question must give, but for the room: the lines of its first and second operand, those of
/// the answer, and if the operands have none the exact answer, be it too large or not.
pub struct Exact {
    pub operands: [u32; 2],
    pub more: u32,
    pub figures: Figures,
    pub output: Held,
    /// The buckets of a curve answer.
    pub buckets: Vec<Bucket>,
    /// Of a route that is refused, the code and which profile it is.
    pub refused: Option<(u32, usize)>,
}

impl Exact {
    pub fn lines(&self, room: usize) -> u32 {
        self.operands[0] | self.operands[1] | self.more | line(ROOM, room < self.output.len())
    }

    /// What the library must tell of this call, if the output holds this before.
    pub fn told(&self, operation: Operation, mut out: Held) -> Told {
        let code = winner(self.lines(out.len()));
        let mut figures = operation.refused();
        if code == 0 {
            out.over(&self.output);
            figures = self.figures;
        }
        Told { code: code.into(), figures, out, stayed: true }
    }
}

fn nothing(more: u32) -> Exact {
    Exact { operands: [0; 2], more, figures: one(0), output: Held::Nothing, buckets: Vec::new(), refused: None }
}

fn of_figure(figure: u64) -> Exact {
    Exact { figures: one(figure), ..nothing(0) }
}

fn of_curve(buckets: Vec<Bucket>) -> Exact {
    let more = large_lines(&buckets);
    let output = Held::Numbers(curve_list(&buckets));
    Exact { figures: one(buckets.len() as u64), output, buckets, ..nothing(more) }
}

fn of_server(answer: Server) -> Exact {
    Exact { figures: of_passed(answer.into()), ..nothing(line(LARGE, !answer.in_range())) }
}

fn of_bytes(bytes: Vec<u8>) -> Exact {
    Exact { figures: one(bytes.len() as u64), output: Held::Bytes(bytes), ..nothing(0) }
}

fn of_profile(Profile { edition, content }: Profile) -> Exact {
    match content {
        Content::Curve(curve) => {
            let output = Held::Numbers(curve_list(&curve));
            Exact { figures: of_curve_read(edition, curve.len() as u64), output, buckets: curve, ..nothing(0) }
        }
        Content::Server(server) => Exact { figures: of_server_read(edition, server.into()), ..nothing(0) },
    }
}

/// The lines of the operands, first and second as they are passed.
fn operand_lines(question: &Question) -> [u32; 2] {
    let Question { operation, f, g, file, server, next, tick, link, edition } = question;
    match operation {
        Normalise => [raw_lines(f), 0],
        Value => [curve_lines(f), line(RANGE, *tick >= TICK_END)],
        Burst => [curve_lines(f), 0],
        Lower | Sum => [curve_lines(f), curve_lines(g)],
        Shape => [curve_lines(f), line(RANGE, !link.in_range())],
        Join => [server_lines(*server), server_lines(*next)],
        Behind | Backlog | Delay => [curve_lines(f), server_lines(*server)],
        Residual => [shared_lines(*server), curve_lines(f)],
        Read => [parsed(file).0, 0],
        WriteCurve => [edition_lines(*edition, CURVE_KIND), curve_lines(f)],
        WriteServer => [edition_lines(*edition, server.kind), server_lines(*server)],
        Route => [0, 0],
    }
}

fn good(server: Passed) -> Server {
    server.server().expect("a server in range")
}

fn answer_at_port(operation: Operation, f: &[Bucket], server: Server) -> Exact {
    match operation {
        _ if unbounded(f, server) => nothing(line(UNBOUNDED, true)),
        Behind => of_curve(servers::behind(f, server)),
        Backlog => of_figure(servers::backlog(f, server)),
        _ => of_figure(servers::delay(f, server)),
    }
}

fn answer_beside(f: &[Bucket], server: Server) -> Exact {
    let rate = server.rate().expect("a rate");
    if last_rate(f) >= rate {
        return nothing(line(UNBOUNDED, true));
    }
    of_server(servers::residual(rate, server.latency(), f))
}

/// The answer, the operands being what they should be.
fn answer(question: &Question) -> Exact {
    let Question { operation, f: list, g, file, server, next, tick, link, edition } = question;
    let (f, server) = (curve_buckets(list), *server);
    match operation {
        Normalise => of_curve(hull(&raw_buckets(list))),
        Value if *tick == 0 => of_figure(0),
        Value => of_figure(u64::try_from(least(&f, (*tick).into(), 1)).expect("64 bits")),
        Burst => of_figure(f.iter().map(|bucket| bucket.burst).min().expect("a bucket")),
        Lower => of_curve(hull(&[f, curve_buckets(g)].concat())),
        Sum => of_curve(hull(&all_pairs(&f, &curve_buckets(g)))),
        Shape => of_curve(hull(&[f, vec![link.bucket()]].concat())),
        Join => of_server(servers::join(good(server), good(*next))),
        Behind | Backlog | Delay => answer_at_port(*operation, &f, good(server)),
        Residual => answer_beside(&f, good(server)),
        Read => of_profile(parsed(file).1.expect("a profile")),
        WriteCurve => of_bytes(curve_file(*edition, &f)),
        WriteServer => of_bytes(server_file(*edition, good(server))),
        Route => {
            let (text, refused) = routes::text(file);
            Exact { refused, ..of_bytes(text) }
        }
    }
}

pub fn exact(question: &Question) -> Exact {
    let operands = operand_lines(question);
    let exact = if operands == [0, 0] { answer(question) } else { nothing(0) };
    Exact { operands, ..exact }
}
