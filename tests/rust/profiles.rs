//! The reference for the profile file. A field is cut out of the bytes that it lies in, as a number of
//! 128 bits; a file is written by putting each number where its field lies.

use super::curves::hull;
use super::rules::*;
use super::servers::server_lines;

const EDITION_BITS: usize = 4;
const KIND_BITS: usize = 4;
const COUNT_BITS: usize = 6;
const RATE_BITS: usize = 20;
const BURST_BITS: usize = 40;
const LATENCY_BITS: usize = 20;

const HEADER_BITS: usize = EDITION_BITS + KIND_BITS;
const CURVE_START: usize = HEADER_BITS + COUNT_BITS;
const BUCKET_BITS: usize = RATE_BITS + BURST_BITS;
pub const RATE_LATENCY_BYTES: usize = (HEADER_BITS + RATE_BITS + LATENCY_BITS) / 8;
const PURE_DELAY_BITS: usize = HEADER_BITS + LATENCY_BITS;
pub const PURE_DELAY_BYTES: usize = PURE_DELAY_BITS.div_ceil(8);
pub const PURE_DELAY_PADDING: usize = 8 * PURE_DELAY_BYTES - PURE_DELAY_BITS;

fn curve_bits(count: usize) -> usize {
    CURVE_START + BUCKET_BITS * count
}

pub fn curve_bytes(count: usize) -> usize {
    curve_bits(count).div_ceil(8)
}

/// The number in the field of so many bits that begins at a bit.
fn field(file: &[u8], at: usize, width: usize) -> u64 {
    let (first, last) = (at / 8, (at + width - 1) / 8);
    let window = file[first..=last].iter().fold(0u128, |window, byte| window << 8 | u128::from(*byte));
    let after = 8 * (last + 1) - (at + width);
    ((window >> after) & ((1 << width) - 1)) as u64
}

/// Puts a number into the field of so many bits that begins at a bit, all bits of which are 0.
fn put(file: &mut [u8], at: usize, width: usize, number: u64) {
    let (first, last) = (at / 8, (at + width - 1) / 8);
    let mut window = u128::from(number) << (8 * (last + 1) - (at + width));
    for byte in file[first..=last].iter_mut().rev() {
        *byte |= (window & 0xFF) as u8;
        window >>= 8;
    }
}

/// The editions that have a kind.
pub fn editions_of(kind: u64) -> &'static [u64] {
    match kind {
        PURE_DELAY_KIND => &EDITIONS[1..],
        _ => &EDITIONS,
    }
}

fn under_header(edition: u64, kind: u64, bytes: usize) -> Vec<u8> {
    let mut file = vec![0; bytes];
    put(&mut file, 0, EDITION_BITS, edition);
    put(&mut file, EDITION_BITS, KIND_BITS, kind);
    file
}

pub fn curve_file(edition: u64, curve: &[Bucket]) -> Vec<u8> {
    let mut file = under_header(edition, CURVE_KIND, curve_bytes(curve.len()));
    put(&mut file, HEADER_BITS, COUNT_BITS, curve.len() as u64 - 1);
    for (place, b) in curve.iter().enumerate() {
        put(&mut file, curve_bits(place), RATE_BITS, b.rate);
        put(&mut file, curve_bits(place) + RATE_BITS, BURST_BITS, b.burst);
    }
    file
}

pub fn server_file(edition: u64, server: Server) -> Vec<u8> {
    match server {
        Server::RateLatency { rate, latency } => {
            let mut file = under_header(edition, RATE_LATENCY_KIND, RATE_LATENCY_BYTES);
            put(&mut file, HEADER_BITS, RATE_BITS, rate);
            put(&mut file, HEADER_BITS + RATE_BITS, LATENCY_BITS, latency);
            file
        }
        Server::PureDelay { latency } => {
            let mut file = under_header(edition, PURE_DELAY_KIND, PURE_DELAY_BYTES);
            put(&mut file, HEADER_BITS, LATENCY_BITS, latency);
            file
        }
    }
}

pub enum Content {
    Curve(Vec<Bucket>),
    Server(Server),
}

pub struct Profile {
    pub edition: u64,
    pub content: Content,
}

impl Profile {
    fn file(&self) -> Vec<u8> {
        match &self.content {
            Content::Curve(curve) => curve_file(self.edition, curve),
            Content::Server(server) => server_file(self.edition, *server),
        }
    }
}

/// The kind that a file's header names, 0 if it names none of its edition.
pub fn kind_of(file: &[u8]) -> u64 {
    match file.first() {
        Some(0x11 | 0x21) => CURVE_KIND,
        Some(0x12 | 0x22) => RATE_LATENCY_KIND,
        Some(0x23) => PURE_DELAY_KIND,
        _ => 0,
    }
}

/// The bytes that the header requires, if it is one and says how many.
pub fn bytes_required(file: &[u8]) -> Option<usize> {
    match kind_of(file) {
        CURVE_KIND if file.len() > 1 => Some(curve_bytes(usize::from(file[1] / 4) + 1)),
        RATE_LATENCY_KIND => Some(RATE_LATENCY_BYTES),
        PURE_DELAY_KIND => Some(PURE_DELAY_BYTES),
        _ => None,
    }
}

/// What a file of the length that its header requires holds.
fn held(file: &[u8]) -> Content {
    match kind_of(file) {
        RATE_LATENCY_KIND => {
            let rate = field(file, HEADER_BITS, RATE_BITS);
            Content::Server(server(rate, field(file, HEADER_BITS + RATE_BITS, LATENCY_BITS)))
        }
        PURE_DELAY_KIND => Content::Server(pure_delay(field(file, HEADER_BITS, LATENCY_BITS))),
        _ => {
            let count = field(file, HEADER_BITS, COUNT_BITS) as usize + 1;
            let bucket_at = |at| bucket(field(file, at, RATE_BITS), field(file, at + RATE_BITS, BURST_BITS));
            Content::Curve((0..count).map(|place| bucket_at(curve_bits(place))).collect())
        }
    }
}

/// The lines that a file breaks, and what it holds if its header and length are right.
pub fn parsed(file: &[u8]) -> (u32, Option<Profile>) {
    if kind_of(file) == 0 {
        return (line(HEADER, true), None);
    }
    if bytes_required(file) != Some(file.len()) {
        return (line(LENGTH, true), None);
    }
    let profile = Profile { edition: field(file, 0, EDITION_BITS), content: held(file) };
    // All padding bits are 0 exactly if the same profile, written again, is the same file.
    let padded = line(PAD, profile.file() != file);
    let lines = match &profile.content {
        Content::Server(server) => server_lines((*server).into()),
        Content::Curve(curve) => line(FORM, hull(curve) != *curve),
    };
    (padded | lines, Some(profile))
}

/// The line of an edition in which a kind is to be written. Of a number that is no kind no edition is asked for.
pub fn edition_lines(edition: u64, kind: u64) -> u32 {
    line(HEADER, !editions_of(kind).contains(&edition))
}
