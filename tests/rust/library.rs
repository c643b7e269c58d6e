//! The functions of include/duchrelin.h, each as a safe one.

use super::rules::{Link, Passed};
use std::mem::{align_of, offset_of, size_of};

#[repr(C)]
pub struct Answer {
    pub code: u64,
    pub count: u64,
}

#[repr(C)]
pub struct Figure {
    pub code: u64,
    pub figure: u64,
}

#[repr(C)]
pub struct ServerAnswer {
    pub code: u64,
    pub kind: u64,
    pub rate: u64,
    pub latency: u64,
}

#[repr(C)]
pub struct Profile {
    pub code: u64,
    pub edition: u64,
    pub kind: u64,
    pub count: u64,
    pub rate: u64,
    pub latency: u64,
}

#[repr(C)]
pub struct Written {
    pub code: u64,
    pub bytes: u64,
}

// What the declarations rely on. Nothing else holds them to the header.
const _: () = {
    assert!(size_of::<usize>() == 8 && size_of::<*const u64>() == 8 && align_of::<u64>() == 8);
    assert!(size_of::<Answer>() == 16 && offset_of!(Answer, count) == 8);
    assert!(size_of::<Figure>() == 16 && offset_of!(Figure, figure) == 8);
    assert!(size_of::<ServerAnswer>() == 32 && offset_of!(ServerAnswer, kind) == 8);
    assert!(offset_of!(ServerAnswer, rate) == 16 && offset_of!(ServerAnswer, latency) == 24);
    assert!(size_of::<Profile>() == 48 && offset_of!(Profile, edition) == 8 && offset_of!(Profile, kind) == 16);
    assert!(offset_of!(Profile, count) == 24 && offset_of!(Profile, rate) == 32 && offset_of!(Profile, latency) == 40);
    assert!(size_of::<Written>() == 16 && offset_of!(Written, bytes) == 8);
};

extern "C" {
    fn duchrelin_normalise(raw: *const u64, raw_numbers: usize, out: *mut u64, out_numbers: usize) -> Answer;
    fn duchrelin_value(curve: *const u64, curve_numbers: usize, tick: u64) -> Figure;
    fn duchrelin_burst(curve: *const u64, curve_numbers: usize) -> Figure;
    fn duchrelin_lower(
        f: *const u64,
        f_numbers: usize,
        g: *const u64,
        g_numbers: usize,
        out: *mut u64,
        out_numbers: usize,
    ) -> Answer;
    fn duchrelin_sum(
        f: *const u64,
        f_numbers: usize,
        g: *const u64,
        g_numbers: usize,
        out: *mut u64,
        out_numbers: usize,
    ) -> Answer;
    fn duchrelin_shape(
        curve: *const u64,
        curve_numbers: usize,
        rate: u64,
        frame: u64,
        out: *mut u64,
        out_numbers: usize,
    ) -> Answer;
    fn duchrelin_join(
        kind: u64,
        rate: u64,
        latency: u64,
        next_kind: u64,
        next_rate: u64,
        next_latency: u64,
    ) -> ServerAnswer;
    fn duchrelin_behind(
        curve: *const u64,
        curve_numbers: usize,
        kind: u64,
        rate: u64,
        latency: u64,
        out: *mut u64,
        out_numbers: usize,
    ) -> Answer;
    fn duchrelin_backlog(curve: *const u64, curve_numbers: usize, kind: u64, rate: u64, latency: u64) -> Figure;
    fn duchrelin_delay(curve: *const u64, curve_numbers: usize, kind: u64, rate: u64, latency: u64) -> Figure;
    fn duchrelin_residual(
        kind: u64,
        rate: u64,
        latency: u64,
        cross: *const u64,
        cross_numbers: usize,
    ) -> ServerAnswer;
    fn duchrelin_read(file: *const u8, file_bytes: usize, out: *mut u64, out_numbers: usize) -> Profile;
    fn duchrelin_write_curve(
        edition: u64,
        curve: *const u64,
        curve_numbers: usize,
        buffer: *mut u8,
        buffer_bytes: usize,
    ) -> Written;
    fn duchrelin_write_server(
        edition: u64,
        kind: u64,
        rate: u64,
        latency: u64,
        buffer: *mut u8,
        buffer_bytes: usize,
    ) -> Written;
    fn duchrelin_route(input: *const u8, input_bytes: usize, text: *mut u8, text_bytes: usize) -> Written;
}

// SAFETY, of all: a slice is aligned and as long as its count says, and an output slice, being lent
// for writing, overlaps no other.

pub fn normalise(raw: &[u64], out: &mut [u64]) -> Answer {
    unsafe { duchrelin_normalise(raw.as_ptr(), raw.len(), out.as_mut_ptr(), out.len()) }
}

pub fn value(curve: &[u64], tick: u64) -> Figure {
    unsafe { duchrelin_value(curve.as_ptr(), curve.len(), tick) }
}

pub fn burst(curve: &[u64]) -> Figure {
    unsafe { duchrelin_burst(curve.as_ptr(), curve.len()) }
}

pub fn lower(f: &[u64], g: &[u64], out: &mut [u64]) -> Answer {
    let (to, room) = (out.as_mut_ptr(), out.len());
    unsafe { duchrelin_lower(f.as_ptr(), f.len(), g.as_ptr(), g.len(), to, room) }
}

pub fn sum(f: &[u64], g: &[u64], out: &mut [u64]) -> Answer {
    let (to, room) = (out.as_mut_ptr(), out.len());
    unsafe { duchrelin_sum(f.as_ptr(), f.len(), g.as_ptr(), g.len(), to, room) }
}

pub fn shape(curve: &[u64], link: Link, out: &mut [u64]) -> Answer {
    let (to, room) = (out.as_mut_ptr(), out.len());
    unsafe { duchrelin_shape(curve.as_ptr(), curve.len(), link.rate, link.frame, to, room) }
}

pub fn join(server: Passed, next: Passed) -> ServerAnswer {
    unsafe { duchrelin_join(server.kind, server.rate, server.latency, next.kind, next.rate, next.latency) }
}

pub fn behind(curve: &[u64], server: Passed, out: &mut [u64]) -> Answer {
    let (to, room) = (out.as_mut_ptr(), out.len());
    unsafe { duchrelin_behind(curve.as_ptr(), curve.len(), server.kind, server.rate, server.latency, to, room) }
}

pub fn backlog(curve: &[u64], server: Passed) -> Figure {
    unsafe { duchrelin_backlog(curve.as_ptr(), curve.len(), server.kind, server.rate, server.latency) }
}

pub fn delay(curve: &[u64], server: Passed) -> Figure {
    unsafe { duchrelin_delay(curve.as_ptr(), curve.len(), server.kind, server.rate, server.latency) }
}

pub fn residual(server: Passed, cross: &[u64]) -> ServerAnswer {
    unsafe { duchrelin_residual(server.kind, server.rate, server.latency, cross.as_ptr(), cross.len()) }
}

pub fn read(file: &[u8], out: &mut [u64]) -> Profile {
    unsafe { duchrelin_read(file.as_ptr(), file.len(), out.as_mut_ptr(), out.len()) }
}

pub fn write_curve(edition: u64, curve: &[u64], buffer: &mut [u8]) -> Written {
    unsafe { duchrelin_write_curve(edition, curve.as_ptr(), curve.len(), buffer.as_mut_ptr(), buffer.len()) }
}

pub fn write_server(edition: u64, server: Passed, buffer: &mut [u8]) -> Written {
    let (to, room) = (buffer.as_mut_ptr(), buffer.len());
    unsafe { duchrelin_write_server(edition, server.kind, server.rate, server.latency, to, room) }
}

pub fn route(input: &[u8], text: &mut [u8]) -> Written {
    unsafe { duchrelin_route(input.as_ptr(), input.len(), text.as_mut_ptr(), text.len()) }
}
