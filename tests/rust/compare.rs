//! Compares the library with references of its own on many pseudo-random inputs, good and damaged,
//! long and short, and holds the library's own answers to laws. The references take another way to
//! each answer than those of tests/compare: hulls, halving, one pass, one step.
//!
//! For every input the code, every figure and count, the whole output list or buffer, the operands and
//! the guard words around all of them must be as the references say. A test is a figure of the scope,
//! a campaign of inputs of one kind, a law, or something that must have come up; each prints the
//! number of its inputs. The seed is fixed, so every run is the same. The last line is
//! 'N passed, M failed'.
#![deny(unsafe_code)]

mod campaigns;
mod curves;
mod kinds;
mod laws;
mod lent;
#[allow(unsafe_code)]
mod library;
mod lists;
mod notes;
mod ports;
mod profiles;
mod questions;
mod random;
mod routes;
mod rules;
mod run;
mod servers;

use run::Run;
use std::process::ExitCode;

const SEED: u64 = 20_240_917;

fn main() -> ExitCode {
    let mut run = Run::new(SEED);
    campaigns::figures(&mut run);
    campaigns::references(&mut run);
    campaigns::campaigns(&mut run);
    laws::laws(&mut run);
    run.coverage();
    let names: Vec<&str> = campaigns::names().chain(laws::names()).collect();
    ExitCode::from(u8::from(!run.conclude(&names)))
}
