//! A second implementation, in plain Rust. Unproved; written from documents 01 and 02, for comparison with the library.
//! [`samples`] has jobs for both, [`texts`] formulas.
//!
//! It works on the library's record ([`Thread`](kuspigo::Thread)), so that whole memory can be compared. Five calls have
//! two forms, for the benchmark: compiling, forecasting and reading back without a tree (the ones named here) or by a
//! tree ([`tree`]); stepping and running with the records changed in place (the ones named here) or by value
//! ([`by_value`]).

pub mod by_value;
mod code;
mod compile;
mod forecast;
mod formula;
mod job;
mod machine;
mod read_back;
mod report;
pub mod samples;
mod state;
pub mod texts;
pub mod tree;

pub use code::{decode, Op};
pub use compile::compile;
pub use forecast::forecast;
pub use formula::formula;
pub use machine::{fresh, run, step};
pub use read_back::read_back;
pub use report::{listing, report};

use kuspigo::{Counts, Event, Reason, Refusal, Step};

const REGISTERS: usize = 64;
const RECORDS: usize = 16;
const MOST_NODES: usize = 1_000;
const DEEPEST: u8 = 64;
const MOST_FORKS: usize = 15;
/// Of a transaction, ATOMIC not counted.
const MOST_INSIDE: usize = 200;
const MOST_PICKS: usize = 32_768;
/// Of an accepted job.
const LONGEST_JOB: usize = 3_007;
const LONGEST_TEXT: usize = 32_768;
/// Brackets, forks, atomics and writes of a formula together.
const MOST_OPEN: usize = 64;

/// Mark and version of a job; the node count follows.
const JOB_HEAD: [u8; 5] = *b"WSJ\x00\x01";
/// Mark and version of stack code; the instructions follow.
const CODE_HEAD: [u8; 5] = *b"WSC\x00\x01";
/// Where a job's nodes start.
const NODES: usize = 7;
/// Where code's instructions start.
const INSTRUCTIONS: usize = 5;

fn refuse<T>(number: u8, place: usize) -> Result<T, Refusal> {
    Err(Refusal { reason: Reason::from_number(number.into()).expect("a refusal of the papers"), place })
}

fn short_output<T>() -> Result<T, Refusal> {
    refuse(10, 0)
}

fn unknown_code<T>() -> Result<T, Refusal> {
    refuse(11, 0)
}

fn unfit_state<T>() -> Result<T, Refusal> {
    refuse(12, 0)
}

fn too_many_picks<T>() -> Result<T, Refusal> {
    refuse(13, 0)
}

fn long_transaction<T>(atomic: usize) -> Result<T, Refusal> {
    refuse(14, atomic)
}

fn number16(high: u8, low: u8) -> usize {
    usize::from(u16::from_be_bytes([high, low]))
}

/// A step that took no turn, was not sent back and tells of no sum.
const fn step_of(event: Event) -> Step {
    Step { event, stale: None, turn: false, over: 0 }
}

const IDLE: Step = step_of(Event::Idle);

/// Adds what a step told.
fn count(told: &mut Counts, step: Step) {
    told.idle += usize::from(step.event == Event::Idle);
    told.steps += usize::from(step.event != Event::Idle);
    told.commits += usize::from(step.event == Event::Commit);
    told.back += usize::from(step.event == Event::SentBack);
    told.over += step.over;
}
