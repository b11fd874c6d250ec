//! What forecasts, steps and runs answer.

use std::fmt;

/// What a pick did.
#[derive(Clone, Copy, PartialEq, Eq, Hash, Debug)]
pub enum Event {
    /// Its thread does not exist or has ended.
    Idle = 0,
    /// PUSH.
    Push = 1,
    /// ADD.
    Sum = 2,
    /// FORK.
    Fork = 3,
    /// BEGIN.
    Begin = 4,
    /// READ, with the write log's value.
    ReadWriteLog = 5,
    /// READ, with the read log's value.
    ReadReadLog = 6,
    /// READ, with the table's value, which entered the read log with its count.
    ReadTable = 7,
    /// WRITE.
    Write = 8,
    /// A COMMIT that took effect.
    Commit = 9,
    /// A COMMIT that found a stale register: one that a commit wrote since it entered the read log.
    SentBack = 10,
}

impl Event {
    /// All of them, in the order of their numbers.
    pub const ALL: [Event; 11] = [
        Event::Idle,
        Event::Push,
        Event::Sum,
        Event::Fork,
        Event::Begin,
        Event::ReadWriteLog,
        Event::ReadReadLog,
        Event::ReadTable,
        Event::Write,
        Event::Commit,
        Event::SentBack,
    ];

    /// Whether a pick that did this may be exchanged with a neighbouring one that is free too and names another thread:
    /// it did neither a FORK nor a commit that took effect. Each then does the same in either order, and the state and
    /// all counts behind them are the same.
    pub fn is_free(self) -> bool {
        !matches!(self, Event::Fork | Event::Commit)
    }

    /// The event that has this number, if one has.
    pub fn from_number(number: usize) -> Option<Event> {
        Event::ALL.get(number).copied()
    }
}

/// A rule of the machine by its name: the one that a step used, or the last one of a thread.
#[derive(Clone, Copy, PartialEq, Eq, Hash, Debug)]
pub enum Rule {
    /// Nothing has moved the thread yet.
    None,
    /// Of a step: its thread does not exist or has ended. No record keeps it.
    Idle,
    /// PUSH.
    Push,
    /// ADD.
    Sum,
    /// FORK.
    Fork,
    /// BEGIN.
    Begin,
    /// READ, with the write log's value.
    ReadWriteLog,
    /// READ, with the read log's value.
    ReadReadLog,
    /// READ, with the table's value.
    ReadTable,
    /// WRITE.
    Write,
    /// A COMMIT that took effect.
    Commit,
    /// A COMMIT that found a stale register; the lowest such.
    SentBack(u8),
    /// A number in a record that names no rule. It fits, for the last rule is free in a lent state.
    Unnamed(usize),
}

impl Rule {
    /// The rule that a record's number names.
    pub fn of_record(number: usize) -> Rule {
        match number {
            0 => Rule::None,
            1..=9 => Rule::of_event(Event::ALL[number], 0),
            10..=73 => Rule::SentBack((number - 10) as u8),
            _ => Rule::Unnamed(number),
        }
    }

    /// The number that a record has for it; nothing for `Idle`. The inverse of `of_record`, for a register below 64 and an
    /// unnamed number of 74 or above.
    pub fn number(self) -> Option<usize> {
        Some(match self {
            Rule::None => 0,
            Rule::Idle => return None,
            Rule::Push => 1,
            Rule::Sum => 2,
            Rule::Fork => 3,
            Rule::Begin => 4,
            Rule::ReadWriteLog => 5,
            Rule::ReadReadLog => 6,
            Rule::ReadTable => 7,
            Rule::Write => 8,
            Rule::Commit => 9,
            Rule::SentBack(register) => 10 + usize::from(register),
            Rule::Unnamed(number) => number,
        })
    }

    /// The register is that of a send-back.
    fn of_event(event: Event, register: u8) -> Rule {
        match event {
            Event::Idle => Rule::Idle,
            Event::Push => Rule::Push,
            Event::Sum => Rule::Sum,
            Event::Fork => Rule::Fork,
            Event::Begin => Rule::Begin,
            Event::ReadWriteLog => Rule::ReadWriteLog,
            Event::ReadReadLog => Rule::ReadReadLog,
            Event::ReadTable => Rule::ReadTable,
            Event::Write => Rule::Write,
            Event::Commit => Rule::Commit,
            Event::SentBack => Rule::SentBack(register),
        }
    }
}

impl fmt::Display for Rule {
    fn fmt(&self, f: &mut fmt::Formatter<'_>) -> fmt::Result {
        f.write_str(match self {
            Rule::None => "none",
            Rule::Idle => "idle",
            Rule::Push => "push",
            Rule::Sum => "sum",
            Rule::Fork => "fork",
            Rule::Begin => "begin",
            Rule::ReadWriteLog => "read from write log",
            Rule::ReadReadLog => "read from read log",
            Rule::ReadTable => "read from table",
            Rule::Write => "write",
            Rule::Commit => "commit",
            Rule::SentBack(register) => return write!(f, "sent back with register {register}"),
            Rule::Unnamed(number) => return write!(f, "no rule has the number {number}"),
        })
    }
}

/// What one pick did.
#[derive(Clone, Copy, PartialEq, Eq, Hash, Debug)]
pub struct Step {
    /// What it did.
    pub event: Event,
    /// The lowest stale register, if the thread was sent back.
    pub stale: Option<u8>,
    /// Whether it took a turn: a sum outside a transaction, a FORK or a commit.
    pub turn: bool,
    /// Sums that left the 32-bit range: 1 for such a sum outside a transaction, of a commit those that its attempt noted,
    /// else 0.
    pub over: usize,
}

impl Step {
    /// The rule that it used.
    pub fn rule(self) -> Rule {
        Rule::of_event(self.event, self.stale.unwrap_or(0))
    }
}

/// The counts of one call's picks; those of a state's registers are [`State::counts`](crate::State::counts).
#[derive(Clone, Copy, PartialEq, Eq, Hash, Debug, Default)]
pub struct Counts {
    /// Picks that were not idle.
    pub steps: usize,
    /// Picks of threads that did not exist or had ended.
    pub idle: usize,
    /// COMMITs that took effect.
    pub commits: usize,
    /// COMMITs that were sent back.
    pub back: usize,
    /// Sums that left the 32-bit range, outside transactions and, as noted, in attempts that took effect.
    pub over: usize,
}

/// A set of registers.
#[derive(Clone, Copy, PartialEq, Eq, Hash, Default)]
pub struct RegisterSet {
    /// One bit for each register, bit 0 being register 0.
    pub bits: u64,
}

impl RegisterSet {
    /// Whether a register is in it.
    pub fn contains(self, register: u8) -> bool {
        register < 64 && self.bits >> register & 1 == 1
    }

    /// Its registers, ascending.
    pub fn iter(self) -> impl Iterator<Item = u8> {
        (0..64).filter(move |&register| self.contains(register))
    }

    /// Puts a register in. One of 64 or above leaves the set as it is.
    pub fn insert(&mut self, register: u8) {
        if register < 64 {
            self.bits |= 1 << register;
        }
    }
}

impl fmt::Debug for RegisterSet {
    fn fmt(&self, f: &mut fmt::Formatter<'_>) -> fmt::Result {
        f.debug_set().entries(self.iter()).finish()
    }
}

/// What a job will need. A run is here all steps and runs with the job's code on one state, from a fresh one on, nothing
/// else writing it meanwhile; steps and commits are added up over it, and the picks may be any. It is finished when every
/// thread has ended.
#[derive(Clone, Copy, PartialEq, Eq, Hash, Debug)]
pub struct Forecast {
    /// Bytes of its code, mark and version included.
    pub length: usize,
    /// A finished run has so many commits (K).
    pub transactions: usize,
    /// A finished run has so many threads (T).
    pub threads: usize,
    /// A finished run in which nothing was sent back has so many steps (L).
    pub instructions: usize,
    /// Instructions of the longest transaction, BEGIN and COMMIT included; 0 if there is none (M).
    pub longest: usize,
    /// No run has more steps.
    pub bound: usize,
    /// The registers that READ names.
    pub reads: RegisterSet,
    /// The registers that WRITE names.
    pub writes: RegisterSet,
    /// All 16 greatest stack heights, 0 behind those of the job's threads.
    pub all_heights: [u8; 16],
}

impl Forecast {
    /// Greatest stack height of the root, then of each FORK's child in the order of the FORKs in the job.
    pub fn heights(&self) -> &[u8] {
        &self.all_heights[..self.threads]
    }
}
