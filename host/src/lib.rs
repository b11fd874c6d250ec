//! Kuspigo's library, called from Rust. Nothing in this package is proved; what it calls is.
//!
//! ```
//! let job = [0x57, 0x53, 0x4A, 0, 1, 0, 1, 1, 0, 0, 0, 7];
//! let code = kuspigo::compile(&job)?;
//! let mut state = kuspigo::State::fresh(&code)?;
//! let counts = state.run(&code, &[0])?;
//! assert!(state.is_finished());
//! assert_eq!((counts.steps, state.threads[0].result()), (1, Some(7)));
//! # Ok::<(), kuspigo::Refusal>(())
//! ```

#![deny(missing_docs)]

#[macro_use]
mod api;
mod answers;
pub mod ffi;
pub mod raw;
mod refusals;

pub use answers::{Counts, Event, Forecast, RegisterSet, Rule, Step};
pub use ffi::{Thread, API};
pub use refusals::{Reason, Refusal};

use ffi::Written;

/// The examples of the package's README.
#[cfg(doctest)]
#[doc = include_str!("../README.md")]
struct Readme;

/// A state has so many registers, each with its count,
pub const REGISTERS: usize = 64;
/// and so many thread records.
pub const THREADS: usize = 16;
/// No accepted job's code is longer.
pub const LONGEST_CODE: usize = 3_007;
/// No accepted job is longer, and none that is read back.
pub const LONGEST_JOB: usize = 3_007;
/// No listing is longer, as is proved of the library.
pub const LONGEST_LISTING: usize = 4_449;
/// No text of a script is longer.
pub const LONGEST_TEXT: usize = 32_768;
/// A run call takes no more picks.
pub const MOST_PICKS: usize = 32_768;

/// The version 1 job of a script that is typed as a formula.
///
/// ```
/// let job = kuspigo::formula(b"fork atomic(r0 := r0 + 1)")?;
/// assert_eq!(job, [0x57, 0x53, 0x4A, 0, 1, 0, 6, 4, 3, 8, 0, 6, 7, 0, 5, 0, 0, 0, 1]);
///
/// // no script goes on so from the second `+`
/// let refusal = kuspigo::formula(b"1 + + 2").unwrap_err();
/// assert_eq!((refusal.reason, refusal.place), (kuspigo::Reason::NotAScript, 4));
/// # Ok::<(), kuspigo::Refusal>(())
/// ```
///
/// [`Reason::NotAScript`] comes before the job's refusals, whose places are in the job that it would make.
pub fn formula(text: &[u8]) -> Result<Vec<u8>, Refusal> {
    into_vec(LONGEST_JOB, |out| formula_into(text, out))
}

/// Writes the version 1 job of a formula to the front of `out` and gives its length. Nothing behind it is altered.
pub fn formula_into(text: &[u8], out: &mut [u8]) -> Result<usize, Refusal> {
    written(raw::formula(text, out))
}

/// The job's stack code.
pub fn compile(job: &[u8]) -> Result<Vec<u8>, Refusal> {
    into_vec(LONGEST_CODE, |out| compile_into(job, out))
}

/// Writes the job's stack code to the front of `out` and gives its length. Nothing behind it is altered.
pub fn compile_into(job: &[u8], out: &mut [u8]) -> Result<usize, Refusal> {
    written(raw::compile(job, out))
}

/// What the job will need, from its bytes alone.
pub fn forecast(job: &[u8]) -> Result<Forecast, Refusal> {
    let reply = raw::forecast(job);
    taken(reply.refusal, reply.place)?;
    Ok(Forecast {
        length: reply.length,
        transactions: reply.transactions,
        threads: reply.threads,
        instructions: reply.instructions,
        longest: reply.longest,
        bound: reply.bound,
        reads: RegisterSet { bits: reply.reads },
        writes: RegisterSet { bits: reply.writes },
        all_heights: reply.heights,
    })
}

/// The job that compiles to the code.
pub fn read_back(code: &[u8]) -> Result<Vec<u8>, Refusal> {
    into_vec(LONGEST_JOB, |out| read_back_into(code, out))
}

/// Writes the job that compiles to the code to the front of `out` and gives its length. Nothing behind it is altered.
pub fn read_back_into(code: &[u8], out: &mut [u8]) -> Result<usize, Refusal> {
    written(raw::read_back(code, out))
}

/// What the run program prints for an input: the job's length in two bytes, the job, the picks.
pub fn report(input: &[u8]) -> Result<Vec<u8>, Refusal> {
    into_vec(LONGEST_LISTING, |out| report_into(input, out))
}

/// As [`report`], to the front of `out`.
pub fn report_into(input: &[u8], out: &mut [u8]) -> Result<usize, Refusal> {
    written(raw::report(input, out))
}

/// Lays a fresh state down. There have to be 64 registers, 64 counts and 16 records, else it is refused with 12.
pub fn fresh(code: &[u8], registers: &mut [i32], counts: &mut [u32], threads: &mut [Thread]) -> Result<(), Refusal> {
    let reply = raw::fresh(code, registers, counts, threads);
    taken(reply.refusal, reply.place)
}

/// One pick.
pub fn step(
    code: &[u8],
    registers: &mut [i32],
    counts: &mut [u32],
    threads: &mut [Thread],
    pick: u8,
) -> Result<Step, Refusal> {
    let reply = raw::step(code, registers, counts, threads, pick);
    taken(reply.refusal, reply.place)?;
    let event = Event::from_number(reply.event).expect("the library names an event");
    let stale = (event == Event::SentBack).then_some(reply.register as u8);
    Ok(Step { event, stale, turn: reply.turn == 1, over: reply.over })
}

/// A list of picks, one after the other.
pub fn run(
    code: &[u8],
    registers: &mut [i32],
    counts: &mut [u32],
    threads: &mut [Thread],
    picks: &[u8],
) -> Result<Counts, Refusal> {
    let reply = raw::run(code, registers, counts, threads, picks);
    taken(reply.refusal, reply.place)?;
    Ok(Counts { steps: reply.steps, idle: reply.idle, commits: reply.commits, back: reply.back, over: reply.over })
}

/// A state: the registers with their counts, and the thread records.
#[derive(Clone, PartialEq, Eq, Debug)]
pub struct State {
    /// The register table.
    pub registers: [i32; REGISTERS],
    /// Beside each register how often commits have written it: a commit that takes effect adds 1 for each register of its
    /// write log, once and whatever the value. A register that enters a thread's read log enters with its count, and is stale
    /// for that thread if the two counts differ, also if its value is the same.
    ///
    /// A lent state does not fit if one of these is above the COMMITs that all threads together have passed, if a count in a
    /// read log is above the one here or is not 0 where the log does not mark the register, or if a thread that has a stale
    /// register in its read log was sent back as often as COMMITs were passed. Any other counts fit.
    pub counts: [u32; REGISTERS],
    /// The thread records. Threads are numbered without gaps; a record behind the last one is [`Thread::ABSENT`].
    pub threads: [Thread; THREADS],
}

impl State {
    /// Thread 0 alone, at the start of the code, and every register and count 0.
    pub fn fresh(code: &[u8]) -> Result<State, Refusal> {
        let mut state = State { registers: [0; REGISTERS], counts: [0; REGISTERS], threads: [Thread::ABSENT; THREADS] };
        fresh(code, &mut state.registers, &mut state.counts, &mut state.threads)?;
        Ok(state)
    }

    /// One pick.
    pub fn step(&mut self, code: &[u8], pick: u8) -> Result<Step, Refusal> {
        step(code, &mut self.registers, &mut self.counts, &mut self.threads, pick)
    }

    /// A list of picks, one after the other.
    pub fn run(&mut self, code: &[u8], picks: &[u8]) -> Result<Counts, Refusal> {
        run(code, &mut self.registers, &mut self.counts, &mut self.threads, picks)
    }

    /// Whether every thread that exists has ended; so it is in a state without threads too, which fits no code.
    pub fn is_finished(&self) -> bool {
        self.open_threads().next().is_none()
    }

    /// The numbers of the threads that exist and have not ended, ascending, as it is at the call. A pick of any other is
    /// idle.
    ///
    /// ```
    /// # let code = kuspigo::compile(&[0x57, 0x53, 0x4A, 0, 1, 0, 2, 4, 1, 0, 0, 0, 7])?;
    /// # let mut state = kuspigo::State::fresh(&code)?;
    /// while let Some(thread) = state.open_threads().next() {
    ///     state.step(&code, thread)?;
    /// }
    /// assert!(state.is_finished());
    /// # assert_eq!([0, 1].map(|thread: usize| state.threads[thread].result()), [Some(0), Some(7)]);
    /// # Ok::<(), kuspigo::Refusal>(())
    /// ```
    pub fn open_threads(&self) -> impl Iterator<Item = u8> {
        let open: [bool; THREADS] = std::array::from_fn(|number| self.threads[number].is_open());
        (0..).zip(open).filter(|&(_, open)| open).map(|(number, _)| number)
    }
}

impl Thread {
    /// The record of a thread that does not exist.
    pub const ABSENT: Thread = Thread {
        start: 0,
        end: 0,
        place: 0,
        height: 0,
        cells: [0; 64],
        begin: 0,
        base: 0,
        over: 0,
        reads: 0,
        readlog: [0; 64],
        readcounts: [0; 64],
        writes: 0,
        writelog: [0; 64],
        rule: 0,
        backs: 0,
    };

    /// Whether there is such a thread.
    pub fn exists(&self) -> bool {
        self.start != 0
    }

    /// Whether it exists and has not ended.
    pub fn is_open(&self) -> bool {
        self.exists() && self.result().is_none()
    }

    /// The last rule that moved it; idle picks leave it.
    pub fn last_rule(&self) -> Rule {
        Rule::of_record(self.rule)
    }

    /// Its result, if it has ended.
    pub fn result(&self) -> Option<i32> {
        (self.exists() && self.place == self.end).then_some(self.cells[0])
    }
}

fn taken(refusal: usize, place: usize) -> Result<(), Refusal> {
    match refusal {
        0 => Ok(()),
        number => Err(Refusal { reason: Reason::from_number(number).expect("the library names a reason"), place }),
    }
}

fn written(answer: Written) -> Result<usize, Refusal> {
    taken(answer.refusal, answer.place)?;
    Ok(answer.length)
}

fn into_vec(longest: usize, write: impl FnOnce(&mut [u8]) -> Result<usize, Refusal>) -> Result<Vec<u8>, Refusal> {
    let mut out = vec![0; longest];
    let length = write(&mut out)?;
    out.truncate(length);
    Ok(out)
}
