//! The library's functions as C sees them: a slice is a pointer and a count. A pointer is never null, and what is lent for
//! writing overlaps nothing else that is lent to the call.
//!
//! Nothing checks these declarations against the library's source. The tests hold them against what it does.

/// A thread's record. Places count from the code's first byte, so 0 is no place; a record whose `start` is 0 is of no
/// thread.
#[repr(C)]
#[derive(Clone, Copy, PartialEq, Eq, Debug)]
pub struct Thread {
    /// Its own code: from here up to `end`, less the child code of the FORKs in it.
    pub start: usize,
    /// The place behind its own code. A thread whose place it is has ended.
    pub end: usize,
    /// The next instruction.
    pub place: usize,
    /// So many cells of the stack are in use.
    pub height: usize,
    /// The stack. The first cell of a thread that has ended is its result.
    pub cells: [i32; 64],
    /// The open transaction's notes, 0 if none is open: its BEGIN's place,
    pub begin: usize,
    /// the stack height there,
    pub base: usize,
    /// and how many sums of this attempt left the 32-bit range.
    pub over: usize,
    /// The registers that the read log marks, bit 0 being register 0,
    pub reads: u64,
    /// their values,
    pub readlog: [i32; 64],
    /// and their counts, as the table had them when they entered the log; 0 where the log does not mark the register.
    pub readcounts: [u32; 64],
    /// The registers that the write log marks,
    pub writes: u64,
    /// and their values.
    pub writelog: [i32; 64],
    /// The last rule that moved it, 0 if none has: 1 to 9 an [`Event`](crate::Event) by its number, 10 + v sent back with
    /// the lowest stale register v. Idle picks leave it. Any number fits in a thread's record; in a record of no thread
    /// this and `backs` are 0.
    pub rule: usize,
    /// How often it was sent back: at most as often as all threads together have passed COMMITs, and less often while a
    /// register of its read log is stale; else the state does not fit.
    pub backs: usize,
}

/// The answer of formula, compile, read back and report. `refusal` 0: none, and the first `length` bytes of the output
/// are written. On a refusal `length` is 0.
#[repr(C)]
#[derive(Clone, Copy, PartialEq, Eq, Debug)]
pub struct Written {
    /// 0 if the call was taken, else a [`Reason`](crate::Reason) by its number.
    pub refusal: usize,
    /// A byte offset, in the text for 15 and in the job else, or 0.
    pub place: usize,
    /// So many bytes of the output are written.
    pub length: usize,
}

/// The answer of fresh.
#[repr(C)]
#[derive(Clone, Copy, PartialEq, Eq, Debug)]
pub struct FreshReply {
    /// 0 if the call was taken, else a [`Reason`](crate::Reason) by its number.
    pub refusal: usize,
    /// A byte offset in the job, or 0.
    pub place: usize,
}

/// The answer of step; on a refusal the last four are 0.
#[repr(C)]
#[derive(Clone, Copy, PartialEq, Eq, Debug)]
pub struct StepReply {
    /// 0 if the call was taken, else a [`Reason`](crate::Reason) by its number.
    pub refusal: usize,
    /// A byte offset in the job, or 0.
    pub place: usize,
    /// An [`Event`](crate::Event) by its number.
    pub event: usize,
    /// The lowest stale register of a send-back, else 0.
    pub register: usize,
    /// 1 if the pick took a turn, else 0.
    pub turn: usize,
    /// 1 for a sum outside a transaction that left the 32-bit range, the note of a commit that took effect, else 0.
    pub over: usize,
}

/// The answer of run; on a refusal the counts are 0.
#[repr(C)]
#[derive(Clone, Copy, PartialEq, Eq, Debug)]
pub struct RunReply {
    /// 0 if the call was taken, else a [`Reason`](crate::Reason) by its number.
    pub refusal: usize,
    /// A byte offset in the job, or 0.
    pub place: usize,
    /// Picks that were not idle.
    pub steps: usize,
    /// Picks of threads that did not exist or had ended.
    pub idle: usize,
    /// COMMITs that took effect.
    pub commits: usize,
    /// COMMITs that were sent back.
    pub back: usize,
    /// What the picks told, as in [`StepReply`], added up.
    pub over: usize,
}

/// The answer of forecast; on a refusal all behind `place` is 0.
#[repr(C)]
#[derive(Clone, Copy, PartialEq, Eq, Debug)]
pub struct ForecastReply {
    /// 0 if the call was taken, else a [`Reason`](crate::Reason) by its number.
    pub refusal: usize,
    /// A byte offset in the job, or 0.
    pub place: usize,
    /// Bytes of code, mark and version included.
    pub length: usize,
    /// ATOMIC nodes.
    pub transactions: usize,
    /// 1 + FORK nodes.
    pub threads: usize,
    /// Of all threads together, each counted once.
    pub instructions: usize,
    /// Instructions of the longest transaction, BEGIN and COMMIT included; 0 if there is none.
    pub longest: usize,
    /// No run of its code from a fresh state has more steps.
    pub bound: usize,
    /// The registers that READ names, bit 0 being register 0,
    pub reads: u64,
    /// and those that WRITE names.
    pub writes: u64,
    /// Greatest stack height of the root, then of each FORK's child in job order; 0 behind them.
    pub heights: [u8; 16],
}

/// The version of the C interface that these declarations are of.
pub const API: usize = api!();

/// Refers to the library's version in whatever this package is linked to.
#[used]
static LINKED: unsafe extern "C" fn() -> usize = kuspigo_api;

extern "C" {
    /// The version of the C interface. Its name holds the number, so that an archive of another version does not link.
    #[link_name = concat!("kuspigo_api_", api!())]
    pub fn kuspigo_api() -> usize;
    /// The version 1 job of a script that is typed as a formula, at the front of `out`.
    pub fn kuspigo_formula(text: *const u8, text_count: usize, out: *mut u8, out_count: usize) -> Written;
    /// The job's stack code, at the front of `out`.
    pub fn kuspigo_compile(job: *const u8, job_count: usize, out: *mut u8, out_count: usize) -> Written;
    /// The job that compiles to the code, at the front of `out`.
    pub fn kuspigo_read_back(code: *const u8, code_count: usize, out: *mut u8, out_count: usize) -> Written;
    /// What the job will need.
    pub fn kuspigo_forecast(job: *const u8, job_count: usize) -> ForecastReply;
    /// What the run program prints for an input, at the front of `out`.
    pub fn kuspigo_report(input: *const u8, input_count: usize, out: *mut u8, out_count: usize) -> Written;
    /// A fresh state, over whatever was there.
    pub fn kuspigo_fresh(
        code: *const u8,
        code_count: usize,
        registers: *mut i32,
        register_count: usize,
        counts: *mut u32,
        count_count: usize,
        threads: *mut Thread,
        thread_count: usize,
    ) -> FreshReply;
    /// One pick.
    pub fn kuspigo_step(
        code: *const u8,
        code_count: usize,
        registers: *mut i32,
        register_count: usize,
        counts: *mut u32,
        count_count: usize,
        threads: *mut Thread,
        thread_count: usize,
        pick: u8,
    ) -> StepReply;
    /// A list of picks, one after the other.
    pub fn kuspigo_run(
        code: *const u8,
        code_count: usize,
        registers: *mut i32,
        register_count: usize,
        counts: *mut u32,
        count_count: usize,
        threads: *mut Thread,
        thread_count: usize,
        picks: *const u8,
        pick_count: usize,
    ) -> RunReply;
}
