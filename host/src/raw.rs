//! The library's eight functions on slices of any length, with their answers as they come.
//!
//! A Rust slice's pointer is never null, also if the slice is empty.

use crate::ffi::{self, ForecastReply, FreshReply, RunReply, StepReply, Thread, Written};

/// The version 1 job of a script that is typed as a formula, at the front of `out`.
pub fn formula(text: &[u8], out: &mut [u8]) -> Written {
    // SAFETY: both pointers come from slices of the counts beside them, `out` being lent to this call alone.
    unsafe { ffi::kuspigo_formula(text.as_ptr(), text.len(), out.as_mut_ptr(), out.len()) }
}

/// The job's stack code, at the front of `out`.
pub fn compile(job: &[u8], out: &mut [u8]) -> Written {
    // SAFETY: both pointers come from slices of the counts beside them, `out` being lent to this call alone.
    unsafe { ffi::kuspigo_compile(job.as_ptr(), job.len(), out.as_mut_ptr(), out.len()) }
}

/// The job that compiles to the code, at the front of `out`.
pub fn read_back(code: &[u8], out: &mut [u8]) -> Written {
    // SAFETY: both pointers come from slices of the counts beside them, `out` being lent to this call alone.
    unsafe { ffi::kuspigo_read_back(code.as_ptr(), code.len(), out.as_mut_ptr(), out.len()) }
}

/// What the job will need, from its bytes alone.
pub fn forecast(job: &[u8]) -> ForecastReply {
    // SAFETY: the pointer comes from a slice of the count beside it.
    unsafe { ffi::kuspigo_forecast(job.as_ptr(), job.len()) }
}

/// What the run program prints for an input, at the front of `out`.
pub fn report(input: &[u8], out: &mut [u8]) -> Written {
    // SAFETY: both pointers come from slices of the counts beside them, `out` being lent to this call alone.
    unsafe { ffi::kuspigo_report(input.as_ptr(), input.len(), out.as_mut_ptr(), out.len()) }
}

/// A fresh state, over whatever was there.
pub fn fresh(code: &[u8], registers: &mut [i32], counts: &mut [u32], threads: &mut [Thread]) -> FreshReply {
    // SAFETY: all pointers come from slices of the counts beside them; what is written is lent to this call alone, and
    // every bit pattern is a value of its type.
    unsafe {
        ffi::kuspigo_fresh(
            code.as_ptr(),
            code.len(),
            registers.as_mut_ptr(),
            registers.len(),
            counts.as_mut_ptr(),
            counts.len(),
            threads.as_mut_ptr(),
            threads.len(),
        )
    }
}

/// One pick.
pub fn step(code: &[u8], registers: &mut [i32], counts: &mut [u32], threads: &mut [Thread], pick: u8) -> StepReply {
    // SAFETY: as for `fresh`.
    unsafe {
        ffi::kuspigo_step(
            code.as_ptr(),
            code.len(),
            registers.as_mut_ptr(),
            registers.len(),
            counts.as_mut_ptr(),
            counts.len(),
            threads.as_mut_ptr(),
            threads.len(),
            pick,
        )
    }
}

/// A list of picks, one after the other.
pub fn run(code: &[u8], registers: &mut [i32], counts: &mut [u32], threads: &mut [Thread], picks: &[u8]) -> RunReply {
    // SAFETY: as for `fresh`; `picks` is a slice of its count too.
    unsafe {
        ffi::kuspigo_run(
            code.as_ptr(),
            code.len(),
            registers.as_mut_ptr(),
            registers.len(),
            counts.as_mut_ptr(),
            counts.len(),
            threads.as_mut_ptr(),
            threads.len(),
            picks.as_ptr(),
            picks.len(),
        )
    }
}
