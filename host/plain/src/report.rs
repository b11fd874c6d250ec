//! The run program: what it prints for an input.

use super::code::LONGEST;
use super::{compile, fresh, number16, refuse, run, short_output, RECORDS, REGISTERS};
use kuspigo::{Counts, Refusal, Thread};
use std::fmt::Write;

/// Writes what the run program prints to the front of `out` and gives its length.
pub fn report(input: &[u8], out: &mut [u8]) -> Result<usize, Refusal> {
    let text = listing(input);
    match out.get_mut(..text.len()) {
        Some(out) => out.copy_from_slice(text.as_bytes()),
        None => return short_output(),
    }
    Ok(text.len())
}

/// What the run program prints.
pub fn listing(input: &[u8]) -> String {
    let mut registers = [0; REGISTERS];
    let mut threads = [Thread::ABSENT; RECORDS];
    match execute(input, &mut registers, &mut threads) {
        Ok(told) => lines(&told, &registers, &threads),
        Err(refusal) => format!("refused {} at {}\n", refusal.number(), refusal.place),
    }
}

fn execute(input: &[u8], registers: &mut [i32], threads: &mut [Thread]) -> Result<Counts, Refusal> {
    let &[high, low, ref rest @ ..] = input else {
        return refuse(1, input.len());
    };
    let length = number16(high, low);
    if rest.len() < length {
        return refuse(1, input.len());
    }
    let (job, picks) = rest.split_at(length);
    let mut code = [0; LONGEST];
    let length = compile(job, &mut code)?;
    let code = &code[..length];
    let mut counts = [0; REGISTERS];
    fresh(code, registers, &mut counts, threads)?;
    run(code, registers, &mut counts, threads, picks)
}

fn lines(told: &Counts, registers: &[i32], threads: &[Thread]) -> String {
    let Counts { steps, idle, commits, back, over } = told;
    let mut text = format!("steps {steps} idle {idle} commits {commits} back {back} over {over}\n");
    for (number, thread) in threads.iter().enumerate().filter(|(_, thread)| thread.start != 0) {
        let written = if thread.place == thread.end {
            writeln!(text, "thread {number} done {}", thread.cells[0])
        } else {
            writeln!(text, "thread {number} open")
        };
        written.expect("a string takes every line");
    }
    for (number, value) in registers.iter().enumerate().filter(|(_, &value)| value != 0) {
        writeln!(text, "register {number} {value}").expect("a string takes every line");
    }
    text
}
