//! The machine, its records changed in place.

use super::code::{self, Op};
use super::state::fits;
use super::{count, step_of, too_many_picks, unfit_state, IDLE, INSTRUCTIONS, MOST_PICKS, RECORDS, REGISTERS};
use kuspigo::{Counts, Event, Refusal, Step, Thread};

/// Lays a fresh state down over whatever was there.
pub fn fresh(code: &[u8], registers: &mut [i32], counts: &mut [u32], threads: &mut [Thread]) -> Result<(), Refusal> {
    code::outline(code)?;
    if (registers.len(), counts.len(), threads.len()) != (REGISTERS, REGISTERS, RECORDS) {
        return unfit_state();
    }
    registers.fill(0);
    counts.fill(0);
    threads.fill(Thread::ABSENT);
    threads[0] = starting(INSTRUCTIONS, code.len());
    Ok(())
}

/// One pick.
pub fn step(
    code: &[u8],
    registers: &mut [i32],
    counts: &mut [u32],
    threads: &mut [Thread],
    pick: u8,
) -> Result<Step, Refusal> {
    let (mut table, threads) = admit(code, registers, counts, threads)?;
    Ok(act(code, &mut table, threads, pick))
}

/// A list of picks, one after the other.
pub fn run(
    code: &[u8],
    registers: &mut [i32],
    counts: &mut [u32],
    threads: &mut [Thread],
    picks: &[u8],
) -> Result<Counts, Refusal> {
    let (mut table, threads) = admit(code, registers, counts, threads)?;
    if picks.len() > MOST_PICKS {
        return too_many_picks();
    }
    let mut told = Counts::default();
    for &pick in picks {
        count(&mut told, act(code, &mut table, threads, pick));
    }
    Ok(told)
}

/// The register table: values, and beside each how often commits have written it.
pub struct Table<'a> {
    pub registers: &'a mut [i32; REGISTERS],
    pub counts: &'a mut [u32; REGISTERS],
}

/// A state that was tested.
pub type Admitted<'a> = (Table<'a>, &'a mut [Thread; RECORDS]);

/// The tests of a call on a state: 11, then 12.
pub fn admit<'a>(
    code: &[u8],
    registers: &'a mut [i32],
    counts: &'a mut [u32],
    threads: &'a mut [Thread],
) -> Result<Admitted<'a>, Refusal> {
    let outline = code::outline(code)?;
    let (Ok(registers), Ok(counts), Ok(threads)) = (registers.try_into(), counts.try_into(), threads.try_into()) else {
        return unfit_state();
    };
    let admitted: Admitted = (Table { registers, counts }, threads);
    match fits(code, &outline, admitted.0.counts, admitted.1) {
        true => Ok(admitted),
        false => unfit_state(),
    }
}

/// A thread at the start of its code.
pub fn starting(start: usize, end: usize) -> Thread {
    Thread { start, end, place: start, ..Thread::ABSENT }
}

/// One pick in a state that fits; the thread's record keeps its rule, and counts a send-back.
#[inline(always)]
fn act(code: &[u8], table: &mut Table, threads: &mut [Thread; RECORDS], pick: u8) -> Step {
    let step = instruct(code, table, threads, pick);
    if step.event == Event::Idle {
        return step;
    }
    let thread = &mut threads[usize::from(pick)];
    thread.rule = step.event as usize;
    if let Some(register) = step.stale {
        thread.rule += usize::from(register);
        thread.backs += 1;
    }
    step
}

/// The instruction of a pick. Inlined, for its answer would be passed through memory.
#[inline(always)]
fn instruct(code: &[u8], table: &mut Table, threads: &mut [Thread; RECORDS], pick: u8) -> Step {
    let Some(thread) = threads.get_mut(usize::from(pick)) else {
        return IDLE;
    };
    // a record of no thread has 0 for both
    if thread.place == thread.end {
        return IDLE;
    }
    let Some((op, next)) = code::decode(code, thread.place) else { unreachable!("the state fits the code") };
    let place = thread.place;
    thread.place = next;
    match op {
        Op::Push(n) => {
            push(thread, n);
            step_of(Event::Push)
        }
        Op::Add => {
            let top = thread.height - 1;
            let right = thread.cells[top];
            let (sum, over) = thread.cells[top - 1].overflowing_add(right);
            thread.cells[top] = 0;
            thread.cells[top - 1] = sum;
            thread.height = top;
            if thread.begin == 0 {
                Step { turn: true, over: over.into(), ..step_of(Event::Sum) }
            } else {
                thread.over += usize::from(over);
                step_of(Event::Sum)
            }
        }
        Op::Fork(length) => {
            push(thread, 0);
            thread.place = next + length;
            if let Some(child) = threads.iter_mut().find(|thread| thread.start == 0) {
                *child = starting(next, next + length);
            }
            Step { turn: true, ..step_of(Event::Fork) }
        }
        Op::Begin => {
            thread.begin = place;
            thread.base = thread.height;
            thread.over = 0;
            step_of(Event::Begin)
        }
        Op::Read(register) => {
            let register = usize::from(register);
            let (value, event) = if thread.writes >> register & 1 == 1 {
                (thread.writelog[register], Event::ReadWriteLog)
            } else if thread.reads >> register & 1 == 1 {
                (thread.readlog[register], Event::ReadReadLog)
            } else {
                thread.reads |= 1 << register;
                thread.readlog[register] = table.registers[register];
                thread.readcounts[register] = table.counts[register];
                (table.registers[register], Event::ReadTable)
            };
            push(thread, value);
            step_of(event)
        }
        Op::Write(register) => {
            thread.writes |= 1 << register;
            thread.writelog[usize::from(register)] = thread.cells[thread.height - 1];
            step_of(Event::Write)
        }
        Op::Commit => match first_stale(thread, table.counts) {
            Some(register) => {
                thread.cells[thread.base..thread.height].fill(0);
                thread.place = thread.begin;
                thread.height = thread.base;
                close(thread);
                Step { stale: Some(register as u8), ..step_of(Event::SentBack) }
            }
            None => {
                for register in marked(thread.writes) {
                    table.registers[register] = thread.writelog[register];
                    table.counts[register] += 1;
                }
                let over = thread.over;
                close(thread);
                Step { turn: true, over, ..step_of(Event::Commit) }
            }
        },
    }
}

fn push(thread: &mut Thread, n: i32) {
    thread.cells[thread.height] = n;
    thread.height += 1;
}

/// The registers of a set, ascending.
pub fn marked(mut set: u64) -> impl Iterator<Item = usize> {
    std::iter::from_fn(move || {
        let register = set.trailing_zeros() as usize;
        set &= set.checked_sub(1)?;
        Some(register)
    })
}

/// The first register that commits have written since it entered the read log, whatever its value is.
pub fn first_stale(thread: &Thread, counts: &[u32; REGISTERS]) -> Option<usize> {
    marked(thread.reads).find(|&register| thread.readcounts[register] != counts[register])
}

/// Empties logs and notes.
fn close(thread: &mut Thread) {
    for register in marked(thread.reads) {
        thread.readlog[register] = 0;
        thread.readcounts[register] = 0;
    }
    for register in marked(thread.writes) {
        thread.writelog[register] = 0;
    }
    thread.reads = 0;
    thread.writes = 0;
    thread.begin = 0;
    thread.base = 0;
    thread.over = 0;
}
