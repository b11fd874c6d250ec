//! Running in by-value form: a record is copied out, stepped by a function that takes and gives it by value, and stored
//! back.

use super::code::{self, Op};
use super::machine::{admit, first_stale, marked, starting, Table};
use super::{count, step_of, too_many_picks, IDLE, MOST_PICKS, RECORDS, REGISTERS};
use kuspigo::{Counts, Event, Refusal, Step, Thread};

/// As [`step`](super::step).
pub fn step(
    code: &[u8],
    registers: &mut [i32],
    counts: &mut [u32],
    threads: &mut [Thread],
    pick: u8,
) -> Result<Step, Refusal> {
    let (mut table, threads) = admit(code, registers, counts, threads)?;
    Ok(turn(code, &mut table, threads, pick))
}

/// As [`run`](super::run).
pub fn run(
    code: &[u8],
    registers: &mut [i32],
    counts: &mut [u32],
    threads: &mut [Thread],
    picks: &[u8],
) -> Result<Counts, Refusal> {
    let (mut table, threads) = admit(code, registers, counts, threads)?;
    if picks.len() > MOST_PICKS {
        return too_many_picks();
    }
    let mut told = Counts::default();
    for &pick in picks {
        count(&mut told, turn(code, &mut table, threads, pick));
    }
    Ok(told)
}

/// What one instruction hands back.
struct Action {
    thread: Thread,
    step: Step,
    /// A forked child's code.
    child: Option<(usize, usize)>,
}

/// One pick: the record is taken out, stepped and put back; a forked child takes the next record.
fn turn(code: &[u8], table: &mut Table, threads: &mut [Thread; RECORDS], pick: u8) -> Step {
    let who = usize::from(pick);
    if who >= RECORDS {
        return IDLE;
    }
    let action = act(threads[who], code, table);
    threads[who] = action.thread;
    if let Some((start, end)) = action.child {
        if let Some(seat) = threads.iter().position(|thread| thread.start == 0) {
            threads[seat] = starting(start, end);
        }
    }
    action.step
}

/// One instruction, in a state that fits.
fn act(mut thread: Thread, code: &[u8], table: &mut Table) -> Action {
    if thread.place == thread.end {
        return Action { thread, step: IDLE, child: None };
    }
    let Some((op, next)) = code::decode(code, thread.place) else { unreachable!("the state fits the code") };
    let mut place = next;
    let mut child = None;
    let step = match op {
        Op::Push(n) => {
            push(&mut thread, n);
            step_of(Event::Push)
        }
        Op::Add => sum(&mut thread),
        Op::Fork(length) => {
            push(&mut thread, 0);
            place = next + length;
            child = Some((next, place));
            Step { turn: true, ..step_of(Event::Fork) }
        }
        Op::Begin => {
            thread.begin = thread.place;
            thread.base = thread.height;
            thread.over = 0;
            step_of(Event::Begin)
        }
        Op::Read(register) => step_of(read(&mut thread, usize::from(register), table)),
        Op::Write(register) => {
            write(&mut thread, usize::from(register));
            step_of(Event::Write)
        }
        Op::Commit => match first_stale(&thread, table.counts) {
            Some(register) => {
                place = thread.begin;
                send_back(&mut thread, register);
                Step { stale: Some(register as u8), ..step_of(Event::SentBack) }
            }
            None => {
                let over = thread.over;
                commit(&mut thread, table);
                Step { turn: true, over, ..step_of(Event::Commit) }
            }
        },
    };
    thread.place = place;
    if step.event != Event::SentBack {
        thread.rule = step.event as usize;
    }
    Action { thread, step, child }
}

fn push(thread: &mut Thread, n: i32) {
    thread.cells[thread.height] = n;
    thread.height += 1;
}

/// A sum; one that leaves the range is told outside a transaction, and noted inside.
fn sum(thread: &mut Thread) -> Step {
    let top = thread.height - 1;
    let exact = i64::from(thread.cells[top - 1]) + i64::from(thread.cells[top]);
    thread.cells[top - 1] = exact as i32;
    thread.cells[top] = 0;
    thread.height = top;
    let over = usize::from(exact > i32::MAX.into() || exact < i32::MIN.into());
    if thread.begin == 0 {
        return Step { turn: true, over, ..step_of(Event::Sum) };
    }
    thread.over += over;
    step_of(Event::Sum)
}

fn read(thread: &mut Thread, register: usize, table: &Table) -> Event {
    let (value, event) = if thread.writes >> register & 1 == 1 {
        (thread.writelog[register], Event::ReadWriteLog)
    } else if thread.reads >> register & 1 == 1 {
        (thread.readlog[register], Event::ReadReadLog)
    } else {
        thread.reads |= 1 << register;
        thread.readlog[register] = table.registers[register];
        thread.readcounts[register] = table.counts[register];
        (table.registers[register], Event::ReadTable)
    };
    push(thread, value);
    event
}

fn write(thread: &mut Thread, register: usize) {
    thread.writes |= 1 << register;
    thread.writelog[register] = thread.cells[thread.height - 1];
}

fn commit(thread: &mut Thread, table: &mut Table) {
    for register in marked(thread.writes) {
        table.registers[register] = thread.writelog[register];
        table.counts[register] += 1;
    }
    close(thread);
}

fn send_back(thread: &mut Thread, stale: usize) {
    thread.cells[thread.base..thread.height].fill(0);
    thread.height = thread.base;
    thread.rule = 10 + stale;
    thread.backs += 1;
    close(thread);
}

/// Logs and notes emptied.
fn close(thread: &mut Thread) {
    thread.begin = 0;
    thread.base = 0;
    thread.over = 0;
    thread.reads = 0;
    thread.readlog = [0; REGISTERS];
    thread.readcounts = [0; REGISTERS];
    thread.writes = 0;
    thread.writelog = [0; REGISTERS];
}
