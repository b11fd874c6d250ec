//! Whether a state fits its code.

use super::code::{self, Op, Outline};
use super::machine::first_stale;
use super::{INSTRUCTIONS, MOST_FORKS, RECORDS, REGISTERS};
use kuspigo::Thread;

/// Where a thread stands, by its code.
struct Standing {
    height: usize,
    /// The COMMITs passed.
    commits: usize,
    /// While a transaction is open.
    notes: Option<Notes>,
}

/// BEGIN's place, the height there, and the ADDs passed since.
struct Notes {
    begin: usize,
    base: usize,
    adds: usize,
}

/// Tests a state against a tested code. The registers' values are free.
pub fn fits(code: &[u8], outline: &Outline, counts: &[u32; REGISTERS], threads: &[Thread; RECORDS]) -> bool {
    let existing = threads.iter().take_while(|thread| thread.start != 0).count();
    let (threads, absent) = threads.split_at(existing);
    let Some((root, others)) = threads.split_first() else {
        return false;
    };
    if (root.start, root.end) != (INSTRUCTIONS, code.len()) || absent.iter().any(|thread| *thread != Thread::ABSENT) {
        return false;
    }
    // One thread for each FORK that was passed, and no other.
    let children = outline.children();
    let mut started = [false; MOST_FORKS];
    for thread in others {
        match children.iter().position(|child| (child.start, child.end) == (thread.start, thread.end)) {
            Some(fork) if !started[fork] => started[fork] = true,
            _ => return false,
        }
    }
    let mut passed = [false; MOST_FORKS];
    let mut commits = 0;
    for thread in threads {
        let Some(standing) = walk(code, thread, |child| {
            if let Some(fork) = children.iter().position(|c| c.start == child) {
                passed[fork] = true;
            }
        }) else {
            return false;
        };
        if !holds(thread, &standing) {
            return false;
        }
        commits += standing.commits;
    }
    started == passed
        && counts.iter().all(|&count| count as usize <= commits)
        && threads.iter().all(|thread| not_ahead(thread, counts) && send_backs_fit(thread, counts, commits))
}

/// Whether no count of its read log is above the table's.
fn not_ahead(thread: &Thread, counts: &[u32; REGISTERS]) -> bool {
    thread.readcounts.iter().zip(counts).all(|(logged, count)| logged <= count)
}

/// Whether its number of send-backs is possible if all threads together have passed so many COMMITs.
fn send_backs_fit(thread: &Thread, counts: &[u32; REGISTERS], commits: usize) -> bool {
    thread.backs < commits || thread.backs == commits && first_stale(thread, counts).is_none()
}

/// Goes through a thread's own code up to its place, if that is one; each FORK on the way is told by its child's start.
fn walk(code: &[u8], thread: &Thread, mut passing: impl FnMut(usize)) -> Option<Standing> {
    let mut at = thread.start;
    let mut height = 0;
    let mut commits = 0;
    let mut notes: Option<Notes> = None;
    while at < thread.place && at < thread.end {
        let (op, next) = code::decode(code, at)?;
        match op {
            Op::Push(_) | Op::Read(_) => height += 1,
            Op::Add => {
                height -= 1;
                if let Some(notes) = &mut notes {
                    notes.adds += 1;
                }
            }
            Op::Write(_) => {}
            Op::Begin => notes = Some(Notes { begin: at, base: height, adds: 0 }),
            Op::Commit => {
                notes = None;
                commits += 1;
            }
            Op::Fork(length) => {
                passing(next);
                height += 1;
                at = next + length;
                continue;
            }
        }
        at = next;
    }
    (at == thread.place).then_some(Standing { height, commits, notes })
}

/// Whether the record's stack, notes and logs are those of where it stands.
fn holds(thread: &Thread, standing: &Standing) -> bool {
    if thread.height != standing.height || thread.cells[standing.height..].iter().any(|&cell| cell != 0) {
        return false;
    }
    let notes_and_marks = match standing.notes {
        Some(Notes { begin, base, adds }) => (thread.begin, thread.base) == (begin, base) && thread.over <= adds,
        None => (thread.begin, thread.base, thread.over, thread.reads, thread.writes) == (0, 0, 0, 0, 0),
    };
    notes_and_marks
        && unmarked_are_zero(thread.reads, &thread.readlog)
        && unmarked_are_zero(thread.reads, &thread.readcounts)
        && unmarked_are_zero(thread.writes, &thread.writelog)
}

fn unmarked_are_zero<N: Default + PartialEq>(marks: u64, log: &[N; REGISTERS]) -> bool {
    log.iter().enumerate().all(|(register, value)| *value == N::default() || marks >> register & 1 == 1)
}
