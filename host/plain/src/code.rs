//! Stack code: one instruction, and the test whether an accepted job compiles to it.

use super::{number16, unknown_code, CODE_HEAD, DEEPEST, INSTRUCTIONS, MOST_FORKS, MOST_INSIDE, MOST_NODES, NODES};
use kuspigo::Refusal;

pub const PUSH: u8 = 1;
pub const ADD: u8 = 2;
pub const READ: u8 = 3;
pub const WRITE: u8 = 4;
pub const BEGIN: u8 = 5;
pub const COMMIT: u8 = 6;
pub const FORK: u8 = 7;

/// The longest code: 500 numbers, 499 sums and one FORK are 3,002 bytes of 1,000 nodes, and no other mix has more.
pub const LONGEST: usize = 3_007;

#[derive(Clone, Copy, PartialEq, Eq, Debug)]
pub enum Op {
    Push(i32),
    Add,
    Read(u8),
    Write(u8),
    Begin,
    Commit,
    /// The child's length.
    Fork(usize),
}

/// The instruction at a place and the place behind it (and its operand), if there is one.
#[inline]
pub fn decode(code: &[u8], at: usize) -> Option<(Op, usize)> {
    let rest = code.get(at..)?;
    Some(match *rest {
        [PUSH, a, b, c, d, ..] => (Op::Push(i32::from_be_bytes([a, b, c, d])), at + 5),
        [ADD, ..] => (Op::Add, at + 1),
        [READ, register, ..] => (Op::Read(register), at + 2),
        [WRITE, register, ..] => (Op::Write(register), at + 2),
        [BEGIN, ..] => (Op::Begin, at + 1),
        [COMMIT, ..] => (Op::Commit, at + 1),
        [FORK, high, low, ..] => (Op::Fork(number16(high, low)), at + 3),
        _ => return None,
    })
}

/// The child code of a FORK.
#[derive(Clone, Copy, PartialEq, Eq, Debug, Default)]
pub struct Child {
    pub start: usize,
    pub end: usize,
}

/// What the test of a code finds out.
pub struct Outline {
    pub nodes: usize,
    pub job_length: usize,
    /// One bit for each byte at which an instruction starts.
    pub starts: [u64; LONGEST / 64 + 1],
    children: [Child; MOST_FORKS],
    forks: usize,
}

impl Outline {
    /// The child codes, in the order of their FORKs.
    pub fn children(&self) -> &[Child] {
        &self.children[..self.forks]
    }
}

/// Tests the code: refused with 11 exactly if no accepted job compiles to it.
pub fn outline(code: &[u8]) -> Result<Outline, Refusal> {
    match scan(code) {
        Some(outline) => Ok(outline),
        None => unknown_code(),
    }
}

/// A process whose code is being read: where that code ends, and the number of parts waiting when it began.
#[derive(Clone, Copy, Default)]
struct Frame {
    end: usize,
    base: usize,
}

/// The code is read as postfix: for each part that waits for its operator, the depth of its tree is kept. As each of
/// them but the last will be the left part of a sum over the later ones, more than 64 make a tree too deep.
fn scan(code: &[u8]) -> Option<Outline> {
    if code.len() > LONGEST || !code.starts_with(&CODE_HEAD) {
        return None;
    }
    let mut found = Outline {
        nodes: 0,
        job_length: NODES,
        starts: [0; LONGEST / 64 + 1],
        children: [Child::default(); MOST_FORKS],
        forks: 0,
    };
    let mut depths = [0u8; DEEPEST as usize];
    let mut parts = 0;
    let mut frames = [Frame::default(); MOST_FORKS + 1];
    let mut outer = 0;
    let mut frame = Frame { end: code.len(), base: 0 };
    // the number of parts waiting at the open BEGIN, and the nodes since
    let mut open: Option<usize> = None;
    let mut inside = 0;
    let mut at = INSTRUCTIONS;
    loop {
        while at == frame.end {
            if open.is_some() || parts != frame.base + 1 {
                return None;
            }
            if outer == 0 {
                return (found.nodes <= MOST_NODES).then_some(found);
            }
            outer -= 1;
            frame = frames[outer];
            deepen(&mut depths[parts - 1])?;
        }
        let (op, next) = decode(code, at)?;
        if next > frame.end {
            return None;
        }
        found.starts[at / 64] |= 1 << (at % 64);
        let own = parts - open.unwrap_or(frame.base);
        let job_bytes = match op {
            Op::Push(_) => {
                *depths.get_mut(parts)? = 1;
                parts += 1;
                5
            }
            Op::Read(register) => {
                if open.is_none() || register > 63 {
                    return None;
                }
                *depths.get_mut(parts)? = 1;
                parts += 1;
                2
            }
            Op::Add => {
                if own < 2 {
                    return None;
                }
                parts -= 1;
                depths[parts - 1] = depths[parts - 1].max(depths[parts]);
                deepen(&mut depths[parts - 1])?;
                1
            }
            Op::Write(register) => {
                if open.is_none() || own < 1 || register > 63 {
                    return None;
                }
                deepen(&mut depths[parts - 1])?;
                2
            }
            Op::Begin => {
                if open.is_some() {
                    return None;
                }
                open = Some(parts);
                inside = 0;
                1
            }
            Op::Commit => {
                if open.is_none() || own != 1 {
                    return None;
                }
                open = None;
                deepen(&mut depths[parts - 1])?;
                0
            }
            Op::Fork(length) => {
                let child = Child { start: next, end: next + length };
                if open.is_some() || child.end > frame.end || found.forks == MOST_FORKS {
                    return None;
                }
                found.children[found.forks] = child;
                found.forks += 1;
                frames[outer] = frame;
                outer += 1;
                frame = Frame { end: child.end, base: parts };
                1
            }
        };
        if open.is_some() && op != Op::Begin {
            inside += 1;
            if inside > MOST_INSIDE {
                return None;
            }
        }
        found.job_length += job_bytes;
        found.nodes += usize::from(op != Op::Commit);
        at = next;
    }
}

/// One more node above a part.
fn deepen(depth: &mut u8) -> Option<()> {
    *depth += 1;
    (*depth <= DEEPEST).then_some(())
}
