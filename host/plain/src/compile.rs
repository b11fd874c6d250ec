//! Compiling without a tree: the job is tested in one pass and written out in a second.

use super::code::{ADD, BEGIN, COMMIT, FORK, PUSH, READ, WRITE};
use super::{job, short_output, CODE_HEAD, DEEPEST, INSTRUCTIONS, NODES};
use kuspigo::Refusal;

/// Writes the job's stack code to the front of `out` and gives its length.
pub fn compile(job: &[u8], out: &mut [u8]) -> Result<usize, Refusal> {
    let length = job::check(job)?;
    match out.get_mut(..length) {
        Some(out) => emit(&job[NODES..], out),
        None => return short_output(),
    }
    Ok(length)
}

/// A node of which not all parts are written yet.
#[derive(Clone, Copy)]
struct Open {
    parts_left: u8,
    end: End,
}

/// What is due when all parts of a node are written.
#[derive(Clone, Copy)]
enum End {
    Add,
    Write(u8),
    Commit,
    /// The child's length, in the two bytes in front of this place.
    Fork(usize),
}

/// Writes the code of an accepted job's nodes; `out` has exactly its length.
fn emit(nodes: &[u8], out: &mut [u8]) {
    out[..INSTRUCTIONS].copy_from_slice(&CODE_HEAD);
    let mut open = [Open { parts_left: 0, end: End::Add }; DEEPEST as usize];
    let mut depth = 0;
    let mut at = INSTRUCTIONS;
    let mut place = 0;
    while place < nodes.len() {
        let kind = nodes[place];
        let operand = &nodes[place + 1..place + 1 + job::operand_length(kind)];
        place += 1 + operand.len();
        let opened = match kind {
            job::VALP | job::VALT => {
                out[at] = PUSH;
                out[at + 1..at + 5].copy_from_slice(operand);
                at += 5;
                None
            }
            job::READ => {
                out[at] = READ;
                out[at + 1] = operand[0];
                at += 2;
                None
            }
            job::ADDP | job::ADDT => Some(Open { parts_left: 2, end: End::Add }),
            job::WRITE => Some(Open { parts_left: 1, end: End::Write(operand[0]) }),
            job::ATOMIC => {
                out[at] = BEGIN;
                at += 1;
                Some(Open { parts_left: 1, end: End::Commit })
            }
            _ => {
                out[at] = FORK;
                at += 3;
                Some(Open { parts_left: 1, end: End::Fork(at) })
            }
        };
        if let Some(node) = opened {
            open[depth] = node;
            depth += 1;
            continue;
        }
        // A part is complete, and with it perhaps the nodes above it.
        while depth > 0 {
            let node = &mut open[depth - 1];
            node.parts_left -= 1;
            if node.parts_left > 0 {
                break;
            }
            match node.end {
                End::Add => {
                    out[at] = ADD;
                    at += 1;
                }
                End::Write(register) => {
                    out[at] = WRITE;
                    out[at + 1] = register;
                    at += 2;
                }
                End::Commit => {
                    out[at] = COMMIT;
                    at += 1;
                }
                End::Fork(child) => {
                    let length = (at - child) as u16;
                    out[child - 2..child].copy_from_slice(&length.to_be_bytes());
                }
            }
            depth -= 1;
        }
    }
}
