//! Reading code back without a tree: it is tested forwards, and the job is then written from its end.

use super::code::{self, Child, Op, Outline};
use super::{job, short_output, DEEPEST, JOB_HEAD, MOST_FORKS, NODES};
use kuspigo::Refusal;
use std::cmp::Reverse;

/// Writes the job that compiles to the code to the front of `out` and gives its length.
pub fn read_back(code: &[u8], out: &mut [u8]) -> Result<usize, Refusal> {
    let outline = code::outline(code)?;
    let length = outline.job_length;
    match out.get_mut(..length) {
        Some(out) => rebuild(code, &outline, out),
        None => return short_output(),
    }
    Ok(length)
}

/// A node whose parts are being written, last part first.
#[derive(Clone, Copy)]
enum Open {
    /// One with this many parts to come; its kind byte stands in front of them.
    Sum {
        parts_left: u8,
        kind: u8,
    },
    Write(u8),
    /// One whose own instruction stands in front of its part: BEGIN or FORK.
    Bracket,
}

/// The job's bytes from the last one down.
struct Backwards<'a> {
    out: &'a mut [u8],
    at: usize,
    open: [Open; DEEPEST as usize],
    depth: usize,
}

impl Backwards<'_> {
    fn open(&mut self, node: Open) {
        self.open[self.depth] = node;
        self.depth += 1;
    }

    fn write(&mut self, bytes: &[u8]) {
        self.at -= bytes.len();
        self.out[self.at..self.at + bytes.len()].copy_from_slice(bytes);
    }

    /// A part is written down to its kind byte, and with it perhaps the nodes above it.
    fn complete(&mut self) {
        while self.depth > 0 {
            match &mut self.open[self.depth - 1] {
                Open::Sum { parts_left: left @ 2, .. } => {
                    *left = 1;
                    return;
                }
                &mut Open::Sum { kind, .. } => self.write(&[kind]),
                &mut Open::Write(register) => self.write(&[job::WRITE, register]),
                Open::Bracket => {
                    self.depth -= 1;
                    return;
                }
            }
            self.depth -= 1;
        }
    }
}

/// Writes the job of a tested code; `out` has exactly its length.
fn rebuild(code: &[u8], outline: &Outline, out: &mut [u8]) {
    out[..5].copy_from_slice(&JOB_HEAD);
    out[5..NODES].copy_from_slice(&(outline.nodes as u16).to_be_bytes());
    // Child codes by their ends, last first; of those that end together the outer one is entered first.
    let mut children = [Child::default(); MOST_FORKS];
    let children = &mut children[..outline.children().len()];
    children.copy_from_slice(outline.children());
    children.sort_by_key(|child| Reverse(child.end));
    let mut children = children.iter().peekable();

    let at = out.len();
    let mut job = Backwards { out, at, open: [Open::Bracket; DEEPEST as usize], depth: 0 };
    let mut inside = false;
    let mut behind = code.len();
    for (word, &bits) in outline.starts.iter().enumerate().rev() {
        let mut bits = bits;
        while bits != 0 {
            let bit = 63 - bits.leading_zeros();
            bits ^= 1 << bit;
            while children.next_if(|child| child.end == behind).is_some() {
                job.open(Open::Bracket);
            }
            let place = word * 64 + bit as usize;
            behind = place;
            let Some((op, _)) = code::decode(code, place) else { unreachable!("the code was tested") };
            match op {
                Op::Push(n) => {
                    let [a, b, c, d] = n.to_be_bytes();
                    job.write(&[if inside { job::VALT } else { job::VALP }, a, b, c, d]);
                    job.complete();
                }
                Op::Read(register) => {
                    job.write(&[job::READ, register]);
                    job.complete();
                }
                Op::Add => job.open(Open::Sum { parts_left: 2, kind: if inside { job::ADDT } else { job::ADDP } }),
                Op::Write(register) => job.open(Open::Write(register)),
                Op::Commit => {
                    inside = true;
                    job.open(Open::Bracket);
                }
                Op::Begin => {
                    inside = false;
                    job.write(&[job::ATOMIC]);
                    job.complete();
                }
                Op::Fork(_) => {
                    job.write(&[job::FORK]);
                    job.complete();
                }
            }
        }
    }
}
