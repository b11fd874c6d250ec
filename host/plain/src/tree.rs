//! Compiling, forecasting and reading back by way of a tree.

use super::code::{self, Op};
use super::forecast::step_bound;
use super::job::{self, Reader, Sort};
use super::{
    long_transaction, short_output, unknown_code, CODE_HEAD, DEEPEST, INSTRUCTIONS, JOB_HEAD, MOST_FORKS, MOST_INSIDE,
    MOST_NODES, NODES, RECORDS,
};
use kuspigo::{Forecast, Refusal, RegisterSet};

#[derive(Clone, PartialEq, Eq, Debug)]
pub enum Process {
    Val(i32),
    Add(Box<Process>, Box<Process>),
    Atomic(Box<Transaction>),
    Fork(Box<Process>),
}

#[derive(Clone, PartialEq, Eq, Debug)]
pub enum Transaction {
    Val(i32),
    Add(Box<Transaction>, Box<Transaction>),
    Read(u8),
    Write(u8, Box<Transaction>),
}

/// As [`compile`](super::compile()).
pub fn compile(job: &[u8], out: &mut [u8]) -> Result<usize, Refusal> {
    let tree = Process::read(job)?;
    let length = INSTRUCTIONS + tree.code_length();
    let Some(out) = out.get_mut(..length) else {
        return short_output();
    };
    tree.write_code(out);
    Ok(length)
}

/// As [`forecast`](super::forecast()).
pub fn forecast(job: &[u8]) -> Result<Forecast, Refusal> {
    let tree = Process::read(job)?;
    let mut found = Found { threads: vec![&tree], transactions: Vec::new() };
    found.add(&tree);
    let mut all_heights = [0; RECORDS];
    for (cell, process) in all_heights.iter_mut().zip(&found.threads) {
        *cell = process.height();
    }
    let mut reads = RegisterSet::default();
    let mut writes = RegisterSet::default();
    for transaction in &found.transactions {
        transaction.names(&mut reads, &mut writes);
    }
    let transactions = found.transactions.len();
    let threads = found.threads.len();
    let instructions = tree.nodes() + transactions;
    // BEGIN and COMMIT beside one instruction for each node
    let longest = found.transactions.iter().map(|transaction| transaction.nodes() + 2).max().unwrap_or(0);
    Ok(Forecast {
        length: INSTRUCTIONS + tree.code_length(),
        transactions,
        threads,
        instructions,
        longest,
        bound: step_bound(transactions, threads, instructions, longest),
        reads,
        writes,
        all_heights,
    })
}

/// The parts of a tree that a forecast is about, in job order.
struct Found<'a> {
    threads: Vec<&'a Process>,
    transactions: Vec<&'a Transaction>,
}

impl<'a> Found<'a> {
    fn add(&mut self, process: &'a Process) {
        match process {
            Process::Val(_) => {}
            Process::Add(a, b) => {
                self.add(a);
                self.add(b);
            }
            Process::Atomic(t) => self.transactions.push(t),
            Process::Fork(p) => {
                self.threads.push(p);
                self.add(p);
            }
        }
    }
}

/// As [`read_back`](super::read_back()).
pub fn read_back(code: &[u8], out: &mut [u8]) -> Result<usize, Refusal> {
    let Some(tree) = Process::from_code(code) else {
        return unknown_code();
    };
    let length = NODES + tree.job_length();
    let Some(out) = out.get_mut(..length) else {
        return short_output();
    };
    tree.write_job(out);
    Ok(length)
}

impl Process {
    /// The tree of a job, which is tested on the way.
    pub fn read(job: &[u8]) -> Result<Process, Refusal> {
        let mut reader = Reader::new(job)?;
        let tree = process(&mut reader, 1)?;
        reader.end()?;
        tree.lengths(NODES)?;
        Ok(tree)
    }

    /// The tree that compiles to the code, if it is one of an accepted job.
    pub fn from_code(code: &[u8]) -> Option<Process> {
        let code = code.strip_prefix(&CODE_HEAD)?;
        let mut parser = Parser { nodes: 0, forks: 0 };
        let (tree, _) = parser.process(code)?;
        tree.lengths(NODES).ok()?;
        Some(tree)
    }

    /// Tests the lengths of its transactions, its kind byte being at a place in the job; gives the place behind it.
    fn lengths(&self, at: usize) -> Result<usize, Refusal> {
        match self {
            Process::Val(_) => Ok(at + 5),
            Process::Add(a, b) => b.lengths(a.lengths(at + 1)?),
            Process::Atomic(t) if t.nodes() > MOST_INSIDE => long_transaction(at),
            Process::Atomic(t) => Ok(at + 1 + t.job_length()),
            Process::Fork(p) => p.lengths(at + 1),
        }
    }

    /// The job of a tree, also of one that has to be turned down.
    pub fn job(&self) -> Vec<u8> {
        let mut job = vec![0; NODES + self.job_length()];
        self.write_job(&mut job);
        job
    }

    /// The code of a tree, also of one that has to be turned down.
    pub fn code(&self) -> Vec<u8> {
        let mut code = vec![0; INSTRUCTIONS + self.code_length()];
        self.write_code(&mut code);
        code
    }

    pub fn nodes(&self) -> usize {
        1 + match self {
            Process::Val(_) => 0,
            Process::Add(a, b) => a.nodes() + b.nodes(),
            Process::Atomic(t) => t.nodes(),
            Process::Fork(p) => p.nodes(),
        }
    }

    /// The root alone has depth 1.
    pub fn depth(&self) -> usize {
        1 + match self {
            Process::Val(_) => 0,
            Process::Add(a, b) => a.depth().max(b.depth()),
            Process::Atomic(t) => t.depth(),
            Process::Fork(p) => p.depth(),
        }
    }

    pub fn forks(&self) -> usize {
        match self {
            Process::Val(_) | Process::Atomic(_) => 0,
            Process::Add(a, b) => a.forks() + b.forks(),
            Process::Fork(p) => 1 + p.forks(),
        }
    }

    /// The greatest stack height of a thread that does it and nothing else. A FORK's child has a stack of its own.
    fn height(&self) -> u8 {
        match self {
            Process::Val(_) | Process::Fork(_) => 1,
            Process::Add(a, b) => a.height().max(1 + b.height()),
            Process::Atomic(t) => t.height(),
        }
    }

    /// Bytes of its instructions, without mark and version.
    fn code_length(&self) -> usize {
        match self {
            Process::Val(_) => 5,
            Process::Add(a, b) => a.code_length() + b.code_length() + 1,
            Process::Atomic(t) => t.code_length() + 2,
            Process::Fork(p) => p.code_length() + 3,
        }
    }

    /// Bytes of its nodes, without mark, version and count.
    fn job_length(&self) -> usize {
        match self {
            Process::Val(_) => 5,
            Process::Add(a, b) => 1 + a.job_length() + b.job_length(),
            Process::Atomic(t) => 1 + t.job_length(),
            Process::Fork(p) => 1 + p.job_length(),
        }
    }

    fn write_code(&self, out: &mut [u8]) {
        let (head, instructions) = out.split_at_mut(INSTRUCTIONS);
        head.copy_from_slice(&CODE_HEAD);
        self.emit(instructions, 0);
    }

    /// Writes its code from a place on and gives the place behind it.
    fn emit(&self, out: &mut [u8], at: usize) -> usize {
        match self {
            Process::Val(n) => put_number(out, at, code::PUSH, *n),
            Process::Add(a, b) => {
                let at = a.emit(out, at);
                let at = b.emit(out, at);
                put(out, at, [code::ADD])
            }
            Process::Atomic(t) => {
                let at = put(out, at, [code::BEGIN]);
                let at = t.emit(out, at);
                put(out, at, [code::COMMIT])
            }
            Process::Fork(p) => {
                let end = p.emit(out, at + 3);
                let [high, low] = ((end - at - 3) as u16).to_be_bytes();
                put(out, at, [code::FORK, high, low]);
                end
            }
        }
    }

    fn write_job(&self, out: &mut [u8]) {
        let (head, nodes) = out.split_at_mut(NODES);
        head[..5].copy_from_slice(&JOB_HEAD);
        head[5..].copy_from_slice(&(self.nodes() as u16).to_be_bytes());
        self.prefix(nodes, 0);
    }

    fn prefix(&self, out: &mut [u8], at: usize) -> usize {
        match self {
            Process::Val(n) => put_number(out, at, job::VALP, *n),
            Process::Add(a, b) => {
                let at = put(out, at, [job::ADDP]);
                let at = a.prefix(out, at);
                b.prefix(out, at)
            }
            Process::Atomic(t) => {
                let at = put(out, at, [job::ATOMIC]);
                t.prefix(out, at)
            }
            Process::Fork(p) => {
                let at = put(out, at, [job::FORK]);
                p.prefix(out, at)
            }
        }
    }
}

impl Transaction {
    pub fn nodes(&self) -> usize {
        1 + match self {
            Transaction::Val(_) | Transaction::Read(_) => 0,
            Transaction::Add(a, b) => a.nodes() + b.nodes(),
            Transaction::Write(_, t) => t.nodes(),
        }
    }

    fn depth(&self) -> usize {
        1 + match self {
            Transaction::Val(_) | Transaction::Read(_) => 0,
            Transaction::Add(a, b) => a.depth().max(b.depth()),
            Transaction::Write(_, t) => t.depth(),
        }
    }

    fn height(&self) -> u8 {
        match self {
            Transaction::Val(_) | Transaction::Read(_) => 1,
            Transaction::Add(a, b) => a.height().max(1 + b.height()),
            Transaction::Write(_, t) => t.height(),
        }
    }

    /// Puts the registers of its READs and WRITEs into the sets.
    fn names(&self, reads: &mut RegisterSet, writes: &mut RegisterSet) {
        match self {
            Transaction::Val(_) => {}
            Transaction::Add(a, b) => {
                a.names(reads, writes);
                b.names(reads, writes);
            }
            Transaction::Read(register) => reads.insert(*register),
            Transaction::Write(register, t) => {
                writes.insert(*register);
                t.names(reads, writes);
            }
        }
    }

    fn code_length(&self) -> usize {
        match self {
            Transaction::Val(_) => 5,
            Transaction::Add(a, b) => a.code_length() + b.code_length() + 1,
            Transaction::Read(_) => 2,
            Transaction::Write(_, t) => t.code_length() + 2,
        }
    }

    /// A transaction's nodes take as many bytes as its instructions.
    fn job_length(&self) -> usize {
        self.code_length()
    }

    fn emit(&self, out: &mut [u8], at: usize) -> usize {
        match self {
            Transaction::Val(n) => put_number(out, at, code::PUSH, *n),
            Transaction::Add(a, b) => {
                let at = a.emit(out, at);
                let at = b.emit(out, at);
                put(out, at, [code::ADD])
            }
            Transaction::Read(register) => put(out, at, [code::READ, *register]),
            Transaction::Write(register, t) => {
                let at = t.emit(out, at);
                put(out, at, [code::WRITE, *register])
            }
        }
    }

    fn prefix(&self, out: &mut [u8], at: usize) -> usize {
        match self {
            Transaction::Val(n) => put_number(out, at, job::VALT, *n),
            Transaction::Add(a, b) => {
                let at = put(out, at, [job::ADDT]);
                let at = a.prefix(out, at);
                b.prefix(out, at)
            }
            Transaction::Read(register) => put(out, at, [job::READ, *register]),
            Transaction::Write(register, t) => {
                let at = put(out, at, [job::WRITE, *register]);
                t.prefix(out, at)
            }
        }
    }
}

fn put<const N: usize>(out: &mut [u8], at: usize, bytes: [u8; N]) -> usize {
    out[at..at + N].copy_from_slice(&bytes);
    at + N
}

fn put_number(out: &mut [u8], at: usize, byte: u8, n: i32) -> usize {
    let [a, b, c, d] = n.to_be_bytes();
    put(out, at, [byte, a, b, c, d])
}

fn number(operand: &[u8]) -> i32 {
    operand.iter().fold(0, |n, &byte| n << 8 | i32::from(byte))
}

fn process(reader: &mut Reader, depth: u8) -> Result<Process, Refusal> {
    let (kind, operand) = reader.node(Sort::Process, depth)?;
    Ok(match kind {
        job::VALP => Process::Val(number(operand)),
        job::ADDP => {
            let left = process(reader, depth + 1)?;
            let right = process(reader, depth + 1)?;
            Process::Add(Box::new(left), Box::new(right))
        }
        job::ATOMIC => Process::Atomic(Box::new(transaction(reader, depth + 1)?)),
        _ => Process::Fork(Box::new(process(reader, depth + 1)?)),
    })
}

fn transaction(reader: &mut Reader, depth: u8) -> Result<Transaction, Refusal> {
    let (kind, operand) = reader.node(Sort::Transaction, depth)?;
    Ok(match kind {
        job::VALT => Transaction::Val(number(operand)),
        job::ADDT => {
            let left = transaction(reader, depth + 1)?;
            let right = transaction(reader, depth + 1)?;
            Transaction::Add(Box::new(left), Box::new(right))
        }
        job::READ => Transaction::Read(operand[0]),
        _ => Transaction::Write(operand[0], Box::new(transaction(reader, depth + 1)?)),
    })
}

/// Builds trees from code; each tree comes with its depth.
struct Parser {
    nodes: usize,
    forks: usize,
}

impl Parser {
    fn node(&mut self) -> Option<()> {
        self.nodes += 1;
        (self.nodes <= MOST_NODES).then_some(())
    }

    /// The one process whose code this is.
    fn process(&mut self, code: &[u8]) -> Option<(Process, u8)> {
        let mut parts: Vec<(Process, u8)> = Vec::new();
        let mut at = 0;
        while at < code.len() {
            let (op, next) = code::decode(code, at)?;
            at = next;
            self.node()?;
            let part = match op {
                Op::Push(n) => (Process::Val(n), 1),
                Op::Add => {
                    let (b, right) = parts.pop()?;
                    let (a, left) = parts.pop()?;
                    (Process::Add(Box::new(a), Box::new(b)), above(left.max(right))?)
                }
                Op::Begin => {
                    let (t, depth, end) = self.transaction(code, at)?;
                    at = end;
                    (Process::Atomic(Box::new(t)), above(depth)?)
                }
                Op::Fork(length) => {
                    self.forks += 1;
                    if self.forks > MOST_FORKS {
                        return None;
                    }
                    let child = code.get(at..at + length)?;
                    at += length;
                    let (p, depth) = self.process(child)?;
                    (Process::Fork(Box::new(p)), above(depth)?)
                }
                Op::Read(_) | Op::Write(_) | Op::Commit => return None,
            };
            parts.push(part);
        }
        let whole = parts.pop()?;
        parts.is_empty().then_some(whole)
    }

    /// The transaction that starts at a place, and the place behind its COMMIT.
    fn transaction(&mut self, code: &[u8], mut at: usize) -> Option<(Transaction, u8, usize)> {
        let mut parts: Vec<(Transaction, u8)> = Vec::new();
        loop {
            let (op, next) = code::decode(code, at)?;
            at = next;
            if op == Op::Commit {
                let (whole, depth) = parts.pop()?;
                return parts.is_empty().then_some((whole, depth, at));
            }
            self.node()?;
            let part = match op {
                Op::Push(n) => (Transaction::Val(n), 1),
                Op::Read(register @ 0..=63) => (Transaction::Read(register), 1),
                Op::Write(register @ 0..=63) => {
                    let (t, depth) = parts.pop()?;
                    (Transaction::Write(register, Box::new(t)), above(depth)?)
                }
                Op::Add => {
                    let (b, right) = parts.pop()?;
                    let (a, left) = parts.pop()?;
                    (Transaction::Add(Box::new(a), Box::new(b)), above(left.max(right))?)
                }
                _ => return None,
            };
            parts.push(part);
        }
    }
}

/// The depth of a tree with one node above another.
fn above(depth: u8) -> Option<u8> {
    (depth < DEEPEST).then_some(depth + 1)
}
