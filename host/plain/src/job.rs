//! The job reader: the tests in the papers' order.

use super::{long_transaction, number16, refuse, DEEPEST, MOST_FORKS, MOST_INSIDE, MOST_NODES, NODES};
use kuspigo::Refusal;

/// Which nodes may stand where one is due.
#[derive(Clone, Copy, PartialEq, Eq)]
pub enum Sort {
    Process,
    Transaction,
}

pub const VALP: u8 = 1;
pub const ADDP: u8 = 2;
pub const ATOMIC: u8 = 3;
pub const FORK: u8 = 4;
pub const VALT: u8 = 5;
pub const ADDT: u8 = 6;
pub const READ: u8 = 7;
pub const WRITE: u8 = 8;

/// The operand's length; kinds are 1 to 8.
pub fn operand_length(kind: u8) -> usize {
    match kind {
        VALP | VALT => 4,
        READ | WRITE => 1,
        _ => 0,
    }
}

/// Takes nodes off a job one after the other, testing each.
pub struct Reader<'a> {
    job: &'a [u8],
    place: usize,
    nodes_left: usize,
    forks: usize,
    /// The last ATOMIC's place, and the nodes of its transaction so far.
    atomic: usize,
    inside: usize,
    /// The place of the first ATOMIC whose transaction has too many.
    long: Option<usize>,
}

impl<'a> Reader<'a> {
    /// Tests mark, version and count.
    pub fn new(job: &'a [u8]) -> Result<Self, Refusal> {
        if job.len() < NODES {
            return refuse(1, job.len());
        }
        if &job[0..3] != b"WSJ" {
            return refuse(2, 0);
        }
        if number16(job[3], job[4]) != 1 {
            return refuse(3, 3);
        }
        let count = number16(job[5], job[6]);
        if count == 0 || count > MOST_NODES {
            return refuse(4, 5);
        }
        Ok(Reader { job, place: NODES, nodes_left: count, forks: 0, atomic: 0, inside: 0, long: None })
    }

    /// The node that is due, tested: its kind and its operand.
    #[inline]
    pub fn node(&mut self, sort: Sort, depth: u8) -> Result<(u8, &'a [u8]), Refusal> {
        let at = self.place;
        if self.nodes_left == 0 {
            return refuse(9, at);
        }
        let Some(&kind) = self.job.get(at) else {
            return refuse(1, self.job.len());
        };
        let permitted = match sort {
            Sort::Process => VALP..=FORK,
            Sort::Transaction => VALT..=WRITE,
        };
        if !permitted.contains(&kind) {
            return refuse(5, at);
        }
        if depth > DEEPEST {
            return refuse(7, at);
        }
        let Some(operand) = self.job.get(at + 1..at + 1 + operand_length(kind)) else {
            return refuse(1, self.job.len());
        };
        if operand.len() == 1 && operand[0] > 63 {
            return refuse(6, at + 1);
        }
        if kind == FORK {
            if self.forks == MOST_FORKS {
                return refuse(8, at);
            }
            self.forks += 1;
        }
        if kind == ATOMIC {
            (self.atomic, self.inside) = (at, 0);
        }
        if sort == Sort::Transaction {
            self.inside += 1;
            if self.inside > MOST_INSIDE {
                self.long.get_or_insert(self.atomic);
            }
        }
        self.nodes_left -= 1;
        self.place = at + 1 + operand.len();
        Ok((kind, operand))
    }

    /// The tree is complete: nothing may be left over.
    pub fn end(&self) -> Result<(), Refusal> {
        if self.nodes_left > 0 || self.place < self.job.len() {
            return refuse(9, self.place);
        }
        Ok(())
    }

    /// The tree is complete: nothing may be left over, and no transaction may be long.
    pub fn finish(self) -> Result<(), Refusal> {
        self.end()?;
        match self.long {
            Some(atomic) => long_transaction(atomic),
            None => Ok(()),
        }
    }
}

/// Tests the whole job: the length of its code, or its refusal.
pub fn check(job: &[u8]) -> Result<usize, Refusal> {
    let mut reader = Reader::new(job)?;
    // Nodes that are due, the next one last. At most one part waits for each of 64 depths, and two at the last.
    let mut due = [(Sort::Process, 0); DEEPEST as usize + 2];
    let mut waiting = 1;
    due[0] = (Sort::Process, 1);
    let mut length = super::INSTRUCTIONS;
    while waiting > 0 {
        waiting -= 1;
        let (sort, depth) = due[waiting];
        let (kind, _) = reader.node(sort, depth)?;
        let (bytes, parts, sort) = match kind {
            VALP | VALT => (5, 0, sort),
            ADDP | ADDT => (1, 2, sort),
            ATOMIC => (2, 1, Sort::Transaction),
            FORK => (3, 1, sort),
            WRITE => (2, 1, sort),
            _ => (2, 0, sort),
        };
        length += bytes;
        for _ in 0..parts {
            due[waiting] = (sort, depth + 1);
            waiting += 1;
        }
    }
    reader.finish()?;
    Ok(length)
}
