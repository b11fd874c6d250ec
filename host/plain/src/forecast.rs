//! The forecast without a tree: one pass over the job.

use super::job::{self, Reader, Sort};
use super::{DEEPEST, INSTRUCTIONS, RECORDS};
use kuspigo::{Forecast, Refusal, RegisterSet};

/// A node that is due.
#[derive(Clone, Copy)]
struct Due {
    sort: Sort,
    depth: u8,
    /// Whose code it is in: 0 for the root's, n for the n-th FORK's child's.
    thread: usize,
    /// So many cells of that thread's stack are in use where the node's code begins.
    below: u8,
}

/// What the job will need, from its bytes alone.
pub fn forecast(job: &[u8]) -> Result<Forecast, Refusal> {
    let mut reader = Reader::new(job)?;
    let root = Due { sort: Sort::Process, depth: 1, thread: 0, below: 0 };
    // The next one last. At most one part waits for each of 64 depths, and two at the last.
    let mut due = [root; DEEPEST as usize + 2];
    let mut waiting = 1;

    let mut length = INSTRUCTIONS;
    let mut nodes = 0;
    let mut transactions = 0;
    let mut threads = 1;
    // instructions of the last transaction, as far as it is read
    let mut last = 0;
    let mut longest = 0;
    let mut reads = RegisterSet::default();
    let mut writes = RegisterSet::default();
    let mut all_heights = [0; RECORDS];
    while waiting > 0 {
        waiting -= 1;
        let node = due[waiting];
        let (kind, operand) = reader.node(node.sort, node.depth)?;
        nodes += 1;
        if node.sort == Sort::Transaction {
            last += 1;
            longest = longest.max(last);
        }
        let part = Due { depth: node.depth + 1, ..node };
        let mut wait = |part| {
            due[waiting] = part;
            waiting += 1;
        };
        length += match kind {
            job::VALP | job::VALT => 5,
            job::READ => {
                reads.insert(operand[0]);
                2
            }
            job::ADDP | job::ADDT => {
                wait(Due { below: node.below + 1, ..part });
                wait(part);
                1
            }
            job::WRITE => {
                writes.insert(operand[0]);
                wait(part);
                2
            }
            job::ATOMIC => {
                transactions += 1;
                // BEGIN and COMMIT
                last = 2;
                wait(Due { sort: Sort::Transaction, ..part });
                2
            }
            _ => {
                wait(Due { thread: threads, below: 0, ..part });
                threads += 1;
                3
            }
        };
        // the nodes whose own instruction adds a cell
        if matches!(kind, job::VALP | job::VALT | job::READ | job::FORK) {
            let height = &mut all_heights[node.thread];
            *height = (node.below + 1).max(*height);
        }
    }
    reader.finish()?;
    let instructions = nodes + transactions;
    let bound = step_bound(transactions, threads, instructions, longest);
    Ok(Forecast { length, transactions, threads, instructions, longest, bound, reads, writes, all_heights })
}

/// L + (K−1)×(T−1)×M, or L if K is 0.
pub fn step_bound(transactions: usize, threads: usize, instructions: usize, longest: usize) -> usize {
    match transactions {
        0 => instructions,
        _ => instructions + (transactions - 1) * (threads - 1) * longest,
    }
}
