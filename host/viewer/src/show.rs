//! Forecasts, scripts and code as text.

use crate::script::{self, Nodes};
use kuspigo::{Forecast, RegisterSet};
use plain::Op;

/// What `check` says of an accepted job.
pub fn forecast(file: &str, job: &[u8], told: &Forecast) -> String {
    let heights: Vec<String> = told.heights().iter().map(u8::to_string).collect();
    let (root, children) = heights.split_first().expect("there is a root");
    let children = match children {
        [] => String::new(),
        _ => format!(", children in job order {}", children.join(" ")),
    };
    format!(
        "{file}: accepted\n\
         job                              {} bytes, {}\n\
         code                             {} bytes\n\
         transactions (K)                 {}\n\
         threads (T)                      {}\n\
         instructions (L)                 {}\n\
         of the longest transaction (M)   {}\n\
         steps                            at most {}\n\
         greatest stack heights           root {root}{children}\n\
         registers that READ names        {}\n\
         registers that WRITE names       {}\n",
        job.len(),
        // L counts an ATOMIC twice
        nodes(told.instructions - told.transactions),
        told.length,
        told.transactions,
        told.threads,
        told.instructions,
        told.longest,
        told.bound,
        registers(told.reads),
        registers(told.writes),
    )
}

pub fn nodes(count: usize) -> String {
    format!("{count} {}", if count == 1 { "node" } else { "nodes" })
}

fn registers(set: RegisterSet) -> String {
    let names: Vec<String> = set.iter().map(|register| format!("r{register}")).collect();
    match names.is_empty() {
        true => "none".to_string(),
        false => names.join(" "),
    }
}

/// A node or an instruction: where it is, its bytes, its text, so many levels deep.
fn line(at: usize, bytes: &[u8], level: usize, text: &str) -> String {
    let bytes: Vec<String> = bytes.iter().map(|byte| format!("{byte:02X}")).collect();
    format!("{at:6}  {:<14}  {:indent$}{text}\n", bytes.join(" "), "", indent = 2 * level)
}

/// An accepted job as a tree.
pub fn script(job: &[u8]) -> String {
    let mut text = String::new();
    let (mut count, mut forks) = (0, 0);
    for node in Nodes::new(job) {
        count += 1;
        let mut words = node.text(job);
        if node.kind == script::FORK {
            forks += 1;
            words += &format!("  (child {forks})");
        }
        text += &line(node.at, &job[node.at..node.next], node.depth - 1, &words);
    }
    format!("script: {}, a job of {} bytes\n{text}", nodes(count), job.len())
}

/// An accepted job's code, the child of each FORK indented.
pub fn code(code: &[u8]) -> String {
    let mut text = format!("code: {} bytes\n", code.len());
    let mut ends = Vec::new();
    let mut forks = 0;
    let mut at = script::INSTRUCTIONS;
    while let Some((op, next)) = plain::decode(code, at) {
        while ends.last() == Some(&at) {
            ends.pop();
        }
        let mut words = script::instruction(op);
        let level = ends.len();
        if let Op::Fork(length) = op {
            forks += 1;
            words += &format!("  (child {forks}, up to {})", next + length);
            ends.push(next + length);
        }
        text += &line(at, &code[at..next], level, &words);
        at = next;
    }
    text
}
