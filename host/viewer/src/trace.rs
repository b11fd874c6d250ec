//! A run as lines: one for each pick, then one for each thread, then one for the registers' counts.

use crate::script;
use crate::walk::{self, Pick};
use kuspigo::{RegisterSet, State, Thread};

pub const HEAD: &str = "  pick thread place  instruction       rule                        what changed\n";

pub fn line(pick: &Pick) -> String {
    let (place, instruction) = match pick.did {
        Some((place, op)) => (place.to_string(), script::instruction(op)),
        None => ("-".to_string(), "-".to_string()),
    };
    let rule = pick.rule().to_string();
    format!("{:6} {:6} {place:>5}  {instruction:<16}  {rule:<26}  {}\n", pick.number, pick.thread, pick.change)
}

/// Where each thread stands.
pub fn threads(code: &[u8], state: &State) -> String {
    let mut text = "thread place  next instruction  last rule                   sent back  what it holds\n".to_string();
    for (number, thread) in state.threads.iter().enumerate().filter(|(_, thread)| thread.exists()) {
        let (next, holds) = match thread.result() {
            Some(result) => ("-".to_string(), format!("result {result}")),
            None => {
                let (op, _) = plain::decode(code, thread.place).expect("a place that fits is at an instruction");
                (script::instruction(op), holds(thread))
            }
        };
        let (place, rule, backs) = (thread.place, thread.last_rule().to_string(), thread.backs);
        text += &format!("{number:6} {place:5}  {next:<16}  {rule:<26}  {backs:9}  {holds}\n");
    }
    text
}

/// The stack from its bottom and, in a transaction, the logs, and how many of its sums left the range, if any did.
fn holds(thread: &Thread) -> String {
    let values: Vec<String> = thread.cells[..thread.height].iter().map(i32::to_string).collect();
    let mut text = format!("stack {}", or_empty(&values));
    if thread.begin != 0 {
        let reads = log(thread.reads, |at| walk::counted(thread.readlog[at], thread.readcounts[at]));
        let writes = log(thread.writes, |at| thread.writelog[at].to_string());
        text += &format!("; since BEGIN at {}: read log {reads}; write log {writes}", thread.begin);
    }
    if thread.over > 0 {
        text += &format!("; over {} noted", thread.over);
    }
    text
}

/// The registers that a log marks, each with what it has of it.
fn log(marked: u64, held: impl Fn(usize) -> String) -> String {
    let marked = RegisterSet { bits: marked };
    let entries: Vec<String> =
        marked.iter().map(|register| format!("r{register} = {}", held(usize::from(register)))).collect();
    or_empty(&entries)
}

/// The registers' counts that are not 0.
pub fn counts(state: &State) -> String {
    let written = state.counts.iter().enumerate().filter(|(_, &count)| count > 0);
    let words: Vec<String> = written.map(|(register, count)| format!("r{register} {count}")).collect();
    let words = if words.is_empty() { "all 0".to_string() } else { words.join(", ") };
    format!("counts (how often commits have written a register): {words}\n")
}

fn or_empty(words: &[String]) -> String {
    match words.is_empty() {
        true => "empty".to_string(),
        false => words.join(", "),
    }
}
