//! What can go wrong, and how it is told.

use crate::script::{self, Nodes};
use crate::{input, show, telling};
use kuspigo::{Reason, Refusal};
use std::fmt::{self, Write};
use std::io;

pub enum Failure {
    /// The command line is not understood; the whole text.
    Usage(String),
    /// A file, by its name in messages, cannot be read or written.
    File(String, io::Error),
    /// The library refused a file's bytes.
    Refused { file: String, bytes: Vec<u8>, refusal: Refusal },
    /// The library refused a formula, or the job that it would make.
    RefusedFormula { name: String, text: Vec<u8>, refusal: Refusal },
    /// The answer is no, and standard output has it.
    No,
}

impl Failure {
    pub fn refused(file: String, bytes: &[u8], refusal: Refusal) -> Failure {
        Failure::Refused { file, bytes: bytes.to_vec(), refusal }
    }

    pub fn output(error: io::Error) -> Failure {
        Failure::File("standard output".to_string(), error)
    }

    /// The program's exit status.
    pub fn status(&self) -> u8 {
        match self {
            Failure::Usage(_) => 2,
            Failure::File(..) | Failure::Refused { .. } | Failure::RefusedFormula { .. } | Failure::No => 1,
        }
    }
}

impl fmt::Display for Failure {
    fn fmt(&self, f: &mut fmt::Formatter<'_>) -> fmt::Result {
        match self {
            Failure::Usage(text) => f.write_str(text),
            Failure::File(file, error) => writeln!(f, "kuspigo: {file}: {error}"),
            Failure::Refused { file, bytes, refusal } => {
                writeln!(f, "kuspigo: {file}: {refusal}")?;
                f.write_str(&found(bytes, *refusal))?;
                match refusal.reason.has_place() {
                    true => write!(f, "{}{}", surroundings(bytes, *refusal), marked(bytes, *refusal)),
                    false => Ok(()),
                }
            }
            Failure::RefusedFormula { name, text, refusal } => {
                write!(f, "kuspigo: {name}: {refusal}\n{}", telling::told(text, *refusal))
            }
            Failure::No => Ok(()),
        }
    }
}

/// What the bytes have there, in a sentence.
fn found(bytes: &[u8], refusal: Refusal) -> String {
    let number16 = |at: usize| u16::from_be_bytes([bytes[at], bytes[at + 1]]);
    match refusal.reason {
        Reason::Mark if bytes.starts_with(b"WSC") => {
            "It begins with WSC, the mark of code: try kuspigo back or show.\n".to_string()
        }
        Reason::Mark | Reason::Cut if input::is_text(bytes) => {
            "A job begins with WSJ, in hex 57 53 4A. If it is a formula, say so with --formula.\n".to_string()
        }
        Reason::Mark => "A job begins with WSJ, in hex 57 53 4A.\n".to_string(),
        Reason::Version => format!("The version is {}.\n", number16(3)),
        Reason::Count => format!("The count is {}.\n", number16(5)),
        Reason::Kind => {
            let inner = Nodes::around(bytes, refusal.place).last().map_or(script::FORK, |&(_, kind)| kind);
            let due = match script::holds_transactions(inner) {
                true => "a transaction, of kind 5 to 8",
                false => "a process, of kind 1 to 4",
            };
            format!("The kind is {}; {due}, is due.\n", bytes[refusal.place])
        }
        Reason::Register => format!("The register is {}.\n", bytes[refusal.place]),
        Reason::Length => {
            let (count, nodes) = (number16(5), Nodes::new(&bytes[..refusal.place]).count());
            match Nodes::around(bytes, refusal.place).is_empty() {
                false => format!("The count is {count}, and one more node is due.\n"),
                true if nodes < count.into() => {
                    format!("The count is {count}, and the tree has {}.\n", show::nodes(nodes))
                }
                true => "The tree is complete, and bytes follow it.\n".to_string(),
            }
        }
        Reason::ForeignCode if bytes.starts_with(b"WSJ") => {
            "It begins with WSJ, the mark of a job: try kuspigo compile or show.\n".to_string()
        }
        Reason::LongTransaction => {
            let mut behind = Nodes::new(bytes).skip_while(|node| node.at < refusal.place);
            let depth = behind.next().map_or(0, |atomic| atomic.depth);
            format!("It has {} nodes.\n", behind.take_while(|node| node.depth > depth).count())
        }
        _ => String::new(),
    }
}

/// So many of the nodes around a place are named.
const NAMED: usize = 4;

/// In which nodes the refusal's place is.
fn surroundings(job: &[u8], refusal: Refusal) -> String {
    if matches!(refusal.reason, Reason::Mark | Reason::Version | Reason::Count) {
        return String::new();
    }
    let around = Nodes::around(job, refusal.place);
    let names: Vec<String> =
        around.iter().rev().take(NAMED).map(|&(at, kind)| format!("{} at {at}", script::kind_name(kind))).collect();
    match around.len() - names.len() {
        _ if names.is_empty() => String::new(),
        0 => format!("It is in {}.\n", names.join(", in ")),
        more => format!("It is in {}, {more} more around it.\n", names.join(", in ")),
    }
}

const ROW: usize = 16;

/// The row of bytes that has the refusal's place and those beside it, the place marked.
fn marked(job: &[u8], refusal: Refusal) -> String {
    let mut text = String::from("\noffset  bytes in hex\n");
    let row = refusal.place / ROW;
    for row in row.saturating_sub(1)..=row + 1 {
        let start = row * ROW;
        let here = (start..start + ROW).contains(&refusal.place);
        if start >= job.len() && !here {
            continue;
        }
        write!(text, "{start:6} ").expect("a string takes every line");
        for at in start..start + ROW {
            match job.get(at) {
                Some(byte) => text += &format!(" {byte:02X}"),
                None if at == refusal.place => text += " ..",
                None => {}
            }
        }
        text.push('\n');
        if here {
            text += &" ".repeat(7 + 3 * (refusal.place - start));
            text += &" ^^".repeat(width(refusal.reason));
            text += &format!(" {}\n", refusal.place);
        }
    }
    text
}

/// How many bytes a refusal is about: mark, version, count, or one byte.
fn width(reason: Reason) -> usize {
    match reason {
        Reason::Mark => 3,
        Reason::Version | Reason::Count => 2,
        _ => 1,
    }
}
