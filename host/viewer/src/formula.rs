//! Scripts as formulas: printed, and the other way round where each node of a job stands in a formula.

use crate::script::{self, Nodes};

/// As what a process or a transaction is printed: a sum stands in brackets where a term is due, a write also where the
/// first term of a sum is due.
#[derive(Clone, Copy, PartialEq, Eq)]
enum As {
    Whole,
    Terms,
    Term,
}

/// An accepted job as a formula, which makes the same job.
pub fn printed(job: &[u8]) -> String {
    let mut text = String::new();
    print(job, &mut Nodes::new(job), As::Whole, &mut text);
    text
}

fn print(job: &[u8], nodes: &mut Nodes, place: As, text: &mut String) {
    let node = nodes.next().expect("an accepted job's tree is whole");
    let bracketed = match node.kind {
        script::ADDP | script::ADDT => place == As::Term,
        script::WRITE => place != As::Whole,
        _ => false,
    };
    if bracketed {
        text.push('(');
    }
    text.extend(node.operand(job));
    match node.kind {
        script::ADDP | script::ADDT => {
            print(job, nodes, As::Terms, text);
            text.push_str(" + ");
            print(job, nodes, As::Term, text);
        }
        script::ATOMIC => {
            text.push_str("atomic(");
            print(job, nodes, As::Whole, text);
            text.push(')');
        }
        script::FORK => {
            text.push_str("fork ");
            print(job, nodes, As::Term, text);
        }
        script::WRITE => {
            text.push_str(" := ");
            print(job, nodes, As::Whole, text);
        }
        _ => {}
    }
    if bracketed {
        text.push(')');
    }
}

/// A node of the job that a script makes, and where its text begins and ends.
pub struct Part {
    kind: u8,
    pub start: usize,
    pub end: usize,
}

/// The nodes of the job that a script makes, accepted or not, in the job's order. This is the viewer's own reading of a
/// text of which the library has said that it is a script.
pub fn parts(text: &[u8]) -> Option<Vec<Part>> {
    let mut reader = Reader { text, at: 0 };
    let parts = reader.sum(false)?;
    (reader.at == text.len()).then_some(parts)
}

/// Which of the nodes is at a place in the job.
pub fn part_at(parts: &[Part], place: usize) -> Option<usize> {
    let mut at = script::NODES;
    parts.iter().position(|part| {
        let here = at == place;
        at += script::length(part.kind);
        here
    })
}

/// How many nodes a transaction has, its ATOMIC not counted.
pub fn inside(parts: &[Part], atomic: usize) -> usize {
    let end = parts[atomic].end;
    parts[atomic + 1..].iter().take_while(|part| part.start < end).count()
}

struct Reader<'a> {
    text: &'a [u8],
    at: usize,
}

impl Reader<'_> {
    fn byte(&self) -> Option<u8> {
        self.text.get(self.at).copied()
    }

    fn blanks(&mut self) {
        while matches!(self.byte(), Some(b' ' | b'\n' | b'\r')) {
            self.at += 1;
        }
    }

    /// A word, with the blanks around it.
    fn word(&mut self, word: &[u8]) -> Option<()> {
        self.blanks();
        self.at += self.text[self.at..].starts_with(word).then_some(word.len())?;
        self.blanks();
        Some(())
    }

    /// A letter or a sign, and digits.
    fn number(&mut self, kind: u8) -> Part {
        let start = self.at;
        self.at += 1;
        while self.byte().is_some_and(|byte| byte.is_ascii_digit()) {
            self.at += 1;
        }
        Part { kind, start, end: self.at }
    }

    /// A process or, inside an atomic, a transaction, with the blanks around it.
    fn sum(&mut self, inside: bool) -> Option<Vec<Part>> {
        self.blanks();
        let start = self.at;
        let mut parts = self.term(inside)?;
        if parts[0].kind == script::READ && parts[0].start == start && self.word(b":=").is_some() {
            let written = self.sum(true)?;
            parts = vec![Part { kind: script::WRITE, start, end: self.behind() }];
            parts.extend(written);
            return Some(parts);
        }
        let mut ends = Vec::new();
        while self.word(b"+").is_some() {
            parts.extend(self.term(inside)?);
            ends.push(self.behind());
        }
        // the outermost sum is the last one
        let kind = if inside { script::ADDT } else { script::ADDP };
        let mut sums: Vec<Part> = ends.iter().rev().map(|&end| Part { kind, start, end }).collect();
        sums.extend(parts);
        Some(sums)
    }

    /// Where the text before the place ends, its last blanks left out.
    fn behind(&self) -> usize {
        self.text[..self.at].trim_ascii_end().len()
    }

    fn term(&mut self, inside: bool) -> Option<Vec<Part>> {
        let start = self.at;
        match self.byte()? {
            b'0'..=b'9' | b'-' => Some(vec![self.number(if inside { script::VALT } else { script::VALP })]),
            b'r' if inside => Some(vec![self.number(script::READ)]),
            b'(' => {
                self.word(b"(")?;
                let parts = self.sum(inside)?;
                self.word(b")")?;
                Some(parts)
            }
            b'f' if !inside => {
                self.word(b"fork")?;
                let child = self.term(false)?;
                let mut parts = vec![Part { kind: script::FORK, start, end: self.behind() }];
                parts.extend(child);
                Some(parts)
            }
            b'a' if !inside => {
                self.word(b"atomic")?;
                self.word(b"(")?;
                let transaction = self.sum(true)?;
                self.word(b")")?;
                let mut parts = vec![Part { kind: script::ATOMIC, start, end: self.behind() }];
                parts.extend(transaction);
                Some(parts)
            }
            _ => None,
        }
    }
}
