//! Reading a formula: a recursive descent that looks at one byte, and writes the job's nodes as it meets them.

use super::{job, refuse, short_output, JOB_HEAD, LONGEST_JOB, LONGEST_TEXT, MOST_NODES, MOST_OPEN, NODES, REGISTERS};
use kuspigo::Refusal;

/// Writes the version 1 job of a script that is typed as a formula to the front of `out` and gives its length.
pub fn formula(text: &[u8], out: &mut [u8]) -> Result<usize, Refusal> {
    let job = read(text)?;
    job::check(&job)?;
    match out.get_mut(..job.len()) {
        Some(out) => out.copy_from_slice(&job),
        None => return short_output(),
    }
    Ok(job.len())
}

/// The script's job. One of more nodes than a job may have is left out behind its count.
fn read(text: &[u8]) -> Result<Vec<u8>, Refusal> {
    if text.len() > LONGEST_TEXT {
        return refuse(15, LONGEST_TEXT);
    }
    let mut job = Vec::with_capacity(LONGEST_JOB);
    job.extend(JOB_HEAD);
    job.extend([0; 2]);
    let mut parser = Parser { text, at: 0, job, nodes: 0 };
    if parser.process(0).is_none() || parser.at < text.len() {
        return refuse(15, parser.at);
    }
    let Parser { mut job, nodes, .. } = parser;
    // a byte of text is at most one node
    job[5..NODES].copy_from_slice(&(nodes as u16).to_be_bytes());
    Ok(job)
}

/// A method takes what it is named after off the text, with the blanks behind it. It gives `None` if no script has the
/// byte that stands at `at` there, or the text ends there too early. `open` counts brackets, forks, atomics and writes.
struct Parser<'a> {
    text: &'a [u8],
    /// All before it is the beginning of a script.
    at: usize,
    job: Vec<u8>,
    /// Those of the job, also where it is left out.
    nodes: usize,
}

impl Parser<'_> {
    fn process(&mut self, open: usize) -> Option<()> {
        self.blanks();
        let start = self.job.len();
        let mut sums = 0;
        self.process_term(open)?;
        while self.next() == Some(b'+') {
            self.symbol();
            self.process_term(open)?;
            sums += 1;
        }
        self.put_sums(job::ADDP, start, sums);
        Some(())
    }

    fn process_term(&mut self, open: usize) -> Option<()> {
        match self.next()? {
            b'-' | b'0'..=b'9' => self.number(job::VALP),
            b'(' if open < MOST_OPEN => {
                self.symbol();
                self.process(open + 1)?;
                self.close()
            }
            b'f' if open < MOST_OPEN => {
                self.word(b"fork")?;
                self.put([job::FORK]);
                self.process_term(open + 1)
            }
            // it and its bracket are two
            b'a' if open + 1 < MOST_OPEN => {
                self.word(b"atomic")?;
                self.put([job::ATOMIC]);
                if self.next() != Some(b'(') {
                    return None;
                }
                self.symbol();
                self.transaction(open + 2)?;
                self.close()
            }
            _ => None,
        }
    }

    fn transaction(&mut self, open: usize) -> Option<()> {
        self.blanks();
        let start = self.job.len();
        let mut sums = 0;
        if self.next() == Some(b'r') {
            let register = self.register()?;
            if self.next() == Some(b':') {
                if open == MOST_OPEN {
                    return None;
                }
                self.word(b":=")?;
                self.put([job::WRITE, register]);
                return self.transaction(open + 1);
            }
            self.put([job::READ, register]);
        } else {
            self.transaction_term(open)?;
        }
        while self.next() == Some(b'+') {
            self.symbol();
            self.transaction_term(open)?;
            sums += 1;
        }
        self.put_sums(job::ADDT, start, sums);
        Some(())
    }

    fn transaction_term(&mut self, open: usize) -> Option<()> {
        match self.next()? {
            b'-' | b'0'..=b'9' => self.number(job::VALT),
            b'r' => {
                let register = self.register()?;
                self.put([job::READ, register]);
                Some(())
            }
            b'(' if open < MOST_OPEN => {
                self.symbol();
                self.transaction(open + 1)?;
                self.close()
            }
            _ => None,
        }
    }

    fn number(&mut self, kind: u8) -> Option<()> {
        let negative = self.next() == Some(b'-');
        self.at += usize::from(negative);
        let n = match negative {
            false => self.digits(i32::MAX.into())?,
            true => -self.digits(-i64::from(i32::MIN))?,
        };
        let [a, b, c, d] = (n as i32).to_be_bytes();
        self.put([kind, a, b, c, d]);
        Some(())
    }

    fn register(&mut self) -> Option<u8> {
        self.at += 1;
        Some(self.digits(REGISTERS as i64 - 1)? as u8)
    }

    /// Digits, one at least, of a number that is at most `most`.
    fn digits(&mut self, most: i64) -> Option<i64> {
        let start = self.at;
        let mut n = 0;
        while let Some(digit @ b'0'..=b'9') = self.next() {
            n = 10 * n + i64::from(digit - b'0');
            if n > most {
                return None;
            }
            self.at += 1;
        }
        if self.at == start {
            return None;
        }
        self.blanks();
        Some(n)
    }

    fn word(&mut self, word: &[u8]) -> Option<()> {
        for &letter in word {
            if self.next() != Some(letter) {
                return None;
            }
            self.at += 1;
        }
        self.blanks();
        Some(())
    }

    fn close(&mut self) -> Option<()> {
        if self.next() != Some(b')') {
            return None;
        }
        self.symbol();
        Some(())
    }

    /// The one byte that stands there.
    fn symbol(&mut self) {
        self.at += 1;
        self.blanks();
    }

    fn blanks(&mut self) {
        while let Some(b' ' | b'\n' | b'\r') = self.next() {
            self.at += 1;
        }
    }

    fn next(&self) -> Option<u8> {
        self.text.get(self.at).copied()
    }

    /// A node, without its parts.
    fn put<const N: usize>(&mut self, node: [u8; N]) {
        self.nodes += 1;
        if self.nodes <= MOST_NODES {
            self.job.extend_from_slice(&node);
        }
    }

    /// So many sums over the terms that stand in the job from a place on; as they group to the left, all go before them.
    fn put_sums(&mut self, kind: u8, start: usize, sums: usize) {
        self.nodes += sums;
        if sums > 0 && self.nodes <= MOST_NODES {
            let end = self.job.len();
            self.job.resize(end + sums, kind);
            self.job.copy_within(start..end, start + sums);
            self.job[start..start + sums].fill(kind);
        }
    }
}
