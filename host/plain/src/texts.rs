//! Formulas for the comparison and the benchmark, from a seed.

use crate::samples::Rng;
use crate::tree::{Process, Transaction};

/// A tree as a formula.
#[derive(Clone, PartialEq, Eq, Debug)]
pub struct Typed {
    pub text: Vec<u8>,
    /// So many brackets, forks, atomics and writes are open together at most.
    pub open: usize,
}

/// How a tree is typed: one chance in so many for each, never for 0.
#[derive(Clone, Copy, Debug)]
pub struct Hand {
    /// Of blanks before a lexeme, and at the end.
    pub blanks: usize,
    /// Of brackets around a term that needs none, and of further ones.
    pub brackets: usize,
    /// Of zeros in front of a number, and of `-0`.
    pub zeros: usize,
}

/// Nothing that is not needed.
pub const PLAIN: Hand = Hand { blanks: 0, brackets: 0, zeros: 0 };

impl Hand {
    /// The tree's text: read as a formula, it is that tree again, if not too many are open and it is not too long.
    pub fn typed(self, rng: &mut Rng, tree: &Process) -> Typed {
        let mut typist = Typist { hand: self, rng, typed: Typed { text: Vec::new(), open: 0 } };
        typist.process(tree, 0);
        typist.blanks();
        typist.typed
    }
}

struct Typist<'a> {
    hand: Hand,
    rng: &'a mut Rng,
    typed: Typed,
}

impl Typist<'_> {
    fn process(&mut self, tree: &Process, open: usize) {
        match tree {
            Process::Add(a, b) => {
                match **a {
                    Process::Add(..) if !self.chance(self.hand.brackets) => self.process(a, open),
                    _ => self.process_term(a, open),
                }
                self.lexeme("+");
                self.process_term(b, open);
            }
            _ => self.process_term(tree, open),
        }
    }

    fn process_term(&mut self, tree: &Process, open: usize) {
        let needed = matches!(tree, Process::Add(..));
        if needed || self.chance(self.hand.brackets) {
            self.opened("(", open + 1);
            match needed && !self.chance(self.hand.brackets) {
                true => self.process(tree, open + 1),
                false => self.process_term(tree, open + 1),
            }
            return self.lexeme(")");
        }
        match tree {
            Process::Val(n) => self.number(*n),
            Process::Fork(p) => {
                self.opened("fork", open + 1);
                self.process_term(p, open + 1);
            }
            Process::Atomic(t) => {
                self.opened("atomic", open + 2);
                self.lexeme("(");
                self.transaction(t, open + 2);
                self.lexeme(")");
            }
            Process::Add(..) => unreachable!("it needs brackets"),
        }
    }

    fn transaction(&mut self, tree: &Transaction, open: usize) {
        match tree {
            Transaction::Write(register, t) if !self.chance(self.hand.brackets) => {
                self.register(*register);
                self.opened(":=", open + 1);
                self.transaction(t, open + 1);
            }
            Transaction::Add(a, b) => {
                match **a {
                    Transaction::Add(..) if !self.chance(self.hand.brackets) => self.transaction(a, open),
                    _ => self.transaction_term(a, open),
                }
                self.lexeme("+");
                self.transaction_term(b, open);
            }
            _ => self.transaction_term(tree, open),
        }
    }

    fn transaction_term(&mut self, tree: &Transaction, open: usize) {
        match tree {
            Transaction::Val(n) if !self.chance(self.hand.brackets) => self.number(*n),
            Transaction::Read(register) if !self.chance(self.hand.brackets) => self.register(*register),
            _ => {
                self.opened("(", open + 1);
                self.transaction(tree, open + 1);
                self.lexeme(")");
            }
        }
    }

    fn number(&mut self, n: i32) {
        self.blanks();
        if n < 0 || n == 0 && self.chance(self.hand.zeros) {
            self.typed.text.push(b'-');
        }
        self.digits(n.unsigned_abs());
    }

    fn register(&mut self, register: u8) {
        self.lexeme("r");
        self.digits(register.into());
    }

    fn digits(&mut self, n: u32) {
        while self.chance(self.hand.zeros) {
            self.typed.text.push(b'0');
        }
        self.typed.text.extend(n.to_string().bytes());
    }

    /// One with which so many are open.
    fn opened(&mut self, lexeme: &str, open: usize) {
        self.typed.open = self.typed.open.max(open);
        self.lexeme(lexeme);
    }

    fn lexeme(&mut self, lexeme: &str) {
        self.blanks();
        self.typed.text.extend(lexeme.bytes());
    }

    fn blanks(&mut self) {
        while self.chance(self.hand.blanks) {
            let blank = self.rng.choose(b" \n\r");
            self.typed.text.push(blank);
        }
    }

    fn chance(&mut self, n: usize) -> bool {
        n > 0 && self.rng.one_in(n)
    }
}

/// So many ones, joined by `+`.
pub fn ones(count: usize) -> Vec<u8> {
    ["1"].repeat(count).join("+").into_bytes()
}

/// A text with so many open at its innermost point: brackets, forks, atomics and writes, and sums with them.
pub fn nested(rng: &mut Rng, open: usize) -> Vec<u8> {
    let mut text = Vec::new();
    let mut behind = Vec::new();
    let mut forks = rng.choose(&[0, 10, 15, 15, 20, 70]);
    // from so many on, a transaction
    let from = if rng.one_in(3) { open } else { rng.below(open) };
    let mut inside = false;
    // whether a sum or a write may begin here
    let mut whole = true;
    let mut opened = 0;
    while opened < open {
        if whole && rng.one_in(6) {
            text.extend(if inside && rng.one_in(2) { b"r05 +" } else { b" 1 + " });
            whole = false;
        }
        match rng.below(4) {
            _ if !inside && opened >= from && opened + 2 <= open => {
                text.extend(b"atomic (");
                opened += 1;
                inside = true;
            }
            0 | 1 if !inside && forks > 0 => {
                text.extend(b"fork");
                opened += 1;
                forks -= 1;
                whole = false;
                continue;
            }
            0..=2 if inside && whole => {
                text.extend(b"r63:=");
                opened += 1;
                continue;
            }
            _ => text.push(b'('),
        }
        opened += 1;
        whole = true;
        behind.push(rng.choose(&[&b")"[..], b")", b")", b"\n)", b"+ 1)", b"+2)"]));
    }
    text.extend(if inside && rng.one_in(2) { b"r0" } else { b"-7" });
    text.extend(behind.iter().rev().copied().flatten());
    text
}
