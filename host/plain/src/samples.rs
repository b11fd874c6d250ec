//! Jobs for the comparison and the benchmark, from a seed.

use crate::tree::{Process, Transaction};

/// A small generator of random numbers (splitmix64).
#[derive(Clone)]
pub struct Rng(u64);

impl Rng {
    /// The numbers of one case, whatever the cases before it drew.
    pub fn new(seed: u64, call: u64, case: u64) -> Rng {
        let mut rng = Rng(seed);
        for part in [call, case] {
            rng.0 = rng.draw() ^ part;
        }
        rng
    }

    pub fn draw(&mut self) -> u64 {
        self.0 = self.0.wrapping_add(0x9E37_79B9_7F4A_7C15);
        let mut z = self.0;
        z = (z ^ z >> 30).wrapping_mul(0xBF58_476D_1CE4_E5B9);
        z = (z ^ z >> 27).wrapping_mul(0x94D0_49BB_1331_11EB);
        z ^ z >> 31
    }

    /// A number below `n`, which is not 0.
    pub fn below(&mut self, n: usize) -> usize {
        (self.draw() >> 11) as usize % n
    }

    pub fn between(&mut self, least: usize, most: usize) -> usize {
        least + self.below(most - least + 1)
    }

    pub fn one_in(&mut self, n: usize) -> bool {
        self.below(n) == 0
    }

    pub fn byte(&mut self) -> u8 {
        self.draw() as u8
    }

    pub fn choose<T: Copy>(&mut self, all: &[T]) -> T {
        all[self.below(all.len())]
    }

    /// A number as scripts have it: small, at the ends of the range, or any.
    pub fn number(&mut self) -> i32 {
        match self.below(8) {
            0 => self.choose(&[i32::MAX, i32::MIN, i32::MAX - 1, i32::MIN + 1, -1]),
            1 => self.draw() as i32,
            _ => self.below(12) as i32 - 3,
        }
    }

    /// A number whose sums with its like are near the ends of the range, or outside.
    pub fn far_number(&mut self) -> i32 {
        const HALF: i32 = 1 << 30;
        self.choose(&[i32::MAX, i32::MAX - 1, HALF, HALF - 1, 1, 0, -1, -HALF, -HALF - 1, i32::MIN + 1, i32::MIN])
    }
}

/// To which side sums lean.
#[derive(Clone, Copy, PartialEq, Eq, Debug)]
pub enum Lean {
    Even,
    Left,
    Right,
    Any,
}

/// What a random tree is to be like.
#[derive(Clone, Copy)]
pub struct Shape {
    /// Exactly so many nodes.
    pub nodes: usize,
    /// At most so deep; there has to be room for the nodes.
    pub room: usize,
    /// At most so many FORKs.
    pub forks: usize,
    /// At most so many nodes in a transaction.
    pub transaction: usize,
    /// How many registers are named often.
    pub registers: usize,
    pub lean: Lean,
}

impl Shape {
    pub fn tree(mut self, rng: &mut Rng) -> Process {
        self.process(rng, self.nodes, self.room)
    }

    /// One transaction of all the nodes, ATOMIC not counted.
    pub fn atomic(mut self, rng: &mut Rng) -> Process {
        Process::Atomic(Box::new(self.transaction(rng, self.nodes, self.room - 1)))
    }

    fn process(&mut self, rng: &mut Rng, nodes: usize, room: usize) -> Process {
        if nodes == 1 {
            return Process::Val(rng.number());
        }
        let unary = nodes - 1 <= capacity(room - 1);
        let fork = unary && self.forks > 0 && (nodes == 2 || rng.one_in(if nodes > 40 { 12 } else { 4 }));
        let atomic =
            unary && nodes - 1 <= self.transaction && (nodes == 2 || rng.one_in(if nodes > 40 { 12 } else { 3 }));
        if fork && !(atomic && rng.one_in(2)) {
            self.forks -= 1;
            Process::Fork(Box::new(self.process(rng, nodes - 1, room - 1)))
        } else if atomic || nodes == 2 {
            Process::Atomic(Box::new(self.transaction(rng, nodes - 1, room - 1)))
        } else {
            let left = self.split(rng, nodes - 1, room - 1);
            let a = self.process(rng, left, room - 1);
            let b = self.process(rng, nodes - 1 - left, room - 1);
            Process::Add(Box::new(a), Box::new(b))
        }
    }

    fn transaction(&mut self, rng: &mut Rng, nodes: usize, room: usize) -> Transaction {
        if nodes == 1 {
            return match rng.one_in(3) {
                true => Transaction::Val(rng.number()),
                false => Transaction::Read(self.register(rng)),
            };
        }
        if nodes == 2 || nodes - 1 <= capacity(room - 1) && rng.one_in(3) {
            return Transaction::Write(self.register(rng), Box::new(self.transaction(rng, nodes - 1, room - 1)));
        }
        let left = self.split(rng, nodes - 1, room - 1);
        let a = self.transaction(rng, left, room - 1);
        let b = self.transaction(rng, nodes - 1 - left, room - 1);
        Transaction::Add(Box::new(a), Box::new(b))
    }

    /// The left part's nodes, of those that two parts share.
    fn split(&self, rng: &mut Rng, nodes: usize, room: usize) -> usize {
        let least = nodes.saturating_sub(capacity(room)).max(1);
        let most = (nodes - 1).min(capacity(room));
        match self.lean {
            Lean::Even => nodes / 2,
            Lean::Left => (nodes - 1).saturating_sub(rng.below(3)),
            Lean::Right => 1 + rng.below(3),
            Lean::Any => match rng.below(3) {
                0 => nodes - 1,
                1 => 1,
                _ => rng.between(least, most),
            },
        }
        .clamp(least, most)
    }

    fn register(&self, rng: &mut Rng) -> u8 {
        match rng.below(16) {
            0 => 63,
            1 => rng.below(64) as u8,
            _ => rng.below(self.registers) as u8,
        }
    }
}

/// The tree with numbers in it whose sums are near the ends of the range, or outside.
pub fn far(rng: &mut Rng, tree: Process) -> Process {
    match tree {
        Process::Val(_) => Process::Val(rng.far_number()),
        Process::Add(a, b) => Process::Add(Box::new(far(rng, *a)), Box::new(far(rng, *b))),
        Process::Atomic(t) => Process::Atomic(Box::new(far_inside(rng, *t))),
        Process::Fork(p) => Process::Fork(Box::new(far(rng, *p))),
    }
}

fn far_inside(rng: &mut Rng, tree: Transaction) -> Transaction {
    match tree {
        Transaction::Val(_) => Transaction::Val(rng.far_number()),
        Transaction::Add(a, b) => Transaction::Add(Box::new(far_inside(rng, *a)), Box::new(far_inside(rng, *b))),
        Transaction::Read(register) => Transaction::Read(register),
        Transaction::Write(register, t) => Transaction::Write(register, Box::new(far_inside(rng, *t))),
    }
}

/// The most nodes of a tree so deep.
fn capacity(room: usize) -> usize {
    (1 << room.min(20)) - 1
}

/// A tree of exactly this depth: one long branch with numbers beside it.
pub fn chain(rng: &mut Rng, depth: usize, mut forks: usize) -> Process {
    let inner = rng.below(depth);
    let mut tree = if inner == 0 {
        Process::Val(rng.number())
    } else {
        let mut t = Transaction::Read(rng.below(3) as u8);
        for _ in 1..inner {
            let beside = Box::new(Transaction::Val(rng.number()));
            t = match rng.below(3) {
                0 => Transaction::Write(rng.below(3) as u8, Box::new(t)),
                1 => Transaction::Add(Box::new(t), beside),
                _ => Transaction::Add(beside, Box::new(t)),
            };
        }
        Process::Atomic(Box::new(t))
    };
    for _ in inner + 1..depth {
        let beside = Box::new(Process::Val(rng.number()));
        tree = match rng.below(3) {
            0 if forks > 0 => {
                forks -= 1;
                Process::Fork(Box::new(tree))
            }
            1 => Process::Add(beside, Box::new(tree)),
            _ => Process::Add(Box::new(tree), beside),
        };
    }
    tree
}

/// A tree of exactly this depth and so many nodes: one long branch of which the upper part has trees beside it. Its
/// transactions have at most so many nodes, those of the long branch fewer than 2 * depth.
pub fn deep(rng: &mut Rng, nodes: usize, depth: usize, mut forks: usize, transaction: usize) -> Process {
    let levels = rng.between(1, depth / 3);
    let mut tree = chain(rng, depth - levels, forks / 2);
    forks -= tree.forks();
    let mut rest = nodes - tree.nodes();
    for level in (1..=levels).rev() {
        // this sum and the tree beside the branch; two nodes for each sum above it
        let own = if level == 1 { rest } else { rng.between(2, rest - 2 * (level - 1)) };
        let lean = rng.choose(&[Lean::Even, Lean::Left, Lean::Right, Lean::Any]);
        let shape = Shape { nodes: own - 1, room: depth - level, forks, transaction, registers: 3, lean };
        let beside = shape.tree(rng);
        forks -= beside.forks();
        rest -= own;
        tree = match rng.one_in(2) {
            true => Process::Add(Box::new(tree), Box::new(beside)),
            false => Process::Add(Box::new(beside), Box::new(tree)),
        };
    }
    tree
}

/// Threads that each do many small transactions on the same registers: exactly so many nodes, at least 7 for each thread.
pub fn many_small(nodes: usize, threads: usize) -> Process {
    let each = nodes / threads;
    let mut parts = vec![increments(nodes - (threads - 1) * each)];
    // FORK and the sum above it
    parts.extend((1..threads).map(|_| Process::Fork(Box::new(increments(each - 2)))));
    sum(parts)
}

/// Transactions that each add 1 to a register: exactly so many nodes, at least 5.
fn increments(nodes: usize) -> Process {
    let count = (nodes + 1) / 6;
    let spare = nodes + 1 - 6 * count;
    let mut parts: Vec<Process> = (0..count)
        .map(|i| {
            let register = (i % 64) as u8;
            let sum = Transaction::Add(Box::new(Transaction::Read(register)), Box::new(Transaction::Val(1)));
            let mut t = Transaction::Write(register, Box::new(sum));
            if i == 0 && spare % 2 == 1 {
                t = Transaction::Write(register, Box::new(t));
            }
            Process::Atomic(Box::new(t))
        })
        .collect();
    parts.extend((0..spare / 2).map(|_| Process::Val(0)));
    sum(parts)
}

/// The sum of some processes, as flat as it can be.
pub fn sum(mut parts: Vec<Process>) -> Process {
    if parts.len() == 1 {
        return parts.remove(0);
    }
    let right = parts.split_off(parts.len() / 2);
    Process::Add(Box::new(sum(parts)), Box::new(sum(right)))
}
