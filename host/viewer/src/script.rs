//! Nodes and instructions, in words. A job or code that is shown whole is one that the library accepted.

use plain::Op;

/// Where a job's nodes start.
pub const NODES: usize = 7;
/// Where code's instructions start.
pub const INSTRUCTIONS: usize = 5;

/// A node's name, the number of its parts and the bytes of its operand, by its kind.
const KINDS: [(&str, usize, usize); 9] = [
    ("", 0, 0),
    ("VALP", 0, 4),
    ("ADDP", 2, 0),
    ("ATOMIC", 1, 0),
    ("FORK", 1, 0),
    ("VALT", 0, 4),
    ("ADDT", 2, 0),
    ("READ", 0, 1),
    ("WRITE", 1, 1),
];
pub const VALP: u8 = 1;
pub const ADDP: u8 = 2;
pub const ATOMIC: u8 = 3;
pub const FORK: u8 = 4;
pub const VALT: u8 = 5;
pub const ADDT: u8 = 6;
pub const READ: u8 = 7;
pub const WRITE: u8 = 8;

/// A kind's name; there are the kinds 1 to 8.
pub fn kind_name(kind: u8) -> &'static str {
    KINDS.get(usize::from(kind)).map_or("", |kind| kind.0)
}

/// The bytes of a node, without its parts.
pub fn length(kind: u8) -> usize {
    1 + KINDS[usize::from(kind)].2
}

/// Whether a node's parts are transactions.
pub fn holds_transactions(kind: u8) -> bool {
    kind == ATOMIC || kind > FORK
}

/// A node of a job: its bytes are those from `at` up to `next`. The root has depth 1.
pub struct Node {
    pub at: usize,
    pub next: usize,
    pub kind: u8,
    pub depth: usize,
}

impl Node {
    /// Its name and its operand.
    pub fn text(&self, job: &[u8]) -> String {
        let name = kind_name(self.kind);
        match self.operand(job) {
            Some(operand) => format!("{name} {operand}"),
            None => name.to_string(),
        }
    }

    /// Its number or its register, if it has one.
    pub fn operand(&self, job: &[u8]) -> Option<String> {
        match job[self.at + 1..self.next] {
            [register] => Some(format!("r{register}")),
            [a, b, c, d] => Some(i32::from_be_bytes([a, b, c, d]).to_string()),
            _ => None,
        }
    }
}

/// The nodes of a job from left to right, up to the end of the tree or to what is no whole node.
pub struct Nodes<'a> {
    job: &'a [u8],
    at: usize,
    /// The nodes that still have a part due: where they are, their kinds, how many parts.
    open: Vec<(usize, u8, usize)>,
}

impl<'a> Nodes<'a> {
    pub fn new(job: &'a [u8]) -> Self {
        Nodes { job, at: NODES, open: Vec::new() }
    }

    /// The nodes that a place of a job is in, outermost first: where they are, and their kinds. The nodes before that place
    /// are ones that the job reader has passed.
    pub fn around(job: &'a [u8], place: usize) -> Vec<(usize, u8)> {
        let mut nodes = Nodes::new(&job[..place.min(job.len())]);
        while nodes.next().is_some() {}
        let mut around: Vec<(usize, u8)> = nodes.open.iter().map(|&(at, kind, _)| (at, kind)).collect();
        // a node whose operand has the place
        around.extend(nodes.job.get(nodes.at).map(|&kind| (nodes.at, kind)));
        around
    }

    /// One part less is due; a node without one is whole, and was itself a part.
    fn close(&mut self) {
        while let Some((_, _, due)) = self.open.last_mut() {
            *due -= 1;
            if *due > 0 {
                return;
            }
            self.open.pop();
        }
    }
}

impl Iterator for Nodes<'_> {
    type Item = Node;

    fn next(&mut self) -> Option<Node> {
        let &kind = self.job.get(self.at).filter(|kind| (1..=8).contains(*kind))?;
        let parts = KINDS[usize::from(kind)].1;
        let node = Node { at: self.at, next: self.at + length(kind), kind, depth: self.open.len() + 1 };
        if node.next > self.job.len() || self.at > NODES && self.open.is_empty() {
            return None;
        }
        self.at = node.next;
        match parts {
            0 => self.close(),
            _ => self.open.push((node.at, kind, parts)),
        }
        Some(node)
    }
}

/// An instruction as it is written.
pub fn instruction(op: Op) -> String {
    match op {
        Op::Push(n) => format!("PUSH {n}"),
        Op::Add => "ADD".to_string(),
        Op::Read(register) => format!("READ r{register}"),
        Op::Write(register) => format!("WRITE r{register}"),
        Op::Begin => "BEGIN".to_string(),
        Op::Commit => "COMMIT".to_string(),
        Op::Fork(length) => format!("FORK {length}"),
    }
}
