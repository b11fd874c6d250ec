//! Why a call is turned down.

use std::fmt;

/// Why a call was turned down, and where. Nothing that was lent to it is altered.
#[derive(Clone, Copy, PartialEq, Eq, Hash, Debug)]
pub struct Refusal {
    /// Why.
    pub reason: Reason,
    /// A byte offset, in the text for [`Reason::NotAScript`] and in the job for each other reason of which
    /// [`Reason::has_place`] is true, else 0.
    pub place: usize,
}

/// Why a call was turned down. Later versions of the interface have more reasons, so a `match` needs a last arm for them.
#[derive(Clone, Copy, PartialEq, Eq, Hash, Debug)]
#[non_exhaustive]
pub enum Reason {
    /// The bytes end too early.
    Cut = 1,
    /// The job does not begin with `WSJ`.
    Mark = 2,
    /// The job's version is not 1.
    Version = 3,
    /// The node count is 0 or above 1,000.
    Count = 4,
    /// The node's kind is unknown or not permitted there.
    Kind = 5,
    /// The register's number is 64 or more.
    Register = 6,
    /// The node is at depth 65.
    Depth = 7,
    /// This is the sixteenth FORK.
    Forks = 8,
    /// The nodes or the bytes do not match the count.
    Length = 9,
    /// The output is shorter than the result.
    ShortTray = 10,
    /// No accepted job compiles to the code.
    ForeignCode = 11,
    /// The state does not fit the code.
    ForeignState = 12,
    /// There are more than 32,768 picks.
    LongList = 13,
    /// A transaction has more than 200 nodes, ATOMIC not counted.
    LongTransaction = 14,
    /// The text is no script: none goes on so from this offset.
    NotAScript = 15,
}

/// Each reason with the trade's word and a sentence, in the order of their numbers, from 1 on.
const TABLE: [(Reason, &str, &str); 15] = [
    (Reason::Cut, "cut", "The bytes end too early."),
    (Reason::Mark, "mark", "The job does not begin with its mark."),
    (Reason::Version, "version", "The job's version is not 1."),
    (Reason::Count, "count", "The node count is 0 or above 1,000."),
    (Reason::Kind, "kind", "The node's kind is unknown or not permitted there."),
    (Reason::Register, "register", "The register's number is 64 or more."),
    (Reason::Depth, "depth", "The node is at depth 65."),
    (Reason::Forks, "forks", "This is the sixteenth FORK."),
    (Reason::Length, "length", "The nodes or the bytes do not match the count."),
    (Reason::ShortTray, "short tray", "The output is shorter than the result."),
    (Reason::ForeignCode, "foreign code", "No accepted job compiles to this code."),
    (Reason::ForeignState, "foreign state", "The state does not fit the code."),
    (Reason::LongList, "long list", "There are more than 32,768 picks."),
    (Reason::LongTransaction, "long transaction", "The transaction has more than 200 nodes."),
    (Reason::NotAScript, "not a script", "No script goes on so from here."),
];

impl Reason {
    /// All of them, in the order of their numbers.
    pub fn all() -> impl Iterator<Item = Reason> {
        TABLE.iter().map(|&(reason, ..)| reason)
    }

    /// The reason that has this number, if one has.
    pub fn from_number(number: usize) -> Option<Reason> {
        let index = number.checked_sub(1)?;
        TABLE.get(index).map(|&(reason, ..)| reason)
    }

    /// The papers' number, from 1 on.
    pub fn number(self) -> u8 {
        self as u8
    }

    /// The trade's word.
    pub fn word(self) -> &'static str {
        self.row().1
    }

    /// A plain sentence.
    pub fn sentence(self) -> &'static str {
        self.row().2
    }

    /// Whether its place is a byte offset, in the job or the text. The place of the others is 0.
    pub fn has_place(self) -> bool {
        !matches!(self, Reason::ShortTray | Reason::ForeignCode | Reason::ForeignState | Reason::LongList)
    }

    fn row(self) -> (Reason, &'static str, &'static str) {
        TABLE[usize::from(self.number()) - 1]
    }
}

/// The trade's word.
impl fmt::Display for Reason {
    fn fmt(&self, f: &mut fmt::Formatter<'_>) -> fmt::Result {
        f.write_str(self.word())
    }
}

impl Refusal {
    /// The papers' number, from 1 on.
    pub fn number(self) -> u8 {
        self.reason.number()
    }

    /// The trade's word.
    pub fn word(self) -> &'static str {
        self.reason.word()
    }

    /// A plain sentence.
    pub fn sentence(self) -> &'static str {
        self.reason.sentence()
    }
}

/// Number, word, place and sentence.
impl fmt::Display for Refusal {
    fn fmt(&self, f: &mut fmt::Formatter<'_>) -> fmt::Result {
        write!(f, "refused {} ({}) at {}: {}", self.number(), self.word(), self.place, self.sentence())
    }
}

impl std::error::Error for Refusal {}
