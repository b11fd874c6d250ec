//! Whether a list of picks follows from another one by exchanges of neighbouring picks, as request No. 8 allows them.
//!
//! Two neighbouring picks may be exchanged if they are of different numbers and neither does a FORK or a commit that
//! takes effect: neither is *fixed*. Every pick does the same behind such an exchange as before it, so what the picks
//! of the first list do is all that is needed. A pick can come first in a list that follows exactly if none of its
//! number stands before it, none that is fixed does, and none at all if it is fixed itself; the rest of such a list
//! follows from what is left. Places are counted from 0.

/// A pick of the first list.
#[derive(Clone, Copy, PartialEq, Eq, Debug)]
pub struct Entry {
    pub number: u8,
    /// Whether it does a FORK or a commit that takes effect.
    pub fixed: bool,
}

/// What is found of the second list.
#[derive(Clone, PartialEq, Eq, Debug)]
pub enum Verdict {
    /// It follows: which pick of the first list each of its picks is, and how many exchanges are the fewest that lead
    /// to it.
    Follows { from: Vec<usize>, exchanges: u64 },
    /// It does not: no list that follows begins with its picks up to and with the one at this place. If that is the
    /// second list's length, some begin with all of it, and all are longer.
    Stops { at: usize, why: Why },
}

#[derive(Clone, Copy, PartialEq, Eq, Debug)]
pub enum Why {
    /// Nothing of the number is left of the first list.
    NoneLeft,
    /// The number's next pick in the first list stands behind another's that is fixed.
    BehindFixed { next: usize, fixed: usize },
    /// The number's next pick in the first list is fixed, and another's stands before it.
    FixedBehind { next: usize, before: usize },
    /// The second list ends, and something is left of the first.
    Ends,
}

/// Whether the second list follows from the first.
pub fn follow(first: &[Entry], second: &[u8]) -> Verdict {
    let mut left = Left::of(first);
    let mut from = Vec::with_capacity(second.len());
    for (at, &number) in second.iter().enumerate() {
        match left.take(number) {
            Ok(place) => from.push(place),
            Err(why) => return Verdict::Stops { at, why },
        }
    }
    match from.len() == first.len() {
        true => Verdict::Follows { exchanges: inversions(&from), from },
        false => Verdict::Stops { at: second.len(), why: Why::Ends },
    }
}

/// What is left of the first list when some picks of the second are found in it.
struct Left<'a> {
    first: &'a [Entry],
    taken: Vec<bool>,
    /// Nothing is left before this place.
    start: usize,
    /// The places of each number, and of the fixed ones, the next one last.
    places: Vec<Vec<usize>>,
    fixed: Vec<usize>,
}

impl Left<'_> {
    fn of(first: &[Entry]) -> Left<'_> {
        let mut places = vec![Vec::new(); 256];
        let mut fixed = Vec::new();
        for (place, entry) in first.iter().enumerate().rev() {
            places[usize::from(entry.number)].push(place);
            if entry.fixed {
                fixed.push(place);
            }
        }
        Left { first, taken: vec![false; first.len()], start: 0, places, fixed }
    }

    /// Takes the next pick of a number out, if it can come first in a list that follows from what is left.
    fn take(&mut self, number: u8) -> Result<usize, Why> {
        let places = &mut self.places[usize::from(number)];
        let &next = places.last().ok_or(Why::NoneLeft)?;
        if let Some(&fixed) = self.fixed.last().filter(|&&fixed| fixed < next) {
            return Err(Why::BehindFixed { next, fixed });
        }
        while self.taken[self.start] {
            self.start += 1;
        }
        if self.first[next].fixed {
            if self.start < next {
                return Err(Why::FixedBehind { next, before: self.start });
            }
            self.fixed.pop();
        }
        places.pop();
        self.taken[next] = true;
        Ok(next)
    }
}

/// How many pairs of a list of different places, all below its length, stand in falling order. An exchange of
/// neighbours makes one pair more or less.
fn inversions(list: &[usize]) -> u64 {
    // a tree of sums: entry i counts the places from i - (i & -i) up to i - 1 that have come
    let mut sums = vec![0_u64; list.len() + 1];
    let mut pairs = 0;
    for (come, &place) in (0..).zip(list) {
        let mut lower = 0;
        let mut i = place;
        while i > 0 {
            lower += sums[i];
            i &= i - 1;
        }
        pairs += come - lower;
        i = place + 1;
        while i < sums.len() {
            sums[i] += 1;
            i += i & i.wrapping_neg();
        }
    }
    pairs
}
