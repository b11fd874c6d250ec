//! A run from a fresh state, pick by pick: what the library's steps answer and what they change, in words.

use crate::script;
use kuspigo::{Event, RegisterSet, Rule, State, Step, Thread, MOST_PICKS};
use plain::samples::Rng;
use plain::Op;

/// The picks of a run.
#[derive(Clone)]
pub enum List {
    Given(Vec<u8>),
    /// Each thread that has not ended in its turn, up to the end of all.
    RoundRobin,
    /// One of them at random.
    Random(Rng),
}

impl List {
    pub fn random(seed: u64) -> List {
        List::Random(Rng::new(seed, 0, 0))
    }

    /// How many there are, where that is known before.
    pub fn length(&self) -> Option<usize> {
        match self {
            List::Given(picks) => Some(picks.len()),
            List::RoundRobin | List::Random(_) => None,
        }
    }
}

/// One pick.
pub struct Pick {
    /// The first one has the number 1.
    pub number: usize,
    pub thread: u8,
    /// The instruction that it did and its place; none if it was idle.
    pub did: Option<(usize, Op)>,
    pub step: Step,
    pub effect: Effect,
    /// The thread's result, if it has now ended.
    pub ended: Option<i32>,
    /// What changed, in words.
    pub change: String,
}

impl Pick {
    pub fn rule(&self) -> Rule {
        self.step.rule()
    }
}

/// What a picture marks.
#[derive(Clone, Copy, PartialEq, Eq)]
pub enum Effect {
    Idle,
    /// Nothing but the thread's own stack and logs.
    Own,
    Began,
    Forked {
        child: u8,
    },
    /// With the number of its BEGIN's pick.
    Committed {
        began: usize,
    },
    /// Likewise; the lowest stale register with its values in the read log and in the table, which may be equal.
    SentBack {
        began: usize,
        register: u8,
        read: i32,
        now: i32,
    },
}

pub struct Walk<'a> {
    code: &'a [u8],
    list: List,
    pub state: State,
    /// So many picks were done, and the last one was of this thread.
    done: usize,
    last: usize,
    /// For each thread the pick of its last BEGIN, and those at which registers entered its read log.
    began: [usize; 16],
    read: [[usize; 64]; 16],
    /// For each register the last commit that wrote it: its pick and thread.
    written: [Option<(usize, u8)>; 64],
}

impl<'a> Walk<'a> {
    /// From a fresh state of an accepted job's code.
    pub fn new(code: &'a [u8], list: List) -> Self {
        let state = State::fresh(code).expect("the library compiled this code");
        // round robin goes on behind the last thread, with thread 0
        Walk { code, list, state, done: 0, last: 15, began: [0; 16], read: [[0; 64]; 16], written: [None; 64] }
    }

    fn choose(&mut self) -> Option<u8> {
        if let List::Given(picks) = &self.list {
            return picks.get(self.done).copied();
        }
        let open: Vec<u8> = self.state.open_threads().collect();
        if open.is_empty() || self.done == MOST_PICKS {
            return None;
        }
        let chosen = match &mut self.list {
            List::Random(rng) => rng.choose(&open),
            _ => open.iter().copied().find(|&thread| usize::from(thread) > self.last).unwrap_or(open[0]),
        };
        Some(chosen)
    }

    /// Does a pick, and tells what it changed.
    fn take(&mut self, thread: u8) -> Pick {
        self.done += 1;
        self.last = usize::from(thread);
        let before = self.state.clone();
        let step = self.state.step(self.code, thread).expect("a state that the library left fits");
        let mut pick = Pick {
            number: self.done,
            thread,
            did: None,
            step,
            effect: Effect::Idle,
            ended: None,
            change: String::new(),
        };
        if step.event == Event::Idle {
            pick.change = match before.threads.get(self.last).is_some_and(Thread::exists) {
                true => format!("thread {thread} has ended"),
                false => format!("there is no thread {thread}"),
            };
            return pick;
        }
        let place = before.threads[self.last].place;
        let (op, _) = plain::decode(self.code, place).expect("a place that fits is at an instruction");
        pick.did = Some((place, op));
        (pick.effect, pick.change) = self.told(&before, step, op);
        pick.ended = self.state.threads[self.last].result();
        if let Some(result) = pick.ended {
            pick.change += &format!("; ends with {result}");
        }
        pick
    }

    /// What the last pick, which was not idle, changed.
    fn told(&mut self, before: &State, step: Step, op: Op) -> (Effect, String) {
        let number = self.last;
        let was = &before.threads[number];
        let is = &self.state.threads[number];
        let top = top(is);
        match (step.event, op) {
            (Event::Sum, _) => {
                let [left, right] = [was.cells[was.height - 2], was.cells[was.height - 1]];
                let range = match (step.over > 0, is.over > was.over) {
                    (true, _) => ", outside the 32-bit range: counted in over".to_string(),
                    (_, true) => format!(", outside the 32-bit range: noted, {} in this attempt", is.over),
                    _ => String::new(),
                };
                (Effect::Own, format!("{top} ({left} + {right}{range})"))
            }
            (Event::Fork, _) => {
                let mut threads = before.threads.iter().zip(&self.state.threads);
                let child = threads.position(|(was, is)| !was.exists() && is.exists()).expect("a FORK starts a thread");
                let start = self.state.threads[child].start;
                (Effect::Forked { child: child as u8 }, format!("{top}; starts thread {child} at {start}"))
            }
            (Event::Begin, _) => {
                self.began[number] = self.done;
                (Effect::Began, format!("notes place {} and height {}", is.begin, is.base))
            }
            (Event::ReadTable, Op::Read(register)) => {
                let at = usize::from(register);
                self.read[number][at] = self.done;
                (Effect::Own, format!("{top}; read log r{register} = {}", counted(is.readlog[at], is.readcounts[at])))
            }
            (Event::Write, Op::Write(register)) => {
                let at = usize::from(register);
                let old = match (RegisterSet { bits: was.writes }).contains(register) {
                    true => format!(", was {}", was.writelog[at]),
                    false => String::new(),
                };
                (Effect::Own, format!("write log r{register} = {}{old}", is.writelog[at]))
            }
            (Event::Commit, _) => {
                let mut words = Vec::new();
                for register in (RegisterSet { bits: was.writes }).iter() {
                    let at = usize::from(register);
                    self.written[at] = Some((self.done, number as u8));
                    let new = counted(self.state.registers[at], self.state.counts[at]);
                    words.push(format!("r{register} {} -> {new}", before.registers[at]));
                }
                if words.is_empty() {
                    words.push("writes no register".to_string());
                }
                let over = match step.over {
                    0 => String::new(),
                    over => format!("; over {over}"),
                };
                (Effect::Committed { began: self.began[number] }, words.join(", ") + &over)
            }
            (Event::SentBack, _) => {
                let register = step.stale.expect("a send-back names its register");
                let at = usize::from(register);
                let (read, now) = (was.readlog[at], before.registers[at]);
                let (when, whose) = self.written[at].expect("a commit wrote what is stale");
                let change = format!(
                    "r{register} read as {} at pick {}, written as {} by the commit of thread {whose} at pick {when}; \
                     back to BEGIN at {}, height {}, logs empty",
                    counted(read, was.readcounts[at]),
                    self.read[number][at],
                    counted(now, before.counts[at]),
                    is.place,
                    is.height
                );
                (Effect::SentBack { began: self.began[number], register, read, now }, change)
            }
            _ => (Effect::Own, top),
        }
    }
}

/// A register's value, and how often commits have written it, which decides whether it is stale.
pub fn counted(value: i32, count: u32) -> String {
    format!("{value} (count {count})")
}

/// The top of a thread's stack.
fn top(thread: &Thread) -> String {
    match thread.height {
        0 => "stack empty".to_string(),
        height => format!("top {}", thread.cells[height - 1]),
    }
}

impl Iterator for Walk<'_> {
    type Item = Pick;

    fn next(&mut self) -> Option<Pick> {
        let thread = self.choose()?;
        Some(self.take(thread))
    }
}

/// A pick in one line: its number and thread, what it did and changed.
pub fn sentence(pick: &Pick) -> String {
    let did = match pick.did {
        Some((place, op)) => format!("{} at {place}, {}", script::instruction(op), pick.rule()),
        None => "idle".to_string(),
    };
    format!("pick {}, thread {}: {did}: {}", pick.number, pick.thread, pick.change)
}
