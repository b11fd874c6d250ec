//! The cases of `exchanged`: lists of picks that differ by exchanges of neighbouring picks of different threads,
//! neither doing a FORK nor a commit that takes effect (document 02, No. 8). An idle pick counts as one of its number.

use super::{
    accepted, any_tree, contested, hex, make_up, picks, shown, swinging, tangled, Memory, Tally, AROUND, WHOLE,
};
use kuspigo::{Counts, Event, State, Step, Thread};
use plain::samples::{sum, Rng};
use plain::tree::Process;

pub const REACHES: [&str; 28] = [
    "start: fresh",
    "start: left by picks",
    "start: made up",
    "lists: no exchange",
    "lists: more than 20 exchanges",
    "lists: equal again",
    "lists: another order of turns",
    "exchanged: an idle pick and a step",
    "exchanged: two idle picks",
    "exchanged: an idle pick of a thread that has ended",
    "exchanged: a number of 16 or above",
    "exchanged: two numbers of 16 or above",
    "exchanged: two outside sums",
    "exchanged: a sum that left the range, outside",
    "exchanged: a sum that left the range, noted",
    "exchanged: READ and WRITE of one register",
    "exchanged: READ from the table and WRITE of that register",
    "exchanged: READ and READ of one register from the table",
    "exchanged: two WRITEs of one register",
    "exchanged: a send-back and another step",
    "exchanged: two send-backs",
    "exchanged: a BEGIN",
    "exchanged: a thread's last step",
    "exchanged: one pick over two others or more",
    "not allowed: a FORK, the ends differ",
    "not allowed: a FORK, the ends are equal",
    "not allowed: a commit, the ends differ",
    "not allowed: a commit, the ends are equal",
];

/// A list of picks on a state, some allowed exchanges in it, and the list that they leave: the same state and counts at
/// the end, by one call and by several, and each number sees the same in both; the plain implementation agrees on both.
/// And exchanges that are not allowed: some number does not see the same, whether or not the ends are equal.
pub fn exchanged(rng: &mut Rng, tally: &mut Tally) -> Result<(), String> {
    let tree = match rng.below(8) {
        0 => accepted(rng, any_tree),
        1 => contested(rng),
        2 => swinging(rng),
        3 => summing(rng),
        _ => tangled(rng),
    };
    let code = kuspigo::compile(&tree.job()).map_err(|refusal| refusal.to_string())?;
    let start = start(rng, tally, &code, tree.forks() + 1)?;
    let first = list(rng, &code, &start, tree.forks() + 1)?;
    let mut second = first.clone();
    let differs = |second: &[u8], what: String| Err(told(&code, &start, [&first, second], &what));
    let tries = rng.choose(&[4, 12, 40]);
    let exchanges = exchange(rng, tally, &code, &start, &mut second, tries)?;
    tally.add("exchanges", exchanges);
    tally.add("picks", first.len());
    tally.add_if(exchanges == 0, "lists: no exchange");
    tally.add_if(exchanges > 20, "lists: more than 20 exchanges");
    tally.add_if(exchanges > 0 && first == second, "lists: equal again");

    let ends = [ran(&code, &start, &first)?, ran(&code, &start, &second)?];
    if ends[0] != ends[1] {
        return differs(&second, format!("the counts {:?} and {:?}, or the states differ", ends[0].1, ends[1].1));
    }
    let [(steps, last), (others, others_last)] = [stepped(&code, &start, &first)?, stepped(&code, &start, &second)?];
    for (list, last) in [(&first, last), (&second, others_last)] {
        if last != ends[0].0 {
            return differs(&second, format!("single steps end otherwise: {}", hex(list)));
        }
        if in_calls(rng, &code, &start, list)? != ends[0] {
            return differs(&second, format!("several calls end otherwise: {}", hex(list)));
        }
        if plainly(&code, &start, list)? != ends[0] {
            return differs(&second, format!("the plain implementation ends otherwise: {}", hex(list)));
        }
    }
    if let Some(number) = sees_another(&steps, &others) {
        return differs(&second, format!("number {number} does not see the same"));
    }
    tally.add_if(!turns(&steps).eq(turns(&others)), "lists: another order of turns");

    not_allowed(rng, tally, &code, &start, &first, &steps, &ends[0])
}

/// What differs, for a reader, with the lists and the state to start from.
fn told(code: &[u8], start: &State, [first, second]: [&[u8]; 2], what: &str) -> String {
    let memory = Memory {
        registers: [&[0; AROUND][..], &start.registers].concat(),
        counts: [&[0; AROUND][..], &start.counts].concat(),
        threads: [&[Thread::ABSENT; AROUND][..], &start.threads].concat(),
    };
    let lists = format!("{what}\ncode {}\npicks {}\nbeside {}", hex(code), hex(first), hex(second));
    shown(&memory, WHOLE, lists)
}

/// The threads that took turns.
fn turns(steps: &[Done]) -> impl Iterator<Item = u8> + '_ {
    steps.iter().filter(|done| done.step.turn).map(|done| done.pick)
}

/// A state to start from.
fn start(rng: &mut Rng, tally: &mut Tally, code: &[u8], threads: usize) -> Result<State, String> {
    let mut state = State::fresh(code).map_err(|refusal| refusal.to_string())?;
    match rng.below(6) {
        0 | 1 => tally.add("start: fresh", 1),
        2 => {
            let made = make_up(rng, code);
            state = State { registers: made.registers, counts: made.counts, threads: made.threads };
            tally.add("start: made up", 1);
        }
        _ => {
            let count = rng.between(1, 40);
            let before = picks(rng, count, threads);
            state.run(code, &before).map_err(|refusal| refusal.to_string())?;
            tally.add("start: left by picks", 1);
        }
    }
    Ok(state)
}

/// Picks of any threads, or mostly of such as have not ended; some of no thread among them.
fn list(rng: &mut Rng, code: &[u8], start: &State, threads: usize) -> Result<Vec<u8>, String> {
    let count = rng.choose(&[2, 8, 16, 30, 60]);
    let mut list = match rng.one_in(2) {
        true => picks(rng, count, threads),
        false => {
            let mut state = start.clone();
            let mut list = Vec::new();
            for _ in 0..count {
                let open: Vec<u8> = state.open_threads().collect();
                let pick = match open.is_empty() || rng.one_in(16) {
                    true => rng.below(17) as u8,
                    false => rng.choose(&open),
                };
                let State { registers, counts, threads } = &mut state;
                plain::step(code, registers, counts, threads, pick).map_err(|refusal| refusal.to_string())?;
                list.push(pick);
            }
            list
        }
    };
    if rng.one_in(4) {
        for _ in 0..rng.below(6) {
            let at = rng.below(list.len());
            list[at] = rng.choose(&[9, 15, 16, 17, 255]);
        }
    }
    Ok(list)
}

/// Tries so many exchanges, each judged in the list as it then is; gives how many were allowed. A pick that was
/// exchanged often goes on.
fn exchange(
    rng: &mut Rng,
    tally: &mut Tally,
    code: &[u8],
    start: &State,
    list: &mut [u8],
    tries: usize,
) -> Result<usize, String> {
    let mut exchanges = 0;
    let mut at = rng.below(list.len() - 1);
    // the exchanges of one pick in a row, and their direction
    let (mut over, mut forward) = (0, true);
    for _ in 0..tries {
        if list[at] != list[at + 1] {
            let [left, right] = two(code, start, list, at)?;
            if !left.is_fixed() && !right.is_fixed() {
                list.swap(at, at + 1);
                exchanges += 1;
                over += 1;
                kinds(tally, code, [&left, &right]);
                tally.add_if(over == 2, "exchanged: one pick over two others or more");
                let next = if forward { Some(at + 1) } else { at.checked_sub(1) };
                if let Some(next) = next.filter(|next| next + 1 < list.len() && !rng.one_in(4)) {
                    at = next;
                    continue;
                }
            }
        }
        (over, forward) = (0, rng.one_in(2));
        at = rng.below(list.len() - 1);
    }
    Ok(exchanges)
}

/// What one pick did.
struct Done {
    pick: u8,
    step: Step,
    /// Where its thread stood.
    place: usize,
    /// Whether it is a sum that left the range and was noted.
    noted: bool,
    /// Whether its thread has then ended.
    ended: bool,
}

impl Done {
    fn of(code: &[u8], state: &mut State, pick: u8) -> Result<Done, String> {
        let i = usize::from(pick);
        let (place, over) = state.threads.get(i).map_or((0, 0), |thread| (thread.place, thread.over));
        let step = state.step(code, pick).map_err(|refusal| refusal.to_string())?;
        let thread = state.threads.get(i);
        let noted = step.event == Event::Sum && thread.is_some_and(|thread| thread.over > over);
        let ended = thread.is_some_and(|thread| thread.result().is_some());
        Ok(Done { pick, step, place, noted, ended })
    }

    fn is_fixed(&self) -> bool {
        matches!(self.step.event, Event::Fork | Event::Commit)
    }

    fn is_read(&self) -> bool {
        matches!(self.step.event, Event::ReadTable | Event::ReadReadLog | Event::ReadWriteLog)
    }

    /// The register that it reads or writes.
    fn register(&self, code: &[u8]) -> Option<u8> {
        (self.is_read() || self.step.event == Event::Write).then(|| code[self.place + 1])
    }
}

/// What the picks at a place and behind it do.
fn two(code: &[u8], start: &State, list: &[u8], at: usize) -> Result<[Done; 2], String> {
    let mut state = start.clone();
    state.run(code, &list[..at]).map_err(|refusal| refusal.to_string())?;
    Ok([Done::of(code, &mut state, list[at])?, Done::of(code, &mut state, list[at + 1])?])
}

/// What was exchanged.
fn kinds(tally: &mut Tally, code: &[u8], [left, right]: [&Done; 2]) {
    let both = |what: &dyn Fn(&Done) -> bool| what(left) && what(right);
    let one = |what: &dyn Fn(&Done) -> bool| what(left) || what(right);
    let is = |event: Event| move |done: &Done| done.step.event == event;
    let idle = is(Event::Idle);
    let same = left.register(code).is_some() && left.register(code) == right.register(code);
    let write = is(Event::Write);
    for (what, met) in [
        ("an idle pick and a step", one(&idle) && !both(&idle)),
        ("two idle picks", both(&idle)),
        ("an idle pick of a thread that has ended", one(&|done| idle(done) && done.ended)),
        ("a number of 16 or above", one(&|done| done.pick >= 16)),
        ("two numbers of 16 or above", both(&|done| done.pick >= 16)),
        ("two outside sums", both(&|done| done.step.event == Event::Sum && done.step.turn)),
        ("a sum that left the range, outside", one(&|done| done.step.event == Event::Sum && done.step.over > 0)),
        ("a sum that left the range, noted", one(&|done| done.noted)),
        ("READ and WRITE of one register", same && one(&Done::is_read) && one(&write)),
        ("READ from the table and WRITE of that register", same && one(&is(Event::ReadTable)) && one(&write)),
        ("READ and READ of one register from the table", same && both(&is(Event::ReadTable))),
        ("two WRITEs of one register", same && both(&write)),
        ("a send-back and another step", one(&is(Event::SentBack)) && !both(&is(Event::SentBack)) && !one(&idle)),
        ("two send-backs", both(&is(Event::SentBack))),
        ("a BEGIN", one(&is(Event::Begin))),
        ("a thread's last step", one(&|done| !idle(done) && done.ended)),
    ] {
        tally.add_if(met, &format!("exchanged: {what}"));
    }
}

/// With what a list ends: the state, and the counts of all calls.
type End = (State, Counts);

/// By one call.
fn ran(code: &[u8], start: &State, list: &[u8]) -> Result<End, String> {
    let mut state = start.clone();
    let counts = state.run(code, list).map_err(|refusal| refusal.to_string())?;
    Ok((state, counts))
}

fn plainly(code: &[u8], start: &State, list: &[u8]) -> Result<End, String> {
    let mut state = start.clone();
    let State { registers, counts, threads } = &mut state;
    let told = plain::run(code, registers, counts, threads, list).map_err(|refusal| refusal.to_string())?;
    Ok((state, told))
}

/// By several calls, runs and steps.
fn in_calls(rng: &mut Rng, code: &[u8], start: &State, list: &[u8]) -> Result<End, String> {
    let mut state = start.clone();
    let mut all = Counts::default();
    let mut left = list;
    while !left.is_empty() {
        let count = rng.below(left.len() + 1);
        let (now, rest) = left.split_at(count);
        let told = match now {
            &[pick] => {
                let step = state.step(code, pick).map_err(|refusal| refusal.to_string())?;
                let is = |event: Event| usize::from(step.event == event);
                let [idle, commits, back] = [Event::Idle, Event::Commit, Event::SentBack].map(is);
                Counts { steps: 1 - idle, idle, commits, back, over: step.over }
            }
            _ => state.run(code, now).map_err(|refusal| refusal.to_string())?,
        };
        all.steps += told.steps;
        all.idle += told.idle;
        all.commits += told.commits;
        all.back += told.back;
        all.over += told.over;
        left = rest;
    }
    Ok((state, all))
}

/// What each pick of a list did, and the state at the end.
fn stepped(code: &[u8], start: &State, list: &[u8]) -> Result<(Vec<Done>, State), String> {
    let mut state = start.clone();
    let done: Result<Vec<Done>, String> = list.iter().map(|&pick| Done::of(code, &mut state, pick)).collect();
    Ok((done?, state))
}

/// What a number sees: its own picks and every FORK and commit that took effect, with what they did and the sums that
/// they told.
fn seen_by(number: u8, steps: &[Done]) -> impl Iterator<Item = (u8, Step)> + '_ {
    steps.iter().filter(move |done| done.pick == number || done.is_fixed()).map(|done| (done.pick, done.step))
}

/// The first number, if there is one, that does not see the same in two lists.
fn sees_another(steps: &[Done], others: &[Done]) -> Option<u8> {
    (0..=255).find(|&number| !seen_by(number, steps).eq(seen_by(number, others)))
}

/// Exchanges a FORK with a neighbouring pick of another number, and a commit, and tells whether the ends differ.
fn not_allowed(
    rng: &mut Rng,
    tally: &mut Tally,
    code: &[u8],
    start: &State,
    list: &[u8],
    steps: &[Done],
    end: &End,
) -> Result<(), String> {
    for (event, name) in [(Event::Fork, "a FORK"), (Event::Commit, "a commit")] {
        let here = |at: &usize| {
            let events = [steps[*at].step.event, steps[at + 1].step.event];
            list[*at] != list[at + 1] && events.contains(&event)
        };
        let places: Vec<usize> = (0..list.len() - 1).filter(here).collect();
        if places.is_empty() {
            continue;
        }
        let at = rng.choose(&places);
        let mut other = list.to_vec();
        other.swap(at, at + 1);
        if sees_another(steps, &stepped(code, start, &other)?.0).is_none() {
            return Err(told(code, start, [list, &other], "every number sees the same"));
        }
        let ends = if ran(code, start, &other)? == *end { "are equal" } else { "differ" };
        tally.add(&format!("not allowed: {name}, the ends {ends}"), 1);
    }
    Ok(())
}

/// Threads that have sums outside transactions, near the ends of the range.
fn summing(rng: &mut Rng) -> Process {
    let several = |rng: &mut Rng| {
        let count = rng.between(2, 5);
        sum((0..count).map(|_| Process::Val(rng.far_number())).collect())
    };
    let mut parts = vec![several(rng)];
    for _ in 0..rng.between(1, 4) {
        parts.insert(0, Process::Fork(Box::new(several(rng))));
    }
    sum(parts)
}
