//! What `exchange` says of two lists.

use crate::exchange::{self, Entry, Verdict, Why};
use crate::progress::Progress;
use kuspigo::{Counts, Event, State, Step};
use plain::Op;

/// A list of picks, and with what it ends, from the fresh state.
pub struct Ran {
    /// Its file's name as messages have it.
    pub name: String,
    pub picks: Vec<u8>,
    pub state: State,
    pub counts: Counts,
}

/// What a pick did.
struct Did {
    thread: u8,
    /// Where its thread stood; of an idle pick nothing.
    place: usize,
    step: Step,
}

/// Whether the second list follows from the first, and the answer.
pub fn told(code: &[u8], [first, second]: &[Ran; 2]) -> (bool, String) {
    let dids = stepped(code, &first.picks);
    let entry = |did: &Did| Entry { number: did.thread, fixed: !did.step.event.is_free() };
    let entries: Vec<Entry> = dids.iter().map(entry).collect();
    match exchange::follow(&entries, &second.picks) {
        Verdict::Follows { from, exchanges } => {
            assert!(
                (&first.state, first.counts) == (&second.state, second.counts),
                "internal error: exchanges lead from {} to {}, and they do not end alike, which contradicts the proof",
                first.name,
                second.name
            );
            (true, yes([first, second], &dids, &from, exchanges))
        }
        Verdict::Stops { at, why } => (false, no(code, [first, second], &dids, at, why)),
    }
}

/// What each pick of a list did.
fn stepped(code: &[u8], picks: &[u8]) -> Vec<Did> {
    let mut state = State::fresh(code).expect("the library compiled this code");
    let mut progress = Progress::start(Some(picks.len()));
    let mut dids = Vec::with_capacity(picks.len());
    for &thread in picks {
        let place = state.threads.get(usize::from(thread)).map_or(0, |thread| thread.place);
        let step = state.step(code, thread).expect("a state that the library left fits");
        dids.push(Did { thread, place, step });
        progress.tick(dids.len());
    }
    dids
}

/// Of a list that follows, from which picks of the first.
fn yes([first, second]: [&Ran; 2], dids: &[Did], from: &[usize], exchanges: u64) -> String {
    let [a, b] = [&first.name, &second.name];
    let way = match exchanges {
        0 => "the lists are equal".to_string(),
        1 => "1 exchange of neighbouring picks leads to it".to_string(),
        _ => format!("{exchanges} exchanges of neighbouring picks lead to it, and no fewer do"),
    };
    let Counts { steps, idle, commits, back, over } = first.counts;
    // a pick does the same in both
    let turns: Vec<u8> = dids.iter().filter(|did| did.step.turn).map(|did| did.thread).collect();
    let others: Vec<u8> = from.iter().map(|&at| &dids[at]).filter(|did| did.step.turn).map(|did| did.thread).collect();
    let order = match turns.iter().zip(&others).position(|(turn, other)| turn != other) {
        None => "The order of turns is the same.".to_string(),
        Some(at) => format!(
            "The order of turns differs, since sums outside transactions have changed places:\n\
             turn {} is thread {}'s in {a}, and thread {}'s in {b}.",
            at + 1,
            turns[at],
            others[at]
        ),
    };
    format!(
        "{b} follows from {a}: {way}.\n\
         Each has {}, and both end in the same state with the same counts:\n\
         steps {steps} idle {idle} commits {commits} back {back} over {over}\n{order}\n",
        picks(first.picks.len())
    )
}

/// Of a list that does not follow.
fn no(code: &[u8], [first, second]: [&Ran; 2], dids: &[Did], at: usize, why: Why) -> String {
    let [a, b] = [&first.name, &second.name];
    let number = at + 1;
    let begins = match (why, number) {
        (Why::Ends, _) => "every list that follows is longer".to_string(),
        (_, 1) => "no list that follows begins with its first pick".to_string(),
        _ => format!("no list that follows begins with its first {number} picks"),
    };
    // its pick there, and the next one of the same thread in the first list
    let next = |place: usize| {
        let (thread, words) = (dids[place].thread, words(code, &dids[place]));
        format!(
            "Its pick {number} is of thread {thread}. The next one of thread {thread} in {a} is pick {}, {words}.",
            place + 1
        )
    };
    let other =
        |place: usize| format!("pick {} of thread {}, {}", place + 1, dids[place].thread, words(code, &dids[place]));
    let because = match why {
        Why::Ends => format!("It has {}, and {a} has {}.", picks(at), first.picks.len()),
        Why::NoneLeft if at == first.picks.len() => {
            format!("Its pick {number} is one too many: {a} has {}.", picks(at))
        }
        Why::NoneLeft => {
            let thread = second.picks[at];
            format!("Its pick {number} is of thread {thread}, and {a} has no further pick of thread {thread}.")
        }
        Why::BehindFixed { next: place, fixed } => {
            format!("{}\nIt stands behind {}, which is exchanged with no pick.", next(place), other(fixed))
        }
        Why::FixedBehind { next: place, before } => format!(
            "{}\nIt is exchanged with no pick, and {}, stands before it in {a} and not in {b}.",
            next(place),
            other(before)
        ),
    };
    let ends = match (first.state == second.state, first.counts == second.counts) {
        (true, true) => "in the same state with the same counts all the same",
        (true, false) => "in the same state with different counts",
        (false, _) => "in different states",
    };
    format!("{b} does not follow from {a}: {begins}.\n{because}\nThe two lists end {ends}.\n")
}

/// What a pick did, in words.
fn words(code: &[u8], did: &Did) -> String {
    if did.step.event == Event::Idle {
        return "which is idle".to_string();
    }
    let (op, _) = plain::decode(code, did.place).expect("a place that fits is at an instruction");
    match (op, did.step.event) {
        (Op::Push(n), _) => format!("a PUSH of {n}"),
        (Op::Add, _) if did.step.turn => "an ADD outside a transaction".to_string(),
        (Op::Add, _) => "an ADD in a transaction".to_string(),
        (Op::Read(register), Event::ReadWriteLog) => format!("a READ of r{register} from the write log"),
        (Op::Read(register), Event::ReadReadLog) => format!("a READ of r{register} from the read log"),
        (Op::Read(register), _) => format!("a READ of r{register} from the table"),
        (Op::Write(register), _) => format!("a WRITE of r{register}"),
        (Op::Begin, _) => "a BEGIN".to_string(),
        (Op::Commit, Event::Commit) => "a COMMIT that took effect".to_string(),
        (Op::Commit, _) => "a COMMIT that was sent back".to_string(),
        (Op::Fork(_), _) => "a FORK".to_string(),
    }
}

fn picks(count: usize) -> String {
    format!("{count} {}", if count == 1 { "pick" } else { "picks" })
}
