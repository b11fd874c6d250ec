//! `exchange`: on worked inputs, and beside a search through all exchanges of short lists.

use crate::support::{accepted, damaged, example, fed, folder, number_behind, put, refused, said, viewer, Said, KIND};
use exchange::{follow, Entry, Verdict, Why};
use kuspigo::{Event, State, Step};
use plain::samples::{sum, Lean, Rng, Shape};
use plain::tree::{Process, Transaction};
use std::collections::{BTreeMap, HashSet, VecDeque};
use std::path::Path;
use std::time::Instant;

/// The method, as the program has it.
#[path = "../../src/exchange.rs"]
mod exchange;

/// What the program says of two lists and a formula.
fn asked(here: &Path, text: &str, first: &[u8], second: &[u8]) -> Said {
    put(here, "a.picks", first);
    put(here, "b.picks", second);
    said(here, &["exchange", "--text", text, "--picks", "a.picks", "--with", "b.picks"])
}

const SAME_ORDER: &str = "The order of turns is the same.\n";

fn follows(way: &str, picks: &str, counts: &str, order: &str) -> Said {
    accepted(&format!(
        "b.picks follows from a.picks: {way}.\n\
         Each has {picks}, and both end in the same state with the same counts:\n{counts}\n{order}"
    ))
}

fn one_exchange(picks: &str, counts: &str, order: &str) -> Said {
    follows("1 exchange of neighbouring picks leads to it", picks, counts, order)
}

fn stops(begins: &str, because: &str, ends: &str) -> Said {
    let out = format!("b.picks does not follow from a.picks: {begins}.\n{because}\nThe two lists end {ends}.\n");
    refused(&out, "")
}

const SAME_ENDS: &str = "in the same state with the same counts all the same";
const OTHER_COUNTS: &str = "in the same state with different counts";
const OTHER_STATES: &str = "in different states";

/// Two threads with a sum outside transactions each.
const TWO_SUMS: &str = "fork (1 + 2) + (3 + 4)";
/// Thread 1 writes r0, and goes on; thread 0 reads it.
const WRITER_AND_READER: &str = "fork (atomic(r0 := 5) + 6) + atomic(r0)";

#[test]
fn the_whole_case_exchanged() {
    let here = folder("exchanged");
    let arguments = ["exchange", "whole.job", "--picks", "whole.picks", "--with", "whole.exchanged.picks"];
    let expected = "\
whole.exchanged.picks follows from whole.picks: 8 exchanges of neighbouring picks lead to it, and no fewer do.
Each has 21 picks, and both end in the same state with the same counts:
steps 21 idle 0 commits 2 back 1 over 0
The order of turns is the same.
";
    assert_eq!(said(&here, &arguments), accepted(expected));
    let backwards = ["exchange", "--with=whole.picks", "--picks=whole.exchanged.picks", "whole.job"];
    let names =
        expected.replace("whole.exchanged", "x").replace("whole.p", "whole.exchanged.p").replace("x.p", "whole.p");
    assert_eq!(said(&here, &backwards), accepted(&names));
    // the file of either list may be standard input
    let [first, second] = [example("whole.picks"), example("whole.exchanged.picks")];
    for (arguments, input, name) in [
        (["exchange", "whole.job", "--picks", "-", "--with", "whole.exchanged.picks"], first, "whole.picks"),
        (["exchange", "whole.job", "--picks", "whole.picks", "--with", "-"], second, "whole.exchanged.picks"),
    ] {
        let piped = fed(viewer().current_dir(&here).args(arguments), &input);
        let expected = expected.replace(&format!("{name} follows"), "standard input follows");
        let expected = expected.replace(&format!("from {name}"), "from standard input");
        assert_eq!(piped, accepted(&expected));
    }
    // and that of the job
    let job = fed(viewer().current_dir(&here).args(["exchange", "-"]).args(&arguments[2..]), &example("whole.job"));
    assert_eq!(job, accepted(expected));
}

#[test]
fn lists_that_follow() {
    let here = folder("follow");
    // two outside sums
    let order = "\
The order of turns differs, since sums outside transactions have changed places:
turn 2 is thread 0's in a.picks, and thread 1's in b.picks.
";
    let counts = "steps 7 idle 0 commits 0 back 0 over 0";
    let told = asked(&here, TWO_SUMS, &[0, 1, 1, 0, 0, 0, 1], &[0, 1, 1, 0, 0, 1, 0]);
    assert_eq!(told, one_exchange("7 picks", counts, order));
    // both sums behind the other thread's numbers: the same order
    let told = asked(&here, TWO_SUMS, &[0, 1, 1, 1, 0, 0, 0], &[0, 0, 1, 1, 0, 1, 0]);
    let four = "4 exchanges of neighbouring picks lead to it, and no fewer do";
    assert_eq!(told, follows(four, "7 picks", counts, "The order of turns is the same.\n"));
    // 1 over 2 and then over 3
    let told = asked(&here, "fork 1 + fork 2 + fork 3", &[0, 0, 0, 0, 1, 2, 3], &[0, 0, 0, 0, 2, 3, 1]);
    let two = "2 exchanges of neighbouring picks lead to it, and no fewer do";
    assert_eq!(told, follows(two, "7 picks", "steps 7 idle 0 commits 0 back 0 over 0", SAME_ORDER));

    // READ beside WRITE of one register, either way
    let counts = "steps 6 idle 0 commits 0 back 0 over 0";
    for lists in [[[0, 0, 1, 1, 0, 1], [0, 0, 1, 1, 1, 0]], [[0, 0, 1, 1, 1, 0], [0, 0, 1, 1, 0, 1]]] {
        let told = asked(&here, WRITER_AND_READER, &lists[0], &lists[1]);
        assert_eq!(told, one_exchange("6 picks", counts, SAME_ORDER));
    }
    // a send-back beside a PUSH, either way
    let counts = "steps 9 idle 0 commits 1 back 1 over 0";
    for lists in [
        [[0, 0, 0, 1, 1, 1, 1, 0, 1], [0, 0, 0, 1, 1, 1, 1, 1, 0]],
        [[0, 0, 0, 1, 1, 1, 1, 1, 0], [0, 0, 0, 1, 1, 1, 1, 0, 1]],
    ] {
        let told = asked(&here, WRITER_AND_READER, &lists[0], &lists[1]);
        assert_eq!(told, one_exchange("9 picks", counts, SAME_ORDER));
    }
    // a sum that leaves the range, and one noted
    let text = "fork (2147483647 + 1) + atomic(2147483647 + 1)";
    let told = asked(&here, text, &[0, 1, 1, 0, 0, 0, 1, 0, 0, 0], &[0, 1, 1, 0, 0, 0, 0, 1, 0, 0]);
    assert_eq!(told, one_exchange("10 picks", "steps 10 idle 0 commits 1 back 0 over 2", SAME_ORDER));

    // idle picks: of no thread beside a step and beside one that has ended, of two numbers of no thread
    let told = asked(&here, "7", &[9, 0], &[0, 9]);
    assert_eq!(told, one_exchange("2 picks", "steps 1 idle 1 commits 0 back 0 over 0", SAME_ORDER));
    let told = asked(&here, "7", &[0, 0, 9], &[0, 9, 0]);
    assert_eq!(told, one_exchange("3 picks", "steps 1 idle 2 commits 0 back 0 over 0", SAME_ORDER));
    let told = asked(&here, "7", &[0, 16, 17, 255], &[255, 17, 16, 0]);
    let six = "6 exchanges of neighbouring picks lead to it, and no fewer do";
    assert_eq!(told, follows(six, "4 picks", "steps 1 idle 3 commits 0 back 0 over 0", SAME_ORDER));
    // all of them idle, which may be by mistake
    let hint = |name| format!("kuspigo: {name}: every pick is idle; its bytes are the threads' numbers\n");
    let told = asked(&here, "7", &[16, 17], &[17, 16]);
    let expected = one_exchange("2 picks", "steps 0 idle 2 commits 0 back 0 over 0", SAME_ORDER);
    assert_eq!(told, Said { err: hint("a.picks") + &hint("b.picks"), ..expected });

    // equal lists
    for (list, picks, counts) in [
        (&[][..], "0 picks", "steps 0 idle 0 commits 0 back 0 over 0"),
        (&[0], "1 pick", "steps 1 idle 0 commits 0 back 0 over 0"),
        (&[5, 5, 0], "3 picks", "steps 1 idle 2 commits 0 back 0 over 0"),
    ] {
        assert_eq!(asked(&here, "7", list, list), follows("the lists are equal", picks, counts, SAME_ORDER));
    }
}

#[test]
fn lists_that_do_not_follow() {
    let here = folder("stop");
    // a pick before another's FORK: of the child, and of a thread that is there
    let told = asked(&here, "fork 1 + fork 2", &[0, 1, 0], &[1, 0, 0]);
    let because = "\
Its pick 1 is of thread 1. The next one of thread 1 in a.picks is pick 2, a PUSH of 1.
It stands behind pick 1 of thread 0, a FORK, which is exchanged with no pick.";
    let first = "no list that follows begins with its first pick";
    assert_eq!(told, stops(first, because, OTHER_STATES));
    let told = asked(&here, "fork 1 + fork 2", &[0, 0, 1], &[0, 1, 0]);
    let because = "\
Its pick 2 is of thread 1. The next one of thread 1 in a.picks is pick 3, a PUSH of 1.
It stands behind pick 2 of thread 0, a FORK, which is exchanged with no pick.";
    let begins = |number: usize| format!("no list that follows begins with its first {number} picks");
    assert_eq!(told, stops(&begins(2), because, SAME_ENDS));
    // a FORK before another's pick
    let told = asked(&here, "fork 1 + fork 2", &[0, 1, 0], &[0, 0, 1]);
    let because = "\
Its pick 2 is of thread 0. The next one of thread 0 in a.picks is pick 3, a FORK.
It is exchanged with no pick, and pick 2 of thread 1, a PUSH of 1, stands before it in a.picks and not in b.picks.";
    assert_eq!(told, stops(&begins(2), because, SAME_ENDS));
    // two FORKs
    let told = asked(&here, "fork fork 1 + fork 2", &[0, 1, 0], &[0, 0, 1]);
    let because = "\
Its pick 2 is of thread 0. The next one of thread 0 in a.picks is pick 3, a FORK.
It stands behind pick 2 of thread 1, a FORK, which is exchanged with no pick.";
    assert_eq!(told, stops(&begins(2), because, OTHER_STATES));
    // also an idle pick
    let told = asked(&here, "fork 1", &[9, 0], &[0, 9]);
    let because = "\
Its pick 1 is of thread 0. The next one of thread 0 in a.picks is pick 2, a FORK.
It is exchanged with no pick, and pick 1 of thread 9, which is idle, stands before it in a.picks and not in b.picks.";
    assert_eq!(told, stops(first, because, SAME_ENDS));
    let told = asked(&here, "fork 1", &[0, 9], &[9, 0]);
    let because = "\
Its pick 1 is of thread 9. The next one of thread 9 in a.picks is pick 2, which is idle.
It stands behind pick 1 of thread 0, a FORK, which is exchanged with no pick.";
    assert_eq!(told, stops(first, because, SAME_ENDS));

    // a commit before another's READ, and a READ before another's commit
    let told = asked(&here, WRITER_AND_READER, &[0, 0, 1, 1, 0, 1, 1], &[0, 0, 1, 1, 1, 1, 0]);
    let because = "\
Its pick 6 is of thread 1. The next one of thread 1 in a.picks is pick 7, a COMMIT that took effect.
It is exchanged with no pick, and pick 5 of thread 0, a READ of r0 from the table, stands before it in a.picks \
        and not in b.picks.";
    assert_eq!(told, stops(&begins(6), because, OTHER_STATES));
    let told = asked(&here, WRITER_AND_READER, &[0, 0, 1, 1, 1, 1, 0], &[0, 0, 1, 1, 1, 0, 1]);
    let because = "\
Its pick 6 is of thread 0. The next one of thread 0 in a.picks is pick 7, a READ of r0 from the table.
It stands behind pick 6 of thread 1, a COMMIT that took effect, which is exchanged with no pick.";
    assert_eq!(told, stops(&begins(6), because, OTHER_STATES));
    // a send-back before the commit that made it one
    let told = asked(&here, WRITER_AND_READER, &[0, 0, 0, 1, 1, 1, 1, 0], &[0, 0, 0, 1, 1, 1, 0, 1]);
    let because = "\
Its pick 7 is of thread 0. The next one of thread 0 in a.picks is pick 8, a COMMIT that was sent back.
It stands behind pick 7 of thread 1, a COMMIT that took effect, which is exchanged with no pick.";
    assert_eq!(told, stops(&begins(7), because, OTHER_STATES));

    // a thread that the first list does not pick, or not as often
    let told = asked(&here, WRITER_AND_READER, &[0, 0, 1], &[0, 9, 1]);
    let because = "Its pick 2 is of thread 9, and a.picks has no further pick of thread 9.";
    assert_eq!(told, stops(&begins(2), because, OTHER_STATES));
    let told = asked(&here, WRITER_AND_READER, &[0, 0, 1], &[0, 1, 1]);
    let because = "Its pick 3 is of thread 1, and a.picks has no further pick of thread 1.";
    assert_eq!(told, stops(&begins(3), because, OTHER_STATES));

    // shorter and longer, the rest being exchanged
    let told = asked(&here, "7", &[0, 9, 9, 9], &[9, 0, 9]);
    let longer = "every list that follows is longer";
    assert_eq!(told, stops(longer, "It has 3 picks, and a.picks has 4.", OTHER_COUNTS));
    let told = asked(&here, "7", &[0], &[]);
    assert_eq!(told, stops(longer, "It has 0 picks, and a.picks has 1.", OTHER_STATES));
    let told = asked(&here, "7", &[0, 9, 9], &[9, 0, 9, 0]);
    assert_eq!(told, stops(&begins(4), "Its pick 4 is one too many: a.picks has 3 picks.", OTHER_COUNTS));
    let told = asked(&here, "7", &[], &[0]);
    assert_eq!(told, stops(first, "Its pick 1 is one too many: a.picks has 0 picks.", OTHER_STATES));
    // shorter or longer, and another reason first
    let told = asked(&here, "7", &[0, 9, 9, 9], &[9, 0, 0]);
    let because = "Its pick 3 is of thread 0, and a.picks has no further pick of thread 0.";
    assert_eq!(told, stops(&begins(3), because, OTHER_COUNTS));
    let told = asked(&here, "7", &[0, 9], &[9, 9, 0, 0]);
    let because = "Its pick 2 is of thread 9, and a.picks has no further pick of thread 9.";
    assert_eq!(told, stops(&begins(2), because, OTHER_COUNTS));
    // the answer is on standard output, a hint on standard error
    let told = asked(&here, "7", &[0], b"0");
    let because = "Its pick 1 is of thread 48, and a.picks has no further pick of thread 48.";
    let err = "kuspigo: b.picks: every pick is idle; its bytes are the threads' numbers\n".to_string();
    assert_eq!(told, Said { err, ..stops(first, because, OTHER_STATES) });
}

/// What stands before a FORK, in words, with each instruction and rule.
#[test]
fn what_a_pick_did() {
    let here = folder("words of picks");
    let text = "fork (atomic((r0 + r0) + ((r1 := 3) + r1)) + 4) + fork 1";
    let words = [
        "a BEGIN",
        "a READ of r0 from the table",
        "a READ of r0 from the read log",
        "an ADD in a transaction",
        "a PUSH of 3",
        "a WRITE of r1",
        "a READ of r1 from the write log",
        "an ADD in a transaction",
        "an ADD in a transaction",
        "a COMMIT that took effect",
        "a PUSH of 4",
        "an ADD outside a transaction",
        "which is idle",
    ];
    for (done, words) in words.into_iter().enumerate() {
        let before = [vec![0], vec![1; done]].concat();
        let told = asked(&here, text, &[&before[..], &[1, 0]].concat(), &[&before[..], &[0, 1]].concat());
        let pick = done + 2;
        let next = format!("The next one of thread 0 in a.picks is pick {}, a FORK.", pick + 1);
        let reason = match words.contains("COMMIT") {
            true => format!("It stands behind pick {pick} of thread 1, {words}, which is exchanged with no pick."),
            false => format!(
                "It is exchanged with no pick, and pick {pick} of thread 1, {words}, stands before it in a.picks \
                 and not in b.picks."
            ),
        };
        let because = format!("Its pick {pick} is of thread 0. {next}\n{reason}");
        let begins = format!("no list that follows begins with its first {pick} picks");
        // the FORK and the pick have nothing to do with each other
        assert_eq!(told, stops(&begins, &because, SAME_ENDS));
    }
}

/// That it is not proved, and its status.
#[test]
fn what_its_help_says() {
    let help = said(&folder("help of exchange"), &["exchange", "--help"]).out;
    for words in [
        "\nA and B are files of picks, ",
        "the status is 0: ",
        "the status is 1, ",
        "is not proved.",
        "guarantee/specs/Exchanges",
        "\nJOB is one of\n",
    ] {
        assert!(help.contains(words), "{words}");
    }
    assert!(!help.contains("--round-robin"));
}

#[test]
fn what_is_refused() {
    let here = folder("refused lists");
    put(&here, "kind.job", &damaged(12, 1));
    put(&here, "long.picks", &[0; 32_769]);
    put(&here, "none.picks", &[]);
    let long = "kuspigo: long.picks: refused 13 (long list) at 0: There are more than 32,768 picks.\n";
    for lists in [["long.picks", "none.picks"], ["none.picks", "long.picks"], ["long.picks", "long.picks"]] {
        let [first, second] = lists;
        let with = ["--picks", first, "--with", second];
        assert_eq!(said(&here, &[&["exchange", "whole.job"], &with[..]].concat()), refused("", long), "{lists:?}");
        // the job comes first
        assert_eq!(said(&here, &[&["exchange", "kind.job"], &with[..]].concat()), refused("", KIND), "{lists:?}");
    }
    for (first, second) in [("missing.picks", "whole.picks"), ("whole.picks", "missing.picks"), ("whole.picks", ".")] {
        let failed = said(&here, &["exchange", "whole.job", "--picks", first, "--with", second]);
        let name = if first == "whole.picks" { second } else { first };
        assert!(failed.err.starts_with(&format!("kuspigo: {name}: ")), "{}", failed.err);
        assert_eq!((failed.out.as_str(), failed.err.lines().count(), failed.status), ("", 1, 1));
    }
}

/// A list of picks from the fresh state, as the method takes it.
fn entries(code: &[u8], picks: &[u8]) -> Vec<Entry> {
    let steps = stepped(code, &State::fresh(code).unwrap(), picks);
    picks.iter().zip(&steps).map(|(&number, step)| Entry { number, fixed: is_fixed(step) }).collect()
}

fn stepped(code: &[u8], state: &State, picks: &[u8]) -> Vec<Step> {
    let mut state = state.clone();
    picks.iter().map(|&pick| state.step(code, pick).unwrap()).collect()
}

fn is_fixed(step: &Step) -> bool {
    matches!(step.event, Event::Fork | Event::Commit)
}

/// Every list that follows from a list of picks on a state, with how many exchanges lead to it at least: by exchanging
/// neighbours again and again, what they do being judged by steps in each list.
fn search(code: &[u8], state: &State, picks: &[u8]) -> BTreeMap<Vec<u8>, u64> {
    let mut found = BTreeMap::from([(picks.to_vec(), 0)]);
    let mut open = VecDeque::from([picks.to_vec()]);
    while let Some(list) = open.pop_front() {
        let exchanges = found[&list];
        let steps = stepped(code, state, &list);
        for at in 1..list.len() {
            let [left, right] = [at - 1, at];
            if list[left] == list[right] || is_fixed(&steps[left]) || is_fixed(&steps[right]) {
                continue;
            }
            let mut other = list.clone();
            other.swap(left, right);
            if !found.contains_key(&other) {
                found.insert(other.clone(), exchanges + 1);
                open.push_back(other);
            }
        }
    }
    found
}

/// All orders of some picks, each once.
fn orders(picks: &[u8]) -> Vec<Vec<u8>> {
    let mut left = picks.to_vec();
    left.sort();
    let mut all = Vec::new();
    arrange(&left, &mut Vec::new(), &mut all);
    all
}

fn arrange(left: &[u8], begun: &mut Vec<u8>, all: &mut Vec<Vec<u8>>) {
    if left.is_empty() {
        all.push(begun.clone());
    }
    for at in 0..left.len() {
        if at > 0 && left[at] == left[at - 1] {
            continue;
        }
        begun.push(left[at]);
        arrange(&[&left[..at], &left[at + 1..]].concat(), begun, all);
        begun.pop();
    }
}

/// Which pick of its number one is, of those up to it.
fn rank(picks: &[u8], at: usize) -> usize {
    picks[..at].iter().filter(|&&pick| pick == picks[at]).count()
}

/// Whether a reason is true of the second list's pick at a place, the ones before it being found.
fn is_true(first: &[Entry], second: &[u8], at: usize, why: Why) -> bool {
    let numbers: Vec<u8> = first.iter().map(|entry| entry.number).collect();
    let had = |place: usize| {
        let so_far = second[..at].iter().filter(|&&pick| pick == numbers[place]).count();
        rank(&numbers, place) < so_far
    };
    let left: Vec<usize> = (0..first.len()).filter(|&place| !had(place)).collect();
    if why == Why::Ends {
        return at == second.len() && !left.is_empty();
    }
    let next = left.iter().copied().find(|&place| numbers[place] == second[at]);
    let first_fixed = left.iter().copied().find(|&place| first[place].fixed);
    match why {
        Why::NoneLeft => next.is_none(),
        Why::BehindFixed { next: place, fixed } => {
            next == Some(place) && first_fixed == Some(fixed) && fixed < place && numbers[fixed] != second[at]
        }
        Why::FixedBehind { next: place, before } => {
            next == Some(place) && first_fixed == Some(place) && left[0] == before && before < place
        }
        Why::Ends => unreachable!(),
    }
}

/// A small job with transactions, sums and FORKs.
fn small_tree(rng: &mut Rng) -> Process {
    if rng.one_in(3) {
        let nodes = rng.between(3, 16);
        return Shape { nodes, room: 20, forks: 4, transaction: 4, registers: 2, lean: Lean::Any }.tree(rng);
    }
    // short transactions on one register
    let one = |rng: &mut Rng| {
        Process::Atomic(Box::new(match rng.below(3) {
            0 => Transaction::Read(0),
            1 => Transaction::Write(0, Box::new(Transaction::Val(1))),
            _ => Transaction::Write(0, Box::new(Transaction::Read(0))),
        }))
    };
    let mut parts = vec![one(rng)];
    for _ in 0..rng.between(1, 3) {
        let child = match rng.below(3) {
            0 => Process::Add(Box::new(Process::Val(i32::MAX)), Box::new(Process::Val(1))),
            1 => one(rng),
            _ => Process::Add(Box::new(one(rng)), Box::new(one(rng))),
        };
        parts.insert(0, Process::Fork(Box::new(child)));
    }
    sum(parts)
}

/// Picks of a job from its fresh state up to a FORK or a commit, or none; and up to seven behind them, which no exchange
/// brings before it.
fn small_list(rng: &mut Rng, code: &[u8]) -> (Vec<u8>, Vec<u8>) {
    let mut state = State::fresh(code).unwrap();
    let mut picks = Vec::new();
    let mut starts = vec![0];
    for _ in 0..rng.between(7, 40) {
        let open: Vec<u8> = state.open_threads().collect();
        let pick = match rng.below(16) {
            0 => rng.choose(&[9, 15, 16, 17, 255]),
            1 => rng.below(4) as u8,
            _ if open.is_empty() => rng.below(4) as u8,
            _ => rng.choose(&open),
        };
        picks.push(pick);
        if is_fixed(&state.step(code, pick).unwrap()) {
            starts.push(picks.len());
        }
    }
    let mut behind = picks.split_off(rng.choose(&starts));
    behind.truncate(rng.choose(&[3, 5, 6, 7, 7]));
    (picks, behind)
}

/// The method, and the program on some of them, for every order of the picks of short lists and for lists that are
/// shorter, longer or of other picks: which follow, by how many exchanges at least, and up to which pick some list that
/// follows begins with them.
#[test]
fn every_order_beside_a_search() {
    let here = folder("orders");
    let started = Instant::now();
    let mut tally: BTreeMap<String, usize> = BTreeMap::new();
    let mut add = |what: &str| *tally.entry(what.to_string()).or_default() += 1;
    for case in 0..1_000 {
        let mut rng = Rng::new(20, 8, case);
        let tree = small_tree(&mut rng);
        let code = kuspigo::compile(&tree.job()).unwrap();
        let (start, picks) = small_list(&mut rng, &code);
        let mut state = State::fresh(&code).unwrap();
        state.run(&code, &start).unwrap();
        for step in stepped(&code, &state, &picks) {
            add(&format!("{:?}{}", step.event, if step.turn { ", a turn" } else { "" }));
        }
        let found = search(&code, &state, &picks);
        let begun: HashSet<&[u8]> =
            found.keys().flat_map(|list| (0..=list.len()).map(move |length| &list[..length])).collect();
        let first = entries(&code, &[&start[..], &picks].concat());
        let mut others = orders(&picks);
        for _ in 0..20 {
            let mut other = rng.choose(&others.iter().collect::<Vec<_>>()).clone();
            match rng.below(3) {
                0 => other.truncate(rng.below(other.len() + 1)),
                1 => other.push(rng.below(5) as u8),
                _ if other.is_empty() => {}
                _ => {
                    let at = rng.below(other.len());
                    other[at] = rng.choose(&[0, 1, 2, 9, 16]);
                }
            }
            others.push(other);
        }
        put(&here, "job", &tree.job());
        put(&here, "a.picks", &[&start[..], &picks].concat());
        for other in &others {
            let second = [&start[..], other].concat();
            let stop = (1..=other.len()).find(|&length| !begun.contains(&other[..length]));
            let context = || format!("case {case}: {} as {start:?} {picks:?} beside {other:?}", tree.job().len());
            let verdict = follow(&first, &second);
            match (&verdict, stop) {
                (Verdict::Stops { at, why }, Some(length)) => {
                    assert_eq!(*at, start.len() + length - 1, "{}", context());
                    assert!(is_true(&first, &second, *at, *why), "{}: {why:?}", context());
                    add(match why {
                        Why::NoneLeft => "stops: none left",
                        Why::BehindFixed { .. } => "stops: behind a fixed one",
                        Why::FixedBehind { .. } => "stops: fixed, and behind another",
                        Why::Ends => panic!("{}", context()),
                    });
                }
                (Verdict::Stops { at, why }, None) => {
                    assert!(*why == Why::Ends && is_true(&first, &second, *at, *why), "{}", context());
                    assert!(other.len() < picks.len(), "{}", context());
                    add("stops: ends");
                }
                (Verdict::Follows { from, exchanges }, _) => {
                    assert_eq!(Some(exchanges), found.get(other), "{}", context());
                    let mut places = from.clone();
                    places.sort();
                    assert!(places.into_iter().eq(0..first.len()), "{}", context());
                    assert!(second.iter().zip(from).all(|(&pick, &at)| first[at].number == pick), "{}", context());
                    add(if *exchanges == 0 { "follows: equal" } else { "follows" });
                }
            }
            // the program on one or two of them
            if !rng.one_in(others.len()) {
                continue;
            }
            put(&here, "b.picks", &second);
            let told = said(&here, &["exchange", "job", "--picks", "a.picks", "--with", "b.picks"]);
            add(&format!("asked: {}", told.status));
            let line = told.out.lines().next().expect("there is an answer");
            match (verdict, stop) {
                (Verdict::Follows { exchanges: 0, .. }, _) => assert!(line.ends_with(": the lists are equal.")),
                (Verdict::Follows { exchanges, .. }, _) => {
                    assert_eq!((number_behind(line, "a.picks: "), told.status), (exchanges as i64, 0), "{}", context());
                }
                (_, None) => assert!(line.ends_with(": every list that follows is longer."), "{}", context()),
                (_, Some(1)) if start.is_empty() => assert!(line.ends_with(" begins with its first pick.")),
                (_, Some(length)) => {
                    let place = number_behind(line, "begins with its first ");
                    assert_eq!((place, told.status), ((start.len() + length) as i64, 1), "{}", context());
                }
            }
        }
        assert_eq!(orders(&picks).iter().filter(|order| found.contains_key(*order)).count(), found.len());
        add(if found.len() > 20 { "lists: many follow" } else { "lists: some follow" });
    }
    println!("{tally:#?} in {:?}", started.elapsed());
    for (what, least) in [
        ("Fork, a turn", 50),
        ("Commit, a turn", 50),
        ("SentBack", 20),
        ("Sum, a turn", 50),
        ("ReadTable", 50),
        ("Write", 50),
        ("Idle", 100),
        ("follows", 5_000),
        ("stops: none left", 500),
        ("stops: behind a fixed one", 5_000),
        ("stops: fixed, and behind another", 2_000),
        ("stops: ends", 500),
        ("lists: many follow", 50),
        ("asked: 0", 50),
        ("asked: 1", 50),
    ] {
        assert!(tally.get(what).is_some_and(|&times| times >= least), "{what}");
    }
}

/// The method as it is said, without any care for time.
fn follow_slowly(first: &[Entry], second: &[u8]) -> Option<u64> {
    let mut left = first.to_vec();
    let mut exchanges = 0;
    for &number in second {
        let at = left.iter().position(|entry| entry.number == number || entry.fixed)?;
        if left[at].number != number || left[at].fixed && at > 0 {
            return None;
        }
        left.remove(at);
        exchanges += at as u64;
    }
    left.is_empty().then_some(exchanges)
}

#[test]
fn longer_lists() {
    let (mut follows, mut stops) = (0, 0);
    for case in 0..2_000 {
        let mut rng = Rng::new(20, 9, case);
        let length = rng.below(rng.clone().choose(&[5, 40, 300]));
        let numbers = rng.choose(&[1, 3, 16, 256]);
        let fixed = rng.choose(&[2, 20, 1_000]);
        let first: Vec<Entry> =
            (0..length).map(|_| Entry { number: rng.below(numbers) as u8, fixed: rng.one_in(fixed) }).collect();
        let mut list = first.clone();
        for _ in 0..rng.below(2_000) {
            let at = rng.below(length.max(1));
            if let [left, right, ..] = list[at..] {
                if left.number != right.number && !left.fixed && !right.fixed {
                    list.swap(at, at + 1);
                }
            }
        }
        // one more, which may not be allowed
        if rng.one_in(2) && length > 1 {
            let [left, right] = [rng.below(length), rng.below(length)];
            list.swap(left, right);
        }
        let second: Vec<u8> = list.iter().map(|entry| entry.number).collect();
        match (follow(&first, &second), follow_slowly(&first, &second)) {
            (Verdict::Follows { exchanges, .. }, Some(slowly)) => {
                assert_eq!(exchanges, slowly, "case {case}");
                follows += 1;
            }
            (Verdict::Stops { at, why }, None) => {
                assert!(is_true(&first, &second, at, why), "case {case}: {why:?}");
                stops += 1;
            }
            (verdict, slowly) => panic!("case {case}: {verdict:?} {slowly:?}"),
        }
    }
    println!("{follows} follow, {stops} do not");
    assert!(follows > 500 && stops > 200);
}

/// Lists as long as can be, with as many exchanges as can be.
#[test]
fn the_longest_lists() {
    let here = folder("longest");
    let half = 16_384;
    let (first, second) = ([vec![16; half], vec![17; half]].concat(), [vec![17; half], vec![16; half]].concat());
    let told = asked(&here, "7", &first, &second);
    let line = "b.picks follows from a.picks: 268435456 exchanges of neighbouring picks lead to it, and no fewer do.";
    assert_eq!((told.out.lines().next(), told.status), (Some(line), 0));

    // between two that are fixed the picks of the lowest numbers first
    let code = kuspigo::compile(&example("sixteen.job")).unwrap();
    let mut rng = Rng::new(20, 10, 0);
    let first: Vec<u8> = (0..2 * half).map(|_| rng.below(17) as u8).collect();
    let all = entries(&code, &first);
    let mut second = Vec::new();
    let mut exchanges = 0;
    for part in all.chunk_by(|left, right| !left.fixed && !right.fixed) {
        let mut come = [0_u64; 256];
        for entry in part {
            exchanges += come[usize::from(entry.number) + 1..].iter().sum::<u64>();
            come[usize::from(entry.number)] += 1;
        }
        let mut numbers: Vec<u8> = part.iter().map(|entry| entry.number).collect();
        numbers.sort();
        second.extend(numbers);
    }
    put(&here, "a.picks", &first);
    put(&here, "b.picks", &second);
    let started = Instant::now();
    let told = said(&here, &["exchange", "sixteen.job", "--picks", "a.picks", "--with", "b.picks"]);
    println!("{} exchanges told in {:?}", exchanges, started.elapsed());
    let line = format!(
        "b.picks follows from a.picks: {exchanges} exchanges of neighbouring picks lead to it, and no fewer do."
    );
    assert_eq!((told.out.lines().next(), told.err.as_str(), told.status), (Some(line.as_str()), "", 0));
    assert!(exchanges > 200_000_000);
    // two of them the other way round
    let fixed = all.iter().position(|entry| entry.fixed).expect("there is a FORK");
    assert!(second[fixed] != second[fixed + 1]);
    second.swap(fixed, fixed + 1);
    put(&here, "b.picks", &second);
    let told = said(&here, &["exchange", "sixteen.job", "--picks", "a.picks", "--with", "b.picks"]);
    assert_eq!((number_behind(&told.out, "begins with its first "), told.status), (fixed as i64 + 1, 1));
}
