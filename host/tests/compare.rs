//! The library beside the plain implementation, on random cases of each call: answers and all memory must be equal. And
//! its forecasts beside its own code and finished runs, its last rules and send-backs beside what its steps tell, its
//! registers' counts beside the write logs of its commits, what it says of a formula beside what it says of its
//! beginnings, and runs of a list of picks beside those of the list with neighbouring picks exchanged.
//!
//! KUSPIGO_SEED and KUSPIGO_CASES (for each call) choose the cases. An argument runs only the calls whose name has it.

use kuspigo::ffi::{ForecastReply, FreshReply, RunReply, StepReply, Written};
use kuspigo::{raw, Counts, Event, Forecast, Refusal, RegisterSet, Rule, Step, Thread};
use plain::samples::{chain, deep, far, many_small, sum, Lean, Rng, Shape};
use plain::{by_value, tree};
use std::collections::BTreeMap;
use std::fmt::{Debug, Write};
use std::time::Instant;
use tree::{Process, Transaction};

#[path = "compare/exchanges.rs"]
mod exchanges;
#[path = "compare/texts.rs"]
mod texts;

const SEED: u64 = 1;
const CASES: u64 = 20_000;
/// From so many cases on, each refusal and each event has to come.
const ENOUGH: u64 = 5_000;
/// So many differences of a call are shown.
const SHOWN: u64 = 5;
/// Codes that are refused for a transaction alone.
const LONG_CODE: &str = "refused 11: a long transaction";

/// What the job reader answers.
const JOB_READER: [&str; 11] = [
    "accepted",
    "refused 01",
    "refused 02",
    "refused 03",
    "refused 04",
    "refused 05",
    "refused 06",
    "refused 07",
    "refused 08",
    "refused 09",
    "refused 14",
];
/// What steps and runs come across.
const ON_A_STATE: [&str; 30] = [
    "over: outside",
    "over: noted",
    "over: a lent note counted",
    "over: a lent note sent back",
    "state with another note: fits",
    "state with a note too high: 12",
    "state and code of a long transaction: 11",
    "state with other rules and send-backs: fits",
    "state with too many send-backs: 12",
    "state with a stale read, backs at the COMMITs passed: 12",
    "state with a stale read, backs one below them: fits",
    "state with a rule of no thread: 12",
    "state with other counts: fits",
    "state with counts at the COMMITs passed: fits",
    "state with a count above them: 12",
    "state with a log's count the table's: fits",
    "state with a log's count above the table's: 12",
    "state with a count not marked: 12",
    "state with a count of no thread: 12",
    "state with another value, backs at their limit: fits",
    "lent 0 counts: 12",
    "lent 63 counts: 12",
    "lent 65 counts: 12",
    "stale: though the value is the table's",
    "not stale: though a value is not the table's",
    "rule: left by an idle pick",
    "rule: one without a name replaced",
    "rule: the lowest of several stale registers",
    "backs: a lent number goes on",
    "backs: a lent number kept by a commit",
];

struct Call {
    name: &'static str,
    /// One case: what differs, if anything does.
    case: fn(&mut Rng, &mut Tally) -> Result<(), String>,
    /// What has to come, as [`Tally`] names it, in lists.
    reaches: &'static [&'static [&'static str]],
}

const CALLS: [Call; 14] = [
    Call {
        name: "compile",
        case: compile,
        reaches: &[
            &JOB_READER,
            &[
                "refused 10",
                "taken: 1,000 nodes",
                "taken: depth 64",
                "taken: 15 FORKs",
                "taken: register 63",
                "taken: 3,007 bytes",
                "taken: 200 nodes in a transaction",
            ],
        ],
    },
    Call {
        name: "read_back",
        case: read_back,
        reaches: &[&["accepted", "refused 10", "refused 11", "taken: 200 nodes in a transaction", LONG_CODE]],
    },
    Call {
        name: "fresh",
        case: fresh,
        reaches: &[&[
            "accepted",
            "refused 11",
            "refused 12",
            "taken: 200 nodes in a transaction",
            LONG_CODE,
            "lent 0 counts: 12",
            "lent 63 counts: 12",
            "lent 65 counts: 12",
        ]],
    },
    Call {
        name: "step",
        case: step,
        reaches: &[
            &[
                "accepted",
                "refused 11",
                "refused 12",
                "event Idle",
                "event Push",
                "event Sum",
                "event Fork",
                "event Begin",
                "event ReadWriteLog",
                "event ReadReadLog",
                "event ReadTable",
                "event Write",
                "event Commit",
                "event SentBack",
                "turn of Sum",
                "turn of Fork",
                "turn of Commit",
            ],
            &ON_A_STATE,
        ],
    },
    Call {
        name: "run",
        case: run,
        reaches: &[
            &[
                "accepted",
                "refused 11",
                "refused 12",
                "refused 13",
                "picks: idle",
                "picks: steps",
                "picks: commits",
                "picks: back",
                "picks: over",
                "lists of 32,768",
                "over: counted",
                "over: sent back",
            ],
            &ON_A_STATE,
        ],
    },
    Call {
        name: "report",
        case: report,
        reaches: &[&[
            "accepted",
            "refused 10",
            "prints a listing",
            "prints a thread done",
            "prints a thread open",
            "prints a register",
            "prints threads sent back",
            "prints sums that left the range",
            "prints refused 01",
            "prints refused 02",
            "prints refused 03",
            "prints refused 04",
            "prints refused 05",
            "prints refused 06",
            "prints refused 07",
            "prints refused 08",
            "prints refused 09",
            "prints refused 13",
            "prints refused 14",
        ]],
    },
    Call {
        name: "forecast",
        case: forecast,
        reaches: &[
            &JOB_READER,
            &[
                "told: 1,000 nodes",
                "told: 3,007 bytes",
                "told: 16 threads",
                "told: height 64",
                "told: height above 60 of a child",
                "told: no transaction",
                "told: READ of register 63",
                "told: WRITE of register 63",
                "told: bound above 10,000",
                "told: 200 nodes in a transaction",
            ],
        ],
    },
    Call {
        name: "finished",
        case: finished,
        reaches: &[&[
            "job any",
            "job at a limit",
            "job contested",
            "job of full transactions",
            "job tall",
            "picks all of a thread",
            "picks in turns",
            "picks at random",
            "picks against the threads",
            "runs: 16 threads",
            "runs: no transaction",
            "runs: nothing sent back",
            "runs: sent back",
            "runs: beyond half of the bound",
            "runs: the bound itself",
            "runs: READ of the write log only",
            "runs: over outside",
            "runs: over, took effect",
            "runs: over, sent back",
        ]],
    },
    Call {
        name: "recounted",
        case: recounted,
        reaches: &[&[
            "calls: a step",
            "calls: a run",
            "calls: a run without picks",
            "calls: refused",
            "picks: idle",
            "picks: steps",
            "picks: commits",
            "picks: back",
            "sent back: in several calls",
            "sent back: several threads",
            "sent back: a thread twice",
            "sent back: before a commit of the thread",
            "sent back: register 63",
            "last rule: none",
            "last rule: push",
            "last rule: sum",
            "last rule: fork",
            "last rule: begin",
            "last rule: read from write log",
            "last rule: read from read log",
            "last rule: read from table",
            "last rule: write",
            "last rule: commit",
            "last rule: sent back",
        ]],
    },
    Call {
        name: "deepest",
        case: deepest,
        reaches: &[
            &JOB_READER,
            &["taken: 15 FORKs", "taken: 200 nodes in a transaction", "refused: damaged, in the second half"],
        ],
    },
    Call {
        name: "followed",
        case: followed,
        reaches: &[&[
            "commits: wrote nothing",
            "commits: wrote a register",
            "commits: wrote several registers",
            "commits: wrote a register by two WRITEs",
            "commits: wrote the value that was there",
            "commits: had read a register that commits wrote before",
            "sent back: the value is another",
            "sent back: the same value was written",
            "sent back: the value went away and came back",
            "sent back: register 63",
        ]],
    },
    Call { name: "formula", case: texts::formula, reaches: &[&texts::REACHES] },
    Call { name: "begun", case: texts::begun, reaches: &[&texts::BEGUN] },
    Call { name: "exchanged", case: exchanges::exchanged, reaches: &[&exchanges::REACHES] },
];

/// How often each thing came.
#[derive(Default)]
struct Tally(BTreeMap<String, u64>);

impl Tally {
    fn add(&mut self, what: &str, times: usize) {
        match self.0.get_mut(what) {
            Some(count) => *count += times as u64,
            None => {
                self.0.insert(what.to_string(), times as u64);
            }
        }
    }

    fn of(&self, what: &str) -> u64 {
        self.0.get(what).copied().unwrap_or(0)
    }

    fn add_if(&mut self, met: bool, what: &str) {
        if met {
            self.add(what, 1);
        }
    }

    fn refusal(&mut self, number: usize) {
        match number {
            0 => self.add("accepted", 1),
            _ => self.add(&format!("refused {number:02}"), 1),
        }
    }

    /// What became of a code, `long` being one made with a transaction that is too long.
    fn code(&mut self, code: &[u8], long: bool, refusal: usize) -> Result<(), String> {
        if long && refusal != 11 {
            return Err(format!("code of a long transaction is answered with {refusal}: {}", hex(code)));
        }
        self.refusal(refusal);
        self.add_if(long, LONG_CODE);
        self.add_if(refusal == 0 && longest_transaction(code) == 200, "taken: 200 nodes in a transaction");
        Ok(())
    }

    /// That a state of other lengths is refused; by the number of its counts alone is told.
    fn lengths(&mut self, lent: Lent, refusal: usize) -> Result<(), String> {
        if lent != WHOLE && refusal != 11 && refusal != 12 {
            return Err(format!("a state of the lengths {lent:?} is answered with {refusal}"));
        }
        if let (64, counts, 16) = lent {
            self.add_if(counts != 64 && refusal == 12, &format!("lent {counts} counts: 12"));
        }
        Ok(())
    }

    /// What became of a state; some are made so that they fit, and some so that they do not.
    fn scene(&mut self, what: &str, refusal: usize) -> Result<(), String> {
        if FITTING.contains(&what) && refusal != 0 {
            return Err(format!("a state is refused with {refusal} that was made to fit: {what}"));
        }
        let expected = match what {
            TOO_LONG => 11,
            _ if FOREIGN.contains(&what) => 12,
            _ => refusal,
        };
        if refusal != expected {
            return Err(format!("a state that was made for {expected} is answered with {refusal}: {what}"));
        }
        match refusal {
            0 => self.add(&format!("state {what}: fits"), 1),
            _ => self.add(&format!("state {what}: {refusal}"), 1),
        }
        Ok(())
    }

    /// What picks that were taken show of sums that leave the range: told outside a transaction, noted inside, and what
    /// became of the notes, those that were lent with the state apart.
    fn overs(&mut self, code: &[u8], state: &State, picks: &[u8]) {
        let State { mut registers, mut counts, mut threads } = *state;
        let mut lent = threads.map(|thread| thread.over > 0);
        for &pick in picks {
            let note = |threads: &[Thread; 16]| threads.get(usize::from(pick)).map_or(0, |thread| thread.over);
            let before = note(&threads);
            let step =
                plain::step(code, &mut registers, &mut counts, &mut threads, pick).expect("the picks were taken");
            let ended = matches!(step.event, Event::Commit | Event::SentBack);
            let was_lent = ended && std::mem::take(&mut lent[usize::from(pick)]);
            match step.event {
                Event::Sum if step.over > 0 => self.add("over: outside", 1),
                Event::Sum if note(&threads) > before => self.add("over: noted", 1),
                Event::Commit if was_lent => self.add("over: a lent note counted", 1),
                Event::Commit if before > 0 => self.add("over: counted", 1),
                Event::SentBack if was_lent => self.add("over: a lent note sent back", 1),
                Event::SentBack if before > 0 => self.add("over: sent back", 1),
                _ => {}
            }
        }
    }

    /// What picks that were taken show of last rules, send-backs and stale registers.
    fn rules(&mut self, code: &[u8], state: &State, picks: &[u8]) {
        let State { mut registers, mut counts, mut threads } = *state;
        let lent = threads.map(|thread| thread.backs);
        for &pick in picks {
            let before = threads.get(usize::from(pick)).copied().unwrap_or(Thread::ABSENT);
            let stale = (0..64).filter(|&register| is_stale(&before, &counts, register)).count();
            let same: [bool; 64] = std::array::from_fn(|register| before.readlog[register] == registers[register]);
            let all_same = (RegisterSet { bits: before.reads }).iter().all(|register| same[usize::from(register)]);
            let step =
                plain::step(code, &mut registers, &mut counts, &mut threads, pick).expect("the picks were taken");
            if step.event == Event::Idle {
                self.add_if(before.rule > 0, "rule: left by an idle pick");
                continue;
            }
            let lent = lent[usize::from(pick)] > 0;
            self.add_if(before.rule > 73, "rule: one without a name replaced");
            self.add_if(step.event == Event::SentBack && stale > 1, "rule: the lowest of several stale registers");
            self.add_if(step.event == Event::SentBack && lent, "backs: a lent number goes on");
            self.add_if(step.event == Event::Commit && lent, "backs: a lent number kept by a commit");
            self.add_if(step.event == Event::Commit && !all_same, "not stale: though a value is not the table's");
            let stale = step.stale.map(usize::from);
            self.add_if(stale.is_some_and(|register| same[register]), "stale: though the value is the table's");
        }
    }

    /// What a step shows of registers that are written, from the state before it and what was followed up to it.
    fn writings(&mut self, followed: &Followed, before: &kuspigo::State, i: usize, step: Step) {
        let was = &before.threads[i];
        let [reads, writes] = [was.reads, was.writes].map(|bits| RegisterSet { bits });
        if step.event == Event::Commit {
            let is_same = |register: usize| was.writelog[register] == before.registers[register];
            self.add_if(was.writes == 0, "commits: wrote nothing");
            self.add_if(was.writes != 0, "commits: wrote a register");
            self.add_if(was.writes.count_ones() > 1, "commits: wrote several registers");
            self.add_if(followed.twice[i].bits != 0, "commits: wrote a register by two WRITEs");
            self.add_if(writes.iter().any(|v| is_same(v.into())), "commits: wrote the value that was there");
            let is_written = |register: usize| was.readcounts[register] > 0;
            self.add_if(
                reads.iter().any(|v| is_written(v.into())),
                "commits: had read a register that commits wrote before",
            );
        }
        if let Some(register) = step.stale {
            let values = followed.since(i, register);
            let (first, last) = (values[0], values[values.len() - 1]);
            self.add_if(register == 63, "sent back: register 63");
            self.add(
                match values.iter().all(|&value| value == first) {
                    _ if first != last => "sent back: the value is another",
                    true => "sent back: the same value was written",
                    false => "sent back: the value went away and came back",
                },
                1,
            );
        }
    }
}

fn main() {
    let seed = setting("KUSPIGO_SEED", SEED);
    let cases = setting("KUSPIGO_CASES", CASES);
    let named: Vec<String> = std::env::args().skip(1).filter(|argument| !argument.starts_with('-')).collect();
    println!("\ncomparison of the library with the plain implementation: seed {seed}, {cases} cases a call");
    println!("(KUSPIGO_SEED and KUSPIGO_CASES choose others)\n");
    let mut differences = 0;
    let mut missing = 0;
    for (number, call) in CALLS.iter().enumerate() {
        if !named.is_empty() && !named.iter().any(|name| call.name.contains(name.as_str())) {
            continue;
        }
        let started = Instant::now();
        let mut tally = Tally::default();
        let mut differing = 0;
        for case in 0..cases {
            if let Err(difference) = (call.case)(&mut Rng::new(seed, number as u64, case), &mut tally) {
                differing += 1;
                if differing <= SHOWN {
                    println!("DIFFERENCE in {}, case {case}:\n{difference}", call.name);
                }
            }
        }
        println!("{}: {cases} cases, {differing} differences, {:.1} s", call.name, started.elapsed().as_secs_f64());
        for (what, count) in &tally.0 {
            println!("    {what:<56} {count:>10}");
        }
        for what in call.reaches.concat().into_iter().filter(|what| cases >= ENOUGH && tally.of(what) == 0) {
            println!("    NOT REACHED: {what}");
            missing += 1;
        }
        differences += differing;
    }
    println!("{differences} differences, {missing} not reached\n");
    // one test, told as cargo's own are, so that the gate counts it
    let failed = u8::from(differences + missing > 0);
    println!(
        "test result: {}. {} passed; {failed} failed; 0 ignored",
        if failed == 0 { "ok" } else { "FAILED" },
        1 - failed
    );
    std::process::exit(failed.into());
}

fn setting(name: &str, default: u64) -> u64 {
    match std::env::var(name) {
        Ok(text) => text.parse().unwrap_or_else(|_| panic!("{name} has to be a number")),
        Err(_) => default,
    }
}

// The calls that write bytes.

type Writes<'a> = (&'a str, &'a dyn Fn(&[u8], &mut [u8]) -> Written);

fn compile(rng: &mut Rng, tally: &mut Tally) -> Result<(), String> {
    let job = any_job(rng);
    let answer = compiled(rng, &job)?;
    tally.refusal(answer.refusal);
    if answer.refusal == 0 {
        let tree = Process::read(&job).map_err(|_| "a job that only some accept")?;
        let limits = [
            ("taken: 1,000 nodes", tree.nodes() == 1_000),
            ("taken: depth 64", tree.depth() == 64),
            ("taken: 15 FORKs", tree.forks() == 15),
            ("taken: register 63", instructions(&tree.code()).iter().any(|&at| names(&tree.code()[at..], 63))),
            ("taken: 3,007 bytes", answer.length == 3_007),
            ("taken: 200 nodes in a transaction", longest_transaction(&tree.code()) == 200),
        ];
        for (limit, met) in limits {
            tally.add_if(met, limit);
        }
    }
    Ok(())
}

fn compiled(rng: &mut Rng, job: &[u8]) -> Result<Written, String> {
    outputs(
        rng,
        job,
        &[
            ("plain", &|job, out| written(plain::compile(job, out))),
            ("plain by a tree", &|job, out| written(tree::compile(job, out))),
            ("library", &|job, out| raw::compile(job, out)),
        ],
    )
}

/// The most nodes of a transaction of a tree's code, ATOMIC not counted; 0 if there is none.
fn longest_transaction(code: &[u8]) -> usize {
    let mut longest = 0;
    let mut inside = 0;
    for at in instructions(code) {
        match code[at] {
            5 => inside = 0,
            6 => longest = longest.max(inside),
            _ => inside += 1,
        }
    }
    longest
}

/// Whether it is READ or WRITE of the register.
fn names(instruction: &[u8], register: u8) -> bool {
    matches!(instruction, &[3 | 4, named, ..] if named == register)
}

fn read_back(rng: &mut Rng, tally: &mut Tally) -> Result<(), String> {
    let long = rng.one_in(40);
    let code = if long { long_tree(rng).code() } else { any_code(rng) };
    let answer = outputs(
        rng,
        &code,
        &[
            ("plain", &|code, out| written(plain::read_back(code, out))),
            ("plain by a tree", &|code, out| written(tree::read_back(code, out))),
            ("library", &|code, out| raw::read_back(code, out)),
        ],
    )?;
    tally.code(&code, long, answer.refusal)
}

fn report(rng: &mut Rng, tally: &mut Tally) -> Result<(), String> {
    let input = any_input(rng);
    let answer = outputs(
        rng,
        &input,
        &[
            ("plain", &|input, out| written(plain::report(input, out))),
            ("library", &|input, out| raw::report(input, out)),
        ],
    )?;
    tally.refusal(answer.refusal);
    if answer.refusal == 0 {
        let text = plain::listing(&input);
        match text.strip_prefix("refused ") {
            Some(rest) => {
                let number: u8 = rest.split(' ').next().unwrap().parse().unwrap();
                tally.add(&format!("prints refused {number:02}"), 1);
            }
            None => {
                tally.add("prints a listing", 1);
                tally.add_if(text.contains(" done "), "prints a thread done");
                tally.add_if(text.contains(" open"), "prints a thread open");
                tally.add_if(text.contains("register "), "prints a register");
                tally.add_if(!text.contains(" back 0 "), "prints threads sent back");
                tally.add_if(!text.contains(" over 0\n"), "prints sums that left the range");
            }
        }
    }
    Ok(())
}

/// Lends each call the same part of the same bytes as its output, and compares what is answered and left.
fn outputs(rng: &mut Rng, input: &[u8], calls: &[Writes]) -> Result<Written, String> {
    let mut trial = vec![0; 3_100];
    let needed = calls[0].1(input, &mut trial).length;
    let lent = match rng.below(8) {
        0 if needed > 0 => needed - 1,
        1 => rng.below(needed + 1),
        2 => needed + 1 + rng.below(40),
        3 => needed + 1,
        _ => needed,
    };
    // the lent part starts at any alignment
    let from = rng.below(9);
    let pattern = bytes(rng, from + lent + 9);
    let mut first: Option<(Written, Vec<u8>)> = None;
    for (name, call) in calls {
        let mut memory = pattern.clone();
        let answer = call(input, &mut memory[from..from + lent]);
        let done = if answer.refusal == 0 { answer.length } else { 0 };
        if memory[..from] != pattern[..from] || memory[from + done..] != pattern[from + done..] {
            return Err(format!(
                "{name}: bytes outside the result are altered\ninput {}\noutput of {lent} bytes",
                hex(input)
            ));
        }
        match &first {
            None => first = Some((answer, memory)),
            Some((expected, left)) if (expected, left) == (&answer, &memory) => {}
            Some((expected, left)) => {
                return Err(format!(
                    "input {}\noutput of {lent} bytes\n{}: {expected:?} {}\n{name}: {answer:?} {}",
                    hex(input),
                    calls[0].0,
                    hex(&left[from..from + lent]),
                    hex(&memory[from..from + lent])
                ))
            }
        }
    }
    Ok(first.unwrap().0)
}

fn forecast(rng: &mut Rng, tally: &mut Tally) -> Result<(), String> {
    let job = match rng.below(20) {
        0 => tall(rng).job(),
        1 => many_small(rng.between(200, 1_000), rng.between(2, 16)).job(),
        _ => any_job(rng),
    };
    let answer = told(rng, &job)?;
    tally.refusal(answer.refusal);
    if answer.refusal == 0 {
        for (what, met) in [
            ("told: 1,000 nodes", answer.instructions - answer.transactions == 1_000),
            ("told: 3,007 bytes", answer.length == 3_007),
            ("told: 16 threads", answer.threads == 16),
            ("told: height 64", answer.heights[0] == 64),
            ("told: height above 60 of a child", answer.heights[1..].iter().any(|&height| height > 60)),
            ("told: no transaction", answer.transactions == 0),
            ("told: READ of register 63", answer.reads >> 63 == 1),
            ("told: WRITE of register 63", answer.writes >> 63 == 1),
            ("told: bound above 10,000", answer.bound > 10_000),
            ("told: 200 nodes in a transaction", answer.longest == 202),
        ] {
            tally.add_if(met, what);
        }
    }
    Ok(())
}

fn told(rng: &mut Rng, job: &[u8]) -> Result<ForecastReply, String> {
    // the job starts at any alignment
    let from = rng.below(9);
    let memory = [&bytes(rng, from), job, &bytes(rng, 9)].concat();
    let job = &memory[from..memory.len() - 9];
    let answer = raw::forecast(job);
    for (name, expected) in [("plain", plain::forecast(job)), ("plain by a tree", tree::forecast(job))] {
        let expected = forecast_reply(expected);
        if expected != answer {
            return Err(format!("job {}\n{name}: {expected:?}\nlibrary: {answer:?}", hex(job)));
        }
    }
    Ok(answer)
}

/// The calls that read a job, on 1,000 nodes at depth 64: whole, one level deeper, with too many FORKs, with a long
/// transaction, or damaged.
fn deepest(rng: &mut Rng, tally: &mut Tally) -> Result<(), String> {
    let depth = rng.choose(&[64, 64, 64, 64, 64, 64, 64, 65]);
    let forks = rng.choose(&[0, 4, 15, 15, 40]);
    let transaction = rng.choose(&[12, 200, 200, 400]);
    let tree = deep(rng, 1_000, depth, forks, transaction);
    if (tree.nodes(), tree.depth()) != (1_000, depth) {
        return Err(format!("a tree of {} nodes at depth {}", tree.nodes(), tree.depth()));
    }
    let mut job = tree.job();
    let whole = rng.one_in(2);
    if !whole {
        damage_somehow(rng, &mut job);
    }
    let answer = told(rng, &job)?;
    let written = compiled(rng, &job)?;
    let read = if written.refusal == 10 { (0, 0) } else { (written.refusal, written.place) };
    if read != (answer.refusal, answer.place) {
        return Err(format!("job {}\nforecast: {answer:?}\ncompile: {written:?}", hex(&job)));
    }
    tally.refusal(answer.refusal);
    if answer.refusal == 0 {
        tally.add_if(answer.threads == 16, "taken: 15 FORKs");
        tally.add_if(answer.longest == 202, "taken: 200 nodes in a transaction");
    } else {
        tally.add_if(!whole && answer.place * 2 > job.len(), "refused: damaged, in the second half");
    }
    Ok(())
}

fn forecast_reply(result: Result<Forecast, Refusal>) -> ForecastReply {
    let mut reply = ForecastReply {
        refusal: 0,
        place: 0,
        length: 0,
        transactions: 0,
        threads: 0,
        instructions: 0,
        longest: 0,
        bound: 0,
        reads: 0,
        writes: 0,
        heights: [0; 16],
    };
    match result {
        Ok(told) => {
            reply.length = told.length;
            reply.transactions = told.transactions;
            reply.threads = told.threads;
            reply.instructions = told.instructions;
            reply.longest = told.longest;
            reply.bound = told.bound;
            reply.reads = told.reads.bits;
            reply.writes = told.writes.bits;
            reply.heights[..told.threads].copy_from_slice(told.heights());
        }
        Err(refusal) => (reply.refusal, reply.place) = (refusal.number().into(), refusal.place),
    }
    reply
}

fn written(result: Result<usize, Refusal>) -> Written {
    match result {
        Ok(length) => Written { refusal: 0, place: 0, length },
        Err(refusal) => Written { refusal: refusal.number().into(), place: refusal.place, length: 0 },
    }
}

// The calls on a state.

/// The memory of which a part is lent.
#[derive(Clone, PartialEq)]
struct Memory {
    registers: Vec<i32>,
    counts: Vec<u32>,
    threads: Vec<Thread>,
}

/// What lies in front of the lent parts and behind them.
const AROUND: usize = 2;

/// How many registers, counts and records are lent.
type Lent = (usize, usize, usize);
const WHOLE: Lent = (64, 64, 16);

impl Memory {
    /// A state with other values around it, and more of them if more are to be lent.
    fn around(rng: &mut Rng, state: &State, lent: Lent) -> Memory {
        let mut registers: Vec<i32> = (0..lent.0.max(64) + 2 * AROUND).map(|_| rng.draw() as i32).collect();
        let mut counts: Vec<u32> = (0..lent.1.max(64) + 2 * AROUND).map(|_| rng.draw() as u32).collect();
        let mut threads = vec![garbage(rng); lent.2.max(16) + 2 * AROUND];
        registers[AROUND..AROUND + 64].copy_from_slice(&state.registers);
        counts[AROUND..AROUND + 64].copy_from_slice(&state.counts);
        threads[AROUND..AROUND + 16].copy_from_slice(&state.threads);
        Memory { registers, counts, threads }
    }

    fn lend(&mut self, (registers, counts, threads): Lent) -> (&mut [i32], &mut [u32], &mut [Thread]) {
        (
            &mut self.registers[AROUND..AROUND + registers],
            &mut self.counts[AROUND..AROUND + counts],
            &mut self.threads[AROUND..AROUND + threads],
        )
    }
}

fn fresh(rng: &mut Rng, tally: &mut Tally) -> Result<(), String> {
    let long = rng.one_in(40);
    let code = if long { long_tree(rng).code() } else { any_code(rng) };
    let registers = [0; 64].map(|_: i32| rng.draw() as i32);
    let counts = [0; 64].map(|_: u32| rng.draw() as u32);
    let garbage = State { registers, counts, threads: [garbage(rng); 16] };
    let lent = if rng.one_in(4) { wrong_lengths(rng) } else { WHOLE };
    let answer = states(
        rng,
        &garbage,
        lent,
        &[
            ("plain", &|registers, counts, threads| fresh_reply(plain::fresh(&code, registers, counts, threads))),
            ("library", &|registers, counts, threads| raw::fresh(&code, registers, counts, threads)),
        ],
        |reply| reply.refusal,
        || format!("code {}", hex(&code)),
    )?;
    tally.lengths(lent, answer.refusal)?;
    tally.code(&code, long, answer.refusal)
}

fn step(rng: &mut Rng, tally: &mut Tally) -> Result<(), String> {
    let Scene { what, code, state, lent } = any_scene(rng);
    let pick = one_pick(rng, &state);
    let answer = states(
        rng,
        &state,
        lent,
        &[
            ("plain", &|registers, counts, threads| step_reply(plain::step(&code, registers, counts, threads, pick))),
            ("plain by value", &|registers, counts, threads| {
                step_reply(by_value::step(&code, registers, counts, threads, pick))
            }),
            ("library", &|registers, counts, threads| raw::step(&code, registers, counts, threads, pick)),
        ],
        |reply| reply.refusal,
        || format!("code {}\npick {pick}", hex(&code)),
    )?;
    tally.refusal(answer.refusal);
    tally.lengths(lent, answer.refusal)?;
    tally.scene(what, answer.refusal)?;
    if answer.refusal == 0 {
        let event = Event::from_number(answer.event).ok_or("an unknown event")?;
        tally.add(&format!("event {event:?}"), 1);
        tally.add_if(answer.turn == 1, &format!("turn of {event:?}"));
        tally.overs(&code, &state, &[pick]);
        tally.rules(&code, &state, &[pick]);
    }
    Ok(())
}

fn run(rng: &mut Rng, tally: &mut Tally) -> Result<(), String> {
    let Scene { what, code, state, lent } = if rng.one_in(100) { busy_scene(rng) } else { any_scene(rng) };
    let count = match rng.below(300) {
        _ if what == BUSY => rng.choose(&[3_000, 10_000, 32_768]),
        0 => 32_768,
        1..=3 => 32_769,
        4 => 32_769 + rng.below(3_000),
        5..=20 => 0,
        21..=60 => rng.between(100, 600),
        _ => rng.below(40),
    };
    let threads = if what == BUSY { 16 } else { state.existing() + rng.between(1, 3) };
    let picks = picks(rng, count, threads);
    let answer = states(
        rng,
        &state,
        lent,
        &[
            ("plain", &|registers, counts, threads| run_reply(plain::run(&code, registers, counts, threads, &picks))),
            ("plain by value", &|registers, counts, threads| {
                run_reply(by_value::run(&code, registers, counts, threads, &picks))
            }),
            ("library", &|registers, counts, threads| raw::run(&code, registers, counts, threads, &picks)),
        ],
        |reply| reply.refusal,
        || format!("code {}\n{} picks {}", hex(&code), picks.len(), hex(&picks)),
    )?;
    tally.refusal(answer.refusal);
    if answer.refusal != 13 {
        tally.lengths(lent, answer.refusal)?;
        tally.scene(what, answer.refusal)?;
    }
    if answer.refusal == 0 {
        tally.add("picks: steps", answer.steps);
        tally.add("picks: idle", answer.idle);
        tally.add("picks: commits", answer.commits);
        tally.add("picks: back", answer.back);
        tally.add("picks: over", answer.over);
        tally.add_if(count == 32_768, "lists of 32,768");
        if count < 40 {
            tally.overs(&code, &state, &picks);
            tally.rules(&code, &state, &picks);
        }
    }
    Ok(())
}

type Acts<'a, R> = (&'a str, &'a dyn Fn(&mut [i32], &mut [u32], &mut [Thread]) -> R);

/// Lends each call the same part of the same memory, and compares what is answered and left.
fn states<R: Copy + PartialEq + Debug>(
    rng: &mut Rng,
    state: &State,
    lent: Lent,
    calls: &[Acts<R>],
    refusal: impl Fn(&R) -> usize,
    input: impl Fn() -> String,
) -> Result<R, String> {
    let before = Memory::around(rng, state, lent);
    let mut first: Option<(R, Memory)> = None;
    for (name, call) in calls {
        let mut memory = before.clone();
        let (registers, counts, threads) = memory.lend(lent);
        let answer = call(registers, counts, threads);
        if refusal(&answer) != 0 && memory != before {
            return Err(format!("{name}: memory is altered by a refused call\n{}", shown(&before, lent, input())));
        }
        match &first {
            None => first = Some((answer, memory)),
            Some((expected, left)) if (expected, left) == (&answer, &memory) => {}
            Some((expected, left)) => {
                return Err(format!(
                    "{}\n{}: {expected:?}\n{name}: {answer:?}\n{}",
                    shown(&before, lent, input()),
                    calls[0].0,
                    contrast(left, &memory)
                ))
            }
        }
    }
    Ok(first.unwrap().0)
}

/// The input of a call on a state, for a reader; records, registers and counts with 0 throughout are left out.
fn shown(memory: &Memory, lent: Lent, input: String) -> String {
    let (registers, counts, threads) = lent;
    let mut text = format!("{input}\nlent {registers} registers, {counts} counts, {threads} records");
    for i in AROUND..AROUND + threads {
        if memory.threads[i] != Thread::ABSENT {
            write!(text, "\nrecord {}: {:?}", i - AROUND, memory.threads[i]).unwrap();
        }
    }
    for i in AROUND..AROUND + registers {
        if memory.registers[i] != 0 {
            write!(text, "\nregister {}: {}", i - AROUND, memory.registers[i]).unwrap();
        }
    }
    for i in AROUND..AROUND + counts {
        if memory.counts[i] != 0 {
            write!(text, "\ncount {}: {}", i - AROUND, memory.counts[i]).unwrap();
        }
    }
    text
}

fn contrast(first: &Memory, second: &Memory) -> String {
    let mut text = String::from("what is left differs in (2 is the first that is lent):");
    for (i, pair) in first.threads.iter().zip(&second.threads).enumerate().filter(|(_, pair)| pair.0 != pair.1) {
        write!(text, "\nrecord {i}: {:?}\n    beside: {:?}", pair.0, pair.1).unwrap();
    }
    for (i, pair) in first.registers.iter().zip(&second.registers).enumerate().filter(|(_, pair)| pair.0 != pair.1) {
        write!(text, "\nregister {i}: {} beside {}", pair.0, pair.1).unwrap();
    }
    for (i, pair) in first.counts.iter().zip(&second.counts).enumerate().filter(|(_, pair)| pair.0 != pair.1) {
        write!(text, "\ncount {i}: {} beside {}", pair.0, pair.1).unwrap();
    }
    text
}

fn fresh_reply(result: Result<(), Refusal>) -> FreshReply {
    match result {
        Ok(()) => FreshReply { refusal: 0, place: 0 },
        Err(refusal) => FreshReply { refusal: refusal.number().into(), place: refusal.place },
    }
}

fn step_reply(result: Result<Step, Refusal>) -> StepReply {
    match result {
        Ok(step) => StepReply {
            refusal: 0,
            place: 0,
            event: step.event as usize,
            register: step.stale.unwrap_or(0).into(),
            turn: step.turn.into(),
            over: step.over,
        },
        Err(refusal) => {
            let (refusal, place) = (refusal.number().into(), refusal.place);
            StepReply { refusal, place, event: 0, register: 0, turn: 0, over: 0 }
        }
    }
}

fn run_reply(result: Result<Counts, Refusal>) -> RunReply {
    match result {
        Ok(Counts { steps, idle, commits, back, over }) => {
            RunReply { refusal: 0, place: 0, steps, idle, commits, back, over }
        }
        Err(refusal) => {
            let (refusal, place) = (refusal.number().into(), refusal.place);
            RunReply { refusal, place, steps: 0, idle: 0, commits: 0, back: 0, over: 0 }
        }
    }
}

// The forecast beside finished runs.

/// How the next pick is chosen until every thread has ended.
#[derive(Clone, Copy, PartialEq, Eq)]
enum Policy {
    /// A thread is picked until it has ended.
    Each,
    /// Threads take turns of so many picks.
    Turns(usize),
    /// Any open thread, so many picks at a time, and now and then any byte.
    Random(usize),
    /// Every thread goes on to a COMMIT before one of them takes effect, and those that it makes stale are sent back at
    /// once.
    Against,
}

/// What a finished run showed.
struct Shown {
    picks: Vec<u8>,
    steps: usize,
    commits: usize,
    back: usize,
    /// Sums that left the range, recounted from the stacks.
    over: Overs,
    /// Instructions of the longest attempt, BEGIN and COMMIT included.
    longest: usize,
    reads: RegisterSet,
    writes: RegisterSet,
    /// Of the reads, those that once were answered by the table or the read log.
    logged: RegisterSet,
    /// By the starts of the threads' codes, the greatest height.
    heights: BTreeMap<usize, usize>,
    state: kuspigo::State,
}

/// Sums that left the range: outside transactions, in attempts that took effect, and in those that were sent back.
#[derive(Default)]
struct Overs {
    outside: usize,
    counted: usize,
    dropped: usize,
    /// Those of each thread's attempt so far.
    noted: [usize; 16],
}

impl Overs {
    /// Counts what a step did, from the record before it; gives what the step has to tell.
    fn add(&mut self, i: usize, before: &Thread, event: Event) -> usize {
        let told = match event {
            Event::Sum => {
                let sum = i64::from(before.cells[before.height - 2]) + i64::from(before.cells[before.height - 1]);
                let over = usize::from(i32::try_from(sum).is_err());
                if before.begin == 0 {
                    self.outside += over;
                    over
                } else {
                    self.noted[i] += over;
                    0
                }
            }
            Event::Commit => {
                self.counted += self.noted[i];
                self.noted[i]
            }
            Event::SentBack => {
                self.dropped += self.noted[i];
                0
            }
            _ => 0,
        };
        if matches!(event, Event::Begin | Event::Commit | Event::SentBack) {
            self.noted[i] = 0;
        }
        told
    }
}

fn finished(rng: &mut Rng, tally: &mut Tally) -> Result<(), String> {
    let (kind, tree) = match rng.below(8) {
        0 | 1 => ("job contested", contested(rng)),
        2 => ("job at a limit", accepted(rng, limit_tree)),
        3 if rng.one_in(8) => ("job tall", accepted(rng, tall)),
        3 if rng.one_in(4) => ("job of full transactions", full_tree(rng)),
        _ => ("job any", accepted(rng, any_tree)),
    };
    let job = tree.job();
    let told = kuspigo::forecast(&job).map_err(|refusal| format!("job {}\n{refusal}", hex(&job)))?;
    let code = kuspigo::compile(&job).map_err(|refusal| format!("job {}\n{refusal}", hex(&job)))?;
    let (policy, word) = match rng.below(6) {
        0 => (Policy::Each, "picks all of a thread"),
        1 => (Policy::Turns(rng.choose(&[1, 1, 2, 5])), "picks in turns"),
        // this can take all the steps that the bound allows
        2..=4 if told.bound <= 4_000 => (Policy::Against, "picks against the threads"),
        _ => (Policy::Random(rng.choose(&[1, 1, 2, 5, 9])), "picks at random"),
    };
    let shown = run_to_the_end(rng, &code, policy, told.bound)
        .map_err(|what| format!("job {}\n{told:?}\n{word}: {what}", hex(&job)))?;
    let differs = |what: String| {
        Err(format!("job {}\ncode {}\npicks {}\n{told:?}\n{what}", hex(&job), hex(&code), hex(&shown.picks)))
    };

    // the code of each thread by where it starts
    let mut starts = vec![5];
    let end = code_of(&tree, 5, &mut starts);
    if (told.length, end) != (code.len(), code.len()) {
        return differs(format!("the code has {} bytes", code.len()));
    }
    let heights: Vec<usize> = starts.iter().map(|start| shown.heights.get(start).copied().unwrap_or(0)).collect();
    if heights != told.heights().iter().map(|&height| height.into()).collect::<Vec<usize>>() {
        return differs(format!("the run's heights are {heights:?}"));
    }
    let existing = shown.state.threads.iter().filter(|thread| thread.exists()).count();
    let figures = (shown.commits, existing, shown.heights.len(), shown.longest);
    if figures != (told.transactions, told.threads, told.threads, told.longest) {
        return differs(format!("commits, threads, their codes, longest attempt: {figures:?}"));
    }
    if (shown.reads, shown.writes) != (told.reads, told.writes) {
        return differs(format!("read {:?}, written {:?}", shown.reads, shown.writes));
    }
    let steps_agree = match shown.back {
        0 => shown.steps == told.instructions,
        _ => shown.steps > told.instructions,
    };
    if !steps_agree || shown.steps > told.bound {
        return differs(format!("{} steps, {} sent back", shown.steps, shown.back));
    }
    if let Err(what) = run_in_calls(rng, &code, &shown) {
        return differs(what);
    }

    tally.add(kind, 1);
    tally.add(word, 1);
    tally.add("steps", shown.steps);
    tally.add("threads sent back", shown.back);
    let beyond = shown.steps - told.instructions;
    for (what, met) in [
        ("runs: 16 threads", told.threads == 16),
        ("runs: no transaction", told.transactions == 0),
        ("runs: nothing sent back", shown.back == 0),
        ("runs: sent back", shown.back > 0),
        // counted from L, which every finished run has
        ("runs: beyond half of the bound", beyond > 0 && 2 * beyond > told.bound - told.instructions),
        ("runs: the bound itself", beyond > 0 && shown.steps == told.bound),
        ("runs: READ of the write log only", shown.logged != shown.reads),
        ("runs: over outside", shown.over.outside > 0),
        ("runs: over, took effect", shown.over.counted > 0),
        ("runs: over, sent back", shown.over.dropped > 0),
    ] {
        tally.add_if(met, what);
    }
    Ok(())
}

/// Steps a job from its fresh state, pick by pick, until every thread has ended.
fn run_to_the_end(rng: &mut Rng, code: &[u8], policy: Policy, bound: usize) -> Result<Shown, String> {
    let state = kuspigo::State::fresh(code).map_err(|refusal| refusal.to_string())?;
    let mut shown = Shown {
        picks: Vec::new(),
        steps: 0,
        commits: 0,
        back: 0,
        over: Overs::default(),
        longest: 0,
        reads: RegisterSet::default(),
        writes: RegisterSet::default(),
        logged: RegisterSet::default(),
        heights: BTreeMap::from([(state.threads[0].start, 0)]),
        state,
    };
    // instructions of each thread's attempt so far
    let mut attempts = [0; 16];
    let mut pick = 0;
    let mut again = 0;
    loop {
        let open: Vec<u8> = (0..16).filter(|&i| is_open(&shown.state.threads[usize::from(i)])).collect();
        if open.is_empty() {
            return Ok(shown);
        }
        pick = match policy {
            Policy::Each if open.contains(&pick) => pick,
            Policy::Each => rng.choose(&open),
            Policy::Turns(_) | Policy::Random(_) if again > 0 && open.contains(&pick) => {
                again -= 1;
                pick
            }
            Policy::Turns(burst) => {
                again = burst - 1;
                open.iter().copied().find(|&i| i > pick).unwrap_or(open[0])
            }
            Policy::Random(_) if rng.one_in(32) => rng.byte(),
            Policy::Random(burst) => {
                again = rng.below(burst);
                rng.choose(&open)
            }
            Policy::Against => against(rng, code, &shown.state, &open),
        };
        let before = shown.state.threads.get(usize::from(pick)).copied().unwrap_or(Thread::ABSENT);
        let step = shown.state.step(code, pick).map_err(|refusal| refusal.to_string())?;
        shown.picks.push(pick);
        if is_open(&before) != (step.event != Event::Idle) {
            return Err(format!("{:?} of {before:?}", step.event));
        }
        for thread in shown.state.threads.iter().filter(|thread| thread.exists()) {
            let height = shown.heights.entry(thread.start).or_insert(0);
            *height = thread.height.max(*height);
        }
        if step.event == Event::Idle {
            continue;
        }
        let told = shown.over.add(usize::from(pick), &before, step.event);
        let notes = shown.state.threads.map(|thread| thread.over);
        if (step.over, notes) != (told, shown.over.noted) {
            return Err(format!("{step:?} of {before:?} has to tell {told}; notes {:?} {notes:?}", shown.over.noted));
        }
        shown.steps += 1;
        if shown.steps > bound {
            return Err(format!("the picks {} have more steps than the bound", hex(&shown.picks)));
        }
        // the instruction that was done, and its register
        let instruction = &code[before.place..];
        match (step.event, instruction) {
            (Event::ReadWriteLog, &[3, register, ..]) => shown.reads.insert(register),
            (Event::ReadReadLog | Event::ReadTable, &[3, register, ..]) => {
                shown.reads.insert(register);
                shown.logged.insert(register);
            }
            (Event::Write, &[4, register, ..]) => shown.writes.insert(register),
            (Event::Commit, [6, ..]) => shown.commits += 1,
            (Event::SentBack, [6, ..]) => shown.back += 1,
            (Event::Push, [1, ..]) | (Event::Sum, [2, ..]) | (Event::Begin, [5, ..]) | (Event::Fork, [7, ..]) => {}
            (event, _) => return Err(format!("{event:?} at {} of the code {}", before.place, hex(code))),
        }
        let attempt = &mut attempts[usize::from(pick)];
        *attempt = if step.event == Event::Begin { 1 } else { *attempt + 1 };
        if matches!(step.event, Event::Commit | Event::SentBack) {
            shown.longest = shown.longest.max(*attempt);
        }
    }
}

fn is_open(thread: &Thread) -> bool {
    thread.exists() && thread.place != thread.end
}

/// The pick of [`Policy::Against`].
fn against(rng: &mut Rng, code: &[u8], state: &kuspigo::State, open: &[u8]) -> u8 {
    let (waiting, going): (Vec<u8>, Vec<u8>) =
        open.iter().partition(|&&i| code[state.threads[usize::from(i)].place] == 6);
    let stale = |&&i: &&u8| has_stale(&state.threads[usize::from(i)], &state.counts);
    if let Some(&pick) = waiting.iter().find(stale) {
        return pick;
    }
    if !going.is_empty() {
        return rng.choose(&going);
    }
    // the one with most of its code to come
    let left = |&&i: &&u8| state.threads[usize::from(i)].end - state.threads[usize::from(i)].place;
    *waiting.iter().max_by_key(left).unwrap()
}

/// The same picks in several run calls: the same counts in all, and the same state.
fn run_in_calls(rng: &mut Rng, code: &[u8], shown: &Shown) -> Result<(), String> {
    let mut state = kuspigo::State::fresh(code).map_err(|refusal| refusal.to_string())?;
    let mut all = Counts::default();
    let mut left = &shown.picks[..];
    while !left.is_empty() {
        let most = left.len().min(32_768);
        let count = if rng.one_in(3) { most } else { rng.below(most + 1) };
        let (picks, rest) = left.split_at(count);
        let counts = state.run(code, picks).map_err(|refusal| refusal.to_string())?;
        all.steps += counts.steps;
        all.idle += counts.idle;
        all.commits += counts.commits;
        all.back += counts.back;
        all.over += counts.over;
        left = rest;
    }
    let idle = shown.picks.len() - shown.steps;
    let over = shown.over.outside + shown.over.counted;
    if all != (Counts { steps: shown.steps, idle, commits: shown.commits, back: shown.back, over }) {
        return Err(format!("run calls count {all:?}"));
    }
    if state != shown.state {
        return Err(String::from("run calls leave another state than steps"));
    }
    Ok(())
}

/// Adds where the code of each FORK's child starts, in job order, if the process's own code starts at a place; gives the
/// place behind it.
fn code_of(process: &Process, at: usize, starts: &mut Vec<usize>) -> usize {
    match process {
        Process::Val(_) => at + 5,
        Process::Add(a, b) => {
            let at = code_of(a, at, starts);
            code_of(b, at, starts) + 1
        }
        Process::Atomic(t) => at + 1 + bytes_of(t) + 1,
        Process::Fork(p) => {
            starts.push(at + 3);
            code_of(p, at + 3, starts)
        }
    }
}

/// Bytes of a transaction's code.
fn bytes_of(transaction: &Transaction) -> usize {
    match transaction {
        Transaction::Val(_) => 5,
        Transaction::Add(a, b) => bytes_of(a) + bytes_of(b) + 1,
        Transaction::Read(_) => 2,
        Transaction::Write(_, t) => bytes_of(t) + 2,
    }
}

/// Threads with transactions that add to the same register; the root mostly has more of them than the others.
fn contested(rng: &mut Rng) -> Process {
    let register = rng.choose(&[0, 1, 63]);
    let by = rng.choose(&[1, 1, 1 << 30, i32::MIN]);
    let increments = |count: usize| {
        let parts = (0..count).map(|_| {
            let sum = Transaction::Add(Box::new(Transaction::Read(register)), Box::new(Transaction::Val(by)));
            Process::Atomic(Box::new(Transaction::Write(register, Box::new(sum))))
        });
        sum(parts.collect())
    };
    let mut parts: Vec<Process> = Vec::new();
    for _ in 0..rng.between(1, 4) {
        parts.push(Process::Fork(Box::new(increments(rng.between(1, 2)))));
    }
    parts.push(increments(rng.between(1, 8)));
    sum(parts)
}

/// Sums that lean to the right, so that the stack grows with each, below some FORKs and sums.
fn tall(rng: &mut Rng) -> Process {
    let beside = |rng: &mut Rng| Box::new(Process::Val(rng.number()));
    let mut tree = match rng.one_in(2) {
        true => Process::Val(rng.number()),
        false => Process::Atomic(Box::new(Transaction::Read(rng.below(64) as u8))),
    };
    for _ in 0..rng.between(58, 63) {
        tree = Process::Add(beside(rng), Box::new(tree));
    }
    for _ in 0..rng.below(4) {
        tree = match rng.below(3) {
            0 => Process::Fork(Box::new(tree)),
            1 => Process::Add(Box::new(tree), beside(rng)),
            _ => Process::Add(beside(rng), Box::new(tree)),
        };
    }
    tree
}

// Last rules and send-backs beside what single steps tell.

/// Of each thread its last rule and its send-backs, as steps told them.
#[derive(Default)]
struct Told {
    rules: [usize; 16],
    backs: [usize; 16],
    /// Whether a commit followed on a send-back of the same thread.
    committed: bool,
}

impl Told {
    fn add(&mut self, pick: u8, step: Step) {
        if step.event == Event::Idle {
            return;
        }
        let i = usize::from(pick);
        self.rules[i] = step.event as usize + usize::from(step.stale.unwrap_or(0));
        self.backs[i] += usize::from(step.event == Event::SentBack);
        self.committed |= step.event == Event::Commit && self.backs[i] > 0;
    }
}

/// Calls one after the other from a fresh state, steps and runs mixed, some of them refused. After each one the records'
/// send-backs add up to `back` of all calls; and the same picks as single steps leave the same, each record having after
/// every step what the steps told of its thread.
fn recounted(rng: &mut Rng, tally: &mut Tally) -> Result<(), String> {
    let tree = match rng.below(8) {
        0 => accepted(rng, any_tree),
        1 => contested(rng),
        _ => tangled(rng),
    };
    let code = kuspigo::compile(&tree.job()).map_err(|refusal| refusal.to_string())?;
    let mut state = kuspigo::State::fresh(&code).map_err(|refusal| refusal.to_string())?;
    let mut single = state.clone();
    let mut told = Told::default();
    // sent back in all calls, and calls in which something was
    let mut all = 0;
    let mut calls_with_back = 0;
    let mut lists = Vec::new();
    for _ in 0..rng.between(1, 9) {
        let count = rng.choose(&[0, 3, 10, 10, 20, 40, 60]);
        let list = match rng.one_in(3) {
            true => picks(rng, 1, tree.forks() + 1),
            false => picks(rng, count, tree.forks() + 1),
        };
        lists.push(hex(&list));
        let differs = |what: String| Err(format!("code {}\ncalls {lists:?}\n{what}", hex(&code)));
        if rng.one_in(8) {
            let before = state.clone();
            let refused = match rng.one_in(2) {
                true => state.run(&code, &[0; 32_769]),
                false => {
                    let (counts, threads) = rng.choose(&[(64, 15), (63, 16), (0, 16)]);
                    let (counts, threads) = (&mut state.counts[..counts], &mut state.threads[..threads]);
                    kuspigo::run(&code, &mut state.registers, counts, threads, &list)
                }
            };
            if refused.is_ok() || state != before {
                return differs(format!("a call that has to be refused: {refused:?}"));
            }
            tally.add("calls: refused", 1);
        }
        let earlier = all;
        if list.len() == 1 && rng.one_in(2) {
            let step = state.step(&code, list[0]).map_err(|refusal| refusal.to_string())?;
            all += usize::from(step.event == Event::SentBack);
            tally.add("calls: a step", 1);
        } else {
            let counts = state.run(&code, &list).map_err(|refusal| refusal.to_string())?;
            all += counts.back;
            tally.add("calls: a run", 1);
            tally.add_if(list.is_empty(), "calls: a run without picks");
            tally.add("picks: steps", counts.steps);
            tally.add("picks: idle", counts.idle);
            tally.add("picks: commits", counts.commits);
            tally.add("picks: back", counts.back);
        }
        calls_with_back += usize::from(all > earlier);
        for &pick in &list {
            let step = single.step(&code, pick).map_err(|refusal| refusal.to_string())?;
            told.add(pick, step);
            tally.add_if(step.stale == Some(63), "sent back: register 63");
            let (rules, backs) = (single.threads.map(|thread| thread.rule), single.threads.map(|thread| thread.backs));
            if (rules, backs) != (told.rules, told.backs) {
                let told = (told.rules, told.backs);
                return differs(format!("{step:?} leaves rules and backs {:?}, told were {told:?}", (rules, backs)));
            }
        }
        if state != single {
            return differs(String::from("the calls leave another state than single steps"));
        }
        let backs = state.threads.map(|thread| thread.backs);
        if backs.iter().sum::<usize>() != all {
            return differs(format!("backs {backs:?}, {all} sent back in all calls"));
        }
    }
    tally.add_if(calls_with_back > 1, "sent back: in several calls");
    tally.add_if(told.backs.iter().filter(|&&backs| backs > 0).count() > 1, "sent back: several threads");
    tally.add_if(told.backs.iter().any(|&backs| backs > 1), "sent back: a thread twice");
    tally.add_if(told.committed, "sent back: before a commit of the thread");
    for thread in state.threads.iter().filter(|thread| thread.exists()) {
        match thread.last_rule() {
            Rule::SentBack(_) => tally.add("last rule: sent back", 1),
            rule => tally.add(&format!("last rule: {rule}"), 1),
        }
    }
    Ok(())
}

/// Threads with several transactions that read and write the same few registers.
fn tangled(rng: &mut Rng) -> Process {
    let registers = rng.between(1, 3);
    let far = rng.one_in(8);
    let several = |rng: &mut Rng| {
        let mut parts = Vec::new();
        for _ in 0..rng.between(1, 3) {
            let nodes = rng.between(2, 9);
            let shape = Shape { nodes, room: 20, forks: 0, transaction: nodes, registers, lean: Lean::Any };
            // register 63 alone
            parts.push(if far {
                let sum = Transaction::Add(Box::new(Transaction::Read(63)), Box::new(Transaction::Val(rng.number())));
                Process::Atomic(Box::new(Transaction::Write(63, Box::new(sum))))
            } else {
                shape.atomic(rng)
            });
        }
        sum(parts)
    };
    let mut parts = vec![several(rng)];
    for _ in 0..rng.between(1, 3) {
        let child = Process::Fork(Box::new(several(rng)));
        let at = rng.below(parts.len() + 1);
        parts.insert(at, child);
    }
    sum(parts)
}

// The registers' counts beside the write logs of commits.

/// A run's registers, followed from its steps and its threads' logs alone.
struct Followed {
    /// The values that each register has had: one more for each commit that wrote it.
    values: Vec<Vec<i32>>,
    /// Of each thread the registers of its read log, and how many values they had had when they entered it.
    entered: [BTreeMap<u8, usize>; 16],
    /// Of each thread the registers that its attempt wrote by more than one WRITE.
    twice: [RegisterSet; 16],
}

impl Followed {
    /// How often commits have written each register.
    fn counts(&self) -> [u32; 64] {
        std::array::from_fn(|register| self.values[register].len() as u32 - 1)
    }

    /// The values that a register has had since it entered a thread's read log, and the one that was read before them.
    fn since(&self, thread: usize, register: u8) -> &[i32] {
        &self.values[usize::from(register)][self.entered[thread][&register] - 1..]
    }

    /// Follows a step of a thread, which is not idle, from the state before it; says what is not as it has to be.
    fn add(&mut self, code: &[u8], before: &kuspigo::State, i: usize, step: Step) -> Result<(), String> {
        let was = &before.threads[i];
        let named = code.get(was.place + 1).copied().unwrap_or(0);
        match step.event {
            Event::ReadTable => {
                self.entered[i].insert(named, self.values[usize::from(named)].len());
            }
            Event::Write if (RegisterSet { bits: was.writes }).contains(named) => self.twice[i].insert(named),
            Event::Commit | Event::SentBack => {
                let stale = self.entered[i].keys().copied().find(|&register| self.since(i, register).len() > 1);
                if (step.stale, step.event == Event::Commit) != (stale, stale.is_none()) {
                    return Err(format!("{step:?}, and by the write logs {stale:?} is stale"));
                }
                if step.event == Event::Commit {
                    let is_other =
                        |&register: &u8| was.readlog[usize::from(register)] != before.registers[usize::from(register)];
                    if let Some(register) = (RegisterSet { bits: was.reads }).iter().find(is_other) {
                        return Err(format!("a commit took effect, and register {register} is not what was read"));
                    }
                    for register in (RegisterSet { bits: was.writes }).iter() {
                        self.values[usize::from(register)].push(was.writelog[usize::from(register)]);
                    }
                }
                self.entered[i].clear();
                self.twice[i] = RegisterSet::default();
            }
            _ => {}
        }
        Ok(())
    }

    /// Whether a state has these registers and counts, and each read log these registers with their counts.
    fn is_in(&self, state: &kuspigo::State) -> bool {
        let logs = state.threads.iter().zip(&self.entered).all(|(thread, entered)| {
            let mut marks = RegisterSet::default();
            let mut counts = [0; 64];
            for (&register, &values) in entered {
                marks.insert(register);
                counts[usize::from(register)] = values as u32 - 1;
            }
            (thread.reads, thread.readcounts) == (marks.bits, counts)
        });
        let last: Vec<i32> = self.values.iter().map(|values| values[values.len() - 1]).collect();
        logs && state.counts == self.counts() && state.registers[..] == last
    }
}

/// Picks from a fresh state: after each one every register's count is the number of commits that wrote it, by the write
/// logs before them; a COMMIT is sent back exactly if one of them wrote a register since it entered the read log, with the
/// lowest such; and one that takes effect finds each value that was read in the table.
fn followed(rng: &mut Rng, tally: &mut Tally) -> Result<(), String> {
    let tree = match rng.below(8) {
        0 => accepted(rng, any_tree),
        1 => contested(rng),
        2 | 3 => tangled(rng),
        _ => swinging(rng),
    };
    let code = kuspigo::compile(&tree.job()).map_err(|refusal| refusal.to_string())?;
    let mut state = kuspigo::State::fresh(&code).map_err(|refusal| refusal.to_string())?;
    let mut whole = state.clone();
    let mut followed = Followed {
        values: vec![vec![0]; 64],
        entered: std::array::from_fn(|_| BTreeMap::new()),
        twice: [RegisterSet::default(); 16],
    };
    let count = rng.choose(&[20, 40, 80, 160]);
    let list = picks(rng, count, tree.forks() + 1);
    let differs = |what: String| Err(format!("code {}\npicks {}\n{what}", hex(&code), hex(&list)));
    for (at, &pick) in list.iter().enumerate() {
        let before = state.clone();
        let step = state.step(&code, pick).map_err(|refusal| refusal.to_string())?;
        if step.event != Event::Idle {
            let i = usize::from(pick);
            tally.writings(&followed, &before, i, step);
            if let Err(what) = followed.add(&code, &before, i, step) {
                return differs(format!("pick {}: {what}", at + 1));
            }
        }
        if !followed.is_in(&state) {
            return differs(format!(
                "pick {} leaves the counts {:?}, and {:?} is right",
                at + 1,
                state.counts,
                followed.counts()
            ));
        }
    }
    whole.run(&code, &list).map_err(|refusal| refusal.to_string())?;
    match whole == state {
        true => Ok(()),
        false => differs(String::from("one run leaves another state than steps")),
    }
}

/// Threads that set the same few registers to 0 and 1 again and again, and others that read them.
fn swinging(rng: &mut Rng) -> Process {
    let registers = rng.choose(&[&[0][..], &[0, 1], &[63], &[0, 63]]);
    let one = |rng: &mut Rng| {
        let register = rng.choose(registers);
        let value = |rng: &mut Rng| Box::new(Transaction::Val(rng.below(2) as i32));
        let read = |rng: &mut Rng| Box::new(Transaction::Read(rng.choose(registers)));
        Process::Atomic(Box::new(match rng.below(8) {
            0 => Transaction::Val(1),
            1 => Transaction::Add(read(rng), read(rng)),
            2 => Transaction::Write(register, read(rng)),
            3 => Transaction::Write(register, Box::new(Transaction::Write(rng.choose(registers), value(rng)))),
            4 => Transaction::Write(2, Box::new(Transaction::Add(read(rng), read(rng)))),
            _ => Transaction::Write(register, value(rng)),
        }))
    };
    let several = |rng: &mut Rng| {
        let count = rng.between(1, 4);
        sum((0..count).map(|_| one(rng)).collect())
    };
    let mut parts = vec![several(rng)];
    for _ in 0..rng.between(1, 4) {
        parts.insert(0, Process::Fork(Box::new(several(rng))));
    }
    sum(parts)
}

// Jobs, codes and inputs.

fn any_tree(rng: &mut Rng) -> Process {
    let nodes = match rng.below(200) {
        0 | 1 => rng.between(300, 1_000),
        2..=15 => rng.between(41, 300),
        16..=99 => rng.between(13, 40),
        _ => rng.between(1, 12),
    };
    let shape = Shape {
        nodes,
        room: rng.choose(&[11, 20, 64, 64]),
        forks: rng.choose(&[0, 2, 4, 15]),
        transaction: rng.choose(&[12, 200]),
        registers: rng.between(1, 4),
        lean: rng.choose(&[Lean::Even, Lean::Left, Lean::Right, Lean::Any]),
    };
    let tree = shape.tree(rng);
    if rng.one_in(3) {
        far(rng, tree)
    } else {
        tree
    }
}

/// A tree at one of the limits: on either side of it, or on the last step before it.
fn limit_tree(rng: &mut Rng) -> Process {
    match rng.below(19) {
        0 if rng.one_in(2) => {
            // 1,000 nodes with the longest code
            let forks = rng.choose(&[1, 3, 15]);
            let mut parts: Vec<Process> = (0..(1_001 - forks) / 2).map(|_| Process::Val(rng.number())).collect();
            for _ in 0..forks {
                let part = &mut parts[rng.below(400)];
                *part = Process::Fork(Box::new(part.clone()));
            }
            sum(parts)
        }
        0 => {
            let nodes = rng.between(999, 1_001);
            let lean = rng.choose(&[Lean::Even, Lean::Left, Lean::Right, Lean::Any]);
            let forks = rng.choose(&[0, 15]);
            Shape { nodes, room: 64, forks, transaction: 200, registers: 3, lean }.tree(rng)
        }
        1..=7 => {
            let depth = rng.between(63, 66);
            let forks = rng.choose(&[0, 10, 15, 16, 40]);
            chain(rng, depth, forks)
        }
        8..=11 => {
            let mut tree = Process::Val(rng.number());
            for _ in 0..rng.between(14, 17) {
                let beside = Box::new(Process::Fork(Box::new(Process::Val(rng.number()))));
                tree = match rng.below(3) {
                    0 => Process::Fork(Box::new(tree)),
                    1 => Process::Add(Box::new(tree), beside),
                    _ => Process::Add(beside, Box::new(tree)),
                };
            }
            tree
        }
        12 => full_tree(rng),
        13 => long_tree(rng),
        _ => {
            let far = rng.choose(&[62, 63, 64, 65, 127, 128, 255]);
            let near = rng.choose(&[0, 63]);
            let t = match rng.below(3) {
                0 => Transaction::Read(far),
                1 => Transaction::Write(far, Box::new(Transaction::Read(near))),
                _ => Transaction::Write(near, Box::new(Transaction::Read(far))),
            };
            let beside = any_tree(rng);
            Process::Add(Box::new(Process::Atomic(Box::new(t))), Box::new(beside))
        }
    }
}

/// A tree with a transaction of 200 nodes, and perhaps another of nearly so many.
fn full_tree(rng: &mut Rng) -> Process {
    let other = rng.between(190, 200);
    with_transactions(rng, &[200, other])
}

/// A tree that is turned down only for a transaction of more than 200 nodes, or two; others may have 200 or fewer.
fn long_tree(rng: &mut Rng) -> Process {
    let long = rng.choose(&[201, 201, 202, 300]);
    let other = rng.choose(&[20, 200, 201, 300]);
    with_transactions(rng, &[long, other])
}

/// A tree with a transaction of the first number of nodes, ATOMIC not counted, perhaps one of the second, and small
/// processes.
fn with_transactions(rng: &mut Rng, nodes: &[usize; 2]) -> Process {
    let mut parts = Vec::new();
    for &nodes in &nodes[..rng.between(1, 2)] {
        let lean = rng.choose(&[Lean::Even, Lean::Left, Lean::Right, Lean::Any]);
        let room = rng.choose(&[12, 30, 56]);
        parts.push(Shape { nodes, room, forks: 0, transaction: nodes, registers: 3, lean }.atomic(rng));
    }
    for _ in 0..rng.below(4) {
        let nodes = rng.between(1, 9);
        parts.push(Shape { nodes, room: 20, forks: 2, transaction: 9, registers: 3, lean: Lean::Any }.tree(rng));
    }
    for i in 1..parts.len() {
        parts.swap(i, rng.below(i + 1));
    }
    let parts = parts.into_iter().map(|part| if rng.one_in(3) { Process::Fork(Box::new(part)) } else { part });
    let tree = sum(parts.collect());
    if rng.one_in(4) {
        Process::Fork(Box::new(tree))
    } else {
        tree
    }
}

fn any_job(rng: &mut Rng) -> Vec<u8> {
    let mut job = match rng.below(40) {
        0..=3 => random_nodes(rng),
        4 => {
            let count = rng.below(40);
            bytes(rng, count)
        }
        5..=16 => limit_tree(rng).job(),
        _ => any_tree(rng).job(),
    };
    if rng.one_in(3) {
        return job;
    }
    damage_somehow(rng, &mut job);
    job
}

/// Damages a job, and perhaps once more where it is refused, so that two reasons meet.
fn damage_somehow(rng: &mut Rng, job: &mut Vec<u8>) {
    for _ in 0..rng.choose(&[1, 1, 1, 2, 3]) {
        damage(rng, job, 5);
    }
    if rng.one_in(3) {
        if let Err(refusal) = plain::compile(job, &mut [0; 3_100]) {
            match rng.below(4) {
                0 => job.truncate(refusal.place + rng.below(6)),
                1 if refusal.place < job.len() => job[refusal.place] = rng.below(10) as u8,
                2 if job.len() > 6 => set_count(rng, job),
                _ => damage(rng, job, 5),
            }
        }
    }
}

/// A good head, then kinds that are mostly permitted, each with its operand.
fn random_nodes(rng: &mut Rng) -> Vec<u8> {
    let count = rng.between(1, 12);
    let mut job = b"WSJ\x00\x01\x00".to_vec();
    job.push(count as u8);
    for _ in 0..count {
        let kind = rng.between(0, 9) as u8;
        job.push(kind);
        match kind {
            1 | 5 => job.extend(rng.number().to_be_bytes()),
            7 | 8 => job.push(rng.below(70) as u8),
            _ => {}
        }
    }
    job
}

fn set_count(rng: &mut Rng, job: &mut [u8]) {
    let count = u16::from_be_bytes([job[5], job[6]]);
    let count = match rng.below(6) {
        0 => count.wrapping_sub(1),
        1 => count.wrapping_add(1),
        2 => rng.below(20) as u16,
        3 => rng.choose(&[0, 1, 999, 1_000, 1_001, 65_535]),
        4 => rng.below(count as usize + 1) as u16,
        _ => rng.draw() as u16,
    };
    job[5..7].copy_from_slice(&count.to_be_bytes());
}

/// Changes some bytes; `count` is where a number of two bytes stands.
fn damage(rng: &mut Rng, bytes: &mut Vec<u8>, count: usize) {
    if bytes.is_empty() {
        bytes.push(rng.byte());
        return;
    }
    let at = rng.below(bytes.len());
    match rng.below(12) {
        0 => bytes[at] ^= 1 << rng.below(8),
        1 => bytes[at] = rng.byte(),
        2 | 3 => bytes[at] = rng.below(10) as u8,
        4 => bytes.truncate(at),
        5 => bytes.truncate(bytes.len().saturating_sub(rng.between(1, 6))),
        6 => {
            for _ in 0..rng.between(1, 3) {
                bytes.insert(at, rng.below(9) as u8);
            }
        }
        7 => {
            let end = (at + rng.between(1, 5)).min(bytes.len());
            bytes.drain(at..end);
        }
        8 => {
            let at = rng.below(bytes.len().min(7));
            bytes[at] = rng.choose(&[0, 1, 2, 0x43, 0x4A, 0x53, 0x57, 0xFF]);
        }
        9 if bytes.len() >= count + 2 => match count {
            5 => set_count(rng, bytes),
            _ => bytes[count + 1] = bytes[count + 1].wrapping_add(1),
        },
        10 => {
            let end = (at + rng.between(1, 12)).min(bytes.len());
            let again = bytes[at..end].to_vec();
            let to = rng.between(at, bytes.len());
            bytes.splice(to..to, again);
        }
        _ => bytes.extend([1, 0, 0, 0, 7].iter().take(rng.between(1, 5))),
    }
}

fn any_code(rng: &mut Rng) -> Vec<u8> {
    let mut code = match rng.below(12) {
        0 => random_instructions(rng),
        1 | 2 => {
            let mut code = b"WSC\x00\x01".to_vec();
            loose(rng, &mut code, 4);
            code
        }
        3..=5 => limit_tree(rng).code(),
        _ => any_tree(rng).code(),
    };
    match rng.below(6) {
        0 | 1 => {
            for _ in 0..rng.choose(&[1, 1, 2]) {
                let fork = instructions(&code).into_iter().find(|&at| code[at] == 7);
                damage(rng, &mut code, fork.map_or(3, |at| at + 1));
            }
        }
        2 => shuffle_instructions(rng, &mut code),
        _ => {}
    }
    code
}

fn random_instructions(rng: &mut Rng) -> Vec<u8> {
    let mut code = b"WSC\x00\x01".to_vec();
    for _ in 0..rng.between(0, 10) {
        let op = rng.choose(&[1, 1, 1, 2, 2, 3, 4, 5, 6, 7, 0, 8]);
        code.push(op);
        match op {
            1 => code.extend(rng.number().to_be_bytes()),
            3 | 4 => code.push(rng.below(70) as u8),
            7 => code.extend([0, rng.below(12) as u8]),
            _ => {}
        }
    }
    code
}

/// Code that leaves one number, with its parts mostly of the right sort.
fn loose(rng: &mut Rng, code: &mut Vec<u8>, room: usize) {
    match if room == 0 { rng.below(3) } else { rng.below(10) } {
        0 => code.extend([3, rng.below(3) as u8]),
        1 | 2 => {
            code.push(1);
            code.extend(rng.number().to_be_bytes());
        }
        3 | 4 => {
            loose(rng, code, room - 1);
            loose(rng, code, room - 1);
            code.push(2);
        }
        5 => {
            loose(rng, code, room - 1);
            code.extend([4, rng.below(3) as u8]);
        }
        6 | 7 => {
            code.push(5);
            loose(rng, code, room - 1);
            code.push(6);
        }
        _ => {
            code.extend([7, 0, 0]);
            let start = code.len();
            if !rng.one_in(20) {
                loose(rng, code, room - 1);
            }
            let length = (code.len() - start) as u16;
            let length = if rng.one_in(10) { rng.below(2 * code.len()) as u16 } else { length };
            code[start - 2..start].copy_from_slice(&length.to_be_bytes());
        }
    }
}

/// Where instructions start, as far as the code can be read.
fn instructions(code: &[u8]) -> Vec<usize> {
    let mut starts = Vec::new();
    let mut at = 5;
    while at < code.len() {
        let length = match code[at] {
            1 => 5,
            2 | 5 | 6 => 1,
            3 | 4 => 2,
            7 => 3,
            _ => break,
        };
        if at + length > code.len() {
            break;
        }
        starts.push(at);
        at += length;
    }
    starts
}

/// Leaves an instruction out, doubles it or moves it.
fn shuffle_instructions(rng: &mut Rng, code: &mut Vec<u8>) {
    let starts = instructions(code);
    if starts.len() < 2 {
        return;
    }
    let i = rng.below(starts.len() - 1);
    let one = code[starts[i]..starts[i + 1]].to_vec();
    let to = rng.choose(&starts);
    match rng.below(3) {
        0 => {
            code.drain(starts[i]..starts[i + 1]);
        }
        1 => {
            code.splice(to..to, one);
        }
        _ => {
            code.drain(starts[i]..starts[i + 1]);
            let to = if to > starts[i] { to - one.len() } else { to };
            code.splice(to..to, one);
        }
    }
}

/// An input of the run program.
fn any_input(rng: &mut Rng) -> Vec<u8> {
    let job = match rng.below(8) {
        0 | 1 => any_job(rng),
        2 => limit_tree(rng).job(),
        3 => {
            let threads = rng.between(1, 5);
            many_small(rng.between(12, 60) * threads, threads).job()
        }
        4 => contested(rng).job(),
        _ => any_tree(rng).job(),
    };
    let length = match rng.below(24) {
        0 => rng.below(job.len() + 1),
        1 => job.len() + rng.below(20),
        _ => job.len(),
    };
    let count = match rng.below(400) {
        0 => 32_768,
        1 => 32_769,
        2 => 70_000,
        3..=200 => rng.between(40, 400),
        _ => rng.below(40),
    };
    let threads = rng.between(1, 5);
    let mut input = (length as u16).to_be_bytes().to_vec();
    input.extend(&job);
    input.extend(picks(rng, count, threads));
    match rng.below(40) {
        0 => input.truncate(rng.below(input.len() + 1)),
        1 => input.truncate(rng.below(3)),
        2 => input.truncate((2 + length).saturating_sub(rng.below(2))),
        3 => damage(rng, &mut input, 5),
        4 if rng.one_in(8) => {
            // a job longer than any that is accepted
            let length = rng.between(3_000, 65_535);
            input = (length as u16).to_be_bytes().to_vec();
            input.extend(&job);
            input.resize(2 + length + rng.below(3), 0);
        }
        _ => {}
    }
    input
}

// States.

#[derive(Clone)]
struct State {
    registers: [i32; 64],
    counts: [u32; 64],
    threads: [Thread; 16],
}

impl State {
    fn existing(&self) -> usize {
        self.threads.iter().filter(|thread| thread.exists()).count()
    }
}

/// What a call on a state is given.
struct Scene {
    /// How the state was made.
    what: &'static str,
    code: Vec<u8>,
    state: State,
    lent: Lent,
}

const REACHED: &str = "reached";
const FREE: &str = "with free values";
const RENUMBERED: &str = "renumbered";
const MADE: &str = "made up";
const BUSY: &str = "of a busy job";
const NOTED: &str = "with another note";
const RULED: &str = "with other rules and send-backs";
const COUNTED: &str = "with other counts";
/// By the note alone.
const TOO_HIGH: &str = "with a note too high";
/// By a number of send-backs above the COMMITs passed, and by a last rule or a send-back in a record of no thread.
const TOO_OFTEN: &str = "with too many send-backs";
const OF_NO_THREAD: &str = "with a rule of no thread";
/// Both sides of each limit of counts: a register's, of which the COMMITs passed are the most, a read log's, of which the
/// register's is the most, and send-backs while a read is stale, one below the COMMITs passed being the most. A count where
/// the log does not mark the register, or in a record of no thread. A value in a read log that is not the table's.
const AT_COMMITS: &str = "with counts at the COMMITs passed";
const ABOVE_COMMITS: &str = "with a count above them";
const AT_TABLE: &str = "with a log's count the table's";
const ABOVE_TABLE: &str = "with a log's count above the table's";
const BELOW_STALE: &str = "with a stale read, backs one below them";
const AT_STALE: &str = "with a stale read, backs at the COMMITs passed";
const UNMARKED: &str = "with a count not marked";
const COUNT_OF_NONE: &str = "with a count of no thread";
const OTHER_VALUE: &str = "with another value, backs at their limit";
const LIMITS: [&str; 9] =
    [AT_COMMITS, ABOVE_COMMITS, AT_TABLE, ABOVE_TABLE, BELOW_STALE, AT_STALE, UNMARKED, COUNT_OF_NONE, OTHER_VALUE];
/// States that fit whatever the implementations say,
const FITTING: [&str; 12] =
    [REACHED, FREE, RENUMBERED, MADE, BUSY, NOTED, RULED, COUNTED, AT_COMMITS, AT_TABLE, BELOW_STALE, OTHER_VALUE];
/// and states that do not.
const FOREIGN: [&str; 8] =
    [TOO_HIGH, TOO_OFTEN, OF_NO_THREAD, ABOVE_COMMITS, ABOVE_TABLE, AT_STALE, UNMARKED, COUNT_OF_NONE];
/// States that would fit their code if its transactions were not too long.
const TOO_LONG: &str = "and code of a long transaction";

/// A state that picks reached, or one made up from the rules, perhaps altered, for its code or another one.
fn any_scene(rng: &mut Rng) -> Scene {
    let code = any_accepted(rng);
    let made = rng.one_in(2);
    let state = if made { make_up(rng, &code) } else { reach(rng, &code, 400) };
    let what = if made { MADE } else { REACHED };
    let mut scene = Scene { what, code, state, lent: WHOLE };
    let Scene { what, code, state, lent } = &mut scene;
    match rng.below(36) {
        0..=5 => {}
        6 | 7 => {
            *what = FREE;
            free_values(rng, state);
            free_counts(rng, code, state);
            free_backs(rng, code, state);
        }
        8 => {
            *what = RENUMBERED;
            renumber(rng, state);
        }
        9..=13 => {
            *what = "with another field";
            alter_field(rng, code, state);
        }
        14..=16 => {
            *what = "with other records";
            alter_records(rng, code, state);
        }
        17 | 26 => {
            *what = "of other lengths";
            *lent = wrong_lengths(rng);
            if rng.one_in(4) {
                damage(rng, code, 3);
            }
        }
        18 => {
            *what = "and damaged code";
            damage(rng, code, 3);
            if rng.one_in(4) {
                alter_field(rng, code, state);
            }
        }
        19 => {
            *what = NOTED;
            free_notes(rng, code, state);
        }
        20 => {
            *what = TOO_HIGH;
            let i = rng.below(state.existing() + 1).min(15);
            let most = adds_passed(code, &state.threads[i]);
            state.threads[i].over = rng.choose(&[most + 1, most + 1, most + 2, most + 64, usize::MAX]);
        }
        21 => {
            *what = TOO_LONG;
            *code = long_tree(rng).code();
            *state = make_up(rng, code);
        }
        22 => {
            *what = RULED;
            free_backs(rng, code, state);
        }
        23 => {
            *what = TOO_OFTEN;
            let most = commits_passed(code, state);
            let i = rng.below(state.existing());
            state.threads[i].backs = rng.choose(&[most + 1, most + 1, most + 1, most + 2, most + 256, usize::MAX]);
        }
        24 => {
            if let Some(thread) = of_no_thread(rng, state) {
                *what = OF_NO_THREAD;
                match rng.one_in(2) {
                    true => thread.rule = rng.choose(&[1, 9, 10, 255, usize::MAX]),
                    false => thread.backs = rng.choose(&[1, 2, usize::MAX]),
                }
            }
        }
        25 => {
            *what = COUNTED;
            free_counts(rng, code, state);
            free_backs(rng, code, state);
        }
        27..=34 => {
            let limit = rng.choose(&LIMITS);
            if put_at(rng, code, state, limit).is_some() {
                *what = limit;
            }
        }
        _ => {
            *what = "and other code";
            *code = any_code(rng);
        }
    }
    scene
}

/// The fresh state of a job with much to do at the same registers.
fn busy_scene(rng: &mut Rng) -> Scene {
    let nodes = rng.between(200, 1_000);
    let threads = rng.between(1, 16);
    let code = many_small(nodes, threads).code();
    let state = reach(rng, &code, 1);
    Scene { what: BUSY, code, state, lent: WHOLE }
}

fn any_accepted(rng: &mut Rng) -> Vec<u8> {
    let tree = accepted(rng, |rng| match rng.below(12) {
        0 => limit_tree(rng),
        1 => contested(rng),
        _ => any_tree(rng),
    });
    tree.code()
}

/// The first tree that comes whose job is accepted.
fn accepted(rng: &mut Rng, tree: fn(&mut Rng) -> Process) -> Process {
    loop {
        let tree = tree(rng);
        if plain::compile(&tree.job(), &mut [0; 3_100]).is_ok() {
            return tree;
        }
    }
}

/// A state that fewer picks than this reach from the fresh one.
fn reach(rng: &mut Rng, code: &[u8], most: usize) -> State {
    let mut state = State { registers: [0; 64], counts: [0; 64], threads: [Thread::ABSENT; 16] };
    plain::fresh(code, &mut state.registers, &mut state.counts, &mut state.threads).expect("the code is a job's");
    let places = instructions(code);
    let forks = places.iter().filter(|&&at| code[at] == 7).count();
    let count = rng.below(most.min(2 * places.len()));
    let list = picks(rng, count, 1 + forks);
    plain::run(code, &mut state.registers, &mut state.counts, &mut state.threads, &list).expect("a fresh state fits");
    state
}

/// A state that fits, by the rules alone: each thread stands anywhere in its code, each FORK behind it has a thread.
fn make_up(rng: &mut Rng, code: &[u8]) -> State {
    let mut threads = vec![(5, code.len())];
    let registers = [0; 64].map(|_| rng.number());
    let mut state = State { registers, counts: [0; 64], threads: [Thread::ABSENT; 16] };
    let mut made = 0;
    while made < threads.len() {
        let (start, end) = threads[made];
        let thread = &mut state.threads[made];
        (thread.start, thread.end) = (start, end);
        // its own instructions with the stack height in front of each, then its end
        let mut own = Vec::new();
        let (mut at, mut height) = (start, 0);
        while at < end {
            own.push((at, height));
            let (length, change) = match code[at] {
                1 => (5, 1),
                2 => (1, -1),
                3 => (2, 1),
                4 => (2, 0),
                7 => (3 + usize::from(u16::from_be_bytes([code[at + 1], code[at + 2]])), 1),
                _ => (1, 0),
            };
            at += length;
            height += change;
        }
        own.push((end, height));
        let of = |op: u8| -> Vec<usize> { (0..own.len() - 1).filter(|&i| code[own[i].0] == op).collect() };
        let (adds, commits) = (of(2), of(6));
        let stands = match rng.below(8) {
            0 => own.len() - 1,
            1 | 2 if !commits.is_empty() => rng.choose(&commits),
            3 | 4 if !adds.is_empty() => rng.choose(&adds),
            _ => rng.below(own.len()),
        };
        thread.place = own[stands].0;
        thread.height = own[stands].1 as usize;
        for &(at, height) in &own[..stands] {
            match code[at] {
                5 => (thread.begin, thread.base) = (at, height as usize),
                6 => (thread.begin, thread.base) = (0, 0),
                7 => threads.push((at + 3, at + 3 + usize::from(u16::from_be_bytes([code[at + 1], code[at + 2]])))),
                _ => {}
            }
        }
        made += 1;
    }
    renumber(rng, &mut state);
    free_values(rng, &mut state);
    free_counts(rng, code, &mut state);
    free_notes(rng, code, &mut state);
    free_backs(rng, code, &mut state);
    state
}

/// Picks of the first so many threads, each alone, in turns or mixed, with a few others.
fn picks(rng: &mut Rng, count: usize, threads: usize) -> Vec<u8> {
    let burst = rng.choose(&[1, 1, 2, 5, 9]);
    let mut list = Vec::with_capacity(count + burst);
    while list.len() < count {
        let who = match rng.below(32) {
            0 => rng.byte(),
            1 => rng.below(17) as u8,
            _ => rng.below(threads) as u8,
        };
        for _ in 0..rng.between(1, burst) {
            list.push(who);
        }
    }
    list.truncate(count);
    list
}

fn one_pick(rng: &mut Rng, state: &State) -> u8 {
    let open: Vec<u8> = (0..16).filter(|&i| state.threads[i].place != state.threads[i].end).map(|i| i as u8).collect();
    match rng.below(12) {
        0 => rng.byte(),
        1 => rng.below(17) as u8,
        _ if open.is_empty() => rng.below(3) as u8,
        _ => rng.choose(&open),
    }
}

/// Other values wherever they are free: in registers, on stacks and in the logs of open transactions, which mark other
/// registers. The counts have to follow.
fn free_values(rng: &mut Rng, state: &mut State) {
    let ends = rng.one_in(2);
    let number = if ends { Rng::far_number } else { Rng::number };
    for _ in 0..rng.below(5) {
        state.registers[rng.below(4)] = number(rng);
    }
    if rng.one_in(4) {
        state.registers[rng.below(64)] = rng.draw() as i32;
    }
    for thread in state.threads.iter_mut().filter(|thread| thread.exists()) {
        for cell in &mut thread.cells[..thread.height] {
            if ends || rng.one_in(3) {
                *cell = number(rng);
            }
        }
        if thread.begin == 0 {
            continue;
        }
        let mut marks = [thread.reads, thread.writes];
        for marks in &mut marks {
            match rng.below(4) {
                0 => *marks ^= 1 << rng.below(64),
                1 => *marks |= rng.draw() & rng.draw(),
                2 => *marks &= rng.draw(),
                _ => {}
            }
        }
        [thread.reads, thread.writes] = marks;
        for register in 0..64 {
            let value = if rng.one_in(3) { number(rng) } else { state.registers[register] };
            thread.readlog[register] = if thread.reads >> register & 1 == 1 { value } else { 0 };
            thread.writelog[register] = if thread.writes >> register & 1 == 1 { number(rng) } else { 0 };
        }
    }
}

/// Other counts of sums in the notes of open transactions, none above the ADDs passed.
fn free_notes(rng: &mut Rng, code: &[u8], state: &mut State) {
    for thread in &mut state.threads {
        thread.over = rng.below(adds_passed(code, thread) + 1);
    }
}

/// The ADDs that an open transaction has passed since its BEGIN; 0 if none is open.
fn adds_passed(code: &[u8], thread: &Thread) -> usize {
    let inside = |at: usize| thread.begin > 0 && thread.begin < at && at < thread.place;
    instructions(code).into_iter().filter(|&at| inside(at) && code[at] == 2).count()
}

/// Other counts, none of a register above the COMMITs passed, none of a read log above the register's. Often they are the
/// same in all of a read log, so that a COMMIT can take effect.
fn free_counts(rng: &mut Rng, code: &[u8], state: &mut State) {
    let most = commits_passed(code, state);
    for count in &mut state.counts {
        match rng.below(6) {
            0 => *count = most as u32,
            1 | 2 => *count = rng.below(most + 1) as u32,
            _ => {}
        }
    }
    for thread in &mut state.threads {
        let all_same = rng.one_in(2);
        for (register, &count) in state.counts.iter().enumerate() {
            thread.readcounts[register] = match thread.reads >> register & 1 == 1 {
                true if all_same || rng.one_in(2) => count,
                true => rng.below(count as usize + 1) as u32,
                false => 0,
            };
        }
    }
}

/// Other last rules, and other numbers of send-backs, none above the COMMITs passed, below them if a read is stale.
fn free_backs(rng: &mut Rng, code: &[u8], state: &mut State) {
    let commits = commits_passed(code, state);
    for thread in state.threads.iter_mut().filter(|thread| thread.exists()) {
        if rng.one_in(2) {
            thread.rule = rng.choose(&[0, 1, 9, 10, 42, 73, 74, 255, usize::MAX]);
        }
        let most = commits - usize::from(has_stale(thread, &state.counts));
        thread.backs = if rng.one_in(2) { most } else { rng.below(most + 1) };
    }
}

/// A record of no thread, if there is one.
fn of_no_thread<'a>(rng: &mut Rng, state: &'a mut State) -> Option<&'a mut Thread> {
    let first = state.existing();
    (first < 16).then(|| &mut state.threads[rng.between(first, 15)])
}

/// A state that fits put at a limit or beyond it, beyond no other one where that can be; nothing if there is no thread for
/// it, or no COMMIT passed that it needs.
fn put_at(rng: &mut Rng, code: &[u8], state: &mut State, limit: &str) -> Option<()> {
    let commits = commits_passed(code, state);
    let register = rng.below(64);
    let above = |rng: &mut Rng, count: u32| rng.choose(&[count + 1, count + 1, count + 2, count + 256, u32::MAX]);
    // a count with which the register is not stale, above 0 if there can be one
    let written = |rng: &mut Rng, state: &mut State| {
        let count = rng.between(commits.min(1), commits) as u32;
        recount(state, register, count);
        count as usize
    };
    let open: Vec<usize> = (0..16).filter(|&i| state.threads[i].begin > 0).collect();
    let chosen = |rng: &mut Rng| (!open.is_empty()).then(|| rng.choose(&open));
    match limit {
        AT_COMMITS if commits > 0 => {
            let all = rng.one_in(4);
            for register in if all { 0..64 } else { register..register + 1 } {
                recount(state, register, commits as u32);
            }
        }
        ABOVE_COMMITS => recount(state, register, above(rng, commits as u32)),
        AT_TABLE if commits > 0 => {
            let i = chosen(rng)?;
            let count = written(rng, state);
            mark(&mut state.threads[i], register, rng.number(), count as u32);
        }
        ABOVE_TABLE => {
            let i = chosen(rng)?;
            let count = above(rng, state.counts[register]);
            let thread = &mut state.threads[i];
            mark(thread, register, rng.number(), count);
            thread.backs = thread.backs.min(commits.saturating_sub(1));
        }
        AT_STALE | BELOW_STALE if commits > 0 => {
            let i = chosen(rng)?;
            let count = written(rng, state);
            let value = if rng.one_in(2) { state.registers[register] } else { rng.number() };
            let thread = &mut state.threads[i];
            mark(thread, register, value, rng.below(count) as u32);
            thread.backs = if limit == AT_STALE { commits } else { commits - 1 };
        }
        UNMARKED => {
            let i = if rng.one_in(2) { rng.below(state.existing()) } else { chosen(rng)? };
            let count = written(rng, state).max(1);
            let thread = &mut state.threads[i];
            thread.reads &= !(1 << register);
            thread.readlog[register] = 0;
            thread.readcounts[register] = rng.between(1, count) as u32;
        }
        COUNT_OF_NONE => {
            let count = written(rng, state).max(1);
            of_no_thread(rng, state)?.readcounts[register] = rng.between(1, count) as u32;
        }
        OTHER_VALUE => {
            let i = chosen(rng)?;
            let value = state.registers[register].wrapping_add(rng.choose(&[1, -1, 1 << 30]));
            let thread = &mut state.threads[i];
            mark(thread, register, value, state.counts[register]);
            thread.backs = commits - usize::from(has_stale(thread, &state.counts));
        }
        _ => return None,
    }
    Some(())
}

/// Another count of a register; where a read log marks it, that has the same.
fn recount(state: &mut State, register: usize, count: u32) {
    state.counts[register] = count;
    for thread in state.threads.iter_mut().filter(|thread| thread.reads >> register & 1 == 1) {
        thread.readcounts[register] = count;
    }
}

/// A register in a read log, with its value and count.
fn mark(thread: &mut Thread, register: usize, value: i32, count: u32) {
    thread.reads |= 1 << register;
    (thread.readlog[register], thread.readcounts[register]) = (value, count);
}

fn is_stale(thread: &Thread, counts: &[u32; 64], register: usize) -> bool {
    thread.reads >> register & 1 == 1 && thread.readcounts[register] != counts[register]
}

fn has_stale(thread: &Thread, counts: &[u32; 64]) -> bool {
    (0..64).any(|register| is_stale(thread, counts, register))
}

/// The COMMITs that all threads have passed: those of its own code in front of each one's place.
fn commits_passed(code: &[u8], state: &State) -> usize {
    let places = instructions(code);
    let mut codes = vec![(5, code.len())];
    codes.extend(places.iter().filter(|&&at| code[at] == 7).map(|&at| {
        let length = usize::from(u16::from_be_bytes([code[at + 1], code[at + 2]]));
        (at + 3, at + 3 + length)
    }));
    // the shortest code around it
    let owner =
        |at: usize| codes.iter().filter(|own| own.0 <= at && at < own.1).min_by_key(|own| own.1 - own.0).unwrap();
    let commits: Vec<(usize, &(usize, usize))> =
        places.iter().filter(|&&at| code[at] == 6).map(|&at| (at, owner(at))).collect();
    let threads = state.threads.iter();
    threads.map(|t| commits.iter().filter(|&&(at, own)| *own == (t.start, t.end) && at < t.place).count()).sum()
}

/// Another value in one field of one record.
fn alter_field(rng: &mut Rng, code: &[u8], state: &mut State) {
    let existing = state.existing();
    let i = if existing > 0 && !rng.one_in(6) { rng.below(existing) } else { rng.below(16) };
    let other = state.threads[rng.below(16)];
    let State { registers, counts, threads } = state;
    let thread = &mut threads[i];
    let numbers: [fn(&mut Thread) -> &mut usize; 9] = [
        |t| &mut t.start,
        |t| &mut t.end,
        |t| &mut t.place,
        |t| &mut t.height,
        |t| &mut t.begin,
        |t| &mut t.base,
        |t| &mut t.over,
        |t| &mut t.rule,
        |t| &mut t.backs,
    ];
    match rng.below(19) {
        field @ 0..=10 => {
            // `place` more often
            let field = numbers[if field < 9 { field } else { 2 }];
            let places = instructions(code);
            let mut other = other;
            let old = *field(thread);
            *field(thread) = match rng.below(9) {
                0 => old.wrapping_add(1),
                1 => old.wrapping_sub(1),
                2 => 0,
                3 if !places.is_empty() => rng.choose(&places),
                4 if !places.is_empty() => rng.choose(&places),
                5 => *field(&mut other),
                6 => code.len(),
                7 => thread.end,
                _ => rng.choose(&[usize::MAX, 1 << 63, 1 << 32, 64, 65, 5, 1, old ^ 1 << 40]),
            };
        }
        11 => {
            let at = if rng.one_in(2) { thread.height.min(63) } else { rng.below(64) };
            thread.cells[at] = rng.number();
        }
        12 => thread.reads ^= 1 << rng.below(64),
        13 => thread.writes ^= 1 << rng.below(64),
        14 => thread.readlog[rng.below(64)] = rng.number(),
        15 => thread.writelog[rng.below(64)] = rng.number(),
        16 => thread.readcounts[rng.below(64)] = rng.choose(&[0, 1, 1, 2, 3, u32::MAX]),
        17 => counts[rng.below(64)] = rng.choose(&[0, 1, 1, 2, 3, u32::MAX]),
        _ => {
            // a log as if its transaction were still open
            let register = rng.below(4);
            mark(thread, register, registers[register], counts[register]);
        }
    }
}

/// Records moved, left out, doubled or added.
fn alter_records(rng: &mut Rng, code: &[u8], state: &mut State) {
    let existing = state.existing();
    let threads = &mut state.threads;
    let i = rng.below(existing.max(1));
    match rng.below(7) {
        0 => {
            threads[i..].rotate_left(1);
            threads[15] = Thread::ABSENT;
        }
        1 => threads[i] = Thread::ABSENT,
        2 => threads[existing.min(15)] = threads[i],
        3 => {
            let j = rng.below(16);
            threads.swap(i, j);
        }
        4 => {
            // a thread for any FORK, passed or not
            let forks: Vec<usize> = instructions(code).into_iter().filter(|&at| code[at] == 7).collect();
            if !forks.is_empty() {
                let start = rng.choose(&forks) + 3;
                let end = start + usize::from(u16::from_be_bytes([code[start - 2], code[start - 1]]));
                let place = if rng.one_in(8) { end } else { start };
                threads[existing.min(15)] = Thread { start, end, place, ..Thread::ABSENT };
            }
        }
        5 => {
            // a thread set back to its start: it fits unless it has passed a FORK
            let Thread { start, end, .. } = threads[i];
            threads[i] = Thread { start, end, place: start, ..Thread::ABSENT };
        }
        _ => {
            // a thread at its end: it fits if the FORKs up to there were passed
            let Thread { start, end, .. } = threads[i];
            let mut cells = [0; 64];
            cells[0] = rng.number();
            threads[i] = Thread { start, end, place: end, height: 1, cells, ..Thread::ABSENT };
        }
    }
}

/// The children in another order, which fits as well.
fn renumber(rng: &mut Rng, state: &mut State) {
    let existing = state.existing();
    for i in 1..existing {
        let j = rng.between(i, existing - 1);
        state.threads.swap(i, j);
    }
}

fn wrong_lengths(rng: &mut Rng) -> Lent {
    let (registers, counts, threads) = WHOLE;
    match rng.below(4) {
        0 => (rng.choose(&[0, 1, 63, 65]), counts, threads),
        1 => (registers, rng.choose(&[0, 1, 63, 65]), threads),
        2 => (registers, counts, rng.choose(&[0, 1, 15, 17])),
        _ => (rng.choose(&[0, 63, 64, 65]), rng.choose(&[0, 63, 65]), rng.choose(&[0, 15, 16, 17])),
    }
}

fn garbage(rng: &mut Rng) -> Thread {
    let mut thread = Thread::ABSENT;
    let Thread { start, end, place, height, begin, base, over, rule, backs, .. } = &mut thread;
    for number in [start, end, place, height, begin, base, over, rule, backs] {
        *number = rng.draw() as usize;
    }
    thread.reads = rng.draw();
    thread.writes = rng.draw();
    thread.readcounts = thread.readcounts.map(|_| rng.draw() as u32);
    for values in [&mut thread.cells, &mut thread.readlog, &mut thread.writelog] {
        for value in values {
            *value = rng.draw() as i32;
        }
    }
    thread
}

fn bytes(rng: &mut Rng, count: usize) -> Vec<u8> {
    let mut bytes: Vec<u8> = (0..count.div_ceil(8)).flat_map(|_| rng.draw().to_ne_bytes()).collect();
    bytes.truncate(count);
    bytes
}

fn hex(bytes: &[u8]) -> String {
    let mut text = String::new();
    for byte in bytes {
        write!(text, "{byte:02X} ").unwrap();
    }
    text
}
