//! Measures the library beside the plain implementation: `cargo run --release --bin bench`.
//!
//! For each row the columns are timed turn about, many times, and the least time of each is shown. Before that their
//! answers and all that they write are compared. Outputs are not cleared between calls. An argument measures only the
//! tables whose name has it: `jobs`, `states`, `formulas`.

use kuspigo::{Counts, Forecast, Refusal, State, Thread};
use plain::samples::{many_small, sum, Lean, Rng, Shape};
use plain::texts::{nested, ones, Hand, PLAIN};
use plain::{by_value, tree};
use std::hint::black_box;
use std::time::{Duration, Instant};
use tree::Process;

/// So long a row is measured, all columns together.
const ROW: Duration = Duration::from_millis(200);
/// So long a batch takes about.
const BATCH: Duration = Duration::from_micros(100);

fn main() {
    let named: Vec<String> = std::env::args().skip(1).collect();
    println!("Least time of a call; {}.", machine());
    println!("Outputs are not cleared between calls. States are laid down outside the time. A run's ns a pick are");
    println!("without the tests of code and state, which a run with no picks has too.");
    for (name, table) in [("jobs", of_jobs as fn()), ("states", of_states), ("formulas", of_formulas)] {
        if named.is_empty() || named.iter().any(|part| name.contains(part.as_str())) {
            println!();
            table();
        }
    }
}

fn of_jobs() {
    head("tree", "no tree");
    for (name, nodes, tree) in jobs() {
        compiling(name, nodes, &tree);
    }
    for (name, nodes, tree) in jobs() {
        forecasting(name, nodes, &tree);
    }
    for (name, nodes, tree) in jobs() {
        reading_back(name, nodes, &tree);
    }
}

fn of_states() {
    head("by value", "in place");
    for (name, nodes, tree) in jobs() {
        stepping(&format!("{name}, {}", counted(nodes, "node")), &tree);
    }
    for threads in [2, 4, 8, 16] {
        stepping(&format!("{threads} threads, 1000 nodes"), &many_small(1_000, threads));
    }
    for (name, nodes, tree) in jobs() {
        running_whole(&format!("{name}, {}", counted(nodes, "node")), &tree);
    }
    for threads in [2, 4, 8, 16] {
        running_whole(&format!("{threads} threads, 1000 nodes"), &many_small(1_000, threads));
    }
    resting();
}

/// Jobs of growing size and of each shape; no transaction has more than 200 nodes.
fn jobs() -> [(&'static str, usize, Process); 9] {
    let shaped = |nodes, lean| {
        let shape = Shape { nodes, room: 64, forks: 0, transaction: 200, registers: 8, lean };
        shape.tree(&mut Rng::new(7, 0, nodes as u64))
    };
    [
        ("a number", 1, Process::Val(7)),
        ("balanced", 10, shaped(10, Lean::Even)),
        ("balanced", 100, shaped(100, Lean::Even)),
        ("balanced", 1_000, shaped(1_000, Lean::Even)),
        ("deep left", 1_000, shaped(1_000, Lean::Left)),
        ("deep right", 1_000, shaped(1_000, Lean::Right)),
        ("small transactions", 10, many_small(10, 1)),
        ("small transactions", 100, many_small(100, 1)),
        ("small transactions", 1_000, many_small(1_000, 1)),
    ]
}

fn compiling(name: &str, nodes: usize, tree: &Process) {
    let job = tree.job();
    let row = format!("compile: {name}, {}", counted(nodes, "node"));
    writing(&row, &job, [kuspigo::compile_into, tree::compile, plain::compile]);
}

type Foretells = fn(&[u8]) -> Result<Forecast, Refusal>;

fn forecasting(name: &str, nodes: usize, tree: &Process) {
    let job = tree.job();
    let row = format!("forecast: {name}, {}", counted(nodes, "node"));
    let calls: [Foretells; 3] = [kuspigo::forecast, tree::forecast, plain::forecast];
    let answers = calls.map(|call| call(&job).expect("the job is accepted"));
    assert!(answers.iter().all(|answer| *answer == answers[0]), "{row}: the columns differ");
    batches(&row, |column| {
        let _ = black_box(calls[column](black_box(&job)));
    });
}

fn reading_back(name: &str, nodes: usize, tree: &Process) {
    let code = tree.code();
    let row = format!("read back: {name}, {}", counted(nodes, "node"));
    writing(&row, &code, [kuspigo::read_back_into, tree::read_back, plain::read_back]);
}

type Writes = fn(&[u8], &mut [u8]) -> Result<usize, Refusal>;

/// A row of a call that writes bytes.
fn writing(row: &str, input: &[u8], calls: [Writes; 3]) {
    let answers = calls.map(|call| {
        let mut out = vec![0xAA; 4_000];
        (call(input, &mut out).expect("the input is taken"), out)
    });
    assert!(answers.iter().all(|answer| *answer == answers[0]), "{row}: the columns differ");
    let mut out = vec![0; 4_000];
    batches(row, |column| {
        let _ = black_box(calls[column](black_box(input), black_box(&mut out)));
    });
}

/// A row of calls that are timed in batches; `once` calls a column.
fn batches(row: &str, once: impl FnMut(usize)) {
    let least = batched(once);
    print_row(row, least.map(duration), least);
}

/// The least time of a call of each column.
fn batched<const COLUMNS: usize>(mut once: impl FnMut(usize)) -> [f64; COLUMNS] {
    let started = Instant::now();
    let mut calls_in_batch = 0;
    while started.elapsed() < BATCH {
        once(0);
        calls_in_batch += 1;
    }
    let least = turn_about(|column| {
        let started = Instant::now();
        for _ in 0..calls_in_batch {
            once(column);
        }
        started.elapsed()
    });
    least.map(|time| time / calls_in_batch as f64)
}

/// Formulas of growing size and of each kind. A number in front of a name is the refusal.
fn formulas() -> Vec<(&'static str, Vec<u8>)> {
    let mut rng = Rng::new(7, 1, 0);
    let balanced = |count: usize| sum((0..count).map(|n| Process::Val(n as i32)).collect());
    let mut typed = |tree: &Process, hand: Hand| hand.typed(&mut rng, tree).text;
    let spaced = Hand { blanks: 3, ..PLAIN };
    let repeated = |part: &str, length: usize| part.bytes().cycle().take(length).collect::<Vec<u8>>();
    let around = |open: usize, part: &str| [&b"(".repeat(open), part.as_bytes(), &b")".repeat(open)].concat();
    let many_brackets = vec![around(32, "1"); 60].join(&b'+');
    let nested_sums = [repeated("1+(", 3 * 60), b"1".to_vec(), b")".repeat(60)].concat();
    let forks_and_writes =
        (0..15).map(|n| format!("fork atomic(r{n} := r{} := r{n} + 1)", n + 16)).collect::<Vec<_>>().join(" + ");
    let blanks = |length: usize| [vec![b' '; length / 2], b"1".to_vec(), vec![b'\n'; length - length / 2 - 1]].concat();
    vec![
        ("a number", b"7".to_vec()),
        (
            "a typical one",
            b"fork atomic(r0 := r0 + 1) + fork atomic(r1 := (r2 := r0 + 25) + r1) + atomic(r3 := r1 + -7) + 1000"
                .to_vec(),
        ),
        ("61 ones", ones(61)),
        ("60 nested sums", nested_sums),
        ("forks and writes", forks_and_writes.into_bytes()),
        ("balanced, 999 nodes", typed(&balanced(500), PLAIN)),
        ("balanced, 999 nodes, blanks", typed(&balanced(500), spaced)),
        ("small transactions, 1000 nodes", typed(&many_small(1_000, 1), PLAIN)),
        ("16 threads, 1000 nodes, blanks", typed(&many_small(1_000, 16), spaced)),
        ("60 ones in 32 brackets each", many_brackets),
        ("blanks", blanks(32_768)),
        ("15: in the middle", [ones(25), b"++".to_vec(), ones(25)].concat()),
        ("15: one too many open", around(65, "1")),
        ("15: at the end", repeated("(1+1)+", 32_766)),
        ("15: one byte too many", ones(16_385)),
        ("7: 65 ones", ones(65)),
        ("4: ones", ones(16_384)),
        ("4: transactions", [repeated("atomic(r0 := r0 + 1) + ", 32_752), b"1".to_vec()].concat()),
        ("4: brackets", [repeated("(((((1)))))+", 32_760), b"1".to_vec()].concat()),
        ("4: nested", {
            let part = nested(&mut Rng::new(7, 2, 0), 60);
            vec![&part[..]; 32_768 / (part.len() + 1)].join(&b'+')
        }),
    ]
}

fn of_formulas() {
    println!("| formula | bytes | library | plain | library / plain | library, MB/s |");
    println!("|---|--:|--:|--:|--:|--:|");
    let calls: [Writes; 2] = [kuspigo::formula_into, plain::formula];
    for (name, text) in formulas() {
        let answers = calls.map(|call| {
            let mut out = vec![0xAA; 4_000];
            (call(&text, &mut out), out)
        });
        assert!(answers[0] == answers[1], "{name}: the columns differ");
        let refused = answers[0].0.err().map(|refusal| refusal.number());
        let named = name.split_once(':').map(|(number, _)| number.parse().expect("a refusal's number"));
        assert_eq!(refused, named, "{name}");
        let mut out = vec![0; 4_000];
        let least: [f64; 2] = batched(|column| {
            let _ = black_box(calls[column](black_box(&text), black_box(&mut out)));
        });
        let [library, plain] = least;
        let speed = text.len() as f64 / library * 1_000.0;
        let shown = least.map(duration).join(" | ");
        println!("| {name} | {} | {shown} | {:.2} | {speed:.0} |", text.len(), library / plain);
    }
}

type Steps = fn(&[u8], &mut [i32], &mut [u32], &mut [Thread], u8) -> Result<kuspigo::Step, Refusal>;
type Runs = fn(&[u8], &mut [i32], &mut [u32], &mut [Thread], &[u8]) -> Result<Counts, Refusal>;

const STEPS: [Steps; 3] = [kuspigo::step, by_value::step, plain::step];
const RUNS: [Runs; 3] = [kuspigo::run, by_value::run, plain::run];

/// A row of step calls: one at each of eight points of the way through a job.
fn stepping(name: &str, tree: &Process) {
    let code = tree.code();
    let mut state = State::fresh(&code).expect("the code is a job's");
    let picks = round_robin(&code, &state, 32_768);
    let mut points = Vec::new();
    for part in picks.chunks(picks.len().div_ceil(8)) {
        points.push((state.clone(), part[0]));
        state.run(&code, part).expect("the state fits");
    }
    for (state, pick) in &points {
        let answers = STEPS.map(|step| {
            let mut state = state.clone();
            (step(&code, &mut state.registers, &mut state.counts, &mut state.threads, *pick), state)
        });
        assert!(answers.iter().all(|answer| *answer == answers[0]), "step: {name}: the columns differ");
    }
    let mut lent = points.clone();
    let least = turn_about(|column| {
        let step = STEPS[column];
        lent.clone_from(&points);
        let started = Instant::now();
        for (state, pick) in &mut lent {
            let _ = black_box(step(
                black_box(&code),
                &mut state.registers,
                &mut state.counts,
                &mut state.threads,
                black_box(*pick),
            ));
        }
        started.elapsed()
    });
    print_row(&format!("step: {name}"), least.map(|time| time / points.len() as f64).map(duration), least);
}

/// A row of one run call: a whole job.
fn running_whole(name: &str, tree: &Process) {
    let code = tree.code();
    let fresh = State::fresh(&code).expect("the code is a job's");
    let picks = round_robin(&code, &fresh, 32_768);
    run_row(name, &code, &fresh, &picks);
}

/// Rows of run calls in which nothing is done: the tests of code and state alone, and a long list of idle picks.
fn resting() {
    for nodes in [10, 100, 1_000] {
        resting_at(&format!("1 thread, {nodes} nodes"), &many_small(nodes, 1));
    }
    resting_at("16 threads, 1000 nodes", &many_small(1_000, 16));
    let code = many_small(1_000, 16).code();
    let mut ended = State::fresh(&code).expect("the code is a job's");
    let picks = round_robin(&code, &ended, 32_768);
    ended.run(&code, &picks).expect("the state fits");
    let picks: Vec<u8> = (0..32_768).map(|i| (i % 16) as u8).collect();
    run_row("16 threads, all ended", &code, &ended, &picks);
}

fn resting_at(name: &str, tree: &Process) {
    let code = tree.code();
    let mut state = State::fresh(&code).expect("the code is a job's");
    run_row(&format!("{name}, fresh"), &code, &state, &[]);
    let picks = round_robin(&code, &state, 32_768);
    state.run(&code, &picks).expect("the state fits");
    run_row(&format!("{name}, all ended"), &code, &state, &[]);
}

fn run_row(name: &str, code: &[u8], from: &State, picks: &[u8]) {
    let answers = RUNS.map(|run| {
        let mut state = from.clone();
        (run(code, &mut state.registers, &mut state.counts, &mut state.threads, picks), state)
    });
    assert!(answers.iter().all(|answer| *answer == answers[0]), "run: {name}: the columns differ");
    let counts = answers[0].0.expect("the state fits");
    let mut state = from.clone();
    let lists = [picks, &[]];
    let least: [f64; 6] = turn_about(|column| {
        let (run, picks) = (RUNS[column % 3], lists[column / 3]);
        state.clone_from(from);
        let started = Instant::now();
        let _ = black_box(run(
            black_box(code),
            &mut state.registers,
            &mut state.counts,
            &mut state.threads,
            black_box(picks),
        ));
        started.elapsed()
    });
    let whole = [0, 1, 2].map(|column| least[column]);
    let shown = [0, 1, 2].map(|column| match picks.len() {
        0 | 1 => duration(whole[column]),
        n => format!("{} ({:.1} ns a pick)", duration(whole[column]), (whole[column] - least[column + 3]) / n as f64),
    });
    let row = format!("run: {name}; {}, {} back", counted(picks.len(), "pick"), counts.back);
    print_row(&row, shown, whole);
}

/// Picks of all threads in turns until every one has ended, or so many.
fn round_robin(code: &[u8], fresh: &State, most: usize) -> Vec<u8> {
    let mut state = fresh.clone();
    let mut picks = Vec::new();
    loop {
        let open: Vec<u8> =
            (0..16).filter(|&i| state.threads[i].place != state.threads[i].end).map(|i| i as u8).collect();
        if open.is_empty() || picks.len() + open.len() > most {
            return picks;
        }
        state.run(code, &open).expect("the state fits");
        picks.extend(open);
    }
}

/// The least time of each column in nanoseconds, the columns taking turns. The clock's own time is taken off.
fn turn_about<const COLUMNS: usize>(mut time: impl FnMut(usize) -> Duration) -> [f64; COLUMNS] {
    let mut least = [Duration::MAX; COLUMNS];
    let mut clock = Duration::MAX;
    let started = Instant::now();
    while started.elapsed() < ROW {
        for (column, least) in least.iter_mut().enumerate() {
            *least = time(column).min(*least);
        }
        clock = Instant::now().elapsed().min(clock);
    }
    least.map(|time| time.saturating_sub(clock).as_nanos() as f64)
}

fn head(form: &str, in_place: &str) {
    println!("| call | library | plain, {form} | plain, {in_place} | library / {form} | library / {in_place} |");
    println!("|---|--:|--:|--:|--:|--:|");
}

fn print_row(row: &str, shown: [String; 3], [library, form, in_place]: [f64; 3]) {
    println!("| {row} | {} | {:.2} | {:.2} |", shown.join(" | "), library / form, library / in_place);
}

fn counted(count: usize, what: &str) -> String {
    format!("{count} {what}{}", if count == 1 { "" } else { "s" })
}

fn duration(nanoseconds: f64) -> String {
    match nanoseconds {
        n if n < 100.0 => format!("{n:.1} ns"),
        n if n < 10_000.0 => format!("{n:.0} ns"),
        n => format!("{:.1} us", n / 1_000.0),
    }
}

/// The processor's name, where the system tells it.
fn machine() -> String {
    let processors = std::fs::read_to_string("/proc/cpuinfo").unwrap_or_default();
    let name = processors.lines().find_map(|line| line.strip_prefix("model name")?.split_once(": "));
    name.map_or(std::env::consts::ARCH, |(_, name)| name).to_string()
}
