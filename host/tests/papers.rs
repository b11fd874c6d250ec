//! The cases of documents 01 and 02, and forecasts, sums, the nodes of long transactions, send-backs, the registers'
//! counts, formulas and exchanged picks worked out by hand, of the library through its wrapper and of the plain
//! implementation.

use kuspigo::{Counts, Event, Forecast, Reason, Refusal, Rule, State, Step, Thread};
use plain::samples::{self, chain, Lean, Rng, Shape};
use plain::texts::{ones, PLAIN};
use plain::tree;
use tree::{Process, Transaction};

/// Two threads each add 1 to register 0.
fn whole_case() -> Vec<u8> {
    let mut job = b"WSJ\x00\x01\x00\x0D\x02".to_vec();
    for _ in 0..2 {
        job.extend([4, 3, 8, 0, 6, 7, 0, 5, 0, 0, 0, 1]);
    }
    job
}

fn whole_picks() -> Vec<u8> {
    [vec![0; 3], vec![1; 2], vec![2; 6], vec![1; 10]].concat()
}

const LISTING: &str =
    "steps 21 idle 0 commits 2 back 1 over 0\nthread 0 done 0\nthread 1 done 2\nthread 2 done 1\nregister 0 2\n";

/// The code of a job, the three implementations agreeing, and that it leads back to the job.
fn compiled(job: &[u8]) -> Result<Vec<u8>, Refusal> {
    let code = kuspigo::compile(job);
    let mut out = [0; 3_100];
    assert_eq!(plain::compile(job, &mut out).map(|length| out[..length].to_vec()), code);
    assert_eq!(tree::compile(job, &mut out).map(|length| out[..length].to_vec()), code);
    if let Ok(code) = &code {
        assert_eq!(kuspigo::read_back(code).as_deref(), Ok(job));
        let length = plain::read_back(code, &mut out).unwrap();
        assert_eq!(&out[..length], job);
        let length = tree::read_back(code, &mut out).unwrap();
        assert_eq!(&out[..length], job);
    }
    code
}

fn refused<T>(number: usize, place: usize) -> Result<T, Refusal> {
    Err(Refusal { reason: Reason::from_number(number).expect("a reason"), place })
}

/// The forecast of a job, the three implementations agreeing.
fn forecast(job: &[u8]) -> Result<Forecast, Refusal> {
    let told = kuspigo::forecast(job);
    assert_eq!(plain::forecast(job), told);
    assert_eq!(tree::forecast(job), told);
    told
}

/// K, T, L, M and the step bound.
fn numbers(told: &Forecast) -> [usize; 5] {
    [told.transactions, told.threads, told.instructions, told.longest, told.bound]
}

/// The registers that READ names and those that WRITE names.
fn names(told: &Forecast) -> [Vec<u8>; 2] {
    [told.reads, told.writes].map(|set| set.iter().collect())
}

fn result_of(job: &[u8]) -> (usize, Option<i32>, State) {
    let code = compiled(job).unwrap();
    let mut state = State::fresh(&code).unwrap();
    let counts = state.run(&code, &[0; 99]).unwrap();
    (counts.steps, state.threads[0].result(), state)
}

fn number(n: i32) -> Box<Process> {
    Box::new(Process::Val(n))
}

#[test]
fn whole_case_runs() {
    let job = whole_case();
    assert_eq!(job.len(), 32);
    let code = compiled(&job).unwrap();
    assert_eq!(code.len(), 36);
    let child = [7, 0, 12, 5, 3, 0, 1, 0, 0, 0, 1, 2, 4, 0, 6];
    assert_eq!(code, [&b"WSC\x00\x01"[..], &child, &child, &[2]].concat());

    let mut state = State::fresh(&code).unwrap();
    let counts = state.run(&code, &whole_picks()).unwrap();
    assert_eq!(counts, Counts { steps: 21, idle: 0, commits: 2, back: 1, over: 0 });
    assert_eq!(state.threads.map(|thread| thread.result())[..4], [Some(0), Some(2), Some(1), None]);
    let rules = state.threads.map(|thread| (thread.last_rule(), thread.backs));
    assert_eq!(rules[..4], [(Rule::Sum, 0), (Rule::Commit, 1), (Rule::Commit, 0), (Rule::None, 0)]);
    assert_eq!((state.registers[0], state.registers[1..].iter().max()), (2, Some(&0)));

    let input = [&[0, 32][..], &job, &whole_picks()].concat();
    assert_eq!(kuspigo::report(&input).unwrap(), LISTING.as_bytes());
    assert_eq!(plain::listing(&input), LISTING);
}

#[test]
fn whole_case_by_steps() {
    let code = kuspigo::compile(&whole_case()).unwrap();
    let mut state = State::fresh(&code).unwrap();
    let steps: Vec<Step> = whole_picks().iter().map(|&pick| state.step(&code, pick).unwrap()).collect();
    let events: Vec<Event> = steps.iter().map(|step| step.event).collect();
    let attempt = [Event::Begin, Event::ReadTable, Event::Push, Event::Sum, Event::Write];
    let mut expected = vec![Event::Fork, Event::Fork, Event::Sum];
    expected.extend(&attempt[..2]);
    expected.extend(attempt);
    expected.push(Event::Commit);
    expected.extend(&attempt[2..]);
    expected.push(Event::SentBack);
    expected.extend(attempt);
    expected.push(Event::Commit);
    assert_eq!(events, expected);
    assert_eq!(steps.iter().filter(|step| step.turn).count(), 5);
    assert_eq!(steps[14].stale, Some(0));
    assert_eq!(state.step(&code, 0).unwrap().event, Event::Idle);
}

#[test]
fn worked_cases() {
    let seven = b"WSJ\x00\x01\x00\x01\x01\x00\x00\x00\x07";
    assert_eq!(compiled(seven).unwrap(), b"WSC\x00\x01\x01\x00\x00\x00\x07");
    let (steps, result, _) = result_of(seven);
    assert_eq!((steps, result), (1, Some(7)));
    assert_eq!(
        kuspigo::report(&[&[0, 12][..], seven].concat()).unwrap(),
        b"steps 0 idle 0 commits 0 back 0 over 0\nthread 0 open\n"
    );

    assert_eq!(result_of(&Process::Add(number(i32::MIN), number(-1)).job()).1, Some(i32::MAX));
    assert_eq!(result_of(&Process::Add(number(i32::MAX), number(1)).job()).1, Some(i32::MIN));

    // ATOMIC of ADDT (WRITE 0 (VALT 5)) (READ 0), up to COMMIT and whole
    let write = Transaction::Write(0, Box::new(Transaction::Val(5)));
    let tree = Process::Atomic(Box::new(Transaction::Add(Box::new(write), Box::new(Transaction::Read(0)))));
    let code = compiled(&tree.job()).unwrap();
    let mut state = State::fresh(&code).unwrap();
    state.run(&code, &[0; 5]).unwrap();
    assert_eq!((state.threads[0].reads, state.threads[0].writes, state.registers[0]), (0, 1, 0));
    state.run(&code, &[0]).unwrap();
    assert_eq!((state.threads[0].result(), state.registers[0]), (Some(10), 5));
}

#[test]
fn refusals_and_places() {
    assert_eq!(compiled(&[]), refused(1, 0));
    assert_eq!(compiled(b"WSK\x00\x01\x00"), refused(1, 6));
    assert_eq!(compiled(b"WSK\x00\x02\x00\x00"), refused(2, 0));
    assert_eq!(compiled(b"WSJ\x01\x01\x00\x00"), refused(3, 3));
    assert_eq!(compiled(b"WSJ\x00\x01\x00\x00"), refused(4, 5));
    assert_eq!(compiled(b"WSJ\x00\x01\x03\xE9"), refused(4, 5));
    assert_eq!(compiled(b"WSJ\x00\x01\x00\x01\x02"), refused(9, 8));
    assert_eq!(compiled(b"WSJ\x00\x01\x00\x02\x02"), refused(1, 8));
    assert_eq!(compiled(b"WSJ\x00\x01\x00\x01\x05"), refused(5, 7));
    assert_eq!(compiled(b"WSJ\x00\x01\x00\x02\x03\x01"), refused(5, 8));
    assert_eq!(compiled(b"WSJ\x00\x01\x00\x01\x01\x00\x00\x00"), refused(1, 11));
    assert_eq!(compiled(b"WSJ\x00\x01\x00\x02\x03\x07\x40"), refused(6, 9));
    assert!(compiled(b"WSJ\x00\x01\x00\x02\x03\x07\x3F").is_ok());
    assert_eq!(compiled(b"WSJ\x00\x01\x00\x02\x01\x00\x00\x00\x07"), refused(9, 12));
    assert_eq!(compiled(b"WSJ\x00\x01\x00\x01\x01\x00\x00\x00\x07\x00"), refused(9, 12));
    let shorter = |length: usize| kuspigo::compile_into(&whole_case(), &mut vec![0; length]);
    assert_eq!((shorter(36), shorter(35)), (Ok(36), refused(10, 0)));
}

#[test]
fn limits() {
    let mut rng = Rng::new(1, 0, 0);
    assert!(compiled(&chain(&mut rng, 64, 15).job()).is_ok());
    assert_eq!(compiled(&chain(&mut rng, 65, 15).job()).unwrap_err().reason, Reason::Depth);

    let nodes = |nodes| Shape { nodes, room: 64, forks: 15, transaction: 200, registers: 3, lean: Lean::Any };
    let job = nodes(1_000).tree(&mut rng).job();
    assert!(compiled(&job).is_ok());
    assert_eq!(compiled(&nodes(1_001).tree(&mut rng).job()), refused(4, 5));

    let mut tree = Process::Val(0);
    for _ in 0..15 {
        tree = Process::Add(Box::new(Process::Fork(number(1))), Box::new(tree));
    }
    assert!(compiled(&tree.job()).is_ok());
    // its FORK follows the ADDPs and FORKs, each with a number, of the fifteen before it
    let sixteen = Process::Add(Box::new(tree), Box::new(Process::Fork(number(1))));
    assert_eq!(compiled(&sixteen.job()), refused(8, 7 + 1 + 15 * 7 + 5));
}

#[test]
fn literal_order_at_depth_65() {
    // 64 ADDPs down the left, then the node at depth 65
    let deep = |node: &[u8], count: u16| {
        let mut job = b"WSJ\x00\x01".to_vec();
        job.extend(count.to_be_bytes());
        job.extend([2; 64]);
        job.extend(node);
        job
    };
    assert_eq!(compiled(&deep(&[1, 0, 0, 0, 7], 129)), refused(7, 71));
    assert_eq!(compiled(&deep(&[1, 0], 129)), refused(7, 71));
    assert_eq!(compiled(&deep(&[9], 129)), refused(5, 71));
    assert_eq!(compiled(&deep(&[5], 129)), refused(5, 71));
    assert_eq!(compiled(&deep(&[], 129)), refused(1, 71));
    assert_eq!(compiled(&deep(&[], 64)), refused(9, 71));
    // the sixteenth FORK there
    let mut job = deep(&[4], 129);
    job[20..35].fill(4);
    assert_eq!(compiled(&job), refused(7, 71));
    // and one level higher
    job[7..22].fill(4);
    job[22..70].fill(2);
    job[70] = 4;
    assert_eq!(compiled(&job), refused(8, 70));
}

#[test]
fn the_run_programs_refusals() {
    for (input, printed) in [
        (&[][..], "refused 1 at 0\n"),
        (&[0], "refused 1 at 1\n"),
        (&[0, 12, 1, 2, 3, 4, 5, 6, 7, 8, 9, 10], "refused 1 at 12\n"),
        (&[0, 3, 0x57, 0x53, 0x4A], "refused 1 at 3\n"),
    ] {
        assert_eq!(plain::listing(input), printed);
        assert_eq!(kuspigo::report(input).unwrap(), printed.as_bytes());
    }
    let mut input = [&[0, 32][..], &whole_case(), &[0; 32_768]].concat();
    assert!(plain::listing(&input).starts_with("steps 3 idle 32765 "));
    assert!(kuspigo::report(&input).unwrap().starts_with(b"steps 3 idle 32765 "));
    input.push(0);
    assert_eq!(kuspigo::report(&input).unwrap(), b"refused 13 at 0\n");
    input[2] = 0;
    assert_eq!(kuspigo::report(&input).unwrap(), b"refused 2 at 0\n");
    let job = sum(Process::Val(1), atomic(long())).job();
    for picks in [0, 32_769] {
        let input = [&(job.len() as u16).to_be_bytes()[..], &job, &vec![0; picks]].concat();
        assert_eq!(plain::listing(&input), "refused 14 at 13\n");
        assert_eq!(kuspigo::report(&input).unwrap(), b"refused 14 at 13\n");
    }
}

/// A transaction of 200 nodes, in 301 bytes of a job.
fn full() -> Transaction {
    write(0, flat_reads(100))
}

/// One of 201 nodes, in 302 bytes.
fn long() -> Transaction {
    flat_reads(101)
}

#[test]
fn long_transactions() {
    assert_eq!((full().nodes(), long().nodes()), (200, 201));
    let compiled = |tree: Process| compiled(&tree.job()).map(|code| code.len());
    assert_eq!(compiled(atomic(full())), Ok(5 + 303));
    assert_eq!(compiled(atomic(long())), refused(14, 7));
    // each is counted by itself
    assert_eq!(compiled(sum(atomic(full()), fork(atomic(full())))), Ok(5 + 303 + 3 + 303 + 1));
    assert_eq!(compiled(sum(atomic(flat_reads(51)), atomic(write(0, flat_reads(50))))), Ok(5 + 154 + 153 + 1));
    // the place is the first one's
    assert_eq!(compiled(sum(atomic(full()), atomic(long()))), refused(14, 8 + 302));
    assert_eq!(compiled(sum(atomic(long()), atomic(full()))), refused(14, 8));
    assert_eq!(compiled(sum(atomic(long()), atomic(flat_reads(200)))), refused(14, 8));
    assert_eq!(compiled(sum(fork(atomic(long())), atomic(long()))), refused(14, 9));
    assert_eq!(compiled(fork(sum(Process::Val(1), fork(atomic(long()))))), refused(14, 15));
    // four chains of WRITEs in each other
    let chain = |writes| (0..writes).fold(Transaction::Read(1), |tree, _| write(2, tree));
    let four = |last| sum_inside(sum_inside(chain(48), chain(48)), sum_inside(chain(48), chain(last)));
    assert_eq!(compiled(atomic(four(49))), Ok(5 + 2 + 193 * 2 + 4 * 2 + 3));
    assert_eq!(compiled(atomic(four(50))), refused(14, 7));
}

#[test]
fn long_transactions_come_behind_9_and_before_10() {
    let job = sum(atomic(long()), Process::Val(1)).job();
    // the number is at 311
    assert_eq!(compiled(&job), refused(14, 8));
    assert_eq!(compiled(&job[..315]), refused(1, 315));
    assert_eq!(compiled(&[&job[..], &[0]].concat()), refused(9, 316));
    let with = |at: usize, bytes: &[u8]| [&job[..at], bytes, &job[at + bytes.len()..]].concat();
    assert_eq!(compiled(&with(5, &[0, 205])), refused(9, 316));
    assert_eq!(compiled(&with(5, &[0, 203])), refused(9, 311));
    assert_eq!(compiled(&with(311, &[5])), refused(5, 311));
    assert_eq!(compiled(&with(310, &[64])), refused(6, 310));
    let deep = (1..64).fold(Process::Val(1), |tree, _| sum(tree, Process::Val(1)));
    assert_eq!(compiled(&sum(atomic(long()), deep).job()), refused(7, 311 + 63));
    let forks = (0..16).fold(Process::Val(1), |tree, _| fork(tree));
    assert_eq!(compiled(&sum(atomic(long()), forks).job()), refused(8, 311 + 15));
    assert_eq!(kuspigo::compile_into(&atomic(long()).job(), &mut []), refused(14, 7));
    assert_eq!(kuspigo::compile_into(&atomic(full()).job(), &mut []), refused(10, 0));
}

#[test]
fn code_of_long_transactions() {
    for tree in [atomic(long()), fork(atomic(long())), sum(atomic(full()), atomic(long()))] {
        let code = tree.code();
        for out in [&mut [0; 3_100][..], &mut []] {
            assert_eq!(kuspigo::read_back_into(&code, out), refused(11, 0));
            assert_eq!(plain::read_back(&code, out), refused(11, 0));
            assert_eq!(tree::read_back(&code, out), refused(11, 0));
        }
        // the state that would be the fresh one
        let mut state = State { registers: [0; 64], counts: [0; 64], threads: [Thread::ABSENT; 16] };
        state.threads[0] = Thread { start: 5, end: code.len(), place: 5, ..Thread::ABSENT };
        let mut other = state.clone();
        assert_eq!(State::fresh(&code), refused(11, 0));
        assert_eq!(plain::fresh(&code, &mut other.registers, &mut other.counts, &mut other.threads), refused(11, 0));
        assert_eq!(state.step(&code, 0), refused(11, 0));
        assert_eq!(plain::step(&code, &mut other.registers, &mut other.counts, &mut other.threads, 0), refused(11, 0));
        assert_eq!(ran(&mut state, &code, &[0; 32_769]), refused(11, 0));
    }
    // one of 200 nodes is sent back once: thread 1 sets register 1 before its COMMIT
    let writer = fork(atomic(write(1, Transaction::Val(3))));
    let code = compiled(&sum(writer, atomic(full())).job()).unwrap();
    let mut state = State::fresh(&code).unwrap();
    assert_eq!(ran(&mut state, &code, &[0; 202]).unwrap().steps, 202);
    assert_eq!(ran(&mut state, &code, &[1; 4]).unwrap().commits, 1);
    let counts = ran(&mut state, &code, &[0; 205]).unwrap();
    assert_eq!(counts, Counts { steps: 204, idle: 1, commits: 1, back: 1, over: 0 });
    assert_eq!((state.threads[0].result(), state.registers[0]), (Some(300), 300));
}

fn sum(left: Process, right: Process) -> Process {
    Process::Add(Box::new(left), Box::new(right))
}

fn fork(process: Process) -> Process {
    Process::Fork(Box::new(process))
}

fn atomic(transaction: Transaction) -> Process {
    Process::Atomic(Box::new(transaction))
}

fn write(register: u8, transaction: Transaction) -> Transaction {
    Transaction::Write(register, Box::new(transaction))
}

fn sum_inside(left: Transaction, right: Transaction) -> Transaction {
    Transaction::Add(Box::new(left), Box::new(right))
}

/// The counts of a list of picks, the three implementations agreeing on them and on what they leave in the state.
fn ran(state: &mut State, code: &[u8], picks: &[u8]) -> Result<Counts, Refusal> {
    let (mut plain, mut by_value) = (state.clone(), state.clone());
    let counts = state.run(code, picks);
    assert_eq!(plain::run(code, &mut plain.registers, &mut plain.counts, &mut plain.threads, picks), counts);
    assert_eq!(
        plain::by_value::run(code, &mut by_value.registers, &mut by_value.counts, &mut by_value.threads, picks),
        counts
    );
    assert_eq!((&plain, &by_value), (&*state, &*state));
    counts
}

/// How many sums of a process leave the range when thread 0 alone is picked to its end, and its result.
fn over_of(tree: Process) -> (usize, Option<i32>) {
    let code = compiled(&tree.job()).unwrap();
    let mut state = State::fresh(&code).unwrap();
    let counts = ran(&mut state, &code, &[0; 99]).unwrap();
    (counts.over, state.threads[0].result())
}

#[test]
fn sums_that_leave_the_range() {
    let of_two = |a, b| over_of(Process::Add(number(a), number(b)));
    assert_eq!(of_two(i32::MIN, -1), (1, Some(i32::MAX)));
    assert_eq!(of_two(i32::MAX, 1), (1, Some(i32::MIN)));
    assert_eq!(of_two(i32::MIN, i32::MIN), (1, Some(0)));
    assert_eq!(of_two(i32::MAX, i32::MAX), (1, Some(-2)));
    assert_eq!(of_two(i32::MAX - 1, 1), (0, Some(i32::MAX)));
    assert_eq!(of_two(i32::MIN + 1, -1), (0, Some(i32::MIN)));
    assert_eq!(of_two(i32::MAX, i32::MIN), (0, Some(-1)));
    // (2147483647 + 1) + -1, and 2147483647 + (1 + -1)
    let left = Process::Add(number(i32::MAX), number(1));
    assert_eq!(over_of(sum(left, *number(-1))), (2, Some(i32::MAX)));
    let right = Process::Add(number(1), number(-1));
    assert_eq!(over_of(sum(*number(i32::MAX), right)), (0, Some(i32::MAX)));

    let tree = sum(*number(i32::MAX), *number(1));
    let input = [&[0, tree.job().len() as u8][..], &tree.job(), &[0; 4]].concat();
    let listing = "steps 3 idle 1 commits 0 back 0 over 1\nthread 0 done -2147483648\n";
    assert_eq!(plain::listing(&input), listing);
    assert_eq!(kuspigo::report(&input).unwrap(), listing.as_bytes());
}

#[test]
fn sums_of_attempts() {
    let one = || Transaction::Val(1);
    let inside = || sum_inside(Transaction::Val(i32::MAX), one());
    let over = |counts: Result<Counts, Refusal>| counts.map(|counts| counts.over);

    // a note crosses two calls
    let code = compiled(&atomic(inside()).job()).unwrap();
    let mut state = State::fresh(&code).unwrap();
    assert_eq!(over(ran(&mut state, &code, &[0; 4])), Ok(0));
    assert_eq!(state.threads[0].over, 1);
    assert_eq!(over(ran(&mut state, &code, &[0])), Ok(1));
    assert_eq!((state.threads[0].over, state.threads[0].result()), (0, Some(i32::MIN)));

    // a send-back drops its attempt's note: thread 1 writes register 0 between the attempts
    let child = fork(atomic(write(0, Transaction::Val(5))));
    let code = compiled(&sum(child, atomic(sum_inside(Transaction::Read(0), inside()))).job()).unwrap();
    let mut state = State::fresh(&code).unwrap();
    assert_eq!(over(ran(&mut state, &code, &[0, 0, 0, 0, 0, 0, 0, 1, 1, 1, 1])), Ok(0));
    assert_eq!(state.threads[0].over, 1);
    let counts = ran(&mut state, &code, &[0]).unwrap();
    assert_eq!((counts.back, counts.over, state.threads[0].over), (1, 0, 0));
    assert_eq!(over(ran(&mut state, &code, &[0; 8])), Ok(1));
    assert_eq!(state.threads[0].result(), Some(i32::MIN + 5));

    // a lent note, behind one ADD
    let code = compiled(&atomic(sum_inside(one(), one())).job()).unwrap();
    let mut before = State::fresh(&code).unwrap();
    ran(&mut before, &code, &[0; 4]).unwrap();
    for (note, answer) in [(0, Ok(0)), (1, Ok(1)), (2, refused(12, 0)), (usize::MAX, refused(12, 0))] {
        let mut state = before.clone();
        state.threads[0].over = note;
        assert_eq!(state.clone().step(&code, 0).map(|step| step.over), answer);
        assert_eq!(over(ran(&mut state, &code, &[0])), answer);
    }
    // where no transaction is open, and in a record of no thread
    for (picks, record) in [(0, 0), (5, 0), (4, 1)] {
        let mut state = State::fresh(&code).unwrap();
        ran(&mut state, &code, &[0; 5][..picks]).unwrap();
        state.threads[record].over = 1;
        assert_eq!(over(ran(&mut state, &code, &[0])), refused(12, 0));
    }
}

/// The whole case's names, pick by pick, and an idle pick.
const NAMES: [&str; 22] = [
    "fork",
    "fork",
    "sum",
    "begin",
    "read from table",
    "begin",
    "read from table",
    "push",
    "sum",
    "write",
    "commit",
    "push",
    "sum",
    "write",
    "sent back with register 0",
    "begin",
    "read from table",
    "push",
    "sum",
    "write",
    "commit",
    "idle",
];

#[test]
fn whole_case_by_rules() {
    let code = kuspigo::compile(&whole_case()).unwrap();
    let mut state = State::fresh(&code).unwrap();
    assert!(state.threads.iter().all(|thread| (thread.last_rule(), thread.backs) == (Rule::None, 0)));
    let mut picks = whole_picks();
    picks.push(2);
    let mut last = [Rule::None; 16];
    let mut backs = [0; 16];
    for (&pick, name) in picks.iter().zip(NAMES) {
        let (mut plain, mut by_value) = (state.clone(), state.clone());
        let step = state.step(&code, pick).unwrap();
        assert_eq!(plain::step(&code, &mut plain.registers, &mut plain.counts, &mut plain.threads, pick), Ok(step));
        assert_eq!(
            plain::by_value::step(&code, &mut by_value.registers, &mut by_value.counts, &mut by_value.threads, pick),
            Ok(step)
        );
        assert_eq!((&plain, &by_value), (&state, &state));
        assert_eq!(step.rule().to_string(), name);
        if step.rule() != Rule::Idle {
            last[usize::from(pick)] = step.rule();
        }
        backs[usize::from(pick)] += usize::from(matches!(step.rule(), Rule::SentBack(_)));
        assert_eq!((state.threads.map(|thread| thread.last_rule())), last);
        assert_eq!((state.threads.map(|thread| thread.backs)), backs);
    }
    assert_eq!(backs[..3], [0, 1, 0]);
}

#[test]
fn rules_have_names_and_numbers() {
    let names =
        ["none", "push", "sum", "fork", "begin", "read from write log", "read from read log", "read from table"];
    for (number, name) in names.iter().chain(&["write", "commit", "sent back with register 0"]).enumerate() {
        assert_eq!(Rule::of_record(number).to_string(), *name);
    }
    assert_eq!(Rule::of_record(73).to_string(), "sent back with register 63");
    assert_eq!((Rule::of_record(73), Rule::of_record(74)), (Rule::SentBack(63), Rule::Unnamed(74)));
    assert_eq!(Rule::of_record(74).to_string(), "no rule has the number 74");
    for number in (0..300).chain([usize::MAX]) {
        assert_eq!(Rule::of_record(number).number(), Some(number));
    }
    assert_eq!((Rule::Idle.number(), Rule::Idle.to_string()), (None, String::from("idle")));
    // a step's rule has the number that its thread's record gets
    for event in Event::ALL {
        let rule = Step { event, stale: (event == Event::SentBack).then_some(7), turn: false, over: 0 }.rule();
        let number = event as usize + if event == Event::SentBack { 7 } else { 0 };
        assert_eq!(rule.number(), (event != Event::Idle).then_some(number));
    }
}

#[test]
fn the_lowest_stale_register_is_named() {
    // thread 1 writes registers 41 and 40 while thread 0, which has read both, is before its COMMIT
    let child = fork(atomic(write(41, write(40, Transaction::Val(1)))));
    for (first, second) in [(40, 41), (41, 40)] {
        let both = atomic(sum_inside(Transaction::Read(first), Transaction::Read(second)));
        let code = compiled(&sum(child.clone(), both).job()).unwrap();
        let mut state = State::fresh(&code).unwrap();
        ran(&mut state, &code, &[0, 0, 0, 0, 0, 1, 1, 1, 1, 1]).unwrap();
        assert_eq!(state.step(&code, 0).unwrap().rule(), Rule::SentBack(40));
        assert_eq!((state.threads[0].rule, state.threads[0].backs), (50, 1));
    }
}

/// Whether a state is taken, by a run without picks and an idle step of each implementation.
fn fits(state: &State, code: &[u8]) -> bool {
    let counts = ran(&mut state.clone(), code, &[]);
    let step = state.clone().step(code, 255);
    let mut plain = state.clone();
    assert_eq!(plain::step(code, &mut plain.registers, &mut plain.counts, &mut plain.threads, 255), step);
    assert!(counts == refused(12, 0) && step == refused(12, 0) || counts.is_ok() && step.is_ok());
    counts.is_ok()
}

/// Whether the whole case's state fits behind these picks with such numbers of send-backs.
fn whole_case_fits(picks: &[u8], backs: [usize; 3]) -> bool {
    let code = kuspigo::compile(&whole_case()).unwrap();
    let mut state = State::fresh(&code).unwrap();
    ran(&mut state, &code, picks).unwrap();
    for (thread, backs) in state.threads.iter_mut().zip(backs) {
        thread.backs = backs;
    }
    fits(&state, &code)
}

#[test]
fn send_backs_and_commits_passed() {
    // none passed, though thread 0 is behind both children's code
    assert!(whole_case_fits(&[0; 3], [0, 0, 0]));
    assert!(!whole_case_fits(&[0; 3], [1, 0, 0]));
    assert!(!whole_case_fits(&[0, 0, 1, 1, 1, 1, 1], [0, 1, 0]));
    // thread 2 has passed one and ended; each thread is counted by itself
    let one = [0, 0, 0, 2, 2, 2, 2, 2, 2];
    assert!(whole_case_fits(&one, [1, 1, 1]));
    for thread in 0..3 {
        let mut backs = [0; 3];
        backs[thread] = 2;
        assert!(!whole_case_fits(&one, backs));
        backs[thread] = usize::MAX;
        assert!(!whole_case_fits(&one, backs));
    }
    // thread 1 has read register 0 before thread 2's COMMIT, or behind it
    let stale = [0, 0, 0, 1, 1, 2, 2, 2, 2, 2, 2];
    assert!(whole_case_fits(&stale, [1, 0, 1]));
    assert!(!whole_case_fits(&stale, [0, 1, 0]));
    let unstale = [0, 0, 0, 2, 2, 2, 2, 2, 2, 1, 1];
    assert!(whole_case_fits(&unstale, [0, 1, 0]));
    assert!(!whole_case_fits(&unstale, [0, 2, 0]));
    // both have passed theirs
    assert!(whole_case_fits(&whole_picks(), [2, 2, 2]));
    assert!(!whole_case_fits(&whole_picks(), [2, 3, 2]));
}

#[test]
fn stale_reads_and_lent_numbers() {
    // three COMMITs passed: a lent number of two goes on to three, which the commit keeps
    let three = (0..3).fold(atomic(Transaction::Read(5)), |tree, _| sum(atomic(Transaction::Val(1)), tree));
    let code = compiled(&three.job()).unwrap();
    let mut state = State::fresh(&code).unwrap();
    ran(&mut state, &code, &[0; 11]).unwrap();
    (state.registers[5], state.counts[5]) = (4, 1);
    state.threads[0].backs = 3;
    assert!(!fits(&state, &code));
    state.threads[0].backs = 2;
    assert_eq!(ran(&mut state, &code, &[0]).map(|counts| counts.back), Ok(1));
    assert_eq!((state.threads[0].last_rule(), state.threads[0].backs), (Rule::SentBack(5), 3));
    assert_eq!(ran(&mut state, &code, &[0; 9]).map(|counts| counts.commits), Ok(1));
    assert_eq!((state.threads[0].result(), state.threads[0].backs), (Some(3 + 4), 3));

    // any last rule of a thread fits, an idle pick leaves it, the next rule replaces it; a record of no thread has none
    let code = kuspigo::compile(&whole_case()).unwrap();
    let mut before = State::fresh(&code).unwrap();
    ran(&mut before, &code, &[0, 0, 2, 2, 2, 2, 2, 2]).unwrap();
    for rule in [0, 9, 73, 74, 255, usize::MAX] {
        let mut state = before.clone();
        state.threads[1].rule = rule;
        state.threads[2].rule = rule;
        ran(&mut state, &code, &[2, 3, 255]).unwrap();
        assert_eq!((state.threads[1].rule, state.threads[2].rule), (rule, rule));
        ran(&mut state, &code, &[1]).unwrap();
        assert_eq!((state.threads[1].last_rule(), state.threads[2].rule), (Rule::Begin, rule));
    }
    for record in [3, 15] {
        let mut state = before.clone();
        state.threads[record].rule = 1;
        assert!(!fits(&state, &code));
        state.threads[record] = Thread { backs: 1, ..Thread::ABSENT };
        assert!(!fits(&state, &code));
    }
}

/// Thread 1 copies register 0 to register 1; thread 2 sets register 0 to 5, and then to 0, which it was.
const AWAY_AND_BACK: &[u8] = b"WSJ\x00\x01\x00\x0D\x02\
    \x04\x03\x08\x01\x07\x00\
    \x04\x02\x03\x08\x00\x05\x00\x00\x00\x05\x03\x08\x00\x05\x00\x00\x00\x00";
/// Thread 1 does the same; thread 2 sets register 0 to 0, which it is.
const SAME_VALUE: &[u8] = b"WSJ\x00\x01\x00\x09\x02\
    \x04\x03\x08\x01\x07\x00\
    \x04\x03\x08\x00\x05\x00\x00\x00\x00";

/// Thread 1 reads register 0 before both commits of thread 2, and comes to its COMMIT behind them; then all go on to their
/// ends.
const AWAY_AND_BACK_PICKS: [u8; 20] = [0, 0, 1, 1, 2, 2, 2, 2, 2, 2, 2, 2, 1, 1, 1, 1, 1, 1, 2, 0];

#[test]
fn a_value_that_went_away_and_came_back() {
    let code = compiled(AWAY_AND_BACK).unwrap();
    let mut state = State::fresh(&code).unwrap();
    let (first, rest) = AWAY_AND_BACK_PICKS.split_at(14);
    ran(&mut state, &code, &first[..13]).unwrap();
    let read = &state.threads[1];
    assert_eq!((read.reads, read.readlog[0], read.readcounts[0]), (1, 0, 0));
    assert_eq!((state.registers[0], state.counts[0]), (0, 2));

    let mut state = State::fresh(&code).unwrap();
    let counts = ran(&mut state, &code, first).unwrap();
    assert_eq!(counts, Counts { steps: 14, idle: 0, commits: 2, back: 1, over: 0 });
    assert_eq!((state.threads[1].last_rule(), state.threads[1].backs), (Rule::SentBack(0), 1));
    assert_eq!((state.threads[1].place, state.threads[1].reads, state.threads[1].writes), (8, 0, 0));
    let counts = ran(&mut state, &code, rest).unwrap();
    assert_eq!(counts, Counts { steps: 6, idle: 0, commits: 1, back: 0, over: 0 });
    assert_eq!(state.threads.map(|thread| thread.result())[..4], [Some(0), Some(0), Some(5), None]);
    assert_eq!((state.registers, &state.counts[..3]), ([0; 64], &[2, 1, 0][..]));
}

#[test]
fn the_same_value_written_again() {
    let code = compiled(SAME_VALUE).unwrap();
    let mut state = State::fresh(&code).unwrap();
    let counts = ran(&mut state, &code, &[0, 0, 1, 1, 2, 2, 2, 2, 1, 1]).unwrap();
    assert_eq!(counts, Counts { steps: 10, idle: 0, commits: 1, back: 1, over: 0 });
    assert_eq!((state.threads[1].last_rule(), state.threads[1].backs), (Rule::SentBack(0), 1));
    // one that is written before it is read is not stale
    let mut state = State::fresh(&code).unwrap();
    let counts = ran(&mut state, &code, &[0, 0, 1, 2, 2, 2, 2, 1, 1, 1]).unwrap();
    assert_eq!(counts, Counts { steps: 10, idle: 0, commits: 2, back: 0, over: 0 });
    assert_eq!((state.registers, &state.counts[..3]), ([0; 64], &[1, 1, 0][..]));
}

/// Their listings, of the run program.
#[test]
fn listings_by_counts() {
    let listed = |job: &[u8], picks: &[u8]| {
        let input = [&[0, job.len() as u8], job, picks].concat();
        let listing = plain::listing(&input);
        assert_eq!(String::from_utf8(kuspigo::report(&input).unwrap()).as_ref(), Ok(&listing));
        listing
    };
    let open = "thread 0 open\nthread 1 open\nthread 2 open\n";
    let first = listed(AWAY_AND_BACK, &AWAY_AND_BACK_PICKS[..14]);
    assert_eq!(first, format!("steps 14 idle 0 commits 2 back 1 over 0\n{open}"));
    let all = listed(AWAY_AND_BACK, &AWAY_AND_BACK_PICKS);
    let done = "thread 0 done 0\nthread 1 done 0\nthread 2 done 5\n";
    assert_eq!(all, format!("steps 20 idle 0 commits 3 back 1 over 0\n{done}"));
    let same = listed(SAME_VALUE, &[0, 0, 1, 1, 2, 2, 2, 2, 1, 1]);
    assert_eq!(same, "steps 10 idle 0 commits 1 back 1 over 0\nthread 0 open\nthread 1 open\nthread 2 done 0\n");
}

/// The counts that are not 0 when a process has run alone to its end, with their registers.
fn counts_of(tree: Process) -> Vec<(usize, u32)> {
    let code = compiled(&tree.job()).unwrap();
    let mut state = State::fresh(&code).unwrap();
    ran(&mut state, &code, &[0; 99]).unwrap();
    assert!(state.is_finished());
    state.counts.into_iter().enumerate().filter(|&(_, count)| count > 0).collect()
}

#[test]
fn how_often_commits_have_written() {
    let value = || Transaction::Val(1);
    assert_eq!(counts_of(atomic(write(7, value()))), [(7, 1)]);
    // two WRITEs of one transaction, with the same value and with another
    assert_eq!(counts_of(atomic(write(0, write(0, value())))), [(0, 1)]);
    let other = write(63, Transaction::Val(2));
    assert_eq!(counts_of(atomic(sum_inside(write(63, value()), other))), [(63, 1)]);
    // of two transactions
    assert_eq!(counts_of(sum(atomic(write(0, value())), atomic(write(0, value())))), [(0, 2)]);
    assert_eq!(counts_of(sum(atomic(write(0, write(5, value()))), atomic(write(5, value())))), [(0, 1), (5, 2)]);
    // an empty write log, with and without reads
    assert_eq!(counts_of(atomic(value())), []);
    assert_eq!(counts_of(sum(atomic(Transaction::Read(0)), atomic(Transaction::Read(63)))), []);
    // before COMMIT, and when a thread is sent back, nothing is counted: the whole case
    let code = kuspigo::compile(&whole_case()).unwrap();
    let mut state = State::fresh(&code).unwrap();
    let mut seen = Vec::new();
    for pick in whole_picks() {
        ran(&mut state, &code, &[pick]).unwrap();
        seen.push(state.counts[0]);
        assert_eq!(state.counts[1..], [0; 63]);
    }
    assert_eq!(seen, [vec![0; 10], vec![1; 10], vec![2]].concat());
}

#[test]
fn values_of_a_read_log_decide_nothing() {
    let code = compiled(&atomic(Transaction::Read(5)).job()).unwrap();
    let mut before = State::fresh(&code).unwrap();
    ran(&mut before, &code, &[0, 0]).unwrap();
    for (logged, held) in [(7, 0), (0, 1), (i32::MIN, i32::MAX)] {
        let mut state = before.clone();
        state.threads[0].readlog[5] = logged;
        state.registers[5] = held;
        assert!(fits(&state, &code));
        let counts = ran(&mut state, &code, &[0]).unwrap();
        assert_eq!((counts.commits, counts.back, state.registers[5]), (1, 0, held));
    }
}

/// A COMMIT passed, and then register 5 read in an open transaction.
fn one_passed() -> (Vec<u8>, State) {
    let code = compiled(&sum(atomic(Transaction::Val(1)), atomic(Transaction::Read(5))).job()).unwrap();
    let mut state = State::fresh(&code).unwrap();
    ran(&mut state, &code, &[0; 5]).unwrap();
    assert_eq!((state.threads[0].reads, state.threads[0].readcounts[5]), (1 << 5, 0));
    (code, state)
}

#[test]
fn counts_up_to_the_commits_passed() {
    // none is passed
    let code = compiled(&atomic(Transaction::Val(1)).job()).unwrap();
    let fresh = State::fresh(&code).unwrap();
    for register in 0..64 {
        for count in [1, 2, u32::MAX] {
            let mut state = fresh.clone();
            state.counts[register] = count;
            assert!(!fits(&state, &code));
        }
    }
    // one, by thread 0; the register that is read is stale then, and the thread was not sent back yet
    let (code, before) = one_passed();
    for register in 0..64 {
        for (count, fit) in [(1, true), (2, false), (u32::MAX, false)] {
            let mut state = before.clone();
            state.counts[register] = count;
            assert_eq!(fits(&state, &code), fit);
        }
    }
    let mut state = before;
    state.counts = [1; 64];
    assert!(fits(&state, &code));
    // those of all threads together, ended ones too: in the whole case threads 1 and 2 have passed one each
    let code = kuspigo::compile(&whole_case()).unwrap();
    let mut state = State::fresh(&code).unwrap();
    ran(&mut state, &code, &whole_picks()).unwrap();
    for (count, fit) in [(2, true), (3, false)] {
        state.counts = [count; 64];
        assert_eq!(fits(&state, &code), fit);
    }
}

#[test]
fn counts_of_read_logs() {
    let (code, mut state) = one_passed();
    // up to the table's, where the log marks the register
    for (table, logged, fit) in [(0, 0, true), (0, 1, false), (1, 0, true), (1, 1, true), (1, 2, false)] {
        state.counts[5] = table;
        state.threads[0].readcounts[5] = logged;
        assert_eq!(fits(&state, &code), fit, "{table} {logged}");
        let taken = ran(&mut state.clone(), &code, &[0]).map(|counts| (counts.commits, counts.back));
        let expected = if table == logged { Ok((1, 0)) } else { Ok((0, 1)) };
        assert_eq!(taken, if fit { expected } else { refused(12, 0) });
    }
    // and 0 where it does not
    state.counts = [1; 64];
    state.threads[0].readcounts[5] = 1;
    for register in (0..64).filter(|&register| register != 5) {
        let mut other = state.clone();
        other.threads[0].readcounts[register] = 1;
        assert!(!fits(&other, &code));
        other.threads[0].reads |= 1 << register;
        assert!(fits(&other, &code));
    }
    // where no transaction is open, and in a record of no thread
    ran(&mut state, &code, &[0]).unwrap();
    assert!(fits(&state, &code));
    for record in [0, 1, 15] {
        let mut other = state.clone();
        other.threads[record].readcounts[5] = 1;
        assert!(!fits(&other, &code));
    }
}

#[test]
fn send_backs_and_stale_counts() {
    // as many send-backs as COMMITs passed, and one less
    let (code, mut state) = one_passed();
    state.counts[5] = 1;
    for (logged, backs, fit) in [(0, 0, true), (0, 1, false), (1, 1, true), (1, 2, false)] {
        state.threads[0].readcounts[5] = logged;
        state.threads[0].backs = backs;
        assert_eq!(fits(&state, &code), fit, "{logged} {backs}");
    }
    // another value with the table's count is not stale
    (state.threads[0].readlog[5], state.threads[0].backs) = (7, 1);
    assert!(fits(&state, &code));
    // an equal value with another count is
    let mut other = state.clone();
    (other.threads[0].readlog[5], other.threads[0].readcounts[5]) = (0, 0);
    assert!(!fits(&other, &code));
    other.threads[0].backs = 0;
    assert_eq!(ran(&mut other, &code, &[0]).map(|counts| counts.back), Ok(1));
    assert_eq!((other.threads[0].last_rule(), other.threads[0].backs), (Rule::SentBack(5), 1));
}

#[test]
fn other_than_64_counts() {
    let code = kuspigo::compile(&whole_case()).unwrap();
    let fresh = State::fresh(&code).unwrap();
    let garbage = State { registers: [3; 64], counts: [0; 64], threads: [Thread { height: 9, ..Thread::ABSENT }; 16] };
    for length in [0, 1, 63, 65, 128] {
        let before = vec![4; length];
        let (mut counts, mut state) = (before.clone(), garbage.clone());
        let laid = kuspigo::fresh(&code, &mut state.registers, &mut counts, &mut state.threads);
        assert_eq!(laid, refused(12, 0));
        let laid = plain::fresh(&code, &mut state.registers, &mut counts, &mut state.threads);
        assert_eq!((laid, &counts, &state), (refused(12, 0), &before, &garbage));
        let before = vec![0; length];
        let (mut counts, mut state) = (before.clone(), fresh.clone());
        assert_eq!(kuspigo::step(&code, &mut state.registers, &mut counts, &mut state.threads, 0), refused(12, 0));
        assert_eq!(kuspigo::run(&code, &mut state.registers, &mut counts, &mut state.threads, &[0]), refused(12, 0));
        assert_eq!(plain::step(&code, &mut state.registers, &mut counts, &mut state.threads, 0), refused(12, 0));
        assert_eq!(plain::run(&code, &mut state.registers, &mut counts, &mut state.threads, &[0]), refused(12, 0));
        assert_eq!((&counts, &state), (&before, &fresh));
    }
}

/// With what picks end behind others, from a fresh state: the state, their counts, and what each one did.
fn end_of(code: &[u8], before: &[u8], picks: &[u8]) -> (State, Counts, Vec<Step>) {
    let mut state = State::fresh(code).unwrap();
    ran(&mut state, code, before).unwrap();
    let mut single = state.clone();
    let counts = ran(&mut state, code, picks).unwrap();
    let steps = picks.iter().map(|&pick| single.step(code, pick).unwrap()).collect();
    assert_eq!(single, state);
    (state, counts, steps)
}

/// The threads that took turns.
fn order(picks: &[u8], steps: &[Step]) -> Vec<u8> {
    picks.iter().zip(steps).filter(|(_, step)| step.turn).map(|(&pick, _)| pick).collect()
}

/// A record with these cells on its stack.
fn record([start, end, place]: [usize; 3], stack: &[i32], last: Rule) -> Thread {
    let mut thread = Thread { start, end, place, height: stack.len(), ..Thread::ABSENT };
    thread.cells[..stack.len()].copy_from_slice(stack);
    thread.rule = last.number().unwrap();
    thread
}

/// With these threads, and every register and count 0.
fn state_of(threads: &[Thread]) -> State {
    let mut state = State { registers: [0; 64], counts: [0; 64], threads: [Thread::ABSENT; 16] };
    state.threads[..threads.len()].copy_from_slice(threads);
    state
}

/// FORK of 1 + 2, and 3 + 4. Thread 1 has PUSH at 8 and 13 and ADD at 18, thread 0 FORK at 5, PUSH at 19 and 24 and
/// ADD at 29 and 30.
const TWO_SUMS: &[u8] = b"WSJ\x00\x01\x00\x08\x02\
    \x04\x02\x01\x00\x00\x00\x01\x01\x00\x00\x00\x02\
    \x02\x01\x00\x00\x00\x03\x01\x00\x00\x00\x04";

#[test]
fn sums_exchanged() {
    let code = compiled(TWO_SUMS).unwrap();
    assert_eq!((TWO_SUMS.len(), code.len()), (31, 31));
    // both threads are at an ADD outside transactions
    let before = [0, 1, 1, 0, 0];
    let at_sums = state_of(&[record([5, 31, 29], &[0, 3, 4], Rule::Push), record([8, 19, 18], &[1, 2], Rule::Push)]);
    assert_eq!(end_of(&code, &[], &before).0, at_sums);
    let summed = state_of(&[record([5, 31, 30], &[0, 7], Rule::Sum), record([8, 19, 19], &[3], Rule::Sum)]);
    for picks in [[0, 1], [1, 0]] {
        let (state, counts, steps) = end_of(&code, &before, &picks);
        assert_eq!((&state, counts), (&summed, Counts { steps: 2, ..Counts::default() }));
        let sum = Step { event: Event::Sum, stale: None, turn: true, over: 0 };
        assert_eq!(steps, [sum, sum]);
        // the order of turns is another one
        assert_eq!(order(&picks, &steps), picks);
    }
}

#[test]
fn idle_picks_exchanged() {
    let code = compiled(TWO_SUMS).unwrap();
    // thread 0 at a PUSH, and no thread 9
    let before = [0, 1, 1, 0];
    let pushed = state_of(&[record([5, 31, 29], &[0, 3, 4], Rule::Push), record([8, 19, 18], &[1, 2], Rule::Push)]);
    for picks in [[0, 9], [9, 0]] {
        let (state, counts, _) = end_of(&code, &before, &picks);
        assert_eq!((&state, counts), (&pushed, Counts { steps: 1, idle: 1, ..Counts::default() }));
    }
    // no thread has these numbers; equal numbers make the same list
    let unmoved = state_of(&[record([5, 31, 24], &[0, 3], Rule::Push), record([8, 19, 18], &[1, 2], Rule::Push)]);
    for picks in [[16, 17], [17, 16], [15, 16], [16, 15], [255, 2], [2, 255], [5, 5]] {
        let (state, counts, steps) = end_of(&code, &before, &picks);
        assert_eq!((&state, counts), (&unmoved, Counts { idle: 2, ..Counts::default() }));
        assert!(steps.iter().all(|step| step.event == Event::Idle));
    }
    // thread 1 has ended, thread 0 is at an ADD
    for picks in [[0, 1], [1, 0]] {
        let (state, counts, steps) = end_of(&code, &[0, 1, 1, 1, 0, 0], &picks);
        let ended = state_of(&[record([5, 31, 30], &[0, 7], Rule::Sum), record([8, 19, 19], &[3], Rule::Sum)]);
        assert_eq!((&state, counts), (&ended, Counts { steps: 1, idle: 1, ..Counts::default() }));
        assert_eq!(order(&picks, &steps), [0]);
    }
}

/// Thread 1 writes 5 to register 0 and goes on to a sum: BEGIN at 8, PUSH at 9, WRITE at 14, COMMIT at 16, PUSH at 17,
/// ADD at 22. Thread 0 reads the register: FORK at 5, BEGIN at 23, READ at 24, COMMIT at 26, ADD at 27.
fn writer_and_reader() -> Vec<u8> {
    let writer = sum(atomic(write(0, Transaction::Val(5))), *number(6));
    let code = compiled(&sum(fork(writer), atomic(Transaction::Read(0))).job()).unwrap();
    assert_eq!(code.len(), 28);
    code
}

#[test]
fn reads_and_writes_exchanged() {
    // READ beside WRITE of one register: the table has 0 either way
    let code = writer_and_reader();
    let read = Thread { begin: 23, base: 1, reads: 1, ..record([5, 28, 26], &[0, 0], Rule::ReadTable) };
    let mut written = Thread { begin: 8, writes: 1, ..record([8, 23, 16], &[5], Rule::Write) };
    written.writelog[0] = 5;
    for picks in [[0, 1], [1, 0]] {
        let (state, counts, steps) = end_of(&code, &[0, 0, 1, 1], &picks);
        assert_eq!((&state, counts), (&state_of(&[read, written]), Counts { steps: 2, ..Counts::default() }));
        assert_eq!(order(&picks, &steps), []);
    }

    // READ beside READ, behind a commit that wrote 7 to register 0
    let reader = || atomic(Transaction::Read(0));
    let both = sum(fork(reader()), sum(atomic(write(0, Transaction::Val(7))), reader()));
    // thread 1: BEGIN at 8, READ at 9, COMMIT at 11; thread 0: FORK at 5, BEGIN, PUSH, WRITE, COMMIT from 12 to 20,
    // BEGIN at 21, READ at 22, COMMIT at 24, two ADDs
    let code = compiled(&both.job()).unwrap();
    assert_eq!(code.len(), 27);
    let log = |thread: Thread| {
        let mut thread = Thread { reads: 1, ..thread };
        (thread.readlog[0], thread.readcounts[0]) = (7, 1);
        thread
    };
    let mut expected = state_of(&[
        log(Thread { begin: 21, base: 2, ..record([5, 27, 24], &[0, 7, 7], Rule::ReadTable) }),
        log(Thread { begin: 8, ..record([8, 12, 11], &[7], Rule::ReadTable) }),
    ]);
    (expected.registers[0], expected.counts[0]) = (7, 1);
    for picks in [[0, 1], [1, 0]] {
        let (state, counts, _) = end_of(&code, &[0, 0, 0, 0, 0, 0, 1], &picks);
        assert_eq!((&state, counts), (&expected, Counts { steps: 2, ..Counts::default() }));
    }
}

#[test]
fn send_backs_exchanged() {
    let code = writer_and_reader();
    // thread 0 has read register 0 before thread 1's commit wrote it, and is at its COMMIT; thread 1 is at a PUSH
    let back = Thread { backs: 1, ..record([5, 28, 23], &[0], Rule::SentBack(0)) };
    let mut expected = state_of(&[back, record([8, 23, 22], &[5, 6], Rule::Push)]);
    (expected.registers[0], expected.counts[0]) = (5, 1);
    for picks in [[0, 1], [1, 0]] {
        let (state, counts, steps) = end_of(&code, &[0, 0, 0, 1, 1, 1, 1], &picks);
        assert_eq!((&state, counts), (&expected, Counts { steps: 2, back: 1, ..Counts::default() }));
        assert_eq!(order(&picks, &steps), []);
    }
    // beside an outside sum, and beside an idle pick
    let summed = record([8, 23, 23], &[11], Rule::Sum);
    let mut expected = state_of(&[back, summed]);
    (expected.registers[0], expected.counts[0]) = (5, 1);
    for (before, lists, idle) in [
        (&[0, 0, 0, 1, 1, 1, 1, 1][..], [[0, 1], [1, 0]], 0),
        (&[0, 0, 0, 1, 1, 1, 1, 1, 1], [[0, 1], [1, 0]], 1),
        (&[0, 0, 0, 1, 1, 1, 1, 1, 1], [[0, 16], [16, 0]], 1),
    ] {
        for picks in lists {
            let (state, counts, _) = end_of(&code, before, &picks);
            assert_eq!((&state, counts), (&expected, Counts { steps: 2 - idle, idle, back: 1, ..Counts::default() }));
        }
    }
    // two send-backs: threads 1 and 2 read register 0, and thread 0 writes it
    let reader = || fork(atomic(Transaction::Read(0)));
    let code = compiled(&sum(sum(reader(), reader()), atomic(write(0, Transaction::Val(5)))).job()).unwrap();
    let before = [0, 0, 0, 1, 1, 2, 2, 0, 0, 0, 0];
    let one = end_of(&code, &before, &[1, 2]);
    let other = end_of(&code, &before, &[2, 1]);
    assert_eq!((&one.0, one.1), (&other.0, Counts { steps: 2, back: 2, ..Counts::default() }));
    assert_eq!(one.1, other.1);
    let backs = one.0.threads.map(|thread| (thread.last_rule(), thread.backs));
    assert_eq!(backs[..3], [(Rule::Commit, 0), (Rule::SentBack(0), 1), (Rule::SentBack(0), 1)]);
}

/// A FORK and a commit that takes effect: with these the ends are other ones.
#[test]
fn which_events_are_free() {
    for event in Event::ALL {
        // 3 is fork, 9 a commit that took effect
        assert_eq!(event.is_free(), ![3, 9].contains(&(event as usize)));
    }
}

#[test]
fn what_is_not_exchanged() {
    // a FORK and its child's PUSH, which is idle before it: FORK at 5, PUSH at 8
    let code = compiled(&fork(*number(7)).job()).unwrap();
    let parent = record([5, 13, 13], &[0], Rule::Fork);
    let (state, counts, _) = end_of(&code, &[], &[0, 1]);
    assert_eq!(state, state_of(&[parent, record([8, 13, 13], &[7], Rule::Push)]));
    assert_eq!(counts, Counts { steps: 2, ..Counts::default() });
    let (state, counts, _) = end_of(&code, &[], &[1, 0]);
    assert_eq!(state, state_of(&[parent, record([8, 13, 8], &[], Rule::None)]));
    assert_eq!(counts, Counts { steps: 1, idle: 1, ..Counts::default() });

    // two FORKs: the children have the numbers in the order of the FORKs. Thread 0 forks at 5 and 16, thread 1 at 8
    let code = compiled(&sum(fork(fork(*number(1))), fork(*number(2))).job()).unwrap();
    let starts = |picks: &[u8]| end_of(&code, &[0], picks).0.threads.map(|thread| thread.start);
    assert_eq!(starts(&[0, 1])[..5], [5, 8, 19, 11, 0]);
    assert_eq!(starts(&[1, 0])[..5], [5, 8, 11, 19, 0]);

    // a commit and another's READ of what it writes: afterwards the READ is stale, or has the new value
    let code = writer_and_reader();
    let before = [0, 0, 1, 1, 1];
    let read = |picks: &[u8]| {
        let (mut state, counts, _) = end_of(&code, &before, picks);
        assert_eq!((counts.steps, counts.commits, state.registers[0], state.counts[0]), (2, 1, 5, 1));
        let thread = &state.threads[0];
        let log = (thread.reads, thread.readlog[0], thread.readcounts[0]);
        (log, state.step(&code, 0).unwrap().event)
    };
    assert_eq!(read(&[0, 1]), ((1, 0, 0), Event::SentBack));
    assert_eq!(read(&[1, 0]), ((1, 5, 1), Event::Commit));

    // a commit and another's COMMIT, in the whole case: the second one is sent back
    let code = compiled(&whole_case()).unwrap();
    let before = [0, 0, 1, 1, 1, 1, 1, 2, 2, 2, 2, 2];
    for picks in [[1, 2], [2, 1]] {
        let (state, counts, steps) = end_of(&code, &before, &picks);
        assert_eq!(counts, Counts { steps: 2, commits: 1, back: 1, ..Counts::default() });
        assert_eq!([steps[0].event, steps[1].event], [Event::Commit, Event::SentBack]);
        let backs = state.threads.map(|thread| thread.backs);
        assert_eq!(backs[..3], if picks == [1, 2] { [0, 0, 1] } else { [0, 1, 0] });
    }
}

/// Thread 1's pick goes over thread 2's and then over thread 3's; and so on to all orders of the three.
#[test]
fn exchanges_one_after_the_other() {
    let tree = sum(sum(fork(*number(1)), fork(*number(2))), fork(*number(3)));
    let code = compiled(&tree.job()).unwrap();
    // FORK at 5, 13 and 22, ADD at 21 and 30; PUSH at 8, 16 and 25
    let expected = state_of(&[
        record([5, 31, 30], &[0, 0], Rule::Fork),
        record([8, 13, 13], &[1], Rule::Push),
        record([16, 21, 21], &[2], Rule::Push),
        record([25, 30, 30], &[3], Rule::Push),
    ]);
    for picks in [[1, 2, 3], [2, 1, 3], [2, 3, 1], [3, 2, 1], [3, 1, 2], [1, 3, 2]] {
        let (state, counts, _) = end_of(&code, &[0, 0, 0, 0], &picks);
        assert_eq!((&state, counts), (&expected, Counts { steps: 3, ..Counts::default() }));
    }

    // the whole case: from its picks to others by which its threads see the same
    let code = compiled(&whole_case()).unwrap();
    let exchanged = [vec![0, 0, 2, 1, 2, 2, 0, 1, 2, 2, 2], vec![1; 10]].concat();
    let [whole, other] = [whole_picks(), exchanged].map(|picks| end_of(&code, &[], &picks));
    assert_eq!((&whole.0, whole.1), (&other.0, other.1));
    assert_eq!(whole.1, Counts { steps: 21, idle: 0, commits: 2, back: 1, over: 0 });
    assert_ne!(whole.2, other.2);
}

#[test]
fn forecasts() {
    let told = forecast(&whole_case()).unwrap();
    assert_eq!((told.length, told.heights()), (36, &[2, 2, 2][..]));
    assert_eq!((numbers(&told), names(&told)), ([2, 3, 15, 6, 27], [vec![0], vec![0]]));

    let told = forecast(b"WSJ\x00\x01\x00\x01\x01\x00\x00\x00\x07").unwrap();
    assert_eq!((told.length, told.heights()), (10, &[1][..]));
    assert_eq!((numbers(&told), names(&told)), ([0, 1, 1, 0, 1], [vec![], vec![]]));

    // no ATOMIC
    let told = forecast(&sum(fork(Process::Val(1)), Process::Val(2)).job()).unwrap();
    assert_eq!((told.length, told.heights()), (5 + 3 + 5 + 5 + 1, &[2, 1][..]));
    assert_eq!((numbers(&told), names(&told)), ([0, 2, 4, 0, 4], [vec![], vec![]]));

    // a READ that the write log answers, and one ATOMIC
    let own = Transaction::Add(Box::new(write(0, Transaction::Val(5))), Box::new(Transaction::Read(0)));
    let told = forecast(&atomic(own).job()).unwrap();
    assert_eq!((told.length, told.heights()), (5 + 12, &[2][..]));
    assert_eq!((numbers(&told), names(&told)), ([1, 1, 6, 6, 6], [vec![0], vec![0]]));

    // fork (fork (1 + 1)) + fork 1
    let inner = fork(sum(Process::Val(1), Process::Val(1)));
    let told = forecast(&sum(fork(inner), fork(Process::Val(1))).job()).unwrap();
    assert_eq!(told.heights(), [2, 1, 2, 1]);
    assert_eq!(numbers(&told), [0, 4, 8, 0, 8]);

    // transactions of several lengths, with registers of their own
    let long = atomic(write(63, write(9, Transaction::Read(8))));
    let told = forecast(&sum(fork(long), atomic(Transaction::Read(62))).job()).unwrap();
    assert_eq!((told.length, told.heights()), (5 + 3 + 8 + 4 + 1, &[2, 1][..]));
    assert_eq!((numbers(&told), names(&told)), ([2, 2, 10, 5, 15], [vec![8, 62], vec![9, 63]]));
    assert!(told.reads.contains(62) && !told.reads.contains(63) && !told.reads.contains(64));
}

#[test]
fn forecasts_at_the_limits() {
    // sums 64 deep: on the left two cells are enough, on the right each level takes one
    let comb = |right: bool| {
        (1..64).fold(
            Process::Val(1),
            |tree, _| {
                if right {
                    sum(Process::Val(1), tree)
                } else {
                    sum(tree, Process::Val(1))
                }
            },
        )
    };
    assert_eq!(forecast(&comb(false).job()).unwrap().heights(), [2]);
    assert_eq!(forecast(&comb(true).job()).unwrap().heights(), [64]);

    // FORKs in each other
    let nest = (0..15).fold(Process::Val(1), |tree, _| fork(tree));
    let told = forecast(&nest.job()).unwrap();
    assert_eq!((told.heights(), numbers(&told)), (&[1; 16][..], [0, 16, 16, 0, 16]));

    // every register
    let all = (0..64).map(|register| atomic(write(63 - register, Transaction::Read(register))));
    let told = forecast(&plain::samples::sum(all.collect()).job()).unwrap();
    assert_eq!((told.reads.bits, told.writes.bits), (u64::MAX, u64::MAX));

    // the longest transaction
    let told = forecast(&atomic(full()).job()).unwrap();
    assert_eq!((told.length, numbers(&told)), (5 + 303, [1, 1, 202, 202, 202]));

    // the greatest bound: 1,000 nodes, among them 15 FORKs, 261 small transactions and one of 200 nodes
    let mut parts = vec![atomic(full()), atomic(write(0, Transaction::Read(0)))];
    parts.extend((0..245).map(|_| atomic(Transaction::Read(0))));
    parts.extend((0..15).map(|_| fork(atomic(Transaction::Read(0)))));
    let tree = plain::samples::sum(parts);
    let told = forecast(&tree.job()).unwrap();
    assert_eq!(tree.nodes(), 1 + 200 + 260 * 2 + 3 + 15 + 261);
    assert_eq!(numbers(&told), [262, 16, 1_262, 202, 1_262 + 261 * 15 * 202]);
}

/// A sum of so many READs, as flat as it can be.
fn flat_reads(reads: usize) -> Transaction {
    match reads {
        1 => Transaction::Read(1),
        _ => Transaction::Add(Box::new(flat_reads(reads / 2)), Box::new(flat_reads(reads - reads / 2))),
    }
}

#[test]
fn forecasts_that_are_refused() {
    assert_eq!(forecast(&[]), refused(1, 0));
    assert_eq!(forecast(b"WSK\x00\x01\x00\x01\x01\x00\x00\x00\x07"), refused(2, 0));
    assert_eq!(forecast(b"WSJ\x00\x02\x00\x01\x01\x00\x00\x00\x07"), refused(3, 3));
    assert_eq!(forecast(b"WSJ\x00\x01\x03\xE9\x01\x00\x00\x00\x07"), refused(4, 5));
    assert_eq!(forecast(b"WSJ\x00\x01\x00\x02\x03\x01"), refused(5, 8));
    assert_eq!(forecast(b"WSJ\x00\x01\x00\x02\x03\x07\x40"), refused(6, 9));
    let deep = (1..65).fold(Process::Val(1), |tree, _| sum(tree, Process::Val(1)));
    assert_eq!(forecast(&deep.job()), refused(7, 71));
    let sixteen = (0..16).fold(Process::Val(1), |tree, _| fork(tree));
    assert_eq!(forecast(&sixteen.job()), refused(8, 22));
    assert_eq!(forecast(&[whole_case(), vec![0]].concat()), refused(9, 32));
    assert_eq!(forecast(&whole_case()[..31]), refused(1, 31));
    assert_eq!(forecast(&atomic(long()).job()), refused(14, 7));
    assert_eq!(forecast(&sum(Process::Val(1), fork(atomic(long()))).job()), refused(14, 14));
    assert_eq!(forecast(&[atomic(long()).job(), vec![0]].concat()), refused(9, 310));
}

/// The job of a formula, both implementations agreeing, also on outputs that are too short, and nothing else altered.
fn read(text: impl AsRef<[u8]>) -> Result<Vec<u8>, Refusal> {
    let text = text.as_ref();
    let job = kuspigo::formula(text);
    let length = job.as_ref().map_or(20, Vec::len);
    for lent in [0, 1, 7, length - 1, length, length + 1, length + 100] {
        let expected = match &job {
            Ok(_) if lent < length => refused(10, 0),
            Ok(_) => Ok(length),
            Err(refusal) => Err(*refusal),
        };
        for call in [kuspigo::formula_into, plain::formula] {
            let mut out = vec![0xAA; lent];
            assert_eq!(call(text, &mut out), expected, "{}", text.escape_ascii());
            let done = expected.unwrap_or(0);
            assert!(job.as_ref().map_or(&[][..], |job| &job[..done]) == &out[..done], "{}", text.escape_ascii());
            assert!(out[done..].iter().all(|&byte| byte == 0xAA), "{}", text.escape_ascii());
        }
    }
    job
}

/// Nodes behind mark, version and count.
fn job_of(count: u8, nodes: &[&[u8]]) -> Result<Vec<u8>, Refusal> {
    Ok([&b"WSJ\x00\x01\x00"[..], &[count], &nodes.concat()].concat())
}

#[test]
fn formulas() {
    let val = |n: u8| [1, 0, 0, 0, n];
    assert_eq!(read("7"), job_of(1, &[&val(7)]));
    assert_eq!(read("fork atomic(r0 := r0 + 1) + fork atomic(r0 := r0 + 1)"), Ok(whole_case()));
    // `+` groups to the left
    assert_eq!(read("1 + 2 + 3"), job_of(5, &[&[2, 2], &val(1), &val(2), &val(3)]));
    assert_eq!(read("(1 + 2) + 3"), read("1 + 2 + 3"));
    assert_eq!(read("1 + (2 + 3)"), job_of(5, &[&[2], &val(1), &[2], &val(2), &val(3)]));
    assert_eq!(
        read("(1 + 2) + (3 + 4) + 5"),
        job_of(9, &[&[2, 2, 2], &val(1), &val(2), &[2], &val(3), &val(4), &val(5)])
    );
    // a fork has one term
    assert_eq!(read("fork 1 + 2"), job_of(4, &[&[2, 4], &val(1), &val(2)]));
    assert_eq!(read("fork (1 + 2)"), job_of(4, &[&[4, 2], &val(1), &val(2)]));
    assert_eq!(read("forkfork1"), job_of(3, &[&[4, 4], &val(1)]));
    assert_eq!(read("1+fork(2)"), job_of(4, &[&[2], &val(1), &[4], &val(2)]));
    // a write has all that follows it
    assert_eq!(read("atomic(r5)"), job_of(2, &[&[3, 7, 5]]));
    assert_eq!(read("atomic(((r5)))"), job_of(2, &[&[3, 7, 5]]));
    assert_eq!(read("atomic(r5 := 1 + r6)"), job_of(5, &[&[3, 8, 5, 6], &[5, 0, 0, 0, 1], &[7, 6]]));
    assert_eq!(read("atomic((r5 := 1) + r6)"), job_of(5, &[&[3, 6, 8, 5], &[5, 0, 0, 0, 1], &[7, 6]]));
    assert_eq!(read("atomic(r5 := r6 := r7)"), job_of(4, &[&[3, 8, 5, 8, 6, 7, 7]]));
    assert_eq!(read("atomic(r5 := (r6 := r7))"), read("atomic(r5 := r6 := r7)"));
    assert_eq!(read("atomic(r1 + r2 + r3)"), job_of(6, &[&[3, 6, 6, 7, 1, 7, 2, 7, 3]]));
    assert_eq!(read("atomic(r1 + (r2 := 9))"), job_of(5, &[&[3, 6, 7, 1, 8, 2, 5, 0, 0, 0, 9]]));
    // blanks, and none
    assert_eq!(read(" \n\r1\r\n + \r2 "), read("1+2"));
    assert_eq!(read("\nfork\natomic\n(\nr0\n:=\nr0\n+\n1\n)\n"), read("fork atomic(r0:=r0+1)"));
    assert_eq!(read("forkatomic(r0:=r0+1)"), job_of(6, &[&[4, 3, 8, 0, 6, 7, 0], &[5, 0, 0, 0, 1]]));
}

#[test]
fn numbers_and_registers_of_formulas() {
    let val = |n: i32| job_of(1, &[&[1], &n.to_be_bytes()]);
    for (text, n) in [
        ("0", 0),
        ("-0", 0),
        ("-000", 0),
        ("007", 7),
        ("-0012", -12),
        ("2147483647", i32::MAX),
        ("-2147483648", i32::MIN),
        ("00000000002147483647", i32::MAX),
        ("-00000000002147483648", i32::MIN),
    ] {
        assert_eq!(read(text), val(n), "{text}");
    }
    for (text, place) in [
        ("2147483648", 9),
        ("-2147483649", 10),
        ("21474836470", 10),
        ("0002147483648", 12),
        ("-0002147483649", 13),
        ("4294967296", 9),
        ("3000000000", 9),
        ("9999999999999999999999", 9),
        ("1 + 2147483648", 13),
        ("atomic(2147483648)", 16),
    ] {
        assert_eq!(read(text), refused(15, place), "{text}");
    }
    for (text, register) in [("r0", 0), ("r63", 63), ("r063", 63), ("r00000063", 63), ("r9", 9)] {
        assert_eq!(read(format!("atomic({text})")), job_of(2, &[&[3, 7, register]]), "{text}");
        let write = job_of(3, &[&[3, 8, register], &[5, 255, 255, 255, 255]]);
        assert_eq!(read(format!("atomic({text}:=-1)")), write, "{text}");
    }
    for (text, place) in [
        ("atomic(r64)", 9),
        ("atomic(r64 := 1)", 9),
        ("atomic(r70)", 9),
        ("atomic(r630)", 10),
        ("atomic(r0064)", 11),
        ("atomic(1 + r64)", 13),
        ("atomic(r1 := r64)", 15),
    ] {
        assert_eq!(read(text), refused(15, place), "{text}");
    }
}

#[test]
fn what_is_no_formula() {
    for (text, place) in [
        // what begins no term
        ("", 0),
        (" ", 1),
        ("\n\r ", 3),
        ("\t", 0),
        ("+", 0),
        ("+1", 0),
        (")", 0),
        ("()", 1),
        ("( )", 2),
        (":=", 0),
        ("x", 0),
        ("\0", 0),
        ("r5", 0),
        ("(r5 := 1)", 1),
        ("1 + r1", 4),
        ("1 + + 2", 4),
        ("1 + ", 4),
        ("1 +", 3),
        // what follows none
        ("1\t", 1),
        ("1 \t+ 2", 2),
        ("12 3", 3),
        ("1 2", 2),
        ("1(2)", 1),
        ("1fork 2", 1),
        ("1-1", 1),
        ("1.5", 1),
        ("1)", 1),
        ("(1", 2),
        ("(1))", 3),
        ("(1 + 2", 6),
        // numbers
        ("-", 1),
        ("- 1", 1),
        ("--1", 1),
        ("-(1)", 1),
        ("1 0", 2),
        // words
        ("f", 1),
        ("fork", 4),
        ("fork ", 5),
        ("f ork 1", 1),
        ("for k 1", 3),
        ("forks 1", 4),
        ("Fork 1", 0),
        ("fOrk 1", 1),
        ("fork + 1", 5),
        ("fork)", 4),
        ("fork r1", 5),
        ("atomic", 6),
        ("atom", 4),
        ("at omic(1)", 2),
        ("atomic 1", 7),
        ("atomic fork 1", 7),
        ("atomi(1)", 5),
        // transactions
        ("atomic(", 7),
        ("atomic()", 7),
        ("atomic(1", 8),
        ("atomic((1)", 10),
        ("atomic(1))", 9),
        ("atomic(fork 1)", 7),
        ("atomic(atomic(1))", 7),
        ("atomic(1 2)", 9),
        ("atomic(r)", 8),
        ("atomic(r 5)", 8),
        ("atomic(r5 5)", 10),
        ("atomic(r-1)", 8),
        ("atomic(R5)", 7),
        // writes
        ("atomic(r5: =1)", 10),
        ("atomic(r5 : = 1)", 11),
        ("atomic(r5 = 1)", 10),
        ("atomic(r5 :)", 11),
        ("atomic(r5 :=)", 12),
        ("atomic(r5 :=", 12),
        ("atomic(r5 :", 11),
        ("atomic(r5 := := 1)", 13),
        ("atomic(:= 1)", 7),
        ("atomic(1 := 2)", 9),
        ("atomic(1 + r1 := 2)", 14),
        ("atomic((r1) := 2)", 12),
        ("atomic(r1 + r2 := 3)", 15),
        ("atomic(r1 := 2 + r2 := 3)", 20),
        ("atomic(r1 := 2) := 3", 16),
    ] {
        assert_eq!(read(text), refused(15, place), "{text:?}");
    }
    assert_eq!(read(b"1 + \xC2\xA02"), refused(15, 4));
    // all bytes that may stand first
    let first: Vec<u8> = (0..=255).filter(|&byte| read([byte]) != refused(15, 0)).collect();
    assert_eq!(first, b"\n\r (-0123456789af");
}

/// So many of one, then the middle, then so many of the other.
fn around(count: usize, before: &str, middle: &str, behind: &str) -> String {
    [&before.repeat(count), middle, &behind.repeat(count)].concat()
}

#[test]
fn how_many_may_be_open() {
    let one = read("1");
    let one_inside = read("atomic(1)");
    // brackets
    assert_eq!(read(around(64, "(", "1", ")")), one);
    assert_eq!(read(around(65, "(", "1", ")")), refused(15, 64));
    assert_eq!(read("(".repeat(64)), refused(15, 64));
    assert_eq!(read("(".repeat(32_768)), refused(15, 64));
    assert_eq!(read(format!("atomic({})", around(62, "(", "1", ")"))), one_inside);
    assert_eq!(read(format!("atomic({})", around(63, "(", "1", ")"))), refused(15, 69));
    // forks, of which a job has fifteen
    assert_eq!(read(around(64, "fork", "1", "")), refused(8, 22));
    assert_eq!(read(around(65, "fork", "1", "")), refused(15, 256));
    assert_eq!(read(around(64, "fork", "(1)", "")), refused(15, 256));
    assert_eq!(read(around(63, "fork ", "(1)", "")), refused(8, 22));
    assert_eq!(read(around(49, "(", &around(15, "fork", "1", ""), ")")), job_of(16, &[&[4; 15], &[1, 0, 0, 0, 1]]));
    assert_eq!(read(around(50, "(", &around(15, "fork", "1", ""), ")")), refused(15, 50 + 14 * 4));
    // an atomic and its bracket are two
    assert_eq!(read(around(62, "(", "atomic(1)", ")")), one_inside);
    assert_eq!(read(around(63, "(", "atomic(1)", ")")), refused(15, 63));
    assert_eq!(read(around(64, "(", "atomic(1)", ")")), refused(15, 64));
    assert_eq!(read(around(63, "fork", "atomic(1)", "")), refused(15, 252));
    // writes; a register alone opens nothing
    assert_eq!(read(format!("atomic({})", around(62, "r1:=", "1", ""))).unwrap().len(), 7 + 1 + 62 * 2 + 5);
    assert_eq!(read(format!("atomic({})", around(63, "r1:=", "1", ""))), refused(15, 7 + 62 * 4 + 2));
    assert_eq!(read(format!("atomic({})", around(62, "r1:=", "r1", ""))).unwrap().len(), 7 + 1 + 63 * 2);
    assert_eq!(read(format!("atomic({})", around(62, "r1:=", "(1)", ""))), refused(15, 7 + 62 * 4));
    assert_eq!(read(around(61, "(", "atomic(r1 :=2)", ")")), job_of(3, &[&[3, 8, 1], &[5, 0, 0, 0, 2]]));
    assert_eq!(read(around(62, "(", "atomic(r1 :=2)", ")")), refused(15, 72));
    assert_eq!(read(around(62, "(", "atomic(r1 )", ")")), job_of(2, &[&[3, 7, 1]]));
    // of each kind some
    let mixed = |inner: &str| around(10, "(fork", &format!("atomic({})", around(21, "(r1:=", inner, ")")), ")");
    assert_eq!(read(mixed("1")).unwrap().len(), 7 + 10 + 1 + 21 * 2 + 5);
    assert_eq!(read(mixed("(1)")), refused(15, 10 * 5 + 7 + 21 * 5));
    assert_eq!(read(mixed("r2:=1")), refused(15, 10 * 5 + 7 + 21 * 5 + 2));
    // each is shut again
    assert_eq!(read(vec!["(1)"; 64].join("+")), read(ones(64)));
    assert_eq!(read(around(63, "(", "fork 1 + (2)", ")")), read("fork 1 + 2"));
    assert_eq!(read(around(63, "(", "fork (1)", ")")), refused(15, 68));
    assert_eq!(read(around(62, "(", "atomic(1) + fork(2) + atomic(3)", ")")), read("atomic(1) + fork 2 + atomic(3)"));
    assert_eq!(read(around(60, "(", "atomic((r1 := 2) + (r3 := r4))", ")")), read("atomic((r1 := 2) + (r3 := r4))"));
    assert_eq!(read(around(61, "(", "atomic((r1 := 2) + (r3 := r4))", ")")), refused(15, 61 + 7 + 4));
}

#[test]
fn how_long_a_formula_may_be() {
    let spaced = |blanks: usize| [vec![b' '; blanks], b"1".to_vec()].concat();
    assert_eq!(read(spaced(32_767)), read("1"));
    assert_eq!(read(spaced(32_768)), refused(15, 32_768));
    assert_eq!(read([&b"1"[..], &[b'\n'; 32_767]].concat()), read("1"));
    assert_eq!(read([&b"1"[..], &[b'\n'; 32_768]].concat()), refused(15, 32_768));
    assert_eq!(read([b' '; 32_768]), refused(15, 32_768));
    assert_eq!(read([&[b'0'; 32_767][..], b"1"].concat()), read("1"));
    assert_eq!(read([&[b'0'; 32_767][..], b"x"].concat()), refused(15, 32_767));
    // an early error, and a length that is one too many
    for (length, place) in [(32_767, 1), (32_768, 1), (32_769, 32_768), (100_000, 32_768)] {
        assert_eq!(read([&b"1x"[..], &vec![b' '; length - 2]].concat()), refused(15, place), "{length}");
    }
    assert_eq!(read(ones(16_384)), refused(4, 5));
    assert_eq!(read([ones(16_384), b" ".to_vec()].concat()), refused(4, 5));
    assert_eq!(read([ones(16_384), b"+".to_vec()].concat()), refused(15, 32_768));
    assert_eq!(read(ones(16_385)), refused(15, 32_768));
}

/// The formula of a tree, with what is needed and nothing else.
fn typed(tree: &Process) -> Vec<u8> {
    PLAIN.typed(&mut Rng::new(1, 0, 0), tree).text
}

#[test]
fn jobs_of_formulas_that_are_refused() {
    // 64 ADDPs, then the first number at depth 65
    assert_eq!(read(ones(64)).unwrap().len(), 7 + 63 + 64 * 5);
    assert_eq!(read(ones(65)), refused(7, 71));
    assert_eq!(read(ones(500)), refused(7, 71));
    assert_eq!(read(ones(501)), refused(4, 5));
    // the same within brackets to the right, where the last two numbers are at depth 65, and 63 pairs of ADDP and number
    // and an ADDP before them
    let right = |sums: usize| around(sums, "1+(", "1", ")");
    assert_eq!(read(right(63)).unwrap().len(), 7 + 63 + 64 * 5);
    assert_eq!(read(right(64)), refused(7, 7 + 63 * 6 + 1));
    // 1,000 nodes and one more
    let tree = |forks: usize| {
        let number = |n: usize| if n < forks { fork(Process::Val(7)) } else { Process::Val(7) };
        samples::sum((0..500).map(number).collect())
    };
    assert_eq!((tree(1).nodes(), tree(2).nodes()), (1_000, 1_001));
    assert_eq!(read(typed(&tree(1))), Ok(tree(1).job()));
    assert_eq!(tree(1).job().len(), 3_007);
    assert_eq!(read(typed(&tree(2))), refused(4, 5));
    // 15 ADDPs, and each FORK with its number; the sixteenth
    let forks = |count| vec!["fork 1"; count].join("+");
    assert_eq!(read(forks(15)).unwrap().len(), 7 + 14 + 15 * 6);
    assert_eq!(read(forks(16)), refused(8, 7 + 15 + 15 * 6));
    // transactions of 200 nodes and of 201; one that is a flat sum is too deep before
    assert_eq!(read(typed(&atomic(full()))), Ok(atomic(full()).job()));
    assert_eq!(read(typed(&atomic(long()))), refused(14, 7));
    assert_eq!(read(typed(&sum(Process::Val(1), fork(atomic(long()))))), refused(14, 14));
    let flat = |reads| format!("atomic({})", vec!["r1"; reads].join("+"));
    assert_eq!(read(flat(63)).unwrap().len(), 7 + 1 + 62 + 63 * 2);
    assert_eq!(read(flat(64)), refused(7, 71));
    assert_eq!(read(flat(101)), refused(7, 71));
    // 15 comes before each of them
    for text in [ones(65), ones(501), forks(16).into_bytes(), typed(&atomic(long()))] {
        assert_eq!(read([&text[..], b"+"].concat()), refused(15, text.len() + 1));
        assert_eq!(read([&text[..], b" )"].concat()), refused(15, text.len() + 1));
    }
    // and 4 before the others, 14 behind them
    assert_eq!(read(format!("{}+{}", forks(16), around(490, "", &forks(10), "+1"))), refused(4, 5));
    assert_eq!(read([&typed(&atomic(long()))[..], b"+", forks(16).as_bytes()].concat()), refused(8, 22 + 1 + 303 + 90));
}

/// The open threads beside the listing's, pick by pick.
#[test]
fn open_threads_are_those_that_are_listed_open() {
    let (job, picks) = (whole_case(), whole_picks());
    let code = kuspigo::compile(&job).unwrap();
    let mut state = State::fresh(&code).unwrap();
    let mut finished = Vec::new();
    for done in 0..=picks.len() {
        let input = [&[0, 32], &job[..], &picks[..done]].concat();
        let listing = String::from_utf8(kuspigo::report(&input).unwrap()).unwrap();
        let listed = listing.lines().filter_map(|line| line.strip_prefix("thread ")?.strip_suffix(" open"));
        let open: Vec<String> = state.open_threads().map(|thread| thread.to_string()).collect();
        assert!(listed.eq(&open), "{done} picks: {open:?}\n{listing}");
        assert_eq!(state.is_finished(), open.is_empty());
        finished.push(state.is_finished());
        if let Some(&pick) = picks.get(done) {
            assert!(state.open_threads().any(|thread| thread == pick));
            state.step(&code, pick).unwrap();
        }
    }
    assert_eq!(finished, [vec![false; picks.len()], vec![true]].concat());
}

#[test]
fn refusals_have_words() {
    assert!(Reason::all().map(|reason| reason.number()).eq(1..=15));
    assert!(Reason::all().all(|reason| Reason::from_number(reason.number().into()) == Some(reason)));
    assert_eq!([0, 16, usize::MAX].map(Reason::from_number), [None; 3]);
    let words: Vec<&str> = Reason::all().map(Reason::word).collect();
    assert_eq!(
        words,
        [
            "cut",
            "mark",
            "version",
            "count",
            "kind",
            "register",
            "depth",
            "forks",
            "length",
            "short tray",
            "foreign code",
            "foreign state",
            "long list",
            "long transaction",
            "not a script"
        ]
    );
    let error: Box<dyn std::error::Error> = Box::new(Refusal { reason: Reason::ShortTray, place: 0 });
    assert_eq!(error.to_string(), "refused 10 (short tray) at 0: The output is shorter than the result.");
}
