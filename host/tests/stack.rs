//! How much stack each call takes. The header's KUSPIGO_STACK_ numbers are not exceeded. The job reader and the forecast
//! reach no function that calls itself: they take the same for every job that they read to its end. The emitter, which
//! compiling and the report reach, calls itself, and so does the reader of formulas.
//!
//! Measured on a stack of our own, filled before the call: from its top, with the arguments that lie there and the return
//! address, down to the last byte that was altered.
#![cfg(target_arch = "x86_64")]

use core::arch::asm;
use core::fmt::Debug;
use core::mem::MaybeUninit;
use kuspigo::ffi::{self, ForecastReply, FreshReply, RunReply, StepReply, Written};
use kuspigo::{raw, State, LONGEST_CODE, LONGEST_JOB, LONGEST_LISTING};
use plain::samples::{chain, deep, many_small, Rng};
use plain::texts::{nested, ones};

const DEEPEST: usize = 64;
/// Brackets, forks, atomics and writes of a formula together.
const MOST_OPEN: usize = 64;
const MOST_NODES: usize = 1_000;

/// As the calling convention aligns one.
#[repr(align(16))]
struct Stack([u8; 1 << 17]);

/// Words that are passed in registers.
const IN_REGISTERS: usize = 6;

/// Calls a C function on a stack filled with a byte: what it hands back in registers, and how many bytes of the stack lie
/// above the last one altered.
///
/// SAFETY: the function takes these words or the first of them.
unsafe fn on_stack(stack: &mut Stack, fill: u8, function: *const (), words: &[usize]) -> ([usize; 2], usize) {
    stack.0.fill(fill);
    let mut registers = [0; IN_REGISTERS];
    let in_registers = words.len().min(IN_REGISTERS);
    registers[..in_registers].copy_from_slice(&words[..in_registers]);
    // the rest lies on the stack, the first one lowest, at a multiple of 16
    let on_stack: Vec<u8> = words[in_registers..].iter().flat_map(|word| word.to_ne_bytes()).collect();
    let top = stack.0.len() - on_stack.len().next_multiple_of(16);
    stack.0[top..top + on_stack.len()].copy_from_slice(&on_stack);
    let (rax, rdx): (usize, usize);
    asm!(
        "xchg rsp, r12",
        "call {function}",
        "mov rsp, r12",
        function = in(reg) function,
        inout("r12") stack.0.as_mut_ptr().add(top) => _,
        in("rdi") registers[0],
        in("rsi") registers[1],
        inout("rdx") registers[2] => rdx,
        in("rcx") registers[3],
        in("r8") registers[4],
        in("r9") registers[5],
        out("rax") rax,
        clobber_abi("C"),
    );
    let untouched = stack.0.iter().take_while(|&&byte| byte == fill).count();
    assert!(untouched > 0, "the stack is too short");
    ([rax, rdx], stack.0.len() - untouched)
}

/// The same with two fillings: a byte that was written differs from one of them. `prepare` gives the words, with the
/// memory that they lend as it is to be before each call.
///
/// SAFETY: as above; the function hands an `A` back through memory.
unsafe fn measured<A: PartialEq + Debug>(function: *const (), mut prepare: impl FnMut() -> Vec<usize>) -> (A, usize) {
    let mut stack = Box::new(Stack([0; 1 << 17]));
    let mut answered = [0x5A, 0xC3].map(|fill| {
        let mut answer = MaybeUninit::<A>::uninit();
        let words = [vec![answer.as_mut_ptr() as usize], prepare()].concat();
        let (_, taken) = on_stack(&mut stack, fill, function, &words);
        (answer.assume_init(), taken)
    });
    answered.sort_by_key(|&(_, taken)| taken);
    let [(first, _), (second, most)] = answered;
    assert_eq!(first, second);
    (second, most)
}

fn of_forecast(job: &[u8]) -> usize {
    let words = || vec![job.as_ptr() as usize, job.len()];
    // SAFETY: the pointer comes from a slice of the count beside it.
    let (answer, stack) = unsafe { measured::<ForecastReply>(ffi::kuspigo_forecast as *const (), words) };
    assert_eq!(answer, raw::forecast(job));
    stack
}

/// Of compiling into no output: the job reader's, since nothing behind it works.
fn of_reader(job: &[u8]) -> usize {
    of_compile(job, 0)
}

fn of_compile(job: &[u8], length: usize) -> usize {
    of_writing(ffi::kuspigo_compile as *const (), raw::compile, job, length)
}

fn of_read_back(code: &[u8]) -> usize {
    of_writing(ffi::kuspigo_read_back as *const (), raw::read_back, code, LONGEST_JOB)
}

fn of_report(input: &[u8]) -> usize {
    of_writing(ffi::kuspigo_report as *const (), raw::report, input, LONGEST_LISTING)
}

fn of_formula(text: &[u8]) -> usize {
    of_writing(ffi::kuspigo_formula as *const (), raw::formula, text, LONGEST_JOB)
}

/// Of a call that writes to an output.
fn of_writing(function: *const (), call: fn(&[u8], &mut [u8]) -> Written, input: &[u8], length: usize) -> usize {
    let mut out = vec![0; length];
    let words = || vec![input.as_ptr() as usize, input.len(), out.as_mut_ptr() as usize, length];
    // SAFETY: both pointers come from slices of the counts beside them, `out` being lent to this call alone.
    let (answer, stack) = unsafe { measured::<Written>(function, words) };
    assert_eq!(answer, call(input, &mut vec![0; length]));
    stack
}

/// The words that lend code and a state.
fn lent(code: &[u8], state: &mut State) -> Vec<usize> {
    let State { registers, counts, threads } = state;
    let table = [registers.as_mut_ptr() as usize, registers.len(), counts.as_mut_ptr() as usize, counts.len()];
    [&[code.as_ptr() as usize, code.len()], &table[..], &[threads.as_mut_ptr() as usize, threads.len()]].concat()
}

fn of_fresh(code: &[u8], state: &State) -> usize {
    let mut state = state.clone();
    let mut stack = Box::new(Stack([0; 1 << 17]));
    let measures = [0x5A, 0xC3].map(|fill| {
        let words = lent(code, &mut state);
        // SAFETY: all pointers come from slices of the counts beside them; what is written is lent to this call alone.
        let ([refusal, place], taken) = unsafe { on_stack(&mut stack, fill, ffi::kuspigo_fresh as *const (), &words) };
        let mut other = state.clone();
        let expected = raw::fresh(code, &mut other.registers, &mut other.counts, &mut other.threads);
        assert_eq!(FreshReply { refusal, place }, expected);
        taken
    });
    measures[0].max(measures[1])
}

fn of_step(code: &[u8], state: &State, pick: u8) -> usize {
    let mut own = state.clone();
    let words = || {
        own = state.clone();
        [lent(code, &mut own), vec![pick.into()]].concat()
    };
    // SAFETY: as for fresh.
    let (answer, stack) = unsafe { measured::<StepReply>(ffi::kuspigo_step as *const (), words) };
    let mut other = state.clone();
    assert_eq!(answer, raw::step(code, &mut other.registers, &mut other.counts, &mut other.threads, pick));
    stack
}

fn of_run(code: &[u8], state: &State, picks: &[u8]) -> usize {
    let mut own = state.clone();
    let words = || {
        own = state.clone();
        [lent(code, &mut own), vec![picks.as_ptr() as usize, picks.len()]].concat()
    };
    // SAFETY: as for fresh; `picks` is a slice of its count too.
    let (answer, stack) = unsafe { measured::<RunReply>(ffi::kuspigo_run as *const (), words) };
    let mut other = state.clone();
    assert_eq!(answer, raw::run(code, &mut other.registers, &mut other.counts, &mut other.threads, picks));
    stack
}

fn of_depth(depth: usize) -> Vec<u8> {
    chain(&mut Rng::new(1, 0, depth as u64), depth, 15).job()
}

/// Jobs of each depth, and jobs of 1,000 nodes, flat ones and at depth 64.
fn accepted() -> Vec<Vec<u8>> {
    let mut jobs: Vec<_> = (1..=DEEPEST).map(of_depth).collect();
    jobs.extend([1, 2, 16].map(|threads| many_small(MOST_NODES, threads).job()));
    jobs.extend((0..200).map(|case| deep(&mut Rng::new(1, 1, case), MOST_NODES, DEEPEST, 15, 200).job()));
    jobs
}

/// Heads that are refused, deeper jobs, and the accepted ones cut, too long by a byte, and with another count.
fn refused() -> Vec<Vec<u8>> {
    let mut jobs = vec![Vec::new(), b"WSJ\x00\x02\x00\x01".to_vec(), b"WSJ\x00\x01\x00\x00".to_vec()];
    jobs.extend((DEEPEST + 1..DEEPEST + 6).map(of_depth));
    for (i, job) in accepted().into_iter().enumerate() {
        jobs.push(job[..job.len() - 1].to_vec());
        jobs.push(job[..7 + i * 31 % (job.len() - 7)].to_vec());
        jobs.push([&job[..], &[0]].concat());
        let mut recounted = job;
        recounted[6] ^= 1;
        jobs.push(recounted);
    }
    jobs
}

/// Texts with so many open, of one kind or mixed; some are scripts with up to as many as may be.
fn texts(open: usize) -> Vec<Vec<u8>> {
    let around = |count: usize, before: &str, middle: &str, behind: &str| {
        [&before.repeat(count), middle, &behind.repeat(count)].concat().into_bytes()
    };
    let inside = |text: Vec<u8>| [&b"atomic("[..], &text, b")"].concat();
    let within = open.saturating_sub(2);
    let mut texts = vec![
        around(open, "(", "1", ")"),
        around(open, "1 + (", "1", ")"),
        around(open, "1 + (", "1 + -2147483648 + 1", ")"),
        around(open, "1 + (", "1 + fork", ")"),
        around(open, "(1 + ", "1 + (", " + 1)"),
        around(open, "fork ", "1", ""),
        around(open / 2, "(fork ", "1", ")"),
        around(open / 2, "1 + (fork ", "1", ")"),
        around(within, "(", "atomic(r1)", ")"),
        around(within, "1 + (", "1 + atomic(r1 + r2)", ")"),
        inside(around(within, "(", "r1", ")")),
        inside(around(within, "r5 + (", "r1", ")")),
        inside(around(within, "r5 + (", "r1 + r2 + -2147483648", ")")),
        inside(around(within.saturating_sub(1), "r5 + (", "r1 := r2 + r3", ")")),
        inside(around(within, "r5 := ", "r1", "")),
        inside(around(within / 2, "r5 := (", "r1", ")")),
        inside(around(within / 2, "r5 + (r6 := ", "r1", ")")),
        inside(around(within / 2, "(r6 := ", "r1 + 1", ") + r2")),
    ];
    texts.extend((0..40).map(|case| nested(&mut Rng::new(1, 4, case), open)));
    texts
}

/// A number that the header defines.
fn defined(name: &str) -> usize {
    let header = header();
    let line = header.lines().find_map(|line| line.strip_prefix(&format!("#define {name} ")));
    let number = line.and_then(|line| line.split_whitespace().next()).and_then(|number| number.parse().ok());
    number.unwrap_or_else(|| panic!("the header defines the number {name}"))
}

/// The header's text.
fn header() -> String {
    let header = std::path::Path::new(env!("CARGO_MANIFEST_DIR")).join("../include/kuspigo.h");
    std::fs::read_to_string(header).expect("the header is there")
}

/// The header's number is at least the most that was measured.
fn within(call: &str, taken: &[usize]) {
    let (least, most) = (taken.iter().min().unwrap(), taken.iter().max().unwrap());
    let told = defined(&format!("KUSPIGO_STACK_{call}"));
    println!("{call}: {least} to {most} bytes of stack in {} calls, {told} in the header", taken.len());
    assert!(*most <= told, "{call} takes {most} bytes of stack, and the header says {told}");
}

#[test]
fn the_readers_stack_does_not_grow_with_the_script() {
    type StackOf = fn(&[u8]) -> usize;
    for (name, stack_of) in [("job reader", of_reader as StackOf), ("forecast", of_forecast)] {
        let taken: Vec<usize> = accepted().iter().map(|job| stack_of(job)).collect();
        let turned_down: Vec<usize> = refused().iter().map(|job| stack_of(job)).collect();
        let most = taken[0];
        println!("{name}: {most} bytes of stack, for each of {} accepted jobs", taken.len());
        let ends = (turned_down.iter().min().unwrap(), turned_down.iter().max().unwrap());
        println!("    {} to {} for {} refused ones", ends.0, ends.1, turned_down.len());
        assert!(taken.iter().all(|&stack| stack == most), "{taken:?}");
        assert!(turned_down.iter().all(|&stack| stack <= most), "{turned_down:?}");
    }
    assert!(accepted().iter().all(|job| raw::forecast(job).refusal == 0));
    assert!(refused().iter().all(|job| raw::forecast(job).refusal != 0));
}

#[test]
fn the_emitters_stack_does_and_is_seen_to() {
    let flat = of_compile(&of_depth(1), LONGEST_CODE);
    let most = accepted().iter().map(|job| of_compile(job, LONGEST_CODE)).max().unwrap();
    println!("compile: {flat} bytes of stack for a job of one node, {most} at most");
    assert!(most > flat + DEEPEST, "{flat} to {most}");
    let header = header();
    let sentence = header.split_once("for one node compiling takes ").and_then(|(_, rest)| rest.split('.').next());
    let told: usize = sentence.and_then(|number| number.parse().ok()).expect("the header tells what one node takes");
    assert!(flat <= told, "compiling takes {flat} bytes of stack for a job of one node, and the header says {told}");
}

/// Of jobs and codes that are taken and that are refused.
#[test]
fn no_call_on_bytes_takes_more_than_the_header_says() {
    let (jobs, bad) = (accepted(), refused());
    let of_jobs =
        |stack_of: &dyn Fn(&[u8]) -> usize| jobs.iter().chain(&bad).map(|job| stack_of(job)).collect::<Vec<_>>();
    within("FORECAST", &of_jobs(&of_forecast));
    within("COMPILE", &of_jobs(&|job| of_compile(job, LONGEST_CODE)));
    let mut codes: Vec<Vec<u8>> = jobs.iter().map(|job| kuspigo::compile(job).unwrap()).collect();
    codes.extend(codes.clone().iter().map(|code| code[..code.len() - 1].to_vec()));
    codes.extend([Vec::new(), b"WSC\x00\x01".to_vec()]);
    within("READ_BACK", &codes.iter().map(|code| of_read_back(code)).collect::<Vec<_>>());
}

/// Of texts with few and with many open, whole and cut, also before what is too much; and of long ones.
#[test]
fn no_formula_takes_more_than_the_header_says() {
    let mut taken = Vec::new();
    for open in [1, 2, 3, 20, MOST_OPEN - 1, MOST_OPEN, MOST_OPEN + 1] {
        for text in texts(open) {
            taken.extend([text.len(), text.len() / 2, text.len() - 1].map(|length| of_formula(&text[..length])));
        }
    }
    for text in [&b""[..], b"1", &ones(64), &ones(501), &ones(16_384), &ones(16_385)] {
        taken.push(of_formula(text));
    }
    within("FORMULA", &taken);
    assert!(texts(MOST_OPEN).iter().filter(|text| raw::formula(text, &mut [0; LONGEST_JOB]).refusal == 0).count() > 6);
}

/// Of jobs that run to their end by random picks, that end early, and that are refused; of picks that are too many.
#[test]
fn no_report_takes_more_than_the_header_says() {
    let mut taken = Vec::new();
    for (case, job) in accepted().iter().chain(&refused()).enumerate() {
        let mut rng = Rng::new(1, 2, case as u64);
        let length = rng.choose(&[0, 1, 40, 2_000, 32_769]);
        let picks: Vec<u8> = (0..length).map(|_| rng.below(17) as u8).collect();
        let input = [&(job.len() as u16).to_be_bytes()[..], job, &picks].concat();
        taken.push(of_report(&input));
    }
    taken.push(of_report(&[]));
    within("REPORT", &taken);
}

/// Of states along runs, and of states that do not fit.
#[test]
fn no_call_on_a_state_takes_more_than_the_header_says() {
    let (mut fresh, mut step, mut run) = (Vec::new(), Vec::new(), Vec::new());
    for (case, job) in accepted().iter().enumerate() {
        let mut rng = Rng::new(1, 3, case as u64);
        let code = kuspigo::compile(job).unwrap();
        let mut state = State::fresh(&code).unwrap();
        fresh.push(of_fresh(&code, &state));
        fresh.push(of_fresh(&code[..code.len() - 1], &state));
        for length in [1, 30, 300] {
            let picks: Vec<u8> = (0..length).map(|_| rng.below(17) as u8).collect();
            step.push(of_step(&code, &state, picks[0]));
            run.push(of_run(&code, &state, &picks));
            run.push(of_run(&code, &state, &[]));
            state.run(&code, &picks).unwrap();
        }
        // one in sixteen up to its end, step by step
        while let (0, Some(open)) = (case % 16, state.open_threads().next()) {
            step.push(of_step(&code, &state, open));
            state.step(&code, open).unwrap();
        }
        run.push(of_run(&code, &state, &[0; 32_769]));
        state.threads[rng.below(16)].height += 1;
        step.push(of_step(&code, &state, 0));
        run.push(of_run(&code, &state, &[0]));
    }
    within("FRESH", &fresh);
    within("STEP", &step);
    within("RUN", &run);
}
