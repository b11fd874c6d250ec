//! The records' layout as numbers, and that the library writes its fields there.

use core::mem::{align_of, offset_of, size_of};
use kuspigo::ffi::{ForecastReply, FreshReply, RunReply, StepReply, Written};
use kuspigo::{raw, Thread};
use plain::tree::{Process, Transaction};

#[test]
fn thread_record() {
    assert_eq!((size_of::<Thread>(), align_of::<Thread>()), (1_112, 8));
    assert_eq!(offset_of!(Thread, start), 0);
    assert_eq!(offset_of!(Thread, end), 8);
    assert_eq!(offset_of!(Thread, place), 16);
    assert_eq!(offset_of!(Thread, height), 24);
    assert_eq!(offset_of!(Thread, cells), 32);
    assert_eq!(offset_of!(Thread, begin), 288);
    assert_eq!(offset_of!(Thread, base), 296);
    assert_eq!(offset_of!(Thread, over), 304);
    assert_eq!(offset_of!(Thread, reads), 312);
    assert_eq!(offset_of!(Thread, readlog), 320);
    assert_eq!(offset_of!(Thread, readcounts), 576);
    assert_eq!(offset_of!(Thread, writes), 832);
    assert_eq!(offset_of!(Thread, writelog), 840);
    assert_eq!(offset_of!(Thread, rule), 1_096);
    assert_eq!(offset_of!(Thread, backs), 1_104);
}

#[test]
fn answers() {
    assert_eq!((size_of::<Written>(), align_of::<Written>()), (24, 8));
    assert_eq!(offset_of!(Written, refusal), 0);
    assert_eq!(offset_of!(Written, place), 8);
    assert_eq!(offset_of!(Written, length), 16);

    assert_eq!((size_of::<FreshReply>(), align_of::<FreshReply>()), (16, 8));
    assert_eq!(offset_of!(FreshReply, refusal), 0);
    assert_eq!(offset_of!(FreshReply, place), 8);

    assert_eq!((size_of::<StepReply>(), align_of::<StepReply>()), (48, 8));
    assert_eq!(offset_of!(StepReply, refusal), 0);
    assert_eq!(offset_of!(StepReply, place), 8);
    assert_eq!(offset_of!(StepReply, event), 16);
    assert_eq!(offset_of!(StepReply, register), 24);
    assert_eq!(offset_of!(StepReply, turn), 32);
    assert_eq!(offset_of!(StepReply, over), 40);

    assert_eq!((size_of::<RunReply>(), align_of::<RunReply>()), (56, 8));
    assert_eq!(offset_of!(RunReply, refusal), 0);
    assert_eq!(offset_of!(RunReply, place), 8);
    assert_eq!(offset_of!(RunReply, steps), 16);
    assert_eq!(offset_of!(RunReply, idle), 24);
    assert_eq!(offset_of!(RunReply, commits), 32);
    assert_eq!(offset_of!(RunReply, back), 40);
    assert_eq!(offset_of!(RunReply, over), 48);

    assert_eq!((size_of::<ForecastReply>(), align_of::<ForecastReply>()), (96, 8));
    assert_eq!(offset_of!(ForecastReply, refusal), 0);
    assert_eq!(offset_of!(ForecastReply, place), 8);
    assert_eq!(offset_of!(ForecastReply, length), 16);
    assert_eq!(offset_of!(ForecastReply, transactions), 24);
    assert_eq!(offset_of!(ForecastReply, threads), 32);
    assert_eq!(offset_of!(ForecastReply, instructions), 40);
    assert_eq!(offset_of!(ForecastReply, longest), 48);
    assert_eq!(offset_of!(ForecastReply, bound), 56);
    assert_eq!(offset_of!(ForecastReply, reads), 64);
    assert_eq!(offset_of!(ForecastReply, writes), 72);
    assert_eq!(offset_of!(ForecastReply, heights), 80);
}

/// ADDP (ADDP (ATOMIC (VALT 1)) (ATOMIC (ADDT (ADDT (VALT 9) (READ 2)) (WRITE 3 (READ 63))))) (FORK (VALP 7))
const CODE: [u8; 37] = [
    0x57, 0x53, 0x43, 0, 1, // 0: mark and version
    5, // 5: BEGIN
    1, 0, 0, 0, 1, // 6: PUSH 1
    6, // 11: COMMIT
    5, // 12: BEGIN
    1, 0, 0, 0, 9, // 13: PUSH 9
    3, 2, // 18: READ 2
    2, // 20: ADD
    3, 63, // 21: READ 63
    4, 3, // 23: WRITE 3
    2, // 25: ADD
    6, // 26: COMMIT
    2, // 27: ADD
    7, 0, 5, // 28: FORK
    1, 0, 0, 0, 7, // 31: PUSH 7
    2, // 36: ADD
];

#[test]
fn the_library_writes_each_field_at_its_place() {
    let mut registers = [-1; 64];
    let mut counts = [9; 64];
    let numbers = Thread { start: 1, end: 2, place: 3, height: 4, begin: 5, base: 6, over: 7, ..filled(9) };
    let garbage = Thread { reads: 8, writes: 10, rule: 11, backs: 12, ..numbers };
    let mut threads = [garbage; 16];

    let reply = raw::fresh(&CODE, &mut registers, &mut counts, &mut threads);
    assert_eq!(reply, FreshReply { refusal: 0, place: 0 });
    assert_eq!((registers, counts), ([0; 64], [0; 64]));
    let mut expected = [filled(0); 16];
    expected[0].start = 5;
    expected[0].end = 37;
    expected[0].place = 5;
    assert_eq!(threads, expected);

    // the first transaction, which writes no register; with a COMMIT passed a count of 1 fits
    let reply = raw::run(&CODE, &mut registers, &mut counts, &mut threads, &[0; 3]);
    assert_eq!(reply, RunReply { refusal: 0, place: 0, steps: 3, idle: 0, commits: 1, back: 0, over: 0 });
    assert_eq!((registers, counts), ([0; 64], [0; 64]));

    // BEGIN, PUSH, READ 2, ADD, which leaves the range, READ 63, WRITE 3
    registers[2] = i32::MAX;
    registers[63] = 630;
    counts[2] = 1;
    let reply = raw::run(&CODE, &mut registers, &mut counts, &mut threads, &[0, 0, 0, 0, 0, 0, 99]);
    assert_eq!(reply, RunReply { refusal: 0, place: 0, steps: 6, idle: 1, commits: 0, back: 0, over: 0 });
    expected[0].place = 25;
    expected[0].height = 3;
    expected[0].cells[0] = 1;
    expected[0].cells[1] = i32::MIN + 8;
    expected[0].cells[2] = 630;
    expected[0].begin = 12;
    expected[0].base = 1;
    expected[0].over = 1;
    expected[0].reads = 1 << 2 | 1 << 63;
    expected[0].readlog[2] = i32::MAX;
    expected[0].readlog[63] = 630;
    expected[0].readcounts[2] = 1;
    expected[0].writes = 1 << 3;
    expected[0].writelog[3] = 630;
    expected[0].rule = 8;
    assert_eq!(threads, expected);

    // ADD, then a COMMIT that finds register 63 stale, by its count
    let reply = raw::step(&CODE, &mut registers, &mut counts, &mut threads, 0);
    assert_eq!(reply, StepReply { refusal: 0, place: 0, event: 2, register: 0, turn: 0, over: 0 });
    registers[63] = -631;
    counts[63] = 1;
    let reply = raw::step(&CODE, &mut registers, &mut counts, &mut threads, 0);
    assert_eq!(reply, StepReply { refusal: 0, place: 0, event: 10, register: 63, turn: 0, over: 0 });
    expected[0] = filled(0);
    expected[0].start = 5;
    expected[0].end = 37;
    expected[0].place = 12;
    expected[0].height = 1;
    expected[0].cells[0] = 1;
    expected[0].rule = 10 + 63;
    expected[0].backs = 1;
    assert_eq!(threads, expected);

    // the transaction again, both of whose sums now leave the range; COMMIT; ADD, FORK
    let (mut registers_2, mut counts_2, mut threads_2) = (registers, counts, threads);
    let reply = raw::run(&CODE, &mut registers, &mut counts, &mut threads, &[0; 10]);
    assert_eq!(reply, RunReply { refusal: 0, place: 0, steps: 10, idle: 0, commits: 1, back: 0, over: 2 });
    expected[0].place = 36;
    expected[0].height = 2;
    expected[0].cells[0] = i32::MAX - 621;
    expected[0].rule = 3;
    expected[1].start = 31;
    expected[1].end = 36;
    expected[1].place = 31;
    assert_eq!(threads, expected);
    let mut written = [0; 64];
    [written[2], written[3], written[63]] = [1; 3];
    assert_eq!((registers[3], counts), (-631, written));

    // the same in three calls
    let reply = raw::run(&CODE, &mut registers_2, &mut counts_2, &mut threads_2, &[0; 7]);
    assert_eq!((reply.refusal, reply.over, threads_2[0].over), (0, 0, 2));
    assert_eq!((threads_2[0].readcounts[2], threads_2[0].readcounts[63], counts_2[3]), (1, 1, 0));
    let reply = raw::step(&CODE, &mut registers_2, &mut counts_2, &mut threads_2, 0);
    assert_eq!(reply, StepReply { refusal: 0, place: 0, event: 9, register: 0, turn: 1, over: 2 });
    let reply = raw::run(&CODE, &mut registers_2, &mut counts_2, &mut threads_2, &[0; 2]);
    assert_eq!((reply.refusal, reply.over), (0, 0));
    assert_eq!((registers_2, counts_2, threads_2), (registers, counts, threads));
}

/// A sum of so many processes, each sum the right part of the one before.
fn right_sum(parts: impl DoubleEndedIterator<Item = Process>) -> Process {
    parts.rev().reduce(|right, left| Process::Add(Box::new(left), Box::new(right))).unwrap()
}

#[test]
fn the_forecast_has_each_figure_at_its_place() {
    // 15 FORKs, the k-th one's child with the height k, and behind them a transaction that is three times there
    let fork = |k: usize| Process::Fork(Box::new(right_sum((0..k).map(|_| Process::Val(7)))));
    let atomic = |register| {
        let write = Transaction::Write(register, Box::new(Transaction::Val(5)));
        Process::Atomic(Box::new(Transaction::Add(Box::new(write), Box::new(Transaction::Read(63)))))
    };
    let tree = right_sum((1..=15).map(fork).chain([1, 2, 40].map(atomic)));
    // ADDP 17, FORK 15, in the children VALP 120 and ADDP 105; three of ATOMIC, ADDT, WRITE, VALT, READ
    let nodes = 17 + 15 + 120 + 105 + 3 * 5;
    let heights = [19, 1, 2, 3, 4, 5, 6, 7, 8, 9, 10, 11, 12, 13, 14, 15];
    let expected = ForecastReply {
        refusal: 0,
        place: 0,
        length: 5 + 17 + 15 * 3 + 120 * 5 + 105 + 3 * 12,
        transactions: 3,
        threads: 16,
        instructions: nodes + 3,
        longest: 6,
        bound: nodes + 3 + 2 * 15 * 6,
        reads: 1 << 63,
        writes: 1 << 1 | 1 << 2 | 1 << 40,
        heights,
    };
    let job = tree.job();
    assert_eq!(raw::forecast(&job), expected);

    let refused = |refusal, place| ForecastReply {
        refusal,
        place,
        length: 0,
        transactions: 0,
        threads: 0,
        instructions: 0,
        longest: 0,
        bound: 0,
        reads: 0,
        writes: 0,
        heights: [0; 16],
    };
    // one byte too few, behind all that was counted
    assert_eq!(raw::forecast(&job[..job.len() - 1]), refused(1, job.len() - 1));
    assert_eq!(raw::forecast(&[&job[..], &[0]].concat()), refused(9, job.len()));
    assert_eq!(raw::forecast(&[]), refused(1, 0));
}

#[test]
fn the_answers_tell_refusals() {
    let (mut registers, mut counts) = ([0; 64], [0; 64]);
    let mut threads = [filled(0); 16];
    let refused = StepReply { refusal: 12, place: 0, event: 0, register: 0, turn: 0, over: 0 };
    assert_eq!(raw::step(&CODE, &mut registers, &mut counts, &mut threads, 0), refused);
    assert_eq!(raw::fresh(&CODE, &mut registers, &mut counts, &mut threads).refusal, 0);
    let refused = RunReply { refusal: 13, place: 0, steps: 0, idle: 0, commits: 0, back: 0, over: 0 };
    assert_eq!(raw::run(&CODE, &mut registers, &mut counts, &mut threads, &[0; 32_769]), refused);

    let mut out = [0xAA; 40];
    let written = Written { refusal: 0, place: 0, length: 37 };
    let mut job = [0; 40];
    let length = raw::read_back(&CODE, &mut job).length;
    assert_eq!(raw::compile(&job[..length], &mut out), written);
    assert_eq!((&out[..37], &out[37..]), (&CODE[..], &[0xAA; 3][..]));
    let refused = Written { refusal: 2, place: 0, length: 0 };
    job[0] = 0;
    assert_eq!(raw::compile(&job[..length], &mut out), refused);

    let mut out = [0xAA; 14];
    assert_eq!(raw::formula(b" 7 ", &mut out), Written { refusal: 0, place: 0, length: 12 });
    assert_eq!(out, *b"WSJ\x00\x01\x00\x01\x01\x00\x00\x00\x07\xAA\xAA");
    assert_eq!(raw::formula(b" 8 ", &mut out[..11]), Written { refusal: 10, place: 0, length: 0 });
    assert_eq!(raw::formula(b" 8 8", &mut out), Written { refusal: 15, place: 3, length: 0 });
    assert_eq!(out, *b"WSJ\x00\x01\x00\x01\x01\x00\x00\x00\x07\xAA\xAA");
}

#[test]
fn empty_slices_are_taken() {
    let refused = Written { refusal: 1, place: 0, length: 0 };
    assert_eq!(raw::compile(&[], &mut []), refused);
    assert_eq!(raw::read_back(&[], &mut []), Written { refusal: 11, ..refused });
    assert_eq!(raw::report(&[], &mut []), Written { refusal: 10, ..refused });
    assert_eq!(raw::formula(&[], &mut []), Written { refusal: 15, ..refused });
    assert_eq!(raw::formula(b"1", &mut []), Written { refusal: 10, ..refused });
    assert_eq!(raw::fresh(&[], &mut [], &mut [], &mut []), FreshReply { refusal: 11, place: 0 });
    assert_eq!(raw::fresh(&CODE, &mut [], &mut [], &mut []), FreshReply { refusal: 12, place: 0 });
    assert_eq!(raw::step(&CODE, &mut [], &mut [], &mut [], 0).refusal, 12);
    assert_eq!(raw::run(&CODE, &mut [], &mut [], &mut [], &[]).refusal, 12);
}

/// A record with one value in all arrays and 0 elsewhere.
fn filled(n: i32) -> Thread {
    Thread { cells: [n; 64], readlog: [n; 64], readcounts: [n as u32; 64], writelog: [n; 64], ..Thread::ABSENT }
}
