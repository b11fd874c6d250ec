//! Traces, beside the plain implementation's states.

use crate::support::{
    accepted, damaged, example, folder, number_behind, put, random_tree, refused, said, traced, viewer, Said, KIND,
    LISTING,
};
use kuspigo::{Counts, Event, State};
use plain::samples::Rng;
use plain::tree::{Process, Transaction};
use plain::Op;
use std::path::Path;
use std::process::Stdio;
use std::time::Duration;

const TRACE: &str = "  \
  pick thread place  instruction       rule                        what changed
     1      0     5  FORK 12           fork                        top 0; starts thread 1 at 8
     2      0    20  FORK 12           fork                        top 0; starts thread 2 at 23
     3      0    35  ADD               sum                         top 0 (0 + 0); ends with 0
     4      1     8  BEGIN             begin                       notes place 8 and height 0
     5      1     9  READ r0           read from table             top 0; read log r0 = 0 (count 0)
     6      2    23  BEGIN             begin                       notes place 23 and height 0
     7      2    24  READ r0           read from table             top 0; read log r0 = 0 (count 0)
     8      2    26  PUSH 1            push                        top 1
     9      2    31  ADD               sum                         top 1 (0 + 1)
    10      2    32  WRITE r0          write                       write log r0 = 1
    11      2    34  COMMIT            commit                      r0 0 -> 1 (count 1); ends with 1
    12      1    11  PUSH 1            push                        top 1
    13      1    16  ADD               sum                         top 1 (0 + 1)
    14      1    17  WRITE r0          write                       write log r0 = 1
    15      1    19  COMMIT            sent back with register 0   r0 read as 0 (count 0) at pick 5, written as 1 (count 1) by the commit of thread 2 at pick 11; back to BEGIN at 8, height 0, logs empty
    16      1     8  BEGIN             begin                       notes place 8 and height 0
    17      1     9  READ r0           read from table             top 1; read log r0 = 1 (count 1)
    18      1    11  PUSH 1            push                        top 1
    19      1    16  ADD               sum                         top 2 (1 + 1)
    20      1    17  WRITE r0          write                       write log r0 = 2
    21      1    19  COMMIT            commit                      r0 1 -> 2 (count 2); ends with 2
";

#[test]
fn trace_tells_of_each_pick() {
    let here = folder("trace");
    let whole = said(&here, &["trace", "whole.job", "--picks", "whole.picks"]);
    let threads = "\
thread place  next instruction  last rule                   sent back  what it holds
     0    36  -                 sum                                 0  result 0
     1    20  -                 commit                              1  result 2
     2    35  -                 commit                              0  result 1

counts (how often commits have written a register): r0 2
";
    assert_eq!(whole, accepted(&format!("{TRACE}\n{threads}\n{LISTING}")));
    // up to the WRITE of thread 2
    put(&here, "ten.picks", &example("whole.picks")[..10]);
    let ten = said(&here, &["trace", "whole.job", "--picks", "ten.picks"]);
    let lines: String = TRACE.split_inclusive('\n').take(11).collect();
    let end = "\
thread place  next instruction  last rule                   sent back  what it holds
     0    36  -                 sum                                 0  result 0
     1    11  PUSH 1            read from table                     0  stack 0; since BEGIN at 8: read log r0 = 0 (count 0); write log empty
     2    34  COMMIT            write                               0  stack 1; since BEGIN at 23: read log r0 = 0 (count 0); write log r0 = 1

counts (how often commits have written a register): all 0

steps 10 idle 0 commits 0 back 0 over 0
thread 0 done 0
thread 1 open
thread 2 open
";
    assert_eq!(ten, accepted(&format!("{lines}\n{end}")));
    put(&here, "kind.job", &damaged(12, 1));
    assert_eq!(said(&here, &["trace", "kind.job", "--round-robin"]), refused("", KIND));

    // sums that leave the range, a register written twice and read from each log, idle picks
    let number = |n| Box::new(Transaction::Val(n));
    let write = |n| Box::new(Transaction::Write(5, number(n)));
    let read = || Box::new(Transaction::Read(5));
    let twice = Transaction::Add(
        Box::new(Transaction::Add(read(), read())),
        Box::new(Transaction::Add(write(i32::MAX), Box::new(Transaction::Add(read(), write(1))))),
    );
    let tree = Process::Add(Box::new(Process::Atomic(Box::new(twice))), Box::new(Process::Val(i32::MIN)));
    put(&here, "over.job", &tree.job());
    put(&here, "over.picks", &[[0; 15].as_slice(), &[0, 1, 255]].concat());
    let expected = "  \
  pick thread place  instruction       rule                        what changed
     1      0     5  BEGIN             begin                       notes place 5 and height 0
     2      0     6  READ r5           read from table             top 0; read log r5 = 0 (count 0)
     3      0     8  READ r5           read from read log          top 0
     4      0    10  ADD               sum                         top 0 (0 + 0)
     5      0    11  PUSH 2147483647   push                        top 2147483647
     6      0    16  WRITE r5          write                       write log r5 = 2147483647
     7      0    18  READ r5           read from write log         top 2147483647
     8      0    20  PUSH 1            push                        top 1
     9      0    25  WRITE r5          write                       write log r5 = 1, was 2147483647
    10      0    27  ADD               sum                         top -2147483648 (2147483647 + 1, outside the 32-bit range: noted, 1 in this attempt)
    11      0    28  ADD               sum                         top -1 (2147483647 + -2147483648)
    12      0    29  ADD               sum                         top -1 (0 + -1)
    13      0    30  COMMIT            commit                      r5 0 -> 1 (count 1); over 1
    14      0    31  PUSH -2147483648  push                        top -2147483648
    15      0    36  ADD               sum                         top 2147483647 (-1 + -2147483648, outside the 32-bit range: counted in over); ends with 2147483647
    16      0     -  -                 idle                        thread 0 has ended
    17      1     -  -                 idle                        there is no thread 1
    18    255     -  -                 idle                        there is no thread 255

thread place  next instruction  last rule                   sent back  what it holds
     0    37  -                 sum                                 0  result 2147483647

counts (how often commits have written a register): r5 1

steps 15 idle 3 commits 1 back 0 over 2
thread 0 done 2147483647
register 5 1
";
    assert_eq!(said(&here, &["trace", "over.job", "--picks", "over.picks"]), accepted(expected));
    // an empty list
    put(&here, "none.picks", &[]);
    let none = said(&here, &["trace", "over.job", "--picks", "none.picks"]);
    let end = "
thread place  next instruction  last rule                   sent back  what it holds
     0     5  BEGIN             none                                0  stack empty

counts (how often commits have written a register): all 0

steps 0 idle 0 commits 0 back 0 over 0
thread 0 open
";
    assert!(none.out.ends_with(end), "{}", none.out);
}

/// What the lines of some picks say of what changed.
fn changes<const N: usize>(here: &Path, tree: &Process, picks: &[u8], lines: [usize; N]) -> [String; N] {
    put(here, "some.job", &tree.job());
    put(here, "some.picks", picks);
    let trace = said(here, &["trace", "some.job", "--picks", "some.picks"]);
    lines.map(|pick| trace.out.lines().nth(pick).expect("there is such a pick")[67..].to_string())
}

/// The last one, also if it wrote the value that was there.
#[test]
fn a_send_back_names_the_commit_that_wrote_the_register() {
    let here = folder("blame");
    let atomic = |t| Process::Atomic(Box::new(t));
    let write = |register, t| Transaction::Write(register, Box::new(t));
    let set = |n| atomic(write(0, Transaction::Val(n)));
    let fork = |p| Box::new(Process::Fork(Box::new(p)));
    let read = || atomic(Transaction::Read(0));
    let tree = Process::Add(Box::new(Process::Add(fork(set(1)), fork(set(1)))), Box::new(read()));
    let said = changes(&here, &tree, &[0, 0, 0, 0, 0, 1, 1, 1, 1, 2, 2, 2, 2, 0], [9, 13, 14]);
    let expected = [
        "r0 0 -> 1 (count 1); ends with 1",
        "r0 1 -> 1 (count 2); ends with 1",
        "r0 read as 0 (count 0) at pick 5, written as 1 (count 2) by the commit of thread 2 at pick 13; \
         back to BEGIN at 30, height 1, logs empty",
    ];
    assert_eq!(said, expected);
    // a commit before the READ is not named, one behind it is
    let said = changes(&here, &tree, &[0, 0, 0, 1, 1, 1, 1, 0, 0, 2, 2, 2, 2, 0], [7, 9, 14]);
    let expected = [
        "r0 0 -> 1 (count 1); ends with 1",
        "top 1; read log r0 = 1 (count 1)",
        "r0 read as 1 (count 1) at pick 9, written as 1 (count 2) by the commit of thread 2 at pick 13; \
         back to BEGIN at 30, height 1, logs empty",
    ];
    assert_eq!(said, expected);

    // a value that went away and came back
    let copy = || fork(atomic(write(1, Transaction::Read(0))));
    let away = Process::Add(Box::new(set(5)), Box::new(set(0)));
    let tree = Process::Add(copy(), fork(away));
    let picks = [0, 0, 1, 1, 2, 2, 2, 2, 2, 2, 2, 2, 1, 1];
    let expected = [
        "r0 0 -> 5 (count 1)",
        "r0 5 -> 0 (count 2)",
        "r0 read as 0 (count 0) at pick 4, written as 0 (count 2) by the commit of thread 2 at pick 12; \
         back to BEGIN at 8, height 0, logs empty",
    ];
    assert_eq!(changes(&here, &tree, &picks, [8, 12, 14]), expected);
    // the value that was there
    let tree = Process::Add(copy(), fork(set(0)));
    let expected = [
        "r0 0 -> 0 (count 1); ends with 0",
        "r0 read as 0 (count 0) at pick 4, written as 0 (count 1) by the commit of thread 2 at pick 8; \
         back to BEGIN at 8, height 0, logs empty",
    ];
    assert_eq!(changes(&here, &tree, &[0, 0, 1, 1, 2, 2, 2, 2, 1, 1], [8, 10]), expected);
}

/// Whoever reads the lines may stop.
#[test]
fn a_reader_may_stop_early() {
    let here = folder("pipe");
    put(&here, "many.picks", &[0; 32_768]);
    let mut child = viewer()
        .current_dir(&here)
        .args(["trace", "whole.job", "--picks", "many.picks"])
        .stdout(Stdio::piped())
        .stderr(Stdio::piped())
        .spawn()
        .expect("the program starts");
    drop(child.stdout.take());
    assert_eq!(Said::of(child.wait_with_output().expect("the program ends")), accepted(""));
}

/// A program that takes more than a second tells how far it is; here its lines are not read for so long.
#[test]
fn progress_is_told_after_a_second() {
    let here = folder("progress");
    put(&here, "many.picks", &[0; 32_768]);
    let child = viewer()
        .current_dir(&here)
        .args(["trace", "whole.job", "--picks", "many.picks"])
        .stdout(Stdio::piped())
        .stderr(Stdio::piped())
        .spawn()
        .expect("the program starts");
    std::thread::sleep(Duration::from_secs(3));
    let said = Said::of(child.wait_with_output().expect("the program ends"));
    assert_eq!((said.out.lines().count(), said.status), (1 + 32_768 + 1 + 4 + 2 + 1 + 4, 0));
    let first = said.err.lines().next().expect("there is a line of progress");
    let picks = number_behind(first, "kuspigo: ");
    assert_eq!(first, format!("kuspigo: {picks} of 32768 picks"));
    assert!((64..32_768).contains(&picks));
}

fn instruction(op: Op) -> String {
    match op {
        Op::Push(n) => format!("PUSH {n}"),
        Op::Add => "ADD".to_string(),
        Op::Read(register) => format!("READ r{register}"),
        Op::Write(register) => format!("WRITE r{register}"),
        Op::Begin => "BEGIN".to_string(),
        Op::Commit => "COMMIT".to_string(),
        Op::Fork(length) => format!("FORK {length}"),
    }
}

/// What the last table says of the threads, beside a state.
fn standing(code: &[u8], state: &State, table: &str) {
    let threads = state.threads.iter().enumerate().filter(|(_, thread)| thread.exists());
    let mut rows = table.lines().skip(1);
    for ((number, thread), row) in threads.zip(&mut rows) {
        assert_eq!(row[..6].trim().parse(), Ok(number), "{row}");
        assert_eq!(row[7..12].trim().parse(), Ok(thread.place), "{row}");
        assert_eq!(row[32..58].trim(), thread.last_rule().to_string(), "{row}");
        assert_eq!(row[60..69].trim().parse(), Ok(thread.backs), "{row}");
        let (next, holds) = (row[14..30].trim(), &row[71..]);
        if let Some(result) = thread.result() {
            assert_eq!((next, holds), ("-", format!("result {result}").as_str()));
            continue;
        }
        assert_eq!(next, instruction(plain::decode(code, thread.place).unwrap().0), "{row}");
        let listed = |values: Vec<String>| if values.is_empty() { "empty".to_string() } else { values.join(", ") };
        let mut told = format!("stack {}", listed(thread.cells[..thread.height].iter().map(i32::to_string).collect()));
        if thread.begin != 0 {
            let log = |set: u64, values: [i32; 64], count: &dyn Fn(usize) -> String| {
                let marked = (0..64).filter(|register| set >> register & 1 == 1);
                listed(
                    marked.map(|register| format!("r{register} = {}{}", values[register], count(register))).collect(),
                )
            };
            let count = |register: usize| format!(" (count {})", thread.readcounts[register]);
            let logs =
                [log(thread.reads, thread.readlog, &count), log(thread.writes, thread.writelog, &|_| String::new())];
            told += &format!("; since BEGIN at {}: read log {}; write log {}", thread.begin, logs[0], logs[1]);
        }
        if thread.over > 0 {
            told += &format!("; over {} noted", thread.over);
        }
        assert_eq!(holds, told, "{row}");
    }
    assert_eq!(rows.next(), None);
}

/// Each line beside the plain implementation's states.
#[test]
fn traces_are_true() {
    let here = folder("true");
    let (mut counts, mut open, mut same) = (Counts::default(), 0, 0);
    for case in 0..200 {
        let mut rng = Rng::new(20, 3, case);
        let tree = random_tree(&mut rng);
        let code = tree.code();
        put(&here, "random.job", &tree.job());
        let trace = if rng.one_in(2) {
            let picks: Vec<u8> = (0..rng.below(400)).map(|_| rng.below(1 + tree.forks()) as u8).collect();
            put(&here, "random.picks", &picks);
            said(&here, &["trace", "random.job", "--picks", "random.picks"])
        } else {
            said(&here, &["trace", "random.job", "--random", &rng.draw().to_string()])
        };
        let mut state = State::fresh(&code).unwrap();
        // the commits, with the registers that they wrote
        let mut commits: Vec<(usize, u8, u64)> = Vec::new();
        for (at, (line, thread)) in trace.out.lines().skip(1).zip(traced(&trace.out)).enumerate() {
            assert_eq!(line[..6].trim().parse(), Ok(at + 1));
            let before = state.clone();
            let step = plain::step(&code, &mut state.registers, &mut state.counts, &mut state.threads, thread).unwrap();
            let index = usize::from(thread);
            if step.event == Event::Idle {
                assert_eq!(line[14..].split_whitespace().take(3).collect::<Vec<_>>(), ["-", "-", "idle"], "{line}");
                assert_eq!(line.ends_with("has ended"), before.threads[index].exists(), "{line}");
                counts.idle += 1;
                continue;
            }
            let (was, is) = (&before.threads[index], &state.threads[index]);
            let (op, _) = plain::decode(&code, was.place).expect("there is an instruction");
            assert_eq!(line[14..19].trim().parse(), Ok(was.place), "{line}");
            assert_eq!(line[39..65].trim(), step.rule().to_string(), "{line}");
            assert_eq!(line[21..37].trim(), instruction(op), "{line}");
            let change = &line[67..];
            if let Op::Push(_) | Op::Add | Op::Read(_) | Op::Fork(_) = op {
                assert_eq!(number_behind(change, "top "), i64::from(is.cells[is.height - 1]), "{line}");
            }
            let entered = is.reads & !was.reads;
            assert_eq!(change.contains("read log"), entered != 0, "{line}");
            if entered != 0 {
                let register = entered.trailing_zeros() as usize;
                let (value, count) = (before.registers[register], before.counts[register]);
                assert!(change.ends_with(&format!("read log r{register} = {value} (count {count})")), "{line}");
            }
            match op {
                Op::Write(register) => {
                    let value = number_behind(change, &format!("write log r{register} = "));
                    assert_eq!(value, i64::from(is.writelog[usize::from(register)]), "{line}");
                }
                Op::Begin => {
                    let notes = [number_behind(change, "notes place "), number_behind(change, "and height ")];
                    assert_eq!(notes, [is.begin as i64, is.base as i64], "{line}");
                }
                Op::Fork(_) => {
                    let child = number_behind(change, "starts thread ") as usize;
                    assert!(!before.threads[child].exists() && state.threads[child].exists(), "{line}");
                    assert_eq!(number_behind(change, " at "), state.threads[child].start as i64, "{line}");
                }
                Op::Commit if step.stale.is_none() => {
                    assert_eq!(change.contains("no register"), was.writes == 0, "{line}");
                    assert_eq!(change.matches(" -> ").count(), was.writes.count_ones() as usize, "{line}");
                    for register in (0..64).filter(|&register| was.writes >> register & 1 == 1) {
                        let [old, new] = [&before, &state].map(|state| state.registers[register]);
                        let count = before.counts[register] + 1;
                        assert!(change.contains(&format!("r{register} {old} -> {new} (count {count})")), "{line}");
                    }
                    commits.push((at + 1, thread, was.writes));
                }
                Op::Commit => {
                    let register = usize::from(step.stale.unwrap());
                    let read = format!("{} (count {})", was.readlog[register], was.readcounts[register]);
                    assert!(change.starts_with(&format!("r{register} read as {read} at pick ")), "{line}");
                    // the last commit that wrote it, which came behind the READ
                    let pick = number_behind(change, " at pick ") as usize;
                    let writes = |commit: &&(usize, u8, u64)| commit.2 >> register & 1 == 1;
                    let &(when, whose, _) = commits.iter().rfind(writes).expect("a commit wrote it");
                    assert!(pick < when, "{line}");
                    let now = format!("{} (count {})", before.registers[register], before.counts[register]);
                    let by = format!(" {pick}, written as {now} by the commit of thread {whose} at pick {when}; ");
                    assert!(change.contains(&by), "{line}");
                    assert_eq!(number_behind(change, "back to BEGIN at "), is.place as i64, "{line}");
                    // the line of that READ
                    let earlier = trace.out.lines().nth(pick).expect("it is before");
                    assert_eq!(earlier[7..13].trim().parse(), Ok(thread), "{line}");
                    assert!(earlier.ends_with(&format!("read log r{register} = {read}")), "{line}");
                    counts.back += 1;
                    same += usize::from(before.registers[register] == was.readlog[register]);
                }
                _ => {}
            }
            let ended = change.split_once("ends with ").map(|(_, result)| result.parse().expect("a result"));
            assert_eq!(ended, is.result(), "{line}");
            counts.over += step.over;
            counts.commits += usize::from(change.contains(" -> "));
            counts.steps += 1;
        }
        let mut parts = trace.out.split("\n\n").skip(1);
        standing(&code, &state, parts.next().expect("there is a table"));
        let written = (0..64).filter(|&register| state.counts[register] > 0);
        let words: Vec<String> = written.map(|register| format!("r{register} {}", state.counts[register])).collect();
        let words = if words.is_empty() { "all 0".to_string() } else { words.join(", ") };
        let line = format!("counts (how often commits have written a register): {words}");
        assert_eq!(parts.next(), Some(line.as_str()));
        open += state.threads.iter().filter(|thread| thread.begin != 0).count();
    }
    println!("{counts:?}, {open} open transactions, {same} sent back with the value that was read");
    assert!(open > 50 && counts.idle > 500 && same > 0);
    assert!(counts.steps > 5_000 && counts.commits > 300 && counts.back > 50 && counts.over > 20, "{counts:?}");
}
