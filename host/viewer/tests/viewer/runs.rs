//! Runs, beside the run program.

use crate::support::{
    accepted, damaged, example, fed, folder, put, random_picks, random_tree, refused, said, traced, viewer, Said, KIND,
    LISTING,
};
use kuspigo::State;
use plain::samples::Rng;
use std::path::{Path, PathBuf};
use std::process::Command;

#[test]
fn run_prints_the_listing() {
    let here = folder("run");
    assert_eq!(said(&here, &["run", "whole.job", "--picks", "whole.picks"]), accepted(LISTING));
    assert_eq!(said(&here, &["run", "--picks=whole.picks", "whole.job"]), accepted(LISTING));
    let piped = fed(viewer().current_dir(&here).args(["run", "whole.job", "--picks", "-"]), &example("whole.picks"));
    assert_eq!(piped, accepted(LISTING));

    put(&here, "kind.job", &damaged(12, 1));
    for picks in [&["--picks", "whole.picks"][..], &["--round-robin"], &["--random", "1"]] {
        assert_eq!(said(&here, &[&["run", "kind.job"], picks].concat()), refused("refused 5 at 12\n", KIND));
    }
    put(&here, "long.picks", &[0; 32_769]);
    let long = "kuspigo: long.picks: refused 13 (long list) at 0: There are more than 32,768 picks.\n";
    assert_eq!(said(&here, &["run", "whole.job", "--picks", "long.picks"]), refused("refused 13 at 0\n", long));
    assert_eq!(said(&here, &["trace", "whole.job", "--picks", "long.picks"]), refused("", long));
    assert_eq!(said(&here, &["picture", "whole.job", "--picks", "long.picks", "-o", "x.svg"]), refused("", long));
    // the job comes first
    assert_eq!(said(&here, &["run", "kind.job", "--picks", "long.picks"]), refused("refused 5 at 12\n", KIND));
    // picks that were written as text
    put(&here, "random.picks", b"0 0 0 1\n");
    let text = said(&here, &["run", "whole.job", "--picks", "random.picks"]);
    let listing = "steps 0 idle 8 commits 0 back 0 over 0\nthread 0 open\n".to_string();
    assert_eq!(text, Said { out: listing, err: EVERY_PICK_IDLE.to_string(), status: 0 });
    // a job for which the run program's two bytes of length are too few
    put(&here, "vast.job", &[&example("whole.job")[..], &[0; 70_000]].concat());
    let vast = said(&here, &["run", "vast.job", "--round-robin"]);
    assert_eq!((vast.out.as_str(), vast.status), ("refused 9 at 32\n", 1));
}

/// A job that mostly has to be turned down.
fn random_damage(rng: &mut Rng, job: &mut Vec<u8>) {
    match rng.below(5) {
        0 => job.truncate(rng.below(job.len() + 1)),
        1 => job.push(rng.byte()),
        2 => job.extend((0..rng.below(300)).map(|i| i as u8)),
        _ => {
            let at = rng.below(job.len());
            job[at] = if rng.one_in(2) { rng.byte() } else { rng.below(10) as u8 };
        }
    }
}

fn run_program() -> PathBuf {
    let program = Path::new(env!("CARGO_MANIFEST_DIR")).join("../../crates/slide_run/out/slide_run");
    assert!(program.is_file(), "the run program is missing: run `rt run < stdin` in crates/slide_run first");
    program
}

/// What the run program writes for a job and picks.
fn run_program_says(job: &[u8], picks: &[u8]) -> Said {
    let length = u16::try_from(job.len()).expect("the job is short").to_be_bytes();
    fed(&mut Command::new(run_program()), &[&length[..], job, picks].concat())
}

const EVERY_PICK_IDLE: &str = "kuspigo: random.picks: every pick is idle; its bytes are the threads' numbers\n";

#[test]
fn run_is_the_run_program_on_random_inputs() {
    let here = folder("random");
    let (mut taken, mut turned_down) = (0, [0; 15]);
    for case in 0..1_000 {
        let mut rng = Rng::new(20, 0, case);
        let mut job = random_tree(&mut rng).job();
        if rng.one_in(3) {
            random_damage(&mut rng, &mut job);
        }
        let picks = random_picks(&mut rng);
        put(&here, "random.job", &job);
        put(&here, "random.picks", &picks);
        let expected = run_program_says(&job, &picks);
        let run = said(&here, &["run", "random.job", "--picks", "random.picks"]);
        assert_eq!(run.out, expected.out, "case {case}");
        match expected.out.strip_prefix("refused ") {
            None => {
                let idle = expected.out.starts_with("steps 0 idle ") && !picks.is_empty();
                let err = if idle { EVERY_PICK_IDLE } else { "" };
                assert_eq!((run.err.as_str(), run.status), (err, 0), "case {case}");
                taken += 1;
            }
            Some(rest) => {
                let (number, place) = rest.trim_end().split_once(" at ").expect("number and place");
                let number: usize = number.parse().expect("a number");
                let file = if number == 13 { "random.picks" } else { "random.job" };
                let reason = kuspigo::Reason::from_number(number).expect("a reason");
                let refusal = kuspigo::Refusal { reason, place: place.parse().expect("a place") };
                assert_eq!(run.err.lines().next(), Some(format!("kuspigo: {file}: {refusal}").as_str()), "case {case}");
                assert_eq!(run.status, 1, "case {case}");
                turned_down[number] += 1;
            }
        }
    }
    println!("{taken} inputs taken; turned down, by number: {turned_down:?}");
    assert!(taken > 500 && turned_down[13] > 2 && turned_down[1..=9].iter().filter(|&&n| n > 0).count() > 5);
}

#[test]
fn lists_that_are_made_end_every_thread() {
    let here = folder("lists");
    for case in 0..100 {
        let mut rng = Rng::new(20, 2, case);
        let job = random_tree(&mut rng).job();
        put(&here, "random.job", &job);
        let told = kuspigo::forecast(&job).unwrap();
        let seed = rng.draw().to_string();
        for picks in [&["--round-robin"][..], &["--random", &seed]] {
            let run = said(&here, &[&["run", "random.job"], picks].concat());
            let trace = said(&here, &[&["trace", "random.job"], picks].concat());
            let list = traced(&trace.out);
            assert!(list.len() <= told.bound, "case {case}");
            assert_eq!(run, accepted(&run_program_says(&job, &list).out), "case {case}");
            assert!(trace.out.ends_with(&format!("\n\n{}", run.out)), "case {case}");
            assert_eq!(run.out.matches(" done ").count(), told.threads, "case {case}");
            assert!(run.out.starts_with(&format!("steps {} idle 0 ", list.len())), "case {case}");
            assert_eq!(said(&here, &[&["run", "random.job"], picks].concat()), run, "the same list again");
        }
        // each thread in its turn: the one picked is the next that has not ended
        let list = traced(&said(&here, &["trace", "random.job", "--round-robin"]).out);
        let code = kuspigo::compile(&job).unwrap();
        let mut state = State::fresh(&code).unwrap();
        let mut last = 15;
        for pick in list {
            let open = |thread: usize| state.threads[thread].exists() && state.threads[thread].result().is_none();
            let next = (1..=16).map(|more| (last + more) % 16).find(|&thread| open(thread));
            assert_eq!(next, Some(usize::from(pick)), "case {case}");
            last = usize::from(pick);
            state.step(&code, pick).unwrap();
        }
    }
}
