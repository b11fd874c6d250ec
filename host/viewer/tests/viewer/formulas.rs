//! Formulas in place of jobs, and jobs printed as formulas.

use crate::support::{
    accepted, damaged, example, fed, folder, got, put, random_tree, refused, said, viewer, Said, KIND, LISTING,
};
use plain::samples::{chain, deep, far, Lean, Rng, Shape};
use plain::tree::{Process, Transaction};

/// The whole case in one line.
pub const WHOLE: &str = "fork atomic(r0 := r0 + 1) + fork atomic(r0 := r0 + 1)";

#[test]
fn formula_makes_the_job() {
    let here = folder("formula");
    let job = example("whole.job");
    assert_eq!(kuspigo::formula(&example("whole.formula")), Ok(job.clone()));
    for arguments in [
        &["formula", "whole.formula", "-o", "made.job"][..],
        &["formula", "--output=made.job", "whole.formula"],
        &["formula", "--text", WHOLE, "-o", "made.job"],
        &["formula", &format!("--text={WHOLE}"), "-omade.job"],
        &["formula", "-e", WHOLE, "-o", "made.job"],
        &["formula", &format!("-e{WHOLE}"), "-o", "made.job"],
    ] {
        put(&here, "made.job", b"");
        assert_eq!(said(&here, arguments), accepted(""), "{arguments:?}");
        assert_eq!(got(&here, "made.job"), job, "{arguments:?}");
    }
    // a text that looks like an option
    assert_eq!(said(&here, &["formula", "--text", "-7", "-o", "seven.job"]), accepted(""));
    assert_eq!(got(&here, "seven.job"), Process::Val(-7).job());

    // standard input and output
    let piped = fed(viewer().args(["formula", "-", "-o", "-"]), &example("whole.formula"));
    assert_eq!(piped, accepted(&String::from_utf8_lossy(&job)));

    // what is refused leaves a file as it was, and makes none
    for text in ["1 +", &"1 + ".repeat(65)[..259], &"fork ".repeat(16), &format!("{}1", "fork ".repeat(16))] {
        let failed = said(&here, &["formula", "--text", text, "-o", "made.job"]);
        assert_eq!((failed.out.as_str(), failed.status, got(&here, "made.job")), ("", 1, job.clone()), "{text}");
        assert_eq!(said(&here, &["formula", "--text", text, "-o", "new.job"]), failed, "{text}");
        assert!(!here.join("new.job").exists(), "{text}");
    }

    // files that cannot be read or written
    for (file, out, name) in [
        ("missing.formula", "x.job", "missing.formula"),
        (".", "x.job", "."),
        ("whole.formula", "missing/x.job", "missing/x.job"),
    ] {
        let failed = said(&here, &["formula", file, "-o", out]);
        assert_eq!((failed.out.as_str(), failed.status), ("", 1));
        assert!(failed.err.starts_with(&format!("kuspigo: {name}: ")), "{}", failed.err);
        assert_eq!(failed.err.lines().count(), 1);
    }
}

/// The words that take a job, with what else they need.
const WORDS: [&[&str]; 7] = [
    &["check"],
    &["show"],
    &["compile", "-o", "-"],
    &["run", "--picks", "whole.picks"],
    &["trace", "--round-robin"],
    &["picture", "--random", "7", "-o", "-"],
    &["exchange", "--picks", "whole.picks", "--with", "whole.exchanged.picks"],
];

#[test]
fn every_word_takes_a_formula() {
    let here = folder("words");
    let named = |said: Said, name: &str| Said { out: said.out.replace(name, "whole.job"), ..said };
    for word in WORDS {
        let of_job = said(&here, &[word, &["whole.job"]].concat());
        assert_eq!((of_job.err.as_str(), of_job.status), ("", 0), "{word:?}");
        if word[0] == "show" {
            // with --formula it prints one: see below
            assert_eq!(said(&here, &["show", "whole.formula"]), of_job);
        } else {
            let of_formula = said(&here, &[word, &["--formula", "whole.formula"]].concat());
            assert_eq!(named(of_formula, "whole.formula"), of_job, "{word:?}");
            let of_formula = said(&here, &[word, &["--formula=whole.formula"]].concat());
            assert_eq!(named(of_formula, "whole.formula"), of_job, "{word:?}");
            let fed = fed(viewer().current_dir(&here).args(word).args(["--formula", "-"]), &example("whole.formula"));
            assert_eq!(named(fed, "standard input"), of_job, "{word:?}");
            // a job is taken as one
            assert_eq!(said(&here, &[word, &["whole.job", "--formula"]].concat()), of_job, "{word:?}");
        }
        let of_text = said(&here, &[word, &["--text", WHOLE]].concat());
        assert_eq!(named(of_text, "the text"), of_job, "{word:?}");
    }
    assert_eq!(said(&here, &["run", "-e", WHOLE, "--picks", "whole.picks"]), accepted(LISTING));
    let picks = fed(
        viewer().current_dir(&here).args(["run", "--formula", "whole.formula", "--picks", "-"]),
        &example("whole.picks"),
    );
    assert_eq!(picks, accepted(LISTING));

    // what is refused is refused by each
    put(&here, "kind.job", &damaged(12, 1));
    put(&here, "bad.formula", b"1 +");
    for word in WORDS {
        let out = |line: &'static str| if word[0] == "run" { line } else { "" };
        assert_eq!(said(&here, &[word, &["--formula", "kind.job"]].concat()), refused(out("refused 5 at 12\n"), KIND));
        let bad = said(&here, &[word, &["--formula", "bad.formula"]].concat());
        let line = "kuspigo: bad.formula: refused 15 (not a script) at 3: No script goes on so from here.";
        assert_eq!((bad.out.as_str(), bad.err.lines().next(), bad.status), (out("refused 15 at 3\n"), Some(line), 1));
        let forks = said(&here, &[word, &["--text", &format!("{}1", "fork ".repeat(16))]].concat());
        let line = "kuspigo: the text: refused 8 (forks) at 22: This is the sixteenth FORK.";
        assert_eq!(
            (forks.out.as_str(), forks.err.lines().next(), forks.status),
            (out("refused 8 at 22\n"), Some(line), 1)
        );
        let missing = said(&here, &[word, &["--formula", "missing.formula"]].concat());
        assert!(missing.err.starts_with("kuspigo: missing.formula: "), "{}", missing.err);
        assert_eq!((missing.out.as_str(), missing.status), ("", 1));
    }
}

/// `show` sees from the first bytes what it is given.
#[test]
fn show_tells_formulas_from_jobs() {
    let here = folder("kinds");
    let code = kuspigo::compile(&example("whole.job")).unwrap();
    put(&here, "whole.code", &code);
    let tree = said(&here, &["show", "whole.job"]);
    for file in ["whole.job", "whole.code", "whole.formula"] {
        assert_eq!(said(&here, &["show", file]), tree, "{file}");
        assert_eq!(said(&here, &["show", "--formula", file]), accepted(&format!("{WHOLE}\n")), "{file}");
    }
    assert_eq!(said(&here, &["show", "--formula", "-e", "((1))+(2+3)"]), accepted("1 + (2 + 3)\n"));
    let piped = fed(viewer().args(["show", "-", "--formula"]), &example("whole.job"));
    assert_eq!(piped, accepted(&format!("{WHOLE}\n")));

    // a refused job or code has no formula
    put(&here, "kind.job", &damaged(12, 1));
    assert_eq!(said(&here, &["show", "--formula", "kind.job"]), refused("", KIND));
    put(&here, "cut.code", &code[..35]);
    let foreign = "kuspigo: cut.code: refused 11 (foreign code) at 0: No accepted job compiles to this code.\n";
    assert_eq!(said(&here, &["show", "--formula", "cut.code"]), refused("", foreign));

    // the first byte is one of no formula, or one of a formula
    for (bytes, first) in [
        (&b"XSJ\x00\x01\x00\x01"[..], "refused 2 (mark) at 0"),
        (b"", "refused 1 (cut) at 0"),
        (b"WS", "refused 1 (cut) at 2"),
        (b"WSJ", "refused 1 (cut) at 3"),
        (b"1 + x", "refused 15 (not a script) at 4"),
        (b"\n x", "refused 15 (not a script) at 2"),
    ] {
        put(&here, "some", bytes);
        let some = said(&here, &["show", "some"]);
        assert!(some.err.starts_with(&format!("kuspigo: some: {first}: ")), "{}", some.err);
        assert_eq!((some.out.as_str(), some.status), ("", 1));
    }
    // a formula where a job is due
    for text in [&example("whole.formula")[..], b"1+2", b"7", b"Fork 1\r\n", b"\t1", b"\xEF\xBB\xBF1"] {
        put(&here, "some", text);
        let some = said(&here, &["check", "some"]);
        assert!(
            some.err.contains("\nA job begins with WSJ, in hex 57 53 4A. If it is a formula, say so with --formula.\n"),
            "{}",
            some.err
        );
    }
}

/// The definition that is proved to be read back (grammar/specs/Printed), over trees.
pub fn whole(process: &Process) -> String {
    match process {
        Process::Val(n) => n.to_string(),
        Process::Add(a, b) => format!("{} + {}", whole(a), term(b)),
        Process::Atomic(t) => format!("atomic({})", inside(t)),
        Process::Fork(p) => format!("fork {}", term(p)),
    }
}

fn term(process: &Process) -> String {
    match process {
        Process::Add(..) => format!("({})", whole(process)),
        _ => whole(process),
    }
}

pub fn inside(transaction: &Transaction) -> String {
    match transaction {
        Transaction::Val(n) => n.to_string(),
        Transaction::Add(a, b) => {
            let first = match **a {
                Transaction::Write(..) => format!("({})", inside(a)),
                _ => inside(a),
            };
            let second = match **b {
                Transaction::Write(..) | Transaction::Add(..) => format!("({})", inside(b)),
                _ => inside(b),
            };
            format!("{first} + {second}")
        }
        Transaction::Read(register) => format!("r{register}"),
        Transaction::Write(register, t) => format!("r{register} := {}", inside(t)),
    }
}

#[test]
fn formulas_as_they_are_printed() {
    let here = folder("printed");
    // printed as they are
    for text in [
        "0",
        "-2147483648 + 2147483647",
        "1 + 2 + 3",
        "1 + (2 + 3)",
        "1 + 2 + (3 + 4 + (5 + 6))",
        "fork 1 + fork (2 + 3)",
        "fork fork atomic(r0)",
        "atomic(r63 := 1)",
        "atomic(r0 := r63 := r1 + 2 + r3)",
        "atomic((r1 := 2) + r1)",
        "atomic(r1 + (r1 := 2))",
        "atomic(r1 + (r2 + (r3 := (r4 := 4) + 5)))",
    ] {
        assert_eq!(said(&here, &["show", "--formula", "--text", text]), accepted(&format!("{text}\n")));
    }
    // with what is never needed
    for (text, printed) in [
        ("((-00))", "0"),
        ("forkfork(007)+(1+2)", "fork fork 7 + (1 + 2)"),
        ("((1 + 2) + 3)", "1 + 2 + 3"),
        ("atomic ( r007:=(r063) )", "atomic(r7 := r63)"),
        ("\r\n fork\n(atomic\n(\n(r1:=(r2:=3))))", "fork atomic(r1 := r2 := 3)"),
    ] {
        assert_eq!(said(&here, &["show", "--formula", "--text", text]), accepted(&format!("{printed}\n")));
    }
}

/// A tree of depth 64 with 64 open in its text: a fork, sums in brackets, an atomic with its bracket, writes.
fn all_open(rng: &mut Rng) -> Process {
    let sums = rng.below(62);
    let register = |rng: &mut Rng| rng.below(64) as u8;
    let write = |rng: &mut Rng, t| Transaction::Write(register(rng), Box::new(t));
    let inside = (sums..61).fold(Transaction::Read(register(rng)), |t, _| write(rng, t));
    let sum = |rng: &mut Rng, p| Process::Add(Box::new(Process::Val(rng.number())), Box::new(p));
    let child = (0..sums).fold(Process::Atomic(Box::new(inside)), |p, _| sum(rng, p));
    Process::Fork(Box::new(child))
}

/// A tree of an accepted job, small or at one of the limits.
fn limit_tree(rng: &mut Rng, case: u64) -> Process {
    let lean = rng.choose(&[Lean::Even, Lean::Left, Lean::Right, Lean::Any]);
    let shape = Shape { nodes: 1_000, room: 64, forks: 15, transaction: 200, registers: 64, lean };
    match case % 7 {
        0 => random_tree(rng),
        1 => deep(rng, 1_000, 64, 15, 200),
        2 => chain(rng, 64, 15),
        3 => shape.tree(rng),
        4 => Shape { nodes: 200, ..shape }.atomic(rng),
        5 => all_open(rng),
        _ => {
            // as many forks as there may be around a tree whose numbers are at the ends
            let inner = Shape { nodes: 500, room: 49, forks: 0, ..shape }.tree(rng);
            (0..15).fold(far(rng, inner), |tree, _| Process::Fork(Box::new(tree)))
        }
    }
}

/// The most nodes of a transaction.
fn longest(process: &Process) -> usize {
    match process {
        Process::Val(_) => 0,
        Process::Add(a, b) => longest(a).max(longest(b)),
        Process::Atomic(_) => process.nodes() - 1,
        Process::Fork(p) => longest(p),
    }
}

/// How many brackets, forks, atomics and writes are open together in the text that [`whole`] gives.
fn open(process: &Process) -> usize {
    match process {
        Process::Val(_) => 0,
        Process::Add(a, b) => open(a).max(open_term(b)),
        Process::Atomic(t) => 2 + open_inside(t),
        Process::Fork(p) => 1 + open_term(p),
    }
}

fn open_term(process: &Process) -> usize {
    usize::from(matches!(process, Process::Add(..))) + open(process)
}

fn open_inside(transaction: &Transaction) -> usize {
    let bracket = |bracketed: bool, part: &Transaction| usize::from(bracketed) + open_inside(part);
    match transaction {
        Transaction::Val(_) | Transaction::Read(_) => 0,
        Transaction::Add(a, b) => {
            let first = bracket(matches!(**a, Transaction::Write(..)), a);
            first.max(bracket(matches!(**b, Transaction::Write(..) | Transaction::Add(..)), b))
        }
        Transaction::Write(_, t) => 1 + open_inside(t),
    }
}

#[test]
fn printed_jobs_are_read_again() {
    let here = folder("again");
    let (mut at_limit, mut texts) = ([0; 5], String::new());
    for case in 0..180 {
        let mut rng = Rng::new(20, 3, case);
        let tree = limit_tree(&mut rng, case);
        let job = tree.job();
        if kuspigo::compile(&job).is_err() {
            continue;
        }
        let limits =
            [(tree.nodes(), 1_000), (tree.depth(), 64), (tree.forks(), 15), (longest(&tree), 200), (open(&tree), 64)];
        for (count, (is, most)) in at_limit.iter_mut().zip(limits) {
            *count += usize::from(is == most);
        }
        put(&here, "random.job", &job);
        let printed = said(&here, &["show", "--formula", "random.job"]);
        assert_eq!(printed, accepted(&format!("{}\n", whole(&tree))), "case {case}");
        assert!(printed.out.len() <= 20 * tree.nodes() + 1, "case {case}");
        assert_eq!(kuspigo::formula(printed.out.as_bytes()).as_ref(), Ok(&job), "case {case}");
        put(&here, "random.formula", printed.out.as_bytes());
        assert_eq!(said(&here, &["formula", "random.formula", "-o", "again.job"]), accepted(""), "case {case}");
        assert_eq!(got(&here, "again.job"), job, "case {case}");
        texts += &printed.out;
    }
    println!(
        "jobs of 1,000 nodes, of depth 64, of 15 forks, with a transaction of 200 nodes, with 64 open: {at_limit:?}"
    );
    assert!(at_limit.iter().all(|&count| count > 10));
    for text in ["-2147483648", " 2147483647", "r0 := ", "r63 := ", "r0 + ", "r63 + "] {
        assert!(texts.contains(text), "{text}");
    }
}
