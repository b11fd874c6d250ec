//! The command line, and the words that run nothing.

use crate::support::{
    accepted, damaged, example, fed, folder, got, put, random_tree, refused, said, viewer, Said, KIND,
};
use plain::samples::{sum, Rng};
use plain::tree::{Process, Transaction};

#[test]
fn the_examples_are_what_they_are_said_to_be() {
    let increment = || {
        let sum = Transaction::Add(Box::new(Transaction::Read(0)), Box::new(Transaction::Val(1)));
        Process::Fork(Box::new(Process::Atomic(Box::new(Transaction::Write(0, Box::new(sum))))))
    };
    assert_eq!(example("whole.job"), Process::Add(Box::new(increment()), Box::new(increment())).job());
    assert_eq!(example("whole.picks"), [vec![0; 3], vec![1; 2], vec![2; 6], vec![1; 10]].concat());
    // the same up to the second FORK and from the first commit on
    assert_eq!(example("whole.exchanged.picks"), [vec![0, 0, 2, 1, 2, 2, 0, 1, 2, 2, 2], vec![1; 10]].concat());

    // fifteen tasks that each note the sum of two shared registers and then add 1 to one of them; the root adds 1 to r63
    let atomic = |register, sum| Process::Atomic(Box::new(Transaction::Write(register, Box::new(sum))));
    let add = |register, b| Transaction::Add(Box::new(Transaction::Read(register)), Box::new(b));
    let task = |i: u8| {
        let noted = atomic(2 + i, add(i % 2, Transaction::Read((i + 1) % 2)));
        let counted = atomic(i % 2, add(i % 2, Transaction::Val(1)));
        Process::Fork(Box::new(Process::Add(Box::new(noted), Box::new(counted))))
    };
    let mut parts: Vec<Process> = (1..=15).map(task).collect();
    parts.push(atomic(63, add(63, Transaction::Val(1))));
    assert_eq!(example("sixteen.job"), sum(parts).job());
}

#[test]
fn help_names_every_word() {
    let here = folder("help");
    let help = said(&here, &["--help"]);
    assert_eq!((help.status, help.err.as_str()), (0, ""));
    assert_eq!(said(&here, &["-h"]), help);
    assert_eq!(said(&here, &["help"]), help);
    assert!(help.out.contains("\nThis program is not proved."));
    for (word, usage) in [
        ("formula", "kuspigo formula FILE -o JOB"),
        ("check", "kuspigo check JOB"),
        ("show", "kuspigo show FILE"),
        ("compile", "kuspigo compile JOB -o CODE"),
        ("back", "kuspigo back CODE -o JOB"),
        ("run", "kuspigo run JOB PICKS"),
        ("trace", "kuspigo trace JOB PICKS"),
        ("picture", "kuspigo picture JOB PICKS -o FILE.svg"),
        ("exchange", "kuspigo exchange JOB --picks A --with B"),
    ] {
        assert!(help.out.contains(&format!("\n  {usage} ")), "{word}");
        let more = said(&here, &[word, "--help"]);
        assert_eq!(said(&here, &["help", word]), more, "{word}");
        assert!(more.out.starts_with(&format!("{usage}: ")) && more.status == 0, "{word}");
        let example = more.out.lines().last().and_then(|line| line.strip_prefix("example: ")).expect("there is one");
        assert!(help.out.contains(&format!("\n  {example}\n")), "{word}");
        let arguments: Vec<&str> = example.split(' ').skip(1).collect();
        let missing = said(&here, &arguments);
        assert_eq!(missing.status, 1, "{example} is understood, and its file is not there");
        assert!(missing.err.starts_with("kuspigo: scan."), "{}", missing.err);
    }
    assert_eq!(said(&here, &["--version"]), accepted(concat!("kuspigo ", env!("CARGO_PKG_VERSION"), "\n")));
}

#[test]
fn a_command_line_that_is_not_understood() {
    let here = folder("usage");
    for (arguments, what) in [
        (&[][..], "kuspigo: what is to be done?"),
        (&["go"], "kuspigo: there is no word `go`"),
        (&["check"], "kuspigo check: which file?"),
        (&["check", "a", "b"], "kuspigo check: one file is enough"),
        (&["check", "a", "-o", "b"], "kuspigo check: nothing is written to a file"),
        (&["check", "a", "--round-robin"], "kuspigo check: no picks are taken"),
        (&["check", "-x", "a"], "kuspigo check: there is no option -x"),
        (&["check", "--foo=bar", "a"], "kuspigo check: there is no option --foo"),
        (&["check", "a", "--text", "1"], "kuspigo check: a file or --text is enough"),
        (&["check", "--text", "1", "-e", "1"], "kuspigo check: one --text is enough"),
        (&["check", "--text"], "kuspigo check: --text needs a value"),
        (&["check", "--formula"], "kuspigo check: which file?"),
        (&["check", "--formula=a", "b"], "kuspigo check: one file is enough"),
        (&["formula", "-o", "a"], "kuspigo formula: which file?"),
        (&["formula", "a"], "kuspigo formula: where to? -o FILE"),
        (&["formula", "--formula", "a", "-o", "b"], "kuspigo formula: FILE is a formula without --formula"),
        (&["back", "--formula", "a", "-o", "b"], "kuspigo back: no formula is taken"),
        (&["back", "--text", "1", "-o", "b"], "kuspigo back: no formula is taken"),
        (&["compile", "a"], "kuspigo compile: where to? -o FILE"),
        (&["compile", "a", "-o"], "kuspigo compile: -o needs a value"),
        (&["compile", "a", "-o", "b", "-o", "c"], "kuspigo compile: one -o is enough"),
        (&["run", "a"], "kuspigo run: which picks?"),
        (&["run", "a", "b"], "kuspigo run: one file is enough; that of picks follows --picks"),
        (&["run", "a", "--random"], "kuspigo run: --random needs a value"),
        (&["run", "a", "--random", "-1"], "kuspigo run: --random needs a whole number from 0 to 2^64 - 1"),
        (&["run", "a", "--round-robin=1"], "kuspigo run: --round-robin takes no value"),
        (
            &["run", "a", "--round-robin", "--random", "1"],
            "kuspigo run: one of --picks, --round-robin and --random is enough",
        ),
        (&["run", "-", "--picks", "-"], "kuspigo run: job and picks cannot both be standard input"),
        (&["run", "--formula", "-", "--picks", "-"], "kuspigo run: job and picks cannot both be standard input"),
        (&["run", "a", "--picks", "b", "--with", "c"], "kuspigo run: no second list is taken"),
        (&["exchange", "--picks", "a", "--with", "b"], "kuspigo exchange: which file?"),
        (&["exchange", "a", "--with", "b"], "kuspigo exchange: which picks?"),
        (&["exchange", "a", "--picks", "b"], "kuspigo exchange: with which other picks?"),
        (&["exchange", "a", "--picks", "b", "--with"], "kuspigo exchange: --with needs a value"),
        (&["exchange", "a", "--picks", "b", "--picks", "c"], "kuspigo exchange: one --picks is enough"),
        (&["exchange", "a", "--with", "b", "--with", "c"], "kuspigo exchange: one --with is enough"),
        (&["exchange", "a", "--round-robin", "--with", "b"], "kuspigo exchange: the picks are files"),
        (&["exchange", "a", "--picks", "b", "--random", "1"], "kuspigo exchange: the picks are files"),
        (
            &["exchange", "a", "b", "--picks", "c"],
            "kuspigo exchange: one file is enough; those of picks follow --picks and --with",
        ),
        (
            &["exchange", "-", "--picks", "a", "--with", "-"],
            "kuspigo exchange: one of job and lists can be standard input",
        ),
        (&["exchange", "a", "--picks=-", "--with=-"], "kuspigo exchange: one of job and lists can be standard input"),
        (
            &["exchange", "a", "--picks", "b", "--with", "c", "-o", "d"],
            "kuspigo exchange: nothing is written to a file",
        ),
    ] {
        let said = said(&here, arguments);
        assert_eq!((said.err.lines().next(), said.out.as_str(), said.status), (Some(what), "", 2));
        assert!(said.err.contains("\nusage: kuspigo "), "{what}");
    }
}

#[test]
fn compile_and_back() {
    let here = folder("compile");
    let code = kuspigo::compile(&example("whole.job")).unwrap();
    assert_eq!(said(&here, &["compile", "whole.job", "-o", "whole.code"]), accepted(""));
    assert_eq!(got(&here, "whole.code"), code);
    assert_eq!(said(&here, &["back", "--output=again.job", "whole.code"]), accepted(""));
    assert_eq!(got(&here, "again.job"), example("whole.job"));
    assert_eq!(said(&here, &["back", "whole.code", "-osame.job"]), accepted(""));
    assert_eq!(got(&here, "same.job"), example("whole.job"));

    // standard input and output
    let piped = fed(viewer().args(["compile", "-", "-o", "-"]), &example("whole.job"));
    assert_eq!(piped, accepted(&String::from_utf8_lossy(&code)));

    // what is refused leaves a file as it was
    put(&here, "kind.job", &damaged(12, 1));
    assert_eq!(said(&here, &["compile", "kind.job", "-o", "whole.code"]), refused("", KIND));
    assert_eq!(got(&here, "whole.code"), code);
    let foreign = "\
kuspigo: whole.job: refused 11 (foreign code) at 0: No accepted job compiles to this code.
It begins with WSJ, the mark of a job: try kuspigo compile or show.
";
    assert_eq!(said(&here, &["back", "whole.job", "-o", "again.job"]), refused("", foreign));
    assert_eq!(got(&here, "again.job"), example("whole.job"));
    assert_eq!(said(&here, &["back", "whole.job", "-o", "new.job"]), refused("", foreign));
    assert!(!here.join("new.job").exists());
    // codes that are one byte away from it
    for (at, byte) in
        (0..36).flat_map(|at| [(at, 0), (at, 9), (at, 64), (at, 255)]).filter(|&(at, byte)| code[at] != byte)
    {
        let mut other = code.clone();
        other[at] = byte;
        put(&here, "other.code", &other);
        let back = said(&here, &["back", "other.code", "-o", "other.job"]);
        match kuspigo::read_back(&other) {
            Ok(job) => assert_eq!((back, got(&here, "other.job")), (accepted(""), job)),
            Err(refusal) => assert_eq!(back, refused("", &format!("kuspigo: other.code: {refusal}\n"))),
        }
    }

    // a file that is read is not written, whatever its name
    std::os::unix::fs::symlink("whole.job", here.join("symbolic.job")).expect("a link is made");
    std::fs::hard_link(here.join("whole.job"), here.join("hard.job")).expect("a link is made");
    for (arguments, file) in [
        (&["compile", "whole.job", "-o", "./whole.job"][..], "./whole.job"),
        (&["compile", "whole.job", "-o", "symbolic.job"], "symbolic.job"),
        (&["compile", "whole.job", "-o", "hard.job"], "hard.job"),
        (&["compile", "-", "-o", "whole.job"], "whole.job"),
        (&["back", "whole.code", "-o", "whole.code"], "whole.code"),
        (&["formula", "whole.formula", "-o", "whole.formula"], "whole.formula"),
        (&["picture", "whole.job", "--round-robin", "-o", "whole.job"], "whole.job"),
        (&["picture", "whole.job", "--picks", "whole.picks", "-o", "whole.picks"], "whole.picks"),
    ] {
        let input = std::fs::File::open(here.join("whole.job")).expect("the job is there");
        let program = viewer().current_dir(&here).args(arguments).stdin(input).output().expect("the program starts");
        let same = Said::of(program);
        let what = format!("kuspigo {}: {file} is read, and would be overwritten", arguments[0]);
        assert_eq!((same.err.lines().next(), same.out.as_str(), same.status), (Some(&*what), "", 2));
    }
    assert_eq!((got(&here, "whole.job"), got(&here, "whole.code")), (example("whole.job"), code.clone()));
    assert_eq!(got(&here, "whole.formula"), example("whole.formula"));
    let device = said(&here, &["compile", "/dev/null", "-o", "/dev/null"]);
    assert!(device.err.starts_with("kuspigo: /dev/null: refused 1 (cut) at 0: "), "{}", device.err);
    assert_eq!(got(&here, "whole.picks"), example("whole.picks"));

    // a file whose name begins with a dash; one that is not there
    put(&here, "-x.job", &example("whole.job"));
    assert_eq!(said(&here, &["compile", "-o", "x.code", "--", "-x.job"]), accepted(""));
    assert_eq!(got(&here, "x.code"), code);
    let missing = said(&here, &["compile", "missing.job", "-o", "x.code"]);
    assert_eq!((missing.status, missing.out.as_str()), (1, ""));
    assert!(missing.err.starts_with("kuspigo: missing.job: "));
    let nowhere = said(&here, &["compile", "whole.job", "-o", "missing/x.code"]);
    assert_eq!((nowhere.status, nowhere.out.as_str()), (1, ""));
    assert!(nowhere.err.starts_with("kuspigo: missing/x.code: "));
}

/// Names that are no text, or that a terminal would obey.
#[test]
fn strange_names() {
    use std::ffi::OsStr;
    use std::os::unix::ffi::OsStrExt;
    let here = folder("strange");
    for name in [b"a\xFF".as_slice(), b"=", b"-", b"a=b"] {
        let output = [b"--output=./", name].concat();
        let arguments = [b"compile".as_slice(), b"whole.job", &output].map(OsStr::from_bytes);
        assert_eq!(said(&here, &arguments), accepted(""));
        assert_eq!(
            std::fs::read(here.join(OsStr::from_bytes(name))).ok(),
            kuspigo::compile(&example("whole.job")).ok()
        );
    }
    let missing = said(&here, &["check", "a\u{1b}[31m\n"]);
    assert!(missing.err.starts_with("kuspigo: a\u{FFFD}[31m\u{FFFD}: "), "{}", missing.err);
}

/// A file without an end is refused as its beginning is.
#[test]
fn endless_files() {
    let here = folder("endless");
    let zeros = said(&here, &["check", "/dev/zero"]);
    assert!(zeros.err.starts_with("kuspigo: /dev/zero: refused 2 (mark) at 0: "), "{}", zeros.err);
    let picks = said(&here, &["run", "whole.job", "--picks", "/dev/zero"]);
    assert_eq!((picks.out.as_str(), picks.status), ("refused 13 at 0\n", 1));
}

#[test]
fn show_a_job_or_its_code() {
    let here = folder("show");
    let expected = "\
script: 13 nodes, a job of 32 bytes
     7  02              ADDP
     8  04                FORK  (child 1)
     9  03                  ATOMIC
    10  08 00                 WRITE r0
    12  06                      ADDT
    13  07 00                     READ r0
    15  05 00 00 00 01            VALT 1
    20  04                FORK  (child 2)
    21  03                  ATOMIC
    22  08 00                 WRITE r0
    24  06                      ADDT
    25  07 00                     READ r0
    27  05 00 00 00 01            VALT 1

code: 36 bytes
     5  07 00 0C        FORK 12  (child 1, up to 20)
     8  05                BEGIN
     9  03 00             READ r0
    11  01 00 00 00 01    PUSH 1
    16  02                ADD
    17  04 00             WRITE r0
    19  06                COMMIT
    20  07 00 0C        FORK 12  (child 2, up to 35)
    23  05                BEGIN
    24  03 00             READ r0
    26  01 00 00 00 01    PUSH 1
    31  02                ADD
    32  04 00             WRITE r0
    34  06                COMMIT
    35  02              ADD
";
    assert_eq!(said(&here, &["show", "whole.job"]), accepted(expected));
    let code = kuspigo::compile(&example("whole.job")).unwrap();
    put(&here, "whole.code", &code);
    assert_eq!(said(&here, &["show", "whole.code"]), accepted(expected));

    // two children that end at the same place
    let nested = Process::Fork(Box::new(Process::Fork(Box::new(Process::Val(-2)))));
    put(&here, "nested.job", &Process::Add(Box::new(nested), Box::new(Process::Val(3))).job());
    let expected = "\
script: 5 nodes, a job of 20 bytes
     7  02              ADDP
     8  04                FORK  (child 1)
     9  04                  FORK  (child 2)
    10  01 FF FF FF FE        VALP -2
    15  01 00 00 00 03    VALP 3

code: 22 bytes
     5  07 00 08        FORK 8  (child 1, up to 16)
     8  07 00 05          FORK 5  (child 2, up to 16)
    11  01 FF FF FF FE      PUSH -2
    16  01 00 00 00 03  PUSH 3
    21  02              ADD
";
    assert_eq!(said(&here, &["show", "nested.job"]), accepted(expected));

    put(&here, "kind.job", &damaged(12, 1));
    assert_eq!(said(&here, &["show", "kind.job"]), refused("", KIND));
    put(&here, "cut.code", &code[..35]);
    let foreign = "kuspigo: cut.code: refused 11 (foreign code) at 0: No accepted job compiles to this code.\n";
    assert_eq!(said(&here, &["show", "cut.code"]), refused("", foreign));
}

/// The bytes of the hex columns are the whole job behind its first 7 bytes, and the whole code behind its first 5.
#[test]
fn show_has_every_byte() {
    let here = folder("bytes");
    for case in 0..100 {
        let mut rng = Rng::new(20, 1, case);
        let job = random_tree(&mut rng).job();
        put(&here, "random.job", &job);
        let shown = said(&here, &["show", "random.job"]);
        let (script, code) = shown.out.split_once("\n\n").expect("there are two parts");
        for (part, bytes) in [(script, &job[7..]), (code, &kuspigo::compile(&job).unwrap()[5..])] {
            let start = if part == script { 7 } else { 5 };
            let mut listed = Vec::new();
            for line in part.lines().skip(1) {
                assert_eq!(line[..6].trim().parse(), Ok(start + listed.len()), "case {case}");
                listed.extend(line[8..22].split_whitespace().map(|byte| u8::from_str_radix(byte, 16).unwrap()));
            }
            assert_eq!(listed, bytes, "case {case}");
        }
    }
}
