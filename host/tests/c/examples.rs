//! The examples.

use crate::support::{output_of, program_of, C99, LISTING};
use std::io::Write;
use std::process::{Command, Stdio};

#[test]
fn the_example_prints_the_whole_case() {
    let Some(printed) = output_of(C99, "examples/run.c", &["-O1"]) else { return };
    assert_eq!(printed, LISTING);
}

#[test]
fn the_example_prints_the_whole_cases_rules() {
    let Some(printed) = output_of(C99, "examples/steps.c", &["-O1"]) else { return };
    let expected = "\
        thread 0: fork\nthread 0: fork\nthread 0: sum\n\
        thread 1: begin\nthread 1: read from table\n\
        thread 2: begin\nthread 2: read from table\nthread 2: push\nthread 2: sum\nthread 2: write\nthread 2: commit\n\
        thread 1: push\nthread 1: sum\nthread 1: write\nthread 1: sent back with register 0\n\
        thread 1: begin\nthread 1: read from table\nthread 1: push\nthread 1: sum\nthread 1: write\nthread 1: commit\n\
        thread 0: idle\n\
        thread 0 last did sum, send-backs 0\n\
        thread 1 last did commit, send-backs 1\n\
        thread 2 last did commit, send-backs 0\n";
    assert_eq!(printed, expected);
}

#[test]
fn the_example_prints_the_whole_cases_forecast() {
    let Some(printed) = output_of(C99, "examples/forecast.c", &["-O1"]) else { return };
    let expected = "36 bytes of code, 2 transactions, 3 threads\n\
        15 instructions, 6 in the longest transaction, at most 27 steps\n\
        READ names 0\nWRITE names 0\nheights 2 2 2\n";
    assert_eq!(printed, expected);
}

/// Its text is an argument or standard input.
#[test]
fn the_example_reads_formulas() {
    let Some(program) = program_of(C99, "examples/formula.c", &["-O1"]) else { return };
    let says = |text: &[u8]| {
        let mut child =
            Command::new(&program).stdin(Stdio::piped()).stdout(Stdio::piped()).spawn().expect("the program starts");
        child.stdin.take().expect("a pipe").write_all(text).expect("the program reads");
        let ended = child.wait_with_output().expect("the program ends");
        let said = (String::from_utf8(ended.stdout).expect("the program prints text"), ended.status.code());
        let argument = std::str::from_utf8(text).expect("a test's text");
        let other = Command::new(&program).arg(argument).output().expect("the program starts");
        assert_eq!((String::from_utf8_lossy(&other.stdout).into_owned(), other.status.code()), said);
        said
    };
    let taken = |printed: &str| (printed.to_string(), Some(0));
    let refused = |printed: &str| (printed.to_string(), Some(1));
    let whole = b"fork atomic(r0 := r0 + 1)\n  + fork atomic(r0 := r0 + 1)\n";
    let child = "04 03 08 00 06 07 00 05 00 00 00 01";
    assert_eq!(says(whole), taken(&format!("57 53 4A 00 01 00 0D 02 {child} {child}\n")));
    assert_eq!(
        says(b"1 +\n  fork r5\n"),
        refused(
            "refused 15 (not a script) at 11: No script goes on so from here.\n\
             \x20 fork r5\n       ^\n"
        )
    );
    assert_eq!(
        says(b"(1 + 2"),
        refused("refused 15 (not a script) at 6: No script goes on so from here.\n(1 + 2\n      ^\n")
    );
    assert_eq!(says(b""), refused("refused 15 (not a script) at 0: No script goes on so from here.\n\n^\n"));
    let sums = ["1"; 65].join("+");
    assert_eq!(says(sums.as_bytes()), refused("refused 7 (depth) at 71: The node is at depth 65.\n"));
    let long = [&[b' '; 32_768][..], b"1"].concat();
    assert_eq!(
        says(&long),
        refused(
            "refused 15 (not a script) at 32768: No script goes on so from here.\nThere are more than 32768 bytes.\n"
        )
    );
    assert_eq!(says(&long[1..]), taken("57 53 4A 00 01 00 01 01 00 00 00 01\n"));
}
