//! What is told of formulas that are refused.

use crate::formulas::{inside, whole};
use crate::support::{fed, folder, number_behind, put, random_tree, refused, said, viewer};
use kuspigo::{Reason, Refusal};
use plain::samples::{chain, Lean, Rng, Shape};
use plain::tree::{Process, Transaction};

/// Whole messages: lines, columns, bytes that are not shown as they are, long lines.
#[test]
fn the_line_and_the_place() {
    let here = folder("lines");
    for (text, message) in [
        (
            &b""[..],
            "\
refused 15 (not a script) at 0: No script goes on so from here.
It ends at line 1, column 1.
There could stand a number, `(`, `fork` or `atomic`.

  line  text
     1
        ^ 0
",
        ),
        (
            b"fork atomic(r0 := r0 + 1)\n  + fork atomic(r0 := )\n  + 7\n",
            "\
refused 15 (not a script) at 48: No script goes on so from here.
Line 2, column 23 has `)`.
There could stand a number, a register or `(`.

  line  text
     2    + fork atomic(r0 := )
                              ^ 48
",
        ),
        (
            b"(1 +\r\n\t2)\r\n",
            "\
refused 15 (not a script) at 6: No script goes on so from here.
Line 2, column 1 has a tab.
Blanks, carriage returns and ends of lines may stand between words, a tab may not.
There could stand a number, `(`, `fork` or `atomic`.

  line  text
     1  (1 +\\r
     2  \\t2)\\r
        ^ 6
",
        ),
        (
            b"(1 \r\\\x80) + 2",
            "\
refused 15 (not a script) at 4: No script goes on so from here.
Line 1, column 5 has `\\`.
There could stand `+` or `)`.

  line  text
     1  (1 \\r\\\\\\x80) + 2
             ^ 4
",
        ),
        (
            "2 \u{2212} 1".as_bytes(),
            "\
refused 15 (not a script) at 2: No script goes on so from here.
Line 1, column 3 has `\u{2212}`, in hex E2 88 92.
There could stand `+` or the end.

  line  text
     1  2 \\xE2\\x88\\x92 1
          ^ 2
",
        ),
        (
            b"1 +\n \r\n\n  ",
            "\
refused 15 (not a script) at 10: No script goes on so from here.
It ends at line 4, column 3.
There could stand a number, `(`, `fork` or `atomic`.

  line  text
     1  1 +
     4
          ^ 10
",
        ),
        (
            b"fork atomic(r0 := r1\n:\n= 1)",
            "\
refused 15 (not a script) at 22: No script goes on so from here.
Line 2, column 2 has the end of the line.
No blank stands inside a word, a number, a register or `:=`.
There could stand `=`.

  line  text
     2  :
         ^ 22
",
        ),
        (
            &[&b"1 + ".repeat(100)[..], b"x", &b" + 1".repeat(100)].concat(),
            "\
refused 15 (not a script) at 400: No script goes on so from here.
Line 1, column 401 has `x`.
There could stand a number, `(`, `fork` or `atomic`.

  line  text
     1  ...1 + 1 + 1 + 1 + 1 + 1 + 1 + 1 + 1 + 1 + 1 + x + 1 + 1 + 1 + 1 + 1 ...
                                                       ^ 400
",
        ),
        (
            &[&b"1 +"[..], &b"\r".repeat(100), b"x"].concat(),
            "\
refused 15 (not a script) at 103: No script goes on so from here.
Line 1, column 104 has `x`.
There could stand a number, `(`, `fork` or `atomic`.

  line  text
     1  ...\\r\\r\\r\\r\\r\\r\\r\\r\\r\\r\\r\\r\\r\\r\\r\\r\\r\\r\\r\\r\\r\\r\\r\\r\\r\\r\\r\\r\\r\\r\\r\\rx
                                                                           ^ 103
",
        ),
    ] {
        put(&here, "bad.formula", text);
        let err = format!("kuspigo: bad.formula: {message}");
        assert_eq!(said(&here, &["check", "--formula", "bad.formula"]), refused("", &err));
    }
}

/// What a text of the command line is answered, between the refusal and the line: the reasons, and what could stand there.
#[test]
fn what_could_stand_there() {
    let here = folder("there");
    let open = "64 brackets, forks, atomics and writes are open, and no more may be.";
    let term = "a number, `(`, `fork` or `atomic`";
    let brackets = |count: usize, rest: &str| "(".repeat(count) + rest;
    for (text, at, reasons, there) in [
        // terms
        ("+1".to_string(), 0, "", term),
        ("1 + ".into(), 4, "", term),
        ("fork".into(), 4, "", term),
        ("fork +".into(), 5, "", term),
        ("(".into(), 1, "", term),
        ("atomic()".into(), 7, "", "a number, a register or `(`"),
        ("atomic(r5:=)".into(), 11, "", "a number, a register or `(`"),
        ("atomic(r5 + ".into(), 12, "", "a number, a register or `(`"),
        ("1 + r1".into(), 4, "Registers stand inside `atomic( )`.", term),
        (
            "atomic(1 + fork 2)".into(),
            11,
            "`fork` and `atomic` do not stand inside `atomic( )`.",
            "a number, a register or `(`",
        ),
        // behind a term
        ("12 3".into(), 3, "", "`+` or the end"),
        ("1)".into(), 1, "", "a digit, `+` or the end"),
        ("(1 ".into(), 3, "", "`+` or `)`"),
        ("(1".into(), 2, "", "a digit, `+` or `)`"),
        ("(1) (".into(), 4, "", "`+` or the end"),
        ("1 - 2".into(), 2, "A number is taken off by adding its negative: `+ -1`.", "`+` or the end"),
        ("atomic(r1 r2)".into(), 10, "", "`:=`, `+` or `)`"),
        ("atomic(r1 = 2)".into(), 10, "A write has `:=`.", "`:=`, `+` or `)`"),
        ("atomic(r1 := r2 = 2)".into(), 16, "A write has `:=`.", "`:=`, `+` or `)`"),
        (
            "atomic(1 + r1 := 2)".into(),
            14,
            "Only the first register is written: behind `+` a write stands in brackets.",
            "`+` or `)`",
        ),
        ("atomic((r1) := 2)".into(), 12, "", "`+` or `)`"),
        // inside a number, a register, a word, `:=`
        ("- 1".into(), 1, "No blank stands inside a word, a number, a register or `:=`.", "a digit"),
        ("--1".into(), 1, "", "a digit"),
        ("atomic(r)".into(), 8, "", "a digit"),
        ("atomic(r6 7".into(), 10, "", "`:=`, `+` or `)`"),
        ("atomic(r6".into(), 9, "", "a digit up to 3, `:=`, `+` or `)`"),
        ("f".into(), 1, "", "`ork`, the rest of `fork`"),
        ("fokr 1".into(), 2, "", "`rk`, the rest of `fork`"),
        ("1 + for(1)".into(), 7, "", "`k`, the rest of `fork`"),
        (
            "a tomic(1)".into(),
            1,
            "No blank stands inside a word, a number, a register or `:=`.",
            "`tomic`, the rest of `atomic`",
        ),
        ("atomi(1)".into(), 5, "", "`c`, the rest of `atomic`"),
        ("atomic 1".into(), 7, "", "`(`"),
        ("atomic".into(), 6, "", "`(`"),
        ("atomic(r5: =1)".into(), 10, "No blank stands inside a word, a number, a register or `:=`.", "`=`"),
        // out of range
        ("2147483648".into(), 9, "2147483648 is above 2147483647.", "a digit up to 7, `+` or the end"),
        ("21474836470".into(), 10, "21474836470 is above 2147483647.", "`+` or the end"),
        ("-2147483649 + 1".into(), 10, "-2147483649 is below -2147483648.", "a digit up to 8, `+` or the end"),
        ("(9999999999)".into(), 10, "9999999999 is above 2147483647.", "`+` or `)`"),
        ("atomic(r64)".into(), 9, "Registers are r0 to r63; this one is r64.", "a digit up to 3, `:=`, `+` or `)`"),
        (
            "atomic(r0064 := 1)".into(),
            11,
            "Registers are r0 to r63; this one is r0064.",
            "a digit up to 3, `:=`, `+` or `)`",
        ),
        ("atomic(1 + r100)".into(), 14, "Registers are r0 to r63; this one is r100.", "`+` or `)`"),
        ("9".repeat(60), 9, "9999999999999999999999999999999999999999... is above 2147483647.", "`+` or the end"),
        // 64 are open
        (brackets(65, "1"), 64, open, "a number"),
        (brackets(64, "fork 1"), 64, open, "a number"),
        (brackets(64, "atomic(1)"), 64, open, "a number"),
        (
            brackets(63, "atomic(1)"),
            63,
            "63 brackets and forks are open, 64 may be, and an atomic with its bracket is two.",
            "a number, `(` or `fork`",
        ),
        (brackets(62, "atomic((1"), 69, open, "a number or a register"),
        (brackets(62, "atomic(r1 :=2"), 72, open, "`+` or `)`"),
        (format!("atomic({}2)", "r1:=".repeat(63)), 257, open, "a digit, `+` or `)`"),
        ("fork ".repeat(65), 320, open, "a number"),
        // other signs
        ("Fork 1".into(), 0, "Words and registers have small letters.", term),
        ("[1]".into(), 0, "Brackets are round.", term),
        ("(1}".into(), 2, "Brackets are round.", "a digit, `+` or `)`"),
        ("\u{FEFF}1".into(), 0, "This is a byte order mark; the text has to be saved without it.", term),
        ("WSJ".into(), 0, "It begins with WSJ, the mark of a job: try kuspigo show --formula.", term),
        ("WSC".into(), 0, "It begins with WSC, the mark of code: try kuspigo show --formula.", term),
    ] {
        let told = said(&here, &["formula", "--text", &text, "-o", "x.job"]);
        let mut lines = told.err.lines();
        let first = format!("kuspigo: the text: refused 15 (not a script) at {at}: No script goes on so from here.");
        assert_eq!((lines.next(), told.out.as_str(), told.status), (Some(&*first), "", 1), "{text}");
        let place = lines.next().expect("the place comes next");
        match text.as_bytes().get(at) {
            Some(_) => assert!(place.starts_with(&format!("Line 1, column {} has ", at + 1)), "{text}: {place}"),
            None => assert_eq!(place, format!("It ends at line 1, column {}.", at + 1), "{text}"),
        }
        let there = format!("There could stand {there}.");
        let rest: Vec<&str> = lines.by_ref().take_while(|line| !line.is_empty()).collect();
        let expected: Vec<&str> = [reasons, &there].into_iter().filter(|line| !line.is_empty()).collect();
        assert_eq!(rest, expected, "{text}");
        assert_eq!(lines.next(), Some("  line  text"), "{text}");
        assert!(lines.last().is_some_and(|line| line.ends_with(&format!("^ {at}"))), "{text}");
    }
}

/// A text above 32,768 bytes, one of as many that ends too early, and one without an end.
#[test]
fn long_texts() {
    let here = folder("long");
    let long = [b"x".to_vec(), vec![b' '; 32_759], b"\n23456789".to_vec()].concat();
    let err = "\
kuspigo: standard input: refused 15 (not a script) at 32768: No script goes on so from here.
Line 2, column 8 has `9`.
The text is longer than 32,768 bytes, the most that a script has.

  line  text
     2  23456789
               ^ 32768
";
    assert_eq!(fed(viewer().args(["formula", "-", "-o", "-"]), &long), refused("", err));
    let most = [vec![b'\n'; 32_767], b"(".to_vec()].concat();
    let err = "\
kuspigo: long.formula: refused 15 (not a script) at 32768: No script goes on so from here.
It ends at line 32768, column 2.
The text has 32,768 bytes, the most that a script has.

  line  text
 32768  (
         ^ 32768
";
    put(&here, "long.formula", &most);
    assert_eq!(said(&here, &["check", "--formula", "long.formula"]), refused("", err));
    put(&here, "long.formula", &[vec![b' '; 32_767], b"7".to_vec()].concat());
    assert_eq!(said(&here, &["show", "--formula", "long.formula"]).out, "7\n");
    let endless = said(&here, &["check", "--formula", "/dev/zero"]);
    assert!(endless.err.starts_with("kuspigo: /dev/zero: refused 15 (not a script) at 32768: "), "{}", endless.err);
    assert_eq!(endless.err.lines().nth(1), Some("Line 1, column 32769 has a byte that is in hex 00."));
}

/// Scripts whose jobs are refused.
#[test]
fn the_node_in_the_formula() {
    let here = folder("nodes");
    let forks: Vec<String> = (1..=20).map(|number| format!("fork {number}")).collect();
    let twenty = format!("({})", vec!["r5"; 20].join(" + "));
    for (text, message) in [
        (
            vec!["1"; 65].join("+"),
            "\
refused 7 (depth) at 71: The node is at depth 65.
The offset 71 is one in the job that the formula would make.
As the viewer reads the formula, it is `1` at line 1, column 1.
`a + b + c` is `(a + b) + c`: each `+` puts all before it one level deeper.

  line  text
     1  1+1+1+1+1+1+1+1+1+1+1+1+1+1+1+1+1+1+1+1+1+1+1+1+1+1+1+1+1+1+1+1+1+...
        ^ 0
",
        ),
        (
            vec!["1"; 501].join(" + "),
            "\
refused 4 (count) at 5: The node count is 0 or above 1,000.
The offset 5 is one in the job that the formula would make.
As the viewer reads the formula, that job would have 1001 nodes.
",
        ),
        (
            forks.join("\n  + "),
            "\
refused 8 (forks) at 116: This is the sixteenth FORK.
The offset 116 is one in the job that the formula would make.
As the viewer reads the formula, it is `fork 16` at line 16, column 5.

  line  text
    16    + fork 16
            ^ 171
",
        ),
        (
            format!("7 +\n (fork atomic\n ({}))", [&*twenty; 6].join("+")),
            "\
refused 14 (long transaction) at 14: The transaction has more than 200 nodes.
The offset 14 is one in the job that the formula would make.
As the viewer reads the formula, it is `atomic ((r5 + r5 + r5 + r5 + r5 + r5 + r...` at line 2, column 8.
It has 239 nodes.

  line  text
     2   (fork atomic
               ^ 11
",
        ),
    ] {
        put(&here, "bad.formula", text.as_bytes());
        let err = format!("kuspigo: bad.formula: {message}");
        assert_eq!(said(&here, &["check", "--formula", "bad.formula"]), refused("", &err));
    }
}

/// The text of the node at a place in a tree's job; `at` is the place of the tree's first node, and then the one behind it.
fn node(process: &Process, at: &mut usize, place: usize) -> Option<String> {
    if *at == place {
        return Some(whole(process));
    }
    *at += if matches!(process, Process::Val(_)) { 5 } else { 1 };
    match process {
        Process::Val(_) => None,
        Process::Add(a, b) => node(a, at, place).or_else(|| node(b, at, place)),
        Process::Atomic(t) => node_inside(t, at, place),
        Process::Fork(p) => node(p, at, place),
    }
}

fn node_inside(transaction: &Transaction, at: &mut usize, place: usize) -> Option<String> {
    if *at == place {
        return Some(inside(transaction));
    }
    let (length, parts) = match transaction {
        Transaction::Val(_) => (5, vec![]),
        Transaction::Read(_) => (2, vec![]),
        Transaction::Write(_, t) => (2, vec![t]),
        Transaction::Add(a, b) => (1, vec![a, b]),
    };
    *at += length;
    parts.into_iter().find_map(|part| node_inside(part, at, place))
}

/// Random trees above each limit: the node that is shown is the one at the refusal's place.
#[test]
fn the_node_of_random_jobs() {
    let here = folder("random_nodes");
    let mut seen = [0; 16];
    for case in 0..200 {
        let mut rng = Rng::new(20, 5, case);
        let lean = rng.choose(&[Lean::Even, Lean::Left, Lean::Right, Lean::Any]);
        let nodes = rng.between(250, 1_000);
        let shape = Shape { nodes, room: 60, forks: 0, transaction: 60, registers: 3, lean };
        let tree = match case % 3 {
            0 => chain(&mut rng, 65, 3),
            1 => Shape { forks: 40, ..shape }.tree(&mut rng),
            _ => {
                let long = Shape { nodes: rng.between(195, 230), ..shape }.atomic(&mut rng);
                let beside = Shape { nodes: 250, ..shape }.tree(&mut rng);
                Process::Add(Box::new(beside), Box::new(long))
            }
        };
        let text = whole(&tree).replace(" + ", rng.choose(&["+", " +\n", "\r\n + "]));
        let Err(refusal) = kuspigo::formula(text.as_bytes()) else { continue };
        seen[usize::from(refusal.number())] += 1;
        if refusal.reason == Reason::NotAScript {
            continue;
        }
        assert_eq!(kuspigo::compile(&tree.job()), Err(refusal), "case {case}");
        put(&here, "random.formula", text.as_bytes());
        let told = said(&here, &["check", "--formula", "random.formula"]);
        assert!(told.err.starts_with(&format!("kuspigo: random.formula: {refusal}\n")), "case {case}");
        let shown =
            told.err.split_once(" it is `").expect("it is shown").1.split_once("` at line ").expect("and where");
        let expected = node(&tree, &mut 7, refusal.place).expect("the node is there");
        let same = |text: &str| text.replace([' ', '\n', '\r'], "");
        let expected = same(&expected);
        match shown.0.strip_suffix("...") {
            Some(front) => assert!(expected.starts_with(&same(front)), "case {case}"),
            None => assert_eq!(same(shown.0), expected, "case {case}"),
        }
        // the mark is where the node's text begins
        let at = number_behind(&told.err, "^ ") as usize;
        assert!(same(&text[at..]).starts_with(&expected), "case {case}");
        let before = &text[..at];
        let (line, column) = (before.matches('\n').count() + 1, at - before.rfind('\n').map_or(0, |end| end + 1) + 1);
        assert!(shown.1.starts_with(&format!("{line}, column {column}.\n")), "case {case}");
    }
    println!("refused, by number: {seen:?}");
    assert!(seen[7] > 10 && seen[8] > 10 && seen[14] > 10);
}

/// Damaged formulas: the refusal is the library's, the mark is under the byte, and each thing that could stand there fits.
#[test]
fn random_damage_is_marked() {
    let here = folder("misread");
    let mut told_of = 0;
    for case in 0..300 {
        let mut rng = Rng::new(20, 4, case);
        let mut text = whole(&random_tree(&mut rng)).replace(" + ", rng.choose(&[" + ", " +\n", "+"])).into_bytes();
        match rng.below(3) {
            0 => text.truncate(rng.below(text.len())),
            1 => {
                let at = rng.below(text.len());
                text[at] = rng.choose(b" \r\t+()-:=r19forkatmicX\xC3\x7F");
            }
            _ => text.insert(rng.below(text.len()), rng.choose(b"()-9 r+:")),
        }
        let Err(refusal @ Refusal { reason: Reason::NotAScript, place }) = kuspigo::formula(&text) else { continue };
        told_of += 1;
        put(&here, "random.formula", &text);
        let told = said(&here, &["formula", "random.formula", "-o", "x.job"]);
        assert!(told.err.starts_with(&format!("kuspigo: random.formula: {refusal}\n")), "case {case}");
        let mut last = told.err.lines().rev();
        let mark = last.next().and_then(|line| line.find('^')).expect("there is a mark");
        let line = last.next().expect("the line is shown").as_bytes();
        match text.get(place) {
            Some(byte @ b'!'..=b'~') => assert_eq!(line.get(mark), Some(byte), "case {case}: {}", told.err),
            Some(b'\n') | None => assert!(line.len() <= mark, "case {case}: {}", told.err),
            Some(b' ') => assert!(line.len() <= mark || line[mark] == b' ', "case {case}: {}", told.err),
            Some(_) => assert_eq!(line.get(mark), Some(&b'\\'), "case {case}: {}", told.err),
        }
        let there = told
            .err
            .split_once("There could stand ")
            .expect("something could")
            .1
            .split_once(".\n")
            .expect("a sentence")
            .0;
        let mut names = 0;
        for (name, bytes) in [
            ("a number", "-"),
            ("a register", "r1"),
            ("`fork`", "fork"),
            ("`atomic`", "atomic"),
            ("a digit", "0"),
            ("`:=`", ":="),
            ("`=`", "="),
            ("`(`", "("),
            ("`+`", "+"),
            ("`)`", ")"),
        ] {
            let next = [&text[..place], bytes.as_bytes()].concat();
            let fits = match kuspigo::formula(&next) {
                Err(Refusal { reason: Reason::NotAScript, place }) => place == next.len(),
                _ => true,
            };
            let named = there.contains(name) && !there.contains("the rest of");
            // a number begins with a digit, too
            assert!(
                named == fits || name == "a digit" && there.contains("a number"),
                "case {case}: {name} {}",
                told.err
            );
            names += usize::from(named);
        }
        assert!(names > 0 || there.contains("the rest of"), "case {case}");
    }
    println!("{told_of} damaged formulas");
    assert!(told_of > 150);
}
