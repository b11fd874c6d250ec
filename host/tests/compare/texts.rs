//! The cases of `formula`, and of what the library says of the beginnings of a text and of what may follow them.

use super::{any_tree, bytes, full_tree, limit_tree, long_tree, longest_transaction, outputs, written, Tally};
use kuspigo::ffi::Written;
use kuspigo::{raw, LONGEST_JOB, LONGEST_TEXT};
use plain::samples::Rng;
use plain::texts::{nested, Hand, Typed};
use plain::tree::Process;

/// So many texts are read in a case: one, and others that are made of it.
const TEXTS: usize = 15;
/// Brackets, forks, atomics and writes together.
const MOST_OPEN: usize = 64;
const NO_SCRIPT: usize = 15;

pub const REACHES: [&str; 20] = [
    "accepted",
    "refused 04",
    "refused 07",
    "refused 08",
    "refused 10",
    "refused 14",
    "refused 15",
    "15: at the end",
    "15: 32,769 bytes",
    "15: 32,768 bytes, at the end",
    "taken: 32,768 bytes",
    "typed: 1,000 nodes",
    "typed: depth 64",
    "typed: 15 FORKs",
    "typed: 200 nodes in a transaction",
    "nested: 64 open",
    "nested: 65 open, 15",
    "number: at the end of its range",
    "number: one above it, 15",
    "terms: more than 500",
];

/// The library beside the plain implementation, on a text and others that are made of it.
pub fn formula(rng: &mut Rng, tally: &mut Tally) -> Result<(), String> {
    let text = any_text(rng, tally)?;
    read(rng, tally, &text)?;
    for _ in 1..TEXTS {
        let mut text = text.clone();
        for _ in 0..rng.between(1, 2) {
            match rng.one_in(3) {
                true => harmless(rng, &mut text),
                false => damage(rng, &mut text),
            }
        }
        read(rng, tally, &text)?;
    }
    Ok(())
}

fn read(rng: &mut Rng, tally: &mut Tally, text: &[u8]) -> Result<(), String> {
    let answer = outputs(
        rng,
        text,
        &[
            ("plain", &|text, out| written(plain::formula(text, out))),
            ("library", &|text, out| raw::formula(text, out)),
        ],
    )
    .map_err(|difference| format!("{difference}\ntext {:?}", String::from_utf8_lossy(text)))?;
    tally.refusal(answer.refusal);
    if answer.refusal == NO_SCRIPT {
        tally.add_if(answer.place == text.len(), "15: at the end");
        tally.add_if(text.len() == LONGEST_TEXT && answer.place == LONGEST_TEXT, "15: 32,768 bytes, at the end");
        tally.add_if(text.len() == LONGEST_TEXT + 1, "15: 32,769 bytes");
    }
    tally.add_if(answer.refusal == 0 && text.len() == LONGEST_TEXT, "taken: 32,768 bytes");
    Ok(())
}

/// The library's answer and what it wrote.
fn answer(text: &[u8]) -> (Written, Vec<u8>) {
    let mut out = vec![0; LONGEST_JOB];
    let answer = raw::formula(text, &mut out);
    out.truncate(answer.length);
    (answer, out)
}

fn any_text(rng: &mut Rng, tally: &mut Tally) -> Result<Vec<u8>, String> {
    match rng.below(40) {
        0..=12 => {
            let tree = any_tree(rng);
            typed(rng, tally, &tree)
        }
        13..=17 => {
            let tree = limit_tree(rng);
            typed(rng, tally, &tree)
        }
        18 => {
            let tree = if rng.one_in(2) { full_tree(rng) } else { long_tree(rng) };
            typed(rng, tally, &tree)
        }
        19..=25 => {
            let open = rng.between(58, 68);
            let text = nested(rng, open);
            let refused = answer(&text).0.refusal == NO_SCRIPT;
            if refused != (open > MOST_OPEN) {
                return Err(format!("{open} open: {:?}", String::from_utf8_lossy(&text)));
            }
            tally.add_if(open == MOST_OPEN, "nested: 64 open");
            tally.add_if(open == MOST_OPEN + 1, "nested: 65 open, 15");
            Ok(text)
        }
        26..=27 => Ok(terms(rng, tally)),
        28..=31 => around_a_range(rng, tally),
        32..=33 => Ok((0..rng.below(40)).map(|_| letter(rng)).collect()),
        34..=35 => Ok((0..rng.below(20)).flat_map(|_| lexeme(rng)).copied().collect()),
        36..=38 => Ok(grown(rng)),
        _ if rng.one_in(4) => Ok(around_the_longest(rng)),
        _ => {
            let count = rng.below(20);
            Ok(bytes(rng, count))
        }
    }
}

/// A tree's formula: the tree's job comes of it, or the job's refusal.
fn typed(rng: &mut Rng, tally: &mut Tally, tree: &Process) -> Result<Vec<u8>, String> {
    let hand = Hand {
        blanks: rng.choose(&[0, 2, 5]),
        brackets: rng.choose(&[0, 0, 3, 8, 20]),
        zeros: rng.choose(&[0, 0, 4, 20]),
    };
    let Typed { text, open } = hand.typed(rng, tree);
    let (job, code) = (tree.job(), tree.code());
    let (answer, left) = answer(&text);
    let registers = super::instructions(&code).iter().all(|&at| !matches!(code[at..], [3 | 4, 64..=255, ..]));
    let expected = match plain::compile(&job, &mut [0; 3_100]) {
        _ if open > MOST_OPEN || text.len() > LONGEST_TEXT || !registers => (NO_SCRIPT, answer.place, vec![]),
        Ok(_) => (0, 0, job),
        Err(refusal) => (refusal.number().into(), refusal.place, vec![]),
    };
    if (answer.refusal, answer.place, left) != expected {
        return Err(format!("{answer:?}, and not {expected:?}: {:?}", String::from_utf8_lossy(&text)));
    }
    if answer.refusal == 0 {
        tally.add_if(tree.nodes() == 1_000, "typed: 1,000 nodes");
        tally.add_if(tree.depth() == 64, "typed: depth 64");
        tally.add_if(tree.forks() == 15, "typed: 15 FORKs");
        tally.add_if(longest_transaction(&code) == 200, "typed: 200 nodes in a transaction");
    }
    tally.add_if(open == MOST_OPEN && answer.refusal != NO_SCRIPT, "typed: 64 open");
    tally.add_if(open == MOST_OPEN + 1, "typed: 65 open, 15");
    Ok(text)
}

/// Terms joined by `+`, as a process or in a transaction.
fn terms(rng: &mut Rng, tally: &mut Tally) -> Vec<u8> {
    let count = match rng.below(4) {
        0 => rng.between(1, 70),
        1 => rng.between(98, 103),
        2 => rng.between(498, 503),
        _ => rng.between(1, 700),
    };
    tally.add_if(count > 500, "terms: more than 500");
    let inside = rng.one_in(3);
    let one = rng.one_in(2);
    let terms: Vec<&str> = (0..count)
        .map(|_| match inside {
            _ if one => "1",
            true => rng.choose(&["1", "-2 ", " r3", "(r4 := 5)", "(6 + r7)"]),
            false => rng.choose(&["1", "-2 ", " 3", "(4)", "fork 5", "atomic(r6)", "(7 + 8)"]),
        })
        .collect();
    let text = terms.join("+");
    match inside {
        true => format!("atomic({text})").into_bytes(),
        false => text.into_bytes(),
    }
}

/// A number or a register at an end of its range, or about there. One above it is no script, and all others are.
fn around_a_range(rng: &mut Rng, tally: &mut Tally) -> Result<Vec<u8>, String> {
    let zeros = "0".repeat(rng.choose(&[0, 0, 1, 2, 9, 30]));
    let (before, most, behind): (&str, u128, &str) = rng.choose(&[
        ("", 2_147_483_647, ""),
        ("-", 2_147_483_648, ""),
        ("1 + ", 2_147_483_647, "+1"),
        ("fork -", 2_147_483_648, "\n"),
        ("atomic(", 2_147_483_647, ")"),
        ("atomic(r1 + -", 2_147_483_648, "+r1)"),
        ("atomic(r5 := (-", 2_147_483_648, "))"),
        ("atomic(r", 63, ")"),
        ("atomic(r", 63, " := 1)"),
        ("atomic(1 + r", 63, "+1)"),
        ("atomic(r1 := r", 63, ":= r2)"),
        ("atomic((r", 63, "))"),
    ]);
    let n = match rng.below(8) {
        0 => most - 1,
        1 | 2 => most,
        3 | 4 => most + 1,
        5 => rng.below(100) as u128,
        6 => (most + 1) * [2, 10, 1 << 32, 1 << 33][rng.below(4)] + rng.below(3) as u128,
        _ => rng.draw().into(),
    };
    let text = format!("{before}{zeros}{n}{behind}");
    let answer = answer(text.as_bytes()).0;
    if (answer.refusal == 0) != (n <= most) || (answer.refusal != 0 && answer.refusal != NO_SCRIPT) {
        return Err(format!("{answer:?}: {text:?}"));
    }
    // the digit with which it is above the range
    if n > most {
        let digits = n.to_string();
        let above = (1..=digits.len()).find(|&count| digits[..count].parse::<u128>().unwrap() > most).unwrap();
        if answer.place != before.len() + zeros.len() + above - 1 {
            return Err(format!("{answer:?}: {text:?}"));
        }
    }
    tally.add_if(n == most, "number: at the end of its range");
    tally.add_if(n == most + 1, "number: one above it, 15");
    Ok(text.into_bytes())
}

/// A text of nearly as many bytes as one may have, or a few more.
fn around_the_longest(rng: &mut Rng) -> Vec<u8> {
    let length = LONGEST_TEXT - 2 + rng.choose(&[0, 1, 2, 2, 2, 3, 3, 5]);
    match rng.below(5) {
        0 => b"1+".iter().copied().cycle().take(length).collect(),
        1 => {
            let open = rng.between(1, 64);
            let part = [nested(rng, open), b"+".to_vec()].concat();
            part.iter().copied().cycle().take(length).collect()
        }
        2 => [vec![b'0'; length - 1], b"7".to_vec()].concat(),
        _ => {
            // blanks around a formula
            let tree = any_tree(rng);
            let Typed { text, .. } = Hand { blanks: 4, brackets: 0, zeros: 0 }.typed(rng, &tree);
            let count = length.saturating_sub(text.len());
            let before = rng.choose(&[0, count / 2, count]);
            let mut blanks: Vec<u8> = (0..count).map(|_| rng.choose(b" \n\r")).collect();
            let behind = blanks.split_off(before);
            [blanks, text, behind].concat()
        }
    }
}

/// Lexemes one behind the other, each one that a script may have there.
fn grown(rng: &mut Rng) -> Vec<u8> {
    let mut text = Vec::new();
    for _ in 0..rng.between(4, 60) {
        let before = text.len();
        text.extend(lexeme(rng));
        if matches!(plain::formula(&text, &mut []), Err(refusal) if refusal.number() == 15 && refusal.place < text.len())
        {
            text.truncate(before);
        }
    }
    text
}

fn lexeme(rng: &mut Rng) -> &'static [u8] {
    const LEXEMES: [&[u8]; 24] = [
        b"0",
        b"7",
        b"-1",
        b"2147483647",
        b"-2147483648",
        b"r0",
        b"r5",
        b"r63",
        b"(",
        b"(",
        b"(",
        b")",
        b")",
        b"+",
        b"+",
        b"fork",
        b"fork ",
        b"atomic",
        b"atomic(",
        b":=",
        b":=",
        b" ",
        b"\n",
        b"\r",
    ];
    rng.choose(&LEXEMES)
}

/// A byte that stands in formulas, or nearly.
fn letter(rng: &mut Rng) -> u8 {
    rng.choose(b"0123456789--++++(((())))forkatomicr:=r:= \n\r\tFRx*;,")
}

/// One more blank or zero, or another digit: often a script stays one.
fn harmless(rng: &mut Rng, text: &mut Vec<u8>) {
    let at = rng.below(text.len() + 1);
    match text.get_mut(at) {
        Some(digit @ b'0'..=b'9') if rng.one_in(2) => *digit = b'0' + rng.below(10) as u8,
        Some(b'1'..=b'9') if rng.one_in(2) => text.insert(at, b'0'),
        _ => text.insert(at, rng.choose(b" \n\r")),
    }
}

/// Changes a byte or a few.
fn damage(rng: &mut Rng, text: &mut Vec<u8>) {
    if text.is_empty() {
        text.push(letter(rng));
        return;
    }
    let at = rng.below(text.len());
    match rng.below(11) {
        0 | 1 => text[at] = letter(rng),
        2 => text[at] = rng.byte(),
        3 | 4 => text.insert(at, letter(rng)),
        5 => {
            text.remove(at);
        }
        6 => text.truncate(at),
        7 => text.truncate(text.len().saturating_sub(rng.between(1, 6))),
        8 => {
            let lexeme = lexeme(rng);
            text.splice(at..at, lexeme.iter().copied());
        }
        9 => text.extend(lexeme(rng)),
        _ => {
            let end = (at + rng.between(1, 12)).min(text.len());
            let again = text[at..end].to_vec();
            let to = rng.below(text.len());
            text.splice(to..to, again);
        }
    }
}

pub const BEGUN: [&str; 9] = [
    "accepted",
    "refused 15",
    "15: at the end, and it goes on",
    "15: within, and what is before it goes on",
    "goes on: as it is",
    "goes on: in a word",
    "goes on: with `=`",
    "goes on: with a bracket",
    "goes on: with a number",
];

/// How a beginning may go on, up to the brackets that are open.
const ENDINGS: [(&str, &str); 12] = [
    ("", "as it is"),
    ("0", "with a number"),
    ("(0", "with a bracket"),
    ("=0", "with `=`"),
    ("ork0", "in a word"),
    ("rk0", "in a word"),
    ("k0", "in a word"),
    ("tomic(0", "in a word"),
    ("omic(0", "in a word"),
    ("mic(0", "in a word"),
    ("ic(0", "in a word"),
    ("c(0", "in a word"),
];

/// The library alone: a text that is taken makes a job that is taken. What stands before the place of 15 goes on to a
/// script, and what stands up to it does not; and of each beginning the library says the same.
pub fn begun(rng: &mut Rng, tally: &mut Tally) -> Result<(), String> {
    let mut text = any_text(rng, tally)?;
    for _ in 0..rng.below(3) {
        damage(rng, &mut text);
    }
    let (told, job) = answer(&text);
    let wrong = |what: &str| Err(format!("{what}: {told:?}: {:?}", String::from_utf8_lossy(&text)));
    tally.refusal(told.refusal);
    if told.refusal == 0 && raw::forecast(&job).refusal != 0 {
        return wrong("its job is refused");
    }
    if text.len() > LONGEST_TEXT {
        return if (told.refusal, told.place) == (NO_SCRIPT, LONGEST_TEXT) { Ok(()) } else { wrong("it is too long") };
    }
    // the bytes that some script begins with
    let good = if told.refusal == NO_SCRIPT { told.place } else { text.len() };
    for _ in 0..3 {
        let length = rng.below(text.len() + 1);
        let (part, _) = answer(&text[..length]);
        let place = if part.refusal == NO_SCRIPT { part.place } else { length };
        if place != length.min(good) {
            return wrong(&format!("its first {length} bytes {part:?}"));
        }
    }
    if told.refusal != NO_SCRIPT {
        return Ok(());
    }
    let beginning = &text[..good];
    let ending = ENDINGS.iter().find(|(ending, _)| {
        let begun = [beginning, ending.as_bytes()].concat();
        let count = |bracket| begun.iter().filter(|&&byte| byte == bracket).count();
        let open = count(b'(').saturating_sub(count(b')'));
        let whole = [&begun[..], &b")".repeat(open)].concat();
        whole.len() > LONGEST_TEXT || answer(&whole).0.refusal != NO_SCRIPT
    });
    match ending {
        Some((_, how)) => tally.add(&format!("goes on: {how}"), 1),
        None => return wrong("its beginning does not go on"),
    }
    if good == text.len() {
        tally.add("15: at the end, and it goes on", 1);
        return Ok(());
    }
    tally.add("15: within, and what is before it goes on", 1);
    for _ in 0..3 {
        let ending = match rng.below(3) {
            0 => (0..rng.below(5)).map(|_| letter(rng)).collect(),
            1 => lexeme(rng).to_vec(),
            _ => rng.choose(&ENDINGS).0.as_bytes().to_vec(),
        };
        let other = [&text[..=good], &ending].concat();
        if other.len() <= LONGEST_TEXT && answer(&other).0 != told {
            return wrong(&format!("with other bytes {:?}", String::from_utf8_lossy(&other)));
        }
    }
    Ok(())
}
