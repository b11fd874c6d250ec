//! What is told of a formula that is refused: its line, the place in it, and what could stand there.

use crate::formula;
use kuspigo::{Reason, Refusal, LONGEST_TEXT};

/// All that is told behind the refusal.
pub fn told(text: &[u8], refusal: Refusal) -> String {
    match refusal.reason {
        Reason::NotAScript => no_script(text, refusal.place),
        Reason::Count | Reason::Depth | Reason::Forks | Reason::LongTransaction => no_job(text, refusal),
        _ => String::new(),
    }
}

/// Of a text that is no script.
fn no_script(text: &[u8], at: usize) -> String {
    let spot = Spot::of(text, at);
    let mut sentences = vec![match text.get(at) {
        Some(_) => format!("Line {}, column {} has {}.", spot.line, spot.column, name(&text[at..])),
        None => format!("It ends at line {}, column {}.", spot.line, spot.column),
    }];
    if text.len() > LONGEST_TEXT {
        sentences.push("The text is longer than 32,768 bytes, the most that a script has.".to_string());
    } else if at == LONGEST_TEXT {
        sentences.push("The text has 32,768 bytes, the most that a script has.".to_string());
    } else {
        let due = Due::behind(&text[..at]);
        sentences.extend(because(text, at, &due));
        sentences.push(format!("There could stand {}.", alternatives(&due.names(&text[..at]))));
    }
    sentences.join("\n") + "\n" + &marked(text, &spot)
}

/// Of a script whose job is refused: the node at the place in that job.
fn no_job(text: &[u8], refusal: Refusal) -> String {
    let place = format!("The offset {} is one in the job that the formula would make.\n", refusal.place);
    let Some(parts) = formula::parts(text) else {
        return place;
    };
    if refusal.reason == Reason::Count {
        return format!("{place}As the viewer reads the formula, that job would have {} nodes.\n", parts.len());
    }
    let Some(number) = formula::part_at(&parts, refusal.place) else {
        return place;
    };
    let part = &parts[number];
    let spot = Spot::of(text, part.start);
    let more = match refusal.reason {
        Reason::LongTransaction => format!("It has {} nodes.\n", formula::inside(&parts, number)),
        Reason::Depth => "`a + b + c` is `(a + b) + c`: each `+` puts all before it one level deeper.\n".to_string(),
        _ => String::new(),
    };
    let it = short(&text[part.start..part.end]);
    let [line, column] = [spot.line, spot.column];
    format!(
        "{place}As the viewer reads the formula, it is `{it}` at line {line}, column {column}.\n{more}{}",
        marked(text, &spot)
    )
}

/// Whether some script begins with this text and then this byte; one does with the text alone.
pub fn fits(text: &[u8], byte: u8) -> bool {
    match kuspigo::formula(&[text, &[byte]].concat()) {
        Err(Refusal { reason: Reason::NotAScript, place }) => place > text.len(),
        _ => true,
    }
}

/// What may stand behind a text with which some script begins.
struct Due {
    /// A term, which alone may begin with a minus.
    term: bool,
    /// Those of these signs that fit.
    signs: Vec<u8>,
    /// The digits that fit.
    digits: Vec<u8>,
    end: bool,
}

/// The first bytes of everything that is no number, and the letters of words.
const SIGNS: &[u8] = b"(fark:=+)otmic";
const WORDS: [&str; 2] = ["fork", "atomic"];

impl Due {
    fn behind(text: &[u8]) -> Due {
        let fit = |bytes: &[u8]| bytes.iter().copied().filter(|&byte| fits(text, byte)).collect();
        Due {
            term: fits(text, b'-'),
            signs: fit(SIGNS),
            digits: fit(b"0123456789"),
            end: !matches!(kuspigo::formula(text), Err(Refusal { reason: Reason::NotAScript, .. })),
        }
    }

    fn has(&self, sign: u8) -> bool {
        self.signs.contains(&sign)
    }

    /// Whether a term of a transaction is due: a register may stand there.
    fn in_transaction(&self) -> bool {
        self.term && self.has(b'r')
    }

    fn names(&self, text: &[u8]) -> Vec<String> {
        let signs = |names: &[(u8, &str)]| -> Vec<String> {
            names.iter().filter(|(sign, _)| self.has(*sign)).map(|(_, name)| name.to_string()).collect()
        };
        if self.term {
            let rest = signs(&[(b'r', "a register"), (b'(', "`(`"), (b'f', "`fork`"), (b'a', "`atomic`")]);
            return [vec!["a number".to_string()], rest].concat();
        }
        let digits = match self.digits[..] {
            [] => vec![],
            [.., b'9'] => vec!["a digit".to_string()],
            [.., most] => vec![format!("a digit up to {}", char::from(most))],
        };
        let rest = WORDS.iter().filter_map(|word| {
            let read = (1..word.len()).rev().find(|&read| text.ends_with(&word.as_bytes()[..read]))?;
            let rest = self.has(word.as_bytes()[read]).then_some(&word[read..])?;
            Some(format!("`{rest}`, the rest of `{word}`"))
        });
        let signs = signs(&[(b':', "`:=`"), (b'=', "`=`"), (b'(', "`(`"), (b'+', "`+`"), (b')', "`)`")]);
        let end = self.end.then(|| "the end".to_string());
        digits.into_iter().chain(rest).chain(signs).chain(end).collect()
    }
}

/// The reasons that can be seen from the byte at a place and what stands before it.
fn because(text: &[u8], at: usize, due: &Due) -> Vec<String> {
    let mut reasons = Vec::new();
    let byte = text.get(at).copied().unwrap_or(0);
    if let Some(range) = out_of_range(text, at) {
        reasons.push(range);
    }
    let first = first_register(&text[..at]);
    let opens = byte == b'(' || matches!(byte, b'f' | b'a') && !due.in_transaction();
    if opens && due.term && !due.has(b'(') || byte == b':' && first == Some(true) {
        reasons.push("64 brackets, forks, atomics and writes are open, and no more may be.".to_string());
    } else if byte == b'a' && due.term && !due.in_transaction() {
        reasons.push("63 brackets and forks are open, 64 may be, and an atomic with its bracket is two.".to_string());
    }
    let hint = match byte {
        b'W' if at == 0 && text.starts_with(b"WSJ") => {
            "It begins with WSJ, the mark of a job: try kuspigo show --formula."
        }
        b'W' if at == 0 && text.starts_with(b"WSC") => {
            "It begins with WSC, the mark of code: try kuspigo show --formula."
        }
        0xEF if at == 0 && text.starts_with(b"\xEF\xBB\xBF") => {
            "This is a byte order mark; the text has to be saved without it."
        }
        b':' if first == Some(false) => "Only the first register is written: behind `+` a write stands in brackets.",
        b'-' if due.has(b'+') => "A number is taken off by adding its negative: `+ -1`.",
        b'=' if due.has(b':') => "A write has `:=`.",
        b'r' if due.term && !due.in_transaction() => "Registers stand inside `atomic( )`.",
        b'f' | b'a' if due.in_transaction() => "`fork` and `atomic` do not stand inside `atomic( )`.",
        b'A'..=b'Z' => "Words and registers have small letters.",
        b'[' | b']' | b'{' | b'}' => "Brackets are round.",
        b'\t' => "Blanks, carriage returns and ends of lines may stand between words, a tab may not.",
        b' ' | b'\n' | b'\r' => "No blank stands inside a word, a number, a register or `:=`.",
        _ => "",
    };
    if !hint.is_empty() {
        reasons.push(hint.to_string());
    }
    reasons
}

/// How many digits come first.
fn digits<'a>(bytes: impl Iterator<Item = &'a u8>) -> usize {
    bytes.take_while(|byte| byte.is_ascii_digit()).count()
}

/// What a digit that does not fit behind digits makes of a number or a register.
fn out_of_range(text: &[u8], at: usize) -> Option<String> {
    let before = digits(text[..at].iter().rev());
    let behind = digits(text[at..].iter());
    if before == 0 || behind == 0 {
        return None;
    }
    let start = at - before;
    let number = short(&text[start..at + behind]);
    Some(match text[..start].last() {
        Some(b'r') => format!("Registers are r0 to r63; this one is r{number}."),
        Some(b'-') => format!("-{number} is below -2147483648."),
        _ => format!("{number} is above 2147483647."),
    })
}

/// Whether the register at the end of a text is the first term of a transaction; none if no register is there.
fn first_register(text: &[u8]) -> Option<bool> {
    let text = text.trim_ascii_end();
    let digits = digits(text.iter().rev());
    let before = text[..text.len() - digits].strip_suffix(b"r").filter(|_| digits > 0)?;
    Some(matches!(before.trim_ascii_end().last(), Some(b'(' | b'=')))
}

/// What a text begins with.
fn name(text: &[u8]) -> String {
    match text[0] {
        b' ' => "a blank".to_string(),
        b'\n' => "the end of the line".to_string(),
        b'\r' => "a carriage return".to_string(),
        b'\t' => "a tab".to_string(),
        byte @ b'!'..=b'~' => format!("`{}`", char::from(byte)),
        byte => match character(text) {
            Some(character) => {
                let mut bytes = [0; 4];
                let hex: Vec<String> =
                    character.encode_utf8(&mut bytes).bytes().map(|byte| format!("{byte:02X}")).collect();
                format!("`{character}`, in hex {}", hex.join(" "))
            }
            None => format!("a byte that is in hex {byte:02X}"),
        },
    }
}

/// The character with which a text begins, if it is one that can be seen.
fn character(text: &[u8]) -> Option<char> {
    let unseen =
        |c| matches!(c, '\u{200B}'..='\u{200F}' | '\u{2028}'..='\u{202E}' | '\u{2060}'..='\u{206F}' | '\u{FEFF}');
    let first = text.utf8_chunks().next()?.valid().chars().next()?;
    (!first.is_control() && !unseen(first)).then_some(first)
}

/// Names in a row, the last one behind `or`.
fn alternatives(names: &[String]) -> String {
    match names {
        [] => "nothing".to_string(),
        [name] => name.clone(),
        [names @ .., last] => format!("{} or {last}", names.join(", ")),
    }
}

/// So many columns of a text are shown.
const SHOWN_COLUMNS: usize = 72;
/// If a line is longer, so many of them before the place.
const COLUMNS_BEFORE: usize = 44;
const CUT: &str = "...";

/// A piece of a script is cut behind so many.
const SHORT: usize = 40;

/// A piece of a script in one line, cut if it is long.
fn short(text: &[u8]) -> String {
    let words: Vec<String> =
        text.split(|byte| byte.is_ascii_whitespace()).filter(|word| !word.is_empty()).map(shown).collect();
    let line = words.join(" ");
    match line.len() > SHORT {
        true => format!("{}{CUT}", &line[..SHORT]),
        false => line,
    }
}

/// A place in a text: its line and column, counted from 1 by the bytes 10 before it, and where that line starts and ends.
struct Spot {
    at: usize,
    line: usize,
    column: usize,
    start: usize,
    end: usize,
}

impl Spot {
    fn of(text: &[u8], at: usize) -> Spot {
        let (before, behind) = text.split_at(at);
        let start = before.iter().rposition(|&byte| byte == b'\n').map_or(0, |end| end + 1);
        let end = behind.iter().position(|&byte| byte == b'\n').map_or(text.len(), |end| at + end);
        let line = 1 + before.iter().filter(|&&byte| byte == b'\n').count();
        Spot { at, line, column: at - start + 1, start, end }
    }

    /// Its line as it is shown, and in which column of that it is.
    fn shown(&self, text: &[u8]) -> (String, usize) {
        let (line, column) = excerpt(&text[self.start..self.end], self.at - self.start);
        let number = format!("{:6}  ", self.line);
        (format!("{}\n", format!("{number}{line}").trim_end()), number.len() + column)
    }
}

/// The line of a place, the place marked. If it is blank up to the place, the last line before it that is not comes first.
fn marked(text: &[u8], spot: &Spot) -> String {
    let mut lines = "\n  line  text\n".to_string();
    let before = text[..spot.at].trim_ascii_end();
    if before.len() < spot.start && !before.is_empty() {
        lines += &Spot::of(text, before.len()).shown(text).0;
    }
    let (line, column) = spot.shown(text);
    lines + &format!("{line}{:column$}^ {}\n", "", spot.at)
}

/// A line, cut around a place if it is long, and the column of that place.
fn excerpt(line: &[u8], at: usize) -> (String, usize) {
    let width = |bytes: &[u8]| bytes.iter().map(|&byte| cell(byte).len()).sum::<usize>();
    if width(line) <= SHOWN_COLUMNS {
        return (shown(line), width(&line[..at]));
    }
    let most = SHOWN_COLUMNS - 2 * CUT.len();
    let (mut from, mut to) = (at, at);
    while from > 0 && width(&line[from - 1..to]) <= COLUMNS_BEFORE {
        from -= 1;
    }
    while to < line.len() && width(&line[from..to + 1]) <= most {
        to += 1;
    }
    while from > 0 && width(&line[from - 1..to]) <= most {
        from -= 1;
    }
    let [front, back] = [from > 0, to < line.len()].map(|cut| if cut { CUT } else { "" });
    (format!("{front}{}{back}", shown(&line[from..to])), front.len() + width(&line[from..at]))
}

fn shown(bytes: &[u8]) -> String {
    bytes.iter().map(|&byte| cell(byte)).collect()
}

/// A byte in visible ASCII.
fn cell(byte: u8) -> String {
    match byte {
        b'\r' => "\\r".to_string(),
        b'\t' => "\\t".to_string(),
        b'\\' => "\\\\".to_string(),
        b' '..=b'~' => char::from(byte).to_string(),
        _ => format!("\\x{byte:02X}"),
    }
}
