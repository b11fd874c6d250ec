//! Pictures, as XML and beside the counts of their runs.

use crate::support::{accepted, damaged, example, folder, got, put, random_tree, refused, said, KIND};
use kuspigo::{Counts, Event, State};
use plain::samples::{sum, Rng};
use plain::tree::{Process, Transaction};
use std::ffi::OsStr;
use std::path::Path;

/// An element's name, and its attributes with their values.
type Element = (String, Vec<(String, String)>);

/// The elements of an XML text, with their attributes, if it is well formed: one root, each start tag with its end tag,
/// attributes once and quoted, no bare `<` or `&`, and no character that XML does not have.
fn elements(text: &str) -> Result<Vec<Element>, String> {
    let permitted =
        |c: char| matches!(c, '\t' | '\n' | '\r' | ' '..='\u{D7FF}' | '\u{E000}'..='\u{FFFD}' | '\u{10000}'..);
    if let Some(c) = text.chars().find(|&c| !permitted(c)) {
        return Err(format!("the character {c:?}"));
    }
    let character_data = |text: &str| -> Result<(), String> {
        for (at, _) in text.match_indices('&') {
            let known = ["&amp;", "&lt;", "&gt;", "&quot;"];
            if !known.iter().any(|entity| text[at..].starts_with(entity)) {
                return Err(format!("a bare & in {text}"));
            }
        }
        if text.contains("]]>") {
            return Err(format!("]]> in {text}"));
        }
        Ok(())
    };
    let is_name = |name: &str| {
        let mut letters = name.chars();
        letters.next().is_some_and(|c| c.is_ascii_alphabetic())
            && letters.all(|c| c.is_ascii_alphanumeric() || c == '-' || c == ':')
    };
    let mut found = Vec::new();
    let mut open: Vec<String> = Vec::new();
    let mut rest = text;
    while let Some((before, tag)) = rest.split_once('<') {
        character_data(before)?;
        if open.is_empty() && !before.trim().is_empty() {
            return Err(format!("text outside the root: {before}"));
        }
        let (tag, behind) = tag.split_once('>').ok_or("a tag without its end")?;
        rest = behind;
        if let Some(name) = tag.strip_prefix('/') {
            if open.pop().as_deref() != Some(name) {
                return Err(format!("the end tag {name}"));
            }
            continue;
        }
        if open.is_empty() && !found.is_empty() {
            return Err("a second root".to_string());
        }
        let (tag, empty) = tag.strip_suffix('/').map_or((tag, false), |tag| (tag, true));
        let (name, mut list) = tag.split_once(' ').unwrap_or((tag, ""));
        if !is_name(name) {
            return Err(format!("the tag {tag}"));
        }
        let mut attributes: Vec<(String, String)> = Vec::new();
        while !list.is_empty() {
            let (key, value) = list.split_once("=\"").ok_or(format!("the attributes {list}"))?;
            let (value, more) = value.split_once('"').ok_or(format!("the attributes {list}"))?;
            character_data(value)?;
            if !is_name(key) || attributes.iter().any(|(name, _)| name == key) {
                return Err(format!("the attribute {key}"));
            }
            attributes.push((key.to_string(), value.to_string()));
            list = match more.strip_prefix(' ') {
                Some(more) => more,
                None if more.is_empty() => more,
                None => return Err(format!("the attributes {list}")),
            };
        }
        found.push((name.to_string(), attributes));
        if !empty {
            open.push(name.to_string());
        }
    }
    match open.is_empty() && rest.trim().is_empty() && !found.is_empty() {
        true => Ok(found),
        false => Err("no end".to_string()),
    }
}

#[test]
fn what_is_not_well_formed_is_found() {
    assert!(elements("<a x=\"1\" y=\"2\"><b/>text &amp; more</a>\n").is_ok());
    let damaged =
        "|text|<a>|<a></b>|<a/><b/>|<a x=1/>|<a x=\"1\" x=\"2\"/>|<a>&</a>|<a>&nbsp;</a>|<a x=\"&\"/>|<a><b></a></b>|\
        <a/>text|<a>\u{1}</a>|<a x=\"1\"y=\"2\"/>|<a>1 < 2</a>|<1/>|<a>\u{FFFE}</a>|<a>]]></a>";
    for text in damaged.split('|') {
        assert!(elements(text).is_err(), "{text}");
    }
}

fn svg(folder: &Path, arguments: &[&str]) -> (String, Vec<Element>) {
    assert_eq!(said(folder, &[&["picture"], arguments, &["-o", "x.svg"]].concat()), accepted(""));
    let text = String::from_utf8(got(folder, "x.svg")).expect("a picture is UTF-8");
    let elements = elements(&text).unwrap_or_else(|why| panic!("{arguments:?}: {why}"));
    (text, elements)
}

/// An attribute's value.
fn value<'a>((_, attributes): &'a Element, key: &str) -> &'a str {
    attributes.iter().find(|(name, _)| name == key).map_or("", |(_, value)| value)
}

fn number(element: &Element, key: &str) -> f64 {
    value(element, key).parse().expect("a number")
}

/// The elements that have the class.
fn of_class<'a>(elements: &'a [Element], class: &'a str) -> impl Iterator<Item = &'a Element> {
    elements.iter().filter(move |element| value(element, "class").split(' ').any(|word| word == class))
}

/// How many elements have the class.
fn classed(elements: &[Element], class: &str) -> usize {
    of_class(elements, class).count()
}

/// The numbers of a path.
fn path(element: &Element) -> Vec<f64> {
    let numbers = value(element, "d").split(|c: char| c.is_ascii_alphabetic() || c == ' ');
    numbers.filter(|text| !text.is_empty()).map(|text| text.parse().expect("a number")).collect()
}

/// What stands in a line of text.
fn content(line: &str) -> &str {
    line.strip_suffix("</text>").and_then(|line| line.rsplit_once('>')).expect("it has text").1
}

/// Numbers have one digit behind the point.
fn near(a: f64, b: f64) -> bool {
    (a - b).abs() < 0.11
}

/// Each pick stands in its thread's lane, one column behind the pick before it; a bar reaches from its BEGIN's column to its
/// COMMIT's, or to the end; marks, arrows and labels are at their picks. The states are the plain implementation's.
fn marks_are_at_their_picks(text: &str, elements: &[Element], code: &[u8], picks: &[u8]) {
    let hits: Vec<[f64; 2]> = of_class(elements, "hit")
        .map(|hit| [number(hit, "x") + number(hit, "width") / 2.0, number(hit, "y") + number(hit, "height") / 2.0])
        .collect();
    let column = match hits[..] {
        [[first, _], .., [last, _]] => (last - first) / (hits.len() - 1) as f64,
        _ => return,
    };
    let names: Vec<(&str, f64)> = text
        .lines()
        .filter(|line| line.ends_with("</text>") && line.contains(" text-anchor=\"end\">") && !line.contains("class"))
        .map(|line| {
            let y = line.split_once(" y=\"").and_then(|(_, rest)| rest.split_once('"')).expect("it has a place").0;
            (content(line), y.parse::<f64>().expect("a number") - 4.0)
        })
        .collect();
    let lane = |name: &str| names.iter().find(|(other, _)| *other == name).expect("the lane has its name").1;
    // the first of each is the legend's
    let mut bars = ["done", "lost", "open"].map(|class| of_class(elements, class).skip(1));
    let mut diamonds = of_class(elements, "commit").skip(1);
    let mut crosses = of_class(elements, "cross").skip(1);
    let mut arrows = of_class(elements, "arrow");
    let mut forks = of_class(elements, "fork").skip(1);
    let mut labels = text.lines().filter(|line| line.starts_with("<text class=\"small back\"")).map(content);
    let mut bar = |kind: usize, y: f64, from: usize, to: Option<usize>| {
        let bar = bars[kind].next().expect("there is a bar");
        let (left, right) = (number(bar, "x"), number(bar, "x") + number(bar, "width"));
        assert!(near(number(bar, "y") + 6.0, y), "{bar:?}");
        let begin = hits[from][0];
        assert!(left < begin && left > begin - column / 2.0 - 0.11, "{bar:?}");
        match to.map(|to| hits[to][0]) {
            Some(commit) => assert!(right > commit && right < commit + column / 2.0 + 0.21, "{bar:?}"),
            None => assert!((right - hits[hits.len() - 1][0] - column / 2.0).abs() < 0.21, "{bar:?}"),
        }
    };
    let mut state = State::fresh(code).unwrap();
    let mut began = [0; 16];
    let mut threads = 1;
    for (at, &thread) in picks.iter().enumerate() {
        let [x, y] = hits[at];
        assert!(near(x, hits[0][0] + column * at as f64), "pick {}", at + 1);
        let before = state.clone();
        let step = plain::step(code, &mut state.registers, &mut state.counts, &mut state.threads, thread).unwrap();
        let name = if step.event == Event::Idle { "idle".to_string() } else { format!("thread {thread}") };
        assert!(near(y, lane(&name)), "pick {}", at + 1);
        let index = usize::from(thread);
        match step.event {
            Event::Begin => began[index] = at,
            Event::Fork => {
                let line = forks.next().expect("there is a line");
                let [x1, x2, y1, y2] = ["x1", "x2", "y1", "y2"].map(|key| number(line, key));
                let child = lane(&format!("thread {threads}"));
                assert!(near(x1, x) && near(x2, x) && near(y1, y) && near(y2, child), "{line:?}");
                threads += 1;
            }
            Event::Commit => {
                bar(0, y, began[index], Some(at));
                let diamond = path(diamonds.next().expect("there is a mark"));
                assert!(near(diamond[0], x) && near(diamond[1] + 6.5, y), "pick {}", at + 1);
            }
            Event::SentBack => {
                bar(1, y, began[index], Some(at));
                let cross = path(crosses.next().expect("there is a mark"));
                assert!(near(cross[0] + 3.5, x) && near(cross[1] + 3.5, y), "pick {}", at + 1);
                // from the COMMIT up, to the left, and down to the BEGIN
                let arrow = path(arrows.next().expect("there is an arrow"));
                assert!(near(arrow[0], x) && near(arrow[3], hits[began[index]][0]), "pick {}", at + 1);
                assert!(arrow[2] < arrow[1] && arrow[1] < y && arrow[2] < arrow[4] && arrow[4] < y, "pick {}", at + 1);
                let register = usize::from(step.stale.expect("a send-back has a register"));
                let (read, now) = (before.threads[index].readlog[register], before.registers[register]);
                let label = labels.next().expect("there is a label");
                let known = [format!("r{register}"), format!("r{register}: {read} → {now}")];
                assert!(known.iter().any(|known| known == label), "{label}");
            }
            _ => {}
        }
    }
    for (number, _) in state.threads.iter().enumerate().filter(|(_, thread)| thread.begin != 0) {
        bar(2, lane(&format!("thread {number}")), began[number], None);
    }
}

/// Every text is inside its picture and touches no other, its letters being at most so wide and high.
fn texts_are_legible(text: &str, elements: &[Element]) {
    let [width, height] = ["width", "height"].map(|key| number(&elements[0], key));
    let contents = text.split("<text ").skip(1).map(|text| text.split_once("</text>").expect("it has an end").0);
    let contents = contents.map(|text| text.split_once('>').expect("its tag has an end").1);
    let mut boxes: Vec<(&str, [f64; 4])> = Vec::new();
    for (element, content) in elements.iter().filter(|(name, _)| name == "text").zip(contents) {
        let (letter, up, down) = match value(element, "class").split(' ').next() {
            Some("title") => (17.0, 12.0, 3.5),
            Some("small") => (6.0, 8.0, 2.4),
            _ => (6.5, 8.5, 2.6),
        };
        let [x, y] = ["x", "y"].map(|key| number(element, key));
        let wide = letter * content.chars().count() as f64;
        let left = match value(element, "text-anchor") {
            "end" => x - wide,
            "middle" => x - wide / 2.0,
            _ => x,
        };
        let [right, top, bottom] = [left + wide, y - up, y + down];
        assert!(left > 0.0 && right < width && top > 0.0 && bottom < height, "{content} in a picture {width} wide");
        for (other, [l, r, t, b]) in &boxes {
            assert!(right < *l || left > *r || bottom < *t || top > *b, "{other} and {content} touch");
        }
        boxes.push((content, [left, right, top, bottom]));
    }
}

/// The pictures that stand in docs/ are what the program draws.
#[test]
fn the_pictures_of_the_documents() {
    let here = folder("documents");
    for (file, arguments) in [
        ("whole.svg", &["whole.job", "--picks", "whole.picks"][..]),
        ("sixteen.svg", &["sixteen.job", "--random", "5"]),
    ] {
        let (text, _) = svg(&here, arguments);
        let stored = Path::new(env!("CARGO_MANIFEST_DIR")).join("../../docs").join(file);
        assert_eq!(text, std::fs::read_to_string(&stored).expect("the picture is there"), "docs/{file}");
    }
    // as many picks as 1,600 pixels are for
    let (text, _) = svg(&here, &["sixteen.job", "--random", "5"]);
    let last = text.lines().filter(|line| line.starts_with("<rect class=\"hit\"")).count();
    assert_eq!(
        (last, &text[..text.find(" viewBox").unwrap()]),
        (399, "<svg xmlns=\"http://www.w3.org/2000/svg\" width=\"1600\" height=\"810\"")
    );
}

#[test]
fn pictures_have_what_the_run_had() {
    let here = folder("pictures");
    put(&here, "kind.job", &damaged(12, 1));
    assert_eq!(said(&here, &["picture", "kind.job", "--round-robin", "-o", "new.svg"]), refused("", KIND));
    assert!(!here.join("new.svg").exists());
    let mut back = 0;
    for case in 0..200 {
        let mut rng = Rng::new(20, 4, case);
        let tree = random_tree(&mut rng);
        let threads = 1 + tree.forks() + rng.below(2);
        let picks: Vec<u8> = (0..rng.below(900)).map(|_| rng.below(threads) as u8).collect();
        put(&here, "random.job", &tree.job());
        put(&here, "random.picks", &picks);
        let (text, elements) = svg(&here, &["random.job", "--picks", "random.picks"]);
        let code = tree.code();
        let mut state = State::fresh(&code).unwrap();
        let counts = state.run(&code, &picks).unwrap();
        let threads = state.threads.iter().filter(|thread| thread.exists()).count();
        let open = state.threads.iter().filter(|thread| thread.begin != 0).count();
        // one more of each in the legend
        assert_eq!(classed(&elements, "commit"), counts.commits + 1, "case {case}");
        assert_eq!(classed(&elements, "done"), counts.commits + 1, "case {case}");
        assert_eq!(classed(&elements, "cross"), counts.back + 1, "case {case}");
        assert_eq!(classed(&elements, "lost"), counts.back + 1, "case {case}");
        assert_eq!(classed(&elements, "fork"), threads, "case {case}");
        assert_eq!(classed(&elements, "arrow"), counts.back, "case {case}");
        assert_eq!(classed(&elements, "back"), counts.back, "case {case}");
        assert_eq!(classed(&elements, "open"), open + 1, "case {case}");
        assert_eq!(classed(&elements, "life"), threads, "case {case}");
        assert_eq!(classed(&elements, "idle"), counts.idle, "case {case}");
        assert_eq!(classed(&elements, "hit"), picks.len(), "case {case}");
        let Counts { steps, idle, commits, back: sent_back, over } = counts;
        let head = format!("steps {steps} idle {idle} commits {commits} back {sent_back} over {over}");
        assert!(text.contains(&format!(">{head}</text>")), "case {case}");
        for (number, thread) in state.threads.iter().enumerate().filter(|(_, thread)| thread.exists()) {
            // once more for each 400 picks behind the first 400
            let names = 1 + picks.len().saturating_sub(1) / 400;
            assert_eq!(text.matches(&format!(">thread {number}</text>")).count(), names, "case {case}");
            if let Some(result) = thread.result() {
                assert!(text.contains(&format!(">= {result}</text>")), "case {case}");
            }
        }
        texts_are_legible(&text, &elements);
        marks_are_at_their_picks(&text, &elements, &code, &picks);
        back += counts.back;
    }
    assert!(back > 50);
}

/// A thread that is sent back after every third of its picks, by commits of the other fifteen, at the left end of a picture, at
/// the right one, and where a wide one has the threads' names again.
#[test]
fn labels_of_close_send_backs() {
    let here = folder("labels");
    let write = |n| Process::Atomic(Box::new(Transaction::Write(63, Box::new(Transaction::Val(n)))));
    let mut parts: Vec<Process> = (1..=14).map(|n| Process::Fork(Box::new(write(n)))).collect();
    parts.insert(7, Process::Fork(Box::new(Process::Atomic(Box::new(Transaction::Read(63))))));
    put(&here, "close.job", &sum(parts).job());
    let others = || (1..16).filter(|&thread| thread != 8);
    for (first, all) in [(72, 400), (345, 400), (360, 600), (390, 600), (400, 600)] {
        let mut picks = vec![0; 29];
        picks.extend(others().flat_map(|thread| [thread; 3]));
        picks.resize(first - 1, 255);
        picks.extend(others().flat_map(|thread| [8, 8, thread, 8]));
        picks.resize(all, 255);
        put(&here, "close.picks", &picks);
        let (text, elements) = svg(&here, &["close.job", "--picks", "close.picks"]);
        assert_eq!(text.lines().filter(|line| line.ends_with(">r63</text>")).count(), 14);
        texts_are_legible(&text, &elements);
    }
}

/// A picture of at most 400 picks is at most 1,600 pixels wide, one of more as much wider as it has more.
#[test]
fn how_wide_pictures_are() {
    let here = folder("wide");
    for picks in (0..=400).chain([401, 500, 800]) {
        put(&here, "wide.picks", &vec![0; picks]);
        let (_, elements) = svg(&here, &["whole.job", "--picks", "wide.picks"]);
        let column = 1_420.0 / picks.clamp(1, 400) as f64;
        let exact = 180.0 + picks as f64 * column.min(46.0);
        assert!((number(&elements[0], "width") - exact.max(1_024.0)).abs() <= 0.5, "{picks} picks");
    }
}

/// Names that XML has to spell otherwise or cannot have, and one for which there is no room.
#[test]
fn pictures_of_files_with_strange_names() {
    use std::os::unix::ffi::OsStrExt;
    let here = folder("names");
    let long = [b"W".repeat(200), b".job".to_vec()].concat();
    for name in
        [b"a & b <c> \"d\".job".as_slice(), b"bell\x07.job", b"\xFF\xFE.job", "größe ]]> 🔬.job".as_bytes(), &long]
    {
        let name = OsStr::from_bytes(name);
        std::fs::write(here.join(name), example("whole.job")).expect("a test's file is written");
        let arguments =
            [OsStr::new("picture"), name, OsStr::new("--round-robin"), OsStr::new("-o"), OsStr::new("x.svg")];
        assert_eq!(said(&here, &arguments), accepted(""));
        let text = String::from_utf8(got(&here, "x.svg")).expect("a picture is UTF-8");
        texts_are_legible(&text, &elements(&text).unwrap_or_else(|why| panic!("{name:?}: {why}")));
    }
}
