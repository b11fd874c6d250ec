//! A run as an SVG picture: a lane for each thread, the picks from left to right.

use crate::script;
use crate::walk::{self, Effect, Pick};
use kuspigo::Event;
use std::fmt::{self, Write};

/// A picture of at most so many picks is at most so wide, in pixels; of more it is wider.
const PICKS: usize = 400;
const WIDTH: f64 = 1_600.0;
/// There is room for the legend.
const NARROWEST: f64 = 1_024.0;
/// Beside the lanes: the threads' names, and results.
const LEFT: f64 = 78.0;
const RIGHT: f64 = 102.0;
/// Above the lanes: title, legend, the picks' numbers; below them.
const TOP: f64 = 92.0;
const BOTTOM: f64 = 14.0;
/// A pick's column is at most so wide; from this width on each pick is labelled with its instruction.
const WIDEST: f64 = 46.0;
const LABELLED: f64 = 40.0;
/// The width of a small letter, at most about.
const LETTER: f64 = 6.5;

const STYLE: &str = "\
text{font:11px system-ui,-apple-system,'Segoe UI',Roboto,'DejaVu Sans',sans-serif;fill:#1f2328}
.title{font-size:15px;font-weight:600}
.small{font-size:10px}
.faint{fill:#57606a}
.back,.end,.op{stroke:#fff;stroke-width:2.5px;paint-order:stroke}
.back{fill:#b3400a}
.paper{fill:#ffffff}
.band{fill:#f3f5f8}
.grid{stroke:#d0d7de;stroke-width:1}
.life{stroke:#8c959f;stroke-width:1.5}
.fork{stroke:#8c959f;stroke-width:1;stroke-dasharray:3 2;fill:none}
.dot{fill:#57606a}
.idle{fill:none;stroke:#8c959f}
.done{fill:#cfe2ff;stroke:#0a58ca}
.lost{fill:#ffe1cf;stroke:#b3400a}
.open{fill:none;stroke:#57606a;stroke-dasharray:3 2}
.tick{stroke:#57606a;stroke-width:1}
.commit{fill:#0a58ca;stroke:none}
.cross{stroke:#b3400a;stroke-width:2;fill:none}
.arrow{stroke:#b3400a;stroke-width:1.2;fill:none}
.head{fill:#b3400a}
.hit{fill:#000;fill-opacity:0}
.hit:hover{fill:#888;fill-opacity:.25}
@media (prefers-color-scheme:dark){
text{fill:#e6edf3}
.faint{fill:#9aa4af}
.back,.end,.op{stroke:#0d1117}
.back{fill:#ffa36b}
.paper{fill:#0d1117}
.band{fill:#161b22}
.grid{stroke:#30363d}
.life,.fork,.idle{stroke:#768390}
.dot{fill:#9aa4af}
.done{fill:#10305c;stroke:#6cb6ff}
.lost{fill:#4a2511;stroke:#ffa36b}
.open,.tick{stroke:#9aa4af}
.commit{fill:#6cb6ff}
.cross,.arrow{stroke:#ffa36b}
.head{fill:#ffa36b}
}
";

/// The picture of a run that began in a fresh state.
pub fn svg(title: &str, picks: &[Pick]) -> String {
    let layout = Layout::of(picks);
    let counts = counts(picks);
    let (width, height) = (layout.width, layout.bottom() + BOTTOM);
    let mut out = format!(
        "<svg xmlns=\"http://www.w3.org/2000/svg\" width=\"{width}\" height=\"{height}\" viewBox=\"0 0 {width} {height}\">\n\
         <title>{}: {counts}</title>\n<style>\n{STYLE}</style>\n\
         <rect class=\"paper\" width=\"{width}\" height=\"{height}\"/>\n\
         <text class=\"title\" x=\"12\" y=\"24\">{}</text>\n\
         <text class=\"faint\" x=\"12\" y=\"42\">{counts}</text>\n",
        escaped(title),
        escaped(&shortened(title, layout.width - 24.0, title_letter)),
    );
    legend(&mut out);
    lanes(&mut out, &layout);
    axis(&mut out, &layout);
    let lives = lives(picks, &layout);
    for life in &lives {
        life.draw(&mut out, &layout);
    }
    for attempt in attempts(picks, &layout) {
        attempt.draw(&mut out, &layout);
    }
    let mut labels = vec![f64::MIN; layout.lanes()];
    for pick in picks {
        mark(&mut out, &layout, pick, &mut labels[layout.lane(pick)]);
    }
    for life in &lives {
        life.result(&mut out, &layout);
    }
    // above all, what a browser tells of each pick
    for pick in picks {
        let (x, y) = (layout.x(pick.number), layout.y(layout.lane(pick)));
        put(
            &mut out,
            format_args!(
                "<rect class=\"hit\" x=\"{:.1}\" y=\"{:.1}\" width=\"{:.1}\" height=\"24\"><title>{}</title></rect>",
                x - layout.column / 2.0,
                y - 12.0,
                layout.column,
                escaped(&walk::sentence(pick))
            ),
        );
    }
    out + "</svg>\n"
}

/// What the listing's first line says.
fn counts(picks: &[Pick]) -> String {
    let of = |event| picks.iter().filter(|pick| pick.step.event == event).count();
    let [idle, commits, back] = [Event::Idle, Event::Commit, Event::SentBack].map(of);
    let over: usize = picks.iter().map(|pick| pick.step.over).sum();
    format!("steps {} idle {idle} commits {commits} back {back} over {over}", picks.len() - idle)
}

/// Where lanes and picks are.
struct Layout {
    column: f64,
    picks: usize,
    threads: usize,
    idle: bool,
    lane: f64,
    width: f64,
}

impl Layout {
    fn of(picks: &[Pick]) -> Layout {
        let room = WIDTH - LEFT - RIGHT;
        let column = (room / picks.len().max(1) as f64).clamp(room / PICKS as f64, WIDEST);
        let threads = 1 + picks.iter().filter(|pick| pick.step.event == Event::Fork).count();
        Layout {
            column,
            picks: picks.len(),
            threads,
            idle: picks.iter().any(|pick| pick.effect == Effect::Idle),
            lane: match picks.len() {
                _ if column >= LABELLED => 66.0,
                0..=PICKS => 44.0,
                // the names that stand there again are below the bars
                _ => 54.0,
            },
            width: (LEFT + column * picks.len() as f64 + RIGHT).round().max(NARROWEST),
        }
    }

    /// The middle of a pick's column.
    fn x(&self, number: usize) -> f64 {
        LEFT + self.column * (number as f64 - 0.5)
    }

    /// The middle of a lane.
    fn y(&self, lane: usize) -> f64 {
        TOP + self.lane * lane as f64 + 29.0
    }

    fn lanes(&self) -> usize {
        self.threads + usize::from(self.idle)
    }

    /// The lane of a pick; idle ones have the last.
    fn lane(&self, pick: &Pick) -> usize {
        match pick.effect {
            Effect::Idle => self.threads,
            _ => usize::from(pick.thread),
        }
    }

    /// The end of the last pick.
    fn end(&self) -> f64 {
        LEFT + self.column * self.picks as f64
    }

    fn bottom(&self) -> f64 {
        TOP + self.lane * self.lanes() as f64
    }
}

fn put(out: &mut String, line: fmt::Arguments) {
    out.write_fmt(line).and_then(|()| out.write_char('\n')).expect("a string takes every line");
}

/// Draws a sample at a place.
type Draw<'a> = &'a dyn Fn(&mut String, f64);

/// What the marks mean, in one row.
fn legend(out: &mut String) {
    const Y: f64 = 60.0;
    let entries: [(Draw, &str); 6] = [
        (
            &|out, x| {
                bar(out, "done", x, x + 22.0, Y);
                diamond(out, x + 17.0, Y);
            },
            "transaction and its commit",
        ),
        (
            &|out, x| {
                bar(out, "lost", x, x + 22.0, Y);
                cross(out, x + 17.0, Y);
            },
            "sent back, with its register: read → written since",
        ),
        (&|out, x| bar(out, "open", x, x + 22.0, Y), "open"),
        (&|out, x| dashes(out, [x, x + 22.0], [Y, Y]), "start of a thread"),
        (&|out, x| dot(out, x + 16.0, Y), "FORK, or sum outside transactions"),
        (&|out, x| tick(out, x + 16.0, Y, 3.0), "other step"),
    ];
    let mut x = 12.0;
    for (draw, text) in entries {
        draw(out, x);
        put(out, format_args!("<text class=\"small\" x=\"{:.1}\" y=\"{:.1}\">{text}</text>", x + 27.0, Y + 3.5));
        x += 42.0 + 0.82 * LETTER * text.chars().count() as f64;
    }
}

/// Bands and names.
fn lanes(out: &mut String, layout: &Layout) {
    for lane in (0..layout.lanes()).step_by(2) {
        put(
            out,
            format_args!(
                "<rect class=\"band\" x=\"0\" y=\"{:.1}\" width=\"{:.1}\" height=\"{:.1}\"/>",
                TOP + layout.lane * lane as f64,
                layout.width,
                layout.lane
            ),
        );
    }
    for lane in 0..layout.lanes() {
        let name = if lane < layout.threads { format!("thread {lane}") } else { "idle".to_string() };
        let y = layout.y(lane) + 4.0;
        put(out, format_args!("<text x=\"{:.1}\" y=\"{y:.1}\" text-anchor=\"end\">{name}</text>", LEFT - 14.0));
        // again, where a wide picture is scrolled
        for number in (PICKS + 1..=layout.picks).step_by(PICKS) {
            let (x, y) = (layout.x(number), y + 11.0);
            put(out, format_args!("<text class=\"small faint\" x=\"{x:.1}\" y=\"{y:.1}\">{name}</text>"));
        }
    }
}

/// The picks' numbers.
fn axis(out: &mut String, layout: &Layout) {
    let every = [1, 2, 5, 10, 20, 50].into_iter().find(|&n| n as f64 * layout.column >= 36.0).unwrap_or(100);
    put(
        out,
        format_args!(
            "<text class=\"small faint\" x=\"{:.1}\" y=\"{:.1}\" text-anchor=\"end\">pick</text>",
            LEFT - 14.0,
            TOP - 12.0
        ),
    );
    for number in (1..=layout.picks).filter(|number| number % every == 0) {
        let x = layout.x(number);
        put(
            out,
            format_args!(
                "<line class=\"grid\" x1=\"{x:.1}\" y1=\"{:.1}\" x2=\"{x:.1}\" y2=\"{:.1}\"/>\
                 <text class=\"small faint\" x=\"{x:.1}\" y=\"{:.1}\" text-anchor=\"middle\">{number}</text>",
                TOP - 8.0,
                layout.bottom(),
                TOP - 12.0
            ),
        );
    }
}

/// A thread from its FORK to its end.
struct Life {
    thread: usize,
    from: f64,
    to: f64,
    parent: Option<usize>,
    result: Option<i32>,
}

fn lives(picks: &[Pick], layout: &Layout) -> Vec<Life> {
    let mut lives = vec![Life { thread: 0, from: LEFT, to: layout.end(), parent: None, result: None }];
    for pick in picks {
        let x = layout.x(pick.number);
        let thread = usize::from(pick.thread);
        if let Effect::Forked { child } = pick.effect {
            let child = usize::from(child);
            lives.push(Life { thread: child, from: x, to: layout.end(), parent: Some(thread), result: None });
        }
        if pick.ended.is_some() {
            // threads are numbered as they start
            lives[thread].to = x;
            lives[thread].result = pick.ended;
        }
    }
    lives
}

impl Life {
    fn draw(&self, out: &mut String, layout: &Layout) {
        let y = layout.y(self.thread);
        put(
            out,
            format_args!(
                "<line class=\"life\" x1=\"{:.1}\" y1=\"{y:.1}\" x2=\"{:.1}\" y2=\"{y:.1}\"/>",
                self.from, self.to
            ),
        );
        if let Some(parent) = self.parent {
            dashes(out, [self.from, self.from], [layout.y(parent), y]);
        }
    }

    fn result(&self, out: &mut String, layout: &Layout) {
        let (x, y) = (self.to + 9.0, layout.y(self.thread) + 4.0);
        let result = self.result.map_or("open".to_string(), |result| format!("= {result}"));
        put(out, format_args!("<text class=\"end\" x=\"{x:.1}\" y=\"{y:.1}\">{result}</text>"));
    }
}

/// A transaction from its BEGIN to its COMMIT, or to the end of the picks.
struct Attempt {
    thread: usize,
    from: usize,
    to: Option<usize>,
    lost: bool,
}

fn attempts(picks: &[Pick], layout: &Layout) -> Vec<Attempt> {
    let mut open: Vec<Option<usize>> = vec![None; layout.threads];
    let mut attempts = Vec::new();
    for pick in picks {
        let thread = usize::from(pick.thread);
        match pick.effect {
            Effect::Began => open[thread] = Some(pick.number),
            Effect::Committed { began } | Effect::SentBack { began, .. } => {
                let lost = !matches!(pick.effect, Effect::Committed { .. });
                attempts.push(Attempt { thread, from: began, to: Some(pick.number), lost });
                open[thread] = None;
            }
            _ => {}
        }
    }
    let left = open.into_iter().enumerate();
    attempts.extend(left.filter_map(|(thread, from)| Some(Attempt { thread, from: from?, to: None, lost: false })));
    attempts
}

impl Attempt {
    fn draw(&self, out: &mut String, layout: &Layout) {
        let half = (layout.column / 2.0).min(7.0);
        let (from, y) = (layout.x(self.from) - half, layout.y(self.thread));
        match self.to {
            Some(to) => bar(out, if self.lost { "lost" } else { "done" }, from, layout.x(to) + half, y),
            None => bar(out, "open", from, layout.end(), y),
        }
    }
}

/// What a pick did, in its lane, of which the last register's label ends at some place.
fn mark(out: &mut String, layout: &Layout, pick: &Pick, label: &mut f64) {
    let (x, y) = (layout.x(pick.number), layout.y(layout.lane(pick)));
    match pick.effect {
        Effect::Idle => {
            put(out, format_args!("<circle class=\"idle\" cx=\"{x:.1}\" cy=\"{y:.1}\" r=\"{:.1}\"/>", small(layout)))
        }
        Effect::Began => tick(out, x, y, 5.0),
        Effect::Own => match pick.step.event {
            Event::Sum if pick.step.turn => dot(out, x, y),
            _ => tick(out, x, y, 3.0),
        },
        Effect::Forked { .. } => dot(out, x, y),
        Effect::Committed { .. } => diamond(out, x, y),
        Effect::SentBack { began, register, read, now } => {
            cross(out, x, y);
            let short = format!("r{register}");
            let long = format!("{short}: {read} → {now}");
            back(out, layout, [layout.x(began), x], y, [short, long], label);
        }
    }
    if let (true, Some((_, op))) = (layout.column >= LABELLED, pick.did) {
        for (row, word) in script::instruction(op).split(' ').enumerate() {
            let y = y + 20.0 + 11.0 * row as f64;
            let word = shortened(word, layout.column, |_| LETTER);
            put(
                out,
                format_args!(
                    "<text class=\"small faint op\" x=\"{x:.1}\" y=\"{y:.1}\" text-anchor=\"middle\">{word}</text>"
                ),
            );
        }
    }
}

/// An arrow from a COMMIT back to its BEGIN, with the register, and its values where there is room. A label that would
/// touch the one before it stands higher.
fn back(out: &mut String, layout: &Layout, [to, from]: [f64; 2], y: f64, [short, long]: [String; 2], label: &mut f64) {
    put(
        out,
        format_args!(
            "<path class=\"arrow\" d=\"M{from:.1} {:.1}V{:.1}H{to:.1}V{:.1}\"/>\
             <path class=\"head\" d=\"M{:.1} {:.1}h6l-3 5z\"/>",
            y - 7.0,
            y - 15.0,
            y - 11.0,
            to - 3.0,
            y - 12.0
        ),
    );
    let wide = |text: &str| text.chars().count() as f64 * LETTER;
    let text = if wide(&long) <= from - to + layout.column { long } else { short };
    let middle = (from + to) / 2.0;
    let higher = middle - wide(&text) / 2.0 < *label;
    *label = if higher { f64::MIN } else { middle + wide(&text) / 2.0 };
    let y = if higher { y - 28.5 } else { y - 18.0 };
    put(
        out,
        format_args!("<text class=\"small back\" x=\"{middle:.1}\" y=\"{y:.1}\" text-anchor=\"middle\">{text}</text>"),
    );
}

/// As much of a text as there is room for, by the width of each letter.
fn shortened(text: &str, room: f64, letter: fn(char) -> f64) -> String {
    if text.chars().map(letter).sum::<f64>() <= room {
        return text.to_string();
    }
    let mut left = room - letter('…');
    let kept = text.chars().take_while(|&c| {
        left -= letter(c);
        left >= 0.0
    });
    kept.chain(['…']).collect()
}

/// The width of a letter in the title, at most about: bold, 15 pixels high.
fn title_letter(c: char) -> f64 {
    match c {
        'm' | 'w' | 'M' | 'W' | '@' | '%' => 17.0,
        'a'..='z' | '0'..='9' | ' ' | '.' | ',' | '-' | '_' => 11.0,
        '!'..='~' => 13.5,
        _ => 20.0,
    }
}

fn bar(out: &mut String, class: &str, from: f64, to: f64, y: f64) {
    let (top, width) = (y - 6.0, to - from);
    put(
        out,
        format_args!(
            "<rect class=\"{class}\" x=\"{from:.1}\" y=\"{top:.1}\" width=\"{width:.1}\" height=\"12\" rx=\"2\"/>"
        ),
    );
}

fn tick(out: &mut String, x: f64, y: f64, half: f64) {
    let (top, bottom) = (y - half, y + half);
    put(out, format_args!("<line class=\"tick\" x1=\"{x:.1}\" y1=\"{top:.1}\" x2=\"{x:.1}\" y2=\"{bottom:.1}\"/>"));
}

fn dot(out: &mut String, x: f64, y: f64) {
    put(out, format_args!("<circle class=\"dot\" cx=\"{x:.1}\" cy=\"{y:.1}\" r=\"2.5\"/>"));
}

fn dashes(out: &mut String, [x1, x2]: [f64; 2], [y1, y2]: [f64; 2]) {
    put(out, format_args!("<line class=\"fork\" x1=\"{x1:.1}\" y1=\"{y1:.1}\" x2=\"{x2:.1}\" y2=\"{y2:.1}\"/>"));
}

fn diamond(out: &mut String, x: f64, y: f64) {
    let top = y - 6.5;
    put(out, format_args!("<path class=\"commit\" d=\"M{x:.1} {top:.1}l5 6.5l-5 6.5l-5 -6.5z\"/>"));
}

fn cross(out: &mut String, x: f64, y: f64) {
    let (left, top) = (x - 3.5, y - 3.5);
    put(out, format_args!("<path class=\"cross\" d=\"M{left:.1} {top:.1}l7 7m0 -7l-7 7\"/>"));
}

fn small(layout: &Layout) -> f64 {
    (layout.column / 2.0 - 0.5).clamp(1.2, 2.5)
}

/// Text as XML has it; what XML cannot have is replaced.
fn escaped(text: &str) -> String {
    let mut out = String::new();
    for c in text.chars() {
        match c {
            '&' => out += "&amp;",
            '<' => out += "&lt;",
            '>' => out += "&gt;",
            '"' => out += "&quot;",
            '\u{0}'..='\u{1F}' | '\u{7F}'..='\u{9F}' | '\u{FFFE}' | '\u{FFFF}' => out.push('\u{FFFD}'),
            c => out.push(c),
        }
    }
    out
}
