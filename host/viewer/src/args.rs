//! The command line, and the help.

use crate::failure::Failure;
use std::ffi::{OsStr, OsString};
use std::os::unix::ffi::{OsStrExt, OsStringExt};
use std::path::{Path, PathBuf};

/// What is asked for.
pub enum Request {
    /// Help, or the version.
    Say(String),
    Do(Call),
}

pub struct Call {
    pub word: Word,
    pub source: Source,
    /// Whether `--formula` was said.
    pub formula: bool,
    picks: Option<Picks>,
    /// The second list of picks.
    with: Option<PathBuf>,
    out: Option<PathBuf>,
}

/// Where a job, code or a formula comes from.
pub enum Source {
    File(PathBuf),
    /// A formula on the command line.
    Text(Vec<u8>),
}

/// Where the picks come from.
pub enum Picks {
    File(PathBuf),
    RoundRobin,
    Random(u64),
}

#[derive(Clone, Copy)]
pub enum Word {
    Formula,
    Check,
    Show,
    Compile,
    Back,
    Run,
    Trace,
    Picture,
    Exchange,
}

const WORDS: [Word; 9] = [
    Word::Formula,
    Word::Check,
    Word::Show,
    Word::Compile,
    Word::Back,
    Word::Run,
    Word::Trace,
    Word::Picture,
    Word::Exchange,
];

impl Word {
    fn named(name: &str) -> Option<Word> {
        WORDS.into_iter().find(|word| word.name() == name)
    }

    fn name(self) -> &'static str {
        match self {
            Word::Formula => "formula",
            Word::Check => "check",
            Word::Show => "show",
            Word::Compile => "compile",
            Word::Back => "back",
            Word::Run => "run",
            Word::Trace => "trace",
            Word::Picture => "picture",
            Word::Exchange => "exchange",
        }
    }

    /// How it is written, with these words for its picks.
    fn usage(self, picks: &str) -> String {
        let file = match self {
            Word::Formula | Word::Show => "FILE",
            Word::Back => "CODE",
            _ => "JOB",
        };
        let picks = match self {
            Word::Exchange => " --picks A --with B",
            _ if self.takes_picks() => picks,
            _ => "",
        };
        let out = match self {
            Word::Compile => " -o CODE",
            Word::Formula | Word::Back => " -o JOB",
            Word::Picture => " -o FILE.svg",
            _ => "",
        };
        format!("kuspigo {} {file}{picks}{out}", self.name())
    }

    fn about(self) -> &'static str {
        match self {
            Word::Formula => "make the job of a script that is typed as a formula",
            Word::Check => "say whether a job is accepted, and what it will need",
            Word::Show => "show a script as a tree, and its code; or as a formula",
            Word::Compile => "compile a job",
            Word::Back => "read the job back out of code",
            Word::Run => "run a job, and print what the run program prints",
            Word::Trace => "run a job, and say what each pick did",
            Word::Picture => "run a job, and draw its threads",
            Word::Exchange => "say whether exchanges of picks lead from A to B",
        }
    }

    fn more(self) -> &'static str {
        match self {
            Word::Formula => {
                "FILE is a formula. If it is none, its line is shown, the place is marked, and what could stand\n\
                 there is said. If its job is refused, the node at the place in that job is looked for in the\n\
                 formula by this program's own reading. A refused formula writes nothing.\n"
            }
            Word::Check => {
                "Prints the forecast. A refused job is told with the number, the trade's word and the\n\
                 place, a byte offset in the job, and the bytes there.\n"
            }
            Word::Show => {
                "FILE is a job, code or a formula; its first bytes say which. Each node and each instruction\n\
                 stands with its byte offset and its bytes in hex; what a FORK starts is indented. With --formula\n\
                 the script is printed as a formula instead, whichever FILE is; it makes the same job again.\n"
            }
            Word::Compile | Word::Back => "A refused call writes nothing.\n",
            Word::Run => {
                "Standard output is byte for byte the run program's for this job and these picks, also if\n\
                 the job or the list is refused; standard error then says why. A formula that is no script\n\
                 is answered in the same form, refused 15 at its place.\n"
            }
            Word::Trace => {
                "A line for each pick: its number, counted from 1, the thread, the place in the code, the\n\
                 instruction, the rule, and what changed. Then where each thread stands, how often commits\n\
                 have written each register, and the listing. A register in the read log stands with that\n\
                 count; a thread is sent back if the count is another one at its COMMIT.\n"
            }
            Word::Picture => {
                "A lane for each thread, the picks from left to right: at most 1,600 pixels wide for up to\n\
                 400 picks, wider for more. In a browser each pick tells what it did. It follows the\n\
                 reader's light or dark setting.\n"
            }
            Word::Exchange => {
                "A and B are files of picks, each byte the number of a thread; at most 32,768. Says whether B follows\n\
                 from A, from the job's fresh state: whether one comes from A to B by exchanging two neighbouring\n\
                 picks of different threads, neither doing a FORK nor a commit that takes effect, again and again,\n\
                 what they do being judged in the list as it then is. An idle pick is one of its number.\n\
                 \n\
                 If B follows, the status is 0: both end in the same state with the same counts. Those are printed,\n\
                 with how many exchanges are the fewest, and whether the order of turns is the same. If it does not,\n\
                 the status is 1, and standard output says at which pick of B, counted from 1, and why: no list that\n\
                 follows from A begins with B's picks up to that one.\n\
                 \n\
                 This answer is the program's own reading of the request, and is not proved. What each pick does and\n\
                 the states at the ends are the library's. It is proved that a list follows exactly if each number\n\
                 sees the same: its own picks with what they do, and every FORK and commit that took effect, in one\n\
                 order (README, guarantee/specs/Exchanges).\n"
            }
        }
    }

    fn example(self) -> &'static str {
        match self {
            Word::Formula => "kuspigo formula scan.formula -o scan.job",
            Word::Check => "kuspigo check scan.job",
            Word::Show => "kuspigo show scan.code",
            Word::Compile => "kuspigo compile scan.job -o scan.code",
            Word::Back => "kuspigo back scan.code -o scan.job",
            Word::Run => "kuspigo run scan.job --picks scan.picks",
            Word::Trace => "kuspigo trace scan.job --round-robin",
            Word::Picture => "kuspigo picture scan.job --random 7 -o scan.svg",
            Word::Exchange => "kuspigo exchange scan.job --picks scan.picks --with other.picks",
        }
    }

    fn takes_picks(self) -> bool {
        matches!(self, Word::Run | Word::Trace | Word::Picture)
    }

    /// Two lists of picks.
    fn takes_lists(self) -> bool {
        matches!(self, Word::Exchange)
    }

    fn takes_out(self) -> bool {
        matches!(self, Word::Formula | Word::Compile | Word::Back | Word::Picture)
    }

    fn help(self) -> String {
        let source = match self {
            Word::Back => String::new(),
            Word::Formula => format!("\n{TEXT}\n{GRAMMAR}"),
            Word::Show => format!("\n{TEXT}"),
            _ => format!("\n{JOB}"),
        };
        let picks = if self.takes_picks() { format!("\n{PICKS}") } else { String::new() };
        let [usage, about, more, example] = [&*self.usage(" PICKS"), self.about(), self.more(), self.example()];
        format!("{usage}: {about}\n\n{more}{source}{picks}\nexample: {example}\n")
    }
}

const TEXT: &str = "\
For FILE may stand
  --text TEXT      a formula on the command line, in quotes
";

const JOB: &str = "\
JOB is one of
  FILE             a job's bytes
  --formula FILE   a formula; or a job, if FILE begins with WSJ, as no formula does
  --text TEXT      a formula on the command line, in quotes
kuspigo formula --help tells what a formula is, and what is told of one that is refused.
";

const GRAMMAR: &str = "\
A formula is terms joined by +. A term is a number, a formula in brackets, fork with a term, or
atomic with a transaction in brackets. A transaction is a write, such as r5 := r5 + 1, where any
transaction stands behind :=, or terms joined by +; a term is then a number, a register from r0 to
r63, or a transaction in brackets. + groups to the left. Numbers are -2147483648 to 2147483647.
Blanks, carriage returns and ends of lines may stand between all of these, and are never needed. At
most 64 brackets, forks, atomics and writes are open at once, an atomic and its bracket being two,
and a formula has at most 32,768 bytes.
";

const PICKS: &str = "\
PICKS is one of
  --picks FILE     the bytes of FILE, each the number of a thread; at most 32,768
  --round-robin    one thread after the other, again and again, those left out that have ended
  --random SEED    threads that have not ended, at random; SEED is a whole number, and the same
                   one gives the same list for the same job
The last two end when every thread has ended, or after 32,768 picks.
";

fn help() -> String {
    let mut text = "kuspigo: looks into jobs, formulas, code and runs of the task engine\n\n".to_string();
    for word in WORDS {
        text += &format!("  {:<42} {}\n", word.usage(" PICKS"), word.about());
    }
    text += &format!(
        "\n{JOB}\nformula and show take FILE or --text; show --formula prints any script as a formula.\n\n{PICKS}\n\
         A and B are files of picks, as behind --picks.\n\n\
         -o is also --output, and -e is --text. A file named - is standard input, or after -o standard\n\
         output.\n\n"
    );
    text += "examples:\n";
    for word in WORDS {
        text += &format!("  {}\n", word.example());
    }
    text += "  kuspigo trace --text 'fork atomic(r0 := r0 + 1) + fork atomic(r0 := r0 + 1)' --round-robin\n\n\
        kuspigo WORD --help tells more, kuspigo --version the version. The status is 0, or 1 if a\n\
        formula, job, code or list is refused, a file cannot be read or written, or exchange says no, or\n\
        2 if the command line is not understood.\n\n\
        This program is not proved. What is refused, the jobs of formulas, what is compiled and read\n\
        back, each step and the listing come from the proved library, which it calls.\n";
    text
}

impl Call {
    /// For words that take picks.
    pub fn picks(&self) -> &Picks {
        self.picks.as_ref().expect("the command line has picks")
    }

    /// The two lists of `exchange`.
    pub fn lists(&self) -> [&Path; 2] {
        match (&self.picks, &self.with) {
            (Some(Picks::File(picks)), Some(with)) => [picks, with],
            _ => unreachable!("the command line has two lists"),
        }
    }

    /// For words that take an output.
    pub fn out(&self) -> &Path {
        self.out.as_ref().expect("the command line has an output")
    }
}

impl Source {
    /// Its name as messages have it.
    pub fn name(&self) -> String {
        match self {
            Source::File(file) => crate::named(file),
            Source::Text(_) => "the text".to_string(),
        }
    }

    /// Without a folder, as a picture's title has it.
    pub fn short_name(&self) -> String {
        match self {
            Source::File(file) => crate::short_name(file),
            Source::Text(_) => self.name(),
        }
    }
}

pub fn parse(mut arguments: impl Iterator<Item = OsString>) -> Result<Request, Failure> {
    let Some(first) = arguments.next() else {
        return Err(usage("what is to be done?"));
    };
    let first = first.to_string_lossy();
    match (&*first, Word::named(&first)) {
        ("--help" | "-h" | "help", _) => {
            let word = arguments.next().and_then(|word| Word::named(&word.to_string_lossy()));
            Ok(Request::Say(word.map_or_else(help, Word::help)))
        }
        ("--version" | "-V", _) => Ok(Request::Say(format!("kuspigo {}\n", env!("CARGO_PKG_VERSION")))),
        (_, Some(word)) => {
            Parser { word, file: None, text: None, formula: false, picks: None, with: None, out: None }.all(arguments)
        }
        _ => Err(usage(&format!("there is no word `{}`", crate::plain_text(&first)))),
    }
}

/// An option's name, and its value if it stands in the same argument: `--name=value`, `-ovalue`, `-evalue`.
fn split(argument: &OsStr) -> (String, Option<OsString>) {
    let bytes = argument.as_bytes();
    let [name, value] = match bytes.iter().position(|&byte| byte == b'=') {
        Some(at) if bytes.starts_with(b"--") => [0..at, at + 1..bytes.len()],
        _ if (bytes.starts_with(b"-o") || bytes.starts_with(b"-e")) && bytes.len() > 2 => [0..2, 2..bytes.len()],
        _ => return (argument.to_string_lossy().into_owned(), None),
    };
    let value = OsStr::from_bytes(&bytes[value]).to_os_string();
    (String::from_utf8_lossy(&bytes[name]).into_owned(), Some(value))
}

struct Parser {
    word: Word,
    file: Option<PathBuf>,
    text: Option<Vec<u8>>,
    formula: bool,
    picks: Option<Picks>,
    with: Option<PathBuf>,
    out: Option<PathBuf>,
}

impl Parser {
    fn all(mut self, mut rest: impl Iterator<Item = OsString>) -> Result<Request, Failure> {
        let mut options = true;
        while let Some(argument) = rest.next() {
            if !options || argument == "-" || !argument.as_bytes().starts_with(b"-") {
                self.set_file(argument)?;
                continue;
            }
            let (name, joined) = split(&argument);
            let shown = crate::plain_text(&name);
            let joined = match (&*name, joined) {
                // `--formula FILE` is two arguments, the second one a file like any other
                ("--formula", Some(file)) => {
                    self.set_formula()?;
                    self.set_file(file)?;
                    continue;
                }
                (_, joined) => joined,
            };
            let valued = match &*name {
                "--picks" | "--with" | "--random" | "--text" | "-e" | "-o" | "--output" => true,
                "--formula" | "--round-robin" | "--help" | "-h" | "--" => false,
                _ => return Err(self.usage(&format!("there is no option {shown}"))),
            };
            if joined.is_some() && !valued {
                return Err(self.usage(&format!("{shown} takes no value")));
            }
            let value = match valued {
                true => joined.or_else(|| rest.next()).ok_or_else(|| self.usage(&format!("{name} needs a value")))?,
                false => OsString::new(),
            };
            match &*name {
                "--help" | "-h" => return Ok(Request::Say(self.word.help())),
                "--" => options = false,
                "--formula" => self.set_formula()?,
                "--text" | "-e" => self.set_text(value)?,
                "--picks" => self.set_picks(Picks::File(value.into()))?,
                "--with" => self.set_with(value.into())?,
                "--round-robin" => self.set_picks(Picks::RoundRobin)?,
                "--random" => {
                    let seed = value.to_string_lossy().parse();
                    let seed = seed.map_err(|_| self.usage("--random needs a whole number from 0 to 2^64 - 1"))?;
                    self.set_picks(Picks::Random(seed))?;
                }
                _ => self.set_out(value.into())?,
            }
        }
        self.finish()
    }

    fn set_file(&mut self, file: OsString) -> Result<(), Failure> {
        match self.file.replace(file.into()) {
            None => Ok(()),
            Some(_) if self.word.takes_picks() => Err(self.usage("one file is enough; that of picks follows --picks")),
            Some(_) if self.word.takes_lists() => {
                Err(self.usage("one file is enough; those of picks follow --picks and --with"))
            }
            Some(_) => Err(self.usage("one file is enough")),
        }
    }

    fn set_formula(&mut self) -> Result<(), Failure> {
        self.formula = true;
        match self.word {
            Word::Formula => Err(self.usage("FILE is a formula without --formula")),
            Word::Back => Err(self.usage("no formula is taken")),
            _ => Ok(()),
        }
    }

    fn set_text(&mut self, text: OsString) -> Result<(), Failure> {
        if matches!(self.word, Word::Back) {
            return Err(self.usage("no formula is taken"));
        }
        match self.text.replace(text.into_vec()) {
            None => Ok(()),
            Some(_) => Err(self.usage("one --text is enough")),
        }
    }

    fn set_picks(&mut self, picks: Picks) -> Result<(), Failure> {
        match (self.word, &picks) {
            (Word::Exchange, Picks::File(_)) => {}
            (Word::Exchange, _) => return Err(self.usage("the picks are files")),
            (word, _) if !word.takes_picks() => return Err(self.usage("no picks are taken")),
            _ => {}
        }
        match self.picks.replace(picks) {
            None => Ok(()),
            Some(_) if self.word.takes_lists() => Err(self.usage("one --picks is enough")),
            Some(_) => Err(self.usage("one of --picks, --round-robin and --random is enough")),
        }
    }

    fn set_with(&mut self, picks: PathBuf) -> Result<(), Failure> {
        if !self.word.takes_lists() {
            return Err(self.usage("no second list is taken"));
        }
        match self.with.replace(picks) {
            None => Ok(()),
            Some(_) => Err(self.usage("one --with is enough")),
        }
    }

    fn set_out(&mut self, out: PathBuf) -> Result<(), Failure> {
        if !self.word.takes_out() {
            return Err(self.usage("nothing is written to a file"));
        }
        match self.out.replace(out) {
            None => Ok(()),
            Some(_) => Err(self.usage("one -o is enough")),
        }
    }

    fn finish(self) -> Result<Request, Failure> {
        match (&self.file, &self.text) {
            (None, None) => return Err(self.usage("which file?")),
            (Some(_), Some(_)) => return Err(self.usage("a file or --text is enough")),
            _ => {}
        }
        if (self.word.takes_picks() || self.word.takes_lists()) && self.picks.is_none() {
            return Err(self.usage("which picks?"));
        }
        if self.word.takes_lists() && self.with.is_none() {
            return Err(self.usage("with which other picks?"));
        }
        if self.word.takes_out() && self.out.is_none() {
            return Err(self.usage("where to? -o FILE"));
        }
        if self.read_files().filter(|file| crate::is_standard(file)).count() > 1 {
            return Err(self.usage(match self.word.takes_lists() {
                true => "one of job and lists can be standard input",
                false => "job and picks cannot both be standard input",
            }));
        }
        if let Some(out) = self.out.as_deref().filter(|out| self.reads(out)) {
            return Err(self.usage(&format!("{} is read, and would be overwritten", crate::named(out))));
        }
        let Parser { word, file, text, formula, picks, with, out } = self;
        let source = match file {
            Some(file) => Source::File(file),
            None => Source::Text(text.expect("tested above")),
        };
        Ok(Request::Do(Call { word, source, formula, picks, with, out }))
    }

    /// The files that are read.
    fn read_files(&self) -> impl Iterator<Item = &PathBuf> {
        let picks = match &self.picks {
            Some(Picks::File(picks)) => Some(picks),
            _ => None,
        };
        self.file.iter().chain(picks).chain(&self.with)
    }

    /// Whether an output is a file that is read.
    fn reads(&self, out: &Path) -> bool {
        self.read_files().any(|file| crate::same_file(file, out))
    }

    fn usage(&self, what: &str) -> Failure {
        let name = self.word.name();
        let usage = self.word.usage(" (--picks FILE | --round-robin | --random SEED)");
        Failure::Usage(format!("kuspigo {name}: {what}\nusage: {usage}\nkuspigo {name} --help tells more\n"))
    }
}

fn usage(what: &str) -> Failure {
    let mut text = format!("kuspigo: {what}\n");
    for (at, word) in WORDS.into_iter().enumerate() {
        text += &format!("{} {}\n", if at == 0 { "usage:" } else { "      " }, word.usage(" PICKS"));
    }
    Failure::Usage(text + "kuspigo --help tells more\n")
}
