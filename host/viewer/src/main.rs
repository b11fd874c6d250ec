//! `kuspigo`: a viewer of jobs, formulas, code and runs for the service engineer.
//!
//! Nothing here is proved. What it shows comes from the proved library: which formula, job or code is refused, with number
//! and place, the job of a formula, the compiled code, the job that was read back, each step's rule and the state that it
//! left, the listing.

mod args;
mod exchange;
mod failure;
mod follows;
mod formula;
mod input;
mod picture;
mod progress;
mod script;
mod show;
mod telling;
mod trace;
mod walk;

use args::{Call, Picks, Request, Word};
use failure::Failure;
use follows::Ran;
use input::{Accepted, Input};
use kuspigo::State;
use progress::Progress;
use std::ffi::OsStr;
use std::fs::File;
use std::io::{self, BufWriter, IsTerminal, Read, Write};
use std::os::unix::fs::MetadataExt;
use std::path::Path;
use std::process::ExitCode;
use walk::{List, Pick, Walk};

fn main() -> ExitCode {
    match args::parse(std::env::args_os().skip(1)).and_then(perform) {
        Ok(()) => ExitCode::SUCCESS,
        Err(failure) => {
            say(&failure.to_string());
            ExitCode::from(failure.status())
        }
    }
}

/// On standard error. That nobody can be told is no reason to stop.
fn say(text: &str) {
    let _ = io::stderr().write_all(text.as_bytes());
}

fn perform(request: Request) -> Result<(), Failure> {
    let call = match request {
        Request::Say(text) => return print(text.as_bytes()),
        Request::Do(call) => call,
    };
    match call.word {
        Word::Check => check(&call),
        Word::Show => show(&call),
        Word::Compile => write(call.out(), &Input::read(&call)?.accepted()?.code),
        Word::Formula | Word::Back => write(call.out(), &Input::read(&call)?.accepted()?.job),
        Word::Run => run(&call),
        Word::Trace => trace(&call),
        Word::Picture => picture(&call),
        Word::Exchange => exchange(&call),
    }
}

fn check(call: &Call) -> Result<(), Failure> {
    let Accepted { job, .. } = Input::read(call)?.accepted()?;
    let told = kuspigo::forecast(&job).expect("the library accepted this job");
    print(show::forecast(&call.source.name(), &job, &told).as_bytes())
}

/// The script and its code, or the script as a formula.
fn show(call: &Call) -> Result<(), Failure> {
    let Accepted { job, code } = Input::read(call)?.accepted()?;
    let text = match call.formula {
        true => formula::printed(&job) + "\n",
        false => format!("{}\n{}", show::script(&job), show::code(&code)),
    };
    print(text.as_bytes())
}

/// What the run program prints, on standard output also if it is a refusal.
fn run(call: &Call) -> Result<(), Failure> {
    match Prepared::new(call) {
        Ok(prepared) => {
            let picks = match &prepared.list {
                List::Given(picks) => picks.clone(),
                List::RoundRobin | List::Random(_) => prepared.walked(prepared.progress(), |_| Ok(()))?.0,
            };
            print(&prepared.listing(&picks))
        }
        Err(failure) => {
            if let Failure::Refused { refusal, .. } | Failure::RefusedFormula { refusal, .. } = &failure {
                let line = format!("refused {} at {}\n", refusal.number(), refusal.place);
                print(line.as_bytes()).unwrap_or_else(|unwritten| say(&unwritten.to_string()));
            }
            Err(failure)
        }
    }
}

/// A line for each pick, where each thread then stands, the registers' counts, the listing.
fn trace(call: &Call) -> Result<(), Failure> {
    let prepared = Prepared::new(call)?;
    // lines that are seen to come are progress enough
    let progress = if io::stdout().is_terminal() { Progress::none() } else { prepared.progress() };
    let mut out = BufWriter::new(io::stdout().lock());
    let told = || -> Result<(), Failure> {
        out.write_all(trace::HEAD.as_bytes()).map_err(Failure::output)?;
        let (picks, state) =
            prepared.walked(progress, |pick| out.write_all(trace::line(&pick).as_bytes()).map_err(Failure::output))?;
        let (threads, counts) = (trace::threads(&prepared.code, &state), trace::counts(&state));
        let end = [b"\n", threads.as_bytes(), b"\n", counts.as_bytes(), b"\n", &prepared.listing(&picks)].concat();
        out.write_all(&end).and_then(|()| out.flush()).map_err(Failure::output)
    };
    unless_closed(told())
}

fn picture(call: &Call) -> Result<(), Failure> {
    let prepared = Prepared::new(call)?;
    let mut picks = Vec::new();
    prepared.walked(prepared.progress(), |pick| {
        picks.push(pick);
        Ok(())
    })?;
    let title = format!("{}, {}", call.source.short_name(), prepared.whose);
    write(call.out(), picture::svg(&title, &picks).as_bytes())
}

/// Whether the second list follows from the first. What is said is on standard output, the status is 1 if it does not.
fn exchange(call: &Call) -> Result<(), Failure> {
    let input = Input::read(call)?;
    let [first, second] = call.lists();
    let [picks, others] = [read(first)?, read(second)?];
    let Accepted { code, .. } = input.accepted()?;
    let (follows, text) = follows::told(&code, &[ran(&code, first, picks)?, ran(&code, second, others)?]);
    print(text.as_bytes())?;
    match follows {
        true => Ok(()),
        false => Err(Failure::No),
    }
}

/// With what a file's picks end, from the fresh state, if the library does not refuse them. That all are idle is said.
fn ran(code: &[u8], file: &Path, picks: Vec<u8>) -> Result<Ran, Failure> {
    let name = named(file);
    let mut state = State::fresh(code).expect("the library compiled this code");
    let counts = state.run(code, &picks).map_err(|refusal| Failure::refused(name.clone(), &picks, refusal))?;
    if counts.steps == 0 && counts.idle > 0 {
        say(&format!("kuspigo: {name}: every pick is idle; its bytes are the threads' numbers\n"));
    }
    Ok(Ran { name, picks, state, counts })
}

/// A job that was accepted, and picks for it.
struct Prepared {
    job: Vec<u8>,
    code: Vec<u8>,
    list: List,
    /// Where the picks come from, in words.
    whose: String,
}

impl Prepared {
    fn new(call: &Call) -> Result<Prepared, Failure> {
        let input = Input::read(call)?;
        let given = match call.picks() {
            Picks::File(file) => Some((file, read(file)?)),
            Picks::RoundRobin | Picks::Random(_) => None,
        };
        let Accepted { job, code } = input.accepted()?;
        let (list, whose) = match (call.picks(), given) {
            (_, Some((file, picks))) => {
                (List::Given(ran(&code, file, picks)?.picks), format!("picks of {}", short_name(file)))
            }
            (Picks::Random(seed), None) => (List::random(*seed), format!("random picks, seed {seed}")),
            (_, None) => (List::RoundRobin, "round robin".to_string()),
        };
        Ok(Prepared { job, code, list, whose })
    }

    /// Goes through the picks one by one; gives the whole list and the state at its end.
    fn walked(
        &self,
        mut progress: Progress,
        mut each: impl FnMut(Pick) -> Result<(), Failure>,
    ) -> Result<(Vec<u8>, State), Failure> {
        let mut picks = Vec::new();
        let mut walk = Walk::new(&self.code, self.list.clone());
        for pick in &mut walk {
            picks.push(pick.thread);
            each(pick)?;
            progress.tick(picks.len());
        }
        drop(progress);
        if self.list.length().is_none() && !walk.state.is_finished() {
            say(&format!("kuspigo: the list ends after {} picks, with threads that have not ended\n", picks.len()));
        }
        Ok((picks, walk.state))
    }

    fn progress(&self) -> Progress {
        Progress::start(self.list.length())
    }

    /// What the run program prints for the job and the picks.
    fn listing(&self, picks: &[u8]) -> Vec<u8> {
        let length = u16::try_from(self.job.len()).expect("an accepted job is short");
        let input = [&length.to_be_bytes()[..], &self.job, picks].concat();
        kuspigo::report(&input).expect("there is room for every listing")
    }
}

/// `-` is standard input or output.
fn is_standard(file: &Path) -> bool {
    file.as_os_str() == OsStr::new("-")
}

/// Whether an output is the file that is read, under whatever name.
fn same_file(read: &Path, out: &Path) -> bool {
    let read = if is_standard(read) { Path::new("/dev/stdin") } else { read };
    match (read.metadata(), out.metadata()) {
        (Ok(read), Ok(file)) if !is_standard(out) => {
            file.is_file() && (read.dev(), read.ino()) == (file.dev(), file.ino())
        }
        _ => false,
    }
}

/// A file's name as messages have it.
fn named(file: &Path) -> String {
    match is_standard(file) {
        true => "standard input".to_string(),
        false => plain_text(&file.to_string_lossy()),
    }
}

/// Without characters that a terminal obeys.
fn plain_text(text: &str) -> String {
    text.chars().map(|c| if c.is_control() { '\u{FFFD}' } else { c }).collect()
}

/// Without its folder, as a picture's title has it.
fn short_name(file: &Path) -> String {
    match file.file_name() {
        Some(name) if !is_standard(file) => name.to_string_lossy().into_owned(),
        _ => named(file),
    }
}

/// So many bytes of a file are read. No accepted job, code, list or formula is as long, and no refusal depends on what
/// follows.
const MOST_BYTES: u64 = 65_536;

fn read(file: &Path) -> Result<Vec<u8>, Failure> {
    let mut bytes = Vec::new();
    let read = match is_standard(file) {
        true => io::stdin().lock().take(MOST_BYTES).read_to_end(&mut bytes),
        false => File::open(file).and_then(|file| file.take(MOST_BYTES).read_to_end(&mut bytes)),
    };
    read.map_err(|error| Failure::File(named(file), error))?;
    Ok(bytes)
}

fn write(file: &Path, bytes: &[u8]) -> Result<(), Failure> {
    match is_standard(file) {
        true => print(bytes),
        false => std::fs::write(file, bytes).map_err(|error| Failure::File(named(file), error)),
    }
}

fn print(bytes: &[u8]) -> Result<(), Failure> {
    let mut out = io::stdout().lock();
    unless_closed(out.write_all(bytes).and_then(|()| out.flush()).map_err(Failure::output))
}

/// Whoever reads the output may stop early, as `head` does.
fn unless_closed(told: Result<(), Failure>) -> Result<(), Failure> {
    match told {
        Err(Failure::File(_, error)) if error.kind() == io::ErrorKind::BrokenPipe => Ok(()),
        told => told,
    }
}
