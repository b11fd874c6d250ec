//! Running the program, and jobs for it.

use plain::samples::{far, many_small, Lean, Rng, Shape};
use plain::tree::Process;
use std::ffi::OsStr;
use std::io::Write;
use std::path::{Path, PathBuf};
use std::process::{Command, Output, Stdio};

/// What a program wrote, and its exit status.
#[derive(PartialEq, Eq, Debug)]
pub struct Said {
    pub out: String,
    pub err: String,
    pub status: i32,
}

impl Said {
    pub fn of(output: Output) -> Said {
        Said {
            out: String::from_utf8_lossy(&output.stdout).into_owned(),
            err: String::from_utf8_lossy(&output.stderr).into_owned(),
            status: output.status.code().expect("the program ends by itself"),
        }
    }
}

pub fn viewer() -> Command {
    Command::new(env!("CARGO_BIN_EXE_kuspigo"))
}

/// What the program says in a folder of its own, in which a test's files are.
pub fn said<S: AsRef<OsStr>>(folder: &Path, arguments: &[S]) -> Said {
    Said::of(viewer().current_dir(folder).args(arguments).output().expect("the program starts"))
}

pub fn accepted(out: &str) -> Said {
    Said { out: out.to_string(), err: String::new(), status: 0 }
}

pub fn refused(out: &str, err: &str) -> Said {
    Said { out: out.to_string(), err: err.to_string(), status: 1 }
}

pub fn fed(program: &mut Command, input: &[u8]) -> Said {
    let mut child = program
        .stdin(Stdio::piped())
        .stdout(Stdio::piped())
        .stderr(Stdio::piped())
        .spawn()
        .expect("the program starts");
    child.stdin.take().expect("it is piped").write_all(input).expect("the program reads its input");
    Said::of(child.wait_with_output().expect("the program ends"))
}

/// A new folder for a test's files, with the whole case in it.
pub fn folder(name: &str) -> PathBuf {
    let folder = Path::new(env!("CARGO_TARGET_TMPDIR")).join("viewer").join(name);
    let _ = std::fs::remove_dir_all(&folder);
    std::fs::create_dir_all(&folder).expect("there is room for a test's files");
    for file in ["whole.job", "whole.formula", "whole.picks", "whole.exchanged.picks", "sixteen.job"] {
        put(&folder, file, &example(file));
    }
    folder
}

pub fn example(file: &str) -> Vec<u8> {
    std::fs::read(Path::new(env!("CARGO_MANIFEST_DIR")).join("../examples").join(file)).expect("the example is there")
}

pub fn put(folder: &Path, file: &str, bytes: &[u8]) {
    std::fs::write(folder.join(file), bytes).expect("a test's file is written");
}

pub fn got(folder: &Path, file: &str) -> Vec<u8> {
    std::fs::read(folder.join(file)).expect("the program wrote its file")
}

/// The whole case with another byte.
pub fn damaged(at: usize, byte: u8) -> Vec<u8> {
    let mut job = example("whole.job");
    job[at] = byte;
    job
}

pub const LISTING: &str = "\
steps 21 idle 0 commits 2 back 1 over 0
thread 0 done 0
thread 1 done 2
thread 2 done 1
register 0 2
";

/// A transaction is due at 12, and a process stands there.
pub const KIND: &str = "\
kuspigo: kind.job: refused 5 (kind) at 12: The node's kind is unknown or not permitted there.
The kind is 1; a transaction, of kind 5 to 8, is due.
It is in WRITE at 10, in ATOMIC at 9, in FORK at 8, in ADDP at 7.

offset  bytes in hex
     0  57 53 4A 00 01 00 0D 02 04 03 08 00 01 07 00 05
                                            ^^ 12
    16  00 00 00 01 04 03 08 00 06 07 00 05 00 00 00 01
";

/// The tree of an accepted job, not too large; one in three has threads that often send each other back.
pub fn random_tree(rng: &mut Rng) -> Process {
    if rng.one_in(3) {
        let threads = rng.between(2, 16);
        return many_small(threads * rng.between(8, 20), threads);
    }
    loop {
        let lean = rng.choose(&[Lean::Even, Lean::Left, Lean::Right, Lean::Any]);
        let nodes = rng.between(1, 150);
        let forks = rng.below(16);
        let shape = Shape { nodes, room: 64, forks, transaction: 60, registers: 3, lean };
        let mut tree = shape.tree(rng);
        if rng.one_in(4) {
            tree = far(rng, tree);
        }
        if kuspigo::compile(&tree.job()).is_ok() {
            return tree;
        }
    }
}

pub fn random_picks(rng: &mut Rng) -> Vec<u8> {
    let most = rng.choose(&[1, 3, 5, 16, 17, 256]);
    let length = match rng.below(40) {
        0 => rng.between(32_766, 32_770),
        1..=9 => rng.below(5),
        _ => rng.below(600),
    };
    (0..length).map(|_| rng.below(most) as u8).collect()
}

/// The number behind some words of a line.
pub fn number_behind(text: &str, words: &str) -> i64 {
    let rest = text.split_once(words).unwrap_or_else(|| panic!("`{words}` is in: {text}")).1;
    let end = rest.find(|c: char| c != '-' && !c.is_ascii_digit()).unwrap_or(rest.len());
    rest[..end].parse().unwrap_or_else(|_| panic!("a number follows `{words}` in: {text}"))
}

/// The picks of a trace.
pub fn traced(trace: &str) -> Vec<u8> {
    let lines = trace.lines().skip(1).take_while(|line| !line.is_empty());
    lines.map(|line| line[7..13].trim().parse().expect("a thread")).collect()
}
