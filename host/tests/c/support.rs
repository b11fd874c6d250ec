//! Building C programs.

use std::path::{Path, PathBuf};
use std::process::{Command, Output};

/// A language that the header is for: its compiler, and the words that choose it.
pub type Language = (&'static str, &'static [&'static str]);

pub const C99: Language = ("cc", &["-std=c99"]);
pub const C11: Language = ("cc", &["-std=c11"]);
pub const CXX11: Language = ("c++", &["-std=c++11", "-x", "c++"]);

const WARNINGS: [&str; 4] = ["-Wall", "-Wextra", "-Wpedantic", "-Werror"];

pub fn package() -> &'static Path {
    Path::new(env!("CARGO_MANIFEST_DIR"))
}

/// A new folder for a test's files.
pub fn folder(name: &str) -> PathBuf {
    let folder = Path::new(env!("CARGO_TARGET_TMPDIR")).join("c").join(name);
    let _ = std::fs::remove_dir_all(&folder);
    std::fs::create_dir_all(&folder).expect("there is room for a test's files");
    folder
}

/// Whether there is such a program; if not, the test says so and has nothing to do.
pub fn there_is(program: &str) -> bool {
    let there = Command::new(program).arg("--version").output().is_ok();
    if !there {
        println!("There is no `{program}` here: this is not tested.");
    }
    there
}

/// Compiles a file of this package with the warnings as errors and links it; `more` has where header and archive are.
pub fn built(language: Language, source: &str, program: &Path, more: &[String]) -> Output {
    let (compiler, chosen) = language;
    let mut command = Command::new(compiler);
    command.args(chosen).args(WARNINGS).arg(package().join(source));
    // what follows is not in the language chosen above
    if chosen.contains(&"-x") {
        command.args(["-x", "none"]);
    }
    command.arg("-o").arg(program).args(more).output().expect("the compiler starts")
}

/// The header of a folder and the archive of this project.
pub fn flags(include: &Path) -> Vec<String> {
    let archives = package().join("../target/staticlib");
    vec![format!("-I{}", include.display()), format!("-L{}", archives.display()), "-lkuspigo".to_string()]
}

/// What the program of a file of this package prints; nothing if there is no compiler.
pub fn output_of(language: Language, source: &str, more: &[&str]) -> Option<String> {
    program_of(language, source, more).map(|program| printed(&program))
}

/// The program of a file of this package; nothing if there is no compiler.
pub fn program_of(language: Language, source: &str, more: &[&str]) -> Option<PathBuf> {
    if !there_is(language.0) {
        return None;
    }
    let name = format!("{source}{}", language.1.concat());
    let program = folder(&name.replace(['/', '.', '='], "_")).join("program");
    let flags: Vec<String> =
        more.iter().map(|word| word.to_string()).chain(flags(&package().join("../include"))).collect();
    let output = built(language, source, &program, &flags);
    assert!(output.status.success(), "{name} is not built:\n{}", String::from_utf8_lossy(&output.stderr));
    Some(program)
}

pub fn printed(program: &Path) -> String {
    let ran = Command::new(program).output().expect("the program starts");
    assert!(ran.status.success(), "{} ends with {}", program.display(), ran.status);
    String::from_utf8(ran.stdout).expect("the program prints text")
}

/// Document 01's whole case.
pub const LISTING: &str =
    "steps 21 idle 0 commits 2 back 1 over 0\nthread 0 done 0\nthread 1 done 2\nthread 2 done 1\nregister 0 2\n";
