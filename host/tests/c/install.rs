//! `host/install`: what it installs works for a C program and by hand, and nothing else is overwritten.

use crate::support::{built, folder, package, printed, there_is, C99, LISTING};
use std::collections::BTreeMap;
use std::path::{Path, PathBuf};
use std::process::Command;

fn install(here: &Path, arguments: &[&str]) -> (String, i32) {
    said("install", here, arguments)
}

/// What a script of this package says, called in a folder, and its exit status.
fn said(script: &str, here: &Path, arguments: &[&str]) -> (String, i32) {
    let output = Command::new("bash")
        .arg(package().join(script))
        .args(arguments)
        .current_dir(here)
        .output()
        .expect("there is a bash");
    let said = [output.stdout, output.stderr].concat();
    (String::from_utf8_lossy(&said).into_owned(), output.status.code().expect("the command ends by itself"))
}

/// Every file below a folder, with its bytes.
fn files(folder: &Path) -> BTreeMap<PathBuf, Vec<u8>> {
    let mut found = BTreeMap::new();
    for entry in folder.read_dir().expect("a folder") {
        let path = entry.expect("a file").path();
        match path.is_dir() {
            true => found.extend(files(&path)),
            false => {
                let bytes = std::fs::read(&path).expect("a file");
                found.insert(path, bytes);
            }
        }
    }
    found
}

fn pkg_config(prefix: &Path, words: &[&str]) -> Vec<String> {
    let output = Command::new("pkg-config")
        .args(words)
        .arg("kuspigo")
        .env("PKG_CONFIG_PATH", prefix.join("lib/pkgconfig"))
        .output()
        .expect("pkg-config starts");
    assert!(output.status.success(), "{}", String::from_utf8_lossy(&output.stderr));
    String::from_utf8_lossy(&output.stdout).split_whitespace().map(str::to_string).collect()
}

#[test]
fn what_is_installed_works() {
    let here = folder("installed");
    // a name from the folder in which the command is called
    let (said, status) = install(&here, &["--prefix", "tree", "--keep-archive"]);
    assert_eq!(status, 0, "{said}");
    let prefix = here.join("tree");
    let names: Vec<_> = files(&prefix).into_keys().collect();
    let expected =
        ["bin/kuspigo", "include/kuspigo.h", "lib/libkuspigo.a", "lib/pkgconfig/kuspigo.pc", "share/kuspigo/installed"];
    assert_eq!(names, expected.map(|name| prefix.join(name)));

    let example = |file| package().join("examples").join(file);
    let mut viewer = Command::new(prefix.join("bin/kuspigo"));
    let ran = viewer.arg("run").arg(example("whole.job")).arg("--picks").arg(example("whole.picks")).output();
    assert_eq!(String::from_utf8_lossy(&ran.expect("the viewer starts").stdout), LISTING);

    if there_is("cc") {
        let flags = match there_is("pkg-config") {
            true => {
                assert_eq!(pkg_config(&prefix, &["--variable=api"]), [kuspigo::API.to_string()]);
                pkg_config(&prefix, &["--cflags", "--libs"])
            }
            false => {
                let (include, lib) = (prefix.join("include"), prefix.join("lib"));
                vec![format!("-I{}", include.display()), format!("-L{}", lib.display()), "-lkuspigo".to_string()]
            }
        };
        let program = here.join("program");
        let output = built(C99, "examples/run.c", &program, &flags);
        assert!(output.status.success(), "{}", String::from_utf8_lossy(&output.stderr));
        assert_eq!(printed(&program), LISTING);
    }

    // again, over its own files, and not over one that somebody changed
    let before = files(&prefix);
    let (said, status) = install(&here, &["--keep-archive", &format!("--prefix={}", prefix.display())]);
    assert_eq!((status, files(&prefix) == before), (0, true), "{said}");
    std::fs::write(prefix.join("include/kuspigo.h"), "mine").expect("a test's file is written");
    let before = files(&prefix);
    let (said, status) = install(&here, &["--prefix", "tree", "--keep-archive"]);
    assert_eq!((status, files(&prefix) == before), (2, true), "{said}");
    assert!(said.contains("tree/include/kuspigo.h is there, and not as this command installed it"), "{said}");
}

#[test]
fn bad_input_installs_nothing() {
    let here = folder("refused");
    for file in ["taken/bin/kuspigo", "listed/share/kuspigo/installed", "file", "blocked/lib"] {
        std::fs::create_dir_all(here.join(file).parent().unwrap()).expect("there is room for a test's files");
        std::fs::write(here.join(file), "mine").expect("a test's file is written");
    }
    let before = files(&here);
    for (arguments, message) in [
        (&[][..], "where to? bash host/install --prefix DIR"),
        (&["--keep-archive"], "where to? bash host/install --prefix DIR"),
        (&["--prefix"], "--prefix needs a folder"),
        (&["--prefix", ""], "--prefix needs a folder"),
        (&["--prefix="], "--prefix needs a folder"),
        (&["--prefix", "--keep-archive"], "--prefix needs a folder; one named --keep-archive is ./--keep-archive"),
        (&["--prefix", "a", "--prefix", "b"], "one --prefix is enough"),
        (&["--prefix", "a", "b"], "what is b? bash host/install --help tells more"),
        (&["--prefix", "a b"], "a pkg-config file cannot name the folder"),
        (&["--prefix", "a$b"], "a pkg-config file cannot name the folder"),
        (&["--prefix", "file"], "file is not a folder"),
        (&["--prefix", "file/below"], "file is not a folder"),
        (&["--prefix", "blocked"], "blocked/lib is not a folder"),
        (&["--prefix", "taken"], "taken/bin/kuspigo is there, and not as this command installed it"),
        (&["--prefix", "listed"], "listed/share/kuspigo/installed is there, and not as this command installed it"),
    ] {
        let (said, status) = install(&here, arguments);
        assert_eq!((status, files(&here) == before), (2, true), "{arguments:?}: {said}");
        assert!(said.starts_with("host/install: ") && said.contains(message), "{arguments:?}: {said}");
    }
    let (text, status) = install(&here, &["--help"]);
    assert_eq!((status, text.starts_with("usage: bash host/install --prefix DIR")), (0, true), "{text}");
    let (text, status) = said("archive", &here, &["exports"]);
    assert_eq!((status, text.as_str()), (2, "host/archive: nothing is taken but --help: exports\n"));
    let (text, status) = said("archive", &here, &["--help"]);
    assert_eq!((status, text.starts_with("usage: bash host/archive")), (0, true), "{text}");
}
