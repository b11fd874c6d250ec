//! `host/archive`: what it puts together, and what it is not content with. In a project of its own, with parts made here
//! and an `rt` that has nothing to do.

use crate::support::{folder, package, there_is};
use std::os::unix::fs::PermissionsExt;
use std::path::Path;
use std::process::Command;

const WHOLE: &str = "target/staticlib/libkuspigo.a";

/// A program in the project's folder of programs.
fn program(here: &Path, name: &str, text: &str) {
    let file = here.join("bin").join(name);
    std::fs::write(&file, text).expect("a test's file is written");
    std::fs::set_permissions(&file, std::fs::Permissions::from_mode(0o755)).expect("a test's file is made a program");
}

/// An archive with one member, of the same name in each, where rt would put it.
fn part(here: &Path, name: &str, source: &str) {
    let folder = here.join("crates").join(name).join("out");
    std::fs::create_dir_all(&folder).expect("there is room for a test's files");
    std::fs::write(folder.join("part.c"), source).expect("a test's file is written");
    let archive = format!("lib{name}.a");
    let _ = std::fs::remove_file(folder.join(&archive));
    for command in [&["cc", "-c", "part.c", "-o", "part.o"][..], &["ar", "rcs", &archive, "part.o"]] {
        let status = Command::new(command[0]).args(&command[1..]).current_dir(&folder).status();
        assert!(status.expect("it starts").success(), "{command:?}");
    }
}

/// What `host/archive` says, and its exit status.
fn made(here: &Path) -> (String, i32) {
    let path = format!("{}:{}", here.join("bin").display(), std::env::var("PATH").expect("there is a PATH"));
    let output =
        Command::new("bash").arg(here.join("host/archive")).env("PATH", path).output().expect("there is a bash");
    let said = [output.stdout, output.stderr].concat();
    (String::from_utf8_lossy(&said).into_owned(), output.status.code().expect("the command ends by itself"))
}

#[test]
fn the_parts_are_put_together() {
    if !there_is("cc") || !there_is("ar") {
        return;
    }
    let here = folder("archive");
    for folder in ["bin", "host"] {
        std::fs::create_dir_all(here.join(folder)).expect("there is room for a test's files");
    }
    std::fs::copy(package().join("archive"), here.join("host/archive")).expect("a test's file is written");
    program(&here, "rt", "#!/bin/sh\n");
    part(&here, "exports_c", "static int own(void) { return 1; }\nint kuspigo_one(void) { return own(); }\n");
    part(&here, "engine_c", "static int own(void) { return 2; }\nint kuspigo_two(void) { return own(); }\n");
    let both = "target/staticlib/libkuspigo.a has kuspigo_one kuspigo_two\n";
    assert_eq!(made(&here), (both.to_string(), 0));
    let members = Command::new("ar").arg("t").arg(here.join(WHOLE)).output().expect("ar starts").stdout;
    assert_eq!(String::from_utf8_lossy(&members), "exports_c-part.o\nengine_c-part.o\n");

    let whole = std::fs::read(here.join(WHOLE)).expect("the archive is there");
    let refuses = |expected: &str| {
        let refused = (format!("host/archive: {expected}\n"), 1);
        assert_eq!(made(&here), refused);
        assert_eq!(std::fs::read(here.join(WHOLE)).expect("the archive is there"), whole);
        let left = here.join("target/staticlib").read_dir().expect("a folder").map(|file| file.unwrap().file_name());
        assert!(left.into_iter().all(|name| !name.to_string_lossy().starts_with("merge")), "{expected}");
    };
    part(&here, "engine_c", "int kuspigo_one(void) { return 2; }\n");
    refuses("defined twice: kuspigo_one");
    part(&here, "engine_c", "int two;\n");
    refuses("exported, and not named kuspigo_: two");
    program(&here, "rt", "#!/bin/sh\nexit 1\n");
    refuses("rt lib failed in crates/exports_c");
}
