//! Header, archive and wrapper of different versions do not come together, and it is said why.

use crate::support::{built, flags, folder, package, there_is, C99};
use std::path::{Path, PathBuf};
use std::process::Command;

/// Another number than the interface has, of as many digits.
const OTHER: usize = if kuspigo::API % 10 == 9 { kuspigo::API - 1 } else { kuspigo::API + 1 };

/// The project's header.
fn header() -> String {
    std::fs::read_to_string(package().join("../include/kuspigo.h")).expect("the header is there")
}

/// The header of another version.
fn other_header() -> String {
    let line = |number: usize| format!("#define KUSPIGO_API {number}\n");
    let header = header();
    assert_eq!(header.matches(&line(kuspigo::API)).count(), 1);
    header.replace(&line(kuspigo::API), &line(OTHER))
}

/// What the C compiler and the linker say of an example, with a header in place of the project's; it must not be built.
fn complaint(name: &str, header: &str, more: &[&str]) -> String {
    let here = folder(name);
    put(&here, "kuspigo.h", header);
    let program = here.join("program");
    let flags: Vec<String> = more.iter().map(|word| word.to_string()).chain(flags(&here)).collect();
    let output = built(C99, "examples/run.c", &program, &flags);
    assert!(!output.status.success() && !program.exists(), "{name}: it is built");
    String::from_utf8_lossy(&output.stderr).into_owned()
}

#[test]
fn a_header_of_another_version_does_not_link() {
    if !there_is("cc") {
        return;
    }
    let apart = ["-O2", "-ffunction-sections", "-fdata-sections", "-Wl,--gc-sections"];
    for (name, more) in [("plain", &["-O0"][..]), ("optimised", &["-O2"]), ("collected", &apart)] {
        let said = complaint(name, &other_header(), more);
        assert!(said.contains(&format!("kuspigo_api_{OTHER}")), "{name}: {said}");
    }
}

#[test]
fn a_record_of_another_size_is_not_taken() {
    if !there_is("cc") {
        return;
    }
    let header = header();
    let shorter = header.replacen("    size_t rule; ", "", 1);
    assert!(shorter.len() < header.len());
    let said = complaint("shorter", &shorter, &["-O0"]);
    assert!(said.contains("kuspigo_thread_has_1112_bytes"), "{said}");
}

/// The archive in a project's folder.
const ARCHIVE: &str = "target/staticlib/libkuspigo.a";

/// A project with this one's wrapper, header and archive.
fn project(name: &str) -> PathBuf {
    let here = folder(name);
    for folder in ["include", "target/staticlib", "host/src"] {
        std::fs::create_dir_all(here.join(folder)).expect("there is room for a test's files");
    }
    put(&here, "include/kuspigo.h", header());
    put(&here, ARCHIVE, archive());
    put(
        &here,
        "host/Cargo.toml",
        "[package]\nname = \"kuspigo\"\nversion = \"0.0.0\"\nedition = \"2021\"\n[workspace]\n",
    );
    let sources = package().join("src").read_dir().expect("the sources are there").map(|file| file.unwrap().path());
    for file in sources.chain([package().join("build.rs")]) {
        let to = here.join("host").join(file.strip_prefix(package()).expect("a file of the package"));
        std::fs::copy(&file, to).expect("a test's file is written");
    }
    here
}

fn put(here: &Path, file: &str, bytes: impl AsRef<[u8]>) {
    std::fs::write(here.join(file), bytes).expect("a test's file is written");
}

fn archive() -> Vec<u8> {
    std::fs::read(package().join("..").join(ARCHIVE)).expect("the archive is there")
}

/// What Cargo says, the build script's words among it; it must not be content.
fn unbuilt(project: &Path) -> String {
    let mut cargo = Command::new(env!("CARGO"));
    // in a folder of the project's own, for Cargo takes packages of one name in one folder for the same
    let output =
        cargo.args(["build", "--offline", "--target-dir", "target"]).current_dir(project.join("host")).output();
    let output = output.expect("Cargo starts");
    assert!(!output.status.success(), "Cargo is content with {}", project.display());
    String::from_utf8_lossy(&output.stderr).into_owned()
}

#[test]
fn the_build_script_compares() {
    let (here, own) = (project("compared"), kuspigo::API);
    put(&here, "include/kuspigo.h", other_header());
    let said = unbuilt(&here);
    let expected =
        format!("include/kuspigo.h has {OTHER} as version of the C interface, and this package is for version {own}.");
    assert!(said.contains(&expected), "{said}");

    put(&here, "include/kuspigo.h", header());
    std::fs::remove_file(here.join(ARCHIVE)).expect("a test's file is removed");
    let said = unbuilt(&here);
    let expected = "target/staticlib/libkuspigo.a is missing: run `bash host/archive` in the project's folder first.";
    assert!(said.contains(expected), "{said}");

    // the two names have one length
    let (name, other) = (format!("kuspigo_api_{own}\0"), format!("kuspigo_api_{OTHER}\0"));
    let mut renamed = archive();
    let places: Vec<usize> =
        (0..renamed.len() - name.len()).filter(|&at| renamed[at..].starts_with(name.as_bytes())).collect();
    assert!(!places.is_empty());
    for at in places {
        renamed[at..at + other.len()].copy_from_slice(other.as_bytes());
    }
    put(&here, ARCHIVE, &renamed);
    let said = unbuilt(&here);
    let expected = format!("libkuspigo.a has no function kuspigo_api_{own}; its version of the C interface is {OTHER}");
    assert!(said.contains(&expected), "{said}");

    // an archive with one file in it that the whole has not
    let part = format!("!<arch>\n{:<16}{:<32}{:<10}`\nanother\n", "engine_c.o/", "0", 8);
    put(&here, "target/staticlib/libengine_c.a", part);
    let said = unbuilt(&here);
    assert!(
        said.contains("libkuspigo.a is not made of target/staticlib/libengine_c.a: run `bash host/archive`"),
        "{said}"
    );
}

/// Also where nothing is compared before, and where no call is made.
#[test]
fn a_wrapper_of_another_version_does_not_link() {
    let here = project("other_wrapper");
    let links = format!(
        "fn main() {{\n    println!(\"cargo:rustc-link-search=native={}\");\n    \
         println!(\"cargo:rustc-link-lib=static=kuspigo\");\n}}\n",
        here.join("target/staticlib").display()
    );
    put(&here, "host/build.rs", links);
    let own = std::fs::read_to_string(package().join("src/api.rs")).expect("the number is there");
    let other = own.replace(&format!("        {}\n", kuspigo::API), &format!("        {OTHER}\n"));
    assert!(own != other);
    put(&here, "host/src/api.rs", other);
    put(&here, "host/src/main.rs", "fn main() {\n    println!(\"{}\", kuspigo::API);\n}\n");
    let said = unbuilt(&here);
    assert!(said.contains(&format!("kuspigo_api_{OTHER}")), "{said}");
}
