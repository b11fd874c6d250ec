//! Links the library's archive, which `host/archive` makes. Before that: header, wrapper and archive are of one version of
//! the C interface, and the archive is made of the parts that lie beside it.

use std::path::Path;

#[macro_use]
#[path = "src/api.rs"]
mod api;

const HEADER: &str = "include/kuspigo.h";
const ARCHIVE: &str = "target/staticlib/libkuspigo.a";
const PARTS: [&str; 2] = ["target/staticlib/libexports_c.a", "target/staticlib/libengine_c.a"];

fn main() {
    let package = std::env::var("CARGO_MANIFEST_DIR").expect("Cargo names the package's folder");
    let project = Path::new(&package).join("..");
    println!("cargo:rerun-if-changed=build.rs");
    println!("cargo:rerun-if-changed=src/api.rs");
    for file in [HEADER, ARCHIVE].iter().chain(&PARTS) {
        println!("cargo:rerun-if-changed={}", project.join(file).display());
    }
    if let Err(message) = check(&project) {
        eprintln!("{message}");
        std::process::exit(1);
    }
    println!("cargo:rustc-link-search=native={}", project.join("target/staticlib").display());
    println!("cargo:rustc-link-lib=static=kuspigo");
}

fn check(project: &Path) -> Result<(), String> {
    let own = api!().to_string();
    let header = std::fs::read_to_string(project.join(HEADER)).map_err(|error| format!("{HEADER}: {error}"))?;
    match header.lines().find_map(|line| line.strip_prefix("#define KUSPIGO_API ")).map(str::trim) {
        Some(number) if number == own => {}
        number => {
            let number = number.unwrap_or("no");
            return Err(format!(
                "{HEADER} has {number} as version of the C interface, and this package is for version {own}."
            ));
        }
    }
    let archive = std::fs::read(project.join(ARCHIVE)).map_err(|error| {
        format!("The archive {ARCHIVE} is missing: run `bash host/archive` in the project's folder first. ({error})")
    })?;
    for part in PARTS {
        // an archive that was installed or copied lies alone
        let Ok(bytes) = std::fs::read(project.join(part)) else { continue };
        if !members(&bytes).all(|member| archive.windows(member.len()).any(|bytes| bytes == member)) {
            return Err(format!("{ARCHIVE} is not made of {part}: run `bash host/archive` in the project's folder."));
        }
    }
    let numbers = versions(&archive);
    if !numbers.contains(&own) {
        let has = if numbers.is_empty() { "none".to_string() } else { numbers.join(", ") };
        return Err(format!(
            "{ARCHIVE} has no function kuspigo_api_{own}; its version of the C interface is {has}, and this package \
             is for version {own}."
        ));
    }
    Ok(())
}

/// The files that an archive has, without its own lists: each stands behind 60 bytes, its name in the first 16 and its
/// length in those from 48 on, at an even place.
fn members(archive: &[u8]) -> impl Iterator<Item = &[u8]> {
    let mut at = "!<arch>\n".len();
    std::iter::from_fn(move || {
        let head = archive.get(at..at + 60)?;
        let length: usize = std::str::from_utf8(&head[48..58]).ok()?.trim_end().parse().ok()?;
        let member = archive.get(at + 60..at + 60 + length)?;
        at += 60 + length.next_multiple_of(2);
        Some((head, member))
    })
    .filter(|(head, _)| !head.starts_with(b"/ ") && !head.starts_with(b"//"))
    .map(|(_, member)| member)
}

/// The numbers that an archive's list of symbols has behind `kuspigo_api_`.
fn versions(archive: &[u8]) -> Vec<String> {
    const NAME: &[u8] = b"kuspigo_api_";
    let mut found = Vec::new();
    for (at, _) in archive.windows(NAME.len()).enumerate().filter(|(_, bytes)| *bytes == NAME) {
        let rest = &archive[at + NAME.len()..];
        let digits: String = rest.iter().take_while(|byte| byte.is_ascii_digit()).map(|&byte| byte as char).collect();
        if !digits.is_empty() && rest.get(digits.len()) == Some(&0) && !found.contains(&digits) {
            found.push(digits);
        }
    }
    found
}
