//! Finds the proved static libraries, or has them made, and tells cargo to link
//! them.
//!
//! The variable VERDICT_STORE_ARCHIVE names a ready archive, or a folder of them
//! (relative to the repository's root, or absolute). Without it tools/archives.sh
//! has `rt lib` prove each static library `exports_.._c` of crates.txt and writes
//! its archive, `libexports_...a`; rt proves nothing again that has not changed.
//!
//! On Arm, arm-archive.sh has the same made for that processor.

use std::path::{Path, PathBuf};
use std::process::{exit, Command};
use std::{env, fs};

/// For where `rt` is missing.
const ADVICE: &str = "\
Put the Rattle kit's command `rt` on the PATH, or name a ready archive, or a folder of them, in
VERDICT_STORE_ARCHIVE, and build again.";

fn main() {
    println!("cargo::rerun-if-env-changed=VERDICT_STORE_ARCHIVE");
    println!("cargo::rerun-if-changed=build.rs");
    let here = PathBuf::from(env::var("CARGO_MANIFEST_DIR").unwrap());
    let root = here.join("../..");
    let out = PathBuf::from(env::var("OUT_DIR").unwrap());

    let archives = match env::var("VERDICT_STORE_ARCHIVE").ok().filter(|s| !s.is_empty()) {
        Some(given) => ready(&root.join(given)),
        None => made(&here, &root, &out),
    };
    println!("cargo::rustc-link-search=native={}", out.display());
    let mut linked = Vec::new();
    for (at, archive) in archives.iter().enumerate() {
        let copy = out.join(format!("libverdict_{at}.a"));
        if let Err(error) = fs::copy(archive, &copy) {
            stop(&format!("there is no archive at {}: {error}", archive.display()));
        }
        println!("cargo::rustc-link-lib=static=verdict_{at}");
        linked.push(copy.display().to_string());
    }
    // For the test that links a C program.
    println!("cargo::rustc-env=VERDICT_STORE_LINKED={}", linked.join(":"));
}

/// The archive that is named, or those of the folder that is.
fn ready(named: &Path) -> Vec<PathBuf> {
    println!("cargo::rerun-if-changed={}", named.display());
    let Ok(folder) = fs::read_dir(named) else {
        return vec![named.to_path_buf()];
    };
    let mut archives: Vec<PathBuf> = folder
        .filter_map(|entry| Some(entry.ok()?.path()))
        .filter(|path| path.extension().is_some_and(|end| end == "a"))
        .collect();
    archives.sort();
    if archives.is_empty() {
        stop(&format!("there is no archive in {}", named.display()));
    }
    archives
}

/// The archives of the static libraries, proved and compiled for the target.
fn made(here: &Path, root: &Path, out: &Path) -> Vec<PathBuf> {
    println!("cargo::rerun-if-changed={}", root.join("crates.txt").display());
    // Beside these folders rt keeps its own work, which each build changes.
    for folder in fs::read_dir(root.join("crates")).into_iter().flatten().flatten() {
        for read in ["src", "specs", "proofs"].map(|part| folder.path().join(part)) {
            if read.exists() {
                println!("cargo::rerun-if-changed={}", read.display());
            }
        }
    }
    let listed = fs::read_to_string(root.join("crates.txt"))
        .unwrap_or_else(|error| stop(&format!("crates.txt cannot be read: {error}")));
    let exports: Vec<&str> = listed
        .lines()
        .filter_map(|line| line.split_once(':')?.0.trim().strip_suffix(" staticlib"))
        .filter_map(|name| name.trim().strip_suffix("_c"))
        .filter(|name| name.starts_with("exports"))
        .collect();
    if exports.is_empty() {
        stop("crates.txt lists no static library `exports_.._c`.");
    }
    let folder = out.join("made");
    let mut script = Command::new("sh");
    match env::var("CARGO_CFG_TARGET_ARCH").unwrap().as_str() {
        "x86_64" => script.arg(root.join("tools/archives.sh")).arg("x86_64-unknown-linux-gnu"),
        "aarch64" => script.arg(here.join("arm-archive.sh")),
        other => stop(&format!("the Rattle kit has no code for {other}: build for x86_64.")),
    };
    for read in [root.join("tools/archives.sh"), here.join("arm-archive.sh")] {
        println!("cargo::rerun-if-changed={}", read.display());
    }
    run(script.arg(&folder).args(&exports).current_dir(root));
    exports.iter().map(|name| folder.join(format!("lib{name}.a"))).collect()
}

fn run(command: &mut Command) {
    if let Some(why) = fault(command) {
        stop(&why);
    }
}

/// What went wrong with a command, in words. One that could not be started, which a shell
/// tells by 127, may be missing; one that ran and failed has said why itself.
pub fn fault(command: &mut Command) -> Option<String> {
    let done = match command.output() {
        Ok(done) => done,
        Err(error) => return Some(format!("{command:?} could not be started: {error}\n{ADVICE}")),
    };
    let out = String::from_utf8_lossy(&done.stdout);
    let said = format!("{out}{}", String::from_utf8_lossy(&done.stderr));
    let said = said.trim_end();
    match done.status.code() {
        Some(0) => None,
        Some(127) => Some(format!("{command:?} could not be started:\n{said}\n{ADVICE}")),
        _ => Some(format!("{command:?} ran and failed, {}. It said:\n{said}", done.status)),
    }
}

fn stop(why: &str) -> ! {
    eprintln!("verdict-store-sys: {why}");
    exit(1)
}
