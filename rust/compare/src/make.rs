//! The process that makes the calls, made from the proved archives.
//!
//! tools/archives.sh has `rt lib` make an archive for each crate in [`CRATES`],
//! for x86-64 Linux. The kit's own compiler and linker put them together with
//! serve.c. The variable VERDICT_ARCHIVES names a folder of ready archives; a
//! relative one counts from the repository's root.

use crate::ours::CALLS;
use std::ffi::OsString;
use std::fs;
use std::io::ErrorKind;
use std::path::{Path, PathBuf};
use std::process::Command;
use std::time::SystemTime;

/// The crates whose archives are linked.
pub const CRATES: &[&str] = &[
    "exports_ids",
    "exports_columns",
    "exports_reads",
    "exports_store",
    "exports_moves",
    "exports_reserve",
];

/// What the kit's compiler and linker are told to make.
const TARGET: &str = "x86_64-unknown-linux-gnu";

/// The repository's root.
pub fn repository() -> PathBuf {
    Path::new(env!("CARGO_MANIFEST_DIR")).join("../..")
}

/// The last time that a source file of a proved crate was written. What rt keeps in `out` holds copies.
fn newest(folder: &Path) -> Option<SystemTime> {
    let entries = fs::read_dir(folder).ok()?.flatten();
    let times = entries.filter(|e| e.file_name() != "out").filter_map(|e| {
        let path = e.path();
        if path.is_dir() {
            return newest(&path);
        }
        (path.extension()? == "rt").then(|| e.metadata().ok()?.modified().ok())?
    });
    times.max()
}

fn run(command: &mut Command) -> Result<String, String> {
    let first = [command.get_program()].into_iter().chain(command.get_args().take(1));
    let name = first.map(|word| word.to_string_lossy()).collect::<Vec<_>>().join(" ");
    let out =
        command.output().map_err(|why| match (command.get_program().to_str(), why.kind()) {
            (Some("rt"), ErrorKind::NotFound) => {
                "the Rattle kit is missing: put its command `rt` on the PATH".to_string()
            }
            _ => format!("{name}: {why}"),
        })?;
    if !out.status.success() {
        let said = [out.stdout, out.stderr].concat();
        return Err(format!("{name}: {}:\n{}", out.status, String::from_utf8_lossy(&said)));
    }
    Ok(String::from_utf8_lossy(&out.stdout).into_owned())
}

/// The folder that a variable names; none where it is not set or empty.
fn given(value: Option<OsString>) -> Option<PathBuf> {
    value.filter(|folder| !folder.is_empty()).map(|folder| repository().join(folder))
}

/// The folder with the archives, each made anew where a source is younger.
fn archives() -> Result<PathBuf, String> {
    if let Some(folder) = given(std::env::var_os("VERDICT_ARCHIVES")) {
        return Ok(folder);
    }
    let folder = repository().join("target/staticlib");
    let sources = newest(&repository().join("crates"));
    for name in CRATES {
        let made = fs::metadata(folder.join(format!("lib{name}.a"))).and_then(|m| m.modified());
        if made.ok() < sources {
            eprintln!("compare: rt lib, of {name}_c");
            let script = repository().join("tools/archives.sh");
            run(Command::new("sh").arg(script).arg(TARGET).arg(&folder).arg(name))?;
        }
    }
    Ok(folder)
}

/// The command that starts the process.
pub fn server() -> Result<Vec<String>, String> {
    let told = run(Command::new("rt").arg("doc"))?;
    let kit = Path::new(told.trim()).parent().ok_or("rt doc: no path")?;
    let tools = kit.join("toolchain");
    let archives = archives()?;

    let folder = repository().join("rust/target/serve");
    fs::create_dir_all(&folder).map_err(|why| format!("{}: {why}", folder.display()))?;
    let names: String = CALLS.iter().map(|c| format!("CALL({c})\n")).collect();
    fs::write(folder.join("calls.h"), names).map_err(|why| why.to_string())?;
    let (object, program) = (folder.join("serve.o"), folder.join("serve"));
    let source = Path::new(env!("CARGO_MANIFEST_DIR")).join("serve.c");
    run(Command::new(tools.join("bin/clang"))
        .arg(format!("--target={TARGET}"))
        .args(["-O2", "-fPIC", "-w", "-c", "-I"])
        .args([&folder, &source])
        .arg("-o")
        .arg(&object))?;
    run(Command::new(kit.join("bin/rattle-link"))
        .args(["--target", TARGET, "--toolchain"])
        .arg(&tools)
        .arg("-o")
        .args([&program, &object])
        .args(CRATES.iter().map(|name| archives.join(format!("lib{name}.a")))))?;

    let library = tools.join("lib");
    let loader = library.join("ld-linux-x86-64.so.2");
    let command = [loader, "--library-path".into(), library, program];
    Ok(command.into_iter().map(|part| part.to_string_lossy().into_owned()).collect())
}

#[cfg(test)]
mod tests {
    use super::*;

    #[test]
    fn a_folder_counts_from_the_root_and_an_empty_one_is_none() {
        assert_eq!(given(None), None);
        assert_eq!(given(Some("".into())), None);
        assert_eq!(given(Some("made/x86".into())), Some(repository().join("made/x86")));
        assert_eq!(given(Some("/made".into())), Some("/made".into()));
    }

    #[test]
    fn what_failed_is_told() {
        let missing = run(Command::new("rt").arg("doc").env("PATH", "/nowhere"));
        let sentence = "the Rattle kit is missing: put its command `rt` on the PATH";
        assert_eq!(missing, Err(sentence.to_string()));
        let failed = run(Command::new("sh").args(["-c", "echo no memory; exit 3"]));
        assert_eq!(failed, Err("sh -c: exit status: 3:\nno memory\n".to_string()));
    }
}
