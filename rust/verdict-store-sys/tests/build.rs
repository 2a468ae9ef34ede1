//! What the build script says where a command fails.

use std::path::Path;
use std::process::Command;

#[allow(dead_code)]
#[path = "../build.rs"]
mod build;

#[test]
fn a_command_that_failed_is_told_by_its_own_words() {
    let mut command = Command::new("sh");
    command.args(["-c", "echo no proof of law 7; echo one error >&2; exit 3"]);
    let why = build::fault(&mut command).unwrap();
    assert!(why.contains("ran and failed"), "{why}");
    assert!(why.contains("exit status: 3"), "{why}");
    assert!(why.ends_with("no proof of law 7\none error"), "{why}");
    assert!(!why.contains("PATH"), "{why}");
}

#[test]
fn a_command_that_cannot_be_started_is_told_with_advice() {
    let why = build::fault(&mut Command::new("there-is-no-such-command")).unwrap();
    assert!(why.contains("\"there-is-no-such-command\" could not be started"), "{why}");
    assert!(why.contains("`rt` on the PATH"), "{why}");
    assert!(!why.contains("ran and failed"), "{why}");
}

/// On Arm a script runs `rt`: it ends as a shell does that finds no command.
#[test]
fn the_script_tells_that_there_is_no_rt() {
    let script = Path::new(env!("CARGO_MANIFEST_DIR")).join("arm-archive.sh");
    let folder = Path::new(env!("CARGO_TARGET_TMPDIR")).join("no-rt");
    let mut command = Command::new("/bin/sh");
    command.arg(script).arg(&folder).arg("exports_ids").env("PATH", "");
    let why = build::fault(&mut command).unwrap();
    assert!(why.contains("could not be started"), "{why}");
    assert!(why.contains("there is no command rt"), "{why}");
    assert!(why.contains("`rt` on the PATH"), "{why}");
    assert!(!folder.exists());
}

#[test]
fn a_command_that_is_granted_has_no_fault() {
    assert_eq!(build::fault(Command::new("sh").args(["-c", "echo proved"])), None);
}
