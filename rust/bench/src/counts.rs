//! Instructions a call, counted by valgrind: a figure that does not depend on what
//! else the machine does.

use crate::cases;
use std::path::Path;
use std::process::{Command, Stdio};
use std::{env, fs};

/// What callgrind can be asked by the program that it runs (callgrind.h).
const DUMP: usize = 0x4354_0000;
const ZERO: usize = 0x4354_0001;

/// Asks valgrind, by instructions that do nothing elsewhere (valgrind.h).
fn ask(what: usize) {
    let words: [usize; 6] = [what, 0, 0, 0, 0, 0];
    // SAFETY: rotations of a register that add up to whole turns, and a move of a register to
    // itself, change nothing; valgrind reads the six words.
    #[cfg(target_arch = "x86_64")]
    unsafe {
        std::arch::asm!(
            "rol rdi, 3", "rol rdi, 13", "rol rdi, 61", "rol rdi, 51", "xchg rbx, rbx",
            in("rax") words.as_ptr(), inout("rdx") 0usize => _,
        );
    }
    #[cfg(target_arch = "aarch64")]
    unsafe {
        std::arch::asm!(
            "ror x12, x12, #3", "ror x12, x12, #13", "ror x12, x12, #51", "ror x12, x12, #61",
            "orr x10, x10, x10",
            in("x4") words.as_ptr(), inout("x3") 0usize => _,
        );
    }
    std::hint::black_box(&words);
}

/// Has valgrind count this part alone, and write what it counted.
fn part(run: impl FnOnce()) {
    ask(ZERO);
    run();
    ask(DUMP);
}

/// What runs under valgrind: each case on each side, once before it is counted.
pub fn counted() {
    let mut all = cases::all();
    // The first part that is counted has some of the program's start in it: it is thrown away.
    if let Some(pair) = all.first_mut().and_then(|(_, pairs)| pairs.first_mut()) {
        pair.reset();
        part(|| pair.run_ours());
    }
    for pair in all.iter_mut().flat_map(|(_, pairs)| pairs) {
        pair.reset();
        pair.run_ours();
        pair.run_theirs();
        pair.reset();
        part(|| pair.run_ours());
        part(|| pair.run_theirs());
    }
}

/// Runs this program under valgrind and gives the instructions a call of each case,
/// ours and the original's, in the order of the cases; nothing without valgrind.
pub fn all() -> Result<Option<Vec<[f64; 2]>>, String> {
    let found = Command::new("valgrind").arg("--version").stdout(Stdio::null()).status();
    if !found.is_ok_and(|status| status.success()) {
        return Ok(None);
    }
    let folder = env::temp_dir().join(format!("bench-counts-{}", std::process::id()));
    fs::create_dir_all(&folder).map_err(|error| error.to_string())?;
    let counts = counts(&folder);
    fs::remove_dir_all(&folder).map_err(|error| error.to_string())?;
    let counts = counts?;
    let calls: Vec<usize> =
        cases::all().iter().flat_map(|(_, pairs)| pairs).map(|pair| pair.calls()).collect();
    if counts.len() < 2 * calls.len() {
        return Err("valgrind wrote too few counts".to_string());
    }
    let both = counts.chunks(2).zip(calls);
    Ok(Some(both.map(|(c, calls)| [c[0] / calls as f64, c[1] / calls as f64]).collect()))
}

/// The instructions of each part, in the order they ran in.
fn counts(folder: &Path) -> Result<Vec<f64>, String> {
    let this = env::current_exe().map_err(|error| error.to_string())?;
    let done = Command::new("valgrind")
        .arg("--tool=callgrind")
        .arg(format!("--callgrind-out-file={}/counts", folder.display()))
        .arg(this)
        .arg("counted")
        .output()
        .map_err(|error| error.to_string())?;
    if !done.status.success() {
        return Err(String::from_utf8_lossy(&done.stderr).into_owned());
    }
    let mut parts = Vec::new();
    for at in 2.. {
        let Ok(text) = fs::read_to_string(folder.join(format!("counts.{at}"))) else {
            break;
        };
        let total = text.lines().find_map(|line| line.strip_prefix("totals: "));
        let total = total.and_then(|n| n.trim().parse().ok());
        parts.push(total.ok_or("a count of valgrind cannot be read")?);
    }
    Ok(parts)
}
