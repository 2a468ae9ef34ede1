//! Compares the proved library with the original and with the second program.
//!
//!     compare                         all runs, two million calls, and the fixed lists
//!     compare short                   the same with fewer calls
//!     compare words|ids|columns|store|walks [SEED [COUNT]]
//!     compare replay FILE             a call that was answered otherwise, once more
//!     compare list [SEED]             writes the fixed lists of the programs `replay_..` and what they are to print
//!
//! `words`, `ids` and `columns` are held to the original (hecs 0.11.2, which
//! HECS_SRC gives at build time), `store` to the second program, `walks` to both. The same seed
//! and count make the same calls. A run ends with a table of what it did; it
//! fails at the first difference, whose call it writes as a script for
//! `replay`, or where a call or one of its refusal numbers never occurred.

mod columns;
mod ids;
mod list;
mod make;
mod moves;
mod ours;
mod store;
mod tables;
mod tally;
mod walks;
mod words;

use ours::{Difference, Ours};
use std::path::Path;
use std::process::exit;
use tally::Tally;

const SEED: u64 = 20_261_115;

/// The runs, and how many calls each makes in a default and in a short run.
const RUNS: [(&str, u64, u64); 5] = [
    ("words", 300_000, 3_000),
    ("ids", 400_000, 12_000),
    ("columns", 300_000, 6_000),
    ("store", 600_000, 100_000),
    ("walks", 400_000, 20_000),
];

/// A difference in words. Its script goes to the file, or stands here where that can't be written.
fn told(difference: &Difference, file: &Path) -> String {
    let Difference { words, script } = difference;
    let name = file.display();
    match std::fs::write(file, script) {
        Ok(()) => format!("{words}\ncompare replay {name} makes that call again"),
        Err(why) => format!(
            "{words}\n{name}: {why}; in a file, these lines make that call again by compare replay:\n{script}"
        ),
    }
}

fn run(ours: &mut Ours, name: &str, seed: u64, count: u64) -> Result<(), String> {
    if let (Some(missing), true) = (oracle::MISSING, name != "store") {
        return Err(missing.to_string());
    }
    let mut tally = Tally::default();
    let (done, wanted) = match name {
        "words" => (words::run(ours, &mut tally, seed, count), words::WANTED.to_vec()),
        "ids" => (ids::run(ours, &mut tally, seed, count), ids::WANTED.to_vec()),
        "columns" => (columns::run(ours, &mut tally, seed, count), columns::WANTED.to_vec()),
        "walks" => (walks::run(ours, &mut tally, seed, count), walks::WANTED.to_vec()),
        _ => (store::run(ours, &mut tally, seed, count), store::wanted()),
    };
    if let Err(difference) = done {
        let file = std::env::temp_dir().join("verdict-difference.txt");
        let (calls, told) = (tally.calls(), told(&difference, &file));
        return Err(format!("{name}, seed {seed}, after at most {calls} calls: {told}"));
    }
    tally.print(&format!("## {name}, seed {seed}"));
    let mut missing = tally.missing(&wanted);
    if name == "store" {
        missing.extend(tally.rare(moves::WANTED));
    }
    if !missing.is_empty() {
        return Err(format!("{name}: {}", missing.join("; ")));
    }
    Ok(())
}

fn replay(file: &str) -> Result<(), String> {
    let text = std::fs::read_to_string(file).map_err(|why| format!("{file}: {why}"))?;
    let (frame, expected) = ours::from_script(&text).ok_or(format!("{file} is no such script"))?;
    let mut ours = start()?;
    let answer = ours.ask(&[&frame]);
    if answer == expected {
        println!("as it must be");
        return Ok(());
    }
    let word = |bytes: &[u8], i: usize| {
        bytes.get(i * 8..i * 8 + 8).map(|w| u64::from_le_bytes(w.try_into().unwrap()))
    };
    let words = answer.len().max(expected.len()) / 8;
    let first = (0..words).find(|i| word(&answer, *i) != word(&expected, *i)).unwrap_or(0);
    let (is, must) = (word(&answer, first), word(&expected, first));
    Err(format!("word {first} of the answer is {is:x?} instead of {must:x?}"))
}

/// Writes each list, and the output that it must have, into the folder of its program.
fn write_list(seed: u64) -> Result<(), String> {
    if let Some(missing) = oracle::MISSING {
        return Err(missing.to_string());
    }
    for list::Written { name, list, told, calls, done } in list::write(seed) {
        let folder = make::repository().join("crates").join(name);
        let put = |file: &str, text: &str| {
            std::fs::create_dir_all(&folder)
                .and_then(|()| std::fs::write(folder.join(file), text))
                .map_err(|why| format!("{}/{file}: {why}", folder.display()))
        };
        put("stdin", &list)?;
        put("stdout", &told)?;
        println!("{name}: {calls} calls in {} bytes", list.len());
        for (call, what, times) in done {
            println!("{name}: {call}: {what}: {times} times");
        }
    }
    Ok(())
}

/// Whether the repository holds the lists that `list` writes, and the outputs.
fn same_lists() -> Result<(), String> {
    for list::Written { name, list, told, .. } in list::write(SEED) {
        for (file, text) in [("stdin", list), ("stdout", told)] {
            let file = format!("crates/{name}/{file}");
            let held = std::fs::read_to_string(make::repository().join(&file))
                .map_err(|why| format!("{file}: {why}"))?;
            if held != text {
                return Err(format!("{file} is not what `compare list` writes"));
            }
        }
    }
    println!("The fixed lists of the programs are those that `compare list` writes.");
    Ok(())
}

fn start() -> Result<Ours, String> {
    Ours::start(&make::server()?).map_err(|why| why.to_string())
}

fn all(short: bool) -> Result<(), String> {
    let mut ours = start()?;
    let mut left_out = Vec::new();
    for (name, long, few) in RUNS {
        if short && oracle::MISSING.is_some() && name != "store" {
            left_out.push(name);
            continue;
        }
        run(&mut ours, name, SEED, if short { few } else { long })?;
    }
    if let Some(missing) = oracle::MISSING {
        println!("{} and the fixed lists were not compared: {missing}", left_out.join(", "));
        return Ok(());
    }
    match ours.left()[..] {
        [] => same_lists(),
        ref left => Err(format!("no run compared {}", left.join(", "))),
    }
}

fn main() {
    let arguments: Vec<String> = std::env::args().skip(1).collect();
    let words: Vec<&str> = arguments.iter().map(|s| s.as_str()).collect();
    let done = match words[..] {
        [] => all(false),
        ["short"] => all(true),
        ["replay", file] => replay(file),
        ["list"] => write_list(SEED),
        ["list", seed] => seed.parse().map_or_else(|_| usage(), write_list),
        [name, ref rest @ ..] if RUNS.iter().any(|r| r.0 == name) && rest.len() < 3 => {
            let usual = RUNS.iter().find(|r| r.0 == name).map_or(0, |r| r.1);
            let number = |i: usize, usual: u64| rest.get(i).map_or(Ok(usual), |v| v.parse());
            match (number(0, SEED), number(1, usual)) {
                (Ok(seed), Ok(count)) => start().and_then(|mut o| run(&mut o, name, seed, count)),
                _ => usage(),
            }
        }
        _ => usage(),
    };
    if let Err(why) = done {
        eprintln!("compare: {why}");
        exit(1);
    }
}

fn usage() -> ! {
    eprintln!("usage: compare [short | words|ids|columns|store|walks [SEED [COUNT]] | replay FILE | list [SEED]]");
    exit(2)
}

#[cfg(test)]
mod tests {
    use super::*;

    #[test]
    fn a_difference_is_told_where_its_file_cannot_be_written() {
        let difference =
            Difference { words: "len: answered 1".to_string(), script: "a\nb\nc\n".to_string() };
        let folder = std::env::temp_dir().join(format!("verdict-told-{}", std::process::id()));
        let file = folder.join("difference.txt");
        let text = told(&difference, &file);
        assert!(text.starts_with("len: answered 1\n"), "{text}");
        assert!(text.contains("No such file") && text.ends_with(":\na\nb\nc\n"), "{text}");
        std::fs::create_dir(&folder).unwrap();
        let text = told(&difference, &file);
        assert!(text.ends_with("difference.txt makes that call again"), "{text}");
        assert_eq!(std::fs::read_to_string(&file).unwrap(), "a\nb\nc\n");
        std::fs::remove_dir_all(&folder).unwrap();
    }
}
