//! Writes the original's answers as a list, or checks a list against it.
//!
//!     sequences ids|columns|words|all SEED COUNT    writes a list
//!     sequences check < LIST                        replays one on the original
//!
//! The list's form is told in the library's module `sequences`. The same seed
//! and count give the same list.

use oracle::calls::Original;
use oracle::sequences::{replay, write_column_list, write_id_list, write_word_list};
use std::io::{self, BufWriter, Read, Write};
use std::process::exit;

fn main() {
    if let Some(missing) = oracle::MISSING {
        eprintln!("{missing}");
        exit(2);
    }
    let arguments: Vec<String> = std::env::args().skip(1).collect();
    let words: Vec<&str> = arguments.iter().map(|s| s.as_str()).collect();
    match words[..] {
        ["check"] => {
            let mut list = String::new();
            io::stdin().read_to_string(&mut list).expect("the list can't be read");
            match replay(&list, &mut Original) {
                Ok(calls) => println!("{calls} calls, all as told"),
                Err(why) => {
                    eprintln!("{why}");
                    exit(1);
                }
            }
        }
        [kind @ ("ids" | "columns" | "words" | "all"), seed, count] => {
            let (Ok(seed), Ok(count)) = (seed.parse(), count.parse()) else {
                usage();
            };
            if let Err(why) = write(kind, seed, count) {
                eprintln!("the list can't be written: {why}");
                exit(1);
            }
        }
        _ => usage(),
    }
}

fn write(kind: &str, seed: u64, count: u64) -> io::Result<()> {
    let mut out = BufWriter::new(io::stdout().lock());
    writeln!(out, "# Answers of hecs 0.11.2, made by: sequences {kind} {seed} {count}")?;
    if kind == "words" || kind == "all" {
        write_word_list(seed, count, &mut out)?;
    }
    if kind == "ids" || kind == "all" {
        write_id_list(seed, count, &mut out)?;
    }
    if kind == "columns" || kind == "all" {
        write_column_list(seed, count, &mut out)?;
    }
    out.flush()
}

fn usage() -> ! {
    eprintln!("usage: sequences ids|columns|words|all SEED COUNT, or sequences check < LIST");
    exit(2)
}
