//! What the command refuses, each with a sentence and the status 2.

use std::process::{Command, Output};

/// What `bench` says to a word with this variable, for one case where the variable names no other.
fn said(variable: (&str, &str), word: &str) -> Output {
    let mut command = Command::new(env!("CARGO_BIN_EXE_bench"));
    command.env_remove("ROUNDS").env("CASES", "unique borrow").env(variable.0, variable.1);
    command.arg(word).output().unwrap()
}

fn refused(variable: (&str, &str), word: &str, sentence: &str) {
    let out = said(variable, word);
    let text = String::from_utf8(out.stderr).unwrap();
    assert_eq!((out.status.code(), text.as_str()), (Some(2), sentence));
    assert!(out.stdout.is_empty());
}

#[test]
#[cfg_attr(no_hecs, ignore = "the original is missing: give its folder in HECS_SRC")]
fn rounds_are_a_number_from_1_on() {
    for wrong in ["0", "ten", "-1", "1.5"] {
        let sentence = format!("bench: ROUNDS wants a number from 1 on, not {wrong}\n");
        refused(("ROUNDS", wrong), "check", &sentence);
    }
    for right in ["1", "200", ""] {
        assert!(said(("ROUNDS", right), "check").status.success());
    }
}

#[test]
#[cfg_attr(no_hecs, ignore = "the original is missing: give its folder in HECS_SRC")]
fn cases_are_some() {
    let sentence = "bench: no case has the words of CASES in its name: no such case\n";
    refused(("CASES", "no such case"), "check", sentence);
    let out = said(("CASES", "unique borrow"), "check");
    assert!(out.status.success() && !out.stdout.is_empty());
}

#[test]
#[cfg_attr(no_hecs, ignore = "the original is missing: give its folder in HECS_SRC")]
fn other_words_are_refused() {
    let sentence = "bench: usage: bench [check | table | growth FILE.svg]\n";
    refused(("ROUNDS", ""), "tables", sentence);
}
