//! `cargo run --profile speed -p bench`: checks that both sides do the same work,
//! then prints times, instructions and growth, and writes the plot to
//! rust/target/growth.svg.
//!
//! ROUNDS says how many rounds each side has (200), CASES which cases are wanted,
//! by words of their names.

#[cfg(no_hecs)]
fn main() {
    eprintln!("bench: {}", oracle::MISSING.unwrap_or_default());
    std::process::exit(2);
}

#[cfg(not(no_hecs))]
const PLOT: &str = concat!(env!("CARGO_MANIFEST_DIR"), "/../target/growth.svg");

#[cfg(not(no_hecs))]
fn main() {
    let words: Vec<String> = std::env::args().skip(1).collect();
    let words: Vec<&str> = words.iter().map(String::as_str).collect();
    let rounds = asked(&words).unwrap_or_else(|why| stop(2, &why));
    run(&words, rounds).unwrap_or_else(|why| stop(1, &why));
}

#[cfg(not(no_hecs))]
fn stop(code: i32, why: &str) -> ! {
    eprintln!("bench: {why}");
    std::process::exit(code)
}

/// A variable's words, none where it is not set.
#[cfg(not(no_hecs))]
fn variable(name: &str) -> String {
    std::env::var_os(name).unwrap_or_default().to_string_lossy().into_owned()
}

/// How many rounds are asked for, where words and variables ask for what there is.
#[cfg(not(no_hecs))]
fn asked(words: &[&str]) -> Result<usize, String> {
    if !matches!(words, [] | ["check"] | ["table"] | ["growth", _] | ["counted"]) {
        return Err("usage: bench [check | table | growth FILE.svg]".to_string());
    }
    let given = variable("ROUNDS");
    let rounds = if given.is_empty() { 200 } else { given.parse().unwrap_or(0) };
    if rounds == 0 {
        return Err(format!("ROUNDS wants a number from 1 on, not {given}"));
    }
    if bench::cases::all().is_empty() {
        return Err(format!("no case has the words of CASES in its name: {}", variable("CASES")));
    }
    Ok(rounds)
}

#[cfg(not(no_hecs))]
fn run(words: &[&str], rounds: usize) -> Result<(), String> {
    match words {
        ["check"] => check(),
        ["table"] => optimised().and_then(|()| bench::report::table(rounds)),
        ["growth", file] => optimised().and_then(|()| bench::growth::table(rounds, file)),
        // What `table` runs under valgrind.
        ["counted"] => {
            bench::counts::counted();
            Ok(())
        }
        _ => {
            check()?;
            optimised()?;
            bench::report::table(rounds)?;
            bench::growth::table(rounds, PLOT)
        }
    }
}

#[cfg(not(no_hecs))]
fn check() -> Result<(), String> {
    for (heading, mut pairs) in bench::cases::all() {
        bench::measure::check(&mut pairs)?;
        println!("{heading}: {} cases, both sides the same", pairs.len());
    }
    Ok(())
}

#[cfg(not(no_hecs))]
fn optimised() -> Result<(), String> {
    if cfg!(debug_assertions) {
        return Err("measure with `cargo run --profile speed -p bench`".to_string());
    }
    Ok(())
}
