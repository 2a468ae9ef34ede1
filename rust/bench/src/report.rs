//! The table of all cases.

use crate::{cases, counts, measure};

/// Measures and prints: nanoseconds a call, best of the rounds; what the medians
/// say; instructions a call where valgrind is at hand.
pub fn table(rounds: usize) -> Result<(), String> {
    let counts = counts::all()?;
    if counts.is_none() {
        println!("Instructions are not counted: there is no command valgrind.");
    }
    let mut at = 0;
    for (heading, pairs) in cases::all() {
        println!("\n### {heading}\n");
        println!("| call | ours, ns | original, ns | ratio | of medians | ours, instructions | original | ratio |");
        println!("|---|---:|---:|---:|---:|---:|---:|---:|");
        for mut pair in pairs {
            let [ours, theirs] = measure::times(&mut *pair, rounds);
            let counted = match &counts {
                Some(all) => {
                    let [o, t] = all[at];
                    format!("{o:.0} | {t:.0} | {:.2}", o / t)
                }
                None => "| |".to_string(),
            };
            println!(
                "| {} | {:.1} | {:.1} | {:.2} | {:.2} | {counted} |",
                pair.name(),
                ours.best,
                theirs.best,
                ours.best / theirs.best,
                ours.median / theirs.median,
            );
            at += 1;
        }
    }
    Ok(())
}
