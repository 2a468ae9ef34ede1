//! What a run did: calls of each kind, refusals by number, tables compared.

use oracle::calls::{compared, Answer};
use oracle::Said;
use std::collections::BTreeMap;
use std::fmt::Debug;

#[derive(Clone, Debug, Default)]
struct Kind {
    /// How often each number was answered; 0 for granted.
    answers: BTreeMap<u32, u64>,
    /// Calls left out because document 01 refuses them with this number and the original has no such refusal.
    outside: BTreeMap<u32, u64>,
    /// How often a granted call did this beside what each does.
    done: BTreeMap<&'static str, u64>,
}

#[derive(Debug, Default)]
pub struct Tally {
    kinds: BTreeMap<&'static str, Kind>,
    tables: u64,
}

impl Tally {
    /// A compared call and how many tables were lent to it.
    pub fn called(&mut self, kind: &'static str, code: u32, tables: u64) {
        *self.kinds.entry(kind).or_default().answers.entry(code).or_default() += 1;
        self.tables += tables;
    }

    /// What a call that is counted did.
    pub fn done(&mut self, kind: &'static str, what: &'static str) {
        *self.kinds.entry(kind).or_default().done.entry(what).or_default() += 1;
    }

    pub fn left_out(&mut self, kind: &'static str, code: u32) {
        *self.kinds.entry(kind).or_default().outside.entry(code).or_default() += 1;
    }

    /// What the original answered to a call that is now counted, or none where it is left out.
    pub fn answered(
        &mut self,
        kind: &'static str,
        tables: u64,
        call: &impl Debug,
        said: Said<Vec<u64>>,
    ) -> Option<Answer> {
        match compared(said, call) {
            Ok(answer) => {
                self.called(kind, answer.0, tables);
                Some(answer)
            }
            Err(number) => {
                self.left_out(kind, number);
                None
            }
        }
    }

    pub fn calls(&self) -> u64 {
        self.kinds.values().flat_map(|k| k.answers.values()).sum()
    }

    /// The table.
    pub fn print(&self, title: &str) {
        println!("{title}");
        println!("| call | calls | granted | refused, by number | left out |");
        println!("|---|---|---|---|---|");
        let list = |numbers: &BTreeMap<u32, u64>| {
            let some = numbers.iter().filter(|(code, _)| **code != 0);
            some.map(|(code, n)| format!("{code}: {n}")).collect::<Vec<_>>().join(", ")
        };
        for (name, kind) in &self.kinds {
            let calls: u64 = kind.answers.values().sum();
            let granted = kind.answers.get(&0).copied().unwrap_or(0);
            let (refused, outside) = (list(&kind.answers), list(&kind.outside));
            println!("| {name} | {calls} | {granted} | {refused} | {outside} |");
            for (what, n) in &kind.done {
                println!("| {name}: {what} |  | {n} |  |  |");
            }
        }
        let outside: u64 = self.kinds.values().flat_map(|k| k.outside.values()).sum();
        println!(
            "{} calls and {} tables compared, no difference; {outside} calls left out\n",
            self.calls(),
            self.tables
        );
    }

    /// What must have occurred and did not: each call with each number that it can give.
    pub fn missing(&self, wanted: &[(&'static str, &[u32])]) -> Vec<String> {
        let none = Kind::default();
        let mut missing = Vec::new();
        for (name, codes) in wanted {
            let kind = self.kinds.get(name).unwrap_or(&none);
            let absent = codes.iter().filter(|code| !kind.answers.contains_key(code));
            missing.extend(absent.map(|code| match code {
                0 => format!("{name} was never granted"),
                code => format!("{name} never refused {code}"),
            }));
            let others = kind.answers.keys().filter(|code| !codes.contains(code));
            missing.extend(others.map(|code| format!("{name} is not known to answer {code}")));
        }
        missing
    }

    /// What must have been done, by call, and was done in fewer than one of a thousand calls.
    pub fn rare(&self, wanted: &[(&'static str, &'static str, &'static str)]) -> Vec<String> {
        let least = self.calls() / 1000 + 1;
        let times = |kind: &str, what: &str| {
            self.kinds.get(kind).and_then(|k| k.done.get(what)).copied().unwrap_or(0)
        };
        let few = wanted.iter().filter(|w| times(w.0, w.2) < least);
        few.map(|w| format!("{}: {} {} times of {least}", w.0, w.2, times(w.0, w.2))).collect()
    }
}

#[cfg(test)]
mod tests {
    use super::*;

    #[test]
    fn what_is_done_in_fewer_than_one_of_a_thousand_calls_is_rare() {
        let mut tally = Tally::default();
        (0..2999).for_each(|_| tally.called("insert", 0, 13));
        let wanted = [("insert", "verdict_store_insert", "a fall")];
        assert_eq!(tally.rare(&wanted), ["insert: a fall 0 times of 3"]);
        (0..2).for_each(|_| tally.done("insert", "a fall"));
        assert_eq!(tally.rare(&wanted), ["insert: a fall 2 times of 3"]);
        tally.done("insert", "a fall");
        assert_eq!(tally.rare(&wanted), [""; 0]);
    }
}
