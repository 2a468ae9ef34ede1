//! The lists of calls, answers and tables: made, replayed, and wrong ones noticed.

#[cfg(no_hecs)]
#[test]
#[ignore = "the original is missing: give the folder of hecs 0.11.2's src in HECS_SRC and build again"]
fn the_lists() {}

#[cfg(not(no_hecs))]
mod of_the_original {
    use oracle::calls::{Answer, Call, ColumnCall, IdCall, Original, Player, WordCall};
    use oracle::sequences::*;
    use oracle::*;
    use std::collections::BTreeSet;

    fn text(write: impl FnOnce(&mut Vec<u8>) -> std::io::Result<()>) -> String {
        let mut out = Vec::new();
        write(&mut out).unwrap();
        String::from_utf8(out).unwrap()
    }

    fn ids() -> String {
        text(|out| write_id_list(7, 60, out))
    }

    fn columns() -> String {
        text(|out| write_column_list(7, 60, out))
    }

    fn words() -> String {
        text(|out| write_word_list(7, 200, out))
    }

    /// What stands first in the lines with that letter.
    fn firsts(list: &str, letter: &str) -> BTreeSet<u32> {
        let lines = list.lines().filter(|l| l.starts_with(letter));
        lines.map(|l| l.split(' ').nth(1).unwrap().parse().unwrap()).collect()
    }

    #[test]
    fn the_same_seed_gives_the_same_list() {
        assert!(ids() == ids() && columns() == columns() && words() == words());
        assert!(ids() != text(|out| write_id_list(8, 60, out)));
    }

    #[test]
    fn lists_replay_on_the_original() {
        for list in [ids(), columns(), words(), [words(), columns(), ids()].concat()] {
            let calls = list.lines().filter(|l| l.starts_with('c')).count();
            assert_eq!(replay(&list, &mut Original), Ok(calls));
            assert!(calls > 500);
        }
    }

    #[test]
    fn every_call_and_every_compared_refusal_comes() {
        assert_eq!(firsts(&ids(), "c"), BTreeSet::from_iter(1..=14));
        assert_eq!(firsts(&ids(), "r"), BTreeSet::from([0, 2, 3, 5]));
        assert_eq!(firsts(&ids(), "I"), CAPACITIES.map(|c| c as u32).into());
        assert_eq!(firsts(&columns(), "c"), BTreeSet::from_iter(21..=27));
        assert_eq!(firsts(&columns(), "r"), BTreeSet::from([0, 15]));
        assert_eq!(firsts(&words(), "c"), BTreeSet::from([31, 32, 33, 34, 41, 42]));
        assert_eq!(firsts(&words(), "r"), BTreeSet::from([0, 5, 7, 8, 9, 10, 11]));
    }

    #[test]
    fn lines_are_short_and_plain() {
        for list in [ids(), columns(), words()] {
            assert!(list.is_ascii() && list.ends_with('\n'));
            assert!(list.lines().all(|l| l.split(' ').count() <= 66 + 4));
        }
    }

    #[test]
    fn every_number_counts() {
        // another last number in any line of answers or changes is noticed
        let lists = [
            text(|o| write_word_list(3, 3, o)),
            text(|o| write_id_list(3, 9, o)),
            text(|o| write_column_list(3, 4, o)),
        ];
        // one sequence at a time, the largest tables left out
        let all = lists.concat();
        let starts = all.match_indices("\nI ").chain(all.match_indices("\nC ")).map(|m| m.0 + 1);
        let mut cuts: Vec<usize> = starts.chain([0, all.len()]).collect();
        cuts.sort();
        for part in cuts.windows(2).map(|w| &all[w[0]..w[1]]).filter(|p| !p.starts_with("I 4096")) {
            let lines: Vec<&str> = part.lines().collect();
            // what is told before the first call sets the tables and isn't compared
            let first = lines.iter().position(|l| l.starts_with('c')).unwrap_or(lines.len());
            for i in first..lines.len() {
                if !"rhgaxpnkb+".contains(&lines[i][..1]) {
                    continue;
                }
                let (front, last) = lines[i].rsplit_once(' ').unwrap();
                let line = format!("{front} {}", last.parse::<i128>().unwrap() ^ 1);
                let mut wrong = lines.clone();
                wrong[i] = &line;
                assert!(replay(&wrong.join("\n"), &mut Original).is_err(), "unnoticed: {line}");
            }
        }
    }

    #[test]
    fn a_left_out_change_and_a_cut_answer_are_noticed() {
        let list = ids();
        let lines: Vec<&str> = list.lines().collect();
        let first_call = lines.iter().position(|l| l.starts_with('c')).unwrap();
        let changes = |l: &&str| "hgaxp".contains(&l[..1]);
        let after = |from: usize| from + lines[from..].iter().position(changes).unwrap();
        // the first change told after a call with a granted answer
        let mut at = after(first_call);
        while !lines[at - 1].starts_with('r') {
            at = after(at + 1);
        }
        let mut without = lines.clone();
        without.remove(at);
        assert!(replay(&without.join("\n"), &mut Original).is_err());
        let long = lines.iter().position(|l| l.starts_with('+')).unwrap();
        let mut cut = lines.clone();
        cut.remove(long);
        assert!(replay(&cut.join("\n"), &mut Original).is_err());
    }

    /// Why a list is wrong.
    fn wrong(list: &[&str]) -> String {
        replay(&list.join("\n"), &mut Original).unwrap_err()
    }

    #[test]
    fn an_answer_that_is_not_told_is_noticed() {
        // two allocs, of number 0 and of number 1
        let told = ["I 2", ".", "c 3 0 0", "r 0 4294967296", "h 1 0 0 1", "g 0 1", "."];
        let more = ["c 3 0 1", "r 0 4294967297", "h 2 0 0 2", "g 1 1", "x 1 1", "."];
        let all = [&told[..], &more[..]].concat();
        assert_eq!(replay(&all.join("\n"), &mut Original), Ok(2));
        for answer in [3, 8] {
            let mut without = all.clone();
            without.remove(answer);
            let why = format!("line {}: the answer ended before", answer + 1);
            assert!(wrong(&without).starts_with(&why), "{}", wrong(&without));
        }
        let words = ["c 31 0", "r 0 1", "c 31 1", "r 0 2"];
        assert_eq!(replay(&words.join("\n"), &mut Original), Ok(2));
        assert!(wrong(&[words[0], words[2], words[3]]).starts_with("line 2: the answer ended"));
        assert_eq!(wrong(&words[..3]), "the list ends inside an answer");
    }

    #[test]
    fn tables_that_are_not_told_are_noticed() {
        let told = ["I 1", ".", "c 12", "r 0 0", ".", "c 12", "r 0 0", "."];
        assert_eq!(replay(&told.join("\n"), &mut Original), Ok(2));
        assert_eq!(wrong(&told[..7]), "the list ends before the tables after the last call");
        for (dot, why) in [
            (1, "line 2: the tables before the first call are not told"),
            (4, "line 5: the tables after the call before are not told"),
        ] {
            let mut without = told.to_vec();
            without.remove(dot);
            assert_eq!(wrong(&without), why);
        }
    }

    /// The batch hands out pending numbers in pop order: document 01's first
    /// error that looks right.
    struct PopOrder;

    impl Player for PopOrder {
        fn ids(&mut self, t: &mut IdTables, call: &IdCall) -> Answer {
            let (refusal, mut values) = Original.ids(t, call);
            if let IdCall::ReserveEntities(_) = call {
                let old = values.iter().filter(|h| (**h as u32) < t.head.used as u32).count();
                values[..old].reverse();
            }
            (refusal, values)
        }
        fn columns(&mut self, d: &Declaration, t: &mut ColumnTables, call: &ColumnCall) -> Answer {
            Original.columns(d, t, call)
        }
        /// A unique release stores 0: the third.
        fn word(&mut self, word: &mut u64, call: WordCall) -> Answer {
            let answer = Original.word(word, call);
            if call == WordCall::ReleaseMut && answer.0 == 0 {
                *word = 0;
                return (0, vec![0]);
            }
            answer
        }
        fn unpack(&mut self, bits: u64) -> Answer {
            Original.unpack(bits)
        }
        fn pack(&mut self, number: u32, generation: u32) -> Answer {
            Original.pack(number, generation)
        }
    }

    #[test]
    fn errors_that_look_right_are_noticed() {
        assert!(replay(&ids(), &mut PopOrder).is_err());
        assert!(replay(&words(), &mut PopOrder).is_err());
        assert!(replay(&columns(), &mut PopOrder).is_ok());
    }

    #[test]
    fn calls_go_to_numbers_and_back() {
        let mut rng = Rng(1);
        for i in 0..2000 {
            let call = match i % 3 {
                0 => {
                    let t = id_tables(&mut rng, 16, 16);
                    Call::Ids(id_call(&mut rng, &t))
                }
                1 => {
                    let d = declaration(&mut rng, 500);
                    let t = column_tables(&mut rng, &d);
                    Call::Columns(column_call(&mut rng, &d, &t))
                }
                _ => Call::Word(rng.pick(&WordCall::ALL), some_word(&mut rng)),
            };
            let numbers = call.numbers();
            assert_eq!(Call::from_numbers(&numbers), Some(call));
            assert_eq!(Call::from_numbers(&[&numbers[..], &[300]].concat()), None);
        }
        assert_eq!(Call::from_numbers(&[]), None);
        assert_eq!(Call::from_numbers(&[15]), None);
    }
}
