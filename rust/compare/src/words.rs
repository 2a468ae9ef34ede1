//! Borrow words and handles against the original.

use crate::ours::{Difference, Exchange, Ours};
use crate::tally::Tally;
use oracle::calls::{Original, Player, WordCall};
use oracle::sequences::{some_word, Rng, WORDS};

pub const WANTED: &[(&str, &[u32])] = &[
    ("shared", &[0, 7, 9]),
    ("unique", &[0, 8]),
    ("release", &[0, 10, 11]),
    ("unique release", &[0, 11]),
    ("shared at", &[0, 7, 9, 13]),
    ("unique at", &[0, 8, 13]),
    ("release at", &[0, 10, 11, 13]),
    ("unique release at", &[0, 11, 13]),
    ("from bits", &[0, 5]),
    ("to bits", &[0, 5]),
];

/// Of each call on a word, its kind and its name: on the word alone, and at a position of a table.
const NAMES: [[(&str, &str); 2]; 4] = [
    [("shared", "verdict_word_shared"), ("shared at", "verdict_word_shared_at")],
    [("unique", "verdict_word_unique"), ("unique at", "verdict_word_unique_at")],
    [("release", "verdict_word_release"), ("release at", "verdict_word_release_at")],
    [
        ("unique release", "verdict_word_unique_release"),
        ("unique release at", "verdict_word_unique_release_at"),
    ],
];

/// One word, alone and at a position of a table.
fn word(ours: &mut Ours, tally: &mut Tally, which: usize, before: u64) -> Result<(), Difference> {
    let [(kind, alone), (kind_at, at)] = NAMES[which];
    let mut after = before;
    let (code, _) = Original.word(&mut after, WordCall::ALL[which]);
    tally.called(kind, code, 1);
    ours.compare(Exchange::new(alone, code).array("word", &[before], &[after]))?;
    let (table, left) = ([before, 5, before], [before, 5, after]);
    let out = if code == 0 { vec![after] } else { Vec::new() };
    tally.called(kind_at, code, 1);
    ours.compare(Exchange::new(at, code).slice("words", &table, &left).numbers(&[2]).out(&out))
}

/// A position that the table does not have: 13, as include/verdict_store.h says; the original has no
/// such call.
fn past(
    ours: &mut Ours,
    tally: &mut Tally,
    which: usize,
    table: &[u64],
    position: u64,
) -> Result<(), Difference> {
    assert!(position >= table.len() as u64);
    let (kind, at) = NAMES[which][1];
    tally.called(kind, 13, 1);
    ours.compare(Exchange::new(at, 13).lent("words", table).numbers(&[position]).out(&[]))
}

fn unpack(ours: &mut Ours, tally: &mut Tally, bits: u64) -> Result<(), Difference> {
    let (code, out) = Original.unpack(bits);
    tally.called("from bits", code, 0);
    ours.compare(Exchange::new("verdict_handle_from_bits", code).numbers(&[bits]).out(&out))
}

fn pack(
    ours: &mut Ours,
    tally: &mut Tally,
    number: u32,
    generation: u32,
) -> Result<(), Difference> {
    let (code, out) = Original.pack(number, generation);
    tally.called("to bits", code, 0);
    let numbers = [number.into(), generation.into()];
    ours.compare(Exchange::new("verdict_handle_new", code).numbers(&numbers).out(&out))
}

/// Every call on each of the boundary words, then `count` random ones.
pub fn run(ours: &mut Ours, tally: &mut Tally, seed: u64, count: u64) -> Result<(), Difference> {
    let mut rng = Rng(seed);
    for w in WORDS {
        for which in 0..4 {
            word(ours, tally, which, w)?;
            past(ours, tally, which, &[], 0)?;
            past(ours, tally, which, &[w; 3], 3)?;
            past(ours, tally, which, &[w; 3], u64::MAX)?;
        }
    }
    for bits in [0, 1, u64::from(u32::MAX), 1 << 32, (2 << 32) + 7, u64::MAX] {
        unpack(ours, tally, bits)?;
    }
    while tally.calls() < count {
        let w = some_word(&mut rng);
        let which = rng.below(4) as usize;
        word(ours, tally, which, w)?;
        if rng.percent(10) {
            let position = rng.pick(&[3, 4, 1 << 32, u64::MAX]);
            past(ours, tally, which, &[w; 3], position)?;
        }
        let bits = if rng.percent(70) { rng.number() } else { rng.below(1 << 33) };
        unpack(ours, tally, bits)?;
        let generation = if rng.percent(80) { rng.number() as u32 } else { rng.below(2) as u32 };
        pack(ours, tally, rng.number() as u32, generation)?;
    }
    ours.settle()
}
