//! 01, The tables: Sound.

use std::collections::{BTreeMap, BTreeSet};

use crate::rules::*;
use crate::tables::{Place, Tables, EMPTY};

/// Says in words what keeps the tables from being sound.
pub fn sound(t: &Tables) -> Result<(), String> {
    let l = laid_out(t)?;
    // "head rule"
    head_rule_of_ids(t)?;
    head_rule_of_columns(t, &l)?;
    let pending_numbers = pending_numbers(t)?;
    generations_nonzero(t)?;
    // "the numbers below used and not pending are exactly those named in
    // archetype rows, once each, each with its own (archetype, row) as its
    // place"
    let named = named_numbers(t, &l)?;
    named_have_their_rows(t, &pending_numbers, &named)?;
    every_number_stands(t, &pending_numbers, &named)
}

/// R25: sound is said only of tables that pass 12 and 13.
fn laid_out(t: &Tables) -> Result<Layout, String> {
    let l = layout(&t.declaration).map_err(|why| format!("12: {why}"))?;
    if capacity_above_limit(t) {
        return Err("12: the capacity is above 4,096".into());
    }
    if !id_tables_as_long_as_capacity(t) {
        return Err("13: an id table is not as long as the capacity".into());
    }
    if !column_tables_of_right_length(t, &l) {
        return Err("13: row numbers, row counts or bytes have a wrong length".into());
    }
    if !words_of_right_length(t, &l) {
        return Err("13: there are not as many words as columns".into());
    }
    Ok(l)
}

/// "pending numbers different, below used, with place (0, MAX)"
fn pending_numbers(t: &Tables) -> Result<BTreeSet<u32>, String> {
    let mut numbers = BTreeSet::new();
    for &number in pending_list(t) {
        if !below_used(t, number) {
            return Err(format!("pending number {number} is not below used"));
        }
        if !numbers.insert(number) {
            return Err(format!("number {number} is pending twice"));
        }
        if t.place(number) != EMPTY {
            return Err(format!("pending number {number} has a place"));
        }
    }
    Ok(numbers)
}

/// "every generation below used nonzero"
fn generations_nonzero(t: &Tables) -> Result<(), String> {
    let below_used = &t.generations[..t.head.used as usize];
    match below_used.iter().position(|&generation| generation == 0) {
        Some(number) => Err(format!("number {number} has generation 0")),
        None => Ok(()),
    }
}

/// The numbers that stand in rows, once each, with the place of the row.
fn named_numbers(t: &Tables, l: &Layout) -> Result<BTreeMap<u32, Place>, String> {
    let mut named = BTreeMap::new();
    for place in rows_in_use(t) {
        let first = l.archetype(place.archetype).first;
        let number = t.row_numbers[first + place.index as usize];
        if named.insert(number, place).is_some() {
            return Err(format!("number {number} stands in two rows"));
        }
    }
    Ok(named)
}

fn rows_in_use(t: &Tables) -> impl Iterator<Item = Place> + '_ {
    let counts = t.row_counts.iter().enumerate();
    counts.flat_map(|(a, &count)| {
        let archetype = a as u32;
        (0..count).map(move |index| Place { archetype, index })
    })
}

fn named_have_their_rows(
    t: &Tables,
    pending_numbers: &BTreeSet<u32>,
    named: &BTreeMap<u32, Place>,
) -> Result<(), String> {
    for (&number, &place) in named {
        if !below_used(t, number) {
            return Err(format!("a row names number {number}, which is not used"));
        }
        if pending_numbers.contains(&number) {
            return Err(format!("a row names number {number}, which is pending"));
        }
        if t.place(number) != place {
            return Err(format!("number {number} does not have its row as its place"));
        }
    }
    Ok(())
}

fn every_number_stands(
    t: &Tables,
    pending_numbers: &BTreeSet<u32>,
    named: &BTreeMap<u32, Place>,
) -> Result<(), String> {
    for number in 0..t.head.used as u32 {
        if !pending_numbers.contains(&number) && !named.contains_key(&number) {
            return Err(format!("number {number} is neither pending nor in a row"));
        }
    }
    Ok(())
}
