//! Column calls against the original, in sequences.

use crate::ours::{Difference, Exchange, Ours};
use crate::tally::Tally;
use oracle::calls::ColumnCall;
use oracle::sequences::{column_call, column_tables, declaration, Rng};
use oracle::{ColumnTables, Columns, Declaration};

pub const WANTED: &[(&str, &[u32])] = &[
    ("allocate", &[0]),
    ("remove", &[0]),
    ("move out", &[0]),
    ("put", &[0, 15]),
    ("get", &[0, 15]),
    ("lookup", &[0, 15]),
    ("ids", &[0]),
];

fn kind(call: &ColumnCall) -> &'static str {
    match call {
        ColumnCall::Allocate(..) => "allocate",
        ColumnCall::Remove(..) => "remove",
        ColumnCall::MoveTo(..) => "move out",
        ColumnCall::Put(..) => "put",
        ColumnCall::Get(..) => "get",
        ColumnCall::Lookup(..) => "lookup",
        ColumnCall::Ids(_) => "ids",
    }
}

/// How many tables a call is lent: a lookup the declaration alone.
fn tables(call: &ColumnCall) -> u64 {
    match call {
        ColumnCall::Lookup(..) => 4,
        _ => 7,
    }
}

fn declared(e: Exchange, d: &Declaration) -> Exchange {
    e.lent("rows", &d.rows)
        .lent("widths", &d.widths)
        .lent("types", &d.types)
        .lent("sizes", &d.sizes)
}

/// The tables of the rows, before and after.
fn row_tables(e: Exchange, before: &ColumnTables, after: &ColumnTables) -> Exchange {
    e.slice("numbers", &before.row_numbers, &after.row_numbers)
        .slice("counts", &before.row_counts, &after.row_counts)
        .slice("bytes", &before.bytes, &after.bytes)
}

/// The end of a move out: of what the original answered, the row's bytes come last.
fn moved_out(e: Exchange, numbers: &[u64], values: &[u64]) -> Exchange {
    let (moved, bytes) = values.split_at(if values[0] == 0 { 1 } else { 2 });
    let bytes: Vec<u8> = bytes.iter().map(|b| *b as u8).collect();
    e.slice("taken", &vec![170u8; bytes.len()], &bytes).numbers(numbers).out(moved)
}

/// The end of a get: the bytes that the original gave must be those of its table where it says.
fn got(e: Exchange, numbers: &[u64], values: &[u64], after: &ColumnTables) -> Exchange {
    if let [start, length, bytes @ ..] = values {
        let part = &after.bytes[*start as usize..(*start + *length) as usize];
        assert!(part.iter().map(|b| u64::from(*b)).eq(bytes.iter().copied()));
    }
    e.numbers(numbers).out(&values[..values.len().min(2)])
}

/// The end of an ids, likewise: the original gave the numbers, and ours says where they are.
fn ids_from(
    e: Exchange,
    archetype: u32,
    start: usize,
    values: &[u64],
    after: &ColumnTables,
) -> Exchange {
    let numbers = after.row_numbers[start..].iter().map(|n| u64::from(*n));
    assert!(numbers.take(values.len()).eq(values.iter().copied()));
    e.numbers(&[archetype.into()]).out(&[start as u64, values.len() as u64])
}

/// The exchange of a call that the original answered with this.
pub fn exchange(
    call: &ColumnCall,
    d: &Declaration,
    before: &ColumnTables,
    after: &ColumnTables,
    code: u32,
    values: &[u64],
) -> Exchange {
    let begin = |name| row_tables(declared(Exchange::new(name, code), d), before, after);
    let two = |a: u32, b: u32| [a.into(), b.into()];
    let three = |a: u32, b: u32, c: u32| [a.into(), b.into(), c.into()];
    match *call {
        ColumnCall::Allocate(a, number) => {
            begin("verdict_columns_allocate").numbers(&two(a, number)).out(values)
        }
        ColumnCall::Remove(a, row) => {
            begin("verdict_columns_remove").numbers(&two(a, row)).out(values)
        }
        ColumnCall::MoveTo(a, row) => {
            moved_out(begin("verdict_columns_move_out"), &two(a, row), values)
        }
        ColumnCall::Put(a, row, ty, ref value) => {
            begin("verdict_columns_put").numbers(&three(a, row, ty)).lent("value", value)
        }
        ColumnCall::Get(a, row, ty) => {
            got(begin("verdict_columns_get"), &three(a, row, ty), values, after)
        }
        ColumnCall::Lookup(a, ty) => declared(Exchange::new("verdict_columns_lookup", code), d)
            .numbers(&two(a, ty))
            .out(values),
        ColumnCall::Ids(a) => {
            ids_from(begin("verdict_columns_ids"), a, d.first_row(a as usize), values, after)
        }
    }
}

/// A sequence of forty calls, from these tables on.
fn sequence(
    ours: &mut Ours,
    tally: &mut Tally,
    rng: &mut Rng,
    d: &Declaration,
    mut before: ColumnTables,
) -> Result<(), Difference> {
    let mut columns = Columns::new(d, &before);
    let mut after = before.clone();
    for _ in 0..40 {
        let call = column_call(rng, d, &before);
        let said = columns.call(&call);
        columns.dump(&mut after);
        let Some((code, values)) = tally.answered(kind(&call), tables(&call), &call, said) else {
            continue;
        };
        ours.compare(exchange(&call, d, &before, &after, code, &values))?;
        before.clone_from(&after);
    }
    Ok(())
}

/// Sequences on random declarations, rows past the counts filled too, until there were `count` calls.
pub fn run(ours: &mut Ours, tally: &mut Tally, seed: u64, count: u64) -> Result<(), Difference> {
    for s in 0.. {
        if tally.calls() >= count {
            break;
        }
        let mut rng = Rng(seed.wrapping_add(s * 0xd134_2543));
        let d = declaration(&mut rng, if s % 40 == 39 { 50_000 } else { 1_500 });
        let before = column_tables(&mut rng, &d);
        sequence(ours, tally, &mut rng, &d, before)?;
    }
    ours.settle()
}
