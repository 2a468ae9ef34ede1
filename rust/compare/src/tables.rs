//! Tables for the run against the second program: sound ones, each kind of
//! damage that document 01 names, noise, wrong lengths and wrong declarations.

use oracle::sequences::Rng;
use second::{fresh, store, Declaration, Tables, MAX};

pub fn bytes(rng: &mut Rng, n: usize) -> Vec<u8> {
    (0..n).map(|_| rng.number() as u8).collect()
}

/// A number below `n`, or 0 where there is none.
fn below(rng: &mut Rng, n: usize) -> usize {
    rng.below(n.max(1) as u64) as usize
}

/// A declaration that keeps the rules.
fn declaration(rng: &mut Rng) -> Declaration {
    let most = rng.pick(&[1u32, 3, 4, 16]);
    let step = rng.pick(&[1, 5, 1 << 27]);
    let pool: Vec<(u32, u32)> = (0..most)
        .map(|k| (k * step + rng.below(step.into()) as u32, rng.pick(&[0, 1, 2, 4, 8, 64])))
        .collect();
    let mut sets: Vec<Vec<(u32, u32)>> = vec![Vec::new()];
    for _ in 0..rng.pick(&[0, 2, 6, 30]) {
        let part = rng.pick(&[25, 50, 100]);
        let mut set = pool.clone();
        set.retain(|_| rng.percent(part));
        if sets.len() < 16 && !sets.contains(&set) {
            sets.push(set);
        }
    }
    of_sets(rng, &sets, &[0, 1, 5, 5, 9, 20])
}

/// An archetype for each set of types and sizes, with one of these numbers of rows.
fn of_sets(rng: &mut Rng, sets: &[Vec<(u32, u32)>], rows: &[u32]) -> Declaration {
    let mut d = Declaration::default();
    for set in sets {
        d.rows.push(rng.pick(rows));
        d.widths.push(set.len() as u32);
        d.types.extend(set.iter().map(|c| c.0));
        d.sizes.extend(set.iter().map(|c| c.1));
    }
    d
}

/// A declaration of every set of two to four types: each insert and remove has its target.
fn every_set(rng: &mut Rng) -> Declaration {
    let most = rng.pick(&[2u32, 3, 4]);
    let pool: Vec<(u32, u32)> = (0..most)
        .map(|k| (k * 1000 + rng.below(1000) as u32, rng.pick(&[0, 1, 4, 8, 64])))
        .collect();
    let mut sets: Vec<Vec<(u32, u32)>> = vec![Vec::new()];
    for component in pool {
        let larger: Vec<_> = sets.iter().map(|set| [&set[..], &[component]].concat()).collect();
        sets.extend(larger);
    }
    of_sets(rng, &sets, &[2, 5, 9])
}

/// The columns of an archetype, as far as the lists go.
fn columns_of(d: &Declaration, archetype: usize) -> std::ops::Range<usize> {
    let width = |a: usize| d.widths.get(a).copied().unwrap_or(0) as usize;
    let start: usize = (0..archetype.min(d.widths.len())).map(width).sum();
    let end = (start + width(archetype)).min(d.sizes.len());
    start.min(end)..end
}

/// The types of an archetype; none where the lists are too short.
pub fn types_of(d: &Declaration, archetype: usize) -> &[u32] {
    d.types.get(columns_of(d, archetype)).unwrap_or(&[])
}

/// Bytes of a row, as far as the lists go.
pub fn row_width(d: &Declaration, archetype: u32) -> usize {
    let sizes = &d.sizes[columns_of(d, archetype as usize)];
    sizes.iter().map(|s| *s as usize).sum()
}

/// The size of a type that is declared.
pub fn size_of(d: &Declaration, ty: u32) -> Option<usize> {
    let column = d.types.iter().position(|t| *t == ty)?;
    d.sizes.get(column).map(|s| *s as usize)
}

/// A type number: one of the archetype's, a declared one, or any.
pub fn some_type(rng: &mut Rng, d: &Declaration, archetype: u32) -> u32 {
    let held = columns_of(d, archetype as usize);
    match rng.below(8) {
        0 => rng.number() as u32,
        1 | 2 if !d.types.is_empty() => rng.pick(&d.types),
        _ if !held.is_empty() && held.end <= d.types.len() => {
            d.types[held.start + below(rng, held.len())]
        }
        _ if !d.types.is_empty() => rng.pick(&d.types),
        _ => rng.below(9) as u32,
    }
}

/// The number in a row that is used, or in any row.
fn held(rng: &mut Rng, t: &Tables) -> u32 {
    let archetype = below(rng, t.row_counts.len());
    let first: u32 =
        t.declaration.rows.iter().take(archetype).fold(0, |sum, r| sum.wrapping_add(*r));
    let count = t.row_counts.get(archetype).copied().unwrap_or(0);
    let row = first.wrapping_add(below(rng, count as usize) as u32);
    t.row_numbers.get(row as usize).copied().unwrap_or(t.row_numbers[0])
}

/// The handle of the number in a row of this archetype, mostly not in the last one.
pub fn row_handle(rng: &mut Rng, t: &Tables, archetype: usize) -> Option<u64> {
    let count = t.row_counts.get(archetype).copied().unwrap_or(0) as usize;
    let rows = if rng.percent(75) { count.saturating_sub(1) } else { count };
    let row = below(rng, rows);
    let before = t.declaration.rows.iter().take(archetype);
    let first = before.fold(0usize, |sum, rows| sum.saturating_add(*rows as usize));
    let number = *t.row_numbers.get(first.saturating_add(row))?;
    let generation = *t.generations.get(number as usize)?;
    Some(u64::from(generation) << 32 | u64::from(number))
}

/// A handle of any kind: live, reserved, freed, of an older or a later
/// generation, of generation 0, past the tables.
pub fn some_handle(rng: &mut Rng, t: &Tables) -> u64 {
    let used = t.head.used.min(t.generations.len() as u64);
    let number = match rng.below(32) {
        0 => MAX,
        1 => rng.number() as u32,
        2 => t.generations.len() as u32,
        3 | 4 => t.head.used as u32,
        5 | 6 => (t.head.used as u32)
            .wrapping_add(t.head.cursor.min(0).unsigned_abs() as u32)
            .wrapping_sub(1),
        7..=10 if !t.pending.is_empty() => {
            t.pending[below(rng, t.head.pending.min(t.pending.len() as u64) as usize)]
        }
        11..=24 if !t.row_numbers.is_empty() => held(rng, t),
        _ => rng.below(used.max(1)) as u32,
    };
    let stored = t.generations.get(number as usize).copied().unwrap_or(1);
    let generation = match rng.below(20) {
        0 => 0,
        1 => 1,
        2 => stored.wrapping_sub(1),
        3 => stored.wrapping_add(1),
        _ if u64::from(number) >= used => 1,
        _ => stored,
    };
    u64::from(generation) << 32 | u64::from(number)
}

/// Sound tables of any declaration.
pub fn sound(rng: &mut Rng) -> Tables {
    let capacity = rng.pick(&[0, 1, 9, 16, 16, 40, 40]);
    let d = declaration(rng);
    sound_of(rng, d, capacity)
}

/// Sound tables for the calls that move rows.
pub fn crowded(rng: &mut Rng) -> Tables {
    let capacity = rng.pick(&[16, 40]);
    let d = every_set(rng);
    let mut t = sound_of(rng, d, capacity);
    crowd(rng, &mut t);
    t
}

/// Sound tables, by the second program's own calls from empty ones.
pub fn sound_of(rng: &mut Rng, d: Declaration, capacity: usize) -> Tables {
    let mut t = fresh(d, capacity);
    t.generations.fill_with(|| rng.pick(&[0, 1, MAX]));
    t.indices.fill_with(|| rng.pick(&[0, MAX]));
    t.bytes.fill_with(|| rng.number() as u8);
    t.row_numbers.fill_with(|| rng.below(20) as u32);
    for _ in 0..rng.pick(&[0, 12, 40, 60]) {
        let archetype = rng.below(t.declaration.rows.len() as u64) as u32;
        let bits = some_handle(rng, &t);
        let run = bytes(rng, row_width(&t.declaration, archetype));
        let _ = match rng.below(10) {
            0..=4 => store::spawn(&mut t, archetype, &run).map(|_| ()),
            5 => store::spawn_at(&mut t, bits, archetype, &run),
            6 | 7 => store::despawn(&mut t, bits),
            8 => store::reserve_entity(&mut t).map(|_| ()),
            _ => store::flush(&mut t),
        };
    }
    if rng.percent(70) {
        let _ = store::flush(&mut t);
    }
    for number in 0..t.head.used as usize {
        if rng.percent(10) {
            t.generations[number] = rng.pick(&[MAX, MAX - 1, 5]);
        }
    }
    if rng.percent(25) && !t.words.is_empty() {
        for _ in 0..rng.pick(&[1, 3]) {
            let at = below(rng, t.words.len());
            t.words[at] = rng.pick(&[1, 2, 1 << 63, (1 << 63) + 2, (1 << 63) - 1, u64::MAX]);
        }
    }
    t
}

/// What the calls that move rows need: no word held, nothing reserved, and more rows. Where
/// archetype 0 has no room for what is reserved, the rows there were are cleared.
pub fn crowd(rng: &mut Rng, t: &mut Tables) {
    t.words.fill(0);
    if store::flush(t).is_err() {
        let _ = store::clear(t);
    }
    for _ in 0..rng.below(20) {
        let archetype = rng.below(t.declaration.rows.len() as u64) as u32;
        let run = bytes(rng, row_width(&t.declaration, archetype));
        let _ = store::spawn(t, archetype, &run);
    }
}

fn odd(rng: &mut Rng) -> u32 {
    match rng.below(6) {
        0 => MAX,
        1 => MAX - 1,
        2 => rng.number() as u32,
        _ => rng.below(12) as u32,
    }
}

fn spoil(rng: &mut Rng, table: &mut [u32], value: u32) {
    if !table.is_empty() {
        table[below(rng, table.len())] = value;
    }
}

fn relength<T: Clone + Default>(rng: &mut Rng, table: &mut Vec<T>) {
    let length = match rng.below(3) {
        0 => table.len() + 1,
        1 => table.len().saturating_sub(1),
        _ => rng.below(8) as usize,
    };
    table.resize(length, T::default());
}

/// Each way in which the head rule is broken.
fn break_head(rng: &mut Rng, t: &mut Tables) {
    let capacity = t.generations.len() as u64;
    match rng.below(7) {
        0 => t.head.used = capacity + 1 + rng.below(3),
        1 => t.head.pending = t.head.used.wrapping_add(1),
        2 => t.head.cursor = t.head.pending as i64 + 1,
        3 => t.head.cursor = t.head.used as i64 - capacity as i64 - 1,
        4 => t.head.live = t.head.live.wrapping_add(rng.pick(&[1, u64::MAX])),
        5 => {
            let (archetype, rows) = (below(rng, t.row_counts.len()), &t.declaration.rows);
            if let (Some(count), Some(rows)) =
                (t.row_counts.get_mut(archetype), rows.get(archetype))
            {
                *count = rows.wrapping_add(1);
            }
        }
        _ => {
            let any = [0, 1, u64::from(MAX), 1 << 63, u64::MAX];
            t.head = second::Head {
                used: rng.pick(&any),
                pending: rng.pick(&any),
                live: rng.pick(&any),
                cursor: rng.pick(&any) as i64,
            };
        }
    }
}

/// Damage of a used entry, as document 01 lists it.
fn break_entry(rng: &mut Rng, t: &mut Tables) {
    let used = t.head.used as u32;
    let pending = (t.head.pending as usize).min(t.pending.len());
    let somewhere = rng.below(used.max(1).into()) as usize;
    match rng.below(10) {
        // a pending number that is not used
        0 if pending > 0 => t.pending[below(rng, pending)] = used + rng.below(3) as u32,
        // its generation 0, its index not MAX
        1 if pending > 0 => {
            let number = t.pending[below(rng, pending)] as usize;
            t.generations.get_mut(number).map(|g| *g = 0).unwrap_or(());
        }
        2 if pending > 0 => {
            let number = t.pending[below(rng, pending)] as usize;
            t.indices.get_mut(number).map(|i| *i = 0).unwrap_or(());
        }
        // no number live by count, though one is by its place
        3 => {
            t.head.pending = t.head.used;
            t.head.cursor = t.head.pending as i64;
            t.head.live = 0;
        }
        // a number that is neither pending nor placed
        4 => t.indices.get_mut(somewhere).map(|i| *i = MAX).unwrap_or(()),
        // a row's number: not used, or with another place
        5 | 6 => {
            let archetype = below(rng, t.row_counts.len());
            let first: u32 = t.declaration.rows.iter().take(archetype).sum();
            let last = t.row_counts.get(archetype).map_or(0, |c| c.saturating_sub(1));
            let wrong = rng.pick(&[used, used + 1, 0, somewhere as u32]);
            t.row_numbers.get_mut((first + last) as usize).map(|n| *n = wrong).unwrap_or(());
        }
        // a place that is no row of its number
        7 => t.archetypes.get_mut(somewhere).map(|a| *a = odd(rng)).unwrap_or(()),
        8 => t.indices.get_mut(somewhere).map(|i| *i = odd(rng)).unwrap_or(()),
        _ => t.generations.get_mut(somewhere).map(|g| *g = 0).unwrap_or(()),
    }
}

/// Each column rule and each limit of a declaration broken.
fn break_declaration(rng: &mut Rng, t: &mut Tables) {
    let d = &mut t.declaration;
    let column = below(rng, d.types.len());
    match rng.below(13) {
        0 => d.rows.clear(),
        1 => {
            for k in 0..17 {
                d.rows.push(0);
                d.widths.push(1);
                d.types.push(k + 1000);
                d.sizes.push(1);
            }
        }
        2 => d.widths.iter_mut().take(1).for_each(|w| *w = 1),
        3 => {
            d.rows.push(1);
            d.widths.push(0);
        }
        4 => {
            d.rows.push(1);
            d.widths.push(17);
            d.types.extend(0..17);
            d.sizes.extend([1; 17]);
        }
        5 if column > 0 => d.types.swap(column, column - 1),
        6 if column > 0 => d.types[column] = d.types[column - 1],
        7 => d.sizes.get_mut(column).map(|s| *s += 1).unwrap_or(()),
        8 => d.sizes.get_mut(column).map(|s| *s = rng.pick(&[65, MAX])).unwrap_or(()),
        9 => spoil(rng, &mut d.rows, 4097),
        10 => relength(rng, &mut d.widths),
        11 => relength(rng, &mut d.types),
        _ => relength(rng, &mut d.sizes),
    }
}

fn break_length(rng: &mut Rng, t: &mut Tables) {
    match rng.below(8) {
        0 => relength(rng, &mut t.archetypes),
        1 => relength(rng, &mut t.indices),
        2 => relength(rng, &mut t.pending),
        3 => relength(rng, &mut t.row_numbers),
        4 => relength(rng, &mut t.row_counts),
        5 => relength(rng, &mut t.words),
        6 => relength(rng, &mut t.bytes),
        _ => relength(rng, &mut t.generations),
    }
}

/// Tables of a capacity above the limit.
pub fn above_limit(rng: &mut Rng) -> Tables {
    let d = declaration(rng);
    fresh(d, 4097)
}

/// One thing broken, or nothing, without a table that gets longer or another
/// count of archetypes and columns: what a list of one shape can hold.
pub fn damage_within(rng: &mut Rng, t: &mut Tables) {
    let column = below(rng, t.declaration.types.len());
    match rng.below(100) {
        0..=44 => {}
        45..=54 => break_head(rng, t),
        55..=84 => break_entry(rng, t),
        85 | 86 => t.declaration.types.swap(column, column.saturating_sub(1)),
        87 | 88 => t.declaration.sizes[column] = rng.pick(&[65, MAX, 3]),
        89 => spoil(rng, &mut t.declaration.rows, 4097),
        90 => spoil(rng, &mut t.declaration.widths, 17),
        91..=94 => {
            t.pending.pop();
        }
        95..=98 => {
            t.row_counts.pop();
        }
        _ => spoil(rng, &mut t.archetypes, MAX),
    }
}

/// One thing broken, or nothing.
pub fn damage(rng: &mut Rng, t: &mut Tables) {
    match rng.below(100) {
        0..=44 => {}
        45..=52 => break_head(rng, t),
        53..=74 => break_entry(rng, t),
        75..=80 => break_declaration(rng, t),
        81..=86 => break_length(rng, t),
        _ => {
            let value = odd(rng);
            match rng.below(6) {
                0 => spoil(rng, &mut t.generations, value),
                1 => spoil(rng, &mut t.archetypes, value),
                2 => spoil(rng, &mut t.indices, value),
                3 => spoil(rng, &mut t.pending, value),
                4 => spoil(rng, &mut t.row_numbers, value),
                _ => spoil(rng, &mut t.row_counts, value),
            }
        }
    }
}
