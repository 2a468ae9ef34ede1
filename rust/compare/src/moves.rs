//! The calls that take a row out of its archetype: what a granted one did beside its own entity,
//! and arguments by which one is granted.

use crate::ours::{Apart, Exchange};
use crate::tables::{row_handle, types_of};
use oracle::sequences::Rng;
use second::{Declaration, Tables};

/// A number that the call does not name has another place than before.
pub const FELL: &str = "another number fell into a hole";

/// The entity changed its archetype, and both have a component of size above 0.
pub const KEPT: &str = "a row moved with components it keeps";

/// What these calls must have done, and not once only.
pub const WANTED: &[(&str, &str, &str)] = &[
    ("insert", "verdict_store_insert", FELL),
    ("insert", "verdict_store_insert", KEPT),
    ("remove", "verdict_store_remove", FELL),
    ("remove", "verdict_store_remove", KEPT),
    ("despawn", "verdict_store_despawn", FELL),
    ("spawn at", "verdict_store_spawn_at", FELL),
];

/// Whether the call is one of them.
pub fn moves_rows(name: &str) -> bool {
    WANTED.iter().any(|w| w.1 == name)
}

/// What of it this call did. A refused one did nothing.
pub fn done(e: &Exchange) -> Vec<&'static str> {
    if e.code() != 0 || !moves_rows(e.name()) {
        return Vec::new();
    }
    let (numbers, parts) = e.taken_apart();
    let own = numbers[0] as u32 as usize;
    let wanted = WANTED.iter().filter(|w| w.1 == e.name()).map(|w| w.2);
    let did = |what: &&str| match *what {
        FELL => fell(own, &parts),
        _ => kept(own, &parts),
    };
    wanted.filter(did).collect()
}

fn part<'a>(parts: &'a [Apart], name: &str) -> &'a Apart {
    parts.iter().find(|p| p.name == name).expect("a table of the store")
}

/// Numbers from the used count on are left out: a spawn at above it makes them pending.
fn fell(own: usize, parts: &[Apart]) -> bool {
    let (archetypes, indices) = (part(parts, "archetypes"), part(parts, "indices"));
    let used = part(parts, "head").before[0] as usize;
    let same = |table: &Apart, n: usize| table.before[n] == table.after[n];
    (0..used).any(|n| n != own && !(same(archetypes, n) && same(indices, n)))
}

fn kept(own: usize, parts: &[Apart]) -> bool {
    let archetypes = part(parts, "archetypes");
    let (from, to) = (archetypes.before[own], archetypes.after[own]);
    let components = |archetype: u64| {
        let widths = &part(parts, "widths").before;
        let start = widths[..archetype as usize].iter().sum::<u64>() as usize;
        let columns = start..start + widths[archetype as usize] as usize;
        let sized = columns.filter(|c| part(parts, "sizes").before[*c] > 0);
        sized.map(|c| part(parts, "types").before[c]).collect::<Vec<_>>()
    };
    from != to && components(from).iter().any(|ty| components(to).contains(ty))
}

/// The type that one archetype has more than another, where all others are the same.
fn one_more(d: &Declaration, small: usize, large: usize) -> Option<u32> {
    let (small, large) = (types_of(d, small), types_of(d, large));
    let mut more = large.iter().filter(|ty| !small.contains(ty));
    let ty = more.next().filter(|_| large.len() == small.len() + 1)?;
    more.next().is_none().then_some(*ty)
}

/// A handle and a type for an insert, or a remove, whose target archetype is there and has room.
pub fn component_step(rng: &mut Rng, t: &Tables, insert: bool) -> Option<(u64, u32)> {
    let d = &t.declaration;
    let count = |archetype: usize| t.row_counts.get(archetype).copied().unwrap_or(0);
    let mut steps = Vec::new();
    for from in (0..d.rows.len()).filter(|a| count(*a) > 0) {
        for to in (0..d.rows.len()).filter(|a| count(*a) < d.rows[*a]) {
            let (small, large) = if insert { (from, to) } else { (to, from) };
            steps.extend(one_more(d, small, large).map(|ty| (from, ty)));
        }
    }
    if steps.is_empty() {
        return None;
    }
    let (from, ty) = rng.pick(&steps);
    row_handle(rng, t, from).map(|bits| (bits, ty))
}

/// The handle in a row of some archetype that has rows.
pub fn row_step(rng: &mut Rng, t: &Tables) -> Option<u64> {
    let held: Vec<usize> = (0..t.row_counts.len()).filter(|a| t.row_counts[*a] > 0).collect();
    if held.is_empty() {
        return None;
    }
    let archetype = rng.pick(&held);
    row_handle(rng, t, archetype)
}

#[cfg(test)]
mod tests {
    use super::*;
    use crate::store::lent;
    use second::{fresh, store};

    const INSERT: &str = "verdict_store_insert";
    const REMOVE: &str = "verdict_store_remove";

    /// Three rows in each of {}, {5}, {5, 9}, {12}, {12, 20}; the type 12 has no bytes.
    fn empty() -> Tables {
        let declaration = Declaration {
            rows: vec![3; 5],
            widths: vec![0, 1, 2, 1, 2],
            types: vec![5, 5, 9, 12, 12, 20],
            sizes: vec![4, 4, 2, 0, 0, 1],
        };
        fresh(declaration, 16)
    }

    /// Numbers from 0 on, one in each of these archetypes.
    fn with(archetypes: &[u32]) -> Tables {
        let mut t = empty();
        for archetype in archetypes {
            let run = [0; 6];
            let width = [0, 4, 6, 0, 1][*archetype as usize];
            store::spawn(&mut t, *archetype, &run[..width]).unwrap();
        }
        t
    }

    fn handle(number: u64) -> u64 {
        1 << 32 | number
    }

    fn did(
        name: &'static str,
        t: &mut Tables,
        number: u64,
        call: impl FnOnce(&mut Tables, u64) -> Result<(), u32>,
    ) -> Vec<&'static str> {
        let before = t.clone();
        let code = call(t, handle(number)).err().unwrap_or(0);
        done(&lent(name, code, &before, t).numbers(&[handle(number)]))
    }

    fn despawned(t: &mut Tables, number: u64) -> Vec<&'static str> {
        did("verdict_store_despawn", t, number, store::despawn)
    }

    fn spawned_at(t: &mut Tables, number: u64) -> Vec<&'static str> {
        did("verdict_store_spawn_at", t, number, |t, bits| store::spawn_at(t, bits, 0, &[]))
    }

    fn inserted(t: &mut Tables, number: u64, ty: u32, value: &[u8]) -> Vec<&'static str> {
        did(INSERT, t, number, |t, bits| store::insert(t, bits, ty, value))
    }

    fn removed(t: &mut Tables, number: u64, ty: u32) -> Vec<&'static str> {
        did(REMOVE, t, number, |t, bits| store::remove(t, bits, ty))
    }

    #[test]
    fn a_fall_is_another_numbers_new_place() {
        let mut t = with(&[1, 1, 1]);
        assert_eq!(despawned(&mut t, 2), [""; 0]);
        assert_eq!(despawned(&mut t, 0), [FELL]);
        assert_eq!(despawned(&mut t, 0), [""; 0], "a refused call");
    }

    #[test]
    fn numbers_made_pending_by_a_spawn_at_do_not_fall() {
        let mut t = with(&[1, 1]);
        t.indices.fill(7);
        (t.indices[0], t.indices[1]) = (0, 1);
        assert_eq!(spawned_at(&mut t, 9), [""; 0]);
        assert_eq!(t.head.pending, 7);
        assert_eq!(spawned_at(&mut t, 0), [FELL]);
        assert_eq!(spawned_at(&mut t, 1), [""; 0], "alone in its archetype");
    }

    #[test]
    fn a_row_moves_with_what_both_archetypes_have() {
        let mut t = with(&[1, 1, 0, 3]);
        assert_eq!(inserted(&mut t, 0, 5, &[1; 4]), [""; 0], "an overwrite");
        assert_eq!(inserted(&mut t, 0, 9, &[1; 2]), [FELL, KEPT]);
        assert_eq!(inserted(&mut t, 1, 9, &[1; 2]), [KEPT]);
        assert_eq!(inserted(&mut t, 2, 5, &[1; 4]), [""; 0], "it had nothing");
        assert_eq!(inserted(&mut t, 3, 20, &[1; 1]), [""; 0], "it keeps no bytes");
        assert_eq!(removed(&mut t, 0, 9), [FELL, KEPT]);
        assert_eq!(removed(&mut t, 1, 9), [KEPT]);
        assert_eq!(removed(&mut t, 2, 5), [FELL]);
        assert_eq!(removed(&mut t, 2, 5), [""; 0], "a refused call");
    }

    #[test]
    fn a_step_is_granted() {
        let mut rng = Rng(1);
        for _ in 0..100 {
            let mut t = with(&[0, 0, 1, 1, 2, 4]);
            let (bits, ty) = component_step(&mut rng, &t, false).unwrap();
            assert_eq!(store::remove(&mut t, bits, ty), Ok(()));
            let (bits, ty) = component_step(&mut rng, &t, true).unwrap();
            let value = vec![1; crate::tables::size_of(&t.declaration, ty).unwrap()];
            assert_eq!(store::insert(&mut t, bits, ty, &value), Ok(()));
            let bits = row_step(&mut rng, &t).unwrap();
            assert_eq!(store::despawn(&mut t, bits), Ok(()));
        }
        assert_eq!(component_step(&mut rng, &empty(), true), None);
        assert_eq!(row_step(&mut rng, &empty()), None);
    }
}
