//! Demand 3: n reservations in any split, then a flush, against n direct
//! spawns into archetype 0.

mod common;
use common::*;
use second::*;
use std::collections::BTreeSet;

/// Sound tables with nothing reserved and no borrow held.
fn start(rng: &mut Rng) -> Tables {
    let mut d = random_declaration(rng, 6);
    d.rows[0] = rng.pick(&[3, 20, 40, 60]);
    let capacity = rng.pick(&[0, 1, 3, 8, 16, 40]);
    let mut t = fresh(d, capacity);
    let steps = rng.below(80) as usize;
    evolve(&mut t, rng, steps);
    if store::flush(&mut t).is_err() {
        store::clear(&mut t).unwrap(); // no rows for what is reserved
    }
    for _ in 0..rng.below(20) {
        let bits = some_handle(&t, rng);
        let _ = store::despawn(&mut t, bits);
    }
    assert_eq!(sound(&t), Ok(()));
    assert_eq!(t.head.cursor, t.head.pending as i64);
    t
}

fn free_list(t: &Tables) -> Vec<u64> {
    let mut out = vec![0; t.generations.len()];
    let n = store::freelist(t, &mut out).unwrap();
    out.truncate(n as usize);
    out
}

/// Every handle worth looking up: all numbers, generations about those stored.
fn every_handle(t: &Tables) -> Vec<u64> {
    let mut all = vec![u64::MAX, v(MAX, 1)];
    for number in 0..t.generations.len() as u32 + 2 {
        let stored = t.generations.get(number as usize).copied().unwrap_or(1);
        for generation in [1, 2, stored, stored.wrapping_sub(1), stored.wrapping_add(1), MAX] {
            if generation != 0 {
                all.push(v(number, generation));
            }
        }
    }
    all
}

type Lookup = (Answer<Place>, Answer<bool>, Vec<Answer<Vec<u8>>>);

fn look_up(t: &Tables, bits: u64) -> Lookup {
    let types: BTreeSet<u32> = t.declaration.types.iter().copied().collect();
    let reads = types.iter().map(|&type_number| {
        store::read(t, bits, type_number).map(|_| store::read_part(t, bits, type_number).to_vec())
    });
    (store::get(t, bits), store::contains(t, bits), reads.collect())
}

/// How many to reserve: no more than there are numbers and rows for.
fn some_count(before: &Tables, rng: &mut Rng) -> u64 {
    let room = before.generations.len() as u64 - before.head.live;
    let rows = u64::from(before.declaration.rows[0] - before.row_counts[0]);
    let most = room.min(rows);
    if rng.one_in(3) {
        most
    } else {
        rng.below(most + 1)
    }
}

/// One reservation, or at most `most` at once.
fn reserve_part(t: &mut Tables, most: u64, rng: &mut Rng) -> Vec<u64> {
    if rng.one_in(2) {
        return vec![store::reserve_entity(t).expect("granted")];
    }
    let n = rng.below(most + 1);
    let mut out = vec![0; (n + rng.below(3)) as usize];
    store::reserve_entities(t, n, &mut out).expect("granted");
    out.truncate(n as usize);
    out
}

/// n reservations, split at random, with only lookups between.
fn reserve_in_parts(t: &mut Tables, n: u64, rng: &mut Rng) -> Vec<u64> {
    let mut handles = Vec::new();
    while handles.len() < n as usize {
        handles.extend(reserve_part(t, n - handles.len() as u64, rng));
        let _ = look_up(t, some_handle(t, rng));
    }
    handles
}

fn spawn_many(t: &mut Tables, n: u64) -> BTreeSet<u64> {
    (0..n).map(|_| store::spawn(t, 0, &[]).expect("granted")).collect()
}

fn check_reserved(before: &Tables, reserved: &BTreeSet<u64>, n: u64) {
    assert_eq!(reserved.len() as u64, n, "n different handles");
    let numbers: BTreeSet<u64> = reserved.iter().map(|h| h & u64::from(MAX)).collect();
    assert_eq!(numbers.len() as u64, n, "on different numbers");
    for &number in &numbers {
        let number = number as usize;
        assert!(number >= before.head.used as usize || before.indices[number] == MAX);
    }
}

/// The tables before, those with the reservations, those flushed after them,
/// and those with the direct spawns.
struct Outcome {
    before: Tables,
    unflushed: Tables,
    flushed: Tables,
    direct: Tables,
}

impl Outcome {
    fn heads_and_lists_agree(&self, n: u64) {
        let (flushed, direct) = (&self.flushed, &self.direct);
        let live = self.before.head.live + n;
        assert_eq!(flushed.head, direct.head);
        assert_eq!(flushed.generations, direct.generations, "every generation");
        assert_eq!(free_list(flushed), free_list(direct), "the free list in order");
        assert_eq!(store::len(flushed), Ok(live), "the live count");
        assert_eq!(store::len(direct), Ok(live));
    }

    fn newly_live(&self, bits: u64) {
        let after = look_up(&self.flushed, bits);
        assert_eq!(after.0.unwrap().archetype, 0);
        assert_eq!(after.1, Ok(true));
        assert_ne!(store::get(&self.before, bits).map(|p| p.index != MAX), Ok(true));
    }

    fn unchanged(&self, bits: u64) {
        let was = look_up(&self.before, bits);
        assert_eq!(look_up(&self.flushed, bits), was, "{bits:x}");
        assert_eq!(look_up(&self.unflushed, bits), was, "{bits:x}");
        assert_eq!(look_up(&self.direct, bits), was, "{bits:x}");
    }

    /// Exactly these are newly live; every other lookup is unchanged.
    fn lookups_agree(&self, reserved: &BTreeSet<u64>) {
        let handles = [every_handle(&self.before), every_handle(&self.flushed)];
        let all: BTreeSet<u64> = handles.concat().into_iter().collect();
        for bits in all {
            if reserved.contains(&bits) {
                self.newly_live(bits);
            } else {
                self.unchanged(bits);
            }
        }
    }
}

fn split_then_flush_is_n_spawns(before: Tables, n: u64, rng: &mut Rng) {
    let mut unflushed = before.clone();
    let handles = reserve_in_parts(&mut unflushed, n, rng);
    let reserved: BTreeSet<u64> = handles.into_iter().collect();
    check_reserved(&before, &reserved, n);
    let mut flushed = unflushed.clone();
    store::flush(&mut flushed).expect("granted");
    assert_eq!(sound(&flushed), Ok(()));

    let mut direct = before.clone();
    let spawned = spawn_many(&mut direct, n);
    assert_eq!(sound(&direct), Ok(()));

    assert_eq!(reserved, spawned, "the set of handles");
    let outcome = Outcome { before, unflushed, flushed, direct };
    outcome.heads_and_lists_agree(n);
    outcome.lookups_agree(&reserved);
}

#[test]
fn any_split_then_flush_is_n_spawns() {
    let mut rng = Rng(3);
    let (mut largest, mut with_both) = (0, 0);
    for _ in 0..600 {
        let before = start(&mut rng);
        let n = some_count(&before, &mut rng);
        largest = largest.max(n);
        with_both += usize::from(before.head.pending > 0 && n > before.head.pending);
        split_then_flush_is_n_spawns(before, n, &mut rng);
    }
    assert!(largest >= 30 && with_both > 100, "{largest} {with_both}");
}

/// One more than fits is refused, however the rest was split.
#[test]
fn one_too_many() {
    let mut rng = Rng(4);
    for _ in 0..500 {
        let mut t = start(&mut rng);
        let room = t.generations.len() as u64 - t.head.live;
        let first = rng.below(room + 1);
        let mut out = vec![0; room as usize + 1];
        assert_eq!(store::reserve_entities(&mut t, first, &mut out), Ok(()));
        let kept = t.clone();
        assert_eq!(store::reserve_entities(&mut t, room - first + 1, &mut out), Err(4));
        assert_eq!(t, kept);
        assert_eq!(store::reserve_entities(&mut t, room - first, &mut out), Ok(()));
        assert_eq!(store::reserve_entity(&mut t), Err(4));
    }
}
