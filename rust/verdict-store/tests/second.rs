//! The store against the second program: random calls on random declarations,
//! every answer and everything that can be seen afterwards the same.

use second::{columns, store, Tables};
use std::collections::BTreeMap;
use verdict_store::{Column, Declaration, Entity, Place, Refusal, VerdictStore};

/// Xorshift, so that a seed gives the same run everywhere.
struct Random(u64);

impl Random {
    fn next(&mut self) -> u64 {
        self.0 ^= self.0 << 13;
        self.0 ^= self.0 >> 7;
        self.0 ^= self.0 << 17;
        self.0
    }

    fn below(&mut self, n: usize) -> usize {
        (self.next() >> 11) as usize % n
    }

    fn bytes(&mut self, n: usize) -> Vec<u8> {
        (0..n).map(|_| self.next() as u8).collect()
    }

    fn one<T: Copy>(&mut self, of: &[T]) -> T {
        of[self.below(of.len())]
    }
}

/// Types 1 to 4 with sizes that differ, 0 among them.
const SIZES: [u32; 5] = [0, 8, 0, 3, 64];

fn column(kind: u32) -> Column {
    Column { kind, size: SIZES[kind as usize] }
}

struct Both {
    ours: VerdictStore,
    theirs: Tables,
    archetypes: Vec<Vec<Column>>,
    /// Handles that were ever given out, and some that never were.
    known: Vec<Entity>,
}

/// A random set of types for each archetype, no two the same.
fn declared(random: &mut Random) -> (u32, Vec<(u32, Vec<Column>)>) {
    let mut sets = vec![0];
    for _ in 0..1 + random.below(15) {
        let set = random.below(16);
        if !sets.contains(&set) {
            sets.push(set);
        }
    }
    let columns = |set: usize| (1..5).filter(|k| set >> (k - 1) & 1 == 1).map(column).collect();
    let rows = |random: &mut Random| random.below(9) as u32;
    let mut archetypes: Vec<_> = sets.iter().map(|set| (rows(random), columns(*set))).collect();
    // Mostly so many that a flush has room: without one hardly a call is granted.
    archetypes[0].0 = random.one(&[archetypes[0].0, 17, 17, 17]);
    (random.below(17) as u32, archetypes)
}

/// The second program's empty tables for this declaration.
fn tables(capacity: u32, archetypes: &[(u32, Vec<Column>)]) -> Tables {
    let columns = || archetypes.iter().flat_map(|(_, columns)| columns);
    let declaration = second::Declaration {
        rows: archetypes.iter().map(|(rows, _)| *rows).collect(),
        widths: archetypes.iter().map(|(_, columns)| columns.len() as u32).collect(),
        types: columns().map(|column| column.kind).collect(),
        sizes: columns().map(|column| column.size).collect(),
    };
    second::fresh(declaration, capacity as usize)
}

fn made(random: &mut Random) -> Both {
    let (capacity, archetypes) = declared(random);
    let mut builder = Declaration::new(capacity).rows_without_components(archetypes[0].0);
    for (rows, columns) in &archetypes[1..] {
        // In any order: the builder puts them in theirs.
        builder = builder.archetype(*rows, columns.iter().rev().copied());
    }
    Both {
        ours: builder.build().unwrap(),
        theirs: tables(capacity, &archetypes),
        archetypes: archetypes.into_iter().map(|(_, columns)| columns).collect(),
        known: vec![Entity::DANGLING, Entity::new(0, 1).unwrap(), Entity::new(3, 7).unwrap()],
    }
}

/// What a call answered: a handle's bits or 0, or the number of the refusal.
type Answer = Result<u64, u32>;

/// A call's name, and the two answers to it.
type Call = (&'static str, Answer, Answer);

fn none(answer: Result<(), Refusal>) -> Answer {
    numbered(answer.map(|()| 0))
}

fn handle(answer: Result<Entity, Refusal>) -> Answer {
    numbered(answer.map(|entity| entity.to_bits().get()))
}

fn numbered<T>(answer: Result<T, Refusal>) -> Result<T, u32> {
    answer.map_err(Refusal::number)
}

fn place(place: second::Place) -> Place {
    Place { archetype: place.archetype, index: place.index }
}

impl Both {
    /// A live entity, or one of those that are known, the newest more often.
    fn handle(&self, random: &mut Random) -> Entity {
        let archetypes = 0..self.archetypes.len() as u32;
        let live: Vec<Entity> = archetypes.flat_map(|a| self.ours.entities(a).unwrap()).collect();
        if !live.is_empty() && random.below(3) > 0 {
            return random.one(&live);
        }
        let back = random.below(self.known.len()).min(random.below(self.known.len()));
        self.known[self.known.len() - 1 - back]
    }

    /// A type that the entity has, or any.
    fn kind(&self, random: &mut Random, entity: Entity) -> u32 {
        let has = match self.ours.get(entity) {
            Ok(place) => &self.archetypes[place.archetype as usize][..],
            Err(_) => &[],
        };
        if !has.is_empty() && random.below(3) > 0 {
            return random.one(has).kind;
        }
        random.one(&[1, 1, 2, 2, 3, 3, 4, 4, 0, 5])
    }

    /// A column that is held, one that is declared, or any.
    fn column(&self, random: &mut Random) -> (u32, u32) {
        let columns = self.archetypes.iter().enumerate();
        let named =
            columns.flat_map(|(a, of)| of.iter().map(move |column| (a as u32, column.kind)));
        let named: Vec<(u32, u32)> = named.collect();
        let held = named.iter().zip(&self.theirs.words).filter(|(_, word)| **word != 0);
        let held: Vec<(u32, u32)> = held.map(|(column, _)| *column).collect();
        let any = [(random.below(self.archetypes.len() + 1) as u32, random.below(6) as u32)];
        let from = random.one(&[&held[..], &held, &held, &named, &any]);
        random.one(if from.is_empty() { &any } else { from })
    }

    /// The bytes of a row of an archetype, at times a wrong number of them.
    fn row(&self, random: &mut Random, archetype: usize) -> Vec<u8> {
        let columns = self.archetypes.get(archetype).map_or(&[][..], |columns| columns);
        let length = columns.iter().map(|column| column.size as usize).sum::<usize>();
        let wrong = random.below(20) == 0;
        random.bytes(length + wrong as usize)
    }

    fn value(&self, random: &mut Random, kind: u32) -> Vec<u8> {
        let length = SIZES.get(kind as usize).copied().unwrap_or(2) as usize;
        let wrong = random.below(20) == 0;
        random.bytes(length + wrong as usize)
    }

    fn learn(&mut self, bits: &[u64]) {
        self.known.extend(bits.iter().map(|bits| Entity::from_bits(*bits).unwrap()));
        if self.known.len() > 40 {
            self.known.drain(..self.known.len() - 40);
        }
    }

    /// A random call on both: its name, and what both answered.
    fn step(&mut self, random: &mut Random) -> (&'static str, Answer) {
        let entity = self.handle(random);
        let archetype = random.below(self.archetypes.len() + 1);
        let kind = self.kind(random, entity);
        let (what, ours, theirs) = match random.below(27) {
            0..=6 => self.spawn(random, archetype),
            7..=17 => self.change(random, entity, kind),
            18..=19 => self.reserve(random),
            20..=22 => {
                ("flush", none(self.ours.flush()), store::flush(&mut self.theirs).map(|()| 0))
            }
            23 if random.below(8) == 0 => {
                ("clear", none(self.ours.clear()), store::clear(&mut self.theirs).map(|()| 0))
            }
            _ => self.word(random),
        };
        assert_eq!(ours, theirs, "{what} {entity} archetype {archetype} type {kind}");
        (what, ours)
    }

    fn spawn(&mut self, random: &mut Random, archetype: usize) -> Call {
        let (a, row) = (archetype as u32, self.row(random, archetype));
        if random.below(4) > 0 {
            let ours = self.ours.spawn_bytes(a, &row);
            let theirs = store::spawn(&mut self.theirs, a, &row);
            self.learn(theirs.as_ref().map_or(&[], std::slice::from_ref));
            return ("spawn", handle(ours), theirs);
        }
        let generation = random.one(&[1, 2, 9, u32::MAX]);
        let at = Entity::new(random.below(18) as u32, generation).unwrap();
        let bits = at.to_bits().get();
        self.learn(&[bits]);
        let ours = self.ours.spawn_at_bytes(at, a, &row);
        ("spawn at", none(ours), store::spawn_at(&mut self.theirs, bits, a, &row).map(|()| 0))
    }

    /// Despawn, and the calls on one component.
    fn change(&mut self, random: &mut Random, entity: Entity, kind: u32) -> Call {
        let (bits, value) = (entity.to_bits().get(), self.value(random, kind));
        let (ours, theirs) = (&mut self.ours, &mut self.theirs);
        let (what, ours, theirs) = match random.below(11) {
            0..=2 => ("despawn", ours.despawn(entity), store::despawn(theirs, bits)),
            3..=5 => {
                let ours = ours.insert_bytes(entity, kind, &value);
                ("insert", ours, store::insert(theirs, bits, kind, &value))
            }
            6..=8 => ("remove", ours.remove_type(entity, kind), store::remove(theirs, bits, kind)),
            _ => {
                let ours = ours.write_bytes(entity, kind, &value);
                ("write", ours, store::write(theirs, bits, kind, &value))
            }
        };
        (what, none(ours), theirs.map(|()| 0))
    }

    fn reserve(&mut self, random: &mut Random) -> Call {
        if random.below(2) == 0 {
            let ours = self.ours.reserve_entity();
            let theirs = store::reserve_entity(&mut self.theirs);
            self.learn(theirs.as_ref().map_or(&[], std::slice::from_ref));
            return ("reserve", handle(ours), theirs);
        }
        let n = random.below(6);
        let mut out = vec![0; n];
        let theirs = store::reserve_entities(&mut self.theirs, n as u64, &mut out);
        let ours = self.ours.reserve_entities(n as u32);
        if let (Ok(handles), Ok(())) = (ours.clone(), theirs) {
            assert!(handles.map(|e| e.to_bits().get()).eq(out.iter().copied()));
            self.learn(&out);
        }
        ("reserve many", none(ours.map(|_| ())), theirs.map(|()| 0))
    }

    /// Borrows and releases, mostly so that words come back to 0.
    fn word(&mut self, random: &mut Random) -> Call {
        let (a, kind) = self.column(random);
        let (ours, theirs) = (&mut self.ours, &mut self.theirs);
        let (what, ours, theirs) = match random.below(10) {
            0..=1 => ("hold", ours.hold(a, kind), store::borrow(theirs, a, kind)),
            2 => ("hold uniquely", ours.hold_mut(a, kind), store::borrow_mut(theirs, a, kind)),
            3..=5 => ("release", ours.release(a, kind), store::release(theirs, a, kind)),
            6..=8 => {
                ("unique release", ours.release_mut(a, kind), store::release_mut(theirs, a, kind))
            }
            _ => {
                self.release_all();
                ("release all", Ok(()), Ok(()))
            }
        };
        assert_eq!(numbered(ours), theirs, "{what} archetype {a} type {kind}");
        (what, none(ours), theirs.map(|()| 0))
    }

    fn release_all(&mut self) {
        for a in 0..self.archetypes.len() as u32 {
            for kind in 1..5 {
                while self.ours.release(a, kind).is_ok() {
                    store::release(&mut self.theirs, a, kind).unwrap();
                }
                if self.ours.release_mut(a, kind).is_ok() {
                    store::release_mut(&mut self.theirs, a, kind).unwrap();
                }
            }
        }
    }

    /// All that a caller can see.
    fn same(&self) {
        assert_eq!(self.ours.len() as u64, store::len(&self.theirs).unwrap());
        for entity in &self.known {
            let bits = entity.to_bits().get();
            assert_eq!(Ok(self.ours.contains(*entity)), store::contains(&self.theirs, bits));
            assert_eq!(numbered(self.ours.get(*entity)), store::get(&self.theirs, bits).map(place));
            for kind in 0..6 {
                let ours = numbered(self.ours.read_bytes(*entity, kind));
                let theirs = store::read(&self.theirs, bits, kind);
                let theirs = theirs.map(|(start, length)| &self.theirs.bytes[start..][..length]);
                assert_eq!(ours, theirs, "{entity} {kind}");
            }
        }
        for number in 0..18 {
            let ours = self.ours.resolve_unknown_gen(number).map(|e| e.to_bits().get());
            assert_eq!(numbered(ours), store::resolve(&self.theirs, number));
        }
        let mut free = vec![0; self.ours.capacity()];
        let count = store::freelist(&self.theirs, &mut free).unwrap() as usize;
        assert!(self.ours.freelist().map(|e| e.to_bits().get()).eq(free[..count].iter().copied()));
        let mut copy = self.theirs.clone();
        for archetype in 0..self.archetypes.len() as u32 {
            let ours = self.ours.entities(archetype).unwrap();
            assert_eq!(ours.len() as u32, self.theirs.row_counts[archetype as usize]);
            for (index, entity) in ours.enumerate() {
                let place = Place { archetype, index: index as u32 };
                assert_eq!(self.ours.get(entity), Ok(place));
            }
            self.same_columns(archetype, &mut copy);
        }
    }

    /// What a guard shows of each column, where it is granted. The copy is the second
    /// program's tables, to borrow in.
    fn same_columns(&self, archetype: u32, copy: &mut Tables) {
        let rows = self.theirs.row_counts[archetype as usize];
        for kind in 0..6 {
            let ours = numbered(self.ours.borrow(archetype, kind));
            let theirs = store::borrow(copy, archetype, kind);
            assert_eq!(ours.as_ref().err(), theirs.as_ref().err());
            let Ok(column) = ours else { continue };
            let part = |row| columns::get_part(&self.theirs, archetype, row, kind);
            let parts: Vec<&[u8]> = (0..rows).map(part).collect();
            assert_eq!(column.bytes(), parts.concat(), "archetype {archetype} type {kind}");
            assert!((0..rows).map_while(|row| column.row(row)).eq(parts));
            assert_eq!((column.rows(), column.row(rows)), (rows as usize, None));
        }
    }
}

/// How often each call is to be granted and to be refused in the run below, which does
/// so about twice as often.
const WANTED: [(&str, u32, u32); 15] = [
    ("spawn", 150, 400),
    ("spawn at", 30, 150),
    ("despawn", 100, 200),
    ("insert", 60, 250),
    ("remove", 25, 300),
    ("write", 45, 150),
    ("reserve", 80, 15),
    ("reserve many", 75, 35),
    ("flush", 200, 80),
    ("clear", 10, 1),
    ("hold", 40, 40),
    ("hold uniquely", 20, 20),
    ("release", 15, 120),
    ("unique release", 6, 110),
    ("release all", 40, 0),
];

#[test]
fn random_calls_agree_with_the_second_program() {
    let mut counted: BTreeMap<&str, (u32, u32)> = BTreeMap::new();
    for seed in 1..=100u64 {
        let mut random = Random(seed.wrapping_mul(0x9e37_79b9_7f4a_7c15));
        let mut both = made(&mut random);
        for _ in 0..60 {
            let (what, answer) = both.step(&mut random);
            let (granted, refused) = counted.entry(what).or_default();
            *if answer.is_ok() { granted } else { refused } += 1;
            both.same();
        }
    }
    for (what, granted, refused) in WANTED {
        let times = counted.remove(what).unwrap_or_default();
        assert!(times.0 >= granted && times.1 >= refused, "{what}: {times:?}");
    }
    assert!(counted.is_empty(), "{counted:?}");
}

/// Any declaration, allowed or not: the builder's words say what the rule says.
#[test]
fn the_builder_allows_what_the_second_program_allows() {
    let mut random = Random(7);
    let mut allowed = 0;
    for _ in 0..3000 {
        let capacity = random.one(&[0, 4, 4096, 4097]);
        let mut archetypes = vec![(random.one(&[0, 5, 4096]), vec![])];
        for _ in 0..random.one(&[0, 1, 2, 3, 14, 15, 16]) {
            let mut columns = Vec::new();
            for _ in 0..random.one(&[1, 1, 2, 3, 4, 4, 16, 17]) {
                let kind = random.one(&[random.0 as u32 % 40, random.0 as u32]);
                let odd = random.below(400) == 0;
                columns.push(Column { kind, size: if odd { 65 } else { kind % 60 } });
            }
            columns.sort_by_key(|column| column.kind);
            if random.below(4) > 0 {
                columns.dedup_by_key(|column| column.kind);
            }
            let rows = if random.below(60) == 0 { 4097 } else { random.below(9) as u32 };
            archetypes.push((rows, columns));
        }
        let mut builder = Declaration::new(capacity).rows_without_components(archetypes[0].0);
        for (rows, columns) in &archetypes[1..] {
            builder = builder.archetype(*rows, columns.iter().copied());
        }
        let rule = store::len(&tables(capacity, &archetypes));
        assert_eq!(builder.check().is_ok(), rule.is_ok(), "{builder:?} {rule:?}");
        if rule.is_ok() {
            assert_eq!(builder.build().unwrap().len(), 0);
            allowed += 1;
        }
    }
    assert!(allowed > 100, "{allowed}");
}
