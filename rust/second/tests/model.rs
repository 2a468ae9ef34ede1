//! Random sequences of store calls from fresh tables, against a naive model:
//! a map from live handle to components. The model knows nothing of rows,
//! pending lists or cursors, and says of every call what it must answer.

mod common;
use common::*;
use second::*;
use std::collections::{BTreeMap, BTreeSet, HashMap, HashSet};

type Components = BTreeMap<u32, Vec<u8>>;

struct Model {
    capacity: usize,
    sets: Vec<BTreeSet<u32>>,
    rows: Vec<usize>,
    sizes: BTreeMap<u32, usize>,
    live: HashMap<u64, Components>,
    reserved: HashSet<u64>,
    /// One above the highest number that was ever live since a clear.
    used: u64,
    /// Borrows held, by column: a shared count or -1 for unique.
    borrows: BTreeMap<(u32, u32), i64>,
    /// Every handle ever seen, to look stale ones up.
    seen: HashSet<u64>,
}

fn number(bits: u64) -> u64 {
    bits & u64::from(MAX)
}

impl Model {
    fn new(d: &Declaration, capacity: usize) -> Model {
        let mut sets = Vec::new();
        let mut sizes = BTreeMap::new();
        let mut k = 0;
        for &width in &d.widths {
            let mut set = BTreeSet::new();
            for _ in 0..width {
                set.insert(d.types[k]);
                sizes.insert(d.types[k], d.sizes[k] as usize);
                k += 1;
            }
            sets.push(set);
        }
        Model {
            capacity,
            sets,
            rows: d.rows.iter().map(|&r| r as usize).collect(),
            sizes,
            live: HashMap::new(),
            reserved: HashSet::new(),
            used: 0,
            borrows: BTreeMap::new(),
            seen: HashSet::new(),
        }
    }

    fn archetype_of(&self, c: &Components) -> u32 {
        let types: BTreeSet<u32> = c.keys().copied().collect();
        self.sets.iter().position(|s| *s == types).unwrap() as u32
    }

    fn count(&self, archetype: u32) -> usize {
        self.live.values().filter(|c| self.archetype_of(c) == archetype).count()
    }

    fn full(&self, archetype: u32) -> bool {
        self.count(archetype) >= self.rows[archetype as usize]
    }

    fn borrowed(&self) -> bool {
        self.borrows.values().any(|&b| b != 0)
    }

    fn is_reserved_new(&self, bits: u64) -> bool {
        self.reserved.contains(&bits) && number(bits) >= self.used
    }

    /// The components of a row given as one run in column order.
    fn split(&self, archetype: u32, bytes: &[u8]) -> Components {
        let mut out = Components::new();
        let mut done = 0;
        for &type_number in &self.sets[archetype as usize] {
            let size = self.sizes[&type_number];
            out.insert(type_number, bytes[done..done + size].to_vec());
            done += size;
        }
        out
    }

    fn width(&self, archetype: u32) -> usize {
        self.sets[archetype as usize].iter().map(|t| self.sizes[t]).sum()
    }

    fn target(&self, types: BTreeSet<u32>) -> Option<u32> {
        self.sets.iter().position(|s| *s == types).map(|a| a as u32)
    }

    fn comes_alive(&mut self, bits: u64, components: Components) {
        self.used = self.used.max(number(bits) + 1);
        self.seen.insert(bits);
        assert!(self.live.insert(bits, components).is_none());
    }

    /// A handle just handed out stands for a number nobody holds.
    fn check_new(&self, bits: u64) {
        assert_ne!(bits >> 32, 0);
        assert!((number(bits) as usize) < self.capacity);
        let held = self.live.keys().chain(&self.reserved);
        for &other in held {
            assert_ne!(number(bits), number(other));
        }
    }

    fn comes_reserved(&mut self, bits: u64) {
        self.check_new(bits);
        self.reserved.insert(bits);
        self.seen.insert(bits);
    }

    fn spawn_refusal(&self, archetype: u32, length: usize) -> Option<u32> {
        let declared = (archetype as usize) < self.sets.len();
        if declared && length != self.width(archetype) {
            Some(13)
        } else if !self.reserved.is_empty() {
            Some(3)
        } else if !declared {
            Some(6)
        } else if self.borrowed() {
            Some(8)
        } else if self.live.len() >= self.capacity || self.full(archetype) {
            Some(4)
        } else {
            None
        }
    }

    fn spawn_at_refusal(&self, bits: u64, archetype: u32, length: usize) -> Option<u32> {
        let declared = (archetype as usize) < self.sets.len();
        if declared && length != self.width(archetype) {
            return Some(13);
        }
        if bits >> 32 == 0 {
            return Some(5);
        }
        if !self.reserved.is_empty() {
            return Some(3);
        }
        if !declared {
            return Some(6);
        }
        if self.borrowed() {
            return Some(8);
        }
        if number(bits) as usize >= self.capacity {
            return Some(4);
        }
        let old = self.live.iter().find(|(h, _)| number(**h) == number(bits));
        let freed = match old {
            Some((_, c)) => self.archetype_of(c) == archetype,
            None => false,
        };
        if self.count(archetype) - usize::from(freed) >= self.rows[archetype as usize] {
            return Some(4);
        }
        None
    }

    /// 5, 3, 2 of despawn, insert and remove.
    fn live_refusal(&self, bits: u64) -> Option<u32> {
        if bits >> 32 == 0 {
            Some(5)
        } else if !self.reserved.is_empty() {
            Some(3)
        } else if !self.live.contains_key(&bits) {
            Some(2)
        } else {
            None
        }
    }

    fn wrong_size(&self, type_number: u32, length: usize) -> bool {
        self.sizes.get(&type_number).is_some_and(|&s| s != length)
    }

    /// Moving to another archetype: 8, then 4.
    fn move_refusal(&self, target: u32) -> Option<u32> {
        if self.borrowed() {
            Some(8)
        } else if self.full(target) {
            Some(4)
        } else {
            None
        }
    }

    fn insert_refusal(&self, bits: u64, type_number: u32, length: usize) -> Option<u32> {
        if self.wrong_size(type_number, length) {
            return Some(13);
        }
        if let Some(n) = self.live_refusal(bits) {
            return Some(n);
        }
        let mut types: BTreeSet<u32> = self.live[&bits].keys().copied().collect();
        if !types.insert(type_number) {
            return if self.borrowed() { Some(8) } else { None };
        }
        match self.target(types) {
            None => Some(14),
            Some(target) => self.move_refusal(target),
        }
    }

    fn remove_refusal(&self, bits: u64, type_number: u32) -> Option<u32> {
        if let Some(n) = self.live_refusal(bits) {
            return Some(n);
        }
        let mut types: BTreeSet<u32> = self.live[&bits].keys().copied().collect();
        if !types.remove(&type_number) {
            return Some(15);
        }
        match self.target(types) {
            None => Some(14),
            Some(target) => self.move_refusal(target),
        }
    }

    /// 5, 2, 15 of read and write; then the borrow held on the column.
    fn access(&self, bits: u64, type_number: u32) -> Result<i64, u32> {
        if bits >> 32 == 0 {
            return Err(5);
        }
        if self.is_reserved_new(bits) {
            return Err(15);
        }
        let components = self.live.get(&bits).ok_or(2u32)?;
        if !components.contains_key(&type_number) {
            return Err(15);
        }
        let column = (self.archetype_of(components), type_number);
        Ok(self.borrows.get(&column).copied().unwrap_or(0))
    }

    fn column_refusal(&self, archetype: u32, type_number: u32) -> Option<u32> {
        if archetype as usize >= self.sets.len() {
            Some(6)
        } else if !self.sets[archetype as usize].contains(&type_number) {
            Some(15)
        } else {
            None
        }
    }

    /// What must hold of the tables after every call.
    fn agrees(&self, t: &Tables) {
        assert_eq!(sound(t), Ok(()));
        assert_eq!(store::len(t), Ok(self.live.len() as u64));
        assert_eq!(t.head.used, self.used);
        for (&bits, components) in &self.live {
            let place = store::get(t, bits).unwrap();
            assert_eq!(place.archetype, self.archetype_of(components));
            assert_eq!(ids::get(t, bits), Ok(place));
            for (&type_number, bytes) in components {
                let column = (place.archetype, type_number);
                let held = self.borrows.get(&column).copied().unwrap_or(0);
                if held < 0 {
                    assert_eq!(store::read(t, bits, type_number), Err(7));
                    assert_eq!(store::read_part(t, bits, type_number), []);
                } else {
                    assert_eq!(store::read_part(t, bits, type_number), bytes);
                }
            }
        }
        for &bits in &self.seen {
            let expected = self.live.contains_key(&bits) || self.reserved.contains(&bits);
            assert_eq!(store::contains(t, bits), Ok(expected));
            if !self.live.contains_key(&bits) {
                let answer = if self.is_reserved_new(bits) { Ok(at(0, MAX)) } else { Err(2) };
                assert_eq!(store::get(t, bits), answer);
            }
            if expected {
                assert_eq!(store::resolve(t, number(bits) as u32), Ok(bits));
            }
        }
        // The free numbers are all used ones that nobody holds.
        let mut out = vec![3; self.capacity + 1];
        let free = store::freelist(t, &mut out).unwrap() as usize;
        let mut found = BTreeSet::new();
        for &bits in &out[..free] {
            self.check_new(bits);
            assert!(number(bits) < self.used);
            assert!(found.insert(number(bits)));
        }
        assert!(out[free..].iter().all(|&x| x == 3));
        let reserved_old = self.reserved.iter().filter(|&&h| number(h) < self.used);
        assert_eq!(free + self.live.len() + reserved_old.count(), self.used as usize);
    }
}

/// The tables and the model beside them, for one call.
struct Step<'a> {
    tables: &'a mut Tables,
    before: Tables,
    model: &'a mut Model,
    rng: &'a mut Rng,
    archetype: u32,
    type_number: u32,
    bits: u64,
}

/// The name of a call that was granted.
type Granted = Option<&'static str>;

impl<'a> Step<'a> {
    fn new(tables: &'a mut Tables, model: &'a mut Model, rng: &'a mut Rng) -> Step<'a> {
        let before = tables.clone();
        let archetypes = model.sets.len() as u64;
        let undeclared = u64::from(rng.one_in(10));
        let archetype = rng.below(archetypes + undeclared) as u32;
        let type_number = if model.sizes.is_empty() || rng.one_in(15) {
            rng.below(40) as u32
        } else {
            let all: Vec<u32> = model.sizes.keys().copied().collect();
            rng.pick(&all)
        };
        let bits = if rng.one_in(3) || model.live.is_empty() {
            some_handle(tables, rng)
        } else {
            let mut all: Vec<u64> = model.live.keys().copied().collect();
            all.sort();
            rng.pick(&all)
        };
        Step { tables, before, model, rng, archetype, type_number, bits }
    }

    fn call(&mut self) -> Granted {
        match self.rng.below(20) {
            0..=4 => self.spawn(),
            5 => self.spawn_at(),
            6 | 7 => self.despawn(),
            8 | 9 => self.insert(),
            10 => self.remove(),
            11 => self.write(),
            12 => self.read(),
            13 => self.borrow_or_release(),
            14 => self.release_all(),
            15 => self.reserve_one(),
            16 => self.reserve_many(),
            17 | 18 => self.flush(),
            _ => self.clear(),
        }
    }

    /// The call must answer the refusal the model expects, changing nothing,
    /// or be granted.
    fn check<T: std::fmt::Debug>(&self, got: &Answer<T>, expected: Option<u32>) -> bool {
        assert_eq!(got.as_ref().err().copied(), expected, "{got:?}");
        if expected.is_some() {
            assert_eq!(*self.tables, self.before, "a refusal changed something");
        }
        expected.is_none()
    }

    fn row_bytes(&mut self) -> Vec<u8> {
        mostly_right(self.rng, row_width(&self.tables.declaration, self.archetype))
    }

    fn component_bytes(&mut self) -> Vec<u8> {
        let size = self.model.sizes.get(&self.type_number).copied();
        mostly_right(self.rng, size.unwrap_or(3))
    }

    fn spawn(&mut self) -> Granted {
        let bytes = self.row_bytes();
        let expected = self.model.spawn_refusal(self.archetype, bytes.len());
        let got = store::spawn(self.tables, self.archetype, &bytes);
        if !self.check(&got, expected) {
            return None;
        }
        self.model.check_new(got.unwrap());
        let components = self.model.split(self.archetype, &bytes);
        self.model.comes_alive(got.unwrap(), components);
        Some("spawn")
    }

    fn spawn_at(&mut self) -> Granted {
        let bits = self.bits;
        let bytes = self.row_bytes();
        let expected = self.model.spawn_at_refusal(bits, self.archetype, bytes.len());
        let got = store::spawn_at(self.tables, bits, self.archetype, &bytes);
        if !self.check(&got, expected) {
            return None;
        }
        self.model.live.retain(|h, _| number(*h) != number(bits));
        let components = self.model.split(self.archetype, &bytes);
        self.model.comes_alive(bits, components);
        Some("spawn_at")
    }

    fn despawn(&mut self) -> Granted {
        let borrowed = if self.model.borrowed() { Some(8) } else { None };
        let expected = self.model.live_refusal(self.bits).or(borrowed);
        let got = store::despawn(self.tables, self.bits);
        if !self.check(&got, expected) {
            return None;
        }
        self.model.live.remove(&self.bits);
        Some("despawn")
    }

    fn insert(&mut self) -> Granted {
        let type_number = self.type_number;
        let bytes = self.component_bytes();
        let expected = self.model.insert_refusal(self.bits, type_number, bytes.len());
        let got = store::insert(self.tables, self.bits, type_number, &bytes);
        if !self.check(&got, expected) {
            return None;
        }
        self.components().insert(type_number, bytes);
        Some("insert")
    }

    fn remove(&mut self) -> Granted {
        let type_number = self.type_number;
        let expected = self.model.remove_refusal(self.bits, type_number);
        let got = store::remove(self.tables, self.bits, type_number);
        if !self.check(&got, expected) {
            return None;
        }
        self.components().remove(&type_number);
        Some("remove")
    }

    fn write(&mut self) -> Granted {
        let type_number = self.type_number;
        let bytes = self.component_bytes();
        let expected = if self.model.wrong_size(type_number, bytes.len()) {
            Some(13)
        } else {
            match self.model.access(self.bits, type_number) {
                Err(n) => Some(n),
                Ok(0) => None,
                Ok(_) => Some(8),
            }
        };
        let got = store::write(self.tables, self.bits, type_number, &bytes);
        if !self.check(&got, expected) {
            return None;
        }
        self.components().insert(type_number, bytes);
        Some("write")
    }

    fn read(&mut self) -> Granted {
        let expected = match self.model.access(self.bits, self.type_number) {
            Err(n) => Some(n),
            Ok(held) if held < 0 => Some(7),
            Ok(_) => None,
        };
        let got = store::read(self.tables, self.bits, self.type_number);
        if !self.check(&got, expected) {
            return None;
        }
        let (start, length) = got.unwrap();
        let expected = &self.model.live[&self.bits][&self.type_number];
        assert_eq!(self.tables.bytes[start..start + length], *expected);
        Some("read")
    }

    /// What the model holds for the handle, which is live.
    fn components(&mut self) -> &mut Components {
        self.model.live.get_mut(&self.bits).unwrap()
    }

    fn borrow_or_release(&mut self) -> Granted {
        let (archetype, type_number) = (self.archetype, self.type_number);
        let held = self.model.borrows.get(&(archetype, type_number)).copied().unwrap_or(0);
        let column = self.model.column_refusal(archetype, type_number);
        let call = self.rng.below(4);
        let (own, after) = borrow_rule(call, held);
        let got = match call {
            0 => store::borrow(self.tables, archetype, type_number),
            1 => store::borrow_mut(self.tables, archetype, type_number),
            2 => store::release(self.tables, archetype, type_number),
            _ => store::release_mut(self.tables, archetype, type_number),
        };
        if !self.check(&got, column.or(own)) {
            return None;
        }
        self.model.borrows.insert((archetype, type_number), after);
        Some("borrow or release")
    }

    /// Lets go of everything, so that the rest can go on.
    fn release_all(&mut self) -> Granted {
        for (column, held) in std::mem::take(&mut self.model.borrows) {
            release_column(self.tables, column, held);
        }
        None
    }

    fn room(&self) -> usize {
        self.model.capacity - self.model.live.len() - self.model.reserved.len()
    }

    fn reserve_one(&mut self) -> Granted {
        let expected = if self.room() < 1 { Some(4) } else { None };
        let got = store::reserve_entity(self.tables);
        if !self.check(&got, expected) {
            return None;
        }
        self.model.comes_reserved(got.unwrap());
        Some("reserve one")
    }

    fn reserve_many(&mut self) -> Granted {
        let room = self.room();
        let n = self.rng.below(room as u64 + 2);
        let length = (n + self.rng.below(3)).saturating_sub(u64::from(self.rng.one_in(5)));
        let mut out = vec![5; length as usize];
        let expected = if length < n {
            Some(13)
        } else if room < n as usize {
            Some(4)
        } else {
            None
        };
        let got = store::reserve_entities(self.tables, n, &mut out);
        if !self.check(&got, expected) {
            assert!(out.iter().all(|&x| x == 5));
            return None;
        }
        let (handles, rest) = out.split_at(n as usize);
        for &bits in handles {
            self.model.comes_reserved(bits);
        }
        assert!(rest.iter().all(|&x| x == 5));
        Some("reserve many")
    }

    /// What is reserved needs more rows than archetype 0 has.
    fn reserved_too_many(&self) -> bool {
        self.model.count(0) + self.model.reserved.len() > self.model.rows[0]
    }

    fn flush(&mut self) -> Granted {
        let expected = if self.model.borrowed() {
            Some(8)
        } else if self.reserved_too_many() {
            Some(4)
        } else {
            None
        };
        let got = store::flush(self.tables);
        if !self.check(&got, expected) {
            return None;
        }
        for bits in std::mem::take(&mut self.model.reserved) {
            self.model.comes_alive(bits, Components::new());
        }
        Some("flush")
    }

    /// Seldom, or where a flush would be refused for good.
    fn clear(&mut self) -> Granted {
        if !self.rng.one_in(40) && !self.reserved_too_many() {
            return None;
        }
        let expected = if self.model.borrowed() { Some(8) } else { None };
        let got = store::clear(self.tables);
        if !self.check(&got, expected) {
            return None;
        }
        self.model.live.clear();
        self.model.reserved.clear();
        self.model.used = 0;
        Some("clear")
    }
}

/// The refusal of borrow, borrow mut, release and release mut on a column with
/// this borrow held, and the borrow held after a grant.
fn borrow_rule(call: u64, held: i64) -> (Option<u32>, i64) {
    match call {
        0 => (if held < 0 { Some(7) } else { None }, held + 1),
        1 => (if held != 0 { Some(8) } else { None }, -1),
        2 => {
            let own = match held {
                0 => Some(10),
                -1 => Some(11),
                _ => None,
            };
            (own, held - 1)
        }
        _ => (if held >= 0 { Some(11) } else { None }, 0),
    }
}

fn release_column(t: &mut Tables, (archetype, type_number): (u32, u32), held: i64) {
    if held < 0 {
        assert_eq!(store::release_mut(t, archetype, type_number), Ok(()));
    }
    for _ in 0..held.max(0) {
        assert_eq!(store::release(t, archetype, type_number), Ok(()));
    }
}

/// That many bytes, now and then one more.
fn mostly_right(rng: &mut Rng, length: usize) -> Vec<u8> {
    let more = usize::from(rng.one_in(20));
    rng.bytes(length + more)
}

fn step(t: &mut Tables, m: &mut Model, rng: &mut Rng, granted: &mut BTreeMap<&'static str, usize>) {
    let name = Step::new(t, m, rng).call().unwrap_or("");
    *granted.entry(name).or_insert(0) += 1;
    m.agrees(t);
}

#[test]
fn random_sequences_agree_with_the_model() {
    let mut rng = Rng(1);
    let mut granted = BTreeMap::new();
    for round in 0..200 {
        let capacity = rng.pick(&[0, 1, 2, 5, 8, 16]);
        let declaration = match round % 3 {
            0 => standard(),
            _ => random_declaration(&mut rng, 7),
        };
        let mut t = fresh(declaration.clone(), capacity);
        let mut m = Model::new(&declaration, capacity);
        m.agrees(&t);
        for _ in 0..150 {
            step(&mut t, &mut m, &mut rng, &mut granted);
        }
    }
    // every call was granted often enough to mean something
    for name in [
        "spawn",
        "spawn_at",
        "despawn",
        "insert",
        "remove",
        "read",
        "write",
        "borrow or release",
        "reserve one",
        "reserve many",
        "flush",
        "clear",
    ] {
        assert!(granted.get(name).copied().unwrap_or(0) > 50, "{name}: {granted:?}");
    }
}
