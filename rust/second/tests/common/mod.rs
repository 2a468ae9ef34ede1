#![allow(dead_code)]

use second::handles::{to_bits, Handle};
use second::*;

/// A small generator of pseudo-random numbers (splitmix64).
pub struct Rng(pub u64);

impl Rng {
    pub fn next(&mut self) -> u64 {
        self.0 = self.0.wrapping_add(0x9E37_79B9_7F4A_7C15);
        let mut z = self.0;
        z = (z ^ (z >> 30)).wrapping_mul(0xBF58_476D_1CE4_E5B9);
        z = (z ^ (z >> 27)).wrapping_mul(0x94D0_49BB_1331_11EB);
        z ^ (z >> 31)
    }

    pub fn below(&mut self, n: u64) -> u64 {
        if n == 0 {
            0
        } else {
            self.next() % n
        }
    }

    pub fn one_in(&mut self, n: u64) -> bool {
        self.below(n) == 0
    }

    pub fn pick<T: Copy>(&mut self, from: &[T]) -> T {
        from[self.below(from.len() as u64) as usize]
    }

    pub fn bytes(&mut self, n: usize) -> Vec<u8> {
        (0..n).map(|_| self.next() as u8).collect()
    }
}

/// A handle as bits: number v generation.
pub fn v(number: u32, generation: u32) -> u64 {
    to_bits(Handle { generation, number }).unwrap()
}

pub fn at(archetype: u32, index: u32) -> Place {
    Place { archetype, index }
}

/// Sets the head so that live is used less pending.
pub fn head(t: &mut Tables, used: u64, pending: u64, cursor: i64) {
    t.head = Head { used, pending, live: used.wrapping_sub(pending), cursor };
}

/// Declares archetypes given as (rows, [(type, size)]).
pub fn declare(archetypes: &[(u32, &[(u32, u32)])]) -> Declaration {
    let mut d = Declaration::default();
    for (rows, columns) in archetypes {
        d.rows.push(*rows);
        d.widths.push(columns.len() as u32);
        for (type_number, size) in *columns {
            d.types.push(*type_number);
            d.sizes.push(*size);
        }
    }
    d
}

/// The declaration most tests use. Types 10 (4 bytes), 20 (2), 30 (0).
pub fn standard() -> Declaration {
    declare(&[
        (8, &[]),
        (4, &[(10, 4)]),
        (4, &[(10, 4), (20, 2)]),
        (3, &[(20, 2)]),
        (2, &[(10, 4), (20, 2), (30, 0)]),
    ])
}

/// Used 6, pending [4], live 5, capacity 8, nothing reserved or borrowed:
/// 0v1, 1v1, 2v1 in archetype 1, 3v1 in archetype 2, 5v1 in archetype 0.
pub fn small() -> Tables {
    let mut t = fresh(standard(), 8);
    assert_eq!(store::spawn(&mut t, 1, &[1, 1, 1, 1]), Ok(v(0, 1)));
    assert_eq!(store::spawn(&mut t, 1, &[2, 2, 2, 2]), Ok(v(1, 1)));
    assert_eq!(store::spawn(&mut t, 1, &[3, 3, 3, 3]), Ok(v(2, 1)));
    assert_eq!(store::spawn(&mut t, 2, &[4, 4, 4, 4, 5, 5]), Ok(v(3, 1)));
    assert_eq!(store::spawn(&mut t, 0, &[]), Ok(v(4, 1)));
    assert_eq!(store::spawn(&mut t, 0, &[]), Ok(v(5, 1)));
    assert_eq!(store::despawn(&mut t, v(4, 1)), Ok(()));
    assert_eq!(sound(&t), Ok(()));
    t
}

/// A random declaration that keeps the rules.
pub fn random_declaration(rng: &mut Rng, most_rows: u64) -> Declaration {
    let pool: Vec<(u32, u32)> =
        (0..4).map(|k| (k * 7 + rng.below(7) as u32, rng.pick(&[0, 1, 2, 4, 8]))).collect();
    let mut d = Declaration::default();
    let sets: u64 = 1 << pool.len();
    for set in 0..sets {
        if set != 0 && rng.one_in(3) || d.rows.len() == 16 {
            continue;
        }
        d.rows.push(rng.below(most_rows + 1) as u32);
        let columns: Vec<_> =
            pool.iter().enumerate().filter(|(k, _)| set >> k & 1 == 1).map(|(_, c)| *c).collect();
        d.widths.push(columns.len() as u32);
        for (type_number, size) in columns {
            d.types.push(type_number);
            d.sizes.push(size);
        }
    }
    d
}

/// The size of a type declared anywhere.
pub fn size_of(d: &Declaration, type_number: u32) -> Option<usize> {
    d.types.iter().position(|&t| t == type_number).map(|k| d.sizes[k] as usize)
}

/// The bytes of a row of an archetype.
pub fn row_width(d: &Declaration, archetype: u32) -> usize {
    let a = archetype as usize;
    if a >= d.rows.len() {
        return 0;
    }
    let before: u32 = d.widths[..a].iter().sum();
    let columns = before as usize..before as usize + d.widths[a] as usize;
    d.sizes[columns].iter().map(|&s| s as usize).sum()
}

/// A handle that is worth trying: live, reserved, freed or nonsense.
pub fn some_handle(t: &Tables, rng: &mut Rng) -> u64 {
    let capacity = t.generations.len() as u64;
    let number = if rng.one_in(12) {
        rng.pick(&[0, MAX, capacity as u32, t.head.used as u32])
    } else {
        rng.below(capacity + 1) as u32
    };
    let stored = t.generations.get(number as usize).copied().unwrap_or(1);
    let generation = match rng.below(12) {
        0 => 0,
        1 => 1,
        2 => stored.wrapping_sub(1),
        3 => MAX,
        _ => stored,
    };
    u64::from(generation) << 32 | u64::from(number)
}

/// Takes random steps with the store's calls and leaves the tables sound.
pub fn evolve(t: &mut Tables, rng: &mut Rng, steps: usize) {
    for _ in 0..steps {
        let archetypes = t.declaration.rows.len() as u64;
        let archetype = rng.below(archetypes) as u32;
        let bits = some_handle(t, rng);
        let width = row_width(&t.declaration, archetype);
        let _ = match rng.below(12) {
            0..=3 => {
                let bytes = rng.bytes(width);
                store::spawn(t, archetype, &bytes).map(|_| ())
            }
            4 => {
                let bytes = rng.bytes(width);
                store::spawn_at(t, bits, archetype, &bytes)
            }
            5 | 6 => store::despawn(t, bits),
            7 | 8 if !t.declaration.types.is_empty() => {
                let type_number = rng.pick(&t.declaration.types);
                let bytes = rng.bytes(size_of(&t.declaration, type_number).unwrap());
                store::insert(t, bits, type_number, &bytes)
            }
            9 if !t.declaration.types.is_empty() => {
                let type_number = rng.pick(&t.declaration.types);
                store::remove(t, bits, type_number)
            }
            10 => store::reserve_entity(t).map(|_| ()),
            _ => store::flush(t),
        };
    }
}
