//! Every call on damaged tables, odd lengths and odd arguments: it answers,
//! a refusal changes nothing, and a granted call keeps lengths and head rule.

mod common;
use common::*;
use second::ids::{AllocManyState, ReserveReader};
use second::*;
use std::collections::BTreeMap;

fn odd(rng: &mut Rng) -> u32 {
    match rng.below(6) {
        0 => MAX,
        1 => MAX - 1,
        2 => 0,
        _ => rng.below(12) as u32,
    }
}

fn odd_long(rng: &mut Rng) -> u64 {
    match rng.below(8) {
        0 => u64::MAX,
        1 => 1 << 63,
        2 => u64::from(MAX),
        _ => rng.below(12),
    }
}

fn spoil(list: &mut [u32], rng: &mut Rng) {
    if !list.is_empty() {
        let k = rng.below(list.len() as u64) as usize;
        list[k] = odd(rng);
    }
}

fn relength<T: Clone + Default>(list: &mut Vec<T>, rng: &mut Rng) {
    let length = match rng.below(4) {
        0 => 0,
        1 => list.len() + 1,
        2 => list.len().saturating_sub(1),
        _ => rng.below(20) as usize,
    };
    list.resize(length, T::default());
}

/// Breaks one thing.
fn damage(t: &mut Tables, rng: &mut Rng) {
    match rng.below(24) {
        0..=2 => spoil(&mut t.generations, rng),
        3..=5 => spoil(&mut t.archetypes, rng),
        6..=8 => spoil(&mut t.indices, rng),
        9..=11 => spoil(&mut t.pending, rng),
        12..=14 => spoil(&mut t.row_numbers, rng),
        15 => spoil(&mut t.row_counts, rng),
        16 if !t.words.is_empty() => {
            let k = rng.below(t.words.len() as u64) as usize;
            t.words[k] = rng.pick(&[1, 1 << 63, u64::MAX, u64::MAX >> 1, 0]);
        }
        17 => match rng.below(3) {
            0 => {
                let (used, pending) = (t.head.used, t.head.pending);
                let cursor = rng.below(12) as i64 - 6;
                head(t, used, pending, cursor);
            }
            1 => {
                let used = rng.below(12);
                let pending = rng.below(used + 1);
                head(t, used, pending, pending as i64);
            }
            _ => {
                t.head = Head {
                    used: odd_long(rng),
                    pending: odd_long(rng),
                    live: odd_long(rng),
                    cursor: odd_long(rng) as i64,
                }
            }
        },
        18 => match rng.below(4) {
            0 => spoil(&mut t.declaration.rows, rng),
            1 => spoil(&mut t.declaration.widths, rng),
            2 => spoil(&mut t.declaration.types, rng),
            _ => spoil(&mut t.declaration.sizes, rng),
        },
        19 => match rng.below(12) {
            0 => relength(&mut t.generations, rng),
            1 => relength(&mut t.archetypes, rng),
            2 => relength(&mut t.indices, rng),
            3 => relength(&mut t.pending, rng),
            4 => relength(&mut t.row_numbers, rng),
            5 => relength(&mut t.row_counts, rng),
            6 => relength(&mut t.words, rng),
            7 => relength(&mut t.bytes, rng),
            8 => relength(&mut t.declaration.rows, rng),
            9 => relength(&mut t.declaration.widths, rng),
            10 => relength(&mut t.declaration.types, rng),
            _ => relength(&mut t.declaration.sizes, rng),
        },
        _ => {}
    }
}

#[derive(Clone, PartialEq, Debug)]
struct Outputs {
    handles: Vec<u64>,
    bytes: Vec<u8>,
    state: AllocManyState,
    reader: ReserveReader,
}

struct Arguments {
    bits: u64,
    number: u32,
    archetype: u32,
    row: u32,
    type_number: u32,
    n: u64,
    place: Place,
    row_run: Vec<u8>,
    component: Vec<u8>,
}

/// Arguments that fit these tables or nearly so, and an output as long as a row.
fn some_arguments(t: &Tables, o: &mut Outputs, rng: &mut Rng) -> Arguments {
    let bits = some_handle(t, rng);
    let number = if rng.one_in(8) { odd(rng) } else { rng.below(10) as u32 };
    let archetype = rng.below(t.declaration.rows.len() as u64 + 1) as u32;
    let row = if rng.one_in(8) { odd(rng) } else { rng.below(4) as u32 };
    let type_number =
        if t.declaration.types.is_empty() { 3 } else { rng.pick(&t.declaration.types) };
    let n = if rng.one_in(10) { odd_long(rng) } else { rng.below(6) };
    let place = at(archetype, if rng.one_in(5) { odd(rng) } else { row });
    let (width, size) = widths(&t.declaration, archetype, type_number);
    let width = width.min(100) + usize::from(rng.one_in(20));
    let size = size.min(100) + usize::from(rng.one_in(20));
    let row_run = rng.bytes(width);
    let component = rng.bytes(size);
    o.bytes = rng.bytes(width);
    Arguments { bits, number, archetype, row, type_number, n, place, row_run, component }
}

/// The bytes of a row and of a component, 3 where the declaration's lengths
/// disagree.
fn widths(d: &Declaration, archetype: u32, type_number: u32) -> (usize, usize) {
    let columns = d.widths.iter().map(|&w| u64::from(w)).sum::<u64>();
    let declared = columns == d.sizes.len() as u64
        && d.rows.len() == d.widths.len()
        && d.types.len() == d.sizes.len();
    if declared {
        (row_width(d, archetype), size_of(d, type_number).unwrap_or(0))
    } else {
        (3, 3)
    }
}

type Called = (&'static str, Answer<()>);

fn call(t: &mut Tables, o: &mut Outputs, rng: &mut Rng) -> Called {
    let arguments = some_arguments(t, o, rng);
    let outputs_before = o.clone();
    let (name, answer) = match rng.below(48) {
        // a clear leaves little to damage: mostly the length instead
        13 | 43 if !rng.one_in(5) => ("len", store::len(t).map(|_| ())),
        which @ 0..=16 => call_of_ids(which, t, o, &arguments),
        which @ 17..=23 => call_of_columns(which, t, o, &arguments),
        which => call_of_store(which, t, o, &arguments),
    };
    if answer.is_err() {
        assert_eq!(*o, outputs_before, "{name}: a refusal changed an output");
    }
    (name, answer)
}

fn call_of_ids(which: u64, t: &mut Tables, o: &mut Outputs, arguments: &Arguments) -> Called {
    let &Arguments { bits, number, archetype, n, place, .. } = arguments;
    match which {
        0 => ("ids reserve one", ids::reserve_entity(t).map(|_| ())),
        1 => ("ids reserve many", ids::reserve_entities(t, n, &mut o.handles)),
        2 => ("ids alloc", ids::alloc(t, place).map(|_| ())),
        3 => ("ids alloc many", ids::alloc_many(t, n, archetype, place.index).map(|s| o.state = s)),
        4 => ("ids alloc at", ids::alloc_at(t, bits, place).map(|_| ())),
        5 => ("ids free", ids::free(t, bits).map(|_| ())),
        6 => ("ids contains", ids::contains(t, bits).map(|_| ())),
        7 => ("ids get", ids::get(t, bits).map(|_| ())),
        8 => ("ids set place", ids::set_place(t, bits, place)),
        9 => ("ids resolve", ids::resolve_unknown_gen(t, number).map(|_| ())),
        10 => ("ids flush", ids::flush(t, archetype, place.index)),
        11 => ("ids len", ids::len(t).map(|_| ())),
        12 => ("ids freelist", ids::freelist(t, &mut o.handles).map(|_| ())),
        13 => ("ids clear", ids::clear(t)),
        14 => ("walk", ids::alloc_many_next(&mut o.state, &t.pending).map(|_| ())),
        15 => ("reader", ids::reserve_reader(t, n).map(|r| o.reader = r)),
        _ => ("reader step", ids::reserve_reader_step(&mut o.reader, &t.generations).map(|_| ())),
    }
}

fn call_of_columns(which: u64, t: &mut Tables, o: &mut Outputs, arguments: &Arguments) -> Called {
    let &Arguments { number, archetype, row, type_number, ref component, .. } = arguments;
    match which {
        17 => ("lookup", columns::lookup(&t.declaration, archetype, type_number).map(|_| ())),
        18 => ("allocate", columns::allocate(t, archetype, number).map(|_| ())),
        19 => ("columns remove", columns::remove(t, archetype, row).map(|_| ())),
        20 => ("move out", columns::move_out(t, archetype, row, &mut o.bytes).map(|_| ())),
        21 => ("put", columns::put(t, archetype, row, type_number, component)),
        22 => {
            let got = columns::get(t, archetype, row, type_number);
            let part = columns::get_part(t, archetype, row, type_number);
            assert_eq!(part.len(), got.map_or(0, |(_, length)| length));
            ("columns get", got.map(|_| ()))
        }
        _ => {
            let got = columns::ids(t, archetype);
            assert_eq!(columns::ids_part(t, archetype).len(), got.map_or(0, |(_, count)| count));
            ("columns ids", got.map(|_| ()))
        }
    }
}

fn call_of_store(which: u64, t: &mut Tables, o: &mut Outputs, arguments: &Arguments) -> Called {
    let &Arguments { bits, number, archetype, type_number, n, .. } = arguments;
    let Arguments { row_run, component, .. } = arguments;
    match which {
        24 | 25 => ("spawn", store::spawn(t, archetype, row_run).map(|_| ())),
        26 | 27 => ("spawn at", store::spawn_at(t, bits, archetype, row_run)),
        28 | 29 => ("despawn", store::despawn(t, bits)),
        30 | 31 => ("insert", store::insert(t, bits, type_number, component)),
        32 | 33 => ("remove", store::remove(t, bits, type_number)),
        34 => {
            let got = store::read(t, bits, type_number);
            let part = store::read_part(t, bits, type_number);
            assert_eq!(part.len(), got.map_or(0, |(_, length)| length));
            ("read", got.map(|_| ()))
        }
        35 => ("write", store::write(t, bits, type_number, component)),
        36 => ("borrow", store::borrow(t, archetype, type_number)),
        37 => ("borrow mut", store::borrow_mut(t, archetype, type_number)),
        38 => ("release", store::release(t, archetype, type_number)),
        39 => ("release mut", store::release_mut(t, archetype, type_number)),
        40 => ("reserve one", store::reserve_entity(t).map(|_| ())),
        41 => ("reserve many", store::reserve_entities(t, n, &mut o.handles)),
        42 => ("flush", store::flush(t)),
        43 => ("clear", store::clear(t)),
        44 => ("contains", store::contains(t, bits).map(|_| ())),
        45 => ("get", store::get(t, bits).map(|_| ())),
        46 => ("resolve", store::resolve(t, number).map(|_| ())),
        _ => ("freelist", store::freelist(t, &mut o.handles).map(|_| ())),
    }
}

fn lengths(t: &Tables) -> [usize; 8] {
    [
        t.generations.len(),
        t.archetypes.len(),
        t.indices.len(),
        t.pending.len(),
        t.row_numbers.len(),
        t.row_counts.len(),
        t.words.len(),
        t.bytes.len(),
    ]
}

/// Tables that calls have led to, reservations flushed or not.
fn some_tables(rng: &mut Rng) -> Tables {
    let declaration = if rng.one_in(2) { standard() } else { random_declaration(rng, 4) };
    let capacity = rng.pick(&[0, 2, 8, 8, 8, 10]);
    let mut t = fresh(declaration, capacity);
    let steps = rng.below(30) as usize;
    evolve(&mut t, rng, steps);
    if rng.one_in(2) {
        let _ = store::flush(&mut t);
    }
    t
}

fn some_outputs(rng: &mut Rng) -> Outputs {
    Outputs {
        handles: vec![1; rng.below(10) as usize],
        bytes: vec![],
        state: AllocManyState {
            position: odd_long(rng),
            end: odd_long(rng),
            next: rng.below(9) as u32,
            new_end: rng.below(9) as u32,
        },
        reader: ReserveReader {
            start: 0,
            part: vec![odd(rng), 2],
            position: rng.below(4) as usize,
            next: rng.below(9) as u32,
            new_end: rng.below(9) as u32,
        },
    }
}

/// One call, after damage now and then. Answers its name and what it answered,
/// 0 for a grant.
fn checked_call(t: &mut Tables, o: &mut Outputs, rng: &mut Rng) -> (&'static str, u32) {
    if rng.one_in(4) {
        damage(t, rng);
    }
    let before = t.clone();
    let (name, answer) = call(t, o, rng);
    match answer {
        Err(_) => assert_eq!(*t, before, "{name}: a refusal changed something"),
        Ok(()) => {
            assert_eq!(lengths(t), lengths(&before), "{name}");
            assert_eq!(t.declaration, before.declaration, "{name}");
            if ids::len(&before).is_ok() {
                assert!(ids::len(t).is_ok(), "{name} broke the head rule");
            }
        }
    }
    if name == "len" && answer.is_ok() {
        assert!(store::len(t).is_ok());
    }
    (name, answer.err().unwrap_or(0))
}

/// How often each call gave each answer.
type Seen = BTreeMap<(&'static str, u32), usize>;

fn calls_on_some_tables(rng: &mut Rng, seen: &mut Seen) {
    let mut t = some_tables(rng);
    let mut o = some_outputs(rng);
    for _ in 0..rng.below(20) {
        let answered = checked_call(&mut t, &mut o, rng);
        *seen.entry(answered).or_insert(0) += 1;
    }
}

/// The answers of each store call, 0 for a grant.
const ANSWERS: [(&str, &[u32]); 15] = [
    ("spawn", &[0, 1, 3, 4, 6, 8, 12, 13]),
    ("spawn at", &[0, 1, 3, 4, 5, 6, 8, 12, 13]),
    ("despawn", &[0, 1, 2, 3, 5, 8, 12, 13]),
    ("insert", &[0, 1, 2, 3, 4, 5, 8, 12, 13, 14]),
    ("remove", &[0, 1, 2, 3, 4, 5, 8, 12, 13, 14, 15]),
    ("read", &[0, 1, 2, 5, 7, 12, 13, 15]),
    ("write", &[0, 1, 2, 5, 8, 12, 13, 15]),
    ("borrow", &[0, 1, 6, 7, 9, 12, 13, 15]),
    ("release", &[0, 1, 6, 10, 11, 12, 13, 15]),
    ("flush", &[0, 1, 4, 8, 12, 13]),
    ("ids alloc", &[0, 1, 3, 4, 6, 13]),
    ("ids alloc many", &[0, 1, 3, 4, 6, 13]),
    ("ids alloc at", &[0, 1, 3, 4, 5, 6, 13]),
    ("ids free", &[0, 1, 2, 3, 5, 13]),
    ("walk", &[0, 13]),
];

fn each_was_met(seen: &Seen, name: &'static str, numbers: &[u32]) {
    for &number in numbers {
        assert!(seen.contains_key(&(name, number)), "{name} never answered {number}");
    }
}

fn seen_on_any_tables(rng: &mut Rng) -> Seen {
    let mut seen = Seen::new();
    for _ in 0..12_000 {
        calls_on_some_tables(rng, &mut seen);
    }
    seen
}

#[test]
fn every_call_answers_on_any_tables() {
    let seen = seen_on_any_tables(&mut Rng(5));
    for (name, numbers) in ANSWERS {
        each_was_met(&seen, name, numbers);
    }
}

/// Breaks a sentence of Sound, and words of its name.
type Way = (fn(&mut Tables), &'static str);

/// Each sentence of Sound can be broken, and is then named.
#[test]
fn sound_names_what_is_broken() {
    let ways: &[Way] = &[
        (|t| t.pending[0] = 6, "not below used"),
        (|t| t.archetypes[4] = 5, "has a place"),
        (|t| t.indices[4] = 0, "has a place"),
        (|t| t.generations[3] = 0, "generation 0"),
        (|t| t.row_numbers[9] = 0, "two rows"),
        (|t| t.row_numbers[9] = 7, "not used"),
        (|t| t.row_numbers[9] = 4, "which is pending"),
        (|t| t.indices[1] = 2, "its row as its place"),
        (|t| t.archetypes[1] = 2, "its row as its place"),
        (|t| t.row_counts[1] = 2, "neither pending nor in a row"),
        (|t| t.row_counts[1] = 5, "above its rows"),
        (
            |t| {
                head(t, 6, 2, 2);
                t.pending[1] = 4;
            },
            "pending twice",
        ),
    ];
    for (way, words) in ways {
        let mut t = small();
        way(&mut t);
        let why = sound(&t).unwrap_err();
        assert!(why.contains(words), "{why} / {words}");
    }
}
