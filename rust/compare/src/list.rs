//! The fixed lists that the programs `replay_..` play in the gate.
//!
//! A list is hexadecimal numbers, each with one space or line end after it:
//! how many lines there are, then the lines. A line begins with how many
//! numbers follow in it. Then come 1 and all tables of the program; or a call:
//! its position among the program's calls plus 2, three arguments, the lengths
//! of the tables that are not lent whole, and the words or bytes that it is
//! lent beside the tables. Of each call the program prints a line: the
//! refusal's number, the four numbers of the answer, and a digest of what it
//! leaves of the tables, as far as they were lent, and of those words or bytes.

use crate::ours::{Apart, Exchange, CALLS};
use crate::tables::{above_limit, crowd, damage_within, sound_of};
use crate::{columns, ids, moves, store};
use oracle::calls::{compared, ColumnCall, IdCall, Original, Player, WordCall};
use oracle::sequences::{column_call, column_tables, id_call, id_tables, some_word, Rng, WORDS};
use oracle::{bits, place, ColumnTables, Columns, IdTables, Ids, Place, NOWHERE};
use std::collections::{BTreeMap, BTreeSet};
use std::fmt::Write as _;

/// How much of a table a call is lent: all of it, or what the line's first or second length says.
#[derive(Clone, Copy, PartialEq)]
enum Lent {
    Whole,
    First,
    Second,
}
use Lent::{First, Second, Whole};

/// A program, its tables in order with how many numbers of each a line tells, and its calls.
struct Program {
    name: &'static str,
    tables: &'static [(&'static str, usize, Lent)],
    calls: &'static [&'static str],
}

const IDS: &[(&str, usize, Lent)] = &[
    ("head", 4, Whole),
    ("generations", 16, First),
    ("archetypes", 16, First),
    ("indices", 16, First),
    ("pending", 16, Second),
];

const COLUMNS: &[(&str, usize, Lent)] = &[
    ("rows", 6, Whole),
    ("widths", 6, Whole),
    ("types", 9, Whole),
    ("sizes", 9, Whole),
    ("numbers", 16, Whole),
    ("counts", 6, First),
    ("bytes", 64, Second),
];

const STORE: &[(&str, usize, Lent)] = &[
    ("head", 4, Whole),
    ("rows", 6, Whole),
    ("widths", 6, Whole),
    ("types", 9, Whole),
    ("sizes", 9, Whole),
    ("generations", 16, Whole),
    ("archetypes", 16, Whole),
    ("indices", 16, Whole),
    ("pending", 16, First),
    ("numbers", 16, Whole),
    ("counts", 6, Second),
    ("bytes", 64, Whole),
    ("words", 9, Whole),
];

const PROGRAMS: [Program; 5] = [
    Program {
        name: "replay_ids",
        tables: IDS,
        calls: &[
            "verdict_word_shared",
            "verdict_word_unique",
            "verdict_word_release",
            "verdict_word_unique_release",
            "verdict_word_shared_at",
            "verdict_word_unique_at",
            "verdict_word_release_at",
            "verdict_word_unique_release_at",
            "verdict_handle_from_bits",
            "verdict_handle_new",
            "verdict_ids_reserve_entity",
            "verdict_ids_alloc",
            "verdict_ids_alloc_at",
            "verdict_ids_free",
            "verdict_ids_set_place",
            "verdict_ids_contains",
            "verdict_ids_get",
            "verdict_ids_resolve_unknown_gen",
            "verdict_ids_len",
            "verdict_ids_clear",
            "verdict_ids_reserve_entities",
            "verdict_ids_alloc_many",
            "verdict_ids_alloc_many_next",
            "verdict_ids_flush",
            "verdict_ids_freelist",
        ],
    },
    Program {
        name: "replay_columns",
        tables: COLUMNS,
        calls: &[
            "verdict_columns_allocate",
            "verdict_columns_remove",
            "verdict_columns_move_out",
            "verdict_columns_put",
            "verdict_columns_get",
            "verdict_columns_lookup",
            "verdict_columns_ids",
        ],
    },
    Program {
        name: "replay_reads",
        tables: STORE,
        calls: &[
            "verdict_store_get",
            "verdict_store_contains",
            "verdict_store_resolve_unknown_gen",
            "verdict_store_len",
            "verdict_store_read",
            "verdict_store_borrow",
            "verdict_store_borrow_mut",
            "verdict_store_release",
            "verdict_store_release_mut",
            "verdict_store_reserve_entity",
            "verdict_store_reserve_entities",
            "verdict_store_freelist",
        ],
    },
    Program {
        name: "replay_moves",
        tables: STORE,
        calls: &[
            "verdict_store_insert",
            "verdict_store_remove",
            "verdict_store_write",
            "verdict_store_flush",
            "verdict_store_clear",
        ],
    },
    Program {
        name: "replay_spawn",
        tables: STORE,
        calls: &["verdict_store_spawn", "verdict_store_spawn_at", "verdict_store_despawn"],
    },
];

/// Calls that no program plays: the walks over held references, which `compare` runs.
const LEFT_OUT: &[&str] = &[
    "verdict_ids_reserve_span",
    "verdict_ids_reserve_next",
    "verdict_ids_reserve_len",
    "verdict_ids_alloc_many_len",
];

/// The calls on a word: on it alone, and at a position of a table.
const WORD_CALLS: [(&str, &str); 4] = [
    ("verdict_word_shared", "verdict_word_shared_at"),
    ("verdict_word_unique", "verdict_word_unique_at"),
    ("verdict_word_release", "verdict_word_release_at"),
    ("verdict_word_unique_release", "verdict_word_unique_release_at"),
];

/// What the calls on words and handles can answer; of the others, [`store::WANTED`] says it.
const WANTED: &[(&str, &[u32])] = &[
    ("verdict_word_shared", &[0, 7, 9]),
    ("verdict_word_unique", &[0, 8]),
    ("verdict_word_release", &[0, 10, 11]),
    ("verdict_word_unique_release", &[0, 11]),
    ("verdict_word_shared_at", &[0, 7, 9, 13]),
    ("verdict_word_unique_at", &[0, 8, 13]),
    ("verdict_word_release_at", &[0, 10, 11, 13]),
    ("verdict_word_unique_release_at", &[0, 11, 13]),
    ("verdict_handle_from_bits", &[0, 5]),
    ("verdict_handle_new", &[0, 5]),
];

fn wanted(call: &str) -> &'static [u32] {
    let known = WANTED.iter().map(|w| (w.0, w.1)).chain(store::WANTED.iter().map(|w| (w.1, w.2)));
    known.filter(|w| w.0 == call).map(|w| w.1).next().expect("a call whose answers are known")
}

/// The declaration that fits: six archetypes, nine columns, sixteen rows, 64 bytes.
const DECLARED: [(u32, &[(u32, u32)]); 6] = [
    (4, &[]),
    (3, &[(5, 4)]),
    (3, &[(5, 4), (9, 2)]),
    (2, &[(9, 2)]),
    (2, &[(5, 4), (9, 2), (12, 0)]),
    (2, &[(12, 0), (4_000_000_000, 9)]),
];

/// How often a call must have done what [`moves::WANTED`] names.
const TIMES: usize = 20;

/// How many words or bytes a program has room for beside its tables.
const ROOM: usize = 80;

/// How many bytes and how many numbers of a list a program has room for.
const BYTES: usize = 65_536;
const NUMBERS: usize = 32_768;

struct List {
    program: &'static Program,
    lines: Vec<String>,
    told: String,
    /// Every table as it is now, by name.
    now: BTreeMap<&'static str, Vec<u64>>,
    /// Each call and each number that it answered.
    seen: BTreeSet<(&'static str, u32)>,
    /// How often each call did what [`moves::WANTED`] names.
    done: BTreeMap<(&'static str, &'static str), usize>,
    calls: usize,
}

/// A table's digest, after that of what came before.
fn digest(sum: u64, table: &[u64], words: bool) -> u64 {
    let mixed = |sum: u64, v: u64| (sum % 8_796_093_022_151) * 1_048_573 + v;
    table.iter().fold(sum, |sum, v| {
        let sum = if words { mixed(sum, v >> 32) } else { sum };
        mixed(sum, v & 0xffff_ffff)
    })
}

/// What a call has beside the tables: its arguments, the four numbers of its answer, and what it
/// is lent and leaves, as words or as bytes.
struct Beside {
    numbers: Vec<u64>,
    out: Vec<u64>,
    before: Vec<u64>,
    after: Vec<u64>,
    words: bool,
}

impl Beside {
    fn new(numbers: Vec<u64>) -> Beside {
        Beside { numbers, out: vec![0; 4], before: Vec::new(), after: Vec::new(), words: true }
    }

    /// A single word crosses as an argument and as the answer's first number.
    fn take(&mut self, part: &Apart) {
        match (part.name, part.size) {
            ("out", 8) => self.out.clone_from(&part.after),
            ("word", _) => {
                self.numbers.push(part.before[0]);
                self.out[0] = part.after[0];
            }
            _ => {
                (self.before, self.after) = (part.before.clone(), part.after.clone());
                self.words = part.size != 1;
            }
        }
    }
}

impl List {
    fn new(name: &str) -> List {
        let program = PROGRAMS.iter().find(|p| p.name == name).expect("a program");
        let now = program.tables.iter().map(|t| (t.0, vec![0; t.1])).collect();
        List {
            program,
            lines: Vec::new(),
            told: String::new(),
            now,
            seen: BTreeSet::new(),
            done: BTreeMap::new(),
            calls: 0,
        }
    }

    fn line(&mut self, values: &[u64]) {
        let mut line = format!("{:x}", values.len());
        for v in values {
            let _ = write!(line, " {v:x}");
        }
        self.lines.push(line);
    }

    fn table(&self, name: &str) -> Option<&'static (&'static str, usize, Lent)> {
        self.program.tables.iter().find(|t| t.0 == name)
    }

    /// Tells all tables where one is not as this call finds it. Past what a line tells there are zeros.
    fn tell(&mut self, parts: &[Apart]) {
        let mut as_told = true;
        for part in parts {
            let Some((name, whole, _)) = self.table(part.name) else { continue };
            let told = part.before.len().min(*whole);
            assert!(part.before[told..].iter().all(|v| *v == 0), "{name} is too long for the list");
            let now = self.now.get_mut(name).unwrap();
            if now[..told] != part.before[..told] {
                as_told = false;
                now.fill(0);
                now[..told].copy_from_slice(&part.before[..told]);
            }
        }
        if !as_told {
            let tables = self.program.tables.iter().flat_map(|t| self.now[t.0].clone());
            let line: Vec<u64> = [1].into_iter().chain(tables).collect();
            self.line(&line);
        }
    }

    /// The two lengths of a call's tables; 0 for those that it is not lent.
    fn lengths(&self, parts: &[Apart]) -> [usize; 2] {
        let mut lengths = [None; 2];
        for part in parts {
            match self.table(part.name) {
                Some((name, whole, Whole)) => {
                    assert_eq!(part.before.len(), *whole, "{name} is lent whole");
                }
                Some((name, _, lent)) => {
                    let length = &mut lengths[usize::from(*lent == Second)];
                    assert!(length.is_none_or(|n| n == part.before.len()), "{name} differs");
                    *length = Some(part.before.len());
                }
                None => {}
            }
        }
        lengths.map(|n| n.unwrap_or(0))
    }

    /// The digest of what is left of the tables, as far as they were lent.
    fn left(&self, lengths: [usize; 2]) -> u64 {
        self.program.tables.iter().fold(0, |sum, (name, whole, lent)| {
            let length = match lent {
                Whole => *whole,
                First => lengths[0],
                Second => lengths[1],
            };
            let mut table = self.now[name].clone();
            table.resize(length, 0);
            digest(sum, &table, ["head", "words"].contains(name))
        })
    }

    /// Leaves the tables as the call does. What the call has beside them.
    fn leave(&mut self, numbers: Vec<u64>, parts: &[Apart]) -> Beside {
        let mut beside = Beside::new(numbers);
        for part in parts {
            match self.now.get_mut(part.name) {
                Some(now) => now.iter_mut().zip(&part.after).for_each(|(n, v)| *n = *v),
                None => beside.take(part),
            }
        }
        beside
    }

    fn call(&mut self, e: &Exchange) {
        let (numbers, parts) = e.taken_apart();
        let name = e.name();
        let position = self.program.calls.iter().position(|c| *c == name).expect("its call");
        self.tell(&parts);
        let lengths = self.lengths(&parts);
        let beside = self.leave(numbers, &parts);
        assert!(beside.numbers.len() <= 3 && beside.before.len() <= ROOM);
        let mut line = vec![position as u64 + 2];
        line.extend(beside.numbers.iter().copied().chain([0; 3]).take(3));
        line.extend(lengths.map(|n| n as u64));
        line.extend(beside.before);
        self.line(&line);
        let left = digest(self.left(lengths), &beside.after, beside.words);
        let answer: String = beside.out.iter().map(|v| format!(" {v:x}")).collect();
        let _ = writeln!(self.told, "{:x}{answer} {left:x}", e.code());
        self.seen.insert((name, e.code() as u32));
        moves::done(e)
            .into_iter()
            .for_each(|what| *self.done.entry((name, what)).or_default() += 1);
        self.calls += 1;
    }

    /// Whether the call did this too few times.
    fn rare(&self, call: &str, what: &str) -> bool {
        self.done.get(&(call, what)).copied().unwrap_or(0) < TIMES
    }

    /// The call, if the program plays it and has room for it, and the list is not long enough or lacks it.
    fn add(&mut self, e: &Exchange, enough: usize) -> bool {
        let name = e.name();
        let fits = |p: &Apart| self.table(p.name).is_some() || p.before.len() <= ROOM;
        let lacks = !self.seen.contains(&(name, e.code() as u32))
            || moves::done(e).iter().any(|what| self.rare(name, what));
        let wanted = self.calls < enough || lacks;
        let added =
            wanted && self.program.calls.contains(&name) && e.taken_apart().1.iter().all(fits);
        if added {
            self.call(e);
        }
        added
    }

    /// What must be in the list and is not: each call with each number that it can give, and often
    /// enough with what [`moves::WANTED`] names.
    fn missing(&self) -> Vec<String> {
        let lacks = |call: &'static str| {
            let codes =
                wanted(call).iter().filter(move |code| !self.seen.contains(&(call, **code)));
            codes.map(move |code| format!("{}: {call} with {code}", self.program.name))
        };
        let missing = self.program.calls.iter().flat_map(|call| lacks(call));
        let played = moves::WANTED.iter().filter(|w| self.program.calls.contains(&w.1));
        let rare = played.filter(|w| self.rare(w.1, w.2));
        let times = |w: &(_, &str, &str)| format!("{}: {}: {}", self.program.name, w.1, w.2);
        missing.chain(rare.map(times)).collect()
    }

    /// What the program reads.
    fn text(&self) -> String {
        let text = format!("{:x}\n{}\n", self.lines.len(), self.lines.join("\n"));
        let numbers = text.split_ascii_whitespace().count();
        assert!(text.len() <= BYTES && numbers <= NUMBERS, "{} is too long", self.program.name);
        text
    }

    /// The number with which document 01 refuses the call, where it lies outside what is compared.
    fn id(&mut self, ids: &mut Ids, call: IdCall) -> Result<(), u32> {
        let before = ids.tables();
        let (code, values) = compared(ids.call(&call), &call)?;
        let after = ids.tables();
        self.call(&ids::exchange(&call, &before, &after, code, &values));
        if let (IdCall::AllocMany(..), 0) = (call, code) {
            ids::walk(&after.pending, &values).iter().for_each(|e| self.call(e));
        }
        Ok(())
    }

    fn column(&mut self, columns: &mut Columns, call: ColumnCall) -> Result<(), u32> {
        let before = columns.tables();
        let (code, values) = compared(columns.call(&call), &call)?;
        let d = columns.declaration().clone();
        self.call(&columns::exchange(&call, &d, &before, &columns.tables(), code, &values));
        Ok(())
    }

    /// A call of document 01's examples: none of them may be lost.
    fn id_example(&mut self, ids: &mut Ids, call: IdCall) {
        self.id(ids, call).unwrap_or_else(|number| panic!("{call:?} lies outside: {number}"));
    }

    fn column_example(&mut self, columns: &mut Columns, call: ColumnCall) {
        let said = self.column(columns, call.clone());
        said.unwrap_or_else(|number| panic!("{call:?} lies outside: {number}"));
    }

    /// A word alone, and at position 3 of nine.
    fn word(&mut self, which: usize, word: u64) {
        let (alone, at) = WORD_CALLS[which];
        let mut after = word;
        let (code, _) = Original.word(&mut after, WordCall::ALL[which]);
        self.call(&Exchange::new(alone, code).array("word", &[word], &[after]));
        let (mut table, mut left) = ([1; 9], [1; 9]);
        (table[3], left[3]) = (word, after);
        let out = if code == 0 { vec![after] } else { Vec::new() };
        self.call(&Exchange::new(at, code).slice("words", &table, &left).numbers(&[3]).out(&out));
    }

    /// A position that a table of nine does not have: 13, as include/verdict_store.h says. Each word
    /// is one on which the call is granted.
    fn past(&mut self, which: usize, position: u64) {
        let word = [0u64, 0, 1, 1 << 63][which];
        let e = Exchange::new(WORD_CALLS[which].1, 13).lent("words", &[word; 9]);
        self.call(&e.numbers(&[position]).out(&[]));
    }

    fn unpack(&mut self, bits: u64) {
        let (code, out) = Original.unpack(bits);
        self.call(&Exchange::new("verdict_handle_from_bits", code).numbers(&[bits]).out(&out));
    }

    fn pack(&mut self, number: u32, generation: u32) {
        let (code, out) = Original.pack(number, generation);
        let numbers = [number.into(), generation.into()];
        self.call(&Exchange::new("verdict_handle_new", code).numbers(&numbers).out(&out));
    }

    /// A call that lies outside the original: the second program refuses it.
    fn outside(&mut self, ids: &Ids, call: IdCall) {
        let t = ids.tables();
        let mut lent = second::fresh(second::Declaration::default(), t.generations.len());
        (lent.generations, lent.pending) = (t.generations.clone(), t.pending.clone());
        (lent.archetypes, lent.indices) = (t.archetypes.clone(), t.indices.clone());
        let [used, pending, cursor, live] = ids::head_words(t.head);
        lent.head = second::Head { used, pending, cursor: cursor as i64, live };
        let said = match call {
            IdCall::ReserveEntities(n) => {
                second::ids::reserve_entities(&mut lent, n.into(), &mut vec![0; n as usize])
            }
            IdCall::AllocAt(bits, p) => {
                let place = second::Place { archetype: p.archetype, index: p.index };
                second::ids::alloc_at(&mut lent, bits, place).map(|_| ())
            }
            _ => unreachable!("{call:?}"),
        };
        let code = said.expect_err("a refusal");
        self.call(&ids::exchange(&call, &t, &t, code, &[]));
    }

    /// Document 01's examples K1 to K13, but for K10.
    fn examples(&mut self) {
        self.examples_to_4();
        self.examples_5_to_8();
        self.examples_from_9();
    }

    fn examples_to_4(&mut self) {
        let at = |index| place(1, index);
        // K1, K2
        self.pack(7, 2);
        self.unpack(8_589_934_599);
        self.unpack(4_294_967_295);
        // K3
        let mut ids = Ids::new(&IdTables::empty(16));
        (0..3).for_each(|i| self.id_example(&mut ids, IdCall::Alloc(at(i))));
        self.id_example(&mut ids, IdCall::Free(bits(1, 1)));
        self.id_example(&mut ids, IdCall::Free(bits(0, 1)));
        // K4, from these: one batch of two, or two singles, then a flush
        let pending = ids.tables();
        for batch in [true, false] {
            let mut ids = Ids::new(&pending);
            if batch {
                self.id_example(&mut ids, IdCall::ReserveEntities(2));
            } else {
                (0..2).for_each(|_| self.id_example(&mut ids, IdCall::ReserveEntity));
            }
            self.id_example(&mut ids, IdCall::Flush(at(0)));
            self.id_example(&mut ids, IdCall::Get(bits(1, 2)));
        }
        (0..3).for_each(|i| self.id_example(&mut ids, IdCall::Alloc(at(i + 5))));
    }

    fn examples_5_to_8(&mut self) {
        let at = |index| place(1, index);
        let fresh = || Ids::new(&IdTables::empty(16));
        // K5
        let mut six = fresh();
        (0..6).for_each(|i| self.id_example(&mut six, IdCall::Alloc(at(i))));
        (0..6).for_each(|i| self.id_example(&mut six, IdCall::Free(bits(i, 1))));
        let mut all = Ids::new(&six.tables());
        self.id_example(&mut six, IdCall::ReserveEntities(9));
        self.id_example(&mut six, IdCall::Flush(at(0)));
        self.id_example(&mut six, IdCall::Len);
        self.outside(&all, IdCall::ReserveEntities(17));
        self.id_example(&mut all, IdCall::ReserveEntities(16));
        // K6
        self.id_example(&mut fresh(), IdCall::ReserveEntities(0));
        self.id_example(&mut Ids::new(&IdTables::empty(0)), IdCall::ReserveEntities(0));
        // K7
        let mut last = fresh();
        self.id_example(&mut last, IdCall::AllocAt(bits(0, u32::MAX), at(0)));
        self.id_example(&mut last, IdCall::Free(bits(0, u32::MAX)));
        // K8
        let mut chosen = fresh();
        self.id_example(&mut chosen, IdCall::AllocAt(bits(5, 9), at(0)));
        self.id_example(&mut chosen, IdCall::AllocAt(bits(2, 1), at(1)));
        self.outside(&chosen, IdCall::AllocAt(bits(16, 1), at(2)));
        self.id_example(&mut chosen, IdCall::AllocAt(bits(15, 1), at(2)));
    }

    fn examples_from_9(&mut self) {
        let at = |index| place(1, index);
        let fresh = || Ids::new(&IdTables::empty(16));
        // K9, from pending [4, 1, 3]: a batch, and two singles
        let mut five = fresh();
        (0..5).for_each(|i| self.id_example(&mut five, IdCall::Alloc(at(i))));
        [4, 1, 3].iter().for_each(|n| self.id_example(&mut five, IdCall::Free(bits(*n, 1))));
        let mut singles = Ids::new(&five.tables());
        self.id_example(&mut five, IdCall::AllocMany(2, at(7)));
        (0..2).for_each(|i| self.id_example(&mut singles, IdCall::Alloc(at(i + 7))));
        // K11, K13
        self.word(0, (1 << 63) - 1);
        self.word(0, 1 << 63);
        self.word(1, 1);
        self.word(3, (1 << 63) + 2);
        // K12
        let mut three = fresh();
        (0..3).for_each(|i| self.id_example(&mut three, IdCall::Alloc(at(i))));
        self.id_example(&mut three, IdCall::ReserveEntities(2));
        self.id_example(&mut three, IdCall::Contains(bits(4, 1)));
        self.id_example(&mut three, IdCall::Contains(bits(5, 1)));
        self.id_example(&mut three, IdCall::Get(bits(4, 1)));
        assert_eq!(three.get(bits(4, 1)), Ok(NOWHERE as Place));
    }
}

/// Each of these calls on tables of a capacity above the limit.
fn add_above_limit(list: &mut List, rng: &mut Rng, kinds: &[usize]) {
    let t = above_limit(rng);
    for which in kinds {
        let called = store::made(rng, *which, &t).0;
        list.add(&called, usize::MAX);
    }
}

/// Tables that fit, sound or damaged, and often crowded for the calls that move rows.
fn some_tables(rng: &mut Rng, ids: bool, moving: bool) -> second::Tables {
    let oracle::Declaration { rows, widths, types, sizes } = oracle::Declaration::of(&DECLARED);
    let capacity = if ids && rng.percent(10) { 1 } else { 16 };
    let mut t = sound_of(rng, second::Declaration { rows, widths, types, sizes }, capacity);
    if moving && rng.percent(75) {
        crowd(rng, &mut t);
    }
    damage_within(rng, &mut t);
    t
}

/// A sequence of fifteen of these calls, each from where the last that was added left the tables.
fn add_sequence(
    list: &mut List,
    rng: &mut Rng,
    kinds: &[usize],
    enough: usize,
    mut t: second::Tables,
) {
    for _ in 0..15 {
        let which = store::next_call(rng, kinds, &t);
        let (called, _, after) = store::made(rng, which, &t);
        if list.add(&called, enough) {
            t = after;
        }
    }
}

/// Calls that the second program answers, on sound and on damaged tables, until there are enough
/// and every call and every number that it can give has occurred.
fn of_second(list: &mut List, rng: &mut Rng, enough: usize) {
    let played = |i: &usize| list.program.calls.contains(&store::WANTED[*i].1);
    let mut kinds: Vec<usize> = (0..store::WANTED.len()).filter(played).collect();
    let moving: Vec<usize> =
        kinds.iter().copied().filter(|i| moves::moves_rows(store::WANTED[*i].1)).collect();
    let ids = list.program.tables == IDS;
    if ids {
        add_above_limit(list, rng, &kinds);
    }
    // the calls that move rows come twice as often as the others
    kinds.extend(&moving);
    for _ in 0..20_000 {
        if list.calls >= enough && list.missing().is_empty() {
            return;
        }
        let t = some_tables(rng, ids, !moving.is_empty());
        add_sequence(list, rng, &kinds, enough, t);
    }
    panic!("not in the list: {:?}", list.missing());
}

/// Every word that stands for a case, with each call, and each call past the end of a table.
fn add_words(list: &mut List) {
    WORDS.iter().for_each(|w| (0..4).for_each(|which| list.word(which, *w)));
    [9, u64::MAX].iter().for_each(|position| (0..4).for_each(|which| list.past(which, *position)));
}

fn add_some_words(list: &mut List, rng: &mut Rng) {
    for _ in 0..40 {
        let w = some_word(rng);
        list.word(rng.below(4) as usize, w);
        list.unpack(if rng.percent(70) { rng.number() } else { rng.below(1 << 33) });
        list.pack(rng.number() as u32, rng.below(3) as u32);
    }
}

/// A sequence of id calls that the original answers.
fn add_ids(list: &mut List, rng: &mut Rng, s: i32) {
    let capacity = rng.pick(&[0, 1, 16, 16, 16, 16]);
    let mut tables = id_tables(rng, capacity, if s % 7 == 0 { 0 } else { capacity });
    let mut ids = Ids::new(&tables);
    for _ in 0..if capacity < 2 { 8 } else { 24 } {
        let call = id_call(rng, &tables);
        let _outside = list.id(&mut ids, call);
        ids.dump(&mut tables);
    }
}

/// Words, handles and ids: the examples, then what the original answers, then the second program.
fn of_ids(rng: &mut Rng) -> List {
    let mut list = List::new("replay_ids");
    list.examples();
    add_words(&mut list);
    add_some_words(&mut list, rng);
    (0..30).for_each(|s| add_ids(&mut list, rng, s));
    let enough = list.calls + 500;
    of_second(&mut list, rng, enough);
    list
}

/// A sequence of column calls that the original answers.
fn add_columns(list: &mut List, rng: &mut Rng, d: &oracle::Declaration) {
    let mut columns = Columns::new(d, &column_tables(rng, d));
    for _ in 0..30 {
        let call = column_call(rng, d, &columns.tables());
        let _outside = list.column(&mut columns, call);
    }
}

/// Columns: K10, then what the original answers, then the second program.
fn of_columns(rng: &mut Rng) -> List {
    let mut list = List::new("replay_columns");
    let d = oracle::Declaration::of(&DECLARED);
    let mut columns = Columns::new(&d, &ColumnTables::empty(&d));
    (10..13).for_each(|n| list.column_example(&mut columns, ColumnCall::Allocate(2, n)));
    list.column_example(&mut columns, ColumnCall::Remove(2, 0));
    list.column_example(&mut columns, ColumnCall::Remove(2, 1));
    (0..20).for_each(|_| add_columns(&mut list, rng, &d));
    let enough = list.calls + 300;
    of_second(&mut list, rng, enough);
    list
}

/// A program's name, the list that it reads, what it must print, and how many calls that are.
pub struct Written {
    pub name: &'static str,
    pub list: String,
    pub told: String,
    pub calls: usize,
    /// A call, what it did, and how often.
    pub done: Vec<(&'static str, &'static str, usize)>,
}

/// Each program's list. A list's calls depend on the seed and the program alone.
pub fn write(seed: u64) -> Vec<Written> {
    let played = |call: &&&str| PROGRAMS.iter().any(|p| p.calls.contains(call));
    let lost: Vec<_> = CALLS.iter().filter(|c| !played(c) && !LEFT_OUT.contains(c)).collect();
    assert!(lost.is_empty(), "calls that no program plays: {lost:?}");
    let lists = PROGRAMS.iter().map(|program| {
        let mut rng = Rng(seed);
        match program.name {
            "replay_ids" => of_ids(&mut rng),
            "replay_columns" => of_columns(&mut rng),
            name => {
                let mut list = List::new(name);
                of_second(&mut list, &mut rng, 800);
                list
            }
        }
    });
    let written = lists.map(|l| Written {
        name: l.program.name,
        list: l.text(),
        told: l.told,
        calls: l.calls,
        done: l.done.iter().map(|(call, times)| (call.0, call.1, *times)).collect(),
    });
    written.collect()
}

#[cfg(test)]
mod tests {
    use super::*;

    #[test]
    #[cfg_attr(no_hecs, ignore = "the original is missing: give its folder in HECS_SRC")]
    #[should_panic(
        expected = "AllocAt(4294967312, Place { archetype: 1, index: 0 }) lies outside: 4"
    )]
    fn an_example_that_is_not_compared_is_an_error() {
        let mut ids = Ids::new(&IdTables::empty(16));
        List::new("replay_ids").id_example(&mut ids, IdCall::AllocAt(bits(16, 1), place(1, 0)));
    }

    #[test]
    #[cfg_attr(no_hecs, ignore = "the original is missing: give its folder in HECS_SRC")]
    #[should_panic(expected = "Remove(2, 0) lies outside: 6")]
    fn an_example_of_columns_that_is_not_compared_is_an_error() {
        let d = oracle::Declaration::of(&DECLARED);
        let mut columns = Columns::new(&d, &ColumnTables::empty(&d));
        List::new("replay_columns").column_example(&mut columns, ColumnCall::Remove(2, 0));
    }
}
