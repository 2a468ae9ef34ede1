//! Random call sequences within what is compared, as plain text, and their replay.
//!
//! # The list
//!
//! Plain ASCII, one item a line: a letter, then decimal numbers, each after
//! one space. Only the cursor may have a minus sign. At most 64 numbers stand
//! behind a start; longer runs go on in the next line.
//!
//! | line | meaning |
//! |---|---|
//! | `# ..` | a remark |
//! | `I capacity` | a new sequence on id tables of that many zeros, head all 0 |
//! | `h used pending cursor live` | the head is now this |
//! | `g start v ..` | the generations from `start` on are now these |
//! | `a start v ..`, `x start v ..`, `p start v ..` | the same for archetypes, indices, the pending table |
//! | `C archetypes` | a new sequence on columns, as many `d` lines follow |
//! | `d rows type size type size ..` | an archetype; after the last one all tables are zeros |
//! | `n start v ..`, `k start v ..`, `b start v ..` | the same for row numbers, row counts, bytes |
//! | `.` | the tables are told: before the first call of a sequence set them so, after a call compare them whole |
//! | `c code argument ..` | a call, see [`crate::calls`] |
//! | `r refusal v ..` | its answer |
//! | `+ v ..` | more values of that answer |
//!
//! After a call with a code up to 27 its answer stands, then what it changed,
//! then a `.`; everything that isn't named stays as it was before the call,
//! entries past the counts included. Word and handle calls (31 and more) are
//! lent no tables: only the answer follows, and a refused word call leaves the
//! word as it was.

use crate::calls::{compared, Answer, Call, ColumnCall, IdCall, Original, Player, WordCall};
use crate::*;
use std::io::{self, Write};

/// SplitMix64: the same numbers for the same seed on every machine.
pub struct Rng(pub u64);

impl Rng {
    pub fn number(&mut self) -> u64 {
        self.0 = self.0.wrapping_add(0x9e37_79b9_7f4a_7c15);
        let mut z = self.0;
        z = (z ^ (z >> 30)).wrapping_mul(0xbf58_476d_1ce4_e5b9);
        z = (z ^ (z >> 27)).wrapping_mul(0x94d0_49bb_1331_11eb);
        z ^ (z >> 31)
    }

    /// A number below `n`, which is not 0.
    pub fn below(&mut self, n: u64) -> u64 {
        self.number() % n
    }

    /// Yes, `n` times of a hundred.
    pub fn percent(&mut self, n: u64) -> bool {
        self.below(100) < n
    }

    pub fn pick<T: Copy>(&mut self, from: &[T]) -> T {
        from[self.below(from.len() as u64) as usize]
    }

    fn shuffle<T>(&mut self, all: &mut [T]) {
        for i in (1..all.len()).rev() {
            all.swap(i, self.below(i as u64 + 1) as usize);
        }
    }
}

// ---- Random ids ----

pub const CAPACITIES: [usize; 5] = [0, 1, 16, 257, 4096];

fn generation(rng: &mut Rng) -> u32 {
    match rng.below(8) {
        0 => MAX,
        1 => MAX - 1,
        2 => rng.number() as u32 | 1,
        _ => rng.below(4) as u32 + 1,
    }
}

/// Any place that may be stored: ids take any archetype.
fn some_place(rng: &mut Rng) -> Place {
    let archetype = if rng.percent(90) { rng.below(16) as u32 } else { rng.number() as u32 };
    let index = match rng.below(10) {
        0 => MAX - 1,
        1 => rng.below(MAX as u64) as u32,
        _ => rng.below(4096) as u32,
    };
    place(archetype, index)
}

/// Sound id tables, flushed or not. `used` is at most `most`. A few entries
/// past the counts are filled too, with anything.
pub fn id_tables(rng: &mut Rng, capacity: usize, most: usize) -> IdTables {
    let mut t = IdTables::empty(capacity);
    let used = rng.below(capacity.min(most) as u64 + 1) as usize;
    let mut numbers: Vec<u32> = (0..used as u32).collect();
    rng.shuffle(&mut numbers);
    let pending = match rng.below(4) {
        0 => 0,
        1 => used,
        _ => rng.below(used as u64 + 1) as usize,
    };
    for n in 0..used {
        let p = some_place(rng);
        (t.generations[n], t.archetypes[n], t.indices[n]) = (generation(rng), p.archetype, p.index);
    }
    for (i, n) in numbers[..pending].iter().enumerate() {
        t.pending[i] = *n;
        (t.archetypes[*n as usize], t.indices[*n as usize]) = (0, MAX);
    }
    for _ in 0..4 {
        if used < capacity {
            let i = used + rng.below((capacity - used).min(8) as u64) as usize;
            t.generations[i] = rng.pick(&[0, 1, 7, MAX]);
            t.archetypes[i] = rng.number() as u32;
            t.indices[i] = rng.pick(&[0, 5, MAX]);
        }
        if pending < capacity {
            let i = pending + rng.below((capacity - pending).min(8) as u64) as usize;
            t.pending[i] = rng.pick(&[0, 1, 4096, MAX]);
        }
    }
    let lowest = used as i64 - capacity as i64;
    let cursor = match rng.below(3) {
        0 => lowest.max(-5) + rng.below((pending as i64 - lowest.max(-5) + 1) as u64) as i64,
        _ => pending as i64,
    };
    t.head = Head { used, pending, cursor, live: (used - pending) as u32 };
    t
}

/// A handle that is likely to mean something to these tables.
pub fn some_handle(rng: &mut Rng, t: &IdTables) -> u64 {
    let Head { used, pending, cursor, .. } = t.head;
    let stored = |n: u32| bits(n, t.generations.get(n as usize).copied().unwrap_or(1));
    match rng.below(20) {
        0 => rng.number(),
        1 => u64::MAX,
        2 => rng.number() % (1 << 32),
        3 => bits(t.capacity() as u32, 1),
        4 | 5 => {
            // around the reserved new numbers
            let n = used as i64 + rng.below(3) as i64 - 1
                + if rng.percent(50) { -cursor.min(0) } else { 0 };
            bits(n.max(0) as u32, if rng.percent(90) { 1 } else { 2 })
        }
        6..=9 if pending > 0 => stored(t.pending[rng.below(pending as u64) as usize]),
        10 if used > 0 => stored(rng.below(used as u64) as u32).wrapping_sub(1 << 32),
        11 if used > 0 => stored(rng.below(used as u64) as u32).wrapping_add(1 << 32),
        _ if used > 0 => stored(rng.below(used as u64) as u32),
        _ => bits(rng.below(3) as u32, 1),
    }
}

/// An id call. It may lie outside what is compared.
pub fn id_call(rng: &mut Rng, t: &IdTables) -> IdCall {
    // not flushed: mostly lookups, reservations and the flush
    let flushed = t.head.cursor == t.head.pending as i64;
    let kinds = if flushed || rng.percent(15) { 100 } else { 55 };
    match rng.below(kinds) {
        0..=7 => IdCall::Contains(some_handle(rng, t)),
        8..=15 => IdCall::Get(some_handle(rng, t)),
        16..=19 => IdCall::SetPlace(some_handle(rng, t), some_place(rng)),
        20..=25 => IdCall::Resolve(some_number(rng, t)),
        26..=27 => IdCall::Len,
        28..=29 => IdCall::Freelist,
        30..=37 => IdCall::ReserveEntity,
        38..=42 => IdCall::ReserveEntities(some_count(rng, t)),
        43 if rng.percent(25) => IdCall::Clear,
        43..=54 if flushed && rng.percent(90) => IdCall::ReserveEntities(some_count(rng, t)),
        43..=54 => IdCall::Flush(some_place(rng)),
        55..=69 => IdCall::Alloc(some_place(rng)),
        70..=76 => IdCall::AllocMany(some_count(rng, t), some_place(rng)),
        77..=82 => IdCall::AllocAt(chosen_handle(rng, t), some_place(rng)),
        _ => IdCall::Free(some_handle(rng, t)),
    }
}

/// How many numbers to hand out: no more than there is room for.
fn some_count(rng: &mut Rng, t: &IdTables) -> u32 {
    let Head { used, pending, cursor, .. } = t.head;
    let room = (t.capacity() as i64 - used as i64 + cursor) as u64;
    let count = match rng.below(8) {
        0 => 0,
        1 => room,
        2 => pending as u64 + 1,
        _ => rng.below(6),
    };
    count.min(room) as u32
}

/// A number to ask the handle of.
fn some_number(rng: &mut Rng, t: &IdTables) -> u32 {
    match rng.below(6) {
        0 => rng.number() as u32,
        1 => t.capacity() as u32,
        _ => some_handle(rng, t) as u32,
    }
}

/// A handle to bring alive: its number used, or one of the next.
fn chosen_handle(rng: &mut Rng, t: &IdTables) -> u64 {
    let number = if rng.percent(50) {
        some_handle(rng, t) as u32
    } else {
        t.head.used as u32 + rng.below(5) as u32
    };
    bits(number, if rng.percent(95) { generation(rng) } else { 0 })
}

// ---- Random columns ----

/// Types with their sizes, ascending.
type Types = Vec<(u32, u32)>;

/// An allowed declaration, of about `most` bytes at the most.
pub fn declaration(rng: &mut Rng, most: usize) -> Declaration {
    let types = some_types(rng);
    let sets = some_sets(rng, &types);
    let mut left = most;
    let archetypes: Vec<(u32, &[(u32, u32)])> =
        sets.iter().map(|set| (some_rows(rng, set, &mut left), &set[..])).collect();
    Declaration::of(&archetypes)
}

fn some_types(rng: &mut Rng) -> Types {
    let mut types = Types::new();
    for _ in 0..rng.pick(&[1, 3, 20]) {
        let (ty, size) = some_type(rng);
        if types.iter().all(|t| t.0 != ty) {
            types.push((ty, size));
        }
    }
    types.sort();
    types
}

fn some_type(rng: &mut Rng) -> (u32, u32) {
    let ty = if rng.percent(60) {
        rng.below(40) as u32
    } else {
        rng.pick(&[MAX, 0, 1 << 31, rng.0 as u32])
    };
    let size = match rng.below(6) {
        0 => 0,
        1 => 64,
        2 => rng.below(65) as u32,
        _ => rng.pick(&[1, 2, 4, 8]),
    };
    (ty, size)
}

/// Different sets of at most 16 of these types, the empty one first.
fn some_sets(rng: &mut Rng, types: &[(u32, u32)]) -> Vec<Types> {
    let mut sets = vec![Types::new()];
    for _ in 0..rng.pick(&[0, 1, 3, 15]) {
        let part = rng.pick(&[30, 60, 100]);
        let mut set = types.to_vec();
        set.retain(|_| rng.percent(part));
        set.truncate(16);
        if !sets.contains(&set) {
            sets.push(set);
        }
    }
    sets
}

/// How many rows an archetype of these columns has, out of the bytes left.
fn some_rows(rng: &mut Rng, set: &[(u32, u32)], left: &mut usize) -> u32 {
    let width = set.iter().map(|c| c.1 as usize).sum::<usize>() + 4;
    let rows = match rng.below(8) {
        0 => 0,
        1 => 1,
        2 => 4096,
        _ => rng.below(12) as usize,
    };
    let rows = rows.min(*left / width);
    *left -= rows * width;
    rows as u32
}

/// Tables for it, rows past the counts filled too.
pub fn column_tables(rng: &mut Rng, d: &Declaration) -> ColumnTables {
    let mut t = ColumnTables::empty(d);
    for (count, rows) in t.row_counts.iter_mut().zip(&d.rows) {
        *count = if rng.percent(30) { *rows } else { rng.below(*rows as u64 + 1) as u32 };
    }
    t.row_numbers.fill_with(|| {
        if rng.percent(90) {
            rng.below(4096) as u32
        } else {
            rng.number() as u32
        }
    });
    t.bytes.fill_with(|| rng.number() as u8);
    t
}

/// A column call. It may lie outside what is compared.
pub fn column_call(rng: &mut Rng, d: &Declaration, t: &ColumnTables) -> ColumnCall {
    let a = rng.below(d.rows.len() as u64) as usize;
    let count = t.row_counts[a] as u64;
    let row = match rng.below(3) {
        0 => count.saturating_sub(1) as u32,
        _ => rng.below(count + 1) as u32,
    };
    let held = d.columns(a);
    let ty = match rng.below(10) {
        0 => rng.number() as u32,
        1 | 2 if !d.types.is_empty() => rng.pick(&d.types),
        _ if !held.is_empty() => d.types[held.start + rng.below(held.len() as u64) as usize],
        _ => rng.below(40) as u32,
    };
    let a = a as u32;
    match rng.below(20) {
        0..=4 => ColumnCall::Allocate(
            a,
            if rng.percent(90) { rng.below(4096) as u32 } else { rng.number() as u32 },
        ),
        5..=7 => ColumnCall::Remove(a, row),
        8..=10 => ColumnCall::MoveTo(a, row),
        11..=14 => {
            let size =
                d.types.iter().position(|x| *x == ty).map_or(rng.below(9) as u32, |c| d.sizes[c]);
            ColumnCall::Put(a, row, ty, (0..size).map(|_| rng.number() as u8).collect())
        }
        15..=17 => ColumnCall::Get(a, row, ty),
        18 => ColumnCall::Lookup(a, ty),
        _ => ColumnCall::Ids(a),
    }
}

// ---- Words and handles ----

/// The words around which the rules change.
pub const WORDS: [u64; 12] = [
    0,
    1,
    2,
    (1 << 62) + 1,
    (1 << 63) - 2,
    (1 << 63) - 1,
    1 << 63,
    (1 << 63) + 1,
    (1 << 63) + 2,
    (1 << 63) + (1 << 62),
    u64::MAX - 1,
    u64::MAX,
];

pub fn some_word(rng: &mut Rng) -> u64 {
    match rng.below(4) {
        0 => rng.number(),
        1 => rng.below(6),
        2 => (1u64 << 63).wrapping_add(rng.below(9)).wrapping_sub(4),
        _ => u64::MAX - rng.below(4),
    }
}

// ---- Writing ----

fn numbers(
    out: &mut impl Write,
    letter: &str,
    values: impl IntoIterator<Item = impl ToString>,
) -> io::Result<()> {
    write!(out, "{letter}")?;
    for v in values {
        write!(out, " {}", v.to_string())?;
    }
    writeln!(out)
}

fn write_call(out: &mut impl Write, call: &Call, answer: &Answer) -> io::Result<()> {
    numbers(out, "c", call.numbers())?;
    let (first, rest) = answer.1.split_at(answer.1.len().min(64));
    numbers(out, "r", [answer.0 as u64].iter().chain(first))?;
    for more in rest.chunks(64) {
        numbers(out, "+", more)?;
    }
    Ok(())
}

/// The runs in which two tables differ.
fn write_changes<T: PartialEq + ToString + Copy>(
    out: &mut impl Write,
    letter: &str,
    before: &[T],
    after: &[T],
) -> io::Result<()> {
    let mut i = 0;
    while i < after.len() {
        if before[i] == after[i] {
            i += 1;
            continue;
        }
        let start = i;
        while i < after.len() && before[i] != after[i] && i - start < 64 {
            i += 1;
        }
        let values = after[start..i].iter().map(|v| v.to_string());
        numbers(out, letter, [start.to_string()].into_iter().chain(values))?;
    }
    Ok(())
}

fn write_ids(out: &mut impl Write, before: &IdTables, after: &IdTables) -> io::Result<()> {
    if before.head != after.head {
        let h = after.head;
        numbers(out, "h", [h.used as i64, h.pending as i64, h.cursor, h.live as i64])?;
    }
    write_changes(out, "g", &before.generations, &after.generations)?;
    write_changes(out, "a", &before.archetypes, &after.archetypes)?;
    write_changes(out, "x", &before.indices, &after.indices)?;
    write_changes(out, "p", &before.pending, &after.pending)?;
    writeln!(out, ".")
}

fn write_columns(
    out: &mut impl Write,
    before: &ColumnTables,
    after: &ColumnTables,
) -> io::Result<()> {
    write_changes(out, "n", &before.row_numbers, &after.row_numbers)?;
    write_changes(out, "k", &before.row_counts, &after.row_counts)?;
    write_changes(out, "b", &before.bytes, &after.bytes)?;
    writeln!(out, ".")
}

/// Sequences of up to 60 id calls.
pub fn write_id_list(seed: u64, sequences: u64, out: &mut impl Write) -> io::Result<()> {
    for s in 0..sequences {
        let mut rng = Rng(seed.wrapping_add(s.wrapping_mul(0xd134_2543_de82_ef95)));
        // each capacity comes; the largest with few numbers used, but now and then many
        let capacity = match s % 10 {
            0 => 0,
            1 => 1,
            2 | 3 => 257,
            4 => 4096,
            _ => 16,
        };
        let most = if capacity > 16 && s % 50 < 40 { 12 } else { capacity };
        let before = id_tables(&mut rng, capacity, if s % 7 == 0 { 0 } else { most });
        assert!(before.is_sound());
        numbers(out, "I", [capacity])?;
        write_ids(out, &IdTables::empty(capacity), &before)?;
        let mut ids = Ids::new(&before);
        let mut before = before;
        let mut after = before.clone();
        for _ in 0..if capacity <= 1 { 20 } else { 60 } {
            let call = id_call(&mut rng, &before);
            let said = ids.call(&call);
            ids.dump(&mut after);
            if !after.is_sound() {
                panic!("{call:?} made the tables unsound");
            }
            match compared(said, &Call::Ids(call)) {
                Ok(answer) => {
                    write_call(out, &Call::Ids(call), &answer)?;
                    write_ids(out, &before, &after)?;
                }
                Err(_) => assert_eq!(before, after),
            }
            before.clone_from(&after);
        }
    }
    Ok(())
}

/// Sequences of up to 40 column calls.
pub fn write_column_list(seed: u64, sequences: u64, out: &mut impl Write) -> io::Result<()> {
    for s in 0..sequences {
        let mut rng = Rng(seed.wrapping_add(s.wrapping_mul(0xd134_2543_de82_ef95)));
        let d = declaration(&mut rng, if s % 20 == 19 { 50_000 } else { 1_500 });
        assert!(d.is_allowed());
        numbers(out, "C", [d.rows.len()])?;
        for a in 0..d.rows.len() {
            let columns = d.columns(a).flat_map(|c| [d.types[c], d.sizes[c]]);
            numbers(out, "d", [d.rows[a]].into_iter().chain(columns))?;
        }
        let mut before = column_tables(&mut rng, &d);
        write_columns(out, &ColumnTables::empty(&d), &before)?;
        let mut columns = Columns::new(&d, &before);
        let mut after = before.clone();
        for _ in 0..40 {
            let call = column_call(&mut rng, &d, &before);
            let said = columns.call(&call);
            columns.dump(&mut after);
            let call = Call::Columns(call);
            match compared(said, &call) {
                Ok(answer) => {
                    write_call(out, &call, &answer)?;
                    write_columns(out, &before, &after)?;
                }
                Err(_) => assert_eq!(before, after),
            }
            before.clone_from(&after);
        }
    }
    Ok(())
}

/// Every call on each of [`WORDS`], then `count` random words and handles.
pub fn write_word_list(seed: u64, count: u64, out: &mut impl Write) -> io::Result<()> {
    let mut rng = Rng(seed);
    let mut player = Original;
    let mut line = |call: Call| {
        let answer = match call {
            Call::Word(w, mut word) => player.word(&mut word, w),
            Call::FromBits(bits) => player.unpack(bits),
            Call::ToBits(number, generation) => player.pack(number, generation),
            _ => unreachable!(),
        };
        write_call(out, &call, &answer)
    };
    for word in WORDS {
        for call in WordCall::ALL {
            line(Call::Word(call, word))?;
        }
    }
    for bits in [bits(7, 2), MAX as u64, 1 << 32, u64::MAX, 0] {
        line(Call::FromBits(bits))?;
    }
    for _ in 0..count {
        line(Call::Word(rng.pick(&WordCall::ALL), some_word(&mut rng)))?;
        line(Call::FromBits(if rng.percent(70) { rng.number() } else { rng.below(1 << 33) }))?;
        let generation = if rng.percent(80) { rng.number() as u32 } else { rng.below(2) as u32 };
        line(Call::ToBits(rng.number() as u32, generation))?;
    }
    Ok(())
}

// ---- Replay ----

enum Lent {
    Nothing,
    Ids { now: IdTables, told: IdTables },
    Columns { left: usize, d: Declaration, now: ColumnTables, told: ColumnTables },
}

fn lay<T: TryFrom<i128> + Copy>(table: &mut [T], v: &[i128]) -> Option<()> {
    let (start, values) = v.split_first()?;
    for (i, v) in values.iter().enumerate() {
        *table.get_mut(usize::try_from(*start).ok()?.checked_add(i)?)? = T::try_from(*v).ok()?;
    }
    Some(())
}

/// Plays a list and compares every answer and every table. Answers how many
/// calls were played, or the first line that is wrong and why.
pub fn replay(list: &str, player: &mut impl Player) -> Result<usize, String> {
    let mut reader =
        Reader { player, lent: Lent::Nothing, calls: 0, owed: None, opening: false, untold: false };
    for (at, text) in list.lines().enumerate() {
        reader.line(text).map_err(|why| format!("line {}: {why}", at + 1))?;
    }
    reader.finish()
}

/// A line that is not a remark.
struct Line<'a> {
    text: &'a str,
    letter: &'a str,
    values: Vec<i128>,
}

impl Line<'_> {
    fn out_of_place(&self) -> String {
        format!("out of place: {}", self.text)
    }
}

/// The player, the tables lent to it and what the lines so far left open.
struct Reader<'a, P> {
    player: &'a mut P,
    lent: Lent,
    calls: usize,
    /// What the player answered, and how many values of it the list told.
    owed: Option<(Answer, usize)>,
    /// Tables are being told before the first call.
    opening: bool,
    /// The tables after the last call are not told yet.
    untold: bool,
}

impl<P: Player> Reader<'_, P> {
    fn line(&mut self, text: &str) -> Result<(), String> {
        let (letter, rest) = text.split_at(text.len().min(1));
        if letter == "#" {
            return Ok(());
        }
        let parsed: Option<Vec<i128>> = rest.split_whitespace().map(|v| v.parse().ok()).collect();
        let values = parsed.ok_or_else(|| format!("not numbers: {text}"))?;
        self.due(letter)?;
        let line = Line { text, letter, values };
        match letter {
            "I" | "C" => self.start(&line),
            "d" => self.archetype(&line),
            "c" => self.call(&line),
            "r" | "+" => self.answer(&line),
            "." => self.end(),
            _ => self.table(&line).ok_or_else(|| line.out_of_place()),
        }
    }

    /// Whether what the lines before left open lets a line of this letter come.
    fn due(&self, letter: &str) -> Result<(), String> {
        if let Some((answer, told)) = &self.owed {
            let goes_on = letter == "+" || letter == "r" && *told == 0;
            if !goes_on && *told != answer.1.len() + 1 {
                return Err(format!("the answer ended before {answer:?}"));
            }
        }
        if self.untold && ["I", "C", "c"].contains(&letter) {
            return Err("the tables after the call before are not told".to_string());
        }
        if self.opening && letter == "c" {
            return Err("the tables before the first call are not told".to_string());
        }
        Ok(())
    }

    fn start(&mut self, line: &Line) -> Result<(), String> {
        let [size] = line.values[..] else {
            return Err(line.out_of_place());
        };
        self.lent = if line.letter == "I" {
            let told = IdTables::empty(size as usize);
            Lent::Ids { now: told.clone(), told }
        } else {
            let (d, now, told) = Default::default();
            Lent::Columns { left: size as usize, d, now, told }
        };
        self.opening = true;
        Ok(())
    }

    fn archetype(&mut self, line: &Line) -> Result<(), String> {
        let v = &line.values;
        let Lent::Columns { left, d, now, told } = &mut self.lent else {
            return Err(line.out_of_place());
        };
        let rows_and_pairs = v.len() % 2 == 1;
        if *left == 0 || !rows_and_pairs {
            return Err(line.out_of_place());
        }
        *left -= 1;
        d.rows.push(v[0] as u32);
        d.widths.push(v.len() as u32 / 2);
        d.types.extend(v[1..].iter().step_by(2).map(|x| *x as u32));
        d.sizes.extend(v[2.min(v.len())..].iter().step_by(2).map(|x| *x as u32));
        if *left > 0 {
            return Ok(());
        }
        if !d.is_allowed() {
            return Err("not an allowed declaration".to_string());
        }
        *now = ColumnTables::empty(d);
        *told = now.clone();
        Ok(())
    }

    /// Nothing where no table of this letter is lent or the values don't fit it.
    fn table(&mut self, line: &Line) -> Option<()> {
        let v = &line.values;
        match (line.letter, &mut self.lent) {
            ("h", Lent::Ids { told, .. }) => told.head = head(v)?,
            ("g", Lent::Ids { told, .. }) => lay(&mut told.generations, v)?,
            ("a", Lent::Ids { told, .. }) => lay(&mut told.archetypes, v)?,
            ("x", Lent::Ids { told, .. }) => lay(&mut told.indices, v)?,
            ("p", Lent::Ids { told, .. }) => lay(&mut told.pending, v)?,
            ("n", Lent::Columns { told, .. }) => lay(&mut told.row_numbers, v)?,
            ("k", Lent::Columns { told, .. }) => lay(&mut told.row_counts, v)?,
            ("b", Lent::Columns { told, .. }) => lay(&mut told.bytes, v)?,
            _ => return None,
        }
        Some(())
    }

    /// The tables are told: they are set so, or compared.
    fn end(&mut self) -> Result<(), String> {
        (self.owed, self.untold) = (None, false);
        match &mut self.lent {
            Lent::Ids { now, told } if self.opening => now.clone_from(told),
            Lent::Columns { now, told, .. } if self.opening => now.clone_from(told),
            Lent::Ids { now, told } if now != told => {
                return Err(format!("tables: told {told:?}, are {now:?}"))
            }
            Lent::Columns { now, told, .. } if now != told => {
                return Err(format!("tables: told {told:?}, are {now:?}"))
            }
            _ => (),
        }
        self.opening = false;
        Ok(())
    }

    fn call(&mut self, line: &Line) -> Result<(), String> {
        let arguments: Option<Vec<u64>> =
            line.values.iter().map(|x| u64::try_from(*x).ok()).collect();
        let call = arguments.and_then(|a| Call::from_numbers(&a));
        self.untold = matches!(call, Some(Call::Ids(_) | Call::Columns(_)));
        let player = &mut *self.player;
        let answer = match (call, &mut self.lent) {
            (Some(Call::Ids(call)), Lent::Ids { now, .. }) => player.ids(now, &call),
            (Some(Call::Columns(call)), Lent::Columns { d, now, .. }) => {
                player.columns(d, now, &call)
            }
            (Some(Call::Word(call, word)), _) => word_answer(player, call, word)?,
            (Some(Call::FromBits(bits)), _) => player.unpack(bits),
            (Some(Call::ToBits(number, generation)), _) => player.pack(number, generation),
            _ => return Err(format!("no such call: {}", line.text)),
        };
        self.owed = Some((answer, 0));
        self.calls += 1;
        Ok(())
    }

    fn answer(&mut self, line: &Line) -> Result<(), String> {
        let v = &line.values;
        let Some((answer, told)) = &mut self.owed else {
            return Err("an answer without a call".to_string());
        };
        let said = [&[answer.0 as u64], &answer.1[..]].concat();
        let part = said.iter().skip(*told).take(v.len()).map(|x| *x as i128);
        if (*told == 0) != (line.letter == "r") || !part.eq(v.iter().copied()) {
            return Err(format!("answered {answer:?}, told {}", line.text));
        }
        *told += v.len();
        Ok(())
    }

    /// How many calls were played, if the list left nothing open.
    fn finish(self) -> Result<usize, String> {
        match self.owed {
            Some((answer, told)) if told != answer.1.len() + 1 => {
                Err("the list ends inside an answer".to_string())
            }
            _ if self.untold => {
                Err("the list ends before the tables after the last call".to_string())
            }
            _ => Ok(self.calls),
        }
    }
}

fn head(v: &[i128]) -> Option<Head> {
    let [used, pending, cursor, live] = *v else {
        return None;
    };
    Some(Head {
        used: used as usize,
        pending: pending as usize,
        cursor: cursor as i64,
        live: live as u32,
    })
}

/// A refused word call must leave the word as it was.
fn word_answer(player: &mut impl Player, call: WordCall, word: u64) -> Result<Answer, String> {
    let mut now = word;
    let answer = player.word(&mut now, call);
    if answer.0 != 0 && now != word {
        return Err(format!("a refused call made {word} into {now}"));
    }
    Ok(answer)
}
