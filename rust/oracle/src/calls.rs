//! A call and its answer as plain numbers, for lists and comparisons.
//!
//! Every call has a code and arguments, every answer a refusal number (0 if
//! granted) and values. The codes and what the values are:
//!
//! | code | call | arguments | values |
//! |---|---|---|---|
//! | 1 | reserve one | | handle |
//! | 2 | reserve n | n | n handles |
//! | 3 | alloc | archetype, index | handle |
//! | 4 | alloc many | n, archetype, first row | positions of the pending table from, to; new numbers from, to; the n numbers |
//! | 5 | alloc at | handle, archetype, index | 0, or 1 and the old archetype, index |
//! | 6 | free | handle | old archetype, index |
//! | 7 | contains | handle | 0 or 1 |
//! | 8 | get | handle | archetype, index |
//! | 9 | set place | handle, archetype, index | |
//! | 10 | resolve | number | handle |
//! | 11 | flush | archetype, first row | |
//! | 12 | len | | live count |
//! | 13 | free list | | handles |
//! | 14 | clear | | |
//! | 21 | allocate | archetype, number | row |
//! | 22 | remove | archetype, row | 0, or 1 and the moved number |
//! | 23 | move out | archetype, row | the same, then the old bytes |
//! | 24 | put | archetype, row, type, the bytes | |
//! | 25 | get | archetype, row, type | start, length, the bytes |
//! | 26 | type lookup | archetype, type | column |
//! | 27 | ids | archetype | the row numbers |
//! | 31 | shared borrow | word | word after |
//! | 32 | unique borrow | word | word after |
//! | 33 | shared release | word | word after |
//! | 34 | unique release | word | word after |
//! | 41 | from bits | bits | number, generation |
//! | 42 | to bits | number, generation | bits |
//!
//! A refused call has no values.

use crate::*;
use std::fmt::Debug;

/// The refusal number, 0 if granted, and the values.
pub type Answer = (u32, Vec<u64>);

/// The answer to a call within what is compared, or the number with which document 01 refuses one
/// that lies outside. Any other trouble ends the program.
pub fn compared(said: Said<Vec<u64>>, call: &impl Debug) -> Result<Answer, u32> {
    match said {
        Ok(values) => Ok((0, values)),
        Err(No::Refused(number)) => Ok((number, Vec::new())),
        Err(No::Outside(number)) => Err(number),
        Err(No::Panicked(words)) => panic!("the original panicked on {call:?}: {words}"),
    }
}

#[derive(Clone, Copy, Debug, PartialEq, Eq)]
pub enum IdCall {
    ReserveEntity,
    ReserveEntities(u32),
    Alloc(Place),
    AllocMany(u32, Place),
    AllocAt(u64, Place),
    Free(u64),
    Contains(u64),
    Get(u64),
    SetPlace(u64, Place),
    Resolve(u32),
    Flush(Place),
    Len,
    Freelist,
    Clear,
}

#[derive(Clone, Debug, PartialEq, Eq)]
pub enum ColumnCall {
    Allocate(u32, u32),
    Remove(u32, u32),
    MoveTo(u32, u32),
    Put(u32, u32, u32, Vec<u8>),
    Get(u32, u32, u32),
    Lookup(u32, u32),
    Ids(u32),
}

#[derive(Clone, Copy, Debug, PartialEq, Eq)]
pub enum WordCall {
    Borrow,
    BorrowMut,
    Release,
    ReleaseMut,
}

impl WordCall {
    pub const ALL: [WordCall; 4] =
        [WordCall::Borrow, WordCall::BorrowMut, WordCall::Release, WordCall::ReleaseMut];
}

/// A call without the tables it works on.
#[derive(Clone, Debug, PartialEq, Eq)]
pub enum Call {
    Ids(IdCall),
    Columns(ColumnCall),
    Word(WordCall, u64),
    FromBits(u64),
    ToBits(u32, u32),
}

fn pair(p: Place) -> [u64; 2] {
    [p.archetype as u64, p.index as u64]
}

impl Call {
    /// The code and the arguments.
    pub fn numbers(&self) -> Vec<u64> {
        let of = |code: u64, rest: &[u64]| [&[code], rest].concat();
        let at = |code: u64, first: u64, p: Place| of(code, &[&[first][..], &pair(p)].concat());
        match self {
            Call::Ids(call) => match *call {
                IdCall::ReserveEntity => of(1, &[]),
                IdCall::ReserveEntities(n) => of(2, &[n as u64]),
                IdCall::Alloc(p) => of(3, &pair(p)),
                IdCall::AllocMany(n, p) => at(4, n as u64, p),
                IdCall::AllocAt(bits, p) => at(5, bits, p),
                IdCall::Free(bits) => of(6, &[bits]),
                IdCall::Contains(bits) => of(7, &[bits]),
                IdCall::Get(bits) => of(8, &[bits]),
                IdCall::SetPlace(bits, p) => at(9, bits, p),
                IdCall::Resolve(number) => of(10, &[number as u64]),
                IdCall::Flush(p) => of(11, &pair(p)),
                IdCall::Len => of(12, &[]),
                IdCall::Freelist => of(13, &[]),
                IdCall::Clear => of(14, &[]),
            },
            Call::Columns(call) => match call {
                ColumnCall::Allocate(a, number) => of(21, &[*a as u64, *number as u64]),
                ColumnCall::Remove(a, row) => of(22, &[*a as u64, *row as u64]),
                ColumnCall::MoveTo(a, row) => of(23, &[*a as u64, *row as u64]),
                ColumnCall::Put(a, row, ty, bytes) => {
                    let mut all = of(24, &[*a as u64, *row as u64, *ty as u64]);
                    all.extend(bytes.iter().map(|b| *b as u64));
                    all
                }
                ColumnCall::Get(a, row, ty) => of(25, &[*a as u64, *row as u64, *ty as u64]),
                ColumnCall::Lookup(a, ty) => of(26, &[*a as u64, *ty as u64]),
                ColumnCall::Ids(a) => of(27, &[*a as u64]),
            },
            Call::Word(call, word) => {
                let code = WordCall::ALL.iter().position(|c| c == call).unwrap();
                of(31 + code as u64, &[*word])
            }
            Call::FromBits(bits) => of(41, &[*bits]),
            Call::ToBits(number, generation) => of(42, &[*number as u64, *generation as u64]),
        }
    }

    /// The call of a code and its arguments, if they are one.
    pub fn from_numbers(numbers: &[u64]) -> Option<Call> {
        let small = |i: usize| u32::try_from(*numbers.get(i)?).ok();
        let at = |i: usize| Some(place(small(i)?, small(i + 1)?));
        let big = |i: usize| numbers.get(i).copied();
        let call = match *numbers.first()? {
            1 => Call::Ids(IdCall::ReserveEntity),
            2 => Call::Ids(IdCall::ReserveEntities(small(1)?)),
            3 => Call::Ids(IdCall::Alloc(at(1)?)),
            4 => Call::Ids(IdCall::AllocMany(small(1)?, at(2)?)),
            5 => Call::Ids(IdCall::AllocAt(big(1)?, at(2)?)),
            6 => Call::Ids(IdCall::Free(big(1)?)),
            7 => Call::Ids(IdCall::Contains(big(1)?)),
            8 => Call::Ids(IdCall::Get(big(1)?)),
            9 => Call::Ids(IdCall::SetPlace(big(1)?, at(2)?)),
            10 => Call::Ids(IdCall::Resolve(small(1)?)),
            11 => Call::Ids(IdCall::Flush(at(1)?)),
            12 => Call::Ids(IdCall::Len),
            13 => Call::Ids(IdCall::Freelist),
            14 => Call::Ids(IdCall::Clear),
            21 => Call::Columns(ColumnCall::Allocate(small(1)?, small(2)?)),
            22 => Call::Columns(ColumnCall::Remove(small(1)?, small(2)?)),
            23 => Call::Columns(ColumnCall::MoveTo(small(1)?, small(2)?)),
            24 => {
                let bytes = numbers
                    .get(4..)?
                    .iter()
                    .map(|b| u8::try_from(*b).ok())
                    .collect::<Option<_>>()?;
                Call::Columns(ColumnCall::Put(small(1)?, small(2)?, small(3)?, bytes))
            }
            25 => Call::Columns(ColumnCall::Get(small(1)?, small(2)?, small(3)?)),
            26 => Call::Columns(ColumnCall::Lookup(small(1)?, small(2)?)),
            27 => Call::Columns(ColumnCall::Ids(small(1)?)),
            code @ 31..=34 => Call::Word(WordCall::ALL[code as usize - 31], big(1)?),
            41 => Call::FromBits(big(1)?),
            42 => Call::ToBits(small(1)?, small(2)?),
            _ => return None,
        };
        (call.numbers() == numbers).then_some(call)
    }
}

impl Ids {
    /// Any id call, its values as numbers.
    pub fn call(&mut self, call: &IdCall) -> Said<Vec<u64>> {
        let none = Vec::new();
        Ok(match *call {
            IdCall::ReserveEntity => vec![self.reserve_entity()?],
            IdCall::ReserveEntities(n) => self.reserve_entities(n)?,
            IdCall::Alloc(p) => vec![self.alloc(p)?],
            IdCall::AllocMany(n, p) => {
                let batch = self.alloc_many(n, p.archetype, p.index)?;
                let mut values = vec![batch.positions.start as u64, batch.positions.end as u64];
                values.extend([batch.fresh.start as u64, batch.fresh.end as u64]);
                values.extend(batch.numbers.iter().map(|n| *n as u64));
                values
            }
            IdCall::AllocAt(bits, p) => match self.alloc_at(bits, p)? {
                Some(old) => vec![1, old.archetype as u64, old.index as u64],
                None => vec![0],
            },
            IdCall::Free(bits) => pair(self.free(bits)?).to_vec(),
            IdCall::Contains(bits) => vec![self.contains(bits)? as u64],
            IdCall::Get(bits) => pair(self.get(bits)?).to_vec(),
            IdCall::SetPlace(bits, p) => {
                self.set_place(bits, p)?;
                none
            }
            IdCall::Resolve(number) => vec![self.resolve_unknown_gen(number)?],
            IdCall::Flush(p) => {
                self.flush(p.archetype, p.index)?;
                none
            }
            IdCall::Len => vec![self.len() as u64],
            IdCall::Freelist => self.freelist()?,
            IdCall::Clear => {
                self.clear();
                none
            }
        })
    }
}

impl Columns {
    /// Any column call, its values as numbers.
    pub fn call(&mut self, call: &ColumnCall) -> Said<Vec<u64>> {
        let moved = |m: Option<u32>| m.map_or(vec![0], |n| vec![1, n as u64]);
        Ok(match call {
            ColumnCall::Allocate(a, number) => vec![self.allocate(*a, *number)? as u64],
            ColumnCall::Remove(a, row) => moved(self.remove(*a, *row)?),
            ColumnCall::MoveTo(a, row) => {
                let (bytes, m) = self.move_to(*a, *row)?;
                let mut values = moved(m);
                values.extend(bytes.iter().map(|b| *b as u64));
                values
            }
            ColumnCall::Put(a, row, ty, bytes) => {
                self.put_dynamic(*a, *row, *ty, bytes)?;
                Vec::new()
            }
            ColumnCall::Get(a, row, ty) => {
                let (part, bytes) = self.get_dynamic(*a, *row, *ty)?;
                let mut values = vec![part.start as u64, part.length as u64];
                values.extend(bytes.iter().map(|b| *b as u64));
                values
            }
            ColumnCall::Lookup(a, ty) => vec![self.lookup(*a, *ty)? as u64],
            ColumnCall::Ids(a) => self.ids(*a)?.iter().map(|n| *n as u64).collect(),
        })
    }
}

impl Word {
    pub fn call(&mut self, call: WordCall) -> Said<()> {
        match call {
            WordCall::Borrow => self.borrow(),
            WordCall::BorrowMut => self.borrow_mut(),
            WordCall::Release => self.release(),
            WordCall::ReleaseMut => self.release_mut(),
        }
    }
}

/// Whoever makes the calls: the original, or what is compared with it. Tables
/// and words are lent as they are before the call and left as they are after it.
pub trait Player {
    fn ids(&mut self, tables: &mut IdTables, call: &IdCall) -> Answer;
    fn columns(&mut self, d: &Declaration, tables: &mut ColumnTables, call: &ColumnCall) -> Answer;
    fn word(&mut self, word: &mut u64, call: WordCall) -> Answer;
    fn unpack(&mut self, bits: u64) -> Answer;
    fn pack(&mut self, number: u32, generation: u32) -> Answer;
}

/// The original as a player. It panics on calls outside what is compared.
pub struct Original;

fn answer<T>(said: Said<T>, values: impl FnOnce(T) -> Vec<u64>) -> Answer {
    match said {
        Ok(v) => (0, values(v)),
        Err(No::Refused(number)) => (number, Vec::new()),
        Err(no) => panic!("{no}"),
    }
}

impl Player for Original {
    fn ids(&mut self, tables: &mut IdTables, call: &IdCall) -> Answer {
        let mut ids = Ids::new(tables);
        let said = ids.call(call);
        ids.dump(tables);
        answer(said, |v| v)
    }

    fn columns(&mut self, d: &Declaration, tables: &mut ColumnTables, call: &ColumnCall) -> Answer {
        let mut columns = Columns::new(d, tables);
        let said = columns.call(call);
        columns.dump(tables);
        answer(said, |v| v)
    }

    fn word(&mut self, word: &mut u64, call: WordCall) -> Answer {
        let mut original = Word::new(*word);
        let said = original.call(call);
        *word = original.value();
        answer(said, |()| vec![*word])
    }

    fn unpack(&mut self, bits: u64) -> Answer {
        answer(handle::from_bits(bits), |(n, g)| vec![n as u64, g as u64])
    }

    fn pack(&mut self, number: u32, generation: u32) -> Answer {
        answer(handle::to_bits(number, generation), |b| vec![b])
    }
}
