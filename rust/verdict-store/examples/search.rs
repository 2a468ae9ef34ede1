//! A toy superoptimiser: it looks for the shortest program of one register that
//! computes 4x + 2, and keeps each candidate's verdict in the store.
//!
//! A candidate is reserved when it is thought of, becomes an entity at the next
//! flush, and gets its cost and program. A query then says what it is: proven
//! and refuted candidates get a verdict, which moves them to another archetype;
//! one whose query times out gets none, and can never be taken for its
//! neighbour's. Refuted candidates leave, and their numbers are used again.

use std::error::Error;
use std::fmt;
use std::io::{stdout, Write};
use verdict_store::{component, Component, Declaration, Entity, Refusal, VerdictStore};

/// Up to eight steps, one a byte; 0 stands for no step.
#[derive(Clone, Copy, PartialEq, Debug)]
struct Program([u8; 8]);

/// Steps of the program, fewer is better.
#[derive(Clone, Copy, PartialEq, PartialOrd, Debug)]
struct Cost(u32);

#[derive(Clone, Copy, PartialEq, Debug)]
enum Verdict {
    Proven,
    Refuted,
}

impl Component for Program {
    const TYPE: u32 = 10;
    type Bytes = [u8; 8];
    fn to_bytes(&self) -> [u8; 8] {
        self.0
    }
    fn from_bytes(bytes: [u8; 8]) -> Program {
        Program(bytes)
    }
}

component!(Cost(u32), 20);

impl Component for Verdict {
    const TYPE: u32 = 30;
    type Bytes = [u8; 1];
    fn to_bytes(&self) -> [u8; 1] {
        [*self as u8]
    }
    fn from_bytes(bytes: [u8; 1]) -> Verdict {
        match bytes {
            [0] => Verdict::Proven,
            _ => Verdict::Refuted,
        }
    }
}

/// d: x := x + x. i: x := x + 1. n: x := -x.
const STEPS: [u8; 3] = *b"din";

impl Program {
    fn steps(&self) -> impl Iterator<Item = u8> + '_ {
        self.0.iter().copied().take_while(|step| *step != 0)
    }

    fn run(&self, x: i64) -> i64 {
        self.steps().fold(x, |x, step| match step {
            b'd' => x + x,
            b'i' => x + 1,
            _ => -x,
        })
    }

    /// This program with one more step, in each way there is.
    fn longer(&self) -> [Program; 3] {
        let length = self.steps().count();
        STEPS.map(|step| {
            let mut longer = *self;
            longer.0[length] = step;
            longer
        })
    }
}

impl fmt::Display for Program {
    fn fmt(&self, f: &mut fmt::Formatter<'_>) -> fmt::Result {
        self.steps().try_for_each(|step| write!(f, "{}", step as char))
    }
}

/// The query: nothing where it takes too long, as it does here for programs that
/// negate twice.
fn asked(program: &Program) -> Option<Verdict> {
    if program.steps().filter(|step| *step == b'n').count() > 1 {
        return None;
    }
    let right = (-8..8).all(|x| program.run(x) == 4 * x + 2);
    Some(if right { Verdict::Proven } else { Verdict::Refuted })
}

/// Gives each candidate of a round an entity with its program and cost.
fn thought_of(cache: &mut VerdictStore, round: &[Program]) -> Result<Vec<Entity>, Refusal> {
    let handles: Vec<Entity> = cache.reserve_entities(round.len() as u32)?.collect();
    cache.flush()?;
    for (entity, program) in handles.iter().zip(round) {
        cache.insert(*entity, *program)?;
        cache.insert(*entity, Cost(program.steps().count() as u32))?;
    }
    Ok(handles)
}

fn main() -> Result<(), Box<dyn Error>> {
    search(&mut stdout())
}

/// Runs the search and writes what it finds.
pub fn search(out: &mut dyn Write) -> Result<(), Box<dyn Error>> {
    let mut cache = Declaration::new(64)
        .of::<(Program,)>(64)
        .of::<(Program, Cost)>(64)
        .of::<(Program, Cost, Verdict)>(64)
        .build()?;
    let undecided = cache.archetype_of::<(Program, Cost)>().ok_or("not declared")?;
    let decided = cache.archetype_of::<(Program, Cost, Verdict)>().ok_or("not declared")?;

    let mut round = vec![Program([0; 8])];
    let mut found = None;
    while found.is_none() {
        round = round.iter().flat_map(Program::longer).collect();
        let handles = thought_of(&mut cache, &round)?;
        for entity in &handles {
            if let Some(verdict) = asked(&cache.read::<Program>(*entity)?) {
                cache.insert(*entity, verdict)?; // moves it to the decided ones
            }
        }
        let verdicts: Vec<Verdict> = cache.borrow(decided, Verdict::TYPE)?.values().collect();
        let refuted = verdicts.iter().filter(|verdict| **verdict == Verdict::Refuted).count();
        writeln!(
            out,
            "length {}: {} candidates, first {}, last {}; {} refuted, {} proven, {} timed out so far",
            cache.read::<Cost>(handles[0])?.0,
            handles.len(),
            handles[0],
            handles[handles.len() - 1],
            refuted,
            verdicts.len() - refuted,
            cache.entities(undecided)?.len(),
        )?;
        // What is refuted leaves, last row first: its handle is refused from now on.
        let known: Vec<Entity> = cache.entities(decided)?.rev().collect();
        for entity in known {
            match cache.read::<Verdict>(entity)? {
                Verdict::Proven => found = Some(entity),
                Verdict::Refuted => cache.despawn(entity)?,
            }
        }
        round.retain(|program| program.steps().filter(|step| *step == b'n').count() < 2);
    }

    let best = found.ok_or("nothing found")?;
    writeln!(
        out,
        "proven: {best} is {}, {} steps",
        cache.read::<Program>(best)?,
        cache.read::<Cost>(best)?.0
    )?;

    let slow = cache.entities(undecided)?.next().ok_or("none timed out")?;
    match cache.read::<Verdict>(slow) {
        Ok(verdict) => writeln!(out, "{slow} is {verdict:?}")?,
        Err(why) => {
            writeln!(out, "{slow}, {}, has no verdict: {why}", cache.read::<Program>(slow)?)?
        }
    }

    // A second try with more time: its verdict comes and goes.
    cache.insert(slow, Verdict::Refuted)?;
    writeln!(out, "{slow} given more time: {:?}", cache.remove::<Verdict>(slow)?)?;

    cache.despawn(slow)?;
    match cache.read::<Program>(slow) {
        Ok(program) => writeln!(out, "{slow} is still {program}")?,
        Err(why) => writeln!(out, "{slow} after it left: refusal {}. {why}", why.number())?,
    }
    writeln!(out, "{} entities are left", cache.len())?;
    Ok(())
}
