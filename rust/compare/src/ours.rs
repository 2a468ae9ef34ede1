//! The proved library as another process: frames of calls go in, what each
//! call answered and left comes back. serve.c tells the form.

use std::collections::BTreeSet;
use std::fmt::Write as _;
use std::io::{Read, Write};
use std::process::{Child, Command, Stdio};

/// Every call that include/verdict_store.h declares. A frame names a call by its position here.
pub const CALLS: &[&str] = &[
    "verdict_word_shared",
    "verdict_word_unique",
    "verdict_word_release",
    "verdict_word_unique_release",
    "verdict_word_shared_at",
    "verdict_word_unique_at",
    "verdict_word_release_at",
    "verdict_word_unique_release_at",
    "verdict_handle_from_bits",
    "verdict_handle_new",
    "verdict_ids_reserve_entity",
    "verdict_ids_reserve_entities",
    "verdict_ids_alloc",
    "verdict_ids_alloc_many",
    "verdict_ids_alloc_many_next",
    "verdict_ids_alloc_at",
    "verdict_ids_free",
    "verdict_ids_contains",
    "verdict_ids_get",
    "verdict_ids_set_place",
    "verdict_ids_resolve_unknown_gen",
    "verdict_ids_flush",
    "verdict_ids_len",
    "verdict_ids_freelist",
    "verdict_ids_clear",
    "verdict_columns_allocate",
    "verdict_columns_remove",
    "verdict_columns_move_out",
    "verdict_columns_put",
    "verdict_columns_get",
    "verdict_columns_lookup",
    "verdict_columns_ids",
    "verdict_store_spawn",
    "verdict_store_despawn",
    "verdict_store_get",
    "verdict_store_contains",
    "verdict_store_resolve_unknown_gen",
    "verdict_store_len",
    "verdict_store_read",
    "verdict_store_write",
    "verdict_store_borrow",
    "verdict_store_borrow_mut",
    "verdict_store_release",
    "verdict_store_release_mut",
    "verdict_store_spawn_at",
    "verdict_store_insert",
    "verdict_store_remove",
    "verdict_store_flush",
    "verdict_store_reserve_entity",
    "verdict_store_reserve_entities",
    "verdict_store_freelist",
    "verdict_store_clear",
    "verdict_ids_reserve_span",
    "verdict_ids_reserve_next",
    "verdict_ids_reserve_len",
    "verdict_ids_alloc_many_len",
];

/// A number of a table.
pub trait Plain: Copy {
    const SIZE: usize;
    fn put(self, into: &mut Vec<u8>);
}

macro_rules! plain {
    ($($t:ty)*) => {$(
        impl Plain for $t {
            const SIZE: usize = size_of::<$t>();
            fn put(self, into: &mut Vec<u8>) {
                into.extend_from_slice(&self.to_le_bytes());
            }
        }
    )*};
}
plain!(u8 u32 u64);

/// A slice or an array of a frame.
#[derive(Clone, Debug, PartialEq, Eq)]
struct Part {
    name: &'static str,
    size: usize,
    length: usize,
}

/// A slice or an array of a call, as numbers.
pub struct Apart {
    pub name: &'static str,
    pub size: usize,
    pub before: Vec<u64>,
    pub after: Vec<u64>,
}

/// A call: the frame, and the answer that it must have.
#[derive(Clone, Debug, PartialEq, Eq)]
pub struct Exchange {
    call: &'static str,
    frame: Vec<u8>,
    expected: Vec<u8>,
    parts: Vec<Part>,
    parameters: u64,
}

fn fill_up(bytes: &mut Vec<u8>) {
    bytes.resize(bytes.len().next_multiple_of(8), 0);
}

impl Exchange {
    /// `code` is the refusal number that the call must answer, 0 if granted.
    pub fn new(call: &'static str, code: u32) -> Exchange {
        let index = CALLS.iter().position(|c| *c == call).expect("an exported call");
        let mut frame = Vec::with_capacity(512);
        (index as u64).put(&mut frame);
        0u64.put(&mut frame);
        let expected = u64::from(code).to_le_bytes().to_vec();
        Exchange { call, frame, expected, parts: Vec::new(), parameters: 0 }
    }

    fn parameter(&mut self, word: u64) {
        self.parameters += 1;
        self.frame[8..16].copy_from_slice(&self.parameters.to_le_bytes());
        word.put(&mut self.frame);
    }

    fn number(&mut self, value: u64) {
        self.parameter(0);
        value.put(&mut self.frame);
    }

    fn part<T: Plain>(&mut self, kind: u64, name: &'static str, before: &[T], after: &[T]) {
        assert_eq!(before.len(), after.len(), "{}: {name} can't change its length", self.call);
        let length = before.len();
        self.parameter(kind | (T::SIZE as u64) << 8 | (length as u64) << 16);
        before.iter().for_each(|v| v.put(&mut self.frame));
        after.iter().for_each(|v| v.put(&mut self.expected));
        fill_up(&mut self.frame);
        fill_up(&mut self.expected);
        self.parts.push(Part { name, size: T::SIZE, length });
    }

    /// Numbers, each in a word of its own.
    pub fn numbers(mut self, values: &[u64]) -> Exchange {
        values.iter().for_each(|v| self.number(*v));
        self
    }

    /// A slice that the call can't change.
    pub fn lent<T: Plain>(mut self, name: &'static str, table: &[T]) -> Exchange {
        self.part(1, name, table, table);
        self
    }

    /// A slice as it is before the call and as it must be after it.
    pub fn slice<T: Plain>(mut self, name: &'static str, before: &[T], after: &[T]) -> Exchange {
        self.part(1, name, before, after);
        self
    }

    /// The same for an array, whose length the call knows.
    pub fn array<T: Plain>(mut self, name: &'static str, before: &[T], after: &[T]) -> Exchange {
        self.part(2, name, before, after);
        self
    }

    /// The four numbers of an answer: these, then zeros. They hold anything before.
    pub fn out(self, values: &[u64]) -> Exchange {
        let mut after = [0; 4];
        after[..values.len()].copy_from_slice(values);
        self.array("out", &[7, 8, 9, 10], &after)
    }

    /// The numbers, and each slice and array before and after the call.
    pub fn taken_apart(&self) -> (Vec<u64>, Vec<Apart>) {
        let number = |bytes: &[u8]| {
            let mut word = [0; 8];
            word[..bytes.len()].copy_from_slice(bytes);
            u64::from_le_bytes(word)
        };
        let list = |bytes: &[u8], p: &Part| {
            bytes[..p.size * p.length].chunks_exact(p.size).map(number).collect::<Vec<_>>()
        };
        let (mut numbers, mut parts) = (Vec::new(), Vec::new());
        let (mut at, mut told, mut left) = (16, 8, self.parts.iter());
        while at < self.frame.len() {
            let kind = self.frame[at];
            at += 8;
            if kind == 0 {
                numbers.push(number(&self.frame[at..at + 8]));
                at += 8;
                continue;
            }
            let part = left.next().expect("a part for each parameter");
            let (before, after) =
                (list(&self.frame[at..], part), list(&self.expected[told..], part));
            parts.push(Apart { name: part.name, size: part.size, before, after });
            at += (part.size * part.length).next_multiple_of(8);
            told += (part.size * part.length).next_multiple_of(8);
        }
        (numbers, parts)
    }

    pub fn name(&self) -> &'static str {
        self.call
    }

    /// What the call must answer.
    pub fn code(&self) -> u64 {
        u64::from_le_bytes(self.expected[..8].try_into().unwrap())
    }

    /// What differs, in words.
    fn difference(&self, answer: &[u8]) -> String {
        let number = |bytes: &[u8]| {
            let mut word = [0; 8];
            word[..bytes.len()].copy_from_slice(bytes);
            u64::from_le_bytes(word)
        };
        let (must, is) = (number(&self.expected[..8]), number(&answer[..8]));
        let mut told = format!("{}: ", self.call);
        if must != is {
            let _ = write!(told, "answered {is} instead of {must}");
            return told;
        }
        let mut at = 8;
        for part in &self.parts {
            for i in 0..part.length {
                let here = at + i * part.size..at + (i + 1) * part.size;
                let (must, is) = (number(&self.expected[here.clone()]), number(&answer[here]));
                if must != is {
                    let _ = write!(told, "{}[{i}] is {is} instead of {must}", part.name);
                    return told;
                }
            }
            at += (part.size * part.length).next_multiple_of(8);
        }
        told + "the answer has another length"
    }

    /// As text that `compare replay` takes: the call, and its words in hexadecimal.
    fn script(&self) -> String {
        let words = |bytes: &[u8]| {
            let word = |w: &[u8]| format!("{:x}", u64::from_le_bytes(w.try_into().unwrap()));
            bytes.chunks_exact(8).map(word).collect::<Vec<_>>().join(" ")
        };
        format!("{}\n{}\n{}\n", self.call, words(&self.frame), words(&self.expected))
    }
}

/// A frame and its expected answer from such a text.
pub fn from_script(text: &str) -> Option<(Vec<u8>, Vec<u8>)> {
    let mut lines = text.lines();
    let name = lines.next()?;
    let index = CALLS.iter().position(|c| *c == name)?;
    let mut bytes = || -> Option<Vec<u8>> {
        let mut all = Vec::new();
        for word in lines.next()?.split(' ') {
            u64::from_str_radix(word, 16).ok()?.put(&mut all);
        }
        Some(all)
    };
    let (mut frame, expected) = (bytes()?, bytes()?);
    frame.get_mut(..8)?.copy_from_slice(&(index as u64).to_le_bytes());
    Some((frame, expected))
}

/// The process that makes the calls.
pub struct Ours {
    child: Child,
    compared: BTreeSet<&'static str>,
    waiting: Vec<Exchange>,
    bytes: usize,
}

/// The first call that was not answered as it must be.
#[derive(Debug)]
pub struct Difference {
    pub words: String,
    pub script: String,
}

impl Ours {
    pub fn start(command: &[String]) -> std::io::Result<Ours> {
        let child = Command::new(&command[0])
            .args(&command[1..])
            .stdin(Stdio::piped())
            .stdout(Stdio::piped())
            .spawn()?;
        Ok(Ours { child, compared: BTreeSet::new(), waiting: Vec::new(), bytes: 0 })
    }

    /// The answers to these frames.
    pub fn ask(&mut self, frames: &[&[u8]]) -> Vec<u8> {
        const GONE: &str = "the process that makes the calls is gone";
        let mut batch = vec![0; 8];
        frames.iter().for_each(|f| batch.extend_from_slice(f));
        let length = batch.len() as u64 - 8;
        batch[..8].copy_from_slice(&length.to_le_bytes());
        let input = self.child.stdin.as_mut().expect("a pipe");
        input.write_all(&batch).and_then(|()| input.flush()).expect(GONE);
        let output = self.child.stdout.as_mut().expect("a pipe");
        let mut length = [0; 8];
        output.read_exact(&mut length).expect(GONE);
        let mut answer = vec![0; u64::from_le_bytes(length) as usize];
        output.read_exact(&mut answer).expect(GONE);
        answer
    }

    /// Makes the calls that wait, and compares.
    pub fn settle(&mut self) -> Result<(), Difference> {
        if self.waiting.is_empty() {
            return Ok(());
        }
        let waiting = std::mem::take(&mut self.waiting);
        self.bytes = 0;
        let frames: Vec<&[u8]> = waiting.iter().map(|e| &e.frame[..]).collect();
        let answers = self.ask(&frames);
        let mut rest = &answers[..];
        for exchange in &waiting {
            let (answer, more) = rest.split_at(exchange.expected.len());
            if answer != exchange.expected {
                let words = exchange.difference(answer);
                return Err(Difference { words, script: exchange.script() });
            }
            rest = more;
        }
        assert!(rest.is_empty(), "more was answered than asked");
        Ok(())
    }

    /// Compares this call, now or with the next ones.
    pub fn compare(&mut self, exchange: Exchange) -> Result<(), Difference> {
        self.bytes += exchange.frame.len();
        self.compared.insert(exchange.call);
        self.waiting.push(exchange);
        if self.bytes < 1 << 20 {
            return Ok(());
        }
        self.settle()
    }

    /// The calls that were not compared.
    pub fn left(&self) -> Vec<&'static str> {
        CALLS.iter().copied().filter(|call| !self.compared.contains(call)).collect()
    }
}

impl Drop for Ours {
    fn drop(&mut self) {
        drop(self.child.stdin.take());
        let _ = self.child.wait();
    }
}

#[cfg(test)]
mod tests {
    use super::CALLS;
    use std::collections::BTreeSet;

    #[test]
    fn the_calls_are_those_that_the_header_declares() {
        let header = crate::make::repository().join("include/verdict_store.h");
        let text = std::fs::read_to_string(header).unwrap();
        let declared = text.lines().filter_map(|line| line.strip_prefix("uint32_t verdict_"));
        let declared: BTreeSet<String> =
            declared.map(|rest| format!("verdict_{}", rest.split('(').next().unwrap())).collect();
        let calls: BTreeSet<String> = CALLS.iter().map(|call| call.to_string()).collect();
        assert_eq!(calls.len(), CALLS.len(), "a call stands twice");
        assert_eq!(calls, declared);
    }
}
