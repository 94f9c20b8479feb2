//! The calls that are compared, the memory that is lent to them, and the reader of the archive.

use harness::alike::Pair;
use harness::answer::{self, Answer};

/// An answer as the archive gives it. Taken: 0, words, bytes, charged, left, 0. Refused: number, c, d1, d2, place, left.
/// Found: 0, start, length, 0, 0, 0. Alike: 0, 1, start and length of the earlier name, then of the later one; none alike: zeros.
pub type Fields = [u64; 6];

pub fn fields(answer: Answer) -> Fields {
    match answer {
        Answer::Taken { words, bytes, charged, left } => [0, words, bytes, charged, left, 0],
        Answer::Refused { number, c, d1, d2, place, left } => [number, c, d1, d2, place, left],
    }
}

pub fn found(answer: Result<(u64, u64), Answer>) -> Fields {
    match answer {
        Ok((start, length)) => [0, start, length, 0, 0, 0],
        Err(refused) => fields(refused),
    }
}

pub fn alike(answer: Result<Option<Pair>, Answer>) -> Fields {
    match answer {
        Ok(Some([start, length, later_start, later_length])) => [0, 1, start, length, later_start, later_length],
        Ok(None) => [0; 6],
        Err(refused) => fields(refused),
    }
}

/// Lent memory as C sees it.
#[derive(Clone, Copy)]
pub struct Lent<T> {
    pub start: *mut T,
    pub length: usize,
}

impl<T> Lent<T> {
    pub unsafe fn slice<'a>(self) -> &'a [T] {
        std::slice::from_raw_parts(self.start, self.length)
    }

    pub unsafe fn slice_mut<'a>(self) -> &'a mut [T] {
        std::slice::from_raw_parts_mut(self.start, self.length)
    }
}

/// What is compared with the oracle. The lent memory has to be valid, and stays so beside the part that is lent.
pub trait Reader {
    unsafe fn read(&mut self, pack: Lent<u8>, budget: u64, tape: Lent<u32>) -> Fields;
    unsafe fn section(
        &mut self,
        number: usize,
        pack: Lent<u8>,
        place: u64,
        budget: u64,
        functions: u64,
        tape: Lent<u32>,
    ) -> Fields;
    unsafe fn lookup(&mut self, pack: Lent<u8>, name: &[u8]) -> Fields;
    unsafe fn alike_names(&mut self, pack: Lent<u8>) -> Fields;
}

#[derive(Clone, Debug)]
pub enum Call {
    Whole { budget: u64, tape: usize },
    Section { number: usize, place: u64, budget: u64, functions: u64, tape: usize },
    Lookup { name: Vec<u8> },
    AlikeNames,
}

impl Call {
    pub fn tape(&self) -> usize {
        match self {
            Call::Whole { tape, .. } | Call::Section { tape, .. } => *tape,
            Call::Lookup { .. } | Call::AlikeNames => 0,
        }
    }

    /// What a run of the oracle on just this call says: the answer and the tape's counted words.
    pub fn expected(&self, pack: &[u8]) -> (Fields, Vec<u32>) {
        match self {
            Call::Whole { budget, tape } => {
                let reading = answer::read(pack, *budget, *tape as u64);
                (fields(reading.answer), reading.tape())
            }
            Call::Section { number, place, budget, functions, tape } => {
                let reading = answer::section(pack, *number, *place, *budget, *functions, *tape as u64);
                (fields(reading.answer), reading.tape())
            }
            Call::Lookup { name } => (found(answer::lookup(pack, name)), Vec::new()),
            Call::AlikeNames => (alike(answer::alike_names(pack)), Vec::new()),
        }
    }

    /// The reader's answer. The memory is as `Reader` wants it.
    pub unsafe fn put(&self, reader: &mut dyn Reader, pack: Lent<u8>, tape: Lent<u32>) -> Fields {
        match self {
            Call::Whole { budget, .. } => reader.read(pack, *budget, tape),
            Call::Section { number, place, budget, functions, .. } => {
                reader.section(*number, pack, *place, *budget, *functions, tape)
            }
            Call::Lookup { name } => reader.lookup(pack, name),
            Call::AlikeNames => reader.alike_names(pack),
        }
    }

    /// An answer to this call in words.
    pub fn text(&self, answer: Fields) -> String {
        let [number, a, b, c, d, e] = answer;
        match (self, number) {
            (Call::Lookup { .. }, 0) => format!("found {a} {b}"),
            (Call::AlikeNames, 0) if answer == [0; 6] => "none".to_string(),
            (Call::AlikeNames, 0) => format!("pair {a}: {b} {c} {d} {e}"),
            (_, 0) => format!("taken {a} {b} {c} {d}"),
            _ => format!("refused {number} {a} {b} {c} {d} {e}"),
        }
    }
}

impl std::fmt::Display for Call {
    fn fmt(&self, f: &mut std::fmt::Formatter<'_>) -> std::fmt::Result {
        match self {
            Call::Whole { budget, tape } => write!(f, "the whole pack, budget {budget}, tape {tape}"),
            Call::Section { number, place, budget, functions, tape } => {
                write!(f, "section {number} at {place}, budget {budget}, functions {functions}, tape {tape}")
            }
            Call::Lookup { name } => write!(f, "the lookup of {}", hex(name)),
            Call::AlikeNames => write!(f, "the names that print alike"),
        }
    }
}

pub fn hex(bytes: &[u8]) -> String {
    if bytes.is_empty() {
        return "nothing".to_string();
    }
    bytes.iter().map(|byte| format!("{byte:02X}")).collect::<Vec<_>>().join(" ")
}
