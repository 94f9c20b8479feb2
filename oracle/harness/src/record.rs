//! The stored answers' file format; README.md describes it.

use crate::alike::Pair;
use crate::answer::{self, Answer, RUST_BUDGET};
use std::collections::BTreeMap;

pub const PACKCHECK_TAPE: u64 = 16_384;
/// A tape that is never too short for a stored pack.
pub const LONG_TAPE: u64 = 65_536;

const WHOLE: u32 = 1;
const SECTION: u32 = 2;
const LOOKUP: u32 = 3;
const TEXT: u32 = 4;
const ALIKE_NAMES: u32 = 5;

/// Up to four bytes that stand in place of the buffer's own for one record.
#[derive(Clone, Copy, Default)]
pub struct Edit {
    pub at: usize,
    pub len: usize,
    pub bytes: [u8; 4],
}

impl Edit {
    pub fn byte(at: usize, byte: u8) -> Self {
        Edit { at, len: 1, bytes: [byte, 0, 0, 0] }
    }

    pub fn word(at: usize, word: u32) -> Self {
        Edit { at, len: 4, bytes: word.to_le_bytes() }
    }

    pub fn apply(&self, pack: &[u8]) -> Vec<u8> {
        let mut out = pack.to_vec();
        out[self.at..self.at + self.len].copy_from_slice(&self.bytes[..self.len]);
        out
    }
}

#[derive(Clone, Copy)]
pub struct SectionCall {
    pub number: usize,
    pub place: u64,
    pub budget: u64,
    pub functions: u64,
    pub tape: u64,
}

#[derive(Default)]
pub struct Book {
    out: Vec<u8>,
    buffer: Vec<u8>,
    records: u32,
    /// How often each refusal number is the answer; 0 counts the taken.
    pub numbers: BTreeMap<u64, u32>,
}

impl Book {
    /// A whole pack: the first `length` bytes of `buffer`, changed by `edit`. With `words` the tape is stored too.
    pub fn whole(&mut self, buffer: &[u8], length: usize, edit: Edit, budget: u64, tape: u64, words: bool) -> Answer {
        let reading = answer::read(&edit.apply(&buffer[..length]), budget, tape);
        let call = SectionCall { number: 0, place: 0, budget, functions: 0, tape };
        self.record(WHOLE, buffer, length, edit, call, &[], reading.answer.fields(), &reading.tape(), words);
        reading.answer
    }

    /// The call of packcheck, its input stored in full.
    pub fn packcheck(&mut self, pack: &[u8]) -> Answer {
        self.whole(pack, pack.len(), Edit::default(), RUST_BUDGET, PACKCHECK_TAPE, false)
    }

    pub fn section(&mut self, buffer: &[u8], edit: Edit, call: SectionCall, words: bool) -> Answer {
        let SectionCall { number, place, budget, functions, tape } = call;
        let reading = answer::section(&edit.apply(buffer), number, place, budget, functions, tape);
        self.record(SECTION, buffer, buffer.len(), edit, call, &[], reading.answer.fields(), &reading.tape(), words);
        reading.answer
    }

    pub fn lookup(&mut self, pack: &[u8], name: &[u8]) {
        let fields = match answer::lookup(pack, name) {
            Ok((start, length)) => [0, start, length, 0, 0, 0, 0],
            Err(answer) => answer.fields(),
        };
        let call = SectionCall { number: 0, place: 0, budget: RUST_BUDGET, functions: 0, tape: 0 };
        self.record(LOOKUP, pack, pack.len(), Edit::default(), call, name, fields, &[], false);
    }

    pub fn alike_names(&mut self, pack: &[u8]) -> Result<Option<Pair>, Answer> {
        let answer = answer::alike_names(pack);
        let fields = match answer {
            Ok(Some([earlier, earlier_length, later, later_length])) => {
                [0, 1, earlier, earlier_length, later, later_length, 0]
            }
            Ok(None) => [0; 7],
            Err(refused) => refused.fields(),
        };
        let call = SectionCall { number: 0, place: 0, budget: RUST_BUDGET, functions: 0, tape: 0 };
        self.record(ALIKE_NAMES, pack, pack.len(), Edit::default(), call, &[], fields, &[], false);
        answer
    }

    /// A text alone, in the first `length` bytes of `buffer`, changed by `edit`. Gives the answer's number, 0 where it is
    /// taken.
    pub fn text(&mut self, buffer: &[u8], length: usize, edit: Edit, place: u64, budget: u64) -> u64 {
        let answer = answer::text(&edit.apply(&buffer[..length]), place, budget);
        let fields = match &answer {
            Ok(text) => [0, text.start, text.length, text.characters, text.place, text.left, 0],
            Err(refused) => refused.fields(),
        };
        let call = SectionCall { number: 0, place, budget, functions: 0, tape: 0 };
        self.record(TEXT, buffer, length, edit, call, &[], fields, &[], false);
        answer.map_or_else(|refused| refused.number(), |_| 0)
    }

    #[allow(clippy::too_many_arguments)]
    fn record(
        &mut self,
        kind: u32,
        buffer: &[u8],
        length: usize,
        edit: Edit,
        call: SectionCall,
        name: &[u8],
        fields: [u64; 7],
        tape_words: &[u32],
        store_words: bool,
    ) {
        let stored: &[u8] = if self.buffer == buffer { &[] } else { buffer };
        let words: &[u32] = if store_words { tape_words } else { &[] };
        let sum = tape_words.iter().fold(0u32, |sum, word| sum.wrapping_mul(31).wrapping_add(*word));
        let header = [
            kind,
            stored.len() as u32,
            length as u32,
            edit.at as u32,
            edit.len as u32,
            u32::from_le_bytes(edit.bytes),
            call.number as u32,
            call.tape as u32,
            name.len() as u32,
            words.len() as u32,
            tape_words.len() as u32,
            sum,
        ];
        assert_eq!(call.tape, call.tape as u32 as u64);
        for word in header {
            self.out.extend(word.to_le_bytes());
        }
        for long in [call.budget, call.place, call.functions].into_iter().chain(fields) {
            self.out.extend(long.to_le_bytes());
        }
        self.out.extend(stored);
        self.out.extend(name);
        for word in words {
            self.out.extend(word.to_le_bytes());
        }
        if !stored.is_empty() {
            self.buffer = buffer.to_vec();
        }
        self.records += 1;
        *self.numbers.entry(if fields[0] == 0 { 0 } else { fields[1] }).or_default() += 1;
    }

    /// The file: the records and the closing one, which counts them.
    pub fn finish(mut self) -> Vec<u8> {
        let mut last = [0; 128];
        last[4..8].copy_from_slice(&self.records.to_le_bytes());
        self.out.extend(last);
        self.out
    }

    pub fn records(&self) -> u32 {
        self.records
    }
}
