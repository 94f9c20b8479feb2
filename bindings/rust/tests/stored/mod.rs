//! The oracle's stored answers, record by record; oracle/README.md has the format.

use std::fs;
use std::path::Path;

const HEADER: usize = 128;

pub const WHOLE: u32 = 1;
pub const SECTION: u32 = 2;
pub const LOOKUP: u32 = 3;
pub const ALIKE: u32 = 5;

/// A record: what to call, and what the oracle answered.
pub struct Record {
    pub kind: u32,
    pub pack: Vec<u8>,
    pub section: u32,
    pub tape: usize,
    pub name: Vec<u8>,
    /// The words that the tape holds, where they are stored.
    pub words: Option<Vec<u32>>,
    pub count: usize,
    pub sum: u32,
    pub budget: u64,
    pub place: u64,
    pub functions: u64,
    pub refused: bool,
    pub fields: [u64; 6],
}

fn number(bytes: &[u8], at: usize) -> u32 {
    u32::from_le_bytes(bytes[at..at + 4].try_into().unwrap())
}

fn long(bytes: &[u8], at: usize) -> u64 {
    u64::from_le_bytes(bytes[at..at + 8].try_into().unwrap())
}

/// Takes the first `n` bytes off a list.
fn take<'a>(list: &mut &'a [u8], n: usize) -> &'a [u8] {
    let (taken, rest) = list.split_at(n);
    *list = rest;
    taken
}

/// Visits the records of a list, and returns how many they are. Panics where the list is not in the format.
pub fn each(list: &Path, mut visit: impl FnMut(Record)) -> usize {
    let bytes = fs::read(list).unwrap_or_else(|error| panic!("{}: {error}", list.display()));
    let mut rest = bytes.as_slice();
    let mut buffer: Vec<u8> = Vec::new();
    let mut records = 0;
    loop {
        let header = take(&mut rest, HEADER);
        let field = |at| number(header, at) as usize;
        let kind = number(header, 0);
        if kind == 0 {
            assert_eq!((records, rest.len()), (field(4), 0), "{}: the last record", list.display());
            return records;
        }
        let stored = take(&mut rest, field(4));
        if buffer.len() < stored.len() {
            buffer.resize(stored.len(), 0);
        }
        buffer[..stored.len()].copy_from_slice(stored);
        if buffer.len() < field(8) {
            buffer.resize(field(8), 0);
        }
        let mut pack = buffer[..field(8)].to_vec();
        pack[field(12)..][..field(16)].copy_from_slice(&header[20..20 + field(16)]);
        let name = take(&mut rest, field(32)).to_vec();
        let words: Vec<u32> = take(&mut rest, 4 * field(36)).chunks(4).map(|word| number(word, 0)).collect();
        records += 1;
        visit(Record {
            kind,
            pack,
            section: number(header, 24),
            tape: field(28),
            name,
            words: (!words.is_empty()).then_some(words),
            count: field(40),
            sum: number(header, 44),
            budget: long(header, 48),
            place: long(header, 56),
            functions: long(header, 64),
            refused: long(header, 72) == 1,
            fields: std::array::from_fn(|i| long(header, 80 + 8 * i)),
        });
    }
}
