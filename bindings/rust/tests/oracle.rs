//! The oracle's stored answers, replayed through this crate: each answer, each text of a refusal, and the tape after the call.

mod stored;

use std::path::Path;
use stored::Record;
use vob::{AlikeNames, Error, Reading, Section};

/// What a word of the tape holds before a call.
const UNWRITTEN: u32 = 0x5eed_5eed;

const LONGEST_TAPE: usize = 65_536;

fn section(number: u32, functions: u64) -> Section {
    match number {
        1 => Section::Name,
        2 => Section::Structs,
        3 => Section::Interfaces,
        4 => Section::NamedTypes,
        5 => Section::Itabs,
        6 => Section::RuntimeTypes,
        7 => Section::WellKnown,
        8 => Section::Constants,
        9 => Section::Globals,
        10 => Section::Functions,
        11 => Section::Externs,
        12 => Section::Entry,
        13 => Section::IslandInit,
        14 => Section::Artifacts,
        15 => Section::Files,
        16 => Section::FunctionLocations,
        17 => Section::InlineSources { functions },
        _ => panic!("no section {number}"),
    }
}

fn taken(answer: Result<Reading, Error>) -> (bool, [u64; 6]) {
    match answer {
        Ok(reading) => (false, [reading.words as u64, reading.bytes as u64, reading.charged, reading.left, 0, 0]),
        Err(refusal) => (true, refusal.numbers()),
    }
}

fn found(pack: &[u8], answer: Result<&[u8], Error>) -> (bool, [u64; 6]) {
    match answer {
        Ok(payload) => {
            let start = payload.as_ptr().addr() - pack.as_ptr().addr();
            (false, [start as u64, payload.len() as u64, 0, 0, 0, 0])
        }
        Err(refusal) => (true, refusal.numbers()),
    }
}

fn alike(answer: Result<Option<AlikeNames>, Error>) -> (bool, [u64; 6]) {
    match answer {
        Ok(None) => (false, [0; 6]),
        Ok(Some(AlikeNames { earlier, later })) => {
            (false, [1, earlier.start, earlier.len(), later.start, later.len(), 0].map(|number| number as u64))
        }
        Err(refusal) => (true, refusal.numbers()),
    }
}

fn sum(words: &[u32]) -> u32 {
    words.iter().fold(0, |sum: u32, word| sum.wrapping_mul(31).wrapping_add(*word))
}

fn replay(record: &Record, unwritten: &[u32]) {
    let mut tape = unwritten[..record.tape].to_vec();
    let pack = record.pack.as_slice();
    let answer = match record.kind {
        stored::WHOLE => taken(vob::read(pack, record.budget, &mut tape)),
        stored::SECTION => {
            let section = section(record.section, record.functions);
            taken(vob::read_section(section, pack, record.place as usize, record.budget, &mut tape))
        }
        stored::LOOKUP => found(pack, vob::find_artifact(pack, &record.name)),
        stored::ALIKE => alike(vob::alike_names(pack)),
        kind => panic!("no call has the kind {kind}"),
    };
    assert_eq!(answer, (record.refused, record.fields));
    let (written, rest) = tape.split_at(record.count);
    assert_eq!(sum(written), record.sum);
    assert_eq!(rest, &unwritten[record.count..record.tape]);
    if let Some(words) = &record.words {
        assert_eq!(written, words);
    }
}

fn replay_list(name: &str) {
    let list = Path::new(env!("CARGO_MANIFEST_DIR")).join("../../crates/replay/data").join(name);
    let unwritten = vec![UNWRITTEN; LONGEST_TAPE];
    let records = stored::each(&list, |record| replay(&record, &unwritten));
    assert_ne!(records, 0);
}

#[test]
fn packcheck() {
    replay_list("packcheck.bin");
}

#[test]
fn tapes() {
    replay_list("tapes.bin");
}

#[test]
fn budgets() {
    replay_list("budgets.bin");
}

#[test]
fn damage() {
    replay_list("damage.bin");
}

#[test]
fn lookups() {
    replay_list("lookups.bin");
}

#[test]
fn alike_names() {
    replay_list("alike.bin");
}

#[test]
fn sections() {
    replay_list("sections.bin");
}

#[test]
fn corpus() {
    replay_list("corpus.bin");
}
