//! The packs that libFuzzer kept (corpus.txt), and the calls that are made on a pack of it.

use crate::answer::{self, Answer, Reading, BARE, NO_END, RUST_BUDGET};
use crate::record::{SectionCall, PACKCHECK_TAPE};

pub enum Call {
    Whole { budget: u64, tape: u64 },
    Section(SectionCall),
    Lookup(Vec<u8>),
}

/// A line is a pack: bytes in hexadecimal, `+N` for N zero bytes. README.md says where they come from.
pub fn packs() -> Vec<Vec<u8>> {
    include_str!("../corpus.txt").lines().map(pack_of).collect()
}

fn pack_of(line: &str) -> Vec<u8> {
    let bytes = |part: &str| -> Vec<u8> {
        match part.strip_prefix('+') {
            Some(count) => vec![0; count.parse().expect("a count of zeros")],
            None => part
                .as_bytes()
                .chunks(2)
                .map(|pair| u8::from_str_radix(std::str::from_utf8(pair).expect("ASCII"), 16).expect("a byte"))
                .collect(),
        }
    };
    line.split_whitespace().flat_map(bytes).collect()
}

/// As packcheck reads it; each section that it fills; both with too little budget for the last charge, and a tape that is
/// too short; its artifacts. `reading` is the pack's, without end of budget and tape.
pub fn calls(pack: &[u8], reading: &Reading) -> Vec<Call> {
    let whole = |(budget, tape)| Call::Whole { budget, tape };
    let mut out: Vec<Call> = around(reading).into_iter().map(whole).collect();
    for (number, at) in (1..).zip(&reading.sections) {
        let end = reading.sections.get(number).map_or(pack.len(), |next| next.place);
        if end - at.place == BARE[number - 1] && pack[at.place..end].iter().all(|byte| *byte == 0) {
            continue;
        }
        let place = at.place as u64;
        let functions = if number == 17 { function_count(pack, reading) } else { 0 };
        let alone = answer::section(pack, number, place, NO_END as u64, functions, u64::MAX);
        let section = |(budget, tape)| Call::Section(SectionCall { number, place, budget, functions, tape });
        out.extend(around(&alone).into_iter().map(section));
    }
    out.extend(names(reading).into_iter().map(Call::Lookup));
    out
}

/// Budget and tape: packcheck's; one short of the last charge, which is 5; one short of the words, which is 26. Where the
/// last charge is the extern list's, one short of those before it too.
fn around(reading: &Reading) -> Vec<(u64, u64)> {
    let cost: u64 = reading.charges.iter().map(|charge| charge.amount as u64).sum();
    let mut out = vec![(RUST_BUDGET, PACKCHECK_TAPE)];
    if let (25, Some(externs)) = (reading.answer.number(), reading.charges.last()) {
        out.extend((cost - externs.amount as u64).checked_sub(1).map(|budget| (budget, PACKCHECK_TAPE)));
    }
    if cost > 0 {
        out.push((cost - 1, PACKCHECK_TAPE));
    }
    if let Answer::Taken { words, .. } = reading.answer {
        out.push((cost, words - 1));
    }
    out
}

/// The artifacts' names, and for the first one another of its length and a longer one.
fn names(reading: &Reading) -> Vec<Vec<u8>> {
    let mut out: Vec<Vec<u8>> = reading.artifacts.iter().map(|(name, _)| name.clone()).collect();
    let first = out.first().cloned().unwrap_or_default();
    if let Some((last, before)) = first.split_last() {
        out.push([before, &[last ^ 1]].concat());
    }
    out.push([&first[..], b"x"].concat());
    out.dedup();
    out
}

fn function_count(pack: &[u8], reading: &Reading) -> u64 {
    let at = reading.sections[9].place;
    u32::from_le_bytes(pack[at..at + 4].try_into().expect("four bytes")) as u64
}
