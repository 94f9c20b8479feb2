//! The proved reader: the archive's calls.

use crate::calls::{Fields, Lent, Reader};
use harness::sizes;
use vob::raw::{self, Answer, SECTIONS};

pub struct Proved;

/// The number, then the values.
fn fields(answer: Answer) -> Fields {
    let [value1, value2, value3, value4, value5] = answer.values;
    [answer.number, value1, value2, value3, value4, value5]
}

impl Reader for Proved {
    unsafe fn read(&mut self, pack: Lent<u8>, budget: u64, tape: Lent<u32>) -> Fields {
        fields(raw::vob_read(pack.start, pack.length, budget, tape.start, tape.length))
    }

    unsafe fn section(
        &mut self,
        number: usize,
        pack: Lent<u8>,
        place: u64,
        budget: u64,
        functions: u64,
        tape: Lent<u32>,
    ) -> Fields {
        fields(match SECTIONS.get(number - 1) {
            Some(section) => section(pack.start, pack.length, place, budget, tape.start, tape.length),
            None => raw::vob_inline_sources(pack.start, pack.length, place, budget, functions, tape.start, tape.length),
        })
    }

    unsafe fn lookup(&mut self, pack: Lent<u8>, name: &[u8]) -> Fields {
        fields(raw::vob_find_artifact(pack.start, pack.length, name.as_ptr(), name.len()))
    }

    unsafe fn alike_names(&mut self, pack: Lent<u8>) -> Fields {
        fields(raw::vob_alike_names(pack.start, pack.length))
    }
}

/// Whether the archive's sizes are the measured ones, and no other number has one.
pub fn sizes() -> Result<(), String> {
    let measured = sizes::table().map(|(_, size)| size);
    for number in (0..=40).chain([1 << 32, u64::MAX]) {
        let expected = number.checked_sub(1).and_then(|at| measured.get(at as usize)).copied().unwrap_or(0);
        let got = raw::vob_charge_size(number);
        if got != expected {
            return Err(format!("size {number} is {got}, measured {expected}"));
        }
    }
    Ok(())
}
