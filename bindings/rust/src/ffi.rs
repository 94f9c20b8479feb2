//! The archive's functions behind safe ones.

use crate::raw::{self, Answer, SectionCall};
use crate::{AlikeNames, Error, Reading, Reason, Section};
use std::ops::Range;

impl Answer {
    fn refusal(&self) -> Option<Error> {
        let [context, detail1, detail2, place, left] = self.values;
        let reason = Reason::new(self.number, context, detail1, detail2)?;
        Some(Error { reason, place: place as usize, left })
    }

    fn taken(self) -> Result<Reading, Error> {
        match self.refusal() {
            Some(error) => Err(error),
            None => {
                let [words, bytes, charged, left, _] = self.values;
                Ok(Reading { words: words as usize, bytes: bytes as usize, charged, left })
            }
        }
    }

    fn found(self) -> Result<Range<usize>, Error> {
        match self.refusal() {
            Some(error) => Err(error),
            None => {
                let [start, length, ..] = self.values;
                Ok(span(start, length))
            }
        }
    }

    fn alike(self) -> Result<Option<AlikeNames>, Error> {
        match (self.refusal(), self.values) {
            (Some(error), _) => Err(error),
            (None, [0, ..]) => Ok(None),
            (None, [_, start1, length1, start2, length2]) => {
                Ok(Some(AlikeNames { earlier: span(start1, length1), later: span(start2, length2) }))
            }
        }
    }
}

fn span(start: u64, length: u64) -> Range<usize> {
    start as usize..(start + length) as usize
}

pub(crate) fn read(pack: &[u8], budget: u64, tape: &mut [u32]) -> Result<Reading, Error> {
    // SAFETY: slices are memory that is there, not null and aligned; a `&mut` slice shares no byte with another. The call keeps
    // no pointer, and its contract has it stay within both slices.
    unsafe { raw::vob_read(pack.as_ptr(), pack.len(), budget, tape.as_mut_ptr(), tape.len()) }.taken()
}

pub(crate) fn find_artifact(pack: &[u8], name: &[u8]) -> Result<Range<usize>, Error> {
    // SAFETY: as in `read`; nothing is written.
    unsafe { raw::vob_find_artifact(pack.as_ptr(), pack.len(), name.as_ptr(), name.len()) }.found()
}

pub(crate) fn alike_names(pack: &[u8]) -> Result<Option<AlikeNames>, Error> {
    // SAFETY: as in `read`; nothing is written.
    unsafe { raw::vob_alike_names(pack.as_ptr(), pack.len()) }.alike()
}

pub(crate) fn read_section(
    section: Section,
    pack: &[u8],
    place: usize,
    budget: u64,
    tape: &mut [u32],
) -> Result<Reading, Error> {
    let call: SectionCall = match section {
        Section::Name => raw::vob_name,
        Section::Structs => raw::vob_structs,
        Section::Interfaces => raw::vob_interfaces,
        Section::NamedTypes => raw::vob_named_types,
        Section::Itabs => raw::vob_itabs,
        Section::RuntimeTypes => raw::vob_runtime_types,
        Section::WellKnown => raw::vob_well_known,
        Section::Constants => raw::vob_constants,
        Section::Globals => raw::vob_globals,
        Section::Functions => raw::vob_functions,
        Section::Externs => raw::vob_externs,
        Section::Entry => raw::vob_entry,
        Section::IslandInit => raw::vob_island_init,
        Section::Artifacts => raw::vob_artifacts,
        Section::Files => raw::vob_files,
        Section::FunctionLocations => raw::vob_function_locations,
        Section::InlineSources { functions } => {
            let (place, tape_length) = (place as u64, tape.len());
            // SAFETY: as in `read`.
            let answer = unsafe {
                raw::vob_inline_sources(
                    pack.as_ptr(),
                    pack.len(),
                    place,
                    budget,
                    functions,
                    tape.as_mut_ptr(),
                    tape_length,
                )
            };
            return answer.taken();
        }
    };
    // SAFETY: as in `read`.
    unsafe { call(pack.as_ptr(), pack.len(), place as u64, budget, tape.as_mut_ptr(), tape.len()) }.taken()
}

pub(crate) fn charge_size(index: u64) -> u64 {
    raw::vob_charge_size(index)
}
