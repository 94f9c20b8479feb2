//! The proved reader of VOB 24 rule packs.
//!
//! A reading answers with a tape of 32-bit words that holds every field of the pack in file order, or with one refusal that
//! says what is wrong and where. Each call below is proved, for every input, equal to its definition: it ends, a refusal
//! changes nothing on the tape, and the budget's account is exact. What this crate adds to the proved archive is the enums
//! and texts of [`Error`] and the text of [`AlikeNames`]; only its private module `ffi` has `unsafe` code, over the
//! declarations in [`raw`].
//!
//! No call needs more than 192 KB of stack, whatever the pack; that is measured and not proved.
//!
//! # On the tape
//!
//! A number or bool is one word, a 64-bit number low word then high, a text or payload its start in the pack and its length, a
//! list its count then its items, an optional id two words (0 0, or 1 and the id), another optional part 0, or 1 and the part.
//! A variant opens with its tag. Magic and version are absent. A tape of as many words as the pack has bytes is always enough.
//!
//! # Example
//!
//! The smallest pack has magic, version 24 and 105 zero bytes; here it has the name "A".
//!
//! ```
//! use vob::{Reading, Reason, STARTING_BUDGET};
//!
//! let mut pack = b"VOB\x18\0\0\0\x01\0\0\0A".to_vec();
//! pack.resize(113, 0);
//! let mut tape = vec![0; pack.len()];
//!
//! let reading = vob::read(&pack, STARTING_BUDGET, &mut tape)?;
//! assert_eq!(reading, Reading { words: 37, bytes: 113, charged: 1, left: STARTING_BUDGET - 1 });
//!
//! // The record opens with the name: where it starts, and its length.
//! let record = &tape[..reading.words];
//! let name = &pack[record[0] as usize..][..record[1] as usize];
//! assert_eq!(name, b"A");
//!
//! // A pack that is cut short is refused, and the text says where.
//! let refusal = vob::read(&pack[..112], STARTING_BUDGET, &mut tape).unwrap_err();
//! assert_eq!(refusal.reason, Reason::UnexpectedEof);
//! assert_eq!(
//!     refusal.to_string(),
//!     "refused at byte 109: the pack ends before the field or list that starts here is complete"
//! );
//! # Ok::<(), vob::Error>(())
//! ```

#![deny(missing_docs)]
#![deny(unsafe_op_in_unsafe_fn)]

#[cfg(not(all(target_arch = "x86_64", target_os = "linux")))]
compile_error!("the proved archive links into x86-64 Linux programs only");

mod alike;
mod error;
mod ffi;
pub mod raw;
mod section;

pub use alike::AlikeNames;
pub use error::{Context, Error, FunctionMetadata, Reason};
pub use section::Section;

/// The budget that the Rust reader starts with, and that [`find_artifact`] and [`alike_names`] read under.
pub const STARTING_BUDGET: u64 = 536_870_912;

/// The longest pack, in bytes.
pub const MAX_PACK_BYTES: usize = 134_217_728;

/// Where the first section, the name, starts: after magic and version.
pub const FIRST_SECTION: usize = 7;

/// What was read: the record is the tape's first `words` words.
#[derive(Clone, Copy, Debug, PartialEq, Eq, Hash)]
pub struct Reading {
    /// How many words of the tape were written.
    pub words: usize,
    /// How many bytes were taken: the whole pack, or a section from its place on.
    pub bytes: usize,
    /// The sum of all charges. It depends on nothing but the record and the texts that it points to.
    pub charged: u64,
    /// The budget less that sum.
    pub left: u64,
}

/// Reads a whole pack under a budget in bytes, and writes its record to the tape.
///
/// The words of the tape after the record stay as they were. Where the pack is refused, so does all of the tape; with a tape
/// that is too short, the refusal is [`Reason::NoRoom`] and tells how many words are needed.
pub fn read(pack: &[u8], budget: u64, tape: &mut [u32]) -> Result<Reading, Error> {
    ffi::read(pack, budget, tape)
}

/// Reads one section alone, from its place in the pack and under its own budget, and writes its words from the tape's first
/// word on.
///
/// Read in the order of [`Section`] from [`FIRST_SECTION`] on, each from where the last one left place and budget, the
/// sections give the words of the whole pack.
///
/// ```
/// use vob::{FIRST_SECTION, Section};
///
/// let mut pack = b"VOB\x18\0\0\0".to_vec();
/// pack.resize(112, 0);
/// let mut tape = [0; 2];
///
/// let name = vob::read_section(Section::Name, &pack, FIRST_SECTION, 0, &mut tape)?;
/// assert_eq!((name.bytes, tape), (4, [11, 0]));
///
/// let structs = vob::read_section(Section::Structs, &pack, FIRST_SECTION + name.bytes, name.left, &mut tape)?;
/// assert_eq!((structs.words, tape[0]), (1, 0));
/// # Ok::<(), vob::Error>(())
/// ```
pub fn read_section(
    section: Section,
    pack: &[u8],
    place: usize,
    budget: u64,
    tape: &mut [u32],
) -> Result<Reading, Error> {
    ffi::read_section(section, pack, place, budget, tape)
}

/// The payload of the first artifact with exactly these name bytes. Reads the whole pack under [`STARTING_BUDGET`].
pub fn find_artifact<'a>(pack: &'a [u8], name: &[u8]) -> Result<&'a [u8], Error> {
    ffi::find_artifact(pack, name).map(|payload| &pack[payload])
}

/// Two names of one table that are the same letters, composed in one and decomposed in the other, or `None` exactly if the pack
/// has no such pair. Reads the whole pack under [`STARTING_BUDGET`].
///
/// Names are compared with each letter from U+00C0 to U+017F replaced by its canonical decomposition, where it has one; all other
/// characters stay, and marks keep their order. A table is the fields of a struct other than "_", the method names of an
/// interface, its methods, the methods of a named type, or those of a runtime interface. Of several pairs the answer is the one
/// whose later name ends earliest in the pack, with the earlier name nearest to it.
///
/// ```
/// // A struct with the fields "\u{e9}" and "e\u{301}".
/// let mut pack = b"VOB\x18\0\0\0\0\0\0\0\x01\0\0\0\0\0\0\0\x02\0\0\0".to_vec();
/// for name in ["\u{e9}", "e\u{301}"] {
///     pack.extend((name.len() as u32).to_le_bytes());
///     pack.extend(name.as_bytes());
///     pack.extend([0; 10]);
/// }
/// pack.extend([0; 97]);
///
/// let pair = vob::alike_names(&pack)?.unwrap();
/// assert_eq!((pair.earlier, pair.later), (27..29, 43..46));
/// # Ok::<(), vob::Error>(())
/// ```
pub fn alike_names(pack: &[u8]) -> Result<Option<AlikeNames>, Error> {
    ffi::alike_names(pack)
}

/// The size in bytes that an entry is charged, by its number in document 01's table of sizes, 1 to 33.
pub fn charge_size(index: u64) -> Option<u64> {
    match ffi::charge_size(index) {
        0 => None,
        size => Some(size),
    }
}
