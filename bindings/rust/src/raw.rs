//! The archive's functions as `bindings/c/vob.h` declares them: the one declaration of the C ABI in Rust, for this crate and for
//! programs that compare or time the calls themselves. Other programs use the safe functions of [`crate`].

/// An answer as its six numbers. `number` is 0 where there is no refusal, else the refusal's; `vob.h` says what the values are.
#[repr(C)]
#[derive(Clone, Copy, Debug, PartialEq, Eq)]
pub struct Answer {
    /// 0, or the number of a refusal.
    pub number: u64,
    /// What these are goes by the call and the number.
    pub values: [u64; 5],
}

/// A call on one section.
pub type SectionCall = unsafe extern "C" fn(*const u8, usize, u64, u64, *mut u32, usize) -> Answer;

macro_rules! section_calls {
    ($($call:ident)*) => {
        unsafe extern "C" {
            $(
                /// Reads one section alone: as `vob.h` says.
                ///
                /// # Safety
                /// As for [`vob_read`].
                pub fn $call(
                    pack: *const u8,
                    pack_length: usize,
                    place: u64,
                    budget: u64,
                    tape: *mut u32,
                    tape_length: usize,
                ) -> Answer;
            )*
        }

        /// All sections but the last, the inline sources, in the order of the file.
        pub const SECTIONS: [SectionCall; 16] = [$($call),*];
    };
}

section_calls! {
    vob_name vob_structs vob_interfaces vob_named_types vob_itabs vob_runtime_types vob_well_known vob_constants vob_globals
    vob_functions vob_externs vob_entry vob_island_init vob_artifacts vob_files vob_function_locations
}

unsafe extern "C" {
    /// Reads a whole pack.
    ///
    /// # Safety
    /// Each pointer, with its length, is memory that is there, not null also where the length is 0; the tape is aligned and
    /// shares no byte with the pack. The thread has 192 KB of stack left.
    pub fn vob_read(pack: *const u8, pack_length: usize, budget: u64, tape: *mut u32, tape_length: usize) -> Answer;

    /// Looks an artifact up by its name.
    ///
    /// # Safety
    /// As for [`vob_read`].
    pub fn vob_find_artifact(pack: *const u8, pack_length: usize, name: *const u8, name_length: usize) -> Answer;

    /// Finds two names of one table that print alike.
    ///
    /// # Safety
    /// As for [`vob_read`].
    pub fn vob_alike_names(pack: *const u8, pack_length: usize) -> Answer;

    /// Reads the inline sources alone, bounded by the number of functions.
    ///
    /// # Safety
    /// As for [`vob_read`].
    pub fn vob_inline_sources(
        pack: *const u8,
        pack_length: usize,
        place: u64,
        budget: u64,
        functions: u64,
        tape: *mut u32,
        tape_length: usize,
    ) -> Answer;

    /// The size that an entry is charged, by its number from 1; 0 where there is none.
    pub safe fn vob_charge_size(index: u64) -> u64;
}
