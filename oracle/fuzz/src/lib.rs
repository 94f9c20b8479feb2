//! The target of libFuzzer: an input is a pack, and each call on it is compared with the oracle.

use compare::calls::{alike, fields, found, Call};
use compare::inputs;
use compare::proved::Proved;
use compare::round::{Bench, Case, Class};
use compare::shrink;
use harness::answer::{self, Reading, NO_END, RUST_BUDGET};
use harness::corpus;
use harness::packs::Chance;
use original::bytecode::Module;
use std::cell::RefCell;

extern "C" {
    fn LLVMFuzzerMutate(data: *mut u8, size: usize, room: usize) -> usize;
}

thread_local! {
    static BENCH: RefCell<Bench<'static>> = RefCell::new(Bench::new(Box::leak(Box::new(Proved))));
}

/// # Safety
/// `data` has `size` bytes.
#[no_mangle]
pub unsafe extern "C" fn LLVMFuzzerTestOneInput(data: *const u8, size: usize) -> i32 {
    // Of no bytes there may be no place.
    let pack = if size == 0 { &[] } else { std::slice::from_raw_parts(data, size) };
    let reading = answer::read(pack, NO_END as u64, u64::MAX);
    // For its counters: the oracle's answers come from the patched build. Where the answer is 25 the Rust goes on to read
    // externs, and how it does that is no matter here.
    if reading.answer.number() != 25 {
        drop(Module::deserialize(pack));
    }
    BENCH.with_borrow_mut(|bench| compare_all(bench, pack, &reading));
    0
}

fn compare_all(bench: &mut Bench, pack: &[u8], reading: &Reading) {
    bench.pack.fill(pack);
    let words = reading.tape();
    for call in corpus::calls(pack, reading) {
        match call {
            corpus::Call::Whole { budget, tape } => {
                let expected = fields(reading.under(budget, tape));
                case(bench, pack, Call::Whole { budget, tape: tape as usize }, expected, &words);
            }
            corpus::Call::Section(call) => {
                let alone = answer::section(pack, call.number, call.place, NO_END as u64, call.functions, u64::MAX);
                let expected = fields(alone.under(call.budget, call.tape));
                let call = Call::Section {
                    number: call.number,
                    place: call.place,
                    budget: call.budget,
                    functions: call.functions,
                    tape: call.tape as usize,
                };
                case(bench, pack, call, expected, &alone.tape());
            }
            corpus::Call::Lookup(name) => {
                let expected = found(reading.find(reading.under(RUST_BUDGET, u64::MAX), &name));
                case(bench, pack, Call::Lookup { name }, expected, &[]);
            }
        }
    }
    case(bench, pack, Call::AlikeNames, alike(reading.alike(reading.under(RUST_BUDGET, u64::MAX))), &[]);
}

/// A difference stops the run, and libFuzzer keeps the input.
fn case(bench: &mut Bench, pack: &[u8], call: Call, expected: [u64; 6], words: &[u32]) {
    if bench.put(pack, &call, expected, words).is_some() {
        let case = Case { class: Class::Listed, pack: pack.to_vec(), call };
        eprintln!("{}", shrink::report(bench, case));
        std::process::abort();
    }
}

/// Half of the changes are libFuzzer's own, half know counts and texts.
///
/// # Safety
/// `data` has room for `room` bytes, the first `size` of them an input.
#[no_mangle]
pub unsafe extern "C" fn LLVMFuzzerCustomMutator(data: *mut u8, size: usize, room: usize, seed: u32) -> usize {
    let mut chance = Chance(seed as u64);
    if chance.flag() {
        return LLVMFuzzerMutate(data, size, room);
    }
    let pack = std::slice::from_raw_parts(data, size);
    let reading = answer::read(pack, NO_END as u64, u64::MAX);
    put(&inputs::damaged(pack, &reading, &mut chance), data, room)
}

/// # Safety
/// The inputs have so many bytes, and `out` has room for `room`.
#[no_mangle]
pub unsafe extern "C" fn LLVMFuzzerCustomCrossOver(
    first: *const u8,
    first_size: usize,
    second: *const u8,
    second_size: usize,
    out: *mut u8,
    room: usize,
    seed: u32,
) -> usize {
    let packs = [std::slice::from_raw_parts(first, first_size), std::slice::from_raw_parts(second, second_size)];
    let [a, b] = packs.map(|pack| answer::read(pack, NO_END as u64, u64::MAX));
    put(&inputs::spliced((packs[0], &a), (packs[1], &b), &mut Chance(seed as u64)), out, room)
}

unsafe fn put(pack: &[u8], out: *mut u8, room: usize) -> usize {
    let length = pack.len().min(room);
    std::ptr::copy_nonoverlapping(pack.as_ptr(), out, length);
    length
}
