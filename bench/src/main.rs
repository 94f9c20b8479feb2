//! Times the proved reader beside the Rust original, in one process and on the same packs.
//!
//! usage: bench [SECONDS [NAME...]]     tables: best of the rounds that fit in so many seconds a row (default 2)
//!        bench --count [NAME...]       instructions of one call, by callgrind, for both
//!        bench compare OLD [NAME...]   ours beside ours of OLD, this program with another archive: instructions, and
//!                                      times of nine runs in turns; rows that OLD does not have are left out
//!        bench plot FILE               time against the pack's size, for both, as an SVG
//!        bench names                   the rows' names, one a line
//!        bench stack                   each call of the archive on a thread with 256 KB of stack, on tables of many names
//!        bench once NAME WHO           one call, for a count of instructions; WHO is ours, rust, or counting: our
//!                                      reading without a tape
//!        bench ours SECONDS NAME       our best time alone, in microseconds, for a comparison
//!
//! Both do all they need. In a reading the Rust builds its Module, and the timing leaves its drop out; ours fills the tape,
//! which is allocated once and not cleared. In a search for names that print alike the Rust builds its Module, and then a
//! map for each table.

mod alike;
mod names;
mod packs;
mod plot;
mod programs;
mod stack;

use original::bytecode::Module;
use packs::Table;
use std::hint::black_box;
use std::time::{Duration, Instant};
use vob::raw::vob_read;
use vob::STARTING_BUDGET;

/// The words of a taken pack.
#[inline(never)]
fn ours(pack: &[u8], tape: &mut [u32]) -> u64 {
    // SAFETY: both parts live through the call, which writes within the tape.
    let answer = unsafe { vob_read(pack.as_ptr(), pack.len(), STARTING_BUDGET, tape.as_mut_ptr(), tape.len()) };
    assert_eq!(answer.number, 0, "refused with {:?}", answer.values);
    answer.values[0]
}

/// The words that a pack needs, by a reading without a tape.
#[inline(never)]
fn counting(pack: &[u8]) -> u64 {
    // SAFETY: the pack lives through the call; a tape of no words is not written.
    let answer = unsafe { vob_read(pack.as_ptr(), pack.len(), STARTING_BUDGET, [].as_mut_ptr(), 0) };
    assert_eq!(answer.number, 26, "{:?}", answer.values);
    answer.values[1]
}

#[inline(never)]
fn rust(pack: &[u8]) -> Module {
    Module::deserialize(pack).unwrap_or_else(|error| panic!("refused: {error:?}"))
}

fn timed<T>(work: impl FnOnce() -> T) -> (Duration, T) {
    let start = Instant::now();
    let result = black_box(work());
    (start.elapsed(), result)
}

/// On a small pack many calls are timed together, so that the clock's own time does not count.
fn calls(pack: &[u8]) -> usize {
    (100_000 / pack.len()).max(1)
}

/// The best time of a call that is ours, in seconds.
fn best_of(pack: &[u8], seconds: f64, mut call: impl FnMut(&[u8]) -> u64) -> f64 {
    let calls = calls(pack);
    let fastest = fastest_of(seconds, || timed(|| (0..calls).map(|_| call(black_box(pack))).sum::<u64>()).0);
    fastest.as_secs_f64() / calls as f64
}

/// The best time of our readings, in seconds. Where the pages of the tape happen to lie changes the time of a long record by
/// a third: so there are as many rounds in each of its quarters.
fn best_of_ours(pack: &[u8], tape: &mut [u32], seconds: f64) -> f64 {
    let quarter = tape.len() / 4;
    let in_quarter = |tape: &mut [u32]| best_of(pack, seconds / 4.0, |pack| ours(pack, tape));
    tape.chunks_exact_mut(quarter).map(in_quarter).min_by(f64::total_cmp).expect("a tape has quarters")
}

/// The best time of a call of the Rust's, in seconds. It takes its memory anew in each round.
fn best_of_rust(pack: &[u8], seconds: f64, call: fn(&[u8]) -> Module) -> f64 {
    let calls = calls(pack);
    let mut modules = Vec::with_capacity(calls);
    let fastest = fastest_of(seconds, || {
        modules.clear();
        timed(|| modules.extend((0..calls).map(|_| call(black_box(pack))))).0
    });
    fastest.as_secs_f64() / calls as f64
}

/// The best times of both readings, each in rounds of its own.
fn best(pack: &[u8], tape: &mut [u32], seconds: f64) -> (f64, f64) {
    (best_of_ours(pack, tape, seconds / 2.0), best_of_rust(pack, seconds / 2.0, rust))
}

/// The best of the rounds that fit in so many seconds, at least one.
fn fastest_of(seconds: f64, mut round: impl FnMut() -> Duration) -> Duration {
    let begun = Instant::now();
    let mut fastest = round();
    while begun.elapsed().as_secs_f64() < seconds {
        fastest = fastest.min(round());
    }
    fastest
}

/// What is called, and what the limit of its row is on.
#[derive(Clone, Copy)]
enum Call {
    /// A reading: our time over the Rust's.
    Read,
    /// The search for names that print alike: our time over that of so many readings of ours without a tape.
    Alike { readings: u32 },
}

struct Case {
    name: &'static str,
    make: fn() -> Vec<u8>,
    call: Call,
    limit: f64,
}

impl Case {
    const fn read(name: &'static str, make: fn() -> Vec<u8>, limit: f64) -> Case {
        Case { name, make, call: Call::Read, limit }
    }

    const fn alike(name: &'static str, make: fn() -> Vec<u8>, readings: u32, limit: f64) -> Case {
        Case { name, make, call: Call::Alike { readings }, limit }
    }
}

const MEGABYTE: usize = 1_000_000;

const CASES: [Case; 32] = [
    Case::read("bare", packs::bare, 0.5),
    Case::read("typical 1 MB", || packs::typical(MEGABYTE), 0.4),
    Case::read("typical 20 MB", || packs::typical(20 * MEGABYTE), 0.4),
    Case::read("slot types", || packs::slots(20 * MEGABYTE), 0.25),
    Case::read("itab methods", || packs::itab_methods(20 * MEGABYTE), 0.25),
    Case::read("code", || packs::code(20 * MEGABYTE), 0.25),
    Case::read("heap slots", || packs::heap_slots(20 * MEGABYTE), 0.25),
    Case::read("packed locations", || packs::packed_locations(20 * MEGABYTE), 0.6),
    Case::read("ASCII text", || packs::text(20 * MEGABYTE, "a"), 1.0),
    Case::read("European names", || packs::european(20 * MEGABYTE), 0.7),
    Case::read("two-byte text", || packs::text(20 * MEGABYTE, "\u{e9}"), 0.7),
    Case::read("three-byte text", || packs::text(20 * MEGABYTE, "\u{2013}"), 0.7),
    Case::read("four-byte text", || packs::text(20 * MEGABYTE, "\u{1f3c6}"), 0.7),
    Case::read("short accented constants", || packs::accented_constants(300_000), 0.7),
    Case::read("accented structs", || packs::accented_structs(20_000, str::to_string), 0.7),
    Case::read("10,000 names", || packs::names(10_000), 0.5),
    Case::read("100,000 names", || packs::names(100_000), 0.5),
    Case::read("4,000,000 names", || packs::names(4_000_000), 2.5),
    Case::read("100,000 colliding names", || packs::colliding(100_000), 2.0),
    Case::read("100,000 long names", || packs::long_names(100_000), 2.0),
    Case::alike("alike: typical 1 MB", || packs::typical(MEGABYTE), 2, 1.5),
    Case::alike("alike: typical 20 MB", || packs::typical(20 * MEGABYTE), 2, 1.5),
    Case::alike("alike: accented fields", || packs::accented_table(Table::Fields, 100_000), 1, 3.0),
    Case::alike("alike: accented methods", || packs::accented_table(Table::InterfaceNames, 100_000), 1, 3.0),
    Case::alike("alike: composed fields", || packs::composed_names(100_000), 1, 3.0),
    Case::alike("alike: colliding", || packs::colliding_folded(100_000), 1, 3.0),
    Case::alike("alike: long names", || packs::long_folded_names(100_000), 1, 3.0),
    Case::alike("alike: long accented", || packs::long_accented_names(100_000), 1, 3.0),
    Case::alike("alike: accented structs", || packs::accented_structs(20_000, alike::folded), 1, 3.0),
    Case::alike("alike: small tables", || packs::small_tables(10_000), 1, 3.0),
    Case::alike("alike: 4,000,000 names", || packs::names(4_000_000), 1, 3.0),
    Case::alike("alike: 4,000,000 accented", || packs::short_accented_names(4_000_000), 1, 3.0),
];

fn case(name: &str) -> &'static Case {
    CASES.iter().find(|case| case.name == name).unwrap_or_else(|| panic!("no row is called {name}"))
}

/// The rows of these names, or all where none is given.
fn cases(names: &[&str]) -> Vec<&'static Case> {
    if names.is_empty() {
        CASES.iter().collect()
    } else {
        names.iter().map(|name| case(name)).collect()
    }
}

fn tape() -> Vec<u32> {
    // No more words than bytes; touched once, so that no page fault falls into a timing.
    let mut tape = vec![0; 134_217_728];
    tape.iter_mut().step_by(1024).for_each(|word| *word = 1);
    tape
}

/// The rows of readings, and those of searches for names that print alike.
fn by_call<'a>(cases: &[&'a Case]) -> (Vec<&'a Case>, Vec<(&'a Case, u32)>) {
    let (mut reads, mut searches) = (Vec::new(), Vec::new());
    for case in cases {
        match case.call {
            Call::Read => reads.push(*case),
            Call::Alike { readings } => searches.push((*case, readings)),
        }
    }
    (reads, searches)
}

/// A mark behind a row whose ratio is above its limit.
fn above(ratio: f64, limit: f64) -> &'static str {
    if ratio > limit {
        "  above"
    } else {
        ""
    }
}

fn table(seconds: f64, names: &[&str]) {
    let (reads, searches) = by_call(&cases(names));
    if !reads.is_empty() {
        reading_table(seconds, &reads);
    }
    if !searches.is_empty() {
        alike_table(seconds, &searches);
    }
}

fn reading_table(seconds: f64, cases: &[&Case]) {
    let mut tape = tape();
    println!("{:<24} {:>11} {:>12} {:>12} {:>6} {:>6}", "reading", "bytes", "ours, us", "Rust, us", "ratio", "limit");
    for case in cases {
        let pack = (case.make)();
        let (fastest, fastest_rust) = best(&pack, &mut tape, seconds);
        let ratio = fastest / fastest_rust;
        println!(
            "{:<24} {:>11} {:>12.2} {:>12.2} {:>6.2} {:>6}{}",
            case.name,
            pack.len(),
            fastest * 1e6,
            fastest_rust * 1e6,
            ratio,
            case.limit,
            above(ratio, case.limit)
        );
    }
}

fn alike_table(seconds: f64, cases: &[(&Case, u32)]) {
    println!(
        "{:<26} {:>11} {:>12} {:>12} {:>6} {:>9} {:>12} {:>6} {:>6}",
        "search", "bytes", "ours, us", "Rust, us", "ratio", "readings", "us", "ratio", "limit"
    );
    for (case, readings) in cases {
        let pack = (case.make)();
        let fastest = best_of(&pack, seconds / 3.0, alike::ours);
        let fastest_rust = best_of_rust(&pack, seconds / 3.0, alike::rust);
        let of_readings = best_of(&pack, seconds / 3.0, counting) * f64::from(*readings);
        let ratio = fastest / of_readings;
        println!(
            "{:<26} {:>11} {:>12.2} {:>12.2} {:>6.2} {:>9} {:>12.2} {:>6.2} {:>6}{}",
            case.name,
            pack.len(),
            fastest * 1e6,
            fastest_rust * 1e6,
            fastest / fastest_rust,
            readings,
            of_readings * 1e6,
            ratio,
            case.limit,
            above(ratio, case.limit)
        );
    }
}

fn plotted(file: &str) {
    let mut tape = tape();
    let sizes = (0..=9).map(|k| 100_000 << k);
    let points: Vec<(f64, f64, f64)> = sizes
        .map(|size| {
            let pack = packs::typical(size);
            let (fastest, fastest_rust) = best(&pack, &mut tape, 1.0);
            (pack.len() as f64, fastest * 1e3, fastest_rust * 1e3)
        })
        .collect();
    std::fs::write(file, plot::svg(&points)).unwrap_or_else(|error| panic!("{file}: {error}"));
}

fn once(name: &str, who: &str) {
    let case = case(name);
    let pack = (case.make)();
    match (case.call, who) {
        (_, "counting") => println!("{} words", counting(&pack)),
        (Call::Read, "ours") => {
            let mut tape = vec![0; pack.len()];
            println!("{} words", ours(&pack, &mut tape));
        }
        (Call::Alike { .. }, "ours") => println!("{} pairs", alike::ours(&pack)),
        (Call::Read, _) => println!("{} functions", rust(&pack).functions.len()),
        (Call::Alike { .. }, _) => println!("{} functions", alike::rust(&pack).functions.len()),
    }
}

fn ours_alone(name: &str, seconds: f64) -> f64 {
    let case = case(name);
    let pack = (case.make)();
    match case.call {
        Call::Read => best_of_ours(&pack, &mut tape(), seconds),
        Call::Alike { .. } => best_of(&pack, seconds, alike::ours),
    }
}

fn main() {
    let args: Vec<String> = std::env::args().skip(1).collect();
    let seconds = |text: &str| text.parse().expect("a number of seconds");
    match args.iter().map(String::as_str).collect::<Vec<_>>()[..] {
        ["--count", ref names @ ..] => programs::count(&cases(names)),
        ["compare", old, ref names @ ..] => programs::compare(old, &cases(names)),
        ["plot", file] => plotted(file),
        ["names"] => CASES.iter().for_each(|case| println!("{}", case.name)),
        ["stack"] => stack::every_call(),
        ["once", name, who] => once(name, who),
        ["ours", time, name] => println!("{}", ours_alone(name, seconds(time)) * 1e6),
        [time, ref names @ ..] => table(seconds(time), names),
        [] => table(2.0, &[]),
    }
}
