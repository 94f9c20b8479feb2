//! That a call needs no more stack than every caller has: each call of the archive on a thread with 256 KB, on tables of so many names that the
//! search for repeats takes its largest filter, and with accents, composed in every other name, so that the search for names that print alike
//! does. A call that needed more would end the program.

use crate::packs::{distinct, in_table, one_class, one_folded_class, one_folded_hash, one_hash, short_accented, Table};
use std::thread;
use vob::raw::{vob_alike_names, vob_charge_size, vob_find_artifact, vob_inline_sources, vob_read, Answer, SECTIONS};
use vob::STARTING_BUDGET;

const STACK: usize = 256 * 1024;

/// The sections that hold tables of names start here in a pack whose earlier sections are empty.
const STRUCTS: u64 = 11;

/// The whole pack; then each section from where the table's section begins.
fn answers(pack: &[u8], table_at: u64, tape: &mut [u32]) -> Vec<Answer> {
    let (bytes, length) = (pack.as_ptr(), pack.len());
    let (words, room) = (tape.as_mut_ptr(), tape.len());
    let mut answers = Vec::with_capacity(SECTIONS.len() + 4);
    // SAFETY: both parts live through the calls, which write within the tape.
    unsafe {
        answers.push(vob_read(bytes, length, STARTING_BUDGET, words, room));
        answers.push(vob_find_artifact(bytes, length, bytes, 0));
        answers.push(vob_alike_names(bytes, length));
        answers.extend(SECTIONS.map(|section| section(bytes, length, table_at, STARTING_BUDGET, words, room)));
        answers.push(vob_inline_sources(bytes, length, table_at, STARTING_BUDGET, 1, words, room));
    }
    assert_ne!(vob_charge_size(1), 0);
    answers
}

fn run(table: Table, kind: &str, pack: Vec<u8>) {
    let place = STRUCTS
        + 4 * match table {
            Table::Fields => 0,
            Table::InterfaceNames => 1,
            Table::NamedMethods => 2,
            Table::RuntimeFields | Table::RuntimeMethods => 4,
        };
    let size = pack.len();
    let mut tape = vec![0; size];
    let answers = thread::Builder::new()
        .stack_size(STACK)
        .spawn(move || answers(&pack, place, &mut tape))
        .expect("a thread")
        .join()
        .expect("the thread ends");
    assert_eq!(answers[0].number, 0, "{table:?}, {kind}: refused with {:?}", answers[0].values);
    assert_eq!(answers[1].number, 27, "{table:?}, {kind}: an artifact found");
    assert_eq!((answers[2].number, answers[2].values), (0, [0; 5]), "{table:?}, {kind}: names alike");
    let taken = answers[3..].iter().filter(|answer| answer.number == 0).count();
    assert_ne!(taken, 0, "{table:?}, {kind}: no section is taken");
    println!("{size:>9} bytes, {table:?}, {kind}: {} calls end", answers.len() + 1);
}

pub fn every_call() {
    let tables =
        [Table::Fields, Table::InterfaceNames, Table::NamedMethods, Table::RuntimeFields, Table::RuntimeMethods];
    for n in [20_000, 200_000] {
        for table in tables {
            run(table, &format!("{n} names"), in_table(table, distinct(n)));
            run(table, &format!("{n} names of one hash"), in_table(table, one_hash(n)));
            run(table, &format!("{n} accented names"), in_table(table, short_accented(n)));
            run(table, &format!("{n} accented names of one hash"), in_table(table, one_folded_hash(n)));
        }
    }
    for table in [Table::Fields, Table::InterfaceNames] {
        run(table, "4000000 names", in_table(table, distinct(4_000_000)));
        run(table, "4000000 names of one class", in_table(table, one_class(4_000_000)));
        run(table, "4000000 accented names", in_table(table, short_accented(4_000_000)));
        run(table, "4000000 accented names of one class", in_table(table, one_folded_class(4_000_000)));
    }
}
