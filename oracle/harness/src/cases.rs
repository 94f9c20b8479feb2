//! Which answers are stored, and which more are written for a comparison that is too large to keep.

use crate::accents;
use crate::answer::{self, opening_part, Answer, NO_END, RUST_BUDGET};
use crate::corpus;
use crate::packs::{self, Chance, Pack};
use crate::record::{Book, Edit, SectionCall, LONG_TAPE, PACKCHECK_TAPE};
use crate::texts;
use std::collections::{BTreeMap, HashSet};

const NO_EDIT: Edit = Edit { at: 0, len: 0, bytes: [0; 4] };

pub fn bare() -> Vec<u8> {
    let mut pack = opening_part(17, 0);
    pack.resize(112, 0);
    pack
}

/// The bare pack with `filled` in place of a section's `width` bytes.
pub fn with_section(number: usize, width: usize, filled: &[u8]) -> Vec<u8> {
    let opening = opening_part(number, 0);
    let rest = 112 - opening.len() - width;
    [&opening[..], filled, &vec![0; rest]].concat()
}

pub fn text(bytes: &[u8]) -> Vec<u8> {
    [&(bytes.len() as u32).to_le_bytes()[..], bytes].concat()
}

/// The marked cases of document 01, each in a pack.
pub fn marked() -> Vec<Vec<u8>> {
    let location = |packed: &[u8]| with_section(16, 4, &[&[1, 0, 0, 0, 1, 0, 0, 0][..], packed, &[0; 4]].concat());
    let mut out: Vec<Vec<u8>> =
        [&[0x00][..], &[0x80, 0x01], &[0xFF, 0xFF, 0xFF, 0xFF, 0x0F], &[0xFF, 0xFF, 0xFF, 0xFF, 0x10], &[0x80, 0x00]]
            .map(location)
            .into();
    // 80 and nothing after it; and the other cuts of a packed number.
    for packed in [&[0x80][..], &[0xFF, 0xFF], &[0xFF, 0xFF, 0xFF], &[0xFF, 0xFF, 0xFF, 0xFF], &[0x01, 0x80]] {
        let mut pack = location(packed);
        pack.truncate(108 + packed.len());
        out.push(pack);
    }
    // Shortest form at each length, and a fifth byte with its high bit.
    for packed in [
        &[0xFF, 0x00][..],
        &[0x80, 0x80, 0x00],
        &[0x80, 0x80, 0x80, 0x00],
        &[0x80, 0x80, 0x80, 0x80, 0x00],
        &[0x80, 0x80, 0x80, 0x80, 0x80],
        &[0xFF, 0xFF, 0xFF, 0xFF, 0x8F],
        &[0x80, 0x80, 0x80, 0x80, 0x01],
        &[0xFF, 0xFF, 0xFF, 0x7F],
        &[0x7F],
    ] {
        out.push(location(packed));
    }
    for bytes in [
        &b"\xC3\xA9"[..],
        b"\x65\xCC\x81",
        b"\xF4\x8F\xBF\xBF",
        b"\xC0\x80",
        b"\xED\xA0\x80",
        b"\xF4\x90\x80\x80",
        // Further edges of the well-formed table.
        b"\x80",
        b"\xBF",
        b"\xC1\xBF",
        b"\xC2",
        b"\xC2\x7F",
        b"\xC2\x80",
        b"\xDF\xBF",
        b"\xDF\xC0",
        b"\xE0\x9F\xBF",
        b"\xE0\xA0\x80",
        b"\xE0\xA0",
        b"\xED\x9F\xBF",
        b"\xEE\x80\x80",
        b"\xEF\xBF\xBF",
        b"\xEF\xBF\xC0",
        b"\xF0\x8F\xBF\xBF",
        b"\xF0\x90\x80\x80",
        b"\xF0\x90\x80",
        b"\xF0\x90\x80\x7F",
        b"\xF1\x80\x80\x80",
        b"\xF1\x7F\x80\x80",
        b"\xF3\xBF\xBF\xBF",
        b"\xF3\xBF\xBF\xC0",
        b"\xF4\x8F\xBF\xC0",
        b"\xF5\x80\x80\x80",
        b"\xFF",
        b"a\xC3\xA9b",
        b"a\xC3b",
        b"abc\xE2\x82",
    ] {
        out.push(with_section(1, 4, &text(bytes)));
    }
    // A named type whose meta or rttid word is the marked one; an interior kind and id at their ends.
    for (meta, rttid) in [
        (0xFFFFFF19, 0),
        (0xFFFFFF18, 0),
        (0xFFFFFE18, 0xFFFFFE18),
        (0x19, 0),
        (0, 0xFFFFFF19),
        (0, 0xFFFFFF18),
        (0, 0xFF),
        (0xFFFFFF00u32, 0),
    ] {
        let fields = [&text(b"")[..], &meta.to_le_bytes(), &u32::to_le_bytes(rttid), &[0; 4]].concat();
        out.push(with_section(4, 4, &[&[1, 0, 0, 0][..], &fields].concat()));
    }
    // Metadata tags beside those that there are, in a function with one instruction.
    let opening = opening_part(11, 1);
    let (before, after) = opening.split_at(opening.len() - 20);
    for tag in [6, 7, 8, 19] {
        let lists = [&[1, 0, 0, 0][..], &[0; 8], &[1, 0, 0, 0, tag], &after[8..]].concat();
        out.push([before, &lists, &[0; 32]].concat());
    }
    out
}

/// Repeats, "_" and accents in each table; the writer sorts named methods and can't repeat them, so bytes are changed.
pub fn repeats() -> Vec<Vec<u8>> {
    let accents = ["\u{e9}", "e\u{301}"];
    let mut out = vec![
        packs::with_struct_fields(&["a", "b", "a"]),
        packs::with_struct_fields(&["a", "b", "b", "a"]),
        packs::with_struct_fields(&["_", "_", "_"]),
        packs::with_struct_fields(&["_", "a", "_", "a", "_"]),
        packs::with_struct_fields(&["", "", "a"]),
        packs::with_struct_fields(&["__", "__"]),
        packs::with_struct_fields(&accents),
        packs::with_struct_fields(&["\u{e9}", "e\u{301}", "\u{e9}"]),
        packs::with_struct_fields(&["a", "ab", "abc", "ab"]),
        packs::with_interface(&["a", "b", "a"], &[]),
        packs::with_interface(&["a"], &["a"]),
        packs::with_interface(&["a"], &["a", "b", "b"]),
        packs::with_interface(&["a", "a"], &["b", "b"]),
        packs::with_interface(&["_", "_"], &[]),
        packs::with_interface(&[], &["_", "_"]),
        packs::with_interface(&["", ""], &[]),
        packs::with_interface(&accents, &accents),
        packs::with_runtime_struct(&[("p", "a"), ("q", "a"), ("p", "b"), ("q", "a")]),
        packs::with_runtime_struct(&[("p", "_"), ("p", "_")]),
        packs::with_runtime_struct(&[("", "a"), ("", "a")]),
        packs::with_runtime_struct(&[("", ""), ("", "")]),
        packs::with_runtime_struct(&[("a", "b:c"), ("a:b", "c")]),
        packs::with_runtime_struct(&[("a", "bc"), ("ab", "c")]),
        packs::with_runtime_struct(&[("\u{e9}", "x"), ("e\u{301}", "x"), ("x", "\u{e9}"), ("x", "e\u{301}")]),
    ];
    for (written, stands) in [
        (["ax", "bx", "cx"], ["bx", "cx", "ax"]),
        (["ax", "bx", "cx"], ["bx", "ax", "bx"]),
        (["ax", "bx", "cx"], ["ax", "ax", "cx"]),
        (["_a", "_b", "_c"], ["_a", "_b", "_a"]),
    ] {
        let pack = packs::with_named_methods(&written);
        let mut changed = pack.clone();
        for (old, new) in written.iter().zip(stands) {
            let at = pack.windows(2).position(|w| w == old.as_bytes()).expect("the name was written");
            changed[at..at + 2].copy_from_slice(new.as_bytes());
        }
        out.push(changed);
    }
    // "_" twice among named methods: not exempt there.
    let pack = packs::with_named_methods(&["_", "a"]);
    let at = pack.iter().position(|b| *b == b'a').expect("the name was written");
    out.push(Edit::byte(at, b'_').apply(&pack));
    out.push(packs::with_named_methods(&accents));
    out
}

/// Each table with 40 names, new and with a repeat: of so many the reader searches by a filter. Once with names of one
/// hash, for which it takes another key.
fn wide_tables() -> Vec<Vec<u8>> {
    let mut out = Vec::new();
    for names in [(10..50).map(|i| i.to_string()).collect(), one_hash(40)] {
        let names: Vec<&str> = names.iter().map(String::as_str).collect();
        let fields: Vec<(&str, &str)> = names.iter().map(|name| ("p", *name)).collect();
        for pack in [
            packs::with_struct_fields(&names),
            packs::with_interface(&names, &[]),
            packs::with_interface(&[], &names),
            packs::with_named_methods(&names),
            packs::with_runtime_struct(&fields),
            packs::with_runtime_interface(&names),
        ] {
            let [first, last] = [names[0], names[39]].map(str::as_bytes);
            let at = pack.windows(last.len()).position(|bytes| bytes == last).expect("the name was written");
            let mut repeated = pack.clone();
            repeated[at..at + last.len()].copy_from_slice(first);
            out.extend([pack, repeated]);
        }
    }
    out
}

/// Names of twelve characters that all have the same hash under the first key of the reader's filter (crate `names`): the
/// second and the third word of each make up for the first.
fn one_hash(count: usize) -> Vec<String> {
    const KEY: u64 = 2_654_435_761;
    const HALF: u64 = 1 << 32;
    let mixed = |hash: u64, word: u64| ((hash ^ word) % HALF) * KEY + (hash ^ word) / HALF;
    let (upper, last) = (1 << 30, 1 << 30);
    let start = mixed(0, 12);
    let name = |i: u32| {
        let first = u32::from_le_bytes([0, 5, 10, 15].map(|shift| b'@' + (i >> shift) as u8 % 32));
        let hash = mixed(start, first as u64);
        // The hash after the second word has this upper half, and that after the third word is last * KEY + upper.
        let second = ((upper * HALF - hash / HALF).div_ceil(KEY) ^ hash) % HALF;
        let third = (last ^ mixed(hash, second)) % HALF;
        let words = [first, second as u32, third as u32].map(u32::to_le_bytes).concat();
        String::from_utf8(words).ok().filter(|name| name.chars().all(|c| c.is_ascii_graphic()))
    };
    (0..1 << 20).filter_map(name).take(count).collect()
}

/// Limits of artifacts and inline sources, exact and one past them.
pub fn limits() -> Vec<Vec<u8>> {
    let none: &[u8] = &[];
    let many = vec![("", 0, none); 64];
    let name = "n".repeat(128);
    let mut out = vec![packs::with_artifacts(&many), packs::with_artifacts(&[(&name, 1, &[7])])];
    for count in [65, 64, 0xFFFFFFFF] {
        // Nothing is left: 64 artifacts are charged and then missing.
        let mut pack = with_section(14, 4, &u32::to_le_bytes(count));
        out.push(pack.clone());
        pack.truncate(96);
        out.push(pack);
    }
    let artifact = |name_length: u32, bytes: &[u8], payload: Option<u32>| {
        let mut filled = [&1u32.to_le_bytes()[..], &name_length.to_le_bytes(), bytes].concat();
        if let Some(length) = payload {
            filled.extend(0u32.to_le_bytes());
            filled.extend(length.to_le_bytes());
        }
        with_section(14, 4, &filled)
    };
    out.push(artifact(129, &[b'n'; 129], Some(0)));
    out.push(artifact(128, &[b'n'; 20], None));
    out.push(artifact(0xFFFFFFFF, b"", None));
    for length in [16_777_216, 16_777_217, 0xFFFFFFFF, 16, 17, 15] {
        out.push(artifact(1, b"n", Some(length)));
    }
    let inline = |words: &[u32]| {
        [&opening_part(17, 2)[..], &words.iter().flat_map(|w| w.to_le_bytes()).collect::<Vec<_>>()].concat()
    };
    for words in [
        &[131_072][..],
        &[131_073],
        &[0xFFFFFFFF],
        &[0, 2],
        &[0, 3],
        &[0, 131_072],
        &[0, 0xFFFFFFFF],
        &[0, 2, 7, 0, 8, 0],
        &[0, 1, 7, 131_072],
        &[0, 1, 7, 131_073],
        &[0, 2, 7, 1, 1, 1, 8, 131_071],
        &[0, 2, 7, 1, 1, 1, 8, 131_072],
        &[0, 2, 7, 2, 1, 1, 2, 2, 8, 131_070, 0],
        &[0, 2, 7, 2, 1, 1, 2, 2, 8, 131_071, 0],
        &[1, 7, 7],
    ] {
        out.push(inline(words));
    }
    out
}

/// Packs that end early or late, and heads that are not a pack's.
pub fn ends() -> Vec<Vec<u8>> {
    let mut out: Vec<Vec<u8>> = (0..=112).map(|n| bare()[..n].to_vec()).collect();
    for extra in [1, 2, 300] {
        out.push([bare(), vec![0; extra]].concat());
    }
    out.push([packs::full(), vec![7]].concat());
    for head in [
        "V",
        "X",
        "VX",
        "XX",
        "VO",
        "XYZ",
        "VOA",
        "vob",
        "OVB",
        "VOBX",
        "VOB\u{18}",
        "VOB\u{19}\0\0",
        "VOB\u{19}\0\0\0",
        "VOB\u{17}\0\0\0",
        "VOB\0\0\0\0",
        "VOB\u{18}\u{1}\0\0",
        "VOB\u{18}\0\0\u{1}",
    ] {
        out.push(head.as_bytes().to_vec());
    }
    for version in [23, 25, 0x01000018, 0xFFFFFFFF] {
        out.push(Edit::word(3, version).apply(&bare()));
    }
    for count in [1, 0xFFFFFFFF, 32] {
        out.push(Edit::word(80, count).apply(&bare()));
    }
    out.push(packs::with_extern());
    // The extern count alone, with nothing behind it, and cut.
    for (count, length) in [(1, 84), (5, 84), (0, 84), (1, 83)] {
        out.push(Edit::word(80, count).apply(&bare())[..length].to_vec());
    }
    out
}

/// Packs that claim externs: counts around the bytes left, with nothing and with charges before them.
pub fn externs() -> Vec<Vec<u8>> {
    let claim = |opening: &[u8], count: u32, rest: usize| [opening, &count.to_le_bytes(), &vec![0; rest]].concat();
    let bare = opening_part(11, 0);
    let mut out: Vec<Vec<u8>> = [0, 1, 31].into_iter().map(|rest| claim(&bare, 1, rest)).collect();
    for rest in [0, 1, 2, 28, 31, 300] {
        let left = rest as u32;
        out.extend([left.saturating_sub(1), left, left + 1].map(|count| claim(&bare, count, rest)));
    }
    for count in [0x100, 0x1_0000, 0x100_0000, 0x7FFF_FFFF, 0x8000_0000, u32::MAX] {
        out.extend([0, 28].map(|rest| claim(&bare, count, rest)));
    }
    // A name of one byte, a function, and all sections before them.
    let full = packs::full();
    let start = answer::read(&full, RUST_BUDGET, LONG_TAPE).sections[10].place;
    let named = [&bare[..7], &text(b"A"), &bare[11..]].concat();
    for opening in [&named[..], &opening_part(11, 1), &full[..start]] {
        for (count, rest) in [(1, 0), (1, 1), (27, 28), (28, 28), (29, 28), (u32::MAX, 28)] {
            out.push(claim(opening, count, rest));
        }
    }
    out
}

/// Where the extern section of such a pack starts, what is charged before it, and what its own charge is or would be.
fn extern_claim(pack: &[u8]) -> (u64, u64, u64) {
    let reading = answer::read(pack, NO_END as u64, LONG_TAPE);
    let at = reading.sections[10];
    let count = u32::from_le_bytes(pack[at.place..at.place + 4].try_into().expect("four bytes"));
    let entry = std::mem::size_of::<measured::bytecode::ExternDef>() as u64;
    (at.place as u64, NO_END as u64 - at.left as u64, count as u64 * entry)
}

/// Packs that lost bytes in their middle and claim externs since: for each pack and each kind of answer the first and the
/// last.
fn lost_bytes() -> Vec<Vec<u8>> {
    let mut out = Vec::new();
    for pack in [packs::full()].into_iter().chain(random_packs(24, 4)) {
        let mut kinds: BTreeMap<u64, Vec<Vec<u8>>> = BTreeMap::new();
        let externs = answer::read(&pack, RUST_BUDGET, LONG_TAPE).sections[10].place;
        for at in 7..externs {
            for lost in 1..=8 {
                let rest = [&pack[..at], &pack[at + lost..]].concat();
                let reading = answer::read(&rest, RUST_BUDGET, LONG_TAPE);
                if reading.claims_externs(&rest) {
                    kinds.entry(reading.answer.number()).or_default().push(rest);
                }
            }
        }
        for mut found in kinds.into_values() {
            found.dedup();
            let last = found.len() - 1;
            out.extend(found.into_iter().enumerate().filter(|(i, _)| *i == 0 || *i == last).map(|(_, pack)| pack));
        }
    }
    out
}

/// Values worth trying at one byte: ends of every range that a question has, neighbours and single bits.
pub fn values(old: u8) -> Vec<u8> {
    let mut out = vec![0, 1, 2, 3, 4, 5, 6, 8, 9, 12, 13, 18, 19, 24, 25, 0x2F, 0x5F, 0x7F, 0x80, 0xBF, 0xC0, 0xFF];
    out.extend([old.wrapping_add(1), old.wrapping_sub(1), old ^ 1, old ^ 2, old ^ 0x80]);
    out.sort_unstable();
    out.dedup();
    out.retain(|v| *v != old);
    out
}

#[derive(Clone, Copy)]
struct Change {
    edit: Edit,
    answer: Answer,
    /// The answer's number; 25 for each refusal of an extern count other than 0, whichever question it is.
    kind: u64,
}

/// For each byte of a range, each kind of refusal that a change there can give: its first and last change.
fn byte_changes(pack: &[u8], range: std::ops::Range<usize>) -> Vec<Change> {
    let mut out = Vec::new();
    for at in range {
        let mut kinds: BTreeMap<(u64, u64), Vec<Change>> = BTreeMap::new();
        // A packed word with an id or a kind that is none, or both, where a word fits.
        let words =
            [0xFFFFFF19, 0xFFFFFF18].map(|word| Edit::word(at, word)).into_iter().filter(|_| at + 4 <= pack.len());
        for edit in values(pack[at]).into_iter().map(|value| Edit::byte(at, value)).chain(words) {
            let changed = edit.apply(pack);
            let reading = answer::read(&changed, RUST_BUDGET, PACKCHECK_TAPE);
            let answer = reading.answer;
            let (kind, c) = match answer {
                Answer::Refused { .. } if reading.claims_externs(&changed) => (25, 0),
                Answer::Taken { .. } => (0, 0),
                // A start as c tells no kinds apart.
                Answer::Refused { number: 19, .. } => (19, 0),
                Answer::Refused { number, c, .. } => (number, c),
            };
            kinds.entry((kind, c)).or_default().push(Change { edit, answer, kind });
        }
        for ((number, _), found) in &kinds {
            out.push(found[0]);
            // Where the number has a value behind it, both ends count.
            if found.len() > 1 && !matches!(number, 0 | 2) {
                out.push(found[found.len() - 1]);
            }
        }
    }
    out
}

/// Of these changes one for each kind of refusal at each place.
fn refused_changes(pack: &[u8], range: std::ops::Range<usize>) -> Vec<Change> {
    let mut kinds = HashSet::new();
    let mut changes = byte_changes(pack, range);
    changes.retain(|Change { edit, answer, kind: number }| {
        let Answer::Refused { c, d2, place, .. } = *answer else { return false };
        let kind = match number {
            // A start as c tells no kinds apart, and of externs no c.
            19 | 25 => 0,
            // The kind or the id of a transfer word; too long a packed number or not the shortest.
            20 => c * 2 + (d2 >> 8 == 0xFFFFFF) as u64,
            21 => (edit.apply(pack)[place as usize - 1] == 0) as u64,
            _ => c,
        };
        kinds.insert((*number, kind, place))
    });
    changes
}

/// At each count and each length word of a range: what is left there, one more, one more and one less than it was.
/// Each with the sum of the charges that come before the word's own.
fn count_changes(pack: &[u8], range: std::ops::Range<usize>) -> Vec<(Edit, u64)> {
    let reading = answer::read(pack, NO_END as u64, LONG_TAPE);
    let mut out = Vec::new();
    let mut before = 0;
    for charge in &reading.charges {
        let at = match answer::charge_context(charge) {
            1 | 9 | 10 => charge.place - charge.amount - 4,
            2 | 6 | 8 => charge.place - 4,
            _ => usize::MAX,
        };
        if range.contains(&at) {
            let old = u32::from_le_bytes(pack[at..at + 4].try_into().expect("four bytes"));
            let left = (pack.len() - at - 4) as u32;
            let mut values =
                vec![left, left + 1, left / 14, left / 14 + 1, old.wrapping_add(1), old.wrapping_sub(1), u32::MAX];
            values.sort_unstable();
            values.dedup();
            values.retain(|v| *v != old);
            out.extend(values.into_iter().map(|v| (Edit::word(at, v), before)));
        }
        before += charge.amount as u64;
    }
    out
}

/// The bytes of the section that a small pack fills.
fn filled(pack: &Pack) -> std::ops::Range<usize> {
    let sections = answer::read(&pack.bytes, RUST_BUDGET, LONG_TAPE).sections;
    let start = sections[pack.section - 1].place;
    start..sections.get(pack.section).map_or(pack.bytes.len(), |next| next.place)
}

fn random_packs(count: u64, most: u64) -> Vec<Vec<u8>> {
    (0..count).map(|seed| packs::bytes_of(&Chance(seed).module(most))).collect()
}

/// A copy with a few bytes flipped, cut out, put in or repeated.
fn damaged(pack: &[u8], chance: &mut Chance) -> Vec<u8> {
    let mut out = pack.to_vec();
    for _ in 0..1 + chance.below(3) {
        let at = chance.below(out.len().max(1) as u64) as usize;
        match chance.below(5) {
            0 if !out.is_empty() => out[at] ^= 1 << chance.below(8),
            1 if !out.is_empty() => out[at] = chance.next() as u8,
            2 if !out.is_empty() => {
                out.remove(at);
            }
            3 => out.insert(at, chance.below(26) as u8),
            _ => out.truncate(at),
        }
    }
    out
}

fn packcheck() -> Book {
    let mut book = Book::default();
    let mut seen = HashSet::new();
    let mut add = |book: &mut Book, pack: &[u8]| {
        if seen.insert(pack.to_vec()) {
            book.packcheck(pack);
        }
    };
    for pack in ends().iter().chain(&marked()).chain(&repeats()).chain(&wide_tables()).chain(&limits()) {
        add(&mut book, pack);
    }
    for pack in packs::small() {
        add(&mut book, &pack.bytes);
        // One change for each kind of refusal at each place in the pack, and one cut for each place.
        let range = filled(&pack);
        for change in refused_changes(&pack.bytes, range.clone()) {
            add(&mut book, &change.edit.apply(&pack.bytes));
        }
        let mut places = HashSet::new();
        for length in range {
            let cut = &pack.bytes[..length];
            let fields = answer::read(cut, RUST_BUDGET, PACKCHECK_TAPE).answer.fields();
            if places.insert(fields[5]) {
                add(&mut book, cut);
            }
        }
    }
    add(&mut book, &packs::full());
    for pack in random_packs(8, 3) {
        add(&mut book, &pack);
    }
    // The tape exactly full and one word short; the largest input.
    let words = 16_384 - (37 + 6);
    for count in [words, words + 1] {
        add(&mut book, &packs::with_slots(count));
    }
    add(&mut book, &with_section(1, 4, &text(&vec![b'x'; 65_536 - 112])));
    for pack in externs() {
        add(&mut book, &pack);
    }
    book
}

/// Tape contents, and the tape exactly long enough, one word short and empty.
fn tapes() -> Book {
    let mut book = Book::default();
    let all =
        packs::small().into_iter().map(|p| p.bytes).chain([packs::full()]).chain(random_packs(24, 4)).chain(repeats());
    for pack in all {
        let whole = |book: &mut Book, tape, words| book.whole(&pack, pack.len(), NO_EDIT, RUST_BUDGET, tape, words);
        if let Answer::Taken { words: needed, .. } = whole(&mut book, LONG_TAPE, true) {
            whole(&mut book, needed, false);
            whole(&mut book, needed - 1, false);
            whole(&mut book, 0, false);
        }
    }
    book
}

/// The sums of the opening parts of a charge list, and one below each; nothing and all.
fn thresholds(amounts: impl Iterator<Item = usize>) -> Vec<u64> {
    let mut budgets = vec![0, u64::MAX];
    let mut sum = 0;
    for amount in amounts {
        sum += amount as u64;
        budgets.extend([sum, sum.saturating_sub(1)]);
    }
    budgets.sort_unstable();
    budgets.dedup();
    budgets
}

/// Starting budgets at each threshold of a charge list, and where a budget question meets another one.
fn budgets() -> Book {
    let mut book = Book::default();
    let small = packs::small();
    let late = [packs::full(), vec![0]].concat();
    let with_extern = Edit::word(80, 1).apply(&bare());
    let all = small
        .iter()
        .map(|p| p.bytes.clone())
        .chain(random_packs(6, 3))
        .chain(repeats())
        .chain(limits())
        .chain([late.clone(), with_extern]);
    for pack in all {
        let charges = answer::read(&pack, NO_END as u64, LONG_TAPE).charges;
        for budget in thresholds(charges.iter().map(|charge| charge.amount)) {
            book.whole(&pack, pack.len(), NO_EDIT, budget, LONG_TAPE, false);
        }
    }
    for pack in &small {
        let range = filled(pack);
        // Bytes left come before the charge: with nothing to pay with, a count within them is 5 and one past them 2.
        for (edit, before) in count_changes(&pack.bytes, range.clone()) {
            book.whole(&pack.bytes, pack.bytes.len(), edit, before, LONG_TAPE, false);
        }
        // A text's charge comes before its UTF-8.
        let charges = answer::read(&pack.bytes, NO_END as u64, LONG_TAPE).charges;
        let mut before = 0;
        for charge in charges {
            let is_text = matches!(answer::charge_context(&charge), 1 | 9) && charge.amount > 0;
            if is_text && range.contains(&(charge.place - charge.amount)) {
                let edit = Edit::byte(charge.place - charge.amount, 0xFF);
                for budget in [before + charge.amount as u64, before + charge.amount as u64 - 1] {
                    book.whole(&pack.bytes, pack.bytes.len(), edit, budget, LONG_TAPE, false);
                }
            }
            before += charge.amount as u64;
        }
    }
    // A budget that leaves 24 or 26 as the last question, and one that doesn't.
    let charges = answer::read(&late, NO_END as u64, LONG_TAPE).charges;
    let sum: u64 = charges.iter().map(|charge| charge.amount as u64).sum();
    for budget in [sum, sum - 1] {
        book.whole(&late, late.len(), NO_EDIT, budget, 0, false);
        book.whole(&late, late.len() - 1, NO_EDIT, budget, 0, false);
    }
    // The extern list's charge: what comes before it paid and one short, the charge one short, exact and one more.
    for pack in externs() {
        let (_, before, charge) = extern_claim(&pack);
        let mut budgets = vec![before, before.saturating_sub(1), before + charge, before + charge + 1];
        budgets.extend((before + charge).checked_sub(1));
        budgets.sort_unstable();
        budgets.dedup();
        for budget in budgets {
            book.whole(&pack, pack.len(), NO_EDIT, budget, LONG_TAPE, false);
        }
        book.whole(&pack, pack.len(), NO_EDIT, u64::MAX, 0, false);
    }
    book
}

/// Damage to the full pack (each byte, each count, each cut) and to random packs.
fn damage() -> Book {
    let mut book = Book::default();
    let full = packs::full();
    let whole = |book: &mut Book, length, edit| book.whole(&full, length, edit, RUST_BUDGET, LONG_TAPE, false);
    for length in 0..=full.len() {
        whole(&mut book, length, NO_EDIT);
    }
    for change in byte_changes(&full, 0..full.len()) {
        whole(&mut book, full.len(), change.edit);
    }
    for (edit, _) in count_changes(&full, 0..full.len()) {
        whole(&mut book, full.len(), edit);
    }
    for pack in packs::small() {
        for (edit, _) in count_changes(&pack.bytes, filled(&pack)) {
            book.whole(&pack.bytes, pack.bytes.len(), edit, RUST_BUDGET, LONG_TAPE, false);
        }
    }
    let mut chance = Chance(0x0DD);
    for pack in random_packs(100, 2) {
        for _ in 0..3 {
            let pack = damaged(&pack, &mut chance);
            book.whole(&pack, pack.len(), NO_EDIT, RUST_BUDGET, LONG_TAPE, false);
        }
    }
    for pack in lost_bytes() {
        book.whole(&pack, pack.len(), NO_EDIT, RUST_BUDGET, LONG_TAPE, false);
    }
    book
}

/// Each section alone: where it stands in packs, with budgets and tapes around what it needs, and at other places.
fn sections() -> Book {
    let mut book = Book::default();
    let full = packs::full();
    let packs: Vec<Vec<u8>> = [bare(), full.clone()]
        .into_iter()
        .chain(packs::small().into_iter().map(|p| p.bytes))
        .chain(random_packs(6, 3))
        .chain(repeats())
        .collect();
    for (i, pack) in packs.iter().enumerate() {
        let reading = answer::read(pack, RUST_BUDGET, LONG_TAPE);
        let functions = reading
            .sections
            .get(9)
            .map_or(0, |at| u32::from_le_bytes(pack[at.place..at.place + 4].try_into().expect("four bytes")) as u64);
        for (number, at) in (1..).zip(&reading.sections) {
            // A small pack's bare sections say nothing new.
            let (start, bare_width) = (
                at.place,
                if number == 7 {
                    37
                } else if number == 17 {
                    8
                } else {
                    4
                },
            );
            let end = reading.sections.get(number).map_or(pack.len(), |next| next.place);
            if i > 1 && end - start == bare_width && pack[start..end].iter().all(|b| *b == 0) {
                continue;
            }
            let call = SectionCall { number, place: start as u64, budget: RUST_BUDGET, functions, tape: LONG_TAPE };
            let answer = book.section(pack, NO_EDIT, call, true);
            if let Answer::Taken { words, charged, .. } = answer {
                for (budget, tape) in [
                    (charged, words),
                    (charged, words - 1),
                    (charged.saturating_sub(1), words),
                    (charged / 2, 0),
                    (u64::MAX, 0),
                ] {
                    book.section(pack, NO_EDIT, SectionCall { budget, tape, ..call }, false);
                }
            }
            if i == 1 {
                let own = reading.charges.iter().filter(|charge| (start + 1..=end).contains(&charge.place));
                for budget in thresholds(own.map(|charge| charge.amount)) {
                    book.section(pack, NO_EDIT, SectionCall { budget, ..call }, false);
                }
            }
            if number == 17 {
                for functions in [0, functions.saturating_sub(1), functions + 1, 131_072, 131_073, u64::MAX] {
                    book.section(pack, NO_EDIT, SectionCall { functions, ..call }, false);
                }
            }
        }
    }
    // The changes that a small pack's own section refuses; those that only cut it short are in the other lists.
    for pack in packs::small() {
        let range = filled(&pack);
        let functions = if pack.section == 17 { 2 } else { 0 };
        let call = SectionCall {
            number: pack.section,
            place: range.start as u64,
            budget: RUST_BUDGET,
            functions,
            tape: LONG_TAPE,
        };
        for change in refused_changes(&pack.bytes, range) {
            if !matches!(change.kind, 2 | 24 | 25) {
                book.section(&pack.bytes, change.edit, call, false);
            }
        }
    }
    for pack in [bare(), full.clone()] {
        for number in 1..=17 {
            for place in [0, 3, 7, pack.len() as u64 - 1, pack.len() as u64, pack.len() as u64 + 1, u64::MAX] {
                for budget in [RUST_BUDGET, 100] {
                    book.section(
                        &pack,
                        NO_EDIT,
                        SectionCall { number, place, budget, functions: 3, tape: LONG_TAPE },
                        true,
                    );
                }
            }
        }
    }
    let mut chance = Chance(0x5EC);
    for _ in 0..1500 {
        let number = 1 + chance.below(17) as usize;
        let place = chance.below(full.len() as u64);
        let budget = if chance.below(2) == 0 { RUST_BUDGET } else { chance.below(1000) };
        book.section(
            &full,
            NO_EDIT,
            SectionCall { number, place, budget, functions: chance.below(4), tape: chance.below(64) },
            false,
        );
    }
    // Extern counts around the bytes left, with budgets around their charge, with and without a tape.
    for pack in externs() {
        let (place, _, charge) = extern_claim(&pack);
        let mut budgets = vec![0, charge, charge + 1, RUST_BUDGET, u64::MAX];
        budgets.extend(charge.checked_sub(1));
        budgets.sort_unstable();
        budgets.dedup();
        for budget in budgets {
            let call = SectionCall { number: 11, place, budget, functions: 0, tape: LONG_TAPE };
            book.section(&pack, NO_EDIT, call, false);
        }
        let call = SectionCall { number: 11, place, budget: charge, functions: 0, tape: 0 };
        book.section(&pack, NO_EDIT, call, false);
    }
    // An extern section that is all of the pack.
    for (count, rest) in [(0, 0), (1, 0), (1, 1), (2, 1), (2, 2), (2, 3), (u32::MAX, 3)] {
        let pack = [&u32::to_le_bytes(count)[..], &vec![0; rest]].concat();
        for budget in [143, 144, 145, 287, 288, 289] {
            let call = SectionCall { number: 11, place: 0, budget, functions: 0, tape: LONG_TAPE };
            book.section(&pack, NO_EDIT, call, false);
        }
    }
    book
}

fn lookups() -> Book {
    let mut book = Book::default();
    let small = packs::small();
    let artifacts = &small.iter().find(|p| p.label == "artifacts").expect("it is in the list").bytes;
    let names: Vec<&[u8]> = ["fold", "", "e\u{301}", "\u{e9}", "a", "fol", "folds", "Fold", "zzz", "b"]
        .into_iter()
        .map(str::as_bytes)
        .collect();
    // A name that isn't text can't match; 128 bytes are the longest that can.
    let long = "n".repeat(128);
    let wide = "n".repeat(129);
    for name in names.iter().copied().chain([&b"\xFF"[..], wide.as_bytes(), b"fold\0"]) {
        book.lookup(artifacts, name);
    }
    let unsorted = packs::with_artifacts(&[
        ("b", 1, b"bb"),
        ("a", 2, b"aaa"),
        ("b", 3, b"later"),
        (&long, 4, b"long"),
        ("c", 5, b""),
    ]);
    for name in ["a", "b", "c", &long, &long[..127], "d"] {
        book.lookup(&unsorted, name.as_bytes());
    }
    book.lookup(&packs::full(), b"rules");
    book.lookup(&packs::full(), b"fold");
    book.lookup(&packs::full(), b"none");
    book.lookup(&bare(), b"");
    for pack in ends().into_iter().chain(limits()) {
        book.lookup(&pack, b"fold");
    }
    // The artifact stands in a pack that is refused after it.
    for cut in [1, 5, 9] {
        let pack = &artifacts[..artifacts.len() - cut];
        book.lookup(pack, b"fold");
    }
    for pack in random_packs(40, 4) {
        for name in ["", "a", "_", "b", "\u{e9}"] {
            book.lookup(&pack, name.as_bytes());
        }
    }
    // The artifact stands in a pack that claims externs before it; and packs that end there.
    let at = answer::read(artifacts, RUST_BUDGET, LONG_TAPE).sections[10].place;
    let left = (artifacts.len() - at - 4) as u32;
    for count in [1, left - 1, left, left + 1, u32::MAX] {
        book.lookup(&Edit::word(at, count).apply(artifacts), b"fold");
    }
    for pack in externs() {
        book.lookup(&pack, b"fold");
    }
    book
}

/// The packs that libFuzzer kept, with the calls that it made on them.
fn kept() -> Book {
    let mut book = Book::default();
    for pack in corpus::packs() {
        let reading = answer::read(&pack, NO_END as u64, u64::MAX);
        for call in corpus::calls(&pack, &reading) {
            match call {
                corpus::Call::Whole { budget, tape } => {
                    book.whole(&pack, pack.len(), NO_EDIT, budget, tape, false);
                }
                corpus::Call::Section(call) => {
                    book.section(&pack, NO_EDIT, call, false);
                }
                corpus::Call::Lookup(name) => book.lookup(&pack, &name),
            }
        }
    }
    book
}

/// The stored lists, by file name.
pub fn stored() -> Vec<(&'static str, Book)> {
    vec![
        ("packcheck.bin", packcheck()),
        ("tapes.bin", tapes()),
        ("budgets.bin", budgets()),
        ("damage.bin", damage()),
        ("sections.bin", sections()),
        ("lookups.bin", lookups()),
        ("corpus.bin", kept()),
        ("texts.bin", texts::book()),
        ("alike.bin", accents::book()),
    ]
}

/// Larger lists that are compared but not kept: all inputs of at most two bytes, all cuts of ten packs, random damage,
/// and one byte changed anywhere in each small pack.
pub fn scale() -> Vec<(&'static str, Book)> {
    let mut short = Book::default();
    let mut inputs = vec![vec![]];
    for a in 0..=255 {
        inputs.push(vec![a]);
        inputs.extend((0..=255).map(|b| vec![a, b]));
    }
    for input in &inputs {
        short.packcheck(input);
    }

    let mut cuts = Book::default();
    let ten = [packs::full(), bare()].into_iter().chain(random_packs(8, 4));
    for pack in ten {
        for length in 0..=pack.len() {
            cuts.whole(&pack, length, NO_EDIT, RUST_BUDGET, PACKCHECK_TAPE, false);
        }
    }

    let mut flips = Book::default();
    for pack in packs::small() {
        for at in 0..pack.bytes.len() {
            for value in [0, 1, 2, 0x19, 0x41, 0x80, 0xFF] {
                flips.whole(&pack.bytes, pack.bytes.len(), Edit::byte(at, value), RUST_BUDGET, PACKCHECK_TAPE, false);
            }
        }
    }

    let mut random = Book::default();
    let mut chance = Chance(0xBAD);
    for seed in 1000..1600 {
        let pack = packs::bytes_of(&Chance(seed).module(1 + seed % 6));
        random.whole(&pack, pack.len(), NO_EDIT, RUST_BUDGET, LONG_TAPE, true);
        for _ in 0..8 {
            let pack = damaged(&pack, &mut chance);
            let budget = if chance.below(3) == 0 { chance.below(4000) } else { RUST_BUDGET };
            random.whole(&pack, pack.len(), NO_EDIT, budget, LONG_TAPE, true);
        }
        for _ in 0..6 {
            let call = SectionCall {
                number: 1 + chance.below(17) as usize,
                place: chance.below(pack.len() as u64 + 2),
                budget: chance.below(5000),
                functions: chance.below(5),
                tape: chance.below(200),
            };
            random.section(&pack, NO_EDIT, call, true);
        }
    }
    vec![("short.bin", short), ("cuts.bin", cuts), ("flips.bin", flips), ("random.bin", random)]
}
