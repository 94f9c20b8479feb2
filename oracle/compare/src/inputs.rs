//! The packs that are compared: written by the Rust, damaged, and lists that are gone through to their end.

use crate::round::Class;
use harness::accents::{self, Kind, RuntimeType, Tables};
use harness::alike;
use harness::answer::{self, opening_part, Reading, BARE, NO_END, RUST_BUDGET};
use harness::cases;
use harness::packs::{self, Chance};
use harness::texts::{self, BESIDE, ILL_FORMED, KINDS};
use measured::serialize::MAX_VOB_BYTES;
use original::bytecode::WellKnownTypes;
use std::rc::Rc;

/// A pack by the Rust's writer, of a few hundred bytes; some of them are wrong in what the writer leaves unasked.
pub fn written(chance: &mut Chance) -> Vec<u8> {
    let most = 1 + chance.below(3);
    let mut m = chance.module(most);
    for function in &mut m.functions {
        for metadata in &mut function.instruction_metadata {
            *metadata = chance.metadata();
        }
        if chance.below(16) == 0 {
            spoil(function, chance);
        }
    }
    // Half of the packs have most sections bare.
    if chance.flag() {
        let mut drop = || chance.below(4) != 0;
        macro_rules! thin { ($($list:expr),*) => { $(if drop() { $list.clear(); })* } }
        thin!(m.struct_metas, m.interface_metas, m.named_type_metas, m.itabs, m.runtime_types, m.constants, m.globals);
        thin!(m.functions, m.artifacts, m.debug_info.files, m.debug_info.funcs);
        thin!(m.debug_info.inline_sources.frames, m.debug_info.inline_sources.functions);
        if drop() {
            m.well_known = WellKnownTypes::default();
        }
    }
    packs::bytes_of(&m)
}

fn spoil(function: &mut original::bytecode::FunctionDef, chance: &mut Chance) {
    match chance.below(4) {
        0 => function.local_slots ^= 1,
        1 => function.instruction_metadata.push(chance.metadata()),
        2 => drop(function.instruction_metadata.pop()),
        _ => {
            let lists = [&mut function.capture_types, &mut function.param_types];
            for transfer in lists.into_iter().flatten() {
                match chance.below(4) {
                    0 => transfer.meta_raw |= 0xFFFF_FF00,
                    1 => transfer.rttid_raw |= 0xFFFF_FF00,
                    2 => transfer.rttid_raw |= 0x19,
                    _ => transfer.meta_raw |= 0x80,
                }
            }
        }
    }
}

/// A pack of some thousand bytes that fills one kind of list: hundreds of names in one table, for one.
pub fn wide(chance: &mut Chance) -> Vec<u8> {
    let kind = ["mixed", "names", "slots", "texts", "code"][chance.below(5) as usize];
    let size = 3_000 + chance.below(5_000) as usize;
    packs::large(kind, size, chance.next()).expect("a known kind and size enough")
}

fn any<T: Copy>(chance: &mut Chance, from: &[T]) -> T {
    from[chance.below(from.len() as u64) as usize]
}

/// A text of a few letters, most of them with a decomposition, some with a mark more, some that only seem to have one, and
/// of stretches of ASCII that move them.
fn word(chance: &mut Chance, letters: &[char]) -> String {
    let mut out = String::new();
    for _ in 0..1 + chance.below(4) {
        match chance.below(6) {
            0..3 => out.push(any(chance, letters)),
            3 => out.extend([any(chance, letters), any(chance, &['\u{323}', '\u{301}', '\u{327}', '\u{31b}'])]),
            4 => {
                let (one, other) = match chance.flag() {
                    true => any(chance, &accents::STAY),
                    false => any(chance, &accents::NOT_ALIKE),
                };
                out += if chance.flag() { one } else { other };
            }
            _ => out += &"abcdefghijklmnop"[..1 + chance.below(16) as usize],
        }
    }
    out
}

/// The word in any spelling, or what is nearly the word: another mark, another letter, two marks exchanged.
fn spelling(chance: &mut Chance, word: &str) -> String {
    let mut name = accents::spelled(word, chance.next());
    if chance.below(4) == 0 {
        let mut characters: Vec<char> = alike::folded(word).chars().collect();
        let at = chance.below(characters.len() as u64) as usize;
        let mark = ('\u{300}'..'\u{340}').contains(&characters[at]);
        match chance.below(4) {
            0 if mark => {
                characters[at] = any(chance, &['\u{300}', '\u{301}', '\u{302}', '\u{308}', '\u{30c}', '\u{327}'])
            }
            1 if at > 0 => characters.swap(at - 1, at),
            2 => drop(characters.remove(at)),
            _ => characters[at] = any(chance, &['e', 'E', 's', '\u{17f}', '\u{1ce}']),
        }
        name = characters.into_iter().collect();
        if chance.flag() {
            name = accents::composed(&name);
        }
    }
    name
}

/// The names of a table, most of them spellings of a few words. Where `apart`, no two are alike. Now and then a table is so
/// wide that its names are searched by a filter; there most start with the same letters, and the rest differs.
fn names(chance: &mut Chance, words: &[String], apart: bool) -> Vec<String> {
    let wide = match chance.below(400) {
        0 => 1_025 + chance.below(40),
        1..16 => 20 + chance.below(24),
        _ => 0,
    };
    let opening = any(chance, &[&words[0][..], "\u{e9}", "x"]);
    let mut out: Vec<String> = (0..wide).map(|i| format!("{}{i}", accents::spelled(opening, chance.next()))).collect();
    for _ in 0..1 + chance.below(8) {
        let name = match chance.below(14) as usize {
            0 => "_".to_string(),
            1 => chance.text(),
            most => spelling(chance, &words[most % words.len()]),
        };
        let at = chance.below(out.len() as u64 + 1) as usize;
        // Most pairs of a wide table end with it.
        out.insert(if chance.flag() { out.len() } else { at }, name);
    }
    let mut seen = std::collections::HashSet::new();
    // Without this most packs would be refused for a repeated name; "_" may be repeated in a struct.
    let repeats = chance.below(32) == 0;
    out.retain(|name| seen.insert(if apart { alike::folded(name) } else { name.clone() }) || repeats);
    out
}

/// A pack with accents in each kind of table, in runtime struct fields, and across tables.
pub fn accented(chance: &mut Chance) -> Vec<u8> {
    let letters: Vec<char> = alike::decompositions().map(|(code, _, _)| code).collect();
    let words: Vec<String> = (0..1 + chance.below(4)).map(|_| word(chance, &letters)).collect();
    let mut tables = Tables::default();
    // Half of the packs are made without a pair.
    let none = chance.flag();
    for _ in 0..1 + chance.below(6) {
        let apart = none || chance.flag();
        let names = names(chance, &words, apart);
        match chance.below(8) {
            0 => {
                let methods = self::names(chance, &words, apart);
                tables.interfaces.push([names, methods]);
            }
            1 => {
                let fields = names.into_iter().map(|name| (any(chance, &["p", "q"]).to_string(), name));
                tables.runtime_types.push(RuntimeType::Struct(fields.collect()));
            }
            2 => {
                let blanks = vec!["_".to_string(); chance.below(3) as usize];
                tables = tables.with(Kind::Fields, &[blanks, names].concat());
            }
            kind => tables = tables.with(accents::KINDS[kind as usize - 3], &names),
        }
    }
    tables.pack()
}

/// Packs at the limits that only a long one reaches.
pub fn long() -> Vec<Vec<u8>> {
    let payload = 16_777_216;
    let artifacts = |payloads: &[usize]| {
        let mut out = opening_part(14, 0);
        out.extend((payloads.len() as u32).to_le_bytes());
        for length in payloads {
            out.extend(
                [cases::text(b"p"), 7u32.to_le_bytes().to_vec(), (*length as u32).to_le_bytes().to_vec()].concat(),
            );
            out.resize(out.len() + length, 0);
        }
        out.resize(out.len() + BARE[14..].iter().sum::<usize>(), 0);
        out
    };
    let mut most = vec![payload; 8];
    most[7] = MAX_VOB_BYTES - artifacts(&[&most[..7], &[0]].concat()).len();
    let longest = artifacts(&most);
    let past = [&longest[..], &[0]].concat();

    // Counts that claim all bytes left: at the Rust's budget and one past it.
    let counting = |number: usize, count: usize, rest: &[u8]| {
        [&opening_part(number, 0)[..], &(count as u32).to_le_bytes(), rest].concat()
    };
    let functions = |count: usize| counting(10, count, &vec![0; count]);
    let nested = |left: usize| {
        let inner = |count: usize| (count as u32).to_le_bytes();
        let head = [&[0; 40][..], &inner(left - 44), &[18], &inner(left - 49)].concat();
        counting(10, left, &[&head[..], &vec![0; left - 49]].concat())
    };
    let externs = |count: usize| counting(11, count, &vec![0; count]);
    let unpaid = RUST_BUDGET as usize / 240 + 1;
    let unpaid_externs = RUST_BUDGET as usize / 144 + 1;
    let unpaid_nested = (RUST_BUDGET as usize + 64 * 44 + 8 * 49) / 312 + 1;

    // All frames and entries that there may be, and one entry more.
    let inline = |frames: usize, last: u32| {
        let limit = 131_072;
        let mut out = opening_part(17, 2);
        out.extend((frames as u32).to_le_bytes());
        out.resize(out.len() + 9 * frames, 0);
        out.extend([2, 0, limit].map(u32::to_le_bytes).concat());
        out.resize(out.len() + 8 * limit as usize, 0);
        out.extend([1, last].map(u32::to_le_bytes).concat());
        out.resize(out.len() + 8 * last as usize, 0);
        out
    };
    vec![
        vec![0; MAX_VOB_BYTES],
        vec![0; MAX_VOB_BYTES + 1],
        longest,
        past,
        artifacts(&[payload]),
        artifacts(&[payload + 1]),
        functions(unpaid),
        functions(unpaid - 1),
        externs(unpaid_externs),
        externs(unpaid_externs - 1),
        nested(unpaid_nested),
        nested(unpaid_nested - 1),
        inline(131_072, 0),
        inline(0, 1),
    ]
}

/// Words at the ends of ranges that a question has.
fn edge_word(chance: &mut Chance, left: u32) -> u32 {
    const EDGES: [u32; 24] = [
        0, 1, 2, 3, 5, 6, 24, 25, 63, 64, 65, 127, 128, 129, 131_071, 131_072, 131_073, 16_777_216, 16_777_217,
        0xFFFFFE18, 0xFFFFFF18, 0xFFFFFF19, 0x7FFFFFFF, 0xFFFFFFFF,
    ];
    match chance.below(6) {
        0 => left,
        1 => left.wrapping_add(1),
        2 => left / 14 + chance.below(2) as u32,
        3 => chance.below(left as u64 + 1) as u32,
        _ => EDGES[chance.below(EDGES.len() as u64) as usize],
    }
}

/// Texts and payloads, and the places of count words, as the charges tell them.
pub struct Marks {
    pub texts: Vec<(usize, usize)>,
    pub counts: Vec<usize>,
}

pub fn marks(reading: &Reading) -> Marks {
    let mut marks = Marks { texts: Vec::new(), counts: Vec::new() };
    for charge in &reading.charges {
        match answer::charge_context(charge) {
            1 | 9 | 10 => marks.texts.push((charge.place - charge.amount, charge.amount)),
            2 | 6 | 8 => marks.counts.push(charge.place - 4),
            _ => {}
        }
    }
    marks
}

fn pick<T: Copy>(chance: &mut Chance, from: &[T]) -> Option<T> {
    (!from.is_empty()).then(|| any(chance, from))
}

pub fn set_word(pack: &mut [u8], at: usize, word: u32) {
    if let Some(bytes) = pack.get_mut(at..at + 4) {
        bytes.copy_from_slice(&word.to_le_bytes());
    }
}

/// Another text in the place of one, with its length word.
pub fn set_text(pack: &mut Vec<u8>, (start, length): (usize, usize), text: &[u8]) {
    pack.splice(start - 4..start + length, cases::text(text));
}

/// A damaged copy; `reading` is the whole pack's, without end of budget.
pub fn damaged(pack: &[u8], reading: &Reading, chance: &mut Chance) -> Vec<u8> {
    let mut out = pack.to_vec();
    let marks = marks(reading);
    // One change by what is known of the pack; changes after it may move that.
    match chance.below(6) {
        0 => {
            if let Some(at) = pick(chance, &marks.counts) {
                let left = (pack.len() - at - 4) as u32;
                let old = u32::from_le_bytes(pack[at..at + 4].try_into().expect("four bytes"));
                let word = match chance.below(3) {
                    0 => old.wrapping_add(1),
                    1 => old.wrapping_sub(1),
                    _ => edge_word(chance, left),
                };
                set_word(&mut out, at, word);
            }
        }
        1 | 2 => {
            // A name repeated, in another spelling, blank, empty or ill-formed.
            if let (Some(from), Some(to)) = (pick(chance, &marks.texts), pick(chance, &marks.texts)) {
                let text = pack[from.0..from.0 + from.1].to_vec();
                let text = match chance.below(10) {
                    0 => b"_".to_vec(),
                    1 => vec![],
                    2 => [&text[..], &[chance.next() as u8]].concat(),
                    3 => text[..text.len() / 2].to_vec(),
                    4 => accents::spelled(&String::from_utf8_lossy(&text), chance.next()).into_bytes(),
                    5 => accents::composed(&String::from_utf8_lossy(&text)).into_bytes(),
                    _ => text,
                };
                set_text(&mut out, to, &text);
            }
        }
        3 => {
            if let Some(at) = reading.sections.get(10) {
                set_word(&mut out, at.place, edge_word(chance, (pack.len() - at.place) as u32));
            }
        }
        _ => {}
    }
    for _ in 0..chance.below(3) {
        let at = chance.below(out.len() as u64 + 1) as usize;
        let left = (out.len() - at) as u32;
        match chance.below(8) {
            0 if left > 0 => out[at] ^= 1 << chance.below(8),
            1 if left > 0 => out[at] = chance.next() as u8,
            2 if left > 0 => {
                let values = cases::values(out[at]);
                out[at] = values[chance.below(values.len() as u64) as usize];
            }
            3 => set_word(&mut out, at, edge_word(chance, left.saturating_sub(4))),
            4 => {
                let end = at + chance.below((left as u64).min(5) + 1) as usize;
                out.drain(at..end);
            }
            5 => {
                let bytes: Vec<u8> = (0..1 + chance.below(4)).map(|_| chance.below(26) as u8).collect();
                out.splice(at..at, bytes);
            }
            6 => {
                let end = at + chance.below((left as u64).min(16) + 1) as usize;
                let repeat = out[at..end].to_vec();
                out.splice(at..at, repeat);
            }
            _ => out.truncate(at),
        }
    }
    out
}

/// The opening of one pack and the rest of another, parted at section starts or anywhere.
pub fn spliced(first: (&[u8], &Reading), second: (&[u8], &Reading), chance: &mut Chance) -> Vec<u8> {
    let section = chance.below(17) as usize;
    let ((a, ar), (b, br)) = (first, second);
    let (x, y) = match (ar.sections.get(section), br.sections.get(section)) {
        (Some(x), Some(y)) if chance.below(4) != 0 => (x.place, y.place),
        _ => (chance.below(a.len() as u64 + 1) as usize, chance.below(b.len() as u64 + 1) as usize),
    };
    [&a[..x], &b[y..]].concat()
}

/// A list of inputs, packs or for the class `Text` texts, that is gone through once, in an order that is spread over it.
pub struct Family {
    pub class: Class,
    pub label: &'static str,
    pub count: u64,
    pub done: u64,
    /// How many are taken at each turn.
    pub share: u64,
    make: Box<dyn Fn(u64) -> Vec<u8>>,
}

impl Family {
    fn new(
        class: Class,
        label: &'static str,
        turns: u64,
        count: usize,
        make: impl Fn(u64) -> Vec<u8> + 'static,
    ) -> Self {
        let count = count as u64;
        Family { class, label, count, done: 0, share: count.div_ceil(turns), make: Box::new(make) }
    }

    pub fn next(&mut self) -> Option<Vec<u8>> {
        // A prime above every count: each index is met once.
        const STEP: u64 = 2_147_483_647;
        (self.done < self.count).then(|| {
            let index = (self.done as u128 * STEP as u128 % self.count as u128) as u64;
            self.done += 1;
            (self.make)(index)
        })
    }
}

/// Bytes at the ends of the ranges of UTF-8's table.
const TEXT_EDGES: [u8; 24] = [
    0x00, 0x41, 0x7F, 0x80, 0x8F, 0x90, 0x9F, 0xA0, 0xBF, 0xC0, 0xC1, 0xC2, 0xDF, 0xE0, 0xE1, 0xEC, 0xED, 0xEE, 0xEF,
    0xF0, 0xF1, 0xF4, 0xF5, 0xFF,
];
const PACKED_EDGES: [u8; 9] = [0x00, 0x01, 0x0F, 0x10, 0x7F, 0x80, 0x81, 0x8F, 0xFF];

/// The digits of `index` in the base of `from`'s length.
fn digits(mut index: u64, from: &[u8], count: usize) -> Vec<u8> {
    let base = from.len() as u64;
    (0..count)
        .map(|_| {
            let digit = from[(index % base) as usize];
            index /= base;
            digit
        })
        .collect()
}

/// All inputs of at most two bytes.
fn short(index: u64) -> Vec<u8> {
    match index {
        0 => vec![],
        1..=256 => vec![(index - 1) as u8],
        _ => ((index - 257) as u16).to_be_bytes().to_vec(),
    }
}

const SHORT: usize = 1 + 256 + 65_536;

/// The packs that other inputs are made from: each variant, each marked case, each limit.
fn corpus() -> Vec<Vec<u8>> {
    let mut all: Vec<Vec<u8>> = packs::small().into_iter().map(|pack| pack.bytes).collect();
    all.extend([packs::full(), packs::with_extern()]);
    for list in [cases::ends(), cases::marked(), cases::repeats(), cases::limits(), cases::externs()] {
        all.extend(list);
    }
    all
}

pub fn families() -> Vec<Family> {
    let corpus = Rc::new(corpus());
    let spread = |each: &dyn Fn(&[u8]) -> Vec<usize>| -> Vec<(usize, usize)> {
        corpus.iter().enumerate().flat_map(|(i, pack)| each(pack).into_iter().map(move |at| (i, at))).collect()
    };
    let cuts = spread(&|pack| (0..pack.len()).collect());
    // What is filled; the bare pack's own bytes have a list of their own.
    let places = spread(&|pack| {
        let filled = |byte: &u8| *byte != 0;
        let first = pack.iter().skip(7).position(filled).map_or(pack.len(), |at| at + 3);
        let last = pack.iter().rposition(filled).map_or(0, |at| at + 5);
        (first..last.min(pack.len())).collect()
    });
    let counts = spread(&|pack| marks(&answer::read(pack, NO_END as u64, u64::MAX)).counts);
    let bare = cases::bare();
    let head = bare[..7].to_vec();

    let edges: Vec<(usize, usize, u8)> = places
        .iter()
        .flat_map(|(pack, at)| cases::values(corpus[*pack][*at]).into_iter().map(move |value| (*pack, *at, value)))
        .collect();

    let from = || corpus.clone();
    let (listed, cut, edged, changed, counted) = (from(), from(), from(), from(), from());
    let accented: Vec<Vec<u8>> = accents::cases().into_iter().map(|case| case.pack).collect();
    vec![
        Family::new(Class::Accented, "the stored packs with accents", 400, accented.len(), move |i| {
            accented[i as usize].clone()
        }),
        Family::new(Class::Listed, "the listed packs", 200, corpus.len(), move |i| listed[i as usize].clone()),
        Family::new(Class::Short, "all inputs of at most two bytes", 50_000, SHORT, short),
        Family::new(Class::Short, "magic, version and at most two bytes", 50_000, SHORT, move |i| {
            [&head[..], &short(i)].concat()
        }),
        Family::new(Class::Byte, "the bare pack with any byte changed to any", 2_000, bare.len() * 256, move |i| {
            let mut pack = bare.clone();
            pack[i as usize / 256] = i as u8;
            pack
        }),
        Family::new(Class::Cut, "each cut of the listed packs", 10_000, cuts.len(), move |i| {
            let (pack, length) = cuts[i as usize];
            cut[pack][..length].to_vec()
        }),
        Family::new(
            Class::Byte,
            "the listed packs with any byte at the ends of ranges",
            4_000,
            edges.len(),
            move |i| {
                let (pack, at, value) = edges[i as usize];
                let mut pack = edged[pack].clone();
                pack[at] = value;
                pack
            },
        ),
        Family::new(
            Class::Byte,
            "the listed packs with any byte changed to any",
            100_000,
            places.len() * 256,
            move |i| {
                let (pack, at) = places[i as usize / 256];
                let mut pack = changed[pack].clone();
                pack[at] = i as u8;
                pack
            },
        ),
        Family::new(
            Class::Leaf,
            "each count word of the listed packs at 32 values",
            10_000,
            counts.len() * 32,
            move |i| {
                let (pack, at) = counts[i as usize / 32];
                let mut pack = counted[pack].clone();
                let left = (pack.len() - at - 4) as u32;
                let around = left / 14 + i as u32 % 4;
                let word = match i % 32 {
                    j @ 0..8 => (left + 4).wrapping_sub(j as u32),
                    8..12 => around,
                    j => edge_word(&mut Chance(i), j as u32),
                };
                set_word(&mut pack, at, word);
                pack
            },
        ),
        Family::new(Class::Leaf, "extern counts around the bytes left", 2_000, EXTERN_COUNTS, extern_count),
        Family::new(Class::Leaf, "names of one and two bytes", 50_000, SHORT, |i| {
            cases::with_section(1, 4, &cases::text(&short(i)))
        }),
        Family::new(Class::Leaf, "names of three bytes at the table's edges", 4_000, 24usize.pow(3), |i| {
            cases::with_section(1, 4, &cases::text(&digits(i, &TEXT_EDGES, 3)))
        }),
        Family::new(Class::Leaf, "names of four bytes at the table's edges", 50_000, 24usize.pow(4), |i| {
            cases::with_section(1, 4, &cases::text(&digits(i, &TEXT_EDGES, 4)))
        }),
        Family::new(Class::Leaf, "packed numbers of five bytes at their edges", 20_000, 9usize.pow(5), |i| {
            let location = [&[1, 0, 0, 0, 1, 0, 0, 0][..], &digits(i, &PACKED_EDGES, 5), &[0; 4]].concat();
            cases::with_section(16, 4, &location)
        }),
        Family::new(Class::Leaf, "packed words of each low byte in each of their kinds", 2_000, 4 * 4 * 256, |i| {
            let id = [0, 1, 0xFFFFFE, 0xFFFFFF][i as usize / 256 % 4];
            packed_word(i as usize / 1024, (id << 8) | (i as u32 % 256))
        }),
        Family::new(Class::Text, "texts of each length and kind of characters", 1_500, TEXT_LENGTHS, text_of_length),
        Family::new(
            Class::Text,
            "texts with a sequence at the table's edges at each offset",
            1_500,
            TEXT_OFFSETS,
            text_with_sequence,
        ),
        Family::new(Class::Text, "texts whose length looks like lead bytes", 1_500, LEAD_TEXTS, text_like_leads),
    ]
}

const EXTERN_RESTS: u64 = 64;
const EXTERN_COUNTS: usize = 16 * EXTERN_RESTS as usize * 3;

/// An extern count and up to 63 bytes after it: counts to 7, those around the bytes left and large ones; in the bare pack,
/// after a name of 7 bytes, after a function.
fn extern_count(index: u64) -> Vec<u8> {
    let (step, index) = (index as u32 % 16, index / 16);
    let (rest, opening) = (index % EXTERN_RESTS, index / EXTERN_RESTS);
    let count = match step {
        0..8 => step,
        8..12 => (rest as u32 + 10).wrapping_sub(step),
        _ => [0x100, 0x1_0000, 0x7FFF_FFFF, 0xFFFF_FFFF][step as usize - 12],
    };
    let bare = opening_part(11, 0);
    let opening = match opening {
        0 => bare,
        1 => [&bare[..7], &cases::text(b"vob24 A"), &bare[11..]].concat(),
        _ => opening_part(11, 1),
    };
    [&opening[..], &count.to_le_bytes(), &vec![0; rest as usize]].concat()
}

const TEXT_LENGTHS: usize = (texts::LONGEST + 1) * KINDS.len() * 4;

/// Exactly so many bytes of a kind: with the last character or the first one cut short, or with ASCII in its place.
fn text_of_length(index: u64) -> Vec<u8> {
    let (kind, index) = (KINDS[index as usize % KINDS.len()], index as usize / KINDS.len());
    let length = index / 4;
    match index % 4 {
        0 => texts::cut(kind, length),
        1 => {
            let characters = texts::repeated(kind, length);
            characters.as_bytes()[characters.len() - length..].to_vec()
        }
        2 => texts::ended(kind, length),
        _ => texts::moved(kind, length),
    }
}

/// Characters at the edges of the table, the marked ones among them.
const WELL_FORMED: [&[u8]; 8] = [
    b"\xC2\x80",
    b"\xC3\xA9",
    b"\x65\xCC\x81",
    b"\xE0\xA0\x80",
    b"\xED\x9F\xBF",
    b"\xF0\x90\x80\x80",
    b"\xF3\xBF\xBF\xBF",
    b"\xF4\x8F\xBF\xBF",
];

const SEQUENCES: usize = ILL_FORMED.len() + WELL_FORMED.len();
const OFFSETS: usize = 257;
const TEXT_OFFSETS: usize = SEQUENCES * BESIDE.len() * 3 * OFFSETS;

/// A sequence in a text that ends with it, some bytes after it, or past another 240 bytes.
fn text_with_sequence(index: u64) -> Vec<u8> {
    let (offset, index) = (index as usize % OFFSETS, index as usize / OFFSETS);
    let (beside, index) = (BESIDE[index % BESIDE.len()], index / BESIDE.len());
    let sequence = *ILL_FORMED.iter().chain(&WELL_FORMED).nth(index % SEQUENCES).expect("one of them");
    let after = [0, 1 + offset % 19, 260][index / SEQUENCES];
    let (all, at) = texts::around(sequence, beside, OFFSETS, 260);
    all[at - offset..at + sequence.len() + after].to_vec()
}

/// The first byte of lengths whose second byte is F0 to FF.
const LOW_BYTES: [usize; 4] = [0x00, 0x80, 0xC2, 0xF0];
const LEAD_LENGTHS: usize = 16 * LOW_BYTES.len();
const OPENINGS: usize = 4 * KINDS.len();
const LEAD_TEXTS: usize = LEAD_LENGTHS * OPENINGS;

fn text_like_leads(index: u64) -> Vec<u8> {
    let (length, opening) = (index as usize % LEAD_LENGTHS, index as usize / LEAD_LENGTHS);
    text_opening((0xF0 + length / LOW_BYTES.len()) << 8 | LOW_BYTES[length % LOW_BYTES.len()], opening)
}

/// A text of so many bytes: characters of a kind, after up to three continuation bytes that no lead comes before but what
/// looks like one in the length word.
fn text_opening(length: usize, index: usize) -> Vec<u8> {
    let opening = &[0x80; 3][..index / KINDS.len()];
    [opening, &texts::ended(KINDS[index % KINDS.len()], length - opening.len())].concat()
}

/// Texts that are so long that the third byte of their length looks like a lead byte.
pub const LONG_TEXTS: usize = 12;

pub fn long_text(index: usize) -> Vec<u8> {
    let length = [0xE0_0000, 0xE0_F0C2, 0xEF_8080, 0xF0_0000, 0xF4_F4F4, 0x1E0_0000][index % 6];
    text_opening(length, index * 5 % OPENINGS)
}

/// A pack with this word as meta or rttid of a named type, or as a transfer word.
fn packed_word(kind: usize, word: u32) -> Vec<u8> {
    let mut words = [0, 0];
    words[kind % 2] = word;
    let words: Vec<u8> = words.iter().flat_map(|word| u32::to_le_bytes(*word)).collect();
    if kind < 2 {
        return cases::with_section(4, 4, &[&[1, 0, 0, 0, 0, 0, 0, 0][..], &words, &[0; 4]].concat());
    }
    // A bare function but for its last list.
    let opening = opening_part(11, 1);
    let mut pack = opening[..opening.len() - 4].to_vec();
    pack.extend([1, 0, 0, 0]);
    pack.extend(&words);
    pack.extend([0; 2]);
    pack.resize(pack.len() + BARE[10..].iter().sum::<usize>(), 0);
    pack
}
