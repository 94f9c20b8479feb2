//! Names with accents, in packs that hold little else: pairs that print alike and near misses, in each kind of table.

use crate::alike::{decompositions, folded};
use crate::answer::{opening_part, BARE};
use crate::cases::{ends, externs, limits, marked, repeats, text};
use crate::corpus;
use crate::packs::{self, Chance};
use crate::record::{Book, Edit};

/// The kinds of tables in which a pair may stand.
#[derive(Clone, Copy, Debug, PartialEq, Eq)]
pub enum Kind {
    Fields,
    MethodNames,
    Methods,
    Named,
    Runtime,
}

pub const KINDS: [Kind; 5] = [Kind::Fields, Kind::MethodNames, Kind::Methods, Kind::Named, Kind::Runtime];

pub enum RuntimeType {
    /// Package and name of each field.
    Struct(Vec<(String, String)>),
    Interface(Vec<String>),
    /// The bytes of a type that has no names.
    Other(Vec<u8>),
}

/// The tables of a pack whose other fields are zeros. Their bytes are written here: the Rust's writer sorts named methods
/// and repeats none.
#[derive(Default)]
pub struct Tables {
    pub structs: Vec<Vec<String>>,
    /// The method names and the methods of each interface.
    pub interfaces: Vec<[Vec<String>; 2]>,
    pub named_types: Vec<Vec<String>>,
    pub runtime_types: Vec<RuntimeType>,
}

fn count(of: usize) -> [u8; 4] {
    (of as u32).to_le_bytes()
}

/// A list of names, each with so many zero bytes after it.
fn list(names: &[String], rest: usize) -> Vec<u8> {
    let items = names.iter().flat_map(|name| [text(name.as_bytes()), vec![0; rest]].concat());
    count(names.len()).into_iter().chain(items).collect()
}

fn section<T>(records: &[T], bytes: impl Fn(&T) -> Vec<u8>) -> Vec<u8> {
    count(records.len()).into_iter().chain(records.iter().flat_map(bytes)).collect()
}

impl Tables {
    /// A table of this kind, in a record of its own.
    pub fn with(mut self, kind: Kind, names: &[impl AsRef<str>]) -> Self {
        let names = names.iter().map(|name| name.as_ref().to_string()).collect();
        match kind {
            Kind::Fields => self.structs.push(names),
            Kind::MethodNames => self.interfaces.push([names, vec![]]),
            Kind::Methods => self.interfaces.push([vec![], names]),
            Kind::Named => self.named_types.push(names),
            Kind::Runtime => self.runtime_types.push(RuntimeType::Interface(names)),
        }
        self
    }

    fn with_interface(mut self, names: &[&str], methods: &[&str]) -> Self {
        self.interfaces.push([names, methods].map(|list| list.iter().map(|name| name.to_string()).collect()));
        self
    }

    fn with_runtime_struct(mut self, fields: &[(&str, &str)]) -> Self {
        let fields = fields.iter().map(|(package, name)| (package.to_string(), name.to_string()));
        self.runtime_types.push(RuntimeType::Struct(fields.collect()));
        self
    }

    pub fn pack(&self) -> Vec<u8> {
        let runtime_field = |(package, name): &(String, String)| {
            [&text(name.as_bytes())[..], &[0; 4], &text(b""), &[0], &text(package.as_bytes())].concat()
        };
        let runtime_type = |of: &RuntimeType| match of {
            RuntimeType::Struct(fields) => [&[8, 0, 0, 0, 0], &section(fields, runtime_field)[..]].concat(),
            RuntimeType::Interface(names) => [&[9, 0, 0, 0, 0], &list(names, 4)[..]].concat(),
            RuntimeType::Other(bytes) => bytes.clone(),
        };
        [
            opening_part(2, 0),
            section(&self.structs, |names| [&count(0)[..], &list(names, 10)].concat()),
            section(&self.interfaces, |[names, methods]| [text(b""), list(names, 0), list(methods, 4)].concat()),
            section(&self.named_types, |names| [text(b""), vec![0; 8], list(names, 10)].concat()),
            vec![0; BARE[4]],
            section(&self.runtime_types, runtime_type),
            vec![0; BARE[6..].iter().sum()],
        ]
        .concat()
    }
}

/// A pack with one table.
fn one(kind: Kind, names: &[impl AsRef<str>]) -> Vec<u8> {
    Tables::default().with(kind, names).pack()
}

/// A runtime type of each tag that has no names.
fn without_names() -> Vec<RuntimeType> {
    let widths = [(0, 1), (1, 8), (2, 4), (3, 12), (4, 4), (5, 8), (6, 5), (7, 9), (10, 4), (11, 5), (12, 0)];
    widths.map(|(tag, width)| RuntimeType::Other([&[tag][..], &vec![0; width]].concat())).into()
}

/// A text whose letters are decomposed where the bits of `which`, a bit for each letter that has a decomposition, say so.
pub fn spelled(text: &str, which: u64) -> String {
    let mut bits = which;
    let mut out = String::new();
    for character in text.chars() {
        let alone = character.to_string();
        let parts = folded(&alone);
        if parts == alone {
            out.push(character);
            continue;
        }
        out += if bits % 2 == 1 { &parts } else { &alone };
        bits /= 2;
    }
    out
}

/// A text with each letter that has its mark after it as one code.
pub fn composed(text: &str) -> String {
    let join = |text: String, (code, letter, mark): (char, char, char)| {
        text.replace(&format!("{letter}{mark}"), &code.to_string())
    };
    decompositions().fold(text.to_string(), join)
}

/// Each of the 31 codes of U+00C0 to U+017F that stay, beside what a compatibility decomposition would make of it or, where
/// it has none, what is taken for the same letter.
pub const STAY: [(&str, &str); 31] = [
    ("\u{c6}", "AE"),
    ("\u{d0}", "D\u{335}"),
    ("\u{d7}", "x"),
    ("\u{d8}", "O\u{338}"),
    ("\u{de}", "Th"),
    ("\u{df}", "ss"),
    ("\u{e6}", "ae"),
    ("\u{f0}", "d\u{335}"),
    ("\u{f7}", ":"),
    ("\u{f8}", "o\u{338}"),
    ("\u{fe}", "th"),
    ("\u{110}", "D\u{335}"),
    ("\u{111}", "d\u{335}"),
    ("\u{126}", "H\u{335}"),
    ("\u{127}", "h\u{335}"),
    ("\u{131}", "i"),
    ("\u{132}", "IJ"),
    ("\u{133}", "ij"),
    ("\u{138}", "k"),
    ("\u{13f}", "L\u{b7}"),
    ("\u{140}", "l\u{b7}"),
    ("\u{141}", "L\u{335}"),
    ("\u{142}", "l\u{335}"),
    ("\u{149}", "\u{2bc}n"),
    ("\u{14a}", "N"),
    ("\u{14b}", "n"),
    ("\u{152}", "OE"),
    ("\u{153}", "oe"),
    ("\u{166}", "T\u{335}"),
    ("\u{167}", "t\u{335}"),
    ("\u{17f}", "s"),
];

/// Names that are not alike: a letter outside the range beside its decomposition, in one round and in two; singletons;
/// marks in another order; another mark, another letter, no mark, a mark more.
pub const NOT_ALIKE: [(&str, &str); 36] = [
    ("\u{be}", "3\u{2044}4"),
    ("\u{1ce}", "a\u{30c}"),
    ("\u{1d5}", "\u{dc}\u{304}"),
    ("\u{1d5}", "U\u{308}\u{304}"),
    ("\u{1a0}", "O\u{31b}"),
    ("\u{200}", "A\u{30f}"),
    ("\u{218}", "S\u{326}"),
    ("\u{218}", "\u{15e}"),
    ("\u{226}", "A\u{307}"),
    ("\u{390}", "\u{3b9}\u{308}\u{301}"),
    ("\u{439}", "\u{438}\u{306}"),
    ("\u{1e00}", "A\u{325}"),
    ("\u{1e9b}", "\u{17f}\u{307}"),
    ("\u{1e9e}", "SS"),
    ("\u{1e9e}", "\u{df}"),
    ("\u{1ec7}", "\u{1eb9}\u{302}"),
    ("\u{1ec7}", "e\u{323}\u{302}"),
    ("\u{1ec7}", "\u{ea}\u{323}"),
    ("\u{1ec7}", "e\u{302}\u{323}"),
    ("\u{ea}\u{323}", "e\u{323}\u{302}"),
    ("e\u{302}\u{323}", "e\u{323}\u{302}"),
    ("\u{ea}\u{323}", "\u{1eb9}\u{302}"),
    ("\u{212b}", "\u{c5}"),
    ("\u{212b}", "A\u{30a}"),
    ("\u{212a}", "K"),
    ("\u{e8}", "e\u{340}"),
    ("e\u{300}", "e\u{340}"),
    ("\u{e9}", "\u{e8}"),
    ("\u{e9}", "e\u{300}"),
    ("\u{e9}", "e"),
    ("\u{e9}", "\u{c9}"),
    ("\u{e9}", "E\u{301}"),
    ("\u{e9}", "\u{301}e"),
    ("\u{ea}", "\u{ea}\u{323}"),
    ("e\u{302}", "\u{ea}\u{323}"),
    ("\u{d55c}", "\u{1112}\u{1161}\u{11ab}"),
];

const COMPOSED: &str = "\u{e9}";
const DECOMPOSED: &str = "e\u{301}";

/// What the answer on a pack has to be.
enum Expected {
    Pair([String; 2]),
    NoPair,
    Refused,
}

pub struct Case {
    pub pack: Vec<u8>,
    expected: Expected,
}

/// A pack that is taken, and the pair in it.
fn judged(cases: &mut Vec<Case>, pack: Vec<u8>, pair: Option<[&str; 2]>) {
    let expected = pair.map_or(Expected::NoPair, |names| Expected::Pair(names.map(str::to_string)));
    cases.push(Case { pack, expected });
}

fn refused(cases: &mut Vec<Case>, pack: Vec<u8>) {
    cases.push(Case { pack, expected: Expected::Refused });
}

/// The pair in each kind of table at each two places of five, composed first and decomposed first.
fn places(cases: &mut Vec<Case>) {
    for kind in KINDS {
        for (first, second) in [(0, 1), (0, 2), (0, 4), (1, 2), (1, 3), (2, 3), (2, 4), (3, 4)] {
            for pair in [[COMPOSED, DECOMPOSED], [DECOMPOSED, COMPOSED]] {
                let mut names = ["a", "b", "e", "\u{e8}", "E\u{301}"];
                names[first] = pair[0];
                names[second] = pair[1];
                judged(cases, one(kind, &names), Some(pair));
            }
        }
        judged(cases, one(kind, &[COMPOSED]), None);
        judged(cases, one(kind, &["a", "e", COMPOSED, "\u{301}"]), None);
    }
}

/// Names of several letters, each composed in one and decomposed in the other or the same in both; of three or more that
/// are alike the first two.
fn several(cases: &mut Vec<Case>) {
    let words = ["\u{160}\u{165}astn\u{fd}", "\u{c5}ngstr\u{f6}m", "\u{c7}\u{e9}\u{10d}", "x\u{ef}\u{ef}x"];
    for (word, kind) in words.into_iter().zip(KINDS) {
        let letters = word.chars().filter(|letter| folded(&letter.to_string()) != letter.to_string()).count();
        let all: Vec<String> = (0..1 << letters).map(|which| spelled(word, which)).collect();
        for (i, first) in all.iter().enumerate() {
            let second = &all[(i + 1 + i % (all.len() - 1)) % all.len()];
            judged(cases, one(kind, &[first, "between", second]), Some([first, second]));
        }
        judged(cases, one(kind, &all), Some([&all[0], &all[1]]));
    }
    let [a, b, c] = [0, 1, 3].map(|which| spelled("\u{e9}\u{e9}", which));
    for kind in KINDS {
        judged(cases, one(kind, &[&a, &b, &c]), Some([&a, &b]));
        judged(cases, one(kind, &[&c, "x", &a, "y", &b]), Some([&c, &a]));
        judged(cases, one(kind, &["x", &b, &c, "y", &a, "z"]), Some([&b, &c]));
    }
}

/// Equal letters in two tables: two records of one kind, records of two kinds, the two lists of an interface.
fn across(cases: &mut Vec<Case>) {
    let new = Tables::default;
    for kind in KINDS {
        for other in KINDS {
            let apart = new().with(kind, &[COMPOSED]).with(other, &[DECOMPOSED]);
            judged(cases, apart.pack(), None);
            let behind = new().with(kind, &["a", COMPOSED]).with(other, &["a", DECOMPOSED]);
            judged(cases, behind.with(Kind::Runtime, &["\u{f1}", "n\u{303}"]).pack(), Some(["\u{f1}", "n\u{303}"]));
        }
    }
    judged(cases, new().with_interface(&[COMPOSED], &[DECOMPOSED]).pack(), None);
    judged(cases, new().with_interface(&["a", DECOMPOSED], &[COMPOSED, "a"]).pack(), None);
    let both = new().with_interface(&["\u{f1}", "n\u{303}"], &[COMPOSED, DECOMPOSED]);
    judged(cases, both.pack(), Some(["\u{f1}", "n\u{303}"]));
    let second = new().with_interface(&["\u{f1}", COMPOSED], &[DECOMPOSED, "n\u{303}", "\u{f1}"]);
    judged(cases, second.pack(), Some(["n\u{303}", "\u{f1}"]));

    // The fields of a runtime struct are no table.
    let fields =
        || new().with_runtime_struct(&[("p", COMPOSED), ("p", DECOMPOSED), ("q", COMPOSED), ("p", "_"), ("p", "_")]);
    judged(cases, fields().pack(), None);
    judged(cases, fields().with(Kind::Runtime, &["a", COMPOSED]).pack(), None);
    judged(cases, fields().with(Kind::Runtime, &["n\u{303}", "\u{f1}"]).pack(), Some(["n\u{303}", "\u{f1}"]));
    let after =
        new().with(Kind::Runtime, &["n\u{303}", "\u{f1}"]).with_runtime_struct(&[("", COMPOSED), ("", DECOMPOSED)]);
    judged(cases, after.pack(), Some(["n\u{303}", "\u{f1}"]));
    judged(cases, new().with_runtime_struct(&[(COMPOSED, "a"), (DECOMPOSED, "a")]).pack(), None);
}

/// "_", which a struct may repeat, beside "_" with a mark; empty names.
fn blank_and_empty(cases: &mut Vec<Case>) {
    let marked = "_\u{304}";
    for kind in KINDS {
        judged(cases, one(kind, &["_", marked]), None);
        judged(cases, one(kind, &[marked, "_", COMPOSED]), None);
        judged(cases, one(kind, &[""]), None);
        judged(cases, one(kind, &["", "\u{301}", COMPOSED]), None);
        judged(cases, one(kind, &[COMPOSED, "", DECOMPOSED]), Some([COMPOSED, DECOMPOSED]));
    }
    judged(cases, one(Kind::Fields, &["_", "_"]), None);
    judged(cases, one(Kind::Fields, &["_", "_", "_", marked]), None);
    judged(cases, one(Kind::Fields, &["_", COMPOSED, "_", DECOMPOSED, "_"]), Some([COMPOSED, DECOMPOSED]));
    judged(cases, one(Kind::Fields, &["_", "_", DECOMPOSED, COMPOSED]), Some([DECOMPOSED, COMPOSED]));
    judged(cases, Tables::default().with_interface(&[""], &[""]).pack(), None);
    judged(cases, Tables::default().with(Kind::Fields, &["_", "_"]).with(Kind::Named, &["_"]).pack(), None);
}

/// Each letter beside its decomposition, after the same letter with another mark; each that stays; letters outside the
/// range, and marks that stand in another order or after a letter that has one already.
fn letters(cases: &mut Vec<Case>) {
    let kinds = || KINDS.into_iter().cycle();
    for ((code, letter, mark), kind) in decompositions().zip(kinds()) {
        let (composed, decomposed) = (code.to_string(), format!("{letter}{mark}"));
        let other = format!("{letter}{}", if mark == '\u{300}' { '\u{301}' } else { '\u{300}' });
        let names = [&composed, &other, &letter.to_string(), &mark.to_string(), &decomposed];
        judged(cases, one(kind, &names), Some([&composed, &decomposed]));
    }
    for ((one_name, other), kind) in STAY.into_iter().chain(NOT_ALIKE).zip(kinds()) {
        judged(cases, one(kind, &[one_name, other]), None);
        judged(cases, one(kind, &[&format!("a{other}b"), &format!("a{one_name}b")]), None);
    }
    for pair in [
        ["\u{ea}\u{323}", "e\u{302}\u{323}"],
        ["\u{e9}\u{301}", "e\u{301}\u{301}"],
        ["\u{1e9e}\u{dc}", "\u{1e9e}U\u{308}"],
        ["\u{1ec7}\u{ea}", "\u{1ec7}e\u{302}"],
        ["\u{130}i\u{307}", "I\u{307}i\u{307}"],
        ["\u{20ac}\u{10348}\u{e9}", "\u{20ac}\u{10348}e\u{301}"],
    ] {
        for kind in KINDS {
            judged(cases, one(kind, &pair), Some(pair));
            judged(cases, one(kind, &[pair[1], "between", pair[0]]), Some([pair[1], pair[0]]));
        }
    }
}

/// Names of up to 40 bytes with the letter at each offset, at their end among them; names of one length that differ in one
/// byte each.
fn offsets(cases: &mut Vec<Case>) {
    let kinds = || KINDS.into_iter().cycle();
    let fill = "abcdefghijklmnopqrstuvwxyz0123456789ABCDEFGHIJ";
    let all = (COMPOSED.len()..=40).flat_map(|length| (0..=length - COMPOSED.len()).map(move |at| (length, at)));
    for ((length, at), kind) in all.zip(kinds()) {
        let name = |letter: &str| format!("{}{letter}{}", &fill[..at], &fill[at..length - COMPOSED.len()]);
        let [composed, decomposed] = [COMPOSED, DECOMPOSED].map(name);
        judged(cases, one(kind, &[&composed, &decomposed]), Some([&composed, &decomposed]));
    }
    for (length, kind) in (1..=40).zip(kinds()) {
        let other = |at: usize| format!("{COMPOSED}{}_{}", &fill[..at], &fill[at + 1..length]);
        let mut names: Vec<String> = (0..length).map(other).collect();
        names.extend([format!("{COMPOSED}{}", &fill[..length]), format!("{DECOMPOSED}{}", &fill[..length + 1])]);
        names.push(format!("{DECOMPOSED}{}", &fill[..length - 1]));
        judged(cases, one(kind, &names), None);
    }
}

/// Names that differ from one another, accents in most of them.
fn different(count: usize) -> Vec<String> {
    let opening = ["\u{e9}", "e\u{301}", "\u{160}", "x"];
    (0..count).map(|i| format!("{}{i}", opening[i % opening.len()])).collect()
}

/// Tables around the sizes at which repeated names are searched otherwise, with a pair at their ends and without one; many
/// tables, and runtime types of each tag, before the one with the pair.
fn wide(cases: &mut Vec<Case>) {
    for kind in KINDS {
        for count in [2, 22, 23, 24, 25, 40, 1_100] {
            let mut names = different(count);
            if count < 1_000 {
                judged(cases, one(kind, &names), None);
                names[0] = DECOMPOSED.to_string();
                names[count - 1] = COMPOSED.to_string();
                judged(cases, one(kind, &names), Some([DECOMPOSED, COMPOSED]));
            }
            names[count - 2] = COMPOSED.to_string();
            names[count - 1] = DECOMPOSED.to_string();
            names[0] = "first".to_string();
            if count > 2 {
                judged(cases, one(kind, &names), Some([COMPOSED, DECOMPOSED]));
            }
        }
    }
    for count in [1_023, 1_024, 1_025] {
        let mut names = different(count);
        judged(cases, one(Kind::MethodNames, &names), None);
        names[0] = DECOMPOSED.to_string();
        names[count - 1] = COMPOSED.to_string();
        judged(cases, one(Kind::MethodNames, &names), Some([DECOMPOSED, COMPOSED]));
    }
    for kind in KINDS {
        let mut tables = Tables::default();
        for before in KINDS {
            for _ in 0..20 {
                tables = tables.with(before, &["a", COMPOSED, "e"]);
            }
        }
        tables.runtime_types.extend(without_names());
        judged(cases, tables.pack(), None);
        judged(cases, tables.with(kind, &["a", COMPOSED, DECOMPOSED]).pack(), Some([COMPOSED, DECOMPOSED]));
    }
}

/// Two pairs: the one whose later name ends first, in one table and in two.
fn two_pairs(cases: &mut Vec<Case>) {
    let (tilde, apart) = ("\u{f1}", "n\u{303}");
    for kind in KINDS {
        for (names, pair) in [
            ([COMPOSED, tilde, apart, DECOMPOSED], [tilde, apart]),
            ([COMPOSED, tilde, DECOMPOSED, apart], [COMPOSED, DECOMPOSED]),
            ([COMPOSED, DECOMPOSED, tilde, apart], [COMPOSED, DECOMPOSED]),
            ([apart, DECOMPOSED, tilde, COMPOSED], [apart, tilde]),
        ] {
            judged(cases, one(kind, &names), Some(pair));
        }
        for other in KINDS {
            let first = KINDS.iter().position(|at| *at == kind) <= KINDS.iter().position(|at| *at == other);
            let tables = Tables::default().with(kind, &[COMPOSED, "x", DECOMPOSED]).with(other, &[apart, tilde]);
            let interfaces = [kind, other].iter().all(|at| matches!(at, Kind::MethodNames | Kind::Methods));
            let pair = if first || interfaces { [COMPOSED, DECOMPOSED] } else { [apart, tilde] };
            judged(cases, tables.pack(), Some(pair));
        }
    }
}

/// Packs that are refused, most of them after a pair: cut, too long, ill-formed, with a repeated name, with externs.
fn refusals(cases: &mut Vec<Case>) {
    let tables = || {
        let all = KINDS
            .into_iter()
            .fold(Tables::default(), |tables, kind| tables.with(kind, &["a1", COMPOSED, DECOMPOSED, "b1"]));
        all.with_runtime_struct(&[("p", "a1"), ("p", "b1")])
    };
    let pack = tables().pack();
    judged(cases, pack.clone(), Some([COMPOSED, DECOMPOSED]));
    for length in (0..pack.len()).step_by(5).chain([pack.len() - 1]) {
        refused(cases, pack[..length].to_vec());
    }
    for extra in [1, 4, 300] {
        refused(cases, [&pack[..], &vec![0; extra]].concat());
    }
    for (at, _) in pack.windows(2).enumerate().filter(|(_, bytes)| bytes == b"b1") {
        let mut repeated = pack.clone();
        repeated[at..at + 2].copy_from_slice(b"a1");
        refused(cases, repeated);
        refused(cases, Edit::byte(at, 0xFF).apply(&pack));
    }
    let externs = pack.len() - BARE[10..].iter().sum::<usize>();
    for claimed in [1, 28, 29, u32::MAX] {
        refused(cases, Edit::word(externs, claimed).apply(&pack));
    }
    refused(cases, Edit::word(3, 25).apply(&pack));
    refused(cases, Edit::byte(0, b'v').apply(&pack));
}

/// The packs that are made for this call.
pub fn cases() -> Vec<Case> {
    let mut cases = Vec::new();
    for part in [places, several, across, blank_and_empty, letters, offsets, wide, two_pairs, refusals] {
        part(&mut cases);
    }
    cases
}

pub fn book() -> Book {
    let mut book = Book::default();
    for Case { pack, expected } in cases() {
        let answer = book.alike_names(&pack);
        let name = |start: u64, length: u64| &pack[start as usize..][..length as usize];
        match (answer, expected) {
            (Ok(Some([start, length, later, later_length])), Expected::Pair(names)) => {
                assert_eq!([name(start, length), name(later, later_length)], names.each_ref().map(String::as_bytes));
            }
            (Ok(None), Expected::NoPair) | (Err(_), Expected::Refused) => {}
            _ => panic!("{answer:?} is not what this pack is made for: {pack:02x?}"),
        }
    }
    // Packs of the other lists, random ones, and those that libFuzzer kept: made for something else, so any answer is good.
    let lists = [ends(), marked(), repeats(), limits(), externs(), corpus::packs()];
    let small = packs::small().into_iter().map(|pack| pack.bytes);
    let random = (0..40).map(|seed| packs::bytes_of(&Chance(seed).module(4)));
    for pack in lists.into_iter().flatten().chain(small).chain([packs::full()]).chain(random) {
        _ = book.alike_names(&pack);
    }
    book
}
