//! Packs to measure with, written byte by byte: each is the bare pack with one section, or all of them, filled.

use crate::alike;
use crate::names::Names;
use std::collections::HashMap;

/// Bytes in file order.
#[derive(Clone, Default)]
struct Bytes(Vec<u8>);

impl Bytes {
    fn u8(&mut self, n: u8) -> &mut Self {
        self.0.push(n);
        self
    }

    fn u16(&mut self, n: u16) -> &mut Self {
        self.0.extend(n.to_le_bytes());
        self
    }

    fn u32(&mut self, n: u32) -> &mut Self {
        self.0.extend(n.to_le_bytes());
        self
    }

    fn text(&mut self, text: &[u8]) -> &mut Self {
        self.u32(text.len() as u32);
        self.0.extend(text);
        self
    }

    fn slots(&mut self, n: usize) -> &mut Self {
        self.u32(n as u32);
        self.0.extend((0..n).map(|i| (i % 6) as u8));
        self
    }

    fn packed(&mut self, mut n: u32) -> &mut Self {
        while n >= 0x80 {
            self.u8(n as u8 | 0x80);
            n >>= 7;
        }
        self.u8(n as u8)
    }
}

/// The sections of a pack, in file order.
#[derive(Clone, Copy)]
enum Section {
    Name,
    Structs,
    Interfaces,
    NamedTypes,
    Itabs,
    RuntimeTypes,
    Constants = 7,
    Globals,
    Functions,
    Artifacts = 13,
    Files,
    Locations,
    Inline,
}

struct Pack([Bytes; 17]);

impl Pack {
    fn bare() -> Pack {
        let width = |section| match section {
            6 => 37,
            16 => 8,
            _ => 4,
        };
        Pack(std::array::from_fn(|section| Bytes(vec![0; width(section)])))
    }

    fn with(mut self, section: Section, bytes: Bytes) -> Pack {
        self.0[section as usize] = bytes;
        self
    }

    fn finish(self) -> Vec<u8> {
        let mut pack = Bytes(b"VOB".to_vec());
        pack.u32(24);
        for section in self.0 {
            pack.0.extend(section.0);
        }
        pack.0
    }
}

/// A word that holds kind 3 and a small id.
const TYPE: u32 = 0x0000_0203;

fn name(i: usize) -> String {
    format!("name_{i}")
}

fn list(n: usize, mut item: impl FnMut(&mut Bytes, usize)) -> Bytes {
    let mut bytes = Bytes::default();
    bytes.u32(n as u32);
    for i in 0..n {
        item(&mut bytes, i);
    }
    bytes
}

fn field(bytes: &mut Bytes, name: &[u8], i: usize) {
    bytes.text(name).u16(i as u16).u16(1).u32(TYPE).u8(0).u8(0);
}

fn structs(n: usize) -> Bytes {
    list(n, |bytes, i| {
        bytes.slots(4).u32(4);
        for k in 0..4 {
            field(bytes, name(i + k).as_bytes(), k);
        }
    })
}

fn interfaces(n: usize) -> Bytes {
    list(n, |bytes, i| {
        bytes.text(name(i).as_bytes()).u32(3);
        for k in 0..3 {
            bytes.text(name(k).as_bytes());
        }
        bytes.u32(3);
        for k in 0..3 {
            bytes.text(name(k).as_bytes()).u32(7);
        }
    })
}

fn named_types(n: usize) -> Bytes {
    list(n, |bytes, i| {
        bytes.text(name(i).as_bytes()).u32(TYPE).u32(TYPE).u32(3);
        for k in 0..3 {
            bytes.text(name(k).as_bytes()).u32(k as u32).u8(0).u8(1).u32(9);
        }
    })
}

fn itabs(n: usize, methods: usize) -> Bytes {
    list(n, |bytes, i| {
        bytes.u32(i as u32).u32(methods as u32);
        for k in 0..methods {
            bytes.u32(k as u32);
        }
    })
}

fn runtime_types(n: usize) -> Bytes {
    list(n, |bytes, i| match i % 4 {
        0 => {
            bytes.u8(0).u8(3);
        }
        1 => {
            bytes.u8(2).u32(TYPE);
        }
        2 => {
            bytes.u8(7).u8(0).u32(2).u32(TYPE).u32(TYPE).u32(1).u32(TYPE);
        }
        _ => {
            bytes.u8(8).u32(1).u32(2);
            for k in 0..2 {
                bytes.text(name(k).as_bytes()).u32(TYPE).text(b"").u8(0).text(b"pairing");
            }
        }
    })
}

fn constants(n: usize) -> Bytes {
    list(n, |bytes, i| match i % 4 {
        0 => {
            bytes.u8(1).u8(1);
        }
        1 => {
            bytes.u8(2).u32(i as u32).u32(0);
        }
        2 => {
            bytes.u8(3).u32(0).u32(0x3ff0_0000);
        }
        _ => {
            bytes.u8(4).text("Buchholz, Sonneborn\u{2013}Berger, Koya".as_bytes());
        }
    })
}

fn globals(n: usize) -> Bytes {
    list(n, |bytes, i| {
        bytes.text(name(i).as_bytes()).u16(2).u8(3).u32(i as u32).slots(2);
    })
}

/// A function with so many heap slots and instructions; every fourth instruction has metadata.
fn function(bytes: &mut Bytes, i: usize, heap: usize, code: usize) {
    bytes.text(name(i).as_bytes()).u16(1).u16(1).u16(8).u16(1).slots(1).u16(0).u16(0).u16(0).u32(heap as u32);
    for k in 0..heap {
        bytes.u16(k as u16);
    }
    bytes.u8(0).u32(0).u8(0).slots(8).u32(code as u32);
    for k in 0..code {
        bytes.u8(k as u8).u8(0).u16(1).u16(2).u16(k as u16);
    }
    bytes.u32(code as u32);
    for k in 0..code {
        if k % 4 == 3 {
            bytes.u8(11).slots(2).slots(1);
        } else {
            bytes.u8(0);
        }
    }
    bytes.u32(1).u32(TYPE).u32(TYPE).u16(1).slots(1).u32(1).u32(TYPE).u32(TYPE).u16(1);
}

fn functions(n: usize, heap: usize, code: usize) -> Bytes {
    list(n, |bytes, i| function(bytes, i, heap, code))
}

fn artifacts(n: usize, payload: usize) -> Bytes {
    list(n, |bytes, i| {
        bytes.text(name(i).as_bytes()).u32(1).text(&vec![0xa5; payload]);
    })
}

fn files(n: usize) -> Bytes {
    list(n, |bytes, i| {
        bytes.text(format!("rules/{}.vo", name(i)).as_bytes());
    })
}

/// Locations of n functions, m of each; one number in ten takes two bytes or more.
fn locations(n: usize, m: usize) -> Bytes {
    list(n, |bytes, i| {
        bytes.u32(m as u32);
        for k in 0..m {
            let line = if k % 2 == 0 { k % 100 } else { 100 + i + k };
            bytes.packed((k % 128) as u32).packed(1).packed(line as u32).packed(4).packed(9);
        }
    })
}

fn inline(frames: usize, functions: usize) -> Bytes {
    let mut bytes = list(frames, |bytes, i| {
        bytes.u32(i as u32).u32(1).u8(1).u32(0).u32(12).u32(4).u32(9);
    });
    let sources = list(functions, |bytes, i| {
        bytes.u32(i as u32).u32(2).u32(0).u32(1).u32(4).u32(2);
    });
    bytes.0.extend(sources.0);
    bytes
}

pub fn bare() -> Vec<u8> {
    Pack::bare().finish()
}

/// All sections, in proportions that the Rust's compiler writes; about 1,000 bytes for each unit of n.
pub fn typical(size: usize) -> Vec<u8> {
    let n = size / 1_070;
    Pack::bare()
        .with(Section::Name, Bytes::default().text(b"swiss").clone())
        .with(Section::Structs, structs(n))
        .with(Section::Interfaces, interfaces(n / 4))
        .with(Section::NamedTypes, named_types(n / 2))
        .with(Section::Itabs, itabs(n / 4, 3))
        .with(Section::RuntimeTypes, runtime_types(2 * n))
        .with(Section::Constants, constants(2 * n))
        .with(Section::Globals, globals(n / 4))
        .with(Section::Functions, functions(n, 2, 32))
        .with(Section::Artifacts, artifacts(4, n))
        .with(Section::Files, files(n / 8))
        .with(Section::Locations, locations(n, 16))
        .with(Section::Inline, inline(n, n / 2))
        .finish()
}

/// One text: the pack's name.
fn called(text: &str) -> Vec<u8> {
    Pack::bare().with(Section::Name, Bytes::default().text(text.as_bytes()).clone()).finish()
}

/// One text, of one character again and again.
pub fn text(size: usize, character: &str) -> Vec<u8> {
    called(&character.repeat(size / character.len()))
}

/// The accents of all packs come from one seed, so that each run reads the same bytes.
const SEED: u64 = 24;

/// One text of full names, some of them of ASCII alone.
pub fn european(size: usize) -> Vec<u8> {
    let mut names = Names::new(SEED);
    let mut text = names.full();
    while text.len() < size {
        text += ", ";
        text += &names.full();
    }
    called(&text)
}

/// So many constants, each a name with an accent.
pub fn accented_constants(n: usize) -> Vec<u8> {
    let mut names = Names::new(SEED);
    let constants = list(n, |bytes, _| {
        bytes.u8(4).text(names.accented().as_bytes());
    });
    Pack::bare().with(Section::Constants, constants).finish()
}

/// So many structs of twelve fields, whose names have accents; what `key` makes of them differs.
pub fn accented_structs(n: usize, key: fn(&str) -> String) -> Vec<u8> {
    let mut names = Names::new(SEED);
    let structs = list(n, |bytes, _| {
        let (mut fields, mut keys) = (Vec::new(), Vec::new());
        while fields.len() < 12 {
            let name = names.accented();
            let key = key(&name);
            if !keys.contains(&key) {
                fields.push(name);
                keys.push(key);
            }
        }
        bytes.slots(4).u32(12);
        for (k, name) in fields.iter().enumerate() {
            field(bytes, name.as_bytes(), k);
        }
    });
    Pack::bare().with(Section::Structs, structs).finish()
}

/// So many interfaces of 23 method names and as many methods: the names of a table have one length and one end when decomposed, every other
/// one is composed, and they differ in one letter.
pub fn small_tables(n: usize) -> Vec<u8> {
    let name = |k: usize| {
        let letter = char::from(b'a' + k as u8);
        match k % 2 {
            0 => format!("f\u{e9}d\u{e9}ration {letter} fran\u{e7}aise"),
            _ => format!("fe\u{301}de\u{301}ration {letter} franc\u{327}aise"),
        }
    };
    let interfaces = list(n, |bytes, _| {
        bytes.text(b"").u32(23);
        for k in 0..23 {
            bytes.text(name(k).as_bytes());
        }
        bytes.u32(23);
        for k in 0..23 {
            bytes.text(name(k).as_bytes()).u32(7);
        }
    });
    Pack::bare().with(Section::Interfaces, interfaces).finish()
}

/// A struct with so many slot types.
pub fn slots(size: usize) -> Vec<u8> {
    let structs = list(1, |bytes, _| {
        bytes.slots(size).u32(0);
    });
    Pack::bare().with(Section::Structs, structs).finish()
}

pub fn itab_methods(size: usize) -> Vec<u8> {
    Pack::bare().with(Section::Itabs, itabs(1, size / 4)).finish()
}

/// Code and its metadata, of one byte mostly.
pub fn code(size: usize) -> Vec<u8> {
    Pack::bare().with(Section::Functions, functions(1, 0, size / 12)).finish()
}

pub fn heap_slots(size: usize) -> Vec<u8> {
    Pack::bare().with(Section::Functions, functions(1, size / 2, 0)).finish()
}

pub fn packed_locations(size: usize) -> Vec<u8> {
    Pack::bare().with(Section::Locations, locations(1, size * 2 / 11)).finish()
}

/// Names that differ.
pub fn distinct(n: usize) -> impl ExactSizeIterator<Item = Vec<u8>> {
    (0..n).map(|i| name(i).into_bytes())
}

pub fn names(n: usize) -> Vec<u8> {
    in_table(Table::Fields, distinct(n))
}

/// Names of people with accents that differ when they are decomposed.
pub fn accented(n: usize) -> impl ExactSizeIterator<Item = Vec<u8>> {
    numbered(Names::new(SEED), n)
}

fn numbered(mut names: Names, n: usize) -> impl ExactSizeIterator<Item = Vec<u8>> {
    (0..n).map(move |i| format!("{} {i}", names.accented()).into_bytes())
}

/// A letter composed and decomposed.
const LETTER: [&str; 2] = ["\u{e9}", "e\u{301}"];

/// Names with one accent, every other one composed, that differ when they are decomposed: so short that a pack has room for 4,000,000.
pub fn short_accented(n: usize) -> impl ExactSizeIterator<Item = Vec<u8>> {
    (0..n).map(|i| format!("nam{}_{i}", LETTER[i % 2]).into_bytes())
}

/// The first seed of the search for repeated names, and the factors that it gives for the four words of a block, two in each lane.
const FIRST_SEED: u64 = 2_654_435_761;
const FACTORS: [[u64; 2]; 2] = [[2_654_435_761, 3_668_340_003], [1_132_949_227, 2_146_853_469]];

/// What a table of a pack holds, one item a name: the fields of a struct, the method names of an interface, the methods of a named type, the
/// fields of a runtime struct, the methods of a runtime interface.
#[derive(Clone, Copy, Debug)]
pub enum Table {
    Fields,
    InterfaceNames,
    NamedMethods,
    RuntimeFields,
    RuntimeMethods,
}

/// A pack whose names stand in one table.
pub fn in_table(table: Table, names: impl ExactSizeIterator<Item = Vec<u8>>) -> Vec<u8> {
    let mut bytes = Bytes::default();
    bytes.u32(1);
    let section = match table {
        Table::Fields => {
            bytes.u32(0);
            Section::Structs
        }
        Table::InterfaceNames => {
            bytes.text(b"");
            Section::Interfaces
        }
        Table::NamedMethods => {
            bytes.text(b"").u32(TYPE).u32(TYPE);
            Section::NamedTypes
        }
        Table::RuntimeFields => {
            bytes.u8(8).u32(0);
            Section::RuntimeTypes
        }
        Table::RuntimeMethods => {
            bytes.u8(9).u32(0);
            Section::RuntimeTypes
        }
    };
    bytes.u32(names.len() as u32);
    for (i, name) in names.enumerate() {
        match table {
            Table::Fields => field(&mut bytes, &name, i),
            Table::InterfaceNames => {
                bytes.text(&name);
            }
            Table::NamedMethods => {
                bytes.text(&name).u32(0).u8(0).u8(0).u32(0);
            }
            Table::RuntimeFields => {
                bytes.text(&name).u32(TYPE).text(b"").u8(0).text(b"");
            }
            Table::RuntimeMethods => {
                bytes.text(&name).u32(TYPE);
            }
        }
    }
    if let Table::InterfaceNames = table {
        bytes.u32(0);
    }
    Pack::bare().with(section, bytes).finish()
}

/// How a lane takes in eight bytes.
fn fold(factors: [u64; 2], hash: u64, bytes: u64) -> u64 {
    let x = hash ^ bytes;
    (x % (1 << 32) * factors[0]) ^ ((x >> 32) * factors[1])
}

/// Four blocks of two times eight bytes that lead a lane from this hash to the same one, and that hash.
fn same_hash(factors: [u64; 2], hash: u64) -> ([[u64; 2]; 4], u64) {
    const LAST: u64 = 0x6161_6161_6161_6161;
    const NOT_ASCII: u64 = 0x8080_8080_8080_8080;
    let mut seen: HashMap<u64, Vec<u64>> = HashMap::new();
    for i in 0u64.. {
        let start = u64::from_le_bytes([0, 4, 8, 12, 16, 20, 24, 28].map(|shift| b'A' + (i >> shift) as u8 % 16));
        let one = fold(factors, hash, start);
        // The last eight bytes make up for where the hashes differ, and stay ASCII.
        let alike = seen.entry(one & NOT_ASCII).or_default();
        alike.push(start);
        if let [.., _, _, _, _] = alike[..] {
            let blocks = std::array::from_fn(|k| [alike[k], LAST ^ one ^ fold(factors, hash, alike[k])]);
            return (blocks, fold(factors, one, LAST));
        }
    }
    unreachable!("some blocks meet")
}

/// Names that differ and all have 208 bytes and, as reading hashes bytes, the same hash under the first seed: one of four blocks at each of six
/// places in two lanes, and then sixteen bytes that all have.
pub fn one_hash(n: usize) -> impl ExactSizeIterator<Item = Vec<u8>> {
    const LENGTH: u64 = 208;
    let lanes = FACTORS.map(|factors| {
        let mut hash = LENGTH * FIRST_SEED;
        [0; 6].map(|_| {
            let (blocks, next) = same_hash(factors, hash);
            hash = next;
            blocks
        })
    });
    (0..n).map(move |i| {
        let mut name = Vec::new();
        for k in 0..6 {
            let [one, other] = [0, 1].map(|lane| lanes[lane][k][i >> (4 * k + 2 * lane) & 3]);
            name.extend([one[0], other[0], one[1], other[1]].map(u64::to_le_bytes).concat());
        }
        name.extend(b"all end the same");
        assert_eq!(name.len() as u64, LENGTH);
        name
    })
}

/// How the hash of folded names takes in a byte, under the first seed: x times the seed modulo M, where M is one less than the seed times 2^32, so
/// that this product is 1 modulo M. No hash is above M, so that two that are the same modulo M are the same, or 0 and M.
fn take_in(hash: u64, byte: u8) -> u64 {
    let x = hash ^ u64::from(byte);
    x % (1 << 32) * FIRST_SEED + (x >> 32)
}

/// The hash by which names that print alike are found, under the first seed.
fn folded_hash(name: &str) -> u64 {
    alike::folded(name).bytes().chain([0, 0]).fold(FIRST_SEED, take_in)
}

/// Numbers that leave no trace when eleven bytes add them to a hash, one each: the last times the seed, the one before it times the seed twice, and so
/// on, come to 0 modulo M. Found by reducing the lattice of all that do (LLL), and so small that one letter in place of another adds them.
const NO_TRACE: [i64; 11] = [-19, -4, -4, -22, 23, 7, 16, 5, 3, 1, -6];

/// Extends the two forms of a block, whose hashes so far are these, letter by letter to one hash, and returns it. A letter adds (h XOR letter) - h to a
/// hash h; that of the second form is to add what that of the first adds, and its number. Where no two letters do, those before are taken anew.
fn to_one_hash(block: &mut Vec<[u8; 2]>, [one, other]: [u64; 2]) -> Option<u64> {
    let Some(number) = NO_TRACE.get(block.len()) else {
        return (one == other).then_some(one);
    };
    (b'A'..=b'z').find_map(|letter| {
        let added = (one ^ u64::from(letter)).wrapping_sub(one).wrapping_add_signed(*number);
        let forms = [letter, u8::try_from(other ^ other.wrapping_add(added)).ok()?];
        if !forms.iter().all(u8::is_ascii_alphabetic) {
            return None;
        }
        block.push(forms);
        let hash = to_one_hash(block, [take_in(one, forms[0]), take_in(other, forms[1])]);
        if hash.is_none() {
            block.pop();
        }
        hash
    })
}

/// Up to 262,144 names that differ when they are decomposed, and then all have 201 bytes and the same hash under the first seed: a letter, composed
/// in every other name, and eighteen blocks, each in the form that a bit of the name's number says. The letter is first, since what stands in a block
/// depends on the hash before it, which is the same for both forms of the letter.
pub fn one_folded_hash(n: usize) -> impl ExactSizeIterator<Item = Vec<u8>> {
    const BLOCKS: usize = 18;
    assert!(n <= 1 << BLOCKS, "{n} names have no forms of their own");
    let mut hash = LETTER[1].bytes().fold(FIRST_SEED, take_in);
    let blocks = [(); BLOCKS].map(|()| {
        let mut block = Vec::new();
        hash = to_one_hash(&mut block, [hash; 2]).expect("two forms of letters");
        block
    });
    let hash = take_in(take_in(hash, 0), 0);
    (0..n).map(move |i| {
        let mut name = LETTER[i % 2].to_string();
        for (k, block) in blocks.iter().enumerate() {
            name.extend(block.iter().map(|forms| char::from(forms[i >> k & 1])));
        }
        assert_eq!(folded_hash(&name), hash, "{name}");
        name.into_bytes()
    })
}

/// Long names of letters with accents and nothing else, composed or decomposed by chance, that differ when they are decomposed.
pub fn long_accented(n: usize) -> impl ExactSizeIterator<Item = Vec<u8>> {
    let mut names = Names::new(SEED);
    (0..n).map(move |_| names.accents(80).into_bytes())
}

pub fn accented_table(table: Table, n: usize) -> Vec<u8> {
    in_table(table, accented(n))
}

/// The names of people that are all composed, as most packs have them.
pub fn composed_names(n: usize) -> Vec<u8> {
    in_table(Table::Fields, numbered(Names::composed(SEED), n))
}

pub fn short_accented_names(n: usize) -> Vec<u8> {
    in_table(Table::Fields, short_accented(n))
}

pub fn colliding(n: usize) -> Vec<u8> {
    in_table(Table::Fields, one_hash(n))
}

/// Names of one hash made to differ in it: each has its number before its last 32 bytes. As long as before, they show what a collision costs.
fn numbered_inside(names: impl ExactSizeIterator<Item = Vec<u8>>) -> impl ExactSizeIterator<Item = Vec<u8>> {
    names.enumerate().map(|(i, mut name)| {
        let end = name.len() - 32;
        name[end - 8..end].copy_from_slice(format!("{i:08}").as_bytes());
        name
    })
}

pub fn long_names(n: usize) -> Vec<u8> {
    in_table(Table::Fields, numbered_inside(one_hash(n)))
}

pub fn long_folded_names(n: usize) -> Vec<u8> {
    in_table(Table::Fields, numbered_inside(one_folded_hash(n)))
}

pub fn colliding_folded(n: usize) -> Vec<u8> {
    in_table(Table::Fields, one_folded_hash(n))
}

pub fn long_accented_names(n: usize) -> Vec<u8> {
    in_table(Table::Fields, long_accented(n))
}

/// Is this hash of the first classes, where hashes that are evenly spread have one in 21? The search for repeats looks at names of one class at once.
fn in_first_class(hash: u64) -> bool {
    (hash >> 16) % 65_536 < 3_000
}

/// Names that differ, have sixteen bytes and are, by reading's hash, all of the first classes under the first seed.
pub fn one_class(n: usize) -> impl ExactSizeIterator<Item = Vec<u8>> {
    let lane =
        |factors, bytes: &[u8]| fold(factors, 16 * FIRST_SEED, u64::from_le_bytes(bytes.try_into().expect("eight")));
    let hash = move |name: &[u8]| {
        let joined = lane(FACTORS[0], &name[..8]) ^ lane(FACTORS[1], &name[8..]);
        take_in(take_in(joined, 0), 0)
    };
    let mut names = (0u64..).map(|number| format!("{number:016}").into_bytes());
    (0..n).map(move |_| names.find(|name| in_first_class(hash(name))).expect("a name"))
}

/// Names that differ when they are decomposed and are then, by the hash of folded names, all of the first classes under the first seed. They end in a
/// letter, composed in every other name.
pub fn one_folded_class(n: usize) -> impl ExactSizeIterator<Item = Vec<u8>> {
    let mut tried = 0u64..;
    (0..n).map(move |i| {
        let end = LETTER[i % 2];
        let mut names = tried.by_ref().map(|number| format!("{number:013}{end}"));
        names.find(|name| in_first_class(folded_hash(name))).expect("a name").into_bytes()
    })
}
