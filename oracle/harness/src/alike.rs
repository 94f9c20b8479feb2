//! Names that print alike: a model of the call, which the Rust doesn't have. Tables and names are the Module's, their
//! places those of the reported spans.

use measured::bytecode::Module;
use measured::report::{Site, Span};
use measured::RuntimeType;
use std::cmp::Reverse;
use std::collections::HashMap;
use std::sync::LazyLock;

/// A mark, the letters that take it, and the code of each of them with it: the canonical decompositions of U+00C0 to
/// U+017F in UnicodeData.txt 15.0.0 (field 5 without a tag).
const DECOMPOSITIONS: [(u32, &str, &[u32]); 13] = [
    (0x300, "AEIOUaeiou", &[0xC0, 0xC8, 0xCC, 0xD2, 0xD9, 0xE0, 0xE8, 0xEC, 0xF2, 0xF9]),
    (
        0x301,
        "AEIOUYaeiouyCcLlNnRrSsZz",
        &[
            0xC1, 0xC9, 0xCD, 0xD3, 0xDA, 0xDD, 0xE1, 0xE9, 0xED, 0xF3, 0xFA, 0xFD, 0x106, 0x107, 0x139, 0x13A, 0x143,
            0x144, 0x154, 0x155, 0x15A, 0x15B, 0x179, 0x17A,
        ],
    ),
    (
        0x302,
        "AEIOUaeiouCcGgHhJjSsWwYy",
        &[
            0xC2, 0xCA, 0xCE, 0xD4, 0xDB, 0xE2, 0xEA, 0xEE, 0xF4, 0xFB, 0x108, 0x109, 0x11C, 0x11D, 0x124, 0x125,
            0x134, 0x135, 0x15C, 0x15D, 0x174, 0x175, 0x176, 0x177,
        ],
    ),
    (0x303, "ANOanoIiUu", &[0xC3, 0xD1, 0xD5, 0xE3, 0xF1, 0xF5, 0x128, 0x129, 0x168, 0x169]),
    (0x304, "AaEeIiOoUu", &[0x100, 0x101, 0x112, 0x113, 0x12A, 0x12B, 0x14C, 0x14D, 0x16A, 0x16B]),
    (0x306, "AaEeGgIiOoUu", &[0x102, 0x103, 0x114, 0x115, 0x11E, 0x11F, 0x12C, 0x12D, 0x14E, 0x14F, 0x16C, 0x16D]),
    (0x307, "CcEeGgIZz", &[0x10A, 0x10B, 0x116, 0x117, 0x120, 0x121, 0x130, 0x17B, 0x17C]),
    (0x308, "AEIOUaeiouyY", &[0xC4, 0xCB, 0xCF, 0xD6, 0xDC, 0xE4, 0xEB, 0xEF, 0xF6, 0xFC, 0xFF, 0x178]),
    (0x30A, "AaUu", &[0xC5, 0xE5, 0x16E, 0x16F]),
    (0x30B, "OoUu", &[0x150, 0x151, 0x170, 0x171]),
    (
        0x30C,
        "CcDdEeLlNnRrSsTtZz",
        &[
            0x10C, 0x10D, 0x10E, 0x10F, 0x11A, 0x11B, 0x13D, 0x13E, 0x147, 0x148, 0x158, 0x159, 0x160, 0x161, 0x164,
            0x165, 0x17D, 0x17E,
        ],
    ),
    (
        0x327,
        "CcGgKkLlNnRrSsTt",
        &[0xC7, 0xE7, 0x122, 0x123, 0x136, 0x137, 0x13B, 0x13C, 0x145, 0x146, 0x156, 0x157, 0x15E, 0x15F, 0x162, 0x163],
    ),
    (0x328, "AaEeIiUu", &[0x104, 0x105, 0x118, 0x119, 0x12E, 0x12F, 0x172, 0x173]),
];

/// The code, the letter and the mark of each decomposition.
pub fn decompositions() -> impl Iterator<Item = (char, char, char)> {
    let character = |code: u32| char::from_u32(code).expect("a character's code");
    DECOMPOSITIONS.iter().flat_map(move |(mark, letters, codes)| {
        let rows = letters.chars().zip(*codes);
        rows.map(move |(letter, code)| (character(*code), letter, character(*mark)))
    })
}

/// A name with each letter that has a decomposition replaced by it.
pub fn folded(name: &str) -> String {
    static FOLDS: LazyLock<HashMap<char, [char; 2]>> =
        LazyLock::new(|| decompositions().map(|(code, letter, mark)| (code, [letter, mark])).collect());
    let mut out = String::new();
    for character in name.chars() {
        match FOLDS.get(&character) {
            Some(parts) => out.extend(parts),
            None => out.push(character),
        }
    }
    out
}

/// A name of a table, and where it stands.
pub struct Name {
    pub text: String,
    pub span: Span,
}

/// The tables of a taken pack.
pub fn tables(module: &Module, pack: &[u8], spans: &[Span]) -> Vec<Vec<Name>> {
    let places = |site: Site| spans.iter().copied().filter(move |span| span.site == site);
    let mut fields = places(Site::StructFieldName);
    let mut names = places(Site::InterfaceMethodName);
    let mut methods = places(Site::InterfaceMethod);
    let mut named = places(Site::NamedMethod);
    let mut runtime = places(Site::RuntimeMethodName);
    let bytes = |span: Span| &pack[span.start..span.start + span.len];
    let name = |text: &String, span: Option<Span>| {
        let span = span.expect("each name has a span");
        assert_eq!(bytes(span), text.as_bytes());
        Name { text: text.clone(), span }
    };

    let mut out: Vec<Vec<Name>> = Vec::new();
    for meta in &module.struct_metas {
        let all = meta.fields.iter().map(|field| name(&field.name, fields.next()));
        out.push(all.filter(|name| name.text != "_").collect());
    }
    for meta in &module.interface_metas {
        out.push(meta.method_names.iter().map(|text| name(text, names.next())).collect());
        out.push(meta.methods.iter().map(|method| name(&method.name, methods.next())).collect());
    }
    for meta in &module.named_type_metas {
        // The map is sorted; the file's order is that of the spans.
        let all = named.by_ref().take(meta.methods.len()).map(|span| {
            let found = std::str::from_utf8(bytes(span)).ok().and_then(|text| meta.methods.get_key_value(text));
            Name { text: found.expect("the Rust took this name").0.clone(), span }
        });
        out.push(all.collect());
    }
    for runtime_type in &module.runtime_types {
        if let RuntimeType::Interface { methods, .. } = runtime_type {
            out.push(methods.iter().map(|method| name(&method.name, runtime.next())).collect());
        }
    }
    out
}

/// Start and length of the earlier name, then of the later one.
pub type Pair = [u64; 4];

/// Of all pairs in one table the one whose later name ends earliest in the file, and of these the one whose earlier name
/// is nearest to it.
pub fn first_pair(tables: &[Vec<Name>]) -> Option<Pair> {
    let mut pairs: Vec<(Span, Span)> = Vec::new();
    for table in tables {
        let mut alike: HashMap<String, Vec<Span>> = HashMap::new();
        for name in table {
            let before = alike.entry(folded(&name.text)).or_default();
            pairs.extend(before.iter().map(|earlier| (*earlier, name.span)));
            before.push(name.span);
        }
    }
    let first = pairs.iter().min_by_key(|(earlier, later)| (later.start + later.len, Reverse(earlier.start)));
    first.map(|(earlier, later)| [earlier.start, earlier.len, later.start, later.len].map(|number| number as u64))
}
