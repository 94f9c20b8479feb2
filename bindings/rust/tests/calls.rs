//! Document 01's worked examples, the limits of budget and tape, and names that print alike, through the safe calls.

use vob::{
    AlikeNames, Context, Error, FIRST_SECTION, FunctionMetadata, MAX_PACK_BYTES, Reading, Reason, STARTING_BUDGET,
    Section,
};

/// What a word of the tape holds before a call.
const UNWRITTEN: u32 = 0x5eed_5eed;

/// The bare pack with a name.
fn named(name: &[u8]) -> Vec<u8> {
    let mut pack = b"VOB\x18\0\0\0".to_vec();
    pack.extend((name.len() as u32).to_le_bytes());
    pack.extend(name);
    pack.resize(pack.len() + 101, 0);
    pack
}

/// The bare pack with artifacts, each of version 1.
fn with_artifacts(artifacts: &[(&[u8], &[u8])]) -> Vec<u8> {
    let mut pack = named(b"");
    pack.truncate(92);
    pack.extend((artifacts.len() as u32).to_le_bytes());
    for (name, payload) in artifacts {
        pack.extend((name.len() as u32).to_le_bytes());
        pack.extend(*name);
        pack.extend(1u32.to_le_bytes());
        pack.extend((payload.len() as u32).to_le_bytes());
        pack.extend(*payload);
    }
    pack.resize(pack.len() + 16, 0);
    pack
}

/// A table of names: the fields of a struct, the two lists of an interface, the methods of a named type, the fields of a runtime
/// struct, the methods of a runtime interface.
#[derive(Clone, Copy, Debug, PartialEq)]
enum Table {
    Fields,
    InterfaceNames,
    InterfaceMethods,
    NamedMethods,
    RuntimeFields,
    RuntimeMethods,
}

const TABLES: [Table; 6] = [
    Table::Fields,
    Table::InterfaceNames,
    Table::InterfaceMethods,
    Table::NamedMethods,
    Table::RuntimeFields,
    Table::RuntimeMethods,
];

/// The bare pack with tables of one kind, each in an entry of its own, and where the names start.
fn with_tables(table: Table, tables: &[&[&str]]) -> (Vec<u8>, Vec<usize>) {
    // The section; the bytes of an entry before the table, those of an item after its name, those of an entry after the table.
    let (section, before, after_name, after): (_, &[u8], _, _) = match table {
        Table::Fields => (11, &[0; 4], 10, 0),
        Table::InterfaceNames => (15, &[0; 4], 0, 4),
        Table::InterfaceMethods => (15, &[0; 8], 4, 0),
        Table::NamedMethods => (19, &[0; 12], 10, 0),
        Table::RuntimeFields => (27, &[8, 0, 0, 0, 0], 13, 0),
        Table::RuntimeMethods => (27, &[9, 0, 0, 0, 0], 4, 0),
    };
    let bare = named(b"");
    let mut pack = bare[..section].to_vec();
    let mut starts = Vec::new();
    pack.extend((tables.len() as u32).to_le_bytes());
    for names in tables {
        pack.extend(before);
        pack.extend((names.len() as u32).to_le_bytes());
        for name in *names {
            pack.extend((name.len() as u32).to_le_bytes());
            starts.push(pack.len());
            pack.extend(name.as_bytes());
            pack.resize(pack.len() + after_name, 0);
        }
        pack.resize(pack.len() + after, 0);
    }
    pack.extend(&bare[section + 4..]);
    (pack, starts)
}

/// The numbers, from 0 over all tables, of the two names that print alike. The pack is read as ever.
fn pair(table: Table, tables: &[&[&str]]) -> Option<(usize, usize)> {
    let (pack, starts) = with_tables(table, tables);
    vob::read(&pack, STARTING_BUDGET, &mut vec![0; pack.len()]).unwrap();
    let names = tables.concat();
    vob::alike_names(&pack).unwrap().map(|AlikeNames { earlier, later }| {
        let number = |start| starts.iter().position(|name| *name == start).unwrap();
        let (first, second) = (number(earlier.start), number(later.start));
        assert_eq!((&pack[earlier], &pack[later]), (names[first].as_bytes(), names[second].as_bytes()));
        (first, second)
    })
}

/// Reads a pack that must be refused, and sees that the tape is as it was.
fn refusal(pack: &[u8], budget: u64, words: usize) -> Error {
    let mut tape = vec![UNWRITTEN; words];
    let refusal = vob::read(pack, budget, &mut tape).unwrap_err();
    assert!(tape.iter().all(|word| *word == UNWRITTEN));
    refusal
}

#[test]
fn bare_pack() {
    let mut tape = [UNWRITTEN; 40];
    let reading = vob::read(&named(b""), STARTING_BUDGET, &mut tape).unwrap();
    assert_eq!(reading, Reading { words: 37, bytes: 112, charged: 0, left: STARTING_BUDGET });
    assert_eq!(tape[..2], [11, 0]);
    assert_eq!(tape[37..], [UNWRITTEN; 3]);
}

#[test]
fn empty_input() {
    let refusal = refusal(&[], STARTING_BUDGET, 40);
    assert_eq!(refusal, Error { reason: Reason::UnexpectedEof, place: 0, left: STARTING_BUDGET });
    assert_eq!(refusal.numbers(), [2, 0, 0, 0, 0, STARTING_BUDGET]);
}

#[test]
fn cut_pack() {
    assert_eq!(refusal(&named(b"")[..111], 0, 40), Error { reason: Reason::UnexpectedEof, place: 108, left: 0 });
}

#[test]
fn too_large() {
    let (length, maximum) = (MAX_PACK_BYTES as u64 + 1, MAX_PACK_BYTES as u64);
    let reason = Reason::InputTooLarge { length, maximum };
    assert_eq!(refusal(&vec![0; MAX_PACK_BYTES + 1], 5, 1), Error { reason, place: 0, left: 5 });
}

#[test]
fn budget_one_short() {
    let pack = named(b"A");
    let reason = Reason::AllocationBudgetExceeded { context: Context::ByteString, asked: 1, left: 0 };
    assert_eq!(refusal(&pack, 0, 40), Error { reason, place: 12, left: 0 });
    let mut tape = [0; 37];
    let reading = vob::read(&pack, 1, &mut tape).unwrap();
    assert_eq!(reading, Reading { words: 37, bytes: 113, charged: 1, left: 0 });
    assert_eq!(tape[..2], [11, 1]);
}

#[test]
fn tape_one_short() {
    let reason = Reason::NoRoom { needed: 37, length: 36 };
    assert_eq!(refusal(&named(b""), 0, 36), Error { reason, place: 112, left: 0 });
    let reason = Reason::NoRoom { needed: 37, length: 0 };
    assert_eq!(refusal(&named(b""), 0, 0), Error { reason, place: 112, left: 0 });
}

#[test]
fn first_artifact_of_a_name() {
    let pack = with_artifacts(&[(b"b", b"one"), (b"", b""), (b"b", b"two")]);
    assert_eq!(vob::find_artifact(&pack, b"b"), Ok(&b"one"[..]));
    assert_eq!(vob::find_artifact(&pack, b""), Ok(&[][..]));
    let left = STARTING_BUDGET - (3 * 56 + 8);
    assert_eq!(vob::find_artifact(&pack, b"c"), Err(Error { reason: Reason::NoSuchArtifact, place: pack.len(), left }));
    assert_eq!(
        vob::find_artifact(b"VOC", b"b"),
        Err(Error { reason: Reason::InvalidMagic, place: 3, left: STARTING_BUDGET })
    );
}

#[test]
fn artifact_limit() {
    let pack = with_artifacts(&[(&[b'n'; 129], b"")]);
    let reason = Reason::ModuleArtifactLimitExceeded { context: Context::ArtifactName, length: 129, maximum: 128 };
    assert_eq!(refusal(&pack, 100, 40), Error { reason, place: 100, left: 44 });
}

#[test]
fn host_calls_after_the_bytes_left_and_the_charge() {
    let mut pack = named(b"");
    pack[80] = 28;
    let (externs, asked) = (28, 28 * 144);
    let host = Reason::HostCalls { externs };
    assert_eq!(refusal(&pack, STARTING_BUDGET, 40), Error { reason: host, place: 84, left: STARTING_BUDGET - asked });
    assert_eq!(refusal(&pack, asked, 40), Error { reason: host, place: 84, left: 0 });
    let reason = Reason::AllocationBudgetExceeded { context: Context::Vector, asked, left: asked - 1 };
    assert_eq!(refusal(&pack, asked - 1, 40), Error { reason, place: 84, left: asked - 1 });
    let reason = Reason::UnexpectedEof;
    assert_eq!(refusal(&pack[..111], 0, 40), Error { reason, place: 84, left: 0 });
    let alone = vob::read_section(Section::Externs, &pack, 80, asked, &mut []);
    assert_eq!(alone, Err(Error { reason: host, place: 84, left: 0 }));
}

#[test]
fn sections_in_turn_give_the_whole_tape() {
    let pack = with_artifacts(&[(b"ties", b"first"), (b"accents", b"")]);
    let mut whole = vec![0; pack.len()];
    let reading = vob::read(&pack, 1000, &mut whole).unwrap();
    let (mut place, mut left, mut words) = (FIRST_SECTION, 1000, Vec::<u32>::new());
    for section in [
        Section::Name,
        Section::Structs,
        Section::Interfaces,
        Section::NamedTypes,
        Section::Itabs,
        Section::RuntimeTypes,
        Section::WellKnown,
        Section::Constants,
        Section::Globals,
        Section::Functions,
        Section::Externs,
        Section::Entry,
        Section::IslandInit,
        Section::Artifacts,
        Section::Files,
        Section::FunctionLocations,
        Section::InlineSources { functions: 0 },
    ] {
        let mut tape = vec![0; pack.len()];
        let part = vob::read_section(section, &pack, place, left, &mut tape).unwrap();
        words.extend(&tape[..part.words]);
        (place, left) = (place + part.bytes, part.left);
    }
    assert_eq!((place, left), (pack.len(), reading.left));
    assert_eq!(words, whole[..reading.words]);
}

#[test]
fn section_past_the_end() {
    for place in [113, usize::MAX] {
        let answer = vob::read_section(Section::Files, &named(b""), place, 9, &mut []);
        assert_eq!(answer, Err(Error { reason: Reason::UnexpectedEof, place, left: 9 }));
    }
}

#[test]
fn inline_functions_are_bounded_by_the_functions() {
    let pack = [0, 0, 0, 0, 1, 0, 0, 0, 0, 0, 0, 0, 0, 0, 0, 0];
    let read = |functions| vob::read_section(Section::InlineSources { functions }, &pack, 0, 32, &mut [0; 4]);
    let reason = Reason::DebugMetadataLimitExceeded { context: Context::InlineFunctions, length: 1, maximum: 0 };
    assert_eq!(read(0), Err(Error { reason, place: 8, left: 32 }));
    assert_eq!(read(1), Ok(Reading { words: 4, bytes: 16, charged: 32, left: 0 }));
}

#[test]
fn letters_composed_and_decomposed_are_alike() {
    for table in TABLES {
        let fields_of_runtime_structs = table == Table::RuntimeFields;
        let alike = |names: &[&str]| pair(table, &[names]);
        let expected = if fields_of_runtime_structs { None } else { Some((0, 1)) };
        assert_eq!(alike(&["\u{e9}", "e\u{301}"]), expected, "{table:?}");
        assert_eq!(alike(&["e\u{301}", "\u{e9}"]), expected, "{table:?}");
        assert_eq!(alike(&["\u{17e}eljko \u{10c}apek", "z\u{30c}eljko C\u{30c}apek"]), expected, "{table:?}");
        assert_eq!(alike(&["e", "\u{e9}", "\u{e8}", "e\u{302}"]), None, "{table:?}");
    }
}

#[test]
fn one_letter_at_a_time_in_the_range_alone() {
    let alike = |one, other| pair(Table::InterfaceNames, &[&[one, other]]).is_some();
    assert!(alike("\u{ea}\u{323}", "e\u{302}\u{323}"));
    // The same marks in another order, and letters outside the range.
    assert!(!alike("\u{ea}\u{323}", "e\u{323}\u{302}"));
    assert!(!alike("\u{ea}\u{323}", "\u{1ec7}"));
    assert!(!alike("e\u{302}\u{323}", "\u{1ec7}"));
    assert!(!alike("\u{1ce}", "a\u{30c}"));
    assert!(!alike("\u{212b}", "\u{c5}"));
    // The first and the last letter of the range; a letter without a decomposition; decompositions with a tag.
    assert!(alike("\u{c0}", "A\u{300}"));
    assert!(alike("\u{17e}", "z\u{30c}"));
    assert!(!alike("\u{d8}", "O\u{338}"));
    for (letter, letters) in [("\u{132}", "IJ"), ("\u{13f}", "L\u{b7}"), ("\u{149}", "\u{2bc}n"), ("\u{17f}", "s")] {
        assert!(!alike(letter, letters));
    }
}

#[test]
fn the_pair_whose_later_name_ends_earliest() {
    let (first, second): (&[&str], &[&str]) =
        (&["\u{e9}", "a", "\u{f1}"], &["o", "n\u{303}", "\u{f6}", "\u{f1}", "o\u{308}"]);
    for table in TABLES {
        if table != Table::RuntimeFields {
            // No pair stands across two tables.
            assert_eq!(pair(table, &[first, &second[..3]]), None, "{table:?}");
            assert_eq!(pair(table, &[first, second]), Some((4, 6)), "{table:?}");
        }
    }
    assert_eq!(pair(Table::Fields, &[&["_", "_", "\u{e9}", "_", "e\u{301}"]]), Some((2, 4)));
}

#[test]
fn alike_names_of_a_refused_pack() {
    let (pack, _) = with_tables(Table::Fields, &[&["\u{e9}", "e\u{301}"]]);
    // A struct of 96 bytes, and two fields of 64, names and their keys of 5, entries of 32 in the index.
    let left = STARTING_BUDGET - (96 + 2 * (64 + 5 + 32));
    let reason = Reason::UnexpectedEof;
    let place = pack.len() - 4;
    assert_eq!(vob::alike_names(&pack[..pack.len() - 1]), Err(Error { reason, place, left }));
    let (pack, starts) = with_tables(Table::InterfaceNames, &[&["\u{e9}", "e\u{301}", "\u{e9}"]]);
    let reason = Reason::DuplicateInterfaceMethod { start: starts[2] as u64, length: 2 };
    assert_eq!(vob::alike_names(&pack).unwrap_err().reason, reason);
    let error = Error { reason: Reason::UnexpectedEof, place: 0, left: STARTING_BUDGET };
    assert_eq!(vob::alike_names(&[]), Err(error));
}

#[test]
fn text_of_a_pair() {
    assert_eq!(
        AlikeNames { earlier: 27..29, later: 43..46 }.to_string(),
        "the 2 bytes from byte 27 on and the 3 bytes from byte 43 on are names that print alike: they may be one field or \
         method, sent in two forms; ask the pack's author to send one form, and do not pair by this pack before that is settled"
    );
}

#[test]
fn charge_sizes() {
    assert_eq!(vob::charge_size(0), None);
    assert_eq!(vob::charge_size(1), Some(96));
    assert_eq!(vob::charge_size(32), Some(8));
    assert_eq!(vob::charge_size(33), Some(144));
    assert_eq!(vob::charge_size(34), None);
    assert_eq!(vob::charge_size(u64::MAX), None);
}

#[test]
fn texts_of_refusals() {
    let mut host = named(b"");
    host[80] = 2;
    assert_eq!(
        refusal(&host, 288, 40).to_string(),
        "refused at byte 84: the pack declares 2 externs, and rule packs call no host: its author has to take them out"
    );
    assert_eq!(
        refusal(&host[..85], 288, 40).to_string(),
        "refused at byte 84: the pack ends before the field or list that starts here is complete"
    );
    assert_eq!(
        refusal(&host, 287, 40).to_string(),
        "refused at byte 84: a list costs 288 bytes of a budget that has 287 left"
    );
    assert_eq!(
        refusal(b"VOB\x17\0\0\0", 0, 40).to_string(),
        "refused at byte 7: the pack has version 23, and only 24 is read"
    );
    assert_eq!(
        refusal(&named(b"A"), 0, 40).to_string(),
        "refused at byte 12: a text costs 1 bytes of a budget that has 0 left"
    );
    assert_eq!(
        refusal(&named(b"\xed\xa0\x80"), 3, 40).to_string(),
        "refused at byte 14: the text that ends here is not well-formed UTF-8"
    );
    let what = FunctionMetadata::ParameterRttid { index: 2, word: 0xffff_ff18 };
    assert_eq!(
        Reason::InvalidFunctionMetadata(what).to_string(),
        "the rttid word of parameter 2, FFFFFF18 hexadecimal, is invalid"
    );
}
