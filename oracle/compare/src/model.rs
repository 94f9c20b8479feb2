//! A plain reader written from document 01, with a switch for each mistake it can make. With none it must agree with
//! the oracle; with one the comparison must notice.

use crate::calls::{Fields, Lent, Reader};
use harness::accents;
use harness::alike;
use harness::answer::RUST_BUDGET;
use harness::sizes;
use measured::serialize::MAX_VOB_BYTES;
use std::collections::{BTreeMap, BTreeSet};

macro_rules! mistakes {
    ($($name:ident: $text:literal,)*) => {
        #[derive(Clone, Copy, Debug, PartialEq, Eq)]
        pub enum Mistake {
            None,
            /// The size of this number, counted from 1, is one more.
            Size(usize),
            $(#[doc = $text] $name,)*
        }

        /// All mistakes but those of the size table.
        pub const MISTAKES: &[(Mistake, &str)] = &[$((Mistake::$name, $text),)*];
    };
}

mistakes! {
    LengthAtLimit: "a pack of exactly the maximum is refused with 1",
    LengthUnasked: "the length is not asked about",
    MagicOnTwoBytes: "the magic is judged on two bytes",
    MagicPlace: "3 shows place 0",
    VersionOneByte: "only the version's low byte is compared",
    VersionDetail: "4 shows no version",
    CutFieldPlace: "a field cut short shows the pack's end",
    CutPackedPlace: "a packed number cut short shows its start",
    FifthByte: "a fifth packed byte of 10 is admitted",
    FifthByteLate: "a fifth packed byte with its high bit asks for a sixth",
    LongForm: "a packed number in a longer form is admitted",
    ZeroPacked: "the packed number 00 is refused",
    Bool2: "bool 2 is admitted",
    BoolDetail: "7 shows no byte",
    Slot6: "slot type 6 is admitted",
    Slot5: "slot type 5 is refused",
    Kind25: "kind 25 is admitted",
    Kind24: "kind 24 is refused",
    Direction3: "direction 3 is admitted",
    RuntimeTag13: "runtime tag 13 is admitted",
    Constant5: "constant tag 5 is admitted",
    ConstantDetail: "14 shows the byte",
    Metadata6: "metadata tag 6 is admitted",
    Metadata19: "metadata tag 19 is admitted",
    Metadata9: "metadata tag 9 is refused",
    Assert2: "assert kind 2 is admitted",
    Select2: "select case 2 is admitted",
    IdBeforeKind: "the id is tested before the kind",
    IdUnasked: "id FFFFFF is admitted in an rttid",
    IdBelow: "id FFFFFE is refused",
    RttidAsMeta: "11 is told as 10",
    KindDetail: "9 of a packed word shows the word",
    TextChargeFirst: "a text is charged before its bytes are asked for",
    TextJudgedFirst: "a text is judged before it is charged",
    TextChargePlace: "5 for a text shows the place before its bytes",
    TextBytesPlace: "2 for a text's bytes shows the place before its length word",
    Surrogate: "a surrogate is well-formed",
    OverlongTwo: "C0 80 is well-formed",
    OverlongThree: "E0 80 80 is well-formed",
    OverlongFour: "F0 80 80 80 is well-formed",
    PastUnicode: "F4 90 80 80 is well-formed",
    CutCharacter: "a text may end inside a character",
    CutWithRest: "a text may end inside a character that the bytes after it complete",
    LengthAsLead: "a text goes on with a character that its length word seems to begin",
    AcrossSixteen: "a character across two parts of 16 bytes is not judged",
    AcrossParts: "a character across two parts of 240 bytes is not judged",
    EmptyStart: "an empty text starts at 0",
    Characters: "a text's length counts characters",
    CountUnasked: "a count is not held against the bytes left",
    CountStrict: "a count of exactly the bytes left is refused",
    CountChargeFirst: "a list is charged before its count is held against the bytes left",
    CountPlace: "2 for a count shows the place before the count word",
    ChargeByEntry: "a list is charged entry by entry",
    BudgetStrict: "a charge of all that is left is refused",
    BudgetEmptied: "5 shows an empty budget",
    BudgetSwapped: "5 shows what is left before what is asked",
    Context: "5 for a key shows the index's context",
    BlankInStruct: "\"_\" is not exempt among struct fields",
    BlankInRuntime: "\"_\" is not exempt among runtime struct fields",
    BlankInInterface: "\"_\" is exempt among interface methods",
    BlankInNamed: "\"_\" is exempt among named methods",
    KeySkipped: "the key charge is skipped on a repeat",
    KeysFirst: "all keys are charged before the first name is compared",
    KeyOfBlank: "\"_\" is charged as a key",
    IndexOfBlank: "the index's charge counts \"_\"",
    IndexByFields: "the index is charged before the fields are read",
    Folded: "names are compared after folding accents",
    EarlierField: "16 shows the earlier name",
    EarlierMethod: "17 shows the earlier name",
    SetsSwapped: "an interface's second list is judged first",
    SetEarly: "an interface's first list is judged before the second is read",
    SetHalf: "an interface's names are charged once",
    SetAcross: "an interface's two lists share one set",
    NamedEarly: "18 comes right after the name",
    NamedLate: "18 comes after the last method",
    NamedCount: "the method count is held against the bytes left alone",
    NamedCount15: "the method count is held against bytes left divided by 15",
    NamedSorted: "named methods stand sorted",
    NamedNext: "18 only compares with the name before",
    PackageOfName: "c of 19 is the name's start",
    PackageEarlier: "c of 19 is the earlier package's start",
    PackageUnread: "19 compares the name alone",
    PackageJoined: "19 compares package and name joined",
    RuntimeSetOfBlank: "the set of runtime struct fields is charged without \"_\"",
    TransferAtOnce: "a transfer word is judged when it is read",
    TransferLate: "capture words are judged after the capture slot types",
    TransferOrder: "all meta words are judged before the rttid words",
    TransferContext: "parameter words are told as capture words",
    TransferIndex: "20 counts entries from 1",
    SlotsAtOnce: "the slot count is judged right after the slot types",
    SlotsSwapped: "20 shows local_slots before the slot types",
    MetadataCountEarly: "as many metadata as instructions is asked before their list",
    MetadataCountLate: "as many metadata as instructions is asked after the capture types",
    MetadataFewer: "fewer metadata than instructions are admitted",
    LongHighFirst: "a 64-bit number's high word comes first",
    OptionalRaw: "an optional id is shown as stored",
    OptionalShort: "an absent optional id is one word",
    OffsetsAlways: "absent field offsets are shown as zeros",
    NanQuieted: "a signalling NaN is shown quiet",
    SignLost: "a negative error slot loses its upper half",
    ChannelAsPort: "a port is shown as a channel",
    HostCallsFirst: "25 comes before the bytes left",
    HostCallsUncharged: "25 comes before the extern list's charge",
    HostCallsLeft: "25 shows the budget before the extern list's charge",
    HostCallsPlace: "25 shows the place before the count word",
    HostCallsDetail: "25 shows the bytes left in place of the count",
    ExternsChargedFirst: "externs are charged before their count is held against the bytes left",
    ExternsStrict: "an extern count of exactly the bytes left is refused with 2",
    ExternsAsFunctions: "an extern is charged the size of a function",
    ExternsContext: "5 for externs shows the context of artifacts",
    HostCallsTaken: "externs are skipped",
    NoExternWord: "the extern count is not on the tape",
    Artifacts63: "64 artifacts are refused",
    Artifacts65: "65 artifacts are admitted",
    ArtifactsCounted: "the artifact count is held against the bytes left",
    ArtifactsByEntry: "artifacts are charged one by one",
    ArtifactNameLimit: "an artifact name of 128 bytes is refused",
    ArtifactNameLate: "the artifact name's limit comes after its bytes",
    ArtifactNameUnread: "an artifact name need not be well-formed",
    ArtifactNameContext: "an artifact name is charged as a byte string",
    PayloadLimit: "a payload of 16,777,216 bytes is refused with 22",
    PayloadLate: "the payload's limit comes after its bytes",
    PayloadText: "a payload has to be well-formed text",
    FramesLimit: "131,073 frames are admitted",
    FunctionBound: "the function count does not bound the inline functions",
    FunctionBoundLate: "an inline limit comes after the bytes left",
    EntriesApart: "each inline function has 131,072 entries of its own",
    EntriesDetail: "23 for entries shows the whole limit",
    TrailingAs2: "24 is told as 2",
    TrailingTaken: "bytes after the end are admitted",
    TrailingDetail: "24 shows no number of bytes",
    RoomFirst: "26 comes before 24",
    RoomStrict: "a tape of exactly the words needed is too short",
    RoomSwapped: "26 shows the tape's length before the words needed",
    RoomPlace: "26 shows place 0",
    TapeAlone: "the tape is left alone",
    TapeLastWord: "the last word is not written",
    TapePast: "one word past the counted ones is written",
    TapeBefore: "the word before the lent tape is written",
    RefusalWrites: "a refusal writes what was read",
    RoomWrites: "26 writes what fits",
    PackWritten: "a byte of the pack is changed",
    ChargedSwapped: "charged and left are swapped",
    LastArtifact: "the lookup gives the last of repeats",
    PrefixName: "the lookup takes a name that begins with the one asked for",
    FoldedName: "the lookup folds accents",
    SortedNames: "the lookup takes the names to be sorted, as the Rust's does",
    LookupUnread: "the lookup finds an artifact of a pack that is refused after it",
    LookupPlace: "27 shows place 0",
    LookupLeft: "27 shows the starting budget",
    AlikeUnlooked: "no names are alike, said before looking",
    AlikeRefused: "no names are alike in a pack that is refused",
    AlikeUnread: "a pair is shown of a pack that is refused after it",
    AlikeBudget: "names that print alike are looked for under any budget",
    AlikeLast: "the pair whose later name ends last",
    AlikeEarliest: "the pair whose earlier name stands first",
    AlikeSwapped: "of a pair the later name is shown first",
    AlikeUnmarked: "a pair is shown without its 1",
    AlikeLengthWord: "a pair's names start at their length words",
    AlikeFoldedLength: "a pair's lengths are those of the replaced text",
    AlikeCharacters: "a pair's lengths count characters",
    AlikeOneLength: "the later name is shown with the earlier one's length",
    AlikeAcross: "pairs stand across tables",
    AlikeLists: "an interface's two lists are one table",
    AlikeRecords: "the records of a section are one table",
    AlikeFirstTable: "only the first table is looked at",
    AlikeFirstRecord: "only the first table of each kind is looked at",
    AlikeNotFields: "a struct's fields are no table",
    AlikeNotNames: "an interface's method names are no table",
    AlikeNotMethods: "an interface's methods are no table",
    AlikeNotNamed: "a named type's methods are no table",
    AlikeNotRuntime: "a runtime interface's methods are no table",
    AlikeRuntimeFields: "a runtime struct's fields are a table",
    AlikeBlank: "\"_\" is alike to \"_\" among struct fields",
    AlikeNamedSorted: "named methods are looked at in the order of the Rust's map",
    AlikeNeighbours: "a name is held against the one before it alone",
    AlikeNarrow: "tables of 24 names and more are left out",
    AlikeMost: "only the first 1,024 names of a table are looked at",
    AlikeSameLength: "only names of one length are alike",
    AlikePrefix: "only the first 16 characters are compared",
    AlikeEarlierAlone: "the earlier name alone is replaced",
    AlikeLaterAlone: "the later name alone is replaced",
    AlikeOneLetter: "only a name's first letter is replaced",
    AlikeFirstLetter: "U+00C0 stays",
    AlikeLastLetter: "U+017E stays",
    AlikeTagged: "compatibility decompositions are taken too",
    AlikeSecondRange: "letters of U+0180 to U+024F are replaced too",
    AlikeThirdRange: "letters of U+1E00 to U+1EFF are replaced too",
    AlikeSingletons: "codes that are the same character as another are replaced",
    AlikeReordered: "marks are put in canonical order",
    AlikeUnmarkedLetters: "marks are left out",
    AlikeMarkLost: "a mark after a replaced letter is left out",
    AlikeCase: "capital and small letters are alike",
    SectionTrailing: "a section call puts the question of 24",
    SectionBytes: "a section's bytes count from the pack's start",
    SectionPlace: "26 of a section call shows its bytes as place",
    SectionPast: "a place past the end shows the pack's length",
    SectionStarts: "a section's texts start from its place",
    SectionLength: "a section call does not put question 1",
    SectionFunctions: "a section call counts one function more",
}

#[derive(Clone, Copy)]
struct Refusal {
    number: u64,
    c: u64,
    d1: u64,
    d2: u64,
}

type Step<T> = Result<T, Refusal>;

fn refuse<T>(number: u64, c: u64, d1: u64, d2: u64) -> Step<T> {
    Err(Refusal { number, c, d1, d2 })
}

fn ask(good: bool, number: u64, c: u64, d1: u64, d2: u64) -> Step<()> {
    if good {
        Ok(())
    } else {
        refuse(number, c, d1, d2)
    }
}

/// Start and bytes of a text.
type Text<'a> = (usize, &'a [u8]);

const MAX_INLINE: u64 = 131_072;

fn folded(name: &[u8]) -> Vec<u8> {
    alike::folded(&String::from_utf8_lossy(name)).into_bytes()
}

/// What a table of names stands in.
#[derive(Clone, Copy, PartialEq, Eq, PartialOrd, Ord)]
enum Table {
    Fields,
    Names,
    Methods,
    Named,
    RuntimeFields,
    Runtime,
}

fn is_mark(character: char) -> bool {
    ('\u{300}'..='\u{36f}').contains(&character)
}

/// The canonical combining class of a mark that the inputs have.
fn combining_class(mark: char) -> u8 {
    match mark {
        '\u{335}' | '\u{338}' => 1,
        '\u{327}' | '\u{328}' => 202,
        '\u{31b}' => 216,
        '\u{323}' | '\u{325}' | '\u{326}' => 220,
        _ => 230,
    }
}

/// How many of a text's first bytes go on with what the three bytes before it seem to begin.
fn seems_begun(before: &[u8], text: &[u8]) -> usize {
    let asked = before.iter().rev().zip([0xC0, 0xE0, 0xF0]).filter(|(byte, least)| *byte >= least).count();
    let there = text.iter().take_while(|byte| *byte & 0xC0 == 0x80).count();
    asked.min(there)
}

pub struct Model {
    mistake: Mistake,
    sizes: [u64; 33],
}

struct Cursor<'a> {
    mistake: Mistake,
    sizes: &'a [u64; 33],
    pack: &'a [u8],
    place: usize,
    left: u64,
    words: Vec<u32>,
    artifacts: Vec<(&'a [u8], usize, usize)>,
    tables: Vec<(Table, Vec<Text<'a>>)>,
    functions: u64,
}

impl Model {
    pub fn new(mistake: Mistake) -> Self {
        let mut sizes = sizes::table().map(|(_, size)| size);
        if let Mistake::Size(number) = mistake {
            sizes[number - 1] += 1;
        }
        Model { mistake, sizes }
    }

    fn cursor<'a>(&'a self, pack: &'a [u8], place: usize, budget: u64) -> Cursor<'a> {
        Cursor {
            mistake: self.mistake,
            sizes: &self.sizes,
            pack,
            place,
            left: budget,
            words: Vec::new(),
            artifacts: Vec::new(),
            tables: Vec::new(),
            functions: 0,
        }
    }

    fn is(&self, mistake: Mistake) -> bool {
        self.mistake == mistake
    }

    /// A name as it is compared: as the earlier or the later one of two.
    fn alike_key(&self, name: &[u8], later: bool) -> Vec<char> {
        let text = String::from_utf8_lossy(name);
        let mut out: Vec<char> = Vec::new();
        let mut replaced = 0;
        for character in text.chars() {
            let alone = character.to_string();
            let others = || accents::STAY.iter().chain(&accents::NOT_ALIKE);
            let other = |range: std::ops::RangeInclusive<u32>| {
                let row = others().find(|(code, _)| range.contains(&(character as u32)) && *code == alone);
                row.map_or(alone.clone(), |(_, parts)| parts.to_string())
            };
            let parts = match self.mistake {
                Mistake::AlikeEarlierAlone if later => alone.clone(),
                Mistake::AlikeLaterAlone if !later => alone.clone(),
                Mistake::AlikeOneLetter if replaced > 0 => alone.clone(),
                Mistake::AlikeFirstLetter if character == '\u{c0}' => alone.clone(),
                Mistake::AlikeLastLetter if character == '\u{17e}' => alone.clone(),
                Mistake::AlikeTagged if "\u{132}\u{133}\u{13f}\u{140}\u{149}\u{17f}".contains(character) => {
                    other(0..=0x17F)
                }
                Mistake::AlikeSecondRange if character > '\u{17f}' => other(0x180..=0x24F),
                Mistake::AlikeThirdRange if character > '\u{17f}' => other(0x1E00..=0x1EFF),
                Mistake::AlikeSingletons if character > '\u{17f}' => match character {
                    '\u{340}' => "\u{300}".to_string(),
                    _ => other(0x2000..=0x2FFF),
                },
                Mistake::AlikeMarkLost if replaced == out.len() && replaced > 0 && is_mark(character) => continue,
                _ => alike::folded(&alone),
            };
            out.extend(parts.chars());
            if parts != alone {
                replaced = out.len();
            }
        }
        match self.mistake {
            Mistake::AlikeReordered => out
                .chunk_by_mut(|a, b| is_mark(*a) && is_mark(*b))
                .for_each(|marks| marks.sort_by_key(|mark| combining_class(*mark))),
            Mistake::AlikeUnmarkedLetters => out.retain(|character| !is_mark(*character)),
            Mistake::AlikeCase => out.iter_mut().for_each(|character| character.make_ascii_lowercase()),
            Mistake::AlikePrefix => out.truncate(16),
            _ => {}
        }
        out
    }

    /// The tables that are looked at.
    fn alike_tables<'a>(&self, mut read: Vec<(Table, Vec<Text<'a>>)>) -> Vec<Vec<Text<'a>>> {
        let left_out = match self.mistake {
            Mistake::AlikeNotFields => Some(Table::Fields),
            Mistake::AlikeNotNames => Some(Table::Names),
            Mistake::AlikeNotMethods => Some(Table::Methods),
            Mistake::AlikeNotNamed => Some(Table::Named),
            Mistake::AlikeNotRuntime => Some(Table::Runtime),
            _ => None,
        };
        read.retain(|(table, _)| Some(*table) != left_out);
        if !self.is(Mistake::AlikeBlank) {
            let fields = read.iter_mut().filter(|(table, _)| *table == Table::Fields);
            fields.for_each(|(_, names)| names.retain(|(_, name)| *name != b"_"));
        }
        match self.mistake {
            Mistake::AlikeFirstTable => read.truncate(1),
            Mistake::AlikeFirstRecord => {
                let mut seen = BTreeSet::new();
                read.retain(|(table, _)| seen.insert(*table));
            }
            Mistake::AlikeNarrow => read.retain(|(_, names)| names.len() < 24),
            Mistake::AlikeMost => read.iter_mut().for_each(|(_, names)| names.truncate(1_024)),
            Mistake::AlikeNamedSorted => {
                let named = read.iter_mut().filter(|(table, _)| *table == Table::Named);
                named.for_each(|(_, names)| names.sort_by_key(|(_, name)| *name));
            }
            _ => {}
        }
        let joined = |a: Table, b: Table| match self.mistake {
            Mistake::AlikeAcross => true,
            Mistake::AlikeLists => (a, b) == (Table::Names, Table::Methods),
            Mistake::AlikeRecords => a == b,
            _ => false,
        };
        read.chunk_by(|(a, _), (b, _)| joined(*a, *b))
            .map(|tables| tables.iter().flat_map(|(_, names)| names.iter().copied()).collect())
            .collect()
    }

    fn pair<'a>(&self, tables: Vec<(Table, Vec<Text<'a>>)>) -> Option<(Text<'a>, Text<'a>)> {
        let mut pairs: Vec<(Text, Text)> = Vec::new();
        for names in self.alike_tables(tables) {
            let mut seen: BTreeMap<Vec<char>, Vec<usize>> = BTreeMap::new();
            for (i, later) in names.iter().enumerate() {
                let before = seen.get(&self.alike_key(later.1, true)).into_iter().flatten().copied();
                let partners = before.filter(|j| match self.mistake {
                    Mistake::AlikeSameLength => names[*j].1.len() == later.1.len(),
                    Mistake::AlikeNeighbours => j + 1 == i,
                    _ => true,
                });
                pairs.extend(partners.max().map(|j| (names[j], *later)));
                seen.entry(self.alike_key(later.1, false)).or_default().push(i);
            }
        }
        match self.mistake {
            Mistake::AlikeUnlooked => None,
            Mistake::AlikeLast => pairs.into_iter().max_by_key(|(_, later)| later.0),
            Mistake::AlikeEarliest => pairs.into_iter().min_by_key(|(earlier, _)| earlier.0),
            // Their order by place is lost.
            Mistake::AlikeNamedSorted => pairs.into_iter().next(),
            _ => pairs.into_iter().min_by_key(|(_, later)| later.0),
        }
    }

    /// The answer of a reading that began at `start`, and the tape.
    fn close(&self, r: &Cursor, read: Step<()>, start: usize, budget: u64, tape: &mut [u32]) -> Fields {
        let needed = r.words.len();
        let room = || {
            let short = needed > tape.len() || (self.is(Mistake::RoomStrict) && needed == tape.len());
            let (d1, d2) = (needed as u64, tape.len() as u64);
            ask(!short, 26, 0, d1, d2)
        };
        let read = match read {
            Err(Refusal { number: 24, .. }) if self.is(Mistake::RoomFirst) => room().and(read),
            _ => read.and_then(|()| room()),
        };
        let write = |tape: &mut [u32], count: usize| {
            let count = count.min(tape.len());
            tape[..count].copy_from_slice(&r.words[..count]);
        };
        match read {
            Ok(()) => {
                match self.mistake {
                    Mistake::TapeAlone => {}
                    Mistake::TapeLastWord => write(tape, needed - 1),
                    _ => write(tape, needed),
                }
                if self.is(Mistake::TapePast) && tape.len() > needed {
                    tape[needed] = 0;
                }
                let bytes = if self.is(Mistake::SectionBytes) { r.place } else { r.place - start };
                let (mut charged, mut left) = (budget - r.left, r.left);
                if self.is(Mistake::ChargedSwapped) {
                    std::mem::swap(&mut charged, &mut left);
                }
                [0, needed as u64, bytes as u64, charged, left, 0]
            }
            Err(Refusal { number, c, mut d1, mut d2 }) => {
                let mut place = r.place;
                match (self.mistake, number) {
                    (Mistake::RefusalWrites, _) => write(tape, needed),
                    (Mistake::RoomWrites, 26) => write(tape, needed),
                    (Mistake::RoomSwapped, 26) => std::mem::swap(&mut d1, &mut d2),
                    (Mistake::RoomPlace, 26) => place = 0,
                    (Mistake::SectionPlace, 26) => place -= start,
                    _ => {}
                }
                [number, c, d1, d2, place as u64, r.left]
            }
        }
    }
}

impl Reader for Model {
    unsafe fn read(&mut self, pack: Lent<u8>, budget: u64, tape: Lent<u32>) -> Fields {
        if self.is(Mistake::PackWritten) && pack.length > 7 {
            *pack.start.add(7) ^= 1;
        }
        if self.is(Mistake::TapeBefore) && tape.length > 0 {
            *tape.start.sub(1) = 0;
        }
        let mut r = self.cursor(pack.slice(), 0, budget);
        let read = r.whole();
        self.close(&r, read, 0, budget, tape.slice_mut())
    }

    unsafe fn section(
        &mut self,
        number: usize,
        pack: Lent<u8>,
        place: u64,
        budget: u64,
        functions: u64,
        tape: Lent<u32>,
    ) -> Fields {
        let length = pack.length as u64;
        if pack.length > MAX_VOB_BYTES && !self.is(Mistake::SectionLength) {
            return [1, 0, length, MAX_VOB_BYTES as u64, place, budget];
        }
        if place > length {
            return [2, 0, 0, 0, if self.is(Mistake::SectionPast) { length } else { place }, budget];
        }
        let start = place as usize;
        let mut r = self.cursor(pack.slice(), start, budget);
        r.functions = if self.is(Mistake::SectionFunctions) { functions.saturating_add(1) } else { functions };
        let mut read = r.section(number);
        if self.is(Mistake::SectionTrailing) {
            read = read.and_then(|()| ask(r.bytes_left() == 0, 24, 0, r.bytes_left(), 0));
        }
        if self.is(Mistake::SectionStarts) && number == 1 && read.is_ok() {
            r.words[0] -= start as u32;
        }
        self.close(&r, read, start, budget, tape.slice_mut())
    }

    unsafe fn lookup(&mut self, pack: Lent<u8>, name: &[u8]) -> Fields {
        let mut r = self.cursor(pack.slice(), 0, RUST_BUDGET);
        let read = r.whole();
        let same = |other: &[u8]| match self.mistake {
            Mistake::PrefixName => other.starts_with(name),
            Mistake::FoldedName => folded(other) == folded(name),
            _ => other == name,
        };
        let mut matches = r.artifacts.iter().filter(|(other, _, _)| same(other));
        let found = match self.mistake {
            Mistake::LastArtifact => matches.next_back(),
            Mistake::SortedNames => {
                r.artifacts.binary_search_by(|(other, _, _)| (*other).cmp(name)).ok().map(|at| &r.artifacts[at])
            }
            _ => matches.next(),
        };
        match (read, found) {
            (Err(Refusal { number, c, d1, d2 }), _) if !(self.is(Mistake::LookupUnread) && found.is_some()) => {
                [number, c, d1, d2, r.place as u64, r.left]
            }
            (_, Some((_, start, length))) => [0, *start as u64, *length as u64, 0, 0, 0],
            (_, None) => {
                let place = if self.is(Mistake::LookupPlace) { 0 } else { r.place as u64 };
                let left = if self.is(Mistake::LookupLeft) { RUST_BUDGET } else { r.left };
                [27, 0, 0, 0, place, left]
            }
        }
    }

    unsafe fn alike_names(&mut self, pack: Lent<u8>) -> Fields {
        let more = if self.is(Mistake::AlikeBudget) { 1 << 40 } else { 0 };
        let mut r = self.cursor(pack.slice(), 0, RUST_BUDGET + more);
        let read = r.whole();
        r.left = r.left.saturating_sub(more);
        let pair = self.pair(std::mem::take(&mut r.tables));
        match (read, pair) {
            (Err(_), _) if self.is(Mistake::AlikeRefused) => [0; 6],
            (Err(Refusal { number, c, d1, d2 }), _) if !(self.is(Mistake::AlikeUnread) && pair.is_some()) => {
                [number, c, d1, d2, r.place as u64, r.left]
            }
            (_, None) => [0; 6],
            (_, Some((earlier, later))) => {
                let [[start, length], [later_start, mut later_length]] = [earlier, later].map(|name| self.shown(name));
                match self.mistake {
                    Mistake::AlikeOneLength => later_length = length,
                    Mistake::AlikeSwapped => return [0, 1, later_start, later_length, start, length],
                    Mistake::AlikeUnmarked => return [0, 0, start, length, later_start, later_length],
                    _ => {}
                }
                [0, 1, start, length, later_start, later_length]
            }
        }
    }
}

impl Model {
    /// Start and length of a pair's name as they are shown.
    fn shown(&self, (start, name): Text) -> [u64; 2] {
        let start = if self.is(Mistake::AlikeLengthWord) { start - 4 } else { start };
        let length = match self.mistake {
            Mistake::AlikeFoldedLength => folded(name).len(),
            Mistake::AlikeCharacters => String::from_utf8_lossy(name).chars().count(),
            _ => name.len(),
        };
        [start as u64, length as u64]
    }
}

impl<'a> Cursor<'a> {
    fn is(&self, mistake: Mistake) -> bool {
        self.mistake == mistake
    }

    fn whole(&mut self) -> Step<()> {
        let (length, most) = (self.pack.len() as u64, MAX_VOB_BYTES as u64);
        let within = length < most || (length == most && !self.is(Mistake::LengthAtLimit));
        ask(within || self.is(Mistake::LengthUnasked), 1, 0, length, most)?;
        if self.is(Mistake::MagicOnTwoBytes) && self.pack.len() == 2 {
            ask(self.pack == b"VO", 3, 0, 0, 0)?;
        }
        ask(self.pack.len() >= 3, 2, 0, 0, 0)?;
        self.place = 3;
        if &self.pack[..3] != b"VOB" {
            if self.is(Mistake::MagicPlace) {
                self.place = 0;
            }
            return refuse(3, 0, 0, 0);
        }
        let version = self.number(4)?;
        let same = version == 24 || (self.is(Mistake::VersionOneByte) && version % 256 == 24);
        ask(same, 4, 0, if self.is(Mistake::VersionDetail) { 0 } else { version }, 0)?;
        for number in 1..=17 {
            self.section(number)?;
        }
        let left = self.bytes_left();
        match self.mistake {
            Mistake::TrailingTaken => Ok(()),
            Mistake::TrailingAs2 => ask(left == 0, 2, 0, 0, 0),
            Mistake::TrailingDetail => ask(left == 0, 24, 0, 0, 0),
            _ => ask(left == 0, 24, 0, left, 0),
        }
    }

    fn section(&mut self, number: usize) -> Step<()> {
        match number {
            1 => self.text().map(drop),
            2 => self.list(1, Self::structure).map(drop),
            3 => self.list(5, Self::interface).map(drop),
            4 => self.list(9, Self::named_type).map(drop),
            5 => self
                .list(12, |r| {
                    r.u32()?;
                    r.list(13, Self::u32).map(drop)
                })
                .map(drop),
            6 => self.list(14, Self::runtime_type).map(drop),
            7 => self.well_known(),
            8 => self.list(19, Self::constant).map(drop),
            9 => self
                .list(20, |r| {
                    r.text()?;
                    r.u16()?;
                    r.kind()?;
                    r.u32()?;
                    r.slots().map(drop)
                })
                .map(drop),
            10 => {
                self.functions = self.list(21, Self::function)?.len() as u64;
                Ok(())
            }
            11 => self.externs(),
            12 | 13 => self.u32(),
            14 => self.read_artifacts(),
            15 => self.list(6, Self::text).map(drop),
            16 => self.list(28, |r| r.list(29, |r| (0..5).try_for_each(|_| r.packed_number())).map(drop)).map(drop),
            _ => self.inline(),
        }
    }

    // Leaves.

    fn bytes_left(&self) -> u64 {
        (self.pack.len() - self.place) as u64
    }

    fn put(&mut self, word: u64) {
        self.words.push(word as u32);
    }

    fn number(&mut self, width: usize) -> Step<u64> {
        if self.bytes_left() < width as u64 {
            if self.is(Mistake::CutFieldPlace) {
                self.place = self.pack.len();
            }
            return refuse(2, 0, 0, 0);
        }
        let bytes = &self.pack[self.place..self.place + width];
        self.place += width;
        Ok(bytes.iter().rev().fold(0, |value, byte| value << 8 | *byte as u64))
    }

    fn u8(&mut self) -> Step<()> {
        self.number(1).map(|value| self.put(value))
    }

    fn u16(&mut self) -> Step<()> {
        self.number(2).map(|value| self.put(value))
    }

    fn u32(&mut self) -> Step<()> {
        self.number(4).map(|value| self.put(value))
    }

    fn u64(&mut self) -> Step<()> {
        let value = self.number(8)?;
        self.put_long(value);
        Ok(())
    }

    fn put_long(&mut self, value: u64) {
        let (first, second) = (value, value >> 32);
        let high_first = self.is(Mistake::LongHighFirst);
        self.put(if high_first { second } else { first });
        self.put(if high_first { first } else { second });
    }

    fn optional_id(&mut self) -> Step<()> {
        let stored = self.number(4)?;
        self.put((stored != 0) as u64);
        if stored == 0 && self.is(Mistake::OptionalShort) {
            return Ok(());
        }
        self.put(if self.is(Mistake::OptionalRaw) { stored } else { stored.saturating_sub(1) });
        Ok(())
    }

    /// A byte up to `most`; `also` is one more that a mistake admits.
    fn byte(&mut self, most: u64, number: u64, shown: bool, also: Option<u64>) -> Step<u64> {
        let byte = self.number(1)?;
        ask(byte <= most || also == Some(byte), number, 0, if shown { byte } else { 0 }, 0)?;
        self.put(byte);
        Ok(byte)
    }

    fn admits(&self, mistake: Mistake, byte: u64) -> Option<u64> {
        self.is(mistake).then_some(byte)
    }

    fn boolean(&mut self) -> Step<bool> {
        let shown = !self.is(Mistake::BoolDetail);
        Ok(self.byte(1, 7, shown, self.admits(Mistake::Bool2, 2))? != 0)
    }

    fn slot_type(&mut self) -> Step<()> {
        let most = if self.is(Mistake::Slot5) { 4 } else { 5 };
        self.byte(most, 8, true, self.admits(Mistake::Slot6, 6)).map(drop)
    }

    fn most_kind(&self) -> u64 {
        match self.mistake {
            Mistake::Kind25 => 25,
            Mistake::Kind24 => 23,
            _ => 24,
        }
    }

    fn kind(&mut self) -> Step<()> {
        self.byte(self.most_kind(), 9, true, None).map(drop)
    }

    fn direction(&mut self) -> Step<()> {
        self.byte(2, 12, true, self.admits(Mistake::Direction3, 3)).map(drop)
    }

    fn packed_word(&mut self, number: u64) -> Step<()> {
        let word = self.number(4)?;
        let (kind, id) = (word % 256, word >> 8);
        let last = if self.is(Mistake::IdBelow) { 0xFFFFFD } else { 0xFFFFFE };
        let unasked = self.is(Mistake::IdUnasked) && number == 11;
        let told = if self.is(Mistake::RttidAsMeta) { 10 } else { number };
        let judge_kind = ask(kind <= self.most_kind(), 9, 0, if self.is(Mistake::KindDetail) { word } else { kind }, 0);
        let judge_id = ask(id <= last || unasked, told, 0, word, 0);
        if self.is(Mistake::IdBeforeKind) {
            judge_id.and(judge_kind)?;
        } else {
            judge_kind.and(judge_id)?;
        }
        self.put(word);
        Ok(())
    }

    fn meta(&mut self) -> Step<()> {
        self.packed_word(10)
    }

    fn rttid(&mut self) -> Step<()> {
        self.packed_word(11)
    }

    fn packed_number(&mut self) -> Step<()> {
        let start = self.place;
        let mut value = 0;
        let last = if self.is(Mistake::FifthByteLate) { 6 } else { 5 };
        for index in 0..last {
            if self.bytes_left() == 0 && self.is(Mistake::CutPackedPlace) {
                self.place = start;
                return refuse(2, 0, 0, 0);
            }
            let byte = self.number(1)?;
            let fifth = match self.mistake {
                Mistake::FifthByte => 0x10,
                Mistake::FifthByteLate => 0xFF,
                _ => 0x0F,
            };
            ask(index < 4 || byte <= fifth, 21, 0, 0, 0)?;
            ask(index < 5, 21, 0, 0, 0)?;
            ask(index == 0 || byte != 0 || self.is(Mistake::LongForm), 21, 0, 0, 0)?;
            ask(index != 0 || byte != 0 || !self.is(Mistake::ZeroPacked), 21, 0, 0, 0)?;
            value += (byte & 0x7F) << (7 * index);
            if byte < 0x80 {
                break;
            }
        }
        self.put(value);
        Ok(())
    }

    fn charge(&mut self, context: u64, amount: u64) -> Step<()> {
        let short = amount > self.left || (self.is(Mistake::BudgetStrict) && amount == self.left && amount > 0);
        if short {
            let left = self.left;
            if self.is(Mistake::BudgetEmptied) {
                self.left = 0;
            }
            let context = if self.is(Mistake::Context) && context == 4 { 3 } else { context };
            return if self.is(Mistake::BudgetSwapped) {
                refuse(5, context, left, amount)
            } else {
                refuse(5, context, amount, left)
            };
        }
        self.left -= amount;
        Ok(())
    }

    fn text(&mut self) -> Step<Text<'a>> {
        self.text_within(1, u64::MAX)
    }

    fn text_within(&mut self, context: u64, limit: u64) -> Step<Text<'a>> {
        let artifact = context == 9;
        let context = if self.is(Mistake::ArtifactNameContext) { 1 } else { context };
        let before = self.place;
        let length = self.number(4)?;
        let late = artifact && self.is(Mistake::ArtifactNameLate);
        if !late {
            ask(length <= limit, 22, context, length, limit)?;
        }
        if self.is(Mistake::TextChargeFirst) {
            self.charge(context, length)?;
        }
        if length > self.bytes_left() {
            if self.is(Mistake::TextBytesPlace) {
                self.place = before;
            }
            return refuse(2, 0, 0, 0);
        }
        if late {
            ask(length <= limit, 22, context, length, limit)?;
        }
        let start = self.place;
        let text = &self.pack[start..start + length as usize];
        let judged = self.well_formed(start, text) || (artifact && self.is(Mistake::ArtifactNameUnread));
        self.place += length as usize;
        if self.is(Mistake::TextJudgedFirst) {
            ask(judged, 6, 0, 0, 0)?;
        }
        if !self.is(Mistake::TextChargeFirst) {
            let charged = self.charge(context, length);
            if charged.is_err() && self.is(Mistake::TextChargePlace) {
                self.place = start;
            }
            charged?;
        }
        ask(judged, 6, 0, 0, 0)?;
        self.put(if length == 0 && self.is(Mistake::EmptyStart) { 0 } else { start as u64 });
        let characters = text.iter().filter(|byte| **byte & 0xC0 != 0x80).count() as u64;
        self.put(if self.is(Mistake::Characters) { characters } else { length });
        Ok((start, text))
    }

    /// The Unicode Standard's table 3-7, on the text at `start`.
    fn well_formed(&self, start: usize, text: &[u8]) -> bool {
        let part = match self.mistake {
            Mistake::AcrossSixteen => 16,
            Mistake::AcrossParts => 240,
            _ => usize::MAX,
        };
        let continues = |byte: &u8| byte & 0xC0 == 0x80;
        let mut at = if self.is(Mistake::LengthAsLead) { seems_begun(&self.pack[..start], text) } else { 0 };
        while let Some(first) = text.get(at) {
            let (second, length) = match first {
                0x00..=0x7F => (0..=0xFF, 1),
                0xC0 if self.is(Mistake::OverlongTwo) => (0x80..=0x80, 2),
                0xC2..=0xDF => (0x80..=0xBF, 2),
                0xE0 if !self.is(Mistake::OverlongThree) => (0xA0..=0xBF, 3),
                0xED if !self.is(Mistake::Surrogate) => (0x80..=0x9F, 3),
                0xE0..=0xEF => (0x80..=0xBF, 3),
                0xF0 if !self.is(Mistake::OverlongFour) => (0x90..=0xBF, 4),
                0xF4 if !self.is(Mistake::PastUnicode) => (0x80..=0x8F, 4),
                0xF0..=0xF4 => (0x80..=0xBF, 4),
                _ => return false,
            };
            let last = at + length - 1;
            if at / part != last / part {
                at = last / part * part;
                at += text[text.len().min(at)..].iter().take_while(|byte| continues(byte)).count();
                continue;
            }
            let all = if self.is(Mistake::CutWithRest) { &self.pack[start..] } else { text };
            if last >= all.len() {
                return self.is(Mistake::CutCharacter);
            }
            if length > 1 && !second.contains(&all[at + 1]) || !all[at + 1..=last].iter().all(continues) {
                return false;
            }
            at = last + 1;
        }
        true
    }

    /// The count word of a list of entries of the size with this number, held against the bytes left and charged.
    fn count(&mut self, size: usize) -> Step<u64> {
        let before = self.place;
        let count = self.number(4)?;
        let amount = count * self.sizes[size - 1];
        if self.is(Mistake::CountChargeFirst) {
            self.charge(2, amount)?;
        }
        let within = match self.mistake {
            // A count that can't be met is found out by its entries.
            Mistake::CountUnasked => true,
            Mistake::CountStrict => count < self.bytes_left() || count == 0,
            _ => count <= self.bytes_left(),
        };
        if !within {
            if self.is(Mistake::CountPlace) {
                self.place = before;
            }
            return refuse(2, 0, 0, 0);
        }
        if !self.is(Mistake::CountChargeFirst) && !self.is(Mistake::ChargeByEntry) {
            self.charge(2, amount)?;
        }
        self.put(count);
        Ok(count)
    }

    fn list<T>(&mut self, size: usize, item: impl FnMut(&mut Self) -> Step<T>) -> Step<Vec<T>> {
        let count = self.count(size)?;
        self.entries(count, size, item)
    }

    fn entries<T>(&mut self, count: u64, size: usize, mut item: impl FnMut(&mut Self) -> Step<T>) -> Step<Vec<T>> {
        let mut out = Vec::new();
        for _ in 0..count {
            if self.is(Mistake::ChargeByEntry) {
                self.charge(2, self.sizes[size - 1])?;
            }
            out.push(item(self)?);
        }
        Ok(out)
    }

    fn slots(&mut self) -> Step<u64> {
        Ok(self.list(2, Self::slot_type)?.len() as u64)
    }

    // Names.

    fn key(&self, name: &[u8]) -> Vec<u8> {
        if self.is(Mistake::Folded) {
            folded(name)
        } else {
            name.to_vec()
        }
    }

    fn structure(&mut self) -> Step<()> {
        self.slots()?;
        let early = self.is(Mistake::IndexByFields);
        if early {
            // The count word is read ahead, as a reader might that sizes its table first.
            if let Some(bytes) = self.pack.get(self.place..self.place + 4) {
                let count = u32::from_le_bytes(bytes.try_into().expect("four bytes")) as u64;
                if count <= self.bytes_left() - 4 {
                    self.charge(3, count * self.sizes[3])?;
                }
            }
        }
        let fields = self.list(3, |r| {
            let name = r.text()?;
            r.u16()?;
            r.u16()?;
            r.rttid()?;
            r.boolean()?;
            if r.boolean()? {
                r.text()?;
            }
            Ok(name)
        })?;
        self.tables.push((Table::Fields, fields.clone()));
        let exempt = |name: &[u8]| name == b"_" && !self.is(Mistake::BlankInStruct);
        let names: Vec<Text> = fields.iter().copied().filter(|(_, name)| !exempt(name)).collect();
        let counted = if self.is(Mistake::IndexOfBlank) { fields.len() } else { names.len() };
        if !early {
            self.charge(3, counted as u64 * self.sizes[3])?;
        }
        if self.is(Mistake::KeyOfBlank) {
            let blanks = fields.len() - names.len();
            self.charge(4, blanks as u64)?;
        }
        if self.is(Mistake::KeysFirst) {
            for (_, name) in &names {
                self.charge(4, name.len() as u64)?;
            }
        }
        let mut seen = BTreeMap::new();
        for (start, name) in names {
            let earlier = seen.get(&self.key(name)).copied();
            let skipped = self.is(Mistake::KeySkipped) && earlier.is_some();
            if !skipped && !self.is(Mistake::KeysFirst) {
                self.charge(4, name.len() as u64)?;
            }
            if let Some(earlier) = earlier {
                let shown = if self.is(Mistake::EarlierField) { earlier } else { start };
                return refuse(16, 0, shown as u64, name.len() as u64);
            }
            seen.insert(self.key(name), start);
        }
        Ok(())
    }

    fn interface(&mut self) -> Step<()> {
        self.text()?;
        let names = self.list(6, Self::text)?;
        if self.is(Mistake::SetEarly) {
            self.method_set(&names)?;
        }
        let methods = self.list(7, |r| {
            let name = r.text()?;
            r.u32()?;
            Ok(name)
        })?;
        self.tables.extend([(Table::Names, names.clone()), (Table::Methods, methods.clone())]);
        match self.mistake {
            Mistake::SetEarly => self.method_set(&methods),
            Mistake::SetsSwapped => {
                self.method_set(&methods)?;
                self.method_set(&names)
            }
            Mistake::SetAcross => self.method_set(&[names, methods].concat()),
            _ => {
                self.method_set(&names)?;
                self.method_set(&methods)
            }
        }
    }

    fn method_set(&mut self, names: &[Text]) -> Step<()> {
        let each = if self.is(Mistake::SetHalf) { 1 } else { 2 } * self.sizes[7];
        self.charge(5, names.len() as u64 * each)?;
        let mut seen = BTreeMap::new();
        for (start, name) in names {
            if *name == b"_" && self.is(Mistake::BlankInInterface) {
                continue;
            }
            if let Some(earlier) = seen.insert(name, start) {
                let shown = if self.is(Mistake::EarlierMethod) { earlier } else { start };
                return refuse(17, 0, *shown as u64, name.len() as u64);
            }
        }
        Ok(())
    }

    fn named_type(&mut self) -> Step<()> {
        self.text()?;
        self.meta()?;
        self.rttid()?;
        let count = self.number(4)?;
        let each = match self.mistake {
            Mistake::NamedCount => 1,
            Mistake::NamedCount15 => 15,
            _ => 14,
        };
        ask(count <= self.bytes_left() / each, 2, 0, 0, 0)?;
        self.charge(6, count * (self.sizes[9] + 3 * self.sizes[10]))?;
        self.put(count);
        let at = self.words.len();
        let mut seen: Vec<Text> = Vec::new();
        let mut late = Ok(());
        for _ in 0..count {
            let (start, name) = self.text()?;
            let known = match self.mistake {
                Mistake::NamedNext => seen.last().is_some_and(|(_, other)| *other == name),
                Mistake::BlankInNamed if name == b"_" => false,
                _ => seen.iter().any(|(_, other)| *other == name),
            };
            let new = ask(!known, 18, 0, start as u64, name.len() as u64);
            if self.is(Mistake::NamedEarly) {
                new?;
                self.named_method()?;
            } else {
                self.named_method()?;
                if self.is(Mistake::NamedLate) {
                    late = late.and(new);
                } else {
                    new?;
                }
            }
            seen.push((start, name));
        }
        late?;
        self.tables.push((Table::Named, seen.clone()));
        if self.is(Mistake::NamedSorted) {
            let rows = self.words.split_off(at);
            let mut rows: Vec<(&[u8], &[u32])> = seen.iter().map(|(_, name)| *name).zip(rows.chunks(6)).collect();
            rows.sort();
            let sorted: Vec<u32> = rows.iter().flat_map(|(_, row)| row.iter().copied()).collect();
            self.words.extend(sorted);
        }
        Ok(())
    }

    fn named_method(&mut self) -> Step<()> {
        self.u32()?;
        self.boolean()?;
        self.boolean()?;
        self.u32()
    }

    // Runtime types.

    fn rttids(&mut self) -> Step<()> {
        self.list(15, Self::rttid).map(drop)
    }

    fn runtime_type(&mut self) -> Step<()> {
        let tag = self.byte(12, 13, true, self.admits(Mistake::RuntimeTag13, 13))?;
        match tag {
            0 => self.kind(),
            1 => {
                self.u32()?;
                self.optional_id()
            }
            2 | 4 => self.rttid(),
            3 => {
                self.u64()?;
                self.rttid()
            }
            5 => {
                self.rttid()?;
                self.rttid()
            }
            6 | 11 => {
                if self.is(Mistake::ChannelAsPort) {
                    *self.words.last_mut().expect("the tag was put") = 6;
                }
                self.direction()?;
                self.rttid()
            }
            7 => {
                self.boolean()?;
                self.rttids()?;
                self.rttids()
            }
            8 => {
                self.u32()?;
                self.runtime_struct()
            }
            9 => {
                self.u32()?;
                let methods = self.list(18, |r| {
                    let name = r.text()?;
                    r.rttid()?;
                    Ok(name)
                })?;
                self.tables.push((Table::Runtime, methods.clone()));
                self.method_set(&methods)
            }
            10 => self.rttids(),
            _ => Ok(()),
        }
    }

    fn runtime_struct(&mut self) -> Step<()> {
        let fields = self.list(16, |r| {
            let name = r.text()?;
            r.rttid()?;
            r.text()?;
            r.boolean()?;
            Ok((name, r.text()?))
        })?;
        if self.is(Mistake::AlikeRuntimeFields) {
            self.tables.push((Table::RuntimeFields, fields.iter().map(|(name, _)| *name).collect()));
        }
        let blank = |((_, name), _): &&(Text, Text)| *name == b"_";
        let mut counted = fields.len();
        if self.is(Mistake::RuntimeSetOfBlank) {
            counted -= fields.iter().filter(blank).count();
        }
        self.charge(7, counted as u64 * 2 * self.sizes[16])?;
        let mut seen = BTreeMap::new();
        for field in &fields {
            if blank(&field) && !self.is(Mistake::BlankInRuntime) {
                continue;
            }
            let ((start, name), (package_start, package)) = *field;
            let key = match self.mistake {
                Mistake::PackageUnread => (vec![], name.to_vec()),
                Mistake::PackageJoined => (vec![], [package, b":", name].concat()),
                _ => (package.to_vec(), name.to_vec()),
            };
            if let Some(earlier) = seen.insert(key, package_start) {
                let c = match self.mistake {
                    Mistake::PackageOfName => start,
                    Mistake::PackageEarlier => earlier,
                    _ => package_start,
                };
                return refuse(19, c as u64, start as u64, name.len() as u64);
            }
        }
        Ok(())
    }

    // Tables.

    fn well_known(&mut self) -> Step<()> {
        for _ in 0..4 {
            self.optional_id()?;
        }
        if self.boolean()? {
            self.u16()?;
            self.u16()?;
        } else if self.is(Mistake::OffsetsAlways) {
            self.put(0);
            self.put(0);
        }
        (0..5).try_for_each(|_| self.optional_id())
    }

    fn constant(&mut self) -> Step<()> {
        let shown = self.is(Mistake::ConstantDetail);
        let tag = self.byte(4, 14, shown, self.admits(Mistake::Constant5, 5))?;
        match tag {
            1 => self.boolean().map(drop),
            2 => self.u64(),
            3 => {
                let bits = self.number(8)?;
                let quieted = self.is(Mistake::NanQuieted) && f64::from_bits(bits).is_nan();
                self.put_long(if quieted { bits | 1 << 51 } else { bits });
                Ok(())
            }
            4 => self.text().map(drop),
            _ => Ok(()),
        }
    }

    fn externs(&mut self) -> Step<()> {
        let before = self.place;
        let count = self.number(4)?;
        let left = self.left;
        let shown = if self.is(Mistake::HostCallsDetail) { self.bytes_left() } else { count };
        let none = ask(count == 0 || self.is(Mistake::HostCallsTaken), 25, 0, shown, 0);
        let size = self.sizes[if self.is(Mistake::ExternsAsFunctions) { 21 } else { 33 } - 1];
        let context = if self.is(Mistake::ExternsContext) { 8 } else { 2 };

        if self.is(Mistake::HostCallsFirst) {
            none?;
        }
        let charge_first = self.is(Mistake::ExternsChargedFirst);
        if charge_first {
            self.charge(context, count * size)?;
        }
        let strict = self.is(Mistake::ExternsStrict) && count == self.bytes_left() && count > 0;
        ask(count <= self.bytes_left() && !strict, 2, 0, 0, 0)?;
        if self.is(Mistake::HostCallsUncharged) {
            none?;
        }
        if !charge_first {
            self.charge(context, count * size)?;
        }
        match self.mistake {
            Mistake::HostCallsPlace if none.is_err() => self.place = before,
            Mistake::HostCallsLeft if none.is_err() => self.left = left,
            _ => {}
        }
        none?;
        if !self.is(Mistake::NoExternWord) {
            self.put(0);
        }
        Ok(())
    }

    fn read_artifacts(&mut self) -> Step<()> {
        let count = self.number(4)?;
        let limit = match self.mistake {
            Mistake::Artifacts63 => 63,
            Mistake::Artifacts65 => 65,
            _ => 64,
        };
        ask(count <= limit, 22, 11, count, 64)?;
        ask(count <= self.bytes_left() || !self.is(Mistake::ArtifactsCounted), 2, 0, 0, 0)?;
        let by_entry = self.is(Mistake::ArtifactsByEntry);
        if !by_entry {
            self.charge(8, count * self.sizes[26])?;
        }
        self.put(count);
        for _ in 0..count {
            if by_entry {
                self.charge(8, self.sizes[26])?;
            }
            let name_limit = if self.is(Mistake::ArtifactNameLimit) { 127 } else { 128 };
            let (_, name) = self.text_within(9, name_limit)?;
            self.u32()?;
            let length = self.number(4)?;
            let limit = 16_777_216;
            let within = length < limit || (length == limit && !self.is(Mistake::PayloadLimit));
            let late = self.is(Mistake::PayloadLate);
            ask(within || late, 22, 10, length, limit)?;
            ask(length <= self.bytes_left(), 2, 0, 0, 0)?;
            ask(within, 22, 10, length, limit)?;
            let start = self.place;
            self.place += length as usize;
            self.charge(10, length)?;
            if self.is(Mistake::PayloadText) {
                ask(self.well_formed(start, &self.pack[start..self.place]), 6, 0, 0, 0)?;
            }
            self.put(start as u64);
            self.put(length);
            self.artifacts.push((name, start, length as usize));
        }
        Ok(())
    }

    // Functions.

    fn function(&mut self) -> Step<()> {
        self.text()?;
        self.u16()?;
        self.u16()?;
        let local_slots = self.number(2)?;
        self.put(local_slots);
        self.u16()?;
        self.slots()?;
        self.u16()?;
        self.u16()?;
        self.u16()?;
        self.list(22, Self::u16)?;
        self.boolean()?;
        let slot = self.number(4)?;
        self.put(if self.is(Mistake::SignLost) { slot & 0xFFFF } else { slot });
        self.boolean()?;
        let slot_types = self.slots()?;
        let (d1, d2) =
            if self.is(Mistake::SlotsSwapped) { (local_slots, slot_types) } else { (slot_types, local_slots) };
        let slots = ask(slot_types == local_slots, 20, 5, d1, d2);
        if self.is(Mistake::SlotsAtOnce) {
            slots?;
        }
        let code = self.list(23, Self::instruction)?.len() as u64;
        let metadata = self.count(24)?;
        let as_many = match self.mistake {
            Mistake::MetadataFewer => metadata <= code,
            _ => metadata == code,
        };
        ask(as_many || !self.is(Mistake::MetadataCountEarly), 15, 0, 0, 0)?;
        self.entries(metadata, 24, Self::metadata)?;
        ask(as_many || self.is(Mistake::MetadataCountLate), 15, 0, 0, 0)?;
        let captures = self.transfers(1)?;
        ask(as_many, 15, 0, 0, 0)?;
        let late = self.is(Mistake::TransferLate);
        if !late {
            self.judge_transfers(&captures, 1)?;
        }
        self.slots()?;
        if late {
            self.judge_transfers(&captures, 1)?;
        }
        let parameters = self.transfers(3)?;
        self.judge_transfers(&parameters, if self.is(Mistake::TransferContext) { 1 } else { 3 })?;
        slots
    }

    fn instruction(&mut self) -> Step<()> {
        self.u8()?;
        self.u8()?;
        (0..3).try_for_each(|_| self.u16())
    }

    fn metadata(&mut self) -> Step<()> {
        let tag = self.number(1)?;
        let known = match tag {
            0..=5 | 10..=18 => true,
            6 => self.is(Mistake::Metadata6),
            9 => !self.is(Mistake::Metadata9),
            19 => self.is(Mistake::Metadata19),
            _ => false,
        };
        ask(known, 15, 0, 0, 0)?;
        self.put(tag);
        match tag {
            1 => {
                self.u32()?;
                self.boolean()?;
                self.slots().map(drop)
            }
            2 => {
                self.slots()?;
                self.slots()?;
                self.boolean().map(drop)
            }
            3 | 11 | 12 | 14 | 16 => {
                self.slots()?;
                self.slots().map(drop)
            }
            4 | 9 | 13 => self.slots().map(drop),
            5 => self.u32(),
            10 => {
                self.u16()?;
                self.slots().map(drop)
            }
            15 => {
                self.byte(1, 15, false, self.admits(Mistake::Assert2, 2))?;
                self.u32()?;
                self.slots().map(drop)
            }
            17 => {
                self.u32()?;
                self.u32()?;
                self.slots()?;
                self.slots().map(drop)
            }
            18 => self.list(25, Self::select_case).map(drop),
            _ => Ok(()),
        }
    }

    fn select_case(&mut self) -> Step<()> {
        let tag = self.byte(1, 15, false, self.admits(Mistake::Select2, 2))?;
        (0..3).try_for_each(|_| self.u16())?;
        if tag == 0 {
            return Ok(());
        }
        self.boolean().map(drop)
    }

    fn transfers(&mut self, c: u64) -> Step<Vec<[u64; 2]>> {
        let mut index = 0;
        self.list(26, |r| {
            let words = [r.number(4)?, r.number(4)?];
            r.put(words[0]);
            r.put(words[1]);
            r.u16()?;
            if r.is(Mistake::TransferAtOnce) {
                r.judge_transfer(words[0], index, c)?;
                r.judge_transfer(words[1], index, c + 1)?;
            }
            index += 1;
            Ok(words)
        })
    }

    fn judge_transfer(&self, word: u64, index: u64, c: u64) -> Step<()> {
        let good = word % 256 <= 24 && word >> 8 != 0xFFFFFF;
        ask(good, 20, c, if self.is(Mistake::TransferIndex) { index + 1 } else { index }, word)
    }

    fn judge_transfers(&self, words: &[[u64; 2]], c: u64) -> Step<()> {
        let mut order: Vec<(u64, u64, u64)> = Vec::new();
        for (index, pair) in words.iter().enumerate() {
            order.extend([(0, index as u64, pair[0]), (1, index as u64, pair[1])]);
        }
        if self.is(Mistake::TransferOrder) {
            order.sort();
        }
        order.into_iter().try_for_each(|(part, index, word)| self.judge_transfer(word, index, c + part))
    }

    // Inline sources.

    fn inline_count(&mut self, size: usize, context: u64, limit: u64, shown: u64) -> Step<u64> {
        let bytes = self.pack.get(self.place..self.place + 4);
        let Some(bytes) = bytes else { return self.count(size) };
        let count = u32::from_le_bytes(bytes.try_into().expect("four bytes")) as u64;
        let within = count <= self.bytes_left() - 4;
        if count > limit && (within || !self.is(Mistake::FunctionBoundLate)) {
            self.place += 4;
            return refuse(23, context, count, shown);
        }
        self.count(size)
    }

    fn inline(&mut self) -> Step<()> {
        let most = if self.is(Mistake::FramesLimit) { MAX_INLINE + 1 } else { MAX_INLINE };
        let frames = self.inline_count(30, 12, most, MAX_INLINE)?;
        self.entries(frames, 30, |r| {
            r.u32()?;
            r.u32()?;
            if r.boolean()? {
                (0..4).try_for_each(|_| r.u32())?;
            }
            Ok(())
        })?;
        let bound = if self.is(Mistake::FunctionBound) { MAX_INLINE } else { MAX_INLINE.min(self.functions) };
        let functions = self.inline_count(31, 13, bound, bound)?;
        let mut room = MAX_INLINE;
        self.entries(functions, 31, |r| {
            r.u32()?;
            let shown = if r.is(Mistake::EntriesDetail) { MAX_INLINE } else { room };
            let entries = r.inline_count(32, 14, room, shown)?;
            if !r.is(Mistake::EntriesApart) {
                room -= entries;
            }
            r.entries(entries, 32, |r| {
                r.u32()?;
                r.u32()
            })
            .map(drop)
        })
        .map(drop)
    }
}

/// The mistakes to try, each with what it is: the list, and one in each size.
pub fn all() -> Vec<(Mistake, String)> {
    let sizes = sizes::table();
    let listed = MISTAKES.iter().map(|(mistake, text)| (*mistake, text.to_string()));
    let sized = (1..=sizes.len()).map(|n| (Mistake::Size(n), format!("the size of {} is one more", sizes[n - 1].0)));
    listed.chain(sized).collect()
}
