//! The answers of document 01, from what the patched Rust says and reports.

use crate::alike::{self, Name, Pair};
use crate::words;
use measured::bytecode::Module;
use measured::report::{self, Charge, Mark, Report, Site, Span};
use measured::serialize::{SerializeError, MAX_VOB_BYTES};

pub const RUST_BUDGET: u64 = 512 * 1024 * 1024;
pub const NO_END: usize = usize::MAX;
const NAME: usize = 1;
const EXTERNS: usize = 11;
const INLINE_SOURCES: usize = 17;

#[derive(Clone, Copy, Debug, PartialEq, Eq)]
pub enum Answer {
    Taken { words: u64, bytes: u64, charged: u64, left: u64 },
    Refused { number: u64, c: u64, d1: u64, d2: u64, place: u64, left: u64 },
}

impl Answer {
    /// Status (0 taken, 1 refused) and the fields, the unused ones 0.
    pub fn fields(&self) -> [u64; 7] {
        match *self {
            Answer::Taken { words, bytes, charged, left } => [0, words, bytes, charged, left, 0, 0],
            Answer::Refused { number, c, d1, d2, place, left } => [1, number, c, d1, d2, place, left],
        }
    }

    pub fn number(&self) -> u64 {
        match *self {
            Answer::Taken { .. } => 0,
            Answer::Refused { number, .. } => number,
        }
    }
}

impl std::fmt::Display for Answer {
    fn fmt(&self, f: &mut std::fmt::Formatter<'_>) -> std::fmt::Result {
        match self {
            Answer::Taken { words, bytes, charged, left } => write!(f, "taken {words} {bytes} {charged} {left}"),
            Answer::Refused { number, c, d1, d2, place, left } => {
                write!(f, "refused {number} {c} {d1} {d2} {place} {left}")
            }
        }
    }
}

pub struct Reading {
    pub answer: Answer,
    /// The words by section, where all was read; a section call has its own alone.
    pub words: Vec<Vec<u32>>,
    /// Charges that were asked for; where the answer is 5, the last one is the one that couldn't be paid.
    pub charges: Vec<Charge>,
    /// The sections that were begun, with the budget left there; none for a section call.
    pub sections: Vec<Mark>,
    /// Name, and start and length of the payload, of each artifact of a taken pack.
    pub artifacts: Vec<(Vec<u8>, Span)>,
    /// The tables of names of a taken pack in which a pair may stand.
    tables: Vec<Vec<Name>>,
    /// Where the last section, or the one called, was read to its end.
    through: Option<Mark>,
}

impl Reading {
    fn stopped(answer: Answer) -> Self {
        Reading {
            answer,
            words: Vec::new(),
            charges: Vec::new(),
            sections: Vec::new(),
            artifacts: Vec::new(),
            tables: Vec::new(),
            through: None,
        }
    }

    /// The counted words of the tape.
    pub fn tape(&self) -> Vec<u32> {
        match self.answer {
            Answer::Taken { .. } => self.words.concat(),
            Answer::Refused { .. } => Vec::new(),
        }
    }

    /// Whether the reading of this pack ended at an extern count other than 0: with 2, 5 or 25.
    pub fn claims_externs(&self, pack: &[u8]) -> bool {
        claimed_externs(pack, &self.sections).is_some()
    }

    /// What a reading that lacked neither budget nor tape would have answered with these: its charge list decides.
    pub fn under(&self, budget: u64, tape: u64) -> Answer {
        let mut left = budget;
        for charge in &self.charges {
            let asked = charge.amount as u64;
            if asked > left {
                let at = Mark { place: charge.place, left: left as usize };
                return refused(5, charge_context(charge), asked, left, at);
            }
            left -= asked;
        }
        match (self.answer, self.through) {
            (Answer::Taken { words, .. }, Some(end)) if words > tape => {
                refused(26, 0, words, tape, Mark { place: end.place, left: left as usize })
            }
            (Answer::Taken { words, bytes, .. }, _) => Answer::Taken { words, bytes, charged: budget - left, left },
            (Answer::Refused { number, c, d1, d2, place, .. }, _) => Answer::Refused { number, c, d1, d2, place, left },
        }
    }

    /// Start and length of the payload of the first artifact with exactly these name bytes, in a pack whose answer is
    /// `answer`. `Module::artifact` searches a sorted list and is no judge here.
    pub fn find(&self, answer: Answer, name: &[u8]) -> Result<(u64, u64), Answer> {
        let Answer::Taken { bytes, left, .. } = answer else { return Err(answer) };
        match self.artifacts.iter().find(|(other, _)| other == name) {
            Some((_, span)) => Ok((span.start as u64, span.len as u64)),
            None => Err(refused(27, 0, 0, 0, Mark { place: bytes as usize, left: left as usize })),
        }
    }

    /// The first pair of names that print alike, in a pack whose answer is `answer`.
    pub fn alike(&self, answer: Answer) -> Result<Option<Pair>, Answer> {
        match answer {
            Answer::Taken { .. } => Ok(alike::first_pair(&self.tables)),
            Answer::Refused { .. } => Err(answer),
        }
    }
}

/// Module::deserialize on a whole pack, and what document 01 adds to it (25, 26).
pub fn read(pack: &[u8], budget: u64, tape: u64) -> Reading {
    let (result, report) = report::with_budget(budget as usize, || Module::deserialize(pack));
    if budget == RUST_BUDGET {
        same_as_original(pack, &result);
    }
    let start = Mark { place: 0, left: budget as usize };
    let end = report.end.unwrap_or(start);
    let Report { mut charges, spans, mut sections, .. } = report;

    // An extern list holds its count against the bytes left and charges it before its first entry: for 2 and 5 the Rust
    // speaks. Where it has passed both, the charge is the first after the count word, and 25 comes before any entry.
    if let Some((count, at)) = claimed_externs(pack, &sections) {
        charges.retain(|charge| charge.place <= at.place + 4);
        let paid = charges.last().filter(|charge| charge.place == at.place + 4 && charge.amount <= at.left);
        if let Some(charge) = paid {
            sections.truncate(EXTERNS);
            let after = Mark { place: charge.place, left: at.left - charge.amount };
            return Reading { charges, sections, ..Reading::stopped(refused(25, 0, count as u64, 0, after)) };
        }
        assert!(result.is_err() && end.place == at.place + 4, "the Rust has stopped at the extern count");
    }

    match result {
        Ok(module) => {
            let words = words::words(&module, pack, &spans, 0);
            let needed: u64 = words.iter().map(|section| section.len() as u64).sum();
            let answer = if needed > tape {
                refused(26, 0, needed, tape, end)
            } else {
                Answer::Taken {
                    words: needed,
                    bytes: end.place as u64,
                    charged: charges.iter().map(|charge| charge.amount as u64).sum(),
                    left: end.left as u64,
                }
            };
            let payloads = spans.iter().filter(|span| span.site == Site::ArtifactPayload);
            let artifacts =
                module.artifacts.iter().map(|artifact| artifact.name.clone().into_bytes()).zip(payloads.copied());
            let artifacts = artifacts.collect();
            let tables = alike::tables(&module, pack, &spans);
            Reading { answer, words, charges, sections, artifacts, tables, through: Some(end) }
        }
        Err(error) => {
            let through = matches!(error, SerializeError::TrailingBytes(_)).then_some(end);
            let answer = refusal(pack, &error, &charges, &spans, end);
            Reading { charges, sections, through, ..Reading::stopped(answer) }
        }
    }
}

/// The lookup: the pack under the Rust's budget, then its artifacts.
pub fn lookup(pack: &[u8], name: &[u8]) -> Result<(u64, u64), Answer> {
    let reading = read(pack, RUST_BUDGET, u64::MAX);
    reading.find(reading.answer, name)
}

/// The names that print alike: the pack under the Rust's budget, then its tables.
pub fn alike_names(pack: &[u8]) -> Result<Option<Pair>, Answer> {
    let reading = read(pack, RUST_BUDGET, u64::MAX);
    reading.alike(reading.answer)
}

/// A section alone. The Rust has no such call, but it reads section `number` of any pack whose earlier sections are
/// bare: so the bytes from `place` on are put behind a bare opening part, and all places are shifted back.
pub fn section(pack: &[u8], number: usize, place: u64, budget: u64, functions: u64, tape: u64) -> Reading {
    let given = |number, d1, d2| Reading::stopped(Answer::Refused { number, c: 0, d1, d2, place, left: budget });
    if pack.len() > MAX_VOB_BYTES {
        return given(1, pack.len() as u64, MAX_VOB_BYTES as u64);
    }
    if place > pack.len() as u64 {
        return given(2, 0, 0);
    }
    // No pack costs 2^62; what a budget has beyond that is set aside, so that the opening part's charges fit.
    let aside = budget.saturating_sub(1 << 62);
    let mut reading = section_behind(pack, number, place, budget - aside, functions, tape);
    match &mut reading.answer {
        Answer::Taken { left, .. } | Answer::Refused { left, .. } => *left += aside,
    }
    reading
}

/// A text that was taken, and where its reading ended.
pub struct Text {
    pub start: u64,
    pub length: u64,
    pub characters: u64,
    pub place: u64,
    pub left: u64,
}

/// A text alone: the name section is one and nothing more. The Rust keeps it as a `String`, which counts its characters.
pub fn text(pack: &[u8], place: u64, budget: u64) -> Result<Text, Answer> {
    let reading = section(pack, NAME, place, budget, 0, u64::MAX);
    let Answer::Taken { bytes, left, .. } = reading.answer else { return Err(reading.answer) };
    let [start, length] = reading.tape()[..] else { panic!("a text's words are its start and its length") };
    let text = pack[start as usize..][..length as usize].to_vec();
    let characters = String::from_utf8(text).expect("the Rust took the text").chars().count();
    Ok(Text { start: start as u64, length: length as u64, characters: characters as u64, place: place + bytes, left })
}

fn section_behind(pack: &[u8], number: usize, place: u64, budget: u64, functions: u64, tape: u64) -> Reading {
    // More functions than the inline limit make no difference to it.
    let functions = if number == INLINE_SOURCES { functions.min(131_072) } else { 0 };
    let opening = opening_part(number, functions);
    let paid = functions * std::mem::size_of::<measured::FunctionDef>() as u64;
    let shift = place as i64 - opening.len() as i64;
    let rest = &pack[place as usize..];

    let behind = [&opening[..], rest].concat();
    let reading = read(&behind, budget + paid, u64::MAX);
    let at = *reading.sections.get(number - 1).expect("opening part and section fit the longest pack");
    assert_eq!((at.place, at.left as u64), (opening.len(), budget));

    let end = if number == INLINE_SOURCES { reading.through } else { reading.sections.get(number).copied() };
    // Each section opens with bytes of its own, so a charge at a section's end is not the next one's.
    let own = |charge: &&Charge| charge.place > at.place && end.is_none_or(|end| charge.place <= end.place);
    let moved = |charge: &Charge| Charge { place: (charge.place as i64 + shift) as usize, ..charge.clone() };
    let charges = reading.charges.iter().filter(own).map(moved).collect();
    let Some(end) = end else {
        return Reading { charges, ..Reading::stopped(shifted(reading.answer, shift)) };
    };
    let taken = end.place - at.place;
    let alone = [&opening[..], &rest[..taken], &closing_part(number)].concat();
    let (module, report) = report::with_budget(NO_END, || Module::deserialize(&alone));
    let module = module.expect("the section was taken, and nothing is amiss after it");
    let words = words::words(&module, &alone, &report.spans, shift).swap_remove(number - 1);
    let through = Mark { place: (end.place as i64 + shift) as usize, left: end.left };
    let answer = if words.len() as u64 > tape {
        refused(26, 0, words.len() as u64, tape, through)
    } else {
        Answer::Taken {
            words: words.len() as u64,
            bytes: taken as u64,
            charged: budget - end.left as u64,
            left: end.left as u64,
        }
    };
    Reading { words: vec![words], charges, through: Some(through), ..Reading::stopped(answer) }
}

/// Bytes of each section of the bare pack.
pub const BARE: [usize; 17] = [4, 4, 4, 4, 4, 4, 37, 4, 4, 4, 4, 4, 4, 4, 4, 4, 8];
/// Bytes of a function with an empty name and empty lists.
const BARE_FUNCTION: usize = 4 + 4 * 2 + 4 + 3 * 2 + 4 + 1 + 4 + 1 + 6 * 4;

pub fn opening_part(number: usize, functions: u64) -> Vec<u8> {
    let mut out = b"VOB\x18\0\0\0".to_vec();
    for section in 1..number {
        let at = out.len();
        out.resize(at + BARE[section - 1], 0);
        if section == 10 {
            out[at..at + 4].copy_from_slice(&(functions as u32).to_le_bytes());
            out.resize(at + 4 + functions as usize * BARE_FUNCTION, 0);
        }
    }
    out
}

fn closing_part(number: usize) -> Vec<u8> {
    vec![0; BARE[number..].iter().sum()]
}

fn shifted(answer: Answer, shift: i64) -> Answer {
    let move_by = |at: u64| (at as i64 + shift) as u64;
    let Answer::Refused { number, mut c, mut d1, d2, place, left } = answer else {
        panic!("a section that did not end is refused");
    };
    if (16..=19).contains(&number) {
        d1 = move_by(d1);
    }
    if number == 19 {
        c = move_by(c);
    }
    Answer::Refused { number, c, d1, d2, place: move_by(place), left }
}

fn refused(number: u64, c: u64, d1: u64, d2: u64, at: Mark) -> Answer {
    Answer::Refused { number, c, d1, d2, place: at.place as u64, left: at.left as u64 }
}

/// The extern count, where it is there and is not 0, and where its section starts.
fn claimed_externs(pack: &[u8], sections: &[Mark]) -> Option<(u32, Mark)> {
    let at = *sections.get(EXTERNS - 1)?;
    let bytes = pack.get(at.place..at.place + 4)?;
    let count = u32::from_le_bytes(bytes.try_into().expect("four bytes"));
    (count != 0).then_some((count, at))
}

fn context(name: &str) -> u64 {
    match name {
        "byte string" => 1,
        "vector" => 2,
        "struct field index" => 3,
        "struct field index key" => 4,
        "interface method identity set" => 5,
        "named method map" => 6,
        "runtime struct field identity set" => 7,
        "module artifacts" => 8,
        "Module.artifacts[].name" => 9,
        "Module.artifacts[].payload" => 10,
        "Module.artifacts" => 11,
        "inline source frames" => 12,
        "inline source functions" => 13,
        "inline source entries" => 14,
        other => panic!("no number for the context {other}"),
    }
}

pub fn charge_context(charge: &Charge) -> u64 {
    context(charge.context)
}

fn refusal(pack: &[u8], error: &SerializeError, charges: &[Charge], spans: &[Span], at: Mark) -> Answer {
    use SerializeError as E;
    let (number, c, d1, d2) = match error {
        E::InputTooLarge { len, max } => (1, 0, *len as u64, *max as u64),
        E::UnexpectedEof => (2, 0, 0, 0),
        E::InvalidMagic => (3, 0, 0, 0),
        E::UnsupportedVersion(version) => (4, 0, *version as u64, 0),
        E::AllocationBudgetExceeded { context: name, requested, remaining } => {
            (5, context(name), *requested as u64, *remaining as u64)
        }
        E::InvalidUtf8 => (6, 0, 0, 0),
        E::InvalidBoolean(byte) => (7, 0, *byte as u64, 0),
        E::InvalidSlotType(byte) => (8, 0, *byte as u64, 0),
        E::InvalidValueKind(byte) => (9, 0, *byte as u64, 0),
        E::InvalidPackedValueMeta(word) => (10, 0, *word as u64, 0),
        E::InvalidPackedValueRttid(word) => (11, 0, *word as u64, 0),
        E::InvalidChanDir(byte) => (12, 0, *byte as u64, 0),
        E::InvalidRuntimeType(byte) => (13, 0, *byte as u64, 0),
        E::InvalidConstant => (14, 0, 0, 0),
        E::InvalidInstructionMetadata => (15, 0, 0, 0),
        E::DuplicateStructField(name) => {
            let span = struct_field_repeat(pack, charges, spans);
            assert_eq!(bytes(pack, span), name.as_bytes());
            (16, 0, span.start as u64, span.len as u64)
        }
        E::DuplicateInterfaceMethod(name) => {
            let span = interface_method_repeat(pack, charges, spans);
            assert_eq!(bytes(pack, span), name.as_bytes());
            (17, 0, span.start as u64, span.len as u64)
        }
        E::DuplicateNamedMethod(name) => {
            let span = *spans.last().expect("the repeat was read");
            assert_eq!((span.site, bytes(pack, span)), (Site::NamedMethod, name.as_bytes()));
            (18, 0, span.start as u64, span.len as u64)
        }
        E::DuplicateRuntimeStructField(name) => {
            let (package, span) = runtime_field_repeat(pack, charges, spans);
            let joined = [bytes(pack, package), b":", bytes(pack, span)].concat();
            assert_eq!(joined, name.as_bytes());
            (19, package.start as u64, span.start as u64, span.len as u64)
        }
        E::InvalidFunctionMetadata(text) => function_metadata(text),
        E::InvalidSourceInteger => (21, 0, 0, 0),
        E::ModuleArtifactLimitExceeded { context: name, len, max } => (22, context(name), *len as u64, *max as u64),
        E::DebugMetadataLimitExceeded { context: name, len, max } => (23, context(name), *len as u64, *max as u64),
        E::TrailingBytes(left) => (24, 0, *left as u64, 0),
        other => panic!("no number for {other:?}"),
    };
    refused(number, c, d1, d2, at)
}

fn bytes<'a>(pack: &'a [u8], span: Span) -> &'a [u8] {
    &pack[span.start..span.start + span.len]
}

/// The last `count` spans of a site.
fn last_spans(spans: &[Span], site: impl Fn(&Span) -> bool, count: usize) -> Vec<Span> {
    let mut found: Vec<Span> = spans.iter().rev().filter(|span| site(span)).take(count).copied().collect();
    assert_eq!(found.len(), count);
    found.reverse();
    found
}

/// Charges give the table: its size from the index's charge, and the repeat's number from the key charges after it.
fn struct_field_repeat(pack: &[u8], charges: &[Charge], spans: &[Span]) -> Span {
    let index =
        charges.iter().rposition(|charge| charge.context == "struct field index").expect("the index is charged");
    let keys = charges.len() - index - 1;
    let count = charges[index].amount / std::mem::size_of::<(String, usize)>();
    let named = |span: &Span| span.site == Site::StructFieldName && bytes(pack, *span) != b"_";
    last_spans(spans, named, count)[keys - 1]
}

fn interface_method_repeat(pack: &[u8], charges: &[Charge], spans: &[Span]) -> Span {
    let is_set = |charge: &Charge| charge.context == "interface method identity set";
    let (last, before) = charges.split_last().expect("the set is charged");
    assert!(is_set(last));
    let count = last.amount / (2 * std::mem::size_of::<&str>());
    let text = spans.last().expect("a repeat was read").site;
    // An interface's two sets are charged one after the other; before the first one comes a text or a list.
    let site = match text {
        Site::RuntimeMethodName => Site::RuntimeMethodName,
        _ if before.last().is_some_and(is_set) => Site::InterfaceMethod,
        _ => Site::InterfaceMethodName,
    };
    let names = last_spans(spans, |span| span.site == site, count);
    first_repeat(names.iter().map(|span| bytes(pack, *span)), |_| false)
        .map(|i| names[i])
        .expect("the Rust found a repeat")
}

fn runtime_field_repeat(pack: &[u8], charges: &[Charge], spans: &[Span]) -> (Span, Span) {
    let last = charges.last().expect("the set is charged");
    assert_eq!(last.context, "runtime struct field identity set");
    let count = last.amount / (2 * std::mem::size_of::<(&str, &str)>());
    let names = last_spans(spans, |span| span.site == Site::RuntimeFieldName, count);
    let packages = last_spans(spans, |span| span.site == Site::RuntimeFieldPackage, count);
    let pairs = packages.iter().zip(&names).map(|(package, name)| (bytes(pack, *package), bytes(pack, *name)));
    let repeat = first_repeat(pairs, |(_, name)| *name == b"_").expect("the Rust found a repeat");
    (packages[repeat], names[repeat])
}

fn first_repeat<T: Eq + std::hash::Hash>(items: impl Iterator<Item = T>, exempt: impl Fn(&T) -> bool) -> Option<usize> {
    let mut seen = std::collections::HashSet::new();
    items.enumerate().find_map(|(i, item)| (!exempt(&item) && !seen.insert(item)).then_some(i))
}

/// The Rust says 20's details in its text only. The function's name comes first in it and may hold anything, so the
/// text is taken apart from its end.
fn function_metadata(text: &str) -> (u64, u64, u64, u64) {
    let tail = |mark: &str| text.rfind(mark).map(|at| (at, &text[at + mark.len()..]));
    let found = [tail(" capture_types["), tail(" param_types["), tail(" slot_types has ")];
    let which =
        (0..3).filter(|i| found[*i].is_some()).max_by_key(|i| found[*i].map(|(at, _)| at)).expect("one of three forms");
    let rest = found[which].expect("it was found").1;
    if which == 2 {
        let (have, rest) = rest.split_once(" entries but local_slots is ").expect("the slot count's form");
        return (20, 5, have.parse().expect("a number"), rest.parse().expect("a number"));
    }
    let (index, rest) = rest.split_once("].").expect("the transfer word's form");
    let (field, rest) = rest.split_once(" 0x").expect("the transfer word's form");
    let (word, _) = rest.split_once(" is invalid: ").expect("the transfer word's form");
    let c = 1 + 2 * which as u64 + (field == "rttid_raw") as u64;
    (20, c, index.parse().expect("a number"), u64::from_str_radix(word, 16).expect("a number"))
}

/// The Module's text without the hash map's chance order: the field indexes apart, sorted.
macro_rules! plain_text {
    ($module:expr) => {{
        let mut module = $module.clone();
        let mut indexes = Vec::new();
        for meta in &mut module.struct_metas {
            indexes
                .push(std::mem::take(&mut meta.field_index).into_iter().collect::<std::collections::BTreeMap<_, _>>());
        }
        format!("{module:?} {indexes:?}")
    }};
}

/// The self-check: the patch has changed neither answer nor Module nor error.
fn same_as_original(pack: &[u8], result: &Result<Module, SerializeError>) {
    let original = original::bytecode::Module::deserialize(pack);
    match (&original, result) {
        (Ok(original), Ok(patched)) => {
            assert_eq!(plain_text!(original), plain_text!(patched));
            // The text shows all NaNs alike; the written bytes don't.
            assert_eq!(format!("{:?}", original.serialize()), format!("{:?}", patched.serialize()));
        }
        (Err(original), Err(patched)) => assert_eq!(format!("{original:?}"), format!("{patched:?}")),
        _ => panic!("one build takes the pack, the other refuses it"),
    }
}
