use std::error;
use std::fmt;
use std::ops::Range;

/// A refusal: why, and where. Its text is for the person who has to find the mistake in the file.
#[derive(Clone, Copy, Debug, PartialEq, Eq, Hash)]
pub struct Error {
    /// Why the pack, the section or the lookup was refused.
    pub reason: Reason,
    /// The offset in the pack after the last byte that was taken.
    pub place: usize,
    /// The budget after the last charge that went through.
    pub left: u64,
}

/// Why a reading was refused: document 01's 27 cases, in the order of their numbers.
#[derive(Clone, Copy, Debug, PartialEq, Eq, Hash)]
#[non_exhaustive]
pub enum Reason {
    /// 1: the pack is longer than a pack can be.
    InputTooLarge {
        /// The pack's length in bytes.
        length: u64,
        /// The longest there can be.
        maximum: u64,
    },
    /// 2: the bytes of the next field, or of the entries that a count promises, are not there.
    UnexpectedEof,
    /// 3: the file does not begin with "VOB".
    InvalidMagic,
    /// 4: the version is not 24.
    UnsupportedVersion {
        /// The version read.
        version: u32,
    },
    /// 5: a charge that the budget can't pay.
    AllocationBudgetExceeded {
        /// What the charge is for.
        context: Context,
        /// The charge.
        asked: u64,
        /// The budget before it.
        left: u64,
    },
    /// 6: a text that is not well-formed UTF-8.
    InvalidUtf8,
    /// 7: a bool other than 0 and 1.
    InvalidBoolean {
        /// The byte read.
        byte: u8,
    },
    /// 8: a slot type above 5.
    InvalidSlotType {
        /// The byte read.
        byte: u8,
    },
    /// 9: a kind above 24, alone or as the low byte of a packed word.
    InvalidValueKind {
        /// The byte read.
        byte: u8,
    },
    /// 10: a meta word without an id.
    InvalidPackedValueMeta {
        /// The word read.
        word: u32,
    },
    /// 11: an rttid word without an id.
    InvalidPackedValueRttid {
        /// The word read.
        word: u32,
    },
    /// 12: a channel direction above 2.
    InvalidChanDir {
        /// The byte read.
        byte: u8,
    },
    /// 13: a runtime type's tag above 12.
    InvalidRuntimeType {
        /// The byte read.
        byte: u8,
    },
    /// 14: a constant's tag above 4.
    InvalidConstant,
    /// 15: an unknown metadata tag, select case or assert kind, or not as many metadata as instructions.
    InvalidInstructionMetadata,
    /// 16: a struct with two fields of one name.
    DuplicateStructField {
        /// Where the repeat starts in the pack.
        start: u64,
        /// Its length in bytes.
        length: u64,
    },
    /// 17: an interface with two methods of one name.
    DuplicateInterfaceMethod {
        /// Where the repeat starts in the pack.
        start: u64,
        /// Its length in bytes.
        length: u64,
    },
    /// 18: a named type with two methods of one name.
    DuplicateNamedMethod {
        /// Where the repeat starts in the pack.
        start: u64,
        /// Its length in bytes.
        length: u64,
    },
    /// 19: a runtime struct with two fields of one package and name.
    DuplicateRuntimeStructField {
        /// Where the package text of the repeat starts.
        package: u64,
        /// Where the repeat starts in the pack.
        start: u64,
        /// Its length in bytes.
        length: u64,
    },
    /// 20: a transfer word of a function that is invalid, or not as many slot types as local slots.
    InvalidFunctionMetadata(FunctionMetadata),
    /// 21: a packed number that is not in shortest form, or not below 2 to the power 32.
    InvalidSourceInteger,
    /// 22: more artifacts, or a longer name or payload, than there can be.
    ModuleArtifactLimitExceeded {
        /// What is over its limit.
        context: Context,
        /// Its length.
        length: u64,
        /// The limit.
        maximum: u64,
    },
    /// 23: an inline list that is longer than it can be.
    DebugMetadataLimitExceeded {
        /// What is over its limit.
        context: Context,
        /// Its length.
        length: u64,
        /// The limit.
        maximum: u64,
    },
    /// 24: bytes after the pack's end.
    TrailingBytes {
        /// How many.
        bytes: u64,
    },
    /// 25: externs, as many as the pack has bytes for and the budget pays; packs call no host.
    HostCalls {
        /// How many.
        externs: u64,
    },
    /// 26: the tape is too short.
    NoRoom {
        /// How many words are needed.
        needed: u64,
        /// How many were lent.
        length: u64,
    },
    /// 27: no artifact has the name.
    NoSuchArtifact,
}

/// What a charge or a limit is for: document 01's contexts, numbered from 1.
#[derive(Clone, Copy, Debug, PartialEq, Eq, Hash)]
#[non_exhaustive]
#[repr(u8)]
pub enum Context {
    /// The bytes of a text.
    ByteString = 1,
    /// The entries of a list.
    Vector,
    /// The index of a struct's fields.
    StructFieldIndex,
    /// A name in that index.
    StructFieldKey,
    /// The set of an interface's methods.
    InterfaceMethodSet,
    /// The methods of a named type.
    NamedMethodMap,
    /// The set of a runtime struct's fields.
    RuntimeStructFieldSet,
    /// The artifacts.
    ModuleArtifacts,
    /// An artifact's name.
    ArtifactName,
    /// An artifact's payload.
    ArtifactPayload,
    /// The number of artifacts.
    ArtifactCount,
    /// The inline frames.
    InlineFrames,
    /// The functions with inline sources.
    InlineFunctions,
    /// The inline entries, over all functions.
    InlineEntries,
}

/// What of a function is wrong where 20 is given.
#[derive(Clone, Copy, Debug, PartialEq, Eq, Hash)]
pub enum FunctionMetadata {
    /// The meta word of a captured variable.
    CaptureMeta {
        /// Its number in the list, from 0.
        index: u64,
        /// The word.
        word: u32,
    },
    /// The rttid word of a captured variable.
    CaptureRttid {
        /// Its number in the list, from 0.
        index: u64,
        /// The word.
        word: u32,
    },
    /// The meta word of a parameter.
    ParameterMeta {
        /// Its number in the list, from 0.
        index: u64,
        /// The word.
        word: u32,
    },
    /// The rttid word of a parameter.
    ParameterRttid {
        /// Its number in the list, from 0.
        index: u64,
        /// The word.
        word: u32,
    },
    /// Not as many slot types as local slots.
    SlotCount {
        /// How many slot types there are.
        slot_types: u64,
        /// How many local slots the function declares.
        local_slots: u64,
    },
}

const CONTEXTS: [Context; 14] = [
    Context::ByteString,
    Context::Vector,
    Context::StructFieldIndex,
    Context::StructFieldKey,
    Context::InterfaceMethodSet,
    Context::NamedMethodMap,
    Context::RuntimeStructFieldSet,
    Context::ModuleArtifacts,
    Context::ArtifactName,
    Context::ArtifactPayload,
    Context::ArtifactCount,
    Context::InlineFrames,
    Context::InlineFunctions,
    Context::InlineEntries,
];

impl Context {
    fn new(number: u64) -> Context {
        CONTEXTS[number as usize - 1]
    }
}

impl FunctionMetadata {
    fn new(context: u64, detail1: u64, detail2: u64) -> FunctionMetadata {
        let (index, word) = (detail1, detail2 as u32);
        match context {
            1 => FunctionMetadata::CaptureMeta { index, word },
            2 => FunctionMetadata::CaptureRttid { index, word },
            3 => FunctionMetadata::ParameterMeta { index, word },
            4 => FunctionMetadata::ParameterRttid { index, word },
            _ => FunctionMetadata::SlotCount { slot_types: detail1, local_slots: detail2 },
        }
    }

    fn numbers(self) -> [u64; 3] {
        match self {
            FunctionMetadata::CaptureMeta { index, word } => [1, index, word.into()],
            FunctionMetadata::CaptureRttid { index, word } => [2, index, word.into()],
            FunctionMetadata::ParameterMeta { index, word } => [3, index, word.into()],
            FunctionMetadata::ParameterRttid { index, word } => [4, index, word.into()],
            FunctionMetadata::SlotCount { slot_types, local_slots } => [5, slot_types, local_slots],
        }
    }
}

impl Reason {
    /// The reason from document 01's number, context and details; `None` for 0, which is no refusal.
    pub(crate) fn new(number: u64, context: u64, detail1: u64, detail2: u64) -> Option<Reason> {
        let (byte, word) = (detail1 as u8, detail1 as u32);
        let (start, length) = (detail1, detail2);
        Some(match number {
            0 => return None,
            1 => Reason::InputTooLarge { length: detail1, maximum: detail2 },
            2 => Reason::UnexpectedEof,
            3 => Reason::InvalidMagic,
            4 => Reason::UnsupportedVersion { version: word },
            5 => Reason::AllocationBudgetExceeded { context: Context::new(context), asked: detail1, left: detail2 },
            6 => Reason::InvalidUtf8,
            7 => Reason::InvalidBoolean { byte },
            8 => Reason::InvalidSlotType { byte },
            9 => Reason::InvalidValueKind { byte },
            10 => Reason::InvalidPackedValueMeta { word },
            11 => Reason::InvalidPackedValueRttid { word },
            12 => Reason::InvalidChanDir { byte },
            13 => Reason::InvalidRuntimeType { byte },
            14 => Reason::InvalidConstant,
            15 => Reason::InvalidInstructionMetadata,
            16 => Reason::DuplicateStructField { start, length },
            17 => Reason::DuplicateInterfaceMethod { start, length },
            18 => Reason::DuplicateNamedMethod { start, length },
            19 => Reason::DuplicateRuntimeStructField { package: context, start, length },
            20 => Reason::InvalidFunctionMetadata(FunctionMetadata::new(context, detail1, detail2)),
            21 => Reason::InvalidSourceInteger,
            22 => Reason::ModuleArtifactLimitExceeded {
                context: Context::new(context),
                length: detail1,
                maximum: detail2,
            },
            23 => {
                Reason::DebugMetadataLimitExceeded { context: Context::new(context), length: detail1, maximum: detail2 }
            }
            24 => Reason::TrailingBytes { bytes: detail1 },
            25 => Reason::HostCalls { externs: detail1 },
            26 => Reason::NoRoom { needed: detail1, length: detail2 },
            27 => Reason::NoSuchArtifact,
            // Proved: crates/vob24/specs/Numbered.antt.
            _ => unreachable!("no refusal has the number {number}"),
        })
    }

    /// Document 01's number, c, d1 and d2.
    fn numbers(self) -> [u64; 4] {
        let limit = |number, context, length, maximum| [number, context as u64, length, maximum];
        match self {
            Reason::InputTooLarge { length, maximum } => [1, 0, length, maximum],
            Reason::UnexpectedEof => [2, 0, 0, 0],
            Reason::InvalidMagic => [3, 0, 0, 0],
            Reason::UnsupportedVersion { version } => [4, 0, version.into(), 0],
            Reason::AllocationBudgetExceeded { context, asked, left } => limit(5, context, asked, left),
            Reason::InvalidUtf8 => [6, 0, 0, 0],
            Reason::InvalidBoolean { byte } => [7, 0, byte.into(), 0],
            Reason::InvalidSlotType { byte } => [8, 0, byte.into(), 0],
            Reason::InvalidValueKind { byte } => [9, 0, byte.into(), 0],
            Reason::InvalidPackedValueMeta { word } => [10, 0, word.into(), 0],
            Reason::InvalidPackedValueRttid { word } => [11, 0, word.into(), 0],
            Reason::InvalidChanDir { byte } => [12, 0, byte.into(), 0],
            Reason::InvalidRuntimeType { byte } => [13, 0, byte.into(), 0],
            Reason::InvalidConstant => [14, 0, 0, 0],
            Reason::InvalidInstructionMetadata => [15, 0, 0, 0],
            Reason::DuplicateStructField { start, length } => [16, 0, start, length],
            Reason::DuplicateInterfaceMethod { start, length } => [17, 0, start, length],
            Reason::DuplicateNamedMethod { start, length } => [18, 0, start, length],
            Reason::DuplicateRuntimeStructField { package, start, length } => [19, package, start, length],
            Reason::InvalidFunctionMetadata(what) => {
                let [context, detail1, detail2] = what.numbers();
                [20, context, detail1, detail2]
            }
            Reason::InvalidSourceInteger => [21, 0, 0, 0],
            Reason::ModuleArtifactLimitExceeded { context, length, maximum } => limit(22, context, length, maximum),
            Reason::DebugMetadataLimitExceeded { context, length, maximum } => limit(23, context, length, maximum),
            Reason::TrailingBytes { bytes } => [24, 0, bytes, 0],
            Reason::HostCalls { externs } => [25, 0, externs, 0],
            Reason::NoRoom { needed, length } => [26, 0, needed, length],
            Reason::NoSuchArtifact => [27, 0, 0, 0],
        }
    }

    /// The bytes of the repeated name, where one is repeated.
    pub fn repeat(&self) -> Option<Range<usize>> {
        match *self {
            Reason::DuplicateStructField { start, length }
            | Reason::DuplicateInterfaceMethod { start, length }
            | Reason::DuplicateNamedMethod { start, length }
            | Reason::DuplicateRuntimeStructField { start, length, .. } => {
                Some(start as usize..(start + length) as usize)
            }
            _ => None,
        }
    }
}

impl Error {
    /// Document 01's six numbers of a refusal: number, c, d1, d2, place, left.
    pub fn numbers(&self) -> [u64; 6] {
        let [number, context, detail1, detail2] = self.reason.numbers();
        [number, context, detail1, detail2, self.place as u64, self.left]
    }
}

impl fmt::Display for Context {
    fn fmt(&self, f: &mut fmt::Formatter<'_>) -> fmt::Result {
        f.write_str(match self {
            Context::ByteString => "a text",
            Context::Vector => "a list",
            Context::StructFieldIndex => "the index of a struct's fields",
            Context::StructFieldKey => "a field's name in the index of its struct",
            Context::InterfaceMethodSet => "the set of an interface's methods",
            Context::NamedMethodMap => "the methods of a named type",
            Context::RuntimeStructFieldSet => "the set of a runtime struct's fields",
            Context::ModuleArtifacts => "the list of artifacts",
            Context::ArtifactName => "an artifact's name",
            Context::ArtifactPayload => "an artifact's payload",
            Context::ArtifactCount => "the list of artifacts",
            Context::InlineFrames => "the list of inline frames",
            Context::InlineFunctions => "the list of functions with inline sources",
            Context::InlineEntries => "the list of inline entries",
        })
    }
}

impl fmt::Display for FunctionMetadata {
    fn fmt(&self, f: &mut fmt::Formatter<'_>) -> fmt::Result {
        match self {
            FunctionMetadata::CaptureMeta { index, word } => {
                write!(f, "the meta word of capture {index}, {word:08X} hexadecimal, is invalid")
            }
            FunctionMetadata::CaptureRttid { index, word } => {
                write!(f, "the rttid word of capture {index}, {word:08X} hexadecimal, is invalid")
            }
            FunctionMetadata::ParameterMeta { index, word } => {
                write!(f, "the meta word of parameter {index}, {word:08X} hexadecimal, is invalid")
            }
            FunctionMetadata::ParameterRttid { index, word } => {
                write!(f, "the rttid word of parameter {index}, {word:08X} hexadecimal, is invalid")
            }
            FunctionMetadata::SlotCount { slot_types, local_slots } => {
                write!(f, "a function lists {slot_types} slot types for {local_slots} local slots")
            }
        }
    }
}

fn repeated(f: &mut fmt::Formatter<'_>, what: &str, start: u64, length: u64) -> fmt::Result {
    write!(f, "{what} of one name; the second name is the {length} bytes from byte {start} on")
}

impl fmt::Display for Reason {
    fn fmt(&self, f: &mut fmt::Formatter<'_>) -> fmt::Result {
        match *self {
            Reason::InputTooLarge { length, maximum } => {
                write!(f, "the pack has {length} bytes, and at most {maximum} are read")
            }
            Reason::UnexpectedEof => f.write_str("the pack ends before the field or list that starts here is complete"),
            Reason::InvalidMagic => f.write_str("this is no rule pack: it does not begin with the letters VOB"),
            Reason::UnsupportedVersion { version } => write!(f, "the pack has version {version}, and only 24 is read"),
            Reason::AllocationBudgetExceeded { context, asked, left } => {
                write!(f, "{context} costs {asked} bytes of a budget that has {left} left")
            }
            Reason::InvalidUtf8 => f.write_str("the text that ends here is not well-formed UTF-8"),
            Reason::InvalidBoolean { byte } => write!(f, "a yes or no is {byte}, and can be only 0 or 1"),
            Reason::InvalidSlotType { byte } => write!(f, "a slot type is {byte}, and can be only 0 to 5"),
            Reason::InvalidValueKind { byte } => write!(f, "a value kind is {byte}, and can be only 0 to 24"),
            Reason::InvalidPackedValueMeta { word } => write!(f, "the meta word {word:08X} hexadecimal names no id"),
            Reason::InvalidPackedValueRttid { word } => write!(f, "the rttid word {word:08X} hexadecimal names no id"),
            Reason::InvalidChanDir { byte } => write!(f, "a channel direction is {byte}, and can be only 0 to 2"),
            Reason::InvalidRuntimeType { byte } => write!(f, "a runtime type's tag is {byte}, and can be only 0 to 12"),
            Reason::InvalidConstant => f.write_str("a constant's tag can be only 0 to 4"),
            Reason::InvalidInstructionMetadata => f.write_str(
                "instruction metadata with an unknown tag, select case or assert kind, or not one for each instruction",
            ),
            Reason::DuplicateStructField { start, length } => repeated(f, "a struct has two fields", start, length),
            Reason::DuplicateInterfaceMethod { start, length } => {
                repeated(f, "an interface has two methods", start, length)
            }
            Reason::DuplicateNamedMethod { start, length } => {
                repeated(f, "a named type has two methods", start, length)
            }
            Reason::DuplicateRuntimeStructField { package, start, length } => {
                repeated(f, "a runtime struct has two fields", start, length)?;
                write!(f, ", in the package at byte {package}")
            }
            Reason::InvalidFunctionMetadata(what) => what.fmt(f),
            Reason::InvalidSourceInteger => {
                f.write_str("a packed number is not in its shortest form, or is too large for 32 bits")
            }
            Reason::ModuleArtifactLimitExceeded { context, length, maximum }
            | Reason::DebugMetadataLimitExceeded { context, length, maximum } => {
                write!(f, "{context} has length {length}, and can have {maximum} at most")
            }
            Reason::TrailingBytes { bytes } => write!(f, "the pack ends here, and {bytes} bytes follow"),
            Reason::HostCalls { externs } => {
                write!(
                    f,
                    "the pack declares {externs} externs, and rule packs call no host: its author has to take them out"
                )
            }
            Reason::NoRoom { needed, length } => write!(f, "the tape has {length} words, and {needed} are needed"),
            Reason::NoSuchArtifact => f.write_str("the pack has no artifact of this name"),
        }
    }
}

impl fmt::Display for Error {
    fn fmt(&self, f: &mut fmt::Formatter<'_>) -> fmt::Result {
        write!(f, "refused at byte {}: {}", self.place, self.reason)
    }
}

impl error::Error for Error {}
