//! The sizes that charges are made of, measured on this compiler, in order of first use along the reading; the extern
//! entry's, which came later, is the last.

use measured::bytecode::*;
use measured::debug_info::*;
use measured::instruction::Instruction;
use measured::runtime_type::{InterfaceMethod, StructField};
use measured::types::{SlotType, ValueRttid};
use measured::RuntimeType;

macro_rules! sizes {
    ($($t:ty),* $(,)?) => { [$((stringify!($t), std::mem::size_of::<$t>() as u64)),*] };
}

pub fn table() -> [(&'static str, u64); 33] {
    sizes![
        StructMeta,
        SlotType,
        FieldMeta,
        (String, usize),
        InterfaceMeta,
        String,
        InterfaceMethodMeta,
        &str,
        NamedTypeMeta,
        (String, MethodInfo),
        usize,
        Itab,
        u32,
        RuntimeType,
        ValueRttid,
        StructField,
        (&str, &str),
        InterfaceMethod,
        Constant,
        GlobalDef,
        FunctionDef,
        u16,
        Instruction,
        InstructionMetadata,
        SelectCaseLayout,
        TransferType,
        ModuleArtifact,
        FuncDebugInfo,
        DebugLoc,
        InlineSourceFrame,
        InlineFunctionSources,
        InlineSourceEntry,
        ExternDef,
    ]
}

/// Sizes of what is in an extern: no charge uses them, since no extern is read.
pub fn externs() -> [(&'static str, u64); 2] {
    sizes![ExtSlotKind, Option<u32>]
}

/// Whether `text` holds a list of exactly the table's 33 numbers, in order.
pub fn check(text: &str) -> Result<(), String> {
    let wanted: Vec<u64> = table().iter().map(|(_, size)| *size).collect();
    let lists = lists(text);
    if lists.contains(&wanted) {
        return Ok(());
    }
    // The list that agrees longest is the one that was meant.
    let agrees = |list: &Vec<u64>| list.iter().zip(&wanted).take_while(|(a, b)| a == b).count();
    let nearest = lists.iter().max_by_key(|list| agrees(list)).cloned().unwrap_or_default();
    Err(format!(
        "no list of the 33 measured sizes; the nearest has {} numbers and agrees in the first {}",
        nearest.len(),
        agrees(&nearest)
    ))
}

/// The lists of decimal numbers in a text: numbers parted by blanks, line ends, commas or list colons only. Comments
/// are left out; `_` inside a number and a type after it are allowed.
fn lists(text: &str) -> Vec<Vec<u64>> {
    let text: String = text
        .lines()
        .map(|line| line.split("//").next().unwrap_or("").split("--").next().unwrap_or("").to_string() + "\n")
        .collect();
    let mut out = vec![Vec::new()];
    let mut rest = text.as_str();
    while let Some(c) = rest.chars().next() {
        let end = rest.find(|c: char| !c.is_alphanumeric() && c != '_').unwrap_or(rest.len());
        if end > 0 {
            let word = rest[..end].trim_end_matches("u64").trim_end_matches("u32").replace('_', "");
            match word.parse() {
                Ok(number) => out.last_mut().expect("a list is open").push(number),
                Err(_) => out.push(Vec::new()),
            }
            rest = &rest[end..];
        } else {
            if !c.is_whitespace() && !matches!(c, ',' | '\u{2237}' | ':') {
                out.push(Vec::new());
            }
            rest = &rest[c.len_utf8()..];
        }
    }
    out
}
