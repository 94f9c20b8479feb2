//! summary FILE: the name of a rule pack, how many entries each of its lists has, its cost, and whether two names print alike; where
//! they do, what the arbiter should do about it.
//!
//! The counts come from section calls, since a section's words start at the tape's first word and a list opens with its count;
//! on the whole pack's tape they would have to be searched for, record by record.

use std::env;
use std::fs;
use std::process::ExitCode;
use vob::{Error, FIRST_SECTION, STARTING_BUDGET, Section};

/// The sections up to the inline sources, in file order; those without a label are no lists.
const SECTIONS: [(Section, Option<&str>); 16] = [
    (Section::Name, None),
    (Section::Structs, Some("structs")),
    (Section::Interfaces, Some("interfaces")),
    (Section::NamedTypes, Some("named types")),
    (Section::Itabs, Some("itabs")),
    (Section::RuntimeTypes, Some("runtime types")),
    (Section::WellKnown, None),
    (Section::Constants, Some("constants")),
    (Section::Globals, Some("globals")),
    (Section::Functions, Some("functions")),
    (Section::Externs, Some("externs")),
    (Section::Entry, None),
    (Section::IslandInit, None),
    (Section::Artifacts, Some("artifacts")),
    (Section::Files, Some("files")),
    (Section::FunctionLocations, Some("function locations")),
];

/// The lines to print: a label and what it stands for.
fn summary(pack: &[u8]) -> Result<Vec<(&'static str, String)>, Error> {
    let mut tape = vec![0; pack.len()];
    let whole = vob::read(pack, STARTING_BUDGET, &mut tape)?;
    let text = |span| String::from_utf8_lossy(&pack[span]).into_owned();
    let start = tape[0] as usize;
    let mut lines = vec![("name", text(start..start + tape[1] as usize))];

    let (mut place, mut left, mut functions) = (FIRST_SECTION, STARTING_BUDGET, 0);
    for (section, label) in SECTIONS {
        let reading = vob::read_section(section, pack, place, left, &mut tape)?;
        if let Some(label) = label {
            lines.push((label, tape[0].to_string()));
        }
        if section == Section::Functions {
            functions = tape[0].into();
        }
        (place, left) = (place + reading.bytes, reading.left);
    }
    vob::read_section(Section::InlineSources { functions }, pack, place, left, &mut tape)?;
    lines.push(("inline frames", tape[0].to_string()));
    lines.push(("cost", whole.charged.to_string()));
    match vob::alike_names(pack)? {
        None => lines.push(("print alike", "none".to_string())),
        Some(pair) => {
            let advice = pair.to_string();
            lines.push(("print alike", format!("{} and {}", text(pair.earlier), text(pair.later))));
            lines.push(("advice", advice));
        }
    }
    Ok(lines)
}

fn main() -> ExitCode {
    let Some(file) = env::args_os().nth(1) else {
        eprintln!("usage: summary FILE");
        return ExitCode::from(2);
    };
    let pack = match fs::read(&file) {
        Ok(pack) => pack,
        Err(error) => {
            eprintln!("{}: {error}", file.display());
            return ExitCode::from(2);
        }
    };
    match summary(&pack) {
        Ok(lines) => {
            for (label, value) in lines {
                println!("{label:<20} {value}");
            }
            ExitCode::SUCCESS
        }
        Err(refusal) => {
            eprintln!("{}: {refusal}", file.display());
            ExitCode::FAILURE
        }
    }
}
