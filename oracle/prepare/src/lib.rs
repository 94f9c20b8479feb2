//! What both build scripts share: find the seven files in VOB_SRC and write them, patched or not, to OUT_DIR.
//! The files stay outside the repository.

use std::path::{Path, PathBuf};

const DEFAULT: &str = "../shared/docs/src";
const WITHIN: &str = "lang/crates/vo-common-core/src";
const FILES: [&str; 7] = [
    "bytecode.rs",
    "debug_info.rs",
    "debug_info/inline.rs",
    "instruction.rs",
    "runtime_type.rs",
    "serialize.rs",
    "types.rs",
];
const MODULES: &str = "
pub mod bytecode;
pub mod debug_info;
pub mod instruction;
pub mod runtime_type;
pub mod serialize;
pub mod types;
";

/// Replace `old` by `new` in `file`. `old` must stand there exactly once.
pub struct Patch {
    pub file: &'static str,
    pub old: &'static str,
    pub new: &'static str,
}

fn stop(message: &str) -> ! {
    eprintln!("\n{message}\n");
    std::process::exit(1)
}

fn source() -> PathBuf {
    println!("cargo:rerun-if-env-changed=VOB_SRC");
    let manifest = std::env::var("CARGO_MANIFEST_DIR").expect("cargo sets CARGO_MANIFEST_DIR");
    let root = Path::new(&manifest).ancestors().nth(2).expect("oracle/ is in the repository").to_path_buf();
    // A relative VOB_SRC counts from the repository's root, as the default does.
    let given = std::env::var("VOB_SRC").unwrap_or_default();
    root.join(if given.is_empty() { DEFAULT } else { &given })
}

/// Write the seven files and `modules.rs` to OUT_DIR; gives the text of serialize.rs as written.
pub fn write(patches: &[Patch]) -> String {
    let source = source();
    let out = PathBuf::from(std::env::var("OUT_DIR").expect("cargo sets OUT_DIR"));
    std::fs::create_dir_all(out.join("debug_info")).expect("OUT_DIR can be written");
    let mut serialize = String::new();
    for file in FILES {
        let path = source.join(WITHIN).join(file);
        println!("cargo:rerun-if-changed={}", path.display());
        let mut text = std::fs::read_to_string(&path).unwrap_or_else(|error| {
            stop(&format!(
                "The Rust original is not here: {} ({error}).\n\
                 Set VOB_SRC to the folder that holds {WITHIN}/serialize.rs and its six neighbours\n\
                 (a relative path counts from the repository's root; the default is {DEFAULT}).",
                path.display()
            ))
        });
        for patch in patches.iter().filter(|patch| patch.file == file) {
            let found = text.matches(patch.old).count();
            if found != 1 {
                stop(&format!("The patch of {file} fits {found} times instead of once:\n{}", patch.old));
            }
            text = text.replacen(patch.old, patch.new, 1);
        }
        std::fs::write(out.join(file), &text).expect("OUT_DIR can be written");
        if file == "serialize.rs" {
            serialize = text;
        }
    }
    std::fs::write(out.join("modules.rs"), MODULES).expect("OUT_DIR can be written");
    serialize
}

/// Stop the build where the sources are not the ones this oracle was written for.
pub fn expect(holds: bool, message: &str) {
    if !holds {
        stop(message);
    }
}
