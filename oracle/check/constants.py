#!/usr/bin/env python3
"""Whether the facts that stand in more than one file agree: sizes and their names, refusal numbers, contexts, the order of the
sections, limits and the starting budget, over .rt, .antt, .h, .rs, .py and .md; and both copies of the stored lists. Part of the gate.

usage: constants.py [ROOT]    prints one line; each difference, and status 1, where there is one
"""

import hashlib
import re
import sys
from pathlib import Path

ROOT = Path(sys.argv[1]) if len(sys.argv) > 1 else Path(__file__).resolve().parents[2]
differences = 0


def text(path):
    return (ROOT / path).read_text(encoding="utf-8")


def part(path, start, end):
    """What stands in a file between two lines."""
    body = text(path)
    first = body.index(start) + len(start)
    return body[first:body.index(end, first)]


def snake(name):
    return re.sub(r"(?<=[a-z0-9])(?=[A-Z])|(?<=[A-Z])(?=[A-Z][a-z])", "_", name).lower()


def number(digits):
    return int(digits.replace("_", ""))


def agree(what, readings):
    """All files say the same."""
    global differences
    (first, expected), *others = readings.items()
    if not expected:
        differences += 1
        print(f"{what}: nothing was found in {first}")
    for file, found in others:
        if found != expected:
            differences += 1
            missing = [item for item in expected if item not in found]
            more = [item for item in found if item not in expected]
            print(f"{what}: {file} and {first} differ: {missing or expected} against {more or found}")


def rattle(body):
    return [(name.lower(), number(value)) for name, value in re.findall(r"pub const (\w+): \w+ = ([\d_]+);", body)]


def variants(body, name):
    """The variants of an enum of Rattle with their numbers."""
    body = re.search(rf"pub enum {name} {{\n(.*?)^}}", body, re.M | re.S).group(1).split("// of `source_lines`")[0]
    return [(snake(variant), int(value)) for variant, value in re.findall(r"^    (\w+) = (\d+),$", body, re.M)]


def antt(body):
    return [(snake(name), int(value)) for name, value in re.findall(r"^(\w+) = (\d+)$", body, re.M)]


def header(body):
    return [(name.lower(), int(value)) for name, value in re.findall(r"VOB_(\w+) = (\d+)", body)]


def rust_variants(body):
    return [snake(name) for name in re.findall(r"^    (\w+)(?:,| = \d+,|\(|\s*\{)", body, re.M)]


# Refusal numbers.
kinds = "crates/reader/src/kinds.rt"
refusals = "crates/vob24/specs/Refusals.antt"
kernel = antt(text("crates/format/specs/Trace.antt"))
imported = re.search(r"Trace\.\{([^}]*)\}", text(refusals)).group(1)
own = antt(text(refusals).split("-- Contexts")[0]) + [pair for pair in kernel if pair[0] in map(snake, imported.split(", "))]
documented = re.findall(r"^    /// (\d+): .*\n(?:    ///.*\n)*    (\w+)", text("bindings/rust/src/error.rs"), re.M)
agree("refusal numbers", {
    kinds: variants(text(kinds), "Kind"),
    refusals: sorted(own, key=lambda pair: pair[1]),
    "bindings/c/vob.h": header(part("bindings/c/vob.h", "VOB_TAKEN = 0,", "};")),
    "bindings/rust/src/error.rs": [(snake(name), int(value)) for value, name in documented],
})

# Contexts, and those of 20.
contexts = variants(text(kinds), "Context")
agree("contexts", {
    kinds: contexts,
    refusals: antt(text(refusals).split("-- Contexts:")[1].split("-- What of a function")[0]),
    "bindings/c/vob.h": header(part("bindings/c/vob.h", "/* The contexts of", "};")),
    "bindings/rust/src/error.rs": list(zip(
        rust_variants(part("bindings/rust/src/error.rs", "pub enum Context {", "\n}")), range(1, len(contexts) + 1))),
})
agree("contexts of 20", {
    kinds: variants(text(kinds), "Part"),
    refusals: antt(text(refusals).split("-- What of a function")[1]),
})

# Sizes: their numbers by name, and their values.
settings = "crates/vob24/specs/Settings.antt"
named = [pair for pair in antt(part(settings, "StructMeta : ℕ", "pub record Settings")) if pair[0] != "measured"]
named = [("struct_meta", 1)] + [pair for pair in named if pair[0] != "struct_meta"]
agree("numbers of the sizes", {
    "crates/vob24_data/src/lib.rt": variants(text("crates/vob24_data/src/lib.rt"), "Size"),
    settings: named,
})
count = len(named)
table = [number(n) for n in re.findall(r"[\d_]+", part("crates/vob24_data/src/lib.rt", "MEASURED: [u16;", "];").split("= [")[1])]
measured = re.search(r"^measured =\n?((?:[\s\d∷]|\[\])+)", text(settings), re.M).group(1)
python = re.search(r"SIZES = \(([\d,\s]+)\)", text("oracle/check/reader.py")).group(1)
readme = part("oracle/README.md", "(`oracle/sizes`), in order of first use along the reading, the extern entry's last:", "Beside the table")
agree("sizes", {
    "crates/vob24_data/src/lib.rt": table[:count],
    settings: [int(n) for n in re.findall(r"\d+", measured)],
    "oracle/check/reader.py": [int(n) for n in re.findall(r"\d+", python)],
    "oracle/README.md": [int(n) for n in re.findall(r"(?:^|,)\s*(\d+) ", readme)],
})

# How many they are.
many = [int(n) for n in re.findall(r"^many_sizes = (\d+)", text(settings), re.M)]
agree("how many sizes", {settings: [count], settings + ", many_sizes": many} | {
    path: [int(n) for n in re.findall(pattern, text(path))] for path, pattern in (
        ("bindings/c/vob.h", r"number in the table of sizes, 1 to (\d+);"),
        ("bindings/rust/src/lib.rs", r"table of sizes, 1 to (\d+)\."),
        ("oracle/harness/src/sizes.rs", r"table\(\) -> \[\(&'static str, u64\); (\d+)\]"),
        ("oracle/README.md", r"list of exactly the (\d+) sizes"),
        ("docs/QUESTIONS.md", r"`oracle/README.md` has the (\d+) with"),
    )})

# Limits, by the names that the specification has: those above 65,535 take two entries of the array, low first. They fill the array
# behind the sizes.
entries = {name: at for name, at in rattle(text("crates/vob24_data/src/limits.rt"))}
agree("places of the limits", {
    "crates/vob24_data/src/lib.rt": list(range(count, len(table))),
    "crates/vob24_data/src/limits.rt": sorted(entries.values()),
})
limits = {name: table[at] + 65536 * (table[entries[name + "_high"]] if name + "_high" in entries else 0)
          for name, at in entries.items() if not name.endswith("_high")}
standing = re.search(r"^settings =\s+record \{([^}]*)\}$", text(settings), re.M).group(1)
agree("limits", {
    "crates/vob24_data/src/lib.rt": sorted(limits.items()),
    settings: sorted((snake(name), int(value)) for name, value in re.findall(r"(\w+) = (\d+)", standing)),
})

# The order of the sections.
def sections_of_python():
    names = re.search(r"^SECTIONS = \(([^)]*)\)", text("oracle/check/reader.py"), re.M).group(1)
    short = {"locations": "function_locations", "inline": "inline_sources"}
    return [short.get(name, name) for name in re.findall(r'"(\w+)"', names)]


grammar = part("crates/vob24/specs/Grammar.antt", "data Section : Type 0 where\n", ": Section")
agree("sections", {
    "crates/vob24/specs/Grammar.antt": [snake(name) for name in grammar.split()],
    "crates/vob24_data/src/lib.rt": rust_variants(part("crates/vob24_data/src/lib.rt", "pub enum Section {", "\n}")),
    "crates/exports/src/lib.rt": re.findall(
        r'pub extern "C" fn vob_(\w+)', text("crates/exports/src/lib.rt").split("// ---- the sections")[1]),
    "bindings/c/vob.h": re.findall(r"VOB_SECTION\(vob_(\w+)\)", text("bindings/c/vob.h"))
    + re.findall(r"vob_answer vob_(inline_sources)", text("bindings/c/vob.h")),
    "bindings/rust/src/raw.rs": re.findall(r"vob_(\w+)", part("bindings/rust/src/raw.rs", "section_calls! {", "}"))
    + re.findall(r"fn vob_(inline_sources)", text("bindings/rust/src/raw.rs")),
    "bindings/rust/src/section.rs": rust_variants(part("bindings/rust/src/section.rs", "pub enum Section {", "\n}")),
    "oracle/check/reader.py": sections_of_python(),
})

# The longest pack, and the Rust's starting budget.
for what, places in {
    "the longest pack": [
        ("crates/vob24/specs/Settings.antt", r"^max_pack_bytes = (\d+)"),
        ("crates/calls/src/lib.rt", r"MAX_PACK_BYTES: usize = ([\d_]+)"),
        ("bindings/rust/src/lib.rs", r"MAX_PACK_BYTES: usize = ([\d_]+)"),
        ("bindings/c/vob.h", r"VOB_MAX_PACK_BYTES UINT64_C\((\d+)\)"),
        ("oracle/check/reader.py", r"^MAX_PACK = ([\d_]+)"),
    ],
    "the starting budget": [
        ("crates/vob24/specs/Settings.antt", r"^starting_budget = (\d+)"),
        ("crates/pack/src/lib.rt", r"STARTING_BUDGET: u64 = ([\d_]+)"),
        ("bindings/rust/src/lib.rs", r"STARTING_BUDGET: u64 = ([\d_]+)"),
        ("bindings/c/vob.h", r"VOB_STARTING_BUDGET UINT64_C\((\d+)\)"),
        ("oracle/check/reader.py", r"^RUST_BUDGET = ([\d_]+)"),
    ],
}.items():
    agree(what, {path: [number(n) for n in re.findall(pattern, text(path), re.M)] for path, pattern in places})

# The stored lists: those that the replay reads, and the oracle's.
def stored(folder):
    return [(path.name, hashlib.sha256(path.read_bytes()).hexdigest()) for path in sorted((ROOT / folder).glob("*.bin"))]


lists = stored("crates/replay/data")
agree("stored lists", {"crates/replay/data": lists, "oracle/answers": stored("oracle/answers")})

if differences:
    sys.exit(1)
print(f"constants: {count} sizes, {len(limits)} limits, {len(variants(text(kinds), 'Kind'))} refusal numbers, "
      f"{len(contexts)} contexts, 17 sections and {len(lists)} stored lists agree")
