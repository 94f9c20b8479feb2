#!/usr/bin/env python3
"""Whether the tables of canonical decompositions are those of Python's unicodedata, for each code of U+00C0 to U+017F: the
specification's, the code's and the harness's. Part of the gate.

usage: decompositions.py [ROOT]    prints one line; each difference, and status 1, where there is one
"""

import re
import sys
import unicodedata
from pathlib import Path

ROOT = Path(sys.argv[1]) if len(sys.argv) > 1 else Path(__file__).resolve().parents[2]
FIRST, LAST = 0xC0, 0x17F
# The first byte of a mark's UTF-8, which the code's array leaves out: U+0300 to U+033F.
LEAD = 0xCC

SPECIFICATION = "crates/alike/specs/Decompositions.antt"
CODE = "crates/folding/src/lib.rt"
HARNESS = "oracle/harness/src/alike.rs"
HEX = r"0[xX][0-9A-Fa-f]+"

problems = []


def text(path):
    return (ROOT / path).read_text(encoding="utf-8")


def rows(path, found):
    """Letter and mark by code; no code twice, and none out of order or range."""
    codes = [code for code, _, _ in found]
    if codes != sorted(set(codes)) or any(not FIRST <= code <= LAST for code in codes):
        problems.append(f"{path}: the codes don't ascend from U+{FIRST:04X} to U+{LAST:04X}")
    return {code: (letter, mark) for code, letter, mark in found}


def specification():
    """Rows (code, letter, mark), of the list of that name."""
    body = re.search(r"^decompositions =(.*?)\[\]", text(SPECIFICATION), re.M | re.S)
    if body is None:
        problems.append(f"{SPECIFICATION}: there is no list decompositions")
        return {}
    found = re.findall(rf"\(\s*({HEX})\s*,\s*({HEX})\s*,\s*({HEX})\s*\)", body.group(1))
    return rows(SPECIFICATION, [tuple(int(number, 16) for number in row) for row in found])


def code():
    """An entry for each code: 0 where it stays, else the letter times 256 and the last byte of the mark."""
    name, length = "DECOMPOSED", LAST - FIRST + 1
    body = re.search(rf"\bconst {name}: \[u16; {length}\] = \[([^\]]*)\];", text(CODE))
    if body is None:
        problems.append(f"{CODE}: there is no const {name}: [u16; {length}]")
        return {}
    entries = [int(entry.replace("_", ""), 0) for entry in re.sub(r"//.*", "", body.group(1)).replace(",", " ").split()]
    if len(entries) != length:
        problems.append(f"{CODE}: {name} has {len(entries)} entries")
    found = []
    for at, entry in enumerate(entries):
        if entry:
            letter, last = divmod(entry, 256)
            try:
                mark = ord(bytes([LEAD, last]).decode("utf-8"))
            except UnicodeDecodeError:
                problems.append(f"{CODE}: entry {at}, {entry:#06x}, ends no mark")
                continue
            found.append((FIRST + at, letter, mark))
    return rows(CODE, found)


def harness():
    """For each mark its letters and the codes of these with the mark."""
    body = text(HARNESS).split("const DECOMPOSITIONS", 1)[1].split("];\n", 1)[0]
    found = []
    for mark, letters, codes in re.findall(rf'({HEX}),\s*"(\w+)",\s*&\[([^\]]*)\]', body):
        codes = [int(number, 16) for number in re.findall(HEX, codes)]
        if len(codes) != len(letters):
            problems.append(f"{HARNESS}: {len(letters)} letters and {len(codes)} codes of the mark {mark}")
        found += [(code, ord(letter), int(mark, 16)) for code, letter in zip(codes, letters)]
    return rows(HARNESS, sorted(found))


def canonical(code):
    """Letter and mark of a code, None where it stays: a decomposition with a tag is one of compatibility."""
    parts = unicodedata.decomposition(chr(code)).split()
    return None if not parts or parts[0].startswith("<") else tuple(int(part, 16) for part in parts)


tables = {SPECIFICATION: specification, CODE: code, HARNESS: harness}
expected = {code: canonical(code) for code in range(FIRST, LAST + 1)}
for path, read in tables.items():
    try:
        table = read()
    except OSError as error:
        problems.append(f"{path}: {error.strerror}")
        continue
    for each, wanted in expected.items():
        if table.get(each) != wanted:
            problems.append(f"{path}: U+{each:04X} is {table.get(each)}, in unicodedata {wanted}")

if problems:
    print("\n".join(problems))
    sys.exit(1)
replaced = sum(wanted is not None for wanted in expected.values())
print(f"decompositions: {replaced} of {len(expected)} codes have one, the same in {len(tables)} tables and in "
      f"Unicode {unicodedata.unidata_version}")
