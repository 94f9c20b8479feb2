#!/usr/bin/env python3
"""Places in crates/*/src that read like the older language, by the points of docs/DESIGN-PASS.md.

usage: tools/places.py [-l] [FOLDER]    in the repository, or in FOLDER, another checkout; -l lists each place

A line's comment is not read. A place may be one that stays: docs/DESIGN-PASS.md has the reasons.
"""
import os
import re
import sys

ENUM = re.compile(r"^(?:pub(?:\([a-z]+\))? )?enum (\w+)(?:<.*>)? \{(.*?)^\}", re.M | re.S)
FN = re.compile(r"^( *)(?:pub(?:\([a-z]+\))? )?(?:extern \"C\" )?fn (\w+)(.*?)^\1\}", re.M | re.S)
STRUCT = re.compile(r"^(?:pub(?:\([a-z]+\))? )?struct (\w+)(?:<.*>)? \{(.*?)^\}", re.M | re.S)


def sources(root):
    for folder, dirs, files in os.walk(os.path.join(root, "crates")):
        dirs[:] = sorted(d for d in dirs if d not in ("out", "target"))
        if os.path.basename(folder) == "src" or "/src/" in folder + "/":
            for f in sorted(files):
                if f.endswith(".rt"):
                    path = os.path.join(folder, f)
                    with open(path, encoding="utf-8") as text:
                        yield os.path.relpath(path, root), re.sub(r"//.*", "", text.read())


def line(text, at):
    return text.count("\n", 0, at) + 1


def lines(path, text, pattern):
    return [(path, line(text, m.start()), m.group(0).strip()) for m in re.finditer(pattern, text, re.M)]


def shape(body):
    """A function's text with its names, numbers and types left out."""
    body = re.sub(r"\b(requires|ensures)\b.*?\{(?:[^{}]|\{[^{}]*\})*\}", "", body, flags=re.S)
    body = re.sub(r"0x[0-9a-f_]+|\b\d[\d_]*(?:[iu]\d+|usize)?\b", "0", body)
    body = re.sub(r"\b(u8|u16|u32|u64|usize|i64|f64)\b", "T", body)
    keep = r"\b(?:let|mut|if|else|while|for|in|match|return|T|as|break|loop)\b"
    return " ".join(w if re.fullmatch(keep, w) else "x" if re.match(r"\w", w) else w for w in re.findall(r"\w+|[^\w\s]", body))


def main():
    args = [a for a in sys.argv[1:] if a != "-l"]
    verbose = "-l" in sys.argv[1:]
    root = args[0] if args else "."
    points = {n: [] for n in range(1, 9)}
    shapes = {}
    for path, text in sources(root):
        # 1: enums of two or three variants of which one has no value or a Refusal; constructors read by let-else; constants
        # that number kinds
        for m in ENUM.finditer(text):
            variants = [v for v in re.findall(r"^    (\w+)(.*?)(?=^    \w|\Z)", m.group(2), re.M | re.S)]
            if len(variants) <= 3 and any("Refusal" in v[1] or v[1].strip(" ,\n") == "" for v in variants):
                points[1].append((path, line(text, m.start()), "enum " + m.group(1)))
        points[1] += lines(path, text, r"^ *let (?!Some|Ok|Err|ControlFlow)\w+::\w+.*$")
        points[1] += lines(path, text, r"^ *pub const [A-Z0-9_]+: (?:u64|usize|u8) = \d+;")
        # 2: functions of one shape
        for m in FN.finditer(text):
            s = shape(m.group(3))
            if s.count(" ") > 24:
                shapes.setdefault(s, []).append((path, line(text, m.start()), "fn " + m.group(2)))
        # 3: loops that count by hand
        points[3] += lines(path, text, r"^ *while .*$")
        # 4: conversions, comparisons and copies by functions of one's own, and `as`
        points[4] += lines(path, text, r"^ *(?:pub )?fn (?:wide|byte|word|half|within|larger|smaller|unless|same_bytes|is_name|copy_record|clear|fill|first_\w+)\b.*$")
        points[4] += lines(path, text, r"\b\w+(?:\([^()]*\))? as (?:u64|usize|u32|u16|u8|i64)\b")
        # 5: parameters that travel together
        points[5] += lines(path, text, r"^ *(?:pub(?:\([a-z]+\))? )?(?:extern \"C\" )?fn \w+[^{]*?\bs: &\[u8\],[^{]*?tape: &mut \[u32\]")
        # 6: fixed buffers
        points[6] += lines(path, text, r"^ *let (?:mut )?\w+ = \[0.*$")
        # 7: switches on what to do
        points[7] += lines(path, text, r"^ *(?:return )?match (?:tag|number|i|kind|table|item|section)\b.*$")
    for s, places in shapes.items():
        if len(places) > 1:
            points[2] += places
    for folder, dirs, files in os.walk(os.path.join(root, "crates")):
        dirs[:] = sorted(d for d in dirs if d not in ("out", "target"))
        for f in sorted(files):
            if f == "Answers.antt":
                path = os.path.join(folder, f)
                with open(path, encoding="utf-8") as text:
                    t = text.read()
                points[8] += lines(os.path.relpath(path, root), t, r"^[\w'+?-]+ (?:\w+ )*= search \(?rules.*$")
    names = [
        "own enums like Option or Result, reads of them, numbers for kinds",
        "functions of one shape",
        "loops that count by hand",
        "conversions and comparisons by hand",
        "pack and tape as parameters",
        "fixed buffers",
        "switches",
        "answers by a search",
    ]
    for n, name in enumerate(names, 1):
        print(f"{n}  {len(points[n]):4}  {name}")
        if verbose:
            for path, at, what in points[n]:
                print(f"        {path}:{at}: {what[:100]}")


main()
