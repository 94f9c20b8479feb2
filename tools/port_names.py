#!/usr/bin/env python3
"""Spells the repository's own definitions and lemmas as today's Rattle does, once, after the kit's port.py.

usage: tools/port_names.py            at the top of the repository; --list prints the names and changes nothing

Words are in snake case, types in camel case, and a dash joins the parts of a lemma's name, as in std's. What is respelled: every name that a file of specs/, or one of proofs/ that
is no function's, declares: a definition, a lemma, a ruleset, a field, a constructor. It is respelled in the .antt and .rt
files, in the must-fail edits, and in the pages of docs/ but CHANGES.md. Functions of src/, exported C names, strings, inputs and outputs
keep their names. A name whose new spelling would meet another in some file keeps the old one and is printed.
"""
import os
import re
import sys

NAME = r"[^\s(){}.;,@\"«»`|]+"
DECLARED = re.compile(r"^ *(?:abbrev |unfoldable |pub |ruleset |record |data )*(%s(?: %s)*)(?: \{[^{}\n]*\}| \([^()\n]*\))* *[:=](?: |$)" % (NAME, NAME))
INLINE = re.compile(r"[{;] (%s) :" % NAME)
RENAMED = re.compile(r" as (%s)" % NAME)
FUNCTION = re.compile(r"/proofs/.*/(Proof|Answers|Invariants)\.antt$")
# A lemma from whose name port.py took the dash, and which would then meet a definition: file, its name, the landed one.
DASHES = [("crates/repeat_search/proofs/Marks.antt", "as_read", "as-read")]


def files(suffixes):
    for folder, dirs, names in os.walk("crates"):
        dirs[:] = sorted(d for d in dirs if d != "out")
        for name in sorted(names):
            if name.endswith(suffixes):
                yield os.path.join(folder, name)


def text(path):
    with open(path, encoding="utf-8") as f:
        return f.read()


def is_word(name):
    """A name with a part that is a word in camel case, and not a type's."""
    return name[0].isalpha() and snake(name) != name


def snake(name):
    words = re.split(r"([^A-Za-z0-9_]+)", name)
    return "".join(re.sub(r"(?<=[a-z0-9])[A-Z]", lambda m: "_" + m[0].lower(), w) if w[:1].islower() else w for w in words)


def declared():
    found = set()
    for path in files(".antt"):
        own = not FUNCTION.search("/" + path)
        for line in text(path).splitlines():
            if line.lstrip().startswith(("use ", "pub use ")):
                found.update(n for n in RENAMED.findall(line) if is_word(n))
            elif own and not line.lstrip().startswith(("--", "unfolding ")):
                m = DECLARED.match(line)
                found.update(n for n in (m[1].split() if m else ()) if is_word(n))
                found.update(n for n in INLINE.findall(line) if is_word(n))
    for path in files(".rt"):
        for line in text(path).splitlines():
            if line.lstrip().startswith("ghost use "):
                found.update(n for n in RENAMED.findall(line) if is_word(n))
    return found


def words_of(path):
    """The names in a file, but those in comments, in paths of modules and behind a dot."""
    lines = [re.sub(r"(^| )--( .*)?$", "", line) for line in text(path).splitlines()]
    plain = re.sub(r"\bRattle\.[\w.]*\w(?=\.\{| as |$)", "", "\n".join(lines))
    return set(re.findall(r"(?<!\.)" + NAME, plain))


def main():
    names = declared()
    turned = {n: snake(n) for n in names}
    listing = "--list" in sys.argv
    for path, name, landed in DASHES:
        old = text(path)
        new = re.sub(r"(?m)(?<![\w.])%s(?![\w'-])" % name, landed, old)
        if not listing:
            with open(path, "w", encoding="utf-8") as f:
                f.write(new)
    tokens = {}
    for path in files((".antt", ".rt", ".edit")):
        tokens[path] = words_of(path)
    met = {}
    for path, words in tokens.items():
        for n in sorted(words & names):
            other = turned[n]
            if other in words and (path, other) not in [(p, name) for p, name, _ in DASHES] and not path.endswith(".rt") and not FUNCTION.search("/" + path):
                met.setdefault(n, []).append(path)
    spelled = {}
    for n, t in turned.items():
        spelled.setdefault(t, []).append(n)
    for t, ns in sorted(spelled.items()):
        if len(ns) > 1:
            print("together:", t, sorted(ns))
    for n, where in sorted(met.items()):
        print("met:", n, "->", turned[n], where[:3])
    if listing:
        for n in sorted(turned):
            print(n, turned[n])
        return
    for n in met:
        del turned[n]
    token = re.compile(NAME)
    changed = 0
    pages = [os.path.join("docs", n) for n in sorted(os.listdir("docs")) if n.endswith(".md") and not n.startswith(("CHANGES", "PORT"))] + ["README.md"]
    for path in list(tokens) + pages:
        old = text(path)
        if path.endswith(".rt"):
            new = re.sub(r'"(?:[^"\\\n]|\\.)*"|' + NAME, lambda m: turned.get(m[0], m[0]), old)
        elif path.endswith(".md"):
            new = re.sub(r"`([^`\n]+)`", lambda m: "`" + token.sub(lambda k: turned.get(k[0], k[0]), m[1]) + "`", old)
        else:
            new = token.sub(lambda m: turned.get(m[0], m[0]), old)
        if new != old:
            changed += 1
            with open(path, "w", encoding="utf-8") as f:
                f.write(new)
    print(f"{len(turned)} names, {changed} files")


main()
