#!/usr/bin/env python3
"""Compares the stored answers of before with those of now, case by case.

usage: changes.py [--allow LIST] [--request 1] OLD [NEW]
OLD and NEW are folders of stored lists, or commits of this repository (their crates/replay/data); NEW is by default the
folder of now, answers. A case is a call: kind, the pack's bytes with the edit applied, section, tape, name, budget, place
and functions. Its file and its index do not matter.

Prints a table of the changes by old and new number (0: taken), for equal numbers with the fields that moved, how many
answers are unchanged, how many cases are gone and how many are new. Ends with 1 where
  - an old case is gone, or one call has two answers in one of the two;
  - with --allow, a change is not in LIST: "25>2,25>25:left" allows 25 to become 2, and of 25 the field left to move;
  - with --request 1, an answer is not what that request makes of the old one: an old 25 is worked out anew from itself and
    the pack's length, and every other answer stays.
"""

import argparse
import os
import subprocess
import sys
import tempfile
from collections import Counter

HERE = os.path.dirname(os.path.abspath(__file__))
sys.path.insert(0, HERE)
from records import records

DATA = "crates/replay/data"
EXTERN_DEF = 144
NAMES = {
    "refused": ("number", "c", "d1", "d2", "place", "left"), "text": ("start", "length", "characters", "place", "left"),
    "lookup": ("start", "length"), "alike": ("pair", "start", "length", "later start", "later length"),
    "whole": ("words", "bytes", "charged", "left")}
NAMES["section"] = NAMES["whole"]


def git(*args):
    return subprocess.run(["git", "-C", HERE, *args], stdout=subprocess.PIPE, check=True).stdout


def lists(source):
    """The records of each list of a folder or a commit."""
    if os.path.isdir(source):
        names = sorted(name for name in os.listdir(source) if name.endswith(".bin"))
        return {name: list(records(os.path.join(source, name))) for name in names}
    found = {}
    top = git("rev-parse", "--show-toplevel").decode().strip()
    for path in git("-C", top, "ls-tree", "--name-only", source, DATA + "/").decode().split():
        with tempfile.NamedTemporaryFile() as file:
            file.write(git("show", f"{source}:{path}"))
            file.flush()
            found[os.path.basename(path)] = list(records(file.name))
    return found


def call(record):
    return (record.kind, record.pack, record.section, record.tape, record.name, record.budget, record.place,
            record.functions)


def answer(record):
    return record.status, record.fields, record.count, record.sum


def number(answer):
    return answer[1][0] if answer[0] else 0


def answers(found):
    """The answer to each call, and how many calls have two."""
    by_call, two = {}, 0
    for record in (record for name in found for record in found[name]):
        two += by_call.setdefault(call(record), answer(record)) != answer(record)
    return by_call, two


def moved(kind, old, new):
    """The fields that differ in answers of one number, by name."""
    if number(old) != number(new):
        return ""
    names = NAMES["refused" if old[0] else kind]
    fields = [name for name, before, after in zip(names, old[1], new[1]) if before != after]
    return " ".join(fields + ["tape"] * (old[2:] != new[2:]))


def request_1(pack, old):
    """What request 1 makes of an old answer: the bytes left, then the charge, then 25."""
    if number(old) != 25:
        return old
    _, c, count, d2, place, left = old[1]
    if count == 0 or int.from_bytes(pack[place - 4:place], "little") != count:
        raise ValueError("an old 25 is not at its count")
    charge = count * EXTERN_DEF
    if count > len(pack) - place:
        fields = 2, 0, 0, 0, place, left
    elif charge > left:
        fields = 5, 2, charge, left, place, left
    else:
        fields = 25, c, count, d2, place, left - charge
    return (old[0], fields, *old[2:])


def allowed(change, rules):
    before, after, fields = change
    rule = rules.get((before, after))
    return rule is not None and (not rule or set(fields.split()) <= rule)


def parse(text):
    """"25>2,25>25:left c": the fields by change, none for any."""
    rules = {}
    for part in text.split(","):
        change, _, fields = part.partition(":")
        before, after = change.split(">")
        rules[int(before), int(after)] = set(fields.split())
    return rules


def main():
    parser = argparse.ArgumentParser(usage=__doc__)
    parser.add_argument("--allow")
    parser.add_argument("--request", choices=["1"])
    parser.add_argument("old")
    parser.add_argument("new", nargs="?", default=os.path.join(HERE, "..", "answers"))
    args = parser.parse_args()
    old_lists, new_lists = lists(args.old), lists(args.new)
    if not old_lists or not new_lists:
        sys.exit("no stored lists")
    (old, old_two), (new, new_two) = answers(old_lists), answers(new_lists)

    for name in sorted(old_lists.keys() | new_lists.keys()):
        print(f"{name}: {len(old_lists.get(name, []))} records, now {len(new_lists.get(name, []))}")
    print(f"calls, each once: {len(old)}, now {len(new)}")
    changes, unchanged, gone, wrong = Counter(), 0, 0, 0
    for key, before in old.items():
        after = new.get(key)
        if after is None:
            gone += 1
            if gone <= 10:
                print(f"gone: {key[0]}, {len(key[1])} bytes: {key[1][:120].hex()} {key[2:]}")
            continue
        if before == after:
            unchanged += 1
        else:
            changes[number(before), number(after), moved(key[0], before, after)] += 1
        if args.request and after != request_1(key[1], before):
            wrong += 1
            if wrong <= 10:
                print(f"not request {args.request}: {key[0]}, {len(key[1])} bytes: {before} became {after}")

    print("old > new: how many; fields that moved")
    rules = parse(args.allow) if args.allow else None
    refused = 0
    for change in sorted(changes):
        bad = rules is not None and not allowed(change, rules)
        refused += bad
        fields = f"; {change[2]}" if change[2] else ""
        print(f"  {change[0]} > {change[1]}: {changes[change]}{fields}{'   NOT ALLOWED' if bad else ''}")
    numbers = Counter(number(after) for key, after in new.items() if key not in old)
    print(f"{sum(changes.values())} changed, {unchanged} unchanged, {gone} gone, {sum(numbers.values())} new"
          + (f"; {old_two} and {new_two} calls with two answers" if old_two or new_two else ""))
    print("new by number, 0 for taken: " + " ".join(f"{n}:{numbers[n]}" for n in sorted(numbers)))
    if args.request:
        print(f"request {args.request}: " + (f"{wrong} answers are otherwise" if wrong else "each answer is as it asks"))
    return bool(gone or refused or wrong or old_two or new_two)


if __name__ == "__main__":
    sys.exit(main())
