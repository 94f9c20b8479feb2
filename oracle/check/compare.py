#!/usr/bin/env python3
"""Compares stored answers with the second reader, the sums charged with the records' costs, and says which questions
the answers decide with no.

usage: compare.py [--coverage] FILE...
Ends with 1 where an answer differs or, with --coverage, where a question that the records put is answered no nowhere.
"""

import os
import sys
import unicodedata
from collections import Counter

sys.path.insert(0, os.path.dirname(os.path.abspath(__file__)))
import reader
from cost import cost
from records import records

def impossible(question):
    """Whether no stored pack can answer this question with no."""
    number, where, kind = question
    # More than 134,217,728 bytes: printed.py asks it.
    if number == 1:
        return True
    # Slot types are a byte each and their count is within the bytes left.
    return "(always" in kind


def answer(record, coverage):
    if record.kind == "whole":
        return reader.whole(record.pack, record.budget, record.tape, coverage)
    if record.kind == "section":
        return reader.section(record.pack, record.section, record.place, record.budget, record.functions, record.tape,
                              coverage)
    if record.kind == "text":
        return reader.text(record.pack, record.place, record.budget, coverage)
    if record.kind == "alike":
        return reader.alike_names(record.pack, coverage)
    return reader.lookup(record.pack, record.name, coverage)


def tape_sum(words):
    total = 0
    for word in words:
        total = (total * 31 + word) % (1 << 32)
    return total


def differs(record, result):
    fields = result.fields + (0,) * (6 - len(result.fields))
    if (result.status, fields) != (record.status, record.fields):
        return f"stored {record.status} {record.fields}, computed {result.status} {fields}"
    if (len(result.words), tape_sum(result.words)) != (record.count, record.sum):
        return "the tape's words differ"
    if record.words and record.words != tuple(result.words):
        return "the stored words differ"
    if record.kind == "whole" and record.status == 0 and cost(result.words, record.pack) != record.fields[2]:
        return "the record's cost is not the sum charged"
    return None


def main(args):
    with_coverage = "--coverage" in args
    files = [arg for arg in args if arg != "--coverage"]
    if not files:
        sys.exit(__doc__)
    bad = 0
    coverage = (set(), set())
    for path in files:
        numbers, count, pairs = Counter(), 0, 0
        for index, record in enumerate(records(path)):
            count += 1
            difference = differs(record, answer(record, coverage))
            numbers[record.fields[0] if record.status else 0] += 1
            pairs += record.kind == "alike" and record.status == 0 and record.fields[0]
            if difference:
                bad += 1
                if bad <= 10:
                    print(f"{path} record {index} ({record.kind}, {len(record.pack)} bytes): {difference}")
                    print("  " + record.pack[:200].hex())
        table = " ".join(f"{number}:{numbers[number]}" for number in sorted(numbers))
        if pairs:
            table += f"; {pairs} pairs, by Unicode {unicodedata.unidata_version}"
        print(f"{os.path.basename(path)}: {count} compared; by number, 0 for taken: {table}")
    if with_coverage:
        asked, denied = coverage
        missing = sorted(question for question in asked - denied if not impossible(question))
        print(f"{len(asked)} questions at places of the format, {len(denied)} of them answered no in a record, "
              f"{sum(map(impossible, asked))} can't be")
        for number, where, kind in missing:
            print(f"  never answered no: {number} at {where} {kind}")
        bad += len(missing)
    print("no difference" if not bad else f"{bad} differences or gaps")
    return bad != 0


if __name__ == "__main__":
    sys.exit(main(sys.argv[1:]))
