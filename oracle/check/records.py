#!/usr/bin/env python3
"""Reads the stored answers; README.md describes the format. As a program it shows one record, counted from 0.

usage: records.py FILE INDEX
"""

import struct
import sys
from collections import namedtuple

HEADER = struct.Struct("<12I3Q7Q")
KINDS = {1: "whole", 2: "section", 3: "lookup", 4: "text", 5: "alike"}

Record = namedtuple("Record", "kind pack section place budget functions tape name status fields words count sum")


def records(path):
    with open(path, "rb") as file:
        data = file.read()
    at, seen, buffer = 0, 0, b""

    def take(length):
        nonlocal at
        if at + length > len(data):
            raise ValueError(f"{path}: cut short at {at}")
        at += length
        return data[at - length:at]

    while True:
        (kind, stored, length, edit_at, edit_len, edit, section, tape, name, words, count, check,
         budget, place, functions, status, *fields) = HEADER.unpack(take(HEADER.size))
        if kind == 0:
            if stored != seen or at != len(data):
                raise ValueError(f"{path}: {seen} records, the last one says {stored}")
            return
        if stored:
            buffer = take(stored)
        pack = buffer[:length]
        if edit_len:
            pack = pack[:edit_at] + struct.pack("<I", edit)[:edit_len] + pack[edit_at + edit_len:]
        name = take(name)
        words = struct.unpack(f"<{words}I", take(4 * words))
        seen += 1
        yield Record(KINDS[kind], pack, section, place, budget, functions, tape, name, status, tuple(fields), words, count,
                     check)


def show(path, index):
    record = list(records(path))[index]
    for name in ("kind", "section", "place", "functions", "budget", "tape", "name", "status", "fields", "count"):
        print(f"{name:9} {getattr(record, name)}")
    print(f"pack      {len(record.pack)} bytes: {record.pack.hex()}")
    if record.words:
        print(f"words     {' '.join(map(str, record.words))}")


if __name__ == "__main__":
    if len(sys.argv) != 3:
        sys.exit(__doc__)
    show(sys.argv[1], int(sys.argv[2]))
