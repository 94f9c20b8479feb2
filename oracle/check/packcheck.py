#!/usr/bin/env python3
"""Runs a packcheck program on the stored packs and compares the lines it prints.

usage: packcheck.py PROGRAM [LIST...]
"""

import os
import subprocess
import sys

HERE = os.path.dirname(os.path.abspath(__file__))
sys.path.insert(0, HERE)
from records import records


RUST_BUDGET, TAPE = 536_870_912, 16_384


def asked(record):
    return (record.kind, record.budget, record.tape) == ("whole", RUST_BUDGET, TAPE)


def line(record):
    fields = record.fields if record.status else record.fields[:4]
    return " ".join(["refused" if record.status else "taken", *map(str, fields)]) + "\n"


def main(program, lists):
    cases = [(record.pack, line(record)) for path in lists for record in records(path) if asked(record)]
    cases += [(bytes(length), "too long for packcheck\n") for length in (65_537, 131_072)]
    bad = 0
    for pack, wanted in cases:
        printed = subprocess.run([program], input=pack, stdout=subprocess.PIPE).stdout.decode()
        if printed != wanted:
            bad += 1
            if bad <= 10:
                print(f"{pack[:200].hex()} ({len(pack)} bytes): wanted {wanted!r}, printed {printed!r}")
    print(f"{len(cases)} lines compared: " + ("no difference" if not bad else f"{bad} differences"))
    return bad != 0


if __name__ == "__main__":
    if len(sys.argv) < 2:
        sys.exit(__doc__)
    stored = [os.path.join(HERE, "..", "answers", name) for name in ("packcheck.bin", "corpus.bin")]
    sys.exit(main(sys.argv[1], sys.argv[2:] or stored))
