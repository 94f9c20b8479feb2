#!/usr/bin/env python3
"""Compares what `oracle read`, `section`, `lookup` and `alike` print with the second reader: answer, charge list, section
starts and tape. Packs: the stored ones of packcheck.bin, and large ones at the limits that no stored pack reaches.

usage: printed.py ORACLE PACKCHECK.BIN
"""

import os
import subprocess
import sys

sys.path.insert(0, os.path.dirname(os.path.abspath(__file__)))
import reader
from records import records

STEP = 4  # every fourth stored pack, to stay short
NO_TAPE_LIMIT = (1 << 64) - 1


def oracle(program, call, pack, *numbers):
    args = [program, call, "-"] + [str(number) for number in numbers]
    return subprocess.run(args, input=pack, stdout=subprocess.PIPE, check=True).stdout.decode()


def line(result):
    return " ".join(["refused" if result.status else "taken", *map(str, result.fields)])


def tape_lines(words):
    return ["tape:"] + ["  " + " ".join(map(str, words[at:at + 16])) for at in range(0, len(words), 16)]


def read_text(pack, budget, tape):
    result = reader.whole(pack, budget, tape)
    lines = [line(result), "charges: context amount place"]
    lines += [f"  {context} {amount} {place}" for context, amount, place in result.charges]
    lines += ["sections: number place left"]
    lines += [f"  {number} {place} {left}" for number, (place, left) in enumerate(result.sections, 1)]
    if result.status == 0:
        lines += tape_lines(result.words)
    return "\n".join(lines) + "\n"


def alike_text(pack):
    result = reader.alike_names(pack)
    if result.status:
        return line(result) + "\n"
    found, *pair = result.fields
    return " ".join(["pair", *map(str, pair)] if found else ["none"]) + "\n"


def u32(*numbers):
    return b"".join(number.to_bytes(4, "little") for number in numbers)


HEAD = b"VOB" + u32(24)
BEFORE_FUNCTIONS = HEAD + bytes(24 + 37 + 8)
BEFORE_EXTERNS = BEFORE_FUNCTIONS + bytes(4)
BEFORE_ARTIFACTS = BEFORE_FUNCTIONS + bytes(16)
BARE_FUNCTION = bytes(56)


def artifacts(*payloads):
    parts = [BEFORE_ARTIFACTS, u32(len(payloads))]
    for payload in payloads:
        parts += [u32(1), b"p", u32(7, payload), bytes(payload)]
    return b"".join(parts) + bytes(16)


def inline(frames, functions, entries):
    """Bare functions and frames; the entries stand in the first of the inline functions."""
    function_list = u32(functions) + BARE_FUNCTION * functions
    sources = u32(frames) + bytes(9 * frames) + u32(functions)
    for index in range(functions):
        count = entries if index == 0 else 0
        sources += u32(index, count) + bytes(8 * count)
    return BEFORE_FUNCTIONS + function_list + bytes(24) + sources


def nested_counts(left):
    """A function list, in its first function a metadata list, in it a select list: each counts all bytes left."""
    head = BEFORE_FUNCTIONS + u32(left) + bytes(40) + u32(left - 44) + b"\x12" + u32(left - 49)
    return head + bytes(left - 49)


def large_packs():
    limit = 16_777_216
    most = reader.MAX_PACK
    yield "longest input", bytes(most)
    yield "one byte longer", bytes(most + 1)
    rest = most - len(artifacts(*[limit] * 7, 0))
    yield "longest pack that is taken", artifacts(*[limit] * 7, rest)
    yield "longest pack and one byte", artifacts(*[limit] * 7, rest + 1)
    yield "payload past its limit", artifacts(limit + 1)
    # The smallest counts whose charge the Rust's own budget doesn't cover: 240 a function; and three counts that claim
    # the same bytes, functions, metadata and select cases: 312 a byte.
    unpaid = reader.RUST_BUDGET // reader.FUNCTION + 1
    yield "functions past the budget", BEFORE_FUNCTIONS + u32(unpaid) + bytes(unpaid)
    yield "functions within the budget", BEFORE_FUNCTIONS + u32(unpaid - 1) + bytes(unpaid - 1)
    nested = (reader.RUST_BUDGET + 64 * 44 + 8 * 49) // 312 + 1
    yield "nested counts past the budget", nested_counts(nested)
    yield "nested counts within the budget", nested_counts(nested - 1)
    unpaid = reader.RUST_BUDGET // reader.EXTERN + 1
    yield "externs past the budget", BEFORE_EXTERNS + u32(unpaid) + bytes(unpaid)
    yield "externs within the budget", BEFORE_EXTERNS + u32(unpaid - 1) + bytes(unpaid - 1)
    yield "externs past the bytes left", BEFORE_EXTERNS + u32(unpaid) + bytes(unpaid - 1)
    yield "inline frames and entries at their limits", inline(131_072, 2, 131_072)
    yield "no entry left for the second function", inline(0, 2, 131_072)[:-4] + u32(1) + bytes(8)


def main(program, path):
    compared, bad = 0, 0

    def check(what, printed, wanted):
        nonlocal compared, bad
        compared += 1
        if printed != wanted:
            bad += 1
            print(f"{what} differs: oracle\n{printed[:400]}\nsecond reader\n{wanted[:400]}")

    for index, record in enumerate(records(path)):
        if index % STEP == 0:
            for budget in (reader.RUST_BUDGET, 150):
                printed = oracle(program, "read", record.pack, budget, record.tape)
                check(f"record {index}", printed, read_text(record.pack, budget, record.tape))
    for label, pack in large_packs():
        check(label, oracle(program, "read", pack), read_text(pack, reader.RUST_BUDGET, NO_TAPE_LIMIT))
        print(f"{label}, {len(pack)} bytes: {line(reader.whole(pack, reader.RUST_BUDGET, NO_TAPE_LIMIT))}")
    pack = bytes(reader.MAX_PACK + 1)
    for number in (1, 17):
        result = reader.section(pack, number, 5, 77, 0, NO_TAPE_LIMIT)
        check("section of too long a pack", oracle(program, "section", pack, number, 5, 77), line(result) + "\ntape:\n")
    check("lookup in too long a pack", oracle(program, "lookup", pack, "p"), line(reader.lookup(pack, b"p")) + "\n")
    check("names alike in too long a pack", oracle(program, "alike", pack), alike_text(pack))
    pack = artifacts(2, 3)
    start, length = reader.lookup(pack, b"p").fields
    check("lookup", oracle(program, "lookup", pack, "p"), f"found {start} {length}\n")
    for kind in ("mixed", "names", "slots", "texts", "code"):
        pack = subprocess.run([program, "pack", kind, "200000", "1"], stdout=subprocess.PIPE, check=True).stdout
        check(f"{kind} pack", oracle(program, "read", pack), read_text(pack, reader.RUST_BUDGET, NO_TAPE_LIMIT))
        check(f"names alike in a {kind} pack", oracle(program, "alike", pack), alike_text(pack))
        print(f"{kind}, {len(pack)} bytes: {line(reader.whole(pack, reader.RUST_BUDGET, NO_TAPE_LIMIT))}")
    print(f"{compared} printed readings compared: " + ("no difference" if not bad else f"{bad} differences"))
    return bad != 0


if __name__ == "__main__":
    if len(sys.argv) != 3:
        sys.exit(__doc__)
    sys.exit(main(*sys.argv[1:]))
