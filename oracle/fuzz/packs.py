#!/usr/bin/env python3
"""Packs in and out of libFuzzer's folders.

usage: packs.py seeds FOLDER    writes the stored packs of at most 1,500 bytes, a file each
       packs.py text FOLDER     prints a folder's packs, the shortest first, as harness/corpus.txt has them
"""

import hashlib
import re
import sys
from pathlib import Path

ORACLE = Path(__file__).resolve().parent.parent
sys.path.insert(0, str(ORACLE / "check"))
from records import records

LONGEST = 1500


def seeds(folder):
    folder.mkdir(parents=True, exist_ok=True)
    for path in (ORACLE / "answers").glob("*.bin"):
        for record in records(path):
            # What a text is read from alone is no pack.
            if record.kind != "text" and len(record.pack) <= LONGEST:
                (folder / hashlib.sha1(record.pack).hexdigest()).write_bytes(record.pack)


def line(pack):
    """Bytes in hexadecimal, and +N for N zero bytes where there are more than three."""
    parts = re.split(rb"(\0{4,})", pack)
    return " ".join(part.hex() if part.strip(b"\0") else f"+{len(part)}" for part in parts if part)


def text(folder):
    packs = (path.read_bytes() for path in folder.iterdir())
    for pack in sorted(packs, key=lambda pack: (len(pack), pack)):
        print(line(pack))


if __name__ == "__main__":
    uses = {"seeds": seeds, "text": text}
    if len(sys.argv) != 3 or sys.argv[1] not in uses:
        sys.exit(__doc__)
    uses[sys.argv[1]](Path(sys.argv[2]))
