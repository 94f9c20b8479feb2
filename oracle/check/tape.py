#!/usr/bin/env python3
"""Walks tapes by the tables of docs/RECORD.md, so that a wrong table there is noticed.

usage: tape.py [--document FILE] [LIST...]
Each taken answer of the lists (default: tapes, packcheck and sections) has its words walked by the tables alone: they must
be used up exactly, with values, tags and marks that the tables have, and texts that lie in the pack. Each field is then
held against what the second reader read: same words, same kind, and the field's name by the reader's own name for the
place. The examples of the document are walked too. Names, types and tags are held against the Rust sources where these are
at hand (VOB_SRC, default ../shared/docs/src). Ends with 1 where something differs or a table is met nowhere.
"""

import os
import re
import sys
from functools import lru_cache

HERE = os.path.dirname(os.path.abspath(__file__))
ROOT = os.path.join(HERE, "..", "..")
sys.path.insert(0, HERE)
import reader
from compare import tape_sum
from records import records

FIELDS = ["field", "kind", "words", "meaning"]
VARIANTS = ["tag", "variant"] + FIELDS
KINDS = ["kind", "words", "values"]
EXAMPLE = ["offset", "words", "field", "here"]

# Each kind: how its values are told, and what the second reader calls to read it; "number W" is a bare number of W bytes.
PACKED = "low 8 bits 0 to 24, a ValueKind; upper 24 bits 0 to 16777214, "
KNOWN = {
    "u8": ("0 to 255", {"u8"}), "u16": ("0 to 65535", {"u16", "number 2"}), "u32": ("0 to 4294967295", {"u32", "packed_number"}),
    "i32": ("0 to 4294967295, the two's complement bits", {"u32"}), "bool": ("0 to 1, where 1 is true", {"boolean"}),
    "SlotType": ("0 to 5, ", {"slot_type"}), "ValueKind": ("0 to 24, ", {"kind"}), "ChanDir": ("0 to 2, ", {"direction"}),
    "assert kind": ("0 to 1, ", {"number 1"}), "ValueMeta": (PACKED + "a meta id", {"meta"}),
    "ValueRttid": (PACKED + "an index in `runtime_types`", {"rttid"}), "empty list": ("0 to 0, the count", {"number 4"}),
    "u64": ("low word, high word", {"u64"}), "i64": ("low word, high word", {"u64"}), "f64": ("low word, high word", {"u64"}),
    "text": ("start, length in bytes", {"text"}), "payload": ("start, length in bytes", {"span"}),
    "optional id": ("0 and 0 where it is absent; else 1 and the id", {"optional_id"}),
    "optional X": ("0 where it is absent; else 1, then X", set()), "list of X": ("the count, then the items", set())}
OF_X = {"optional X": "1 or 1 + X", "list of X": "1 + items"}
READ_BY = {kind: calls for kind, (_, calls) in KNOWN.items()}
READ_BY.update({"tag": {"number 1"}, "mark": {"boolean"}, "count": {"list", "number 4"}})

# The second reader's names for places, beside the Rust's where these are others. The groups are applied in turn.
NAMES = [(group + pair.split()[0], group + pair.split()[1]) for group, pairs in (
    ("functions.metadata.", """elem ElemLayout, map_get.first MapGet.key_layout, map_get.second MapGet.val_layout, map_get MapGet,
        map_set.first MapSet.key_layout, map_set.second MapSet.val_layout, map_delete.first MapDelete.key_layout,
        loop_end LoopEnd, ptr.first PtrLayout.value_layout, slot SlotLayout, call.first CallLayout.arg_layout,
        call.second CallLayout.ret_layout, call_extern.first CallExternLayout.arg_layout,
        call_extern.second CallExternLayout.ret_layout, queue.first QueueLayout.elem_layout,
        map_iter_next.first MapIterNext.key_layout, map_iter_next.second MapIterNext.val_layout,
        assert.kind IfaceAssertLayout.assert_kind, assert IfaceAssertLayout, map_new.first MapNew.key_layout,
        map_new.second MapNew.val_layout, call_iface.first CallIfaceLayout.arg_layout,
        call_iface.second CallIfaceLayout.ret_layout, call_iface CallIfaceLayout, select.send.first select.Send.queue,
        select.send.second select.Send.value, select.send select.Send, select.recv.first select.Recv.destination,
        select.recv.second select.Recv.queue, select.recv select.Recv, select SelectExecLayout.cases"""),
    ("functions.", """metadata instruction_metadata, capture_types.meta capture_types.meta_raw,
        capture_types.rttid capture_types.rttid_raw, param_types.meta param_types.meta_raw,
        param_types.rttid param_types.rttid_raw"""),
    ("runtime_types.", """basic Basic, named Named, pointer Pointer, array Array, slice Slice, map Map, chan Chan, func Func,
        struct Struct, interface Interface, tuple Tuple, port Port"""),
    ("well_known.", """attr_object attr_object_iface_id, set_attr_object set_attr_object_iface_id,
        index_object index_object_iface_id, set_index_object set_index_object_iface_id,
        call_object call_object_iface_id, error_field_offsets.msg error_field_offsets.[0],
        error_field_offsets.cause error_field_offsets.[1]"""),
    ("constants.", "bool Bool, int Int, float Float, string String"),
    ("", """structs struct_metas, interfaces interface_metas, named_types named_type_metas, entry entry_func,
        island_init island_init_func, files debug_info.files, locations debug_info.funcs,
        inline.entries inline.functions.entries, inline debug_info.inline_sources"""),
) for pair in pairs.split(",")]


class Wrong(Exception):
    pass


def must(good, message):
    if not good:
        raise Wrong(message)


# The document.

def tables(lines):
    """Each table: the title above it, its column names, its rows."""
    title, header = "", None
    for line in lines:
        if line.startswith("#"):
            title = line.lstrip("#").strip()
        if not line.startswith("|"):
            header = None
            continue
        cells = [cell.strip() for cell in line.strip().strip("|").split("|")]
        if header is None:
            header, rows = cells, []
            yield title, header, rows
        elif not set("".join(cells)) <= set("-"):
            must(len(cells) == len(header), f"{title}: not {len(header)} columns: {line}")
            rows.append(cells)


class Document:
    """kinds: a kind's number of words and, for one word, its values. records: by title, a list of tag, variant and rows, which
    has one entry without a tag where it is no variant; a row is field and kind. sections: their titles in order."""

    def __init__(self, path):
        with open(path, encoding="utf-8") as file:
            self.lines = file.read().split("\n")
        self.kinds, self.records, self.sections, self.examples, self.links, self.written = {}, {}, [], [], set(), []
        for title, header, rows in list(tables(self.lines)):
            if header == KINDS:
                must([row[0] for row in rows] == list(KNOWN), f"the kinds are {list(KNOWN)}")
                for kind, words, values in rows:
                    must(values.startswith(KNOWN[kind][0]), f"{kind}: its values are {KNOWN[kind][0]}")
                    if kind in OF_X:
                        must(words == OF_X[kind], f"{kind}: its words are {OF_X[kind]}")
                    else:
                        self.kinds[kind] = int(words), values
            elif header in (FIELDS, VARIANTS):
                must(title not in self.records, f"two tables for {title}")
                self.records[title] = self.parts(title, rows) if header == VARIANTS else [(None, None, self.fields(title, rows))]
                if re.fullmatch(r"\d+ \w+", title):
                    self.sections.append(title)
            elif header == EXAMPLE:
                self.examples.append((title, rows))
            else:
                raise Wrong(f"{title}: a table of unknown columns {header}")
        with open(os.path.join(ROOT, "bindings", "c", "vob.h"), encoding="utf-8") as header:
            calls = re.findall(r"^(?:VOB_SECTION\(|vob_answer )vob_(\w+)", header.read(), re.MULTILINE)
        calls = [call for call in calls if call not in ("read", "find_artifact", "alike_names")]
        must(self.sections == [f"{number} {call}" for number, call in enumerate(calls, 1)], f"the sections are {calls}")
        linked = self.links | set(self.sections)
        must(linked == set(self.records), f"linked or a table, but not both: {linked ^ set(self.records)}")
        for title, field, kind, words in self.written:
            must(words == self.words(kind), f"{title} {field}: words are {self.words(kind)}, not {words}")

    def fields(self, title, rows):
        return [self.field(title, *row) for row in rows]

    def parts(self, title, rows):
        parts = []
        for tag, variant, *row in rows:
            if tag:
                must(tag not in [part[0] for part in parts], f"{title}: tag {tag} twice")
                parts.append((tag, variant, []))
            must(parts, f"{title}: the first row has no tag")
            if row[0]:
                parts[-1][2].append(self.field(f"{title} {parts[-1][1]}", *row))
            else:
                must(row[1:3] == ["", "0"], f"{title} {variant}: words of no field")
        return [(int(tag), variant, fields) for tag, variant, fields in parts]

    def field(self, title, field, kind, words, _meaning):
        must(re.fullmatch(r"`[^`]+`", field), f"{title}: {field} is no field's name")
        for name, anchor in re.findall(r"\[(\w+)\]\(#(\w+)\)", kind):
            must(anchor == name.lower(), f"{title} {field}: the link of {name} leads elsewhere")
            self.links.add(name)
        kind = re.sub(r"\[(\w+)\]\(#\w+\)", r"\1", kind)
        self.written.append((title, field, kind, words))
        return field.strip("`"), kind

    def item(self, kind):
        """The X of a list or an optional part, else None."""
        match = re.fullmatch(r"(?:list of|optional) (.+)", kind)
        return match and kind not in self.kinds and match[1]

    def sizes(self, kind):
        """The numbers of words that a kind may have; None where a list is in it."""
        if kind in self.kinds:
            return {self.kinds[kind][0]}
        if kind.startswith("list of"):
            return None
        if self.item(kind):
            sizes = self.sizes(self.item(kind))
            return sizes and {1} | {1 + size for size in sizes}
        must(kind in self.records, f"{kind} is no kind and no record")
        if self.records[kind][0][0] is not None:
            return None
        sums = {0}
        for _, part in self.records[kind][0][2]:
            sizes = self.sizes(part)
            if sizes is None:
                return None
            sums = {total + size for total in sums for size in sizes}
        return sums

    def words(self, kind):
        """What the column "words" has to say."""
        if not kind.startswith("list of"):
            return " or ".join(map(str, sorted(self.sizes(kind) or ()))) or "varies"
        sizes = self.sizes(self.item(kind))
        if not sizes or len(sizes) > 1:
            return "1 + items"
        return "1 + n" if sizes == {1} else f"1 + {sizes.pop()}n"

    def good(self, kind, word):
        """Whether the column "values" has this word."""
        values = self.kinds[kind][1]
        largest = [int(number) for number in re.findall(r"\b0 to (\d+)", values)]
        if values.startswith("low 8 bits"):
            return word % 256 <= largest[0] and word // 256 <= largest[1]
        return word <= largest[0]

    def places(self):
        """What is to be met: each record or variant, each list with an item, each optional part both ways."""
        for title, parts in self.records.items():
            for _, variant, fields in parts:
                name = f"{title} {variant}" if variant else title
                yield name
                for field, kind in fields:
                    if kind.startswith("list of"):
                        yield f"item in {name} {field}"
                    if kind.startswith("optional"):
                        yield f"present {name} {field}"
                        yield f"absent {name} {field}"


class Walk:
    """The fields of a tape by the document: path, kind and words of each."""

    def __init__(self, document, pack, words):
        self.document, self.pack, self.words, self.at = document, pack, words, 0
        self.leaves, self.met, self.records = [], set(), 0

    def take(self, path, kind, count):
        words = tuple(self.words[self.at:self.at + count])
        must(len(words) == count, f"{path}: the tape ends before it")
        self.at += count
        self.leaves.append((path, kind, words))
        return words

    def leaf(self, name, path, kind):
        words = self.take(path, kind, self.document.kinds[kind][0])
        if len(words) == 1:
            must(self.document.good(kind, words[0]), f"{path}: {words[0]} is no {kind}")
        elif kind in ("text", "payload"):
            must(sum(words) <= len(self.pack), f"{path}: {words} is not in the pack")
            length = self.pack[words[0] - 4:words[0]]
            must(int.from_bytes(length, "little") == words[1], f"{path}: {words} is no length and its bytes")
        elif kind == "optional id":
            must(words[0] == 1 or words == (0, 0), f"{path}: {words} is no optional id")
            self.met.add(f"{'present' if words[0] else 'absent'} {name}")

    def part(self, name, path, kind):
        """The part of this kind at a path; name is its field's in the document."""
        if kind in self.document.kinds:
            self.leaf(name, path, kind)
        elif kind.startswith("list of"):
            for _ in range(self.take(path, "count", 1)[0]):
                self.met.add(f"item in {name}")
                self.part(name, path + "[]", self.document.item(kind))
        elif kind.startswith("optional"):
            mark, = self.take(path + "?", "mark", 1)
            must(mark <= 1, f"{path}: {mark} is no mark")
            self.met.add(f"{'present' if mark else 'absent'} {name}")
            if mark:
                self.part(name, path, self.document.item(kind))
        else:
            self.record(kind, path)

    def record(self, title, path):
        name, parts = title, self.document.records[title]
        if parts[0][0] is not None:
            tag, = self.take(path + ".tag", "tag", 1)
            parts = [part for part in parts if part[0] == tag]
            must(parts, f"{path}: {title} has no tag {tag}")
            name, path = f"{title} {parts[0][1]}", f"{path}.{parts[0][1]}"
        self.met.add(name)
        self.records += 1
        for field, kind in parts[0][2]:
            self.part(f"{name} {field}", path if field == ".0" else f"{path}.{field}".lstrip("."), kind)

    def through(self, titles):
        for title in titles:
            self.record(title, "")
        return self

    def whole(self, titles):
        self.through(titles)
        must(self.at == len(self.words), f"{len(self.words) - self.at} words after the last field")
        return self


# The second reader.

class Noting(reader.Reader):
    """Notes what it puts on the tape: its name for the place, what it called, the words."""

    def __init__(self, *args):
        super().__init__(*args)
        self.notes, self.numbers, self.called = [], [], None

    def number(self, where, width, *args):
        self.numbers.append((where, width))
        return super().number(where, width, *args)

    def put(self, *words):
        super().put(*words)
        places = dict(self.numbers)
        if len(places) == 1:
            (where, width), = places.items()
            self.notes.append((where, self.called or f"number {width}", words))
        else:
            # The words of a transfer type, which are read before they are put.
            self.notes += [(where, where.split(".")[-1], (word,)) for where, word in zip(places, words)]
        self.numbers, self.called = [], None


def noting(name):
    def call(self, *args):
        self.called = self.called or name
        return getattr(reader.Reader, name)(self, *args)
    return call


for method in set().union(*READ_BY.values()):
    if not method.startswith("number"):
        setattr(Noting, method, noting(method))


def noted(record):
    """The second reader after reading a record's pack, or its section."""
    whole = record.kind == "whole"
    r, functions = Noting(record.pack, 7 if whole else record.place, record.budget), record.functions
    for name in reader.SECTIONS if whole else [reader.SECTIONS[record.section - 1]]:
        if name == "inline":
            r.inline(functions)
        elif name == "functions":
            functions = r.functions()
        else:
            getattr(r, name)()
    return r


@lru_cache(maxsize=None)
def rust_name(where):
    for old, new in NAMES:
        if where == old or where.startswith((old + ".", old + "[", old + "?")):
            where = new + where[len(old):]
    return where


def compare(walk, notes):
    at = 0
    for (path, kind, words), (where, called, read) in zip(walk.leaves, notes):
        what = f"word {at}, {path} ({kind})"
        must(words == read, f"{what}: {words}, where the second reader has {read} for {where}")
        must(path.replace("[].", ".") == rust_name(where), f"{what}: the second reader has {where} there")
        must(called in READ_BY[kind], f"{what}: the second reader has {called} there")
        at += len(words)
    must(len(walk.leaves) == len(notes), "not as many fields as the second reader has")


def walked(document, record):
    r = noted(record)
    words = record.words or tuple(r.words)
    must((len(words), tape_sum(words)) == (record.count, record.sum), "the second reader's words are not those stored")
    must(len(words) == record.fields[0] <= record.fields[1], "the words are not the answer's, or more than the bytes")
    titles = document.sections if record.kind == "whole" else [document.sections[record.section - 1]]
    walk = Walk(document, record.pack, words).whole(titles)
    compare(walk, r.notes)
    return walk


# The examples.

def numbers(text, base):
    """"1 2, then 3 zeros"."""
    match = re.fullmatch(r"([0-9A-F ]+?)(?:, then (\d+) zeros)?", text)
    must(match, f"not numbers: {text}")
    return [int(number, base) for number in match[1].split()] + [0] * int(match[2] or 0)


class Example:
    """A pack written out under a title: its bytes and words, and the section call shown, if any (name, place, words)."""

    def __init__(self):
        self.bytes, self.words, self.call, self.rows = [], [], None, []


def written_out(document):
    """The examples by title."""
    found, title = {}, ""
    for line in document.lines:
        if line.startswith("#"):
            title = line.lstrip("#").strip()
        shown = re.fullmatch(r"    (bytes|words): (.*)", line)
        if shown:
            example = found.setdefault(title, Example())
            getattr(example, shown[1]).extend(numbers(shown[2], 16 if shown[1] == "bytes" else 10))
        call = re.fullmatch(r"    vob_(\w+) at (\d+): +(.*)", line)
        if call:
            found[title].call = call[1], int(call[2]), numbers(call[3], 10)
    for title, rows in document.examples:
        must(title in found, f"{title}: no bytes")
        found[title].rows += rows
    return found


def examples(document):
    """Walks the packs written out in the document. How many they are."""
    found = written_out(document)
    for title, example in found.items():
        pack = bytes(example.bytes)
        result = reader.whole(pack, reader.RUST_BUDGET, reader.NO_END)
        must(result.status == 0 and result.words == example.words, f"{title}: the second reader has {result.words}")
        first, last = 0, len(document.sections)
        if example.call:
            name, place, words = example.call
            first = [section.split()[1] for section in document.sections].index(name)
            last = first + 1
            must(result.sections[first][0] == place, f"{title}: {name} starts at {result.sections[first][0]}")
            call = reader.section(pack, last, place, reader.RUST_BUDGET, 0, reader.NO_END)
            must(call.words == words, f"{title}: vob_{name} gives {call.words}")
        # The table has the fields of the whole pack, or of the section of the call.
        walk = Walk(document, pack, example.words)
        before = len(walk.through(document.sections[:first]).leaves)
        fields = walk.through(document.sections[first:last]).leaves[before:]
        must(len(fields) == len(example.rows), f"{title}: {len(fields)} fields, not {len(example.rows)}")
        at = sum(len(words) for _, _, words in walk.leaves[:before])
        for (path, kind, words), row in zip(fields, example.rows):
            wanted = [str(at), " ".join(map(str, words)), f"`{path}`"]
            must(row[:3] == wanted, f"{title}: {row[:3]}, not {wanted}")
            text = pack[words[0]:sum(words)].decode() if kind == "text" else ""
            must(not text or row[3].startswith(f'"{text}"'), f"{title}: offset {at} is the text {text}")
            at += len(words)
    return len(found)


# The Rust sources.

# What the tape has otherwise than the Rust's types: fields that reading derives, and a map whose keys are names.
DERIVED = {"field_index", "has_calls", "has_call_extern"}
RUST_TYPES = {
    "text": {"String"}, "payload": {"Vec<u8>"}, "optional id": {"Option<u32>"}, "assert kind": {"u8"},
    "empty list": {"Vec<ExternDef>"}, "ErrorFieldOffsets": {"[u16; 2]"}, "ValueKind": {"ValueKind", "u8"},
    "ValueMeta": {"ValueMeta", "u32"}, "ValueRttid": {"ValueRttid", "u32"},
    "list of MethodInfo": {"BTreeMap<String, MethodInfo>"}}


def rust_types(document, kind):
    if kind in RUST_TYPES:
        return RUST_TYPES[kind]
    if document.item(kind):
        around = "Vec" if kind.startswith("list of") else "Option"
        return {f"{around}<{item}>" for item in rust_types(document, document.item(kind))}
    return {kind}


def same_fields(document, name, fields, rust):
    for field, kind in fields:
        must(rust.get(field) in rust_types(document, kind), f"{name} {field}: {kind}, in the Rust {rust.get(field)}")
    missing = set(rust) - {field for field, _ in fields} - DERIVED
    must(not missing, f"{name}: no row for {missing}")


def compare_rust(document, folder):
    """Names, types and tags of the document against the sources; False where they are not at hand."""
    source = ""
    for path, _, files in os.walk(folder):
        for file in files:
            if file.endswith(".rs"):
                with open(os.path.join(path, file), encoding="utf-8") as text:
                    source += text.read()
    if not source:
        return False
    source = re.sub(r"//.*", "", source)
    defined = {}
    for what, name, body in re.findall(r"pub (struct|enum) (\w+) \{\n(.*?)\n\}", source, re.DOTALL):
        defined.setdefault(name, (what, body))

    def rust_fields(body):
        return dict(re.findall(r"(\w+): ((?:[^,<\n]|<[^>\n]*>)+),", body))

    def of_struct(name):
        return rust_fields(defined[name][1])

    # The sections are the fields of Module, and of DebugInfo, which is one of these.
    rows = [row for title in document.sections for row in document.records[title][0][2]]
    within = "debug_info."
    module = of_struct("Module")
    must(module.pop("debug_info", None) == "DebugInfo", "Module has no debug_info")
    same_fields(document, "Module", [row for row in rows if not row[0].startswith(within)], module)
    debug = [(field[len(within):], kind) for field, kind in rows if field.startswith(within)]
    same_fields(document, "DebugInfo", debug, of_struct("DebugInfo"))

    tags = {("RuntimeType", name): int(tag) for name, tag in re.findall(r"const RT_(\w+): u8 = (\d+);", source)}
    arms = re.findall(r"(\d+) => (?:Ok\(|\{(?:(?!=>)[\s\S])*?Ok\()(\w+)::(\w+)", source)
    tags.update({(enum, name.upper()): int(tag) for tag, enum, name in arms})
    for title, parts in document.records.items():
        if title in document.sections or title == "ErrorFieldOffsets":
            continue
        must(title in defined, f"the Rust has no {title}")
        what, body = defined[title]
        if what == "struct":
            # A named method's name is the map's key.
            fields = [row for row in parts[0][2] if (title, row[0]) != ("MethodInfo", "name")]
            same_fields(document, title, fields, of_struct(title))
            continue
        variants = {}
        for name, braces, single in re.findall(r"^    (\w+)(?: \{([^}]*)\}|\((.*)\))?,$", body, re.MULTILINE):
            variants[name] = {".0": single} if single else rust_fields(braces)
        must([variant for _, variant, _ in parts] == sorted(variants, key=lambda name: tags[title, name.upper()]),
             f"{title}: the Rust's variants are {sorted(variants)}")
        for tag, variant, fields in parts:
            must(tag == tags[title, variant.upper()], f"{title} {variant}: the Rust's tag is {tags[title, variant.upper()]}")
            same_fields(document, f"{title} {variant}", fields, variants[variant])

    text = re.sub(r"\n  +", " ", "\n".join(document.lines))
    for name in ("SlotType", "ValueKind", "ChanDir"):
        listed = re.search(rf"^- {name}: (.*)\.$", text, re.MULTILINE)
        rust = ", ".join(f"{value} {case}" for case, value in re.findall(r"(\w+) = (\d+),", defined[name][1]))
        must(listed and listed[1] == rust, f"{name}: in the Rust {rust}")
    return True


def main(args):
    path = os.path.join(ROOT, "docs", "RECORD.md")
    if args[:1] == ["--document"] and len(args) > 1:
        path, args = args[1], args[2:]
    if any(arg.startswith("-") for arg in args):
        sys.exit(__doc__)
    lists = args or [os.path.join(HERE, "..", "answers", name) for name in ("tapes.bin", "packcheck.bin", "sections.bin")]
    sources = os.path.join(ROOT, os.environ.get("VOB_SRC") or "../shared/docs/src")
    tapes, packs, count, met, where = 0, set(), 0, set(), "the document"
    try:
        document = Document(path)
        shown = examples(document)
        rust = compare_rust(document, sources)
        for file in lists:
            for index, record in enumerate(records(file)):
                if record.status or record.kind == "lookup":
                    continue
                where = f"{os.path.basename(file)} record {index}"
                walk = walked(document, record)
                tapes += 1
                count += walk.records
                packs.add(record.pack)
                met |= walk.met
        where = "the lists"
        missing = sorted(set(document.places()) - met)
        must(not missing, f"never met: {', '.join(missing)}")
    except Wrong as wrong:
        print(f"{where}: {wrong}")
        return 1
    print(f"{tapes} tapes of {len(packs)} packs, {shown} examples: {count} records by the tables, no difference; all "
          f"{len(met)} tables, variants, lists and optional parts met; the Rust's names {'agree' if rust else 'not at hand'}")
    return 0


if __name__ == "__main__":
    sys.exit(main(sys.argv[1:]))
