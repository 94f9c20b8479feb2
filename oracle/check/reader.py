"""A second reader of VOB 24 packs, written from document 01 and serialize.rs and independent of the harness.

It computes whole answers: tape words, charge list, section starts, place, budget left, section calls, lookups, texts and
names that print alike. For the coverage table it also notes at which place of the format each question was put and answered no.
"""

import unicodedata

RUST_BUDGET = 536_870_912
MAX_PACK = 134_217_728
MAX_INLINE = 131_072
NO_END = 1 << 70

# Sizes of list entries and of the tables that some lists build, as measured by `oracle sizes`.
(STRUCT_META, SLOT_TYPE, FIELD_META, INDEX_ENTRY, INTERFACE_META, STRING, INTERFACE_METHOD, STR, NAMED_TYPE,
 METHOD_ENTRY, USIZE, ITAB, U32, RUNTIME_TYPE, RTTID, STRUCT_FIELD, STR_PAIR, RUNTIME_METHOD, CONSTANT, GLOBAL,
 FUNCTION, U16, INSTRUCTION, METADATA, SELECT_CASE, TRANSFER, ARTIFACT, FUNC_DEBUG, DEBUG_LOC, INLINE_FRAME,
 INLINE_FUNCTION, INLINE_ENTRY, EXTERN) = SIZES = (
    96, 1, 64, 32, 72, 24, 32, 16, 56, 40, 8, 32, 4, 56, 4, 80, 32, 32, 24, 56, 240, 2, 8, 64, 8, 12, 56, 24, 20, 28,
    32, 8, 144)

SECTIONS = ("name", "structs", "interfaces", "named_types", "itabs", "runtime_types", "well_known", "constants",
            "globals", "functions", "externs", "entry", "island_init", "artifacts", "files", "locations", "inline")


class Refused(Exception):
    def __init__(self, number, c=0, d1=0, d2=0):
        self.fields = (number, c, d1, d2)


# The Unicode Standard, Table 3-7: the ranges of a sequence's first and second byte, and its length.
# Third and fourth bytes are 80..BF.
WELL_FORMED = (
    (0xC2, 0xDF, 0x80, 0xBF, 2),
    (0xE0, 0xE0, 0xA0, 0xBF, 3), (0xE1, 0xEC, 0x80, 0xBF, 3), (0xED, 0xED, 0x80, 0x9F, 3), (0xEE, 0xEF, 0x80, 0xBF, 3),
    (0xF0, 0xF0, 0x90, 0xBF, 4), (0xF1, 0xF3, 0x80, 0xBF, 4), (0xF4, 0xF4, 0x80, 0x8F, 4))


def well_formed(text):
    at = 0
    while at < len(text):
        first = text[at]
        if first < 0x80:
            at += 1
            continue
        for low, high, second_low, second_high, length in WELL_FORMED:
            if low <= first <= high:
                break
        else:
            return False
        rest = text[at + 1:at + length]
        if len(rest) != length - 1 or not second_low <= rest[0] <= second_high:
            return False
        if any(not 0x80 <= byte <= 0xBF for byte in rest[1:]):
            return False
        at += length
    return True


def characters(text):
    """How many characters Python's own decoder finds in a text, None where it refuses it; the table has to agree."""
    try:
        found = len(text.decode("utf-8", "strict"))
    except UnicodeDecodeError:
        found = None
    if well_formed(text) != (found is not None):
        raise ValueError(f"Python's decoder and the table don't agree on {text.hex()}")
    return found


def folded(name):
    """A name's characters, each letter U+00C0 to U+017F that has a canonical decomposition replaced by it, once."""
    out = []
    for character in name.decode("utf-8"):
        codes = unicodedata.decomposition(character).split() if 0xC0 <= ord(character) <= 0x17F else []
        # A decomposition with a tag is one of compatibility.
        if codes and not codes[0].startswith("<"):
            out += [int(code, 16) for code in codes]
        else:
            out.append(ord(character))
    return tuple(out)


class Reader:
    def __init__(self, pack, place, budget, coverage=None):
        self.pack, self.place, self.left = pack, place, budget
        self.words, self.charges = [], []
        # Start and bytes of the names of each table in which two may print alike.
        self.tables = []
        self.asked, self.denied = coverage if coverage is not None else (set(), set())

    # Questions and charges.

    def ask(self, where, good, number, c=0, d1=0, d2=0, kind=""):
        self.asked.add((number, where, kind))
        if not good:
            self.denied.add((number, where, kind))
            raise Refused(number, c, d1, d2)

    def charge(self, where, context, amount):
        self.charges.append((context, amount, self.place))
        self.ask(where, amount <= self.left, 5, context, amount, self.left, kind=f"charge {context}")
        self.left -= amount

    def bytes_left(self):
        return len(self.pack) - self.place

    # Leaves.

    def number(self, where, width, kind="field"):
        self.ask(where, self.bytes_left() >= width, 2, kind=kind)
        value = int.from_bytes(self.pack[self.place:self.place + width], "little")
        self.place += width
        return value

    def put(self, *words):
        self.words += words

    def u8(self, where):
        self.put(self.number(where, 1))

    def u16(self, where):
        self.put(self.number(where, 2))

    def u32(self, where):
        self.put(self.number(where, 4))

    def u64(self, where):
        value = self.number(where, 8)
        self.put(value & 0xFFFF_FFFF, value >> 32)

    def optional_id(self, where):
        stored = self.number(where, 4)
        self.put(*((1, stored - 1) if stored else (0, 0)))

    def boolean(self, where):
        byte = self.number(where, 1)
        self.ask(where, byte <= 1, 7, d1=byte)
        self.put(byte)
        return byte

    def slot_type(self, where):
        byte = self.number(where, 1, "slot (always there)")
        self.ask(where, byte <= 5, 8, d1=byte)
        self.put(byte)

    def kind(self, where):
        byte = self.number(where, 1)
        self.ask(where, byte <= 24, 9, d1=byte)
        self.put(byte)

    def direction(self, where):
        byte = self.number(where, 1)
        self.ask(where, byte <= 2, 12, d1=byte)
        self.put(byte)

    def packed_word(self, where, number):
        word = self.number(where, 4)
        self.ask(where, word % 256 <= 24, 9, d1=word % 256)
        self.ask(where, word // 256 != 0xFFFFFF, number, d1=word)
        self.put(word)

    def meta(self, where):
        self.packed_word(where, 10)

    def rttid(self, where):
        self.packed_word(where, 11)

    def packed_number(self, where):
        value = 0
        for index in range(5):
            byte = self.number(where, 1)
            self.ask(where, index < 4 or byte <= 0x0F, 21, kind="fifth byte")
            self.ask(where, index == 0 or byte != 0, 21, kind="shortest")
            value += (byte & 0x7F) << (7 * index)
            if byte < 0x80:
                break
        self.put(value)

    def span(self, where, context, limit):
        length = self.number(where, 4)
        if limit is not None:
            self.ask(where, length <= limit, 22, context, length, limit)
        self.ask(where, length <= self.bytes_left(), 2, kind="bytes")
        start = self.place
        self.place += length
        self.charge(where, context, length)
        self.put(start, length)
        return start, self.pack[start:self.place]

    def text(self, where, context=1, limit=None):
        """Start and bytes of a text."""
        start, text = self.span(where, context, limit)
        self.ask(where, well_formed(text), 6)
        return start, text

    def list(self, where, size, item, limit=None):
        """A list of entries of one size; item reads the one of a given index. limit: (context, maximum)."""
        count = self.number(where, 4)
        if limit is not None:
            self.ask(where, count <= limit[1], 23, limit[0], count, limit[1])
        self.ask(where, count <= self.bytes_left(), 2, kind="count")
        self.charge(where, 2, count * size)
        self.put(count)
        return [item() for _ in range(count)]

    def slots(self, where):
        return len(self.list(where, SLOT_TYPE, lambda: self.slot_type(where + "[]")))

    # Sections.

    def name(self):
        self.text("name")

    def structs(self):
        self.list("structs", STRUCT_META, self.struct)

    def struct(self):
        self.slots("structs.slot_types")
        names = self.list("structs.fields", FIELD_META, self.struct_field)
        names = [(start, name) for start, name in names if name != b"_"]
        self.charge("structs.fields", 3, len(names) * INDEX_ENTRY)
        seen = set()
        for start, name in names:
            self.charge("structs.fields", 4, len(name))
            self.ask("structs.fields", name not in seen, 16, 0, start, len(name))
            seen.add(name)
        self.tables.append(names)

    def struct_field(self):
        name = self.text("structs.fields.name")
        self.u16("structs.fields.offset")
        self.u16("structs.fields.slot_count")
        self.rttid("structs.fields.type_info")
        self.boolean("structs.fields.embedded")
        if self.boolean("structs.fields.tag?"):
            self.text("structs.fields.tag")
        return name

    def interfaces(self):
        self.list("interfaces", INTERFACE_META, self.interface)

    def interface(self):
        self.text("interfaces.name")
        names = self.list("interfaces.method_names", STRING, lambda: self.text("interfaces.method_names[]"))
        methods = self.list("interfaces.methods", INTERFACE_METHOD, self.interface_method)
        self.method_set("interfaces.method_names", names)
        self.method_set("interfaces.methods", methods)

    def interface_method(self):
        name = self.text("interfaces.methods.name")
        self.u32("interfaces.methods.signature_rttid")
        return name

    def method_set(self, where, names):
        self.charge(where + " set", 5, len(names) * 2 * STR)
        seen = set()
        for start, name in names:
            self.ask(where + " set", name not in seen, 17, 0, start, len(name))
            seen.add(name)
        self.tables.append(names)

    def named_types(self):
        self.list("named_types", NAMED_TYPE, self.named_type)

    def named_type(self):
        self.text("named_types.name")
        self.meta("named_types.underlying_meta")
        self.rttid("named_types.underlying_rttid")
        where = "named_types.methods"
        count = self.number(where, 4)
        self.ask(where, count <= self.bytes_left() // 14, 2, kind="count")
        self.charge(where, 6, count * (METHOD_ENTRY + 3 * USIZE))
        self.put(count)
        seen, names = set(), []
        for _ in range(count):
            start, name = self.text("named_types.methods.name")
            self.u32("named_types.methods.func_id")
            self.boolean("named_types.methods.is_pointer_receiver")
            self.boolean("named_types.methods.receiver_is_iface_boxed")
            self.u32("named_types.methods.signature_rttid")
            self.ask(where, name not in seen, 18, 0, start, len(name))
            seen.add(name)
            names.append((start, name))
        self.tables.append(names)

    def itabs(self):
        def itab():
            self.u32("itabs.iface_meta_id")
            self.list("itabs.methods", U32, lambda: self.u32("itabs.methods[]"))
        self.list("itabs", ITAB, itab)

    def runtime_types(self):
        self.list("runtime_types", RUNTIME_TYPE, self.runtime_type)

    def rttids(self, where):
        self.list(where, RTTID, lambda: self.rttid(where + "[]"))

    def runtime_type(self):
        at = "runtime_types."
        tag = self.number(at + "tag", 1)
        self.ask(at + "tag", tag <= 12, 13, d1=tag)
        self.put(tag)
        if tag == 0:
            self.kind(at + "basic")
        elif tag == 1:
            self.u32(at + "named.id")
            self.optional_id(at + "named.struct_meta_id")
        elif tag in (2, 4):
            self.rttid(at + ("pointer" if tag == 2 else "slice"))
        elif tag == 3:
            self.u64(at + "array.len")
            self.rttid(at + "array.elem")
        elif tag == 5:
            self.rttid(at + "map.key")
            self.rttid(at + "map.val")
        elif tag in (6, 11):
            at += "chan" if tag == 6 else "port"
            self.direction(at + ".dir")
            self.rttid(at + ".elem")
        elif tag == 7:
            self.boolean(at + "func.variadic")
            self.rttids(at + "func.params")
            self.rttids(at + "func.results")
        elif tag == 8:
            self.u32(at + "struct.meta_id")
            self.runtime_struct(at + "struct.fields")
        elif tag == 9:
            self.u32(at + "interface.meta_id")
            methods = self.list(at + "interface.methods", RUNTIME_METHOD, self.runtime_method)
            self.method_set(at + "interface.methods", methods)
        elif tag == 10:
            self.rttids(at + "tuple")

    def runtime_struct(self, where):
        def field():
            name = self.text(where + ".name")
            self.rttid(where + ".typ")
            self.text(where + ".tag")
            self.boolean(where + ".embedded")
            return name, self.text(where + ".pkg")
        fields = self.list(where, STRUCT_FIELD, field)
        self.charge(where + " set", 7, len(fields) * 2 * STR_PAIR)
        seen = set()
        for (start, name), (package_start, package) in fields:
            if name == b"_":
                continue
            self.ask(where + " set", (package, name) not in seen, 19, package_start, start, len(name))
            seen.add((package, name))

    def runtime_method(self):
        name = self.text("runtime_types.interface.methods.name")
        self.rttid("runtime_types.interface.methods.sig")
        return name

    def well_known(self):
        for field in ("error_named_type_id", "error_iface_meta_id", "error_ptr_rttid", "error_struct_meta_id"):
            self.optional_id("well_known." + field)
        if self.boolean("well_known.error_field_offsets?"):
            self.u16("well_known.error_field_offsets.msg")
            self.u16("well_known.error_field_offsets.cause")
        for field in ("attr_object", "set_attr_object", "index_object", "set_index_object", "call_object"):
            self.optional_id("well_known." + field)

    def constants(self):
        self.list("constants", CONSTANT, self.constant)

    def constant(self):
        tag = self.number("constants.tag", 1)
        self.ask("constants.tag", tag <= 4, 14)
        self.put(tag)
        if tag == 1:
            self.boolean("constants.bool")
        elif tag == 2:
            self.u64("constants.int")
        elif tag == 3:
            self.u64("constants.float")
        elif tag == 4:
            self.text("constants.string")

    def globals(self):
        def one():
            self.text("globals.name")
            self.u16("globals.slots")
            self.kind("globals.value_kind")
            self.u32("globals.meta_id")
            self.slots("globals.slot_types")
        self.list("globals", GLOBAL, one)

    def functions(self):
        return len(self.list("functions", FUNCTION, self.function))

    def function(self):
        at = "functions."
        self.text(at + "name")
        self.u16(at + "param_count")
        self.u16(at + "param_slots")
        local_slots = self.number(at + "local_slots", 2)
        self.put(local_slots)
        self.u16(at + "ret_slots")
        self.slots(at + "ret_slot_types")
        self.u16(at + "recv_slots")
        self.u16(at + "heap_ret_gcref_count")
        self.u16(at + "heap_ret_gcref_start")
        self.list(at + "heap_ret_slots", U16, lambda: self.u16(at + "heap_ret_slots[]"))
        self.boolean(at + "is_closure")
        self.u32(at + "error_ret_slot")
        self.boolean(at + "has_defer")
        slot_types = self.slots(at + "slot_types")
        code = self.list(at + "code", INSTRUCTION, self.instruction)
        metadata = self.list(at + "metadata", METADATA, self.metadata)
        self.ask(at + "metadata", len(metadata) == len(code), 15, kind="as many as instructions")
        self.transfers(at + "capture_types", 1)
        self.slots(at + "capture_slot_types")
        self.transfers(at + "param_types", 3)
        self.ask(at + "slot_types", slot_types == local_slots, 20, 5, slot_types, local_slots, kind="count")

    def instruction(self):
        self.u8("functions.code.op")
        self.u8("functions.code.flags")
        for field in "abc":
            self.u16("functions.code." + field)

    def metadata(self):
        at = "functions.metadata."
        tag = self.number(at + "tag", 1)
        self.ask(at + "tag", tag <= 5 or 9 <= tag <= 18, 15)
        self.put(tag)
        if tag == 1:
            self.u32(at + "elem.elem_bytes")
            self.boolean(at + "elem.needs_sign_extend")
            self.slots(at + "elem.slot_layout")
        elif tag == 5:
            self.u32(at + "loop_end.end_pc")
        elif tag == 10:
            self.u16(at + "slot.array_len")
            self.slots(at + "slot.elem_layout")
        elif tag == 15:
            kind = self.number(at + "assert.kind", 1)
            self.ask(at + "assert.kind", kind <= 1, 15)
            self.put(kind)
            self.u32(at + "assert.target_id")
            self.slots(at + "assert.result_layout")
        elif tag == 18:
            self.list(at + "select", SELECT_CASE, self.select_case)
        elif tag != 0:
            names = {2: "map_get", 3: "map_set", 4: "map_delete", 9: "ptr", 11: "call", 12: "call_extern", 13: "queue",
                     14: "map_iter_next", 16: "map_new", 17: "call_iface"}
            at += names[tag]
            if tag == 17:
                self.u32(at + ".iface_meta_id")
                self.u32(at + ".method_idx")
            self.slots(at + ".first")
            if tag not in (4, 9, 13):
                self.slots(at + ".second")
            if tag == 2:
                self.boolean(at + ".has_ok")

    def select_case(self):
        at = "functions.metadata.select."
        tag = self.number(at + "tag", 1)
        self.ask(at + "tag", tag <= 1, 15)
        self.put(tag)
        at += "recv." if tag else "send."
        for field in ("first", "second", "elem_slots"):
            self.u16(at + field)
        if tag:
            self.boolean(at + "has_ok")

    def transfers(self, where, c):
        def transfer():
            words = [self.number(where + ".meta", 4), self.number(where + ".rttid", 4)]
            self.put(*words)
            self.u16(where + ".slots")
            return words
        for index, words in enumerate(self.list(where, TRANSFER, transfer)):
            for part, word in enumerate(words):
                place = where + (".meta", ".rttid")[part]
                self.ask(place, word % 256 <= 24, 20, c + part, index, word, kind="kind")
                self.ask(place, word // 256 != 0xFFFFFF, 20, c + part, index, word, kind="id")

    def externs(self):
        count = self.number("externs", 4)
        self.ask("externs", count <= self.bytes_left(), 2, kind="count")
        self.charge("externs", 2, count * EXTERN)
        self.ask("externs", count == 0, 25, 0, count)
        self.put(count)

    def entry(self):
        self.u32("entry")

    def island_init(self):
        self.u32("island_init")

    def artifacts(self):
        """Name, and start and length of the payload, of each artifact."""
        count = self.number("artifacts", 4)
        self.ask("artifacts", count <= 64, 22, 11, count, 64)
        self.charge("artifacts", 8, count * ARTIFACT)
        self.put(count)
        found = []
        for _ in range(count):
            _, name = self.text("artifacts.name", 9, 128)
            self.u32("artifacts.version")
            start, payload = self.span("artifacts.payload", 10, 16_777_216)
            found.append((name, start, len(payload)))
        return found

    def files(self):
        self.list("files", STRING, lambda: self.text("files[]"))

    def locations(self):
        def entry():
            for field in ("pc", "file_id", "line", "col", "len"):
                self.packed_number("locations.entries." + field)
        self.list("locations", FUNC_DEBUG,
                  lambda: self.list("locations.entries", DEBUG_LOC, entry))

    def inline(self, functions):
        def frame():
            self.u32("inline.frames.parent")
            self.u32("inline.frames.function_id")
            if self.boolean("inline.frames.span?"):
                for field in ("file_id", "line", "col", "len"):
                    self.u32("inline.frames.span." + field)

        def function():
            nonlocal room
            self.u32("inline.functions.function_id")
            room -= len(self.list("inline.entries", INLINE_ENTRY, entry, (14, room)))

        def entry():
            self.u32("inline.entries.pc")
            self.u32("inline.entries.frame")

        self.list("inline.frames", INLINE_FRAME, frame, (12, MAX_INLINE))
        room = MAX_INLINE
        self.list("inline.functions", INLINE_FUNCTION, function, (13, min(MAX_INLINE, functions)))


class Result:
    """An answer's fields: status 0 (words, bytes, charged, left) or 1 (number, c, d1, d2, place, left)."""

    def __init__(self, status, fields, reader=None, sections=(), artifacts=()):
        self.status, self.fields = status, fields
        self.words = reader.words if reader and status == 0 else []
        self.charges = reader.charges if reader else []
        self.tables = reader.tables if reader and status == 0 else []
        self.sections, self.artifacts = sections, artifacts


def whole(pack, budget, tape, coverage=None):
    r = Reader(pack, 0, budget, coverage)
    sections, artifacts, functions = [], [], 0
    try:
        r.ask("pack", len(pack) <= MAX_PACK, 1, 0, len(pack), MAX_PACK)
        r.ask("magic", len(pack) >= 3, 2, kind="field")
        r.place = 3
        r.ask("magic", pack[:3] == b"VOB", 3)
        version = r.number("version", 4)
        r.ask("version", version == 24, 4, 0, version)
        for section in SECTIONS:
            sections.append((r.place, r.left))
            if section == "inline":
                r.inline(functions)
            elif section == "functions":
                functions = r.functions()
            elif section == "artifacts":
                artifacts = r.artifacts()
            else:
                getattr(r, section)()
        r.ask("end", r.bytes_left() == 0, 24, 0, r.bytes_left())
        r.ask("tape", len(r.words) <= tape, 26, 0, len(r.words), tape)
    except Refused as refused:
        return Result(1, refused.fields + (r.place, r.left), r, sections)
    return Result(0, (len(r.words), r.place, budget - r.left, r.left), r, sections, artifacts)


def section(pack, number, place, budget, functions, tape, coverage=None):
    r = Reader(pack, place, budget, coverage)
    where = f"section call {SECTIONS[number - 1]}"
    try:
        r.ask(where, len(pack) <= MAX_PACK, 1, 0, len(pack), MAX_PACK)
        r.ask(where, place <= len(pack), 2, kind="place")
        if number == 17:
            r.inline(functions)
        else:
            getattr(r, SECTIONS[number - 1])()
        r.ask(where, len(r.words) <= tape, 26, 0, len(r.words), tape)
    except Refused as refused:
        return Result(1, refused.fields + (r.place, r.left), r)
    return Result(0, (len(r.words), r.place - place, budget - r.left, r.left), r)


def text(pack, place, budget, coverage=None):
    """A text alone. Status 0 with start, length, number of characters, and place and budget after it, or a refusal."""
    r = Reader(pack, place, budget, coverage)
    where = "text alone"
    try:
        r.ask(where, len(pack) <= MAX_PACK, 1, 0, len(pack), MAX_PACK)
        r.ask(where, place <= len(pack), 2, kind="place")
        start, found = r.span(where, 1, None)
        count = characters(found)
        r.ask(where, count is not None, 6)
    except Refused as refused:
        return Result(1, refused.fields + (r.place, r.left), r)
    return Result(0, (start, len(found), count, r.place, r.left))


def lookup(pack, name, coverage=None):
    """Status 0 with start and length, or a refusal."""
    result = whole(pack, RUST_BUDGET, NO_END, coverage)
    if result.status == 1:
        return result
    for other, start, length in result.artifacts:
        if other == name:
            return Result(0, (start, length))
    _, taken, _, left = result.fields
    if coverage is not None:
        coverage[1].add((27, "lookup", ""))
        coverage[0].add((27, "lookup", ""))
    return Result(1, (27, 0, 0, 0, taken, left))


def alike_names(pack, coverage=None):
    """Status 0 with 1 and start and length of two names that print alike, the earlier one first, or with 0; or a refusal."""
    result = whole(pack, RUST_BUDGET, NO_END, coverage)
    if result.status == 1:
        return result
    best = None
    for names in result.tables:
        before = {}
        for start, name in names:
            earlier = before.setdefault(folded(name), [])
            for other in earlier:
                # The later name that ends first; of its partners the one that ends last.
                rank = (start + len(name), -(other[0] + len(other[1])))
                if best is None or rank < best[0]:
                    best = rank, (1, other[0], len(other[1]), start, len(name))
            earlier.append((start, name))
    return Result(0, best[1] if best else (0,))
