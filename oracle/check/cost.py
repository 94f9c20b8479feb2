"""The cost of a taken pack, worked out from its record alone (document 01, "What is charged").

Nothing of the pack is read but the texts that the record points to. It knows no charge list: it adds up list by list.
"""

from reader import (ARTIFACT, CONSTANT, DEBUG_LOC, EXTERN, FIELD_META, FUNC_DEBUG, FUNCTION, GLOBAL, INDEX_ENTRY,
                    INLINE_ENTRY, INLINE_FRAME, INLINE_FUNCTION, INSTRUCTION, INTERFACE_META, INTERFACE_METHOD, ITAB, METADATA,
                    METHOD_ENTRY, NAMED_TYPE, RTTID, RUNTIME_METHOD, RUNTIME_TYPE, SELECT_CASE, SLOT_TYPE, STR, STR_PAIR,
                    STRING, STRUCT_FIELD, STRUCT_META, TRANSFER, U16, U32, USIZE)


class Record:
    def __init__(self, words, pack):
        self.words, self.pack, self.at, self.cost = words, pack, 0, 0

    def word(self):
        self.at += 1
        return self.words[self.at - 1]

    def skip(self, count):
        self.at += count

    def text(self):
        start, length = self.word(), self.word()
        self.cost += length
        return self.pack[start:start + length]

    def list(self, size, item):
        count = self.word()
        self.cost += count * size
        return [item() for _ in range(count)]

    def plain(self, size, width=1):
        """A list whose entries are numbers only, each of this many words."""
        count = self.word()
        self.cost += count * size
        self.skip(count * width)

    def slots(self, lists=1):
        for _ in range(lists):
            self.plain(SLOT_TYPE)

    def optional(self, part):
        if self.word():
            part()

    def named(self, words):
        """A text and some numbers after it; the text."""
        text = self.text()
        self.skip(words)
        return text

    def structs(self):
        self.slots()
        names = [name for name in self.list(FIELD_META, self.field) if name != b"_"]
        self.cost += sum(INDEX_ENTRY + len(name) for name in names)

    def field(self):
        name = self.named(4)
        self.optional(self.text)
        return name

    def interface(self):
        self.text()
        names = self.list(STRING, self.text)
        methods = self.list(INTERFACE_METHOD, lambda: self.named(1))
        self.cost += (len(names) + len(methods)) * 2 * STR

    def named_type(self):
        self.named(2)
        self.list(METHOD_ENTRY + 3 * USIZE, lambda: self.named(4))

    def runtime_type(self):
        tag = self.word()
        plain = {0: 1, 1: 3, 2: 1, 3: 3, 4: 1, 5: 2, 6: 2, 11: 2, 12: 0}
        if tag in plain:
            self.skip(plain[tag])
        elif tag == 7:
            self.skip(1)
            self.plain(RTTID)
            self.plain(RTTID)
        elif tag == 8:
            self.skip(1)
            fields = self.list(STRUCT_FIELD, self.runtime_field)
            self.cost += len(fields) * 2 * STR_PAIR
        elif tag == 9:
            self.skip(1)
            methods = self.list(RUNTIME_METHOD, lambda: self.named(1))
            self.cost += len(methods) * 2 * STR
        else:
            self.plain(RTTID)

    def runtime_field(self):
        self.named(1)
        self.named(1)
        self.text()

    def constant(self):
        tag = self.word()
        if tag == 4:
            self.text()
        else:
            self.skip({0: 0, 1: 1, 2: 2, 3: 2}[tag])

    def function(self):
        self.named(4)
        self.slots()
        self.skip(3)
        self.plain(U16)
        self.skip(3)
        self.slots()
        self.plain(INSTRUCTION, 5)
        self.list(METADATA, self.metadata)
        self.plain(TRANSFER, 3)
        self.slots()
        self.plain(TRANSFER, 3)

    def metadata(self):
        tag = self.word()
        before, lists = {0: (0, 0), 1: (2, 1), 2: (0, 2), 3: (0, 2), 4: (0, 1), 5: (1, 0), 9: (0, 1), 10: (1, 1), 11: (0, 2),
                         12: (0, 2), 13: (0, 1), 14: (0, 2), 15: (2, 1), 16: (0, 2), 17: (2, 2), 18: (0, 0)}[tag]
        self.skip(before)
        self.slots(lists)
        if tag == 2:
            self.skip(1)
        if tag == 18:
            self.list(SELECT_CASE, lambda: self.skip(4 if self.word() else 3))

    def artifact(self):
        self.named(1)
        self.text()

    def inline_frame(self):
        self.skip(2)
        self.optional(lambda: self.skip(4))

    def inline_function(self):
        self.skip(1)
        self.plain(INLINE_ENTRY, 2)

    def itab(self):
        self.skip(1)
        self.plain(U32)

    def pack_cost(self):
        self.text()
        self.list(STRUCT_META, self.structs)
        self.list(INTERFACE_META, self.interface)
        self.list(NAMED_TYPE, self.named_type)
        self.list(ITAB, self.itab)
        self.list(RUNTIME_TYPE, self.runtime_type)
        self.skip(8)
        self.optional(lambda: self.skip(2))
        self.skip(10)
        self.list(CONSTANT, self.constant)
        self.list(GLOBAL, lambda: (self.named(3), self.slots()))
        self.list(FUNCTION, self.function)
        # No record has an extern: no entry's words follow the count.
        self.plain(EXTERN, 0)
        self.skip(2)
        self.list(ARTIFACT, self.artifact)
        self.list(STRING, self.text)
        self.list(FUNC_DEBUG, lambda: self.plain(DEBUG_LOC, 5))
        self.list(INLINE_FRAME, self.inline_frame)
        self.list(INLINE_FUNCTION, self.inline_function)
        if self.at != len(self.words):
            raise ValueError("the record has more words than its fields")
        return self.cost


def cost(words, pack):
    return Record(words, pack).pack_cost()
