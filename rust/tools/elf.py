"""An ELF object of any processor whose lowest byte comes first: its sections and its symbols."""
import struct
from collections import namedtuple

WRITTEN, ALLOCATED = 1, 2
SYMBOLS, RELA, REL = 2, 4, 9
FUNCTION, SECTION = 2, 3

Section = namedtuple("Section", "name kind flags offset size link info")
Symbol = namedtuple("Symbol", "name kind section")


def leb128(data, at):
    """The unsigned number that stands at a place in LEB128, and the place after it."""
    value, shift = 0, 0
    while True:
        value |= (data[at] & 127) << shift
        at, shift = at + 1, shift + 7
        if not data[at - 1] & 128:
            return value, at


class Object:
    """A file's bytes, whether its words have 64 bits, its sections, and its symbols in their order."""

    def __init__(self, path):
        with open(path, "rb") as file:
            self.data = file.read()
        self.wide = self.data[4] == 2
        at = self.number(0x28, 8) if self.wide else self.number(0x20, 4)
        size, count, names = struct.unpack_from("<HHH", self.data, 0x3A if self.wide else 0x2E)
        # name, type, flags, address, offset, size, link, info
        rows = [struct.unpack_from("<IIQQQQII" if self.wide else "<IIIIIIII", self.data, at + size * index) for index in range(count)]
        self.sections = [Section(self.text(rows[names][4] + row[0]), row[1], row[2], *row[4:8]) for row in rows]
        self.symbols = [symbol for section in self.sections if section.kind == SYMBOLS for symbol in self.symbols_of(section)]

    def number(self, at, count):
        return int.from_bytes(self.data[at:at + count], "little")

    def text(self, at):
        return self.data[at:self.data.index(b"\0", at)].decode()

    def symbols_of(self, section):
        names = self.sections[section.link].offset
        for entry in range(section.offset, section.offset + section.size, 24 if self.wide else 16):
            kind, where = (entry + 4, entry + 6) if self.wide else (entry + 12, entry + 14)
            yield Symbol(self.text(names + self.number(entry, 4)), self.data[kind] & 15, self.number(where, 2))

    def relocated(self, section):
        """The symbols that a section of relocations names."""
        size = {(True, RELA): 24, (False, RELA): 12, (True, REL): 16, (False, REL): 8}[self.wide, section.kind]
        for entry in range(section.offset, section.offset + section.size, size):
            yield self.symbols[self.number(entry + 12, 4) if self.wide else self.number(entry + 4, 4) >> 8]

    def text_bytes(self):
        return sum(section.size for section in self.sections if section.flags & (ALLOCATED | WRITTEN) == ALLOCATED)

    def data_bytes(self):
        return sum(section.size for section in self.sections if section.flags & (ALLOCATED | WRITTEN) == ALLOCATED | WRITTEN)

    def called(self):
        """The symbols that are defined elsewhere."""
        return {symbol.name for symbol in self.symbols if symbol.section == 0 and symbol.name}
