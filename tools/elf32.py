"""Reads what is needed of an ELF file for a Cortex-M0+: its loaded segments, sections and symbols. It is no tool itself."""
import struct
from dataclasses import dataclass

from runs import Refused

MAGIC = b"\x7fELF"
ARM, EXECUTABLE, OBJECT, LOAD, SYMBOLS, NO_BITS, ALLOCATED = 40, 2, 1, 1, 2, 8, 2
OBJECTS, FUNCTIONS = 1, 2  # kinds of symbols


@dataclass
class Segment:
    """A loaded segment: where its bytes go, the bytes, and the memory that it takes where it runs."""

    address: int
    data: bytes
    begin: int
    size: int


@dataclass
class Section:
    """A section of memory: where it is loaded and its size there (0 where it has no bytes of its own)."""

    name: str
    address: int
    size: int


class Elf:
    """An executable; refused where the file is none for this machine."""

    def __init__(self, name, data):
        self.name, self.data = name, data
        if data[:4] != MAGIC:
            raise Refused(f"{name} is no ELF file")
        if len(data) < 52 or data[4] != 1 or data[5] != 1:
            raise Refused(f"{name} is an ELF file of 64 bits or of the other byte order, no program of a Cortex-M0+")
        kind, machine = struct.unpack_from("<HH", data, 16)
        self.entry, self.segment_table, self.section_table = struct.unpack_from("<III", data, 24)
        self.segment_size, self.segment_count, self.section_size, self.section_count, self.names = struct.unpack_from("<5H", data, 42)
        if machine != ARM:
            raise Refused(f"{name} is a program for another processor (ELF machine {machine}, not {ARM}): use an arm-none-eabi compiler")
        if kind == OBJECT:
            raise Refused(f"{name} is an object file that is not linked yet: link it with -T sram.ld")
        if kind != EXECUTABLE:
            raise Refused(f"{name} is no executable (ELF type {kind}): link it without -pie and -shared")
        try:
            self.segments = list(self._segments())
            self.headers = [self._header(number) for number in range(self.section_count)]
            self.sections = list(self._sections())
            self.found = list(self._symbols())
        except (struct.error, IndexError):
            raise Refused(f"{name} is cut: its tables lie behind its end") from None

    def _segments(self):
        for number in range(self.segment_count):
            kind, offset, begin, address, length, size, _, _ = struct.unpack_from("<8I", self.data, self.segment_table + self.segment_size * number)
            if kind != LOAD or size == 0:
                continue
            if offset + length > len(self.data):
                raise Refused(f"{self.name} is cut: the segment for {address:08x} lies behind its end")
            yield Segment(address, self.data[offset:offset + length], begin, size)

    def _header(self, number):
        return struct.unpack_from("<10I", self.data, self.section_table + self.section_size * number)

    def _text(self, table, offset):
        """A name of at most 1000 bytes, without its end where the file ends before."""
        begin = self.headers[table][4] + offset
        return self.data[begin:begin + 1000].partition(b"\0")[0].decode(errors="replace")

    def _sections(self):
        """The sections in memory, each at the address where its segment loads it."""
        for name, kind, flags, address, offset, size, *_ in self.headers:
            if not flags & ALLOCATED or size == 0:
                continue
            for segment in self.segments:
                if segment.begin <= address < segment.begin + segment.size:
                    address += segment.address - segment.begin if kind != NO_BITS else 0
                    break
            yield Section(self._text(self.names, name), address, 0 if kind == NO_BITS else size)

    def _symbols(self):
        """The kind, begin, size and name of each symbol of the program's sections."""
        for _, kind, _, _, offset, size, link, *_ in self.headers:
            if kind != SYMBOLS:
                continue
            for at in range(offset, offset + size, 16):
                name, value, length, info, _, section = struct.unpack_from("<IIIBBH", self.data, at)
                text = self._text(link, name) if name else ""
                if 0 < section < 0xFF00 and text and not text.startswith("$"):
                    yield info & 15, value if info & 15 == OBJECTS else value & ~1, length, text

    def symbols(self, kinds):
        """The symbols of these kinds in order: begin, size and name."""
        return sorted(rest for kind, *rest in self.found if kind in kinds)

    def functions(self):
        return self.symbols((0, FUNCTIONS))

    def function_of(self, address):
        """The function in which an address lies, with the distance from its begin; None outside all of them."""
        best = None
        for begin, length, name in self.functions():
            if begin <= address and (address < begin + length or length == 0):
                best = (name, address - begin)
        return best

    def object_of(self, address):
        """The variable in which an address lies, with the distance from its begin; None outside all of them."""
        found = [(name, address - begin) for begin, length, name in self.symbols((OBJECTS,)) if begin <= address < begin + length]
        return found[-1] if found else None
