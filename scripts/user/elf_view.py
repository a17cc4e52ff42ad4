"""What the scripts for users read of an ELF image: segments, sections, functions, and links to its debug file."""
import bisect
import functools
import os
import struct
import typing

from flow_parts import Refused

LOADED, SYMBOLS, NOTES, NO_BITS, DYNAMIC_SYMBOLS, EXECUTED, COMPRESSED, FUNCTION, EXECUTABLE = 1, 2, 7, 8, 11, 4, 0x800, 2, 2


class Segment(typing.NamedTuple):
    place: int
    begin: int
    size: int


class Section(typing.NamedTuple):
    name: str
    kind: int
    flags: int
    begin: int
    place: int
    size: int
    link: int


def checked(read):
    """Refuses an image whose bytes lead a reading astray."""
    @functools.wraps(read)
    def kept(self):
        try:
            return read(self)
        except (struct.error, IndexError, ValueError, OverflowError):
            raise Refused(f"{self.path}: a broken ELF image") from None
    return kept


class Elf:
    """An image; its fields are read as its header says."""

    def __init__(self, path):
        self.path, self.real = path, os.path.realpath(path)
        with open(path, "rb") as file:
            self.data = file.read()
        if self.data[:4] != b"\x7fELF" or len(self.data) < 52:
            raise Refused(f"{path}: not an ELF image")
        self.order, self.is_wide = "<>"[self.data[5] == 2], self.data[4] == 2
        self.read()

    @checked
    def read(self):
        words = "HHIQQQIHHHHHH" if self.is_wide else "HHIIIIIHHHHHH"
        kind, _, _, self.entry, segments, sections, _, _, _, count, _, sections_count, names = self.fields(words, 16)
        self.is_fixed = kind == EXECUTABLE
        self.segments = [segment for segment in map(self.segment, range(count), [segments] * count) if segment]
        raw = [self.section(sections + (64 if self.is_wide else 40) * index) for index in range(sections_count)]
        names_at = raw[names].place if raw else 0
        self.sections = [section._replace(name=self.text(names_at + section.name)) for section in raw]

    def fields(self, words, at):
        return struct.unpack_from(self.order + words, self.data, at)

    def text(self, at):
        return self.data[at:self.data.index(b"\0", at)].decode(errors="surrogateescape")

    def segment(self, index, table):
        if self.is_wide:
            kind, _, place, begin, _, size = self.fields("IIQQQQ", table + 56 * index)
        else:
            kind, place, begin, _, size = self.fields("IIIII", table + 32 * index)
        return Segment(place, begin, size) if kind == LOADED else None

    def section(self, at):
        name, kind, flags, begin, place, size, link = self.fields("IIQQQQI" if self.is_wide else "IIIIIII", at)
        return Section(name, kind, flags, begin, place, size, link)

    def named(self, name):
        return next((section for section in self.sections if section.name == name), None)

    def bytes_of(self, section):
        return b"" if section.kind == NO_BITS else self.data[section.place:section.place + section.size]

    def address_of(self, place):
        """The address of a place of the file; None where no loaded segment has it."""
        return next((place - at + begin for at, begin, size in self.segments if at <= place < at + size), None)

    def is_compressed(self):
        return any(section.name.startswith((".debug_", ".zdebug_")) and (section.flags & COMPRESSED or section.name[1] == "z")
                   for section in self.sections)

    def code(self):
        """Begin and end of each section that can be executed."""
        return [(section.begin, section.begin + section.size) for section in self.sections if section.flags & EXECUTED]

    @functools.cache
    @checked
    def functions(self):
        """The begins of functions in their order, by begin a name and the end, and the begins by name, from the tables of
        symbols."""
        found, begins = {}, {}
        for table in (section for section in self.sections if section.kind in (SYMBOLS, DYNAMIC_SYMBOLS)):
            names = self.sections[table.link].place
            for at in range(table.place, table.place + table.size, 24 if self.is_wide else 16):
                if self.is_wide:
                    name, info, _, section, begin, size = self.fields("IBBHQQ", at)
                else:
                    name, begin, size, info, _, section = self.fields("IIIBBH", at)
                if info & 15 == FUNCTION and section and size:
                    found.setdefault(begin, (self.text(names + name), begin + size))
                    begins.setdefault(self.text(names + name), set()).add(begin)
        return Functions(sorted(found), found, begins)

    @checked
    def build_id(self):
        for section in self.sections:
            if section.kind == NOTES and section.size >= 16:
                name, size, kind = self.fields("III", section.place)
                if kind == 3 and self.data[section.place + 12:section.place + 16] == b"GNU\0":
                    begin = section.place + 12 + (name + 3 & ~3)
                    return self.data[begin:begin + size].hex()
        return ""

    def link(self, name):
        """The file name of `.gnu_debuglink` or `.gnu_debugaltlink`, and the bytes behind it; None without the section."""
        section = self.named(name)
        if section is None:
            return None
        file, _, rest = self.bytes_of(section).partition(b"\0")
        return os.fsdecode(file), rest


class Functions(typing.NamedTuple):
    begins: list
    named: dict
    by_name: dict

    def begin_of(self, addr):
        """Where the function begins that has the address; None where none has."""
        at = bisect.bisect_right(self.begins, addr) - 1
        return self.begins[at] if at >= 0 and addr < self.named[self.begins[at]][1] else None
