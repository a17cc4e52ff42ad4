"""Where the fields of an ELF image stand: the numbers of its headers and tables, and those of the headers, abbreviations, forms
and opcodes of its debug sections. Each is an offset in the file and a width in bytes. What is not whole is left out."""
import struct

ELF64_HEADER = [(0x10, 2), (0x12, 2), (0x14, 4), (0x20, 8), (0x28, 8), (0x34, 2), (0x36, 2), (0x38, 2), (0x3A, 2), (0x3C, 2), (0x3E, 2)]
ELF32_HEADER = [(0x10, 2), (0x12, 2), (0x14, 4), (0x1C, 4), (0x20, 4), (0x28, 2), (0x2A, 2), (0x2C, 2), (0x2E, 2), (0x30, 2), (0x32, 2)]
SECTION64 = [(0, 4), (4, 4), (8, 8), (0x10, 8), (0x18, 8), (0x20, 8), (0x28, 4), (0x2C, 4), (0x38, 8)]
SECTION32 = [(4 * k, 4) for k in range(10)]
SYMBOL64, SYMBOL32 = [(0, 4), (4, 1), (6, 2), (8, 8), (16, 8)], [(0, 4), (4, 4), (8, 4), (12, 1), (14, 2)]
SEGMENT64, SEGMENT32 = [(0, 4), (8, 8), (16, 8), (32, 8), (40, 8)], [(0, 4), (4, 4), (8, 4), (16, 4), (20, 4)]
# sections whose every byte is a field: codes, forms, opcodes, kinds of entries
BYTES = {".debug_abbrev", ".debug_line", ".debug_rnglists", ".debug_ranges", ".debug_aranges", ".debug_str_offsets", ".debug_addr",
         ".debug_cu_index", ".gnu_debuglink", ".gnu_debugaltlink", ".debug_sup", ".note.gnu.build-id"}
MOST = 4000  # of one section


class Image:
    """An image, as far as its headers can be read."""

    def __init__(self, data):
        self.data = data
        self.order = ">" if len(data) > 5 and data[5] == 2 else "<"
        self.is_wide = len(data) > 4 and data[4] == 2

    def number(self, at, width):
        part = self.data[at:at + width]
        return int.from_bytes(part, "big" if self.order == ">" else "little") if len(part) == width else 0

    def sections(self):
        """The offset of each section's header, its name, and where it stands."""
        size = 64 if self.is_wide else 40
        table = self.number(0x28, 8) if self.is_wide else self.number(0x20, 4)
        count, names = (self.number(0x3C, 2), self.number(0x3E, 2)) if self.is_wide else (self.number(0x30, 2), self.number(0x32, 2))
        places = [self.place(table + size * k) for k in range(min(count, 200))]
        base = places[names][0] if names < len(places) else 0
        for k, (begin, length) in enumerate(places):
            at = base + self.number(table + size * k, 4)
            end = self.data.find(b"\0", at, at + 100)
            yield table + size * k, self.data[at:end].decode("latin-1") if end > at else "", begin, length

    def place(self, header):
        begin, length = ((self.number(header + 0x18, 8), self.number(header + 0x20, 8)) if self.is_wide
                         else (self.number(header + 0x10, 4), self.number(header + 0x14, 4)))
        return begin, max(0, min(length, len(self.data) - begin))


def spread(fields, at):
    return [(at + offset, width) for offset, width in fields]


def table_fields(fields, size, begin, length):
    return [field for at in range(begin, begin + min(length, 64 * size), size) for field in spread(fields, at)]


def unit_fields(image, begin, length):
    """The headers of the units of a section, and the bytes behind each."""
    at, fields = begin, []
    while at + 12 <= begin + length and len(fields) < MOST:
        width = 8 if image.number(at, 4) == 0xFFFFFFFF else 4
        size = image.number(at + width - 4 + (4 if width == 8 else 0), width)
        body = at + (12 if width == 8 else 4)
        fields += [(at, 4), (body, 2), (body + 2, 1), (body + 3, 1), (body + 4, width)]
        fields += [(offset, 1) for offset in range(body + 4, min(body + 400, begin + length))]
        at = body + size if 0 < size < length else begin + length
    return fields


def section_fields(image, header, name, begin, length):
    fields = spread(SECTION64 if image.is_wide else SECTION32, header)
    if name in (".symtab", ".dynsym"):
        fields += table_fields(SYMBOL64 if image.is_wide else SYMBOL32, 24 if image.is_wide else 16, begin, length)
    elif name.startswith(".debug_info"):
        fields += unit_fields(image, begin, length)
    elif name.removesuffix(".dwo") in BYTES:
        fields += [(at, 1) for at in range(begin, begin + min(length, MOST))]
        fields += [(at, 4) for at in range(begin, begin + min(length, 64), 4)]
    return fields


def fields_of(data):
    image = Image(data)
    fields = list(ELF64_HEADER if image.is_wide else ELF32_HEADER) + [(4, 1), (5, 1)]
    segments = image.number(0x20, 8) if image.is_wide else image.number(0x1C, 4)
    fields += table_fields(SEGMENT64 if image.is_wide else SEGMENT32, 56 if image.is_wide else 32, segments, 8 * 56 if segments else 0)
    for section in image.sections():
        fields += section_fields(image, *section)
    return [(at, width) for at, width in fields if at + width <= len(data)]


def as_bytes(number, width, order):
    return struct.pack(order + {1: "B", 2: "H", 4: "I", 8: "Q"}[width], number % (1 << 8 * width))
