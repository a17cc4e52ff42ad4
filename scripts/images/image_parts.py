"""Parts of an image: sections of an ELF64 file in little-endian order, and what stands in those of DWARF 5 (32-bit).

The scripts that make images build them of these; each part is the bytes that the standard gives it."""
import struct
from typing import NamedTuple

SHT_PROGBITS, SHT_SYMTAB, SHT_STRTAB, SHT_REL = 1, 2, 3, 9
SHF_ALLOC, SHF_EXECINSTR = 2, 4
SHN_UNDEF, SHN_ABS = 0, 0xFFF1
STB_GLOBAL_STT_FUNC = 0x12
ET_REL, ET_EXEC, EM_X86_64, EV_CURRENT = 1, 2, 62, 1
R_X86_64_64 = 1

DW_UT_COMPILE, DW_UT_PARTIAL, DW_UT_SKELETON, DW_UT_SPLIT_COMPILE = 1, 3, 4, 5
DW_TAG_COMPILE_UNIT, DW_TAG_INLINED_SUBROUTINE, DW_TAG_LEXICAL_BLOCK = 0x11, 0x1D, 0x0B
DW_TAG_SUBPROGRAM, DW_TAG_VARIABLE, DW_TAG_PARTIAL_UNIT, DW_TAG_SKELETON_UNIT = 0x2E, 0x34, 0x3C, 0x4A
DW_AT_NAME, DW_AT_STMT_LIST, DW_AT_LOW_PC, DW_AT_HIGH_PC, DW_AT_LANGUAGE = 0x03, 0x10, 0x11, 0x12, 0x13
DW_AT_COMP_DIR, DW_AT_INLINE, DW_AT_ABSTRACT_ORIGIN, DW_AT_EXTERNAL, DW_AT_SPECIFICATION = 0x1B, 0x20, 0x31, 0x3F, 0x47
DW_AT_RANGES, DW_AT_CALL_COLUMN, DW_AT_CALL_FILE, DW_AT_CALL_LINE = 0x55, 0x57, 0x58, 0x59
DW_AT_STR_OFFSETS_BASE = 0x72
DW_AT_LINKAGE_NAME, DW_AT_DWO_NAME = 0x6E, 0x76
DW_FORM_ADDR, DW_FORM_DATA2, DW_FORM_DATA4, DW_FORM_STRING, DW_FORM_DATA1 = 0x01, 0x05, 0x06, 0x08, 0x0B
DW_FORM_STRP, DW_FORM_REF_ADDR, DW_FORM_REF4, DW_FORM_SEC_OFFSET = 0x0E, 0x10, 0x13, 0x17
DW_FORM_UDATA, DW_FORM_FLAG_PRESENT, DW_FORM_LINE_STRP, DW_FORM_IMPLICIT_CONST, DW_FORM_STRX1 = 0x0F, 0x19, 0x1F, 0x21, 0x25
DW_RLE_END_OF_LIST, DW_RLE_OFFSET_PAIR, DW_RLE_BASE_ADDRESS, DW_RLE_START_LENGTH = 0, 4, 5, 7
DW_LANG_C11, DW_LANG_RUST = 0x1D, 0x1C
DW_LNCT_PATH, DW_LNCT_DIRECTORY_INDEX = 1, 2
DW_SECT_INFO, DW_SECT_ABBREV = 1, 3
FORMATS = {DW_FORM_ADDR: "<Q", DW_FORM_DATA2: "<H", DW_FORM_DATA4: "<I", DW_FORM_DATA1: "<B", DW_FORM_STRP: "<I",
           DW_FORM_REF_ADDR: "<I", DW_FORM_REF4: "<I", DW_FORM_SEC_OFFSET: "<I"}
RANGE = [(DW_AT_LOW_PC, DW_FORM_ADDR), (DW_AT_HIGH_PC, DW_FORM_DATA4)]


# ---- numbers and texts


def uleb(number):
    data = b""
    while True:
        number, low = number >> 7, number & 0x7F
        data += bytes([low | (0x80 if number else 0)])
        if not number:
            return data


def text(string):
    return string.encode() + b"\0"


def with_length(body):
    return struct.pack("<I", len(body)) + body


def strings(names):
    """A string table, and the offset of each name."""
    table, offsets = b"\0", {}
    for name in names:
        offsets[name] = len(table)
        table += text(name)
    return table, offsets


# ---- entries


class Abbreviation(NamedTuple):
    tag: int
    has_children: int
    attributes: list  # pairs of a name and a form, and a number from 0 to 63 behind DW_FORM_implicit_const


def abbreviation(code, shape):
    pairs = b"".join(uleb(number) for attribute in shape.attributes for number in attribute)
    return uleb(code) + uleb(shape.tag) + bytes([shape.has_children]) + pairs + b"\0\0"


def abbreviations(shapes):
    """A table of abbreviations, by their codes."""
    return b"".join(abbreviation(code, shape) for code, shape in shapes.items()) + b"\0"


def entry(shapes, code, *values):
    """An entry of an abbreviation; attributes without bytes take no value."""
    data = uleb(code)
    forms = [form for _, form, *_ in shapes[code].attributes if form not in (DW_FORM_FLAG_PRESENT, DW_FORM_IMPLICIT_CONST)]
    for form, value in zip(forms, values, strict=True):
        data += text(value) if form == DW_FORM_STRING else struct.pack(FORMATS[form], value)
    return data


def unit(entries, kind=DW_UT_COMPILE, abbreviations_at=0, unit_id=None, address_size=8):
    """A unit of DWARF 5."""
    header = struct.pack("<HBBI", 5, kind, address_size, abbreviations_at)
    return with_length(header + (b"" if unit_id is None else struct.pack("<Q", unit_id)) + entries)


ENTRIES_AT = 12  # the size of the header of a unit without an id


# ---- ranges


def announced(unit_at, ranges):
    """A set of address ranges, padded to a multiple of twice the size of an address."""
    header = struct.pack("<HIBB", 2, unit_at, 8, 0) + bytes(4)
    return with_length(header + b"".join(struct.pack("<QQ", *span) for span in ranges) + bytes(16))


def range_lists(lists):
    """The section `.debug_rnglists` with some bytes of lists, and the offset of the first of them."""
    header = struct.pack("<HBBI", 5, 8, 0, 0)
    return with_length(header + lists), 4 + len(header)


def offset_pair(begin, end):
    return bytes([DW_RLE_OFFSET_PAIR]) + uleb(begin) + uleb(end)


# ---- line programs


def line_program(directories, files, opcodes):
    """A line program of DWARF 5 with the paths in place; opcodes from 10 on are special ones, of which none is used."""
    tables = bytes([1, DW_LNCT_PATH, DW_FORM_STRING]) + uleb(len(directories))
    tables += b"".join(text(path) for path in directories)
    tables += bytes([2, DW_LNCT_PATH, DW_FORM_STRING, DW_LNCT_DIRECTORY_INDEX, DW_FORM_DATA1]) + uleb(len(files))
    tables += b"".join(text(path) + bytes([directory]) for path, directory in files)
    return line_program_of(tables, opcodes)


def line_program_of(tables, opcodes):
    """A line program of DWARF 5 with the tables of its directories and files."""
    operands = bytes([0, 1, 1, 1, 1, 0, 0, 0, 1])
    head = struct.pack("<BBBbBB", 1, 1, 1, 0, 1, 10) + operands + tables
    return with_length(struct.pack("<HBBI", 5, 8, 0, len(head)) + head + opcodes)


def set_address(address):
    return b"\0\x09\x02" + struct.pack("<Q", address)


def advance(count):
    return b"\x02" + uleb(count)


COPY = b"\x01"
SET_FILE_0 = b"\x04\x00"
END_SEQUENCE = b"\0\x01\x01"


# ---- the file


class Section(NamedTuple):
    name: str
    data: bytes
    kind: int = SHT_PROGBITS
    flags: int = 0
    link: int = 0
    info: int = 0
    entry_size: int = 0


def symbol(name, info, section, value, size):
    return struct.pack("<IBBHQQ", name, info, 0, section, value, size)


def section_header(name, section, offset, size):
    return struct.pack("<IIQQQQIIQQ", name, section.kind, section.flags, 0, offset, size, section.link, section.info, 1,
                       section.entry_size)


def image(sections, kind=ET_EXEC):
    """An ELF file of sections, which are numbered from 1; `.shstrtab` comes behind them."""
    names, name_at = strings([section.name for section in sections] + [".shstrtab"])
    sections = [*sections, Section(".shstrtab", names, SHT_STRTAB)]
    return placed(sections, [name_at[section.name] for section in sections], kind)


def placed(sections, name_offsets, kind):
    """An ELF file of sections, the last of which has the names of all at the offsets given."""
    table, bodies, end = bytes(64), [], 64
    for section, name in zip(sections, name_offsets, strict=True):
        table += section_header(name, section, end, len(section.data))
        bodies.append(section.data)
        end += len(section.data)
    count = len(sections) + 1
    header = b"\x7fELF" + bytes([2, 1, 1]) + bytes(9) + struct.pack(
        "<HHIQQQIHHHHHH", kind, EM_X86_64, EV_CURRENT, 0, 0, end, 0, 64, 0, 0, 64, count, count - 1)
    return header + b"".join(bodies) + table
