#!/usr/bin/env python3
"""Makes the image of the stack folder's stored run, crates/blz_fold_main/data/prog, which is byte for byte the one that
`realistic_walk` of blz_images makes for the tests: an ELF64 executable in little-endian order.

Two units of DWARF 5 in /home/u/p have their texts and addresses by index, their ranges in lists, and the names of their
files in `.debug_line_str`. A C unit has `main` at [0x1140, 0x1180), with a call of `square` inlined at [0x1150, 0x1158);
a Rust unit has one function at [0x1200, 0x1260). `.symtab` has `_start` [0x1100, 0x1122), which no unit announces. What
the program prints of them is in crates/blz_fold_main/stdout, written by hand."""
import struct

from image_parts import DW_AT_ABSTRACT_ORIGIN, DW_AT_CALL_COLUMN, DW_AT_CALL_FILE, DW_AT_CALL_LINE, DW_AT_COMP_DIR
from image_parts import DW_AT_HIGH_PC, DW_AT_INLINE, DW_AT_LANGUAGE, DW_AT_LINKAGE_NAME, DW_AT_LOW_PC, DW_AT_NAME
from image_parts import DW_AT_RANGES, DW_AT_STMT_LIST, DW_AT_STR_OFFSETS_BASE, DW_FORM_DATA1, DW_FORM_DATA2, DW_FORM_DATA4
from image_parts import DW_FORM_LINE_STRP, DW_FORM_REF4, DW_FORM_SEC_OFFSET, DW_FORM_UDATA, DW_LANG_C11, DW_LANG_RUST
from image_parts import DW_LNCT_DIRECTORY_INDEX, DW_LNCT_PATH, DW_RLE_END_OF_LIST, DW_TAG_COMPILE_UNIT
from image_parts import DW_TAG_INLINED_SUBROUTINE, DW_TAG_SUBPROGRAM, EM_X86_64, ENTRIES_AT, ET_EXEC, EV_CURRENT, FORMATS
from image_parts import SHT_STRTAB, SHT_SYMTAB, STB_GLOBAL_STT_FUNC
from image_parts import COPY, END_SEQUENCE, Abbreviation, Section, abbreviations, advance, announced, section_header
from image_parts import set_address, strings, symbol, text, uleb, unit, with_length
from stored_image import write_or_check

DW_AT_ADDR_BASE, DW_AT_RNGLISTS_BASE = 0x73, 0x74
DW_FORM_STRX, DW_FORM_ADDRX, DW_FORM_RNGLISTX = 0x1A, 0x1B, 0x23
DW_RLE_STARTX_LENGTH, DW_RLE_BASE_ADDRESSX, DW_RLE_OFFSET_PAIR = 3, 1, 4
BY_INDEX = (DW_FORM_STRX, DW_FORM_ADDRX, DW_FORM_RNGLISTX)

# where the offsets of texts, the addresses and the offsets of range lists begin
TEXTS_BASE, ADDRESSES_BASE, LISTS_BASE = 8, 8, 12

TEXTS = ["main.c", "/home/u/p", "main", "square", "lib.rs", "_ZN3lib3run17h0123456789abcdefE"]
ADDRESSES = [0x1140, 0x1150, 0x1200]
PATHS = ["/home/u/p", "main.c", "sq.h", "/home/u/p", "src", "lib.rs"]


# ---- entries


def root(language_form):
    return Abbreviation(DW_TAG_COMPILE_UNIT, 1, [
        (DW_AT_NAME, DW_FORM_STRX), (DW_AT_COMP_DIR, DW_FORM_STRX), (DW_AT_LANGUAGE, language_form),
        (DW_AT_STMT_LIST, DW_FORM_SEC_OFFSET), (DW_AT_STR_OFFSETS_BASE, DW_FORM_SEC_OFFSET),
        (DW_AT_ADDR_BASE, DW_FORM_SEC_OFFSET), (DW_AT_RNGLISTS_BASE, DW_FORM_SEC_OFFSET), (DW_AT_RANGES, DW_FORM_RNGLISTX)])


def function(name, has_children):
    return Abbreviation(DW_TAG_SUBPROGRAM, has_children, [
        (name, DW_FORM_STRX), (DW_AT_LOW_PC, DW_FORM_ADDRX), (DW_AT_HIGH_PC, DW_FORM_DATA4)])


# each entry has an abbreviation of its own
C_UNIT, INLINED, OUTER, CALL, RUST_UNIT, LINKED = 1, 2, 3, 4, 5, 6
SHAPES = {
    C_UNIT: root(DW_FORM_DATA1),
    INLINED: Abbreviation(DW_TAG_SUBPROGRAM, 0, [(DW_AT_NAME, DW_FORM_STRX), (DW_AT_INLINE, DW_FORM_DATA1)]),
    OUTER: function(DW_AT_NAME, 1),
    CALL: Abbreviation(DW_TAG_INLINED_SUBROUTINE, 0, [
        (DW_AT_ABSTRACT_ORIGIN, DW_FORM_REF4), (DW_AT_LOW_PC, DW_FORM_ADDRX), (DW_AT_HIGH_PC, DW_FORM_DATA1),
        (DW_AT_CALL_FILE, DW_FORM_DATA1), (DW_AT_CALL_LINE, DW_FORM_DATA1), (DW_AT_CALL_COLUMN, DW_FORM_DATA1)]),
    RUST_UNIT: root(DW_FORM_DATA2),
    LINKED: function(DW_AT_LINKAGE_NAME, 0),
}


def entry(code, *values):
    """An entry of an abbreviation; what goes by an index is that index."""
    parts = zip(SHAPES[code].attributes, values, strict=True)
    return uleb(code) + b"".join(uleb(value) if form in BY_INDEX else struct.pack(FORMATS[form], value) for (_, form), value in parts)


def c_unit(lines_at):
    head = entry(C_UNIT, 0, 1, DW_LANG_C11, lines_at, TEXTS_BASE, ADDRESSES_BASE, LISTS_BASE, 0)
    square = ENTRIES_AT + len(head)
    below = entry(INLINED, 3, 1) + entry(OUTER, 2, 0, 0x40) + entry(CALL, square, 1, 8, 0, 7, 9)
    return unit(head + below + b"\0\0")


def rust_unit(lines_at):
    head = entry(RUST_UNIT, 4, 1, DW_LANG_RUST, lines_at, TEXTS_BASE, ADDRESSES_BASE, LISTS_BASE, 1)
    return unit(head + entry(LINKED, 5, 2, 0x60) + b"\0")


# ---- tables that entries lead to by an index


def text_offsets(offsets):
    return with_length(struct.pack("<HH", 5, 0) + struct.pack(f"<{len(offsets)}I", *offsets))


def address_table():
    return with_length(struct.pack("<HBB", 5, 8, 0) + struct.pack(f"<{len(ADDRESSES)}Q", *ADDRESSES))


def range_lists():
    """From the first address on, [0, 0x40); from the third, 0x60 bytes. The offsets of both lists stand before them."""
    first = bytes([DW_RLE_BASE_ADDRESSX, 0, DW_RLE_OFFSET_PAIR, 0, 0x40, DW_RLE_END_OF_LIST])
    second = bytes([DW_RLE_STARTX_LENGTH, 2, 0x60, DW_RLE_END_OF_LIST])
    return with_length(struct.pack("<HBBIII", 5, 8, 0, 2, 8, 8 + len(first)) + first + second)


# ---- line programs


def line_program(directories, files, opcodes):
    """A line program whose paths stand in `.debug_line_str`, with special opcodes from 13 on, of which none is used."""
    tables = bytes([1, DW_LNCT_PATH, DW_FORM_LINE_STRP]) + uleb(len(directories)) + struct.pack(f"<{len(directories)}I", *directories)
    tables += bytes([2, DW_LNCT_PATH, DW_FORM_LINE_STRP, DW_LNCT_DIRECTORY_INDEX, DW_FORM_UDATA]) + uleb(len(files))
    tables += b"".join(struct.pack("<I", path) + uleb(directory) for path, directory in files)
    operands = bytes([0, 1, 1, 1, 1, 0, 0, 0, 1, 0, 0, 1])
    head = struct.pack("<BBBbBB", 1, 1, 1, -5, 14, 13) + operands + tables
    return with_length(struct.pack("<HBBI", 5, 8, 0, len(head)) + head + opcodes)


def file(number):
    return b"\x04" + uleb(number)


def line(step):
    """DW_LNS_advance_line, by -64 to 63."""
    return bytes([3, step & 0x7F])


def column(number):
    return b"\x05" + uleb(number)


def c_lines(paths):
    # lines 5, 3 and 8; a sequence begins with line 1
    opcodes = set_address(0x1140) + file(0) + line(4) + COPY
    opcodes += advance(0x10) + file(1) + line(-2) + column(12) + COPY
    opcodes += advance(8) + file(0) + line(5) + column(1) + COPY
    return line_program(paths[:1], [(paths[1], 0), (paths[2], 0)], opcodes + advance(0x28) + END_SEQUENCE)


def rust_lines(paths):
    opcodes = set_address(0x1200) + line(9) + column(1) + COPY + advance(0x60) + END_SEQUENCE
    return line_program(paths[3:5], [(paths[5], 1), (paths[5], 1)], opcodes)


# ---- the file


def texts_in_turn(texts):
    """A table of texts, behind the empty one, and the offset of each; one that comes again stands there again."""
    table, offsets = b"\0", []
    for string in texts:
        offsets.append(len(table))
        table += text(string)
    return table, offsets


def debug_sections():
    texts, offsets = texts_in_turn(TEXTS)
    paths, paths_at = texts_in_turn(PATHS)
    c_program, rust_program = c_lines(paths_at), rust_lines(paths_at)
    first, second = c_unit(0), rust_unit(len(c_program))
    return [
        Section(".debug_abbrev", abbreviations(SHAPES)),
        Section(".debug_addr", address_table()),
        Section(".debug_aranges", announced(0, [(0x1140, 0x40)]) + announced(len(first), [(0x1200, 0x60)])),
        Section(".debug_info", first + second),
        Section(".debug_line", c_program + rust_program),
        Section(".debug_line_str", paths),
        Section(".debug_rnglists", range_lists()),
        Section(".debug_str", texts),
        Section(".debug_str_offsets", text_offsets(offsets)),
    ]


def sections():
    names, name_at = strings(["_start"])
    symbols = symbol(0, 0, 0, 0, 0) + symbol(name_at["_start"], STB_GLOBAL_STT_FUNC, 1, 0x1100, 34)
    return [Section(".symtab", symbols, SHT_SYMTAB, link=3, info=1, entry_size=24), Section(".strtab", names, SHT_STRTAB)] + debug_sections()


def image():
    """The section headers follow the file header, the first of them that of `.shstrtab`, and the bytes of the sections follow them."""
    rest = sections()
    names, name_at = strings([".shstrtab"] + [section.name for section in rest])
    parts = [Section(".shstrtab", names, SHT_STRTAB)] + rest
    count = len(parts) + 1
    header = b"\x7fELF" + bytes([2, 1, 1]) + bytes(9) + struct.pack(
        "<HHIQQQIHHHHHH", ET_EXEC, EM_X86_64, EV_CURRENT, 0, 0, 64, 0, 64, 56, 0, 64, count, 1)
    table, place = bytes(64), 64 + 64 * count
    for section in parts:
        table += section_header(name_at[section.name], section, place, len(section.data))
        place += len(section.data)
    return header + table + b"".join(section.data for section in parts)


if __name__ == "__main__":
    write_or_check(__doc__, image())
