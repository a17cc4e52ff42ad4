#!/usr/bin/env python3
"""Makes the image of the stored run of blz_cover, crates/blz_cover_main/data/a.elf: an ELF64 executable in little-endian
order with one unit of DWARF 4 in /p. Its root announces [0x1000, 0x1020), which one function covers; its line program has
rows of line 2 of `a.c` at 0x1004 and 0x1015, in a sequence that ends at 0x1018. What the program prints for data/hits is in
crates/blz_cover_main/stdout, written by hand."""
import struct

from image_parts import DW_AT_COMP_DIR, DW_AT_NAME, DW_AT_STMT_LIST, DW_FORM_SEC_OFFSET, DW_FORM_STRING
from image_parts import DW_TAG_COMPILE_UNIT, DW_TAG_SUBPROGRAM, RANGE
from image_parts import COPY, END_SEQUENCE, Abbreviation, Section, abbreviations, advance, entry, image, set_address, with_length
from stored_image import write_or_check

UNIT, FUNCTION = 1, 2
SHAPES = {
    UNIT: Abbreviation(DW_TAG_COMPILE_UNIT, 1, [(DW_AT_COMP_DIR, DW_FORM_STRING), (DW_AT_STMT_LIST, DW_FORM_SEC_OFFSET)] + RANGE),
    FUNCTION: Abbreviation(DW_TAG_SUBPROGRAM, 0, [(DW_AT_NAME, DW_FORM_STRING)] + RANGE),
}


def units():
    entries = entry(SHAPES, UNIT, "/p", 0, 0x1000, 0x20) + entry(SHAPES, FUNCTION, "f", 0x1000, 0x20) + b"\0"
    return with_length(struct.pack("<HIB", 4, 0, 8) + entries)


def lines():
    """Minimum length 1, maximum operations 1, line base -5, line range 14, opcode base 13."""
    operands = bytes([0, 1, 1, 1, 1, 0, 0, 0, 1, 0, 0, 1])
    # no directory; one file of directory 0
    head = struct.pack("<BBBbBB", 1, 1, 1, -5, 14, 13) + operands + b"\0" + b"a.c\0\0\0\0\0"
    # a special opcode, const_add_pc
    opcodes = set_address(0x1000) + b"\x4b\x08" + COPY + advance(3) + END_SEQUENCE
    return with_length(struct.pack("<HI", 4, len(head)) + head + opcodes)


def contents():
    sections = [Section(".debug_abbrev", abbreviations(SHAPES)), Section(".debug_info", units()), Section(".debug_line", lines())]
    return image(sections)


if __name__ == "__main__":
    write_or_check(__doc__, contents())
