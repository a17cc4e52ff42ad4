#!/usr/bin/env python3
"""Makes the image of the stored run of blz_rows, crates/blz_rows_main/data/a.elf: an ELF64 executable in little-endian
order with one unit of DWARF 4, `a.c` in /p. Its line program has one sequence, [0x1004, 0x1018), with rows of line 2 at
0x1004 and 0x1015. What the program prints of it is in crates/blz_rows_main/stdout, written by hand."""
import struct

from image_parts import DW_AT_COMP_DIR, DW_AT_NAME, DW_AT_STMT_LIST, DW_FORM_SEC_OFFSET, DW_FORM_STRING, DW_TAG_COMPILE_UNIT
from image_parts import COPY, END_SEQUENCE, Abbreviation, Section, abbreviations, advance, entry, image, set_address, with_length
from stored_image import write_or_check

UNIT = {1: Abbreviation(DW_TAG_COMPILE_UNIT, 0, [(DW_AT_NAME, DW_FORM_STRING), (DW_AT_COMP_DIR, DW_FORM_STRING),
                                                 (DW_AT_STMT_LIST, DW_FORM_SEC_OFFSET)])}


def unit():
    return with_length(struct.pack("<HIB", 4, 0, 8) + entry(UNIT, 1, "a.c", "/p", 0))


def line_program():
    """Minimum length 1, one operation, lines from -5 in a range of 14, special opcodes from 13; file 1 is `a.c`."""
    operands = bytes([0, 1, 1, 1, 1, 0, 0, 0, 1, 0, 0, 1])
    head = struct.pack("<BBBbBB", 1, 1, 1, -5, 14, 13) + operands + b"\0" + b"a.c\0\0\0\0" + b"\0"
    # the special opcode 0x4b, const_add_pc
    opcodes = set_address(0x1000) + b"\x4b\x08" + COPY + advance(3) + END_SEQUENCE
    return with_length(struct.pack("<HI", 4, len(head)) + head + opcodes)


def contents():
    sections = [Section(".debug_abbrev", abbreviations(UNIT)), Section(".debug_info", unit()), Section(".debug_line", line_program())]
    return image(sections)


if __name__ == "__main__":
    write_or_check(__doc__, contents())
