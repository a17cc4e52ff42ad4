"""Shapes of line programs that units share, or that overlap, and of sequences over one another."""
import struct

from images.image_parts import (
    COPY, DW_AT_STR_OFFSETS_BASE, DW_FORM_FLAG_PRESENT, DW_FORM_SEC_OFFSET, DW_FORM_STRING, DW_FORM_STRX1, DW_LNCT_PATH,
    END_SEQUENCE, RANGE, SET_FILE_0, advance, entry, line_program, line_program_of, set_address, text, uleb, unit, with_length)
from attack.shapes.making import BASE, FUNCTION, LINES, ROOT, Attack, asked_units, begins_of, dwarf, plain_program, root, shape, subprogram

DW_LNCT_OTHER = 0x7F  # a content that the standard has not
BY_INDEX = bytes([DW_LNCT_PATH, DW_FORM_STRX1])
NEXT_ROW = b"\x0b"  # the special opcode of an address and a row


def many_rows(n):
    return set_address(BASE) + NEXT_ROW * n + END_SEQUENCE


def many_sequences(n):
    return b"".join(set_address(BASE + 4 * k) + COPY + advance(1) + END_SEQUENCE for k in range(n))


def many_files(n):
    return line_program(["/p"], [("a", 0)] * n, set_address(BASE) + COPY + advance(0x10000) + END_SEQUENCE)


# ---- units of one program


def units_of_programs(places, program):
    """Units without ranges, which announce what the sequences of their program cover."""
    shapes = {ROOT: root([LINES], 0)}
    return Attack(dwarf(shapes, b"".join(unit(entry(shapes, ROOT, at)) for at in places), line=program), [BASE])


def asked_units_of_programs(places, program):
    """Units, each with a function, of which each is asked for a line."""
    shapes = {ROOT: root([*RANGE, LINES]), FUNCTION: subprogram(RANGE)}
    return asked_units(shapes, [(at,) for at in places], lambda shapes, begin: entry(shapes, FUNCTION, begin, 4), line=program)


@shape
def units_of_one_program_of_rows(n):
    return units_of_programs([0] * n, plain_program(many_rows(16 * n)))


@shape
def units_of_one_header_of_files(n):
    return units_of_programs([0] * n, line_program(["/p"], [("a", 0)] * 6 * n, b""))


@shape
def units_of_one_header_without_its_last_file(n):
    whole = line_program(["/p"], [("a", 0)] * 6 * n, b"")
    return units_of_programs([0] * n, whole[:-3] + bytes([ord("a")] * 3))


@shape
def asked_units_of_one_program_of_rows(n):
    return asked_units_of_programs([0] * n, plain_program(many_rows(32 * n)))


@shape
def asked_units_of_one_program_of_sequences(n):
    return asked_units_of_programs([0] * n, plain_program(many_sequences(4 * n)))


@shape
def asked_units_of_one_header_of_files(n):
    return asked_units_of_programs([0] * n, many_files(8 * n))


def asked_units_of_files_by_index(n, formats):
    """Units, of which each tells another place of its offsets of strings, so that an index means another text in each."""
    paths = bytes([1, DW_LNCT_PATH, DW_FORM_STRING, 1]) + text("/p") + bytes([len(formats) // 2]) + formats
    rows = SET_FILE_0 + set_address(BASE) + COPY + advance(0x10000) + END_SEQUENCE
    program = line_program_of(paths + uleb(16 * n) + bytes(16 * n), rows)
    shapes = {ROOT: root([*RANGE, LINES, (DW_AT_STR_OFFSETS_BASE, DW_FORM_SEC_OFFSET)]), FUNCTION: subprogram(RANGE)}
    parts = {"str_offsets": with_length(struct.pack("<HH", 5, 0) + bytes(4 * n)), "str": text("a.c"), "line": program}
    return asked_units(shapes, [(0, 8 + 4 * k) for k in range(n)], lambda shapes, begin: entry(shapes, FUNCTION, begin, 4), **parts)


@shape
def asked_units_of_one_program_of_files_by_index(n):
    return asked_units_of_files_by_index(n, BY_INDEX)


@shape
def asked_units_of_one_program_of_files_of_many_formats(n):
    # most of them take no bytes
    return asked_units_of_files_by_index(n, BY_INDEX + bytes([DW_LNCT_OTHER, DW_FORM_FLAG_PRESENT]) * 254)


# ---- programs that overlap


def header(tables, behind):
    """The header of a program with its tables, behind which so many bytes stand, of which so many are told to be tables too."""
    tables_behind, all_behind = behind
    head = struct.pack("<BBBbBB", 1, 1, 1, 0, 1, 10) + bytes([0, 1, 1, 1, 1, 0, 0, 0, 1]) + tables
    length = 8 + len(head) + all_behind
    return struct.pack("<IHBBI", length, 5, 8, 0, len(head) + tables_behind) + head


DIRECTORY = bytes([1, DW_LNCT_PATH, DW_FORM_STRING, 1]) + text("/p")
PATHS = bytes([1, DW_LNCT_PATH, DW_FORM_STRING])


def headers_that_overlap(n):
    """Where n headers begin, each of which has all that stands behind it for the names of its files, and their bytes."""
    parts, size, zeros = [text("a")], 2, 1
    for _ in range(n):
        parts.append(header(DIRECTORY + PATHS + uleb(zeros), (size, size)))
        size, zeros = size + len(parts[-1]), zeros + parts[-1].count(0)
    parts.reverse()
    return begins_of(parts)[:n], b"".join(parts)


def programs_that_overlap(n, rows):
    """Where n programs begin, each of which passes over the headers behind it and has the rows between them, and their bytes."""
    parts, size = [END_SEQUENCE], len(END_SEQUENCE)
    for _ in range(n):
        head = header(DIRECTORY + PATHS + uleb(2) + text("a.c") * 2, (0, size + rows))
        parts += [NEXT_ROW * rows, head, b"\0" + uleb(len(head) + 1) + b"\x80"]
        size += sum(map(len, parts[-3:]))
    parts.reverse()
    return begins_of(parts)[1::3], b"".join(parts)


@shape
def units_of_line_headers_that_overlap(n):
    return units_of_programs(*headers_that_overlap(n))


@shape
def asked_units_of_line_programs_that_overlap(n):
    return asked_units_of_programs(*programs_that_overlap(n, 20))


# ---- one program


def one_program(program, addresses):
    shapes = {ROOT: root([*RANGE, LINES]), FUNCTION: subprogram(RANGE)}
    below = entry(shapes, ROOT, BASE, 0x1000000, 0) + entry(shapes, FUNCTION, BASE, 0x1000000) + b"\0"
    return Attack(dwarf(shapes, unit(below), line=program), addresses)


@shape
def rows_of_a_byte(n):
    return one_program(plain_program(many_rows(n)), [BASE])
