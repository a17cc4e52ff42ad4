"""Shapes of one long text that functions, calls, files or units name, with and without its end."""
from images.image_parts import (
    COPY, DW_AT_COMP_DIR, DW_AT_LINKAGE_NAME, DW_FORM_LINE_STRP, DW_FORM_STRING, DW_FORM_STRP, DW_LNCT_PATH, END_SEQUENCE, RANGE,
    SET_FILE_0, advance, entry, line_program_of, set_address, uleb, unit)
from attack.shapes.making import (
    BASE, CALL, FUNCTION, LINES, LONG_NAME, OUTER, ROOT, Attack, asked_units, dwarf, inlined, lined_root, one_lined_unit, one_row,
    one_unit, root, shape, some, subprogram)


# an entry is told by this one, and its long name is read beside it
LINKAGE_NAME = (DW_AT_LINKAGE_NAME, DW_FORM_STRING)


def long_text(n, end=b"\0"):
    return b"f" * (20 * n) + end


def long_name_of_functions(n, end):
    shapes = {ROOT: root(), FUNCTION: subprogram([LONG_NAME, LINKAGE_NAME, *RANGE])}
    below = b"".join(entry(shapes, FUNCTION, 0, "g", BASE + 4 * k, 4) for k in range(n))
    return Attack(one_unit(shapes, below, size=4 * n, str=long_text(n, end)), some([BASE + 4 * k for k in range(n)]))


@shape
def one_long_name_of_functions(n):
    return long_name_of_functions(n, b"\0")


@shape
def one_name_without_an_end_of_functions(n):
    return long_name_of_functions(n, b"")


@shape
def one_long_name_of_calls_within_one_another(n):
    # all of them cover what is asked
    shapes = {ROOT: lined_root(), OUTER: subprogram(RANGE, 1), CALL: inlined([LONG_NAME, LINKAGE_NAME, *RANGE], 1)}
    below = entry(shapes, OUTER, BASE, 4 * n) + entry(shapes, CALL, 0, "g", BASE, 4 * n) * n + b"\0" * (n + 1)
    return Attack(one_lined_unit(shapes, below, size=4 * n, str=long_text(n)), [BASE])


@shape
def one_long_path_of_files(n):
    tables = bytes([1, DW_LNCT_PATH, DW_FORM_STRING]) + uleb(1) + b"/p\0"
    tables += bytes([1, DW_LNCT_PATH, DW_FORM_LINE_STRP]) + uleb(4 * n) + bytes(4) * 4 * n
    program = line_program_of(tables, SET_FILE_0 + set_address(BASE) + COPY + advance(4) + END_SEQUENCE)
    shapes = {ROOT: root([*RANGE, LINES]), FUNCTION: subprogram(RANGE)}
    below = entry(shapes, ROOT, BASE, 0x1000, 0) + entry(shapes, FUNCTION, BASE, 0x1000) + b"\0"
    return Attack(dwarf(shapes, unit(below), line=program, line_str=long_text(n)), [BASE])


def long_path_of_units(n, end):
    """Units that have one folder, of which each is asked for a line."""
    shapes = {ROOT: root([*RANGE, LINES, (DW_AT_COMP_DIR, DW_FORM_STRP)]), FUNCTION: subprogram(RANGE)}
    parts = {"line": one_row(4 * n), "str": long_text(n, end)}
    return asked_units(shapes, [(0, 0)] * n, lambda shapes, begin: entry(shapes, FUNCTION, begin, 4), **parts)


@shape
def one_long_path_of_units(n):
    return long_path_of_units(n, b"\0")


@shape
def one_path_without_an_end_of_units(n):
    return long_path_of_units(n, b"")
