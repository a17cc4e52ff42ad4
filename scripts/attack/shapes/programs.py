"""Shapes of what the other programs are asked: stacks, lines and hits, beside calls, rows and units."""
from images.image_parts import DW_AT_COMP_DIR, DW_FORM_STRP, END_SEQUENCE, RANGE, entry, line_program, set_address, unit
from attack.shapes.lines import NEXT_ROW, many_rows
from attack.shapes.making import (
    BASE, CALL, FUNCTION, LINES, NAME, OUTER, ROOT, Attack, begins_of, dwarf, inlined, lined_root, one_lined_unit, plain_program,
    root, shape, subprogram)
from attack.shapes.names import long_text

# ---- stacks and hits in deep chains


def deep_chain(depth, size):
    """Calls within one another, all of which cover all addresses."""
    shapes = {ROOT: lined_root(), OUTER: subprogram([NAME, *RANGE], 1), CALL: inlined([NAME, *RANGE], 1)}
    calls = entry(shapes, CALL, "f", BASE, size) * depth
    return one_lined_unit(shapes, entry(shapes, OUTER, "o", BASE, size) + calls + b"\0" * (depth + 1), size=size)


def folded(image, stacks):
    """blz_fold, asked for stacks of addresses."""
    listed = "".join(f"1 {';'.join(f'{address:x}' for address in stack)}\n" for stack in stacks)
    return Attack(image, [BASE], program="blz_fold", listed=listed.encode())


def covered(image, addresses):
    """blz_cover, asked for hits at addresses."""
    return Attack(image, [BASE], program="blz_cover", listed="".join(f"{address:x} 1\n" for address in addresses).encode())


@shape
def stacks_of_each_address_in_a_deep_chain(n):
    return folded(deep_chain(n, 4 * n), [[BASE + k] for k in range(4 * n)])


@shape
def one_stack_of_many_deep_chains(n):
    return folded(deep_chain(n, 4 * n), [[BASE] * (4 * n)])


@shape
def hits_in_a_deep_chain(n):
    return covered(deep_chain(n, 4 * n), [BASE + k for k in range(4 * n)])


# ---- units of one program


def units_of_rows(units, rows):
    """Units of two addresses each, which share a program of rows and have a function each."""
    shapes = {ROOT: root([*RANGE, LINES]), FUNCTION: subprogram(RANGE)}
    begins = [BASE + 2 * k for k in range(units)]
    below = [unit(entry(shapes, ROOT, begin, 2, 0) + entry(shapes, FUNCTION, begin, 2) + b"\0") for begin in begins]
    return dwarf(shapes, b"".join(below), line=rows)


@shape
def hits_of_each_unit_of_one_program(n):
    return covered(units_of_rows(n, plain_program(many_rows(32 * n))), [BASE + 2 * k for k in range(n)])


def rows_of_a_long_path(n):
    """A unit whose rows are each of another line: the texts of all of them have the path."""
    rows = b"".join(b"\x03\x01" + NEXT_ROW for _ in range(n))
    program = line_program(["/p", "/" + "p" * (16 * n)], [("a.c", 1)], b"\x04\x00" + set_address(BASE) + rows + END_SEQUENCE)
    shapes = {ROOT: root([*RANGE, LINES]), FUNCTION: subprogram(RANGE)}
    below = entry(shapes, ROOT, BASE, 2 * n, 0) + entry(shapes, FUNCTION, BASE, 2 * n) + b"\0"
    return dwarf(shapes, unit(below), line=program)


@shape
def lines_that_are_hit_of_a_file_of_a_long_path(n):
    return covered(rows_of_a_long_path(n), [BASE + k for k in range(n)])


def rows_of(image):
    """blz_rows, asked for a line of `a.c`."""
    return Attack(image, [BASE], program="blz_rows", question="a.c:1")


@shape
def rows_of_units_of_one_program(n):
    return rows_of(units_of_rows(n, plain_program(many_rows(32 * n))))


@shape
def rows_of_units_of_one_long_path(n):
    # the folder of each unit is the same long text
    shapes = {ROOT: root([*RANGE, LINES, (DW_AT_COMP_DIR, DW_FORM_STRP)], 0)}
    programs = [plain_program(set_address(BASE) + NEXT_ROW + END_SEQUENCE)] * n
    units = [unit(entry(shapes, ROOT, BASE, 4, at, 0)) for at in begins_of(programs)]
    return rows_of(dwarf(shapes, b"".join(units), line=b"".join(programs), str=long_text(4 * n)))


# ---- all lines


def lines_of(image, option=""):
    """blz_lines."""
    return Attack(image, [BASE], program="blz_lines", question=option)


@shape
def lines_of_units_of_one_program(n):
    return lines_of(units_of_rows(n, plain_program(many_rows(32 * n))))


@shape
def lines_of_a_file_of_a_long_path(n):
    return lines_of(rows_of_a_long_path(n))


@shape
def listed_rows_of_units_of_one_program(n):
    return lines_of(units_of_rows(n, plain_program(many_rows(32 * n))), "--rows")


@shape
def listed_rows_of_a_file_of_a_long_path(n):
    return lines_of(rows_of_a_long_path(n), "--rows")
