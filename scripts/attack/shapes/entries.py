"""Shapes of attributes without bytes, of entries below entries, and of tables of abbreviations that units share."""
from images.image_parts import (
    DW_AT_ABSTRACT_ORIGIN, DW_AT_CALL_COLUMN, DW_AT_CALL_FILE, DW_AT_CALL_LINE, DW_AT_EXTERNAL, DW_AT_HIGH_PC, DW_AT_LOW_PC,
    DW_AT_NAME, DW_AT_RANGES, DW_AT_SPECIFICATION, DW_FORM_IMPLICIT_CONST, RANGE, abbreviation, entry, uleb, unit)
from attack.shapes.making import (
    BASE, CALL, FLAG, FUNCTION, NAME, OUTER, ROOT, Attack, dwarf, inlined, lined_root, one_lined_unit, one_unit, root, shape, some,
    subprogram)

# ---- attributes without bytes

# what a description reads
TELLING = [DW_AT_NAME, DW_AT_LOW_PC, DW_AT_HIGH_PC, DW_AT_ABSTRACT_ORIGIN, DW_AT_SPECIFICATION, DW_AT_RANGES,
           DW_AT_CALL_FILE, DW_AT_CALL_LINE, DW_AT_CALL_COLUMN]


def constants(names, n):
    """n attributes of some names in turn, with numbers that stand in the abbreviation."""
    return [(names[k % len(names)], DW_FORM_IMPLICIT_CONST, k % 64) for k in range(n)]


@shape
def functions_of_many_constants(n):
    shapes = {ROOT: root(), FUNCTION: subprogram(constants(TELLING, n))}
    return Attack(one_unit(shapes, bytes([FUNCTION]) * 2 * n), [BASE])


@shape
def calls_of_many_constants(n):
    calls = inlined(constants([DW_AT_CALL_LINE, DW_AT_CALL_FILE], n))
    shapes = {ROOT: lined_root(), OUTER: subprogram([NAME, *RANGE], 1), CALL: calls}
    below = entry(shapes, OUTER, "o", BASE, 0x10000) + bytes([CALL]) * 2 * n + b"\0"
    return Attack(one_lined_unit(shapes, below), [BASE + 1])


@shape
def units_of_many_flags(n):
    shapes = {ROOT: root([FLAG] * n, 0)}
    return Attack(dwarf(shapes, unit(entry(shapes, ROOT)) * (n // 6 + 1)), [0])


# ---- entries below entries


@shape
def functions_within_one_another(n):
    # each is asked, and what stands below it is read for its calls
    shapes = {ROOT: lined_root(), OUTER: subprogram(RANGE, 1)}
    begins = [BASE + 4 * k for k in range(n)]
    below = b"".join(entry(shapes, OUTER, begin, 4) for begin in begins) + b"\0" * n
    return Attack(one_lined_unit(shapes, below, size=4 * n), some(begins))


@shape
def calls_within_one_another(n):
    shapes = {ROOT: lined_root(), OUTER: subprogram(RANGE, 1), CALL: inlined(RANGE, 1)}
    below = entry(shapes, OUTER, BASE, 4 * n) + entry(shapes, CALL, BASE, 4 * n) * n + b"\0" * (n + 1)
    return Attack(one_lined_unit(shapes, below, size=4 * n), [BASE])


# ---- tables of abbreviations that units share


@shape
def units_of_one_table(n):
    table = b"".join(abbreviation(k + 1, root([FLAG], 0)) for k in range(3 * n)) + b"\0"
    return Attack(dwarf(table, unit(uleb(1)) * n), [0])


@shape
def units_of_tails_of_a_table(n):
    # each code is another one, since a code that stands twice ends the reading
    table, units = b"", []
    for code in range(n, 0, -1):
        units.append(unit(uleb(code), abbreviations_at=len(table)))
        table += abbreviation(code, root([FLAG], 0))
    return Attack(dwarf(table + b"\0", b"".join(units)), [0])


@shape
def units_of_one_table_without_an_end(n):
    table = b"".join(abbreviation(k + 1, root([FLAG], 0)) for k in range(3 * n))
    return Attack(dwarf(table, unit(uleb(1)) * n), [0])


@shape
def units_of_tables_that_overlap(n):
    # a code, a tag and no children where a table begins, and else an attribute, its form and its value
    each = bytes([DW_AT_EXTERNAL, DW_FORM_IMPLICIT_CONST, 0])
    units = [unit(bytes([DW_AT_EXTERNAL]), abbreviations_at=len(each) * k) for k in range(n)]
    return Attack(dwarf(each * 4 * n + bytes(3), b"".join(units)), [0])
