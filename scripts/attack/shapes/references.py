"""Shapes of references from many entries to one, or to entries that overlap."""
from images.image_parts import (
    DW_AT_ABSTRACT_ORIGIN, DW_FORM_REF_ADDR, DW_FORM_STRING, DW_FORM_UDATA, DW_TAG_PARTIAL_UNIT, DW_UT_PARTIAL, ENTRIES_AT, RANGE,
    Abbreviation, entry, unit)
from attack.shapes.making import (
    BASE, CALL, CHAIN, FLAG, FUNCTION, NAME, OUTER, REFERENCE, ROOT, TARGET, TEXT, Attack, dwarf, inlined, lined_root,
    one_lined_unit, one_unit, root, shape, some, subprogram)

TO_ANOTHER_UNIT = (DW_AT_ABSTRACT_ORIGIN, DW_FORM_REF_ADDR)


def partial_root():
    return Abbreviation(DW_TAG_PARTIAL_UNIT, 1, [])


def referring(n, target, links=0):
    """n functions, each asked, that refer to one entry through a chain of entries."""
    shapes = {ROOT: root(), FUNCTION: subprogram([*RANGE, REFERENCE]), TARGET: target, CHAIN: subprogram([REFERENCE])}
    at = begin = ENTRIES_AT + len(entry(shapes, ROOT, 0, 0))
    below = entry(shapes, TARGET, *["f"] * sum(form == DW_FORM_STRING for _, form in target.attributes))
    for _ in range(links):
        at, below = begin + len(below), below + entry(shapes, CHAIN, at)
    functions = b"".join(entry(shapes, FUNCTION, BASE + 4 * k, 4, at) for k in range(n))
    return Attack(one_unit(shapes, below, functions, size=4 * n), some([BASE + 4 * k for k in range(n)]))


@shape
def references_to_an_entry_of_many_texts(n):
    # its name is the last of them
    return referring(n, subprogram([TEXT] * 4 * n + [NAME]))


@shape
def references_to_an_entry_of_one_long_text(n):
    # the text tells nothing, and has to be passed over
    shapes = {ROOT: root(), FUNCTION: subprogram([*RANGE, REFERENCE]), TARGET: subprogram([TEXT, NAME])}
    at = ENTRIES_AT + len(entry(shapes, ROOT, 0, 0))
    functions = b"".join(entry(shapes, FUNCTION, BASE + 4 * k, 4, at) for k in range(n))
    return Attack(one_unit(shapes, entry(shapes, TARGET, "t" * 17 * n, "f"), functions, size=4 * n), some([BASE + 4 * k for k in range(n)]))


@shape
def chains_of_references_to_an_entry_of_many_flags(n):
    return referring(n, subprogram([FLAG] * 8 * n), 15)


@shape
def references_to_entries_that_overlap(n):
    # each byte of a stretch is the code of an entry, whose attributes are the bytes behind it
    shapes = {ROOT: root(), FUNCTION: subprogram([*RANGE, REFERENCE]), TARGET: subprogram([(TEXT[0], DW_FORM_UDATA)] * 4 * n)}
    begin = ENTRIES_AT + len(entry(shapes, ROOT, 0, 0))
    stretch = bytes([TARGET]) * (2 * (4 * n + 1))
    functions = b"".join(entry(shapes, FUNCTION, BASE + 4 * k, 4, begin + k) for k in range(n))
    return Attack(one_unit(shapes, stretch, functions, size=4 * n), some([BASE + 4 * k for k in range(n)]))


@shape
def references_into_many_units_of_one_table(n):
    shapes = {ROOT: root(), FUNCTION: subprogram([*RANGE, TO_ANOTHER_UNIT]), TARGET: subprogram([NAME]), OUTER: partial_root()}
    # abbreviations that nothing uses make the table long
    shapes |= {100 + k: subprogram([FLAG]) for k in range(4 * n)}
    part = unit(entry(shapes, OUTER) + entry(shapes, TARGET, "f") + b"\0", DW_UT_PARTIAL)
    name_at = ENTRIES_AT + len(entry(shapes, OUTER))
    functions = b"".join(entry(shapes, FUNCTION, BASE + 4 * k, 4, len(part) * k + name_at) for k in range(n))
    main = unit(entry(shapes, ROOT, BASE, 4 * n) + functions + b"\0")
    return Attack(dwarf(shapes, part * n + main), some([BASE + 4 * k for k in range(n)]))


# ---- of calls


def function_with_a_call(shapes, begin, at):
    return entry(shapes, OUTER, "o", begin, 4) + entry(shapes, CALL, begin, 4, at) + b"\0"


@shape
def calls_of_an_entry_of_many_texts(n):
    shapes = {ROOT: lined_root(), OUTER: subprogram([NAME, *RANGE], 1), CALL: inlined([*RANGE, REFERENCE]),
              TARGET: subprogram([TEXT] * 4 * n + [NAME])}
    at = ENTRIES_AT + len(entry(shapes, ROOT, 0, 0, 0))
    begins = [BASE + 4 * k for k in range(n)]
    each = [function_with_a_call(shapes, begin, at) for begin in begins]
    return Attack(one_lined_unit(shapes, entry(shapes, TARGET, *["f"] * (4 * n + 1)), *each, size=4 * n), some(begins))
