"""Shapes of lists of ranges that functions and calls share, and of functions and calls over one another."""
from images.image_parts import DW_RLE_START_LENGTH, RANGE, entry, offset_pair, range_lists, unit
from attack.shapes.making import (
    BASE, CALL, FUNCTION, LINES, OUTER, RANGES, ROOT, Attack, announced_units, begins_of, dwarf, inlined, lined_root,
    one_lined_unit, one_row, one_unit, root, shape, some, subprogram)


def pairs(count, step=4):
    """A list of ranges of one address each, so far apart."""
    return [offset_pair(step * k, step * k + 1) for k in range(count)]


# ---- functions of one unit


def functions_at(lists, offsets):
    """A function for each of some offsets within a list."""
    shapes = {ROOT: root(), FUNCTION: subprogram(RANGES)}
    data, first = range_lists(lists + b"\0")
    return Attack(one_unit(shapes, *[entry(shapes, FUNCTION, first + offset) for offset in offsets], rnglists=data), [BASE + 1])


@shape
def one_range_list_of_functions(n):
    return functions_at(b"".join(pairs(n)), [0] * n)


@shape
def tails_of_a_range_list_of_functions(n):
    lists = pairs(n)
    return functions_at(b"".join(lists), begins_of(lists))


@shape
def range_lists_of_functions_at_each_byte(n):
    # from each byte on it is a list of ranges of 7 addresses, but for the last, which have none
    return functions_at(bytes([DW_RLE_START_LENGTH]) * n + bytes(10), range(n))


# ---- calls of one unit


def calls_at(lists, offsets, nested):
    """A call for each of some offsets within a list, all beside or below one another."""
    shapes = {ROOT: lined_root(), OUTER: subprogram(RANGE, 1), CALL: inlined(RANGES, nested)}
    data, first = range_lists(lists + b"\0")
    calls = b"".join(entry(shapes, CALL, first + offset) for offset in offsets)
    below = entry(shapes, OUTER, BASE, 0x10000) + calls + b"\0" * (nested * len(offsets) + 1)
    return Attack(one_lined_unit(shapes, below, rnglists=data), [BASE + 1])


@shape
def one_range_list_of_calls(n):
    return calls_at(b"".join(pairs(n)), [0] * n, 0)


@shape
def one_range_list_of_calls_within_one_another(n):
    return calls_at(b"".join(pairs(n)), [0] * n, 1)


def call_of_each_function(lists, offsets):
    """Functions, each with a call that names the list at an offset, and each asked."""
    shapes = {ROOT: lined_root(), OUTER: subprogram(RANGE, 1), CALL: inlined(RANGES)}
    data, first = range_lists(lists + b"\0")
    begins = [BASE + 4 * k for k in range(len(offsets))]
    each = [entry(shapes, OUTER, begin, 4) + entry(shapes, CALL, first + offset) + b"\0" for begin, offset in zip(begins, offsets)]
    return Attack(one_lined_unit(shapes, *each, size=4 * len(begins), rnglists=data), some(begins))


@shape
def one_range_list_of_a_call_of_each_function(n):
    return call_of_each_function(b"".join(pairs(n)), [0] * n)


# ---- a function or a call of each unit


def each_unit(n, lists, below):
    """n units, each asked, with what is made of the offset of the lists, the begin of the unit and its number."""
    shapes = {ROOT: root([*RANGE, LINES]), OUTER: subprogram(RANGE, 1), FUNCTION: subprogram(RANGES), CALL: inlined(RANGES)}
    data, first = range_lists(lists + b"\0")
    spans = [(BASE + 4 * k, 4) for k in range(n)]
    units = [unit(entry(shapes, ROOT, *span, 0) + below(shapes, first, span, k) + b"\0") for k, span in enumerate(spans)]
    parts = {"rnglists": data, "aranges": b"".join(announced_units(units, spans)), "line": one_row(4 * n)}
    return Attack(dwarf(shapes, b"".join(units), **parts), some([begin for begin, _ in spans]))


@shape
def one_range_list_of_a_function_of_each_unit(n):
    return each_unit(n, b"".join(pairs(n)), lambda shapes, first, span, k: entry(shapes, FUNCTION, first))


@shape
def tails_of_a_range_list_of_a_function_of_each_unit(n):
    lists = pairs(n)
    begins = begins_of(lists)
    return each_unit(n, b"".join(lists), lambda shapes, first, span, k: entry(shapes, FUNCTION, first + begins[k]))


# ---- over one another


def ranged_functions(spans, addresses):
    shapes = {ROOT: root(), FUNCTION: subprogram(RANGE)}
    size = max(begin + length for begin, length in spans) - BASE
    return Attack(one_unit(shapes, *[entry(shapes, FUNCTION, *span) for span in spans], size=size), addresses)


@shape
def functions_side_by_side(n):
    # a question for each
    return ranged_functions([(BASE + 4 * k, 4) for k in range(n)], some([BASE + 4 * k for k in range(n)]))


@shape
def functions_that_all_cover_an_address(n):
    return ranged_functions([(BASE + k, 2 * (n - k)) for k in range(n)], [BASE + n + k % n for k in range(10_000)])
