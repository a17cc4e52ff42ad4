"""Shapes of what units announce: one list of ranges, ranges over one another, and sets of address ranges."""
from images.image_parts import RANGE, entry, offset_pair, range_lists, unit
from attack.shapes.making import BASE, BASED_RANGES, RANGES, ROOT, Attack, announced_units, begins_of, dwarf, root, shape, some
from attack.shapes.ranges import pairs

# ---- one list


def units_at(lists, offsets, addresses):
    """A unit for each of some offsets within a list."""
    shapes = {ROOT: root(RANGES, 0)}
    data, first = range_lists(b"".join(lists) + b"\0")
    units = b"".join(unit(entry(shapes, ROOT, first + offset)) for offset in offsets)
    return Attack(dwarf(shapes, units, rnglists=data), addresses)


@shape
def one_range_list_of_units(n):
    return units_at(pairs(n), [0] * n, [0, 4 * (n // 2)])


@shape
def tails_of_a_range_list_of_units(n):
    lists = pairs(n)
    return units_at(lists, begins_of(lists), [0, 4 * (n // 2)])


@shape
def one_range_list_of_units_that_all_cover_an_address(n):
    return units_at([offset_pair(BASE + k, BASE + 2 * n - k) for k in range(n)], [0] * n, [BASE + n])


def units_with_bases(lists, bases, addresses):
    """A unit for each of some bases, from which the list counts that all of them name."""
    shapes = {ROOT: root(BASED_RANGES, 0)}
    data, first = range_lists(b"".join(lists) + b"\0")
    units = b"".join(unit(entry(shapes, ROOT, base, first)) for base in bases)
    return Attack(dwarf(shapes, units, rnglists=data), addresses)


@shape
def units_like_combs(n):
    # the ranges of each lie between those of all others, and no two share an address
    return units_with_bases(pairs(n, n), [BASE + k for k in range(n)], [BASE + n])


@shape
def units_like_combs_that_all_cover_an_address(n):
    # half of all units cover an address that is asked, each by another range
    combs = [offset_pair(2 * n * k, 2 * n * k + n) for k in range(n)]
    return units_with_bases(combs, [BASE + k for k in range(n)], [BASE + 2 * n * (n // 2) + n // 2])


# ---- a range of each


def units_of(spans, addresses, parts=lambda units: {}):
    """A unit of each span, and other sections that are made of the units."""
    shapes = {ROOT: root(RANGE, 0)}
    units = [unit(entry(shapes, ROOT, *span)) for span in spans]
    return Attack(dwarf(shapes, b"".join(units), **parts(units)), addresses)


@shape
def units_that_all_cover_an_address(n):
    return units_of([(BASE + k, 2 * (n - k)) for k in range(n)], [BASE + n] * 100)


@shape
def sets_of_address_ranges_out_of_order(n):
    spans = [(BASE + 4 * k, 4) for k in range(n)]
    asked = some([begin for begin, _ in spans])
    return units_of(spans, asked, lambda units: {"aranges": b"".join(reversed(announced_units(units, spans)))})
