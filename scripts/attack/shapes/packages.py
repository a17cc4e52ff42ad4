"""Shapes of skeletons and of the package in which their split units stand."""
import struct

from images.image_parts import (
    DW_SECT_ABBREV, DW_SECT_INFO, DW_TAG_SKELETON_UNIT, DW_TAG_VARIABLE, DW_UT_SKELETON, DW_UT_SPLIT_COMPILE, RANGE, Abbreviation,
    Section, abbreviation, abbreviations, entry, image, uleb, unit)
from attack.shapes.making import BASE, FLAG, FUNCTION, NAME, ROOT, TEXT, Attack, dwarf, root, shape, some, subprogram


def slots_of(identities):
    """The place of each id in the slots of an index, all of which are full (DWARF 5 section 7.3.5.3)."""
    slots = len(identities)
    order = [None] * slots
    for row, identity in enumerate(identities, 1):
        at, step = identity & (slots - 1), ((identity >> 32) & (slots - 1)) | 1
        while order[at] is not None:
            at = (at + step) & (slots - 1)
        order[at] = (identity, row)
    return order


def package(identities, contributions, abbrev):
    """A package of units. Of each contribution there are the entries, and the place and the size of its tables of abbreviations."""
    columns, order = [DW_SECT_INFO, DW_SECT_ABBREV], slots_of(identities)
    index = struct.pack("<HHIII", 5, 0, len(columns), len(order), len(order))
    index += b"".join(struct.pack("<Q", identity) for identity, _ in order)
    index += b"".join(struct.pack("<I", row) for _, row in order)
    index += struct.pack("<II", *columns)
    offsets, sizes, info = [], [], []
    at = 0
    for entries, table_at, table_size in contributions:
        offsets.append(struct.pack("<II", at, table_at))
        sizes.append(struct.pack("<II", len(entries), table_size))
        info.append(entries)
        at += len(entries)
    return image([Section(".debug_info.dwo", b"".join(info)), Section(".debug_abbrev.dwo", abbrev), Section(
        ".debug_cu_index", index + b"".join(offsets) + b"".join(sizes))])


def skeletons(asked, split):
    """A skeleton of each id that is asked, beside a package."""
    shapes = {ROOT: Abbreviation(DW_TAG_SKELETON_UNIT, 0, list(RANGE))}
    units = [unit(entry(shapes, ROOT, BASE + 4 * k, 4), DW_UT_SKELETON, unit_id=identity) for k, identity in enumerate(asked)]
    return Attack(dwarf(shapes, b"".join(units)), some([BASE + 4 * k for k in range(len(asked))]), split)


def identities_for(n):
    """As many ids as the power of two at n or above it, none of which is sought where another stands."""
    return [(k << 40) | k for k in range(1 << max(n - 1, 1).bit_length())]


def split_units(identities, more=None):
    """A package of a unit of one function for each id; with more abbreviations all have one table."""
    below = {ROOT: root([], 1), FUNCTION: subprogram([NAME, *RANGE])} | (more or {})
    table = abbreviations(below)
    units = [unit(entry(below, ROOT) + entry(below, FUNCTION, "f", BASE + 4 * k, 4) + b"\0", DW_UT_SPLIT_COMPILE, unit_id=identity)
             for k, identity in enumerate(identities)]
    places = [0 if more else len(table) * k for k in range(len(units))]
    contributions = [(entries, at, len(table)) for entries, at in zip(units, places, strict=True)]
    return package(identities, contributions, table if more else table * len(units))


def skeletons_of_one(n, shapes, below):
    """n skeletons of a split unit, which stands in the last slot."""
    table = abbreviations(shapes)
    contribution = (unit(entry(shapes, ROOT) + below + b"\0", DW_UT_SPLIT_COMPILE, unit_id=1), 0, len(table))
    return skeletons([1] * n, package([2, 1], [(b"", 0, len(table)), contribution], table))


@shape
def skeletons_of_one_split_unit(n):
    shapes = {ROOT: root([], 1), FUNCTION: subprogram(RANGE)}
    return skeletons_of_one(n, shapes, b"".join(entry(shapes, FUNCTION, BASE + 4 * k, 4) for k in range(n)))


@shape
def skeletons_of_one_split_unit_of_variables(n):
    # nothing of them is kept, and each is passed over by itself
    shapes = {ROOT: root([], 1), FUNCTION: Abbreviation(DW_TAG_VARIABLE, 0, [TEXT])}
    return skeletons_of_one(n, shapes, entry(shapes, FUNCTION, "") * (16 * n))


@shape
def a_package_with_full_slots(n):
    # none of the ids that are asked is there, so that each search goes through all slots
    return skeletons([(1 << 62) | (1 << 31) | k for k in range(n)], split_units(identities_for(n)))


@shape
def split_units_of_contributions_that_overlap(n):
    # each has a tail of one table, the shortest first
    identities = identities_for(n)
    places, parts = [], []
    size = 0
    for code in range(len(identities), 0, -1):
        places.append((code, size))
        parts.append(abbreviation(code, root([FLAG], 0)))
        size += len(parts[-1])
    units = [unit(uleb(code), DW_UT_SPLIT_COMPILE, unit_id=identity) for identity, (code, _) in zip(identities, places[::-1])]
    contributions = [(entries, at, size + 1 - at) for entries, (_, at) in zip(units, places[::-1])]
    return skeletons(identities[:n], package(identities, contributions, b"".join(parts) + b"\0"))
