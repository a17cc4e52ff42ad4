"""What the shapes of files that could be slow are made of, and the list of them."""
from typing import NamedTuple

from images.image_parts import (
    COPY, DW_AT_ABSTRACT_ORIGIN, DW_AT_EXTERNAL, DW_AT_LOW_PC, DW_AT_NAME, DW_AT_RANGES, DW_AT_SPECIFICATION, DW_AT_STMT_LIST,
    DW_FORM_ADDR, DW_FORM_FLAG_PRESENT, DW_FORM_REF4, DW_FORM_SEC_OFFSET, DW_FORM_STRING, DW_FORM_STRP, DW_TAG_COMPILE_UNIT,
    DW_TAG_INLINED_SUBROUTINE, DW_TAG_SUBPROGRAM, END_SEQUENCE, RANGE, SET_FILE_0, Abbreviation, Section, abbreviations, advance,
    announced, entry, image, line_program, set_address, unit)

MOST_ASKED = 10_000  # addresses of one run


class Attack(NamedTuple):
    """An image, and what a program is asked about it."""
    image: bytes
    addresses: list  # which blz_tool is asked for
    package: bytes = b""  # what stands beside it, with `.dwp` behind its path
    program: str = "blz_tool"
    question: str = ""  # a file and a line for blz_rows, an option of blz_lines
    listed: bytes = b""  # the stacks of blz_fold, the hits of blz_cover

    def size(self):
        return len(self.image) + len(self.package) + len(self.listed)

    def words(self, path):
        """The words of the program, where the image stands at a path and what is listed at that path with `.listed` behind it."""
        if self.program == "blz_tool":
            return [path, *[f"{address:#x}" for address in self.addresses]]
        if self.program == "blz_lines":
            return [*self.question.split(), path]
        return [path, self.question or path + ".listed"]


SHAPES = {}


def shape(make):
    """A function from a count to an Attack, whose size grows with the count."""
    SHAPES[make.__name__] = make
    return make


ROOT, FUNCTION, OUTER, CALL, TARGET, CHAIN, NAMED = 1, 2, 3, 4, 5, 6, 7
BASE = 0x1000
FLAG = (DW_AT_EXTERNAL, DW_FORM_FLAG_PRESENT)
# a text that tells nothing of a name
TEXT = (DW_AT_SPECIFICATION + 1, DW_FORM_STRING)
NAME, LONG_NAME = (DW_AT_NAME, DW_FORM_STRING), (DW_AT_NAME, DW_FORM_STRP)
LINES = (DW_AT_STMT_LIST, DW_FORM_SEC_OFFSET)
RANGES = [(DW_AT_RANGES, DW_FORM_SEC_OFFSET)]
# the ranges of a unit that count from a base of its own
BASED_RANGES = [(DW_AT_LOW_PC, DW_FORM_ADDR), *RANGES]
REFERENCE = (DW_AT_ABSTRACT_ORIGIN, DW_FORM_REF4)


def subprogram(attributes, has_children=0):
    return Abbreviation(DW_TAG_SUBPROGRAM, has_children, list(attributes))


def inlined(attributes, has_children=0):
    return Abbreviation(DW_TAG_INLINED_SUBROUTINE, has_children, list(attributes))


def root(attributes=RANGE, has_children=1):
    return Abbreviation(DW_TAG_COMPILE_UNIT, has_children, list(attributes))


def dwarf(shapes, units, **parts):
    """An image of units with one table of abbreviations, and other sections by their names without `.debug_`."""
    table = shapes if isinstance(shapes, bytes) else abbreviations(shapes)
    sections = {"abbrev": table, "info": units} | parts
    return image([Section(f".debug_{name}", data) for name, data in sections.items()])


def one_unit(shapes, *below, size=0x10000, **parts):
    """An image of one unit that covers `size` addresses from BASE."""
    return dwarf(shapes, unit(entry(shapes, ROOT, BASE, size) + b"".join(below) + b"\0"), **parts)


def lined_root():
    return root([*RANGE, LINES])


def one_row(size):
    """A line program of one row for so many addresses from BASE, without which no inlined call is asked."""
    return plain_program(set_address(BASE) + SET_FILE_0 + COPY + advance(size) + END_SEQUENCE)


def one_lined_unit(shapes, *below, size=0x10000, **parts):
    """The same with one row for all of its addresses; its root is lined_root()."""
    first = entry(shapes, ROOT, BASE, size, 0)
    return dwarf(shapes, unit(first + b"".join(below) + b"\0"), line=one_row(size), **parts)


def asked_units(shapes, values, below=lambda shapes, begin: b"", **parts):
    """Units of four addresses, each asked, with the values of each root behind its range, and what is made of its begin below it."""
    begins = [BASE + 4 * k for k in range(len(values))]
    units = [unit(entry(shapes, ROOT, begin, 4, *of_root) + below(shapes, begin) + b"\0") for begin, of_root in zip(begins, values)]
    return Attack(dwarf(shapes, b"".join(units), **parts), some(begins))


def announced_units(units, spans):
    """A set of address ranges of each unit, which tells its span."""
    return [announced(at, [span]) for at, span in zip(begins_of(units), spans, strict=True)]


def plain_program(opcodes):
    """A line program whose files 0 and 1, of which rows are at first, are both `a.c`."""
    return line_program(["/p"], [("a.c", 0)] * 2, opcodes)


def begins_of(parts):
    """Where each of some parts begins."""
    begins, at = [], 0
    for part in parts:
        begins.append(at)
        at += len(part)
    return begins


def some(addresses):
    """At most MOST_ASKED of some addresses, all over them."""
    return addresses[::-(-len(addresses) // MOST_ASKED)]
