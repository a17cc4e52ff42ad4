"""The crates of this repository, as crates.txt lists them, and the sources of its programs."""
import hashlib
import re
from pathlib import Path

TOP = Path(__file__).resolve().parent.parent
PROGRAMS = ("blz_tool", "blz_fold", "blz_rows", "blz_cover", "blz_lines", "blz_find")


def read_crates(top=TOP):
    """Returns the libraries that each crate uses, those of the kit too."""
    rows = re.findall(r"(?m)^(\w+)[^:#\n]*:([^#\n]*)", (top / "crates.txt").read_text())
    return {name: uses.split() for name, uses in rows}


def made_of(name, crates):
    """Returns the crates of the repository that a crate is made of, lowest first, itself last."""
    found = {}

    def visit(it):
        if it in crates and it not in found:
            for use in crates[it]:
                visit(use)
            found[it] = True

    visit(name)
    return [*found]


def sources(names):
    """Returns the files of these crates that a program's code is in."""
    return [file for name in names for file in sorted((TOP / "crates" / name / "src").rglob("*.rt"))]


def sum_of(names, crates, *more):
    """Returns the checksum of these crates' code and libraries, and of more bytes."""
    found = hashlib.sha256(repr([(it, crates[it]) for it in names]).encode())
    for it in more:
        found.update(hashlib.sha256(it).digest())
    for file in sources(names):
        found.update(f"{file.relative_to(TOP)} {hashlib.sha256(file.read_bytes()).hexdigest()}\n".encode())
    return found.hexdigest()
