"""Which image of a process an address belongs to, and where it lies in it."""
import os
import re
import typing

from elf_view import Elf
from flow_parts import Refused, lines_of

PROC = re.compile(r"^([0-9a-f]+)-([0-9a-f]+) (\S+) ([0-9a-f]+) \S+ \S+\s*(.*)$")
GDB = re.compile(r"^\s+0x([0-9a-f]+)\s+0x([0-9a-f]+)\s+0x[0-9a-f]+\s+0x([0-9a-f]+)\s+(?:[-rwxps]+\s+)?(\S.*)$")
DELETED = " (deleted)"


class Mapping(typing.NamedTuple):
    begin: int
    end: int
    place: int
    path: str
    process: str = ""


def real(path, known={}):
    """The path without links; kept, since it is asked for each frame."""
    if path not in known:
        path_there = path[:-len(DELETED)] if path.endswith(DELETED) else path
        is_path = path_there.startswith(("/", ".")) and "\0" not in path_there
        known[path] = os.path.realpath(path_there) if is_path else path_there
    return known[path]


def mapping_in(line):
    """The mapping that a line of /proc/PID/maps or of gdb's `info proc mappings` tells; None where it tells no file."""
    if mapped := PROC.match(line):
        begin, end, _, place, file = mapped.groups()
    elif mapped := GDB.match(line):
        begin, end, place, file = mapped.groups()
    return Mapping(int(begin, 16), int(end, 16), int(place, 16), real(file)) if mapped and file else None


def mappings_of(path):
    """The mappings of a copy of /proc/PID/maps, or of what gdb prints for `info proc mappings`."""
    found = [mapped for line in lines_of(path) if (mapped := mapping_in(line.rstrip("\n")))]
    if not found:
        raise Refused(f"{path}: no mapping of a file, as /proc/PID/maps has them")
    return found


class Images:
    """Images by path, each read once; None where it can't be read."""

    def __init__(self):
        self.known = {}

    def of(self, path):
        path = real(path)
        if path not in self.known:
            try:
                self.known[path] = Elf(path) if os.path.isfile(path) else None
            except (Refused, OSError):
                self.known[path] = None
        return self.known[path]


def mapping_at(mappings, addr):
    return next((mapped for mapped in mappings if mapped.begin <= addr < mapped.end), None)
