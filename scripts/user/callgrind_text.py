"""Reads what callgrind wrote: how often each instruction of an image was executed."""
import collections
import os
import re

from flow_parts import Refused, lines_of, name_of

NAMED = re.compile(r"(c?ob)=(?:\((\d+)\)(?: (.*))?|(.*))$")
HOW = "run valgrind --tool=callgrind with --dump-instr=yes"


class Counted:
    """The counts by image and address of the files that were read. A name is beside its number where it comes first; an
    address may be told by its difference to the one before, or by `*` where it is the same; the line behind `calls=` has what
    the callee cost, and the one behind a jump has no cost."""

    def __init__(self):
        self.counts = collections.defaultdict(collections.Counter)

    def read(self, path):
        self.names, self.image, self.addr, self.passed = {}, "", 0, False
        self.positions, self.events, self.lines, self.part = ["line"], [], 0, None
        for line in lines_of(path):
            self.lines += 1
            try:
                self.line(line.rstrip("\n"))
            except (ValueError, IndexError):
                raise Refused(f"{name_of(path)}: line {self.lines} is none of callgrind: {line.strip()[:60]}") from None
            except Refused as refused:
                raise Refused(f"{name_of(path)}: {refused}") from None
        if not self.events:
            raise Refused(f"{name_of(path)}: no text of callgrind, which has a line `events:`")
        if self.part is not None:
            raise Refused(f"{name_of(path)}: it does not end with `totals:`: callgrind did not write all of it")

    def line(self, line):
        if line[:1] in "0123456789+-*" and line and self.part is not None:
            self.cost(line.split())
        elif named := NAMED.match(line):
            word, number, name, plain = named.groups()
            if name:
                self.names[number] = os.path.realpath(name)
            if word == "ob":
                self.image = self.names[number] if number else os.path.realpath(plain)
        elif line.startswith(("calls=", "jump=", "jcnd=")):
            self.passed = True
        elif line.startswith(("positions:", "events:")):
            self.header(*line.split(":", 1))
        elif line.startswith("totals:"):
            self.end(int(line.split()[1 + self.at - len(self.positions)]))

    def header(self, word, listed):
        if word == "positions":
            self.positions = listed.split()
        else:
            self.events, self.part = listed.split(), 0
            if self.positions[0] != "instr":
                raise Refused(f"it tells no addresses of instructions: {HOW}")
            if "Ir" not in self.events:
                raise Refused(f"no count of executed instructions (Ir) among its events: {' '.join(self.events)}")
            self.at = len(self.positions) + self.events.index("Ir")

    def end(self, told):
        """A file may have several parts, which end with the sum of their counts."""
        if self.part != told:
            raise Refused(f"{self.part} instructions up to line {self.lines}, where callgrind tells {told}")
        self.part = None

    def cost(self, words):
        place = words[0]
        if place.startswith(("+", "-")):
            self.addr += int(place)
        elif place != "*":
            self.addr = int(place, 16)
        if not self.passed and len(words) > self.at:
            self.counts[self.image][self.addr] += int(words[self.at])
            self.part += int(words[self.at])
        self.passed = False

    def total(self):
        return sum(counts.total() for counts in self.counts.values())

    def of(self, path):
        counts = self.counts.get(os.path.realpath(path))
        if not counts:
            images = ", ".join(sorted(filter(None, self.counts))) or "no image"
            raise Refused(f"nothing was counted in {path}, but in {images}"[:500])
        return counts
