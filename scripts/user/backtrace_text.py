"""Reads backtraces as eu-stack and gdb print them: `#0`, `#1`, .. with an address each."""
import itertools
import re
import typing

NUMBERED = re.compile(r"^#(\d+)\s+(?:0x([0-9a-f]+)\s+)?(?:in\s+)?(.*)$")
SIGNAL = "<signal handler called>"


class Line(typing.NamedTuple):
    number: int
    addr: typing.Optional[int]
    name: str


def backtraces(lines):
    """The lines of each backtrace."""
    stacks, headed, is_headed = [], [], False
    for line in lines:
        is_headed |= line.startswith(("Thread ", "TID "))
        if numbered := NUMBERED.match(line):
            number, addr, rest = numbered.groups()
            if number == "0" or not stacks:
                stacks.append([])
                headed.append(is_headed)
                is_headed = False
            name = SIGNAL if rest.startswith(SIGNAL) else rest.split(" ", 1)[0]
            stacks[-1].append(Line(int(number), int(addr, 16) if addr else None, name))
    return [stack for stack, has_head, following in zip(stacks, headed, stacks[1:] + [[]])
            if has_head or not opens(stack, following)]


def opens(stack, following):
    """Whether a line is what gdb prints where it opens a core: the innermost frame, ahead of the backtrace that has it."""
    return (len(stack) == 1 < len(following) and stack[0].name == following[0].name
            and stack[0].addr in (None, following[0].addr))


def addresses(stack):
    """The address of each frame of a backtrace, the innermost first; None where the innermost has none. A line without an
    address belongs to the frame inside of it, into which another was inlined; lines of one address are one frame with its
    inlined calls, and as many frames as they name the last of them. Frames but the innermost, and the one that a signal
    interrupted, are places behind a call, which 1 is taken from, so that they lie in it."""
    if stack[0].addr is None:
        return None
    found, is_exact = [], True
    placed = [line for line in stack if line.addr is not None or line.name == SIGNAL]
    for addr, group in itertools.groupby(placed, key=lambda line: line.addr):
        names = [line.name for line in group]
        if addr is None or names[-1] == SIGNAL:
            is_exact = True
            continue
        for _ in range(names.count(names[-1])):
            found.append(addr - (0 if is_exact else 1))
            is_exact = False
    return found
