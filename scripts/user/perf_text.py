"""Reads what `perf script` prints: mappings, samples and their frames, and which kind of addresses they are."""
import collections
import re
import typing

from flow_parts import Refused, lines_of, name_of, told
from mapped import Images, Mapping, mapping_at, real

MMAP = re.compile(r"^\s*\S.*PERF_RECORD_MMAP2? (-?\d+)/\S+ \[0x([0-9a-f]+)\(0x([0-9a-f]+)\) @ (?:0x)?([0-9a-f]+)[^\]]*\]: \S+ (.*)$")
RECORD = re.compile(r"PERF_RECORD_[A-Z_0-9]+")
SAMPLE = re.compile(r"^\s*\S.*?\s+(\d+)(?:/\d+)?\s+(?:\[\d+\]\s+)?[\d.]+:\s+(?:\d+\s+)?(\S+):(?:\s+(.*))?$")
FRAME = re.compile(r"^\s*([0-9a-f]+) (.*?)(?:\+0x([0-9a-f]+))?\s*\(([^()]*(?:\([^()]*\))?)\)$")
KERNEL = 1 << 63  # its addresses begin here
INLINED, NOT_NAMED = "inlined", "[no file without --no-inline]"


class Frame(typing.NamedTuple):
    """The module is what perf names in brackets, and begin where the symbol begins. The calls inlined into it, the innermost
    first, have lines of their own before it, with its address and the module `inlined`. Frames but the innermost and the one
    that the kernel interrupted are places behind a call."""
    addr: int
    symbol: str
    begin: int
    module: str
    is_behind: bool = False
    inlined: tuple = ()


class Sample(typing.NamedTuple):
    process: str
    event: str
    frames: list
    has_stack: bool


def frame_of(text):
    """A frame; None where the text is none. Perf prints `symbol+0xoffset`, or `[unknown]`."""
    if not (found := FRAME.match(text)):
        return None
    addr, symbol, offset, module = found.groups()
    return Frame(int(addr, 16), symbol, int(addr, 16) - int(offset or "0", 16), module)


def mapping_of(line):
    mapped = MMAP.match(line)
    if not mapped:
        return None
    process, begin, size, place, path = mapped.groups()
    return Mapping(int(begin, 16), int(begin, 16) + int(size, 16), int(place, 16), real(path), process)


class Profile:
    """The mappings and the samples of a text."""

    def __init__(self, lines):
        self.mappings, self.samples, self.lines, self.inlined, self.run = {}, [], 0, 0, []
        sample = None
        for line in lines:
            line, self.lines = line.rstrip("\n"), self.lines + 1
            if sample and (frame := frame_of(line)):
                self.add(sample, frame)
            else:
                self.end(sample)
                sample = self.begun(line)
        self.end(sample)

    def begun(self, line):
        """The sample whose frames follow; a sample without a call graph has its one frame in the same line."""
        if mapped := mapping_of(line):
            self.mappings.setdefault(mapped.path, []).append(mapped)
        if RECORD.search(line) or not (found := SAMPLE.match(line)):
            return None
        process, event, rest = found.groups()
        frame = frame_of(rest) if rest else None
        self.samples.append(Sample(process, event, [frame] if frame else [], not rest))
        return None if rest else self.samples[-1]

    def add(self, sample, line):
        if self.run and self.run[0].addr != line.addr:
            self.end(sample)
        self.run.append(line)

    def end(self, sample):
        """Makes frames of the lines of one address. With inlined calls a frame has several, and so have more frames of that
        address, of a function that calls itself. Its last line is the function itself, which perf says is inlined too where
        the debug information has another name for it, as for `leaf.constprop.0`; another line may name the file then."""
        run, self.run = self.run, []
        size = 1
        if any(line.module == INLINED for line in run):
            said = [(line.symbol, line.module) for line in run]
            size = next(size for size in range(1, len(run) + 1) if said == said[:size] * (len(run) // size))
            self.inlined += len(run)
        for at in range(0, len(run), size):
            *calls, function = run[at:at + size]
            module = next((line.module for line in run[at:at + size] if line.module != INLINED), INLINED)
            inlined = tuple(call.symbol for call in calls if call.module == INLINED)
            is_behind = bool(sample.frames) and sample.frames[-1].addr < KERNEL
            sample.frames.append(function._replace(module=module, is_behind=is_behind, inlined=inlined))


def profile_of(path, event):
    """What a text has, `-` for standard input, of one event or of all; refused where it has no sample."""
    profile = Profile(lines_of(path))
    if not profile.samples:
        raise Refused(f"{name_of(path)}: no sample of perf script in {profile.lines} lines")
    if profile.inlined:
        told("perf added inlined calls, which may hide or double a frame: perf script --no-inline adds none")
    events = collections.Counter(sample.event for sample in profile.samples)
    listed = ", ".join(f"{name} {count}" for name, count in events.most_common())
    if event:
        profile.samples = [sample for sample in profile.samples if sample.event == event]
        if not profile.samples:
            raise Refused(f"{name_of(path)}: no sample of {event}, but of {listed}")
    elif len(events) > 1:
        told(f"samples of several events are added up; --event takes one of them: {listed}")
    return profile


def event_word(parser):
    parser.add_argument("--event", metavar="EVENT", help="takes the samples of this event alone, as `cycles:u`")


class Places:
    """Turns frames into places of the files. Perf prints the frames of a call graph as such places, and the one of a sample
    without it as an address of the process; some versions print addresses for all. The mappings decide for all frames of
    each of the two kinds together: the kind that more frames can be, and as said where both can be."""

    def __init__(self, profile):
        self.mappings, self.images, self.known = profile.mappings, Images(), {}
        self.are_places = {has_stack: self.decided(profile, has_stack) for has_stack in (True, False)}
        for sample in profile.samples:
            for at, frame in enumerate(sample.frames):
                if frame.module == INLINED:
                    sample.frames[at] = frame._replace(module=self.module_of(frame))

    def decided(self, profile, has_stack):
        place, address = 0, 0
        for sample in profile.samples:
            for frame in sample.frames if sample.has_stack == has_stack else ():
                mapped = self.mappings.get(real(frame.module), ())
                place += any(each.place <= frame.addr < each.place + each.end - each.begin for each in mapped)
                address += any(each.begin <= frame.addr < each.end for each in mapped)
        return place >= address if has_stack else place > address

    def module_of(self, frame):
        """The file of a function that perf says is inlined: the one that is mapped at its address, or the only one in which a
        function of such a name begins at its place."""
        known = frame.begin, frame.symbol
        if known not in self.known:
            if self.are_places[True]:
                found = {path for path in self.mappings if self.begins_in(path, frame)}
            else:
                found = {path for path, mappings in self.mappings.items() if mapping_at(mappings, frame.addr)}
            self.known[known] = found.pop() if len(found) == 1 else NOT_NAMED
        return self.known[known]

    def begins_in(self, path, frame):
        """Symbols have the words of the name that perf prints, which is demangled."""
        image = self.images.of(path)
        symbol = image.functions().named.get(image.address_of(frame.begin)) if image else None
        return symbol and any(word in symbol[0] for word in re.findall(r"\w+", frame.symbol.partition("(")[0]))

    def place(self, sample, frame):
        """The place in the file that the frame names; None where no mapping has it. From places behind a call 1 is taken, so
        that they lie in it."""
        addr = frame.addr - frame.is_behind
        if self.are_places[sample.has_stack]:
            return addr
        mapped = [each for each in self.mappings.get(real(frame.module), ()) if each.begin <= addr < each.end]
        chosen = next((each for each in mapped if each.process == sample.process), mapped[0] if mapped else None)
        return None if chosen is None else addr - chosen.begin + chosen.place

    def said(self, profile):
        kinds = {True: "places in the files", False: "addresses of the process"}
        stacks = {sample.has_stack for sample in profile.samples if sample.frames}
        return " and ".join(sorted(f"{kinds[self.are_places[has]]} {'in call graphs' if has else 'in samples without call graph'}"
                                   for has in stacks))
