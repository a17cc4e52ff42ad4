"""Tests of the flows about single places: breakpoints beside gdb's own, reports beside llvm-symbolizer and the sanitizer,
and debug files without compression beside llvm-symbolizer."""
import collections
import concurrent.futures
import glob
import os
import random
import re

from elf_view import Elf
from flow_parts import Refused, answered
from flow_test import IMAGES, Skipped, asked, built, equal, functions, holds, needs, run, script, tried, write
from flow_test_counts import HEADER, OTHER, PRIMES, TEMPLATES
from flow_test_profiles import RECURSIVE, SOURCE


GCC = ("gcc", "g++")
VIRTUAL = """#include <cstdio>
struct Base {
    int kept;
    Base(int number) : kept(number) { std::puts("made"); }
    virtual ~Base() { kept = 0; }
    virtual int get() const { return kept; }
};
struct Left : virtual Base { Left() : Base(1) { kept += 1; } };
struct Right : virtual Base { Right() : Base(2) { kept += 2; } };
struct Both : Left, Right {
    Both() : Base(7) {
        kept += 3;
    }
    ~Both() override {
        std::puts("gone");
    }
};
static int global = std::puts("begun");
static Both both;
static int risky(int number) {
    try {
        if (number > 2)
            throw number;
        return number;
    } catch (int caught) {
        return -caught;
    }
}
int main(int argc, char **argv) {
    auto add = [&](int one) {
        int sum = one + argc;
        return sum + both.get();
    };
    Base *made = new Both();
    delete made;
    return add(risky(argc)) + risky(9) == global;
}
"""


def rows_by_line(path, names):
    """The addresses of the rows of each line, as readelf tells them."""
    listed, found = run("readelf", "--debug-dump=decodedline", path).out, collections.defaultdict(set)
    for name, line, addr in re.findall(r"^(\S+)\s+(\d+)\s+0x([0-9a-f]+)", listed, re.M):
        if name in names and line != "0":
            found[name, int(line)].add(int(addr, 16))
    return found


def stops_of_gdb(path, places):
    """The addresses where gdb stops for each place, before the program runs."""
    words = ["-ex", "set breakpoint pending off"]
    for name, line in places:
        for word in (f"echo @{name}:{line}\\n", f"break {name}:{line}", "info breakpoints", "delete"):
            words += ["-ex", word]
    found = {}
    for place, part in zip(places, run("gdb", "-nx", "-batch", *words, path).out.split("@")[1:]):
        listed = part[part.find("Num "):] if "Num " in part else ""
        found[place] = {int(addr, 16) for addr in re.findall(r"^\d+(?:\.\d+)?\s.*?(0x[0-9a-f]+) in ", listed, re.M)}
    return found


def our_stops(path, place):
    """The line that was taken, and the addresses."""
    ran = script("breakpoints", path, "{}:{}".format(*place))
    taken = re.search(r"line (\d+) is taken", ran.errors)
    return int(taken.group(1)) if taken else place[1], {int(line.split()[0], 16) for line in ran.out.splitlines()}


def compared_breakpoints(path, names):
    """By line: our addresses, those of gdb, and those of all rows of the line that was taken."""
    rows = rows_by_line(path, names)
    theirs = stops_of_gdb(path, sorted(rows))
    with concurrent.futures.ThreadPoolExecutor(4) as pool:
        ours = dict(zip(rows, pool.map(lambda place: our_stops(path, place), rows)))
    return {place: (ours[place][1], theirs[place], rows[place[0], ours[place][0]]) for place in sorted(rows)}


def programs(folder, compilers, *options):
    """Programs of C and C++, and the names of their sources."""
    c, cpp = compilers
    write(folder, "clamp.h", HEADER)
    yield built(folder, "primes", PRIMES, write(folder, "other.c", OTHER), *options, compiler=c), {"primes.c", "other.c", "clamp.h"}
    yield built(folder, "deep", RECURSIVE, *options, compiler=c), {"deep.c"}
    yield built(folder, "sorted", SOURCE, *options, compiler=c), {"sorted.c"}
    yield built(folder, "templates", TEMPLATES, *options, compiler=cpp), {"templates.cc"}
    yield built(folder, "virtual", VIRTUAL, *options, compiler=cpp), {"virtual.cc"}


@needs("gdb", "gcc", "g++", "readelf", "blz_rows", "blz_tool")
def breakpoints_beside_gdb(folder):
    stops = lines = 0
    for options in (("-O0",), ("-O0", "-fstack-protector-all", "-fcf-protection", "-no-pie")):
        for path, names in programs(folder, GCC, *options):
            found = compared_breakpoints(path, names)
            equal(f"breakpoints of {os.path.basename(path)} {options}", {place: each[0] for place, each in found.items()},
                  {place: each[1] for place, each in found.items()})
            stops, lines = stops + sum(len(ours) for ours, _, _ in found.values()), lines + len(found)
    return f"{stops} breakpoints at {lines} lines as gdb sets them"


@needs("gdb", "clang", "clang++", "readelf", "blz_rows", "blz_tool")
def breakpoints_of_clang_beside_gdb(folder):
    stops = lines = more = 0
    for path, names in programs(folder, ("clang", "clang++"), "-O0"):
        for place, (ours, theirs, _) in compared_breakpoints(path, names).items():
            holds(f"{os.path.basename(path)} {place}: {ours} are gdb's, {theirs}", ours and ours <= theirs)
            stops, lines, more = stops + len(ours), lines + 1, more + len(theirs - ours)
    return f"{stops} breakpoints at {lines} lines are gdb's, which sets {more} more, for other blocks of a function"


@needs("gdb", "gcc", "g++", "readelf", "blz_rows", "blz_tool")
def breakpoints_of_optimised_programs(folder):
    lines = same = stops = 0
    for path, names in programs(folder, GCC, "-O2"):
        for place, (ours, theirs, rows) in compared_breakpoints(path, names).items():
            holds(f"{place}: {ours} are rows, {rows}", ours <= rows)
            lines, same, stops = lines + 1, same + (ours == theirs), stops + len(ours)
    return f"{stops} breakpoints at {lines} lines are rows of readelf; at {same} of the lines gdb sets them too, which passes over " \
           "rows that begin no statement"


@needs("gdb", "gcc", "blz_rows", "blz_tool")
def breakpoints_that_gdb_runs_into(folder):
    write(folder, "clamp.h", HEADER)
    told = []
    for options in ((), ("-no-pie",)):
        path = built(folder, "program", PRIMES, write(folder, "other.c", OTHER), "-O0", *options)
        places = ["program.c:8", "program.c:16", "clamp.h:1"]
        stops = write(folder, "stops", script("breakpoints", "--gdb", path, *places).out)
        ignored = [word for number in (1, 2, 3) for word in ("-ex", f"ignore {number} 100000")]
        ours = run("gdb", "-nx", "-batch", "-x", stops, *ignored, "-ex", "continue", "-ex", "info breakpoints", path).out
        own = [word for place in places for word in ("-ex", f"break {place}")]
        theirs = run("gdb", "-nx", "-batch", *own, *ignored, "-ex", "run", "-ex", "info breakpoints", path).out
        hits = [re.findall(r"^\d .* in (\w+) at (\S+)\n\tbreakpoint already hit (\d+) time", text, re.M) for text in (ours, theirs)]
        equal("hits of each breakpoint", *hits)
        holds("all were hit", len(hits[0]) == 3)
        told.append(sum(int(count) for _, _, count in hits[0]))
    return f"3 breakpoints, hit {told[0]} and {told[1]} times as gdb's own"


@needs("gcc", "blz_rows", "blz_tool")
def breakpoints_of_unknown_files(folder):
    path = built(folder, "program", SOURCE)
    for place, told, status in [("programme.c:3", "no line of a file programme.c has code", 1), ("program.c", "not FILE:LINE", 2),
                                ("program.c:900", "from 900 on has code", 1), ("program.c:1", "line 11 is taken", 0)]:
        ran = tried("scripts/user/breakpoints", path, place)
        equal(place, (ran.status, told in ran.errors), (status, True))
    base = script("breakpoints", "--base", "555555554000", path, "program.c:14").out
    equal("with a base", int(base.split()[0], 16), int(script("breakpoints", path, "program.c:14").out.split()[0], 16) + 0x555555554000)
    return "4 places without code, and a base"


BACKTRACE = """#include <execinfo.h>
#include <stdio.h>
static void copy(const char *from, const char *to) {
    FILE *in = fopen(from, "r"), *out = fopen(to, "w");
    for (int letter; (letter = getc(in)) != EOF;)
        putc(letter, out);
    fclose(out);
}
static inline __attribute__((always_inline)) void show(void) {
    void *at[20];
    int count = backtrace(at, 20);
    backtrace_symbols_fd(at, count, 1);
    for (int index = 0; index < count; index++)
        printf("frame %d: %p\\n", index, at[index]);
}
__attribute__((noinline)) int deep(int number) {
    if (number == 0) {
        show();
        return 1;
    }
    return deep(number - 1) + 1;
}
int main(int count, char **words) {
    copy("/proc/self/maps", words[1]);
    setvbuf(stdout, 0, _IONBF, 0);
    return deep(count + 1) == 0;
}
"""


def symbolized(path, addresses):
    """What llvm-symbolizer answers: function, file and line of each frame, the innermost first."""
    text = run("llvm-symbolizer", "--no-demangle", "-e", path, *map(hex, addresses)).out
    found = []
    for part in text.strip("\n").split("\n\n"):
        lines = part.splitlines()
        found.append([(name, *place.rsplit(":", 2)[:2]) for name, place in zip(lines[::2], lines[1::2])])
    return found


def frames_of(text):
    """The same in what scripts/user/trace wrote at a place."""
    return [tuple(re.match(r"(\S+) at (.*):(\d+):\d+$", frame).groups()) for frame in text.split(", inlined in ")]


@needs("gcc", "llvm-symbolizer", "blz_tool")
def trace_of_a_backtrace(folder):
    path, maps = built(folder, "program", BACKTRACE, "-O1", "-fno-optimize-sibling-calls"), os.path.join(folder, "maps")
    text = tried(path, maps, folder=folder).out
    ran = script("trace", "--maps", maps, "--returns", text=text)
    places = [int(addr, 16) - 1 for addr in re.findall(rf"^{path}\(\+0x([0-9a-f]+)\)", text, re.M)]
    theirs = [frames for frames in symbolized(path, places) if frames[0][1] != "??"]
    frame = r"(\S+ at [^\[\n]*)"
    for kind, pattern in (("module(+0x..)", rf"^{frame}\["), ("absolute", rf"^frame \d+: {frame}$")):
        equal(f"frames of {kind}", [frames_of(found) for found in re.findall(pattern, ran.out, re.M)], theirs)
    other = "no address\x80\xff here: 0x12, a\0b+0x1182 and /nowhere/program+0x1182\n\n"
    left = script("trace", "--maps", maps, text=other)
    equal("other bytes", (left.out, "/nowhere/program: no image" in left.errors), (other, True))
    begin = next(addr for addr, name in functions(path).items() if name == "deep")
    both = script("trace", text=f"{path}(deep+0x9)[\n{path}+0x{begin + 8:x}[\n").out.splitlines()
    equal("a function and an offset", both[0], both[1])
    fixed = built(folder, "fixed", BACKTRACE, "-O1", "-fno-optimize-sibling-calls", "-no-pie")
    text = tried(fixed, maps, folder=folder).out
    places = [int(addr, 16) - 1 for addr in re.findall(rf"^{fixed}\[0x([0-9a-f]+)\]", text, re.M)]
    ours = [frames_of(found) for found in re.findall(rf"^{frame}$", script("trace", text=text.replace("[", "() [", 1)).out, re.M)]
    equal("frames of module[..]", ours, [frames for frames in symbolized(fixed, places) if frames[0][1] != "??"])
    return f"{len(theirs)} frames in two forms, {len(ours)} of a fixed program, as llvm-symbolizer names them"


with open(os.path.join(IMAGES, "overrun.c")) as text:
    BROKEN = text.read()


@needs("gcc", "blz_tool")
def trace_of_a_sanitizer(folder):
    try:
        path = built(folder, "program", BROKEN, "-O1", "-fsanitize=address", "-fno-optimize-sibling-calls")
    except AssertionError:
        raise Skipped("gcc has no sanitizer here") from None
    plain = tried(path, ASAN_OPTIONS="symbolize=0").errors
    own = tried(path, ASAN_OPTIONS="symbolize=1").errors
    text = script("trace", text=plain).out
    theirs = [found for found in re.findall(r"^    #\d+ \S+ in (\S+) (\S+):(\d+)$", own, re.M) if found[1].startswith(folder)]
    if not theirs:
        raise Skipped("the sanitizer names nothing itself here")
    ours = [frame for found in re.findall(r"^    #\d+ \S+  \((\S+ at .*)\)$", text, re.M) for frame in frames_of(found)]
    equal("frames", [frame for frame in ours if frame[1].startswith(folder)], theirs)
    return f"{len(theirs)} names and lines as the sanitizer's own"


PANIC = """#[inline(never)]
fn deep(number: u32) -> u32 {
    if number == 0 {
        panic!("no more");
    }
    deep(number - 1) + 1
}
fn main() {
    std::fs::write(std::env::args().nth(1).unwrap(), std::fs::read("/proc/self/maps").unwrap()).unwrap();
    println!("{}", deep(2));
}
"""


@needs("rustc", "blz_tool")
def trace_of_a_Rust_panic(folder):
    path, maps = os.path.join(folder, "program"), os.path.join(folder, "maps")
    run("rustc", "-g", "-o", path, write(folder, "program.rs", PANIC), folder=folder)
    text = tried(path, maps, RUST_BACKTRACE="full").errors
    ours, theirs = collections.defaultdict(set), collections.defaultdict(set)
    for addr, place in re.findall(r"^\s*\d+:\s+(0x[0-9a-f]+) - .*\n\s+at (\S+:\d+:\d+)$", text, re.M):
        if place.startswith(("/rustc/", folder)):
            theirs[addr].add(place)
    named = script("trace", "--maps", maps, "--returns", text="".join(f"{addr}\n" for addr in theirs)).out
    for addr, line in zip(theirs, named.splitlines()):
        ours[addr] = {place for place in re.findall(r" at (\S+:\d+:\d+)(?=, inlined in |$)", line) if ":0:0" not in place}
    equal("places by address", ours, theirs)
    return f"{len(theirs)} addresses, {sum(map(len, theirs.values()))} places as Rust's own backtrace"


@needs("gdb", "gcc", "blz_tool")
def trace_of_a_core(folder):
    path, core = built(folder, "program", RECURSIVE, "-O2", "-fno-optimize-sibling-calls"), os.path.join(folder, "core")
    run("gdb", "-nx", "-batch", "-ex", "break touch", "-ex", "run", "-ex", f"generate-core-file {core}", "-ex", "kill", path)
    text = run("gdb", "-nx", "-batch", "-ex", "info proc mappings", "-ex", "bt -frame-info location-and-address", path, core).out
    said = write(folder, "mappings", text)
    named = script("trace", "--maps", said, "--returns", said).out
    equal("lines without a frame", *[[line for line in each.splitlines() if line[:1] != "#"] for each in (named, text)])
    ours, theirs = collections.defaultdict(set), collections.defaultdict(set)
    frame = re.compile(r"^#\d+\s+(.*) in (\S+) \(.* at \S*?(\w+\.c:\d+)$", re.M)
    for found, (addr, name, place) in zip(frame.findall(named), frame.findall(text), strict=True):
        theirs[addr].add((name, place))
        ours[addr] |= {(name, f"{os.path.basename(file)}:{line}") for name, file, line in frames_of(found[0])}
    equal("frames by address", ours, theirs)
    return f"{sum(map(len, theirs.values()))} names and lines of {len(theirs)} addresses as gdb's"


MOST = 120  # of the installed files


def addresses_of(path, count):
    """Some addresses in functions, picked the same in each run."""
    picked, functions = random.Random(1), Elf(path).functions()
    begins = picked.choices(functions.begins, k=count) if functions.begins else []
    return sorted({picked.randrange(begin, functions.named[begin][1]) for begin in begins})


def compared_names(copy, folder, debug, addresses):
    """How many addresses have the same line as llvm-symbolizer tells for the debug file."""
    words = [f"{addr:x}" for addr in addresses]
    answers = asked("blz_tool", "--lines", "--debug-dirs", folder, copy, *words).splitlines()
    ours = [re.search(r":(\d+):\d+$", line) for line in answers]
    theirs = [frames[0][2] for frames in symbolized(debug, addresses)]
    return sum((found.group(1) if found else "0") == line for found, line in zip(ours, theirs))


@needs("objcopy", "llvm-symbolizer", "blz_tool")
def plain_debug_of_installed_files(folder):
    files = {}
    for path in sorted(glob.glob("/usr/lib/*-linux-gnu/*.so*") + glob.glob("/usr/bin/*") + glob.glob("/usr/lib/*-linux-gnu/gconv/*.so")):
        try:
            build_id = Elf(path).build_id() if os.path.isfile(path) and os.path.getsize(path) < 5_000_000 else ""
        except Refused:
            continue
        debug = f"/usr/lib/debug/.build-id/{build_id[:2]}/{build_id[2:]}.debug"
        if build_id and os.path.exists(debug) and Elf(debug).is_compressed():
            files.setdefault(build_id, (os.path.realpath(path), debug))
    if not files:
        raise Skipped("no compressed debug file is installed")
    chosen = sorted(random.Random(1).sample(sorted(files.values()), min(MOST, len(files))))
    copies = script("plain_debug", "--to", folder, *[path for path, _ in chosen]).out.splitlines()
    answered, same, count = 0, 0, 0
    for copy, (path, debug) in zip(copies, chosen):
        plain = f"{copy}.plain.debug"
        addresses = addresses_of(plain, 40)
        if not addresses:
            continue
        same, count, answered = same + compared_names(copy, folder, plain, addresses), count + len(addresses), answered + 1
    holds(f"lines of {count - same} of {count} addresses differ", same * 100 >= count * 97)
    return f"{len(chosen)} copies, {answered} of them with functions answer, {same} of {count} addresses have the line of llvm-symbolizer"


def shared_debug_files(folder, paths):
    """Takes the debug information out of programs, into compressed files that share one; how many of them do."""
    beside = os.path.join(folder, ".debug")
    os.mkdir(beside)
    debugs, shared = [os.path.join(beside, f"{os.path.basename(path)}.debug") for path in paths], os.path.join(beside, "shared")
    for path, debug in zip(paths, debugs):
        run("objcopy", "--only-keep-debug", path, debug)
    run("dwz", "-m", shared, "-r", *debugs, folder=beside)
    for debug in (*debugs, shared):
        run("objcopy", "--compress-debug-sections", debug)
    for path, debug in zip(paths, debugs):
        run("strip", "-g", path)
        run("objcopy", f"--add-gnu-debuglink={debug}", path)
    holds("the files are compressed", Elf(shared).is_compressed() and all(Elf(debug).is_compressed() for debug in debugs))
    return sum(Elf(debug).link(".gnu_debugaltlink") is not None for debug in debugs)


def answers(copy, folder, addresses):
    """What blz_tool answers for a copy, as llvm-symbolizer tells it."""
    found = answered(copy, addresses, "--debug-dirs", folder)
    return [[(frame.name, frame.path or "??", str(frame.line)) for frame in reversed(found[addr])] for addr in addresses]


@needs("objcopy", "dwz", "gcc", "strip", "llvm-symbolizer", "blz_tool")
def plain_debug_of_a_shared_file(folder):
    write(folder, "clamp.h", HEADER)
    other = write(folder, "more.c", OTHER)
    paths = [built(folder, "one", PRIMES, "-O1", other), built(folder, "two", PRIMES, "-O1", other), built(folder, "three", SOURCE, "-O1")]
    addresses = {path: addresses_of(path, 40) for path in paths}
    theirs = {path: symbolized(path, addresses[path]) for path in paths}
    linked = shared_debug_files(folder, paths)
    to = os.path.join(folder, "plain")
    for path, copy in zip(paths, script("plain_debug", "--to", to, *paths).out.splitlines()):
        equal(f"answers of {copy}", answers(copy, to, addresses[path]), theirs[path])
    names = sum(map(len, sum(theirs.values(), [])))
    return f"3 programs, {names} names and lines as llvm-symbolizer told before, {linked} debug files with a shared one"
