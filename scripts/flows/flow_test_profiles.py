"""Tests of the flows from perf, gdb and eu-stack to stacks of names: numbers of samples beside those of perf's own report,
names of backtraces beside those that the debugger prints."""
import collections
import os
import re
import subprocess
import time

from flow_test import IMAGES, Skipped, asked, built, counts_of, equal, functions, holds, needs, run, script, tried, write

with open(os.path.join(IMAGES, "profiled.c")) as text:
    SOURCE = text.read()
INLINED = {"square"}


def recorded(folder, path, *options):
    """What perf recorded of a run; by the processor's clock, which machines without its counters have too."""
    data = os.path.join(folder, "perf.data")
    ran = tried("perf", "record", "-e", "cpu-clock", "-F", "2000", *options, "-o", data, path, folder=folder)
    if ran.status:
        raise Skipped(f"perf record fails here: {ran.errors.strip().splitlines()[0][:120]}")
    return data


def script_of(data, *options):
    return run("perf", "script", "-i", data, "--show-mmap-events", *options).out


def reported(data, sort, event=""):
    """The samples, or those of one event, by what perf's own report sorts them by."""
    text = run("perf", "report", "-i", data, "--no-children", "-g", "none", "--no-inline", "--sort", sort, "-n", "--stdio").out
    text = next((part for part in text.split("of event ") if event and part.startswith(f"'{event}'")), text)
    return {name.strip(): int(count) for count, name in re.findall(r"^\s+[\d.]+%\s+(\d+)\s+(\S.*)$", text, re.M)}


def original(symbol):
    """The name of a function whose copy the compiler gave a longer one."""
    return symbol.partition(".")[0]


def by_last(folded, known):
    """The samples by the last name of their stacks that was not inlined."""
    found = collections.Counter()
    for stack, count in folded.items():
        names = [name for name in stack.split(";") if name not in INLINED]
        found[names[-1] if names[-1] in known else "elsewhere"] += count
    return found


def compared_with_report(folder, path, data):
    """Folded stacks of a text with inlined lines and of one without, beside perf's report; the numbers that were compared."""
    text, inlined = script_of(data, "--no-inline"), script_of(data)
    stacks = script("stacks_of_perf", path, text=text)
    equal("stacks without and with inlined lines", stacks.out, script("stacks_of_perf", path, text=inlined).out)
    equal("hits without and with them", script("hits_of_perf", path, text=text).out, script("hits_of_perf", path, text=inlined).out)
    known = {original(name) for name in functions(path).values()}
    holds("the function of the loop has a symbol of another name", "leaf.constprop.0" in functions(path).values())
    folded = counts_of(script("folded_of_perf", path, text=text).out)
    theirs = collections.Counter()
    for name, count in reported(data, "sym").items():
        theirs[original(name[4:]) if original(name[4:]) in known else "elsewhere"] += count
    equal("samples by function", by_last(folded, known), theirs)
    alone = counts_of(asked("blz_fold", path, write(folder, "stacks", stacks.out)))
    in_image = sum(count for stack, count in folded.items() if any(name in known for name in stack.split(";")))
    equal("samples with a frame of the image", sum(alone.values()), in_image)
    holds("the loop of square is a frame of its own", sum(count for stack, count in alone.items() if stack.endswith("leaf;square")))
    return sum(theirs.values()), len(theirs.keys() & known), theirs["leaf"]


@needs("perf", "gcc", "nm", "blz_tool", "blz_fold")
def perf_stacks_of_a_program(folder):
    path = built(folder, "program", SOURCE, "-O2")
    total, names, leaf = compared_with_report(folder, path, recorded(folder, path, "--call-graph", "dwarf"))
    return f"{total} samples of {names} functions as in perf report, {leaf} of leaf, the same with --no-inline and without"


@needs("perf", "gcc", "nm", "blz_tool", "blz_fold")
def perf_stacks_of_a_fixed_program_above_4_MB(folder):
    path = built(folder, "program", SOURCE, "-O2", "-no-pie", "-DFAR")
    total, names, leaf = compared_with_report(folder, path, recorded(folder, path, "--call-graph", "dwarf"))
    return f"{total} samples of {names} functions as in perf report, {leaf} of leaf, none of filler"


@needs("perf", "gcc", "nm", "blz_tool", "blz_fold")
def perf_stacks_by_frame_pointers(folder):
    path = built(folder, "program", SOURCE, "-O2", "-fno-omit-frame-pointer")
    total, names, leaf = compared_with_report(folder, path, recorded(folder, path, "--call-graph", "fp"))
    return f"{total} samples of {names} functions as in perf report, {leaf} of leaf"


SORTING = """#include <algorithm>
#include <cstdio>
#include <functional>
#include <vector>
struct Heavy {
    std::vector<int> items;
    __attribute__((noinline)) Heavy(int count) {
        for (int index = 0; index < count; index++)
            items.push_back(index * 7919 % 10007);
    }
};
static __attribute__((noinline)) int fold(const std::function<int(int)> &step, int count) {
    int sum = 0;
    for (int index = 0; index < count; index++)
        sum += step(index);
    return sum;
}
int main() {
    long sum = 0;
    for (int round = 0; round < 100; round++) {
        Heavy heavy(20000);
        std::sort(heavy.items.begin(), heavy.items.end(), [](int one, int other) { return one % 5000 < other % 5000; });
        sum += heavy.items[round] + fold([round](int index) { return (index ^ round) % 7; }, 20000);
    }
    std::printf("%ld\\n", sum);
}
"""


@needs("perf", "g++")
def perf_samples_of_templates(folder):
    path = built(folder, "program", SORTING, "-O2", compiler="g++")
    data = recorded(folder, path, "--call-graph", "dwarf")
    plain, inlined = script_of(data, "--no-inline"), script_of(data)
    hits = script("hits_of_perf", path, text=plain).out
    equal("hits without and with inlined lines", script("hits_of_perf", path, text=inlined).out, hits)
    samples = sum(int(line.split()[1]) for line in hits.splitlines())
    equal("samples in the program", samples, reported(data, "dso")["program"])
    stacks, others = (collections.Counter({stack: int(count) for count, stack in map(str.split, script(
        "stacks_of_perf", path, text=text).out.splitlines())}) for text in (plain, inlined))
    differ = (stacks - others).total()
    holds(f"{differ} of {stacks.total()} stacks differ", stacks.total() == others.total() and differ * 20 <= samples)
    return f"{samples} samples in the program as in perf report, {differ} of {stacks.total()} stacks not the same with " \
           f"{inlined.count('(inlined)')} inlined lines"


def as_addresses(text):
    """A text of perf whose call graphs have addresses of the process in place of places in the files."""
    mapped, out = collections.defaultdict(list), []
    for line in text.splitlines(True):
        if found := re.search(r"\[0x([0-9a-f]+)\(0x([0-9a-f]+)\) @ (?:0x)?([0-9a-f]+).*\]: \S+ (/.*)$", line):
            mapped[found.group(4)].append(tuple(int(word, 16) for word in found.groups()[:3]))
        elif (found := re.match(r"(\s+)([0-9a-f]+)( .*\((/\S+)\))$", line)) and found.group(4) in mapped:
            place = int(found.group(2), 16)
            begin, at = next((begin, at) for begin, size, at in mapped[found.group(4)] if at <= place < at + size)
            line = f"{found.group(1)}{place - at + begin:x}{found.group(3)}\n"
        out.append(line)
    return "".join(out)


@needs("perf", "gcc")
def perf_texts_with_addresses_of_the_process(folder):
    path = built(folder, "program", SOURCE, "-O2")
    text = script_of(recorded(folder, path, "--call-graph", "dwarf"), "--no-inline")
    places, addresses = script("stacks_of_perf", path, text=text), script("stacks_of_perf", path, text=as_addresses(text))
    holds("the kind is said", "places in the files" in places.errors and "addresses of the process" in addresses.errors)
    equal("stacks", addresses.out, places.out)
    return f"{sum(int(line.split()[0]) for line in places.out.splitlines())} samples, the same stacks from both kinds"


@needs("perf", "gcc", "blz_tool")
def perf_stacks_over_all_images(folder):
    path = built(folder, "program", SOURCE, "-O2")
    data = recorded(folder, path, "--call-graph", "dwarf")
    text = script_of(data, "--no-inline")
    folded = counts_of(script("folded_of_perf", path, text=text).out)
    modules = reported(data, "dso")
    libraries = {name for name in modules if name.endswith((".so.6", ".so.2"))}
    ours = {name: sum(count for stack, count in folded.items() if stack.endswith(f"[{name}]")) for name in libraries}
    equal("samples by library", ours, {name: modules[name] for name in libraries})
    everything = counts_of(script("folded_of_perf", text=text).out)
    equal("samples of all images", sum(everything.values()), sum(modules.values()))
    said = script("stacks_of_perf", path, text=text).errors
    outside = re.search(r"(\d+) of \d+ samples ended outside", said)
    lost = sum(int(count) for count in re.findall(r"(\d+) of \d+ samples dropped", said))
    equal("what ended outside", int(outside.group(1)) + lost, sum(modules.values()) - modules["program"])
    return f"{sum(everything.values())} samples, of them " + ", ".join(f"{name} {count}" for name, count in sorted(ours.items()))


LIBRARY = """static inline __attribute__((always_inline)) unsigned mix(unsigned number) {
    for (unsigned index = 0; index < 40; index++)
        number = number * 31 + (number >> 3) + index;
    return number;
}
__attribute__((noinline)) unsigned NAME(unsigned count, unsigned (*next)(unsigned)) {
    unsigned sum = 0;
    for (unsigned index = 0; index < count; index++)
        sum += mix(index ^ sum);
    return sum + (next ? next(count) : 0);
}
"""
MAIN = """unsigned inner(unsigned count, unsigned (*next)(unsigned));
static unsigned back(unsigned count) {
    return outer(count, 0);
}
int main(void) {
    unsigned sum = 0;
    for (unsigned round = 0; round < 1500; round++)
        sum += inner(1000 + round % 7, back);
    return sum == 1;
}
"""


@needs("perf", "gcc", "nm", "blz_tool")
def perf_stacks_of_two_images(folder):
    library = built(folder, "libinner.so", LIBRARY.replace("NAME", "inner"), "-O2", "-shared", "-fPIC")
    told = []
    for options in ((), ("-no-pie",)):
        path = built(folder, "program", LIBRARY.replace("NAME", "outer") + MAIN, "-O2", *options, "-Wl,--no-as-needed", library)
        data = recorded(folder, path, "--call-graph", "dwarf")
        folded = counts_of(script("folded_of_perf", path, library, text=script_of(data, "--no-inline")).out)
        theirs = {name: reported(data, "sym")[f"[.] {name}"] for name in ("inner", "outer")}
        ours = {name: sum(count for stack, count in folded.items() if re.search(f"(^|;){name}(;mix)?$", stack)) for name in theirs}
        equal("samples by function", ours, theirs)
        holds("calls are inlined in both", all(any(stack.endswith(f"{name};mix") for stack in folded) for name in theirs))
        told.append(" and ".join(map(str, theirs.values())))
    return f"{'; '.join(told)} samples in a library and in a program, loaded anywhere and fixed, as perf report"


@needs("perf", "gcc")
def perf_samples_that_are_lost_are_said(folder):
    path, other = built(folder, "program", SOURCE, "-O2"), built(folder, "other", SOURCE, "-O1")
    data = recorded(folder, path)
    text = script_of(data)
    lost = tried("scripts/user/stacks_of_perf", other, text=text)
    total = sum(reported(data, "dso").values())
    dropped = sum(int(count) for count in re.findall(r"(\d+) of \d+ samples dropped: no frame of", lost.errors))
    equal("status and samples of another image", (lost.status, lost.out, dropped), (1, "", total))
    plain = script("stacks_of_perf", path, text=text)
    single = sum(int(line.split()[0]) for line in plain.out.splitlines())
    equal("samples without a call graph", single, reported(data, "dso")["program"])
    unmapped = tried("scripts/user/stacks_of_perf", path, text="\n".join(line for line in text.splitlines() if "RECORD" not in line))
    holds("want of mappings is said", unmapped.status == 1 and "no mapping has their addresses" in unmapped.errors)
    return f"{total} samples of another image, {single} without call graph"


@needs("perf", "gcc")
def perf_samples_of_one_event(folder):
    path, told = built(folder, "program", SOURCE, "-O2"), []
    data = recorded(folder, path, "-e", "task-clock")
    text = script_of(data)
    for event in ("cpu-clock", "task-clock"):
        ours = script("hits_of_perf", "--event", event, path, text=text).out
        told.append(sum(int(line.split()[1]) for line in ours.splitlines()))
        equal(f"samples of {event}", told[-1], reported(data, "dso", event)["program"])
    both = script("hits_of_perf", path, text=text)
    equal("samples of both", sum(int(line.split()[1]) for line in both.out.splitlines()), sum(told))
    holds("several events are told", "several events" in both.errors and tried(
        "scripts/user/hits_of_perf", "--event", "cycles", path, text=text).status == 1)
    return f"{told[0]} and {told[1]} samples of two events as perf report"


RECURSIVE = """#include <stdlib.h>
#include <unistd.h>
#define APART __attribute__((noinline))
volatile int kept;
static inline __attribute__((always_inline)) void touch(int number) {
    for (int index = 0; index < 3; index++)
        kept += number * index;
    if (getenv("WAIT"))
        pause();
}
APART int deep(int number) {
    if (number == 0) {
        touch(number);
        return 1;
    }
    return deep(number - 1) + 1;
}
APART int other(int number) { return deep(number) + 1; }
int main(void) { return other(4); }
"""

NO_MORE_INLINED = ("-fno-optimize-sibling-calls", "-fno-inline-functions", "-fno-inline-small-functions")


def names_of_gdb(text):
    """The functions of each backtrace that gdb printed, the outermost first."""
    found = []
    for number, name in re.findall(r"^#(\d+)\s+(?:0x[0-9a-f]+ )?(?:in )?(\S+) \(", text, re.M):
        if number == "0":
            found.append([])
        found[-1].append(name)
    return [";".join(reversed(names)) for names in found]


@needs("gdb", "gcc", "blz_fold")
def gdb_backtraces(folder):
    path = built(folder, "program", RECURSIVE, "-O2", "-fno-ipa-cp", *NO_MORE_INLINED)
    trace = "bt -frame-info location-and-address"
    stops = ["break other", "break deep", "break touch", "run", "info proc mappings", *[trace, "continue"] * 7]
    words = [word for stop in stops for word in ("-ex", stop)]
    text = tried("gdb", "-nx", "-batch", *words, path).out
    said = write(folder, "traces", text)
    folded = counts_of(asked("blz_fold", path, write(folder, "stacks", script("stacks_of_perf", path, "--maps", said, said).out)))
    names = collections.Counter(names_of_gdb(text))
    holds("inlined calls and recursion were seen", any("deep;deep;touch" in name for name in names))
    ours = collections.Counter()
    for stack, count in folded.items():
        ours[stack.removeprefix("_start;")] += count
    equal("backtraces by their names", ours, names)
    return f"{sum(names.values())} backtraces, {len(names)} stacks of names as gdb prints them"


@needs("eu-stack", "gcc", "blz_fold")
def eu_stack_of_a_process(folder):
    path = built(folder, "program", RECURSIVE, "-O2", *NO_MORE_INLINED)
    with subprocess.Popen([path], env=os.environ | {"WAIT": "1"}) as process:
        time.sleep(0.5)
        with open(f"/proc/{process.pid}/maps") as maps:
            mapped = write(folder, "maps", maps.read())
        ran = tried("eu-stack", "-p", str(process.pid))
        process.kill()
    if "deep" not in ran.out:
        raise Skipped(f"eu-stack sees no process here: {ran.errors.strip()[:120]}")
    text = write(folder, "trace", ran.out)
    folded = asked("blz_fold", path, write(folder, "stacks", script("stacks_of_perf", path, "--maps", mapped, text).out)).split()
    frames = re.findall(r"^#\d+\s+0x[0-9a-f]+ (\S+)$", ran.out, re.M)
    theirs = [name for name in reversed(frames) if name in ("_start", "main", "other", "deep")]
    equal("names but inlined ones", [name for name in folded[0].split(";") if name != "touch"], theirs)
    return f"1 backtrace, {len(theirs)} frames as eu-stack names them, and its inlined call"
