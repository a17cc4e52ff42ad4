"""Tests that need no tool: the picture of a flame graph, the help and the errors of each script, and texts of tools."""
import os
import re
import xml.dom.minidom

from backtrace_text import addresses, backtraces
from flow_test import SCRIPTS, equal, holds, needs, script, tried, write
from perf_text import NOT_NAMED, Places, Profile

WITH_FILE = {"stacks_of_perf": ["/bin/true"], "folded_of_perf": ["--text"], "hits_of_perf": ["/bin/true"],
             "hits_of_callgrind": ["/bin/true"], "lcov_of_cover": ["/bin/true"], "flame_graph": [], "trace": [], "breakpoints": [],
             "plain_debug": ["--to", "out"]}
FOLDED = """main;work;leaf 600
main;work 100
main;std::vector<int>::push_back(int&&) "x" 290
main;a_name_that_is_much_longer_than_its_box 10
"""
NODES = """1000 0 main
700 100 main;work
600 600 main;work;leaf
290 290 main;std::vector<int>::push_back(int&&) "x"
10 10 main;a_name_that_is_much_longer_than_its_box
"""


@needs()
def help_and_missing_files(folder):
    missing = os.path.join(folder, "missing")
    for name, words in WITH_FILE.items():
        path = os.path.join(SCRIPTS, name)
        helped = tried(path, "--help")
        holds(f"{name} --help", helped.status == 0 and "usage:" in helped.out and f"scripts/user/{name}" in helped.out)
        ran = tried(path, *words, missing, *(["a.c:1"] if name == "breakpoints" else []))
        is_named = ran.errors.startswith(f"{name}: ") and missing in ran.errors
        equal(f"{name} and a missing file", (ran.status, ran.out, len(ran.errors.splitlines()), is_named), (1, "", 1, True))
        equal(f"{name} and an unknown word", tried(path, "--nothing").status, 2)
    return f"{len(WITH_FILE)} scripts"


@needs()
def flame_graph_of_both_forms(folder):
    folded, nodes = script("flame_graph", text=FOLDED).out, script("flame_graph", "-", text=NODES).out
    equal("pictures", folded, nodes)
    boxes = {}
    for group in xml.dom.minidom.parseString(folded).getElementsByTagName("g"):
        title, text = group.getElementsByTagName("title")[0].firstChild.data, group.getElementsByTagName("text")[0].firstChild
        boxes[title.split(": ")[0]] = float(group.getElementsByTagName("rect")[0].getAttribute("width")), text.data if text else ""
    whole = boxes["main"][0] + 0.5
    counts = {"work": 700, "leaf": 600, "a_name_that_is_much_longer_than_its_box": 10, 'std::vector<int>::push_back(int&&) "x"': 290}
    for name, count in counts.items():
        holds(f"{name} is {boxes[name][0]} wide", abs(boxes[name][0] + 0.5 - whole * count / 1000) < 0.1)
    equal("names that fit", [boxes[name][1] for name in counts], ["work", "leaf", "", 'std::vector<int>::push_back(int&&) "x"'])
    for text in ("", "no count\n", "a;b 1\nc\n"):
        equal(f"status for {text!r}", tried(os.path.join(SCRIPTS, "flame_graph"), text=text).status, 1)
    return f"{len(boxes)} boxes, the same from nodes"


PERF = """prog 41 1.000001: PERF_RECORD_MMAP2 41/41: [0x400000(0x600000) @ 0 08:01 17 0]: r-xp /p/prog
prog 41 1.000002: PERF_RECORD_MMAP2 41/41: [0x7f0000001000(0x1000) @ 0x2000 08:01 18 0]: r-xp /p/lib.so (deleted)
prog 41 1.000003:     250000 cycles:u: 
\tffffffff81000130 asm_exc_page_fault+0x76 ([kernel.kallsyms])
\t          4c6010 square+0x10 (inlined)
\t          4c6010 leaf+0x10 (/p/prog)
\t          4c6010 square+0x10 (inlined)
\t          4c6010 leaf+0x10 (/p/prog)
\t          4c6080 clone+0x40 (inlined)
\t          4c60c0 part.0+0x40 (/p/prog)
\t          4c60c0 step+0x40 (inlined)
\t          4c60c0 part+0x40 (inlined)
\t          4c6100 main+0x20 (/p/prog)
\t          4c6100 main+0x20 (/p/prog)

My prog 7 41/42 [002] 1.000004: 1 cpu-clock:pppH:  7f0000001010 operator()(int)+0x10 (/p/lib.so (deleted))
"""


@needs()
def lines_of_perf_script(folder):
    profile = Profile(PERF.splitlines(True))
    places = Places(profile)
    first, second = profile.samples
    leaf, main = ("4c6010", "leaf", "/p/prog", ("square",)), ("4c6100", "main", "/p/prog", ())
    frames = [("ffffffff81000130", "asm_exc_page_fault", "[kernel.kallsyms]", ()), leaf, leaf,
              ("4c6080", "clone", NOT_NAMED, ()), ("4c60c0", "part", "/p/prog", ("step",)), main, main]
    equal("frames", [(f"{frame.addr:x}", frame.symbol, frame.module, frame.inlined) for frame in first.frames], frames)
    equal("places where both kinds can be", [places.place(first, frame) for frame in first.frames],
          [int(frame[0], 16) - (depth > 1) for depth, frame in enumerate(frames)])
    equal("a sample without call graph", (second.process, second.event, second.has_stack, places.place(second, second.frames[0])),
          ("41", "cpu-clock:pppH", False, 0x2010))
    return f"2 samples, {len(frames) + 1} frames"


BACKTRACES = """Thread 1 (LWP 7):
#0  0x0000000000401136 in square (number=3) at a.c:4
#1  0x0000000000401136 in leaf (number=3) at a.c:9
#2  0x0000000000401200 in fact (number=1) at a.c:12
#3  0x0000000000401200 in fact (number=2) at a.c:12
#4  <signal handler called>
#5  0x0000000000401300 in main () at a.c:20
Thread 2 (LWP 8):
#0  square (number=3) at a.c:4
#1  0x0000000000401200 in fact (number=1) at a.c:12
TID 9:
#0  0x00007f0000001000 clock_nanosleep
#1  0x0000000000401200 main
"""


@needs()
def lines_of_backtraces(folder):
    found = [addresses(stack) for stack in backtraces(BACKTRACES.splitlines(True))]
    equal("addresses", found, [[0x401136, 0x4011ff, 0x4011ff, 0x401300], None, [0x7f0000001000, 0x4011ff]])
    alone = BACKTRACES.partition("\n")[2].partition("Thread")[0]
    opened = "#0  0x401136 in square (number=3) at a.c:4\n4\treturn number;\n\n" + alone
    equal("a core", [addresses(stack) for stack in backtraces(opened.splitlines(True))], found[:1])
    text = write(folder, "text", BACKTRACES)
    maps = write(folder, "maps", f"00400000-00402000 r-xp 00000000 08:01 1 {os.path.realpath('/bin/true')}\n")
    stacks = os.path.join(SCRIPTS, "stacks_of_perf")
    ran = tried(stacks, "/bin/true", "--maps", maps, text)
    holds("a lost innermost frame is said", re.search(r"1 of 3 samples dropped: the innermost frame has no address", ran.errors))
    holds("maps without a mapping are refused", tried(stacks, "/bin/true", "--maps", text, text).status == 1)
    return "3 backtraces"
