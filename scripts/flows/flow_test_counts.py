"""Tests of the flows to counts by line: callgrind's own totals, gcov's executions, perf's samples by line, and lcov, which
reads what is written."""
import collections
import json
import os
import re

from flow_test import LISTING, Skipped, asked, built, counts_of, equal, functions, holds, needs, run, script, tried, write
from flow_test_profiles import SOURCE, recorded, reported, script_of

HEADER = """static inline int clamp(int value, int least, int most) {
    if (value < least)
        return least;
    return value > most ? most : value;
}
"""
PRIMES = """#include "clamp.h"
#include <stdio.h>
#include <stdlib.h>
static int is_prime(int number) {
    if (number < 2)
        return 0;
    for (int divisor = 2; divisor * divisor <= number; divisor++) {
        if (number % divisor == 0)
            return 0;
    }
    return 1;
}
static int count_primes(int most) {
    int count = 0;
    for (int number = 0; number < most; number++)
        count += is_prime(clamp(number, 3, 250));
    return count;
}
static int unused(int number) {
    return number + 1;
}
int other(int number);
int main(int argc, char **argv) {
    int most = argc > 1 ? atoi(argv[1]) : 300;
    if (most < 0) {
        puts("no number");
        return unused(most);
    }
    switch (count_primes(most) & 3) {
        case 0: puts("zero"); break;
        case 1: puts("one"); break;
        default: puts("more");
    }
    do {
        most--;
    } while (most > 100 && most % 7);
    return argc > 9 ? other(most) : 0;
}
"""
OTHER = """int other(int number) {
    int sum = 0;
    while (number --> 0)
        sum += number;
    return sum;
}
"""
TEMPLATES = """#include <cstdio>
#include <vector>
template <typename Item> static void sort(std::vector<Item> &items) {
    for (unsigned end = items.size(); end > 1; end--)
        for (unsigned index = 1; index < end; index++)
            if (items[index] < items[index - 1]) {
                Item kept = items[index];
                items[index] = items[index - 1];
                items[index - 1] = kept;
            }
}
struct Sum {
    long total;
    void add(long more) {
        total += more;
    }
};
int main() {
    std::vector<int> numbers;
    std::vector<long> others;
    for (int index = 0; index < 30; index++) {
        numbers.push_back(index * 7919 % 101);
        others.push_back(index * 104729 % 11);
    }
    sort(numbers);
    sort(others);
    Sum sum{0};
    for (int number : numbers)
        sum.add(number);
    std::printf("%ld\\n", sum.total);
    return 0;
}
"""


def primes(folder, *options):
    """A program of two sources and a header; the second is never entered."""
    write(folder, "clamp.h", HEADER)
    return built(folder, "program", PRIMES, write(folder, "other.c", OTHER), "-O0", *options)


def counted(path, folder, *options, name="counted"):
    """What callgrind wrote of a run, and the instructions that it says it counted."""
    out = os.path.join(folder, name)
    ran = run("valgrind", "--tool=callgrind", *options, f"--callgrind-out-file={out}", path, folder=folder)
    return out, int(re.search(r"Collected : (\d+)", ran.errors).group(1))


def hits_of(text):
    return {int(line.split()[0], 16): int(line.split()[1]) for line in text.splitlines()}


VARIANTS = ["", "--cache-sim=yes", "--branch-sim=yes", "--compress-strings=no", "--compress-pos=no", "--collect-jumps=yes",
            "--dump-line=no", "--cache-sim=yes --collect-jumps=yes --compress-strings=no"]


@needs("valgrind", "gcc", "nm")
def callgrind_texts(folder):
    path, first, totals = primes(folder), None, []
    for variant in VARIANTS:
        out, collected = counted(path, folder, "--dump-instr=yes", *variant.split())
        ran = script("hits_of_callgrind", path, out)
        equal(f"instructions in all images ({variant})", int(re.search(r"of (\d+) instructions", ran.errors).group(1)), collected)
        first = first or hits_of(ran.out)
        equal(f"hits with {variant}", hits_of(ran.out), first)
        totals.append(collected)
    double = hits_of(script("hits_of_callgrind", path, out, out).out)
    equal("hits of two files", double, {addr: 2 * count for addr, count in first.items()})
    refused(folder, path, out)
    return f"{len(VARIANTS)} forms, {len(first)} addresses and {sum(first.values())} instructions each, " \
           f"{totals[0]} in all images as valgrind says"


def refused(folder, path, out):
    """What can't be read has status 1 and one line that names the file."""
    lines = counted(path, folder, name="lines")[0]
    with open(out) as text:
        whole = text.read()
    cut = write(folder, "cut", whole[:whole.index("totals:")])
    other = write(folder, "other", whole.replace("totals: ", "totals: 1"))
    for words, told in [((path, lines), "no addresses of instructions"), (("/bin/true", out), "nothing was counted"),
                        ((path, cut), "did not write all of it"), ((path, other), "where callgrind tells 1"),
                        ((path, path + ".c"), "no text of callgrind"), ((path, out + "x"), "No such file")]:
        ran = tried("scripts/user/hits_of_callgrind", *words)
        equal(f"status where {told}", (ran.status, ran.out, len(ran.errors.splitlines()), told in ran.errors), (1, "", 1, True))


@needs("valgrind", "callgrind_annotate", "gcc", "nm", "blz_cover")
def callgrind_counts_by_function_and_line(folder):
    path = primes(folder)
    out, _ = counted(path, folder, "--dump-instr=yes")
    hits = script("hits_of_callgrind", path, out).out
    listed = run("callgrind_annotate", "--threshold=100", "--auto=no", out, folder=folder).out
    counted_by = re.findall(r"^\s*([\d,]+) \([^)]*\)\s+\S*?:(\w+) \[" + re.escape(path), listed, re.M)
    theirs = {name: int(count.replace(",", "")) for count, name in counted_by}
    ours, begins = collections.Counter(), sorted(functions(path).items())
    for addr, count in hits_of(hits).items():
        ours[max(begin for begin in begins if begin[0] <= addr)[1]] += count
    equal("instructions by function", {name: ours[name] for name in ("is_prime", "count_primes", "clamp", "main")},
          {name: theirs[name] for name in ("is_prime", "count_primes", "clamp", "main")})
    covered = counts_of(asked("blz_cover", path, write(folder, "hits", hits)))
    equal("total of blz_cover", covered["total"], sum(ours.values()))
    source = run("callgrind_annotate", "--threshold=100", "--auto=yes", "--context=10000", out, folder=folder).out
    lines = annotated(source, "program.c")
    mine = {int(place.rsplit(":", 1)[1]): count for place, count in covered.items() if place.startswith(f"{folder}/program.c:")}
    equal("instructions by line", mine, lines)
    return f"4 functions and {len(lines)} lines as callgrind_annotate, {covered['total']} instructions"


def annotated(text, name):
    """The counts by line that callgrind_annotate tells for a source, of which it shows all lines."""
    parts = [part for part in re.split(r"^-- ", text, flags=re.M) if re.match(rf"\S+-annotated source: (?:.*/)?{name}\n", part)]
    found, number = {}, 0
    for body in (part.split("\n" + 80 * "-" + "\n")[1] for part in parts):
        for cost in re.findall(r"^\s*(?:([\d,]+) \(\s*[\d.]+%\)|\.)  (?!=> |<counts)", body, re.M):
            number += 1
            if cost:
                found[number] = int(cost.replace(",", ""))
    return found


def gcov_lines(folder, source, compiler, *more):
    """How often gcov says that each line was executed, by the name of its file."""
    run(compiler, "-g", "-O0", "--coverage", "-o", "covered", source, *more, folder=folder)
    run(os.path.join(folder, "covered"), folder=folder)
    notes = [name for name in os.listdir(folder) if name.endswith(".gcda")]
    found = {}
    for told in run("gcov", "--json-format", "--stdout", *notes, folder=folder).out.splitlines():
        for file in json.loads(told)["files"]:
            if not file["file"].startswith("/usr"):
                for line in file["lines"]:
                    place = os.path.basename(file["file"]), line["line_number"]
                    found[place] = found.get(place, 0) + line["count"]
    return found


def executed(folder, path):
    """The same by callgrind and blz_cover."""
    out, _ = counted(path, folder, "--dump-instr=yes")
    hits = write(folder, "hits", script("hits_of_callgrind", "--executions", path, out).out)
    found = {}
    for place, count in counts_of(asked("blz_cover", path, hits)).items():
        if ":" in place and not place.startswith("/usr"):
            name, line = place.rsplit(":", 1)
            found[os.path.basename(name), int(line)] = count
    return found


def compared_with_gcov(ours, theirs):
    """The lines that gcov counts: how many have the same number. It counts no end of a function."""
    differ = {place: (ours.get(place, 0), count) for place, count in theirs.items() if ours.get(place, 0) != count}
    equal("executions beside gcov's", differ, {})
    return len(theirs), sum(count > 0 for count in theirs.values())


@needs("valgrind", "gcc", "gcov", "blz_tool", "blz_rows", "blz_cover")
def executions_of_C(folder):
    path = primes(folder)
    ours = executed(folder, path)
    lines, entered = compared_with_gcov(ours, gcov_lines(folder, "program.c", "gcc", "other.c"))
    return f"{lines} lines as gcov, {entered} of them executed, {sum(ours.values())} executions"


@needs("valgrind", "g++", "gcov", "blz_tool", "blz_rows", "blz_cover")
def executions_of_templates(folder):
    path = built(folder, "program", TEMPLATES, "-O0", compiler="g++")
    lines, entered = compared_with_gcov(executed(folder, path), gcov_lines(folder, "program.cc", "g++"))
    return f"{lines} lines as gcov, {entered} of them executed"


@needs("perf", "gcc", "blz_cover")
def perf_samples_by_line(folder):
    path = built(folder, "program", SOURCE, "-O2")
    data = recorded(folder, path)
    hits = script("hits_of_perf", path, text=script_of(data)).out
    covered = counts_of(asked("blz_cover", path, write(folder, "hits", hits)))
    ours = {os.path.basename(place): count for place, count in covered.items() if ":" in place}
    theirs = {name: count for name, count in reported(data, "srcline").items() if name.startswith("program.c:")}
    if not theirs:
        raise Skipped("perf report tells no lines of sources here")
    equal("samples by line", ours, theirs)
    return f"{sum(ours.values())} samples on {len(ours)} lines as perf report"


def records_of(text):
    """By the name of its source: the lines with their counts, and the functions with theirs."""
    found = {}
    for record in text.split("end_of_record\n")[:-1]:
        name = os.path.basename(re.search(r"^SF:(.*)$", record, re.M).group(1))
        lines = {int(line): int(count) for line, count in re.findall(r"^DA:(\d+),(\d+)", record, re.M)}
        begins = {name: int(line) for line, name in re.findall(r"^FN:(\d+),(.*)$", record, re.M)}
        calls = {name: int(count) for count, name in re.findall(r"^FNDA:(\d+),(.*)$", record, re.M)}
        found[name] = lines, begins, calls
    return found


@needs("valgrind", "gcc", "gcov", "lcov", "readelf", "blz_tool", "blz_rows", "blz_cover", *LISTING)
def lcov_of_a_program(folder):
    path = primes(folder)
    out, _ = counted(path, folder, "--dump-instr=yes")
    hits = write(folder, "hits", script("hits_of_callgrind", "--executions", path, out).out)
    text = script("lcov_of_cover", path, text=asked("blz_cover", path, hits)).out
    ours, info = records_of(text), write(folder, "ours.info", text)
    same = "SF:/a/c.c\nDA:3,9\nLF:1\nLH:1\nend_of_record\n"
    holds("paths have no ..", same in script("lcov_of_cover", text="/a/b/../c.c:3 4\n/a/c.c:3 5\nrest 0\ntotal 9\n").out)
    summary = run("lcov", "--summary", info).out + run("lcov", "--list", info).out
    gcov_lines(folder, "program.c", "gcc", "other.c")
    run("lcov", "--capture", "--directory", folder, "--output-file", os.path.join(folder, "theirs.info"), folder=folder)
    with open(os.path.join(folder, "theirs.info")) as told:
        theirs = records_of(told.read())
    equal("sources", sorted(ours), sorted(theirs))
    for name, (lines, begins, calls) in theirs.items():
        equal(f"lines of {name}", {line: ours[name][0].get(line) for line in lines}, lines)
        equal(f"functions of {name}", ours[name][1:], (begins, calls))
    listed = run("readelf", "--debug-dump=decodedline", path).out
    rows = {(name, int(line)) for name, line in re.findall(r"^(\w+\.[ch])\s+(\d+)\s+0x", listed, re.M)}
    equal("lines with code", {(name, line) for name, found in ours.items() for line in found[0]}, rows)
    refused_by_lcov(path, text)
    share = re.search(r"lines\.+: (.*)", summary).group(1)
    return f"{len(rows)} lines of {len(ours)} sources as readelf, {sum(len(each[0]) for each in theirs.values())} lines and " \
           f"{sum(len(each[1]) for each in theirs.values())} functions as gcov's lcov, other.c never entered; lcov says {share}"


def refused_by_lcov(path, text):
    for given, told in [("", "does not end with"), ("/a.c:3 4\n", "does not end with"), (text, "no line of blz_cover"),
                        ("/a.c:3 4\nrest 1\ntotal 6\n", "the total is 6"), ("/a.c:3 4\nrest 1\n", "does not end with")]:
        ran = tried("scripts/user/lcov_of_cover", path, text=given)
        equal(f"refusal of {given[:20]!r}", (ran.status, ran.out, len(ran.errors.splitlines()), told in ran.errors), (1, "", 1, True))
