"""What the benches share: the measuring program, programs with debug information, and the processor time and peak
memory of a run."""
import glob
import os
import re
import resource
import subprocess
import sys
import tempfile
import time
import typing

TOP = os.path.dirname(os.path.dirname(os.path.abspath(__file__)))
BENCH = os.path.join(TOP, "crates", "blz_bench", "out", "blz_bench")


def help_if_asked(text):
    """Tells what a script does, and ends, where its words ask for that."""
    if {"-h", "--help"} & set(sys.argv[1:]):
        print(text)
        sys.exit()


def built_bench():
    """The measuring program, proved and built first where it is missing or a source is newer."""
    sources = glob.glob(os.path.join(TOP, "crates", "*", "src", "**", "*.rt"), recursive=True)
    if not os.path.exists(BENCH) or max(map(os.path.getmtime, sources)) > os.path.getmtime(BENCH):
        subprocess.run(["rt", "run"], cwd=os.path.dirname(os.path.dirname(BENCH)), check=True, capture_output=True)
        os.utime(BENCH)
    return BENCH


def program_of(name):
    """A program of this repository, proved and built first where that is needed; the variable of its name in capitals names another."""
    if given := os.environ.get(name.upper()):
        return given
    # without a word it tells its usage, and ends with status 2
    subprocess.run([os.path.join(TOP, name)], capture_output=True, check=False)
    built = os.path.join(TOP, "crates", f"{name}_main", "out", f"{name}_main")
    if not os.path.exists(built):
        sys.exit(f"{name} could not be built; `./{name}` tells why")
    return built


def debug_program(folder, version, count):
    """A C program of so many functions, each with a type of its own, with debug information of the version."""
    source = os.path.join(folder, f"functions{version}.c")
    with open(source, "w") as out:
        for number in range(count):
            out.write(f"struct record{number} {{ int first{number}; struct record{number} *next; char text[{number % 61 + 1}]; }};\n")
            out.write(f"int function{number}(struct record{number} *record, int count) {{ int sum{number} = 0;\n"
                      f"  for (int index = 0; index < count; index++) {{ int part = record->first{number} + index; sum{number} += part; }}\n"
                      f"  return sum{number}; }}\n")
        out.write("int main(void) { return 0; }\n")
    program = os.path.join(folder, f"functions{version}")
    subprocess.run(["gcc", f"-gdwarf-{version}", "-O0", "-o", program, source], check=True)
    return program


class Run(typing.NamedTuple):
    """The least processor and wall seconds of some runs, their peak memory in bytes, and what was written."""
    seconds: float
    wall: float
    peak: int
    written: bytes


def measured(words, runs=3):
    """A program of these words. `time` starts it, since one that python starts has python's own peak."""
    walls, seconds = [], []
    for _ in range(runs):
        with tempfile.NamedTemporaryFile("w+") as told, tempfile.NamedTemporaryFile() as out:
            begun = time.perf_counter()
            run = subprocess.Popen(["/usr/bin/time", "-f", "%M", "-o", told.name] + words, stdout=out, stderr=subprocess.PIPE)
            errors = run.stderr.read()
            _, status, used = os.wait4(run.pid, 0)
            walls.append(time.perf_counter() - begun)
            run.returncode = os.waitstatus_to_exitcode(status)
            if run.returncode != 0:
                sys.exit(f"{words[0]}: status {run.returncode}: {errors.decode(errors='replace')}")
            seconds.append(used.ru_utime + used.ru_stime)
            peak, written = int(told.read()) * 1024, open(out.name, "rb").read()
    return Run(min(seconds), min(walls), peak, written)


class Ended(typing.NamedTuple):
    """How one run ended, with its processor seconds, its peak memory and the size of its output in bytes."""
    status: int  # less than 0 where a signal ended it
    seconds: float
    peak: int
    size: int
    errors: bytes


MOST_SECONDS, MOST_MEMORY = 20, 4 << 30  # what a run of cut_run may take


def limited():
    resource.setrlimit(resource.RLIMIT_CPU, (MOST_SECONDS, MOST_SECONDS))
    resource.setrlimit(resource.RLIMIT_AS, (MOST_MEMORY, MOST_MEMORY))


def cut_run(words):
    """One run of these words, which may fail or take long; `time` starts it, as in measured."""
    with tempfile.NamedTemporaryFile("w+") as told, tempfile.TemporaryFile() as out:
        command = ["/usr/bin/time", "-f", "%M", "-o", told.name, *words]
        run = subprocess.Popen(command, stdout=out, stderr=subprocess.PIPE, preexec_fn=limited)
        errors = run.stderr.read()
        _, status, used = os.wait4(run.pid, 0)
        run.returncode = os.waitstatus_to_exitcode(status)
        # `time` ends with 128 and the signal where one ended its program
        ended = 128 - run.returncode if run.returncode > 128 else run.returncode
        peak = int(told.read().split()[-1]) * 1024
        return Ended(ended, used.ru_utime + used.ru_stime, peak, os.fstat(out.fileno()).st_size, errors)


def debug_size(program):
    listed = subprocess.run(["readelf", "-SW", program], check=True, capture_output=True, text=True).stdout
    return sum(int(m.group(1), 16) for m in re.finditer(r"\.debug_\w+\s+PROGBITS\s+[0-9a-f]+ [0-9a-f]+ ([0-9a-f]+)", listed))
