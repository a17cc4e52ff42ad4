"""What the tests of the flows share: tools that may be missing, programs to build, scripts to run, and comparing."""
import os
import re
import shutil
import subprocess
import typing

from flow_parts import TOP, built_at, program

SCRIPTS, IMAGES = os.path.join(TOP, "scripts", "user"), os.path.join(TOP, "scripts", "images")
PROGRAMS = tuple(name for name in ("blz_tool", "blz_fold", "blz_rows", "blz_cover", "blz_lines")
                 if os.path.exists(os.path.join(TOP, name)))
LISTING = tuple(name for name in PROGRAMS if name == "blz_lines")  # asked where it is there


class Skipped(Exception):
    """Why a test can't run here."""


class Test(typing.NamedTuple):
    name: str
    tools: tuple
    run: typing.Callable


TESTS = []


def needs(*tools):
    """A test, which gets a folder of its own, needs these tools, and gives back what it compared."""
    def kept(run):
        TESTS.append(Test(run.__name__.replace("_", " "), tools, run))
        return run
    return kept


def newest_source(known=[]):
    """When a source of the repository was last written."""
    if not known:
        sources = (os.path.join(top, name) for top, _, names in os.walk(os.path.join(TOP, "crates")) for name in names
                   if name.endswith((".rt", ".antt")) and "/out" not in top)
        known.append(max(map(os.path.getmtime, sources), default=0))
    return known[0]


def missing(tool, is_built):
    """Why a tool or program can't be asked; empty where it can. A program that is not built would be proved first."""
    if tool not in PROGRAMS:
        return "" if shutil.which(tool) else f"{tool} is not there"
    path = built_at(tool)
    if is_built and not os.environ.get(tool.upper()) and not (os.path.exists(path) and os.path.getmtime(path) > newest_source()):
        return f"{tool} is not built"
    return ""


class Ran(typing.NamedTuple):
    out: str
    errors: str
    status: int


def run(*words, text=None, folder=None, **environment):
    """A tool that has to end with status 0."""
    ran = tried(*words, text=text, folder=folder, **environment)
    if ran.status:
        raise AssertionError(f"{' '.join(words)[:300]}: status {ran.status}: {ran.errors[-600:]}")
    return ran


def tried(*words, text=None, folder=None, **environment):
    done = subprocess.run(words, input=text, cwd=folder, capture_output=True, text=True, errors="surrogateescape", timeout=300,
                          env=os.environ | {"DEBUGINFOD_URLS": ""} | environment)
    return Ran(done.stdout, done.stderr, done.returncode)


def script(name, *words, text=None, **environment):
    return run(os.path.join(SCRIPTS, name), *words, text=text, **environment)


def asked(name, *words, text=None):
    """A program of this repository."""
    return run(program(name), *words, text=text).out


def built(folder, name, source, *options, compiler="gcc"):
    """A program of a source, with debug information."""
    path, written = os.path.join(folder, name), os.path.join(folder, f"{name}.{'cc' if compiler.endswith('++') else 'c'}")
    with open(written, "w") as out:
        out.write(source)
    run(compiler, "-g", *options, "-o", path, written, folder=folder)
    return path


def write(folder, name, text):
    path = os.path.join(folder, name)
    with open(path, "w", errors="surrogateescape") as out:
        out.write(text)
    return path


def equal(what, ours, theirs):
    """Both have the same of everything; else the first three that differ are told."""
    if ours == theirs:
        return
    if isinstance(ours, dict) and isinstance(theirs, dict):
        differ = [f"{key}: {ours.get(key)} and {theirs.get(key)}" for key in sorted({*ours, *theirs}, key=str)
                  if ours.get(key) != theirs.get(key)]
        raise AssertionError(f"{what}: {len(differ)} differ: {'; '.join(differ[:3])}")
    raise AssertionError(f"{what}: {str(ours)[:300]} and {str(theirs)[:300]}")


def holds(what, condition):
    if not condition:
        raise AssertionError(what)


def counts_of(text):
    """Folded stacks or other lines that end in a count, by what is before it."""
    found = {}
    for line in text.splitlines():
        name, _, count = line.rpartition(" ")
        found[name] = found.get(name, 0) + int(count)
    return found


def functions(path):
    """The names of the functions of a program, by address, as nm tells them."""
    listed = re.findall(r"^([0-9a-f]+) [tTwW] (\S+)$", run("nm", "--defined-only", path).out, re.M)
    return {int(addr, 16): name for addr, name in listed}
