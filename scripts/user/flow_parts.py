"""What the scripts for users share: their words, inputs and errors, and asking the programs of this repository."""
import argparse
import functools
import os
import re
import subprocess
import sys
import typing

TOP = os.path.dirname(os.path.dirname(os.path.dirname(os.path.abspath(__file__))))
NAME = os.path.basename(sys.argv[0])
ASKED_AT_ONCE = 40000  # addresses; the words of a program are limited to about 2 MB
ANSWER = re.compile(r"^([0-9a-f]{16}) (.*)$")
NAMED = re.compile(r"^(.*?)(?: at (.*):(\d+):(\d+))?$")


class Refused(Exception):
    """What a user is told in one line, with status 1."""


class Frame(typing.NamedTuple):
    """A function or an inlined call; line 0 where nothing is known of its place."""
    name: str
    path: str = ""
    line: int = 0
    column: int = 0

    def __str__(self):
        return f"{self.name} at {self.path}:{self.line}:{self.column}" if self.path else self.name


def told(message):
    print(f"{NAME}: {message}", file=sys.stderr)


def words(description):
    """The parser of a script's words, whose help is the text at its head."""
    return argparse.ArgumentParser(prog=NAME, description=description, formatter_class=argparse.RawDescriptionHelpFormatter)


def started(main):
    """Runs a script: what it refuses, and files that can't be read, are one line and status 1."""
    for stream in (sys.stdin, sys.stdout, sys.stderr):
        stream.reconfigure(errors="surrogateescape")
    try:
        main()
        sys.stdout.flush()
    except BrokenPipeError:
        os.dup2(os.open(os.devnull, os.O_WRONLY), 1)
        sys.exit(1)
    except OSError as error:
        sys.exit(f"{NAME}: {error.filename}: {error.strerror}" if error.filename else f"{NAME}: {error.strerror}")
    except Refused as refused:
        sys.exit(f"{NAME}: {refused}")
    except KeyboardInterrupt:
        sys.exit(130)


def lines_of(path):
    """The lines of a text, `-` for standard input."""
    if path == "-":
        yield from sys.stdin
    else:
        with open(path, errors="surrogateescape") as text:
            yield from text


def name_of(path):
    return "standard input" if path == "-" else path


def written_by(tool, *given):
    """What a tool writes; what it says where it fails."""
    try:
        run = subprocess.run([tool, *given], capture_output=True, text=True, errors="surrogateescape")
    except OSError as error:
        raise Refused(f"{tool}: {error.strerror}") from None
    if run.returncode:
        raise Refused(f"{' '.join([os.path.basename(tool), *given])[:200]}: status {run.returncode}: {run.stderr.strip()}")
    return run.stdout


def built_at(name):
    return os.path.join(TOP, "crates", f"{name}_main", "out", f"{name}_main")


@functools.cache
def program(name):
    """A program of this repository, which is built when it is first asked; BLZ_TOOL, BLZ_ROWS, .. name another one."""
    path = os.environ.get(name.upper()) or os.path.join(TOP, name)
    if path == os.path.join(TOP, name) and os.path.exists(path) and not os.path.exists(built_at(name)):
        told(f"{name} is proved and built first, which may take an hour; {name.upper()} names another one")
    return path


def listed(image, *options):
    """What blz_lines tells of an image; None where that program is not there."""
    path = program("blz_lines")
    return written_by(path, *options, image) if os.path.exists(path) else None


def plain_path(directory, path):
    """Where scripts/user/plain_debug puts the copy of an image."""
    return os.path.join(os.path.abspath(directory), os.path.realpath(path).lstrip("/"))


def frames_of(text):
    """What blz_tool wrote: by address, its function and the inlined calls below it, the outermost first."""
    found = {}
    for line in text.splitlines():
        if answer := ANSWER.match(line):
            frames = found[int(answer.group(1), 16)] = []
            line = answer.group(2)
        if not line.startswith("?? ("):
            name, path, number, column = NAMED.match(line.strip()).groups()
            frames.append(Frame(name, path or "", int(number or 0), int(column or 0)))
    return found


def answered(image, addresses, *options, plain=None):
    """What blz_tool answers for addresses of an image, by address: empty where it knows none. Where scripts/user/plain_debug
    made a copy of the image below a directory, the copy is asked."""
    found, left = {}, sorted(set(addresses))
    if plain and os.path.exists(copy := plain_path(plain, image)):
        if os.path.getmtime(copy) < os.path.getmtime(image):
            raise Refused(f"{image}: newer than its copy {copy}, which scripts/user/plain_debug makes anew")
        image, options = copy, [*options, "--debug-dirs", plain]
    for begin in range(0, len(left), ASKED_AT_ONCE):
        asked = [f"{addr:x}" for addr in left[begin:begin + ASKED_AT_ONCE]]
        run = subprocess.run([program("blz_tool"), *options, image, *asked], capture_output=True, text=True, errors="surrogateescape")
        if run.returncode:
            raise Refused(f"{image}: {run.stderr.strip() or f'blz_tool ended with status {run.returncode}'}")
        found.update(frames_of(run.stdout))
    return found
