"""Asks a program again and again: it is started once, and a copy of it answers each time, within bounds on its time and memory."""
import atexit
import os
import shutil
import struct
import subprocess
import tempfile
import typing

HERE = os.path.dirname(os.path.abspath(__file__))
QUESTION, ANSWER = struct.Struct("<IIQQ"), struct.Struct("<iIIII")


class Ended(typing.NamedTuple):
    """How a run ended; a negative status is a signal."""
    status: int
    output: bytes
    error: bytes


class Used(typing.NamedTuple):
    microseconds: int
    kilobytes: int


def library(name):
    """Builds a library of this folder that is loaded before a program, and gives its path."""
    folder = tempfile.mkdtemp(prefix="library-")
    atexit.register(shutil.rmtree, folder, ignore_errors=True)
    path = os.path.join(folder, f"{name}.so")
    source = os.path.join(HERE, f"{name}.c")
    subprocess.run(["gcc", "-shared", "-fPIC", "-O1", "-o", path, source, "-ldl"], check=True)
    return path


class Server:
    """A program that is held before its main function, in a folder."""

    def __init__(self, program, folder, preloaded):
        self.program = program
        self.process = subprocess.Popen([program], cwd=folder, env=os.environ | {"LD_PRELOAD": preloaded}, bufsize=1 << 16,
                                        stdin=subprocess.PIPE, stdout=subprocess.PIPE)

    def put(self, words, seconds=0, memory=0, stack=0, folder="."):
        """Puts a question; 0 leaves a bound as it stands. Some thousands of bytes of questions can wait for their answers."""
        text = b"".join(os.fsencode(word) + b"\0" for word in [folder, self.program, *words])
        self.process.stdin.write(QUESTION.pack(len(text), seconds, memory, stack) + text)

    def take(self):
        """How the run of the first question that is left ended, and what it took."""
        status, microseconds, kilobytes, *lengths = ANSWER.unpack(self.process.stdout.read(ANSWER.size))
        output, error = [self.process.stdout.read(length) for length in lengths]
        return Ended(status, output, error), Used(microseconds, kilobytes)

    def ask(self, *question, **more):
        self.put(*question, **more)
        self.process.stdin.flush()
        return self.take()

    def ask_all(self, asked):
        """How the runs end, and what they took, of questions that each are a list of what `put` takes."""
        for question in asked:
            self.put(*question)
        self.process.stdin.flush()
        return [self.take() for _ in asked]

    def close(self):
        self.process.stdin.close()
        self.process.wait()
