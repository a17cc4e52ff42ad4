"""What each program of this repository is asked about an image: the words, and the file that they name beside it."""
import typing


class Case(typing.NamedTuple):
    """Files by their paths, and the words of a program that runs where they stand."""
    files: dict
    words: list

    def size(self):
        return sum(map(len, self.files.values())) + sum(len(word) + 1 for word in self.words)


COUNTS = ["1", "2", "3", "10", "999", "4294967296", "7"]
LINES = ["a.c:1", "a.c:2", "/p/a.c:7", "main.c:3", "b.c:4294967295", "lib.rs:10"]
OPTIONS = [[], [], [], ["--lines"], ["--basic"]]


def tool(path, addresses, pick):
    return {}, [*pick.choice(OPTIONS), path, *pick.sample(addresses, min(3, len(addresses)))]


def fold(path, addresses, pick):
    stacks = "".join(f"{pick.choice(COUNTS)} {';'.join(pick.choices(addresses, k=3))}\n" for _ in range(4))
    return {"listed": stacks.encode()}, [*pick.choice([[], ["--nodes"]]), path, "listed"]


def rows(path, addresses, pick):
    return {}, [*pick.choice([[], ["--next"]]), path, pick.choice(LINES)]


def cover(path, addresses, pick):
    hits = "".join(f"{pick.choice(addresses)} {pick.choice(COUNTS)}\n" for _ in range(6))
    return {"listed": hits.encode()}, [path, "listed"]


def lines(path, addresses, pick):
    return {}, [*pick.choice([[], ["--rows"]]), path]


def find(path, addresses, pick):
    return {}, [*pick.choice([[], ["--file-offset"]]), path, *pick.choice([[], ["main", "f"]])]


# by program: how it is asked, and the statuses that it may end with beside want of memory
ASKED = {"blz_tool": tool, "blz_fold": fold, "blz_rows": rows, "blz_cover": cover, "blz_lines": lines, "blz_find": find}
STATUSES = {"blz_tool": {0, 1, 2}, "blz_fold": {0, 1, 2, 5}, "blz_rows": {0, 1, 2}, "blz_cover": {0, 1, 2, 5},
            "blz_lines": {0, 1, 2}, "blz_find": {0, 1, 2}}


def asked_of(program, path, files, addresses, pick):
    more, words = ASKED[program](path, addresses, pick)
    return Case(files | more, words)
