"""How a script that makes a stored image is called: it writes the image to a path, or says where the file there differs."""
import argparse
import sys


def first_difference(made, held):
    """The offset of the first byte in which two texts differ, or at which one of them has ended; None where they are the same."""
    if made == held:
        return None
    return next((place for place, pair in enumerate(zip(made, held)) if pair[0] != pair[1]), min(len(made), len(held)))


def byte_at(data, place):
    return f"0x{data[place]:02x}" if place < len(data) else "the end of the file"


def fault_of(path, made):
    """What is wrong with the file at the path; None where it is the image."""
    try:
        with open(path, "rb") as file:
            held = file.read()
    except OSError as error:
        return f"{path}: {error.strerror}"
    place = first_difference(made, held)
    if place is None:
        return None
    return f"{path}: differs at byte 0x{place:x}: {byte_at(held, place)} stands there, and {byte_at(made, place)} belongs there"


def write_or_check(description, made):
    """Writes the bytes to the path that the command line names. With `--check` it writes nothing, and fails where the file differs."""
    parser = argparse.ArgumentParser(description=description, formatter_class=argparse.RawDescriptionHelpFormatter)
    parser.add_argument("--check", action="store_true", help="write nothing: say where the file at PATH differs, with status 1")
    parser.add_argument("path", metavar="PATH", help="where the image is written")
    words = parser.parse_args()
    if words.check:
        sys.exit(fault_of(words.path, made))
    with open(words.path, "wb") as out:
        out.write(made)
