"""The line programs of a file, as llvm-dwarfdump prints them."""
import re
import subprocess


def kept_rows(rows):
    """The rows of a sequence; one of the same address as the row before it replaces that one."""
    kept = []
    for row in rows:
        if kept and kept[-1][0] == row[0]:
            kept.pop()
        kept.append(row)
    return kept


def path_of(name, directory, directories, version, unit_directory):
    listed = "" if directory == 0 else directories.get(directory, "")
    parts = [unit_directory]
    for part in (listed, name):
        parts = [part] if part.startswith("/") else parts + [part] if part else parts
    return "/".join(parts)


def line_tables(program, directory_of):
    """By the place of each line program its files, and its sequences, each with its rows and its end. Units that have the place
    have their folder by `directory_of`."""
    text = subprocess.run(["llvm-dwarfdump", "--debug-line", program], check=True, capture_output=True, text=True).stdout
    tables = {}
    for part in re.split(r"^debug_line\[", text, flags=re.M)[1:]:
        place = int(part.split("]", 1)[0], 16)
        version = int(re.search(r"^\s*version: (\d+)", part, re.M).group(1))
        directories = {int(n): d for n, d in re.findall(r'^include_directories\[\s*(\d+)\] = "(.*)"$', part, re.M)}
        files = {int(n): path_of(name, int(d), directories, version, directory_of(place)) for n, name, d in
                 re.findall(r'^file_names\[\s*(\d+)\]:\n\s+name: "(.*)"\n\s+dir_index: (\d+)$', part, re.M)}
        sequences, rows = [], []
        for line in re.findall(r"^(0x[0-9a-f]{16} .*)$", part, re.M):
            address, number, column, file, *_rest = line.split()
            if line.rstrip().endswith("end_sequence"):
                if rows:
                    sequences.append((kept_rows(rows), int(address, 16)))
                rows = []
            else:
                rows.append((int(address, 16), int(file), int(number), int(column)))
        tables[place] = {"files": files, "sequences": sequences, "version": version}
    return tables
