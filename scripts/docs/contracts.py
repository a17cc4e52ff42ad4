"""What is said in this repository: the definitions of specs/ with what each one names, and the contracts of src/."""
import os
import re

TOP = os.path.dirname(os.path.dirname(os.path.dirname(os.path.abspath(__file__))))
HEAD = re.compile(r"^(?:(?:abbrev|unfoldable) (?:pub )?|(?:pub )?(?:record|data) |pub )([^ :]+)")
USE = re.compile(r"^\s*(?:ghost |pub )?use (?:Rattle\.)?([\w.]+?)(?:\.\{(.*)\})?(?: as (\w+))?;?$")
NOT_BODY = re.compile(r"^(?:--|use |pub use |pub mod |mod |module |infix)")
STANDARD = re.compile(r"\(?((?:ELF gABI|DWARF [0-9]|GNU debug links)[^();]*)\)?")
CONSTRUCTORS = {"zero", "suc", "true", "false", "pos", "negsuc", "refl"}  # those of std that begin with a small letter
IDENTIFIER = re.compile(r"[^\W\d][\w'-]*")


def crates_in_order():
    """The names of crates.txt, lowest first."""
    with open(os.path.join(TOP, "crates.txt"), encoding="utf-8") as lines:
        return [line.split(":")[0].split()[0] for line in lines if ":" in line and not line.startswith("#")]


def standard_of(text):
    """The section of a public standard that a comment names, or nothing."""
    found = STANDARD.search(text)
    return found.group(1).strip().rstrip(".") if found else ""


class Definition:
    """A definition of specs/: its name, its comment, its text as it is written, and the file that it is in."""

    def __init__(self, file, name, comment, lines, outer, line):
        self.file, self.name, self.comment, self.lines, self.outer, self.line = file, name, comment, lines, outer, line

    def plain(self):
        """The comment in one line."""
        return " ".join(line.strip().lstrip("-").strip() for line in self.comment)

    def standard(self):
        return standard_of(self.plain()) or standard_of(self.file.head)

    def text(self):
        return [*self.comment, *self.lines]


class File:
    """A file of specs/: its first comment, what it imports, and its definitions in their order."""

    def __init__(self, crate, name):
        self.crate, self.name = crate, name
        self.path = f"crates/{crate}/specs/{name}.antt"
        self.module = f"{crate}.specs.{name}"
        self.head, self.uses, self.definitions = "", [], []
        with open(os.path.join(TOP, self.path), encoding="utf-8") as lines:
            self.read([line.rstrip("\n") for line in lines])

    def read(self, lines):
        """Parts the file into its definitions. Inside `module _ .. where` they are two columns further right."""
        comment, outer, at = [], "", 0
        while at < len(lines):
            line = lines[at]
            bare = line[2:] if outer and line.startswith("  ") else line
            at += 1
            if outer and line and not line.startswith(" "):
                outer = ""
            found = HEAD.match(bare)
            if bare.startswith("--"):
                comment = [] if bare.startswith("-- ----") else [*comment, line]
                continue
            if comment and not self.head:
                self.head = " ".join(part.strip().lstrip("-").strip() for part in comment)
            if bare.startswith("infix"):
                comment.append(line)
                continue
            if bare.startswith(("use ", "pub use ")):
                self.uses.append(USE.match(bare).groups())
            elif bare.startswith("module "):
                outer = line
            elif found and not bare.startswith(("pub mod ", "pub use ")):
                end = self.end_of(lines, at, outer)
                body = lines[at - 1:end]
                while not body[-1].strip():
                    body.pop()
                notes = [part for part in comment if part.strip().startswith("--")]
                fixity = [part for part in comment if not part.strip().startswith("--")]
                self.definitions.append(Definition(self, found.group(1), notes, [*fixity, *body], outer, at))
                at = end
            comment = []

    @staticmethod
    def end_of(lines, at, outer):
        """Where the definition ends that has begun above `at`."""
        while at < len(lines):
            line = lines[at]
            if outer and line and not line.startswith(" "):
                return at
            bare = line[2:] if outer and line.startswith("  ") else line
            if bare and not bare.startswith(" ") and (NOT_BODY.match(bare) or HEAD.match(bare)):
                return at
            at += 1
        return at


def without_comments(text):
    text = re.sub(r'"[^"\n]*"', '""', text)
    return re.sub(r"(^|\s)--( .*)?$", "", text, flags=re.M)


def without_labels(text):
    """The text without the names of fields that `record { name = value; .. }` gives."""
    return re.sub(r"([{;]\s*)[\w«»'-]+\s*=(?!=)", r"\1 ", text)


def bound_in(clause, name):
    """The variables of a clause: they hide definitions of their name."""
    bound = set()
    sides = re.split(r"\s=(?:\s|$)", clause, maxsplit=1)
    if len(sides) == 2:
        bound |= set(IDENTIFIER.findall(sides[0])) - {name}
    for pattern in (r"λ([^.]*)\.", r"[({]([^():{}]*) :", r"\blet ([^=:]*)[=:]", r"^\s*([^\n]*?) ←", r"[(;]\s*do ([^←\n]*) ←", r"[\[|]([^↦|\[]*)↦"):
        for found in re.findall(pattern, clause, re.M):
            bound |= set(IDENTIFIER.findall(found))
    return {word for word in bound - CONSTRUCTORS if word[0].islower() or word[0] == "_"}


def clauses_of(definition):
    """The clauses of a definition, each as its text; the whole of a record or of a list of constructors is one."""
    indent = len(definition.lines[-1]) if not definition.lines else (2 if definition.outer else 0)
    lines = without_comments("\n".join(definition.lines)).split("\n")
    parts = [[]]
    for line in lines:
        if line[indent:indent + 1].strip() and parts[-1]:
            parts.append([])
        parts[-1].append(line)
    return ["\n".join(part) for part in parts]


class Contracts:
    """All definitions of specs/, and where the names in them lead."""

    def __init__(self):
        self.crates = crates_in_order()
        self.files, self.shared = {}, {}
        for crate in self.crates:
            folder = os.path.join(TOP, "crates", crate, "specs")
            for entry in sorted(os.listdir(folder)) if os.path.isdir(folder) else ():
                if entry.endswith(".antt") and entry != "Lib.antt":
                    file = File(crate, entry[:-5])
                    self.files[file.module] = file
            self.read_shared(crate, os.path.join(folder, "Lib.antt"))
        self.scopes = {}

    def read_shared(self, crate, path):
        """The modules of other crates that a crate names again."""
        if os.path.isfile(path):
            with open(path, encoding="utf-8") as lines:
                for module in re.findall(r"^pub use Rattle\.([\w.]+)$", lines.read(), re.M):
                    self.shared[f"{crate}.specs.{module.rsplit('.', 1)[1]}"] = module

    def module(self, name):
        while name in self.shared:
            name = self.shared[name]
        return self.files.get(name)

    def definitions(self):
        return [it for file in self.files.values() for it in file.definitions]

    def scope_of(self, uses):
        """What imported names mean: definitions of specs/, or words of elsewhere as (module, name); and aliases of modules."""
        names, aliases = {}, {}
        for module, listed, alias in uses:
            file = self.module(module)
            if listed is None:
                aliases[alias or module.rsplit(".", 1)[1]] = (module, file)
                continue
            for entry in (it.strip() for it in listed.split(",")):
                name, _, other = entry.partition(" as ")
                found = [it for it in file.definitions if it.name == name] if file else []
                found = found or ([it for it in file.definitions if self.has_constructor(it, name)] if file else [])
                names[other or name] = found[0] if found else (module, name)
        return names, aliases

    @staticmethod
    def has_constructor(definition, name):
        return bool(re.search(rf"^\s+{re.escape(name)} :", "\n".join(definition.lines[1:]), re.M))

    def scope(self, file):
        if file.module not in self.scopes:
            names, aliases = self.scope_of(file.uses)
            for definition in file.definitions:
                names[definition.name] = definition
                if re.match(r"\s*(?:pub )?data ", definition.lines[0]):
                    for constructor in re.findall(r"^\s+(\S+) :", "\n".join(definition.lines[1:]), re.M):
                        names.setdefault(constructor, definition)
            self.scopes[file.module] = (names, aliases)
        return self.scopes[file.module]

    def named_in(self, text, scope, bound):
        """What a text names: definitions, and words of elsewhere."""
        names, aliases = scope
        text = without_labels(text)
        tokens = set(re.findall(r"[^\s(){}\[\];,]+", text))
        found = []
        for name, meaning in names.items():
            parts = [part for part in name.split("◌") if part]
            if "◌" in name and (all(part in tokens for part in parts) or name == "◌>>=◌" and "←" in tokens):
                found.append(meaning)
        for token in tokens:
            head, _, rest = token.partition(".")
            if head in bound or not head:
                continue
            if head in aliases and rest and head not in names:
                found.append(self.qualified(aliases[head], rest.split(".")[0]))
            elif head in names:
                found.append(names[head])
        return found

    def qualified(self, alias, name):
        module, file = alias
        for definition in file.definitions if file else ():
            if definition.name == name or self.has_constructor(definition, name):
                return definition
        return module, name

    def named_by(self, definition):
        """What a definition names, itself left out."""
        scope = self.scope(definition.file)
        is_record = re.match(r"\s*(?:pub )?record ", definition.lines[0])
        fields = set(re.findall(r"^\s+(?:pub )?([\w'-]+) :", "\n".join(definition.lines[1:]), re.M)) if is_record else set()
        locals_ = set(re.findall(r"^\s{2,}([\w'-]+) : ", "\n".join(definition.lines[1:]), re.M)) if not is_record else set()
        locals_ = {word for word in locals_ if word[0].islower()}
        outer = bound_in(definition.outer, "") if definition.outer else set()
        found = []
        for clause in clauses_of(definition):
            found += self.named_in(clause, scope, bound_in(clause, definition.name) | fields | locals_ | outer)
        if definition.outer:
            found += self.named_in(definition.outer, scope, outer)
        return [it for it in dict.fromkeys(found) if it is not definition]

    def reached(self, roots):
        """The definitions that are reached from some, and the words of elsewhere that they name."""
        seen, words, left = [], [], list(roots)
        while left:
            it = left.pop(0)
            if isinstance(it, tuple):
                words.append(it)
            elif it not in seen:
                seen.append(it)
                left += self.named_by(it)
        return seen, list(dict.fromkeys(words))


# ---- the contracts of src/


def source_files(crate):
    for where, _, names in sorted(os.walk(os.path.join(TOP, "crates", crate, "src"))):
        for name in sorted(names):
            if name.endswith(".rt"):
                yield os.path.join(where, name)


def lines_of(path):
    with open(os.path.join(TOP, path), encoding="utf-8") as source:
        return source.read().split("\n")


def ghost_uses(lines):
    return [found.groups() for found in (USE.match(line) for line in lines if line.strip().startswith("ghost use ")) if found]


def end_of_head(lines, start):
    """Where the head of a function with its clauses ends: at the line that opens its body, or behind its `;`."""
    at, depth = start, 0
    while at < len(lines):
        line = lines[at]
        if depth == 0 and re.match(r"^\s*\{\s*$", line):
            return at
        depth += line.count("{") - line.count("}")
        if line.rstrip().endswith(";") and depth == 0:
            return at + 1
        at += 1
    return at


def comment_above(lines, at):
    """The `///` lines above a line, past its attributes."""
    above = []
    while at > 0 and lines[at - 1].strip().startswith(("///", "#[", "//")):
        at -= 1
        if lines[at].strip().startswith("///"):
            above.insert(0, lines[at])
    return above


def block_at(lines, at):
    """The lines of an item from its head to the brace that closes it."""
    depth, end = 0, at
    while True:
        depth += lines[end].count("{") - lines[end].count("}")
        end += 1
        if depth == 0:
            return lines[at:end]


class Contract:
    """A call, or a whole trait, as it is written: its comment, its head with its clauses, and what its file imports."""

    def __init__(self, crate, name):
        self.crate, self.name = crate, name
        is_trait = re.compile(rf"^pub trait {re.escape(name)}\b")
        is_call = re.compile(rf"^\s*pub fn {re.escape(name)}\b")
        for path in source_files(crate):
            lines = lines_of(path)
            for at, line in enumerate(lines):
                if is_trait.match(line) or is_call.match(line):
                    self.path, self.uses, self.comment = os.path.relpath(path, TOP), ghost_uses(lines), comment_above(lines, at)
                    self.lines = block_at(lines, at) if is_trait.match(line) else lines[at:end_of_head(lines, at)]
                    return
        raise LookupError(f"{crate} has no public {name}")

    def text(self):
        lines = [*self.comment, *self.lines]
        indent = min(len(line) - len(line.lstrip()) for line in lines if line.strip())
        return [line[indent:] for line in lines]

    def named(self, contracts):
        """What the clauses and the ghost members name."""
        text = re.sub(r"//.*$", "", "\n".join(self.lines), flags=re.M)
        clauses = re.findall(r"(?:requires|ensures)\*?\s*\w*\s*(\{.*?\})(?=\s*(?:$|;|requires|ensures|//))", text, re.S)
        ghosts = re.findall(r"ghost \w+: (\{.*?\});", text, re.S)
        return contracts.named_in("\n".join([*clauses, *ghosts]), contracts.scope_of(self.uses), set())


def models():
    """What types are seen as, as (crate, type): (value, what its block imports)."""
    found = {}
    for crate in crates_in_order():
        for path in source_files(crate):
            lines = lines_of(path)
            for at, line in enumerate(lines):
                head = re.match(r"^impl.* Model for (\w+)", line)
                if head:
                    block = block_at(lines, at)
                    value = re.search(r"ghost Value = \{ (.*?) \};", " ".join(part.strip() for part in block))
                    found[(crate, head.group(1))] = (value.group(1) if value else "", ghost_uses([*lines[:at], *block]))
    return found
