"""The definitions that a theorem's contracts speak of, in reading order, as tools/dev/show-believed and tools/dev/try-facts have them."""
import itertools
import os
import re

from sources import TOP, crates, files, text_of

# Where a theorem's definitions begin: a definition, or the contracts of a crate's public functions, or of its exports.
THEOREMS = {
    "calls": ("face_runs.specs.Calls.AreLegalReplies",),
    "linearizable": ("spec_olc.specs.Linearizable.IsLinearizable",),
    "guards": ("calls of share_faces",),
    "live": ("calls of live_faces", "calls of live_payloads", "exports of congee_live_c", "congee_live_c.specs.Holding.Holding"),
    "owners": ("calls of live_owners", "exports of congee_live_c/owners"),
}

# Modules of a crate that another theorem than the crate's is about.
APART = ("congee_live_c/owners",)

WORD = re.compile(r"[^\s(){};,\[\]λ]+")
HEAD = re.compile(r"( *)(?:(?:abbrev|unfoldable|irreducible|pub|macro) )+(?:(record|data) )?(?:abbrev )?([^\s:({]+)")
COMMENT = re.compile(r" *--")


class Definition:
    """A definition: its file, the numbers of its lines with the comment above them, and what these lines say."""

    def __init__(self, file, name, lines):
        self.file, self.name, self.lines = file, name, lines

    def text(self):
        return "\n".join(self.file.lines[it] for it in self.lines if not COMMENT.match(self.file.lines[it]))


class Definitions:
    """A file of definitions."""

    def __init__(self, path):
        self.path = path
        self.lines = text_of(path).splitlines()
        self.uses = imports(self.lines, "use")
        self.head = [*range(len([*itertools.takewhile(COMMENT.match, self.lines)]))]
        self.defined = {}
        self.read()

    def read(self):
        """Cuts the file into definitions. A name of a constructor is that of its type."""
        current, comment, modules = None, [], []
        for number, line in enumerate(self.lines):
            head = HEAD.match(line)
            indent = len(line) - len(line.lstrip())
            if re.match(r"(pub )?(use|mod) ", line):
                current, comment = None, []
            elif not line.strip():
                comment = []
            elif COMMENT.match(line) and (current is None or indent <= current[1]):
                comment.append(number)
            elif line.lstrip().startswith("module "):
                modules = [it for it in modules if it[1] < indent] + [(comment + [number], indent)]
                current, comment = None, []
            elif head and (current is None or indent <= current[1]):
                above = [line for lines, outer in modules if outer < indent for line in lines]
                modules = [it for it in modules if it[1] < indent]
                current = (Definition(self, head[3], above + comment + [number]), indent)
                self.defined[head[3]], comment = current[0], []
            elif current or line.split()[0] in self.defined:
                current = current or (self.defined[line.split()[0]], indent)
                current[0].lines += [*comment, number]
                comment = []
                field = re.match(r" +(?:pub )?([^\s:]+) :", line)
                if field and re.search(r"\bdata ", self.lines[current[0].lines[0]] + current[0].text()):
                    self.defined.setdefault(field[1], current[0])


class RustType:
    """A struct or an enum of the crates, of which definitions speak."""

    def __init__(self, path, name):
        self.path, self.name = path, name
        self.lines = text_of(path).splitlines()
        [first] = [number for number, it in enumerate(self.lines) if re.match(rf"pub (?:struct|enum) {name}\b", it)]
        last = first
        while not re.match(r"\}|.*;$|.*\}$", self.lines[last]):
            last += 1
        while first and re.match(r"///|#\[", self.lines[first - 1]):
            first -= 1
        self.numbers = [*range(first, last + 1)]


def imports(lines, begin):
    """What a file names of others, each by its word there: the module and its word in it, or the module alone."""
    found = {}
    for it in re.finditer(rf"^ *(?:pub )?{begin} (Rattle\.[\w.]+?)(?:\.\{{([^}}]*)\}}|\.([^\s.{{;]+))?(?: as (\S+?))?;?$", "\n".join(lines), re.M):
        module, many, one, other = it.groups()
        for name in (many or "").split(","):
            word, _, alias = name.strip().partition(" as ")
            if word:
                found[alias or word] = (module, word)
        if one:
            found[other or one] = (module, one) if not other else (f"{module}.{one}", None)
    return found


class Reader:
    """Follows words to what they mean."""

    def __init__(self):
        self.files = {}
        self.found = {}  # definitions and types, each once

    def file(self, module):
        crate, _, path = module.removeprefix("Rattle.").partition(".specs.")
        path = f"crates/{crate}/specs/{path.replace('.', '/')}.antt"
        if path not in self.files:
            self.files[path] = Definitions(path) if os.path.isfile(f"{TOP}/{path}") else None
        return self.files[path]

    def rust(self, module):
        """The type that declared words are of: a module has its path and name, and that of its variants one word more."""
        crate, _, path = module.removeprefix("Rattle.").partition(".specs.declared.")
        *path, name = path.removesuffix(".TheVariants").split(".")
        path = f"crates/{crate}/src/{'/'.join(path)}.rt"
        if ("type", path, name) not in self.found and os.path.isfile(f"{TOP}/{path}"):
            self.found["type", path, name] = RustType(path, name)

    def follow(self, module, word):
        """What a module's word means, with all that this speaks of."""
        if ".specs.declared." in module:
            return self.rust(module)
        if module.split(".")[1] not in crates():
            return None
        file = self.file(module)
        if file is None or word not in file.defined:
            return self.follow(*file.uses[word]) if file and word in file.uses else None
        it = file.defined[word]
        if (file.path, it.name) not in self.found:
            self.found[file.path, it.name] = it
            self.follow_all(it.text(), file.uses, module, file.defined)
        return None

    def follow_all(self, text, uses, module=None, defined=()):
        """What the words of a text mean, by a file's imports and definitions."""
        for word in sorted({part for it in WORD.findall(text) for part in (it, *it.split("."))}):
            if word in defined:
                self.follow(module, word)
            elif word in uses:
                inner, name = uses[word]
                names = [name] if name else re.findall(rf"\b{re.escape(word)}\.([^\s(){{}};,\[\]]+)", text)
                for it in names:
                    self.follow(inner, it)

    def contracts(self, crate, pattern):
        """What the contracts of functions that begin so speak of, and the views of types, in a crate or in a module of one."""
        name, _, module = crate.partition("/")
        for path in files(f"crates/{name}/src", ".rt"):
            if not path.startswith(f"crates/{name}/src/{module}"):
                continue
            if not module and any(path.startswith(f"crates/{name}/src/{it.partition('/')[2]}") for it in APART if it.startswith(f"{name}/")):
                continue
            text = text_of(path)
            uses = imports(text.splitlines(), "ghost use")
            for it in re.finditer(rf"^( *){pattern} .*?\n\1\{{|^ +ghost (?:Value|view) = .*?$", text, re.M | re.S):
                self.follow_all(it[0], uses)


def believed(theorem):
    """The files that a theorem's reader opens, lowest first, each with the numbers of the lines that are to be read."""
    reader = Reader()
    for it in THEOREMS[theorem]:
        what, _, crate = it.rpartition(" of ")
        if what == "calls":
            reader.contracts(crate, "pub fn")
        elif what == "exports":
            reader.contracts(crate, 'pub extern "C" fn')
        else:
            module, _, word = f"Rattle.{it}".rpartition(".")
            reader.follow(module, word)
    of = {}
    for it in reader.found.values():
        path = it.path if isinstance(it, RustType) else it.file.path
        numbers = it.numbers if isinstance(it, RustType) else [*it.file.head, *it.lines]
        of.setdefault(path, set()).update(numbers)
    return {path: sorted(of[path]) for path in in_order(of)}


def in_order(paths):
    """Files of definitions and of types, each behind those that it uses."""
    done, seen = [], set()

    def put(path):
        if path not in seen and path in paths:
            seen.add(path)
            for crate, kind, module in re.findall(r"use Rattle\.(\w+)\.specs\.(declared\.)?([\w.]+)", text_of(path)):
                parts = module.split(".")
                for end in range(len(parts), 0, -1):
                    inner = "/".join(parts[:end])
                    put(f"crates/{crate}/src/{inner}.rt" if kind else f"crates/{crate}/specs/{inner}.antt")
            done.append(path)

    order = crates()
    for path in sorted(paths, key=lambda it: (order.index(it.split("/")[1]), it)):
        put(path)
    return done


def lines_of(theorem):
    """How many lines are to be read, and of how many files."""
    found = believed(theorem)
    return [sum(len(it) for it in found.values()), len(found)]
