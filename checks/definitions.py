"""Which definitions a contract reaches: from the names in its clauses along the `use` lines, to the end, in this repository.

A definition of a file of specs/ is a block with the lines of comment right above it. A name leads from there to a definition of
the same file, or along the file's `use` lines to another file of specs/, to a type or constant of a source file (`declared`), or
to a library of the kit, where the way ends. A type of a source file leads on to the types that it names, and to its `impl Model`,
which says what contracts see of it. A name that a definition binds, and that is also the name of a definition of the same
file, is followed too: so what is listed may be too much, never too little."""

import re
from dataclasses import dataclass
from functools import cache
from pathlib import Path

ROOT = Path(__file__).resolve().parent.parent
WORD = re.compile(r"[^\W\d][\w'!?]*|«[^»]*»")
PATH = re.compile(r"(?:[^\W\d][\w'!?]*)(?:\.[^\W\d][\w'!?]*)*")
HEAD = re.compile(r"^(?:abbrev |unfoldable |infix[lr]? \d+ |pub )")
NAMED = re.compile(r"^(?:(?:abbrev|unfoldable) )?(?:pub )?(?:record |data )?(\S+)")
ITEM = r"^[ \t]*(?:pub(?:\([^)]*\))? )?(?:struct|enum|trait|type|const|union) {}\b"


class Unread(Exception):
    """A name that leads to nothing: the script does not know this form."""


@dataclass(frozen=True)
class Place:
    """A definition: the file from the repository's top, the name, and its first and last line, counted from 1."""

    file: str
    name: str
    first: int
    last: int

    @property
    def lines(self):
        return self.last - self.first + 1


def without_comments(text):
    """The text of a file of specs/ without comments and texts in quotes."""
    found = re.compile(r'"(?:[^"\\\n]|\\.)*"|--.*$', re.MULTILINE)
    text = found.sub(lambda one: '""' if one.group(0).startswith('"') else "", text)
    # A block of `do` is put together by this operator.
    return text + " >>=" if re.search(r"\bdo\b", text) else text


def statements(text, word):
    """The parts of the `use` lines that begin with this word, up to where their braces close."""
    form = rf"^[ \t]*(?:unfoldable )?(?:pub )?{word} (Rattle\.[^\n{{;]*)(?:\{{([^}}]*)\}})?([^\n;]*)"
    for found in re.finditer(form, text, re.MULTILINE):
        yield found.group(1).strip(), found.group(2), found.group(3).strip()


def uses(text, word):
    """What a file imports: each name with the module that it comes from and its name there, and each alias of a module."""
    names, modules = {}, {}
    for module, listed, behind in statements(text, word):
        if listed is None:
            module, _, alias = module.partition(" as ")
            modules[alias.strip() or module.split(".")[-1]] = module.strip()
            continue
        for one in filter(None, (part.strip() for part in listed.split(","))):
            there, _, here = one.partition(" as ")
            names[(here or there).strip()] = (module.rstrip("."), there.strip())
    return names, modules


@dataclass
class Specs:
    """A file of specs/: its lines, its definitions by name, and what it imports."""

    path: str
    lines: list
    definitions: dict
    names: dict
    modules: dict


@cache
def specs(path):
    """Reads a file of specs/."""
    text = (ROOT / path).read_text()
    lines = text.splitlines()
    names, modules = uses(text, "use")
    definitions = {}
    row = 0
    while row < len(lines):
        line = lines[row]
        if not HEAD.match(line) or re.match(r"(unfoldable )?pub (use|mod) ", line):
            row += 1
            continue
        first = row
        while first and lines[first - 1].startswith("--") and not lines[first - 1].startswith("-- ----"):
            first -= 1
        while re.match(r"infix", lines[row]):
            row += 1
        name = NAMED.match(lines[row]).group(1)
        row += 1
        last = row
        while row < len(lines) and not HEAD.match(lines[row]) and not lines[row].startswith("--"):
            if re.match(r"(pub )?use ", lines[row]):
                raise Unread(f"{path}:{row + 1}: a `use` line behind a definition")
            row += 1
            if lines[row - 1].strip():
                last = row
        place = Place(path, name, first + 1, last)
        definitions[name] = place
        if re.match(r"pub data ", lines[place.first - 1 + next(
                i for i, one in enumerate(lines[place.first - 1:last]) if not one.startswith("--"))]):
            for one in lines[place.first - 1:last]:
                made = re.match(r"  (?:pub )?([^\W\d][\w']*) :", one)
                if made:
                    definitions.setdefault(made.group(1), place)
    return Specs(path, lines, definitions, names, modules)


@cache
def specs_file(module):
    """The file of specs/ for a module `Rattle.CRATE.specs.FILE..`, and the words behind FILE; None where it is the kit's."""
    parts = module.split(".")
    if not (ROOT / "crates" / parts[1]).is_dir():
        return None
    if parts[2] != "specs":
        raise Unread(f"{module} is not in specs/")
    path = f"crates/{parts[1]}/specs/{parts[3]}.antt"
    if (ROOT / path).is_file():
        return path, parts[4:]
    _, passed_on = uses((ROOT / f"crates/{parts[1]}/specs/Lib.antt").read_text(), "use")
    if parts[3] in passed_on:
        return specs_file(".".join([passed_on[parts[3]]] + parts[4:]))
    raise Unread(f"{module}: there is no file {path}")


def rust_block(path, start):
    """The lines of the item that begins at this line, counted from 0, with its comments and attributes: first and behind last."""
    lines = (ROOT / path).read_text().splitlines()
    first = start
    while first and re.match(r"\s*(///|#\[)", lines[first - 1]):
        first -= 1
    depth, row = 0, start
    while True:
        line = re.sub(r"//.*$", "", lines[row])
        depth += sum(line.count(one) for one in "{([") - sum(line.count(one) for one in "})]")
        row += 1
        if depth == 0 and re.search(r"[;}]\s*$", line):
            return first, row


@cache
def rust_item(path, name):
    """The places of a type, trait or constant of a source file: the item, and its `impl Model`."""
    lines = (ROOT / path).read_text().splitlines()
    found = []
    for row, line in enumerate(lines):
        if re.match(ITEM.format(re.escape(name)), line) or re.match(rf"^impl(<.*>)? Model for {re.escape(name)}\b", line):
            first, last = rust_block(path, row)
            found.append(Place(path, name, first + 1, last))
    return tuple(found)


def source_of(crate, modules):
    """The source file of a module of a crate."""
    for path in (f"crates/{crate}/src/{'/'.join(modules)}.rt", f"crates/{crate}/src/{'/'.join(modules)}/mod.rt"):
        if (ROOT / path).is_file():
            return path
    raise Unread(f"{crate}: there is no source file for {'.'.join(modules)}")


@cache
def rust_uses(path):
    """What a source file imports of the repository's crates: each name with the crate."""
    text = (ROOT / path).read_text()
    here, found = Path(path).parts[1], {}
    for line in re.findall(r"^[ \t]*(?:pub )?use ([^;]*);", text, re.MULTILINE):
        crate = re.split(r"::", line.strip())[0]
        crate = here if crate in ("crate", "self", "super") else crate
        for one in WORD.findall(line):
            found[one] = crate
    return found


@cache
def item_in_crate(crate, name):
    """The places of a type, trait or constant of a crate, wherever it stands there."""
    for path in sorted((ROOT / "crates" / crate / "src").rglob("*.rt")):
        places = rust_item(str(path.relative_to(ROOT)), name)
        if places:
            return places
    for path in sorted((ROOT / "crates" / crate / "src").rglob("*.rt")):
        passed_on = rust_uses(str(path.relative_to(ROOT))).get(name, crate)
        if passed_on != crate and (ROOT / "crates" / passed_on).is_dir():
            return item_in_crate(passed_on, name)
    return ()


@cache
def declared(module, name):
    """The places of what a module `Rattle.CRATE.specs.declared..` says of the source: a type with all that is in it."""
    _, crate, _, _, *rest = module.split(".")
    modules = []
    while rest and not rest[0][0].isupper():
        modules.append(rest.pop(0).strip("«»"))
    owner = next((part for part in rest if part not in ("TheConstants", "TheVariants")), None)
    path = source_of(crate, modules)
    wanted = name if "TheConstants" in rest else owner or name
    places = rust_item(path, wanted) or item_in_crate(rust_uses(path).get(wanted, crate), wanted)
    if not places:
        raise Unread(f"{module}: {path} has no {wanted}")
    return places


class Reach:
    """All that is reached: places of definitions, and names of the kit by module."""

    def __init__(self):
        self.places, self.kit, self.todo = {}, {}, []

    def add(self, *places):
        for place in places:
            if place not in self.places:
                self.places[place] = None
                self.todo.append(place)

    def imported(self, module, name):
        """Follows a name that a module gives."""
        if ".specs.declared." in module and (ROOT / "crates" / module.split(".")[1]).is_dir():
            self.add(*declared(module, name))
            return
        there = specs_file(module)
        if there is None:
            self.kit.setdefault(module, set()).add(name)
            return
        path, rest = there
        file = specs(path)
        if rest and rest[0] in file.definitions:
            self.add(file.definitions[rest[0]])
        elif name in file.definitions:
            self.add(file.definitions[name])
        elif name in file.names:
            self.imported(*file.names[name])
        else:
            raise Unread(f"{path} has no {name}")

    def text(self, text, names, modules, local):
        """Follows each name of a text: what the file has itself, what it imports, and behind an alias what its module has."""
        for path in PATH.findall(text):
            head, _, rest = path.partition(".")
            if head in modules and rest:
                self.imported(modules[head], rest.split(".")[0])
            elif head in names:
                self.imported(*names[head])
            elif head in local:
                self.add(*local[head])
        for name, (module, there) in names.items():
            symbols = [part for part in name.split("◌") if part.strip()]
            if "◌" in name and symbols and all(symbol.strip() in text for symbol in symbols):
                self.imported(module, there)

    def rust(self, text, path):
        """Follows each name of a part of a source file."""
        whole = (ROOT / path).read_text()
        names, modules = uses(whole, "ghost use")
        text = re.sub(r"//.*$", "", text, flags=re.MULTILINE)
        imports = rust_uses(path)
        crate, local = Path(path).parts[1], {}
        for word in set(WORD.findall(text)):
            if word[0].isupper() and word not in names:
                if word in imports:
                    places = item_in_crate(imports[word], word) if (ROOT / "crates" / imports[word]).is_dir() else ()
                    if not places and imports[word] not in ("std", "core"):
                        self.kit.setdefault(imports[word], set()).add(word)
                    elif not places:
                        self.kit.setdefault("std, as code", set()).add(word)
                else:
                    places = rust_item(path, word)
                if places:
                    local[word] = places
        self.text(text, names, modules, local)

    def close(self):
        """Follows what was added, to the end."""
        while self.todo:
            place = self.todo.pop()
            if place.file.endswith(".rt"):
                lines = (ROOT / place.file).read_text().splitlines()
                self.rust("\n".join(lines[place.first - 1:place.last]), place.file)
                continue
            file = specs(place.file)
            text = without_comments("\n".join(file.lines[place.first - 1:place.last]))
            local = {name: (one,) for name, one in file.definitions.items() if "◌" not in name}
            self.text(text, file.names, file.modules, local)
            for name, one in file.definitions.items():
                symbols = [part for part in name.split("◌") if part]
                if "◌" in name and all(symbol in text for symbol in symbols):
                    self.add(one)


def contract(path, name):
    """A public function's comment, signature and clauses, word for word: all before its body."""
    lines = (ROOT / path).read_text().splitlines()
    starts = [row for row, line in enumerate(lines) if re.match(rf"pub fn {name}\b", line)]
    if len(starts) != 1:
        raise Unread(f"{path} has no function {name}")
    first = starts[0]
    while lines[first - 1].startswith(("///", "#[")):
        first -= 1
    last = starts[0]
    while not re.match(r"\{", lines[last]):
        last += 1
    return "\n".join(lines[first:last]).rstrip()


def reach_of(path, name, reach=None):
    """What a public function's contract reaches, or what an earlier one reached and this one beside it."""
    reach = reach or Reach()
    reach.rust(contract(path, name), path)
    reach.close()
    return reach
