"""The definitions of the repository: what each names, and what the promises reach.

A promise is a clause (`requires`, `ensures`) of a function that a crate of PROMISING exports, a law (`src/laws.rt` of any crate), or a
clause of a trait of PREMISES, which the promises take as given. A definition is reached if a promise names it, or a definition that
is reached does, by the `use` lines of its file, or a type of the code that is seen as it (its `Model`).
"""

from __future__ import annotations

import collections
import pathlib
import re
from typing import Iterator, NamedTuple, Optional

ROOT = pathlib.Path(__file__).resolve().parent.parent
CRATES = ROOT / "crates"
PROMISES = ROOT / "docs" / "promises.md"
# the crates whose exported functions make the promises
PROMISING = ["silo_program", "silo_words", "command_parts", "line_commands", "serve_command", "journal_commands", "rows_command",
             "line_service", "line_answer", "line_protocol", "line_text", "worker_host", "client_lanes", "tenant_audit", "tenant_machine",
             "journal_text", "line_parser", "silo_core"]
# traits that a promise takes as given
PREMISES = [("grain_storage", "GrainStorage"), ("grain_logic", "GrainLogic"), ("command_parts", "WholeFiles")]

NAME = r"[^\s(){}\[\],;.:→×λ≡¬\"]+"
TOKEN = re.compile(rf"{NAME}(?:\.{NAME})*")
USE = re.compile(r"^\s*(?:ghost |pub )?use Rattle\.(\S+?)(?:\.\{(.*)\}|(?: as (\S+))?);?\s*$")
HEAD = re.compile(r"(?:abbrev |unfoldable )?(?:pub )?(?:record |data )?(\S+) (?:.*:|\()")
IN_MODULE = re.compile(r" +(?:(?:abbrev|unfoldable) (?:pub )?|(?:pub )?record )(\S+) (?:.*:|\()")
MEMBER = re.compile(r"  (?:pub )?(\S+) :")
OF_CODE = re.compile(r"(\w+)\.specs\.declared\.(?:.*\.)?(\w+?)(?:\.TheVariants)?")
CLAUSE = re.compile(r"\b(?:requires|ensures)\*?(?: once)?(?: \w+)? \{")
OF_SPECS = re.compile(r"(\w+)\.specs\.((?:\w+\.)*\w+)")


class Place(NamedTuple):
    """A definition of a file of specs/, or a type of the code."""

    crate: str
    # the file's name without its ending, or None for a type of the code
    file: Optional[str]
    name: str

    def text(self) -> str:
        return f"{self.crate}::{self.name}" if self.file is None else f"{path_of(self)}, {self.name}"


def path_of(place: Place) -> str:
    return f"{place.crate}/specs/{place.file}.antt"


class Names:
    """What the names of a file stand for."""

    def __init__(self, text: str):
        # a name, and a name before a dot
        self.single: dict[str, tuple[str, str]] = {}
        self.before_dot: dict[str, str] = {}
        for line in text.splitlines():
            found = USE.match(line)
            if found is None:
                continue
            module, listed, alias = found.groups()
            if listed is None:
                self.before_dot[alias or module.rsplit(".", 1)[-1]] = module
            for one in (listed or "").split(","):
                name, _as, shown = one.strip().partition(" as ")
                self.single[shown or name] = (module, name)

    def places(self, text: str) -> Iterator[Place]:
        """What the text names."""
        for token in set(TOKEN.findall(text)):
            first, *rest = token.split(".")
            if first in self.single:
                yield from place_of(*self.single[first])
            elif first in self.before_dot and rest:
                yield from place_of(self.before_dot[first], rest[0])
        for name, (module, own) in self.single.items():
            parts = [part for part in name.split("◌") if part]
            if "◌" in name and any(part in text for part in parts):
                yield from place_of(module, own)


def place_of(module: str, name: str) -> Iterator[Place]:
    """The place of a name of a module, if it is of this repository."""
    of_code, of_specs = OF_CODE.fullmatch(module), OF_SPECS.fullmatch(module)
    if of_code and (CRATES / of_code[1]).is_dir():
        yield Place(of_code[1], None, of_code[2])
    elif of_specs and (CRATES / of_specs[1] / "specs" / f"{of_specs[2].replace('.', '/')}.antt").is_file():
        yield Place(of_specs[1], of_specs[2].replace(".", "/"), name)


# ---- definitions

def without_comments(text: str, mark: str) -> str:
    return "\n".join(re.sub(rf"(^|\s){mark}.*", "", line) for line in text.splitlines())


class Spec:
    """A file of specs/: for each name of it the text of the definition that it is in."""

    def __init__(self, crate: str, file: str):
        text = without_comments((CRATES / crate / "specs" / f"{file}.antt").read_text(encoding="utf-8"), "--")
        self.names = Names(text)
        self.texts: dict[str, str] = {}
        self.crate, self.file = crate, file
        # the names of one definition: its own, and those of its constructors or of what is defined with it
        own: list[str] = []
        has_members = False
        for line in text.splitlines():
            if not line.strip() or USE.match(line):
                continue
            head, is_mutual = HEAD.match(line) or IN_MODULE.match(line), line.startswith("abbrev mutual")
            if is_mutual or head and (not line.startswith(" ") or IN_MODULE.match(line)):
                own, has_members = [] if is_mutual else [head[1]], is_mutual or "data " in line
            member = MEMBER.match(line) if has_members else None
            own += [member[1]] if member else []
            for name in own:
                self.texts[name] = self.texts.get(name, "") + line + "\n"

    def cited(self, name: str) -> Iterator[Place]:
        text = self.texts.get(name, "")
        yield from self.names.places(text)
        for token in set(TOKEN.findall(text)):
            if token.split(".")[0] in self.texts:
                yield Place(self.crate, self.file, token.split(".")[0])


# ---- code

def in_braces(text: str, begin: int) -> str:
    """From the brace at the place to the one that closes it."""
    depth = 0
    for place in range(begin, len(text)):
        depth += {"{": 1, "}": -1}.get(text[place], 0)
        if depth == 0:
            return text[begin:place]
    return text[begin:]


def clauses(text: str) -> str:
    return " ".join(in_braces(text, found.end() - 1) for found in CLAUSE.finditer(text))


def type_of(head: str) -> str:
    """The type whose methods an `impl` has, without its parameters."""
    named = head.split(" for ")[-1].removeprefix("impl").strip()
    return re.sub(r"^<.*?> ", "", named).split("<")[0].strip()


class Function(NamedTuple):
    crate: str
    file: str
    name: str
    # the type whose method it is
    owner: Optional[str]
    head: str
    names: Names


class Crate:
    """A crate's code: its functions with their clauses, its traits, its models, and what it exports."""

    def __init__(self, name: str):
        self.name = name
        self.functions: list[Function] = []
        self.models: dict[str, tuple[str, Names]] = {}
        self.traits: dict[str, tuple[str, Names]] = {}
        for path in sorted((CRATES / name / "src").rglob("*.rt")):
            self.read(path.name, without_comments(path.read_text(encoding="utf-8"), "//"))
        library = CRATES / name / "src" / "lib.rt"
        text = library.read_text(encoding="utf-8") if library.is_file() else ""
        self.exported = set(re.findall(r"\w+", " ".join(re.findall(r"pub use \w+(?:::\w+)*::([^;]*);", text))))

    def read(self, file: str, text: str) -> None:
        names = Names(text)
        owner = None
        for found in re.finditer(r"^(?:impl\b|pub trait (\w+)|( *)pub fn (\w+))|^}", text, re.MULTILINE):
            rest = text[found.start():]
            if found[0].startswith("impl"):
                head = rest[: rest.index("{")]
                owner = type_of(head)
                if " Model for " in head:
                    body = in_braces(rest, rest.index("{"))
                    value = re.search(r"ghost Value = \{", body)
                    self.models[owner] = (in_braces(body, value.end() - 1), names)
            elif found[1]:
                self.traits[found[1]] = (in_braces(rest, rest.index("{")), names)
            elif found[3]:
                head = re.split(rf"\n{found[2]}\{{", rest, maxsplit=1)[0]
                self.functions.append(Function(self.name, file, found[3], owner, head, names))
            else:
                owner = None

    def exported_functions(self) -> Iterator[Function]:
        for function in self.functions:
            if (function.owner or function.name) in self.exported:
                yield function


# ---- the search

class Search:
    """What is reached from the promises, and from where."""

    def __init__(self):
        self.crates = {path.name: Crate(path.name) for path in sorted(CRATES.iterdir()) if (path / "src").is_dir()}
        self.specs: dict[tuple[str, str], Spec] = {}
        self.types = {name: crate.name for crate in self.crates.values() for name in crate.models}
        self.before: dict[Place, object] = {}
        self.left: collections.deque = collections.deque()
        for crate in PROMISING:
            for function in self.crates[crate].exported_functions():
                self.start(f"{crate}::{function.name}", function.names, clauses(function.head), function.head)
        for crate in self.crates.values():
            for function in crate.functions:
                if function.file == "laws.rt" and not crate.name.startswith("test_"):
                    self.start(f"law {crate.name}::{function.name}", function.names, clauses(function.head), "")
        for crate, trait in PREMISES:
            text, names = self.crates[crate].traits[trait]
            self.start(f"trait {crate}::{trait}", names, text, "")
        while self.left:
            place = self.left.popleft()
            for cited in self.cited(place):
                self.reach(cited, place)

    def start(self, name: str, names: Names, text: str, head: str) -> None:
        for place in names.places(text):
            self.reach(place, name)
        for word in set(re.findall(r"\b[A-Z]\w+", head)) & set(self.types):
            self.reach(Place(self.types[word], None, word), name)

    def reach(self, place: Place, source: object) -> None:
        if place not in self.before:
            self.before[place] = source
            self.left.append(place)

    def cited(self, place: Place) -> Iterator[Place]:
        if place.file is None:
            text, names = self.crates[place.crate].models.get(place.name, ("", Names("")))
            yield from names.places(text)
            return
        key = (place.crate, place.file)
        if key not in self.specs:
            self.specs[key] = Spec(*key)
        yield from self.specs[key].cited(place.name)

    def files(self) -> dict[str, Place]:
        """Each file that is reached, with the definition of it that was reached first."""
        found: dict[str, Place] = {}
        for place in self.before:
            if place.file is not None:
                found.setdefault(path_of(place), place)
        return found

    def way(self, place: object) -> str:
        found = []
        while isinstance(place, Place):
            found.append(place.text())
            place = self.before[place]
        return " <- ".join([*found, str(place)])


def named_files(text: str) -> list[str]:
    """The files of specs/ that a text names; one without a crate is of the crate that was named last. A `*` stands for all names."""
    crate, found = "", []
    for named in re.findall(r"`([^`\s]+)`", text):
        parts = named.split("/")
        if len(parts) > 1 and (CRATES / parts[0]).is_dir():
            crate = parts[0]
        if named.endswith(".antt"):
            folders = parts[parts.index("specs") + 1:-1] if "specs" in parts else [part for part in parts if part == "inside"]
            file = "/".join([crate, "specs", *folders, parts[-1]])
            found += sorted(path.relative_to(CRATES).as_posix() for path in CRATES.glob(file)) if "*" in file else [file]
    return found


def reading_order() -> list[str]:
    """The files of docs/promises.md, 'Reading order'."""
    return named_files(PROMISES.read_text(encoding="utf-8").split("## Reading order")[1].split("\n## ")[0])
