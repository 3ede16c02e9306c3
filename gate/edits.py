"""Must-fail edits: what they change, which of them can be tried together, and what the prover says against each.

The functions of a file are found in the form that `rt fmt` gives it. A function that can't be copied beside itself, such as one
that constants may be made by, takes no second edit in one check.
"""

from __future__ import annotations

import dataclasses
import functools
import pathlib
import re
import sys
from collections.abc import Iterator

ROOT = pathlib.Path(__file__).resolve().parent.parent

FUNCTION = re.compile(r"( *)(?:pub(?:\([a-z: ]+\))? )?(?P<const>const )?(?:unsafe )?fn (?P<name>\w+)")
CLAUSE = re.compile(r"(?:requires|ensures|ghost|where)\b")
BLOCK = re.compile(r"impl(?:<.*?>)? (?:(?P<trait>[\w:]+)(?:<(?P<args>[^>]*)>)? for )?(?P<ref>&(?:'\w+ )?)?(?P<type>[\w:]+|\([^()]*\))")

TRAIT = re.compile(r"^(?:pub(?:\([a-z: ]+\))? )?(?:unsafe )?trait (\w+)")
ENSURES = re.compile(r"\s*ensures\s+(?:(\w+)\s+)?\*?\{")

TYPE = re.compile(r"^(?:pub(?:\([a-z: ]+\))? )?(?:struct|enum) (\w+)", re.M)

# What the prover says of a place in the sources, of one in a function's proof, and of a function.
AT_SOURCE = re.compile(r"(?:note: )?(?:\./)?(src/\S+?\.rt):(\d+):\d+: (.*)")
AT_PROOF = re.compile(r"(?:note: )?(?:\./)?proofs/(\S+)/\w+\.antt:\d+:\d+: (error.*)")
OF_FUNCTION = re.compile(r"fn (\S+): (not proved|no proof|could not tell)(.*)")
# what it says of a definition that it refuses
ILL_TYPED = re.compile(r"\./specs/\S+: error: ")
UNKNOWN = re.compile(r"has no function `([^`]+)`")
# A proof that cites what was not proved elsewhere.
CITES = re.compile(r"has no field|is not in scope|has no `|was not admitted")

# What refused an edit, the strongest first; and the goals that are a contract's, by the beginnings of their names.
BY_CONTRACT, BY_BODY, BY_PROOF = range(3)
KINDS = ("a goal of the contract", "another goal of the body", "a proof that no longer fits")
OPEN_GOAL = re.compile(r"not proved that .*\(`([^`]+)`\)")
OPEN_GOALS = re.compile(r"did not prove (.*)")
# In a cycle of functions each goal has its function's name before it.
OF_CONTRACT = re.compile(r"(?:\w+-)?(?:returns|invariant_of)")
IN_CLAUSE = re.compile(r"-clause-(\w+)")

# The name of a contract's clause that has none, and of a type's invariant.
UNNAMED, INVARIANT = "result", "invariant"

# The lines of an edit by which it may take long, or be refused by a proof alone.
REASONS = ("dear", "proof")

# What is written into the proof of a wrong body, and is wrong by itself.
WRONG = "wrong-by-itself"
SPOILING = f"\n{WRONG} : Unit {{0}} → Unit {{0}}\n{WRONG} = tt\n"


@dataclasses.dataclass(frozen=True)
class Body:
    """A function of a file: its path in the crate as the prover prints it, how many lines of attributes and of what is said of it
    stand above it, the first and last line of it and of its body, the lines round a copy of it, if a copy can stand beside it,
    whether its proof is one of several functions, the type or trait that it is a method of, and the clauses of its own contract."""

    file: str
    path: str
    above: int
    first: int
    opens: int
    last: int
    round: tuple[tuple[str, ...], tuple[str, ...]] | None
    in_cycle: bool
    type: str
    clauses: tuple[str, ...]


    def call(self) -> str:
        """The function as code names it: a method behind its type."""
        return "::".join(it for it in (self.type, self.path.split("::")[-1]) if it)


@dataclasses.dataclass
class Edit:
    """The pairs of texts to change in files, the functions whose bodies that changes, those that a line names, the call and the clause
    that it breaks, why it may be dear (`dear`) or refused by a proof alone (`proof`), and the crate below whose files it changes, if it is
    not its own that it changes. In a check it may be made in a copy of its function, which begins at some line, and the proof may be spoiled, so that it's no sign if there is none,
    unless a check left that open, so that it's to be tried with its proof as it is."""

    crate: str
    name: str
    pairs: list[tuple[str, str, str]] = dataclasses.field(default_factory=list)
    bodies: list[Body] = dataclasses.field(default_factory=list)
    named: list[str] = dataclasses.field(default_factory=list)
    breaks: tuple[str, ...] = ()
    reasons: dict[str, str] = dataclasses.field(default_factory=dict)
    below: str = ""
    suffix: str = ""
    copied_at: int = 0
    is_spoiled: bool = False
    as_it_is: bool = False

    def functions(self) -> list[str]:
        return self.named or [it.path + self.suffix for it in self.bodies]

    def stands_alone(self) -> bool:
        """Whether it changes more than bodies of functions, so that others might be refused for what it changes."""
        return len(self.bodies) != len(self.pairs)

    def is_of(self, function: str) -> bool:
        """Whether the prover's name of a function is that of one that must be refused."""
        is_named = f"::{function}".endswith(tuple(f"::{it}" for it in self.named))
        return is_named or function in {f"{self.crate}::{it.path}{self.suffix}" for it in self.bodies}

    def holds(self, file: str, line: int) -> bool:
        """Whether a line of a file as a check has it is one of the bodies, or of the attributes above it: the prover tells a goal of
        the whole function at the first of these."""
        for body in self.bodies:
            first = self.copied_at if self.suffix else body.first
            if body.file == file and first - body.above <= line <= first + body.last - body.first:
                return True
        return False

    def may_be_copied(self) -> bool:
        """Whether it changes one function alone, of which a copy can stand beside it."""
        return not self.named and not self.stands_alone() and len(set(self.bodies)) == 1 and self.bodies[0].round is not None


@dataclasses.dataclass(eq=False)
class Crate:
    """A line of crates.txt: the toolchain's libraries and the project's own ones that a crate stands on."""

    name: str
    kit: list[str]
    deps: list[str]

    @property
    def folder(self) -> pathlib.Path:
        return ROOT / "crates" / self.name

    def top(self) -> str:
        return "src/main.rt" if (self.folder / "src/main.rt").is_file() else "src/lib.rt"

    @functools.cache
    def text(self, file: str) -> str:
        return (self.folder / file).read_text(encoding="utf-8")

    @functools.cache
    def types(self) -> dict[str, list[list[str]]]:
        """The modules that have a type of a name."""
        found: dict[str, list[list[str]]] = {}
        for path in sorted((self.folder / "src").glob("**/*.rt")):
            file = str(path.relative_to(self.folder))
            for name in TYPE.findall(self.text(file)):
                found.setdefault(name, []).append(module_of(file))
        return found


@dataclasses.dataclass
class Result:
    edit: Edit
    is_refused: bool
    said: str
    seconds: float = 0.0
    clauses: tuple[str, ...] = ()
    is_alone: bool = False

    def own_seconds(self) -> float:
        """The seconds of a processor that the edit took by itself; 0 where a check of it alone holds the reading of its crate, too."""
        return 0.0 if self.is_alone else self.seconds

    def breaks_another(self) -> bool:
        """Whether a contract refused it, and by no clause that it names."""
        return self.kind() == BY_CONTRACT and bool(self.clauses) and self.edit.breaks[1:] != () and self.edit.breaks[1] not in self.clauses

    def kind(self) -> int:
        return kind_of(self.said)

    def show(self) -> None:
        verdict = f"refused by {KINDS[self.kind()]}" if self.is_refused else "NOT REFUSED"
        print(f"{self.edit.crate}/{self.edit.name}: {verdict} in {self.seconds:.1f} s: {self.said[:200]}", flush=True)


# ---- what stands in the files

def read_crates() -> dict[str, Crate]:
    found: dict[str, Crate] = {}
    for line in (ROOT / "crates.txt").read_text(encoding="utf-8").splitlines():
        name, colon, rest = line.partition("#")[0].partition(":")
        if colon:
            words = rest.split()
            own = [word for word in words if word in found]
            found[name.strip()] = Crate(name.strip(), [word for word in words if word not in found], own)
    return found


def below(crates: dict[str, Crate], name: str) -> list[str]:
    """The project's own crates that a crate stands on, lowest first."""
    found: list[str] = []
    for dep in crates[name].deps:
        found += [it for it in [*below(crates, dep), dep] if it not in found]
    return found


def block_name(line: str) -> tuple[str, str]:
    """The name that the prover gives an impl block, which is its type and behind it the trait and its arguments, and the type.
    A type behind a reference is named with `Ref` before it, and a tuple by its parts."""
    found = BLOCK.match(line)
    if not found:
        return "", ""
    parts = [it.split("::")[-1] for it in re.findall(r"[\w:]+", found["type"])]
    name, trait = parts[-1], (found["trait"] or "").split("::")[-1]
    if found["type"].startswith("("):
        name = f"Tuple{len(parts)}" + "".join(it[0].upper() + it[1:] for it in parts)
    return ("Ref" if found["ref"] else "") + name + trait + "".join(re.findall(r"\w+", found["args"] or "")), name


def lines_above(lines: list[str], first: int) -> list[str]:
    """The attributes and the lines on what it is that stand right above a line."""
    start = first
    while start > 0 and lines[start - 1].strip().startswith(("#[", "///")):
        start -= 1
    return [line.strip() for line in lines[start:first]]


def lines_of_body(lines: list[str], first: int, indent: str) -> tuple[int, int] | None:
    """Where the body of a function that begins at a line opens and closes, in the form that `rt fmt` gives it."""
    opens = None
    for at in range(first, len(lines)):
        line = lines[at]
        if opens is None and line.endswith("{") and (line == indent + "{" or not CLAUSE.match(line.strip())):
            opens = at
        elif opens is None and line.endswith(";") and not line.startswith(indent + " "):
            return None
        elif opens is not None and line == indent + "}":
            return opens, at
    return None


def module_of(file: str) -> list[str]:
    return [it for it in pathlib.PurePosixPath(file).with_suffix("").parts[1:] if it not in ("lib", "main", "mod")]


@functools.cache
def bodies_of(crate: Crate, file: str) -> list[Body]:
    """The functions of a file, but for those that constants may be made by. The prover names a method by the module of its type,
    and one of a trait by the module of its block."""
    types, lines = crate.types(), crate.text(file).split("\n")
    found, block, opens, closes, owner = [], [], (), (), ""
    for first, line in enumerate(lines):
        if not line.startswith(" "):
            owner = block_name(line)[1] or "".join(TRAIT.findall(line)) or (owner if not line.endswith(("{", "}")) else "")
        if line.startswith("impl"):
            name, of = block_name(line)
            is_here = name != of or module_of(file) in types.get(of, [module_of(file)])
            block = [*(module_of(file) if is_here else types[of][0]), name]
            opens, closes = ((line,), ("}",)) if line.endswith("{") and name == of else (None, None)
        elif line == "}":
            block, opens, closes = [], (), ()
        elif opens and line.startswith("    ghost use "):
            opens = (*opens, line)
        head = FUNCTION.match(line)
        held = lines_of_body(lines, first, head[1]) if head and not head["const"] else None
        if held:
            path = "::".join([*(block or module_of(file)), head["name"]])
            above = lines_above(lines, first)
            in_cycle = any(it.startswith("#[cycle") for it in above)
            copied = None if opens is None or in_cycle else (opens, closes)
            own = tuple(it[1] or UNNAMED for it in map(ENSURES.match, lines[first : held[0] + 1]) if it)
            of_type = owner if line.startswith(" ") else ""
            found.append(Body(file, path, len(above), first + 1, held[0] + 1, held[1] + 1, copied, in_cycle, of_type, own))
    return found


def read_edit(crate: Crate, file: pathlib.Path) -> Edit:
    edit = Edit(crate.name, file.stem)
    path, old = "", ""
    for line in file.read_text(encoding="utf-8").split("\n"):
        key, _colon, said = line.partition(":")
        said = said.removeprefix(" ")
        if key == "below":
            edit.below = said.strip()
        elif key == "file":
            path = said.strip()
        elif key == "old":
            old = said
        elif key == "new":
            edit.pairs.append((path, old, said))
        elif key == "refused":
            edit.named.append(said.strip())
        elif key == "breaks":
            edit.breaks = tuple(said.split())
        elif key in REASONS:
            edit.reasons[key] = said.strip()
    if edit.below and not edit.named:
        sys.exit(f"gate/try-edits: {crate.name}/{edit.name} changes a crate below, and no line `refused:` names a law")
    for path, old, new in edit.pairs if not edit.below else ():
        text = crate.text(path)
        line = text[: text.index(old)].count("\n") + 1 if text.count(old) == 1 else 0
        # A function may get a whole one before it that takes its name, so that no line of its body need stand once.
        is_put_before = edit.named and FUNCTION.match(old) and new.startswith(old)
        bodies = bodies_of(crate, path) if path.startswith("src/") else []
        held = [it for it in bodies if (it.first if is_put_before else it.opens) <= line <= it.last]
        edit.bodies += held[-1:]
        if not held and not edit.named:
            sys.exit(f"gate/try-edits: {crate.name}/{edit.name} changes no function's body, and no line `refused:` names one")
    return edit


def batches_of(edits: list[Edit]) -> list[list[Edit]]:
    """Puts edits together of which no two change the same function. An edit is made in a copy of its function, if it can be:
    the prover leaves the goals of what calls a wrong body untried. One that changes more than bodies stands alone."""
    batches: list[list[Edit]] = []
    copies: dict[tuple[str, int], int] = {}
    for edit in edits:
        edit.suffix = ""
        mine = {(it.file, it.first) for it in edit.bodies}
        if edit.may_be_copied():
            (of,) = mine
            copies[of] = copies.get(of, 0) + 1
            edit.suffix = f"_edited_{copies[of]}"
        for batch in batches:
            theirs = {(it.file, it.first) for other in batch for it in other.bodies if not other.suffix}
            if edit.stands_alone() or any(other.stands_alone() for other in batch):
                continue
            if edit.suffix or not mine & theirs:
                batch.append(edit)
                break
        else:
            batches.append([edit])
    return batches


# ---- what the prover says

def goals_in(line: str) -> list[str]:
    """The open goals that the prover names in a line."""
    one, several = OPEN_GOAL.search(line), OPEN_GOALS.search(line)
    return [one[1]] if one else re.findall(r"`([^`]+)`", several[1]) if several else []


def clause_of(goal: str) -> str:
    """The clause of a contract that a goal stands for."""
    if "invariant_of" in goal:
        return INVARIANT
    found = IN_CLAUSE.findall(goal)
    return found[-1] if found else UNNAMED


def kind_of(line: str) -> int:
    """What refused an edit of which the prover says this."""
    goals = goals_in(line)
    if any(map(OF_CONTRACT.match, goals)):
        return BY_CONTRACT
    return BY_BODY if goals else BY_PROOF


def not_read(crate: Crate, batch: list[Edit], lines: list[str]) -> list[Edit]:
    """The edits for which a shared check ended before any proof: what they made doesn't compile, or the prover knows their
    function by another name. They take the verdict from the others, so these are checked again without them."""
    if lines[-1].startswith("only="):
        return []
    found: list[Edit] = []
    for line in lines:
        source, unknown = AT_SOURCE.match(line), UNKNOWN.search(line)
        for edit in batch:
            is_named = unknown and unknown[1] in edit.functions()
            for body in edit.bodies if source and "error[" in source[3] and source[1] in {it.file for it in edit.bodies} else ():
                length = crate.text(body.file).count("\n") + 1
                is_named = is_named or (int(source[2]) > length if edit.suffix else body.first <= int(source[2]) <= body.last)
            if is_named and edit not in found:
                found.append(edit)
    return found


def refusal(edit: Edit, lines: list[str]) -> str | None:
    """What is said against a body of the edit itself, if anything is: the strongest of it."""
    return min(refusals(edit, lines), key=kind_of, default=None)


def clauses(edit: Edit, lines: list[str]) -> tuple[str, ...]:
    """The clauses of the contract that a body of the edit leaves open."""
    goals = [it for line in refusals(edit, lines) for it in goals_in(line)]
    return tuple(sorted({clause_of(it) for it in goals if OF_CONTRACT.match(it)}))


def refusals(edit: Edit, lines: list[str]) -> Iterator[str]:
    paths = {(it.path + edit.suffix).replace("::", "/") for it in edit.bodies}
    at_proof = [line for line in lines if (found := AT_PROOF.match(line)) and found[1] in paths and f"`{WRONG}`" not in found[2]]
    for line in lines if lines[-1].startswith("only=") else []:
        source, function = AT_SOURCE.match(line), OF_FUNCTION.match(line)
        if source and edit.holds(source[1], int(source[2])) and "not proved" in source[3]:
            yield line
        if line in at_proof and not CITES.search(line):
            yield line
        is_own = function and edit.is_of(function[1]) and ("it calls" not in function[3] or "` did not prove `" in function[3])
        is_of_spoiling = edit.is_spoiled and not at_proof and line.endswith(": not proved")
        if is_own and function[2] != "could not tell" and not is_of_spoiling:
            yield line


def verdict_alone(edit: Edit, status: int, lines: list[str]) -> Result:
    """What came of an edit that was tried alone. The prover may also meet a limit of its own at it. Definitions that are no longer
    well-typed refuse nothing."""
    broken = next((it for it in lines if ILL_TYPED.match(it)), "")
    if broken:
        return Result(edit, False, broken)
    for line in lines:
        told = OF_FUNCTION.match(line)
        if told and any(f"::{told[1]}".endswith(f"::{it}") for it in edit.functions()):
            if status == 1 or status == 3 and told[2] == "could not tell":
                return Result(edit, True, refusal(edit, lines) or line, clauses=clauses(edit, lines))
    rejected = next((it for it in lines if re.search(r"\berror\[[\w-]+\]", it)), "")
    return Result(edit, False, rejected or f"status {status}: {lines[-1]}")
