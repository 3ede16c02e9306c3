"""The record of verdicts: which must-fail edits were tried, over what, and how they were refused.

`crates/NAME/verdicts` has a line for each edit and kit, which gate/try-edits writes:

    EDIT KIT KEY HOW SECONDS DATE

HOW is `contract`, `body` or `proof`: a goal of the contract was left open, another goal of the body, or a written proof no longer
fitted. SECONDS are those of a processor that the edit took by itself, or 0.0 where a check doesn't tell. KEY is a checksum over all that
the verdict rests on: the edit, the sources, definitions and proofs of its crate, and what callers see of each crate below. That is its
declarations, contracts, definitions and lemmas, and no body of a function: a proof rests on the contracts of what is called. Comments
and empty lines don't count.
"""

from __future__ import annotations

import dataclasses
import datetime
import functools
import hashlib
import pathlib
import random
import subprocess
from collections.abc import Iterable

from edits import FUNCTION, Crate, Edit, Result, below, lines_of_body

HOW = ("contract", "body", "proof")
FILE = "verdicts"

# Changed by hand when gate/try-edits judges otherwise than before, so that no older verdict counts.
RULES = "1"
RULES_OF_DEFINITIONS = "2"

PARTS = ("src", "specs", "proofs")
COMMENT = {".rt": "//", ".antt": "--"}
# The files of a function's own proof, which nothing else cites.
OF_ONE_PROOF = ("Answers.antt", "Invariants.antt", "Proof.antt")


@functools.cache
def kit() -> tuple[str, str]:
    """The kit's name, and the line by which it tells itself from every other."""
    said = subprocess.run(["rt", "version"], check=True, capture_output=True, text=True).stdout.strip()
    return said.split()[0], said


@dataclasses.dataclass(frozen=True)
class Verdict:
    """How an edit was refused, over what."""

    edit: str
    kit: str
    key: str
    how: str
    seconds: float
    date: str

    def line(self) -> str:
        return f"{self.edit} {self.kit} {self.key} {self.how} {self.seconds:.1f} {self.date}"


# ---- what a verdict rests on

def text_of(path: pathlib.Path) -> list[str]:
    """The lines of a file that mean something."""
    comment = COMMENT.get(path.suffix, "\0")
    lines = path.read_text(encoding="utf-8").split("\n")
    return [line for line in lines if line.strip() and not line.lstrip().startswith(comment)]


def without_bodies(lines: list[str]) -> list[str]:
    """The lines of a source, but for those of the bodies of functions that no constant is made by."""
    found, at = [], 0
    while at < len(lines):
        head = FUNCTION.match(lines[at])
        held = lines_of_body(lines, at, head[1]) if head and not head["const"] else None
        found += lines[at : held[0] + 1] if held else lines[at : at + 1]
        at = held[1] if held else at + 1
    return found


def files_of(crate: Crate) -> list[pathlib.Path]:
    return [it for part in PARTS for it in sorted((crate.folder / part).rglob("*.*t")) if it.suffix in COMMENT]


def digest(said: Iterable[tuple[str, list[str]]]) -> str:
    """A checksum over named texts."""
    total = hashlib.sha256()
    for name, lines in said:
        total.update(f"{name}\0{len(lines)}\0".encode())
        total.update("\n".join([*lines, ""]).encode())
    return total.hexdigest()


def sum_of(crate: Crate) -> str:
    """A checksum over a crate's own files."""
    return digest((str(it.relative_to(crate.folder)), text_of(it)) for it in files_of(crate))


def face_of(crate: Crate) -> str:
    """A checksum over what callers see of a crate."""
    seen = [it for it in files_of(crate) if it.name not in OF_ONE_PROOF]
    return digest((str(it.relative_to(crate.folder)), without_bodies(text_of(it)) if it.suffix == ".rt" else text_of(it)) for it in seen)


class Keys:
    """The keys of the edits of the repository's crates."""

    def __init__(self, crates: dict[str, Crate]) -> None:
        self.crates = crates
        self.sums = functools.cache(lambda name: sum_of(crates[name]))
        self.faces = functools.cache(lambda name: face_of(crates[name]))

    def of(self, edit: Edit) -> str:
        crate = self.crates[edit.crate]
        named = [*edit.named, *([f"below {edit.below}"] if edit.below else [])]
        rules = RULES if any(path.endswith(".rt") for path, _old, _new in edit.pairs) else RULES_OF_DEFINITIONS
        said = [("rules", [rules, kit()[1]]), ("edit", [*(it for pair in edit.pairs for it in pair), "refused", *named])]
        said.append((f"crate {crate.name}", [" ".join(crate.kit), self.sums(crate.name)]))
        for name in sorted(below(self.crates, crate.name)):
            said.append((f"below {name}", [" ".join(self.crates[name].kit), self.faces(name)]))
        return digest(said)[:16]


# ---- the record

def read_verdicts(crate: Crate) -> list[Verdict]:
    """The record of a crate. A line of another form is an error."""
    path = crate.folder / FILE
    found = []
    for line in path.read_text(encoding="utf-8").splitlines() if path.is_file() else ():
        edit, kit_name, key, how, seconds, date = line.split(" ")
        if how not in HOW:
            raise ValueError(f"{path}: {how} is no way to be refused")
        found.append(Verdict(edit, kit_name, key, how, float(seconds), date))
    return found


def write_verdicts(crate: Crate, verdicts: Iterable[Verdict]) -> None:
    lines = sorted(it.line() + "\n" for it in verdicts)
    (crate.folder / FILE).write_text("".join(lines), encoding="utf-8")


class Record:
    """The records of all crates, and the keys that the edits have now."""

    def __init__(self, crates: dict[str, Crate]) -> None:
        self.crates = crates
        self.keys = Keys(crates)
        self.of_crate = functools.cache(lambda name: {(it.edit, it.kit): it for it in read_verdicts(crates[name])})

    def find(self, edit: Edit) -> Verdict | None:
        """The verdict that still holds of an edit."""
        found = self.of_crate(edit.crate).get((edit.name, kit()[0]))
        return found if found and found.key == self.keys.of(edit) else None

    def note(self, result: Result) -> None:
        """Notes what came of an edit that was tried. One that wasn't refused takes the whole record of its crate away."""
        edit, verdicts = result.edit, self.of_crate(result.edit.crate)
        if not result.is_refused:
            verdicts.clear()
            return
        key, now = self.keys.of(edit), kit()[0]
        before = verdicts.get((edit.name, now))
        known = before.seconds if before and before.key == key else 0.0
        today = datetime.datetime.now(datetime.timezone.utc).date().isoformat()
        verdicts[edit.name, now] = Verdict(edit.name, now, key, HOW[result.kind()], result.own_seconds() or known, today)

    def write(self, edits: dict[str, list[Edit]]) -> None:
        """Writes the records of these crates, without edits that there are no more."""
        for name, of in edits.items():
            names = {it.name for it in of}
            write_verdicts(self.crates[name], [it for it in self.of_crate(name).values() if it.edit in names])


def sample(edits: dict[str, list[Edit]], seed: str, count: int) -> list[Edit]:
    """So many edits, drawn by a seed; all, if there are no more."""
    of_all = sorted((it for found in edits.values() for it in found), key=lambda it: (it.crate, it.name))
    return random.Random(seed).sample(of_all, min(count, len(of_all)))
