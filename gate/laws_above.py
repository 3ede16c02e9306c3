"""Laws of a crate, brought into a copy of a crate below, so that an edit of a definition there can be tried against them.

A crate with a wrong definition can't be built, since its own proofs no longer fit, and so nothing can be proved over it. So a law
goes down: its function, and the files of specs/ and proofs/ that its statement and its proof name, as far as they stand above. They
get names of their own there, and a crate that is named by them and isn't above is read as it was built.
"""

from __future__ import annotations

import pathlib
import re
from collections.abc import Iterable

from edits import Crate, below

USED = re.compile(r"\bRattle\.(\w+)\.(specs|proofs)\.(?!declared\b|laws\b)(\w+)")
ANY = re.compile(r"\bRattle\.(\w+)\.")
LAW = re.compile(r"((?:#\[[^\n]*\]\n)?pub fn (\w+)\(\)\n    ensures \{ (\w+) \}\n\{\}\n)")
BY_LEMMA = re.compile(r"crate::proofs::(\w+)::")


def new_name(crate: str, module: str) -> str:
    """The name of a module of a crate above in the crate below."""
    return "".join(it.capitalize() for it in crate.split("_")) + module


class Brought:
    """What the laws of a crate need in the copy of a crate below."""

    def __init__(self, crates: dict[str, Crate], above: Crate, target: Crate, functions: Iterable[str]) -> None:
        self.crates, self.above, self.target = crates, above, target
        self.stays = {*below(crates, target.name), target.name}
        self.laws = [it for it in LAW.findall(above.text("src/laws.rt")) if it[1] in {name.split("::")[-1] for name in functions}]
        self.uses = [it for it in above.text("src/laws.rt").split("\n") if it.startswith("ghost use ")]
        self.modules: set[tuple[str, str, str]] = set()
        self.named: set[str] = set()
        for text in self.heads():
            self.take(text)

    def heads(self) -> Iterable[str]:
        """Where the laws begin: their statements, and their proofs."""
        for text, function, law in self.laws:
            yield from (it for it in self.uses if re.search(rf"\b{law}\b", it))
            yield "".join(f"Rattle.{self.above.name}.proofs.{it}" for it in BY_LEMMA.findall(text))
            yield self.answers(function)

    def answers(self, function: str) -> str:
        path = self.above.folder / "proofs/laws" / function / "Answers.antt"
        return path.read_text(encoding="utf-8") if path.is_file() else ""

    def take(self, text: str) -> None:
        """Notes what a text names that isn't below."""
        self.named |= {it for it in ANY.findall(text) if it in self.crates}
        for module in USED.findall(text):
            crate, part, name = module
            if crate in self.crates and crate not in self.stays and self.has(*module) and module not in self.modules:
                self.modules.add(module)
                self.take(self.crates[crate].text(f"{part}/{name}.antt"))

    def has(self, crate: str, part: str, name: str) -> bool:
        return (self.crates[crate].folder / part / f"{name}.antt").is_file()

    def renamed(self, text: str) -> str:
        """A text with the names that the modules have below."""
        for crate, part, name in self.modules:
            text = re.sub(rf"\bRattle\.{crate}\.{part}\.{name}\b", f"Rattle.{self.target.name}.{part}.{new_name(crate, name)}", text)
        text = BY_LEMMA.sub(lambda it: f"crate::proofs::{new_name(self.above.name, it[1])}::", text)
        return text.replace(f"Rattle.{self.above.name}.proofs.laws.", f"Rattle.{self.target.name}.proofs.laws.")

    def libraries(self) -> list[str]:
        """The built crates that only the laws name."""
        of_modules = {crate for crate, _part, _name in self.modules}
        return sorted(self.named - of_modules - {self.target.name, self.above.name, *self.target.deps})

    def write(self, room: pathlib.Path) -> None:
        """Puts the laws into a copy of the crate below."""
        for crate, part, name in sorted(self.modules):
            text = self.renamed(self.crates[crate].text(f"{part}/{name}.antt"))
            (room / part / f"{new_name(crate, name)}.antt").write_text(text, encoding="utf-8")
            with open(room / part / "Lib.antt", "a", encoding="utf-8") as file:
                file.write(f"pub mod {new_name(crate, name)}\n")
        laws = {law for _text, _function, law in self.laws}
        found = []
        for use in self.uses:
            head, names = re.fullmatch(r"(ghost use [^{]*)\{([^}]*)\};", use).groups()
            kept = [it for it in re.split(r",\s*", names.strip()) if it in laws]
            if kept:
                found.append(self.renamed(head + "{" + ", ".join(kept) + "};"))
        path = room / "src/laws.rt"
        text = path.read_text(encoding="utf-8")
        at = text.index("ghost use ")
        texts = [self.renamed(it) for it, _function, _law in self.laws]
        path.write_text("\n".join([text[:at] + "\n".join(found), text[at:], *texts]), encoding="utf-8")
        for _text, function, _law in self.laws:
            answers = self.renamed(self.answers(function))
            if answers:
                folder = room / "proofs/laws" / function
                folder.mkdir(parents=True, exist_ok=True)
                (folder / "Answers.antt").write_text(answers, encoding="utf-8")
