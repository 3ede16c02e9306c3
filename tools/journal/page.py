"""A journal as a page of HTML in one file: its picture, and beside it the words, which can be searched.

The page takes nothing from anywhere: its policy names its own script and its own style by their sums, and allows nothing else.
Whatever the journal says is escaped, in the picture as in the words.
"""

from __future__ import annotations

import base64
import hashlib
import pathlib
from typing import Iterable, NamedTuple, Optional, Union

from slow_silo.journal import Journal
from slow_silo.names import Caller, Grain
from .drawing import LABELS, TOP, Drawing
from .shapes import box, escaped, line, with_title
from .subjects import clients_of, codes_of, grains_of, is_error, requests_of
from .told import ToldReport, ToldRow, ToldStep, parts_of, told_reports, told_rows, told_steps

HERE = pathlib.Path(__file__).resolve().parent
POLICY = "default-src 'none'; script-src '{script}'; style-src '{style}'; base-uri 'none'; form-action 'none'"
# what can be searched for, with what is shown in the empty field; of numbers also how they are typed
SEARCHED = [("grain", "part of a name", ""), ("client", "part of a name", ""), ("code", "40 or any", ' inputmode="text"'),
            ("request", "number", ' inputmode="numeric"'), ("words", "any text", "")]
ZOOMS = [("closer", "+"), ("further", "−"), ("same", "1:1"), ("all", "all")]


class PageDrawing(Drawing):
    """The picture with its steps as wide as they can be read; names and numbers stay in sight, and marks say their steps."""

    def __init__(self, journal: Journal, tenants: list[str], steps: range):
        super().__init__(journal, tenants, steps, float("inf"))
        self.labels: list[str] = []
        self.headings: list[str] = []
        # where the lanes end, and the legend begins
        self.end = 0.0

    def label(self, drawn: str) -> None:
        self.labels.append(drawn)

    def heading(self, drawn: str) -> None:
        self.headings.append(drawn)

    def legend(self) -> None:
        self.end = self.below
        super().legend()

    def titled(self, drawn: str, text: str, begin: int, end: int) -> str:
        return with_title(drawn, text, f' class="mark" data-begin="{begin}" data-end="{end}"')

    def parts(self) -> list[str]:
        cursor = line(0, 0, 0, self.below, "#e08a00", ' id="cursor" visibility="hidden"')
        return [*super().parts(), cursor,
                '<g id="headings">', box(0, 0, self.width, TOP - 4, "#ffffff"), *self.headings, "</g>",
                '<g id="labels">', box(0, 0, LABELS - 20, self.end, "#ffffff"), *self.labels, "</g>"]


class Subjects(NamedTuple):
    """What a line can be found by."""

    grains: Iterable[Grain] = ()
    clients: Iterable[Caller] = ()
    codes: Iterable[int] = ()
    requests: Iterable[int] = ()

    def attributes(self) -> str:
        """As attributes of the line. No name has a space."""
        parts = [("grains", [grain.text() for grain in self.grains]), ("clients", [client.text() for client in self.clients]),
                 ("codes", map(str, self.codes)), ("requests", map(str, self.requests))]
        said = ((name, " ".join(dict.fromkeys(texts))) for name, texts in parts)
        return "".join(f' data-{name}="{escaped(text)}"' for name, text in said if text)


def item(text: str, subjects: Subjects, error: bool, more: str = "", number: str = "") -> str:
    marked = ' class="error"' if error else ""
    return f"<li{marked}{more}{subjects.attributes()}>{number}{escaped(text)}</li>"


def step_item(told: ToldStep, drawing: Drawing) -> str:
    subjects = Subjects(grains_of(told), clients_of(told), codes_of(told), requests_of(told))
    place = f' data-step="{told.number}" data-x="{drawing.x(told.number):.1f}"'
    return item(told.words(), subjects, is_error(told), place, f"<b>{told.number}</b> ")


def other_item(told: Union[ToldRow, ToldReport]) -> str:
    if isinstance(told, ToldRow):
        return item(told.words(), Subjects([told.grain]), False)
    return item(told.words(), Subjects(), told.found.difference is not None)


def items(journal: Journal, tenants: list[str], steps: Optional[range], drawing: Drawing) -> list[str]:
    """The words: of the steps, and of the whole also the rows and the audits."""
    parts, found = parts_of(journal, tenants), []
    for told in told_steps(journal, parts):
        if steps is not None and told.number >= steps.stop:
            break
        if steps is None or told.number in steps:
            found.append(step_item(told, drawing))
    if steps is None:
        found += map(other_item, told_rows(journal, tenants))
        found += map(other_item, told_reports(journal, parts))
    return found


# ---- the page

def sum_of(text: str) -> str:
    """By which a policy names a script or a style."""
    return "sha256-" + base64.b64encode(hashlib.sha256(text.encode()).digest()).decode()


def head(title: str, script: str, style: str) -> list[str]:
    policy = POLICY.format(script=sum_of(script), style=sum_of(style))
    return ["<!DOCTYPE html>", '<html lang="en">', "<head>", '<meta charset="utf-8">',
            f'<meta http-equiv="Content-Security-Policy" content="{policy}">', '<meta name="referrer" content="no-referrer">',
            f"<title>{escaped(title)}</title>", f"<style>{style}</style>", "</head>"]


def bar(title: str) -> list[str]:
    """The search and the zoom, above the picture."""
    fields = (f'<label>{name} <input name="{name}" placeholder="{shown}" autocomplete="off"{more}></label>'
              for name, shown, more in SEARCHED)
    buttons = (f'<button type="button" name="{name}">{shown}</button>' for name, shown in ZOOMS)
    return ["<header>", f"<h1>{escaped(title)}</h1>", '<div id="search">', *fields, "</div>", '<output id="found"></output>',
            "<div>", *buttons, "</div>", "</header>"]


def page(journal: Journal, tenants: list[str], steps: Optional[range], title: str) -> str:
    """The page of these tenants, over these steps or all."""
    script, style = ((HERE / f"page.{kind}").read_text(encoding="utf-8") for kind in ("js", "css"))
    drawing = PageDrawing(journal, tenants, steps or range(1, len(journal.steps) + 1))
    picture = drawing.text()
    return "\n".join([
        *head(title, script, style), "<body>", *bar(title), "<main>", '<section id="picture" tabindex="0">', picture, "</section>",
        '<section id="words" tabindex="0">', "<ol>", *items(journal, tenants, steps, drawing), "</ol>", "</section>", "</main>",
        f"<script>{script}</script>", "</body>", "</html>", ""])
