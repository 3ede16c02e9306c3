"""Looks whether a page that journal-page writes says what the journal says, and whether hostile names and texts stay text.

A page is read by Python's reader of HTML. Its script runs in Chromium and in a stand-in for a browser by Node, where they are.
"""

from __future__ import annotations

import pathlib
import subprocess
from typing import Callable, NamedTuple, Optional
from xml.etree import ElementTree

from places import TOOLS
from journal.page import sum_of
from journal_page_shown import Page, Shown, by_chromium, by_node, chromium, node
from slow_silo.journal import Journal, journal_text, read_step
from slow_silo.machine import Limits
from slow_silo.names import Grain
from slow_silo.steps import Reply, Tick
from slow_silo.storage import Row
from slow_silo.values import spelled_message

SECONDS = 60
ELEMENTS = {"html", "head", "meta", "title", "style", "body", "header", "h1", "div", "label", "input", "output", "button", "main",
            "section", "ol", "li", "b", "script", "svg", "g", "rect", "line", "path", "circle", "text", "tspan"}
# what would take something from elsewhere, or run something
REACHING = {"src", "href", "xlink:href", "action", "formaction", "style", "srcdoc", "data", "poster", "background"}

# texts that would be something else in a page that doesn't escape them
TEXTS = ["</script><script>document.title='run'</script>", "<img src=x onerror=document.title='run'>", "</title></svg><b>",
         "\"><svg onload=document.title='run'>", "' onclick='document.title=1' x='", "]]><!--", "&lt;b&gt;&#60;b&#62;",
         "javascript:document.title='run'", "\u2028\u0000\u202e", "</li></ol></style>"]
NAMES = [text.replace(" ", "/") for text in TEXTS if text.isprintable() and text.isascii()]


def written(path: pathlib.Path, *words: str) -> str:
    done = subprocess.run([str(TOOLS / "journal-page"), str(path), *words], stdin=subprocess.DEVNULL, capture_output=True,
                          timeout=SECONDS, check=False)
    return done.stdout.decode() if done.returncode == 0 else done.stderr.decode()


def told(path: pathlib.Path, *words: str) -> list[str]:
    done = subprocess.run([str(TOOLS / "tell-journal"), str(path), *words], stdin=subprocess.DEVNULL, capture_output=True,
                          timeout=SECONDS, check=False)
    return done.stdout.decode().splitlines()


# ---- what is in a page

def policy_fault(page: Page) -> Optional[str]:
    """The policy allows the page's one script and its one style, and nothing else."""
    policies = [said["content"] for said, _text in page.of("meta") if said.get("http-equiv") == "Content-Security-Policy"]
    scripts, styles = ([text for _said, text in page.of(tag)] for tag in ("script", "style"))
    if len(policies) != 1 or len(scripts) != 1 or len(styles) != 1:
        return f"it has {len(policies)} policies, {len(scripts)} scripts and {len(styles)} styles"
    wanted = {"default-src 'none'", f"script-src '{sum_of(scripts[0])}'", f"style-src '{sum_of(styles[0])}'", "base-uri 'none'",
              "form-action 'none'"}
    return None if set(policies[0].split("; ")) == wanted else f"its policy is {policies[0]}"


def form_fault(page: Page) -> Optional[str]:
    """Each element and each attribute is one that the page itself has."""
    for tag, attributes in page.elements:
        names = [name for name in attributes if name in REACHING or name.startswith("on")]
        if tag not in ELEMENTS or names:
            return f"it has {tag} {attributes}"
    return page.faults[0] if page.faults else None


def words_fault(page: Page, path: pathlib.Path, words: list[str]) -> Optional[str]:
    """Its lines are those that are told; and what is found by a grain, by a client or as an error is what is told of it."""
    lines = page.of("li")
    if [text for _said, text in lines] != told(path, *words):
        return "its words aren't those that are told"
    for name, option in (("data-grains", "--grain"), ("data-clients", "--client")):
        for one in sorted({one for said, _text in lines for one in said.get(name, "").split()})[:3]:
            if [text for said, text in lines if one in said.get(name, "").split()] != told(path, option, one, *words):
                return f"what it has of {one} isn't what is told"
    errors = [text for said, text in lines if said.get("class") == "error"]
    return None if errors == told(path, "--errors", *words) else "its errors aren't those that are told"


def picture_fault(text: str, page: Page) -> Optional[str]:
    """The picture can be read as XML, and its marks say steps that are told."""
    begin, end = text.find("<svg"), text.find("</svg>")
    try:
        ElementTree.fromstring(text[begin : end + len("</svg>")])
    except ElementTree.ParseError as error:
        return f"its picture can't be read: {error}"
    steps = {said["data-step"] for said, _text in page.of("li") if "data-step" in said}
    marks = {said["data-begin"] for said, _text in page.of("g") if said.get("class") == "mark"}
    cut = {mark for mark in marks - steps if int(mark) >= int(min(steps, key=int, default="1"))}
    return f"marks of steps that aren't told: {sorted(cut)[:3]}" if cut else None


def fault_of_page(path: pathlib.Path, *words: str) -> Optional[str]:
    text = written(path, *words)
    page = Page(text)
    return policy_fault(page) or form_fault(page) or words_fault(page, path, list(words)) or picture_fault(text, page)


# ---- a hostile journal

def hostile() -> Journal:
    """Names and texts that would be something else if they weren't escaped; and replies and rows that differ, which are told."""
    steps = []
    for number, name in enumerate(NAMES, 1):
        steps.append(read_step(f"call red/c{number} 1 counter/red:{name} {spelled_message(TEXTS[0], TEXTS).hex()}", []))
        for line in ("activate", "load", "begin"):
            steps.append(read_step(f"{line} counter/red:{name}" + " ok" * (line == "load"), []))
        steps.append(read_step(f"end counter/red:{name} {number}", []))
    for text in TEXTS:
        steps.append(read_step(f"call blue/c1 1 counter/red:{NAMES[0]} {spelled_message(text, {text: text}).hex()}", []))
    replies = (Reply(steps[0].grain, code=40, text=NAMES[0]),)
    rows = tuple((Grain("counter", "red", name), Row(1, TEXTS)) for name in sorted(NAMES))
    return Journal((("red", Limits(100, 9)), ("blue", Limits(1, 1))), 1, (*steps, Tick(1)), replies, rows)


class Checked(NamedTuple):
    # each check with its fault, if it has one
    found: dict[str, Optional[str]]
    # each check that wasn't made, with the reason
    skipped: dict[str, str]


def check_pages(story: bytes, folder: pathlib.Path) -> Checked:
    """Of a journal with each kind of step, and of a hostile one whose file has a hostile name."""
    plain, odd = folder / "page-story", folder / "<b>'&amp;\"<script>"
    plain.write_bytes(story)
    odd.write_bytes(journal_text(hostile()))
    found = {"page of the story": fault_of_page(plain), "page of a part": fault_of_page(plain, "--tenant", "red", "--steps", "9-20"),
             "page of a hostile journal": fault_of_page(odd), "page of a hostile part": fault_of_page(odd, "--tenant", "red")}
    pages = [folder / "plain.html", folder / "odd.html"]
    for journal, page in zip((plain, odd), pages):
        page.write_text(written(journal), encoding="utf-8")
    skipped = {}
    for name, program, show in (("Chromium", chromium(), by_chromium), ("Node", node(), by_node)):
        if program is None:
            skipped[f"pages in {name}"] = f"there is no {name}"
        else:
            shown = {**searches(show, plain, odd, pages), "a place": place_fault(show, pages[0])}
            found.update({f"page in {name}: {what}": fault for what, fault in shown.items()})
    if chromium() is not None:
        found["what is not escaped doesn't run"] = planted_fault(pages[0], plain.name)
    if node() is not None:
        found.update({f"clicks on a page, {words}": clicks_fault(pages[0], words) for words in ("began", "ended")})
    return Checked(found, skipped)


# ---- behind the script

def search_fault(shown: Shown, wanted: list[str]) -> Optional[str]:
    """The lines that a search leaves."""
    lines = [text for said, text in shown.of("li") if "hidden" not in said]
    counts = [text for _said, text in shown.of("output")]
    if lines != wanted:
        return f"it leaves {lines[:3]} of {len(lines)} lines"
    return None if counts == [f"{len(wanted)} of {len(shown.of('li'))} lines"] else f"it counts {counts}"


def place_fault(show: Callable, page: pathlib.Path) -> Optional[str]:
    """A step is selected, and the picture is twice as large."""
    first, second = show(page, {}), show(page, {"step": "9", "zoom": "2"})
    selected = [said.get("data-step") for said, _text in second.of("li") if "selected" in said.get("class", "")]
    widths = [float(said["width"]) for shown in (first, second) for said, _text in shown.of("svg")]
    return None if selected == ["9"] and widths[1:] == [2 * widths[0]] else f"it selects {selected}, and is {widths} wide"


def searches(show: Callable, plain: pathlib.Path, odd: pathlib.Path, pages: list[pathlib.Path]) -> dict[str, Optional[str]]:
    """Each search leaves what is told, and what hostile texts would do isn't done."""
    refused = [text for said, text in Page(pages[0].read_text(encoding="utf-8")).of("li") if said.get("data-codes")]
    grain = f"counter/red:{NAMES[0]}"
    cases = [(0, {}, told(plain)), (0, {"client": "red/c2"}, told(plain, "--client", "red/c2")), (0, {"code": "any"}, refused),
             (0, {"code": "54"}, [text for text in refused if " 54, " in text]),
             (0, {"code": "53", "client": "red/c2"}, [text for text in told(plain, "--client", "red/c2") if " 53, " in text]),
             (0, {"request": "12"}, [text for text in told(plain) if "request 12" in text]),
             (0, {"words": "THE CLOCK"}, [text for text in told(plain) if "the clock" in text]),
             (1, {"grain": grain}, told(odd, "--grain", grain)), (1, {}, told(odd))]
    found = {f"page {place}, {address}": search_fault(show(pages[place], address), wanted) for place, address, wanted in cases}
    titles = [text for _said, text in show(pages[1], {}).of("title")]
    found["hostile texts"] = None if titles[:1] == [odd.name] else f"its title is {titles[:1]}"
    return found


def planted_fault(page: pathlib.Path, title: str) -> Optional[str]:
    """If something weren't escaped, the policy would still keep it from running."""
    planted = page.with_name("planted.html")
    said = "".join(f"<li>{text}</li>" for text in TEXTS[:2])
    planted.write_text(page.read_text(encoding="utf-8").replace("<ol>", f"<ol>{said}", 1), encoding="utf-8")
    titles = [text for _said, text in by_chromium(planted, {}).of("title")]
    return None if titles[:1] == [title] else f"its title is {titles[:1]}"


def clicks_fault(page: pathlib.Path, words: str) -> Optional[str]:
    """A mark is clicked, the picture is made larger, and words are typed. Lines with them are left, and the marks of their steps
    don't fade; all of it stands in the address."""
    shown = by_node(page, {}, ("#picture .mark", "button[name]"), {"words": words})
    selected = [said["data-step"] for said, _text in shown.of("li") if "selected" in said.get("class", "")]
    left = [(said, text) for said, text in shown.of("li") if "hidden" not in said]
    if len(selected) != 1 or not left or any(words not in text for _said, text in left):
        return f"it selects {selected}, and leaves {len(left)} lines: {shown.address}"
    steps = {said["data-step"] for said, _text in left}
    marks = [said for said, _text in shown.of("g") if "mark" in said.get("class", "").split()]
    for mark in marks:
        if bool(steps & {mark["data-begin"], mark["data-end"]}) != (mark["class"] == "mark"):
            return f"the mark of steps {mark['data-begin']} to {mark['data-end']} is {mark['class']}"
    wanted = f"words={words}&step={selected[0]}&zoom=1.25"
    return None if shown.address == wanted else f"its address is {shown.address}, and not {wanted}"
