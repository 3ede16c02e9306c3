"""A page of a journal as it is read, and as it is behind its script: in Chromium, or in a stand-in for a browser by Node."""

from __future__ import annotations

import json
import os
import pathlib
import shutil
import subprocess
import urllib.parse
from html.parser import HTMLParser
from typing import NamedTuple, Optional, Union

HERE = pathlib.Path(__file__).resolve().parent
SECONDS = 60
BROWSERS = ["chromium", "chromium-headless-shell", "chromium-browser", "google-chrome", "google-chrome-stable", "chrome",
            "chrome-headless-shell", "headless_shell"]
WITHOUT_END = {"meta", "input"}


class Page(HTMLParser):
    """A page as it is read: its elements, its lines, and the texts that the picture has."""

    def __init__(self, text: str):
        super().__init__(convert_charrefs=True)
        self.elements: list[tuple[str, dict]] = []
        self.open: list[str] = []
        # the text of each element and the one around it, by its place
        self.texts: list[list[str]] = []
        self.parents: list[Optional[int]] = []
        self.around: list[int] = []
        self.faults: list[str] = []
        self.feed(text)
        self.close()

    def handle_starttag(self, tag: str, attrs: list) -> None:
        self.handle_startendtag(tag, attrs)
        if tag not in WITHOUT_END:
            self.open.append(tag)
            self.around.append(len(self.elements) - 1)

    def handle_startendtag(self, tag: str, attrs: list) -> None:
        self.elements.append((tag, dict(attrs)))
        self.texts.append([])
        self.parents.append(self.around[-1] if self.around else None)

    def handle_endtag(self, tag: str) -> None:
        if not self.open or self.open[-1] != tag:
            self.faults.append(f"{tag} ends where {self.open[-1:]} is open")
            return
        self.open.pop()
        self.around.pop()

    def handle_data(self, data: str) -> None:
        for place in self.around:
            self.texts[place].append(data)

    def handle_comment(self, data: str) -> None:
        self.faults.append("it has a comment")

    def of(self, tag: str) -> list[tuple[dict, str]]:
        """The elements of a tag, each with its attributes and its text."""
        return [(attributes, "".join(text)) for (name, attributes), text in zip(self.elements, self.texts) if name == tag]


class Shown(NamedTuple):
    """A page behind its script, as the stand-in has it."""

    elements: list[dict]
    address: str

    def of(self, tag: str) -> list[tuple[dict, str]]:
        return [(one["attributes"], one["text"]) for one in self.elements if one["tag"] == tag]


def chromium() -> Optional[str]:
    return os.environ.get("CHROMIUM") or next(filter(None, map(shutil.which, BROWSERS)), None)


def node() -> Optional[str]:
    return shutil.which("node")


def by_chromium(page: pathlib.Path, address: dict[str, str]) -> Union[Page, Shown]:
    """The page behind its script, at an address with this search."""
    words = ["--headless", "--no-sandbox", "--disable-gpu", f"--user-data-dir={page.parent / 'browser'}",
             "--virtual-time-budget=2000", "--dump-dom", f"{page.as_uri()}#{urllib.parse.urlencode(address)}"]
    done = subprocess.run([chromium(), *words], stdin=subprocess.DEVNULL, capture_output=True, timeout=SECONDS, check=False)
    return Page(done.stdout.decode("utf-8", "replace"))


def by_node(page: pathlib.Path, address: dict[str, str], clicked: tuple[str, ...] = (), typed: Optional[dict] = None) -> Shown:
    """The same, and behind what is clicked, by selectors, and typed into the fields."""
    read = Page(page.read_text(encoding="utf-8"))
    elements = [{"tag": tag, "attributes": attributes, "text": "".join(text), "parent": parent}
                for (tag, attributes), text, parent in zip(read.elements, read.texts, read.parents)]
    given = {"elements": elements, "script": read.of("script")[0][1], "address": urllib.parse.urlencode(address),
             "clicked": clicked, "typed": typed or {}}
    done = subprocess.run([node(), str(HERE / "journal_page_stand_in.js")], input=json.dumps(given).encode(), capture_output=True,
                          timeout=SECONDS, check=False)
    if done.returncode != 0:
        return Shown([], done.stderr.decode("utf-8", "replace")[-200:])
    return Shown(**json.loads(done.stdout))
