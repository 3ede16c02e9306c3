"""A worked row: an input with what is written."""

from __future__ import annotations

from typing import NamedTuple


class Row(NamedTuple):
    name: str
    words: list
    # standard input, in lines without LF
    lines: list
    # standard output, likewise
    out: list
    status: int = 0
    errors: str = ""
    # the files before, and those that are looked at after, by their paths
    files: dict = {}
    files_after: dict = {}
