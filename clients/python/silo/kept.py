"""What a folder of data has, as `silo rows` prints it (docs/formats.md, 'Rows as lines')."""

from __future__ import annotations

import os
import re
import subprocess
from typing import Any, List, NamedTuple, Optional

from silo.errors import SiloEnded
from silo.lines import StrangeReply, read_replies
from silo.names import WORD
from silo.process import Path


class Row(NamedTuple):
    """The row of a grain. One that was cleared has a version, and None as its state."""

    grain: str
    version: int
    state: Any
    is_cleared: bool


class ActiveGrain(NamedTuple):
    """An active grain, and the version of its row that it knows, or None.

    `last` is when it was last used, and before `until` it isn't collected; both are milliseconds of the silo's clock.
    """

    grain: str
    version: Optional[int]
    last: int
    until: int
    state: Any


class Kept(NamedTuple):
    """Rows and active grains, both ascending by kind, tenant and name."""

    rows: List[Row]
    active: List[ActiveGrain]


def rows(folder: Path, tenant: Optional[str] = None, *, program: Path = "silo") -> Kept:
    """What the last checkpoint in a folder of data has, or a tenant's part of it; a process may have the folder.

    A SiloEnded with what the program says if there is no checkpoint, or if it is refused.
    """
    if tenant is not None and not re.fullmatch(WORD, tenant):
        raise ValueError(f"{tenant!r} is no tenant: it has to be like red")
    words = [os.fspath(program), "rows", "--", os.fspath(folder), *([] if tenant is None else [tenant])]
    ran = subprocess.run(words, stdin=subprocess.DEVNULL, capture_output=True, check=False)
    if ran.returncode != 0:
        raise SiloEnded(ran.returncode, ran.stderr.decode(errors="replace"))
    return kept_of(ran.stdout)


def kept_of(lines: bytes) -> Kept:
    """What these lines say; StrangeReply where they say something else."""
    kept = Kept([], [])
    try:
        for it in read_replies(lines[:-1]) if lines else ():
            if "row" in it:
                kept.rows.append(Row(it["row"], it["version"], it.get("state"), "state" not in it))
            else:
                kept.active.append(ActiveGrain(it["active"], it["version"], it["last"], it["until"], it["state"]))
    except KeyError as fault:
        raise StrangeReply(f"a line has no {fault}") from None
    return kept
