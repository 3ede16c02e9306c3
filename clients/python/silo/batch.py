"""A file of requests that `silo serve` answers at once."""

from __future__ import annotations

import os
import pathlib
import subprocess
from typing import Any, Dict, Mapping, Optional, Tuple

from silo.errors import SiloEnded
from silo.lines import outcome_of, read_replies
from silo.names import MOST_AGE, ages_text, check_tenants, checked_number
from silo.process import Path, option_words
from silo.strict import check_step

MOST_WORKERS = 64


def check_lines(path: Path) -> None:
    """Raises a ValueError that names the first line that `silo serve` would answer without a number."""
    for number, line in enumerate(pathlib.Path(path).read_bytes().split(b"\n"), 1):
        try:
            if line:
                check_step(line)
        except ValueError as fault:
            raise ValueError(f"line {number} of {path} says no step: {fault}") from None


def serve_file(
    path: Path,
    *tenants: str,
    workers: int = 4,
    journal: Optional[Path] = None,
    age: Optional[int] = None,
    ages: Optional[Mapping[str, int]] = None,
    program: Path = "silo",
) -> Dict[Tuple[str, int], Any]:
    """Has `silo serve` answer a file of requests: what each client was answered under each number, a value or a SiloError."""
    check_tenants(tenants)
    checked_number("workers", workers, 1, MOST_WORKERS)
    if age is not None:
        checked_number("age", age, 1, MOST_AGE)
    check_lines(path)
    if journal is not None and not pathlib.Path(journal).resolve().parent.is_dir():
        raise FileNotFoundError(f"the journal's folder isn't there: {journal}")
    given = {"--workers": workers, "--age": age, "--ages": ages_text(ages), "--journal": None if journal is None else os.fspath(journal)}
    with open(path, "rb") as lines:
        words = [os.fspath(program), "serve", *option_words(given), "--", *tenants]
        ran = subprocess.run(words, stdin=lines, capture_output=True, check=False)
    if ran.returncode != 0:
        raise SiloEnded(ran.returncode, ran.stderr.decode(errors="replace"))
    replies = read_replies(ran.stdout.rstrip(b"\n")) if ran.stdout else ()
    return {(it["from"], it["id"]): outcome_of(it) for it in replies if "id" in it}
