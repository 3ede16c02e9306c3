"""What the tools for journals read: a file, one of its tenants, and a range of its steps."""

from __future__ import annotations

import argparse
import gc
import pathlib
import re
from typing import Optional

from slow_silo.audit import tenants_of
from slow_silo.journal import Journal, RefusedAt, read_journal
from slow_silo.steps import owner


class Fault(Exception):
    """What is told on standard error."""


def read_text(path: str) -> bytes:
    try:
        return pathlib.Path(path).read_bytes()
    except OSError as error:
        raise Fault("reading failed") from error


def journal_of(text: bytes) -> Journal:
    # these tools keep a journal until they end, so to look for what can be let go is for nothing
    gc.disable()
    try:
        return read_journal(text)
    except RefusedAt as refusal:
        raise Fault(f"journal line {refusal.line} is refused") from refusal


def read_file(path: str, tenant: Optional[str] = None, steps: Optional[range] = None) -> Journal:
    """The journal of a file, in which there is something of the tenant, and the steps begin, if these are asked for."""
    journal = journal_of(read_text(path))
    if tenant is not None and tenant not in tenants_of(journal):
        raise Fault(f"the journal has nothing of tenant {tenant}")
    if steps is not None and steps.start > len(journal.steps):
        raise Fault(f"the journal has {len(journal.steps)} steps")
    if tenant is not None and steps is not None:
        look_for_steps(journal, tenant, steps)
    return journal


def look_for_steps(journal: Journal, tenant: str, steps: range) -> None:
    """Fault if none of these steps is the tenant's or nobody's: nothing would be shown."""
    if all(owner(step) not in (tenant, None) for step in journal.steps[steps.start - 1:steps.stop - 1]):
        own = next((f"; its first is {number}" for number, step in enumerate(journal.steps, 1) if owner(step) == tenant), "")
        raise Fault(f"the journal has no step of tenant {tenant} among {steps.start}-{steps.stop - 1}{own}")


def read_range(text: str) -> range:
    """The steps A to B, both of them too."""
    found = re.fullmatch("([1-9][0-9]{0,8})-([1-9][0-9]{0,8})", text, re.ASCII)
    if found is None or int(found[1]) > int(found[2]):
        raise argparse.ArgumentTypeError("it is two numbers of steps, such as 20-60")
    return range(int(found[1]), int(found[2]) + 1)
