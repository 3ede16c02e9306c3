"""The words that a silo takes, and the rules by which they are looked at before it sees them (docs/formats.md, 'Names', 'Limits')."""

from __future__ import annotations

import re
from typing import Mapping, Optional, Sequence

MOST_TENANTS = 1_000
MOST_KINDS = 64
MOST_ACTIVATIONS = 10_000
MOST_WAITING = 1_000
MOST_AGE = 86_400_000
MOST_SENDS = 1_000_000

WORD = "[a-z][a-z0-9-]{0,31}"
CALLER = re.compile(f"{WORD}/{WORD}")
GRAIN = re.compile(f"{WORD}/{WORD}:[!-~]{{1,128}}")
TENANT = re.compile(f"({WORD}):([1-9][0-9]{{0,4}}):([1-9][0-9]{{0,3}})")
KIND = re.compile(WORD)


def checked_caller(caller: object) -> str:
    """The text of a caller, such as `red/web`; a ValueError if it is none."""
    if isinstance(caller, str) and CALLER.fullmatch(caller):
        return caller
    raise ValueError(f"{caller!r} is no caller: it has to be like red/web, each word 1 to 32 of a-z, 0-9 and -, the first a letter")


def checked_grain(grain: object) -> str:
    """The text of a grain, such as `counter/red:a`; a ValueError if it is none."""
    if isinstance(grain, str) and GRAIN.fullmatch(grain):
        return grain
    raise ValueError(f"{grain!r} is no grain: it has to be like counter/red:a, with a name of 1 to 128 visible characters of ASCII")


def checked_number(what: str, number: object, least: int, most: int) -> int:
    """A whole number from `least` to `most`; a ValueError that names it by `what` if it is none. A bool is none."""
    if isinstance(number, int) and not isinstance(number, bool) and least <= number <= most:
        return number
    raise ValueError(f"{what} is {number!r}, and has to be a whole number from {least} to {most}")


def check_tenants(tenants: Sequence[str]) -> None:
    """A ValueError that names the first word that is no `TENANT:ACT:MAIL`, or whose tenant was named before."""
    if not 1 <= len(tenants) <= MOST_TENANTS:
        raise ValueError(f"a silo has 1 to {MOST_TENANTS} tenants, such as red:2:4")
    named = set()
    for word in tenants:
        found = TENANT.fullmatch(word) if isinstance(word, str) else None
        if found is None or int(found[2]) > MOST_ACTIVATIONS or int(found[3]) > MOST_WAITING:
            raise ValueError(f"{word!r} is no tenant: it has to be like red:2:4, with 1 to {MOST_ACTIVATIONS} activations and 1 to {MOST_WAITING} waiting")
        if found[1] in named:
            raise ValueError(f"tenant {found[1]} is named twice")
        named.add(found[1])


def ages_text(ages: Optional[Mapping[str, int]]) -> Optional[str]:
    """The text of `--ages`, in milliseconds by kind; none if no kind has an age of its own."""
    if not ages:
        return None
    if len(ages) > MOST_KINDS:
        raise ValueError(f"{len(ages)} kinds have an age of their own, and {MOST_KINDS} may")
    for kind, age in ages.items():
        if not isinstance(kind, str) or not KIND.fullmatch(kind):
            raise ValueError(f"{kind!r} is no kind: it has to be like counter")
        checked_number(f"the age of {kind}", age, 1, MOST_AGE)
    return ",".join(f"{kind}={age}" for kind, age in ages.items())
