"""What the gateway tells its operator: a line with a level, on standard error."""

from __future__ import annotations

import contextlib
import sys
import time

# how many lines a second are told about what others cause, such as tokens that are refused
MOST_LINES = 5

_second, _lines, _left_out = 0, 0, 0


def tell(level: str, text: str) -> None:
    """`level` is `info`, `warning` or `error`. Control characters of others are written as '?', so that a line stays one."""
    moment = time.strftime("%Y-%m-%dT%H:%M:%SZ", time.gmtime())
    said = "".join(letter if letter.isprintable() else "?" for letter in text)
    with contextlib.suppress(OSError, ValueError):
        sys.stderr.write(f"{moment} {level}: {said}\n")
        sys.stderr.flush()


def tell_of_others(level: str, text: str) -> None:
    """The same of what anybody can cause as often as they like: a few lines a second, and how many were left out."""
    global _second, _lines, _left_out
    now = int(time.monotonic())
    if now != _second:
        if _left_out:
            tell("warning", f"lines of this kind were left out: {_left_out}")
        _second, _lines, _left_out = now, 0, 0
    _lines += 1
    if _lines <= MOST_LINES:
        tell(level, text)
    else:
        _left_out += 1
