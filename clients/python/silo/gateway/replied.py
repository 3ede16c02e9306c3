"""What lines of the program say: whose request each answers, or whose grain it is told to."""

from __future__ import annotations

import re
from typing import List, Optional

from silo.gateway.asked import WORD_BYTES
from silo.gateway.told import NOT_NOW

# each line, and its key if it answers a request; members ascend, so what tells whose it is stands before all that grains and callers chose
LINES = re.compile(rb'^(?:\{(?:"error":[0-9]{1,3},)?"from":"(%b/%b","id":[0-9]{1,19},)"(?:ok|text)":)?.*\n' % (WORD_BYTES, WORD_BYTES), re.MULTILINE)
TOLD = re.compile(rb'\{(?:"error":[0-9]{1,3},)?"from":"%b/(%b):' % (WORD_BYTES, WORD_BYTES))
UNNUMBERED = re.compile(rb'\{"error":[0-9]{1,3},"text":')
NOT_NOW_LINE = NOT_NOW[:-1]


def keys_of(lines: bytes) -> List[bytes]:
    """The key of each of these whole lines; an empty one if it answers no request."""
    return LINES.findall(lines)


def says_no_request(line: bytes) -> bool:
    """Whether a line takes what was asked for no request: that is what it says to a fence."""
    return UNNUMBERED.match(line) is not None


def tenant_told(line: bytes) -> Optional[str]:
    """Whose grain is told something by this line; none if it is no such line."""
    told = TOLD.match(line)
    return None if told is None else told[1].decode()
