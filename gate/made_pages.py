"""Parts of pages that a tool makes: each stands between two comments, or from one to the end of its page.

The first comment says which tool makes the part. What isn't made is written by hand.
"""

from __future__ import annotations

import re

BEGINS = "<!-- Made by {}: don't edit what follows. -->\n"
ENDS = "<!-- What follows is written by hand. -->\n"
MADE = re.compile(r"<!-- Made by (?P<by>.*?): don't edit what follows\. -->\n.*?(?:" + re.escape(ENDS) + r"|\Z)", re.S)


def by_hand(text: str) -> str:
    """A page without what is made."""
    return MADE.sub("", text)


def words(text: str) -> int:
    """How many words of a page are written by hand."""
    return len(by_hand(text).split())


def with_part(text: str, maker: str, said: str) -> str:
    """A page whose part of that maker is what is said now; a page that has none gets it at its end."""
    begins = BEGINS.format(maker)
    at = text.find(begins)
    if at < 0:
        return text + begins + said
    ends = text.find(ENDS, at)
    return text[:at] + begins + said + (text[ends:] if ends >= 0 else "")
