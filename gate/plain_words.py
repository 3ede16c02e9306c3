"""Words of the house that a stranger reads twice, and what to say instead. `gate/check-docs` refuses them on the pages."""

from __future__ import annotations

import re

# what a page may not say, as a pattern, and what to say instead
INSTEAD = [
    (r"behind", "after, below, follows"),
    (r"(?:told|tells?)(?! (?:\w+ )?apart)", "say, print, report, return, show"),
    (r"ask(?:s|ed|ing)? for", "request, need, take"),
    (r"of before", "earlier, older, the previous"),
    (r"of today", "current, newest, today's"),
    (r"ways? of (?:its|their) own", "a fast path, a separate path"),
    (r"gives? up|gave up|given up", "abandon, stop, reach a limit"),
    (r"comes? to(?! (?:cite|be|know)\b)", "reach, result in, be"),
    (r"hangs? on", "depend on"),
    (r"left away|leaves? away", "left out"),
    (r"so many|so much", "that many, as many"),
    (r"lets? (?:it |them )?go", "free, drop"),
    (r"hands? on|handed on", "pass"),
    (r"anew", "again"),
    (r"in vain", "without effect, for nothing"),
    (r"dear(?:er|est)?", "costly, expensive"),
    (r"of a processor", "of CPU time"),
]
PATTERNS = [(re.compile(rf"(?<![\w-])(?:{said})(?![\w-])", re.IGNORECASE), instead) for said, instead in INSTEAD]


def dialect_of(prose: str) -> list[str]:
    """What the text says in words of the house, each with the words before it and what to say instead; code in backticks may."""
    without_blocks = re.sub(r"(?<=\n\n)(?:    .*\n)+", "", prose)
    text = " ".join(re.sub(r"`[^`]*`|\]\([^)]*\)", "``", without_blocks).split())
    found = [(match.start(), text[max(0, match.start() - 30):match.end()], instead)
             for pattern, instead in PATTERNS for match in pattern.finditer(text)]
    return [f"'..{said}': say {instead}" for _place, said, instead in sorted(found)]
