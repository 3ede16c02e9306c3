"""A small log and a small checkpoint, cut at each byte and with each byte changed, and what a start from it has to do then.

That is said of the batches as they were written, and not by the rule by which a log is read:

- A log that was cut is the whole batches before the cut. If it is cut in its head it is refused.
- A changed byte in the head has the log refused, and one in a batch before the last has it refused at the first line from that batch on
  that doesn't begin with `+`. In the last batch it has the log refused there, or that batch cut off.
- So it is of a log behind a checkpoint. A checkpoint that was cut or changed is refused, and its log isn't looked at.
"""

from __future__ import annotations

from random import Random
from typing import Iterator, NamedTuple, Optional

import places  # noqa: F401
from crash_stories import Data, Life, Story
from slow_silo.checkpoint import sum_of
from slow_silo.log import FORM, Writer

ADD = b'{"op":"call","from":"red/c","id":%d,"grain":"counter/red:a","method":"add","args":{"by":%d}}'
SAVE = b'{"op":"call","from":"red/c","id":3,"grain":"counter/red:a","method":"save"}'
BATCHES = ([ADD % (1, 3), b'{"op":"status","from":"red/c","id":2}'], [ADD % (2, 4)], [SAVE, b'{"op":"tick","now":5}', b""], [ADD % (4, 5)])
LF, PLUS, EQUALS = b"\n+="


class Damaged(NamedTuple):
    """Data of which the log or the checkpoint was cut, or a byte changed: in the first part, which is the head, or in another."""

    name: str
    data: Data
    part: int
    is_cut: bool


class SmallLog:
    """A log of a few batches, and where its head and each batch end; some batches before them may be in a checkpoint."""

    def __init__(self, behind: int = 0) -> None:
        self.story = Story(["red:2:4"], [line for batch in BATCHES for line in batch])
        first = sum(map(len, BATCHES[:behind]))
        self.point = self.story.point(first, b"0123456789abcdef") if behind else None
        self.story.points |= {self.point: first} if behind else {}
        writer = Writer(self.story.said, sum_of(self.point) if self.point else 0x0123456789ABCDEF)
        self.ends = [len(writer.text)]
        for batch in BATCHES[behind:]:
            writer.batch(batch, self.story.text(first, first + len(batch)))
            first += len(batch)
            self.ends.append(len(writer.text))
        self.text = writer.text

    def damaged(self, chance: Random) -> Iterator[Damaged]:
        """Each byte cut and changed: to one that differs in a bit, to LF and to zero, and the first of a line to that of another kind."""
        for place, byte in enumerate(self.text):
            part = sum(end <= place for end in self.ends)
            yield Damaged(f"cut at {place}", Data(self.text[:place], self.point), part, True)
            others = [byte ^ 1 << chance.randrange(8), LF, 0, *((PLUS, EQUALS) if self.text[:place].endswith(b"\n") else ())]
            for other in others:
                if other != byte:
                    changed = self.text[:place] + bytes([other]) + self.text[place + 1:]
                    yield Damaged(f"byte {place} changed to {other}", Data(changed, self.point), part, False)

    def fault(self, log: Damaged, start: Life) -> Optional[str]:
        """What is wrong with a start from it that was asked the looks."""
        if log.part == 0:
            is_log = log.data.log.startswith(FORM)
            return refused(log, start, *((2, b"the data have other words") if is_log else (4, b"log line 1 is refused")))
        if log.is_cut or log.part == len(self.ends) - 1 and start.status == 0:
            return self.fault_of_kept(log.part - 1, start)
        line = self.refused_line(log)
        return "no line of it can be refused" if line is None else refused(log, start, 4, b"log line %d is refused" % line)

    def refused_line(self, log: Damaged) -> Optional[int]:
        """The first whole line from the damaged batch on that doesn't begin with `+`, counted from 1."""
        at = self.ends[log.part - 1]
        lines = log.data.log[at:].split(b"\n")[:-1]
        before = self.text.count(b"\n", 0, at)
        return next((before + number for number, line in enumerate(lines, 1) if not line.startswith(b"+")), None)

    def fault_of_kept(self, batches: int, start: Life) -> Optional[str]:
        """What is wrong with a start from just the first of the batches."""
        return self.story.fault_of_start(Data(self.text[:self.ends[batches]], self.point), start)


class SmallPoint(SmallLog):
    """The same, but the checkpoint is cut and changed."""

    def __init__(self) -> None:
        super().__init__(3)

    def damaged(self, chance: Random) -> Iterator[Damaged]:
        """Each byte cut, and changed to one that differs in a bit; and last a cut by nothing."""
        for place, byte in enumerate(self.point):
            changed = self.point[:place] + bytes([byte ^ 1 << chance.randrange(8)]) + self.point[place + 1:]
            yield Damaged(f"a checkpoint cut at {place}", Data(self.text, self.point[:place]), 0, True)
            yield Damaged(f"byte {place} of a checkpoint changed", Data(self.text, changed), 0, False)
        yield Damaged("a whole checkpoint", Data(self.text, self.point), 0, True)

    def fault(self, log: Damaged, start: Life) -> Optional[str]:
        if log.data.checkpoint == self.point:
            return self.fault_of_kept(-1, start)
        return refused(log, start, 4, b"the checkpoint is refused")


def refused(log: Damaged, start: Life, status: int, says: bytes) -> Optional[str]:
    """Refused data stay as they are, and nothing is told but what is wrong with them."""
    wanted = (b"", b"silo: " + says + b"\n", status, log.data)
    found = (start.out, start.errors, start.status, start.left)
    return None if found == wanted else f"it ends by {found!r:.300}, and not by {wanted!r:.300}"
