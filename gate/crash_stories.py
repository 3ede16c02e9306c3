"""What a silo of data is asked in a trial, what the slow silo tells of it, and what has to hold of a folder that a crash left.

Which checkpoints a life makes is told by its lines alone: of each, behind which line, the log that it follows, and so all of its bytes.
"""

from __future__ import annotations

import functools
import re
from random import Random
from typing import Callable, NamedTuple, Optional, Sequence

import answer_input
import places  # noqa: F401
from slow_silo.answer import DEFAULT_SENDS
from slow_silo.checkpoint import Checkpoint, checkpoint_of, checkpoint_text, sum_of
from slow_silo.folder_texts import replaced_behind
from slow_silo.log import DIGITS, NotALog, OtherWords, Read, Words, cut_head, head_with, read_log, spelled
from slow_silo.logged import text_of, words_of
from slow_silo.program import FLAGS, OPTIONS, setup_of, split_words
from slow_silo.silo import Silo
from slow_silo.switched import MOST_LOG

# grains whose values are looked at behind a crash, at most
MOST_LOOKED_AT = 8
LOOKS = {"counter": "get", "sheet": "list"}
GRAIN = re.compile(rb'"grain":"((counter|sheet)/([a-z][a-z0-9-]*):[!#-\[\]-~]+)"')


class Data(NamedTuple):
    """What a folder has."""

    log: Optional[bytes] = None
    checkpoint: Optional[bytes] = None


class Leads(NamedTuple):
    """Where data lead: behind how many of a story's lines, and on which log a start goes on; none if on a new one of a random number."""

    lines: int
    number: Optional[bytes]
    # how many of the lines are in a checkpoint: a start makes one of the others
    point: int


NOTHING = Leads(0, None, 0)


class Life(NamedTuple):
    """A run of the program: what it was told and told, and the data before and after it."""

    # where the data before it led
    begun: Leads
    # what it told, on both streams, and its status
    out: bytes
    errors: bytes
    status: int
    left: Data

    @property
    def had(self) -> int:
        """How many lines of the story the data had."""
        return self.begun.lines


class Made(NamedTuple):
    """A checkpoint of a life, and behind how many of the lines that it is asked it is made."""

    place: int
    text: bytes


class Wrong(Exception):
    """What is wrong with data."""


class Story:
    """Lines, the words that the silo is given, and what it tells: for each line, and of itself behind so many of them."""

    def __init__(self, words: list[str], lines: list[bytes], room: int = MOST_LOG):
        self.words, self.lines = words, lines
        # bytes of lines for which there is room in a log
        self.room = room
        given, tenants = split_words(words, OPTIONS["answer"], FLAGS["answer"])
        self.setup = setup_of(given, tenants)
        self.most = int(given.get("--sends", DEFAULT_SENDS))
        self.said: Words = words_of(self.setup, self.most)
        self.probe = self.looks()
        # behind how many lines each checkpoint is that there may be: those of the lives so far, and those with which a trial begins
        self.points: dict[bytes, int] = {}
        silo = Silo(self.setup)
        self.texts = [text_of(silo, line, self.most) for line in lines]

    def looks(self) -> list[bytes]:
        """Lines that ask for each tenant's status, and for the values of some grains."""
        tenants = [tenant for tenant, _limits in self.setup.tenants]
        named = {found[0]: found for line in self.lines for found in GRAIN.findall(line) if found[2].decode() in tenants}
        asked = [b'{"op":"status","from":"%b/probe","id":1}' % tenant.encode() for tenant in tenants]
        for grain, kind, tenant in sorted(named.values())[:MOST_LOOKED_AT]:
            method = LOOKS[kind.decode()].encode()
            asked.append(b'{"op":"call","from":"%b/probe","id":2,"grain":"%b","method":"%b"}' % (tenant, grain, method))
        return asked

    def asks(self) -> bytes:
        """The looks, as an input."""
        return b"".join(line + b"\n" for line in self.probe)

    def data(self, first: int = 0) -> bytes:
        """The lines from one on, as an input."""
        return b"".join(line + b"\n" for line in self.lines[first:])

    def text(self, first: int, last: int) -> bytes:
        return b"".join(self.texts[first:last])

    def silo_behind(self, count: int) -> Silo:
        silo = Silo(self.setup)
        for line in self.lines[:count]:
            text_of(silo, line, self.most)
        return silo

    @functools.lru_cache(maxsize=None)
    def shown(self, count: int) -> bytes:
        """What the looks are told behind so many lines."""
        silo = self.silo_behind(count)
        return b"".join(text_of(silo, line, self.most) for line in self.probe)

    @functools.lru_cache(maxsize=None)
    def kept(self, count: int, looks: int = 0) -> Checkpoint:
        """What a checkpoint has behind so many lines, and then behind so many looks."""
        silo = self.silo_behind(count)
        for line in self.probe[:looks]:
            text_of(silo, line, self.most)
        return checkpoint_of(silo, "", self.most)

    def point(self, count: int, follows: bytes, looks: int = 0) -> bytes:
        """The checkpoint behind so many lines, which follows the log of this number."""
        return checkpoint_text(self.kept(count, looks)._replace(follows=follows.decode()))

    def made(self, begun: Leads, asked: Sequence[bytes], point: Callable[[int, bytes], bytes]) -> list[Made]:
        """The checkpoints of a life that begins there, if it comes to the end of these lines. That of a random number follows zeros."""
        number, found = begun.number or b"0" * DIGITS, []

        def length_at(place: int) -> int:
            nonlocal number
            found.append(Made(place, point(place, number)))
            number = spelled(sum_of(found[-1].text))
            return len(found[-1].text)

        places = list(replaced_behind(asked, self.room, begun.lines > begun.point, length_at))
        assert places == [it.place for it in found]
        return found

    @functools.lru_cache(maxsize=None)
    def made_on(self, begun: Leads) -> list[Made]:
        """The checkpoints of a life that begins there, and is asked all other lines."""
        return self.made(begun, self.lines[begun.lines:], lambda place, number: self.point(begun.lines + place, number))

    @functools.lru_cache(maxsize=8)
    def has_read(self, content: Optional[bytes]) -> Read:
        """What a log reads as; one that isn't there has nothing."""
        return Read((), 0, None) if content is None else read_log(self.said, content)

    def leads(self, left: Data) -> Leads:
        """Where data lead that a run of the story left; or Wrong."""
        if left.log is None:
            if left.checkpoint is not None:
                raise Wrong("there is a checkpoint, and no log")
            return NOTHING
        try:
            read, number = self.has_read(left.log), cut_head(self.said, left.log)[0]
        except (NotALog, OtherWords) as fault:
            raise Wrong(f"there is no log of its words: {fault!r}") from fault
        if read.fault is not None:
            raise Wrong(f"the log is refused at line {read.fault}")
        lines, (point, follows) = lines_of(read), self.point_in(left.checkpoint)
        own = number if left.checkpoint is None else spelled(sum_of(left.checkpoint))
        if number not in (own, follows):
            raise Wrong("the log is neither the checkpoint's own nor the one that it replaced")
        # the log that was replaced has the last lines of the checkpoint
        first = point if number == own else point - len(lines)
        if first < 0 or lines != self.lines[first:first + len(lines)]:
            raise Wrong("the log has lines that weren't asked, or in another order")
        return Leads(first + len(lines), own, point)

    def point_in(self, text: Optional[bytes]) -> tuple[int, Optional[bytes]]:
        """Behind how many lines the checkpoint is, and which log it follows; or Wrong."""
        if text is None:
            return 0, None
        if text not in self.points:
            raise Wrong(f"no checkpoint has to be there that is {text!r:.300}")
        return self.points[text], follows_in(text)

    def note_points(self, life: Life) -> None:
        """Notes which checkpoints it may have left. Which one follows a random number is known by that number."""
        left = life.left.checkpoint
        for place, text in self.made_on(life.begun):
            if life.begun.number is None and left is not None:
                text = self.point(place, follows_in(left))
            self.points[text] = life.had + place

    def fault_of_life(self, life: Life) -> Optional[str]:
        """What is wrong with what a life told, by the data that it left."""
        self.note_points(life)
        try:
            found = self.leads(life.left)
        except Wrong as fault:
            return f"it left data that are wrong: {fault}"
        if found.lines < life.had:
            return f"the data have {found.lines} lines, and had {life.had}"
        if not self.text(life.had, found.lines).startswith(life.out):
            return f"it told {life.out[-200:]!r}, which isn't what the {found.lines} lines are told"
        if not life.out.startswith(self.text(life.had, found.point)):
            return f"there is a checkpoint of {found.point} lines, and it told {life.out[-200:]!r} last"
        return None

    def fault_of_all(self, life: Life) -> Optional[str]:
        """What is wrong with the data behind a life that came to the end of all lines: there is a checkpoint of them, and a log without a
        batch."""
        found, made, left = self.leads(life.left), self.made_on(life.begun), life.left
        is_ended = found.point == len(self.lines) and left.log == head_with(self.said, found.number)
        is_last = life.begun.number is None or not made or made[-1].text == left.checkpoint
        return None if is_ended and is_last else f"no checkpoint of all lines took the place of the log: {left!r:.300}"

    def fault_of_start(self, before: Data, start: Life) -> Optional[str]:
        """What is wrong with a start from data of the story's lines, that was asked the looks."""
        found = self.leads(before)
        if (start.status, start.errors) != (0, b""):
            return f"the start ends with status {start.status}, {start.errors[:200]!r}"
        if start.out != self.shown(found.lines):
            return f"the start tells {start.out!r}, and behind {found.lines} lines it is {self.shown(found.lines)!r}"
        return self.fault_of_end(found, start.left)

    def fault_of_end(self, found: Leads, left: Data) -> Optional[str]:
        """What is wrong with the data behind such a start: there is a checkpoint of the lines and the looks, and a log without a batch.
        Between them there was one of the lines, if they weren't in one before."""
        if left.checkpoint is None:
            return "the start left no checkpoint"
        looks, text = self.made(found, self.probe, lambda place, number: self.point(found.lines, number, place))[-1]
        if found.number is None:
            text = self.point(found.lines, follows_in(left.checkpoint), looks)
        wanted = Data(head_with(self.said, spelled(sum_of(text))), text)
        return None if left == wanted else f"the start left {left!r}, and not {wanted!r}"


def lines_of(read: Read) -> list[bytes]:
    return [line for batch in read.batches for line in batch.lines]


def follows_in(checkpoint: bytes) -> bytes:
    """The number of the log that a checkpoint follows."""
    return checkpoint.split(b"\n")[1][len(b"follows "):]


def head_of(story: Story, content: bytes) -> bytes:
    return content[:cut_head(story.said, content)[1]]


def random_story(seed: str, lines: int, most: int, words: Sequence[str] = (), room: int = MOST_LOG) -> Story:
    """A seeded story of so many lines, and of so many bytes at most, with these words before its own."""
    chance = Random(seed)
    while True:
        given = answer_input.make_input(chance, None, [lines])
        if len(given.data) <= most and b'"send"' in given.data:
            return Story([*words, *given.words[1:]], given.data.split(b"\n")[:-1], room)


def long_story() -> Story:
    """Lines of 60,000 bytes, of which the first 280 are too many for a log of the program, and 10 more: some are puts, and the others are
    refused."""
    put = b'{"op":"call","from":"red/c","id":%d,"grain":"sheet/red:s","method":"put","args":{"name":"k%d","value":"'
    begun = [(put % (number, number % 2), b'"}}') if number % 31 == 5 else (b"%d " % number, b"") for number in range(290)]
    return Story(["red:2:4", "blue:2:4"], [start.ljust(60_000 - len(end), b"x") + end for start, end in begun])


def sums_story(lines: int, words: Sequence[str] = (), room: int = MOST_LOG) -> Story:
    """Many short lines: sums on some counters of two tenants, some of which are saved."""
    asked = []
    for number in range(lines):
        tenant = ("red", "blue")[number % 2]
        method, args = ("save", b"") if number % 50 == 49 else ("add", b',"args":{"by":%d}' % (number % 9))
        asked.append(b'{"op":"call","from":"%b/c","id":%d,"grain":"counter/%b:c%d","method":"%b"%b}'
                     % (tenant.encode(), number, tenant.encode(), number % 7, method.encode(), args))
    return Story([*words, "red:100:4", "blue:100:4"], asked, room)
