"""Lines that are answered once they are in a log, and logs whose lines are answered again, or whose place a checkpoint takes.

A checkpoint takes the place of a log at three moments: right after a start that answered lines of it again; behind the line with which
it got more bytes of lines than there is room for, once the batch of that line is told; and at the end of the input, if it has lines. The
lines that it got in this run count with the bytes that the log has of each, and an LF. There is room for as many bytes as the form says, or
as the last checkpoint has that this run made, if these are more.

If no checkpoint can be made, the log goes on, and the next one is tried at the end of the input.
"""

from __future__ import annotations

import os
from typing import Callable, Iterable, NamedTuple, Optional

from .answer import MAX_ANSWERED_LINES
from .checkpoint import IS_VISIBLE, checkpoint_of, checkpoint_text, sum_of
from .data import Folder
from .lines import MAX_LINE, TooMuchInput
from .log import Place, Words, cut_head, head_with, read_log, spelled
from .once import answer_line
from .silo import Setup, Silo

# bytes of lines, and of texts, above which a batch takes no line more
MAX_BATCH = 1_048_576


class LogRefused(Exception):
    """No start goes on from the log: the line at which it is refused, counted from 1."""

    def __init__(self, line: int):
        super().__init__(line)
        self.line = line


class AnsweredOtherwise(LogRefused):
    """What was told for the lines up to this mark isn't what they are answered."""


class Answered(NamedTuple):
    """Where the log goes on, how many lines were answered again, and how many bytes of the log these and its head have."""

    place: Place
    lines: int
    length: int


class Found(NamedTuple):
    """What a folder has."""

    # the silo to which the checkpoint leads
    silo: Silo
    # of the log: its number as it is spelled
    words: Words
    number: bytes
    # its bytes; none if it is to be begun
    log: Optional[bytes]


class Log:
    """The log of a folder, where it goes on, and the silo to which its lines lead."""

    def __init__(self, folder: Folder, found: Found, place: Place, has_lines: bool, most: int):
        self.folder, self.place, self.has_lines, self.most = folder, place, has_lines, most
        self.silo, self.words, self.number = found.silo, found.words, found.number
        # bytes of the lines that it got in this run, each with an LF, and for how many there is room; none if for any number
        self.grown = 0
        self.room: Optional[int] = most

    def keep(self, lines: list[bytes], text: bytes) -> None:
        """Has a batch in the log, and on the disk."""
        batch = self.place.batch(lines, text)
        self.folder.append(batch)
        self.folder.sync()
        self.has_lines = True

    def is_full(self) -> bool:
        return self.room is not None and self.grown > self.room

    def end(self) -> None:
        """What is done at the end of the input."""
        if self.has_lines:
            self.switch()

    def switch(self) -> None:
        """Has all that the log leads to in a checkpoint, and begins a log that goes on from there. If the log's number can't stand in a
        checkpoint, or would be the new one's, too, the log goes on, whatever it gets."""
        text = self.next_checkpoint()
        if text is None:
            self.room = None
            return
        self.folder.place(text)
        self.words, self.number = words_of(self.silo.setup, self.words.sends), spelled(sum_of(text))
        self.place = begin_log(self.folder, self.words, self.number)
        self.grown, self.room, self.has_lines = 0, max(self.most, len(text)), False

    def next_checkpoint(self) -> Optional[bytes]:
        follows = self.number.decode("latin-1")
        if not IS_VISIBLE(follows):
            return None
        text = checkpoint_text(checkpoint_of(self.silo, follows, self.words.sends))
        return None if spelled(sum_of(text)) == self.number else text


def words_of(setup: Setup, sends: int) -> Words:
    """What a log says of the silo whose lines it has."""
    tenants = tuple((tenant, limits.activations, limits.mailbox) for tenant, limits in setup.tenants)
    return Words(setup.logic.number, sends, setup.age, setup.ages, tenants, setup.replies, setup.room, setup.operator)


def text_of(silo: Silo, line: bytes, most: int) -> bytes:
    """All that is told for a line."""
    return "".join(told + "\n" for told in answer_line(silo, line, most)).encode()


def random_number() -> bytes:
    return spelled(int.from_bytes(os.urandom(8), "little"))


def begin_log(folder: Folder, words: Words, number: bytes) -> Place:
    head = head_with(words, number)
    folder.begin(head)
    return Place(head)


def answer_again(silo: Silo, content: bytes, words: Words) -> Answered:
    """Answers each batch of a log again."""
    read = read_log(words, content)
    head = content[:cut_head(words, content)[1]]
    place, lines, number = Place(head), 0, head.count(b"\n")
    for batch in read.batches:
        place.batch(batch.lines, b"".join(text_of(silo, line, words.sends) for line in batch.lines))
        lines += len(batch.lines)
        number += len(batch.lines) + 1
        if spelled(place.told) != batch.told:
            raise AnsweredOtherwise(number)
    if read.fault is not None:
        raise LogRefused(read.fault)
    return Answered(place, lines, read.length)


class Batch:
    """The lines that were answered since the last mark, and what is told for them."""

    def __init__(self, log: Log, tell: Callable[[bytes], None]):
        self.log, self.tell = log, tell
        self.lines: list[bytes] = []
        self.texts: list[bytes] = []
        # of the lines as they stand in the log, and of the texts
        self.asked = self.told = 0

    def add(self, line: bytes, text: bytes) -> None:
        self.lines.append(line)
        self.texts.append(text)
        self.asked += 1 + len(line) + 1
        self.told += len(text)
        if self.asked > MAX_BATCH or self.told > MAX_BATCH:
            self.close()

    def close(self) -> None:
        """Has the lines in the log, and then tells their texts."""
        if not self.lines:
            return
        text = b"".join(self.texts)
        self.log.keep(self.lines, text)
        if text:
            self.tell(text)
        self.lines, self.texts, self.asked, self.told = [], [], 0, 0


def answer_logged(silo: Silo, log: Log, pieces: Iterable[bytes], most: int, tell: Callable[[bytes], None]) -> None:
    """Answers the lines of an input that comes in pieces: the whole lines that one piece brings are a batch, or more if the log is full."""
    batch, count, rest = Batch(log, tell), 0, b""

    def take(line: bytes) -> None:
        nonlocal count
        if count == MAX_ANSWERED_LINES:
            batch.close()
            raise TooMuchInput
        count += 1
        # of a line that is too long no more is kept than shows that
        kept = line[:MAX_LINE + 1]
        batch.add(kept, text_of(silo, kept, most))
        log.grown += len(kept) + 1
        # the last line that there may be is followed by none
        if log.is_full() and count < MAX_ANSWERED_LINES:
            batch.close()
            log.switch()

    for piece in pieces:
        *whole, rest = (rest + piece).split(b"\n")
        for line in whole:
            take(line)
        batch.close()
    if rest:
        take(rest)
        batch.close()
    log.end()
