"""A log's text: what a silo was asked, in batches, each closed by a mark; written, and read as a crash may have left it.

A mark has the log's name, the length of its batch's lines, the sum of all that was told so far, and the sum of all bytes of the log
before it. What stands after the last batch whose mark fits was never acknowledged, if a crash can have left it: then it has no mark of
the log, or the one of a batch that was half written, which stands in its place. Anything else is refused.

There are two forms of it. The second also tells how many receipts and bytes a tenant may have, and whether tenants come and go by lines; a
log is written in the first if nothing is said of these.
"""

from __future__ import annotations

import struct
from typing import NamedTuple, Optional, Sequence

FORM, SECOND_FORM = FORMS = b"silo-log 1\n", b"silo-log 2\n"
NAME = 8
DIGITS = 16
WORD = 2**64 - 1


class NotALog(Exception):
    """The bytes aren't a log of this form."""


class OtherWords(Exception):
    """The log was begun for a silo with other words."""


def hashed(content: bytes) -> int:
    """SipHash-1-3 with both keys 0: a round for each word of eight bytes, and three more at the end."""
    a, b, c, d = 0x736F6D6570736575, 0x646F72616E646F6D, 0x6C7967656E657261, 0x7465646279746573
    whole = len(content) // 8
    last = int.from_bytes(content[8 * whole:].ljust(7, b"\0") + bytes([len(content) & 255]), "little")
    # a word of zeros changes nothing but by its round
    for end, words in ((0, (*struct.unpack_from(f"<{whole}Q", content), last)), (0xFF, (0, 0, 0))):
        c ^= end
        for word in words:
            d ^= word
            a = a + b & WORD
            c = c + d & WORD
            b = (b << 13 & WORD | b >> 51) ^ a
            d = (d << 16 & WORD | d >> 48) ^ c
            a = a << 32 & WORD | a >> 32
            c = c + b & WORD
            a = a + d & WORD
            b = (b << 17 & WORD | b >> 47) ^ c
            d = (d << 21 & WORD | d >> 43) ^ a
            c = c << 32 & WORD | c >> 32
            a ^= word
    return a ^ b ^ c ^ d


def sum_after(before: int, content: bytes) -> int:
    return hashed(before.to_bytes(8, "little") + content)


def spelled(number: int) -> bytes:
    return b"%016x" % number


class Words(NamedTuple):
    kinds: int
    sends: int
    age: int
    # kinds with an age of their own, and tenants with their limits
    ages: tuple = ()
    tenants: tuple = ()
    # those of the second form
    replies: Optional[int] = None
    room: Optional[int] = None
    operator: bool = False

    def say_more(self) -> bool:
        """Whether they say something that the first form hasn't."""
        return (self.replies, self.room, self.operator) != (None, None, False)


def more_lines(replies: Optional[int], room: Optional[int], operator: bool) -> list[str]:
    """What the second form says more, of logs and of checkpoints."""
    return [f"replies {'-' if replies is None else replies}", f"bytes {'-' if room is None else room}", f"operator {int(operator)}"]


def words_text(words: Words) -> bytes:
    lines = [f"kinds {words.kinds}", f"sends {words.sends}"]
    lines += more_lines(words.replies, words.room, words.operator) if words.say_more() else []
    lines += [f"age {words.age}"]
    lines += [f"kind {kind} {age}" for kind, age in words.ages]
    lines += [f"tenant {tenant} {act} {mail}" for tenant, act, mail in words.tenants]
    return form_of(words) + "".join(line + "\n" for line in lines).encode()


def form_of(words: Words) -> bytes:
    return SECOND_FORM if words.say_more() else FORM


def head_with(words: Words, number: bytes) -> bytes:
    start = words_text(words) + b"of " + number + b" "
    return start + spelled(sum_after(0, start)) + b"\n"


def head_text(words: Words, number: int) -> bytes:
    return head_with(words, spelled(number))


def mark_head(name: bytes) -> bytes:
    return b"=" + name + b" "


def mark_start(name: bytes, length: int, told: bytes) -> bytes:
    """What stands in a mark before its sum, after so many bytes of lines."""
    return mark_head(name) + spelled(length) + b" " + told + b" "


class Place:
    """Where a log goes on: its name, the sum of the log so far, and the sum of all that was told."""

    def __init__(self, head: bytes):
        # the head ends with the number and its own sum
        self.name = head[-2 * (DIGITS + 1):][:NAME]
        self.sum = sum_after(0, head)
        self.told = 0

    def batch(self, lines: Sequence[bytes], told: bytes) -> bytes:
        """The next batch: lines that were asked together, with the mark that says what was told for them."""
        self.told = sum_after(self.told, told)
        asked = b"".join(b"+" + line + b"\n" for line in lines)
        body = asked + mark_start(self.name, len(asked), spelled(self.told))
        self.sum = sum_after(self.sum, body)
        return body + spelled(self.sum) + b"\n"


class Writer:
    """Writes a log that begins with a head: its text so far, and where it goes on."""

    def __init__(self, words: Words, number: int):
        self.text = head_text(words, number)
        self.place = Place(self.text)

    def batch(self, lines: Sequence[bytes], told: bytes) -> None:
        self.text += self.place.batch(lines, told)


class Batch(NamedTuple):
    lines: tuple
    # the sum of all that was told, as its mark says it
    told: bytes


class Read(NamedTuple):
    batches: tuple
    # how many bytes the head and these batches have
    length: int
    # the number of the line that is refused, counted from 1
    fault: Optional[int]


def cut_head(words: Words, content: bytes) -> tuple:
    """The number in the head, and where the head ends."""
    if not content.startswith(FORMS if words.say_more() else FORM):
        raise NotALog()
    at = len(words_text(words) + b"of ")
    number = content[at:at + DIGITS]
    head = head_with(words, number)
    if not content.startswith(head) or b"\n" in number:
        raise OtherWords()
    return number, len(head)


class Numbered(NamedTuple):
    # its digits
    number: bytes
    # the line that has it, counted from 1
    line: int


def numbered_head(content: bytes) -> Optional[Numbered]:
    """The number in a log's head, whatever words the head has; none if no line has a number and the sum of the head up to there."""
    at = content.find(b"\nof ") + 1
    number = content[at:].partition(b"\n")[0][len(b"of "):][:DIGITS]
    start = content[:at] + b"of " + number + b" "
    if not at or not content.startswith(FORMS) or not content.startswith(start + spelled(sum_after(0, start)) + b"\n"):
        return None
    return Numbered(number, content.count(b"\n", 0, at) + 1)


def first_difference(content: bytes, wanted: bytes) -> int:
    """The line, counted from 1, of the first byte at which bytes differ from what they should begin with."""
    same = next((place for place, (one, other) in enumerate(zip(content, wanted)) if one != other), min(len(content), len(wanted)))
    return content.count(b"\n", 0, same) + 1


def read_log(words: Words, content: bytes) -> Read:
    number, at = cut_head(words, content)
    name = number[:NAME]
    told_at = NAME + DIGITS + 3
    before = sum_after(0, content[:at])
    batches: list = []
    lines: list = []
    length = end = at
    for line in content[at:].split(b"\n")[:-1]:
        if line.startswith(b"+"):
            lines.append(line[1:])
        else:
            told = line[told_at:told_at + DIGITS]
            start = mark_start(name, end - length, told)
            after = sum_after(before, content[length:end] + start)
            if line != start + spelled(after):
                break
            batches.append(Batch(tuple(lines), told))
            before, lines, length = after, [], end + len(line) + 1
        end += len(line) + 1
    return Read(tuple(batches), length, fault_in(name, content, length))


def fault_in(name: bytes, content: bytes, length: int) -> Optional[int]:
    """The line at which a log is refused for what stands after the last batch that is read; none if that is cut off."""
    left = content[length:].split(b"\n")[:-1]
    marks, at = [], 0
    for line in left:
        if line.startswith(mark_head(name)):
            # whether it stands in its place
            marks.append(line.startswith(mark_head(name) + spelled(at)))
        at += len(line) + 1
    if marks in ([], [True]):
        return None
    return content.count(b"\n", 0, length) + 1 + next(place for place, line in enumerate(left) if not line.startswith(b"+"))
