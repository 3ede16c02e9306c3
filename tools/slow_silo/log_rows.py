"""Worked rows of logs: what is read of one that is whole, cut, changed or followed by something.

Each is a function that says whether it holds; its first line says what is shown.
"""

from __future__ import annotations

from random import Random
from typing import Callable, Optional

from .log import FORM, Batch, NotALog, OtherWords, Words, Writer, hashed, head_text, mark_start, read_log, spelled, sum_after

WORDS = Words(2, 1000, 900000, (("counter", 1000),), (("red", 2, 4), ("blue", 1, 1)))
NUMBER = 0x0123456789ABCDEF
NAME = b"01234567"
FIRST = [b'{"op":"call","from":"red/c1","id":1}', b'{"op":"status","from":"red/c1","id":2}']
SECOND = [b'{"op":"tick","now":5}']
TOLD = b'{"from":"red/c1","id":1,"ok":3}\n'
TEXT = b"""silo-log 1
kinds 2
sends 1000
age 900000
kind counter 1000
tenant red 2 4
tenant blue 1 1
of 0123456789abcdef d7c3bcbec7963184
+{"op":"call","from":"red/c1","id":1}
+{"op":"status","from":"red/c1","id":2}
=01234567 000000000000004e 81fdff9c66986f82 b840605d01797f11
+{"op":"tick","now":5}
=01234567 0000000000000017 3f7f4ce40a3a6940 4afd8d8f46f55b2b
"""


def written() -> bytes:
    writer = Writer(WORDS, NUMBER)
    writer.batch(FIRST, TOLD)
    writer.batch(SECOND, b"")
    return writer.text


BATCHES = tuple(Batch(tuple(lines), told) for lines, told in
                ((FIRST, spelled(sum_after(0, TOLD))), (SECOND, spelled(sum_after(sum_after(0, TOLD), b"")))))


def a_sum_is_that_of_rusts_default_hasher() -> bool:
    return hashed(b"") == 15130871412783076140


def a_log_has_this_text() -> bool:
    return written() == TEXT


def what_was_written_is_read() -> bool:
    read = read_log(WORDS, written())
    return read == (BATCHES, len(written()), None)


def each_first_part_reads_as_the_first_batches() -> bool:
    text = written()
    first = len(head_text(WORDS, NUMBER))
    parts = [read_log(WORDS, text[:end]) for end in range(first, len(text) + 1)]
    return all(part.fault is None and part.batches == BATCHES[:len(part.batches)] for part in parts) and {
        len(part.batches) for part in parts} == {0, 1, 2}


def what_stands_behind_takes_nothing_away() -> bool:
    random = Random(1)
    text = written()
    tails = [bytes(random.choices(b"+=\n 01234567\0", k=random.randrange(120))) for _ in range(500)]
    return all(read_log(WORDS, text + tail).batches == BATCHES for tail in tails)


def fault_after(tail: bytes) -> Optional[int]:
    """The line at which a log of two batches is refused with this after it; its own have 13 lines."""
    read = read_log(WORDS, written() + tail)
    assert (read.batches, read.length) == (BATCHES, len(written()))
    return read.fault


def mark_of(length: int) -> bytes:
    return mark_start(NAME, length, 16 * b"0") + 16 * b"0" + b"\n"


def an_end_with_one_mark_in_its_place_is_cut_off() -> bool:
    return all(fault_after(tail) is None for tail in (
        b"+{}\n\0\0\0\n+{}\n" + mark_of(12), mark_of(0), mark_of(0) + b"+{}\n\0\n", b"+{}\n" + mark_of(4)[:-1]))


def an_end_with_a_mark_in_another_place_is_refused() -> bool:
    """At its first line that doesn't begin with `+`. A mark whose length was changed stands in another place too."""
    return [fault_after(tail) for tail in (
        b"+{}\n\0\0\0\n+{}\n" + mark_of(11), b"+{}\n" + mark_of(0), mark_of(4), b"+{}\n+{}\n" + mark_of(7), b"+{}\n=01234567 \n",
        b"+{}\n" + mark_of(4).replace(b"04 ", b" 4 "))] == [15, 15, 14, 16, 15, 15]


def an_end_with_two_marks_is_refused() -> bool:
    return [fault_after(tail) for tail in (
        b"+{}\n" + mark_of(4) + b"+{}\n" + mark_of(4), b"+{}\n\n" + 2 * mark_of(5), 2 * mark_of(0))] == [15, 15, 14]


def a_changed_batch_before_another_is_refused_at_its_mark() -> bool:
    return read_log(WORDS, written().replace(b'"id":1}', b'"id":3}')).fault == 11


def a_changed_mark_before_another_is_refused_at_its_line() -> bool:
    """Whatever part of it was changed. If it begins with `+` then, it is the next mark's."""
    first = written().split(b"\n")[10]
    changed = [first[:place] + b"-" + first[place + 1:] for place in range(len(first))]
    faults = [read_log(WORDS, written().replace(first, mark)).fault for mark in [*changed, first[:30], b"", b"+" + first[1:]]]
    return faults == (len(first) + 2) * [11] + [13]


def a_mark_that_was_moved_is_refused() -> bool:
    """To another line, to another batch, or with lines taken away or put before it."""
    *head, one, other, first, last, second, _end = written().split(b"\n")
    moved = ([one, other, first, second, last], [one, other, first, second], [one, first, other, last, second], [other, first, last, second],
             [one, other, second, last, first], [one, other, first, last, last, second], [one, other, first, last[:-1], second])
    return [read_log(WORDS, b"".join(line + b"\n" for line in head + lines)).fault for lines in moved] == [12, 12, 10, 10, 11, 14, 13]


def each_changed_byte_before_the_last_batch_is_refused() -> bool:
    text, end = written(), written().index(b'+{"op":"tick"')
    places = [(place, other) for place in range(len(head_text(WORDS, NUMBER)), end) for other in (text[place] ^ 1, 10, 0, 43, 61)]
    return all(other == text[place] or read_log(WORDS, text[:place] + bytes([other]) + text[place + 1:]).fault for place, other in places)


def a_line_that_is_none_is_refused_at_its_own_number() -> bool:
    return read_log(WORDS, written().replace(b"+{\"op\":\"status\"", b"-{\"op\":\"status\"")).fault == 10


def a_changed_last_batch_is_cut_off() -> bool:
    read = read_log(WORDS, written().replace(b'"now":5', b'"now":6'))
    return read.fault is None and read.batches == BATCHES[:1]


def marks_of_an_older_log_are_no_marks() -> bool:
    older = Writer(WORDS, NUMBER + 2**40)
    older.batch(FIRST, TOLD)
    older.batch(SECOND, b"")
    text = written()
    return read_log(WORDS, text + older.text[len(head_text(WORDS, NUMBER)):]) == (BATCHES, len(text), None)


def fault_of_head(words: Words, content: bytes) -> Optional[type]:
    """What a log is refused as before a batch of it is read."""
    try:
        read_log(words, content)
    except (OtherWords, NotALog) as found:
        return type(found)
    return None


def other_words_and_other_forms_are_told() -> bool:
    return [fault_of_head(words, content) for words, content in (
        (WORDS, written()), (WORDS._replace(sends=1), written()), (WORDS, b"silo-log 2\n"), (WORDS, b""))] == [
            None, OtherWords, NotALog, NotALog]


def a_head_with_a_changed_byte_is_none() -> bool:
    """Nor is one that is shorter. Its number is held by the head's own sum."""
    text, form, head = written(), len(FORM), len(head_text(WORDS, NUMBER))
    changed = [text[:place] + bytes([text[place] ^ 1]) + text[place + 1:] for place in range(head)]
    wanted = form * [NotALog] + (head - form) * [OtherWords]
    return [fault_of_head(WORDS, it) for it in changed] == [fault_of_head(WORDS, text[:end]) for end in range(head)] == wanted


LOG_ROWS: tuple[Callable[[], bool], ...] = (
    a_sum_is_that_of_rusts_default_hasher, a_log_has_this_text, what_was_written_is_read,
    each_first_part_reads_as_the_first_batches, what_stands_behind_takes_nothing_away, an_end_with_one_mark_in_its_place_is_cut_off,
    an_end_with_a_mark_in_another_place_is_refused, an_end_with_two_marks_is_refused, a_changed_batch_before_another_is_refused_at_its_mark,
    a_changed_mark_before_another_is_refused_at_its_line, a_mark_that_was_moved_is_refused, each_changed_byte_before_the_last_batch_is_refused,
    a_line_that_is_none_is_refused_at_its_own_number, a_changed_last_batch_is_cut_off, marks_of_an_older_log_are_no_marks,
    other_words_and_other_forms_are_told, a_head_with_a_changed_byte_is_none)
