"""Worked rows of logs whose place a checkpoint takes while a silo runs, in both of its forms, and with less room than the program has.

Each of `RUNNING_CALLS` is a function that says whether it holds.
"""

from __future__ import annotations

from typing import Callable, Iterable, Iterator, NamedTuple, Sequence
from unittest import mock

from . import logged
from .checkpoint import sum_of
from .data import MemoryFolder
from .data_rows import ADD, FIRST, GET, LONG, MORE, SECOND
from .folder_rows import BATCH, BEHIND, BLANK, FIRST_POINT, TWO_POINT
from .folder_texts import ANSWER, KEPT, NUMBER, after, lines_text, log_of, numbered_log, of, point
from .lines import ReaderFailed
from .program import run_program
from .short_lines import LINE_TOO_LONG, NOT_A_REQUEST, ok

FORMS = ANSWER, KEPT
EMPTY = {"d/log": log_of()}
# the lines of a batch are written and synced, and told; then a checkpoint may be made, and a log begun
BATCH_ACTS, SWITCH_ACTS = ["append", "sync", "told"], ["place", "begin"]


class Noted(MemoryFolder):
    """A folder that notes what is done to it."""

    def __init__(self, files: dict, acts: list):
        super().__init__(files, "d")
        self.acts = acts

    def place(self, checkpoint: bytes) -> None:
        self.acts.append("place")
        super().place(checkpoint)

    def begin(self, head: bytes) -> None:
        self.acts.append("begin")
        super().begin(head)

    def append(self, added: bytes) -> None:
        self.acts.append("append")
        super().append(added)

    def sync(self) -> None:
        self.acts.append("sync")


class Told(list):
    """What is told, which is noted, too."""

    def __init__(self, acts: list):
        super().__init__()
        self.acts = acts

    def append(self, text: bytes) -> None:
        self.acts.append("told")
        super().append(text)


class Ran(NamedTuple):
    acts: list
    left: dict
    status: int


def ran(words: Sequence[str], before: dict, pieces: Iterable[list], most: int, fails: bool = False) -> Ran:
    """A run that is given lines in pieces, with room for so many bytes of them in its log. In the end the input may fail."""
    def given() -> Iterator[bytes]:
        yield from map(lines_text, pieces)
        if fails:
            raise ReaderFailed

    acts: list = []
    files = {path: content.encode() for path, content in before.items()}
    run = run_program(list(words), given(), written=Told(acts), folder_at=lambda *_given: Noted(files, acts), most_log=most)
    return Ran(acts, {path: content.decode() for path, content in files.items()}, run.status)


def behind(before: dict, lines: list, most: int) -> dict:
    """What both forms leave of these lines, which come at once, if the input fails then. They leave the same."""
    one, other = (ran(words, before, [lines], most, True) for words in FORMS)
    assert one == other and one.status == 1
    return one.left


def length_of(*lines: str) -> int:
    return sum(len(line) + 1 for line in lines)


def next_log(checkpoint: str, *batches: tuple) -> dict:
    """A folder with a log that goes on from a checkpoint."""
    return {**after(checkpoint), "d/log": log_of(*batches, number=of(checkpoint))}


# ---- when

TWO_LINES = length_of(*ADD, *MORE)
MADE = point(ADD + MORE)


def a_log_of_more_bytes_than_there_is_room_for_is_replaced() -> bool:
    """The line with which it has more is the last one, and the next ones of the same piece are in the next log."""
    all_of_it = length_of(*ADD, *MORE, *GET)
    found = [behind(EMPTY, ADD + MORE + GET, most) for most in (all_of_it, all_of_it - 1, TWO_LINES, TWO_LINES - 1)]
    left, last = {"d/log": log_of((ADD + MORE + GET, ok(1, 3) + ok(2, 7) + ok(3, 7))), "d/lock": ""}, after(point(ADD + MORE + GET))
    return found == [left, last, last, next_log(MADE, (GET, ok(3, 7)))]


def lines_of_several_pieces_count_together() -> bool:
    one, other = (ran(words, EMPTY, [ADD, MORE, GET], TWO_LINES - 1, True) for words in FORMS)
    return one == other and one.left == next_log(MADE, (GET, ok(3, 7))) and one.acts == [
        *BATCH_ACTS, *BATCH_ACTS, *SWITCH_ACTS, *BATCH_ACTS]


def a_line_counts_as_the_log_has_it() -> bool:
    """Of one that is too long the bytes that the log has; an empty line has its LF."""
    long = LONG + "and more"
    kept = behind(EMPTY, [long], len(LONG) + 1), behind(EMPTY, ["", ""], 2)
    gone = behind(EMPTY, [long], len(LONG)), behind(EMPTY, ["", ""], 1)
    return kept == ({"d/log": log_of(([LONG], LINE_TOO_LONG)), "d/lock": ""}, {"d/log": log_of((["", ""], [])), "d/lock": ""}) and gone == (
        after(point([])),) * 2


def there_is_room_for_as_many_bytes_as_the_last_checkpoint_has() -> bool:
    """Here one of a line is made at once, since there is room for none."""
    one = point(ADD)
    fits, more = (behind(EMPTY, [*ADD, "x" * length], 0) for length in (len(one) - 1, len(one)))
    return fits == next_log(one, (["x" * (len(one) - 1)], NOT_A_REQUEST)) and more == after(point(ADD, of(one)))


def a_short_checkpoint_makes_no_less_room() -> bool:
    """Here there is room for more bytes than the first one has, which is made behind a long line."""
    first, one = ["x" * 1000], point(["x" * 1000])
    fits, more = (behind(EMPTY, [*first, "x" * length], 1000) for length in (999, 1000))
    return fits == next_log(one, (["x" * 999], NOT_A_REQUEST)) and more == after(point(first * 2, of(one))) and len(one) < 1000


def so_there_is_behind_that_of_a_start() -> bool:
    """The lines that were answered again don't count."""
    before = {**BEHIND, "d/log": BATCH}
    fits, more = (behind(before, ["x" * length], 0) for length in (len(TWO_POINT) - 1, len(TWO_POINT)))
    return fits == next_log(TWO_POINT, (["x" * (len(TWO_POINT) - 1)], NOT_A_REQUEST)) and more == after(point(ADD + MORE, of(TWO_POINT)))


def one_that_an_earlier_run_made_makes_no_room() -> bool:
    most = length_of(*MORE)
    return [behind(BEHIND, MORE, room) for room in (most, most - 1)] == [
        next_log(FIRST_POINT, SECOND), after(point(ADD + MORE, of(FIRST_POINT)))] and most < len(FIRST_POINT)


# ---- in which order

def a_batch_is_told_before_a_checkpoint_has_its_lines() -> bool:
    """At the end of the input the next one has the lines behind it."""
    runs = [ran(words, EMPTY, [ADD + MORE + GET], TWO_LINES - 1) for words in FORMS]
    acts = [*BATCH_ACTS, *SWITCH_ACTS] * 2
    return runs == [Ran(acts, after(point(ADD + MORE + GET, of(MADE))), 0)] * 2


def an_input_that_ends_with_such_a_line_has_one_checkpoint_of_it() -> bool:
    runs = [ran(words, EMPTY, [ADD + MORE], TWO_LINES - 1) for words in FORMS]
    return runs == [Ran([*BATCH_ACTS, *SWITCH_ACTS], after(MADE), 0)] * 2


def behind_the_last_line_that_there_may_be_no_log_is_replaced() -> bool:
    """Unless it is the last one of the input: here it may have two."""
    one, long = point(ADD), ["x" * 1000]
    with mock.patch.object(logged, "MAX_ANSWERED_LINES", 2):
        runs = [ran(words, EMPTY, [ADD + long + more], 0) for words in FORMS for more in (GET, [])]
    refused, whole = (1, next_log(one, (long, NOT_A_REQUEST))), (0, after(point(ADD, of(one))))
    return [(run.status, run.left) for run in runs] == [refused, whole] * 2


# ---- no checkpoint

def a_log_whose_number_no_checkpoint_can_tell_goes_on() -> bool:
    """Its lines are told as others."""
    run = ran(ANSWER, {"d/log": numbered_log(BLANK)}, [ADD, MORE], 0)
    return run == Ran(BATCH_ACTS * 2, {"d/log": numbered_log(BLANK, FIRST, SECOND), "d/lock": ""}, 0)


def same_sum(number: int, count: int) -> Callable[[bytes], int]:
    """The sum of a checkpoint; that of the first ones is this number."""
    asked = iter(range(count))
    return lambda text: sum_of(text) if next(asked, None) is None else number


def one_that_would_have_the_number_of_its_log_is_made_at_the_end() -> bool:
    """No other is tried before, of a log that has room for no byte."""
    with mock.patch.object(logged, "sum_of", same_sum(NUMBER, 1)):
        run = ran(ANSWER, EMPTY, [ADD, MORE, GET], 0)
    return run == Ran([*BATCH_ACTS * 3, *SWITCH_ACTS], after(point(ADD + MORE + GET)), 0)


def so_it_is_behind_a_start() -> bool:
    with mock.patch.object(logged, "sum_of", same_sum(of(FIRST_POINT), 1)):
        run = ran(ANSWER, {**BEHIND, "d/log": BATCH}, [GET, MORE], 0)
    return run == Ran([*BATCH_ACTS * 2, *SWITCH_ACTS], after(point(ADD + MORE + GET + MORE, of(FIRST_POINT))), 0)


def it_is_tried_once_there() -> bool:
    """The log then has all lines."""
    with mock.patch.object(logged, "sum_of", same_sum(NUMBER, 2)):
        run = ran(ANSWER, EMPTY, [ADD, MORE], 0)
    return run == Ran(BATCH_ACTS * 2, {"d/log": log_of(FIRST, SECOND), "d/lock": ""}, 0)


RUNNING_CALLS: tuple[Callable[[], bool], ...] = (
    a_log_of_more_bytes_than_there_is_room_for_is_replaced, lines_of_several_pieces_count_together, a_line_counts_as_the_log_has_it,
    there_is_room_for_as_many_bytes_as_the_last_checkpoint_has, a_short_checkpoint_makes_no_less_room,
    so_there_is_behind_that_of_a_start, one_that_an_earlier_run_made_makes_no_room, a_batch_is_told_before_a_checkpoint_has_its_lines,
    an_input_that_ends_with_such_a_line_has_one_checkpoint_of_it, behind_the_last_line_that_there_may_be_no_log_is_replaced,
    a_log_whose_number_no_checkpoint_can_tell_goes_on, one_that_would_have_the_number_of_its_log_is_made_at_the_end,
    so_it_is_behind_a_start, it_is_tried_once_there)
