"""What worked rows of folders of data are made of: the texts of logs and checkpoints."""

from __future__ import annotations

from typing import Callable, Iterator, Sequence

from .checkpoint import checkpoint_of, checkpoint_text, sum_of
from .kinds import NEWEST
from .lines import MAX_LINE
from .log import Place, Words, Writer, head_with, read_log, spelled, sum_after
from .logged import words_of
from .once import answer_line
from .program import setup_of_words
from .short_lines import text
from .silo import Silo

NUMBER = 0x0123456789ABCDEF
WORDS = Words(NEWEST, 1000, 900000, (), (("red", 2, 4),))
ANSWER = ["answer", "--data", "d", "red:2:4"]
# those of the form that is to come
KEPT = ["answer", "--data", "d", "--checkpoints", "red:2:4"]


def lines_text(lines: list) -> bytes:
    return text(lines).encode()


def log_of(*batches: tuple, words: Words = WORDS, number: int = NUMBER) -> str:
    """A log of batches, each as its lines and what is told for them."""
    writer = Writer(words, number)
    for lines, said in batches:
        writer.batch([line.encode() for line in lines], lines_text(said))
    return writer.text.decode()


def numbered_log(number: bytes, *batches: tuple) -> str:
    """One that has this number, which needn't be of such digits."""
    written = head_with(WORDS, number)
    place = Place(written)
    for lines, said in batches:
        written += place.batch([line.encode() for line in lines], lines_text(said))
    return written.decode()


def setup_and_most(words: Sequence[str]) -> tuple:
    """What the words of `answer` set up, and how many sends are delivered after a line."""
    most = int(words[words.index("--sends") + 1]) if "--sends" in words else 1000
    return setup_of_words(list(words)), most


def words_said(words: Sequence[str]) -> Words:
    return words_of(*setup_and_most(words))


def lines_in(log: str, words: Sequence[str] = ANSWER) -> list:
    """The lines of a log's batches."""
    return [line.decode() for batch in read_log(words_said(words), log.encode()).batches for line in batch.lines]


def left_by(lines: list, words: Sequence[str] = ANSWER) -> Silo:
    """A silo without a folder that was asked these lines."""
    setup, most = setup_and_most(words)
    silo = Silo(setup)
    for line in lines:
        answer_line(silo, line.encode(), most)
    return silo


def point(lines: list, follows: int = NUMBER, words: Sequence[str] = ANSWER) -> str:
    """The checkpoint of a silo that was asked these lines."""
    return checkpoint_text(checkpoint_of(left_by(lines, words), spelled(follows).decode(), setup_and_most(words)[1])).decode()


def of(checkpoint: str) -> int:
    """The number of the log that goes on from a checkpoint."""
    return sum_of(checkpoint.encode())


def summed(body: str) -> str:
    """A checkpoint of these lines, with their sum."""
    return body + "sum " + spelled(sum_after(0, body.encode())).decode() + "\n"


def at_newest(text_: str) -> str:
    """A checkpoint, or the head of a log, that was written by hand for version 2 of the kinds: for the newest, with its sum."""
    body = text_[:-17].replace("\nkinds 2\n", f"\nkinds {NEWEST}\n")
    return body + spelled(sum_after(0, body.removesuffix("sum ").encode())).decode() + "\n"


def changed(checkpoint: str, follows: int, *parts: str) -> str:
    """A checkpoint that follows another log, with some parts, each followed by what replaces it."""
    body = checkpoint[:checkpoint.rindex("sum ")]
    for old, new in ((checkpoint.splitlines()[1], "follows " + spelled(follows).decode()), *zip(parts[::2], parts[1::2])):
        assert body.count(old + "\n") == 1
        body = body.replace(old + "\n", new + "\n")
    return summed(body)


def after(point_of: str, words: Sequence[str] = ANSWER) -> dict:
    """A folder behind a switch."""
    return {"d/checkpoint": point_of, "d/log": log_of(words=words_said(words), number=of(point_of)), "d/lock": ""}


def started(log: str, words: Sequence[str] = ANSWER) -> dict:
    """A folder behind a start from this log, and no checkpoint. There is one of its lines, if it has any."""
    lines = lines_in(log, words)
    return after(point(lines, words=words), words) if lines else {"d/log": log, "d/lock": ""}


def number_in(folder: dict) -> int:
    """The number of the log in a folder behind a start."""
    return of(folder["d/checkpoint"]) if "d/checkpoint" in folder else NUMBER


def ended(log: str, lines: list, words: Sequence[str] = ANSWER) -> dict:
    """A folder behind the end of an input of these lines, and a start from this log."""
    begun = started(log, words)
    return after(point(lines_in(log, words) + lines, number_in(begun), words), words) if lines else begun


def replaced_behind(lines: Sequence[bytes], most: int, is_due: bool, length_at: Callable[[int], int]) -> Iterator[int]:
    """Behind how many of these lines a checkpoint takes the log's place, of a run that is asked them: where, and how long each is. It is
    told whether one is due at the start."""
    grown, room = 0, most
    for place in range(len(lines) + 1):
        if is_due or grown > room or grown > 0 and place == len(lines):
            grown, room, is_due = 0, max(most, length_at(place)), False
            yield place
        if place < len(lines):
            grown += len(lines[place][:MAX_LINE + 1]) + 1
