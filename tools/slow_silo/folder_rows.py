"""Worked rows of folders with checkpoints, as the program keeps them, before and after, to be followed by hand.

`FOLDERS` are inputs of the program; those of `BOTH`, and the texts of `FAULTY`, are also of the form that is to come (`switch_rows`).
Each of `FOLDER_CALLS` is a function that says whether it holds. `running_rows` has logs that are replaced while a silo runs, and
`cut_rows` lives that end at each call.
"""

from __future__ import annotations

import os
import pathlib
import tempfile
from typing import Callable, Iterator, NamedTuple, Optional, Sequence
from unittest import mock

from . import checkpoint_rows, data, logged
from .data import DiskFolder
from .data_rows import ADD, FIRST, GET, MORE, SECOND, TWO
from .folder_texts import ANSWER, NUMBER, WORDS, after, at_newest, changed, lines_text, log_of, numbered_log, of, point, summed, words_said
from .kinds import NEWEST
from .lines import ReaderFailed
from .program import Run, run_program
from .row import Row
from .short_lines import A, BLUE, RELAY, SHEET, SWEEP, call, no, ok, poke, seen, status, tick


def row(name: str, before: dict, lines: list, out: list, then: dict, words: Sequence[str] = ANSWER) -> Row:
    return Row(name, list(words), lines, out, files=before, files_after=then)


def refused(name: str, before: dict, status_: int, errors: str, words: Sequence[str] = ANSWER) -> Row:
    """A folder that is refused stays as it is, and nothing is answered."""
    return Row(name, list(words), GET, [], status_, "silo: " + errors, before, {**before, "d/lock": ""})


# ---- starts and ends

FIRST_POINT = at_newest("""\
silo-checkpoint 1
follows 0123456789abcdef
sends 1000
clock 0
accounts 1
account red 1 0
grains 1
up counter/red:a - 0 0 030000000000000003
silo-journal 3
kinds 2
age 900000
tenant red 2 4
close 0
sum 3d624f2648a4ee39
""")
BEHIND = after(FIRST_POINT)
BATCH = log_of(SECOND, number=of(FIRST_POINT))
HEAD = log_of(number=of(FIRST_POINT))
EMPTY = log_of(([], []))
STALE = {"d/checkpoint": FIRST_POINT, "d/log": log_of(FIRST)}
TWO_POINT = point(ADD + MORE, of(FIRST_POINT))
ALL = after(point(ADD + MORE + GET, of(TWO_POINT)))
STARTS = [
    row("at the end of the input there is a checkpoint, and a log that goes on from it", {"d/log": log_of()}, ADD, ok(1, 3), BEHIND),
    row("a start goes on from both", BEHIND, MORE, ok(2, 7), after(TWO_POINT)),
    row("a start that is asked nothing changes nothing", BEHIND, [], [], BEHIND),
    row("nor is there a checkpoint of a log of no line", {"d/log": log_of()}, [], [], {"d/log": log_of(), "d/lock": ""}),
    row("nor of one of a batch of no line", {"d/log": EMPTY}, [], [], {"d/log": EMPTY, "d/lock": ""}),
    row("lines that a log has are answered again, and are then in a checkpoint", {**BEHIND, "d/log": BATCH}, [], [], after(TWO_POINT)),
    row("so are those of a log that goes on from nothing", {"d/log": TWO}, [], [], after(point(ADD + MORE))),
    row("what is asked then goes on from that checkpoint", {**BEHIND, "d/log": BATCH}, GET, ok(3, 7), ALL),
    row("behind a torn end, too", {**BEHIND, "d/log": BATCH + "+{"}, GET, ok(3, 7), ALL),
    row("a torn end is cut off", {**BEHIND, "d/log": HEAD + "+{"}, [], [], BEHIND),
    row("the log that the checkpoint replaced is passed over", STALE, [], [], BEHIND),
    row("whatever words it has", {**STALE, "d/log": log_of(FIRST, words=WORDS._replace(age=1))}, [], [], BEHIND),
    row("whatever stands behind its head", {**STALE, "d/log": TWO + "what\n"}, GET, ok(3, 3), after(point(ADD + GET, of(FIRST_POINT)))),
    row("what was begun beside is passed over", {**BEHIND, "d/checkpoint.new": "silo-ch", "d/log.new": "si"}, MORE, ok(2, 7),
        after(TWO_POINT)),
    row("nothing is brought to the disk", BEHIND, MORE, ok(2, 7), after(TWO_POINT), [*ANSWER, "--no-sync"]),
]
# a number may have any bytes but LF, if the head's sum fits: those of visible ASCII can stand in a checkpoint
ODD = numbered_log(b"0123456789-ABC\"'", FIRST)
ODD_POINT = changed(FIRST_POINT, NUMBER).replace("follows 0123456789abcdef", "follows 0123456789-ABC\"'")
ODD_POINT = summed(ODD_POINT[:ODD_POINT.rindex("sum ")])
BLANK = b"0123456789 abcde"
NUMBERS = [
    row("a number that isn't of such digits is followed, too", {"d/log": ODD}, [], [], after(ODD_POINT)),
    row("and the log that has it is passed over", {"d/log": ODD, "d/checkpoint": ODD_POINT}, [], [], after(ODD_POINT)),
    row("of a log whose number no checkpoint can tell there is none", {"d/log": numbered_log(BLANK, FIRST)}, MORE, ok(2, 7),
        {"d/log": numbered_log(BLANK, FIRST, SECOND), "d/lock": ""}),
    row("a torn end of it is cut off", {"d/log": numbered_log(BLANK, FIRST) + "+{"}, [], [],
        {"d/log": numbered_log(BLANK, FIRST), "d/lock": ""}),
]

# ---- what is kept

STAYS = call(1, A, "stay", {"for": 100}) + call(2, SHEET, "put", {"name": "k", "value": {"$hex": "00ff"}}) + tick(40)
IDLE = ["answer", "--data", "d", "--age", "50", "--ages", "sheet=60", "red:9:4"]
JOINS = call(1, RELAY, "join", {"grain": A}) + call(2, RELAY, "join", {"grain": "counter/red:b"})
SENT = JOINS + call(3, RELAY, "send", {"method": "add", "args": {"by": 1}})
WAITING = ["answer", "--data", "d", "--sends", "1", "red:9:4"]
SAVED = ADD + call(2, A, "save") + call(3, SHEET, "save")


def goes_on(name: str, first: list, lines: list, out: list, words: Sequence[str] = ANSWER) -> Row:
    """What a silo that was left behind the first lines answers."""
    before = point(first, words=words)
    return row(name, after(before, words), lines, out, after(point(first + lines, of(before), words), words), words)


ACROSS = [
    goes_on("an activation that stays isn't collected before its moment, counted from before the switch", STAYS,
            tick(99) + SWEEP + status(3) + tick(100) + SWEEP + status(4), seen(3, 1, 99, 2) + seen(4, 0, 100, 2), IDLE),
    goes_on("an idle one is collected once its kind's age is over", STAYS, tick(59) + SWEEP + status(3) + tick(60) + SWEEP + status(4),
            seen(3, 2, 59, 2) + seen(4, 1, 60, 2), IDLE),
    goes_on("of what was sent, one is delivered behind the next line", SENT,
            status(4) + call(5, A, "get") + call(6, "counter/red:b", "get"), seen(4, 2, 0, 4) + ok(5, 1) + ok(6, 1), WAITING),
    goes_on("rows have their versions", SAVED, call(4, A, "save") + call(5, SHEET, "clear") + call(6, SHEET, "save"),
            ok(4, "2") + ok(5, "2") + ok(6, "3")),
    goes_on("and activations the versions on which they stand", SAVED + poke(4, A, 9), call(5, A, "save") + call(6, A, "get"),
            no(5, 54, "stored state of counter/red:a has changed") + ok(6, 9)),
    goes_on("a grain that rested has its row", SAVED + call(4, A, "rest"), status(5) + call(6, A, "get"), seen(5, 1, 0, 4) + ok(6, 3)),
    goes_on("the clock doesn't go back", tick(9), tick(8) + tick(9) + status(1), ['{"text":"not now"}'] + seen(1, 0, 9, 0)),
]

BOTH: list[Row] = [*STARTS, *ACROSS]

# ---- what is refused

# the text of checkpoint_rows: a head, lines 1 to 4; two accounts, 5 to 8; three grains, 9 to 12; a journal, 13 to 20; and the sum
TEXT = at_newest(checkpoint_rows.TEXT.decode())
OF_TEXT = ["answer", "--data", "d", "--ages", "counter=1000", "red:2:4", "blue:1:1"]


class Faulty(NamedTuple):
    """A checkpoint that is refused, and at which line."""

    name: str
    line: int
    text: str
    # whether the program may take it: it asks less of what a sum holds
    is_taken: bool = False

    def row(self, errors: str, words: Sequence[str] = OF_TEXT) -> Row:
        """The log is the one that it replaced."""
        before = {"d/checkpoint": self.text, "d/log": log_of(words=words_said(OF_TEXT))}
        return refused(f"a checkpoint: {self.name}", before, 4, errors, words)


def faulty(name: str, line: int, *parts: str, end: str = "", is_taken: bool = False) -> Faulty:
    """A checkpoint with some parts, each followed by what replaces it; its sum is right."""
    body = TEXT[:TEXT.rindex("sum ")]
    for old, new in zip(parts[::2], parts[1::2]):
        assert body.count(old) == 1
        body = body.replace(old, new)
    return Faulty(name, line, summed(body) + end, is_taken)


ACCOUNT, UP, ROW = "account red 4 1\n", "up counter/red:a 1 5 0 030000000000000003\n", "row counter/red:a 1 030000000000000003\n"
SEND = "send relay/red:r counter/red:a 020000000367657400\n"
FAULTY = [
    Faulty("of no byte", 1, ""),
    faulty("of another form", 1, "silo-checkpoint 1", "silo-checkpoint 3"),
    faulty("that follows no number", 2, "0123456789abcdef", "0123456789abcdeF", is_taken=True),
    faulty("with a digit too few", 2, "0123456789abcdef", "0123456789abcde", is_taken=True),
    faulty("a zero before a number", 3, "sends 1000", "sends 01000"),
    faulty("two spaces", 3, "sends 1000", "sends  1000"),
    faulty("a clock past its last moment", 4, "clock 7", "clock 9223372036854775808"),
    faulty("no account", 5, "accounts 2", "accounts 0"),
    faulty("an account too few", 9, "accounts 2", "accounts 3"),
    faulty("an account too many", 8, "accounts 2", "accounts 1"),
    faulty("a tenant that isn't well formed", 6, ACCOUNT, "account Red 4 1\n"),
    faulty("a request too many", 6, ACCOUNT, "account red 9223372036854775808 1\n"),
    faulty("a send too few", 8, ACCOUNT, "account red 4 2\n"),
    faulty("a send too many", 7, ACCOUNT, "account red 4 0\n"),
    faulty("a send of another tenant's grain", 7, "send relay/red:r", "send relay/blue:r", is_taken=True),
    faulty("a send to no grain", 7, " counter/red:a 02", " counter/red 02"),
    faulty("bytes that are no message", 7, "67657400", "67657408"),
    faulty("a message of the first form", 7, " 020000", " 010000"),
    faulty("a grain too few", 13, "grains 3", "grains 4"),
    faulty("a grain too many", 12, "grains 3", "grains 2"),
    faulty("grains that don't ascend", 11, UP, UP.replace("counter/red:a", "relay/red:r"), is_taken=True),
    faulty("a grain that stands twice", 11, "relay/red:r - 7", "counter/red:a - 7", is_taken=True),
    faulty("a version past the last", 10, UP, UP.replace(" 1 5", " 18446744073709551616 5")),
    faulty("bytes that are no state", 10, UP, UP.replace("0003\n", "03\n")),
    faulty("a journal of another form", 13, "silo-journal 3", "silo-journal 2", is_taken=True),
    faulty("kinds that have no number", 14, f"kinds {NEWEST}", "kinds 256"),
    faulty("an age of nothing", 15, "age 900000", "age 0"),
    faulty("another tenant than that of the account", 18, "tenant blue 1 1", "tenant green 1 1", is_taken=True),
    faulty("tenants in another order", 17, "tenant red 2 4\ntenant blue 1 1\n", "tenant blue 1 1\ntenant red 2 4\n", is_taken=True),
    faulty("a tenant too few", 18, "tenant blue 1 1\n", "", is_taken=True),
    faulty("a tenant too many", 19, "tenant blue 1 1\n", "tenant blue 1 1\ntenant green 1 1\n", is_taken=True),
    faulty("a tenant that stands twice", 18, "account blue", "account red", "tenant blue", "tenant red"),
    faulty("limits that nobody may have", 17, "tenant red 2 4", "tenant red 2 0"),
    faulty("a step", 20, "close 0", "sweep\nclose 1"),
    faulty("a row that stands twice", 20, ROW, ROW * 2),
    faulty("a row of no version", 19, ROW, ROW.replace(" 1 ", " 0 ")),
    faulty("steps that aren't there", 20, "close 0", "close 1"),
    faulty("a line that no checkpoint has", 21, "close 0\n", "close 0\n\n"),
    faulty("a line behind the sum", 22, end="x\n"),
    faulty("bytes behind the sum", 22, end="x"),
    Faulty("a wrong sum", 21, TEXT.replace("clock 7", "clock 8")),
    Faulty("of which the end is missing", 20, TEXT[:TEXT.index("close 0")]),
    Faulty("without its last byte", 21, TEXT[:-1]),
]

UP_AT_0 = UP.replace("1 5", "1 0")[:-1]
KIND_POINT = changed(point(SAVED), NUMBER, UP_AT_0, UP_AT_0.replace("counter", "bell"))
ROW_POINT = changed(point(SAVED), NUMBER, ROW[:-1], ROW[:-1].replace("counter", "clock"))
COUNT_POINT = changed(FIRST_POINT, NUMBER, "account red 1 0", f"account red {2**63} 0")
OLD_POINT = changed(FIRST_POINT, NUMBER, f"kinds {NEWEST}", "kinds 1")
NEW_POINT = changed(FIRST_POINT, NUMBER, f"kinds {NEWEST}", f"kinds {NEWEST + 1}")
OTHER_LOG = log_of(FIRST, number=1)
TENANTS = [*ANSWER, "blue:1:1"]
RED_AND_BLUE, BLUE_ONLY = ["answer", "--data", "d", "red:2:4", "blue:1:1"], ["answer", "--data", "d", "blue:1:1"]
OLD_WORDS = WORDS._replace(kinds=1)
OLD_BATCH = log_of(SECOND, words=OLD_WORDS, number=of(OLD_POINT))
POINT_REFUSED, OTHER_WORDS = "the checkpoint is refused", "the data have other words"


def other_words(name: str, words: Sequence[str], before: Optional[dict] = None) -> Row:
    """Other words begin behind a log without a batch alone."""
    return refused(f"a checkpoint's words: {name}", {**BEHIND, "d/log": BATCH} if before is None else before, 2, OTHER_WORDS, words)


def left_out(name: str, lines: list) -> Row:
    """Of red something is kept, so it can't be left out."""
    return refused(f"the words leave out red: {name}", after(point(lines, words=RED_AND_BLUE), RED_AND_BLUE), 2, "the data have the tenant red", BLUE_ONLY)


def beside(name: str, log: str, status_: int, errors: str, checkpoint: str = FIRST_POINT) -> Row:
    return refused(f"beside a checkpoint {name}", {"d/checkpoint": checkpoint, "d/log": log}, status_, errors)


REFUSED = [
    *(it.row(POINT_REFUSED) for it in FAULTY if not it.is_taken),
    other_words("the number of the kinds", ANSWER, {**after(OLD_POINT), "d/log": OLD_BATCH}),
    other_words("a version of the kinds that there isn't yet", ANSWER, after(NEW_POINT)),
    other_words("the deliveries", [*ANSWER[:3], "--sends", "999", "red:2:4"]),
    other_words("the age", [*ANSWER[:3], "--age", "9", "red:2:4"]),
    other_words("an age of a kind", [*ANSWER[:3], "--ages", "sheet=5", "red:2:4"]),
    other_words("limits", [*ANSWER[:3], "red:2:5"]),
    other_words("a tenant more", TENANTS),
    other_words("behind a torn end", [*ANSWER[:3], "red:2:5"], {**BEHIND, "d/log": HEAD + "+{"}),
    other_words("behind a batch of no line", [*ANSWER[:3], "red:2:5"], {**BEHIND, "d/log": log_of(([], []), number=of(FIRST_POINT))}),
    other_words("beside the log that it replaced", [*ANSWER[:3], "red:2:5"], STALE),
    other_words("beside another log", [*ANSWER[:3], "red:2:5"], {**BEHIND, "d/log": OTHER_LOG}),
    other_words("beside a log of no form", [*ANSWER[:3], "red:2:5"], {**BEHIND, "d/log": "what"}),
    refused("other words, and no log", {"d/checkpoint": FIRST_POINT}, 4, "the log is missing", [*ANSWER[:3], "red:2:5"]),
    refused("other words, and a kind that isn't known", after(KIND_POINT), 4, POINT_REFUSED, [*ANSWER[:3], "red:2:5"]),
    refused("a checkpoint that is refused comes before its words", {"d/checkpoint": "what"}, 4, POINT_REFUSED, [*ANSWER[:3], "red:2:5"]),
    refused("a checkpoint without its log", {"d/checkpoint": FIRST_POINT}, 4, "the log is missing"),
    refused("that comes before a kind that isn't known", {"d/checkpoint": KIND_POINT}, 4, "the log is missing"),
    beside("a log of no form", "silo-log 2\n" + TWO[11:], 4, "log line 1 is refused"),
    beside("a log of no byte", "", 4, "log line 1 is refused"),
    beside("a log whose head is torn", HEAD[:-1], 2, OTHER_WORDS),
    beside("a log of its number and other words", log_of(words=WORDS._replace(age=1), number=of(FIRST_POINT)), 2, OTHER_WORDS),
    beside("another log", OTHER_LOG, 4, "log line 6 is refused"),
    beside("another log, before a kind that isn't known", OTHER_LOG, 4, "log line 6 is refused", KIND_POINT),
    beside("a log of another number that isn't of such digits", numbered_log(b"0123456789ABCDEF"), 4, "log line 6 is refused"),
    beside("a batch that was changed, with a good one behind it",
           log_of(SECOND, (GET, ok(3, 7)), number=of(FIRST_POINT)).replace('"by":4', '"by":5'), 4, "log line 8 is refused"),
    beside("lines that are answered otherwise", log_of(FIRST, number=of(FIRST_POINT)), 4, "log line 8 is answered otherwise"),
    refused("an active grain of a kind that isn't known", after(KIND_POINT), 4, POINT_REFUSED),
    beside("of a kind that isn't known, a batch that is answered otherwise", log_of((ADD, ok(1, 9)), number=of(KIND_POINT)), 4,
           POINT_REFUSED, KIND_POINT),
    refused("more requests than can be counted", after(COUNT_POINT), 4, POINT_REFUSED),
    beside("of more requests the log that it replaced, which stays", log_of(FIRST), 4, POINT_REFUSED, COUNT_POINT),
    refused("other words, and requests that can't be counted", after(COUNT_POINT), 4, POINT_REFUSED, [*ANSWER[:3], "red:2:5"]),
    other_words("before a tenant that is left out", BLUE_ONLY),
    left_out("requests were counted", call(1, A, "rest")),
    left_out("a row was stored", poke(1, A, 1)),
    left_out("an activation, what it sent, and a row", SENT + SAVED),
    refused("the first one whose account has something is told", after(point(ADD + call(1, "counter/blue:a", "get", None, BLUE), words=RED_AND_BLUE), RED_AND_BLUE),
            2, "the data have the tenant red", [*ANSWER[:3], "c:1:1"]),
    refused("then the first one with an active grain", after(changed(point(ADD + call(1, "counter/blue:a", "get", None, BLUE), words=RED_AND_BLUE), NUMBER,
            "account blue 1 0", "account blue 0 0", "account red 1 0", "account red 0 0"), RED_AND_BLUE), 2, "the data have the tenant blue",
            [*ANSWER[:3], "c:1:1"]),
    refused("and a kind that isn't known then isn't looked at", after(KIND_POINT), 2, "the data have the tenant red", BLUE_ONLY),
]

# ---- other words


def reworded(name: str, lines: list, words: Sequence[str], old: Sequence[str] = ANSWER) -> Row:
    """A start under other words that is asked nothing: it is what a silo of these words would have kept of the lines."""
    before = point(lines, words=old)
    return row(f"other words: {name}", after(before, old), [], [], after(point(lines, of(before), words), words), words)


WIDE, NARROW = ["answer", "--data", "d", "red:9:4"], ["answer", "--data", "d", "red:1:1"]
TWO_ACTIVE = point(ADD + call(2, SHEET, "list"))
NARROW_POINT = changed(TWO_ACTIVE, of(TWO_ACTIVE), "red 2 4", "red 1 1")
LEFT_WAITING = point(SENT, words=WAITING)
REWORDED = [
    reworded("the deliveries", ADD, [*ANSWER[:3], "--sends", "999", "red:2:4"]),
    reworded("the age", ADD, [*ANSWER[:3], "--age", "9", "red:2:4"]),
    reworded("an age of a kind", ADD, [*ANSWER[:3], "--ages", "sheet=5", "red:2:4"]),
    reworded("limits", ADD, [*ANSWER[:3], "red:2:5"]),
    reworded("a tenant more", ADD, TENANTS),
    reworded("the order of tenants", ADD, [*ANSWER[:3], "blue:1:1", "red:2:4"], TENANTS),
    reworded("all of them", SAVED, ["answer", "--data", "d", "--sends", "2", "--age", "7", "--ages", "relay=9", "c:1:1", "red:3:3"]),
    reworded("a tenant of which nothing is kept may be left out", tick(3) + status(1) + call(1, "clock/blue:a", "get", None, BLUE), ANSWER, RED_AND_BLUE),
    row("other words: a newer version of the kinds", {"d/checkpoint": OLD_POINT, "d/log": log_of(words=OLD_WORDS, number=of(OLD_POINT))}, MORE,
        ok(2, 7),
        after(point(ADD + MORE, of(changed(FIRST_POINT, of(OLD_POINT)))))),
    row("more than are active may be active already", after(TWO_ACTIVE), call(3, "counter/red:b", "get") + call(4, A, "get"),
        no(3, 41, "tenant red has no free activation") + ok(4, 3),
        after(changed(TWO_ACTIVE, of(NARROW_POINT), "account red 2 0", "account red 3 0", "red 2 4", "red 1 1"), NARROW), NARROW),
    row("what a grain sent waits under the new words", after(LEFT_WAITING, WAITING), [], [],
        after(changed(LEFT_WAITING, of(LEFT_WAITING), "sends 1", "sends 1000"), WIDE), WIDE),
    row("and follows the tenant's next line", after(LEFT_WAITING, WAITING), status(4), seen(4, 2, 0, 4),
        after(changed(point(SENT + status(4), words=WAITING), of(changed(LEFT_WAITING, of(LEFT_WAITING), "sends 1", "sends 1000")),
                      "sends 1", "sends 1000"), WIDE), WIDE),
    row("where a start ended in between, the checkpoint's words count", {"d/checkpoint": NARROW_POINT, "d/log": log_of(number=of(TWO_ACTIVE))},
        [], [], after(NARROW_POINT, NARROW), NARROW),
]

# only the kinds of active grains are looked at
OTHER_ROW = row("a row of a kind that isn't known is kept", after(ROW_POINT), GET, ok(3, 3),
                after(changed(point(SAVED + GET), of(ROW_POINT), ROW[:-1], ROW[:-1].replace("counter", "clock"))))

FOLDERS: list[Row] = [*BOTH, *NUMBERS, OTHER_ROW, *REFUSED, *REWORDED]


# ---- runs

def files_behind(pieces: Iterator[bytes], files: dict) -> tuple[Run, dict]:
    run = run_program(ANSWER, pieces, {path: content.encode() for path, content in files.items()})
    return run, {path: content.decode() for path, content in run.files.items()}


def a_fault_makes_no_checkpoint() -> bool:
    """Neither of the input nor of too many lines: here an input has one at most. That of the lines that were answered again stays."""
    def failing() -> Iterator[bytes]:
        yield lines_text(GET)
        raise ReaderFailed

    wanted = {**after(TWO_POINT), "d/log": log_of((GET, ok(3, 7)), number=of(TWO_POINT))}
    run, left = files_behind(failing(), {**BEHIND, "d/log": BATCH})
    with mock.patch.object(logged, "MAX_ANSWERED_LINES", 1):
        other, also = files_behind(iter([lines_text(GET + MORE)]), {**BEHIND, "d/log": BATCH})
    told = [(it.out, it.errors, it.status) for it in (run, other)]
    return left == also == wanted and told == [(lines_text(ok(3, 7)), b"silo: reading failed\n", 1), (lines_text(ok(3, 7)),
                                                                                                  b"silo: too much input\n", 1)]


def on_disk(place: pathlib.Path, lines: list) -> tuple:
    """What is told, on both streams, and the status."""
    held: list = []

    def folder_at(_path: str, is_synced: bool) -> DiskFolder:
        held.append(DiskFolder(str(place), is_synced))
        return held[0]

    run = run_program(ANSWER, lines_text(lines), folder_at=folder_at)
    held[0].close()
    return run.out, run.errors, run.status


def a_folder_on_the_disk_goes_on() -> bool:
    with tempfile.TemporaryDirectory() as folder:
        place = pathlib.Path(folder, "data")
        told = [on_disk(place, lines) for lines in (ADD, MORE, [])]
        left = sorted(file.name for file in place.iterdir())
    return told == [(lines_text(ok(1, 3)), b"", 0), (lines_text(ok(2, 7)), b"", 0), (b"", b"", 0)] and left == ["checkpoint", "lock", "log"]


def a_checkpoint_is_on_the_disk_before_it_is_gone_on_from() -> bool:
    """The log first, each with the folder and the folder above."""
    synced: list = []

    def noted(file: int) -> None:
        synced.append(pathlib.Path(os.readlink(f"/proc/self/fd/{file}")).name)

    with tempfile.TemporaryDirectory() as folder:
        place = pathlib.Path(folder).resolve() / "data"
        on_disk(place, ADD)
        with mock.patch.object(data.os, "fsync", noted):
            on_disk(place, [])
        return synced == ["log", "data", place.parent.name, "checkpoint", "data", place.parent.name]


def a_checkpoint_that_is_a_link_is_not_read() -> bool:
    """What a link that was left beside leads to is kept."""
    found = []
    for name in ("checkpoint", "checkpoint.new"):
        with tempfile.TemporaryDirectory() as folder:
            place, aside = pathlib.Path(folder, "data"), pathlib.Path(folder, "aside")
            aside.write_text(FIRST_POINT)
            place.mkdir()
            (place / name).symlink_to("../aside")
            found.append((on_disk(place, ADD), aside.read_text() == FIRST_POINT))
    return found == [((b"", b"silo: reading failed\n", 1), True), ((lines_text(ok(1, 3)), b"", 0), True)]


FOLDER_CALLS: tuple[Callable[[], bool], ...] = (
    a_fault_makes_no_checkpoint, a_folder_on_the_disk_goes_on, a_checkpoint_is_on_the_disk_before_it_is_gone_on_from,
    a_checkpoint_that_is_a_link_is_not_read)
