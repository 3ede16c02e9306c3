"""Worked rows of folders with checkpoints, before and after, to be followed by hand.

`SWITCHED` are inputs of the slow silo alone, in the form that is to come: those of `folder_rows` that hold in it, too, and others. Each
of `SWITCH_CALLS` is a function that says whether it holds. `running_rows` has logs that are replaced while a silo runs, and `cut_rows`
lives that end at each call.
"""

from __future__ import annotations

import pathlib
import stat
import tempfile
from typing import Callable, Iterable, Sequence
from unittest import mock

from . import logged
from .checkpoint import checkpoint_text, read_checkpoint, sum_of
from .data import DiskFolder
from .data_rows import ADD, FIRST, GET, MORE, SECOND, TWO
from .folder_rows import BATCH, BEHIND, BOTH as OF_BOTH_FORMS, FAULTY, FIRST_POINT, HEAD, JOINS, KIND_POINT, OF_TEXT, OLD_POINT, OTHER_LOG
from .folder_rows import ROW, ROW_POINT, SAVED, SENT, STALE, TEXT, WAITING as AT_ONCE
from .folder_texts import KEPT, NUMBER, WORDS, after, changed, lines_text, log_of, of, point, setup_and_most, words_said
from .log import cut_head, head_with, spelled
from .listed_rows import HELD, OF_BLUE
from .logged import text_of
from .program import Run, run_program
from .row import Row
from .running_rows import ran
from .short_lines import A, BLUE, SHEET, SWEEP, call, no, ok, poke, seen, status, tick
from .silo import Silo
from .switched import MOST_LOG

WIDER = ["answer", "--data", "d", "--checkpoints", "--age", "7", "--ages", "sheet=5", "--sends", "0", "blue:1:1", "red:3:4"]


def row(name: str, before: dict, lines: list, out: list, then: dict, words: Sequence[str] = KEPT) -> Row:
    return Row(name, list(words), lines, out, files=before, files_after=then)


def refused(name: str, before: dict, status_: int, errors: str, words: Sequence[str] = KEPT) -> Row:
    """A folder that is refused stays as it is, and nothing is answered."""
    return Row(name, list(words), GET, [], status_, "silo: " + errors, before, {**before, "d/lock": ""})


def with_option(words: Sequence[str]) -> list:
    return [*words[:3], "--checkpoints", *words[3:]]


# ---- other words

WAITING = with_option(AT_ONCE)
BOTH = ["answer", "--data", "d", "--checkpoints", "red:2:4", "blue:1:1"]
OF_RED = "the data have the tenant red"
BLUE_ONLY = ["answer", "--data", "d", "--checkpoints", "blue:1:1"]


def reopened(name: str, lines: list, words: Sequence[str], old: Sequence[str] = KEPT) -> Row:
    """A start under other words, which is asked nothing: it is what a silo of these words would have kept of the lines."""
    before = point(lines, words=old)
    return row(name, after(before, old), [], [], after(point(lines, of(before), words), words), words)


def left_out(name: str, lines: list) -> Row:
    """Of red something is kept, so it can't be left out."""
    return refused(name, after(point(lines, words=BOTH), BOTH), 2, OF_RED, BLUE_ONLY)


TWO_ACTIVE = point(ADD + call(2, SHEET, "list"))
NARROW = ["answer", "--data", "d", "--checkpoints", "red:1:1"]
NARROW_POINT = changed(TWO_ACTIVE, of(TWO_ACTIVE), "red 2 4", "red 1 1")
KEPT_WIDE = ["answer", "--data", "d", "--checkpoints", "red:9:4"]
LEFT_WAITING = point(SENT, words=WAITING)
# kept and logged when grains couldn't rest yet
OLD_WORDS = words_said(KEPT)._replace(kinds=1)
RESTS = call(2, A, "rest")
OTHER_WORDS = [
    row("an older version's lines are answered again by that version, and then there is a checkpoint of the newest",
        {"d/checkpoint": OLD_POINT, "d/log": log_of((RESTS, no(2, 60, "method is unknown")), words=OLD_WORDS, number=of(OLD_POINT))},
        RESTS + status(3), ok(2, None) + seen(3, 0, 0, 3),
        after(changed(point(ADD + MORE + RESTS), of(changed(point(ADD + GET), of(OLD_POINT)))))),
    reopened("more tenants in another order, other limits, ages and deliveries", ADD, WIDER),
    reopened("a tenant of which nothing is kept may be left out", tick(3) + status(1) + call(1, "clock/blue:a", "get", None, BLUE),
             KEPT, BOTH),
    row("more than are active may be active already", after(TWO_ACTIVE), call(3, "counter/red:b", "get") + call(4, A, "get"),
        no(3, 41, "tenant red has no free activation") + ok(4, 3),
        after(changed(TWO_ACTIVE, of(NARROW_POINT), "account red 2 0", "account red 3 0", "red 2 4", "red 1 1"), NARROW), NARROW),
    row("what a grain sent waits under the new words", after(LEFT_WAITING, WAITING), [], [],
        after(changed(LEFT_WAITING, of(LEFT_WAITING), "sends 1", "sends 1000"), KEPT_WIDE), KEPT_WIDE),
    row("and follows the tenant's next line", after(LEFT_WAITING, WAITING), status(4), seen(4, 2, 0, 4),
        after(changed(point(SENT + status(4), words=WAITING), of(changed(LEFT_WAITING, of(LEFT_WAITING), "sends 1", "sends 1000")),
                      "sends 1", "sends 1000"), KEPT_WIDE), KEPT_WIDE),
    left_out("requests were counted", call(1, A, "rest")),
    left_out("a row was stored", poke(1, A, 1)),
    left_out("an activation, what it sent, and a row", SENT + SAVED),
    refused("the least of those that are left out is told",
            after(point(ADD + call(1, "counter/blue:a", "get", None, BLUE), words=BOTH), BOTH), 2,
            "the data have the tenant blue", ["answer", "--data", "d", "--checkpoints", "c:1:1"]),
    refused("a stale log then stays as it is", STALE, 2, OF_RED, BLUE_ONLY),
    refused("so does a log with a torn end", {**BEHIND, "d/log": BATCH + "+{"}, 2, OF_RED, BLUE_ONLY),
    refused("a log that goes on from nothing has the silo's words", {"d/log": TWO}, 2, "the data have other words", WIDER),
]

# ---- what is refused

REFUSED = [
    *(it.row(f"checkpoint line {it.line} is refused", with_option(OF_TEXT)) for it in FAULTY),
    refused("an active grain of a kind that isn't known", after(KIND_POINT), 4, "the data have the kind bell"),
    refused("a row of one", after(ROW_POINT), 4, "the data have the kind clock"),
    refused("the least of them is told", after(changed(KIND_POINT, NUMBER, ROW[:-1], ROW[:-1].replace("counter", "clock"))), 4,
            "the data have the kind bell"),
    refused("a checkpoint without its log", {"d/checkpoint": FIRST_POINT}, 4, "the log is missing"),
    refused("a checkpoint beside another log", {"d/checkpoint": FIRST_POINT, "d/log": OTHER_LOG}, 4, "log line 6 is refused"),
    refused("whatever words it has", {"d/checkpoint": FIRST_POINT, "d/log": log_of(words=words_said(WIDER), number=1)}, 4,
            "log line 8 is refused"),
    refused("a log of no byte", {"d/checkpoint": FIRST_POINT, "d/log": ""}, 4, "log line 1 is refused"),
    refused("a log whose head is torn", {"d/checkpoint": FIRST_POINT, "d/log": HEAD[:-1]}, 4, "log line 6 is refused"),
    refused("before its number", {"d/checkpoint": FIRST_POINT, "d/log": HEAD[:HEAD.index("age")]}, 4, "log line 4 is refused"),
    refused("a log with the checkpoint's number and other words", {**BEHIND, "d/log": log_of(words=WORDS._replace(age=1),
                                                                                             number=of(FIRST_POINT))}, 4,
            "log line 4 is refused"),
    refused("with a line more", {**BEHIND, "d/log": log_of(words=WORDS._replace(ages=(("sheet", 5),)), number=of(FIRST_POINT))}, 4,
            "log line 5 is refused"),
    refused("a stale log whose words were changed", {**STALE, "d/log": STALE["d/log"].replace("age 9", "age 8")}, 4,
            "log line 4 is refused"),
    refused("a batch that was changed, with a good one behind it",
            {**BEHIND, "d/log": log_of(SECOND, (GET, ok(3, 7)), number=of(FIRST_POINT)).replace('"by":4', '"by":5')}, 4,
            "log line 8 is refused"),
    refused("lines that are answered otherwise behind the checkpoint", {**BEHIND, "d/log": log_of(FIRST, number=of(FIRST_POINT))}, 4,
            "log line 8 is answered otherwise"),
    refused("a refused log comes before a tenant that is left out",
            {**BEHIND, "d/log": log_of(FIRST, number=of(FIRST_POINT))}, 4, "log line 8 is answered otherwise", BLUE_ONLY),
    refused("a checkpoint that is refused comes before its log", {"d/checkpoint": "what"}, 4, "checkpoint line 1 is refused"),
    refused("a log of no checkpoint whose number isn't such digits", {"d/log": head_with(WORDS, b"0123456789ABCDEF").decode()}, 2,
            "the data have other words"),
    Row("checkpoints without data", ["answer", "--checkpoints", "red:2:4"], GET, [], 2, "error: --data is missing"),
]

SWITCHED: list[Row] = [*(it._replace(words=with_option(it.words)) for it in OF_BOTH_FORMS), *OTHER_WORDS, *REFUSED]


# ---- runs

def a_new_folder_has_a_checkpoint_of_its_lines() -> bool:
    """It follows the random number of its first log."""
    run = run_program(KEPT, lines_text(ADD))
    kept = read_checkpoint(run.files["d/checkpoint"])
    number, _end = cut_head(WORDS, run.files["d/log"])
    usual = spelled(NUMBER).decode()
    return checkpoint_text(kept._replace(follows=usual)).decode() == FIRST_POINT and sorted(run.files) == [
        "d/checkpoint", "d/lock", "d/log"] and number == spelled(sum_of(run.files["d/checkpoint"])) and kept.follows != usual


def a_new_folder_that_is_asked_nothing_has_a_log_alone() -> bool:
    return sorted(run_program(KEPT).files) == ["d/lock", "d/log"]


def an_input_that_fails_leaves_no_checkpoint() -> bool:
    return ran(KEPT, {"d/log": log_of()}, [ADD, MORE], MOST_LOG, True).left == {"d/log": log_of(FIRST, SECOND), "d/lock": ""}


def so_does_one_that_is_too_long() -> bool:
    """Here an input has two lines at most."""
    with mock.patch.object(logged, "MAX_ANSWERED_LINES", 2):
        run = run_program(KEPT, lines_text(ADD + MORE + GET), {"d/log": log_of().encode()})
    return run == Run(lines_text(ok(1, 3) + ok(2, 7)), b"silo: too much input\n", 1,
                      {"d/log": log_of((ADD + MORE, ok(1, 3) + ok(2, 7))).encode(), "d/lock": b""})


STORY_WORDS = ["answer", "--data", "d", "--checkpoints", "--sends", "1", "--age", "10", "--ages", "sheet=3", "red:4:4", "blue:2:2"]
# those of the program's form
PROGRAM_WORDS = [word for word in STORY_WORDS if word != "--checkpoints"]
STORY = (JOINS + SENT[2:] + ADD + call(4, A, "save") + ["", "hello"] + call(5, SHEET, "put", {"name": "k", "value": [1, {"$hex": "00"}]})
         + tick(2) + call(6, SHEET, "stay", {"for": 9}) + SENT[2:] + poke(7, A, 40) + call(8, "counter/blue:a", "add", {"by": 5}, BLUE)
         + call(9, A, "save") + tick(9) + SWEEP + call(10, "counter/blue:a", "save", None, BLUE) + call(11, A, "get") + tick(11) + SWEEP
         + status(12) + status(13, BLUE) + call(14, SHEET, "rest") + call(15, SHEET, "list") + call(16, "clock/red:x", "get") + tick(5)
         + poke(17, "counter/blue:a", "text", BLUE) + call(18, "counter/blue:a", "reload", None, BLUE) + tick(60) + SWEEP
         + call(19, A, "clear") + call(20, "counter/red:b", "get") + status(21) + status(22, BLUE))


def answers_of(lines: list, words: Sequence[str] = STORY_WORDS) -> list:
    """What each line is answered without a folder, as a text."""
    setup, most = setup_and_most(words)
    silo = Silo(setup)
    return [text_of(silo, line.encode(), most) for line in lines]


def with_switches(pieces: Iterable[list], most: int, files: dict, words: Sequence[str] = STORY_WORDS) -> Run:
    return run_program(list(words), [lines_text(piece) for piece in pieces], files, most_log=most)


def a_run_answers_the_same_whenever_it_is_switched() -> bool:
    wanted, alone = b"".join(answers_of(STORY)), [[line] for line in STORY]
    return all(with_switches(pieces, most, {}, words).out == wanted for words in (STORY_WORDS, PROGRAM_WORDS) for pieces in (alone, [STORY])
               for most in (0, 150, 400, MOST_LOG))


def so_do_two_runs_wherever_the_first_one_ends() -> bool:
    """And what they leave is what one run leaves."""
    answers, whole = answers_of(STORY), read_checkpoint(with_switches([STORY], MOST_LOG, {}).files["d/checkpoint"])
    for place in range(1, len(STORY)):
        first = with_switches([STORY[:place]], MOST_LOG, {})
        second = with_switches([STORY[place:]], MOST_LOG, first.files)
        kept = read_checkpoint(second.files["d/checkpoint"])._replace(follows=whole.follows)
        if (first.out, second.out, kept) != (b"".join(answers[:place]), b"".join(answers[place:]), whole):
            return False
    return True


def a_run_for_each_line_answers_what_one_run_does() -> bool:
    files: dict = {}
    told = []
    for line in STORY:
        run = with_switches([[line]], MOST_LOG, files)
        files = run.files
        told.append(run.out)
    return told == answers_of(STORY)


# ---- on the disk

def on_disk(path: pathlib.Path, words: Sequence[str], lines: list) -> tuple:
    """What is told, on both streams, and the status, of a process in whose folder's place `d` stands."""
    held: list = []

    def folder_at(_place: str, is_synced: bool) -> DiskFolder:
        held.append(DiskFolder(str(path), is_synced))
        return held[0]

    run = run_program(list(words), lines_text(lines), folder_at=folder_at)
    held[0].close()
    return run.out, run.errors, run.status


def a_checkpoint_on_the_disk_is_its_owners_and_goes_on() -> bool:
    with tempfile.TemporaryDirectory() as folder:
        place = pathlib.Path(folder, "data")
        told = [on_disk(place, KEPT, lines) for lines in (ADD, MORE, [])]
        modes = {file.name: stat.S_IMODE(file.stat().st_mode) for file in place.iterdir()}
    return told == [(lines_text(ok(1, 3)), b"", 0), (lines_text(ok(2, 7)), b"", 0), (b"", b"", 0)] and modes == {
        "checkpoint": 0o600, "lock": 0o600, "log": 0o600}


def rows_are_printed_while_a_silo_has_the_folder() -> bool:
    with tempfile.TemporaryDirectory() as folder:
        place = pathlib.Path(folder)
        (place / "checkpoint").write_text(HELD)
        holder = DiskFolder(folder)
        holder.open()
        found = on_disk(place, ["rows", "d", "blue"], []), on_disk(place, KEPT, [])
        holder.close()
        return found == ((lines_text([OF_BLUE]), b"", 0), (b"", b"silo: the data are in use\n", 1))


def a_checkpoint_that_is_a_link_is_not_read() -> bool:
    """By a silo that keeps data there: its rows are printed. What a link that was left beside leads to is kept."""
    found = []
    for name in ("checkpoint", "checkpoint.new"):
        with tempfile.TemporaryDirectory() as folder:
            place, aside = pathlib.Path(folder, "data"), pathlib.Path(folder, "aside")
            aside.write_text(FIRST_POINT)
            place.mkdir()
            (place / name).symlink_to("../aside")
            told = [on_disk(place, words, lines)[1:] for words, lines in ((["rows", "d"], []), (KEPT, ADD))]
            found.append((told, aside.read_text() == FIRST_POINT))
    failed = b"silo: reading failed\n", 1
    return found == [([(b"", 0), failed], True), ([failed, (b"", 0)], True)]


SWITCH_CALLS: tuple[Callable[[], bool], ...] = (
    a_new_folder_has_a_checkpoint_of_its_lines, a_new_folder_that_is_asked_nothing_has_a_log_alone,
    an_input_that_fails_leaves_no_checkpoint, so_does_one_that_is_too_long, a_run_answers_the_same_whenever_it_is_switched,
    so_do_two_runs_wherever_the_first_one_ends, a_run_for_each_line_answers_what_one_run_does,
    a_checkpoint_on_the_disk_is_its_owners_and_goes_on, rows_are_printed_while_a_silo_has_the_folder,
    a_checkpoint_that_is_a_link_is_not_read)
