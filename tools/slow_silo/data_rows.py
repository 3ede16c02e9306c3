"""Worked rows of `answer --data`, from a log without a checkpoint: folders before and after, to be followed by hand.

Those of `DATA` are inputs of the program. Each of `DATA_CALLS` is a function that says whether it holds: of logs while a silo runs, and of
folders on the disk. `folder_rows` goes on from checkpoints.
"""

from __future__ import annotations

import pathlib
import stat
import tempfile
from typing import Callable, Iterator, NamedTuple, Optional, Sequence, Union

from .data import DiskFolder, MemoryFolder
from .folder_texts import ANSWER, WORDS, after, ended, lines_text, log_of, number_in, point, started, words_said
from .kinds import NEWEST
from .lines import MAX_LINE, ReaderFailed
from .log import Words, cut_head
from .program import Run, run_program
from .row import Row
from .short_lines import A, LINE_TOO_LONG, NOT_A_REQUEST, SHEET, SWEEP, call, ok, seen, status, text, tick, told

ADD, MORE, GET = call(1, A, "add", {"by": 3}), call(2, A, "add", {"by": 4}), call(3, A, "get")
LONG = "x" * (MAX_LINE + 1)


class GoesOn(NamedTuple):
    """A start from a log without a checkpoint."""

    name: str
    before: str
    lines: list
    out: list
    words: Sequence[str] = ANSWER
    # what of the log is gone on from, if not all of it
    kept: Optional[str] = None

    def log(self) -> str:
        return self.before if self.kept is None else self.kept

    def row(self) -> Row:
        """A checkpoint has the lines that were answered again, if there are any, and at the end of the input the next one all."""
        left = ended(self.log(), self.lines, self.words)
        return Row(self.name, list(self.words), self.lines, self.out, files={"d/log": self.before}, files_after=left)

    def holds_still(self) -> bool:
        """If the input fails, the log has what was asked, and no checkpoint has it."""
        def pieces() -> Iterator[bytes]:
            yield lines_text(self.lines)
            raise ReaderFailed

        left = started(self.log(), self.words)
        if self.lines:
            batch = [line[:MAX_LINE + 1] for line in self.lines], self.out
            left["d/log"] = log_of(batch, words=words_said(self.words), number=number_in(left))
        run = run_program(list(self.words), pieces(), {"d/log": self.before.encode()})
        return run == Run(lines_text(self.out), b"silo: reading failed\n", 1, {path: content.encode() for path, content in left.items()})


goes_on = GoesOn


def refused(name: str, before: str, status: int, errors: str, words: Sequence[str] = ANSWER) -> Row:
    """A log from which no start goes on, and which stays as it is; nothing is answered."""
    return Row(name, list(words), GET, [], status, errors, {"d/log": before}, {"d/log": before, "d/lock": ""})


FIRST, SECOND = (ADD, ok(1, 3)), (MORE, ok(2, 7))
TWO = log_of(FIRST, SECOND)
LAST_MARK = TWO.splitlines(True)[-1]
REST = call(4, A, "save") + call(5, A, "rest")
RELAYS = (call(1, "relay/red:r", "join", {"grain": "counter/blue:x"}) + call(2, "relay/red:r", "send", {"method": "get", "args": None}),
          ok(1, True) + ok(2, 1) + told(error=40, from_="relay/red:r", text="tenant red may not call a grain of tenant blue"))
SET_UP = Words(NEWEST, 0, 10, (("counter", 5), ("sheet", 7)), (("red", 3, 4), ("blue", 1, 1)))
SET_UP_WORDS = ["answer", "--sends", "0", "--age", "10", "--ages", "sheet=7,counter=5", "--data", "d", "red:3:4", "blue:1:1"]

LOGS: list[Union[GoesOn, Row]] = [
    goes_on("what was answered is in the log, behind its head", log_of(), ADD, ok(1, 3)),
    goes_on("without a line nothing is added to it", log_of(), [], []),
    goes_on("a start goes on from what the log has", TWO, GET, ok(3, 7)),
    goes_on("nothing is told of the log", TWO, [], []),
    goes_on("rows, the clock and what rests come back",
            log_of((ADD + REST + tick(5), ok(1, 3) + ok(4, "1") + ok(5, None))), status(6) + GET,
            seen(6, 0, 5, 3) + ok(3, 3)),
    goes_on("every line is in the log: an empty one, one that is refused, and of one that is too long what shows that",
            log_of(), ["", "hello", LONG + "yyy", *SWEEP], NOT_A_REQUEST + LINE_TOO_LONG),
    goes_on("what grains are told is told for their line", log_of(words=SET_UP), [], [], SET_UP_WORDS),
    goes_on("sends that are left go on behind the next line", log_of((RELAYS[0], ok(1, True) + ok(2, 1)), words=SET_UP),
            status(3), seen(3, 1, 0, 2), SET_UP_WORDS),
    goes_on("a line without a mark was never acknowledged, and is cut off", TWO + text(["+" + MORE[0]]), GET, ok(3, 7), kept=TWO),
    goes_on("so is a torn line", TWO + "+{", GET, ok(3, 7), kept=TWO),
    goes_on("so is a torn mark", TWO[:-1], GET, ok(3, 3), kept=log_of(FIRST)),
    goes_on("so are zeros", TWO + "\0" * 40, GET, ok(3, 7), kept=TWO),
    goes_on("so are the bytes of an older log", TWO + log_of(FIRST, SECOND, FIRST, number=7)[len(log_of()):], GET, ok(3, 7), kept=TWO),
    goes_on("so is a last batch whose bytes were changed", TWO.replace('"by":4', '"by":5'), GET, ok(3, 3), kept=log_of(FIRST)),
    refused("a batch that was changed, with a good one behind it, is refused at its mark", TWO.replace('"by":3', '"by":5'), 4,
            "silo: log line 8 is refused"),
    refused("a line that no log has, with two marks behind it, is refused", TWO.replace("+" + ADD[0], "-" + ADD[0]), 4,
            "silo: log line 7 is refused"),
    refused("so is a mark whose beginning was changed, with a good batch behind it, at its line", TWO.replace("=01", "=11", 1), 4,
            "silo: log line 8 is refused"),
    refused("and at the next mark, if it is a line that was asked then", TWO.replace("=", "+", 1), 4, "silo: log line 10 is refused"),
    refused("a mark that was joined with the line before it", TWO.replace("\n=", "x=", 1), 4, "silo: log line 9 is refused"),
    refused("a last mark whose lines are gone", log_of(FIRST) + LAST_MARK, 4, "silo: log line 9 is refused"),
    refused("a last mark that stands before its lines", TWO.replace("+" + MORE[0] + "\n", "") + "+" + MORE[0] + "\n", 4,
            "silo: log line 9 is refused"),
    refused("a last mark that says another length", TWO.replace(LAST_MARK, LAST_MARK.replace("5d", "5e", 1)), 4,
            "silo: log line 10 is refused"),
    goes_on("one that says another sum is cut off with its lines", TWO.replace(LAST_MARK, LAST_MARK[:-2] + "x\n"), GET, ok(3, 3),
            kept=log_of(FIRST)),
    refused("a log that is answered otherwise than it was told", log_of(FIRST, (MORE, ok(2, 8)), (GET, ok(3, 7))), 4,
            "silo: log line 10 is answered otherwise"),
    refused("that comes before a fault behind it", log_of((ADD, ok(1, 4)), SECOND).replace('"by":4', '"by":5'), 4,
            "silo: log line 8 is answered otherwise"),
    refused("other tenants", TWO, 2, "silo: the data have other words", ["answer", "--data", "d", "red:2:4", "blue:2:4"]),
    refused("other limits", TWO, 2, "silo: the data have other words", ["answer", "--data", "d", "red:3:4"]),
    refused("another age", TWO, 2, "silo: the data have other words", ["answer", "--age", "899999", "--data", "d", "red:2:4"]),
    refused("an age of a kind", TWO, 2, "silo: the data have other words", ["answer", "--ages", "counter=5", "--data", "d", "red:2:4"]),
    refused("other deliveries", TWO, 2, "silo: the data have other words", ["answer", "--sends", "999", "--data", "d", "red:2:4"]),
    refused("a log of no form", "silo-log 2\n" + TWO[11:], 4, "silo: log line 1 is refused"),
    refused("a log of no byte", "", 4, "silo: log line 1 is refused"),
    refused("a head that is torn", log_of()[:-1], 2, "silo: the data have other words"),
    refused("a head whose number was changed", TWO.replace("of 0", "of 1"), 2, "silo: the data have other words"),
    goes_on("nothing is brought to the disk", TWO, GET, ok(3, 7), ["answer", "--data=d", "--no-sync", "red:2:4"]),
    Row("a tenant argument that is refused comes before the folder", ["answer", "--data", "d", "red"], GET, [], 2,
        "silo: tenant argument 1 is refused"),
    Row("no journal beside the data", ["answer", "--data", "d", "--journal", "j", "red:2:4"], GET, [], 2, "error: not both"),
    Row("no data that aren't synced without data", ["answer", "--no-sync", "red:2:4"], GET, [], 2, "error: --data is missing"),
    Row("data twice", ["answer", "--data", "d", "--data", "e", "red:2:4"], GET, [], 2, "error: twice"),
    Row("data that are no option of another command", ["steps", "--data", "d", "red:2:4"], [], [], 2, "error: unknown"),
]
DATA = [it.row() if isinstance(it, GoesOn) else it for it in LOGS]


def each_log_has_what_was_asked_if_the_input_fails() -> bool:
    return all(it.holds_still() for it in LOGS if isinstance(it, GoesOn))


def a_refused_log_gets_no_checkpoint() -> bool:
    """Nor does a folder to which nothing was done get any file."""
    refusals = [it for it in DATA if it.status]
    return len(refusals) > 20 and all(run_program(it.words, lines_text(it.lines), {
        path: content.encode() for path, content in it.files.items()}).files.keys() == it.files_after.keys() for it in refusals)


def a_new_folder_has_a_log_of_its_lines() -> bool:
    """Its number is random. At the end a checkpoint follows it."""
    files: dict = {}

    def pieces() -> Iterator[bytes]:
        yield lines_text(ADD)
        files.update(held)

    held: dict = {}
    run = run_program(ANSWER, pieces(), folder_at=lambda path, _is_synced: MemoryFolder(held, path))
    number, _end = cut_head(WORDS, files["d/log"])
    is_log = files == {"d/lock": b"", "d/log": log_of(FIRST, number=int(number, 16)).encode()}
    wanted = after(point(ADD, int(number, 16)))
    return is_log and run.out == lines_text(ok(1, 3)) and held == {path: content.encode() for path, content in wanted.items()}


def two_new_logs_have_two_numbers() -> bool:
    one, other = (cut_head(WORDS, run_program(ANSWER).files["d/log"])[0] for _ in range(2))
    return one != other


def on_disk(path: str, given: bytes) -> tuple:
    held = []

    def folder_at(place: str, is_synced: bool) -> DiskFolder:
        held.append(DiskFolder(place, is_synced))
        return held[-1]

    run = run_program(["answer", "--data", path, "red:2:4"], given, folder_at=folder_at)
    held[0].close()
    return run.out, run.errors, run.status


def what_is_on_the_disk_is_its_owners() -> bool:
    with tempfile.TemporaryDirectory() as folder:
        data = pathlib.Path(folder, "data")
        first, second = on_disk(str(data), text(ADD).encode()), on_disk(str(data), text(MORE).encode())
        modes = {path.name: stat.S_IMODE(path.stat().st_mode) for path in [data, *data.iterdir()]}
    return (first, second) == ((text(ok(1, 3)).encode(), b"", 0), (text(ok(2, 7)).encode(), b"", 0)) and modes == {
        "data": 0o700, "checkpoint": 0o600, "lock": 0o600, "log": 0o600}


def a_folder_that_another_has_is_in_use() -> bool:
    with tempfile.TemporaryDirectory() as folder:
        held = DiskFolder(folder)
        held.open()
        found = on_disk(folder, b"")
        held.close()
        return found == (b"", b"silo: the data are in use\n", 1) and on_disk(folder, b"") == (b"", b"", 0)


def links_are_no_files_of_the_folder() -> bool:
    """A lock or a log that is a link is refused; one that an earlier start left beside is taken away, and what it leads to is kept."""
    found = []
    for name in ("lock", "log", "log.new"):
        with tempfile.TemporaryDirectory() as folder:
            aside, data = pathlib.Path(folder, "aside"), pathlib.Path(folder, "data")
            aside.write_bytes(b"kept")
            data.mkdir()
            (data / name).symlink_to("../aside")
            found.append((on_disk(str(data), b""), aside.read_bytes()))
    writing, reading = ((b"", f"silo: {what} failed\n".encode(), 1) for what in ("writing", "reading"))
    return found == [(writing, b"kept"), (reading, b"kept"), ((b"", b"", 0), b"kept")]


def a_folder_that_cant_be_made_cant_be_written() -> bool:
    with tempfile.TemporaryDirectory() as folder:
        file = pathlib.Path(folder, "file")
        file.write_bytes(b"")
        return all(on_disk(path, b"") == (b"", b"silo: writing failed\n", 1) for path in ("", f"{folder}/no/data", str(file)))


def what_one_piece_brings_is_a_batch() -> bool:
    """Also the end of a line whose beginning another brought. Once its lines have more than a megabyte, another begins."""
    put = call(1, SHEET, "put", {"name": "k", "value": "x" * 60_000})
    files = {"d/log": log_of().encode()}
    lines = [line.encode() + b"\n" for line in ADD + MORE + GET] + [put[0].encode() + b"\n"] * 20
    # 17 lines have less than a megabyte, and 18 more
    pieces = [lines[0] + lines[1][:9], lines[1][9:12], lines[1][12:] + lines[2], b"", b"".join(lines[3:]), b"last"]

    def failing() -> Iterator[bytes]:
        yield from pieces[:-1]
        # the last one has no LF, and is a line only at the end
        yield pieces[-1] + b"\n"
        raise ReaderFailed

    run = run_program(ANSWER, failing(), files)
    batches = [FIRST, (MORE + GET, ok(2, 7) + ok(3, 7)), (put * 18, ok(1, None) * 18), (put * 2, ok(1, None) * 2),
               (["last"], NOT_A_REQUEST)]
    whole = run_program(ANSWER, pieces, files)
    asked = [line for batch, _out in batches for line in batch]
    wanted = {path: content.encode() for path, content in ended(log_of(), asked).items()}
    return run.files["d/log"].decode() == log_of(*batches) and (whole.out, whole.files) == (run.out, wanted)


DATA_CALLS: tuple[Callable[[], bool], ...] = (
    each_log_has_what_was_asked_if_the_input_fails, a_refused_log_gets_no_checkpoint,
    a_new_folder_has_a_log_of_its_lines, two_new_logs_have_two_numbers, what_is_on_the_disk_is_its_owners,
    a_folder_that_another_has_is_in_use, links_are_no_files_of_the_folder, a_folder_that_cant_be_made_cant_be_written,
    what_one_piece_brings_is_a_batch)
