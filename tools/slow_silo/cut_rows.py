"""Lives of a silo with checkpoints, of both forms, that end at each call that changes a file or the output, in memory and on the disk.

A call that is the last does half of its work, or nothing if it has no halves. Then the folder's one reading is where some of the lines
lead: no fewer than were told, and at most a batch more. The next life is told what these lines' next ones are told without an end.

On the disk the calls of the system that `data` makes are counted. A power cut also takes what wasn't synced: bytes at a file's end, which
are gone, or zeros, or half of them gone; and a name that a rename gave, which is again that of the file that had it.
"""

from __future__ import annotations

import os
import pathlib
import re
import stat
import tempfile
from functools import partial
from typing import Callable, Iterator, NamedTuple, Optional, Sequence
from unittest import mock

from . import data, switched
from .checkpoint import checkpoint_of, checkpoint_text, sum_of
from .data import DiskFolder, Folder, MemoryFolder
from .lines import ReaderFailed
from .log import DIGITS, numbered_head, spelled
from .program import FAULTS_OF_DATA, Run, run_program
from .silo import Silo
from .switched import MOST_LOG, full, of_program
from .folder_texts import left_by, lines_text, replaced_behind, setup_and_most
from .switch_rows import PROGRAM_WORDS, STORY, STORY_WORDS, answers_of

# bytes of lines above which a log is replaced, and lines of a piece: so there are switches between some, and in the midst of some
MOST, LINES = 300, 4
MOST_CALLS = 10_000
KILLED, BYTES_GONE, ZEROS, HALF_GONE = range(4)


class Cut(Exception):
    """The process ends here."""


class Calls:
    """Counts calls, of which the one of this number is the last; with 0 none is."""

    def __init__(self, last: int):
        self.last, self.count = last, 0

    def made(self, half: Callable[[], object] = lambda: None) -> None:
        """One more is made; if it is the last, then by half."""
        self.count += 1
        if self.count == self.last:
            half()
            raise Cut


class Told(list):
    """What is written to the output, each time by one call."""

    def __init__(self, calls: Calls):
        super().__init__()
        self.calls = calls

    def append(self, text: bytes) -> None:
        self.calls.made(lambda: super(Told, self).append(text[:len(text) // 2]))
        super().append(text)


class Life(NamedTuple):
    told: bytes
    # none if it was cut
    run: Optional[Run]


def lived(folder: Folder, calls: Calls, batches: Sequence[list], words: Sequence[str] = STORY_WORDS) -> Life:
    told = Told(calls)
    try:
        run = run_program(list(words), map(lines_text, batches), written=told, folder_at=lambda *_given: folder, most_log=MOST)
        return Life(run.out or b"", run)
    except Cut:
        return Life(b"".join(told), None)


# ---- in memory

class CutMemory(MemoryFolder):
    """A folder among files, each of whose calls may be the last."""

    def __init__(self, files: dict, calls: Calls):
        super().__init__(files, "d")
        self.calls = calls

    def replace(self, beside: str, name: str, content: bytes) -> None:
        path = f"d/{beside}"
        self.calls.made()
        self.files.pop(path, None)
        self.calls.made()
        self.files[path] = b""
        self.calls.made(lambda: self.files.update({path: content[:len(content) // 2]}))
        self.files[path] = content
        self.calls.made()
        self.calls.made()
        self.files[f"d/{name}"] = self.files.pop(path)
        self.calls.made()

    def keep(self, length: int) -> None:
        self.calls.made()
        super().keep(length)

    def append(self, added: bytes) -> None:
        self.calls.made(lambda: super(CutMemory, self).append(added[:len(added) // 2]))
        super().append(added)

    def sync(self) -> None:
        self.calls.made()


def lived_in_memory(files: dict, last: int, batches: Sequence[list], words: Sequence[str] = STORY_WORDS) -> tuple[Life, dict]:
    """A life, and the files that it leaves."""
    left = dict(files)
    calls = Calls(last)
    return lived(CutMemory(left, calls), calls, batches, words), left


# ---- on the disk

class System:
    """The calls of the system, each of those that change something perhaps the last; and what a power cut takes with it."""

    def __init__(self, calls: Calls, loses: int):
        self.calls, self.loses = calls, loses
        # how many bytes of a file are on the disk, by its number; and what a rename did that isn't
        self.synced: dict[int, int] = {}
        self.renamed: Optional[tuple[str, str, Optional[bytes]]] = None

    def __getattr__(self, name: str) -> object:
        return getattr(os, name)

    def open(self, path: str, flags: int, mode: int = 0o600) -> int:
        is_made = bool(flags & os.O_CREAT) and not os.path.lexists(path)
        if is_made:
            self.calls.made()
        file = os.open(path, flags, mode)
        found = os.fstat(file)
        if is_made or found.st_ino not in self.synced:
            self.synced[found.st_ino] = found.st_size
        return file

    def unlink(self, path: str) -> None:
        self.calls.made()
        os.unlink(path)

    def write(self, file: int, content: bytes) -> int:
        self.calls.made(lambda: os.write(file, content[:len(content) // 2]))
        return os.write(file, content)

    def ftruncate(self, file: int, length: int) -> None:
        self.calls.made()
        os.ftruncate(file, length)

    def rename(self, old: str, new: str) -> None:
        self.calls.made()
        before = pathlib.Path(new).read_bytes() if os.path.exists(new) else None
        os.rename(old, new)
        self.renamed = old, new, before

    def fsync(self, file: int) -> None:
        """Of a folder it has the names on the disk, of a file the bytes. It isn't waited for."""
        self.calls.made()
        found = os.fstat(file)
        if stat.S_ISDIR(found.st_mode):
            self.renamed = None
        else:
            self.synced[found.st_ino] = found.st_size

    fdatasync = fsync

    def lose(self, path: str) -> None:
        """What wasn't synced when the power fails."""
        if self.loses == KILLED:
            return
        for file in sorted(pathlib.Path(path).iterdir()):
            content = file.read_bytes()
            end = self.synced.get(file.stat().st_ino, len(content))
            lost = len(content) - end
            if lost > 0:
                file.write_bytes(content[:end] + {BYTES_GONE: b"", ZEROS: bytes(lost), HALF_GONE: content[end:end + lost // 2]}[self.loses])
        if self.renamed is not None:
            old, new, before = self.renamed
            os.rename(new, old)
            if before is not None:
                pathlib.Path(new).write_bytes(before)


def lived_on_disk(loses: int, files: dict, last: int, batches: Sequence[list], words: Sequence[str] = STORY_WORDS) -> tuple[Life, dict]:
    with tempfile.TemporaryDirectory() as place:
        for path, content in files.items():
            pathlib.Path(place, path).parent.mkdir(exist_ok=True)
            pathlib.Path(place, path).write_bytes(content)
        calls = Calls(last)
        system = System(calls, loses)
        folder = DiskFolder(f"{place}/d")
        with mock.patch.object(data, "os", system):
            life = lived(folder, calls, batches, words)
        folder.close()
        if life.run is None:
            system.lose(f"{place}/d")
        return life, {f"d/{file.name}": file.read_bytes() for file in pathlib.Path(place, "d").iterdir()}


# ---- what has to hold

def batches_of(lines: list) -> list[list]:
    return [lines[place:place + LINES] for place in range(0, len(lines), LINES)]


def state_text(silo: Silo) -> bytes:
    """All that is kept of a silo."""
    return checkpoint_text(checkpoint_of(silo, "", 0))


def reading_of(files: dict, words: Sequence[str]) -> Optional[bytes]:
    """Where a folder leads; none if it is refused."""
    setup, most = setup_and_most(words)
    try:
        form = full if "--checkpoints" in words else of_program
        silo, _log = switched.start(MemoryFolder(dict(files), "d"), setup, most, form(MOST))
    except tuple(FAULTS_OF_DATA):
        return None
    return state_text(silo)


class Story:
    """The lines that a silo is asked, what each is told, and where the first of them lead."""

    def __init__(self, lines: list, words: Sequence[str] = STORY_WORDS):
        self.lines, self.words = lines, words
        self.texts = answers_of(lines, words)
        self.states = [state_text(left_by(lines[:count], words)) for count in range(len(lines) + 1)]

    def text(self, first: int, last: int) -> bytes:
        return b"".join(self.texts[first:last])

    def ends(self, had: int, is_due: bool) -> list[int]:
        """Behind how many lines a batch ends, of a life that had so many, and perhaps made a checkpoint of them: a piece ends there, or a
        log that is full."""
        lines, sends = [line.encode() for line in self.lines[had:]], setup_and_most(self.words)[1]
        # these states follow no number, and tell of no sends
        switched_ = replaced_behind(lines, MOST, is_due, lambda place: len(self.states[had + place]) + DIGITS + len(f"{sends}") - 1)
        return sorted({*range(had, len(self.lines), LINES), len(self.lines), *(had + place for place in switched_)})

    def kept(self, had: int, is_due: bool, told: bytes, files: dict) -> Optional[int]:
        """To how many lines a folder leads whose silo, behind the lines that it had, told so much. None if that isn't as it should be."""
        ends = self.ends(had, is_due)
        state = reading_of(files, self.words)
        fits = [end for before, end in zip([had, *ends], ends)
                if state == self.states[end] and self.text(had, end).startswith(told) and told.startswith(self.text(had, before))]
        return fits[-1] if fits else None


Lived = Callable[..., tuple[Life, dict]]


def cut_lives(live: Lived, story: Story, files: dict, had: int) -> Iterator[tuple[bool, dict]]:
    """Whether each life from these files on that ends at a call is as it should be, and the next one; and the files that it left.
    The next one goes on in memory."""
    batches = batches_of(story.lines[had:])
    for last in range(1, MOST_CALLS):
        life, left = live(files, last, batches, story.words)
        if life.run is not None:
            yield is_whole(story, life, left, had), left
            return
        count = story.kept(had, has_lines(files), life.told, left)
        yield count is not None and goes_on(story, left, count), left
    yield False, {}


def is_whole(story: Story, life: Life, left: dict, had: int) -> bool:
    """A life that no call ended told what all lines behind the first ones are told, and is where all lead."""
    told = life.run is not None and (life.run.status, life.told) == (0, story.text(had, len(story.lines)))
    return told and reading_of(left, story.words) == story.states[-1]


def goes_on(story: Story, files: dict, count: int) -> bool:
    """The next life, which is asked the lines behind the first ones, is whole, and leaves nothing beside."""
    life, left = lived_in_memory(files, 0, batches_of(story.lines[count:]), story.words)
    return is_whole(story, life, left, count) and not {"d/checkpoint.new", "d/log.new"} & set(left)


def interrupted(lines: list, most: int = MOST, words: Sequence[str] = STORY_WORDS, files: Optional[dict] = None) -> dict:
    """The files of a silo that was asked these lines, from others or from none, and whose input then failed."""
    def batches() -> Iterator[bytes]:
        yield from map(lines_text, batches_of(lines))
        raise ReaderFailed
    return run_program(words, batches(), files, most_log=most).files


def ended(lines: list, words: Sequence[str] = PROGRAM_WORDS) -> dict:
    return run_program(words, map(lines_text, batches_of(lines))).files


def is_stale(files: dict) -> bool:
    """The checkpoint has all of the log."""
    head = numbered_head(files.get("d/log", b""))
    return head is not None and "d/checkpoint" in files and head.number != spelled(sum_of(files["d/checkpoint"]))


def has_lines(files: dict) -> bool:
    """The log has lines that no checkpoint has."""
    return not is_stale(files) and b"\n+" in files.get("d/log", b"")


# on the disk a life takes longer
WHOLE, SHORT, WHOLE_OF_PROGRAM, SHORT_OF_PROGRAM = (
    Story(lines, words) for words in (STORY_WORDS, PROGRAM_WORDS) for lines in (STORY, STORY[:8]))
# folders of the program with a checkpoint of four lines, and how many lines they have
BEGUN = [(ended(STORY[:4]), 4), (interrupted(STORY[4:8], MOST_LOG, PROGRAM_WORDS, ended(STORY[:4])), 8)]


def holds(live: Lived, story: Story, files: Optional[dict] = None, had: int = 0) -> bool:
    """Each life that ends at a call is as it should be. At some of these calls a log is stale."""
    found = list(cut_lives(live, story, files or {}, had))
    return all(is_well for is_well, _left in found) and any(is_stale(left) for _is_well, left in found)


def each_life_in_memory_that_ends_at_a_call() -> bool:
    return holds(lived_in_memory, WHOLE) and holds(lived_in_memory, WHOLE_OF_PROGRAM)


def each_life_that_goes_on_from_a_checkpoint() -> bool:
    return all(holds(lived_in_memory, WHOLE_OF_PROGRAM, *begun) for begun in BEGUN)


def each_life_on_the_disk_that_ends_at_a_call() -> bool:
    return holds(partial(lived_on_disk, KILLED), SHORT) and holds(partial(lived_on_disk, KILLED), SHORT_OF_PROGRAM)


def each_life_that_ends_by_a_power_cut() -> bool:
    """Also from a folder in whose place another checkpoint comes back."""
    losing = [partial(lived_on_disk, loses) for loses in (BYTES_GONE, ZEROS, HALF_GONE)]
    return all(holds(live, SHORT) and holds(live, SHORT_OF_PROGRAM) and holds(live, SHORT_OF_PROGRAM, *BEGUN[0]) for live in losing)


def each_start_that_ends_at_a_call() -> bool:
    """It is asked nothing: it answers the batches of a log again, behind a checkpoint or without one, or passes over a stale log."""
    begun = [(interrupted(STORY[:count], most), Story(STORY[:count]), count) for count, most in ((8, MOST_LOG), (8, MOST), (32, MOST))]
    begun += [(interrupted(STORY[:8], MOST_LOG, PROGRAM_WORDS), SHORT_OF_PROGRAM, 8), (BEGUN[1][0], SHORT_OF_PROGRAM, 8)]
    first = [(left, story, count) for files, story, count in begun for _is_well, left in cut_lives(lived_in_memory, story, files, count)]
    again = [one for files, story, count in first if is_stale(files) for one in cut_lives(lived_in_memory, story, files, count)]
    return ["d/checkpoint" in files for files, *_more in begun] == [False, True, True, False, True] and len(again) > 20 and all(
        is_well for is_well, _left in again) and all(story.kept(count, True, b"", files) == count for files, story, count in first)


def each_start_under_other_words_that_ends_at_a_call() -> bool:
    """What it leaves is one silo also under the words before."""
    lines, words = STORY[:13], [*STORY_WORDS[:6], "--age", "9", "green:1:1", "red:5:4", "blue:2:2"]
    before, story = run_program(STORY_WORDS, lines_text(lines)).files, Story(lines, words)
    found = list(cut_lives(lived_in_memory, story, before, len(lines)))
    old = [reading_of(left, STORY_WORDS) == state_text(left_by(lines, STORY_WORDS)) for _is_well, left in found]
    return len(found) > 12 and all(is_well for is_well, _left in found) and all(old)


# ---- checkpoints that were cut or changed

def damaged(text: bytes) -> Iterator[tuple[int, bytes]]:
    """The text cut at each byte, and with each byte changed: to one that differs in a bit, to LF, a space and zero; with the line of it."""
    for place, byte in enumerate(text):
        line = text.count(b"\n", 0, place) + 1
        yield line, text[:place]
        for other in {byte ^ 1, byte ^ 64, *b"\n \0"} - {byte}:
            yield line, text[:place] + bytes([other]) + text[place + 1:]


def each_changed_byte_of_a_checkpoint_has_it_refused() -> bool:
    """At its line or a later one, if the line is told; no other file changes, and nothing is told."""
    files, of_the_program = interrupted(STORY[:24]), BEGUN[1][0]
    return all(is_refused(STORY_WORDS, files, line, changed) for line, changed in damaged(files["d/checkpoint"])) and all(
        is_refused(PROGRAM_WORDS, of_the_program, line, changed) for line, changed in damaged(of_the_program["d/checkpoint"]))


def is_refused(words: Sequence[str], files: dict, line: int, text: bytes) -> bool:
    before = {**files, "d/checkpoint": text}
    run = run_program(words, lines_text(STORY[24:]), before)
    said = re.fullmatch(rb"silo: (?:checkpoint line (\d+)|the checkpoint) is refused\n", run.errors or b"")
    is_told = said is not None and (said[1] is not None) == ("--checkpoints" in words)
    return is_told and line <= int(said[1] or line) <= text.count(b"\n") + 1 and (run.out, run.status, run.files) == (b"", 4, before)


def a_checkpoint_beside_that_was_cut_or_changed_is_not_looked_at() -> bool:
    """Nor is a log beside."""
    files = interrupted(STORY[:24])
    wanted = reading_of(files, STORY_WORDS)
    beside = [part[:end] for part in (files["d/checkpoint"], files["d/log"]) for end in range(0, len(part), 40)]
    return all(reading_of({**files, name: content}, STORY_WORDS) == wanted
               for name in ("d/checkpoint.new", "d/log.new") for content in beside)


CUT_CALLS: tuple[Callable[[], bool], ...] = (
    each_life_in_memory_that_ends_at_a_call, each_life_that_goes_on_from_a_checkpoint, each_life_on_the_disk_that_ends_at_a_call,
    each_life_that_ends_by_a_power_cut,
    each_start_that_ends_at_a_call, each_start_under_other_words_that_ends_at_a_call, each_changed_byte_of_a_checkpoint_has_it_refused,
    a_checkpoint_beside_that_was_cut_or_changed_is_not_looked_at)
