"""What the last checkpoint in the folder of data says of each tenant (docs/formats.md, 'Checkpoints as text'): it is counted, and not checked."""

from __future__ import annotations

import asyncio
import collections
import os
import pathlib
import re
import threading
import time
from typing import BinaryIO, Dict, List, NamedTuple, Optional, Tuple

from silo.gateway.log import tell

NAME = "checkpoint"
FORM = b"silo-checkpoint 1"
# how often it is looked whether there is another one; behind one that took long, so many times that later
SECONDS_BETWEEN, PAUSES_OF_A_READING = 2.0, 20.0
# what is read at once, and how long nothing is then, so that whoever asks waits for a moment only
BYTES_AT_ONCE, SECONDS_OF_A_PAUSE = 16_384, 0.000_5
# no beginning of a line that counts is longer; and how many different ones there may be
MOST_OF_A_BEGINNING, MOST_BEGINNINGS = 256, 100_000
# lines that are counted by the tenant of their grain, and those that say how many follow; each up to its first colon
COUNTED = re.compile(rb"(row|up|send) [a-z][a-z0-9-]{0,31}/([a-z][a-z0-9-]{0,31})")
ACCOUNT = re.compile(rb"account ([a-z][a-z0-9-]{0,31}) [0-9]{1,20} [0-9]{1,20}")
LENGTH = re.compile(rb"(accounts|grains) ([0-9]{1,20})")
SUM = re.compile(rb"sum ([0-9a-f]{16})")


class Strange(Exception):
    """It hasn't the form of a checkpoint that is known here."""


class Counts(NamedTuple):
    """What a tenant had: rows, active grains, which are all idle there, and what grains sent that isn't delivered."""

    rows: int
    idle_grains: int
    sends: int


class Checkpoint(NamedTuple):
    """What one says, its number, and when it was written, in seconds since 1970."""

    number: str
    written: float
    tenants: Dict[str, Counts]


class Counting:
    """Counts lines that come in pieces of any length. Of a line its beginning alone is kept, up to where a grain's name begins."""

    def __init__(self) -> None:
        self._torn = b""
        # how many lines begin so, in the order in which they came
        self._beginnings: collections.Counter[bytes] = collections.Counter()
        self._last = b""

    def feed(self, data: bytes) -> None:
        first, *others = data.split(b"\n")
        lines = [self._torn + first[: MOST_OF_A_BEGINNING + 1], *others]
        self._torn = lines.pop()[: MOST_OF_A_BEGINNING + 1]
        if not lines:
            return
        self._beginnings.update([line[:MOST_OF_A_BEGINNING].partition(b":")[0] for line in lines])
        self._last = lines[-1][:MOST_OF_A_BEGINNING]
        if len(self._beginnings) > MOST_BEGINNINGS or next(iter(self._beginnings)) != FORM:
            raise Strange("it hasn't the form that is known here")

    def counted(self, written: float) -> Checkpoint:
        """What the whole text says."""
        accounts: List[bytes] = []
        lengths: Dict[bytes, int] = {}
        found: collections.Counter[Tuple[bytes, bytes]] = collections.Counter()
        for beginning, count in self._beginnings.items():
            if counted := COUNTED.fullmatch(beginning):
                found[counted[1], counted[2]] += count
            elif account := ACCOUNT.fullmatch(beginning):
                accounts += [account[1]] * count
            elif length := LENGTH.fullmatch(beginning):
                lengths[length[1]] = int(length[2])
        number, ups = SUM.fullmatch(self._last), sum([count for (word, _), count in found.items() if word == b"up"])
        if number is None or self._torn or lengths != {b"accounts": len(accounts), b"grains": ups}:
            raise Strange("it isn't whole")
        tenants = {name.decode(): Counts(found[b"row", name], found[b"up", name], found[b"send", name]) for name in accounts}
        return Checkpoint(number[1].decode(), written, tenants)


class Last:
    """The last checkpoint of a folder, which is read in a thread of its own whenever there is another."""

    def __init__(self, folder: pathlib.Path) -> None:
        self._path = folder / NAME
        self._seen: Optional[os.stat_result] = None
        self._is_over = threading.Event()
        # none while there is none, or one that can't be read
        self.checkpoint: Optional[Checkpoint] = None

    async def run(self) -> None:
        """Until it is cancelled."""
        loop = asyncio.get_running_loop()
        try:
            while True:
                begun = loop.time()
                if self._is_another():
                    self.checkpoint = await loop.run_in_executor(None, self._read)
                await asyncio.sleep(max(SECONDS_BETWEEN, PAUSES_OF_A_READING * (loop.time() - begun)))
        finally:
            self._is_over.set()

    def _is_another(self) -> bool:
        """Whether the file isn't the one that was read last. The program makes each anew, and puts it in the place of the one before."""
        try:
            found = os.stat(self._path)
        except OSError:
            self._seen = self.checkpoint = None
            return False
        seen, self._seen = self._seen, found
        return seen is None or file_of(found) != file_of(seen)

    def _read(self) -> Optional[Checkpoint]:
        """What the file says that stands there now, also if the program replaces it meanwhile."""
        try:
            with open(self._path, "rb", buffering=0) as file:
                self._seen = os.fstat(file.fileno())
                return self._counted(file, self._seen.st_mtime)
        except (OSError, Strange) as fault:
            tell("warning", f"what the checkpoint says isn't shown: {fault}")
            return None

    def _counted(self, file: BinaryIO, written: float) -> Optional[Checkpoint]:
        counting = Counting()
        while data := file.read(BYTES_AT_ONCE):
            counting.feed(data)
            time.sleep(SECONDS_OF_A_PAUSE)
            if self._is_over.is_set():
                return None
        return counting.counted(written)


def file_of(found: os.stat_result) -> Tuple[int, int, int, int]:
    return found.st_dev, found.st_ino, found.st_mtime_ns, found.st_size
