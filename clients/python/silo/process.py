"""A silo that runs as a child process, behind two pipes."""

from __future__ import annotations

import contextlib
import fcntl
import io
import os
import select
import subprocess
import tempfile
from typing import List, Mapping, Optional, Sequence, Tuple, Union, cast

from silo.names import MOST_AGE, MOST_SENDS, ages_text, check_tenants, checked_number

Path = Union[str, "os.PathLike[str]"]
# the call of Linux that gives a pipe its size, which Python names from 3.10 on
F_SETPIPE_SZ = 1031
# what the program reads at once if it has data
BYTES_OF_WIDE_PIPE = 1_048_576
# what asyncio reads at once, in place of 256 KiB, for which memory is mapped anew at each read
BYTES_OF_READ = 65_536
# how long a process that has closed its output may take to end: it writes the journal or the checkpoint before
MOST_SECONDS_TO_END = 60.0


def option_words(options: Mapping[str, Union[int, Path, None]]) -> List[str]:
    """Options as words of a command line; what is None is left out."""
    return [word for option, value in options.items() if value is not None for word in (option, str(value))]


def answer_words(
    program: Path,
    tenants: Sequence[str],
    age: Optional[int],
    ages: Optional[Mapping[str, int]],
    sends: Optional[int],
    journal: Optional[Path],
    data: Optional[Path] = None,
    sync: bool = True,
) -> List[str]:
    """The command line of `silo answer`; a ValueError if the program would refuse it."""
    check_tenants(tenants)
    if age is not None:
        checked_number("age", age, 1, MOST_AGE)
    if sends is not None:
        checked_number("sends", sends, 0, MOST_SENDS)
    if data is not None and journal is not None:
        raise ValueError("a silo with data has no journal")
    if data is None and not sync:
        raise ValueError("without data there is nothing to be synced")
    given: Mapping[str, Union[int, Path, None]] = {
        "--age": age,
        "--ages": ages_text(ages),
        "--sends": sends,
        "--journal": None if journal is None else os.fspath(journal),
        "--data": None if data is None else os.fspath(data),
    }
    return [os.fspath(program), "answer", *option_words(given), *([] if sync else ["--no-sync"]), "--", *tenants]


def read_less(transport: object) -> None:
    """Has asyncio's transport read less at once. Where an asyncio has no such member, nothing changes."""
    setattr(transport, "max_size", BYTES_OF_READ)


class Process:
    """A program that reads lines and writes replies: the carrier of a connection, as a socket may be another."""

    # what a pipe takes whole
    whole = select.PIPE_BUF

    def __init__(self, words: Sequence[str], is_wide: bool = False) -> None:
        """Runs the words. A wide pipe to it has room for as many lines as it puts on the disk at once: such a program has data."""
        self.begins_late = is_wide
        self._told = tempfile.TemporaryFile()
        pipe = subprocess.PIPE
        try:
            # in a session of its own, so that Ctrl-C reaches the caller alone, who ends the silo in order
            self._process = subprocess.Popen(words, bufsize=0, stdin=pipe, stdout=pipe, stderr=self._told, start_new_session=True)
        except BaseException:
            self._told.close()
            raise
        self.writing = cast(io.RawIOBase, self._process.stdin)
        if is_wide:
            # a system that gives no such pipe has smaller batches
            with contextlib.suppress(OSError):
                fcntl.fcntl(self.writing, F_SETPIPE_SZ, BYTES_OF_WIDE_PIPE)
        self.reading = cast(io.RawIOBase, self._process.stdout)

    @property
    def number(self) -> int:
        """The number of the process."""
        return self._process.pid

    def finish(self, in_order: bool) -> Tuple[int, str]:
        """Waits until the process has ended, and gives its status and what it wrote on standard error.

        It is called once, when the output has ended or can't be read. A process that goes on for a minute is killed.
        """
        self.reading.close()
        try:
            status = self._process.wait(MOST_SECONDS_TO_END)
        except subprocess.TimeoutExpired:
            self._process.kill()
            status = self._process.wait()
        with self._told:
            self._told.seek(0)
            return status, self._told.read().decode(errors="replace")

    def kill(self) -> None:
        self._process.kill()

    def leave(self) -> None:
        """In a child that was forked: lets go of both pipes, so that the silo sees its input end as soon as the parent ends it."""
        nothing = os.open(os.devnull, os.O_RDWR)
        for pipe in (self.writing, self.reading):
            if not pipe.closed:
                os.dup2(nothing, pipe.fileno(), inheritable=False)
        os.close(nothing)
