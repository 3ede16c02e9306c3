"""A folder of data: a log, perhaps a checkpoint, and a lock that one process holds. On the disk, and in memory for worked rows.

What a file is to be is written and synced under a name beside, which then replaces the file's own, and the folder is synced.
"""

from __future__ import annotations

import contextlib
import fcntl
import os
import pathlib
from typing import Optional, Protocol

OF_THE_OWNER = 0o600
FOLDER_OF_THE_OWNER = 0o700
LOCK, LOG, NEW_LOG = "lock", "log", "log.new"
CHECKPOINT, NEW_CHECKPOINT = "checkpoint", "checkpoint.new"


class InUse(Exception):
    """Another process has the folder."""


class NotRead(Exception):
    """The log or the checkpoint can't be read."""


class NotWritten(Exception):
    """The folder, or a file in it, can't be written."""


class Folder(Protocol):
    def open(self) -> Optional[bytes]:
        """Makes the folder if there is none, takes the lock, and gives the log's bytes, if there is one."""

    def checkpoint(self) -> bytes:
        """The checkpoint's bytes. That takes no lock, and changes nothing."""

    def own_checkpoint(self) -> Optional[bytes]:
        """The same, once the folder is open: they are then on the disk, with the checkpoint's name."""

    def place(self, checkpoint: bytes) -> None:
        """Makes a checkpoint of these bytes, on the disk. One that was there is gone."""

    def begin(self, head: bytes) -> None:
        """Makes a log of these bytes, on the disk. One that was there is gone."""

    def keep(self, length: int) -> None:
        """Cuts the log to its first bytes, on the disk."""

    def append(self, added: bytes) -> None:
        """Writes at the log's end."""

    def sync(self) -> None:
        """Has all of the log on the disk."""


class MemoryFolder:
    """A folder among files that are contents by their paths."""

    def __init__(self, files: dict, path: str):
        self.files, self.path, self.log = files, path, f"{path}/{LOG}"

    def open(self) -> Optional[bytes]:
        self.files.setdefault(f"{self.path}/{LOCK}", b"")
        return self.files.get(self.log)

    def checkpoint(self) -> bytes:
        found = self.own_checkpoint()
        if found is None:
            raise NotRead
        return found

    def own_checkpoint(self) -> Optional[bytes]:
        return self.files.get(f"{self.path}/{CHECKPOINT}")

    def place(self, checkpoint: bytes) -> None:
        self.replace(NEW_CHECKPOINT, CHECKPOINT, checkpoint)

    def begin(self, head: bytes) -> None:
        self.replace(NEW_LOG, LOG, head)

    def replace(self, beside: str, name: str, content: bytes) -> None:
        self.files.pop(f"{self.path}/{beside}", None)
        self.files[f"{self.path}/{name}"] = content

    def keep(self, length: int) -> None:
        self.files[self.log] = self.files[self.log][:length]

    def append(self, added: bytes) -> None:
        self.files[self.log] += added

    def sync(self) -> None:
        pass


class DiskFolder:
    """A folder on the disk. Its lock is held until the process ends."""

    def __init__(self, path: str, is_synced: bool = True):
        self.path, self.is_synced = path, is_synced
        self.log = self.lock = -1

    def open(self) -> Optional[bytes]:
        try:
            with contextlib.suppress(FileExistsError):
                os.mkdir(self.path, FOLDER_OF_THE_OWNER)
            self.lock = self.opened(LOCK, os.O_CREAT)
        except (OSError, ValueError) as error:
            raise NotWritten from error
        try:
            fcntl.flock(self.lock, fcntl.LOCK_EX | fcntl.LOCK_NB)
        except OSError as error:
            raise InUse from error
        found = self.read(LOG)
        if found is None:
            return None
        self.log, content = found
        return content

    def read(self, name: str) -> Optional[tuple[int, bytes]]:
        """A file of the folder, open, and its bytes, which are then on the disk, with its name."""
        try:
            file = self.opened(name)
            content = pathlib.Path(self.path, name).read_bytes()
        except FileNotFoundError:
            return None
        except OSError as error:
            raise NotRead from error
        try:
            os.fsync(file)
            self.sync_names()
        except OSError as error:
            raise NotWritten from error
        return file, content

    def checkpoint(self) -> bytes:
        try:
            return pathlib.Path(f"{self.path}/{CHECKPOINT}").read_bytes()
        except (OSError, ValueError) as error:
            raise NotRead from error

    def own_checkpoint(self) -> Optional[bytes]:
        found = self.read(CHECKPOINT)
        if found is None:
            return None
        file, content = found
        os.close(file)
        return content

    def opened(self, name: str, flags: int = 0) -> int:
        """A file of the folder, to be read and written at its end. It can't be a link."""
        return os.open(f"{self.path}/{name}", os.O_RDWR | os.O_APPEND | os.O_NOFOLLOW | flags, OF_THE_OWNER)

    def place(self, checkpoint: bytes) -> None:
        os.close(self.replaced(NEW_CHECKPOINT, CHECKPOINT, checkpoint))

    def begin(self, head: bytes) -> None:
        old, self.log = self.log, self.replaced(NEW_LOG, LOG, head)
        if old >= 0:
            os.close(old)

    def replaced(self, beside: str, name: str, content: bytes) -> int:
        """The file of this name, which now has this content."""
        try:
            # what an earlier start left
            with contextlib.suppress(FileNotFoundError):
                os.unlink(f"{self.path}/{beside}")
            made = self.opened(beside, os.O_CREAT | os.O_EXCL)
            write_whole(made, content)
            os.fsync(made)
            os.rename(f"{self.path}/{beside}", f"{self.path}/{name}")
            self.sync_names()
        except OSError as error:
            raise NotWritten from error
        return made

    def keep(self, length: int) -> None:
        try:
            os.ftruncate(self.log, length)
            os.fsync(self.log)
        except OSError as error:
            raise NotWritten from error

    def append(self, added: bytes) -> None:
        try:
            write_whole(self.log, added)
        except OSError as error:
            raise NotWritten from error

    def sync(self) -> None:
        try:
            if self.is_synced:
                os.fdatasync(self.log)
        except OSError as error:
            raise NotWritten from error

    def sync_names(self) -> None:
        """Has the names of the folder's files on the disk, and its own if the folder above may be read."""
        sync_folder(self.path)
        with contextlib.suppress(PermissionError):
            sync_folder(f"{self.path}/..")

    def close(self) -> None:
        """Lets go of it, as the end of the process does."""
        for file in (self.lock, self.log):
            if file >= 0:
                os.close(file)


def sync_folder(path: str) -> None:
    folder = os.open(path, os.O_RDONLY)
    try:
        os.fsync(folder)
    finally:
        os.close(folder)


def write_whole(file: int, content: bytes) -> None:
    left = memoryview(content)
    while left:
        left = left[os.write(file, left):]
