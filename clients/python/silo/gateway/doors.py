"""Where the gateway listens: a Unix socket for each tenant and for the operator, and TCP on this machine."""

from __future__ import annotations

import asyncio
import contextlib
import fcntl
import grp
import os
import pathlib
import socket
import stat
from typing import IO, Callable, Dict, List, Optional, Set, Tuple

from silo.gateway.desk import OPERATOR, Desk
from silo.gateway.guest import ROOM, Guest
from silo.gateway.lane import Lane
from silo.gateway.log import tell, tell_of_others
from silo.gateway.stranger import Stranger
from silo.gateway.tokens import Tokens
from silo.gateway.told import NO_ROOM, fault

# no tenant's name has an underscore
OPERATOR_NAME, MONITOR_NAME, LOCK_NAME = "_operator", "_monitor", "_gateway.lock"
# who may open a socket: its owner and its group
MODE_OF_SOCKETS = 0o660
WAITING_CONNECTIONS = 128
# connections by TCP that haven't said yet whose they are
MOST_STRANGERS = 64
# connections that are refused and aren't closed yet, and how long each is left open
MOST_LEAVING, SECONDS_TO_LEAVE = 64, 1.0
HERE = "127.0.0.1"


def locked(folder: pathlib.Path) -> IO[bytes]:
    """The lock of a folder of sockets, which is held as long as the file is open; an OSError if another gateway holds it."""
    folder.mkdir(mode=0o755, parents=True, exist_ok=True)
    lock = open(os.open(folder / LOCK_NAME, os.O_RDWR | os.O_CREAT | os.O_CLOEXEC, 0o600), "ab")
    try:
        fcntl.flock(lock, fcntl.LOCK_EX | fcntl.LOCK_NB)
    except OSError:
        lock.close()
        raise OSError(f"another gateway listens in {folder}") from None
    return lock


def number_of(group: str) -> int:
    """The number of a group of the system; an OSError if there is none of that name."""
    try:
        return grp.getgrnam(group).gr_gid
    except KeyError:
        raise OSError(f"there is no group {group}") from None


def listening_at(path: pathlib.Path, group: Optional[str] = None) -> socket.socket:
    """A Unix socket in a locked folder, in place of one that an earlier gateway left there. Nobody can connect to it yet."""
    with contextlib.suppress(FileNotFoundError):
        if not stat.S_ISSOCK(path.lstat().st_mode):
            raise OSError(f"{path} is there, and is no socket")
        path.unlink()
    listening = socket.socket(socket.AF_UNIX)
    # from its first moment on nobody else may open it
    mask = os.umask(0o777 & ~MODE_OF_SOCKETS)
    try:
        listening.bind(os.fspath(path))
        if group is not None:
            os.chown(path, -1, number_of(group))
    except OSError as fault_of_path:
        listening.close()
        raise OSError(f"{path}: {fault_of_path}") from None
    finally:
        os.umask(mask)
    return listening


def file_of(path: pathlib.Path) -> Tuple[int, int]:
    """Which file is at a path, whatever others are called so later."""
    found = path.lstat()
    return found.st_dev, found.st_ino


class Doors:
    """Lets connections in, and knows who is there."""

    def __init__(self, desk: Desk, folder: pathlib.Path, groups: Optional[str], most_of_connection: int, most_connections: int) -> None:
        self._desk, self._folder, self._groups = desk, folder, groups
        self._most_of_connection, self._most_connections = most_of_connection, most_connections
        self._servers: List[asyncio.AbstractServer] = []
        self._paths: Dict[pathlib.Path, Tuple[int, int]] = {}
        self._strangers = 0
        self._leaving: Set[TurnedAway] = set()
        self.refused_tokens = self.refused_connections = 0

    @property
    def guests(self) -> List[Guest]:
        return [guest for lane in self._desk.lanes.values() for guest in lane.guests]

    async def open(self) -> None:
        """Opens a socket for each tenant, and the operator's."""
        for lane in self._desk.lanes.values():
            group = None if self._groups is None or lane.tenant == OPERATOR else self._groups + lane.tenant
            await self.open_at(lane.name, self._entry_of(lane), group)

    async def open_at(self, name: str, protocol: Callable[[], asyncio.BaseProtocol], group: Optional[str] = None) -> None:
        path = self._folder / f"{name}.sock"
        listening = listening_at(path, group)
        self._paths[path] = file_of(path)
        self._servers.append(await asyncio.get_running_loop().create_unix_server(protocol, sock=listening, backlog=WAITING_CONNECTIONS))

    async def open_tcp(self, port: int, protocol: Callable[[], asyncio.BaseProtocol], what: str) -> None:
        """Listens on this machine alone; port 0 is any that is free."""
        server = await asyncio.get_running_loop().create_server(protocol, HERE, port, backlog=WAITING_CONNECTIONS)
        self._servers.append(server)
        tell("info", f"{what} at {HERE}:{server.sockets[0].getsockname()[1]}")

    async def open_tcp_of_tenants(self, port: int, tokens: Tokens) -> None:
        def stranger() -> asyncio.BaseProtocol:
            if self._strangers >= MOST_STRANGERS:
                return self._turned_away("those by TCP that gave no token yet")
            self._strangers += 1
            return Stranger(tokens, self._guest_of, self._count_refused, self._stranger_is_gone)

        await self.open_tcp(port, stranger, "tenants with tokens are let in")

    def close(self) -> None:
        """Lets nobody in any more."""
        for server in self._servers:
            server.close()
        for turned_away in list(self._leaving):
            turned_away.end()
        for path, file in self._paths.items():
            with contextlib.suppress(OSError):
                # if somebody has removed the folder, another gateway's socket may stand there
                if file_of(path) == file:
                    path.unlink()
        self._paths.clear()

    def _entry_of(self, lane: Lane) -> Callable[[], asyncio.BaseProtocol]:
        return lambda: self._guest_in(lane) or self._turned_away(lane.name)

    def _guest_of(self, tenant: str) -> Optional[Guest]:
        lane = self._desk.lanes.get(tenant) if tenant != OPERATOR else None
        return None if lane is None else self._guest_in(lane)

    def _guest_in(self, lane: Lane) -> Optional[Guest]:
        """A connection more of a tenant, if it may have one."""
        if len(lane.guests) >= self._most_connections:
            return None
        guest = Guest(lane, self._most_of_connection, self._desk.lines_wait, lane.guests.discard, self._desk.close_later)
        lane.guests.add(guest)
        return guest

    def _turned_away(self, whose: str) -> asyncio.BaseProtocol:
        self.refused_connections += 1
        tell_of_others("warning", f"a connection is refused, since there are as many as may be of {whose}")
        return TurnedAway(self._leaving)

    def _count_refused(self) -> None:
        self.refused_tokens += 1

    def _stranger_is_gone(self) -> None:
        self._strangers -= 1


class TurnedAway(asyncio.BufferedProtocol):
    """A connection for which there is no room: it is told so, and closed once it reads that or a second is over.

    If it were closed at once, whoever writes a line at that moment would fail in that, and read nothing.
    """

    def __init__(self, leaving: Set[TurnedAway]) -> None:
        self._leaving = leaving
        self._transport: Optional[asyncio.Transport] = None
        self._timer: Optional[asyncio.TimerHandle] = None

    def connection_made(self, transport: asyncio.BaseTransport) -> None:
        assert isinstance(transport, asyncio.Transport)
        transport.write(fault(NO_ROOM))
        if len(self._leaving) >= MOST_LEAVING:
            transport.close()
            return
        transport.write_eof()
        self._transport = transport
        self._leaving.add(self)
        self._timer = asyncio.get_running_loop().call_later(SECONDS_TO_LEAVE, self.end)

    def end(self) -> None:
        if self._transport is not None:
            self._transport.abort()

    def get_buffer(self, sizehint: int) -> memoryview:
        return ROOM

    def buffer_updated(self, count: int) -> None:
        """What it says is read by nobody."""

    def connection_lost(self, fault_of_socket: Optional[Exception]) -> None:
        self._leaving.discard(self)
        if self._timer is not None:
            self._timer.cancel()
