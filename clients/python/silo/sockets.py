"""A silo behind a gateway's socket (docs/gateway.md)."""

from __future__ import annotations

import io
import json
import os
import select
import socket
import sys
from typing import Optional, Tuple, Union

from silo.errors import SiloEnded
from silo.latch import bounded

# bytes of the line by which a gateway answers who enters by TCP
MOST_BYTES_OF_ENTRY = 8_192
IN_ORDER = "the gateway has answered all and closed the connection"
NOT_IN_ORDER = "the gateway closed the connection"


class Writing(io.FileIO):
    """What is written to a socket; closing it ends that half of the socket."""

    def __init__(self, carried: socket.socket) -> None:
        super().__init__(os.dup(carried.fileno()), "wb")
        self._socket = carried

    def close(self) -> None:
        if not self.closed:
            try:
                self._socket.shutdown(socket.SHUT_WR)
            except OSError:
                # it isn't connected any more
                pass
        super().close()


class SocketEnd:
    """A connection to a gateway, which an event loop reads and writes."""

    # its program may have just been started
    begins_late = True

    def __init__(self, carried: socket.socket) -> None:
        self.socket = carried

    def finish(self, in_order: bool) -> Tuple[int, str]:
        """Closes it. The silo behind the gateway runs on, so the status is 0 if all was answered, and 1 if not."""
        self.kill()
        self.socket.close()
        return (0, IN_ORDER) if in_order else (1, NOT_IN_ORDER)

    def kill(self) -> None:
        try:
            self.socket.shutdown(socket.SHUT_RDWR)
        except OSError:
            # it isn't connected any more
            pass

    def leave(self) -> None:
        """In a child that was forked: lets go of the socket, which stays the parent's."""
        put_nothing(self.socket.fileno())


class Socket(SocketEnd):
    """The same for threads, which read one stream of bytes and write another."""

    def __init__(self, carried: socket.socket) -> None:
        super().__init__(carried)
        # Linux takes a line of that length into a Unix socket whole or not at all
        is_whole = carried.family == socket.AF_UNIX and sys.platform.startswith("linux")
        self.whole = select.PIPE_BUF if is_whole else 0
        self.reading: io.RawIOBase = io.FileIO(os.dup(carried.fileno()), "rb")
        self.writing: io.RawIOBase = Writing(carried)

    def finish(self, in_order: bool) -> Tuple[int, str]:
        self.kill()
        self.reading.close()
        return super().finish(in_order)

    def leave(self) -> None:
        super().leave()
        for stream in (self.reading, self.writing):
            if not stream.closed:
                put_nothing(stream.fileno())


def put_nothing(descriptor: int) -> None:
    """Puts the null device in the place of an open file, if there is one."""
    if descriptor >= 0:
        nothing = os.open(os.devnull, os.O_RDWR)
        os.dup2(nothing, descriptor, inheritable=False)
        os.close(nothing)


def connected(address: str, tenant: Optional[str], token: Optional[str], seconds: Optional[float]) -> socket.socket:
    """Connects to `unix:PATH` or `tcp:HOST:PORT`; an OSError if nobody listens there, a SiloEnded if the token is refused."""
    way, _, rest = address.partition(":")
    host, _, port = rest.rpartition(":")
    if way == "unix" and rest and token is None:
        carried = socket.socket(socket.AF_UNIX)
        where: Union[str, Tuple[str, int]] = rest
    elif way == "tcp" and host and port.isdecimal() and tenant is not None and token is not None:
        carried = socket.socket(socket.AF_INET)
        where = (host, int(port))
    else:
        raise ValueError(f"{address!r} is no gateway: it has to be unix:PATH, or tcp:HOST:PORT with a tenant and a token")
    try:
        carried.settimeout(None if seconds is None else bounded(seconds))
        carried.connect(where)
        if tenant is not None and token is not None:
            carried.setsockopt(socket.IPPROTO_TCP, socket.TCP_NODELAY, 1)
            enter(carried, tenant, token)
        carried.settimeout(None)
        return carried
    except BaseException as fault:
        carried.close()
        # the system doesn't say where nobody listens
        if isinstance(fault, OSError) and fault.errno is not None:
            fault.filename = address
        raise


def enter(carried: socket.socket, tenant: str, token: str) -> None:
    """Says whose the connection is; a SiloEnded if the gateway doesn't believe it."""
    carried.sendall(json.dumps({"op": "enter", "tenant": tenant, "token": token}).encode() + b"\n")
    told = b""
    # byte by byte, so that nothing is taken that belongs to who reads on
    while not told.endswith(b"\n") and len(told) < MOST_BYTES_OF_ENTRY:
        byte = carried.recv(1)
        if not byte:
            break
        told += byte
    try:
        said = json.loads(told)
    except ValueError:
        said = {}
    if said.get("ok") != tenant:
        raise SiloEnded(1, str(said.get("text", NOT_IN_ORDER)))
