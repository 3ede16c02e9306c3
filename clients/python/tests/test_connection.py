"""A connection over two byte streams that are no pipes of a child, and what it writes at once."""

from __future__ import annotations

import io
import os
import queue
import socket
import subprocess
import threading
from typing import Any, List, Tuple
from unittest import mock

from silo import SiloEnded
from silo.connection import Connection
from silo.lines import FENCE, SWEEP, call_members

from . import beside
from .beside import COUNTER, SECONDS, WEB, Case

Slot = Any


class SocketCarrier:
    """A silo at the other end of a socket."""

    whole = 0
    begins_late = False

    def __init__(self, end: socket.socket) -> None:
        self._socket = end
        self.reading = io.FileIO(os.dup(end.fileno()), "rb")
        self.writing = ShutBehind(end)

    def finish(self, in_order: bool) -> Tuple[int, str]:
        self.reading.close()
        self._socket.close()
        return 0, "the socket was closed"

    def kill(self) -> None:
        self._socket.shutdown(socket.SHUT_RDWR)

    def leave(self) -> None:
        pass


class ShutBehind(io.RawIOBase):
    """What is written to a socket; each write is counted, and closing it ends that half of the socket."""

    def __init__(self, end: socket.socket) -> None:
        self._socket = end
        self.written: List[int] = []
        self.gate = threading.Event()
        self.gate.set()

    def writable(self) -> bool:
        return True

    def write(self, data: Any) -> int:
        self.gate.wait(SECONDS)
        self.written.append(len(data))
        return self._socket.send(data)

    def close(self) -> None:
        if not self.closed:
            self._socket.shutdown(socket.SHUT_WR)
        super().close()


class Sockets(Case):
    def setUp(self) -> None:
        ours, its = socket.socketpair()
        self.process = subprocess.Popen([beside.program, "answer", "red:4:4"], stdin=its, stdout=its, stderr=subprocess.DEVNULL)
        its.close()
        self.carrier = SocketCarrier(ours)
        self.connection = Connection(self.carrier, None)
        self.addCleanup(self.process.wait)
        self.addCleanup(self.connection.close)

    def add(self) -> Slot:
        slot: Slot = queue.SimpleQueue()
        self.connection.ask("call", WEB, call_members(COUNTER, "add", {"by": 1}), slot)
        return slot

    def test_carry_requests(self) -> None:
        self.assertEqual([self.add().get(timeout=SECONDS) for _ in range(3)], [1, 2, 3])
        slot: Slot = queue.SimpleQueue()
        self.connection.ask_in_order(SWEEP + FENCE, slot)
        self.assertEqual((slot.get(timeout=SECONDS), self.connection.close()), (True, 0))

    def test_that_are_cut(self) -> None:
        self.add().get(timeout=SECONDS)
        slots = [self.add() for _ in range(3)]
        self.carrier.kill()
        self.assertIsInstance([slot.get(timeout=SECONDS) for slot in slots][-1], (int, SiloEnded))
        self.connection.close()
        with self.assertRaisesRegex(SiloEnded, "the socket was closed"):
            self.add()

    def test_what_is_asked_meanwhile_is_written_at_once(self) -> None:
        writing = self.carrier.writing
        writing.gate.clear()
        slots = [self.add() for _ in range(200)]
        writing.gate.set()
        self.assertEqual([slot.get(timeout=SECONDS) for slot in slots], [*range(1, 201)])
        self.assertLessEqual(len(writing.written), 3)

    def test_who_asks_waits_while_too_much_is_unwritten(self) -> None:
        writing = self.carrier.writing
        writing.gate.clear()
        slots: List[Slot] = []
        flood = threading.Thread(target=lambda: slots.extend(self.add() for _ in range(300)))
        with mock.patch("silo.connection.MOST_UNWRITTEN", 100):
            flood.start()
            flood.join(0.2)
            self.assertTrue(flood.is_alive())
            self.assertLessEqual(self.connection._lines.qsize(), 101)
            writing.gate.set()
            flood.join(SECONDS)
        self.assertEqual(slots[-1].get(timeout=SECONDS), 300)
