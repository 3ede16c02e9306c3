"""What the gateway tells of the last checkpoint: it is read beside the service, whatever stands there."""

from __future__ import annotations

import asyncio
import contextlib
import io
import os
import pathlib
import tempfile
import time
import tracemalloc
import unittest
from typing import Any, List, Optional

from silo.gateway import checkpoint
from silo.gateway.checkpoint import Checkpoint, Counting, Counts, Last, Strange

from .gateways import Gateway, Gateways, call, soon

SUM = b"sum 00112233445566ff\n"
TEXT = (
    b"silo-checkpoint 1\nfollows 0123456789abcdef\nsends 1000\nclock 5\naccounts 2\naccount red 12 2\n"
    b"send relay/red:r counter/red:a 0200\nsend relay/red:r counter/red:b 0200\naccount blue 1 0\ngrains 3\n"
    b"up counter/blue:a - 0 0 00\nup counter/red:row:a 1 0 0 00\nup sheet/red:s - 0 0 " + b"06" * 300_000 + b"\n"
    b"silo-journal 3\nkinds 2\nage 900000\ntenant red 2 4\ntenant blue 1 1\nrow counter/green:a 1 00\nrow counter/red:a 7 -\n"
    b"row sheet/red:s 1 " + b"06" * 300_000 + b"\nclose 0\n" + SUM
)  # fmt: skip
SHORT = TEXT.replace(b"06" * 300_000, b"00")
SAID = Checkpoint("00112233445566ff", 7.0, {"red": Counts(2, 2, 2), "blue": Counts(0, 1, 0)})


def counted(text: bytes, length: int) -> Checkpoint:
    """The same of a text that comes in pieces of that length."""
    counting = Counting()
    for place in range(0, len(text), length):
        counting.feed(text[place : place + length])
    return counting.counted(7.0)


class Texts(unittest.TestCase):
    def test_pieces_of_any_length(self) -> None:
        for length in (1_999, 4_096, 65_536, len(TEXT)):
            self.assertEqual(counted(TEXT, length), SAID)
        for length in range(1, 80):
            self.assertEqual(counted(SHORT, length), SAID)

    def test_what_is_none(self) -> None:
        for text in (b"", b"\n", b"x", SHORT[:-1], SHORT[:-20], SHORT.replace(b"point 1", b"point 2"), SHORT.replace(b"accounts 2", b"accounts 3"),
                     SHORT.replace(b"grains 3", b"grains 2"), SHORT.replace(b"up sheet/", b"up Sheet/"), SHORT.replace(b"account red", b"account Red"),
                     SHORT.replace(b"up sheet/red:s", b"up sheet/red"), SHORT + b"row\n", SHORT + b"row ", SHORT.replace(SUM, b"sum 0\n"), SUM):  # fmt: skip
            with self.assertRaises(Strange, msg=repr(text[:60])):
                counted(text, 4_096)

    def test_what_has_no_bound_is_not_kept(self) -> None:
        most, checkpoint.MOST_BEGINNINGS = checkpoint.MOST_BEGINNINGS, 5_000
        self.addCleanup(setattr, checkpoint, "MOST_BEGINNINGS", most)
        counting = Counting()
        tracemalloc.start()
        self.addCleanup(tracemalloc.stop)
        for begin in (b"silo-checkpoint 1\nup ", b"\naccount ", b"\n"):
            counting.feed(begin)
            for _ in range(50):
                counting.feed(b"x" * 65_536)
        with self.assertRaises(Strange):
            for number in range(10**6):
                counting.feed(b"row counter/t%d:a 1 00\n%d\n" % (number, number))
        self.assertLess(tracemalloc.get_traced_memory()[1], 4 * 2**20)


class Files(unittest.TestCase):
    def setUp(self) -> None:
        folder = tempfile.TemporaryDirectory()
        self.addCleanup(folder.cleanup)
        self.folder = pathlib.Path(folder.name)
        self.file = self.folder / "checkpoint"
        between, checkpoint.SECONDS_BETWEEN = checkpoint.SECONDS_BETWEEN, 0.01
        self.addCleanup(setattr, checkpoint, "SECONDS_BETWEEN", between)

    def put(self, text: bytes) -> None:
        """As the program does it: a new file takes the place of the one before."""
        new = self.folder / "checkpoint.new"
        new.write_bytes(text)
        os.replace(new, self.file)

    async def until(self, last: Last, number: Optional[str]) -> Optional[Checkpoint]:
        for _ in range(1_000):
            if (last.checkpoint and last.checkpoint.number) == number:
                return last.checkpoint
            await asyncio.sleep(0.01)
        raise AssertionError(last.checkpoint)

    def test_each_is_read_once_and_any_text_in_its_place(self) -> None:
        with contextlib.redirect_stderr(io.StringIO()) as told:
            asyncio.run(self._each_is_read())
        self.assertEqual(told.getvalue().count("warning: what the checkpoint says isn't shown"), 3)

    async def _each_is_read(self) -> None:
        last, reads = Last(self.folder), []
        read = last._read
        last._read = lambda: reads.append(1) or read()  # type: ignore[method-assign,func-returns-value]
        running = asyncio.ensure_future(last.run())
        await self.until(last, None)
        self.put(SHORT)
        found = await self.until(last, "00112233445566ff")
        assert found is not None
        self.assertEqual(found.tenants, SAID.tenants)
        self.assertLess(abs(found.written - time.time()), 60)
        await asyncio.sleep(0.1)
        self.assertEqual(len(reads), 1)
        for text in (b"what", b"", SHORT[:-1]):
            self.put(text)
            await self.until(last, None)
            self.put(SHORT.replace(SUM, b"sum %016x\n" % len(text)))
            await self.until(last, f"{len(text):016x}")
        self.file.unlink()
        await self.until(last, None)
        running.cancel()

    def test_a_file_that_is_replaced_while_it_is_read(self) -> None:
        self.put(TEXT)
        last = Last(self.folder)
        feed, fed = Counting.feed, []

        def fed_and_replaced(counting: Counting, data: bytes) -> None:
            fed.append(data)
            self.put(TEXT.replace(b"accounts 2", b"accounts 9"))
            feed(counting, data)

        Counting.feed = fed_and_replaced  # type: ignore[method-assign]
        self.addCleanup(setattr, Counting, "feed", feed)
        found = last._read()
        self.assertEqual((found and found.tenants, b"".join(fed)), (SAID.tenants, TEXT))
        self.assertTrue(last._is_another())

    def test_reading_ends_with_the_gateway(self) -> None:
        with open(self.file, "wb") as file:
            file.truncate(2**40)
        begun = time.monotonic()
        asyncio.run(self._begin_to_read())
        self.assertLess(time.monotonic() - begun, 10)

    async def _begin_to_read(self) -> None:
        running = asyncio.ensure_future(Last(self.folder).run())
        await asyncio.sleep(0.2)
        running.cancel()


class Pages(Gateways):
    """Over the program: what is told is what stands in the folder."""

    def setUp(self) -> None:
        folder = tempfile.TemporaryDirectory()
        self.addCleanup(folder.cleanup)
        self.data = pathlib.Path(folder.name, "data")

    def started(self) -> Gateway:
        return self.gateway("--data", os.fspath(self.data), further=["--no-sync", "--sends", "0"])

    def figures(self, gateway: Gateway, name: str) -> List[float]:
        return [gateway.figure(f'silo_checkpoint_{name}{{tenant="{tenant}"}}') for tenant in ("red", "blue")]

    def test_what_a_checkpoint_says(self) -> None:
        gateway = self.started()
        wire = gateway.connect()
        asked: Any = [("counter/red:a", "add", None), ("counter/red:a", "save", None), ("counter/red:b", "add", None), ("sheet/red:s", "save", None),
                      ("relay/red:r", "join", {"grain": "counter/red:c"}), ("relay/red:r", "send", {"method": "get", "args": None}),
                      ("relay/red:r", "send", {"method": "get", "args": None})]  # fmt: skip
        for number, (grain, method, args) in enumerate(asked):
            said = wire.ask(call(number, grain=grain, method=method, args=args))
            self.assertIn("ok", said)
        wire.close()
        self.assertNotIn("silo_checkpoint", gateway.page("/metrics"))
        # the next program makes one of what it answered again
        gateway.kill_program()
        self.add_to_blue(gateway)
        soon(lambda: "silo_checkpoint_rows" in gateway.page("/metrics"))
        self.assertEqual((self.figures(gateway, "rows"), self.figures(gateway, "idle_grains"), self.figures(gateway, "sends")), ([2, 0], [4, 0], [2, 0]))
        first = self.number(gateway)
        self.assertLess(gateway.figure("silo_checkpoint_age_seconds"), 60)
        self.assertEqual(gateway.figure('silo_data_bytes{file="checkpoint"}'), (self.data / "checkpoint").stat().st_size)
        gateway.kill_program()
        soon(lambda: self.number(gateway) != first)
        self.assertEqual((self.figures(gateway, "rows"), self.figures(gateway, "idle_grains"), self.figures(gateway, "sends")), ([2, 0], [4, 1], [2, 0]))
        self.assertEqual(gateway.end(), 0)

    def add_to_blue(self, gateway: Gateway) -> None:
        with gateway.connect("blue") as wire:
            self.assertEqual(wire.ask(call(1, "blue/web", "counter/blue:a"))["ok"], 1)

    def number(self, gateway: Gateway) -> str:
        return gateway.page("/metrics").partition('silo_checkpoint_info{number="')[2][:16]
