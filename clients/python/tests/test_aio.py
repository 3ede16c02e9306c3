"""The client of asyncio."""

from __future__ import annotations

import asyncio
import tempfile
import time
import unittest
from typing import Any, List, Tuple
from unittest import mock

from silo import SiloEnded, SiloError, SiloTimeout, aio

from . import beside
from .beside import COUNTER, SECONDS, WEB, Case
from .test_ends import SAY_STRANGE, STRANGE


class Loop(Case, unittest.IsolatedAsyncioTestCase):
    async def asyncSetUp(self) -> None:
        # or else each step of more than a tenth of a second is logged
        asyncio.get_running_loop().set_debug(False)

    async def began(self, *tenants: str, **options: Any) -> aio.Silo:
        silo = aio.Silo(*(tenants or ("red:4:4",)), **{"program": beside.program, "timeout": SECONDS, **options})
        await silo.start()
        self.addAsyncCleanup(silo.close)
        return silo


class Tasks(Loop):
    async def test_each_call(self) -> None:
        silo = await self.began("red:4:4", "blue:1:1")
        web = silo.client(WEB)
        counter = web.grain(COUNTER)
        self.assertEqual([await counter.add(by=3), await silo.call(WEB, COUNTER, "add", {"by": 4}), await web.call(COUNTER, "get")], [3, 7, 7])
        self.assertEqual([await silo.poke(WEB, COUNTER, 5), await web.poke(COUNTER, 6), await counter.poke(7)], ["1", "2", "3"])
        self.assertEqual([await silo.tick(1_000_000), await silo.tick(999_999), (await silo.status(WEB))["clock"]], [True, False, 1_000_000])
        await silo.sweep()
        self.assertEqual((await web.status())["activations"], 0)
        self.assertEqual(await silo.ask(WEB, "call", grain=COUNTER, method="get"), 7)
        with self.assertRaises(SiloError) as found:
            await silo.call(WEB, "counter/blue:a", "get")
        self.assertEqual(found.exception.code, 40)

    async def test_grains_of_kinds(self) -> None:
        class Unread(aio.Counter):
            prefix = "unread/"

        web = (await self.began()).client(WEB)
        unread, sheet, relay = Unread(web, "ann"), aio.Sheet(web, "s"), aio.Relay(web, "r")
        self.assertEqual([await unread.add(by=2), await web.grain("counter/red:unread/ann").get()], [2, 2])
        self.assertEqual([await sheet.put("k", b"v"), await sheet.get("k"), await sheet.list(), await sheet.drop("k")], [None, b"v", ["k"], True])
        self.assertEqual([await relay.join("counter/red:unread/ann"), await relay.send("add", {"by": 1})], [True, 1])
        self.assertEqual([await relay.leave("counter/red:a"), await unread.get(), await unread.save()], [False, 3, "1"])
        self.assertEqual([await unread.stay(5), await unread.reload(), await unread.clear(), await unread.rest()], [None, "1", "2", None])

    async def test_many_tasks(self) -> None:
        silo = await self.began()

        async def add(name: int) -> List[int]:
            return [await silo.call(f"red/t{name}", COUNTER, "add", {"by": 1}) for _ in range(20)]

        sums = await asyncio.gather(*(add(name) for name in range(64)))
        self.assertEqual(sorted(sum(sums, [])), [*range(1, 1_281)])

    async def test_what_tasks_ask_is_written_at_once(self) -> None:
        silo = await self.began()
        await silo.status(WEB)
        stream = silo._started
        with mock.patch.object(stream, "_writing", mock.Mock(wraps=stream._writing)) as writing:
            await asyncio.gather(*(silo.status(WEB) for _ in range(100)))
            self.assertLessEqual(writing.write.call_count, 2)

    async def test_a_full_pipe(self) -> None:
        silo = await self.began("red:1:1", program=self.stub("time.sleep(0.5)\nwhile read(): pass"), timeout=0.2)
        asked = [asyncio.ensure_future(silo.call(WEB, "sheet/red:s", "put", "x" * 60_000)) for _ in range(10)]
        found = await asyncio.gather(*asked, return_exceptions=True)
        self.assertEqual({type(it) for it in found}, {SiloTimeout})

    async def test_a_pipe_that_stays_full(self) -> None:
        silo = await self.began("red:1:1", program=self.stub("time.sleep(600)"), timeout=0.2)
        self.addCleanup(silo._started.carrier.kill)
        for _ in range(6):
            with self.assertRaises(SiloTimeout):
                await asyncio.wait_for(silo.call(WEB, "sheet/red:s", "put", "x" * 60_000), SECONDS)
        self.assertTrue(silo._started.is_full)

    async def test_what_is_not_written(self) -> None:
        silo = await self.began()
        for unfit in (lambda: silo.call("red", COUNTER, "get"), lambda: silo.call(WEB, COUNTER, "get", 1.5), lambda: silo.tick(-1)):
            with self.assertRaises(ValueError):
                await unfit()
        with self.assertRaises(ValueError):
            silo.ask(WEB, "stop")
        with self.assertRaises(ValueError):
            aio.Silo("red")
        with self.assertRaises(RuntimeError):
            await aio.Silo("red:1:1").status(WEB)
        with self.assertRaises(RuntimeError):
            await silo.start()

    async def test_a_timeout_and_a_task_that_is_cancelled(self) -> None:
        silo = await self.began("red:1:1", program=self.stub("while read(): pass"), timeout=0.1)
        web = silo.client(WEB, timeout=0.03)
        for ask, seconds in ((silo.status(WEB), 0.1), (silo.status(WEB, timeout=0.02), 0.02), (silo.tick(1), 0.1), (web.status(), 0.03)):
            with self.assertRaises(SiloTimeout) as found:
                await ask
            self.assertEqual(found.exception.seconds, seconds)
        task = asyncio.ensure_future(silo.status(WEB, timeout=SECONDS))
        await asyncio.sleep(0.01)
        task.cancel()
        with self.assertRaises(asyncio.CancelledError):
            await task

    async def test_what_is_told(self) -> None:
        told: List[Tuple[str, Any]] = []
        silo = await self.began("red:4:4", "blue:1:1", on_told=lambda grain, outcome: told.append((grain, outcome.code)))
        relay = silo.client(WEB).grain("relay/red:r")
        await relay.join(grain="counter/blue:x")
        await relay.send(method="get", args=None)
        await silo.close()
        self.assertEqual(told, [("relay/red:r", 40)])


class Ends(Loop):
    async def ended(self, silo: aio.Silo, status: int) -> None:
        for ask in (silo.status, silo.ask):
            with self.assertRaises(SiloEnded) as found:
                await (silo.status(WEB) if ask == silo.status else silo.ask(WEB, "status"))
            self.assertEqual(found.exception.status, status)
        with self.assertRaises(SiloEnded):
            await silo.tick(1)
        self.assertEqual(await silo.close(), status)

    async def test_in_order(self) -> None:
        with tempfile.TemporaryDirectory() as folder:
            async with aio.Silo("red:2:4", journal=f"{folder}/journal", program=beside.program) as silo:
                asked = [silo.ask(WEB, "call", grain=COUNTER, method="add", args={"by": 1}) for _ in range(100)]
            self.assertEqual([it.result() for it in asked], [*range(1, 101)])
        await self.ended(silo, 0)

    async def test_by_a_fault(self) -> None:
        with self.assertRaises(SiloEnded) as found:
            async with aio.Silo("red:2:4", journal="/nowhere/journal", program=beside.program) as silo:
                await silo.status(WEB)
        self.assertEqual((found.exception.status, found.exception.told), (1, "silo: writing failed\n"))

    async def test_of_a_process_that_is_killed(self) -> None:
        silo = await self.began()
        asked = [silo.ask(WEB, "call", grain="sheet/red:s", method="put", args={"name": "k", "value": "x" * 60_000}) for _ in range(20)]
        silo._started.carrier.kill()
        found = await asyncio.gather(*asked, return_exceptions=True)
        self.assertEqual({type(it) for it in found} - {type(None)}, {SiloEnded})
        await self.ended(silo, -9)

    async def test_of_one_that_reads_on_and_says_nothing(self) -> None:
        silo = await self.began("red:1:1", program=self.stub("while read(): pass\ntime.sleep(600)"))
        asked = silo.ask(WEB, "status")
        with mock.patch("silo.still.MOST_SECONDS_STILL", 0.1):
            self.assertEqual(await asyncio.wait_for(silo.close(), SECONDS), -9)
        with self.assertRaises(SiloEnded):
            await asked

    async def test_by_words_that_no_silo_says(self) -> None:
        program = self.stub(SAY_STRANGE)
        for number in range(0, len(STRANGE), 3):
            silo = await self.began("red:1:1", sends=number, program=program)
            with self.assertRaisesRegex(SiloEnded, "can't be read"):
                await silo.status(WEB)
            await self.ended(silo, -9)

    async def test_of_one_that_reads_no_more(self) -> None:
        with mock.patch("silo.aio.stream.MOST_SECONDS_DEAF", 0.1):
            silo = await self.began("red:1:1", program=self.stub("os.close(0)\ntime.sleep(600)"))
            with self.assertRaises(SiloEnded):
                begun = time.monotonic()
                while time.monotonic() < begun + SECONDS:
                    await silo.status(WEB)
            await self.ended(silo, -9)
