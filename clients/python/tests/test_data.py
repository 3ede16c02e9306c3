"""A silo with data: what was answered is kept, and the program is started again after a crash."""

from __future__ import annotations

import asyncio
import fcntl
import os
import pathlib
import tempfile
import threading
from typing import Any, List

from silo import Silo, SiloEnded, aio
from silo.process import BYTES_OF_WIDE_PIPE

from . import beside
from .beside import COUNTER, SECONDS, WEB, Case, settled, stop
from .test_aio import Loop

F_GETPIPE_SZ = 1032
# a program that notes that it was started, and ends
ENDS = "open(sys.argv[-3], 'a').write('x')\nsys.exit('silo: writing failed')"


class Data(Case):
    def setUp(self) -> None:
        folder = tempfile.TemporaryDirectory()
        self.addCleanup(folder.cleanup)
        self.folder = pathlib.Path(folder.name)
        self.data = self.folder / "data"

    def lasting(self, **options: Any) -> Silo:
        return self.started(data=self.data, **options)

    def kill(self, silo: Silo) -> None:
        """Kills the program, and waits until the client has seen that."""
        connection = silo._connection
        connection.carrier.kill()
        self.assertTrue(connection._over.wait(SECONDS))

    def add(self, silo: Silo) -> Any:
        return silo.call(WEB, COUNTER, "add", {"by": 1})


class Kept(Data):
    def test_what_was_answered_is_there_again(self) -> None:
        with Silo("red:4:4", data=self.data, program=beside.program) as silo:
            self.assertEqual([self.add(silo), self.add(silo), silo.tick(5)], [1, 2, True])
        with Silo("red:4:4", data=os.fspath(self.data), sync=False, program=beside.program) as silo:
            self.assertEqual((self.add(silo), silo.status(WEB)["clock"]), (3, 5))

    def test_it_goes_on_after_a_crash(self) -> None:
        silo = self.lasting()
        self.assertEqual(self.add(silo), 1)
        for turn in range(3):
            self.kill(silo)
            self.assertEqual(self.add(silo), turn + 2)
        self.kill(silo)
        self.assertEqual((silo.tick(7), silo.ask(WEB, "call", grain=COUNTER, method="get").result(), silo.close()), (True, 4, 0))

    def test_what_is_under_way_is_not_known(self) -> None:
        silo = self.lasting()
        self.add(silo)
        stop(silo._connection.carrier.number)  # type: ignore[attr-defined]
        asked = [silo.ask(WEB, "call", grain=COUNTER, method="add", args={"by": 1}) for _ in range(100)]
        silo._connection.carrier.kill()
        found = [settled(it.result) for it in asked]
        self.assertEqual({type(it) for it in found}, {SiloEnded})
        self.assertTrue(all(it.under_way and "is not known" in str(it) for it in found if isinstance(it, SiloEnded)))
        self.assertEqual(self.add(silo), 2)

    def test_each_request_starts_it_once_at_most(self) -> None:
        starts = self.folder / "starts"
        silo = Silo("red:1:1", data=starts, program=self.stub(ENDS), timeout=SECONDS)
        self.assertTrue(silo._connection._over.wait(SECONDS))
        for count in range(2, 5):
            self.assertIsInstance(settled(lambda: silo.status(WEB)), SiloEnded)
            # it may be found to have ended before the request was written, but has been started by then
            self.assertTrue(silo._connection._over.wait(SECONDS))
            self.assertEqual(len(starts.read_text()), count)
        self.assertEqual(silo.close(), 1)
        self.assertIsInstance(settled(lambda: silo.status(WEB)), SiloEnded)
        self.assertEqual(len(starts.read_text()), 4)

    def test_what_is_not_written_starts_nothing(self) -> None:
        silo = self.lasting()
        self.kill(silo)
        ended = silo._connection
        for ask in (lambda: silo.call(WEB, COUNTER, "add", 1.5), lambda: silo.ask(WEB, "stop"), lambda: silo.tick(-1)):
            self.assertIsInstance(settled(ask), ValueError)
        self.assertIs(silo._connection, ended)
        self.assertEqual(silo.close(), -9)

    def test_a_log_that_is_refused_is_not_tried_again(self) -> None:
        with Silo("red:4:4", data=self.data, program=beside.program) as silo:
            self.add(silo)
        log = self.data / "log"
        before = log.read_bytes()
        for text, words, status, told in ((b"what", ["red:4:4"], 4, "log line 1 is refused"), (before, ["blue:5:5"], 2, "the data have the tenant red")):
            log.write_bytes(text)
            silo = Silo(*words, data=self.data, program=beside.program, timeout=SECONDS)
            self.assertTrue(silo._connection._over.wait(SECONDS))
            ended = silo._connection
            with self.assertRaisesRegex(SiloEnded, told) as found:
                silo.status(WEB)
            self.assertEqual((found.exception.status, found.exception.under_way, silo.close()), (status, False, status))
            self.assertIs(silo._connection, ended)
            self.assertEqual(log.read_bytes(), text)

    def test_data_are_one_silos(self) -> None:
        silo = self.lasting()
        self.add(silo)
        other = Silo("red:4:4", data=self.data, program=beside.program, timeout=SECONDS)
        self.assertTrue(other._connection._over.wait(SECONDS))
        with self.assertRaisesRegex(SiloEnded, "the data are in use"):
            other.status(WEB)
        self.assertEqual(silo.close(), 0)
        # it goes on once they are free
        self.assertEqual((self.add(other), other.close()), (2, 0))

    def test_a_program_that_is_gone(self) -> None:
        program = self.folder / "silo"
        program.symlink_to(beside.program)
        silo = self.lasting(program=program)
        self.add(silo)
        program.unlink()
        self.kill(silo)
        with self.assertRaisesRegex(SiloEnded, "can't be started again"):
            silo.status(WEB)
        program.symlink_to(beside.program)
        self.assertEqual(self.add(silo), 2)

    def test_nothing_is_started_behind_its_end(self) -> None:
        silo = self.lasting()
        self.add(silo)
        self.assertEqual(silo.close(), 0)
        self.assertIsInstance(settled(lambda: silo.status(WEB)), SiloEnded)
        self.assertEqual(silo.close(), 0)

    def test_a_child_that_was_forked_starts_nothing(self) -> None:
        silo = self.lasting()
        self.add(silo)
        child = os.fork()
        if child == 0:
            os._exit(0 if isinstance(settled(lambda: silo.status(WEB)), SiloEnded) and silo.close() == 0 else 1)
        self.assertEqual(os.waitpid(child, 0)[1], 0)
        self.assertEqual(self.add(silo), 2)

    def test_words_that_do_not_go_together(self) -> None:
        for options in ({"data": "d", "journal": "j"}, {"sync": False}):
            with self.assertRaises(ValueError):
                Silo("red:1:1", **options)  # type: ignore[arg-type]
            with self.assertRaises(ValueError):
                aio.Silo("red:1:1", **options)  # type: ignore[arg-type]

    def test_the_pipe_has_room_for_a_batch(self) -> None:
        silo = self.lasting()
        try:
            most = int(pathlib.Path("/proc/sys/fs/pipe-max-size").read_text())
        except OSError:
            self.skipTest("this system tells nothing of its pipes")
        if most < BYTES_OF_WIDE_PIPE:
            self.skipTest("this system gives no pipe of that size")
        self.assertEqual(fcntl.fcntl(silo._connection.carrier.writing, F_GETPIPE_SZ), BYTES_OF_WIDE_PIPE)

    def test_crashes_while_threads_ask(self) -> None:
        """No sum that was told is told twice or lost, whatever was under way."""
        silo = self.lasting()
        told: List[int] = []
        unknown: List[SiloEnded] = []
        over = threading.Event()

        def ask(name: int) -> None:
            while not over.is_set():
                found = settled(lambda: silo.call(f"red/t{name}", COUNTER, "add", {"by": 1}))
                if isinstance(found, int):
                    told.append(found)
                else:
                    assert isinstance(found, SiloEnded), found
                    unknown.append(found)

        threads = [threading.Thread(target=ask, args=[name]) for name in range(4)]
        for thread in threads:
            thread.start()
        for turn in range(4):
            known = len(told)
            while len(told) < known + 20:
                over.wait(0.01)
            silo._connection.carrier.kill()
        over.set()
        for thread in threads:
            thread.join(SECONDS)
        try:
            last = silo.call(WEB, COUNTER, "get")
        except SiloEnded:  # the last kill met this request
            last = silo.call(WEB, COUNTER, "get")
        self.assertEqual(len(set(told)), len(told))
        self.assertTrue(max(told) <= last <= len(told) + len(unknown), (max(told), last, len(told), len(unknown)))
        self.assertEqual(silo.close(), 0)


class Tasks(Loop, Data):
    async def lasting_by_tasks(self, **options: Any) -> aio.Silo:
        return await self.began(data=self.data, **options)

    async def killed(self, silo: aio.Silo) -> None:
        silo._started.carrier.kill()
        await asyncio.wait_for(asyncio.shield(silo._started._over), SECONDS)

    async def test_it_goes_on_after_a_crash(self) -> None:
        silo = await self.lasting_by_tasks()
        counter = silo.client(WEB).grain(COUNTER)
        self.assertEqual(await counter.add(by=1), 1)
        await self.killed(silo)
        self.assertEqual(await asyncio.gather(*(counter.add(by=1) for _ in range(50))), [*range(2, 52)])
        await self.killed(silo)
        self.assertEqual((await silo.ask(WEB, "status"))["activations"], 1)
        await self.killed(silo)
        self.assertEqual((await silo.tick(5), await counter.get(), await silo.close()), (True, 51, 0))
        with self.assertRaises(SiloEnded):
            await counter.get()

    async def test_what_is_under_way_is_not_known(self) -> None:
        silo = await self.lasting_by_tasks()
        counter = silo.client(WEB).grain(COUNTER)
        await counter.add(by=1)
        stop(silo._started.carrier.number)  # type: ignore[union-attr]
        asked = [asyncio.ensure_future(counter.add(by=1)) for _ in range(20)]
        await asyncio.sleep(0)
        silo._started.carrier.kill()
        found = await asyncio.gather(*asked, return_exceptions=True)
        self.assertEqual({(type(it), getattr(it, "under_way", None)) for it in found}, {(SiloEnded, True)})
        self.assertEqual(await counter.add(by=1), 2)

    async def test_each_request_starts_it_once_at_most(self) -> None:
        starts = self.folder / "starts"
        silo = await self.began("red:1:1", data=starts, program=self.stub(ENDS))
        await asyncio.wait_for(asyncio.shield(silo._started._over), SECONDS)
        for count in range(2, 4):
            with self.assertRaises(SiloEnded):
                await silo.status(WEB)
            await asyncio.wait_for(asyncio.shield(silo._started._over), SECONDS)
            self.assertEqual(len(starts.read_text()), count)
        self.assertEqual(await silo.close(), 1)

    async def test_a_close_behind_a_start(self) -> None:
        silo = await self.lasting_by_tasks()
        await self.killed(silo)
        asked = silo.ask(WEB, "status")
        self.assertEqual((await silo.close(), (await asked)["requests"]), (0, 0))
