"""The client by a gateway's sockets: the same calls as over a pipe, and each way in which a connection can end."""

from __future__ import annotations

import asyncio
import contextlib
import io
import math
import os
import pathlib
import re
import socket
import tempfile
import threading
import time
from typing import Any, List, Tuple

from silo import Counter, Silo, SiloEnded, SiloError, SiloTimeout, aio

from .beside import CLIENT, COUNTER, ROOT, SECONDS, WEB, settled
from .gateways import Gateway, Gateways, Room, soon
from .test_aio import Loop

TOKEN = "a token of red's own"


class Shared(Gateways):
    """Tests that share a gateway with a token for red."""

    shared: Gateway

    @classmethod
    def setUpClass(cls) -> None:
        folder = tempfile.TemporaryDirectory()
        cls.addClassCleanup(folder.cleanup)
        pathlib.Path(folder.name, "red.token").write_text(TOKEN + "\n")
        cls.shared = cls.shares("--tcp", "0", "--tokens", folder.name)
        cls.tcp = f"tcp:127.0.0.1:{cls.shared.told().partition('let in at 127.0.0.1:')[2].split()[0]}"

    def reached(self, name: str = "red", **options: Any) -> Silo:
        silo = Silo.connect(self.shared.address(name), **{"timeout": SECONDS, **options})
        self.addCleanup(silo.close)
        return silo


class Threads(Shared):
    def test_each_call(self) -> None:
        told: List[Tuple[str, Any]] = []
        silo = self.reached(on_told=lambda grain, outcome: told.append((grain, outcome.code)))
        web = silo.client(WEB)
        ann = Counter(web, "ann")
        self.assertEqual([ann.add(by=3), ann.add(by=4), silo.poke(WEB, "counter/red:p", 5), silo.status(WEB)["activations"] > 0], [3, 7, "1", True])
        self.assertEqual([silo.tick(1), silo.sweep()], [False, None])
        self.assertEqual([it.result() for it in [silo.ask(WEB, "call", grain="counter/red:ann", method="get") for _ in range(50)]], [7] * 50)
        with self.assertRaisesRegex(SiloError, "40: tenant red may not call a grain of tenant blue"):
            silo.call("blue/web", "counter/blue:a", "get")
        relay = web.grain("relay/red:clients")
        relay.join(grain="counter/blue:x")
        relay.send(method="get", args=None)
        sheet = web.grain("sheet/red:clients")
        sheet.put(name="k", value="\u00e9" * 20_000)
        self.assertEqual(sheet.get(name="k"), "\u00e9" * 20_000)
        self.assertEqual((silo.close(), told), (0, [("relay/red:clients", 40)]))
        with self.assertRaises(SiloEnded):
            silo.status(WEB)

    def test_by_tcp(self) -> None:
        with Silo.connect(self.tcp, tenant="red", token=TOKEN, timeout=SECONDS) as silo:
            self.assertEqual([Counter(silo.client(WEB), "tcp").add(by=1) for _ in range(3)], [1, 2, 3])
        for tenant, token in (("red", "another"), ("blue", TOKEN)):
            with self.assertRaisesRegex(SiloEnded, "token is refused"):
                Silo.connect(self.tcp, tenant=tenant, token=token)

    def test_the_examples_of_the_pages(self) -> None:
        for page in (ROOT / "docs" / "gateway.md", CLIENT / "README.md"):
            example = re.findall(r"```python\n((?:(?!```).)*?Silo\.connect.*?)```", page.read_text(encoding="utf-8"), re.S)[0]
            example = re.sub(r"unix:[^\"]*/red.sock", self.shared.address(), example)
            told = io.StringIO()
            with contextlib.redirect_stdout(told):
                exec(compile(example, str(page), "exec"), {"Silo": Silo})
            self.assertRegex(told.getvalue(), r"^\d+\n$")

    def test_timeouts_for_ever(self) -> None:
        for timeout in (math.inf, 1e300, None):
            silo = Silo.connect(self.shared.address(), timeout=timeout)
            self.assertEqual(silo.status(WEB)["clock"] > 0, True)
            self.assertEqual(silo.close(), 0)

    def test_addresses_that_are_none(self) -> None:
        for address in ("", "unix:", "red.sock", "tcp:127.0.0.1:1"):
            with self.assertRaises(ValueError):
                Silo.connect(address)
        for address in ("tcp:here", "tcp:127.0.0.1:x", "unix:x"):
            with self.assertRaises(ValueError):
                Silo.connect(address, tenant="red", token=TOKEN)
        with self.assertRaisesRegex(FileNotFoundError, "'unix:/nowhere/red.sock'$"):
            Silo.connect("unix:/nowhere/red.sock")

    def test_two_silos_of_one_caller_from_many_threads(self) -> None:
        silos, found = [self.reached() for _ in range(2)], []

        def add(silo: Silo) -> None:
            found.extend(silo.call(WEB, "counter/red:many", "add", {"by": 1}) for _ in range(50))

        threads = [threading.Thread(target=add, args=[silo]) for silo in silos for _ in range(4)]
        for thread in threads:
            thread.start()
        for thread in threads:
            thread.join()
        self.assertEqual(sorted(found), [*range(1, 401)])

    def test_a_child_that_was_forked(self) -> None:
        silo = self.reached()
        silo.status(WEB)
        child = os.fork()
        if child == 0:
            os._exit(0 if isinstance(settled(lambda: silo.status(WEB)), SiloEnded) else 1)
        self.assertEqual(os.waitpid(child, 0)[1], 0)
        self.assertEqual(silo.status(WEB)["clock"] > 0, True)


class Ends(Gateways):
    def test_of_a_gateway_that_is_killed(self) -> None:
        gateway = self.gateway(program=self.stub("while read(): pass"))
        silo = Silo.connect(gateway.address(), timeout=SECONDS)
        asked = [silo.ask(WEB, "status") for _ in range(20)]
        time.sleep(0.1)
        gateway.process.kill()
        found = [settled(it.result) for it in asked]
        self.assertEqual({(type(it), getattr(it, "under_way", None)) for it in found}, {(SiloEnded, True)})
        self.assertEqual(silo.close(), 1)

    def test_of_a_program_that_is_killed(self) -> None:
        gateway = self.gateway()
        silo = Silo.connect(gateway.address(), timeout=SECONDS)
        self.addCleanup(silo.close)
        silo.call(WEB, COUNTER, "add", {"by": 1})
        asked = [silo.ask(WEB, "call", grain=COUNTER, method="get") for _ in range(2_000)]
        gateway.kill_program()
        found = [settled(it.result) for it in asked]
        self.assertTrue(all(it in (0, 1) or isinstance(it, SiloError) and it.code == 90 for it in found))
        # nothing of it is left: nobody told the program to keep it
        self.assertEqual(silo.call(WEB, COUNTER, "get"), 0)

    def test_of_a_program_with_data_that_is_killed(self) -> None:
        with Room() as folder:
            gateway = self.gateway("--data", f"{folder}/data")
            silo = Silo.connect(gateway.address(), timeout=SECONDS)
            self.addCleanup(silo.close)
            self.assertEqual([silo.call(WEB, COUNTER, "add", {"by": 1}) for _ in range(3)], [1, 2, 3])
            gateway.kill_program()
            self.assertEqual(silo.call(WEB, COUNTER, "add", {"by": 1}), 4)
            # the folder may go once nobody writes to it
            self.assertEqual(gateway.end(), 0)

    def test_in_order_by_a_signal(self) -> None:
        gateway = self.gateway()
        silo = Silo.connect(gateway.address(), timeout=SECONDS)
        asked = [silo.ask(WEB, "call", grain=COUNTER, method="add", args={"by": 1}) for _ in range(300)]
        # all have been read by the gateway: some of them may be answered, and are counted first
        soon(lambda: gateway.figure('silo_latency_seconds_count{tenant="red"}') + gateway.figure('silo_held{tenant="red"}') == 300)
        self.assertEqual(gateway.end(), 0)
        found = [settled(it.result) for it in asked]
        self.assertEqual(found, [*range(1, 301)])
        self.assertIsInstance(settled(lambda: silo.status(WEB)), SiloEnded)
        self.assertEqual(silo.close(), 1)

    def test_of_one_that_doesnt_answer(self) -> None:
        gateway = self.gateway(program=self.stub("while read(): pass"))
        silo = Silo.connect(gateway.address(), timeout=0.1)
        with self.assertRaises(SiloTimeout):
            silo.status(WEB)
        gateway.process.kill()
        silo.close()

    def test_of_one_that_lets_nobody_in(self) -> None:
        with socket.socket() as listening:
            listening.bind(("127.0.0.1", 0))
            listening.listen()
            with self.assertRaises(OSError):
                Silo.connect(f"tcp:127.0.0.1:{listening.getsockname()[1]}", tenant="red", token="x", timeout=0.2)


    def test_of_one_that_leaves_lines_unread(self) -> None:
        with tempfile.TemporaryDirectory() as folder, socket.socket(socket.AF_UNIX) as listening:
            listening.bind(f"{folder}/sock")
            listening.listen()
            silo = Silo.connect(f"unix:{folder}/sock", timeout=SECONDS)
            asked = silo.ask(WEB, "status")
            its, _ = listening.accept()
            its.recv(1, socket.MSG_PEEK)
            its.close()
            with self.assertRaisesRegex(SiloEnded, "with status 1: the gateway closed the connection; whether the request was done is not known$"):
                asked.result()
            self.assertEqual(silo.close(), 1)

    def test_of_one_that_has_no_room(self) -> None:
        gateway = self.gateway("--most-connections", "1")
        first = Silo.connect(gateway.address(), timeout=SECONDS)
        self.addCleanup(first.close)
        first.status(WEB)
        for ask in (lambda silo: silo.status(WEB), lambda silo: silo.sweep()):
            silo = Silo.connect(gateway.address(), timeout=SECONDS)
            for _ in range(2):
                with self.assertRaisesRegex(SiloEnded, "with status 1: 92: gateway has no free connection$") as found:
                    ask(silo)
                self.assertFalse(found.exception.under_way)
            self.assertEqual(silo.close(), 1)


class Tasks(Loop, Shared):
    async def reached_by_tasks(self, name: str = "red", **options: Any) -> aio.Silo:
        silo = aio.Silo.connect(self.shared.address(name), **{"timeout": SECONDS, **options})
        await silo.start()
        self.addAsyncCleanup(silo.close)
        return silo

    async def test_each_call(self) -> None:
        told: List[Tuple[str, Any]] = []
        silo = await self.reached_by_tasks(on_told=lambda grain, outcome: told.append((grain, outcome.code)))
        web = silo.client(WEB)
        sums = await asyncio.gather(*(web.grain("counter/red:tasks").add(by=1) for _ in range(500)))
        self.assertEqual(sorted(sums), [*range(1, 501)])
        with self.assertRaisesRegex(SiloError, "40: "):
            await silo.call("blue/web", "counter/blue:a", "get")
        sheet = web.grain("sheet/red:tasks")
        await sheet.put(name="k", value="x" * 60_000)
        self.assertEqual({len(it) for it in await asyncio.gather(*(sheet.get(name="k") for _ in range(100)))}, {60_000})
        relay = web.grain("relay/red:tasks")
        await relay.join(grain="counter/blue:x")
        await relay.send(method="get", args=None)
        self.assertEqual([await silo.tick(1), await silo.sweep(), await silo.close(), told], [False, None, 0, [("relay/red:tasks", 40)]])

    async def test_by_tcp(self) -> None:
        async with aio.Silo.connect(self.tcp, tenant="red", token=TOKEN) as silo:
            self.assertEqual((await silo.status(WEB))["clock"] > 0, True)
        with self.assertRaisesRegex(SiloEnded, "token is refused"):
            await aio.Silo.connect(self.tcp, tenant="red", token="x")

    async def test_of_a_gateway_that_is_killed(self) -> None:
        gateway = self.gateway(program=self.stub("while read(): pass"))
        silo = await aio.Silo.connect(gateway.address(), timeout=SECONDS)
        asked = [silo.ask(WEB, "status") for _ in range(20)]
        await asyncio.sleep(0.1)
        gateway.process.kill()
        found = await asyncio.gather(*asked, return_exceptions=True)
        self.assertEqual({type(it) for it in found}, {SiloEnded})
        self.assertEqual(await silo.close(), 1)

    async def test_timeouts_for_ever(self) -> None:
        for timeout in (math.inf, 1e300, None):
            async with aio.Silo.connect(self.shared.address(), timeout=timeout) as silo:
                self.assertEqual((await silo.status(WEB))["clock"] > 0, True)

    async def test_of_one_that_has_no_room(self) -> None:
        gateway = self.gateway("--most-connections", "1")
        async with aio.Silo.connect(gateway.address(), timeout=SECONDS) as first:
            await first.status(WEB)
            silo = await aio.Silo.connect(gateway.address(), timeout=SECONDS)
            with self.assertRaisesRegex(SiloEnded, "92: gateway has no free connection$") as found:
                await silo.status(WEB)
            self.assertEqual((found.exception.under_way, await silo.close()), (False, 1))

    async def test_what_was_told_before_a_write_failed(self) -> None:
        with tempfile.TemporaryDirectory() as folder, socket.socket(socket.AF_UNIX) as listening:
            listening.bind(f"{folder}/sock")
            listening.listen()
            silo = await aio.Silo.connect(f"unix:{folder}/sock", timeout=SECONDS)
            first = silo.ask(WEB, "status")
            await asyncio.sleep(0.05)
            its, _ = listening.accept()
            its.recv(65_536)
            its.sendall(b'{"from":"red/web","id":1,"ok":5}\n')
            its.close()
            # the loop writes this before it reads
            second = silo.ask(WEB, "status")
            self.assertEqual(await first, 5)
            with self.assertRaises(SiloEnded) as found:
                await second
            self.assertEqual((found.exception.under_way, await silo.close()), (True, 1))

    async def test_much_at_once(self) -> None:
        silo = await self.reached_by_tasks()
        asked = [silo.call(WEB, "sheet/red:much", "put", {"name": "k", "value": "x" * 50_000}) for _ in range(100)]
        self.assertEqual(set(await asyncio.gather(*asked)), {None})
