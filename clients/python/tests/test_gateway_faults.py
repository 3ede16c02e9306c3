"""The gateway among those who mean it no good, and beside a program that fails."""

from __future__ import annotations

import asyncio
import json
import os
import pathlib
import random
import shutil
import signal
import statistics
import threading
import time
import unittest
from typing import Any, Dict, List
from unittest import mock

from silo.gateway.desk import Desk
from silo.gateway.keeper import Keeper
from silo.gateway.lane import MOST_AT_FIRST, Lane

from .beside import SECONDS, Case, settled
from .gateways import Gateway, Gateways, Room, Wire, call, echo, echoed, soon
from .test_gateway_lines import Kept

# how many connections are tried that do what they shouldn't, and how many of them at once
FUZZED, AT_ONCE = 3_000, 40
# how often the other tenant asks at least beside one that floods
LEAST_TURNS = 15
# a line that red may not ask
OTHERS = call(1, "blue/web", "counter/blue:a")
# what lines without a number are told
UNNUMBERED = ({"error": 10, "text": "line is not a request"}, {"error": 11, "text": "line is too long"}, {"text": "not now"})
# bytes that a gateway may have in memory, whatever is tried
MOST_RESIDENT = 150 * 2**20

# answers each line of a request as the silo does where there is no such kind, works a millisecond on each, and keeps who asked
ONE_BY_ONE = """import json
log = open("asked.log", "ab", buffering=0)
while True:
    line = read()
    if not line: break
    if line == b"fence\\n":
        write(b'{"error":10,"text":"line is not a request"}\\n')
        continue
    said = json.loads(line)
    if "from" not in said: continue
    until = time.process_time() + 0.001
    while time.process_time() < until: pass
    log.write(said["from"].encode() + b"\\n")
    write(b'{"error":22,"from":"%b","id":%d,"text":"kind x is unknown"}\\n' % (said["from"].encode(), said["id"]))
"""


def resident(number: int) -> int:
    return int(pathlib.Path(f"/proc/{number}/statm").read_text().split()[1]) * os.sysconf("SC_PAGE_SIZE")


# what no silo says, and a program that says one after the other to the first request of each of its lives
STRANGE = (b'{"from":"red/web","id":999,"ok":1}', b"what", b'{"from":"blue/web","id":1,"ok":1}')
SAY_STRANGE = f"""lives = open("lives", "a+")
lives.write("x")
lives.flush()
said = {STRANGE!r}[(lives.tell() - 1) % {len(STRANGE)}]
line = read()
while line and b'from' not in line:
    line = read()
if line:
    write(said + b'\\n')
    time.sleep(600)
"""


class Steady(threading.Thread):
    """One who asks one thing after the other, and looks whether each answer is the right one."""

    def __init__(self, wire: Wire, caller: str, word: str) -> None:
        super().__init__()
        self._wire, self._caller, self._word = wire, caller, word
        self.is_over = False
        self.times: List[float] = []
        self.wrong: List[Any] = []
        self.lost = 0

    def run(self) -> None:
        number = 0
        # one thing at least, however late it begins
        while not self.is_over or number == 0:
            number += 1
            word = f"{self._word}{number}"
            begun = time.monotonic()
            said = settled(lambda: self._wire.ask(echo(number, word, self._caller)))
            self.times.append(time.monotonic() - begun)
            if isinstance(said, dict) and (said.get("error"), said.get("from"), said.get("id")) == (90, self._caller, number):
                self.lost += 1
            elif said != echoed(number, word, self._caller):
                self.wrong.append(said)
                return

    def end(self) -> None:
        self.is_over = True
        self.join(SECONDS)


class Fuzz:
    """One connection that says a few odd things; what it hears has to be answers to them."""

    def __init__(self, chance: random.Random, number: int) -> None:
        self._chance, self._number = chance, number
        self._asked: Dict[int, str] = {}
        self._others = 0
        self.wrong: List[Any] = []

    def piece(self) -> bytes:
        chance = self._chance
        number = len(self._asked) + 1
        kind = chance.randrange(10)
        if kind < 4:
            self._asked[number] = f"f{self._number}-{number}"
            line = echo(number, self._asked[number])
            return line if kind else b" " + line
        if kind == 4:
            self._others += 1
            return OTHERS
        line = bytearray(echo(number, "broken"))
        if kind == 5:
            del line[chance.randrange(1, len(line) - 1) :]
            return bytes(line) + b"\n"
        if kind == 6:
            return bytes(chance.randrange(256) for _ in range(chance.randrange(1, 200))).replace(b"{", b"x") + b"\n"
        if kind == 7:
            return b"x" * chance.choice([70_000, 65_537, 200_000]) + b"\n"
        return chance.choice([b"\n\n\n", b"fence\n", b"[" * 3_000 + b"\n", b'{"op":"sweep"}\n', b"\x00\n", b'{"op":"tick","now":99}\n'])

    async def run(self, path: str) -> None:
        reader, writer = await asyncio.open_unix_connection(path, limit=2**20)
        data = b"".join(self.piece() for _ in range(self._chance.randrange(1, 6)))
        manner = self._chance.randrange(5)
        try:
            if manner == 0:
                # slowly, in two parts
                place = self._chance.randrange(len(data) + 1)
                writer.write(data[:place])
                await asyncio.sleep(0.01)
                data = data[place:]
            writer.write(data)
            if manner == 1:
                # it goes away without a word
                writer.transport.abort()
                return
            writer.write_eof()
            self.look(await asyncio.wait_for(reader.read(), 3 * SECONDS))
        except ConnectionError:
            self.wrong.append("the connection was cut")
        finally:
            writer.close()

    def look(self, told: bytes) -> None:
        wanted = [echoed(number, word) for number, word in self._asked.items()]
        heard = [json.loads(line) for line in told.splitlines()]
        others = [it for it in heard if it.get("error") == 40]
        if [it for it in heard if it.get("from") == "red/web"] != wanted:
            self.wrong.append((wanted, heard))
        if len(others) != self._others or any(it not in UNNUMBERED for it in heard if "from" not in it):
            self.wrong.append(heard)


class Fuzzed(Gateways):
    def test_connections(self) -> None:
        gateway = self.gateway("--tick", "0.1")
        steady = [Steady(self.wire(gateway, name), f"{name}/web", name) for name in ("red", "blue")]
        for it in steady:
            it.start()
        wrong = asyncio.run(self.fuzzed(gateway))
        for it in steady:
            it.end()
        self.assertEqual(wrong[:3], [])
        self.assertEqual([it.wrong + [it.lost] for it in steady], [[0], [0]])
        self.assertLess(resident(gateway.process.pid), MOST_RESIDENT)
        # nothing that red said has reached a grain of blue
        said = self.wire(gateway, "blue").ask(b'{"op":"status","from":"blue/web","id":1}\n')
        self.assertEqual((said["ok"]["requests"], said["ok"]["activations"]), (0, 0))
        self.assertEqual(gateway.told().count("error:"), 0, gateway.told())
        self.assertEqual(gateway.end(), 0)

    async def fuzzed(self, gateway: Gateway) -> List[Any]:
        wrong: List[Any] = []
        numbers = iter(range(FUZZED))

        async def some() -> None:
            for number in numbers:
                fuzz = Fuzz(random.Random(number), number)
                await fuzz.run(os.fspath(gateway.folder / "red.sock"))
                wrong.extend((number, it) for it in fuzz.wrong)

        await asyncio.gather(*(some() for _ in range(AT_ONCE)))
        return wrong

    def test_strangers_by_tcp(self) -> None:
        gateway = self.gateway("--tcp", "0", "--tokens", "/nowhere")
        port = int(gateway.told().partition("let in at 127.0.0.1:")[2].split()[0])
        steady = Steady(self.wire(gateway), "red/web", "tcp")
        steady.start()
        asyncio.run(self.strangers(port))
        steady.end()
        self.assertEqual((steady.wrong, steady.lost), ([], 0))
        self.assertIn("were left out", gateway.told())

    async def strangers(self, port: int) -> None:
        async def one(number: int) -> None:
            chance = random.Random(number)
            reader, writer = await asyncio.open_connection("127.0.0.1", port)
            try:
                writer.write(bytes(chance.randrange(256) for _ in range(chance.choice([0, 10, 9_000]))) + b"\n")
                if chance.randrange(2):
                    writer.write_eof()
                    await reader.read()
            except ConnectionError:
                pass
            finally:
                writer.close()

        for number in range(0, 300, 30):
            await asyncio.gather(*(one(number + each) for each in range(30)))
            await asyncio.sleep(0.15)


class Floods(Gateways):
    def flood(self, gateway: Gateway, count: int, until: threading.Event) -> List[threading.Thread]:
        """So many connections of red's, each of which asks as much as it may."""

        def run(wire: Wire) -> None:
            reading = threading.Thread(target=lambda: settled(wire.rest))
            reading.start()
            block = b"".join(echo(number, "x") for number in range(500))
            while not until.is_set():
                wire.say(block)
            wire.end()
            reading.join(SECONDS)

        threads = [threading.Thread(target=settled, args=[lambda wire=self.wire(gateway): run(wire)]) for _ in range(count)]
        for thread in threads:
            thread.start()
        return threads

    def test_one_tenants_flood_leaves_the_other_its_turns(self) -> None:
        """By counts, since a busy machine has times of its own."""
        gateway = self.gateway(program=self.stub(ONE_BY_ONE))
        over = threading.Event()
        threads = self.flood(gateway, 4, over)
        time.sleep(0.5)
        begun, times = time.monotonic(), []
        wire = self.wire(gateway, "blue")
        while time.monotonic() < begun + 2.0 or len(times) < LEAST_TURNS:
            asked = time.monotonic()
            self.assertEqual(wire.ask(echo(1, "x", "blue/web"))["from"], "blue/web")
            times.append(time.monotonic() - asked)
        over.set()
        self.end_at_once(gateway, threads)
        asked_by = (pathlib.Path(gateway.folder).parent / "asked.log").read_text().split()
        between = [len(part.split()) for part in " ".join(asked_by).split("blue/web")[1:-1]]
        # a line takes a millisecond, so red has one or two of them under way at once
        self.assertLessEqual(statistics.median(between), 6, between)
        self.assertLess(statistics.median(times), 0.5)

    def end_at_once(self, gateway: Gateway, threads: List[threading.Thread]) -> None:
        gateway.process.kill()
        for thread in threads:
            thread.join(SECONDS)

    def test_bounds_of_a_connection_and_of_a_tenant(self) -> None:
        gateway = self.gateway("--most-of-connection", "50", "--most-of-tenant", "120", program=self.stub("time.sleep(600)"))
        for wire in [self.wire(gateway) for _ in range(4)]:
            wire.socket.settimeout(0.2)
            settled(lambda: wire.say(echo(1, "x") * 20_000))
        soon(lambda: gateway.figure('silo_held{tenant="red"}') >= 120 and gateway.figure('silo_under_way{tenant="red"}') == MOST_AT_FIRST)
        # a read may bring so many lines more than the bound
        self.assertLessEqual(gateway.figure('silo_held{tenant="red"}'), 120 + 4 * (16_384 // len(echo(1, "x")) + 1))
        self.assertLess(resident(gateway.process.pid), MOST_RESIDENT)
        self.assertEqual(gateway.figure('silo_held{tenant="blue"}'), 0)

    def test_who_reads_no_replies_takes_no_memory(self) -> None:
        gateway = self.gateway("--most-of-tenant", "2000")
        first = self.wire(gateway)
        first.ask(call(1, grain="sheet/red:s", method="put", args={"name": "k", "value": "x" * 60_000}))
        deaf = self.deaf(gateway, 5)
        for number in range(50):
            self.assertEqual(first.ask(echo(number, "d")), echoed(number, "d"))
        self.assertEqual(self.wire(gateway, "blue").ask(echo(1, "d", "blue/web")), echoed(1, "d", "blue/web"))
        self.assertLess(resident(gateway.process.pid), MOST_RESIDENT)
        # what they asked is answered once they read on
        deaf[0].socket.settimeout(SECONDS)
        deaf[0].end()
        self.assertEqual(len(deaf[0].heard()), 300)
        # where they are so many that the others of their tenant can't ask any more, they are cut off
        self.deaf(gateway, 15)
        for number in range(50):
            self.assertEqual(first.ask(echo(number, "d")), echoed(number, "d"))
        gateway.wait_for("a connection of red reads no replies, and is cut off")

    def deaf(self, gateway: Gateway, count: int) -> List[Wire]:
        """So many connections that ask, and read no reply."""
        wires = [self.wire(gateway) for _ in range(count)]
        for wire in wires:
            wire.socket.settimeout(0.1)
            settled(lambda: wire.say(call(1, grain="sheet/red:s", method="get", args={"name": "k"}) * 300))
        return wires


class Programs(Case, unittest.IsolatedAsyncioTestCase):
    async def test_one_that_owes_an_answer_for_too_long(self) -> None:
        lane = Lane("red", "red", 10, 10**6)
        desk = Desk([lane], Lane("own", "", 10, 10**6), asyncio.get_running_loop().call_soon)
        keeper = Keeper([self.stub("while read(): pass")], desk, lambda: None)
        guest = Kept(desk, lane)
        with mock.patch("silo.gateway.keeper.MOST_SECONDS_DEAF", 0.2), mock.patch("silo.gateway.keeper.tell") as tell:
            running = [asyncio.ensure_future(it) for it in (keeper.run(), keeper.watch())]
            while keeper.number is None:
                await asyncio.sleep(0.01)
            guest.take(call(3))
            while not guest.heard or keeper.starts < 2 or keeper.number is None:
                await asyncio.sleep(0.01)
            self.assertEqual([(said["error"], said["id"]) for said in guest.heard], [(90, 3)])
            self.assertTrue(any("owes an answer" in told.args[1] for told in tell.mock_calls))
            keeper.end()
            self.assertEqual(await asyncio.wait_for(running[0], SECONDS), 0)
            running[1].cancel()

    async def test_one_with_data_has_more_time_for_its_first_answer(self) -> None:
        lane = Lane("red", "red", 10, 10**6)
        desk = Desk([lane], Lane("own", "", 10, 10**6), asyncio.get_running_loop().call_soon)
        reply = "write(b'{\"from\":\"red/web\",\"id\":3,\"ok\":1}\\n')"
        keeper = Keeper([self.stub(f"read()\ntime.sleep(1)\n{reply}\nwhile read(): pass"), "--data", "d"], desk, lambda: None)
        guest = Kept(desk, lane)
        with mock.patch("silo.gateway.keeper.MOST_SECONDS_DEAF", 0.2), mock.patch("silo.gateway.keeper.tell"):
            running = [asyncio.ensure_future(it) for it in (keeper.run(), keeper.watch())]
            while keeper.number is None:
                await asyncio.sleep(0.01)
            guest.take(call(3))
            while not guest.heard:
                await asyncio.sleep(0.01)
            # it is late with the second one
            guest.take(call(4))
            while len(guest.heard) < 2:
                await asyncio.sleep(0.01)
            self.assertEqual([said.get("error") for said in guest.heard], [None, 90])
            while keeper.number is None:
                await asyncio.sleep(0.01)
            keeper.end()
            self.assertIn(await asyncio.wait_for(running[0], SECONDS), (0, -9))
            running[1].cancel()


class Kills(Gateways):
    def test_of_a_program_with_data(self) -> None:
        """What was told is there again, and what wasn't told may be."""
        with Room() as folder:
            gateway = self.gateway("--data", f"{folder}/data")
            wire, told, unknown = self.wire(gateway), 0, 0
            for turn in range(3):
                said = [call(number) for number in range(200)]
                wire.say(b"".join(said))
                time.sleep(0.02 * turn)
                gateway.kill_program()
                heard = [wire.hear() for _ in said]
                self.assertTrue(all("ok" in it or it["error"] == 90 for it in heard))
                told = max([told, *(it["ok"] for it in heard if "ok" in it)])
                unknown += sum("error" in it for it in heard)
                last = wire.ask(call(1, method="get"))["ok"]
                self.assertTrue(told <= last <= told + unknown, (told, last, unknown))
                told = last
            self.assertEqual(gateway.end(), 0)
            # nor does the gateway's own end lose anything
            self.assertEqual(self.wire(self.gateway("--data", f"{folder}/data")).ask(call(1, method="get"))["ok"], told)

    def test_of_the_program_under_load(self) -> None:
        gateway = self.gateway()
        steady = [Steady(self.wire(gateway, name), f"{name}/web", f"{name}{each}x") for name in ("red", "blue") for each in range(4)]
        for it in steady:
            it.start()
        for _ in range(5):
            time.sleep(random.Random(5).random() * 0.05)
            gateway.kill_program()
        for it in steady:
            it.end()
        self.assertEqual([it.wrong for it in steady], [[]] * 8)
        self.assertTrue(all(it.times and not it.is_alive() for it in steady))
        self.assertEqual(gateway.figure("silo_starts_total"), 6)
        lost = sum(gateway.figure(f'silo_lost_total{{tenant="{name}"}}') for name in ("red", "blue"))
        self.assertEqual(lost, sum(it.lost for it in steady))
        self.assertEqual(gateway.told().count("error: the program has ended with status -9: signal 9 ended it"), 5)
        self.assertEqual(gateway.end(), 0)

    def test_of_the_program_while_many_lines_are_under_way(self) -> None:
        gateway = self.gateway()
        for turn in range(3):
            wires = [self.wire(gateway) for _ in range(5)]
            for index, wire in enumerate(wires):
                wire.say(b"".join(echo(number, f"k{index}") for number in range(150)))
                wire.end()
            time.sleep(0.02 * turn)
            gateway.kill_program()
            for index, wire in enumerate(wires):
                heard = wire.heard()
                self.assertEqual([it["id"] for it in heard], [*range(150)])
                for it in heard:
                    self.assertIn(it["error"], (22, 90))
                    self.assertTrue(it["error"] == 90 or it == echoed(it["id"], f"k{index}"), it)

    def test_of_the_gateway(self) -> None:
        gateway = self.gateway()
        number = gateway.program()
        wire = self.wire(gateway)
        wire.say(echo(1, "x") * 100)
        gateway.process.kill()
        settled(wire.rest)
        # its input has ended, so the program ends by itself
        soon(lambda: not pathlib.Path(f"/proc/{number}").exists())
        # what it left there is no hindrance to the next one
        self.assertIn("red.sock", os.listdir(gateway.folder))
        again = self.gateway(folder=gateway.folder)
        self.assertEqual(self.wire(again).ask(echo(1, "again")), echoed(1, "again"))

    def test_a_folder_that_was_removed(self) -> None:
        """Another gateway may listen there then, and its sockets stay."""
        gateway = self.gateway()
        shutil.rmtree(gateway.folder)
        other = self.gateway(folder=gateway.folder)
        self.assertEqual(gateway.end(), 0)
        self.assertEqual(self.wire(other).ask(echo(1, "x")), echoed(1, "x"))

    def test_a_program_that_says_what_no_silo_says(self) -> None:
        gateway = self.gateway("--tick", "0", program=self.stub(SAY_STRANGE))
        for count in range(1, len(STRANGE) + 1):
            self.assertEqual(self.wire(gateway).ask(echo(3, "x"))["error"], 90)
            gateway.wait_for("can't be read, so it is killed", count)
            gateway.wait_for("the program runs", count + 1)


if __name__ == "__main__":
    unittest.main()
