"""Odd connections to a gateway: broken, slow, huge, half closed, of other tenants, and what each may hear."""

from __future__ import annotations

import asyncio
import json
import os
import pathlib
import random
import re
from typing import Any, Callable, Dict, List, Optional

from tests.gateways import call, echo, echoed

# how long an answer may take on a busy machine
SECONDS = 60.0
UNNUMBERED = {10: "line is not a request", 11: "line is too long"}
NOT_NOW = {"text": "not now"}
# words of connections, by which each reply is known
WORD = re.compile(r"f\d+-\d+")
# what may be told; the text of a told line names no connection
Wanted = Callable[[Dict[str, Any]], bool]


def exactly(said: Any) -> Wanted:
    return lambda heard: bool(heard == said)


def coded(*codes: int) -> Wanted:
    return lambda heard: heard.get("error") in codes


def is_unnumbered(heard: Dict[str, Any]) -> bool:
    return heard == NOT_NOW or "from" not in heard and UNNUMBERED.get(heard.get("error", 0)) == heard.get("text")


def anything(heard: Dict[str, Any]) -> bool:
    return "error" in heard or "ok" in heard or heard == NOT_NOW


def is_told(heard: Dict[str, Any]) -> bool:
    return heard.get("error") == 40 and "id" not in heard


class Talk:
    """What one connection says, and what it has to hear in this order."""

    def __init__(self, seed: str, number: int, most: int) -> None:
        self.chance = random.Random(f"{seed} {number}")
        self.number = number
        self.said = b""
        self.wanted: List[Wanted] = []
        self._asked = 0
        # whether what it says has an end of its own
        self.is_whole = True
        for _ in range(self.chance.randrange(1, most)):
            self.chance.choice((self.ask, self.ask, self.ask, self.count, self.relay, self.others, self.cut, self.flipped, self.rubbish, self.long, self.odd))()
        if self.chance.randrange(6) == 0:
            self.tear()

    def word(self) -> str:
        self._asked += 1
        return f"f{self.number}-{self._asked}"

    def say(self, line: bytes, wanted: Wanted) -> None:
        self.said += line
        self.wanted.append(wanted)

    def ask(self) -> None:
        word, number = self.word(), self.chance.randrange(2**62)
        line = echo(number, word)
        if self.chance.randrange(4) == 0:
            # the same written in another way
            members = list(json.loads(line).items())
            self.chance.shuffle(members)
            line = json.dumps(dict(members), indent=self.chance.choice([None, None, 1])).replace("\n", " ").encode() + b"\r\n"[self.chance.randrange(1, 2) :]
        self.say(line, exactly(echoed(number, word)))

    def count(self) -> None:
        """A grain of its own, as long as it talks."""
        grain = f"counter/red:n{self.number % 4_000}"
        self.say(call(1, grain=grain, method="clear"), lambda heard: (heard.get("id"), "ok" in heard) == (1, True))
        for sum_wanted in (1, 2):
            self.say(call(sum_wanted, grain=grain), exactly({"from": "red/web", "id": sum_wanted, "ok": sum_wanted}))

    def relay(self) -> None:
        """What its relay sends is refused, and only it is told so."""
        grain = f"relay/red:n{self.number % 1_000}"
        self.say(call(1, grain=grain, method="join", args={"grain": "counter/blue:a"}), lambda heard: isinstance(heard.get("ok"), bool))
        self.say(call(2, grain=grain, method="send", args={"method": "add", "args": {"by": 1}}), lambda heard: (heard.get("id"), heard.get("ok")) == (2, 1))
        self.wanted.append(is_told)

    def others(self) -> None:
        number, client = self.chance.randrange(2**62), self.chance.choice(["blue/web", "blue/gateway", "nobody/web"])
        line = call(number, client, "counter/blue:a")
        if self.chance.randrange(2):
            # a word more of red's does not help
            line = line.replace(b'"op"', b'"from":"red/web","op"', 1)
        tenant = client.partition("/")[0]
        text = f"tenant red may not call a grain of tenant {tenant}"
        self.say(line, lambda heard: is_unnumbered(heard) or heard == {"error": 40, "from": client, "id": number, "text": text})

    def cut(self) -> None:
        line = echo(1, self.word())
        self.say(line[: self.chance.randrange(1, len(line) - 2)] + b"\n", exactly({"error": 10, "text": UNNUMBERED[10]}))

    def flipped(self) -> None:
        # without a word of its own, which a flip might turn into another's
        line = bytearray(echo(1, "flipped"))
        for _ in range(self.chance.randrange(1, 4)):
            byte = self.chance.randrange(256)
            line[self.chance.randrange(len(line) - 1)] = byte if byte != 10 else 0
        self.say(bytes(line), anything)

    def rubbish(self) -> None:
        data = bytes(self.chance.randrange(256) for _ in range(self.chance.randrange(1, 300))).replace(b"\n", b"").replace(b"{", b"x")
        # an empty line is answered by nothing
        self.say((data or b"x") + b"\n", is_unnumbered)

    def long(self) -> None:
        length = self.chance.choice([65_536, 65_537, 65_538, 200_000, 1_500_000 if self.chance.randrange(20) == 0 else 70_000])
        self.say(b"x" * length + b"\n", coded(10, 11))

    def odd(self) -> None:
        for line in (b'GET / HTTP/1.1', b"\x16\x03\x01\x02\x00\x01", b"fence", b'{"op":"sweep"}', b'{"op":"tick","now":99}', b"[" * 3_000, b"null",
                     b'{"op":"call"}', b'{"op":"enter","tenant":"blue","token":"x"}', echo(2**63, "x").strip(), echo(-1, "x").strip()):  # fmt: skip
            self.say(line + b"\n", lambda heard: is_unnumbered(heard) or "error" in heard and "ok" not in heard)
        # an empty one is answered by nothing
        self.said += b"\n"

    def tear(self) -> None:
        """The last line has no end."""
        self.is_whole = False
        self.said += echo(3, self.word())[: self.chance.randrange(1, 60)] if self.chance.randrange(4) else b"x" * 1_000_000

    def least(self) -> int:
        """How many lines it hears at least: what a grain is told comes behind the answer, and may come too late for who has ended."""
        return len(self.wanted) - (self.wanted[-1:] == [is_told])

    def faults(self, told: bytes) -> List[Any]:
        """What is wrong with what it was told, up to where it stopped to read."""
        lines = told.split(b"\n")
        try:
            heard = [json.loads(line) for line in lines[:-1]]
        except ValueError as fault:
            return [f"it was told what is no line: {fault}"]
        strange = [word for word in WORD.findall(told.decode(errors="replace")) if word.partition("-")[0] != f"f{self.number}"]
        odd = [said for said, wanted in zip(heard, self.wanted) if not wanted(said)]
        return [*strange, *odd, *(["more than was asked"] if len(heard) > len(self.wanted) + (not self.is_whole) else [])]


class Fuzz:
    """Many of them, some at once."""

    def __init__(self, folder: pathlib.Path, seed: str, port: Optional[int]) -> None:
        self._folder, self._seed, self._port = folder, seed, port
        self.wrong: List[Any] = []
        self.whole = self.gone = self.strangers = 0

    async def run(self, count: int, at_once: int) -> None:
        numbers = iter(range(count))

        async def some() -> None:
            for number in numbers:
                try:
                    await asyncio.wait_for(self._one(number), 2 * SECONDS)
                except (asyncio.TimeoutError, AssertionError) as fault:
                    self.wrong.append((number, repr(fault)))

        await asyncio.gather(*(some() for _ in range(at_once)))

    async def _one(self, number: int) -> None:
        chance = random.Random(f"way {self._seed} {number}")
        way = chance.randrange(20)
        if way == 0:
            await self._stranger(chance)
        elif way == 1:
            await self._watcher(chance)
        else:
            await self._talk(chance, Talk(self._seed, number, 40 if chance.randrange(50) == 0 else 5))

    async def _talk(self, chance: random.Random, talk: Talk) -> None:
        reader, writer = await asyncio.open_unix_connection(os.fspath(self._folder / "red.sock"), limit=2**22)
        manner = chance.randrange(8)
        try:
            if manner == 0:
                await slowly(writer, talk.said, chance)
            else:
                writer.write(talk.said)
            if manner == 1:
                # it goes, and reads nothing
                writer.transport.abort()
                self.gone += 1
                return
            if manner == 2:
                # it reads a part, and goes
                told = await reader.readline()
                self._look(talk, told)
                writer.transport.abort()
                self.gone += 1
                return
            if manner == 3 and talk.is_whole:
                # it never says that it has ended
                told = b"".join([await reader.readline() for _ in talk.wanted])
            else:
                writer.write_eof()
                told = await reader.read()
            self._look(talk, told)
            if told.count(b"\n") < talk.least():
                self.wrong.append((talk.number, "not all was answered", told[-300:]))
            self.whole += 1
        except ConnectionError as fault:
            self.wrong.append((talk.number, repr(fault)))
        finally:
            writer.close()

    def _look(self, talk: Talk, told: bytes) -> None:
        self.wrong.extend((talk.number, it) for it in talk.faults(told))

    async def _stranger(self, chance: random.Random) -> None:
        """One by TCP without a token, or one of the sockets that no tenant has."""
        self.strangers += 1
        if self._port is None or chance.randrange(2):
            reader, writer = await asyncio.open_unix_connection(os.fspath(self._folder / "blue.sock"))
            said, wanted = call(1, "red/web"), (40,)
        else:
            reader, writer = await asyncio.open_connection("127.0.0.1", self._port)
            said, wanted = chance.choice([b'{"op":"enter","tenant":"red","token":"0123456789abcdef"}\n', echo(1, "x"), b"\xff" * 9_000 + b"\n"]), (91,)
        try:
            writer.write(said)
            told = await reader.readline()
            if told and json.loads(told).get("error") not in wanted:
                self.wrong.append(("stranger", told))
        except ConnectionError:
            # one that says too much is cut off
            pass
        finally:
            writer.close()

    async def _watcher(self, chance: random.Random) -> None:
        self.strangers += 1
        reader, writer = await asyncio.open_unix_connection(os.fspath(self._folder / "_monitor.sock"))
        try:
            writer.write(chance.choice([b"GET /metrics HTTP/1.1\r\n\r\n", b"GET /" + b"x" * 20_000, b"\x00\r\n\r\n", echo(1, "x"), b"POST /health HTTP/1.1\r\n\r\n"]))
            if chance.randrange(2):
                writer.transport.abort()
                return
            writer.write_eof()
            told = await reader.read()
            if WORD.search(told.decode(errors="replace")):
                self.wrong.append(("watcher", told[:200]))
        except ConnectionError:
            pass
        finally:
            writer.close()


async def slowly(writer: asyncio.StreamWriter, data: bytes, chance: random.Random) -> None:
    """In a few pieces of any length, with pauses."""
    places = sorted(chance.randrange(len(data) + 1) for _ in range(chance.randrange(1, 6)))
    for begin, end in zip([0, *places], [*places, len(data)]):
        writer.write(data[begin:end])
        await writer.drain()
        await asyncio.sleep(chance.random() * 0.02)
