"""A chat with unread counts, as a service of which any number of processes may run: they share one silo by its gateway.

    python3 chat.py unix:/tmp/chat/chat.sock 5001

listens at that port of this machine. Who connects says a name, and then lines: `join ROOM`, `say ROOM TEXT`, `read ROOM`, `unread`.
"""

from __future__ import annotations

import asyncio
import re
import sys
from typing import List, Optional

from silo import SiloEnded, SiloError, SiloTimeout, Value, aio

NAME = re.compile(r"[A-Za-z0-9._-]{1,40}")
HELP = "join ROOM, say ROOM TEXT, read ROOM, unread"
# how many lines of a room are kept
MOST_LINES = 1_000
MOST_BYTES = 2_000


class Lines(aio.Sheet):
    """What was said in a room, by its number."""

    prefix = "lines/"


class Members(aio.Sheet):
    """Who is in a room."""

    prefix = "members/"


class Rooms(aio.Sheet):
    """The rooms of one user."""

    prefix = "rooms/"


class Count(aio.Counter):
    """How many lines were said in a room."""

    prefix = "count/"


class Unread(aio.Sheet):
    """Which lines of a room one user hasn't read, by their numbers."""

    prefix = "unread/"


async def keep(sheet: aio.Sheet, number: int, value: Value) -> None:
    """Puts something of a line there, and drops that of the line that is too old."""
    await asyncio.gather(sheet.put(f"{number:09}", value), sheet.drop(f"{number - MOST_LINES:09}"))
    await sheet.save()


class Chat:
    """What users may ask for. It connects to the gateway anew if that has ended."""

    def __init__(self, gateway: str) -> None:
        self._gateway = gateway
        self._silo: Optional[aio.Silo] = None
        self._connecting = asyncio.Lock()

    async def connect(self) -> aio.Silo:
        async with self._connecting:
            if self._silo is None:
                self._silo = await aio.Silo.connect(self._gateway)
                self._web = self._silo.client("chat/web")
            return self._silo

    async def join(self, room: str, user: str) -> str:
        members, rooms = Members(self._web, room), Rooms(self._web, user)
        await asyncio.gather(members.put(user, True), rooms.put(room, True))
        await asyncio.gather(members.save(), rooms.save())
        return f"{user} is in {room}"

    async def say(self, room: str, user: str, text: str) -> str:
        count, lines = Count(self._web, room), Lines(self._web, room)
        number = await count.add(by=1)
        await keep(lines, number, {"by": user, "text": text})
        await count.save()
        members = await Members(self._web, room).list()
        await asyncio.gather(*(keep(Unread(self._web, f"{room}/{member}"), number, True) for member in members if member != user))
        return f"{number}"

    async def read(self, room: str, user: str) -> str:
        """What others said since the user read last."""
        unread, lines = Unread(self._web, f"{room}/{user}"), Lines(self._web, room)
        numbers = await unread.list()
        said = await asyncio.gather(*(lines.get(number) for number in numbers))
        # what others say meanwhile stays unread
        await asyncio.gather(*(unread.drop(number) for number in numbers))
        await unread.save()
        return "\n".join(f"{line['by']}: {line['text']}" for line in said if line)

    async def unread(self, user: str) -> str:
        rooms = await Rooms(self._web, user).list()
        numbers = await asyncio.gather(*(Unread(self._web, f"{room}/{user}").list() for room in rooms))
        return "\n".join(f"{room}: {len(unread)}" for room, unread in zip(rooms, numbers))

    async def obey(self, user: str, words: List[str]) -> str:
        """What a line of a user is answered."""
        silo = await self.connect()
        try:
            return await self._obey(user, words)
        except SiloEnded:
            if self._silo is silo:
                self._silo = None
            raise

    async def _obey(self, user: str, words: List[str]) -> str:
        if words == ["unread"]:
            return await self.unread(user)
        if len(words) < 2 or not NAME.fullmatch(words[1]):
            return HELP
        if words[0] == "say" and len(words) == 3:
            return await self.say(words[1], user, words[2])
        if words[0] == "join" and len(words) == 2:
            return await self.join(words[1], user)
        return await self.read(words[1], user) if words[0] == "read" and len(words) == 2 else HELP


async def talk(chat: Chat, reader: asyncio.StreamReader, writer: asyncio.StreamWriter) -> None:
    """Answers one who has connected, until they go."""
    try:
        user = (await reader.readline()).decode(errors="replace").strip()
        while NAME.fullmatch(user) and (line := await reader.readline()):
            try:
                told = await chat.obey(user, line.decode(errors="replace").strip().split(" ", 2))
            except (SiloError, SiloTimeout, SiloEnded) as fault:
                told = f"this may or may not be done: {fault}"
            except OSError:
                told = "nothing is done: the gateway isn't there"
            writer.write(f"{told or '-'}\n".encode())
            await writer.drain()
    except (ConnectionError, ValueError):
        # they went away, or said a line that is too long
        pass
    finally:
        writer.close()


async def main(gateway: str, port: int) -> None:
    chat = Chat(gateway)
    await chat.connect()
    server = await asyncio.start_server(lambda reader, writer: talk(chat, reader, writer), "127.0.0.1", port, limit=MOST_BYTES)
    print(f"listens at port {server.sockets[0].getsockname()[1]}", flush=True)
    async with server:
        await server.serve_forever()


if __name__ == "__main__":
    if len(sys.argv) != 3:
        sys.exit("usage: chat.py unix:PATH PORT")
    try:
        asyncio.run(main(sys.argv[1], int(sys.argv[2])))
    except KeyboardInterrupt:
        pass
