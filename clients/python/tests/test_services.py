"""The services of examples/services, each beside a gateway."""

from __future__ import annotations

import os
import re
import socket
import subprocess
import sys
from typing import IO, List

from silo import Counter, Sheet, Silo

from .beside import CLIENT, ROOT, SECONDS
from .gateways import Gateway, Gateways, Room

FOLDER = ROOT / "examples" / "services"


class Service:
    """A service that runs, and the port at which it listens."""

    def __init__(self, gateway: Gateway) -> None:
        words = [sys.executable, "-W", "error", os.fspath(FOLDER / "chat.py"), gateway.address("chat"), "0"]
        self.process = subprocess.Popen(words, env={**os.environ, "PYTHONPATH": os.fspath(CLIENT)}, stdout=subprocess.PIPE)
        assert self.process.stdout is not None
        with self.process.stdout as told:
            self.port = int(told.readline().split()[-1])

    def kill(self) -> None:
        self.process.kill()
        self.process.wait()


class Chat(Gateways):
    def service(self, gateway: Gateway) -> Service:
        service = Service(gateway)
        self.addCleanup(service.kill)
        return service

    def user(self, service: Service, name: str) -> IO[bytes]:
        carried = socket.create_connection(("127.0.0.1", service.port), SECONDS)
        self.addCleanup(carried.close)
        lines = carried.makefile("rwb", buffering=0)
        self.addCleanup(lines.close)
        lines.write(name.encode() + b"\n")
        return lines

    def told(self, user: IO[bytes], *lines: str) -> List[str]:
        found = []
        for line in lines:
            user.write(line.encode() + b"\n")
            found.append(user.readline().decode().rstrip())
        return found

    def test_unread_counts(self) -> None:
        gateway = self.gateway(tenants=["chat:10000:4"])
        services = [self.service(gateway) for _ in range(2)]
        ann, bob = self.user(services[0], "ann"), self.user(services[1], "bob")
        self.assertEqual(self.told(ann, "join lobby", "unread"), ["ann is in lobby", "lobby: 0"])
        self.assertEqual(self.told(bob, "join lobby"), ["bob is in lobby"])
        self.assertEqual(self.told(ann, "say lobby hello, bob", "say lobby two  words"), ["1", "2"])
        self.assertEqual(self.told(bob, "unread", "read lobby"), ["lobby: 2", "ann: hello, bob"])
        self.assertEqual(bob.readline(), b"ann: two  words\n")
        self.assertEqual(self.told(bob, "unread", "read lobby", "what", "say", "read a/b"), ["lobby: 0", "-", *3 * ["join ROOM, say ROOM TEXT, read ROOM, unread"]])
        # one process more or less is nothing that anybody sees
        services[0].kill()
        self.assertEqual(self.told(bob, "say lobby are you there?"), ["3"])
        ann = self.user(self.service(gateway), "ann")
        self.assertEqual(self.told(ann, "unread", "read lobby", "say lobby yes"), ["lobby: 1", "bob: are you there?", "4"])
        # one's own lines are neither counted nor read
        self.assertEqual(self.told(bob, "say lobby good", "unread", "read lobby", "unread"), ["5", "lobby: 1", "ann: yes", "lobby: 0"])

    def test_the_page_says_what_is_told(self) -> None:
        page = (FOLDER / "README.md").read_text(encoding="utf-8")
        rows = [re.findall(r"\| (?:`([^`]*)`|([^|`]*)) ", row) for row in page.splitlines() if row.startswith("| `")]
        gateway = self.gateway(tenants=["chat:10000:4"])
        service = self.service(gateway)
        users = [self.user(service, name) for name in ("ann", "bob")]
        for ann, ann_told, bob, bob_told in rows[1:]:
            self.assertEqual(self.told(users[0], ann[0]), [ann_told[1]])
            self.assertEqual(self.told(users[1], bob[0]), [bob_told[1]])
        self.assertEqual(len(rows), 4)

    def test_a_line_that_was_not_said_to_the_end_hides_none(self) -> None:
        gateway = self.gateway(tenants=["chat:10000:4"])
        service = self.service(gateway)
        ann, bob = self.user(service, "ann"), self.user(service, "bob")
        self.assertEqual(self.told(bob, "join lobby"), ["bob is in lobby"])
        self.assertEqual(self.told(ann, "say lobby one"), ["1"])
        # a process that ended between two turns left this
        with Silo.connect(gateway.address("chat")) as silo:
            web = silo.client("chat/web")
            Counter(web, "count/lobby").add(by=1)
            Sheet(web, "lines/lobby").put("000000002", {"by": "ann", "text": "two"})
        self.assertEqual(self.told(bob, "unread", "read lobby", "unread"), ["lobby: 1", "ann: one", "lobby: 0"])

    def test_the_program_may_end(self) -> None:
        with Room() as folder:
            gateway = self.gateway("--data", f"{folder}/data", tenants=["chat:10000:4"])
            service = self.service(gateway)
            ann, bob = self.user(service, "ann"), self.user(service, "bob")
            self.assertEqual(self.told(ann, "join lobby"), ["ann is in lobby"])
            self.assertEqual(self.told(bob, "join lobby", "say lobby hello"), ["bob is in lobby", "1"])
            gateway.kill_program()
            self.assertEqual(self.told(ann, "unread", "read lobby", "say lobby yes"), ["lobby: 1", "bob: hello", "2"])
            # the folder may go once nobody writes to it
            self.assertEqual(gateway.end(), 0)
