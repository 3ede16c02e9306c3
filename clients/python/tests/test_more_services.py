"""The services of examples/services beside the chat, each as its page says, and by several at once."""

from __future__ import annotations

import json
import os
import re
import shlex
import subprocess
import sys
import threading
import time
import urllib.error
import urllib.request
from typing import Any, List, Tuple
from unittest import mock

from .beside import CLIENT, ROOT, SECONDS
from .gateways import Gateways

FOLDER = ROOT / "examples" / "services"
PAGE = (FOLDER / "README.md").read_text(encoding="utf-8")
ENVIRONMENT = {**os.environ, "PYTHONPATH": os.fspath(CLIENT)}


def started(*words: str) -> Tuple[subprocess.Popen[bytes], int]:
    """A service, and the port at which it listens."""
    process = subprocess.Popen([sys.executable, "-W", "error", *words], env=ENVIRONMENT, stdout=subprocess.PIPE)
    assert process.stdout is not None
    with process.stdout as told:
        return process, int(told.readline().split()[-1])


def asked(port: int, method: str, path: str, body: str = "") -> Tuple[int, Any]:
    request = urllib.request.Request(f"http://127.0.0.1:{port}/{path}", body.encode() or None, method=method)
    try:
        with urllib.request.urlopen(request, timeout=SECONDS) as told:
            return told.status, json.load(told)
    except urllib.error.HTTPError as fault:
        with fault:
            return fault.code, json.load(fault)


def rows_of(heading: str) -> List[Tuple[List[str], str]]:
    """The commands of a part of the page, and what each prints."""
    part = re.split(r"^## ", PAGE, flags=re.M)
    [section] = [it for it in part if it.startswith(f"{heading}\n")]
    return [(shlex.split(command), told) for command, told in re.findall(r"^    \$ (.*)\n    (.*)$", section, re.M)]


class Services(Gateways):
    def setUp(self) -> None:
        self.at = self.gateway(tenants=["limits:1000:4", "shop:1000:4", "devices:1000:4", "feed:1000:4"])

    def service(self, name: str, tenant: str, *words: str) -> int:
        process, port = started(os.fspath(FOLDER / name), self.at.address(tenant), "0", *words)
        self.addCleanup(process.wait)
        self.addCleanup(process.kill)
        return port

    def as_the_page_says(self, heading: str, port: int) -> List[Any]:
        """Does what a part of the page shows, and gives what was answered where the page says otherwise."""
        rows, odd = rows_of(heading), []
        self.assertGreater(len(rows), 3)
        for (curl, *options, address), told in rows:
            self.assertEqual(curl, "curl")
            body = options[options.index("-d") + 1] if "-d" in options else ""
            method = options[options.index("-X") + 1] if "-X" in options else "POST" if body else "GET"
            status, value = asked(port, method, address.partition("/")[2], body)
            if (status, value) != (200, json.loads(told)):
                odd.append((status, value))
        return odd

    def at_once(self, count: int, run: Any) -> List[Any]:
        found: List[Any] = []
        threads = [threading.Thread(target=lambda number=number: found.append(run(number))) for number in range(count)]
        for thread in threads:
            thread.start()
        for thread in threads:
            thread.join()
        return found


class Limits(Services):
    def test_as_the_page_says(self) -> None:
        port = self.service("limits.py", "limits", "2")
        if time.time() % 60 > 55:
            # the page's minute has to be one minute
            time.sleep(6)
        [(status, told)] = self.as_the_page_says("Rate limits", port)
        self.assertEqual((status, *told), (429, "seconds"))
        self.assertIn(told["seconds"], range(1, 61))

    def test_by_two_processes(self) -> None:
        ports = [self.service("limits.py", "limits", "10") for _ in range(2)]
        minute = time.time() // 60
        found = self.at_once(20, lambda number: asked(ports[number % 2], "GET", "allowed/k")[0])
        if time.time() // 60 == minute:
            self.assertEqual((found.count(200), found.count(429)), (10, 10))
        self.assertEqual(asked(ports[0], "GET", "allowed")[0], 404)
        self.assertEqual(asked(ports[0], "GET", "allowed/%20")[0], 400)

    def test_a_gateway_that_is_killed(self) -> None:
        port = self.service("limits.py", "limits", "1000")
        self.assertEqual(asked(port, "GET", "allowed/k")[0], 200)
        self.at.process.kill()
        self.at.process.wait()
        self.assertEqual([asked(port, "GET", "allowed/k")[0] for _ in range(2)], [503, 503])
        self.gateway(tenants=["limits:1000:4"], folder=self.at.folder)
        self.assertEqual([asked(port, "GET", "allowed/k")[0] for _ in range(2)], [503, 200])


class Carts(Services):
    def test_as_the_page_says(self) -> None:
        self.assertEqual(self.as_the_page_says("Carts", self.service("carts.py", "shop")), [])

    def test_orders_at_once(self) -> None:
        ports = [self.service("carts.py", "shop") for _ in range(2)]
        for number in range(8):
            asked(ports[0], "POST", "carts/ann", json.dumps({"id": f"e{number}", "item": "tea", "count": 1}))
        # four requests for each of two orders
        found = self.at_once(8, lambda number: asked(ports[number % 2], "POST", "carts/ann/order", json.dumps({"id": f"o{number % 2}"})))
        self.assertEqual({status for status, _ in found}, {200})
        sums = [asked(ports[0], "GET", f"orders/o{number}")[1].get("tea", 0) for number in range(2)]
        self.assertEqual((sum(sums), asked(ports[1], "GET", "carts/ann")), (8, (200, {})))

    def test_odd_requests(self) -> None:
        port = self.service("carts.py", "shop")
        for body in ("", "x", "[]", '{"item": "tea", "count": 1}', '{"id": "a", "item": 1, "count": 1}', '{"id": "a", "item": "tea", "count": 1.5}'):
            self.assertEqual(asked(port, "POST", "carts/ann", body)[0], 400, body)
        self.assertEqual(asked(port, "POST", "carts/ann", "x" * 40_000)[0], 413)
        self.assertEqual([asked(port, "GET", path)[0] for path in ("", "carts", "orders", "what/ann")], [404] * 4)


class Devices(Services):
    def test_as_the_page_says(self) -> None:
        self.assertEqual(self.as_the_page_says("Devices", self.service("devices.py", "devices")), [])

    def test_many_devices(self) -> None:
        port = self.service("devices.py", "devices")
        found = self.at_once(40, lambda number: asked(port, "PUT", f"devices/d{number:02}/read/x", f"{number}"))
        self.assertEqual(found, [(200, {})] * 40)
        self.assertEqual(asked(port, "GET", "silent/-10"), (200, [f"d{number:02}" for number in range(40)]))
        self.assertEqual(asked(port, "GET", "devices/d07"), (200, {"read": {"x": 7}, "want": {}}))
        self.assertEqual([asked(port, "PUT", "devices/d/read/x", body)[0] for body in ("1.5", "x", "")], [400] * 3)


class Feed(Services):
    def feed(self, *words: str) -> str:
        command = [sys.executable, "-W", "error", os.fspath(FOLDER / "feed.py"), self.at.address("feed"), *words]
        ran = subprocess.run(command, env=ENVIRONMENT, capture_output=True, text=True, check=False, timeout=SECONDS)
        return ran.stdout.rstrip("\n") + ran.stderr

    def test_as_the_page_says(self) -> None:
        rows = rows_of("Fan-out")
        self.assertEqual([self.feed(*words[3:]) for words, _ in rows], [told for _, told in rows])
        self.assertEqual(len(rows), 4)

    def test_a_tree(self) -> None:
        sys.path.insert(0, os.fspath(FOLDER))
        self.addCleanup(sys.path.remove, os.fspath(FOLDER))
        import feed
        from silo import Silo

        # of fewer leaves, since each follower takes a dozen calls
        small = mock.patch.multiple(feed, DEPTH=3, FOLLOWERS=feed.MEMBERS**3)
        with small, Silo.connect(self.at.address("feed"), timeout=SECONDS) as silo:
            it = feed.Feed(silo.client("feed/web"))
            # two trees
            for number in range(feed.FOLLOWERS + 3):
                it.follow(f"u{number}", "ann")
            self.assertEqual(it.follow("u1", "ann"), "u1 follows ann")
            self.assertEqual((it.leave("u2", "ann"), it.leave("u2", "ann")), ("u2 doesn't follow ann any more", "u2 doesn't follow ann"))
            posts = [it.post("ann", f"post {number}") for number in range(1, feed.KEPT + 2)]
            self.assertEqual(posts[-1], f"{feed.KEPT + 1}")
            found = {number: it.read(f"u{number}").splitlines() for number in (0, 1, 2, 20, 63, 64, 66)}
            wanted = sorted(f"ann {number}: post {number}" for number in range(2, feed.KEPT + 2))
            self.assertEqual({number: sorted(told) for number, told in found.items()}, {**dict.fromkeys(found, wanted), 2: []})
        self.assertRegex(self.feed("what"), "^usage: ")
