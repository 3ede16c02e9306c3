"""The gateway: who may ask what, who is told what, and how it ends."""

from __future__ import annotations

import contextlib
import grp
import io
import json
import os
import pathlib
import signal
import socket
import stat
import subprocess
import sys
import tempfile
import time
import unittest

from silo.gateway.options import read_options

from . import beside
from .beside import CLIENT, settled
from .gateways import Gateway, Gateways, Room, Wire, call, echo, echoed, soon

FENCE_TOLD = {"error": 10, "text": "line is not a request"}


class One(Gateways):
    """Tests that share a gateway: each uses grains of its own."""

    shared: Gateway

    @classmethod
    def setUpClass(cls) -> None:
        cls.shared = cls.shares("--tick", "0.2", "--sweep", "0.2", further=["--age", "86400000"])

    def red(self, name: str = "red") -> Wire:
        return self.wire(self.shared, name)


class Lines(One):
    def test_two_connections_of_one_client_with_the_same_numbers(self) -> None:
        wires = [self.red() for _ in range(3)]
        for number in range(20):
            for index, wire in enumerate(wires):
                wire.say(echo(number, f"w{index}"))
        for index, wire in enumerate(wires):
            self.assertEqual([wire.hear() for _ in range(20)], [echoed(number, f"w{index}") for number in range(20)])

    def test_each_line_is_answered_in_its_place(self) -> None:
        wire = self.red()
        long = b'{"op":"call","from":"red/web","id":1,"x":"' + b"x" * 65_536 + b'"}\n'
        others = b"fence\n" + call(2, "blue/web") + long + b'\n{"op":"sweep"}\n{"op":"begin"}\n'
        wire.say(call(1, grain="counter/red:place") + others + call(3, grain="counter/red:place"))
        told = [wire.hear() for _ in range(7)]
        self.assertEqual(told[0], {"from": "red/web", "id": 1, "ok": 1})
        self.assertEqual(told[1], FENCE_TOLD)
        self.assertEqual(told[2], {"error": 40, "from": "blue/web", "id": 2, "text": "tenant red may not call a grain of tenant blue"})
        self.assertEqual(told[3:6], [{"error": 11, "text": "line is too long"}, {"text": "not now"}, FENCE_TOLD])
        self.assertEqual(told[6], {"from": "red/web", "id": 3, "ok": 2})

    def test_who_asks_is_read_as_the_silo_reads_it(self) -> None:
        wire = self.red()
        others = (b'"from":"blue/web"', b'"\\u0066rom":"blue/web"', b'"fro\\u006d":"bl\\u0075e/web"', b' "from" :\t"blue/web"')
        for other in others:
            said = wire.ask(b'{"op":"status","from":"red/web","id":1,' + other + b"}\n")
            self.assertEqual((said.get("error"), said.get("from")), (40, "blue/web"), other)
        own = wire.ask(b'{"op":"status","from":"blue/web","from":"red/web","id":5,"id":6}\n')
        self.assertEqual((own["id"], sorted(own["ok"])), (6, ["activations", "clock", "requests"]))
        for odd in (
            b'{"op":"status","from":"red","id":1}', b'{"op":"status","from":"red/web","id":-1}', b'{"op":"status","id":1}', b"[1]", b"{}", b"\xff",
            b'{"op":"status","from":"red/web","id":1} x', b'{"op":"status","from":"red/web","id":01}', b'{"op":"stop","from":"red/web","id":1}',
            b'\xef\xbb\xbf{"op":"status","from":"red/web","id":1}', b"[" * 60_000, b'{"op":"call","from":"red/web","id":1,"grain":"a",}',
        ):  # fmt: skip
            self.assertEqual(wire.ask(odd + b"\n"), FENCE_TOLD, odd[:80])

    def test_what_the_silo_refuses_keeps_its_number(self) -> None:
        wire = self.red()
        deep = "[" * 40 + "]" * 40
        own = '{"id":1,"from":"blue/web"}'
        for args, code in (("1.5", 13), ("-0", 13), ("1e3", 13), (str(2**64), 13), (deep, 12), ('{"$hex":"0"}', 14), (own, 61)):
            line = f'{{"op":"call","from":"red/web","id":9,"grain":"counter/red:a","method":"add","args":{args}}}\n'
            said = wire.ask(line.encode())
            self.assertEqual((said["error"], said["id"], said["from"]), (code, 9, "red/web"), args)

    def test_numbers_and_lines_at_their_limits(self) -> None:
        wire = self.red()
        for number in (0, 2**63 - 1, 10**18):
            self.assertEqual(wire.ask(echo(number, "limit")), echoed(number, "limit"))
        head, tail = b'{"op":"call","from":"red/web","id":0,"grain":"sheet/red:long","method":"put","args":{"name":"k","value":"', b'"}}'
        whole = head + b"x" * (65_536 - len(head) - len(tail)) + tail
        said = wire.ask(whole + b"\n")
        self.assertEqual((said["id"], said.get("ok", said.get("error"))), (0, None))
        self.assertEqual(wire.ask(whole + b" \n"), {"error": 11, "text": "line is too long"})

    def test_bytes_one_by_one(self) -> None:
        wire = self.red()
        for byte in echo(7, "slow"):
            wire.say(bytes([byte]))
        self.assertEqual(wire.hear(), echoed(7, "slow"))

    def test_a_half_that_is_closed(self) -> None:
        wire = self.red()
        wire.say(b"".join(echo(number, "half") for number in range(200)) + echo(200, "half")[:-1])
        wire.end()
        self.assertEqual(wire.heard(), [echoed(number, "half") for number in range(201)])

    def test_nothing_said(self) -> None:
        wire = self.red()
        wire.end()
        self.assertEqual(wire.rest(), b"")

    def test_what_grains_are_told(self) -> None:
        wires = [self.red(), self.red()]
        join = call(1, grain="relay/red:told", method="join", args={"grain": "counter/blue:x"})
        send = call(2, grain="relay/red:told", method="send", args={"method": "get", "args": None})
        wires[0].ask(join)
        wires[0].say(send + b"fence\n")
        told = {"error": 40, "from": "relay/red:told", "text": "tenant red may not call a grain of tenant blue"}
        self.assertEqual([wires[0].hear() for _ in range(3)], [{"from": "red/web", "id": 2, "ok": 1}, told, FENCE_TOLD])
        self.assertEqual(wires[1].ask(b"fence\n"), FENCE_TOLD)

    def test_what_was_read_is_asked_though_nobody_waits(self) -> None:
        wire = self.red()
        wire.say(b"".join(call(number, grain="counter/red:gone") for number in range(300)))
        wire.close()
        other = self.red()
        soon(lambda: other.ask(call(1, grain="counter/red:gone", method="get"))["ok"] == 300)


class Operator(One):
    def test_asks_for_any_tenant_and_sets_the_clock(self) -> None:
        wire = self.red("_operator")
        self.assertEqual(wire.ask(echo(1, "op")), echoed(1, "op"))
        self.assertEqual(wire.ask(echo(1, "op", "blue/web")), echoed(1, "op", "blue/web"))
        wire.say(b'{"op":"tick","now":1}\nfence\n{"op":"sweep"}\nfence\n')
        self.assertEqual([wire.hear() for _ in range(3)], [{"text": "not now"}, FENCE_TOLD, FENCE_TOLD])

    def test_the_gateway_sets_the_clock(self) -> None:
        wire = self.red()

        def clock() -> int:
            told: int = wire.ask(b'{"op":"status","from":"red/web","id":1}\n')["ok"]["clock"]
            return told

        begun = clock()
        self.assertLess(abs(begun - time.time() * 1000), 60_000)
        soon(lambda: clock() > begun)

    def test_figures(self) -> None:
        self.red("blue").ask(echo(1, "figure", "blue/web"))
        self.red("blue").ask(echo(1, "figure"))
        soon(lambda: 'silo_status_requests{tenant="blue"}' in self.shared.page("/metrics"))
        page = self.shared.page("/metrics")
        self.assertTrue(page.startswith("HTTP/1.1 200 OK\r\n"))
        for name in ("silo_requests_total", "silo_latency_seconds_count"):
            self.assertGreaterEqual(self.shared.figure(f'{name}{{tenant="blue"}}'), 1)
        requests, refusals = (self.shared.figure(name) for name in ('silo_requests_total{tenant="blue"}', 'silo_refusals_total{tenant="blue",code="22"}'))
        self.assertEqual(requests, refusals)
        self.assertGreaterEqual(self.shared.figure('silo_refusals_total{tenant="blue",code="40"}'), 1)
        self.assertEqual([self.shared.figure(name) for name in ("silo_up", "silo_starts_total")], [1, 1])
        self.assertGreaterEqual(self.shared.figure('silo_status_requests{tenant="blue"}'), 0)
        self.assertGreater(self.shared.figure("silo_ticks_total"), 0)
        for line in page.partition("\r\n\r\n")[2].splitlines():
            self.assertRegex(line, r'^(# (HELP|TYPE) [a-z_]+ .+|[a-z_]+(\{[a-z]+="[^"]*"(,[a-z]+="[^"]*")*\})? -?[0-9.e+]+)$')

    def test_health(self) -> None:
        self.assertTrue(self.shared.page("/health").endswith("\r\n\r\nok\n"))
        self.assertTrue(self.shared.page("/other").startswith("HTTP/1.1 404 "))
        post, head = (b"%b /health HTTP/1.1\r\n\r\n" % method for method in (b"POST", b"HEAD"))
        for said, status in ((post, b"405"), (b"what\n\n", b"400"), (b"x" * 10_000, b"400"), (head, b"200")):
            wire = self.red("_monitor")
            wire.say(said)
            self.assertEqual(wire.rest().split()[1], status)

    def test_sockets_and_their_rights(self) -> None:
        found = {path.name: stat.S_IMODE(path.stat().st_mode) for path in self.shared.folder.glob("*.sock")}
        self.assertEqual(found, {f"{name}.sock": 0o660 for name in ("red", "blue", "_operator", "_monitor")})

    def test_a_second_gateway_in_the_folder(self) -> None:
        words = [sys.executable, "-m", "silo.gateway", "--program", beside.program, os.fspath(self.shared.folder), "red:1:1"]
        ran = subprocess.run(words, cwd=CLIENT, capture_output=True, check=False)
        self.assertEqual((ran.returncode, ran.stdout), (1, b""))
        self.assertIn(b"another gateway listens", ran.stderr)
        self.assertEqual(self.red().ask(echo(1, "still")), echoed(1, "still"))


class Groups(Gateways):
    def test_of_sockets(self) -> None:
        if os.geteuid() != 0 or not {"daemon", "bin"} <= {group.gr_name for group in grp.getgrall()}:
            self.skipTest("only root may give a socket to any group, and these have to be there: daemon, bin")
        gateway = self.gateway("--groups", "", tenants=["daemon:1:1", "bin:1:1"])
        for name, group in (("daemon", grp.getgrnam("daemon").gr_gid), ("bin", grp.getgrnam("bin").gr_gid), ("_operator", os.getegid())):
            found = (gateway.folder / f"{name}.sock").stat()
            self.assertEqual((stat.S_IMODE(found.st_mode), found.st_gid), (0o660, group))

    def test_that_are_not_there(self) -> None:
        gateway = Gateway("--groups", "no-such-group-")
        self.addCleanup(gateway.close)
        self.assertEqual(gateway.process.wait(beside.SECONDS), 1)
        self.assertIn("there is no group no-such-group-red", gateway.told())


class Periods(Gateways):
    def test_idle_grains_are_let_go(self) -> None:
        gateway = self.gateway("--tick", "0.1", "--sweep", "0.1", further=["--age", "1"])
        wire = self.wire(gateway)
        self.assertEqual(wire.ask(call(1))["ok"], 1)
        soon(lambda: wire.ask(b'{"op":"status","from":"red/web","id":1}\n')["ok"]["activations"] == 0)
        # it wasn't saved
        self.assertEqual(wire.ask(call(2))["ok"], 1)
        soon(lambda: gateway.figure("silo_sweeps_total") > 0 and gateway.figure('silo_status_requests{tenant="red"}') == 2)

    def test_neither_ticks_nor_sweeps(self) -> None:
        gateway = self.gateway("--tick", "0", "--sweep", "0")
        self.assertEqual(self.wire(gateway).ask(b'{"op":"status","from":"red/web","id":1}\n')["ok"]["clock"], 0)
        self.assertEqual(gateway.figure("silo_ticks_total"), 0)

    def test_figures_of_the_data(self) -> None:
        with Room() as folder:
            pathlib.Path(folder, "log").write_bytes(b"12345")
            gateway = self.gateway("--data", folder, program=self.stub("while read(): pass"))
            self.assertEqual(gateway.figure('silo_data_bytes{file="log"}'), 5)
            self.assertGreater(gateway.figure("silo_resident_bytes"), 0)
            gateway.close()


class Tokens(Gateways):
    held: Gateway
    tokens: pathlib.Path
    port: int

    @classmethod
    def setUpClass(cls) -> None:
        folder = tempfile.TemporaryDirectory()
        cls.addClassCleanup(folder.cleanup)
        cls.tokens = pathlib.Path(folder.name)
        cls.held = cls.shares("--tcp", "0", "--tokens", folder.name, "--monitor-tcp", "0", "--most-connections", "6")
        cls.port = int(cls.held.told().partition("let in at 127.0.0.1:")[2].split()[0])

    def setUp(self) -> None:
        (self.tokens / "red.token").write_text("a token of red's own\n")
        (self.tokens / "blue.token").write_text("short")
        # connections of the test before are gone
        soon(lambda: self.held.figure('silo_connections{tenant="red"}') == 0)

    def enter(self, line: bytes) -> Wire:
        wire = Wire.__new__(Wire)
        wire.socket = socket.create_connection(("127.0.0.1", self.port), beside.SECONDS)
        wire._lines = wire.socket.makefile("rb")
        self.addCleanup(wire.close)
        wire.say(line)
        return wire

    def test_who_has_one_is_let_in(self) -> None:
        said = json.dumps({"op": "enter", "tenant": "red", "token": "a token of red's own"}).encode()
        wire = self.enter(said + b"\n" + echo(1, "tcp") + echo(2, "tcp", "blue/web"))
        self.assertEqual([wire.hear(), wire.hear()], [{"ok": "red"}, echoed(1, "tcp")])
        self.assertEqual(wire.hear()["error"], 40)
        wire.end()
        self.assertIsNone(wire.hear())

    def test_who_has_none_is_not(self) -> None:
        before = self.held.figure("silo_refused_tokens_total")
        own = "a token of red's own"
        for tenant, token in (("red", own[:-1]), ("red", ""), ("blue", "short"), ("blue", own), ("../red", own), ("", ""), ("_operator", own)):
            wire = self.enter(json.dumps({"op": "enter", "tenant": tenant, "token": token}).encode() + b"\n" + echo(1, "tcp"))
            self.assertEqual(wire.heard(), [{"error": 91, "text": "token is refused"}])
        for said in (echo(1, "tcp"), b"\n", b"{}\n", b"[" * 5_000 + b"\n", b"x" * 9_000, b'{"op":"enter","tenant":1,"token":2}\n'):
            self.assertEqual(self.enter(said).heard(), [{"error": 91, "text": "token is refused"}])
        self.assertEqual(self.held.figure("silo_refused_tokens_total") - before, 13)

    def test_a_token_that_was_changed(self) -> None:
        (self.tokens / "red.token").write_text("another token of red's own")
        for token, is_let_in in (("a token of red's own", False), ("another token of red's own", True)):
            wire = self.enter(json.dumps({"op": "enter", "tenant": "red", "token": token}).encode() + b"\n")
            self.assertEqual("ok" in wire.hear(), is_let_in)

    def test_only_so_many_connections(self) -> None:
        wires = [self.wire(self.held) for _ in range(6)]
        self.assertEqual(wires[5].ask(echo(1, "room")), echoed(1, "room"))
        self.assertEqual(self.wire(self.held).heard(), [{"error": 92, "text": "gateway has no free connection"}])
        self.assertEqual(self.held.figure("silo_refused_connections_total"), 1)
        for name in ("blue", "_operator"):
            self.assertEqual(self.wire(self.held, name).ask(echo(1, "room", "blue/web")), echoed(1, "room", "blue/web"))
        wires[0].close()
        soon(lambda: settled(lambda: self.wire(self.held).ask(echo(1, "room"))) == echoed(1, "room"))

    def test_who_is_refused_is_cut_off(self) -> None:
        gateway = self.gateway("--most-connections", "1")
        held = self.wire(gateway)
        self.assertEqual(held.ask(echo(1, "room")), echoed(1, "room"))
        refused = [self.wire(gateway) for _ in range(70)]
        for wire in refused:
            # it says something before it reads, and stays
            with contextlib.suppress(BrokenPipeError):
                wire.say(echo(1, "room"))
        self.assertEqual([wire.hear()["error"] for wire in refused], [92] * 70)
        soon(lambda: isinstance(settled(lambda: refused[0].say(echo(2, "room"))), BrokenPipeError))
        refused.append(self.wire(gateway))
        self.assertEqual((refused[-1].hear()["error"], gateway.end()), (92, 0))


class Ends(Gateways):
    def ends(self, number: int) -> None:
        gateway = self.gateway()
        wires = [self.wire(gateway) for _ in range(4)]
        for index, wire in enumerate(wires):
            wire.say(b"".join(echo(number, f"end{index}") for number in range(100)))
        self.assertEqual(gateway.end(number), 0)
        for index, wire in enumerate(wires):
            self.assertEqual(wire.heard(), [echoed(number, f"end{index}") for number in range(100)])
        self.assertEqual([path.name for path in gateway.folder.glob("*.sock")], [])
        self.assertIn(f"asked to end, by {signal.Signals(number).name}", gateway.told())
        self.assertIn("the program ended with status 0", gateway.told())

    def test_in_order_by_each_signal(self) -> None:
        for number in (signal.SIGTERM, signal.SIGINT):
            with self.subTest(number):
                self.ends(number)

    def test_though_somebody_reads_no_reply(self) -> None:
        gateway = self.gateway("--grace", "0.5")
        wire = self.wire(gateway)
        wire.ask(call(1, grain="sheet/red:s", method="put", args={"name": "k", "value": "x" * 60_000}))
        wire.say(b"".join(call(number, grain="sheet/red:s", method="get", args={"name": "k"}) for number in range(100)))
        self.assertEqual(gateway.end(), 1)
        self.assertIn("lines were read and are not answered", gateway.told())

    def test_twice(self) -> None:
        gateway = self.gateway(program=self.stub("while read(): pass"))
        self.wire(gateway).say(echo(1, "x"))
        soon(lambda: gateway.figure('silo_under_way{tenant="red"}') == 1)
        gateway.process.send_signal(signal.SIGTERM)
        gateway.wait_for("is asked to end")
        self.assertNotEqual(gateway.end(), 0)

    def test_by_words_that_are_refused(self) -> None:
        for words in (["red"], ["red:1:1", "red:1:1"], ["--tcp", "0", "red:1:1"], ["--tick", "x", "red:1:1"], ["--grace", "-1", "red:1:1"], ["--data", "/no/where/data", "red:1:1"], []):
            with self.subTest(words), contextlib.redirect_stderr(io.StringIO()), self.assertRaises(SystemExit) as found:
                read_options(["folder", *words])
            self.assertEqual(found.exception.code, 2)

    def test_by_a_log_that_is_refused(self) -> None:
        with Room() as folder:
            pathlib.Path(folder, "log").write_bytes(b"what")
            gateway = Gateway("--data", folder)
            self.addCleanup(gateway.close)
            self.assertEqual(gateway.process.wait(beside.SECONDS), 4)
            self.assertIn("log line 1 is refused", gateway.told())

    def test_by_a_program_that_cant_be_started(self) -> None:
        for program, further, told in ((beside.program, ["--ages", "what"], "ages are refused"), ("/nowhere/silo", [], "can't be started")):
            gateway = Gateway(program=program, further=further)
            self.addCleanup(gateway.close)
            self.assertEqual(gateway.process.wait(beside.SECONDS), 2)
            self.assertIn(told, gateway.told())

    def test_words_for_the_program(self) -> None:
        options = read_options(["--program", "p", "--data", "d", "folder", "red:1:1", "--", "--sends", "3", "--no-sync"])
        self.assertEqual((options.command, options.data), (["p", "answer", "--data", "d", "--sends", "3", "--no-sync", "--", "red:1:1"], pathlib.Path("d")))


if __name__ == "__main__":
    unittest.main()
