"""Each way in which a silo can end, or stop to answer: all that wait are told, and nobody hangs."""

from __future__ import annotations

import os
import pathlib
import subprocess
import sys
import tempfile
import threading
import time
from typing import Any, List
from unittest import mock

from silo import Silo, SiloEnded, SiloTimeout

from . import beside
from .beside import COUNTER, SECONDS, WEB, Case, settled, stop

# replies to the first request of red/web, or to a fence, that no silo gives
STRANGE = (
    b"not json", b"[1]", b"1", b"{}", b'{"from":"red/web","id":"1","ok":1}', b'{"from":"red/web","id":true,"ok":1}', b'{"from":"red/web","id":1.0,"ok":1}',
    b'{"from":"red/web","id":null,"ok":1}', b'{"from":"red/web","id":1}', b'{"from":"red/web","id":1,"error":"x","text":"y"}',
    b'{"from":"red/web","id":1,"error":1,"text":2}', b'{"from":"red/web","id":2,"ok":1}', b'{"from":["red/web"],"id":1,"ok":1}', b'{"from":7,"ok":1}',
    b'{"id":1,"ok":1}', b'{"error":10,"text":"line is not a request"}', b'{"text":"later"}', b'{"from":"red/web","id":1,"ok":1} x', b"\xff", b"",
    b'{"from":"red/web","id":1,"ok":"\xc3"}', b'{"from":"red/web","id":1,"ok":{"$hex":"0"}}', b"DEEP",
)  # fmt: skip

# a program that says the one of them whose number is its `--sends`, and one that is nested too deep for Python
SAY_STRANGE = f"""said = {STRANGE!r}[int(sys.argv[3])]
read()
write(said.replace(b"DEEP", b"[" * 30_000 + b"]" * 30_000) + b"\\n")
read()
time.sleep(600)"""


class Ends(Case):
    def ended(self, silo: Silo) -> SiloEnded:
        """What the silo is found to have ended by, by one who asks after it."""
        with self.assertRaises(SiloEnded) as found:
            silo.call(WEB, COUNTER, "get")
        with self.assertRaises(SiloEnded):
            silo.tick(1)
        with self.assertRaises(SiloEnded):
            silo.ask(WEB, "status")
        self.assertIsInstance(silo.close(), int)
        return found.exception

    def test_in_order(self) -> None:
        with tempfile.TemporaryDirectory() as folder:
            with Silo("red:2:4", journal=f"{folder}/journal", program=beside.program) as silo:
                silo.call(WEB, COUNTER, "add", {"by": 1})
            audit = subprocess.run([beside.program, "audit", f"{folder}/journal"], capture_output=True, check=False)
            self.assertEqual((silo.close(), audit.stdout), (0, b"tenant red: 5 steps, 1 replies, 0 rows\n"))
        self.assertFalse(self.ended(silo).under_way)

    def test_what_is_asked_behind_it(self) -> None:
        """Nothing is asked of a silo that was closed, and that is known."""
        folder = tempfile.TemporaryDirectory()
        self.addCleanup(folder.cleanup)
        over = pathlib.Path(folder.name) / "over"
        silo = self.started(program=self.stub(f"while not os.path.exists({os.fspath(over)!r}): time.sleep(0.01)"))
        asked = silo.ask(WEB, "status")
        closing = threading.Thread(target=silo.close)
        closing.start()
        while not silo._connection.exchange.closed:
            time.sleep(0.001)
        for ask in (lambda: silo.status(WEB), lambda: silo.tick(1), lambda: silo.ask(WEB, "status")):
            with self.assertRaisesRegex(SiloEnded, "it was closed") as found:
                ask()
            self.assertFalse(found.exception.under_way)
        over.touch()
        closing.join()
        self.assertIsInstance(asked.exception(), SiloEnded)

    def test_of_the_interpreter(self) -> None:
        """What was asked, which is more than a pipe takes, is answered, also if nobody closes the silo."""
        code = """if True:
            import sys
            from silo import Silo
            silo = Silo("red:2:4", program=sys.argv[1], journal=sys.argv[2])
            for _ in range(40):
                silo.ask("red/web", "call", grain="sheet/red:a", method="put", args={"name": "k", "value": "x" * 4_000})"""
        with tempfile.TemporaryDirectory() as folder:
            journal = pathlib.Path(folder) / "journal"
            words = [sys.executable, "-c", code, beside.program, os.fspath(journal)]
            ran = subprocess.run(words, env={**os.environ, "PYTHONPATH": os.fspath(beside.CLIENT)}, capture_output=True, check=False)
            self.assertEqual((ran.stdout, ran.stderr, ran.returncode), (b"", b"", 0))
            until = time.monotonic() + SECONDS
            # the journal of no step may stand there at first
            told = ""
            while told.count("\ncall ") < 40 and time.monotonic() < until:
                time.sleep(0.02)
                told = journal.read_text(encoding="utf-8") if journal.exists() else ""
            self.assertEqual(told.count("\ncall "), 40)

    def test_of_a_process_that_is_killed(self) -> None:
        silo = self.started()
        silo.call(WEB, COUNTER, "get")
        silo._connection.carrier.kill()
        self.assertIsInstance(settled(lambda: silo.call(WEB, COUNTER, "get")), SiloEnded)
        self.assertEqual((self.ended(silo).status, silo.close()), (-9, -9))

    def test_of_a_process_that_is_killed_while_long_replies_are_under_way(self) -> None:
        for wait in (0.0, 0.01, 0.03):
            silo = self.started()
            silo.call(WEB, "sheet/red:s", "put", {"name": "k", "value": "x" * 60_000})
            asked = [silo.ask(WEB, "call", grain="sheet/red:s", method="get", args={"name": "k"}) for _ in range(300)]
            time.sleep(wait)
            # however many were answered, some are not
            stop(silo._connection.carrier.number)  # type: ignore[attr-defined]
            asked += [silo.ask(WEB, "status") for _ in range(5)]
            silo._connection.carrier.kill()
            found = [settled(it.result) for it in asked]
            self.assertEqual({type(it) for it in found} - {str}, {SiloEnded})
            self.assertTrue(all(it.under_way for it in found if isinstance(it, SiloEnded)))
            self.assertIn("is not known", str(found[-1]))

    def test_of_one_whose_journal_has_no_folder(self) -> None:
        with self.assertRaises(SiloEnded) as found:
            with Silo("red:2:4", journal="/nowhere/journal", program=beside.program) as silo:
                silo.status(WEB)
        self.assertEqual((found.exception.status, found.exception.told), (1, "silo: writing failed\n"))

    def test_of_one_that_refuses_its_words(self) -> None:
        with self.assertRaises(SiloEnded) as found:
            with Silo("red:2:4", program=self.stub('sys.exit("silo: tenant argument 1 is refused")')):
                pass
        self.assertEqual((found.exception.status, found.exception.told), (1, "silo: tenant argument 1 is refused\n"))

    def test_by_words_that_no_silo_says(self) -> None:
        program = self.stub(SAY_STRANGE)
        for number, said in enumerate(STRANGE):
            silo = Silo("red:1:1", sends=number, program=program, timeout=SECONDS)
            found: List[Any] = []
            others = [threading.Thread(target=lambda: found.append(settled(lambda: silo.status("red/b")))) for _ in range(2)]
            with self.subTest(said[:80]), self.assertRaisesRegex(SiloEnded, "can't be read"):
                silo.status(WEB)
            for other in others:
                other.start()
                other.join()
            self.assertEqual([type(it) for it in found], [SiloEnded, SiloEnded])
            self.assertEqual(silo.close(), -9)

    def test_by_a_torn_last_line(self) -> None:
        for last in ("b'{\"from\":\"red/we'", "b'{\"from\":\"red/web\",\"id\":1,\"ok\":1}'", "b'\\n'[:0]"):
            silo = self.started("red:1:1", program=self.stub(f"read()\nread()\nwrite({last})"))
            asked = [silo.ask(WEB, "status") for _ in range(3)]
            self.assertEqual([type(settled(it.result)) for it in asked], [SiloEnded] * 3)
            self.assertEqual(silo.close(), 0)

    def test_of_one_that_reads_no_more(self) -> None:
        silo = self.started("red:1:1", program=self.stub("os.close(0)\ntime.sleep(600)"))
        with mock.patch("silo.connection.MOST_SECONDS_DEAF", 0.1):
            self.assertIsInstance(settled(lambda: self.ask_until_it_ends(silo)), SiloEnded)
        self.assertEqual(silo.close(), -9)

    def test_of_one_that_reads_on_and_says_nothing(self) -> None:
        silo = self.started("red:1:1", program=self.stub("while read(): pass\ntime.sleep(600)"))
        asked = silo.ask(WEB, "status")
        with mock.patch("silo.still.MOST_SECONDS_STILL", 0.1):
            self.assertEqual(settled(silo.close), -9)
        self.assertIsInstance(settled(asked.result), SiloEnded)

    def ask_until_it_ends(self, silo: Silo) -> None:
        while True:
            silo.ask(WEB, "status")
            time.sleep(0.01)

    def test_while_steps_wait_for_their_fence(self) -> None:
        silo = self.started("red:1:1", program=self.stub("read()\ntime.sleep(0.3)"))
        found: List[Any] = []
        threads = [threading.Thread(target=lambda: found.append(settled(lambda: silo.tick(1)))) for _ in range(4)]
        for thread in threads:
            thread.start()
        for thread in threads:
            thread.join(SECONDS)
        self.assertEqual([type(it) for it in found], [SiloEnded] * 4)


class Timeouts(Case):
    def test_of_each_call_and_of_all(self) -> None:
        silo = self.started("red:1:1", program=self.stub("while read(): pass"), timeout=0.05)
        web, slow = silo.client(WEB), silo.client(WEB, timeout=0.06)
        for ask, seconds in (
            (lambda: silo.call(WEB, COUNTER, "get"), 0.05), (lambda: silo.call(WEB, COUNTER, "get", timeout=0.04), 0.04), (lambda: silo.tick(1), 0.05),
            (lambda: silo.sweep(timeout=0.03), 0.03), (lambda: web.status(), 0.05), (lambda: slow.status(), 0.06), (lambda: slow.grain(COUNTER).get(), 0.06),
            (lambda: slow.status(timeout=0.01), 0.01), (lambda: silo.ask(WEB, "status").result(), 0.05), (lambda: silo.ask(WEB, "status").exception(0), 0),
            (lambda: silo.poke(WEB, COUNTER, 1, timeout=-1), -1),
        ):  # fmt: skip
            with self.assertRaises(SiloTimeout) as found:
                ask()
            self.assertEqual(found.exception.seconds, seconds)
            self.assertIn("is not known", str(found.exception))

    def test_of_a_silo_that_reads_nothing(self) -> None:
        silo = self.started("red:1:1", program=self.stub("time.sleep(600)"), timeout=0.2)
        self.addCleanup(silo._connection.carrier.kill)
        with mock.patch("silo.connection.MOST_UNWRITTEN", 10):
            with self.assertRaises(SiloTimeout):
                for _ in range(100):
                    silo.ask(WEB, "call", grain=COUNTER, method="x" * 60_000)
            for ask in (lambda: silo.status(WEB), lambda: silo.status(WEB, timeout=0.1), lambda: silo.tick(1)):
                with self.assertRaises(SiloTimeout):
                    ask()

    def test_a_reply_that_comes_late_is_nobodys(self) -> None:
        reply = "write(b'{\"from\":\"red/web\",\"id\":%d,\"ok\":%d}\\n' % (n, n))"
        silo = self.started("red:1:1", program=self.stub(f"read()\nread()\nfor n in (1, 2): {reply}\nread()"))
        with self.assertRaises(SiloTimeout):
            silo.status(WEB, timeout=0.05)
        self.assertEqual(silo.status(WEB), 2)

    def test_a_future_that_is_cancelled(self) -> None:
        silo = self.started()
        asked = [silo.ask(WEB, "call", grain=COUNTER, method="add", args={"by": 1}) for _ in range(50)]
        given_up = [it for it in asked if it.cancel()]
        self.assertTrue(all(it.cancelled() and it.done() for it in given_up))
        self.assertEqual(silo.call(WEB, COUNTER, "get"), 50)


class Callbacks(Case):
    def red_that_tells(self, on_told: Any) -> Silo:
        """A silo in which each `send` of a relay is told to have been refused."""
        silo = self.started("red:4:4", "blue:1:1", on_told=on_told)
        silo.call(WEB, "relay/red:r", "join", {"grain": "counter/blue:x"})
        return silo

    def send(self, silo: Silo) -> None:
        silo.call(WEB, "relay/red:r", "send", {"method": "get", "args": None})

    def test_that_raise(self) -> None:
        def on_told(grain: str, outcome: Any) -> None:
            raise SystemExit(outcome.code)

        silo = self.red_that_tells(on_told)
        with self.assertLogs("silo", "ERROR") as logged, self.assertLogs("concurrent.futures", "ERROR"):
            self.send(silo)
            self.assertEqual(silo.call(WEB, COUNTER, "get"), 0)
            for _ in range(50):
                silo.ask(WEB, "status").add_done_callback(lambda it: sys.exit(1 // 0))
            self.assertEqual(silo.close(), 0)
        self.assertIn("SystemExit: 40", logged.output[0])

    def test_that_call_the_silo(self) -> None:
        found: List[Any] = []
        silo = self.red_that_tells(lambda grain, outcome: found.append((silo.call(WEB, COUNTER, "get"), silo.tick(5))))
        self.send(silo)
        asked = silo.ask(WEB, "status")
        asked.add_done_callback(lambda it: found.append(silo.status(WEB)["activations"]))
        self.assertEqual(silo.call(WEB, COUNTER, "add", {"by": 1}), 1)
        while len(found) < 2:
            time.sleep(0.01)
        self.assertEqual((len(found), silo.close()), (2, 0))

    def test_that_close_the_silo(self) -> None:
        silo = self.red_that_tells(lambda grain, outcome: silo.close())
        self.send(silo)
        self.assertEqual(silo.close(), 0)

    def test_that_ask_while_another_thread_floods(self) -> None:
        found: List[Any] = []
        silo = self.red_that_tells(lambda grain, outcome: found.append(silo.call(WEB, COUNTER, "add", {"by": 1})))
        flood = threading.Thread(target=lambda: [silo.ask("red/flood", "status") for _ in range(1_000)])
        flood.start()
        for _ in range(10):
            self.send(silo)
        flood.join()
        while len(found) < 10:
            time.sleep(0.01)
        self.assertEqual((found, silo.close()), ([*range(1, 11)], 0))


class Processes(Case):
    def test_a_child_that_was_forked(self) -> None:
        """It is told that the silo isn't its own, and doesn't keep the silo from its end."""
        silo = self.started()
        silo.call(WEB, COUNTER, "add", {"by": 1})
        stay, go = os.pipe()
        child = os.fork()
        if child == 0:
            found = [settled(lambda: silo.call(WEB, COUNTER, "get")), settled(lambda: silo.tick(1)), settled(lambda: silo.ask(WEB, "status"))]
            as_told = [type(it) for it in found] == [SiloEnded] * 3 and silo.close() == 0
            os.close(go)
            os.read(stay, 1)
            os._exit(0 if as_told else 1)
        os.close(stay)
        self.assertEqual([silo.call(WEB, COUNTER, "get"), silo.close()], [1, 0])
        os.close(go)
        self.assertEqual(os.waitpid(child, 0)[1], 0)

    def test_a_thread_that_is_interrupted(self) -> None:
        """The main thread of a process of its own is interrupted all the time, whatever it asks; then all is as before."""
        path = pathlib.Path(__file__).with_name("interrupted.py")
        environment = {**os.environ, "PYTHONPATH": os.fspath(beside.CLIENT), "SILO": beside.program}
        ran = subprocess.run([sys.executable, os.fspath(path)], env=environment, capture_output=True, timeout=300, check=False)
        self.assertEqual((ran.stdout, ran.stderr, ran.returncode), (b"as before\n", b"", 0))
