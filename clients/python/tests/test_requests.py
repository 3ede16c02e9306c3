"""What a silo is asked, by one thread and by many."""

from __future__ import annotations

import concurrent.futures
import threading

from silo import Counter, Grain, Relay, Sheet, SiloError

from . import beside
from .beside import COUNTER, WEB, Case, Red


class Requests(Red):
    def refused(self, code: int, grain: str, method: str, args: object = None, caller: str = WEB) -> None:
        with self.assertRaises(SiloError) as found:
            self.silo.call(caller, grain, method, args)
        self.assertEqual(found.exception.code, code, found.exception)

    def test_a_counter_counts(self) -> None:
        counter = self.web.grain(COUNTER)
        self.assertEqual([counter.add(by=3), counter.add(by=4), counter.get()], [3, 7, 7])

    def test_arguments_have_names(self) -> None:
        with self.assertRaisesRegex(TypeError, "^add has arguments by name alone, such as add.by=3.$"):
            self.web.grain(COUNTER).add(3)

    def test_each_code_of_a_call(self) -> None:
        self.refused(21, COUNTER, "get", caller="green/web")
        self.refused(22, "lamp/red:a", "get")
        self.refused(40, "counter/blue:a", "get")
        self.refused(60, COUNTER, "jump")
        self.refused(61, COUNTER, "add")
        self.silo.call(WEB, COUNTER, "add", {"by": 2**63 - 1})
        self.refused(62, COUNTER, "add", {"by": 1})
        # 30,000 numbers have 60,000 bytes in a line, and more than a message may have as it is spelled
        self.refused(11, "sheet/red:s", "put", {"name": "k", "value": [1] * 30_000})

    def test_bytes(self) -> None:
        sheet = self.web.grain("sheet/red:s")
        for value in (b"", b"\x00\xff", [b"a", {"k": [b"b"]}], {"$hex": "00", "x": 1}, {"$HEX": "0"}):
            self.assertIsNone(sheet.put(name="k", value=value))
            self.assertEqual(sheet.get(name="k"), value)
        self.assertIsNone(sheet.put(name="k", value={"$hex": "0a"}))
        self.assertIsNone(sheet.put(name="l", value=bytearray(b"\n")))
        self.assertEqual((sheet.get(name="k"), sheet.get(name="l")), (b"\n", b"\n"))
        self.refused(61, "sheet/red:s", "get", b"k")
        self.assertEqual(sheet.poke({"k": b"c"}), "1")

    def test_texts(self) -> None:
        sheet = self.web.grain("sheet/red:s")
        for value in ("", '"\\/\b\f\n\r\t\x00\x1f\x7f', "grüße \u2028 \U0001f600", 'a "$hex" in a text', "x" * 60_000):
            sheet.put(name=value[:9], value=value)
            self.assertEqual(sheet.get(name=value[:9]), value)

    def test_codes_of_what_is_stored(self) -> None:
        counter = self.web.grain(COUNTER)
        counter.add(by=1)
        self.assertEqual(counter.save(), "1")
        self.assertEqual(counter.poke(5), "2")
        self.refused(54, COUNTER, "save")
        self.assertEqual(counter.get(), 5)

    def test_no_activation_is_free(self) -> None:
        self.silo.call("blue/web", "counter/blue:a", "get")
        self.refused(41, "counter/blue:b", "get", caller="blue/web")

    def test_grains_of_kinds(self) -> None:
        counter, sheet, relay = Counter(self.web, "a"), Sheet(self.web, "s"), Relay(self.web, "r")
        self.assertEqual([counter.add(3), counter.save(), counter.get(), counter.reload()], [3, "1", 3, "1"])
        self.assertEqual([sheet.put("k", b"v"), sheet.get("k"), sheet.list(), sheet.drop("k"), sheet.drop("k")], [None, b"v", ["k"], True, False])
        self.assertEqual([relay.join(COUNTER), relay.send("add", {"by": 2}), counter.get(), relay.leave(COUNTER)], [True, 1, 5, True])
        self.assertEqual([counter.stay(1_000), counter.rest(), counter.get()], [None, None, 3])
        self.assertEqual([counter.clear(), counter.get()], ["2", 0])

    def test_classes_of_ones_own(self) -> None:
        class Unread(Counter):
            prefix = "unread/"

            def read_all(self) -> int:
                return self.add(by=-self.get())

        unread = Unread(self.web, "ann@example.org")
        self.assertEqual([unread.add(by=2), unread.read_all()], [2, 0])
        unread.add(by=4)
        self.assertEqual(self.web.grain("counter/red:unread/ann@example.org").get(), 4)
        self.assertEqual(repr(unread), "<Unread counter/red:unread/ann@example.org>")
        with self.assertRaises(AttributeError):
            unread.jump()  # type: ignore[attr-defined]

    def test_requests_by_name(self) -> None:
        self.assertEqual(self.silo.ask(WEB, "call", grain=COUNTER, method="add", args={"by": 2}).result(), 2)
        self.assertEqual(self.silo.ask(WEB, "poke", grain=COUNTER, state=5).result(), "1")
        self.assertEqual(self.silo.ask(WEB, "status").result()["activations"], 1)
        self.assertEqual([self.web.call(COUNTER, "get"), self.web.poke(COUNTER, 6), self.web.status()["activations"]], [2, "2", 1])
        self.assertIsInstance(self.web.grain(COUNTER), Grain)
        with self.assertRaises(SiloError):
            self.silo.ask(WEB, "call", grain=COUNTER, method="jump").result()

    def test_a_relay_tells_its_members(self) -> None:
        relay = self.web.grain("relay/red:r")
        self.assertTrue(relay.join(grain=COUNTER))
        self.assertTrue(relay.join(grain="counter/blue:x"))
        self.assertEqual(relay.send(method="add", args={"by": 2}), 2)
        self.assertEqual(self.silo.call(WEB, COUNTER, "get"), 2)
        self.silo.close()
        codes = [outcome.code for grain, outcome in self.told if isinstance(outcome, SiloError)]
        self.assertEqual((codes, {grain for grain, _ in self.told}), ([40], {"relay/red:r"}))


class Clock(Red):
    def test_the_clock_and_sweeping(self) -> None:
        self.silo.call(WEB, COUNTER, "get")
        self.assertTrue(self.silo.tick(1_000_000))
        self.assertFalse(self.silo.tick(999_999))
        self.assertEqual(self.silo.status(WEB)["activations"], 1)
        self.silo.sweep()
        self.assertEqual(self.silo.status(WEB)["activations"], 0)

    def test_a_grain_rests(self) -> None:
        counter = self.web.grain(COUNTER)
        counter.add(by=3)
        self.assertIsNone(counter.stay(**{"for": 5}))
        with self.assertRaises(SiloError) as found:
            counter.stay(**{"for": 0})
        self.assertEqual(found.exception.code, 61)
        self.assertEqual(self.silo.status(WEB)["activations"], 1)
        self.assertIsNone(counter.rest())
        self.assertEqual((self.silo.status(WEB)["activations"], counter.get()), (0, 0))

    def test_what_a_grain_keeps_that_goes(self) -> None:
        counter = self.web.grain(COUNTER)
        counter.add(by=3)
        self.silo.tick(900_000)
        self.silo.sweep()
        self.assertEqual(counter.add(by=5), 5)
        counter.save()
        self.silo.tick(1_799_999)
        self.silo.sweep()
        self.assertEqual(self.silo.status(WEB)["activations"], 1)
        self.silo.tick(1_800_000)
        self.silo.sweep()
        self.assertEqual((self.silo.status(WEB)["activations"], counter.get()), (0, 5))

    def test_ages_of_kinds(self) -> None:
        silo = self.started("red:2:4", age=10, ages={"counter": 2, "relay": 5})
        silo.call(WEB, COUNTER, "get")
        silo.call(WEB, "sheet/red:s", "list")
        silo.tick(9)
        silo.sweep()
        self.assertEqual(silo.status(WEB)["activations"], 1)


class Many(Case):
    def test_threads_at_one_counter(self) -> None:
        silo, sums = self.started(), []

        def add(name: int) -> None:
            sums.extend(silo.call(f"red/t{name}", COUNTER, "add", {"by": 1}) for _ in range(100))

        threads = [threading.Thread(target=add, args=[name]) for name in range(8)]
        for thread in threads:
            thread.start()
        for thread in threads:
            thread.join()
        self.assertEqual(sorted(sums), [*range(1, 801)])

    def test_a_thousand_under_way(self) -> None:
        silo = self.started()
        asked = [silo.ask(WEB, "call", grain=COUNTER, method="add", args={"by": 1}) for _ in range(1_000)]
        self.assertEqual([it.result() for it in asked], [*range(1, 1_001)])
        self.assertTrue(all(it.done() for it in asked))

    def test_futures_are_those_of_the_library(self) -> None:
        silo, called = self.started(), []
        asked = [silo.ask(WEB, "call", grain=COUNTER, method="add", args={"by": 1}) for _ in range(20)]
        for it in asked:
            it.add_done_callback(lambda it: called.append((it.result(), threading.current_thread().name)))
        done, waiting = concurrent.futures.wait(asked, timeout=beside.SECONDS)
        self.assertEqual((len(done), len(waiting)), (20, 0))
        self.assertEqual(len([*concurrent.futures.as_completed(asked, timeout=beside.SECONDS)]), 20)
        silo.close()
        self.assertEqual(sorted(number for number, _ in called), [*range(1, 21)])
        self.assertLessEqual({name for _, name in called}, {"silo call", threading.current_thread().name})
        self.assertEqual((asked[0].exception(), asked[0].cancel(), asked[0].cancelled()), (None, False, False))
