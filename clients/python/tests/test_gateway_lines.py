"""Lines of a gateway, without a gateway: what they ask, how they come in pieces, and whose turn it is."""

from __future__ import annotations

import json
import random
import time
import unittest
from typing import Any, Callable, List
from unittest import mock

from silo.gateway import desk as desks
from silo.gateway.asked import Block, Reader, asked_by, step
from silo.gateway.clock import OwnAsker
from silo.gateway.desk import Desk
from silo.gateway.figures import Histogram, Page
from silo.gateway.guest import Guest
from silo.gateway.lane import HALF_LIFE, MOST_AT_FIRST, Costs, Lane
from silo.gateway.pieces import Pieces
from silo.gateway.replied import keys_of, says_no_request, tenant_told
from silo.gateway.told import NOT_NOW
from silo.lines import FENCE, StrangeReply

from .gateways import call, echo


def read(line: bytes, tenant: str = "red") -> Block:
    return Reader(tenant).read_line(line)


def given(line: bytes, tenant: str = "red") -> bytes:
    """What the program is given for a line."""
    return read(line, tenant).given


class Asked(unittest.TestCase):
    def test_a_line_that_clients_write_stays_as_it_is(self) -> None:
        line = call(12, method="put", args={"name": "x", "value": [1, {"a": None}]})[:-1]
        self.assertEqual((given(line), read(line).keys), (line + b"\n", (b'red/web","id":12,',)))

    def test_any_other_line_is_written_anew(self) -> None:
        for line in (
            b' {"id":12,"from":"red/web","op":"status"}', b'{"op":"status","from":"red/web","id":12 }',
            b'{"op":"status","id":1,"from":"red/web","id":12}',
            b'{"op":"status","from":"r\\u0065d/web","id":12}', b'{"op":"status","from":"blue/x","id":12,"from":"red/web"}',
        ):  # fmt: skip
            self.assertEqual(given(line), b'{"op":"status","from":"red/web","id":12}\n', line)

    def test_both_ways_of_reading_say_the_same(self) -> None:
        chance = random.Random(7)
        values = [1, "x", None, True, [[]], {"a": 1}, {"$hex": "00ff"}, "\u00e9\u2028\U0001f600", -(2**63), {"id": 3, "from": "blue/web"}]
        for _ in range(300):
            line = call(chance.randrange(10**6), method=chance.choice(["put", "add", "\u00e9"]), args=chance.choice(values))[:-1]
            plain, anew = read(line), read(b" " + line)
            self.assertEqual([*plain.keys], [*anew.keys])
            self.assertEqual(json.loads(plain.given), json.loads(anew.given))

    def test_lines_are_read_together_as_they_are_one_by_one(self) -> None:
        chance = random.Random(5)
        odd = [b"x", b"", b"x" * 65_537, call(1, "blue/web")[:-1], b' {"op":"status","from":"red/web","id":12}', b'{"op":"sweep"}',
               call(4, args={"id": 1})[:-1], call(4, args="\\u0041")[:-1]]  # fmt: skip
        for number in range(200):
            lines = [chance.choice([call(number)[:-1], echo(number, "r")[:-1]]) for _ in range(chance.randrange(1, 9))]
            whole = b"".join(line + b"\n" for line in lines)
            self.assertEqual([*Reader("red").keys_of(whole)], [key for line in lines for key in read(line).keys])
            lines.insert(chance.randrange(len(lines) + 1), chance.choice(odd))
            self.assertEqual([*Reader("red").keys_of(b"".join(line + b"\n" for line in lines))], [])

    def test_a_block_in_two_parts(self) -> None:
        lines = [call(number) for number in range(5)]
        first, rest = Block(b"".join(lines), [read(line[:-1]).keys[0] for line in lines]).parted(2)
        self.assertEqual((first.given, rest.given), (b"".join(lines[:2]), b"".join(lines[2:])))
        self.assertEqual([[asked_by(key)[1] for key in block.keys] for block in (first, rest)], [[b"0", b"1"], [b"2", b"3", b"4"]])

    def test_a_line_within_a_line_is_none(self) -> None:
        self.assertEqual([*Reader("red").keys_of(call(1) + b"x" + call(1))], [])
        self.assertEqual(given(b"x" + call(1)[:-1]), b"fence\n")

    def test_nothing_is_given_of_lines_that_others_answer(self) -> None:
        steps = (b'{"op":"tick","now":1}', b'{"op":"sweep"}', b'{"op":"activate","grain":"counter/red:a"}')
        for line in (*steps, call(1, "blue/web")[:-1], b"x", b'{"op":"call","from":"red/web"}'):
            self.assertEqual(given(line), b"fence\n")
        self.assertEqual(given(b'{"op":"tick", "now":1}', ""), b'{"op":"tick","now":1}\nfence\n')

    def test_random_changes_never_bring_another_caller(self) -> None:
        chance = random.Random(11)
        words = [b'"from":"blue/x"', b'"id":5', b"\\u0066", b"}", b"{", b'"', b",", b"\\", b"red", b"blue", b" ", b"\xff", b"0"]
        for _ in range(4_000):
            line = bytearray(call(7, args={"by": 1})[:-1])
            for _ in range(chance.randrange(1, 4)):
                place = chance.randrange(len(line))
                line[place : place + chance.randrange(3)] = chance.choice(words)
            told = given(bytes(line))
            if told != b"fence\n":
                try:
                    said = json.loads(told)
                except ValueError:
                    continue
                self.assertEqual((said["from"].encode(), b"%d" % said["id"]), asked_by(read(bytes(line)).keys[0]), bytes(line))
                self.assertEqual(said["from"].partition("/")[0], "red", bytes(line))


class Split(unittest.TestCase):
    def test_pieces_of_any_length(self) -> None:
        chance = random.Random(3)
        lines = [b"x" * chance.choice([0, 1, 5, 70, 65_536, 65_537, 140_000]) for _ in range(40)] + [b"last"]
        data, pieces, found = b"\n".join(lines), Pieces(), b""
        while data:
            length = chance.choice([1, 3, 100, 16_384])
            found += pieces.feed(data[:length])
            data = data[length:]
        self.assertEqual((found + pieces.last()).split(b"\n"), [line[:65_537] for line in lines] + [b""])
        self.assertEqual(pieces.last(), b"")

    def test_no_more_than_a_line_is_kept(self) -> None:
        pieces = Pieces()
        for data in [b"x" * 16_384] * 100 + [b"\n" + b"y" * 100_000]:
            pieces.feed(data)
            self.assertLessEqual(len(pieces._torn), 65_537)
        self.assertEqual(pieces.feed(b"\nnext\n"), b"y" * 65_537 + b"\nnext\n")


class Kept(Guest):
    """A connection that is none: what it is told is kept."""

    def __init__(self, desk: Desk, lane: Lane) -> None:
        super().__init__(lane, 10_000, desk.lines_wait, lambda guest: None, desk.close_later)
        self.heard: List[Any] = []

    def tell(self, replies: bytes) -> None:
        self.heard += [json.loads(line) for line in replies.splitlines()]


def reply_to(line: bytes) -> bytes:
    """What the program replies to a line."""
    try:
        said = json.loads(line)
    except ValueError:
        return b'{"error":10,"text":"line is not a request"}\n'
    form = b'{"from":"%b","id":%d,"ok":{"from":"red/web","id":1}}\n' if said["method"] == "add" else b'{"error":22,"from":"%b","id":%d,"text":"x"}\n'
    return form % (said["from"].encode(), said["id"])


class Turns(unittest.TestCase):
    def setUp(self) -> None:
        # what is put off: nothing but where lines take long to read
        self.later: List[Callable[[], None]] = []
        self.is_slow = False
        # however slow this machine is
        patched = mock.patch("silo.gateway.desk.MOST_SECONDS_AT_ONCE", 60.0)
        patched.start()
        self.addCleanup(patched.stop)
        self.lanes = {name: Lane(name, name, 10_000, 10**9) for name in ("red", "blue", "")}
        self.desk = Desk([*self.lanes.values()], Lane("own", "", 10, 10), lambda call: self.later.append(call) if self.is_slow else call())
        self.written: List[bytes] = []
        # how long the program has worked
        self.worked = 0.0
        self.desk.open(lambda data: self.written.extend(data.splitlines()), lambda: self.worked)

    def allow(self, most: int, *lanes: Lane) -> None:
        """The program may be given so many lines of these, until one is answered."""
        for lane in lanes:
            lane.most_written = most

    def test_tenants_and_connections_take_turns(self) -> None:
        red = [Kept(self.desk, self.lanes["red"]) for _ in range(2)]
        self.allow(64, self.lanes["red"])
        self.desk.lose()
        for guest in red:
            guest.take(b"".join(echo(number, "r") for number in range(100)))
        blue = Kept(self.desk, self.lanes["blue"])
        blue.take(echo(1, "b", "blue/web") + echo(2, "b", "blue/web"))
        self.desk.open(lambda data: self.written.extend(data.splitlines()), lambda: self.worked)
        self.desk.fill()
        tenants = [json.loads(line)["from"].partition("/")[0] for line in self.written]
        self.assertEqual(tenants, ["red"] * 32 + ["blue"] * 2 + ["red"] * 32)
        # no tenant has more than so many under way, and its connections have as many each
        self.assertEqual([guest.next_block(100)[0].given.count(b"\n") for guest in red], [68, 68])

    def test_who_takes_long_is_given_less_at_once(self) -> None:
        lane, guest = self.lanes["red"], Kept(self.desk, self.lanes["red"])
        guest.take(b"".join(echo(number, "r") for number in range(1_000)))
        self.assertEqual(lane.written, MOST_AT_FIRST)
        self.answer(1, 0.004)
        self.assertEqual(lane.written, MOST_AT_FIRST)
        self.answer(MOST_AT_FIRST + 5, 0.004)
        self.assertEqual(lane.most_written, 1)
        # nor do lines that take little hide that, but time does
        self.answer(100, 0.0)
        self.assertEqual(lane.most_written, 1)
        later = time.monotonic() + 2 * HALF_LIFE
        with mock.patch("silo.gateway.desk.time.monotonic", lambda: later):
            for _ in range(8):
                self.answer(1, 0.0)
        self.assertEqual(lane.written, 256)
        # behind each dear line stands a fence, which nobody is told of
        self.assertEqual([said["id"] for said in guest.heard], [*range(len(guest.heard))])
        self.assertTrue(MOST_AT_FIRST + 50 < len(guest.heard) < MOST_AT_FIRST + 114)

    def test_the_line_behind_a_dear_one_waits_for_what_that_one_sent(self) -> None:
        red, blue = (Kept(self.desk, self.lanes[name]) for name in ("red", "blue"))
        for _ in range(10):
            red.lane.weigh(1, 0.01, 1, time.monotonic())
        red.take(call(1) + call(2))
        blue.take(call(3, "blue/web"))
        given = [call(1)[:-1], FENCE[:-1], call(3, "blue/web")[:-1]]
        self.assertEqual(self.written, given)
        self.desk.feed(reply_to(given[0]))
        self.worked += 0.01
        self.desk.feed(b'{"error":40,"from":"relay/red:r","text":"x"}\n')
        self.assertEqual((self.written, [said.get("id") for said in red.heard]), (given, [1, None]))
        self.desk.feed(reply_to(given[1]))
        # nor is it given while another's line is under way, whose reply might wait for it
        self.assertEqual(self.written[3:], [])
        self.desk.feed(reply_to(given[2]))
        self.assertEqual(self.written[3:], [call(2)[:-1], FENCE[:-1]])
        # what was sent is red's, and not of whoever is answered next
        self.assertEqual([lane.most_written for lane in (red.lane, blue.lane)], [1, 16])
        self.desk.lose()
        self.assertEqual(([said.get("error") for said in red.heard], len(blue.heard)), ([None, 40, 90], 1))
        self.assertEqual((self.desk.is_idle, red.lane.held, red.lane.written, red.lane.lost), (True, 0, 0, 1))

    def test_dear_turns_begin_one_by_one(self) -> None:
        red, blue, operator = (Kept(self.desk, self.lanes[name]) for name in ("red", "blue", ""))
        for guest in (red, blue):
            for _ in range(10):
                guest.lane.weigh(1, 0.01, 1, time.monotonic())
        red.take(call(1) + call(2))
        blue.take(call(3, "blue/web") + call(4, "blue/web"))
        # who takes little comes before the second
        operator.take(call(5, "blue/ops"))
        given = [call(1)[:-1], FENCE[:-1], call(5, "blue/ops")[:-1]]
        self.assertEqual(self.written, given)
        for line in given[:2]:
            self.desk.feed(reply_to(line))
        operator.take(call(6, "blue/ops"))
        # and is given nothing more while it waits for what is under way
        self.assertEqual(self.written, given)
        self.desk.feed(reply_to(given[2]))
        self.assertEqual(self.written[3:], [call(3, "blue/web")[:-1], FENCE[:-1], call(6, "blue/ops")[:-1]])
        # what is lost with the program holds nobody up
        self.desk.lose()
        self.written.clear()
        self.desk.open(self.written.append, lambda: self.worked)
        self.desk.fill()
        self.assertEqual(self.written, [call(2) + FENCE])

    def test_a_line_that_takes_long_now_and_then_counts_for_nothing(self) -> None:
        lane = self.lanes["red"]
        Kept(self.desk, lane).take(b"".join(echo(number, "r") for number in range(10_000)))
        now = time.monotonic()
        for _ in range(20):
            now += 1.0
            with mock.patch("silo.gateway.desk.time.monotonic", lambda: now):
                self.answer(9, 0.0)
                self.answer(1, 0.005)
            self.assertEqual(lane.most_written, 256)
        self.answer(3, 0.005)
        self.assertEqual(lane.most_written, 1)

    def test_the_room_for_lines_by_what_they_take(self) -> None:
        now = time.monotonic()
        for seconds, most in ((0.0, 256), (0.000_007, 256), (0.000_02, 64), (0.000_1, 16), (0.001, 2), (0.002, 1), (0.01, 1)):
            costs = Costs()
            for _ in range(10):
                costs.note(1_000, seconds, now)
            self.assertEqual(costs.most, most, seconds)

    def test_who_takes_little_isnt_taken_for_who_takes_long(self) -> None:
        for name in ("red", "blue"):
            Kept(self.desk, self.lanes[name]).take(b"".join(echo(number, "x", f"{name}/web") for number in range(20_000)))
        now = time.monotonic()
        for turn in range(100):
            # the program answers one line by itself, and then all: four milliseconds for each of red's
            now += 0.2 * HALF_LIFE
            with mock.patch("silo.gateway.desk.time.monotonic", lambda: now):
                self.answer_together(1 if turn % 2 else len(self.written), 0.004)
        self.assertEqual([self.lanes[name].written for name in ("red", "blue")], [1, 256])

    def answer_together(self, count: int, seconds: float) -> None:
        """The program answers so many lines at once, and works so long on each of red's."""
        lines, self.written[:count] = self.written[:count], []
        self.worked += seconds * sum(b'"red/web"' in line for line in lines)
        self.desk.feed(b"".join(map(reply_to, lines)))

    def test_waiting_for_a_disk_is_no_work(self) -> None:
        guest = Kept(self.desk, self.lanes["red"])
        guest.take(b"".join(echo(number, "r") for number in range(1_000)))
        for _ in range(100):
            self.desk.moved_at -= 0.01
            self.answer(1, 0.0)
        self.assertEqual(self.lanes["red"].written, 256)

    def answer(self, count: int, seconds: float) -> None:
        """The program answers so many of red's lines, and works so long on each."""
        for _ in range(count):
            self.worked += seconds
            self.desk.feed(reply_to(self.written.pop(0)))

    def test_lines_that_take_long_to_read_hold_nobody_up(self) -> None:
        guest, self.is_slow = Kept(self.desk, self.lanes["red"]), True
        with mock.patch("silo.gateway.desk.MOST_SECONDS_AT_ONCE", 0.0):
            guest.take(b"".join(b" " + echo(number, "r") for number in range(10)))
            self.assertEqual((len(self.written), len(self.later)), (1, 1))
        self.later.pop()()
        self.assertEqual((len(self.written), len(self.later)), (MOST_AT_FIRST, 0))

    def test_lines_of_several_go_together(self) -> None:
        guests, self.is_slow = [Kept(self.desk, self.lanes["red"]) for _ in range(3)], True
        for number, guest in enumerate(guests):
            guest.take(echo(number, "r"))
        # nothing was under way when the first came
        self.assertEqual((len(self.written), len(self.later)), (1, 1))
        self.later.pop()()
        self.assertEqual([json.loads(line)["id"] for line in self.written], [0, 1, 2])

    def test_connections_that_wait_for_room_are_read_in_turn(self) -> None:
        lane = Lane("red", "red", 2, 10**9)
        guests = [mock.Mock() for _ in range(3)]
        for guest in guests:
            lane.stop(guest)
        lane.hold(3, 0)
        for wanted in ([0, 0, 0], [1, 0, 0], [1, 1, 1]):
            lane.let_go(1, 0)
            self.assertEqual([guest.look.call_count for guest in guests], wanted)

    def test_no_reply_strays(self) -> None:
        for reply in (
            b'{"from":"red/web","id":2,"ok":1}', b'{"from":"red/web","id":50,"ok":1}', b'{"from":"red/web","id":5}',
            b'{"from":"red/other","id":1,"ok":1}', b'{"from":"blue/web","id":1,"ok":1}', b'{"text":"not now"}',
            b'{"id":1,"ok":1}', b"[]", b"", b'{"from":"counter/green:a","ok":1}', b'{"from":"red/web","ok":1}',
        ):  # fmt: skip
            guest = Kept(self.desk, self.lanes["red"])
            guest.take(call(5))
            with self.subTest(reply), self.assertRaises(StrangeReply):
                self.desk.feed(reply + b"\n")
            self.desk.lose()
            text = "program has ended, and whether this was done is not known"
            self.assertEqual(guest.heard, [{"error": 90, "from": "red/web", "id": 5, "text": text}])
            self.setUp()

    def test_replies_in_any_pieces(self) -> None:
        chance = random.Random(13)
        for _ in range(200):
            self.setUp()
            self.allow(64, *self.lanes.values())
            guests = [Kept(self.desk, self.lanes[name]) for name in ("red", "red", "blue")]
            wanted: List[List[Any]] = [[], [], []]
            for number in range(chance.randrange(1, 30)):
                place = chance.randrange(3)
                caller = f"{guests[place].lane.tenant}/web"
                numbers = range(100 * number, 100 * number + chance.randrange(1, 5))
                guests[place].take(b"".join(call(it, caller) if chance.randrange(8) else echo(it, "x", caller) for it in numbers))
                wanted[place] += numbers
            # a line that the program takes for no request, and something that a grain is told
            guests[0].take(call(77)[:-2] + b"\n" + call(78))
            replies = b"".join(map(reply_to, self.written)) + b'{"error":40,"from":"relay/red:r","text":"x"}\n'
            while replies:
                length = chance.choice([1, 30, 200, 1_000])
                self.desk.feed(replies[:length])
                replies = replies[length:]
            wanted[0] += [None, 78, None]
            self.assertEqual([[said.get("id") for said in guest.heard] for guest in guests], wanted)
            self.assertTrue(self.desk.is_idle)
            self.assertEqual([(lane.held_bytes, lane.written) for lane in self.lanes.values()], [(0, 0)] * 3)
            self.assertEqual((self.desk._written, self.desk._bytes_written), (0, 0))

    def test_what_is_left_when_the_program_ends(self) -> None:
        guest, operator = Kept(self.desk, self.lanes["red"]), Kept(self.desk, self.lanes[""])
        guest.take(call(1) + call(2, "blue/web") + b"fence\n")
        operator.take(b'{"op":"tick","now":1}\n' + call(3, "blue/web"))
        self.desk.feed(b'{"from":"red/web","id":1,"ok"')
        self.desk.lose()
        self.assertEqual([said.get("error") for said in guest.heard], [90, 40, 10])
        self.assertEqual([said.get("error") for said in operator.heard], [None, 90])
        self.assertTrue(self.desk.is_idle)
        guest.take(call(4))
        self.assertEqual(len(guest.heard), 3)
        self.written.clear()
        self.desk.open(lambda data: self.written.extend(data.splitlines()), lambda: self.worked)
        self.desk.fill()
        self.assertEqual(len(self.written), 1)

    def test_what_the_gateway_asked_is_no_step_that_was_refused_when_the_program_ends(self) -> None:
        asker = OwnAsker("tick")
        asker.is_waiting = self.desk.ask(asker, step(b'{"op":"tick","now":1}\n'))
        with mock.patch("silo.gateway.clock.tell") as tell:
            self.desk.lose()
            self.assertEqual((tell.called, asker.is_waiting), (False, False))
            asker.tell(NOT_NOW)
            self.assertTrue(tell.called)

    def test_what_is_told_behind_the_gateways_own_line(self) -> None:
        guests = [Kept(self.desk, self.lanes[name]) for name in ("red", "blue")]
        for guest in guests:
            guest.lane.guests.add(guest)
        guests[1].take(echo(1, "x", "blue/web"))
        number = json.loads(self.written[-1])["id"]
        self.desk.feed(b'{"error":22,"from":"blue/web","id":%d,"text":"x"}\n{"error":40,"from":"relay/red:r","text":"y"}\n' % number)
        self.assertEqual([len(guest.heard) for guest in guests], [1, 1])
        self.assertEqual(guests[0].heard[0]["from"], "relay/red:r")

    def test_bounds_of_what_the_program_is_given(self) -> None:
        operator = Kept(self.desk, self.lanes[""])
        for name in range(20):
            self.desk.lanes[f"t{name}"] = Lane(f"t{name}", f"t{name}", 10_000, 10**9)
            self.allow(64, self.desk.lanes[f"t{name}"])
            Kept(self.desk, self.desk.lanes[f"t{name}"]).take(b"".join(echo(number, "x", f"t{name}/w") for number in range(64)))
        operator.take(echo(1, "x"))
        self.assertLessEqual(len(self.written), desks.MOST_WRITTEN)


class Figures(unittest.TestCase):
    def test_a_histogram(self) -> None:
        histogram, page = Histogram(), Page()
        for seconds in (0.0001, 0.0005, 0.003, 9.0):
            histogram.note(seconds)
        page.histogram("h", "What.", [({"tenant": "red"}, histogram)])
        lines = page.text().splitlines()
        self.assertEqual(lines[2], 'h_bucket{tenant="red",le="0.0005"} 2')
        self.assertEqual(lines[-3:], ['h_bucket{tenant="red",le="+Inf"} 4', 'h_sum{tenant="red"} 9.003600', 'h_count{tenant="red"} 4'])

    def test_replies_as_the_silo_writes_them(self) -> None:
        answer, told = b'{"error":40,"from":"red/web","id":12,"text":"\\"id\\":13"}', b'{"error":40,"from":"relay/red:\\"x","text":"y"}'
        fenced, not_now = b'{"error":10,"text":"line is not a request"}', b'{"text":"not now"}'
        self.assertEqual(keys_of(b"\n".join([answer, told, fenced, not_now, b"", b""])), [b'red/web","id":12,', b"", b"", b"", b""])
        self.assertEqual([tenant_told(line) for line in (answer, told, fenced, not_now)], [None, "red", None, None])
        self.assertEqual([says_no_request(line) for line in (answer, told, fenced, not_now)], [False, False, True, False])


if __name__ == "__main__":
    unittest.main()
