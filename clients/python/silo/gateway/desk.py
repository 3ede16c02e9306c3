"""What was asked of the program and isn't answered yet, and whose turn it is. It makes no call of the system but by those whom it tells."""

from __future__ import annotations

import collections
import time
from typing import Callable, Deque, Dict, List, Optional, Protocol, Sequence, Set, Tuple

from silo.gateway.asked import Block, answered, asked_by
from silo.gateway.guest import Guest
from silo.gateway.lane import Lane
from silo.gateway.replied import NOT_NOW_LINE, keys_of, says_no_request, tenant_told
from silo.gateway.told import LOST, NOT_NOW, fault_to
from silo.lines import StrangeReply

# lines that the program is given before it has answered them, at most, and their bytes
MOST_WRITTEN = 512
MOST_BYTES_WRITTEN = 1_048_576
# lines that are given while each who waits has one turn, about: a turn has fewer the more wait
LINES_OF_A_ROUND = 256
# what reading some lines and writing what they are answered takes by itself: no line costs that
SECONDS_OF_READING = 0.000_03
# how long lines are read before connections are looked at again
MOST_SECONDS_AT_ONCE = 0.002
NOTHING = (0, 0)
# how an answer begins behind the line before, up to its key; and a reply that says a code, of two digits
ANSWER = b'\n{"from":"'
FAULT = b'{"error":'
# the operator's tenant
OPERATOR = ""


class Asker(Protocol):
    """Who is told what lines are answered: a connection, or the gateway itself."""

    def tell(self, replies: bytes) -> None: ...

    def flush(self) -> None: ...

    def let_go(self, count: int, length: int) -> None: ...


class LastWords:
    """Who waits for all to be told to a connection that has ended."""

    def __init__(self, guest: Guest) -> None:
        self._guest = guest

    def tell(self, replies: bytes) -> None:
        pass

    def flush(self) -> None:
        pass

    def let_go(self, count: int, length: int) -> None:
        self._guest.flush()
        self._guest.close()


class Nobody:
    """Whom nothing is told."""

    def tell(self, replies: bytes) -> None:
        pass

    def flush(self) -> None:
        pass

    def let_go(self, count: int, length: int) -> None:
        pass


NOBODY = Nobody()


class Asked:
    """A block that the program was given, when its lines were read, and their bytes."""

    __slots__ = ("asker", "lane", "keys", "block", "since", "length", "at")

    def __init__(self, asker: Asker, lane: Lane, block: Block, since: float, length: int) -> None:
        self.asker, self.lane, self.keys, self.block, self.since, self.length = asker, lane, block.keys, block, since, length
        # which of its requests is the oldest that isn't answered
        self.at = 0

    @property
    def left(self) -> int:
        """How many lines the program owes an answer."""
        return len(self.keys) - self.at or not self.keys


class Desk:
    """Gives the program lines, tenants in turn, and hands each reply to the connection that asked.

    The program answers line by line, so the oldest line that isn't answered is the one that a reply answers. Its caller and its number
    have to be that line's too: anything else is a StrangeReply, and nobody is told it.
    """

    def __init__(self, lanes: List[Lane], own: Lane, later: Callable[[Callable[[], None]], object]) -> None:
        # has something done behind what the loop does now
        self._later = later
        self._is_later = False
        # by their tenants, and that of what the gateway asks by itself
        self.lanes: Dict[str, Lane] = {lane.tenant: lane for lane in lanes}
        self.own = own
        self._turns: Deque[Lane] = collections.deque()
        self._asked: Deque[Asked] = collections.deque()
        self._written = self._bytes_written = 0
        # whether the turn of a tenant whose lines are dear is under way
        self._is_dear_asked = False
        self._last: Optional[Asked] = None
        self._torn: List[bytes] = []
        self._to_flush: Set[Asker] = set()
        # writes to the program; none while it doesn't run
        self._write: Optional[Callable[[bytes], None]] = None
        # how long the program has worked, and had when it last answered
        self._worked: Callable[[], float] = time.monotonic
        self._had_worked = 0.0
        # of each tenant how many lines were answered by what was read last, and the longest reply
        self._answered: Dict[Lane, Tuple[int, int]] = {}
        # when the program last answered, or was last given a line while none was under way
        self.moved_at = time.monotonic()

    # ---- the program

    def open(self, write: Callable[[bytes], None], worked: Callable[[], float]) -> None:
        """The program runs, and tells how many seconds it has worked: how long it waits for a processor or a disk says nothing of a line."""
        self._write, self._worked, self._had_worked = write, worked, worked()
        self.moved_at = time.monotonic()

    def lose(self) -> None:
        """The program has ended: all that it was given is answered. What waits is asked of the next one."""
        self._write, self._last, self._is_dear_asked = None, None, False
        self._torn.clear()
        while self._asked:
            asked = self._asked.popleft()
            lost = asked.keys[asked.at :]
            if lost:
                asked.lane.lost += len(lost)
                told = b"".join([fault_to(LOST, *asked_by(key)) for key in lost])
            else:
                told = NOT_NOW if asked.block.is_step else asked.block.instead
            if asked.lane is not self.own:
                self._hand(asked.asker, told)
            self._let_go(asked, asked.left)
        self._flush()

    @property
    def is_idle(self) -> bool:
        return not self._asked and not any(lane.held for lane in self.lanes.values())

    @property
    def is_waiting(self) -> bool:
        """Whether the program owes an answer."""
        return bool(self._asked)

    # ---- what is asked

    def lines_wait(self, guest: Guest) -> None:
        """A connection has lines that wait."""
        guest.lane.wait(guest)
        self._wait(guest.lane)
        if self._asked:
            # others may have lines, too: all go in one write
            self._fill_later()
        else:
            self.fill()

    def ask(self, asker: Asker, block: Block) -> bool:
        """Asks on the gateway's own account, without a turn; false if the program doesn't run."""
        if self._write is None:
            return False
        self.own.hold(1, 0)
        self._write(self._put(Asked(asker, self.own, block, time.monotonic(), 0)))
        return True

    def close_later(self, guest: Guest) -> None:
        """Closes a connection once the program has told all that it tells behind what was answered: a fence is answered behind that."""
        if not self.ask(LastWords(guest), answered(b"")):
            guest.close()

    def fill(self) -> None:
        """Gives the program as many lines as it may have."""
        self._is_later = False
        if self._write is None:
            return
        given: List[bytes] = []
        passed_by: List[Lane] = []
        until = time.monotonic() + MOST_SECONDS_AT_ONCE
        is_late = False
        while self._turns and not is_late and self._written < MOST_WRITTEN and self._bytes_written < MOST_BYTES_WRITTEN:
            lane = self._turns.popleft()
            if lane.is_dear and self._asked:
                # the program keeps replies until it has done all that it has read, so nothing is under way when a dear turn begins
                if not self._is_dear_asked:
                    self._turns.appendleft(lane)
                    break
                # all others wait for that turn anyway, and are given lines behind it
                passed_by.append(lane)
                continue
            lane.is_in_turn = False
            guest = lane.next_guest()
            if guest is None:
                continue
            is_late = self._take_turn(lane, guest, given, until)
            if guest.waiting:
                lane.wait(guest)
            self._wait(lane)
        if passed_by:
            self._turns.extendleft(reversed(passed_by))
        if given:
            self._write(b"".join(given))
        if self._turns and is_late:
            self._fill_later()

    def _take_turn(self, lane: Lane, guest: Guest, given: List[bytes], until: float) -> bool:
        """Adds what a connection is given in its turn; true if reading that took too long."""
        share = min(lane.most_written, LINES_OF_A_ROUND // (1 + len(self._turns))) // (1 + lane.guests_in_turn)
        most = max(1, min(share, lane.most_written - lane.written, MOST_WRITTEN - self._written))
        while most > 0 and guest.waiting:
            block, since, length = guest.next_block(most)
            given.append(self._put(Asked(guest, lane, block, since, length)))
            most -= len(block.keys) or 1
            if time.monotonic() >= until:
                break
        if lane.is_dear:
            # what grains sent is delivered behind an answer: the next line isn't given before that is done, so that others come before it
            lane.hold(1, 0)
            self._is_dear_asked = True
            given.append(self._put(Asked(NOBODY, lane, answered(b""), time.monotonic(), 0)))
        return time.monotonic() >= until

    def _fill_later(self) -> None:
        if not self._is_later:
            self._is_later = True
            self._later(self.fill)

    def _wait(self, lane: Lane) -> None:
        if not lane.is_in_turn and lane.may_write:
            lane.is_in_turn = True
            self._turns.append(lane)

    def _put(self, asked: Asked) -> bytes:
        """The lines as the program is given them, whose replies are waited for from now on."""
        if not self._asked:
            self.moved_at = time.monotonic()
        self._asked.append(asked)
        self._written += asked.left
        self._bytes_written += asked.length
        asked.lane.written += asked.left
        asked.lane.requests += len(asked.keys)
        return asked.block.given

    # ---- what is replied

    def feed(self, data: bytes) -> None:
        """Takes what the program wrote, in pieces of any length; StrangeReply if no silo writes that to what was asked."""
        end = data.rfind(b"\n") + 1
        if not end:
            self._torn.append(data)
            return
        whole = b"".join([*self._torn, data[:end]])
        self._torn = [data[end:]]
        self.moved_at = now = time.monotonic()
        worked = self._worked()
        seconds, self._had_worked = max(0.0, worked - self._had_worked - SECONDS_OF_READING), worked
        try:
            self._take(whole, now)
        finally:
            self._weigh(seconds, now)
            self._flush()
        self.fill()

    def _weigh(self, seconds: float, now: float) -> None:
        """Shares out what the program has worked among the lines that it answered, by what is known of their tenants' lines.

        A sweep may take long, so where the gateway has asked too, no tenant is held to have.
        """
        if self.own in self._answered:
            seconds = 0.0
        lanes = [(lane, lane.costs.weight, *found) for lane, found in self._answered.items()]
        whole = sum([weight * count for _, weight, count, _ in lanes])
        for lane, weight, count, longest in lanes:
            lane.weigh(count, seconds * weight / whole, longest, now)
            if len(lanes) == 1:
                lane.costs.note_alone(seconds / count)
        self._answered.clear()

    def _take(self, whole: bytes, now: float) -> None:
        """Takes whole lines."""
        rest = self._take_answers(whole, now)
        if rest:
            self._take_any(rest, now)

    def _take_answers(self, whole: bytes, now: float) -> bytes:
        """Takes what answers whole blocks or their first requests, as long as nothing else comes; gives what is left.

        No line has an LF in it, so what begins as an answer does behind one is a line, and its key is whose answer it is.
        """
        answers = (b"\n" + whole[:-1]).split(ANSWER)
        at, place = 1, 0
        if answers[0] or len(answers) != whole.count(b"\n") + 1:
            return whole
        while at < len(answers) and self._asked and self._asked[0].keys:
            asked = self._asked[0]
            found = answers[at : at + asked.left]
            if not all(map(bytes.startswith, found, asked.keys[asked.at :])):
                break
            lengths = [*map(len, found)]
            end = place + sum(lengths) + len(ANSWER) * len(found)
            self._tell(asked, len(found), whole[place:end], max(lengths), now)
            at, place = at + len(found), end
        return whole[place:]

    def _take_any(self, whole: bytes, now: float) -> None:
        """The same of lines of which some are no answers, or tell faults: together what answers requests of one block."""
        lines, keys = whole.split(b"\n"), keys_of(whole)
        at = 0
        while at < len(keys):
            if not keys[at]:
                self._take_odd_line(lines[at], now)
                at += 1
                continue
            if not self._asked:
                raise StrangeReply(f"{lines[at][:80]!r} answers nothing")
            asked = self._asked[0]
            count = agreeing(keys[at : at + asked.left], asked.keys[asked.at :])
            if not count:
                raise StrangeReply(f"{lines[at][:80]!r} answers another request than the oldest")
            self._tell_lines(asked, lines[at : at + count], now)
            at += count

    def _take_odd_line(self, line: bytes, now: float) -> None:
        """Takes a line that has no request's number."""
        told = tenant_told(line)
        if told is not None:
            self._hand_told(told, line)
            return
        if not self._asked:
            raise StrangeReply(f"{line[:80]!r} answers nothing")
        asked = self._asked[0]
        if says_no_request(line):
            # the program takes the line for no request, which is said to it as it came
            self._tell_lines(asked, [line] if asked.keys else asked.block.instead.splitlines(), now)
        elif line == NOT_NOW_LINE and asked.block.is_step:
            self._hand(asked.asker, NOT_NOW)
        else:
            raise StrangeReply(f"{line[:80]!r} is no reply to the oldest")

    def _tell_lines(self, asked: Asked, replies: List[bytes], now: float) -> None:
        """Tells replies to the oldest lines of the oldest block: to one line, if it is a fence."""
        told = b"\n".join([*replies, b""])
        if FAULT in told:
            count_faults(asked.lane, replies)
        self._tell(asked, len(replies) if asked.keys else 1, told, max(map(len, replies), default=0), now)

    def _tell(self, asked: Asked, count: int, told: bytes, longest: int, now: float) -> None:
        """Tells the replies to so many lines, of which one has the most bytes."""
        if told:
            self._hand(asked.asker, told)
        if asked.keys:
            asked.lane.latency.note(now - asked.since, count)
        found, longest_found = self._answered.get(asked.lane, NOTHING)
        self._answered[asked.lane] = (found + count, max(longest, longest_found))
        if asked.asker is NOBODY:
            self._is_dear_asked = False
        else:
            self._last = asked
        if count == asked.left:
            self._asked.popleft()
        self._let_go(asked, count)

    def _hand_told(self, tenant: str, line: bytes) -> None:
        """What a grain is told comes behind a line of its tenant, and goes to the connection that this line came by."""
        last, lane = self._last, self.lanes.get(tenant)
        if lane is None:
            raise StrangeReply(f"{line[:80]!r} is told to a grain of no tenant")
        lane.told += 1
        if last is not None and (last.lane is lane or last.lane is self.lanes[OPERATOR]):
            self._hand(last.asker, line + b"\n")
        elif lane.guests:
            # the gateway's own line was the last: then any connection of the tenant has it
            self._hand(next(iter(lane.guests)), line + b"\n")

    def _hand(self, asker: Asker, replies: bytes) -> None:
        asker.tell(replies)
        self._to_flush.add(asker)

    def _let_go(self, asked: Asked, count: int) -> None:
        """So many lines of a block were answered: its bytes go with the last."""
        length = asked.length if count == asked.left else 0
        asked.at += count
        self._written -= count
        self._bytes_written -= length
        asked.lane.written -= count
        asked.lane.let_go(count, length)
        asked.asker.let_go(count, length)
        self._wait(asked.lane)

    def _flush(self) -> None:
        to_flush, self._to_flush = self._to_flush, set()
        for asker in to_flush:
            asker.flush()


def agreeing(keys: List[bytes], wanted: Sequence[bytes]) -> int:
    """How many of them, from the first on, are those that are wanted."""
    if keys == wanted:
        return len(keys)
    return next((place for place, (one, other) in enumerate(zip(keys, wanted)) if one != other), min(len(keys), len(wanted)))


def count_faults(lane: Lane, replies: List[bytes]) -> None:
    """Counts refusals by their codes."""
    for reply in replies:
        if reply.startswith(FAULT):
            lane.refusals[reply[len(FAULT) :][:2].decode()] += 1
