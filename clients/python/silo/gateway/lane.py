"""What a tenant has under way: its connections take turns in it, and it has a bound of its own."""

from __future__ import annotations

import collections
import itertools
import time
from typing import Deque, Dict, Optional, Set

from silo.gateway.asked import Reader
from silo.gateway.figures import Histogram
from silo.gateway.guest import Guest

# how many lines of a tenant the program is given before it has answered them, at most, and of one of which nothing is known
MOST_WRITTEN, MOST_AT_FIRST = 256, 8
# and how much they may be: so long, and so many bytes of replies
BUDGET_SECONDS = 0.002
BUDGET_BYTES = 1_048_576
# how long a tenant's costly lines have to take together before they count: any line looks costly if the system stops the program within it
COSTLY_SECONDS = 0.02
# in how long they count for half as much, and a long reply
HALF_LIFE = 2.0
# as often a tenant's times are made less, in seconds
SECONDS_OF_A_TERM = 0.1
# what a line is taken to take at least
LEAST_SECONDS = 0.000_002


class Costs:
    """How many lines of a tenant the program may be given, by how long its lines took of late."""

    def __init__(self) -> None:
        # how long they took, by the bits of the number of such lines that the budget has room for
        self._took = [0.0] * (MOST_WRITTEN.bit_length() + 1)
        self._term = time.monotonic()
        self.most = MOST_AT_FIRST
        # what a line takes by itself, as far as that is known
        self._seconds = LEAST_SECONDS

    @property
    def weight(self) -> float:
        """How much one of its lines may have taken of what was answered with lines of others."""
        return self._seconds / self.most

    def note_alone(self, seconds: float) -> None:
        """A line took so long by itself. It may have been stopped within, so it counts for twice the one before at most."""
        self._seconds = max(LEAST_SECONDS, min(seconds, 2 * self._seconds))

    def note(self, count: int, seconds: float, now: float) -> None:
        """So many lines took so long each."""
        room = min(MOST_WRITTEN, int(BUDGET_SECONDS / max(seconds, 1e-9)))
        if room == self.most == MOST_WRITTEN:
            return
        if now >= self._term + SECONDS_OF_A_TERM:
            part = 0.5 ** ((now - self._term) / HALF_LIFE)
            self._took = [took * part for took in self._took]
            self._term = now
        if room < MOST_WRITTEN:
            self._took[room.bit_length()] += count * seconds
        costly = itertools.accumulate(self._took)
        # the least room of which, and of less, there was enough to count
        most = next((1 << bits >> 1 or 1 for bits, took in enumerate(costly) if took >= COSTLY_SECONDS), MOST_WRITTEN)
        # what cost little may be followed by more of it, step by step
        self.most = min(most, 2 * self.most if room > self.most else self.most)


class Lane:
    """A tenant's part of the gateway. The operator has one too, whose tenant is ''."""

    def __init__(self, name: str, tenant: str, most: int, most_bytes: int) -> None:
        self.name, self.tenant = name, tenant
        self.reader = Reader(tenant)
        self._most, self._most_bytes = most, most_bytes
        # connections with lines that wait, the one whose turn it is first
        self._turns: Deque[Guest] = collections.deque()
        # connections that aren't read since the lane is full, in the order in which they are read again
        self._stopped: Dict[Guest, None] = {}
        self.guests: Set[Guest] = set()
        self.is_in_turn = False
        # lines and bytes that were read and aren't answered yet; those lines that the program was given
        self.held = self.held_bytes = self.written = 0
        self.costs = Costs()
        # the bytes of a reply that counts, since when, and how many lines the program may be given by that and by what lines cost
        self._longest, self._longest_at, self.most_written = 1.0, time.monotonic(), MOST_AT_FIRST
        self.requests = self.told = self.lost = 0
        self.refusals: Dict[str, int] = collections.Counter()
        self.latency = Histogram()
        # what `status` last told of it
        self.status: Dict[str, int] = {}

    @property
    def is_full(self) -> bool:
        return self.held >= self._most or self.held_bytes >= self._most_bytes

    @property
    def may_write(self) -> bool:
        """Whether the program may be given a line more of it."""
        return bool(self._turns) and self.written < self.most_written

    @property
    def is_dear(self) -> bool:
        """Whether its lines were found to take long."""
        return self.costs.most < MOST_AT_FIRST

    @property
    def guests_in_turn(self) -> int:
        """How many of its connections wait for their turn."""
        return len(self._turns)

    def wait(self, guest: Guest) -> None:
        """A connection has lines that wait."""
        if not guest.is_in_turn:
            guest.is_in_turn = True
            self._turns.append(guest)

    def next_guest(self) -> Optional[Guest]:
        """Whose turn it is, if anybody's. What doesn't read its replies has none."""
        while self._turns:
            guest = self._turns.popleft()
            guest.is_in_turn = False
            if guest.may_write:
                return guest
        return None

    def hold(self, lines: int, length: int) -> None:
        self.held += lines
        self.held_bytes += length

    def let_go(self, lines: int, length: int) -> None:
        """Lines were answered. A connection that waited for that is read again; all of them if nothing is held."""
        self.held -= lines
        self.held_bytes -= length
        while self._stopped and not self.is_full:
            guest = next(iter(self._stopped))
            del self._stopped[guest]
            guest.look()
            if self.held:
                break

    def stop(self, guest: Guest) -> None:
        self._stopped[guest] = None

    def weigh(self, count: int, seconds: float, length: int, now: float) -> None:
        """So many lines took so long each, and the longest of their replies is so long."""
        self.costs.note(count, seconds, now)
        self._longest = max(length, self._longest * 0.5 ** ((now - self._longest_at) / HALF_LIFE), 1.0)
        self._longest_at = now
        self.most_written = max(1, min(self.costs.most, int(BUDGET_BYTES / self._longest)))
