"""What was asked of a silo and isn't answered yet."""

from __future__ import annotations

import collections
import itertools
from typing import Any, Callable, Deque, Dict, Iterator, List, Optional, Protocol, Tuple

from silo.errors import SiloEnded, SiloError
from silo.lines import FIRST_OF_GATEWAY, NOT_A_REQUEST, StrangeReply, outcome_of, read_replies, request_line
from silo.names import checked_caller


class Slot(Protocol):
    """What waits for an outcome: a value, a SiloError or a SiloEnded."""

    def put(self, outcome: Any) -> None: ...


class Exchange:
    """Numbers requests, and hands each reply to the slot that waits for it.

    It makes no call of the system, and waits for nothing, so threads and event loops can stand around it. Any thread may ask;
    one alone may feed. It has no lock that an interrupt could leave locked: each step on what threads share is one call of C.
    """

    def __init__(self, on_told: Optional[Callable[[str, Any], None]]) -> None:
        # the status that the silo ended with, and what it told
        self.ended: Optional[Tuple[int, str]] = None
        # set by who ends the input: nothing more may be asked
        self.closed = False
        self._on_told = on_told
        self._numbers: Dict[str, Iterator[int]] = {}
        self._asked: Dict[Tuple[str, int], Slot] = {}
        self._fences: Deque[Slot] = collections.deque()
        self._was_done = True
        # why a gateway doesn't let this connection in, if it has told that: then it has read nothing of it
        self._refusal = ""
        self._torn: List[bytes] = []

    def check(self) -> None:
        """Raises what the silo ended by, if it has, or was closed."""
        if self.ended is not None:
            raise SiloEnded(*self.ended)
        if self.closed:
            raise SiloEnded(0, "it was closed")

    @property
    def is_alone(self) -> bool:
        """Whether just one request is under way, and no step: then the silo has read all lines that were written."""
        return len(self._asked) == 1 and not self._fences

    @property
    def is_done(self) -> bool:
        """Whether the input was ended, and all that was asked is answered."""
        return self.closed and not self._asked and not self._fences

    def under_way(self) -> List[Slot]:
        """What waits for a reply, the oldest first. No other thread may ask meanwhile."""
        return [*self._asked.values(), *self._fences]

    def request(self, op: str, caller: str, members: str, slot: Slot) -> bytes:
        """The line of a request, for whose reply the slot waits from now on."""
        if self.closed:
            self.check()
        numbers = self._numbers.get(caller) if type(caller) is str else None
        if numbers is None:
            numbers = self._numbers.setdefault(checked_caller(caller), itertools.count(1))
        number = next(numbers)
        line = request_line(op, caller, number, members)
        self._asked[caller, number] = slot
        # looked at behind the entry: who ends sets it first, and then gives up all entries
        if self.ended is not None:
            self._asked.pop((caller, number), None)
            raise SiloEnded(*self.ended)
        return line

    def fence(self, slot: Slot) -> None:
        """Has the slot wait for the next fence that is answered: whether the step before it was possible.

        Fences are answered in their order, and tell nothing of whose they are, so one alone may write their lines.
        """
        self._fences.append(slot)
        if self.ended is not None:
            self._give_up()

    def feed(self, data: bytes) -> None:
        """Takes what the silo wrote, in pieces of any length; StrangeReply if no silo writes that."""
        end = data.rfind(b"\n")
        if end < 0:
            self._torn.append(data)
            return
        whole = b"".join([*self._torn, data[:end]])
        self._torn = [data[end + 1 :]]
        for reply in read_replies(whole):
            self._take(reply)

    def end(self, status: int, told: str, fault: str = "") -> None:
        """Gives all that wait, and all that ask later, a SiloEnded. The fault is what is wrong with what it wrote, if something is."""
        if fault:
            told = f"{told.strip()}; {fault}" if told.strip() else fault
        self.ended = (status, self._refusal or told)
        self._give_up()

    def _take(self, reply: Dict[str, Any]) -> None:
        asker, number = reply.get("from"), reply.get("id")
        if type(asker) is str:
            outcome = reply["ok"] if "ok" in reply else outcome_of(reply)
            if type(number) is int:
                slot = self._asked.pop((asker, number), None)
                if slot is None:
                    raise StrangeReply(f"{reply!r} answers nothing that was asked")
                slot.put(outcome)
            elif "id" in reply:
                raise StrangeReply(f"{reply!r} answers nothing that was asked")
            elif self._on_told is not None:
                self._on_told(asker, outcome)
        elif reply == {"text": "not now"}:
            self._was_done = False
        elif reply.get("error") == NOT_A_REQUEST and "from" not in reply and self._fences:
            was_done, self._was_done = self._was_done, True
            self._fences.popleft().put(was_done)
        elif "from" not in reply and isinstance(refusal := outcome_of(reply), SiloError) and refusal.code >= FIRST_OF_GATEWAY:
            self._refusal = str(refusal)
        else:
            raise StrangeReply(f"{reply!r} answers nothing that was asked")

    def _give_up(self) -> None:
        status, told = self.ended or (0, "")
        for waiting, take in ((self._asked, self._pop_asked), (self._fences, self._fences.popleft)):
            while waiting:
                try:
                    take().put(SiloEnded(status, told, under_way=not self._refusal))
                except LookupError:
                    # another thread took the last one
                    break

    def _pop_asked(self) -> Slot:
        return self._asked.popitem()[1]
