"""The pages of figures and of health, made from what the gateway counts."""

from __future__ import annotations

import contextlib
import os
import pathlib
import time
from typing import Callable, Dict, List, Optional, Tuple

from silo.gateway.checkpoint import Last
from silo.gateway.clock import Clock
from silo.gateway.desk import Desk
from silo.gateway.doors import OPERATOR_NAME, Doors
from silo.gateway.figures import Page
from silo.gateway.keeper import Keeper
from silo.gateway.lane import Lane

# how late the answer to a tick may be before the gateway is said to be unwell
MOST_SECONDS_LATE = 5.0

# what is told of a checkpoint, by the names of its counts
FIGURES_OF_A_CHECKPOINT = {"rows": "Rows", "idle_grains": "Active grains, all idle,", "sends": "Sends that weren't delivered"}

Samples = List[Tuple[Dict[str, str], float]]


class Watched:
    """What can be asked of a gateway that runs."""

    def __init__(self, desk: Desk, keeper: Keeper, clock: Clock, doors: Doors, data: Optional[pathlib.Path]) -> None:
        self._desk, self._keeper, self._clock, self._doors, self._data = desk, keeper, clock, doors, data
        self._last = None if data is None else Last(data)
        self.is_ending = False

    async def run(self) -> None:
        """Reads what is told of checkpoints. Until it is cancelled."""
        if self._last is not None:
            await self._last.run()

    def health(self) -> Tuple[int, str]:
        late = time.monotonic() - self._desk.moved_at if self._desk.is_waiting else 0.0
        if self.is_ending:
            return 503, "the gateway is ending\n"
        if self._keeper.number is None:
            return 503, "the program doesn't run\n"
        if late > MOST_SECONDS_LATE:
            return 503, f"the program owes an answer for {late:.0f} s\n"
        return 200, "ok\n"

    def metrics(self) -> Tuple[int, str]:
        page = Page()
        self._tell_requests(page)
        self._tell_silo(page)
        self._tell_data(page)
        self._tell_gateway(page)
        return 200, page.text()

    def _by_tenant(self, figure: Callable[[Lane], float]) -> Samples:
        return [({"tenant": lane.tenant or OPERATOR_NAME}, figure(lane)) for lane in self._desk.lanes.values()]

    def _tell_requests(self, page: Page) -> None:
        lanes = [({"tenant": lane.tenant or OPERATOR_NAME}, lane) for lane in self._desk.lanes.values()]
        refusals = [({**labels, "code": code}, float(count)) for labels, lane in lanes for code, count in sorted(lane.refusals.items())]
        page.family("silo_requests_total", "counter", "Requests that the silo was given.", self._by_tenant(lambda lane: lane.requests))
        page.family("silo_refusals_total", "counter", "Lines that were answered with a code.", refusals)
        page.family("silo_told_total", "counter", "What grains were told.", self._by_tenant(lambda lane: lane.told))
        page.family("silo_lost_total", "counter", "Requests that were under way when the silo ended.", self._by_tenant(lambda lane: lane.lost))
        page.family("silo_held", "gauge", "Lines that were read and aren't answered.", self._by_tenant(lambda lane: lane.held))
        page.family("silo_under_way", "gauge", "Lines that the silo was given and hasn't answered.", self._by_tenant(lambda lane: lane.written))
        page.family("silo_connections", "gauge", "Connections.", self._by_tenant(lambda lane: len(lane.guests)))
        page.histogram("silo_latency_seconds", "From reading a request to its answer.", [(labels, lane.latency) for labels, lane in lanes])

    def _tell_silo(self, page: Page) -> None:
        known = sorted({name for lane in self._desk.lanes.values() for name in lane.status if name.isidentifier()})
        for name in known:
            page.family(f"silo_status_{name}", "gauge", "What `status` last told.", self._status_of(name))
        if self._keeper.number is not None:
            page.family("silo_resident_bytes", "gauge", "Memory of the silo's process.", [({}, resident_bytes(self._keeper.number))])

    def _tell_data(self, page: Page) -> None:
        if self._data is None or self._last is None:
            return
        page.family("silo_data_bytes", "gauge", "Bytes of the files of the silo's data.", [({"file": name}, size) for name, size in sizes_in(self._data)])
        checkpoint = self._last.checkpoint
        if checkpoint is None:
            return
        age, known = max(0.0, time.time() - checkpoint.written), sorted(checkpoint.tenants.items())
        page.family("silo_checkpoint_info", "gauge", "The number of the checkpoint that the next ones tell of.", [({"number": checkpoint.number}, 1)])
        page.family("silo_checkpoint_age_seconds", "gauge", "How long ago it was written.", [({}, age)])
        for name, what in FIGURES_OF_A_CHECKPOINT.items():
            samples: Samples = [({"tenant": tenant}, getattr(counts, name)) for tenant, counts in known]
            page.family(f"silo_checkpoint_{name}", "gauge", f"{what} at that checkpoint.", samples)

    def _status_of(self, name: str) -> Samples:
        return [({"tenant": lane.tenant}, lane.status[name]) for lane in self._desk.lanes.values() if isinstance(lane.status.get(name), int)]

    def _tell_gateway(self, page: Page) -> None:
        page.family("silo_up", "gauge", "Whether the silo's process runs.", [({}, float(self._keeper.number is not None))])
        page.family("silo_starts_total", "counter", "How often the silo was started.", [({}, self._keeper.starts)])
        page.family("silo_ticks_total", "counter", "Ticks of the clock.", [({}, self._clock.ticks.count)])
        page.family("silo_sweeps_total", "counter", "Sweeps.", [({}, self._clock.sweeps.count)])
        page.family("silo_refused_tokens_total", "counter", "Connections that gave no tenant's token.", [({}, self._doors.refused_tokens)])
        page.family("silo_refused_connections_total", "counter", "Connections for which there was no room.", [({}, self._doors.refused_connections)])


def sizes_in(folder: pathlib.Path) -> List[Tuple[str, float]]:
    """The files of a folder, with their bytes. One that goes meanwhile is left out."""
    found: List[Tuple[str, float]] = []
    with contextlib.suppress(OSError), os.scandir(folder) as entries:
        for entry in entries:
            with contextlib.suppress(OSError):
                if entry.is_file(follow_symlinks=False):
                    found.append((entry.name, float(entry.stat(follow_symlinks=False).st_size)))
    return sorted(found)


def resident_bytes(number: int) -> float:
    """What a process has in memory; 0 where the system doesn't tell."""
    try:
        return int(pathlib.Path(f"/proc/{number}/statm").read_text().split()[1]) * os.sysconf("SC_PAGE_SIZE")
    except (OSError, IndexError, ValueError):
        return 0.0
