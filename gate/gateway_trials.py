"""What gate/check-gateway tries, and what it counts."""

from __future__ import annotations

import argparse
import asyncio
import os
import pathlib
import random
import tempfile
import time
from typing import Any, Callable, Dict, List

from gateway_floods import HEAD, WAYS, Flooded, flooded
from gateway_fuzz import Fuzz
from gateway_kills import Arena
from tests.gateways import Gateway, Room, echo
from tests.test_gateway_faults import Steady

# connections at once, and bytes that the gateway may have in memory, whatever is tried
AT_ONCE, MOST_RESIDENT = 40, 150 * 2**20
# how often a flood is measured at most
TIMES = 3
SECONDS = 20.0


class Trial:
    def __init__(self, words: argparse.Namespace) -> None:
        self.words = words
        self._passed = self._failed = 0

    def add(self, what: str, is_well: bool, told: Any = "") -> None:
        if is_well:
            self._passed += 1
        else:
            self._failed += 1
            print(f"FAILED {what}: {told}", flush=True)

    def told(self) -> int:
        print(f"{self._passed} passed, {self._failed} failed")
        return 1 if self._failed else 0


def figures_of(number: int) -> Dict[str, int]:
    """What a process has: bytes in memory, and open files."""
    pages = int(pathlib.Path(f"/proc/{number}/statm").read_text().split()[1])
    return {"resident": pages * os.sysconf("SC_PAGE_SIZE"), "files": len(os.listdir(f"/proc/{number}/fd"))}


def settle(is_so: Callable[[], bool]) -> bool:
    """Waits until it is so; false if it doesn't come."""
    until = time.monotonic() + SECONDS
    while not is_so():
        if time.monotonic() > until:
            return False
        time.sleep(0.05)
    return True


def middle_and_late(times: List[float]) -> str:
    """The middle and the 99th of 100, in milliseconds."""
    ordered = sorted(times)
    return f"p50 {1000 * ordered[len(ordered) // 2]:.1f} ms, p99 {1000 * ordered[len(ordered) * 99 // 100]:.1f} ms"


def fuzz(trial: Trial) -> None:
    with tempfile.TemporaryDirectory() as tokens:
        pathlib.Path(tokens, "red.token").write_text("a token of red's own")
        gateway = Gateway("--tick", "0.1", "--sweep", "1", "--tcp", "0", "--tokens", tokens, tenants=["red:10000:4", "blue:100:4"])
        try:
            gateway.wait_for("the program runs")
            gateway.wait_for("the gateway listens")
            fuzzed(trial, gateway)
        finally:
            gateway.close()


def fuzzed(trial: Trial, gateway: Gateway) -> None:
    port = int(gateway.told().partition("let in at 127.0.0.1:")[2].split()[0])
    wires = {name: gateway.connect(name) for name in ("red", "blue")}
    steady = [Steady(wire, f"{name}/steady", name) for name, wire in wires.items()]
    for name, wire in wires.items():
        wire.ask(echo(1, "first", f"{name}/steady"))
    before = figures_of(gateway.process.pid)
    for it in steady:
        it.start()
    it, begun = Fuzz(gateway.folder, trial.words.seed, port), time.monotonic()
    asyncio.run(it.run(trial.words.connections, AT_ONCE))
    seconds = time.monotonic() - begun
    for one in steady:
        one.end()
    trial.add("each of the odd connections hears what it asked", not it.wrong, it.wrong[:3])
    trial.add("the steady ones lose nothing", [one.wrong + [one.lost] for one in steady] == [[0], [0]] and not any(map(Steady.is_alive, steady)),
              [(one.wrong, one.lost, one.is_alive()) for one in steady])  # fmt: skip
    trial.add("nothing is under way any more", settle(lambda: nothing_is_left(gateway)), gateway.page("/metrics")[-2000:])
    behind = figures_of(gateway.process.pid)
    trial.add("the gateway's memory is bounded", behind["resident"] < MOST_RESIDENT, behind)
    trial.add("it has no more files open than before", settle(lambda: figures_of(gateway.process.pid)["files"] <= before["files"]), (before, behind))
    trial.add("it told no error", "error:" not in gateway.told(), gateway.told()[-500:])
    with gateway.connect("blue") as wire:
        said = wire.ask(b'{"op":"status","from":"blue/web","id":1}\n')["ok"]
    trial.add("nothing of red's has reached a grain of blue", said["activations"] == 0, said)
    resident = figures_of(gateway.program())["resident"]
    for wire in wires.values():
        wire.close()
    trial.add("it ends in order", gateway.end() == 0)
    print(f"fuzz: {it.whole} connections to their end, {it.gone} that went away, {it.strangers} others, in {seconds:.0f} s; "
          f"the steady ones {middle_and_late(steady[0].times + steady[1].times)}; memory of the gateway {before['resident'] >> 20} to "
          f"{behind['resident'] >> 20} MiB, of the program {resident >> 20} MiB", flush=True)  # fmt: skip


def nothing_is_left(gateway: Gateway) -> bool:
    return all(gateway.figure(f'silo_{what}{{tenant="{name}"}}') == count
               for name in ("red", "blue") for what, count in (("held", 0), ("under_way", 0), ("connections", 1)))  # fmt: skip


def kills(trial: Trial) -> None:
    with Room() as room:
        arena = Arena(pathlib.Path(room), random.Random(f"kills {trial.words.seed}"))
        begun = time.monotonic()
        try:
            arena.run(trial.words.kills)
            faults = arena.faults()
        finally:
            arena.close()
    trial.add("nobody waits for ever", not arena.hung, arena.hung[:3])
    trial.add("nobody is told another's reply", not faults.strange, faults.strange[:3])
    if arena.keeps:
        trial.add("nothing that was told is lost", not faults.lost, faults.lost[:3])
    else:
        print("kills: the program has no --data, so it isn't looked at what is lost")
    trial.add("something was asked all the while", faults.told > trial.words.kills, faults.told)
    counts = ", ".join(f"{count} of the {name}" for name, count in arena.counts.items())
    print(f"kills: {counts}, in {time.monotonic() - begun:.0f} s; {faults.told:,} answers, and {faults.unknown:,} of which it wasn't known", flush=True)


def is_late(trial: Trial, row: Flooded) -> bool:
    """By the lower of both: beside other programs it is the work that counts."""
    return min(row.late, row.work) >= float(trial.words.most_milliseconds)


def floods(trial: Trial) -> None:
    print(HEAD)
    rows: List[Flooded] = []
    for way in WAYS:
        row = flooded(way, trial.words.seconds)
        # once more if it was too late: what another program did to this machine it seldom does thrice
        for _ in range(0 if trial.words.table else TIMES - 1):
            if is_late(trial, row):
                row = flooded(way, trial.words.seconds)
        print(row.row(), flush=True)
        rows.append(row)
    if trial.words.table:
        return
    for row in rows:
        trial.add(f"{row.name}: the other's p99 is below {trial.words.most_milliseconds:g} ms", not is_late(trial, row), (row.late, row.work))
        trial.add(f"{row.name}: the gateway's memory is bounded", row.gateway < MOST_RESIDENT, row.gateway)
        if trial.words.most_memory is not None:
            trial.add(f"{row.name}: the program's memory is bounded", row.program < trial.words.most_memory << 20, row.program)


PARTS: Dict[str, Callable[[Trial], None]] = {"fuzz": fuzz, "kills": kills, "floods": floods}
