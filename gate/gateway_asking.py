"""A process that asks by a gateway all the time, with threads and with asyncio, and logs what it asked and what it was told.

    python3 gateway_asking.py ADDRESS LOG

It connects anew whenever the gateway has ended, and ends by SIGTERM, once what it asked is answered.
"""

from __future__ import annotations

import asyncio
import os
import pathlib
import signal
import sys
import threading
import time
from typing import Optional

from silo import Silo, SiloEnded, SiloError, SiloTimeout, aio

# how long an answer may take on a quiet machine, also while the gateway and the program are started again
SECONDS = 25.0
THREADS, TASKS, UNDER_WAY = 3, 3, 20
LOST, NO_KIND = 90, 22


def patience(seconds: float) -> float:
    """As long as that takes where more processes want to run than there are processors."""
    return seconds * max(1.0, os.getloadavg()[0] / (os.cpu_count() or 1))


class Log:
    """Lines that are written by one call each, so that a kill leaves whole ones."""

    def __init__(self, path: str) -> None:
        self._file = os.open(path, os.O_WRONLY | os.O_CREAT | os.O_APPEND, 0o600)
        self.is_over = False
        self.name = pathlib.Path(path).stem

    def write(self, word: str, rest: str) -> None:
        os.write(self._file, f"{word} {rest}\n".encode())

    def settle(self, grain: str, outcome: object, most: int) -> None:
        """What came of an `add` of one to a counter that nobody else has."""
        if isinstance(outcome, int):
            self.write("told", grain)
            if not 1 <= outcome <= most:
                self.write("strange", f"{grain} was told {outcome}, and has asked {most} times")
        elif isinstance(outcome, SiloEnded) and not outcome.under_way:
            self.write("undone", grain)
        elif isinstance(outcome, SiloEnded) or isinstance(outcome, SiloError) and outcome.code == LOST:
            self.write("unknown", grain)
        elif isinstance(outcome, SiloTimeout):
            self.write("strange", f"{grain} got no answer in {outcome.seconds:g} s")
        else:
            self.write("strange", f"{grain} was told {outcome!r}")

    def settle_echo(self, word: str, outcome: object) -> None:
        """What came of a call whose answer has a word of its own."""
        if isinstance(outcome, SiloError) and outcome.code == NO_KIND:
            if word not in outcome.text:
                self.write("strange", f"{word} was told {outcome.text}")
        elif isinstance(outcome, SiloTimeout):
            self.write("strange", f"{word} got no answer in {outcome.seconds:g} s")
        elif not isinstance(outcome, SiloEnded) and not (isinstance(outcome, SiloError) and outcome.code == LOST):
            self.write("strange", f"{word} was told {outcome!r}")


def connected(address: str, log: Log) -> Optional[Silo]:
    """None if it is to end, or nobody listens."""
    if log.is_over:
        return None
    try:
        return Silo.connect(address, timeout=patience(SECONDS))
    except (OSError, SiloEnded):
        time.sleep(0.02)
        return None


def outcome_of(silo: Silo, grain: str, method: str, args: object = None) -> object:
    try:
        return silo.call("red/web", grain, method, args)
    except Exception as fault:
        return fault


def by_threads(address: str, log: Log) -> None:
    """Threads that share a silo. Each adds to a counter of its own, and asks for what has its own word."""
    asked = [0] * THREADS
    while not log.is_over:
        silo = connected(address, log)
        if silo is None:
            continue
        threads = [threading.Thread(target=ask_on, args=(silo, log, place, asked)) for place in range(THREADS)]
        for thread in threads:
            thread.start()
        for thread in threads:
            thread.join()
        silo.close()


def ask_on(silo: Silo, log: Log, place: int, asked: list[int]) -> None:
    """Until the silo has ended."""
    grain = f"counter/red:{log.name}-thread{place}"
    outcome: object = None
    while not (log.is_over or isinstance(outcome, SiloEnded)):
        log.write("asked", grain)
        asked[place] += 1
        outcome = outcome_of(silo, grain, "add", {"by": 1})
        log.settle(grain, outcome, asked[place])
        word = f"{log.name}t{place}n{asked[place]}"
        log.settle_echo(word, outcome_of(silo, f"{word}/red:a", "get"))


def by_many(address: str, log: Log) -> None:
    """One thread that has many under way."""
    grain, asked = f"counter/red:{log.name}-many", 0
    while not log.is_over:
        silo = connected(address, log)
        if silo is None:
            continue
        outcomes: list[object] = []
        while not (log.is_over or any(isinstance(it, SiloEnded) for it in outcomes)):
            outcomes, answers = [], []
            for _ in range(UNDER_WAY):
                log.write("asked", grain)
                asked += 1
                try:
                    answers.append(silo.ask("red/web", "call", grain=grain, method="add", args={"by": 1}))
                except SiloEnded as fault:
                    outcomes.append(fault)
            for answer in answers:
                try:
                    outcomes.append(answer.result())
                except Exception as fault:
                    outcomes.append(fault)
            for outcome in outcomes:
                log.settle(grain, outcome, asked)
        silo.close()


async def by_tasks(address: str, log: Log) -> None:
    asked = [0] * TASKS

    async def ask(silo: aio.Silo, place: int) -> None:
        grain = f"counter/red:{log.name}-task{place}"
        outcome: object = None
        while not (log.is_over or isinstance(outcome, SiloEnded)):
            log.write("asked", grain)
            asked[place] += 1
            try:
                outcome = await silo.call("red/web", grain, "add", {"by": 1})
            except Exception as fault:
                outcome = fault
            log.settle(grain, outcome, asked[place])

    while not log.is_over:
        try:
            silo = await aio.Silo.connect(address, timeout=patience(SECONDS)).start()
        except (OSError, SiloEnded):
            await asyncio.sleep(0.02)
            continue
        await asyncio.gather(*(ask(silo, place) for place in range(TASKS)))
        await silo.close()


def main(address: str, path: str) -> None:
    log = Log(path)
    signal.signal(signal.SIGTERM, lambda *signalled: setattr(log, "is_over", True))
    threads = [threading.Thread(target=run, args=(address, log)) for run in (by_threads, by_many)]
    for thread in threads:
        thread.start()
    asyncio.run(by_tasks(address, log))
    for thread in threads:
        thread.join()


if __name__ == "__main__":
    main(*sys.argv[1:])
