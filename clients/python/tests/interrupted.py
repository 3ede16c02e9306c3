"""Asks a silo in the main thread while another thread interrupts it again and again."""

from __future__ import annotations

import concurrent.futures
import os
import signal
import threading
import time

from silo import Silo

# how long it is tried, and how often the main thread has to have been interrupted by then
SECONDS_OF_ALL = 1.0
LEAST_INTERRUPTS = 11
SECONDS_BETWEEN = 0.002
WEB, COUNTER = "red/web", "counter/red:a"


class Interrupts:
    """While it is armed, the next signal raises a KeyboardInterrupt, wherever the main thread is, and disarms it."""

    def __init__(self) -> None:
        self.armed = self.is_over = False
        self.count = 0
        signal.signal(signal.SIGINT, self.interrupt)

    def interrupt(self, number: int, frame: object) -> None:
        if self.armed:
            self.armed = False
            self.count += 1
            raise KeyboardInterrupt

    def send(self) -> None:
        while not self.is_over:
            time.sleep(SECONDS_BETWEEN)
            os.kill(os.getpid(), signal.SIGINT)


def ask(silo: Silo, turn: int) -> None:
    if turn % 5 == 0:
        silo.tick(turn)
    elif turn % 5 == 1:
        silo.ask(WEB, "call", grain=COUNTER, method="get").result()
    elif turn % 5 == 2:
        asked = silo.ask(WEB, "status")
        asked.add_done_callback(lambda it: None)
        concurrent.futures.wait([asked], timeout=60)
    else:
        silo.call(WEB, COUNTER, "get")


def main() -> None:
    silo = Silo("red:2:4", program=os.environ["SILO"], timeout=60)
    until = time.monotonic() + SECONDS_OF_ALL
    interrupts, turn = Interrupts(), 0
    thread = threading.Thread(target=interrupts.send)
    thread.start()
    while time.monotonic() < until or interrupts.count < LEAST_INTERRUPTS:
        turn += 1
        try:
            interrupts.armed = True
            ask(silo, turn)
            interrupts.armed = False
        except KeyboardInterrupt:
            pass
    interrupts.armed = False
    interrupts.is_over = True
    thread.join()
    silo.call(WEB, COUNTER, "add", {"by": 1})
    told = [silo.call(WEB, COUNTER, "get"), silo.tick(10**6), silo.ask(WEB, "status").result()["clock"], silo.close()]
    print("as before" if told == [1, True, 10**6, 0] else (told, interrupts.count))


if __name__ == "__main__":
    main()
