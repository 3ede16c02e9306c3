"""The words of the command line."""

from __future__ import annotations

import argparse
import dataclasses
import os
import pathlib
from typing import List, Optional, Sequence

from silo.names import check_tenants

MOST_SECONDS = 86_400.0
MOST_LINES = 1_000_000


@dataclasses.dataclass(frozen=True)
class Options:
    folder: pathlib.Path
    tenants: List[str]
    # further words for the program
    words: List[str]
    program: str
    # the folder of the silo's data
    data: Optional[pathlib.Path]
    tick: float
    sweep: float
    tcp: Optional[int]
    tokens: Optional[pathlib.Path]
    monitor_tcp: Optional[int]
    groups: Optional[str]
    most_of_connection: int
    most_of_tenant: int
    most_connections: int
    grace: float

    @property
    def names(self) -> List[str]:
        """The tenants' names."""
        return [word.partition(":")[0] for word in self.tenants]

    @property
    def command(self) -> List[str]:
        """The program's command line."""
        data = [] if self.data is None else ["--data", str(self.data)]
        return [self.program, "answer", *data, *self.words, "--", *self.tenants]


def seconds(text: str) -> float:
    number = float(text)
    if not 0 <= number <= MOST_SECONDS:
        raise ValueError(text)
    return number


def count(text: str) -> int:
    number = int(text)
    if not 1 <= number <= MOST_LINES:
        raise ValueError(text)
    return number


def port(text: str) -> int:
    number = int(text)
    if not 0 <= number <= 65_535:
        raise ValueError(text)
    return number


def parser() -> argparse.ArgumentParser:
    words = argparse.ArgumentParser(
        prog="python -m silo.gateway",
        description="Runs `silo answer` and listens at FOLDER/TENANT.sock for each tenant, FOLDER/_operator.sock for all of them, and "
        "FOLDER/_monitor.sock for /metrics and /health.",
        epilog="Words behind `--` are handed to the program, such as `-- --sends 100`.",
    )
    words.add_argument("folder", metavar="FOLDER", type=pathlib.Path)
    words.add_argument("tenants", metavar="TENANT:ACT:MAIL", nargs="+")
    words.add_argument("--program", metavar="PATH", default="silo", help="what is run in place of `silo`")
    words.add_argument("--data", metavar="DIR", type=pathlib.Path, help="what is answered is kept there, and a program that is started goes on from it")
    words.add_argument("--tick", metavar="SECONDS", type=seconds, default=1.0, help="how often the clock is set; 0 is never [1]")
    words.add_argument("--sweep", metavar="SECONDS", type=seconds, default=60.0, help="how often idle grains are let go; 0 is never [60]")
    words.add_argument("--tcp", metavar="PORT", type=port, help="tenants with tokens are let in at this port of 127.0.0.1")
    words.add_argument("--tokens", metavar="FOLDER", type=pathlib.Path, help="where the files TENANT.token are")
    words.add_argument("--monitor-tcp", metavar="PORT", type=port, help="/metrics and /health at this port of 127.0.0.1 too")
    words.add_argument("--groups", metavar="PREFIX", help="the socket of TENANT belongs to the group PREFIXTENANT")
    words.add_argument("--most-of-connection", metavar="N", type=count, default=1_024, help="lines of a connection under way, at most [1024]")
    words.add_argument("--most-of-tenant", metavar="N", type=count, default=4_096, help="lines of a tenant under way, at most [4096]")
    words.add_argument("--most-connections", metavar="N", type=count, default=200, help="connections of a tenant, at most [200]")
    words.add_argument("--grace", metavar="SECONDS", type=seconds, default=10.0, help="how long an orderly end may take [10]")
    return words


def read_options(given: Sequence[str]) -> Options:
    """Ends the process where the words aren't right, as `argparse` does."""
    words = list(given)
    further: List[str] = []
    if "--" in words:
        place = words.index("--")
        words, further = words[:place], words[place + 1 :]
    reader = parser()
    options = Options(words=further, **vars(reader.parse_args(words)))
    try:
        check_tenants(options.tenants)
    except ValueError as fault:
        reader.error(str(fault))
    if (options.tcp is None) != (options.tokens is None):
        reader.error("--tcp and --tokens go together")
    # the program makes the folder itself, and not those above it
    if options.data is not None and not os.path.isdir(above := os.path.dirname(os.path.abspath(options.data))):
        reader.error(f"--data {options.data}: there is no folder {above}")
    return options
