"""A shell by hand over a silo: python -m silo TENANT:ACT:MAIL.."""

from __future__ import annotations

import json
import os
import re
import sys
from typing import Any, List

from silo import Silo, SiloEnded, SiloError, SiloTimeout
from silo.values import object_of

HELP = """GRAIN METHOD [NAME=VALUE..]   calls a method: counter/red:a add by=3, sheet/red:s put name=k value="two words"
GRAIN poke VALUE              writes the grain's row past the grain
status TENANT, tick NOW, sweep, help, quit"""
# a word, in which a text in double quotes may hold spaces
WORD = re.compile(r'(?:"(?:[^"\\]|\\.)*"|\S)+')


def value_of(text: str) -> Any:
    """A word as JSON, or else as text."""
    try:
        return json.loads(text)
    except (ValueError, RecursionError):
        return text


def obey(silo: Silo, words: List[str]) -> Any:
    """What a line of the shell gives."""
    if words == ["sweep"]:
        return silo.sweep()
    if words[0] == "tick" and len(words) == 2:
        return silo.tick(int(words[1]))
    if words[0] == "status" and len(words) == 2:
        return silo.status(f"{words[1]}/shell")
    kind, slash, rest = words[0].partition("/")
    if not slash or len(words) < 2:
        raise ValueError(HELP)
    caller = f"{rest.partition(':')[0]}/shell"
    if words[1] == "poke" and len(words) == 3:
        return silo.poke(caller, words[0], value_of(words[2]))
    pairs = [word.partition("=") for word in words[2:]]
    return silo.call(caller, words[0], words[1], {name: value_of(text) for name, _, text in pairs} or None)


def shell(tenants: List[str]) -> int:
    """Reads lines until they end, one says `quit`, or Ctrl-C is pressed; gives the status of the silo."""
    program = os.environ.get("SILO", "silo")
    silo = Silo(*tenants, program=program, on_told=lambda grain, outcome: print(f"{grain} is told {outcome}", flush=True))
    try:
        return obey_all(silo)
    except KeyboardInterrupt:
        return silo.close()


def obey_all(silo: Silo) -> int:
    while True:
        print("> " if sys.stdin.isatty() else "", end="", flush=True)
        line = sys.stdin.readline()
        words = WORD.findall(line)
        if not line or words == ["quit"]:
            return silo.close()
        try:
            if words:
                print(json.dumps(obey(silo, words), ensure_ascii=False, default=object_of), flush=True)
        except (SiloError, SiloTimeout, ValueError) as fault:
            print(fault, flush=True)
        except SiloEnded as fault:
            print(fault, file=sys.stderr)
            return fault.status


def main() -> int:
    if len(sys.argv) < 2 or sys.argv[1].startswith("-"):
        sys.exit("usage: python -m silo TENANT:ACT:MAIL..")
    try:
        return shell(sys.argv[1:])
    except (ValueError, OSError) as fault:
        sys.exit(f"silo: {fault}")


if __name__ == "__main__":
    sys.exit(main())
