"""What the programs of bench/ share: how they are called, what they say first, and the program that `silo` is compared with."""

from __future__ import annotations

import argparse
import os
import pathlib
import platform
import shutil
import subprocess
import time
from typing import List, Optional

TOP = pathlib.Path(__file__).resolve().parent.parent
PLAIN = TOP / "bench" / "plain_rust"


def reader_of(doc: Optional[str], rounds: int) -> argparse.ArgumentParser:
    """The reader of a program's words: PROGRAM and --rounds, and --help, which shows all of its text."""
    reader = argparse.ArgumentParser(description=doc, formatter_class=argparse.RawDescriptionHelpFormatter)
    reader.add_argument("program", metavar="PROGRAM", help="a build of silo")
    reader.add_argument("--rounds", type=int, default=rounds, metavar="N", help=f"how often each is run in turn ({rounds})")
    return reader


def path_of(program: str) -> str:
    found = shutil.which(program) or os.path.abspath(program)
    if not os.access(found, os.X_OK):
        raise SystemExit(f"bench: {program} is no program that can be run")
    return os.path.realpath(found)


def build() -> str:
    """The path of plain_rust, which cargo builds if it isn't there or has changed. No network is needed."""
    if shutil.which("cargo") is None:
        raise SystemExit("bench: cargo, which builds bench/plain_rust, is missing; name another program by --beside")
    command = ["cargo", "build", "--quiet", "--release", "--offline", "--target-dir", str(PLAIN / "out")]
    if subprocess.run(command, cwd=PLAIN, stdin=subprocess.DEVNULL, check=False).returncode != 0:
        raise SystemExit("bench: bench/plain_rust was not built")
    return str(PLAIN / "out" / "release" / "plain_rust")


def said_by(command: List[str]) -> str:
    """The first line that a command writes, or nothing."""
    try:
        done = subprocess.run(command, cwd=TOP, stdin=subprocess.DEVNULL, capture_output=True, text=True, check=False)
    except OSError:
        return ""
    return (done.stdout.splitlines() or [""])[0]


def where() -> str:
    """The machine, the moment and the commit, as bench/README.md has them beside its figures."""
    with open("/proc/meminfo", encoding="utf-8") as file:
        memory = int(file.readline().split()[1]) / 2**20
    commit = said_by(["git", "describe", "--always", "--dirty"])
    redis = next((word[2:] for word in said_by(["redis-server", "--version"]).split() if word.startswith("v=")), "none")
    return (f"{os.cpu_count()} processors, {memory:.0f} GB, load {os.getloadavg()[0]:.1f}, Linux {platform.release()}, Python "
            f"{platform.python_version()}, Redis {redis}; {time.strftime('%Y-%m-%d %H:%M', time.gmtime())} UTC; commit {commit or 'unknown'}")
