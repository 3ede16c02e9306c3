"""The shell, and the programs that pages show."""

from __future__ import annotations

import os
import re
import signal
import subprocess
import sys
import tempfile
import unittest

from . import beside
from .beside import CLIENT, ROOT, SECONDS


def heed_interrupts() -> None:
    signal.signal(signal.SIGINT, signal.SIG_DFL)


class Pages(unittest.TestCase):
    def test_the_shell(self) -> None:
        environment = {**os.environ, "SILO": beside.program}
        lines = [b"counter/red:a add by=3", b"what", b"tick -1", b"tick 9223372036854775808", b'sheet/red:s put name=k value="two words"',
                 b"sheet/red:s get name=k", b"sheet/red:s put name=k value=" + b"[" * 100_000, b"status red x", b"tick 5", b"quit"]  # fmt: skip
        words = [sys.executable, "-m", "silo", "red:2:4"]
        ran = subprocess.run(words, input=b"\n".join(lines), cwd=CLIENT, env=environment, capture_output=True, check=False)
        told = ran.stdout.decode().splitlines()
        self.assertEqual((ran.returncode, ran.stderr, told[0], told[1][:5]), (0, b"", "3", "GRAIN"))
        self.assertEqual((told[4][:3], told[5][:3], told[6], told[7], told[8][:8], told[-1]), ("now", "now", "null", '"two words"', "the line", "true"))

    def test_the_shell_that_is_interrupted(self) -> None:
        environment = {**os.environ, "SILO": beside.program}
        words = [sys.executable, "-m", "silo", "red:2:4"]
        pipes = dict.fromkeys(("stdin", "stdout", "stderr"), subprocess.PIPE)
        # what runs behind a script may have been started with this signal ignored
        with subprocess.Popen(words, cwd=CLIENT, env=environment, preexec_fn=heed_interrupts, **pipes) as shell:
            assert shell.stdin is not None and shell.stdout is not None
            shell.stdin.write(b"counter/red:a add by=3\n")
            shell.stdin.flush()
            self.assertEqual(shell.stdout.readline(), b"3\n")
            shell.send_signal(signal.SIGINT)
            self.assertEqual((shell.wait(SECONDS), shell.stderr and shell.stderr.read()), (0, b""))

    def test_the_shell_without_tenants(self) -> None:
        for words in ([], ["--help"], ["red"]):
            ran = subprocess.run([sys.executable, "-m", "silo", *words], cwd=CLIENT, capture_output=True, check=False)
            self.assertEqual((ran.returncode, ran.stdout, len(ran.stderr.splitlines())), (1, b"", 1))

    def told_by_example(self, number: int) -> bytes:
        """What an example of the client's page prints, given the program as `silo` on the PATH."""
        page = (CLIENT / "README.md").read_text(encoding="utf-8")
        example = re.findall(r"```python\n(.*?)```", page, re.S)[number]
        with tempfile.TemporaryDirectory() as folder:
            os.symlink(beside.program, f"{folder}/silo")
            environment = {**os.environ, "PATH": f"{folder}:{os.environ['PATH']}", "PYTHONPATH": str(CLIENT)}
            ran = subprocess.run([sys.executable, "-W", "error", "-c", example], env=environment, capture_output=True, check=False)
        self.assertEqual(ran.stderr, b"")
        return ran.stdout

    def test_the_examples(self) -> None:
        self.assertEqual(self.told_by_example(0), b"3\n7\n40: tenant red may not call a grain of tenant blue\n")
        self.assertEqual(self.told_by_example(1), b"3\n6\n")
        self.assertEqual(self.told_by_example(2), b"2\n0\n")
        self.assertEqual(self.told_by_example(3), b"[1, 2, 3]\n")

    def test_the_first_program(self) -> None:
        page = (ROOT / "README.md").read_text(encoding="utf-8")
        file = CLIENT / "users.py"
        self.assertIn(f"```python\n{file.read_text(encoding='utf-8')}```", page)
        ran = subprocess.run([sys.executable, str(file)], cwd=ROOT, capture_output=True, check=False)
        told = "".join(f"    {line}\n" for line in ran.stdout.decode().splitlines())
        self.assertEqual((ran.stderr, len(told.splitlines())), (b"", 3))
        self.assertIn(f"\n\n{told}\n", page)
