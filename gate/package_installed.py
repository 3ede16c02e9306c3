"""What is tried of the package for Debian, in a root of its own."""

from __future__ import annotations

import contextlib
import os
import pathlib
import re
import shlex
import shutil
import signal
import socket
import stat
import subprocess
import sys
import time
from typing import Dict, Iterator, List, NamedTuple, Optional, Tuple

from package_checks import SECONDS, Checks

PACKAGES = "usr/lib/python3/dist-packages"
UNIT = "usr/lib/systemd/system/silo@.service"
NAME = "trial"
CONF = "TENANTS=red:10:4 blue:10:4\nWORDS=--age 900000\n"
# a score of systemd-analyze above which a unit isn't well confined
MOST_EXPOSED = 3.0
# runs a module of the packages of a folder, as `python -I -m` would if they stood where the system's are
RUN = "import runpy, sys; sys.path.insert(0, sys.argv.pop(1)); runpy.run_module(sys.argv.pop(1), run_name='__main__', alter_sys=True)"
ASK = """
import sys
sys.path.insert(0, sys.argv[1])
from silo import Counter, Silo
with Silo.connect("unix:" + sys.argv[2], timeout=20) as silo:
    print(Counter(silo.client("red/web"), "a").add(by=3))
"""


def run(*words: str, **more: object) -> subprocess.CompletedProcess[str]:
    return subprocess.run(words, capture_output=True, text=True, stdin=subprocess.DEVNULL, check=False, timeout=SECONDS, **more)  # type: ignore[call-overload]


class User(NamedTuple):
    number: int
    group: int
    python: str


def tried_installed(checks: Checks, deb: pathlib.Path, folder: pathlib.Path) -> None:
    root = folder / "root"
    is_by_dpkg = os.geteuid() == 0 and shutil.which("dpkg") is not None
    said_of_package(checks, deb)
    if is_by_dpkg:
        installed(checks, deb, root)
    else:
        checks.skip("dpkg", "only root installs: it is unpacked")
        run("dpkg-deb", "-x", os.fspath(deb), os.fspath(root))
    looked_at(checks, root)
    (root / f"etc/silo/{NAME}.conf").write_text(CONF)
    with contextlib.suppress(OSError):
        served(checks, root, user_of(checks, root) if is_by_dpkg else None)
    if is_by_dpkg:
        removed(checks, root)


def said_of_package(checks: Checks, deb: pathlib.Path) -> None:
    rows = [line.split(None, 5) for line in run("dpkg-deb", "-c", os.fspath(deb)).stdout.splitlines()]
    modes = {row[5]: (row[0], row[1]) for row in rows}
    odd = [name for name, (mode, owner) in modes.items() if owner != "root/root" or mode not in ("drwxr-xr-x", "-rw-r--r--") and name != "./usr/bin/silo"]
    checks.add("files are root's, and anybody reads them", not odd and modes["./usr/bin/silo"][0] == "-rwxr-xr-x", odd)
    fields = run("dpkg-deb", "-f", os.fspath(deb)).stdout
    checks.add("it says what it needs", "\nDepends: " in fields and "python3 (>= 3.9)" in fields and not re.search(r": [A-Z]{4,}$", fields, re.M))


# ---- dpkg

def dpkg(root: pathlib.Path, *words: str) -> subprocess.CompletedProcess[str]:
    """dpkg in that root: its scripts run outside of it, and are told where it is; what a package needs is not there."""
    return run("dpkg", f"--root={root}", "--force-script-chrootless", "--force-depends", "--force-bad-path", f"--log={root}/dpkg.log", *words)


def installed(checks: Checks, deb: pathlib.Path, root: pathlib.Path) -> None:
    for name in ("var/lib/dpkg/info", "var/lib/dpkg/updates", "etc"):
        (root / name).mkdir(parents=True, exist_ok=True)
    (root / "var/lib/dpkg/status").touch()
    for _ in range(2):
        # a second time, as an upgrade
        ran = dpkg(root, "--install", os.fspath(deb))
        checks.add("dpkg installs it", ran.returncode == 0, ran.stderr)
    checks.add("it is installed", "Status: install ok installed" in dpkg(root, "--status", "silo").stdout)
    ran = dpkg(root, "--verify", "silo")
    checks.add("each file has its sum", ran.returncode == 0 and not ran.stdout, ran.stdout)


def removed(checks: Checks, root: pathlib.Path) -> None:
    # as Python leaves it where root has run it
    compiled = root / PACKAGES / "silo" / "aio" / "__pycache__"
    compiled.mkdir()
    (compiled / "client.cpython-311.pyc").touch()
    ran = dpkg(root, "--remove", "silo")
    # that there are folders of others isn't worth a word
    told = [line for line in ran.stderr.splitlines() if "not empty so not removed" not in line and "silo: dependency problems" not in line]
    checks.add("dpkg removes it", ran.returncode == 0, told)
    left = [path for path in root.rglob("*") if "silo" in path.name and path.parts[-2] != "info"]
    names = sorted(path.relative_to(root).as_posix() for path in left if not path.relative_to(root).as_posix().startswith("var/lib/silo/"))
    checks.add("nothing of it is left but what is the administrator's", names == ["etc/silo", "run/silo", "var/lib/silo"], names)
    checks.add("what the administrator wrote is left", (root / f"etc/silo/{NAME}.conf").read_text() == CONF)


# ---- what stands there

def looked_at(checks: Checks, root: pathlib.Path) -> None:
    script, word = root / "usr/share/bash-completion/completions/silo", "COMP_WORDS=(silo au); COMP_CWORD=1; _silo; echo ${COMPREPLY[@]}"
    checks.add("bash completes it", run("bash", "-c", f"source {shlex.quote(str(script))}; {word}").stdout == "audit\n")
    page = root / "usr/share/man/man1/silo.1.gz"
    if shutil.which("man") is None:
        checks.skip("the manual page", "there is no man")
    else:
        ran = run("man", "--warnings", "-E", "UTF-8", "-l", os.fspath(page), env={**os.environ, "MANROFFSEQ": "", "LC_ALL": "C.UTF-8"})
        checks.add("man shows the page", ran.returncode == 0 and "silo answer" in ran.stdout and not ran.stderr, ran.stderr)
    for script_name in ("postinst", "prerm", "postrm"):
        text = pathlib.Path(__file__).resolve().parent.parent / "packaging" / "debian" / script_name
        checks.add(f"a shell reads {script_name}", run("sh", "-n", os.fspath(text)).returncode == 0)
    if shutil.which("systemd-analyze") is None:
        checks.skip("systemd's look at the unit", "there is no systemd-analyze")
        return
    unit = verified(checks, root)
    ran = run("systemd-analyze", "security", "--offline=true", "--no-pager", os.fspath(unit))
    score = re.search(r"Overall exposure level for \S+: ([\d.]+)", ran.stdout)
    checks.add("the unit is confined", score is not None and float(score[1]) <= MOST_EXPOSED, (score and score[0]) or ran.stderr)


def verified(checks: Checks, root: pathlib.Path) -> pathlib.Path:
    """systemd finds nothing wrong with the unit, once what it names is here."""
    unit = root.parent / f"silo@{NAME}.service"
    text = (root / UNIT).read_text()
    unit.write_text(re.sub(r"file:\S+|man:\S+", "", text.replace("--program /usr/bin/silo", f"--program {root}/usr/bin/silo")))
    ran = run("systemd-analyze", "verify", "--man=no", os.fspath(unit))
    told = [line for line in ran.stderr.splitlines() if unit.name in line and "/usr/bin/python3" not in line]
    checks.add("systemd takes the unit", not told, told)
    return unit


# ---- the service

def user_of(checks: Checks, root: pathlib.Path) -> Optional[User]:
    """Who runs the service, as the package made them in that root, and a Python that they may run."""
    users = (root / "etc/passwd").read_text().splitlines() if (root / "etc/passwd").exists() else []
    rows = [row.split(":") for row in users if row.startswith("silo:")]
    if not rows:
        checks.skip("the service's user", "there is no systemd-sysusers")
        return None
    checks.add("the package makes a user", len(rows) == 1 and rows[0][5] == "/var/lib/silo" and rows[0][6].endswith("nologin"), rows)
    number, group = int(rows[0][2]), int(rows[0][3])
    for python in (sys.executable, "/usr/bin/python3"):
        with contextlib.suppress(OSError):
            if run(python, "-I", "-c", "", user=number, group=group, extra_groups=[]).returncode == 0:
                return User(number, group, python)
    checks.skip("the service's user", "they may not run a Python that is here")
    return None


class Unit:
    """The unit as systemd reads it, but for that all stands below a root."""

    def __init__(self, root: pathlib.Path) -> None:
        text = (root / UNIT).read_text().replace("%i", NAME)
        self.lines: Dict[str, List[str]] = {}
        for key, said in re.findall(r"^(\w+)=(.*)$", text, re.M):
            self.lines.setdefault(key, []).append(said)
        self.root = root
        words: Dict[str, str] = dict(one.split("=", 1) for line in self.lines["Environment"] for one in shlex.split(line))
        conf = (root / self.lines["EnvironmentFile"][0].lstrip("/")).read_text()
        words.update(line.split("=", 1) for line in conf.splitlines() if "=" in line and not line.startswith("#"))
        self._words = words

    def folder(self, key: str) -> Tuple[pathlib.Path, int]:
        """The folder that systemd makes for it, and its mode."""
        top = {"RuntimeDirectory": "run", "StateDirectory": "var/lib"}[key]
        return self.root / top / self.lines[key][0], int(self.lines[f"{key}Mode"][0], 8)

    def command(self, python: str) -> List[str]:
        words: List[str] = []
        for word in self.lines["ExecStart"][0].split():
            words += self._words.get(word[1:], "").split() if word.startswith("$") else [word]
        python_word, isolated, is_module, module, *rest = words
        if [python_word, isolated, is_module] != ["/usr/bin/python3", "-I", "-m"]:
            raise AssertionError(f"the unit doesn't begin Python as this trial knows it: {words}")
        below = [f"{self.root}{word}" if re.match("/(usr|run|var)/", word) else word for word in rest]
        return [python, "-I", "-B", "-c", RUN, f"{self.root}/{PACKAGES}", module, *below]


@contextlib.contextmanager
def started(unit: Unit, user: Optional[User]) -> Iterator[Tuple[subprocess.Popen[bytes], pathlib.Path]]:
    """The service, and the folder of its sockets, which goes with it as systemd has it go."""
    for key in ("RuntimeDirectory", "StateDirectory"):
        folder, mode = unit.folder(key)
        folder.mkdir(parents=True, exist_ok=True)
        folder.chmod(mode)
        if user is not None:
            os.chown(folder, user.number, user.group)
    who = {} if user is None else {"user": user.number, "group": user.group, "extra_groups": []}
    runtime, state = unit.folder("RuntimeDirectory")[0], unit.folder("StateDirectory")[0]
    command = unit.command(sys.executable if user is None else user.python)
    service = subprocess.Popen(command, cwd=state, stdin=subprocess.DEVNULL, stderr=subprocess.PIPE, umask=int(unit.lines["UMask"][0], 8), **who)  # type: ignore[call-overload]
    try:
        until = time.monotonic() + SECONDS
        while not (runtime / "_monitor.sock").exists() and service.poll() is None and time.monotonic() < until:
            time.sleep(0.05)
        yield service, runtime
    finally:
        if service.poll() is None:
            service.kill()
        service.communicate()
        shutil.rmtree(runtime)


def page_of(runtime: pathlib.Path, path: str) -> str:
    with socket.socket(socket.AF_UNIX) as asked:
        asked.settimeout(SECONDS)
        asked.connect(os.fspath(runtime / "_monitor.sock"))
        asked.sendall(f"GET {path} HTTP/1.1\r\nHost: silo\r\n\r\n".encode())
        with asked.makefile("rb") as told:
            return told.read().decode()


def served(checks: Checks, root: pathlib.Path, user: Optional[User]) -> None:
    """The service is started, asked, and told to end, twice."""
    unit = Unit(root)
    is_kept = "--data" in " ".join(unit.command(""))
    wanted = [3, 6] if is_kept else [3, 3]
    for turn, sum_wanted in enumerate(wanted):
        with started(unit, user) as (service, runtime):
            asked = run(sys.executable, "-I", "-B", "-c", ASK, f"{root}/{PACKAGES}", os.fspath(runtime / "red.sock"))
            checks.add("the service answers", asked.stdout == f"{sum_wanted}\n", asked.stdout + asked.stderr)
            if turn == 0:
                modes = {path.name: stat.S_IMODE(path.stat().st_mode) for path in runtime.glob("*.sock")}
                checks.add("sockets are its user's and group's", len(modes) == 4 and set(modes.values()) == {0o660}, modes)
                checks.add("it is well", page_of(runtime, "/health").startswith("HTTP/1.1 200") and "silo_up 1" in page_of(runtime, "/metrics"))
                with contextlib.suppress(OSError):
                    owner = pathlib.Path(f"/proc/{service.pid}").stat().st_uid
                    checks.add("it runs as its user", user is None or owner == user.number, owner)
            service.send_signal(signal.SIGTERM)
            told = service.communicate(timeout=SECONDS)[1].decode()
            checks.add("it ends in order", service.returncode == 0 and "error" not in told and "the gateway ends" in told, told)
            checks.add("no socket is left", not list(runtime.glob("*.sock")))
