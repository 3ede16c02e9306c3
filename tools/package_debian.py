"""The package for Debian: where each file goes, what is said of it, and how `dpkg-deb` makes it."""

from __future__ import annotations

import gzip
import hashlib
import os
import pathlib
import re
import shutil
import subprocess
import sys
import tempfile
from typing import Dict

from package_parts import LICENSE, ROOT, Fault, Project, date

TOOLS = ROOT / "tools"
TEXTS = ROOT / "packaging"
PYTHON = "usr/lib/python3/dist-packages"
DOC = "usr/share/doc/silo"
# by the number of its machine in the head of an ELF file
ARCHITECTURES = {0x3E: "amd64", 0xB7: "arm64", 0xF3: "riscv64"}
# the programs of a package
RUNNABLE = {"usr/bin/silo", "DEBIAN/postinst", "DEBIAN/prerm", "DEBIAN/postrm"}
# where Debian's zsh looks; tools/install knows the place of everybody else's
ZSH, ZSH_OF_DEBIAN = "share/zsh/site-functions/_silo", "share/zsh/vendor-completions/_silo"
NO_DATA, DATA = '"DATA="', '"DATA=--data /var/lib/silo/%i/data"'


def said(*words: str) -> bytes:
    return subprocess.run(words, capture_output=True, check=True, stdin=subprocess.DEVNULL).stdout


def architecture_of(program: bytes) -> str:
    """For which machines the program is; for all if it is a script."""
    if not program.startswith(b"\x7fELF"):
        return "all"
    number = int.from_bytes(program[18:20], "little" if program[5:6] == b"\x01" else "big")
    if number not in ARCHITECTURES:
        raise Fault(f"the program is for a machine of the number {number}, for which there is no name here")
    return ARCHITECTURES[number]


def depends_of(program: bytes) -> str:
    """What has to be installed: the newest C library whose names the program has, and Python."""
    versions = [tuple(map(int, found.split(b"."))) for found in re.findall(rb"\x00GLIBC_(\d+\.\d+)(?=\x00)", program)]
    needed = [f"libc6 (>= {'.'.join(map(str, max(versions)))})"] if versions else []
    return ", ".join([*needed, "python3 (>= 3.9)"])


def page_for(text: bytes) -> bytes:
    return gzip.compress(text, 9, mtime=0)


def files_of(program: pathlib.Path) -> Dict[str, bytes]:
    """All that is installed, by its place."""
    with tempfile.TemporaryDirectory() as room:
        said(sys.executable, os.fspath(TOOLS / "install"), room, os.fspath(program))
        installed = {path.relative_to(room).as_posix(): path.read_bytes() for path in pathlib.Path(room).rglob("*") if path.is_file()}
    installed[ZSH_OF_DEBIAN] = installed.pop(ZSH)
    installed["share/man/man1/silo.1.gz"] = page_for(installed.pop("share/man/man1/silo.1"))
    files = {f"usr/{name}": content for name, content in installed.items()}
    project = Project()
    files.update({f"{PYTHON}/{name}": content for name, content in project.files().items()})
    files[f"{PYTHON}/{project.file_name}.dist-info/METADATA"] = project.metadata().encode()
    files[f"{PYTHON}/{project.file_name}.dist-info/INSTALLER"] = b"dpkg\n"
    files["usr/lib/systemd/system/silo@.service"] = unit_for(program)
    files["usr/lib/sysusers.d/silo.conf"] = (TEXTS / "silo.sysusers").read_bytes()
    files[f"{DOC}/copyright"] = LICENSE.read_bytes()
    files[f"{DOC}/examples/example.conf"] = (TEXTS / "example.conf").read_bytes()
    files[f"{DOC}/changelog.gz"] = page_for((ROOT / "CHANGELOG.md").read_bytes())
    files.update({f"{DOC}/{name}": (ROOT / "docs" / name).read_bytes() for name in ("gateway.md", "program.md", "formats.md")})
    return files


def unit_for(program: pathlib.Path) -> bytes:
    """The unit, which has the program keep its data if it is one that can."""
    text = (TEXTS / "silo@.service").read_text(encoding="utf-8")
    if NO_DATA not in text:
        raise Fault(f"packaging/silo@.service has no {NO_DATA}")
    can_keep = b" --data " in said(os.path.abspath(program), "answer", "--help")
    return (text.replace(NO_DATA, DATA) if can_keep else text).encode()


def write(root: pathlib.Path, name: str, content: bytes) -> None:
    path = root / name
    path.parent.mkdir(parents=True, exist_ok=True)
    path.write_bytes(content)
    path.chmod(0o755 if name in RUNNABLE else 0o644)


def control_of(program: bytes, version: str, files: Dict[str, bytes]) -> bytes:
    text = (TEXTS / "debian" / "control").read_text(encoding="utf-8")
    size = sum(len(content) // 1024 + 1 for content in files.values())
    words = {"VERSION": version, "ARCHITECTURE": architecture_of(program), "SIZE": str(size), "DEPENDS": depends_of(program)}
    return re.sub(r"(?<=: )[A-Z]+$", lambda found: words[found[0]], text, flags=re.MULTILINE).encode()


def make_deb(program: pathlib.Path, out: pathlib.Path) -> pathlib.Path:
    """Writes it into a folder, in place of an older one, and gives its path."""
    if shutil.which("dpkg-deb") is None:
        raise Fault("there is no dpkg-deb: the .deb is made where dpkg is, and --wheel makes the wheel alone")
    files = files_of(program)
    built = files["usr/bin/silo"]
    version = said(os.path.abspath(program), "--version").decode().split()[-1]
    texts = {"DEBIAN/control": control_of(built, version, files)}
    texts["DEBIAN/md5sums"] = "".join(f"{hashlib.md5(files[name]).hexdigest()}  {name}\n" for name in sorted(files)).encode()
    texts.update({f"DEBIAN/{name}": (TEXTS / "debian" / name).read_bytes() for name in ("postinst", "prerm", "postrm")})
    path = out / f"silo_{version}_{architecture_of(built)}.deb"
    beside = out / f".{path.name}.{os.getpid()}"
    with tempfile.TemporaryDirectory() as room:
        root = pathlib.Path(room, "root")
        for name, content in {**files, **texts}.items():
            write(root, name, content)
        (root / "etc" / "silo").mkdir(parents=True)
        words = ["dpkg-deb", "--root-owner-group", "-Zxz", "--build", os.fspath(root), os.fspath(beside)]
        environment = {**os.environ, "SOURCE_DATE_EPOCH": str(date())}
        try:
            subprocess.run(words, capture_output=True, check=True, stdin=subprocess.DEVNULL, env=environment)
            os.replace(beside, path)
        finally:
            beside.unlink(missing_ok=True)
    return path
