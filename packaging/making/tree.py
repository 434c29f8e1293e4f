"""The tree of files that the package installs, each where it lies below /."""

import os
import subprocess
from dataclasses import dataclass
from pathlib import Path
from typing import NoReturn

from bozintar.processes import Failed

from . import completion, manual

LIB, DOC = "usr/lib/bozintar", "usr/share/doc/bozintar"
UNITS, UNITS_TO = "packaging/systemd", "lib/systemd/system"
SETTINGS = "packaging/files"
# The folders with Python, which are copied as they are: programs find all their modules there.
FOLDERS = ("pilot", "python")
# What lies in these folders and isn't installed: it is for a clone.
LEFT_OUT = ("pilot/install", "pilot/speed")
# Debian's packages of the libraries that the programs may use.
LIBRARIES = {
    "aiohttp": "python3-aiohttp",
    "jinja2": "python3-jinja2",
    "paho": "python3-paho-mqtt",
    "prometheus_client": "python3-prometheus-client",
}
# What operators set in /etc/bozintar.
CONFFILES = (
    *("lnsd.conf", "bridges.conf", "stores.conf", "console.conf", "door.conf"),
    *("gateways", "names", "adr-except"),
)
# What Python programs read beside their modules.
PAGES = ("pilot/console/pages", "pilot/console/static")
# The suffixes of settings and rules that are installed as examples.
EXAMPLES = (".conf", ".acl", ".yml")
SHEBANGS = ((b"#!/usr/bin/env python3", b"#!/usr/bin/python3"),)


def fail(why: str) -> NoReturn:
    """Ends the work on the package."""
    raise Failed(why)


def ran(*words: str | Path, folder: Path | None = None, env: dict[str, str] | None = None) -> str:
    """What a program prints. If it fails, the work on the package ends."""
    try:
        ended = subprocess.run(
            [str(word) for word in words],
            stdin=subprocess.DEVNULL,
            capture_output=True,
            text=True,
            check=False,
            cwd=folder,
            env=env,
        )
    except FileNotFoundError:
        fail(f"there is no program {words[0]}; apt-get install debhelper dh-python dpkg-dev git")
    if ended.returncode:
        said = (ended.stderr or ended.stdout).strip()
        fail(f"{words[0]} failed: {said[-2000:] or ended.returncode}")
    return ended.stdout


@dataclass
class Tree:
    """The files of the package below a folder, made from a clone: of files that git knows, and with
    modes that don't depend on the umask of the clone."""

    top: Path
    at: Path
    edition: manual.Edition

    def put(self, to: str, content: str | bytes, mode: int = 0o644) -> None:
        """Writes a file."""
        path = self.at / to
        path.parent.mkdir(parents=True, exist_ok=True)
        path.write_bytes(content.encode() if isinstance(content, str) else content)
        path.chmod(mode)

    def copy(self, source: str, to: str) -> None:
        """Copies a file of the clone. A program in Python is for Debian's Python."""
        path = self.top.resolve() / source
        if path.resolve() != path:  # it may lead to a secret
            fail(f"{source} is a symbolic link or below one, and isn't packed")
        content = path.read_bytes()
        for old, new in SHEBANGS:
            if content.startswith(old):
                content = new + content[len(old) :]
        self.put(to, content, 0o755 if os.access(path, os.X_OK) else 0o644)

    def tracked(self, *folders: str) -> list[str]:
        """The files of folders that git knows."""
        names = ran("git", "-C", self.top, "ls-files", "-z", "--", *folders).split("\0")
        return sorted(name for name in names if name and (self.top / name).exists())

    def manual(self, command: str, text: str, also: list[str]) -> None:
        """Writes the man page of a command."""
        page = manual.page(command, text, self.edition, also)
        self.put(f"usr/share/man/man1/{command.replace(' ', '-')}.1", page)


def is_python(top: Path, name: str) -> bool:
    """Whether a file is a module or a program in Python."""
    path = top / name
    return name.endswith(".py") or path.read_bytes()[:30].startswith(SHEBANGS[0][0])


def put_python(tree: Tree) -> list[str]:
    """Copies the programs in Python and their modules; returns the programs."""
    names = [name for name in tree.tracked(*FOLDERS) if not name.startswith(LEFT_OUT)]
    found = [name for name in names if is_python(tree.top, name)]
    for name in (*found, *tree.tracked(*PAGES)):
        tree.copy(name, f"{LIB}/{name}")
    return [name for name in found if os.access(tree.top / name, os.X_OK)]


def libraries(tree: Tree) -> list[str]:
    """Debian's packages of the libraries that the copied Python names."""
    files = [file for file in (tree.at / LIB).rglob("*") if file.is_file()]
    texts = [file.read_text(encoding="utf-8") for file in files]
    return [of for name, of in LIBRARIES.items() if any(name in text for text in texts)]


def put_commands(tree: Tree, programs: list[str]) -> None:
    """Puts each program on the PATH as bozintar-NAME, with a man page."""
    names = {f"bozintar-{Path(program).name}": program for program in programs}
    (tree.at / "usr/bin").mkdir(parents=True, exist_ok=True)
    for name, source in sorted(names.items()):
        link = tree.at / "usr/bin" / name
        link.symlink_to(f"../lib/bozintar/{source}")
        tree.manual(name, ran(link, "--help"), ["lnsd"])


def put_server(tree: Tree, program: bytes) -> None:
    """Puts lnsd, its man pages and its completion."""
    tree.put("usr/bin/lnsd", program, 0o755)
    lnsd = tree.at / "usr/bin/lnsd"
    top = ran(lnsd, "--help")
    names = [name for name in completion.commands_of(top) if name != "help"]
    helps = {name: ran(lnsd, name, "--help") for name in names}
    tree.manual("lnsd", top, [f"lnsd-{name}" for name in names])
    for name, text in helps.items():
        tree.manual(f"lnsd {name}", text, ["lnsd"])
    tree.put("usr/share/bash-completion/completions/lnsd", completion.completion(top, helps))


def put_simulator(tree: Tree, program: Path) -> None:
    """Puts lns-sim, whose help is a text of the package, since the program takes no words."""
    tree.put("usr/bin/lns-sim", program.read_bytes(), 0o755)
    text = (tree.top / SETTINGS / "lns-sim.txt").read_text(encoding="utf-8")
    tree.manual("lns-sim", text, ["lnsd"])


def put_units(tree: Tree) -> None:
    """Puts the units, and what adds to units of other packages."""
    for name in tree.tracked(UNITS):
        tree.copy(name, f"{UNITS_TO}/{Path(name).relative_to(UNITS)}")


def put_documents(tree: Tree) -> None:
    """Puts documents, examples and settings."""
    for name in ("README.md", "SECURITY.md", *tree.tracked("docs/*.md")):
        tree.copy(name, f"{DOC}/{Path(name).name}")
    tree.copy("pilot/README.md", f"{DOC}/PILOT.md")
    tree.copy("pilot/console/README.md", f"{DOC}/CONSOLE.md")
    tree.copy("pilot/adr.md", f"{DOC}/ADR.md")
    # dh_installchangelogs would take a CHANGELOG for Debian's own
    tree.copy("CHANGELOG.md", f"{DOC}/NEWS.md")
    tree.copy(f"{SETTINGS}/README.Debian", f"{DOC}/README.Debian")
    for name in tree.tracked("pilot"):
        if name.endswith(EXAMPLES):
            tree.copy(name, f"{DOC}/examples/{Path(name).name}")
    for name in CONFFILES:
        tree.copy(f"{SETTINGS}/{name}", f"etc/bozintar/{name}")
