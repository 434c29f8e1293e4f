"""A Debian 12 in a folder, which boots by systemd-nspawn and has no network beyond loopback."""

import os
import shutil
import tempfile
from pathlib import Path

from bozintar.processes import Failed, Process, await_that

from .counting import Trials, needed, run

MIRROR = "http://deb.debian.org/debian"
PATH = "PATH=/usr/sbin:/usr/bin:/sbin:/bin"
ENV = ("env", "-i", PATH, "LC_ALL=C.UTF-8", "DEBIAN_FRONTEND=noninteractive")
INCLUDE = "systemd,systemd-sysv,dbus"


def make_base(trials: Trials, base: Path, package: Path) -> None:
    """Makes a Debian 12 with the files of all packages that this one needs or recommends."""
    if not (base / "etc/debian_version").exists():
        needed("debootstrap", "--variant=minbase", f"--include={INCLUDE}", "bookworm", base, MIRROR)
        trials.step("debootstrap of Debian 12")
    shutil.copyfile("/etc/resolv.conf", base / "etc/resolv.conf")
    shutil.copyfile(package, base / "bozintar.deb")
    inside = ("chroot", base, *ENV)
    needed(*inside, "apt-get", "update", "-q")
    needed(*inside, "apt-get", "install", "-y", "-q", "--download-only", "/bozintar.deb")
    (base / "bozintar.deb").unlink()
    trials.step("packages that it needs are fetched")


class Container:
    """A root that has booted."""

    def __init__(self, trials: Trials, base: Path, root: Path) -> None:
        needed("cp", "-a", base, root)
        (root / "etc/hosts").write_text("127.0.0.1 localhost\n", encoding="ascii")
        self.root, self.trials = root, trials
        words = ("--boot", "--register=no", "--keep-unit", "--private-network", "--resolv-conf=off")
        self.nspawn = Process("boot", str(root.parent), "systemd-nspawn", "-q", "-D", root, *words)
        trials.callback(self.nspawn.clean)
        self.boot()
        trials.callback(self.shut_down)

    def boot(self) -> None:
        """Boots it."""
        self.nspawn.start(start_new_session=True)
        await_that("the first process of the root", self.first)
        states = ("running\n", "degraded\n")
        await_that("the boot", lambda: self.run("systemctl", "is-system-running")[1] in states, 120)

    def shut_down(self) -> None:
        """Shuts it down."""
        self.nspawn.end(seconds=120)

    def first(self) -> str:
        """The id of the process that is number 1 inside."""
        if not self.nspawn.is_running():
            raise Failed(f"systemd-nspawn ended: {self.nspawn.said()[-1000:]}")
        pid = self.nspawn.pid
        try:
            found = Path(f"/proc/{pid}/task/{pid}/children").read_text(encoding="ascii").split()
        except OSError:
            return ""
        return found[0] if found else ""

    def words(self, *words: str) -> tuple[str, ...]:
        """The words that run a command inside."""
        return ("nsenter", "-t", self.first(), *"-m -u -i -n -p -r -w".split(), *ENV, *words)

    def run(self, *words: str, timeout: float = 600) -> tuple[int, str, str]:
        """Runs a command inside: its status, and both outputs."""
        return run(*self.words(*words), timeout=timeout)

    def does(self, *words: str, timeout: float = 600) -> str:
        """What a command inside prints, which has to end well."""
        return needed(*self.words(*words), timeout=timeout)

    def start(self, name: str, *words: str) -> Process:
        """Starts a command inside, which ends with the trial."""
        process = Process(name, str(self.root.parent), *self.words(*words))
        self.trials.callback(process.clean)
        return process.start()

    def put(self, source: Path, to: str) -> None:
        """Copies a file into the root."""
        shutil.copyfile(source, self.root / to.lstrip("/"))

    def shows(self, unit: str, what: str) -> str:
        """A property of a unit."""
        return self.does("systemctl", "show", "-p", what, "--value", unit).strip()

    def journal(self, of: str, by: str = "-u", since: str = "-1h") -> str:
        """What a unit, or with by="-t" a program, has logged."""
        return self.does("journalctl", by, of, "--no-pager", "-o", "cat", "--since", since)


def need_root() -> None:
    """Ends the trial if it can't boot a root."""
    if os.getuid():
        raise Failed("--root needs root")
    for program, package in {
        "debootstrap": "debootstrap",
        "systemd-nspawn": "systemd-container",
        "nsenter": "util-linux",
    }.items():
        if not shutil.which(program):
            raise Failed(f"there is no program {program}: apt-get install {package}")


def scratch() -> Path:
    """A folder for roots: not in /tmp, which may be in memory."""
    return Path(tempfile.mkdtemp(prefix="package-trial-", dir="/var/tmp"))
