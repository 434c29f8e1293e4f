"""Debian's packages. Its Python libraries are found also if another python3 comes first on the
PATH; that works for libraries of Python alone, without compiled parts."""

import importlib
import os
import shutil
import subprocess
import sys
import time
from collections.abc import Sequence
from typing import Any

from .words import name, stop

FOLDER = "/usr/lib/python3/dist-packages"
# how long it waits before it tries again, in seconds
PAUSES = (5, 20)


def library(name: str) -> Any:
    """A library of this Python or of Debian's, or None if neither has it."""
    try:
        return importlib.import_module(name)
    except ImportError:
        pass
    sys.path.append(FOLDER)
    try:
        return importlib.import_module(name)
    except ImportError:
        return None
    finally:
        sys.path.pop()


def missing(packages: Sequence[str]) -> list[str]:
    """Those of these packages that aren't installed."""
    asked = ["dpkg-query", "-W", "-f", "${Package} ${db:Status-Status}\n", *packages]
    try:
        shown = subprocess.run(asked, capture_output=True, text=True, check=False).stdout
    except FileNotFoundError:
        stop("there is no program dpkg-query: this is for Debian and what comes of it")
    lines = shown.splitlines()
    return [package for package in packages if f"{package} installed" not in lines]


def need(packages: Sequence[str]) -> None:
    """Has the system install those of these packages that are missing, by sudo if this isn't
    root."""
    lacking = missing(packages)
    if not lacking:
        return
    print(f"{name()}: installs {' '.join(lacking)}", flush=True)
    as_root("apt-get", "update", "-q")
    as_root("apt-get", "install", "-q", "-y", "--no-install-recommends", *lacking)
    if still := missing(packages):
        stop(f"apt-get has ended well, and these are still missing: {' '.join(still)}")


def as_root(*said: str) -> None:
    """Runs a program of the system as root. If it fails it is run again, since a mirror or a lock
    may be away for a moment; its last message is printed at the end."""
    whole = list(said)
    if os.getuid():
        if not shutil.which("sudo"):
            stop(f"it isn't root, and there is no sudo; as root: {' '.join(said)}")
        whole = ["sudo", *said]
    # sudo may drop the environment: without an input, too, packages ask nothing
    how: dict[str, Any] = {"stdin": subprocess.DEVNULL, "capture_output": True, "text": True}
    how["env"] = {**os.environ, "DEBIAN_FRONTEND": "noninteractive"}
    for pause in (*PAUSES, None):
        ended = subprocess.run(whole, check=False, **how)
        if not ended.returncode:
            return
        if pause:
            time.sleep(pause)
    lines = (ended.stderr or ended.stdout).strip().splitlines() or ["nothing"]
    stop(f"{' '.join(said)} says: {lines[-1][:300]}")
