"""Each wrong file of a store, while the other stores have a load: the keeper refuses it, and prints
the reason."""

import shutil
from pathlib import Path

from bozintar.processes import await_that

from . import fleet
from .city import LONG
from .trials import Trial

REFUSED = 3
UNKNOWN = "the cluster doesn't know this store: stores add"
UNCLEAN = "and didn't end well"


class Files:
    """The files of the first store, of which one is right at a time."""

    def __init__(self, trial: Trial):
        self.trial, self.city, self.table = trial, trial.city, trial.table
        self.name, self.file = fleet.name_of(0), trial.city.files[0]

    def copy(self, name: str, of: str = "") -> str:
        """A copy of a file, as `cp` makes it."""
        return shutil.copy(of or self.file, self.city.processes.file(f"{self.name}.{name}"))

    def refused(self, what: str, file: str, due: str, machine: str = "m2", name: str = "") -> None:
        """A keeper of this machine refuses the file, with this reason."""
        keeper = self.city.keeper(name or self.name, file, 0, machine=machine)
        status = keeper.ended(LONG)
        reason = keeper.now().strip().partition("is refused: ")[2]
        is_right = status == REFUSED and due in reason
        self.table.add(what, f"status {status}: {reason or keeper.now()[-200:]}", due, is_right)

    def send(self, count: int) -> None:
        """Uplinks of all stores."""
        stores, each = self.city.stores, self.trial.given.each
        with self.trial.load(stores, each * stores, count / each) as load:
            load.outcome()

    def await_lease(self) -> None:
        """Waits until the lease of a keeper that was killed is over."""
        line = f"{self.name} {fleet.net_id_of(0):06X} -\n"
        is_over = lambda: line in Path(self.city.list).read_text(encoding="ascii")
        await_that("the lease is over", is_over, LONG)

    def write_into(self, content: bytes) -> None:
        """Other bytes in the very file, as after a snapshot that was rolled back."""
        with open(self.file, "r+b") as opened:
            opened.write(content)


def while_served(files: Files) -> None:
    """Wrong files while the store is served."""
    files.refused("a store that nobody has added", files.file, UNKNOWN, "m1", "unknown")
    live = files.copy("live")
    files.refused("a copy, while the store is served", live, "it is served at")
    files.refused("the served file once more", files.file, "it is served at", "m1")


def after_clean_end(files: Files) -> str:
    """Wrong files after a clean end; an older copy for later."""
    number = files.city.stop(0)
    old = files.copy("old")
    other = files.copy("other", files.city.files[1])
    files.refused("another store's file", other, "another store's file: ")
    live = files.city.processes.file(f"{files.name}.live")
    due = f"the store ended well at {number}"
    files.refused("a copy that was made while the store was served", live, due)
    files.city.serve(0)
    return old


def after_unclean_end(files: Files, old: str) -> None:
    """Wrong files after a keeper was killed, and the right one at last."""
    before = files.city.fence(0).number
    files.send(200)
    is_seen = lambda: files.city.fence(0).number > before
    await_that("the fence has a later number", is_seen, LONG)
    files.refused("an older copy, while the store is served", old, "it is served at")
    files.city.keepers.pop(0).kill()
    files.await_lease()
    files.refused("an older copy on another machine, after an unclean end", old, UNCLEAN)
    files.refused("the same on this machine", old, UNCLEAN, "m1")
    files.refused("a copy of the newest file", files.copy("newest"), UNCLEAN)
    true = Path(files.file).read_bytes()
    files.write_into(Path(old).read_bytes())
    due = "older than what was durable"
    files.refused("the older bytes in the very file", files.file, due, "m1")
    files.write_into(true)
    files.city.serve(0)
    files.table.add("the right file is served again", "it is", "it is", True)


def after_a_move(files: Files) -> None:
    """The file from which the store was moved."""
    files.city.stop(0)
    files.city.move(0, f"{files.name}.elsewhere")
    files.city.serve(0, machine="m2")
    files.refused("the old file after a move", files.file, "it is served at", "m1")
    files.send(20)
    number = files.city.stop(0)
    due = f"the store ended well at {number}"
    files.refused("the same after a clean end", files.file, due, "m1")
    files.city.serve(0, machine="m2")


def wrong_files(trial: Trial) -> None:
    """Each wrong file is refused, and the right one is served."""
    files = Files(trial)
    files.send(20)
    while_served(files)
    # so that the copy above is older
    files.send(20)
    old = after_clean_end(files)
    after_unclean_end(files, old)
    after_a_move(files)
