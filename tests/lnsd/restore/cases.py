"""Cases of `lnsd restore`: a copy in one folder, a new store in another one, and a record of
restores in each. What has to be printed and recorded is computed here, by docs/OPERATING.md and
docs/FORMATS.md."""

import os
from collections.abc import Mapping, Sequence
from pathlib import Path
from typing import Any

from bozintar import load, store
from bozintar.server import Ended, Program

RECORD, HEADER = "lnsd-restored.csv", "DevEUI,JoinNonce"
# how far restore raises JoinNonces if no option says so, and the last JoinNonce
PLAIN, LAST = 1024, 0xFFFFFF
# a device that no copy has
STRANGER = "FEEDFACE00000001"
# JoinNonces by DevEUI
Nonces = dict[str, int]


def lines_of(nonces: Mapping[str, int]) -> str:
    """The lines of a record: a device and its JoinNonce each."""
    return "".join(f"{name},{number}\n" for name, number in nonces.items())


def nonces_in(text: str | None) -> Nonces:
    """The greatest JoinNonce of each device in a record, which may not be there."""
    found: Nonces = {}
    for line in (text or "").splitlines():
        if line != HEADER:
            name, number = line.split(",")
            found[name] = max(int(number), found.get(name, 0))
    return found


def greatest(*all_nonces: Mapping[str, int]) -> Nonces:
    """The greatest JoinNonce of each device."""
    found: Nonces = {}
    for nonces in all_nonces:
        for name, number in nonces.items():
            found[name] = max(number, found.get(name, 0))
    return found


class Copy:
    """A copy: its bytes, and each device's last granted JoinNonce and HEARD, in order of slot."""

    def __init__(self, content: bytes, devices: Mapping[str, tuple[int, int]]):
        self.content = content
        self.granted = {name: granted for name, (granted, _) in devices.items()}
        self.heard = {name: heard for name, (_, heard) in devices.items()}

    def due(self, known: Nonces, since: int = PLAIN) -> Nonces:
        """From which JoinNonces the devices go on, above these and the copy's."""
        both = greatest(self.granted, known)
        return {name: both[name] + since for name in self.granted}

    def printed(self, known: Nonces, since: int = PLAIN) -> str:
        """What has to be printed."""
        due = self.due(known, since)
        raised = sum(known.get(name, 0) > self.granted[name] for name in due)
        left = LAST - max(due.values())
        head = f"devices {len(due)}\nrecorded {raised}\ngrants_left {left}\n"
        return head + "".join(f"above {name} {due[name]} {self.heard[name]}\n" for name in due)


def made_copy(path: str, first: int = 0, count: int = 3) -> Copy:
    """A copy that is written by docs/FORMATS.md: devices with other JoinNonces and HEARDs, of this
    number and the next ones."""
    made = [load.record(number, 1) for number in range(first, first + count)]
    for place, record in enumerate(made):
        record.granted, record.heard = 1 + 5 * place, 40 + place
    with Program(path) as program:
        assert program.format(slots=count) == (0, "", "")
        store.put(program.store, made)
        content = Path(program.store).read_bytes()
    return Copy(content, {record.dev_eui: (record.granted, record.heard) for record in made})


class Case:
    """A copy in one folder, and the folder in which it is to be restored; `folders` names both. The
    records that are there before are texts: the one beside the copy, and the one beside the new
    store. Cases of one name share their folders, and `room` ends the names of their files."""

    def __init__(
        self,
        program: Program,
        copy: Copy,
        records: Sequence[str | None] = (None, None),
        name: str = "case",
        room: object = "",
        folders: Sequence[str] = (),
    ):
        self.program, self.copy = program, copy
        folders = folders or [f"{program.folder}/{name}-{place}" for place in ("old", "new")]
        self.old, self.new = f"{folders[0]}/copy{room}", f"{folders[1]}/store{room}"
        self.paths = [f"{folder}/{RECORD}" for folder in folders]
        for folder, path, text in zip(folders, self.paths, records):
            os.makedirs(folder, exist_ok=True)
            if text is not None:
                Path(path).write_text(text, encoding="utf-8", newline="")
        Path(self.old).write_bytes(copy.content)

    def restore(self, *options: str, **how: Any) -> Ended:
        """Restores the copy; the status, standard output and standard error."""
        return self.program.run("restore", self.old, self.new, *options, **how)

    def records(self) -> list[str | None]:
        """The texts of both records; None for one that isn't there."""
        paths = map(Path, self.paths)
        return [
            path.read_bytes().decode(errors="replace") if path.exists() else None for path in paths
        ]

    def known(self) -> Nonces:
        """The JoinNonces of both records."""
        return greatest(*map(nonces_in, self.records()))

    def is_made(self) -> bool:
        """Whether anything is there of the new store."""
        return os.path.lexists(self.new)

    def is_as_it_was(self) -> bool:
        """Whether the copy is."""
        return Path(self.old).read_bytes() == self.copy.content

    def listed(self) -> Ended:
        """What `lnsd list` says of the new store."""
        return self.program.run("list", self.new)

    def whole(self, due: Nonces) -> Ended:
        """What `lnsd list` has to say of the whole new store: no device has a session."""
        status, out, said = self.program.run("list", self.old)
        assert (status, said) == (0, ""), "lnsd list of the copy"
        *devices, last = [line.split(" ") for line in out.splitlines()]
        lines = [
            " ".join([slot, name, str(due[name]), "-", "-", "-", items, heard])
            for slot, name, _, _, _, _, items, heard in devices
        ]
        return 0, "\n".join([*lines, " ".join(last)]) + "\n", ""

    def recorded(self, before: str | None, due: Nonces) -> str:
        """The text of a record after a restore: the lines from before, and one for each device."""
        before = before or HEADER
        return before + "\n" * (not before.endswith("\n")) + lines_of(due)

    def goes_well(self, known: Nonces, *options: str) -> None:
        """The copy is restored above these JoinNonces: what is printed, listed and recorded."""
        before, due = self.records(), self.copy.due(known)
        assert self.restore(*options) == (0, self.copy.printed(known), "")
        assert self.listed() == self.whole(due), "the new store's list"
        assert self.records() == [self.recorded(text, due) for text in before], "the records"
        modes = {os.stat(path).st_mode & 0o777 for path in self.paths}
        assert modes == {0o600}, "who may read the records"
        assert self.is_as_it_was(), "the copy"

    def is_refused(self, said: str, *options: str, **how: Any) -> None:
        """The copy isn't restored, for this reason: nothing is made, and nothing was changed."""
        before = self.records()
        assert self.restore(*options, **how) == (1, "", f"lnsd: {said}\n")
        assert not self.is_made(), "no new store"
        assert self.records() == before, "the records"
        assert self.is_as_it_was(), "the copy"

    def file(self, text: str | bytes) -> str:
        """A file of `--above` beside the folders."""
        path = os.path.join(self.program.folder, "above.csv")
        Path(path).write_bytes(text if isinstance(text, bytes) else text.encode())
        return path
