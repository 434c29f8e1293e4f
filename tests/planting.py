"""Plants the faults of tests/planted, one at a time, and runs the trials that have to see each.

A patch makes a mistake that a programmer makes, in code of which no contract speaks. Its first line
says what the mistake does. `Seen by:` has the trials that fail with it, as words of pytest, or as
`crates/CRATE` for the tests of a crate. `Survives:` has the reason why no trial can see it.

    planting.py [--look] [NAME]..   those of these folders or names, CRATE/NAME; or all

For each patch a copy of the repository is made. If the patch changes a crate, lnsd is compiled
there, unproved, in a minute or two. At first the trials have to pass without any patch. What was
seen is noted in tests/planted/SEEN with a checksum of the patch, of the crates or files that it
changes, and of the trials. It isn't tried again until one of these changes, so a run that was
interrupted goes on. Commit SEEN. --look only compares the patches with the sources, and says how
many aren't noted. Run this before a release, and after a rebuilding of what many patches change.

Status: 0 if each fault is seen; 1 if not, or if a patch can't be applied."""

import hashlib
import os
import re
import shutil
import subprocess
import sys
import tempfile
from collections.abc import Callable, Iterator, Sequence
from concurrent.futures import ThreadPoolExecutor, as_completed
from functools import partial
from pathlib import Path
from queue import SimpleQueue
from typing import TypeVar

from .running import ROOT, files

sys.path[1:1] = [str(ROOT / "tools"), str(ROOT / "python")]
import commands

T = TypeVar("T")
D = TypeVar("D")
OUT = ROOT / "out/planted"
SEEN = ROOT / "tests/planted/SEEN"
# the ports of the first lane, and how many each has: none of the trials of the gate
PORTS, EACH = 10000, 700
HEAD = re.compile(r"(?P<what>.+)\n(?P<kind>Seen by|Survives):(?P<rest>.*)\n")


class Patch:
    """A fault, and what has to see it."""

    def __init__(self, file: str) -> None:
        self.file, self.name = file, file.removeprefix("tests/planted/").removesuffix(".patch")
        self.text = (ROOT / file).read_text(encoding="utf-8")
        found = HEAD.match(self.text)
        assert found, f"{self.name}: its first lines don't say what it does, and what sees it"
        self.rows = found["rest"].split() if found["kind"] == "Seen by" else []
        self.is_reasoned = bool(found["rest"].strip())

    def changes_crates(self) -> bool:
        """Whether lnsd has to be compiled anew."""
        return "\n+++ b/crates/" in self.text

    def missing(self) -> Iterator[str]:
        """Rows that aren't there."""
        for row in self.rows:
            file, _, name = row.partition("::")
            path = ROOT / file
            if (
                not path.exists()
                or name
                and f"def {name.partition('[')[0]}(" not in path.read_text()
            ):
                yield row

    def look(self) -> str:
        """What is wrong with the patch; empty if nothing is."""
        applied = subprocess.run(
            ["git", "apply", "--check", self.file], cwd=ROOT, capture_output=True, check=False
        )
        if applied.returncode:
            return "it can't be applied"
        if not self.is_reasoned:
            return "neither a trial nor a reason is named"
        return "".join(f"there is no {row}" for row in self.missing())

    def sum(self) -> str:
        """The checksum of the patch, of the crates or files that it changes, and of the trials."""
        changed = re.findall(r"^\+\+\+ b/(crates/\w+/src|.+)", self.text, re.MULTILINE)
        names = [self.file, *files(*changed, *(row.partition("::")[0] for row in self.rows))]
        sums = b"\0".join((ROOT / name).read_bytes() for name in names)
        return hashlib.sha256(sums).hexdigest()[:16]


def copied(room: Path) -> None:
    """Copies the repository as it is, without what git ignores."""
    listed = subprocess.run(
        ["git", "ls-files", "-co", "--exclude-standard"],
        cwd=ROOT,
        stdout=subprocess.PIPE,
        check=True,
    )
    for name in listed.stdout.decode().splitlines():
        if (ROOT / name).exists():
            (room / name).parent.mkdir(parents=True, exist_ok=True)
            shutil.copy2(ROOT / name, room / name)


def compiled(room: Path) -> str:
    """Compiles lnsd there; its path, or nothing."""
    ended = subprocess.run(["bin/unproved", "lnsd"], cwd=room, stdout=subprocess.PIPE, check=False)
    return ended.stdout.decode().strip()


def passes(room: Path, program: str, row: str, lane: int) -> bool | None:
    """Whether a row passes there; None if it wasn't run."""
    if row.startswith("crates/"):
        return not subprocess.run(
            ["rt", "try", "--test"], cwd=room / row, capture_output=True, check=False
        ).returncode
    first = PORTS + lane * EACH
    ended = subprocess.run(
        # in one word: else pytest looks for its settings above this path, too
        ["/usr/bin/python3", "-m", "pytest", "-qx", row, f"--program={program}"],
        cwd=room,
        env={**os.environ, "LNSD_PORTS": f"{first}-{first + EACH - 1}"},
        capture_output=True,
        check=False,
    )
    return {0: True, 1: False}.get(ended.returncode)


def planted(patch: Patch, clean: str, lane: int) -> str:
    """Plants a fault in a copy; what isn't as it has to be."""
    with tempfile.TemporaryDirectory(dir=OUT) as made:
        room = Path(made)
        copied(room)
        # as in no repository: else git passes over paths outside this folder
        alone = {**os.environ, "GIT_CEILING_DIRECTORIES": str(OUT)}
        words = ["git", "apply", str(room / patch.file)]
        subprocess.run(words, cwd=room, env=alone, check=True)
        program = compiled(room) if patch.changes_crates() else clean
        if not program:
            return "lnsd doesn't compile with it"
        seen = {row: passes(room, program, row, lane) for row in patch.rows}
    survived = [row for row, is_well in seen.items() if is_well]
    not_run = [f"{row} (not run)" for row, is_well in seen.items() if is_well is None]
    return " ".join(["it survives", *survived, *not_run]) if survived + not_run else ""


def side_by_side(work: Callable[[D, int], T], of: Sequence[D]) -> Iterator[tuple[D, T]]:
    """Does work for each of these, in lanes with numbers; what came of it, as it comes."""
    lanes: SimpleQueue[int] = SimpleQueue()
    for lane in range(commands.lanes()):
        lanes.put(lane)

    def in_lane(one: D) -> T:
        lane = lanes.get()
        try:
            return work(one, lane)
        finally:
            lanes.put(lane)

    with ThreadPoolExecutor(lanes.qsize()) as pool:
        tasks = {pool.submit(in_lane, one): one for one in of}
        for task in as_completed(tasks):
            yield tasks[task], task.result()


def chosen(names: Sequence[str]) -> list[Patch]:
    """The patches of these names or folders, or all."""
    found = [Patch(file) for file in files("tests/planted/*.patch")]
    for name in names:
        assert any(name in (of.name, of.name.split("/")[0]) for of in found), f"no patch {name}"
    return [of for of in found if not names or {of.name, of.name.split("/")[0]} & {*names}]


def noted() -> dict[str, str]:
    """The checksums of the patches that were seen."""
    lines = SEEN.read_text(encoding="utf-8").splitlines() if SEEN.exists() else []
    return dict(line.split() for line in lines)


def note(patch: Patch) -> None:
    """Notes that a patch is seen."""
    notes = noted() | {patch.name: patch.sum()}
    SEEN.write_text("".join(f"{name} {of}\n" for name, of in sorted(notes.items())))


def try_all(due: Sequence[Patch]) -> dict[str, str]:
    """Tries patches; what is wrong with each."""
    clean = compiled(ROOT) if due else ""
    found = {}
    rows = list(dict.fromkeys(row for of in due for row in of.rows))
    for row, is_well in side_by_side(partial(passes, ROOT, clean), rows):
        if not is_well:
            print(f"{row}: it doesn't pass without a fault", flush=True)
            found[row] = "it doesn't pass without a fault"
    of_well = [of for of in due if not found.keys() & {*of.rows}]
    for patch, why in side_by_side(lambda of, lane: planted(of, clean, lane), of_well):
        print(f"{patch.name}: {why or 'seen'}", flush=True)
        if why:
            found[patch.name] = why
        else:
            note(patch)
    return found


def main(*words: str) -> int:
    """Does what the words say."""
    names = [word for word in words if word != "--look"]
    OUT.mkdir(parents=True, exist_ok=True)
    patches = chosen(names)
    wrong = {of.name: why for of in patches if (why := of.look())}
    due = [of for of in patches if of.rows and noted().get(of.name) != of.sum()]
    if not wrong and "--look" not in words:
        wrong = try_all(due)
    for name, why in wrong.items():
        print(f"{name}: {why}")
    survivors = [of.name for of in patches if not of.rows]
    print(f"survivors: {len(survivors)} {' '.join(survivors)}")
    print(f"not seen before: {len(due)}")
    print(f"{len(patches) - len(wrong)} passed, {len(wrong)} failed")
    return 1 if wrong else 0


if __name__ == "__main__":
    sys.exit(main(*sys.argv[1:]))
