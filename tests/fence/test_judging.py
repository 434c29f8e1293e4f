"""What the fence decides, by a table: which file may be served."""

import os
import shutil
from dataclasses import replace
from pathlib import Path

import pytest
from fence.files import home_of
from fence.judging import Found, Word, judge
from fence.records import RUNNING, STOPPED, Fence, Record, Serving, Unreadable

FILE = Found("000007", "m1:11:5.0", "aa", 40)
RUNS = Fence(3, RUNNING, 40, "m1:11:5.0", "", "k", "host1", "/d07/store")
ENDED = replace(RUNS, state=STOPPED, digest="aa")
OTHER = Found("000007", "m2:12:6.0", "bb", 40)
NOTHING, ADOPTS = Word(), Word(adopts=True)
SERVED_LAST = (
    "another copy: the store was served last from /d07/store on host1, and didn't end well"
)

# the NetID that the cluster has, the fence, the file, the operator's word, and why it is refused
ROWS: tuple[tuple[str, Fence | None, Found, Word, str], ...] = (
    ("", None, FILE, NOTHING, "the cluster doesn't know this store: stores add"),
    ("", RUNS, FILE, ADOPTS, "the cluster doesn't know this store: stores add"),
    (
        "000007",
        None,
        FILE,
        NOTHING,
        "nobody has served this store yet: --adopt makes this file the store's",
    ),
    ("000007", None, FILE, ADOPTS, ""),
    (
        "000008",
        None,
        FILE,
        ADOPTS,
        "another store's file: it has NetID 000007, and the store has 000008",
    ),
    (
        "000008",
        RUNS,
        FILE,
        Word(replaces=3),
        "another store's file: it has NetID 000007, and the store has 000008",
    ),
    # --adopt is of no use once there is a fence
    ("000007", RUNS, OTHER, ADOPTS, SERVED_LAST),
    # after a clean end: these bytes, wherever they are, and no others
    ("000007", ENDED, FILE, NOTHING, ""),
    ("000007", ENDED, replace(FILE, home="m2:12:6.0"), NOTHING, ""),
    ("000007", ENDED, OTHER, NOTHING, "another copy, at 40: the store ended well at 40"),
    (
        "000007",
        ENDED,
        replace(FILE, digest="bb", number=39),
        NOTHING,
        "another copy, at 39: the store ended well at 40",
    ),
    (
        "000007",
        ENDED,
        replace(FILE, digest="bb", number=41),
        NOTHING,
        "another copy, at 41: the store ended well at 40",
    ),
    # after any other end: this very file, not older than what was durable
    ("000007", RUNS, FILE, NOTHING, ""),
    ("000007", RUNS, replace(FILE, number=99, digest="cc"), NOTHING, ""),
    ("000007", RUNS, OTHER, NOTHING, SERVED_LAST),
    ("000007", RUNS, replace(OTHER, number=99), NOTHING, SERVED_LAST),
    ("000007", RUNS, replace(FILE, home="m1:11:6.0"), NOTHING, SERVED_LAST),
    (
        "000007",
        RUNS,
        replace(FILE, number=39),
        NOTHING,
        "older than what was durable: it is at 39, and 40 was seen",
    ),
    # a device was retired, which makes no decision
    ("000007", replace(RUNS, generation=6), replace(FILE, generation=7), NOTHING, ""),
    (
        "000007",
        replace(RUNS, generation=6),
        replace(FILE, generation=5),
        NOTHING,
        "older: it is at generation 5, and 6 was seen",
    ),
    # a new program migrates a store after a clean end, and not after another one
    ("000007", ENDED, replace(FILE, version=1), NOTHING, ""),
    (
        "000007",
        RUNS,
        replace(FILE, version=1),
        NOTHING,
        "its records have version 1, and 2 can't be undone: lnsd list /d07/store migrates them",
    ),
    # the operator's word, for the life that it names alone
    ("000007", RUNS, OTHER, Word(replaces=3), ""),
    ("000007", ENDED, replace(OTHER, number=2), Word(replaces=3), ""),
    ("000007", RUNS, OTHER, Word(replaces=2), "--replace names life 2, and the store is in life 3"),
    ("000007", RUNS, FILE, Word(replaces=4), "--replace names life 4, and the store is in life 3"),
    (
        "000007",
        None,
        FILE,
        Word(replaces=1),
        "nobody has served this store yet: --adopt makes this file the store's",
    ),
)

WRONG = ("", "{", "[]", "{}", '{"address": 1, "life": 1, "host": "", "file": ""}', "null")


@pytest.mark.parametrize("net_id, fence, file, word, due", ROWS)
def test_judge(net_id: str, fence: Fence | None, file: Found, word: Word, due: str) -> None:
    """Which file may be served."""
    assert judge(net_id, fence, file, word) == due


def test_records() -> None:
    """A record is read as it was written; a field of a later version is ignored."""
    for record in (RUNS, ENDED, Serving("h:1", 3, "host1", "/f")):
        text = record.text()
        assert type(record).read("key", text) == record
        assert type(record).read("key", text[:-1] + ', "later": 1}') == record
    # an earlier keeper wrote no generation
    assert Fence.read("key", RUNS.text().replace(', "generation": 0', "")) == RUNS


@pytest.mark.parametrize("text", WRONG)
@pytest.mark.parametrize("kind", [Fence, Serving])
def test_wrong_records(kind: type[Record], text: str) -> None:
    """What isn't a record is refused, with its key."""
    with pytest.raises(Unreadable, match="the key in etcd can't be read"):
        kind.read("the key", text)


def test_home(folder: Path) -> None:
    """A file stays the same if it is written, renamed or given another mode. A copy is another one,
    also in the place of the first, and so is the same file on another machine."""
    file, other = folder / "store", folder / "other"
    file.write_bytes(b"x")
    home = home_of(str(file), "m")
    with open(file, "r+b") as opened:
        opened.write(b"yy")
    file.chmod(0o600)
    os.utime(file, (1, 1))
    file.rename(folder / "renamed")
    assert home_of(str(folder / "renamed"), "m") == home
    shutil.copy2(folder / "renamed", other)
    assert home_of(str(other), "m") != home
    (folder / "renamed").unlink()
    other.rename(folder / "renamed")
    assert home_of(str(folder / "renamed"), "m") != home
    link = folder / "link"
    link.symlink_to(folder / "renamed")
    assert home_of(str(link), "m") == home_of(str(folder / "renamed"), "m")
    assert home_of(str(link), "m") != home_of(str(link), "n")
