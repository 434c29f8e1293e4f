"""What `lnsd restore` refuses, with its message: nothing is made, and neither the copy nor a record
is changed. And what it accepts beside that."""

import json
import os
import subprocess
import sys
from pathlib import Path
from typing import Any

import pytest

from ..pairs import as_nobody
from .cases import HEADER, LAST, PLAIN, RECORD, STRANGER, Case, Copy
from .conftest import NewCase

# a large file's length, which nobody can read in time, and what a refusal of it may cost in KiB of
# memory
LARGE, SMALL = 1 << 40, 64 << 10
# the longest record, in bytes
LONGEST = 67_108_864
# how long it may take before it is ended, in seconds
PATIENCE = 60
# Runs a command; prints its status, its standard error, and its peak of memory. That is taken in a
# process of its own, since a peak begins with that of the parent.
MEASURE = """
import json, resource, subprocess, sys
try:
    ran = subprocess.run(sys.argv[2:], capture_output=True, timeout=float(sys.argv[1]))
    said = ran.returncode, ran.stderr.decode()
except subprocess.TimeoutExpired:
    said = None, "it hadn't ended"
peak = resource.getrusage(resource.RUSAGE_CHILDREN).ru_maxrss
print(json.dumps([*said, peak]))
"""
HEAD = f"{HEADER}\n{STRANGER},5\n"
# lines that no record has
BAD_LINES = {
    "a lower-case DevEUI": f"{STRANGER.lower()},7",
    "15 digits": f"{STRANGER[:15]},7",
    "17 digits": f"{STRANGER}0,7",
    "no digit": f"{STRANGER[:15]}G,7",
    "JoinNonce 0": f"{STRANGER},0",
    "JoinNonce 16777216": f"{STRANGER},16777216",
    "a JoinNonce above 2^32": f"{STRANGER},4294967303",
    "a zero before the JoinNonce": f"{STRANGER},077",
    "a sign": f"{STRANGER},+7",
    "a minus": f"{STRANGER},-7",
    "no JoinNonce": f"{STRANGER},",
    "no comma": STRANGER,
    "a space": f"{STRANGER}, 7",
    "a space at the end": f"{STRANGER},7 ",
    "a space before the DevEUI": f" {STRANGER},7",
    "a third field": f"{STRANGER},7,8",
    "a semicolon": f"{STRANGER};7",
    "an empty line": "",
    "another first line": HEADER.lower(),
}


@pytest.mark.parametrize("line", BAD_LINES.values(), ids=list(BAD_LINES))
def test_bad_line_in_a_file_of_above(new_case: NewCase, copy: Copy, line: str) -> None:
    """A bad third line is named."""
    case = new_case(f"{HEADER}\n{next(iter(copy.granted))},9\n", f"{HEADER}\n")
    file = case.file(f"{HEAD}{line}\n{STRANGER},6\n")
    case.is_refused(f"record {file} line 3", "--above", file)


@pytest.mark.parametrize("length", (1, 8, 16, 17, 18))
def test_last_line_that_was_cut_off(new_case: NewCase, copy: Copy, length: int) -> None:
    """The last line of a file of `--above` has to end."""
    name = next(iter(copy.granted))
    case = new_case(f"{HEADER}\n{name},9\n", f"{HEADER}\n")
    file = case.file(HEAD + f"{name},7"[:length])
    case.is_refused(f"record {file} line 3", "--above", file)


@pytest.mark.parametrize("line", ("{name},x\n" + HEADER, "\n{name},7"), ids=("x", "empty"))
def test_bad_first_line(new_case: NewCase, copy: Copy, line: str) -> None:
    """A bad first line of a file of `--above` is named."""
    case = new_case()
    file = case.file(line.format(name=next(iter(copy.granted))) + "\n")
    case.is_refused(f"record {file} line 1", "--above", file)


def test_file_of_above_that_cannot_be_read(new_case: NewCase) -> None:
    """A file that isn't there, a folder, bytes that aren't UTF-8, and more bytes than a record may
    have."""
    case = new_case(None, f"{HEADER}\n{STRANGER},9\n")
    for path in (f"{case.program.folder}/missing", case.program.folder):
        case.is_refused(f"record {path}", "--above", path)
    file = case.file(f"{HEADER}\n".encode() + b"\xe9,7\n")
    case.is_refused(f"record {file}", "--above", file)
    os.truncate(case.file(""), LONGEST + 1)
    case.is_refused(f"record {file}", "--above", file)


def test_copy_that_cannot_be_read(new_case: NewCase) -> None:
    """A copy that isn't there, and a folder."""
    case = new_case()
    causes = (("/missing", "not found"), ("", "it is a folder"))
    for path, cause in causes:
        case.old = case.program.folder + path
        assert case.restore() == (1, "", f"lnsd: file\nlnsd: {cause}\n")


def test_new_store_that_is_there(new_case: NewCase) -> None:
    """A file in the new store's place stays as it is."""
    case = new_case(None, f"{HEADER}\n{STRANGER},9\n")
    Path(case.new).write_bytes(b"as it was")
    before = case.records()
    assert case.restore() == (1, "", "lnsd: exists\n")
    assert Path(case.new).read_bytes() == b"as it was"
    assert case.records() == before, "the records beside it"


@pytest.mark.parametrize("what", ("a byte more", "a byte less", "no bytes", "zeros"))
def test_copy_that_is_no_store(new_case: NewCase, copy: Copy, what: str) -> None:
    """A copy of another length, or without the name of a store."""
    content, number = {
        "a byte more": (copy.content + b"\0", 46),
        "a byte less": (copy.content[:-1], 46),
        "no bytes": (b"", 46),
        "zeros": (bytes(len(copy.content)), 43),
    }[what]
    new_case(of=Copy(content, {})).is_refused(f"refused {number}")


@pytest.mark.parametrize("name", (RECORD, f"{RECORD}.new"))
def test_store_with_a_name_of_the_record(new_case: NewCase, copy: Copy, name: str) -> None:
    """Neither a copy nor a new store may have a name of the record's."""
    case = new_case()
    old, new = case.old, case.new
    case.new = f"{os.path.dirname(new)}/{name}"
    case.is_refused(f"record {case.new}")
    case.old, case.new = f"{os.path.dirname(old)}/{name}", new
    Path(case.old).write_bytes(copy.content)
    assert case.restore() == (1, "", f"lnsd: record {case.old}\n")
    assert case.is_as_it_was() and not case.is_made()


@pytest.mark.parametrize("place", (0, 1), ids=("beside the copy", "beside the new store"))
def test_bad_record(new_case: NewCase, place: int) -> None:
    """A bad line in a record is named; a folder is no record."""
    texts: list[str | None] = [HEAD, HEAD]
    texts[place] = f"{HEAD}{STRANGER},0\n"
    case = new_case(*texts)
    case.is_refused(f"record {case.paths[place]} line 3")
    texts[place] = None
    case = new_case(*texts, name="folder")
    os.mkdir(case.paths[place])
    assert case.restore() == (1, "", f"lnsd: record {case.paths[place]}\n")
    assert not case.is_made()


@pytest.mark.parametrize("place", (0, 1), ids=("beside the copy", "beside the new store"))
@pytest.mark.parametrize("what", ("no text", "too long", "closed"))
def test_record_that_cannot_be_read(new_case: NewCase, what: str, place: int) -> None:
    """Bytes that aren't UTF-8, more bytes than a record may have, and a file that others own."""
    case, how = new_case(HEAD, HEAD), dict[str, Any]()
    path = Path(case.paths[place])
    if what == "no text":
        path.write_bytes(f"{HEAD}\xe9".encode("latin-1"))
    elif what == "too long":
        os.truncate(path, LONGEST + 1)
    elif os.getuid():
        pytest.skip("only root may try another user")
    else:
        how, case.program.path = as_nobody(case.program)
        for name in (os.path.dirname(path), case.old, *case.paths):
            os.chmod(name, 0o777)
        path.chmod(0o600)
    case.is_refused(f"record {path}", **how)


@pytest.mark.parametrize("closed", (0, 1), ids=("of the copy", "of the new store"))
def test_closed_folder(new_case: NewCase, copy: Copy, closed: int) -> None:
    """A folder where nothing can be made. What a restore has added to the record beside the new
    store may stay."""
    case = new_case(f"{HEADER}\n", None)
    how, case.program.path = as_nobody(case.program)
    for path in filter(os.path.exists, (case.old, *case.paths)):
        os.chmod(path, 0o666)
    folders = [os.path.dirname(path) for path in (case.old, case.new)]
    for place, folder in enumerate(folders):
        os.chmod(folder, 0o555 if place == closed else 0o777)
    due = "file\nlnsd: permission denied" if closed else f"record {case.paths[0]}"
    try:
        came = case.restore(**how)
    except (PermissionError, subprocess.SubprocessError) as why:
        pytest.skip(f"no other user can be tried: {why}")
    finally:
        os.chmod(folders[closed], 0o755)
    assert came == (1, "", f"lnsd: {due}\n")
    assert case.is_as_it_was() and not case.is_made()
    beside, added = case.records()
    assert beside == f"{HEADER}\n"
    assert added is None or not closed and added == case.recorded(None, copy.due({}))


WRONG_WORDS: list[tuple[str, ...]] = [
    ("--grants", word) for word in ("0", "65537", "-1", "1.0", "x", "", "99999999999")
]
WRONG_WORDS += [("--beside", "x"), ("--grants", "1", "--grants", "2")]
WRONG_WORDS += [("--above", "x", "--above", "y"), ("--grants",), ("--above",), ("more",)]


@pytest.mark.parametrize("words", WRONG_WORDS, ids=" ".join)
def test_wrong_words(new_case: NewCase, words: tuple[str, ...]) -> None:
    """Status 2, and a text on standard error alone."""
    case = new_case()
    status, out, said = case.restore(*words)
    assert (status, out) == (2, "") and said.startswith("error: ")
    assert not case.is_made() and case.records() == [None, None]


@pytest.mark.parametrize("since", (1, 65536))
def test_least_and_greatest_grants(new_case: NewCase, copy: Copy, since: int) -> None:
    """`--grants N` raises JoinNonces by N."""
    due = (0, copy.printed({}, since), "")
    assert new_case().restore("--grants", str(since)) == due


def test_device_with_too_few_join_nonces(new_case: NewCase, copy: Copy) -> None:
    """A device that has fewer JoinNonces left than N is named; one that has N is restored."""
    name = list(copy.granted)[-1]
    case = new_case(f"{HEADER}\n{name},9\n", None)
    for number in (LAST - PLAIN + 1, LAST):
        file = case.file(f"{HEADER}\n{name},{number}\n")
        case.is_refused(f"refused 10 {name}", "--above", file)
    file = case.file(f"{HEADER}\n{name},{LAST - PLAIN}\n")
    case.goes_well({name: LAST - PLAIN}, "--above", file)


ACCEPTED = {
    "CRLF": "{header}\r\n{first},2000\r\n{last},3000\r\n",
    "no first line": "{first},2000\n{last},3000\n",
    "a first line elsewhere": "{first},2000\n{header}\n{last},3000\n{header}\n",
    "a device twice": "{first},2000\n{last},3000\n{first},1999\n",
}


@pytest.mark.parametrize("text", ACCEPTED.values(), ids=list(ACCEPTED))
def test_accepted_file_of_above(new_case: NewCase, copy: Copy, text: str) -> None:
    """Lines that end with CRLF, and a first line that isn't there or stands elsewhere."""
    first, *_, last = copy.granted
    case = new_case()
    file = case.file(text.format(header=HEADER, first=first, last=last))
    case.goes_well({first: 2000, last: 3000}, "--above", file)


def test_accepted_records(new_case: NewCase, copy: Copy) -> None:
    """Records that were written by hand, and an empty file of `--above`."""
    first, *_, last = copy.granted
    case = new_case(f"{HEADER}\r\n{first},2000\r\n", f"{last},3000\n")
    case.goes_well({first: 2000, last: 3000})
    case = new_case(name="empty")
    case.goes_well({}, "--above", case.file(""))


def measured(case: Case) -> Any:
    """Restores a case: its status, its standard error, and its memory in KiB."""
    words = [sys.executable, "-c", MEASURE, str(PATIENCE), case.program.path]
    words += ["restore", case.old, case.new]
    came = subprocess.run(words, capture_output=True, check=True, text=True).stdout
    return json.loads(came)


def test_large_copy_is_refused_at_once(new_case: NewCase) -> None:
    """A copy of 1 TiB of zeros: its superblock is read first."""
    case = new_case(of=Copy(b"", {}))
    os.truncate(case.old, LARGE)
    status, said, peak = measured(case)
    assert (status, said) == (1, "lnsd: refused 43\n")
    assert peak < SMALL, f"it took {peak} KiB of memory"
    assert not case.is_made() and case.records() == [None, None]
