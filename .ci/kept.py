"""What green runs of the merge gate leave on this machine, so that a later run of the same crates
by the same toolchain needn't prove them again.

    key             prints the key of the crates: a SHA-256 of the toolchain's identity, this
                    machine's, crates.txt, HANDLES and every byte below crates/
    has             ends with status 0 if programs of that key are kept
    take            puts the proved programs of that key in their places, and prints when they were
                    proved
    keep KEY ROOM   keeps the proved programs, if that still is the key; the folder ROOM has what rt
                    ci printed (proofs), and what it cost (costs)
    pages           ends with status 0 if only pages have changed since the last green run
    green           notes that all but pages is as it was in a green run

Only .ci/run keeps anything: after it has proved everything from nothing, and was green. The
folder is ~/.cache/bozintar-gate. To have everything proved again, remove it.

Status: 0; 1 if nothing is kept; 2 for a wrong word, or if what is kept was changed."""
import hashlib
import json
import os
import shutil
import subprocess
import sys
import time
from collections.abc import Iterator
from pathlib import Path

ROOT = Path(__file__).resolve().parents[1]
KEPT = Path(os.environ.get("XDG_CACHE_HOME") or Path.home() / ".cache", "bozintar-gate")
PROGRAMS = ("lnsd", "lns_sim", "calls_without_memory", "lns_speed")


def is_page(name: str) -> bool:
    """Whether a file is only read by people."""
    return name.endswith(".md") or name.startswith("docs/")


def made(program: str) -> Path:
    """Where rt ci leaves a program."""
    return ROOT / "crates" / program / "out" / program


def sum_of(file: Path) -> str:
    """The checksum of a file."""
    return hashlib.sha256(file.read_bytes()).hexdigest()


def identity() -> Iterator[bytes]:
    """The toolchain, and this machine: a new one proves everything."""
    rt = Path(shutil.which("rt") or "rt").resolve()
    yield (rt.parents[1] / "WHAT").read_bytes()
    yield subprocess.run([rt, "version"], stdout=subprocess.PIPE, check=True).stdout
    yield Path("/etc/machine-id").read_bytes()


def key_of(files: list[Path]) -> str:
    """The key of these files, by their names and contents."""
    key = hashlib.sha256(b"\0".join(identity()))
    for file in sorted(files):
        content = os.readlink(file).encode() if file.is_symlink() else file.read_bytes()
        key.update(f"\0{file.relative_to(ROOT)}\0{len(content)}\0".encode() + content)
    return key.hexdigest()


def key() -> str:
    """The key of what is proved."""
    below = [Path(at, name) for at, _, names in os.walk(ROOT / "crates") for name in names]
    sources = [file for file in below if file.relative_to(ROOT).parts[2:3] != ("out",)]
    return key_of([ROOT / "crates.txt", ROOT / "HANDLES", *sources])


def key_without_pages() -> str:
    """The key of all that git has here, less the pages."""
    words = ["git", "ls-files", "-z", "--cached", "--others", "--exclude-standard"]
    listed = subprocess.run(words, cwd=ROOT, stdout=subprocess.PIPE, check=True).stdout
    names = [name for name in listed.decode().split("\0") if name and not is_page(name)]
    return "all-" + key_of([ROOT / name for name in names if os.path.lexists(ROOT / name)])


def take() -> int:
    """Puts the programs of this key in their places."""
    room = KEPT / key()
    if not room.is_dir():
        return 1
    try:
        record = json.loads((room / "record").read_text(encoding="utf-8"))
        wrong = [name for name in PROGRAMS if sum_of(room / name) != record["sums"][name]]
    except (OSError, ValueError, KeyError) as error:
        wrong, record = [str(error)], {}
    if wrong:
        print(
            f"kept: what {room} has isn't what was proved ({wrong[0]}): remove it", file=sys.stderr
        )
        return 2
    for name in PROGRAMS:
        made(name).parent.mkdir(exist_ok=True)
        shutil.copy(room / name, made(name))
    print(f"kept: these crates were proved on this machine, {record['date']}: {record['said']}")
    return 0


def keep(proved: str, printed: Path) -> int:
    """Keeps the programs and what they cost, if the crates are those that were proved."""
    if proved != key():
        print("kept: the crates have changed since: nothing is kept", file=sys.stderr)
        return 1
    KEPT.mkdir(parents=True, exist_ok=True)
    room = KEPT / f"{proved}.{os.getpid()}"
    room.mkdir()
    for name in PROGRAMS:
        shutil.copy(made(name), room / name)
    shutil.copy(printed / "costs", room)
    sums = {name: sum_of(room / name) for name in PROGRAMS}
    said = (printed / "proofs").read_text(encoding="utf-8").splitlines()[-1]
    record = {"date": time.strftime("%F %T %Z"), "said": said, "sums": sums}
    (room / "record").write_text(json.dumps(record), encoding="utf-8")
    shutil.rmtree(KEPT / proved, ignore_errors=True)
    room.rename(KEPT / proved)
    return 0


def green() -> int:
    """Notes what was green."""
    KEPT.mkdir(parents=True, exist_ok=True)
    (KEPT / key_without_pages()).touch()
    return 0


def main(word: str = "", *words: str) -> int:
    """Does what the word says."""
    if word == "key" and not words:
        print(key())
        return 0
    if word == "has" and not words:
        return 0 if (KEPT / key()).is_dir() else 1
    if word == "pages" and not words:
        return 0 if (KEPT / key_without_pages()).exists() else 1
    if word == "keep" and len(words) == 2:
        return keep(words[0], Path(words[1]))
    alone = {"take": take, "green": green}
    if word in alone and not words:
        return alone[word]()
    print(
        "kept: a word of key, has, take, keep KEY ROOM, pages, green; see the file", file=sys.stderr
    )
    return 2


if __name__ == "__main__":
    sys.exit(main(*sys.argv[1:]))
