"""What the tools of this repository share: where the package bozintar is, the crates, whether a
program is built of the sources as they are, and how much may run at once. bin/programs.sh asks it
by a word: is_fresh, is_built or commit_of."""
import importlib.machinery
import importlib.util
import os
import re
import shutil
import subprocess
import sys
from collections.abc import Callable
from typing import Any

ROOT = os.path.dirname(os.path.dirname(os.path.realpath(__file__)))
if __name__ == "__main__":
    sys.path.insert(1, f"{ROOT}/python")
from bozintar.words import Words, end_with, is_program, stop

SOURCES = (".rt", ".antt")
# What each crate costs, as tools/gate-costs found it.
COSTS = f"{ROOT}/tools/costs.txt"
# What a check may take, in bytes; most take less.
MEMORY = 4 << 30
# What a part of a check counts, in its last line of this form.
COUNTS = re.compile(r"^(?:test result: \w+\. )?(\d+) passed[,;] (\d+) failed", re.MULTILINE)


def need_rt():
    if not shutil.which("rt"):
        stop("the Rattle toolchain's command rt isn't on the PATH, and this needs it", 127)


def toolchain() -> Any:
    """The toolchain's command rt as a module."""
    need_rt()
    loader = importlib.machinery.SourceFileLoader("rt", os.path.realpath(shutil.which("rt") or ""))
    spec: Any = importlib.util.spec_from_loader("rt", loader)
    made = importlib.util.module_from_spec(spec)
    loader.exec_module(made)
    return made


def lines():
    """Each crate's line of crates.txt, in the file's order."""
    with open(f"{ROOT}/crates.txt", encoding="utf-8") as file:
        told = [line.partition("#")[0].strip() for line in file]
    return {line.split(":")[0].split()[0]: line for line in told if ":" in line}


def libraries(of):
    """The repository's libraries that each crate's line names."""
    told = {crate: line.partition(":")[2].split() for crate, line in of.items()}
    return {crate: [name for name in names if name in told] for crate, names in told.items()}


def crate(name):
    """A word that names a crate."""
    if name not in lines():
        stop(f"no crate {name} is in crates.txt", 2)
    return name


def below(crate, named):
    """The libraries that a crate stands on, each after its own."""
    found = []
    for lower in named[crate]:
        found += [more for more in [*below(lower, named), lower] if more not in found]
    return found


def minutes():
    """The processor minutes of each crate from nothing, as they were found, by what they are for:
    its proof, its tests, its edits."""
    rows = [line.split() for line in read(COSTS).splitlines()]
    kinds = next(row[1:] for row in rows if row[:1] == ["crate"])
    crates = lines()
    return {
        kind: {row[0]: float(row[at]) for row in rows if row[0] in crates and row[at] != "-"}
        for at, kind in enumerate(kinds, 1)
    }


def read(file):
    """A file's text; nothing if there is no file."""
    try:
        with open(file, encoding="utf-8", errors="replace") as text:
            return text.read()
    except FileNotFoundError:
        return ""


def crates_of(program):
    """The crates that a program stands on, lowest first, and itself."""
    return [*below(program, libraries(lines())), program]


def sources_of(crate):
    """Each folder below a crate's own, and each source in it."""
    top = f"{ROOT}/crates/{crate}"
    for folder, folders, files in os.walk(top):
        folders[:] = [name for name in folders if name not in ("out", "must-fail")]
        if folder != top:
            yield folder
        yield from (f"{folder}/{name}" for name in files if name.endswith(SOURCES))


def is_fresh(made, crate):
    """Whether what was made of a crate is there, and no source that it stands on is newer."""
    try:
        at = os.stat(made).st_mtime_ns
    except FileNotFoundError:
        return False
    sources = (source for below in crates_of(crate) for source in sources_of(below))
    return all(os.stat(source).st_mtime_ns <= at for source in (f"{ROOT}/crates.txt", *sources))


def is_built(crate):
    """Whether a program was proved and built of the sources as they are."""
    made = f"{ROOT}/crates/{crate}/out/{crate}"
    return os.access(made, os.X_OK) and is_fresh(made, crate)


def program_of(given, crate):
    """The program that was given, or the proved one of that crate."""
    if given:
        if not is_program(given):
            stop(f"{given} is no program", 2)
        return os.path.abspath(given)
    if not is_built(crate):
        name = crate.replace("_", "-")
        stop(f"the proved {name} isn't built of these sources: run bin/build {name}", 2)
    return f"{ROOT}/crates/{crate}/out/{crate}"


def commit_of(program):
    """Of which commit the sources of a program are."""
    how: dict[str, Any] = {
        "stdout": subprocess.PIPE,
        "stderr": subprocess.DEVNULL,
        "text": True,
        "check": False,
    }
    git = ["git", "-C", ROOT]
    commit = subprocess.run([*git, "rev-parse", "--verify", "HEAD"], **how).stdout.strip()
    if not commit:
        return "a commit that isn't known"
    paths = ["crates.txt", *(f"crates/{crate}" for crate in crates_of(program))]
    changed = subprocess.run([*git, "status", "--porcelain", "--", *paths], **how).stdout
    return f"commit {commit}" + ", with changes" * bool(changed)


def by_word(text, package):
    """Does what the first word names: a module of this package, with its own text and main."""

    def main():
        words = Words(text)
        words.add_argument("word", metavar="WORD", choices=package.WORDS, help="one of these words")
        name = words.parse_args(sys.argv[1:2]).word
        sys.argv[:2] = [f"{sys.argv[0]} {name}"]
        return importlib.import_module(f"{package.__name__}.{name}").main()

    end_with(main)


def linked(file, to):
    """Links a file, or copies it if it can't be linked."""
    try:
        os.link(file, to)
    except OSError:
        shutil.copyfile(file, to)


def number_in(file, pattern):
    """The number that a file of the system has, or None."""
    try:
        with open(file, encoding="utf-8") as text:
            found = re.search(pattern, text.read())
    except OSError:
        return None
    return int(found[1]) if found else None


def lanes():
    """How many checks there is room for: one a processor, as far as memory reaches, or RT_JOBS."""
    fixed = os.environ.get("RT_JOBS", "")
    if fixed.isdigit() and int(fixed) > 0:
        return int(fixed)
    free = [1024 * (number_in("/proc/meminfo", r"MemAvailable:\s+(\d+)") or 0)]
    group = "/sys/fs/cgroup/memory."
    limit, used = (number_in(group + name, r"(\d+)") for name in ("max", "current"))
    if limit and used is not None:
        free.append(limit - used)
    return max(1, min(len(os.sched_getaffinity(0)), min(free) // MEMORY))


def counted(said, status):
    """How much passed and failed of what a part of a check said; what ended badly and counts no
    failure, or counts nothing, has failed once."""
    found = COUNTS.findall(said)
    passed, failed = map(int, found[-1]) if found else (0, 1)
    return passed, max(failed, 1 if status else 0)


def answer(word, *words):
    """Answers bin/programs.sh: by a status, or by a line."""
    answers: dict[str, Callable] = {
        "is_fresh": is_fresh,
        "is_built": is_built,
        "commit_of": commit_of,
    }
    told = answers[word](*words)
    if isinstance(told, str):
        print(told)
    return 0 if told else 1


if __name__ == "__main__":
    end_with(lambda: answer(*sys.argv[1:]))
