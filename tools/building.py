"""Proofs of crates side by side, the longest chain first, for bin/build and bin/prove. A crate that
is proved as it is isn't proved again, also if a run was interrupted. What the toolchain prints goes
to out/build/."""
import fcntl
import glob
import os
import re
import shutil
import signal
import subprocess
import sys
import tempfile
import time
from collections.abc import Iterable, Iterator
from contextlib import contextmanager
from dataclasses import dataclass
from typing import Any

import commands
from commands import ROOT
from bozintar.words import name, stop

PROGRAMS = ("lnsd", "lns-sim", "lns-speed")
# What bin/build builds only if it is named.
FURTHER = ("calls-without-memory",)
# The words of the run that follows a proof, where a run without words fails.
RUNS = {"lnsd": ["--", "--version"]}
LOGS = f"{ROOT}/out/build"
ROOMS = "bozintar-build-"
# More processes than these for one proof hardly help.
MOST_JOBS = 4
# What shows that a library is proved: the toolchain writes its sum here.
STAMP = "rlib/stamp"
PROOF, TESTS = "proof", "tests"
# A test of a crate's sources, and how many lines of a failed proof are shown.
TEST = re.compile(r"^\s*#\[test\]", re.MULTILINE)
SHOWN = 40


def stamps() -> dict[str, str]:
    """The toolchain's sum of each crate, with all that it stands on."""
    crates = commands.toolchain().rtlib.crates_below(ROOT)
    return {crate.name: crate.stamp() for crate in crates}


def is_program(crate: str) -> bool:
    return os.path.exists(f"{ROOT}/crates/{crate}/src/main.rt")


def has_tests(crate: str) -> bool:
    sources = (file for file in commands.sources_of(crate) if file.endswith(".rt"))
    return any(TEST.search(commands.read(file)) for file in sources)


@dataclass(frozen=True)
class Task:
    """A crate's proof, or that of its tests, with their run."""

    crate: str
    kind: str = PROOF

    def __str__(self) -> str:
        return self.crate if self.kind == PROOF else f"{self.crate} ({self.kind})"

    @property
    def log(self) -> str:
        return f"{LOGS}/{self.crate}{'' if self.kind == PROOF else f'-{self.kind}'}.log"

    @property
    def note(self) -> str:
        """The file that has the sum of the crate that was done."""
        return f"{LOGS}/done/{self.crate}-{self.kind}"

    @property
    def made(self) -> str:
        """The file that is there where the crate is proved."""
        file = self.crate if is_program(self.crate) else STAMP
        return f"{ROOT}/crates/{self.crate}/out/{file}"

    def steps(self, jobs: int) -> Iterator[list[str]]:
        """The toolchain's commands for it, in the crate's folder."""
        if self.kind == TESTS:
            yield ["try", "--test", "--seconds", "600"]
            yield ["test", "--jobs", str(jobs)]
        else:
            verb = "run" if is_program(self.crate) else "lib"
            yield [verb, "--jobs", str(jobs), *RUNS.get(self.crate, [])]


class Plan:
    """The crates, with what stands on each, and what each of their tasks takes."""

    def __init__(self) -> None:
        self.lines = commands.lines()
        self.named = commands.libraries(self.lines)
        self.below = {crate: commands.below(crate, self.named) for crate in self.named}
        self.minutes = commands.minutes()
        self.stamps = stamps()

    def weight(self, task: Task) -> float:
        """Its processor minutes."""
        return self.minutes[task.kind].get(task.crate, 1.0)

    def chain(self, task: Task, among: Iterable[Task]) -> float:
        """The minutes of the longest chain of these tasks from this one up."""
        above = [it for it in among if task.kind == PROOF and task.crate in self.named[it.crate]]
        return self.weight(task) + max([self.chain(it, among) for it in above], default=0.0)

    def waits(self, task: Task) -> set[Task]:
        """The tasks that come before."""
        return {Task(crate) for crate in self.below[task.crate]}

    def is_done(self, task: Task) -> bool:
        """Whether it was done of the crate as it is."""
        own = self.stamps[task.crate]
        if task.kind == PROOF and not is_program(task.crate):
            return commands.read(task.made) == own
        is_there = task.kind != PROOF or os.path.exists(task.made)
        return is_there and commands.read(task.note) == own

    def announced(self, todo: list[Task], lanes: int) -> str:
        """How many there are and about how long they take: the processors share the work, and no
        more can be saved than what is beside the longest chain."""
        whole = sum(self.weight(task) for task in todo) / lanes
        longest = max(self.chain(task, todo) for task in todo)
        minutes = round(max(whole, longest))
        about = f"about {minutes} minutes" if minutes > 1 else "about a minute"
        there = os.cpu_count() or 1
        where = f"{lanes} of " * (lanes < there) + f"this machine's {there} processors"
        many = f"{len(todo)} proofs" if len(todo) > 1 else "one proof"
        return f"{many} to make, {about} on {where}, more beside other work"


def moved(source: str, to: str) -> None:
    """Puts a folder in the place of another."""
    if os.path.isdir(source):
        shutil.rmtree(to, ignore_errors=True)
        os.makedirs(os.path.dirname(to), exist_ok=True)
        shutil.move(source, to)


class Job:
    """A task that runs, in a room of its own: a folder with its crate and those below, by links.
    The toolchain's lock on a crate and those below then keeps no other proof waiting."""

    def __init__(self, plan: Plan, task: Task, jobs: int, rooms: str, lock: int) -> None:
        self.plan, self.task, self.jobs, self.lock = plan, task, jobs, lock
        self.room = f"{rooms}/{task.crate}"
        self.kept = f"{ROOT}/crates/{task.crate}/out"
        self.out = f"{self.room}/crates/{task.crate}/out"
        self.begun, self.status = time.time_ns(), 0
        self.steps = list(task.steps(jobs))
        self.process: Any = None

    def begin(self) -> None:
        os.makedirs(f"{LOGS}/done", exist_ok=True)
        open(self.task.log, "wb").close()
        crates = [*self.plan.below[self.task.crate], self.task.crate]
        for crate in crates:
            own, copy = f"{ROOT}/crates/{crate}", f"{self.room}/crates/{crate}"
            shutil.copytree(own, copy, ignore=shutil.ignore_patterns("out", "must-fail"))
            if crate != self.task.crate:
                shutil.copytree(
                    f"{own}/out/rlib", f"{copy}/out/rlib", copy_function=commands.linked
                )
        with open(f"{self.room}/crates.txt", "w", encoding="utf-8") as file:
            file.writelines(f"{self.plan.lines[crate]}\n" for crate in crates)
        moved(self.kept, self.out)
        self.step()

    def step(self) -> None:
        """Begins its next command."""
        with open(self.task.log, "ab") as log:
            words = ["rt", *self.steps.pop(0)]
            how: dict[str, Any] = {"stdin": subprocess.DEVNULL, "stderr": subprocess.STDOUT}
            self.process = subprocess.Popen(words, cwd=os.path.dirname(self.out), stdout=log, **how)

    def is_over(self) -> bool:
        """Whether it has ended; after a command that ended well the next one begins."""
        if self.process.poll() is None:
            return False
        self.status = self.process.returncode
        if self.status or not self.steps:
            return True
        self.step()
        return False

    def close(self) -> None:
        """Ends the proof if it still runs, and gives back what it kept."""
        if self.process and self.process.poll() is None:
            self.process.terminate()
            self.process.wait()
            time.sleep(0.5)  # the toolchain's own processes end with it
            self.status = 1
        moved(self.out, self.kept)
        if self.process and not self.status:
            with open(self.task.note, "w", encoding="utf-8") as note:
                note.write(self.plan.stamps[self.task.crate])
            if self.task.kind == PROOF and os.path.exists(self.task.made):
                # as old as the beginning of its proof, so that an edit in the meantime is newer
                os.utime(self.task.made, ns=(self.begun, self.begun))
        shutil.rmtree(self.room, ignore_errors=True)
        os.close(self.lock)

    def said(self) -> list[str]:
        """The lines that the toolchain printed, with paths from the top of the repository."""
        lines = commands.read(self.task.log).splitlines()
        own = f"crates/{self.task.crate}/"
        return [re.sub(r"^(\./)?(?=(src|specs|proofs)/)", own, line) for line in lines if line]

    def complaint(self) -> tuple[str, int]:
        """Why the crate isn't proved, in a line, and the status."""
        lines = self.said() or ["it said nothing"]
        why = next((line for line in lines if re.search(r"\berror\b", line)), lines[-1])[:300]
        if any(line.startswith("rt: running ") for line in lines):
            return f"proved, but its run ended with status {self.status}", 1
        if any(line.startswith(("rt: the library", "rt: mend these")) for line in lines):
            return f"not tried, since what it stands on failed: {why}", 1
        if self.status in (1, 101):
            return f"NOT PROVED: {why}", 1
        return f"the toolchain could not judge it (status {self.status}): {why}", 3


def lock_of(folder: str) -> int | None:
    """What keeps other runs of the toolchain out of a folder until it is closed, or None where
    one is there."""
    held = os.open(folder, os.O_RDONLY)
    try:
        fcntl.flock(held, fcntl.LOCK_EX | fcntl.LOCK_NB)
        return held
    except BlockingIOError:
        os.close(held)
        return None


class Build:
    """Tasks, done side by side."""

    def __init__(self, plan: Plan, todo: list[Task], rooms: str) -> None:
        self.plan, self.lanes, self.rooms = plan, commands.lanes(), rooms
        self.todo = sorted(todo, key=lambda task: -plan.chain(task, todo))
        self.count, self.start = len(todo), time.time()
        self.running: list[Job] = []

    def tell(self, text: str) -> None:
        print(f"{text}, {(time.time() - self.start) / 60:.1f} minutes so far", flush=True)

    def begin(self) -> None:
        """Begins what can begin, the longest chain first, which gets the processors that no other
        task waits for."""
        undone = {*self.todo, *[job.task for job in self.running]}
        ready = [task for task in self.todo if undone.isdisjoint(self.plan.waits(task))]
        for at, task in enumerate(ready):
            idle = self.lanes - sum(job.jobs for job in self.running)
            if idle < 1:
                return
            lock = lock_of(f"{ROOT}/crates/{task.crate}")
            if lock is not None:
                self.todo.remove(task)
                jobs = max(1, min(MOST_JOBS, idle - (len(ready) - at - 1)))
                self.running.append(Job(self.plan, task, jobs, self.rooms, lock))
                self.running[-1].begin()

    def run(self) -> None:
        """Does them. The first one that fails ends the run."""
        try:
            while self.todo or self.running:
                self.begin()
                time.sleep(0.3)
                for job in [one for one in self.running if one.is_over()]:
                    self.running.remove(job)
                    job.close()
                    if job.status:
                        self.fail(job)
                    done = self.count - len(self.todo) - len(self.running)
                    self.tell(f"{done} of {self.count}: {job.task} is proved")
        finally:
            # a second interrupt must not keep it from giving back what was kept
            for number in (signal.SIGINT, signal.SIGTERM, signal.SIGHUP):
                signal.signal(number, signal.SIG_IGN)
            for job in self.running:
                job.close()

    def fail(self, job: Job) -> None:
        """Prints what the prover said of a proof that failed, and ends."""
        told = [line for line in job.said() if re.match(r"(note: )?crates/\S+:\d+:\d+: ", line)]
        print("\n".join(told[:SHOWN]))
        why, status = job.complaint()
        print(f"{name()}: {job.task}: {why}", file=sys.stderr)
        stop(f"all that was said of it: {os.path.relpath(job.task.log)}", status)


@contextmanager
def only_one() -> Iterator[None]:
    """Waits for another build in this repository to end, and keeps others waiting."""
    os.makedirs(LOGS, exist_ok=True)
    held = lock_of(LOGS)
    if held is None:
        print(f"{name()}: another build works here; this one waits for it", file=sys.stderr)
        while held is None:
            time.sleep(1)
            held = lock_of(LOGS)
    yield
    os.close(held)


def place_for_rooms() -> str:
    """A new folder where links to the repository's files can be, and no check looks."""
    git = f"{ROOT}/.git" if os.path.isdir(f"{ROOT}/.git") else None
    for left in glob.glob(f"{git}/{ROOMS}*"):
        shutil.rmtree(left, ignore_errors=True)  # of a build that was killed
    return tempfile.mkdtemp(prefix=ROOMS, dir=git)


def done(plan: Plan, tasks: Iterable[Task]) -> None:
    """Does those of these tasks that weren't done of the crates as they are."""
    todo = [task for task in dict.fromkeys(tasks) if not plan.is_done(task)]
    if not todo:
        return
    print(f"{name()}: {plan.announced(todo, commands.lanes())}", flush=True)
    rooms = place_for_rooms()
    try:
        Build(plan, todo, rooms).run()
    finally:
        shutil.rmtree(rooms, ignore_errors=True)
