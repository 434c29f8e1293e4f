"""What a run of lnsd takes: a disk's syncs, a process's time and memory, how often it wakes."""
import math
import multiprocessing
import os
import platform
import re
import shutil
import signal
import subprocess
import tempfile
import time
from contextlib import contextmanager

import commands

MOST_SYNCS, BATCH = 400, 700


def share(values, part):
    """The value that so great a part of the values doesn't exceed."""
    ordered = sorted(values)
    return ordered[max(0, math.ceil(part * len(ordered)) - 1)]


def spread(nanoseconds):
    """Median and 99th percentile in ms, and the percentiles from 0 to 100 that a plot needs."""
    values = sorted(taken / 1e6 for taken in nanoseconds)
    if not values:
        return {"count": 0}
    percentiles = [round(share(values, permille / 1000), 4) for permille in range(0, 1001, 5)]
    return {
        "count": len(values),
        "median_ms": round(share(values, 0.5), 3),
        "p99_ms": round(share(values, 0.99), 3),
        "largest_ms": round(values[-1], 3),
        "percentiles_ms": percentiles,
    }


def committed(number, place):
    """The syncs of one commit: after a write of a batch, and after one of a byte, in ns."""
    took = []
    for written in (os.urandom(BATCH), b"\xa5"):
        os.pwrite(number, written, place)
        begun = time.monotonic_ns()
        os.fdatasync(number)
        took.append(time.monotonic_ns() - begun)
    return took


@contextmanager
def file_in(folder):
    """A file of two mebibytes of which every block is there, as a store's are."""
    with tempfile.TemporaryFile(dir=folder) as file:
        os.pwrite(file.fileno(), bytes(2 << 20), 0)
        os.fsync(file.fileno())
        yield file.fileno()


def told(pairs):
    """The spreads of single syncs, and of the two of a commit."""
    return {"one": spread(sum(pairs, [])), "two": spread(map(sum, pairs))}


def syncs(folder):
    """How long `fdatasync` takes here, as a commit calls it, if nothing else is running."""
    with file_in(folder) as number:
        return told([committed(number, batch * BATCH) for batch in range(MOST_SYNCS)])


class Probe:
    """Makes such syncs all the while in a process of its own, a commit's ten times a second."""

    def __init__(self, folder):
        context = multiprocessing.get_context("fork")
        self.found, ends = context.Pipe(duplex=False)
        self.stop = context.Event()
        self.process = context.Process(target=self.go_on, args=(folder, ends), daemon=True)

    def go_on(self, folder, ends):
        pairs: list = []
        with file_in(folder) as number:
            while not self.stop.wait(0.1):
                pairs.append(committed(number, len(pairs) % 2000 * BATCH))
        ends.send(pairs)

    def __enter__(self):
        self.process.start()
        return self

    def __exit__(self, *_):
        self.stop.set()
        self.pairs = self.found.recv() if self.found.poll(10) else []
        self.process.join(10)


def memory(pid):
    """VmRSS and VmHWM of a process in MiB."""
    of = f"/proc/{pid}/status"
    kib = {name: commands.number_in(of, rf"{name}:\s+(\d+)") for name in ("VmRSS", "VmHWM")}
    return {name: round(value / 1024, 1) for name, value in kib.items()}


def times_of(pid, ended=False):
    """The processor time in seconds that a process has taken in the program and in the kernel; also
    with that of the processes that it has started and that have ended."""
    with open(f"/proc/{pid}/stat", encoding="utf-8") as file:
        words = [int(word) for word in file.read().rpartition(")")[2].split()[11:15]]
    ticks = os.sysconf("SC_CLK_TCK")
    user, kernel = (words[place] + ended * words[place + 2] for place in (0, 1))
    return user / ticks, kernel / ticks


def seconds_of(pid):
    """The processor time that a process has taken."""
    return sum(times_of(pid))


def of_task(pid, task):
    """Of a thread: its name, its time on a processor in ns, and how often it was taken off one, by
    its own will or not."""
    folder = f"/proc/{pid}/task/{task}"
    with open(f"{folder}/status", encoding="utf-8") as file:
        status = file.read()
    with open(f"{folder}/schedstat", encoding="utf-8") as file:
        ran = int(file.read().split()[0])
    name = re.findall(r"Name:\s+(.*)", status)[0]
    return name, ran, sum(map(int, re.findall(r"ctxt_switches:\s+(\d+)", status)))


def tasks(pid):
    """What each thread of a process has taken."""
    return {task: of_task(pid, task) for task in os.listdir(f"/proc/{pid}/task")}


def switches(pid):
    """How often the threads of a process were taken off a processor, by their own will or not."""
    return sum(times[2] for times in tasks(pid).values())


def calls(pid, seconds):
    """The system calls that a process ends in that time, as lines of strace, or None where there is
    no strace, or it may not look."""
    if not shutil.which("strace"):
        return None
    with tempfile.NamedTemporaryFile() as told:
        words = ["strace", "-f", "-qq", "-o", told.name, "-p", str(pid)]
        tried = subprocess.Popen(words, stderr=subprocess.PIPE)
        time.sleep(seconds)
        may_look = tried.poll() is None
        tried.send_signal(signal.SIGINT)
        tried.communicate(timeout=10)
        lines = told.read().decode(errors="replace").splitlines()
    # what each thread waits in while strace looks has a line too, without a result
    done = [line for line in lines if " = " in line or " resumed>" in line]
    return done if may_look else None


@contextmanager
def counted(pid):
    """Has strace count the system calls of a process; a dictionary that has them after it, or is
    empty where there is no strace."""
    found: dict = {}
    if not shutil.which("strace"):
        yield found
        return
    with tempfile.NamedTemporaryFile() as told:
        words = ["strace", "-f", "-c", "-qq", "-o", told.name, "-p", str(pid)]
        recorded = subprocess.Popen(words, stderr=subprocess.DEVNULL)
        time.sleep(1)
        try:
            yield found
        finally:
            recorded.send_signal(signal.SIGINT)
            recorded.wait(timeout=30)
        lines = (line.split() for line in told.read().decode().splitlines()[2:-2])
        found.update({words[-1]: int(words[3]) for words in lines if len(words) > 4})


def idle(pid, seconds):
    """How a process that has nothing to do spends that time."""
    begun, before = seconds_of(pid), switches(pid)
    time.sleep(seconds)
    found = {"seconds": seconds, "switches": switches(pid) - before}
    found["processor_ms"] = round(1000 * (seconds_of(pid) - begun), 1)
    called = calls(pid, seconds)
    found["system_calls"] = None if called is None else len(called)
    found["first_calls"] = (called or [])[:5]
    return found


def by_command(*words):
    """The first line that a command prints, or nothing."""
    try:
        asked = subprocess.run(
            words, capture_output=True, check=False, cwd=commands.ROOT, timeout=20
        )
    except (OSError, subprocess.TimeoutExpired):
        return ""
    return asked.stdout.decode().partition("\n")[0].strip()


def machine(folder):
    """What the figures are of."""
    with open("/proc/cpuinfo", encoding="utf-8") as file:
        model = re.search(r"model name\s*:\s*(.*)", file.read())
    total = commands.number_in("/proc/meminfo", r"MemTotal:\s+(\d+)")
    return {
        "processor": model[1] if model else platform.machine(),
        "processors": len(os.sched_getaffinity(0)),
        "memory_gib": round(total / 2**20, 1),
        "kernel": platform.release(),
        "file_system": by_command("findmnt", "-n", "-o", "FSTYPE", "-T", folder) or "unknown",
        "python": platform.python_version(),
        "load_average": os.getloadavg()[0],
        "date": time.strftime("%Y-%m-%d %H:%M UTC", time.gmtime()),
        "commit": by_command("git", "rev-parse", "--short", "HEAD") or "unknown",
    }
