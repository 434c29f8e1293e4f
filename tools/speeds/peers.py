"""Two databases that make one row an uplink durable: PostgreSQL, a server on a folder of its own,
and SQLite in WAL mode with synchronous=FULL. Nothing is installed here."""
import glob
import os
import pwd
import shutil
import sqlite3
import subprocess
import tempfile
import time
from typing import Any

from bozintar.processes import HOST, free_port

from .measure import spread, times_of

TABLE = """CREATE TABLE uplinks (dev_eui BIGINT, join_nonce INT, counter BIGINT, port INT,
    payload {bytes}, gateway BIGINT, hz BIGINT, data_rate INT, snr INT, rssi INT)"""
PAYLOAD = "000102030405060708090A0B"
NEEDED = ("initdb", "postgres", "psql")
INSTALL = "PostgreSQL isn't here: apt-get install postgresql"


class Missing(Exception):
    """A peer isn't installed, or doesn't run here."""


def sqlite(folder, seconds):
    """Commits a second of SQLite, one client."""
    waits: list = []
    with tempfile.TemporaryDirectory(dir=folder) as room:
        database = sqlite3.connect(f"{room}/uplinks", isolation_level=None)
        mode = database.execute("PRAGMA journal_mode=WAL").fetchone()[0]
        database.execute("PRAGMA synchronous=FULL")
        database.execute(TABLE.format(bytes="BLOB"))
        insert = f"INSERT INTO uplinks VALUES ({','.join('?' * 10)})"
        begun = time.monotonic()
        while time.monotonic() - begun < seconds:
            row = (len(waits) % 4096, 1, len(waits), 7, bytes.fromhex(PAYLOAD))
            now = time.monotonic_ns()
            database.execute(insert, (*row, 177, 868_100_000, 5, -20, -95))
            waits.append(time.monotonic_ns() - now)
        took = time.monotonic() - begun
        database.close()
    told = {"version": sqlite3.sqlite_version, "journal_mode": mode, "synchronous": "FULL"}
    return {**told, "commits_a_second": round(len(waits) / took), **spread(waits)}


def found():
    """The programs of PostgreSQL."""
    places = sorted(glob.glob("/usr/lib/postgresql/*/bin"), reverse=True)
    path = os.pathsep.join([*places, os.environ.get("PATH", "")])
    programs = {name: shutil.which(name, path=path) for name in NEEDED}
    if not all(programs.values()):
        raise Missing(INSTALL)
    return programs


def owner():
    """Whose server it may be: that of root is refused by PostgreSQL."""
    if os.getuid():
        return {}
    for name in ("postgres", "nobody"):
        try:
            user = pwd.getpwnam(name)
            return {"user": user.pw_uid, "group": user.pw_gid, "extra_groups": []}
        except KeyError:
            pass
    raise Missing("PostgreSQL doesn't run as root, and there is no user postgres")


def children(pid):
    """The processes that a process has started and that have not ended."""
    found = []
    for name in filter(str.isdigit, os.listdir("/proc")):
        try:
            with open(f"/proc/{name}/stat", encoding="utf-8") as file:
                if file.read().rpartition(")")[2].split()[1] == str(pid):
                    found.append(int(name))
        except OSError:
            pass
    return found


class Postgres:
    """A server of PostgreSQL on a folder of its own, with its settings as they come."""

    def __init__(self, folder):
        self.programs, self.how = found(), owner()
        self.room = tempfile.mkdtemp(prefix="lnsd-peer-", dir=folder)
        # the path of a socket is short
        self.socket = tempfile.mkdtemp(prefix="lnsd-peer-")
        for folder in (self.room, self.socket):
            if self.how:
                os.chown(folder, self.how["user"], self.how["group"])
        self.server: Any = None
        self.address = (HOST, free_port())

    def run(self, name, *words, **more):
        """Runs one of its programs; what it printed."""
        how: dict[str, Any] = {
            "capture_output": True,
            "cwd": self.room,
            "check": False,
            "timeout": 120,
        }
        ran = subprocess.run([self.programs[name], *words], **how, **self.how, **more)
        if ran.returncode:
            raise Missing(f"{name}: {ran.stderr.decode(errors='replace').strip()[:300]}")
        return ran.stdout.decode()

    def __enter__(self):
        try:
            data = f"{self.room}/data"
            self.run("initdb", "-D", data, "-U", "lnsd", "-A", "trust", "-N")
            words = ["-D", data, "-k", self.socket, "-c", f"listen_addresses={HOST}"]
            words += ["-p", str(self.address[1])]
            quiet: dict[str, Any] = {"stdout": subprocess.DEVNULL, "stderr": subprocess.DEVNULL}
            self.server = subprocess.Popen(
                [self.programs["postgres"], *words], cwd=self.room, **quiet, **self.how
            )
            self.await_it()
        except BaseException:
            self.__exit__()
            raise
        return self

    def await_it(self):
        last = time.monotonic() + 30
        while True:
            try:
                self.query(TABLE.format(bytes="BYTEA"))
                return
            except Missing:
                if time.monotonic() > last or self.server.poll() is not None:
                    raise
                time.sleep(0.2)

    def query(self, text):
        words = ["-X", "-A", "-t", "-h", self.socket, "-p", str(self.address[1]), "-U", "lnsd"]
        words += ["postgres", "-c", text]
        return self.run("psql", *words).strip()

    def told(self):
        """Its version, and what it has set of durability."""
        names = ("server_version", "fsync", "synchronous_commit", "wal_sync_method")
        return {name: self.query(f"SHOW {name}") for name in names}

    def seconds(self):
        """The processor time that its processes have taken, also those that have ended."""
        own = sum(times_of(self.server.pid, True))
        return own + sum(sum(times_of(child)) for child in children(self.server.pid))

    def __exit__(self, *_):
        if self.server:
            self.server.terminate()
            try:
                self.server.wait(20)
            except subprocess.TimeoutExpired:
                self.server.kill()
                self.server.wait()
        for folder in (self.room, self.socket):
            shutil.rmtree(folder, ignore_errors=True)
