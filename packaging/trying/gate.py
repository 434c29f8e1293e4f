"""The part of the trial that the merge gate runs: what the package is, and a first reading from its
unpacked files. It needs no network and no root."""

import hashlib
import json
import re
import shutil
import sqlite3
import stat
from concurrent.futures import ThreadPoolExecutor
from pathlib import Path

from bozintar.processes import HOST, Failed, Processes, await_that, command, free_port
from bozintar.server import Program

from .counting import Trials, needed, run

# The settings in files NAME.conf.
NAMES = ("bridges", "console", "door", "lnsd", "stores")
# The package may have at most this many bytes.
MOST_BYTES = 6 << 20
SETTINGS = ("adr-except", "gateways", "names", *(f"{name}.conf" for name in NAMES))
CONFFILES = {f"/etc/bozintar/{name}" for name in SETTINGS}
# The users that the package makes.
USERS = ("lnsd", "bozintar", "bozintar-console", "bozintar-door")
# Where the package may have files.
PLACES = ("etc/bozintar/", "lib/systemd/system/", "usr/")
# What runs the second build: another time zone, language, umask and folder for temporary files.
UMASK = 'umask 077; exec "$0" "$@"'
ELSEWHERE = ("env", "TZ=Asia/Tokyo", "LC_ALL=C", "TMPDIR=/var/tmp", "sh", "-c", UMASK)


def built(top: Path, out: Path, *words: str, by: tuple[str, ...] = ()) -> Path:
    """Builds the package, by another program that runs bin/package, and returns its path."""
    needed(*by, top / "bin/package", "--out", out, *words)
    found = list(out.glob("*.deb"))
    if len(found) != 1:
        raise Failed(f"bin/package made {len(found)} packages")
    return found[0]


def try_builds(trials: Trials, top: Path, room: Path, words: list[str]) -> Path:
    """Two builds are equal, and small enough."""
    with ThreadPoolExecutor() as both:
        begun = [
            both.submit(built, top, room / name, *words, by=by)
            for name, by in (("one", ()), ("two", ELSEWHERE))
        ]
        one, two = (build.result() for build in begun)
    sums = [hashlib.sha256(made.read_bytes()).hexdigest() for made in (one, two)]
    trials.same("the checksum of the second build", sums[1], sums[0])
    size = one.stat().st_size
    trials.holds("the package is small", size <= MOST_BYTES, f"{size:,} bytes")
    trials.step(f"two builds: {size:,} bytes, sha256 {sums[0][:16]}..")
    return one


def try_lintian(trials: Trials, package: Path) -> None:
    """lintian prints nothing."""
    status, out, said = run("lintian", "--no-cfg", "--allow-root", package)
    trials.same("lintian", (status, out, said), (0, "", ""))
    trials.step("lintian")


def try_files(trials: Trials, top: Path, tree: Path, control: Path) -> None:
    """Modes, times and places of the files, and the conffiles."""
    moment = int(needed("git", "-C", top, "log", "-1", "--format=%ct"))
    for path in sorted(tree.rglob("*")):
        name, mode = str(path.relative_to(tree)), path.lstat().st_mode
        if not path.is_dir() or path.is_symlink():  # unpacking changes the time of a folder
            trials.same(f"the time of {name}", int(path.lstat().st_mtime), moment)
        if path.is_symlink():
            is_well = path.exists()
        elif path.is_dir():
            is_well = stat.S_IMODE(mode) == 0o755
        else:
            plain = stat.S_IMODE(mode) in (0o644, 0o755) and stat.S_ISREG(mode)
            is_well = plain and name.startswith(PLACES)
        trials.holds(f"the file {name}", is_well, oct(mode))
    conffiles = set((control / "conffiles").read_text(encoding="ascii").split())
    trials.same("the conffiles", conffiles, CONFFILES)
    settings = (tree / "etc/bozintar/lnsd.conf").read_text(encoding="utf-8")
    trials.holds("NETID has no default", not re.search("^NETID=", settings, re.M), settings)
    trials.holds("SLOTS has a default", "\nSLOTS=4096\n" in settings, settings)
    for script in ("postinst", "prerm", "postrm"):
        trials.same(f"sh -n {script}", run("sh", "-n", control / script), (0, "", ""))
    trials.step("files, conffiles and scripts")


def try_commands(trials: Trials, top: Path, tree: Path, is_proved: bool) -> None:
    """The version, and each command's --help and man page."""
    commit = needed("git", "-C", top, "rev-parse", "HEAD").strip()
    status, out, said = run(tree / "usr/bin/lnsd", "--version")
    proof = "full" if is_proved else "none"
    due = rf"lnsd [0-9.]+, commit ({commit[:12]}|{commit[:11]}\+), proof: {proof}\n"
    trials.holds("lnsd --version", re.fullmatch(due, out) and not status, (out, said))
    build = (tree / "usr/share/doc/bozintar/build.txt").read_text(encoding="utf-8")
    trials.holds("build.txt has the commit", f"commit {commit}" in build, build)
    found = tree.glob("usr/share/man/man1/*.gz")
    pages = {page.name.removesuffix(".1.gz"): page for page in found}
    for program in sorted(tree.glob("usr/bin/*")):
        trials.holds(f"{program.name} has a man page", program.name in pages)
        if program.name != "lns-sim":
            status, out, said = run(program, "--help")
            trials.holds(f"{program.name} --help", not status and len(out) > 100 and not said, said)
    for name, page in pages.items():
        status, out, said = run("man", "--warnings", "-E", "UTF-8", "-l", page)
        trials.holds(f"man {name}", not status and len(out) > 200 and not said, said or out)
    trials.step(f"commands and {len(pages)} man pages")


def try_units(trials: Trials, tree: Path, room: Path) -> None:
    """systemd accepts the units and the users."""
    root = room / "root"
    shutil.copytree(tree, root, symlinks=True)
    units = sorted(path.name for path in root.glob("lib/systemd/system/*.*") if path.is_file())
    to = root / "lib/systemd/system"
    shutil.copytree("/lib/systemd/system", to, symlinks=True, dirs_exist_ok=True)
    (root / "bin").mkdir()
    shutil.copy("/bin/sh", root / "bin/sh")
    for unit in units:
        name = unit.replace("@.", "@3.")
        words = ("systemd-analyze", f"--root={root}", "--man=no", "verify", name)
        trials.same(f"systemd-analyze verify {name}", run(*words), (0, "", ""))
    status, out, said = run("systemd-sysusers", f"--root={root}", "bozintar.conf")
    users = root / "etc/passwd"
    names = users.read_text(encoding="utf-8") if users.exists() else ""
    has_all = all(re.search(f"^{user}:", names, re.M) for user in USERS)
    trials.holds("systemd-sysusers makes the users", not status and has_all, out + said)
    trials.step(f"{len(units)} units, {len(USERS)} users")


def start_broker(parts: Processes, tree: Path) -> int:
    """Starts mosquitto by the package's example on a port of its own."""
    port = free_port()
    text = (tree / "usr/share/doc/bozintar/examples/mosquitto.conf").read_text(encoding="utf-8")
    conf = parts.file("mosquitto.conf", text.replace("listener 1883 ", f"listener {port} "))
    parts.process("mosquitto", command("mosquitto"), "-v", "-c", conf).start("running")
    return port


def start_bridges(parts: Processes, programs: Path, network: str, broker: str, db: Path) -> str:
    """Starts the bridges and readings. Returns where gateways send to."""
    line, udp = needed(programs / "bozintar-play", "--device"), f"{HOST}:{free_port()}"
    devices, of = parts.file("devices.csv", line), ("--broker", broker, "--application", "3")
    started: dict[str, tuple[str | Path, ...]] = {
        "gateways-udp": ("--network", network, "--udp", udp, "--gateway", "00000000000000B1"),
        "applications-mqtt": ("--network", network, *of, "--devices", devices),
        "readings": ("--db", db, *of),
    }
    for name, words in started.items():
        parts.process(name, programs / f"bozintar-{name}", *words).start()
    await_that("a file of readings", db.exists)
    return udp


def try_reading(trials: Trials, tree: Path, room: Path) -> None:
    """A reading goes from a played gateway to MQTT and to SQLite, by the unpacked programs."""
    programs, db = tree / "usr/bin", room / "readings.db"
    with Program(str(programs / "lnsd")) as server, Processes() as parts:
        trials.same("lnsd format", server.format(), (0, "", ""))
        network, port = "{}:{}".format(*server.run_on()), start_broker(parts, tree)
        udp = start_bridges(parts, programs, network, f"{HOST}:{port}", db)
        words = ("-h", HOST, "-p", port, "-t", "application/3/device/+/event/up", "-C", 1)
        hearing = parts.process("mosquitto_sub", "mosquitto_sub", *words).start()
        play = (programs / "bozintar-play", "--udp", udp, "--count", "1", "--every", "2")
        status, out, said = run(*play, timeout=90)
        logs = "".join(process.said() for process in parts.all)
        trials.holds("bozintar-play is acknowledged", status == 0, out + said + logs)
        hearing.ended(60)
        event = json.loads(hearing.said() or "{}")
        trials.same("the counter on MQTT", event.get("fCnt"), 0)
        trials.same("the port on MQTT", event.get("fPort"), 7)
        await_that("a stored reading", lambda: rows(db))
    trials.step("a reading from the unpacked files, by UDP and MQTT to SQLite")


def rows(db: Path) -> int:
    """How many readings are stored."""
    with sqlite3.connect(f"file:{db}?mode=ro", uri=True) as reader:
        tables = reader.execute("select name from sqlite_master where type = 'table'").fetchall()
        counting = [reader.execute(f'select count(*) from "{name}"') for (name,) in tables]
        counts = [counted.fetchone()[0] for counted in counting]
    return max(counts, default=0)


def try_all(trials: Trials, top: Path, room: Path, words: list[str]) -> None:
    """All of this part. The words are those of bin/package."""
    package = try_builds(trials, top, room, words)
    tree, control = room / "tree", room / "control"
    needed("dpkg-deb", "-x", package, tree)
    needed("dpkg-deb", "-e", package, control)
    try_lintian(trials, package)
    try_files(trials, top, tree, control)
    try_commands(trials, top, tree, "--unproved" not in words)
    try_units(trials, tree, room)
    try_reading(trials, tree, room)
