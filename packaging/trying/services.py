"""The services of the package beside the server and its bridges, in a Debian that has booted."""

from bozintar.processes import await_that

from .container import Container
from .counting import Trials

TLS, AUTHORITY, COPIES = "/etc/bozintar/tls", "/root/authority", "/var/lib/bozintar-copies"
NUMBERS = "/var/lib/prometheus/node-exporter/lnsd.prom"
GATEWAY = "0016c001f153a14c"
# services that go on, with what each prints once it serves
SERVING = {
    "bozintar-door": "listens on",
    "bozintar-watch": "watching",
    "bozintar-lookout": "",
    "bozintar-gateways-mqtt": "connected to",
    "bozintar-web-console": "",
    # without etcd, which isn't there
    "bozintar-follow": "the cluster is away",
}
DUE = ("lnsd_up 1", "pilot_broker_messages ", "pilot_copy_seconds ")


def make_certificates(inside: Container) -> None:
    """An authority, and what the door needs, by the commands of pilot/README.md."""
    for words in ("authority", "server localhost", f"gateway {GATEWAY}"):
        inside.does("bozintar-certificates", AUTHORITY, *words.split())
    inside.does("install", "-d", "-m", "700", TLS)
    names = ("ca.crt", "ca.crl", "server.crt", "server.key")
    inside.does("install", "-m", "600", *(f"{AUTHORITY}/{name}" for name in names), TLS)


def is_let_in(inside: Container) -> bool:
    """Whether the door takes the gateway's certificate."""
    files = {"CAfile": "ca.crt", "cert": f"{GATEWAY}.crt", "key": f"{GATEWAY}.key"}
    options = " ".join(f"-{name} {AUTHORITY}/{file}" for name, file in files.items())
    # it waits for a second: a client hears only then that its certificate isn't taken
    line = f"sleep 1 | openssl s_client -connect 127.0.0.1:5601 {options}"
    said = inside.run("sh", "-c", line)[1]
    return "Verification: OK" in said


def try_door(trials: Trials, inside: Container) -> None:
    """The door, and the list of revoked certificates, which it reads again."""
    await_that("the door takes a certificate", lambda: is_let_in(inside))
    before = inside.shows("bozintar-door", "MainPID")
    inside.does("bozintar-certificates", AUTHORITY, "revoke", GATEWAY)
    inside.does("install", "-m", "600", f"{AUTHORITY}/ca.crl", TLS)
    inside.does("systemctl", "reload", "bozintar-door")
    due = "1 certificates are revoked"
    await_that("the list is read again", lambda: due in inside.journal("bozintar-door"))
    trials.same("the door's process", inside.shows("bozintar-door", "MainPID"), before)


def try_copies(trials: Trials, inside: Container) -> None:
    """A copy of the store, and the numbers."""
    inside.does("systemctl", "start", "bozintar-copy")
    found = inside.does("ls", COPIES).split()
    trials.holds("a copy of the store", len(found) == 1 and found[0].startswith("store-"), found)
    inside.does("systemctl", "start", "bozintar-metrics")
    said = inside.does("cat", NUMBERS)
    for line in DUE:
        trials.holds(f"the number {line}", f"\n{line}" in said, said[-2000:])


def try_reload(trials: Trials, inside: Container, unit: str) -> None:
    """The list of gateways is read again, and the bridge goes on."""
    before = inside.shows(unit, "MainPID")
    inside.does("sh", "-c", "echo 00000000000000B9 >>/etc/bozintar/gateways")
    inside.does("systemctl", "reload", unit)
    await_that("the list is read again", lambda: "2 gateways" in inside.journal(unit))
    trials.same("the bridge's process", inside.shows(unit, "MainPID"), before)
    inside.does("sed", "-i", "/B9$/d", "/etc/bozintar/gateways")


def try_services(trials: Trials, inside: Container, bridge: str) -> None:
    """All of them, which are then ended."""
    make_certificates(inside)
    inside.does("systemctl", "start", *SERVING)
    for unit, due in SERVING.items():
        await_that(unit, lambda: due in inside.journal(unit))
    try_door(trials, inside)
    try_copies(trials, inside)
    try_reload(trials, inside, bridge)
    for unit in SERVING:
        shown = inside.shows(unit, "ActiveState"), inside.shows(unit, "NRestarts")
        trials.same(f"{unit} goes on", shown, ("active", "0"))
        user = inside.shows(unit, "User")
        trials.holds(f"{unit} doesn't run as root", user not in ("", "root"), user)
    inside.does("systemctl", "stop", *SERVING)
    inside.does("rm", "-r", TLS, AUTHORITY)
    trials.step("door, watch, lookout, console, copy, metrics, reload")
