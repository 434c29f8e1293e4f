"""The doors: strangers reach neither the server nor the broker, and nobody is another one."""

import json
import signal
import socket
import sqlite3
import ssl
import subprocess
import time
from collections.abc import Callable, Iterator
from contextlib import suppress
from pathlib import Path
from typing import Any

import pytest
from bozintar import wire
from bozintar.forwarders import Air, Forwarder
from bozintar.links import Application
from bozintar.meters import Meter
from bozintar.processes import HOST, PATIENCE, await_that
from console.access import secure

from .doors import (
    OTHERS,
    Authority,
    Certificates,
    Doors,
    Secured,
    Taker,
    application,
    ended,
    gateway,
    refused_by_broker,
)
from .field import APPLICATION, GATEWAYS
from .parts import Pilot, program_of_pilot, run
from .rows import table
from .whole import Dashboard

PLACE = GATEWAYS[0].lower()
# how long a client may take to greet, and how long one takes for a byte here, in seconds
GREETING, PACE = 10.0, 9.0
REFUSED = wire.framed(b"\x13refused 51")
# a client; the authority of its certificate, and the certificate; what it says; what comes, which
# is None if it isn't let in, and nothing if it is a gateway; and what the door logs then
GREETS = "of 127.0.0.1 isn't let in: it greets as "
AT_THE_DOOR = (
    ("its own EUI", "own", PLACE, gateway(GATEWAYS[0]), b"", ""),
    ("the other EUI of its place", "own", PLACE, gateway(GATEWAYS[1]), b"", ""),
    ("its own application", "own", "application-3", application(3), REFUSED, ""),
    ("no certificate", "own", None, gateway(GATEWAYS[0]), None, "DID_NOT_RETURN_A_CERTIFICATE"),
    ("another authority's", "other", PLACE, gateway(GATEWAYS[0]), None, "local issuer certificate"),
    ("an expired one", "late", PLACE, gateway(GATEWAYS[0]), None, "certificate has expired"),
    ("the server's own", "own", "server", gateway(GATEWAYS[0]), None, "certificate purpose"),
    ("another one's EUI", "own", PLACE, gateway(OTHERS), None, GREETS + OTHERS.lower()),
    ("an application's number", "own", PLACE, application(3), None, GREETS + "application-3"),
    (
        "another application's",
        "own",
        "application-3",
        application(4),
        None,
        GREETS + "application-4",
    ),
    (
        "an application that its number begins with",
        "own",
        "application-13",
        application(1),
        None,
        GREETS + "application-1",
    ),
    (
        "an application that its number ends with",
        "own",
        "application-13",
        application(3),
        None,
        "application-13 " + GREETS + "application-3",
    ),
    (
        "a gateway's EUI",
        "own",
        "application-3",
        gateway(GATEWAYS[0]),
        None,
        "application-3 " + GREETS + PLACE,
    ),
    ("no greeting", "own", PLACE, wire.framed(b"\x01" + bytes(8)), None, "message is no greeting"),
    ("a copy", "own", PLACE, wire.framed(b"\x01" + bytes(40)), None, "too long for a greeting"),
    ("no frame", "own", PLACE, b"\xff" * 100, None, "too long for a greeting"),
)
# a client; the authority of its certificate, and the certificate; whether the broker refuses it
AT_THE_BROKER = (
    ("its own certificate", "own", PLACE, False),
    ("no certificate", "own", None, True),
    ("another authority's", "other", PLACE, True),
    ("an expired one", "late", PLACE, True),
)


# a certificate's subject for openssl, and the names in it
SUBJECTS: tuple = (
    ("/CN=0016c001f153a14c", {"0016c001f153a14c"}),
    ("/CN=0016c001f153a14c/OU=0016c001f153a14d", {"0016c001f153a14c", "0016c001f153a14d"}),
    ("/O=Bozintar/CN=application-3", {"application-3"}),
    ("/CN=application-3+OU=application-4", {"application-3", "application-4"}),
    ("/CN=application-3_x", set()),
    ("/CN=application-3 x", set()),
    ("/CN=application-3.x", set()),
    ("/CN=application-3\n", set()),
    ("/O=CN=application-3/CN=x", {"x"}),
    ("/O=Evil, CN=application-3, Ltd/CN=x", {"x"}),
    ("/L=application-3/ST=application-3/CN=Application-3", set()),
)


class Own(Doors):
    """Doors with certificates of a trial's own, of which some are revoked."""

    def __init__(self, pilot: Pilot) -> None:
        super().__init__(pilot, Certificates(pilot.file("own")))


def certificate_for(authority: Authority, name: str, subject: str) -> None:
    """Has openssl make a certificate with any subject, which `certificates` wouldn't make."""
    certificate, key = authority.of(name)
    by = ("-CA", f"{authority.folder}/ca.crt", "-CAkey", f"{authority.folder}/ca.key")
    how = ("-newkey", "ec", "-pkeyopt", "ec_paramgen_curve:P-256", "-nodes", "-keyout", key)
    words = ["openssl", "req", "-x509", *how, *by, "-days", "2", "-subj", subject]
    subprocess.run([*words, "-out", certificate], check=True, capture_output=True)


@table("subject, names", SUBJECTS)
def test_names_of_a_certificate(
    certificates: Certificates, folder: Path, subject: str, names: set[str]
) -> None:
    """The names in a certificate are whole values of its subject's own fields."""
    authority = Authority(f"{folder}/authority")
    for name in ("ca.crt", "ca.key"):
        (folder / "authority" / name).write_bytes(Path(certificates.own.folder, name).read_bytes())
    certificate_for(authority, "any", subject)
    shown = ssl._ssl._test_decode_cert(authority.of("any")[0])  # type: ignore[attr-defined]
    assert program_of_pilot("secure/door").names_of(shown) == names


def test_name_within_another_field(doors: Doors) -> None:
    """A certificate in whose organisation an application's name stands isn't that application."""
    certificate_for(doors.own, "evil", "/O=Evil, CN=application-3, Ltd/CN=x")
    doors.open()
    assert doors.connect(doors.own.context("evil"), application(3)) is None
    assert f"x {GREETS}application-3" in doors.door.said()


def test_slow_greeting(doors: Doors) -> None:
    """A client that says a byte of its greeting now and then is closed ten seconds after it
    connected, and nothing of it is passed on. A link that is idle meanwhile stays."""
    doors.open()
    idle, context = doors.own.context(OTHERS.lower()), doors.own.context(PLACE)
    with doors.linked(idle, gateway(OTHERS)), socket.socket() as bare:
        begun = time.monotonic()
        bare.connect((HOST, doors.port))
        with context.wrap_socket(bare, server_hostname="localhost") as client:
            client.settimeout(PACE)
            for byte in gateway(GATEWAYS[0])[:-1]:
                try:
                    client.sendall(bytes([byte]))
                    if not client.recv(1):
                        break
                except TimeoutError:
                    pass
                except OSError:
                    break
            else:
                raise AssertionError("it isn't closed before its last byte but one")
        assert time.monotonic() - begun > GREETING - 1
        text = f"{PLACE} {GATEWAYS[1].lower()} of {HOST} isn't let in: it doesn't greet"
        assert text in doors.door.said()
        assert doors.pilot.program.status()["gateways"] == "1"


@pytest.fixture(scope="module")
def opened(program: str, certificates: Certificates) -> Iterator[Doors]:
    """A server behind its door."""
    with Pilot(program) as pilot:
        made = Doors(pilot, certificates)
        made.open()
        yield made


@table("name, authority, certificate, said, due, logged", AT_THE_DOOR)
def test_at_the_door(
    opened: Doors,
    name: str,
    authority: str,
    certificate: str | None,
    said: bytes,
    due: Any,
    logged: str,
) -> None:
    """Who is let in, and who isn't."""
    context = opened.own.context(certificate, getattr(opened, authority))
    if due == b"":
        with opened.linked(context, said):
            return
    assert opened.connect(context, said) == due
    await_that("the door logs it", lambda: opened.door.has_said(logged))


def test_revoked_certificate(pilot: Pilot) -> None:
    """A revoked certificate's link is closed once the list is read again, it isn't let in any more,
    and the broker refuses it, too. Another link stays, and a new certificate for the name works."""
    doors = Own(pilot)
    doors.open()
    gateways = lambda: pilot.program.status()["gateways"]
    old, other = doors.own.context(PLACE), doors.own.context(OTHERS.lower())
    with doors.linked(old, gateway(GATEWAYS[0])), doors.linked(other, gateway(OTHERS), 1) as link:
        doors.own.make("revoke", PLACE)
        doors.door.send_signal(signal.SIGHUP)
        await_that("one link is closed", lambda: gateways() == "1")
        text = f"{PLACE} {GATEWAYS[1].lower()} of {HOST}: its certificate is revoked"
        assert text in doors.door.said()
        assert doors.connect(old, gateway(GATEWAYS[0])) is None
        await_that("that is logged", lambda: doors.door.has_said("certificate revoked"))
        doors.own.make("gateway", *GATEWAYS[:2])
        with doors.linked(doors.own.context(PLACE), gateway(GATEWAYS[0]), 1):
            pass
        link.settimeout(0.1)
        with pytest.raises(TimeoutError):
            link.recv(1)  # the other one's link is open still
    doors.open_broker()
    assert refused_by_broker(doors.broker_port, old)
    assert not refused_by_broker(doors.broker_port, doors.own.context(PLACE))


def test_authoritys_key_is_away(folder: Path) -> None:
    """While ca.key is kept elsewhere nothing is made or revoked. The message asks for this file, and
    not for another authority."""
    place = folder / "own"
    assert run("secure/certificates", place, "authority")[0] == 0
    (place / "ca.key").rename(folder / "ca.key")
    for words in (("application", "3"), ("revoke", "application-3")):
        due = f"certificates: {place} has no ca.key; bring back the key of its authority\n"
        assert run("secure/certificates", place, *words)[::2] == (1, due)
    (place / "ca.crt").unlink()
    due = f"certificates: {place} has no ca.key; make the authority first\n"
    assert run("secure/certificates", place, "revoke")[::2] == (1, due)


@pytest.mark.parametrize("is_revoked", (False, True))
def test_console_and_revoked(folder: Path, is_revoked: bool) -> None:
    """The web console lets no client in whose certificate is revoked."""
    authority = Authority(f"{folder}/own")
    for words in (("server", "localhost"), ("operator", "a"), ("operator", "b")):
        authority.make(*words)
    client = authority.context("operator-a")
    authority.make("revoke", "operator-a" if is_revoked else "operator-b")
    files = (*authority.of("server"), f"{authority.folder}/ca.crt", f"{authority.folder}/ca.crl")
    there, back = ssl.MemoryBIO(), ssl.MemoryBIO()
    server = secure(*files).wrap_bio(there, back, server_side=True)
    browser = client.wrap_bio(back, there, server_hostname="localhost")
    assert refusal(server, browser) == ("certificate revoked" if is_revoked else "")


def refusal(server: ssl.SSLObject, client: ssl.SSLObject) -> str:
    """Why a server refuses a client's certificate; nothing if it doesn't."""
    for _ in range(4):
        with suppress(ssl.SSLWantReadError):
            client.do_handshake()
        try:
            server.do_handshake()
            return ""
        except ssl.SSLWantReadError:
            pass
        except ssl.SSLCertVerificationError as why:
            return why.verify_message
    raise AssertionError("the handshake doesn't end")


def test_list_that_cant_be_read(pilot: Pilot) -> None:
    """A list that can't be read leaves all as it was, and a door doesn't start with it."""
    doors = Own(pilot)
    doors.open()
    Path(doors.own.folder, "ca.crl").write_text("nothing\n", encoding="utf-8")
    doors.door.send_signal(signal.SIGHUP)
    said = "the files can't be used, and all stays as it was"
    await_that("the door logs it", lambda: doors.door.has_said(said))
    with doors.linked(doors.own.context(PLACE), gateway(GATEWAYS[0])):
        pass
    assert doors.door.end() == 0
    doors.door.start()
    assert doors.door.ended() == 1
    assert "the certificates can't be used" in doors.door.said()


def test_no_server(doors: Doors) -> None:
    """If the server is away, clients are closed, and let in again once it is back."""
    doors.open()
    doors.pilot.program.kill()
    context = doors.own.context("application-3")
    assert doors.connect(context, application(3)) is None
    assert "isn't let in: lnsd can't be reached" in doors.door.said()
    doors.pilot.program.run_on(96, port=doors.pilot.address[1])
    assert doors.connect(context, application(3)) == REFUSED


def test_end_of_a_client(doors: Doors) -> None:
    """A client that ends what it sends gets what waits for it, as without TLS."""
    doors.open()
    context = doors.own.context("application-3")
    came, left = ssl.MemoryBIO(), ssl.MemoryBIO()
    tls = context.wrap_bio(came, left, server_hostname="localhost")
    with socket.create_connection((HOST, doors.port), PATIENCE) as bare:
        bare.settimeout(PATIENCE)

        def done(step: Callable[[], Any]) -> Any:
            while True:
                try:
                    return step()
                except ssl.SSLWantReadError:
                    bare.sendall(left.read())
                    piece = bare.recv(1000)
                    came.write(piece) if piece else came.write_eof()

        done(tls.do_handshake)
        tls.write(application(3) + wire.request("hello") * 20)
        with suppress(ssl.SSLWantReadError):
            tls.unwrap()
        bare.sendall(left.read())
        answers = b""
        with suppress(ssl.SSLZeroReturnError):
            while piece := done(lambda: tls.read(1000)):
                answers += piece
    assert answers == REFUSED * 21


def test_client_without_tls(opened: Doors) -> None:
    """A client without TLS is closed."""
    with socket.create_connection((HOST, opened.port), PATIENCE) as plain:
        plain.sendall(gateway(GATEWAYS[0]))
        assert ended(plain)


def test_gateways_through_stunnel(doors: Doors) -> None:
    """A gateway's bridge reaches the server by stunnel and the door; one that isn't named
    doesn't."""
    doors.open()
    pilot, port = doors.pilot, doors.open_client(doors.port)
    named = [word for eui in (*GATEWAYS[:2], OTHERS) for word in ("--gateway", eui)]
    udp = ("--udp", f"{HOST}:{pilot.udp_port}", *named)
    bridge = pilot.own("gateways-udp", "--network", f"{HOST}:{port}", *udp).start("listens on")
    gateways = [Forwarder(eui, pilot.udp_port) for eui in (GATEWAYS[0], OTHERS)]
    meter = Meter(0)
    air, reader = Air(gateways, [meter]), Application(pilot.address, APPLICATION)
    reader.asks("provision " + " ".join(meter.row().split(",")))
    reader.hears()
    due = f"gateway {OTHERS}: no link"
    is_out = air.go_on(PATIENCE, lambda: bridge.has_said(due))
    assert is_out, "a gateway that isn't the certificate's"
    gateways[0].hears(meter.join_request())
    assert air.go_on(PATIENCE, lambda: meter.keys is not None), "a meter joins"
    gateways[0].hears(meter.reads())
    mark = meter.awaited
    is_there = air.go_on(PATIENCE, lambda: mark in meter.acknowledged)
    assert is_there, "a reading is acknowledged"
    assert reader.hears().startswith(f"up {meter.dev_eui} "), "its line came"
    bridge.end()
    reader.close()
    await_that("its link is gone with it", lambda: pilot.program.status()["gateways"] == "0")


@pytest.fixture(scope="module")
def broker(program: str, certificates: Certificates) -> Iterator[Doors]:
    """A broker behind its door."""
    with Pilot(program) as pilot:
        made = Doors(pilot, certificates)
        made.open_broker()
        yield made


@table("name, authority, certificate, due", AT_THE_BROKER)
def test_at_the_broker(
    broker: Doors, name: str, authority: str, certificate: str | None, due: bool
) -> None:
    """Whom the broker takes words of."""
    context = broker.own.context(certificate, getattr(broker, authority))
    assert refused_by_broker(broker.broker_port, context) == due


def station(doors: Doors, kind: type[Secured] = Secured) -> Secured:
    """A gateway that comes to the broker by its certificate."""
    made = kind(GATEWAYS[0], doors.broker_port, doors.own, PLACE)
    await_that("the station is connected", made.client.is_connected)
    return made


def test_events_of_another_gateway(broker: Doors) -> None:
    """A gateway can't speak for another one."""
    topic = "eu868/gateway/+/event/+"
    with Dashboard(broker.pilot.broker_port, topic) as dashboard, station(broker) as own:
        for eui in (OTHERS.lower(), PLACE):
            topic = f"eu868/gateway/{eui}/event/stats"
            own.client.publish(topic, b"{}", 1).wait_for_publish(PATIENCE)
        await_that("its own event", lambda: dashboard.events)
        assert [device for device, _, _ in dashboard.events] == [GATEWAYS[0]], "whose events came"


def test_commands_of_another_gateway(broker: Doors) -> None:
    """A gateway can't hear what is for another one, or for an application."""
    heard: list[str] = []
    with Dashboard(broker.pilot.broker_port) as dashboard, station(broker) as own:
        own.client.message_callback_add("#", lambda *words: heard.append(words[2].topic))
        granted: list[int] = []
        own.client.on_subscribe = lambda *words: granted.append(words[2])
        _, number = own.client.subscribe("#", 1)
        await_that("it is subscribed", lambda: number in granted)
        dashboard.say(f"application/{APPLICATION}/device/{OTHERS.lower()}/event/up", b"{}")
        for eui in (OTHERS.lower(), PLACE):
            dashboard.say(f"eu868/gateway/{eui}/command/other", b"{}")
        await_that("its own command, which is the last one", lambda: heard)
    assert set(heard) == {f"eu868/gateway/{PLACE}/command/other"}


def test_bridge_without_certificate(broker: Doors) -> None:
    """A bridge whose certificate isn't taken says so, and ends well on SIGTERM."""
    words: tuple = ("--network", broker.pilot.network)
    words += ("--broker", f"localhost:{broker.broker_port}")
    words += ("--gateway", GATEWAYS[0], "--ca", f"{broker.own.folder}/ca.crt")
    bridge = broker.pilot.own("gateways-mqtt", *words, name="gateways-mqtt-refused")
    bridge.start("no broker at")
    assert bridge.end() == 0


def stored_in(database: str) -> int:
    """How many readings a database has."""
    with sqlite3.connect(f"file:{database}?mode=ro", uri=True) as opened:
        return opened.execute("SELECT count(*) FROM readings").fetchone()[0]


def test_session_of_another(broker: Doors) -> None:
    """A gateway that connects under the id of the readings on loopback doesn't get their session:
    they stay connected, and what waits for them while they are away is there afterwards."""
    pilot, database = broker.pilot, broker.pilot.file("loopback.db")
    words = ("--broker", f"{HOST}:{pilot.broker_port}", "--application", APPLICATION)
    readings = pilot.own("readings", "--db", database, *words, name="readings-loopback")
    readings.start("connected")
    body = {"time": "now", "deviceInfo": {"devEui": OTHERS}, "joinNonce": 1, "fPort": 7, "data": ""}
    topic = f"application/{APPLICATION}/device/{OTHERS.lower()}/event/up"
    with Dashboard(pilot.broker_port) as dashboard:
        for number, is_away in enumerate((False, True)):
            if is_away:
                readings.end()
            with station(broker, Taker):
                dashboard.say(topic, json.dumps({**body, "fCnt": number}).encode())
            if is_away:
                readings.start("connected")
            due = number + 1
            await_that("the reading is stored", lambda: stored_in(database) == due)
    assert readings.said().count("connected to") == 2, "connections of the readings"
    readings.end()


def test_bridges_with_certificates(doors: Doors) -> None:
    """Bridges, a gateway and readings that come by certificates, and a reading over them."""
    pilot, meter, port = doors.pilot, Meter(1), doors.open_broker()

    def started(program: str, name: str, *words: Any, ready: str) -> None:
        certificate, key = doors.own.of(name)
        files = ("--ca", f"{doors.own.folder}/ca.crt", "--certificate", certificate, "--key", key)
        pilot.own(program, "--broker", f"localhost:{port}", *files, *words).start(ready)

    network, application = ("--network", pilot.network), ("--application", APPLICATION)
    devices, database = pilot.file("secured.csv", meter.row() + "\n"), pilot.file("secured.db")
    words: tuple = (*network, "--gateway", GATEWAYS[0])
    started("gateways-mqtt", "bridge-gateways", *words, ready="connected to")
    words, name = (*network, *application, "--devices", devices), f"application-{APPLICATION}"
    started("applications-mqtt", f"bridge-{name}", *words, ready="1 devices are there")
    started("readings", name, *application, "--db", database, ready="connected to")
    with Secured(GATEWAYS[0], port, doors.own, PLACE) as gateway_of_it:
        air = Air([gateway_of_it], [meter])
        air.go_on(PATIENCE, lambda: pilot.program.status()["gateways"] == "1")
        gateway_of_it.hears(meter.join_request())
        assert air.go_on(PATIENCE, lambda: meter.keys is not None), "a meter joins by it"
        gateway_of_it.hears(meter.reads())
        mark = meter.awaited
        is_there = air.go_on(PATIENCE, lambda: mark in meter.acknowledged)
        assert is_there, "its reading is acknowledged"
        await_that("its reading is stored", lambda: stored_in(database) == 1)
