"""The doors: the server with its TLS door, and the broker's port for clients from outside."""

import os
import shutil
import socket
import ssl
from collections.abc import Iterator
from contextlib import contextmanager

from bozintar import wire
from bozintar.processes import HOST, PATIENCE, Failed, await_that, command, free_port

from .field import APPLICATION, GATEWAYS
from .parts import PILOT, Pilot, run
from .stations import Station

TLS, BROKER_TLS = "/etc/bozintar/tls", "/etc/mosquitto/certs"
OTHERS = "AA555A00000000B9"
# a client of MQTT 3.1.1, and the answer to one that is let in
HELLO, LET_IN = bytes.fromhex("100d00044d5154540402003c000178"), bytes.fromhex("20020000")


class Authority:
    """A folder of certificates."""

    def __init__(self, folder: str) -> None:
        self.folder = folder
        if not os.path.isdir(folder):
            self.make("authority")

    def make(self, *words: str) -> None:
        """Has a certificate made."""
        status, _, said = run("secure/certificates", self.folder, *words)
        if status:
            raise Failed(f"certificates ended so: {said}")

    def of(self, name: str) -> tuple[str, str]:
        """A certificate and its key."""
        return f"{self.folder}/{name}.crt", f"{self.folder}/{name}.key"

    def context(self, name: str | None, by: "Authority | None" = None) -> ssl.SSLContext:
        """How a client with this certificate, of this authority or another, connects."""
        context = ssl.create_default_context(cafile=f"{self.folder}/ca.crt")
        if name:
            context.load_cert_chain(*(by or self).of(name))
        return context


class Certificates:
    """Certificates of all kinds: of one's own authority, of another one, and one that is late."""

    def __init__(self, folder: str) -> None:
        self.own = Authority(f"{folder}/own")
        for words in (
            ("server", "localhost", HOST),
            ("gateway", *GATEWAYS[:2]),
            ("gateway", OTHERS),
            ("application", str(APPLICATION)),
            ("application", f"1{APPLICATION}"),
            ("application", str(APPLICATION), "adr"),
            ("bridge", "gateways"),
            ("bridge", f"application-{APPLICATION}"),
        ):
            self.own.make(*words)
        self.other = Authority(f"{folder}/other")
        self.other.make("gateway", GATEWAYS[0])
        os.mkdir(f"{folder}/late")
        for name in ("ca.crt", "ca.key"):
            shutil.copy(f"{folder}/own/{name}", f"{folder}/late")
        self.late = Authority(f"{folder}/late")
        self.late.make("gateway", GATEWAYS[0], "--days", "-1")


class Doors:
    """The server and a broker behind doors."""

    def __init__(self, pilot: Pilot, certificates: Certificates) -> None:
        self.pilot, self.certificates = pilot, certificates
        self.own, self.other = certificates.own, certificates.other
        self.late = certificates.late
        self.port = free_port()

    def conf(self, name: str, *changes: tuple[str, str]) -> str:
        """The path of a file of pilot/secure."""
        text = (PILOT / "secure" / name).read_text(encoding="utf-8")
        for old, new in changes:
            if old not in text:
                raise Failed(f"{name} has no {old}")
            text = text.replace(old, new)
        return self.pilot.file(name, text)

    def open(self, *words: str, after: str = "") -> None:
        """The door in front of the server."""
        files: tuple = (f"--ca={self.own.folder}/ca.crt", f"--crl={self.own.folder}/ca.crl")
        certificate, key = self.own.of("server")
        files += (f"--certificate={certificate}", f"--key={key}", *words)
        where = ("--listen", f"{HOST}:{self.port}", "--network", self.pilot.network)
        self.door = self.pilot.own("secure/door", *where, *files, after=after)
        self.door.start("listens on")

    def open_client(self, to: int) -> int:
        """stunnel beside a gateway, for a server at that port; the port on which it listens."""
        port = free_port()
        conf = self.conf(
            "stunnel-client.conf",
            (TLS, self.own.folder),
            (f"{HOST}:5600", f"{HOST}:{port}"),
            ("server.example:5601", f"{HOST}:{to}"),
            ("server.example", "localhost"),
            ("NAME", GATEWAYS[0].lower()),
        )
        stunnel = self.pilot.process("stunnel-client", command("stunnel"), conf)
        stunnel.start("Configuration successful")
        return port

    def open_broker(self) -> int:
        """The broker; the port on which it listens to what comes from outside."""
        self.broker_port = port = free_port()
        change = ("listener 8883", f"listener {port} {HOST}")
        acl = ("/etc/mosquitto/bozintar.acl", str(PILOT / "secure/mosquitto.acl"))
        conf = self.conf("mosquitto-door.conf", change, acl, (BROKER_TLS, self.own.folder))
        with open(conf, encoding="utf-8") as more:
            self.broker = self.pilot.broker(more.read()).start("running")
        return port

    def connect(self, context: ssl.SSLContext, said: bytes) -> bytes | None:
        """Connects and sends this; what comes, or None for the end."""
        try:
            with socket.create_connection((HOST, self.port), PATIENCE) as bare:
                with context.wrap_socket(bare, server_hostname="localhost") as client:
                    client.sendall(said)
                    return client.recv(1000) or None
        except TimeoutError:
            return b""
        except OSError:
            return None

    @contextmanager
    def linked(
        self, context: ssl.SSLContext, said: bytes, others: int = 0
    ) -> Iterator[ssl.SSLSocket]:
        """A gateway's link, once the server has it beside those of this many others."""
        linked = lambda: int(self.pilot.program.status()["gateways"])
        await_that("no more links", lambda: linked() == others)
        with socket.create_connection((HOST, self.port), PATIENCE) as bare:
            with context.wrap_socket(bare, server_hostname="localhost") as link:
                link.sendall(said)
                await_that("one more link", lambda: linked() == others + 1)
                yield link


def gateway(eui: str) -> bytes:
    """A gateway's greeting."""
    return wire.gateway_greeting(eui)


def application(number: int) -> bytes:
    """An application's greeting, and a line that is refused."""
    return wire.application_greeting(number) + wire.request("hello")


def ended(connection: socket.socket) -> bool:
    """Whether a connection ends, after any bytes."""
    try:
        while connection.recv(1000):
            pass
    except TimeoutError:
        return False
    except OSError:
        pass
    return True


class Secured(Station):
    """A gateway whose gateway bridge has a certificate."""

    def __init__(self, eui: str, port: int, authority: Authority, name: str) -> None:
        self.authority, self.certificate = authority, name
        super().__init__(eui, port)

    def connect(self, port: int) -> None:
        """Connects with its certificate."""
        files = (f"{self.authority.folder}/ca.crt", *self.authority.of(self.certificate))
        self.client.tls_set(*files)
        self.client.connect_async("localhost", port)


class Taker(Secured):
    """One that says that it is the readings on loopback, and wants their session."""

    def connect(self, port: int) -> None:
        """Connects under the other one's id."""
        self.client.reinitialise(f"readings-{APPLICATION}", clean_session=True)
        super().connect(port)


def refused_by_broker(port: int, context: ssl.SSLContext | None = None) -> bool:
    """Whether the broker refuses a client, which comes without TLS if it has no context."""
    try:
        with socket.create_connection((HOST, port), PATIENCE) as bare:
            with context.wrap_socket(bare, server_hostname="localhost") if context else bare as own:
                own.sendall(HELLO)
                return own.recv(100) != LET_IN
    except OSError:
        return True
