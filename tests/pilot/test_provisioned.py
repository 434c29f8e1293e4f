"""An application whose network's store is another one, or an older one: its devices aren't added
anew, since they would be granted the same JoinNonces again."""

import signal
import socket
from pathlib import Path

import pytest

from bozintar.processes import HOST, Process, await_that

from .field import counts_in
from .networks import End, Network
from .parts import Parts

FIRST, SECOND, THIRD = "70B3D57ED0000001", "70B3D57ED0000002", "70B3D57ED0000003"
UP = f"up {FIRST} {{}} 0 7 04D2 1 00000000000000B1 868100000 5 -20 -95"
ROW = "{},0102030405060708,2B7E151628AED2A6ABF7158809CF4F3C,0,1\n"
UNKNOWN, KNOWN = "refused 7", "refused 15"


class Fleet:
    """A bridge with two devices in its file, its network, and a broker."""

    def __init__(self, parts: Parts, network: Network) -> None:
        self.parts, self.network, self.path = parts, network, parts.file("ask")
        self.counts, self.file = parts.file("counts.prom"), parts.file("devices.csv", "")
        self.lists(FIRST, SECOND)
        parts.broker().start("running")
        words = ["--network", network.at, "--broker", f"{HOST}:{parts.broker_port}"]
        words += ["--application", "3", "--devices", self.file, "--ids", parts.file("ids")]
        words += ["--asks", self.path, "--counts", self.counts]
        self.bridge: Process = parts.own("applications-mqtt", *words)
        self.end = self.starts()

    def lists(self, *devices: str) -> None:
        """What the file of devices has."""
        Path(self.file).write_text("".join(map(ROW.format, devices)), encoding="ascii")

    def starts(self) -> End:
        """Starts the bridge; the network's end of its link."""
        self.bridge.start("takes requests")
        return self.network.link()

    def answers(self, *due: tuple[str, str]) -> None:
        """The next requests are these, each with its answer."""
        for asked, answer in due:
            assert " ".join(self.end.asked()[:2]) == asked
            self.end.tell(answer)

    def adds(self, *devices: str) -> None:
        """The bridge adds these devices."""
        self.answers(*((f"provision {one}", f"provisioned {one} 0") for one in devices))

    def says(self, text: str) -> None:
        """Waits until the bridge has printed this."""
        await_that(f"it prints {text!r}", lambda: self.bridge.has_said(text))

    def counted(self, name: str) -> int:
        """What the bridge has counted at its end."""
        assert self.bridge.end() == 0
        return counts_in(self.counts)[f"applications_mqtt_{name}"]


@pytest.fixture
def fleet(parts: Parts, network: Network) -> Fleet:
    """A network that has both devices of the file."""
    made = Fleet(parts, network)
    made.adds(FIRST, SECOND)
    made.says("2 devices are there")
    return made


def test_another_store(fleet: Fleet) -> None:
    """If one device that the network had is unknown, none is added, not even a new one, also after
    a reload. With the right store, on a new link, it goes on."""
    fleet.bridge.kill()
    fleet.end = fleet.starts()
    fleet.answers((f"queue {FIRST}", KNOWN), (f"queue {SECOND}", UNKNOWN))
    fleet.says("doesn't know")
    fleet.lists(THIRD, FIRST, SECOND)
    fleet.bridge.send_signal(signal.SIGHUP)
    fleet.answers((f"queue {FIRST}", UNKNOWN), (f"queue {SECOND}", UNKNOWN))
    fleet.end.close()
    fleet.end = fleet.network.link()
    fleet.answers((f"queue {FIRST}", KNOWN), (f"queue {SECOND}", KNOWN))
    fleet.adds(THIRD)
    fleet.says("3 devices are there")
    assert fleet.counted("gone") == 0


def test_word_of_an_operator(fleet: Fleet) -> None:
    """SIGUSR1 says that the store is the right one: the devices that it doesn't know are added."""
    fleet.bridge.kill()
    fleet.end = fleet.starts()
    fleet.answers((f"queue {FIRST}", UNKNOWN), (f"queue {SECOND}", KNOWN))
    fleet.says("doesn't know")
    fleet.bridge.send_signal(signal.SIGUSR1)
    fleet.answers((f"queue {SECOND}", KNOWN))
    fleet.adds(FIRST)
    fleet.says("2 devices are there")


@pytest.mark.parametrize("is_gone", [False, True], ids=["asked for", "of the file"])
def test_requests(fleet: Fleet, is_gone: bool) -> None:
    """No device is added for another program either: neither one that the network had, nor a new
    one as long as devices of the file are unknown."""
    device = FIRST
    if is_gone:
        fleet.bridge.kill()
        fleet.end, device = fleet.starts(), THIRD
    with socket.socket(socket.AF_UNIX) as client:
        client.settimeout(60)
        client.connect(fleet.path)
        if is_gone:
            fleet.answers((f"queue {FIRST}", UNKNOWN), (f"queue {SECOND}", UNKNOWN))
            fleet.says("doesn't know")
        client.sendall(f"provision {ROW.format(device).strip().replace(',', ' ')}\n".encode())
        if not is_gone:
            fleet.answers((f"queue {FIRST}", UNKNOWN))
        assert client.recv(100) == b"held\n"
    assert fleet.counted("gone") == 2 * is_gone


def test_link_that_ends(parts: Parts, network: Network) -> None:
    """What was known on one link says nothing of the next one: after a link that ended, all that
    the network had is asked for again before a device is added."""
    fleet = Fleet(parts, network)
    fleet.adds(FIRST)
    assert fleet.end.asked()[:2] == ["provision", SECOND]
    fleet.end.close()
    fleet.end = network.link()
    fleet.answers((f"queue {FIRST}", UNKNOWN))
    fleet.says("doesn't know")


@pytest.mark.parametrize("restarts", [False, True])
def test_fallen_join_nonce(fleet: Fleet, restarts: bool) -> None:
    """A reading with a lower JoinNonce than one before is of an older store. One that comes again,
    and one of a later session, aren't."""
    fleet.end.tell(UP.format(5), UP.format(5))
    if restarts:
        assert fleet.counted("readings") == 2
        fleet.end = fleet.starts()
        fleet.answers((f"queue {FIRST}", KNOWN), (f"queue {SECOND}", KNOWN))
    fleet.end.tell(UP.format(4), UP.format(6))
    fleet.says(f"{FIRST} has JoinNonce 4")
    assert fleet.counted("readings") == (2 if restarts else 4)
    assert counts_in(fleet.counts)["applications_mqtt_fallen"] == 1
