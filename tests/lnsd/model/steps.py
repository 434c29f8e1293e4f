"""Random loads, as hypothesis makes and shrinks them: rounds, in each of which each device does one
thing, or nothing, or something is asked for it. A step doesn't depend on what comes; what it does
then depends on its device's state (see crowd)."""

from collections.abc import Sequence
from dataclasses import dataclass
from enum import Enum
from typing import Any

from bozintar.frames import CHANNELS
from hypothesis import strategies as st

EUIS = [f"{0xB1 + number:016X}" for number in range(6)]
OWNERS = (0, 3, 15)
# more than the store has slots for; the first one rings at the end of each round
DEVICES = 14
FOPTS = (
    b"",
    b"",
    b"\x02",
    b"\x06\xff\x14",
    b"\x03\x07\x02\x04",
    b"\x0d",
    b"\x02\x02",
    b"\x05\x01\x06\xff",
    b"\x7f\x02",
    b"\x08\x09\x0d\x02\x04",
)
MAC = (b"\x06", b"\x06", b"\x04\x01", b"\x03\x50\xff\x00\x01", b"\x06" * 30)
WRONG_MAC = (b"", b"\x02", b"\x03\x50", b"\x06\x05")
WRONG = ("hello", "", "mac {0}", "queue  ", "x" * 699)
# the most rounds of a load
ROUNDS = 14


class Kind(Enum):
    """What is the matter with a frame."""

    NEW = "new"
    REPEAT = "again"
    GAP = "after a gap"
    BROKEN = "broken"


@dataclass(frozen=True)
class Copied:
    """How one gateway hears a frame: which gateway, SNR and RSSI; whether it hears it on another
    channel; a copy before this one that is refused, and a second copy after it."""

    gateway: int
    snr: int
    rssi: int
    channel: int | None = None
    refused: int | None = None
    is_twice: bool = False


@dataclass(frozen=True)
class Hearing:
    """How gateways hear a frame."""

    channel: int
    data_rate: int
    stamp: int
    copies: Sequence[Copied]


@dataclass(frozen=True)
class Join:
    """A Join-Request: right, under a DevNonce that was used, after a gap, or broken. A device that
    is deaf hears nothing in that round."""

    kind: Kind
    amount: int
    heard: Hearing
    is_deaf: bool = False


@dataclass(frozen=True)
class Data:
    """An uplink: new, a repeat, after a gap, or broken. A device without a session joins."""

    kind: Kind
    amount: int
    gap: int
    port: int | None
    options: bytes
    commands: bytes
    length: int
    confirmed: bool
    is_ack_wrong: bool
    asks: bool
    heard: Hearing
    is_deaf: bool = False


@dataclass(frozen=True)
class Request:
    """A request about a device: `queue`, if there is no other line."""

    line: str | None = None
    port: int = 7
    length: int = 0
    confirmed: bool = False


@dataclass(frozen=True)
class Ask:
    """Requests about a device, of its own application or of another one."""

    requests: Sequence[Request]
    other: int | None
    is_deaf: bool = False


@dataclass(frozen=True)
class Change:
    """A link ends in one way, and the next one of its name is there."""

    link: int
    how: str


@dataclass(frozen=True)
class Round:
    """What each device does, and bytes of nobody; whether the server is ended before, which
    link changes before, and which application is away."""

    steps: Sequence[Join | Data | Ask | None]
    stray: tuple[int, Hearing] | None
    is_after_end: bool
    change: Change | None
    away: int | None


def weighted(*choices: tuple[int, st.SearchStrategy]) -> st.SearchStrategy:
    """One of these, each with its weight (one_of has none). The first is the simplest one."""
    of_each = [choice for weight, choice in choices for _ in range(weight)]
    return st.integers(0, len(of_each) - 1).flatmap(of_each.__getitem__)


def mostly(usual: Any, *others: Any) -> st.SearchStrategy:
    """The usual value, or one of others in one case of ten."""
    return weighted((9, st.just(usual)), (1, st.sampled_from(others)))


amounts = st.integers(0, 2**16 - 1)
copied = st.builds(
    Copied,
    gateway=st.integers(0, len(EUIS) - 1),
    snr=st.sampled_from((-20, -80, -19, 0, 30)),
    rssi=st.sampled_from((-95, -120, -60)),
    channel=mostly(None, *range(len(CHANNELS))),
    refused=mostly(None, 0, 1, 2, 3),
    is_twice=mostly(False, True),
)


def copies(count: int) -> st.SearchStrategy:
    """How this many gateways hear a frame."""
    return st.lists(copied, min_size=count, max_size=count, unique_by=lambda copy: copy.gateway)


def hearings(channels: st.SearchStrategy) -> st.SearchStrategy:
    """How one to six gateways hear a frame."""
    return st.builds(
        Hearing,
        channel=channels,
        data_rate=st.sampled_from((5, 5, 5, 4, 3, 2, 1, 0)),
        stamp=st.integers(0, 2**32 - 1),
        copies=weighted((2, copies(1)), (1, copies(2)), (1, copies(3)), (1, copies(6))),
    )


# joins are on the first three channels, mostly
on_any = hearings(st.integers(0, len(CHANNELS) - 1))
on_first = hearings(weighted((9, st.integers(0, 2)), (1, st.integers(3, len(CHANNELS) - 1))))
deaf = mostly(False, True)
kinds = weighted((6, st.just(Kind.NEW)), (4, st.sampled_from(list(Kind)[1:])))
joins = st.builds(Join, kinds, amounts, on_first, deaf)
datas = st.builds(
    Data,
    kind=kinds,
    amount=amounts,
    gap=st.sampled_from((1, 5, 300, 9_000, 16_383, 16_384, 20_000)),
    port=st.sampled_from((7, 7, 7, 1, None, 0, 223, 224, 255)),
    options=st.sampled_from(FOPTS),
    commands=st.sampled_from(FOPTS[2:]),
    length=st.sampled_from((0, 1, 12, 51, 115, 222)),
    confirmed=st.booleans(),
    is_ack_wrong=mostly(False, True),
    asks=mostly(False, True),
    heard=on_any,
    is_deaf=deaf,
)
queues = st.builds(
    Request,
    port=st.sampled_from((7, 7, 7, 1, 223, 0, 224, 255)),
    length=st.sampled_from((0, 1, 11, 51, 52, 115, 116, 242, 243)),
    confirmed=st.booleans(),
)
macs = st.builds(
    lambda commands: Request(f"mac {{0}} {commands.hex().upper() or '-'}"),
    st.sampled_from((*MAC, *WRONG_MAC)),
)
others = st.builds(Request, st.sampled_from((*WRONG, "provision")))
requests = weighted((11, queues), (6, macs), (2, others))
asks = st.builds(
    Ask,
    requests=weighted(
        (3, st.lists(requests, min_size=1, max_size=2)),
        (1, st.lists(requests, min_size=6, max_size=6)),
    ),
    other=mostly(None, *range(len(OWNERS))),
    is_deaf=deaf,
)
steps = weighted((7, st.none()), (1, joins), (3, asks), (7, datas))


def rounds(comes_and_goes: bool) -> st.SearchStrategy:
    """A round; if links come and go, one of them changes and an application is away, mostly."""
    changes, away = st.none(), st.none()
    if comes_and_goes:
        links, hows = st.integers(0, len(EUIS) + len(OWNERS) - 1), ("close", "reset", "take over")
        change = st.builds(Change, links, st.sampled_from(hows))
        changes = weighted((1, st.none()), (4, change))
        away = st.sampled_from((None, *range(len(OWNERS))))
    return st.builds(
        Round,
        steps=st.tuples(*[steps] * (DEVICES - 1)),
        stray=weighted((2, st.none()), (1, st.tuples(amounts, on_any))),
        is_after_end=weighted((4, st.just(False)), (1, st.just(True))),
        change=changes,
        away=away,
    )


def loads(comes_and_goes: bool = False) -> st.SearchStrategy[list[Round]]:
    """A whole load."""
    return st.lists(rounds(comes_and_goes), min_size=1, max_size=ROUNDS)
