"""What tools/whole-system computes of a load: what was lost, silences, and its devices' frames. And
the tool itself, small."""

import json
import os
import re
import subprocess
import sys
from pathlib import Path

import pytest
from bozintar import load
from whole import fleet
from whole.outcomes import NS, WINDOW, Outcome, longest, share
from whole.plot import plot, step_of
from whole.trials import steps

from .clusters import PILOT

SMALL = {"stores": 2, "devices": 8, "gateways": 3, "rate": 20, "seconds": 3, "jobs": 1}
# moments in seconds, from when on and until when, and the longest silence
SILENCES: tuple[tuple[tuple[float, ...], float, float, float], ...] = (
    # nothing came before, and then at 2 s
    ((2,), 1, 3, 1),
    ((1, 2, 3, 4), 2.5, 4, 1),
    # it began before that moment
    ((1, 5), 4, 5.5, 4),
    # one that was over before doesn't count
    ((1, 9, 9.5, 10), 9.2, 10, 0.5),
    # nothing came any more
    ((1, 2), 2.5, 12, 10),
    ((), 1, 3, 2),
)


@pytest.mark.parametrize("moments, begun, ended, due", SILENCES)
def test_silences(moments: tuple[float, ...], begun: float, ended: float, due: float) -> None:
    """The longest silence that wasn't over at a moment."""
    found = longest([int(at * NS) for at in moments], int(begun * NS), int(ended * NS))
    assert found == pytest.approx(due)


def test_outcome() -> None:
    """Two stores take turns. One uplink of the second one was lost, and the others took 1 to 5 ms
    beyond their window."""
    sent = [NS * second for second in range(1, 7)]
    beyond = (1, 2, 3, None, 4, 5)
    came = [0 if more is None else at + WINDOW + more * 1_000_000 for at, more in zip(sent, beyond)]
    outcome = Outcome(2, sent, came)
    assert (outcome.lost(), outcome.lost(0), outcome.lost(1)) == (1, 0, 1)
    assert outcome.waits() == [1, 2, 3, 4, 5]
    # the second store's uplinks came at 2.2 and 6.2 s, and some ms
    assert outcome.silence(1, 3 * NS) == pytest.approx(4.0, abs=0.01)
    assert outcome.silence_of_others(0, 3 * NS) == pytest.approx(4.0, abs=0.01)
    assert outcome.silence_of_others(1, 3 * NS) == pytest.approx(2.0, abs=0.01)
    assert outcome.silence_of_all(3 * NS) == pytest.approx(2.0, abs=0.01)
    # the first store's at 1.2 and 3.2 s, until 3.9 s
    assert outcome.silence_before(int(3.9 * NS)) == pytest.approx(2.0, abs=0.01)


def test_shares() -> None:
    """Shares of ordered values; of none, no number."""
    assert [share([1, 2, 3, 4], part) for part in (0, 0.5, 1)] == [1, 3, 4]
    assert share([], 0.5) != share([], 0.5)


def test_steps() -> None:
    """How many stores are served one after the other, and the lines of a plot's grid."""
    assert [steps(stores) for stores in (2, 3, 8, 16, 17)] == [
        [1, 2],
        [1, 2, 3],
        [1, 2, 4, 8],
        [1, 2, 4, 8, 16],
        [1, 2, 4, 8, 16, 17],
    ]
    assert [step_of(most) for most in (4, 5, 26, 501, 999)] == [1, 1, 10, 200, 200]


def test_frames() -> None:
    """Stores take turns, and their devices do. A DevAddr has the NetID, the slot and JoinNonce
    1."""
    devices, gateways = 3, 2
    plans = fleet.of_all([0, 4], devices, gateways, 4, 1, 1000)
    for at, (plan, first) in enumerate(zip(plans, (0, 4))):
        for turn, heard in enumerate(plan, first):
            slot, counter = turn % devices, 1 + turn // devices
            address = at << 25 | slot << 13 | 1
            head = b"\x40" + address.to_bytes(4, "little") + b"\0" + counter.to_bytes(2, "little")
            assert heard.frame.startswith(head)
            assert heard.message.endswith(heard.frame)
            eui = bytes.fromhex(load.gateway_eui(1000 + heard.gateway))
            assert heard.message[2:11] == b"\1" + eui
            assert fleet.turn_of(slot, counter, devices) == turn
    assert fleet.place_of(load.dev_eui(4096 * 5 + 17)) == (5, 17)


def test_plot() -> None:
    """A bar of three parts for each number of stores, with the sum above it; and a key of these."""
    costs = [
        {"stores": 1, "lnsd": 200.0, "router": 100.0, "keepers": 50.0},
        {"stores": 16, "lnsd": 210.0, "router": 60.0, "keepers": 40.0},
    ]
    text = plot("title", costs)
    assert (
        len(re.findall(r'<rect x="[0-9.]+" y="[0-9.]+" width="[0-9.]+" height', text)) == 2 * 3 + 3
    )
    assert ">350</text>" in text and ">310</text>" in text and ">16</text>" in text


@pytest.mark.slow
def test_small(tmp_path: Path, program: str) -> None:
    """Two stores with a load, of which nothing is lost. Nothing of the tool stays."""
    out, room = tmp_path / "out.json", tmp_path / "room"
    room.mkdir()
    words = [str(word) for name, number in SMALL.items() for word in (f"--{name}", number)]
    tool = str(PILOT.parent / "tools/whole-system")
    said = [sys.executable, tool, "--program", program, "--part", "load", "--out", str(out), *words]
    env = {**os.environ, "TMPDIR": str(room)}
    ended = subprocess.run(said, capture_output=True, text=True, env=env, check=False)
    assert ended.returncode == 0, ended.stdout + ended.stderr
    found = {row["what"]: row["found"] for row in json.loads(out.read_text())["rows"]}
    assert [found[name] for name in ("lost", "delivered twice", "wrong lines")] == ["0", "0", "0"]
    assert not list(room.iterdir())
