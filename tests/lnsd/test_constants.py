"""Constants of the server whose values no trial reaches, beside what they have to be."""

import re

from bozintar import wire

from ..running import ROOT
from .pairs import HEARD

# where each is
FILES = {
    "MOST_MADE": "session_core/src/shared.rt",
    "MOST_RINGS": "lnsd_life/src/flushing.rt",
    "MOST_PLACES": "lnsd_links/src/link.rt",
    "APPLICATIONS": "lnsd_links/src/names.rt",
    "PIECE": "lnsd_threads/src/reading.rt",
    "BURST": "lnsd_life/src/serving.rt",
}


def constant(name: str) -> int:
    """The value of a constant, whose terms are numbers, shifted ones, and other constants."""
    text = (ROOT / "crates" / FILES[name]).read_text()
    (terms,) = re.findall(rf"(?m)^(?:pub(?:\(crate\))? )?const {name}: \w+ = (.*);$", text)
    parts = [part.removesuffix(" as usize").split(" << ") for part in terms.split(" + ")]
    return sum(constant(a) if a in FILES else int(a) << int(*by or "0") for a, *by in parts)


def test_longest_life() -> None:
    """After this many decisions a life ends with 42, in the middle of its work. A million in each
    second of a hundred years are fewer."""
    assert constant("MOST_MADE") > 1_000_000 * 100 * 366 * 24 * 60 * 60


def test_marks_of_rings() -> None:
    """Each place and each application has a ring, and each ring a mark. Nobody is rung for what is
    in a ring that has none."""
    assert constant("MOST_RINGS") == constant("MOST_PLACES") + constant("APPLICATIONS")


def test_copies_of_one_read() -> None:
    """A worker pays at once for all copies that one read ends: one that begins before it, and the
    shortest ones in it. If these are more than a burst, their link is closed."""
    assert 1 + constant("PIECE") // len(wire.copy_of(b"", HEARD)) <= constant("BURST")
