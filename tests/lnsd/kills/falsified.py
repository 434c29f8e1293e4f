"""Whether the comparisons of a trial notice what is wrong: what came in a life is falsified, in one
thing at a time. Each answers what was falsified, and whether that was noticed."""

from collections.abc import Iterator
from functools import partial

from ..fleet import APPLICATIONS, GATEWAYS, Load
from ..handed import Listed
from ..seen import WRONG, Rule

Noticed = tuple[str, bool]
KINDS = ("join", "data")


def lines(load: Load) -> Iterator[Noticed]:
    """A line that comes twice, to another application, or as no copy was."""
    if not load.last_up:
        yield "a line, of which none came", False
        return
    application, line = load.last_up
    other = next(number for number in APPLICATIONS if number != application)
    refusal = b"\x13refused " + WRONG[other][1].encode()
    of_downlink = load.last_downlink[1] if load.last_downlink else b""
    for due, what, to, content in (
        ("came twice", "a line twice", application, line),
        (f"to application {other}", "another's line", other, line),
        (f"to application {application}", "another's refusal", application, refusal),
        ("no copy is as in", "another RSSI", application, line + b"0"),
        ("no line for an application", "a downlink as a line", application, of_downlink),
    ):
        yield what, load.seen.notices(due, partial(load.line, to, content))


def orders(load: Load) -> Iterator[Noticed]:
    """A downlink that comes twice, or to another gateway."""
    if not load.last_downlink:
        yield "a downlink, of which none came", False
        return
    gateway, order = load.last_downlink
    another = next(eui for eui in GATEWAYS if eui != gateway)
    of_another = order[:1] + bytes.fromhex(another) + order[9:]
    for due, what, to, content in (
        ("came twice", "a downlink twice", gateway, order),
        (f"to gateway {another}", "another's downlink", another, order),
        (f"came to {another}", "a downlink by another gateway", another, of_another),
    ):
        yield what, load.seen.notices(due, partial(load.order, to, content))


def lists(load: Load, before: Listed, is_stopped: bool) -> Iterator[Noticed]:
    """A frame that has to be decided and isn't, and one more than were handed in."""
    handed, after = load.seen.handed, load.seen.listed
    for place, kind in enumerate(KINDS):
        due, may, refused = handed.counts(kind, is_stopped)
        has = {name: counts[place] for name, counts in after.items()}
        had = {name: before.get(name, (0, 0))[place] for name in after}
        least = {name: had[name] + due[name] - refused[name] for name in after}
        most = {name: had[name] + may[name] for name in after}
        lost = next((name for name in after if has[name] == least[name] and due[name]), "")
        more = next((name for name in after if has[name] == most[name]), "")
        for name, by in ((lost, -1), (more, 1)):
            what = f"a frame that was {'lost' if by < 0 else 'made up'}, of {kind}"
            counts = list(after.get(name, (0, 0)))
            counts[place] += by
            wrong = {**after, name: (counts[0], counts[1])}
            check = partial(compared, load, before, wrong, is_stopped)
            yield what, bool(name) and load.seen.notices(name, check)


def compared(load: Load, before: Listed, after: Listed, is_stopped: bool) -> None:
    """Notes how a list compares with what was handed in."""
    for is_so, words in load.seen.handed.compare(before, after, is_stopped):
        load.seen.holds(Rule.DECIDED, is_so, words)
