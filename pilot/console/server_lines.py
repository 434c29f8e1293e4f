"""Lines of lnsd: its status, its list of devices, and what it prints to those that watch
(docs/OPERATING.md)."""

import re
import time

from bozintar.logs import warn

from .devices import Uplink
from .network import Network
from .refusals import UNKNOWN_DEV_EUI, refusal
from .repeats import JOINED
from .servers import Server

# of a line of `lnsd devices`: a later server may add words at its end
LISTED = re.compile(
    r"(?P<slot>\d{1,5}) (?P<eui>[0-9A-F]{16}) (?P<granted>\d{1,9}) (?P<session>\d{1,9}|-)"
    r" (?P<last_up>\d{1,10}|-) (?P<next_down>\d{1,10}|-) (?P<items>\d{1,4}) (?P<heard>\d{1,20})"
    r"(?: (?P<last>\d{1,15}) (?P<gateway>[0-9A-F]{16}) (?P<snr>-?\d{1,4}) (?P<rssi>-?\d{1,4}))?"
    r"(?: .*)?"
)
REFUSED = re.compile(
    r"refused (?P<number>\d{1,3}) \w+"
    r" (?P<kind>join|data|other)(?: (?P<sender>[0-9A-F]{8}|[0-9A-F]{16}) (?P<count>\d{1,5}))?"
    r" (?P<gateway>[0-9A-F]{16}) \d{1,10} \d{1,2} (?P<snr>-?\d{1,4}) -?\d{1,4}(?: .*)?"
)
NUMBER = re.compile(r"\d{1,20}")
NONCES = range(1, 2**24)
EUI = re.compile(r"[0-9A-F]{16}")
# of the lower 25 bits of a DevAddr the upper twelve are the device's slot
NWK_ADDR, SESSIONS_OF_SLOT = 0x1FF_FFFF, 13
LINKS = {
    "linked": "Linked",
    "ended": "Link ended",
    "taken_over": "Link taken over by a newer one",
    "faulted": "Link closed: the server got a message that it doesn't know",
}


def take_status(network: Network, text: str, of: Server | None = None) -> None:
    """The output of `lnsd status`, or nothing if no server answers."""
    server = of or network.server
    said = dict(line.split(" ", 1) for line in text.splitlines() if " " in line)
    if "made" not in said:
        set_serving(network, server, False)
        return
    now = time.time()
    before, server.status = server.status, said
    if server.number("made") < number(before, "made"):
        start_again(network, server)
        before, server.status = {}, said
    set_serving(network, server, True)
    take_growth(network, before, said)
    server.status_came = now
    if "now" in said:
        server.began = now - number(said, "now") / 1000
    for name, value in said.items():
        if name.startswith("last_copy_") and NUMBER.fullmatch(value):
            take_copy(network, server, name.removeprefix("last_copy_"), int(value))
    network.settle_links(number(said, "gateways"))


def take_growth(network: Network, before: dict[str, str], said: dict[str, str]) -> None:
    """Counts what has grown since the last status."""
    minute = network.minute()
    if before:
        minute.dropped += max(0, number(said, "dropped") - number(before, "dropped"))
    # the longest sync is of the whole life, so it is of this minute if it has grown
    longest = number(said, "longest_sync_us")
    if longest > number(before, "longest_sync_us"):
        minute.sync_us = max(minute.sync_us, longest)


def take_copy(network: Network, server: Server, eui: str, moment: int) -> None:
    """When a gateway's last copy came, in milliseconds since the server's start."""
    if not EUI.fullmatch(eui):
        return
    take_moment(server, moment, server.status_came)
    gateway = network.gateway(eui)
    if gateway.is_linked is None and not gateway.is_hubbed:
        gateway.is_linked = True
    came = server.began + moment / 1000
    gateway.last = max(gateway.last, came)
    gateway.hear_for(server.name, came)


def take_moment(server: Server, moment: int, now: float) -> None:
    """A moment that is past by now, so the server began no later than it says. An older server
    doesn't print how long it has run."""
    if "now" not in server.status:
        server.began = min(server.began or now, now - moment / 1000)


def set_serving(network: Network, server: Server, is_serving: bool) -> None:
    """Whether a server answers."""
    if is_serving != server.is_serving:
        text = "The server answers" if is_serving else "No server answers"
        network.note("server", "", server.label(text))
    server.is_serving = is_serving


def start_again(network: Network, server: Server) -> None:
    """Another life of the server has begun: its moments and links are new ones."""
    server.began, server.status = 0.0, {}
    network.forget_links()


def number(said: dict[str, str], name: str) -> int:
    """A number of the status; 0 if it isn't there."""
    value = said.get(name, "")
    return int(value) if NUMBER.fullmatch(value) else 0


def take_devices(network: Network, text: str, of: Server | None = None) -> None:
    """The output of `lnsd devices`."""
    now, server = time.time(), of or network.server
    found = [match for match in map(LISTED.fullmatch, text.splitlines()) if match]
    for match in found:
        if match["last"] and server.began:
            take_moment(server, int(match["last"]), now)
    for match in found:
        take_listed(network, server, match)


def take_listed(network: Network, server: Server, match: re.Match[str]) -> None:
    """A line of the list."""
    device = network.device(match["eui"])
    device.slot, device.granted = int(match["slot"]), int(match["granted"])
    # the last one may be listed before its line `joined` comes
    network.repeats.know(device.eui, device.granted - 1)
    device.wait(int(match["items"]), time.time())
    device.heard, device.store = int(match["heard"]), server.name
    server.by_slot[device.slot] = device.eui
    device.session, device.last_up, device.next_down = (
        None if match[name] == "-" else int(match[name])
        for name in ("session", "last_up", "next_down")
    )
    if match["last"] and server.began:
        came = server.began + int(match["last"]) / 1000
        # an event has more of the same uplink, and comes a little later
        if came > device.last + 1:
            rate = device.uplink.rate if device.uplink else None
            how = int(match["snr"]) / 4, int(match["rssi"])
            device.uplink = Uplink(came, match["gateway"], *how, rate)


def take_line(network: Network, line: str, of: Server | None = None) -> None:
    """A line of `lnsd watch`, or of the lookout. A line of a later server is ignored."""
    server, (kind, _, rest) = of or network.server, line.partition(" ")
    if kind == "refused":
        take_refused(network, server, line)
    elif kind == "joined":
        take_joined(network, server, rest.split(" "))
    elif kind in LINKS:
        take_link(network, server, kind, rest)
    elif kind == "unlisted" and rest:
        network.note("link", "", server.label(f"Link closed: {rest} isn't listed"))
    elif kind == "slow_sync" and NUMBER.fullmatch(rest):
        take_slow_sync(network, server, int(rest))
    elif kind == "dropped":
        name, _, count = rest.rpartition(" ")
        network.note("dropped", "", server.label(f"Not sent to {name}: {count}"))
    elif kind == "silent":
        network.note("link", "", server.label("Link closed: no greeting in ten seconds"))
    elif kind == "left_out":
        text = f"{rest} events weren't printed: too many at a time, or no memory"
        network.note("server", "", server.label(text))
    elif kind == "gone":
        set_serving(network, server, False)
        start_again(network, server)


def take_refused(network: Network, server: Server, line: str) -> None:
    """A frame or a copy was refused."""
    found = REFUSED.fullmatch(line)
    if not found or is_of_another_store(network, server, found):
        return
    sender = found["sender"] or ""
    if found["kind"] == "data" and int(sender, 16) >> 25 == server.prefix:
        # the address of one of our sessions says which device it is, or says that it is
        slot = (int(sender, 16) & NWK_ADDR) >> SESSIONS_OF_SLOT
        sender = server.by_slot.get(slot, sender)
    refused = network.refuse(int(found["number"]), sender, found["kind"])
    refused.gateway, refused.snr = found["gateway"], int(found["snr"]) / 4
    if found["kind"] == "join":
        refused.nonce = int(found["count"])
    reason = refusal(refused.number)
    # the first, tenth, twentieth and so on: a flood leaves room for other events
    if reason.needs_attention and (refused.count == 1 or refused.count % 10 == 0):
        what = {"join": "Join", "data": "Uplink"}.get(refused.kind, "Frame")
        often = f" ({refused.count} times)" if refused.count > 1 else ""
        network.note("refused", sender, f"{what} refused{often}: {reason.name}. {reason.meaning}")


def is_of_another_store(network: Network, server: Server, found: re.Match[str]) -> bool:
    """Whether a frame was refused because it is for a device of another store: a Join-Request that
    went to all stores, or an uplink if two stores have one NetID, and so the same addresses."""
    if found["kind"] == "join" and int(found["number"]) == UNKNOWN_DEV_EUI:
        device = network.devices.get(found["sender"])
        return device is not None and device.store != server.name
    return found["kind"] == "data" and server.is_shared


def take_joined(network: Network, server: Server, words: list[str]) -> None:
    """A join was accepted."""
    eui, nonce, gateway = words[:3]
    is_nonce = NUMBER.fullmatch(nonce) and int(nonce) in NONCES
    if not (EUI.fullmatch(eui) and EUI.fullmatch(gateway) and is_nonce):
        raise ValueError("no device, JoinNonce and gateway")
    network.minute().joins += 1
    compare(network, server, eui, int(nonce))
    device = network.device(eui)
    device.granted, device.store = int(nonce), server.name
    network.accept_join(eui)
    network.note("joined", eui, server.label(f"Joined, by gateway {gateway} (JoinNonce {nonce})"))


def compare(network: Network, server: Server, eui: str, nonce: int) -> None:
    """A JoinNonce is above all that a device had, unless the store is another one, or older."""
    highest = network.repeats.highest.get(eui, 0)
    if nonce <= highest:
        count = network.repeats.add(JOINED, eui, time.time())
        text = server.label(f"JoinNonce {nonce} was granted after {highest} (so far {count} times)")
        network.note("repeat", eui, text)
        warn(f"{eui}: {text}")
    network.repeats.know(eui, nonce)


def take_link(network: Network, server: Server, kind: str, name: str) -> None:
    """A link of a gateway or of an application. With many stores a gateway's link to one of them
    comes and goes, which is no event."""
    what, _, eui = name.partition(" ")
    if what == "gateway" and EUI.fullmatch(eui):
        if kind == "ended" and eui in network.forgotten:
            return
        gateway = network.gateway(eui)
        if not gateway.is_hubbed:
            gateway.is_linked = kind in ("linked", "taken_over")
        elif kind == "linked":
            gateway.hear_for(server.name, time.time())
        if not gateway.is_hubbed or kind == "faulted":
            network.note("link", eui, server.label(LINKS[kind]))
    else:
        text = f"{name.capitalize() or 'A client'}: {LINKS[kind].lower()}"
        network.note("link", "", server.label(text))


def take_slow_sync(network: Network, server: Server, milliseconds: int) -> None:
    """A sync of the disk took long. It is an event if none of the last hour took longer, since all
    syncs of a slow disk are slow."""
    slowest, minute = max(value for _, value in network.series("sync_us", 60)), network.minute()
    minute.sync_us = max(minute.sync_us, 1000 * milliseconds)
    # a status may have had the same sync before, in microseconds
    if milliseconds >= slowest // 1000:
        network.note("sync", "", server.label(f"A sync of the disk took {milliseconds} ms"))
