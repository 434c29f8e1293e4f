"""What devices, gateways and applications have seen over all lives of a server, and whether the
store's list may come after it. It knows the marks: uplink counters, JoinNonces, downlink counters
and items."""

import random
import time
from collections import Counter, defaultdict
from collections.abc import Callable, Sequence
from enum import Enum
from typing import Any

from bozintar import aes, network, quick
from bozintar.devices import Device
from bozintar.frames import DOWN, Keys, crypted, data_mic, opened_accept, session_keys

from .handed import Handed

JOIN_EUI = "0102030405060708"
quick.use()
# how long a device rests after a frame, and how long it waits for an accept, in seconds: an accept
# doesn't say of which Join-Request it is
REST, JOIN_REST = 0.45, 60
# what an application asks that is refused, with a number that no other application gets: no
# request, and a device that nobody has
WRONG = {3: ("hello", "51"), 9: ("mac 0000000000000000 06", "7")}
# of how many faults of a rule a failure shows the words
SHOWN = 10
# a session: a DevEUI and a JoinNonce
Name = tuple[str, int]


class Rule(Enum):
    """What has to hold over all lives of a server."""

    ONCE = "no mark comes twice"
    FORWARD = "no counter goes back"
    OWN = "nothing comes at a wrong link, and all is as it was sent"
    KEPT = "nothing that left is lost"
    DECIDED = "each new frame is decided, and no other"
    ENDED = "each life ends as it should"
    MIGRATED = "a store of an older program is migrated whole, in spite of kills"
    NOTICED = "what is falsified is noticed"
    RESTORED = "a restore prints and makes what is due"
    REPLAYED = "no frame that was sent before a restore is taken after it"


class Meter(Device):
    """A device under load. Those that keep their session are sent items; the others join again and
    again."""

    def __init__(self, number: int, application: int):
        key = aes.encrypt(b"keys of devices ", number.to_bytes(16, "big"))
        super().__init__(f"{0xC0FFEE0000000000 + number:016X}", JOIN_EUI, key.hex().upper())
        self.application = application
        self.slot: int | None = None
        self.keeps = number % 3 > 0
        self.rests_until = 0.0
        self.sent: list[bytes] = []
        self.owes_ack, self.next_tag = False, 1
        # on which of its application's links each item was asked for
        self.asked_on: dict[int, int] = {}
        # of its last frame: whether it was a Join-Request, and whether it was a new one
        self.is_joining, self.is_new = False, False

    def request(self, chance: random.Random) -> str:
        """An item with a tag of its own, which its payload begins with, or a MAC command."""
        if chance.random() < 0.2:
            return f"mac {self.dev_eui} 06"
        tag, self.next_tag = self.next_tag, self.next_tag + 1
        # some are long, so that the journal fills
        payload = f"{tag:08X}" + "00" * chance.choice((0, 50, 190))
        return f"queue {self.dev_eui} {tag} 7 {chance.choice('cu')} {payload}"

    def frame(self, chance: random.Random) -> bytes:
        """What it sends: a Join-Request, something new, or what it sent before."""
        self.rests_until = time.monotonic() + REST
        self.is_joining = not self.keys or not self.keeps and chance.random() < 0.2
        self.is_new = True
        if self.is_joining:
            self.rests_until = time.monotonic() + JOIN_REST
            return self.join_request()
        if self.sent and chance.random() < 0.15:
            self.is_new = False
            return chance.choice(self.sent)
        how: dict[str, Any] = {"confirmed": chance.random() < 0.3, "ack": self.owes_ack}
        how["f_opts"] = chance.choice((b"", b"", b"\x02", b"\x06\xff\x14"))
        frame = self.uplink(7, self.next_up.to_bytes(4, "big"), **how)
        self.sent = [*self.sent[-2:], frame]
        return frame


class Sums:
    """Of each device, how much was seen: uplinks, items, downlinks, and the last of its sessions in
    which it sent."""

    def __init__(self, seen: "Seen"):
        self.ups = Counter(name for (name, _), _ in seen.ups)
        self.items = Counter(name for (name, _), _ in seen.items)
        self.downlinks = Counter(name for (name, _), _ in seen.downlinks)
        self.session: dict[str, int] = {}
        for what, name in seen.last:
            if what == "uplink counter":
                self.session[name[0]] = max(name[1], self.session.get(name[0], 0))


class Seen:
    """The marks that were seen, and the comparisons."""

    def __init__(self, meters: Sequence[Meter] = ()) -> None:
        self.meters = {meter.dev_eui: meter for meter in meters}
        self.ups: dict[Any, int] = {}
        self.accepts: dict[Any, int] = {}
        self.downlinks: dict[Any, int] = {}
        self.items: Counter = Counter()
        self.answers = 0
        # how many lines came to applications, and frames to gateways
        self.lines, self.orders = 0, 0
        # how many links there were, over all lives
        self.links = 0
        self.queued: dict[str, list[int]] = {}
        # the sessions and their keys, by address
        self.keys: dict[int, tuple[Name, Keys]] = {}
        # the blocks of keystream under which payloads of downlinks left
        self.blocks: set[bytes] = set()
        # the uplinks of each device that came out before its store counted them
        self.uncounted: Counter = Counter()
        # the greatest marks: all, those of earlier lives, and those of each link of this life
        self.last: dict[Any, int] = {}
        self.before: dict[Any, int] = {}
        self.by_link: dict[Any, int] = {}
        # the last list: of each device the joins that were granted, and the uplinks accepted
        self.seq = 0
        self.listed: dict[str, tuple[int, int]] = {}
        # of each rule, how many comparisons held, and what is wrong
        self.passed: Counter = Counter()
        self.faults: dict[Rule, list[str]] = defaultdict(list)
        self.handed = Handed(self)

    def wrong(self, rule: Rule, words: str) -> None:
        """Notes what is wrong."""
        self.faults[rule].append(words)

    def expect(self, rule: Rule, what: str, came: Any, due: Any) -> None:
        """Compares what came with what is due."""
        self.holds(rule, came == due, f"{what}: {came}, and not {due}")

    def holds(self, rule: Rule, is_so: Any, words: str) -> None:
        """Notes whether something is as it has to be."""
        if is_so:
            self.passed[rule] += 1
        else:
            self.wrong(rule, words)

    def check(self, rule: Rule) -> None:
        """Fails if a rule was broken, or nothing was compared."""
        faults = self.faults[rule]
        first = "\n".join(faults[:SHOWN])
        assert not faults, f"not so: {rule.value}; {len(faults)} faults:\n{first}"
        assert self.passed[rule], f"nothing was compared: {rule.value}"

    def notices(self, due: str, change: Callable[[], Any]) -> bool:
        """Whether a falsified thing adds a fault with these words. The faults that it adds are
        taken out again."""
        passed, faults = self.passed, self.faults
        self.passed, self.faults = Counter(), defaultdict(list)
        try:
            change()
            return any(due in words for added in self.faults.values() for words in added)
        finally:
            self.passed, self.faults = passed, faults

    def begin(self) -> None:
        """A new life: what is under way at the devices is given up."""
        self.before, self.by_link = dict(self.last), {}
        self.handed.begin()
        for meter in self.meters.values():
            meter.rests_until = 0.0

    def counts(self) -> tuple[int, int, int, int]:
        """How many uplinks, accepts, downlinks and answers came."""
        return len(self.ups), len(self.accepts), len(self.downlinks), self.answers

    def mark(self, of: dict[Any, int], name: Any, number: int, what: str, link: Any) -> None:
        """A mark that may come once, and not after a greater one of an earlier life or of the same
        link. Between the links of one life no order holds."""
        of[name, number] = of.get((name, number), 0) + 1
        is_first = of[name, number] == 1
        self.holds(Rule.ONCE, is_first, f"{what} {number} of {name} came twice")
        last = max(self.before.get((what, name), -1), self.by_link.get((what, name, link), -1))
        words = f"{what} {number} of {name} came over {link} after {last}"
        self.holds(Rule.FORWARD, number > last, words)
        self.by_link[what, name, link] = max(number, last)
        self.last[what, name] = max(number, self.last.get((what, name), -1))

    def line(self, application: int, line: str) -> None:
        """A line that an application heard."""
        kind, *words = line.split(" ")
        self.lines += 1
        if kind == "refused":
            own = WRONG.get(application, ("", ""))[1]
            is_so = words[0] in ("12", "13", own)
            self.holds(Rule.OWN, is_so, f"{line} came to application {application}")
            return
        meter = self.meters.get(words[0])
        is_own = meter and meter.application == application
        self.holds(Rule.OWN, is_own, f"{line} came to application {application}")
        if not meter:
            return
        if kind == "up":
            name, counter = (words[0], int(words[1])), int(words[2])
            self.mark(self.ups, name, counter, "uplink counter", application)
            self.expect(Rule.OWN, f"the payload of {line}", words[4], f"{counter:08X}")
            return
        self.answers += 1
        if kind == "provisioned":
            meter.slot = int(words[1])
        if kind == "queued":
            self.queued.setdefault(words[0], []).append(int(words[1]))

    def frame(self, gateway: str, frame: bytes) -> str | None:
        """A frame that a gateway is to send; the DevEUI of the device that it is for."""
        self.orders += 1
        if frame[0] == 0x20:
            return self.accept(gateway, frame)
        address = int.from_bytes(frame[1:5], "little")
        counter = int.from_bytes(frame[6:8], "little")
        found = self.keys.get(address)
        if not found or data_mic(found[1][0], DOWN, address, counter, frame[:-4]) != frame[-4:]:
            self.wrong(Rule.OWN, f"a downlink that no session opens: {frame.hex().upper()}")
            return None
        name, keys = found
        self.mark(self.downlinks, name, counter, "downlink counter", gateway)
        meter, end = self.meters[name[0]], 8 + (frame[5] & 15)
        meter.owes_ack = frame[0] == 0xA0
        if len(frame) - 4 > end:
            self.keystream(name, keys[1], address, counter, len(frame) - 4 - (end + 1))
            clear = crypted(keys[1], DOWN, address, counter, frame[end + 1 : -4])
            tag = int.from_bytes(clear[:4], "big")
            # what was asked on an older link may be read after what is asked on the newer one
            asked = (meter.dev_eui, meter.asked_on.get(tag))
            self.mark(self.items, asked, tag, "item", gateway)
        return name[0]

    def keystream(self, name: Name, key: bytes, address: int, counter: int, length: int) -> None:
        """The blocks of keystream of a downlink's payload: each is used once, over all stores."""
        stream = crypted(key, DOWN, address, counter, bytes(-(-length // 16) * 16))
        for place in range(0, len(stream), 16):
            block = stream[place : place + 16]
            words = f"keystream of {name} {counter} came twice"
            self.holds(Rule.ONCE, block not in self.blocks, words)
            self.blocks.add(block)

    def accept(self, gateway: str, frame: bytes) -> str | None:
        """A Join-Accept: only the device that it is for can open it."""
        # those that asked for one are tried first
        for meter in sorted(self.meters.values(), key=lambda meter: not meter.is_joining):
            fields, is_right = opened_accept(meter.app_key, frame)
            if not is_right:
                continue
            join_nonce = int.from_bytes(fields[:3], "little")
            self.mark(self.accepts, meter.dev_eui, join_nonce, "JoinNonce", gateway)
            meter.take_accept(frame)
            meter.sent, meter.rests_until = [], time.monotonic() + REST
            keys = session_keys(meter.app_key, join_nonce, network.NET_ID, meter.dev_nonce)
            address = int.from_bytes(fields[6:10], "little")
            # the line with the slot may come later, or be lost
            if meter.slot is not None:
                due = network.address(meter.slot, join_nonce)
                self.expect(Rule.OWN, f"the DevAddr of {meter.dev_eui}", address, due)
            self.keys[address] = ((meter.dev_eui, join_nonce), keys)
            return meter.dev_eui
        self.wrong(Rule.OWN, f"an accept that no device opens: {frame.hex().upper()}")
        return None

    def queue_anew(self) -> None:
        """The store is an older copy: items that had left go out again."""
        self.items.clear()
        self.last = {key: last for key, last in self.last.items() if key[0] != "item"}

    def count_anew(self) -> None:
        """The store counts uplinks from 0."""
        self.uncounted = Sums(self).ups

    def compare(self, lines: Sequence[str], rule: Rule = Rule.KEPT) -> None:
        """A list against all that was seen."""
        *devices, total = lines
        listed = {line.split(" ")[1]: line.split(" ") for line in devices}
        self.listed = {name: (int(words[2]), int(words[7])) for name, words in listed.items()}
        sums = Sums(self)
        for meter in self.meters.values():
            if meter.slot is not None:
                for is_so, words in self.of_device(meter, listed.get(meter.dev_eui), sums):
                    self.holds(rule, is_so, words)
        seq = int(total.split(" ")[3])
        self.holds(rule, seq >= self.seq, f"seq {seq} came after {self.seq}")
        self.seq = seq

    def of_device(self, meter: Meter, words: list[str] | None, sums: Sums) -> Any:
        """What has to hold of one device's line of a list, each with what is wrong otherwise."""
        dev_eui = meter.dev_eui
        if not words:
            yield False, f"{dev_eui} isn't in the list, though it was provisioned"
            return
        shown = " ".join(words)
        slot, _, granted, join_nonce, last_up, next_down, items, heard = words
        yield int(slot) == meter.slot, f"{shown}, though its slot was {meter.slot}"
        seen = self.last.get(("JoinNonce", dev_eui), 0)
        yield int(granted) >= seen, f"{shown}, though JoinNonce {seen} was in an accept"
        ups = sums.ups[dev_eui] - self.uncounted[dev_eui]
        yield int(heard) >= ups, f"{shown}, though {ups} uplinks came out"
        if dev_eui not in sums.session:
            return
        name = (dev_eui, sums.session[dev_eui])
        is_so = join_nonce != "-" and int(join_nonce) >= name[1]
        yield is_so, f"{shown}, though session {name[1]} sent"
        if join_nonce == "-":
            return
        if join_nonce == str(name[1]):
            last = self.last["uplink counter", name]
            down = self.last.get(("downlink counter", name), -1)
            yield int(last_up) >= last, f"{shown}, though uplink {last} came out"
            yield int(next_down) > down, f"{shown}, though downlink {down} was sent"
        if meter.keeps:
            yield from self.of_items(meter, shown, int(next_down), int(items), sums)

    def of_items(self, meter: Meter, shown: str, next_down: int, items: int, sums: Sums) -> Any:
        """Each item that was queued waits, has left, or left unseen in a downlink of its own."""
        name = meter.dev_eui
        left, unseen = sums.items[name], next_down - sums.downlinks[name]
        queued = len(self.queued.get(name, []))
        why = f"though {queued} items were queued, {left} left, {unseen} downlinks weren't seen"
        yield items >= queued - left - unseen, f"{shown}, {why}"
        asked = meter.next_tag - 1
        yield items <= asked - left, f"{shown}, though {left} items left of {asked}"
