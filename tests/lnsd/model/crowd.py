"""What a crowd of devices and applications does in the rounds of a random load."""

import random
from collections.abc import Iterator, Sequence
from dataclasses import dataclass, replace
from typing import Any

from bozintar import aes, quick
from bozintar.devices import Device, Rejected
from bozintar.frames import CHANNELS, FIRST_CHANNELS
from bozintar.wire import Copy, byte_text

from .steps import DEVICES, EUIS, OWNERS, Ask, Data, Hearing, Join, Kind, Request, Round

JOIN_EUI = "0102030405060708"
quick.use()
# what the frame of a broken one may begin with
BEGINNINGS = (0x20, 0x60, 0xA0, 0xC0, 0xE0, 0x41, 0x90)


@dataclass(frozen=True)
class Asked:
    """A request. If it `waits`, nothing else is done before it is answered."""

    application: int
    line: str
    waits: bool = False


@dataclass(frozen=True)
class Sent:
    """A frame, and how gateways hear it."""

    frame: bytes
    copies: list[Copy]


def random_bytes(seed: int, length: int) -> bytes:
    """Bytes that differ from those of another number."""
    return random.Random(seed).randbytes(length)


def flipped(frame: bytes, place: int, bit: int) -> bytes:
    """A frame of which one bit is another one."""
    return frame[:place] + bytes([frame[place] ^ 1 << bit]) + frame[place + 1 :]


def broken(frame: bytes, amount: int) -> bytes:
    """A frame with a fault."""
    kind, amount = amount % 5, amount // 5
    if kind == 0:
        return flipped(frame, amount // 8 % len(frame), amount % 8)
    if kind == 1:
        return frame[: amount % len(frame)]
    if kind == 2:
        return frame + random_bytes(amount, amount % (256 - len(frame)))
    if kind == 3:
        return bytes([BEGINNINGS[amount % len(BEGINNINGS)]]) + frame[1:]
    return random_bytes(amount, amount % 256)


def copies_of(heard: Hearing) -> list[Copy]:
    """The copies of a frame; some are to be refused, or come twice."""
    hz, rate, made = CHANNELS[heard.channel], heard.data_rate, []
    wrong = ((868_100_001, rate), (hz, 6), (hz, 255), (0, rate))
    for copied in heard.copies:
        eui, levels = EUIS[copied.gateway], (copied.snr, copied.rssi)
        if copied.refused is not None:
            made.append(Copy(eui, *wrong[copied.refused], *levels, heard.stamp))
        own = hz if copied.channel is None else CHANNELS[copied.channel]
        made.append(Copy(eui, own, rate, *levels, heard.stamp))
        if copied.is_twice:
            made.append(Copy(eui, hz, rate, 127, -1, heard.stamp))
    return made


class Sender(Device):
    """A device of the crowd."""

    def __init__(self, number: int):
        key = aes.encrypt(b"keys of a crowd ", number.to_bytes(16, "big"))
        super().__init__(f"{0xFACE000000000000 + number:016X}", JOIN_EUI, key.hex().upper())
        self.owner = OWNERS[number % 3]
        self.words = self.provision(number % 6, 1 + number % 15)
        self.is_there, self.is_deaf = False, False
        self.sent: list[bytes] = []

    def join(self, step: Join) -> bytes:
        """The Join-Request of a step."""
        if step.kind is Kind.REPEAT and self.dev_nonce > 1:
            self.dev_nonce -= 2
            frame, self.dev_nonce = self.join_request(), self.dev_nonce + 1
            return frame
        if step.kind is Kind.GAP:
            self.dev_nonce = min(65_000, self.dev_nonce + 1 + step.amount % 300)
        frame = self.join_request()
        if step.kind is Kind.BROKEN:
            return flipped(frame, 1 + step.amount // 8 % 22, step.amount % 8)
        return frame

    def data(self, step: Data) -> bytes:
        """The uplink of a step."""
        if step.kind is Kind.REPEAT and self.sent:
            return self.sent[-1 - step.amount % min(3, len(self.sent))]
        before = self.next_up
        if step.kind is Kind.GAP:
            self.next_up += step.gap
        options, payload = step.options, random_bytes(step.amount, step.length)
        if step.port == 0:
            # a quarter of these has options, too, which is refused
            options, payload = (b"\x02" if step.amount % 4 == 3 else b""), step.commands
        how: dict[str, Any] = {"ack": self.owes_ack != step.is_ack_wrong, "asks": step.asks}
        how.update(confirmed=step.confirmed, f_opts=options)
        frame = self.uplink(step.port, payload if step.port is not None else b"", **how)
        if step.kind is Kind.BROKEN:
            # nobody knows it, so the counter isn't used up
            self.next_up = before
            return broken(frame, step.amount)
        self.sent = [*self.sent[-4:], frame]
        return frame

    def receive(self, frame: bytes) -> None:
        """Reads a frame, if it isn't deaf now."""
        if self.is_deaf:
            raise Rejected("the device is deaf")
        self.take(frame)
        if frame[0] == 0x20:
            self.sent = []


class Crowd:
    """All devices, and what is done in a round."""

    def __init__(self) -> None:
        self.senders = [Sender(number) for number in range(DEVICES)]
        self.bell, self.tag = self.senders[0], 0

    def provisioned(self, new: Sequence[Sender]) -> Iterator[Asked]:
        """Provisions devices that aren't there yet. The order of slots depends on this, so that one
        application is answered before another one asks."""
        for owner in OWNERS:
            own = [sender for sender in new if sender.owner == owner and not sender.is_there]
            for sender in own:
                sender.is_there = True
                yield Asked(owner, sender.words, waits=sender is own[-1])

    def acts(self, this: Round) -> Iterator[Asked | Sent]:
        """All that is done in a round, up to the bell."""
        chosen = [(sender, step) for sender, step in zip(self.senders[1:], this.steps) if step]
        yield from self.provisioned([self.bell, *(sender for sender, _ in chosen)])
        for sender, step in chosen:
            sender.is_deaf = step.is_deaf
            if isinstance(step, Ask):
                owner = sender.owner if step.other is None else OWNERS[step.other]
                for request in step.requests:
                    yield Asked(owner, self.line(sender, request))
            else:
                yield self.sent(sender, step)
        if this.stray:
            amount, heard = this.stray
            yield Sent(broken(random_bytes(amount, 30), amount), copies_of(heard))

    def sent(self, sender: Sender, step: Join | Data) -> Sent:
        """The frame of a step. A device without a session sends a Join-Request."""
        if isinstance(step, Join):
            return Sent(sender.join(step), copies_of(step.heard))
        if sender.keys:
            return Sent(sender.data(step), copies_of(step.heard))
        channel = step.heard.channel % len(FIRST_CHANNELS)
        return Sent(sender.join_request(), copies_of(replace(step.heard, channel=channel)))

    def line(self, sender: Sender, request: Request) -> str:
        """The line of a request."""
        if request.line == "provision":
            return sender.words
        self.tag += 1
        if request.line is not None:
            return request.line.format(sender.dev_eui)
        payload = byte_text(random_bytes(self.tag, request.length))
        kind = "c" if request.confirmed else "u"
        return f"queue {sender.dev_eui} {self.tag} {request.port} {kind} {payload}"

    def ring(self) -> Sent:
        """The round's last frame, of a device that does nothing else: its join, or an uplink."""
        channels: Sequence[int] = CHANNELS if self.bell.keys else FIRST_CHANNELS
        frame = self.bell.uplink(9, b"\x01") if self.bell.keys else self.bell.join_request()
        self.tag += 1
        copy = Copy(
            EUIS[0], channels[self.tag % len(channels)], stamp=0x9E3779B1 * self.tag % 2**32
        )
        return Sent(frame, [copy])

    def take(self, frame: bytes) -> None:
        """The device that a frame is for reads it."""
        for sender in self.senders:
            try:
                sender.receive(frame)
                return
            except Rejected:
                pass
