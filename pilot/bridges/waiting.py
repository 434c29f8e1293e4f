"""Items that wait for their devices, as far as a bridge sees it: which of a device is first, and
whether it fits the data rate at which the device is heard."""

from collections import deque
from collections.abc import Callable
from dataclasses import dataclass

# the bytes of payload that fit at each data rate (RP002, EU863-870)
ROOM = (51, 51, 51, 115, 242, 242)
# as many as wait in the network for a device
MOST_ITEMS = 16


@dataclass
class Item:
    """An item that was queued, and for how many uplinks it has been first and too long."""

    tag: int
    size: int
    is_confirmed: bool
    uplinks: int = 0


@dataclass(frozen=True)
class Blocked:
    """An item that has been first for many uplinks, and what fits at the data rate."""

    item: Item
    rate: int
    room: int

    @property
    def description(self) -> str:
        """Why it waits."""
        item = self.item
        return (
            f"the item has been first for {item.uplinks} uplinks: it has {item.size} bytes, and "
            f"{self.room} fit at DR{self.rate}. Those after it wait, too"
        )


class Waiting:
    """The items of all devices. One that fits is taken as sent with the next uplink, unless it is
    to be acknowledged. `offset` is a device's RX1DROffset."""

    def __init__(self, most: int, offset: Callable[[str], int]):
        self.most, self.offset = most, offset
        self.devices: dict[str, deque[Item]] = {}

    def add(self, line: str) -> None:
        """The network has queued the item of this request."""
        _, device, tag, _, kind, payload = line.split(" ")
        size = 0 if payload == "-" else len(payload) // 2
        items = self.devices.setdefault(device, deque(maxlen=MOST_ITEMS))
        items.append(Item(int(tag), size, kind == "c"))

    def take(self, device: str, tag: int) -> None:
        """The network says what became of an item, and so of all before it."""
        items = self.devices.get(device, deque())
        while any(item.tag == tag for item in items):
            items.popleft()

    def hear(self, device: str, uplink_rate: int) -> Blocked | None:
        """An uplink came with this data rate; the first item, if by now it was too long often
        enough."""
        items = self.devices.get(device)
        if not items:
            self.devices.pop(device, None)
            return None
        first, rate = items[0], max(0, uplink_rate - self.offset(device))
        if first.size <= ROOM[min(rate, 5)]:
            if not first.is_confirmed:
                items.popleft()
            return None
        first.uplinks += 1
        return Blocked(first, rate, ROOM[rate]) if first.uplinks == self.most else None
