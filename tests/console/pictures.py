"""The console's pictures: its pages after a day that is played."""
import asyncio
import math
import random
import tempfile
import time
from pathlib import Path

from bozintar.words import stop
from console import server_lines
from tests.console.browsers import Browser, missing
from tests.console.sites import Clock, Console, event, listed, up

TO = Path(__file__).resolve().parents[2] / "pilot/console/pictures"
SIZE = 1200, 900
METERS, EVERY, COUNT = 48, 900, 96
STREETS = ("Church Road", "Station Road", "Mill Lane", "River Walk", "Market Place", "School Hill")
GATEWAYS = {
    f"00000000000000B{n}": name for n, name in enumerate(("Church tower", "Water works"), 1)
}
GATEWAYS["00000000000000B3"] = "School roof"
FIRST = next(iter(GATEWAYS))
# what is wrong with some: no key or an old DevNonce, a low battery, silent for two hours
WRONG_KEY, OLD_NONCE, LOW, SILENT = 46, 45, 1, (7, 21)
STRANGER = "70B3D57ED0000ABC"
STATUS = """listening 127.0.0.1:5600\nplaces 96\nlinks 4\ngateways 3\napplications 1\ndevices 48
slots 1000\nmade 9000\ndropped {dropped}\nsyncs 9000\nlongest_sync_us {longest}\n{copies}now {now}
"""


def eui(number: int) -> str:
    """A meter's DevEUI."""
    return f"70B3D57ED000{number + 1:04X}"


class Day:
    """A day of a console, by a clock of its own."""

    def __init__(self, folder: Path) -> None:
        self.chance, self.clock = random.Random(7), Clock()
        time.time = self.clock
        self.begin = self.clock.now - COUNT * EVERY
        self.clock.now = self.begin
        self.console, self.longest = Console(folder), 9000
        for number in range(METERS):
            name = f"{STREETS[number % len(STREETS)]} {1 + number // len(STREETS)}"
            self.console.network.rename(eui(number), name)
        for one, name in GATEWAYS.items():
            self.console.network.rename(one, name)

    def status(self) -> None:
        """The server's status, and a sync that may be a little slow."""
        network, now = self.console.network, round(1000 * (self.clock.now - self.begin)) + 10**8
        copies = "".join(f"last_copy_{one} {now - 700}\n" for one in GATEWAYS)
        self.longest += self.chance.choice((0, 0, 0, 900))
        text = STATUS.format(dropped=3, longest=self.longest, copies=copies, now=now)
        server_lines.take_status(network, text)
        never = (WRONG_KEY, OLD_NONCE)
        lines = (
            listed(of, eui(of), 0, "-") if of in never else listed(of, eui(of))
            for of in range(METERS)
        )
        server_lines.take_devices(network, "\n".join(lines))
        network.is_broker_there = True

    def read(self, number: int, counter: int) -> None:
        """A reading of a meter, if a gateway hears it."""
        is_away = number in SILENT and counter >= COUNT - 8
        if is_away or self.chance.random() < 0.02:
            return
        best = list(GATEWAYS)[number % 8 // 3]
        snr = 4 * math.sin(counter / 15 + number) + self.chance.gauss(-4 + number % 9, 1.5)
        heard = {"gatewayId": best.lower(), "rssi": round(-105 + snr), "snr": round(4 * snr) / 4}
        self.console.events(up(eui(number), counter, rate=3, rxInfo=[heard]))

    def quarter(self, counter: int) -> None:
        """A quarter of an hour."""
        self.status()
        for number in range(METERS - 2):
            self.clock.now = self.begin + counter * EVERY + number * EVERY / METERS
            if number not in (WRONG_KEY, OLD_NONCE):
                self.read(number, counter)
            if number % 23 == 5:
                self.refuse(counter)

    def refuse(self, counter: int) -> None:
        """Joins that are refused."""
        how = f"{FIRST} 868100000 3 -20 -105"
        for reason, of, nonce in (
            ("4 BadMic", eui(WRONG_KEY), counter),
            ("7 UnknownDevEui", STRANGER, counter),
            ("9 DevNonceUsed", eui(OLD_NONCE), 7),
        ):
            if counter % 3 == 0:
                self.console.lines(f"refused {reason} join {of} {nonce} {how}")

    def play(self) -> None:
        """All of it, with a low battery and some commands in the last minutes."""
        for counter in range(COUNT):
            self.quarter(counter)
        level = {"margin": 8, "externalPowerSource": False, "batteryLevelUnavailable": False}
        self.console.events(
            event(eui(LOW), "status", {**level, "batteryLevel": 9.1}),
            event(eui(3), "queued", {"queueItemId": "41"}),
            event(eui(3), "ack", {"acknowledged": True, "queueItemId": "41"}),
            event(eui(4), "macqueued", {"commands": "0330FF0001"}),
            event(
                eui(0),
                "adr",
                {
                    "joinNonce": 1,
                    "dr": 3,
                    "txPower": 0,
                    "isPowerKnown": True,
                    "asked": "",
                    "tries": 0,
                    "leftAlone": "",
                },
            ),
        )
        self.console.network.save_minutes()
        self.console.settle()


def draw(browser: Browser, path: str, scheme: str, file: Path) -> None:
    """A picture of the top of a page."""
    browser.size(SIZE[0], scheme, SIZE[1])
    browser.show(path)
    time.sleep(1)
    browser.driver.save_screenshot(str(file))
    print(f"{file}: {file.stat().st_size // 1024} KiB")


def draw_all(folder: Path, address: str) -> None:
    """Both pictures."""
    browser = Browser(folder / "browser", address)
    draw(browser, "/?span=24h", "light", TO / "overview.png")
    draw(browser, f"/devices/{eui(0)}", "dark", TO / "device.png")
    browser.end()


def draw_pictures() -> int:
    """Draws the pictures. The result is 0."""
    if why := missing():
        stop(f"no browser: {why}")
    with tempfile.TemporaryDirectory(prefix="console-pictures-") as folder:
        day = Day(Path(folder))
        day.play()
        # the console's database is of this thread
        console, loop = day.console, day.console.loop
        console.run(
            asyncio.wait_for(
                loop.run_in_executor(None, draw_all, Path(folder), console.origin), 300
            )
        )
        console.close()
    return 0
