"""Pages in a real browser with names that are long, or have signs which turn texts around: each page
is as wide as the window."""

from collections.abc import Iterator
from pathlib import Path
from queue import Queue
from threading import Thread

import pytest

from . import browsers
from .browsers import SCHEMES, Browser
from .sites import DEVICE, GATEWAY, Console, listed, up

pytestmark = [pytest.mark.slow, pytest.mark.timed]
# a phone, and a small screen less its scroll bar
WIDTHS = (390, 1265)
# 60 characters without a space; and signs that turn a text around (UAX 9, 2)
LONG, TURNING = "Water-works-of-the-old-town-" + "x" * 32, "Mill\u202e lane\u2067"
OTHERS = {"70B3D57ED0000002": LONG, "70B3D57ED0000003": TURNING}
GATEWAYS = {"00000000000000B2": LONG, "00000000000000B3": TURNING}
PAGES = {
    "/": "Needs attention",
    "/devices": "Best gateway",
    f"/devices/{next(iter(OTHERS))}": "Latest readings",
    "/gateways": "Change a gateway",
    "/refused": "Other frames",
    "/server": "Longest sync",
}


def fill(console: Console) -> None:
    """Devices and gateways, without a name and with each of these names, of all of which the pages
    have something to say."""
    named = {**OTHERS, **GATEWAYS}
    for row in named.items():  # as an earlier console kept them
        console.kept.add("INSERT INTO names VALUES (?, ?)", *row)
    console.settle()
    console.network.names = {}
    console.network.load()
    console.serves(*(listed(of, eui) for of, eui in enumerate((DEVICE, *OTHERS))))
    for gateway in (GATEWAY, *GATEWAYS):
        heard = [{"gatewayId": gateway.lower(), "rssi": -90, "snr": 7.5}]
        counter = len(console.network.gateways)
        console.events(*(up(eui, counter, rxInfo=heard) for eui in (DEVICE, *OTHERS)))
        console.lines(f"linked gateway {gateway}", f"ended gateway {gateway}")
        for eui in OTHERS:
            console.lines(f"refused 4 BadMic join {eui} 7 {gateway} 868100000 5 -2 -95")


def serve(folder: Path, filled: Queue[Console]) -> None:
    """Serves a console with these names, in a thread of its own."""
    console = Console(folder)
    fill(console)
    filled.put(console)
    console.loop.run_forever()
    console.close()


@pytest.fixture(scope="module")
def browser(tmp_path_factory: pytest.TempPathFactory) -> Iterator[Browser]:
    """A browser of a console with these names."""
    if why := browsers.missing():
        pytest.skip(f"no browser: {why}")
    folder, filled = tmp_path_factory.mktemp("names"), Queue[Console]()
    serving = Thread(target=serve, args=(folder, filled))
    serving.start()
    console = filled.get(timeout=60)
    made = Browser(folder, console.origin)
    try:
        yield made
    finally:
        made.end()
        console.loop.call_soon_threadsafe(console.loop.stop)
        serving.join()


@pytest.mark.parametrize("scheme", SCHEMES)
@pytest.mark.parametrize("width", WIDTHS)
@pytest.mark.parametrize("path", PAGES)
def test_fits(browser: Browser, path: str, width: int, scheme: str) -> None:
    """Nothing of the page sticks out at the right, and no sign turns a text around."""
    browser.size(width, scheme, 900)
    browser.show(path)
    browser.reads(PAGES[path])
    page = browser.driver.execute_cdp_cmd("Page.getLayoutMetrics", {})["cssContentSize"]
    assert page["width"] == width and browser.asks(browsers.WIDE) == []
    assert not {"\u202e", "\u2067"} & set(browser.driver.page_source)
    assert path not in ("/", "/devices") or (LONG in browser.text and "Mill lane" in browser.text)
