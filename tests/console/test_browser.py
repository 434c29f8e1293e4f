"""The pages in a real browser, Debian's Chromium, on a whole network."""

import time
from collections.abc import Iterator
from functools import partial

import pytest
from bozintar.processes import await_that

from . import browsers
from .browsers import SCHEMES, WIDTHS, Browser
from .networks import GATEWAYS, KILLS, Whole
from .sites import KEY

# a browser beside other work exceeds the limits of its driver
pytestmark = [pytest.mark.slow, pytest.mark.timed]
# the meters: one joins and is heard, one can't join, one stays silent
HEARD, WRONG, NEVER = (f"70B3D57ED000000{number}" for number in (1, 2, 3))
# how soon a kill is shown, in seconds: ten times what a machine takes that does nothing else
SOON = 50.0
EVIL = "\"'><script>document.title='owned'</script><img src=x onerror=alert(1)>"
PAGES = {
    "/": "Needs attention",
    "/devices": "Best gateway",
    f"/devices/{HEARD}": "Latest readings",
    f"/devices/{NEVER}": "No join of this device came yet",
    "/gateways": "Church tower",
    "/refused": "Other frames",
    "/add": "Many devices",
    "/server": "Longest sync",
    "/none": "Not found",
}


@pytest.fixture(scope="module")
def network(program: str) -> Iterator[Whole]:
    """A network in which one of three meters has sent readings."""
    if why := browsers.missing():
        pytest.skip(f"no browser: {why}")
    made = Whole(program, 3)
    try:
        made.start()
        for meter in made.meters[:2]:
            if meter.dev_eui == WRONG:
                meter.app_key = bytes(16)
                made.send(meter.join_request())
                made.air.go_on(1)
            else:
                assert made.join(meter), "the meter joins"
        for _ in range(3):
            made.read(made.meters[0])
        made.meters[0].reads()  # one that no gateway hears
        made.read(made.meters[0])
        for path in (f"/devices/{eui}" for eui in (HEARD, WRONG, NEVER)):
            await_that(f"the console has {path}", partial(made.shows, path), 60)
        yield made
    finally:
        made.end()


@pytest.fixture(scope="module")
def browser(network: Whole) -> Iterator[Browser]:
    """A browser of its console."""
    made = Browser(network.file("browser"))
    made.address = network.address
    yield made
    made.end()


@pytest.mark.parametrize("scheme", SCHEMES)
@pytest.mark.parametrize("width", WIDTHS)
@pytest.mark.parametrize("path", PAGES)
def test_looks(browser: Browser, path: str, width: int, scheme: str) -> None:
    """A page at one width, in one scheme: all of it is on the page and can be read, and the browser
    has nothing to complain of."""
    browser.faults()
    browser.size(width, scheme)
    browser.show(path)
    browser.reads(PAGES[path])
    assert browser.asks(browsers.WIDE) == []
    assert browser.asks(browsers.CONTRAST) == []
    assert browser.asks(browsers.UNNAMED) == []
    assert browser.asks(browsers.FOREIGN) == []
    if width < browsers.PHONE:
        assert browser.asks(browsers.SMALL) == []
    levels = browser.asks(browsers.HEADINGS)
    assert levels[0] == 1 and all(after - level <= 1 for level, after in zip(levels, levels[1:]))
    back = browser.asks("return getComputedStyle(document.body).backgroundColor")
    assert (back == "rgb(244, 246, 248)") == (scheme == "light")
    faults = [text for text in browser.faults() if path != "/none" or "404" not in text]
    assert faults == []


def test_live(network: Whole, browser: Browser) -> None:
    """After an uplink the page changes by itself, and keeps what is being typed."""
    meter = network.meters[0]
    browser.size(1400)
    browser.show(f"/devices/{HEARD}")
    browser.reads("1 missing")
    before = len(meter.sent)
    browser.asks("window.isSame = true")
    network.read(meter)
    browser.reads(f"{before} stored")
    assert browser.asks("return window.isSame === true"), "the page wasn't loaded again"
    browser.element("[name=payload]").send_keys("C0FFEE")
    network.read(meter)
    time.sleep(5)
    assert browser.element("[name=payload]").get_property("value") == "C0FFEE"
    browser.asks("document.activeElement.blur()")
    browser.reads(f"{before + 1} stored")
    assert browser.element("[name=payload]").get_property("value") == "C0FFEE"


def test_keyboard(network: Whole, browser: Browser) -> None:
    """Forms are filled in and sent by the keyboard alone."""
    from selenium.webdriver.common.keys import Keys

    browser.size(1400)
    browser.show(f"/devices/{HEARD}")
    browser.types(Keys.TAB)
    assert browser.asks("return document.activeElement.className") == "skip"
    browser.types(Keys.ENTER)
    assert browser.asks("return document.activeElement.id") == "main"
    browser.tabs_to("[name=port]")
    browser.types(Keys.BACKSPACE, "9", Keys.TAB, "C0 FF EE", Keys.TAB, " ", Keys.TAB, Keys.ENTER)
    browser.reads("Queued. It is sent after the device's next uplink.")
    kind, eui, _, port, confirmed, payload = network.asked.asked[-1].split(" ")
    assert (kind, eui, port, confirmed, payload) == ("queue", HEARD, "9", "c", "C0FFEE")
    browser.reads("port 9, 3 bytes, by loopback")
    browser.show("/add")
    browser.tabs_to("[name=eui]")
    new = ("70B3D57ED0000042", "0102030405060708", KEY)
    browser.types(*(word for text in new for word in (text, Keys.TAB)))
    browser.tabs_to("[name=name]")
    browser.types("Mill", Keys.ENTER)
    browser.reads("Mill: Added, in slot 7.")
    assert network.asked.asked[-1] == f"provision {' '.join(new)} 0 1"
    assert KEY not in browser.driver.page_source.upper()


def test_required(browser: Browser) -> None:
    """A form whose fields are wrong isn't sent: the browser shows which."""
    from selenium.webdriver.common.keys import Keys

    browser.show("/add")
    browser.tabs_to("[name=eui]")
    browser.types("XYZ", Keys.ENTER)
    assert browser.asks("return document.querySelector('[name=eui]:invalid') !== null")
    assert "done=" not in browser.driver.current_url


def test_search(browser: Browser) -> None:
    """The search is in the address, so that it can be kept and shared."""
    from selenium.webdriver.common.keys import Keys

    browser.show("/devices")
    browser.tabs_to("[name=q]")
    browser.types("meter 2", Keys.ENTER)
    browser.waits("the search", lambda: "q=meter+2" in browser.driver.current_url)
    browser.reads("All 1")
    assert WRONG in browser.text and HEARD not in browser.text


def test_script_as_name(network: Whole, browser: Browser) -> None:
    """A name that is shaped like a script is shown as text, also when a page renews itself."""
    from selenium.webdriver.common.keys import Keys

    browser.show(f"/devices/{NEVER}")
    browser.tabs_to("main [name=name]")
    browser.asks("document.activeElement.select()")
    browser.types(EVIL[:60], Keys.ENTER)
    browser.reads("Saved.")
    browser.faults()
    for path in ("/", "/devices", f"/devices/{NEVER}", "/refused", "/add"):
        browser.show(path)
        if path in ("/devices", f"/devices/{NEVER}"):
            browser.reads(EVIL[:60])
        browser.waits("renewed", lambda: browser.asks(RENEWED) > 0)
        assert "owned" not in browser.driver.title.replace(EVIL[:60], "")
        assert browser.asks("return document.querySelectorAll('main script, main img').length") == 0
    assert browser.faults() == []


RENEWED = """return performance.getEntriesByType('resource')
    .filter((entry) => entry.name.includes('part=1')).length"""


def test_pointer(browser: Browser) -> None:
    """A plot shows its numbers under the pointer."""
    from selenium.webdriver import ActionChains

    browser.size(1400)
    browser.show(f"/devices/{HEARD}")
    area = browser.element(".plots figure:nth-child(2) .area")
    ActionChains(browser.driver).move_to_element(area).perform()
    assert "SNR 7.5 dB" in browser.element(".tip").text


def test_theme(browser: Browser) -> None:
    """The button switches between light and dark, on all pages."""
    browser.size(1400, "light")
    browser.show("/")
    browser.element("#theme").click()
    browser.show("/gateways")
    dark = "return getComputedStyle(document.body).backgroundColor"
    assert browser.asks(dark) == "rgb(14, 19, 23)"
    browser.element("#theme").click()
    assert browser.asks(dark) == "rgb(244, 246, 248)"
    browser.asks("localStorage.clear()")


def test_without_scripts(browser: Browser) -> None:
    """All pages can be read, and forms can be sent, without scripts."""
    browser.size(1400)
    browser.scripts(False)
    try:
        for path, text in PAGES.items():
            browser.show(path)
            assert text in browser.driver.find_element("tag name", "main").text
        browser.show("/gateways")
        form = browser.element("form [name=name]")
        form.send_keys("Bell tower")
        form.submit()
        assert "Saved." in browser.element(".outcome").text
        assert "Bell tower" in browser.element("table").text
    finally:
        browser.scripts(True)
    assert list(GATEWAYS)[0] in browser.driver.page_source


def test_no_internet(browser: Browser) -> None:
    """No page names another host."""
    for path in PAGES:
        browser.show(path)
        source = browser.driver.page_source.replace("http://www.w3.org/2000/svg", "")
        assert "http://" not in source and "https://" not in source


PARTS = [part for part in KILLS if part != "gateways"]  # these are silent


@pytest.mark.parametrize("part", PARTS)
def test_killed(network: Whole, browser: Browser, part: str) -> None:
    """A part that is killed is missed on the open page soon; once it is back, the page is as before
    by itself."""
    kill, start, alarm = KILLS[part]
    browser.show("/")
    browser.reads("Server running")
    browser.waits("all is well", lambda: not any(KILLS[of][2] in alarms(browser) for of in PARTS))
    browser.asks("window.isSame = true")
    kill(network)
    await_that(f"the page says {alarm!r}", lambda: alarm in alarms(browser), SOON, 0.1)
    start(network)
    browser.waits("the alarm goes", lambda: alarm not in alarms(browser))
    browser.reads("Server running")
    assert browser.asks("return window.isSame === true"), "the page wasn't loaded again"
    browser.faults()


def alarms(browser: Browser) -> str:
    """What needs attention, and what the page says of its own age."""
    parts = "document.querySelectorAll('.problems, .well, #stale:not([hidden])')"
    return str(browser.asks(f"return [...{parts}].map((part) => part.innerText).join(' ')"))
