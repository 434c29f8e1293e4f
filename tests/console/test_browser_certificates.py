"""The console by TLS in a real browser, which has the certificate of its user: an operator writes,
a reader reads, and a certificate that is revoked isn't let in."""

import re
from collections.abc import Callable, Iterator
from contextlib import ExitStack
from pathlib import Path

import pytest
from bozintar.processes import HOST, Process, Processes, free_port

from ..pilot.doors import Authority
from ..pilot.parts import PILOT, run
from . import browsers
from .browsers import Browser
from .networks import PlayedBridge
from .sites import KEY

# a browser beside other work exceeds the limits of its driver
pytestmark = [pytest.mark.slow, pytest.mark.timed]
DEVICE, JOIN_EUI = "70B3D57ED0000042", "0102030405060708"
AWAY = "No answer from the console for"


class Secure:
    """A console beyond loopback, whose requests a bridge takes that is played."""

    def __init__(self, parts: Processes) -> None:
        self.parts, self.port = parts, free_port()
        self.authority = Authority(parts.file("authority"))
        self.authority.make("server", "localhost")
        self.address = f"https://localhost:{self.port}"
        self.bridge = PlayedBridge(parts.file("ask"))
        self.console = self.made().start("listens on")

    def made(self) -> Process:
        """The console."""
        certificate, key = self.authority.of("server")
        words = ["--lookout", self.parts.file("look"), "--broker", f"{HOST}:{free_port()}"]
        words += ["--db", self.parts.file("console.db"), "--listen", f"{HOST}:{self.port}"]
        words += ["--host", "localhost", "--certificate", certificate, "--key", key]
        words += ["--clients", f"{self.authority.folder}/ca.crt"]
        words += ["--crl", f"{self.authority.folder}/ca.crl"]
        words += ["--asks", f"3={self.parts.file('ask')}"]
        return self.parts.python(PILOT / "console/web-console", *words)

    def user(self, kind: str = "", name: str = "") -> Path:
        """The home of a user, whose browsers have taken a certificate of this kind."""
        home, authority = (
            Path(self.parts.file(f"home-{kind}-{name}")),
            f"{self.authority.folder}/ca.crt",
        )
        if not kind:
            browsers.take_certificate(home, authority)
            return home
        _, said, _ = run("secure/certificates", self.authority.folder, kind, name)
        found = re.search(r"(\S+\.p12), for a browser, with the password (\S+)", said)
        assert found, said
        browsers.take_certificate(home, authority, *found.groups())
        return home


Open = Callable[..., Browser]


@pytest.fixture
def secure() -> Iterator[Secure]:
    """A console by TLS."""
    if why := browsers.missing(browsers.WITH_CERTIFICATES):
        pytest.skip(f"no browser: {why}")
    with Processes() as parts:
        made = Secure(parts)
        yield made
        made.bridge.end()


@pytest.fixture
def opened(secure: Secure) -> Iterator[Open]:
    """Opens the browser of a user."""
    with ExitStack() as those:

        def one(*of: str) -> Browser:
            home = secure.user(*of)
            made = Browser(home, secure.address, home)
            those.callback(made.end)
            return made

        yield one


def test_operator(secure: Secure, opened: Open) -> None:
    """An operator adds a device by the keyboard. The console logs who did it, and no key."""
    from selenium.webdriver.common.keys import Keys

    browser = opened("operator", "alice")
    browser.size(1400)
    browser.show("/add")
    browser.tabs_to("[name=eui]")
    browser.types(*(word for text in (DEVICE, JOIN_EUI, KEY) for word in (text, Keys.TAB)))
    browser.tabs_to("[name=name]")
    browser.types("Mill", Keys.ENTER)
    browser.reads("Mill: Added, in slot 7.")
    assert secure.bridge.asked == [f"provision {DEVICE} {JOIN_EUI} {KEY} 0 1"]
    assert "operator-alice" in secure.console.said()
    assert KEY not in secure.console.said().upper()
    assert browser.faults() == []


def test_reader(secure: Secure, opened: Open) -> None:
    """A reader's browser shows pages without forms. Once the certificate is revoked and the console
    is started again, the open page has no answer, and no page is loaded; an operator's browser goes
    on by itself."""
    browser, other = opened("reader", "bob"), opened("operator", "alice")
    for one in (browser, other):
        one.size(1400)
        one.show("/add")
        one.reads("Add devices")
    forms = "return document.querySelectorAll('main form').length"
    assert (browser.asks(forms), other.asks(forms) > 0) == (0, True)
    secure.authority.make("revoke", "reader-bob")
    assert secure.console.end() == 0
    other.reads(AWAY)
    secure.console.start("listens on")
    browser.reads(AWAY)
    other.waits("the band goes", lambda: AWAY not in other.text)
    assert AWAY in browser.text
    assert failure(browser) and not failure(other)


def test_no_certificate(opened: Open) -> None:
    """A browser without a certificate gets no page."""
    assert failure(opened())


def failure(browser: Browser) -> str:
    """Why the browser shows no page; nothing if it shows one."""
    from selenium.common.exceptions import WebDriverException

    try:
        browser.show("/")
    except WebDriverException as why:
        return str(why.msg)
    found = re.search("ERR_[A-Z_]+", browser.text)
    return found[0] if found else ""
