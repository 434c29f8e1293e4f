"""Who may read, and who may write: by Host, Origin, Sec-Fetch-Site, certificate and token."""

import logging
import ssl
import tempfile
from collections.abc import Iterator
from pathlib import Path

import aiohttp
import pytest
from console.access import secure

from .certificates import Authority
from .sites import DEVICE, GATEWAY, KEY, Console, listed

PATH = f"/devices/{DEVICE}"
ITEM = {"what": "item", "port": "7", "payload": "C0FFEE"}
# lines that raise an alarm, and the form that confirms it
TWICE = [f"joined {DEVICE} 1 {GATEWAY}"] * 2
CONFIRMATION = {"kind": "joined", "seen": "1"}
OWN, ALIEN = "own", "http://evil.example"


@pytest.fixture(scope="session")
def authority() -> Iterator[Authority]:
    """The authority that the console trusts."""
    with tempfile.TemporaryDirectory(prefix="bozintar-") as folder:
        yield Authority(Path(folder))


@pytest.fixture
def secured(folder: Path, authority: Authority) -> Iterator[Console]:
    """A console with TLS."""
    certificate, key = authority.certificate("console", "serverAuth")
    server = secure(str(certificate), str(key), str(authority.ca))
    names = ("operator-alice", "reader-bob")
    made = Console(folder, tls={"server": server} | {of: authority.client(of) for of in names})
    made.serves(listed(0, DEVICE))
    yield made
    made.close()


# certificate, Host, Origin, Sec-Fetch-Site, token -> status of a form. A `None` isn't sent.
FORMS = [
    ("operator-alice", OWN, OWN, "same-origin", OWN, 303),
    ("operator-alice", OWN, ALIEN, "same-origin", OWN, 403),
    ("operator-alice", OWN, "null", "same-origin", OWN, 403),
    ("operator-alice", OWN, None, "same-origin", OWN, 403),
    ("operator-alice", OWN, "http", "same-origin", OWN, 403),
    ("operator-alice", OWN, OWN, "cross-site", OWN, 403),
    ("operator-alice", OWN, OWN, "same-site", OWN, 403),
    ("operator-alice", OWN, OWN, "none", OWN, 403),
    ("operator-alice", OWN, OWN, None, OWN, 403),
    ("operator-alice", OWN, OWN, "same-origin", None, 403),
    ("operator-alice", OWN, OWN, "same-origin", "0" * 64, 403),
    ("operator-alice", OWN, OWN, "same-origin", "é", 403),
    ("operator-alice", OWN, OWN, "same-origin", "reader-bob", 403),
    ("operator-alice", "evil.example", ALIEN, "same-origin", OWN, 421),
    ("operator-alice", "evil.example", OWN, "same-origin", OWN, 421),
    ("operator-alice", "127.0.0.1.evil.example", OWN, "same-origin", OWN, 421),
    ("reader-bob", OWN, OWN, "same-origin", OWN, 403),
    ("reader-bob", OWN, OWN, "same-origin", "operator-alice", 403),
]
# certificate, Host -> status of a page
READS = [
    ("operator-alice", OWN, 200),
    ("reader-bob", OWN, 200),
    ("reader-bob", "localhost", 200),
    ("reader-bob", "LOCALHOST:9999", 200),
    ("reader-bob", "evil.example", 421),
    ("reader-bob", "evil.example:8443", 421),
    ("reader-bob", "[::1]", 421),
    ("reader-bob", "", 421),
    ("0016c001f153a14c", OWN, 403),
    ("application-3", OWN, 403),
    ("bridge-gateways", OWN, 403),
    ("operator", OWN, 403),
    ("operator-", OWN, 403),
    ("xoperator-alice", OWN, 403),
    ("Operator-alice", OWN, 403),
    ("operator-alice bob", OWN, 403),
]


@pytest.mark.parametrize("path, form", [(PATH, ITEM), ("/", CONFIRMATION)], ids=["item", "alarm"])
@pytest.mark.parametrize("name, host, origin, site, token, status", FORMS)
def test_forms(
    secured: Console,
    authority: Authority,
    path: str,
    form: dict,
    name: str,
    host: str,
    origin: str | None,
    site: str | None,
    token: str | None,
    status: int,
) -> None:
    """A form is done if all of it is right, and refused otherwise; only a done one is sent on, or
    confirms an alarm."""
    secured.lines(*TWICE)
    tokens = {
        of: secured.get(PATH, ssl=authority.client(of)).token
        for of in ("operator-alice", "reader-bob")
    }
    origins = {OWN: secured.origin, "http": secured.origin.replace("https", "http")}
    headers = {"Host": host} if host != OWN else {}
    if origin is not None:
        headers["Origin"] = origins.get(origin, origin)
    if site is not None:
        headers["Sec-Fetch-Site"] = site
    form = dict(form)
    if token is not None:
        form["token"] = tokens[name] if token == OWN else tokens.get(token, token)
    how = {"ssl": authority.client(name), "allow_redirects": False}
    page = secured.run(secured.request("POST", path, data=form, headers=headers, **how))
    assert page.status == status
    assert len(secured.bridge.asked) == (status == 303 and path == PATH)
    is_confirmed = secured.get("/health", ssl=authority.client("operator-alice")).status == 200
    assert is_confirmed == (status == 303 and path == "/")
    assert "Content-Security-Policy" in page.headers


@pytest.mark.parametrize("name, host, status", READS)
def test_reads(secured: Console, authority: Authority, name: str, host: str, status: int) -> None:
    """Readers and operators may read, under the console's own name; no other certificate may."""
    headers = {"Host": host} if host != OWN else {}
    page = secured.get(PATH, ssl=authority.client(name), headers=headers)
    assert page.status == status
    assert (DEVICE in page.markup) == (status == 200)
    static = secured.get("/static/console.css", ssl=authority.client(name), headers=headers)
    assert static.status == status


def test_strangers(secured: Console, authority: Authority, folder: Path) -> None:
    """Without a certificate, or with one of another authority, TLS has no connection."""
    other = Authority(folder, "other")
    for context in (authority.client(), authority.client("operator-alice", of=other)):
        with pytest.raises((aiohttp.ClientError, ssl.SSLError, ConnectionError)):
            secured.get("/", ssl=context)


def test_readers_see_no_forms(secured: Console, authority: Authority) -> None:
    """A reader's pages have no forms but the search, and say that they are read only."""
    page = secured.get(PATH, ssl=authority.client("reader-bob"))
    assert "reader-bob (read only)" in page.text and 'method="post"' not in page.markup
    page = secured.get(PATH, ssl=authority.client("operator-alice"))
    assert "Send a command" in page.text and "read only" not in page.text


@pytest.mark.parametrize("path", [PATH, "/add", "/gateways", "/"])
def test_loopback_reads(folder: Path, path: str) -> None:
    """On loopback clients may read, and not write."""
    console = Console(folder, may_write=False)
    console.serves(listed(0, DEVICE))
    console.lines(*TWICE)
    page = console.get(path)
    assert page.status == 200 and 'method="post"' not in page.markup
    assert console.post(path, {**ITEM, **CONFIRMATION, "token": page.token}).status == 403
    assert ("Only an operator can confirm it." in page.text) == (path == "/")
    assert console.get("/health").status == 503
    console.close()


@pytest.mark.parametrize("method", ["PUT", "DELETE", "PATCH", "OPTIONS"])
def test_methods(console: Console, method: str) -> None:
    """Pages are read and forms are posted; other methods are refused."""
    assert console.run(console.request(method, PATH)).status == 405


def test_keys_stay_secret(
    console: Console, caplog: pytest.LogCaptureFixture, capfd: pytest.CaptureFixture[str]
) -> None:
    """An AppKey goes to the bridge alone: no page, log, event or database has it, also if the
    form is refused."""
    caplog.set_level(logging.DEBUG)
    new = {"eui": "70B3D57ED0000005", "join": "0102030405060708", "application": "3"}
    pages = [console.send("/add", **new, key=KEY, name="Mill")]
    console.bridge.says = ["refused 16"]
    pages.append(console.send("/add", **new, key=KEY))
    pages.append(console.send("/add", **{**new, "join": "x"}, key=KEY))
    pages.append(console.send("/add", application="3", lines=f"x,y,{KEY}\n{KEY}"))
    pages += [
        console.get(path) for path in ("/", "/devices", "/server", "/devices/70B3D57ED0000005")
    ]
    assert [line for line in console.bridge.asked if KEY in line] == console.bridge.asked
    assert len(console.bridge.asked) == 2
    for page in pages:
        assert page.status == 200 and KEY not in page.markup.upper()
    console.settle()
    dump = "\n".join(console.kept.writing.iterdump())
    assert KEY not in dump.upper() and "Added to application 3, by loopback" in dump
    out, errors = capfd.readouterr()
    assert KEY not in out.upper() + errors.upper() + caplog.text.upper()
    assert "loopback at 127.0.0.1: 70B3D57ED0000005 Added to application 3" in out + errors
