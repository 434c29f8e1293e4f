"""Notices by a webhook and by mail, and numbers for Prometheus."""

import json
from collections.abc import Iterator
from http.server import BaseHTTPRequestHandler, HTTPServer
from threading import Thread
from typing import Any
from unittest.mock import MagicMock

import pytest
from bozintar.counts import text_of
from bozintar.processes import HOST
from console import notices
from console.notices import Notices, numbers

from .sites import DEVICE, GATEWAY, Console, up

OTHER = "00000000000000B2"
BAD_MIC = f"refused 4 BadMic join {DEVICE} 7 {GATEWAY} 868100000 5 -2 -95"


@pytest.fixture
def hook() -> Iterator[HTTPServer]:
    """A webhook; `texts` is what it was sent."""
    texts: list[str] = []

    class Handler(BaseHTTPRequestHandler):
        """Takes messages."""

        def do_POST(self) -> None:  # pylint: disable=invalid-name
            """One message."""
            body = self.rfile.read(int(self.headers["Content-Length"]))
            texts.append(json.loads(body)["text"])
            self.send_response(200)
            self.end_headers()

    server = HTTPServer((HOST, 0), Handler)
    server.texts = texts  # type: ignore[attr-defined]
    serving = Thread(target=server.serve_forever)
    serving.start()
    yield server
    server.shutdown()
    serving.join()
    server.server_close()


def test_webhook(console: Console, hook: Any) -> None:
    """What begins to need attention is sent once, also if it can't be at first, and its end."""
    made = Notices(console.network, f"http://{HOST}:1/")
    console.lines(f"ended gateway {OTHER}", BAD_MIC)
    console.run(made.look())
    made.to = f"http://{HOST}:{hook.server_port}/"
    for _ in range(2):
        console.run(made.look())
    (text,) = hook.texts
    offline, cant = text.splitlines()
    assert offline.startswith(f"Gateway {OTHER} is offline. It has no link. ")
    assert cant.startswith("1 device can't join: BadMic. ") and "lnsd amend" in cant
    console.lines(BAD_MIC.replace(DEVICE, "70B3D57ED0000002"))
    console.run(made.look())
    assert len(hook.texts) == 1, "more devices of a kind are no news"
    console.lines(f"linked gateway {OTHER}")
    console.run(made.look())
    assert hook.texts[1:] == [f"Over: Gateway {OTHER} is offline"]


def test_mail(console: Console, monkeypatch: pytest.MonkeyPatch) -> None:
    """Mail goes to this machine's server."""
    server = MagicMock()
    monkeypatch.setattr(notices.smtplib, "SMTP", server)
    console.lines(f"ended gateway {OTHER}")
    console.run(Notices(console.network, "mailto:ops@lns.example").look())
    assert server.call_args.args == ("localhost",)
    (mail,) = server.return_value.__enter__.return_value.send_message.call_args.args
    assert mail["To"] == "ops@lns.example" and mail["Subject"].startswith("Bozintar: Gateway ")
    assert "Check its power" in mail.get_content()


def test_numbers(console: Console, clock: Any) -> None:
    """How many devices are silent, and can't join, by the reason."""
    for counter in range(4):
        console.events(up(DEVICE, counter))
        clock.now += 60
    clock.now += 1000
    console.lines(BAD_MIC)
    text = text_of(numbers(console.network))
    assert "pilot_console_silent 1.0" in text
    assert 'pilot_console_cant_join{reason="BadMic"} 1.0' in text
