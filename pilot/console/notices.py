"""Notices for operators who look at no page: a message when something begins to need attention, and
when that is over. It goes to a webhook, or by mail. And numbers of devices, for Prometheus."""

import asyncio
import json
import re
import smtplib
import time
from email.message import EmailMessage
from urllib.request import Request, urlopen

from bozintar.counts import Metric
from bozintar.logs import Seldom

from . import attention
from .network import Network
from .refusals import refusal

EVERY, PATIENCE = 30.0, 20.0
COUNTED = re.compile(r"^\d+ (unknown )?devices?")
MAIL = "mailto:"


class Notices:
    """What an operator was sent a message of. `to` is an address http(s)://.., or mailto:NAME."""

    def __init__(self, network: Network, to: str) -> None:
        self.network, self.to, self.seldom = network, to, Seldom()
        self.sent: dict[str, str] = {}

    async def look(self) -> None:
        """Sends what has begun and what is over; the next time again, if it can't be sent. How many
        devices there are of a kind changes nothing."""
        found, texts = dict[str, str](), list[str]()
        for of in attention.problems(self.network):
            if of.level < attention.NOTE:
                key = COUNTED.sub("devices", of.what)
                found[key] = of.what
                texts += [f"{of.what}. {of.why}. {of.remedy}"] * (key not in self.sent)
        texts += [f"Over: {what}" for key, what in self.sent.items() if key not in found]
        try:
            if texts:
                await asyncio.to_thread(send, self.to, "\n".join(texts))
            self.sent = found
        except (OSError, ValueError, smtplib.SMTPException) as why:
            self.seldom.warn("notice", f"a notice can't be sent: {why}")

    async def keep(self) -> None:
        """Sends what changes, without end."""
        while True:
            await asyncio.sleep(EVERY)
            await self.look()


def send(to: str, text: str) -> None:
    """Sends a text, by this machine's mail server or as JSON with the field `text`."""
    if to.startswith(MAIL):
        mail = EmailMessage()
        mail["From"], mail["To"] = "bozintar", to.removeprefix(MAIL)
        mail["Subject"] = f"Bozintar: {text.splitlines()[0][:70]}"
        mail.set_content(text)
        with smtplib.SMTP("localhost", timeout=PATIENCE) as server:
            server.send_message(mail)
        return
    body = json.dumps({"text": text}).encode()
    with urlopen(Request(to, body, {"Content-Type": "application/json"}), timeout=PATIENCE):
        pass


def numbers(network: Network) -> list[Metric]:
    """How many devices are silent, and how many can't join, by the reason."""
    now, prefix = time.time(), "pilot_console"
    silent = Metric(f"{prefix}_silent", "gauge", "devices whose uplink is three intervals late")
    silent.add(len(network.silent(now)))
    joins = Metric(f"{prefix}_cant_join", "gauge", "devices whose joins are refused")
    for number, count in attention.cant_join(network, now).items():
        joins.add(count, reason=refusal(number).name)
    return [silent, joins]
