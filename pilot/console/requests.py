"""Requests to the bridges of applications (`applications-mqtt --asks`), over sockets of this
machine. AppKeys go this way, and never over the broker."""

import asyncio
import os
import re
from dataclasses import dataclass

from bozintar.logs import warn
from bridges.application_events import REFUSALS
from bridges.asks import HELD, UNCLAIMED

# how long an answer may take, in seconds: the bridge itself waits 30 for the server's
PATIENCE = 40.0
UNKNOWN_DEVICE = "refused 7"
NO_CLAIM = "No claim says which store the device is for: claim it, and add it then."
ANOTHER_STORE = (
    "Not added: the server doesn't know devices that it had. Its store is another one, or an older "
    "one. The journal of applications-mqtt says what to do."
)
UNANSWERED = "No answer came. It may have been done: check before you send it again."
# in place of an answer, if the bridge wasn't reached: nothing was asked
NOT_SENT = "not sent"
NO_BRIDGE = (
    "Not sent: the console doesn't reach the bridge. Its journal says why; check systemctl status "
    "'bozintar-applications-mqtt@*'."
)
WITHOUT_ANSWER = {UNCLAIMED: NO_CLAIM, HELD: ANOTHER_STORE, NOT_SENT: NO_BRIDGE}


@dataclass(frozen=True)
class Answer:
    """What became of a request, for a person."""

    is_done: bool
    text: str


class Bridges:
    """The bridges' sockets, by the numbers of their applications."""

    def __init__(self, sockets: dict[str, str]):
        self.sockets = sockets

    @property
    def applications(self) -> list[str]:
        """The applications, in their order."""
        return sorted(self.sockets, key=int)

    async def ask(self, application: str, lines: list[str]) -> list[str]:
        """Sends requests one after another; the answers, as many as came, or that none was sent."""
        found: list[str] = []
        path = self.sockets.get(application, "")
        try:
            reader, writer = await asyncio.open_unix_connection(path)
        except OSError as why:
            reason = os.strerror(why.errno) if why.errno else why
            warn(f"the bridge of application {application} isn't reached by {path!r}: {reason}")
            return [NOT_SENT] * len(lines)
        try:
            for line in lines:
                writer.write(line.encode("ascii") + b"\n")
                answer = await asyncio.wait_for(reader.readline(), PATIENCE)
                if not answer.endswith(b"\n"):
                    break
                found.append(answer.decode("ascii", "replace").strip())
        except (OSError, ValueError, asyncio.TimeoutError) as why:
            # the bridge has ended, or its answer is longer than any
            warn(f"the bridge of application {application} doesn't answer by {path}: {why!r}")
        finally:
            writer.close()
        return found

    async def ask_for(self, application: str, line: str) -> str:
        """Sends a request for a device; nothing if no answer came. The server's list doesn't say
        which application has a device; if no event did, each application is asked: those that
        don't have the device refuse."""
        if application in self.sockets:
            return "".join((await self.ask(application, [line]))[:1])
        found = UNKNOWN_DEVICE
        for each in self.applications:
            answer = "".join((await self.ask(each, [line]))[:1])
            if answer not in (UNKNOWN_DEVICE, NOT_SENT):
                return answer
            found = NOT_SENT if NOT_SENT in (answer, found) else found
        return found


def answer_of(line: str) -> Answer:
    """The line that answers a request, in words."""
    kind, _, rest = line.partition(" ")
    if kind == "refused":
        number = int(rest) if re.fullmatch(r"\d{1,3}", rest) else 0
        _, why = REFUSALS.get(number, ("", f"refused {rest}"))
        return Answer(False, f"{why[:1].upper()}{why[1:]}.")
    if kind == "provisioned":
        return Answer(True, f"Added, in slot {rest.split(' ')[-1]}.")
    if kind in ("queued", "macqueued"):
        return Answer(True, "Queued. It is sent after the device's next uplink.")
    return Answer(False, WITHOUT_ANSWER.get(line, UNANSWERED))
