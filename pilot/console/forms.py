"""Forms: what their fields say, as lines of docs/FORMATS.md. A form is read into memory alone,
since it may have keys: aiohttp's own reader puts files on the disk."""

import re
import secrets
from collections.abc import Mapping
from dataclasses import dataclass

from adapting.rule import Setting
from aiohttp import BodyPartReader, web
from bridges.devices import Devices, in_lines

from .access import Refused

MOST_BODY, MOST_ROWS, MOST_PAYLOAD = 400_000, 4096, 242
# the columns of a form's fields
FIELDS = {
    "eui": "DevEUI",
    "join": "JoinEUI",
    "key": "AppKey",
    "offset": "Offset",
    "delay": "Delay",
    "name": "Name",
}
# of these, what a page may show again
SHOWN = ("eui", "join", "offset", "delay", "name", "application")
Form = Mapping[str, str]


@dataclass(frozen=True)
class Request:
    """A request for a device, and how the event of it reads."""

    line: str
    text: str


async def read(request: web.Request) -> dict[str, str]:
    """The fields of a form, files as their text."""
    if not request.content_type.startswith("multipart/"):
        return {name: str(value) for name, value in (await request.post()).items()}
    found, size = {}, 0
    async for part in await request.multipart():
        if not isinstance(part, BodyPartReader):
            raise Refused(400, "This is no form of the console.")
        content = b""
        while chunk := await part.read_chunk():
            content, size = content + chunk, size + len(chunk)
            if size > MOST_BODY:
                raise Refused(413, f"The form has more than {MOST_BODY} bytes.")
        found[part.name or ""] = content.decode("utf-8-sig", "replace")
    return found


def whole(form: Form, name: str, least: int, most: int, what: str) -> int:
    """A field that is a whole number."""
    text = form.get(name, "").strip()
    if not re.fullmatch(r"[0-9]{1,6}", text) or not least <= int(text) <= most:
        raise ValueError(f"{what} has to be a number from {least} to {most}.")
    return int(text)


def command(eui: str, form: Form) -> Request:
    """The request of a form of a device's page."""
    what = form.get("what")
    if what == "item":
        return item(eui, form)
    if what == "status":
        return Request(f"mac {eui} 06", "Downlink queued: DevStatusReq")
    if what == "adr":
        rate = whole(form, "rate", 0, 5, "The data rate")
        setting = Setting(rate, whole(form, "power", 0, 7, "The power"))
        line = f"mac {eui} {setting.command().hex().upper()}"
        return Request(line, f"Downlink queued: LinkADRReq {setting}")
    raise ValueError("The form has no command.")


def item(eui: str, form: Form) -> Request:
    """An item for an application's device."""
    payload = re.sub(r"[\s:-]", "", form.get("payload", "")).upper()
    if not re.fullmatch("(?:[0-9A-F]{2}){0,%d}" % MOST_PAYLOAD, payload):
        raise ValueError(f"The payload has to be hex, {MOST_PAYLOAD} bytes at most.")
    port, tag = whole(form, "port", 1, 223, "The port"), secrets.randbelow(10**9)
    kind = "c" if form.get("confirmed") else "u"
    size = len(payload) // 2
    text = f"Downlink queued: item {tag}, port {port}, {size} bytes"
    return Request(f"queue {eui} {tag} {port} {kind} {payload or '-'}", text)


def devices(form: Form) -> Devices:
    """The devices that a form adds: that of its fields; or those of its lines and its file, which
    are read as a bridge reads a file of devices."""
    if form.get("eui", "").strip():
        found = Devices()
        found.add(1, {column: form.get(name, "").strip() for name, column in FIELDS.items()})
    else:
        texts = (form.get("lines", ""), form.get("file", ""))
        found = in_lines("\n".join(text for text in texts if text.strip()).splitlines())
    if len(found.rows) + len(found.faults) > MOST_ROWS:
        raise ValueError(f"There are more than {MOST_ROWS} devices.")
    found.refuse(form.get("application", ""))
    return found
