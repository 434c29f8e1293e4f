"""Exports: files of JSON or of values between commas, semicolons or tabs (CSV), and the devices in
them."""

import csv
import io
import json
import re
from collections.abc import Iterator, Mapping
from dataclasses import dataclass, field

from bridges.devices import MOST_NAME, Values, text_of

from .fields import MOST_JOIN_NONCE, Object, Unfit

# the region that lnsd serves, as ChirpStack and the frequency plans of The Things Stack name it
REGION = re.compile(r"EU868|EU_863_870.*")
# the version of which DevNonces count up (TS001-1.0.4 §6.2.5), and those in which they may not
SERVED, OLDER = "1.0.4", ("1.0.0", "1.0.1", "1.0.2", "1.0.3")


class NoExport(ValueError):
    """A file isn't an export."""


@dataclass(frozen=True)
class Choices:
    """What an operator says of the devices: the application of each name, and what the export may
    lack."""

    # the number for the application of a name; "" is for all others
    applications: Mapping[str, int] = field(default_factory=dict)
    join_eui: str = ""
    delay: int = 1
    # how many joins the other network may grant after the export
    joins: int = 0
    takes_older: bool = False

    def application(self, name: str) -> str:
        """The number of an application, as a list has it."""
        number = self.applications.get(name, self.applications.get(""))
        if self.applications and number is None:
            raise Unfit(f"its application has no number: give it by --application {name}=N")
        return "" if number is None else str(number)

    def check_version(self, version: str) -> None:
        """Refuses a device of a version that isn't served; one of an unknown version may be."""
        if version in OLDER and not self.takes_older:
            raise Unfit(
                f"it is of LoRaWAN {version}, whose devices may draw their DevNonces at random: "
                "--older takes those that count them up"
            )
        if version not in ("", SERVED, *OLDER):
            raise Unfit(f"it is of LoRaWAN {version}")

    def join_nonce(self, last: int) -> str:
        """The last JoinNonce that the other network may have granted, as a list has it."""
        if last + self.joins > MOST_JOIN_NONCE:
            raise Unfit("it has no JoinNonce left")
        return str(last + self.joins) if last else "0"


@dataclass(frozen=True)
class Exported:
    """A device that joins over the air, as an export has it. A text is empty and a number None if
    it is missing."""

    dev_eui: str
    join_eui: str
    app_key: str
    version: str
    region: str
    application: str
    name: str
    has_joined: bool
    last_dev_nonce: int | None
    last_join_nonce: int
    offset: int | None = None
    delay: int | None = None

    def values(self, choices: Choices) -> Values:
        """The values of its columns."""
        choices.check_version(self.version)
        if self.region and not REGION.fullmatch(self.region):
            raise Unfit(f"it isn't of EU868, but of {self.region}")
        join_eui = self.join_eui or choices.join_eui
        if not join_eui:
            raise Unfit("its JoinEUI isn't known: give it by --join-eui")
        if not self.dev_eui or not self.app_key:
            raise Unfit("there is no AppKey" if self.dev_eui else "there is no DevEUI")
        if self.has_joined and not self.last_join_nonce:
            raise Unfit("it has joined, and its last JoinNonce isn't in the export")
        nonce = self.last_dev_nonce
        return {
            "DevEUI": self.dev_eui,
            "JoinEUI": join_eui,
            "AppKey": self.app_key,
            "Application": choices.application(self.application),
            "Offset": str(self.offset or 0),
            "Delay": str(self.delay or choices.delay),
            "LastDevNonce": "" if nonce is None else str(nonce),
            "LastJoinNonce": choices.join_nonce(self.last_join_nonce),
            "Name": plain_name(self.name),
        }


def parts(file: str) -> list[Object]:
    """The objects of an export: those of its JSON, or the rows of its CSV by their columns."""
    text = text_of(file)
    if not text.strip():
        raise NoExport(f"{file} is empty")
    if text.lstrip()[:1] in ("{", "["):
        return list(objects_in(file, text))
    return list(rows_in(file, text))


def objects_in(file: str, text: str) -> Iterator[Object]:
    """The objects of JSON: one, an array, or several after one another."""
    decoder, place = json.JSONDecoder(), 0
    while rest := re.compile(r"[\s,]*(?=[^\s,])").match(text, place):
        try:
            value, place = decoder.raw_decode(text, rest.end())
        except (ValueError, RecursionError) as why:
            line = 1 + text.count("\n", 0, getattr(why, "pos", place))
            raise NoExport(f"{file} line {line}: no JSON") from None
        for one in value if isinstance(value, list) else [value]:
            if not isinstance(one, dict):
                raise NoExport(f"{file}: an array of JSON has a value that is no object")
            yield one


def rows_in(file: str, text: str) -> Iterator[Object]:
    """The rows of CSV, whose first line has the names of columns."""
    head = text.lstrip().partition("\n")[0]
    separator = max(",;\t", key=head.count)
    if "deveui" not in re.sub("[^a-z0-9,;\t]", "", head.lower()):
        raise NoExport(f"{file} is no JSON, and its first line has no column dev_eui")
    reader = csv.DictReader(io.StringIO(text), restkey="more", delimiter=separator)
    try:
        for row in reader:
            if row.pop("more", None):
                raise NoExport(f"{file} line {reader.line_num}: more values than columns")
            yield {name.strip(): (value or "").strip() for name, value in row.items()}
    except csv.Error as why:
        raise NoExport(f"{file} line {reader.line_num + 1}: {why}") from None


def plain_name(text: str) -> str:
    """A name without what the plain form of a list can't have."""
    bare = "".join(one if one.isprintable() and one not in ',;#"' else " " for one in text)
    return " ".join(bare.split())[:MOST_NAME].strip()
