"""A client of etcd, version 3, by its JSON gateway: values, leases, transactions, and changes as
they come. One thread at a time uses it."""

import base64
import http.client
import json
import socket
import ssl
from collections.abc import Iterator, Sequence
from dataclasses import dataclass, field
from typing import Any

from bozintar.links import refuse_itself
from bozintar.members import Access, addresses
from bozintar.words import Address, Words

# seconds that a member may take for an answer; then the next one is asked. A page of half a million
# keys may take longer, since etcd counts all of them
PATIENCE, PATIENCE_WITH_PAGES = 1.5, 15.0
# keys of one answer, for each of which etcd counts all that come after; and changes of one
# transaction (etcd takes 128 by default)
PAGE, MOST_CHANGES = 5000, 100
# what gRPC calls an error: of a lease that is over, and of a revision that etcd has forgotten
NOT_FOUND, OUT_OF_RANGE = 5, 11
MEMBERS_HELP = "where the members of etcd's cluster listen for clients, with commas between them"


class Gone(Exception):
    """No member answers, or the cluster has no majority."""


class NoLease(Exception):
    """The lease is over."""


class Forgotten(Exception):
    """etcd doesn't keep the changes since this revision any more."""


class Unusable(OSError):
    """A member answers with an error."""


@dataclass(frozen=True)
class Value:
    """A key's value, and the revision of its last change: 0 if there is no such key."""

    text: str = ""
    at: int = 0


@dataclass(frozen=True)
class Change:
    """A key that has a new value, or none any more."""

    key: str
    text: str | None


@dataclass
class Puts:
    """What a transaction changes: values by their keys, those that a lease keeps, and keys that are
    removed."""

    values: dict[str, str] = field(default_factory=dict)
    leased: dict[str, str] = field(default_factory=dict)
    lease: int = 0
    removed: Sequence[str] = ()

    def requests(self) -> list[dict]:
        """As etcd wants them."""
        plain = [put_of(key, text) for key, text in self.values.items()]
        kept = [put_of(key, text, lease=str(self.lease)) for key, text in self.leased.items()]
        removed = [{"requestDeleteRange": {"key": shown(key)}} for key in self.removed]
        return [*plain, *kept, *removed]


@dataclass(frozen=True)
class Outcome:
    """What became of a transaction: whether it was made, at which revision, and what keys had that
    were asked for if it wasn't."""

    is_made: bool
    revision: int
    found: dict[str, Value]


def shown(text: str) -> str:
    """A text as the gateway wants it."""
    return base64.b64encode(text.encode()).decode()


def put_of(key: str, text: str, **more: str) -> dict:
    """The request that gives a key this value."""
    return {"requestPut": {"key": shown(key), "value": shown(text), **more}}


def read(text: str) -> str:
    """A text of the gateway."""
    return base64.b64decode(text).decode(errors="replace")


def end_of(prefix: str) -> str:
    """What is after all keys of a prefix."""
    return prefix[:-1] + chr(ord(prefix[-1]) + 1)


def values_of(answer: dict) -> dict[str, Value]:
    """The keys of an answer, with their values."""
    return {
        read(one["key"]): Value(read(one.get("value", "")), int(one["mod_revision"]))
        for one in answer.get("kvs", [])
    }


def values_in(answer: dict) -> dict[str, Value]:
    """The keys that a transaction has read, with their values."""
    found: dict[str, Value] = {}
    for one in answer.get("responses", []):
        found |= values_of(one.get("response_range", {}))
    return found


class Etcd:
    """The members, of which one is asked at a time, and the next one if that doesn't answer."""

    def __init__(self, access: Access, patience: float = PATIENCE):
        self.members, self.patience = list(access.addresses), patience
        self.tls = access.context()
        self.connection: http.client.HTTPConnection | None = None

    @staticmethod
    def add_words(words: Words) -> None:
        """The options about etcd."""
        words.add_argument(
            "--etcd", type=addresses, required=True, metavar="HOST:PORT,..", help=MEMBERS_HELP
        )
        Access.add_files(words, "etcd")

    @classmethod
    def of(cls, given: Any) -> "Etcd":
        """What the options say."""
        Access.check_files(given)
        return cls(Access(given.etcd, given.ca, given.certificate, given.key))

    # the members

    def ask(self, call: str, body: dict, patience: float | None = None) -> dict:
        """The answer of the first member that answers. If an answer is lost, the next member is
        asked the same, so each change has to be one that can be asked for twice."""
        why = ""
        for _ in self.members:
            try:
                return self.answer(call, body, patience)
            except (OSError, http.client.HTTPException, ValueError) as fault:
                why = f"{self.members[0]}: {fault or repr(fault)}"
            self.turn()
        raise Gone(why)

    def turn(self) -> None:
        """Takes the next member."""
        self.close()
        self.members.append(self.members.pop(0))

    def close(self) -> None:
        """Closes the connection."""
        if self.connection:
            self.connection.close()
        self.connection = None

    def answer(self, call: str, body: dict, patience: float | None = None) -> dict:
        """The answer of the member that is asked now. A connection that waited for long may be
        closed at its other end: then a new one is made."""
        if self.connection and self.connection.sock:
            self.connection.sock.settimeout(patience or self.patience)
            try:
                return self.answer_on(self.connection, call, body)
            except (ConnectionError, http.client.HTTPException):
                self.close()
        member = self.members[0]
        self.connection = http.client.HTTPConnection(member.host, member.port)
        self.connection.sock = connected(member, self.tls, self.patience)
        self.connection.sock.settimeout(patience or self.patience)
        return self.answer_on(self.connection, call, body)

    @staticmethod
    def answer_on(connection: http.client.HTTPConnection, call: str, body: dict) -> dict:
        """The answer on this connection."""
        connection.request("POST", f"/v3/{call}", json.dumps(body))
        came = connection.getresponse()
        text = came.read()
        if came.status == http.client.OK:
            return json.loads(text)
        raise fault_of(came.status, text)

    # what is asked

    def get(self, key: str) -> Value:
        """A key's value."""
        return values_of(self.ask("kv/range", {"key": shown(key)})).get(key, Value())

    def many(self, keys: Sequence[str]) -> dict[str, Value]:
        """The values of keys at one moment, of those that are there."""
        asked = [{"requestRange": {"key": shown(key)}} for key in keys]
        return values_in(self.ask("kv/txn", {"success": asked}))

    def all(self, prefix: str, are_many: bool = False) -> tuple[dict[str, Value], int]:
        """All keys of a prefix, and the revision at which they were so."""
        patience = PATIENCE_WITH_PAGES if are_many else None
        first, found, revision = prefix, dict[str, Value](), 0
        while True:
            asked: dict[str, Any] = {"key": shown(first), "range_end": shown(end_of(prefix))}
            asked["limit"] = str(PAGE)
            if revision:
                asked["revision"] = str(revision)
            answer = self.ask("kv/range", asked, patience)
            revision = revision or int(answer["header"]["revision"])
            page = values_of(answer)
            found |= page
            if not answer.get("more"):
                return found, revision
            first = max(page) + "\0"

    def change(self, seen: dict[str, int], puts: Puts, keys: Sequence[str] = ()) -> Outcome:
        """Changes keys, all or nothing, if each key in `seen` was last changed at that revision (0:
        there is none). If one wasn't, the outcome has what `keys` have."""
        compare = [
            {"key": shown(key), "target": "MOD", "result": "EQUAL", "modRevision": str(at)}
            for key, at in seen.items()
        ]
        others = [{"requestRange": {"key": shown(key)}} for key in keys]
        body = {"compare": compare, "success": puts.requests(), "failure": others}
        answer = self.ask("kv/txn", body)
        is_made, revision = answer.get("succeeded", False), int(answer["header"]["revision"])
        return Outcome(is_made, revision, {} if is_made else values_in(answer))

    def lease(self, seconds: int) -> int:
        """A new lease."""
        return int(self.ask("lease/grant", {"TTL": str(seconds)})["ID"])

    def renew(self, lease: int) -> bool:
        """Lets a lease begin anew; whether it was still there."""
        answer = self.ask("lease/keepalive", {"ID": str(lease)})
        return int(answer.get("result", answer).get("TTL", 0)) > 0

    def revoke(self, lease: int) -> None:
        """Ends a lease, and with it the keys that it keeps."""
        try:
            self.ask("lease/revoke", {"ID": str(lease)})
        except NoLease:
            pass

    def changes(self, seen: dict[str, int], pause: float) -> Iterator[list[Change]]:
        """What changes below prefixes, each after a revision, as it comes. An empty list comes
        after each `pause` in which nothing has changed. A member that doesn't answer then, or has
        lost the majority, is left for the next one."""
        faults, why = 0, ""
        while faults < len(self.members):
            watch = Watch(self, seen)
            try:
                for found in watch.changes(pause):
                    faults = 0
                    yield found
            except (OSError, http.client.HTTPException, ValueError) as fault:
                why = f"{self.members[0]}: {fault or repr(fault)}"
                faults += 1
                self.turn()
            finally:
                watch.end()
        raise Gone(why)


class Watch:
    """A stream of changes from the member that is asked now. It is asked for by HTTP 1.0, so that
    the answer is a stream of lines until the connection ends. `seen` has the prefixes, each with
    the revision after which changes are of use: those of two prefixes come in no common order."""

    def __init__(self, etcd: Etcd, seen: dict[str, int]):
        self.etcd, self.seen = etcd, seen
        self.connection: socket.socket | None = None

    def end(self) -> None:
        """Ends it."""
        if self.connection:
            self.connection.close()

    def begin(self) -> socket.socket:
        """Asks for the stream."""
        asked = [
            {
                "key": shown(prefix),
                "range_end": shown(end_of(prefix)),
                "start_revision": str(at + 1),
            }
            for prefix, at in self.seen.items()
        ]
        body = "\n".join(json.dumps({"create_request": one}) for one in asked).encode()
        self.connection = connected(self.etcd.members[0], self.etcd.tls, self.etcd.patience)
        head = f"POST /v3/watch HTTP/1.0\r\nContent-Length: {len(body)}\r\n\r\n"
        self.connection.sendall(head.encode() + body)
        return self.connection

    def changes(self, pause: float) -> Iterator[list[Change]]:
        """What changes."""
        connection = self.begin()
        rest, has_head = b"", False
        connection.settimeout(pause)
        while True:
            try:
                piece = connection.recv(65536)
            except TimeoutError:
                # this needs a member that doesn't hang and has the majority
                asked = {"key": shown(next(iter(self.seen))), "count_only": True}
                self.etcd.answer("kv/range", asked)
                yield []
                continue
            if not piece:
                raise Unusable("the stream has ended")
            rest += piece
            if not has_head:
                head, mark, rest = rest.partition(b"\r\n\r\n")
                if not mark:
                    rest = head
                    continue
                has_head = True
                if head.split()[1:2] != [b"200"]:
                    raise Unusable(head[:80].decode(errors="replace"))
            *lines, rest = rest.split(b"\n")
            if found := [change for line in lines if line for change in self.changes_of(line)]:
                yield found

    def changes_of(self, line: bytes) -> list[Change]:
        """The changes of a line of the stream."""
        result = json.loads(line).get("result", {})
        if int(result.get("compact_revision", 0)):
            raise Forgotten
        if result.get("canceled"):
            raise Unusable(result.get("cancel_reason", "the stream was canceled"))
        found = []
        for event in result.get("events", []):
            value = event["kv"]
            key, is_removed = read(value["key"]), event.get("type") == "DELETE"
            found.append(Change(key, None if is_removed else read(value.get("value", ""))))
            prefix = next(prefix for prefix in self.seen if key.startswith(prefix))
            self.seen[prefix] = max(self.seen[prefix], int(value["mod_revision"]))
        return found


def connected(member: Address, tls: ssl.SSLContext | None, patience: float) -> socket.socket:
    """A connection to a member."""
    made = socket.create_connection((member.host, member.port), timeout=patience)
    try:
        refuse_itself(made)
        made.setsockopt(socket.IPPROTO_TCP, socket.TCP_NODELAY, 1)
        return tls.wrap_socket(made, server_hostname=member.host) if tls else made
    except OSError:
        made.close()
        raise


def fault_of(status: int, text: bytes) -> Exception:
    """What an answer that isn't well means."""
    try:
        answer = json.loads(text)
        code, why = answer.get("code"), str(answer.get("error"))
    except (ValueError, AttributeError):
        code, why = None, text[:200].decode(errors="replace").strip()
    if code == NOT_FOUND and "lease" in why:
        return NoLease(why)
    return Unusable(f"{status} {why}")
