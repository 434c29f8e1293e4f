"""Who may see pages, and who may send forms. The console has no passwords and no logins: a client
on loopback may read, and any other client shows a certificate of the pilot's authority."""

import hmac
import re
import secrets
import ssl
from collections.abc import Mapping
from dataclasses import dataclass
from typing import Any

from bozintar.certificates import server_context

LOOPBACK = ("127.0.0.1", "::1")
NAME = re.compile("(operator|reader)-([a-z0-9](?:[a-z0-9-]{0,30}[a-z0-9])?)")
POLICY = (
    "default-src 'none'; script-src 'self'; style-src 'self'; img-src 'self'; "
    "connect-src 'self'; form-action 'self'; frame-ancestors 'none'; base-uri 'none'"
)
# `same-origin`: with `no-referrer` browsers send `Origin: null` with forms
HEADERS = {
    "Content-Security-Policy": POLICY,
    "X-Content-Type-Options": "nosniff",
    "Referrer-Policy": "same-origin",
    "Cross-Origin-Opener-Policy": "same-origin",
    "Cross-Origin-Resource-Policy": "same-origin",
    "Cache-Control": "no-store",
}


class Refused(Exception):
    """A client may not do this: the HTTP status, and why."""

    def __init__(self, status: int, why: str):
        super().__init__(why)
        self.status, self.why = status, why


@dataclass(frozen=True)
class User:
    """The client, by its certificate's name."""

    name: str
    may_write: bool


class Access:
    """The rules of one console, which is called by these hosts."""

    def __init__(self, hosts: set[str], is_secure: bool, loopback_writes: bool):
        self.hosts = {host.lower() for host in hosts}
        self.is_secure, self.loopback_writes = is_secure, loopback_writes
        self.secret = secrets.token_bytes(32)

    def check_host(self, host: str) -> None:
        """A page of another site can let its own name lead to this address (DNS rebinding). The
        browser then sends that name as Host."""
        name = re.fullmatch(r"(\[[0-9A-Fa-f:.]+\]|[^:]+)(?::\d{1,5})?", host)
        if not name or name[1].strip("[]").lower() not in self.hosts:
            raise Refused(421, "This isn't a name of this console. See its option --host.")

    def user(self, certificate: Mapping[str, Any] | None) -> User:
        """The client, of whose certificate the handshake has checked that it is the authority's."""
        if not self.is_secure:
            return User("loopback", self.loopback_writes)
        subject = (certificate or {}).get("subject", ())
        names = [value for part in subject for key, value in part if key == "commonName"]
        found = NAME.fullmatch(names[0]) if len(names) == 1 else None
        if not found:
            raise Refused(403, "This certificate is neither an operator's nor a reader's.")
        return User(names[0], found[1] == "operator")

    def token(self, user: User) -> str:
        """What each form of a user's pages has, and no other site knows."""
        return hmac.new(self.secret, user.name.encode(), "sha256").hexdigest()

    def check_origin(self, user: User, host: str, headers: Mapping[str, str]) -> None:
        """A form has to come from an operator, and from a page of this console: the browser sends
        the certificate with the forms of any page."""
        if not user.may_write:
            raise Refused(403, f"{user.name} may read, and not write.")
        scheme = "https" if self.is_secure else "http"
        if headers.get("Origin", "").lower() != f"{scheme}://{host}".lower():
            raise Refused(403, "This form doesn't come from a page of this console.")
        if headers.get("Sec-Fetch-Site") != "same-origin":
            raise Refused(403, "This form comes from another site, or from an old browser.")

    def check_token(self, user: User, token: str) -> None:
        """A form has to have its token, which lasts until the console ends."""
        if not hmac.compare_digest(token.encode(), self.token(user).encode()):
            raise Refused(403, "This form is too old. Load the page again.")


def secure(certificate: str, key: str, clients: str, crl: str | None = None) -> ssl.SSLContext:
    """TLS with certificates of both ends. `clients` is the authority of the browsers' ones, and
    `crl` its list of revoked ones."""
    return server_context(clients, certificate, key, crl)
