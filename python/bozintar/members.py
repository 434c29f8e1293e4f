"""Where the members of a cluster are, for example the nodes of a broker, and the files by which its
clients use TLS."""

import argparse
import ssl
from dataclasses import dataclass
from typing import Any

from .words import Address, stop


def addresses(text: str) -> tuple[Address, ...]:
    """HOST:PORT, or several of these with commas between them."""
    found = tuple(Address.read(one) for one in text.split(","))
    for one in found:
        if found.count(one) > 1:
            raise argparse.ArgumentTypeError(f"{one} is named twice")
    return found


@dataclass(frozen=True)
class Access:
    """Where the members are, and the certificates for them."""

    addresses: tuple[Address, ...]
    ca: str | None = None
    certificate: str | None = None
    key: str | None = None

    @staticmethod
    def add_files(words: argparse.ArgumentParser, what: str) -> None:
        """The options about certificates for `what`."""
        files = {
            "ca": f"the authority of {what}'s certificate; without it there is no TLS",
            "certificate": "this client's certificate, with --ca and --key",
            "key": "the key of that certificate",
        }
        for name, text in files.items():
            words.add_argument(f"--{name}", metavar="FILE", help=text)

    @staticmethod
    def check_files(given: Any) -> None:
        """Ends with a line if options about certificates don't go together."""
        if bool(given.certificate) != bool(given.key):
            stop("--certificate and --key go together", 2)
        if given.certificate and not given.ca:
            stop("--certificate needs --ca: TLS is used with it alone", 2)

    def context(self) -> ssl.SSLContext | None:
        """How a client uses TLS; None if it doesn't. It ends with a line if a file can't be
        read."""
        if not self.ca:
            return None
        try:
            made = ssl.create_default_context(cafile=self.ca)
            if self.certificate:
                made.load_cert_chain(self.certificate, self.key)
        except (OSError, ValueError) as why:
            stop(f"the certificates can't be used: {why}")
        return made
