"""What files of certificates say that Python's own ssl doesn't show: when one ends, and which ones
a revocation list (CRL, RFC 5280 §5) has, which ssl only refuses at a handshake."""

import ssl
import subprocess
from pathlib import Path

HEAD, TAIL = "-----BEGIN X509 CRL-----", "-----END X509 CRL-----"
# tags of DER
INTEGER, SEQUENCE, TIMES = 0x02, 0x30, (0x17, 0x18)
# how long the program openssl may take, in seconds
PATIENCE = 10
ENDS = "pilot_certificate_end_seconds"
ENDS_HELP = "when it ends, in Unix time; 0 if it can't be read"


class NoList(ValueError):
    """This is no revocation list."""


def parts_of(content: bytes) -> list[tuple[int, bytes]]:
    """The elements of a DER sequence's content, as tags and contents."""
    found, place = [], 0
    while place < len(content):
        tag, length, place = content[place], content[place + 1], place + 2
        if length > 0x80:
            end = place + length - 0x80
            length, place = int.from_bytes(content[place:end], "big"), end
        if place + length > len(content):
            raise NoList("it is cut off")
        found.append((tag, content[place : place + length]))
        place += length
    return found


def numbers_in(der: bytes) -> set[int]:
    """The serial numbers in a list. They are in the one sequence after its two times, or after its
    one: each is the first element of its entry."""
    ((_, whole),) = parts_of(der)
    parts = parts_of(parts_of(whole)[0][1])
    last = max(place for place, (tag, _) in enumerate(parts) if tag in TIMES)
    entries = [content for tag, content in parts[last + 1 :] if tag == SEQUENCE]
    first = [parts_of(entry)[0] for content in entries for _, entry in parts_of(content)]
    if any(tag != INTEGER for tag, _ in first):
        raise NoList("an entry has no serial number")
    return {int.from_bytes(number, "big") for _, number in first}


def revoked_in(file: str) -> set[int]:
    """The serial numbers of revoked certificates in a file of lists (PEM)."""
    with open(file, encoding="ascii", errors="replace") as opened:
        lists = opened.read().split(HEAD)[1:]
    if not lists:
        raise NoList(f"{file} has no revocation list (PEM)")
    try:
        # the same text form, under the name that the library reads
        bodies = [ssl.PEM_HEADER + one.partition(TAIL)[0] + ssl.PEM_FOOTER for one in lists]
        return set().union(*(numbers_in(ssl.PEM_cert_to_DER_cert(body)) for body in bodies))
    except (ValueError, IndexError) as why:
        raise NoList(f"{file} has no revocation list that can be read: {why}") from None


def server_context(ca: str, certificate: str, key: str, crl: str | None) -> ssl.SSLContext:
    """How a server checks its clients, each of which needs a certificate of this authority that
    isn't on the list, if there is one."""
    context = ssl.SSLContext(ssl.PROTOCOL_TLS_SERVER)
    context.minimum_version = ssl.TLSVersion.TLSv1_2
    context.options |= ssl.OP_NO_RENEGOTIATION
    context.verify_mode = ssl.CERT_REQUIRED
    context.load_cert_chain(certificate, key)
    context.load_verify_locations(ca)
    if crl:
        context.load_verify_locations(crl)
        context.verify_flags |= ssl.VERIFY_CRL_CHECK_LEAF
    return context


def end_of(file: Path) -> int:
    """When a certificate or a list ends, in Unix time; 0 if it can't be read."""
    what = ["crl", "-nextupdate"] if file.suffix == ".crl" else ["x509", "-enddate"]
    said = ["openssl", *what, "-noout", "-in", str(file)]
    try:
        ended = subprocess.run(said, capture_output=True, text=True, timeout=PATIENCE, check=True)
        return ssl.cert_time_to_seconds(ended.stdout.strip().partition("=")[2])
    except (OSError, subprocess.SubprocessError, ValueError):
        return 0
