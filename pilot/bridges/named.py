"""The list of gateways that may connect: a file with a line for each."""

import ipaddress
from dataclasses import dataclass
from typing import Union

from bozintar.words import EUI

from . import lines

Network = Union[ipaddress.IPv4Network, ipaddress.IPv6Network]


@dataclass(frozen=True)
class Named:
    """A gateway of the list, and the networks that its datagrams may come from; any if there are
    none."""

    eui: str
    networks: tuple[Network, ...] = ()

    def may_come_from(self, host: str) -> bool:
        """Whether a datagram from this address may be the gateway's."""
        if not self.networks:
            return True
        address = ipaddress.ip_address(host)
        # a socket of IPv6 shows an address of IPv4 so
        bare = getattr(address, "ipv4_mapped", None) or address
        return any(bare in network for network in self.networks)


def network_of(word: str) -> Network:
    """An address, or a network with the length of its prefix."""
    try:
        return ipaddress.ip_network(word)
    except ValueError as why:
        raise ValueError(f"no address or network: {why}") from None


def named(line: str) -> Named:
    """The gateway of a line: its EUI and, after it, any number of addresses and networks."""
    eui, *words = line.replace(",", " ").split()
    if not EUI.fullmatch(eui):
        raise ValueError(f"{eui[:40]} is no EUI of 16 hex digits")
    return Named(eui.upper(), tuple(map(network_of, words)))


def entry(line: str) -> tuple[str, Named]:
    """The gateway of a line, by its EUI."""
    gateway = named(line)
    return gateway.eui, gateway


def read(file: str) -> dict[str, Named]:
    """The gateways of a file by their EUIs; # begins a comment. A `ValueError` says which line is
    wrong."""
    return lines.read(lines.table(file, entry))
