"""The commands of `stores`: each returns its exit status."""

import argparse
import os
import secrets
from collections.abc import Iterable

from bozintar.counts import replace
from bozintar.logs import complain
from bozintar.words import EUI
from bridges import devices

from . import files
from .asking import Way, of_files, shown
from .etcd import MOST_CHANGES, Etcd, Puts, Value
from .holds import Seen, seen
from .judging import Found, Word, judge
from .records import (
    DEVICE,
    FENCE,
    NET_ID,
    SERVING,
    STOPPED,
    STORE,
    Fence,
    Serving,
    name_of,
    readable,
)


def served(etcd: Etcd) -> dict[str, Serving]:
    """The stores that are served now."""
    found = servings(etcd)
    return {name: serving for name, serving in found.items() if serving.address}


def servings(etcd: Etcd) -> dict[str, Serving]:
    """Where stores are served, also those that are about to be."""
    return readable(etcd.all(SERVING)[0], Serving)


def net_ids(etcd: Etcd) -> dict[str, str]:
    """The NetIDs of all stores, by their names."""
    return {name_of(key): value.text for key, value in sorted(etcd.all(STORE)[0].items())}


def add(etcd: Etcd, given: argparse.Namespace) -> int:
    """The cluster knows one more store."""
    key = STORE + given.name
    outcome = etcd.change({key: 0}, Puts({key: given.netid}), [key])
    there = outcome.found.get(key, Value()).text
    if not outcome.is_made and there != given.netid:
        complain(f"{given.name} is there already, with NetID {there}")
        return 1
    print(f"{given.name} {given.netid} is {'added' if outcome.is_made else 'there already'}")
    same = [name for name, other in net_ids(etcd).items() if other == given.netid]
    if len(same) > 1:
        print(f"{', '.join(same)} have one NetID: no gateway may hear two of them (--hearing)")
    return 0


def adopt(etcd: Etcd, given: argparse.Namespace) -> int:
    """A file is the store's first one: it may be served from now on."""
    return put_file(etcd, given, Word(adopts=True))


def replace_file(etcd: Etcd, given: argparse.Namespace) -> int:
    """A file takes the place of the one that was served in this life."""
    return put_file(etcd, given, Word(replaces=given.life))


def put_file(etcd: Etcd, given: argparse.Namespace, word: Word) -> int:
    """The fence has these bytes, as after a clean end, if the operator's word allows it."""
    try:
        found = files.found(given.file, "-", "")
    except (files.NoStore, OSError) as fault:
        complain(f"{given.file} can't be read: {fault}")
        return 1
    there, key = seen(etcd, given.name), FENCE + given.name
    why = judge(there.net_id, there.fence, found, word)
    if there.serving:
        why = f"it is served by {there.serving.host}"
    elif word.adopts and there.fence:
        why = "the fence has a file of this store already"
    if not why:
        puts = Puts({key: ended(there, found, given).text()})
        known_at = {key: there.fence_at, SERVING + given.name: 0}
        why = "" if etcd.change(known_at, puts).is_made else "the fence has changed meanwhile"
    if why:
        complain(f"{given.name} is refused: {why}")
        return 1
    print(f"{given.name} may be served from {given.file}, or a copy of it, at {found.number}")
    return 0


def ended(there: Seen, found: Found, given: argparse.Namespace) -> Fence:
    """What the fence has of a file that may be served next."""
    return Fence(
        life=there.fence.life if there.fence else 0,
        state=STOPPED,
        number=found.number,
        home=found.home,
        digest=found.digest,
        keeper=secrets.token_hex(8),
        host=given.host or os.uname().nodename,
        file=os.path.abspath(given.file),
        generation=found.generation,
    )


def claim(etcd: Etcd, given: argparse.Namespace) -> int:
    """The devices of a file are the store's, each that no other store has."""
    if not etcd.get(STORE + given.name).text:
        complain(f"there is no store {given.name}: stores add")
        return 1
    found = devices.read(given.file)
    for complaint in found.complaints():
        complain(complaint if given.file in complaint else f"{given.file}: {complaint}")
    euis = list(dict.fromkeys(row.dev_eui for row in found.rows))
    new, before, refused = 0, 0, 0
    for first in range(0, len(euis), MOST_CHANGES):
        part = euis[first : first + MOST_CHANGES]
        others = claim_some(etcd, given.name, part)
        refused += len([name for name in others.values() if name != given.name])
        before += len([name for name in others.values() if name == given.name])
        new += len(part) - len(others)
        for eui, name in others.items():
            if name != given.name:
                complain(f"{eui} is in {name}")
    print(f"claimed {new}, before {before}, refused {refused}")
    return 1 if refused or found.faults else 0


def claim_some(etcd: Etcd, name: str, euis: list[str]) -> dict[str, str]:
    """Claims devices, each if nobody has it; those that somebody has, with the store. Another one
    may claim the same at this moment, so it is done until all are known."""
    taken: dict[str, str] = {}
    while free := [eui for eui in euis if eui not in taken]:
        keys = [DEVICE + eui for eui in free]
        puts = Puts(dict.fromkeys(keys, name))
        outcome = etcd.change(dict.fromkeys(keys, 0), puts, keys)
        if outcome.is_made:
            break
        taken |= {name_of(key): value.text for key, value in outcome.found.items()}
    return taken


def status(etcd: Etcd, _given: argparse.Namespace) -> int:
    """Prints a line for each store."""
    fences, now = readable(etcd.all(FENCE)[0], Fence), servings(etcd)
    for name, net_id in net_ids(etcd).items():
        address = now[name].address if name in now else ""
        fence = fences.get(name)
        said = "new life 0 number 0 - -"
        if fence:
            said = (
                f"{fence.state} life {fence.life} number {fence.number} {fence.host} {fence.file}"
            )
        print(f"{name} {net_id} {address or '-'} {said}")
    return 0


def where(etcd: Etcd, given: argparse.Namespace) -> int:
    """Prints the store of a device, or the stores that a frame is for."""
    if EUI.fullmatch(given.what):
        name = etcd.get(DEVICE + given.what.upper()).text
        print(name or "no store")
        return 0 if name else 1
    bits = int(given.what, 16) >> 25
    stores = [name for name, net_id in net_ids(etcd).items() if int(net_id, 16) & 0x3F == bits]
    for name in stores:
        print(name)
    return 0 if stores else 1


def check(etcd: Etcd, given: argparse.Namespace) -> int:
    """Prints devices that are in two lists, and those that aren't claimed for their store."""
    twice, other, counted, before = 0, 0, 0, dict[str, str]()
    claims = {name_of(key): value.text for key, value in etcd.all(DEVICE, are_many=True)[0].items()}
    lists: dict[str, list[str] | None] = dict(of_files(given.list))
    if not lists:
        lists = way_of(given).lists(served(etcd))
    for name, lines in lists.items():
        for eui in euis_of(lines or []):
            counted += 1
            if eui in before:
                twice += 1
                print(f"{eui} is in {before[eui]} and in {name}")
            elif not given.list and claims.get(eui) != name:
                other += 1
                print(f"{eui} is in {name}, and is claimed for {claims.get(eui, 'no store')}")
            before[eui] = name
    unasked = [name for name, lines in lists.items() if lines is None]
    print(f"devices {counted}, twice {twice}, not claimed {other}, stores not asked {len(unasked)}")
    return 1 if twice or other or unasked else 0


def euis_of(lines: Iterable[str]) -> list[str]:
    """The devices of a list's lines."""
    words = [line.split() for line in lines]
    return [line[1] for line in words if len(line) > 1 and EUI.fullmatch(line[1])]


def list_all(etcd: Etcd, given: argparse.Namespace) -> int:
    """Prints the devices of all stores, or writes them to a file."""
    lists = way_of(given).lists(served(etcd))
    lines = [f"{name} {line}\n" for name in lists for line in lists[name] or []]
    if given.out:
        replace(given.out, "".join(lines))
    else:
        print("".join(lines), end="")
    return 1 if None in lists.values() else 0


def watch(etcd: Etcd, given: argparse.Namespace) -> int:
    """Prints what all servers report."""
    way_of(given).watch(served(etcd), shown)
    return 0


def way_of(given: argparse.Namespace) -> Way:
    """How servers are asked."""
    return Way(given.ssh, given.lnsd, given.host or os.uname().nodename)


def net_id(text: str) -> str:
    """A NetID that a store may have."""
    if not NET_ID.fullmatch(text.upper()):
        raise argparse.ArgumentTypeError(f"{text} is no NetID from 000000 to 00003F")
    return text.upper()


def what(text: str) -> str:
    """A DevEUI or a DevAddr."""
    is_address = len(text) == 8 and all(letter in "0123456789abcdefABCDEF" for letter in text)
    if not is_address and not EUI.fullmatch(text):
        raise argparse.ArgumentTypeError(f"{text} is no DevEUI and no DevAddr")
    return text
