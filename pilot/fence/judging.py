"""Whether the fence lets a file be served, and if it doesn't, why."""

from dataclasses import dataclass

from .records import Fence

# the version of the records that this package's lnsd writes
RECORDS = 2


@dataclass(frozen=True)
class Found:
    """A file: the NetID of its store, which file it is, the SHA-256 of its bytes, the number of its
    last durable decision, and of its live area the generation and the version of records."""

    net_id: str
    home: str
    digest: str
    number: int
    generation: int = 0
    version: int = RECORDS


@dataclass(frozen=True)
class Word:
    """The operator's word: this file becomes the store's first one; or this life of the store is
    over, and the file that was served in it is never served again."""

    adopts: bool = False
    replaces: int | None = None


def judge(net_id: str, fence: Fence | None, found: Found, word: Word) -> str:
    """Why this file isn't served as the store of this NetID; nothing if it may be."""
    if not net_id:
        return "the cluster doesn't know this store: stores add"
    if found.net_id != net_id:
        return f"another store's file: it has NetID {found.net_id}, and the store has {net_id}"
    if fence is None:
        if word.adopts:
            return ""
        return "nobody has served this store yet: --adopt makes this file the store's"
    if word.replaces is not None:
        if word.replaces == fence.life:
            return ""
        return f"--replace names life {word.replaces}, and the store is in life {fence.life}"
    return by_fence(fence, found)


def by_fence(fence: Fence, found: Found) -> str:
    """Why this file isn't the one that the fence has."""
    if fence.has_ended_well:
        if found.digest == fence.digest:
            return ""
        return f"another copy, at {found.number}: the store ended well at {fence.number}"
    if found.home != fence.home:
        last = f"{fence.file} on {fence.host}"
        return f"another copy: the store was served last from {last}, and didn't end well"
    if found.number < fence.number:
        return f"older than what was durable: it is at {found.number}, and {fence.number} was seen"
    if found.generation < fence.generation:
        return f"older: it is at generation {found.generation}, and {fence.generation} was seen"
    if found.version < RECORDS:
        which = f"its records have version {found.version}, and {RECORDS} can't be undone"
        return f"{which}: lnsd list {fence.file} migrates them"
    return ""
