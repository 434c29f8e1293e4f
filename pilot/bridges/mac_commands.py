"""The MAC commands that devices send (TS001-1.0.4 §5)."""

from collections.abc import Iterator

LINK_ADR, DEV_STATUS = 0x03, 0x06
# the length of what a device sends of each, after its identifier
LENGTHS = {
    0x02: 0,
    LINK_ADR: 1,
    0x04: 0,
    0x05: 1,
    DEV_STATUS: 2,
    0x07: 1,
    0x08: 0,
    0x09: 0,
    0x0A: 1,
    0x0D: 0,
}


def sent_commands(commands: bytes) -> Iterator[tuple[int, bytes]]:
    """The whole commands that a device sent, each with its payload. Reading stops at any other
    identifier and at an incomplete payload."""
    place = 0
    while place < len(commands) and commands[place] in LENGTHS:
        end = place + 1 + LENGTHS[commands[place]]
        if end > len(commands):
            return
        yield commands[place], commands[place + 1 : end]
        place = end
