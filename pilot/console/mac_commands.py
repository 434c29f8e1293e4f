"""MAC commands in words (TS001-1.0.4 §5), as far as the console knows them."""

from adapting.rule import MASK_ACK, POWER_ACK, RATE_ACK, Setting
from bridges.mac_commands import DEV_STATUS, LINK_ADR

# the bits of LinkADRAns, of which each accepts a part of the request (§5.2)
PARTS = ((POWER_ACK, "power"), (RATE_ACK, "data rate"), (MASK_ACK, "channels"))


def requests(commands: str) -> str:
    """MAC commands for a device, which are in hex."""
    return in_words(commands, {LINK_ADR: (5, link_adr_req), DEV_STATUS: (1, dev_status_req)})


def answers(commands: str) -> str:
    """MAC commands of a device, which are in hex."""
    return in_words(commands, {LINK_ADR: (2, link_adr_ans), DEV_STATUS: (3, dev_status_ans)})


def in_words(commands: str, known: dict) -> str:
    """Each command by its length and its words. From one that isn't known on it stays hex."""
    try:
        rest = bytes.fromhex(commands)
    except ValueError:
        return commands
    found = []
    while rest:
        length, words_of = known.get(rest[0], (0, None))
        if not words_of or len(rest) < length:
            found.append(rest.hex().upper())
            break
        found.append(words_of(rest[:length]))
        rest = rest[length:]
    return ", ".join(found)


def link_adr_req(command: bytes) -> str:
    """LinkADRReq: its first byte has the data rate and the power."""
    return f"LinkADRReq {Setting(command[1] >> 4, command[1] & 15)}"


def link_adr_ans(command: bytes) -> str:
    """LinkADRAns: a bit for each part that the device accepts."""
    refused = [name for bit, name in PARTS if not command[1] & bit]
    return f"LinkADRAns, {'refused: ' + ', '.join(refused) if refused else 'accepted'}"


def dev_status_req(_command: bytes) -> str:
    """DevStatusReq, which has no more bytes."""
    return "DevStatusReq"


def dev_status_ans(command: bytes) -> str:
    """DevStatusAns: battery and margin (§5.5)."""
    margin = (command[2] & 0x3F) - (0x40 if command[2] & 0x20 else 0)
    return f"DevStatusAns, margin {margin} dB"
