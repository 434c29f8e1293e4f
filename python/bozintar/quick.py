"""Makes the AES of this package quick, for loads of thousands of frames. It takes the AES of the
Python library `cryptography` if that is installed; else the round keys of the last keys are
kept."""

import functools
from typing import Any

from . import aes

try:
    from cryptography.hazmat.primitives.ciphers import Cipher, algorithms, modes

    NAME = "cryptography"
except ImportError:
    NAME = "bozintar.aes"


@functools.lru_cache(maxsize=16384)
def encryptor(key: bytes) -> Any:
    """What encrypts under a key."""
    return Cipher(algorithms.AES(key), modes.ECB()).encryptor()


@functools.lru_cache(maxsize=1024)
def decryptor(key: bytes) -> Any:
    """What decrypts under a key."""
    return Cipher(algorithms.AES(key), modes.ECB()).decryptor()


@functools.lru_cache(maxsize=16384)
def subkeys(key: bytes) -> list[bytes]:
    """The two subkeys of a CMAC (RFC 4493 §2.3)."""
    number, found = int.from_bytes(encrypt(key, bytes(16)), "big"), []
    for _ in range(2):
        number <<= 1
        number = number ^ (1 << 128) ^ 0x87 if number >> 128 else number
        found.append(number.to_bytes(16, "big"))
    return found


def encrypt(key: bytes, block: bytes) -> bytes:
    """The cipher."""
    return encryptor(key).update(block)


def decrypt(key: bytes, block: bytes) -> bytes:
    """The inverse cipher."""
    return decryptor(key).update(block)


def xored(left: bytes, right: bytes) -> bytes:
    """Two byte strings of one length, xored."""
    number = int.from_bytes(left, "big") ^ int.from_bytes(right, "big")
    return number.to_bytes(len(left), "big")


def cmac(key: bytes, message: bytes) -> bytes:
    """The code of RFC 4493 §2.4: the last block of a CBC."""
    whole = len(message) > 0 and len(message) % 16 == 0
    if not whole:
        message += b"\x80" + bytes(-(len(message) + 1) % 16)
    message = message[:-16] + xored(message[-16:], subkeys(key)[0 if whole else 1])
    chain = Cipher(algorithms.AES(key), modes.CBC(bytes(16))).encryptor()
    return chain.update(message)[-16:]


@functools.cache
def use() -> None:
    """Lets this process compute so from now on, and compares with the vectors of the standards."""
    if NAME == "cryptography":
        aes.encrypt, aes.decrypt = encrypt, decrypt
        aes.cmac, aes.xored = cmac, xored
    else:
        aes.round_keys = functools.lru_cache(maxsize=16384)(aes.round_keys)
    aes.check()
