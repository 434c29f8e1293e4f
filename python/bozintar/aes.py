"""AES-128 (FIPS 197) and AES-CMAC (RFC 4493), independent of the network server's. `quick` makes it
quick."""

from collections.abc import Sequence


def doubled(value: int) -> int:
    """A byte times x in GF(2^8), modulo x^8 + x^4 + x^3 + x + 1 (FIPS 197 §4.2)."""
    value <<= 1
    return value ^ 0x11B if value & 0x100 else value


def product(left: int, right: int) -> int:
    """The product of two bytes in GF(2^8)."""
    total = 0
    while right:
        if right & 1:
            total ^= left
        left, right = doubled(left), right >> 1
    return total


def substituted(value: int) -> int:
    """A byte's inverse under the affine map of SubBytes (FIPS 197 §5.1.1)."""
    inverse = next((other for other in range(256) if product(value, other) == 1), 0)
    turned = inverse * 0x101
    return (turned ^ turned >> 4 ^ turned >> 5 ^ turned >> 6 ^ turned >> 7) & 0xFF ^ 0x63


S_BOX = bytes(substituted(value) for value in range(256))
INVERSE_S_BOX = bytes(S_BOX.index(value) for value in range(256))
# where each byte of a block comes from in ShiftRows; bytes stand column by column
SHIFTED = [(4 * (column + row) + row) % 16 for column in range(4) for row in range(4)]
MIXING = [[product(factor, value) for value in range(256)] for factor in range(16)]


def xored(left: bytes, right: bytes) -> bytes:
    """Two byte strings of one length, xored."""
    return bytes(one ^ other for one, other in zip(left, right, strict=True))


def round_keys(key: bytes) -> list[bytes]:
    """The eleven round keys (FIPS 197 §5.2)."""
    words = [key[place : place + 4] for place in range(0, 16, 4)]
    constant = 1
    while len(words) < 44:
        word = words[-1]
        if len(words) % 4 == 0:
            word = (word[1:] + word[:1]).translate(S_BOX)
            word = bytes([word[0] ^ constant]) + word[1:]
            constant = doubled(constant)
        words.append(xored(words[-4], word))
    return [b"".join(words[place : place + 4]) for place in range(0, 44, 4)]


def mixed(block: Sequence[int], factors: Sequence[int]) -> bytes:
    """Each column times a circulant matrix (FIPS 197 §5.1.3, §5.3.3)."""
    out = bytearray()
    for column in range(0, 16, 4):
        for row in range(4):
            total = 0
            for place in range(4):
                total ^= MIXING[factors[(place - row) % 4]][block[column + place]]
            out.append(total)
    return bytes(out)


def encrypt(key: bytes, block: bytes) -> bytes:
    """The cipher (FIPS 197 §5.1)."""
    first, *middle, last = round_keys(key)
    block = xored(block, first)
    for round_key in middle:
        block = block.translate(S_BOX)
        block = mixed([block[place] for place in SHIFTED], (2, 3, 1, 1))
        block = xored(block, round_key)
    block = block.translate(S_BOX)
    return xored(bytes(block[place] for place in SHIFTED), last)


def decrypt(key: bytes, block: bytes) -> bytes:
    """The inverse cipher (FIPS 197 §5.3)."""
    last, *middle, first = reversed(round_keys(key))
    block = xored(block, last)
    for round_key in [*middle, first]:
        block = bytes(block[SHIFTED.index(place)] for place in range(16))
        block = xored(block.translate(INVERSE_S_BOX), round_key)
        if round_key is not first:
            block = mixed(block, (14, 11, 13, 9))
    return block


def cmac(key: bytes, message: bytes) -> bytes:
    """The message authentication code of RFC 4493 §2.4."""
    subkey = encrypt(key, bytes(16))
    whole = len(message) > 0 and len(message) % 16 == 0
    for _ in range(1 if whole else 2):
        number = int.from_bytes(subkey, "big") << 1
        number = number ^ (1 << 128) ^ 0x87 if number >> 128 else number
        subkey = number.to_bytes(16, "big")
    if not whole:
        message += b"\x80" + bytes(-(len(message) + 1) % 16)
    chained = bytes(16)
    for place in range(0, len(message), 16):
        block = xored(chained, message[place : place + 16])
        chained = encrypt(key, xored(block, subkey) if place + 16 == len(message) else block)
    return chained


# key, block, encrypted: FIPS 197 appendices B and C.1
CIPHER_VECTORS = [
    (
        "2B7E151628AED2A6ABF7158809CF4F3C",
        "3243F6A8885A308D313198A2E0370734",
        "3925841D02DC09FBDC118597196A0B32",
    ),
    (
        "000102030405060708090A0B0C0D0E0F",
        "00112233445566778899AABBCCDDEEFF",
        "69C4E0D86A7B0430D8CDB78070B4C55A",
    ),
]
# message, code under the first key above: RFC 4493 §4
CMAC_VECTORS = [
    ("", "BB1D6929E95937287FA37D129B756746"),
    ("6BC1BEE22E409F96E93D7E117393172A", "070A16B46B4D4144F79BDD9DD04A287C"),
    (
        "6BC1BEE22E409F96E93D7E117393172AAE2D8A571E03AC9C9EB76FAC45AF8E5130C81C46A35CE411",
        "DFA66747DE9AE63030CA32611497C827",
    ),
]


def check() -> None:
    """Compares with the vectors of the standards; raises ValueError if one differs."""
    for vector in CIPHER_VECTORS:
        key, block, encrypted = map(bytes.fromhex, vector)
        if encrypt(key, block) != encrypted or decrypt(key, encrypted) != block:
            raise ValueError("AES differs from FIPS 197")
    for message, code in CMAC_VECTORS:
        if cmac(bytes.fromhex(CIPHER_VECTORS[0][0]), bytes.fromhex(message)).hex() != code.lower():
            raise ValueError("CMAC differs from RFC 4493")
