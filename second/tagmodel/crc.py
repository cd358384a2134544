"""CRC per ISO/IEC 15693: reflected polynomial 8408h, start FFFFh, complemented, low byte first."""

import binascii

POLYNOMIAL = 0x8408
START = 0xFFFF

# Byte n with its eight bits in the opposite order.
MIRRORED_BYTES = bytes(int(f"{n:08b}"[::-1], 2) for n in range(256))


def crc_by_bits(data):
    """The CRC as it is defined, bit by bit."""
    value = START
    for byte in data:
        value ^= byte
        for _ in range(8):
            carry = value & 1
            value >>= 1
            if carry:
                value ^= POLYNOMIAL
    return value ^ 0xFFFF


def crc(data):
    """The same number, faster.

    The library's CRC has the same polynomial (1021h is 8408h mirrored) and
    takes the highest bit first, so bytes and result are mirrored for it.
    """
    mirrored = binascii.crc_hqx(bytes(data).translate(MIRRORED_BYTES), START)
    return int(f"{mirrored:016b}"[::-1], 2) ^ 0xFFFF


def with_crc(data):
    """The bytes followed by their CRC, low byte first."""
    return bytes(data) + crc(data).to_bytes(2, "little")


def crc_is_right(frame):
    """Whether the last two bytes are the CRC of those before them."""
    return with_crc(frame[:-2]) == frame
