"""Fields of commands, chosen near the edges of a record given as 72 bytes."""

from tagmodel.boundary import SESSION, STATE
from tagmodel.image import AFI, PASSWORD_BYTES, PASSWORDS, REGISTERS, UID
from tagmodel.registers import AREA_REGISTERS, LOCK_CFG_ADDRESS
from tagmodel.sizes import BLOCK_BYTES, SIZES

from .frames import ADDRESSED, PLAIN, SELECT_MODE, inventory

LISTED = (0x02, 0x20, 0x21, 0x22, 0x23, 0x24, 0x25, 0x26, 0x27, 0x28, 0x29, 0x2A, 0x2C,
          0x30, 0x31, 0x32, 0x33, 0x34, 0x3C, 0xA0, 0xA1, 0xB1, 0xB3)
HELD_COMMANDS = (0x21, 0x22, 0x24, 0x27, 0x28, 0x29, 0x2A, 0x31, 0x32, 0x34, 0xA1, 0xB1)
ADDRESSED_ONLY = (0x02, 0x25)
QUIET_BYTE, SELECTED_BYTE = 1, 2


def size_of_record(record):
    """The size that byte 0 marks."""
    return SIZES[record[0] - 1]


def uid_of(record):
    """The UID, lowest byte first."""
    return record[UID]


def password_of(record, number):
    """The eight bytes of one password."""
    start = PASSWORDS + PASSWORD_BYTES * number
    return record[start:start + PASSWORD_BYTES]


def ends_of(record):
    """ENDA1, ENDA2, ENDA3."""
    return record[REGISTERS][1::2]


def edge_block(dice, record, width):
    """A block at an edge of an area, of the memory or of the one-byte range, or any block."""
    blocks = size_of_record(record).blocks
    edges = [0, 1, 2, 0xFE, 0xFF, 0x100, blocks - 2, blocks - 1, blocks, 0xFFFF, dice.below(blocks)]
    for end in ends_of(record):
        edges += [8 * end + step for step in range(4, 9)]
    block = dice.choose(edges)
    return block % 0x100 if width == 1 else block


def block_field(dice, record, width):
    """One block number of one or two bytes."""
    return edge_block(dice, record, width).to_bytes(width, "little")


def read_fields(dice, record, width):
    """First block and count less one; a long count once in eight times."""
    most = 256 ** width - 1
    count = dice.choose([most, 255, size_of_record(record).blocks - 1]) if dice.one_in(8) else dice.below(12)
    return block_field(dice, record, width) + min(count, most).to_bytes(width, "little")


def write_fields(dice, record, width):
    """First block, count less one, data; seldom more than four blocks."""
    count = dice.choose([5, 6, 16]) if dice.one_in(8) else 1 + dice.below(4)
    head = block_field(dice, record, width) + (count - 1).to_bytes(width, "little")
    return head + dice.bytes(BLOCK_BYTES * count)


def lock_fields(dice, record, width):
    """A block to be locked: mostly 0 or 1."""
    return dice.choose([0, 1, 0, 1, 2, 0xFF, edge_block(dice, record, width)]).to_bytes(width, "little")


def password_fields(dice, record):
    """A number with its right password, or a wrong one, or a number over 3."""
    session = record[SESSION]
    number = session - 1 if session and dice.one_in(2) else dice.below(4)
    value = password_of(record, number)
    kind = dice.below(8)
    if kind == 0:
        return bytes((dice.choose([4, 5, 0x80, 0xFF]),)) + value
    if kind == 1:
        value = bytes((value[0] ^ 1,)) + value[1:]
    if kind == 2:
        value = value[:7] + bytes((value[7] ^ 0x80,))
    return bytes((number,)) + value


def new_password_fields(dice, record):
    """Fields of a presentation with another value to be written."""
    return password_fields(dice, record)[:1] + dice.choose([bytes(8), dice.bytes(8), password_of(record, 1)])


def address_field(dice):
    """A register address, mostly a known one."""
    return dice.choose([0x04, 0x05, 0x06, 0x07, 0x08, 0x09, 0x0A, 0x0F] * 2 + [0x00, 0x03, 0x0B, 0x0E, 0x10, 0xFF])


def register_fields(dice, record):
    """An address, and a value near what it allows."""
    address = address_field(dice)
    ends, last_end = ends_of(record), size_of_record(record).last_end
    if address == LOCK_CFG_ADDRESS:
        values = [0x00, 0x01, 0x02, 0xFF]
    elif address in AREA_REGISTERS and address % 2 == 0:
        values = [dice.below(16), dice.below(16), dice.below(16), 0x0F, 0x10, 0xFF]
    else:
        values = [0x00, 0x01, last_end - 1, last_end // 2, 0xFF, last_end + 1] + [last_end] * 5
        values += [end + step for end in ends for step in (0, 1)]
    return bytes((address, dice.choose(values) & 0xFF))


def fields_for(dice, record, code):
    """Fields of the right length for a listed command."""
    width = 2 if 0x30 <= code < 0x40 else 1
    if code in (0x20, 0x30):
        return block_field(dice, record, width)
    if code in (0x21, 0x31):
        return block_field(dice, record, width) + dice.bytes(BLOCK_BYTES)
    if code in (0x22, 0x32):
        return lock_fields(dice, record, width)
    if code in (0x23, 0x33, 0x2C, 0x3C):
        return read_fields(dice, record, width)
    if code in (0x24, 0x34):
        return write_fields(dice, record, width)
    if code in (0x27, 0x29):
        return dice.choose([b"\x00", b"\x30", b"\x35", dice.bytes(1)])
    if code == 0xA0:
        return bytes((address_field(dice),))
    if code == 0xA1:
        return register_fields(dice, record)
    if code == 0xB1:
        return new_password_fields(dice, record)
    return password_fields(dice, record) if code == 0xB3 else b""


def heard_mode(dice, record, code):
    """An addressing mode that the record's state hears."""
    if code in ADDRESSED_ONLY or record[STATE] == QUIET_BYTE:
        return ADDRESSED
    if record[STATE] == SELECTED_BYTE:
        return dice.choose([PLAIN, ADDRESSED, SELECT_MODE])
    return dice.choose([PLAIN, ADDRESSED])


def asked_inventory(dice, record):
    """An Inventory that mostly matches the UID and the AFI."""
    one_slot = dice.one_in(4)
    length = dice.choose([0, 1, 3, 4, 7, 8, 9, 31, 32, 59, 60, 61, 63, 64, 65, 255, dice.below(65)])
    uid = int.from_bytes(uid_of(record), "little")
    mask = uid & (1 << min(length, 64)) - 1
    mask_bytes = (length + 7) // 8
    if dice.one_in(3):
        mask |= dice.roll() >> length << length
    if length and dice.one_in(5):
        mask ^= 1 << dice.below(length)
    afi = dice.choose([None, None, 0x00, record[AFI], record[AFI] & 0xF0, dice.below(256)])
    return inventory(length, (mask & 256 ** mask_bytes - 1).to_bytes(mask_bytes, "little"), one_slot, afi)
