"""The tag record: the lasting parts (without the user memory) and the passing parts."""

from typing import NamedTuple, Optional, Tuple

READY, QUIET, SELECTED = "Ready", "Quiet", "Selected"

# The five lock bits, as in image byte 11.
LOCK_BLOCK = (0x01, 0x02)
LOCK_AFI = 0x04
LOCK_DSFID = 0x08
LOCK_CFG = 0x10
ALL_LOCKS = 0x1F

# Error codes of document 01; a held answer is 0 (success) or one of them.
ERROR_CODES = (0x02, 0x03, 0x0F, 0x10, 0x11, 0x12, 0x13, 0x14, 0x15)
SUCCESS = 0


class Round(NamedTuple):
    """An inventory round: the running slot and the mask length that was asked with."""

    slot: int
    mask_length: int


class Record(NamedTuple):
    """One tag. `registers` holds RFA1SS, ENDA1, RFA2SS, ENDA2, RFA3SS, ENDA3, RFA4SS."""

    uid: int
    afi: int
    dsfid: int
    locks: int
    registers: Tuple[int, ...]
    passwords: Tuple[int, ...]
    field: bool = False
    state: str = READY
    session: Optional[int] = None
    round: Optional[Round] = None
    held: Optional[int] = None

    def protection(self, area):
        """RFAiSS of area 1 to 4."""
        return self.registers[2 * (area - 1)]

    def end(self, area):
        """ENDAi of area 1 to 3."""
        return self.registers[2 * area - 1]

    def is_locked(self, lock):
        """Whether this lock bit is set."""
        return bool(self.locks & lock)

    def with_register(self, index, value):
        """The record with one of the seven registers replaced."""
        registers = self.registers[:index] + (value,) + self.registers[index + 1:]
        return self._replace(registers=registers)

    def with_password(self, number, value):
        """The record with one of the four passwords replaced."""
        passwords = self.passwords[:number] + (value,) + self.passwords[number + 1:]
        return self._replace(passwords=passwords)

    def without_passing(self):
        """The record with the field off: 'Field off clears passing parts'."""
        return self._replace(field=False, state=READY, session=None, round=None, held=None)


class NoRecord(NamedTuple):
    """Bytes that are no record; `fault` names the first reason found."""

    fault: str


def factory_record(uid, size):
    """'A factory tag has zero memory, passwords, locks, AFI, DSFID and RFAiSS, and all ends at E.'"""
    end = size.last_end
    return Record(uid=uid, afi=0, dsfid=0, locks=0,
                  registers=(0, end, 0, end, 0, end, 0), passwords=(0, 0, 0, 0))
