"""The record as 72 bytes: the 64 of an image header, then the passing parts."""

from .image import header_fault, header_of_record, record_of_header
from .record import QUIET, READY, SELECTED, NoRecord, Round
from .sizes import HEADER_BYTES

RECORD_BYTES = 72
FIELD, STATE, SESSION, ROUND, SLOT, MASK_LENGTH, HELD, HELD_CODE = range(HEADER_BYTES, RECORD_BYTES)
STATES = (READY, QUIET, SELECTED)
HELD_NONE, HELD_SUCCESS, HELD_ERROR = 0, 1, 2

# 'a value over those named': the highest value of each byte, and the name of its fault.
HIGHEST = ((FIELD, 1, "field-value"), (STATE, 2, "state-value"), (SESSION, 4, "session-value"),
           (ROUND, 1, "round-value"), (HELD, 2, "held-value"))


def record_of_bytes(data, size):
    """The record, or a NoRecord; `size` is that of the lent memory."""
    wrong = header_fault(data[:HEADER_BYTES], size)
    fault = wrong.rule if wrong else passing_bytes_fault(data)
    if fault:
        return NoRecord(fault)
    record = record_of_header(data[:HEADER_BYTES])
    return record._replace(
        field=data[FIELD] == 1,
        state=STATES[data[STATE]],
        session=data[SESSION] - 1 if data[SESSION] else None,
        round=Round(data[SLOT], data[MASK_LENGTH]) if data[ROUND] else None,
        held=None if data[HELD] == HELD_NONE else data[HELD_CODE])


def passing_bytes_fault(data):
    """What no record can hold in bytes 64 to 71; the record rules come after."""
    for place, highest, fault in HIGHEST:
        if data[place] > highest:
            return fault
    if not data[ROUND] and data[SLOT]:
        return "slot-without-round"
    if not data[ROUND] and data[MASK_LENGTH]:
        return "mask-without-round"
    if data[HELD] != HELD_ERROR and data[HELD_CODE]:
        return "code-without-error"
    if data[HELD] == HELD_ERROR and not data[HELD_CODE]:
        return "error-without-code"
    return None


def bytes_of_record(record, size):
    """The 72 bytes; 'Bytes without use are 0.'"""
    slot, mask_length = record.round or (0, 0)
    held = HELD_NONE if record.held is None else HELD_ERROR if record.held else HELD_SUCCESS
    passing = (int(record.field), STATES.index(record.state),
               0 if record.session is None else record.session + 1,
               int(record.round is not None), slot, mask_length, held, record.held or 0)
    return header_of_record(record, size) + bytes(passing)
