"""The record rules of document 01. Each check names the first rule that is broken, or None."""

from .record import ERROR_CODES, QUIET, READY, SUCCESS, NoRecord

HIGHEST_PROTECTION = 0x0F
HIGHEST_SLOT = 15
LONGEST_ROUND_MASK = 60


def record_fault(record, last_end):
    """The first record rule that this record breaks."""
    if isinstance(record, NoRecord):
        return record.fault
    return register_fault(record.registers, last_end) or passing_fault(record)


def register_fault(registers, last_end):
    """The rule that the first register at fault breaks."""
    for index in range(len(registers)):
        fault = fault_of_register(registers, index, last_end)
        if fault:
            return fault
    return None


def fault_of_register(registers, index, last_end):
    """'each RFAiSS is at most 0Fh; each ENDAi is at most E', and an end's order after those before it."""
    area, value = index // 2 + 1, registers[index]
    if index % 2:
        return end_fault(registers[1:index:2], area, value, last_end)
    return f"protection-{area}" if value > HIGHEST_PROTECTION else None


def end_fault(earlier_ends, area, value, last_end):
    """'if ENDAi is below E then ENDA(i+1) is above ENDAi; if ENDAi is E then all later ends are E'.

    The later end of a wrong pair is at fault, and the end's own value is tried before its order.
    """
    if value > last_end:
        return f"end-{area}-over"
    if earlier_ends and earlier_ends[-1] == last_end and value != last_end:
        return f"end-{area}-after-last"
    if earlier_ends and earlier_ends[-1] < last_end and value <= earlier_ends[-1]:
        return f"end-{area}-not-above"
    return None


def passing_fault(record):
    """The first rule about the passing parts that this record breaks."""
    if not record.field:
        return field_off_fault(record)
    if record.round is not None:
        return round_fault(record)
    if record.held is not None and record.held != SUCCESS and record.held not in ERROR_CODES:
        return "held-code"
    return None


def field_off_fault(record):
    """'With the field off nothing passing is set and the state is Ready.'"""
    if record.state != READY:
        return "off-state"
    if record.session is not None:
        return "off-session"
    if record.round is not None:
        return "off-round"
    if record.held is not None:
        return "off-held"
    return None


def round_fault(record):
    """'A round has slot 0 to 15 and mask length at most 60', and never stands with a held answer nor in Quiet."""
    if record.round.slot > HIGHEST_SLOT:
        return "slot-over"
    if record.round.mask_length > LONGEST_ROUND_MASK:
        return "mask-over"
    if record.held is not None:
        return "round-with-held"
    if record.state == QUIET:
        return "round-in-quiet"
    return None
