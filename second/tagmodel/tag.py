"""One event of a tag whose record and buffers are sound."""

from . import frame, inventory
from .branches import hit
from .outcomes import SILENCE, held_frame
from .record import READY, SUCCESS

# An event is one of these three words, or the bytes of a frame.
ON, OFF, EOF = "ON", "OFF", "EOF"


def step(record, memory, event):
    """The next record and the answer; the memory is changed in place."""
    if event == ON:
        return field_on(record), SILENCE
    if event == OFF:
        hit("off.was-on" if record.field else "off.was-off")
        return record.without_passing(), SILENCE
    if event == EOF:
        return end_of_frame(record)
    return frame.receive(record, memory, event)


def field_on(record):
    """'field on gives Ready; field on when on does nothing'."""
    if record.field:
        hit("on.was-on")
        return record
    hit("on.was-off")
    return record._replace(field=True, state=READY)


def end_of_frame(record):
    """'An end of frame with neither round nor held answer does nothing.'"""
    if record.round is not None:
        return inventory.end_of_frame(record)
    if record.held is not None:
        hit("eof.held-success" if record.held == SUCCESS else f"eof.held-error-{record.held:02X}")
        return record._replace(held=None), held_frame(record.held)
    hit("eof.nothing" if record.field else "eof.field-off")
    return record, SILENCE
