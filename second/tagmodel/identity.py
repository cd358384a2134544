"""State commands, and AFI and DSFID with their locks."""

from .branches import hit
from .outcomes import Outcome, Unit
from .record import LOCK_AFI, LOCK_DSFID, QUIET, READY, SELECTED


def select(tag, fields, option):
    """'Select 25h (Selected)'; another UID's Select never comes here."""
    hit(f"select.from-{tag.record.state}")
    return Outcome(passing={"state": SELECTED})


def reset_to_ready(tag, fields, option):
    """'Reset to Ready 26h (Ready)'."""
    hit(f"reset.from-{tag.record.state}")
    return Outcome(passing={"state": READY})


def stay_quiet(tag, fields, option):
    """'Stay Quiet 02h gives Quiet and silence, even with Option_flag.'"""
    hit(f"quiet.from-{tag.record.state}")
    return Outcome(silent=True, passing={"state": QUIET})


def write_byte(part, lock_bit):
    """'Write AFI 27h, DSFID 29h: locked 12h.'"""
    def handler(tag, fields, option):
        if tag.record.is_locked(lock_bit):
            return Outcome(error=0x12)
        return Outcome(work=(Unit(part, 0, fields[0]),))
    return handler


def lock_byte(lock_bit):
    """'Lock AFI 28h, DSFID 2Ah: locked already 11h.'"""
    def handler(tag, fields, option):
        if tag.record.is_locked(lock_bit):
            return Outcome(error=0x11)
        return Outcome(work=(Unit("lock", lock_bit, 1),))
    return handler


write_afi = write_byte("afi", LOCK_AFI)
lock_afi = lock_byte(LOCK_AFI)
write_dsfid = write_byte("dsfid", LOCK_DSFID)
lock_dsfid = lock_byte(LOCK_DSFID)
