"""Document 01, "Passwords and registers": Present and Write password, Read and Write configuration.

In the record password n is the eight bytes from 19 + 8 n on, lowest first; byte 66 is the session (1 for password 0).
Register addresses are those of 003, table 10.
"""

from ..examples import (CONFIGURATION_SESSION, DONE, FIELD, LARGE, LOCKS, LOCK_CFG, NOT_AVAILABLE, NOT_PROGRAMMED,
                        NOT_WRITTEN, NO_INFORMATION, NO_SESSION, OPTION_REFUSED, PASSWORD, SESSION, SESSION_1,
                        SESSION_2, SESSION_3, SILENCE, SMALL, UID, ZERO_PASSWORD, Case, configured, frame, framed,
                        in_field, lent, request)

WRONG = "0000000000000001"
VALUES = (PASSWORD, "1112131415161718", "2122232425262728", "3132333435363738")
NEW = "A1A2A3A4A5A6A7A8"
RFASS = {1: 0x04, 2: 0x06, 3: 0x08, 4: 0x0A}  # register addresses
ENDA = {1: 0x05, 2: 0x07, 3: 0x09}
REGISTER_PLACES = {0x04: 12, 0x05: 13, 0x06: 14, 0x07: 15, 0x08: 16, 0x09: 17, 0x0A: 18}  # address: place in the record
NO_REGISTERS = (0x00, 0x03, 0x0B, 0x0E, 0x10, 0xFF)  # 03h is KILL, which the base leaves out


def password_bytes(number, value):
    """A password's bytes of the record by their places."""
    return {19 + 8 * number + place: byte for place, byte in enumerate(bytes.fromhex(value))}


def with_passwords(session=NO_SESSION):
    """A tag in the field whose passwords are the four values."""
    changes = {FIELD: 1, SESSION: session}
    for number, value in enumerate(VALUES):
        changes.update(password_bytes(number, value))
    return lent(SMALL, changes=changes)


def present(number, value, answer, session):
    """Present password B3h, and the session that is open after it."""
    return request(f"02B302{number:02X}{value}", answer, record={SESSION: session})


def write_password(number, value, answer, record):
    """Write password B1h."""
    return request(f"02B102{number:02X}{value}", answer, record=record)


def read_register(address, answer):
    """Read configuration A0h."""
    return request(f"02A002{address:02X}", answer)


def write_register(address, value, answer=DONE, **facts):
    """Write configuration A1h."""
    return request(f"02A102{address:02X}{value:02X}", answer, **facts)


PASSWORDS = (
    Case(
        "passwords-four", "four 64-bit passwords",
        "were they fewer, or at other places of the record, one of the four values would be wrong: 0Fh",
        with_passwords() + (
            present(0, VALUES[0], DONE, CONFIGURATION_SESSION), present(1, VALUES[1], DONE, SESSION_1),
            present(2, VALUES[2], DONE, SESSION_2), present(3, VALUES[3], DONE, SESSION_3))),
    Case(
        "password-64-bits", "four 64-bit passwords",
        "were 32 bits compared, as 001's passwords have, the first two would be right; highest byte first, the third",
        with_passwords() + (
            present(1, "1112131415161719", NO_INFORMATION, NO_SESSION),
            present(1, "1112131405060708", NO_INFORMATION, NO_SESSION),
            present(1, "1817161514131211", NO_INFORMATION, NO_SESSION),
            present(1, VALUES[1], DONE, SESSION_1))),
    Case(
        "password-0-configuration", "number 0 is configuration",
        "were it password 1 or the last, the first or second write would be done and the third refused",
        in_field(SMALL) + (
            present(1, ZERO_PASSWORD, DONE, SESSION_1), write_register(0x04, 0x0F, NO_INFORMATION),
            present(3, ZERO_PASSWORD, DONE, SESSION_3), write_register(0x04, 0x0F, NO_INFORMATION),
            present(0, ZERO_PASSWORD, DONE, CONFIGURATION_SESSION), write_register(0x04, 0x0F, record={12: 0x0F}))),
    Case(
        "present-fields", "Present B3h (number, 8 bytes",
        "were the number last, 18h would be over 3: 10h",
        with_passwords() + (present(1, VALUES[1], DONE, SESSION_1),)),
    Case(
        "presented-passes-all-checks", "presented means in a frame that passes all checks",
        "were a wrong password in a damaged, foreign or refused frame a presented one, the session would be closed",
        in_field(SMALL, session=SESSION_2) + (frame("02B30201" + WRONG + "0000", SILENCE, record={SESSION: SESSION_2}),)
        + tuple(request(text, SILENCE, record={SESSION: SESSION_2}) for text in (
            "0AB30201" + WRONG, "82B30201" + WRONG, "06B30201" + WRONG, "02B30301" + WRONG,  # checks 3 to 5
            "32B302" + UID + "01" + WRONG, "22B302" + ZERO_PASSWORD + "01" + WRONG, "12B30201" + WRONG,  # 6
            "02B30201" + WRONG + "00")) + (  # 8
            request("42B30201" + WRONG, OPTION_REFUSED, record={SESSION: SESSION_2}),  # 10
            request("22B302" + UID + "01" + WRONG, NO_INFORMATION, record={SESSION: NO_SESSION}))),
    Case(
        "present-number-over-3", "Present B3h .. number over 3 is 10h",
        "were 3 over the last, it would answer 10h; were 4 taken as 0, or as a wrong value, 00 or 0Fh",
        in_field(SMALL) + (
            present(3, ZERO_PASSWORD, DONE, SESSION_3), present(4, ZERO_PASSWORD, NOT_AVAILABLE, SESSION_3),
            present(0xFF, ZERO_PASSWORD, NOT_AVAILABLE, SESSION_3))),
    Case(
        "present-number-sessions-unchanged", "number over 3 is 10h, sessions unchanged",
        "were any refused presentation to close sessions, Area 1 would no longer be written: 12h",
        in_field(SMALL, protections=(0x06, 0, 0, 0), session=SESSION_2) + (
            present(4, WRONG, NOT_AVAILABLE, SESSION_2), request("022105A1A2A3A4", DONE))),
    Case(
        "present-wrong-closes-other", "Wrong value: 0Fh, no session open.",
        "were the old session left open, as the number is another, byte 66 would stay and Area 1 be written",
        in_field(SMALL, protections=(0x06, 0, 0, 0), session=SESSION_2) + (
            present(1, WRONG, NO_INFORMATION, NO_SESSION), request("022105A1A2A3A4", NOT_WRITTEN))),
    Case(
        "present-wrong-closes-own", "Wrong value: 0Fh, no session open.",
        "were an open session kept where its own password is wrong, byte 66 would stay",
        in_field(SMALL, session=SESSION_2) + (present(2, WRONG, NO_INFORMATION, NO_SESSION),)),
    Case(
        "present-wrong-configuration", "Wrong value: 0Fh, no session open.",
        "were the configuration session apart from the others, password 1 would not close it, nor password 0 close 1",
        configured() + (present(1, WRONG, NO_INFORMATION, NO_SESSION), write_register(0x04, 0x01, NO_INFORMATION))
        + in_field(SMALL, session=SESSION_1) + (present(0, WRONG, NO_INFORMATION, NO_SESSION),)),
    Case(
        "present-right-alone", "Right: that session alone is open.",
        "were the old session kept beside the new, Area 1, which names password 2, would still be written",
        in_field(SMALL, protections=(0x06, 0, 0, 0), session=SESSION_2) + (
            present(1, ZERO_PASSWORD, DONE, SESSION_1), request("022105A1A2A3A4", NOT_WRITTEN),
            present(2, ZERO_PASSWORD, DONE, SESSION_2), request("022105A1A2A3A4", DONE))),
    Case(
        "write-password-fields", "Write password B1h, same fields",
        "were the number last, A8h would be over 3: 10h; were the bytes turned round, the record would hold A8 first",
        in_field(SMALL, session=SESSION_1) + (write_password(1, NEW, DONE, password_bytes(1, NEW)),)),
    Case(
        "write-password-number-over-3", "Write password B1h, same fields: number over 3 is 10h",
        "were the session asked first, 4 would answer 0Fh; were 3 over the last, it would answer 10h",
        in_field(SMALL) + (write_password(4, NEW, NOT_AVAILABLE, {}), write_password(0xFF, NEW, NOT_AVAILABLE, {}))
        + in_field(SMALL, session=SESSION_3) + (
            write_password(4, NEW, NOT_AVAILABLE, password_bytes(3, ZERO_PASSWORD)),
            write_password(3, NEW, DONE, password_bytes(3, NEW)))),
    Case(
        "write-password-its-session", "its session not open 0Fh",
        "were any session enough, or the configuration session for all, a password would change; 003 has 12h",
        in_field(SMALL) + (write_password(1, NEW, NO_INFORMATION, password_bytes(1, ZERO_PASSWORD)),)
        + configured() + (write_password(1, NEW, NO_INFORMATION, password_bytes(1, ZERO_PASSWORD)),)
        + in_field(SMALL, session=SESSION_1) + (
            write_password(0, NEW, NO_INFORMATION, password_bytes(0, ZERO_PASSWORD)),
            write_password(2, NEW, NO_INFORMATION, {SESSION: SESSION_1, **password_bytes(2, ZERO_PASSWORD)}))),
    Case(
        "write-password-each", "otherwise replaced",
        "were password 0 not to be replaced, or another's place taken, the record would differ",
        tuple(step for number in range(4) for step in in_field(SMALL, session=number + 1) + (
            write_password(number, NEW, DONE, {
                place: byte for other in range(4)
                for place, byte in password_bytes(other, NEW if other == number else ZERO_PASSWORD).items()}),))),
    Case(
        "write-password-session-kept", "otherwise replaced, session kept",
        "were the session closed, byte 66 would be 0 and the second write 0Fh; the old value is wrong from then on",
        in_field(SMALL, session=SESSION_1) + (
            write_password(1, WRONG, DONE, {SESSION: SESSION_1}), write_password(1, NEW, DONE, {SESSION: SESSION_1}),
            present(1, NEW, DONE, SESSION_1), present(1, ZERO_PASSWORD, NO_INFORMATION, NO_SESSION))),
    Case(
        "write-password-lock-cfg", "its session not open 0Fh; otherwise replaced",
        "were LOCK_CFG heeded, it would answer 0Fh",
        configured(locks=LOCK_CFG) + (write_password(0, NEW, DONE, password_bytes(0, NEW)),)),
)

REGISTERS = (
    Case(
        "register-read-fields", "Read A0h and write A1h take a one-byte register address",
        "were the address of two bytes, or none taken, this would be silence",
        in_field(SMALL) + (read_register(0x05, framed("003F")),)),
    Case(
        "register-write-fields", "take a one-byte register address as in 003, and a byte for the write",
        "were the byte first, 04h would be written to ENDA1; were the address of two bytes, this would be silence",
        configured() + (write_register(0x04, 0x05, record={12: 0x05, 13: 63}),)),
    Case(
        "register-read-each", "Registers: the seven above and LOCK_CFG.",
        "were an address another register's, or reading in session only, one answer would differ",
        in_field(SMALL, (0x11, 0x12, 0x13), (0x04, 0x05, 0x06, 0x07), LOCK_CFG | 0x0F) + tuple(
            read_register(address, framed(f"00{value:02X}")) for address, value in (
                (0x04, 0x04), (0x05, 0x11), (0x06, 0x05), (0x07, 0x12), (0x08, 0x06), (0x09, 0x13), (0x0A, 0x07),
                (0x0F, 0x01)))
        + in_field(SMALL, locks=0x0F) + (read_register(0x0F, framed("0000")),)),
    Case(
        "register-write-each", "Registers: the seven above and LOCK_CFG.",
        "were an address another register's, another byte of the record would change",
        configured() + tuple(
            write_register(address, value, record={place: value})
            for value, (address, place) in enumerate(REGISTER_PLACES.items(), 1)) + (
                write_register(0x0F, 0x01, record={
                    LOCKS: LOCK_CFG, **{place: value for value, place in enumerate(REGISTER_PLACES.values(), 1)}}),)),
    Case(
        "register-unknown", "Unknown 10h",
        "were KILL, or an address beside the known ones, a register, it would be read or written",
        configured() + tuple(step for address in NO_REGISTERS for step in (
            read_register(address, NOT_AVAILABLE), write_register(address, 0x00, NOT_AVAILABLE)))),
    Case(
        "register-unknown-first", "Unknown 10h; for a write, configuration session closed or LOCK_CFG set 0Fh",
        "were session or LOCK_CFG asked first, both would answer 0Fh",
        in_field(SMALL) + (write_register(0x0B, 0x00, NOT_AVAILABLE),)
        + configured(locks=LOCK_CFG) + (write_register(0x0B, 0x00, NOT_AVAILABLE),)),
    Case(
        "register-session-closed", "for a write, configuration session closed .. 0Fh",
        "were no session needed, or any enough, a register would change; each of the eight is asked",
        in_field(SMALL) + tuple(write_register(address, 0x01, NO_INFORMATION) for address in REGISTER_PLACES) + (
            write_register(0x0F, 0x01, NO_INFORMATION, record={12: 0, 13: 63, LOCKS: 0}),)
        + in_field(SMALL, session=SESSION_1) + (write_register(0x04, 0x01, NO_INFORMATION, record={12: 0}),)),
    Case(
        "register-lock-cfg-set", "configuration session closed or LOCK_CFG set 0Fh",
        "were both needed for 0Fh, or LOCK_CFG free to be cleared, or the code 12h, one would differ",
        configured(locks=LOCK_CFG) + tuple(
            write_register(address, 0x01, NO_INFORMATION) for address in REGISTER_PLACES) + (
                write_register(0x0F, 0x00, NO_INFORMATION, record={12: 0, 13: 63, LOCKS: LOCK_CFG}),)),
    Case(
        "register-other-locks", "LOCK_CFG set 0Fh",
        "were other lock bits heeded, the write would answer 0Fh",
        configured(locks=0x0F) + (write_register(0x04, 0x01, record={12: 0x01, LOCKS: 0x0F}),)),
    Case(
        "register-value-last", "LOCK_CFG set 0Fh; value not allowed 13h",
        "were the value asked first, the first two would answer 13h",
        in_field(SMALL) + (write_register(0x04, 0x10, NO_INFORMATION),)
        + configured(locks=LOCK_CFG) + (write_register(0x04, 0x10, NO_INFORMATION),)
        + configured() + (write_register(0x04, 0x10, NOT_PROGRAMMED, record={12: 0}),)),
    Case(
        "register-rfass-values", "RFAiSS allows 00h to 0Fh",
        "were spare bits dropped, 10h and F0h would be taken; were only some protections allowed, 0Fh would not",
        configured() + tuple(step for address in RFASS.values() for step in (
            write_register(address, 0x0F, record={REGISTER_PLACES[address]: 0x0F}),
            write_register(address, 0x10, NOT_PROGRAMMED, record={REGISTER_PLACES[address]: 0x0F}),
            write_register(address, 0xF0, NOT_PROGRAMMED, record={REGISTER_PLACES[address]: 0x0F}),
            write_register(address, 0x00, record={REGISTER_PLACES[address]: 0x00})))),
    Case(
        "register-lock-cfg-values", "LOCK_CFG 00h and 01h",
        "were bit 0 alone looked at, or any value a lock, 02h and 03h would be taken; were 00h not allowed, 13h",
        configured() + (
            write_register(0x0F, 0x02, NOT_PROGRAMMED), write_register(0x0F, 0x03, NOT_PROGRAMMED, record={LOCKS: 0}),
            write_register(0x0F, 0x00, record={LOCKS: 0}), write_register(0x0F, 0x01, record={LOCKS: LOCK_CFG}))),
    Case(
        "register-end-at-most-e", "ENDAi allows v at most E",
        "were E 255 for both, 40h would be taken by the smaller tag; were E itself too much, 3Fh and FFh refused",
        configured() + (
            write_register(ENDA[1], 0x40, NOT_PROGRAMMED, record={13: 0x3F}), write_register(ENDA[1], 0x3F))
        + configured((1, 63, 63)) + (
            write_register(ENDA[2], 0x40, NOT_PROGRAMMED), write_register(ENDA[2], 0x3F))
        + configured((1, 2, 63)) + (
            write_register(ENDA[3], 0x40, NOT_PROGRAMMED), write_register(ENDA[3], 0x3F))
        + configured(size=LARGE) + (write_register(ENDA[1], 0x40, record={13: 0x40}), write_register(ENDA[1], 0xFF))),
    Case(
        "register-end-above-last", "above ENDA(i-1) if i is over 1",
        "were the same end enough, 12 and 13 would be taken; were the next not, 13 and 14 refused",
        configured((12, 63, 63)) + (
            write_register(ENDA[2], 12, NOT_PROGRAMMED, record={15: 63}),
            write_register(ENDA[2], 13, record={15: 13}),
            write_register(ENDA[3], 13, NOT_PROGRAMMED, record={17: 63}),
            write_register(ENDA[3], 14, record={17: 14}))),
    Case(
        "register-end-1-no-last", "above ENDA(i-1) if i is over 1",
        "were something before ENDA1, 0 or a lower end than the one there would be refused",
        configured((12, 63, 63)) + (write_register(ENDA[1], 0x00, record={13: 0}),)),
    Case(
        "register-end-later-at-e", "while all later ends are E",
        "were the later ends only to be above v, or the last one alone at E, ENDA1 = 5 would be taken",
        configured((12, 13, 63)) + (write_register(ENDA[1], 5, NOT_PROGRAMMED, record={13: 12}),)
        + configured((12, 13, 14)) + (
            write_register(ENDA[1], 5, NOT_PROGRAMMED, record={13: 12}),
            write_register(ENDA[2], 13, NOT_PROGRAMMED), write_register(ENDA[2], 63, NOT_PROGRAMMED, record={15: 13}))),
    Case(
        "register-end-3-no-later", "while all later ends are E",
        "were its own old end a later one, ENDA3 could not be changed from 14 to 20",
        configured((12, 13, 14)) + (write_register(ENDA[3], 20, record={17: 20}), write_register(ENDA[3], 63))),
    Case(
        "register-end-same-value", "ENDAi allows v at most E, above ENDA(i-1) if i is over 1",
        "were the value already there always taken, ENDA2 = E and ENDA3 = E would be done",
        configured() + (
            write_register(ENDA[1], 63), write_register(ENDA[2], 63, NOT_PROGRAMMED),
            write_register(ENDA[3], 63, NOT_PROGRAMMED))
        + configured((12, 13, 63)) + (write_register(ENDA[2], 13), write_register(ENDA[3], 63))),
    Case(
        "passwords-no-address", "Passwords have no address.",
        "were they at 0Bh to 0Eh, 10h to 13h or their places in the image, they would be read or written",
        with_passwords(CONFIGURATION_SESSION) + tuple(step for address in (
            0x0B, 0x0C, 0x0D, 0x0E, 0x10, 0x11, 0x12, 0x13, 0x1B, 0x23, 0x2B) for step in (
                read_register(address, NOT_AVAILABLE),
                write_register(address, 0x00, NOT_AVAILABLE, record=password_bytes(0, VALUES[0]))))),
)

CASES = PASSWORDS + REGISTERS
