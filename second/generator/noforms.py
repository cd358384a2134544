"""Lines that are no line of casebook or tagrun."""

# Words of casebook that take a number or bytes, with the most that they take.
NUMBER_WORDS = ((b"MEM", 9000), (b"ROOM", 11000), (b"SAVE", 8300))
HEX_WORDS = ((b"REC", 72), (b"REQ", 1100), (b"LOAD", 8300))


def no_form_lines(dice, memory_bytes):
    """Casebook lines of no form, and beside them the last that are still of the form."""
    lines = [b"", b" ", b"on", b"ON ", b" ON", b"ON\r", b"OFF\x00", b"EOF EOF", b"HELLO", b"\xFF\xFE", b"022000", b"?"]
    for word, most in NUMBER_WORDS:
        lines += [word, word + b" ", word + b" 01", word + b"  1", word + b" 1 ", word + b" -1", word + b" +1",
                  word + b" 1.0", word + b" 0x10", word + b" A", word + b" 00", word + b" \xB2",
                  word + b" %d" % (most + 1), word + b" " + b"9" * 30, word.lower() + b" 1"]
    for word, most in HEX_WORDS:
        lines += [word, word + b" 0", word + b" 0a", word + b" 0G", word + b"  00", word + b" 00 ", word + b" 00\r",
                  word + b" " + b"00" * most, word + b" " + b"00" * (most + 1), word + b" " + b"0" * (2 * most + 1),
                  word.lower() + b" 00"]
    lines += [b"REC ", b"REC " + b"00" * 71, b"REQ 0\x00", b"LOAD 0", b"REC" + b"00" * 72]
    lines += put_lines(memory_bytes)
    return [dice.choose(lines) for _ in range(40)] + sure_lines(dice)


def put_lines(memory_bytes):
    """PUT at and beyond the end of the memory, and PUT of no form."""
    return [b"PUT", b"PUT ", b"PUT 0", b"PUT 00 00", b"PUT x 00", b"PUT 0 0", b"PUT 0 0g", b"PUT 0  00", b"PUT 0 00 ",
            b"PUT 1 " + b"00" * memory_bytes, b"PUT %d 00" % memory_bytes, b"PUT %d 00" % (memory_bytes + 1),
            b"PUT %d " % memory_bytes, b"PUT 0 ", b"PUT %d 5A" % (memory_bytes - 1), b"PUT 0 " + b"5A" * memory_bytes,
            b"PUT " + b"9" * 40 + b" 00"]


def sure_lines(dice):
    """One line of each wrong kind, every time, and the longest frame and image that are still taken."""
    lines = [b"", b"HELLO", b"REQ " + b"AB" * 1100, b"LOAD " + b"AB" * 8300, b"SAVE 8300"]
    for word, most in NUMBER_WORDS:
        lines += [word, word + b" 01", word + b" %d" % (most + 1)]
    for word, most in HEX_WORDS:
        lines += [word, word + b" zz", word + b" 000", word + b" " + b"AB" * (most + 1)]
    return lines + [b"REC " + dice.bytes(dice.below(72)).hex().upper().encode("ascii"),
                    b"PUT", b"PUT 0", b"PUT 01 00", b"PUT 2049 00", b"PUT 0 zz", b"PUT 0 000", b"PUT 2047 0000"]


def factory_no_form_lines(dice):
    """FACTORY with every wrong kind of UID, in an order that the dice choose."""
    lines = [b"FACTORY", b"FACTORY ", b"factory " + b"00" * 8, b"FACTORY" + b"00" * 8, b"FACTORY  " + b"00" * 8,
             b" FACTORY " + b"00" * 8, b"FACTORY " + b"00" * 8 + b" ", b"FACTORY " + b"00" * 8 + b"\r",
             b"FACTORY " + b"ab" * 8, b"FACTORY " + b"00" * 7 + b"0G", b"FACTORY " + b"0" * 15, b"FACTORY " + b"0" * 17,
             b"FACTORY " + b"00" * 7, b"FACTORY " + b"00" * 9, b"FACTORY 2048 " + b"00" * 8, b"FACTORYS " + b"00" * 8,
             b"FACTORY " + dice.bytes(dice.below(8)).hex().upper().encode("ascii"),
             b"FACTORY " + dice.bytes(9 + dice.below(60)).hex().upper().encode("ascii")]
    return [lines.pop(dice.below(len(lines))) for _ in range(len(lines))]


def search_no_form_lines(dice):
    """SEARCH with every wrong kind of number and UIDs, in an order that the dice choose."""
    uid = b"0102030405060708"
    lines = [b"SEARCH", b"SEARCH ", b"SEARCH  ", b"SEARCH 1", b"SEARCH " + uid, b"SEARCH  " + uid, b"search 1 " + uid,
             b"SEARCH1 " + uid, b" SEARCH 1 " + uid, b"SEARCHES 1 " + uid, b"SEARCH 01 " + uid, b"SEARCH 00 ",
             b"SEARCH -1 " + uid, b"SEARCH +1 " + uid, b"SEARCH 1.0 " + uid, b"SEARCH A " + uid, b"SEARCH 301 " + uid,
             b"SEARCH 1000 ", b"SEARCH " + b"9" * 30 + b" " + uid, b"SEARCH 1  " + uid, b"SEARCH 1 " + uid + b" ",
             b"SEARCH 2 " + uid + b" " + uid, b"SEARCH 1 " + uid + b"\r", b"SEARCH 1 " + uid[:14] + b"0g",
             b"SEARCH 1 " + b"ab" * 8, b"SEARCH 1 " + uid[:15], b"SEARCH 1 " + uid + b"0", b"SEARCH 1 " + uid[:14],
             b"SEARCH 2 " + uid + b"01", b"SEARCH 1 -", b"SEARCH 300 " + b"00" * 8 * 301, b"SEARCH 300 " + b"00" * 2401]
    return [lines.pop(dice.below(len(lines))) for _ in range(len(lines))]


def tagrun_no_form_lines(dice):
    """Lines that tagrun answers with `?`, and the longest request beside them."""
    return [b"", b"0", b"on", b"ON ", b" ON", b"ON\r", b"OFF\x00", b"0g", b"0a", b"02200", b"000", b"ABCDE", b"0220000", b"0220 00", b"\xFF" * 4,
            b"00" * 64 + b"0", b"00" * 65, b"02" * 5000, b"EOFEOF", b"-", b"?", b"02\x0B", b"\xC2\xB2\xC2\xB2",
            dice.bytes(6).replace(b"\n", b"\r"), b"00" * 64]
