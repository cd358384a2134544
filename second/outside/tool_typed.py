"""Headers as a technician types them, wrong and right, with what is said and listed of them, all written by hand.

Bytes 0 to 18, and bytes 19 to 63 where they are others than REST.
"""

REST = "1112131415161718 2122232425262728 3132333435363738 4142434445464748 00000000000000000000000000"
UID = "F0C8D601042302E0"
TYPED = (  # what was mistyped, Kbit, the bytes, and the words: number, name, place, what stands there, what may
    ("the mark of the other size", 16, f"02 {UID} 00 00 00 00 3F 00 3F 00 3F 00", REST,
     "5a: size mark, at place 0: it is 02h; "
     "the file has 2,112 bytes, as the image of a 16 Kbit tag, so it has to be 01h"),
    ("the same on the larger", 64, f"01 {UID} 00 00 00 00 FF 00 FF 00 FF 00", REST,
     "5a: size mark, at place 0: it is 01h; "
     "the file has 8,256 bytes, as the image of a 64 Kbit tag, so it has to be 02h"),
    ("16 for the mark of 16 Kbit", 16, f"16 {UID} 00 00 00 00 3F 00 3F 00 3F 00", REST,
     "5a: size mark, at place 0: it is 16h; "
     "the file has 2,112 bytes, as the image of a 16 Kbit tag, so it has to be 01h"),
    ("no mark at all", 64, f"00 {UID} 00 00 00 00 FF 00 FF 00 FF 00", REST,
     "5a: size mark, at place 0: it is 00h; "
     "the file has 8,256 bytes, as the image of a 64 Kbit tag, so it has to be 02h"),
    ("lock bits from 1 on, bit 5", 16, f"01 {UID} 00 00 20 00 3F 00 3F 00 3F 00", REST,
     "5b: lock byte, at place 11: it is 20h, with bit 5 set; bits 5 to 7 have to be 0, so it may be 00h to 1Fh"),
    ("bit 6", 64, f"02 {UID} 00 00 41 00 FF 00 FF 00 FF 00", REST,
     "5b: lock byte, at place 11: it is 41h, with bit 6 set; bits 5 to 7 have to be 0, so it may be 00h to 1Fh"),
    ("bits 5 and 6", 64, f"02 {UID} 00 00 6F 00 FF 00 FF 00 FF 00", REST,
     "5b: lock byte, at place 11: it is 6Fh, with bits 5 and 6 set; bits 5 to 7 have to be 0, so it may be 00h to 1Fh"),
    ("the digits of 08h", 16, f"01 {UID} 00 00 80 00 3F 00 3F 00 3F 00", REST,
     "5b: lock byte, at place 11: it is 80h, with bit 7 set; bits 5 to 7 have to be 0, so it may be 00h to 1Fh"),
    ("bits 5 and 7", 16, f"01 {UID} 00 00 A0 00 3F 00 3F 00 3F 00", REST,
     "5b: lock byte, at place 11: it is A0h, with bits 5 and 7 set; bits 5 to 7 have to be 0, so it may be 00h to 1Fh"),
    ("bits 6 and 7", 16, f"01 {UID} 00 00 DF 00 3F 00 3F 00 3F 00", REST,
     "5b: lock byte, at place 11: it is DFh, with bits 6 and 7 set; bits 5 to 7 have to be 0, so it may be 00h to 1Fh"),
    ("all bits", 64, f"02 {UID} 00 00 FF 00 FF 00 FF 00 FF 00", REST,
     "5b: lock byte, at place 11: it is FFh, with bits 5, 6 and 7 set; "
     "bits 5 to 7 have to be 0, so it may be 00h to 1Fh"),
    ("the protection of Area 1", 16, f"01 {UID} 00 00 00 10 3F 00 3F 00 3F 00", REST,
     "5c: protection byte, at place 12: RFA1SS is 10h; it may be 00h to 0Fh"),
    ("the digits of 09h", 64, f"02 {UID} 00 00 00 00 0C 90 FF 00 FF 00", REST,
     "5c: protection byte, at place 14: RFA2SS is 90h; it may be 00h to 0Fh"),
    ("end and protection of Area 3 exchanged", 16, f"01 {UID} 00 00 00 00 0C 09 3F 3F 09 00", REST,
     "5c: protection byte, at place 16: RFA3SS is 3Fh; it may be 00h to 0Fh"),
    ("the protection of Area 4", 64, f"02 {UID} 00 00 00 00 0C 09 20 05 30 FF", REST,
     "5c: protection byte, at place 18: RFA4SS is FFh; it may be 00h to 0Fh"),
    ("a byte too many after the UID", 16, f"01 {UID} 00 00 00 00 00 3F 00 3F 00 3F", REST,
     "5c: protection byte, at place 14: RFA2SS is 3Fh; it may be 00h to 0Fh"),
    ("an end above E by one", 16, f"01 {UID} 00 00 00 00 40 00 3F 00 3F 00", REST,
     "5d: area end, at place 13: ENDA1 is 40h (64), above E, which is 3Fh (63) for 16 Kbit; "
     "it may be 00h to 3Fh (0 to 63)"),
    ("63 for the end", 16, f"01 {UID} 00 00 00 00 63 00 63 00 63 00", REST,
     "5d: area end, at place 13: ENDA1 is 63h (99), above E, which is 3Fh (63) for 16 Kbit; "
     "it may be 00h to 3Fh (0 to 63)"),
    ("the E of the larger", 16, f"01 {UID} 00 00 00 00 0C 09 FF 00 FF 00", REST,
     "5d: area end, at place 15: ENDA2 is FFh (255), above E, which is 3Fh (63) for 16 Kbit; "
     "it may be 0Dh to 3Fh (13 to 63)"),
    ("the same after E", 16, f"01 {UID} 00 00 00 00 0C 00 3F 00 FF 00", REST,
     "5d: area end, at place 17: ENDA3 is FFh (255), above E, which is 3Fh (63) for 16 Kbit; it has to be 3Fh (63)"),
    ("an end as the one before it", 64, f"02 {UID} 00 00 00 00 0C 09 0C 00 FF 00", REST,
     "5d: area end, at place 15: ENDA2 is 0Ch (12), not above ENDA1, which is 0Ch (12); "
     "it may be 0Dh to FFh (13 to 255)"),
    ("an end below the one before it", 16, f"01 {UID} 00 00 00 00 0C 09 20 05 1F 00", REST,
     "5d: area end, at place 17: ENDA3 is 1Fh (31), not above ENDA2, which is 20h (32); "
     "it may be 21h to 3Fh (33 to 63)"),
    ("one value is left", 64, f"02 {UID} 00 00 00 00 FE 09 FE 00 FF 00", REST,
     "5d: area end, at place 15: ENDA2 is FEh (254), not above ENDA1, which is FEh (254); it has to be FFh (255)"),
    ("the later ends left at 00h", 64, f"02 {UID} 00 00 00 00 FF 00 00 00 00 00", REST,
     "5d: area end, at place 15: ENDA2 is 00h (0), but ENDA1 is E, FFh (255), after which every end is E; "
     "it has to be FFh (255)"),
    ("the last end left at 00h", 16, f"01 {UID} 00 00 00 00 0C 00 3F 00 00 00", REST,
     "5d: area end, at place 17: ENDA3 is 00h (0), but ENDA2 is E, 3Fh (63), after which every end is E; "
     "it has to be 3Fh (63)"),
    ("all ends left at 00h", 16, f"01 {UID} 00 00 00 00 00 00 00 00 00 00", REST,
     "5d: area end, at place 15: ENDA2 is 00h (0), not above ENDA1, which is 00h (0); it may be 01h to 3Fh (1 to 63)"),
    ("a password of nine bytes", 16, f"01 {UID} 00 00 00 00 3F 00 3F 00 3F 00",
     "1112131415161718 2122232425262728 3132333435363738 4142434445464748 49 000000000000000000000000",
     "5e: reserved byte, at place 51: it is 49h; it has to be 00h"),
    ("a reserved byte", 64, f"02 {UID} 00 00 00 00 FF 00 FF 00 FF 00",
     "1112131415161718 2122232425262728 3132333435363738 4142434445464748 0000000000 80 00000000000000",
     "5e: reserved byte, at place 56: it is 80h; it has to be 00h"),
    ("the last byte", 16, f"01 {UID} 00 00 00 00 3F 00 3F 00 3F 00",
     "1112131415161718 2122232425262728 3132333435363738 4142434445464748 000000000000000000000000 01",
     "5e: reserved byte, at place 63: it is 01h; it has to be 00h"),
    # two faults and more: 'with the lowest offending byte's place'
    ("mark and lock byte", 64, f"01 {UID} 00 00 FF 00 FF 00 FF 00 FF 00", REST,
     "5a: size mark, at place 0: it is 01h; "
     "the file has 8,256 bytes, as the image of a 64 Kbit tag, so it has to be 02h"),
    ("lock byte and a reserved byte", 16, f"01 {UID} 00 00 20 00 3F 00 3F 00 3F 00", REST[:-2] + "FF",
     "5b: lock byte, at place 11: it is 20h, with bit 5 set; bits 5 to 7 have to be 0, so it may be 00h to 1Fh"),
    ("an end, and the protection after it", 16, f"01 {UID} 00 00 00 00 41 11 3F 00 3F 00", REST,
     "5d: area end, at place 13: ENDA1 is 41h (65), above E, which is 3Fh (63) for 16 Kbit; "
     "it may be 00h to 3Fh (0 to 63)"),
    ("a protection, and the pair about it", 64, f"02 {UID} 00 00 00 00 0C 10 0B 00 FF 00", REST,
     "5c: protection byte, at place 14: RFA2SS is 10h; it may be 00h to 0Fh"),
    ("a pair, and an end above E after it", 16, f"01 {UID} 00 00 00 00 0C 00 0C 00 40 00", REST,
     "5d: area end, at place 15: ENDA2 is 0Ch (12), not above ENDA1, which is 0Ch (12); "
     "it may be 0Dh to 3Fh (13 to 63)"),
    ("an end above E, and the pair with it", 16, f"01 {UID} 00 00 00 00 0C 00 40 00 3F 00", REST,
     "5d: area end, at place 15: ENDA2 is 40h (64), above E, which is 3Fh (63) for 16 Kbit; "
     "it may be 0Dh to 3Fh (13 to 63)"),
    ("two pairs", 16, f"01 {UID} 00 00 00 00 0C 00 0B 00 0A 00", REST,
     "5d: area end, at place 15: ENDA2 is 0Bh (11), not above ENDA1, which is 0Ch (12); "
     "it may be 0Dh to 3Fh (13 to 63)"),
    ("the last protection and reserved bytes", 64, f"02 {UID} 00 00 00 00 FF 00 FF 00 FF 1F", REST[:-4] + "FFFF",
     "5c: protection byte, at place 18: RFA4SS is 1Fh; it may be 00h to 0Fh"),
    ("two reserved bytes", 16, f"01 {UID} 00 00 00 00 3F 00 3F 00 3F 00", REST[:-4] + "0102",
     "5e: reserved byte, at place 62: it is 01h; it has to be 00h"),
)
# Listings of a header that is right and of one that is not.
LISTED_RIGHT = (f"02 {UID} 35 07 14 05 0C 0A FE 0C FF 03", """\
place     bytes             what it is              what it says
0         02                size mark               64 Kbit, 2,048 blocks of 4 bytes
1 to 8    F0C8D601042302E0  UID, lowest byte first  E002230401D6C8F0
9         35                AFI                     35h
10        07                DSFID                   07h
11        14                lock byte               locked: AFI, configuration (LOCK_CFG)
12        05                protection byte RFA1SS  Area 1: protection 01, password 1: read always, write in its session
13        0C                area end ENDA1          12: Area 1 has blocks 0 to 103
14        0A                protection byte RFA2SS  Area 2: protection 10, password 2: read in its session, \
write in its session
15        FE                area end ENDA2          254: Area 2 has blocks 104 to 2,039
16        0C                protection byte RFA3SS  Area 3: protection 11, no password: read never, write never
17        FF                area end ENDA3          255: Area 3 has blocks 2,040 to 2,047, Area 4 has no blocks
18        03                protection byte RFA4SS  Area 4: protection 00, password 3: read always, write always
19 to 26  not shown         password 0              of the configuration
27 to 34  not shown         password 1              of areas
35 to 42  not shown         password 2              of areas
43 to 50  not shown         password 3              of areas
51 to 58  0000000000000000  reserved bytes          to be 00h
59 to 63  0000000000        reserved bytes          to be 00h
the header breaks no rule
""")
LISTED_WRONG = (f"01 {UID} 00 00 E1 00 0C 0F 0C 1F 40 05", """\
place     bytes             what it is              what it says
0         01                size mark               16 Kbit, 512 blocks of 4 bytes
1 to 8    F0C8D601042302E0  UID, lowest byte first  E002230401D6C8F0
9         00                AFI                     00h
10        00                DSFID                   00h
11        E1                lock byte               <-- 5b: it is E1h, with bits 5, 6 and 7 set; bits 5 to 7 \
have to be 0, so it may be 00h to 1Fh
12        00                protection byte RFA1SS  Area 1: protection 00, no password: read always, write always
13        0C                area end ENDA1          12
14        0F                protection byte RFA2SS  Area 2: protection 11, password 3: read in its session, write never
15        0C                area end ENDA2          12
16        1F                protection byte RFA3SS  Area 3: 1Fh is above 0Fh
17        40                area end ENDA3          64
18        05                protection byte RFA4SS  Area 4: protection 01, password 1: read always, write in its session
19 to 26  not shown         password 0              of the configuration
27 to 34  not shown         password 1              of areas
35 to 42  not shown         password 2              of areas
43 to 50  not shown         password 3              of areas
51 to 58  0000000000000000  reserved bytes          to be 00h
59 to 63  0000000000        reserved bytes          to be 00h
the lowest byte at fault is at place 11; those after it are not judged
""")
LAST_ROWS = {  # by the place of a reserved byte that is at fault, the rows from byte 51 on; bytes after it are 01h
    51: """\
51        01                reserved byte           <-- 5e: it is 01h; it has to be 00h
52 to 59  0101010101010101  reserved bytes          to be 00h
60 to 63  01010101          reserved bytes          to be 00h
""",
    55: """\
51 to 54  00000000          reserved bytes          to be 00h
55        01                reserved byte           <-- 5e: it is 01h; it has to be 00h
56 to 63  0101010101010101  reserved bytes          to be 00h
""",
    59: """\
51 to 58  0000000000000000  reserved bytes          to be 00h
59        01                reserved byte           <-- 5e: it is 01h; it has to be 00h
60 to 63  01010101          reserved bytes          to be 00h
""",
    60: """\
51 to 58  0000000000000000  reserved bytes          to be 00h
59        00                reserved byte           to be 00h
60        01                reserved byte           <-- 5e: it is 01h; it has to be 00h
61 to 63  010101            reserved bytes          to be 00h
""",
    63: """\
51 to 58  0000000000000000  reserved bytes          to be 00h
59 to 62  00000000          reserved bytes          to be 00h
63        01                reserved byte           <-- 5e: it is 01h; it has to be 00h
""",
}
