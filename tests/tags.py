"""Whole tags for the program `test_tags`: writes crates/test_tags/stdin (the cases) and crates/test_tags/stdout (the listings).

Each case is an entry of the table below: a name, the bytes, and the lines of the listing, all of them stated by hand. The model is asked
too and must agree.

A case in stdin, numbers of 4 bytes, big-endian: length of the work buffer that is lent, length of the tag; then the tag's bytes.
In stdout a line `case N`, counted from 1, and the listing of the tag as document 01 has it.
"""

import sys
from pathlib import Path

import model
from layout import H, chap, ctoc, f2, f3, f4, mllt, nest, number, t2, t3, t4

CASES = []


def case(name, tag, *lines, work=256):
    CASES.append((name, tag, lines, work))


# ---- document 01's own

EXAMPLE = H("49 44 33 04 00 00 00 00 00 12 50 4F 50 4D 00 00 00 08 00 00 61 00 05 01 00 00 00 00")
case(
    "document 01's example",
    EXAMPLE,
    "tag 2.4 size 18 flags 0 ext 0",
    "frame 0 POPM at 0 body 8 popularimeter whole user 61 rating 5 counter 4294967296",
    "end 1",
)
case(
    "document 01's example without a work buffer",
    EXAMPLE,
    "tag 2.4 size 18 flags 0 ext 0",
    "frame 0 POPM at 0 body 8 popularimeter whole user 61 rating 5 counter 4294967296",
    "end 1",
    work=0,
)

# ---- the header's checks

case("no bytes", b"", "refused 1")
case("nine bytes", H("494433 04 00 00 000000"), "refused 1")
case("no ID3", H("494434 04 00 00 00000000"), "refused 1")
case("id3 in small letters", H("696433 04 00 00 00000000"), "refused 1")
case("edition 1", H("494433 01 00 00 00000000"), "refused 2")
case("edition 5", H("494433 05 00 0F 00000000"), "refused 2")
case("edition FF", H("494433 FF 00 00 00000000"), "refused 2")
case("flag 01", H("494433 04 00 01 00000000"), "refused 3")
case("flag 08", H("494433 03 00 08 00000000"), "refused 3")
case("2.2, flags 42", H("494433 02 00 42 00000000"), "refused 3")
case("2.2, flag 40", H("494433 02 00 40 00000000"), "refused 4")
case("2.2, flags C0", H("494433 02 00 C0 00000000"), "refused 4")
case("2.4, flag 40 and no more", t4(b"", 0x40), "refused 5")
case("2.3, flag 40 and five bytes more", t3(H("0000000600"), 0x40), "refused 5")
case("2.3, flag 40 and six bytes, five of them in the tag", t3(H("000000060000"), 0x40, 5), "refused 5")
case("2.4, flag 40 and six bytes, the slice has five", t4(H("0000000600"), 0x40, 6), "refused 5")
case("2.4, extended size 5", t4(H("000000050000"), 0x40), "refused 6")
case("2.3, extended size 0", t3(H("000000000000") + f3(b"XYZW", b"\x07"), 0x40), "refused 6")

# ---- no frames

case("2.2, size 0", t2(b""), "tag 2.2 size 0 flags 0 ext 0", "end 0")
case("2.3, size 0", t3(b""), "tag 2.3 size 0 flags 0 ext 0", "end 0")
case("2.4, size 0, revision FF", H("494433 04 FF 00 00000000"), "tag 2.4 size 0 flags 0 ext 0", "end 0")
case("2.4, flags 30 are shown", t4(b"", 0x30), "tag 2.4 size 0 flags 48 ext 0", "end 0")
case("2.2, padding alone", t2(b"", padding=20), "tag 2.2 size 20 flags 0 ext 0", "end 0")
case("2.4, nine bytes that are no header", t4(b"x" * 9), "tag 2.4 size 9 flags 0 ext 0", "end 0")
case("2.2, five bytes that are no header", t2(b"x" * 5), "tag 2.2 size 5 flags 0 ext 0", "end 0")
case("2.4, size of bits 7", t4(b"", 0, H("FFFFFFFF")), "tag 2.4 size 536870911 flags 0 ext 0", "end 0")
case("2.4, size 00 00 01 FF", t4(bytes(3), 0, H("000001FF")), "tag 2.4 size 255 flags 0 ext 0", "end 0")
case("2.4, size 0 and a frame behind the tag", t4(f4(b"XYZW", b"\x07"), 0, 0), "tag 2.4 size 0 flags 0 ext 0", "end 0")

# ---- the three editions

case(
    "2.2, each kind",
    t2(
        f2(b"TT2", H("00 41 42"))
        + f2(b"POP", H("612E 00 FF FF00"))
        + f2(b"MLL", mllt(4, 8, H("A5C301")))
        + f2(b"PIC", H("07"))
        + f2(b"TXX", H("07")),
        padding=7,
    ),
    "tag 2.2 size 61 flags 0 ext 0",
    "frame 0 TT2 at 0 body 3 text whole",
    "frame 1 POP at 9 body 6 popularimeter whole user 612E rating 255 counter 65280",
    "frame 2 MLL at 21 body 13 table whole",
    "frame 3 PIC at 40 body 1 raw whole",
    "frame 4 TXX at 47 body 1 raw whole",
    "end 5",
)
case(
    "2.3, each kind",
    t3(
        f3(b"TIT2", H("01 FFFE 4100"))
        + f3(b"POPM", H("00 00"))
        + f3(b"MLLT", mllt(8, 8))
        + f3(b"CHAP", chap(b"a", f3(b"TIT2", H("0041"))))
        + f3(b"CTOC", ctoc(b"b", 3, 1, b"a\0"))
        + f3(b"PRIV", b""),
    ),
    "tag 2.3 size 113 flags 0 ext 0",
    "frame 0 TIT2 at 0 body 5 text whole",
    "frame 1 POPM at 15 body 2 popularimeter whole user - rating 0 counter 0",
    "frame 2 MLLT at 27 body 10 table whole",
    "frame 3 CHAP at 47 body 30 chapter whole",
    "frame 4 CTOC at 87 body 6 contents whole",
    "frame 5 PRIV at 103 body 0 raw whole",
    "end 6",
)
case(
    "2.4, each kind",
    t4(
        f4(b"TIT2", H("03 41 00"))
        + f4(b"POPM", H("ABCDEF 00 80 FFFFFFFFFFFFFFFF"))
        + f4(b"MLLT", mllt(32, 32, bytes(7)))
        + f4(b"CHAP", chap(b"", b""))
        + f4(b"CTOC", ctoc(b"", 0, 0, b"", f4(b"CHAP", chap(b"x"))))
        + f4(b"TXXX", b"\x09"),
        padding=1,
    ),
    "tag 2.4 size 143 flags 0 ext 0",
    "frame 0 TIT2 at 0 body 3 text whole",
    "frame 1 POPM at 13 body 13 popularimeter whole user ABCDEF rating 128 counter 18446744073709551615",
    "frame 2 MLLT at 36 body 17 table whole",
    "frame 3 CHAP at 63 body 17 chapter whole",
    "frame 4 CTOC at 90 body 31 contents whole",
    "frame 5 TXXX at 131 body 1 raw whole",
    "end 6",
)
case(
    "2.4, popularimeters of several users, twice the same",
    t4(f4(b"POPM", H("61 00 05 07")) + f4(b"POPM", H("61 00 06 08")) + f4(b"POPM", H("62 00 07"))),
    "tag 2.4 size 41 flags 0 ext 0",
    "frame 0 POPM at 0 body 4 popularimeter whole user 61 rating 5 counter 7",
    "frame 1 POPM at 14 body 4 popularimeter whole user 61 rating 6 counter 8",
    "frame 2 POPM at 28 body 3 popularimeter whole user 62 rating 7 counter 0",
    "end 3",
)
case(
    "2.2, a box's counter of twelve bytes",
    t2(f2(b"TT2", H("00 41")) + f2(b"POP", H("626F78 00 05 000000000000000000000007"))),
    "tag 2.2 size 31 flags 0 ext 0",
    "frame 0 TT2 at 0 body 2 text whole",
    "frame 1 POP at 8 body 17 popularimeter whole user 626F78 rating 5 counter 7",
    "end 2",
)
case(
    "2.3, a box's counter of twelve bytes",
    t3(f3(b"POPM", H("626F78 00 05 0000000000000000000186A0")) + f3(b"TIT2", H("00 41"))),
    "tag 2.3 size 39 flags 0 ext 0",
    "frame 0 POPM at 0 body 17 popularimeter whole user 626F78 rating 5 counter 100000",
    "frame 1 TIT2 at 27 body 2 text whole",
    "end 2",
)
case(
    "2.4, a box's counters of twelve bytes, none and the most",
    t4(f4(b"POPM", H("626F78 00 05 000000000000000000000000")) + f4(b"POPM", H("626F78 00 05 00000000FFFFFFFFFFFFFFFF")), padding=3),
    "tag 2.4 size 57 flags 0 ext 0",
    "frame 0 POPM at 0 body 17 popularimeter whole user 626F78 rating 5 counter 0",
    "frame 1 POPM at 27 body 17 popularimeter whole user 626F78 rating 5 counter 18446744073709551615",
    "end 2",
)
case(
    "2.4, a frame behind padding is not met",
    t4(f4(b"XYZW", b"\x07") + bytes(1) + f4(b"TIT2", b"\x09")),
    "tag 2.4 size 23 flags 0 ext 0",
    "frame 0 XYZW at 0 body 1 raw whole",
    "end 1",
)
case(
    "2.4, an id of UTF-8",
    t4(f4(H("C3A94142"), b"\x07")),
    "tag 2.4 size 11 flags 0 ext 0",
    b"frame 0 \xc3\xa9AB at 0 body 1 raw whole",
    "end 1",
)
case(
    "2.4, a byte behind a data length of size 0 begins the next frame",
    t4(f4(b"XYZW", H("0000000507"), 0x0001, 0) + f4(b"XYZW", H("00000001 0708"), 0x0001)),
    "tag 2.4 size 31 flags 0 ext 0",
    "frame 0 XYZW at 0 body 0 raw whole",
    b"frame 1 \x07XYZ at 14 body 7 raw short",
    "end 2",
)
case(
    "2.4, data length of size 0, then another frame",
    t4(f4(b"XYZW", H("00000005"), 0x0001, 0) + f4(b"XYZW", H("00000001 0708"), 0x0001)),
    "tag 2.4 size 30 flags 0 ext 0",
    "frame 0 XYZW at 0 body 0 raw whole",
    "frame 1 XYZW at 14 body 2 raw whole",
    "end 2",
)
case(
    "2.3 and compression",
    t3(f3(b"TIT2", H("00000009 0708"), 0x0080) + f3(b"TIT2", H("00 41"))),
    "tag 2.3 size 28 flags 0 ext 0",
    "frame 0 TIT2 at 0 body 2 raw whole",
    "frame 1 TIT2 at 16 body 2 text whole",
    "end 2",
)
case(
    "2.4 and compression, flagged too",
    t4(f4(b"CHAP", H("FF00"), 0x000A)),
    "tag 2.4 size 12 flags 0 ext 0",
    "frame 0 CHAP at 0 body 2 raw whole",
    "end 1",
    work=0,
)
case(
    "2.4, a long frame",
    t4(f4(b"APIC", b"\x07" * 20_000, 0, H("00011C20")) + f4(b"POPM", H("00 01 02"))),
    "tag 2.4 size 20023 flags 0 ext 0",
    "frame 0 APIC at 0 body 20000 raw whole",
    "frame 1 POPM at 20010 body 3 popularimeter whole user - rating 1 counter 2",
    "end 2",
)
case("2.3, forty frames of a header alone", t3(f3(b"XYZW", b"") * 40), "tag 2.3 size 400 flags 0 ext 0", *["frame %d XYZW at %d body 0 raw whole" % (i, 10 * i) for i in range(40)], "end 40")

# ---- extended headers

case(
    "2.3, extended size 6",
    t3(H("00000006 0000") + f3(b"XYZW", b"\x07"), 0x40),
    "tag 2.3 size 17 flags 64 ext 6",
    "frame 0 XYZW at 0 body 1 raw whole",
    "end 1",
)
case(
    "2.4, extended size 10",
    t4(H("0000000A 01000000 0000") + f4(b"XYZW", b"\x07"), 0x40),
    "tag 2.4 size 21 flags 64 ext 10",
    "frame 0 XYZW at 0 body 1 raw whole",
    "end 1",
)
case("2.4, extended size as long as the tag", t4(H("00000007 0000 00"), 0x40), "tag 2.4 size 7 flags 64 ext 7", "end 0")
case("2.3, extended size beyond the tag", t3(H("00000100 0000 58595A57"), 0x40), "tag 2.3 size 10 flags 64 ext 128", "end 0")
case("2.4, extended size of bits 7", t4(H("FFFFFFFF 0000"), 0x40), "tag 2.4 size 6 flags 64 ext 536870911", "end 0")
case(
    "2.3, extended and unsynchronised: the header is not resynchronised",
    t3(H("00000008 FF00 FF00") + f3(b"XYZW", H("FF0007"), 0, 2), 0xC0),
    "tag 2.3 size 21 flags 192 ext 8",
    "frame 0 XYZW at 0 body 2 raw whole",
    "end 1",
    work=12,
)

# ---- tags that are cut, and bytes after a tag

case(
    "2.4, the slice ends in a body",
    t4(f4(b"POPM", H("61 00 05 01"), 0, 8), 0, 18),
    "tag 2.4 size 18 flags 0 ext 0",
    "frame 0 POPM at 0 body 4 popularimeter short user 61 rating 5 counter 1",
    "end 1",
)
case("2.3, the slice ends in a body", t3(f3(b"POPM", H("61 00 05 01"), 0, 8), 0, 18), "tag 2.3 size 18 flags 0 ext 0", "refused 5")
case(
    "2.2, the slice ends in a body",
    t2(f2(b"POP", H("61 00 05 01"), 8), 0, 14),
    "tag 2.2 size 14 flags 0 ext 0",
    "frame 0 POP at 0 body 4 popularimeter short user 61 rating 5 counter 1",
    "end 1",
)
case(
    "2.4, the tag ends in a body, the slice goes on",
    t4(f4(b"TIT2", H("00 41 42 43")), 0, 12),
    "tag 2.4 size 12 flags 0 ext 0",
    "frame 0 TIT2 at 0 body 2 text short",
    "end 1",
)
case("2.3, the tag ends in a body, the slice goes on", t3(f3(b"TIT2", H("00 41 42 43")), 0, 12), "tag 2.3 size 12 flags 0 ext 0", "refused 5")
case(
    "2.2, the tag ends in a body, the slice goes on",
    t2(f2(b"TT2", H("00 41 42 43")), 0, 8),
    "tag 2.2 size 8 flags 0 ext 0",
    "frame 0 TT2 at 0 body 2 text short",
    "end 1",
)
case(
    "2.4, a frame behind the tag is not met",
    t4(f4(b"XYZW", b"\x07") + f4(b"TIT2", b"\x09"), 0, 11),
    "tag 2.4 size 11 flags 0 ext 0",
    "frame 0 XYZW at 0 body 1 raw whole",
    "end 1",
)
case("2.4, the slice ends in a frame header", t4(f4(b"XYZW", b"\x07") + b"TIT2\0\0\0\2\0", 0, 23), "tag 2.4 size 23 flags 0 ext 0", "frame 0 XYZW at 0 body 1 raw whole", "end 1")
case("2.4, ten bytes of a tag of 1000", t4(b"", 0, 1000), "tag 2.4 size 1000 flags 0 ext 0", "end 0")
case("2.4, short and refused: the rating is missing", t4(f4(b"POPM", H("61 00"), 0, 8), 0, 18), "tag 2.4 size 18 flags 0 ext 0", "refused 11")

case(
    "2.4, the slice ends in a box's counter",
    t4(f4(b"POPM", H("61 00 05 0000000000000000000001"), 0, 15), 0, 25),
    "tag 2.4 size 25 flags 0 ext 0",
    "frame 0 POPM at 0 body 14 popularimeter short user 61 rating 5 counter 1",
    "end 1",
)
case(
    "2.2, the slice ends in a box's counter",
    t2(f2(b"POP", H("61 00 05 000000000000000001"), 15), 0, 21),
    "tag 2.2 size 21 flags 0 ext 0",
    "frame 0 POP at 0 body 12 popularimeter short user 61 rating 5 counter 1",
    "end 1",
)
case("2.3, the slice ends in a box's counter", t3(f3(b"POPM", H("61 00 05 0000000000000000000001"), 0, 15), 0, 25), "tag 2.3 size 25 flags 0 ext 0", "refused 5")
case(
    "2.4, the tag ends in a counter too large, and what is there fits",
    t4(f4(b"POPM", H("61 00 05 010000000000000000")), 0, 21),
    "tag 2.4 size 21 flags 0 ext 0",
    "frame 0 POPM at 0 body 11 popularimeter short user 61 rating 5 counter 72057594037927936",
    "end 1",
)
case("2.2, the slice ends in a counter, and what is there does not fit", t2(f2(b"POP", H("61 00 05 010000000000000000"), 15), 0, 21), "tag 2.2 size 21 flags 0 ext 0", "refused 35")

# ---- unsynchronised as a whole

case(
    "2.2, unsynchronised, room exactly full",
    t2(f2(b"POP", H("61 00 FF00 FF0000"), 5), 0x80),
    "tag 2.2 size 13 flags 128 ext 0",
    "frame 0 POP at 0 body 5 popularimeter whole user 61 rating 255 counter 65280",
    "end 1",
    work=11,
)
case("2.2, unsynchronised, room one too small", t2(f2(b"POP", H("61 00 FF00 FF0000"), 5), 0x80), "tag 2.2 size 13 flags 128 ext 0", "refused 14", work=10)
case(
    "2.3, unsynchronised, places after resynchronising",
    t3(f3(b"XYZW", H("FF00 E0"), 0, 2) + f3(b"POPM", H("61 00 05 FF0000"), 0, 5), 0x80),
    "tag 2.3 size 29 flags 128 ext 0",
    "frame 0 XYZW at 0 body 2 raw whole",
    "frame 1 POPM at 12 body 5 popularimeter whole user 61 rating 5 counter 65280",
    "end 2",
    work=27,
)
case(
    "2.3, unsynchronised, room one too small",
    t3(f3(b"XYZW", H("FF00 E0"), 0, 2) + f3(b"POPM", H("61 00 05 FF0000"), 0, 5), 0x80),
    "tag 2.3 size 29 flags 128 ext 0",
    "refused 14",
    work=26,
)
case("2.3, unsynchronised, a header's size is resynchronised", t3(H("58595A57 000000FF00 0000") + b"\x07" * 255, 0x80), "tag 2.3 size 266 flags 128 ext 0", "frame 0 XYZW at 0 body 255 raw whole", "end 1", work=265)
case(
    "2.2, unsynchronised, short after resynchronising",
    t2(f2(b"XYZ", H("FF00 FF00"), 4), 0x80),
    "tag 2.2 size 10 flags 128 ext 0",
    "frame 0 XYZ at 0 body 2 raw short",
    "end 1",
)
case("2.3, unsynchronised, cut after resynchronising", t3(f3(b"XYZW", H("FF00 FF00"), 0, 4), 0x80), "tag 2.3 size 14 flags 128 ext 0", "refused 5")
case("2.3, unsynchronised, no bytes, no room", t3(b"", 0x80), "tag 2.3 size 0 flags 128 ext 0", "end 0", work=0)
case("2.3, unsynchronised, padding needs room too", t3(b"", 0x80, padding=5), "tag 2.3 size 5 flags 128 ext 0", "refused 14", work=4)
case(
    "2.3, unsynchronised, cut by the slice in FF 00",
    t3(f3(b"XYZW", H("07 FF"), 0, 2), 0x80, 13),
    "tag 2.3 size 13 flags 128 ext 0",
    "frame 0 XYZW at 0 body 2 raw whole",
    "end 1",
)
case(
    "2.3, unsynchronised, FF before padding takes a zero of it",
    t3(f3(b"XYZW", H("FF")) + f3(b"XYZW", b"\x07", 0, 1), 0x80, padding=1),
    "tag 2.3 size 23 flags 128 ext 0",
    "frame 0 XYZW at 0 body 1 raw whole",
    "frame 1 XYZW at 11 body 1 raw whole",
    "end 2",
)
case(
    "2.3, unsynchronised, chapters",
    t3(f3(b"CHAP", chap(b"a", f3(b"TIT2", H("01 FFFE 4100")), H("000000FF00 000000FF00 000000FF00 000000FF")), 0, 33), 0x80),
    "tag 2.3 size 46 flags 128 ext 0",
    "frame 0 CHAP at 0 body 33 chapter whole",
    "end 1",
)

# of the zeros that follow an FF in a counter, or in the rating before it, the first is no byte of the counter
case(
    "2.2, unsynchronised, a counter of nine bytes with FF before zeros",
    t2(f2(b"POP", H("61 00 05 00 FF00 00000000000000"), 12), 0x80),
    "tag 2.2 size 19 flags 128 ext 0",
    "frame 0 POP at 0 body 12 popularimeter whole user 61 rating 5 counter 18374686479671623680",
    "end 1",
    work=18,
)
case(
    "2.2, unsynchronised, a box's counter that ends in FF 00",
    t2(f2(b"POP", H("61 00 05 00000000000000000000 FF0000"), 15), 0x80),
    "tag 2.2 size 22 flags 128 ext 0",
    "frame 0 POP at 0 body 15 popularimeter whole user 61 rating 5 counter 65280",
    "end 1",
)
case(
    "2.2, unsynchronised, a counter of FF and eight zeros",
    t2(f2(b"XYZ", H("FF00 07"), 2) + f2(b"POP", H("61 00 05 FF00 0000000000000000"), 12), 0x80),
    "tag 2.2 size 28 flags 128 ext 0",
    "frame 0 XYZ at 0 body 2 raw whole",
    "refused 35",
)
case(
    "2.3, unsynchronised, a counter of nine bytes with FF before zeros",
    t3(f3(b"POPM", H("61 00 05 00 FF00 00 FF00 00 FF00 00 FF00 00"), 0, 12) + f3(b"POPM", H("62 00 06 07")), 0x80),
    "tag 2.3 size 40 flags 128 ext 0",
    "frame 0 POPM at 0 body 12 popularimeter whole user 61 rating 5 counter 18374966859414961920",
    "frame 1 POPM at 22 body 4 popularimeter whole user 62 rating 6 counter 7",
    "end 2",
    work=36,
)
case(
    "2.3, unsynchronised, a box's counter after a rating of FF",
    t3(f3(b"POPM", H("61 00 FF00 000000000000000000000007"), 0, 15), 0x80),
    "tag 2.3 size 26 flags 128 ext 0",
    "frame 0 POPM at 0 body 15 popularimeter whole user 61 rating 255 counter 7",
    "end 1",
)
case(
    "2.3, unsynchronised, a counter of FF and eight zeros",
    t3(f3(b"POPM", H("61 00 05 FF00 00000000000000"), 0, 11) + f3(b"POPM", H("61 00 05 FF00 0000000000000000"), 0, 12), 0x80),
    "tag 2.3 size 45 flags 128 ext 0",
    "frame 0 POPM at 0 body 11 popularimeter whole user 61 rating 5 counter 18374686479671623680",
    "refused 35",
)

# ---- unsynchronised by frame

case(
    "2.4, header flag 80 alone: nothing is resynchronised",
    t4(f4(b"XYZW", H("FF00 07")) + f4(b"POPM", H("61 00 05 FF00")), 0x80),
    "tag 2.4 size 28 flags 128 ext 0",
    "frame 0 XYZW at 0 body 3 raw whole",
    "frame 1 POPM at 13 body 5 popularimeter whole user 61 rating 5 counter 65280",
    "end 2",
    work=0,
)
case(
    "2.4, frames flagged, one over the other",
    t4(f4(b"POPM", H("6162 00 05 FF0000"), 2) + f4(b"POPM", H("63 00 FF00 07"), 2) + f4(b"POPM", H("64 00 01"))),
    "tag 2.4 size 45 flags 0 ext 0",
    "frame 0 POPM at 0 body 6 popularimeter whole user 6162 rating 5 counter 65280",
    "frame 1 POPM at 17 body 4 popularimeter whole user 63 rating 255 counter 7",
    "frame 2 POPM at 32 body 3 popularimeter whole user 64 rating 1 counter 0",
    "end 3",
    work=6,
)
case(
    "2.4, the second flagged frame finds no room",
    t4(f4(b"POPM", H("63 00 FF00 07"), 2) + f4(b"POPM", H("6162 00 05 FF0000"), 2), 0x80),
    "tag 2.4 size 32 flags 128 ext 0",
    "frame 0 POPM at 0 body 4 popularimeter whole user 63 rating 255 counter 7",
    "refused 14",
    work=5,
)
case("2.4, flagged and short", t4(f4(b"XYZW", H("07 FF"), 2, 9), 0, 30), "tag 2.4 size 30 flags 0 ext 0", "frame 0 XYZW at 0 body 2 raw short", "end 1")
case(
    "2.4, flagged counters of nine bytes, the second too large",
    t4(f4(b"POPM", H("61 00 05 00 FF00 00000000000000"), 2) + f4(b"POPM", H("61 00 05 FF00 0000000000000000"), 2) + f4(b"POPM", H("62 00 06 07"))),
    "tag 2.4 size 60 flags 0 ext 0",
    "frame 0 POPM at 0 body 12 popularimeter whole user 61 rating 5 counter 18374686479671623680",
    "refused 35",
)
FLAGGED = f4(b"CHAP", bytes(17) + H("58595A57 00000003 0002 FF000008"), 2)
case("2.4, a flagged subframe behind its chapter, full", t4(FLAGGED), "tag 2.4 size 41 flags 0 ext 0", "frame 0 CHAP at 0 body 30 chapter whole", "end 1", work=32)
case("2.4, a flagged subframe behind its chapter, one too small", t4(FLAGGED), "tag 2.4 size 41 flags 0 ext 0", "refused 14", work=31)
case(
    "2.4, a flagged chapter, then a flagged frame at the front",
    t4(FLAGGED + f4(b"POPM", H("61 00 05 FF0000"), 2)),
    "tag 2.4 size 57 flags 0 ext 0",
    "frame 0 CHAP at 0 body 30 chapter whole",
    "frame 1 POPM at 41 body 5 popularimeter whole user 61 rating 5 counter 65280",
    "end 2",
    work=32,
)

# ---- depth

case("2.4, depth 8", t4(nest(f4, 8)), "tag 2.4 size 216 flags 0 ext 0", "frame 0 CHAP at 0 body 206 chapter whole", "end 1")
case("2.4, depth 9", t4(nest(f4, 9)), "tag 2.4 size 243 flags 0 ext 0", "refused 13")
case("2.3, depth 8 and a text", t3(nest(f3, 7, f3(b"TIT2", H("0041")))), "tag 2.3 size 201 flags 0 ext 0", "frame 0 CHAP at 0 body 191 chapter whole", "end 1")
case("2.3, depth 9, after a frame", t3(f3(b"XYZW", b"\x07") + nest(f3, 8, f3(b"XYZW", b""))), "tag 2.3 size 237 flags 0 ext 0", "frame 0 XYZW at 0 body 1 raw whole", "refused 13")
case("2.4, depth 9 is padding", t4(nest(f4, 8, bytes(10))), "tag 2.4 size 226 flags 0 ext 0", "frame 0 CHAP at 0 body 216 chapter whole", "end 1")

# ---- refusals in frames, after a frame that is listed

GOOD2, GOOD3, GOOD4 = f2(b"XYZ", b"\x07"), f3(b"XYZW", b"\x07"), f4(b"XYZW", b"\x07")
LISTED2 = "frame 0 XYZ at 0 body 1 raw whole"
LISTED4 = "frame 0 XYZW at 0 body 1 raw whole"
case("2.3, 5", t3(GOOD3 + f3(b"XYZW", b"", 0x0080, 0)), "tag 2.3 size 21 flags 0 ext 0", LISTED4, "refused 5")
case("2.4, 7", t4(GOOD4 + f4(H("C0804141"), b"")), "tag 2.4 size 21 flags 0 ext 0", LISTED4, "refused 7")
case("2.2, 7", t2(GOOD2 + f2(H("4141FF"), b"")), "tag 2.2 size 13 flags 0 ext 0", LISTED2, "refused 7")
case("2.4, 8", t4(GOOD4 + f4(b"XYZW", b"", 0x0004)), "tag 2.4 size 21 flags 0 ext 0", LISTED4, "refused 8")
case("2.3, 8", t3(GOOD3 + f3(b"XYZW", b"", 0x0040)), "tag 2.3 size 21 flags 0 ext 0", LISTED4, "refused 8")
case("2.4, 9", t4(GOOD4 + f4(b"XYZW", b"", 0x0040)), "tag 2.4 size 21 flags 0 ext 0", LISTED4, "refused 9")
case("2.3, 9", t3(GOOD3 + f3(b"XYZW", b"", 0x0020)), "tag 2.3 size 21 flags 0 ext 0", LISTED4, "refused 9")
case("2.3, 10", t3(GOOD3 + f3(b"XYZW", bytes(4), 0x0080, 3)), "tag 2.3 size 25 flags 0 ext 0", LISTED4, "refused 10")
case("2.2, 11", t2(GOOD2 + f2(b"POP", H("61"))), "tag 2.2 size 14 flags 0 ext 0", LISTED2, "refused 11")
case("2.4, 12", t4(GOOD4 + f4(b"TIT2", H("04 41"))), "tag 2.4 size 23 flags 0 ext 0", LISTED4, "refused 12")
case("2.4, 30", t4(GOOD4 + f4(b"MLLT", mllt(0, 4))), "tag 2.4 size 31 flags 0 ext 0", LISTED4, "refused 30")
case("2.2, 31", t2(GOOD2 + f2(b"MLL", mllt(4, 5))), "tag 2.2 size 23 flags 0 ext 0", LISTED2, "refused 31")
case("2.3, 30 before 32: both widths 40", t3(GOOD3 + f3(b"MLLT", mllt(40, 40))), "tag 2.3 size 31 flags 0 ext 0", LISTED4, "refused 30")
case("2.2, 35", t2(GOOD2 + f2(b"POP", H("61 00 05 010000000000000000"))), "tag 2.2 size 25 flags 0 ext 0", LISTED2, "refused 35")
case("2.3, 35", t3(GOOD3 + f3(b"POPM", H("61 00 05 010000000000000000"))), "tag 2.3 size 33 flags 0 ext 0", LISTED4, "refused 35")
case("2.4, 35", t4(GOOD4 + f4(b"POPM", H("61 00 05 FFFFFFFFFFFFFFFFFF"))), "tag 2.4 size 33 flags 0 ext 0", LISTED4, "refused 35")
case(
    "2.4, 35 after counters that are listed",
    t4(f4(b"POPM", H("61 00 05 07")) + f4(b"POPM", H("62 00 06 000000000000000008")) + f4(b"POPM", H("63 00 07 000000010000000000000000")) + f4(b"POPM", H("64 00 08 09"))),
    "tag 2.4 size 75 flags 0 ext 0",
    "frame 0 POPM at 0 body 4 popularimeter whole user 61 rating 5 counter 7",
    "frame 1 POPM at 14 body 12 popularimeter whole user 62 rating 6 counter 8",
    "refused 35",
)
case("2.3, 11 before 35: twelve bytes and no zero", t3(GOOD3 + f3(b"POPM", b"\xFF" * 12)), "tag 2.3 size 33 flags 0 ext 0", LISTED4, "refused 11")
case("2.3, a frame refused 12 before one of 35", t3(f3(b"TIT2", b"\x09") + f3(b"POPM", H("61 00 05 010000000000000000"))), "tag 2.3 size 33 flags 0 ext 0", "refused 12")
case("2.3, a frame refused 35 before one of 12", t3(f3(b"POPM", H("61 00 05 010000000000000000")) + f3(b"TIT2", b"\x09")), "tag 2.3 size 33 flags 0 ext 0", "refused 35")
case("2.3, 35 inside a chapter", t3(GOOD3 + f3(b"CHAP", chap(b"a", f3(b"POPM", H("61 00 05 010000000000000000"))))), "tag 2.3 size 61 flags 0 ext 0", LISTED4, "refused 35")
case("2.4, 35 at depth 8", t4(GOOD4 + nest(f4, 7, f4(b"POPM", H("61 00 05 010000000000000000")))), "tag 2.4 size 222 flags 0 ext 0", LISTED4, "refused 35")
case(
    "2.4, a box's counter inside a chapter",
    t4(f4(b"CHAP", chap(b"a", f4(b"POPM", H("61 00 05 000000000000000000000007"))))),
    "tag 2.4 size 53 flags 0 ext 0",
    "frame 0 CHAP at 0 body 43 chapter whole",
    "end 1",
)
case("2.4, refused, and a frame behind is not met", t4(f4(b"TIT2", b"") + GOOD4), "tag 2.4 size 21 flags 0 ext 0", "refused 11")
case("2.3, refused inside a chapter", t3(GOOD3 + f3(b"CHAP", chap(b"a", f3(b"TIT2", b"\x09")))), "tag 2.3 size 50 flags 0 ext 0", LISTED4, "refused 12")


# ---- what the model answers, what was stated, and the files


def lines_of(lines):
    return b"".join((line if isinstance(line, bytes) else line.encode()) + b"\n" for line in lines)


def main():
    names = [c[0] for c in CASES]
    assert len(names) == len(set(names)), "two cases of one name"
    given, wanted = b"", b""
    for i, (name, tag, lines, work) in enumerate(CASES, 1):
        listed = model.listing(tag, work)
        assert listed == lines_of(lines), (name, listed, lines)
        given += number(work) + number(len(tag)) + tag
        wanted += b"case %d\n" % i + listed
    folder = Path(__file__).resolve().parent.parent / "crates" / "test_tags"
    folder.mkdir(exist_ok=True)
    (folder / "stdin").write_bytes(given)
    (folder / "stdout").write_bytes(wanted)
    print(len(CASES), "tags", file=sys.stderr)


if __name__ == "__main__":
    main()
