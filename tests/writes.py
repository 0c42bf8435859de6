"""Cases of writing for the program `test_writes`: writes crates/test_writes/stdin (the cases) and crates/test_writes/stdout (the answers).

Each case is an entry of the table below: how a writer is begun, the records that are added, each with its answer stated by hand (the
frame's bytes or a refusal), and the answer to finishing (the tag's bytes or a refusal). The model is asked too and must agree.

The layout of stdin stands in records.py; what is lent beside the output is the collecting buffer, of that length. Both buffers are filled with A5 at first. Every case is finished, whatever was refused before.

Lines of stdout for a case: `case N`, counted from 1; then `begin refused 2` alone, or
  add accepted COUNT used USED kept HEX       HEX the bytes that the call reports, `-` for none
  add refused NUMBER used USED kept
for each record, and
  finish done COUNT used USED kept HEX
  finish refused NUMBER used USED kept
USED is the writer's after the call. `kept` says that no byte of either buffer has changed but those that the call reports (else `changed`);
a refused call reports none. Hexadecimal is in lower case.
"""

import sys
from pathlib import Path

import model
from layout import H, chap, ctoc, f2, f3, f4, mllt, nest, t2, t3, t4
from records import CRATE, OFF, STANDARD, R, as_read, call, chapter, contents, looked_at, packed_case, pop, raw, read_all, table, text

FILL = 0xA5
CASES = []


def case(name, version, mode, records, finished, altered=False, padding=0, buffer=400, lent=None, output=400, plainly=False):
    """`records` are pairs of a record and its answer. `plainly`: begun by the version alone."""
    lent = buffer if lent is None else lent
    CASES.append((name, version, mode, records, finished, altered, padding, buffer, lent, output, plainly))


def empty(version, mode=OFF):
    """The tag of no frames."""
    return b"ID3" + bytes([version, 0, 0x80 if mode else 0]) + bytes(4)


# ---- beginning

for bad in (0, 1, 5, 255):
    case("version %d" % bad, bad, OFF, [], R(2))
case("version 5, by the version alone", 5, OFF, [], R(2), plainly=True)
case("mode 3", 4, 3, [], R(2))
case("mode 255", 2, 255, [], R(2))
case("version 1 and mode 3, with the mark", 1, 3, [], R(2), altered=True)
for good in (2, 3, 4):
    case("2.%d, no frames, off" % good, good, OFF, [], empty(good))
    case("2.%d, no frames, crate" % good, good, CRATE, [], empty(good, CRATE))
    case("2.%d, no frames, standard" % good, good, STANDARD, [], empty(good, STANDARD))
    case("2.%d, no frames, padding of 5" % good, good, STANDARD, [], empty(good, STANDARD)[:9] + H("05") + bytes(5), padding=5)
case("by the version alone: mode and mark are off", 4, 2, [(raw(b"AENC", "FF00"), f4(b"AENC", H("FF00")))], t4(f4(b"AENC", H("FF00"))), altered=True, plainly=True)

# ---- each edition, mode and kind: frames, and the tag byte for byte

ALL2 = [
    (text(b"TT2", 1, "FFFE4100"), H("545432 000005 01 FFFE 4100")),
    (pop(b"POP", "61", 255, 65280), H("504F50 000005 61 00 FF FF00")),
    (table(b"MLL", 4, 8, 0xA, 0x5C, 0x3, 0x01, steps=(1, 0xFF, 0xE0)), H("4D4C4C 00000D 0001 0000FF 0000E0 04 08 A5C301")),
    (raw(b"XYZ", "FFE0FF00FF"), H("58595A 000005 FFE0FF00FF")),
]
PLAIN2 = H("545432 000005 01 FFFE 4100" "504F50 000005 61 00 FF FF00" "4D4C4C 00000D 0001 0000FF 0000E0 04 08 A5C301" "58595A 000005 FFE0FF00FF")
CRATE2 = H("545432 000005 01 FFFE 4100" "504F50 000005 61 00 FF FF0000" "4D4C4C 00000D 0001 0000FF00 0000E0 04 08 A5C301" "58595A 000005 FFE0FF0000FF")
STANDARD2 = H("545432 000005 01 FF00FE 4100" "504F50 000005 61 00 FF00 FF0000" "4D4C4C 00000D 0001 0000FF00 0000E0 04 08 A5C301" "58595A 000005 FF00E0FF0000FF")
case("2.2, each kind, off", 2, OFF, ALL2, H("494433 02 00 00 00000034") + PLAIN2)
case("2.2, each kind, crate", 2, CRATE, ALL2, H("494433 02 00 80 00000037") + CRATE2)
case("2.2, each kind, standard", 2, STANDARD, ALL2, H("494433 02 00 80 0000003A") + STANDARD2)
case("2.2, each kind, standard, padded", 2, STANDARD, ALL2, H("494433 02 00 80 0000003D") + STANDARD2 + bytes(3), padding=3)

SUB3 = H("54495432 00000002 0000 00 FF")
ALL3 = [
    (text(b"TIT2", 3, "FFE0"), H("54495432 00000003 0000 03 FFE0")),
    (pop(b"POPM", "", 5, 4294967296), H("504F504D 00000007 0000 00 05 0100000000")),
    (table(b"MLLT", 32, 32, 0xFF000000, 0xFFFFFFFF), H("4D4C4C54 00000012 0000 0000 000000 000000 20 20 FF000000 FFFFFFFF")),
    (chapter(b"CHAP", "63", SUB3, (0xFF, 0, 0xE0, 1)), H("43484150 0000001E 0000 63 00 000000FF 00000000 000000E0 00000001 54495432 00000002 0000 00 FF")),
    (contents(b"CTOC", "74", 1, 0, b"\xFF\0c\0"), H("43544F43 00000008 0000 74 00 02 02 FF00 6300")),
    (raw(b"PRIV", "FF"), H("50524956 00000001 0000 FF")),
]
PLAIN3 = H(
    "54495432 00000003 0000 03 FFE0"
    "504F504D 00000007 0000 00 05 0100000000"
    "4D4C4C54 00000012 0000 0000 000000 000000 20 20 FF000000 FFFFFFFF"
    "43484150 0000001E 0000 63 00 000000FF 00000000 000000E0 00000001 54495432 00000002 0000 00 FF"
    "43544F43 00000008 0000 74 00 02 02 FF00 6300"
    "50524956 00000001 0000 FF"
)
CRATE3 = H(
    "54495432 00000003 0000 03 FFE0"
    "504F504D 00000007 0000 00 05 0100000000"
    "4D4C4C54 00000012 0000 0000 000000 000000 20 20 FF00000000 FFFFFFFF"
    "43484150 0000001E 0000 63 00 000000FF00 00000000 000000E0 00000001 54495432 00000002 0000 00 FF"
    "43544F43 00000008 0000 74 00 02 02 FF0000 6300"
    "50524956 00000001 0000 FF"
)
STANDARD3 = H(
    "54495432 00000003 0000 03 FF00E0"
    "504F504D 00000007 0000 00 05 0100000000"
    "4D4C4C54 00000012 0000 0000 000000 000000 20 20 FF00000000 FF00FF00FF00FF"
    "43484150 0000001E 0000 63 00 000000FF00 00000000 000000E0 00000001 54495432 00000002 0000 00 FF"
    "43544F43 00000008 0000 74 00 02 02 FF0000 6300"
    "50524956 00000001 0000 FF"
)
case("2.3, each kind, off", 3, OFF, ALL3, H("494433 03 00 00 0000007F") + PLAIN3)
case("2.3, each kind, crate", 3, CRATE, ALL3, H("494433 03 00 80 00000102") + CRATE3)
case("2.3, each kind, standard", 3, STANDARD, ALL3, H("494433 03 00 80 00000106") + STANDARD3)
case("2.3, each kind, crate, padded", 3, CRATE, ALL3, H("494433 03 00 80 00000104") + CRATE3 + bytes(2), padding=2)

SUB4 = H("54495432 00000003 0000 00 FFE0")
PARTS4 = [
    text(b"TIT2", 0, "FF00FFE0FF"),
    pop(b"POPM", "FF", 255, 18446744073709551615),
    table(b"MLLT", 8, 8, 0xFF, 0x00, 0xFF, 0xE0),
    chapter(b"CHAP", "", SUB4, (0, 0, 0, 0xFF)),
    contents(b"CTOC", "FFE0", 1, 1, b"", SUB4),
    raw(b"XYZ1", ""),
]
PLAIN4 = [
    H("54495432 00000006 0000 00 FF00FFE0FF"),
    H("504F504D 0000000B 0000 FF 00 FF FFFFFFFFFFFFFFFF"),
    H("4D4C4C54 0000000E 0000 0000 000000 000000 08 08 FF00 FFE0"),
    H("43484150 0000001E 0000 00 00000000 00000000 00000000 000000FF 54495432 00000003 0000 00 FFE0"),
    H("43544F43 00000012 0000 FFE0 00 03 00 54495432 00000003 0000 00 FFE0"),
    H("58595A31 00000000 0000"),
]
CRATE4 = [
    H("54495432 00000007 0002 00 FF0000FFE0FF"),
    H("504F504D 0000000C 0002 FF00 00 FF FFFFFFFFFFFFFFFF"),
    H("4D4C4C54 0000000F 0002 0000 000000 000000 08 08 FF0000 FFE0"),
    H("43484150 0000001E 0002 00 00000000 00000000 00000000 000000FF 54495432 00000003 0000 00 FFE0"),
    H("43544F43 00000012 0002 FFE0 00 03 00 54495432 00000003 0000 00 FFE0"),
    H("58595A31 00000000 0002"),
]
STANDARD4 = [
    H("54495432 00000008 0002 00 FF0000FF00E0FF"),
    H("504F504D 00000014 0002 FF00 00 FF00 FF00FF00FF00FF00FF00FF00FF00FF"),
    H("4D4C4C54 00000010 0002 0000 000000 000000 08 08 FF0000 FF00E0"),
    H("43484150 0000001F 0002 00 00000000 00000000 00000000 000000FF 54495432 00000003 0000 00 FF00E0"),
    H("43544F43 00000014 0002 FF00E0 00 03 00 54495432 00000003 0000 00 FF00E0"),
    H("58595A31 00000000 0002"),
]
case("2.4, each kind, off", 4, OFF, list(zip(PARTS4, PLAIN4)), H("494433 04 00 00 0000010B") + b"".join(PLAIN4))
case("2.4, each kind, crate", 4, CRATE, list(zip(PARTS4, CRATE4)), H("494433 04 00 80 0000010E") + b"".join(CRATE4))
case("2.4, each kind, standard", 4, STANDARD, list(zip(PARTS4, STANDARD4)), H("494433 04 00 80 0000011B") + b"".join(STANDARD4))
case("2.4, each kind, standard, padded", 4, STANDARD, list(zip(PARTS4, STANDARD4)), H("494433 04 00 80 0000011F") + b"".join(STANDARD4) + bytes(4), padding=4)

# ---- sizes and flags of frames

case("2.4, body of 127", 4, OFF, [(raw(b"XYZW", "07" * 127), H("58595A57 0000007F 0000") + b"\7" * 127)], t4(f4(b"XYZW", b"\7" * 127)))
case("2.4, body of 128", 4, OFF, [(raw(b"XYZW", "07" * 128), H("58595A57 00000100 0000") + b"\7" * 128)], H("494433 04 00 00 0000010A") + f4(b"XYZW", b"\7" * 128))
case("2.4, body of 127, stored in 128", 4, CRATE, [(raw(b"XYZW", "FF00" + "07" * 125), H("58595A57 00000100 0002 FF0000") + b"\7" * 125)], H("494433 04 00 80 0000010A 58595A57 00000100 0002 FF0000") + b"\7" * 125)
case("2.3, body of 255: FF 00 in the header itself", 3, CRATE, [(raw(b"XYZW", "07" * 255), H("58595A57 000000FF 0000") + b"\7" * 255)], H("494433 03 00 80 0000020A 58595A57 000000FF 000000") + b"\7" * 255)
case("2.3, body of 255, off", 3, OFF, [(raw(b"XYZW", "07" * 255), H("58595A57 000000FF 0000") + b"\7" * 255)], H("494433 03 00 00 00000209 58595A57 000000FF 0000") + b"\7" * 255)
case("2.2, body of 255 that begins with 00", 2, STANDARD, [(raw(b"XYZ", "00" + "07" * 254), H("58595A 0000FF 00") + b"\7" * 254)], H("494433 02 00 80 00000206 58595A 0000FF 0000") + b"\7" * 254)
case("2.2, body of 255 that begins with E0, standard", 2, STANDARD, [(raw(b"XYZ", "E0" + "07" * 254), H("58595A 0000FF E0") + b"\7" * 254)], H("494433 02 00 80 00000206 58595A 0000FF 00E0") + b"\7" * 254)
case("2.2, body of 255 that begins with E0, crate", 2, CRATE, [(raw(b"XYZ", "E0" + "07" * 254), H("58595A 0000FF E0") + b"\7" * 254)], H("494433 02 00 80 00000205 58595A 0000FF E0") + b"\7" * 254)
case("2.3, a body of FF before the next frame", 3, STANDARD, [(raw(b"XYZW", "FF"), f3(b"XYZW", H("FF"))), (raw(b"XYZW", "07"), f3(b"XYZW", H("07")))], t3(f3(b"XYZW", H("FF")) + f3(b"XYZW", H("07")), 0x80))
case("2.3, FF at the end, padding is not guarded", 3, STANDARD, [(raw(b"XYZW", "FF"), f3(b"XYZW", H("FF")))], t3(f3(b"XYZW", H("FF")), 0x80, padding=3), padding=3)
case("2.4, FF at the end, padding is not guarded", 4, STANDARD, [(raw(b"XYZW", "FF"), f4(b"XYZW", H("FF"), 2))], t4(f4(b"XYZW", H("FF"), 2), 0x80, padding=3), padding=3)
for shown, crate, standard in [("FFDF", "FFDF", "FFDF"), ("FF", "FF", "FF"), ("FFFF", "FFFF", "FF00FF"), ("FF00", "FF0000", "FF0000"), ("FFE0", "FFE0", "FF00E0"), ("FFFF00", "FFFF0000", "FF00FF0000")]:
    case("2.4, %s, crate" % shown, 4, CRATE, [(raw(b"XYZW", shown), f4(b"XYZW", H(crate), 2))], t4(f4(b"XYZW", H(crate), 2), 0x80))
    case("2.4, %s, standard" % shown, 4, STANDARD, [(raw(b"XYZW", shown), f4(b"XYZW", H(standard), 2))], t4(f4(b"XYZW", H(standard), 2), 0x80))
    case("2.4, %s, off" % shown, 4, OFF, [(raw(b"XYZW", shown), f4(b"XYZW", H(shown)))], t4(f4(b"XYZW", H(shown))))

# ---- what the kinds write


def one(name, version, record, frame, **more):
    """One record that is accepted, and its frame, in mode off."""
    lay = {2: t2, 3: t3, 4: t4}[version]
    case(name, version, OFF, [(record, frame)], lay(frame), **more)


def none(name, version, record, k, mode=OFF, **more):
    """One record that is refused: the tag of no frames follows."""
    case(name, version, mode, [(record, R(k))], empty(version, mode), **more)


for counter, octets in [
    (0, ""), (1, "01"), (255, "FF"), (256, "0100"), (65280, "FF00"), (65535, "FFFF"), (65536, "010000"), (16777215, "FFFFFF"), (16777216, "01000000"),
    (4294967295, "FFFFFFFF"), (4294967296, "0100000000"), (2**40 - 1, "FFFFFFFFFF"), (2**40, "010000000000"), (2**48, "01000000000000"),
    (2**56 - 1, "FFFFFFFFFFFFFF"), (2**56, "0100000000000000"), (2**63, "8000000000000000"), (2**64 - 1, "FFFFFFFFFFFFFFFF"),
]:
    one("counter %d" % counter, 4, pop(b"POPM", "61", 5, counter), f4(b"POPM", H("61 00 05" + octets)))
one("2.2, counter 65280", 2, pop(b"POP", "61", 5, 65280), H("504F50 000005 61 00 05 FF00"))
one("no user, no rating, no counter", 4, pop(b"POPM", "", 0, 0), H("504F504D 00000002 0000 00 00"))
one("text, empty", 4, text(b"TIT2", 3, ""), H("54495432 00000001 0000 03"))
one("2.2, text, empty", 2, text(b"TT2", 0, ""), H("545432 000001 00"))
one("table without references", 4, table(b"MLLT", 1, 3, steps=(65535, 16777215, 16777215)), H("4D4C4C54 0000000A 0000 FFFF FFFFFF FFFFFF 01 03"))
one("widths 4 and 8, last byte filled", 4, table(b"MLLT", 4, 8, 0xA, 0x5C), H("4D4C4C54 0000000C 0000 0000 000000 000000 04 08 A5C0"))
one("widths 1 and 3", 4, table(b"MLLT", 1, 3, 1, 7, 0, 5), H("4D4C4C54 0000000B 0000 0000 000000 000000 01 03 F5"))
one("widths 3 and 1", 4, table(b"MLLT", 3, 1, 7, 0, 5, 1), H("4D4C4C54 0000000B 0000 0000 000000 000000 03 01 EB"))
one("widths 31 and 1", 4, table(b"MLLT", 31, 1, 2**31 - 1, 0), H("4D4C4C54 0000000E 0000 0000 000000 000000 1F 01 FFFFFFFE"))
one("widths 20 and 12", 4, table(b"MLLT", 20, 12, 0xABCDE, 0x123), H("4D4C4C54 0000000E 0000 0000 000000 000000 14 0C ABCDE123"))
one("widths 5 and 3, three references", 3, table(b"MLLT", 5, 3, 31, 0, 1, 7, 16, 1), H("4D4C4C54 0000000D 0000 0000 000000 000000 05 03 F8 0F 81"))
one("widths 7 and 5, one reference", 3, table(b"MLLT", 7, 5, 0x7F, 0x01), H("4D4C4C54 0000000C 0000 0000 000000 000000 07 05 FE10"))
one("contents of 255 children", 4, contents(b"CTOC", "61", 0, 1, bytes(255)), H("43544F43 00000203 0000 61 00 01 FF") + bytes(255))
one("contents of two children, none named", 3, contents(b"CTOC", "", 0, 0, bytes(2)), H("43544F43 00000005 0000 00 00 02 0000"))
one("what a text lacks is not looked at", 4, text(b"TIT2", 0, "41", name=H("00"), names=H("61"), deviations=(1, 2, 3)), f4(b"TIT2", H("0041")))
one("what a popularimeter lacks is not looked at", 4, pop(b"POPM", "61", 5, 1, names=H("61"), rest=H("07"), deviations=(1,)), f4(b"POPM", H("61000501")))
one("what a table lacks is not looked at", 4, table(b"MLLT", 4, 4, name=H("00"), names=H("61"), rest=H("07")), f4(b"MLLT", mllt(4, 4)))
one("what a chapter lacks is not looked at", 4, chapter(b"CHAP", "61", names=H("61"), deviations=(1,)), f4(b"CHAP", chap(b"a")))
one("what a contents lacks is not looked at", 4, contents(b"CTOC", "61", 1, 0, deviations=(1,)), f4(b"CTOC", ctoc(b"a", 2, 0)))
one("what a raw record lacks is not looked at", 4, raw(b"XYZW", "07", name=H("00"), names=H("61"), deviations=(1,)), f4(b"XYZW", H("07")))

# ---- 21: ids

none("21: 2.4, an id of three", 4, raw(b"XYZ", "07"), 21)
none("21: 2.3, an id of three", 3, raw(b"XYZ", "07"), 21)
none("21: 2.2, an id of four", 2, raw(b"XYZW", "07"), 21)
one("2.2, an id of three", 2, raw(b"XYZ", "07"), f2(b"XYZ", H("07")))
none("21: 2.2, an id of two", 2, raw(b"XY", "07"), 21)
none("21: id 0", 4, raw(b"", "07"), 21)
for place in range(4):
    for wrong in b"@[/:a\0":
        ident = bytearray(b"AZ09")
        ident[place] = wrong
        none("21: byte %02X in place %d" % (wrong, place), 4, raw(bytes(ident), "07"), 21)
none("21: 2.2, a small letter", 2, raw(b"XYz", "07"), 21)
one("A, Z, 0 and 9", 4, raw(b"AZ09", "07"), f4(b"AZ09", H("07")))
one("9, 0, Z and A", 3, raw(b"90ZA", "07"), f3(b"90ZA", H("07")))
one("2.2, 0, 9 and Z", 2, raw(b"09Z", "07"), f2(b"09Z", H("07")))
for record, ident in [
    (text(b"TXXX", 0, "41"), "TXXX"), (text(b"POPM", 0, "41"), "POPM"), (text(b"XYZW", 0, "41"), "XYZW"), (text(b"CHAP", 0, "41"), "CHAP"),
    (pop(b"TIT2", "61", 5, 1), "TIT2"), (pop(b"POPN", "61", 5, 1), "POPN"), (table(b"POPM", 4, 4), "POPM"), (table(b"MLLS", 4, 4), "MLLS"),
    (chapter(b"CTOC", "61"), "CTOC"), (chapter(b"CHAX", "61"), "CHAX"), (contents(b"CHAP", "61", 0, 0), "CHAP"), (contents(b"CTOD", "61", 0, 0), "CTOD"),
]:
    none("21: %s under %s" % (record.kind, ident), 4, record, 21)
for record in [text(b"TXX", 0, "41"), text(b"POP", 0, "41"), pop(b"MLL", "61", 5, 1), table(b"POP", 4, 4), chapter(b"CHA", "61"), contents(b"CTO", "61", 0, 0)]:
    none("21: 2.2, %s under %s" % (record.kind, record.id.decode()), 2, record, 21)
one("2.2, text under TXY", 2, text(b"TXY", 0, "41"), f2(b"TXY", H("0041")))
one("text under TXX1", 4, text(b"TXX1", 0, "41"), f4(b"TXX1", H("0041")))
one("text under T000", 3, text(b"T000", 0, "41"), f3(b"T000", H("0041")))

# ---- 25: raw under an id of a kind, and the marks

for ident in (b"TIT2", b"POPM", b"MLLT", b"CHAP", b"CTOC"):
    none("25: raw under %s" % ident.decode(), 4, raw(ident, "07"), 25)
for ident in (b"TT2", b"POP", b"MLL"):
    none("25: 2.2, raw under %s" % ident.decode(), 2, raw(ident, "07"), 25)
one("raw under TXXX", 4, raw(b"TXXX", "07"), f4(b"TXXX", H("07")))
one("2.2, raw under TXX", 2, raw(b"TXX", "07"), f2(b"TXX", H("07")))
one("2.2, raw under CHA", 2, raw(b"CHA", "07"), f2(b"CHA", H("07")))
none("25: short", 4, raw(b"XYZW", "07", short=True), 25)
none("25: compressed", 3, raw(b"XYZW", "07", compressed=True), 25)
none("25: both marks", 2, raw(b"XYZ", "07", short=True, compressed=True), 25)
none("25: a popularimeter, short", 4, pop(b"POPM", "61", 5, 1, short=True), 25)
none("21 before 25", 4, raw(b"abcd", "07", short=True), 21)
none("25 before 12", 4, text(b"TIT2", 4, "41", compressed=True), 25)

# ---- 12 and 26: texts

none("12: encoding 4", 4, text(b"TIT2", 4, "41"), 12)
none("12: encoding 255", 3, text(b"TIT2", 255, ""), 12)
none("12 before 26", 3, text(b"TIT2", 4, "00"), 12)
for encoding in range(4):
    one("encoding %d" % encoding, 2, text(b"TT2", encoding, "4142"), f2(b"TT2", bytes([encoding]) + H("4142")))
none("26: 2.3, one zero", 3, text(b"TIT2", 0, "00"), 26)
none("26: 2.2, 41 00", 2, text(b"TT2", 3, "4100"), 26)
none("26: 2.3, 41 00 42", 3, text(b"TIT2", 0, "410042"), 26)
none("26: 2.3, a zero pair", 3, text(b"TIT2", 1, "0000"), 26)
none("26: 2.2, a zero pair behind another", 2, text(b"TT2", 2, "00410000"), 26)
none("26: 2.3, a zero pair before an odd byte", 3, text(b"TIT2", 1, "000041"), 26)
one("2.3, zeros at an odd place", 3, text(b"TIT2", 1, "41000041"), f3(b"TIT2", H("0141000041")))
one("2.3, a single zero in pairs", 3, text(b"TIT2", 2, "00"), f3(b"TIT2", H("0200")))
one("2.3, a pair and a zero", 3, text(b"TIT2", 2, "410000"), f3(b"TIT2", H("02410000")))
none("26: 2.4, 41 42 00", 4, text(b"TIT2", 0, "414200"), 26)
none("26: 2.4, 00 41 00", 4, text(b"TIT2", 3, "004100"), 26)
one("2.4, 41 00", 4, text(b"TIT2", 0, "4100"), f4(b"TIT2", H("004100")))
one("2.4, 00", 4, text(b"TIT2", 0, "00"), f4(b"TIT2", H("0000")))
one("2.4, 00 00 00", 4, text(b"TIT2", 3, "000000"), f4(b"TIT2", H("03000000")))
one("2.4, 41 00 42", 4, text(b"TIT2", 0, "410042"), f4(b"TIT2", H("00410042")))
none("26: 2.4, a closing pair", 4, text(b"TIT2", 1, "FFFE41000000"), 26)
none("26: 2.4, an odd byte behind a pair from index 2", 4, text(b"TIT2", 1, "4141414141"), 26)
one("2.4, three bytes in pairs", 4, text(b"TIT2", 1, "414141"), f4(b"TIT2", H("01414141")))
one("2.4, the first pair is not tested", 4, text(b"TIT2", 2, "00410000"), f4(b"TIT2", H("0200410000")))
one("2.4, zero pairs alone", 4, text(b"TIT2", 2, "00000000"), f4(b"TIT2", H("0200000000")))
one("2.4, an odd byte behind zeros", 4, text(b"TIT2", 1, "4141000041"), f4(b"TIT2", H("014141000041")))

# ---- 27 and 28: names

none("27: a user of one zero", 4, pop(b"POPM", "00", 5, 1), 27)
none("27: a zero at a user's end", 2, pop(b"POP", "6100", 5, 1), 27)
none("27: an element id of a chapter", 4, chapter(b"CHAP", "610062"), 27)
none("27: an element id of a contents", 3, contents(b"CTOC", "00", 0, 0), 27)
none("27 before 28", 4, contents(b"CTOC", "00", 0, 0, b"a"), 27)
none("27 before 29", 4, chapter(b"CHAP", "00", b"x"), 27)
none("28: 256 children", 4, contents(b"CTOC", "61", 0, 0, bytes(256)), 28)
none("28: a child that is not closed", 4, contents(b"CTOC", "61", 0, 0, b"b"), 28)
none("28: the last child is not closed", 3, contents(b"CTOC", "61", 0, 0, b"b\0c"), 28)
none("28 before 29", 4, contents(b"CTOC", "61", 0, 0, b"b", b"x"), 28)
one("one child without a name", 4, contents(b"CTOC", "61", 0, 0, b"\0"), f4(b"CTOC", ctoc(b"a", 0, 1, b"\0")))

# ---- 29: runs of subframes

none("29: one byte", 4, chapter(b"CHAP", "61", b"x"), 29)
none("29: one zero", 4, chapter(b"CHAP", "61", b"\0"), 29)
none("29: nine bytes", 3, chapter(b"CHAP", "61", b"XYZW\0\0\0\0\0"), 29)
one("a subframe of a header alone", 3, chapter(b"CHAP", "61", f3(b"XYZW", b"")), f3(b"CHAP", chap(b"a", f3(b"XYZW", b""))))
none("29: padded", 4, chapter(b"CHAP", "61", f4(b"XYZW", b"") + b"\0"), 29)
none("29: padded by a header's length", 3, contents(b"CTOC", "61", 0, 0, b"", f3(b"XYZW", b"") + bytes(10)), 29)
none("29: short", 4, chapter(b"CHAP", "61", f4(b"XYZW", b"\7", size=2)), 29)
none("29: cut in 2.3", 3, chapter(b"CHAP", "61", f3(b"XYZW", b"\7", size=2)), 29)
none("29: a byte left over", 4, chapter(b"CHAP", "61", f4(b"XYZW", b"\7\7", size=1)), 29)
none("29: bad id", 4, chapter(b"CHAP", "61", f4(H("FF414141"), b"")), 29)
one("an id that is no id for writing, but UTF-8", 4, chapter(b"CHAP", "61", f4(b"abcd", b"")), f4(b"CHAP", chap(b"a", f4(b"abcd", b""))))
none("29: encrypted", 4, chapter(b"CHAP", "61", f4(b"XYZW", b"", 4)), 29)
none("29: grouped", 3, chapter(b"CHAP", "61", f3(b"XYZW", b"", 0x20)), 29)
none("29: a text without its encoding", 4, contents(b"CTOC", "61", 0, 0, b"", f4(b"TIT2", b"")), 29)
none("29: a text of encoding 4", 4, chapter(b"CHAP", "61", f4(b"TIT2", b"\4")), 29)
none("29: widths", 4, chapter(b"CHAP", "61", f4(b"MLLT", mllt(0, 4))), 29)
one("a text that writing would refuse, 26, is fine in a run", 3, chapter(b"CHAP", "61", f3(b"TIT2", H("004100"))), f3(b"CHAP", chap(b"a", f3(b"TIT2", H("004100")))))
one("seven chapters deep: depth 8", 4, chapter(b"CHAP", "", nest(f4, 7), (0, 1, 2, 0xFFFFFFFF)), nest(f4, 8))
none("29: eight chapters deep: depth 9", 4, chapter(b"CHAP", "", nest(f4, 8)), 29)
none("29: depth 9 is a text", 3, chapter(b"CHAP", "", nest(f3, 7, f3(b"TIT2", H("0041")))), 29)
one("depth 8 is a text", 3, chapter(b"CHAP", "", nest(f3, 6, f3(b"TIT2", H("0041")))), nest(f3, 7, f3(b"TIT2", H("0041"))))
none("29: flagged", 4, chapter(b"CHAP", "61", f4(b"XYZW", b"", 2)), 29)
none("29: flagged, in a mode", 4, chapter(b"CHAP", "61", f4(b"XYZW", b"\7", 2)), 29, mode=CRATE)
none("29: flagged and compressed", 4, chapter(b"CHAP", "61", f4(b"XYZW", b"", 0x0A)), 29)
none("29: flagged inside a chapter of the run", 4, contents(b"CTOC", "61", 0, 0, b"", nest(f4, 2, f4(b"XYZW", b"", 2))), 29)
none("29: padded inside a chapter of the run", 4, chapter(b"CHAP", "61", nest(f4, 1, bytes(1))), 29)
none("29: short inside a chapter of the run", 4, chapter(b"CHAP", "61", nest(f4, 1, f4(b"XYZW", b"\7", size=2))), 29)
one("0002 is no flag in 2.3", 3, chapter(b"CHAP", "61", f3(b"XYZW", H("FF00"), 2)), f3(b"CHAP", chap(b"a", f3(b"XYZW", H("FF00"), 2))))
one("compressed", 4, chapter(b"CHAP", "61", f4(b"CHAP", b"\7", 8)), f4(b"CHAP", chap(b"a", f4(b"CHAP", b"\7", 8))))
one("compressed in 2.3", 3, chapter(b"CHAP", "61", f3(b"CHAP", bytes(4), 0x80)), f3(b"CHAP", chap(b"a", f3(b"CHAP", bytes(4), 0x80))))
one("data length of size 0", 4, chapter(b"CHAP", "61", f4(b"XYZW", bytes(4), 1, 0)), f4(b"CHAP", chap(b"a", f4(b"XYZW", bytes(4), 1, 0))))
none("29: data length cut", 4, chapter(b"CHAP", "61", f4(b"XYZW", bytes(3), 1, 0)), 29)

# counters of popularimeters in a run: those that do not fit 64 bits, and longer ones that do, written as given (request b)
OVER3 = f3(b"POPM", H("61 00 05 01 0000000000000000"))
OVER4 = f4(b"POPM", H("61 00 05 01 0000000000000000"))
LONG3 = f3(b"POPM", H("61 00 05 00 FFFFFFFFFFFFFFFF"))
LONG4 = f4(b"POPM", H("61 00 05 000000000000000000000007"))
none("29: 2.3, a counter too large", 3, chapter(b"CHAP", "61", OVER3), 29)
none("29: 2.4, a counter too large", 4, chapter(b"CHAP", "61", OVER4), 29)
none("29: 2.3, a counter too large in a contents", 3, contents(b"CTOC", "61", 0, 0, b"b\0", OVER3), 29)
none("29: 2.4, a counter too large in a contents, in a mode", 4, contents(b"CTOC", "61", 0, 0, b"b\0", LONG4 + OVER4), 29, mode=STANDARD)
none("29: 2.4, a counter of nine FF", 4, chapter(b"CHAP", "61", f4(b"POPM", H("61 00 05 FFFFFFFFFFFFFFFFFF"))), 29)
none("29: 2.3, a counter too large behind three zeros", 3, chapter(b"CHAP", "61", f3(b"POPM", H("61 00 05 000000 010000000000000000"))), 29)
none("29: 2.3, a counter too large inside a chapter of the run", 3, chapter(b"CHAP", "61", LONG3 + nest(f3, 1, OVER3)), 29)
none("29: 2.4, a counter too large inside a contents of the run", 4, chapter(b"CHAP", "61", f4(b"CTOC", ctoc(b"a", 0, 0, b"", OVER4))), 29)
none("29: 2.4, a counter too large at depth 8", 4, chapter(b"CHAP", "61", nest(f4, 6, OVER4)), 29)
none("29 before 20: a counter too large", 4, chapter(b"CHAP", "61", OVER4), 29, buffer=0)
one("2.3, a counter of nine bytes", 3, chapter(b"CHAP", "61", LONG3), H("43484150 00000028 0000 6100 00000000 00000001 00000002 FFFFFFFF 504F504D 0000000C 0000 610005 00 FFFFFFFFFFFFFFFF"))
one("2.4, a counter of twelve bytes", 4, chapter(b"CHAP", "61", LONG4), H("43484150 0000002B 0000 6100 00000000 00000001 00000002 FFFFFFFF 504F504D 0000000F 0000 610005 000000000000000000000007"))
one("2.4, a counter of nine bytes in a contents", 4, contents(b"CTOC", "61", 1, 0, b"b\0", f4(b"POPM", H("61 00 05 00 0100000000000000"))), H("43544F43 0000001C 0000 6100 02 01 6200 504F504D 0000000C 0000 610005 00 0100000000000000"))
one("2.3, a counter of sixteen zeros", 3, chapter(b"CHAP", "61", f3(b"POPM", H("61 00 05") + bytes(16))), f3(b"CHAP", chap(b"a", f3(b"POPM", H("61 00 05") + bytes(16)))))
one("2.4, a counter of twelve bytes at depth 8", 4, chapter(b"CHAP", "", nest(f4, 6, LONG4)), nest(f4, 7, LONG4))
one("2.4, a compressed popularimeter with nine FF", 4, chapter(b"CHAP", "61", f4(b"POPM", H("61 00 05 FFFFFFFFFFFFFFFFFF"), 8)), f4(b"CHAP", chap(b"a", f4(b"POPM", H("61 00 05 FFFFFFFFFFFFFFFFFF"), 8))))
case(
    "2.3, a counter of nine bytes, crate",
    3,
    CRATE,
    [(chapter(b"CHAP", "61", f3(b"POPM", H("61 00 05 00 FF00000000000000")), (0, 0, 0, 0)), H("43484150 00000028 0000 6100") + bytes(16) + H("504F504D 0000000C 0000 610005 00 FF00000000000000"))],
    H("494433 03 00 80 00000033 43484150 00000028 0000 6100") + bytes(16) + H("504F504D 0000000C 0000 610005 00 FF0000000000000000"),
)
case(
    "2.4, a counter of nine bytes, standard",
    4,
    STANDARD,
    [(chapter(b"CHAP", "61", f4(b"POPM", H("61 00 05 00 FFFFFFFFFFFFFFFF")), (0, 0, 0, 0)), H("43484150 0000002F 0002 6100") + bytes(16) + H("504F504D 0000000C 0000 610005 00 FF00FF00FF00FF00FF00FF00FF00FF"))],
    H("494433 04 00 80 00000039 43484150 0000002F 0002 6100") + bytes(16) + H("504F504D 0000000C 0000 610005 00 FF00FF00FF00FF00FF00FF00FF00FF"),
)
case(
    "a counter too large between runs that are accepted",
    4,
    OFF,
    [
        (chapter(b"CHAP", "61", LONG4), f4(b"CHAP", chap(b"a", LONG4))),
        (chapter(b"CHAP", "62", OVER4), R(29)),
        (pop(b"POPM", "63", 5, 7), f4(b"POPM", H("63 00 05 07"))),
    ],
    t4(f4(b"CHAP", chap(b"a", LONG4)) + f4(b"POPM", H("63 00 05 07"))),
)

# ---- 30, 31, 33, 34: lookup tables (32 cannot be met: each width is at most 32)

none("30: width 0 of bytes", 4, table(b"MLLT", 0, 4), 30)
none("30: width 0 of milliseconds", 4, table(b"MLLT", 4, 0), 30)
none("30: width 33", 3, table(b"MLLT", 33, 3), 30)
none("30: width 255 of milliseconds", 2, table(b"MLL", 1, 255), 30)
none("30 before 31", 4, table(b"MLLT", 0, 5), 30)
none("30 where the sum is 80", 4, table(b"MLLT", 40, 40), 30)
one("widths 32 and 32", 4, table(b"MLLT", 32, 32), f4(b"MLLT", mllt(32, 32)))
none("31: widths 1 and 1", 4, table(b"MLLT", 1, 1), 31)
none("31: widths 32 and 31", 4, table(b"MLLT", 32, 31), 31)
none("31: widths 4 and 5", 2, table(b"MLL", 4, 5), 31)
none("31 before 33", 4, table(b"MLLT", 4, 5, 1), 31)
none("33: a deviation lacks its pair", 4, table(b"MLLT", 4, 4, 1), 33)
none("33: 16 in four bits", 4, table(b"MLLT", 4, 4, 16, 0), 33)
none("33: 16 in the second four bits", 4, table(b"MLLT", 4, 4, 0, 16), 33)
one("15 in four bits", 4, table(b"MLLT", 4, 4, 15, 15), f4(b"MLLT", mllt(4, 4, H("FF"))))
none("33: 2 in one bit", 4, table(b"MLLT", 1, 3, 2, 0, 0, 0), 33)
none("33: 2^31 in 31 bits", 4, table(b"MLLT", 31, 1, 2**31, 0), 33)
one("2^32 - 1 in 32 bits", 4, table(b"MLLT", 32, 32, 2**32 - 1, 2**32 - 1), f4(b"MLLT", mllt(32, 32, b"\xFF" * 8)))
none("33: a step of bytes of 2^24", 4, table(b"MLLT", 4, 4, steps=(0, 2**24, 0)), 33)
none("33: a step of milliseconds of 2^24", 2, table(b"MLL", 4, 4, steps=(0, 0, 2**24)), 33)
none("33: a step of bytes of 2^32 - 1", 4, table(b"MLLT", 4, 4, steps=(0, 2**32 - 1, 0)), 33)
none("33 before 34", 4, table(b"MLLT", 2, 2, 4, 0), 33)
none("34: widths 2 and 2, one reference", 4, table(b"MLLT", 2, 2, 3, 1), 34)
none("34: widths 1 and 3, one reference", 3, table(b"MLLT", 1, 3, 0, 0), 34)
none("34: widths 3 and 1, three references", 2, table(b"MLL", 3, 1, 0, 0, 0, 0, 0, 0), 34)
one("widths 2 and 2, two references", 4, table(b"MLLT", 2, 2, 3, 1, 0, 2), f4(b"MLLT", mllt(2, 2, H("D2"))))
one("widths 4 and 4, one reference", 4, table(b"MLLT", 4, 4, 3, 1), f4(b"MLLT", mllt(4, 4, H("31"))))
one("widths 8 and 4, one reference", 4, table(b"MLLT", 8, 4, 0x31, 1), f4(b"MLLT", mllt(8, 4, H("3110"))))

# ---- 22: empty bodies (23 takes a body of 2^24 bytes and is not tried here, nor is 24 in adding)

none("22: 2.2, empty", 2, raw(b"XYZ", ""), 22)
one("2.3, empty", 3, raw(b"XYZW", ""), f3(b"XYZW", b""))
one("2.4, empty", 4, raw(b"XYZW", ""), f4(b"XYZW", b""))
one("2.2, one byte", 2, raw(b"XYZ", "00"), f2(b"XYZ", b"\0"))
none("22 before 20", 2, raw(b"XYZ", ""), 22, buffer=0)

# ---- 20: rooms

none("20: no collecting buffer", 4, raw(b"XYZW", ""), 20, buffer=0)
none("20: one byte too small for a frame", 4, raw(b"XYZW", "07"), 20, buffer=10)
one("a collecting buffer that is exactly full", 4, raw(b"XYZW", "07"), f4(b"XYZW", b"\7"), buffer=11)
none("20: 2.2, one byte too small", 2, raw(b"XYZ", "07"), 20, buffer=6)
one("2.2, exactly full", 2, raw(b"XYZ", "07"), f2(b"XYZ", b"\7"), buffer=7)
none("20: unsynchronised, one byte too small", 4, raw(b"XYZW", "FF00"), 20, mode=CRATE, buffer=12)
case("unsynchronised, exactly full", 4, CRATE, [(raw(b"XYZW", "FF00"), f4(b"XYZW", H("FF0000"), 2))], t4(f4(b"XYZW", H("FF0000"), 2), 0x80), buffer=13)
case("the second frame finds no room, a smaller one does", 4, OFF, [(raw(b"XYZW", "07"), f4(b"XYZW", b"\7")), (raw(b"XYZW", "0708"), R(20)), (raw(b"XYZW", "08"), f4(b"XYZW", b"\x08"))], t4(f4(b"XYZW", b"\7") + f4(b"XYZW", b"\x08")), buffer=22)
case("20 in finishing: no output", 4, OFF, [], R(20), output=0)
case("20 in finishing: nine bytes of output", 2, OFF, [], R(20), output=9)
case("ten bytes of output", 2, OFF, [], empty(2), output=10)
case("20 in finishing: one byte too small", 4, OFF, [(raw(b"XYZW", "07"), f4(b"XYZW", b"\7"))], R(20), output=20)
case("output exactly full", 4, OFF, [(raw(b"XYZW", "07"), f4(b"XYZW", b"\7"))], t4(f4(b"XYZW", b"\7")), output=21)
case("20 in finishing: padding, one byte too small", 3, OFF, [(raw(b"XYZW", "07"), f3(b"XYZW", b"\7"))], R(20), output=25, padding=5)
case("output exactly full with padding", 3, OFF, [(raw(b"XYZW", "07"), f3(b"XYZW", b"\7"))], t3(f3(b"XYZW", b"\7"), padding=5), output=26, padding=5)
case("20 in finishing: unsynchronised, one byte too small", 3, CRATE, [(raw(b"XYZW", "FF00"), f3(b"XYZW", H("FF00")))], R(20), output=22)
case("unsynchronised, output exactly full", 3, CRATE, [(raw(b"XYZW", "FF00"), f3(b"XYZW", H("FF00")))], t3(H("58595A57 00000002 0000 FF0000"), 0x80), output=23)
case("20 in finishing: the collecting buffer is shorter than its frames", 4, OFF, [(raw(b"XYZW", "07"), f4(b"XYZW", b"\7"))], R(20), lent=10)
case("the collecting buffer is as long as its frames", 4, OFF, [(raw(b"XYZW", "07"), f4(b"XYZW", b"\7"))], t4(f4(b"XYZW", b"\7")), lent=11)
case("no collecting buffer and no frames", 4, OFF, [], empty(4), buffer=0)

# ---- 24 in finishing, and before 20

case("24: padding of 2^28", 4, OFF, [], R(24), padding=2**28)
case("padding of 2^28 - 1 finds no room", 4, OFF, [], R(20), padding=2**28 - 1)
case("24: padding of 2^32 + 5", 3, OFF, [], R(24), padding=2**32 + 5)
case("24: the largest padding", 2, OFF, [], R(24), padding=2**64 - 1)
ELEVEN = [(raw(b"XYZW", "07"), f4(b"XYZW", b"\7"))]
case("24: frames of 11 and padding of 2^28 - 11", 4, OFF, ELEVEN, R(24), padding=2**28 - 11)
case("frames of 11 and padding of 2^28 - 12 find no room", 4, OFF, ELEVEN, R(20), padding=2**28 - 12)
case("24: the largest padding, with frames", 4, OFF, ELEVEN, R(24), padding=2**64 - 1)
FFS = [(raw(b"XYZW", "FF00"), f3(b"XYZW", H("FF00")))]
case("24: frames as unsynchronised, 13 of 12", 3, CRATE, FFS, R(24), padding=2**28 - 13)
case("frames as unsynchronised, 13 of 12, one less", 3, CRATE, FFS, R(20), padding=2**28 - 14)
case("24: judged on the frames that are there", 4, OFF, ELEVEN, R(24), padding=2**28 - 5, lent=5)
case("24: judged on the frames that are there, one less", 4, OFF, ELEVEN, R(20), padding=2**28 - 6, lent=5)

# ---- the altered mark

LOST4 = [raw(b"AENC", "07"), raw(b"ETCO", "07"), raw(b"EQUA", "07"), table(b"MLLT", 4, 4), raw(b"POSS", "07"), raw(b"SYLT", "07"), raw(b"SYTC", "07"), raw(b"RVAD", "07"), text(b"TENC", 0, "41"), text(b"TLEN", 0, "41"), text(b"TSIZ", 0, "41")]
LOST2 = [raw(b"CRA", "07"), raw(b"ETC", "07"), raw(b"EQU", "07"), table(b"MLL", 4, 4), raw(b"SLT", "07"), raw(b"STC", "07"), raw(b"RVA", "07"), text(b"TEN", 0, "41"), text(b"TLE", 0, "41"), text(b"TSI", 0, "41")]


def laid(lay, record):
    """The frame of one of these records, by its id alone."""
    body = mllt(4, 4) if record.kind == "table" else H("0041") if record.kind == "text" else b"\7"
    return lay(record.id, body)


case("2.4, altered", 4, OFF, [(r, b"") for r in LOST4], empty(4), altered=True)
case("2.3, altered", 3, STANDARD, [(r, b"") for r in LOST4], empty(3, STANDARD), altered=True)
case("2.2, altered", 2, CRATE, [(r, b"") for r in LOST2], empty(2, CRATE), altered=True)
case("2.4, not altered", 4, OFF, [(r, laid(f4, r)) for r in LOST4], t4(b"".join(laid(f4, r) for r in LOST4)))
case("2.3, not altered", 3, OFF, [(r, laid(f3, r)) for r in LOST4], t3(b"".join(laid(f3, r) for r in LOST4)))
case("2.2, not altered", 2, OFF, [(r, laid(f2, r)) for r in LOST2], t2(b"".join(laid(f2, r) for r in LOST2)))
case("altered, no room is needed", 4, OFF, [(r, b"") for r in LOST4], empty(4), altered=True, buffer=0)
case("altered, 22 is not looked at", 2, OFF, [(raw(b"CRA", ""), b"")], empty(2), altered=True)
one("altered, other ids are written", 4, raw(b"RVA2", "07"), f4(b"RVA2", b"\7"), altered=True)
one("altered, TIT2 is written", 4, text(b"TIT2", 0, "41"), f4(b"TIT2", H("0041")), altered=True)
one("2.2, altered, LNK is written", 2, raw(b"LNK", "07"), f2(b"LNK", b"\7"), altered=True)
case("altered, 25 comes before", 4, OFF, [(raw(b"AENC", "07", short=True), R(25)), (raw(b"TLEN", "07"), R(25))], empty(4), altered=True)
case("altered, 26 comes before", 4, OFF, [(text(b"TLEN", 0, "414200"), R(26)), (text(b"TLEN", 9, "41"), R(12))], empty(4), altered=True)
case("altered, 30 to 34 come before", 4, OFF, [(table(b"MLLT", 0, 4), R(30)), (table(b"MLLT", 4, 5), R(31)), (table(b"MLLT", 4, 4, 1), R(33)), (table(b"MLLT", 2, 2, 3, 1), R(34))], empty(4), altered=True)
case("altered, 21 comes before", 4, OFF, [(text(b"AENC", 0, "41"), R(21))], empty(4), altered=True)

# ---- refused calls between accepted ones leave no trace

case(
    "refusals between frames",
    4,
    STANDARD,
    [
        (raw(b"XYZW", "FFE0"), f4(b"XYZW", H("FF00E0"), 2)),
        (raw(b"xyzw", "07"), R(21)),
        (text(b"TIT2", 0, "414200"), R(26)),
        (pop(b"POPM", "61", 5, 1), f4(b"POPM", H("61000501"), 2)),
        (pop(b"POPM", "6100", 5, 1), R(27)),
        (raw(b"XYZW", "07" * 300), R(20)),
        (raw(b"XYZW", ""), f4(b"XYZW", b"", 2)),
    ],
    t4(f4(b"XYZW", H("FF00E0"), 2) + f4(b"POPM", H("61000501"), 2) + f4(b"XYZW", b"", 2), 0x80, padding=1),
    padding=1,
    buffer=100,
)


# ---- what the model answers, what was stated, and the files


def check(name, answer, wanted):
    told = answer.number if isinstance(answer, R) else bytes(answer)
    hoped = wanted.number if isinstance(wanted, R) else bytes(wanted)
    assert told == hoped, (name, told if isinstance(told, int) else told.hex(), hoped if isinstance(hoped, int) else hoped.hex())


def line(word, done, answer, used):
    if isinstance(answer, R):
        return "%s refused %d used %d kept\n" % (word, answer.number, used)
    return "%s %s %d used %d kept %s\n" % (word, done, len(answer), used, answer.hex() or "-")


def answers(c):
    """The lines of a case; each answer is held against the one that is stated, and a finished tag is read back."""
    name, version, mode, records, finished, altered, padding, buffer_length, lent, output_length, plainly = c
    writer = call(model.Writer, version) if plainly else call(model.Writer, version, mode, altered)
    if isinstance(writer, R):
        check(name, writer, finished)
        return "begin refused %d\n" % writer.number
    buffer = bytearray([FILL]) * buffer_length
    out, accepted = "", []
    for i, (record, wanted) in enumerate(records):
        before, used = bytes(buffer), writer.used
        answer = call(writer.add, as_read(version, record), buffer)
        check((name, i), answer, wanted)
        count = writer.used - used
        assert buffer[:used] == before[:used] and buffer[used + count :] == before[used + count :], name
        out += line("add", "accepted", answer, writer.used)
        if count > 0:
            accepted.append(as_read(version, record))
    output = bytearray([FILL]) * output_length
    answer = call(writer.finish, padding, buffer[:lent], output)
    check(name, answer, finished)
    count = 0 if isinstance(answer, R) else len(answer)
    assert output[count:] == bytes([FILL]) * (output_length - count), name
    if count > 0:
        found = read_all(answer, bytearray(len(answer)))
        assert found == [looked_at(r) for r in accepted], (name, found)
    return out + line("finish", "done", answer, writer.used)


def packed(c):
    _, version, mode, records, _, altered, padding, buffer, lent, output, plainly = c
    return packed_case(version, plainly, mode, altered, padding, buffer, lent, output, [record for record, _ in records])


def main():
    names = [c[0] for c in CASES]
    assert len(names) == len(set(names)), [n for n in names if names.count(n) > 1]
    lines = "".join("case %d\n" % i + answers(c) for i, c in enumerate(CASES, 1))
    folder = Path(__file__).resolve().parent.parent / "crates" / "test_writes"
    folder.mkdir(exist_ok=True)
    (folder / "stdin").write_bytes(b"".join(map(packed, CASES)))
    (folder / "stdout").write_text(lines)
    print(len(CASES), "cases of writing", file=sys.stderr)


if __name__ == "__main__":
    main()
