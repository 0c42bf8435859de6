"""Raises for the program `test_raises`: writes crates/test_raises/stdin (the cases) and crates/test_raises/stdout (the answers).

Each case of the table below is a name, the bytes, a user, an amount, and the answer stated by hand: a refusal, after which the bytes are as they
were, or the new counter and all bytes then. The model is asked too and must agree. Behind them come raises made by chance (chance.py), whose
answers are the model's. The promises on raising are asked of the model in promised.py.

A case in stdin, numbers big-endian: length of the bytes (4 bytes), the tag with what follows it, length of the user (4), the user, amount (8).
A line of stdout for each case, N counted from 1:
  case N counts COUNTER HEX       HEX all the lent bytes after the call, `-` for none
  case N refused NUMBER HEX
Hexadecimal is in lower case.
"""

import sys
from pathlib import Path

import chance
import model
from layout import H, chap, ctoc, f2, f3, f4, mllt, nest, number, tag

EDITIONS = (2, 3, 4)
BY_CHANCE = 200
MOST = 2**64 - 1
CASES = []


def refused(name, k, version, given, user=b"a", amount=1):
    """A refused raise: all bytes stay."""
    CASES.append(("2.%d, %d: %s" % (version, k, name), given, user, amount, k, 0, given))


def raised(name, counter, version, given, after, user=b"a", amount=1):
    """An accepted raise: the new counter, and the bytes after it."""
    CASES.append(("2.%d, %s" % (version, name), given, user, amount, 0, counter, after))


# ---- layouts by the edition: 2.2 has ids of three letters, and no flags

LAY = {2: f2, 3: f3, 4: f4}
THREE = {b"POPM": b"POP", b"TIT2": b"TT2", b"MLLT": b"MLL", b"XYZW": b"XYZ"}
COMPRESSED = {3: 0x0080, 4: 0x0008}
NOT_UTF8 = {2: b"AA\xFF", 3: b"AAA\xFF", 4: b"AAA\xFF"}
UTF8 = {2: b"A\xC3\xA9", 3: b"AA\xC3\xA9", 4: b"AA\xC3\xA9"}


def lay(version, ident, body, *more, **named):
    return LAY[version](THREE[ident] if version == 2 else ident, body, *more, **named)


def pop(version, counter, user=b"a", **named):
    """A popularimeter with the rating 5; its counter's bytes are in hexadecimal."""
    return lay(version, b"POPM", user + b"\0\5" + H(counter), **named)


def whole(version, frames, flags=0, size=None, padding=0):
    return tag(version, frames, flags, size, padding)


def compressed(version, body=b"\7"):
    """A raw frame that is compressed: in 2.3 four bytes stand before its body."""
    return lay(version, b"XYZW", bytes(4) + body if version == 3 else body, COMPRESSED[version])


# ---- counters: 43 and 44, and what fits

FITTING = [
    ("", 0, "", 0), ("00", 0, "00", 0), ("00", 1, "01", 1), ("00", 255, "FF", 255), ("FE", 1, "FF", 255), ("FF", 0, "FF", 255),
    ("0000", 0, "0000", 0), ("00FF", 1, "0100", 256), ("0001", 255, "0100", 256), ("0000", 65_535, "FFFF", 65_535), ("FF00", 255, "FFFF", 65_535),
    ("00FFFF", 1, "010000", 65_536), ("01000000", 0x00FE_FFFF, "01FEFFFF", 0x01FE_FFFF), ("00FFFFFFFF", 1, "0100000000", 2**32),
    ("00FFFFFFFFFFFF", 1, "01000000000000", 2**48), ("00FFFFFFFFFFFFFF", 1, "0100000000000000", 2**56),
    ("0000000000000000", MOST, "FFFFFFFFFFFFFFFF", MOST), ("FFFFFFFFFFFFFFFE", 1, "FFFFFFFFFFFFFFFF", MOST), ("FFFFFFFFFFFFFFFF", 0, "FFFFFFFFFFFFFFFF", MOST),
    ("00FFFFFFFFFFFFFFFF", 0, "00FFFFFFFFFFFFFFFF", MOST), ("000123456789ABCDEF", 0x11, "000123456789ABCE00", 0x0123_4567_89AB_CE00),
    ("000000000000000000000007", 5, "00000000000000000000000C", 12), ("0000000000000000000000FF", 1, "000000000000000000000100", 256),
    ("000000000000000000000000", MOST, "00000000FFFFFFFFFFFFFFFF", MOST), ("00000000FFFFFFFFFFFFFFFF", 0, "00000000FFFFFFFFFFFFFFFF", MOST),
]
TOO_SHORT = [
    ("", 1), ("", MOST), ("FF", 1), ("00", 256), ("01", 255), ("00", MOST), ("FF", MOST - 255), ("FFFF", 1), ("0000", 65_536), ("FFFFFF", 1), ("FFFFFFFF", 1), ("FFFFFFFFFF", 1),
    ("FFFFFFFFFFFF", 1), ("FFFFFFFFFFFFFF", 1), ("00000000000000", 2**56),
]
TOO_LARGE = [
    ("FFFFFFFFFFFFFFFF", 1), ("FFFFFFFFFFFFFFFF", MOST), ("0000000000000001", MOST), ("8000000000000000", 2**63), ("00FFFFFFFFFFFFFFFF", 1), ("00000000FFFFFFFFFFFFFFFF", 1),
    ("01", MOST), ("FF", MOST - 254),
]
for v in EDITIONS:
    for old, amount, new, counter in FITTING:
        raised("%s by %d" % (old or "no bytes", amount), counter, v, whole(v, pop(v, old)), whole(v, pop(v, new)), amount=amount)
    for old, amount in TOO_SHORT:
        refused("%s by %d" % (old or "no bytes", amount), 44, v, whole(v, pop(v, old)), amount=amount)
    for old, amount in TOO_LARGE:
        refused("%s by %d" % (old, amount), 43, v, whole(v, pop(v, old)), amount=amount)

# ---- the header's refusals, each with the tag nearest to it

refused("no bytes", 1, 4, b"")
refused("no ID3", 1, 4, H("494434 04 00 00 00000000"))
refused("edition 1", 2, 1, H("494433 01 00 00 00000000"))
refused("edition 5", 2, 5, H("494433 05 00 00 00000000"))
for v in EDITIONS:
    refused("nine bytes", 1, v, whole(v, b"")[:9])
    refused("ten bytes", 41, v, whole(v, b""))
    refused("flag 01", 3, v, whole(v, b"", 0x01))
    refused("flags 88", 3, v, whole(v, b"", 0x88))
    refused("flag 10", 41, v, whole(v, b"", 0x10))
    raised("flags 30", 1, v, whole(v, pop(v, "00"), 0x30), whole(v, pop(v, "01"), 0x30))
refused("flag 40", 4, 2, whole(2, b"", 0x40))
refused("flags C0", 4, 2, whole(2, b"", 0xC0))
for v in (3, 4):
    for flags in (0x40, 0xC0):
        refused("flags %02X, five bytes" % flags, 5, v, whole(v, H("00000006 00"), flags))
        refused("flags %02X, six bytes, five in the tag" % flags, 5, v, whole(v, H("00000006 0000"), flags, 5))
        refused("flags %02X, extended size 5" % flags, 6, v, whole(v, H("00000005 0000"), flags))
        refused("flags %02X, extended size 6" % flags, 40, v, whole(v, H("00000006 0000"), flags))
    refused("an extended header before a popularimeter", 40, v, whole(v, H("00000006 0000") + pop(v, "00"), 0x40))

# ---- the frames' refusals, each with the tag nearest to it


def pair(name, k, version, bad, good, nearest=41):
    """A frame that is refused, and one next to it that is not: no popularimeter has the user."""
    refused(name, k, version, whole(version, bad))
    refused("next to %s" % name, nearest, version, whole(version, good))


for v in EDITIONS:
    pair("an id that is not UTF-8", 7, v, LAY[v](NOT_UTF8[v], b""), LAY[v](UTF8[v], b""))
    pair("text of no bytes", 11, v, lay(v, b"TIT2", b""), lay(v, b"TIT2", b"\0"))
    pair("table of nine bytes", 11, v, lay(v, b"MLLT", mllt(4, 4)[:9]), lay(v, b"MLLT", mllt(4, 4)))
    pair("encoding 4", 12, v, lay(v, b"TIT2", b"\4"), lay(v, b"TIT2", b"\3"))
    pair("width 0", 30, v, lay(v, b"MLLT", mllt(0, 4)), lay(v, b"MLLT", mllt(1, 3)))
    pair("width 33", 30, v, lay(v, b"MLLT", mllt(3, 33)), lay(v, b"MLLT", mllt(4, 32)))
    pair("widths 4 and 5", 31, v, lay(v, b"MLLT", mllt(4, 5)), lay(v, b"MLLT", mllt(4, 4)))
    refused("popularimeter of no bytes", 11, v, whole(v, lay(v, b"POPM", b"")))
    refused("popularimeter without a zero", 11, v, whole(v, lay(v, b"POPM", b"a")))
    refused("popularimeter without a rating", 11, v, whole(v, lay(v, b"POPM", b"a\0")), amount=0)
    refused("a counter of 2^64", 35, v, whole(v, pop(v, "010000000000000000")), amount=0)
    refused("another user's counter of 2^64", 35, v, whole(v, pop(v, "00") + pop(v, "010000000000000000", b"b")))
for v in (3, 4):
    encrypted, grouped = (0x0040, 0x0020) if v == 3 else (0x0004, 0x0040)
    pair("encrypted", 8, v, lay(v, b"XYZW", b"", encrypted), lay(v, b"XYZW", b"", 0x0010))
    pair("grouped", 9, v, lay(v, b"XYZW", b"", grouped), lay(v, b"XYZW", b"", 0x8000))
    pair("chapter of sixteen bytes", 11, v, lay(v, b"CHAP", bytes(16)), lay(v, b"CHAP", bytes(17)))
    pair("contents of two bytes", 11, v, lay(v, b"CTOC", bytes(2)), lay(v, b"CTOC", bytes(3)))
    pair("contents without a child's name", 11, v, lay(v, b"CTOC", H("00 00 01")), lay(v, b"CTOC", H("00 00 01 00")))
    pair("depth 9", 13, v, nest(LAY[v], 9), nest(LAY[v], 8))
    pair("a refusal inside a chapter", 12, v, nest(LAY[v], 1, lay(v, b"TIT2", b"\4")), nest(LAY[v], 1, lay(v, b"TIT2", b"\3")))
    pair("a counter of 2^64 inside a chapter", 35, v, nest(LAY[v], 1, pop(v, "010000000000000000")), nest(LAY[v], 1, pop(v, "00FFFFFFFFFFFFFFFF")))
pair("a body that is cut", 5, 3, f3(b"XYZW", b"", 0, 1), f3(b"XYZW", b"", 0, 0))
pair("three bytes of a data length", 5, 3, f3(b"XYZW", bytes(3), 0x0080, 4), f3(b"XYZW", bytes(4), 0x0080, 4), nearest=40)
pair("three bytes of a data length", 5, 4, f4(b"XYZW", bytes(3), 0x0001, 4), f4(b"XYZW", bytes(4), 0x0001, 4))
pair("size 3 with a data length", 10, 3, f3(b"XYZW", bytes(4), 0x0080, 3), f3(b"XYZW", bytes(4), 0x0080, 4), nearest=40)
refused("a popularimeter of size 3 with a data length has no bytes", 11, 4, whole(4, f4(b"POPM", b"a\0\5\0", 0x0001, 3)))

# ---- 40: bytes that are missing, and header flags

for v in EDITIONS:
    padded = whole(v, pop(v, "00"), padding=12)
    refused("the size says one byte more", 40, v, whole(v, pop(v, "00"), 0, len(pop(v, "00")) + 1))
    refused("ten bytes of a tag of 1000", 40, v, whole(v, b"", 0, 1000))
    refused("cut in the middle of its padding", 40, v, padded[:-6])
    refused("cut by the last byte of its padding", 40, v, padded[:-1])
    refused("cut where its padding begins", 40, v, padded[:-12])
    raised("not cut", 1, v, padded, whole(v, pop(v, "01"), padding=12))
    refused("flag 80", 40, v, whole(v, pop(v, "00"), 0x80))
    refused("flag 80 and no frames", 40, v, whole(v, b"", 0x80))
    refused("flag 80 and cut", 40, v, whole(v, pop(v, "00"), 0x80, 100))
refused("size of bits 7", 40, 4, whole(4, pop(4, "00"), 0, H("FFFFFFFF")))
raised("sizes with bit 7 set, as they are joined", 1, 4, whole(4, f4(b"POPM", b"a\0\5" + bytes(125), 0, H("00000080")), 0, H("0000018A")), whole(4, f4(b"POPM", b"a\0\5" + bytes(124) + b"\1", 0, H("00000080")), 0, H("0000018A")))
refused("an extended header and the popularimeter in it", 40, 3, whole(3, H("00000012 0000") + pop(3, "00"), 0x40))

# ---- 40: short frames

for v in (2, 4):
    x, of_two = lay(v, b"XYZW", b"\7"), lay(v, b"XYZW", b"\7", size=2)
    refused("a short frame after it", 40, v, whole(v, pop(v, "00") + of_two))
    raised("a frame after it that is not short", 1, v, whole(v, pop(v, "00") + x), whole(v, pop(v, "01") + x))
    refused("the popularimeter itself is short", 40, v, whole(v, pop(v, "00", size=5)))
    refused("a short frame and no user", 40, v, whole(v, of_two))
    refused("the slice ends in the frame after it", 40, v, whole(v, pop(v, "00") + lay(v, b"XYZW", b"\7\7"))[:-1])
refused("the slice ends in the frame after it", 5, 3, whole(3, pop(3, "00") + f3(b"XYZW", b"\7\7"))[:-1])
refused("a frame after it that is cut", 5, 3, whole(3, pop(3, "00") + f3(b"XYZW", b"\7", 0, 2)))
refused("a subframe that is cut", 5, 3, whole(3, pop(3, "00") + nest(f3, 1, f3(b"XYZW", b"\7", 0, 2))))
for depth in (1, 7):
    refused("a short subframe at depth %d" % (depth + 1), 40, 4, whole(4, pop(4, "00") + nest(f4, depth, f4(b"XYZW", b"\7", 0, 2))))
    raised("a whole subframe at depth %d" % (depth + 1), 1, 4, *[whole(4, pop(4, c) + nest(f4, depth, f4(b"XYZW", b"\7"))) for c in ("00", "01")])
refused("a short subframe in a table of contents", 40, 4, whole(4, f4(b"CTOC", ctoc(b"t", 3, 1, b"c\0", f4(b"XYZW", b"", 0, 1))) + pop(4, "00")))

# ---- 40: compressed frames, and frames flagged 0002

for v in (3, 4):
    refused("a compressed frame after it", 40, v, whole(v, pop(v, "00") + compressed(v)))
    refused("a compressed frame before it", 40, v, whole(v, compressed(v) + pop(v, "00")))
    refused("a compressed frame and no user", 40, v, whole(v, compressed(v)))
    refused("the popularimeter itself is compressed", 40, v, whole(v, lay(v, b"POPM", b"a\0\5\0\0", COMPRESSED[v])))
    for depth in (1, 7):
        refused("a compressed subframe at depth %d" % (depth + 1), 40, v, whole(v, pop(v, "00") + nest(LAY[v], depth, compressed(v))))
for flags in (0x0002, 0x0003, 0x000A, 0x000B, 0x8002):
    refused("a frame flagged %04X after it" % flags, 40, 4, whole(4, pop(4, "00") + f4(b"XYZW", bytes(4), flags)))
    refused("a subframe flagged %04X" % flags, 40, 4, whole(4, nest(f4, 1, f4(b"XYZW", bytes(4), flags)) + pop(4, "00")))
refused("a subframe flagged 0002 at depth 8", 40, 4, whole(4, pop(4, "00") + nest(f4, 7, f4(b"XYZW", b"", 0x0002))))
refused("the popularimeter itself is flagged 0002", 40, 4, whole(4, f4(b"POPM", b"a\0\5\0", 0x0002)))
raised("flags that are not named", 1, 4, *[whole(4, f4(b"POPM", b"a\0\5" + c, 0xFFB0)) for c in (b"\0", b"\1")])
raised("flags that are not named", 1, 3, *[whole(3, f3(b"POPM", b"a\0\5" + c, 0xFF1F)) for c in (b"\0", b"\1")])

# ---- 40: what stands behind the last frame

for v in EDITIONS:
    header = 6 if v == 2 else 10
    for name, behind in [
        ("a byte that is not zero", b"\1"), ("one byte less than a frame header", b"x" * (header - 1)), ("a zero, then a byte that is not", b"\0\1"), ("zeros, the last byte is not", bytes(header + 3) + b"\xFF"),
        ("a frame behind padding", bytes(1) + pop(v, "00")),
    ]:
        refused(name, 40, v, whole(v, pop(v, "00") + behind))
    for count in (1, header - 1, header, header + 1):
        raised("%d zeros" % count, 1, v, whole(v, pop(v, "00"), padding=count), whole(v, pop(v, "01"), padding=count))
    refused("a byte that is not zero, and no frames", 40, v, whole(v, b"\0" * 9 + b"\1"))
    refused("zeros, and no frames", 41, v, whole(v, bytes(10)))
    raised("bytes after the tag", 1, v, whole(v, pop(v, "00"), padding=3) + H("FFFB9064 00"), whole(v, pop(v, "01"), padding=3) + H("FFFB9064 00"))
    raised("a popularimeter after the tag", 1, v, whole(v, pop(v, "00"), 0, len(pop(v, "00"))) + pop(v, "FF"), whole(v, pop(v, "01"), 0, len(pop(v, "00"))) + pop(v, "FF"))
    refused("a popularimeter after the tag alone", 41, v, whole(v, b"") + pop(v, "00"))

# ---- what is plain although it looks otherwise

for amount, counter, old, new in [(0, 255, "FF", "FF"), (1, 256, "00FF", "0100")]:
    for length in (b"\0\0\0\7", b"a\0\5\0", b"\xFF" * 4):
        raised("a data length %s before %s" % (length.hex(), old), counter, 4, *[whole(4, f4(b"POPM", length + b"a\0\5" + H(c), 0x0001)) for c in (old, new)], amount=amount)
refused("a data length before FF", 44, 4, whole(4, f4(b"POPM", bytes(4) + b"a\0\5\xFF", 0x0001)))
raised("a data length of size 0 before it", 1, 4, *[whole(4, f4(b"XYZW", H("00000005"), 0x0001, 0) + pop(4, c)) for c in ("00", "01")])
for v in (3, 4):
    x = lay(v, b"XYZW", b"\7")
    for name, run in [("zeros", bytes(12)), ("a frame and zeros", x + bytes(3)), ("a frame, a zero and more", x + b"\0x"), ("three bytes that are no header", b"xyz")]:
        raised("a chapter's run of %s" % name, 1, v, *[whole(v, nest(LAY[v], 1, run) + pop(v, c)) for c in ("00", "01")])
    raised("contents with a padded run", 1, v, *[whole(v, lay(v, b"CTOC", ctoc(b"t", 3, 1, b"c\0", x + bytes(10))) + pop(v, c)) for c in ("00", "01")])
    raised("a padded run at depth 8", 1, v, *[whole(v, pop(v, c) + nest(LAY[v], 7, x + bytes(10)), padding=4) for c in ("00", "01")])
raised("every kind around it", 256, 2, *[whole(2, f2(b"TT2", b"\1\xFF\xFEA\0") + f2(b"MLL", mllt(4, 8, H("A5C301"))) + pop(2, c) + f2(b"PIC", b"\xFF\0") + pop(2, "FF", b"b"), padding=7) for c in ("00FF", "0100")])
for v in (3, 4):
    before = lay(v, b"TIT2", b"\1\xFF\xFEA\0") + lay(v, b"MLLT", mllt(4, 8, H("A5C301"))) + lay(v, b"CHAP", chap(b"c", pop(v, "07")))
    behind = lay(v, b"CTOC", ctoc(b"t", 3, 1, b"c\0", pop(v, "08"))) + lay(v, b"XYZW", b"\xFF\0") + pop(v, "FF", b"b")
    raised("every kind around it", 256, v, *[whole(v, before + pop(v, c) + behind, padding=7) for c in ("00FF", "0100")])

# ---- 41 and 42: users

for v in EDITIONS:
    for name, user, given in [
        ("another user", b"a", b"b"), ("a longer user", b"a", b"ab"), ("a shorter user", b"ab", b"a"), ("no user", b"a", b""), ("a capital letter", b"A", b"a"), ("no user given", b"", b"a"),
        ("another last byte", b"room 1", b"room 2"), ("another first byte", b"ab", b"bb"), ("a user with a zero", b"a\0", b"a"), ("a user with a zero and the rating", b"a\0\5", b"a"), ("a zero alone", b"\0", b""), ("two zeros", b"\0\0", b""),
    ]:
        refused(name, 41, v, whole(v, pop(v, "00", given)), user)
    for user in (b"", b"\xE9", b"\x80\xFF\xE0", b"caf\xC3\xA9", b"\1", b"room 1"):
        raised("user %s" % (user.hex() or "-"), 256, v, whole(v, pop(v, "00FF", user)), whole(v, pop(v, "0100", user)), user)
    raised("a user of 120 bytes", 1, v, whole(v, pop(v, "00", b"u" * 120)), whole(v, pop(v, "01", b"u" * 120)), b"u" * 120)
    raised("the second of two users", 2, v, whole(v, pop(v, "FF") + pop(v, "01", b"b")), whole(v, pop(v, "FF") + pop(v, "02", b"b")), b"b")
    raised("the user's bytes are another's rating and counter", 1, v, whole(v, lay(v, b"POPM", b"b\0a\0\5\0") + pop(v, "00")), whole(v, lay(v, b"POPM", b"b\0a\0\5\0") + pop(v, "01")))
    refused("twice", 42, v, whole(v, pop(v, "00") + pop(v, "00")))
    refused("twice, by 0", 42, v, whole(v, pop(v, "") + pop(v, "")), amount=0)
    refused("three times, another user between", 42, v, whole(v, pop(v, "00") + pop(v, "00", b"b") + pop(v, "01") + pop(v, "02"), padding=5))
    refused("twice, both too short, one too large", 42, v, whole(v, pop(v, "FF") + pop(v, "FF")), amount=MOST)
    refused("twice the empty user", 42, v, whole(v, pop(v, "00", b"") + pop(v, "00", b"")), b"")
    refused("a raw frame with a popularimeter's body", 41, v, whole(v, lay(v, b"XYZW", b"a\0\5\0")))
    refused("an id in small letters", 41, v, whole(v, LAY[v](b"pop" if v == 2 else b"popm", b"a\0\5\0")))
refused("the id of 2.2", 41, 3, whole(3, f3(b"POP ", b"a\0\5\0")))
refused("the id of 2.2", 41, 4, whole(4, f4(b"POP ", b"a\0\5\0")))
for v in (3, 4):
    inside = nest(LAY[v], 1, pop(v, "00"))
    refused("inside a chapter only", 41, v, whole(v, inside))
    refused("inside a chapter and another user", 41, v, whole(v, pop(v, "00", b"b") + inside))
    refused("inside a table of contents only", 41, v, whole(v, lay(v, b"CTOC", ctoc(b"t", 0, 0, b"", pop(v, "00")))))
    raised("inside a chapter, and one outside", 1, v, whole(v, inside + pop(v, "00")), whole(v, inside + pop(v, "01")))
    refused("inside a chapter, and two outside", 42, v, whole(v, pop(v, "00") + inside + pop(v, "00")))
refused("twice, one with a data length", 42, 4, whole(4, pop(4, "00") + f4(b"POPM", bytes(4) + b"a\0\5\0", 0x0001)))

# ---- the order of refusals

for v in EDITIONS:
    bad = LAY[v](NOT_UTF8[v], b"")
    refused("flag 80 and an id that is not UTF-8", 7 if v == 4 else 40, v, whole(v, bad, 0x80))
    refused("flag 80, a popularimeter and an id that is not UTF-8", 7 if v == 4 else 40, v, whole(v, pop(v, "00") + bad, 0x80))
    refused("flag 80 before a user that is absent", 40, v, whole(v, pop(v, "00", b"b"), 0x80))
    refused("a cut tag and an id that is not UTF-8", 7, v, whole(v, bad, 0, 100))
    refused("a user twice before an id that is not UTF-8", 7, v, whole(v, pop(v, "00") + pop(v, "00") + bad))
    refused("a full counter before an id that is not UTF-8", 7, v, whole(v, pop(v, "FF") + bad))
    refused("a full counter before padding that is not zero", 40, v, whole(v, pop(v, "FF") + b"\0\1"))
    refused("an absent user before padding that is not zero", 40, v, whole(v, pop(v, "00", b"b") + b"\0\1"))
    refused("a user twice before padding that is not zero", 40, v, whole(v, pop(v, "00") + pop(v, "00") + b"\0\1"))
    refused("a counter of 2^64 before an id that is not UTF-8", 35, v, whole(v, pop(v, "010000000000000000") + bad))
    refused("an id that is not UTF-8 before a counter of 2^64", 7, v, whole(v, bad + pop(v, "010000000000000000")))
for v in (3, 4):
    bad, large = lay(v, b"TIT2", b"\4"), pop(v, "010000000000000000")
    refused("flags C0 and an encoding 4", 12 if v == 4 else 40, v, whole(v, H("00000006 0000") + bad, 0xC0))
    refused("an extended header before an encoding 4", 12, v, whole(v, H("00000006 0000") + bad, 0x40))
    refused("a compressed frame before an id that is not UTF-8", 7, v, whole(v, compressed(v) + LAY[v](NOT_UTF8[v], b"")))
    refused("a compressed subframe before an encoding 4", 12, v, whole(v, nest(LAY[v], 1, compressed(v)) + bad))
    refused("a compressed frame before a counter of 2^64", 35, v, whole(v, compressed(v) + large))
    refused("a compressed frame before a user that is twice there", 40, v, whole(v, compressed(v) + pop(v, "00") + pop(v, "00")))
    refused("a compressed body is not looked at", 40, v, whole(v, lay(v, b"TIT2", bytes(4) + b"\4", COMPRESSED[v])))
    refused("a compressed frame at depth 9", 13, v, whole(v, nest(LAY[v], 8, compressed(v))))
    refused("an id that is not UTF-8 at depth 9", 13, v, whole(v, nest(LAY[v], 8, LAY[v](NOT_UTF8[v], b""))))
    refused("an id that is not UTF-8, encrypted", 7, v, whole(v, LAY[v](NOT_UTF8[v], b"", 0x0044)))
    refused("encrypted and grouped", 8, v, whole(v, lay(v, b"XYZW", b"", 0x0064)))
bad = f4(NOT_UTF8[4], b"")
flagged = f4(b"XYZW", b"\7", 0x0002)
refused("a flagged frame before an id that is not UTF-8", 40, 4, whole(4, flagged + bad))
refused("an id that is not UTF-8 before a flagged frame", 7, 4, whole(4, bad + flagged))
refused("a flagged subframe before an id that is not UTF-8", 40, 4, whole(4, nest(f4, 1, flagged) + bad))
refused("a flagged frame and an id that is not UTF-8 inside a chapter", 40, 4, whole(4, nest(f4, 1, flagged + bad)))
refused("an id that is not UTF-8 and a flagged frame inside a chapter", 7, 4, whole(4, nest(f4, 1, bad + flagged)))
refused("a flagged chapter before the id inside it that is not UTF-8", 40, 4, whole(4, f4(b"CHAP", chap(b"", bad), 0x0002)))
refused("a flagged and compressed frame before an id that is not UTF-8", 7, 4, whole(4, f4(b"XYZW", b"\7", 0x000A) + bad))
refused("a flagged frame whose body is refused", 40, 4, whole(4, f4(b"TIT2", b"\4", 0x0002)))
refused("a flagged frame whose id is not UTF-8", 7, 4, whole(4, f4(NOT_UTF8[4], b"", 0x0002)))
refused("a flagged frame that is encrypted", 8, 4, whole(4, f4(b"XYZW", b"", 0x0006)))
refused("a flagged frame that is grouped", 9, 4, whole(4, f4(b"XYZW", b"", 0x0042)))
refused("a flagged frame whose data length is cut", 5, 4, whole(4, f4(b"XYZW", bytes(3), 0x0003)))
refused("a flagged frame at depth 9", 13, 4, whole(4, nest(f4, 8, flagged)))
refused("a short subframe before an id that is not UTF-8", 7, 4, whole(4, nest(f4, 1, f4(b"XYZW", b"", 0, 1)) + bad))
refused("a short frame whose field is missing", 11, 4, whole(4, f4(b"POPM", b"a\0", 0, 8)))
refused("a short popularimeter whose counter is 2^64", 35, 4, whole(4, f4(b"POPM", b"a\0\5" + H("010000000000000000"), 0, 20)))
refused("a short frame whose field is missing", 11, 2, whole(2, f2(b"POP", b"a\0", 8)))


# ---- what the model answers, what was stated, and the files


def answer(given, user, amount):
    """What the model says: the refusal or 0, the new counter, and the bytes after the call."""
    lent = bytearray(given)
    try:
        counter = model.raise_counter(lent, user, amount)
    except model.Refused as refusal:
        return refusal.number, 0, bytes(lent)
    return 0, counter, bytes(lent)


def made_by_chance():
    """Raises by chance, of seeds counted from 0, each with its name."""
    for seed in range(BY_CHANCE):
        c = chance.Chance(seed)
        yield "seed %d" % seed, chance.some_tag(c), chance.some_user(c), chance.some_amount(c)


def answered():
    """Every case with its answer: bytes, user, amount, refusal or 0, counter, bytes after the call."""
    for name, given, user, amount, *stated in CASES:
        told = answer(given, user, amount)
        assert told == tuple(stated), (name, told, stated)
        yield given, user, amount, *told
    for _, given, user, amount in made_by_chance():
        yield given, user, amount, *answer(given, user, amount)


def line(i, number, counter, after):
    word, value = ("refused", number) if number else ("counts", counter)
    return "case %d %s %d %s\n" % (i, word, value, after.hex() or "-")


def main():
    names = [c[0] for c in CASES]
    assert len(names) == len(set(names)), [n for n in names if names.count(n) > 1]
    given, wanted = b"", ""
    for i, (octets, user, amount, k, counter, after) in enumerate(answered(), 1):
        given += number(len(octets)) + octets + number(len(user)) + user + number(amount, 8)
        wanted += line(i, k, counter, after)
    folder = Path(__file__).resolve().parent.parent / "crates" / "test_raises"
    folder.mkdir(exist_ok=True)
    (folder / "stdin").write_bytes(given)
    (folder / "stdout").write_text(wanted)
    print(len(CASES), "raises stated and", BY_CHANCE, "by chance", file=sys.stderr)


if __name__ == "__main__":
    main()
