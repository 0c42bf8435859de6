"""Hand-made frames for the program `test_frames`: writes crates/test_frames/stdin (the cases) and crates/test_frames/stdout (the answers).

Each case is a line of a table below: a name, the edition, the bytes, and the answer stated by hand: a refusal, nothing, or the
kind with its numbers, names, bytes and marks. A case that does not say `left` states that the room stays untouched. The model is
asked too and must agree; places and lengths in the printed line come from it.

A case in stdin, numbers big-endian: edition (1 byte: 2, 3, 4), whether the bytes are a work buffer (1 byte: 0, 1), and 4 bytes
each: length of the room, first frame byte, place of the frame, end, length of the bytes; then the bytes. The room is filled with A5.
Bytes that are a work buffer have no room and stay as they are; in the line they stand in the place of the room.
A line of stdout: number of the case, `nothing`, `refused N`, or
  frame ID KIND NUMBERS whole|short plain|compressed at PLACE tag|work body S L name S L names S L rest S L next PLACE
with S the start and L the length of a span, then ` room LENGTH HEX` (its first 64 bytes, `-` for none) and, if it is longer, ` sum A B`:
A is the sum of its bytes and B the sum of these sums, byte by byte. Hexadecimal is in lower case.
"""

import sys
from pathlib import Path

import model
from layout import H, chap, ctoc, f2, f3, f4, mllt, nest, number

FILL = 0xA5
CASES = []


# ---- answers, as they are stated by hand


def refused(k):
    return {"refused": k}


NOTHING = {"nothing": True}


def frame(kind, numbers, name="", names="", rest="", short=False, compressed=False, work=False):
    return {
        "kind": kind, "numbers": numbers, "name": H(name), "names": H(names), "rest": H(rest),
        "short": short, "compressed": compressed, "work": work,
    }


def text(encoding, rest, **marks):
    return frame("text", (encoding,), rest=rest, **marks)


def pop(user, rating, counter, **marks):
    return frame("popularimeter", (rating, counter), name=user, **marks)


def table(numbers, rest, **marks):
    return frame("table", numbers, rest=rest, **marks)


def chapter(element, rest, times=(0, 1, 2, 0xFFFFFFFF), **marks):
    return frame("chapter", times, name=element, rest=rest, **marks)


def contents(element, top_level, ordered, names, rest, **marks):
    return frame("contents", (top_level, ordered), name=element, names=names, rest=rest, **marks)


def raw(rest, **marks):
    return frame("raw", (), rest=rest, **marks)


def case(name, version, octets, answer, room=8, left="", begin=0, at=0, end=None, in_work=False):
    """`left` is what the front of the room holds then."""
    end = len(octets) if end is None else end
    CASES.append((name, version, octets, answer, room, H(left), begin, at, end, in_work))


# ---- the quiet end

case("2.2 no bytes", 2, b"", NOTHING, room=0)
case("2.3 no bytes", 3, b"", NOTHING, room=0)
case("2.4 no bytes", 4, b"", NOTHING, room=0)
case("2.2 one byte less than a header", 2, b"XYZ\0\0", NOTHING)
case("2.3 one byte less than a header", 3, b"XYZW\0\0\0\0\0", NOTHING)
case("2.4 one byte less than a header", 4, b"XYZW\0\0\0\0\0", NOTHING)
case("2.2 first byte 0", 2, b"\0YZ\0\0\0", NOTHING)
case("2.3 first byte 0", 3, b"\0YZW\0\0\0\0\0\0", NOTHING)
case("2.4 first byte 0", 4, b"\0YZW\0\0\0\0\0\0", NOTHING)
case("2.4 first byte 0 and an id that is not UTF-8", 4, H("00FFFFFF 00000000 0004"), NOTHING)
case("2.4 bad id, one byte less than a header", 4, H("FFFFFFFF 00000000 00"), NOTHING)

# ---- the smallest frames

case("2.2 a header alone", 2, f2(b"XYZ", b""), raw(""))
case("2.3 a header alone", 3, f3(b"XYZW", b""), raw(""))
case("2.4 a header alone", 4, f4(b"XYZW", b""), raw(""))
case("2.2 one byte", 2, f2(b"XYZ", b"\x07"), raw("07"))
case("2.3 one byte", 3, f3(b"XYZW", b"\x07"), raw("07"))
case("2.4 one byte", 4, f4(b"XYZW", b"\x07"), raw("07"))
case("2.2 bytes behind the frame", 2, f2(b"XYZ", b"\x07") + b"rest", raw("07"))
case("2.3 bytes behind the frame", 3, f3(b"XYZW", b"\x07") + b"rest", raw("07"))
case("2.4 bytes behind the frame", 4, f4(b"XYZW", b"\x07") + b"rest", raw("07"))
case("2.2 text without its encoding", 2, f2(b"TT2", b""), refused(11))
case("2.3 text without its encoding", 3, f3(b"TIT2", b""), refused(11))
case("2.4 text without its encoding", 4, f4(b"TIT2", b""), refused(11))
case("2.2 popularimeter, empty", 2, f2(b"POP", b""), refused(11))
case("2.3 popularimeter, empty", 3, f3(b"POPM", b""), refused(11))
case("2.4 popularimeter, empty", 4, f4(b"POPM", b""), refused(11))
case("2.2 table, empty", 2, f2(b"MLL", b""), refused(11))
case("2.4 table, empty", 4, f4(b"MLLT", b""), refused(11))
case("2.3 chapter, empty", 3, f3(b"CHAP", b""), refused(11))
case("2.4 chapter, empty", 4, f4(b"CHAP", b""), refused(11))
case("2.3 contents, empty", 3, f3(b"CTOC", b""), refused(11))
case("2.4 contents, empty", 4, f4(b"CTOC", b""), refused(11))

# ---- ids: UTF-8 by RFC 3629

case("2.2 id of two and one", 2, f2(H("C3A941"), b"\x07"), raw("07"))
case("2.2 id of one and two", 2, f2(H("41C3A9"), b"\x07"), raw("07"))
case("2.2 id of three", 2, f2(H("E282AC"), b"\x07"), raw("07"))
case("2.2 id of three, cut from four", 2, f2(H("F09F98"), b"\x07"), refused(7))
case("2.2 tail alone", 2, f2(H("418041"), b"\x07"), refused(7))
case("2.2 lead at the end", 2, f2(H("4141C3"), b"\x07"), refused(7))
case("2.3 id of four", 3, f3(H("F09F9880"), b"\x07"), raw("07"))
case("2.3 surrogate", 3, f3(H("EDA08041"), b"\x07"), refused(7))
case("2.4 id of two and two", 4, f4(H("C280DFBF"), b"\x07"), raw("07"))
case("2.4 overlong of two, C0", 4, f4(H("C0804141"), b"\x07"), refused(7))
case("2.4 overlong of two, C1", 4, f4(H("C1BF4141"), b"\x07"), refused(7))
case("2.4 overlong of three", 4, f4(H("E0808041"), b"\x07"), refused(7))
case("2.4 overlong of three, the last", 4, f4(H("E09FBF41"), b"\x07"), refused(7))
case("2.4 smallest of three", 4, f4(H("E0A08041"), b"\x07"), raw("07"))
case("2.4 last before the surrogates", 4, f4(H("ED9FBF41"), b"\x07"), raw("07"))
case("2.4 first surrogate", 4, f4(H("EDA08041"), b"\x07"), refused(7))
case("2.4 last surrogate", 4, f4(H("EDBFBF41"), b"\x07"), refused(7))
case("2.4 first behind the surrogates", 4, f4(H("EE808041"), b"\x07"), raw("07"))
case("2.4 largest of three", 4, f4(H("EFBFBF41"), b"\x07"), raw("07"))
case("2.4 overlong of four", 4, f4(H("F08FBFBF"), b"\x07"), refused(7))
case("2.4 smallest of four", 4, f4(H("F0908080"), b"\x07"), raw("07"))
case("2.4 largest of four", 4, f4(H("F48FBFBF"), b"\x07"), raw("07"))
case("2.4 above the largest", 4, f4(H("F4908080"), b"\x07"), refused(7))
case("2.4 F5", 4, f4(H("F5808080"), b"\x07"), refused(7))
case("2.4 FF", 4, f4(H("FF414141"), b"\x07"), refused(7))
case("2.4 tail first", 4, f4(H("80414141"), b"\x07"), refused(7))
case("2.4 two of three at the end", 4, f4(H("4141E282"), b"\x07"), refused(7))
case("2.4 lead and no tail", 4, f4(H("C2414141"), b"\x07"), refused(7))
case("2.4 third of four is no tail", 4, f4(H("F1804180"), b"\x07"), refused(7))
case("2.4 id with a zero inside", 4, f4(H("41004243"), b"\x07"), raw("07"))
case("2.3 id 7F 01 20 20", 3, f3(H("7F012020"), b"\x07"), raw("07"))
case("2.4 bad id comes before encryption", 4, f4(H("80414141"), b"", 0x0004), refused(7))

# ---- ids: which kind

case("2.2 TXX is raw", 2, f2(b"TXX", b"\x09"), raw("09"))
case("2.3 TXXX is raw", 3, f3(b"TXXX", b"\x09"), raw("09"))
case("2.4 TXXX is raw", 4, f4(b"TXXX", b"\x09"), raw("09"))
case("2.2 TXY is text", 2, f2(b"TXY", b"\0\x41"), text(0, "41"))
case("2.4 TXX1 is text", 4, f4(b"TXX1", b"\0\x41"), text(0, "41"))
case("2.4 TXX and a zero is text", 4, f4(b"TXX\0", b"\0\x41"), text(0, "41"))
case("2.4 T and more of UTF-8 is text", 4, f4(H("54C3A931"), b"\0\x41"), text(0, "41"))
case("2.4 TIPL is text", 4, f4(b"TIPL", b"\0\x41"), text(0, "41"))
case("2.4 small t is raw", 4, f4(b"tALB", b"\x09"), raw("09"))
case("2.2 POX is raw", 2, f2(b"POX", b"\x09"), raw("09"))
case("2.2 CHA is raw", 2, f2(b"CHA", b"\x09"), raw("09"))
case("2.2 CTO is raw", 2, f2(b"CTO", b"\x09"), raw("09"))
case("2.4 POP and a zero is raw", 4, f4(b"POP\0", b"\x09"), raw("09"))
case("2.4 MLL and a zero is raw", 4, f4(b"MLL\0", b"\x09"), raw("09"))
case("2.4 POPN is raw", 4, f4(b"POPN", b"\x09"), raw("09"))
case("2.4 SYLT is raw", 4, f4(b"SYLT", b"\x09"), raw("09"))
case("2.3 GEOB is raw", 3, f3(b"GEOB", b"\x09"), raw("09"))

# ---- sizes

case("2.2 one byte is missing: short", 2, f2(b"XYZ", b"\x07", 2), raw("07", short=True))
case("2.3 one byte is missing", 3, f3(b"XYZW", b"\x07", size=2), refused(5))
case("2.4 one byte is missing: short", 4, f4(b"XYZW", b"\x07", size=2), raw("07", short=True))
case("2.2 largest size, nothing there", 2, H("58595A FFFFFF"), raw("", short=True))
case("2.3 largest size", 3, H("58595A57 FFFFFFFF 0000"), refused(5))
case("2.3 size of 2^31", 3, H("58595A57 80000000 0000 07"), refused(5))
case("2.4 largest size with bits 7", 4, H("58595A57 FFFFFFFF 0000"), raw("", short=True))
case("2.4 size 00 00 01 FF is 255", 4, f4(b"XYZW", bytes(300), size=H("000001FF")), raw("00" * 255))
case("2.4 size 00 00 00 80 is 128", 4, f4(b"XYZW", b"\x07" * 128, size=H("00000080")), raw("07" * 128))
case("2.4 size 00 00 00 FF is 255", 4, f4(b"XYZW", b"\x07" * 255, size=H("000000FF")), raw("07" * 255))
case("2.4 size 00 00 80 00 is 16384, short", 4, f4(b"XYZW", b"\x07\x08", size=H("00008000")), raw("0708", short=True))
case("2.4 127 bytes", 4, f4(b"XYZW", b"\x01" * 127), raw("01" * 127))
case("2.4 128 bytes", 4, f4(b"XYZW", b"\x01" * 128, size=H("00000100")), raw("01" * 128))
case("2.4 16,383 bytes", 4, f4(b"XYZW", b"\x02" * 16383, size=H("00007F7F")), raw("02" * 16383))
case("2.4 16,384 bytes", 4, f4(b"XYZW", b"\x02" * 16384, size=H("00010000")), raw("02" * 16384))
case("2.3 256 bytes", 3, H("58595A57 00000100 0000") + b"\x03" * 256, raw("03" * 256))
case("2.3 255 of 256 bytes", 3, H("58595A57 00000100 0000") + b"\x03" * 255, refused(5))
case("2.2 256 bytes", 2, H("58595A 000100") + b"\x03" * 256, raw("03" * 256))
case("2.2 65,536 wanted, 300 there", 2, H("58595A 010000") + b"\x03" * 300, raw("03" * 300, short=True))

# ---- flags

case("2.3 encrypted", 3, f3(b"XYZW", b"", 0x0040), refused(8))
case("2.3 grouped", 3, f3(b"XYZW", b"", 0x0020), refused(9))
case("2.3 encrypted and grouped", 3, f3(b"XYZW", b"", 0x0060), refused(8))
case("2.3 grouped and compressed, no bytes", 3, f3(b"XYZW", b"", 0x00A0), refused(9))
case("2.3 encrypted, and the body is missing", 3, f3(b"XYZW", b"", 0x0040, 9), refused(8))
case("2.3 all other bits", 3, f3(b"XYZW", b"\x07", 0xFF1F), raw("07"))
case("2.3 0002 is no flag", 3, f3(b"XYZW", H("FF00"), 0x0002), raw("FF00"))
case("2.3 0008 is no flag", 3, f3(b"TIT2", H("0041"), 0x0008), text(0, "41"))
case("2.3 0001 is no flag", 3, f3(b"TIT2", H("0041"), 0x0001), text(0, "41"))
case("2.3 0004 is no flag", 3, f3(b"TIT2", H("0041"), 0x0004), text(0, "41"))
case("2.3 high byte 40", 3, f3(b"TIT2", H("0041"), 0x4000), text(0, "41"))
case("2.4 encrypted", 4, f4(b"XYZW", b"", 0x0004), refused(8))
case("2.4 grouped", 4, f4(b"XYZW", b"", 0x0040), refused(9))
case("2.4 encrypted and grouped", 4, f4(b"XYZW", b"", 0x0044), refused(8))
case("2.4 grouped with a data length, no bytes", 4, f4(b"XYZW", b"", 0x0041), refused(9))
case("2.4 grouped and flagged, no room", 4, f4(b"XYZW", b"\x07", 0x0042), refused(9), room=0)
case("2.4 all other bits", 4, f4(b"XYZW", b"\x07", 0xFFB0), raw("07"))
case("2.4 0080 is no flag", 4, f4(b"TIT2", H("0041"), 0x0080), text(0, "41"))
case("2.4 0020 is no flag", 4, f4(b"TIT2", H("0041"), 0x0020), text(0, "41"))

# ---- data length and compression

case("2.3 compressed", 3, f3(b"XYZW", H("00000009 0708"), 0x0080), raw("0708", compressed=True))
case("2.3 compressed, four bytes", 3, f3(b"XYZW", H("00000009"), 0x0080), raw("", compressed=True))
case("2.3 compressed, size 3", 3, f3(b"XYZW", H("00000009"), 0x0080, 3), refused(10))
case("2.3 compressed, size 0", 3, f3(b"XYZW", H("00000009"), 0x0080, 0), refused(10))
case("2.3 compressed, three bytes there", 3, f3(b"XYZW", H("000000"), 0x0080, 3), refused(5))
case("2.3 compressed, three bytes of four", 3, f3(b"XYZW", H("000000"), 0x0080, 4), refused(5))
case("2.3 compressed, body cut", 3, f3(b"XYZW", H("00000009 07"), 0x0080, 6), refused(5))
case("2.3 compressed text is raw", 3, f3(b"TIT2", H("00000009 0A"), 0x0080), raw("0A", compressed=True))
case("2.3 compressed chapter is raw", 3, f3(b"CHAP", H("00000009 0A"), 0x0080), raw("0A", compressed=True))
case("2.4 compressed", 4, f4(b"XYZW", H("0708"), 0x0008), raw("0708", compressed=True))
case("2.4 compressed, empty", 4, f4(b"XYZW", b"", 0x0008), raw("", compressed=True))
case("2.4 compressed popularimeter is raw", 4, f4(b"POPM", H("0708"), 0x0008), raw("0708", compressed=True))
case("2.4 compressed, short", 4, f4(b"TIT2", H("0708"), 0x0008, 3), raw("0708", compressed=True, short=True))
case("2.4 compressed with a data length", 4, f4(b"XYZW", H("00000009 0708"), 0x0009), raw("0708", compressed=True))
case("2.4 compressed and flagged stays", 4, f4(b"XYZW", H("FF0007"), 0x000A), raw("FF0007", compressed=True), room=0)
case("2.4 compressed chapter is not walked", 4, f4(b"CHAP", H("FF0007"), 0x0008), raw("FF0007", compressed=True))
case("2.4 data length", 4, f4(b"POPM", H("00000004 61000501"), 0x0001), pop("61", 5, 1))
case("2.4 data length that is wrong", 4, f4(b"POPM", H("7F7F7F7F 61000501"), 0x0001), pop("61", 5, 1))
case("2.4 data length, size 4", 4, f4(b"XYZW", H("00000000"), 0x0001), raw(""))
case("2.4 data length, size 5", 4, f4(b"XYZW", H("00000001 07"), 0x0001), raw("07"))
case("2.4 data length, size 3: empty", 4, f4(b"XYZW", H("00000001 07"), 0x0001, 3), raw(""))
case("2.4 data length, size 0: empty", 4, f4(b"XYZW", H("00000001 07"), 0x0001, 0), raw(""))
case("2.4 data length, size 0, text", 4, f4(b"TIT2", H("00000001 07"), 0x0001, 0), refused(11))
case("2.4 data length, three bytes there", 4, f4(b"XYZW", H("000000"), 0x0001, 7), refused(5))
case("2.4 data length, none there, size 0", 4, f4(b"XYZW", b"", 0x0001, 0), refused(5))
case("2.4 data length, short", 4, f4(b"XYZW", H("00000001 07"), 0x0001, 6), raw("07", short=True))
case("2.4 data length and flagged", 4, f4(b"XYZW", H("000000FF FF0007"), 0x0003), raw("FF07", work=True), left="FF07")

# ---- text

case("2.2 text", 2, f2(b"TT2", H("00 41 42")), text(0, "4142"))
case("2.2 text, empty", 2, f2(b"TT2", H("00")), text(0, ""))
case("2.2 text, zero at once", 2, f2(b"TT2", H("00 00 41")), text(0, ""))
case("2.2 text, first zero", 2, f2(b"TT2", H("00 41 00 42 00")), text(0, "41"))
case("2.2 text, encoding 3, first zero", 2, f2(b"TT2", H("03 41 42 00")), text(3, "4142"))
case("2.2 text, encoding 1, first pair", 2, f2(b"TT2", H("01 FFFE 4100 0000 4200")), text(1, "FFFE4100"))
case("2.2 text, encoding 1, pair at an odd place", 2, f2(b"TT2", H("01 4100 0041")), text(1, "41000041"))
case("2.2 text, encoding 2, pair at once", 2, f2(b"TT2", H("02 0000 41")), text(2, ""))
case("2.2 text, encoding 4", 2, f2(b"TT2", H("04 41")), refused(12))
case("2.2 text, short", 2, f2(b"TT2", H("00 41"), 9), text(0, "41", short=True))
case("2.2 text, short, no encoding", 2, f2(b"TT2", b"", 9), refused(11))
case("2.3 text, encoding 0", 3, f3(b"TIT2", H("00 41 00 42")), text(0, "41"))
case("2.3 text, encoding 0, zeros alone", 3, f3(b"TIT2", H("00 00 00 00")), text(0, ""))
case("2.3 text, encoding 1", 3, f3(b"TIT2", H("01 FFFE 4100 4200")), text(1, "FFFE41004200"))
case("2.3 text, encoding 1, odd zero at the end", 3, f3(b"TIT2", H("01 4100 00")), text(1, "410000"))
case("2.3 text, encoding 2, odd byte at the end", 3, f3(b"TIT2", H("02 0041 42")), text(2, "004142"))
case("2.3 text, encoding 2, pair at the end", 3, f3(b"TIT2", H("02 0041 0000")), text(2, "0041"))
case("2.3 text, encoding 3", 3, f3(b"TIT2", H("03 C3A9 00")), text(3, "C3A9"))
case("2.3 text, encoding FF", 3, f3(b"TIT2", H("FF")), refused(12))
case("2.4 text, 41 00 stays", 4, f4(b"TIT2", H("00 41 00")), text(0, "4100"))
case("2.4 text, 41 42 00", 4, f4(b"TIT2", H("00 41 42 00")), text(0, "4142"))
case("2.4 text, several zeros", 4, f4(b"TIT2", H("00 41 42 00 00 00")), text(0, "4142"))
case("2.4 text, zeros inside stay", 4, f4(b"TIT2", H("03 41 00 42 00")), text(3, "410042"))
case("2.4 text, one zero stays", 4, f4(b"TIT2", H("00 00")), text(0, "00"))
case("2.4 text, zeros alone stay", 4, f4(b"TIT2", H("00 00 00 00")), text(0, "000000"))
case("2.4 text, 00 41 00", 4, f4(b"TIT2", H("00 00 41 00")), text(0, "0041"))
case("2.4 text, empty", 4, f4(b"TIT2", H("03")), text(3, ""))
case("2.4 text, nothing to drop", 4, f4(b"TIT2", H("03 41 42")), text(3, "4142"))
case("2.4 text, pairs, closing pair", 4, f4(b"TIT2", H("01 FFFE 4100 0000")), text(1, "FFFE4100"))
case("2.4 text, pairs, first pair is not tested", 4, f4(b"TIT2", H("02 0041 0000")), text(2, "00410000"))
case("2.4 text, pairs, zeros alone stay", 4, f4(b"TIT2", H("02 0000 0000 0000")), text(2, "000000000000"))
case("2.4 text, pairs, last odd byte is dropped", 4, f4(b"TIT2", H("01 4141 4141 41")), text(1, "41414141"))
case("2.4 text, pairs, three bytes stay", 4, f4(b"TIT2", H("01 4141 41")), text(1, "414141"))
case("2.4 text, pairs, odd byte behind zeros stays", 4, f4(b"TIT2", H("01 4141 0000 41")), text(1, "4141000041"))
case("2.4 text, pairs, two closing pairs and an odd zero", 4, f4(b"TIT2", H("02 0041 0042 0000 0000 00")), text(2, "00410042"))
case("2.4 text, pairs, a pair half zero", 4, f4(b"TIT2", H("02 0041 4200 0000")), text(2, "00414200"))
case("2.4 text, pairs, one byte", 4, f4(b"TIT2", H("01 00")), text(1, "00"))
case("2.4 text, pairs, empty", 4, f4(b"TIT2", H("02")), text(2, ""))
case("2.4 text, encoding 4", 4, f4(b"TIT2", H("04")), refused(12))
case("2.4 text, short", 4, f4(b"TIT2", H("00 41 42 00"), size=9), text(0, "4142", short=True))

# ---- popularimeters: users, ratings, counters of 0 to 8 bytes

case("2.2 popularimeter", 2, f2(b"POP", H("61 00 05 01")), pop("61", 5, 1))
case("2.3 popularimeter", 3, f3(b"POPM", H("61 00 05 01")), pop("61", 5, 1))
case("2.4 counter 01 00 00 00 00", 4, f4(b"POPM", H("61 00 05 01 00 00 00 00")), pop("61", 5, 4294967296))
case("2.4 counter of none", 4, f4(b"POPM", H("61 00 05")), pop("61", 5, 0))
case("2.4 counter 00", 4, f4(b"POPM", H("61 00 05 00")), pop("61", 5, 0))
case("2.4 counter FF 00", 4, f4(b"POPM", H("61 00 05 FF 00")), pop("61", 5, 65280))
case("2.4 counter of 3 bytes", 4, f4(b"POPM", H("61 00 05 010203")), pop("61", 5, 66051))
case("2.4 counter of 4 bytes", 4, f4(b"POPM", H("61 00 05 FFFFFFFF")), pop("61", 5, 4294967295))
case("2.4 counter of 5 bytes", 4, f4(b"POPM", H("61 00 05 FF00000000")), pop("61", 5, 1095216660480))
case("2.4 counter of 6 bytes", 4, f4(b"POPM", H("61 00 05 000000000001")), pop("61", 5, 1))
case("2.4 counter of 7 bytes", 4, f4(b"POPM", H("61 00 05 01000000000000")), pop("61", 5, 281474976710656))
case("2.4 counter of 8 bytes", 4, f4(b"POPM", H("61 00 05 8000000000000000")), pop("61", 5, 9223372036854775808))
case("2.4 counter of eight FF", 4, f4(b"POPM", H("61 00 05 FFFFFFFFFFFFFFFF")), pop("61", 5, 18446744073709551615))
case("2.3 counter FF 00", 3, f3(b"POPM", H("00 FF FF 00")), pop("", 255, 65280))
case("2.4 no user", 4, f4(b"POPM", H("00 05 07")), pop("", 5, 7))
case("2.4 no user, no counter", 4, f4(b"POPM", H("00 00")), pop("", 0, 0))
case("2.4 user of several bytes", 4, f4(b"POPM", H("612E62 00 FF 07")), pop("612E62", 255, 7))
case("2.4 user not of ASCII", 4, f4(b"POPM", H("FFFE80 00 FF 07")), pop("FFFE80", 255, 7))
case("2.4 zero and no rating", 4, f4(b"POPM", H("61 00")), refused(11))
case("2.2 zero and no rating", 2, f2(b"POP", H("00")), refused(11))
case("2.4 no zero", 4, f4(b"POPM", H("61 62 63")), refused(11))
case("2.3 no zero", 3, f3(b"POPM", H("61")), refused(11))
case("2.4 counter cut: short", 4, f4(b"POPM", H("61 00 05 01"), size=12), pop("61", 5, 1, short=True))
case("2.2 counter cut: short", 2, f2(b"POP", H("61 00 05 0102"), 9), pop("61", 5, 258, short=True))
case("2.4 rating cut: short", 4, f4(b"POPM", H("61 00"), size=12), refused(11))
case("2.3 counter cut", 3, f3(b"POPM", H("61 00 05 01"), size=5), refused(5))

# ---- longer counters: one number, and 35 after 11 where it does not fit 64 bits (request b)

EIGHT_ZEROS = "0000000000000000"
MOST = 18446744073709551615
case("2.2 counter of 9 bytes", 2, f2(b"POP", H("61 00 05 00 0000000000000007")), pop("61", 5, 7))
case("2.3 counter of 9 bytes", 3, f3(b"POPM", H("61 00 05 00 0000000000000007")), pop("61", 5, 7))
case("2.4 counter of 9 bytes", 4, f4(b"POPM", H("61 00 05 00 0000000000000007")), pop("61", 5, 7))
case("2.4 counter of 9 bytes, 01 02 at the end", 4, f4(b"POPM", H("61 00 05 000000000000000102")), pop("61", 5, 258))
case("2.4 counter of 9 bytes, each another", 4, f4(b"POPM", H("61 00 05 00 0102030405060708")), pop("61", 5, 72623859790382856))
case("2.4 counter of 10 bytes", 4, f4(b"POPM", H("61 00 05 0000 8000000000000000")), pop("61", 5, 9223372036854775808))
case("2.4 counter of 11 bytes", 4, f4(b"POPM", H("61 00 05 0000000000000002FFFFFF")), pop("61", 5, 50331647))
case("2.2 counter of 12 bytes, mostly zeros", 2, f2(b"POP", H("61 00 05 000000000000000000000007")), pop("61", 5, 7))
case("2.3 counter of 12 bytes, mostly zeros", 3, f3(b"POPM", H("61 00 05 000000000000000000000007")), pop("61", 5, 7))
case("2.4 counter of 12 bytes, mostly zeros", 4, f4(b"POPM", H("61 00 05 000000000000000000000007")), pop("61", 5, 7))
case("2.2 counter of 12 bytes, 09 in the midst", 2, f2(b"POP", H("61 00 05 000000000000000900000007")), pop("61", 5, 38654705671))
case("2.2 counter of sixteen zeros", 2, f2(b"POP", H("61 00 05" + EIGHT_ZEROS * 2)), pop("61", 5, 0))
case("2.3 counter of sixteen zeros", 3, f3(b"POPM", H("61 00 05" + EIGHT_ZEROS * 2)), pop("61", 5, 0))
case("2.4 counter of sixteen zeros", 4, f4(b"POPM", H("61 00 05" + EIGHT_ZEROS * 2)), pop("61", 5, 0))
case("2.2 counter of a zero and eight FF", 2, f2(b"POP", H("61 00 05 00 FFFFFFFFFFFFFFFF")), pop("61", 5, MOST))
case("2.3 counter of a zero and eight FF", 3, f3(b"POPM", H("61 00 05 00 FFFFFFFFFFFFFFFF")), pop("61", 5, MOST))
case("2.4 counter of a zero and eight FF", 4, f4(b"POPM", H("61 00 05 00 FFFFFFFFFFFFFFFF")), pop("61", 5, MOST))
case("2.4 counter of sixteen zeros and eight FF", 4, f4(b"POPM", H("61 00 05" + EIGHT_ZEROS * 2 + "FFFFFFFFFFFFFFFF")), pop("61", 5, MOST))
case("2.4 counter of 300 bytes", 4, f4(b"POPM", H("61 00 05" + "00" * 292 + "0100000000000000")), pop("61", 5, 72057594037927936))
case("2.4 no user, rating FF, counter of 9 bytes", 4, f4(b"POPM", H("00 FF 00 FFFFFFFFFFFFFFFF")), pop("", 255, MOST))
case("2.2 counter of 01 and eight zeros", 2, f2(b"POP", H("61 00 05 01" + EIGHT_ZEROS)), refused(35))
case("2.3 counter of 01 and eight zeros", 3, f3(b"POPM", H("61 00 05 01" + EIGHT_ZEROS)), refused(35))
case("2.4 counter of 01 and eight zeros", 4, f4(b"POPM", H("61 00 05 01" + EIGHT_ZEROS)), refused(35))
case("2.2 counter of nine FF", 2, f2(b"POP", H("61 00 05 FFFFFFFFFFFFFFFFFF")), refused(35))
case("2.3 counter of nine FF", 3, f3(b"POPM", H("61 00 05 FFFFFFFFFFFFFFFFFF")), refused(35))
case("2.4 counter of nine FF", 4, f4(b"POPM", H("61 00 05 FFFFFFFFFFFFFFFFFF")), refused(35))
case("2.4 counter of 10 bytes, each another", 4, f4(b"POPM", H("61 00 05 0102030405060708090A")), refused(35))
case("2.2 counter of three zeros and nine bytes", 2, f2(b"POP", H("61 00 05 000000 010203040506070809")), refused(35))
case("2.3 counter of three zeros and nine bytes", 3, f3(b"POPM", H("61 00 05 000000 01" + EIGHT_ZEROS)), refused(35))
case("2.4 counter of sixteen zeros and nine bytes", 4, f4(b"POPM", H("61 00 05" + EIGHT_ZEROS * 2 + "01" + EIGHT_ZEROS)), refused(35))
case("2.4 counter of 01 and sixteen zeros", 4, f4(b"POPM", H("61 00 05 01" + EIGHT_ZEROS * 2)), refused(35))
case("2.4 counter of 01 and 299 zeros", 4, f4(b"POPM", H("61 00 05 01" + "00" * 299)), refused(35))
case("2.2 no user, counter too large", 2, f2(b"POP", H("00 00 01" + EIGHT_ZEROS)), refused(35))
case("2.2 no zero in twelve bytes: 11", 2, f2(b"POP", H("FF" * 12)), refused(11))
case("2.3 no zero in twenty bytes: 11", 3, f3(b"POPM", H("61" * 20)), refused(11))
case("2.4 no zero in twelve bytes: 11", 4, f4(b"POPM", H("FF" * 12)), refused(11))
case("2.2 no rating behind twelve bytes: 11", 2, f2(b"POP", H("FF" * 12 + "00")), refused(11))
case("2.3 no rating behind twelve bytes: 11", 3, f3(b"POPM", H("61" * 12 + "00")), refused(11))
case("2.4 no rating behind twelve bytes: 11", 4, f4(b"POPM", H("FF" * 12 + "00")), refused(11))
case("2.4 counter of 9 of 12 bytes: short", 4, f4(b"POPM", H("61 00 05 00 0000000000000007"), size=15), pop("61", 5, 7, short=True))
case("2.2 counter of 11 of 12 bytes: short", 2, f2(b"POP", H("61 00 05 0000000000000000000107"), 15), pop("61", 5, 263, short=True))
case("2.4 counter of 8 of 9 bytes: short, and what is there fits", 4, f4(b"POPM", H("61 00 05 01 00000000000000"), size=12), pop("61", 5, 72057594037927936, short=True))
case("2.2 counter of 8 of 9 bytes: short, and what is there fits", 2, f2(b"POP", H("61 00 05 FFFFFFFFFFFFFFFF"), 12), pop("61", 5, MOST, short=True))
case("2.4 counter of 9 of 10 bytes: what is there does not fit", 4, f4(b"POPM", H("61 00 05 01" + EIGHT_ZEROS), size=13), refused(35))
case("2.2 counter of 9 of 10 bytes: what is there does not fit", 2, f2(b"POP", H("61 00 05 01" + EIGHT_ZEROS), 13), refused(35))
case("2.3 counter too large and cut: 5", 3, f3(b"POPM", H("61 00 05 01" + EIGHT_ZEROS), size=13), refused(5))
case("2.3 counter too large, encrypted: 8", 3, f3(b"POPM", H("61 00 05 01" + EIGHT_ZEROS), 0x0040), refused(8))
case("2.4 counter too large, grouped: 9", 4, f4(b"POPM", H("61 00 05 01" + EIGHT_ZEROS), 0x0040), refused(9))
case("2.3 compressed popularimeter with nine FF is raw", 3, f3(b"POPM", H("00000009 61 00 05 FFFFFFFFFFFFFFFFFF"), 0x0080), raw("610005 FFFFFFFFFFFFFFFFFF", compressed=True))
case("2.4 compressed popularimeter with nine FF is raw", 4, f4(b"POPM", H("61 00 05 FFFFFFFFFFFFFFFFFF"), 0x0008), raw("610005 FFFFFFFFFFFFFFFFFF", compressed=True))
case("2.4 compressed and flagged popularimeter with nine FF is raw", 4, f4(b"POPM", H("61 00 05 FF00FFFFFFFFFFFFFFFF"), 0x000A), raw("610005 FF00FFFFFFFFFFFFFFFF", compressed=True), room=0)
case("2.4 data length, counter of 9 bytes", 4, f4(b"POPM", H("0000000C 61 00 05 00 0000000000000007"), 0x0001), pop("61", 5, 7))
case("2.4 data length, counter too large", 4, f4(b"POPM", H("0000000C 61 00 05 01" + EIGHT_ZEROS), 0x0001), refused(35))

# ---- lookup tables

ONE = (1, 2, 3)
STEPS = H("0001 000002 000003")
case("2.4 table, document 01's references", 4, f4(b"MLLT", mllt(4, 8, H("A5C301"), STEPS)), table((*ONE, 4, 8), "A5C301"))
case("2.2 table", 2, f2(b"MLL", mllt(4, 8, H("A5C301"), STEPS)), table((*ONE, 4, 8), "A5C301"))
case("2.3 table", 3, f3(b"MLLT", mllt(8, 8, H("0102"), STEPS)), table((*ONE, 8, 8), "0102"))
case("2.4 table, largest numbers", 4, f4(b"MLLT", mllt(32, 32, b"", b"\xFF" * 8)), table((65535, 16777215, 16777215, 32, 32), ""))
case("2.4 table, nine bytes", 4, f4(b"MLLT", H("0000 000000 000000 04")), refused(11))
case("2.2 table, nine bytes", 2, f2(b"MLL", H("0000 000000 000000 04")), refused(11))
case("2.4 table, ten bytes", 4, f4(b"MLLT", mllt(4, 4)), table((0, 0, 0, 4, 4), ""))
case("2.4 table, ten bytes of eleven: short", 4, f4(b"MLLT", mllt(4, 4), size=11), table((0, 0, 0, 4, 4), "", short=True))
case("2.4 table, nine bytes of ten: short", 4, f4(b"MLLT", mllt(4, 4)[:9], size=10), refused(11))
case("2.4 table, width 0 of bytes", 4, f4(b"MLLT", mllt(0, 4)), refused(30))
case("2.4 table, width 0 of milliseconds", 4, f4(b"MLLT", mllt(4, 0)), refused(30))
case("2.4 table, width 33", 4, f4(b"MLLT", mllt(33, 3)), refused(30))
case("2.4 table, width 33 of milliseconds", 4, f4(b"MLLT", mllt(3, 33)), refused(30))
case("2.4 table, width 255", 4, f4(b"MLLT", mllt(255, 1)), refused(30))
case("2.4 table, sum 80 is met by 30", 4, f4(b"MLLT", mllt(40, 40)), refused(30))
case("2.4 table, sum 63", 4, f4(b"MLLT", mllt(32, 31)), refused(31))
case("2.4 table, sum 2", 4, f4(b"MLLT", mllt(1, 1)), refused(31))
case("2.4 table, sum 5", 4, f4(b"MLLT", mllt(4, 1)), refused(31))
case("2.3 table, sum 6", 3, f3(b"MLLT", mllt(3, 3)), refused(31))
case("2.2 table, sum 10", 2, f2(b"MLL", mllt(5, 5)), refused(31))
case("2.4 table, widths 1 and 3", 4, f4(b"MLLT", mllt(1, 3, H("F7"))), table((0, 0, 0, 1, 3), "F7"))
case("2.4 table, widths 3 and 1", 4, f4(b"MLLT", mllt(3, 1, H("F7"))), table((0, 0, 0, 3, 1), "F7"))
case("2.4 table, widths 2 and 2", 4, f4(b"MLLT", mllt(2, 2, H("D0"))), table((0, 0, 0, 2, 2), "D0"))
case("2.4 table, widths 32 and 32, one reference", 4, f4(b"MLLT", mllt(32, 32, H("0102030405060708"))), table((0, 0, 0, 32, 32), "0102030405060708"))
case("2.4 table, last reference cut", 4, f4(b"MLLT", mllt(8, 8, H("010203"))), table((0, 0, 0, 8, 8), "010203"))
case("2.4 table, no whole reference", 4, f4(b"MLLT", mllt(32, 32, H("01020304050607"))), table((0, 0, 0, 32, 32), "01020304050607"))
case("2.4 table, widths 20 and 12", 4, f4(b"MLLT", mllt(20, 12, H("ABCDE123"))), table((0, 0, 0, 20, 12), "ABCDE123"))

# ---- chapters and tables of contents

SUB3 = f3(b"TIT2", H("0041"))
SUB4 = f4(b"TIT2", H("0041"))
Z4 = (0, 0, 0, 0)
case("2.3 chapter without a run", 3, f3(b"CHAP", chap(b"a")), chapter("61", ""))
case("2.4 chapter without a run", 4, f4(b"CHAP", chap(b"a")), chapter("61", ""))
case("2.4 chapter, no element id", 4, f4(b"CHAP", chap(b"", times=bytes(16))), chapter("", "", Z4))
case("2.4 chapter, one byte is missing", 4, f4(b"CHAP", chap(b"a")[:-1]), refused(11))
case("2.3 chapter, one byte is missing", 3, f3(b"CHAP", chap(b"a")[:-1]), refused(11))
case("2.4 chapter, element id not closed", 4, f4(b"CHAP", b"a" * 40), refused(11))
case("2.4 chapter, one byte cut: short", 4, f4(b"CHAP", chap(b"a")[:-1], size=18), refused(11))
case("2.4 chapter, run cut: short", 4, f4(b"CHAP", chap(b"a"), size=40), chapter("61", "", short=True))
case("2.4 chapter with a text", 4, f4(b"CHAP", chap(b"a", SUB4)), chapter("61", SUB4.hex()))
case("2.3 chapter with a text", 3, f3(b"CHAP", chap(b"a", SUB3)), chapter("61", SUB3.hex()))
case("2.4 chapter with two", 4, f4(b"CHAP", chap(b"a", SUB4 + SUB4)), chapter("61", (SUB4 + SUB4).hex()))
case("2.4 chapter with padding", 4, f4(b"CHAP", chap(b"a", SUB4 + bytes(3))), chapter("61", (SUB4 + bytes(3)).hex()))
case("2.4 chapter, nine bytes left over", 4, f4(b"CHAP", chap(b"a", b"x" * 9)), chapter("61", "78" * 9))
case("2.4 chapter, ten bytes left over are a frame, grouped by 7878", 4, f4(b"CHAP", chap(b"a", b"x" * 10)), refused(9))
case("2.4 chapter, subframe short", 4, f4(b"CHAP", chap(b"a", f4(b"XYZW", b"\x07", size=2))), chapter("61", "58595A57 00000002 0000 07"))
case("2.3 chapter, subframe cut", 3, f3(b"CHAP", chap(b"a", f3(b"XYZW", b"\x07", size=2))), refused(5))
case("2.4 chapter, subframe's id", 4, f4(b"CHAP", chap(b"a", f4(H("FF414141"), b""))), refused(7))
case("2.4 chapter, subframe encrypted", 4, f4(b"CHAP", chap(b"a", f4(b"XYZW", b"", 0x0004))), refused(8))
case("2.3 chapter, subframe grouped", 3, f3(b"CHAP", chap(b"a", f3(b"XYZW", b"", 0x0020))), refused(9))
case("2.3 chapter, subframe compressed, size 3", 3, f3(b"CHAP", chap(b"a", f3(b"XYZW", bytes(4), 0x0080, 3))), refused(10))
case("2.4 chapter, subframe without its zero", 4, f4(b"CHAP", chap(b"a", f4(b"POPM", b"a"))), refused(11))
case("2.4 chapter, subframe's encoding", 4, f4(b"CHAP", chap(b"a", f4(b"TIT2", b"\x04"))), refused(12))
case("2.4 chapter, subframe's widths", 4, f4(b"CHAP", chap(b"a", f4(b"MLLT", mllt(0, 4)))), refused(30))
case("2.4 chapter, subframe's sum of widths", 4, f4(b"CHAP", chap(b"a", f4(b"MLLT", mllt(4, 5)))), refused(31))
case("2.4 chapter, the second is refused", 4, f4(b"CHAP", chap(b"a", SUB4 + f4(b"TIT2", b"\x09"))), refused(12))
case("2.4 chapter, a refusal behind padding is not met", 4, f4(b"CHAP", chap(b"a", bytes(1) + f4(b"TIT2", b"\x09"))), chapter("61", "00 54495432 00000001 0000 09"))
case("2.4 contents, nothing", 4, f4(b"CTOC", ctoc(b"a", 0, 0)), contents("61", 0, 0, "", ""))
case("2.3 contents, both flags", 3, f3(b"CTOC", ctoc(b"a", 3, 0)), contents("61", 1, 1, "", ""))
case("2.4 contents, top level", 4, f4(b"CTOC", ctoc(b"a", 2, 0)), contents("61", 1, 0, "", ""))
case("2.4 contents, ordered", 4, f4(b"CTOC", ctoc(b"a", 1, 0)), contents("61", 0, 1, "", ""))
case("2.4 contents, other bits", 4, f4(b"CTOC", ctoc(b"a", 0xFC, 0)), contents("61", 0, 0, "", ""))
case("2.4 contents, one child", 4, f4(b"CTOC", ctoc(b"a", 0, 1, b"b\0")), contents("61", 0, 0, "6200", ""))
case("2.4 contents, two children", 4, f4(b"CTOC", ctoc(b"", 0, 2, b"b\0cd\0")), contents("", 0, 0, "6200636400", ""))
case("2.4 contents, empty names", 4, f4(b"CTOC", ctoc(b"a", 0, 3, bytes(3))), contents("61", 0, 0, "000000", ""))
case("2.4 contents, 255 children", 4, f4(b"CTOC", ctoc(b"a", 0, 255, bytes(255))), contents("61", 0, 0, "00" * 255, ""))
case("2.4 contents, 254 of 255 children", 4, f4(b"CTOC", ctoc(b"a", 0, 255, bytes(254))), refused(11))
case("2.4 contents, child not closed", 4, f4(b"CTOC", ctoc(b"a", 0, 1, b"b")), refused(11))
case("2.4 contents, no child", 4, f4(b"CTOC", ctoc(b"a", 0, 1)), refused(11))
case("2.4 contents, no count", 4, f4(b"CTOC", H("6100 03")), refused(11))
case("2.4 contents, no flags", 4, f4(b"CTOC", H("6100")), refused(11))
case("2.3 contents, element id not closed", 3, f3(b"CTOC", H("616263")), refused(11))
case("2.4 contents, child and a text", 4, f4(b"CTOC", ctoc(b"a", 0, 1, b"b\0", SUB4)), contents("61", 0, 0, "6200", SUB4.hex()))
case("2.4 contents, more names are no children", 4, f4(b"CTOC", ctoc(b"a", 0, 1, b"b\0c\0")), contents("61", 0, 0, "6200", "6300"))
case("2.4 contents, subframe refused", 4, f4(b"CTOC", ctoc(b"a", 0, 0, b"", f4(b"TIT2", b""))), refused(11))

# ---- longer counters in chapters and tables of contents (request b)

LONG3 = f3(b"POPM", H("61 00 05 00 FFFFFFFFFFFFFFFF"))
LONG4 = f4(b"POPM", H("61 00 05 000000000000000000000007"))
OVER3 = f3(b"POPM", H("61 00 05 01 0000000000000000"))
OVER4 = f4(b"POPM", H("61 00 05 01 0000000000000000"))
case("2.3 chapter, a counter of 9 bytes", 3, f3(b"CHAP", chap(b"a", LONG3)), chapter("61", "504F504D 0000000C 0000 610005 00 FFFFFFFFFFFFFFFF"))
case("2.4 chapter, a counter of 12 bytes", 4, f4(b"CHAP", chap(b"a", LONG4)), chapter("61", "504F504D 0000000F 0000 610005 000000000000000000000007"))
case("2.4 chapter in a chapter, a counter of 12 bytes", 4, nest(f4, 2, LONG4), chapter("", nest(f4, 1, LONG4).hex()))
case("2.3 contents, a counter of 9 bytes", 3, f3(b"CTOC", ctoc(b"a", 0, 1, b"b\0", LONG3)), contents("61", 0, 0, "6200", LONG3.hex()))
case("2.4 contents, a counter of 12 bytes", 4, f4(b"CTOC", ctoc(b"a", 0, 1, b"b\0", LONG4)), contents("61", 0, 0, "6200", LONG4.hex()))
case("2.3 chapter, counter too large", 3, f3(b"CHAP", chap(b"a", OVER3)), refused(35))
case("2.4 chapter, counter too large", 4, f4(b"CHAP", chap(b"a", OVER4)), refused(35))
case("2.3 chapter in a chapter, counter too large", 3, nest(f3, 2, OVER3), refused(35))
case("2.4 chapter in a chapter, counter too large", 4, nest(f4, 2, SUB4 + OVER4), refused(35))
case("2.3 contents, counter too large", 3, f3(b"CTOC", ctoc(b"a", 0, 1, b"b\0", OVER3)), refused(35))
case("2.4 contents, counter too large", 4, f4(b"CTOC", ctoc(b"a", 3, 1, b"b\0", LONG4 + OVER4)), refused(35))
case("2.4 contents in a chapter, counter too large", 4, nest(f4, 1, f4(b"CTOC", ctoc(b"a", 0, 0, b"", OVER4))), refused(35))
case("2.4 chapter, an encoding of 9, then a counter too large", 4, f4(b"CHAP", chap(b"a", f4(b"TIT2", b"\x09") + OVER4)), refused(12))
case("2.4 chapter, a counter too large, then an encoding of 9", 4, f4(b"CHAP", chap(b"a", OVER4 + f4(b"TIT2", b"\x09"))), refused(35))
case("2.4 chapter, a counter too large behind padding is not met", 4, f4(b"CHAP", chap(b"a", bytes(1) + OVER4)), chapter("61", "00 504F504D 0000000C 0000 610005 01 0000000000000000"))
case("2.4 chapter, a compressed popularimeter with nine FF", 4, f4(b"CHAP", chap(b"a", f4(b"POPM", H("61 00 05 FFFFFFFFFFFFFFFFFF"), 0x0008))), chapter("61", "504F504D 0000000C 0008 610005 FFFFFFFFFFFFFFFFFF"))
case("2.4 chapter, 8 of 9 bytes of a counter", 4, f4(b"CHAP", chap(b"a", f4(b"POPM", H("61 00 05 01 00000000000000"), size=12))), chapter("61", "504F504D 0000000C 0000 610005 01 00000000000000"))
case("2.4 chapter, 9 of 10 bytes of a counter", 4, f4(b"CHAP", chap(b"a", f4(b"POPM", H("61 00 05 01 0000000000000000"), size=13))), refused(35))
case("2.4 depth 8 has a counter of 12 bytes", 4, nest(f4, 7, LONG4), chapter("", nest(f4, 6, LONG4).hex()))
case("2.3 depth 8 has a counter too large", 3, nest(f3, 7, OVER3), refused(35))
case("2.4 depth 8 has a counter too large", 4, nest(f4, 7, OVER4), refused(35))
case("2.4 depth 9 has a counter too large: 13 comes before", 4, nest(f4, 8, OVER4), refused(13))

# ---- depth

DEEP7 = nest(f4, 7)
case("2.4 depth 2", 4, nest(f4, 2), chapter("", nest(f4, 1).hex()))
case("2.4 depth 8", 4, nest(f4, 8), chapter("", DEEP7.hex()))
case("2.4 depth 9", 4, nest(f4, 9), refused(13))
case("2.3 depth 8", 3, nest(f3, 8), chapter("", nest(f3, 7).hex()))
case("2.3 depth 9", 3, nest(f3, 9), refused(13))
case("2.4 depth 9 is a text", 4, nest(f4, 8, SUB4), refused(13))
case("2.4 depth 8 is a text", 4, nest(f4, 7, SUB4), chapter("", nest(f4, 6, SUB4).hex()))
case("2.4 depth 9 has a bad id: 13 comes before", 4, nest(f4, 8, f4(H("FF414141"), b"")), refused(13))
case("2.4 depth 9 is padding: no frame", 4, nest(f4, 8, bytes(12)), chapter("", nest(f4, 7, bytes(12)).hex()))
case("2.4 depth 9 has nine bytes: no frame", 4, nest(f4, 8, b"x" * 9), chapter("", nest(f4, 7, b"x" * 9).hex()))
case("2.4 depth 9 compressed", 4, nest(f4, 8, f4(b"XYZW", b"", 0x0008)), refused(13))
case("2.4 a chapter compressed at depth 8 has no depth 9", 4, nest(f4, 7, f4(b"CHAP", chap(b"", SUB4), 0x0008)), chapter("", nest(f4, 6, f4(b"CHAP", chap(b"", SUB4), 0x0008)).hex()))
case("2.4 contents at depth 8 with a text", 4, nest(f4, 7, f4(b"CTOC", ctoc(b"", 0, 0, b"", SUB4))), refused(13))
case("2.4 depth 9 behind a sibling of depth 8", 4, nest(f4, 7, SUB4 + nest(f4, 2)), refused(13))

# ---- flagged 0002: the room

case("flagged, empty, no room", 4, f4(b"XYZW", b"", 0x0002), raw("", work=True), room=0)
case("flagged, nothing dropped", 4, f4(b"XYZW", H("0708"), 0x0002), raw("0708", work=True), left="0708")
case("flagged, FF 00", 4, f4(b"XYZW", H("FF00"), 0x0002), raw("FF", work=True), left="FF")
case("flagged, FF 00 00", 4, f4(b"XYZW", H("FF0000"), 0x0002), raw("FF00", work=True), left="FF00")
case("flagged, FF 00 E0", 4, f4(b"XYZW", H("FF00E0"), 0x0002), raw("FFE0", work=True), left="FFE0")
case("flagged, FF FF 00", 4, f4(b"XYZW", H("FFFF00"), 0x0002), raw("FFFF", work=True), left="FFFF")
case("flagged, FF 00 FF 00 FF", 4, f4(b"XYZW", H("FF00FF00FF"), 0x0002), raw("FFFFFF", work=True), left="FFFFFF")
case("flagged, FF E0 stays", 4, f4(b"XYZW", H("FFE0"), 0x0002), raw("FFE0", work=True), left="FFE0")
case("flagged, room exactly full", 4, f4(b"XYZW", H("FF00E007"), 0x0002), raw("FFE007", work=True), room=3, left="FFE007")
case("flagged, room one too small", 4, f4(b"XYZW", H("FF00E007"), 0x0002), refused(14), room=2)
case("flagged, one byte and no room", 4, f4(b"XYZW", H("07"), 0x0002), refused(14), room=0)
case("flagged, the first of two fits, not both", 4, f4(b"XYZW", H("0708"), 0x0002), refused(14), room=1)
case("flagged, stored bytes are more than the room", 4, f4(b"XYZW", H("FF00FF00FF00"), 0x0002), raw("FFFFFF", work=True), room=3, left="FFFFFF")
case("flagged, 14 comes before 12", 4, f4(b"TIT2", H("0900"), 0x0002), refused(14), room=1)
case("flagged, 12 after it was put", 4, f4(b"TIT2", H("09FF00"), 0x0002), refused(12), left="09FF")
case("flagged text", 4, f4(b"TIT2", H("01 FF00FE 4100"), 0x0002), text(1, "FFFE4100", work=True), left="01FFFE4100")
case("flagged text, its closing zero", 4, f4(b"TIT2", H("00 41 FF0000"), 0x0002), text(0, "41FF", work=True), left="0041FF00")
case("flagged text, a zero is dropped first", 4, f4(b"TIT2", H("00 41 FF00"), 0x0002), text(0, "41FF", work=True), left="0041FF")
case("flagged popularimeter FF 00", 4, f4(b"POPM", H("61 00 05 FF0000"), 0x0002), pop("61", 5, 65280, work=True), left="610005FF00")
case("flagged popularimeter of eight FF", 4, f4(b"POPM", H("61 00 05 FF00FF00FF00FF00FF00FF00FF00FF"), 0x0002), pop("61", 5, 18446744073709551615, work=True), room=11, left="610005FFFFFFFFFFFFFFFF")
case("flagged popularimeter, rating FF", 4, f4(b"POPM", H("61 00 FF00 07"), 0x0002), pop("61", 255, 7, work=True), left="6100FF07")
case("flagged popularimeter, user FF loses its zero", 4, f4(b"POPM", H("FF00 05 07"), 0x0002), refused(11), left="FF0507")
# a counter of 00 and FF and eight zeros as it is stored has nine bytes when a zero is dropped, and fits
case("flagged popularimeter, counter of 9 bytes", 4, f4(b"POPM", H("61 00 05 00FF" + EIGHT_ZEROS), 0x0002), pop("61", 5, 18374686479671623680, work=True), room=12, left="610005 00FF00000000000000")
case("flagged popularimeter, counter of 9 bytes, a zero dropped four times", 4, f4(b"POPM", H("61 00 05 00FF0000FF0000FF0000FF0000"), 0x0002), pop("61", 5, 18374966859414961920, work=True), room=20, left="610005 00FF00FF00FF00FF00")
case("flagged popularimeter, counter of 12 bytes after a rating of FF", 4, f4(b"POPM", H("61 00 FF 00 000000000000000000000007"), 0x0002), pop("61", 255, 7, work=True), room=15, left="6100FF 000000000000000000000007")
case("flagged popularimeter, 01 and eight zeros", 4, f4(b"POPM", H("61 00 05 01" + EIGHT_ZEROS), 0x0002), refused(35), room=13, left="610005 01" + EIGHT_ZEROS)
case("flagged popularimeter, FF and eight zeros: one is dropped", 4, f4(b"POPM", H("61 00 05 FF" + EIGHT_ZEROS), 0x0002), pop("61", 5, 18374686479671623680, work=True), room=12, left="610005 FF00000000000000")
case("flagged popularimeter, FF and nine zeros", 4, f4(b"POPM", H("61 00 05 FF00" + EIGHT_ZEROS), 0x0002), refused(35), room=14, left="610005 FF" + EIGHT_ZEROS)
case("flagged popularimeter, FF and nine zeros, room one too small: 14", 4, f4(b"POPM", H("61 00 05 FF00" + EIGHT_ZEROS), 0x0002), refused(14), room=11)
case("flagged popularimeter, 9 of 12 bytes: short", 4, f4(b"POPM", H("61 00 05 00FF" + EIGHT_ZEROS), 0x0002, 16), pop("61", 5, 18374686479671623680, short=True, work=True), room=12, left="610005 00FF00000000000000")
case("flagged popularimeter, 9 of 12 bytes do not fit", 4, f4(b"POPM", H("61 00 05 FF00" + EIGHT_ZEROS), 0x0002, 16), refused(35), room=12, left="610005 FF" + EIGHT_ZEROS)
case("flagged table", 4, f4(b"MLLT", mllt(8, 8, H("FF00FF")), 0x0002), table((0, 0, 0, 8, 8), "FFFF", work=True), room=12, left="0000 000000 000000 0808 FFFF")
case("flagged and short", 4, f4(b"XYZW", H("FF00"), 0x0002, 9), raw("FF", short=True, work=True), left="FF")
case("flagged, 100 bytes, room of 100", 4, f4(b"XYZW", b"\x09" * 100, 0x0002), raw("09" * 100, work=True), room=100, left="09" * 100)
case("flagged, 100 bytes, room of 99", 4, f4(b"XYZW", b"\x09" * 100, 0x0002), refused(14), room=99)
case("flagged, 200 FF 00 in a room of 200", 4, f4(b"XYZW", H("FF00") * 200, 0x0002), raw("FF" * 200, work=True), room=200, left="FF" * 200)
case("flagged, 200 FF 00 in a room of 199", 4, f4(b"XYZW", H("FF00") * 200, 0x0002), refused(14), room=199)
case("flagged, 4,000 bytes, room of 5,000", 4, f4(b"XYZW", H("01FF0002") * 1000, 0x0002), raw("01FF02" * 1000, work=True), room=5000, left="01FF02" * 1000)

# ---- flagged 0002 inside chapters

R3 = f4(b"XYZW", H("FF00E007"), 0x0002)  # shown FF E0 07
R2 = f4(b"XYZW", H("FF0008"), 0x0002)  # shown FF 08
SHOWN = chap(b"", times=bytes(16))  # 17 bytes of zero
ZEROS17 = "00" * 17
case("chapter, subframe at the front of the room", 4, f4(b"CHAP", chap(b"a", R3)), chapter("61", R3.hex()), left="FFE007")
case("chapter, siblings at one place", 4, f4(b"CHAP", chap(b"a", R3 + R2)), chapter("61", (R3 + R2).hex()), left="FF0807")
case("chapter, siblings, room of the longer", 4, f4(b"CHAP", chap(b"a", R2 + R3)), chapter("61", (R2 + R3).hex()), room=3, left="FFE007")
case("chapter, siblings, the second finds no room", 4, f4(b"CHAP", chap(b"a", R2 + R3)), refused(14), room=2, left="FF08")
case("chapter, a sibling refused, the former stays", 4, f4(b"CHAP", chap(b"a", R3 + f4(b"TIT2", b"\x09"))), refused(12), left="FFE007")
case("flagged chapter without a run", 4, f4(b"CHAP", SHOWN, 0x0002), chapter("", "", Z4, work=True), room=17, left=ZEROS17)
case("flagged chapter, room one too small", 4, f4(b"CHAP", SHOWN, 0x0002), refused(14), room=16)
case("flagged chapter, 11 after it was put", 4, f4(b"CHAP", SHOWN[:-1], 0x0002), refused(11), room=17, left="00" * 16)
# the run of a flagged chapter lies in its own stored body, so that FF 00 in a subframe is FF 00 00 there
OUTER = f4(b"CHAP", SHOWN + H("58595A57 00000004 0002 FF0000E007"), 0x0002)
case("flagged chapter, subframe behind it, full", 4, OUTER, chapter("", "58595A57 00000004 0002 FF00E007", Z4, work=True), room=34, left=ZEROS17 + "58595A57 00000004 0002 FF00E007" + "FFE007")
case("flagged chapter, subframe behind it, one too small", 4, OUTER, refused(14), room=33, left=ZEROS17 + "58595A57 00000004 0002 FF00E007")
TWO = f4(b"CHAP", SHOWN + H("58595A57 00000004 0002 FF0000E007") + H("58595A57 00000003 0002 FF000008"), 0x0002)
TWO_RUN = "58595A57 00000004 0002 FF00E007" + "58595A57 00000003 0002 FF0008"
case("flagged chapter, siblings behind it", 4, TWO, chapter("", TWO_RUN, Z4, work=True), room=60, left=ZEROS17 + TWO_RUN + "FF0807")
case("flagged chapter, siblings behind it, exactly full", 4, TWO, chapter("", TWO_RUN, Z4, work=True), room=47, left=ZEROS17 + TWO_RUN + "FF0807")
case("flagged chapter, siblings behind it, one too small", 4, TWO, refused(14), room=46, left=ZEROS17 + TWO_RUN)
# a plain chapter (depth 2) in a flagged one: what is flagged in it still lies after the outermost
PLAIN_IN = f4(b"CHAP", SHOWN + f4(b"CHAP", SHOWN + H("58595A57 00000003 0002 FF000008"), size=30), 0x0002)
PLAIN_RUN = "43484150 0000001E 0000" + ZEROS17 + "58595A57 00000003 0002 FF0008"
case("plain chapter in a flagged one", 4, PLAIN_IN, chapter("", PLAIN_RUN, Z4, work=True), room=60, left=ZEROS17 + PLAIN_RUN + "FF08")
# a flagged chapter (depth 2) in a plain one lies at the front of the room, and what is flagged in it after it
IN_PLAIN = f4(b"CHAP", SHOWN + f4(b"CHAP", SHOWN + H("58595A57 00000003 0002 FF000008"), 0x0002))
IN_RUN = "43484150 0000001F 0002" + ZEROS17 + "58595A57 00000003 0002 FF000008"
case("flagged chapter in a plain one", 4, IN_PLAIN, chapter("", IN_RUN, Z4), room=32, left=ZEROS17 + "58595A57 00000003 0002 FF0008" + "FF08")
case("flagged chapter in a plain one, one too small", 4, IN_PLAIN, refused(14), room=31, left=ZEROS17 + "58595A57 00000003 0002 FF0008")
# flagged in flagged in flagged: FF 00 08 is stored FF 00 00 08 in the second and FF 00 00 00 08 in the first
THREE = f4(b"CHAP", SHOWN + H("43484150 0000001F 0002") + SHOWN + H("58595A57 00000003 0002 FF00000008"), 0x0002)
THREE_1 = ZEROS17 + "43484150 0000001F 0002" + ZEROS17 + "58595A57 00000003 0002 FF000008"
THREE_2 = ZEROS17 + "58595A57 00000003 0002 FF0008"
case("flagged in flagged in flagged, full", 4, THREE, chapter("", THREE_1[34:], Z4, work=True), room=58 + 30 + 2, left=THREE_1 + THREE_2 + "FF08")
case("flagged in flagged in flagged, one too small", 4, THREE, refused(14), room=58 + 30 + 1, left=THREE_1 + THREE_2)
case("flagged in flagged in flagged, the second does not fit", 4, THREE, refused(14), room=58 + 29, left=THREE_1)
# after a resynchronised chapter comes a sibling: it takes the place of the chapter
AFTER = f4(b"CHAP", SHOWN + f4(b"CHAP", SHOWN, 0x0002) + R2)
case("a sibling of a flagged chapter takes its place", 4, AFTER, chapter("", (f4(b"CHAP", SHOWN, 0x0002) + R2).hex(), Z4), room=17, left="FF08" + "00" * 15)
# longer counters: FF and nine zeros are stored FF and ten zeros in a flagged chapter, and shown FF and eight zeros
case("chapter, a flagged counter of 9 bytes", 4, f4(b"CHAP", chap(b"a", f4(b"POPM", H("61 00 05 00FF" + EIGHT_ZEROS), 0x0002))), chapter("61", "504F504D 0000000D 0002 610005 00FF" + EIGHT_ZEROS), room=13, left="610005 00FF00000000000000")
case("chapter, a flagged counter too large", 4, f4(b"CHAP", chap(b"a", f4(b"POPM", H("61 00 05 FF00" + EIGHT_ZEROS), 0x0002))), refused(35), room=13, left="610005 FF" + EIGHT_ZEROS)
case("chapter, a flagged sibling, then a counter too large", 4, f4(b"CHAP", chap(b"a", R3 + OVER4)), refused(35), left="FFE007")
case("flagged chapter, a flagged counter of 9 bytes", 4, f4(b"CHAP", SHOWN + H("504F504D 0000000D 0002 610005 00FF00" + EIGHT_ZEROS), 0x0002), chapter("", "504F504D 0000000D 0002 610005 00FF" + EIGHT_ZEROS, Z4, work=True), room=52, left=ZEROS17 + "504F504D 0000000D 0002 610005 00FF" + EIGHT_ZEROS + "610005 00FF00000000000000")
case("flagged chapter, a flagged counter too large", 4, f4(b"CHAP", SHOWN + H("504F504D 0000000D 0002 610005 FF0000" + EIGHT_ZEROS), 0x0002), refused(35), room=52, left=ZEROS17 + "504F504D 0000000D 0002 610005 FF00" + EIGHT_ZEROS + "610005 FF" + EIGHT_ZEROS)
case("flagged chapter, a counter of 9 bytes that is not flagged", 4, f4(b"CHAP", SHOWN + H("504F504D 0000000C 0000 610005 00FF" + EIGHT_ZEROS), 0x0002), chapter("", "504F504D 0000000C 0000 610005 00FF00000000000000", Z4, work=True), room=40, left=ZEROS17 + "504F504D 0000000C 0000 610005 00FF00000000000000")
case("flagged chapter, a counter too large that is not flagged", 4, f4(b"CHAP", SHOWN + H("504F504D 0000000C 0000 610005 FF00" + EIGHT_ZEROS), 0x0002), refused(35), room=40, left=ZEROS17 + "504F504D 0000000C 0000 610005 FF" + EIGHT_ZEROS)
case("flagged contents with a child", 4, f4(b"CTOC", ctoc(b"a", 3, 1, b"b\0"), 0x0002), contents("61", 1, 1, "6200", "", work=True), left="610003016200")
case("flagged contents, child FF loses its zero", 4, f4(b"CTOC", ctoc(b"a", 3, 1, H("FF00")), 0x0002), refused(11), left="61000301FF")
case("flagged contents, child FF closed", 4, f4(b"CTOC", ctoc(b"a", 3, 1, H("FF0000")), 0x0002), contents("61", 1, 1, "FF00", "", work=True), left="61000301FF00")
case("subframe compressed and flagged stays", 4, f4(b"CHAP", chap(b"a", f4(b"XYZW", H("FF00"), 0x000A))), chapter("61", f4(b"XYZW", H("FF00"), 0x000A).hex()), room=0)
case("subframe with data length and flagged", 4, f4(b"CHAP", chap(b"a", f4(b"XYZW", H("00000001 FF00"), 0x0003))), chapter("61", f4(b"XYZW", H("00000001 FF00"), 0x0003).hex()), left="FF")
case("2.3 chapter, subframe 0002 is no flag", 3, f3(b"CHAP", chap(b"a", f3(b"XYZW", H("FF00"), 0x0002))), chapter("61", f3(b"XYZW", H("FF00"), 0x0002).hex()), room=0)
case("flagged at depth 8", 4, nest(f4, 7, R2), chapter("", nest(f4, 6, R2).hex()), left="FF08")
case("flagged at depth 9", 4, nest(f4, 8, R2), refused(13))

# ---- places: the frame after others, the end before the bytes', buffers of the work

TWO4 = f4(b"XYZW", b"\x07") + f4(b"POPM", H("61 00 05 01"))
case("2.4 the second frame", 4, TWO4, pop("61", 5, 1), at=11)
case("2.4 the second frame, frames begin at 5", 4, TWO4, pop("61", 5, 1), begin=5, at=11)
case("2.4 frames begin behind the place", 4, TWO4, pop("61", 5, 1), begin=20, at=11)
case("2.4 the end cuts the body", 4, TWO4, pop("61", 5, 0, short=True), at=11, end=24)
case("2.4 the end cuts the header", 4, TWO4, NOTHING, at=11, end=20)
case("2.4 the end is behind the bytes", 4, TWO4, pop("61", 5, 1), at=11, end=1000)
case("2.4 the place is the end", 4, TWO4, NOTHING, at=25, end=25)
case("2.4 the place is behind the end", 4, TWO4, NOTHING, at=12, end=11)
case("2.4 the place is behind the bytes", 4, TWO4, NOTHING, at=100, end=200)
case("2.3 the end cuts the body", 3, f3(b"XYZW", H("0708")), refused(5), end=11)
case("2.2 the end cuts the body", 2, f2(b"XYZ", H("0708")), raw("07", short=True), end=7)
case("2.2 in a work buffer", 2, f2(b"POP", H("61 00 05 01")), pop("61", 5, 1, work=True), room=0, in_work=True)
case("2.3 in a work buffer", 3, f3(b"POPM", H("61 00 05 01")), pop("61", 5, 1, work=True), room=0, in_work=True)
case("2.4 in a work buffer, flagged, no room", 4, f4(b"XYZW", H("07"), 0x0002), refused(14), room=0, in_work=True)
case("2.4 the end cuts a counter too large so that it fits", 4, OVER4, pop("61", 5, 72057594037927936, short=True), end=21)
case("2.4 the end cuts a counter behind its ninth byte", 4, f4(b"POPM", H("61 00 05 01" + EIGHT_ZEROS + "07")), refused(35), end=22)
case("2.4 a counter too large before the place is not met", 4, OVER4 + LONG4, pop("61", 5, 7), at=22)
case("2.2 in a work buffer, a counter of 12 bytes", 2, f2(b"POP", H("61 00 05 000000000000000000000007")), pop("61", 5, 7, work=True), room=0, in_work=True)
case("2.2 in a work buffer, counter too large", 2, f2(b"POP", H("61 00 05 01" + EIGHT_ZEROS)), refused(35), room=0, in_work=True)
case("2.3 in a work buffer, counter too large in a chapter", 3, f3(b"CHAP", chap(b"a", OVER3)), refused(35), room=0, in_work=True)
case("2.4 flagged at a place behind others", 4, f4(b"XYZW", b"\x07") + R3, raw("FFE007", work=True), begin=11, at=11, left="FFE007")


# ---- what the model answers, what was stated, and the files


def answered(c):
    """The model's answer to a case, and the work buffer then: the room, or the bytes where they are a work buffer."""
    _, version, octets, _, room_length, _, begin, at, end, in_work = c
    room = bytearray([FILL]) * room_length
    work = bytearray(octets) if in_work else room
    try:
        return model.frame_at(room, work if in_work else octets, version, in_work, begin, at, end), work
    except model.Refused as refusal:
        return refusal.number, work


def stated(found, octets, work):
    """The model's answer in the words of the table."""
    if found is None:
        return NOTHING
    if isinstance(found, int):
        return refused(found)
    r, _ = found
    source = work if r.in_work else octets
    name, names, rest = (model.part(span, source).hex() for span in (r.name, r.names, r.rest))
    return frame(r.kind, r.numbers, name, names, rest, r.short, r.compressed, r.in_work)


def agree(c, found, work):
    name, _, octets, answer, length, left, *_, in_work = c
    assert stated(found, octets, work) == answer, (name, stated(found, octets, work), answer)
    expected = octets if in_work else left + bytes([FILL]) * (length - len(left))
    assert work == expected, (name, work.hex(), expected.hex())


def spans(r):
    named = (("body", r.body), ("name", r.name), ("names", r.names), ("rest", r.rest))
    return " ".join("%s %d %d" % (word, *span) for word, span in named)


def answer_words(found):
    if found is None:
        return "nothing"
    if isinstance(found, int):
        return "refused %d" % found
    r, behind = found
    words = ["frame", r.id.rjust(4, b"\0").hex(), r.kind, *map(str, r.numbers)]
    words += ["short" if r.short else "whole", "compressed" if r.compressed else "plain"]
    words += ["at", str(r.at), "work" if r.in_work else "tag", spans(r), "next", str(behind)]
    return " ".join(words)


def room_words(room):
    words = "room %d %s" % (len(room), room[:64].hex() or "-")
    if len(room) <= 64:
        return words
    a = b = 0
    for x in room:
        a += x
        b += a
    return words + " sum %d %d" % (a, b)


def packed(c):
    _, version, octets, _, room_length, _, begin, at, end, in_work = c
    return bytes([version, in_work]) + b"".join(map(number, (room_length, begin, at, end, len(octets)))) + octets


def main():
    names = [c[0] for c in CASES]
    assert len(names) == len(set(names)), "two cases of one name"
    lines = []
    for i, c in enumerate(CASES, 1):
        found, work = answered(c)
        agree(c, found, work)
        lines.append("%d %s %s\n" % (i, answer_words(found), room_words(work)))
    folder = Path(__file__).resolve().parent.parent / "crates" / "test_frames"
    folder.mkdir(exist_ok=True)
    (folder / "stdin").write_bytes(b"".join(map(packed, CASES)))
    (folder / "stdout").write_text("".join(lines))
    print(len(CASES), "frames", file=sys.stderr)


if __name__ == "__main__":
    main()
