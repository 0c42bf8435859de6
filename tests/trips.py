"""Records there and back for the program `test_trips`: writes crates/test_trips/stdin (the cases) and crates/test_trips/stdout (the answers).

Each case is one record, written to a tag of its own and read from it. What comes of it is stated by hand in the table below: it comes back
the same, it is refused with a number, or it is lost, which takes a work buffer that is too short. The model is asked too and must agree;
the length of a tag is the model's.

The layout of stdin stands in records.py: each case has one record and is begun with its mode and no mark, and what is lent beside the output
is the work buffer, of that length. All buffers are filled with A5 at first.

A line of stdout for each case, N counted from 1:
  case N read LENGTH same        the tag has that length, and its only record is the one given (else `changed`)
  case N refused NUMBER
  case N lost
"""

import sys
from pathlib import Path

import model
from layout import H, chap, f3, f4, nest
from records import CRATE, OFF, STANDARD, R, as_read, call, chapter, contents, looked_at, packed_case, pop, raw, read_all, table, text

FILL = 0xA5
SAME, LOST = "same", "lost"
MODES = {OFF: "off", CRATE: "crate", STANDARD: "standard"}
CASES = []


def case(name, version, mode, record, wanted, padding=0, buffer=600, work=600, output=600):
    CASES.append(("2.%d, %s: %s" % (version, MODES.get(mode, mode), name), version, mode, record, wanted, padding, buffer, work, output))


def back(name, version, record, **more):
    """A record that comes back in each mode. Of one edition, mode and kind every other case has padding."""
    for mode in MODES:
        earlier = sum((c[1], c[2], c[3].kind) == (version, mode, record.kind) for c in CASES)
        case(name, version, mode, record, SAME, padding=7 * (earlier % 2), **more)


def none(name, version, record, k, mode=OFF, **more):
    """A record that is refused."""
    case("%d: %s" % (k, name), version, mode, record, R(k), **more)


# ---- the four kinds of every edition

# texts by their encoding; by pairs the zeros of two neighbours are no end
TEXTS = [
    (0, ""), (0, "41"), (0, "FF"), (0, "FFE0FFFF"), (1, ""), (1, "FFFE4100"), (1, "FEFF00FF"), (1, "FFFEFF00E0FF"), (2, ""), (2, "00FFE0FF"), (2, "FF0000FF"),
    (3, ""), (3, "C3A9"), (3, "FFE0FF"),
]
POPULARIMETERS = [("", 0, 0), ("61", 255, 255), ("FF", 0, 65280), ("FFE0", 255, 2**32), ("61FF", 224, 2**64 - 1), ("", 255, 2**56 - 1), ("FF", 1, 0xFF00FFE000FF)]
TABLES = [
    (4, 8, (), (0, 0, 0)), (4, 8, (0xA, 0x5C), (1, 0xFF, 0xE0)), (4, 8, (0xA, 0x5C, 0x3, 0x01), (255, 0xFF00FF, 0xE00000)), (8, 8, (0xFF, 0x00, 0xFF, 0xE0, 0xFF, 0xFF), (65535, 2**24 - 1, 2**24 - 1)),
    (1, 3, (1, 7, 0, 5), (0, 1, 2)), (3, 1, (7, 0, 5, 1, 0, 0, 7, 1), (0, 0, 0)), (2, 2, (3, 3, 3, 3, 0, 0, 0, 0), (0, 0, 0xFF)), (5, 3, (31, 7, 0, 0, 31, 7), (0, 0, 0)), (7, 5, (0x7F, 0x1E, 0, 0, 0x7F, 0x1F), (0, 0, 0)),
    (20, 12, (0xFF00F, 0xFE0), (0, 0, 0)), (31, 1, (2**31 - 1, 1, 0, 0), (0, 0, 0)), (1, 31, (1, 2**31 - 1), (0, 0, 0)), (32, 32, (0xFF000000, 0xFFE0FFFF, 0, 2**32 - 1), (0, 0, 0)), (32, 4, (0x0FF00FF0, 15), (0, 0, 0)),
]
RAWS = ["00", "FF", "FF00", "FFE0", "FFFF00", "FFFFFF", "FF00FFE0FF", "FFDF", "00FF0000", "07" * 127, "FF" * 64, "E0" + "FF00" * 127]

for version, t, p, m, x in [(2, b"TT2", b"POP", b"MLL", b"XYZ"), (3, b"TIT2", b"POPM", b"MLLT", b"XYZW"), (4, b"TIT2", b"POPM", b"MLLT", b"XYZW")]:
    for encoding, octets in TEXTS:
        back("text %d %s" % (encoding, octets), version, text(t, encoding, octets))
    for user, rating, counter in POPULARIMETERS:
        back("user %s, rating %d, counter %d" % (user, rating, counter), version, pop(p, user, rating, counter))
    for v, w, deviations, steps in TABLES:
        back("widths %d and %d, deviations %s" % (v, w, deviations), version, table(m, v, w, *deviations, steps=steps))
    for octets in RAWS:
        back("raw %s of %d" % (octets[:12], len(octets) // 2), version, raw(x, octets))
    back("raw under a text's first letter", version, raw(b"TXX" if version == 2 else b"TXXX", "FF00"))
    back("what a text lacks", version, text(t, 0, "41", name=H("00"), names=H("61"), deviations=(1, 2, 3)))
    back("what a popularimeter lacks", version, pop(p, "61", 5, 1, names=H("61"), rest=H("07"), deviations=(1,)))
    back("what a table lacks", version, table(m, 4, 4, 3, 1, name=H("00"), names=H("61"), rest=H("07")))
for zeros in ("FF00FFE0FF", "00FF", "0000", "4100"):
    back("text with zeros %s" % zeros, 4, text(b"TIT2", 0, zeros))
back("text by pairs with zeros", 4, text(b"TIT2", 1, "FFFE0000FF00"))

# ---- chapters, contents and empty bodies, which 2.2 has not


def runs(lay):
    """Runs of subframes: none, one that ends in FF, several, the deepest, and counters of nine and of twelve bytes."""
    several = lay(b"TIT2", H("00FF")) + lay(b"POPM", H("FF00FFFF00")) + lay(b"XYZW", H("FFFF00")) + lay(b"CHAP", chap(b"\xFF", lay(b"TALB", H("03FFE0"))))
    counters = lay(b"POPM", H("61 00 FF 00FF00FFFFFFFFFFFF")) + lay(b"CHAP", chap(b"b", lay(b"POPM", H("FF 00 05 000000000000000000000007"))))
    return [("none", b""), ("one", lay(b"TIT2", H("00FFE0FF"))), ("several", several), ("deep", nest(lay, 7)), ("of longer counters", counters)]


for version, lay in [(3, f3), (4, f4)]:
    for shape, run in runs(lay):
        back("chapter, run %s" % shape, version, chapter(b"CHAP", "63FF", run, (0xFF, 0xE0000000, 0xFF00FFE0, 0xFFFFFFFF)))
        back("contents, run %s" % shape, version, contents(b"CTOC", "FF", 1, 1, H("FF00 FFE000 00 6300"), run))
    back("chapter without an element id", version, chapter(b"CHAP", ""))
    for top_level, ordered in [(0, 0), (0, 1), (1, 0), (1, 1)]:
        back("contents, marks %d and %d" % (top_level, ordered), version, contents(b"CTOC", "61", top_level, ordered))
    back("contents of 255 children", version, contents(b"CTOC", "61", 1, 0, bytes(255), lay(b"TIT2", H("00FF"))))
    back("what a chapter lacks", version, chapter(b"CHAP", "61", names=H("61"), deviations=(1,)))
    back("what a contents lacks", version, contents(b"CTOC", "61", 1, 0, deviations=(1,)))
    back("what a raw record lacks", version, raw(b"XYZW", "07", name=H("00"), names=H("61"), deviations=(1,)))
    back("raw of 0", version, raw(b"XYZW", ""))

# ---- refusals, each number that one small record can meet

none("version 1", 1, raw(b"XYZW", "07"), 2)
none("version 5", 5, raw(b"XYZW", "07"), 2)
none("mode 3", 4, raw(b"XYZW", "07"), 2, mode=3)
none("encoding 4", 4, text(b"TIT2", 4, "41"), 12)
none("collecting buffer one byte too short", 4, raw(b"XYZW", "FF00"), 20, mode=CRATE, buffer=12)
none("output one byte too short", 3, raw(b"XYZW", "FF00"), 20, mode=CRATE, output=22)
none("output one byte too short for the padding", 2, raw(b"XYZ", "07"), 20, padding=7, output=23)
none("no buffers", 4, raw(b"XYZW", "07"), 20, buffer=0, work=0, output=0)
none("a small letter", 3, raw(b"xYZW", "07"), 21)
none("text under POPM", 4, text(b"POPM", 0, "41"), 21)
none("chapter in 2.2", 2, chapter(b"CHAP", "61"), 21)
none("empty", 2, raw(b"XYZ", ""), 22)
none("padding of 2^28", 4, raw(b"XYZW", "07"), 24, padding=2**28)
none("the largest padding", 3, raw(b"XYZW", "07"), 24, mode=STANDARD, padding=2**64 - 1)
none("raw under MLL", 2, raw(b"MLL", "07"), 25)
none("short", 4, pop(b"POPM", "61", 5, 1, short=True), 25)
none("compressed", 3, raw(b"XYZW", "07", compressed=True), 25)
none("text with a zero", 3, text(b"TIT2", 0, "410042"), 26)
none("text that ends in a zero", 4, text(b"TIT2", 3, "414200"), 26)
none("user with a zero", 2, pop(b"POP", "6100", 5, 1), 27)
none("element id with a zero", 4, chapter(b"CHAP", "0061"), 27)
none("256 children", 3, contents(b"CTOC", "61", 0, 0, bytes(256)), 28)
none("child that is not closed", 4, contents(b"CTOC", "61", 0, 0, b"c\0d"), 28)
none("run that is padded", 4, chapter(b"CHAP", "61", f4(b"TIT2", H("0041")) + bytes(1)), 29)
none("run with a frame flagged 0002", 4, contents(b"CTOC", "61", 0, 0, b"", f4(b"XYZW", H("FF0000"), 2)), 29, mode=CRATE)
none("run with a counter too large", 3, chapter(b"CHAP", "61", f3(b"POPM", H("61 00 05 010000000000000000"))), 29)
none("run with a counter of nine FF", 4, contents(b"CTOC", "61", 0, 0, b"", f4(b"POPM", H("61 00 05 FFFFFFFFFFFFFFFFFF"))), 29, mode=STANDARD)
none("run with a counter too large inside a chapter", 3, contents(b"CTOC", "61", 0, 0, b"", nest(f3, 1, f3(b"POPM", H("61 00 05 010000000000000000")))), 29, mode=CRATE)
none("run with a counter too large at depth 8", 4, chapter(b"CHAP", "61", nest(f4, 6, f4(b"POPM", H("61 00 05 010000000000000000")))), 29)
none("run one chapter too deep", 3, chapter(b"CHAP", "61", nest(f3, 8)), 29)
none("width 0", 4, table(b"MLLT", 0, 4), 30)
none("width 33", 2, table(b"MLL", 3, 33), 30)
none("widths 4 and 5", 3, table(b"MLLT", 4, 5), 31)
none("one deviation", 4, table(b"MLLT", 4, 4, 1), 33)
none("deviation of too many bits", 4, table(b"MLLT", 4, 4, 16, 0), 33)
none("step of 2^24", 2, table(b"MLL", 4, 4, steps=(0, 2**24, 0)), 33)
none("one reference of four bits", 4, table(b"MLLT", 2, 2, 3, 1), 34)

# ---- buffers that are just long enough, and work buffers that are too short
# in 2.2 and 2.3 the work buffer takes all frames and the padding, in 2.4 the body of the frame; with the mode off it takes nothing

FFS = "FF00FFE0FF"
for version, x, header, stored in [(2, b"XYZ", 6, 6), (3, b"XYZW", 10, 6), (4, b"XYZW", 10, 6)]:
    just = header + 5 if version < 4 else 5
    case("no work buffer", version, OFF, raw(x, FFS), SAME, work=0)
    case("each buffer just long enough", version, CRATE, raw(x, FFS), SAME, buffer=header + stored, work=just, output=10 + header + stored)
    case("work buffer just long enough", version, STANDARD, raw(x, FFS), SAME, work=just)
    case("work buffer one byte too short", version, CRATE, raw(x, FFS), LOST, work=just - 1)
    case("no work buffer", version, STANDARD, raw(x, FFS), LOST, work=0)
# padding is not guarded: its first byte is dropped after the last FF
case("work buffer just long enough, padded", 3, CRATE, raw(b"XYZW", FFS), SAME, padding=7, work=15 + 7 - 1)
case("work buffer one byte too short, padded", 3, CRATE, raw(b"XYZW", FFS), LOST, padding=7, work=15 + 7 - 2)
case("work buffer just long enough, padded", 4, CRATE, raw(b"XYZW", FFS), SAME, padding=7, work=5)
case("output shorter than the work buffer", 4, STANDARD, pop(b"POPM", "FF", 255, 2**64 - 1), SAME, output=40, work=600)


# ---- what the model answers, what was stated, and the files


def outcome(c):
    """What the model says of a case: a refusal, or the tag and the word for what is read of it."""
    _, version, mode, record, _, padding, buffer_length, work, output = c
    given, buffer = as_read(version, record), bytearray([FILL]) * buffer_length
    try:
        writer = model.Writer(version, mode)
        writer.add(given, buffer)
        tag = writer.finish(padding, buffer, bytearray([FILL]) * output)
    except model.Refused as refusal:
        return R(refusal.number), b""
    found = call(read_all, tag, bytearray([FILL]) * work)
    if isinstance(found, R) or len(found) != 1:
        return LOST, tag
    return SAME if found == [looked_at(given)] else "changed", tag


def line(c):
    """The line of a case; the answer is held against the one that is stated."""
    name, wanted = c[0], c[4]
    answer, tag = outcome(c)
    if isinstance(answer, R):
        assert isinstance(wanted, R) and wanted.number == answer.number, (name, answer.number)
        return "refused %d" % answer.number
    assert answer == wanted, (name, answer)
    return LOST if answer == LOST else "read %d %s" % (len(tag), answer)


def packed(c):
    _, version, mode, record, _, padding, buffer, work, output = c
    return packed_case(version, False, mode, False, padding, buffer, work, output, [record])


def main():
    names = [c[0] for c in CASES]
    assert len(names) == len(set(names)), [n for n in names if names.count(n) > 1]
    tried = {(c[1], c[2], c[3].kind, c[5] > 0) for c in CASES if c[4] == SAME}
    assert len(tried) == (4 + 6 + 6) * 3 * 2, "each kind of each edition in each mode, padded and not"
    lines = "".join("case %d %s\n" % (i, line(c)) for i, c in enumerate(CASES, 1))
    folder = Path(__file__).resolve().parent.parent / "crates" / "test_trips"
    (folder / "stdin").write_bytes(b"".join(map(packed, CASES)))
    (folder / "stdout").write_text(lines)
    print(len(CASES), "records there and back", file=sys.stderr)


if __name__ == "__main__":
    main()
