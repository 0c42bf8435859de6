"""Edits for the program `test_edits`: writes crates/test_edits/stdin (the cases) and crates/test_edits/stdout (the answers).

Each case of the table below is a name, the bytes that are lent, and edits made one after the other, each with its answer stated by hand: a refusal,
after which the bytes are as they were, or all bytes then, and for a lift the new counter. The model is asked too and must agree. The tags of
raises.py and the records of writes.py serve again, with the answers that are stated there. Behind the table come edits made by chance and sequences
of a thousand edits (sequences.py), whose answers are the model's. The promises on editing are asked of the model in promised.py.

A case in stdin, numbers big-endian: length of the bytes (4 bytes), the tag with what follows it, number of edits (4), and each edit:
  replace: 0 (1 byte), number of the frame (8), the record
  remove: 1, number of the frame (8)
  append: 2, the record
  lift: 3, length of the user (4), the user, amount (8)
A record is laid out as records.py has it.

Lines of stdout for a case: `case N`, counted from 1; then for each edit
  replace done A B         A the sum of all the lent bytes after the call, B the sum of these sums, byte by byte
  replace refused NUMBER A B
and so for remove and append, for lift
  lift counts COUNTER A B
  lift refused NUMBER A B
and last `then HEX`, all the lent bytes after the last edit in lower case, `-` for none.
"""

import sys
from pathlib import Path

import model
import raises
import sequences
import writes
from layout import H, chap, ctoc, f2, f3, f4, mllt, nest, number
from raises import EDITIONS, LAY, MOST, NOT_UTF8, lay, whole
from records import OFF, R, as_read, chapter, contents, packed_record, pop, raw, table, text
from sequences import APPEND, LIFT, REMOVE, REPLACE

CASES = []


# ---- edits, and the answers that are stated


def replace(number, record):
    return REPLACE, number, record


def remove(number):
    return REMOVE, number


def append(record):
    return APPEND, record


def lift(user=b"a", amount=1):
    return LIFT, user, amount


def case(name, given, *steps):
    """Edits one after the other, each with its answer: a refusal R, the bytes then, or for a lift the counter and the bytes then."""
    CASES.append((name, given, steps))


def refused(name, k, version, given, *edits):
    """Edits that are all refused so."""
    case("2.%d, %d: %s" % (version, k, name), given, *[(edit, R(k)) for edit in edits])


def done(name, version, given, edit, after):
    case("2.%d, %s" % (version, name), given, (edit, after))


def lifted(name, counter, version, given, after, user=b"a", amount=1):
    case("2.%d, lift, %s" % (version, name), given, (lift(user, amount), (counter, after)))


# ---- records and frames by the edition

ID = {2: {"text": b"TT2", "popularimeter": b"POP", "table": b"MLL", "raw": b"XYZ"}}
ID[3] = ID[4] = {"text": b"TIT2", "popularimeter": b"POPM", "table": b"MLLT", "chapter": b"CHAP", "contents": b"CTOC", "raw": b"XYZW"}
HEADER = {2: 6, 3: 10, 4: 10}


def small(version, octet="07"):
    """A raw record of one byte, and its frame."""
    return raw(ID[version]["raw"], octet), lay(version, b"XYZW", H(octet))


def meter(version, counter, user=b"a"):
    """The frame of a popularimeter with the rating 5; its counter's bytes are in hexadecimal."""
    return raises.pop(version, counter, user)


def sized(version, kind, length):
    """A record of a kind, and its frame of this length, which is at least 30."""
    ident, n = ID[version][kind], length - HEADER[version]
    if kind == "text":
        return text(ident, 3, "41" * (n - 1)), LAY[version](ident, b"\3" + b"A" * (n - 1))
    if kind == "popularimeter":
        return pop(ident, "62" * (n - 4), 9, 65280), LAY[version](ident, b"b" * (n - 4) + H("00 09 FF00"))
    if kind == "table":
        return table(ident, 4, 4, *(2 * (n - 10)) * (5,)), LAY[version](ident, mllt(4, 4, b"\x55" * (n - 10)))
    if kind == "chapter":
        return chapter(ident, "63" * (n - 17)), LAY[version](ident, chap(b"c" * (n - 17)))
    if kind == "contents":
        return contents(ident, "74", 1, 0, b"c\0" + bytes(n - 6)), LAY[version](ident, ctoc(b"t", 2, n - 5, b"c\0" + bytes(n - 6)))
    return raw(ident, "FF" * n), LAY[version](ident, b"\xFF" * n)


# ---- tags that a raise has met: the same refusals up to 40; else the tag is plain, and no frame has the number 2^32

ANY = {v: small(v)[0] for v in EDITIONS}
for name, given, user, amount, k, counter, after in raises.CASES:
    record = ANY[given[3] if len(given) > 3 and given[3] in EDITIONS else 4]
    if 0 < k <= 40:
        case("as a raise: %s" % name, given, *[(edit, R(k)) for edit in (remove(0), append(record), lift(user, amount))])
    elif k == 44:
        case("plain: %s" % name, given, (remove(2**32), R(46)))
    else:
        case("plain: %s" % name, given, (remove(2**32), R(46)), (lift(user, amount), R(k) if k else (counter, after)))

# ---- records that the writer has met, in mode off without the mark: the same refusals and frames

WRITTEN = [(c[0], c[1], record, wanted) for c in writes.CASES if c[2] == OFF and not c[5] for record, wanted in c[3]]
for i, (name, v, record, wanted) in enumerate(WRITTEN, 1):
    name = "record %d, %s" % (i, name)
    one = small(v)[1]
    if isinstance(wanted, R):
        if wanted.number != 20:
            case(name, whole(v, one), (replace(0, record), wanted), (append(record), wanted))
        continue
    room = len(wanted)
    then = (remove(1), R(46)), (remove(0), whole(v, b"", padding=room))
    # after a run with a compressed subframe the tag is not plain
    if "compressed" in name:
        then = (remove(1), R(40)), (remove(0), R(40))
    case("%s, exact fit" % name, whole(v, b"", padding=room), (append(record), whole(v, wanted)), *then)
    case("%s, one byte too many" % name, whole(v, b"", padding=room - 1), (append(record), R(20)))

# ---- frames of every kind replaced by shorter, equal and longer ones, at the first, the middle and the last place

OLD = 32
SIDES = {v: (small(v, "FF")[1], small(v, "00FF")[1]) for v in EDITIONS}
for v in EDITIONS:
    kinds = list(ID[v])
    for i, kind in enumerate(kinds):
        for other in (kind, kinds[(i + 1) % len(kinds)]):
            for word, length in (("shorter", 31), ("equal", 32), ("longer", 37)):
                old, (record, new) = sized(v, kind, OLD)[1], sized(v, other, length)
                a, b = SIDES[v]
                for place, (before, behind) in enumerate([(b"", a + b), (a, b), (a + b, b"")]):
                    # the room is five bytes, as much as the longest takes
                    what = "%s at %d replaced by %s, %s" % (kind, place, other, word)
                    done(what, v, whole(v, before + old + behind, padding=5), replace(place, record), whole(v, before + new + behind, padding=5 + OLD - length))

# ---- 46: numbers

for v in EDITIONS:
    record, frame = small(v)
    for count in (0, 1, 2):
        full = whole(v, count * frame, padding=20)
        numbers = (count, count + 1, 255, 2**31, 2**32 - 1, 2**32, 2**32 + 1, 2**63, MOST)
        refused("%d frames" % count, 46, v, full, *[edit(n) for n in numbers for edit in (remove, lambda n: replace(n, record))])
    case("2.%d, numbers 1 and 2 of three" % v, whole(v, 3 * frame), (remove(3), R(46)), (remove(2), whole(v, 2 * frame, padding=len(frame))), (remove(2), R(46)), (remove(1), whole(v, frame, padding=2 * len(frame))))
    refused("2^32 is no number 0", 46, v, whole(v, frame), remove(2**32), replace(2**32, record))
    refused("behind padding and tag", 46, v, whole(v, frame, padding=20) + frame, remove(1), replace(1, record))

# ---- room: an exact fit, one byte too many, no padding

for v in EDITIONS:
    record, frame = small(v)
    (two, long), (_, short) = small(v, "0708"), small(v, "07")
    case("2.%d, no padding" % v, whole(v, short), (append(record), R(20)), (replace(0, two), R(20)), (replace(0, small(v, "08")[0]), whole(v, small(v, "08")[1])), (remove(0), whole(v, b"", padding=len(short))))
    case("2.%d, no padding, no frames" % v, whole(v, b""), (append(record), R(20)), (remove(0), R(46)), (replace(0, record), R(46)))
    done("replaced, exact fit", v, whole(v, short + short, padding=1), replace(0, two), whole(v, long + short))
    refused("replaced, one byte too many", 20, v, whole(v, short + short, padding=1), replace(0, small(v, "070809")[0]), replace(1, small(v, "070809")[0]))
    done("appended, exact fit", v, whole(v, short, padding=len(long)), append(two), whole(v, short + long))
    refused("appended, one byte too many", 20, v, whole(v, short, padding=len(long) - 1), append(two))
    done("appended, and one byte is left", v, whole(v, short, padding=len(long) + 1), append(two), whole(v, short + long, padding=1))
    case("2.%d, room freed by a removal serves the next" % v, whole(v, long + short), (append(two), R(20)), (remove(0), whole(v, short, padding=len(long))), (append(two), whole(v, short + long)))
    case("2.%d, room freed by a shorter one serves the next" % v, whole(v, long + short), (replace(0, record), whole(v, short + short, padding=1)), (replace(1, two), whole(v, short + long)))
    refused("bytes after the tag are no room", 20, v, whole(v, short) + bytes(40), append(record), replace(0, two))
    refused("the header's size, not the bytes", 20, v, whole(v, b"", size=len(short)) + bytes(len(short)) + b"x" * 9, append(two))

# ---- removal of all frames, one by one; what is freed becomes zeros

for v in EDITIONS:
    frames = [sized(v, kind, 30 + i)[1] for i, kind in enumerate(ID[v])]
    sound = H("FFFB9064 00")
    for word, order in (("from the first", lambda left: 0), ("from the last", lambda left: left - 1), ("from the middle", lambda left: left // 2)):
        there, steps = list(frames), []
        while there:
            at = order(len(there))
            there.pop(at)
            gone = sum(map(len, frames)) - sum(map(len, there))
            steps.append((remove(at), whole(v, b"".join(there), padding=3 + gone) + sound))
        case("2.%d, all removed %s" % (v, word), whole(v, b"".join(frames), padding=3) + sound, *steps, (remove(0), R(46)))

# ---- what follows the tag, and the header's other flags

for v in EDITIONS:
    (record, frame), (two, long) = small(v), small(v, "0708")
    for name, sound in [("FF", b"\xFF"), ("a frame", frame), ("zeros", bytes(12)), ("a tag", whole(v, frame))]:
        given = whole(v, frame + frame, padding=2) + sound
        case("2.%d, %s after the tag" % (v, name), given, (replace(0, two), whole(v, long + frame, padding=1) + sound), (remove(0), whole(v, frame, padding=len(frame) + 2) + sound), (append(two), whole(v, frame + long, padding=1) + sound))
    for flags in (0x10, 0x20, 0x30):
        case("2.%d, flags %02X stay" % (v, flags), whole(v, frame, flags, padding=9), (replace(0, two), whole(v, long, flags, padding=8)), (remove(0), whole(v, b"", flags, padding=9 + len(frame))))
    revised = bytearray(whole(v, frame, padding=1))
    revised[4] = 0xFF
    done("the byte behind the edition stays", v, bytes(revised), replace(0, two), bytes(revised[:10]) + long)
# 00 00 01 FF is 255
done("a header's size with bit 7 set", 4, whole(4, f4(b"XYZW", b"\7"), 0, H("000001FF")) + bytes(244) + b"\xFF", append(raw(b"XYZW", "08" * 234)), whole(4, f4(b"XYZW", b"\7") + f4(b"XYZW", b"\x08" * 234), 0, H("000001FF")) + b"\xFF")
refused("a header's size with bit 7 set, one byte too many", 20, 4, whole(4, f4(b"XYZW", b"\7"), 0, H("000001FF")) + bytes(244) + b"\xFF" * 200, append(raw(b"XYZW", "08" * 235)))

# ---- frames that stay are moved as they are

# frames that reading takes and adding would not write so: as they lie in the tag
ODD3 = [
    ("a chapter with padding in its run", f3(b"CHAP", chap(b"c", f3(b"TIT2", b"\3A") + bytes(12)))),
    ("contents with padding in a run inside", f3(b"CTOC", ctoc(b"t", 0, 0, b"", nest(f3, 2, f3(b"XYZW", b"") + b"\0x")))),
    ("a chapter with bytes left over", f3(b"CHAP", chap(b"c", b"xyz"))),
    ("a small letter in its id", f3(b"xYZW", b"\7")),
    ("flags that are not named", f3(b"XYZW", b"\7", 0xFF1F)),
    ("a counter with zeros in front", f3(b"POPM", b"a\0\5" + bytes(12))),
    ("a text behind a zero", f3(b"TIT2", b"\0A\0B")),
    ("contents with other bits", f3(b"CTOC", ctoc(b"t", 0xFC, 1, b"c\0"))),
    ("a table with a byte left over", f3(b"MLLT", mllt(32, 32, b"\7" * 9))),
]
ODD4 = [
    ("a chapter with padding in its run", f4(b"CHAP", chap(b"c", f4(b"TIT2", b"\3A") + bytes(12)))),
    ("contents with padding in a run inside", f4(b"CTOC", ctoc(b"t", 0, 0, b"", nest(f4, 2, f4(b"XYZW", b"") + b"\0x")))),
    ("flags that are not named", f4(b"XYZW", b"\7", 0xFFB0)),
    ("a data length", f4(b"XYZW", bytes(4) + b"\7", 0x0001)),
    ("a data length of FF", f4(b"TIT2", b"\xFF" * 4 + b"\0A", 0x0001)),
    ("a data length, size 0", f4(b"XYZW", H("00000005"), 0x0001, 0)),
    ("a data length, size 3", f4(b"XYZW", b"TIT2", 0x0001, 3)),
    ("a data length, size 4", f4(b"XYZW", bytes(4), 0x0001, 4)),
    ("a data length inside a chapter, size 1", f4(b"CHAP", chap(b"c", f4(b"XYZW", b"\7" * 4, 0x0001, 1)))),
    ("a size with bit 7 set", f4(b"XYZW", b"\7" * 128, 0, H("00000080"))),
    ("a text that ends in zeros", f4(b"TIT2", b"\0AB\0\0")),
]
ODD2 = [
    ("an empty body", f2(b"XYZ", b"")),
    ("a small letter in its id", f2(b"XyZ", b"\7")),
    ("a counter with zeros in front", f2(b"POP", b"a\0\5" + bytes(12))),
    ("a text behind a zero", f2(b"TT2", b"\0A\0B")),
    ("an id of UTF-8", f2(b"A\xC3\xA9", b"\7")),
]
for v, odd in ((2, ODD2), (3, ODD3), (4, ODD4)):
    (record, one), (two, long) = small(v), small(v, "0708")
    n = len(one)
    for name, frame in odd:
        k = len(frame)
        case(
            "2.%d, moved: %s" % (v, name), whole(v, one + frame + one, padding=1),
            (replace(0, two), whole(v, long + frame + one)),
            (remove(0), whole(v, frame + one, padding=n + 1)),
            (append(record), whole(v, frame + one + one, padding=1)),
            (remove(1), whole(v, frame + one, padding=n + 1)),
        )
        case(
            "2.%d, gives way: %s" % (v, name), whole(v, one + frame + one, padding=1),
            (replace(1, record), whole(v, one + one + one, padding=1 + k - n)),
            (remove(1), whole(v, one + one, padding=1 + k)),
        )

# ---- a run with a compressed subframe is taken, and then the tag is not plain

for v in (3, 4):
    inside = raises.compressed(v)
    record, frame = chapter(b"CHAP", "63", inside), lay(v, b"CHAP", chap(b"c", inside))
    run = nest(LAY[v], 6, inside)
    deep, long = contents(b"CTOC", "74", 0, 0, b"", run), lay(v, b"CTOC", ctoc(b"t", 0, 0, b"", run))
    one, x = small(v)
    edits = remove(0), remove(9), append(one), replace(0, one), lift()
    stuck = [(edit, R(40)) for edit in edits]
    case("2.%d, a run with a compressed subframe, appended" % v, whole(v, x, padding=len(frame)), (append(record), whole(v, x + frame)), *stuck)
    case("2.%d, a run with a compressed subframe, put in place" % v, whole(v, x + x, padding=len(frame)), (replace(0, record), whole(v, frame + x, padding=len(x))), *stuck)
    case("2.%d, a compressed subframe at depth 8" % v, whole(v, b"", padding=len(long) + 1), (append(deep), whole(v, long, padding=1)), *stuck)
    calm = chapter(b"CHAP", "63", x)
    case("2.%d, a run without a compressed subframe" % v, whole(v, x, padding=60), (append(calm), whole(v, x + lay(v, b"CHAP", chap(b"c", x)), padding=60 - 28 - len(x))), (remove(1), whole(v, x, padding=60)))

# ---- the order of refusals: two reasons at once, the first of them is told

for v in EDITIONS:
    (record, one), bad = small(v), LAY[v](NOT_UTF8[v], b"")
    wrong, long = raw(b"xyz" if v == 2 else b"xyzw", "07"), raw(ID[v]["raw"], "07" * 9)
    every = [edit for r in (record, wrong, long) for edit in (append(r), replace(0, r), replace(5, r))] + [remove(0), remove(5), lift(), lift(b"a\0")]
    refused("reading before all", 7, v, whole(v, one + bad), *every)
    refused("reading before 40", 7, v, whole(v, bad, 0, 100), *every)
    refused("40 before 46, adding's and 20", 40, v, whole(v, one + b"\0\1"), *every)
    refused("40 for a cut tag, before 46, adding's and 20", 40, v, whole(v, one, padding=1)[:-1], *every)
    refused("40 for flag 80, before 46, adding's and 20", 40, v, whole(v, one, 0x80), *every)
    refused("46 before 21 and 20", 46, v, whole(v, one), replace(1, wrong), replace(1, long), replace(MOST, wrong))
    refused("21 before 20", 21, v, whole(v, one), replace(0, wrong), append(wrong), append(raw(b"", "07" * 99)))
    refused("25 before 20", 25, v, whole(v, one), append(raw(ID[v]["raw"], "07" * 99, short=True)), replace(0, raw(ID[v]["text"], "07" * 99)))
    refused("12 before 20", 12, v, whole(v, one), append(text(ID[v]["text"], 4, "41" * 99)), replace(0, text(ID[v]["text"], 255, "41" * 99)))
    refused("26 before 20", 26, v, whole(v, one), append(text(ID[v]["text"], 3, "41" * 99 + "00")))
    refused("27 before 20", 27, v, whole(v, one), append(pop(ID[v]["popularimeter"], "61" * 99 + "00", 5, 1)))
    refused("30 before 20", 30, v, whole(v, one), append(table(ID[v]["table"], 0, 4, *(99 * (0, 0)))))
    refused("34 before 20", 34, v, whole(v, one), append(table(ID[v]["table"], 2, 2, *(99 * (0, 0)))))
    case("2.%d, 41 and 42 before 20 and 46" % v, whole(v, meter(v, "FF") + meter(v, "FF") + meter(v, "FF", b"b")), (lift(), R(42)), (lift(b"c"), R(41)), (lift(b"b"), R(20)), (remove(3), R(46)))
    case("2.%d, 43 before 20" % v, whole(v, meter(v, "FF")), (lift(amount=MOST - 254), R(43)), (lift(amount=MOST - 255), R(20)), (lift(amount=0), (255, whole(v, meter(v, "FF")))))
for v in (3, 4):
    one = small(v)[1]
    refused("28 before 20", 28, v, whole(v, one), append(contents(b"CTOC", "74", 0, 0, b"c" * 99)))
    refused("29 before 20", 29, v, whole(v, one), append(chapter(b"CHAP", "63", b"x" * 99)))
    refused("46 before 29", 46, v, whole(v, one), replace(1, chapter(b"CHAP", "63", b"x")))
refused("22 before 20", 22, 2, whole(2, b""), append(raw(b"XYZ", "")))
refused("46 before 22", 46, 2, whole(2, b""), replace(0, raw(b"XYZ", "")))
refused("21 before 22", 21, 2, whole(2, small(2)[1]), replace(0, raw(b"xyz", "")))
flagged, bad = f4(b"XYZW", b"\7", 0x0002), f4(NOT_UTF8[4], b"")
refused("a flagged frame before an id that is not UTF-8", 40, 4, whole(4, flagged + bad), remove(0), remove(5), append(ANY[4]), replace(5, ANY[4]), lift())
refused("an id that is not UTF-8 before a flagged frame", 7, 4, whole(4, bad + flagged), remove(0), remove(5), append(ANY[4]), replace(5, ANY[4]), lift())

# ---- lifts that a raise refuses by 44: the frame grows to as many bytes as the counter needs

GROWN = [
    ("", 1, "01", 1), ("", 255, "FF", 255), ("", 256, "0100", 256), ("", MOST, "FFFFFFFFFFFFFFFF", MOST), ("FF", 1, "0100", 256), ("00", 256, "0100", 256), ("01", 255, "0100", 256), ("00", MOST, "FFFFFFFFFFFFFFFF", MOST),
    ("FF", MOST - 255, "FFFFFFFFFFFFFFFF", MOST), ("FFFF", 1, "010000", 65_536), ("0000", 65_536, "010000", 65_536), ("00FF", 65_281, "010000", 65_536), ("FFFFFF", 1, "01000000", 2**24), ("FFFFFFFF", 1, "0100000000", 2**32),
    ("FFFFFFFFFF", 1, "010000000000", 2**40), ("FFFFFFFFFFFF", 1, "01000000000000", 2**48), ("FFFFFFFFFFFFFF", 1, "0100000000000000", 2**56), ("00000000000000", 2**56, "0100000000000000", 2**56),
]
assert {(old, amount) for old, amount, _, _ in GROWN} >= set(raises.TOO_SHORT)
for v in EDITIONS:
    x = small(v)[1]
    for old, amount, new, counter in GROWN:
        by = len(new) // 2 - len(old) // 2
        name = "%s by %d" % (old or "no bytes", amount)
        lifted("%s, just enough room" % name, counter, v, whole(v, meter(v, old) + x, padding=by), whole(v, meter(v, new) + x), amount=amount)
        refused("lift, %s, one byte too little" % name, 20, v, whole(v, meter(v, old) + x, padding=by - 1) + bytes(8), lift(amount=amount))
    other = meter(v, "07", b"b")
    for place, (before, behind) in enumerate([(b"", x + other), (x, other), (other + x, b"")]):
        lifted("the frame at %d grows" % place, 65_536, v, *[whole(v, before + meter(v, c) + behind, padding=p) + b"\xFF" for c, p in (("FFFF", 9), ("010000", 8))])
    for user in (b"", b"\xE9", b"\x80\xFF\xE0", b"room 1", b"u" * 120):
        lifted("user %s" % (user.hex() or "-"), 256, v, whole(v, meter(v, "FF", user), padding=4), whole(v, meter(v, "0100", user), padding=3), user)
    for rating in (0, 1, 255):
        lifted("rating %d" % rating, 256, v, *[whole(v, lay(v, b"POPM", b"a\0" + bytes([rating]) + H(c)), padding=p) for c, p in (("FF", 1), ("0100", 0))])
    lifted("in its bytes, zeros in front stay", 256, v, whole(v, meter(v, "0000FF"), padding=4), whole(v, meter(v, "000100"), padding=4))
    lifted("no room is needed where it fits", 255, v, whole(v, meter(v, "FE")), whole(v, meter(v, "FF")))
    lifted("by 0, no bytes", 0, v, whole(v, meter(v, ""), padding=4), whole(v, meter(v, ""), padding=4), amount=0)
    steps = [("01", 1, 1), ("0100", 255, 256), ("010000", 65_280, 65_536), ("0100000000", 2**32 - 65_536, 2**32), ("FFFFFFFFFFFFFFFF", MOST - 2**32, MOST)]
    case("2.%d, lift after lift" % v, whole(v, meter(v, "") + x, padding=8), *[(lift(amount=amount), (counter, whole(v, meter(v, c) + x, padding=8 - len(c) // 2))) for c, amount, counter in steps], (lift(), R(43)), (lift(amount=0), (MOST, whole(v, meter(v, "FF" * 8) + x))))
    case("2.%d, room for one of two users" % v, whole(v, meter(v, "FF") + meter(v, "FF", b"b"), padding=1), (lift(), (256, whole(v, meter(v, "0100") + meter(v, "FF", b"b")))), (lift(b"b"), R(20)), (lift(amount=255), (511, whole(v, meter(v, "01FF") + meter(v, "FF", b"b")))))
    case("2.%d, a removal gives a lift its room" % v, whole(v, x + meter(v, "FF")), (lift(), R(20)), (remove(0), whole(v, meter(v, "FF"), padding=len(x))), (lift(), (256, whole(v, meter(v, "0100"), padding=len(x) - 1))))
    refused("lift, twice there with room", 42, v, whole(v, 2 * meter(v, "FF"), padding=9), lift(), lift(amount=MOST))
    refused("lift, nobody with room", 41, v, whole(v, meter(v, "FF"), padding=9), lift(b"b"), lift(b"a\0"), lift(b""))
    refused("lift, too large with room", 43, v, whole(v, meter(v, "FF"), padding=9), lift(amount=MOST), lift(amount=MOST - 254))
for v in (3, 4):
    inside = nest(LAY[v], 1, meter(v, "FF"))
    lifted("one inside a chapter does not count", 256, v, whole(v, inside + meter(v, "FF"), padding=2), whole(v, inside + meter(v, "0100"), padding=1))
    refused("lift, inside a chapter only", 41, v, whole(v, inside, padding=9), lift())
lifted("other flags are lost where it grows", 256, 3, whole(3, f3(b"POPM", b"a\0\5\xFF", 0xFF1F), padding=1), whole(3, meter(3, "0100")))
lifted("other flags stay where it does not", 255, 3, *[whole(3, f3(b"POPM", b"a\0\5" + c, 0xFF1F), padding=1) for c in (b"\xFE", b"\xFF")])
lifted("other flags are lost where it grows", 256, 4, whole(4, f4(b"POPM", b"a\0\5\xFF", 0xFFB0), padding=1), whole(4, meter(4, "0100")))
lifted("other flags stay where it does not", 255, 4, *[whole(4, f4(b"POPM", b"a\0\5" + c, 0xFFB0), padding=1) for c in (b"\xFE", b"\xFF")])

# ---- lifts with a data length, which a frame that grows loses: four bytes


def lengthy(counter, user=b"a"):
    """A 2.4 popularimeter with a data length."""
    return f4(b"POPM", H("00000004") + user + b"\0\5" + H(counter), 0x0001)


lifted("a data length stays in place", 256, 4, whole(4, lengthy("00FF")), whole(4, lengthy("0100")))
for old, amount, new, counter in GROWN:
    left = 4 - (len(new) // 2 - len(old) // 2)
    name = "a data length, %s by %d" % (old or "no bytes", amount)
    if left >= 0:
        lifted("%s, no padding" % name, counter, 4, whole(4, lengthy(old) + small(4)[1]), whole(4, meter(4, new) + small(4)[1], padding=left), amount=amount)
    else:
        lifted("%s, just enough room" % name, counter, 4, whole(4, lengthy(old), padding=-left), whole(4, meter(4, new)), amount=amount)
        refused("lift, %s, one byte too little" % name, 20, 4, whole(4, lengthy(old), padding=-left - 1), lift(amount=amount))
# the smallest tag of which one order has room and the other has not: the user a has a data length, the empty one has none
narrow = whole(4, lengthy("") + meter(4, "", b""))
case("2.4, the first of two orders has room", narrow, (lift(), (1, whole(4, meter(4, "01") + meter(4, "", b""), padding=3))), (lift(b""), (1, whole(4, meter(4, "01") + meter(4, "01", b""), padding=2))))
case("2.4, the second of two orders has none at first", narrow, (lift(b""), R(20)), (lift(), (1, whole(4, meter(4, "01") + meter(4, "", b""), padding=3))), (lift(b""), (1, whole(4, meter(4, "01") + meter(4, "01", b""), padding=2))))


# ---- what the model answers, what was stated, and the files


def tidy(version, edit):
    """The edit with its record's id as four bytes say it."""
    return edit[:-1] + (as_read(version, edit[-1]),) if edit[0] in (REPLACE, APPEND) else edit


def answer(given, edit):
    """What the model says: the refusal or 0, the counter, and the bytes after the call."""
    word, *words = tidy(given[3] if len(given) > 3 else 0, edit)
    calls = {REPLACE: model.replace_frame, REMOVE: model.remove_frame, APPEND: model.append_frame, LIFT: model.lift_counter}
    try:
        after = calls[word](given, *words)
    except model.Refused as refusal:
        return refusal.number, 0, given
    return (0, *after) if word == LIFT else (0, 0, after)


def stated_answer(given, wanted):
    """An answer stated by hand, in the same words."""
    if isinstance(wanted, R):
        return wanted.number, 0, given
    return (0, *wanted) if isinstance(wanted, tuple) else (0, 0, wanted)


def stated():
    """The cases of the table with their answers, which the model must give too: bytes, and each edit with its answer."""
    for name, given, steps in CASES:
        at, told = given, []
        for i, (edit, wanted) in enumerate(steps):
            got = answer(at, edit)
            assert got == stated_answer(at, wanted), (name, i, got, stated_answer(at, wanted))
            told.append((edit, got))
            at = got[2]
        yield given, told


def by_chance():
    """Edits by chance, and the sequences, with the model's answers."""
    for given, edits in sequences.recorded():
        at, told = given, []
        for edit in edits:
            got = answer(at, edit)
            told.append((edit, got))
            at = got[2]
        yield given, told


def packed_edit(edit):
    word, *words = edit
    if word == LIFT:
        user, amount = words
        return bytes([3]) + number(len(user)) + user + number(amount, 8)
    out = bytes([(REPLACE, REMOVE, APPEND).index(word)])
    if word != APPEND:
        out += number(words[0], 8)
    return out if word == REMOVE else out + packed_record(words[-1])


def sums(octets):
    """The sum of the bytes, and the sum of these sums, in 64 bits."""
    a = b = 0
    for octet in octets:
        a = (a + octet) % 2**64
        b = (b + a) % 2**64
    return "%d %d" % (a, b)


def line(edit, told):
    k, counter, after = told
    said = "refused %d" % k if k else "counts %d" % counter if edit[0] == LIFT else "done"
    return "%s %s %s\n" % (edit[0], said, sums(after))


def main():
    names = [c[0] for c in CASES]
    assert len(names) == len(set(names)), [n for n in names if names.count(n) > 1]
    given, wanted, edits = b"", "", 0
    for i, (octets, steps) in enumerate([*stated(), *by_chance()], 1):
        assert len(octets) <= 4096
        given += number(len(octets)) + octets + number(len(steps)) + b"".join(packed_edit(edit) for edit, _ in steps)
        after = steps[-1][1][2]
        wanted += "case %d\n" % i + "".join(line(*step) for step in steps) + "then %s\n" % (after.hex() or "-")
        edits += len(steps)
    folder = Path(__file__).resolve().parent.parent / "crates" / "test_edits"
    folder.mkdir(exist_ok=True)
    (folder / "stdin").write_bytes(given)
    (folder / "stdout").write_text(wanted)
    told = sum(len(c[2]) for c in CASES)
    print(len(CASES), "cases of", told, "edits stated;", edits - told, "edits by chance", file=sys.stderr)


if __name__ == "__main__":
    main()
