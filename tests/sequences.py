"""Edits made by chance, and long sequences of them held against a plain list of records. The same ones each time.

    python3 tests/sequences.py          # 60 sequences of a thousand edits
    python3 tests/sequences.py COUNT

The list knows of a tag only its room: of each frame what is read of it, how many bytes it takes and how many its counter has. What an edit must
answer follows from that; the model, which works on bytes, must answer the same, and the tag must read as the list. Some of the sequences are
cases of edits.py.
"""

import sys
from collections import Counter
from dataclasses import dataclass

import chance
from layout import H, chap, f2, f3, f4, tag
from records import R, chapter, contents, looked_at, pop, raw, read_all, table, text

REPLACE, REMOVE, APPEND, LIFT = "replace", "remove", "append", "lift"
LAY = {2: f2, 3: f3, 4: f4}
HEADER = {2: 6, 3: 10, 4: 10}
EDITS = 1000
BY_CHANCE = 120


# ---- records by chance, and what adding them is refused with, or 0


def some_text(c, version):
    ident = b"TT2" if version == 2 else b"TIT2"
    bad = c.one_of(((4, "41", 12), (0, "414200", 26), (3, "414200", 26)))
    return (text(ident, *bad[:2]), bad[2]) if c.below(12) == 0 else (text(ident, c.below(4), "41" * 2 * c.below(9)), 0)


def some_popularimeter(c, version):
    ident = b"POP" if version == 2 else b"POPM"
    if c.below(16) == 0:
        return pop(ident, "6100", 5, 1), 27
    return pop(ident, c.one_of(chance.USERS).hex(), c.below(256), c.one_of((0, c.below(256), c.one_of(chance.BORDERS), c.any()))), 0


def some_table(c, version):
    ident, count = b"MLL" if version == 2 else b"MLLT", c.below(4)
    bad = [((0, 4), (), 30), ((4, 5), (), 31), ((4, 8), (1,), 33), ((4, 8), (16, 0), 33), ((2, 2), (3, 1), 34)]
    if c.below(8) == 0:
        widths, deviations, k = c.one_of(bad)
        return table(ident, *widths, *deviations), k
    v, w = c.one_of(((4, 8), (32, 32), (8, 8), (7, 5)))
    deviations = [c.below(2**n) for _ in range(count) for n in (v, w)]
    return table(ident, v, w, *deviations, steps=(c.below(2**16), c.below(2**24), c.below(2**24))), 0


def some_run(c, version):
    """A run of up to two subframes, and 29 for one with padding."""
    lay = LAY[version]
    frames = lay(b"XYZW", c.octets(3)), lay(b"POPM", b"a\0\5\7"), lay(b"CHAP", chap(b"", lay(b"TIT2", b"\0A"))), lay(b"CHAP", chap(b"", bytes(3)))
    those = [c.below(4) for _ in range(c.below(3))]
    padded = c.below(10) == 0
    return b"".join(frames[i] for i in those) + bytes(padded), 29 if padded or 3 in those else 0


def some_chapter(c, version):
    run, k = some_run(c, version)
    return chapter(b"CHAP", c.one_of(("", "63")), run, tuple(c.below(2**32) for _ in range(4))), k


def some_contents(c, version):
    run, k = some_run(c, version)
    if c.below(10) == 0:
        return contents(b"CTOC", "74", 0, 1, b"c\0d", run), 28
    return contents(b"CTOC", "74", c.below(2), c.below(2), c.one_of((b"", b"c\0", b"c\0\0")), run), k


def some_raw(c, version):
    ident, octets = b"XYZ" if version == 2 else b"XYZW", c.octets(16)
    if c.below(10) == 0:
        return raw(ident, octets.hex(), short=True), 25
    if c.below(10) == 0:
        return raw(b"a" + ident[1:], octets.hex()), 21
    return raw(ident, octets.hex()), 22 if version == 2 and not octets else 0


def some_record(c, version):
    kinds = 3 * (some_popularimeter,) + (some_text, some_table, some_raw, some_raw)
    return c.one_of(kinds if version == 2 else kinds + (some_chapter, some_contents))(c, version)


# ---- a tag as a list


@dataclass
class Entry:
    """What is read of a frame, how many bytes it takes, and how many bytes its counter has."""

    shown: tuple
    length: int
    width: int = 0


def width_of(counter):
    """How many bytes a counter needs."""
    return len("%x" % counter) + 1 >> 1 if counter else 0


def body_length(kind, numbers, name, names, rest, deviations):
    if kind == "popularimeter":
        return len(name) + 2 + width_of(numbers[1])
    if kind == "table":
        return 10 + (len(deviations) // 2 * (numbers[3] + numbers[4]) + 7) // 8
    return {"text": 1, "chapter": len(name) + 17, "contents": len(name) + 3 + len(names), "raw": 0}[kind] + len(rest)


def entry_of(version, shown):
    """A frame as adding writes it."""
    kind, _, numbers, *parts = shown
    return Entry(shown, HEADER[version] + body_length(kind, numbers, *parts), width_of(numbers[1]) if kind == "popularimeter" else 0)


class Listed:
    """The frames of a tag as a list, and the bytes that they have in all."""

    def __init__(self, version, room, entries):
        self.version, self.room, self.entries = version, room, list(entries)

    def put(self, entries):
        """20 where these take more bytes than there are; else they are the list."""
        if sum(entry.length for entry in entries) > self.room:
            return R(20)
        self.entries = entries
        return 0

    def replace(self, number, record, k):
        if number >= len(self.entries):
            return R(46)
        return R(k) if k else self.put(self.entries[:number] + [entry_of(self.version, looked_at(record))] + self.entries[number + 1 :])

    def remove(self, number, k):
        return R(46) if number >= len(self.entries) else self.put(self.entries[:number] + self.entries[number + 1 :])

    def append(self, record, k):
        return R(k) if k else self.put(self.entries + [entry_of(self.version, looked_at(record))])

    def lift(self, user, amount, k):
        """The counter then."""
        mine = [i for i, e in enumerate(self.entries) if e.shown[0] == "popularimeter" and e.shown[3] == user]
        if len(mine) != 1:
            return R(42 if mine else 41)
        entry = self.entries[mine[0]]
        kind, ident, (rating, old), *parts = entry.shown
        if old + amount >= 2**64:
            return R(43)
        shown = kind, ident, (rating, old + amount), *parts
        fits = width_of(old + amount) <= entry.width
        then = Entry(shown, entry.length, entry.width) if fits else entry_of(self.version, shown)
        refusal = self.put([then if i == mine[0] else e for i, e in enumerate(self.entries)])
        return refusal or old + amount

    def users(self):
        """Those of the popularimeters."""
        return [e.shown[3] for e in self.entries if e.shown[0] == "popularimeter"]

    def edited(self, edit, k):
        """What an edit answers, whose record adding refuses with k or not: R or 0, for a lift R or the counter."""
        word, *words = edit
        return getattr(self, word)(*words, k)


# ---- sequences


def first_frames(version):
    """Frames that a sequence begins with, as adding would not write them: their bytes, and their entries."""
    lay, name = LAY[version], b"POP" if version == 2 else b"POPM"
    frames = [(lay(name, b"b\0\7" + bytes(12)), Entry(("popularimeter", name, (7, 0), b"b", b"", b"", ()), HEADER[version] + 15, 12))]
    if version == 2:
        return frames + [(f2(b"XyZ", b""), Entry(("raw", b"XyZ", (), b"", b"", b"", ()), 6))]
    run = lay(b"TIT2", b"\0A") + bytes(11)
    frames.append((lay(b"CHAP", chap(b"c", run)), Entry(("chapter", b"CHAP", (0, 1, 2, 2**32 - 1), b"c", b"", run, ()), 51)))
    if version == 4:
        body = H("00000005") + b"a\0\5" + H("00FF")
        frames.append((f4(b"POPM", body, 0x0001), Entry(("popularimeter", b"POPM", (5, 255), b"a", b"", b"", ()), 19, 2)))
        frames.append((f4(b"XYZW", b"\7" * 4, 0x0001, 3), Entry(("raw", b"XYZW", (), b"", b"", b"", ()), 14)))
    return frames


def some_edit(c, version, there, users=()):
    """An edit of a tag with so many frames and with popularimeters of these users, and what its record is refused with, or 0."""
    word = c.one_of((REPLACE, REPLACE, REMOVE, REMOVE, APPEND, APPEND, APPEND, LIFT, LIFT, LIFT))
    number = c.below(there) if there and c.below(16) else c.one_of((there, there + 1, 2**32, 2**32 + c.below(4), 2**64 - 1))
    if word == REMOVE:
        return (word, number), 0
    if word == LIFT:
        return (word, c.one_of(users if users and c.below(8) else chance.USERS + (b"c",)), chance.some_amount(c)), 0
    record, k = some_record(c, version)
    return ((word, record) if word == APPEND else (word, number, record)), k


def begun(seed, version):
    """The chance, the tag and the list that a sequence begins with."""
    c = chance.Chance(seed)
    frames = first_frames(version)
    inside = b"".join(octets for octets, _ in frames)
    room = len(inside) + c.below(400)
    given = tag(version, inside, c.one_of((0, 0x10, 0x20)), room, room - len(inside)) + c.octets(8)
    return c, given, Listed(version, room, [entry for _, entry in frames])


def sequence(seed, version, count):
    """A tag, and edits one after the other, each with the list's answer and the records that the list has then."""
    c, given, listed = begun(seed, version)
    steps = []
    for _ in range(count):
        edit, k = some_edit(c, version, len(listed.entries), listed.users())
        steps.append((edit, listed.edited(edit, k), [entry.shown for entry in listed.entries], sum(entry.length for entry in listed.entries)))
    return given, steps


def recorded():
    """What edits.py records: edits of tags made by chance, up to three of each, and a sequence of each edition."""
    for seed in range(BY_CHANCE):
        c = chance.Chance(seed)
        given = chance.some_tag(c)
        version = given[3] if len(given) > 3 and given[3] in LAY else 4
        yield given, [some_edit(c, version, 2, c.users)[0] for _ in range(1 + c.below(3))]
    for version in LAY:
        given, steps = sequence(version, version, EDITS)
        yield given, [edit for edit, *_ in steps]


# ---- the model, held against the list


def check_sequence(seed, version, answer, told):
    """The model's answers are the list's, and after each edit the tag reads as the list, with zeros behind the last frame; header and length stay."""
    given, steps = sequence(seed, version, EDITS)
    at = given
    for i, (edit, wanted, shown, used) in enumerate(steps):
        k, counter, after = answer(at, edit)
        assert (k, counter) == ((wanted.number, 0) if isinstance(wanted, R) else (0, wanted)), (seed, i, edit, k, counter, wanted)
        assert k == 0 or after == at, (seed, i, edit)
        assert read_all(after, bytearray()) == shown, (seed, i, edit)
        size = len(given) - 10 - len(beyond(given))
        assert len(after) == len(given) and after[:10] == given[:10] and beyond(after) == beyond(given) and not any(after[10 + used : 10 + size]), (seed, i, edit)
        told["2.%d %s %s" % (version, edit[0], "refused %d" % k if k else "accepted")] += 1
        at = after


def beyond(given):
    """What follows a tag whose size is below 2^14."""
    return given[10 + given[8] * 128 + given[9] :]


def main():
    from edits import answer

    count, told = int(sys.argv[1]) if len(sys.argv) > 1 else 60, Counter()
    for seed in range(count):
        check_sequence(seed, 2 + seed % 3, answer, told)
    for what, times in sorted(told.items()):
        print("%7d  %s" % (times, what))


if __name__ == "__main__":
    main()
