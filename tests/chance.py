"""Tags and raises made by chance, the same ones each time. Half of the tags are calm: plain, and refused only for their users and counters.

Nothing here is taken from the model.
"""

from layout import chap, ctoc, f2, f3, f4, mllt, nest, number, tag

LAY = {2: f2, 3: f3, 4: f4}
USERS = (b"a", b"b", b"", b"ab", b"\xE9\xFF")
BORDERS = tuple(256**n - 1 for n in range(1, 9)) + tuple(256**n for n in range(1, 8)) + (2**63,)


class Chance:
    """Numbers from a seed: splitmix64. A calm one does nothing rarely. `users` are those of the popularimeters made so far."""

    def __init__(self, seed):
        self.state = seed
        self.users = []
        self.calm = self.below(2) == 0

    def any(self):
        self.state = (self.state + 0x9E3779B97F4A7C15) % 2**64
        z = self.state
        z = (z ^ z >> 30) * 0xBF58476D1CE4E5B9 % 2**64
        z = (z ^ z >> 27) * 0x94D049BB133111EB % 2**64
        return z ^ z >> 31

    def below(self, n):
        return self.any() % n

    def one_of(self, those):
        return those[self.below(len(those))]

    def rarely(self, n):
        """Once in n times."""
        return not self.calm and self.below(n) == 0

    def octets(self, most):
        """Some bytes; those that the format treats in a special way come often."""
        return bytes(self.one_of(b"\0\xFF\xE0\1\2T") if self.below(2) else self.below(256) for _ in range(self.below(most + 1)))


# ---- bodies


def counter(c):
    """Counter bytes: few or twelve, small, full, at a border or any."""
    count = c.one_of((0, 1, 1, 2, 2, 2, 3, 4, 5, 8, 8, 9, 12))
    value = c.one_of((0, 0, c.below(4), c.below(256), 256**count - 1, 256**count - 1 - c.below(4), c.one_of(BORDERS), c.any()))
    most = 256**count if c.rarely(8) else min(256**count, 2**64)
    return number(value % most, count)


def popularimeter(c, version, depth):
    user = c.one_of(USERS)
    c.users.append(user)
    return b"POP" if version == 2 else b"POPM", user + bytes([0, c.below(256)]) + counter(c)


def text(c, version, depth):
    return b"TT2" if version == 2 else b"TIT2", bytes([4 if c.rarely(8) else c.below(4)]) + c.octets(5)


def table(c, version, depth):
    v, w = c.one_of(((4, 8), (1, 3), (32, 32), (8, 8)))
    return b"MLL" if version == 2 else b"MLLT", mllt(33 if c.rarely(12) else v, w + c.rarely(12), c.octets(4))


def raw(c, version, depth):
    """A raw body, now and then one that a popularimeter would have."""
    body = c.one_of(USERS) + bytes(2) + counter(c) if c.below(3) == 0 else c.octets(6)
    return c.one_of((b"PIC", b"TXX", b"CNT")) if version == 2 else c.one_of((b"PRIV", b"TXXX", b"PCNT")), body


def run(c, version, depth):
    """A run of subframes, now and then with bytes left over."""
    frames = b"".join(frame(c, version, depth + 1) for _ in range(c.below(3)))
    return frames + c.one_of((b"", b"", bytes(c.below(12)), b"\0x", b"xyz"))


def chapter(c, version, depth):
    return b"CHAP", chap(c.one_of((b"", b"c")), run(c, version, depth))


def contents(c, version, depth):
    names = c.one_of((b"", b"c\0", b"c\0\0"))
    return b"CTOC", ctoc(b"t", c.below(4), names.count(0) + c.rarely(12), names, run(c, version, depth))


KINDS = 8 * (popularimeter,) + (text, table, raw, raw)
NESTED = KINDS + (chapter, chapter, contents)


# ---- frames and tags

FLAGS = {2: (0,), 3: (0x0080, 0x0080, 0x0040, 0x0020, 0x8000), 4: (0x0002, 0x0002, 0x0008, 0x0008, 0x000A, 0x0003, 0x0004, 0x0040, 0x8000)}


def frame(c, version, depth=1):
    """A frame, now and then deep inside others, with flags, a body that is none of its kind, a size that is not right or an id that is none."""
    if version > 2 and depth == 1 and c.rarely(40):
        return nest(LAY[version], 5 + c.below(4), frame(c, version, 2))
    ident, body = c.one_of(KINDS if version == 2 or depth > 3 else NESTED)(c, version, depth)
    if c.rarely(20):
        body = c.octets(8)
    if c.rarely(20):
        ident = c.one_of((b"\xC3\xA9", b"\xFF\xFE", b"T\x80")) + ident[2:]
    flags = c.one_of(FLAGS[version]) if c.rarely(6) else 0
    if version == 4 and c.below(6) == 0:
        flags |= 1
    if flags & 1 or flags & 0x80:
        body = c.one_of((number(len(body)), b"\0a\0\5")) + body
    size = max(len(body) + c.below(9) - 4, 0) if c.rarely(12) else len(body)
    return f2(ident, body, size) if version == 2 else LAY[version](ident, body, flags, size)


def rest(c):
    """What stands behind the last frame: mostly nothing or zeros."""
    if c.rarely(8):
        return bytes(c.below(12)) + c.one_of((b"\1", b"\0\1\0", b"xyz", b"POPM"))
    return bytes(c.below(14) * c.below(2))


def some_tag(c):
    """A tag with what follows it, now and then cut, with header flags, a size that is not right or a byte changed."""
    version, flags = 2 + c.below(3), 0
    inside = b"".join(frame(c, version) for _ in range(c.one_of((0, 1, 1, 2, 2, 2, 3, 3, 4)))) + rest(c)
    if c.below(10) == 0:
        flags = c.one_of((0x20, 0x10))
    if c.rarely(8):
        flags = c.one_of((0x80, 0x40, 0xC0, 0x01))
    if flags & 0x40:
        inside = number(c.one_of((5, 6, 6, 7, 10))) + bytes(c.one_of((1, 2, 3, 6))) + inside
    size = max(len(inside) + c.below(9) - 4, 0) if c.rarely(10) else len(inside)
    whole = bytearray(tag(version, inside, flags, size, 0) + c.octets(8 * c.below(2)))
    if c.rarely(8):
        whole[c.below(len(whole))] = c.one_of(c.octets(4) + b"\0")
    return bytes(whole[: c.below(len(whole) + 1)] if c.rarely(12) else whole)


def some_user(c):
    """Mostly one whose popularimeter was made."""
    if c.below(8) == 0 or not c.users:
        return c.one_of(USERS + (b"c", b"a\0", b"\0"))
    return c.one_of(c.users)


def some_amount(c):
    return c.one_of((0, 1, 1, 1, 1, c.below(300), c.below(300), c.one_of(BORDERS), 2**64 - 1, c.any()))
