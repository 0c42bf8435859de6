"""Small helpers with which the tables lay out frames and tags by hand. Nothing here is taken from the model."""

H = bytes.fromhex


def sevens(n):
    """Four bytes of seven bits each, for a size that is right."""
    return bytes([n >> 21 & 127, n >> 14 & 127, n >> 7 & 127, n & 127])


def f2(ident, body, size=None):
    """A 2.2 frame: id, three bytes of size, body. `size` is a number that need not be right."""
    size = len(body) if size is None else size
    return ident + size.to_bytes(3, "big") + body


def f3(ident, body, flags=0, size=None):
    """A 2.3 frame: id, four bytes of size, two of flags, body."""
    size = len(body) if size is None else size
    return ident + size.to_bytes(4, "big") + flags.to_bytes(2, "big") + body


def f4(ident, body, flags=0, size=None):
    """A 2.4 frame. `size` may be the four bytes themselves."""
    size = len(body) if size is None else size
    size = size if isinstance(size, bytes) else sevens(size)
    return ident + size + flags.to_bytes(2, "big") + body


TIMES = H("00000000 00000001 00000002 FFFFFFFF")


def chap(element, run=b"", times=TIMES):
    """The body of a chapter."""
    return element + b"\0" + times + run


def ctoc(element, flags, count, names=b"", run=b""):
    """The body of a table of contents."""
    return element + bytes([0, flags, count]) + names + run


def mllt(v, w, packed=b"", steps=H("0000 000000 000000")):
    """The body of a lookup table."""
    return steps + bytes([v, w]) + packed


def nest(frame, depth, core=b""):
    """Chapters in chapters, the last of them at `depth`, with `core` as its run; the element id of each is empty."""
    body = core
    for _ in range(depth):
        body = frame(b"CHAP", chap(b"", body))
    return body


def t2(frames, flags=0, size=None, padding=0):
    return tag(2, frames, flags, size, padding)


def t3(frames, flags=0, size=None, padding=0):
    return tag(3, frames, flags, size, padding)


def t4(frames, flags=0, size=None, padding=0):
    return tag(4, frames, flags, size, padding)


def tag(version, frames, flags, size, padding):
    """A tag of what lies behind its header; `size` may be wrong, as a number or as four bytes."""
    size = len(frames) + padding if size is None else size
    size = size if isinstance(size, bytes) else sevens(size)
    return b"ID3" + bytes([version, 0, flags]) + size + frames + bytes(padding)


def number(n, width=4):
    """A number in a case's layout."""
    return n.to_bytes(width, "big")
