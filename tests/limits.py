#!/usr/bin/env python3
"""Writes what the programs of the listing read: document 01's example, and the inputs at its limits.

    listing              the tag of document 01, "The listing program"
    test_listing_full    65,536 bytes, all that the input area holds: a tag whose padding fills it
    test_listing_over    one byte more
    test_listing_empty   no byte

What each must write stands beside it in `stdout`, by hand.
"""
import os

CRATES = os.path.join(os.path.dirname(os.path.abspath(__file__)), "..", "crates")
AREA = 65536


def synchsafe(n):
    return bytes(n >> s & 127 for s in (21, 14, 7, 0))


def tag(size, frames):
    return b"ID3\4\0\0" + synchsafe(size) + frames


def frame(name, body):
    return name + synchsafe(len(body)) + b"\0\0" + body


def padded(length):
    t = tag(AREA - 10, frame(b"TIT2", b"\0AB"))
    return t + bytes(length - len(t))


INPUTS = {
    "listing": tag(18, frame(b"POPM", b"a\0\5\1\0\0\0\0")),
    "test_listing_full": padded(AREA),
    "test_listing_over": padded(AREA + 1),
    "test_listing_empty": b"",
}

for name, data in INPUTS.items():
    with open(os.path.join(CRATES, name, "stdin"), "wb") as f:
        f.write(data)
