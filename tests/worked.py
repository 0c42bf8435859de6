"""The worked examples that document 01 itself gives, and some of the requests that replaced a rule of it, asked of the model. Prints their number."""

import model
from model import Given, Refused, Writer

H = bytes.fromhex
CASES = []


def same(answer, expected):
    assert answer == expected, (answer, expected)
    CASES.append(answer)


def refusal(call, *arguments):
    try:
        call(*arguments)
    except Refused as refused:
        return refused.number
    return 0


# Numbers and bytes
same(model.from_synchsafe(H("000001FF")), 255)
same(model.from_synchsafe(H("FFFFFFFF")), 0x1FFFFFFF)
same(model.to_synchsafe(255), H("0000017F"))
same(model.to_synchsafe(268_435_455), H("7F7F7F7F"))
same(refusal(model.to_synchsafe, 268_435_456), 24)
for plain, crate, standard in [
    ("FF 00", "FF 00 00", "FF 00 00"),
    ("FF E0", "FF E0", "FF 00 E0"),
    ("FF FF", "FF FF", "FF 00 FF"),
    ("FF DF", "FF DF", "FF DF"),
    ("FF", "FF", "FF"),
    ("", "", ""),
]:
    same(model.unsynchronised("crate", H(plain)), H(crate))
    same(model.unsynchronised("standard", H(plain)), H(standard))
    same(model.resynchronised(H(crate)), H(plain))
    same(model.resynchronised(H(standard)), H(plain))

# Five kinds
same(model.text_end(4, 0, H("41 00")), 2)
same(model.text_end(4, 0, H("41 42 00")), 2)
same(model.counter_bytes(65_280), H("FF 00"))
same(model.counter_of(b""), 0)
same(model.pack(4, 8, [0xA, 0x5C, 0x3, 0x01]), H("A5 C3 01"))
same(model.references_of(4, 8, H("A5 C3 01")), [0xA, 0x5C, 0x3, 0x01])
same(model.pack(2, 2, [3, 1]), H("D0"))
same(model.references_of(2, 2, H("D0")), [3, 1, 0, 0])
same(refusal(model.check_record, 4, Given("table", b"MLLT", (0, 0, 0, 2, 2), deviations=(3, 1))), 34)

# Five kinds, by request b: the counter of a box family, twelve bytes, mostly zeros; what fits 64 bits, and what does not; 11 comes before 35
same(model.counter_of(H("000000000000000000000007")), 7)
same(model.counter_of(H("00 FFFFFFFFFFFFFFFF")), 18_446_744_073_709_551_615)
same(refusal(model.counter_of, H("01 0000000000000000")), 35)
same(model.popularimeter_parts(H("61 00 05 000000000000000000000007")).numbers, (5, 7))
same(refusal(model.popularimeter_parts, H("61 00 05 01 0000000000000000")), 35)
same(refusal(model.popularimeter_parts, H("FFFFFFFFFFFFFFFFFFFFFFFF")), 11)
same(model.counter_bytes(7), H("07"))
same(refusal(model.check_given_run, 4, H("504F504D 0000000C 0000 61 00 05 01 0000000000000000")), 29)
same(refusal(model.check_given_run, 4, H("504F504D 0000000C 0000 61 00 05 00 0000000000000007")), 0)

# The readings that are settled: pair texts of 2.4
same(model.text_end(4, 1, H("41 41 41 41 41")), 4)
same(model.text_end(4, 1, H("41 41 41")), 3)
same(model.text_end(4, 1, H("41 41 00 00")), 4)

# Writing: a version or a mode that is unknown
same(refusal(Writer, 5, 0), 2)
same(refusal(Writer, 4, 3), 2)

# The listing program
same(
    model.listing(H("49 44 33 04 00 00 00 00 00 12 50 4F 50 4D 00 00 00 08 00 00 61 00 05 01 00 00 00 00"), 65_536),
    b"tag 2.4 size 18 flags 0 ext 0\n"
    b"frame 0 POPM at 0 body 8 popularimeter whole user 61 rating 5 counter 4294967296\n"
    b"end 1\n",
)

# The same by request b: a tag of the box family
same(
    model.listing(H("49 44 33 04 00 00 00 00 00 19 50 4F 50 4D 00 00 00 0F 00 00 61 00 05 00 00 00 00 00 00 00 00 00 00 00 07"), 65_536),
    b"tag 2.4 size 25 flags 0 ext 0\n"
    b"frame 0 POPM at 0 body 15 popularimeter whole user 61 rating 5 counter 7\n"
    b"end 1\n",
)

print(len(CASES), "worked examples hold")
