"""Records to be written and cases of writing, as the programs `test_writes` and `test_trips` read them.

A case in stdin, numbers big-endian:
  version (1 byte), begun with mode and mark (1 byte: 0 by the version alone, 1 with both), mode (1: 0 off, 1 crate, 2 standard), altered (1),
  padding (8), length of the collecting buffer (4), length of what is lent beside the output (4), length of the output (4), number of records (4)
and each record:
  kind (1 byte: 0 text, 1 popularimeter, 2 table, 3 chapter, 4 contents, 5 raw), id (4), short (1), compressed (1),
  five numbers (8 each: text: encoding; popularimeter: rating, counter; table: steps of frames, bytes, milliseconds, widths for bytes, milliseconds;
  chapter: start time, end time, start offset, end offset; contents: top level, ordered; 0 for those that the kind lacks),
  name, names, rest (each a length of 4 bytes, and the bytes), deviations (their number in 4 bytes, and 4 bytes each).
"""

import model
from layout import H, number
from model import Given

OFF, CRATE, STANDARD = 0, 1, 2
KINDS = ("text", "popularimeter", "table", "chapter", "contents", "raw")


class R:
    """A refusal, as it is stated by hand."""

    def __init__(self, k):
        self.number = k


# ---- records by hand, their bytes in hexadecimal


def text(ident, encoding, rest, **more):
    return Given("text", ident, (encoding,), rest=H(rest), **more)


def pop(ident, user, rating, counter, **more):
    return Given("popularimeter", ident, (rating, counter), name=H(user), **more)


def table(ident, v, w, *deviations, steps=(0, 0, 0), **more):
    return Given("table", ident, (*steps, v, w), deviations=deviations, **more)


def chapter(ident, element, run=b"", times=(0, 1, 2, 0xFFFFFFFF), **more):
    return Given("chapter", ident, times, name=H(element), rest=run, **more)


def contents(ident, element, top_level, ordered, names=b"", run=b"", **more):
    return Given("contents", ident, (top_level, ordered), name=H(element), names=names, rest=run, **more)


def raw(ident, body, **more):
    return Given("raw", ident, rest=H(body), **more)


# ---- the model, asked


def as_read(version, record):
    """The record with its id as four bytes say it: three letters of 2.2 stand behind a zero."""
    four = record.id.rjust(4, b"\0")
    ident = four[1:] if version == 2 and four[0] == 0 else four
    return Given(**{**vars(record), "id": ident})


def call(function, *arguments):
    """What a call answers, or its refusal."""
    try:
        return function(*arguments)
    except model.Refused as refusal:
        return R(refusal.number)


def shown(record, octets):
    """A record read, in the words of one given."""
    name, names, rest = (model.part(span, octets) for span in (record.name, record.names, record.rest))
    deviations = ()
    if record.kind == "table":
        deviations, rest = tuple(model.references_of(*record.numbers[3:], rest)), b""
    return record.kind, record.id, record.numbers, name, names, rest, deviations


def looked_at(r):
    """What of a record given its kind looks at."""
    has_name, has_names = r.kind in ("popularimeter", "chapter", "contents"), r.kind == "contents"
    has_rest = r.kind not in ("popularimeter", "table")
    name, names, rest = r.name * has_name, r.names * has_names, r.rest * has_rest
    return r.kind, r.id, r.numbers, name, names, rest, tuple(r.deviations) * (r.kind == "table")


def read_all(tag, work):
    """The records of a tag, in the words of those given. Bytes are taken as they stand after each step."""
    header, (source, begin, end, in_work) = model.open_tag(tag, work)
    at, found = begin, []
    while (step := model.frame_at(bytearray() if in_work else work, source, header.version, in_work, begin, at, end)) is not None:
        record, at = step
        assert not record.short and not record.compressed
        found.append(shown(record, work if record.in_work else tag))
    return found


# ---- bytes of stdin


def packed_record(record):
    numbers = (tuple(record.numbers) + (0,) * 5)[:5]
    out = bytes([KINDS.index(record.kind)]) + record.id.rjust(4, b"\0") + bytes([record.short, record.compressed])
    out += b"".join(number(n, 8) for n in numbers)
    for part in (record.name, record.names, record.rest):
        out += number(len(part)) + part
    return out + number(len(record.deviations)) + b"".join(map(number, record.deviations))


def packed_case(version, plainly, mode, altered, padding, buffer, lent, output, records):
    head = bytes([version, not plainly, mode, altered]) + number(padding, 8)
    head += number(buffer) + number(lent) + number(output) + number(len(records))
    return head + b"".join(map(packed_record, records))
