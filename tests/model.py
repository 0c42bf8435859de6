"""Document 01 ("The metered tag") as a plain model, sentence by sentence; it shares no code with the crates.

Each function names the section of document 01 that it says. Where that leaves a choice, the settled reading is told beside it.
Where a later request has replaced a rule, the rule is that of the section of that name in docs/SCOPE.md, and the request is named.
What requests f and j add, raising a counter and editing a tag in place, stands last.
The spans of a record are no matter of document 01: they are laid out as crates/format/specs/Record.antt has them.
Bytes are `bytes`, a lent buffer is a `bytearray` that a call changes in place, and a refusal is the exception `Refused`.
Editions are 2, 3 and 4; modes are "off", "crate" and "standard"; kinds are the words of the listing.
"""

from dataclasses import dataclass, field

TEXT, POPULARIMETER, TABLE, CHAPTER, CONTENTS, RAW = "text", "popularimeter", "table", "chapter", "contents", "raw"
DEEPEST = 8
NOWHERE = (0, 0)


class Refused(Exception):
    """A refusal and its number (section "Refusal numbers")."""

    def __init__(self, number):
        super().__init__(number)
        self.number = number


def refuse_if(condition, number):
    if condition:
        raise Refused(number)


# ---- section "Numbers and bytes"


def plain(octets):
    """A big-endian number."""
    return int.from_bytes(octets, "big")


def from_synchsafe(octets):
    """Joins, by bitwise or, each byte shifted to seven-bit places; bit 7 is not cleared."""
    a, b, c, d = octets
    return a << 21 | b << 14 | c << 7 | d


def to_synchsafe(n):
    """Four bytes, each the next seven bits, highest first; n is below 2^28."""
    refuse_if(n >= 2**28, 24)
    return bytes((n >> shift) & 0x7F for shift in (21, 14, 7, 0))


def resynchronised(octets):
    """Drops one 00 directly after each FF."""
    out = bytearray()
    after_ff = False
    for b in octets:
        if not (after_ff and b == 0):
            out.append(b)
        after_ff = b == 0xFF
    return bytes(out)


def unsynchronised(mode, octets):
    """Inserts one 00 after each FF whose next byte is 00 (crate), or is 00 or E0 to FF (standard)."""
    out = bytearray()
    for i, b in enumerate(octets):
        out.append(b)
        if b == 0xFF and i + 1 < len(octets):
            follower = octets[i + 1]
            if mode != "off" and (follower == 0 or (mode == "standard" and follower >= 0xE0)):
                out.append(0)
    return bytes(out)


# ---- section "Header and walk": the tag header


@dataclass
class Header:
    version: int
    flags: int
    size: int
    ext: int


def read_header(tag):
    """The checks 1 to 6 in order. The six bytes of an extended header must lie inside the tag, cut at its end."""
    refuse_if(len(tag) < 10 or tag[:3] != b"ID3", 1)
    version, flags, size = tag[3], tag[5], from_synchsafe(tag[6:10])
    refuse_if(version not in (2, 3, 4), 2)
    refuse_if(flags & 0x0F != 0, 3)
    refuse_if(version == 2 and flags & 0x40 != 0, 4)
    if flags & 0x40 == 0:
        return Header(version, flags, size, 0)
    refuse_if(tag_end(tag, size) < 10 + 6, 5)
    ext = from_synchsafe(tag[10:14])
    refuse_if(ext < 6, 6)
    return Header(version, flags, size, ext)


def tag_end(tag, size):
    """Section "What is ported": ten bytes plus the header's size, or where the slice ends."""
    return min(10 + size, len(tag))


def region_of(tag, header):
    """Where the frames lie: that many bytes after the header, or at the end if fewer remain, up to the tag's end."""
    end = tag_end(tag, header.size)
    return min(10 + header.ext, end), end


def is_resynchronised_whole(header):
    """Unsynchronised 2.2 and 2.3 tags. In 2.4 only the frame's own flag 0002 counts."""
    return header.version in (2, 3) and header.flags & 0x80 != 0


# ---- section "Header and walk": one frame's header

HEADER_LENGTH = {2: 6, 3: 10, 4: 10}
ID_LENGTH = {2: 3, 3: 4, 4: 4}
# flag bits of the frame header; 2.2 has none
ENCRYPTED = {2: 0, 3: 0x0040, 4: 0x0004}
GROUPED = {2: 0, 3: 0x0020, 4: 0x0040}
COMPRESSED = {2: 0, 3: 0x0080, 4: 0x0008}
DATA_LENGTH = {2: 0, 3: 0x0080, 4: 0x0001}
UNSYNCHRONISED = {2: 0, 3: 0, 4: 0x0002}


@dataclass
class Head:
    """`start` is where the stored body begins, counted from the frame's first byte, `length` its bytes that are there."""

    id: bytes
    compressed: bool
    flagged: bool
    short: bool
    start: int
    length: int


def is_utf8(octets):
    """UTF-8 by RFC 3629, as Python's own strict decoder has it."""
    try:
        octets.decode("utf-8", "strict")
    except UnicodeDecodeError:
        return False
    return True


def frame_size(version, s):
    """Three plain bytes; 2.3 four plain; 2.4 four synchsafe."""
    if version == 2:
        return plain(s[3:6])
    return plain(s[4:8]) if version == 3 else from_synchsafe(s[4:8])


def ends_quietly(version, s):
    """Fewer bytes remain than a frame header, or the first byte is 0."""
    return len(s) < HEADER_LENGTH[version] or s[0] == 0


def read_head(version, depth, s):
    """The frame header at the front of s, or None at the quiet end, which comes before 13: only a frame has a depth."""
    if ends_quietly(version, s):
        return None
    refuse_if(depth > DEEPEST, 13)
    ident = bytes(s[: ID_LENGTH[version]])
    refuse_if(not is_utf8(ident), 7)
    size = frame_size(version, s)
    flags = 0 if version == 2 else plain(s[8:10])
    refuse_if(flags & ENCRYPTED[version], 8)
    refuse_if(flags & GROUPED[version], 9)
    start = HEADER_LENGTH[version]
    if flags & DATA_LENGTH[version]:
        refuse_if(len(s) < start + 4, 5)
        refuse_if(version == 3 and size < 4, 10)
        start += 4
        size = max(size - 4, 0)
    there = len(s) - start
    refuse_if(version == 3 and there < size, 5)
    compressed = flags & COMPRESSED[version] != 0
    flagged = flags & UNSYNCHRONISED[version] != 0
    return Head(ident, compressed, flagged, there < size, start, min(size, there))


# ---- section "Five kinds"


def kind_of(version, ident):
    """The kind that an id names. TXX and TXXX are these exact ids."""
    if ident[:1] == b"T" and ident not in (b"TXX", b"TXXX"):
        return TEXT
    if version == 2:
        return {b"POP": POPULARIMETER, b"MLL": TABLE}.get(ident, RAW)
    return {b"POPM": POPULARIMETER, b"MLLT": TABLE, b"CHAP": CHAPTER, b"CTOC": CONTENTS}.get(ident, RAW)


@dataclass
class Parts:
    """A body's numbers and the spans (start, length) of its parts, counted from the body's first byte; None is what a kind lacks."""

    kind: str
    numbers: tuple = ()
    name: tuple = None
    names: tuple = None
    rest: tuple = None

    def run(self, body):
        """The bytes that are walked as frames: CHAP and CTOC have them."""
        if self.kind not in (CHAPTER, CONTENTS):
            return b""
        return body[self.rest[0] :]


def is_in_pairs(encoding):
    return encoding in (1, 2)


def text_end(version, encoding, text):
    """Text: where it ends."""
    if version == 4:
        return closing_end(encoding, text)
    step = 2 if is_in_pairs(encoding) else 1
    for i in range(0, len(text) - step + 1, step):
        if text[i : i + step] == bytes(step):
            return i
    return len(text)


def closing_end(encoding, text):
    """`find_closing_delim`: closing zeros are dropped, but index 0 (first pair) is never tested; nothing is dropped if all behind it is zero.

    By pairs a last odd byte is in no pair, and is dropped behind a pair from index 2 on that is not zero.
    """
    step = 2 if is_in_pairs(encoding) else 1
    last = len(text) // step * step - step
    for i in range(last, 0, -step):
        if text[i : i + step] != bytes(step):
            return i + step
    return len(text)


def text_parts(version, b):
    """Text: encoding byte 0 to 3 (missing 11, other 12), then text."""
    refuse_if(len(b) < 1, 11)
    refuse_if(b[0] > 3, 12)
    return Parts(TEXT, (b[0],), rest=(1, text_end(version, b[0], b[1:])))


def counter_of(octets):
    """Popularimeter, by request b: one number, big-endian, however many bytes, none meaning 0. What does not fit 64 bits: 35."""
    counter = plain(octets)
    refuse_if(counter >= 2**64, 35)
    return counter


def popularimeter_parts(b):
    """Popularimeter: user up to a zero, rating, counter. No zero or no rating: 11, and the counter's 35 after it."""
    user = b.find(0)
    refuse_if(user < 0 or user + 1 >= len(b), 11)
    return Parts(POPULARIMETER, (b[user + 1], counter_of(b[user + 2 :])), name=(0, user))


def check_widths(v, w):
    """MLLT: each width 1 to 32 (30), sum a multiple of 4 (31), sum at most 64 (32)."""
    refuse_if(not (1 <= v <= 32 and 1 <= w <= 32), 30)
    refuse_if((v + w) % 4 != 0, 31)
    refuse_if(v + w > 64, 32)


def table_parts(b):
    """MLLT: 2, 3, 3, 1, 1 bytes (fewer than ten: 11), then references."""
    refuse_if(len(b) < 10, 11)
    check_widths(b[8], b[9])
    return Parts(TABLE, (plain(b[0:2]), plain(b[2:5]), plain(b[5:8]), b[8], b[9]), rest=(10, len(b) - 10))


def references_of(v, w, packed):
    """MLLT: as many references as fit whole, each two deviations, highest bit first."""
    bits = "".join(format(x, "08b") for x in packed)
    found = []
    for at in range(0, len(bits) - (v + w) + 1, v + w):
        found += [int(bits[at : at + v], 2), int(bits[at + v : at + v + w], 2)]
    return found


def pack(v, w, deviations):
    """MLLT: deviations packed highest bit first, last byte filled with 0 bits."""
    bits = "".join(format(d, "0%db" % (v, w)[i % 2]) for i, d in enumerate(deviations))
    bits += "0" * (-len(bits) % 8)
    return bytes(int(bits[i : i + 8], 2) for i in range(0, len(bits), 8))


def chapter_parts(b):
    """CHAP: element id and a zero, four 32-bit numbers, then its run. Anything missing: 11."""
    element = b.find(0)
    refuse_if(element < 0 or len(b) < element + 17, 11)
    times = tuple(plain(b[element + 1 + 4 * i : element + 5 + 4 * i]) for i in range(4))
    run = element + 17
    return Parts(CHAPTER, times, name=(0, element), rest=(run, len(b) - run))


def contents_parts(b):
    """CTOC: element id and a zero, a flag byte (2 top level, 1 ordered), a child count, that many names each closed by a zero, its run."""
    element = b.find(0)
    refuse_if(element < 0 or len(b) < element + 3, 11)
    flags, count = b[element + 1], b[element + 2]
    names = at = element + 3
    for _ in range(count):
        closed = b.find(0, at)
        refuse_if(closed < 0, 11)
        at = closed + 1
    marks = (flags >> 1 & 1, flags & 1)
    return Parts(CONTENTS, marks, name=(0, element), names=(names, at - names), rest=(at, len(b) - at))


def read_parts(version, kind, body):
    """What a body of a kind holds; a raw one is its bytes."""
    if kind == TEXT:
        return text_parts(version, body)
    if kind == RAW:
        return Parts(RAW, (), rest=(0, len(body)))
    read = {POPULARIMETER: popularimeter_parts, TABLE: table_parts, CHAPTER: chapter_parts, CONTENTS: contents_parts}
    return read[kind](body)


# ---- section "Header and walk": bodies, the work buffer and the walk


def put_resynchronised(body, work, free):
    """Puts a body, resynchronised, into the work buffer from `free` on: 14 and nothing written if it holds more than that part."""
    shown = resynchronised(body)
    refuse_if(len(shown) > len(work) - free, 14)
    work[free : free + len(shown)] = shown
    return shown


def is_resynchronised(head):
    """2.4 with 0002 and no compression."""
    return head.flagged and not head.compressed


def open_body(version, depth, head, stored, work, free):
    """A frame's body as it is shown, with its parts, after its own run was walked. `free` is where the room behind the innermost enclosing body put there begins."""
    shown = stored
    if is_resynchronised(head):
        shown = put_resynchronised(stored, work, free)
        free += len(shown)
    kind = RAW if head.compressed else kind_of(version, head.id)
    parts = read_parts(version, kind, shown)
    walk(version, depth + 1, parts.run(shown), work, free)
    return shown, parts


def walk(version, depth, s, work, free):
    """Walks the frames of s: a refusal inside refuses the outer frame with that number. Siblings are resynchronised at one place."""
    while (head := read_head(version, depth, s)) is not None:
        behind = head.start + head.length
        open_body(version, depth, head, s[head.start : behind], work, free)
        s = s[behind:]


# ---- section "Header and walk": records and the reader


@dataclass
class Record:
    """A frame as shown. Spans count from the front of the buffer that `in_work` names; those that a kind lacks are (0, 0)."""

    id: bytes
    kind: str
    short: bool
    compressed: bool
    numbers: tuple
    at: int
    in_work: bool
    body: tuple
    name: tuple
    names: tuple
    rest: tuple


def moved(span, by):
    return NOWHERE if span is None else (span[0] + by, span[1])


def frame_at(work, s, version, in_work, begin, at, end):
    """The top frame at a place of s[..end], the frames beginning at `begin`: None, or the record and the place behind it."""
    left = bytes(s[at:end])
    head = read_head(version, 1, left)
    if head is None:
        return None
    behind = head.start + head.length
    shown, parts = open_body(version, 1, head, left[head.start : behind], work, 0)
    there = 0 if is_resynchronised(head) else at + head.start
    record = Record(
        id=head.id, kind=parts.kind, short=head.short, compressed=head.compressed, numbers=parts.numbers,
        at=max(at - begin, 0), in_work=in_work or is_resynchronised(head), body=(there, len(shown)),
        name=moved(parts.name, there), names=moved(parts.names, there), rest=moved(parts.rest, there),
    )
    return record, at + behind


def part(span, octets):
    return bytes(octets[span[0] : span[0] + span[1]])


def open_tag(tag, work):
    """A tag's header, and its frames as (buffer, begin, end, in work): 14 before any frame if the work buffer is too small."""
    header = read_header(tag)
    begin, end = region_of(tag, header)
    if not is_resynchronised_whole(header):
        return header, (tag, begin, end, False)
    shown = put_resynchronised(tag[begin:end], work, 0)
    return header, (work, 0, len(shown), True)


def read_tag(tag, work):
    """The records of a tag, each with the bytes of its name, and then the refusal or 0."""
    _, (source, begin, end, in_work) = open_tag(tag, work)
    # frames that lie in the work buffer are of 2.2 and 2.3, of which none is resynchronised by itself
    room = bytearray() if in_work else work
    at = begin
    records = []
    try:
        while (found := frame_at(room, source, tag[3], in_work, begin, at, end)) is not None:
            record, at = found
            records.append((record, part(record.name, work if record.in_work else tag)))
    except Refused as refusal:
        return records, refusal.number
    return records, 0


# ---- section "The listing program"


def tag_line(header):
    return b"tag 2.%d size %d flags %d ext %d\n" % (header.version, header.size, header.flags, header.ext)


def frame_line(number, record, user):
    """User in hex, upper case, `-` if empty; ids as their bytes; kinds other than popularimeter stop after whole or short."""
    mark = b"short" if record.short else b"whole"
    line = b"frame %d %s at %d body %d %s %s" % (number, record.id, record.at, record.body[1], record.kind.encode(), mark)
    if record.kind == POPULARIMETER:
        shown = user.hex().upper().encode() or b"-"
        line += b" user %s rating %d counter %d" % (shown, *record.numbers)
    return line + b"\n"


def refused_line(number):
    return b"refused %d\n" % number


def listing(tag, work_length):
    """The whole listing. A refusal in the header (1 to 6) prints `refused` alone."""
    try:
        out = tag_line(read_header(tag))
    except Refused as refusal:
        return refused_line(refusal.number)
    try:
        records, number = read_tag(tag, bytearray(work_length))
    except Refused as refusal:
        return out + refused_line(refusal.number)
    for i, (record, user) in enumerate(records):
        out += frame_line(i, record, user)
    return out + (refused_line(number) if number else b"end %d\n" % len(records))


# ---- sections "Writing" and "Refusal numbers": a record and its checks

ALTERED = {
    2: b"CRA ETC EQU MLL SLT STC RVA TEN TLE TSI".split(),
    3: b"AENC ETCO EQUA MLLT POSS SYLT SYTC RVAD TENC TLEN TSIZ".split(),
    4: b"AENC ETCO EQUA MLLT POSS SYLT SYTC RVAD TENC TLEN TSIZ".split(),
}


@dataclass
class Given:
    """A record to be written: what its kind lacks is not looked at."""

    kind: str
    id: bytes
    numbers: tuple = ()
    name: bytes = b""
    names: bytes = b""
    rest: bytes = b""
    deviations: tuple = field(default=())
    short: bool = False
    compressed: bool = False


def is_id(version, ident):
    """3 (2.2) or 4 characters of A-Z, 0-9."""
    return len(ident) == ID_LENGTH[version] and all(0x41 <= b <= 0x5A or 0x30 <= b <= 0x39 for b in ident)


def check_run(version, depth, s):
    """29: a run refused, short, padded, or not used up exactly; too deep; or with a frame flagged 0002; at every depth."""
    while (head := read_head(version, depth, s)) is not None:
        refuse_if(head.short or head.flagged, 29)
        behind = head.start + head.length
        body = s[head.start : behind]
        parts = read_parts(version, RAW if head.compressed else kind_of(version, head.id), body)
        check_run(version, depth + 1, parts.run(body))
        s = s[behind:]
    refuse_if(len(s) > 0, 29)


def check_table(r):
    """30 to 34: widths, deviations and steps, and references of four bits that are odd in number."""
    _, step_bytes, step_millis, v, w = r.numbers
    check_widths(v, w)
    fits = all(d < 2 ** (v, w)[i % 2] for i, d in enumerate(r.deviations))
    refuse_if(len(r.deviations) % 2 != 0 or not fits or step_bytes >= 2**24 or step_millis >= 2**24, 33)
    refuse_if(v + w == 4 and len(r.deviations) // 2 % 2 != 0, 34)


def check_record(version, r):
    """The table's checks from 21 down to 34, in its order."""
    kind = kind_of(version, r.id)
    refuse_if(not is_id(version, r.id) or (r.kind != RAW and r.kind != kind), 21)
    refuse_if((r.kind == RAW and kind != RAW) or r.short or r.compressed, 25)
    if r.kind == TEXT:
        refuse_if(r.numbers[0] > 3, 12)
        refuse_if(text_end(version, r.numbers[0], r.rest) < len(r.rest), 26)
    if r.kind in (POPULARIMETER, CHAPTER, CONTENTS):
        refuse_if(0 in r.name, 27)
    if r.kind == CONTENTS:
        refuse_if(r.names.count(0) > 255 or (len(r.names) > 0 and r.names[-1] != 0), 28)
    if r.kind in (CHAPTER, CONTENTS):
        check_given_run(version, r.rest)
    if r.kind == TABLE:
        check_table(r)


def check_given_run(version, run):
    """29 for any refusal inside the run, whose frames lie at depth 2."""
    try:
        check_run(version, 2, run)
    except Refused:
        raise Refused(29) from None


# ---- section "Writing": frames and tags in bytes


def counter_bytes(n):
    """Popularimeter: in as many bytes as its highest set bit needs, none for 0."""
    return n.to_bytes((n.bit_length() + 7) // 8, "big")


def body_bytes(r):
    """Section "Five kinds": the body of a record."""
    n = r.numbers
    if r.kind == TEXT:
        return bytes([n[0]]) + r.rest
    if r.kind == POPULARIMETER:
        return r.name + b"\0" + bytes([n[0]]) + counter_bytes(n[1])
    if r.kind == TABLE:
        widths = bytes([n[3], n[4]])
        return n[0].to_bytes(2, "big") + n[1].to_bytes(3, "big") + n[2].to_bytes(3, "big") + widths + pack(n[3], n[4], r.deviations)
    if r.kind == CHAPTER:
        return r.name + b"\0" + b"".join(x.to_bytes(4, "big") for x in n) + r.rest
    if r.kind == CONTENTS:
        return r.name + b"\0" + bytes([2 * n[0] + n[1], r.names.count(0)]) + r.names + r.rest
    return r.rest


def frame_bytes(version, mode, r):
    """One frame. 2.4 bodies are unsynchronised one by one and flagged 0002 whenever a mode is on. 22, 23 and 24 in their order."""
    body = body_bytes(r)
    if version == 2:
        refuse_if(len(body) == 0, 22)
        refuse_if(len(body) > 16_777_215, 23)
        return r.id + len(body).to_bytes(3, "big") + body
    if version == 3:
        refuse_if(len(body) >= 2**28, 24)
        return r.id + len(body).to_bytes(4, "big") + b"\0\0" + body
    stored = unsynchronised(mode, body)
    flags = b"\0\2" if mode != "off" else b"\0\0"
    return r.id + to_synchsafe(len(stored)) + flags + stored


# ---- section "Writing": the writer

MODES = {0: "off", 1: "crate", 2: "standard"}


class Writer:
    """Begun with version, mode and altered mark; `used` counts the bytes of the collecting buffer that hold frames."""

    def __init__(self, version, mode=0, altered=False):
        refuse_if(version not in (2, 3, 4) or mode not in MODES, 2)
        self.version, self.mode, self.altered, self.used = version, MODES[mode], altered, 0

    def add(self, r, buffer):
        """Appends one frame and answers its bytes; a frame skipped under the altered mark is accepted with none."""
        check_record(self.version, r)
        if self.altered and r.id in ALTERED[self.version]:
            return b""
        frame = frame_bytes(self.version, self.mode, r)
        refuse_if(len(frame) > len(buffer) - self.used, 20)
        buffer[self.used : self.used + len(frame)] = frame
        self.used += len(frame)
        return frame

    def finish(self, padding, buffer, output):
        """Writes header, frames and padding and answers the tag. 24 is judged on the frames that are there, then comes 20."""
        frames = bytes(buffer[: self.used])
        if self.version in (2, 3):
            frames = unsynchronised(self.mode, frames)
        refuse_if(len(frames) + padding >= 2**28, 24)
        size = len(frames) + padding
        refuse_if(len(buffer) < self.used or 10 + size > len(output), 20)
        flags = b"\x80" if self.mode != "off" else b"\0"
        tag = b"ID3" + bytes([self.version, 0]) + flags + to_synchsafe(size) + frames + bytes(padding)
        output[: len(tag)] = tag
        return tag


# ---- request f: raising a counter in place


@dataclass
class Seen:
    """A frame that was walked without a work buffer: its body, where that begins, its parts, and whether it is plain itself and all frames inside it."""

    begin: int
    body: bytes
    parts: Parts
    plain: bool


def see(version, depth, s):
    """The frames of s as reading walks them, and the place behind the last. 40 at once where reading would resynchronise: no work buffer is lent.

    Plain: not compressed, not flagged 0002, not short. What a chapter's run leaves over behind its last frame is not looked at.
    """
    at, found = 0, []
    while (head := read_head(version, depth, s[at:])) is not None:
        refuse_if(is_resynchronised(head), 40)
        begin = at + head.start
        at = begin + head.length
        body = s[begin:at]
        parts = read_parts(version, RAW if head.compressed else kind_of(version, head.id), body)
        inside, _ = see(version, depth + 1, parts.run(body))
        odd = head.compressed or head.flagged or head.short
        found.append(Seen(begin, body, parts, not odd and all(frame.plain for frame in inside)))
    return found, at


def plain_frames(tag):
    """The top-level frames of a plain tag, and where the first of them begins: first reading's refusals, then 40 where the tag is not plain.

    Header flag 80 of 2.2 and 2.3 is 40 directly after the header's own checks, that of 2.4 after all frames.
    """
    header = read_header(tag)
    refuse_if(is_resynchronised_whole(header), 40)
    begin, end = region_of(tag, header)
    frames, behind = see(header.version, 1, tag[begin:end])
    refuse_if(len(tag) < 10 + header.size, 40)
    refuse_if(header.flags & 0x40 or header.flags & 0x80, 40)
    refuse_if(not all(frame.plain for frame in frames), 40)
    refuse_if(any(tag[begin + behind : end]), 40)
    return frames, begin


def raise_counter(tag, user, amount):
    """Adds an amount to the counter of a user's one top-level popularimeter in a lent tag, in the counter bytes that are there, and answers the sum."""
    frames, first = plain_frames(bytes(tag))
    theirs = [f for f in frames if f.parts.kind == POPULARIMETER and part(f.parts.name, f.body) == user]
    refuse_if(len(theirs) == 0, 41)
    refuse_if(len(theirs) > 1, 42)
    [frame] = theirs
    counter = frame.parts.numbers[1] + amount
    refuse_if(counter >= 2**64, 43)
    # the counter's bytes are those behind the user, its zero and the rating
    before = len(user) + 2
    count = len(frame.body) - before
    refuse_if(counter >= 256**count, 44)
    start = first + frame.begin + before
    tag[start : start + count] = counter.to_bytes(count, "big")
    return counter


# ---- request j: one frame replaced, removed or added in place


def plain_blocks(tag):
    """The top-level frames of a plain tag, each as its bytes from its header to where the next frame begins. Refused as a raise is, up to 40."""
    frames, first = plain_frames(tag)
    ends = [first] + [first + frame.begin + len(frame.body) for frame in frames]
    return [tag[a:b] for a, b in zip(ends, ends[1:])]


def with_blocks(tag, blocks):
    """The tag with these frames and zeros behind them; 20 where the frames together are longer than the header's size. All else stays."""
    size, inside = read_header(tag).size, b"".join(blocks)
    refuse_if(len(inside) > size, 20)
    return tag[:10] + inside + bytes(size - len(inside)) + tag[10 + size :]


def new_block(version, r):
    """The frame of a record as adding writes it, mode and mark off, or adding's refusal."""
    check_record(version, r)
    return frame_bytes(version, "off", r)


def replace_frame(tag, number, r):
    """A record's frame in the place of the frame with this number, counted from 0."""
    blocks = plain_blocks(tag)
    refuse_if(number >= len(blocks), 46)
    return with_blocks(tag, blocks[:number] + [new_block(tag[3], r)] + blocks[number + 1 :])


def remove_frame(tag, number):
    """The tag without the frame with this number."""
    blocks = plain_blocks(tag)
    refuse_if(number >= len(blocks), 46)
    return with_blocks(tag, blocks[:number] + blocks[number + 1 :])


def append_frame(tag, r):
    """A record's frame behind the last."""
    blocks = plain_blocks(tag)
    return with_blocks(tag, blocks + [new_block(tag[3], r)])


def lift_counter(tag, user, amount):
    """The sum and the tag then: raised as request f has it, and where that is 44 a popularimeter with the same user and rating stands in the frame's place."""
    lent = bytearray(tag)
    try:
        return raise_counter(lent, user, amount), bytes(lent)
    except Refused as refusal:
        refuse_if(refusal.number != 44, refusal.number)
    frames, _ = plain_frames(tag)
    [number] = [i for i, f in enumerate(frames) if f.parts.kind == POPULARIMETER and part(f.parts.name, f.body) == user]
    rating, counter = frames[number].parts.numbers
    r = Given(POPULARIMETER, b"POP" if tag[3] == 2 else b"POPM", (rating, counter + amount), name=user)
    return counter + amount, replace_frame(tag, number, r)
