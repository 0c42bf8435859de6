"""Tags that mutagen, eyeD3 and TagLib wrote, edited in place by this library, and read by all three as before but for that frame.

    edits.py [--taglib PROGRAM] EDIT...    EDIT is the command that edits a file (peers/edit.c), PROGRAM the one that writes and reads tags by TagLib
                                           (peers/frames.cc)

The files are those of raises.py, and by TagLib the same again. Each frame is removed, and replaced by a shorter, an equal and a longer one; frames are added;
counters are lifted in their bytes and past them; and some edits follow one another. What an edit must answer, and each byte that it must leave, is worked
out here from the file. What each program reads then must be what it read before, without what it reads of the old frame alone, and with what it reads of the
new frame alone.
"""
import os
import random
import shutil
import subprocess
import sys
import tempfile
from collections import Counter

from peers import Count, installed
from raises import SOUND, Case, by_eyed3, by_mutagen, content

# the counters of the two users, by how much each is lifted, and the padding; TagLib's counters have four bytes
CASES = [
    ((0, 0), (1, 256), 0),
    ((255, 65535), (1, 1), 1),
    ((65280, 16777215), (255, 1), 2),
    ((977000, 12), (4293990296, 2**64 - 13), 20),
    ((4294967295, 4294967295), (1, 2**32), 0),
    ((4294967295, 4294967295), (1, 2**56), 300),
    ((4294967295, 7), (2**64 - 4294967296, 2**64 - 7), 1024),
]
EDITS_IN_A_ROW = 12
TEXT, POPULARIMETER, CHAPTER, RAW = 0, 1, 3, 5


# ---- a file as its frames: none of the programs writes 2.2 here, an extended header, or flags

def number(octets, bits):
    return sum(octet << bits * (len(octets) - 1 - i) for i, octet in enumerate(octets))


def frames_of(data):
    """The frames of a tag, and the header's size."""
    assert data[:3] == b"ID3" and data[3] in (3, 4) and data[5] == 0
    size, at, frames = number(data[6:10], 7), 10, []
    while at < 10 + size and data[at]:
        end = at + 10 + number(data[at + 4:at + 8], 7 if data[3] == 4 else 8)
        frames.append(data[at:end])
        at = end
    assert not any(data[at:10 + size])
    return frames, size


def frame(edition, name, body):
    size = len(body)
    octets = bytes(size >> shift & 127 for shift in (21, 14, 7, 0)) if edition == 4 else size.to_bytes(4, "big")
    return name + octets + b"\0\0" + body


def with_frames(data, frames):
    """20, or 0 and the file with these frames and zeros after them."""
    _, size = frames_of(data)
    inside = b"".join(frames)
    if len(inside) > size:
        return 20, data
    return 0, data[:10] + inside + bytes(size - len(inside)) + data[10 + size:]


def alone(data, octets):
    """A file with one of its frames alone, or with none."""
    size = bytes(len(octets) >> shift & 127 for shift in (21, 14, 7, 0))
    return b"ID3" + data[3:6] + size + octets + SOUND


# ---- new frames: the words that say a record, and its frame

def words_of(kind, name, numbers=(), user=b"", rest=b""):
    numbers = [str(n) for n in (*numbers, 0, 0, 0, 0, 0)][:5]
    return [str(kind), name.decode(), *numbers, user.hex() or "-", "-", rest.hex() or "-"]


def text_of(edition, name, length):
    """A text whose frame has this length, at least 12."""
    rest = (b"new " * length)[:length - 11]
    return words_of(TEXT, name, [0], rest=rest), frame(edition, name, b"\0" + rest)


def popularimeter_of(edition, user, rating, counter):
    octets = counter.to_bytes((counter.bit_length() + 7) // 8, "big")
    return words_of(POPULARIMETER, b"POPM", [rating, counter], user), frame(edition, b"POPM", user + bytes([0, rating]) + octets)


def chapter_of(edition, element, title):
    run = frame(edition, b"TIT2", b"\0" + title)
    times = (1, 2, 3, 4)
    return words_of(CHAPTER, b"CHAP", times, element, run), frame(edition, b"CHAP", element + b"\0" + b"".join(n.to_bytes(4, "big") for n in times) + run)


def raw_of(edition, owner, rest):
    body = owner + b"\0" + rest
    return words_of(RAW, b"PRIV", rest=body), frame(edition, b"PRIV", body)


# ---- what an edit must do: the refusal or 0, the file then, and the old and the new frame

def removed(data, at):
    frames, _ = frames_of(data)
    if at >= len(frames):
        return 46, data, b"", b""
    return *with_frames(data, frames[:at] + frames[at + 1:]), frames[at], b""


def replaced(data, at, new):
    frames, _ = frames_of(data)
    if at >= len(frames):
        return 46, data, b"", b""
    return *with_frames(data, frames[:at] + [new] + frames[at + 1:]), frames[at], new


def appended(data, new):
    return *with_frames(data, frames_of(data)[0] + [new]), b"", new


def lifted(data, user, amount):
    """In the bytes of the counter where the sum fits, else in a frame of its own; the counter comes last."""
    frames, _ = frames_of(data)
    [at] = [i for i, octets in enumerate(frames) if octets[:4] == b"POPM" and octets[10:].startswith(user + b"\0")]
    body = frames[at][10:]
    rating, field = body[len(user) + 1], body[len(user) + 2:]
    counter = int.from_bytes(field, "big") + amount
    if counter >= 2**64:
        return 43, data, b"", b"", 0
    if counter < 256 ** len(field):
        new = frames[at][:-len(field)] + counter.to_bytes(len(field), "big") if field else frames[at]
    else:
        new = popularimeter_of(data[3], user, rating, counter)[1]
    return *replaced(data, at, new), counter


# ---- the programs as readers: what is in a tag, item by item

def from_mutagen(path):
    from mutagen import id3
    try:
        return Counter((key, repr(one)) for key, one in id3.ID3(path).items())
    except id3.ID3NoHeaderError:
        return Counter()


def from_eyed3(path):
    import eyed3.id3
    tag = eyed3.id3.Tag()
    tag.parse(path)
    items = [(name, one.data) for name, same in tag.frame_set.items() for one in same if name not in (b"POPM", b"CHAP")]
    items += [("POPM", one.email, one.rating, one.count) for one in tag.popularities]
    items += [("CHAP", one.element_id, one.times, one.title) for one in tag.chapters]
    return Counter(items)


def from_taglib(program):
    def read(path):
        lines = subprocess.run([program, "list", path], capture_output=True, check=True).stdout.splitlines()
        return Counter(lines)
    return read


def by_taglib(program):
    """Its padding is its own, and its counters have four bytes. It would take the letters ID3 in the sound for a tag, so that the sound ends before them."""
    def write(path, case):
        for edition in "34":
            name = f"{path}-2.{edition}.mp3"
            with open(name, "wb") as file:
                file.write(SOUND[:SOUND.index(b"ID3")])
            counted = [word for pair in zip(case.users, map(str, case.counters)) for word in pair]
            subprocess.run([program, "write", name, edition, case.title, *counted], check=True)
            yield name
    return write


# ---- one edit of a file

class Editor:
    """The command, the readers, and what is counted."""
    def __init__(self, command, readers, count):
        self.command, self.readers, self.count = command, readers, count
        self.answers = Counter()

    def check(self, path, words, told):
        """An edit in place: its answer, the file's bytes, and what each program reads of it, all as foretold."""
        number, then, old, new, *counter = told
        data, before = content(path), {name: read(path) for name, read in self.readers.items()}
        what = f"{os.path.basename(path)}, {' '.join(words)[:80]}"
        said = subprocess.run(self.command + [path, *words], capture_output=True, check=True).stdout.decode().split()
        self.count.check(f"{what}: its answer", said, [str(number), *(map(str, counter) if number == 0 else [])])
        self.count.check(f"{what}: the bytes of the file", content(path) == then, True)
        self.answers[words[0], number] += 1
        for name, read in self.readers.items():
            want = before[name]
            if number == 0:
                want = want - self.items(path, read, data, old) + self.items(path, read, data, new)
            self.count.check(f"{what}: as {name} reads it", read(path), want)

    def items(self, path, read, data, octets):
        """What a program reads of a frame alone."""
        if not octets:
            return Counter()
        single = f"{path}.one.mp3"
        with open(single, "wb") as file:
            file.write(alone(data, octets))
        return read(single)

    def check_copy(self, path, words, told):
        """The same on a copy."""
        self.check(shutil.copyfile(path, f"{path}.copy.mp3"), words, told)


# ---- the edits of a file

def each_frame(editor, path):
    """Every frame removed, and replaced by a shorter, an equal and a longer one."""
    data = content(path)
    frames, size = frames_of(data)
    room = size - sum(map(len, frames))
    for at, old in enumerate(frames):
        editor.check_copy(path, ["remove", str(at)], removed(data, at))
        for length in sorted({12, len(old) - 1, len(old), len(old) + 1, len(old) + room, len(old) + room + 1}):
            words, new = text_of(data[3], b"TIT3", max(length, 12))
            editor.check_copy(path, ["replace", str(at), *words], replaced(data, at, new))
    for at in (len(frames), 2**32, 2**32 + 1):
        editor.check_copy(path, ["remove", str(at)], (46, data, b"", b""))


def new_frames(edition, room):
    """Records to be added, with their frames: of several kinds, and texts that just fit and just do not."""
    yield popularimeter_of(edition, b"guest", 7, 300)
    yield chapter_of(edition, b"two", b"Two")
    yield raw_of(edition, b"owner", b"\xFF\0\xE0")
    for length in (room, room + 1):
        if length >= 12:
            yield text_of(edition, b"TIT3", length)


def additions(editor, path):
    data = content(path)
    frames, size = frames_of(data)
    for words, new in new_frames(data[3], size - sum(map(len, frames))):
        editor.check_copy(path, ["append", *words], appended(data, new))
    wrong = words_of(RAW, b"priv", rest=b"\7")
    editor.check_copy(path, ["append", *wrong], (21, data, b"", b""))


def lifts(editor, path, case):
    """Each user alone, then both on one file, by the amounts of the case."""
    data = content(path)
    users = [user.encode("latin-1") for user in case.users]
    for user, amount in zip(users, case.amounts):
        for by in (0, 1, amount):
            editor.check_copy(path, ["lift", user.hex() or "-", str(by)], lifted(data, user, by))
    both = shutil.copyfile(path, f"{path}.both.mp3")
    for user, amount in zip(users, case.amounts):
        editor.check(both, ["lift", user.hex() or "-", str(amount)], lifted(content(both), user, amount))


def in_a_row(editor, path, seed):
    """Edits one after the other on one file, each new text under an id of its own."""
    chance, names = random.Random(seed), iter(b"TIT3 TCOM TPUB TKEY TOPE TENC TEXT TOAL TCOP TSRC TMED TOFN".split())
    row = shutil.copyfile(path, f"{path}.row.mp3")
    for _ in range(EDITS_IN_A_ROW):
        data, words = content(row), text_of(content(row)[3], next(names), chance.randint(12, 40))
        at = chance.randrange(len(frames_of(data)[0]) + 1)
        word = chance.choice(("remove", "replace", "append"))
        if word == "remove":
            editor.check(row, [word, str(at)], removed(data, at))
        elif word == "replace":
            editor.check(row, [word, str(at), *words[0]], replaced(data, at, words[1]))
        else:
            editor.check(row, [word, *words[0]], appended(data, words[1]))


# ---- the run

def programs(taglib):
    """Writers and readers that are there."""
    there, _ = installed()
    writers, readers = {"mutagen": by_mutagen, "eyeD3": by_eyed3}, {"mutagen": from_mutagen, "eyeD3": from_eyed3}
    writers, readers = {n: w for n, w in writers.items() if n in there}, {n: r for n, r in readers.items() if n in there}
    if taglib:
        writers["TagLib"], readers["TagLib"] = by_taglib(taglib), from_taglib(taglib)
    return writers, readers


def main():
    command, taglib = sys.argv[1:], None
    if command[0] == "--taglib":
        taglib, command = command[1], command[2:]
    writers, readers = programs(taglib)
    files, editor = 0, Editor(command, readers, Count())
    for name, write in writers.items():
        with tempfile.TemporaryDirectory() as folder:
            for i, (counters, amounts, padding) in enumerate(CASES):
                case = Case(counters, amounts, padding=padding)
                for path in write(os.path.join(folder, f"{name}-{i}"), case):
                    each_frame(editor, path)
                    additions(editor, path)
                    lifts(editor, path, case)
                    in_a_row(editor, path, i)
                    files += 1
        print(f"{name}: {files} files so far, {editor.count.compared} comparisons, {editor.count.different} differences")
    answers = ", ".join(f"{word} {number}: {times}" for (word, number), times in sorted(editor.answers.items()))
    print(f"{files} files by {', '.join(writers) or 'nobody'}, edited and read by {', '.join(readers) or 'nobody'}; "
          f"edits by answer, 0 or the refusal: {answers}; {editor.count.compared} comparisons, {editor.count.different} differences")
    return 1 if editor.count.different or not files else 0


if __name__ == "__main__":
    sys.exit(main())
