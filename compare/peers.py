"""Tags written and read by other programs, held against the listing of this library.

    peers.py [--program PROGRAM] LIST...    LIST is the command that lists a file, PROGRAM one that lists its standard input

Each writer makes files with popularimeters and texts that are known here. The listing must show the popularimeters by user, rating and counter, and every text at a
place and of a length at which its characters stand. Readers are asked for the same files. PROGRAM must print what LIST prints.
"""
import ctypes
import ctypes.util
import importlib.util
import json
import os
import random
import shutil
import subprocess
import sys
import tempfile

# user, rating, counter; counters of up to eight bytes
POPULARIMETERS = [
    ("a", 5, 0),
    ("room 7", 255, 1),
    ("b@example.org", 0, 255),
    ("c", 128, 65280),
    ("d", 1, 4294967295),
    ("e", 1, 4294967296),
    ("f", 1, 18446744073709551615),
]
TEXTS = {"TIT2": "A title", "TPE1": "\u00c9ric \u20ac", "TALB": "\U0001f3b5 /\u00ff"}

# as many sets again at random, the same in each run
RANDOM_SETS = 60
LETTERS = "abcXYZ019 -_\u00e9\u00ff\u0416\u05d0\u3042\u4e2d\uac00\U0001f600"


def sets():
    """Popularimeters and texts of each file."""
    yield POPULARIMETERS, TEXTS
    chance = random.Random(1)

    def word(letters, most):
        return "x" + "".join(chance.choice(letters) for _ in range(chance.randint(0, most))) + "y"
    for _ in range(RANDOM_SETS):
        users = {word(LETTERS[:12], 30) for _ in range(chance.randint(0, 6))}
        counters = [(user, chance.randint(0, 255), chance.getrandbits(chance.randint(1, 64))) for user in sorted(users)]
        yield counters, {name: word(LETTERS, chance.choice((3, 40, 400))) for name in TEXTS}


# ---- the listing

def listed(command, path):
    """The frames of a file as the listing shows them: id, place, body's length, kind, and the words behind."""
    lines = subprocess.run(command + [path], capture_output=True).stdout.decode("latin-1").splitlines()
    frames = []
    for line in lines:
        words = line.split(" ")
        if words[0] == "frame":
            frames.append((words[2], int(words[4]), int(words[6]), words[7], words[8:]))
    return lines, frames


def popularimeters(frames):
    """User, rating and counter of each popularimeter."""
    found = []
    for _, _, _, kind, words in frames:
        if kind == "popularimeter":
            user = "" if words[2] == "-" else bytes.fromhex(words[2]).decode("latin-1")
            found.append((user, int(words[4]), int(words[6])))
    return sorted(found)


def texts(path, frames):
    """The characters of each text, from where the listing says that its body is. Only for tags that nothing has to be resynchronised in."""
    data = open(path, "rb").read()
    head = 6 if data[3] == 2 else 10
    found = {}
    for name, at, length, kind, _ in frames:
        if kind == "text":
            body = data[10 + at + head:10 + at + head + length]
            decoded = body[1:].decode(["latin-1", "utf-16", "utf-16-be", "utf-8"][body[0]])
            found[name] = decoded.rstrip("\0")
    return found


# ---- writers: each makes files and says what is in them

KEYS = {"TIT2": "title", "TPE1": "artist", "TALB": "album"}


def by_mutagen(path, counters, words):
    from mutagen import id3
    for version, encoding in ((3, 1), (4, 1), (4, 3)):
        name = f"{path}-{version}-{encoding}.mp3"
        tag = id3.ID3()
        for user, rating, counter in counters:
            tag.add(id3.POPM(email=user, rating=rating, count=counter))
        for frame, text in words.items():
            tag.add(getattr(id3, frame)(encoding=encoding, text=[text]))
        tag.save(name, v2_version=version)
        yield name, counters


def by_eyed3(path, counters, words):
    import eyed3.id3
    for version, number, encoding in (("2.3", eyed3.id3.ID3_V2_3, "utf-16"), ("2.4", eyed3.id3.ID3_V2_4, "utf-8")):
        name = f"{path}-{version}.mp3"
        open(name, "wb").close()
        tag = eyed3.id3.Tag()
        for frame, key in KEYS.items():
            setattr(tag, key, words[frame])
        for user, rating, counter in counters:
            tag.popularities.set(user.encode("latin-1"), rating, counter)
        tag.save(name, version=number, encoding=encoding)
        yield name, counters


def by_ffmpeg(path, counters, words):
    """It writes no popularimeters."""
    for version in ("3", "4"):
        name = f"{path}-{version}.mp3"
        command = ["ffmpeg", "-v", "error", "-f", "lavfi", "-i", "anullsrc=r=44100:cl=mono", "-t", "0.1", "-id3v2_version", version]
        for frame, key in KEYS.items():
            command += ["-metadata", f"{key}={words[frame]}"]
        subprocess.run(command + [name], check=True)
        yield name, []


# ---- readers: what they say of a file

def from_mutagen(path):
    from mutagen import id3
    tag = id3.ID3(path)
    return sorted((f.email, f.rating, getattr(f, "count", 0)) for f in tag.getall("POPM")), {n: str(tag[n]) for n in TEXTS if n in tag}


def from_eyed3(path):
    import eyed3.id3
    tag = eyed3.id3.Tag()
    tag.parse(path)
    found = sorted((p.email.decode("latin-1"), p.rating, p.count) for p in tag.popularities)
    return found, {frame: getattr(tag, key) for frame, key in KEYS.items()}


def from_ffprobe(path):
    """It shows no popularimeters, and nothing of a file without sound."""
    command = ["ffprobe", "-v", "error", "-show_entries", "format_tags", "-of", "json", path]
    shown = subprocess.run(command, capture_output=True)
    if shown.returncode != 0:
        return None, None
    tags = json.loads(shown.stdout)["format"]["tags"]
    return None, {frame: tags[key] for frame, key in KEYS.items()}


class Binary(ctypes.Structure):
    """A field of libid3tag that holds bytes; its counters have no other way to be had."""
    _fields_ = [("type", ctypes.c_int), ("data", ctypes.c_void_p), ("length", ctypes.c_ulong)]


def from_id3tag(path):
    library = ctypes.CDLL(ctypes.util.find_library("id3tag"))
    pointer = ctypes.c_void_p

    def call(name, *arguments, answer=pointer):
        function = getattr(library, name)
        function.restype = answer
        return function(*arguments)

    file = pointer(call("id3_file_open", path.encode(), 0))
    tag = pointer(call("id3_file_tag", file))
    found = []
    number = 0
    while frame := call("id3_tag_findframe", tag, b"POPM", number):
        field = [pointer(call("id3_frame_field", pointer(frame), i)) for i in range(3)]
        user = call("id3_field_getlatin1", field[0], answer=ctypes.c_char_p)
        rating = call("id3_field_getint", field[1], answer=ctypes.c_long)
        counted = ctypes.cast(field[2], ctypes.POINTER(Binary)).contents
        counter = int.from_bytes(ctypes.string_at(counted.data, counted.length) if counted.length else b"", "big")
        found.append((user.decode("latin-1"), rating, counter))
        number += 1
    call("id3_file_close", file, answer=ctypes.c_int)
    return sorted(found), None


def from_taglib(path):
    library = ctypes.CDLL(ctypes.util.find_library("tag_c"))
    pointer = ctypes.c_void_p
    library.taglib_file_new.restype = pointer
    library.taglib_file_tag.restype = pointer
    file = pointer(library.taglib_file_new(path.encode()))
    tag = pointer(library.taglib_file_tag(file))
    found = {}
    for frame, key in KEYS.items():
        function = getattr(library, f"taglib_tag_{key}")
        function.restype = ctypes.c_char_p
        found[frame] = function(tag).decode("utf-8")
    library.taglib_file_free(file)
    return None, found


# ---- the run

def installed():
    """The writers and readers that are there; the others are named."""
    def has_module(name):
        return importlib.util.find_spec(name) is not None
    there = {
        "mutagen": has_module("mutagen"),
        "eyeD3": has_module("eyed3"),
        "ffmpeg": shutil.which("ffmpeg") is not None,
        "libid3tag": ctypes.util.find_library("id3tag") is not None,
        "TagLib": ctypes.util.find_library("tag_c") is not None,
    }
    for name, yes in there.items():
        if not yes:
            print(f"{name} is not installed and is left out")
    writers = {"mutagen": by_mutagen, "eyeD3": by_eyed3, "ffmpeg": by_ffmpeg}
    readers = {"mutagen": from_mutagen, "eyeD3": from_eyed3, "ffmpeg": from_ffprobe, "libid3tag": from_id3tag, "TagLib": from_taglib}
    return ({n: w for n, w in writers.items() if there[n]}, {n: r for n, r in readers.items() if there[n]})


class Count:
    """How much was compared, and how much differed."""
    def __init__(self):
        self.compared = self.different = 0

    def check(self, what, mine, theirs):
        """Prints both where they differ. One that says nothing is not compared."""
        if theirs is None:
            return
        self.compared += 1
        if mine != theirs:
            self.different += 1
            print(f"DIFFERENT {what}\n    here:  {mine}\n    there: {theirs}")


def compare(count, command, program, path, counters, words, readers):
    """Holds one file against what was written and against what each reader says."""
    name = os.path.basename(path)
    lines, frames = listed(command, path)
    mine = popularimeters(frames), {n: t for n, t in texts(path, frames).items() if n in TEXTS}
    count.check(f"{name}, popularimeters as written", mine[0], sorted(counters))
    count.check(f"{name}, texts as written", mine[1], words)
    count.check(f"{name}, its end", lines[-1], f"end {len(frames)}")
    if program:
        with open(path, "rb") as file:
            other = subprocess.run([program], stdin=file, capture_output=True).stdout.decode("latin-1").splitlines()
        count.check(f"{name}, the listing program", lines, other)
    for reader, read in readers.items():
        there = read(path)
        count.check(f"{name}, popularimeters as {reader} reads them", mine[0], there[0])
        count.check(f"{name}, texts as {reader} reads them", mine[1], there[1])


def main():
    command, program = sys.argv[1:], None
    if command[0] == "--program":
        program, command = command[1], command[2:]
    writers, readers = installed()
    files, count = 0, Count()
    for writer, write in writers.items():
        with tempfile.TemporaryDirectory() as folder:
            for number, (counters, words) in enumerate(sets()):
                for path, there in write(os.path.join(folder, f"{writer}-{number}"), counters, words):
                    compare(count, command, program, path, there, words, readers)
                    files += 1
        print(f"{writer}: {files} files so far, {count.compared} comparisons, {count.different} differences")
    print(f"{files} files by {', '.join(writers) or 'nobody'}, read by {', '.join(readers) or 'nobody'}: "
          f"{count.compared} comparisons, {count.different} differences")
    return 1 if count.different or not files else 0


if __name__ == "__main__":
    sys.exit(main())
