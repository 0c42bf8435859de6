"""Tags that mutagen and eyeD3 wrote, raised in place by this library's program and read back by the program that wrote them.

    raises.py STREAMVAULT...    the command of the program

Each file has two popularimeters, one for the music and one for the adverts, texts, a chapter with a text (and, by mutagen, with a popularimeter of the first
user), padding, and sound after the tag. What a raise must answer, and each byte that it must leave, is worked out here from the file. After it the program that
wrote the file must read that one counter as the sum and all else as before. Neither of the two writes 2.2.
"""
import os
import random
import shutil
import subprocess
import sys
import tempfile

from peers import Count, installed, listed, popularimeters

MUSIC, ADVERTS = "room 7", "adverts@example.org"

# the counters of the two, and by how much each is raised
STATED = [
    ((0, 0), (1, 1)),
    ((255, 65535), (1, 1)),
    ((65280, 16777215), (255, 4278190080)),
    ((4294967295, 7), (0, 4294967288)),
    ((4294967295, 7), (1, 4294967289)),
    ((4294967296, 1099511627775), (1000, 1)),
    ((18446744073709551615, 18446744073709551614), (0, 1)),
    ((18446744073709551615, 18446744073709551614), (1, 2)),
    ((977000, 12), (18446744073709551615, 18446744073709551603)),
]

# as many again at random, the same in each run
RANDOM_CASES = 20
SOUND = bytes([0xFF, 0xFB, 0x90, 0x64]) + bytes(i * 7 % 256 for i in range(2000)) + b"ID3POPMroom 7"


class Case:
    """What a file is made of, and what is done with it."""
    def __init__(self, counters, amounts, music=MUSIC, title="A title \u20ac", padding=1024):
        self.users = (music, ADVERTS)
        self.counters, self.amounts = counters, amounts
        self.title, self.padding = title, padding


def cases():
    """The stated ones with padding and without, then those at random."""
    for counters, amounts in STATED:
        for padding in (0, 1024):
            yield Case(counters, amounts, padding=padding)
    chance = random.Random(1)

    def number():
        return chance.getrandbits(chance.randint(1, 64))
    for _ in range(RANDOM_CASES):
        music = "".join(chance.choice("abc 0-_@.\u00e9\u00ff") for _ in range(chance.randint(0, 12))) + "y"
        title = "".join(chance.choice("abc \u00e9\u0416\u4e2d") for _ in range(chance.randint(1, 300)))
        # mostly amounts that fit
        amounts = [chance.getrandbits(chance.randint(1, chance.choice((8, 16, 31, 64)))) for _ in range(2)]
        yield Case((number(), number()), amounts, music, title, chance.choice((0, 1, 9, 10, 11, 256, 5000)))


# ---- writers: each makes files with the sound after the tag

def by_mutagen(path, case):
    from mutagen import id3
    for version, encoding in ((3, 1), (4, 3)):
        name = f"{path}-2.{version}.mp3"
        with open(name, "wb") as file:
            file.write(SOUND)
        inside = [id3.TIT2(encoding=encoding, text=["One"]), id3.POPM(email=case.users[0], rating=1, count=3)]
        tag = id3.ID3()
        tag.add(id3.TIT2(encoding=encoding, text=[case.title]))
        tag.add(id3.CHAP(element_id="one", start_time=0, end_time=5, start_offset=6, end_offset=7, sub_frames=inside))
        for rating, (user, counter) in enumerate(zip(case.users, case.counters)):
            tag.add(id3.POPM(email=user, rating=rating, count=counter))
        tag.save(name, v1=0, v2_version=version, padding=lambda info: case.padding)
        yield name


def by_eyed3(path, case):
    """Its padding is its own, 256 bytes, and its users are ASCII."""
    import eyed3.id3
    if not case.users[0].isascii():
        return
    for version, number, encoding in (("2.3", eyed3.id3.ID3_V2_3, "utf-16"), ("2.4", eyed3.id3.ID3_V2_4, "utf-8")):
        name = f"{path}-{version}.mp3"
        with open(name, "wb") as file:
            file.write(SOUND)
        tag = eyed3.id3.Tag()
        tag.title = case.title
        tag.chapters.set(b"one", (0, 5)).title = "One"
        for rating, (user, counter) in enumerate(zip(case.users, case.counters)):
            tag.popularities.set(user.encode("ascii"), rating, counter)
        tag.save(name, version=number, encoding=encoding)
        yield name


# ---- the same programs as readers: the popularimeters of a file by user, and all else that is in its tag

def from_mutagen(path):
    from mutagen import id3
    tag = id3.ID3(path)
    counted = {frame.email: (frame.rating, frame.count) for frame in tag.getall("POPM")}
    rest = {key: repr(frame) for key, frame in tag.items() if frame.FrameID != "POPM"}
    return counted, (tag.version, tag.size, tag._padding, rest)


def from_eyed3(path):
    import eyed3.id3
    tag = eyed3.id3.Tag()
    tag.parse(path)
    counted = {frame.email.decode("ascii"): (frame.rating, frame.count) for frame in tag.popularities}
    frames = [(name, frame.data) for name, same in tag.frame_set.items() for frame in same if name != b"POPM"]
    chapters = [(chapter.element_id, chapter.times, chapter.title) for chapter in tag.chapters]
    return counted, (tag.version, tag.file_info.tag_size, tag.file_info.tag_padding_size, tag.title, frames, chapters)


PROGRAMS = {"mutagen": (by_mutagen, from_mutagen), "eyeD3": (by_eyed3, from_eyed3)}


# ---- what a raise must do

def field_of(data, user, rating):
    """Where the counter of a user's popularimeter begins and ends: it is found by its user and rating, and the one in the chapter has another rating."""
    start = data.index(user.encode("latin-1") + bytes([0, rating]))
    assert data[start - 10:start - 6] == b"POPM" and data[start - 2:start] == b"\0\0"
    bits = 7 if data[3] == 4 else 8
    size = sum(byte << bits * (3 - i) for i, byte in enumerate(data[start - 6:start - 2]))
    return start + len(user) + 2, start + size


def foretold(data, counted, user, amount):
    """The refusal, or 0 and the bytes of the file then."""
    if user not in counted:
        return 41, data
    rating, counter = counted[user]
    start, end = field_of(data, user, rating)
    if counter + amount >= 2 ** 64:
        return 43, data
    if counter + amount >= 256 ** (end - start):
        return 44, data
    return 0, data[:start] + (counter + amount).to_bytes(end - start, "big") + data[end:]


class Raiser:
    """The program, and what is counted."""
    def __init__(self, command, count):
        self.command, self.count = command, count
        self.answers = {}

    def run(self, path, user, amount, options):
        """The exit status, and the words of what was printed without the marks around them."""
        words = ["raise", "--keep-size", "--user", user.encode("latin-1"), "--by", str(amount), *options, path]
        done = subprocess.run(self.command + words, capture_output=True)
        printed = (done.stdout + done.stderr).decode("latin-1")
        return done.returncode, [word.strip("(),:;.") for word in printed.split()]

    def check_raise(self, path, read, user, amount):
        """One raise in place: the answer, the file's bytes, and what the program that wrote it reads, all as foretold. Gives the number of the answer."""
        data, (counted, rest) = content(path), read(path)
        number, then = foretold(data, counted, user, amount)
        self.check_answer(path, user, amount, number, counted[user][1] + amount if number == 0 else number)
        what = f"{os.path.basename(path)}, {user} by {amount}"
        self.count.check(f"{what}: the bytes of the file", content(path) == then, True)
        if number == 0:
            counted = {**counted, user: (counted[user][0], counted[user][1] + amount)}
        self.count.check(f"{what}: as it is read", read(path), (counted, rest))
        shown = popularimeters(listed(self.command + ["list"], path)[1])
        self.count.check(f"{what}: as it is listed", shown, sorted((who, *numbers) for who, numbers in counted.items()))
        return number

    def check_answer(self, path, user, amount, number, said):
        """Raises a file, before that without a change: each time the exit status, and the number that must be said."""
        what, data = f"{os.path.basename(path)}, {user} by {amount}", content(path)
        self.answers[number] = self.answers.get(number, 0) + 1
        dry = self.run(path, user, amount, ["--dry-run"])
        self.count.check(f"{what}: the bytes after a dry run", content(path) == data, True)
        for status, words in (dry, self.run(path, user, amount, [])):
            self.count.check(f"{what}: its status", status, int(number != 0))
            self.count.check(f"{what}: {said} is said", str(said) in words, True)

    def check_cut(self, path, read, user, amount):
        """A tag that the file's end cuts by one byte: of the padding, or of the last frame, which only 2.3 refuses by itself."""
        data, padding = content(path)[:-len(SOUND) - 1], read(path)[1][2]
        with open(path, "wb") as file:
            file.write(data)
        number = 5 if data[3] == 3 and padding == 0 else 40
        self.check_answer(path, user, amount, number, number)
        self.count.check(f"{os.path.basename(path)}: a refused cut", content(path) == data, True)


def content(path):
    """The bytes of a file."""
    with open(path, "rb") as file:
        return file.read()


def compare(raiser, path, read, case):
    """Both users in one order and in the other, one amount in two parts, a user that is not there, and a tag without its last byte."""
    (music, adverts), (first, second) = case.users, case.amounts
    other, parts, cut = copies(path, 3)
    accepted = raiser.check_raise(path, read, music, first) == 0
    if accepted:
        raiser.check_raise(parts, read, music, first // 3)
        raiser.check_raise(parts, read, music, first - first // 3)
        raiser.count.check(f"{path}, one amount in two parts", content(parts) == content(path), True)
    raiser.check_raise(path, read, adverts, second)
    raiser.check_raise(other, read, adverts, second)
    raiser.check_raise(other, read, music, first)
    raiser.count.check(f"{path}, the other order", content(other) == content(path), True)
    raiser.check_raise(path, read, "nobody", first)
    raiser.check_cut(cut, read, music, first)


def copies(path, count):
    """So many copies of a file."""
    return [shutil.copyfile(path, f"{path}.{i}.mp3") for i in range(count)]


# ---- the run

def main():
    there, _ = installed()
    files, raiser = 0, Raiser(sys.argv[1:], Count())
    for name, (write, read) in PROGRAMS.items():
        if name not in there:
            continue
        with tempfile.TemporaryDirectory() as folder:
            for number, case in enumerate(cases()):
                for path in write(os.path.join(folder, f"{name}-{number}"), case):
                    compare(raiser, path, read, case)
                    files += 1
        print(f"{name}: {files} files so far, {raiser.count.compared} comparisons, {raiser.count.different} differences")
    answers = ", ".join(f"{number}: {times}" for number, times in sorted(raiser.answers.items()))
    print(f"{files} files raised and read back; raises by answer, 0 or the refusal: {answers}; "
          f"{raiser.count.compared} comparisons, {raiser.count.different} differences")
    return 1 if raiser.count.different or not files else 0


if __name__ == "__main__":
    sys.exit(main())
