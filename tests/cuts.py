"""The promise on an upload that stopped (request m), asked of the model: every cut of tags written from records made by chance.

    python3 tests/cuts.py           # of 100 lists in each edition and mode
    python3 tests/cuts.py COUNT

Prints how often each way to end was met, and stops where the promise does not hold. Makes no file.
"""

import sys
from collections import Counter

import chance
import model
from records import looked_at, shown
from sequences import some_record

ENDED = Counter()


def some_list(c, version, mode):
    """Up to five accepted records, the places where their frames end in the tag, and the tag with some padding."""
    writer, buffer, output = model.Writer(version, mode), bytearray(4096), bytearray(10_000)
    records, reaches = [], []
    for _ in range(c.below(6)):
        record, refusal = some_record(c, version)
        if refusal == 0:
            writer.add(record, buffer)
            records.append(record)
            reaches.append(len(writer.finish(0, buffer, output)))
    return records, reaches, bytes(writer.finish(c.below(8), buffer, output))


def reading(tag, work):
    """The records read, each in the words of one given and with its mark, and the refusal or 0."""
    _, (source, begin, end, in_work) = model.open_tag(tag, work)
    room, at, read = bytearray() if in_work else work, begin, []
    try:
        while (step := model.frame_at(room, source, tag[3], in_work, begin, at, end)) is not None:
            record, at = step
            read.append((shown(record, work if record.in_work else tag), record.short))
    except model.Refused as refusal:
        return read, refusal.number
    return read, 0


def check_cut(version, records, reaches, tag, n):
    """The first k records and no other are read whole, and then comes at most the next one short, or a refusal, which is never 14."""
    k = sum(reach <= n for reach in reaches)
    read, number = reading(tag[:n], bytearray(n - 10))
    wanted = [(looked_at(record), False) for record in records[:k]]
    shorts = [short for _, short in read[k:]]
    assert read[:k] == wanted and shorts in ([], [True]), (tag.hex(), n)
    assert not shorts or read[k][0][:2] == (records[k].kind, records[k].id), (tag.hex(), n)
    assert not (shorts and number) and number != 14, (tag.hex(), n)
    assert version != 3 or (not shorts and number in (0, 5)), (tag.hex(), n)
    if k == len(records):
        assert not shorts and number == 0, (tag.hex(), n)
    ENDED["2.%d: %s" % (version, "a short frame" if shorts else "refused %d" % number if number else "the end")] += 1


def main():
    count = int(sys.argv[1]) if len(sys.argv) > 1 else 100
    for version in (2, 3, 4):
        for mode in (0, 1, 2):
            for seed in range(count):
                records, reaches, tag = some_list(chance.Chance(1000 * version + 100_000 * mode + seed), version, mode)
                for n in range(10, len(tag) + 1):
                    check_cut(version, records, reaches, tag, n)
    for ended, times in sorted(ENDED.items()):
        print("%7d  %s" % (times, ended))


if __name__ == "__main__":
    main()
