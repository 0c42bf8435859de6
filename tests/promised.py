"""The promises on raising (request f) and on editing (request j), asked of the model: of every case of raises.py and edits.py, and of tags made by chance.

    python3 tests/promised.py           # of 20,000 tags by chance
    python3 tests/promised.py COUNT

Prints how often each promise was asked, and stops where one does not hold. Last it looks for the smallest tag in which two lifts have room in one
order and not in the other.
"""

import sys
from collections import Counter
from dataclasses import replace

import chance
import edits
import model
from edits import APPEND, LIFT, REMOVE, REPLACE
from layout import f2, f3, f4, number, tag as laid
from raises import CASES, answer
from records import chapter, looked_at, shown
from sequences import some_edit

ASKED = Counter()


def holds(promise, condition, *case):
    assert condition, (promise, case)
    ASKED[promise] += 1


def works(tag):
    """Work buffers: none, one that is too short for most, and one that suffices."""
    return bytearray(), bytearray(3), bytearray(len(tag))


def reading(tag, work):
    """The records of a tag, and the refusal or 0."""
    try:
        records, number = model.read_tag(tag, work)
    except model.Refused as refusal:
        return [], refusal.number
    return [record for record, _ in records], number


def is_users(user, record, tag):
    return record.kind == model.POPULARIMETER and model.part(record.name, tag) == user


# ---- one raise


def check_refused(tag, user, amount, k, after):
    """A refused raise leaves the tag as it was; below 40 reading is refused with that number whatever the work buffer, from 41 on it is not refused."""
    holds("refused: the tag stays", after == tag, tag, user, amount)
    for work in works(tag):
        if k < 40:
            holds("refused below 40: as reading is", reading(tag, work)[1] == k, tag, user, amount)
        if k > 40:
            holds("refused above 40: reading is not", reading(tag, work)[1] == 0, tag, user, amount)


def check_accepted(tag, user, amount, counter, after):
    """An accepted raise: the tag reads as before with any work buffer, that one counter replaced by the sum; no byte but the counter's is another."""
    holds("accepted: header and length stay", model.read_header(tag) == model.read_header(after) and len(tag) == len(after), tag, user, amount)
    for work in works(tag):
        (before, refusal), (then, refusal_then) = reading(tag, bytearray(work)), reading(after, bytearray(work))
        holds("accepted: reading is not refused", refusal == refusal_then == 0, tag, user, amount)
        [mine] = [i for i, r in enumerate(before) if is_users(user, r, tag)]
        rating, old = before[mine].numbers
        want = [replace(r, numbers=(rating, old + amount)) if i == mine else r for i, r in enumerate(before)]
        holds("accepted: one record's counter is the sum", then == want and counter == old + amount, tag, user, amount)
        same = all(shown(r, tag) == shown(r, after) for i, r in enumerate(before) if i != mine)
        holds("accepted: the other records have the same bytes", same, tag, user, amount)
        body, length = before[mine].body
        first, last = body + len(user) + 2, body + length
        holds("accepted: no other byte changes", tag[:first] == after[:first] and tag[last:] == after[last:], tag, user, amount)


def check_one(tag, user, amount):
    k, counter, after = answer(tag, user, amount)
    if k:
        check_refused(tag, user, amount, k, after)
    else:
        check_accepted(tag, user, amount, counter, after)


# ---- two raises


def check_two_users(tag, user, amount, other, more):
    """What another user's popularimeters read, and what a raise for it answers, is the same after a raise as before; the order does not matter."""
    k, counter, t = answer(tag, user, amount)
    k2, counter2, both = answer(t, other, more)
    holds("two users: the same answer before and after", answer(tag, other, more)[:2] == (k2, counter2), tag, user, amount, other, more)
    theirs = [[shown(r, x) for r in reading(x, bytearray())[0] if is_users(other, r, x)] for x in (tag, t)]
    holds("two users: the other reads the same", theirs[0] == theirs[1], tag, user, amount, other)
    if k == k2 == 0:
        s = answer(tag, other, more)[2]
        holds("two users: the other order, the same tag", answer(s, user, amount) == (0, counter, both), tag, user, amount, other, more)


def check_sum(tag, user, amount, more):
    """Two raises for one user add up, when both are accepted."""
    k, _, t = answer(tag, user, amount)
    k2, counter, both = answer(t, user, more)
    if k == k2 == 0:
        holds("one user: two raises add up", answer(tag, user, amount + more) == (0, counter, both), tag, user, amount, more)


# ---- tags of the writer


def rewritten(tag, padding):
    """The records of a plain tag that the writer takes, written with mode off."""
    writer, buffer, output = model.Writer(tag[3]), bytearray(len(tag) + 100), bytearray(len(tag) + 100 + padding)
    for record in reading(tag, bytearray())[0]:
        kind, ident, numbers, name, names, rest, deviations = shown(record, tag)
        try:
            writer.add(model.Given(kind, ident, numbers, name, names, rest, deviations), buffer)
        except model.Refused:
            pass
    return writer.finish(padding, buffer, output)


def check_written(tag, user, amount, padding):
    """In a tag written with mode off the one popularimeter of a user is raised whenever the sum fits the bytes that the writer gave its counter."""
    written = rewritten(tag, padding)
    [record] = [r for r in reading(written, bytearray())[0] if is_users(user, r, written)]
    counter = record.numbers[1]
    total, count = counter + amount, len(model.counter_bytes(counter))
    want = (43, 0) if total >= 2**64 else (44, 0) if total >= 256**count else (0, total)
    holds("written with mode off: raised where the sum fits", answer(written, user, amount)[:2] == want, written, user, amount)
    ASKED["written with mode off, edition 2.%d, refusal %d" % (tag[3], want[0])] += 1


# ---- one edit (request j)


def listed(tag, work):
    """What is read of a tag without the places, and the refusal or 0. No record of it is short."""
    records, refusal = reading(tag, work)
    assert refusal or not any(record.short for record in records)
    return [(shown(record, tag), record.compressed) for record in records], refusal


def plain_refusal(tag):
    """What every edit of a tag is refused with, or 0."""
    try:
        model.plain_blocks(tag)
    except model.Refused as refusal:
        return refusal.number
    return 0


def has_compressed(version, run):
    """Whether a run that check 29 lets pass has a compressed subframe at any depth."""
    frames, _ = model.see(version, 2, run)
    return not all(frame.plain for frame in frames)


def written_length(version, record):
    """How many bytes the writer gives a record's frame, or its refusal."""
    writer, buffer = model.Writer(version), bytearray(len(record.rest) + len(record.names) + len(record.name) + 8 * len(record.deviations) + 40)
    try:
        writer.add(record, buffer)
    except model.Refused as refusal:
        return 0, refusal.number
    return writer.used, 0


def wanted_list(records, edit):
    """The list after an accepted edit."""
    word, *words = edit
    if word == APPEND:
        return records + [(looked_at(words[0]), False)]
    if word == REPLACE:
        return records[: words[0]] + [(looked_at(words[1]), False)] + records[words[0] + 1 :]
    return records[: words[0]] + records[words[0] + 1 :]


def wanted_number(tag, edit):
    """The refusal of an edit of a plain tag or 0, from the lengths of its frames and of what the writer writes: 46, adding's, 20."""
    lengths, (word, *words) = [len(block) for block in model.plain_blocks(tag)], edit
    if word != APPEND and words[0] >= len(lengths):
        return 46
    new, refusal = (0, 0) if word == REMOVE else written_length(tag[3], words[-1])
    gone = 0 if word == APPEND else lengths[words[0]]
    return refusal or 20 * (sum(lengths) - gone + new > model.read_header(tag).size)


def check_edit(tag, edit):
    """One replacement, removal or addition."""
    edit = edits.tidy(tag[3] if len(tag) > 3 else 0, edit)
    k, _, after = edits.answer(tag, edit)
    refusal = plain_refusal(tag)
    if k:
        holds("edit refused: the tag stays", after == tag, tag, edit)
    if refusal:
        holds("edit of a tag that is not plain: refused as a raise is", k == refusal == answer(tag, b"", 0)[0], tag, edit)
        return
    holds("edit of a plain tag: 46, adding's, and 20 exactly where the room is too small", k == wanted_number(tag, edit), tag, edit)
    if k == 0:
        check_edited(tag, edit, after)


def check_edited(tag, edit, after):
    """An accepted edit: the tag reads as the old list with that one edit, with any work buffer, and is plain again but for a compressed subframe that was given."""
    size = model.read_header(tag).size
    for work in works(tag):
        before, then = listed(tag, bytearray(work)), listed(after, bytearray(work))
        holds("edit accepted: the old list with that one edit, then the end", then == (wanted_list(before[0], edit), 0), tag, edit)
    holds("edit accepted: header, length and what follows stay", tag[:10] == after[:10] and tag[10 + size :] == after[10 + size :] and len(tag) == len(after), tag, edit)
    record = edit[-1]
    given_odd = edit[0] != REMOVE and record.kind in (model.CHAPTER, model.CONTENTS) and has_compressed(tag[3], record.rest)
    holds("edit accepted: plain again" if not given_odd else "edit accepted: not plain after a compressed subframe", plain_refusal(after) == 40 * given_odd, tag, edit)
    if edit[0] == APPEND and not given_odd:
        back = edits.answer(after, (REMOVE, len(listed(tag, bytearray())[0])))
        holds("removing what was added gives the old tag back", back == (0, 0, tag), tag, edit)


def check_same_again(tag):
    """Each frame of a plain tag replaced by what was read of it: refused with 21, 22 or 29, or the tag reads the same."""
    if plain_refusal(tag):
        return
    for i, record in enumerate(reading(tag, bytearray())[0]):
        k, _, after = edits.answer(tag, (REPLACE, i, model.Given(*shown(record, tag))))
        holds("replaced by what was read: refused %d" % k if k else "replaced by what was read: reads the same", k in (21, 22, 29) or listed(after, bytearray()) == listed(tag, bytearray()), tag, i)


# ---- lifts (request j)


def check_lift(tag, user, amount):
    """As a raise is answered, byte for byte; for 44 the frame grows, or 20."""
    k, counter, after = edits.answer(tag, (LIFT, user, amount))
    raised = answer(tag, user, amount)
    if raised[0] != 44:
        holds("lift: as a raise, where that is not 44", (k, counter, after) == raised, tag, user, amount)
        return
    before = listed(tag, bytearray())[0]
    [mine] = [i for i, (record, _) in enumerate(before) if record[0] == model.POPULARIMETER and record[3] == user]
    kind, ident, (rating, old), *parts = before[mine][0]
    grown = model.Given(kind, ident, (rating, old + amount), name=user)
    holds("lift for 44: as the frame replaced, so 20 or accepted", (k, after) == edits.answer(tag, (REPLACE, mine, grown))[::2] and k in (0, 20), tag, user, amount)
    if k == 0:
        check_edited(tag, (REPLACE, mine, grown), after)
        holds("lift for 44: the counter is the sum", counter == old + amount, tag, user, amount)


def lifts(tag, *steps):
    """Lifts one after the other: the refusals, and the tag then."""
    refusals = []
    for user, amount in steps:
        k, _, tag = edits.answer(tag, (LIFT, user, amount))
        refusals.append(k)
    return refusals, tag


def check_two_lifts(tag, user, amount, other, more):
    """Two users: the other reads the same, and both orders, where accepted, give the same tag."""
    (k, _), t = lifts(tag, (user, amount), (user, 0))
    theirs = [[shown(r, x) for r in reading(x, bytearray())[0] if is_users(other, r, x)] for x in (tag, t)]
    holds("two users, lifts: the other reads the same", theirs[0] == theirs[1], tag, user, amount, other)
    one, two = lifts(tag, (user, amount), (other, more)), lifts(tag, (other, more), (user, amount))
    if not any(one[0]) and not any(two[0]):
        holds("two users, lifts: accepted in both orders, the same tag", one[1] == two[1], tag, user, amount, other, more)
    elif not any(one[0]) or not any(two[0]):
        holds("two users, lifts: one order lacks room, in 2.4 only", tag[3] == 4 and 20 in one[0] + two[0], tag, user, amount, other, more)
    for numbers in (set(one[0]), set(two[0])):
        without = {answer(tag, user, amount)[0], answer(tag, other, more)[0]}
        holds("two users, lifts: no other refusals than before", numbers <= without | {0, 20}, tag, user, amount, other, more)


def check_lift_sum(tag, user, amount, more):
    """One user: two lifts are accepted exactly where one by the sum is, and give the same tag."""
    if amount + more < 2**64:
        refusals, both = lifts(tag, (user, amount), (user, more))
        k, _, once = edits.answer(tag, (LIFT, user, amount + more))
        holds("one user: two lifts are one by the sum", (not any(refusals)) == (k == 0) and (k != 0 or both == once), tag, user, amount, more)


def check_written_lift(tag, user, amount, padding):
    """In a tag written with mode off a lift is accepted whenever the padding has the bytes by which the counter grows."""
    written = rewritten(tag, padding)
    [record] = [r for r in reading(written, bytearray())[0] if is_users(user, r, written)]
    total = record.numbers[1] + amount
    by = len(model.counter_bytes(total)) - len(model.counter_bytes(record.numbers[1]))
    want = 43 if total >= 2**64 else 20 * (by > padding)
    holds("written with mode off: lifted where the padding suffices, edition 2.%d, refusal %d" % (tag[3], want), edits.answer(written, (LIFT, user, amount))[0] == want, written, user, amount)


# ---- bodies as long as 2.2 has them


def check_longest():
    """A 2.2 body of 16,777,215 bytes is written, and one byte more is refused (23), room or not: so is a lift by which a popularimeter would grow to that."""
    longest, user = 2**24 - 1, b"u" * (2**24 - 4)
    for count, k in ((longest, 0), (longest + 1, 23)):
        for padding in (0, longest + 7):
            tag = laid(2, b"", 0, None, padding)
            wanted = k or 20 * (padding == 0)
            holds("2.2, the longest body: added, 20 or 23", edits.answer(tag, (APPEND, model.Given(model.RAW, b"XYZ", rest=bytes(count))))[0] == wanted, count, padding)
    tag = laid(2, f2(b"POP", user + b"\0\5\xFF"), 0, None, 100)
    holds("2.2, the longest body: a lift that would grow it is 23", edits.answer(tag, (LIFT, user, 1))[0] == 23)
    holds("2.2, the longest body: lifted in its bytes", edits.answer(tag, (LIFT, user, 0))[0] == 0)


# ---- the smallest tag of which only one order of two lifts has room


def narrow_tags(version):
    """Tags with two popularimeters, the smallest first: short users, counters of few bytes, with data lengths and without, and little padding."""
    lay, ident = {2: f2, 3: f3, 4: f4}[version], b"POP" if version == 2 else b"POPM"
    frames = []
    for user in (b"", b"b"):
        bodies = [user + b"\0\5" + octets for octets in (b"", b"\xFF", b"\0\xFF")]
        frames.append([lay(ident, body) for body in bodies] + [f4(ident, number(len(body)) + body, 0x0001) for body in bodies if version == 4])
    tags = [laid(version, a + b, 0, None, padding) for one in frames for other in frames if one is not other for a in one for b in other for padding in range(6)]
    return sorted(tags, key=len)


def one_order_only(tag):
    """Amounts for the two users with which one order is accepted and the other is not, or none."""
    for amount in (1, 256):
        for more in (1, 256):
            if any(lifts(tag, (b"", amount), (b"b", more))[0]) != any(lifts(tag, (b"b", more), (b"", amount))[0]):
                return amount, more
    return None


def smallest_of_one_order(version):
    return next(((tag, one_order_only(tag)) for tag in narrow_tags(version) if one_order_only(tag)), None)


# ---- the run


def check_by_chance(seed):
    c = chance.Chance(seed)
    tag, user, amount = chance.some_tag(c), chance.some_user(c), chance.some_amount(c)
    other, more = chance.some_user(c), chance.some_amount(c)
    check_one(tag, user, amount)
    check_sum(tag, user, amount, more)
    if other != user:
        check_two_users(tag, user, amount, other, more)
    if answer(tag, user, 0)[0] == 0:
        padding = c.below(20)
        check_written(tag, user, amount, padding)
        check_written_lift(tag, user, amount, padding)
    check_edits_by_chance(c, tag, user, amount, other, more)


def check_edits_by_chance(c, tag, user, amount, other, more):
    version = tag[3] if len(tag) > 3 and tag[3] in (2, 3, 4) else 4
    check_same_again(tag)
    for _ in range(3):
        edit, _ = some_edit(c, version, 2)
        if edit[0] != LIFT:
            check_edit(tag, edit)
    # runs of any kind, now and then with a compressed subframe
    c.calm = False
    record = chapter(b"CHAP", "63", chance.run(c, max(version, 3), 1))
    check_edit(tag, (APPEND, record))
    check_edit(tag, (REPLACE, 0, record))
    check_lift(tag, user, amount)
    check_lift_sum(tag, user, amount, more)
    if other != user:
        check_two_lifts(tag, user, amount, other, more)


def check_stated_edits():
    """Every edit of edits.py, on the tag that it finds."""
    for _, tag, steps in edits.CASES:
        for edit, _ in steps:
            if edit[0] == LIFT:
                check_lift(tag, *edit[1:])
                check_lift_sum(tag, *edit[1:], 1)
                check_two_lifts(tag, *edit[1:], edit[1] + b"b", 1)
            else:
                check_edit(tag, edit)
            check_same_again(tag)
            tag = edits.answer(tag, edit)[2]


def main():
    count = int(sys.argv[1]) if len(sys.argv) > 1 else 20_000
    for _, tag, user, amount, *_ in CASES:
        check_one(tag, user, amount)
        check_sum(tag, user, amount, 1)
        check_two_users(tag, user, amount, user + b"b", 1)
    check_stated_edits()
    check_longest()
    for seed in range(count):
        check_by_chance(seed)
    for promise, times in sorted(ASKED.items()):
        print("%7d  %s" % (times, promise))
    for version in (2, 3, 4):
        found = smallest_of_one_order(version)
        print("2.%d, one order of two lifts lacks room: %s" % (version, "%s by %d and %d" % (found[0].hex(), *found[1]) if found else "not found"))


if __name__ == "__main__":
    main()
