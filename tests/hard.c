/*
 * Hard use of the C interface, for valgrind and sanitizers: every buffer is a block of its own, as long as it is said to be,
 * so that a read or a write outside it is seen.
 *
 *     tools/library
 *     cc -std=c99 -g -Iinclude tests/hard.c target/staticlib/libcapi.a -o hard
 *     valgrind --error-exitcode=1 ./hard 100000
 *
 * The numbers are the same in each run. Exit status: 0 every answer was one that the function may give, 1 another was met
 * or a refused change in place changed something, 2 there was no memory. rust/tests/hard checks far more of each answer.
 */
#include "streamvault.h"

#include <inttypes.h>
#include <stdio.h>
#include <stdlib.h>
#include <string.h>

/* ---- numbers */

static uint64_t state;

/* Any number: splitmix64. */
static uint64_t any(void)
{
    uint64_t z = state += 0x9E3779B97F4A7C15u;
    z = (z ^ (z >> 30)) * 0xBF58476D1CE4E5B9u;
    z = (z ^ (z >> 27)) * 0x94D049BB133111EBu;
    return z ^ (z >> 31);
}

static size_t below(size_t limit)
{
    return (size_t)(any() % limit);
}

/* A byte; those that the format treats in a special way come often. */
static uint8_t byte(void)
{
    static const uint8_t special[] = {0x00, 0xFF, 0xE0, 0xDF, 0x01, 0x02, 0x7F, 0x80};
    return below(2) ? special[below(sizeof special)] : (uint8_t)any();
}

/* A word that is likely to be at some border. */
static uint64_t word(void)
{
    static const uint64_t borders[] = {255, 256, 65536, 0xFFFFFFFF, 0x100000000, 0x8000000000000000, 0xFFFFFFFFFFFFFFFF};
    switch (below(4)) {
    case 0: return below(8);
    case 1: return borders[below(sizeof borders / sizeof *borders)];
    case 2: return below(200);
    default: return any();
    }
}

/* ---- buffers */

static void *block(size_t size)
{
    void *made = malloc(size);
    if (made == NULL && size > 0)
        exit(2);
    return made;
}

static uint8_t *bytes(size_t len)
{
    uint8_t *made = block(len);
    for (size_t i = 0; i < len; i++)
        made[i] = byte();
    return made;
}

static uint8_t *copy(const uint8_t *from, size_t len)
{
    uint8_t *made = block(len);
    if (len > 0)
        memcpy(made, from, len);
    return made;
}

/* So many words; now and then one less. */
static uint64_t *words(size_t wanted, size_t *len)
{
    *len = below(12) ? wanted : wanted - 1;
    uint64_t *made = block(*len * sizeof *made);
    for (size_t i = 0; i < *len; i++)
        made[i] = word();
    return made;
}

/* Puts a number into a word, mostly, if the word is there. */
static void mostly(uint64_t *made, size_t len, size_t place, uint64_t number)
{
    if (place < len && below(10))
        made[place] = number;
}

/* ---- tags */

static const char *const ids[] = {"TIT2", "POPM", "MLLT", "CHAP", "CTOC", "PRIV", "TXXX"};

/* A frame of 2.3 or 2.4, with any flags, at the front of some room; answers its length. */
static size_t put_frame(uint8_t *at, size_t room)
{
    static const uint8_t flags[] = {0, 0, 0, 0, 1, 2, 2, 8, 0x80, 0x40};
    size_t body = below(40);
    if (room < 10 + body)
        return 0;
    memcpy(at, ids[below(sizeof ids / sizeof *ids)], 4);
    memset(at + 4, 0, 6);
    at[7] = (uint8_t)(below(10) ? body : below(100));
    at[9] = flags[below(sizeof flags)];
    for (size_t i = 0; i < body; i++)
        at[10 + i] = byte();
    if (body > 18 && below(2))
        memset(at + 10, 0, 18);
    return 10 + body;
}

/* Puts the header of a tag that ends there, now and then damages it or cuts it, and answers it in a block of its own. */
static uint8_t *made_tag(uint8_t *room, size_t end, uint8_t flags, size_t *len)
{
    memcpy(room, "ID3", 3);
    room[3] = (uint8_t)(2 + below(3));
    room[5] = flags;
    room[8] = (uint8_t)((end - 10) >> 7);
    room[9] = (uint8_t)((end - 10) & 0x7F);
    for (size_t damaged = below(3); damaged > 0; damaged--)
        room[below(end)] = byte();
    *len = below(4) ? end : below(end + 1);
    return copy(room, *len);
}

/* A tag whose header is mostly right. */
static uint8_t *some_tag(size_t *len)
{
    static const uint8_t flags[] = {0, 0, 0, 0x80, 0x80, 0x40, 0x01};
    uint8_t room[512] = {0};
    size_t end = 10;
    for (size_t frames = below(5); frames > 0; frames--)
        end += put_frame(room + end, sizeof room - end);
    end += below(12);
    return made_tag(room, end, flags[below(sizeof flags)], len);
}

/* A tag of popularimeters alone, of a few users, with counters of up to twelve bytes. */
static uint8_t *counted_tag(size_t *len)
{
    uint8_t room[128] = {0};
    size_t end = 10;
    for (size_t frames = below(4); frames > 0; frames--) {
        size_t count = below(13);
        memcpy(room + end, "POPM", 4);
        room[end + 7] = (uint8_t)(3 + count);
        room[end + 10] = (uint8_t)('a' + below(4));
        for (size_t i = count > 8 ? count - 8 : 0; i < count; i++)
            room[end + 13 + i] = byte();
        end += 13 + count;
    }
    end += below(12);
    return made_tag(room, end, 0, len);
}

/* The user of the first popularimeter in a tag, mostly; else some bytes. */
static uint8_t *some_user(const uint8_t *tag, size_t tag_len, size_t *len)
{
    size_t at = 0;
    while (at + 10 < tag_len && memcmp(tag + at, "POPM", 4) != 0)
        at++;
    if (at + 10 >= tag_len || below(10) == 0)
        return bytes(*len = below(4));
    const uint8_t *user = tag + at + 10;
    const uint8_t *zero = memchr(user, 0, tag_len - at - 10);
    *len = zero == NULL ? tag_len - at - 10 : (size_t)(zero - user);
    return copy(user, *len);
}

/* ---- calls */

/* Whether an answer is a refusal number, 0 or the end. */
static void check(const char *name, uint32_t answer, uint64_t kept)
{
    int known = answer <= 14 || (20 <= answer && answer <= 35) || (40 <= answer && answer <= 44) || answer == 46 || answer == SV_END || answer == kept;
    if (!known) {
        printf("%s answered %" PRIu32 "\n", name, answer);
        exit(1);
    }
}

static void reading(void)
{
    size_t tag_len, header_len, reader_len, record_len, work_len = below(400);
    uint8_t *tag = some_tag(&tag_len);
    uint8_t *work = bytes(work_len);
    uint64_t *header = words(SV_HEADER_WORDS, &header_len);
    uint64_t *reader = words(SV_READER_WORDS, &reader_len);
    uint64_t *record = words(SV_RECORD_WORDS, &record_len);
    check("sv_header", sv_header(tag, tag_len, header, header_len), 0);
    uint32_t answer = sv_open(tag, tag_len, work, work_len, reader, reader_len);
    check("sv_open", answer, 0);
    for (size_t steps = tag_len / 6 + 1; answer == 0 && steps > 0; steps--) {
        answer = sv_step(tag, tag_len, work, work_len, reader, reader_len, record, record_len);
        check("sv_step", answer, 0);
    }
    free(tag);
    free(work);
    free(header);
    free(reader);
    free(record);
}

/* A step of a reader whose words no opening left. */
static void stepping(void)
{
    size_t tag_len, reader_len, record_len, work_len = below(100);
    uint8_t *tag = some_tag(&tag_len);
    uint8_t *work = bytes(work_len);
    uint64_t *reader = words(SV_READER_WORDS, &reader_len);
    uint64_t *record = words(SV_RECORD_WORDS, &record_len);
    mostly(reader, reader_len, SV_READER_VERSION, 2 + below(3));
    mostly(reader, reader_len, SV_READER_IN_WORK, below(2));
    mostly(reader, reader_len, SV_READER_AT, below(30));
    mostly(reader, reader_len, SV_READER_STOP, SV_STOP_RUNNING);
    mostly(reader, reader_len, SV_READER_NUMBER, 0);
    uint64_t kept = reader_len > SV_READER_NUMBER ? reader[SV_READER_NUMBER] : 0;
    check("sv_step", sv_step(tag, tag_len, work, work_len, reader, reader_len, record, record_len), kept);
    free(tag);
    free(work);
    free(reader);
    free(record);
}

/* Opens a tag for its counters and goes to its end; or goes on from words that no opening left. */
static void metering(void)
{
    size_t tag_len, meter_len, metered_len, work_len = below(400);
    uint8_t *tag = some_tag(&tag_len);
    uint8_t *work = bytes(work_len);
    uint64_t *meter = words(SV_METER_WORDS, &meter_len);
    uint64_t *metered = words(SV_METERED_WORDS, &metered_len);
    uint32_t answer = 0;
    uint64_t kept = 0;
    if (below(2)) {
        answer = sv_meter_open(tag, tag_len, work, work_len, meter, meter_len);
        check("sv_meter_open", answer, 0);
    } else {
        mostly(meter, meter_len, SV_METER_VERSION, 2 + below(3));
        mostly(meter, meter_len, SV_METER_IN_WORK, below(2));
        mostly(meter, meter_len, SV_METER_AT, below(30));
        mostly(meter, meter_len, SV_METER_STOP, SV_STOP_RUNNING);
        mostly(meter, meter_len, SV_METER_NUMBER, 0);
        for (size_t i = SV_METER_SHORT; i < SV_METER_WORDS; i++)
            mostly(meter, meter_len, i, below(2));
        kept = meter_len > SV_METER_NUMBER ? meter[SV_METER_NUMBER] : 0;
    }
    for (size_t calls = tag_len / 6 + 1; answer == 0 && calls > 0; calls--) {
        answer = sv_meter_next(tag, tag_len, work, work_len, meter, meter_len, metered, metered_len);
        check("sv_meter_next", answer, kept);
    }
    free(tag);
    free(work);
    free(meter);
    free(metered);
}

static void writing(void)
{
    size_t writer_len, record_len, count_len, lens[5];
    uint64_t *writer = words(SV_WRITER_WORDS, &writer_len);
    uint64_t *record = words(SV_RECORD_WORDS, &record_len);
    uint64_t *count = words(SV_COUNT_WORDS, &count_len);
    uint8_t *parts[5];
    for (size_t i = 0; i < 5; i++)
        parts[i] = bytes(lens[i] = below(i < 3 ? 20 : 200));
    size_t deviations_len = below(8);
    uint32_t *deviations = block(deviations_len * sizeof *deviations);
    for (size_t i = 0; i < deviations_len; i++)
        deviations[i] = (uint32_t)word();
    check("sv_begin", sv_begin(2 + below(4), below(4), below(3), writer, writer_len), 0);
    check("sv_begin_plain", sv_begin_plain(2 + below(4), writer, writer_len), 0);
    mostly(writer, writer_len, SV_WRITER_VERSION, 2 + below(3));
    mostly(writer, writer_len, SV_WRITER_MODE, below(3));
    mostly(writer, writer_len, SV_WRITER_ALTERED, below(2));
    mostly(writer, writer_len, SV_WRITER_USED, below(100));
    const char *id = ids[below(sizeof ids / sizeof *ids)];
    mostly(record, record_len, SV_RECORD_KIND, below(6));
    mostly(record, record_len, SV_RECORD_ID, (uint64_t)id[0] << 24 | (uint64_t)id[1] << 16 | (uint64_t)id[2] << 8 | (uint64_t)id[3]);
    for (size_t i = SV_RECORD_SHORT; i < SV_RECORD_AT; i++)
        mostly(record, record_len, i, i < SV_TEXT_ENCODING ? 0 : below(4));
    check("sv_add",
          sv_add(record, record_len, parts[0], lens[0], parts[1], lens[1], parts[2], lens[2], deviations, deviations_len,
                 parts[3], lens[3], writer, writer_len, count, count_len),
          0);
    check("sv_finish",
          sv_finish(below(8) ? below(20) : word(), parts[3], lens[3], parts[4], lens[4], writer, writer_len, count, count_len),
          0);
    check("sv_references",
          sv_references(record, record_len, parts[2], lens[2], deviations, deviations_len, count, count_len), 0);
    for (size_t i = 0; i < 5; i++)
        free(parts[i]);
    free(writer);
    free(record);
    free(count);
    free(deviations);
}

/* Ends the program where a refused call changed its tag or something else. */
static void check_same(const char *name, uint32_t answer, const uint8_t *tag, const uint8_t *before, size_t len, int others)
{
    check(name, answer, 0);
    if (answer != 0 && !((len == 0 || memcmp(tag, before, len) == 0) && others)) {
        printf("%s answered %" PRIu32 " and changed something\n", name, answer);
        exit(1);
    }
}

/* Raises or lifts a counter. Refused, the tag and the word are as before. */
static void raising(void)
{
    size_t tag_len, user_len, counter_len;
    uint8_t *tag = below(2) ? some_tag(&tag_len) : counted_tag(&tag_len);
    uint8_t *before = copy(tag, tag_len);
    uint8_t *user = some_user(tag, tag_len, &user_len);
    uint64_t *counter = words(SV_COUNTER_WORDS, &counter_len);
    uint64_t was = counter_len > 0 ? counter[0] : 0, amount = below(2) ? below(3) : word();
    int lifts = (int)below(2);
    uint32_t answer = lifts ? sv_lift(tag, tag_len, user, user_len, amount, counter, counter_len)
                            : sv_raise(tag, tag_len, user, user_len, amount, counter, counter_len);
    check_same(lifts ? "sv_lift" : "sv_raise", answer, tag, before, tag_len, counter_len == 0 || counter[0] == was);
    free(tag);
    free(before);
    free(user);
    free(counter);
}

/* Replaces, removes or appends a frame. Refused, the tag is as before. */
static void editing(void)
{
    size_t tag_len, record_len, lens[3], deviations_len = below(8);
    uint8_t *tag = below(2) ? some_tag(&tag_len) : counted_tag(&tag_len);
    uint8_t *before = copy(tag, tag_len), *parts[3];
    uint64_t *record = words(SV_RECORD_WORDS, &record_len), number = below(4) ? below(3) : word();
    for (size_t i = 0; i < 3; i++)
        parts[i] = bytes(lens[i] = below(12));
    uint32_t *deviations = block(deviations_len * sizeof *deviations);
    for (size_t i = 0; i < deviations_len; i++)
        deviations[i] = (uint32_t)word();
    mostly(record, record_len, SV_RECORD_KIND, below(6));
    mostly(record, record_len, SV_RECORD_ID, sv_id(ids[below(sizeof ids / sizeof *ids)]));
    for (size_t i = SV_RECORD_SHORT; i < SV_RECORD_AT; i++)
        mostly(record, record_len, i, i < SV_TEXT_ENCODING ? 0 : below(4));
    check_same("sv_replace",
               sv_replace(tag, tag_len, number, record, record_len, parts[0], lens[0], parts[1], lens[1], parts[2], lens[2],
                          deviations, deviations_len),
               tag, before, tag_len, 1);
    if (tag_len > 0)
        memcpy(before, tag, tag_len);
    check_same("sv_append",
               sv_append(tag, tag_len, record, record_len, parts[0], lens[0], parts[1], lens[1], parts[2], lens[2], deviations,
                         deviations_len),
               tag, before, tag_len, 1);
    if (tag_len > 0)
        memcpy(before, tag, tag_len);
    check_same("sv_remove", sv_remove(tag, tag_len, number), tag, before, tag_len, 1);
    for (size_t i = 0; i < 3; i++)
        free(parts[i]);
    free(tag);
    free(before);
    free(record);
    free(deviations);
}

int main(int argc, char **argv)
{
    unsigned long cases = argc > 1 ? strtoul(argv[1], NULL, 10) : 10000;
    for (unsigned long i = 0; i < cases; i++) {
        state = (uint64_t)i * 0x1000000001B3u;
        reading();
        stepping();
        metering();
        writing();
        raising();
        editing();
    }
    printf("%lu cases, every answer known\n", cases);
    return 0;
}
