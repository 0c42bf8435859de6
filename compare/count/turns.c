/*
 * Goes through tags that a box leaves, each from opening to the end, by the meter or by a reader's steps, or changes each in place (the ways are named below),
 * with 64 bytes of padding or so many, and without a picture or with one of so many bytes; or reads 2.4 tags with a counter of so many bytes, zeros but for the
 * last, by the meter; or adds a 2.4 frame with a raw body of 1 MiB; or has the C library move or clear bytes: a loop whose instructions are counted. The tags
 * are laid out before it, as many in every run of the same words.
 *
 *     turns WAY EDITION MODE TURNS [PADDING [PICTURE]]
 *     turns counter meter BYTES TURNS
 *     turns add clean|random|dense MODE TURNS
 *     turns bytes up|down|clear BYTES TURNS
 */
#include "streamvault.h"

#include <stdlib.h>
#include <string.h>

/* The counter has three bytes; the least that takes four, and the most that takes two. Tags begin at pages, and so many are laid out where they fit. */
enum { COUNTER = 977000, FOUR_BYTES = 1 << 24, TWO_BYTES = (1 << 16) - 1, PAGE = 4096, MOST = 1100 };

static uint8_t frames[1 << 17], body[1 << 20], pattern[2 * sizeof body], work[sizeof pattern], stored[2 * sizeof body + 10];
static uint8_t tags[1 << 24] __attribute__((aligned(PAGE)));
static sv_given given;

/* Adds a frame; its id by its letters, in 2.2 three of them. */
static void add(uint64_t *writer, uint64_t kind, const char *letters, const char *name, const uint8_t *rest, size_t rest_len, uint64_t counter)
{
    uint64_t record[SV_RECORD_WORDS] = {kind}, count[SV_COUNT_WORDS];
    for (; *letters != 0; letters++)
        record[SV_RECORD_ID] = record[SV_RECORD_ID] << 8 | (uint8_t)*letters;
    if (kind == SV_KIND_POPULARIMETER)
        record[SV_POPULARIMETER_COUNTER] = counter;
    if (sv_add(record, SV_RECORD_WORDS, (const uint8_t *)name, strlen(name), NULL, 0, rest, rest_len, NULL, 0, frames, sizeof frames, writer,
               SV_WRITER_WORDS, count, SV_COUNT_WORDS) != 0)
        abort();
}

/* Two texts, a popularimeter, a picture of so many bytes if any, 200 private bytes, padding; answers its length. It lies in `pattern`. */
static size_t box_tag(uint64_t edition, uint64_t mode, uint64_t padding, size_t picture)
{
    static const uint8_t title[] = "A song of some length", artist[] = "Somebody";
    uint64_t writer[SV_WRITER_WORDS], count[SV_COUNT_WORDS];
    uint8_t private[200] = "owner";
    int old = edition == 2;
    memset(private + 6, 7, sizeof private - 6);
    if (sv_begin(edition, mode, 0, writer, SV_WRITER_WORDS) != 0)
        abort();
    add(writer, SV_KIND_TEXT, old ? "TT2" : "TIT2", "", title, sizeof title - 1, 0);
    add(writer, SV_KIND_TEXT, old ? "TP1" : "TPE1", "", artist, sizeof artist - 1, 0);
    add(writer, SV_KIND_POPULARIMETER, old ? "POP" : "POPM", "room 7", NULL, 0, COUNTER);
    if (picture > 0)
        add(writer, SV_KIND_RAW, old ? "PIC" : "APIC", "", body, picture, 0);
    add(writer, SV_KIND_RAW, old ? "UFI" : "PRIV", "", private, sizeof private, 0);
    if (sv_finish(padding, frames, sizeof frames, pattern, sizeof pattern, writer, SV_WRITER_WORDS, count, SV_COUNT_WORDS) != 0)
        abort();
    return (size_t)count[0];
}

/* A 2.4 tag with one popularimeter, whose counter has so many bytes; answers its length. */
static size_t long_tag(size_t bytes)
{
    static const uint8_t before[] = {'I', 'D', '3', 4, 0, 0, 0, 0, 0, 0, 'P', 'O', 'P', 'M', 0, 0, 0, 0, 0, 0, 0, 5};
    size_t content = bytes + 2, len = sizeof before + bytes;
    if (bytes < 3 || len > sizeof pattern)
        abort();
    memcpy(pattern, before, sizeof before);
    for (int i = 0; i < 4; i++) {
        pattern[6 + i] = (uint8_t)((content + 10) >> (21 - 7 * i) & 0x7F);
        pattern[14 + i] = (uint8_t)(content >> (21 - 7 * i) & 0x7F);
    }
    for (int i = 0; i < 3; i++)
        pattern[len - 1 - i] = (uint8_t)(COUNTER >> (8 * i));
    return len;
}

static uint64_t by_meter(uint8_t *tag, size_t len)
{
    uint64_t meter[SV_METER_WORDS], metered[SV_METERED_WORDS], sum = 0;
    uint32_t answer = sv_meter_open(tag, len, work, len, meter, SV_METER_WORDS);
    while (answer == 0) {
        answer = sv_meter_next(tag, len, work, len, meter, SV_METER_WORDS, metered, SV_METERED_WORDS);
        if (answer == 0)
            sum += metered[SV_METERED_COUNTER];
    }
    return sum;
}

static uint64_t by_steps(uint8_t *tag, size_t len)
{
    uint64_t reader[SV_READER_WORDS], record[SV_RECORD_WORDS], sum = 0;
    uint32_t answer = sv_open(tag, len, work, len, reader, SV_READER_WORDS);
    while (answer == 0) {
        answer = sv_step(tag, len, work, len, reader, SV_READER_WORDS, record, SV_RECORD_WORDS);
        if (answer == 0 && record[SV_RECORD_KIND] == SV_KIND_POPULARIMETER)
            sum += record[SV_POPULARIMETER_COUNTER];
    }
    return sum;
}

/* Changes that answer the new counter. */

static const uint8_t user[] = "room 7";

static uint64_t by_raising(uint8_t *tag, size_t len)
{
    uint64_t counter[SV_COUNTER_WORDS];
    return sv_raise(tag, len, user, sizeof user - 1, 1, counter, SV_COUNTER_WORDS) == 0 ? counter[0] : 0;
}

static uint64_t by_lifting(uint8_t *tag, size_t len)
{
    uint64_t counter[SV_COUNTER_WORDS];
    return sv_lift(tag, len, user, sizeof user - 1, 1, counter, SV_COUNTER_WORDS) == 0 ? counter[0] : 0;
}

static uint64_t by_outgrowing(uint8_t *tag, size_t len)
{
    uint64_t counter[SV_COUNTER_WORDS];
    return sv_lift(tag, len, user, sizeof user - 1, FOUR_BYTES, counter, SV_COUNTER_WORDS) == 0 ? counter[0] : 0;
}

/* Changes of a frame, which answer 0. The popularimeter is number 2, and what follows it, the picture if there is one, is number 3. */

static uint64_t by_replacing(uint8_t *tag, size_t len)
{
    return sv_replace_given(tag, len, 2, &given);
}

static uint64_t by_appending(uint8_t *tag, size_t len)
{
    return sv_append_given(tag, len, &given);
}

static uint64_t by_removing(uint8_t *tag, size_t len)
{
    return sv_remove(tag, len, 2);
}

static uint64_t by_freeing(uint8_t *tag, size_t len)
{
    return sv_remove(tag, len, 3);
}

/* What a turn does, what it answers, the counter that is put, if one is, and the counters' sum then. */
static const struct way {
    const char *name;
    uint64_t (*turn)(uint8_t *tag, size_t len);
    uint64_t answer, put, sum;
} ways[] = {
    {"meter", by_meter, COUNTER, 0, COUNTER},
    {"counter", by_meter, COUNTER, 0, COUNTER},
    {"steps", by_steps, COUNTER, 0, COUNTER},
    {"raise", by_raising, COUNTER + 1, 0, COUNTER + 1},
    {"lift", by_lifting, COUNTER + 1, 0, COUNTER + 1},
    {"lift-longer", by_outgrowing, COUNTER + FOUR_BYTES, 0, COUNTER + FOUR_BYTES},
    {"replace-equal", by_replacing, 0, COUNTER + 1, COUNTER + 1},
    {"replace-longer", by_replacing, 0, FOUR_BYTES, FOUR_BYTES},
    {"replace-shorter", by_replacing, 0, TWO_BYTES, TWO_BYTES},
    {"remove", by_removing, 0, 0, 0},
    {"remove-next", by_freeing, 0, 0, COUNTER},
    {"append", by_appending, 0, 0, COUNTER},
};

/* What replacing and appending put: a popularimeter with this counter, or without one a text. */
static void give(uint64_t edition, uint64_t counter)
{
    static const uint8_t album[] = "An album";
    int old = edition == 2;
    if (counter > 0) {
        given = sv_given_of(SV_KIND_POPULARIMETER, old ? "POP" : "POPM");
        given.record[SV_POPULARIMETER_COUNTER] = counter;
        given.name = user;
        given.name_len = sizeof user - 1;
    } else {
        given = sv_given_of(SV_KIND_TEXT, old ? "TAL" : "TALB");
        given.rest = album;
        given.rest_len = sizeof album - 1;
    }
}

/* As many turns, each with a tag of its own; whether each answered what it should, and the tag then reads so. */
static int by_way(const struct way *way, uint64_t turns, size_t len)
{
    size_t step = (len + PAGE - 1) / PAGE * PAGE, most = sizeof tags / step < MOST ? sizeof tags / step : MOST;
    uint64_t sum = 0;
    if (turns > most)
        return 2;
    for (size_t i = 0; i < most; i++)
        memcpy(tags + i * step, pattern, len);
    for (uint64_t i = 0; i < turns; i++)
        sum += way->turn(tags + i * step, len);
    return sum == turns * way->answer && by_steps(tags, len) == way->sum ? 0 : 1;
}

/* Has the C library move so many bytes up by one or down by 21, or clear them. */
static int by_library(const char *what, size_t bytes, uint64_t turns)
{
    if (bytes + 21 > sizeof body)
        return 2;
    for (uint64_t i = 0; i < turns; i++) {
        if (strcmp(what, "up") == 0)
            memmove(body + 1, body, bytes);
        else if (strcmp(what, "down") == 0)
            memmove(body, body + 21, bytes);
        else
            memset(body, 0, bytes);
    }
    return 0;
}

/* A body without an FF, one with every byte equally often, or FF E0 FF 00 over and over. */
static void fill(const char *kind)
{
    static const uint8_t dense[] = {0xFF, 0xE0, 0xFF, 0x00};
    uint64_t state = 1;
    for (size_t i = 0; i < sizeof body; i++) {
        state = state * 6364136223846793005 + 1442695040888963407;
        body[i] = strcmp(kind, "clean") == 0 ? (uint8_t)(i % 251) : strcmp(kind, "random") == 0 ? (uint8_t)(state >> 56) : dense[i % 4];
    }
}

static int by_adding(const char *kind, uint64_t mode, uint64_t turns)
{
    uint64_t record[SV_RECORD_WORDS] = {SV_KIND_RAW}, count[SV_COUNT_WORDS];
    record[SV_RECORD_ID] = 0x50524956; /* PRIV */
    fill(kind);
    for (uint64_t i = 0; i < turns; i++) {
        uint64_t writer[SV_WRITER_WORDS];
        if (sv_begin(4, mode, 0, writer, SV_WRITER_WORDS) != 0)
            return 1;
        if (sv_add(record, SV_RECORD_WORDS, NULL, 0, NULL, 0, body, sizeof body, NULL, 0, stored, sizeof stored, writer, SV_WRITER_WORDS, count,
                   SV_COUNT_WORDS) != 0)
            return 1;
    }
    return 0;
}

/* The number that a word says, or another where there is none. */
static uint64_t number_of(int argc, char **argv, int place, uint64_t otherwise)
{
    return place < argc ? strtoull(argv[place], NULL, 10) : otherwise;
}

int main(int argc, char **argv)
{
    if (argc < 5 || argc > 7)
        return 2;
    uint64_t edition = number_of(argc, argv, 2, 0), number = number_of(argc, argv, 3, 0), turns = number_of(argc, argv, 4, 0);
    if (strcmp(argv[1], "add") == 0)
        return by_adding(argv[2], number, turns);
    if (strcmp(argv[1], "bytes") == 0)
        return by_library(argv[2], number, turns);
    for (const struct way *way = ways; way < ways + sizeof ways / sizeof *ways; way++) {
        if (strcmp(argv[1], way->name) != 0)
            continue;
        give(edition, way->put);
        size_t len = strcmp(argv[1], "counter") == 0 ? long_tag(number)
                                                     : box_tag(edition, number, number_of(argc, argv, 5, 64), number_of(argc, argv, 6, 0));
        return by_way(way, turns, len);
    }
    return 2;
}
