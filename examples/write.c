/*
 * Writes a tag to a file: a title, a popularimeter, a lookup table, a chapter with a title of its own, and a table of
 * contents. rust/examples/write.rs is the same in Rust.
 *
 *     tools/library
 *     cc -std=c99 -Iinclude examples/write.c target/staticlib/libcapi.a -o write
 *     ./write FILE
 *
 * Exit status: 0 the tag was written, 1 a call was refused, 2 the file could not be written.
 */
#include "streamvault.h"

#include <inttypes.h>
#include <stdio.h>
#include <stdlib.h>
#include <string.h>

/* A writer, and the buffer that it collects frames in. */
struct frames {
    uint64_t writer[SV_WRITER_WORDS];
    uint8_t buffer[512];
};

/* Ends the program where a call was refused. */
static void check(uint32_t answer)
{
    if (answer != 0) {
        fprintf(stderr, "write: refused %" PRIu32 ": %s\n", answer, sv_meaning(answer));
        exit(1);
    }
}

static void begin(struct frames *frames, uint64_t mode)
{
    check(sv_begin(4, mode, 0, frames->writer, SV_WRITER_WORDS));
}

static void add(struct frames *to, const sv_given *given)
{
    check(sv_add_given(given, to->buffer, sizeof to->buffer, to->writer, NULL));
}

/* Sets a record's name: the user of a popularimeter, or the element id of a chapter. */
static void set_name(sv_given *given, const char *name)
{
    given->name = (const uint8_t *)name;
    given->name_len = strlen(name);
}

static void add_title(struct frames *to, const char *title)
{
    sv_given text = sv_given_of(SV_KIND_TEXT, "TIT2");
    text.record[SV_TEXT_ENCODING] = 3; /* UTF-8 */
    text.rest = (const uint8_t *)title;
    text.rest_len = strlen(title);
    add(to, &text);
}

static void add_popularimeter(struct frames *to, const char *user, uint64_t counter)
{
    sv_given popularimeter = sv_given_of(SV_KIND_POPULARIMETER, "POPM");
    popularimeter.record[SV_POPULARIMETER_COUNTER] = counter;
    set_name(&popularimeter, user);
    add(to, &popularimeter);
}

/* Two references, each a deviation of bytes and one of milliseconds. */
static void add_table(struct frames *to)
{
    static const uint32_t deviations[] = {0xA, 0x5C, 0x3, 0x01};
    sv_given table = sv_given_of(SV_KIND_TABLE, "MLLT");
    table.record[SV_TABLE_FRAMES] = 1;
    table.record[SV_TABLE_BYTES] = 417;
    table.record[SV_TABLE_MILLIS] = 26;
    table.record[SV_TABLE_BITS_FOR_BYTES] = 4;
    table.record[SV_TABLE_BITS_FOR_MILLIS] = 8;
    table.deviations = deviations;
    table.deviations_len = sizeof deviations / sizeof *deviations;
    add(to, &table);
}

/* The subframes of a chapter are the frames that a second writer, of mode off, has collected. */
static void add_chapter(struct frames *to, const char *element, const char *title)
{
    struct frames inner;
    begin(&inner, SV_MODE_OFF);
    add_title(&inner, title);
    sv_given chapter = sv_given_of(SV_KIND_CHAPTER, "CHAP");
    chapter.record[SV_CHAPTER_END_TIME] = 90000;
    chapter.record[SV_CHAPTER_START_OFFSET] = 0xFFFFFFFF;
    chapter.record[SV_CHAPTER_END_OFFSET] = 0xFFFFFFFF;
    set_name(&chapter, element);
    chapter.rest = inner.buffer;
    chapter.rest_len = (size_t)inner.writer[SV_WRITER_USED];
    add(to, &chapter);
}

/* A table of contents with one child, whose name is closed by a zero as every string is. */
static void add_contents(struct frames *to, const char *child)
{
    sv_given contents = sv_given_of(SV_KIND_CONTENTS, "CTOC");
    contents.record[SV_CONTENTS_TOP_LEVEL] = 1;
    contents.record[SV_CONTENTS_ORDERED] = 1;
    set_name(&contents, "toc");
    contents.names = (const uint8_t *)child;
    contents.names_len = strlen(child) + 1;
    add(to, &contents);
}

/* Writes the tag to the front of some room; answers its length. */
static size_t write_tag(uint8_t *output, size_t room)
{
    struct frames frames;
    uint64_t count[SV_COUNT_WORDS];
    begin(&frames, SV_MODE_STANDARD);
    add_title(&frames, "March");
    add_popularimeter(&frames, "room 7", 65280);
    add_table(&frames);
    add_chapter(&frames, "c1", "Part one");
    add_contents(&frames, "c1");
    check(sv_finish(16, frames.buffer, sizeof frames.buffer, output, room, frames.writer, SV_WRITER_WORDS, count,
                    SV_COUNT_WORDS));
    return (size_t)count[0];
}

int main(int argc, char **argv)
{
    uint8_t tag[1024];
    size_t len = write_tag(tag, sizeof tag);
    FILE *out = argc > 1 ? fopen(argv[1], "wb") : NULL;
    if (out == NULL) {
        fprintf(stderr, "write: name a file that can be written\n");
        return 2;
    }
    int done = fwrite(tag, 1, len, out) == len;
    done &= fclose(out) == 0;
    return done ? 0 : 2;
}
