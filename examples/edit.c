/*
 * Sets the title in the tag at the front of a file, in place: it is replaced where there is one, added where there is none,
 * and removed where none is given. rust/examples/edit.rs is the same in Rust.
 *
 *     tools/library
 *     cc -std=c99 -Iinclude examples/edit.c target/staticlib/libcapi.a -o edit
 *     ./edit FILE [TITLE]
 *
 * Other frames move into the padding, or leave more of it, and the file keeps its length. A crash in the middle of the write
 * would leave them half moved: a program that must not lose a counter keeps a journal, as streamvault raise does.
 *
 * Exit status: 0 what was done is printed, 1 it was refused and the file is as it was, 2 the file could not be read or
 * written, or the words are wrong.
 */
#include "streamvault.h"

#include <inttypes.h>
#include <stdio.h>
#include <stdlib.h>
#include <string.h>

/* Ends the program. */
static void fail(const char *why)
{
    fprintf(stderr, "edit: %s\n", why);
    exit(2);
}

/* So many bytes of memory. */
static uint8_t *bytes(size_t len)
{
    uint8_t *made = malloc(len > 0 ? len : 1);
    if (made == NULL)
        fail("no memory");
    return made;
}

/* The tag at the front of a file, as far as it is there, and not the sound. */
static uint8_t *read_tag(FILE *file, size_t *len)
{
    uint8_t front[16]; /* as many bytes as sv_header looks at */
    uint64_t header[SV_HEADER_WORDS];
    size_t wanted = fread(front, 1, sizeof front, file);
    if (sv_header(front, wanted, header, SV_HEADER_WORDS) == 0)
        wanted = 10 + (size_t)header[SV_HEADER_SIZE];
    uint8_t *tag = bytes(wanted);
    rewind(file);
    *len = fread(tag, 1, wanted, file);
    if (ferror(file))
        fail("the file cannot be read");
    return tag;
}

/* Writes the bytes that differ to their place. */
static void write_changed(FILE *file, const uint8_t *before, const uint8_t *after, size_t len)
{
    size_t first = 0, end = len;
    while (first < len && before[first] == after[first])
        first++;
    while (end > first && before[end - 1] == after[end - 1])
        end--;
    if (first == end)
        return;
    if (fseek(file, (long)first, SEEK_SET) != 0 || fwrite(after + first, 1, end - first, file) != end - first)
        fail("the file cannot be written");
}

/* The number of the first frame with this id, as sv_replace takes it: 0 is answered, SV_END where there is none, or a refusal. */
static uint32_t find(const uint8_t *tag, size_t len, uint64_t id, uint64_t *number)
{
    uint64_t reader[SV_READER_WORDS], record[SV_RECORD_WORDS];
    uint8_t *work = bytes(len);
    uint32_t answer = sv_open(tag, len, work, len, reader, SV_READER_WORDS);
    for (*number = 0; answer == 0; ++*number) {
        answer = sv_step(tag, len, work, len, reader, SV_READER_WORDS, record, SV_RECORD_WORDS);
        if (answer == 0 && record[SV_RECORD_ID] == id)
            break;
    }
    free(work);
    return answer;
}

/* Sets the title, or removes it where it is null, and says what was done. */
static uint32_t set_title(uint8_t *tag, size_t len, const char *title, const char **done)
{
    uint64_t header[SV_HEADER_WORDS], number;
    uint32_t answer = sv_header(tag, len, header, SV_HEADER_WORDS);
    if (answer != 0)
        return answer;
    sv_given given = sv_given_of(SV_KIND_TEXT, header[SV_HEADER_VERSION] == 2 ? "TT2" : "TIT2");
    given.record[SV_TEXT_ENCODING] = header[SV_HEADER_VERSION] == 4 ? 3 : 0; /* UTF-8, or Latin-1 */
    given.rest = (const uint8_t *)title;
    given.rest_len = title == NULL ? 0 : strlen(title);
    answer = find(tag, len, given.record[SV_RECORD_ID], &number);
    if (answer != 0 && answer != SV_END)
        return answer;
    int there = answer == 0;
    *done = title == NULL ? (there ? "removed" : "there is none") : (there ? "replaced" : "added");
    if (title == NULL)
        return there ? sv_remove(tag, len, number) : 0;
    return there ? sv_replace_given(tag, len, number, &given) : sv_append_given(tag, len, &given);
}

int main(int argc, char **argv)
{
    if (argc != 2 && argc != 3)
        fail("name the file, and the title");
    FILE *file = fopen(argv[1], "r+b");
    if (file == NULL || setvbuf(file, NULL, _IONBF, 0) != 0)
        fail("the file cannot be opened");
    size_t len;
    uint8_t *before = read_tag(file, &len), *after = bytes(len);
    memcpy(after, before, len);
    const char *done = "";
    uint32_t answer = set_title(after, len, argc == 3 ? argv[2] : NULL, &done);
    if (answer == 0) {
        write_changed(file, before, after, len);
        printf("%s\n", done);
    } else {
        printf("refused %" PRIu32 ": %s\n", answer, sv_meaning(answer));
    }
    free(before);
    free(after);
    if (fclose(file) != 0)
        fail("the file cannot be written");
    return answer == 0 ? 0 : 1;
}
