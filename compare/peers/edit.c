/*
 * Edits the tag of a file in place by this library, and prints what the call answers, after an accepted lift also the counter.
 *
 *     edit FILE remove NUMBER
 *     edit FILE replace NUMBER RECORD
 *     edit FILE append RECORD
 *     edit FILE lift USER AMOUNT
 *
 * RECORD is KIND ID A B C D E NAME NAMES REST: the kind as SV_KIND_... counts, the id, the five numbers of its kind, and bytes
 * in hex, as the user is; `-` for none. All of the file is lent to the call, and written back.
 * Exit status: 0 the call answered, 2 bad usage, 3 the file could not be read or written.
 */
#include "streamvault.h"

#include <inttypes.h>
#include <stdio.h>
#include <stdlib.h>
#include <string.h>

#define RECORD 10 /* words of a record */

/* Bytes that are lent or given. */
typedef struct {
    uint8_t *at;
    size_t len;
} bytes;

static void leave(int status, const char *what)
{
    fprintf(stderr, "edit: %s\n", what);
    exit(status);
}

/* Room for so many bytes, and never none. */
static bytes room(size_t len)
{
    bytes b = {malloc(len + 1), len};
    if (b.at == NULL)
        leave(3, "no memory");
    return b;
}

static bytes from_hex(const char *word)
{
    bytes b = room(strcmp(word, "-") == 0 ? 0 : strlen(word) / 2);
    for (size_t i = 0; i < b.len; i++) {
        unsigned octet;
        if (sscanf(word + 2 * i, "%2x", &octet) != 1)
            leave(2, "not hexadecimal");
        b.at[i] = (uint8_t)octet;
    }
    return b;
}

static bytes content(const char *path)
{
    FILE *in = fopen(path, "rb");
    if (in == NULL || fseek(in, 0, SEEK_END) != 0)
        leave(3, "the file cannot be read");
    bytes b = room((size_t)ftell(in));
    rewind(in);
    if (fread(b.at, 1, b.len, in) != b.len)
        leave(3, "the file cannot be read");
    fclose(in);
    return b;
}

static void put_back(const char *path, bytes b)
{
    FILE *out = fopen(path, "r+b");
    if (out == NULL || fwrite(b.at, 1, b.len, out) != b.len || fclose(out) != 0)
        leave(3, "the file cannot be written");
}

/* The record that these words say. */
static sv_given given_of(char **words)
{
    sv_given given = sv_given_of(strtoull(words[0], NULL, 10), words[1]);
    for (int i = 0; i < 5; i++)
        given.record[SV_RECORD_A + i] = strtoull(words[2 + i], NULL, 10);
    bytes name = from_hex(words[7]), names = from_hex(words[8]), rest = from_hex(words[9]);
    given.name = name.at, given.name_len = name.len;
    given.names = names.at, given.names_len = names.len;
    given.rest = rest.at, given.rest_len = rest.len;
    return given;
}

static uint32_t lift(bytes tag, const char *user, const char *amount, uint64_t *counter)
{
    bytes who = from_hex(user);
    return sv_lift(tag.at, tag.len, who.at, who.len, strtoull(amount, NULL, 10), counter, SV_COUNTER_WORDS);
}

int main(int count, char **words)
{
    uint64_t counter[SV_COUNTER_WORDS] = {0};
    uint32_t answer;
    if (count < 4)
        leave(2, "too few words");
    bytes tag = content(words[1]);
    const char *what = words[2];
    if (strcmp(what, "remove") == 0 && count == 4)
        answer = sv_remove(tag.at, tag.len, strtoull(words[3], NULL, 10));
    else if (strcmp(what, "lift") == 0 && count == 5)
        answer = lift(tag, words[3], words[4], counter);
    else if (strcmp(what, "append") == 0 && count == 3 + RECORD) {
        sv_given given = given_of(words + 3);
        answer = sv_append_given(tag.at, tag.len, &given);
    } else if (strcmp(what, "replace") == 0 && count == 4 + RECORD) {
        sv_given given = given_of(words + 4);
        answer = sv_replace_given(tag.at, tag.len, strtoull(words[3], NULL, 10), &given);
    } else {
        leave(2, "not an edit");
        return 2;
    }
    put_back(words[1], tag);
    printf("%" PRIu32, answer);
    if (strcmp(what, "lift") == 0 && answer == 0)
        printf(" %" PRIu64, counter[0]);
    printf("\n");
    return 0;
}
