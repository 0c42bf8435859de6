/*
 * Raises the counter of a user in the tag at the front of a file, in place. rust/examples/raise.rs is the same in Rust; the
 * program streamvault does it with more care for files that change meanwhile.
 *
 *     tools/library
 *     cc -std=c99 -Iinclude examples/raise.c target/staticlib/libcapi.a -o raise
 *     ./raise USER AMOUNT FILE
 *
 * Exit status: 0 the counter was raised, 1 it was refused and the file is as it was, 2 the file could not be read or written,
 * or the words are wrong.
 */
#include "streamvault.h"

#include <inttypes.h>
#include <stdio.h>
#include <stdlib.h>
#include <string.h>

/* Ends the program. */
static void fail(const char *why)
{
    fprintf(stderr, "raise: %s\n", why);
    exit(2);
}

/* The tag at the front of a file, as far as it is there, and not the sound. */
static uint8_t *read_tag(FILE *file, size_t *len)
{
    uint8_t front[16]; /* as many bytes as sv_header looks at */
    uint64_t header[SV_HEADER_WORDS];
    size_t wanted = fread(front, 1, sizeof front, file);
    if (sv_header(front, wanted, header, SV_HEADER_WORDS) == 0)
        wanted = 10 + (size_t)header[SV_HEADER_SIZE];
    uint8_t *tag = malloc(wanted > 0 ? wanted : 1);
    if (tag == NULL)
        fail("no memory");
    rewind(file);
    *len = fread(tag, 1, wanted, file);
    if (ferror(file))
        fail("the file cannot be read");
    return tag;
}

/* Writes the bytes that differ to their place; the file has no buffer, so that this is one write. */
static void write_changed(FILE *file, const uint8_t *before, const uint8_t *after, size_t len)
{
    size_t first = 0, end = len;
    while (first < len && before[first] == after[first])
        first++;
    while (end > first && before[end - 1] == after[end - 1])
        end--;
    if (first == end)
        return;
    if (fseek(file, (long)first, SEEK_SET) != 0 || fwrite(after + first, 1, end - first, file) != end - first)
        fail("the file cannot be written");
}

/* The number that digits say. */
static uint64_t number(const char *digits)
{
    uint64_t n = 0;
    for (const char *at = digits; *at != '\0' || at == digits; at++) {
        if (*at < '0' || *at > '9' || n > (UINT64_MAX - (uint64_t)(*at - '0')) / 10)
            fail("the amount is no number of 64 bits");
        n = 10 * n + (uint64_t)(*at - '0');
    }
    return n;
}

int main(int argc, char **argv)
{
    if (argc != 4)
        fail("name the user, the amount and the file");
    uint64_t amount = number(argv[2]);
    FILE *file = fopen(argv[3], "r+b");
    if (file == NULL || setvbuf(file, NULL, _IONBF, 0) != 0)
        fail("the file cannot be opened");
    size_t len;
    uint8_t *before = read_tag(file, &len);
    uint8_t *after = malloc(len > 0 ? len : 1);
    if (after == NULL)
        fail("no memory");
    memcpy(after, before, len);

    uint64_t counter[SV_COUNTER_WORDS];
    uint32_t answer = sv_raise(after, len, (const uint8_t *)argv[1], strlen(argv[1]), amount, counter, SV_COUNTER_WORDS);
    if (answer == 0) {
        write_changed(file, before, after, len);
        printf("%" PRIu64 "\n", counter[0]);
    } else {
        printf("refused %" PRIu32 ": %s\n", answer, sv_meaning(answer));
    }
    free(before);
    free(after);
    if (fclose(file) != 0)
        fail("the file cannot be written");
    return answer == 0 ? 0 : 1;
}
