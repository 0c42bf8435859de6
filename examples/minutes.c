/*
 * Prints the user and the counter of each popularimeter in a tag, from a file or from standard input, and why counters may
 * be missing. Then writes a small tag, and reads it back in the same way. rust/examples/minutes.rs is the same in Rust.
 *
 *     tools/library
 *     cc -std=c99 -Iinclude examples/minutes.c target/staticlib/libcapi.a -o minutes
 *     ./minutes FILE
 *
 * Exit status: 0 every popularimeter of both tags was shown, 1 one may be missing, 2 there was no input or no memory.
 */
#include "streamvault.h"

#include <inttypes.h>
#include <stdio.h>
#include <stdlib.h>

/* All bytes of a stream; null where they cannot be had. */
static uint8_t *read_all(FILE *in, size_t *len)
{
    size_t room = 4096;
    uint8_t *bytes = malloc(room);
    *len = 0;
    while (bytes != NULL) {
        *len += fread(bytes + *len, 1, room - *len, in);
        if (*len < room)
            break;
        room *= 2;
        uint8_t *more = realloc(bytes, room);
        if (more == NULL)
            free(bytes);
        bytes = more;
    }
    if (bytes != NULL && ferror(in)) {
        free(bytes);
        bytes = NULL;
    }
    return bytes;
}

/* Prints a popularimeter; the buffer is the one that its user lies in. */
static void print_popularimeter(const uint8_t *buffer, const uint64_t *metered)
{
    fwrite(buffer + metered[SV_METERED_USER_START], 1, (size_t)metered[SV_METERED_USER_LEN], stdout);
    printf(" %" PRIu64 "\n", metered[SV_METERED_COUNTER]);
}

/* Says why popularimeters may be missing, from the last answer and the meter; answers 0 where none is. */
static int print_missing(uint32_t answer, const uint64_t *meter)
{
    int refused = answer != SV_END;
    int cut = meter[SV_METER_SHORT] || meter[SV_METER_MISSING];
    int compressed = meter[SV_METER_COMPRESSED] != 0;
    if (refused)
        printf("refused %" PRIu32 "\n", answer);
    if (cut)
        printf("cut\n");
    if (compressed)
        printf("compressed\n");
    return refused || cut || compressed;
}

/* Prints the popularimeters of a tag; answers 0 where none is missing. */
static int print_tag(const uint8_t *tag, size_t len)
{
    uint64_t meter[SV_METER_WORDS] = {0};
    uint64_t metered[SV_METERED_WORDS];
    uint8_t *work = malloc(len > 0 ? len : 1);
    if (work == NULL)
        exit(2);
    uint32_t answer = sv_meter_open(tag, len, work, len, meter, SV_METER_WORDS);
    while (answer == 0) {
        answer = sv_meter_next(tag, len, work, len, meter, SV_METER_WORDS, metered, SV_METERED_WORDS);
        if (answer == 0)
            print_popularimeter(metered[SV_METERED_IN_WORK] ? work : tag, metered);
    }
    free(work);
    return print_missing(answer, meter);
}

/* Writes a tag with one popularimeter; answers its length, 0 where a call is refused. */
static size_t write_tag(uint8_t *output, size_t room)
{
    static const uint8_t user[] = "room 7";
    uint64_t writer[SV_WRITER_WORDS];
    uint64_t record[SV_RECORD_WORDS] = {0};
    uint64_t count[SV_COUNT_WORDS];
    uint8_t frames[64];
    record[SV_RECORD_KIND] = SV_KIND_POPULARIMETER;
    record[SV_RECORD_ID] = 0x504F504D; /* POPM */
    record[SV_POPULARIMETER_COUNTER] = 65280;
    if (sv_begin(4, SV_MODE_STANDARD, 0, writer, SV_WRITER_WORDS) != 0)
        return 0;
    if (sv_add(record, SV_RECORD_WORDS, user, sizeof user - 1, NULL, 0, NULL, 0, NULL, 0, frames, sizeof frames, writer,
               SV_WRITER_WORDS, count, SV_COUNT_WORDS) != 0)
        return 0;
    if (sv_finish(1, frames, sizeof frames, output, room, writer, SV_WRITER_WORDS, count, SV_COUNT_WORDS) != 0)
        return 0;
    return (size_t)count[0];
}

int main(int argc, char **argv)
{
    FILE *in = argc > 1 ? fopen(argv[1], "rb") : stdin;
    size_t len;
    uint8_t *bytes = in != NULL ? read_all(in, &len) : NULL;
    if (bytes == NULL) {
        fprintf(stderr, "minutes: no input\n");
        return 2;
    }
    if (in != stdin)
        fclose(in);
    printf("given:\n");
    int given = print_tag(bytes, len);
    free(bytes);

    uint8_t tag[128];
    printf("written:\n");
    size_t written = write_tag(tag, sizeof tag);
    int again = print_tag(tag, written);
    return given == 0 && again == 0 ? 0 : 1;
}
