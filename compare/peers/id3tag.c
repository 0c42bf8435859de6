/* Reads a tag by libid3tag: how many frames it has, and the sum of its popularimeters' counters. Answers 0 where it reads none. */
#include <id3tag.h>
#include <stddef.h>
#include <stdint.h>
#include <string.h>

static uint64_t counter_of(const struct id3_frame *frame)
{
    /* a counter of any length is a field of bytes and one number; the library has no function for it */
    const union id3_field *field = id3_frame_field(frame, 2);
    uint64_t counter = 0;
    for (id3_length_t i = 0; i < field->binary.length; i++)
        counter = counter << 8 | field->binary.data[i];
    return counter;
}

int peer_read(const uint8_t *bytes, size_t len, uint64_t *frames, uint64_t *sum)
{
    struct id3_tag *tag = id3_tag_parse(bytes, len);
    if (!tag)
        return 0;
    *frames += tag->nframes;
    for (unsigned int i = 0; i < tag->nframes; i++)
        if (strcmp(tag->frames[i]->id, "POPM") == 0)
            *sum += counter_of(tag->frames[i]);
    id3_tag_delete(tag);
    return 1;
}
