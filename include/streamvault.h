/*
 * Streamvault: reads and writes ID3v2 tags (2.2, 2.3 and 2.4).
 *
 * Link the static library, target/staticlib/libcapi.a (`tools/library`). It is for x86-64 Linux, and needs memcpy,
 * memmove and memset from the C library and nothing else. It allocates nothing, keeps nothing between calls and calls
 * nothing back, so any thread may use it.
 *
 * Every function answers 0, or the number of a refusal; sv_step and sv_meter_next also SV_END. The caller lends every
 * buffer:
 *
 * - A buffer is a pointer and a count of its elements, one directly after the other. The count may be 0, and the pointer
 *   then null.
 * - A buffer that a call may change (one without const) must not overlap another buffer of the same call.
 * - What a tag, a reader, a meter, a record or a writer is lies in words of 64 bits, at the places named below. More words
 *   may be lent than named; those after are never changed. Fewer are refused with SV_NO_ROOM, and nothing at all is
 *   changed.
 * - No call trusts what it is lent. Words that no call leaves are refused: those of a reader, of a meter or of a writer
 *   with SV_UNKNOWN_VERSION, those of a record with the refusal that speaks of the field, and with SV_WRONG_ID where none
 *   does. A mark that is not 0 is a mark. The places in a reader are not judged: bytes outside the buffer are not there.
 *
 * Reading: sv_open, then sv_step with the same tag, work buffer and reader until it answers something other than 0.
 * Counters alone: sv_meter_open, then sv_meter_next in the same way; the meter's marks then say whether some may be missing.
 * Writing: sv_begin or sv_begin_plain, sv_add for each record, sv_finish.
 * A counter in a tag that is there: sv_raise, or sv_lift, which takes a longer frame where the counter has too few bytes.
 * A frame in a tag that is there: sv_replace, sv_remove, sv_append.
 */
#ifndef STREAMVAULT_H
#define STREAMVAULT_H

#include <stddef.h>
#include <stdint.h>

#ifdef __cplusplus
extern "C" {
#endif

/* ---- answers besides 0 */

/* sv_step: there is no further frame. sv_meter_next: there is no further popularimeter. */
#define SV_END 256

/* Refusals, in the tag header. */
#define SV_NO_TAG 1                /* fewer than ten bytes, or they do not begin with "ID3" */
#define SV_UNKNOWN_VERSION 2       /* the edition is not 2.2, 2.3 or 2.4; or a version, mode, mark or state that is none */
#define SV_UNKNOWN_FLAGS 3         /* one of the low four flag bits of the tag header is set */
#define SV_COMPRESSED_TAG 4        /* a 2.2 tag that is compressed as a whole */
#define SV_MISSING_BYTES 5         /* bytes are missing: of the extended header, of a data length, or of a 2.3 body */
#define SV_SMALL_EXTENDED_HEADER 6 /* the extended header's size is below 6 */

/* Refusals, in a frame that is read. */
#define SV_ID_NOT_UTF8 7           /* a frame's id is not UTF-8 */
#define SV_ENCRYPTED 8             /* a frame is encrypted */
#define SV_GROUPED 9               /* a frame belongs to a group */
#define SV_SMALL_FRAME 10          /* a 2.3 frame with a data length has a size below 4 */
#define SV_MISSING_FIELD 11        /* a field of a frame's body is missing */
#define SV_UNKNOWN_ENCODING 12     /* a text's encoding is over 3 */
#define SV_TOO_DEEP 13             /* frames lie inside one another at depth 9 */
#define SV_WORK_TOO_SMALL 14       /* the work buffer does not hold what is to be resynchronised */

/* Refusals, on writing. */
#define SV_NO_ROOM 20              /* the result is longer than the room lent, or a buffer is shorter than what it has to hold */
#define SV_WRONG_ID 21             /* the id is not 3 (2.2) or 4 characters of A-Z and 0-9, or not of the record's kind; or no record */
#define SV_EMPTY_BODY 22           /* a 2.2 body is empty */
#define SV_LONG_BODY 23            /* a 2.2 body is over 16,777,215 bytes */
#define SV_TOO_LONG 24             /* a stored body, or the frames with the padding, have 2^28 bytes or more */
#define SV_NOT_WRITABLE 25         /* a raw record under an id of a kind, or a record marked short or compressed */
#define SV_TEXT_ENDS_EARLY 26      /* a reader would end the text early */
#define SV_ZERO_IN_NAME 27         /* the user or the element id holds a zero */
#define SV_WRONG_CHILDREN 28       /* over 255 children, or some are given and do not end in a zero */
#define SV_WRONG_RUN 29            /* the run of subframes is refused, short, padded, not used up, too deep or unsynchronised */

/* Refusals of lookup tables; the first three also on reading. */
#define SV_WRONG_WIDTH 30          /* a width of a lookup table is not 1 to 32 */
#define SV_WIDTHS_NOT_IN_FOURS 31  /* the widths' sum is no multiple of 4 */
#define SV_WIDTHS_OVER_64 32       /* the widths' sum is over 64 */
#define SV_WRONG_DEVIATION 33      /* a deviation lacks its pair or does not fit its width, or a step is 2^24 or more */
#define SV_ODD_REFERENCES 34       /* the widths sum to 4 and the references are odd in number */

/* Refusals of popularimeters, on reading. */
#define SV_COUNTER_TOO_LARGE 35    /* a popularimeter's counter does not fit 64 bits */

/* Refusals of raising a counter, after those of reading. */
#define SV_NOT_PLAIN 40            /* the tag is not plain: cut, extended, unsynchronised, a frame compressed or short, or padding not zero */
#define SV_USER_ABSENT 41          /* no popularimeter of the top level has this user */
#define SV_USER_TWICE 42           /* two or more popularimeters of the top level have this user */
#define SV_SUM_TOO_LARGE 43        /* the counter and the amount sum to more than 64 bits hold */
#define SV_COUNTER_TOO_SHORT 44    /* the counter has too few bytes for the sum */

/* Refusals of editing a tag in place, after those of reading and SV_NOT_PLAIN. */
#define SV_NO_SUCH_FRAME 46        /* the tag has no frame of this number */

/* ---- the words of a header */

#define SV_HEADER_WORDS 4
#define SV_HEADER_VERSION 0 /* 2, 3 or 4, for 2.2, 2.3 and 2.4 */
#define SV_HEADER_FLAGS 1   /* the flag byte */
#define SV_HEADER_SIZE 2    /* bytes of the tag after its ten header bytes */
#define SV_HEADER_EXT 3     /* the extended header's size, 0 without one */

/* ---- the words of a reader */

#define SV_READER_WORDS 7
#define SV_READER_VERSION 0 /* 2, 3 or 4 */
#define SV_READER_IN_WORK 1 /* 1 where the frames lie in the work buffer, 0 where they lie in the tag */
#define SV_READER_BEGIN 2   /* the place of the first frame byte in that buffer */
#define SV_READER_AT 3      /* the place of the next frame */
#define SV_READER_END 4     /* the place after the last frame byte */
#define SV_READER_STOP 5    /* one of SV_STOP_... */
#define SV_READER_NUMBER 6  /* the refusal, where the reader was refused; else 0 */

#define SV_STOP_RUNNING 0
#define SV_STOP_ENDED 1
#define SV_STOP_REFUSED 2

/* ---- the words of a meter: a reader's, and what it passed */

#define SV_METER_WORDS 11
#define SV_METER_VERSION 0     /* the first seven are those of a reader */
#define SV_METER_IN_WORK 1
#define SV_METER_BEGIN 2
#define SV_METER_AT 3
#define SV_METER_END 4
#define SV_METER_STOP 5
#define SV_METER_NUMBER 6
#define SV_METER_FRAMES 7      /* frames passed so far, modulo 2^64 */
#define SV_METER_SHORT 8       /* 1 where one of them was short */
#define SV_METER_COMPRESSED 9  /* 1 where one of them was a compressed frame under a popularimeter's id */
#define SV_METER_MISSING 10    /* 1 where the tag has fewer bytes than its header says */

/* ---- the words of a popularimeter that was metered */

#define SV_METERED_WORDS 6
#define SV_METERED_IN_WORK 0    /* 1 where the user lies in the work buffer, 0 where it lies in the tag */
#define SV_METERED_USER_START 1
#define SV_METERED_USER_LEN 2
#define SV_METERED_RATING 3
#define SV_METERED_COUNTER 4    /* of any number of bytes; one that does not fit 64 bits is refused */
#define SV_METERED_FRAME 5      /* the number of its frame, from 0 */

/* ---- the words of a record, read or to be written */

#define SV_RECORD_WORDS 19
#define SV_RECORD_KIND 0         /* one of SV_KIND_... */
#define SV_RECORD_ID 1           /* the id's bytes as one number, highest first: POPM is 0x504F504D, POP is 0x504F50 */
#define SV_RECORD_SHORT 2        /* 1 where the tag's end cuts the body */
#define SV_RECORD_COMPRESSED 3   /* 1 where the body is compressed, and so shown as it is stored */
#define SV_RECORD_A 4            /* five numbers, which have the names below by the record's kind */
#define SV_RECORD_B 5
#define SV_RECORD_C 6
#define SV_RECORD_D 7
#define SV_RECORD_E 8
#define SV_RECORD_AT 9           /* the place of the frame's header, counted from the first frame byte */
#define SV_RECORD_IN_WORK 10     /* 1 where the parts below lie in the work buffer, 0 where they lie in the tag */
#define SV_RECORD_BODY_START 11  /* the whole body */
#define SV_RECORD_BODY_LEN 12
#define SV_RECORD_NAME_START 13  /* the user, or the element id */
#define SV_RECORD_NAME_LEN 14
#define SV_RECORD_NAMES_START 15 /* the children, each closed by a zero */
#define SV_RECORD_NAMES_LEN 16
#define SV_RECORD_REST_START 17  /* the text, the packed references, the run of subframes, or the raw body */
#define SV_RECORD_REST_LEN 18

/* The numbers of a record, by its kind; those that a kind lacks are 0 when read, and not looked at when written. */
#define SV_TEXT_ENCODING 4
#define SV_POPULARIMETER_RATING 4
#define SV_POPULARIMETER_COUNTER 5
#define SV_TABLE_FRAMES 4
#define SV_TABLE_BYTES 5
#define SV_TABLE_MILLIS 6
#define SV_TABLE_BITS_FOR_BYTES 7
#define SV_TABLE_BITS_FOR_MILLIS 8
#define SV_CHAPTER_START_TIME 4
#define SV_CHAPTER_END_TIME 5
#define SV_CHAPTER_START_OFFSET 6
#define SV_CHAPTER_END_OFFSET 7
#define SV_CONTENTS_TOP_LEVEL 4
#define SV_CONTENTS_ORDERED 5

#define SV_KIND_TEXT 0
#define SV_KIND_POPULARIMETER 1
#define SV_KIND_TABLE 2
#define SV_KIND_CHAPTER 3
#define SV_KIND_CONTENTS 4
#define SV_KIND_RAW 5

/* ---- the words of a writer */

#define SV_WRITER_WORDS 4
#define SV_WRITER_VERSION 0 /* 2, 3 or 4 */
#define SV_WRITER_MODE 1    /* one of SV_MODE_... */
#define SV_WRITER_ALTERED 2 /* 1 where frames that an altered file loses are left out */
#define SV_WRITER_USED 3    /* bytes of the collecting buffer that hold frames */

/* What is done against false synchronisation: nothing; a zero after FF before 00; also before E0 to FF (2.4.0 text). */
#define SV_MODE_OFF 0
#define SV_MODE_CRATE 1
#define SV_MODE_STANDARD 2

/* ---- the word of a count */

#define SV_COUNT_WORDS 1

/* ---- the word of a counter */

#define SV_COUNTER_WORDS 1

/* ---- reading */

/* The fields of the header at the front of a tag. A refusal changes nothing. */
uint32_t sv_header(const uint8_t *tag, size_t tag_len, uint64_t *header, size_t header_len);

/*
 * Opens a tag: a reader at its first frame. An unsynchronised 2.2 or 2.3 tag is resynchronised to the front of the work
 * buffer. A work buffer as long as the tag suffices for that, and to read all that this library writes; in other 2.4 tags
 * unsynchronised chapters inside chapters can need up to eight times as much. A refusal changes nothing.
 */
uint32_t sv_open(const uint8_t *tag, size_t tag_len, uint8_t *work, size_t work_len, uint64_t *reader, size_t reader_len);

/*
 * The next frame of the top level as a record, or SV_END. The parts of a record that lie in the work buffer stay until
 * the next step. At the end and on a refusal the record's words stay as they were. An ended reader answers SV_END again,
 * a refused one its number.
 *
 * The counter of a popularimeter is one number, highest byte first, of any number of bytes: zeros in front are skipped, and
 * what does not fit 64 bits is refused with SV_COUNTER_TOO_LARGE, also inside a chapter.
 */
uint32_t sv_step(const uint8_t *tag, size_t tag_len, uint8_t *work, size_t work_len, uint64_t *reader, size_t reader_len,
                 uint64_t *record, size_t record_len);

/*
 * Opens a tag for its counters alone: a meter at its first frame. It refuses what sv_open refuses, needs as long a work
 * buffer, and leaves it as sv_open does. A refusal changes nothing.
 */
uint32_t sv_meter_open(const uint8_t *tag, size_t tag_len, uint8_t *work, size_t work_len, uint64_t *meter, size_t meter_len);

/*
 * The next whole popularimeter of the top level, or SV_END. It answers what sv_step repeated up to there answers, and leaves
 * the work buffer as those steps do. Frames that are short are passed over and marked, and so are compressed ones under a
 * popularimeter's id; popularimeters inside chapters are not shown. The user stays where it lies until the next call. At the
 * end and on a refusal the words of the popularimeter stay as they were. An ended meter answers SV_END again, a refused one
 * its number.
 *
 * Where it answers SV_END and none of the meter's three marks is set, every popularimeter of the top level was shown. The
 * bytes from SV_METER_AT to SV_METER_END, of the work buffer where SV_METER_IN_WORK is 1 and else of the tag, are then what
 * stands after the end of the frames: padding as a rule, and nothing that is read.
 */
uint32_t sv_meter_next(const uint8_t *tag, size_t tag_len, uint8_t *work, size_t work_len, uint64_t *meter, size_t meter_len,
                       uint64_t *metered, size_t metered_len);

/*
 * All deviations of a lookup table, two by two (bytes, milliseconds), from its packed references, which are the rest of
 * its record. The count is that of the numbers put, 0 for a record of another kind. On a refusal it is 0 and nothing else
 * changes.
 */
uint32_t sv_references(const uint64_t *record, size_t record_len, const uint8_t *rest, size_t rest_len,
                       uint32_t *deviations, size_t deviations_len, uint64_t *count, size_t count_len);

/* ---- writing */

/* Begins a writer with no frames. A refusal changes nothing. */
uint32_t sv_begin(uint64_t version, uint64_t mode, uint64_t altered, uint64_t *writer, size_t writer_len);

/* The same as sv_begin with SV_MODE_OFF and altered 0. */
uint32_t sv_begin_plain(uint64_t version, uint64_t *writer, size_t writer_len);

/*
 * Appends a record as one frame to the collecting buffer. Its bytes are given apart: those that its kind lacks are not
 * looked at, nor are the record's words from SV_RECORD_AT on. The count is that of the bytes appended, 0 for a frame that
 * is left out because the writer is marked altered. On a refusal it is 0 and nothing else changes.
 */
uint32_t sv_add(const uint64_t *record, size_t record_len, const uint8_t *name, size_t name_len, const uint8_t *names,
                size_t names_len, const uint8_t *rest, size_t rest_len, const uint32_t *deviations, size_t deviations_len,
                uint8_t *buffer, size_t buffer_len, uint64_t *writer, size_t writer_len, uint64_t *count, size_t count_len);

/*
 * Writes the tag to the output buffer: header, frames, padding of zeros. The count is its length. On a refusal it is 0
 * and nothing else changes.
 */
uint32_t sv_finish(uint64_t padding, const uint8_t *buffer, size_t buffer_len, uint8_t *output, size_t output_len,
                   const uint64_t *writer, size_t writer_len, uint64_t *count, size_t count_len);

/* ---- raising a counter in place */

/*
 * Adds an amount to the counter of the one popularimeter of the top level that has this user, in the tag at the front of the
 * bytes lent. What follows the tag, sound as a rule, may be lent with it and is not looked at. No work buffer is needed.
 *
 * Where it answers 0, the new counter is the word of the counter and stands in the counter's bytes in the tag, with zeros in
 * front, as many bytes as they were. No other byte changes: the tag reads as before with that one counter replaced.
 * Anything else is a refusal, and then nothing at all has changed, neither the tag nor the word. In this order:
 *
 * - What reading the whole tag is refused with, as sv_open and sv_step go through it. Where they would resynchronise it is
 *   SV_NOT_PLAIN at once: for a 2.2 or 2.3 tag that is unsynchronised after the checks of its header, for a 2.4 frame,
 *   also inside a chapter, when it is met.
 * - SV_NOT_PLAIN, where a byte of the tag is missing, it has an extended header or the header's flag of unsynchronisation, a
 *   frame is compressed, unsynchronised or short, also inside a chapter, or a byte after the last frame is not 0.
 * - SV_USER_ABSENT, SV_USER_TWICE. Users are compared byte for byte. Those inside chapters do not count, and one that holds
 *   a zero is in no tag.
 * - SV_SUM_TOO_LARGE; SV_COUNTER_TOO_SHORT: n bytes hold what is below 256^n, and a counter without bytes holds 0 only.
 */
uint32_t sv_raise(uint8_t *tag, size_t tag_len, const uint8_t *user, size_t user_len, uint64_t amount, uint64_t *counter,
                  size_t counter_len);

/* ---- editing a tag in place */

/*
 * These change one frame of the top level, in the tag at the front of the bytes lent. What follows the tag may be lent with
 * it: it is not looked at and never changes, and neither does the tag's header. No work buffer is needed.
 *
 * Where they answer 0, the tag reads as before with that one edit. Later frames were moved up or down as they are, padding
 * shrank or grew by as many bytes, and all bytes after the last frame are 0: room that one edit frees serves the next.
 * Anything else is a refusal, and then nothing at all has changed. In this order:
 *
 * - SV_NO_ROOM, where the record has fewer words than SV_RECORD_WORDS.
 * - What reading the whole tag is refused with, and SV_NOT_PLAIN, as sv_raise has them.
 * - SV_NO_SUCH_FRAME, where the tag has no frame of this number, for sv_replace and sv_remove.
 * - What sv_add refuses the record with, in the tag's own edition, with SV_MODE_OFF and altered 0; SV_WRONG_ID for words
 *   that are no record.
 * - SV_NO_ROOM, exactly where the frames together, after the edit, are longer than the header's size.
 *
 * A frame goes from its header to where the next one begins. Frames are counted from 0, as sv_step shows them.
 */

/* Puts a record as a frame in the place of the frame of this number. It is given and written as by sv_add. */
uint32_t sv_replace(uint8_t *tag, size_t tag_len, uint64_t number, const uint64_t *record, size_t record_len,
                    const uint8_t *name, size_t name_len, const uint8_t *names, size_t names_len, const uint8_t *rest,
                    size_t rest_len, const uint32_t *deviations, size_t deviations_len);

/* Takes the frame of this number away. */
uint32_t sv_remove(uint8_t *tag, size_t tag_len, uint64_t number);

/* Puts a record as a frame after the last. It is given and written as by sv_add. */
uint32_t sv_append(uint8_t *tag, size_t tag_len, const uint64_t *record, size_t record_len, const uint8_t *name,
                   size_t name_len, const uint8_t *names, size_t names_len, const uint8_t *rest, size_t rest_len,
                   const uint32_t *deviations, size_t deviations_len);

/*
 * Adds an amount to a user's counter as sv_raise does. Where that is refused with SV_COUNTER_TOO_SHORT, the frame is replaced
 * as by sv_replace: by a popularimeter of the same user and rating with the new counter, without flags and data length. The
 * counter's word is the new counter either way.
 *
 * Refusals are those of sv_raise in their order, but for SV_COUNTER_TOO_SHORT: in its place comes SV_NO_ROOM, where the
 * frames together would be longer than the header's size, and before that SV_LONG_BODY, where the body of a 2.2 frame would
 * be too long, or SV_TOO_LONG, which only a tag of 2^28 bytes and more can meet. A refusal changes nothing at all,
 * neither the tag nor the word.
 */
uint32_t sv_lift(uint8_t *tag, size_t tag_len, const uint8_t *user, size_t user_len, uint64_t amount, uint64_t *counter,
                 size_t counter_len);

/*
 * ---- conveniences
 *
 * What follows exports nothing: it is compiled with the code that uses it, as C99 or C++11, and calls the functions above.
 */

/* The version of the library. */
#define SV_VERSION_MAJOR 0
#define SV_VERSION_MINOR 1
#define SV_VERSION_PATCH 0
#define SV_VERSION "0.1.0"

/* What a number means that a call answered, as text: a refusal, 0 or SV_END. */
static inline const char *sv_meaning(uint32_t number)
{
    switch (number) {
    case 0: return "accepted";
    case SV_END: return "there is no further frame or popularimeter";
    case SV_NO_TAG: return "fewer than ten bytes, or they do not begin with \"ID3\"";
    case SV_UNKNOWN_VERSION: return "the edition is not 2.2, 2.3 or 2.4; or a version, mode, mark or state that is none";
    case SV_UNKNOWN_FLAGS: return "one of the low four flag bits of the tag header is set";
    case SV_COMPRESSED_TAG: return "a 2.2 tag that is compressed as a whole";
    case SV_MISSING_BYTES: return "bytes are missing: of the extended header, of a data length, or of a 2.3 body";
    case SV_SMALL_EXTENDED_HEADER: return "the extended header's size is below 6";
    case SV_ID_NOT_UTF8: return "a frame's id is not UTF-8";
    case SV_ENCRYPTED: return "a frame is encrypted";
    case SV_GROUPED: return "a frame belongs to a group";
    case SV_SMALL_FRAME: return "a 2.3 frame with a data length has a size below 4";
    case SV_MISSING_FIELD: return "a field of a frame's body is missing";
    case SV_UNKNOWN_ENCODING: return "a text's encoding is over 3";
    case SV_TOO_DEEP: return "frames lie inside one another at depth 9";
    case SV_WORK_TOO_SMALL: return "the work buffer does not hold what is to be resynchronised";
    case SV_NO_ROOM: return "the result is longer than the room lent, or a buffer is shorter than what it has to hold";
    case SV_WRONG_ID: return "the id is not 3 (2.2) or 4 characters of A-Z and 0-9, or not of the record's kind; or no record";
    case SV_EMPTY_BODY: return "a 2.2 body is empty";
    case SV_LONG_BODY: return "a 2.2 body is over 16,777,215 bytes";
    case SV_TOO_LONG: return "a stored body, or the frames with the padding, have 2^28 bytes or more";
    case SV_NOT_WRITABLE: return "a raw record under an id of a kind, or a record marked short or compressed";
    case SV_TEXT_ENDS_EARLY: return "a reader would end the text early";
    case SV_ZERO_IN_NAME: return "the user or the element id holds a zero";
    case SV_WRONG_CHILDREN: return "over 255 children, or some are given and do not end in a zero";
    case SV_WRONG_RUN: return "the run of subframes is refused, short, padded, not used up, too deep or unsynchronised";
    case SV_WRONG_WIDTH: return "a width of a lookup table is not 1 to 32";
    case SV_WIDTHS_NOT_IN_FOURS: return "the widths' sum is no multiple of 4";
    case SV_WIDTHS_OVER_64: return "the widths' sum is over 64";
    case SV_WRONG_DEVIATION: return "a deviation lacks its pair or does not fit its width, or a step is 2^24 or more";
    case SV_ODD_REFERENCES: return "the widths sum to 4 and the references are odd in number";
    case SV_COUNTER_TOO_LARGE: return "a popularimeter's counter does not fit 64 bits";
    case SV_NOT_PLAIN: return "the tag is not plain: cut, extended, unsynchronised, a frame compressed or short, or padding not zero";
    case SV_USER_ABSENT: return "no popularimeter of the top level has this user";
    case SV_USER_TWICE: return "two or more popularimeters of the top level have this user";
    case SV_SUM_TOO_LARGE: return "the counter and the amount sum to more than 64 bits hold";
    case SV_COUNTER_TOO_SHORT: return "the counter has too few bytes for the sum";
    case SV_NO_SUCH_FRAME: return "the tag has no frame of this number";
    default: return "a number that is none";
    }
}

/* An id's bytes as one number, highest first: sv_id("POPM") is 0x504F504D. */
static inline uint64_t sv_id(const char *id)
{
    uint64_t number = 0;
    for (; *id != '\0'; id++)
        number = number << 8 | (unsigned char)*id;
    return number;
}

/* A record to be written, with its bytes. Those that its kind lacks are not looked at, and stay null and 0. */
typedef struct sv_given {
    uint64_t record[SV_RECORD_WORDS]; /* kind, id and the numbers of the kind, at the places named above */
    const uint8_t *name;              /* the user, or the element id */
    size_t name_len;
    const uint8_t *names;             /* the children, each closed by a zero */
    size_t names_len;
    const uint8_t *rest;              /* the text, the run of subframes, or the raw body */
    size_t rest_len;
    const uint32_t *deviations;       /* those of a lookup table, two by two */
    size_t deviations_len;
} sv_given;

/* A record of this kind, one of SV_KIND_..., and this id, with all else null and 0. */
static inline sv_given sv_given_of(uint64_t kind, const char *id)
{
    static const sv_given empty = {{0}, NULL, 0, NULL, 0, NULL, 0, NULL, 0};
    sv_given given = empty;
    given.record[SV_RECORD_KIND] = kind;
    given.record[SV_RECORD_ID] = sv_id(id);
    return given;
}

/*
 * sv_add with the slices of `given`: it appends the record as one frame to the collecting buffer. The writer has
 * SV_WRITER_WORDS words. Where `count` is not null it is set to the bytes appended, 0 on a refusal and for a frame that is
 * left out.
 */
static inline uint32_t sv_add_given(const sv_given *given, uint8_t *buffer, size_t buffer_len, uint64_t *writer,
                                    uint64_t *count)
{
    uint64_t added[SV_COUNT_WORDS] = {0};
    uint32_t answer = sv_add(given->record, SV_RECORD_WORDS, given->name, given->name_len, given->names, given->names_len,
                             given->rest, given->rest_len, given->deviations, given->deviations_len, buffer, buffer_len,
                             writer, SV_WRITER_WORDS, added, SV_COUNT_WORDS);
    if (count != NULL)
        *count = added[0];
    return answer;
}

/* sv_replace with the slices of `given`: it puts the record as a frame in the place of the frame of this number. */
static inline uint32_t sv_replace_given(uint8_t *tag, size_t tag_len, uint64_t number, const sv_given *given)
{
    return sv_replace(tag, tag_len, number, given->record, SV_RECORD_WORDS, given->name, given->name_len, given->names,
                      given->names_len, given->rest, given->rest_len, given->deviations, given->deviations_len);
}

/* sv_append with the slices of `given`: it puts the record as a frame after the last. */
static inline uint32_t sv_append_given(uint8_t *tag, size_t tag_len, const sv_given *given)
{
    return sv_append(tag, tag_len, given->record, SV_RECORD_WORDS, given->name, given->name_len, given->names,
                     given->names_len, given->rest, given->rest_len, given->deviations, given->deviations_len);
}

#ifdef __cplusplus
}
#endif

#endif
