/* Grousepenny: MDF 3 files in memory. The format is that of MDF 3.0 to 3.31;
 * files that call themselves 3.00 to 3.99 are taken.
 *
 * Every call ends, for any bytes and any numbers. It returns one of the
 * numbers below and fills an answer of 32 bytes. No call keeps a pointer,
 * allocates memory, reads a clock or a file, or has a state: calls from
 * several threads at once are fine as long as no memory that one of them
 * writes is used by another. Every call checks its whole image, mdf3_compare
 * both of its images. So reading a channel record by record costs a check of
 * the file for each record.
 *
 * What the caller must keep, for each call:
 *   - image points to image_len bytes that can be read, and that nobody
 *     changes before the call returns. image_len is at most SIZE_MAX / 2.
 *     Where image_len is 0 nothing is read through image; it may point
 *     anywhere, and must not be NULL. The same holds for first and second,
 *     the two images of mdf3_compare, each with its own length.
 *   - out, where a call has it, points to out_len bytes that can be written
 *     and that nobody else uses before the call returns. out_len is at most
 *     SIZE_MAX / 2. Where it is 0 nothing is read or written through out;
 *     it may point anywhere, and must not be NULL.
 *   - answer points to 32 bytes that can be written, and that nobody else
 *     uses before the call returns.
 *   - image, out and answer do not overlap each other. Neither out nor answer
 *     overlaps one of the two images of mdf3_compare; these are only read, and
 *     may overlap each other or be the same memory. None of all these has to
 *     be aligned.
 *   - for mdf3_physical, the floating-point unit is as a program finds it at
 *     its start: it rounds to the nearest, keeps subnormal numbers (no flush
 *     to zero, which -ffast-math sets) and traps nothing.
 * Less than 16 KB of stack is used.
 *
 * The header is C99 and C++; the libraries are built for x86-64 Linux.
 */
#ifndef MDF3_H
#define MDF3_H

#include <stddef.h>
#include <stdint.h>
#include <string.h>

#define MDF3_VERSION "1.4.0"
/* The same for #if: 10,000 for each major, 100 for each minor number. */
#define MDF3_VERSION_NUMBER 10400

#ifdef __cplusplus
extern "C" {
#endif

/* The numbers that calls return. With each the answer holds one place, which
 * is an offset in the image except where another meaning is given. The first
 * fault in the order of section 5.2 of the rules (share/doc/mdf3/RULES.md)
 * decides, and there is never more than one; of two images the first one's
 * comes before the second's. Check gives 0 to 11 and 17 to 19; copy and compare
 * these, 12 and 13; a sample those of check, 14 and 15, a physical value these
 * and 16. Up to version 1.3.0 the number 5 stood for 17 to 19 too, under the
 * name MDF3_LINK. */

/* Done. Place 0. */
#define MDF3_OK 0
/* The image is longer than 2,147,483,647 bytes. Place 0. */
#define MDF3_TOO_LONG 1
/* The image is shorter than 64 bytes, or begins neither with "MDF" and five
 * spaces nor as in 3. Place 0. */
#define MDF3_NO_MDF 2
/* The image begins with "UnFinMF" and a space: its logger did not finalize
 * it. Place 0. */
#define MDF3_UNFINALIZED 3
/* Byte order or float format is not 0, or the version is not 300 to 399: the
 * place of that field (24, 26, 28). */
#define MDF3_IDENTIFICATION 4
/* A block does not open: the one that a link leads to, or the header block at
 * 64. With 5 its first 4 bytes, identifier and size, are not all in the image.
 * 17, 18 and 19 below are tested after that, in this order. The place of all
 * four is that of the link field; 64 for the header block. */
#define MDF3_BLOCK_HEAD 5
/* Something that is not supported. A trigger, a channel dependency, or from
 * version 330 on a sample reduction: the place of that link field. A conversion
 * of formula 12: the place of its formula field. */
#define MDF3_UNSUPPORTED 6
/* More than 1,024 data groups, 1,024 channel groups or 16,384 channels in the
 * file: the place of the link field that leads to the first one too many.
 * Lists without an end are caught here, those of channel groups here or by
 * 8. */
#define MDF3_TOO_MANY 7
/* Record IDs. More than two ID bytes: the place of that field in the data
 * group. A second channel group where records have no IDs: the link field that
 * leads to it. Where records have IDs, an ID above 255 or used by an earlier
 * channel group of the data group: the place of the ID. */
#define MDF3_RECORD_ID 8
/* A channel of unknown type, with bits outside its record, or of unknown data
 * type: the place of the type, of the start bit, or of the data type. */
#define MDF3_CHANNEL 9
/* A channel group has record size 0, though its record count is not 0: the
 * place of the record size. */
#define MDF3_RECORD_SIZE 10
/* Records. Some are due and the data link is nil: the place of that link
 * field. Otherwise one of them is at fault, and its place is that of its ID,
 * or of its first byte where it has none: no channel group has this ID, or the
 * group has its full count already, or the image ends before the record and
 * its IDs do, or the ID behind the record is not the one before it. The first
 * such record counts. Where it is missing, its place can be the length of the
 * image or more. */
#define MDF3_RECORD 11
/* The canonical copy, of mdf3_compare the difference list, would be longer than
 * 2,147,483,647 bytes. Place 0. */
#define MDF3_COPY_TOO_LONG 12
/* The output is shorter than the canonical copy, or than the difference list:
 * the length needed stands in the place. */
#define MDF3_NO_ROOM 13
/* No such channel group, no such channel of it or no such record of it.
 * Place 0. It is the same number for all three: at record 0 it can be any of
 * them, or a group without records; behind a record that was read it is the
 * end of the group's records. */
#define MDF3_NO_SUCH 14
/* The sample cannot be read: the place of the channel's data type. The channel
 * has no bits; an integer has more than 64, counted with the bits of its lowest
 * byte that lie below it; a float has another width than its type says, or does
 * not begin with a byte; text or bytes do not begin with a byte or are no whole
 * number of them; the data type is a VAX float (4 to 6). */
#define MDF3_NO_SAMPLE 15
/* The sample has no physical value. Place 0. It is text, bytes or a 32-bit
 * float; an integer above 9,007,199,254,740,992 or below its negative; the
 * conversion is neither linear (formula 0, in a block that holds both
 * parameters) nor one to one (65535); or the number, a parameter or the result
 * is infinite or no number. */
#define MDF3_NO_PHYSICAL 16
/* A block does not open: another identifier than that of the kind wanted stands
 * there. The place as with 5. */
#define MDF3_BLOCK_IDENTIFIER 17
/* A block does not open: its size is below the least of its kind. The place as
 * with 5. */
#define MDF3_BLOCK_SIZE 18
/* A block does not open: it ends beyond the end of the image. The place as
 * with 5. */
#define MDF3_BLOCK_END 19

/* The answer: four numbers of 64 bits, lowest byte first.
 *
 *   offset  0  the place    mdf3_place(answer)
 *   offset  8  the value    mdf3_value(answer)
 *   offset 16  the length   mdf3_length(answer)
 *   offset 24  the kind     mdf3_kind(answer)
 *
 * What does not apply to a call is 0. The answer is written whole by every
 * call, whatever it returns.
 */
#define MDF3_ANSWER_SIZE 32

/* One of these numbers, by its offset. */
static inline uint64_t mdf3_number_at(const uint8_t answer[MDF3_ANSWER_SIZE], size_t offset)
{
    uint64_t x = 0;
    for (size_t i = 8; i > 0; i--)
        x = x << 8 | answer[offset + i - 1];
    return x;
}

static inline uint64_t mdf3_place(const uint8_t answer[MDF3_ANSWER_SIZE])
{
    return mdf3_number_at(answer, 0);
}

static inline uint64_t mdf3_value(const uint8_t answer[MDF3_ANSWER_SIZE])
{
    return mdf3_number_at(answer, 8);
}

static inline uint64_t mdf3_length(const uint8_t answer[MDF3_ANSWER_SIZE])
{
    return mdf3_number_at(answer, 16);
}

static inline uint64_t mdf3_kind(const uint8_t answer[MDF3_ANSWER_SIZE])
{
    return mdf3_number_at(answer, 24);
}

/* The 64 bits of the value as a float: where the kind is MDF3_DOUBLE, as it is
 * for every physical value, that is the number itself. */
static inline double mdf3_double(const uint8_t answer[MDF3_ANSWER_SIZE])
{
    uint64_t bits = mdf3_value(answer);
    double value;
    memcpy(&value, &bits, sizeof value);
    return value;
}

/* Whether the image is accepted: returns 0, 1 to 11 or 17 to 19. The answer
 * holds the place; value, length and kind are 0. */
uint32_t mdf3_check(const uint8_t *image, size_t image_len, uint8_t answer[MDF3_ANSWER_SIZE]);

/* Writes the canonical copy of the image to out, which has room for out_len
 * bytes: returns 0, 1 to 13 or 17 to 19. The image need not have been checked
 * before.
 *
 * Done: the copy stands at the start of out, what lies behind it there is
 * left as it was, and the value is the copy's length. Refused: no byte of
 * out is touched, and the value is 0. The answer holds the place; with 13
 * that is the length needed. Length and kind are 0. A call without room asks
 * how much to make:
 *
 *   uint8_t answer[MDF3_ANSWER_SIZE], none;
 *   if (mdf3_copy(image, image_len, &none, 0, answer) == MDF3_NO_ROOM)
 *       out_len = (size_t)mdf3_place(answer);
 *
 * Any other number is why there is no copy. The room can be far more than the
 * image has, since what is shared there is written once for every use.
 *
 * Two images have equal copies, byte for byte, exactly when they say the
 * same, whatever their layout: so a file that says what an earlier one said is
 * known by its copy. Groups, channels and records have the same numbers in the
 * copy as in the image, and the same content; only places differ.
 *
 * In a copy DG, CG and CN blocks have 28, 30 and 228 bytes, so that all their
 * fields are there; HD has 164, from version 320 on 208; TX, PR, CC and CE
 * keep the size that they have in the image. The blocks stand where section 4
 * of the rules says. So how many groups, channels and records there are, and
 * the names and units of channels, can be read from a copy by following its
 * links; tool/list.c in the source does so.
 */
uint32_t mdf3_copy(const uint8_t *image, size_t image_len, uint8_t *out, size_t out_len,
                   uint8_t answer[MDF3_ANSWER_SIZE]);

/* An entry of a difference list: 16 bytes, each number with its lowest byte
 * first. Entries stand one behind the other, with nothing before or behind.
 *
 *   offset  0  the kind, 2 bytes     mdf3_entry_kind(entry)
 *   offset  2  two bytes, 0
 *   offset  4  the group, 4 bytes    mdf3_entry_group(entry)
 *   offset  8  the item, 4 bytes     mdf3_entry_item(entry)
 *   offset 12  the byte, 4 bytes     mdf3_entry_byte(entry)
 *
 * A number that a kind does not use is 0.
 */
#define MDF3_ENTRY_SIZE 16

/* A part of the file outside all groups: the item is one of the four below. */
#define MDF3_ENTRY_FILE 1
/* A group that one of the two alone has. It has no other entry. */
#define MDF3_ENTRY_LONE_GROUP 2
/* In a group that both have: item 0 is its record size and comment, item c + 1
 * its channel c, which differs or which one of the two alone has. */
#define MDF3_ENTRY_GROUP 3
/* A record that both have: the item is its number, and the byte where the two
 * differ first, counted from 0 in the record. Where the shorter is a beginning
 * of the longer, that is the shorter's length. */
#define MDF3_ENTRY_RECORD 4
/* A record, of a group that both have, that one of the two alone has: the item
 * is its number. */
#define MDF3_ENTRY_LONE_RECORD 5

/* The items of MDF3_ENTRY_FILE: the 64 bytes of the identification block; the
 * header's fields, from version 320 on with those that came then; the file's
 * comment; its program block. */
#define MDF3_ITEM_ID 0
#define MDF3_ITEM_HEADER 1
#define MDF3_ITEM_COMMENT 2
#define MDF3_ITEM_PROGRAM 3

/* One of these numbers, by its offset and how many bytes it has. */
static inline uint32_t mdf3_entry_number(const uint8_t entry[MDF3_ENTRY_SIZE], size_t offset, size_t width)
{
    uint32_t x = 0;
    for (size_t i = width; i > 0; i--)
        x = x << 8 | entry[offset + i - 1];
    return x;
}

static inline uint32_t mdf3_entry_kind(const uint8_t entry[MDF3_ENTRY_SIZE])
{
    return mdf3_entry_number(entry, 0, 2);
}

static inline uint32_t mdf3_entry_group(const uint8_t entry[MDF3_ENTRY_SIZE])
{
    return mdf3_entry_number(entry, 4, 4);
}

static inline uint32_t mdf3_entry_item(const uint8_t entry[MDF3_ENTRY_SIZE])
{
    return mdf3_entry_number(entry, 8, 4);
}

static inline uint32_t mdf3_entry_byte(const uint8_t entry[MDF3_ENTRY_SIZE])
{
    return mdf3_entry_number(entry, 12, 4);
}

/* Writes the difference list of two images to out, which has room for out_len
 * bytes: returns 0, 1 to 13 or 17 to 19. Neither image need have been checked
 * before.
 *
 * Done: the list stands at the start of out, what lies behind it there is left
 * as it was, and the value is its length, 16 for each entry. It is 0 exactly
 * when the two images say the same, whatever their layout; then no room is
 * needed. Otherwise there is one entry for each item that differs, in the order
 * of group, kind and item; those of kind 1 have group 0. Groups, channels and
 * records are counted from 0, as for mdf3_sample. Refused: no byte of out is
 * touched, and the value is 0. The answer holds the place; with 13 that is the
 * length needed. Length and kind are 0. A call without room asks how much to
 * make:
 *
 *   uint8_t answer[MDF3_ANSWER_SIZE], none;
 *   uint32_t number = mdf3_compare(first, first_len, second, second_len, &none, 0, answer);
 *
 * MDF3_OK: they say the same. MDF3_NO_ROOM: they differ, and the place is the
 * length of the list. MDF3_COPY_TOO_LONG: they differ too, in more than
 * 134,217,727 items. Any other number, 1 to 11 or 17 to 19, refuses one of the
 * images; that of the first comes before that of the second. Which one it was
 * is not told: it was the first where mdf3_check of it alone gives another
 * number than 0, and else the second. Number and place are those that
 * mdf3_check gives.
 *
 * In which of the two a lone item is, is not told either: in the one that has
 * more groups, more channels in the group, or more records in it.
 */
uint32_t mdf3_compare(const uint8_t *first, size_t first_len, const uint8_t *second, size_t second_len, uint8_t *out,
                      size_t out_len, uint8_t answer[MDF3_ANSWER_SIZE]);

/* The kinds of sample. */
#define MDF3_UNSIGNED 1
#define MDF3_SIGNED 2
#define MDF3_SINGLE 3
#define MDF3_DOUBLE 4
#define MDF3_PART 5

/* The sample of a channel in a record, as it is stored: returns 0, 1 to 11, 14,
 * 15 or 17 to 19. Channel groups, channels of a group and records of a group
 * are counted from 0, the groups over all data groups in the order of the
 * links; any numbers may be given. The image need not have been checked before.
 *
 * Done: the kind is one of those above. The value is, for an unsigned number,
 * the number; for a signed one, its two's complement in 64 bits; for a 32-bit
 * float its bits, in the lower half; for a 64-bit float its bits. The bits of
 * floats are as they are stored, those of NaNs too. For text and bytes the
 * value is the place in the image where they begin and the length is how many
 * bytes they are; all of them lie in the image. Otherwise the length is 0.
 * Refused: value, length and kind are 0, and the answer holds the place.
 */
uint32_t mdf3_sample(const uint8_t *image, size_t image_len, uint64_t group, uint64_t channel, uint64_t record,
                     uint8_t answer[MDF3_ANSWER_SIZE]);

/* Its physical value: returns 0, 1 to 11 or 14 to 19, with numbers as for
 * mdf3_sample.
 *
 * Done: the kind is MDF3_DOUBLE and the value holds the bits of a 64-bit float,
 * which is finite. Without a conversion, or with one to one, it is the sample's
 * number; with a linear conversion the number times the second parameter,
 * rounded, plus the first, rounded. The length is 0. Refused: as for
 * mdf3_sample.
 */
uint32_t mdf3_physical(const uint8_t *image, size_t image_len, uint64_t group, uint64_t channel, uint64_t record,
                       uint8_t answer[MDF3_ANSWER_SIZE]);

#ifdef __cplusplus
}
#endif

#endif
