/* A target for libFuzzer: whatever the bytes are, the library and both rewrites in plain C answer alike. The first 12 bytes of
 * the input choose what is asked for, the others are the image: four a sample, four where the image is cut in two for a
 * difference list, three a byte, and one what is changed there in a copy that the image is compared with. */
#include "../bench/plain.h"
#include "mdf3.h"

#include <stdlib.h>
#include <string.h>

/* Longer copies and lists are only asked for their length. */
#define MOST (1u << 20)
#define HEAD 12

int LLVMFuzzerTestOneInput(const uint8_t *bytes, size_t length);

static void same(uint32_t one, const uint8_t *told, uint32_t other, const uint8_t *plain)
{
    if (one != other || memcmp(told, plain, MDF3_ANSWER_SIZE) != 0)
        abort();
}

static void check(const struct calls *c, const uint8_t *image, size_t length)
{
    uint8_t told[MDF3_ANSWER_SIZE], plain[MDF3_ANSWER_SIZE];
    uint32_t number = mdf3_check(image, length, told);
    same(number, told, c->check(image, length, plain), plain);
}

/* Both copies in so much room, with the bytes behind them. */
static void copy_into(const struct calls *c, const uint8_t *image, size_t length, size_t room)
{
    uint8_t told[MDF3_ANSWER_SIZE], plain[MDF3_ANSWER_SIZE];
    uint8_t *one = malloc(room + 1), *other = malloc(room + 1);
    uint32_t number;
    if (one == NULL || other == NULL)
        abort();
    memset(one, 0xA5, room);
    memset(other, 0xA5, room);
    number = mdf3_copy(image, length, one, room, told);
    same(number, told, c->copy(image, length, other, room, plain), plain);
    if (memcmp(one, other, room) != 0)
        abort();
    free(one);
    free(other);
}

static void copy(const struct calls *c, const uint8_t *image, size_t length)
{
    uint8_t told[MDF3_ANSWER_SIZE], none;
    uint64_t needed;
    copy_into(c, image, length, 0);
    if (mdf3_copy(image, length, &none, 0, told) != MDF3_NO_ROOM)
        return;
    needed = mdf3_place(told);
    if (needed > MOST)
        return;
    copy_into(c, image, length, (size_t)needed);
    copy_into(c, image, length, (size_t)needed - 1);
    copy_into(c, image, length, (size_t)needed + 9);
}

static void sample(const struct calls *c, const uint8_t *image, size_t length, uint64_t group, uint64_t channel,
                   uint64_t record)
{
    uint8_t told[MDF3_ANSWER_SIZE], plain[MDF3_ANSWER_SIZE];
    uint32_t number = mdf3_sample(image, length, group, channel, record, told);
    same(number, told, c->sample(image, length, group, channel, record, plain), plain);
    number = mdf3_physical(image, length, group, channel, record, told);
    same(number, told, c->physical(image, length, group, channel, record, plain), plain);
}

struct part {
    const uint8_t *bytes;
    size_t length;
};

/* Both lists in so much room, with the bytes behind them. */
static void list_into(const struct calls *c, struct part a, struct part b, size_t room)
{
    uint8_t told[MDF3_ANSWER_SIZE], plain[MDF3_ANSWER_SIZE];
    uint8_t *one = malloc(room + 1), *other = malloc(room + 1);
    uint32_t number;
    if (one == NULL || other == NULL)
        abort();
    memset(one, 0xA5, room);
    memset(other, 0xA5, room);
    number = mdf3_compare(a.bytes, a.length, b.bytes, b.length, one, room, told);
    same(number, told, c->compare(a.bytes, a.length, b.bytes, b.length, other, room, plain), plain);
    if (memcmp(one, other, room) != 0)
        abort();
    free(one);
    free(other);
}

static void list(const struct calls *c, struct part a, struct part b)
{
    uint8_t told[MDF3_ANSWER_SIZE], none;
    uint64_t needed;
    list_into(c, a, b, 0);
    if (mdf3_compare(a.bytes, a.length, b.bytes, b.length, &none, 0, told) != MDF3_NO_ROOM)
        return;
    needed = mdf3_place(told);
    if (needed > MOST)
        return;
    list_into(c, a, b, (size_t)needed);
    list_into(c, a, b, (size_t)needed - 1);
    list_into(c, a, b, (size_t)needed + 9);
}

/* The two parts of the image, where it is cut. */
static void lists_of_parts(const struct calls *c, const uint8_t *bytes, struct part image)
{
    size_t cut = bytes[4] + 256u * bytes[5] + 65536u * bytes[6] + 16777216u * bytes[7];
    if (cut < image.length) {
        struct part first = {image.bytes, cut}, second = {image.bytes + cut, image.length - cut};
        list(c, first, second);
        list(c, second, first);
    }
}

/* The image and a copy with one byte changed. */
static void lists_of_changed(const struct calls *c, const uint8_t *bytes, struct part image)
{
    uint8_t *changed = malloc(image.length + 1);
    struct part other = {changed, image.length};
    if (changed == NULL)
        abort();
    memcpy(changed, image.bytes, image.length);
    if (image.length > 0)
        changed[(bytes[8] + 256u * bytes[9] + 65536u * bytes[10]) % image.length] ^= bytes[11];
    list(c, image, other);
    list(c, other, image);
    free(changed);
}

static void compare(const struct calls *c, const uint8_t *bytes, struct part image)
{
    check(c, image.bytes, image.length);
    copy(c, image.bytes, image.length);
    sample(c, image.bytes, image.length, bytes[0], bytes[1], bytes[2] + 256u * bytes[3]);
    sample(c, image.bytes, image.length, 0, bytes[1] % 4, bytes[2] % 4);
    lists_of_parts(c, bytes, image);
    lists_of_changed(c, bytes, image);
}

int LLVMFuzzerTestOneInput(const uint8_t *bytes, size_t length)
{
    struct part image;
    if (length < HEAD)
        return 0;
    image.bytes = bytes + HEAD;
    image.length = length - HEAD;
    compare(&by_search, bytes, image);
    compare(&by_table, bytes, image);
    return 0;
}
