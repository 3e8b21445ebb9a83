/* Two files that are said to be of the same shift: do they say the same, and if not, in what do they differ?
 *
 *   shifts FILE OTHER
 *
 * Neither file has to be checked first, and their blocks may stand in any order. The exit status is 0 for files that say the
 * same, 1 for files that differ, 2 for a file that is refused or for an argument, a file, memory or an output that failed. `mdf3 compare` says it in more words: with the names of channels, and which file has an item alone.
 *
 * This is C99 and C++. */
#include "mdf3.h"

#include <stdio.h>
#include <stdlib.h>

static int trouble(const char *name, const char *what)
{
    fprintf(stderr, "%s: %s\n", name, what);
    return 2;
}

struct bytes {
    const char *name;
    uint8_t *at;
    size_t length;
};

/* The whole file; at NULL where it cannot be read. */
static struct bytes load(const char *name)
{
    FILE *f = fopen(name, "rb");
    struct bytes image = {name, NULL, 0};
    long end;
    if (f == NULL)
        return image;
    if (fseek(f, 0, SEEK_END) == 0 && (end = ftell(f)) >= 0 && fseek(f, 0, SEEK_SET) == 0) {
        image.length = (size_t)end;
        /* one byte more, so that an empty file has a pointer too */
        image.at = (uint8_t *)malloc(image.length + 1);
        if (image.at != NULL && fread(image.at, 1, image.length, f) != image.length) {
            free(image.at);
            image.at = NULL;
        }
    }
    fclose(f);
    return image;
}

static uint32_t compare(struct bytes one, struct bytes other, uint8_t *out, size_t out_len, uint8_t *answer)
{
    return mdf3_compare(one.at, one.length, other.at, other.length, out, out_len, answer);
}

/* The call does not say which of the two it refuses: it is the first, unless that passes by itself. */
static int refused(struct bytes one, struct bytes other, uint32_t number, uint64_t place)
{
    uint8_t answer[MDF3_ANSWER_SIZE];
    const char *name = mdf3_check(one.at, one.length, answer) != MDF3_OK ? one.name : other.name;
    fprintf(stderr, "%s: refused, %u at %llu\n", name, (unsigned)number, (unsigned long long)place);
    return 2;
}

static void tell(const uint8_t *entry)
{
    static const char *const parts[4] = {"identification", "header", "comment", "program block"};
    unsigned group = mdf3_entry_group(entry), item = mdf3_entry_item(entry);
    switch (mdf3_entry_kind(entry)) {
    case MDF3_ENTRY_FILE:
        printf("%s\n", parts[item]);
        break;
    case MDF3_ENTRY_LONE_GROUP:
        printf("group %u, in one file only\n", group);
        break;
    case MDF3_ENTRY_GROUP:
        if (item == 0)
            printf("group %u, record size or comment\n", group);
        else
            printf("group %u, channel %u\n", group, item - 1);
        break;
    case MDF3_ENTRY_RECORD:
        printf("group %u, record %u, first differs at byte %u\n", group, item, (unsigned)mdf3_entry_byte(entry));
        break;
    default:
        printf("group %u, record %u, in one file only\n", group, item);
        break;
    }
}

/* A list of so many bytes. */
static int tell_all(struct bytes one, struct bytes other, size_t length)
{
    uint8_t answer[MDF3_ANSWER_SIZE], *list = (uint8_t *)malloc(length);
    if (list == NULL)
        return trouble(other.name, "no memory for its differences");
    compare(one, other, list, length, answer);
    printf("%s, %s: differences: %zu\n", one.name, other.name, length / MDF3_ENTRY_SIZE);
    for (size_t at = 0; at < length; at += MDF3_ENTRY_SIZE)
        tell(list + at);
    free(list);
    return 1;
}

static int judge(struct bytes one, struct bytes other)
{
    uint8_t answer[MDF3_ANSWER_SIZE], none;
    /* with no room, files that differ give the length of the list */
    uint32_t number = compare(one, other, &none, 0, answer);
    switch (number) {
    case MDF3_OK:
        printf("%s, %s: both say the same\n", one.name, other.name);
        return 0;
    case MDF3_NO_ROOM:
        return tell_all(one, other, (size_t)mdf3_place(answer));
    case MDF3_COPY_TOO_LONG:
        return trouble(other.name, "too many differences to list");
    default:
        return refused(one, other, number, mdf3_place(answer));
    }
}

int main(int argc, char **argv)
{
    struct bytes one, other;
    int result;
    if (argc != 3)
        return trouble("usage", "shifts FILE OTHER");
    one = load(argv[1]);
    other = load(argv[2]);
    if (one.at == NULL || other.at == NULL)
        result = trouble(one.at == NULL ? one.name : other.name, "cannot be read");
    else
        result = judge(one, other);
    free(one.at);
    free(other.at);
    if (fflush(stdout) != 0 || ferror(stdout))
        return trouble("standard output", "cannot be written");
    return result;
}
