/* A ledger line from a logged file: the physical values of one channel, such as hours, added up over all records.
 *
 *   ledger FILE GROUP CHANNEL
 *
 * Nothing has to be checked first: every call checks the image itself and says what is wrong with it. The check here only
 * comes early, and the copy is what one would keep: one form for all files that say the same, so that equal copies show a
 * file that has been posted before. The exit status is 0 for a line that can be posted, 1 for a file that is refused (also
 * one without a record to post), 2 for an argument, a file, memory or an output that failed.
 *
 * Every call checks the whole image, so a channel of n records costs n checks: fine for small files. This is C99 and C++. */
#include "mdf3.h"

#include <errno.h>
#include <math.h>
#include <stdio.h>
#include <stdlib.h>

static int trouble(const char *name, const char *what)
{
    fprintf(stderr, "%s: %s\n", name, what);
    return 2;
}

struct bytes {
    uint8_t *at;
    size_t length;
};

/* The whole file; at NULL where it cannot be read. */
static struct bytes load(const char *name)
{
    FILE *f = fopen(name, "rb");
    struct bytes image = {NULL, 0};
    long end;
    if (f == NULL)
        return image;
    if (fseek(f, 0, SEEK_END) == 0 && (end = ftell(f)) >= 0 && fseek(f, 0, SEEK_SET) == 0) {
        image.length = (size_t)end;
        /* one byte more, so that an empty file has a pointer too */
        image.at = (uint8_t *)malloc(image.length + 1);
        if (image.at != NULL && fread(image.at, 1, image.length, f) != image.length) {
            free(image.at);
            image.at = NULL;
        }
    }
    fclose(f);
    return image;
}

/* A number in decimal digits alone. */
static int read_number(const char *text, uint64_t *number)
{
    char *end;
    errno = 0;
    *number = strtoull(text, &end, 10);
    return text[0] >= '0' && text[0] <= '9' && *end == '\0' && errno == 0;
}

static int refused(const char *name, uint32_t number, const uint8_t *answer)
{
    printf("%s: refused, %u at %llu\n", name, (unsigned)number, (unsigned long long)mdf3_place(answer));
    return 1;
}

/* Adds up until there are no more records. The last number is MDF3_NO_SUCH, or why a value cannot be posted. */
static uint32_t add_up(struct bytes image, uint64_t group, uint64_t channel, uint8_t *answer, uint64_t *count, double *total)
{
    uint32_t number;
    for (*count = 0;; ++*count) {
        number = mdf3_physical(image.at, image.length, group, channel, *count, answer);
        if (number != MDF3_OK)
            return number;
        *total += mdf3_double(answer);
    }
}

static int post_copy(const char *name, struct bytes image, struct bytes copy, uint64_t group, uint64_t channel)
{
    uint8_t answer[MDF3_ANSWER_SIZE];
    uint64_t count;
    double total = 0;
    uint32_t number = add_up(copy, group, channel, answer, &count, &total);
    /* behind a record, "no such record" is the end; at the first it may be the group or the channel that is not there */
    if (number != MDF3_NO_SUCH || count == 0) {
        /* the same numbers lead to the same sample in the file; only there its place is what the reader looks for */
        number = mdf3_physical(image.at, image.length, group, channel, count, answer);
        return refused(name, number, answer);
    }
    if (!isfinite(total))
        return trouble(name, "the total is too large");
    printf("%s: %llu records, total %.2f\n", name, (unsigned long long)count, total);
    return 0;
}

/* Posts from the canonical copy, in memory of its own. */
static int post(const char *name, struct bytes image, uint64_t group, uint64_t channel)
{
    uint8_t answer[MDF3_ANSWER_SIZE], none;
    struct bytes copy;
    int result;
    uint32_t number = mdf3_check(image.at, image.length, answer);
    if (number != MDF3_OK)
        return refused(name, number, answer);
    /* with no room, an image that can be copied gives the length needed */
    number = mdf3_copy(image.at, image.length, &none, 0, answer);
    if (number != MDF3_NO_ROOM)
        return refused(name, number, answer);
    copy.length = (size_t)mdf3_place(answer);
    copy.at = (uint8_t *)malloc(copy.length);
    if (copy.at == NULL)
        return trouble(name, "no memory for its copy");
    number = mdf3_copy(image.at, image.length, copy.at, copy.length, answer);
    result = number == MDF3_OK ? post_copy(name, image, copy, group, channel) : refused(name, number, answer);
    free(copy.at);
    return result;
}

int main(int argc, char **argv)
{
    uint64_t group, channel;
    struct bytes image;
    int result;
    if (argc != 4 || !read_number(argv[2], &group) || !read_number(argv[3], &channel))
        return trouble("usage", "ledger FILE GROUP CHANNEL");
    image = load(argv[1]);
    if (image.at == NULL)
        return trouble(argv[1], "cannot be read");
    result = post(argv[1], image, group, channel);
    free(image.at);
    if (fflush(stdout) != 0 || ferror(stdout))
        return trouble("standard output", "cannot be written");
    return result;
}
