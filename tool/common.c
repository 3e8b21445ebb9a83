#include "mdf3.h"
#include "tool.h"
#include "words.h"

#include <errno.h>
#include <inttypes.h>
#include <stdio.h>
#include <stdlib.h>
#include <string.h>

int complain(const char *name, const char *what, const char *why)
{
    fflush(stdout);
    fprintf(stderr, "mdf3: ");
    print_name(stderr, name);
    fprintf(stderr, ": %s%s%s\n", what, why == NULL ? "" : ": ", why == NULL ? "" : why);
    return TROUBLE;
}

int complain_of(const char *name, const char *what)
{
    return complain(name, what, errno == 0 ? NULL : strerror(errno));
}

int complain_refused(const char *name, uint32_t number, uint64_t place)
{
    char what[200];
    snprintf(what, sizeof what, "%" PRIu32 " %" PRIu64 " %s", number, place, in_words(number, place));
    return complain(name, what, NULL);
}

void print_line(const char *name, uint32_t number, uint64_t place)
{
    print_name(stdout, name);
    printf(": %" PRIu32 " %" PRIu64 " %s\n", number, place, in_words(number, place));
}

int load_one(const char *name, struct file *f)
{
    switch (load(name, f)) {
    case LOADED:
        return DONE;
    case TOO_LONG:
        print_line(name, MDF3_TOO_LONG, 0);
        return REFUSED;
    default:
        return complain_of(name, "cannot be read");
    }
}

int copy_in_memory(const char *name, const struct file *image, struct file *copy)
{
    uint8_t answer[MDF3_ANSWER_SIZE], none;
    uint32_t number;
    /* with no room, an image that can be copied gives the length needed */
    number = mdf3_copy(image->bytes, image->length, &none, 0, answer);
    if (number == MDF3_NO_ROOM) {
        copy->length = (size_t)mdf3_place(answer);
        copy->bytes = malloc(copy->length);
        if (copy->bytes == NULL)
            return complain_of(name, "its copy has no room in memory");
        number = mdf3_copy(image->bytes, image->length, copy->bytes, copy->length, answer);
        if (number == MDF3_OK)
            return DONE;
        unload(copy);
    }
    print_line(name, number, mdf3_place(answer));
    return REFUSED;
}
