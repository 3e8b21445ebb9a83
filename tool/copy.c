#include "tool.h"
#include "words.h"

#include <stdio.h>

/* The copy goes out; number, place and length are told. */
static int put(const char *from, const char *to, const struct file *copy)
{
    switch (store(to, copy->bytes, copy->length)) {
    case STORED:
        print_name(stdout, from);
        printf(": 0 0 copied to ");
        print_name(stdout, to);
        printf(", %zu bytes\n", copy->length);
        return DONE;
    case UNSYNCED:
        return complain_of(to, "is written, but may not be on the disk yet");
    default:
        return complain_of(to, "cannot be written");
    }
}

int copy_command(int count, char **names)
{
    const char *from = names[0], *to = names[1], *against = not_to_write(from, to);
    struct file image, copy;
    int result;
    (void)count;
    if (against != NULL)
        return complain(to, against, NULL);
    result = load_one(from, &image);
    if (result != DONE)
        return result;
    result = copy_in_memory(from, &image, &copy);
    unload(&image);
    if (result != DONE)
        return result;
    /* it may have changed while the file was read */
    against = not_to_write(from, to);
    result = against == NULL ? put(from, to, &copy) : complain(to, against, NULL);
    unload(&copy);
    return result;
}
