#define _XOPEN_SOURCE 700
#include "file.h"

#include <errno.h>
#include <fcntl.h>
#include <stdlib.h>
#include <string.h>
#include <sys/stat.h>
#include <unistd.h>

/* The longest image that the library takes. */
#define MOST 2147483647u

/* Room for more bytes: what is there is kept. */
static int grow(struct file *f, size_t *room)
{
    size_t wanted = *room < 65536 ? 65536 : *room > MOST / 2 ? (size_t)MOST + 1 : 2 * *room;
    uint8_t *more = realloc(f->bytes, wanted);
    if (more == NULL)
        return -1;
    f->bytes = more;
    *room = wanted;
    return 0;
}

/* Reads to the end, as long as that is not too far. */
static enum loaded read_all(int fd, struct file *f, size_t room)
{
    for (;;) {
        ssize_t got;
        if (f->length > MOST)
            return TOO_LONG;
        if (f->length == room && grow(f, &room) != 0)
            return UNREAD;
        got = read(fd, f->bytes + f->length, room - f->length);
        if (got == 0)
            return LOADED;
        if (got > 0)
            f->length += (size_t)got;
        else if (errno != EINTR)
            return UNREAD;
    }
}

static enum loaded load_from(int fd, struct file *f)
{
    struct stat about;
    size_t room = 65536;
    if (fstat(fd, &about) != 0)
        return UNREAD;
    if (S_ISREG(about.st_mode)) {
        /* standard input need not stand at its start */
        off_t at = lseek(fd, 0, SEEK_CUR), left = about.st_size - (at > 0 ? at : 0);
        if (left > (off_t)MOST)
            return TOO_LONG;
        /* one byte more than it has now, so that its end shows without another turn */
        room = (size_t)(left > 0 ? left : 0) + 1;
    }
    f->bytes = malloc(room);
    if (f->bytes == NULL)
        return UNREAD;
    return read_all(fd, f, room);
}

enum loaded load(const char *name, struct file *f)
{
    enum loaded result;
    int fd = strcmp(name, "-") == 0 ? STDIN_FILENO : open(name, O_RDONLY);
    f->bytes = NULL;
    f->length = 0;
    if (fd < 0)
        return UNREAD;
    result = load_from(fd, f);
    if (result != LOADED)
        unload(f);
    if (fd != STDIN_FILENO) {
        int kept = errno;
        close(fd);
        errno = kept;
    }
    return result;
}

void unload(struct file *f)
{
    int kept = errno;
    free(f->bytes);
    errno = kept;
    f->bytes = NULL;
    f->length = 0;
}
