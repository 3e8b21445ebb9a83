/* Files in memory, and files written whole or not at all. */
#ifndef FILE_H
#define FILE_H

#include <stddef.h>
#include <stdint.h>

struct file {
    uint8_t *bytes; /* never NULL where the file is loaded, also of an empty file */
    size_t length;
};

enum loaded {
    LOADED,
    TOO_LONG, /* longer than the library takes: not read, or not to the end */
    UNREAD    /* errno says why */
};

/* Reads a file into memory, standard input for "-". */
enum loaded load(const char *name, struct file *f);

void unload(struct file *f);

/* Why a copy of one file is not written under another name; NULL where nothing is against it. */
const char *not_to_write(const char *from, const char *to);

enum stored {
    STORED,   /* the file is there, on the disk */
    UNSTORED, /* nothing has changed; errno says why */
    UNSYNCED  /* the file is there, but perhaps not yet on the disk; errno says why */
};

/* Writes a file whole or not at all. */
enum stored store(const char *name, const uint8_t *bytes, size_t length);

#endif
