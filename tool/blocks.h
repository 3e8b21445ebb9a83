/* Blocks of an accepted file: there every link leads to a block of its kind, which is there whole. */
#ifndef BLOCKS_H
#define BLOCKS_H

#include "file.h"

unsigned u16(const struct file *f, size_t at);
uint32_t u32(const struct file *f, size_t at);

struct block {
    const struct file *f;
    size_t at, size;
};

struct block block_at(const struct file *f, size_t at);

/* Bytes of a file. */
struct part {
    const uint8_t *bytes; /* NULL where they are absent */
    size_t length;
};

/* A field of at most 128 bytes: zeros where the block is too short for it. */
struct part field(struct block b, size_t offset, size_t length);

/* The body behind a link field: all bytes behind that block's head; absent behind a nil link. */
struct part body(struct block b, size_t offset);

int same_part(struct part one, struct part other);

/* The name of a channel, up to its first zero byte: the long one where there is one, else the short one. */
struct part channel_name(const struct file *f, size_t cn);

/* A channel group: the places of its block and of its data group's, both 0 behind the last one. */
struct group {
    size_t dg, cg;
};

struct group first_group(const struct file *f);
struct group next_group(const struct file *f, struct group g);

#endif
