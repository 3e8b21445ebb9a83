/* Files to measure on, and a clock. */
#ifndef MADE_H
#define MADE_H

#include <stddef.h>
#include <stdint.h>

struct shape {
    const char *name;
    size_t room;       /* about so many bytes */
    unsigned mode;     /* how many ID bytes a record has; with none there is one group */
    unsigned groups;   /* their records are from least to most bytes long */
    unsigned channels; /* of each group */
    unsigned least, most;
    unsigned files; /* so many of them; more than one differ from each other */
    int random;     /* the records of all groups come in random order, else in turn */
};

/* A shape with a little more or less of everything, and the records in either order; the same for the same seed. */
struct shape varied(const struct shape *s, uint64_t seed);

/* Makes a file; its length. The data are filled up with records of all groups; seeds give other bytes and another order. */
size_t made(uint8_t *image, const struct shape *s, uint64_t seed);

/* Changes the last byte of every nth record of a file of this shape, n being "every". */
void change_records(uint8_t *image, size_t length, const struct shape *s, unsigned every);

/* Seconds. */
double now(void);

#endif
