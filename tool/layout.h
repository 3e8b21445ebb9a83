/* Which channel of a group has bits in a byte of its records. */
#ifndef LAYOUT_H
#define LAYOUT_H

#include "blocks.h"

struct holder {
    size_t cn; /* the place of its block, 0 where no channel has bits there */
    uint32_t channel;
    int shared; /* others have bits there too */
};

/* Of one file alone: what was found for a group is kept until it is asked for another. */
const struct holder *holder_of(const struct file *f, size_t cg, uint32_t byte);

#endif
