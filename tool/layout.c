#include "layout.h"

#include <string.h>

/* Records have at most 65,535 bytes; one more, for a place behind the last. */
static struct holder holders[65536];

static void hold(const struct file *f, size_t cn, uint32_t channel)
{
    unsigned start = u16(f, cn + 186), bits = u16(f, cn + 188);
    const uint8_t *added = field(block_at(f, cn), 226, 2).bytes;
    size_t from = start / 8 + added[0] + 256u * added[1];
    size_t to = from + (bits == 0 ? 0 : (start % 8 + bits + 7) / 8);
    for (size_t i = from; i < to; i++) {
        if (holders[i].cn != 0) {
            holders[i].shared = 1;
            continue;
        }
        holders[i].cn = cn;
        holders[i].channel = channel;
    }
}

const struct holder *holder_of(const struct file *f, size_t cg, uint32_t byte)
{
    static size_t known;
    uint32_t channel = 0;
    if (cg != known) {
        memset(holders, 0, sizeof holders);
        for (size_t cn = u32(f, cg + 8); cn != 0; cn = u32(f, cn + 4))
            hold(f, cn, channel++);
        known = cg;
    }
    return &holders[byte];
}
