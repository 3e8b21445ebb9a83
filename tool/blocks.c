#include "blocks.h"

#include <string.h>

unsigned u16(const struct file *f, size_t at)
{
    return f->bytes[at] + 256u * f->bytes[at + 1];
}

uint32_t u32(const struct file *f, size_t at)
{
    return u16(f, at) + 65536u * u16(f, at + 2);
}

struct block block_at(const struct file *f, size_t at)
{
    struct block b;
    b.f = f;
    b.at = at;
    b.size = u16(f, at + 2);
    return b;
}

struct part field(struct block b, size_t offset, size_t length)
{
    static const uint8_t zeros[128];
    struct part p;
    p.bytes = offset + length <= b.size ? b.f->bytes + b.at + offset : zeros;
    p.length = length;
    return p;
}

struct part body(struct block b, size_t offset)
{
    size_t at = offset + 4 <= b.size ? u32(b.f, b.at + offset) : 0;
    struct part p = {NULL, 0};
    if (at != 0) {
        p.bytes = b.f->bytes + at + 4;
        p.length = block_at(b.f, at).size - 4;
    }
    return p;
}

int same_part(struct part one, struct part other)
{
    if (one.bytes == NULL || other.bytes == NULL)
        return one.bytes == other.bytes;
    return one.length == other.length && memcmp(one.bytes, other.bytes, one.length) == 0;
}

static struct part up_to_zero(struct part p)
{
    const uint8_t *zero = p.length == 0 ? NULL : memchr(p.bytes, 0, p.length);
    if (zero != NULL)
        p.length = (size_t)(zero - p.bytes);
    return p;
}

struct part channel_name(const struct file *f, size_t cn)
{
    struct block b = block_at(f, cn);
    struct part name = up_to_zero(body(b, 218));
    return name.length > 0 ? name : up_to_zero(field(b, 26, 32));
}

struct group next_group(const struct file *f, struct group g)
{
    if (g.cg != 0)
        g.cg = u32(f, g.cg + 4);
    /* a data group may be empty */
    while (g.cg == 0 && g.dg != 0) {
        g.dg = u32(f, g.dg + 4);
        g.cg = g.dg == 0 ? 0 : u32(f, g.dg + 8);
    }
    return g;
}

struct group first_group(const struct file *f)
{
    /* the header's link to the first data group stands where theirs to the next one does */
    struct group header = {64, 0};
    return next_group(f, header);
}
