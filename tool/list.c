/* What a file holds, taken from its canonical copy: there DG, CG and CN blocks hold all their fields, a conversion its unit, and
 * every link leads to a block that is there whole. */
#include "blocks.h"
#include "tool.h"
#include "words.h"

#include <stdio.h>

/* A conversion holds the unit at 22, in 20 bytes. */
static void print_unit(const struct file *f, size_t cn)
{
    struct part cc = body(block_at(f, cn), 8);
    if (cc.bytes == NULL || cc.bytes[22 - 4] == 0)
        return;
    printf(", unit ");
    print_text(stdout, cc.bytes + 22 - 4, 20);
}

static void list_channel(const struct file *f, size_t cn, unsigned number)
{
    unsigned bits = u16(f, cn + 188);
    struct part name = channel_name(f, cn);
    printf("  channel %u: ", number);
    print_text(stdout, name.bytes, name.length);
    printf(", %s, %u bit%s", type_name(u16(f, cn + 190)), bits, plural(bits));
    print_unit(f, cn);
    printf("%s\n", u16(f, cn + 24) == 1 ? ", time channel" : "");
}

static void list_group(const struct file *f, size_t dg, unsigned number)
{
    size_t cg = u32(f, dg + 8), cn;
    unsigned channel = 0;
    unsigned long records = u32(f, cg + 22);
    unsigned size = u16(f, cg + 20), channels = u16(f, cg + 18);
    printf("group %u: %lu record%s of %u byte%s, %u channel%s\n", number, records, plural(records), size, plural(size), channels,
           plural(channels));
    for (cn = u32(f, cg + 8); cn != 0; cn = u32(f, cn + 4))
        list_channel(f, cn, channel++);
}

static void list_file(const char *name, const struct file *f)
{
    unsigned version = u16(f, 28), group = 0;
    print_name(stdout, name);
    printf(": 0 0 version %u.%02u, %u group%s\n", version / 100, version % 100, u16(f, 64 + 16), plural(u16(f, 64 + 16)));
    for (size_t dg = u32(f, 64 + 4); dg != 0; dg = u32(f, dg + 4))
        list_group(f, dg, group++);
}

int list_command(int count, char **names)
{
    struct file image, copy;
    int result = load_one(names[0], &image);
    (void)count;
    if (result != DONE)
        return result;
    result = copy_in_memory(names[0], &image, &copy);
    unload(&image);
    if (result != DONE)
        return result;
    list_file(names[0], &copy);
    unload(&copy);
    return DONE;
}
