#include "parts.h"

#include <stdio.h>

struct row {
    const char *words;
    size_t offset, length; /* length 0: the body behind the link there */
};

/* All accepted files have the same bytes before 8 and from 24 to 27. */
static const struct row ident[] = {
    {"format identifier", 8, 8},
    {"program identifier", 16, 8},
    {"version", 28, 2},
    {"code page", 30, 2},
    {"reserved bytes", 32, 28},
    {"flags", 60, 4},
};

/* The last LATER fields are there from version 320 on. */
#define LATER 4
static const struct row header[] = {
    {"date", 18, 10},
    {"time", 28, 8},
    {"author", 36, 32},
    {"organization", 68, 32},
    {"project", 100, 32},
    {"subject", 132, 32},
    {"time stamp", 164, 8},
    {"UTC offset", 172, 2},
    {"time quality", 174, 2},
    {"timer identification", 176, 32},
};

static const struct row group[] = {
    {"record size", 20, 2},
    {"comment", 12, 0},
};

static const struct row channel[] = {
    {"type", 24, 2},
    {"name", 26, 32},
    {"description", 58, 128},
    {"start bit", 186, 2},
    {"number of bits", 188, 2},
    {"data type", 190, 2},
    {"range", 192, 18},
    {"rate", 210, 8},
    {"added byte offset", 226, 2},
    {"conversion", 8, 0},
    {"extension", 12, 0},
    {"comment", 20, 0},
    {"long name", 218, 0},
    {"display name", 222, 0},
};

#define COUNT(rows) (sizeof(rows) / sizeof(rows)[0])

static int differs(struct row r, struct block one, struct block other)
{
    if (r.length == 0)
        return !same_part(body(one, r.offset), body(other, r.offset));
    return !same_part(field(one, r.offset, r.length), field(other, r.offset, r.length));
}

/* How many there are. */
static int print_rows(const struct row *rows, size_t count, struct block one, struct block other)
{
    int told = 0;
    fputs(": differs", stdout);
    for (size_t i = 0; i < count; i++)
        if (differs(rows[i], one, other))
            printf("%s%s", told++ == 0 ? " in " : ", ", rows[i].words);
    return told;
}

void print_ident_parts(const struct file *one, const struct file *other)
{
    /* it has no size of its own */
    struct block b = {one, 0, 64}, c = {other, 0, 64};
    print_rows(ident, COUNT(ident), b, c);
}

void print_header_parts(const struct file *one, const struct file *other)
{
    int later = u16(one, 28) >= 320, also = u16(other, 28) >= 320;
    size_t count = COUNT(header) - (later && also ? 0 : LATER);
    int told = print_rows(header, count, block_at(one, 64), block_at(other, 64));
    if (later != also)
        printf("%sfields since version 3.20", told == 0 ? " in " : ", ");
}

void print_group_parts(const struct file *one, size_t cg, const struct file *other, size_t other_cg)
{
    print_rows(group, COUNT(group), block_at(one, cg), block_at(other, other_cg));
}

void print_channel_parts(const struct file *one, size_t cn, const struct file *other, size_t other_cn)
{
    print_rows(channel, COUNT(channel), block_at(one, cn), block_at(other, other_cn));
}
