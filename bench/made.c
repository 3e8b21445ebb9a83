#define _POSIX_C_SOURCE 200809L
#include "made.h"

#include <string.h>
#include <time.h>

static void put(uint8_t *image, size_t at, uint64_t x, int n)
{
    for (int i = 0; i < n; i++)
        image[at + (size_t)i] = (uint8_t)(x >> (8 * i));
}

static size_t block(uint8_t *image, size_t *end, const char *id, unsigned size)
{
    size_t at = *end;
    memcpy(image + at, id, 2);
    put(image, at + 2, size, 2);
    *end += size;
    return at;
}

/* The record size of a group: all from the least to the most, in steps. */
static unsigned size_of(const struct shape *s, unsigned g)
{
    return s->least + (s->groups == 1 ? 0 : (s->most - s->least) * g / (s->groups - 1));
}

/* One channel group with its channels, behind a link field. */
static size_t group(uint8_t *image, size_t *end, size_t link, const struct shape *s, unsigned g)
{
    size_t cg = block(image, end, "CG", 30);
    put(image, link, cg, 4);
    put(image, cg + 16, g, 2);
    put(image, cg + 20, size_of(s, g), 2);
    link = cg + 8;
    for (unsigned n = 0; n < s->channels; n++) {
        size_t cn = block(image, end, "CN", 228);
        put(image, link, cn, 4);
        put(image, cn + 186, 16 * (n % (size_of(s, g) / 2)), 2);
        put(image, cn + 188, 16, 2);
        link = cn + 4;
    }
    return cg;
}

/* The next number of a row that looks random (splitmix64). */
static uint64_t chance(uint64_t *state)
{
    uint64_t x = *state += 0x9E3779B97F4A7C15u;
    x = (x ^ x >> 30) * 0xBF58476D1CE4E5B9u;
    x = (x ^ x >> 27) * 0x94D049BB133111EBu;
    return x ^ x >> 31;
}

/* Bytes that differ, so that a record in a wrong place shows. */
static void fill(uint8_t *record, unsigned size, uint64_t *state)
{
    for (; size > 8; size -= 8, record += 8)
        put(record, 0, chance(state), 8);
    put(record, 0, chance(state), (int)size);
}

/* The group of the next record. */
static unsigned next_group(const struct shape *s, unsigned g, uint64_t *state)
{
    return (unsigned)((s->random ? chance(state) : g + 1) % s->groups);
}

/* Records of all groups, as long as there is room. */
static void records(uint8_t *image, size_t *end, const struct shape *s, const size_t *cg, uint64_t state)
{
    uint32_t counts[256] = {0};
    for (unsigned g = 0; s->room - *end >= size_of(s, g) + s->mode; g = next_group(s, g, &state)) {
        unsigned size = size_of(s, g);
        if (s->mode > 0)
            image[*end] = (uint8_t)g;
        fill(image + *end + (s->mode > 0), size, &state);
        if (s->mode > 1)
            image[*end + 1 + size] = (uint8_t)g;
        *end += size + s->mode;
        counts[g]++;
    }
    for (unsigned g = 0; g < s->groups; g++)
        put(image, cg[g] + 22, counts[g], 4);
}

size_t made(uint8_t *image, const struct shape *s, uint64_t seed)
{
    size_t cg[256], end = 64, hd, dg, link;
    memset(image, 0, s->room);
    memcpy(image, "MDF     3.30    bench   ", 24);
    put(image, 28, 330, 2);
    hd = block(image, &end, "HD", 208);
    dg = block(image, &end, "DG", 28);
    put(image, hd + 4, dg, 4);
    put(image, dg + 22, s->mode, 2);
    link = dg + 8;
    for (unsigned g = 0; g < s->groups; g++) {
        cg[g] = group(image, &end, link, s, g);
        link = cg[g] + 4;
    }
    put(image, dg + 16, end, 4);
    records(image, &end, s, cg, seed);
    return end;
}

void change_records(uint8_t *image, size_t length, const struct shape *s, unsigned every)
{
    const uint8_t *link = image + 64 + 208 + 16; /* of the one data group, behind the header */
    size_t at = link[0] + 256u * link[1] + 65536u * link[2] + 16777216u * link[3];
    for (unsigned n = 1; at < length; n++) {
        at += size_of(s, s->mode > 0 ? image[at] : 0) + s->mode;
        if (n % every == 0)
            image[at - 1 - (s->mode > 1)] ^= 1;
    }
}

struct shape varied(const struct shape *s, uint64_t seed)
{
    struct shape v = *s;
    v.room = s->room * 9 / 10 + chance(&seed) % (s->room / 5);
    v.groups = s->groups - 1 + (unsigned)(chance(&seed) % 3);
    v.channels = s->channels - 1 + (unsigned)(chance(&seed) % 3);
    v.least = s->least + (unsigned)(chance(&seed) % 5);
    v.most = s->most - 4 + (unsigned)(chance(&seed) % 9);
    v.random = (int)(chance(&seed) % 2);
    return v;
}

double now(void)
{
    struct timespec t;
    clock_gettime(CLOCK_MONOTONIC, &t);
    return (double)t.tv_sec + 1e-9 * (double)t.tv_nsec;
}
