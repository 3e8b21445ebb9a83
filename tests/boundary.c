/* The calls at the edges of memory. Images, outputs and answers stand right before a page that is not there, then right
 * behind one: whoever reads or writes one byte too far ends the program. Two images that are compared stand apart, in the same
 * memory, and overlapping. All answers are compared with those that the same bytes give elsewhere.
 *
 *   boundary [--large] FILE..
 *
 * --large: images of 2 GiB too, which take no memory but address space. */
#define _DEFAULT_SOURCE
#include "mdf3.h"

#include <stdio.h>
#include <stdlib.h>
#include <string.h>
#include <sys/mman.h>
#include <unistd.h>

static unsigned long compared;

static void fail(const char *what)
{
    fprintf(stderr, "boundary: %s\n", what);
    exit(1);
}

/* ---- memory between two pages that are not there */

struct fenced {
    uint8_t *all, *first; /* with its fences, and between them */
    size_t whole, room;
};

static struct fenced fence(size_t length)
{
    size_t page = (size_t)sysconf(_SC_PAGESIZE);
    struct fenced f;
    f.room = (length + page - 1) / page * page;
    f.whole = f.room + 2 * page;
    f.all = mmap(NULL, f.whole, PROT_NONE, MAP_PRIVATE | MAP_ANONYMOUS | MAP_NORESERVE, -1, 0);
    if (f.all == MAP_FAILED)
        fail("no memory");
    f.first = f.all + page;
    if (f.room > 0 && mprotect(f.first, f.room, PROT_READ | PROT_WRITE) != 0)
        fail("no memory");
    return f;
}

static void unfence(struct fenced f)
{
    munmap(f.all, f.whole);
}

/* A place for so many bytes: with its end at the fence, or with its start. */
static uint8_t *edge(struct fenced f, size_t length, int at_end)
{
    return at_end ? f.first + f.room - length : f.first;
}

/* ---- calls */

struct answer {
    uint32_t number;
    uint8_t bytes[MDF3_ANSWER_SIZE];
};

/* The answer itself stands at an edge. */
static struct answer told(struct fenced f, int at_end, uint32_t number)
{
    struct answer a;
    a.number = number;
    memcpy(a.bytes, edge(f, MDF3_ANSWER_SIZE, at_end), MDF3_ANSWER_SIZE);
    return a;
}

static void same(struct answer one, struct answer other, const char *what)
{
    compared++;
    if (one.number != other.number || memcmp(one.bytes, other.bytes, MDF3_ANSWER_SIZE) != 0)
        fail(what);
}

/* Check, samples and physical values of an image that stands somewhere. */
static void asked(const uint8_t *image, size_t length, const uint8_t *plain, struct fenced answers, int at_end)
{
    uint8_t *to = edge(answers, MDF3_ANSWER_SIZE, at_end);
    struct answer a;
    a.number = mdf3_check(plain, length, a.bytes);
    same(told(answers, at_end, mdf3_check(image, length, to)), a, "check");
    for (uint64_t k = 0; k < 60; k++) {
        uint64_t group = k / 20, channel = k / 4 % 5, record = k % 4 == 3 ? UINT64_MAX : k % 4;
        a.number = mdf3_sample(plain, length, group, channel, record, a.bytes);
        same(told(answers, at_end, mdf3_sample(image, length, group, channel, record, to)), a, "sample");
        a.number = mdf3_physical(plain, length, group, channel, record, a.bytes);
        same(told(answers, at_end, mdf3_physical(image, length, group, channel, record, to)), a, "physical");
    }
}

/* One copy into an output that stands at an edge. */
static void copied(const uint8_t *image, size_t length, const uint8_t *plain, size_t room, int at_end)
{
    struct fenced outs = fence(room);
    uint8_t *out = edge(outs, room, at_end), *other = malloc(room + 1);
    struct answer a, b;
    if (other == NULL)
        fail("no memory");
    memset(out, 0xA5, room);
    memset(other, 0xA5, room);
    a.number = mdf3_copy(image, length, out, room, a.bytes);
    b.number = mdf3_copy(plain, length, other, room, b.bytes);
    same(a, b, "copy");
    if (memcmp(out, other, room) != 0)
        fail("the copies differ");
    free(other);
    unfence(outs);
}

/* With no room, exactly enough, one byte less and one more. */
static void copies(const uint8_t *image, size_t length, const uint8_t *plain, int at_end)
{
    struct answer a;
    uint8_t none;
    size_t needed;
    a.number = mdf3_copy(plain, length, &none, 0, a.bytes);
    needed = a.number == MDF3_NO_ROOM ? (size_t)mdf3_place(a.bytes) : 100;
    copied(image, length, plain, 0, at_end);
    copied(image, length, plain, needed, at_end);
    copied(image, length, plain, needed - 1, at_end);
    copied(image, length, plain, needed + 1, at_end);
}

/* ---- two images */

struct part {
    uint8_t *bytes;
    size_t length;
};

struct pair {
    struct part first, second;
};

static struct pair swapped(struct pair p)
{
    struct pair other = {p.second, p.first};
    return other;
}

static uint32_t list(struct pair p, uint8_t *out, size_t room, uint8_t *answer)
{
    return mdf3_compare(p.first.bytes, p.first.length, p.second.bytes, p.second.length, out, room, answer);
}

/* One difference list into an output that stands at an edge, as the answer does. */
static void listed(struct pair p, struct pair plain, size_t room, int at_end)
{
    struct fenced outs = fence(room), answers = fence(MDF3_ANSWER_SIZE);
    uint8_t *out = edge(outs, room, at_end), *other = malloc(room + 1);
    struct answer a;
    if (other == NULL)
        fail("no memory");
    memset(out, 0xA5, room);
    memset(other, 0xA5, room);
    a.number = list(plain, other, room, a.bytes);
    same(told(answers, at_end, list(p, out, room, edge(answers, MDF3_ANSWER_SIZE, at_end))), a, "compare");
    if (memcmp(out, other, room) != 0)
        fail("the lists differ");
    free(other);
    unfence(outs);
    unfence(answers);
}

/* With no room, exactly enough, one byte less and one more. */
static void lists(struct pair p, struct pair plain, int at_end)
{
    struct answer a;
    uint8_t none;
    size_t needed;
    a.number = list(plain, &none, 0, a.bytes);
    needed = a.number == MDF3_NO_ROOM ? (size_t)mdf3_place(a.bytes) : 100;
    listed(p, plain, 0, at_end);
    listed(p, plain, needed, at_end);
    listed(p, plain, needed - 1, at_end);
    listed(p, plain, needed + 1, at_end);
}

static void both_orders(struct pair p, struct pair plain, int at_end)
{
    lists(p, plain, at_end);
    lists(swapped(p), swapped(plain), at_end);
}

/* Each at edges of its own. */
static void try_apart(struct pair plain)
{
    struct fenced one = fence(plain.first.length), other = fence(plain.second.length);
    for (int ends = 0; ends < 4; ends++) {
        uint8_t *first = edge(one, plain.first.length, ends & 1), *second = edge(other, plain.second.length, ends & 2);
        struct pair p = {{first, plain.first.length}, {second, plain.second.length}};
        memcpy(first, plain.first.bytes, plain.first.length);
        memcpy(second, plain.second.bytes, plain.second.length);
        mprotect(one.first, one.room, PROT_READ);
        mprotect(other.first, other.room, PROT_READ);
        both_orders(p, plain, ends & 1);
        mprotect(one.first, one.room, PROT_READ | PROT_WRITE);
        mprotect(other.first, other.room, PROT_READ | PROT_WRITE);
    }
    unfence(one);
    unfence(other);
}

/* In one piece of memory that holds both, one behind the other: the first image is so many bytes from the start, the second
 * one so many from the end. Plain are these bytes apart. */
static void try_within(struct part all, size_t first, size_t second)
{
    struct fenced f = fence(all.length);
    struct pair plain = {{all.bytes, first}, {NULL, second}}, p;
    uint8_t *apart = malloc(second + 1);
    if (apart == NULL)
        fail("no memory");
    memcpy(apart, all.bytes + all.length - second, second);
    plain.second.bytes = apart;
    for (int at_end = 0; at_end < 2; at_end++) {
        uint8_t *image = edge(f, all.length, at_end);
        memcpy(image, all.bytes, all.length);
        mprotect(f.first, f.room, PROT_READ);
        p.first.bytes = image;
        p.first.length = first;
        p.second.bytes = image + all.length - second;
        p.second.length = second;
        both_orders(p, plain, at_end);
        mprotect(f.first, f.room, PROT_READ | PROT_WRITE);
    }
    free(apart);
    unfence(f);
}

/* Two files apart, each with itself in the same memory, and overlapping: one file before the other, where it ends inside that
 * one, and where that one is its end. What lies behind the blocks of a file does not count, so all are taken. */
static void try_pair(struct part one, struct part other)
{
    struct pair plain = {one, other};
    size_t whole = one.length + other.length;
    uint8_t *joined = malloc(whole + 1);
    struct part all = {joined, whole};
    if (joined == NULL)
        fail("no memory");
    memcpy(joined, one.bytes, one.length);
    memcpy(joined + one.length, other.bytes, other.length);
    try_apart(plain);
    try_within(one, one.length, one.length);
    try_within(all, whole, other.length);
    try_within(all, whole - other.length / 2, other.length);
    free(joined);
}

static void try_image(const uint8_t *plain, size_t length)
{
    struct fenced images = fence(length), answers = fence(MDF3_ANSWER_SIZE);
    for (int at_end = 0; at_end < 2; at_end++) {
        uint8_t *image = edge(images, length, at_end);
        memcpy(image, plain, length);
        mprotect(images.first, images.room, PROT_READ);
        asked(image, length, plain, answers, at_end);
        copies(image, length, plain, at_end);
        mprotect(images.first, images.room, PROT_READ | PROT_WRITE);
    }
    unfence(images);
    unfence(answers);
}

static struct part read_file(const char *name)
{
    FILE *f = fopen(name, "rb");
    uint8_t *bytes = malloc(1u << 20);
    struct part file = {bytes, 0};
    if (f == NULL || bytes == NULL)
        fail(name);
    file.length = fread(bytes, 1, 1u << 20, f);
    fclose(f);
    return file;
}

/* Every length up to a file's own, or some of them; and the file with the one before it, a few lengths of both. */
static void try_file(struct part file, struct part before)
{
    try_image(file.bytes, file.length);
    try_pair(file, before);
    for (size_t cut = 1; cut <= file.length && cut < 1000; cut += cut / 3 + 1)
        try_image(file.bytes, file.length - cut);
    for (size_t cut = 1; cut <= file.length && cut < 1000; cut += 3 * cut) {
        struct part shorter = {file.bytes, file.length - cut};
        try_pair(shorter, before);
    }
}

static void try_files(int count, char **names)
{
    struct part before = read_file(names[0]);
    for (int i = 0; i < count; i++) {
        struct part file = read_file(names[i]);
        try_file(file, before);
        free(before.bytes);
        before = file;
    }
    free(before.bytes);
}

/* ---- the numbers of an answer and of an entry, as the header reads them */

static void try_readers(void)
{
    static const uint8_t answer[MDF3_ANSWER_SIZE] = {1, 2, 3, 4, 5, 6, 7, 0x88, 0, 0, 0, 0, 0, 0, 0xF8, 0xBF,
                                                     9, 0, 0, 0, 0, 0, 0, 0,    4, 0, 0, 0, 0, 0, 0, 0x80};
    if (mdf3_place(answer) != UINT64_C(0x8807060504030201) || mdf3_value(answer) != UINT64_C(0xBFF8000000000000)
        || mdf3_length(answer) != 9 || mdf3_kind(answer) != UINT64_C(0x8000000000000004) || mdf3_double(answer) != -1.5)
        fail("readers");
    compared += 5;
}

static void try_entry_readers(void)
{
    static const uint8_t entry[MDF3_ENTRY_SIZE] = {1, 0x82, 3, 4, 5, 6, 7, 0x88, 9, 10, 11, 0x8C, 13, 14, 15, 0x90};
    if (mdf3_entry_kind(entry) != 0x8201 || mdf3_entry_group(entry) != UINT32_C(0x88070605)
        || mdf3_entry_item(entry) != UINT32_C(0x8C0B0A09) || mdf3_entry_byte(entry) != UINT32_C(0x900F0E0D))
        fail("readers of entries");
    compared += 4;
}

/* ---- no bytes: nothing is read or written through such pointers */

static void try_nothing(void)
{
    struct fenced f = fence(0);
    uint8_t answer[MDF3_ANSWER_SIZE];
    if (mdf3_check(f.first, 0, answer) != 2 || mdf3_copy(f.first, 0, f.first, 0, answer) != 2
        || mdf3_sample(f.first, 0, 0, 0, 0, answer) != 2 || mdf3_physical(f.first, 0, 0, 0, 0, answer) != 2
        || mdf3_compare(f.first, 0, f.first, 0, f.first, 0, answer) != 2)
        fail("no bytes");
    compared += 5;
    unfence(f);
}

/* ---- 2 GiB */

static void large(const char *name, size_t length, uint32_t wanted)
{
    struct fenced f = fence(length);
    uint8_t *image = edge(f, length, 1), answer[MDF3_ANSWER_SIZE], none;
    FILE *from = fopen(name, "rb");
    if (from == NULL || fread(image, 1, 1u << 20, from) == 0)
        fail(name);
    fclose(from);
    if (mdf3_check(image, length, answer) != wanted || mdf3_sample(image, length, 0, 0, 0, answer) != wanted
        || mdf3_physical(image, length, 0, 0, 0, answer) != wanted || mdf3_place(answer) != 0
        || mdf3_compare(image, length, image, length, &none, 0, answer) != wanted || mdf3_place(answer) != 0)
        fail("2 GiB");
    compared += 4;
    unfence(f);
}

int main(int argc, char **argv)
{
    int first = argc > 1 && strcmp(argv[1], "--large") == 0 ? 2 : 1;
    if (first >= argc)
        fail("no files");
    try_readers();
    try_entry_readers();
    try_nothing();
    try_files(argc - first, argv + first);
    if (first == 2) {
        /* the file's bytes and zeros behind them: the longest image is accepted, one more byte is too long */
        large(argv[2], 2147483647u, 0);
        large(argv[2], 2147483648u, 1);
        large(argv[2], 2147483649u, 1);
    }
    printf("boundary: %lu answers compared\n", compared);
    return 0;
}
