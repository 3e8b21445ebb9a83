/* What differs between two files: the library's difference list, in words. It names neither channels nor the file that has
 * an item alone; both are looked up in the files themselves, which are accepted then. */
#include "layout.h"
#include "mdf3.h"
#include "parts.h"
#include "tool.h"
#include "words.h"

#include <inttypes.h>
#include <stdio.h>
#include <stdlib.h>
#include <string.h>

/* One of the two files, and where it stands: the entries come in the order of its groups and channels. */
struct side {
    const char *name;
    struct file f;
    struct group group; /* 0 where there is no such group */
    size_t cn;          /* 0 where there is no such channel */
    uint32_t group_number, channel_number;
};

/* ---- going along with the entries */

static void enter(struct side *s, struct group g, uint32_t number)
{
    s->group = g;
    s->group_number = number;
    s->cn = g.cg == 0 ? 0 : u32(&s->f, g.cg + 8);
    s->channel_number = 0;
}

static void to_group(struct side *s, uint32_t number)
{
    while (s->group_number < number)
        enter(s, next_group(&s->f, s->group), s->group_number + 1);
}

static void to_channel(struct side *s, uint32_t number)
{
    for (; s->channel_number < number; s->channel_number++)
        s->cn = s->cn == 0 ? 0 : u32(&s->f, s->cn + 4);
}

static uint32_t records(const struct side *s)
{
    return u32(&s->f, s->group.cg + 22);
}

/* ---- lines */

/* The file that has an item alone; 0 where both have it. */
static int print_lone(const struct side *one, int there, const struct side *other, int also)
{
    if (there && also)
        return 0;
    fputs(": only in ", stdout);
    print_name(stdout, there ? one->name : other->name);
    return 1;
}

static void print_body(const struct side *one, const struct side *other, size_t link)
{
    if (!print_lone(one, u32(&one->f, 64 + link) != 0, other, u32(&other->f, 64 + link) != 0))
        fputs(": differs", stdout);
}

static void print_of_file(const struct side *one, const struct side *other, uint32_t item)
{
    switch (item) {
    case MDF3_ITEM_ID:
        fputs("identification", stdout);
        print_ident_parts(&one->f, &other->f);
        break;
    case MDF3_ITEM_HEADER:
        fputs("header", stdout);
        print_header_parts(&one->f, &other->f);
        break;
    case MDF3_ITEM_COMMENT:
        fputs("comment of the file", stdout);
        print_body(one, other, 8);
        break;
    default:
        fputs("program block", stdout);
        print_body(one, other, 12);
        break;
    }
}

static void print_channel_name(struct part name)
{
    if (name.length > 0)
        fputs(", ", stdout);
    print_text(stdout, name.bytes, name.length);
}

/* Where the two have different names, that of the other file too. */
static void print_names(const struct side *one, const struct side *other)
{
    struct part name = channel_name(&one->f, one->cn), second = channel_name(&other->f, other->cn);
    print_channel_name(name);
    if (same_part(name, second))
        return;
    fputs(" (", stdout);
    if (second.length == 0)
        fputs("no name", stdout);
    print_text(stdout, second.bytes, second.length);
    fputs(" in ", stdout);
    print_name(stdout, other->name);
    putchar(')');
}

static void print_channel(struct side *one, struct side *other, uint32_t number)
{
    to_channel(one, number);
    to_channel(other, number);
    printf(", channel %" PRIu32, number);
    if (one->cn != 0 && other->cn != 0) {
        print_names(one, other);
        print_channel_parts(&one->f, one->cn, &other->f, other->cn);
        return;
    }
    print_channel_name(one->cn != 0 ? channel_name(&one->f, one->cn) : channel_name(&other->f, other->cn));
    print_lone(one, one->cn != 0, other, other->cn != 0);
}

/* A record that differs, and the channel where it does so first, by the first file. */
static void print_record(const struct side *one, uint32_t number, uint32_t byte)
{
    const struct holder *h = holder_of(&one->f, one->group.cg, byte);
    printf(", record %" PRIu32 ": first differs at byte %" PRIu32 "", number, byte);
    if (h->cn == 0)
        return;
    printf(" (channel %" PRIu32, h->channel);
    print_channel_name(channel_name(&one->f, h->cn));
    fputs(h->shared ? ", and others)" : ")", stdout);
}

static void print_of_group(struct side *one, struct side *other, const uint8_t *entry)
{
    uint32_t group = mdf3_entry_group(entry), item = mdf3_entry_item(entry);
    to_group(one, group);
    to_group(other, group);
    printf("group %" PRIu32, group);
    switch (mdf3_entry_kind(entry)) {
    case MDF3_ENTRY_LONE_GROUP:
        print_lone(one, one->group.cg != 0, other, other->group.cg != 0);
        break;
    case MDF3_ENTRY_GROUP:
        if (item == 0)
            print_group_parts(&one->f, one->group.cg, &other->f, other->group.cg);
        else
            print_channel(one, other, item - 1);
        break;
    case MDF3_ENTRY_RECORD:
        print_record(one, item, mdf3_entry_byte(entry));
        break;
    default:
        printf(", record %" PRIu32, item);
        print_lone(one, item < records(one), other, item < records(other));
        break;
    }
}

/* Up to the first line that does not go out; a last line says how many there are. */
static void print_list(struct side *one, struct side *other, const struct file *list)
{
    size_t count = list->length / MDF3_ENTRY_SIZE;
    enter(one, first_group(&one->f), 0);
    enter(other, first_group(&other->f), 0);
    for (size_t i = 0; i < count && !ferror(stdout); i++) {
        const uint8_t *entry = list->bytes + i * MDF3_ENTRY_SIZE;
        if (mdf3_entry_kind(entry) == MDF3_ENTRY_FILE)
            print_of_file(one, other, mdf3_entry_item(entry));
        else
            print_of_group(one, other, entry);
        putchar('\n');
    }
    printf("%zu difference%s\n", count, plural(count));
}

/* ---- the command */

/* A file that is accepted; TROUBLE, which is told, for any other. */
static int load_accepted(const char *name, struct side *s)
{
    uint8_t answer[MDF3_ANSWER_SIZE];
    uint32_t number;
    s->name = name;
    switch (load(name, &s->f)) {
    case LOADED:
        number = mdf3_check(s->f.bytes, s->f.length, answer);
        return number == MDF3_OK ? DONE : complain_refused(name, number, mdf3_place(answer));
    case TOO_LONG:
        return complain_refused(name, MDF3_TOO_LONG, 0);
    default:
        return complain_of(name, "cannot be read");
    }
}

static uint32_t compare(const struct side *one, const struct side *other, struct file *list, uint8_t answer[MDF3_ANSWER_SIZE])
{
    return mdf3_compare(one->f.bytes, one->f.length, other->f.bytes, other->f.length, list->bytes, list->length, answer);
}

static int print_differences(struct side *one, struct side *other, size_t length)
{
    uint8_t answer[MDF3_ANSWER_SIZE];
    struct file list;
    list.length = length;
    list.bytes = malloc(length);
    if (list.bytes == NULL)
        return complain_of(other->name, "the list of its differences has no room in memory");
    /* it fits: the same files gave this length */
    compare(one, other, &list, answer);
    print_list(one, other, &list);
    unload(&list);
    return DIFFERENT;
}

static int compare_loaded(struct side *one, struct side *other, int quiet)
{
    uint8_t answer[MDF3_ANSWER_SIZE], none;
    struct file no_room = {&none, 0};
    /* with no room, files that differ give the length needed */
    uint32_t number = compare(one, other, &no_room, answer);
    if (number == MDF3_OK) {
        if (!quiet)
            puts("no difference: both files say the same");
        return DONE;
    }
    if (quiet)
        return DIFFERENT;
    if (number == MDF3_COPY_TOO_LONG)
        return complain(other->name, "differs in more than 134,217,727 items, too many to list", NULL);
    return print_differences(one, other, (size_t)mdf3_place(answer));
}

static int run(char **names, int quiet)
{
    struct side one, other;
    int result, second;
    if (strcmp(names[0], "-") == 0 && strcmp(names[1], "-") == 0)
        return complain("-", "standard input can be read once", NULL);
    /* both are looked at, so that both are told of */
    result = load_accepted(names[0], &one);
    second = load_accepted(names[1], &other);
    if (result == DONE)
        result = second == DONE ? compare_loaded(&one, &other, quiet) : second;
    unload(&one.f);
    unload(&other.f);
    return result;
}

int compare_command(int count, char **names)
{
    (void)count;
    return run(names, 0);
}

int compare_quietly(int count, char **names)
{
    (void)count;
    return run(names, 1);
}
