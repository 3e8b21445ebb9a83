#define _XOPEN_SOURCE 700
#include "mdf3.h"
#include "tool.h"
#include "words.h"

#include <errno.h>
#include <stdio.h>
#include <string.h>
#include <time.h>
#include <unistd.h>

struct sum {
    int accepted, refused, unread;
};

/* A line on the terminal, from the second on that the run takes; it goes away before anything else is printed. */
struct progress {
    int shown, wanted;
    time_t next;
};

static void progress_start(struct progress *p)
{
    p->shown = 0;
    p->wanted = isatty(STDERR_FILENO) && !isatty(STDOUT_FILENO);
    p->next = time(NULL) + 1;
}

static void progress_clear(struct progress *p)
{
    if (p->shown)
        fprintf(stderr, "\r\033[K");
    p->shown = 0;
}

static void progress_tell(struct progress *p, int done, int count)
{
    if (!p->wanted || time(NULL) < p->next)
        return;
    fprintf(stderr, "\r%d of %d files", done, count);
    p->shown = 1;
    p->next = time(NULL) + 1;
}

static void check_one(const char *name, struct sum *s)
{
    uint8_t answer[MDF3_ANSWER_SIZE];
    struct file f;
    uint32_t number = MDF3_TOO_LONG;
    uint64_t place = 0;
    const char *why;
    switch (load(name, &f)) {
    case LOADED:
        number = mdf3_check(f.bytes, f.length, answer);
        place = mdf3_place(answer);
        unload(&f);
        break;
    case TOO_LONG:
        break;
    default:
        why = strerror(errno);
        print_name(stdout, name);
        printf(": not read: %s\n", why);
        s->unread++;
        return;
    }
    print_line(name, number, place);
    if (number == MDF3_OK)
        s->accepted++;
    else
        s->refused++;
}

/* Standard input has an end, and nothing behind it. */
static int named_twice(int count, char **names)
{
    int times = 0;
    for (int i = 0; i < count; i++)
        times += strcmp(names[i], "-") == 0;
    return times > 1;
}

int check_command(int count, char **names)
{
    struct progress p;
    struct sum s = {0, 0, 0};
    if (named_twice(count, names))
        return complain("-", "standard input can be read once", NULL);
    progress_start(&p);
    for (int i = 0; i < count; i++) {
        check_one(names[i], &s);
        progress_tell(&p, i + 1, count);
    }
    progress_clear(&p);
    printf("%d file%s: %d accepted, %d refused, %d not read\n", count, plural((uint64_t)count), s.accepted, s.refused, s.unread);
    return s.unread > 0 ? TROUBLE : s.refused > 0 ? REFUSED : DONE;
}
