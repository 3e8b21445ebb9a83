/* mdf3: MDF 3 files checked, copied, compared, listed and read from the command line. */
#define _XOPEN_SOURCE 700
#include "mdf3.h"
#include "tool.h"

#include <errno.h>
#include <fcntl.h>
#include <limits.h>
#include <signal.h>
#include <stdio.h>
#include <string.h>
#include <unistd.h>

static const char usage[] =
    "usage: mdf3 check FILE...                       is each file accepted?\n"
    "       mdf3 copy FILE OUT                       write its canonical copy\n"
    "       mdf3 compare [-q] FILE FILE              what differs between two files?\n"
    "       mdf3 list FILE                           its groups and channels\n"
    "       mdf3 sample FILE GROUP CHANNEL RECORD    one sample, raw and physical\n"
    "       mdf3 --help\n"
    "       mdf3 --version\n";

static const char help[] =
    "\n"
    "FILE is an MDF 3 file (versions 3.00 to 3.99), - for standard input. Groups, channels and records count from 0, as list\n"
    "shows them. Check and copy answer with a number and a place: 0 0, or why a file is refused and at which byte. OUT is\n"
    "written whole or not at all, never where it is FILE, and cannot be -. Behind a -- names may begin with -.\n"
    "compare prints one line for each difference and how many there are, with -q nothing.\n"
    "\n"
    "Exit status: 0 done, 1 refused, 2 trouble with an argument, a file, memory or the disk.\n"
    "Of compare: 0 both files say the same, 1 they differ, 2 trouble, or one of them is refused.\n";

struct command {
    const char *name, *takes;
    int least, most; /* arguments */
    int (*run)(int count, char **words);
    int (*quietly)(int count, char **words); /* with -q; NULL where there is no such option */
};

#define COMMANDS 5
static const struct command commands[COMMANDS] = {
    {"check", "takes one FILE or more", 1, INT_MAX, check_command, NULL},
    {"copy", "takes FILE OUT", 2, 2, copy_command, NULL},
    {"compare", "takes two FILEs", 2, 2, compare_command, compare_quietly},
    {"list", "takes one FILE", 1, 1, list_command, NULL},
    {"sample", "takes FILE GROUP CHANNEL RECORD", 4, 4, sample_command, NULL},
};

static int wrong(const char *word, const char *what)
{
    if (word != NULL)
        complain(word, what, NULL);
    fputs(usage, stderr);
    return TROUBLE;
}

static int tell_help(void)
{
    printf("%s%s", usage, help);
    return DONE;
}

/* The arguments are what is left without the options. */
static int run(const struct command *c, int count, char **words)
{
    int left = 0, ended = 0, quiet = 0;
    for (int i = 0; i < count; i++) {
        if (ended || words[i][0] != '-' || words[i][1] == '\0')
            words[left++] = words[i];
        else if (strcmp(words[i], "--") == 0)
            ended = 1;
        else if (strcmp(words[i], "--help") == 0)
            return tell_help();
        else if (strcmp(words[i], "-q") == 0 && c->quietly != NULL)
            quiet = 1;
        else
            return wrong(words[i], "no such option");
    }
    if (left < c->least || left > c->most)
        return wrong(c->name, c->takes);
    return quiet ? c->quietly(left, words) : c->run(left, words);
}

static int start(int count, char **words)
{
    if (count == 0)
        return wrong(NULL, NULL);
    if (strcmp(words[0], "--help") == 0)
        return tell_help();
    if (strcmp(words[0], "--version") == 0) {
        printf("mdf3 %s\n", MDF3_VERSION);
        return DONE;
    }
    for (int i = 0; i < COMMANDS; i++)
        if (strcmp(words[0], commands[i].name) == 0)
            return run(&commands[i], count - 1, words + 1);
    return wrong(words[0], words[0][0] == '-' ? "no such option" : "no such command");
}

/* Where a standard file is closed, another would be opened in its stead and read or written for it. So it becomes one that
 * can only be used the wrong way round, and a use fails as it should. */
static void fill_standard(void)
{
    for (int fd = 0; fd <= 2; fd++)
        if (fcntl(fd, F_GETFD) == -1 && open("/dev/null", fd == 0 ? O_WRONLY : O_RDONLY) != fd)
            _exit(TROUBLE);
}

int main(int argc, char **argv)
{
    int result;
    fill_standard();
    /* a write beyond a limit fails, and does not end the program */
    signal(SIGXFSZ, SIG_IGN);
    result = start(argc > 0 ? argc - 1 : 0, argv + 1);
    errno = 0;
    if (fflush(stdout) != 0 || ferror(stdout))
        return complain_of("standard output", "cannot be written");
    return result;
}
