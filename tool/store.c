/* Writing a file: into a new one beside it first, which then takes its name. */
#define _XOPEN_SOURCE 700
#include "file.h"

#include <errno.h>
#include <fcntl.h>
#include <libgen.h>
#include <limits.h>
#include <signal.h>
#include <stdio.h>
#include <stdlib.h>
#include <string.h>
#include <sys/stat.h>
#include <unistd.h>

/* ---- what may be written */

static int same_file(const struct stat *a, const struct stat *b)
{
    return a->st_dev == b->st_dev && a->st_ino == b->st_ino;
}

/* Whether this is the file that a descriptor has open. */
static int open_as(int fd, const struct stat *to)
{
    struct stat about;
    return fstat(fd, &about) == 0 && same_file(&about, to);
}

const char *not_to_write(const char *from, const char *to)
{
    struct stat source, target;
    if (strcmp(to, "-") == 0)
        return "is not written: give the name of a file";
    if (stat(to, &target) != 0)
        return lstat(to, &target) == 0 ? "is a link that leads to no file that can be found, and is not written" : NULL;
    if (strcmp(from, "-") == 0 ? open_as(STDIN_FILENO, &target) : stat(from, &source) == 0 && same_file(&source, &target))
        return "is the file to copy, and is not written over";
    if (!S_ISREG(target.st_mode))
        return "is no regular file, and is not written";
    if (open_as(STDOUT_FILENO, &target) || open_as(STDERR_FILENO, &target))
        return "is where the messages go, and is not written over";
    return NULL;
}

/* ---- the file in the making, removed where a signal ends the program */

static char making[PATH_MAX];
static volatile sig_atomic_t made;

static void ended(int number)
{
    if (made)
        unlink(making);
    /* its default action is back, and ends the program as soon as this returns */
    raise(number);
}

/* Whether a program ends by this signal, if it does nothing about it. */
static int ends(int number)
{
    static const int others[] = {SIGCHLD, SIGCONT, SIGSTOP, SIGTSTP, SIGTTIN, SIGTTOU, SIGURG, SIGWINCH};
    for (size_t i = 0; i < sizeof others / sizeof others[0]; i++)
        if (number == others[i])
            return 0;
    return 1;
}

static void watch(void)
{
    struct sigaction before, action;
    memset(&action, 0, sizeof action);
    action.sa_handler = ended;
    action.sa_flags = (int)SA_RESETHAND;
    sigfillset(&action.sa_mask);
    /* some numbers can't be caught, and nothing is done about them */
    for (int number = 1; number <= SIGRTMAX; number++)
        if (ends(number) && sigaction(number, NULL, &before) == 0 && before.sa_handler != SIG_IGN)
            sigaction(number, &action, NULL);
}

/* Makes the file. No signal comes between it and the note that it is there. */
static int begin(void)
{
    sigset_t all, before;
    int fd;
    sigfillset(&all);
    sigprocmask(SIG_BLOCK, &all, &before);
    fd = mkstemp(making);
    made = fd >= 0;
    sigprocmask(SIG_SETMASK, &before, NULL);
    return fd;
}

/* Gives it its name, or removes it. */
static int finish(int good, const char *target)
{
    sigset_t all, before;
    int kept = errno;
    sigfillset(&all);
    sigprocmask(SIG_BLOCK, &all, &before);
    if (good && rename(making, target) != 0) {
        kept = errno;
        good = 0;
    }
    if (!good)
        unlink(making);
    made = 0;
    sigprocmask(SIG_SETMASK, &before, NULL);
    errno = kept;
    return good;
}

/* ---- writing */

static int write_all(int fd, const uint8_t *bytes, size_t length)
{
    while (length > 0) {
        ssize_t put = write(fd, bytes, length > INT_MAX ? INT_MAX : length);
        if (put < 0 && errno != EINTR)
            return -1;
        if (put > 0) {
            bytes += put;
            length -= (size_t)put;
        }
    }
    return 0;
}

/* Owner and access of the file that it replaces, else those of a new file; as far as the system allows. */
static void set_access(int fd, const struct stat *former)
{
    mode_t access;
    if (former == NULL) {
        access = umask(0);
        umask(access);
        access = 0666 & ~access;
    } else {
        access = former->st_mode & 0777;
        /* a group that can't be kept is not let in by another group's access */
        if (fchown(fd, former->st_uid, former->st_gid) != 0 && fchown(fd, (uid_t)-1, former->st_gid) != 0)
            access &= 0707;
    }
    if (fchmod(fd, access) != 0)
        return; /* a file system without access: nobody is let in who was not before */
}

static int fill(int fd, const struct stat *former, const uint8_t *bytes, size_t length)
{
    int good = write_all(fd, bytes, length) == 0, kept;
    if (good) {
        set_access(fd, former);
        good = fsync(fd) == 0;
    }
    kept = errno;
    if (close(fd) != 0 && good) {
        good = 0;
        kept = errno;
    }
    errno = kept;
    return good;
}

/* The name that a link leads to, so that the link stays. A former file that can't be written is not replaced either. */
static int find_target(const char *name, int there, char target[PATH_MAX])
{
    struct stat about;
    if (there && faccessat(AT_FDCWD, name, W_OK, AT_EACCESS) != 0)
        return -1;
    if (lstat(name, &about) == 0 && S_ISLNK(about.st_mode))
        return realpath(name, target) != NULL ? 0 : -1;
    if (strlen(name) >= PATH_MAX) {
        errno = ENAMETOOLONG;
        return -1;
    }
    strcpy(target, name);
    return 0;
}

/* Its folder, and in it the name of the file in the making. */
static int find_folder(const char *target, char folder[PATH_MAX])
{
    char *upper;
    strcpy(folder, target);
    upper = dirname(folder);
    memmove(folder, upper, strlen(upper) + 1);
    if ((size_t)snprintf(making, sizeof making, "%s/.mdf3-XXXXXX", folder) < sizeof making)
        return 0;
    errno = ENAMETOOLONG;
    return -1;
}

/* What has been renamed is on the disk once its folder is. Some file systems have no sync of folders. */
static enum stored sync_folder(int folder)
{
    int good = fsync(folder) == 0 || errno == EINVAL;
    int kept = errno;
    close(folder);
    errno = kept;
    return good ? STORED : UNSYNCED;
}

enum stored store(const char *name, const uint8_t *bytes, size_t length)
{
    static char target[PATH_MAX], folder[PATH_MAX];
    struct stat former;
    int there = stat(name, &former) == 0, above, fd, kept;
    if (find_target(name, there, target) != 0 || find_folder(target, folder) != 0)
        return UNSTORED;
    above = open(folder, O_RDONLY | O_DIRECTORY);
    if (above < 0)
        return UNSTORED;
    watch();
    fd = begin();
    if (fd >= 0 && finish(fill(fd, there ? &former : NULL, bytes, length), target))
        return sync_folder(above);
    kept = errno;
    close(above);
    errno = kept;
    return UNSTORED;
}
