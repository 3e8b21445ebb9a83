/* The commands of the tool. Each takes its arguments, as many as it wants, and gives the exit status: DONE, REFUSED (by the
 * library's rules) or TROUBLE (an argument, a file, memory or the disk). Those that compare give DIFFERENT, and TROUBLE for a
 * refused file too, as cmp and diff do. */
#ifndef TOOL_H
#define TOOL_H

#include "file.h"

enum { DONE = 0, REFUSED = 1, DIFFERENT = 1, TROUBLE = 2 };

int check_command(int count, char **names);
int compare_command(int count, char **names);
int compare_quietly(int count, char **names);
int copy_command(int count, char **names);
int list_command(int count, char **names);
int sample_command(int count, char **words);

/* Says on standard error what is not done, and why: in one's own words. Gives TROUBLE. */
int complain(const char *name, const char *what, const char *why);

/* The same, with the system's reason (errno). */
int complain_of(const char *name, const char *what);

/* The same of a file that the library refuses: number, place and the number in words. */
int complain_refused(const char *name, uint32_t number, uint64_t place);

/* Prints a line: its name, number, place and the number in words. */
void print_line(const char *name, uint32_t number, uint64_t place);

/* Loads a file that is to be looked at alone: tells where it can't. */
int load_one(const char *name, struct file *f);

/* Its canonical copy in memory. DONE: in copy. REFUSED: number and place are told. TROUBLE: told too. */
int copy_in_memory(const char *name, const struct file *image, struct file *copy);

#endif
