/* What the library's numbers mean, and texts of a file. */
#ifndef WORDS_H
#define WORDS_H

#include <stddef.h>
#include <stdint.h>
#include <stdio.h>

/* A number and its place in words. */
const char *in_words(uint32_t number, uint64_t place);

/* Prints text of a file up to its first zero byte: ISO 8859-1 as UTF-8, what is no letter or sign (the soft hyphen too) as
 * '?'. */
void print_text(FILE *to, const uint8_t *text, size_t length);

/* The same between quotation marks; a backslash stands before those in the text, and before a backslash. */
void print_quoted(FILE *to, const uint8_t *text, size_t length);

/* Prints the name of a file, so that it can't break a line or steer a terminal that reads UTF-8: characters for control and
 * format, separators of lines and paragraphs, and what is not UTF-8 as \xHH, a backslash doubled. */
void print_name(FILE *to, const char *name);

/* "s" behind a count that is not 1. */
const char *plural(uint64_t count);

/* The name of a data type. */
const char *type_name(unsigned data_type);

#endif
