/* Which parts of two blocks differ, in words: each prints how the line of an entry goes on. */
#ifndef PARTS_H
#define PARTS_H

#include "blocks.h"

void print_ident_parts(const struct file *one, const struct file *other);
void print_header_parts(const struct file *one, const struct file *other);

/* Of two channel groups, and of two channels, by the places of their blocks. */
void print_group_parts(const struct file *one, size_t cg, const struct file *other, size_t other_cg);
void print_channel_parts(const struct file *one, size_t cn, const struct file *other, size_t other_cn);

#endif
