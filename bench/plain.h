/* Check, copy, samples and difference list in plain C, to compare answers and times with: no proof, the same answers. Two
 * come of one source:
 *   - by_search goes about it as the library does: a check searches the groups of a data group one after the other for the ID
 *     of each record, and goes over sorted data record by record;
 *   - by_table is written for speed: a check looks the ID up in a table of 256, and sorted data take it one division. A
 *     comparison takes equal sorted data 64 records at a time, and goes once over data groups whose records come in the same
 *     order in both files, where by_search goes over them for each group, and the library once and then for each group that
 *     differs.
 * Both copies and both comparisons look IDs up in a table. */
#ifndef PLAIN_H
#define PLAIN_H

#include <stddef.h>
#include <stdint.h>

/* As mdf3_check, mdf3_copy, mdf3_sample, mdf3_physical and mdf3_compare. */
struct calls {
    uint32_t (*check)(const uint8_t *image, size_t image_len, uint8_t answer[32]);
    uint32_t (*copy)(const uint8_t *image, size_t image_len, uint8_t *out, size_t out_len, uint8_t answer[32]);
    uint32_t (*sample)(const uint8_t *image, size_t image_len, uint64_t group, uint64_t channel, uint64_t record,
                       uint8_t answer[32]);
    uint32_t (*physical)(const uint8_t *image, size_t image_len, uint64_t group, uint64_t channel, uint64_t record,
                         uint8_t answer[32]);
    uint32_t (*compare)(const uint8_t *first, size_t first_len, const uint8_t *second, size_t second_len, uint8_t *out,
                        size_t out_len, uint8_t answer[32]);
};

extern const struct calls by_search, by_table;

#endif
