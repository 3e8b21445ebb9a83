#include "mdf3.h"
#include "tool.h"
#include "words.h"

#include <errno.h>
#include <inttypes.h>
#include <stdio.h>
#include <stdlib.h>
#include <string.h>

/* As few digits as tell a float from every other of its width, but not fewer than it always holds. */
static void print_digits(double value, int single)
{
    char text[40];
    int digits = single ? 6 : 15;
    do {
        snprintf(text, sizeof text, "%.*g", digits, value);
        digits++;
    } while (digits <= (single ? 9 : 17) && (single ? (double)strtof(text, NULL) : strtod(text, NULL)) != value);
    fputs(text, stdout);
}

/* A float, or the bits of what is no number. */
static void print_double(const uint8_t answer[MDF3_ANSWER_SIZE])
{
    double value = mdf3_double(answer);
    if (value == value)
        print_digits(value, 0);
    else
        printf("nan, bits %016" PRIx64, mdf3_value(answer));
}

static void print_single(uint64_t bits)
{
    uint32_t low = (uint32_t)bits;
    float value;
    memcpy(&value, &low, 4);
    if (value == value)
        print_digits((double)value, 1);
    else
        printf("nan, bits %08" PRIx32, low);
}

/* Text or bytes: where they stand, and their bytes. */
static void print_part(const struct file *f, uint64_t place, uint64_t length)
{
    printf("%" PRIu64 " byte%s at %" PRIu64 ": ", length, plural(length), place);
    for (uint64_t i = 0; i < length; i++)
        printf("%02x", f->bytes[place + i]);
    putchar(' ');
    print_quoted(stdout, f->bytes + place, (size_t)length);
}

static void print_value(const struct file *f, const uint8_t answer[MDF3_ANSWER_SIZE])
{
    uint64_t value = mdf3_value(answer);
    switch (mdf3_kind(answer)) {
    case MDF3_UNSIGNED:
        printf("%" PRIu64, value);
        break;
    case MDF3_SIGNED:
        printf("%" PRId64, (int64_t)value);
        break;
    case MDF3_SINGLE:
        print_single(value);
        break;
    case MDF3_DOUBLE:
        print_double(answer);
        break;
    default:
        print_part(f, value, mdf3_length(answer));
        break;
    }
}

/* A line: the value, or number, place and words. */
static void print_answer(const char *what, const struct file *f, uint32_t number, const uint8_t answer[MDF3_ANSWER_SIZE])
{
    if (number != MDF3_OK) {
        print_line(what, number, mdf3_place(answer));
        return;
    }
    printf("%s: 0 0 ", what);
    print_value(f, answer);
    putchar('\n');
}

/* A number in decimal digits alone, below 2^64. */
static int read_index(const char *text, uint64_t *index)
{
    char *end;
    if (text[0] < '0' || text[0] > '9')
        return -1;
    errno = 0;
    *index = strtoull(text, &end, 10);
    return *end == '\0' && errno == 0 ? 0 : -1;
}

static int print_sample(const struct file *f, const uint64_t index[3])
{
    uint8_t answer[MDF3_ANSWER_SIZE];
    uint32_t number = mdf3_sample(f->bytes, f->length, index[0], index[1], index[2], answer);
    int result = number == MDF3_OK ? DONE : REFUSED;
    print_answer("raw", f, number, answer);
    number = mdf3_physical(f->bytes, f->length, index[0], index[1], index[2], answer);
    print_answer("physical", f, number, answer);
    return result;
}

int sample_command(int count, char **words)
{
    uint64_t index[3];
    struct file f;
    int result;
    for (int i = 1; i < count; i++)
        if (read_index(words[i], &index[i - 1]) != 0)
            return complain(words[i], "not a number from 0 to 18446744073709551615", NULL);
    switch (load(words[0], &f)) {
    case LOADED:
        result = print_sample(&f, index);
        unload(&f);
        return result;
    case TOO_LONG:
        print_line("raw", MDF3_TOO_LONG, 0);
        print_line("physical", MDF3_TOO_LONG, 0);
        return REFUSED;
    default:
        return complain_of(words[0], "cannot be read");
    }
}
