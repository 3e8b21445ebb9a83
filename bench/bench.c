/* How long check, copy, sample and compare take, beside two rewrites in plain C, the second implementation, a memcpy, a plain
 * read and a memcmp, all in one run. The figures are ratios, and nothing passes or fails by time; an answer, a copy or a list
 * that differs fails. docs/BENCHMARKS.md says what the rows and columns mean. */
#include "made.h"
#include "mdf3.h"
#include "plain.h"

#include <stdio.h>
#include <stdlib.h>
#include <string.h>

uint32_t second_check(const uint8_t *image, size_t image_len, uint8_t answer[MDF3_ANSWER_SIZE]);
uint32_t second_copy(const uint8_t *image, size_t image_len, uint8_t *out, size_t out_len, uint8_t answer[MDF3_ANSWER_SIZE]);
uint32_t second_sample(const uint8_t *image, size_t image_len, uint64_t group, uint64_t channel, uint64_t record,
                       uint8_t answer[MDF3_ANSWER_SIZE]);
uint32_t second_physical(const uint8_t *image, size_t image_len, uint64_t group, uint64_t channel, uint64_t record,
                         uint8_t answer[MDF3_ANSWER_SIZE]);
uint32_t second_compare(const uint8_t *first, size_t first_len, const uint8_t *second, size_t second_len, uint8_t *out,
                        size_t out_len, uint8_t answer[MDF3_ANSWER_SIZE]);

/* Four or five are measured in a row of the table, so each of them begins in as many turns as another. */
#define TURNS 20

/* Who is measured: those before MEMCPY answer, those before READ write. */
enum who { LIBRARY, SEARCH, TABLE, SECOND, MEMCPY, READ, MEMCMP, ALL };

enum call { CHECK, COPY, SAMPLE, COMPARE };

static const struct calls library = {mdf3_check, mdf3_copy, mdf3_sample, mdf3_physical, mdf3_compare};
static const struct calls second = {second_check, second_copy, second_sample, second_physical, second_compare};
static const struct calls *const answering[MEMCPY] = {&library, &by_search, &by_table, &second};

struct file {
    struct shape shape;
    size_t length, copy, list; /* of the image, of its copy, and of the difference list */
    uint8_t *image, *to[READ];
    uint8_t *same, *other; /* the image once more, and the one it is compared with; only where that is done */
    size_t other_length;
    uint8_t answer[MEMCPY][MDF3_ANSWER_SIZE];
};

static volatile uint64_t kept;

static void fail(const char *text)
{
    fprintf(stderr, "bench: %s\n", text);
    exit(1);
}

static void *memory(size_t length)
{
    void *p = malloc(length);
    if (p == NULL)
        fail("no memory");
    memset(p, 1, length);
    return p;
}

/* ---- what is measured */

static void plain_read(const uint8_t *image, size_t length)
{
    uint64_t sum = 0, x;
    for (size_t i = 0; i + 8 <= length; i += 8) {
        memcpy(&x, image + i, 8);
        sum += x;
    }
    kept = sum;
}

/* The sample is the last channel's in the second record of the last group. */
static uint32_t answer_by(enum who who, enum call call, struct file *f)
{
    const struct calls *by = answering[who];
    uint8_t *answer = f->answer[who];
    if (call == CHECK)
        return by->check(f->image, f->length, answer);
    if (call == COPY)
        return by->copy(f->image, f->length, f->to[who], f->copy, answer);
    if (call == COMPARE)
        return by->compare(f->image, f->length, f->other, f->other_length, f->to[who], f->list, answer);
    return by->sample(f->image, f->length, f->shape.groups - 1, f->shape.channels - 1, 1, answer);
}

static void once(enum who who, enum call call, struct file *f)
{
    if (who == MEMCPY)
        memcpy(f->to[who], f->image, f->length);
    else if (who == READ)
        plain_read(f->image, f->length);
    else if (who == MEMCMP)
        kept = (uint64_t)memcmp(f->image, f->same, f->length);
    else if (answer_by(who, call, f) != MDF3_OK)
        fail("refused");
}

/* Seconds for all files, one after the other. */
static double took(enum who who, enum call call, struct file *files, unsigned count)
{
    double start = now();
    for (unsigned i = 0; i < count; i++)
        once(who, call, &files[i]);
    return now() - start;
}

/* Who does work of that kind in this call: a copy moves all bytes, a check of unsorted data looks into every record, a
 * comparison looks at all bytes of both images. */
static unsigned measured(enum call call, const struct shape *s, enum who who[ALL])
{
    unsigned n = 0;
    for (enum who w = LIBRARY; w < ALL; w++)
        if (w < MEMCPY || (w == MEMCPY && call == COPY) || (w == READ && call == CHECK && s->mode > 0)
            || (w == MEMCMP && call == COMPARE))
            who[n++] = w;
    return n;
}

/* ---- turns */

/* How many bytes a call writes. */
static size_t written(const struct file *f, enum call call)
{
    return call == COPY ? f->copy : call == COMPARE ? f->list : 0;
}

/* What is found there later has been written in this turn. Another output is the last one wiped each time. */
static void wipe(struct file *f, enum call call, int turn)
{
    memset(f->answer, turn + 1, sizeof f->answer);
    for (int i = 0; i < (int)READ && (call == COPY || call == COMPARE); i++) {
        int who = (turn + i) % (int)READ;
        memset(f->to[who], turn + who, written(f, call));
    }
}

/* All have told the same. */
static void agree(const struct file *f, enum call call)
{
    for (enum who who = SEARCH; who < MEMCPY; who++) {
        if (memcmp(f->answer[LIBRARY], f->answer[who], MDF3_ANSWER_SIZE) != 0)
            fail("answers differ");
        if (memcmp(f->to[LIBRARY], f->to[who], written(f, call)) != 0)
            fail(call == COPY ? "copies differ" : "lists differ");
    }
}

/* One turn: each goes once over all files, beginning with another one each time. The least times are kept. */
static void take_turn(int turn, enum call call, struct file *files, double least[ALL])
{
    enum who who[ALL];
    unsigned count = files->shape.files, n = measured(call, &files->shape, who);
    for (unsigned i = 0; i < count; i++)
        wipe(&files[i], call, turn);
    for (unsigned i = 0; i < n; i++) {
        enum who next = who[((unsigned)turn + i) % n];
        double time = took(next, call, files, count);
        if (turn == 0 || time < least[next])
            least[next] = time;
    }
    for (unsigned i = 0; i < count; i++)
        agree(&files[i], call);
}

/* ---- the table */

/* A cell; nothing was measured where a time is 0. */
static void ratio(double time, double to)
{
    if (to > 0)
        printf(" %.*f |", time < 100 * to ? 2 : 0, time / to);
    else
        printf(" – |");
}

/* What was done is a call, or for a comparison how the other file differs. */
static void row(const char *file, const char *done, enum call call, const double least[ALL])
{
    double time = least[LIBRARY];
    printf("| %s | %s | %.*f ms |", file, done, time < 1e-3 ? 3 : 2, time * 1e3);
    if (call == COMPARE) {
        ratio(time, least[MEMCMP]);
    } else {
        ratio(time, least[MEMCPY]);
        ratio(time, least[READ]);
    }
    ratio(time, least[SEARCH]);
    ratio(time, least[TABLE]);
    ratio(time, least[SECOND]);
    printf("\n");
    fflush(stdout);
}

/* How long the copy is: one into no room tells. */
static size_t needed(const struct file *f)
{
    uint8_t answer[MDF3_ANSWER_SIZE], none;
    if (mdf3_copy(f->image, f->length, &none, 0, answer) != MDF3_NO_ROOM)
        fail("no length needed");
    return (size_t)mdf3_place(answer);
}

static void open_file(struct file *f, const struct shape *s, unsigned number)
{
    f->shape = s->files > 1 ? varied(s, number) : *s;
    f->image = memory(f->shape.room);
    f->length = made(f->image, &f->shape, number);
    f->copy = needed(f);
    for (enum who who = LIBRARY; who < READ; who++)
        f->to[who] = memory(f->copy > f->length ? f->copy : f->length);
}

/* How long the list is; a call without room tells that too, unless there is none. */
static size_t needed_list(const struct file *f)
{
    uint8_t answer[MDF3_ANSWER_SIZE], none;
    uint32_t number = mdf3_compare(f->image, f->length, f->other, f->other_length, &none, 0, answer);
    if (number != MDF3_OK && number != MDF3_NO_ROOM)
        fail("no length of the list");
    return (size_t)mdf3_place(answer);
}

/* What a file is compared with: the same, its canonical copy, or the same with every nth record changed. */
enum { SAME = 0, ITS_COPY = 1 };

static void open_other(struct file *f, unsigned every)
{
    uint8_t answer[MDF3_ANSWER_SIZE];
    f->same = memory(f->length);
    memcpy(f->same, f->image, f->length);
    f->other_length = every == ITS_COPY ? f->copy : f->length;
    f->other = memory(f->other_length);
    if (every == ITS_COPY) {
        if (mdf3_copy(f->image, f->length, f->other, f->copy, answer) != MDF3_OK)
            fail("no copy");
    } else {
        memcpy(f->other, f->image, f->length);
        if (every != SAME)
            change_records(f->other, f->length, &f->shape, every);
    }
    f->list = needed_list(f);
    if ((f->list == 0) != (every <= ITS_COPY))
        fail("the list is another");
}

static void close_other(struct file *f)
{
    free(f->same);
    free(f->other);
}

static void close_file(struct file *f)
{
    free(f->image);
    for (enum who who = LIBRARY; who < READ; who++)
        free(f->to[who]);
}

static struct file *open_files(const struct shape *s)
{
    struct file *files = memory(s->files * sizeof *files);
    for (unsigned i = 0; i < s->files; i++)
        open_file(&files[i], s, i);
    return files;
}

static void close_files(struct file *files, const struct shape *s)
{
    for (unsigned i = 0; i < s->files; i++)
        close_file(&files[i]);
    free(files);
}

/* All turns of a call, and its row. */
static void measure(const char *done, enum call call, struct file *files, const char *name)
{
    double least[ALL] = {0};
    for (int turn = 0; turn < TURNS; turn++)
        take_turn(turn, call, files, least);
    row(name, done, call, least);
}

static void bench(const struct shape *s)
{
    struct file *files = open_files(s);
    measure("check", CHECK, files, s->name);
    measure("copy", COPY, files, s->name);
    measure("sample", SAMPLE, files, s->name);
    close_files(files, s);
}

static void bench_compare(const struct shape *s, unsigned every, const char *done)
{
    struct file *files = open_files(s);
    for (unsigned i = 0; i < s->files; i++)
        open_other(&files[i], every);
    measure(done, COMPARE, files, s->name);
    for (unsigned i = 0; i < s->files; i++)
        close_other(&files[i]);
    close_files(files, s);
}

/* In a small file two to four records are changed. */
static const struct {
    const char *name;
    unsigned every;
} others[] = {{"equal", SAME}, {"its canonical copy", ITS_COPY}, {"1 of 500 records differs", 500}};

static const struct shape compared[] = {
    {"64 MB sorted", 64u << 20, 0, 1, 4, 16, 16, 1, 0},
    {"64 MB unsorted, 8 groups", 64u << 20, 1, 8, 4, 8, 64, 1, 0},
    {"64 MB unsorted, 8 groups, random order", 64u << 20, 1, 8, 4, 8, 64, 1, 1},
    {"16 MB unsorted, 40 groups", 16u << 20, 1, 40, 4, 8, 64, 1, 0},
    {"16 MB unsorted, 160 groups", 16u << 20, 1, 160, 4, 8, 64, 1, 0},
    {"16,000 channels", 4u << 20, 0, 1, 16000, 64, 64, 1, 0},
    {"2,000 files of 30 KB", 30u << 10, 1, 3, 4, 8, 20, 2000, 0},
};

static const struct shape shapes[] = {
    {"64 MB sorted", 64u << 20, 0, 1, 4, 16, 16, 1, 0},
    {"64 MB unsorted, 8 groups", 64u << 20, 1, 8, 4, 8, 64, 1, 0},
    {"64 MB unsorted, 8 groups, random order", 64u << 20, 1, 8, 4, 8, 64, 1, 1},
    {"64 MB unsorted, 40 groups", 64u << 20, 1, 40, 4, 8, 64, 1, 0},
    {"64 MB unsorted, 40 groups, random order", 64u << 20, 1, 40, 4, 8, 64, 1, 1},
    {"16,000 channels", 4u << 20, 0, 1, 16000, 64, 64, 1, 0},
    {"2,000 files of 30 KB", 30u << 10, 1, 3, 4, 8, 20, 2000, 0},
    /* fewer records, and two ID bytes */
    {"4 MB unsorted, 8 groups", 4u << 20, 1, 8, 4, 8, 64, 1, 0},
    {"4 MB unsorted, 40 groups", 4u << 20, 1, 40, 4, 8, 64, 1, 0},
    {"16 MB unsorted, 8 groups, mode 2", 16u << 20, 2, 8, 4, 8, 64, 1, 0},
    /* more and more groups */
    {"16 MB unsorted, 1 group", 16u << 20, 1, 1, 4, 36, 36, 1, 0},
    {"16 MB unsorted, 8 groups", 16u << 20, 1, 8, 4, 8, 64, 1, 0},
    {"16 MB unsorted, 8 groups, random order", 16u << 20, 1, 8, 4, 8, 64, 1, 1},
    {"16 MB unsorted, 40 groups", 16u << 20, 1, 40, 4, 8, 64, 1, 0},
    {"16 MB unsorted, 40 groups, random order", 16u << 20, 1, 40, 4, 8, 64, 1, 1},
    {"16 MB unsorted, 160 groups", 16u << 20, 1, 160, 4, 8, 64, 1, 0},
    {"16 MB unsorted, 160 groups, random order", 16u << 20, 1, 160, 4, 8, 64, 1, 1},
    {"16 MB unsorted, 256 groups", 16u << 20, 1, 256, 4, 8, 64, 1, 0},
    {"16 MB unsorted, 256 groups, random order", 16u << 20, 1, 256, 4, 8, 64, 1, 1},
    /* fewer channels */
    {"1,000 channels", 1u << 20, 0, 1, 1000, 64, 64, 1, 0},
    {"4,000 channels", 1u << 20, 0, 1, 4000, 64, 64, 1, 0},
};

static void compare_all(void)
{
    printf("\n| file | the other one | time | to memcmp | to plain C, searching | to plain C, table |"
           " to the second program |\n|---|---|---|---|---|---|---|\n");
    for (size_t i = 0; i < sizeof compared / sizeof compared[0]; i++)
        for (size_t n = 0; n < sizeof others / sizeof others[0]; n++)
            bench_compare(&compared[i], others[n].every, others[n].name);
}

/* Only the comparisons where that is asked for. */
int main(int argc, char **argv)
{
    if (argc < 2 || strcmp(argv[1], "compare") != 0) {
        printf("| file | call | time | to memcpy | to a plain read | to plain C, searching | to plain C, table |"
               " to the second program |\n|---|---|---|---|---|---|---|---|\n");
        for (size_t i = 0; i < sizeof shapes / sizeof shapes[0]; i++)
            bench(&shapes[i]);
    }
    compare_all();
    return 0;
}
