/* Checks that the library and include/ardenquill.h agree: the layout of every struct, and what the calls give and
 * write when they are called from C or C++. And that the header agrees with what its users read: the text of each
 * refusal is the one in README's table, and README and the newest entry of the change log name the header's version.
 *     header README.md CHANGELOG.md */
#include <stdarg.h>
#include <stdio.h>
#include <stdlib.h>
#include <string.h>

#include "ardenquill.h"
#include "heading.h"

/* Every struct's size and every field's offset, in bytes. */
#define LAYOUT(SIZE, OFFSET)                          \
    SIZE(ardenquill_queue, 20)                        \
    OFFSET(ardenquill_queue, produce, 0)              \
    OFFSET(ardenquill_queue, threshold, 4)            \
    OFFSET(ardenquill_queue, consume, 8)              \
    OFFSET(ardenquill_queue, capacity, 12)            \
    OFFSET(ardenquill_queue, reserved, 16)            \
    SIZE(ardenquill_chain, 392)                       \
    OFFSET(ardenquill_chain, n, 0)                    \
    OFFSET(ardenquill_chain, period, 4)               \
    OFFSET(ardenquill_chain, queues, 8)               \
    OFFSET(ardenquill_chain, work, 328)               \
    SIZE(ardenquill_queue_size, 24)                   \
    OFFSET(ardenquill_queue_size, x, 0)               \
    OFFSET(ardenquill_queue_size, y, 4)               \
    OFFSET(ardenquill_queue_size, minimum, 8)         \
    OFFSET(ardenquill_queue_size, by, 12)             \
    OFFSET(ardenquill_queue_size, capacity, 16)       \
    OFFSET(ardenquill_queue_size, margin, 20)         \
    SIZE(ardenquill_analysis, 396)                    \
    OFFSET(ardenquill_analysis, n, 0)                 \
    OFFSET(ardenquill_analysis, queues, 4)            \
    OFFSET(ardenquill_analysis, busy, 388)            \
    OFFSET(ardenquill_analysis, cycle, 392)           \
    SIZE(ardenquill_run, 200)                         \
    OFFSET(ardenquill_run, clock, 0)                  \
    OFFSET(ardenquill_run, counts, 4)                 \
    OFFSET(ardenquill_run, held, 72)                  \
    OFFSET(ardenquill_run, done, 136)                 \
    SIZE(ardenquill_chain_answer, 400)                \
    OFFSET(ardenquill_chain_answer, number, 0)        \
    OFFSET(ardenquill_chain_answer, place, 4)         \
    OFFSET(ardenquill_chain_answer, chain, 8)         \
    SIZE(ardenquill_analysis_answer, 404)             \
    OFFSET(ardenquill_analysis_answer, number, 0)     \
    OFFSET(ardenquill_analysis_answer, place, 4)      \
    OFFSET(ardenquill_analysis_answer, analysis, 8)   \
    SIZE(ardenquill_run_answer, 208)                  \
    OFFSET(ardenquill_run_answer, number, 0)          \
    OFFSET(ardenquill_run_answer, place, 4)           \
    OFFSET(ardenquill_run_answer, run, 8)             \
    SIZE(ardenquill_deadline_answer, 16)              \
    OFFSET(ardenquill_deadline_answer, number, 0)     \
    OFFSET(ardenquill_deadline_answer, place, 4)      \
    OFFSET(ardenquill_deadline_answer, due, 8)        \
    SIZE(ardenquill_outcome, 20)                      \
    OFFSET(ardenquill_outcome, number, 0)             \
    OFFSET(ardenquill_outcome, place, 4)              \
    OFFSET(ardenquill_outcome, kind, 8)               \
    OFFSET(ardenquill_outcome, tick, 12)              \
    OFFSET(ardenquill_outcome, at, 16)                \
    SIZE(ardenquill_outcome_run, 220)                 \
    OFFSET(ardenquill_outcome_run, number, 0)         \
    OFFSET(ardenquill_outcome_run, place, 4)          \
    OFFSET(ardenquill_outcome_run, kind, 8)           \
    OFFSET(ardenquill_outcome_run, tick, 12)          \
    OFFSET(ardenquill_outcome_run, at, 16)            \
    OFFSET(ardenquill_outcome_run, run, 20)           \
    SIZE(ardenquill_loss, 12)                         \
    OFFSET(ardenquill_loss, tick, 0)                  \
    OFFSET(ardenquill_loss, queue, 4)                 \
    OFFSET(ardenquill_loss, tokens, 8)                \
    SIZE(ardenquill_losses, 3076)                     \
    OFFSET(ardenquill_losses, count, 0)               \
    OFFSET(ardenquill_losses, entries, 4)             \
    SIZE(ardenquill_recording, 3296)                  \
    OFFSET(ardenquill_recording, number, 0)           \
    OFFSET(ardenquill_recording, place, 4)            \
    OFFSET(ardenquill_recording, kind, 8)             \
    OFFSET(ardenquill_recording, tick, 12)            \
    OFFSET(ardenquill_recording, at, 16)              \
    OFFSET(ardenquill_recording, run, 20)             \
    OFFSET(ardenquill_recording, losses, 220)         \
    SIZE(ardenquill_length_answer, 16)                \
    OFFSET(ardenquill_length_answer, number, 0)       \
    OFFSET(ardenquill_length_answer, place, 4)        \
    OFFSET(ardenquill_length_answer, length, 8)

/* Each as a check that is counted. */
#define SIZE_CHECKED(type, bytes) check(sizeof(struct type) == (bytes), "size of %s is %d", #type, bytes);
#define OFFSET_CHECKED(type, field, bytes) \
    check(offsetof(struct type, field) == (bytes), "offset of %s.%s is %d", #type, #field, bytes);

/* Room for the longest packed file and for bytes behind it that must stay as they were. */
#define ROOM (ARDENQUILL_PACKED_LENGTH(ARDENQUILL_MAX_QUEUES) + 16)

/* The same for the longest report. */
#define REPORT_ROOM (ARDENQUILL_MAX_REPORT_LENGTH + 16)

/* What README's table of refusals begins with. */
#define TABLE "| number | what is wrong | "

/* Room for a line of README.md or CHANGELOG.md, the highest number that is tried for a text, and the longest text that
 * fits a line of a log. */
#define LINE_ROOM 4096
#define HIGHEST_NUMBER 65536
#define LONGEST_TEXT 100

/* What every byte of a buffer is before a call. */
#define UNTOUCHED 0xa5

/* A chain of up to four queues in short: n, period, queue rows in the order of their fields, execution times. */
struct short_chain {
    uint32_t n, period, rows[4][5], work[4];
};

/* The factory chains. */
static const struct short_chain feed = {1, 10, {{4, 7, 3, 0, 0}}, {2}};
static const struct short_chain permeate = {2, 5, {{4, 7, 3, 0, 0}, {3, 4, 2, 0, 0}}, {1, 1}};
static const struct short_chain flush = {2, 100, {{16, 64, 16, 0, 0}, {1, 8, 8, 0, 0}}, {5, 3}};

/* What the analysis says of them. */
static const struct ardenquill_analysis feed_sizes = {1, {{4, 30, 10, 4, 10, 0}}, 8, 30};
static const struct ardenquill_analysis permeate_sizes = {2, {{4, 15, 10, 4, 10, 0}, {6, 15, 6, 3, 6, 0}}, 10, 15};
static const struct ardenquill_analysis flush_sizes = {2, {{1, 100, 64, 4, 64, 0}, {1, 800, 8, 8, 8, 0}}, 43, 800};

/* The report on Feed, whole. */
static const char feed_report[] = REPORT_HEADING "0,4,30,10,4,10,0\nbusy,8,30\n";

/* Permeate with capacities of its own, one above and one below the minimum. */
static const struct short_chain roomy = {2, 5, {{4, 7, 3, 12, 0}, {3, 4, 2, 5, 0}}, {1, 1}};
static const struct ardenquill_analysis roomy_sizes = {2, {{4, 15, 10, 4, 12, 2}, {6, 15, 6, 3, 5, -1}}, 10, 15};

/* The largest and the smallest minimum, each with the capacity that is furthest from it. */
static const struct short_chain widest = {
    2, 1000000, {{65535, 65535, 1, 1, 0}, {1, 1, 1, 1000000, 0}}, {1, 1}};
static const struct ardenquill_analysis widest_sizes = {
    2, {{65535, 1000000, 131069, 2, 1, -131068}, {65535, 1000000, 1, 1, 1000000, 999999}}, 131070, 1000000};

/* Work in every tick of the cycle, and two ticks more than it has. */
static const struct short_chain full = {2, 10, {{4, 7, 3, 0, 0}, {3, 4, 2, 0, 0}}, {3, 3}};
static const struct ardenquill_analysis full_sizes = {2, {{4, 30, 10, 4, 10, 0}, {6, 30, 6, 3, 6, 0}}, 30, 30};
static const struct short_chain overfull = {2, 10, {{4, 7, 3, 0, 0}, {3, 4, 2, 0, 0}}, {2, 4}};

/* Overloaded chains whose busy looks small in too few bits: it is 2^32, and 3,714,625,539 above a multiple of 2^64
 * with a cycle of 4,288,678,063. */
static const struct short_chain past_32_bits = {1, 1, {{32768, 1, 1, 0, 0}}, {131072}};
static const struct short_chain past_64_bits = {
    4, 1, {{65521, 1, 1, 0, 0}, {65519, 1, 1, 0, 0}, {1, 65479, 65479, 0, 0}, {1, 65497, 65497, 0, 0}},
    {984674, 23055, 1, 1}};

/* A y of 4,294,967,295, of one more, and of many more; an x that passes it at N_3 of a chain that is overloaded
 * too. */
static const struct short_chain largest_y = {1, 983055, {{1, 4369, 4369, 0, 0}}, {1}};
static const struct ardenquill_analysis largest_y_sizes = {
    1, {{1, 4294967295u, 4369, 4369, 4369, 0}}, 1, 4294967295u};
static const struct short_chain y_too_large = {1, 524288, {{1, 8192, 8192, 0, 0}}, {1}};
static const struct short_chain y_far_too_large = {1, 1000000, {{1, 65521, 65521, 0, 0}}, {1}};
static const struct short_chain x_too_large = {
    3, 1, {{65535, 1, 1, 0, 0}, {65535, 1, 1, 0, 0}, {65535, 1, 1, 0, 0}}, {1, 1, 1}};

/* What the analysis says of the chain that sixteen() gives. */
static const struct ardenquill_analysis sixteen_sizes = {
    16,
    {{3, 120000, 2200, 8, 3000, 800},
     {9, 240000, 2626, 10, 3300, 674},
     {27, 480000, 2958, 11, 3600, 642},
     {81, 960000, 3399, 12, 3900, 501},
     {243, 1920000, 3744, 13, 4200, 456},
     {729, 3840000, 4095, 14, 4095, 0},
     {2187, 7680000, 4452, 15, 4800, 348},
     {6561, 15360000, 4815, 16, 5100, 285},
     {19683, 30720000, 5184, 17, 5400, 216},
     {59049, 61440000, 5559, 18, 5700, 141},
     {177147, 122880000, 5940, 19, 6000, 60},
     {531441, 245760000, 6327, 20, 6300, -27},
     {1594323, 491520000, 6720, 21, 6600, -120},
     {4782969, 983040000, 7119, 22, 6900, -219},
     {14348907, 1966080000, 7524, 23, 7200, -324},
     {43046721, 3932160000u, 7820, 24, 7500, -320}},
    1808355498,
    3932160000u};

/* What the analysis says of the chain that widest_lines() gives. */
static const struct ardenquill_analysis widest_lines_sizes = {
    16,
    {{65535, 4294770690u, 131069, 65535, 1000000, 868931},
     {100006410, 4294770690u, 129612, 3, 1000000, 870388},
     {100004884, 4294770690u, 131068, 65535, 1000000, 868932},
     {100006410, 4294770690u, 131069, 65535, 1000000, 868931},
     {100004884, 4294770690u, 131068, 65535, 1000000, 868932},
     {100006410, 4294770690u, 131069, 65535, 1000000, 868931},
     {100004884, 4294770690u, 131068, 65535, 1000000, 868932},
     {100006410, 4294770690u, 131069, 65535, 1000000, 868931},
     {100004884, 4294770690u, 131068, 65535, 1000000, 868932},
     {100006410, 4294770690u, 131069, 65535, 1000000, 868931},
     {100004884, 4294770690u, 131068, 65535, 1000000, 868932},
     {100006410, 4294770690u, 131069, 65535, 1000000, 868931},
     {100004884, 4294770690u, 131068, 65535, 1000000, 868932},
     {1000032381, 4294770690u, 126293, 6077, 1000000, 873707},
     {1000048840, 4294770690u, 126294, 60760, 1000000, 873706},
     {1000065299, 4294770690u, 126295, 60761, 1000000, 873705}},
    4200279819u,
    4294770690u};

/* A chain whose nodes all fire equally often, and one whose only node fires a thousand times as often as the source. */
static const struct short_chain even = {2, 10, {{5, 5, 5, 0, 0}, {7, 14, 7, 0, 0}}, {1, 1}};
static const struct short_chain thousandfold = {1, 1000, {{1000, 1, 1, 0, 0}}, {1}};

/* A chain whose sink has no deadline: from its first index of 1,000,001 at N_1 follows one above 4,294,967,295 at the
 * source. */
static const struct short_chain far_ahead = {2, 1, {{1, 4295, 4295, 0, 0}, {1, 1, 1, 1000000, 0}}, {1, 1}};

/* Feed as a packed file: the header, the queue row, the node row. */
static const uint32_t feed_file[] = {1, 10, 20, 40, 44, 4, 7, 3, 0, 0, 2};

static int passed, failed;

/* Counts a check, and prints its name if it failed. */
static void check(int holds, const char *name, ...)
{
    if (holds) {
        passed++;
        return;
    }
    failed++;
    va_list values;
    va_start(values, name);
    fputs("failed: ", stdout);
    vprintf(name, values);
    putchar('\n');
    va_end(values);
}

/* The chain that a short one stands for, all other slots zero. */
static struct ardenquill_chain chain_of(const struct short_chain *from)
{
    struct ardenquill_chain chain;
    memset(&chain, 0, sizeof chain);
    chain.n = from->n;
    chain.period = from->period;
    for (int i = 0; i < 4; i++) {
        chain.queues[i].produce = from->rows[i][0];
        chain.queues[i].threshold = from->rows[i][1];
        chain.queues[i].consume = from->rows[i][2];
        chain.queues[i].capacity = from->rows[i][3];
        chain.queues[i].reserved = from->rows[i][4];
        chain.work[i] = from->work[i];
    }
    return chain;
}

/* A chain of 16 queues in which no two words are the same but the reserved ones, so that none can stand in for
 * another. */
static struct ardenquill_chain told_apart(void)
{
    struct ardenquill_chain chain;
    memset(&chain, 0, sizeof chain);
    chain.n = ARDENQUILL_MAX_QUEUES;
    chain.period = 6000;
    for (uint32_t i = 0; i < ARDENQUILL_MAX_QUEUES; i++) {
        chain.queues[i].produce = 1000 + i;
        chain.queues[i].threshold = 3000 + i;
        chain.queues[i].consume = 2000 + i;
        chain.queues[i].capacity = 4000 + i;
        chain.work[i] = 5000 + i;
    }
    return chain;
}

/* A chain of 16 queues that the analysis accepts, in which no two queues have a figure in common. */
static struct ardenquill_chain sixteen(void)
{
    struct ardenquill_chain chain;
    memset(&chain, 0, sizeof chain);
    chain.n = ARDENQUILL_MAX_QUEUES;
    chain.period = 60000;
    for (uint32_t i = 0; i < ARDENQUILL_MAX_QUEUES; i++) {
        chain.queues[i].produce = 3 * (100 + i);
        chain.queues[i].threshold = 2000 + 371 * i;
        chain.queues[i].consume = 2 * (100 + i);
        chain.queues[i].capacity = i == 5 ? 0 : 3000 + 300 * i;
        chain.work[i] = 1 + i;
    }
    return chain;
}

/* A chain of 16 queues whose report has long numbers in every column: naming counts of up to 65,535, the highest that
 * there is, beside an x and a y of up to ten digits. */
static struct ardenquill_chain widest_lines(void)
{
    static const uint32_t produce_consume[ARDENQUILL_MAX_QUEUES][2] = {
        {65535, 65534}, {64092, 42},    {65534, 65535}, {65535, 65534}, {65534, 65535}, {65535, 65534},
        {65534, 65535}, {65535, 65534}, {65534, 65535}, {65535, 65534}, {65534, 65535}, {65535, 65534},
        {65534, 65535}, {60759, 6076},  {60760, 60759}, {60761, 60760}};
    struct ardenquill_chain chain;
    memset(&chain, 0, sizeof chain);
    chain.n = ARDENQUILL_MAX_QUEUES;
    chain.period = 65535;
    for (int i = 0; i < ARDENQUILL_MAX_QUEUES; i++) {
        chain.queues[i].produce = produce_consume[i][0];
        chain.queues[i].threshold = 65535;
        chain.queues[i].consume = produce_consume[i][1];
        chain.queues[i].capacity = 1000000;
        chain.work[i] = 1;
    }
    return chain;
}

/* The radar chain of document 000. */
static struct ardenquill_chain radar(void)
{
    static const uint32_t rows[6][3] = {{118, 118, 118}, {256, 256, 256},     {256, 256, 256},
                                        {256, 256, 256}, {256, 32768, 16384}, {32768, 128, 128}};
    struct ardenquill_chain chain;
    memset(&chain, 0, sizeof chain);
    chain.n = 6;
    chain.period = 1000;
    for (int i = 0; i < 6; i++) {
        chain.queues[i].produce = rows[i][0];
        chain.queues[i].threshold = rows[i][1];
        chain.queues[i].consume = rows[i][2];
        chain.work[i] = 1;
    }
    return chain;
}

/* The little-endian word at a byte offset. */
static uint32_t word_at(const uint8_t *bytes, size_t at)
{
    return bytes[at] | (uint32_t)bytes[at + 1] << 8 | (uint32_t)bytes[at + 2] << 16 | (uint32_t)bytes[at + 3] << 24;
}

/* Puts a little-endian word at a byte offset. */
static void put_word(uint8_t *bytes, size_t at, uint32_t word)
{
    for (int i = 0; i < 4; i++)
        bytes[at + i] = (uint8_t)(word >> 8 * i);
}

/* Puts the packed file of a chain. Its length. */
static size_t pack(struct ardenquill_chain chain, uint8_t *file)
{
    const size_t nodes = 20 + 20 * chain.n;
    put_word(file, 0, chain.n);
    put_word(file, 4, chain.period);
    put_word(file, 8, 20);
    put_word(file, 12, (uint32_t)nodes);
    put_word(file, 16, ARDENQUILL_PACKED_LENGTH(chain.n));
    for (uint32_t i = 0; i < chain.n; i++) {
        uint8_t *row = file + 20 + 20 * i;
        put_word(row, 0, chain.queues[i].produce);
        put_word(row, 4, chain.queues[i].threshold);
        put_word(row, 8, chain.queues[i].consume);
        put_word(row, 12, chain.queues[i].capacity);
        put_word(row, 16, chain.queues[i].reserved);
        put_word(file, nodes + 4 * i, chain.work[i]);
    }
    return ARDENQUILL_PACKED_LENGTH(chain.n);
}

/* Puts the line that a report has for the queue of a number. Its length. */
static size_t put_queue_line(uint32_t number, const struct ardenquill_queue_size *queue, char *text)
{
    return (size_t)sprintf(text, "%lu,%lu,%lu,%lu,%lu,%lu,%ld\n", (unsigned long)number, (unsigned long)queue->x,
                           (unsigned long)queue->y, (unsigned long)queue->minimum, (unsigned long)queue->by,
                           (unsigned long)queue->capacity, (long)queue->margin);
}

/* Puts the last line of a report. Its length. */
static size_t put_last_line(uint32_t busy, uint32_t cycle, char *text)
{
    return (size_t)sprintf(text, "busy,%lu,%lu\n", (unsigned long)busy, (unsigned long)cycle);
}

/* Puts the text of an analysis as a report has it. Its length. */
static size_t text_of(const struct ardenquill_analysis *analysis, char *text)
{
    size_t length = (size_t)sprintf(text, REPORT_HEADING);
    for (uint32_t i = 0; i < analysis->n; i++)
        length += put_queue_line(i, &analysis->queues[i], text + length);
    return length + put_last_line(analysis->busy, analysis->cycle, text + length);
}

/* Whether all bytes from one offset up to another are as before the call. */
static int untouched(const uint8_t *bytes, size_t from, size_t to)
{
    for (size_t at = from; at < to; at++)
        if (bytes[at] != UNTOUCHED)
            return 0;
    return 1;
}

/* Checks every field of a chain, the slots past n too. */
static void check_chain(const char *what, struct ardenquill_chain got, struct ardenquill_chain due)
{
    check(got.n == due.n, "%s: n", what);
    check(got.period == due.period, "%s: period", what);
    for (int i = 0; i < ARDENQUILL_MAX_QUEUES; i++) {
        check(got.queues[i].produce == due.queues[i].produce, "%s: produce of queue %d", what, i);
        check(got.queues[i].threshold == due.queues[i].threshold, "%s: threshold of queue %d", what, i);
        check(got.queues[i].consume == due.queues[i].consume, "%s: consume of queue %d", what, i);
        check(got.queues[i].capacity == due.queues[i].capacity, "%s: capacity of queue %d", what, i);
        check(got.queues[i].reserved == due.queues[i].reserved, "%s: reserved of queue %d", what, i);
        check(got.work[i] == due.work[i], "%s: work %d", what, i);
    }
}

/* Checks the number and place of an answer and every field of its chain. */
static void check_chain_answer(const char *what, struct ardenquill_chain_answer got, uint32_t number, uint32_t place,
                               struct ardenquill_chain due)
{
    check(got.number == number, "%s: number", what);
    check(got.place == place, "%s: place", what);
    check_chain(what, got.chain, due);
}

/* Checks the number and place of an answer that is refused, and that its chain is zero. */
static void check_chain_refused(const char *what, struct ardenquill_chain_answer got, uint32_t number, uint32_t place)
{
    struct ardenquill_chain zero;
    memset(&zero, 0, sizeof zero);
    check_chain_answer(what, got, number, place, zero);
}

/* Checks the number, place and length of an answer. */
static void check_length_answer(const char *what, struct ardenquill_length_answer got, uint32_t number, uint32_t place,
                                uint64_t length)
{
    check(got.number == number, "%s: number", what);
    check(got.place == place, "%s: place", what);
    check(got.length == length, "%s: length", what);
}

/* Checks every field of an analysis, the slots past n too. */
static void check_analysis(const char *what, struct ardenquill_analysis got, struct ardenquill_analysis due)
{
    check(got.n == due.n, "%s: n", what);
    for (int i = 0; i < ARDENQUILL_MAX_QUEUES; i++) {
        check(got.queues[i].x == due.queues[i].x, "%s: x of queue %d", what, i);
        check(got.queues[i].y == due.queues[i].y, "%s: y of queue %d", what, i);
        check(got.queues[i].minimum == due.queues[i].minimum, "%s: minimum of queue %d", what, i);
        check(got.queues[i].by == due.queues[i].by, "%s: naming count of queue %d", what, i);
        check(got.queues[i].capacity == due.queues[i].capacity, "%s: capacity of queue %d", what, i);
        check(got.queues[i].margin == due.queues[i].margin, "%s: margin of queue %d", what, i);
    }
    check(got.busy == due.busy, "%s: busy", what);
    check(got.cycle == due.cycle, "%s: cycle", what);
}

/* Checks the number and place of an answer and every field of its analysis. */
static void check_analysis_answer(const char *what, struct ardenquill_analysis_answer got, uint32_t number,
                                  uint32_t place, struct ardenquill_analysis due)
{
    check(got.number == number, "%s: number", what);
    check(got.place == place, "%s: place", what);
    check_analysis(what, got.analysis, due);
}

/* Checks that a chain is refused by the analysis, and that the answer is zero but for number and place. */
static void check_analysis_refused(const char *what, struct ardenquill_chain chain, uint32_t number, uint32_t place)
{
    struct ardenquill_analysis zero;
    memset(&zero, 0, sizeof zero);
    check_analysis_answer(what, ardenquill_analyse(chain), number, place, zero);
}

/* A run state in short, all other slots zero: what the first nodes have fired and what the first queues hold. */
static struct ardenquill_run run_of(uint32_t source, uint32_t first, uint32_t second, uint32_t queue_0,
                                    uint32_t queue_1)
{
    struct ardenquill_run run;
    memset(&run, 0, sizeof run);
    run.counts[0] = source;
    run.counts[1] = first;
    run.counts[2] = second;
    run.held[0] = queue_0;
    run.held[1] = queue_1;
    return run;
}

/* Checks every field of a run state, the slots past n too. */
static void check_run(const char *what, struct ardenquill_run got, struct ardenquill_run due)
{
    check(got.clock == due.clock, "%s: clock", what);
    for (int i = 0; i <= ARDENQUILL_MAX_QUEUES; i++)
        check(got.counts[i] == due.counts[i], "%s: count of node %d", what, i);
    for (int i = 0; i < ARDENQUILL_MAX_QUEUES; i++) {
        check(got.held[i] == due.held[i], "%s: held by queue %d", what, i);
        check(got.done[i] == due.done[i], "%s: work done by node %d", what, i + 1);
    }
}

/* Checks the number and place of an answer and every field of its run state. */
static void check_run_answer(const char *what, struct ardenquill_run_answer got, uint32_t number, uint32_t place,
                             struct ardenquill_run due)
{
    check(got.number == number, "%s: number", what);
    check(got.place == place, "%s: place", what);
    check_run(what, got.run, due);
}

/* Checks that a firing is refused and that the run state comes back as it was. */
static void check_fire_refused(const char *what, struct ardenquill_chain chain, struct ardenquill_run run,
                               uint32_t node, uint32_t number, uint32_t place)
{
    check_run_answer(what, ardenquill_fire(chain, run, node), number, place, run);
}

/* Checks that an immediate run is refused, and that the answer is zero but for number and place. */
static void check_immediate_refused(const char *what, struct ardenquill_chain chain, uint32_t k, uint32_t number,
                                    uint32_t place)
{
    check_run_answer(what, ardenquill_immediate(chain, k), number, place, run_of(0, 0, 0, 0, 0));
}

/* Checks the number, place and deadline of an answer. */
static void check_deadline_answer(const char *what, struct ardenquill_deadline_answer got, uint32_t number,
                                  uint32_t place, uint64_t due)
{
    check(got.number == number, "%s: number", what);
    check(got.place == place, "%s: place", what);
    check(got.due == due, "%s: due", what);
}

/* Checks every field of an answer that is not refused. */
static void check_outcome(const char *what, struct ardenquill_outcome_run got, uint32_t kind, uint32_t tick,
                          uint32_t at, struct ardenquill_run due)
{
    check(got.number == 0, "%s: number", what);
    check(got.place == 0, "%s: place", what);
    check(got.kind == kind, "%s: kind", what);
    check(got.tick == tick, "%s: tick", what);
    check(got.at == at, "%s: at", what);
    check_run(what, got.run, due);
}

/* Checks that a deadline run is refused, and that the answer is zero but for number and place. */
static void check_deadline_run_refused(const char *what, struct ardenquill_chain chain, uint32_t ticks, uint32_t number,
                                       uint32_t place)
{
    struct ardenquill_outcome_run got = ardenquill_deadline_run(chain, ticks);
    check(got.number == number, "%s: number", what);
    check(got.place == place, "%s: place", what);
    check(got.kind == 0, "%s: kind", what);
    check(got.tick == 0, "%s: tick", what);
    check(got.at == 0, "%s: at", what);
    check_run(what, got.run, run_of(0, 0, 0, 0, 0));
}

/* The answer of a clean tick. */
static const struct ardenquill_outcome outcome_clean = {0, 0, ARDENQUILL_CLEAN, 0, 0};

/* Checks an outcome, field by field. */
static void check_fields(const char *what, struct ardenquill_outcome got, struct ardenquill_outcome due)
{
    check(got.number == due.number, "%s: number", what);
    check(got.place == due.place, "%s: place", what);
    check(got.kind == due.kind, "%s: kind", what);
    check(got.tick == due.tick, "%s: tick", what);
    check(got.at == due.at, "%s: at", what);
}

/* Lends a state to a tick as a controller does; checks the answer, and that the chain stays as it was. */
static void check_lent(const char *what, struct ardenquill_chain chain, struct ardenquill_run *run,
                       struct ardenquill_outcome due)
{
    struct ardenquill_chain lent = chain;
    check_fields(what, ardenquill_tick(&lent, run), due);
    check(memcmp(&lent, &chain, sizeof chain) == 0, "%s: chain", what);
}

/* Checks that a tick is refused and that the state that was lent stays as it was. */
static void check_tick_refused(const char *what, struct ardenquill_chain chain, struct ardenquill_run run,
                               uint32_t number, uint32_t place)
{
    struct ardenquill_run lent = run;
    struct ardenquill_outcome due = {number, place, 0, 0, 0};
    check_lent(what, chain, &lent, due);
    check_run(what, lent, run);
}

/* Checks the count and every slot of a list of losses. */
static void check_losses(const char *what, const struct ardenquill_losses *got, const struct ardenquill_losses *due)
{
    check(got->count == due->count, "%s: count of losses", what);
    check(memcmp(got->entries, due->entries, sizeof due->entries) == 0, "%s: losses", what);
}

/* A list of so many losses, one in each of the ticks that begin with the first and lie so far apart, of the same queue
 * and tokens; every byte of the slots behind them is `rest`. */
static struct ardenquill_losses losses_of(uint32_t count, uint32_t first, uint32_t apart, uint32_t queue,
                                          uint32_t tokens, int rest)
{
    struct ardenquill_losses losses;
    memset(&losses, rest, sizeof losses);
    losses.count = count;
    for (uint32_t i = 0; i < count; i++) {
        losses.entries[i].tick = first + i * apart;
        losses.entries[i].queue = queue;
        losses.entries[i].tokens = tokens;
    }
    return losses;
}

/* Lends a state and a list to a recording tick; checks the answer, and that the chain stays as it was. */
static void check_recording_lent(const char *what, struct ardenquill_chain chain, struct ardenquill_run *run,
                                 struct ardenquill_losses *losses, struct ardenquill_outcome due)
{
    struct ardenquill_chain lent = chain;
    check_fields(what, ardenquill_recording_tick(&lent, run, losses), due);
    check(memcmp(&lent, &chain, sizeof chain) == 0, "%s: chain", what);
}

/* Checks a recording tick that leaves the state and the list that were lent as they were: refused, or stuck. */
static void check_recording_stays(const char *what, struct ardenquill_chain chain, struct ardenquill_run run,
                                  const struct ardenquill_losses *losses, struct ardenquill_outcome due)
{
    struct ardenquill_run lent = run;
    struct ardenquill_losses lent_losses = *losses;
    check_recording_lent(what, chain, &lent, &lent_losses, due);
    check_run(what, lent, run);
    check_losses(what, &lent_losses, losses);
}

/* The same of one that is refused. */
static void check_recording_tick_refused(const char *what, struct ardenquill_chain chain, struct ardenquill_run run,
                                         const struct ardenquill_losses *losses, uint32_t number, uint32_t place)
{
    const struct ardenquill_outcome due = {number, place, 0, 0, 0};
    check_recording_stays(what, chain, run, losses, due);
}

/* Checks every field of what a recording run gives. */
static void check_recording(const char *what, struct ardenquill_recording got, struct ardenquill_outcome due,
                            struct ardenquill_run run, const struct ardenquill_losses *losses)
{
    const struct ardenquill_outcome outcome = {got.number, got.place, got.kind, got.tick, got.at};
    check_fields(what, outcome, due);
    check_run(what, got.run, run);
    check_losses(what, &got.losses, losses);
}

/* Checks that a recording run is refused, and that the answer is zero but for number and place. */
static void check_recording_run_refused(const char *what, struct ardenquill_chain chain, uint32_t ticks,
                                        uint32_t number, uint32_t place)
{
    const struct ardenquill_outcome due = {number, place, 0, 0, 0};
    const struct ardenquill_losses none = losses_of(0, 0, 0, 0, 0, 0);
    check_recording(what, ardenquill_recording_run(chain, ticks), due, run_of(0, 0, 0, 0, 0), &none);
}

/* Checks a report that has less room, exact room and ample room, and that the file stays as it is. */
static void check_report(const char *what, const uint8_t *file, size_t file_length, const char *text, size_t length)
{
    char name[96];
    uint8_t out[REPORT_ROOM], copy[ROOM];
    memset(out, UNTOUCHED, sizeof out);
    memcpy(copy, file, file_length);
    check(length <= ARDENQUILL_MAX_REPORT_LENGTH, "%s: length within the largest", what);

    snprintf(name, sizeof name, "%s reported to nothing", what);
    check_length_answer(name, ardenquill_report(file, file_length, NULL, 0), ARDENQUILL_NO_ROOM, (uint32_t)length, 0);

    snprintf(name, sizeof name, "%s reported to a byte too little", what);
    check_length_answer(name, ardenquill_report(file, file_length, out, length - 1), ARDENQUILL_NO_ROOM,
                        (uint32_t)length, 0);
    check(untouched(out, 0, sizeof out), "%s: out untouched", name);

    snprintf(name, sizeof name, "%s reported to exact room", what);
    check_length_answer(name, ardenquill_report(file, file_length, out, length), 0, 0, length);
    check(memcmp(out, text, length) == 0, "%s: text", name);
    check(untouched(out, length, sizeof out), "%s: bytes behind untouched", name);

    snprintf(name, sizeof name, "%s reported to ample room", what);
    memset(out, UNTOUCHED, sizeof out);
    check_length_answer(name, ardenquill_report(file, file_length, out, sizeof out), 0, 0, length);
    check(memcmp(out, text, length) == 0, "%s: text", name);
    check(untouched(out, length, sizeof out), "%s: bytes behind untouched", name);

    check(memcmp(copy, file, file_length) == 0, "%s: file as it was", what);
}

/* Checks that a file is refused by the report, with room and without, and that the report leaves its room alone. */
static void check_report_refused(const char *what, const uint8_t *file, size_t length, uint32_t number, uint32_t place)
{
    uint8_t out[REPORT_ROOM];
    memset(out, UNTOUCHED, sizeof out);
    check_length_answer(what, ardenquill_report(file, length, out, sizeof out), number, place, 0);
    check(untouched(out, 0, sizeof out), "%s: out untouched", what);
    check_length_answer(what, ardenquill_report(file, length, NULL, 0), number, place, 0);
}

/* Checks every word of a packed file against the chain that it was written from. */
static void check_file(const char *what, const uint8_t *file, struct ardenquill_chain chain)
{
    check(word_at(file, 0) == chain.n, "%s: word n", what);
    check(word_at(file, 4) == chain.period, "%s: word period", what);
    check(word_at(file, 8) == 20, "%s: word queue table", what);
    check(word_at(file, 12) == 20 + 20 * chain.n, "%s: word node table", what);
    check(word_at(file, 16) == 20 + 24 * chain.n, "%s: word total length", what);
    for (uint32_t i = 0; i < chain.n; i++) {
        const uint8_t *row = file + 20 + 20 * i;
        check(word_at(row, 0) == chain.queues[i].produce, "%s: word produce of queue %d", what, (int)i);
        check(word_at(row, 4) == chain.queues[i].threshold, "%s: word threshold of queue %d", what, (int)i);
        check(word_at(row, 8) == chain.queues[i].consume, "%s: word consume of queue %d", what, (int)i);
        check(word_at(row, 12) == chain.queues[i].capacity, "%s: word capacity of queue %d", what, (int)i);
        check(word_at(row, 16) == chain.queues[i].reserved, "%s: word reserved of queue %d", what, (int)i);
        check(word_at(file, 20 + 20 * chain.n + 4 * i) == chain.work[i], "%s: word work %d", what, (int)i);
    }
}

/* Checks a write that has room, a write that has none, one of a byte too little, and reading back what was
 * written. */
static void check_round_trip(const char *what, struct ardenquill_chain chain)
{
    const uint32_t length = ARDENQUILL_PACKED_LENGTH(chain.n);
    char name[64];
    uint8_t out[ROOM];
    memset(out, UNTOUCHED, sizeof out);

    snprintf(name, sizeof name, "%s written to nothing", what);
    check_length_answer(name, ardenquill_write(chain, NULL, 0), ARDENQUILL_NO_ROOM, length, 0);

    snprintf(name, sizeof name, "%s written to a byte too little", what);
    check_length_answer(name, ardenquill_write(chain, out, length - 1), ARDENQUILL_NO_ROOM, length, 0);
    check(untouched(out, 0, sizeof out), "%s: out untouched", name);

    snprintf(name, sizeof name, "%s written to exact room", what);
    check_length_answer(name, ardenquill_write(chain, out, length), 0, 0, length);
    check_file(name, out, chain);
    check(untouched(out, length, sizeof out), "%s: bytes behind untouched", name);

    snprintf(name, sizeof name, "%s written to ample room", what);
    memset(out, UNTOUCHED, sizeof out);
    check_length_answer(name, ardenquill_write(chain, out, sizeof out), 0, 0, length);
    check_file(name, out, chain);
    check(untouched(out, length, sizeof out), "%s: bytes behind untouched", name);

    snprintf(name, sizeof name, "%s read back", what);
    check_chain_answer(name, ardenquill_read(out, length), 0, 0, chain);
}

/* Checks what the analysis says of a chain, also with garbage in its slots past n, and the report on its file. */
static void check_sizes(const char *what, struct ardenquill_chain chain, struct ardenquill_analysis due)
{
    check_analysis_answer(what, ardenquill_analyse(chain), 0, 0, due);

    uint8_t file[ROOM];
    char text[REPORT_ROOM], name[64];
    check_report(what, file, pack(chain, file), text, text_of(&due, text));

    snprintf(name, sizeof name, "%s with garbage past n", what);
    for (uint32_t i = chain.n; i < ARDENQUILL_MAX_QUEUES; i++) {
        memset(&chain.queues[i], UNTOUCHED, sizeof chain.queues[i]);
        memset(&chain.work[i], UNTOUCHED, sizeof chain.work[i]);
    }
    check_analysis_answer(name, ardenquill_analyse(chain), 0, 0, due);
}

/* Checks that a chain is refused by the analysis, and its packed file by the report with the same place. */
static void check_sizes_refused(const char *what, struct ardenquill_chain chain, uint32_t number, uint32_t place)
{
    uint8_t file[ROOM];
    check_analysis_refused(what, chain, number, place);
    check_report_refused(what, file, pack(chain, file), number, place);
}

/* Checks that a factory chain is the one of the table, field by field, that this chain makes the round trip, and
 * what the analysis says of it. */
static void check_factory(const char *what, uint32_t number, const struct short_chain *due,
                          struct ardenquill_analysis sizes)
{
    check_chain_answer(what, ardenquill_factory(number), 0, 0, chain_of(due));
    check_round_trip(what, chain_of(due));
    check_sizes(what, chain_of(due), sizes);
}

/* Checks that Feed's file, with one word changed, is refused by the reader and by the report. */
static void check_read_refused(const char *what, size_t at, uint32_t word, uint32_t number, uint32_t place)
{
    uint8_t file[sizeof feed_file];
    for (size_t i = 0; i < sizeof feed_file / 4; i++)
        put_word(file, 4 * i, feed_file[i]);
    put_word(file, at, word);
    check_chain_refused(what, ardenquill_read(file, sizeof file), number, place);
    check_report_refused(what, file, sizeof file, number, place);
}

/* Checks that a chain is refused by the writer, which leaves its room alone, and by the analysis. */
static void check_write_refused(const char *what, struct ardenquill_chain chain, uint32_t number, uint32_t place)
{
    uint8_t out[ROOM];
    memset(out, UNTOUCHED, sizeof out);
    check_length_answer(what, ardenquill_write(chain, out, sizeof out), number, place, 0);
    check(untouched(out, 0, sizeof out), "%s: out untouched", what);
    check_analysis_refused(what, chain, number, place);
}

/* Checks each number that the reader refuses with. */
static void check_read_refusals(void)
{
    check_chain_refused("read nothing", ardenquill_read(NULL, 0), ARDENQUILL_BAD_LENGTH, 0);
    check_report_refused("report on nothing", NULL, 0, ARDENQUILL_BAD_LENGTH, 0);
    check_read_refused("read total word 43", 16, 43, ARDENQUILL_BAD_LENGTH, 0);
    check_read_refused("read n 17", 0, 17, ARDENQUILL_BAD_COUNT, 0);
    check_read_refused("read queue table at 16", 8, 16, ARDENQUILL_BAD_TABLE, 8);
    check_read_refused("read node table at 44", 12, 44, ARDENQUILL_BAD_TABLE, 12);
    check_read_refused("read tables that overlap", 12, 36, ARDENQUILL_BAD_TABLE, 12);
    check_read_refused("read period 0", 4, 0, ARDENQUILL_BAD_FIELD, 4);
    check_read_refused("read work 0", 40, 0, ARDENQUILL_BAD_FIELD, 40);
    check_read_refused("read consume above threshold", 28, 8, ARDENQUILL_BAD_CONSUME, 28);
}

/* Checks each number that the writer refuses with before it looks at its room. */
static void check_write_refusals(void)
{
    struct ardenquill_chain chain = chain_of(&feed);
    chain.n = 0;
    check_write_refused("write n 0", chain, ARDENQUILL_BAD_COUNT, 0);
    chain.n = 17;
    check_write_refused("write n 17", chain, ARDENQUILL_BAD_COUNT, 0);
    memset(&chain, 0xff, sizeof chain);
    check_write_refused("write garbage", chain, ARDENQUILL_BAD_COUNT, 0);
    chain.n = ARDENQUILL_MAX_QUEUES;
    check_write_refused("write garbage of 16 queues", chain, ARDENQUILL_BAD_FIELD, 4);
    chain = chain_of(&feed);
    chain.queues[0].reserved = 1;
    check_write_refused("write reserved 1", chain, ARDENQUILL_BAD_FIELD, 36);
    chain = chain_of(&permeate);
    chain.queues[1].consume = 5;
    check_write_refused("write consume above threshold", chain, ARDENQUILL_BAD_CONSUME, 48);
    chain.work[1] = 0;
    check_write_refused("write work 0, consume above threshold", chain, ARDENQUILL_BAD_FIELD, 64);
    chain = told_apart();
    chain.queues[15].consume = chain.queues[15].threshold + 1;
    check_write_refused("write consume above threshold, y too large", chain, ARDENQUILL_BAD_CONSUME, 328);
}

/* Checks that the writer and the analysis look at all 32 bits of every word of a chain: with the highest bit set, or with
 * the lowest that no range reaches, each is refused at its place. With 16 queues the words of the record are those of the
 * packed file but for the last three of its header. */
static void check_every_word(void)
{
    static const int bits[] = {20, 31};
    for (uint32_t word = 0; word < sizeof(struct ardenquill_chain) / sizeof(uint32_t); word++)
        for (size_t i = 0; i < sizeof bits / sizeof bits[0]; i++) {
            const uint32_t place = word < 2 ? 4 * word : 4 * word + 12;
            struct ardenquill_chain chain = told_apart();
            uint32_t words[sizeof chain / sizeof(uint32_t)];
            char name[64];
            memcpy(words, &chain, sizeof chain);
            words[word] |= (uint32_t)1 << bits[i];
            memcpy(&chain, words, sizeof chain);
            sprintf(name, "write with bit %d in word %lu", bits[i], (unsigned long)word);
            check_write_refused(name, chain, word == 0 ? ARDENQUILL_BAD_COUNT : ARDENQUILL_BAD_FIELD, place);
        }
}

/* Checks the numbers behind the last factory chain. */
static void check_factory_refusals(void)
{
    check_chain_refused("factory 3", ardenquill_factory(3), ARDENQUILL_NO_FACTORY_CHAIN, 3);
    check_chain_refused("factory 4294967295", ardenquill_factory(UINT32_MAX), ARDENQUILL_NO_FACTORY_CHAIN, UINT32_MAX);
}

/* Checks what the analysis says of chains that it accepts, beside the factory chains. */
static void check_analyses(void)
{
    check_sizes("own capacities", chain_of(&roomy), roomy_sizes);
    check_sizes("widest margins", chain_of(&widest), widest_sizes);
    check_sizes("work in every tick", chain_of(&full), full_sizes);
    check_sizes("largest y", chain_of(&largest_y), largest_y_sizes);
    check_sizes("16 sizes", sixteen(), sixteen_sizes);
    check_sizes("widest lines", widest_lines(), widest_lines_sizes);
}

/* Checks each number that the analysis refuses with after those of the writer. */
static void check_analysis_refusals(void)
{
    check_sizes_refused("y one too large", chain_of(&y_too_large), ARDENQUILL_RATE_TOO_LARGE, 1);
    check_sizes_refused("y far too large", chain_of(&y_far_too_large), ARDENQUILL_RATE_TOO_LARGE, 1);
    check_sizes_refused("y too large at the fourth node", told_apart(), ARDENQUILL_RATE_TOO_LARGE, 4);
    check_sizes_refused("x too large at the third node", chain_of(&x_too_large), ARDENQUILL_RATE_TOO_LARGE, 3);
    check_sizes_refused("two ticks too much work", chain_of(&overfull), ARDENQUILL_OVERLOADED, 0);
    check_sizes_refused("busy past 32 bits", chain_of(&past_32_bits), ARDENQUILL_OVERLOADED, 0);
    check_sizes_refused("busy past 64 bits", chain_of(&past_64_bits), ARDENQUILL_OVERLOADED, 0);
}

/* Checks Feed with consume at the threshold, and one above it. */
static void check_consume_limit(void)
{
    const struct ardenquill_analysis sizes = {1, {{4, 70, 10, 7, 10, 0}}, 8, 70};
    struct ardenquill_chain chain = chain_of(&feed);
    chain.queues[0].consume = 7;
    check_sizes("consume 7 of threshold 7", chain, sizes);
    chain.queues[0].consume = 8;
    check_sizes_refused("consume 8 of threshold 7", chain, ARDENQUILL_BAD_CONSUME, 28);
}

/* Checks the report on Feed's packed file, byte for byte. */
static void check_feed_report(void)
{
    uint8_t file[sizeof feed_file];
    for (size_t i = 0; i < sizeof feed_file / 4; i++)
        put_word(file, 4 * i, feed_file[i]);
    check_report("Feed's file", file, sizeof file, feed_report, sizeof feed_report - 1);
}

/* Checks that the header's room for a report is that of the first line, the lines of all queues and the last line, in
 * which every number is as long as 32 bits can be. */
static void check_report_room(void)
{
    const uint32_t most = UINT32_MAX;
    const struct ardenquill_queue_size longest = {most, most, most, most, most, INT32_MIN};
    char line[REPORT_ROOM];
    const size_t length = strlen(REPORT_HEADING) + ARDENQUILL_MAX_QUEUES * put_queue_line(most, &longest, line) +
                          put_last_line(most, most, line);
    check(length == ARDENQUILL_MAX_REPORT_LENGTH, "room for every report is %lu", (unsigned long)length);
}

/* Checks a file whose tables stand in the other order behind bytes that are ignored: the report is that of the
 * packed file, and its places are those of this file. */
static void check_moved_tables(void)
{
    uint8_t file[60];
    memset(file, UNTOUCHED, sizeof file);
    const uint32_t header[] = {1, 10, 36, 24, sizeof file};
    for (size_t i = 0; i < 5; i++)
        put_word(file, 4 * i, header[i]);
    put_word(file, 24, feed_file[10]);
    for (size_t i = 0; i < 5; i++)
        put_word(file, 36 + 4 * i, feed_file[5 + i]);
    check_report("moved tables", file, sizeof file, feed_report, sizeof feed_report - 1);
    put_word(file, 44, 8);
    check_report_refused("moved tables, consume 8", file, sizeof file, ARDENQUILL_BAD_CONSUME, 44);
    put_word(file, 24, 0);
    check_report_refused("moved tables, work 0", file, sizeof file, ARDENQUILL_BAD_FIELD, 24);
}

/* Checks that the report on a file is what the reader and the analysis say of it. */
static void check_agreement(const char *what, const uint8_t *file, size_t length)
{
    struct ardenquill_chain_answer read = ardenquill_read(file, length);
    struct ardenquill_analysis_answer analysed = ardenquill_analyse(read.chain);
    char text[REPORT_ROOM];
    if (read.number != 0)
        check_report_refused(what, file, length, read.number, read.place);
    else if (analysed.number != 0)
        check_report_refused(what, file, length, analysed.number, analysed.place);
    else
        check_report(what, file, length, text, text_of(&analysed.analysis, text));
}

/* Checks that agreement on a chain's file with each word in turn replaced by values at the edges. */
static void check_edges(const char *what, struct ardenquill_chain chain)
{
    static const uint32_t edges[] = {0,  1,  2,     16,    17,      20,      24,        36,
                                     40, 64, 65535, 65536, 1000000, 1000001, INT32_MAX, UINT32_MAX};
    uint8_t file[ROOM];
    char name[64];
    const size_t length = pack(chain, file);
    for (size_t at = 0; at < length; at += 4) {
        const uint32_t word = word_at(file, at);
        for (size_t i = 0; i < sizeof edges / sizeof edges[0]; i++) {
            put_word(file, at, edges[i]);
            snprintf(name, sizeof name, "%s with %lu at %d", what, (unsigned long)edges[i], (int)at);
            check_agreement(name, file, length);
        }
        put_word(file, at, word);
    }
}

/* Checks that a chain is refused by every call that fires or asks when to fire, whatever the run state: a state that is
 * handed in comes back as it was, though it is damaged too. */
static void check_runs_refused(const char *what, struct ardenquill_chain chain, uint32_t number, uint32_t place)
{
    struct ardenquill_run run;
    struct ardenquill_losses losses;
    memset(&run, UNTOUCHED, sizeof run);
    memset(&losses, UNTOUCHED, sizeof losses);
    check_run_answer(what, ardenquill_fresh(chain), number, place, run_of(0, 0, 0, 0, 0));
    check_fire_refused(what, chain, run, 0, number, place);
    check_fire_refused(what, chain, run, UINT32_MAX, number, place);
    check_immediate_refused(what, chain, 1, number, place);
    check_immediate_refused(what, chain, UINT32_MAX, number, place);
    check_deadline_answer(what, ardenquill_deadline(chain, 0, 1), number, place, 0);
    check_deadline_answer(what, ardenquill_deadline(chain, UINT32_MAX, 0), number, place, 0);
    check_deadline_run_refused(what, chain, 1, number, place);
    check_deadline_run_refused(what, chain, UINT32_MAX, number, place);
    check_tick_refused(what, chain, run, number, place);
    check_recording_run_refused(what, chain, 1, number, place);
    check_recording_run_refused(what, chain, UINT32_MAX, number, place);
    check_recording_tick_refused(what, chain, run, &losses, number, place);
}

/* Checks each number that all of them refuse a chain with. */
static void check_run_refusals(void)
{
    struct ardenquill_chain chain = chain_of(&feed);
    chain.n = 0;
    check_runs_refused("run n 0", chain, ARDENQUILL_BAD_COUNT, 0);
    chain.n = 17;
    check_runs_refused("run n 17", chain, ARDENQUILL_BAD_COUNT, 0);
    chain = chain_of(&feed);
    chain.period = 0;
    check_runs_refused("run period 0", chain, ARDENQUILL_BAD_FIELD, 4);
    chain = chain_of(&permeate);
    chain.queues[1].consume = 5;
    check_runs_refused("run consume above threshold", chain, ARDENQUILL_BAD_CONSUME, 48);
    check_runs_refused("run y one too large", chain_of(&y_too_large), ARDENQUILL_RATE_TOO_LARGE, 1);
    check_runs_refused("run two ticks too much work", chain_of(&overfull), ARDENQUILL_OVERLOADED, 0);
}

/* Checks the paper's immediate runs of Feed: after k firings of the source the sink has fired 0, 0, 1, 2, 4 times. */
static void check_feed_immediate(void)
{
    static const uint32_t sink[] = {0, 0, 1, 2, 4};
    char name[32];
    for (uint32_t k = 0; k < 5; k++) {
        snprintf(name, sizeof name, "Feed immediate, k %d", (int)k);
        check_run_answer(name, ardenquill_immediate(chain_of(&feed), k), 0, 0,
                         run_of(k, sink[k], 0, 4 * k - 3 * sink[k], 0));
    }
    check(ardenquill_immediate(chain_of(&feed), 4).run.held[0] == 4, "Feed immediate, k 4: held 4");
}

/* Checks immediate runs of two queues, with garbage past n, of the greatest length, and the numbers they refuse with
 * after those of the analysis. */
static void check_immediate(void)
{
    struct ardenquill_chain chain = chain_of(&permeate);
    check_run_answer("Permeate immediate", ardenquill_immediate(chain, 3), 0, 0, run_of(3, 2, 2, 6, 2));
    memset(&chain.queues[2], UNTOUCHED, sizeof chain.queues[2]);
    memset(&chain.work[2], UNTOUCHED, sizeof chain.work[2]);
    check_run_answer("Permeate immediate with garbage", ardenquill_immediate(chain, 4), 0, 0, run_of(4, 4, 5, 4, 2));
    check_run_answer("Flush immediate", ardenquill_immediate(chain_of(&flush), 11), 0, 0, run_of(11, 8, 1, 48, 0));

    check_run_answer("longest by the source", ardenquill_immediate(chain_of(&even), 1000000), 0, 0,
                     run_of(1000000, 1000000, 999999, 0, 7));
    check_immediate_refused("too long by the source", chain_of(&even), 1000001, ARDENQUILL_TOO_LONG, 0);
    check_immediate_refused("far too long", chain_of(&even), UINT32_MAX, ARDENQUILL_TOO_LONG, 0);
    check_run_answer("longest by the sink", ardenquill_immediate(chain_of(&thousandfold), 1000), 0, 0,
                     run_of(1000, 1000000, 0, 0, 0));
    check_immediate_refused("too long by the sink", chain_of(&thousandfold), 1001, ARDENQUILL_TOO_LONG, 1);

    check_immediate_refused("capacity below minimum", chain_of(&roomy), 0, ARDENQUILL_BELOW_MINIMUM, 1);
    check_immediate_refused("capacity below minimum, too long", chain_of(&roomy), UINT32_MAX,
                            ARDENQUILL_BELOW_MINIMUM, 1);
    chain = chain_of(&roomy);
    chain.queues[1].capacity = 6;
    check_run_answer("capacity at the minimum", ardenquill_immediate(chain, 3), 0, 0, run_of(3, 2, 2, 6, 2));
}

/* Checks deadlines: those of document 000's example, the source's, the largest, and what is refused after the numbers
 * of the analysis. */
static void check_deadlines(void)
{
    static const struct {
        uint32_t node;
        uint64_t due[2];
    } example[] = {{1, {1000, 2000}}, {5, {132000, 196000}}, {6, {196000, 196000}}};
    char name[64];
    for (size_t i = 0; i < sizeof example / sizeof example[0]; i++)
        for (uint32_t index = 1; index <= 2; index++) {
            snprintf(name, sizeof name, "radar, node %d, index %d", (int)example[i].node, (int)index);
            check_deadline_answer(name, ardenquill_deadline(radar(), example[i].node, index), 0, 0,
                                  example[i].due[index - 1]);
        }

    struct ardenquill_chain chain = chain_of(&far_ahead);
    check_deadline_answer("source's first", ardenquill_deadline(chain, 0, 1), 0, 0, 0);
    check_deadline_answer("source's last", ardenquill_deadline(chain, 0, UINT32_MAX), 0, 0, 4294967294u);
    check_deadline_answer("no index", ardenquill_deadline(chain, 2, 0), ARDENQUILL_CANNOT_FIRE, 2, 0);
    check_deadline_answer("no index of the source", ardenquill_deadline(chain, 0, 0), ARDENQUILL_CANNOT_FIRE, 0, 0);
    check_deadline_answer("no such node", ardenquill_deadline(chain, 3, 1), ARDENQUILL_CANNOT_FIRE, 3, 0);
    check_deadline_answer("index past the limit at the source", ardenquill_deadline(chain, 2, 1),
                          ARDENQUILL_INDEX_TOO_LARGE, 0, 0);
    check_deadline_answer("index past the limit before", ardenquill_deadline(chain, 2, UINT32_MAX),
                          ARDENQUILL_INDEX_TOO_LARGE, 1, 0);
    check_deadline_answer("capacity below minimum", ardenquill_deadline(chain_of(&roomy), 1, 1),
                          ARDENQUILL_BELOW_MINIMUM, 1, 0);
    check_deadline_answer("capacity below minimum, no index", ardenquill_deadline(chain_of(&roomy), 9, 0),
                          ARDENQUILL_BELOW_MINIMUM, 1, 0);
    chain = chain_of(&even);
    chain.period = 1000000;
    check_deadline_answer("latest", ardenquill_deadline(chain, 1, 4294967294u), 0, 0, 4294967294000000u);
    check_deadline_answer("index past the limit by one", ardenquill_deadline(chain, 1, UINT32_MAX),
                          ARDENQUILL_INDEX_TOO_LARGE, 0, 0);
}

/* A state of Feed or of Feed with another execution time: clock, counts, contents and work done. */
static struct ardenquill_run feed_run(uint32_t clock, uint32_t source, uint32_t sink, uint32_t held, uint32_t done)
{
    struct ardenquill_run run = run_of(source, sink, 0, held, 0);
    run.clock = clock;
    run.done[0] = done;
    return run;
}

/* Checks the paper's deadline runs: Feed, Feed with an execution time of 7, which overflows at tick 40 though its load
 * is 28 of 30, the same with a capacity of 12, and Permeate with too small a capacity. */
static void check_paper_runs(void)
{
    struct ardenquill_chain chain = chain_of(&feed);
    check_outcome("Feed, 0 ticks", ardenquill_deadline_run(chain, 0), ARDENQUILL_CLEAN, 0, 0, feed_run(0, 0, 0, 0, 0));
    check_outcome("Feed, 30 ticks", ardenquill_deadline_run(chain, 30), ARDENQUILL_CLEAN, 0, 0,
                  feed_run(30, 3, 2, 6, 0));
    check_outcome("Feed, 34 ticks", ardenquill_deadline_run(chain, 34), ARDENQUILL_CLEAN, 0, 0,
                  feed_run(34, 4, 4, 4, 0));

    chain.work[0] = 7;
    struct ardenquill_analysis_answer load = ardenquill_analyse(chain);
    check(load.analysis.busy == 28 && load.analysis.cycle == 30, "Feed with 7: load 28 of 30");
    check_outcome("Feed with 7, 40 ticks", ardenquill_deadline_run(chain, 40), ARDENQUILL_CLEAN, 0, 0,
                  feed_run(40, 4, 3, 7, 3));
    check_outcome("Feed with 7, 41 ticks", ardenquill_deadline_run(chain, 41), ARDENQUILL_OVERFLOWED, 40, 0,
                  feed_run(40, 4, 3, 7, 3));
    check_outcome("Feed with 7, longest", ardenquill_deadline_run(chain, 1000000), ARDENQUILL_OVERFLOWED, 40, 0,
                  feed_run(40, 4, 3, 7, 3));
    chain.queues[0].capacity = 12;
    check_outcome("Feed with 7 and 12, 90 ticks", ardenquill_deadline_run(chain, 90), ARDENQUILL_CLEAN, 0, 0,
                  feed_run(90, 9, 10, 6, 0));

    check_deadline_run_refused("Permeate with 5", chain_of(&roomy), 34, ARDENQUILL_BELOW_MINIMUM, 1);
    check_deadline_run_refused("Permeate with 5, too long", chain_of(&roomy), UINT32_MAX, ARDENQUILL_BELOW_MINIMUM, 1);
}

/* Checks deadline runs with garbage past n, of the greatest length, too long, and without a deadline. */
static void check_deadline_runs(void)
{
    struct ardenquill_chain chain = chain_of(&feed);
    memset(&chain.queues[1], UNTOUCHED, sizeof chain.queues[1]);
    memset(&chain.work[1], UNTOUCHED, sizeof chain.work[1]);
    check_outcome("Feed with garbage, 34 ticks", ardenquill_deadline_run(chain, 34), ARDENQUILL_CLEAN, 0, 0,
                  feed_run(34, 4, 4, 4, 0));
    check_outcome("Feed, longest", ardenquill_deadline_run(chain, 1000000), ARDENQUILL_CLEAN, 0, 0,
                  feed_run(1000000, 100000, 133332, 4, 0));
    check_deadline_run_refused("Feed, too long", chain, 1000001, ARDENQUILL_TOO_LONG, 0);
    check_deadline_run_refused("Feed, far too long", chain, UINT32_MAX, ARDENQUILL_TOO_LONG, 0);

    chain = chain_of(&far_ahead);
    struct ardenquill_run due = run_of(4295, 1, 0, 0, 1);
    due.clock = 4295;
    check_outcome("to no deadline", ardenquill_deadline_run(chain, 4295), ARDENQUILL_CLEAN, 0, 0, due);
    check_outcome("no deadline", ardenquill_deadline_run(chain, 4296), ARDENQUILL_NO_DEADLINE, 4295, 2, due);
    check_outcome("no deadline, longest", ardenquill_deadline_run(chain, 1000000), ARDENQUILL_NO_DEADLINE, 4295, 2,
                  due);
}

/* Checks so many ticks of one lent state from a fresh start: each is clean and leaves what a run of as many leaves. */
static void check_clean_ticks(const char *what, struct ardenquill_chain chain, struct ardenquill_run *run,
                              uint32_t ticks)
{
    char name[64];
    *run = ardenquill_fresh(chain).run;
    for (uint32_t t = 1; t <= ticks; t++) {
        snprintf(name, sizeof name, "%s, tick %lu", what, (unsigned long)t);
        check_lent(name, chain, run, outcome_clean);
        check_run(name, *run, ardenquill_deadline_run(chain, t).run);
    }
}

/* Checks ticks that overflow or have no deadline: the state stays, and asked again the answer is the same. */
static void check_stuck(const char *what, struct ardenquill_chain chain, struct ardenquill_run run,
                        struct ardenquill_outcome due)
{
    struct ardenquill_run lent = run;
    for (int i = 0; i < 2; i++) {
        check_lent(what, chain, &lent, due);
        check_run(what, lent, run);
    }
}

/* Checks the ticks of Feed, of Feed with an execution time of 7 up to its overflow and, with more room, on from there,
 * and of a chain without a deadline. */
static void check_ticks(void)
{
    const struct ardenquill_outcome overflowed = {0, 0, ARDENQUILL_OVERFLOWED, 40, 0};
    const struct ardenquill_outcome no_deadline = {0, 0, ARDENQUILL_NO_DEADLINE, 4295, 2};
    struct ardenquill_chain chain = chain_of(&feed);
    struct ardenquill_run run;
    check_clean_ticks("Feed", chain, &run, 34);
    check_run("Feed, 34 ticks", run, feed_run(34, 4, 4, 4, 0));
    chain.work[0] = 7;
    check_clean_ticks("Feed with 7", chain, &run, 40);
    check_stuck("Feed with 7, overflow", chain, run, overflowed);
    chain.queues[0].capacity = 12;
    for (int t = 40; t < 90; t++)
        check_lent("Feed with 7, more room after the overflow", chain, &run, outcome_clean);
    check_run("Feed with 7, more room after the overflow", run, feed_run(90, 9, 10, 6, 0));
    chain = chain_of(&far_ahead);
    check_stuck("no deadline", chain, ardenquill_deadline_run(chain, 4296).run, no_deadline);
}

/* Checks what a tick refuses, in its order, and that slots past n are neither looked at nor changed. */
static void check_tick_refusals(void)
{
    const uint32_t last = UINT32_MAX;
    struct ardenquill_chain chain = chain_of(&feed);
    struct ardenquill_run run = feed_run(1000000, 2, 0, 7, 2);
    check_tick_refused("a token lost, late", chain, run, ARDENQUILL_BAD_RUN, 0);
    run.held[0] = 8;
    check_tick_refused("work done, late", chain, run, ARDENQUILL_BAD_RUN, 0);
    run.done[0] = 1;
    check_tick_refused("late", chain, run, ARDENQUILL_TOO_LONG, 0);
    run.clock = last;
    check_tick_refused("far too late", chain, run, ARDENQUILL_TOO_LONG, 0);
    check_tick_refused("capacity below minimum", chain_of(&roomy), run, ARDENQUILL_BELOW_MINIMUM, 1);
    chain = chain_of(&even);
    check_tick_refused("source's last", chain, run_of(last, last, last - 1, 0, 7), ARDENQUILL_TOO_LONG, 0);
    check_tick_refused("first node's last", chain, run_of(last - 1, last, last - 2, 0, 14), ARDENQUILL_BAD_RUN, 0);

    chain = chain_of(&feed);
    memset(&chain.queues[1], UNTOUCHED, sizeof chain.queues[1]);
    memset(&run, UNTOUCHED, sizeof run);
    run.clock = 10;
    run.counts[0] = run.counts[1] = run.held[0] = run.done[0] = 0;
    struct ardenquill_run due = run;
    due.clock = 11;
    due.counts[0] = 1;
    due.held[0] = 4;
    check_lent("garbage past n", chain, &run, outcome_clean);
    check_run("garbage past n", run, due);
}

/* Checks recording runs of Feed; of Feed with an execution time of 7, which carries on past the overflow at tick 40; of
 * Flush with room for one production of the source, which loses all but the first until the list is full; and of a chain
 * without a deadline. */
static void check_recording_runs(void)
{
    const struct ardenquill_losses none = losses_of(0, 0, 0, 0, 0, 0);
    struct ardenquill_chain chain = chain_of(&feed);
    check_recording("recording Feed", ardenquill_recording_run(chain, 34), outcome_clean, feed_run(34, 4, 4, 4, 0),
                    &none);
    chain.work[0] = 7;
    const struct ardenquill_losses one = losses_of(1, 40, 0, 0, 4, 0);
    check_recording("recording Feed with 7, 40", ardenquill_recording_run(chain, 40), outcome_clean,
                    feed_run(40, 4, 3, 7, 3), &none);
    check_recording("recording Feed with 7, 41", ardenquill_recording_run(chain, 41), outcome_clean,
                    feed_run(41, 5, 3, 7, 4), &one);
    check_recording_run_refused("recording Feed, too long", chain, 1000001, ARDENQUILL_TOO_LONG, 0);

    const struct ardenquill_outcome full_list = {0, 0, ARDENQUILL_LIST_FULL, 25700, 0};
    const struct ardenquill_losses flushed = losses_of(256, 100, 100, 0, 16, 0);
    chain = chain_of(&flush);
    chain.queues[0].capacity = 16;
    struct ardenquill_run due = run_of(257, 0, 0, 16, 0);
    due.clock = 25700;
    check_recording("recording Flush to its end", ardenquill_recording_run(chain, 25700), outcome_clean, due, &flushed);
    check_recording("recording Flush", ardenquill_recording_run(chain, 1000000), full_list, due, &flushed);

    const struct ardenquill_outcome no_deadline = {0, 0, ARDENQUILL_NO_DEADLINE, 4295, 2};
    due = run_of(4295, 1, 0, 0, 1);
    due.clock = 4295;
    check_recording("recording no deadline", ardenquill_recording_run(chain_of(&far_ahead), 4296), no_deadline, due,
                    &none);
}

/* Checks the recording ticks of Feed with an execution time of 7 past its overflow, that calls without a list refuse the
 * state then, and that a full list stops it there. */
static void check_recording_ticks(void)
{
    const struct ardenquill_outcome full_at_source = {0, 0, ARDENQUILL_LIST_FULL, 40, 0};
    struct ardenquill_chain chain = chain_of(&feed);
    chain.work[0] = 7;
    struct ardenquill_run run = ardenquill_deadline_run(chain, 40).run;
    struct ardenquill_losses losses = losses_of(0, 0, 0, 0, 0, UNTOUCHED), due = losses_of(1, 40, 0, 0, 4, UNTOUCHED);
    check_recording_lent("recording tick 40", chain, &run, &losses, outcome_clean);
    check_run("recording tick 40", run, feed_run(41, 5, 3, 7, 4));
    check_losses("recording tick 40", &losses, &due);
    check_tick_refused("a tick after a loss", chain, run, ARDENQUILL_BAD_RUN, 0);
    check_fire_refused("a firing after a loss", chain, run, 0, ARDENQUILL_BAD_RUN, 0);
    check_recording_lent("recording tick 41", chain, &run, &losses, outcome_clean);
    check_run("recording tick 41", run, feed_run(42, 5, 3, 7, 5));
    check_losses("recording tick 41", &losses, &due);

    due = losses_of(256, 0, 0, 0, 0, 0);
    run = ardenquill_deadline_run(chain, 40).run;
    check_recording_stays("full list at the source", chain, run, &due, full_at_source);
    check_recording_stays("full list at the source again", chain, run, &due, full_at_source);
}

/* Checks a list that is found full where a firing finishes: the source's production of that tick was dropped into the
 * last slot, the node's is not; and that 17 refuses the state that is left. */
static void check_full_at_finish(void)
{
    const struct ardenquill_outcome full_at_finish = {0, 0, ARDENQUILL_LIST_FULL, 1, 1};
    struct ardenquill_chain chain = chain_of(&even);
    struct ardenquill_run run = run_of(2, 0, 0, 5, 0);
    chain.queues[1].capacity = 6;
    struct ardenquill_losses losses = losses_of(255, 0, 0, 0, 0, UNTOUCHED);
    losses.entries[254].tokens = 5;
    struct ardenquill_losses due = losses;
    due.count = 256;
    due.entries[255].tick = due.entries[255].queue = 0;
    due.entries[255].tokens = 5;
    check_recording_lent("full list at a finish", chain, &run, &losses, full_at_finish);
    struct ardenquill_run left = run_of(3, 0, 0, 5, 0);
    left.clock = 1;
    left.done[0] = 1;
    check_run("full list at a finish", run, left);
    check_losses("full list at a finish", &losses, &due);
    check_recording_tick_refused("after a full list at a finish", chain, run, &losses, ARDENQUILL_BAD_RUN, 0);
}

/* Checks what a recording tick refuses, in its order, and that it allows too small a capacity. */
static void check_recording_refusals(void)
{
    struct ardenquill_chain chain = chain_of(&feed);
    struct ardenquill_run run = feed_run(1000000, 2, 0, 8, 0);
    struct ardenquill_losses losses = losses_of(0, 0, 0, 0, 0, UNTOUCHED);
    check_recording_tick_refused("recording, late", chain, run, &losses, ARDENQUILL_TOO_LONG, 0);
    losses = losses_of(1, 7, 0, 0, 0, UNTOUCHED);
    check_recording_tick_refused("recording, late with an entry", chain, run, &losses, ARDENQUILL_TOO_LONG, 0);
    losses.entries[0].tokens = 1;
    check_recording_tick_refused("recording, one more lost", chain, run, &losses, ARDENQUILL_BAD_RUN, 0);
    losses.entries[0].queue = 1;
    check_recording_tick_refused("recording, no such queue", chain, run, &losses, ARDENQUILL_BAD_RUN, 0);
    losses.count = 257;
    check_recording_tick_refused("recording, 257 losses", chain, run, &losses, ARDENQUILL_BAD_RUN, 0);
    losses.count = UINT32_MAX;
    check_recording_tick_refused("recording, too many losses", chain, run, &losses, ARDENQUILL_BAD_RUN, 0);

    losses = losses_of(256, 0, 0, 0, UINT32_MAX, 0);
    check_recording_tick_refused("recording, as many tokens as can be", chain, run, &losses, ARDENQUILL_BAD_RUN, 0);
    chain = chain_of(&roomy);
    losses = losses_of(0, 0, 0, 0, 0, 0);
    run = run_of(0, 0, 0, 0, 0);
    check_recording_lent("recording, capacity below minimum", chain, &run, &losses, outcome_clean);
    check(run.clock == 1 && run.counts[0] == 1 && losses.count == 0, "recording, capacity below minimum: state");
    run = run_of(0, UINT32_MAX, 0, 0, 0);
    check_recording_tick_refused("recording, no balance", chain, run, &losses, ARDENQUILL_BAD_RUN, 0);
    run = run_of(UINT32_MAX, UINT32_MAX, UINT32_MAX, 0, 0);
    check_recording_tick_refused("recording, last counts", chain_of(&even), run, &losses, ARDENQUILL_TOO_LONG, 0);
}

/* Fires a node as a user does: the state becomes the one that the call gives. */
static void check_fire(const char *what, struct ardenquill_chain chain, struct ardenquill_run *run, uint32_t node,
                       struct ardenquill_run due)
{
    struct ardenquill_run_answer answer = ardenquill_fire(chain, *run, node);
    char name[64];
    snprintf(name, sizeof name, "%s, node %lu", what, (unsigned long)node);
    due.clock = run->clock;
    memcpy(due.done, run->done, sizeof due.done);
    check_run_answer(name, answer, 0, 0, due);
    *run = answer.run;
}

/* Checks a walk on Permeate from a fresh start, with what is refused on the way, and a walk with capacities of its own,
 * one of them below the minimum. */
static void check_walks(void)
{
    struct ardenquill_chain chain = chain_of(&permeate);
    struct ardenquill_run_answer fresh = ardenquill_fresh(chain);
    check_run_answer("fresh", fresh, 0, 0, run_of(0, 0, 0, 0, 0));

    struct ardenquill_run run = fresh.run;
    check_fire_refused("first node of an empty chain", chain, run, 1, ARDENQUILL_CANNOT_FIRE, 1);
    check_fire_refused("sink of an empty chain", chain, run, 2, ARDENQUILL_CANNOT_FIRE, 2);
    check_fire_refused("node 3 of 2", chain, run, 3, ARDENQUILL_CANNOT_FIRE, 3);
    check_fire_refused("node 4294967295", chain, run, UINT32_MAX, ARDENQUILL_CANNOT_FIRE, UINT32_MAX);
    check_fire("walk", chain, &run, 0, run_of(1, 0, 0, 4, 0));
    check_fire_refused("three tokens below threshold", chain, run, 1, ARDENQUILL_CANNOT_FIRE, 1);
    check_fire("walk", chain, &run, 0, run_of(2, 0, 0, 8, 0));
    check_fire_refused("two tokens too many", chain, run, 0, ARDENQUILL_QUEUE_FULL, 0);
    check_fire("walk", chain, &run, 1, run_of(2, 1, 0, 5, 3));
    check_fire("walk", chain, &run, 0, run_of(3, 1, 0, 9, 3));
    check_fire("walk to exactly full", chain, &run, 1, run_of(3, 2, 0, 6, 6));
    check_fire("walk to exactly full", chain, &run, 0, run_of(4, 2, 0, 10, 6));
    check_fire_refused("no room behind the first node", chain, run, 1, ARDENQUILL_QUEUE_FULL, 1);
    check_fire("walk", chain, &run, 2, run_of(4, 2, 1, 10, 4));
    check_fire("walk at exactly the threshold", chain, &run, 2, run_of(4, 2, 2, 10, 2));
    check_fire("walk", chain, &run, 1, run_of(4, 3, 2, 7, 5));
    check_fire("walk", chain, &run, 2, run_of(4, 3, 3, 7, 3));
    check_fire("walk at exactly the threshold", chain, &run, 1, run_of(4, 4, 3, 4, 6));

    chain = chain_of(&roomy);
    run = ardenquill_fresh(chain).run;
    check_fire("own capacities", chain, &run, 0, run_of(1, 0, 0, 4, 0));
    check_fire("own capacities", chain, &run, 0, run_of(2, 0, 0, 8, 0));
    check_fire("own capacities", chain, &run, 0, run_of(3, 0, 0, 12, 0));
    check_fire_refused("above the own capacity", chain, run, 0, ARDENQUILL_QUEUE_FULL, 0);
    check_fire("own capacities", chain, &run, 1, run_of(3, 1, 0, 9, 3));
    check_fire_refused("above a capacity below the minimum", chain, run, 1, ARDENQUILL_QUEUE_FULL, 1);
}

/* Checks that clock, work done and slots past n are left as they are, fired or refused, and that garbage past n is not
 * looked at. */
static void check_untouched_slots(void)
{
    struct ardenquill_chain chain = chain_of(&permeate);
    chain.period = 10;
    chain.work[0] = 3;
    struct ardenquill_run run;
    memset(&run, UNTOUCHED, sizeof run);
    run.counts[0] = 2;
    run.counts[1] = run.counts[2] = 0;
    run.held[0] = 8;
    run.held[1] = 0;
    run.done[0] = 2;
    run.done[1] = 0;
    struct ardenquill_run due = run;
    due.counts[1] = 1;
    due.held[0] = 5;
    due.held[1] = 3;
    check_run_answer("fire with garbage", ardenquill_fire(chain, run, 1), 0, 0, due);
    check_fire_refused("garbage, queue full", chain, run, 0, ARDENQUILL_QUEUE_FULL, 0);
    check_fire_refused("garbage, no such node", chain, run, 3, ARDENQUILL_CANNOT_FIRE, 3);
    run.done[0] = 3;
    check_fire_refused("garbage, damaged", chain, run, 1, ARDENQUILL_BAD_RUN, 0);
}

/* Checks the reasons for which a run state is damaged, and that the lowest queue is the place. */
static void check_damaged(void)
{
    const struct ardenquill_chain chain = chain_of(&permeate);
    struct ardenquill_run run = run_of(2, 0, 0, 8, 0);
    run.held[0] = 7;
    check_fire_refused("a token lost", chain, run, 0, ARDENQUILL_BAD_RUN, 0);
    run.held[0] = 9;
    check_fire_refused("a token gained", chain, run, 1, ARDENQUILL_BAD_RUN, 0);
    check_fire_refused("three firings held", chain, run_of(3, 0, 0, 12, 0), 1, ARDENQUILL_BAD_RUN, 0);
    check_fire_refused("a token gained behind", chain, run_of(2, 1, 0, 5, 4), 0, ARDENQUILL_BAD_RUN, 1);
    check_fire_refused("no such node of a damaged run", chain, run_of(2, 1, 0, 5, 4), 3, ARDENQUILL_BAD_RUN, 1);
    check_fire_refused("both damaged", chain, run_of(2, 1, 0, 6, 4), 2, ARDENQUILL_BAD_RUN, 0);
    check_fire_refused("balanced in 32 bits", chain, run_of(1073741824, 0, 0, 0, 0), 0, ARDENQUILL_BAD_RUN, 0);
    check_fire_refused("a negative balance", chain, run_of(0, 1, 0, 4294967293u, 3), 0, ARDENQUILL_BAD_RUN, 0);
    run = run_of(2, 1, 0, 5, 3);
    run.done[1] = 1;
    check_fire_refused("work done", chain, run, 0, ARDENQUILL_BAD_RUN, 1);
    run.done[0] = UINT32_MAX;
    check_fire_refused("work done by both", chain, run, 0, ARDENQUILL_BAD_RUN, 0);
}

/* Checks firings up to the last count: 9 comes before 11 and 12, and after 17. */
static void check_last_counts(void)
{
    const struct ardenquill_chain chain = chain_of(&even);
    const uint32_t last = UINT32_MAX;
    struct ardenquill_run run = run_of(last - 1, last - 1, last - 3, 0, 14);
    check_fire("last", chain, &run, 0, run_of(last, last - 1, last - 3, 5, 14));
    check_fire_refused("source's last, no room", chain, run, 0, ARDENQUILL_TOO_LONG, 0);
    check_fire("last", chain, &run, 2, run_of(last, last - 1, last - 2, 5, 7));
    check_fire("last", chain, &run, 1, run_of(last, last, last - 2, 0, 14));
    check_fire_refused("source's last", chain, run, 0, ARDENQUILL_TOO_LONG, 0);
    check_fire_refused("first node's last, below threshold, no room", chain, run, 1, ARDENQUILL_TOO_LONG, 1);
    check_fire("last", chain, &run, 2, run_of(last, last, last - 1, 0, 7));
    check_fire_refused("sink below threshold", chain, run, 2, ARDENQUILL_CANNOT_FIRE, 2);
    run.held[1] = 8;
    check_fire_refused("source's last of a damaged run", chain, run, 0, ARDENQUILL_BAD_RUN, 1);
}

/* Opens a file to be read; ends the program where that fails. */
static FILE *opened(const char *path)
{
    FILE *file = fopen(path, "r");
    if (file == NULL) {
        perror(path);
        exit(2);
    }
    return file;
}

/* The text of a row "| NUMBER | TEXT | ..", with the row's number; null if the line is none. The line is cut behind the
 * text. */
static const char *text_in_row(char *line, unsigned long *number)
{
    char *end;
    if (strncmp(line, "| ", 2) != 0)
        return NULL;
    *number = strtoul(line + 2, &end, 10);
    if (end == line + 2 || strncmp(end, " | ", 3) != 0)
        return NULL;
    char *text = end + 3;
    end = strstr(text, " | ");
    if (end == NULL)
        return NULL;
    *end = '\0';
    return text;
}

/* Checks that the texts in README's table are those of their numbers, and marks these numbers as listed. */
static void check_table(const char *readme, char *listed)
{
    static char line[LINE_ROOM];
    int inside = 0;
    FILE *file = opened(readme);
    while (fgets(line, sizeof line, file) != NULL) {
        unsigned long number;
        inside = strncmp(line, TABLE, strlen(TABLE)) == 0 || (inside && line[0] == '|');
        const char *text = inside ? text_in_row(line, &number) : NULL;
        if (text == NULL)
            continue;
        check(number > 0 && number <= HIGHEST_NUMBER && !listed[number], "%lu stands once in the table", number);
        check(strcmp(text, ardenquill_refusal_text((uint32_t)number)) == 0, "text of %lu is: %s", number, text);
        check(strlen(text) <= LONGEST_TEXT, "text of %lu fits a line", number);
        if (number <= HIGHEST_NUMBER)
            listed[number] = 1;
    }
    fclose(file);
}

/* Checks that the numbers in README's table, and 0, are the ones that have a text of their own, and that it is the
 * table's. */
static void check_texts(const char *readme)
{
    static char listed[HIGHEST_NUMBER + 1];
    const char *other = ardenquill_refusal_text(UINT32_MAX);
    check_table(readme, listed);
    check(listed[ARDENQUILL_BAD_LENGTH], "the table was found");
    listed[ARDENQUILL_NOT_REFUSED] = 1;
    for (uint32_t number = 0; number <= HIGHEST_NUMBER; number++) {
        int own = strcmp(ardenquill_refusal_text(number), other) != 0;
        if (own != listed[number])
            check(0, "%lu has a text of its own: %d", (unsigned long)number, (int)listed[number]);
    }
}

/* Whether the first line of a file that begins with opening begins with due. */
static int is_first(const char *path, const char *opening, const char *due)
{
    static char line[LINE_ROOM];
    int found = 0;
    FILE *file = opened(path);
    while (!found && fgets(line, sizeof line, file) != NULL)
        found = strncmp(line, opening, strlen(opening)) == 0;
    fclose(file);
    return found && strncmp(line, due, strlen(due)) == 0;
}

/* Checks that the version is the same as numbers, as text, in README and in the newest entry of the change log. */
static void check_version(const char *readme, const char *changes)
{
    char numbers[40];
    sprintf(numbers, "%d.%d.%d", ARDENQUILL_VERSION_MAJOR, ARDENQUILL_VERSION_MINOR, ARDENQUILL_VERSION_PATCH);
    check(strcmp(numbers, ARDENQUILL_VERSION) == 0, "version is %s", numbers);
    check(is_first(readme, "This is version ", "This is version " ARDENQUILL_VERSION ";"), "version in %s", readme);
    check(is_first(changes, "## ", "## " ARDENQUILL_VERSION "\n"), "newest version in %s", changes);
}

int main(int count, char **arguments)
{
    if (count != 3) {
        fputs("usage: header README.md CHANGELOG.md\n", stderr);
        return 2;
    }
    LAYOUT(SIZE_CHECKED, OFFSET_CHECKED)
    check_texts(arguments[1]);
    check_version(arguments[1], arguments[2]);
    check_factory("factory 0", ARDENQUILL_FEED, &feed, feed_sizes);
    check_factory("factory 1", ARDENQUILL_PERMEATE, &permeate, permeate_sizes);
    check_factory("factory 2", ARDENQUILL_FLUSH, &flush, flush_sizes);
    check_round_trip("16 queues", told_apart());
    check_read_refusals();
    check_write_refusals();
    check_every_word();
    check_factory_refusals();
    check_analyses();
    check_analysis_refusals();
    check_consume_limit();
    check_feed_report();
    check_report_room();
    check_moved_tables();
    check_edges("Feed", chain_of(&feed));
    check_edges("Permeate", chain_of(&permeate));
    check_run_refusals();
    check_feed_immediate();
    check_immediate();
    check_deadlines();
    check_paper_runs();
    check_deadline_runs();
    check_ticks();
    check_tick_refusals();
    check_recording_runs();
    check_recording_ticks();
    check_full_at_finish();
    check_recording_refusals();
    check_walks();
    check_untouched_slots();
    check_damaged();
    check_last_counts();
    printf("%d passed, %d failed\n", passed, failed);
    return failed != 0;
}
