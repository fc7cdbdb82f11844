/* How a configurator uses the library: it shows the report on a chain file, tries thresholds for the first queue as a
 * slider would, and writes the chain with the one that it chose to a second file, if one is named.
 *
 * After `make lib` (README.md says what is different on another processor than x86-64):
 *     gcc -std=c99 -Iinclude examples/configurator.c target/staticlib/libardenquill.a -o configurator
 *     ./configurator chains/feed.chain chosen.chain
 * It prints configurator.out then, and chosen.chain is configurator.chain. It ends with status 1 where the file is
 * refused, or a file cannot be read or written. */
#include <stdio.h>

#include "ardenquill.h"

/* The tokens that there is room for in the first queue, and the highest threshold that the slider goes to. */
#define ROOM 12
#define SLIDER_END 10

/* Prints the number and place of a refusal as the report program does, and what is wrong. */
static void print_refusal(uint32_t number, uint32_t place)
{
    printf("refused,%lu,%lu: %s\n", (unsigned long)number, (unsigned long)place, ardenquill_refusal_text(number));
}

/* Prints the report on a file, or why there is none. Whether there is one. The text has no zero byte at its end; its
 * length is in the answer. */
static int print_report(const uint8_t *file, size_t length)
{
    uint8_t text[ARDENQUILL_MAX_REPORT_LENGTH];
    struct ardenquill_length_answer report = ardenquill_report(file, length, text, sizeof text);
    if (report.number != ARDENQUILL_NOT_REFUSED)
        print_refusal(report.number, report.place);
    fwrite(text, 1, (size_t)report.length, stdout);
    return report.number == ARDENQUILL_NOT_REFUSED;
}

/* Tries every threshold of the slider on the chain's first queue. The highest whose minimum fits ROOM, or, where none
 * does, the chain's own. */
static uint32_t choose_threshold(struct ardenquill_chain trial)
{
    uint32_t chosen = trial.queues[0].threshold;
    for (uint32_t threshold = 1; threshold <= SLIDER_END; threshold++) {
        trial.queues[0].threshold = threshold;
        struct ardenquill_analysis_answer answer = ardenquill_analyse(trial);
        printf("threshold %lu: ", (unsigned long)threshold);
        if (answer.number != ARDENQUILL_NOT_REFUSED) {
            print_refusal(answer.number, answer.place);
            continue;
        }
        struct ardenquill_queue_size queue = answer.analysis.queues[0];
        printf("minimum %lu, watch %lu firings of the source\n", (unsigned long)queue.minimum, (unsigned long)queue.by);
        if (queue.minimum <= ROOM)
            chosen = threshold;
    }
    return chosen;
}

/* Writes bytes to a file, or says why it cannot. Whether it could. */
static int keep(const char *path, const uint8_t *bytes, size_t length)
{
    FILE *file = fopen(path, "wb");
    if (file == NULL || fwrite(bytes, 1, length, file) != length || fclose(file) != 0) {
        perror(path);
        return 0;
    }
    return 1;
}

int main(int count, char **arguments)
{
    if (count != 2 && count != 3) {
        fputs("usage: configurator CHAIN-FILE [NEW-CHAIN-FILE]\n", stderr);
        return 2;
    }

    /* One byte more than the longest file, so that the library sees when a file is too long. */
    uint8_t bytes[ARDENQUILL_MAX_FILE_LENGTH + 1];
    FILE *file = fopen(arguments[1], "rb");
    size_t length = file == NULL ? 0 : fread(bytes, 1, sizeof bytes, file);
    if (file == NULL || ferror(file) || fclose(file) != 0) {
        perror(arguments[1]);
        return 1;
    }
    if (!print_report(bytes, length))
        return 1;

    /* A file that has a report can be read. A chain is a plain value: a trial is a copy with a field changed. */
    struct ardenquill_chain chain = ardenquill_read(bytes, length).chain;
    chain.queues[0].threshold = choose_threshold(chain);
    printf("chosen: %lu\n", (unsigned long)chain.queues[0].threshold);

    /* The chosen chain becomes a file again; its report is shown before it is kept. */
    struct ardenquill_length_answer written = ardenquill_write(chain, bytes, sizeof bytes);
    if (written.number != ARDENQUILL_NOT_REFUSED) {
        print_refusal(written.number, written.place);
        return 1;
    }
    length = (size_t)written.length;
    if (!print_report(bytes, length))
        return 1;
    return count == 2 || keep(arguments[2], bytes, length) ? 0 : 1;
}
