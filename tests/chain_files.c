/* Checks that the chain files of a directory are the factory chains, byte for byte, and are analysed with the paper's
 * figures, or writes them there:
 *     chain_files DIR
 *     chain_files --write DIR */
#include <stdio.h>
#include <string.h>

#include "ardenquill.h"

/* The files by the number of their factory chain. */
static const char *const names[] = {"feed.chain", "permeate.chain", "flush.chain"};
#define FILES (sizeof names / sizeof names[0])

/* The figures of each factory chain: n, then x, y, minimum, naming count, capacity and margin of each queue, then busy
 * and cycle. */
static const struct ardenquill_analysis figures[FILES] = {
    {1, {{4, 30, 10, 4, 10, 0}}, 8, 30},
    {2, {{4, 15, 10, 4, 10, 0}, {6, 15, 6, 3, 6, 0}}, 10, 15},
    {2, {{1, 100, 64, 4, 64, 0}, {1, 800, 8, 8, 8, 0}}, 43, 800},
};

/* Opens a file of the directory. Null if it can't be opened. */
static FILE *open_in(const char *directory, const char *name, const char *mode)
{
    char path[4096];
    int length = snprintf(path, sizeof path, "%s/%s", directory, name);
    if (length < 0 || (size_t)length >= sizeof path)
        return NULL;
    return fopen(path, mode);
}

/* Puts the packed file of a factory chain into bytes. Its length, or 0 if a call was refused. */
static size_t make(uint32_t number, uint8_t *bytes, size_t room)
{
    struct ardenquill_chain_answer made = ardenquill_factory(number);
    if (made.number != 0)
        return 0;
    return (size_t)ardenquill_write(made.chain, bytes, room).length;
}

/* Null if the analysis of a file's chain has the figures of the factory chain, else what is wrong. An analysis has no
 * gaps between its fields. */
static const char *check_analysis(uint32_t number, const uint8_t *file, size_t length)
{
    struct ardenquill_chain_answer read = ardenquill_read(file, length);
    if (read.number != 0)
        return "is refused by the reader";
    struct ardenquill_analysis_answer found = ardenquill_analyse(read.chain);
    if (found.number != 0)
        return "is refused by the analysis";
    if (memcmp(&found.analysis, &figures[number], sizeof found.analysis) != 0)
        return "is analysed with other figures than the paper's";
    return NULL;
}

/* Null if the file of a factory chain has exactly these bytes and is analysed with its figures, else what is wrong. */
static const char *check_file(uint32_t number, const char *directory, const uint8_t *bytes, size_t length)
{
    uint8_t found[ARDENQUILL_MAX_FILE_LENGTH];
    FILE *file = open_in(directory, names[number], "rb");
    if (file == NULL)
        return "can't be opened";
    size_t found_length = fread(found, 1, sizeof found, file);
    int unread = ferror(file);
    fclose(file);
    if (unread)
        return "can't be read";
    if (found_length != length || memcmp(found, bytes, length) != 0)
        return "is not what the library writes";
    return check_analysis(number, found, found_length);
}

/* Null if these bytes were written to a file, else what is wrong. */
static const char *write_file(const char *directory, const char *name, const uint8_t *bytes, size_t length)
{
    FILE *file = open_in(directory, name, "wb");
    if (file == NULL)
        return "can't be opened";
    size_t written = fwrite(bytes, 1, length, file);
    if (fclose(file) != 0 || written != length)
        return "can't be written";
    return NULL;
}

int main(int count, char **arguments)
{
    int writes = count == 3 && strcmp(arguments[1], "--write") == 0;
    if (!writes && count != 2) {
        fputs("usage: chain_files [--write] DIR\n", stderr);
        return 2;
    }
    const char *directory = arguments[count - 1];
    int failed = 0;
    for (uint32_t i = 0; i < FILES; i++) {
        uint8_t bytes[ARDENQUILL_PACKED_LENGTH(ARDENQUILL_MAX_QUEUES)];
        size_t length = make(i, bytes, sizeof bytes);
        const char *wrong = length == 0 ? "is refused by the library"
                            : writes    ? write_file(directory, names[i], bytes, length)
                                        : check_file(i, directory, bytes, length);
        if (wrong != NULL) {
            printf("failed: %s %s\n", names[i], wrong);
            failed++;
        }
    }
    printf("%d passed, %d failed\n", (int)FILES - failed, failed);
    return failed != 0;
}
