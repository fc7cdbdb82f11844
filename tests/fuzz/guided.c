/* The fuzz run behind a coverage-guided fuzzer: its bytes are the choices that a question is drawn by. A property that
 * fails stops it, and it keeps the bytes.
 *
 * The library is not instrumented: what guides the fuzzer is the coverage of the C here, which takes another way for
 * another number of a call, and not the library's own branches. */
#define _DEFAULT_SOURCE 1 /* for MAP_ANONYMOUS */
#include "inputs.h"

/* The bytes that are left. */
static const uint8_t *bytes_left;
static size_t length_left;

/* Bytes that have run out are 0. */
static uint32_t draw(size_t length)
{
    uint32_t drawn = 0;
    for (; length > 0 && length_left > 0; length--, length_left--)
        drawn = drawn << 8 | *bytes_left++;
    return drawn;
}

static void tell_input(void)
{
    fflush(stdout);
    abort();
}

int LLVMFuzzerTestOneInput(const uint8_t *bytes, size_t length);

int LLVMFuzzerTestOneInput(const uint8_t *bytes, size_t length)
{
    static struct question question;
    if (file_room.bytes == NULL)
        make_rooms();
    bytes_left = bytes;
    length_left = length;
    draw_question(&question);
    try_question(&question);
    return 0;
}
