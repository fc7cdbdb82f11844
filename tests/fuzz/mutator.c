/* The fuzz run over every call of ardenquill.h, with inputs drawn from a seed:
 *     mutator SECONDS SEED STEP
 * It tries the opening and then, from that step on, a drawn question in every step, until the seconds have passed, or
 * with 0 seconds until it is interrupted, or until a step has failed. The inputs of a step depend on the seed and on
 * its number alone, so a step that failed is had again by these.
 * The last line is 'N passed, M failed': one for each call, all of whose properties must hold, and one for each number
 * and each outcome of a call, which must be met.
 *
 * The library is not instrumented: a sanitizer sees the C here alone, and what the library touches is watched by
 * lent.h. */
#define _DEFAULT_SOURCE 1 /* for MAP_ANONYMOUS */
#include <signal.h>
#include <time.h>

#include "inputs.h"

static uint64_t seed, step;
static volatile sig_atomic_t interrupted;

/* The state of the stream of choices. */
static uint64_t stream;

/* Mixes the bits of a word, as splitmix64 does. */
static uint64_t mixed(uint64_t word)
{
    word = (word ^ word >> 30) * UINT64_C(0xbf58476d1ce4e5b9);
    word = (word ^ word >> 27) * UINT64_C(0x94d049bb133111eb);
    return word ^ word >> 31;
}

static uint32_t draw(size_t length)
{
    stream += UINT64_C(0x9e3779b97f4a7c15);
    return (uint32_t)(mixed(stream) >> (64 - 8 * length));
}

static void tell_input(void)
{
    printf("    had again by: make fuzz SECONDS=1 SEED=%llu STEP=%llu\n", (unsigned long long)seed,
           (unsigned long long)step);
}

/* Ends the run where a page is touched that may not be, or a sealed one is written. It is the library that does so, and
 * not the C library's output, so that this may print. */
static void end_at_fault(int fault)
{
    (void)fault;
    check(entered, 0, "only what is lent is touched, and nothing that is sealed is written");
    printf("0 passed, 1 failed\n");
    fflush(stdout);
    _exit(1);
}

static void interrupt(int by)
{
    (void)by;
    interrupted = 1;
}

/* How many properties have failed. */
static uint64_t failures(void)
{
    uint64_t failed = 0;
    for (int call = 0; call < CALLS; call++)
        failed += tallies[call].failed;
    return failed;
}

/* Tries drawn questions until the time has come or one has failed. */
static void try_steps(uint64_t seconds)
{
    static struct question question;
    struct timespec now;
    clock_gettime(CLOCK_MONOTONIC, &now);
    const time_t end = now.tv_sec + (time_t)seconds;
    while (failures() == 0 && !interrupted && (seconds == 0 || now.tv_sec < end)) {
        stream = mixed(mixed(seed + 1) + step);
        draw_question(&question);
        try_question(&question);
        step++;
        clock_gettime(CLOCK_MONOTONIC, &now);
    }
}

static uint64_t passed, failed;

/* Counts something that should have been met, and prints how often it was. */
static void tell_met(const char *what, uint32_t value, uint64_t times)
{
    if (times > 0)
        passed++;
    else
        failed++;
    printf(", %s%lu: %llu%s", what, (unsigned long)value, (unsigned long long)times, times > 0 ? "" : " NOT MET");
}

/* Prints what is known of a call, and counts it. */
static void tell_call(const struct tally *tally)
{
    if (tally->failed == 0)
        passed++;
    else
        failed++;
    printf("%s: %llu calls, %llu properties failed", tally->name, (unsigned long long)tally->made,
           (unsigned long long)tally->failed);
    for (uint32_t number = 0; number < NUMBERS; number++)
        if (is_one_of(number, tally->refusals | NUMBER(0)))
            tell_met("", number, tally->numbers[number]);
    for (uint32_t kind = 0; kind < KINDS; kind++)
        if (is_one_of(kind, tally->outcomes))
            tell_met("kind ", kind, tally->kinds[kind]);
    printf("\n");
}

int main(int words, char **word)
{
    if (words != 4) {
        fprintf(stderr, "usage: mutator SECONDS SEED STEP\n");
        return 2;
    }
    static struct question question;
    const uint64_t seconds = strtoull(word[1], NULL, 10);
    seed = strtoull(word[2], NULL, 10);
    make_rooms();
    signal(SIGSEGV, end_at_fault);
    signal(SIGBUS, end_at_fault);
    signal(SIGINT, interrupt);
    for (size_t i = 0; i < OPENINGS; i++) {
        open_question(&question, i);
        try_question(&question);
    }
    step = strtoull(word[3], NULL, 10);
    try_steps(seconds);
    for (int call = 0; call < CALLS; call++)
        tell_call(&tallies[call]);
    printf("seed %llu, up to step %llu\n%llu passed, %llu failed\n", (unsigned long long)seed, (unsigned long long)step,
           (unsigned long long)passed, (unsigned long long)failed);
    return failed != 0;
}
