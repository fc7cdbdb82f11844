/* Checks that 4,096 bytes of stack are enough for every call with its arguments and its answer, and for the recording
 * calls, whose list of losses alone has 3,076 bytes, 20,480. Each call is made on a stack of its own that is painted
 * beforehand, for a chain of 16 queues that is accepted and for one that is refused in its last row, which is the
 * deepest way; below those bytes the paint must stay. */
#define _XOPEN_SOURCE 700
#include <stdio.h>
#include <string.h>
#include <ucontext.h>

#include "ardenquill.h"

/* The bytes that are to be enough, for the recording calls and for the others, those that are painted, so that a call
 * which takes more is seen and does no harm, and the paint. */
#define ENOUGH_RECORDING 20480
#define ENOUGH 4096
#define PAINTED (4 * ENOUGH_RECORDING)
#define PAINT 0xa5

/* The stack that calls are made on, and the contexts of this program and of a call. */
static uint8_t stack[PAINTED];
static ucontext_t ours, theirs;

/* What the calls are handed, and the number that the last one gave. They are no part of the stack. */
static struct ardenquill_chain chain;
static struct ardenquill_run run;
static struct ardenquill_losses losses;
static uint8_t file[ARDENQUILL_MAX_FILE_LENGTH], out[ARDENQUILL_MAX_REPORT_LENGTH];
static size_t length;
static uint32_t number;

/* Each call as a function that takes and gives nothing, which is what a context can begin with. */
static void make_read(void) { number = ardenquill_read(file, length).number; }
static void make_write(void) { number = ardenquill_write(chain, out, sizeof out).number; }
static void make_factory(void) { number = ardenquill_factory(ARDENQUILL_FLUSH).number; }
static void make_analyse(void) { number = ardenquill_analyse(chain).number; }
static void make_report(void) { number = ardenquill_report(file, length, out, sizeof out).number; }
static void make_fresh(void) { number = ardenquill_fresh(chain).number; }
static void make_fire(void) { number = ardenquill_fire(chain, run, 0).number; }
static void make_immediate(void) { number = ardenquill_immediate(chain, 100).number; }
static void make_deadline(void) { number = ardenquill_deadline(chain, ARDENQUILL_MAX_QUEUES, 1).number; }
static void make_tick(void) { number = ardenquill_tick(&chain, &run).number; }
static void make_deadline_run(void) { number = ardenquill_deadline_run(chain, 100000).number; }

/* The recording calls, with a source whose queue has no room for a production, so that each is lost. */
static void make_recording_tick(void)
{
    chain.queues[0].capacity = 6;
    number = ardenquill_recording_tick(&chain, &run, &losses).number;
}

static void make_recording_run(void)
{
    chain.queues[0].capacity = 6;
    number = ardenquill_recording_run(chain, 100000).number;
}

/* Every call by its name, the number that it gives for the chain that is refused, and the bytes that are to be
 * enough. */
static const struct {
    const char *name;
    void (*make)(void);
    uint32_t number;
    size_t enough;
} calls[] = {
    {"read", make_read, ARDENQUILL_BAD_CONSUME, ENOUGH},
    {"write", make_write, ARDENQUILL_BAD_CONSUME, ENOUGH},
    {"factory", make_factory, ARDENQUILL_NOT_REFUSED, ENOUGH},
    {"analyse", make_analyse, ARDENQUILL_BAD_CONSUME, ENOUGH},
    {"report", make_report, ARDENQUILL_BAD_CONSUME, ENOUGH},
    {"fresh", make_fresh, ARDENQUILL_BAD_CONSUME, ENOUGH},
    {"fire", make_fire, ARDENQUILL_BAD_CONSUME, ENOUGH},
    {"immediate", make_immediate, ARDENQUILL_BAD_CONSUME, ENOUGH},
    {"deadline", make_deadline, ARDENQUILL_BAD_CONSUME, ENOUGH},
    {"tick", make_tick, ARDENQUILL_BAD_CONSUME, ENOUGH},
    {"deadline_run", make_deadline_run, ARDENQUILL_BAD_CONSUME, ENOUGH},
    {"recording_tick", make_recording_tick, ARDENQUILL_BAD_CONSUME, ENOUGH_RECORDING},
    {"recording_run", make_recording_run, ARDENQUILL_BAD_CONSUME, ENOUGH_RECORDING},
};
#define CALLS (sizeof calls / sizeof calls[0])

/* Makes a call on the painted stack. How many bytes of it were touched. The library's memcpy and memset have been called
 * before, so what a dynamic linker takes to look them up at first is not among them. */
static size_t touched(void (*make)(void))
{
    memset(stack, PAINT, sizeof stack);
    getcontext(&theirs);
    theirs.uc_stack.ss_sp = stack;
    theirs.uc_stack.ss_size = sizeof stack;
    theirs.uc_link = &ours;
    makecontext(&theirs, make, 0);
    swapcontext(&ours, &theirs);
    size_t kept = 0;
    while (kept < sizeof stack && stack[kept] == PAINT)
        kept++;
    return sizeof stack - kept;
}

/* Sets a chain of 16 queues in which every node fires as often as the source, its file, a fresh start and no losses. */
static void set_chain(void)
{
    memset(&run, 0, sizeof run);
    losses.count = 0;
    chain.n = ARDENQUILL_MAX_QUEUES;
    chain.period = 1000;
    for (int i = 0; i < ARDENQUILL_MAX_QUEUES; i++) {
        chain.queues[i].produce = chain.queues[i].threshold = chain.queues[i].consume = 7;
        chain.queues[i].capacity = 0;
        chain.work[i] = 1;
    }
    length = (size_t)ardenquill_write(chain, file, sizeof file).length;
}

/* Makes consume of the last queue pass its threshold, in the chain and in its file, where its lowest byte is changed. */
static void spoil_chain(void)
{
    chain.queues[ARDENQUILL_MAX_QUEUES - 1].consume = 8;
    file[20 + 20 * (ARDENQUILL_MAX_QUEUES - 1) + 8] = 8;
}

int main(void)
{
    int failed = 0;
    for (size_t i = 0; i < CALLS; i++) {
        set_chain();
        size_t accepted = touched(calls[i].make);
        int sound = number == ARDENQUILL_NOT_REFUSED;
        spoil_chain();
        size_t refused = touched(calls[i].make);
        sound = sound && number == calls[i].number && accepted <= calls[i].enough && refused <= calls[i].enough;
        printf("%s: %lu bytes, refused %lu%s\n", calls[i].name, (unsigned long)accepted, (unsigned long)refused,
               sound ? "" : ": FAILED");
        failed += !sound;
    }
    printf("%d passed, %d failed\n", (int)CALLS - failed, failed);
    return failed != 0;
}
