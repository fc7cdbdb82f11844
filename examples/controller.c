/* How a controller drives a chain tick by tick: it owns one run state and lends it to each tick. It takes the factory
 * chain Feed with the execution time that is given, starts afresh, makes so many ticks, and shows the state after each
 * in which a node has fired, and why it stops where it stops early.
 *
 * After `make lib` (README.md says what is different on another processor than x86-64):
 *     gcc -std=c99 -Iinclude examples/controller.c target/staticlib/libardenquill.a -o controller
 *     ./controller 7 60
 * It prints controller.out then: with an execution time of 7 the load is 28 of 30, and yet the queue overflows. It ends
 * with status 0 where all ticks were made, 3 where a tick had another outcome than clean, as here, and 1 where a call
 * was refused, as with an execution time of 8. */
#include <stdio.h>
#include <stdlib.h>
#include <string.h>

#include "ardenquill.h"

/* What the program ends with. */
enum status { ALL_MADE = 0, REFUSED = 1, MISUSED = 2, STOPPED = 3 };

/* What the controller has: the chain, and the one state that is lent to each tick. */
struct controller {
    struct ardenquill_chain chain;
    struct ardenquill_run run;
};

/* Prints the clock, how often each node has fired and what each queue holds. */
static void print_state(const struct controller *controller)
{
    const struct ardenquill_run *run = &controller->run;
    printf("clock %lu: fired %lu", (unsigned long)run->clock, (unsigned long)run->counts[0]);
    for (uint32_t i = 0; i < controller->chain.n; i++)
        printf(" %lu", (unsigned long)run->counts[i + 1]);
    printf(", held");
    for (uint32_t i = 0; i < controller->chain.n; i++)
        printf(" %lu", (unsigned long)run->held[i]);
    printf("\n");
}

/* Says why a call was refused. */
static enum status refused(uint32_t number, uint32_t place)
{
    printf("refused,%lu,%lu: %s\n", (unsigned long)number, (unsigned long)place, ardenquill_refusal_text(number));
    return REFUSED;
}

/* Makes one tick, and says why the controller may not go on where it may not. */
static enum status make_tick(struct controller *controller)
{
    struct ardenquill_outcome outcome = ardenquill_tick(&controller->chain, &controller->run);
    if (outcome.number != ARDENQUILL_NOT_REFUSED)
        return refused(outcome.number, outcome.place);
    switch (outcome.kind) {
    case ARDENQUILL_CLEAN:
        return ALL_MADE;
    case ARDENQUILL_OVERFLOWED:
        printf("tick %lu: queue %lu has no room\n", (unsigned long)outcome.tick, (unsigned long)outcome.at);
        return STOPPED;
    default:
        printf("tick %lu: node %lu has no deadline\n", (unsigned long)outcome.tick, (unsigned long)outcome.at);
        return STOPPED;
    }
}

/* Reads a number of 32 bits. */
static uint32_t number_of(const char *text)
{
    char *end;
    unsigned long number = strtoul(text, &end, 10);
    if (end == text || *end != '\0' || number > UINT32_MAX) {
        fprintf(stderr, "controller: no number of 32 bits: %s\n", text);
        exit(MISUSED);
    }
    return (uint32_t)number;
}

int main(int count, char **arguments)
{
    if (count != 3) {
        fprintf(stderr, "usage: controller EXECUTION-TIME TICKS\n");
        return MISUSED;
    }
    struct controller controller;
    controller.chain = ardenquill_factory(ARDENQUILL_FEED).chain;
    controller.chain.work[0] = number_of(arguments[1]);
    uint32_t ticks = number_of(arguments[2]);

    struct ardenquill_run_answer fresh = ardenquill_fresh(controller.chain);
    if (fresh.number != ARDENQUILL_NOT_REFUSED)
        return refused(fresh.number, fresh.place);
    controller.run = fresh.run;
    enum status status = ALL_MADE;
    for (uint32_t t = 0; t < ticks && status == ALL_MADE; t++) {
        const struct ardenquill_run before = controller.run;
        status = make_tick(&controller);
        if (memcmp(before.counts, controller.run.counts, sizeof before.counts) != 0)
            print_state(&controller);
    }
    return status;
}
