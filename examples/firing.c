/* How a program fires a chain by hand: it takes the factory chain Feed, starts afresh, fires the nodes that are named
 * one after the other, and shows how far the run is after each, or why the node did not fire. At the end it lets an
 * immediate run fire the source as often.
 *
 * After `make lib` (README.md says what is different on another processor than x86-64):
 *     gcc -std=c99 -Iinclude examples/firing.c target/staticlib/libardenquill.a -o firing
 *     ./firing 1 0 0 0 1 0 0 1 0 1 1 1 2
 * It prints firing.out then, and ends with status 1, as it does where any call was refused. */
#include <stdio.h>
#include <stdlib.h>

#include "ardenquill.h"

/* Prints how often each node has fired and what each queue holds. */
static void print_run(const struct ardenquill_chain *chain, const struct ardenquill_run *run)
{
    printf("fired %lu", (unsigned long)run->counts[0]);
    for (uint32_t i = 0; i < chain->n; i++)
        printf(" %lu", (unsigned long)run->counts[i + 1]);
    printf(", held");
    for (uint32_t i = 0; i < chain->n; i++)
        printf(" %lu", (unsigned long)run->held[i]);
    printf("\n");
}

/* Prints the run state that a call has given, or why it was refused. Whether it was not. */
static int print_answer(const struct ardenquill_chain *chain, const struct ardenquill_run_answer *answer)
{
    if (answer->number == ARDENQUILL_NOT_REFUSED) {
        print_run(chain, &answer->run);
        return 1;
    }
    printf("refused,%lu,%lu: %s\n", (unsigned long)answer->number, (unsigned long)answer->place,
           ardenquill_refusal_text(answer->number));
    return 0;
}

int main(int count, char **arguments)
{
    const struct ardenquill_chain chain = ardenquill_factory(ARDENQUILL_FEED).chain;
    int accepted = 1;

    /* A factory chain is accepted, so a fresh start is not refused. A run state is a plain value that the program
     * keeps: each firing takes it and gives the next, and a refused one gives it back as it was. */
    struct ardenquill_run run = ardenquill_fresh(chain).run;
    for (int i = 1; i < count; i++) {
        char *end;
        unsigned long number = strtoul(arguments[i], &end, 10);
        if (end == arguments[i] || *end != '\0' || number > UINT32_MAX) {
            fprintf(stderr, "firing: not the number of a node: %s\n", arguments[i]);
            return 2;
        }
        uint32_t node = (uint32_t)number;
        struct ardenquill_run_answer answer = ardenquill_fire(chain, run, node);
        printf("node %lu: ", (unsigned long)node);
        accepted = print_answer(&chain, &answer) && accepted;
        run = answer.run;
    }

    struct ardenquill_run_answer answer = ardenquill_immediate(chain, run.counts[0]);
    printf("immediate: ");
    accepted = print_answer(&chain, &answer) && accepted;
    return accepted ? 0 : 1;
}
