/* How a controller records what a full queue loses: it owns one run state and one list of losses and lends both to each
 * recording tick. It takes the factory chain Flush with the capacity that is given for the event queue, queue 1, starts
 * afresh, makes so many ticks, and prints each loss as tick,queue,tokens and at the end what each queue has lost.
 *
 * After `make lib` (README.md says what is different on another processor than x86-64):
 *     gcc -std=c99 -Iinclude examples/recorder.c target/staticlib/libardenquill.a -o recorder
 *     ./recorder 1 1000
 * It prints recorder.out then: a capacity of 1 is room for one output of the stage before; the stage behind waits for
 * 8, so that it never fires, and every output after the first is lost. The minimum is 8, with which nothing is lost. It
 * ends with status 0 where nothing was lost, 3 where something was, as here, 4 where a tick had another outcome than
 * clean, and 1 where a call was refused.
 *
 * A list has room for 256 entries, and a tick drops two productions at most. So the controller makes room before there
 * are fewer than two slots left, and no tick finds the list full. It has handed every entry over by then, here to
 * standard output, and needs the sums alone: of the entries that it is lent, the next tick counts the tokens of each
 * queue, whose balance they are part of, and looks at no tick. Entries of one queue may thus be folded into one with
 * their sum. */
#include <inttypes.h>
#include <stdio.h>
#include <stdlib.h>

#include "ardenquill.h"

/* The event queue, and the most productions that a tick drops. */
#define EVENTS 1
#define LOST_AT_ONCE 2

/* What the program ends with. */
enum status { ALL_KEPT = 0, REFUSED = 1, MISUSED = 2, LOST = 3, STOPPED = 4 };

/* What the controller has: the chain, and the one state and the one list that are lent to each tick. */
struct recorder {
    struct ardenquill_chain chain;
    struct ardenquill_run run;
    struct ardenquill_losses losses;
};

/* Says why a call was refused. */
static enum status refused(uint32_t number, uint32_t place)
{
    printf("refused,%" PRIu32 ",%" PRIu32 ": %s\n", number, place, ardenquill_refusal_text(number));
    return REFUSED;
}

/* Gives the first of so many entries that a loss may be added to: one of its queue whose sum stays within 32 bits; or,
 * where there is none, their number. */
static uint32_t entry_for(const struct ardenquill_losses *losses, uint32_t kept, struct ardenquill_loss loss)
{
    uint32_t at = 0;
    while (at < kept && (losses->entries[at].queue != loss.queue ||
                         losses->entries[at].tokens > UINT32_MAX - loss.tokens))
        at++;
    return at;
}

/* Folds the entries of each queue into one with the sum of their tokens and the tick of the last; where a sum passes 32
 * bits, it begins another. */
static void fold(struct ardenquill_losses *losses)
{
    uint32_t kept = 0;
    for (uint32_t k = 0; k < losses->count; k++) {
        const struct ardenquill_loss loss = losses->entries[k];
        const uint32_t at = entry_for(losses, kept, loss);
        if (at == kept) {
            losses->entries[kept++] = loss;
        } else {
            losses->entries[at].tokens += loss.tokens;
            losses->entries[at].tick = loss.tick;
        }
    }
    losses->count = kept;
}

/* Makes one tick, and prints what it has lost. */
static enum status make_tick(struct recorder *recorder)
{
    struct ardenquill_losses *losses = &recorder->losses;
    if (losses->count > ARDENQUILL_MAX_LOSSES - LOST_AT_ONCE)
        fold(losses);
    const uint32_t before = losses->count;
    struct ardenquill_outcome outcome = ardenquill_recording_tick(&recorder->chain, &recorder->run, losses);
    if (outcome.number != ARDENQUILL_NOT_REFUSED)
        return refused(outcome.number, outcome.place);
    for (uint32_t k = before; k < losses->count; k++)
        printf("%" PRIu32 ",%" PRIu32 ",%" PRIu32 "\n", losses->entries[k].tick, losses->entries[k].queue,
               losses->entries[k].tokens);
    if (outcome.kind == ARDENQUILL_CLEAN)
        return losses->count > 0 ? LOST : ALL_KEPT;
    printf("tick %" PRIu32 ": %s %" PRIu32 "\n", outcome.tick,
           outcome.kind == ARDENQUILL_LIST_FULL ? "no slot for a loss of queue" : "no deadline of node", outcome.at);
    return STOPPED;
}

/* Gives what a queue has lost in all. */
static uint64_t lost_by(const struct ardenquill_losses *losses, uint32_t queue)
{
    uint64_t tokens = 0;
    for (uint32_t k = 0; k < losses->count; k++)
        tokens += losses->entries[k].queue == queue ? losses->entries[k].tokens : 0;
    return tokens;
}

/* Prints what each queue has lost in all. */
static void print_totals(const struct recorder *recorder)
{
    for (uint32_t i = 0; i < recorder->chain.n; i++)
        printf("queue %" PRIu32 " has lost %" PRIu64 " tokens\n", i, lost_by(&recorder->losses, i));
}

/* Reads a number of 32 bits. */
static uint32_t number_of(const char *text)
{
    char *end;
    unsigned long number = strtoul(text, &end, 10);
    if (end == text || *end != '\0' || number > UINT32_MAX) {
        fprintf(stderr, "recorder: no number of 32 bits: %s\n", text);
        exit(MISUSED);
    }
    return (uint32_t)number;
}

int main(int count, char **arguments)
{
    if (count != 3) {
        fprintf(stderr, "usage: recorder CAPACITY TICKS\n");
        return MISUSED;
    }
    struct recorder recorder;
    recorder.chain = ardenquill_factory(ARDENQUILL_FLUSH).chain;
    recorder.chain.queues[EVENTS].capacity = number_of(arguments[1]);
    uint32_t ticks = number_of(arguments[2]);

    struct ardenquill_run_answer fresh = ardenquill_fresh(recorder.chain);
    if (fresh.number != ARDENQUILL_NOT_REFUSED)
        return refused(fresh.number, fresh.place);
    recorder.run = fresh.run;
    recorder.losses.count = 0;
    enum status status = ALL_KEPT;
    for (uint32_t t = 0; t < ticks && (status == ALL_KEPT || status == LOST); t++)
        status = make_tick(&recorder);
    if (status == ALL_KEPT || status == LOST)
        print_totals(&recorder);
    return status;
}
