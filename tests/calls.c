/* The library's calls behind standard input and output: answers one request after the other until the input ends.
 *
 * A request is a letter and what the call takes, an answer is what the call gives, with nothing in between. Structs
 * and numbers are as x86-64 has them in memory; every length is a uint64_t.
 *
 *     request                    answer
 *     r, memory                  chain answer, memory      reads what is lent
 *     w, chain, memory           length answer, memory     writes the chain to what is lent
 *     f, uint32_t                chain answer              gives a factory chain
 *     a, chain                   analysis answer           analyses the chain
 *     p, memory, memory          length answer, memories   reports on the first that is lent to the second
 *     s, chain                   run answer                gives the state of a fresh start
 *     m, chain, run, uint32_t    run answer                fires a node
 *     h, chain, run, length,     run answers               fires so many nodes one after the other, each from the state
 *         uint32_t each                                    that the answer before gave
 *     i, chain, uint32_t         run answer                makes an immediate run
 *     q, chain, uint32_t,        deadline answer           asks for the deadline of a node's firing of an index
 *         uint32_t
 *     d, chain, uint32_t         outcome run               makes a deadline run
 *     e, chain, uint32_t         outcome runs              makes deadline runs of 0 ticks to so many
 *     t, chain, run              outcome run               makes one tick
 *     k, chain, run, length      outcome runs              makes so many ticks one after the other, each from the state
 *                                                          that the answer before gave
 *     u, chain, run, length      outcome run               the same until a tick is refused or not clean; gives the
 *                                                          last answer alone
 *     g, chain, uint32_t         recording                 makes a recording run
 *     b, chain, uint32_t         recordings                makes recording runs of 0 ticks to so many
 *     n, chain, run, losses      recording                 makes one recording tick
 *     o, chain, run, losses,     recordings                makes so many recording ticks one after the other, each from
 *         length                                           the state and the list that the answer before gave
 *     v, chain, run, losses,     recording                 the same until a tick is refused or not clean; gives the
 *         length                                           last answer alone
 *     l, chain, length           byte 0, or byte 1, length answer, first bytes, chain answer, length answer,
 *                                first bytes
 *
 * In a request, memory is three lengths, of the bytes before what is lent, of those lent and of those behind, and then
 * all of these bytes; the first is put at a multiple of 16. In an answer, memory is the same bytes as the call left
 * them.
 *
 * l is for more memory than can be sent. It takes so many zero bytes, writes the chain to them and reads all of them;
 * then it makes the first of them zero again and reports to all of them on the chain's packed file. The first bytes, as
 * they are after the writing and after the report, are as many as the longest packed file has. Byte 0 is all of the
 * answer where that much memory can't be had. */
#include <stdio.h>
#include <stdlib.h>
#include <string.h>

#include "ardenquill.h"

/* The bytes that are shown of large memory. */
#define FIRST ARDENQUILL_PACKED_LENGTH(ARDENQUILL_MAX_QUEUES)

/* Memory of a request: what is lent, between bytes that no call may look at. */
struct memory {
    uint8_t *bytes;
    size_t length;
    uint8_t *lent;
    size_t lent_length;
};

/* Ends the program without an answer. */
static void give_up(const char *why)
{
    fprintf(stderr, "calls: %s\n", why);
    exit(1);
}

/* Takes bytes of a request. */
static void take(void *bytes, size_t length)
{
    if (fread(bytes, 1, length, stdin) != length)
        give_up("the input ends within a request");
}

/* Takes a chain, a run state, a list of losses, a number and a length: what requests are made of. */
static struct ardenquill_chain take_chain(void)
{
    struct ardenquill_chain chain;
    take(&chain, sizeof chain);
    return chain;
}

static struct ardenquill_run take_run(void)
{
    struct ardenquill_run run;
    take(&run, sizeof run);
    return run;
}

static struct ardenquill_losses take_losses(void)
{
    struct ardenquill_losses losses;
    take(&losses, sizeof losses);
    return losses;
}

static uint32_t take_number(void)
{
    uint32_t number;
    take(&number, sizeof number);
    return number;
}

static uint64_t take_length(void)
{
    uint64_t length;
    take(&length, sizeof length);
    return length;
}

/* Puts bytes of an answer. */
static void put(const void *bytes, size_t length)
{
    if (fwrite(bytes, 1, length, stdout) != length)
        give_up("the answer can't be written");
}

/* Takes memory, to be put and freed by put_memory. */
static struct memory take_memory(void)
{
    uint64_t lengths[3];
    take(lengths, sizeof lengths);
    struct memory memory;
    memory.length = lengths[0] + lengths[1] + lengths[2];
    memory.bytes = malloc(memory.length);
    if (memory.bytes == NULL)
        give_up("no memory");
    memory.lent = memory.bytes + lengths[0];
    memory.lent_length = lengths[1];
    take(memory.bytes, memory.length);
    return memory;
}

/* Puts memory as it is now, and frees it. */
static void put_memory(struct memory memory)
{
    put(memory.bytes, memory.length);
    free(memory.bytes);
}

/* Answers r. */
static void answer_read(void)
{
    struct memory memory = take_memory();
    struct ardenquill_chain_answer answer = ardenquill_read(memory.lent, memory.lent_length);
    put(&answer, sizeof answer);
    put_memory(memory);
}

/* Answers w. */
static void answer_write(void)
{
    struct ardenquill_chain chain = take_chain();
    struct memory memory = take_memory();
    struct ardenquill_length_answer answer = ardenquill_write(chain, memory.lent, memory.lent_length);
    put(&answer, sizeof answer);
    put_memory(memory);
}

/* Answers f. */
static void answer_factory(void)
{
    uint32_t number = take_number();
    struct ardenquill_chain_answer answer = ardenquill_factory(number);
    put(&answer, sizeof answer);
}

/* Answers a. */
static void answer_analyse(void)
{
    struct ardenquill_chain chain = take_chain();
    struct ardenquill_analysis_answer answer = ardenquill_analyse(chain);
    put(&answer, sizeof answer);
}

/* Answers p. */
static void answer_report(void)
{
    struct memory file = take_memory();
    struct memory out = take_memory();
    struct ardenquill_length_answer answer =
        ardenquill_report(file.lent, file.lent_length, out.lent, out.lent_length);
    put(&answer, sizeof answer);
    put_memory(file);
    put_memory(out);
}

/* Answers s. */
static void answer_fresh(void)
{
    struct ardenquill_chain chain = take_chain();
    struct ardenquill_run_answer answer = ardenquill_fresh(chain);
    put(&answer, sizeof answer);
}

/* Answers m. */
static void answer_fire(void)
{
    struct ardenquill_chain chain = take_chain();
    struct ardenquill_run run = take_run();
    uint32_t node = take_number();
    struct ardenquill_run_answer answer = ardenquill_fire(chain, run, node);
    put(&answer, sizeof answer);
}

/* Answers h. */
static void answer_history(void)
{
    struct ardenquill_chain chain = take_chain();
    struct ardenquill_run run = take_run();
    uint64_t length = take_length();
    uint32_t *nodes = malloc(length * sizeof *nodes);
    if (nodes == NULL && length > 0)
        give_up("no memory");
    take(nodes, length * sizeof *nodes);
    for (uint64_t i = 0; i < length; i++) {
        struct ardenquill_run_answer answer = ardenquill_fire(chain, run, nodes[i]);
        put(&answer, sizeof answer);
        run = answer.run;
    }
    free(nodes);
}

/* Answers i. */
static void answer_immediate(void)
{
    struct ardenquill_chain chain = take_chain();
    uint32_t k = take_number();
    struct ardenquill_run_answer answer = ardenquill_immediate(chain, k);
    put(&answer, sizeof answer);
}

/* Answers q. */
static void answer_deadline(void)
{
    struct ardenquill_chain chain = take_chain();
    uint32_t node = take_number();
    uint32_t index = take_number();
    struct ardenquill_deadline_answer answer = ardenquill_deadline(chain, node, index);
    put(&answer, sizeof answer);
}

/* Answers d. */
static void answer_deadline_run(void)
{
    struct ardenquill_chain chain = take_chain();
    uint32_t ticks = take_number();
    struct ardenquill_outcome_run answer = ardenquill_deadline_run(chain, ticks);
    put(&answer, sizeof answer);
}

/* Answers e. */
static void answer_each_length(void)
{
    struct ardenquill_chain chain = take_chain();
    uint32_t most = take_number();
    for (uint64_t ticks = 0; ticks <= most; ticks++) {
        struct ardenquill_outcome_run answer = ardenquill_deadline_run(chain, (uint32_t)ticks);
        put(&answer, sizeof answer);
    }
}

/* One tick of a state that is lent between words that no call may change. A change of these, or of the chain, ends the
 * program. */
static struct ardenquill_outcome_run tick(struct ardenquill_chain chain, struct ardenquill_run run)
{
    struct {
        uint32_t before[16];
        struct ardenquill_run run;
        uint32_t behind[16];
    } lent, left;
    memset(&lent, 0xa5, sizeof lent);
    lent.run = run;
    left = lent;
    struct ardenquill_chain handed = chain;
    struct ardenquill_outcome outcome = ardenquill_tick(&handed, &left.run);
    if (memcmp(&handed, &chain, sizeof chain) != 0)
        give_up("a tick has changed its chain");
    lent.run = left.run;
    if (memcmp(&left, &lent, sizeof lent) != 0)
        give_up("a tick has written beside the state that was lent");
    struct ardenquill_outcome_run answer = {
        outcome.number, outcome.place, outcome.kind, outcome.tick, outcome.at, left.run,
    };
    return answer;
}

/* Answers t. */
static void answer_tick(void)
{
    struct ardenquill_chain chain = take_chain();
    struct ardenquill_run run = take_run();
    struct ardenquill_outcome_run answer = tick(chain, run);
    put(&answer, sizeof answer);
}

/* Answers k. */
static void answer_ticks(void)
{
    struct ardenquill_chain chain = take_chain();
    struct ardenquill_run run = take_run();
    uint64_t length = take_length();
    for (uint64_t i = 0; i < length; i++) {
        struct ardenquill_outcome_run answer = tick(chain, run);
        put(&answer, sizeof answer);
        run = answer.run;
    }
}

/* Answers u. */
static void answer_ticks_while_clean(void)
{
    struct ardenquill_chain chain = take_chain();
    struct ardenquill_outcome_run last;
    memset(&last, 0, sizeof last);
    last.run = take_run();
    uint64_t length = take_length();
    for (uint64_t i = 0; i < length && last.number == 0 && last.kind == ARDENQUILL_CLEAN; i++)
        last = tick(chain, last.run);
    put(&last, sizeof last);
}

/* Answers g. */
static void answer_recording_run(void)
{
    struct ardenquill_chain chain = take_chain();
    uint32_t ticks = take_number();
    struct ardenquill_recording answer = ardenquill_recording_run(chain, ticks);
    put(&answer, sizeof answer);
}

/* Answers b. */
static void answer_each_recording_length(void)
{
    struct ardenquill_chain chain = take_chain();
    uint32_t most = take_number();
    for (uint64_t ticks = 0; ticks <= most; ticks++) {
        struct ardenquill_recording answer = ardenquill_recording_run(chain, (uint32_t)ticks);
        put(&answer, sizeof answer);
    }
}

/* A state and a list to lend, between words that no call may change. */
struct lent {
    uint32_t before[16];
    struct ardenquill_run run;
    uint32_t between[16];
    struct ardenquill_losses losses;
    uint32_t behind[16];
};

/* What each of those words is, and each of those behind the list: these would be entries of queue 0 without tokens, so
 * that a list which is taken to have more slots than it has is not refused for what they say. */
#define GUARD UINT32_C(0xa5a5a5a5)
#define GUARD_BEHIND(i) ((i) % 3 == 0 ? GUARD : 0)

/* Takes a state and a list. */
static struct lent take_lent(void)
{
    struct lent lent;
    for (int i = 0; i < 16; i++) {
        lent.before[i] = lent.between[i] = GUARD;
        lent.behind[i] = GUARD_BEHIND(i);
    }
    lent.run = take_run();
    lent.losses = take_losses();
    return lent;
}

/* One recording tick of a state and a list that are lent. A change of the words around them, or of the chain, ends the
 * program. */
static struct ardenquill_outcome recording_tick(const struct ardenquill_chain *chain, struct lent *lent)
{
    struct ardenquill_chain handed = *chain;
    struct ardenquill_outcome outcome = ardenquill_recording_tick(&handed, &lent->run, &lent->losses);
    if (memcmp(&handed, chain, sizeof handed) != 0)
        give_up("a recording tick has changed its chain");
    for (int i = 0; i < 16; i++)
        if (lent->before[i] != GUARD || lent->between[i] != GUARD || lent->behind[i] != GUARD_BEHIND(i))
            give_up("a recording tick has written beside the state and the list that were lent");
    return outcome;
}

/* Puts an outcome with the state and the list that were left, as a recording run gives them. */
static void put_recording(struct ardenquill_outcome outcome, const struct lent *lent)
{
    put(&outcome, sizeof outcome);
    put(&lent->run, sizeof lent->run);
    put(&lent->losses, sizeof lent->losses);
}

/* Answers n. */
static void answer_recording_tick(void)
{
    struct ardenquill_chain chain = take_chain();
    struct lent lent = take_lent();
    struct ardenquill_outcome outcome = recording_tick(&chain, &lent);
    put_recording(outcome, &lent);
}

/* Answers o. */
static void answer_recording_ticks(void)
{
    struct ardenquill_chain chain = take_chain();
    struct lent lent = take_lent();
    uint64_t length = take_length();
    for (uint64_t i = 0; i < length; i++) {
        struct ardenquill_outcome outcome = recording_tick(&chain, &lent);
        put_recording(outcome, &lent);
    }
}

/* Answers v. */
static void answer_recording_ticks_while_clean(void)
{
    struct ardenquill_chain chain = take_chain();
    struct lent lent = take_lent();
    uint64_t length = take_length();
    struct ardenquill_outcome last = {0, 0, ARDENQUILL_CLEAN, 0, 0};
    for (uint64_t i = 0; i < length && last.number == 0 && last.kind == ARDENQUILL_CLEAN; i++)
        last = recording_tick(&chain, &lent);
    put_recording(last, &lent);
}

/* Answers l. */
static void answer_large(void)
{
    struct ardenquill_chain chain = take_chain();
    uint64_t length = take_length();
    uint8_t *bytes = calloc(length, 1);
    uint8_t had = bytes != NULL;
    put(&had, sizeof had);
    if (!had)
        return;
    struct ardenquill_length_answer written = ardenquill_write(chain, bytes, length);
    struct ardenquill_chain_answer read = ardenquill_read(bytes, length);
    put(&written, sizeof written);
    put(bytes, FIRST);
    put(&read, sizeof read);
    uint8_t file[FIRST];
    memcpy(file, bytes, FIRST);
    memset(bytes, 0, FIRST);
    struct ardenquill_length_answer reported = ardenquill_report(file, written.length, bytes, length);
    put(&reported, sizeof reported);
    put(bytes, FIRST);
    free(bytes);
}

/* What answers each request, by its letter. */
static const struct {
    char letter;
    void (*answer)(void);
} answers[] = {
    {'r', answer_read}, {'w', answer_write}, {'f', answer_factory}, {'a', answer_analyse},
    {'p', answer_report}, {'s', answer_fresh}, {'m', answer_fire}, {'h', answer_history},
    {'i', answer_immediate}, {'q', answer_deadline}, {'d', answer_deadline_run}, {'e', answer_each_length},
    {'t', answer_tick}, {'k', answer_ticks}, {'u', answer_ticks_while_clean}, {'g', answer_recording_run},
    {'b', answer_each_recording_length}, {'n', answer_recording_tick}, {'o', answer_recording_ticks},
    {'v', answer_recording_ticks_while_clean}, {'l', answer_large},
};

/* Answers the request of a letter. */
static void answer(int letter)
{
    for (size_t i = 0; i < sizeof answers / sizeof answers[0]; i++) {
        if (answers[i].letter == letter) {
            answers[i].answer();
            return;
        }
    }
    give_up("there is no such call");
}

int main(void)
{
    int letter;
    while ((letter = getchar()) != EOF) {
        answer(letter);
        if (fflush(stdout) != 0)
            give_up("the answer can't be written");
    }
    return 0;
}
