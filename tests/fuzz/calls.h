/* Every call of ardenquill.h, made twice: on inputs that differ only in what the call may not look at, and with what
 * is lent at the end and at the start of its room. The second time what is lent to be read is sealed, and what is lent
 * to be written too, where the first answer was one that leaves it as it was. Checks what holds of each call by itself,
 * and counts what it answers. */
#ifndef FUZZ_CALLS_H
#define FUZZ_CALLS_H

#include "ardenquill.h"
#include "lent.h"

enum call {
    READ, WRITE, FACTORY, ANALYSE, REPORT, FRESH, FIRE, IMMEDIATE, DEADLINE, DEADLINE_RUN, TICK, RECORDING_RUN,
    RECORDING_TICK, CALLS
};

/* Sets of refusals, as bits. */
#define NUMBER(number) (UINT32_C(1) << (number))
#define OF_RECORD (NUMBER(2) | NUMBER(4) | NUMBER(5))
#define OF_ANALYSIS (OF_RECORD | NUMBER(6) | NUMBER(7))
#define OF_RUN (OF_ANALYSIS | NUMBER(8))
#define OF_FILE (OF_RECORD | NUMBER(1) | NUMBER(3))

/* How many numbers there are, 0 among them, and how many kinds of outcome. */
#define NUMBERS (ARDENQUILL_BAD_RUN + 1)
#define KINDS (ARDENQUILL_LIST_FULL + 1)

/* Sets of kinds, as bits: those of a deadline run and of a recording run. */
#define OF_DEADLINES (NUMBER(ARDENQUILL_CLEAN) | NUMBER(ARDENQUILL_OVERFLOWED) | NUMBER(ARDENQUILL_NO_DEADLINE))
#define OF_RECORDINGS (NUMBER(ARDENQUILL_CLEAN) | NUMBER(ARDENQUILL_NO_DEADLINE) | NUMBER(ARDENQUILL_LIST_FULL))

/* A call: its name, the refusals and the kinds of outcome that belong to it; then how often it was made, how many of
 * its properties failed, and how often it answered each number and each kind. */
struct tally {
    const char *name;
    uint32_t refusals, outcomes;
    uint64_t made, failed, numbers[NUMBERS], kinds[KINDS];
};

static struct tally tallies[CALLS] = {
    [READ] = {.name = "ardenquill_read", .refusals = OF_FILE},
    [WRITE] = {.name = "ardenquill_write", .refusals = OF_RECORD | NUMBER(10)},
    [FACTORY] = {.name = "ardenquill_factory", .refusals = NUMBER(14)},
    [ANALYSE] = {.name = "ardenquill_analyse", .refusals = OF_ANALYSIS},
    [REPORT] = {.name = "ardenquill_report", .refusals = OF_FILE | OF_ANALYSIS | NUMBER(10)},
    [FRESH] = {.name = "ardenquill_fresh", .refusals = OF_ANALYSIS},
    [FIRE] = {.name = "ardenquill_fire",
              .refusals = OF_ANALYSIS | NUMBER(17) | NUMBER(9) | NUMBER(11) | NUMBER(12)},
    [IMMEDIATE] = {.name = "ardenquill_immediate", .refusals = OF_RUN | NUMBER(9)},
    [DEADLINE] = {.name = "ardenquill_deadline", .refusals = OF_RUN | NUMBER(11) | NUMBER(13)},
    [DEADLINE_RUN] = {.name = "ardenquill_deadline_run", .refusals = OF_RUN | NUMBER(9), .outcomes = OF_DEADLINES},
    [TICK] = {.name = "ardenquill_tick", .refusals = OF_RUN | NUMBER(17) | NUMBER(9), .outcomes = OF_DEADLINES},
    [RECORDING_RUN] = {.name = "ardenquill_recording_run", .refusals = OF_ANALYSIS | NUMBER(9),
                       .outcomes = OF_RECORDINGS},
    [RECORDING_TICK] = {.name = "ardenquill_recording_tick", .refusals = OF_ANALYSIS | NUMBER(17) | NUMBER(9),
                        .outcomes = OF_RECORDINGS},
};

/* The call that was entered last, for where the library touches a page that it may not. */
static enum call entered;

/* What every answer begins with. */
struct refusal {
    uint32_t number, place;
};

/* The refusal of an answer. */
#define REFUSAL_OF(answer) ((struct refusal){(answer).number, (answer).place})

/* Whether two records of one type are the same; none of them has gaps between its fields. */
#define SAME(one, other) (memcmp(&(one), &(other), sizeof(one)) == 0)

/* Says how the input at hand is had again; each program has its own way. */
static void tell_input(void);

/* Counts and tells a property of a call that does not hold. */
static void check(enum call call, int holds, const char *property)
{
    if (holds)
        return;
    tallies[call].failed++;
    printf("failed: %s: %s\n", tallies[call].name, property);
    tell_input();
}

/* Notes that a call is made. */
static void enter(enum call call)
{
    entered = call;
    tallies[call].made++;
}

/* Whether a number is in a set. */
static int is_one_of(uint32_t number, uint32_t set)
{
    return number < NUMBERS && (set & NUMBER(number)) != 0;
}

/* Checks that the number belongs to the call and that a call that is not refused has no place. */
static void judge_refusal(enum call call, struct refusal refusal)
{
    struct tally *tally = &tallies[call];
    const int known = is_one_of(refusal.number, tally->refusals | NUMBER(0));
    check(call, known, "the number is one of the call's");
    if (known)
        tally->numbers[refusal.number]++;
    check(call, refusal.number != 0 || refusal.place == 0, "not refused, the place is 0");
}

/* The same of an answer, of which all else is zero when it is refused. */
static void judge(enum call call, const void *answer, size_t length)
{
    struct refusal refusal;
    memcpy(&refusal, answer, sizeof refusal);
    judge_refusal(call, refusal);
    check(call, refusal.number == 0 || is_all((const uint8_t *)answer + sizeof refusal, length - sizeof refusal, 0),
          "refused, all other results are zero");
}

/* Counts the kind of an outcome; what is refused has none. */
static void judge_kind(enum call call, struct refusal refusal, uint32_t kind)
{
    const int known = is_one_of(kind, tallies[call].outcomes);
    check(call, known, "the kind is one of the call's");
    if (refusal.number == 0 && known)
        tallies[call].kinds[kind]++;
}

/* Flips every bit of a record. */
static void flip(void *record, size_t length)
{
    uint8_t *bytes = record;
    for (size_t i = 0; i < length; i++)
        bytes[i] ^= 0xff;
}

/* A chain with the slots past n flipped. */
static struct ardenquill_chain flipped_chain(struct ardenquill_chain chain)
{
    for (uint32_t i = chain.n; i < ARDENQUILL_MAX_QUEUES; i++) {
        flip(&chain.queues[i], sizeof chain.queues[i]);
        flip(&chain.work[i], sizeof chain.work[i]);
    }
    return chain;
}

/* A run state of a chain of n queues with the slots past n flipped. */
static struct ardenquill_run flipped_run(uint32_t n, struct ardenquill_run run)
{
    for (uint32_t i = n; i < ARDENQUILL_MAX_QUEUES; i++) {
        flip(&run.counts[i + 1], sizeof run.counts[i + 1]);
        flip(&run.held[i], sizeof run.held[i]);
        flip(&run.done[i], sizeof run.done[i]);
    }
    return run;
}

/* A list of losses with the slots from a count on flipped. */
static struct ardenquill_losses flipped_losses(uint32_t count, struct ardenquill_losses losses)
{
    for (uint32_t k = count; k < ARDENQUILL_MAX_LOSSES; k++)
        flip(&losses.entries[k], sizeof losses.entries[k]);
    return losses;
}

/* Lends a file at one side of its room, and reads it. */
static struct ardenquill_chain_answer read_lent(const uint8_t *file, size_t length, enum side side)
{
    const struct loan loan = lend(&file_room, side, length);
    memcpy(loan.bytes, file, length);
    if (side == AT_START)
        seal(&loan);
    enter(READ);
    struct ardenquill_chain_answer answer = ardenquill_read(loan.bytes, length);
    check(READ, memcmp(loan.bytes, file, length) == 0, "the file is as it was");
    check(READ, take_back(&loan), "nothing is written around the file");
    return answer;
}

/* Reads a file. */
static struct ardenquill_chain_answer call_read(const uint8_t *file, size_t length)
{
    struct ardenquill_chain_answer answer = read_lent(file, length, AT_END);
    struct ardenquill_chain_answer again = read_lent(file, length, AT_START);
    judge(READ, &answer, sizeof answer);
    check(READ, SAME(answer, again), "asked again, the same");
    return answer;
}

/* Takes back the room of a call that writes, every byte of which was `filled`, and gives what was written. A length
 * that passes the room is told, and then taken for 0. */
static void take_written(enum call call, const struct loan *out, uint8_t filled,
                         struct ardenquill_length_answer *answer, uint8_t *written)
{
    check(call, answer->length <= out->length, "the length is within the room");
    if (answer->length > out->length)
        answer->length = 0;
    const size_t length = (size_t)answer->length;
    check(call, is_all(out->bytes + length, out->length - length, filled), "the room behind the length is as it was");
    memcpy(written, out->bytes, length);
    check(call, take_back(out), "nothing is written around the room");
}

/* Checks what two calls that write answered and wrote. */
static void judge_written(enum call call, const struct ardenquill_length_answer answers[2],
                          uint8_t written[2][LONGEST_LOAN])
{
    judge(call, &answers[0], sizeof answers[0]);
    check(call, SAME(answers[0], answers[1]), "asked again, the same");
    check(call, memcmp(written[0], written[1], (size_t)answers[0].length) == 0, "asked again, the same bytes");
}

/* What the bytes of the room of a call that writes are before the first call and before the second. */
static const uint8_t fillings[2] = {0xa5, 0x5a};

/* Writes a chain to so much room, and gives the bytes that were written. */
static struct ardenquill_length_answer call_write(const struct ardenquill_chain *chain, size_t room, uint8_t *bytes)
{
    static uint8_t written[2][LONGEST_LOAN];
    struct ardenquill_length_answer answers[2];
    struct ardenquill_chain handed = *chain;
    for (int i = 0; i < 2; i++) {
        const struct loan out = lend(&out_room, i == 0 ? AT_END : AT_START, room);
        memset(out.bytes, fillings[i], room);
        if (i == 1 && answers[0].number != 0)
            seal(&out);
        enter(WRITE);
        answers[i] = ardenquill_write(handed, out.bytes, room);
        take_written(WRITE, &out, fillings[i], &answers[i], written[i]);
        handed = flipped_chain(handed);
    }
    check(WRITE, SAME(handed, *chain), "the caller's chain is as it was");
    judge_written(WRITE, answers, written);
    memcpy(bytes, written[0], (size_t)answers[0].length);
    return answers[0];
}

/* Reports on a file to so much room, and gives the bytes that were written. */
static struct ardenquill_length_answer call_report(const uint8_t *file, size_t length, size_t room, uint8_t *bytes)
{
    static uint8_t written[2][LONGEST_LOAN];
    struct ardenquill_length_answer answers[2];
    for (int i = 0; i < 2; i++) {
        const struct loan lent = lend(&file_room, i == 0 ? AT_END : AT_START, length);
        const struct loan out = lend(&out_room, i == 0 ? AT_END : AT_START, room);
        memcpy(lent.bytes, file, length);
        memset(out.bytes, fillings[i], room);
        if (i == 1)
            seal(&lent);
        if (i == 1 && answers[0].number != 0)
            seal(&out);
        enter(REPORT);
        answers[i] = ardenquill_report(lent.bytes, length, out.bytes, room);
        check(REPORT, memcmp(lent.bytes, file, length) == 0, "the file is as it was");
        check(REPORT, take_back(&lent), "nothing is written around the file");
        take_written(REPORT, &out, fillings[i], &answers[i], written[i]);
    }
    judge_written(REPORT, answers, written);
    memcpy(bytes, written[0], (size_t)answers[0].length);
    return answers[0];
}

/* Asks for a factory chain. */
static struct ardenquill_chain_answer call_factory(uint32_t number)
{
    enter(FACTORY);
    struct ardenquill_chain_answer answer = ardenquill_factory(number);
    enter(FACTORY);
    struct ardenquill_chain_answer again = ardenquill_factory(number);
    judge(FACTORY, &answer, sizeof answer);
    check(FACTORY, SAME(answer, again), "asked again, the same");
    return answer;
}

/* Defines the function call_NAME, which makes the call ardenquill_NAME on a chain, and again with the chain's slots
 * past n flipped. The arguments name the chain `handed`. */
#define CALL_ON_CHAIN(CALL, NAME, ANSWER, PARAMETERS, ARGUMENTS)                         \
    static struct ANSWER call_##NAME PARAMETERS                                          \
    {                                                                                    \
        struct ardenquill_chain handed = *chain;                                         \
        enter(CALL);                                                                     \
        struct ANSWER answer = ardenquill_##NAME ARGUMENTS;                              \
        handed = flipped_chain(handed);                                                  \
        enter(CALL);                                                                     \
        struct ANSWER again = ardenquill_##NAME ARGUMENTS;                               \
        handed = flipped_chain(handed);                                                  \
        judge(CALL, &answer, sizeof answer);                                             \
        check(CALL, SAME(handed, *chain), "the caller's chain is as it was");            \
        check(CALL, SAME(answer, again), "asked again with other slots past n, the same"); \
        return answer;                                                                   \
    }

CALL_ON_CHAIN(ANALYSE, analyse, ardenquill_analysis_answer, (const struct ardenquill_chain *chain), (handed))
CALL_ON_CHAIN(FRESH, fresh, ardenquill_run_answer, (const struct ardenquill_chain *chain), (handed))
CALL_ON_CHAIN(IMMEDIATE, immediate, ardenquill_run_answer, (const struct ardenquill_chain *chain, uint32_t k),
              (handed, k))
CALL_ON_CHAIN(DEADLINE, deadline, ardenquill_deadline_answer,
              (const struct ardenquill_chain *chain, uint32_t node, uint32_t index), (handed, node, index))
CALL_ON_CHAIN(DEADLINE_RUN, deadline_run, ardenquill_outcome_run,
              (const struct ardenquill_chain *chain, uint32_t ticks), (handed, ticks))

/* Fires a node. Slots past n come back as they were, so that flipped they come back flipped. */
static struct ardenquill_run_answer call_fire(const struct ardenquill_chain *chain, const struct ardenquill_run *run,
                                              uint32_t node)
{
    struct ardenquill_chain handed = *chain;
    struct ardenquill_run handed_run = *run;
    enter(FIRE);
    struct ardenquill_run_answer answer = ardenquill_fire(handed, handed_run, node);
    handed = flipped_chain(handed);
    handed_run = flipped_run(chain->n, handed_run);
    enter(FIRE);
    struct ardenquill_run_answer again = ardenquill_fire(handed, handed_run, node);
    handed = flipped_chain(handed);
    handed_run = flipped_run(chain->n, handed_run);
    again.run = flipped_run(chain->n, again.run);
    judge_refusal(FIRE, REFUSAL_OF(answer));
    check(FIRE, answer.number == 0 || SAME(answer.run, *run), "refused, the state comes back as it was");
    check(FIRE, SAME(handed, *chain) && SAME(handed_run, *run), "the caller's chain and state are as they were");
    check(FIRE, SAME(answer, again), "asked again with other slots past n, the same");
    return answer;
}

/* Lends a chain and a run state at one side of their rooms, the state sealed where it is to stay, and makes a tick. */
static struct ardenquill_outcome_run tick_lent(const struct ardenquill_chain *chain, const struct ardenquill_run *run,
                                               enum side side, int stays)
{
    const struct loan chain_loan = lend(&chain_room, side, sizeof *chain);
    const struct loan run_loan = lend(&run_room, side, sizeof *run);
    struct ardenquill_chain *lent = (void *)chain_loan.bytes;
    struct ardenquill_run *lent_run = (void *)run_loan.bytes;
    *lent = *chain;
    *lent_run = *run;
    if (side == AT_START)
        seal(&chain_loan);
    if (stays)
        seal(&run_loan);
    enter(TICK);
    const struct ardenquill_outcome left = ardenquill_tick(lent, lent_run);
    struct ardenquill_outcome_run answer = {left.number, left.place, left.kind, left.tick, left.at, *lent_run};
    check(TICK, SAME(*lent, *chain), "the chain is as it was");
    check(TICK, take_back(&chain_loan), "nothing is written around the chain");
    check(TICK, take_back(&run_loan), "nothing is written around the state");
    return answer;
}

/* Makes a tick. Slots past n are left as they were, so that flipped they are left flipped. */
static struct ardenquill_outcome_run call_tick(const struct ardenquill_chain *chain, const struct ardenquill_run *run)
{
    const struct ardenquill_chain other = flipped_chain(*chain);
    const struct ardenquill_run other_run = flipped_run(chain->n, *run);
    struct ardenquill_outcome_run answer = tick_lent(chain, run, AT_END, 0);
    const int stays = answer.number != 0 || answer.kind != ARDENQUILL_CLEAN;
    struct ardenquill_outcome_run again = tick_lent(&other, &other_run, AT_START, stays);
    again.run = flipped_run(chain->n, again.run);
    judge_refusal(TICK, REFUSAL_OF(answer));
    judge_kind(TICK, REFUSAL_OF(answer), answer.kind);
    check(TICK, answer.number == 0 || (answer.kind == 0 && answer.tick == 0 && answer.at == 0),
          "refused, all other results are zero");
    check(TICK, answer.number == 0 || SAME(answer.run, *run), "refused, the state is as it was");
    check(TICK, SAME(answer, again), "asked again with other slots past n, the same");
    return answer;
}

CALL_ON_CHAIN(RECORDING_RUN, recording_run, ardenquill_recording,
              (const struct ardenquill_chain *chain, uint32_t ticks), (handed, ticks))

/* What a recording tick leaves as it was, by its answer: state and list, or the list alone. */
enum staying { NOTHING_STAYS, LIST_STAYS, BOTH_STAY };

/* What a recording tick that gave this answer has left of a list of so many entries. */
static enum staying staying_of(const struct ardenquill_recording *answer, uint32_t before)
{
    if (answer->number != 0 || answer->kind == ARDENQUILL_NO_DEADLINE ||
        (answer->kind == ARDENQUILL_LIST_FULL && answer->at == 0))
        return BOTH_STAY;
    return answer->losses.count == before ? LIST_STAYS : NOTHING_STAYS;
}

/* Lends a chain, a run state and a list at one side of their rooms, sealed what is to stay, and makes a recording
 * tick. */
static struct ardenquill_recording record_lent(const struct ardenquill_chain *chain, const struct ardenquill_run *run,
                                               const struct ardenquill_losses *losses, enum side side,
                                               enum staying staying)
{
    const struct loan chain_loan = lend(&chain_room, side, sizeof *chain);
    const struct loan run_loan = lend(&run_room, side, sizeof *run);
    const struct loan losses_loan = lend(&losses_room, side, sizeof *losses);
    memcpy(chain_loan.bytes, chain, sizeof *chain);
    memcpy(run_loan.bytes, run, sizeof *run);
    memcpy(losses_loan.bytes, losses, sizeof *losses);
    if (side == AT_START)
        seal(&chain_loan);
    if (staying == BOTH_STAY)
        seal(&run_loan);
    if (staying != NOTHING_STAYS)
        seal(&losses_loan);
    enter(RECORDING_TICK);
    const struct ardenquill_outcome left = ardenquill_recording_tick(
        (void *)chain_loan.bytes, (void *)run_loan.bytes, (void *)losses_loan.bytes);
    struct ardenquill_recording answer = {.number = left.number, .place = left.place, .kind = left.kind,
                                          .tick = left.tick, .at = left.at};
    memcpy(&answer.run, run_loan.bytes, sizeof answer.run);
    memcpy(&answer.losses, losses_loan.bytes, sizeof answer.losses);
    check(RECORDING_TICK, memcmp(chain_loan.bytes, chain, sizeof *chain) == 0, "the chain is as it was");
    check(RECORDING_TICK, take_back(&chain_loan), "nothing is written around the chain");
    check(RECORDING_TICK, take_back(&run_loan), "nothing is written around the state");
    check(RECORDING_TICK, take_back(&losses_loan), "nothing is written around the list");
    return answer;
}

/* Checks what a recording tick leaves of what it was lent. */
static void judge_recording(const struct ardenquill_recording *answer, const struct ardenquill_run *run,
                            const struct ardenquill_losses *losses)
{
    const enum staying staying = staying_of(answer, losses->count);
    judge_refusal(RECORDING_TICK, REFUSAL_OF(*answer));
    judge_kind(RECORDING_TICK, REFUSAL_OF(*answer), answer->kind);
    check(RECORDING_TICK, answer->number == 0 || (answer->kind == 0 && answer->tick == 0 && answer->at == 0),
          "refused, all other results are zero");
    check(RECORDING_TICK, staying != BOTH_STAY || SAME(answer->run, *run),
          "refused, without a deadline or with the list full at the source, the state is as it was");
    check(RECORDING_TICK, staying == NOTHING_STAYS || SAME(answer->losses, *losses),
          "where nothing is lost, the list is as it was");
    check(RECORDING_TICK, answer->number != 0 || answer->losses.count - losses->count <= 2,
          "no more than two are lost");
}

/* Makes a recording tick. Slots past n, and the list's from its new count on, are left as they were, so that flipped
 * they are left flipped. */
static struct ardenquill_recording call_recording_tick(const struct ardenquill_chain *chain,
                                                       const struct ardenquill_run *run,
                                                       const struct ardenquill_losses *losses)
{
    const struct ardenquill_chain other = flipped_chain(*chain);
    const struct ardenquill_run other_run = flipped_run(chain->n, *run);
    const struct ardenquill_losses other_losses = flipped_losses(losses->count, *losses);
    struct ardenquill_recording answer = record_lent(chain, run, losses, AT_END, NOTHING_STAYS);
    struct ardenquill_recording again =
        record_lent(&other, &other_run, &other_losses, AT_START, staying_of(&answer, losses->count));
    again.run = flipped_run(chain->n, again.run);
    again.losses = flipped_losses(again.losses.count, again.losses);
    judge_recording(&answer, run, losses);
    check(RECORDING_TICK, SAME(answer, again), "asked again with other slots past n and past the entries, the same");
    return answer;
}

#endif
