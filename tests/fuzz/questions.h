/* A question is an input for every call. What the calls answer to one question must fit together: the properties here
 * are those of the header's wording that need no second implementation. */
#ifndef FUZZ_QUESTIONS_H
#define FUZZ_QUESTIONS_H

#include "../heading.h"
#include "calls.h"

/* The longest deadline run that is made again tick by tick. */
#define MOST_TICKS 48

/* The most ticks of a deadline run, and the most firings of a node in an immediate run. */
#define LONGEST_RUN 1000000

struct question {
    struct ardenquill_chain chain;
    struct ardenquill_run run;
    struct ardenquill_losses losses;
    uint8_t file[LONGEST_LOAN];
    size_t file_length, room;
    uint32_t factory, node, index, k, ticks;
};

/* Whether two refusals are the same. */
static int alike(struct refusal one, struct refusal other)
{
    return one.number == other.number && one.place == other.place;
}

/* Checks that a call is refused with what its first checks, which are those of another call, say, and with none of
 * their numbers where they say nothing. */
static void check_first(enum call call, struct refusal got, struct refusal first, uint32_t numbers)
{
    if (first.number != 0)
        check(call, alike(got, first), "the checks of the chain speak first");
    else
        check(call, !is_one_of(got.number, numbers), "the checks of the chain say the same in every call");
}

/* A chain with zeros in its slots past n. */
static struct ardenquill_chain trimmed(struct ardenquill_chain chain)
{
    for (uint32_t i = chain.n; i < ARDENQUILL_MAX_QUEUES; i++) {
        memset(&chain.queues[i], 0, sizeof chain.queues[i]);
        chain.work[i] = 0;
    }
    return chain;
}

/* Whether the slots past n of a run state are zero. */
static int is_trimmed_run(uint32_t n, const struct ardenquill_run *run)
{
    for (uint32_t i = n; i < ARDENQUILL_MAX_QUEUES; i++)
        if (run->counts[i + 1] != 0 || run->held[i] != 0 || run->done[i] != 0)
            return 0;
    return 1;
}

/* Checks that a written chain has the length of its packed file and is read again. */
static void check_read_again(const struct ardenquill_chain *chain, struct ardenquill_length_answer written,
                             const uint8_t *packed)
{
    const struct ardenquill_chain due = trimmed(*chain);
    check(WRITE, written.length == ARDENQUILL_PACKED_LENGTH(chain->n), "the length is that of the packed file");
    struct ardenquill_chain_answer again = call_read(packed, (size_t)written.length);
    check(READ, again.number == 0 && SAME(again.chain, due), "what was written is read again");
}

/* Checks that a file's report of so many bytes needs exactly that room. */
static void try_report_rooms(const struct question *q, const uint8_t *text, size_t length)
{
    const size_t rooms[] = {length, length - 1, q->room};
    uint8_t bytes[LONGEST_LOAN];
    for (int i = 0; i < 3; i++) {
        struct ardenquill_length_answer answer = call_report(q->file, q->file_length, rooms[i], bytes);
        if (rooms[i] < length)
            check(REPORT, answer.number == ARDENQUILL_NO_ROOM && answer.place == length,
                  "too little room is refused with the length");
        else
            check(REPORT, answer.length == length && memcmp(bytes, text, length) == 0,
                  "in any room that is enough the report is the same");
    }
}

/* Checks that a report has its first line, a line for each queue and the last. */
static void check_lines(const uint8_t *text, size_t length, uint32_t n)
{
    const size_t heading = strlen(REPORT_HEADING);
    uint32_t lines = 0;
    for (size_t i = 0; i < length; i++)
        lines += text[i] == '\n';
    check(REPORT, length > heading && memcmp(text, REPORT_HEADING, heading) == 0, "the report has its first line");
    check(REPORT, lines == n + 2 && text[length - 1] == '\n', "the report has n + 2 lines");
}

/* Tries what follows from a file that is read: the chain is written and read again, and file, chain and written file
 * are of one opinion. */
static void try_accepted_file(const struct question *q, const struct ardenquill_chain *chain,
                              struct ardenquill_length_answer report, const uint8_t *text)
{
    const struct ardenquill_chain due = trimmed(*chain);
    uint8_t packed[LONGEST_LOAN], text_again[LONGEST_LOAN];
    check(READ, SAME(*chain, due), "a chain that was read has zeros past n");
    struct ardenquill_length_answer written = call_write(chain, sizeof packed, packed);
    check(WRITE, written.number == 0, "what was read is written");
    check_read_again(chain, written, packed);

    struct ardenquill_length_answer again =
        call_report(packed, (size_t)written.length, ARDENQUILL_MAX_REPORT_LENGTH, text_again);
    check(REPORT, SAME(again, report) && memcmp(text_again, text, (size_t)report.length) == 0,
          "file and written file have one report");
    struct ardenquill_analysis_answer analysed = call_analyse(chain);
    check(REPORT, report.number == analysed.number && report.place == analysed.place,
          "report and analysis refuse alike");
    if (report.number == 0) {
        check_lines(text, (size_t)report.length, chain->n);
        try_report_rooms(q, text, (size_t)report.length);
    }
}

/* Tries reading and the report on the question's file. */
static void try_file(const struct question *q)
{
    uint8_t text[LONGEST_LOAN];
    struct ardenquill_chain_answer read = call_read(q->file, q->file_length);
    struct ardenquill_length_answer report =
        call_report(q->file, q->file_length, ARDENQUILL_MAX_REPORT_LENGTH, text);
    check_first(REPORT, REFUSAL_OF(report), REFUSAL_OF(read), OF_FILE);
    check(REPORT, report.number != ARDENQUILL_NO_ROOM, "the longest report's room is always enough");
    if (read.number == 0)
        try_accepted_file(q, &read.chain, report, text);
    else
        call_report(q->file, q->file_length, q->room, text);
}

/* Tries a factory chain: it is written, and 14 names the number asked. */
static void try_factory(uint32_t number)
{
    uint8_t packed[LONGEST_LOAN];
    struct ardenquill_chain_answer made = call_factory(number);
    check(FACTORY, (made.number != 0) == (number > 2), "there are three factory chains");
    if (made.number != 0)
        check(FACTORY, made.place == number, "14's place is the number asked");
    else
        check_read_again(&made.chain, call_write(&made.chain, sizeof packed, packed), packed);
}

/* Tries the writer, which checks the record as the analysis does, in ample room and in the question's. */
static void try_write(const struct question *q, struct refusal analysed)
{
    const size_t rooms[] = {LONGEST_LOAN, q->room}, needed = ARDENQUILL_PACKED_LENGTH((size_t)q->chain.n);
    const int refused = is_one_of(analysed.number, OF_RECORD);
    const struct refusal none = {0, 0};
    uint8_t packed[LONGEST_LOAN];
    for (int i = 0; i < 2; i++) {
        struct ardenquill_length_answer written = call_write(&q->chain, rooms[i], packed);
        check_first(WRITE, REFUSAL_OF(written), refused ? analysed : none, OF_RECORD);
        if (refused)
            continue;
        if (rooms[i] < needed)
            check(WRITE, written.number == ARDENQUILL_NO_ROOM && written.place == needed,
                  "too little room is refused with the length");
        else
            check_read_again(&q->chain, written, packed);
    }
}

/* Checks an analysis that is not refused against its chain and within itself. */
static void check_analysis(const struct ardenquill_chain *chain, const struct ardenquill_analysis *analysis)
{
    check(ANALYSE, analysis->n == chain->n, "n is the chain's");
    check(ANALYSE, analysis->busy <= analysis->cycle, "the load is at most 1");
    check(ANALYSE, analysis->cycle == analysis->queues[chain->n - 1].y, "the cycle is the sink's y");
    for (uint32_t i = 0; i < ARDENQUILL_MAX_QUEUES; i++) {
        const struct ardenquill_queue_size *size = &analysis->queues[i];
        const uint32_t written = chain->queues[i].capacity;
        if (i >= chain->n)
            check(ANALYSE, is_all((const uint8_t *)size, sizeof *size, 0), "the slots past n are zero");
        else
            check(ANALYSE,
                  size->capacity == (written == 0 ? size->minimum : written) &&
                      size->margin == (int32_t)size->capacity - (int32_t)size->minimum,
                  "capacity and margin fit the minimum");
    }
}

/* What every run refuses a chain with: what the analysis does, or 8 at the lowest queue with a negative margin, which
 * an analysis that is refused has none of. */
static struct refusal refusal_of_run(const struct ardenquill_analysis_answer *analysed)
{
    for (uint32_t i = 0; i < analysed->analysis.n; i++)
        if (analysed->analysis.queues[i].margin < 0)
            return (struct refusal){ARDENQUILL_BELOW_MINIMUM, i};
    return REFUSAL_OF(*analysed);
}

/* Checks that a state passes 17, in manual firing and in a tick. */
static void check_steady(enum call call, const struct question *q, const struct ardenquill_run *run)
{
    check(call, call_fire(&q->chain, run, q->node).number != ARDENQUILL_BAD_RUN, "manual firing takes the state left");
    check(call, call_tick(&q->chain, run).number != ARDENQUILL_BAD_RUN, "a tick takes the state left");
}

/* A state after a firing that was accepted. */
static struct ardenquill_run fired(const struct ardenquill_chain *chain, struct ardenquill_run run, uint32_t node)
{
    run.counts[node]++;
    if (node < chain->n)
        run.held[node] += chain->queues[node].produce;
    if (node > 0)
        run.held[node - 1] -= chain->queues[node - 1].consume;
    return run;
}

/* Tries manual firing. */
static void try_fire(const struct question *q, struct refusal analysed)
{
    struct ardenquill_run_answer answer = call_fire(&q->chain, &q->run, q->node);
    check_first(FIRE, REFUSAL_OF(answer), analysed, OF_ANALYSIS);
    if (answer.number == ARDENQUILL_BAD_RUN)
        check(FIRE, answer.place < q->chain.n, "17 names a queue");
    else if (answer.number > ARDENQUILL_BELOW_MINIMUM)
        check(FIRE, answer.place == q->node, "9, 11 and 12 name the node asked or the queue behind it");
    else if (answer.number == 0) {
        const struct ardenquill_run due = fired(&q->chain, q->run, q->node);
        check(FIRE, SAME(answer.run, due), "a firing counts, puts in and takes out, and leaves all else");
        check_steady(FIRE, q, &answer.run);
    }
}

/* Tries the immediate run. */
static void try_immediate(const struct question *q, struct refusal first)
{
    struct ardenquill_run_answer answer = call_immediate(&q->chain, q->k);
    const struct ardenquill_run *run = &answer.run;
    check_first(IMMEDIATE, REFUSAL_OF(answer), first, OF_RUN);
    if (answer.number != 0)
        return;
    check(IMMEDIATE, run->counts[0] == q->k && run->clock == 0, "the source has fired k times at clock 0");
    check(IMMEDIATE, is_trimmed_run(q->chain.n, run), "the slots past n are zero");
    for (uint32_t i = 0; i < q->chain.n; i++)
        check(IMMEDIATE, run->held[i] < q->chain.queues[i].threshold && run->done[i] == 0,
              "every queue is below its threshold, and no work is done");
    check_steady(IMMEDIATE, q, run);
}

/* Tries the deadline question, for the index asked and for the one before. */
static void try_deadline(const struct question *q, struct refusal first)
{
    struct ardenquill_deadline_answer answer = call_deadline(&q->chain, q->node, q->index);
    const int none = q->node > q->chain.n || q->index == 0;
    check_first(DEADLINE, REFUSAL_OF(answer), first, OF_RUN);
    if (first.number != 0)
        return;
    check(DEADLINE, (answer.number == ARDENQUILL_CANNOT_FIRE) == none, "11 is said of no node and of no index alone");
    if (answer.number == ARDENQUILL_CANNOT_FIRE)
        check(DEADLINE, answer.place == q->node, "11's place is the node asked");
    if (answer.number == ARDENQUILL_INDEX_TOO_LARGE)
        check(DEADLINE, answer.place < q->node, "13's place is a node on the way");
    if (answer.number == 0 && q->index > 1) {
        struct ardenquill_deadline_answer before = call_deadline(&q->chain, q->node, q->index - 1);
        check(DEADLINE, before.number == 0 && before.due <= answer.due, "an earlier firing is due no later");
    }
}

/* Makes the question's run, which was not refused, again as ticks from a fresh start, if it is short, and asks for its
 * outcome again by one tick more, if it was not clean. */
static void try_run_by_ticks(const struct question *q, const struct ardenquill_outcome_run *run)
{
    struct ardenquill_outcome_run last;
    memset(&last, 0, sizeof last);
    for (uint32_t i = 0; q->ticks <= MOST_TICKS && i < q->ticks && last.number == 0 && last.kind == 0; i++)
        last = call_tick(&q->chain, &last.run);
    check(DEADLINE_RUN, q->ticks > MOST_TICKS || SAME(last, *run), "a run is its ticks, one after the other");
    if (run->kind == ARDENQUILL_CLEAN)
        return;
    last = call_tick(&q->chain, &run->run);
    check(DEADLINE_RUN, SAME(last, *run), "a tick more has the run's outcome again");
}

/* Tries the deadline run. */
static void try_deadline_run(const struct question *q, struct refusal first)
{
    struct ardenquill_outcome_run answer = call_deadline_run(&q->chain, q->ticks);
    check_first(DEADLINE_RUN, REFUSAL_OF(answer), first, OF_RUN);
    judge_kind(DEADLINE_RUN, REFUSAL_OF(answer), answer.kind);
    if (first.number == 0)
        check(DEADLINE_RUN, (answer.number == ARDENQUILL_TOO_LONG) == (q->ticks > LONGEST_RUN),
              "9 is said of more than 1,000,000 ticks alone");
    if (answer.number != 0)
        return;
    if (answer.kind == ARDENQUILL_CLEAN)
        check(DEADLINE_RUN, answer.run.clock == q->ticks && answer.tick == 0 && answer.at == 0,
              "a clean run goes to its end");
    else
        check(DEADLINE_RUN, answer.run.clock == answer.tick && answer.tick < q->ticks,
              "the clock stops at the outcome");
    check(DEADLINE_RUN, answer.kind != ARDENQUILL_OVERFLOWED || answer.at == 0, "the source's queue alone overflows");
    check(DEADLINE_RUN, is_trimmed_run(q->chain.n, &answer.run), "the slots past n are zero");
    check_steady(DEADLINE_RUN, q, &answer.run);
    try_run_by_ticks(q, &answer);
}

/* Tries a tick, whose 17 is manual firing's. */
static void try_tick(const struct question *q, struct refusal first)
{
    struct ardenquill_outcome_run answer = call_tick(&q->chain, &q->run);
    check_first(TICK, REFUSAL_OF(answer), first, OF_RUN);
    if (first.number != 0)
        return;
    struct ardenquill_run_answer fire = call_fire(&q->chain, &q->run, q->node);
    const int damaged = fire.number == ARDENQUILL_BAD_RUN;
    check(TICK, damaged ? alike(REFUSAL_OF(answer), REFUSAL_OF(fire)) : answer.number != ARDENQUILL_BAD_RUN,
          "17 is said as in manual firing");
    if (answer.number != 0)
        return;
    if (answer.kind == ARDENQUILL_CLEAN) {
        check(TICK, answer.run.clock == q->run.clock + 1 && answer.tick == 0 && answer.at == 0,
              "a clean tick moves the clock by one");
        check_steady(TICK, q, &answer.run);
    } else {
        check(TICK, SAME(answer.run, q->run) && answer.tick == q->run.clock, "an outcome leaves the state as it was");
        check(TICK, answer.kind != ARDENQUILL_OVERFLOWED || answer.at == 0, "the source's queue alone overflows");
    }
}

/* Whether each queue's producer has put in what was taken out, what is held and what was lost. */
static int is_balanced(const struct ardenquill_chain *chain, const struct ardenquill_recording *recording)
{
    const struct ardenquill_losses *losses = &recording->losses;
    for (uint32_t i = 0; i < chain->n; i++) {
        uint64_t due = (uint64_t)chain->queues[i].consume * recording->run.counts[i + 1] + recording->run.held[i];
        for (uint32_t k = 0; k < losses->count; k++)
            due += losses->entries[k].queue == i ? losses->entries[k].tokens : 0;
        if (due != (uint64_t)chain->queues[i].produce * recording->run.counts[i])
            return 0;
    }
    return 1;
}

/* Checks what a recording tick or run that was not refused has left: the balance, and new entries that have the
 * produce of their queue and one of the two ticks of an instant. */
static void check_recorded(enum call call, const struct question *q, const struct ardenquill_recording *left,
                           uint32_t before)
{
    check(call, is_balanced(&q->chain, left), "tokens put in are taken out, held or lost");
    for (uint32_t k = before; k < left->losses.count; k++) {
        const struct ardenquill_loss *loss = &left->losses.entries[k];
        check(call, loss->queue < q->chain.n && loss->tokens == q->chain.queues[loss->queue].produce,
              "what is lost is a queue's produce");
        check(call, loss->tick <= left->run.clock, "what is lost was lost by now");
    }
}

/* Checks what a recording tick says when it is asked again of what it has left: where it was not clean the same, or 17
 * where a firing was stopped as it finished, at the queue before its node. */
static void check_recorded_again(enum call call, const struct question *q, const struct ardenquill_recording *left)
{
    const struct ardenquill_recording again = call_recording_tick(&q->chain, &left->run, &left->losses);
    if (left->kind == ARDENQUILL_LIST_FULL && left->at > 0)
        check(call, again.number == ARDENQUILL_BAD_RUN && again.place == left->at - 1,
              "17 refuses what a full list at a finish leaves");
    else if (left->kind != ARDENQUILL_CLEAN)
        check(call, SAME(again, *left), "a recording tick more has the outcome again");
    else
        check(call, again.number != ARDENQUILL_BAD_RUN, "a recording tick takes what was left");
}

/* Makes the question's recording run, which was not refused, again as ticks from a fresh start, if it is short. */
static void try_recording_by_ticks(const struct question *q, const struct ardenquill_recording *run)
{
    static struct ardenquill_recording last;
    if (q->ticks > MOST_TICKS)
        return;
    memset(&last, 0, sizeof last);
    for (uint32_t i = 0; i < q->ticks && last.number == 0 && last.kind == 0; i++)
        last = call_recording_tick(&q->chain, &last.run, &last.losses);
    check(RECORDING_RUN, SAME(last, *run), "a recording run is its ticks, one after the other");
}

/* Tries the recording run, which is the deadline run as long as nothing is lost. */
static void try_recording_run(const struct question *q, struct refusal analysed)
{
    const struct ardenquill_recording answer = call_recording_run(&q->chain, q->ticks);
    check_first(RECORDING_RUN, REFUSAL_OF(answer), analysed, OF_ANALYSIS);
    judge_kind(RECORDING_RUN, REFUSAL_OF(answer), answer.kind);
    if (analysed.number == 0)
        check(RECORDING_RUN, (answer.number == ARDENQUILL_TOO_LONG) == (q->ticks > LONGEST_RUN),
              "9 is said of more than 1,000,000 ticks alone");
    if (answer.number != 0)
        return;
    const struct ardenquill_outcome_run plain = call_deadline_run(&q->chain, q->ticks);
    if (plain.number == 0 && plain.kind != ARDENQUILL_OVERFLOWED)
        check(RECORDING_RUN, memcmp(&answer, &plain, sizeof plain) == 0 && answer.losses.count == 0,
              "where the deadline run does not overflow it is that, without losses");
    check(RECORDING_RUN, answer.run.clock == (answer.kind == ARDENQUILL_CLEAN ? q->ticks : answer.tick),
          "the clock stops at the outcome");
    check(RECORDING_RUN, is_trimmed_run(q->chain.n, &answer.run), "the slots past n are zero");
    check(RECORDING_RUN,
          is_all((const uint8_t *)&answer.losses.entries[answer.losses.count],
                 (ARDENQUILL_MAX_LOSSES - answer.losses.count) * sizeof answer.losses.entries[0], 0),
          "the slots past the entries are zero");
    check_recorded(RECORDING_RUN, q, &answer, 0);
    check_recorded_again(RECORDING_RUN, q, &answer);
    try_recording_by_ticks(q, &answer);
}

/* Tries a recording tick, whose 17 is that of a tick where the list has no entries. */
static void try_recording_tick(const struct question *q, struct refusal analysed, struct refusal first)
{
    const struct ardenquill_recording answer = call_recording_tick(&q->chain, &q->run, &q->losses);
    check_first(RECORDING_TICK, REFUSAL_OF(answer), analysed, OF_ANALYSIS);
    if (analysed.number == 0 && q->losses.count > ARDENQUILL_MAX_LOSSES)
        check(RECORDING_TICK, answer.number == ARDENQUILL_BAD_RUN && answer.place == 0, "17 is said of a long list");
    if (first.number == 0 && q->losses.count == 0) {
        const struct ardenquill_outcome_run plain = call_tick(&q->chain, &q->run);
        check(RECORDING_TICK, alike(REFUSAL_OF(answer), REFUSAL_OF(plain)), "without losses it is refused as a tick");
        check(RECORDING_TICK, plain.kind == ARDENQUILL_OVERFLOWED || memcmp(&answer, &plain, sizeof plain) == 0,
              "where the tick does not overflow it is that");
    }
    if (answer.number != 0)
        return;
    check_recorded(RECORDING_TICK, q, &answer, q->losses.count);
    check_recorded_again(RECORDING_TICK, q, &answer);
    if (answer.kind == ARDENQUILL_CLEAN)
        check(RECORDING_TICK, answer.run.clock == q->run.clock + 1 && answer.tick == 0 && answer.at == 0,
              "a clean tick moves the clock by one");
    else
        check(RECORDING_TICK, answer.run.clock == answer.tick, "the clock stops at the outcome");
}

/* Makes every call on a question. */
static void try_question(const struct question *q)
{
    try_file(q);
    try_factory(q->factory);
    struct ardenquill_analysis_answer analysed = call_analyse(&q->chain);
    struct ardenquill_run_answer fresh = call_fresh(&q->chain);
    const struct refusal of_analysis = REFUSAL_OF(analysed), of_run = refusal_of_run(&analysed);
    check(FRESH, alike(REFUSAL_OF(fresh), of_analysis), "a fresh start is refused as the analysis is");
    if (analysed.number == 0)
        check_analysis(&q->chain, &analysed.analysis);
    try_write(q, of_analysis);
    try_fire(q, of_analysis);
    try_immediate(q, of_run);
    try_deadline(q, of_run);
    try_deadline_run(q, of_run);
    try_tick(q, of_run);
    try_recording_run(q, of_analysis);
    try_recording_tick(q, of_analysis, of_run);
}

#endif
