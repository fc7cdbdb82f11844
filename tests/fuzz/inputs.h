/* Makes questions: those of the opening, which together bring about every number and every outcome of every call, and
 * drawn ones, which begin with a chain that is accepted and are then damaged. All that is drawn comes from one stream
 * of choices: a seed's, or the bytes that a coverage-guided fuzzer hands in. */
#ifndef FUZZ_INPUTS_H
#define FUZZ_INPUTS_H

#include "questions.h"

/* Draws a number of so many bytes, at most 4, from the stream; each program has its own. No expression draws twice
 * where compilers may choose the order, so that a seed's choices are the same everywhere. */
static uint32_t draw(size_t length);

/* Draws a number below a limit, which is not 0. */
static uint32_t below(uint32_t limit)
{
    return draw(limit <= 256 ? 1 : 4) % limit;
}

/* Whether a chance of one in so many comes about. Choices that have run out bring about none. */
static int one_in(uint32_t odds)
{
    return below(odds) == odds - 1;
}

/* Draws any word, mostly one at an edge of a range or next to it. */
static uint32_t draw_word(void)
{
    static const uint32_t edges[] = {0,     1,     16,      17,      20,        4095,      4096,
                                     65535, 65536, 1000000, 1000001, INT32_MAX, UINT32_MAX};
    if (one_in(4))
        return draw(4);
    const uint32_t edge = edges[below(sizeof edges / sizeof edges[0])];
    return edge + below(3) - 1;
}

/* The word at a byte offset of a record or a file: both are little-endian, as the library's processor is. */
static uint32_t word_at(const void *bytes, size_t at)
{
    uint32_t word;
    memcpy(&word, (const uint8_t *)bytes + at, sizeof word);
    return word;
}

/* Puts a word there. */
static void put_word(void *bytes, size_t at, uint32_t word)
{
    memcpy((uint8_t *)bytes + at, &word, sizeof word);
}

/* A word changed: into any word, by one bit, or by one. */
static uint32_t changed(uint32_t word)
{
    switch (below(4)) {
    case 0:
        return word + 1;
    case 1:
        return word - 1;
    case 2:
        return word ^ UINT32_C(1) << below(32);
    default:
        return draw_word();
    }
}

/* Changes some words of a record or a file of so many bytes. */
static void damage(void *bytes, size_t length)
{
    for (uint32_t times = 1 + below(3); times > 0; times--) {
        const size_t at = 4 * below((uint32_t)(length / 4));
        put_word(bytes, at, changed(word_at(bytes, at)));
    }
}

/* Where in a chain file the header's words are that say where the queue table is, and how long the file is. */
#define QUEUE_TABLE_AT 8
#define TOTAL_AT 16

/* The rows that a chain has room for: n, or 16 where it is more. */
static uint32_t rows_of(const struct ardenquill_chain *chain)
{
    return chain->n < ARDENQUILL_MAX_QUEUES ? chain->n : ARDENQUILL_MAX_QUEUES;
}

/* Makes the question's file: its chain with the tables at these offsets, in so many bytes. */
static void lay_out(struct question *q, size_t queues_at, size_t work_at, size_t length)
{
    const uint32_t header[] = {q->chain.n, q->chain.period, (uint32_t)queues_at, (uint32_t)work_at, (uint32_t)length};
    memcpy(q->file, header, sizeof header);
    memcpy(q->file + queues_at, q->chain.queues, rows_of(&q->chain) * sizeof q->chain.queues[0]);
    memcpy(q->file + work_at, q->chain.work, rows_of(&q->chain) * sizeof q->chain.work[0]);
    q->file_length = length;
}

/* The same, packed. */
static void pack(struct question *q)
{
    const size_t rows = rows_of(&q->chain);
    lay_out(q, ARDENQUILL_MIN_FILE_LENGTH, ARDENQUILL_MIN_FILE_LENGTH + 20 * rows, ARDENQUILL_PACKED_LENGTH(rows));
}

/* The questions of the opening: each changes Feed's question into one that some call answers with the number, or the
 * outcome, in the comment above it. */

/* 1. */
static void open_short_file(struct question *q)
{
    pack(q);
    q->file_length--;
}

/* 2. */
static void open_no_queue(struct question *q)
{
    q->chain.n = 0;
}

/* 3. */
static void open_table_in_header(struct question *q)
{
    pack(q);
    put_word(q->file, QUEUE_TABLE_AT, ARDENQUILL_MIN_FILE_LENGTH - 4);
}

/* 4. */
static void open_no_period(struct question *q)
{
    q->chain.period = 0;
}

/* 5. */
static void open_consume_above(struct question *q)
{
    q->chain.queues[0].consume = q->chain.queues[0].threshold + 1;
}

/* 6: the sink's y is 65,521,000,000. */
static void open_large_rate(struct question *q)
{
    q->chain.period = 1000000;
    q->chain.queues[0] = (struct ardenquill_queue){1, 65521, 65521, 0, 0};
}

/* 7: 32 ticks of work in a cycle of 30. */
static void open_overload(struct question *q)
{
    q->chain.work[0] = 8;
}

/* 8: the minimum is 10. */
static void open_small_capacity(struct question *q)
{
    q->chain.queues[0].capacity = 9;
}

/* 9, of both runs and of a tick's clock. */
static void open_too_long(struct question *q)
{
    q->k = q->ticks = q->run.clock = LONGEST_RUN + 1;
}

/* 9, of the counts of manual firing and of a tick. */
static void open_last_count(struct question *q)
{
    q->chain.queues[0] = (struct ardenquill_queue){3, 3, 3, 0, 0};
    q->run.counts[0] = q->run.counts[1] = UINT32_MAX;
}

/* 10. */
static void open_no_room(struct question *q)
{
    q->room = 0;
}

/* 11. */
static void open_no_node(struct question *q)
{
    q->node = q->chain.n + 1;
}

/* 12: a queue of 10 holds 8, and the source puts in 4. */
static void open_full_queue(struct question *q)
{
    q->run.counts[0] = 2;
    q->run.held[0] = 8;
}

/* 13, and no deadline: the sink's first firing asks for N_1's of index 1,000,001, and that for one of the source whose
 * index is too large. */
static void open_far_ahead(struct question *q)
{
    q->chain.n = q->node = 2;
    q->chain.period = q->chain.work[0] = q->chain.work[1] = 1;
    q->chain.queues[0] = (struct ardenquill_queue){1, 4295, 4295, 0, 0};
    q->chain.queues[1] = (struct ardenquill_queue){1, 1, 1, 1000000, 0};
    q->run.clock = q->run.counts[0] = 4295;
    q->run.counts[1] = q->run.held[1] = 1;
    q->ticks = 4296;
}

/* 14. */
static void open_no_factory_chain(struct question *q)
{
    q->factory = 3;
}

/* 17. */
static void open_damaged_run(struct question *q)
{
    q->run.held[0] = 1;
}

/* List full, of a tick at the source and of a run: each production of the source is dropped. */
static void open_full_list(struct question *q)
{
    q->chain.queues[0].capacity = 3;
    q->losses.count = ARDENQUILL_MAX_LOSSES;
    q->ticks = 2571;
}

/* List full, of a tick whose source has lost in the last slot as a firing finishes. */
static void open_full_at_finish(struct question *q)
{
    q->chain.n = 2;
    q->chain.queues[0] = (struct ardenquill_queue){5, 5, 5, 0, 0};
    q->chain.queues[1] = (struct ardenquill_queue){7, 14, 7, 6, 0};
    q->chain.work[0] = q->chain.work[1] = 1;
    q->run.counts[0] = 2;
    q->run.held[0] = 5;
    q->losses.count = ARDENQUILL_MAX_LOSSES - 1;
    q->losses.entries[0].tokens = 5;
}

/* No deadline as the source's production is dropped: 13 takes the loss back. */
static void open_far_ahead_full(struct question *q)
{
    open_far_ahead(q);
    q->run.clock = 4295;
    q->run.counts[0] = 2 * 4295;
    q->run.held[0] = 4295;
    q->ticks = 1;
}

/* 17, of a list that is too long. */
static void open_long_list(struct question *q)
{
    q->losses.count = ARDENQUILL_MAX_LOSSES + 1;
}

/* 17, of an entry that names no queue. */
static void open_stray_entry(struct question *q)
{
    q->losses.count = 1;
    q->losses.entries[0].queue = q->chain.n;
}

/* Overflowed, at tick 40. */
static void open_overflow(struct question *q)
{
    q->chain.work[0] = 7;
    q->run.clock = 40;
    q->run.counts[0] = 4;
    q->run.counts[1] = 3;
    q->run.held[0] = 7;
    q->ticks = 41;
}

static void (*const openings[])(struct question *) = {
    open_short_file,  open_no_queue, open_table_in_header, open_no_period, open_consume_above,
    open_large_rate,  open_overload, open_small_capacity,  open_too_long,  open_last_count,
    open_no_room,     open_no_node,  open_full_queue,      open_far_ahead, open_no_factory_chain,
    open_damaged_run, open_overflow, open_full_list,       open_full_at_finish, open_far_ahead_full,
    open_long_list,   open_stray_entry,
};
#define OPENINGS (sizeof openings / sizeof openings[0])

/* Makes a question of the opening. One that has made its file keeps it. */
static void open_question(struct question *q, size_t opening)
{
    memset(q, 0, sizeof *q);
    q->chain = call_factory(0).chain;
    q->room = LONGEST_LOAN;
    q->index = q->k = q->ticks = 1;
    openings[opening](q);
    if (q->file_length == 0)
        pack(q);
}

/* Draws a queue whose numbers are at most so large, mostly one that has as many tokens put in as taken out. */
static struct ardenquill_queue draw_queue(uint32_t most)
{
    struct ardenquill_queue queue = {0, 0, 0, 0, 0};
    queue.produce = 1 + below(most);
    queue.consume = one_in(4) ? 1 + below(most) : queue.produce;
    queue.threshold = queue.consume + below(most + 1 - queue.consume);
    if (one_in(4))
        queue.capacity = queue.produce + queue.threshold + below(queue.threshold);
    return queue;
}

/* Draws a chain. A load above 1 is brought down by a longer period, as far as that helps. */
static void draw_chain(struct ardenquill_chain *chain)
{
    static const uint32_t sizes[] = {2, 4, 16, 1000, 65535};
    const uint32_t most = sizes[below(sizeof sizes / sizeof sizes[0])];
    memset(chain, 0, sizeof *chain);
    chain->n = one_in(4) ? ARDENQUILL_MAX_QUEUES : 1 + below(5);
    chain->period = 1 + below(20);
    for (uint32_t i = 0; i < chain->n; i++) {
        chain->queues[i] = draw_queue(most);
        chain->work[i] = 1 + below(one_in(4) ? 100 : 4);
    }
    while (chain->period < 500000 && call_analyse(chain).number == ARDENQUILL_OVERLOADED)
        chain->period *= 2;
}

/* Damages a chain's header and queues, or its execution times. */
static void damage_chain(struct ardenquill_chain *chain)
{
    const size_t rows = rows_of(chain);
    if (rows > 0 && one_in(4))
        damage(chain->work, rows * sizeof chain->work[0]);
    else
        damage(chain, offsetof(struct ardenquill_chain, queues) + rows * sizeof chain->queues[0]);
}

/* Draws a state in which the queues hold what the counts say, modulo 2^32, mostly at the end of what can be counted. */
static struct ardenquill_run draw_balanced(const struct ardenquill_chain *chain)
{
    struct ardenquill_run run;
    memset(&run, 0, sizeof run);
    run.counts[0] = one_in(4) ? draw_word() : UINT32_MAX - below(4);
    for (uint32_t i = 0; i < rows_of(chain); i++) {
        const struct ardenquill_queue *queue = &chain->queues[i];
        run.counts[i + 1] = run.counts[i] - below(2);
        run.held[i] = queue->produce * run.counts[i] - queue->consume * run.counts[i + 1];
    }
    return run;
}

/* Fires drawn nodes from a state on. */
static struct ardenquill_run fire_some(const struct ardenquill_chain *chain, struct ardenquill_run run)
{
    for (uint32_t times = 1 + below(8); times > 0; times--)
        run = call_fire(chain, &run, below(rows_of(chain) + 1)).run;
    return run;
}

/* Draws a run state: of a run of the chain, of manual firing, of another chain, or of no run. */
static struct ardenquill_run draw_run(const struct ardenquill_chain *chain)
{
    struct ardenquill_chain other;
    struct ardenquill_run run;
    memset(&run, 0, sizeof run);
    switch (below(6)) {
    case 0:
        return fire_some(chain, run);
    case 1:
        return fire_some(chain, call_immediate(chain, below(12)).run);
    case 2:
        return call_deadline_run(chain, below(256)).run;
    case 3:
        draw_chain(&other);
        return call_immediate(&other, below(12)).run;
    case 4:
        return draw_balanced(chain);
    default:
        for (size_t at = 0; at < sizeof run; at += 4)
            put_word(&run, at, draw_word());
        return run;
    }
}

/* Draws a list of losses for a state whose queues hold what the counts say: entries without tokens, so that it is
 * sound, mostly in a full list or one that is nearly full. */
static void draw_empty_entries(const struct ardenquill_chain *chain, struct ardenquill_losses *losses)
{
    const uint32_t rows = rows_of(chain) > 0 ? rows_of(chain) : 1;
    losses->count = one_in(4) ? below(ARDENQUILL_MAX_LOSSES + 1) : ARDENQUILL_MAX_LOSSES - below(3);
    for (uint32_t k = 0; k < losses->count; k++) {
        losses->entries[k].tick = draw(1);
        losses->entries[k].queue = below(rows);
        losses->entries[k].tokens = 0;
    }
}

/* Damages a list: its count, or the entries that it has, or all slots. */
static void damage_losses(struct ardenquill_losses *losses)
{
    const uint32_t entries = losses->count < ARDENQUILL_MAX_LOSSES ? losses->count : ARDENQUILL_MAX_LOSSES;
    if (one_in(4))
        losses->count = one_in(2) ? ARDENQUILL_MAX_LOSSES + below(2) : draw_word();
    else if (entries > 0 && !one_in(4))
        damage(losses->entries, entries * sizeof losses->entries[0]);
    else
        damage(losses->entries, sizeof losses->entries);
}

/* Draws the question's state and list together: those of a recording run, of the question's chain or of one with less
 * room; or a list beside the state that there is. */
static void draw_losses(struct question *q)
{
    if (one_in(4)) {
        draw_empty_entries(&q->chain, &q->losses);
        return;
    }
    if (one_in(2) && rows_of(&q->chain) > 0)
        q->chain.queues[below(rows_of(&q->chain))].capacity = 1 + below(8);
    const struct ardenquill_recording made = call_recording_run(&q->chain, one_in(8) ? below(20000) : below(512));
    q->run = made.run;
    q->losses = made.losses;
}

/* Damages one of the parts of a run state that belong to the first n queues. */
static void damage_run(const struct ardenquill_chain *chain, struct ardenquill_run *run)
{
    const size_t words = rows_of(chain) > 0 ? rows_of(chain) : 1;
    switch (below(4)) {
    case 0:
        run->clock = draw_word();
        break;
    case 1:
        damage(run->counts, 4 * (words + 1));
        break;
    case 2:
        damage(run->held, 4 * words);
        break;
    default:
        damage(run->done, 4 * words);
    }
}

/* Draws a length of bytes that are ignored: mostly few, and mostly a multiple of 4. */
static size_t draw_gap(void)
{
    const size_t gap = one_in(8) ? 4 * below(440) : 4 * below(4);
    return one_in(16) ? gap + below(4) : gap;
}

/* Draws the question's file: its chain with the tables in either order and bytes that are ignored between them. */
static void draw_file(struct question *q)
{
    const size_t rows = rows_of(&q->chain), first = ARDENQUILL_MIN_FILE_LENGTH + draw_gap(), gap = draw_gap();
    memset(q->file, (int)draw(1), sizeof q->file);
    if (one_in(4))
        lay_out(q, first + 4 * rows + gap, first, first + 24 * rows + gap + below(8));
    else
        lay_out(q, first, first + 20 * rows + gap, first + 24 * rows + gap + below(8));
}

/* Damages the question's file: words of its header or of all of it, its length, or its length and the word that says
 * it. */
static void damage_file(struct question *q)
{
    switch (below(4)) {
    case 0:
        damage(q->file, ARDENQUILL_MIN_FILE_LENGTH);
        break;
    case 1:
        damage(q->file, q->file_length);
        break;
    case 2:
        q->file_length = below(LONGEST_LOAN + 1);
        break;
    default:
        q->file_length = below(LONGEST_LOAN + 1);
        put_word(q->file, TOTAL_AT, (uint32_t)q->file_length);
    }
}

/* Draws how long a run is: mostly short, seldom as long as can be, since that takes its time, and past that. */
static uint32_t draw_run_length(void)
{
    if (one_in(4096))
        return LONGEST_RUN;
    if (one_in(32))
        return LONGEST_RUN + 1;
    if (one_in(32))
        return one_in(2) ? UINT32_MAX : draw(4) | UINT32_C(1) << 31;
    return one_in(16) ? below(2000) : below(MOST_TICKS + 2);
}

/* Draws the question's numbers. */
static void draw_numbers(struct question *q)
{
    q->factory = one_in(2) ? draw_word() : below(4);
    q->node = one_in(16) ? draw_word() : below(rows_of(&q->chain) + 2);
    q->index = one_in(4) ? draw_word() : below(20);
    q->k = draw_run_length();
    q->ticks = draw_run_length();
    q->room = one_in(2) ? below(LONGEST_LOAN + 1) : ARDENQUILL_PACKED_LENGTH(rows_of(&q->chain)) + below(3) - 1;
}

/* Draws a question, some of the time one of the opening with parts of it drawn anew. */
static void draw_question(struct question *q)
{
    open_question(q, below(OPENINGS));
    if (!one_in(4))
        draw_chain(&q->chain);
    if (one_in(3))
        damage_chain(&q->chain);
    if (one_in(2))
        q->chain = flipped_chain(q->chain);
    if (!one_in(4))
        q->run = draw_run(&q->chain);
    if (one_in(3))
        draw_losses(q);
    if (one_in(3))
        damage_run(&q->chain, &q->run);
    if (one_in(4))
        damage_losses(&q->losses);
    if (!one_in(4))
        draw_file(q);
    if (one_in(2))
        damage_file(q);
    if (!one_in(4))
        draw_numbers(q);
}

#endif
