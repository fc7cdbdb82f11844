/*
 * ardenquill.h - the calls of the library ardenquill for C and C++: reading and writing chain files, the factory
 * chains, the analysis of a chain, the report on a chain file, manual firing, the immediate run, deadlines, the tick
 * and the deadline run, and both of these once more as recording calls, which carry on past a full queue and note each
 * loss.
 *
 * A chain has nodes N_0 (the source) to N_n (the sink), n from 1 to 16; queue i leads from N_i to N_(i+1).
 *
 * Every call takes any values and comes back. A call that cannot answer refuses: it gives the number of the
 * refusal and its place, all its other results are zero but a run state and a list of losses that were handed in, which
 * come back as they were, and it writes nothing. Checks run in the order of their numbers, 17 before 9, and the first
 * that fails is given. A call that is not refused gives number 0 and place 0.
 *
 * A length of 0 may come with any pointer; else the pointer must lead to that many bytes, which the call may
 * read (a file) or write (an out). A pointer to a chain, a run or losses must lead to one. A file and an out that are
 * handed to one call must not overlap, nor may any two of a chain, a run and losses. No call allocates memory or keeps
 * anything between calls. Calls may run at the same time unless one of them writes what another is lent: a chain or a
 * file that nobody writes to may be lent to several threads at once; a run, losses and an out belong to one call at a
 * time.
 *
 * docs/FORMAT.md has the chain file word by word. Two of its names are used below: the total word is the fifth and last
 * word of a file's header, which says how many bytes the whole file has; a packed file has its queue table right behind
 * the header, at byte 20, its node table right behind that, and nothing else.
 *
 * Library and header are one release: use them together. The library is x86-64 code; the header is C99 and C++11.
 */
#ifndef ARDENQUILL_H
#define ARDENQUILL_H

#include <stddef.h>
#include <stdint.h>

#ifdef __cplusplus
extern "C" {
#endif

/* The release that header and library are of; CHANGELOG.md says what each changed. MAJOR grows where a program over the
 * library has to change, MINOR where something is added, PATCH otherwise. */
#define ARDENQUILL_VERSION_MAJOR 2
#define ARDENQUILL_VERSION_MINOR 1
#define ARDENQUILL_VERSION_PATCH 0
#define ARDENQUILL_VERSION "2.1.0"

/* The most queues that a chain has, and so the slots of a chain. */
#define ARDENQUILL_MAX_QUEUES 16

/* The most entries that a list of losses has, and so its slots. */
#define ARDENQUILL_MAX_LOSSES 256

/* The fewest and the most bytes that a file may have and not be refused with 1. The fewest are a header without tables,
 * which is refused with 2 or 3; the shortest file that is read has ARDENQUILL_PACKED_LENGTH(1) bytes. */
#define ARDENQUILL_MIN_FILE_LENGTH 20
#define ARDENQUILL_MAX_FILE_LENGTH 4096

/* The bytes of the packed file of a chain of n queues, n from 1 to 16, which is what ardenquill_write writes. */
#define ARDENQUILL_PACKED_LENGTH(n) (20 + 24 * (n))

/* Room in bytes that every report fits: the first line, the lines of 16 queues and the last line. It counts every
 * number, a queue's own too, as long as 32 bits can be; no report fills it. */
#define ARDENQUILL_MAX_REPORT_LENGTH 1312

/* The chains that are fixed in the product, by the number that ardenquill_factory is asked for. */
enum ardenquill_factory_chain {
    ARDENQUILL_FEED = 0,
    ARDENQUILL_PERMEATE = 1,
    ARDENQUILL_FLUSH = 2
};

/* The numbers that a call is refused with, each with what its place says; ardenquill_refusal_text has a sentence for
 * each. */
enum ardenquill_refusal {
    /* The call was not refused. Place 0. */
    ARDENQUILL_NOT_REFUSED = 0,
    /* The file is shorter than 20 or longer than 4,096 bytes, or its total word is not its length. Place 0. */
    ARDENQUILL_BAD_LENGTH = 1,
    /* n is 0 or above 16. Place 0. */
    ARDENQUILL_BAD_COUNT = 2,
    /* A table's offset is no multiple of 4, is below 20, or lets its table pass the end: place 8 for the queue
     * table, tested first, 12 for the node table. Or the two tables overlap: place 12. */
    ARDENQUILL_BAD_TABLE = 3,
    /* A field is out of its range: the period, then the queues in order and each in the order of its fields,
     * then the execution times. Place: the byte offset of that word in the file; for a chain that was handed in as a
     * struct, in its packed file: 4 is the period, 20+20i+4f field f of queue i (0 produce, 1 threshold, 2 consume,
     * 3 capacity, 4 reserved), 20+20n+4i the execution time of N_(i+1). */
    ARDENQUILL_BAD_FIELD = 4,
    /* A queue's consume is above its threshold. Place: the byte offset of consume, as for 4. */
    ARDENQUILL_BAD_CONSUME = 5,
    /* An x or a y of a node's rate is above 4,294,967,295. Place: the lowest such node, i for N_i. */
    ARDENQUILL_RATE_TOO_LARGE = 6,
    /* The nodes have more work in a cycle than it has ticks: the exact sum, busy, is above cycle. Place 0. */
    ARDENQUILL_OVERLOADED = 7,
    /* A queue's capacity is not 0 and below its minimum. Place: the lowest such queue. No recording call gives it. */
    ARDENQUILL_BELOW_MINIMUM = 8,
    /* The run is too long. Manual firing: the node's count is 4,294,967,295 already; place: that node. An immediate
     * run: a node would fire more than 1,000,000 times; place: the lowest such node. A deadline run or a recording run:
     * it has more than 1,000,000 ticks; place 0. A tick or a recording tick: the clock is 1,000,000 or more; place 0;
     * or a node's count is 4,294,967,295; place: the lowest such node. */
    ARDENQUILL_TOO_LONG = 9,
    /* The out handed in is shorter than what would be written. Place: the bytes needed. */
    ARDENQUILL_NO_ROOM = 10,
    /* There is no such node; or manual firing: the queue before it holds less than its threshold; or a deadline: the
     * index is 0. Place: the node asked. */
    ARDENQUILL_CANNOT_FIRE = 11,
    /* The firing would put more into the queue after the node than its capacity in force. Place: that queue. */
    ARDENQUILL_QUEUE_FULL = 12,
    /* On the way from a firing down to the source, along which its deadline is found, an index is above
     * 4,294,967,295. Place: the node whose index it is, of several the first on the way. */
    ARDENQUILL_INDEX_TOO_LARGE = 13,
    /* There is no factory chain of that number. Place: the number asked. */
    ARDENQUILL_NO_FACTORY_CHAIN = 14,
    /* The run state handed in is damaged. Place: the lowest queue that does not hold exactly what its producer's count
     * put in less what its consumer's count took out, or holds more than its capacity in force, or whose consumer has
     * as many ticks of work done as its execution time, or more. Tested before 9. A recording tick looks at the list of
     * losses first: one of more than ARDENQUILL_MAX_LOSSES entries, or with an entry that names no queue of the chain,
     * is damaged; place 0. Then the tokens of a queue's entries count as not put in: what the queue holds, what its
     * consumer's count took out and the sum of its entries must together be what its producer's count put in. */
    ARDENQUILL_BAD_RUN = 17
};

/* The kinds of outcome of a tick or a run, recording or not, each with what its tick and its at say. None of them is a
 * refusal. */
enum ardenquill_kind {
    /* The tick was made, or the run has gone to its end. Tick 0, at 0. */
    ARDENQUILL_CLEAN = 0,
    /* A production at instant tick would put more into queue at than its capacity in force. The state is that before
     * the production, and its clock is tick. No recording call has it. */
    ARDENQUILL_OVERFLOWED = 1,
    /* At instant tick, after the source's step, the queue before N_at holds at least its threshold and the deadline of
     * the node's next firing cannot be had, as an index on the way down to the source is above 4,294,967,295; N_at is
     * the lowest such node. The state is that before the source's step, and its clock is tick; the list of losses of a
     * recording call is that before it, too, and has no entry of that step. */
    ARDENQUILL_NO_DEADLINE = 2,
    /* A production at instant tick would put more into queue at than its capacity in force, and the list of losses has
     * ARDENQUILL_MAX_LOSSES entries already. State and list are those before the production, and the clock is tick.
     * Only recording calls have it. */
    ARDENQUILL_LIST_FULL = 3
};

/* One queue, as its row in a chain file. */
struct ardenquill_queue {
    /* Tokens that a firing of the producer puts in; tokens that the consumer waits for; tokens that a firing of
     * the consumer takes out. Each 1 to 65,535, consume not above threshold. */
    uint32_t produce, threshold, consume;
    /* The most tokens that the queue has room for, 0 to 1,000,000; 0 stands for the queue's minimum: the largest
     * multiple of gcd(produce, consume) below threshold, plus produce. */
    uint32_t capacity;
    /* Always 0. */
    uint32_t reserved;
};

/* One chain. Only the first n slots of queues and work are looked at; a chain that a call gives has zeros in
 * the others. */
struct ardenquill_chain {
    /* The number of queues, 1 to 16, and the ticks from one firing of the source to the next, 1 to 1,000,000. */
    uint32_t n, period;
    /* Queue i, from N_i to N_(i+1), in slot i. */
    struct ardenquill_queue queues[ARDENQUILL_MAX_QUEUES];
    /* The execution time of N_(i+1) in ticks, 1 to 1,000,000, in slot i. */
    uint32_t work[ARDENQUILL_MAX_QUEUES];
};

/* What the analysis says of one queue. */
struct ardenquill_queue_size {
    /* The rate of the queue's consumer: x firings in y ticks. The two may have a common divisor. */
    uint32_t x, y;
    /* The minimum capacity: the largest multiple of gcd(produce, consume) below threshold, plus produce. Where no
     * capacity of the chain is below its minimum and every node is fired as soon as it can from a fresh start, the one
     * nearest the sink first, the queue never holds more. */
    uint32_t minimum;
    /* The naming count: (threshold - consume) / produce rounded up, plus consume / gcd(produce, consume). When its
     * producer has fired this often, the queue has held at least minimum, whatever the order of firings from a fresh
     * start, each accepted by ardenquill_fire: watch that long. It is a bound: the queue may have held that much
     * before. */
    uint32_t by;
    /* The capacity in force: the queue's capacity, or minimum where that is 0. */
    uint32_t capacity;
    /* capacity less minimum; negative where the queue has too little room. */
    int32_t margin;
};

/* What the analysis says of a chain. */
struct ardenquill_analysis {
    /* The number of queues. */
    uint32_t n;
    /* Queue i in slot i; the slots past n are zero. */
    struct ardenquill_queue_size queues[ARDENQUILL_MAX_QUEUES];
    /* The ticks of work that all nodes together have in a cycle, and the ticks of a cycle, which are the sink's y.
     * busy is not above cycle. */
    uint32_t busy, cycle;
};

/* How far a run of a chain of n queues is. Only the first n slots of held and done and the first n+1 of counts are
 * looked at. A plain value: a call is handed one and gives the next, and keeps nothing of either; a tick is lent one
 * and leaves the next in its place. */
struct ardenquill_run {
    /* The ticks that have passed. Manual firing leaves it alone; a clean tick adds 1; after an immediate run it is 0,
     * after a deadline run the instant at which that ended. */
    uint32_t clock;
    /* How often N_i has fired, in slot i; slot 0 is the source's. */
    uint32_t counts[ARDENQUILL_MAX_QUEUES + 1];
    /* The tokens that queue i holds, in slot i. */
    uint32_t held[ARDENQUILL_MAX_QUEUES];
    /* The ticks of work that N_(i+1) has done on its current firing, in slot i; below its execution time. Manual
     * firing leaves them alone; after an immediate run they are 0, after a deadline run what each node has begun and
     * not finished. */
    uint32_t done[ARDENQUILL_MAX_QUEUES];
};

/* One production that was dropped whole, as its queue had no room for it. */
struct ardenquill_loss {
    /* The instant at which it was dropped, the queue that it was for, and its tokens, which are the queue's produce. */
    uint32_t tick, queue, tokens;
};

/* The losses so far of a recording run, in order. A plain value: a recording tick is lent one and leaves the next in
 * its place. A list with count 0 has no losses, whatever its slots hold. Of entries that are handed in, the tokens are
 * looked at through the sum of each queue's alone, and the ticks not at all: to make room, entries of one queue may be
 * folded into one with the sum of their tokens, as long as that is a number of 32 bits. */
struct ardenquill_losses {
    /* The number of entries, at most ARDENQUILL_MAX_LOSSES. */
    uint32_t count;
    /* Entry k in slot k; the slots from count on are no entries and are not looked at. */
    struct ardenquill_loss entries[ARDENQUILL_MAX_LOSSES];
};

/* The answer of a call that gives a chain. */
struct ardenquill_chain_answer {
    /* The refusal and its place; both 0 when the call was not refused. */
    uint32_t number, place;
    /* The chain; all zero when the call was refused. */
    struct ardenquill_chain chain;
};

/* The answer of a call that gives an analysis. */
struct ardenquill_analysis_answer {
    /* The refusal and its place; both 0 when the call was not refused. */
    uint32_t number, place;
    /* The analysis; all zero when the call was refused. */
    struct ardenquill_analysis analysis;
};

/* The answer of a call that gives a run state. */
struct ardenquill_run_answer {
    /* The refusal and its place; both 0 when the call was not refused. */
    uint32_t number, place;
    /* The run state. When the call was refused: the one that was handed in, every slot as it was; all zero from a call
     * that is handed none. */
    struct ardenquill_run run;
};

/* The answer of a call that gives a deadline. */
struct ardenquill_deadline_answer {
    /* The refusal and its place; both 0 when the call was not refused. */
    uint32_t number, place;
    /* The tick that the firing is due at; 0 when the call was refused. */
    uint64_t due;
};

/* The answer of a tick or a recording tick. */
struct ardenquill_outcome {
    /* The refusal and its place; both 0 when the call was not refused, whatever the outcome. */
    uint32_t number, place;
    /* The outcome: its kind, its tick, and its queue or node; all 0 when the call was refused. */
    uint32_t kind, tick, at;
};

/* The answer of a call that gives an outcome and the run state that it left. */
struct ardenquill_outcome_run {
    /* The refusal and its place; both 0 when the call was not refused, whatever the outcome. */
    uint32_t number, place;
    /* The outcome: its kind, its tick, and its queue or node; all 0 when the call was refused. */
    uint32_t kind, tick, at;
    /* The run state. When the call was refused: all zero. */
    struct ardenquill_run run;
};

/* The answer of a call that gives an outcome, the run state that it left and the losses on the way. */
struct ardenquill_recording {
    /* The refusal and its place; both 0 when the call was not refused, whatever the outcome. */
    uint32_t number, place;
    /* The outcome: its kind, its tick, and its queue or node; all 0 when the call was refused. */
    uint32_t kind, tick, at;
    /* The run state. When the call was refused: all zero. */
    struct ardenquill_run run;
    /* The list of losses; the slots from its count on are zero. When the call was refused: all zero. */
    struct ardenquill_losses losses;
};

/* The answer of a call that writes bytes. */
struct ardenquill_length_answer {
    /* The refusal and its place; both 0 when the call was not refused. */
    uint32_t number, place;
    /* The bytes written; 0 when the call was refused. */
    uint64_t length;
};

/* Gives the chain of a chain file. The tables may lie anywhere in the file; what lies outside header and tables
 * is not looked at. Refuses with 1, 2, 3, 4, 5, in this order; the places of 4 and 5 are offsets in the file handed
 * in. Writes nothing. */
struct ardenquill_chain_answer ardenquill_read(const uint8_t *file, size_t file_length);

/* Writes the packed file of a chain to the first 20+24n bytes of out, gives 20+24n as the length, and leaves
 * all bytes of out behind them as they were. Reading those bytes gives the chain again, with zeros in its slots
 * past n. Refuses with 2, 4, 5, 10, in this order, and then leaves all of out as it was; the places of 4 and 5
 * are offsets in the packed file. Room of exactly 20+24n bytes is enough. */
struct ardenquill_length_answer ardenquill_write(struct ardenquill_chain chain, uint8_t *out, size_t out_length);

/* Gives a chain that is fixed in the product: see enum ardenquill_factory_chain. Refuses every other number with 14.
 * Writes nothing. */
struct ardenquill_chain_answer ardenquill_factory(uint32_t number);

/* Gives the analysis of a chain. Refuses with 2, 4, 5, 6, 7, in this order; the places of 4 and 5 are offsets in the
 * packed file. A capacity below the minimum is no refusal: it gives a negative margin. Writes nothing. */
struct ardenquill_analysis_answer ardenquill_analyse(struct ardenquill_chain chain);

/* Writes the report on a chain file to the front of out, gives its length, and leaves all bytes of out behind it as
 * they were. The report is decimal text without a final zero byte, each line ended by one line feed: a first line that
 * is always the same, then a line for each queue with its number and its values of the names in the first line, then a
 * line with the word busy and the values of busy and cycle. For the factory chain Feed, whole:
 *     queue,x,y,minimum,by,capacity,margin
 *     0,4,30,10,4,10,0
 *     busy,8,30
 * Refuses with 1, 2, 3, 4, 5, 6, 7, 10, in this order, and then leaves all of out as it was; the places of 4 and 5
 * are offsets in the file handed in, and the place of 10 is the length of the whole report. Room of exactly that
 * length is enough, and ARDENQUILL_MAX_REPORT_LENGTH always is. */
struct ardenquill_length_answer ardenquill_report(const uint8_t *file, size_t file_length, uint8_t *out,
                                                  size_t out_length);

/* Gives the run state of a fresh start: nothing fired, nothing held, all zero. Refuses with 2, 4, 5, 6, 7, in this
 * order; the places of 4 and 5 are offsets in the packed file. A capacity below the minimum is no refusal. Writes
 * nothing. */
struct ardenquill_run_answer ardenquill_fresh(struct ardenquill_chain chain);

/* Fires one node, i for N_i, and gives the run state after it: the node's count is one more, the queue after the node,
 * if there is one, holds produce more, and then the queue before it, if there is one, consume less. All else is as it
 * was: clock, work done, the other nodes and queues, and every slot past n. The source may fire at any time, another
 * node while the queue before it holds at least its threshold; a queue may be filled to exactly its capacity. Nodes
 * may be fired in any order, and the capacity in force counts even where it is below the minimum. Refuses with 2, 4,
 * 5, 6, 7, 17, 9, 11, 12, in this order, and then gives the state that was handed in, every slot as it was; the places
 * of 4 and 5 are offsets in the packed file. Writes nothing. */
struct ardenquill_run_answer ardenquill_fire(struct ardenquill_chain chain, struct ardenquill_run run, uint32_t node);

/* Gives the run state after an immediate run: from a fresh start the source fires k times, and every other node as
 * soon as it can, the one nearest the sink first, also after the last firing of the source; so every queue is left
 * with less than its threshold. Clock and work done are 0, and so are the slots past n. Refuses with 2, 4, 5, 6, 7, 8,
 * 9, in this order; the places of 4 and 5 are offsets in the packed file. A count of exactly 1,000,000 is allowed.
 * Writes nothing. */
struct ardenquill_run_answer ardenquill_immediate(struct ardenquill_chain chain, uint32_t k);

/* Gives the deadline of a firing: node i for N_i, the source too, and index 1 for the node's first firing. The source's
 * is (index - 1) * period. Another node's is the deadline of the node before it for index ((index - 1) * consume +
 * capacity) / produce rounded down, plus 1, where the queue is the one between the two and capacity the one in force;
 * and so on down to the source. Refuses with 2, 4, 5, 6, 7, 8, 11, 13, in this order; the places of 4 and 5 are offsets
 * in the packed file. No run state is looked at: the node need not be able to fire. Writes nothing. */
struct ardenquill_deadline_answer ardenquill_deadline(struct ardenquill_chain chain, uint32_t node, uint32_t index);

/* Makes one tick of the run state that is lent, from the instant t that its clock says, and leaves the state after it
 * in its place. The source fires if period divides t; then one node works for a tick, if there is one whose queue
 * before it holds at least its threshold: of these the one whose next firing has the earliest deadline, of several such
 * the one nearest the sink; work already done is kept while other nodes work. The clock goes to t + 1, and a firing
 * that then has as many ticks of work as its node's execution time takes effect as ardenquill_fire says. Each outcome
 * gives number 0 and place 0: see enum ardenquill_kind for the rest; where it is overflowed or no deadline, the state
 * stays as it was. The slots past n of chain and state are not looked at and stay as they are. So many ticks from a
 * fresh start are a deadline run.
 * Refuses with 2, 4, 5, 6, 7, 8, 17, 9, in this order, and then leaves the state as it was, every slot; kind, tick and
 * at are then 0. The places of 4 and 5 are offsets in the packed file. Writes nothing but the state, and that only
 * where the outcome is clean: a tick that is refused, overflows or has no deadline stores nothing, so that the state
 * may then even lie in memory that may only be read. */
struct ardenquill_outcome ardenquill_tick(const struct ardenquill_chain *chain, struct ardenquill_run *run);

/* Makes a deadline run of so many ticks from a fresh start, and gives its outcome and the run state after it. At each
 * instant t from 0 on that is below ticks: a firing finished by then takes effect as ardenquill_fire says; then the
 * source fires if period divides t; then one node works for a tick, if there is one whose queue before it holds at
 * least its threshold: of these the one whose next firing has the earliest deadline, of several such the one nearest
 * the sink. A firing is finished after as many ticks of work as the node's execution time; work already done is kept
 * while other nodes work. At instant ticks only a firing finished by then takes effect.
 * The outcome is clean, and the state's clock is ticks; or overflowed or no deadline at the first instant at which one
 * of these comes about, overflowed before no deadline, and the run goes no further. Each outcome gives number 0 and
 * place 0: see enum ardenquill_kind for the rest. A load below the cycle does not rule out that the source's queue
 * overflows. The slots past n of the state are 0.
 * Refuses with 2, 4, 5, 6, 7, 8, 9, in this order, 9 where ticks is above 1,000,000; then kind, tick, at and the whole
 * state are 0. The places of 4 and 5 are offsets in the packed file. Writes nothing. */
struct ardenquill_outcome_run ardenquill_deadline_run(struct ardenquill_chain chain, uint32_t ticks);

/* Makes one tick as ardenquill_tick does, of the run state that is lent, and carries on past a full queue: a production
 * that would put more into its queue than the capacity in force is dropped whole and noted in the list of losses that
 * is lent, behind the entries that it has. The firing counts all the same: its node's count is one more, its work done
 * is 0 again, and it takes its consume from the queue before it; the source has neither. An entry's tick is t where the
 * source fires and t + 1 where a firing finishes; a tick drops no more than these two productions, so that a list with
 * two slots left is not found full. Deadlines count productions as if none were dropped, with the capacity in force;
 * capacities below the minimum are allowed. For every queue what its producer's count put in is what its consumer's
 * count took out, what it holds and the sum of its entries together. As long as nothing is dropped, the tick is that of
 * ardenquill_tick.
 * Each outcome gives number 0 and place 0: see enum ardenquill_kind for the rest. Clean: the state is that after the
 * tick, and the list has its entries. No deadline: state and list are as they were, and the source's loss of this tick
 * is taken back. List full at the source (tick t, at 0, and before no deadline): state and list are as they were. List
 * full where a firing of N_at finishes (tick t + 1, at 1 or more): the source's step of this tick stands, with its
 * entry if it lost; the clock is t + 1, N_at has as many ticks of work done as its execution time, its count is not
 * raised and its input not taken; 17 refuses that state next. The slots past n of chain and state and the list's slots
 * from its new count on stay as they are; those of chain and state, and the list's from its old count on, are not
 * looked at.
 * Refuses with 2, 4, 5, 6, 7, 17, 9, in this order, never with 8, and then leaves state and list as they were, every
 * slot; kind, tick and at are then 0. The places of 4 and 5 are offsets in the packed file. Writes nothing but state
 * and list: a tick that is refused, has no deadline or finds the list full at the source stores nothing, and one that
 * drops nothing stores nothing in the list, so that these may then even lie in memory that may only be read. A call
 * that takes no list, such as ardenquill_tick, refuses a state with losses with 17, as its balance has no entries. */
struct ardenquill_outcome ardenquill_recording_tick(const struct ardenquill_chain *chain, struct ardenquill_run *run,
                                                    struct ardenquill_losses *losses);

/* Makes a recording run of so many ticks from a fresh start and with an empty list of losses, and gives its outcome,
 * the run state and the list after it: so many recording ticks, one after the other, up to the first that is not clean.
 * The outcome is clean, and the state's clock is ticks; or no deadline or list full at the first instant at which one
 * of these comes about, list full before no deadline, and the run goes no further: see ardenquill_recording_tick for
 * what it leaves. Each outcome gives number 0 and place 0. As long as nothing is dropped, the run is that of
 * ardenquill_deadline_run. The slots past n of the state and the list's slots from its count on are 0.
 * Refuses with 2, 4, 5, 6, 7, 9, in this order, never with 8, 9 where ticks is above 1,000,000; then kind, tick, at,
 * the whole state and the whole list are 0. The places of 4 and 5 are offsets in the packed file. Writes nothing. */
struct ardenquill_recording ardenquill_recording_run(struct ardenquill_chain chain, uint32_t ticks);

/* Gives a sentence for people, without a full stop, on any number that a call has given. The text stays where it is for
 * as long as the program runs. README.md says for each number what to do about it. */
static inline const char *ardenquill_refusal_text(uint32_t number)
{
    switch (number) {
    case ARDENQUILL_NOT_REFUSED: return "not refused";
    case ARDENQUILL_BAD_LENGTH:
        return "the file's length is under 20 or over 4,096 bytes, or is not what its total word says";
    case ARDENQUILL_BAD_COUNT: return "the number of queues is 0 or above 16";
    case ARDENQUILL_BAD_TABLE:
        return "a table lies outside the file, inside its header, not at a multiple of 4, or over the other table";
    case ARDENQUILL_BAD_FIELD: return "a number of the chain is out of its range";
    case ARDENQUILL_BAD_CONSUME: return "a queue's consume is above its threshold";
    case ARDENQUILL_RATE_TOO_LARGE: return "a rate has a number above 4,294,967,295";
    case ARDENQUILL_OVERLOADED: return "the nodes have more work in a cycle than it has ticks";
    case ARDENQUILL_BELOW_MINIMUM: return "a capacity is below the minimum";
    case ARDENQUILL_TOO_LONG: return "the run is too long, or a node has fired too often";
    case ARDENQUILL_NO_ROOM: return "the memory lent is too short";
    case ARDENQUILL_CANNOT_FIRE: return "there is no such node, the index is 0, or the node is below its threshold";
    case ARDENQUILL_QUEUE_FULL: return "a manual firing would pass a capacity";
    case ARDENQUILL_INDEX_TOO_LARGE: return "a deadline's index passes 4,294,967,295";
    case ARDENQUILL_NO_FACTORY_CHAIN: return "there is no such factory chain";
    case ARDENQUILL_BAD_RUN: return "the run state or its list of losses is damaged, or belongs to another chain";
    default: return "no call refuses with this number";
    }
}

#ifdef __cplusplus
}
#endif

#endif
