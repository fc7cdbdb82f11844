/* Memory that is lent to the library so that a byte too far is noticed: a room between two pages that nothing may
 * touch, in which every byte that is not lent is a canary. A room can be sealed, so that a store that leaves every byte
 * as it was is noticed too. */
#ifndef FUZZ_LENT_H
#define FUZZ_LENT_H

#include <stdint.h>
#include <stdio.h>
#include <stdlib.h>
#include <string.h>
#include <sys/mman.h>
#include <unistd.h>

/* What every byte of a room is that is not lent. */
#define CANARY 0xc3

/* The most bytes that are lent at once: more than a chain file or a report has. */
#define LONGEST_LOAN 4200

/* A room. Sealed, it may only be read. */
struct room {
    uint8_t *bytes;
    size_t length;
    int sealed;
};

/* Where in its room a loan lies: up against the page behind it, or against the page before it. */
enum side { AT_END, AT_START };

/* What is lent of a room, and what is not. */
struct loan {
    struct room *room;
    uint8_t *bytes;
    size_t length;
    uint8_t *rest;
    size_t rest_length;
};

/* The rooms, one for each thing that a call is lent. */
static struct room file_room, out_room, chain_room, run_room, losses_room;

/* Whether bytes all have one value. */
static int is_all(const uint8_t *bytes, size_t length, uint8_t value)
{
    return length == 0 || (bytes[0] == value && memcmp(bytes, bytes + 1, length - 1) == 0);
}

/* Seals a room, or opens it again. */
static void set_sealed(struct room *room, int sealed)
{
    if (mprotect(room->bytes, room->length, sealed ? PROT_READ : PROT_READ | PROT_WRITE) != 0) {
        perror("fuzz: no access");
        exit(1);
    }
    room->sealed = sealed;
}

/* Makes a room of at least so many bytes. */
static void make_room(struct room *room, size_t least)
{
    const size_t page = (size_t)sysconf(_SC_PAGESIZE);
    room->length = (least + page - 1) / page * page;
    uint8_t *pages = mmap(NULL, room->length + 2 * page, PROT_NONE, MAP_PRIVATE | MAP_ANONYMOUS, -1, 0);
    if (pages == MAP_FAILED) {
        perror("fuzz: no memory");
        exit(1);
    }
    room->bytes = pages + page;
    set_sealed(room, 0);
    memset(room->bytes, CANARY, room->length);
}

/* Makes the rooms, once. */
static void make_rooms(void)
{
    make_room(&file_room, LONGEST_LOAN);
    make_room(&out_room, LONGEST_LOAN);
    make_room(&chain_room, 1);
    make_room(&run_room, 1);
    make_room(&losses_room, 1);
}

/* Lends bytes of a room. A loan of none leads into the page that it lies against. */
static struct loan lend(struct room *room, enum side side, size_t length)
{
    struct loan loan = {room, room->bytes, length, room->bytes, room->length - length};
    if (side == AT_END)
        loan.bytes += loan.rest_length;
    else if (length == 0)
        loan.bytes -= 1;
    else
        loan.rest += length;
    return loan;
}

/* Seals the room of a loan until the loan is taken back. */
static void seal(const struct loan *loan)
{
    set_sealed(loan->room, 1);
}

/* Takes a loan back: whether all around it is as it was. */
static int take_back(const struct loan *loan)
{
    if (loan->room->sealed)
        set_sealed(loan->room, 0);
    const int kept = is_all(loan->rest, loan->rest_length, CANARY);
    memset(loan->bytes, CANARY, loan->length);
    return kept;
}

#endif
