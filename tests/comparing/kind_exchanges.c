/* Exchange tables: sound and unsound ones, nearly full and full ones, packets taken by them, and long sequences of calls on
 * one table. */
#include "comparing.h"

#include <string.h>

/* A good packet of the command, begun on a table for either centre. */
static void begin_good(struct trial *t, struct ind_book *book, uint8_t command)
{
    struct made_begin made;
    make_begin(t, &made, make_type_under(t, command));
    both_begin(t, book, &made);
}

static void begin_for_none(struct trial *t, struct ind_book *book)
{
    struct made_begin made;
    make_begin(t, &made, &made_types[below(t, TYPES)]);
    made.centre = make_no_centre(t);
    both_begin(t, book, &made);
}

static void reply_any(struct trial *t, struct ind_book *book, enum ind_told told)
{
    struct made_reply reply = make_reply(t, book);
    both_reply(t, book, told, reply.source, reply.serial);
}

/* A table made with any T and R, now and then for equal addresses. */
static void try_making(struct trial *t)
{
    struct ind_book book;
    uint8_t first[6], second[6];
    uint8_t timeout = (uint8_t)(chance(t, 80) ? below(t, 13) : any_byte(t));
    uint8_t limit = (uint8_t)(chance(t, 80) ? below(t, 12) : any_byte(t));
    make_addresses(t, first, second);
    both_exchanges_fresh(t, &book, timeout, limit, first, chance(t, 15) ? first : second);
}

/* Every call on one table, each on the table as it was. */
void try_exchange_states(struct trial *t)
{
    struct ind_book book, copy;
    try_making(t);
    make_book(t, &book);
    if (chance(t, 50))
        spoil_book(t, &book);
    both_tick(t, (copy = book, &copy));
    begin_good(t, (copy = book, &copy), IND_COMMAND_CONTROL);
    begin_good(t, (copy = book, &copy), IND_COMMAND_SEND);
    begin_good(t, (copy = book, &copy), IND_COMMAND_REQUEST);
    begin_for_none(t, (copy = book, &copy));
    for (unsigned told = 0; told < 4; told++) {
        reply_any(t, (copy = book, &copy), told);
        reply_any(t, (copy = book, &copy), told);
    }
}

/* A good confirm or deny does what it does whatever it carries: taken with bytes and without, by the table as it was. */
static void take_carrier(struct trial *t, const struct ind_book *book)
{
    struct ind_book one = *book, other = *book;
    struct made_reply reply = make_reply(t, book);
    uint8_t packet[MADE_MOST];
    size_t size = make_carried(t, packet + 27);
    make_head(t, packet, size, make_carrier(t));
    packet[2] = (uint8_t)reply.serial;
    packet[3] = (uint8_t)(reply.serial >> 8);
    memcpy(packet + 12, reply.source, 6);
    seal(packet, size);
    struct ind_turn with = both_take_packet(t, &one, packet, 30 + size);
    packet[24] = 0;
    packet[25] = 0;
    seal(packet, 0);
    struct ind_turn without = both_take_packet(t, &other, packet, 30);
    if (with.verdict.refusal != without.verdict.refusal || with.verdict.place != without.verdict.place
        || with.place != without.place || with.outcome != without.outcome || !same_book(&one, &other))
        differ(t, "a confirm or a deny that carries something is not taken as an empty one is");
}

/* Packets taken by one table, each by the table as it was, and a few by the table as the one before left it. */
void try_takes(struct trial *t)
{
    struct ind_book book, copy;
    uint8_t packet[MADE_MOST];
    make_book(t, &book);
    if (chance(t, 30))
        spoil_book(t, &book);
    both_take_packet(t, (copy = book, &copy), packet, below(t, 30));
    for (int i = 0; i < 8; i++) {
        size_t size = make_reply_packet(t, &book, packet);
        both_take_packet(t, (copy = book, &copy), packet, size);
    }
    take_carrier(t, &book);
    for (int i = 0; i < 8; i++) {
        size_t size = make_reply_packet(t, &book, packet);
        both_take_packet(t, &book, packet, size);
    }
}

static void begin_any(struct trial *t, struct ind_book *book)
{
    struct made_begin made;
    make_any_begin(t, &made);
    both_begin(t, book, &made);
}

/* One call of a sequence: begins and ticks in such shares that the table is full now and empty then. */
static void one_call(struct trial *t, struct ind_book *book, unsigned begins)
{
    if (chance(t, begins))
        begin_any(t, book);
    else if (chance(t, 30))
        both_tick(t, book);
    else
        reply_any(t, book, (enum ind_told)below(t, 4));
}

/* Sixty calls on one table from its making on; a few thousand from time to time. */
void try_exchange_sequence(struct trial *t)
{
    struct ind_book book;
    unsigned begins = (unsigned)between(t, 20, 70);
    size_t calls = t->turn % 128 == 0 ? 4000 : 60;
    make_fresh(t, &book, (uint8_t)between(t, 1, 10), (uint8_t)below(t, 10));
    for (int i = 0; i < 2; i++) {
        if (chance(t, 50))
            book.centre[i].next = (uint16_t)(65535 - below(t, 30));
    }
    for (size_t i = 0; i < calls; i++)
        one_call(t, &book, begins);
}
