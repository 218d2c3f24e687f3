/* The calls on exchange tables, beside their counterparts; the table is told as an input by its bytes in the order
 * serial, mode, resends, age (low byte first) of each place, then address and next of each centre, then timeout, resends. */
#include "comparing.h"

#include <string.h>

static uint8_t told[16 * 8 + 2 * 8 + 2];
static uint8_t told_addresses[2][6];
static uint8_t out_before[LENT_MOST];
static struct ind_draft draft_before;

static size_t tell_number(size_t at, uint16_t number)
{
    told[at] = (uint8_t)number;
    told[at + 1] = (uint8_t)(number >> 8);
    return at + 2;
}

void calling_on(struct trial *t, const char *call, const struct ind_book *book)
{
    size_t at = 0;
    for (int i = 0; i < 16; i++) {
        const struct ind_exchange *one = &book->exchange[i];
        at = tell_number(at, one->serial);
        at = tell_number(at, one->mode);
        at = tell_number(at, one->resends);
        at = tell_number(at, one->age);
    }
    for (int i = 0; i < 2; i++) {
        memcpy(told + at, book->centre[i].address, 6);
        at = tell_number(at + 6, book->centre[i].next);
    }
    told[at++] = book->timeout;
    told[at++] = book->limit;
    calling(t, call);
    with_bytes("table", told, at);
}

/* Copies, since an example may tell of a difference after its addresses, its output or its draft are gone. */
static void with_address(const char *name, size_t which, const uint8_t address[6])
{
    memcpy(told_addresses[which], address, 6);
    with_bytes(name, told_addresses[which], 6);
}

struct ind_verdict both_exchanges_fresh(struct trial *t, struct ind_book *book, uint8_t timeout, uint8_t limit,
                                        const uint8_t first[6], const uint8_t second[6])
{
    struct answer a = {0}, b = {0};
    calling(t, "trawnosz_exchanges_fresh");
    with_number("timeout", timeout);
    with_number("resends", limit);
    with_address("first", 0, first);
    with_address("second", 1, second);
    struct ind_verdict mine = ind_make_book(book, timeout, limit, first, second);
    tell_verdict(&a, mine);
    tell_book(&a, book);
    trawnosz_made theirs = trawnosz_exchanges_fresh(timeout, limit, their_address(first), their_address(second));
    tell_their_verdict(&b, theirs.verdict);
    tell_their_table(&b, &theirs.state);
    agree(t, &a, &b);
    return mine;
}

void with_draft(uint8_t centre, const uint8_t *out, size_t room, const struct ind_draft *draft)
{
    if (room > 0)
        memcpy(out_before, out, room);
    draft_before = *draft;
    with_number("centre", centre);
    with_bytes("out", out_before, room);
    with_number("version", draft->user_version);
    with_bytes("label", draft_before.label, 6);
    with_bytes("source", draft_before.source, 6);
    with_number("command", draft->command);
    with_number("length", draft->unit_size);
}

static void tell_begun(struct answer *answer, const struct ind_begun *begun)
{
    tell_verdict(answer, begun->verdict);
    tell(answer, "taken place", begun->place);
    tell(answer, "serial", begun->serial);
    tell(answer, "length", begun->packet_size);
}

void tell_their_begun(struct answer *answer, const trawnosz_begun *begun)
{
    tell_their_verdict(answer, begun->verdict);
    tell(answer, "taken place", begun->exchange_place);
    tell(answer, "serial", begun->serial);
    tell(answer, "length", begun->length);
}

struct ind_begun both_begin_and_write(struct trial *t, struct ind_book *book, uint8_t centre, uint8_t *out, size_t room,
                                      const struct ind_draft *draft)
{
    struct answer a = {0}, b = {0};
    trawnosz_exchanges table = their_table(book), kept = their_table(book);
    calling_on(t, "trawnosz_begin_and_write", book);
    with_draft(centre, out, room, draft);
    struct ind_begun mine = ind_begin_and_write(book, centre, out, room, draft);
    tell_begun(&a, &mine);
    tell_book(&a, book);
    uint8_t *lent = lend(t, LENT_OUTPUT, out_before, room);
    trawnosz_begun theirs = trawnosz_begin_and_write(table, centre, lent, room, their_draft(draft), draft->unit_size);
    tell_their_begun(&b, &theirs);
    tell_their_table(&b, &theirs.state);
    agree(t, &a, &b);
    check_lent(t, LENT_OUTPUT, "out", out);
    if (!same_table(&table, &kept))
        differ(t, "a table that was given by value was changed");
    return mine;
}

/* What a reply is answered by. */
static void tell_turn(struct answer *answer, const struct ind_turn *turn)
{
    tell_verdict(answer, turn->verdict);
    tell(answer, "fitting place", turn->place);
    tell(answer, "outcome", outcome_number(turn->outcome));
}

void tell_their_reply(struct answer *answer, const trawnosz_replied *replied)
{
    tell_their_verdict(answer, replied->verdict);
    tell(answer, "fitting place", replied->exchange_place);
    tell(answer, "outcome", replied->outcome);
}

const struct reply_call reply_calls[4] = {
    {"trawnosz_reply_confirm", trawnosz_reply_confirm},
    {"trawnosz_reply_answer", trawnosz_reply_answer},
    {"trawnosz_reply_deny", trawnosz_reply_deny},
    {"trawnosz_reply_bad_answer", trawnosz_reply_bad_answer},
};

struct ind_turn both_reply(struct trial *t, struct ind_book *book, enum ind_told told, const uint8_t source[6],
                           uint16_t serial)
{
    struct answer a = {0}, b = {0};
    trawnosz_exchanges table = their_table(book);
    calling_on(t, reply_calls[told].name, book);
    with_address("source", 0, source);
    with_number("serial", serial);
    struct ind_turn mine = ind_hear(book, told, source, serial);
    tell_turn(&a, &mine);
    tell_book(&a, book);
    trawnosz_replied theirs = reply_calls[told].call(table, their_address(source), serial);
    tell_their_reply(&b, &theirs);
    tell_their_table(&b, &theirs.state);
    agree(t, &a, &b);
    return mine;
}

struct ind_turn both_take_packet(struct trial *t, struct ind_book *book, const uint8_t *packet, size_t size)
{
    struct answer a = {0}, b = {0};
    trawnosz_exchanges table = their_table(book);
    calling_on(t, "trawnosz_take_packet", book);
    with_bytes("packet", packet, size);
    struct ind_turn mine = ind_take(book, packet, size);
    tell_turn(&a, &mine);
    tell_book(&a, book);
    trawnosz_replied theirs = trawnosz_take_packet(table, lend(t, LENT_INPUT, packet, size), size);
    tell_their_reply(&b, &theirs);
    tell_their_table(&b, &theirs.state);
    agree(t, &a, &b);
    check_lent(t, LENT_INPUT, "packet", packet);
    return mine;
}

void tell_their_report(struct answer *answer, const trawnosz_ticked *ticked, size_t place)
{
    tell_of(answer, "report's outcome of place", place, ticked->reports[place].outcome);
    tell_of(answer, "report's serial of place", place, ticked->reports[place].serial);
}

struct ind_tick both_tick(struct trial *t, struct ind_book *book)
{
    struct answer a = {0}, b = {0};
    trawnosz_exchanges table = their_table(book);
    calling_on(t, "trawnosz_tick", book);
    struct ind_tick mine = ind_pass_time(book);
    trawnosz_ticked theirs = trawnosz_tick(table);
    tell_verdict(&a, mine.verdict);
    tell_their_verdict(&b, theirs.verdict);
    for (size_t i = 0; i < 16; i++) {
        tell_of(&a, "report's outcome of place", i, outcome_number(mine.outcome[i]));
        tell_of(&a, "report's serial of place", i, mine.serial[i]);
        tell_their_report(&b, &theirs, i);
    }
    tell_book(&a, book);
    tell_their_table(&b, &theirs.state);
    agree(t, &a, &b);
    return mine;
}
