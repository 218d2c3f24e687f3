/* The independent program's values as the library's, and both as lists of numbers. */
#include "comparing.h"

#include <string.h>

trawnosz_label their_label(const uint8_t label[6])
{
    trawnosz_label theirs = {
        .second = label[0], .minute = label[1], .hour = label[2], .day = label[3], .month = label[4], .year = label[5]
    };
    return theirs;
}

trawnosz_address their_address(const uint8_t address[6])
{
    trawnosz_address theirs;
    memcpy(theirs.bytes, address, 6);
    return theirs;
}

trawnosz_header their_header(const struct ind_packet *fields)
{
    trawnosz_header header = {
        .serial = fields->serial, .version = fields->user_version, .label = their_label(fields->label),
        .command = fields->command
    };
    memcpy(header.source, fields->source, 6);
    memcpy(header.destination, fields->destination, 6);
    return header;
}

trawnosz_draft their_draft(const struct ind_draft *mine)
{
    trawnosz_draft draft = {.version = mine->user_version, .label = their_label(mine->label), .command = mine->command};
    memcpy(draft.source, mine->source, 6);
    return draft;
}

trawnosz_fields their_fields(const struct ind_object *object)
{
    const uint32_t *number = object->number;
    trawnosz_fields fields = {
        .kind = object->kind,
        .system = (uint8_t)number[IND_SYSTEM],
        .address = (uint8_t)number[IND_ADDRESS],
        .part = (uint8_t)number[IND_PART],
        .part_address = number[IND_PLACE],
        .value = (int16_t)(uint16_t)number[IND_VALUE],
        .low = (uint8_t)number[IND_LOW],
        .high = (uint8_t)number[IND_HIGH],
        .analogue = (uint8_t)number[IND_ANALOGUE],
        .operation = (uint8_t)number[IND_OPERATION],
        .operator_ = (uint8_t)number[IND_OPERATOR],
        .state = (uint8_t)number[IND_ONE_STATE],
        .main = (uint8_t)number[IND_MAIN],
        .minor = (uint8_t)number[IND_MINOR],
        .label = their_label(object->label)
    };
    return fields;
}

trawnosz_exchanges their_table(const struct ind_book *book)
{
    trawnosz_exchanges table = {.timeout = book->timeout, .resends = book->limit};
    for (int i = 0; i < 2; i++) {
        table.centres[i].address = their_address(book->centre[i].address);
        table.centres[i].next = book->centre[i].next;
    }
    for (int i = 0; i < 16; i++) {
        table.places[i].serial = book->exchange[i].serial;
        table.places[i].mode = book->exchange[i].mode;
        table.places[i].resends = book->exchange[i].resends;
        table.places[i].age = book->exchange[i].age;
    }
    return table;
}

/* The library's table as a book, from which the next call of a sequence is made. */
struct ind_book our_book(const trawnosz_exchanges *table)
{
    struct ind_book book = {.timeout = table->timeout, .limit = table->resends};
    for (int i = 0; i < 2; i++) {
        memcpy(book.centre[i].address, table->centres[i].address.bytes, 6);
        book.centre[i].next = table->centres[i].next;
    }
    for (int i = 0; i < 16; i++) {
        book.exchange[i].serial = table->places[i].serial;
        book.exchange[i].mode = table->places[i].mode;
        book.exchange[i].resends = table->places[i].resends;
        book.exchange[i].age = table->places[i].age;
    }
    return book;
}

static bool same_centre(const trawnosz_centre *one, const trawnosz_centre *other)
{
    return memcmp(one->address.bytes, other->address.bytes, 6) == 0 && one->next == other->next;
}

/* Member by member, since the bytes between them may be anything. */
bool same_table(const trawnosz_exchanges *one, const trawnosz_exchanges *other)
{
    bool same = one->timeout == other->timeout && one->resends == other->resends
        && same_centre(&one->centres[0], &other->centres[0]) && same_centre(&one->centres[1], &other->centres[1]);
    for (int i = 0; i < 16; i++) {
        const trawnosz_exchange *a = &one->places[i], *b = &other->places[i];
        same = same && a->serial == b->serial && a->mode == b->mode && a->resends == b->resends && a->age == b->age;
    }
    return same;
}

bool same_book(const struct ind_book *one, const struct ind_book *other)
{
    trawnosz_exchanges a = their_table(one), b = their_table(other);
    return same_table(&a, &b);
}

void tell_verdict(struct answer *answer, struct ind_verdict verdict)
{
    tell(answer, "number", verdict.refusal);
    tell(answer, "place", verdict.place);
}

void tell_their_verdict(struct answer *answer, trawnosz_verdict verdict)
{
    tell(answer, "number", verdict.number);
    tell(answer, "place", verdict.place);
}

void agree_verdict(struct trial *t, struct ind_verdict mine, trawnosz_verdict theirs)
{
    struct answer a = {0}, b = {0};
    tell_verdict(&a, mine);
    tell_their_verdict(&b, theirs);
    agree(t, &a, &b);
}

void agree_part(struct trial *t, struct ind_span mine, trawnosz_found theirs)
{
    struct answer a = {0}, b = {0};
    tell_verdict(&a, mine.verdict);
    tell(&a, "from", mine.start);
    tell(&a, "to", mine.start + mine.length);
    tell_their_verdict(&b, theirs.verdict);
    tell(&b, "from", theirs.from);
    tell(&b, "to", theirs.to);
    agree(t, &a, &b);
}

static void tell_places(struct answer *answer, const trawnosz_exchanges *table, size_t centre)
{
    for (size_t i = 8 * centre; i < 8 * centre + 8; i++) {
        tell_of(answer, "serial of place", i, table->places[i].serial);
        tell_of(answer, "mode of place", i, table->places[i].mode);
        tell_of(answer, "resends of place", i, table->places[i].resends);
        tell_of(answer, "age of place", i, table->places[i].age);
    }
}

static void tell_centre(struct answer *answer, const trawnosz_centre *centre, size_t number)
{
    static const char *const names[] = {"first centre's address, byte", "second centre's address, byte"};
    for (size_t i = 0; i < 6; i++)
        tell_of(answer, names[number], i, centre->address.bytes[i]);
    tell_of(answer, "next of centre", number, centre->next);
}

/* What a table has of one centre: its eight places, its address and its next serial. */
void tell_their_half(struct answer *answer, const trawnosz_exchanges *table, size_t centre)
{
    tell_places(answer, table, centre);
    tell_centre(answer, &table->centres[centre], centre);
}

void tell_their_table(struct answer *answer, const trawnosz_exchanges *table)
{
    tell_their_half(answer, table, 0);
    tell_their_half(answer, table, 1);
    tell(answer, "timeout", table->timeout);
    tell(answer, "resends", table->resends);
}

void tell_book(struct answer *answer, const struct ind_book *book)
{
    trawnosz_exchanges table = their_table(book);
    tell_their_table(answer, &table);
}

uint8_t outcome_number(enum ind_outcome outcome)
{
    static const uint8_t numbers[] = {
        IND_TOLD_NOTHING, IND_TOLD_CONFIRMED, IND_TOLD_ANSWERED, IND_TOLD_RESENT, IND_TOLD_FAILED
    };
    return numbers[outcome];
}

uint8_t event_number(const struct ind_received *received)
{
    switch (received->event) {
    case IND_MORE:
        return IND_TOLD_MORE;
    case IND_NOISE:
        return IND_TOLD_NOISE;
    case IND_PACKET:
        return IND_TOLD_PACKET;
    case IND_EVENT_LENGTH:
        return IND_LENGTH;
    case IND_EVENT_END:
        return IND_END;
    case IND_EVENT_SUM:
        return IND_SUM;
    default:
        return (uint8_t)received->refusal;
    }
}
