/* Open exchanges: what begins, ends and resends them. */
#include "independent.h"

#include <string.h>

static const struct ind_exchange no_exchange;

static size_t lowest_free(const struct ind_book *book, size_t centre)
{
    size_t place = ind_first_of(centre);
    while (place < ind_end_of(centre) && book->exchange[place].mode != IND_FREE)
        place++;
    return place;
}

/* "the first serial, from the next one upward and past 65,535 to 0, that is not open", of the centre's own. */
static uint16_t first_not_open(const struct ind_book *book, size_t centre)
{
    uint16_t serial = book->centre[centre].next;
    while (ind_open_at(book, centre, serial) < ind_end_of(centre))
        serial++;
    return serial;
}

/* "Commands 1 and 2 open a send, 4 a request." */
static enum ind_mode opened_by(uint8_t command)
{
    switch (command) {
    case IND_COMMAND_CONTROL:
    case IND_COMMAND_SEND:
        return IND_SEND;
    case IND_COMMAND_REQUEST:
        return IND_REQUEST;
    default:
        return IND_FREE;
    }
}

/* "then the packet writer's; COMMAND also for 3, 5, 6": a command that opens nothing is given to the writer as 0, so that
 * it is refused where COMMAND stands in the writer's own order. "writes its address as destination". */
static struct ind_verdict write_to(const struct ind_centre *centre, uint16_t serial, uint8_t *out, size_t room,
                                   const struct ind_draft *draft)
{
    struct ind_packet fields;
    memset(&fields, 0, sizeof fields);
    fields.serial = serial;
    fields.user_version = draft->user_version;
    memcpy(fields.label, draft->label, 6);
    memcpy(fields.source, draft->source, 6);
    memcpy(fields.destination, centre->address, 6);
    fields.command = opened_by(draft->command) == IND_FREE ? 0 : draft->command;
    fields.unit_size = draft->unit_size;
    return ind_write_packet(out, room, &fields);
}

/* "it writes the packet with the serial it would give, and only then opens the place": "the lowest free place", and "the
 * one after it is then next". "FULL where that centre's eight are open", "then the packet writer's". */
static struct ind_begun begin_for(struct ind_book *book, size_t centre, uint8_t *out, size_t room,
                                  const struct ind_draft *draft)
{
    struct ind_begun begun = {ind_good(), 0, 0, 0};
    size_t place = lowest_free(book, centre);
    uint16_t serial = first_not_open(book, centre);
    if (place == ind_end_of(centre))
        begun.verdict = ind_refuse(IND_FULL);
    else
        begun.verdict = write_to(&book->centre[centre], serial, out, room, draft);
    if (begun.verdict.refusal)
        return begun;
    book->exchange[place] = (struct ind_exchange){serial, (uint8_t)opened_by(draft->command), 0, 0};
    book->centre[centre].next = (uint16_t)(serial + 1);
    begun.place = place;
    begun.serial = serial;
    begun.packet_size = IND_FRAME_BYTES + draft->unit_size;
    return begun;
}

/* "30 CENTRE, after STATE, for a centre other than the two". */
struct ind_begun ind_begin_and_write(struct ind_book *book, uint8_t centre, uint8_t *out, size_t room,
                                     const struct ind_draft *draft)
{
    struct ind_begun refused = {ind_good(), 0, 0, 0};
    if (!ind_book_sound(book))
        refused.verdict = ind_refuse(IND_STATE);
    else if (centre != IND_FIRST_CENTRE && centre != IND_SECOND_CENTRE)
        refused.verdict = ind_refuse(IND_CENTRE);
    return refused.verdict.refusal ? refused : begin_for(book, centre, out, room, draft);
}

/* "with fewer than R resends it is resent, one resend more and age 0, else it has failed and is freed". */
static enum ind_outcome denied(struct ind_exchange *one, uint8_t limit)
{
    if (one->resends < limit) {
        one->resends++;
        one->age = 0;
        return IND_RESENT;
    }
    *one = no_exchange;
    return IND_FAILED;
}

/* "Confirm fits a send of its serial, answer a request"; "Deny fits either, a bad answer fits a request". */
static bool fits(enum ind_told told, uint8_t mode)
{
    switch (told) {
    case IND_CONFIRM_CAME:
        return mode == IND_SEND;
    case IND_ANSWER_CAME:
    case IND_BAD_ANSWER_CAME:
        return mode == IND_REQUEST;
    default:
        return mode != IND_FREE;
    }
}

static enum ind_outcome apply(enum ind_told told, struct ind_exchange *one, uint8_t limit)
{
    if (told == IND_DENY_CAME || told == IND_BAD_ANSWER_CAME)
        return denied(one, limit);
    *one = no_exchange;
    return told == IND_CONFIRM_CAME ? IND_CONFIRMED : IND_ANSWERED;
}

/* "a reply fits only when its source address is that centre's": the place that it fits, or 16. */
static size_t fitting_place(const struct ind_book *book, enum ind_told told, const uint8_t source[6], uint16_t serial)
{
    for (size_t place = 0; place < IND_PLACES; place++) {
        const struct ind_exchange *one = &book->exchange[place];
        const struct ind_centre *centre = &book->centre[ind_centre_of(place)];
        if (ind_is_open_under(one, serial) && fits(told, one->mode) && ind_same_address(centre->address, source))
            return place;
    }
    return IND_PLACES;
}

struct ind_turn ind_hear(struct ind_book *book, enum ind_told told, const uint8_t source[6], uint16_t serial)
{
    struct ind_turn turn = {ind_good(), 0, IND_NOTHING};
    size_t place = fitting_place(book, told, source, serial);
    if (!ind_book_sound(book))
        turn.verdict = ind_refuse(IND_STATE);
    else if (place == IND_PLACES)
        turn.verdict = ind_refuse(IND_STRAY);
    if (turn.verdict.refusal)
        return turn;
    turn.place = place;
    turn.outcome = apply(told, &book->exchange[place], book->limit);
    return turn;
}

/* A packet given as its bytes: a good confirm, answer or deny, whatever it carries, is that reply under its serial, "a bad
 * answer (command 5, refused at VERSION or later)" one under the serial that its bytes have, each from the source that stands
 * in bytes 13 to 18; all else is told as the judge judges it. */
struct ind_turn ind_take(struct ind_book *book, const uint8_t *packet, size_t size)
{
    struct ind_turn turn = {ind_judge_packet(packet, size), 0, IND_NOTHING};
    bool good = turn.verdict.refusal == IND_GOOD;
    if (ind_before_version(turn.verdict.refusal))
        return turn;
    const uint8_t *source = packet + 12;
    uint16_t serial = (uint16_t)ind_low_first(packet + 2);
    if (packet[26] == IND_COMMAND_ANSWER)
        return ind_hear(book, good ? IND_ANSWER_CAME : IND_BAD_ANSWER_CAME, source, serial);
    if (good && packet[26] == IND_COMMAND_CONFIRM)
        return ind_hear(book, IND_CONFIRM_CAME, source, serial);
    if (good && packet[26] == IND_COMMAND_DENY)
        return ind_hear(book, IND_DENY_CAME, source, serial);
    return turn;
}

/* "A tick adds 1 to each age; reaching T acts as deny." */
static enum ind_outcome grow_older(struct ind_exchange *one, const struct ind_book *book)
{
    if (one->mode == IND_FREE)
        return IND_NOTHING;
    one->age++;
    return one->age >= book->timeout ? denied(one, book->limit) : IND_NOTHING;
}

/* "The tick answers all sixteen places"; "a tick serves both". */
struct ind_tick ind_pass_time(struct ind_book *book)
{
    struct ind_tick tick;
    memset(&tick, 0, sizeof tick);
    if (!ind_book_sound(book)) {
        tick.verdict = ind_refuse(IND_STATE);
        return tick;
    }
    for (size_t i = 0; i < IND_PLACES; i++) {
        tick.serial[i] = book->exchange[i].serial;
        tick.outcome[i] = grow_older(&book->exchange[i], book);
    }
    return tick;
}
