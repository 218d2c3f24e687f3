/* What is given to begin an exchange: a centre, a draft, and an output in which its unit stands; and replies to a table's
 * exchanges. */
#include "comparing.h"

#include <string.h>

/* A number that names no centre. */
uint8_t make_no_centre(struct trial *t)
{
    return (uint8_t)(chance(t, 40) ? 2 : chance(t, 40) ? 255 : between(t, 2, 255));
}

/* A type that the command carries: 1, 2 or 4. */
const struct made_type *make_type_under(struct trial *t, uint8_t command)
{
    const struct made_type *type;
    do
        type = &made_types[below(t, TYPES)];
    while (type->command != command);
    return type;
}

/* All good, for either centre, under the command that a type's row names, which is one that begins an exchange. */
void make_begin(struct trial *t, struct made_begin *made, const struct made_type *type)
{
    struct ind_draft *draft = &made->draft;
    made->centre = (uint8_t)below(t, 2);
    fill(t, made->out, sizeof made->out);
    draft->user_version = any_byte(t);
    make_label(t, draft->label);
    fill(t, draft->source, 6);
    draft->command = type->command;
    draft->unit_size = make_unit(t, made->out + 27, type, make_n(t, type->most));
    made->room = 30 + draft->unit_size + (chance(t, 50) ? 0 : below(t, 40));
}

/* Mostly one thing wrong, now and then nothing or several. */
void spoil_begin(struct trial *t, struct made_begin *made)
{
    static const size_t lengths[] = {
        0, 1, 1023, 1024, 1025, 1026, 1999, 2000, 2001, 65536, (size_t)1 << 32, SIZE_MAX - 30, SIZE_MAX - 29, SIZE_MAX
    };
    struct ind_draft *draft = &made->draft;
    if (chance(t, 15))
        made->centre = make_no_centre(t);
    if (chance(t, 45))
        spoil_unit(t, made->out + 27, &draft->unit_size);
    if (chance(t, 25))
        draft->command = chance(t, 70) ? (uint8_t)below(t, 8) : any_byte(t);
    if (chance(t, 15))
        make_bad_label(t, draft->label);
    if (chance(t, 15))
        draft->unit_size = chance(t, 80) ? lengths[below(t, 14)] : below(t, 1101);
    size_t needed = draft->unit_size <= 2001 ? 30 + draft->unit_size : sizeof made->out + 1;
    made->room = choose_room(t, needed, sizeof made->out);
}

/* A begin of a sequence: refused ones stand among good ones, so that a serial or place that they used up would be seen. */
void make_any_begin(struct trial *t, struct made_begin *made)
{
    make_begin(t, made, make_type_under(t, chance(t, 50) ? IND_COMMAND_REQUEST : (uint8_t)between(t, 1, 2)));
    if (chance(t, 30))
        spoil_begin(t, made);
}

struct ind_begun both_begin(struct trial *t, struct ind_book *book, struct made_begin *made)
{
    return both_begin_and_write(t, book, made->centre, made->out, made->room, &made->draft);
}

/* The serial of a place, one beside it, or any. */
static uint16_t choose_serial(struct trial *t, const struct ind_book *book, size_t place)
{
    uint16_t serial = book->exchange[place].serial;
    return (uint16_t)(chance(t, 85) ? serial : chance(t, 60) ? serial + 1u : draw(t));
}

/* Mostly a centre's own address; else the other's, one that is a byte away from its own, one with bytes of both, or any. */
static void choose_source(struct trial *t, const struct ind_book *book, size_t centre, uint8_t source[6])
{
    const uint8_t *other = book->centre[1 - centre].address;
    memcpy(source, book->centre[centre].address, 6);
    switch (below(t, 16)) {
    case 0:
    case 1:
        memcpy(source, other, 6);
        break;
    case 2:
        source[below(t, 6)] ^= (uint8_t)between(t, 1, 255);
        break;
    case 3:
        for (size_t i = below(t, 6); i < 6; i++)
            source[i] = other[i];
        break;
    case 4:
        fill(t, source, 6);
        break;
    default:
        break;
    }
}

/* A reply to what stands at a place, mostly from the centre that the place belongs to. */
struct made_reply make_reply(struct trial *t, const struct ind_book *book)
{
    struct made_reply reply;
    size_t place = below(t, 16);
    reply.serial = choose_serial(t, book, place);
    choose_source(t, book, place / 8, reply.source);
    return reply;
}

/* A reply as a packet, now and then with a centre as destination, which says nothing: an answer as often as all others
 * together, good, refused at each place of the order behind the sum, or with its frame spoiled. */
size_t make_reply_packet(struct trial *t, const struct ind_book *book, uint8_t *packet)
{
    size_t size = make_any_packet(t, packet);
    struct made_reply reply = make_reply(t, book);
    packet[2] = (uint8_t)reply.serial;
    packet[3] = (uint8_t)(reply.serial >> 8);
    memcpy(packet + 12, reply.source, 6);
    if (chance(t, 20))
        memcpy(packet + 18, book->centre[below(t, 2)].address, 6);
    if (packet[26] == 2 && chance(t, 80))
        packet[26] = 5;
    seal(packet, size - 30);
    if (chance(t, 50))
        spoil_packet(t, packet, &size);
    return size;
}
