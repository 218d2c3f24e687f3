/* Round trips: an accepted packet written again from its fields, and a written or begun packet read back. */
#include "comparing.h"

#include <string.h>

/* "Six zeros are to mean "no time"": what a reading must show of six bytes that it has accepted as a label. */
static enum ind_shown shown_of(const uint8_t label[6])
{
    static const uint8_t zeros[6];
    return memcmp(label, zeros, 6) == 0 ? IND_SHOWN_NO_TIME : IND_SHOWN_TIME;
}

/* The object that is read, of which is shown what the bytes of its label are. */
static struct ind_object read_shown(struct trial *t, const uint8_t *unit, size_t size, size_t number)
{
    struct ind_object object = both_read_object(t, unit, size, number);
    bool labelled = made_type_of(unit[0])->label >= 0;
    if (object.shown != (labelled ? shown_of(object.label) : IND_SHOWN_NO_LABEL))
        differ(t, "what is shown of an object's label is not what its bytes are");
    return object;
}

/* Writes every object of a unit again, into a copy in which only its type and n stand. */
static void write_objects_again(struct trial *t, uint8_t *again, size_t room, const uint8_t *unit, size_t size)
{
    for (size_t i = 0; i < unit[1]; i++) {
        struct ind_object object = read_shown(t, unit, size, i);
        struct ind_span text = both_description_place(t, unit, size, i);
        struct ind_verdict verdict;
        if (unit[0] == 26)
            verdict = both_write_packet_text(t, again, room, unit + text.start, text.length);
        else
            verdict = both_write_packet_object(t, again, room, size, i, &object, unit + text.start, text.length);
        if (verdict.refusal)
            differ(t, "an object that was read is not taken by the writer");
    }
}

static bool carries_bytes(const uint8_t *packet)
{
    return packet[26] == IND_COMMAND_CONFIRM || packet[26] == IND_COMMAND_DENY;
}

/* What is found in a packet, put where it must stand to be written: object by object or, for 3 and 6, "kept as bytes". */
static void put_inside_again(struct trial *t, uint8_t *again, const uint8_t *packet, size_t size)
{
    struct ind_span unit = both_unit_place(t, packet, size);
    if (unit.start != 27 || unit.length != size - 30)
        differ(t, "the unit of an accepted packet is not found from byte 28 on with its L");
    if (carries_bytes(packet)) {
        memcpy(again + 27, packet + unit.start, unit.length);
        return;
    }
    memcpy(again + 27, packet + 27, 2);
    write_objects_again(t, again, size, packet + unit.start, unit.length);
}

/* "An accepted packet, written again from its fields, has the same bytes." They are written over bytes that are not 0, so that
 * six zeros are seen to be written. */
static void read_and_write(struct trial *t, const uint8_t *packet, size_t size)
{
    uint8_t again[MADE_MOST];
    memset(again, 0xEE, sizeof again);
    struct ind_packet fields = both_read_packet(t, packet, size);
    if (fields.shown != shown_of(packet + 6))
        differ(t, "what is shown of a packet's label is not what its bytes are");
    put_inside_again(t, again, packet, size);
    if (both_write_packet(t, again, size, &fields).refusal)
        differ(t, "the fields of an accepted packet are not taken by the writer");
    if (memcmp(again, packet, size) != 0)
        differ_bytes(t, "an accepted packet written again", packet, again, size);
}

static bool same_fields(const struct ind_packet *back, const struct ind_packet *fields)
{
    return !back->verdict.refusal && back->serial == fields->serial && back->user_version == fields->user_version
        && memcmp(back->label, fields->label, 6) == 0 && memcmp(back->source, fields->source, 6) == 0
        && memcmp(back->destination, fields->destination, 6) == 0 && back->command == fields->command
        && back->unit_size == fields->unit_size && back->shown == shown_of(fields->label);
}

/* "a packet we write reads back as the same fields." */
static void write_and_read(struct trial *t, const uint8_t *unit, size_t unit_size, uint8_t command)
{
    uint8_t out[MADE_MOST];
    struct ind_packet fields;
    make_fields(t, &fields);
    fields.unit_size = unit_size;
    fields.command = command;
    fill(t, out, sizeof out);
    memcpy(out + 27, unit, unit_size);
    both_write_packet(t, out, 30 + unit_size, &fields);
    struct ind_packet back = both_read_packet(t, out, 30 + unit_size);
    if (!same_fields(&back, &fields) || memcmp(out + 27, unit, unit_size) != 0)
        differ(t, "a written packet does not read back as its fields and its unit");
}

/* What a good begin must have written: the draft's fields under the serial that it gave, to the centre that it named. */
static struct ind_packet fields_of(const struct ind_draft *draft, uint16_t serial, const struct ind_centre *centre)
{
    struct ind_packet fields = {
        .serial = serial, .user_version = draft->user_version, .command = draft->command, .unit_size = draft->unit_size
    };
    memcpy(fields.label, draft->label, 6);
    memcpy(fields.source, draft->source, 6);
    memcpy(fields.destination, centre->address, 6);
    return fields;
}

/* A begun packet is judged good and reads back; its confirm or answer from where it went to then finds the place that was
 * opened for it. */
static void begin_and_read(struct trial *t)
{
    struct ind_book book;
    struct made_begin made;
    uint8_t unit[MADE_MOST];
    make_book_with_room(t, &book);
    make_begin(t, &made, &made_types[below(t, TYPES)]);
    const struct ind_centre *centre = &book.centre[made.centre];
    memcpy(unit, made.out + 27, made.draft.unit_size);
    struct ind_begun begun = both_begin(t, &book, &made);
    struct ind_packet fields = fields_of(&made.draft, begun.serial, centre);
    struct ind_verdict verdict = both_judge_packet(t, made.out, begun.packet_size);
    struct ind_packet back = both_read_packet(t, made.out, begun.packet_size);
    if (begun.verdict.refusal || verdict.refusal || !same_fields(&back, &fields)
        || memcmp(made.out + 27, unit, fields.unit_size) != 0)
        differ(t, "a begun packet does not read back as its draft under its serial, to its centre");
    bool request = fields.command == IND_COMMAND_REQUEST;
    enum ind_told told = request ? IND_ANSWER_CAME : IND_CONFIRM_CAME;
    struct ind_turn turn = both_reply(t, &book, told, back.destination, begun.serial);
    if (turn.place != begun.place || turn.outcome != (request ? IND_ANSWERED : IND_CONFIRMED))
        differ(t, "the reply to a begun packet does not fit its exchange");
}

/* What a confirm or a deny carries, written and read back. */
static void carry_and_read(struct trial *t)
{
    uint8_t carried[MADE_MOST];
    size_t size = make_carried(t, carried);
    write_and_read(t, carried, size, make_carrier(t));
}

/* "Panels without a clock": six zeros for every label of a good packet. */
static void clear_labels(uint8_t *packet, size_t size)
{
    const struct made_type *type = carries_bytes(packet) ? NULL : made_type_of(packet[27]);
    memset(packet + 6, 0, 6);
    for (size_t i = 0; type && type->label >= 0 && i < packet[28]; i++)
        memset(packet + 29 + i * type->size + (size_t)type->label, 0, 6);
    seal(packet, size - 30);
}

void try_round_trip(struct trial *t)
{
    uint8_t packet[MADE_MOST];
    size_t size = make_any_packet(t, packet);
    if (chance(t, 15))
        clear_labels(packet, size);
    read_and_write(t, packet, size);
    write_and_read(t, packet + 27, size - 30, packet[26]);
    carry_and_read(t);
    begin_and_read(t);
}
