/* The calls on packets, beside their counterparts. */
#include "comparing.h"

#include <string.h>

static uint8_t before[LENT_MOST];

static const uint8_t *keep_before(const uint8_t *bytes, size_t size)
{
    if (size > 0)
        memcpy(before, bytes, size);
    return before;
}

struct ind_verdict both_judge_packet(struct trial *t, const uint8_t *packet, size_t size)
{
    calling(t, "trawnosz_judge_packet");
    with_bytes("packet", packet, size);
    struct ind_verdict mine = ind_judge_packet(packet, size);
    agree_verdict(t, mine, trawnosz_judge_packet(lend(t, LENT_INPUT, packet, size), size));
    check_lent(t, LENT_INPUT, "packet", packet);
    return mine;
}

static void tell_header(struct answer *answer, const trawnosz_header *header)
{
    const trawnosz_label *label = &header->label;
    tell(answer, "serial", header->serial);
    tell(answer, "version", header->version);
    tell(answer, "second", label->second);
    tell(answer, "minute", label->minute);
    tell(answer, "hour", label->hour);
    tell(answer, "day", label->day);
    tell(answer, "month", label->month);
    tell(answer, "year", label->year);
    for (size_t i = 0; i < 6; i++)
        tell_of(answer, "source", i, header->source[i]);
    for (size_t i = 0; i < 6; i++)
        tell_of(answer, "destination", i, header->destination[i]);
    tell(answer, "command", header->command);
}

struct ind_packet both_read_packet(struct trial *t, const uint8_t *packet, size_t size)
{
    struct answer a = {0}, b = {0};
    calling(t, "trawnosz_read_packet");
    with_bytes("packet", packet, size);
    struct ind_packet mine = ind_read_packet(packet, size);
    trawnosz_header header = their_header(&mine);
    tell_verdict(&a, mine.verdict);
    tell_header(&a, &header);
    tell(&a, "shown", mine.shown);
    tell(&a, "length", mine.unit_size);
    trawnosz_opened theirs = trawnosz_read_packet(lend(t, LENT_INPUT, packet, size), size);
    tell_their_verdict(&b, theirs.verdict);
    tell_header(&b, &theirs.header);
    tell(&b, "shown", theirs.shown);
    tell(&b, "length", theirs.length);
    agree(t, &a, &b);
    check_lent(t, LENT_INPUT, "packet", packet);
    return mine;
}

struct ind_span both_unit_place(struct trial *t, const uint8_t *packet, size_t size)
{
    calling(t, "trawnosz_find_unit");
    with_bytes("packet", packet, size);
    struct ind_span mine = ind_unit_span(packet, size);
    agree_part(t, mine, trawnosz_find_unit(lend(t, LENT_INPUT, packet, size), size));
    check_lent(t, LENT_INPUT, "packet", packet);
    return mine;
}

struct ind_reply both_answer_to(struct trial *t, const uint8_t *packet, size_t size, const uint8_t label[6], uint8_t *out,
                                size_t room)
{
    struct answer a = {0}, b = {0};
    calling(t, "trawnosz_answer_to");
    with_bytes("packet", packet, size);
    with_bytes("label", label, 6);
    with_bytes("out", keep_before(out, room), room);
    struct ind_reply mine = ind_answer_to(packet, size, label, out, room);
    tell_verdict(&a, mine.verdict);
    tell(&a, "command", mine.command);
    trawnosz_answer theirs = trawnosz_answer_to(lend(t, LENT_INPUT, packet, size), size, their_label(label),
                                                lend(t, LENT_OUTPUT, before, room), room);
    tell_their_verdict(&b, theirs.verdict);
    tell(&b, "command", theirs.command);
    agree(t, &a, &b);
    check_lent(t, LENT_INPUT, "packet", packet);
    check_lent(t, LENT_OUTPUT, "out", out);
    return mine;
}

struct ind_verdict both_write_packet(struct trial *t, uint8_t *out, size_t room, const struct ind_packet *fields)
{
    calling(t, "trawnosz_write_packet");
    with_bytes("out", keep_before(out, room), room);
    with_number("serial", fields->serial);
    with_number("version", fields->user_version);
    with_bytes("label", fields->label, 6);
    with_bytes("source", fields->source, 6);
    with_bytes("destination", fields->destination, 6);
    with_number("command", fields->command);
    with_number("length", fields->unit_size);
    struct ind_verdict mine = ind_write_packet(out, room, fields);
    uint8_t *lent = lend(t, LENT_OUTPUT, before, room);
    agree_verdict(t, mine, trawnosz_write_packet(lent, room, their_header(fields), fields->unit_size));
    check_lent(t, LENT_OUTPUT, "out", out);
    return mine;
}

struct ind_verdict both_write_packet_object(struct trial *t, uint8_t *out, size_t room, size_t unit_size, size_t number,
                                            const struct ind_object *object, const uint8_t *text, size_t text_size)
{
    calling(t, "trawnosz_write_packet_object");
    with_bytes("out", keep_before(out, room), room);
    with_number("length", unit_size);
    with_number("number", number);
    with_number("kind", object->kind);
    with_bytes("label", object->label, 6);
    with_bytes("description", text, text_size);
    struct ind_verdict mine = ind_write_packet_object(out, room, unit_size, number, object, text, text_size);
    uint8_t *lent = lend(t, LENT_OUTPUT, before, room);
    uint8_t *lent_text = lend(t, LENT_INPUT, text, text_size);
    agree_verdict(t, mine, trawnosz_write_packet_object(lent, room, unit_size, number, their_fields(object), lent_text,
                                                        text_size));
    check_lent(t, LENT_OUTPUT, "out", out);
    check_lent(t, LENT_INPUT, "description", text);
    return mine;
}

struct ind_verdict both_write_packet_text(struct trial *t, uint8_t *out, size_t room, const uint8_t *text, size_t text_size)
{
    calling(t, "trawnosz_write_packet_text");
    with_bytes("out", keep_before(out, room), room);
    with_bytes("text", text, text_size);
    struct ind_verdict mine = ind_write_packet_text(out, room, text, text_size);
    uint8_t *lent = lend(t, LENT_OUTPUT, before, room);
    uint8_t *lent_text = lend(t, LENT_INPUT, text, text_size);
    agree_verdict(t, mine, trawnosz_write_packet_text(lent, room, lent_text, text_size));
    check_lent(t, LENT_OUTPUT, "out", out);
    check_lent(t, LENT_INPUT, "text", text);
    return mine;
}
