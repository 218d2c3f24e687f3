/* The calls on units and objects, beside their counterparts. */
#include "comparing.h"

#include <string.h>

static uint8_t before[LENT_MOST];

static const uint8_t *start_unit_call(struct trial *t, const char *call, const uint8_t *unit, size_t size)
{
    calling(t, call);
    with_bytes("unit", unit, size);
    return lend(t, LENT_INPUT, unit, size);
}

struct ind_verdict both_judge_unit(struct trial *t, const uint8_t *unit, size_t size)
{
    const uint8_t *lent = start_unit_call(t, "trawnosz_judge_unit", unit, size);
    struct ind_verdict mine = ind_judge_unit(unit, size);
    agree_verdict(t, mine, trawnosz_judge_unit(lent, size));
    check_lent(t, LENT_INPUT, "unit", unit);
    return mine;
}

struct ind_verdict both_judge_unit_under(struct trial *t, const uint8_t *unit, size_t size, uint8_t command)
{
    const uint8_t *lent = start_unit_call(t, "trawnosz_judge_unit_under", unit, size);
    with_number("command", command);
    struct ind_verdict mine = ind_judge_unit_under(unit, size, command);
    agree_verdict(t, mine, trawnosz_judge_unit_under(lent, size, command));
    check_lent(t, LENT_INPUT, "unit", unit);
    return mine;
}

struct ind_span both_object_place(struct trial *t, const uint8_t *unit, size_t size, size_t number)
{
    const uint8_t *lent = start_unit_call(t, "trawnosz_find_object", unit, size);
    with_number("number", number);
    struct ind_span mine = ind_object_span(unit, size, number);
    agree_part(t, mine, trawnosz_find_object(lent, size, number));
    check_lent(t, LENT_INPUT, "unit", unit);
    return mine;
}

struct ind_span both_description_place(struct trial *t, const uint8_t *unit, size_t size, size_t number)
{
    const uint8_t *lent = start_unit_call(t, "trawnosz_find_description", unit, size);
    with_number("number", number);
    struct ind_span mine = ind_description_span(unit, size, number);
    agree_part(t, mine, trawnosz_find_description(lent, size, number));
    check_lent(t, LENT_INPUT, "unit", unit);
    return mine;
}

static void tell_fields(struct answer *answer, const trawnosz_fields *fields)
{
    tell(answer, "kind", fields->kind);
    tell(answer, "system", fields->system);
    tell(answer, "address", fields->address);
    tell(answer, "part", fields->part);
    tell(answer, "place", fields->part_address);
    tell(answer, "value", (uint16_t)fields->value);
    tell(answer, "low", fields->low);
    tell(answer, "high", fields->high);
    tell(answer, "analogue", fields->analogue);
    tell(answer, "operation", fields->operation);
    tell(answer, "operator_", fields->operator_);
    tell(answer, "state", fields->state);
    tell(answer, "main", fields->main);
    tell(answer, "minor", fields->minor);
    tell(answer, "second", fields->label.second);
    tell(answer, "minute", fields->label.minute);
    tell(answer, "hour", fields->label.hour);
    tell(answer, "day", fields->label.day);
    tell(answer, "month", fields->label.month);
    tell(answer, "year", fields->label.year);
}

struct ind_object both_read_object(struct trial *t, const uint8_t *unit, size_t size, size_t number)
{
    struct answer a = {0}, b = {0};
    const uint8_t *lent = start_unit_call(t, "trawnosz_read_object", unit, size);
    with_number("number", number);
    struct ind_object mine = ind_read_object(unit, size, number);
    trawnosz_fields fields = their_fields(&mine);
    tell_verdict(&a, mine.verdict);
    tell_fields(&a, &fields);
    tell(&a, "shown", mine.shown);
    trawnosz_typed theirs = trawnosz_read_object(lent, size, number);
    tell_their_verdict(&b, theirs.verdict);
    tell_fields(&b, &theirs.fields);
    tell(&b, "shown", theirs.shown);
    agree(t, &a, &b);
    check_lent(t, LENT_INPUT, "unit", unit);
    return mine;
}

struct ind_verdict both_write_object(struct trial *t, uint8_t *unit, size_t size, size_t number,
                                     const struct ind_object *object, const uint8_t *text, size_t text_size)
{
    if (size > 0)
        memcpy(before, unit, size);
    calling(t, "trawnosz_write_object");
    with_bytes("unit", before, size);
    with_number("number", number);
    with_number("kind", object->kind);
    with_bytes("label", object->label, 6);
    with_bytes("description", text, text_size);
    struct ind_verdict mine = ind_write_object(unit, size, number, object, text, text_size);
    uint8_t *lent = lend(t, LENT_OUTPUT, before, size);
    uint8_t *lent_text = lend(t, LENT_INPUT, text, text_size);
    agree_verdict(t, mine, trawnosz_write_object(lent, size, number, their_fields(object), lent_text, text_size));
    check_lent(t, LENT_OUTPUT, "unit", unit);
    check_lent(t, LENT_INPUT, "description", text);
    return mine;
}

struct ind_verdict both_write_text(struct trial *t, uint8_t *out, size_t room, const uint8_t *text, size_t text_size)
{
    if (room > 0)
        memcpy(before, out, room);
    calling(t, "trawnosz_write_text");
    with_bytes("out", before, room);
    with_bytes("text", text, text_size);
    struct ind_verdict mine = ind_write_text(out, room, text, text_size);
    uint8_t *lent = lend(t, LENT_OUTPUT, before, room);
    uint8_t *lent_text = lend(t, LENT_INPUT, text, text_size);
    agree_verdict(t, mine, trawnosz_write_text(lent, room, lent_text, text_size));
    check_lent(t, LENT_OUTPUT, "out", out);
    check_lent(t, LENT_INPUT, "text", text);
    return mine;
}
