/* Begin and write as one: any table with any centre, draft, unit, L and room; faults set on purpose, one and several at once,
 * so that the refusal that must come is known; and refused calls before a good one. */
#include "comparing.h"

#include <string.h>

/* What may be wrong, in the order in which it is refused, and by what. */
enum fault {
    BAD_TABLE, NO_CENTRE, NO_PLACE, TOO_LONG, NO_ROOM, BAD_COMMAND, BAD_HEAD_LABEL, NO_UNIT, BAD_TYPE, BAD_COUNT, CUT_UNIT,
    PADDED_UNIT, BAD_OBJECT_LABEL, NO_FAULT
};

static const enum ind_refusal refusals[] = {
    IND_STATE, IND_CENTRE, IND_FULL, IND_LENGTH, IND_ROOM, IND_COMMAND, IND_TIME, IND_UNIT, IND_TYPE, IND_COUNT, IND_SHORT,
    IND_LONG, IND_TIME, IND_GOOD
};

/* Calls on one table, each on the table as it was, with 0 to 8 places open for one centre and for the other in turn. */
void try_begins(struct trial *t)
{
    struct ind_book book, copy;
    struct made_begin made;
    make_book_with(t, &book, t->turn % 9, t->turn / 9 % 9);
    if (chance(t, 25))
        spoil_book(t, &book);
    for (size_t i = 0; i < 5; i++) {
        make_begin(t, &made, &made_types[(t->turn + i) % TYPES]);
        if (i > 0)
            spoil_begin(t, &made);
        both_begin(t, (copy = book, &copy), &made);
    }
}

/* A set of faults by their bits: the first one, and half of the time any of those behind it. */
static unsigned choose_faults(struct trial *t, enum fault first)
{
    unsigned behind = chance(t, 50) ? (unsigned)draw(t) << first : 0;
    return (1u << first | behind) & ((1u << NO_FAULT) - 1);
}

static bool has(unsigned faults, enum fault fault)
{
    return faults >> fault & 1;
}

/* A type that is in no row, or that another command carries. */
static uint8_t choose_bad_type(struct trial *t, uint8_t command)
{
    static const uint8_t unknown[] = {0, 5, 6, 9, 20, 22, 27, 29, 60, 63, 89, 91, 128, 255};
    const struct made_type *other = &made_types[below(t, TYPES)];
    return other->command != command ? other->type : unknown[below(t, sizeof unknown)];
}

/* Makes one object's label bad and now and then a later one's too; the first of them is told as the place. */
static size_t spoil_labels(struct trial *t, uint8_t *unit, const struct made_type *type)
{
    size_t first = below(t, unit[1]);
    make_bad_label(t, unit + 2 + first * type->size + (size_t)type->label);
    if (chance(t, 50))
        make_bad_label(t, unit + 2 + between(t, first, unit[1] - 1u) * type->size + (size_t)type->label);
    return first + 1;
}

/* Sets those faults that lie in the unit's bytes; returns the place of a bad label in it. */
static size_t set_unit_faults(struct trial *t, struct made_begin *made, unsigned faults)
{
    uint8_t *unit = made->out + 27;
    const struct made_type *type = made_type_of(unit[0]);
    size_t place = 0;
    if (has(faults, BAD_OBJECT_LABEL) && type->label >= 0)
        place = spoil_labels(t, unit, type);
    if (has(faults, BAD_COUNT))
        unit[1] = (uint8_t)(chance(t, 50) ? 0 : type->most + 1u);
    if (has(faults, BAD_TYPE))
        unit[0] = choose_bad_type(t, type->command);
    return place;
}

/* Sets those faults that lie in L and the room; of two that ask for another L the one that is refused first is set. */
static void set_size_faults(struct trial *t, struct made_begin *made, unsigned faults)
{
    static const size_t long_ones[] = {1025, 1026, 1999, 2000, 2001, 65536, (size_t)1 << 32, SIZE_MAX - 29, SIZE_MAX};
    size_t *length = &made->draft.unit_size;
    if (has(faults, TOO_LONG))
        *length = long_ones[below(t, 9)];
    else if (has(faults, NO_UNIT))
        *length = below(t, 2);
    else if (has(faults, CUT_UNIT))
        *length = choose_cut(t, made->out + 27, *length);
    else if (has(faults, PADDED_UNIT))
        pad_unit(t, made->out + 27, length);
    bool any = *length > 2001;
    if (has(faults, NO_ROOM))
        made->room = any || chance(t, 50) ? below(t, 30) : chance(t, 50) ? 29 + *length : below(t, 30 + *length);
    else
        made->room = any ? sizeof made->out : 30 + *length + (chance(t, 50) ? 0 : below(t, 40));
}

/* What is given to a call for a centre with these faults; returns the place that the first of them is told with. */
static size_t make_faulty(struct trial *t, struct made_begin *made, size_t centre, enum fault first, unsigned faults)
{
    static const uint8_t others[] = {0, 3, 5, 6, 7, 8, 128, 255};
    const struct made_type *type = &made_types[below(t, TYPES)];
    while (first == BAD_OBJECT_LABEL && type->label < 0)
        type = &made_types[below(t, TYPES)];
    make_begin(t, made, type);
    made->centre = (uint8_t)centre;
    size_t place = set_unit_faults(t, made, faults);
    set_size_faults(t, made, faults);
    if (has(faults, NO_CENTRE))
        made->centre = make_no_centre(t);
    if (has(faults, BAD_COMMAND))
        made->draft.command = others[below(t, sizeof others)];
    if (has(faults, BAD_HEAD_LABEL))
        make_bad_label(t, made->draft.label);
    if (first == CUT_UNIT)
        return first_not_whole(made->out + 27, made->draft.unit_size);
    return first == BAD_OBJECT_LABEL ? place : 0;
}

/* One call for a centre with a known first fault: the refusal is the one of that fault, and then nothing has changed. */
static void expect_fault(struct trial *t, struct ind_book *book, size_t centre, enum fault first, unsigned faults)
{
    struct made_begin made;
    struct ind_book before = *book;
    uint8_t kept[sizeof made.out];
    size_t place = make_faulty(t, &made, centre, first, faults);
    memcpy(kept, made.out, sizeof kept);
    struct ind_begun begun = both_begin(t, book, &made);
    if (begun.verdict.refusal != refusals[first] || begun.verdict.place != place)
        differ(t, "a begin is not refused by the first of its faults");
    if (first == NO_FAULT)
        return;
    if (begun.place != 0 || begun.serial != 0 || begun.packet_size != 0)
        differ(t, "a refused begin answers more than its refusal");
    if (!same_book(&before, book) || memcmp(made.out, kept, sizeof kept) != 0)
        differ(t, "a refused begin has changed the table or the output");
}

/* Each fault as the first one, alone and with others behind it; whether the other centre's eight are open says nothing. */
void try_begin_orders(struct trial *t)
{
    struct ind_book book;
    enum fault first = (enum fault)(t->turn % (NO_FAULT + 1));
    unsigned faults = choose_faults(t, first);
    size_t centre = below(t, 2), open[2];
    open[centre] = has(faults, NO_PLACE) ? 8 : below(t, 8);
    open[1 - centre] = chance(t, 40) ? 8 : below(t, 9);
    make_book_with(t, &book, open[0], open[1]);
    if (has(faults, BAD_TABLE))
        break_book(t, &book);
    expect_fault(t, &book, centre, first, faults);
}

/* A fault that lies in what is given beside the table. */
static enum fault choose_fault(struct trial *t)
{
    return chance(t, 10) ? NO_CENTRE : (enum fault)between(t, TOO_LONG, BAD_OBJECT_LABEL);
}

/* Refused calls on one table, for both centres, and then a good one, which gives what it gives on a table that has seen none
 * of them. */
void try_begin_traces(struct trial *t)
{
    struct ind_book book, unseen;
    struct made_begin made, again;
    make_book_with_room(t, &book);
    unseen = book;
    for (size_t i = between(t, 1, 4); i > 0; i--) {
        enum fault first = choose_fault(t);
        size_t centre = below(t, 2);
        expect_fault(t, &book, centre, first, choose_faults(t, first));
    }
    make_begin(t, &made, &made_types[below(t, TYPES)]);
    again = made;
    struct ind_begun with = both_begin(t, &book, &made);
    struct ind_begun without = both_begin(t, &unseen, &again);
    if (with.verdict.refusal || without.verdict.refusal || with.place != without.place || with.serial != without.serial)
        differ(t, "a good begin is refused, or a refused one before it has used up a place or a serial");
    if (!same_book(&book, &unseen) || memcmp(made.out, again.out, sizeof made.out) != 0)
        differ(t, "a refused begin has left a trace in the table or in the next packet");
}
