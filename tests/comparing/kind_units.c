/* Units alone and under every command, those that end too early or too late among them, and their objects by number. */
#include "comparing.h"

#include <string.h>

static void ask_for_object(struct trial *t, const uint8_t *unit, size_t size, size_t number)
{
    both_object_place(t, unit, size, number);
    both_read_object(t, unit, size, number);
    both_description_place(t, unit, size, number);
}

/* The numbers that tell: the first, the last, one behind it, and numbers that are too large for anything. */
static void ask_for_objects(struct trial *t, const uint8_t *unit, size_t size)
{
    static const size_t huge[] = {255, 256, 65536, (size_t)1 << 32, SIZE_MAX / 2, SIZE_MAX - 1, SIZE_MAX};
    size_t n = size < 2 ? 1 : unit[1];
    ask_for_object(t, unit, size, 0);
    ask_for_object(t, unit, size, n - 1);
    ask_for_object(t, unit, size, n);
    ask_for_object(t, unit, size, below(t, n + 1));
    ask_for_object(t, unit, size, huge[below(t, 7)]);
}

static void judge_under_commands(struct trial *t, const uint8_t *unit, size_t size)
{
    bool all = size < 64 && chance(t, 20);
    for (unsigned command = 0; command <= (all ? 255 : 7); command++)
        both_judge_unit_under(t, unit, size, (uint8_t)command);
    both_judge_unit_under(t, unit, size, any_byte(t));
}

static void ask_all(struct trial *t, const uint8_t *unit, size_t size)
{
    both_judge_unit(t, unit, size);
    judge_under_commands(t, unit, size);
    ask_for_objects(t, unit, size);
}

/* "For 3 and 6 a unit of 0 to 1,024 bytes is accepted": any bytes, or such as begin with a good unit, of lengths around the
 * most, and from time to time of some that are far above it but for their low bytes. */
static void judge_around_most(struct trial *t)
{
    static const size_t lengths[] = {0, 1, 2, 1022, 1023, 1024, 1025, 1026, 1279, 1280, 2048, 65535, 65536, 65537, 66560};
    static uint8_t bytes[66560];
    size_t size = lengths[below(t, t->turn % 16 == 0 ? 15 : 11)];
    fill(t, bytes, size);
    if (chance(t, 50))
        make_any_unit(t, bytes);
    for (unsigned command = 0; command <= 7; command++)
        both_judge_unit_under(t, bytes, size, (uint8_t)command);
}

void try_units(struct trial *t)
{
    uint8_t unit[MADE_MOST];
    size_t size = make_any_unit(t, unit);
    if (chance(t, 60))
        spoil_unit(t, unit, &size);
    if (chance(t, 20))
        spoil_unit(t, unit, &size);
    ask_all(t, unit, size);
    if (chance(t, 50))
        judge_around_most(t);
}

/* Every length from 0 to 1,100 in turn, under a type and an n that mostly are in the table. */
void try_unit_lengths(struct trial *t)
{
    uint8_t unit[MADE_MOST];
    size_t size = t->turn % 1101;
    fill(t, unit, sizeof unit);
    const struct made_type *type = &made_types[below(t, TYPES)];
    make_unit(t, unit, type, type->most);
    if (type->type != 26 && chance(t, 60))
        unit[1] = (uint8_t)((size < 2 ? 0 : size - 2) / type->size);
    ask_all(t, unit, size);
    unit[0] = 26;
    unit[1] = 1;
    unit[2] = (uint8_t)(size - 3);
    ask_all(t, unit, size);
}

/* What a unit is refused by is known where it was made good, its labels aside, and then cut or added to. */
static void expect_end(struct trial *t, const uint8_t *unit, size_t size, enum ind_refusal refusal, size_t place)
{
    struct ind_verdict verdict = both_judge_unit(t, unit, size);
    if (verdict.refusal != refusal || verdict.place != place)
        differ(t, "a cut unit is not SHORT at its first object that is not whole, or a padded one not LONG");
}

static void expect_cut(struct trial *t, const uint8_t *unit, size_t cut)
{
    expect_end(t, unit, cut, IND_SHORT, first_not_whole(unit, cut));
}

/* Every type with every n in turn, half of them with a bad label, which is refused later: cut somewhere, short ones
 * everywhere, and with bytes behind them. */
void try_unit_ends(struct trial *t)
{
    uint8_t unit[MADE_MOST];
    const struct made_type *type = &made_types[t->turn % TYPES];
    size_t size = make_unit(t, unit, type, t->turn / TYPES % type->most + 1);
    if (chance(t, 50))
        spoil_unit_label(t, unit, size);
    for (size_t cut = 2; size <= 100 && cut < size; cut++)
        expect_cut(t, unit, cut);
    size_t cut = choose_cut(t, unit, size);
    expect_cut(t, unit, cut);
    ask_all(t, unit, cut);
    pad_unit(t, unit, &size);
    expect_end(t, unit, size, IND_LONG, 0);
    ask_all(t, unit, size);
}
