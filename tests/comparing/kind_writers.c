/* Object writers: every kind of fields against every type of unit, texts and labels good and bad, any room. */
#include "comparing.h"

#include <string.h>

/* A unit whose type and n stand; its objects are good, zeros, which are good too, or anything, mostly with bad labels. */
static size_t make_written_unit(struct trial *t, uint8_t *unit)
{
    size_t size = make_any_unit(t, unit);
    if (chance(t, 25))
        memset(unit + 2, 0, unit[0] == 26 ? 0 : size - 2);
    else if (chance(t, 35) && unit[0] != 26)
        fill(t, unit + 2, size - 2);
    if (chance(t, 15))
        spoil_unit(t, unit, &size);
    return size;
}

static uint8_t choose_kind(struct trial *t, uint8_t type)
{
    if (chance(t, 80))
        return type;
    return chance(t, 60) ? made_types[below(t, TYPES)].type : any_byte(t);
}

static size_t choose_text_size(struct trial *t, uint8_t type)
{
    if (chance(t, 20))
        return chance(t, 50) ? between(t, 30, 32) : below(t, 41);
    return type == 2 || type == 7 ? 31 : 0;
}

static size_t choose_number(struct trial *t, size_t n)
{
    static const size_t huge[] = {255, 256, (size_t)1 << 32, SIZE_MAX - 1, SIZE_MAX};
    if (chance(t, 85))
        return below(t, n);
    return chance(t, 60) ? n : huge[below(t, 5)];
}

static void write_once(struct trial *t, uint8_t *unit, size_t size, uint8_t kind)
{
    uint8_t text[40];
    struct ind_object object;
    size_t n = size < 2 ? 1 : unit[1];
    fill(t, text, sizeof text);
    make_object(t, &object, kind);
    size_t text_size = choose_text_size(t, unit[0]);
    both_write_object(t, unit, size, choose_number(t, n), &object, text, text_size);
}

void try_object_writer(struct trial *t)
{
    uint8_t unit[MADE_MOST];
    size_t size = make_written_unit(t, unit);
    for (int i = 0; i < 4; i++)
        write_once(t, unit, size, choose_kind(t, unit[0]));
    if (t->turn % 16 == 0 && size < 400) {
        for (unsigned kind = 0; kind < 256; kind++)
            write_once(t, unit, size, (uint8_t)kind);
    }
}

/* A unit's length that the caller names: mostly the right one. */
static size_t choose_length(struct trial *t, size_t size)
{
    static const size_t lengths[] = {
        0, 1, 1023, 1024, 1025, 1026, 65536, (size_t)1 << 32, SIZE_MAX - 27, SIZE_MAX - 26, SIZE_MAX
    };
    if (chance(t, 85))
        return size;
    return chance(t, 50) ? below(t, 1101) : lengths[below(t, 11)];
}

void try_packet_object_writer(struct trial *t)
{
    uint8_t out[MADE_MOST + 27];
    uint8_t text[40];
    struct ind_object object;
    fill(t, out, 27);
    fill(t, text, sizeof text);
    memset(out + 27, 0, MADE_MOST);
    size_t size = make_written_unit(t, out + 27);
    make_object(t, &object, choose_kind(t, out[27]));
    size_t length = choose_length(t, size);
    size_t room = choose_room(t, length <= 1100 ? 27 + length : MADE_MOST + 1, MADE_MOST);
    size_t number = choose_number(t, size < 2 ? 1 : out[28]);
    both_write_packet_object(t, out, room, length, number, &object, text, choose_text_size(t, out[27]));
}

/* Texts of 0 to 300 bytes in turn, into rooms that are exact, one short, longer or anything. */
void try_text_writers(struct trial *t)
{
    uint8_t out[400];
    uint8_t text[301];
    size_t size = t->turn % 301;
    fill(t, text, sizeof text);
    fill(t, out, sizeof out);
    both_write_text(t, out, choose_room(t, 3 + size, sizeof out), text, size);
    fill(t, out, sizeof out);
    both_write_packet_text(t, out, choose_room(t, 30 + size, sizeof out), text, size);
    size = between(t, 253, 257);
    both_write_text(t, out, choose_room(t, 3 + size, sizeof out), text, size);
    both_write_packet_text(t, out, choose_room(t, 30 + size, sizeof out), text, size);
}

/* Every L from 0 to 1,100 in turn, units that stand right, and what confirms and denies carry, under any command. */
void try_packet_writer(struct trial *t)
{
    static const size_t lengths[] = {1024, 1025, 65536, (size_t)1 << 32, SIZE_MAX - 30, SIZE_MAX - 29, SIZE_MAX};
    uint8_t out[MADE_MOST + 30];
    struct ind_packet fields;
    fill(t, out, sizeof out);
    make_fields(t, &fields);
    fields.unit_size = make_inside(t, out + 27, &fields.command);
    if (chance(t, 40))
        spoil_unit(t, out + 27, &fields.unit_size);
    if (chance(t, 20))
        fields.unit_size = chance(t, 80) ? t->turn % 1101 : lengths[below(t, 7)];
    if (chance(t, 10))
        fields.unit_size = 0;
    if (chance(t, 25))
        fields.command = chance(t, 60) ? (uint8_t)below(t, 8) : any_byte(t);
    if (chance(t, 15))
        make_bad_label(t, fields.label);
    size_t needed = fields.unit_size <= 1100 ? 30 + fields.unit_size : MADE_MOST + 1;
    both_write_packet(t, out, choose_room(t, needed, MADE_MOST), &fields);
}
