/* Labels good and bad, good units, what confirms and denies carry, packets and fields, often at their limits. */
#include "comparing.h"

#include <string.h>

const struct made_type made_types[TYPES] = {
    {1, 2, 10, 4, 102}, {2, 2, 46, 40, 22}, {3, 2, 16, 10, 63}, {4, 2, 10, 4, 102}, {7, 2, 38, -1, 26},
    {8, 2, 8, 2, 1},    {21, 2, 7, 1, 1},   {24, 2, 8, 2, 127}, {25, 2, 2, -1, 1},  {26, 2, 1, -1, 1},
    {28, 2, 6, 0, 1},   {61, 4, 2, -1, 102}, {62, 4, 6, -1, 22}, {90, 1, 6, 0, 1},
};

static const uint8_t least[6] = {0, 0, 0, 1, 1, 0};
static const uint8_t most[6] = {59, 59, 23, 31, 12, 99};

const struct made_type *made_type_of(uint8_t type)
{
    for (int i = 0; i < TYPES; i++) {
        if (made_types[i].type == type)
            return &made_types[i];
    }
    return NULL;
}

/* A time: each byte anywhere in its range, one in four at an end of it. */
static void make_time(uint64_t bits, uint8_t *label)
{
    for (int i = 0; i < 6; i++) {
        uint8_t eight = (uint8_t)(bits >> (8 * i));
        label[i] = (uint8_t)(least[i] + eight / 4 % (most[i] - least[i] + 1));
        if (eight % 8 == 0)
            label[i] = least[i];
        if (eight % 8 == 1)
            label[i] = most[i];
    }
}

/* One in ten is no time, one in twenty the time that is nearest to it; all others are any time. */
void make_label(struct trial *t, uint8_t *label)
{
    uint64_t bits = draw(t);
    unsigned kind = (unsigned)(bits >> 48) % 20;
    if (kind < 2)
        memset(label, 0, 6);
    else if (kind == 2)
        memcpy(label, least, 6);
    else
        make_time(bits, label);
}

/* Five zeros and a byte above 0, which never is a time, since day and month cannot both be that byte. */
static void make_nearly_no_time(struct trial *t, uint8_t *label)
{
    size_t i = below(t, 6);
    const size_t bytes[] = {1, most[i], most[i] + 1u, between(t, 1, 255)};
    memset(label, 0, 6);
    label[i] = (uint8_t)bytes[below(t, 4)];
}

/* A time with one byte out of its range, mostly by one, or what is nearly no time; six zeros are neither. */
void make_bad_label(struct trial *t, uint8_t *label)
{
    if (chance(t, 25)) {
        make_nearly_no_time(t, label);
        return;
    }
    make_time(draw(t), label);
    size_t i = below(t, 6);
    if (least[i] == 1 && chance(t, 50))
        label[i] = 0;
    else
        label[i] = (uint8_t)(chance(t, 70) ? most[i] + 1u : between(t, most[i] + 1u, 255));
}

size_t make_n(struct trial *t, size_t largest)
{
    switch (below(t, 6)) {
    case 0:
        return 1;
    case 1:
        return largest;
    case 2:
        return between(t, 1, largest);
    default:
        return between(t, 1, largest < 4 ? largest : 4);
    }
}

/* A good unit; for type 26 a text of any length, often 0 or 255. */
size_t make_unit(struct trial *t, uint8_t *unit, const struct made_type *type, size_t n)
{
    unit[0] = type->type;
    unit[1] = (uint8_t)n;
    if (type->type == 26) {
        size_t k = chance(t, 20) ? 255 : chance(t, 20) ? 0 : below(t, 256);
        fill(t, unit + 2, k + 1);
        unit[2] = (uint8_t)k;
        return 3 + k;
    }
    fill(t, unit + 2, n * type->size);
    for (size_t i = 0; i < n && type->label >= 0; i++)
        make_label(t, unit + 2 + i * type->size + (size_t)type->label);
    return 2 + n * type->size;
}

size_t make_any_unit(struct trial *t, uint8_t *unit)
{
    const struct made_type *type = &made_types[below(t, TYPES)];
    return make_unit(t, unit, type, make_n(t, type->most));
}

/* A command that carries the type: 2 or 5, 4, or 1. */
uint8_t make_command(struct trial *t, uint8_t type)
{
    uint8_t command = made_type_of(type)->command;
    return command == 2 && chance(t, 40) ? 5 : command;
}

void seal(uint8_t *packet, size_t unit_size)
{
    unsigned sum = 0;
    for (size_t i = 2; i < 27 + unit_size; i++)
        sum += packet[i];
    packet[27 + unit_size] = (uint8_t)sum;
    packet[28 + unit_size] = '#';
    packet[29 + unit_size] = '#';
}

/* The 27 bytes before a unit. */
void make_head(struct trial *t, uint8_t *packet, size_t unit_size, uint8_t command)
{
    fill(t, packet, 27);
    packet[0] = '@';
    packet[1] = '@';
    packet[4] = 1;
    make_label(t, packet + 6);
    packet[24] = (uint8_t)unit_size;
    packet[25] = (uint8_t)(unit_size >> 8);
    packet[26] = command;
}

/* A confirm or a deny. */
uint8_t make_carrier(struct trial *t)
{
    return chance(t, 50) ? 3 : 6;
}

/* What a confirm or a deny carries: nothing, a good unit, or any bytes, often of the fewest or the most, and now and then
 * such as a packet begins or ends with. */
size_t make_carried(struct trial *t, uint8_t *bytes)
{
    static const size_t sizes[] = {0, 0, 1, 1, 2, 3, 1023, 1024};
    if (chance(t, 20))
        return make_any_unit(t, bytes);
    size_t size = chance(t, 60) ? sizes[below(t, 8)] : below(t, chance(t, 85) ? 64 : 1025);
    if (chance(t, 10))
        memset(bytes, chance(t, 50) ? '@' : '#', size);
    else
        fill(t, bytes, size);
    return size;
}

/* What stands in a good packet from byte 28 on, and the command that it stands under. */
size_t make_inside(struct trial *t, uint8_t *unit, uint8_t *command)
{
    if (chance(t, 20)) {
        *command = make_carrier(t);
        return make_carried(t, unit);
    }
    size_t size = make_any_unit(t, unit);
    *command = make_command(t, unit[0]);
    return size;
}

size_t make_any_packet(struct trial *t, uint8_t *packet)
{
    uint8_t command;
    size_t unit_size = make_inside(t, packet + 27, &command);
    make_head(t, packet, unit_size, command);
    seal(packet, unit_size);
    return 30 + unit_size;
}

/* Fields of a kind with every number filled, also those that the kind does not have. */
void make_object(struct trial *t, struct ind_object *object, uint8_t kind)
{
    static const char numbers[] = "sapPlhAVoutmi";
    memset(object, 0, sizeof *object);
    object->kind = kind;
    for (const char *field = numbers; *field; field++) {
        uint64_t bits = draw(t);
        object->number[(int)*field] = (uint32_t)(*field == 'P' ? bits : *field == 'V' ? bits & 0xFFFF : bits & 0xFF);
    }
    if (chance(t, 80))
        make_label(t, object->label);
    else if (chance(t, 70))
        make_bad_label(t, object->label);
    else
        fill(t, object->label, 6);
}

/* Header fields of a good packet, to be given a command and a unit's size. */
void make_fields(struct trial *t, struct ind_packet *fields)
{
    memset(fields, 0, sizeof *fields);
    fields->serial = (uint16_t)draw(t);
    fields->user_version = any_byte(t);
    make_label(t, fields->label);
    fill(t, fields->source, 6);
    fill(t, fields->destination, 6);
}

/* A room around what is needed, which itself may be too large to have. */
size_t choose_room(struct trial *t, size_t needed, size_t all)
{
    if (chance(t, 8) || needed > all)
        return below(t, all + 1);
    size_t room = needed + 3 - below(t, chance(t, 50) ? 4 : 5);
    return room < all ? room : all;
}
