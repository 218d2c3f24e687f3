/* One thing wrong in a good unit or packet. */
#include "comparing.h"

/* Makes the label of one object bad, where the type has labels. */
void spoil_unit_label(struct trial *t, uint8_t *unit, size_t size)
{
    const struct made_type *type = made_type_of(unit[0]);
    if (type && type->label >= 0 && size == 2 + (size_t)unit[1] * type->size) {
        size_t i = below(t, unit[1]);
        make_bad_label(t, unit + 2 + i * type->size + (size_t)type->label);
    }
}

/* Another n: 0, one more or less, the largest and one above it, any. */
static void spoil_n(struct trial *t, uint8_t *unit)
{
    const struct made_type *type = made_type_of(unit[0]);
    unsigned largest = type ? type->most : 1;
    const unsigned choices[] = {0, unit[1] + 1u, unit[1] - 1u, largest, largest + 1, 255, any_byte(t)};
    unit[1] = (uint8_t)choices[below(t, 7)];
}

/* The objects fit n, but n is above the largest: only COUNT is wrong. */
static void make_one_too_many(struct trial *t, uint8_t *unit, size_t *size)
{
    const struct made_type *type = made_type_of(unit[0]);
    if (!type || type->type == 26)
        return;
    *size = make_unit(t, unit, type, type->most + 1u);
}

/* Where a unit is cut: a byte before its end, or anywhere behind its second byte, as often as not where an object ends. */
size_t choose_cut(struct trial *t, const uint8_t *unit, size_t size)
{
    const struct made_type *type = made_type_of(unit[0]);
    if (size < 4 || chance(t, 30))
        return size - 1;
    size_t cut = between(t, 2, size - 1);
    return type && chance(t, 50) ? cut - (cut - 2) % type->size : cut;
}

/* "SHORT's place is the first object not whole, from 0", of a good unit that is cut; all objects of a type but 26 have one
 * size, and of 26 there is but one object. */
size_t first_not_whole(const uint8_t *unit, size_t cut)
{
    return unit[0] == 26 ? 0 : (cut - 2) / made_type_of(unit[0])->size;
}

/* Bytes behind a unit: one, a few, or as many as leave an L that is not too long. */
void pad_unit(struct trial *t, uint8_t *unit, size_t *size)
{
    size_t most = *size < 1024 ? 1024 - *size : 1;
    size_t few = most < 20 ? most : 20;
    size_t added = chance(t, 40) ? 1 : between(t, 1, chance(t, 70) ? few : most);
    fill(t, unit + *size, added);
    *size += added;
}

/* The unit's memory must have room for a type's largest n and one object more, and for 1,024 bytes. */
void spoil_unit(struct trial *t, uint8_t *unit, size_t *size)
{
    switch (*size < 2 ? 7 : below(t, 11)) {
    case 0:
    case 1:
        spoil_unit_label(t, unit, *size);
        break;
    case 2:
        spoil_n(t, unit);
        break;
    case 3:
        unit[0] = made_types[below(t, TYPES)].type;
        break;
    case 4:
        unit[0] = any_byte(t);
        break;
    case 5:
        make_one_too_many(t, unit, size);
        break;
    case 6:
        *size = below(t, *size < 4 ? *size + 1 : 4);
        break;
    case 7:
    case 8:
        pad_unit(t, unit, size);
        break;
    default:
        *size = choose_cut(t, unit, *size);
    }
}

/* Spoils the unit of a packet and closes the packet around it again. */
static void spoil_inside(struct trial *t, uint8_t *packet, size_t *size)
{
    size_t unit_size = *size - 30;
    spoil_unit(t, packet + 27, &unit_size);
    packet[24] = (uint8_t)unit_size;
    packet[25] = (uint8_t)(unit_size >> 8);
    *size = 30 + unit_size;
}

/* Spoils the header, the sum being right again afterwards. */
static void spoil_head(struct trial *t, uint8_t *packet)
{
    switch (below(t, 4)) {
    case 0:
        packet[4] = chance(t, 50) ? any_byte(t) : (uint8_t)(2 * below(t, 2));
        break;
    case 1:
        packet[26] = any_byte(t);
        break;
    case 2:
        packet[26] = (uint8_t)below(t, 8);
        break;
    default:
        make_bad_label(t, packet + 6);
    }
}

/* Spoils the frame, after which nothing is made right again. */
static void spoil_frame(struct trial *t, uint8_t *packet, size_t *size)
{
    static const unsigned lengths[] = {1024, 1025, 1026, 1279, 1280, 2000, 0xFFFF, 0x4040};
    unsigned length = (unsigned)(*size - 30);
    switch (below(t, 8)) {
    case 0:
        packet[below(t, 2)] ^= (uint8_t)between(t, 1, 255);
        break;
    case 1:
        packet[*size - 1 - below(t, 2)] ^= (uint8_t)(1u << below(t, 8));
        break;
    case 2:
        packet[*size - 3] ^= (uint8_t)between(t, 1, 255);
        break;
    case 3:
        length = lengths[below(t, 8)];
        break;
    case 4:
        length += chance(t, 50) ? 1u : 0xFFFFu;
        break;
    case 5:
        packet[*size] = any_byte(t);
        *size += 1;
        break;
    case 6:
        packet[*size - 3]++;
        packet[*size - 1 - below(t, 2)]++;
        break;
    default:
        *size -= between(t, 1, *size < 40 ? *size : 40);
    }
    packet[24] = (uint8_t)length;
    packet[25] = (uint8_t)(length >> 8);
}

/* Takes a closed packet of 30 bytes or more. */
void spoil_packet(struct trial *t, uint8_t *packet, size_t *size)
{
    size_t kind = below(t, 10);
    if (kind < 5)
        spoil_inside(t, packet, size);
    if (kind >= 4 && kind < 8)
        spoil_head(t, packet);
    if (kind < 8)
        seal(packet, *size - 30);
    else
        spoil_frame(t, packet, size);
}
