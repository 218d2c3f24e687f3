/* The plain twin's device table. */
#include <string.h>

#include "twin.h"

enum { SYSTEM_BYTES = 2, PART_BYTES = 38, KEY_BYTES = 7 };

typedef struct section {
    const uint8_t *entries;
    size_t count;
} section;

/* The count of a section and whether its entries are all there: CUT, MANY, CUT. */
static uint8_t open_section(const uint8_t *table, size_t length, size_t *at, size_t most, size_t size, section *s)
{
    if (length - *at < 2)
        return TRAWNOSZ_REFUSED_CUT;
    s->count = table[*at] + 256u * table[*at + 1];
    s->entries = table + *at + 2;
    if (s->count > most)
        return TRAWNOSZ_REFUSED_MANY;
    *at += 2;
    if (length - *at < s->count * size)
        return TRAWNOSZ_REFUSED_CUT;
    *at += s->count * size;
    return TRAWNOSZ_OK;
}

static int rises(const uint8_t *entry, size_t i, size_t size, size_t key)
{
    return i == 0 || memcmp(entry - size, entry, key) < 0;
}

static int is_listed(const section *systems, const uint8_t *part)
{
    for (size_t i = 0; i < systems->count; i++)
        if (systems->entries[2 * i] == part[0] && systems->entries[2 * i + 1] == part[1])
            return 1;
    return 0;
}

static trawnosz_table refused(uint8_t number, size_t place)
{
    trawnosz_table table = {{number, place}, 0, 0};
    return table;
}

static trawnosz_table judge(const uint8_t *table, size_t length, section *systems, section *parts)
{
    size_t at = 0;
    uint8_t bad = open_section(table, length, &at, TRAWNOSZ_MOST_SYSTEMS, SYSTEM_BYTES, systems);
    if (bad)
        return refused(bad, 0);
    for (size_t i = 0; i < systems->count; i++)
        if (!rises(systems->entries + i * SYSTEM_BYTES, i, SYSTEM_BYTES, SYSTEM_BYTES))
            return refused(TRAWNOSZ_REFUSED_ORDER, i);
    bad = open_section(table, length, &at, TRAWNOSZ_MOST_PARTS, PART_BYTES, parts);
    if (bad)
        return refused(bad, 0);
    for (size_t i = 0; i < parts->count; i++) {
        const uint8_t *part = parts->entries + i * PART_BYTES;
        if (!rises(part, i, PART_BYTES, KEY_BYTES))
            return refused(TRAWNOSZ_REFUSED_ORDER, systems->count + i);
        if (!is_listed(systems, part))
            return refused(TRAWNOSZ_REFUSED_ORPHAN, systems->count + i);
    }
    if (at != length)
        return refused(TRAWNOSZ_REFUSED_TAIL, 0);
    trawnosz_table good = {{TRAWNOSZ_OK, 0}, systems->count, parts->count};
    return good;
}

trawnosz_table twin_judge_table(const uint8_t *table, size_t table_length)
{
    section systems, parts;
    return judge(table, table_length, &systems, &parts);
}

trawnosz_found twin_find_part(const uint8_t *table, size_t table_length, const uint8_t key[7])
{
    section systems, parts;
    trawnosz_found part = {judge(table, table_length, &systems, &parts).verdict, 0, 0};
    if (part.verdict.number)
        return part;
    for (size_t i = 0; i < parts.count; i++) {
        const uint8_t *entry = parts.entries + i * PART_BYTES;
        if (memcmp(entry, key, KEY_BYTES) == 0) {
            part.from = (size_t)(entry - table) + KEY_BYTES;
            part.to = part.from + TRAWNOSZ_DESCRIPTION_BYTES;
            return part;
        }
    }
    part.verdict.number = TRAWNOSZ_REFUSED_UNLISTED;
    return part;
}
