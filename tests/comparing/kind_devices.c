/* Device tables: good ones of all sizes, each kind of fault, and parts that are there or nearly there. */
#include "comparing.h"

#include <stdlib.h>
#include <string.h>

enum { PART = 38, KEY = 7, TABLE_MOST = 2 + 80 * 2 + 2 + 1810 * PART };

/* A table in the making: its bytes, and where its parts begin. */
static struct {
    uint8_t bytes[TABLE_MOST + 8];
    size_t size;
    size_t systems;
    size_t parts;
    size_t first_part;
} table;

static int by_two(const void *a, const void *b)
{
    return memcmp(a, b, 2);
}

static int by_key(const void *a, const void *b)
{
    return memcmp(a, b, KEY);
}

/* Removes entries that are equal to the one before; gives back how many are left. */
static size_t without_doubles(uint8_t *entries, size_t count, size_t size, size_t key)
{
    size_t kept = 0;
    for (size_t i = 0; i < count; i++) {
        if (kept > 0 && memcmp(entries + (kept - 1) * size, entries + i * size, key) == 0)
            continue;
        memmove(entries + kept * size, entries + i * size, size);
        kept++;
    }
    return kept;
}

/* More entries than are wanted, as doubles will be removed. */
static size_t with_spare(size_t count)
{
    return count + count / 8;
}

static size_t at_most(size_t count, size_t most)
{
    return count < most ? count : most;
}

static void put_count(uint8_t *at, size_t count)
{
    at[0] = (uint8_t)count;
    at[1] = (uint8_t)(count >> 8);
}

static void make_systems(struct trial *t, size_t count)
{
    uint8_t *entries = table.bytes + 2;
    size_t drawn = with_spare(count);
    fill(t, entries, drawn * 2);
    for (size_t i = 0; i < drawn; i++)
        entries[2 * i] = chance(t, 90) ? entries[2 * i] % 4 : entries[2 * i];
    qsort(entries, drawn, 2, by_two);
    table.systems = at_most(without_doubles(entries, drawn, 2, 2), count);
    put_count(table.bytes, table.systems);
    table.first_part = 2 + table.systems * 2 + 2;
}

/* Parts of listed systems whose keys often differ in one byte only, the last or the first of the address. */
static void make_parts(struct trial *t, size_t count)
{
    uint8_t *entries = table.bytes + table.first_part;
    size_t drawn = with_spare(count);
    for (size_t i = 0; i < drawn; i++) {
        uint8_t *entry = entries + i * PART;
        fill(t, entry, PART);
        memcpy(entry, table.bytes + 2 + 2 * below(t, table.systems), 2);
        for (size_t byte = 2; byte < KEY; byte++)
            entry[byte] = chance(t, 90) ? (uint8_t)(entry[byte] % (byte == 3 ? 200 : 3)) : entry[byte];
    }
    qsort(entries, drawn, PART, by_key);
    table.parts = at_most(without_doubles(entries, drawn, PART, KEY), count);
    put_count(entries - 2, table.parts);
    table.size = table.first_part + table.parts * PART;
}

static void make_table(struct trial *t, size_t systems, size_t parts)
{
    make_systems(t, systems);
    make_parts(t, table.systems == 0 ? 0 : parts);
}

/* Mostly small tables, now and then one of 64 systems, or of up to 1,600 parts, around 1,024 among them. */
static void make_any_table(struct trial *t)
{
    static const size_t full[] = {1600, 1025, 1024};
    size_t systems = chance(t, 10) ? 64 : below(t, chance(t, 20) ? 65 : 6);
    size_t parts = chance(t, 2) ? full[below(t, 3)] : chance(t, 3) ? below(t, 1601) : below(t, 12);
    make_table(t, systems, parts);
}

static uint8_t *part_at(size_t i)
{
    return table.bytes + table.first_part + i * PART;
}

/* A part's key, and the same with one byte changed by one. */
static void find_near(struct trial *t, size_t part)
{
    uint8_t key[KEY];
    memcpy(key, part_at(part), KEY);
    both_find_place(t, table.bytes, table.size, key);
    key[below(t, KEY)] += (uint8_t)(chance(t, 50) ? 1 : 255);
    both_find_place(t, table.bytes, table.size, key);
}

/* Every part is sought in small tables, and now and then in a full one. */
void try_good_devices(struct trial *t)
{
    uint8_t key[KEY];
    bool full = t->turn % 4096 == 64;
    if (full)
        make_table(t, 64, 1600);
    else
        make_any_table(t);
    beside_earlier(t, table.bytes, table.size);
    for (size_t i = 0; i < table.parts && (full || table.parts <= 16); i++)
        find_near(t, i);
    if (table.parts > 0) {
        find_near(t, 0);
        find_near(t, table.parts - 1);
        find_near(t, below(t, table.parts));
    }
    fill(t, key, KEY);
    both_find_place(t, table.bytes, table.size, key);
}

/* Two neighbours change places, or one is made equal to the other. */
static void spoil_order(struct trial *t, uint8_t *entries, size_t count, size_t size, size_t key)
{
    uint8_t kept[PART];
    if (count < 2)
        return;
    uint8_t *one = entries + below(t, count - 1) * size;
    memcpy(kept, one, size);
    memcpy(one, one + size, chance(t, 50) ? size : key);
    if (chance(t, 60))
        memcpy(one + size, kept, size);
}

/* A part of a system that is not listed, one byte up or down, by which it may be out of order too. */
static void spoil_system(struct trial *t)
{
    const uint8_t by[] = {1, 255, (uint8_t)between(t, 1, 255)};
    if (table.parts > 0)
        part_at(below(t, table.parts))[below(t, 2)] += by[below(t, 3)];
}

static void spoil_count(struct trial *t, uint8_t *at, size_t count, size_t most)
{
    const size_t counts[] = {count + 1, count - 1, most, most + 1, 0, 0xFFFF, draw(t) & 0xFFFF, count + 256};
    put_count(at, counts[below(t, 8)]);
}

static void spoil_table(struct trial *t)
{
    switch (below(t, 10)) {
    case 0:
        spoil_count(t, table.bytes, table.systems, 64);
        break;
    case 1:
        spoil_count(t, part_at(0) - 2, table.parts, chance(t, 50) ? 1600 : 1024);
        break;
    case 2:
        spoil_order(t, table.bytes + 2, table.systems, 2, 2);
        break;
    case 3:
    case 4:
        spoil_order(t, part_at(0), table.parts, PART, KEY);
        break;
    case 5:
    case 6:
    case 7:
        spoil_system(t);
        break;
    case 8:
        fill(t, table.bytes + table.size, 3);
        table.size += between(t, 1, 3);
        break;
    default:
        table.size = below(t, table.size + 1);
    }
}

/* Cut at every place; what is behind the cut is not lent. */
static void cut_everywhere(struct trial *t)
{
    for (size_t size = 0; size <= table.size; size++)
        both_judge_table(t, table.bytes, size);
}

/* One entry above the limit, in its order and with all its bytes there: only MANY is wrong. */
static void make_one_too_many(struct trial *t)
{
    bool of_parts = chance(t, 30);
    make_table(t, of_parts ? 3 : 65, of_parts ? 1601 : 2);
}

/* Bytes at random behind small counts. */
static void make_random_table(struct trial *t)
{
    table.size = below(t, 300);
    fill(t, table.bytes, table.size + 4);
    put_count(table.bytes, below(t, 4));
    size_t behind = 2 + 2u * table.bytes[0];
    put_count(table.bytes + behind, below(t, 4));
}

void try_spoiled_devices(struct trial *t)
{
    uint8_t key[KEY] = {0};
    if (chance(t, 4)) {
        make_one_too_many(t);
    } else if (chance(t, 8)) {
        make_random_table(t);
    } else {
        make_any_table(t);
        if (table.size < 200 && chance(t, 10))
            cut_everywhere(t);
        if (table.parts > 0)
            memcpy(key, part_at(below(t, table.parts)), KEY);
        spoil_table(t);
        if (chance(t, 30) && table.size >= table.first_part)
            spoil_table(t);
    }
    beside_earlier(t, table.bytes, table.size);
    both_find_place(t, table.bytes, table.size, key);
}
